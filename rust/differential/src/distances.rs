//! The distance call against the reference's `Point::distance_squared` and `Point::distance`.

use std::fmt;

use mujou_reference::types as reference;
use twillharbor::{Point, distance};

use crate::pairs::{self, KINDS, Pair, described, pair};
use crate::plate_case::numbers;
use crate::run::Plan;

/// What a distance call answers.
#[derive(Debug, Clone, Copy, PartialEq, Eq)]
pub enum Answer {
    /// The bits of the squared and of the plain distance.
    Apart(u64, u64),
    /// The number and the place of a refusal.
    Refused(u32, u32),
}

impl fmt::Display for Answer {
    fn fmt(&self, f: &mut fmt::Formatter<'_>) -> fmt::Result {
        match self {
            Self::Apart(squared, plain) => write!(f, "squared {squared:016x} plain {plain:016x}"),
            Self::Refused(number, place) => write!(f, "refusal {number} place {place}"),
        }
    }
}

/// Compares the plan's pairs, then damaged ones, one for each sixteen of them.
pub fn run(plan: Plan) -> bool {
    println!("distances: {} pairs, seed {}", plan.pairs, plan.seed);
    pairs::run(plan, &KINDS, pair, compare)
}

fn compare(pair: Pair) -> Result<(), String> {
    let (library, expected) = (answer(pair), expected(pair));
    if library == expected {
        return Ok(());
    }
    Err(described(pair, &format!("library {library}, reference {expected}")))
}

/// The proved library's answer.
fn answer([ax, ay, bx, by]: Pair) -> Answer {
    match distance(Point { x: ax, y: ay }, Point { x: bx, y: by }) {
        Ok(apart) => Answer::Apart(apart.squared.to_bits(), apart.plain.to_bits()),
        Err(refusal) => {
            let (number, place) = numbers(refusal);
            Answer::Refused(number, place)
        }
    }
}

/// The reference's answer. It refuses nothing: a refusal here is document 01's rule, tested
/// on the bits, so in another way than the library does.
pub fn expected(pair: Pair) -> Answer {
    const LIMIT: u64 = (1023 + 31) << 52;
    let off = |c: &f64| c.to_bits() & (u64::MAX >> 1) > LIMIT;
    if let Some(place) = pair.iter().position(off) {
        return Answer::Refused(4, place as u32);
    }
    let [ax, ay, bx, by] = pair;
    let (a, b) = (reference::Point::new(ax, ay), reference::Point::new(bx, by));
    Answer::Apart(a.distance_squared(b).to_bits(), a.distance(b).to_bits())
}
