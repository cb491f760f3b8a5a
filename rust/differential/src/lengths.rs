//! The safe interface's length of a pair of points against the reference's distance, times 1,024
//! and rounded down, and against whole numbers.

use harness::random::Random;
use twillharbor::{Point, pair_length};

use crate::distances::{Answer, expected};
use crate::floats::{nudged, scaled, signed};
use crate::pairs::{self, Pair, described};
use crate::plate_case::numbers;
use crate::rule::{Refused, lengths};
use crate::run::Plan;

/// Four times so many 1,024ths are within the distance call's limit.
const DIGITS: i64 = 38;

/// A kind of pair.
#[derive(Debug, Clone, Copy)]
enum Kind {
    Of(pairs::Kind),
    Along,
    Slanting,
}

/// Compares the plan's pairs, then damaged ones, one for each sixteen of them.
pub fn run(plan: Plan) -> bool {
    println!("lengths: {} pairs, seed {}", plan.pairs, plan.seed);
    pairs::run(plan, &kinds(), pair, compare)
}

fn kinds() -> Vec<(Kind, &'static str)> {
    let mut kinds: Vec<_> =
        pairs::KINDS.into_iter().map(|(kind, name)| (Kind::Of(kind), name)).collect();
    kinds.push((Kind::Along, "along an axis, a whole number of 1,024ths or next to one"));
    kinds.push((Kind::Slanting, "slanting, a whole number of 1,024ths or next to one"));
    kinds
}

fn pair(kind: Kind, random: &mut Random) -> Pair {
    match kind {
        Kind::Of(kind) => pairs::pair(kind, random),
        Kind::Along => placed(whole_step(false, DIGITS, random), random),
        Kind::Slanting => placed(whole_step(true, DIGITS, random), random),
    }
}

/// A step of a whole number of 1,024ths, of so many digits at most: along an axis, or that many times
/// (3,4). Most often each part is a float's step or two longer or shorter.
pub fn whole_step(is_slanting: bool, digits: i64, random: &mut Random) -> [f64; 2] {
    let times = 1 + (random.bits() >> random.between(64 - digits, 63));
    let parts = if is_slanting { [3 * times, 4 * times] } else { [times, 0] };
    parts.map(|part| {
        let step = scaled(part as f64, -10);
        let nudge = if part == 0 { 0 } else { random.between(-2, 2) };
        signed(random, nudged(step, nudge))
    })
}

/// A pair with these differences, exactly.
fn placed([dx, dy]: [f64; 2], random: &mut Random) -> Pair {
    let [dx, dy] = if random.one_in(2) { [dx, dy] } else { [dy, dx] };
    random.pick(&[[0.0, -0.0, dx, dy], [dx, dy, 0.0, 0.0], [dx, 0.0, 0.0, dy]])
}

/// Either way.
fn compare(pair: Pair) -> Result<(), String> {
    let [ax, ay, bx, by] = pair;
    let (there, back) = (one_way(pair)?, one_way([bx, by, ax, ay])?);
    if there.is_ok() && there != back {
        return Err(described(pair, &format!("{there:?}, and the other way {back:?}")));
    }
    Ok(())
}

/// The length, or the refusal.
fn one_way(pair: Pair) -> Result<Result<u64, Refused>, String> {
    let [ax, ay, bx, by] = pair;
    let is = pair_length(Point { x: ax, y: ay }, Point { x: bx, y: by }).map_err(numbers);
    let (reference, whole) = match expected(pair) {
        Answer::Refused(number, place) => (Err((number, place)), Err((number, place))),
        Answer::Apart(_, plain) => (
            Ok((f64::from_bits(plain) * 1_024.0).floor() as u64),
            Ok(lengths::pair([ax, ay], [bx, by])),
        ),
    };
    if is == reference && is == whole {
        return Ok(is);
    }
    let text =
        format!("library {is:?}, by the reference {reference:?}, by whole numbers {whole:?}");
    Err(described(pair, &text))
}

#[cfg(test)]
mod tests {
    use harness::random::Random;

    use super::{Kind, compare, kinds, pair};
    use crate::mujou::distance;
    use crate::pairs::{DAMAGES, LIMIT, damaged};
    use crate::run::assert_every_kind_agrees;

    #[test]
    fn every_kind_agrees() {
        assert_every_kind_agrees(&kinds(), 2_000, |kind, random| compare(pair(kind, random)));
        assert_every_kind_agrees(&DAMAGES, 200, |damage, random| compare(damaged(damage, random)));
    }

    /// How many of 10,000 are a whole number of 1,024ths, one float's step short of one, and one
    /// step more.
    #[test]
    fn whole_numbers_are_met_and_just_missed() {
        let mut random = Random::new(2);
        for kind in [Kind::Along, Kind::Slanting] {
            let mut met = [0; 3];
            for _ in 0..10_000 {
                let pair = pair(kind, &mut random);
                assert!(pair.iter().all(|c| c.abs() <= LIMIT));
                let [ax, ay, bx, by] = pair;
                let apart = distance([ax, ay], [bx, by]);
                let is_whole = |d: f64| (d * 1_024.0).fract() == 0.0;
                let near = [apart, apart.next_up(), apart.next_down()];
                near.iter().zip(&mut met).for_each(|(&d, met)| *met += u32::from(is_whole(d)));
            }
            assert!(met.iter().all(|&met| met > 1_000), "{kind:?}: {met:?}");
        }
    }
}
