//! The centre against the reference's `image_center`.

use harness::grid;
use harness::random::Random;
use mujou_reference::join::door;
use mujou_reference::types::Dimensions;

use crate::run::{self, Plan};

/// How large width and height are.
#[derive(Debug, Clone, Copy)]
enum Kind {
    Any,
    FewDigits,
    Edges,
}

const KINDS: [(Kind, &str); 3] =
    [(Kind::Any, "any u32"), (Kind::FewDigits, "few digits"), (Kind::Edges, "edges")];

/// Compares the plan's sizes.
pub fn run(plan: Plan) -> bool {
    println!("centers: {} sizes, seed {}", plan.pairs, plan.seed);
    run::run(plan, &KINDS, case)
}

fn case(kind: Kind, random: &mut Random) -> Result<(), String> {
    let [width, height] = [(); 2].map(|()| match kind {
        Kind::Any => random.bits() as u32,
        Kind::FewDigits => random.bits() as u32 >> random.below(32),
        Kind::Edges => {
            let edge = random.pick(&[0, 1, 1 << 24, 1 << 31, u32::MAX]);
            edge.saturating_add_signed(random.between(-1, 1) as i32)
        }
    });
    let ours = grid::center(width, height);
    let theirs = door::image_center(Dimensions { width, height });
    if [ours.x, ours.y].map(f64::to_bits) == [theirs.x, theirs.y].map(f64::to_bits) {
        return Ok(());
    }
    Err(format!("{width} by {height}: library {ours:?}, reference {theirs:?}"))
}

#[cfg(test)]
mod tests {
    use super::{KINDS, case};
    use crate::run::assert_every_kind_agrees;

    #[test]
    fn every_kind_agrees() {
        assert_every_kind_agrees(&KINDS, 2_000, case);
    }
}
