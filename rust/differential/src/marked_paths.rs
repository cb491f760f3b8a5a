//! Paths with marks: the retrace call's, and what a path has that draws contours.

use twillharbor::{Refusal, StartPointStrategy, retrace_work};

use crate::decoder::Marked;
use crate::plates::Plate;
use crate::rule::retrace::{BACK_STEP, JUMP, START, TOUCH};

/// The path of the retrace call for a sound plate, unless it has more points than that.
pub fn retraced(
    plate: &Plate,
    strategy: StartPointStrategy,
    most: usize,
) -> Result<Option<Marked>, String> {
    let Plate { points, lengths, layers, size } = plate;
    let (mut path, mut marks) = (vec![0.0; 2 * most], vec![0; 2 * most]);
    let mut work = vec![0; retrace_work(most, points.len() / 2, lengths.len())];
    let mut distances = vec![0.0; lengths.len()];
    let outcome = twillharbor::Plate::with_layers(points, lengths, layers).retrace_into(
        *size,
        strategy,
        &mut path,
        &mut marks,
        &mut work,
        &mut distances,
    );
    match outcome {
        Ok(totals) => {
            path.truncate(2 * totals.counts.points);
            marks.truncate(2 * totals.counts.points);
            Ok(Some(Marked { path, marks }))
        }
        Err(Refusal::Full { .. }) => Ok(None),
        Err(refusal) => Err(format!("retrace of a sound plate: {refusal}")),
    }
}

/// What a path can have that draws contours.
#[derive(Debug, Clone, Copy, PartialEq, Eq)]
pub enum Feature {
    EnteredBetween,
    Touched,
    Jumped,
    SteppedBack,
    SteppedBackOverBackStep,
    OtherZero,
}

/// What the path has that draws contours of these lengths.
pub fn features(path: &[f64], marks: &[u32], lengths: &[u32]) -> Vec<Feature> {
    let (path, _) = path.as_chunks::<2>();
    let (marks, _) = marks.as_chunks::<2>();
    let has = |kind| marks.iter().any(|&[of, _]| of == kind);
    let is_end = is_end(lengths);
    let between = landings(marks).iter().any(|&vertex| !is_end[vertex as usize]);
    let over_back_step = marks.iter().any(|&mark| is_over_back_step(mark, marks));
    let bits = |place: usize| path[place].map(f64::to_bits);
    let mut later = 1..marks.len();
    let other_zero = later.any(|place| marks[place][0] == TOUCH && bits(place - 1) != bits(place));
    let features = [
        (Feature::EnteredBetween, between),
        (Feature::Touched, has(TOUCH)),
        (Feature::Jumped, has(JUMP)),
        (Feature::SteppedBack, has(BACK_STEP)),
        (Feature::SteppedBackOverBackStep, over_back_step),
        (Feature::OtherZero, other_zero),
    ];
    features.into_iter().filter(|&(_, is)| is).map(|(feature, _)| feature).collect()
}

/// Of each vertex whether it is an end of its contour.
fn is_end(lengths: &[u32]) -> Vec<bool> {
    let mut is_end = Vec::new();
    for length in lengths.iter().map(|&length| length as usize).filter(|&length| length > 0) {
        let first = is_end.len();
        is_end.resize(first + length, false);
        (is_end[first], is_end[first + length - 1]) = (true, true);
    }
    is_end
}

/// The vertices at which contours are entered.
pub fn landings(marks: &[[u32; 2]]) -> Vec<u32> {
    let landings = marks.iter().filter(|&&[kind, _]| matches!(kind, START | JUMP | TOUCH));
    landings.map(|&[_, vertex]| vertex).collect()
}

/// Whether the mark is a back-step over a back-step of the path.
pub fn is_over_back_step([kind, reversed]: [u32; 2], marks: &[[u32; 2]]) -> bool {
    kind == BACK_STEP && marks[reversed as usize + 1][0] == BACK_STEP
}

#[cfg(test)]
mod tests {
    use super::{Feature, features};

    #[test]
    fn a_path_has_what_it_has() {
        use Feature::*;
        let along = [0.0, 0.0, 1.0, 0.0, 0.0, 0.0, 1.0, 0.0];
        let back = [0, 0, 1, 0, 2, 0, 2, 1];
        assert_eq!(features(&along, &back, &[2]), [SteppedBack, SteppedBackOverBackStep]);
        assert_eq!(features(&along[..6], &back[..6], &[2]), [SteppedBack]);
        assert_eq!(features(&along[..4], &[0, 0, 3, 1], &[1, 0, 1]), [Jumped]);
        assert_eq!(features(&[0.0; 4], &[0, 0, 4, 2], &[1, 3]), [EnteredBetween, Touched]);
        assert_eq!(features(&[0.0, 0.0, -0.0, 0.0], &[0, 0, 4, 1], &[1, 1]), [Touched, OtherZero]);
        assert_eq!(features(&[], &[], &[0]), []);
    }
}
