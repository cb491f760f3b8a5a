//! Plates of recorded rows whose lengths tell one way of adding them up from another.

use twillharbor::Size;

use super::{Contours, plate_of};
use crate::plates::{LIMIT, Plate};

const PART: f64 = 1.0 / 1_024.0;
const SEVEN: f64 = 7.0 * PART;
const LEAST: f64 = f64::from_bits(1);
const BELOW: f64 = 0.75_f64.next_down();
const ONE: &[(f64, f64)] = &[(0.0, 0.0)];

/// Contours, and the lengths of the cuts, of the back-steps, and of the jumps and touches.
const PLATES: [(Contours, [u64; 3]); 12] = [
    // each pair is rounded down: .1, .2 and .1 are 102.4, 204.8 and 102.4
    (
        &[&[(0.0, 0.0), (0.0, 0.1), (0.0, 0.3)], &[(0.0, 0.3), (0.1, 0.3)], &[(0.0, -0.2)]],
        [102 + 204 + 102, 102 + 204 + 102, 204],
    ),
    // none reaches a 1,024th, together they do
    (&[&[(0.0, 0.0), (PART / 2.0, 0.0), (PART, 0.0), (PART, PART / 2.0)]], [0, 0, 0]),
    // seven 1,024ths, and a float's step less and more
    (&[&[(0.0, 0.0), (SEVEN, 0.0)]], [7, 0, 0]),
    (&[&[(0.0, 0.0), (0.0, SEVEN.next_down())]], [6, 0, 0]),
    (&[&[(0.0, 0.0), (SEVEN.next_up(), 0.0)]], [7, 0, 0]),
    // a squared distance rounded below 1.25 × 1.25, whose root is rounded up to 1.25, and one whose
    // root is not
    (&[ONE, &[(BELOW, 1.0)]], [0, 0, 1_280]),
    (&[ONE, &[(BELOW.next_down().next_down(), 1.0)]], [0, 0, 1_279]),
    // each sum beyond 32 bits
    (
        &[&[(-LIMIT, -LIMIT), (LIMIT, LIMIT), (-LIMIT, LIMIT)], &[(-LIMIT, -LIMIT)]],
        [2_896_309_375 + 2_048_000_000, 2_896_309_375 + 2_048_000_000, 0],
    ),
    (
        &[&[(-LIMIT, -LIMIT)], &[(-LIMIT, LIMIT)], &[(LIMIT, LIMIT)], &[(LIMIT, -LIMIT)]],
        [0, 2_048_000_000, 3 * 2_048_000_000],
    ),
    // too near to have a length
    (&[&[(0.0, 0.0), (LEAST, 0.0)], &[(1e-200, 1e-200)], &[(1e-4, 0.0)]], [0, 0, 0]),
    // equal points, and 0 and -0
    (&[&[(0.0, 0.0), (-0.0, 0.0), (0.0, -0.0)], &[(-0.0, -0.0)], &[(3.0, 4.0)]], [0, 0, 5_120]),
    // a step back over a step back
    (
        &[&[(0.0, 0.0), (4.0, 0.0)], &[(0.0, 1.0)], &[(4.0, 1.5)]],
        [4_096, 4_096 + 1_024 + 4_096, 1_024 + 1_536],
    ),
];

/// All are for Inside, with the centre (0,0).
pub fn plates() -> Vec<Plate> {
    PLATES.iter().map(|&(contours, _)| plate_of(contours, Size::default())).collect()
}

#[cfg(test)]
mod tests {
    use twillharbor::StartPointStrategy::Inside;

    use super::{PLATES, plates};
    use crate::marked_paths::is_over_back_step;
    use crate::reference::retrace;

    /// Worked out by hand from document 02's sentences.
    #[test]
    fn lengths_are_those_that_the_rows_are_for() {
        for (place, (plate, (_, due))) in plates().iter().zip(PLATES).enumerate() {
            let retrace = retrace(plate, Inside, usize::MAX).unwrap().unwrap();
            assert_eq!(retrace.lengths, due, "row {place}: {:?}", retrace.marks);
        }
    }

    #[test]
    fn the_last_steps_back_over_a_step_back() {
        let plate = plates().pop().unwrap();
        let marks = retrace(&plate, Inside, usize::MAX).unwrap().unwrap().marks;
        let over_back_step = marks.iter().filter(|&&mark| is_over_back_step(mark, &marks));
        assert_eq!(over_back_step.count(), 1, "{marks:?}");
    }
}
