//! Plates of recorded rows whose contours meet, or all but meet.

use twillharbor::Size;

use super::{Contours, plate_of};
use crate::plates::Plate;

/// Of the plates with these numbers the path is cut off before and after its first touch too.
pub const CUT_OFF: [usize; 2] = [0, 2];

/// The plates. All are for Inside, with the centre (0,0).
pub fn plates() -> Vec<Plate> {
    const LINE: &[(f64, f64)] = &[(0.0, 0.0), (4.0, 0.0), (8.0, 0.0)];
    const ACROSS: &[(f64, f64)] = &[(4.0, -4.0), (4.0, 0.0), (4.0, 4.0)];
    const LEAST: f64 = f64::from_bits(1);
    const NEXT: f64 = 1.0_f64.next_up();
    const LIMIT: f64 = 1_000_000.0;
    let plates: [(Contours, &[u32]); 25] = [
        // an end on an end, forward and in reverse
        (&[&[(0.0, 0.0), (4.0, 0.0)], &[(4.0, 0.0), (8.0, 0.0)]], &[0, 0]),
        (&[&[(0.0, 0.0), (4.0, 0.0)], &[(8.0, 0.0), (4.0, 0.0)]], &[0, 0]),
        // a middle on a middle, after a walk back: the path's own end is another point
        (&[LINE, ACROSS], &[0, 0]),
        // an end on a middle, a middle on an end
        (&[LINE, &[(4.0, 0.0), (4.0, 3.0)]], &[0, 0]),
        (&[&[(0.0, 0.0), (4.0, 0.0)], ACROSS], &[0, 0]),
        // four contours at one point
        (
            &[
                &[(0.0, 0.0), (2.0, 0.0)],
                &[(2.0, 0.0), (2.0, 2.0)],
                &[(2.0, 0.0), (4.0, 0.0)],
                &[(2.0, -2.0), (2.0, 0.0)],
            ],
            &[0, 0, 0, 0],
        ),
        // closed contours that have a corner in common
        (
            &[
                &[(0.0, 0.0), (2.0, 0.0), (2.0, 2.0), (0.0, 0.0)],
                &[(2.0, 2.0), (4.0, 2.0), (4.0, 4.0), (2.0, 2.0)],
            ],
            &[0, 0],
        ),
        // a point that was walked back over, and a step back over a touch
        (&[LINE, &[(0.0, 0.0)], &[(4.0, 0.0)]], &[0, 1, 2]),
        // single points on top of one another, and a cut between equal points
        (&[&[(1.0, 1.0)], &[(1.0, 1.0), (1.0, 1.0)], &[(1.0, 1.0)]], &[0, 0, 0]),
        // a skipped contour is no touch
        (&[&[(0.0, 0.0), (4.0, 0.0)], &[], &[(4.0, 0.0)]], &[0, 0, 0]),
        // 0 and -0 are equal, along both axes and along either
        (&[&[(0.0, -0.0)], &[(-0.0, 0.0), (-0.0, -0.0)], &[(0.0, 0.0)]], &[0, 0, 0]),
        (&[&[(-0.0, 5.0), (3.0, 5.0)], &[(0.0, 5.0)]], &[0, 0]),
        (&[&[(5.0, 0.0), (5.0, 3.0)], &[(5.0, -0.0)]], &[0, 0]),
        // equality of coordinates, not of distances: 0 and 2^-1074, along either axis
        (&[&[(0.0, 0.0)], &[(LEAST, 0.0)], &[(LEAST, LEAST)], &[(-LEAST, LEAST)]], &[0; 4]),
        // the last path point at squared distance 0 is left, though an earlier one is equal
        (&[&[(0.0, 0.0), (1e-200, 0.0)], &[(0.0, 0.0)]], &[0, 0]),
        (&[&[(1e-200, 0.0), (0.0, 0.0)], &[(0.0, -0.0)]], &[0, 0]),
        (&[&[(0.0, 0.0)], &[(0.0, 1e-200)], &[(0.0, 1e-200)], &[(0.0, 0.0)]], &[0; 4]),
        // equal along one axis alone; with the axes exchanged, then equal but for a sign
        (&[&[(3.0, 1.0)], &[(3.0, 2.0)], &[(4.0, 2.0)]], &[0, 0, 0]),
        (&[&[(1.0, 2.0)], &[(2.0, 1.0)], &[(2.0, -1.0)], &[(-2.0, -1.0)]], &[0; 4]),
        // the next number
        (&[&[(1.0, 1.0)], &[(NEXT, 1.0)], &[(NEXT, NEXT)], &[(NEXT, NEXT)]], &[0; 4]),
        // at the limit, and at the least numbers
        (&[&[(LIMIT, -LIMIT)], &[(LIMIT, -LIMIT)]], &[0, 0]),
        (&[&[(LEAST, -LEAST)], &[(LEAST, -LEAST)]], &[0, 0]),
        // a cut and a step back between equal points
        (&[&[(0.0, 0.0), (4.0, 0.0), (4.0, 0.0)], &[(0.0, 1.0)]], &[0, 0]),
        // contours that meet where neither end nor sample lies
        (
            &[&[(0.0, 0.0), (25.0, 0.0), (50.0, 0.0)], &[(24.5, 0.25), (25.0, 0.0), (24.5, 0.5)]],
            &[0, 0],
        ),
        // a jump, a touch after it and a jump again
        (&[&[(0.0, 0.0)], &[(3.0, 0.0), (3.0, 4.0)], &[(3.0, 4.0)], &[(4.0, 4.0)]], &[0; 4]),
    ];
    let plates =
        plates.map(|(contours, layers)| plate_of(contours, Size::default()).with_layers(layers));
    plates.to_vec()
}

#[cfg(test)]
mod tests {
    use twillharbor::StartPointStrategy::Inside;

    use super::{CUT_OFF, plates};
    use crate::reference::retrace;

    /// Worked out by hand from document 02's sentences.
    #[test]
    fn marks_are_those_that_the_rows_are_for() {
        let due: [&[[u32; 2]]; 25] = [
            &[[0, 0], [1, 0], [4, 2], [1, 2]],
            &[[0, 0], [1, 0], [4, 3], [1, 2]],
            &[[0, 0], [1, 0], [1, 1], [2, 1], [4, 4], [1, 4], [2, 4], [1, 3]],
            &[[0, 0], [1, 0], [1, 1], [2, 1], [4, 3], [1, 3]],
            &[[0, 0], [1, 0], [4, 3], [1, 3], [2, 2], [1, 2]],
            &[[0, 0], [1, 0], [4, 2], [1, 2], [2, 2], [4, 4], [1, 4], [2, 5], [4, 7], [1, 6]],
            &[[0, 0], [1, 0], [1, 1], [1, 2], [2, 2], [4, 4], [1, 4], [1, 5], [1, 6]],
            &[[0, 0], [1, 0], [1, 1], [2, 1], [2, 0], [4, 3], [2, 4], [2, 3], [4, 4]],
            &[[0, 0], [4, 1], [1, 1], [4, 3]],
            &[[0, 0], [1, 0], [4, 2]],
            &[[0, 0], [4, 1], [1, 1], [4, 3]],
            &[[0, 0], [1, 0], [2, 0], [4, 2]],
            &[[0, 0], [1, 0], [2, 0], [4, 2]],
            &[[0, 0], [3, 1], [3, 2], [3, 3]],
            &[[0, 0], [1, 0], [3, 2]],
            &[[0, 0], [1, 0], [4, 2]],
            &[[0, 0], [3, 1], [4, 2], [3, 3]],
            &[[0, 0], [3, 1], [3, 2]],
            &[[0, 0], [3, 1], [3, 2], [3, 3]],
            &[[0, 0], [3, 1], [3, 2], [4, 3]],
            &[[0, 0], [4, 1]],
            &[[0, 0], [4, 1]],
            &[[0, 0], [1, 0], [1, 1], [2, 1], [2, 0], [3, 3]],
            &[[0, 0], [1, 0], [1, 1], [2, 1], [3, 3], [1, 3], [1, 4]],
            &[[0, 0], [3, 1], [1, 1], [4, 3], [3, 4]],
        ];
        for (place, (plate, due)) in plates().iter().zip(due).enumerate() {
            let retrace = retrace(plate, Inside, usize::MAX).unwrap().unwrap();
            assert_eq!(retrace.marks, due, "row {place}");
        }
    }

    #[test]
    fn paths_that_are_cut_off_have_a_touch_that_more_follows() {
        for place in CUT_OFF {
            let marks = retrace(&plates()[place], Inside, usize::MAX).unwrap().unwrap().marks;
            let touch = marks.iter().position(|mark| mark[0] == 4);
            assert!(touch.is_some_and(|touch| touch + 1 < marks.len()), "{marks:?}");
        }
    }
}
