//! Plates of recorded rows that document 02's layers decide.

use twillharbor::Size;

use super::{Contours, plate_of};
use crate::plates::Plate;

/// How many of the sound plates are about the start: the strategy matters.
pub const STARTING: usize = 8;

/// Plates that are not refused.
pub fn sound() -> Vec<Plate> {
    const POINTS: Contours = &[&[(0.0, 0.0)], &[(1.0, 0.0)], &[(2.0, 0.0)]];
    const IN_A_ROW: Contours = &[
        &[(0.0, 0.0)],
        &[(1.0, 0.0)],
        &[(2.0, 0.0)],
        &[(3.0, 0.0)],
        &[(4.0, 0.0)],
        &[(5.0, 0.0)],
        &[(6.0, 0.0)],
        &[(7.0, 0.0)],
        &[(8.0, 0.0)],
        &[(9.0, 0.0)],
        &[(10.0, 0.0)],
        &[(11.0, 0.0)],
    ];
    let plates: [(Contours, &[u32], u32, u32); 16] = [
        // the nearer contour of a higher layer waits
        (POINTS, &[0, 1, 0], 0, 0),
        // one layer for all is as none
        (POINTS, &[15, 15, 15], 0, 0),
        // the layers alone decide
        (POINTS, &[15, 7, 0], 0, 0),
        (IN_A_ROW, &[15, 14, 13, 12, 11, 10, 9, 8, 7, 6, 5, 4], 0, 0),
        (&IN_A_ROW[..6], &[3, 0, 3, 0, 3, 0], 0, 0),
        // the start is of the lowest layer: nearer and farther ends wait
        (POINTS, &[15, 3, 7], 0, 0),
        (&[&[(0.0, 0.0), (9.0, 0.0)], &[(1.0, 0.0), (8.0, 0.0)]], &[1, 0], 2, 0),
        // an end of a higher layer as far from the centre does not start, nor does it come next
        (&[&[(0.0, 1.0)], &[(1.0, 0.0)], &[(-1.0, 0.0)], &[(0.0, -1.0)]], &[1, 0, 1, 0], 0, 0),
        // no contour waits for a skipped one of layer 0
        (&[&[(0.0, 0.0)], &[], &[(1.0, 0.0)], &[(2.0, 0.0)]], &[5, 0, 9, 5], 0, 0),
        (&[&[], &[(0.0, 0.0), (4.0, 0.0)], &[]], &[0, 15, 15], 10, 10),
        // a plate without points has layers too
        (&[&[], &[]], &[15, 0], 0, 0),
        // plate D, reversed by its layers
        (&[&[(0.0, 0.0), (4.0, 0.0)], &[(4.0, 1.0), (8.0, 1.0)]], &[1, 0], 8, 2),
        // plates E and F, whose other contour comes first
        (&[&[(0.0, 0.0), (4.0, 0.0), (8.0, 0.0)], &[(0.0, 1.0)]], &[2, 1], 0, 0),
        (&[&[(4.0, 0.0)], &[(0.0, 1.0), (4.0, 1.0), (8.0, 1.0)]], &[2, 1], 8, 0),
        // the way back to a contour that waited for its layer goes over other contours
        (
            &[&[(0.0, 0.0), (4.0, 0.0)], &[(0.0, 0.5), (0.0, 2.0)], &[(4.0, 1.0), (8.0, 1.0)]],
            &[0, 1, 0],
            0,
            0,
        ),
        // the cache of a contour that waits for its layer is updated all the same
        (
            &[&[(0.0, 0.0), (4.0, 0.0)], &[(6.0, 3.0), (1.0, 3.0)], &[(5.0, 0.0), (6.0, 2.0)]],
            &[4, 9, 4],
            0,
            0,
        ),
    ];
    let plates = plates.map(|(contours, layers, width, height)| {
        plate_of(contours, Size { width, height }).with_layers(layers)
    });
    plates.to_vec()
}

/// Plates that are refused for their layers, or whose layers are bad and which are refused for
/// something else.
pub fn refused() -> Vec<Plate> {
    const NAN: f64 = f64::NAN;
    let plates: [(&[f64], &[u32], &[u32]); 20] = [
        // too few, too many, none at all, and too many where there is no contour
        (&[0.0, 0.0, 1.0, 1.0], &[1, 1], &[0]),
        (&[0.0, 0.0, 1.0, 1.0], &[1, 1], &[0, 0, 0]),
        (&[0.0, 0.0, 1.0, 1.0], &[1, 1], &[]),
        (&[], &[], &[0]),
        // above 15: the first of them, and bits that a narrower number would lose
        (&[0.0, 0.0, 1.0, 1.0], &[1, 1], &[0, 16]),
        (&[0.0, 0.0, 1.0, 1.0, 2.0, 2.0], &[1, 1, 1], &[15, 17, 16]),
        (&[0.0, 0.0], &[1], &[256]),
        (&[0.0, 0.0], &[1], &[1 << 31]),
        (&[0.0, 0.0, 1.0, 1.0], &[1, 1], &[u32::MAX, 0]),
        // of a skipped contour
        (&[0.0, 0.0], &[0, 1, 0], &[16, 0, 0]),
        (&[0.0, 0.0], &[0, 1, 0], &[0, 0, 99]),
        // the length before a layer
        (&[0.0, 0.0, 1.0, 1.0], &[1, 1], &[16]),
        (&[0.0, 0.0, 1.0, 1.0], &[1, 1], &[16, 0, 0]),
        // 3 before 13
        (&[0.0, 0.0, 1.0], &[1], &[16]),
        (&[0.0, 0.0], &[2], &[]),
        // 2 before 13
        (&[], &[65_536, 1], &[0]),
        // 13 before 4, for both its reasons
        (&[NAN, 0.0], &[1], &[16]),
        (&[0.0, 0.0, 0.0, NAN], &[1, 1], &[0, 0, 0]),
        // 13 before 7
        (&[], &[0, 0], &[15, 16]),
        (&[], &[0], &[]),
    ];
    let plates = plates.map(|(points, lengths, layers)| {
        Plate::new(points.to_vec(), lengths.to_vec(), Size::default()).with_layers(layers)
    });
    plates.to_vec()
}

#[cfg(test)]
mod tests {
    use twillharbor::StartPointStrategy::{Inside, Outside};

    use super::{refused, sound};
    use crate::reference::{results, retrace};
    use crate::rule::{Refused, checked};

    #[test]
    fn refusals_are_those_that_the_rows_are_for() {
        let due: [Refused; 20] = [
            (13, 2),
            (13, 2),
            (13, 2),
            (13, 0),
            (13, 1),
            (13, 1),
            (13, 0),
            (13, 0),
            (13, 0),
            (13, 0),
            (13, 2),
            (13, 2),
            (13, 2),
            (3, 0),
            (3, 0),
            (2, 0),
            (13, 0),
            (13, 2),
            (13, 1),
            (13, 1),
        ];
        for (place, (plate, due)) in refused().iter().zip(due).enumerate() {
            assert_eq!(checked(plate, Inside), Err(due), "row {place}");
        }
    }

    /// Worked out by hand from document 02's sentence.
    #[test]
    fn orders_are_those_that_the_rows_are_for() {
        let plates = sound();
        let order = |place: usize, strategy| -> Vec<u32> {
            let results = results(&plates[place], strategy).unwrap().unwrap();
            results.order.iter().map(|entry| entry[0]).collect()
        };
        assert_eq!(order(0, Inside), [0, 2, 1]);
        assert_eq!(order(0, Outside), [2, 0, 1]);
        assert_eq!(order(1, Inside), [0, 1, 2]);
        assert_eq!(order(2, Inside), [2, 1, 0]);
        assert_eq!(order(3, Inside), [11, 10, 9, 8, 7, 6, 5, 4, 3, 2, 1, 0]);
        assert_eq!(order(4, Inside), [1, 3, 5, 4, 2, 0]);
        assert_eq!([order(5, Inside), order(5, Outside)], [[1, 2, 0]; 2]);
        assert_eq!([order(6, Inside), order(6, Outside)], [[1, 0]; 2]);
        assert_eq!([order(7, Inside), order(7, Outside)], [[1, 3, 2, 0]; 2]);
        assert_eq!(order(8, Inside), [0, 3, 2]);
        assert_eq!([order(9, Inside), order(10, Inside)], [vec![1], vec![]]);
        assert_eq!([order(11, Inside), order(11, Outside)], [[1, 0]; 2]);
        let marks =
            |place: usize| retrace(&plates[place], Inside, usize::MAX).unwrap().unwrap().marks;
        assert_eq!(marks(0), [[0, 0], [3, 2], [3, 1]]);
        assert_eq!(marks(8), [[0, 0], [3, 2], [3, 1]]);
        // (0,1) first, then E's line from (0,0); F's line from (4,1), then (4,0).
        assert_eq!(marks(12), [[0, 3], [3, 0], [1, 0], [1, 1]]);
    }
}
