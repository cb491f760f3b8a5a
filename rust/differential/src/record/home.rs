//! Plates of recorded rows that the parked point of document 02's Home decides.

use twillharbor::{Point, Size};

use super::{Contours, plate_of};
use crate::plates::{LIMIT, Plate};

const NAN: f64 = f64::NAN;
const LEAST: f64 = f64::from_bits(1);
const BEYOND: f64 = LIMIT.next_up();
/// 2^-537, whose square is the least float above 0.
const SMALL: f64 = f64::from_bits(0x1e60_0000_0000_0000);
const TINY: f64 = 1.0 / 134_217_728.0;

/// Plate D. At its centre, where it is 8 by 1, two ends are as near.
const D: Contours = &[&[(0.0, 0.0), (4.0, 0.0)], &[(4.0, 1.0), (8.0, 1.0)]];
const D_EXCHANGED: Contours = &[&[(4.0, 1.0), (8.0, 1.0)], &[(0.0, 0.0), (4.0, 0.0)]];
const E: Contours = &[&[(0.0, 0.0), (4.0, 0.0), (8.0, 0.0)], &[(0.0, 1.0)]];
const F: Contours = &[&[(4.0, 0.0)], &[(0.0, 1.0), (4.0, 1.0), (8.0, 1.0)]];
const G: Contours = &[&[(0.0, 0.0)], &[(1.0, 0.0)], &[(0.0, 1.0)]];
/// Both ends are as far from 0.
const ACROSS: Contours = &[&[(1.0, 0.0), (-1.0, 0.0)]];

/// Contours, layers, the parked point, and which contour leads, with 1 if it is reversed; none
/// where no contour holds a point.
type Sound = (Contours, &'static [u32], (f64, f64), Option<[u32; 2]>);

const SOUND: [Sound; 38] = [
    // on each end
    (D, &[0, 0], (0.0, 0.0), Some([0, 0])),
    (D, &[0, 0], (4.0, 0.0), Some([0, 1])),
    (D, &[0, 0], (4.0, 1.0), Some([1, 0])),
    (D, &[0, 0], (8.0, 1.0), Some([1, 1])),
    // as near: the lower contour, the first point
    (D, &[0, 0], (4.0, 0.5), Some([0, 1])),
    (D_EXCHANGED, &[0, 0], (4.0, 0.5), Some([0, 0])),
    (D, &[0, 0], (2.0, 0.0), Some([0, 0])),
    (D, &[0, 0], (2.0, -7.0), Some([0, 0])),
    (&[&[(1.0, 0.0), (0.0, 1.0)], &[(0.0, 1.0), (1.0, 0.0)]], &[0, 0], (0.5, 0.5), Some([0, 0])),
    (&[&[(9.0, 9.0), (3.0, 3.0)], &[(3.0, 3.0), (9.0, 9.0)]], &[0, 0], (3.0, 3.0), Some([0, 1])),
    // one float nearer
    (D, &[0, 0], (4.0, 0.5_f64.next_up()), Some([1, 0])),
    (D, &[0, 0], (4.0, 0.5_f64.next_down()), Some([0, 1])),
    (ACROSS, &[0], (-f64::EPSILON, 0.0), Some([0, 1])),
    // at the limit, far from every contour
    (D, &[0, 0], (LIMIT, LIMIT), Some([1, 1])),
    (D, &[0, 0], (-LIMIT, -LIMIT), Some([0, 0])),
    (D, &[0, 0], (LIMIT, -LIMIT), Some([1, 1])),
    (D, &[0, 0], (-LIMIT, LIMIT), Some([0, 0])),
    (&[&[(-LIMIT, LIMIT), (LIMIT, -LIMIT)]], &[0], (LIMIT, -LIMIT), Some([0, 1])),
    // no half, and below 0: the centre of no plate
    (D, &[0, 0], (3.1, 0.1), Some([0, 1])),
    (D, &[0, 0], (7.3, 0.7), Some([1, 1])),
    (D, &[0, 0], (-0.1, -1e-9), Some([0, 0])),
    // -0 is 0
    (ACROSS, &[0], (-0.0, -0.0), Some([0, 0])),
    (&[&[(1.0, 1.0), (-0.0, 0.0)], &[(0.0, 0.0)]], &[0, 0], (0.0, -0.0), Some([0, 1])),
    // subnormal, too little to be nearer; and a point whose squared distance is 0
    (ACROSS, &[0], (-LEAST, LEAST), Some([0, 0])),
    (&[&[(LEAST, 0.0)], &[(-LEAST, -LEAST)]], &[0, 0], (-LEAST, -LEAST), Some([0, 0])),
    (&[&[(SMALL, 0.0), (SMALL / 4.0, 0.0)]], &[0], (LEAST, 0.0), Some([0, 1])),
    (&[&[(SMALL / 4.0, 0.0), (SMALL, 0.0)]], &[0], (SMALL, -LEAST), Some([0, 1])),
    // plate I's point: as far away as the other if both products were rounded
    (&[&[(1.0 + TINY, 1.25 * TINY)], &[(1.0 + TINY, 0.0)]], &[0, 0], (0.0, 0.0), Some([1, 0])),
    // x and y are not exchanged
    (&[&[(3.0, 0.0), (0.0, 2.0)]], &[0], (2.0, 1.0), Some([0, 0])),
    (&[&[(3.0, 0.0), (0.0, 2.0)]], &[0], (1.0, 2.0), Some([0, 1])),
    // plates E, F and G, from another end than their centre's
    (E, &[0, 0], (8.0, 0.0), Some([0, 1])),
    (F, &[0, 0], (8.0, 1.0), Some([1, 1])),
    (G, &[0, 0, 0], (0.0, 1.0), Some([2, 0])),
    // a nearer end of a higher layer waits, and one as near; an empty contour keeps nobody waiting
    (D, &[1, 0], (0.0, 0.0), Some([1, 0])),
    (D, &[1, 0], (4.0, 0.5), Some([1, 0])),
    (&[&[], &[(0.0, 0.0), (4.0, 0.0)], &[(9.0, 9.0)]], &[0, 15, 15], (5.0, 0.0), Some([1, 1])),
    // no contour holds a point
    (&[], &[], (1.5, -1.5), None),
    (&[&[], &[]], &[0, 15], (LIMIT, LIMIT), None),
];

/// Plates that are not refused, on plates of 8 by 1: the size does not count.
pub fn sound() -> Vec<(Plate, Point)> {
    let plates = SOUND.iter().map(|&(contours, layers, (x, y), _)| {
        let plate = plate_of(contours, Size { width: 8, height: 1 });
        (plate.with_layers(layers), Point { x, y })
    });
    plates.collect()
}

/// Points, lengths, layers, the parked point, and the refusal that is due.
type Refused = (&'static [f64], &'static [u32], &'static [u32], (f64, f64), crate::rule::Refused);

const REFUSED: [Refused; 24] = [
    (&[1.0, 1.0], &[1], &[0], (BEYOND, 0.0), (4, 0)),
    (&[1.0, 1.0], &[1], &[0], (-BEYOND, 0.0), (4, 0)),
    (&[1.0, 1.0], &[1], &[0], (0.0, BEYOND), (4, 1)),
    (&[1.0, 1.0], &[1], &[0], (0.0, -BEYOND), (4, 1)),
    (&[1.0, 1.0], &[1], &[0], (NAN, 0.0), (4, 0)),
    (&[1.0, 1.0], &[1], &[0], (0.0, NAN), (4, 1)),
    (&[1.0, 1.0], &[1], &[0], (NAN, NAN), (4, 0)),
    (&[1.0, 1.0], &[1], &[0], (f64::INFINITY, 0.0), (4, 0)),
    (&[1.0, 1.0], &[1], &[0], (0.0, f64::INFINITY), (4, 1)),
    (&[1.0, 1.0], &[1], &[0], (f64::NEG_INFINITY, BEYOND), (4, 0)),
    (&[1.0, 1.0], &[1], &[0], (LIMIT, f64::NEG_INFINITY), (4, 1)),
    (&[1.0, 1.0], &[1], &[0], (f64::MAX, -f64::MAX), (4, 0)),
    // before 4 of a coordinate, whose place is another
    (&[1.0, 1.0, NAN, 1.0], &[2], &[0], (0.0, NAN), (4, 1)),
    (&[1.0, 1.0, 1.0, BEYOND], &[1, 1], &[0, 0], (BEYOND, 0.0), (4, 0)),
    (&[NAN, NAN], &[1], &[0], (0.0, BEYOND), (4, 1)),
    // a coordinate alone
    (&[1.0, 1.0, 1.0, BEYOND], &[1, 1], &[0, 0], (LIMIT, -LIMIT), (4, 3)),
    (&[NAN, 1.0], &[1], &[0], (-0.0, LEAST), (4, 0)),
    // before 7
    (&[], &[], &[], (NAN, 0.0), (4, 0)),
    (&[], &[0, 0], &[0, 0], (0.0, -BEYOND), (4, 1)),
    // after 13, for both its reasons
    (&[1.0, 1.0], &[1], &[16], (NAN, 0.0), (13, 0)),
    (&[1.0, 1.0], &[1], &[], (0.0, BEYOND), (13, 1)),
    // after 3 and after 2
    (&[1.0], &[1], &[0], (NAN, 0.0), (3, 0)),
    (&[1.0, 1.0], &[], &[], (0.0, f64::INFINITY), (3, 0)),
    (&[], &[65_536, 1], &[0, 0], (NAN, NAN), (2, 0)),
];

/// Plates that are refused for their parked point, or though it is on the plate, or for something
/// else though it is off.
pub fn refused() -> Vec<(Plate, Point)> {
    let plates = REFUSED.iter().map(|&(points, lengths, layers, (x, y), _)| {
        let plate = Plate::new(points.to_vec(), lengths.to_vec(), Size::default());
        (plate.with_layers(layers), Point { x, y })
    });
    plates.collect()
}

#[cfg(test)]
mod tests {
    use twillharbor::StartPointStrategy::Home;

    use super::{REFUSED, SOUND, refused, sound};
    use crate::reference::{results, retrace};
    use crate::rule::checked;

    /// Worked out by hand from document 02's sentence.
    #[test]
    fn starts_are_those_that_the_rows_are_for() {
        for (place, ((plate, point), &(.., due))) in sound().iter().zip(&SOUND).enumerate() {
            let results = results(plate, Home(*point)).unwrap().unwrap();
            assert_eq!(results.start, due, "row {place}");
        }
    }

    #[test]
    fn refusals_are_those_that_the_rows_are_for() {
        for (place, ((plate, point), &(.., due))) in refused().iter().zip(&REFUSED).enumerate() {
            assert_eq!(checked(plate, Home(*point)), Err(due), "row {place}");
        }
    }

    #[test]
    fn paths_go_on_from_the_parked_end() {
        let marks = |place: usize| {
            let (plate, point) = &sound()[place];
            retrace(plate, Home(*point), usize::MAX).unwrap().unwrap().marks
        };
        // D from (8,1): then (4,1), (4,0) and (0,0).
        assert_eq!(marks(3), [[0, 3], [1, 2], [3, 1], [1, 0]]);
        // E from (8,0): then (4,0), (0,0) and (0,1).
        assert_eq!(marks(30), [[0, 2], [1, 1], [1, 0], [3, 3]]);
        // F from (8,1): (4,1), (0,1), back to (4,1) and on to (4,0).
        assert_eq!(marks(31), [[0, 3], [1, 2], [1, 1], [2, 1], [3, 0]]);
        // G from (0,1): then (0,0) and (1,0).
        assert_eq!(marks(32), [[0, 2], [3, 0], [3, 1]]);
        assert_eq!([marks(36), marks(37)], [[[0; 2]; 0]; 2]);
    }
}
