//! Plates of recorded rows that tell one rule of the documents from another, beside the proved
//! table's own (`crates/rules/specs/MarkedPlates.antt`).

use twillharbor::StartPointStrategy::{self, Home, Inside, Outside};
use twillharbor::{Point, Size};

use super::{Contours, plate_of};
use crate::plates::{LIMIT, Plate};

const NAN: f64 = f64::NAN;
const INFINITY: f64 = f64::INFINITY;
const LEAST: f64 = f64::from_bits(1);
/// 2^-537, whose square is the least float above 0.
const SMALL: f64 = f64::from_bits(0x1e60_0000_0000_0000);

const B: Contours = &[&[(0.0, 0.0), (4.0, 0.0)]];
/// The last is farther from the first than the other.
const THREE: Contours = &[&[(0.0, 0.0)], &[(1.0, 0.0)], &[(0.0, 2.0)]];
const FOUR: Contours = &[&[(0.0, 0.0)], &[(1.0, 0.0)], &[(0.0, 9.0)], &[(0.0, 2.0)]];
/// Contours that hold no point are skipped.
pub const SKIPPING: Contours = &[
    &[],
    &[(0.0, 0.0), (4.0, 0.0)],
    &[],
    &[(9.0, 0.0), (5.0, 0.0)],
    &[(1.0, 1.0), (1.0, 2.0)],
    &[(9.0, 1.0)],
];

const fn home(x: f64, y: f64) -> StartPointStrategy {
    Home(Point { x, y })
}

fn in_layers(contours: Contours, layers: &[u32], [width, height]: [u32; 2]) -> Plate {
    plate_of(contours, Size { width, height }).with_layers(layers)
}

/// Contours, layers, width and height, the strategy, and the order that is due.
type Ordered = (Contours, &'static [u32], [u32; 2], StartPointStrategy, &'static [[u32; 2]]);

const ORDERED: [Ordered; 16] = [
    // with both products rounded the two would be as near
    (&[&[(0.7, 0.4)], &[(0.4, 0.7)]], &[0, 0], [0, 0], Inside, &[[1, 0], [0, 0]]),
    // skipped contours are counted
    (&[&[], B[0]], &[0, 0], [10, 10], Inside, &[[1, 1]]),
    // the centre of an odd height is no whole number
    (&[&[(0.0, 3.0), (0.0, 4.0)]], &[0], [0, 7], Outside, &[[0, 0]]),
    // at the limit
    (&[&[(LIMIT, -LIMIT)]], &[0], [0, 0], Outside, &[[0, 0]]),
    // from the last end, not from the first
    (
        &[&[(0.0, 1.0), (3.0, 2.0)], &[(2.0, 1.0), (3.0, 2.0)]],
        &[0, 0],
        [0, 0],
        Inside,
        &[[0, 0], [1, 1]],
    ),
    (SKIPPING, &[0; 6], [0, 0], Inside, &[[1, 0], [3, 1], [5, 0], [4, 0]]),
    // of the lowest layer the nearest, though one of a higher layer is nearer; one layer for all
    (FOUR, &[0, 1, 0, 0], [0, 0], Inside, &[[0, 0], [3, 0], [2, 0], [1, 0]]),
    (THREE, &[15, 15, 15], [0, 0], Inside, &[[0, 0], [1, 0], [2, 0]]),
    // the start is of the lowest layer, though another end is farther
    (&[&[(9.0, 0.0)], &[(1.0, 0.0), (2.0, 0.0)]], &[3, 2], [0, 0], Outside, &[[1, 1], [0, 0]]),
    // a skipped contour of a lower layer keeps nobody waiting
    (
        &[&[], &[(0.0, 0.0), (1.0, 0.0)], &[(5.0, 0.0)]],
        &[0, 2, 1],
        [0, 0],
        Inside,
        &[[2, 0], [1, 1]],
    ),
    // the parked point's -0, and its least numbers; it is at the limit, however far the contour is
    (&[&[(0.0, 1.0), (0.0, 0.0)]], &[0], [0, 0], home(-0.0, LEAST), &[[0, 1]]),
    (&[&[(0.0, 0.0), (SMALL, 0.0)]], &[0], [0, 0], home(SMALL, 0.0), &[[0, 1]]),
    (B, &[0], [10, 10], home(LIMIT, -LIMIT), &[[0, 1]]),
    (B, &[0], [10, 10], home(-LIMIT, LIMIT), &[[0, 0]]),
    // the parked point decides the start alone, and within the lowest layer
    (THREE, &[0, 0, 0], [0, 0], home(1.0, 0.0), &[[1, 0], [0, 0], [2, 0]]),
    (
        &[&[(3.0, 0.0)], &[(0.0, 0.0)], &[(1.0, 0.0), (2.0, 0.0)], &[(9.0, 0.0)]],
        &[1, 0, 0, 0],
        [0, 0],
        home(3.0, 0.0),
        &[[2, 1], [1, 0], [3, 0], [0, 0]],
    ),
];

/// Plates that are not refused.
pub fn ordered() -> Vec<(Plate, StartPointStrategy)> {
    let plates = ORDERED.iter().map(|&(contours, layers, size, strategy, _)| {
        (in_layers(contours, layers, size), strategy)
    });
    plates.collect()
}

/// Points, lengths, layers, the strategy, the lengths of the order slice, of the path slice and of
/// the work slice, and the refusal that is due of the order and the straight call.
type Refused = (
    &'static [f64],
    &'static [u32],
    &'static [u32],
    StartPointStrategy,
    [usize; 3],
    crate::rule::Refused,
);

const D_POINTS: &[f64] = &[0.0, 0.0, 4.0, 0.0, 4.0, 1.0, 8.0, 1.0];
const THREE_POINTS: &[f64] = &[0.0, 0.0, 1.0, 0.0, 0.0, 2.0];

const REFUSED: [Refused; 23] = [
    // a number too many
    (&[0.0; 3], &[1], &[0], Outside, [2, 2, 1], (3, 0)),
    // the sum does not wrap; one number too few, and numbers without a contour
    (&[0.0, 0.0], &[u32::MAX, 2], &[0, 0], Outside, [2, 2, 2], (2, 0)),
    (&[], &[65_536], &[0], Outside, [2, 2, 1], (3, 0)),
    (&[0.0, 0.0], &[], &[], Outside, [2, 2, 0], (3, 0)),
    // the first coordinate off the plate
    (&[0.0, NAN, INFINITY, 0.0], &[2], &[0], Outside, [2, 4, 1], (4, 1)),
    (&[-INFINITY, 0.0], &[1], &[0], Outside, [2, 2, 1], (4, 0)),
    // 4 before 5
    (&[0.0, NAN], &[1], &[0], Outside, [2, 2, 0], (4, 1)),
    // skipped contours are counted in the work
    (
        &[0.0, 0.0, 4.0, 0.0, 9.0, 0.0, 5.0, 0.0, 1.0, 1.0, 1.0, 2.0, 9.0, 1.0],
        &[0, 2, 0, 2, 2, 1],
        &[0; 6],
        Inside,
        [8, 8, 5],
        (5, 0),
    ),
    // plate G with C = 0
    (&[0.0, 0.0, 1.0, 0.0, 0.0, 1.0], &[1; 3], &[0; 3], Inside, [1, 1, 3], (6, 0)),
    // layers that are not one for each contour
    (THREE_POINTS, &[1; 3], &[0; 4], Inside, [6, 6, 3], (13, 3)),
    (&[], &[], &[0], Outside, [2, 2, 0], (13, 0)),
    // 2 and 3 before 13, for both its reasons
    (&[], &[65_537], &[], Outside, [2, 2, 1], (2, 0)),
    (&[], &[65_537], &[16], Outside, [2, 2, 1], (2, 0)),
    (&[NAN], &[1], &[16], Outside, [2, 2, 1], (3, 0)),
    // 13 before 4, and before 7 of the start call
    (&[NAN, NAN], &[1], &[], Outside, [2, 2, 1], (13, 1)),
    (&[], &[0], &[16], Outside, [2, 2, 1], (13, 0)),
    // 13 before 5 and 6
    (THREE_POINTS, &[1; 3], &[16, 0, 0], Inside, [4, 0, 3], (13, 0)),
    (THREE_POINTS, &[1; 3], &[16, 0, 0], Inside, [0, 0, 0], (13, 0)),
    // the parked point's infinity; a coordinate's place is in the slice; 3 before the parked point
    (D_POINTS, &[2, 2], &[0, 0], home(-INFINITY, 0.0), [4, 4, 2], (4, 0)),
    (&[0.0, 0.0, NAN, 0.0], &[2], &[0], home(0.0, 0.0), [2, 4, 1], (4, 2)),
    (&[0.0], &[1], &[0], home(NAN, NAN), [2, 2, 1], (3, 0)),
    // the parked point's 4 after 13 and before 5
    (D_POINTS, &[2, 2], &[0], home(NAN, NAN), [4, 4, 2], (13, 2)),
    (D_POINTS, &[2, 2], &[0, 0], home(0.0, NAN), [4, 4, 0], (4, 1)),
];

/// Plates that the order and the straight call refuse, and the order, path and work slices that
/// these are lent.
pub fn refused() -> Vec<(Plate, StartPointStrategy, [usize; 3])> {
    let plates = REFUSED.iter().map(|&(points, lengths, layers, strategy, slices, _)| {
        let plate = Plate::new(points.to_vec(), lengths.to_vec(), Size::default());
        (plate.with_layers(layers), strategy, slices)
    });
    plates.collect()
}

/// Contours, layers, the strategy, and the marks and the lengths that are due.
type Retraced = (Contours, &'static [u32], StartPointStrategy, &'static [[u32; 2]], [u64; 3]);

const RETRACED: [Retraced; 5] = [
    // ring 2 is searched: the bound is (r - 1) × s
    (
        &[&[(0.0, 0.0), (50.0, 0.5), (12.0625, 0.5), (9.5, 0.5)], &[(10.9375, 0.5)]],
        &[0, 0],
        Inside,
        &[[0, 0], [1, 0], [1, 1], [1, 2], [2, 2], [3, 4]],
        [92_674, 2_624, 1_152],
    ),
    // a point's own cell is not listed before the row below it
    (
        &[&[(0.0, 2.0), (0.0, 1.0)], &[(29.0, 1.0)], &[(0.0, 1.0), (0.0, 2.0)]],
        &[0, 0, 0],
        Outside,
        &[[0, 2], [3, 1], [1, 0], [2, 1], [4, 3], [1, 3]],
        [2_048, 1_024, 29_696],
    ),
    // the place that is walked back to is itself a back-step's
    (
        &[&[(0.0, 0.0), (4.0, 0.0), (8.0, 0.0)], &[(0.0, 1.0)], &[(4.0, 0.0)]],
        &[0, 0, 1],
        Inside,
        &[[0, 0], [1, 0], [1, 1], [2, 1], [2, 0], [3, 3], [2, 4], [2, 3], [4, 4]],
        [8_192, 13_312, 1_024],
    ),
    // of the lowest layer the nearest, though one of a higher layer is nearer
    (
        FOUR,
        &[0, 1, 0, 0],
        Inside,
        &[[0, 0], [3, 3], [3, 2], [2, 1], [2, 0], [3, 1]],
        [0, 9_216, 10_240],
    ),
    // the samples of a higher layer are queried after the start
    (
        &[&[(0.0, 0.0)], &[(9.0, 3.0), (0.0, 3.0)], &[(20.0, 0.0)]],
        &[0, 1, 0],
        Inside,
        &[[0, 0], [3, 3], [2, 0], [3, 2], [1, 1]],
        [9_216, 20_480, 23_552],
    ),
];

/// Plates that the retrace call does not refuse.
pub fn retraced() -> Vec<(Plate, StartPointStrategy)> {
    let plates = RETRACED
        .iter()
        .map(|&(contours, layers, strategy, ..)| (in_layers(contours, layers, [0, 0]), strategy));
    plates.collect()
}

#[cfg(test)]
mod tests {
    use super::{ORDERED, REFUSED, RETRACED, ordered, refused, retraced};
    use crate::reference::{results, retrace};
    use crate::rule;

    /// Worked out by hand from the documents' sentences, as is what follows.
    #[test]
    fn orders_are_those_that_the_rows_are_for() {
        for (place, ((plate, strategy), &(.., due))) in ordered().iter().zip(&ORDERED).enumerate() {
            let results = results(plate, *strategy).unwrap().unwrap();
            assert_eq!(results.start, Some(due[0]), "row {place}");
            assert_eq!(results.order, due, "row {place}");
        }
    }

    #[test]
    fn refusals_are_those_that_the_rows_are_for() {
        for (place, ((plate, strategy, [order, path, work]), &(.., due))) in
            refused().iter().zip(&REFUSED).enumerate()
        {
            let contours = plate.lengths.len();
            let results = results(plate, *strategy).unwrap();
            let entries = results.as_ref().map(|results| &results.order[..]);
            let points = results.as_ref().map(|results| &results.straight[..]);
            let (entries, points) = (entries.map_err(|&r| r), points.map_err(|&r| r));
            let ([number, at, _], _) =
                rule::outcome(entries, contours, *work, rule::order_room(*order));
            assert_eq!((number, at), due, "row {place}");
            let ([number, at, _], _) =
                rule::outcome(points, contours, *work, rule::straight_room(*path));
            assert_eq!((number, at), due, "row {place}");
        }
    }

    #[test]
    fn marks_and_lengths_are_those_that_the_rows_are_for() {
        for (place, ((plate, strategy), &(.., marks, lengths))) in
            retraced().iter().zip(&RETRACED).enumerate()
        {
            let retrace = retrace(plate, *strategy, usize::MAX).unwrap().unwrap();
            assert_eq!(retrace.marks, marks, "row {place}");
            assert_eq!(retrace.lengths, lengths, "row {place}");
        }
    }
}
