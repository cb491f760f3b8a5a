//! Ticket 1's parked point through the safe interface: where Home starts in each call, and
//! refusal 4 of the parked point.

mod refused;

use twillharbor::LayerFault::{Layer, Length};
use twillharbor::Refusal::{self, BadLayer, Blank, Miscounted, TooManyContours, TooManyPoints};
use twillharbor::Refusal::{Full, HomeOffThePlate, OffThePlate, WorkShort};
use twillharbor::StartPointStrategy::{Home, Inside};
use twillharbor::{
    Entry, Plate, Point, Size, Start, order, order_into, retrace, retrace_into, retrace_work,
    start, straight, straight_into,
};

const NOWHERE: Size = Size { width: 0, height: 0 };
const LIMIT: f64 = 1_000_000.0;
const BEYOND: f64 = LIMIT.next_up();

/// (0,0)(4,0) | (5,3)(9,3) | (-2,7).
const ROWS: ([f64; 10], [u32; 3]) =
    ([0.0, 0.0, 4.0, 0.0, 5.0, 3.0, 9.0, 3.0, -2.0, 7.0], [2, 2, 1]);

fn point(x: f64, y: f64) -> Point {
    Point { x, y }
}

/// The contour that comes first, and whether it is reversed. All calls agree on it.
fn first(plate: Plate<'_>, home: Point) -> (u32, bool) {
    let strategy = Home(home);
    let Start { contour, reversed } = plate.start(NOWHERE, strategy).unwrap();
    assert_eq!(plate.order(NOWHERE, strategy).unwrap()[0], Entry { contour, reversed });
    let led = plate.straight(NOWHERE, strategy).unwrap()[0];
    let retraced = plate.retrace(NOWHERE, strategy).unwrap();
    assert_eq!(retraced.start().map(|(at, _)| at), Some(led));
    (contour, reversed)
}

fn assert_refused(plate: Plate<'_>, home: Point, refusal: Refusal) {
    refused::by_every_call(plate, Home(home), refusal);
}

#[test]
fn the_nearest_end_leads() {
    let (points, lengths) = ROWS;
    let plate = Plate::new(&points, &lengths);
    for (home, expected) in [
        (point(0.0, 0.0), (0, false)),
        (point(4.0, -1.0), (0, true)),
        (point(4.75, 1.4), (0, true)),
        (point(4.75, 1.5), (1, false)),
        (point(12.0, 0.5), (1, true)),
        (point(-2.0, 7.0), (2, false)),
        (point(-40.0, 0.0), (2, false)),
        (point(-40.0, -9.0), (0, false)),
        (point(LIMIT, LIMIT), (1, true)),
        (point(-LIMIT, LIMIT), (2, false)),
        (point(LIMIT, -LIMIT), (1, true)),
        (point(-LIMIT, -LIMIT), (0, false)),
    ] {
        assert_eq!(first(plate, home), expected, "{home:?}");
    }
}

#[test]
fn of_equal_distances_the_first_leads() {
    let home = point(2.0, 1.0);
    let lead = |points: &[f64], lengths: &[u32]| first(Plate::new(points, lengths), home);
    assert_eq!(lead(&[0.0, 1.0, 4.0, 1.0], &[2]), (0, false));
    assert_eq!(lead(&[0.0, 1.0, 4.0, 1.0], &[1, 1]), (0, false));
    assert_eq!(lead(&[2.0, -1.0, 9.0, 9.0, 0.0, 1.0], &[0, 1, 2]), (1, false));
    // A last point before the next contour's first, and a nearer point that is no end.
    assert_eq!(lead(&[9.0, 9.0, 2.0, 1.0, 4.0, 1.0, 2.0, 3.0], &[3, 1]), (0, true));
    // One float nearer is nearer.
    let near = 4.0_f64.next_down();
    assert_eq!(lead(&[0.0, 1.0, near, 1.0], &[2]), (0, true));
    assert_eq!(lead(&[0.0, 1.0, near, 1.0, 4.0, 1.0], &[1, 1, 1]), (1, false));
}

#[test]
fn all_else_is_as_after_any_start() {
    let (points, lengths) = ROWS;
    let home = Home(point(12.0, 0.5));
    let entries: Vec<_> = order(&points, &lengths, NOWHERE, home).unwrap();
    let reversed = |contour| Entry { contour, reversed: true };
    let forward = Entry { contour: 2, reversed: false };
    assert_eq!(entries, [reversed(1), reversed(0), forward]);
    let path = [[9.0, 3.0], [5.0, 3.0], [4.0, 0.0], [0.0, 0.0], [-2.0, 7.0]];
    let path = path.map(|[x, y]| point(x, y));
    assert_eq!(straight(&points, &lengths, NOWHERE, home).unwrap(), path);
    let retraced = retrace(&points, &lengths, NOWHERE, home).unwrap();
    let marks: Vec<_> = retraced.marks().iter().map(|mark| mark.numbers()).collect();
    assert_eq!(marks, [[0, 3], [1, 2], [3, 1], [1, 0], [3, 4]]);
    assert_eq!(retraced.points(), path);
}

#[test]
fn the_size_does_not_count() {
    let (points, lengths) = ROWS;
    let home = Home(point(4.0, -1.0));
    for size in [Size { width: 18, height: 6 }, Size { width: u32::MAX, height: 0 }] {
        let nowhere = start(&points, &lengths, NOWHERE, home);
        assert_eq!(start(&points, &lengths, size, home), nowhere);
        let nowhere = order(&points, &lengths, NOWHERE, home);
        assert_eq!(order(&points, &lengths, size, home), nowhere);
        let nowhere = straight(&points, &lengths, NOWHERE, home);
        assert_eq!(straight(&points, &lengths, size, home), nowhere);
        let nowhere = retrace(&points, &lengths, NOWHERE, home);
        assert_eq!(retrace(&points, &lengths, size, home), nowhere);
    }
}

#[test]
fn a_point_parked_at_the_centre_is_inside() {
    let (points, lengths) = ROWS;
    let layers = [1, 1, 0];
    for plate in [Plate::new(&points, &lengths), Plate::with_layers(&points, &lengths, &layers)] {
        for (width, height) in [(0, 0), (9, 0), (18, 6), (5, 13), (2_000_000, 1_999_999)] {
            let size = Size { width, height };
            let home = Home(point(f64::from(width) / 2.0, f64::from(height) / 2.0));
            assert_eq!(plate.start(NOWHERE, home), plate.start(size, Inside));
            assert_eq!(plate.order(NOWHERE, home), plate.order(size, Inside));
            assert_eq!(plate.straight(NOWHERE, home), plate.straight(size, Inside));
            assert_eq!(plate.retrace(NOWHERE, home), plate.retrace(size, Inside));
        }
    }
}

#[test]
fn the_lowest_layer_leads_however_far() {
    let (points, lengths) = ROWS;
    let home = point(4.0, -1.0);
    for (layers, expected) in [
        ([3, 3, 3], (0, true)),
        ([1, 0, 0], (1, false)),
        ([15, 15, 14], (2, false)),
        ([0, 0, 15], (0, true)),
    ] {
        assert_eq!(first(Plate::with_layers(&points, &lengths, &layers), home), expected);
    }
}

#[test]
fn a_parked_point_counts_as_it_is() {
    let (points, lengths) = ROWS;
    let plate = Plate::new(&points, &lengths);
    let origin = plate.retrace(NOWHERE, Home(point(0.0, 0.0)));
    for home in [point(-0.0, -0.0), point(5e-324, -5e-324), point(-1e-310, 2e-308)] {
        assert_eq!(first(plate, home), (0, false));
        assert_eq!(plate.retrace(NOWHERE, Home(home)), origin);
    }
    for home in [point(LIMIT, -LIMIT), point(-LIMIT, 5e-324)] {
        assert_eq!(plate.order(NOWHERE, Home(home)).map(|order| order.len()), Ok(3));
    }
}

#[test]
fn a_plate_without_a_point_is_blank_to_the_start_call_alone() {
    for lengths in [&[][..], &[0], &[0, 0]] {
        let plate = Plate::new(&[], lengths);
        let home = Home(point(-5.0, 3.0));
        assert_eq!(plate.start(NOWHERE, home), Err(Blank));
        assert_eq!(plate.order(NOWHERE, home), Ok(vec![]));
        assert_eq!(plate.straight(NOWHERE, home), Ok(vec![]));
        assert_eq!(plate.retrace(NOWHERE, home).map(|path| path.points().len()), Ok(0));
        assert_refused(plate, point(0.0, BEYOND), HomeOffThePlate { place: 1 });
    }
}

#[test]
fn refusal_4_at_the_parked_points_first_coordinate_off_the_plate() {
    let (points, lengths) = ROWS;
    let plate = Plate::new(&points, &lengths);
    for off in [BEYOND, -BEYOND, f64::INFINITY, f64::NEG_INFINITY, f64::NAN, -f64::NAN] {
        assert_refused(plate, point(off, LIMIT), HomeOffThePlate { place: 0 });
        assert_refused(plate, point(-LIMIT, off), HomeOffThePlate { place: 1 });
        assert_refused(plate, point(off, off), HomeOffThePlate { place: 0 });
    }
}

#[test]
fn refusal_4_of_the_parked_point_comes_after_13_and_before_the_contours() {
    let off = [f64::NAN, BEYOND, f64::INFINITY, -BEYOND];
    let away = point(f64::NAN, f64::NAN);
    assert_refused(Plate::new(&off, &[0; 4_097]), away, TooManyContours);
    assert_refused(Plate::new(&off, &[65_536, 1]), away, TooManyPoints);
    assert_refused(Plate::new(&off, &[1]), away, Miscounted);
    let plate = Plate::with_layers(&off, &[1, 1], &[16]);
    assert_refused(plate, away, BadLayer(Length { contours: 2 }));
    let plate = Plate::with_layers(&off, &[1, 1], &[0, 16]);
    assert_refused(plate, away, BadLayer(Layer { contour: 1 }));
    let plate = Plate::with_layers(&off, &[1, 1], &[0, 15]);
    assert_refused(plate, away, HomeOffThePlate { place: 0 });
    assert_refused(plate, point(0.0, BEYOND), HomeOffThePlate { place: 1 });
    for (place, sound) in [[0.0; 4], [0.0, 0.0, 0.0, BEYOND]].into_iter().enumerate() {
        // Place 0 and 1 of the contours are told apart from those of the parked point.
        let mut points = sound;
        points[place] = f64::NAN;
        let refusal = OffThePlate { place: place as u32 };
        assert_refused(Plate::new(&points, &[2]), point(LIMIT, -0.0), refusal);
    }
    assert_refused(Plate::new(&off[2..], &[1]), point(0.0, 0.0), OffThePlate { place: 0 });
}

#[test]
fn refusals_5_and_6_are_those_of_the_other_strategies() {
    let (points, lengths) = ROWS;
    let home = Home(point(12.0, 0.5));
    let mut entries = [7; 6];
    let into = order_into(&points, &lengths, NOWHERE, home, &mut entries, &mut [7; 2]);
    assert_eq!((into, entries), (Err(WorkShort { place: 0 }), [7; 6]));
    let mut entries = [7; 5];
    let into = order_into(&points, &lengths, NOWHERE, home, &mut entries, &mut [7; 3]);
    assert_eq!((into, entries), (Err(Full { place: 2 }), [1, 1, 0, 1, 7]));
    let mut path = [7.0; 5];
    let into = straight_into(&points, &lengths, NOWHERE, home, &mut path, &mut [7; 3]);
    assert_eq!((into, path), (Err(Full { place: 2 }), [9.0, 3.0, 5.0, 3.0, 7.0]));
    let mut work = vec![7; retrace_work(2, 5, 3)];
    for (held, distances, place) in [(work.len() - 1, 3, 0), (work.len(), 2, 1)] {
        let (mut path, mut marks) = ([7.0; 5], [7; 5]);
        let (work, distances) = (&mut work[..held], &mut [7.0; 3][..distances]);
        let into =
            retrace_into(&points, &lengths, NOWHERE, home, &mut path, &mut marks, work, distances);
        assert_eq!(into, Err(WorkShort { place }));
        assert_eq!((path, marks), ([7.0; 5], [7; 5]));
    }
    let (mut path, mut marks, mut distances) = ([7.0; 5], [7; 5], [7.0; 3]);
    let (path_of, marks_of) = (&mut path, &mut marks);
    let into = retrace_into(
        &points,
        &lengths,
        NOWHERE,
        home,
        path_of,
        marks_of,
        &mut work,
        &mut distances,
    );
    assert_eq!(into, Err(Full { place: 2 }));
    assert_eq!((path, marks), ([9.0, 3.0, 5.0, 3.0, 7.0], [0, 3, 1, 2, 7]));
}
