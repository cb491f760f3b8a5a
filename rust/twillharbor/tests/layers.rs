//! Ticket 9's layers through the safe interface: what they decide in each call, and refusal 13.

mod refused;

use twillharbor::LayerFault::{Layer, Length};
use twillharbor::Refusal::{self, BadLayer, Blank, Miscounted, TooManyContours, TooManyPoints};
use twillharbor::Refusal::{Full, OffThePlate, WorkShort};
use twillharbor::StartPointStrategy::{Inside, Outside};
use twillharbor::{
    Plate, Point, Size, StartPointStrategy, order, retrace, retrace_work, start, straight,
};

const NOWHERE: Size = Size { width: 0, height: 0 };
const BOTH: [StartPointStrategy; 2] = [Outside, Inside];

/// (0,0) | (1,0) | (2,0), each contour nearer to the one before it than to any other.
const ROW: ([f64; 6], [u32; 3]) = ([0.0, 0.0, 1.0, 0.0, 2.0, 0.0], [1, 1, 1]);

fn points_at(places: &[f64]) -> Vec<Point> {
    places.iter().map(|&x| Point { x, y: 0.0 }).collect()
}

/// The numbers of the contours in order.
fn ordered(plate: Plate<'_>, strategy: StartPointStrategy) -> Vec<u32> {
    plate.order(NOWHERE, strategy).unwrap().iter().map(|entry| entry.contour).collect()
}

/// The contours' marks in the retraced path, as they are entered.
fn entered(plate: Plate<'_>, strategy: StartPointStrategy) -> Vec<[u32; 2]> {
    let path = plate.retrace(NOWHERE, strategy).unwrap();
    let marks = path.marks().iter().map(|mark| mark.numbers());
    marks.filter(|&[kind, _]| kind == 0 || kind == 3).collect()
}

fn assert_refused(plate: Plate<'_>, refusal: Refusal) {
    for strategy in BOTH {
        refused::by_every_call(plate, strategy, refusal);
    }
}

#[test]
fn a_nearer_contour_of_a_higher_layer_waits() {
    let (points, lengths) = ROW;
    let plate = Plate::with_layers(&points, &lengths, &[0, 15, 7]);
    assert_eq!(ordered(plate, Inside), [0, 2, 1]);
    assert_eq!(plate.straight(NOWHERE, Inside), Ok(points_at(&[0.0, 2.0, 1.0])));
    assert_eq!(entered(plate, Inside), [[0, 0], [3, 2], [3, 1]]);
}

#[test]
fn the_start_is_of_the_lowest_layer() {
    let (points, lengths) = ROW;
    for (layers, outside, inside) in [
        ([0, 0, 0], 2, 0),
        ([3, 3, 3], 2, 0),
        ([3, 2, 2], 2, 1),
        ([1, 0, 1], 1, 1),
        ([4, 4, 5], 1, 0),
    ] {
        let plate = Plate::with_layers(&points, &lengths, &layers);
        for (strategy, contour) in [(Outside, outside), (Inside, inside)] {
            assert_eq!(plate.start(NOWHERE, strategy).map(|start| start.contour), Ok(contour));
            assert_eq!(ordered(plate, strategy)[0], contour);
            assert_eq!(entered(plate, strategy)[0], [0, contour]);
        }
    }
}

#[test]
fn sixteen_layers_are_sixteen_passes() {
    let lengths = [1; 16];
    let places: Vec<f64> = (0..16).flat_map(|i| [f64::from(i), 0.0]).collect();
    let downward: Vec<u32> = (0..16).rev().collect();
    for strategy in BOTH {
        let plate = Plate::with_layers(&places, &lengths, &downward);
        assert_eq!(ordered(plate, strategy), downward);
        let vertices =
            entered(plate, strategy).iter().map(|&[_, vertex]| vertex).collect::<Vec<_>>();
        assert_eq!(vertices, downward);
    }
    let backward: Vec<f64> = (0..16).rev().map(f64::from).collect();
    let plate = Plate::with_layers(&places, &lengths, &downward);
    assert_eq!(plate.straight(NOWHERE, Inside), Ok(points_at(&backward)));
}

#[test]
fn skipped_contours_never_wait() {
    let (points, _) = ROW;
    let lengths = [0, 1, 0, 1, 1, 0];
    let plate = Plate::with_layers(&points, &lengths, &[0, 9, 1, 15, 9, 2]);
    assert_eq!(plate.start(NOWHERE, Inside).map(|start| start.contour), Ok(1));
    assert_eq!(ordered(plate, Inside), [1, 4, 3]);
    assert_eq!(entered(plate, Inside), [[0, 0], [3, 2], [3, 1]]);
    assert_eq!(Plate::with_layers(&[], &[0, 0], &[0, 15]).start(NOWHERE, Inside), Err(Blank));
}

#[test]
fn one_layer_is_a_plate_without_layers() {
    let (points, lengths) = ([9.0, 0.0, 5.0, 0.0, 0.0, 0.0, 4.0, 0.0], [0, 2, 0, 1, 1, 0]);
    for strategy in BOTH {
        let without = Plate::new(&points, &lengths);
        for layer in 0..16 {
            let layers = [layer; 6];
            let plate = Plate::with_layers(&points, &lengths, &layers);
            assert_eq!(plate.start(NOWHERE, strategy), without.start(NOWHERE, strategy));
            assert_eq!(plate.order(NOWHERE, strategy), without.order(NOWHERE, strategy));
            assert_eq!(plate.straight(NOWHERE, strategy), without.straight(NOWHERE, strategy));
            assert_eq!(plate.retrace(NOWHERE, strategy), without.retrace(NOWHERE, strategy));
        }
        assert_eq!(start(&points, &lengths, NOWHERE, strategy), without.start(NOWHERE, strategy));
        assert_eq!(order(&points, &lengths, NOWHERE, strategy), without.order(NOWHERE, strategy));
        let path = straight(&points, &lengths, NOWHERE, strategy);
        assert_eq!(path, without.straight(NOWHERE, strategy));
        let path = retrace(&points, &lengths, NOWHERE, strategy);
        assert_eq!(path, without.retrace(NOWHERE, strategy));
    }
}

#[test]
fn a_plate_without_layers_may_have_any_number_of_contours() {
    for contours in [0, 1, 4_095, 4_096] {
        let lengths = vec![0; contours];
        assert_eq!(Plate::new(&[], &lengths).order(NOWHERE, Inside), Ok(vec![]));
    }
    for contours in [4_097, 10_000] {
        assert_refused(Plate::new(&[], &vec![0; contours]), TooManyContours);
    }
}

#[test]
fn along_a_path_the_layers_of_the_cuts_never_fall() {
    // Ten columns of strokes, whose layers are spread over them.
    let points: Vec<f64> =
        (0..80).flat_map(|i| [i % 10, i / 10].map(|n| f64::from(n) * 3.0)).collect();
    let lengths = [2; 40];
    let layers: Vec<u32> = (0..40).map(|i| i * 7 % 16).collect();
    let plate = Plate::with_layers(&points, &lengths, &layers);
    for strategy in BOTH {
        let path = plate.retrace(NOWHERE, strategy).unwrap();
        let cuts = path.marks().iter().filter_map(|mark| match mark.numbers() {
            [1, segment] => Some(layers[segment as usize / 2]),
            _ => None,
        });
        let cuts: Vec<u32> = cuts.collect();
        assert_eq!(cuts.len(), 40);
        assert!(cuts.is_sorted(), "{cuts:?}");
        let order: Vec<u32> =
            ordered(plate, strategy).iter().map(|&contour| layers[contour as usize]).collect();
        assert_eq!(order, cuts);
    }
}

#[test]
fn refusal_13_where_the_slice_is_not_as_long_as_the_lengths() {
    let (points, lengths) = ROW;
    let layers = [16; 5];
    for held in [0, 1, 2, 4, 5] {
        let plate = Plate::with_layers(&points, &lengths, &layers[..held]);
        assert_refused(plate, BadLayer(Length { contours: 3 }));
    }
    assert_refused(Plate::with_layers(&[], &[], &[0]), BadLayer(Length { contours: 0 }));
    assert_refused(Plate::with_layers(&[], &[0], &[]), BadLayer(Length { contours: 1 }));
    let most = vec![0; 4_096];
    let plate = Plate::with_layers(&[], &most, &most[1..]);
    assert_refused(plate, BadLayer(Length { contours: 4_096 }));
}

#[test]
fn refusal_13_at_the_first_layer_above_15() {
    let (points, lengths) = ROW;
    for above in [16, 17, 255, 256, 1 << 31, u32::MAX] {
        for contour in 0..3 {
            let mut layers = [15, 15, above];
            layers[contour] = above;
            let plate = Plate::with_layers(&points, &lengths, &layers);
            assert_refused(plate, BadLayer(Layer { contour: contour as u32 }));
        }
    }
    // A skipped contour's layer is tested too.
    let plate = Plate::with_layers(&points, &[1, 0, 2], &[0, 16, 16]);
    assert_refused(plate, BadLayer(Layer { contour: 1 }));
    assert_refused(Plate::with_layers(&[], &[0], &[16]), BadLayer(Layer { contour: 0 }));
    let mut layers = vec![15; 4_096];
    layers[4_095] = 16;
    let plate = Plate::with_layers(&[], &[0; 4_096], &layers);
    assert_refused(plate, BadLayer(Layer { contour: 4_095 }));
}

#[test]
fn refusal_13_comes_after_3_and_before_4() {
    let off = [f64::NAN; 4];
    assert_refused(Plate::with_layers(&off, &[0; 4_097], &[16]), TooManyContours);
    assert_refused(Plate::with_layers(&off, &[65_536, 1], &[16]), TooManyPoints);
    assert_refused(Plate::with_layers(&off, &[1], &[16, 0]), Miscounted);
    assert_refused(Plate::with_layers(&off, &[1, 1], &[16]), BadLayer(Length { contours: 2 }));
    assert_refused(Plate::with_layers(&off, &[1, 1], &[0, 16]), BadLayer(Layer { contour: 1 }));
    assert_refused(Plate::with_layers(&off, &[1, 1], &[0, 15]), OffThePlate { place: 0 });
}

#[test]
fn refusals_5_and_6_are_those_of_a_plate_without_layers() {
    let (points, lengths) = ROW;
    let plate = Plate::with_layers(&points, &lengths, &[0, 15, 7]);
    let into = plate.order_into(NOWHERE, Inside, &mut [7; 6], &mut [7; 2]);
    assert_eq!(into, Err(WorkShort { place: 0 }));
    let mut entries = [7; 5];
    let into = plate.order_into(NOWHERE, Inside, &mut entries, &mut [7; 3]);
    assert_eq!((into, entries), (Err(Full { place: 2 }), [0, 0, 2, 0, 7]));
    let mut path = [7.0; 5];
    let into = plate.straight_into(NOWHERE, Inside, &mut path, &mut [7; 3]);
    assert_eq!((into, path), (Err(Full { place: 2 }), [0.0, 0.0, 2.0, 0.0, 7.0]));
    let (mut path, mut marks) = ([7.0; 5], [7; 5]);
    let mut work = vec![7; retrace_work(2, 3, 3)];
    let into = plate.retrace_into(NOWHERE, Inside, &mut path, &mut marks, &mut work, &mut [7.0; 3]);
    assert_eq!(into, Err(Full { place: 2 }));
    assert_eq!((path, marks), ([0.0, 0.0, 2.0, 0.0, 7.0], [0, 0, 3, 2, 7]));
}
