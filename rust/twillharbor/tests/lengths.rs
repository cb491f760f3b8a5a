//! Ticket 4's lengths through the safe interface: of a pair, of a contour and along a path, against
//! Rust's own square root and against whole numbers.

mod refused;

use twillharbor::StartPointStrategy::{Home, Inside, Outside};
use twillharbor::{
    LayerFault, Lengths, MarkedPath, Pair, PairKind, Plate, Point, Refusal, Size,
    StartPointStrategy, pair_length, retrace, retrace_into,
};

/// The distance call's limit, and a plate's.
const LIMIT: f64 = 2_147_483_648.0;
const CORNER: f64 = 1_000_000.0;

fn point(x: f64, y: f64) -> Point {
    Point { x, y }
}

/// By Rust's own square root.
fn by_root(a: Point, b: Point) -> u64 {
    let (dx, dy) = (a.x - b.x, a.y - b.y);
    (dx.mul_add(dx, dy * dy).sqrt() * 1_024.0).floor() as u64
}

/// Of two points whose coordinates are whole numbers of 1,024ths, up to 2^26 of them: then the
/// squared distance is exact, and the length is that of whole numbers, but where the root is rounded
/// up to one.
fn by_whole_numbers(a: [i64; 2], b: [i64; 2]) -> u64 {
    let square = |axis: usize| u64::pow(a[axis].abs_diff(b[axis]), 2);
    (square(0) + square(1)).isqrt()
}

#[test]
fn a_pair_is_rounded_down() {
    let origin = point(0.0, 0.0);
    let part = 1.0 / 1_024.0_f64;
    for (b, length) in [
        (point(3.0, 4.0), 5_120),
        (point(-0.1, 0.0), 102),
        (point(0.2, 0.0), 204),
        (point(1.0, -1.0), 1_448),
        (point(0.0, part), 1),
        (point(0.0, part.next_down()), 0),
        (point(0.0, part.next_up()), 1),
        (point(7.0 * part, 0.0), 7),
        (point((7.0 * part).next_down(), 0.0), 6),
        // Its square is rounded below that of 1.25, and then the root up to it.
        (point(0.75_f64.next_down(), 1.0), 1_280),
        (point(0.75_f64.next_down().next_down(), 1.0), 1_280),
        (point(0.75_f64.next_down().next_down().next_down(), 1.0), 1_279),
        (point(CORNER, CORNER), 1_448_154_687),
        (point(LIMIT, 0.0), 1 << 41),
    ] {
        assert_eq!(pair_length(origin, b), Ok(length), "{b:?}");
        assert_eq!(pair_length(b, origin), Ok(length), "{b:?}");
        assert_eq!(by_root(origin, b), length, "{b:?}");
    }
    let corners = (point(-CORNER, -CORNER), point(CORNER, CORNER));
    assert_eq!(pair_length(corners.0, corners.1), Ok(2_896_309_375));
    let limits = (point(-LIMIT, LIMIT), point(LIMIT, -LIMIT));
    assert_eq!(pair_length(limits.0, limits.1), Ok(6_219_777_023_950));
}

#[test]
fn what_is_near_has_no_length() {
    let least = f64::from_bits(1);
    for near in [0.0, -0.0, least, -least, 1e-310, f64::MIN_POSITIVE, 1e-200, 9e-4] {
        for (a, b) in [
            (point(0.0, 0.0), point(near, -0.0)),
            (point(-0.0, near), point(0.0, 0.0)),
            (point(least, near / 2.0), point(-least, -near / 2.0)),
        ] {
            assert_eq!(pair_length(a, b), Ok(0), "{a:?} {b:?}");
        }
    }
    assert_eq!(pair_length(point(1.0, 1.0), point(1.0, 1.0_f64.next_up())), Ok(0));
}

#[test]
fn a_pair_is_refused_as_its_distance_is() {
    let beyond = LIMIT.next_up();
    for damaged in [beyond, -beyond, f64::INFINITY, f64::NAN] {
        for place in 0..4 {
            let mut c = [LIMIT, -LIMIT, 0.0, -0.0];
            c[place] = damaged;
            let refused = pair_length(point(c[0], c[1]), point(c[2], c[3]));
            assert_eq!(refused, Err(Refusal::OffThePlate { place: place as u32 }));
        }
    }
}

/// Numbers from 0 to below `end`, one after the other.
fn numbers(end: u64) -> impl FnMut() -> i64 {
    let mut state = 1_u64;
    move || {
        state = state.wrapping_mul(6_364_136_223_846_793_005).wrapping_add(1);
        ((state >> 33) % end) as i64
    }
}

#[test]
fn whole_numbers_give_the_same() {
    for digits in [4, 10, 16, 22, 26] {
        let mut next = numbers(1 << digits);
        for _ in 0..2_000 {
            let [a, b] = [(); 2].map(|()| [(); 2].map(|()| next()));
            let of = |p: [i64; 2]| point(p[0] as f64 / 1_024.0, p[1] as f64 / 1_024.0);
            let length = pair_length(of(a), of(b)).unwrap();
            assert_eq!(length, by_root(of(a), of(b)));
            assert_eq!(length, by_whole_numbers(a, b), "{a:?} {b:?}");
        }
    }
}

/// The sums along a path, by Rust's own square root.
fn along(path: &MarkedPath) -> Lengths {
    let mut lengths = Lengths::default();
    for Pair { from, to, kind } in path.pairs() {
        match kind {
            PairKind::Cut { .. } => lengths.cuts += by_root(from, to),
            PairKind::BackStep { .. } => lengths.back_steps += by_root(from, to),
            PairKind::Jump { .. } => lengths.jumps += by_root(from, to),
            PairKind::Touch { .. } => assert_eq!(by_root(from, to), 0),
        }
    }
    lengths
}

/// The plate's path has the lengths of its pairs, and its cuts those of the contours. Gives them,
/// and the contours'.
fn assert_measured(
    points: &[f64],
    lengths: &[u32],
    strategy: StartPointStrategy,
) -> (Lengths, Vec<u64>) {
    let plate = Plate::new(points, lengths);
    let path = plate.retrace(Size { width: 100, height: 100 }, strategy).unwrap();
    let measured = path.lengths().unwrap();
    assert_eq!(measured, along(&path));
    assert_eq!(Lengths::of(path.pairs()), Some(measured));
    let slices = (
        path.points().iter().flat_map(|p| [p.x, p.y]).collect::<Vec<_>>(),
        path.marks().iter().flat_map(|mark| mark.numbers()).collect::<Vec<_>>(),
    );
    assert_eq!(MarkedPath::of(&slices.0, &slices.1), Some(path));
    let contours = plate.contour_lengths().unwrap();
    assert_eq!(contours.len(), lengths.len());
    assert_eq!(contours.iter().sum::<u64>(), measured.cuts);
    (measured, contours)
}

#[test]
fn contour_by_contour_is_along_the_path() {
    let mut next = numbers(1 << 20);
    for turn in 0..200_u32 {
        let lengths: Vec<u32> = (0..turn % 7).map(|_| next() as u32 % 9).collect();
        let count = 2 * lengths.iter().sum::<u32>();
        let points: Vec<f64> = (0..count).map(|_| next() as f64 / 9_999.0).collect();
        for strategy in [Outside, Inside, Home(point(-3.0, 0.1))] {
            assert_measured(&points, &lengths, strategy);
        }
    }
}

#[test]
fn each_contour_has_its_length() {
    // (0,0)(3,4) | | (7,7) | (0,.1)(0,.3)(0,.3)(0,.1)
    let points = [0.0, 0.0, 3.0, 4.0, 7.0, 7.0, 0.0, 0.1, 0.0, 0.3, 0.0, 0.3, 0.0, 0.1];
    let (lengths, contours) = assert_measured(&points, &[2, 0, 1, 4, 0], Inside);
    assert_eq!(contours, [5_120, 0, 0, 408, 0]);
    assert_eq!(lengths.cuts, 5_528);
    assert_eq!(assert_measured(&[], &[], Inside), (Lengths::default(), vec![]));
    assert_eq!(assert_measured(&[], &[0, 0], Outside), (Lengths::default(), vec![0, 0]));
    assert_eq!(assert_measured(&[1.0, 2.0], &[1], Outside), (Lengths::default(), vec![0]));
    // Layers do not matter, where they are layers.
    let plate = Plate::with_layers(&points, &[2, 0, 1, 4, 0], &[15, 0, 3, 0, 15]);
    assert_eq!(plate.contour_lengths(), Ok(contours));
}

#[test]
fn equal_points_and_zeros_of_either_sign_add_nothing() {
    // (0,0)(-0,0)(0,0) | (-0,-0) | (2,0)(2,0) | (2,0)
    let points = [0.0, 0.0, -0.0, 0.0, 0.0, 0.0, -0.0, -0.0, 2.0, 0.0, 2.0, 0.0, 2.0, -0.0];
    let (lengths, contours) = assert_measured(&points, &[3, 1, 2, 1], Inside);
    assert_eq!(lengths, Lengths { cuts: 0, back_steps: 0, jumps: 2_048 });
    assert_eq!(contours, [0; 4]);
}

#[test]
fn lengths_pass_32_bits() {
    let corners = [[-1.0, -1.0], [1.0, 1.0], [-1.0, 1.0], [1.0, -1.0]];
    let points = corners.map(|corner| corner.map(|c| c * CORNER)).concat();
    let (lengths, contours) = assert_measured(&points, &[4], Outside);
    assert_eq!(contours, [2 * 2_896_309_375 + 2_048_000_000]);
    assert_eq!((lengths.back_steps, lengths.jumps), (0, 0));
    // As single points: the same way, by jumps.
    let (lengths, _) = assert_measured(&points, &[1; 4], Outside);
    assert!(lengths.cuts == 0 && lengths.jumps > 1 << 32, "{lengths:?}");
    // Back over all of it.
    let points = [&points[..], &[-CORNER, -CORNER]].concat();
    let (lengths, _) = assert_measured(&points, &[4, 1], Outside);
    assert_eq!((lengths.back_steps, lengths.jumps), (lengths.cuts, 0));
}

#[test]
fn steps_back_over_steps_back_count_again() {
    let mut next = numbers(101);
    let points: Vec<f64> = (0..120).map(|_| next() as f64).collect();
    let path = retrace(&points, &[1; 60], Size::default(), Inside).unwrap();
    let marks = path.marks();
    let over_back = marks.iter().filter(|mark| match mark.numbers() {
        [2, reversed] => marks[reversed as usize + 1].numbers()[0] == 2,
        _ => false,
    });
    assert!(over_back.count() > 100);
    let lengths = assert_measured(&points, &[1; 60], Inside).0;
    assert!(lengths.back_steps > 10 * lengths.jumps, "{lengths:?}");
}

#[test]
fn some_pairs_of_a_path_have_the_lengths_of_these() {
    // Plate E: two cuts, two steps back and a jump.
    let path = retrace(&[0.0, 0.0, 4.0, 0.0, 8.0, 0.0, 0.0, 1.0], &[3, 1], Size::default(), Inside);
    let path = path.unwrap();
    let first = |count| {
        let Lengths { cuts, back_steps, jumps } = Lengths::of(path.pairs().take(count)).unwrap();
        [cuts, back_steps, jumps].map(|length| length / 1_024)
    };
    let sums = [[0, 0, 0], [4, 0, 0], [8, 0, 0], [8, 4, 0], [8, 8, 0], [8, 8, 1]];
    assert_eq!([0, 1, 2, 3, 4, 5].map(first), sums);
}

#[test]
fn a_path_from_elsewhere_may_have_no_lengths() {
    let marks = [0, 0, 1, 0, 3, 2];
    let read = |x| MarkedPath::of(&[0.0, 0.0, x, 0.0, x, LIMIT], &marks).unwrap().lengths();
    let farthest = Lengths { cuts: 1 << 41, back_steps: 0, jumps: 1 << 41 };
    assert_eq!(read(LIMIT), Some(farthest));
    for off in [LIMIT.next_up(), -LIMIT.next_up(), f64::INFINITY, f64::NAN] {
        assert_eq!(read(off), None, "{off}");
    }
    assert_eq!(
        MarkedPath::of(&[f64::NAN, 0.0], &[0, 0]).unwrap().lengths(),
        Some(Lengths::default())
    );
}

#[test]
fn a_sum_beyond_64_bits_is_none() {
    // Pairs of 2^42.5: with so many the sum passes 2^64.
    const PAIRS: usize = 2_965_821;
    let far = |count| {
        let (from, to) = (point(-LIMIT, -LIMIT), point(LIMIT, LIMIT));
        let pair = Pair { from, to, kind: PairKind::Cut { segment: 0 } };
        Lengths::of(std::iter::repeat_n(pair, count))
    };
    assert_eq!(far(PAIRS), None);
    assert_eq!(
        far(PAIRS - 1).map(|lengths| lengths.cuts),
        Some(6_219_777_023_950 * (PAIRS as u64 - 1))
    );
}

/// What refuses a plate refuses it here too.
fn assert_refused(points: &[f64], lengths: &[u32], refusal: Refusal) {
    let plate = Plate::new(points, lengths);
    assert_eq!(plate.contour_lengths(), Err(refusal));
    assert_eq!(plate.retrace(Size::default(), Inside).unwrap_err(), refusal);
}

#[test]
fn contours_are_refused_as_a_plate_is() {
    refused::above_4096_contours(assert_refused);
    refused::above_65536_points(assert_refused);
    refused::unless_the_points_are_twice_the_sum(assert_refused);
    refused::at_the_first_coordinate_off_the_plate(assert_refused);
    let layered = |layers: &[u32]| Plate::with_layers(&[1.0, 1.0], &[1], layers).contour_lengths();
    assert_eq!(layered(&[15]), Ok(vec![0]));
    assert_eq!(layered(&[16]), Err(Refusal::BadLayer(LayerFault::Layer { contour: 0 })));
    assert_eq!(layered(&[]), Err(Refusal::BadLayer(LayerFault::Length { contours: 1 })));
}

#[test]
fn lent_slices_give_the_lengths_too() {
    let points = [0.0, 0.0, 4.0, 0.0, 8.0, 0.0, 0.0, 1.0];
    let (mut path, mut marks, mut work) = ([7.0; 12], [7; 12], vec![7; 6 + 16 + 16 + 16_384]);
    let strategies = [Inside, Home(point(0.0, 0.0))];
    for strategy in strategies {
        let totals = retrace_into(
            &points,
            &[3, 1],
            Size::default(),
            strategy,
            &mut path,
            &mut marks,
            &mut work,
            &mut [7.0; 2],
        );
        let lengths = Lengths { cuts: 8_192, back_steps: 8_192, jumps: 1_024 };
        assert_eq!(totals.map(|totals| totals.lengths), Ok(lengths));
    }
}
