//! The retrace call through the safe interface: document 01's plates A and D to G, contours
//! that touch, and every refusal.

mod refused;

use twillharbor::Refusal::{Full, WorkShort};
use twillharbor::StartPointStrategy::{Inside, Outside};
use twillharbor::{
    Counts, Lengths, Mark, MarkedPath, PairKind, Point, Refusal, Size, StartPointStrategy, Totals,
    distance, retrace, retrace_into, retrace_work,
};

const MOST: u32 = 1_048_576;
const BOTH: [StartPointStrategy; 2] = [Outside, Inside];
const NOTHING: Lengths = Lengths { cuts: 0, back_steps: 0, jumps: 0 };

/// A marked plate and its path.
struct Plate {
    points: &'static [f64],
    lengths: &'static [u32],
    size: Size,
    strategy: StartPointStrategy,
    path: &'static [f64],
    marks: &'static [u32],
}

const D: Plate = Plate {
    points: &[0.0, 0.0, 4.0, 0.0, 4.0, 1.0, 8.0, 1.0],
    lengths: &[2, 2],
    size: Size { width: 8, height: 2 },
    strategy: Outside,
    path: &[0.0, 0.0, 4.0, 0.0, 4.0, 1.0, 8.0, 1.0],
    marks: &[0, 0, 1, 0, 3, 2, 1, 2],
};

const E: Plate = Plate {
    points: &[0.0, 0.0, 4.0, 0.0, 8.0, 0.0, 0.0, 1.0],
    lengths: &[3, 1],
    size: Size { width: 0, height: 0 },
    strategy: Inside,
    path: &[0.0, 0.0, 4.0, 0.0, 8.0, 0.0, 4.0, 0.0, 0.0, 0.0, 0.0, 1.0],
    marks: &[0, 0, 1, 0, 1, 1, 2, 1, 2, 0, 3, 3],
};

const F: Plate = Plate {
    points: &[4.0, 0.0, 0.0, 1.0, 4.0, 1.0, 8.0, 1.0],
    lengths: &[1, 3],
    size: Size { width: 8, height: 0 },
    strategy: Inside,
    path: &[4.0, 0.0, 4.0, 1.0, 8.0, 1.0, 4.0, 1.0, 0.0, 1.0],
    marks: &[0, 0, 3, 2, 1, 2, 2, 1, 1, 1],
};

const G: Plate = Plate {
    points: &[0.0, 0.0, 1.0, 0.0, 0.0, 1.0],
    lengths: &[1, 1, 1],
    size: Size { width: 0, height: 0 },
    strategy: Inside,
    path: &[0.0, 0.0, 1.0, 0.0, 0.0, 0.0, 0.0, 1.0],
    marks: &[0, 0, 3, 1, 2, 0, 3, 2],
};

/// Plate E with its last contour moved onto the first contour's start, and a segment longer.
const TOUCHING: Plate = Plate {
    points: &[0.0, 0.0, 4.0, 0.0, 8.0, 0.0, -0.0, 0.0, 0.0, 4.0],
    lengths: &[3, 2],
    size: Size { width: 0, height: 0 },
    strategy: Inside,
    path: &[0.0, 0.0, 4.0, 0.0, 8.0, 0.0, 4.0, 0.0, 0.0, 0.0, -0.0, 0.0, 0.0, 4.0],
    marks: &[0, 0, 1, 0, 1, 1, 2, 1, 2, 0, 4, 3, 1, 3],
};

/// Slices to lend, each number of which is 7.
struct Slices {
    path: Vec<f64>,
    marks: Vec<u32>,
    work: Vec<u32>,
    distances: Vec<f64>,
}

impl Slices {
    /// With just enough work for a capacity, and room for it.
    fn with_capacity(plate: &Plate, capacity: usize) -> Self {
        let work = retrace_work(capacity, plate.points.len() / 2, plate.lengths.len());
        Self::of(2 * capacity, 2 * capacity, work, plate.lengths.len())
    }

    fn of(path: usize, marks: usize, work: usize, distances: usize) -> Self {
        let (path, distances) = (vec![7.0; path], vec![7.0; distances]);
        Self { path, marks: vec![7; marks], work: vec![7; work], distances }
    }

    fn retrace(&mut self, plate: &Plate) -> Result<Totals, Refusal> {
        let Plate { points, lengths, size, strategy, .. } = *plate;
        let Self { path, marks, work, distances } = self;
        retrace_into(points, lengths, size, strategy, path, marks, work, distances)
    }

    /// The output slices begin with the first of the plate's path points and marks, and the
    /// rest of them is unaltered.
    fn assert_written(&self, plate: &Plate, points: usize) {
        let written = 2 * points;
        assert_eq!(self.path[..written], plate.path[..written]);
        assert_eq!(self.marks[..written], plate.marks[..written]);
        assert!(self.path[written..].iter().all(|&x| x == 7.0));
        assert!(self.marks[written..].iter().all(|&n| n == 7));
    }

    fn assert_unaltered(&self) {
        assert!(self.path.iter().chain(&self.distances).all(|&x| x == 7.0));
        assert!(self.marks.iter().chain(&self.work).all(|&n| n == 7));
    }
}

fn point(x: f64, y: f64) -> Point {
    Point { x, y }
}

/// The numbers are those of cuts, back-steps, jumps and touches, then the lengths in 1,024ths, of
/// jumps and touches together.
fn assert_retraced(
    plate: &Plate,
    [cuts, back_steps, jumps, touches]: [usize; 4],
    [cut, back, jumped]: [u64; 3],
) {
    let counts = Counts { points: plate.path.len() / 2, cuts, back_steps, jumps, touches };
    let lengths = Lengths { cuts: cut, back_steps: back, jumps: jumped };
    let path = retrace(plate.points, plate.lengths, plate.size, plate.strategy).unwrap();
    let points: Vec<f64> = path.points().iter().flat_map(|p| [p.x, p.y]).collect();
    let marks: Vec<u32> = path.marks().iter().flat_map(|mark| mark.numbers()).collect();
    assert_eq!((&points[..], &marks[..]), (plate.path, plate.marks));
    assert_eq!((path.counts(), path.lengths()), (counts, Some(lengths)));
    assert_eq!(MarkedPath::of(&points, &marks), Some(path.clone()));
    let contours = twillharbor::Plate::new(plate.points, plate.lengths).contour_lengths().unwrap();
    assert_eq!(contours.iter().sum::<u64>(), lengths.cuts);

    assert_eq!(path.start(), Some((path.points()[0], plate.marks[1])));
    assert_eq!(path.pairs().len(), counts.points - 1);
    for (place, pair) in (1..).zip(path.pairs()) {
        assert_eq!([pair.from, pair.to], path.points()[place - 1..=place]);
        let mark = match pair.kind {
            PairKind::Cut { segment } => Mark::Cut { segment },
            PairKind::BackStep { reversed } => Mark::BackStep { reversed },
            PairKind::Jump { vertex } => Mark::Jump { vertex },
            PairKind::Touch { vertex } => Mark::Touch { vertex },
        };
        assert_eq!(mark, path.marks()[place]);
    }

    let mut slices = Slices::with_capacity(plate, counts.points);
    assert_eq!(slices.retrace(plate), Ok(Totals { counts, lengths }));
    slices.assert_written(plate, counts.points);
}

/// Both functions refuse alike. The slices that one of them is lent hold what they held.
fn assert_refused(points: &[f64], lengths: &[u32], refusal: Refusal) {
    let size = Size { width: 10, height: 10 };
    for strategy in BOTH {
        assert_eq!(retrace(points, lengths, size, strategy), Err(refusal));
        let mut slices = Slices::of(9, 7, 5, 2);
        let Slices { path, marks, work, distances } = &mut slices;
        let into = retrace_into(points, lengths, size, strategy, path, marks, work, distances);
        assert_eq!(into, Err(refusal));
        slices.assert_unaltered();
    }
}

#[test]
fn plate_a_has_an_empty_path() {
    for lengths in [&[][..], &[0], &[0, 0, 0]] {
        for strategy in BOTH {
            let path = retrace(&[], lengths, Size::default(), strategy).unwrap();
            assert_eq!((path.points(), path.marks()), (&[][..], &[][..]));
            assert_eq!((path.counts(), path.lengths()), (Counts::default(), Some(NOTHING)));
            assert_eq!(path.start(), None);
            assert_eq!(path.pairs().count(), 0);
        }
    }
}

#[test]
fn plate_d_is_two_cuts_and_a_jump() {
    assert_retraced(&D, [2, 0, 1, 0], [8 * 1_024, 0, 1_024]);
}

#[test]
fn plate_e_walks_back() {
    assert_retraced(&E, [2, 2, 1, 0], [8 * 1_024, 8 * 1_024, 1_024]);
}

#[test]
fn plate_e_is_cut_short_where_four_fit() {
    for (path, marks) in [(8, 8), (9, 9), (8, 40), (9, 12), (12, 9), (40, 8)] {
        let work = retrace_work(4, 4, 2);
        let mut slices = Slices::of(path, marks, work, 2);
        assert_eq!(slices.retrace(&E), Err(Full { place: 4 }));
        slices.assert_written(&E, 4);
    }
}

#[test]
fn plate_f_is_entered_in_the_middle() {
    assert_retraced(&F, [2, 1, 1, 0], [8 * 1_024, 4 * 1_024, 1_024]);
    let path = retrace(F.points, F.lengths, F.size, F.strategy).unwrap();
    let pairs: Vec<_> = path.pairs().map(|pair| (pair.from, pair.to, pair.kind)).collect();
    let (low, middle) = (point(4.0, 0.0), point(4.0, 1.0));
    assert_eq!(path.start(), Some((low, 0)));
    assert_eq!(
        pairs,
        [
            (low, middle, PairKind::Jump { vertex: 2 }),
            (middle, point(8.0, 1.0), PairKind::Cut { segment: 2 }),
            (point(8.0, 1.0), middle, PairKind::BackStep { reversed: 1 }),
            (middle, point(0.0, 1.0), PairKind::Cut { segment: 1 }),
        ]
    );
}

#[test]
fn plate_g_goes_back_to_the_start() {
    assert_retraced(&G, [0, 1, 2, 0], [0, 1_024, 2 * 1_024]);
}

#[test]
fn a_reversed_start_cuts_downward() {
    // Plate B, Inside.
    let size = Size { width: 10, height: 10 };
    let path = retrace(&[0.0, 0.0, 4.0, 0.0], &[2], size, Inside).unwrap();
    assert_eq!(path.points(), [point(4.0, 0.0), point(0.0, 0.0)]);
    assert_eq!(path.marks(), [Mark::Start { vertex: 1 }, Mark::Cut { segment: 0 }]);
}

#[test]
fn skipped_contours_have_no_vertices() {
    // Plate E with skipped contours: the vertices, and so the marks, are the same.
    let lengths = [0, 3, 0, 0, 1, 0];
    let path = retrace(E.points, &lengths, E.size, E.strategy).unwrap();
    let marks: Vec<u32> = path.marks().iter().flat_map(|mark| mark.numbers()).collect();
    assert_eq!(marks, E.marks);
    assert_eq!(path.counts(), Counts { points: 6, cuts: 2, back_steps: 2, jumps: 1, touches: 0 });
}

#[test]
fn a_touch_is_left_where_the_walk_back_ends() {
    assert_retraced(&TOUCHING, [3, 2, 0, 1], [12 * 1_024, 8 * 1_024, 0]);
    let path =
        retrace(TOUCHING.points, TOUCHING.lengths, TOUCHING.size, TOUCHING.strategy).unwrap();
    let touch = path.pairs().nth(4).unwrap();
    assert_eq!(touch.kind, PairKind::Touch { vertex: 3 });
    assert_eq!(
        (touch.from.x.to_bits(), touch.to.x.to_bits()),
        (0.0_f64.to_bits(), (-0.0_f64).to_bits())
    );
}

/// What becomes of the way from a single point to another.
fn entered(from: Point, to: Point) -> Mark {
    let path = retrace(&[from.x, from.y, to.x, to.y], &[1, 1], Size::default(), Inside).unwrap();
    let [start, entry] = path.marks() else { panic!("{:?}", path.marks()) };
    assert_eq!(*start, Mark::Start { vertex: 0 });
    let counts = path.counts();
    assert_eq!((counts.points, counts.jumps + counts.touches), (2, 1));
    assert_eq!(counts.touches == 1, matches!(entry, Mark::Touch { .. }));
    *entry
}

#[test]
fn equal_points_touch_and_zero_equals_minus_zero() {
    let (touch, jump) = (Mark::Touch { vertex: 1 }, Mark::Jump { vertex: 1 });
    assert_eq!(entered(point(1.0, 1.0), point(1.0, 1.0)), touch);
    for [ax, ay, bx, by] in [[0.0, 0.0, -0.0, 0.0], [0.0, -0.0, 0.0, 0.0], [-0.0, 0.0, 0.0, -0.0]] {
        assert_eq!(entered(point(ax, ay), point(bx, by)), touch);
    }
    // One coordinate is not enough, and neither is a squared distance of 0.
    assert_eq!(entered(point(1.0, 1.0), point(1.0, 2.0)), jump);
    assert_eq!(entered(point(1.0, 1.0), point(2.0, 1.0)), jump);
    assert_eq!(distance(point(0.0, 0.0), point(1e-200, 0.0)).unwrap().squared, 0.0);
    assert_eq!(entered(point(0.0, 0.0), point(1e-200, 0.0)), jump);
    assert_eq!(entered(point(0.0, 0.0), point(0.0, -1e-200)), jump);
}

#[test]
fn jumps_and_touches_are_one_less_than_the_contours() {
    let points = [0.0, 0.0, 1.0, 0.0, 1.0, -0.0, 2.0, 0.0, 5.0, 0.0, 5.0, 0.0];
    let path = retrace(&points, &[2, 0, 2, 1, 1], Size::default(), Inside).unwrap();
    let Counts { cuts, back_steps, jumps, touches, .. } = path.counts();
    assert_eq!((cuts, back_steps, jumps, touches), (2, 0, 1, 2));
    let marks: Vec<u32> = path.marks().iter().flat_map(|mark| mark.numbers()).collect();
    assert_eq!(marks, [0, 0, 1, 0, 4, 2, 1, 2, 3, 4, 4, 5]);
}

#[test]
fn cuts_and_back_steps_between_equal_points_stay_so() {
    let points = [0.0, 0.0, 4.0, 0.0, 4.0, 0.0, 8.0, 0.0, 0.0, 1.0];
    let path = retrace(&points, &[4, 1], Size::default(), Inside).unwrap();
    let marks: Vec<u32> = path.marks().iter().flat_map(|mark| mark.numbers()).collect();
    assert_eq!(marks, [0, 0, 1, 0, 1, 1, 1, 2, 2, 2, 2, 1, 2, 0, 3, 4]);
    assert_eq!(path.counts().touches, 0);
}

#[test]
fn coordinates_keep_their_bits() {
    let points = [0.0, -0.0, -0.0, 0.0, -0.0, -0.0];
    let path = retrace(&points, &[3], Size::default(), Inside).unwrap();
    let bits: Vec<u64> = path.points().iter().flat_map(|p| [p.x, p.y].map(f64::to_bits)).collect();
    assert_eq!(bits, points.map(f64::to_bits));
}

/// Single points that lie so that the path walks back again and again.
fn scattered(count: u32) -> (Vec<f64>, Vec<u32>) {
    let places = (0..count).flat_map(|i| [i * 37 % 101, i * 53 % 97]);
    (places.map(f64::from).collect(), vec![1; count as usize])
}

#[test]
fn slices_grow_with_the_path() {
    let size = Size { width: 100, height: 100 };
    let (points, lengths) = scattered(60);
    let path = retrace(&points, &lengths, size, Outside).unwrap();
    let Counts { points, cuts, back_steps, jumps, touches } = path.counts();
    // Far more than there were slices for at first.
    assert!(points > 1_000, "{points} path points");
    assert_eq!((points, cuts, jumps, touches), (back_steps + 60, 0, 59, 0));
    assert_eq!(path.pairs().len(), points - 1);
}

#[test]
fn more_than_1048576_path_points_are_refused() {
    let size = Size { width: 100, height: 100 };
    let (points, lengths) = scattered(120);
    let whole = retrace(&points, &lengths, size, Outside).map(|path| path.counts());
    assert_eq!(whole, Err(Full { place: MOST }));
    // Longer slices do not help, and work for so many is enough.
    let most = MOST as usize;
    let mut slices = Slices::of(2 * most + 9, 2 * most + 5, retrace_work(most, 120, 120), 120);
    let Slices { path, marks, work, distances } = &mut slices;
    let into = retrace_into(&points, &lengths, size, Outside, path, marks, work, distances);
    assert_eq!(into, Err(Full { place: MOST }));
    // The last that fit is written, and nothing after it.
    assert!(marks[2 * most - 2] == 2 || marks[2 * most - 2] == 3);
    assert!(points.chunks(2).any(|point| path[2 * most - 2..2 * most] == *point));
    assert!(path[2 * most..].iter().all(|&x| x == 7.0) && marks[2 * most..] == [7; 5]);
}

#[test]
fn a_result_alters_nothing_beyond_it() {
    for plate in [D, E, F, G, TOUCHING] {
        let points = plate.path.len() / 2;
        for (path, marks) in [(0, 1), (1, 0), (1, 1), (4, 3), (0, 9), (9, 0)] {
            let capacity = points + path.min(marks) / 2;
            let work = retrace_work(capacity, plate.points.len() / 2, plate.lengths.len());
            let (path, marks) = (2 * points + path, 2 * points + marks);
            let mut slices = Slices::of(path, marks, work, plate.lengths.len() + 1);
            assert_eq!(slices.retrace(&plate).map(|totals| totals.counts.points), Ok(points));
            slices.assert_written(&plate, points);
        }
    }
}

#[test]
fn refusal_1_above_4096_contours() {
    assert!(retrace(&[], &[0; 4_096], Size::default(), Outside).is_ok());
    refused::above_4096_contours(assert_refused);
}

#[test]
fn refusal_2_above_65536_points() {
    let all = retrace(&[1.0; 2 * 65_536], &[65_535, 1], Size::default(), Outside).unwrap();
    let Counts { cuts, jumps, touches, .. } = all.counts();
    assert_eq!((cuts, jumps, touches), (65_534, 0, 1));
    refused::above_65536_points(assert_refused);
}

#[test]
fn refusal_3_unless_the_points_are_twice_the_sum() {
    refused::unless_the_points_are_twice_the_sum(assert_refused);
}

#[test]
fn refusal_4_at_the_first_coordinate_off_the_plate() {
    assert!(retrace(&refused::SOUND, &[1, 2], Size::default(), Outside).is_ok());
    refused::at_the_first_coordinate_off_the_plate(assert_refused);
}

#[test]
fn refusal_5_where_work_is_short() {
    // With room for less than the path, refusal 6 would hold too.
    for capacity in [0, 3, 6, 20] {
        let enough = retrace_work(capacity, 4, 2);
        let room = 2 * capacity;
        let refused =
            [(enough - 1, 2, 0), (enough - 1, 1, 0), (0, 0, 0), (enough, 1, 1), (enough, 0, 1)];
        for (work, distances, place) in refused {
            let mut slices = Slices::of(room, room, work, distances);
            assert_eq!(slices.retrace(&E), Err(WorkShort { place }));
            slices.assert_unaltered();
        }
    }
    // It is C that counts, which the shorter slice decides; and skipped contours do.
    let mut slices = Slices::of(12, 900, retrace_work(6, 4, 2), 2);
    assert!(slices.retrace(&E).is_ok());
    let skipped = Plate { lengths: &[3, 0, 1], ..E };
    let mut slices = Slices::of(12, 12, retrace_work(6, 4, 2), 3);
    assert_eq!(slices.retrace(&skipped), Err(WorkShort { place: 0 }));
    let mut slices = Slices::of(12, 12, retrace_work(6, 4, 3), 2);
    assert_eq!(slices.retrace(&skipped), Err(WorkShort { place: 1 }));
    let blank = Plate { points: &[], lengths: &[0], ..E };
    let mut slices = Slices::of(0, 0, retrace_work(0, 0, 1) - 1, 1);
    assert_eq!(slices.retrace(&blank), Err(WorkShort { place: 0 }));
}

#[test]
fn refusal_6_leaves_the_first_that_fit() {
    for plate in [D, E, F, G, TOUCHING] {
        for capacity in 0..plate.path.len() / 2 {
            for (path, marks) in [(0, 0), (1, 1), (1, 8), (8, 1)] {
                let mut slices = Slices::with_capacity(&plate, capacity);
                slices.path.resize(2 * capacity + path, 7.0);
                slices.marks.resize(2 * capacity + marks, 7);
                assert_eq!(slices.retrace(&plate), Err(Full { place: capacity as u32 }));
                slices.assert_written(&plate, capacity);
            }
        }
    }
}
