//! The contours of a path with marks through the safe interface: of document 01's paths, of paths
//! that draw contours in another way, each rule of marks, and every refusal.

use twillharbor::Refusal::{
    self, Full, MarksInconsistent, Miscounted, PathOffThePlate, TooManyContours, VertexMissing,
    WorkShort,
};
use twillharbor::{
    Contours, Plate, Recovered, Size, StartPointStrategy, check_path, contours, contours_into,
    contours_work,
};

const LIMIT: f64 = 1_000_000.0;
const ORIGIN: Point = [0.0, 0.0];

type Point = [f64; 2];
type Mark = [u32; 2];

fn bits(coordinates: &[f64]) -> Vec<u64> {
    coordinates.iter().map(|c| c.to_bits()).collect()
}

/// The path slice and the marks slice.
fn handed(steps: &[(Point, Mark)]) -> (Vec<f64>, Vec<u32>) {
    (steps.iter().flat_map(|step| step.0).collect(), steps.iter().flat_map(|step| step.1).collect())
}

/// What both functions answer of a path. The one that is lent its slices has all the room that a
/// result can need, and nothing is altered that is not part of a result.
#[track_caller]
fn recovered(steps: &[(Point, Mark)]) -> Result<Contours, Refusal> {
    let (path, marks) = handed(steps);
    let answer = contours(&path, &marks);
    let most = steps.len();
    let (mut points, mut lengths) = (vec![7.0; 2 * most + 1], vec![7; most + 1]);
    let mut work = vec![u32::MAX; contours_work(most)];
    let counts = contours_into(&path, &marks, &mut points, &mut lengths, &mut work);
    let held = match (&answer, counts) {
        (Ok(back), Ok(Recovered { points: held, contours })) => {
            let (held, contours) = (2 * held as usize, contours as usize);
            assert_eq!(bits(back.points()), bits(&points[..held]));
            assert_eq!(back.lengths(), &lengths[..contours]);
            [held, contours]
        }
        (Err(refusal), counts) => {
            assert_eq!(counts, Err(*refusal));
            [0, 0]
        }
        (Ok(_), Err(refusal)) => panic!("{refusal}"),
    };
    assert!(points[held[0]..].iter().all(|&c| c == 7.0));
    assert!(lengths[held[1]..].iter().all(|&length| length == 7));
    answer
}

/// The contours that a path gives, for which the check accepts it.
#[track_caller]
fn gives(steps: &[(Point, Mark)], expected: &[&[Point]]) {
    let back = recovered(steps).unwrap();
    assert_eq!(bits(back.points()), bits(expected.concat().as_flattened()));
    let lengths: Vec<u32> = expected.iter().map(|points| points.len() as u32).collect();
    assert_eq!(back.lengths(), lengths);
    let (path, marks) = handed(steps);
    assert_eq!(check_path(back.points(), back.lengths(), &path, &marks), Ok(()));
}

/// Plate E, whose path walks back, by its path.
fn e() -> Vec<(Point, Mark)> {
    let [a, b, c, d] = [[0.0, 0.0], [4.0, 0.0], [8.0, 0.0], [0.0, 1.0]];
    vec![(a, [0, 0]), (b, [1, 0]), (c, [1, 1]), (b, [2, 1]), (a, [2, 0]), (d, [3, 3])]
}

#[track_caller]
fn inconsistent(steps: &[(Point, Mark)], place: u64) {
    assert_eq!(recovered(steps), Err(MarksInconsistent { place }));
    // What comes after the first path point at fault makes no difference.
    let more = [steps, &[([1.0, 1.0], [9, 9]), ([2.0, 2.0], [0, 0])]].concat();
    assert_eq!(recovered(&more), Err(MarksInconsistent { place }));
}

/// Plate E's path with another mark at a path point, at which it is refused.
#[track_caller]
fn marked(place: usize, mark: Mark) {
    let mut steps = e();
    steps[place].1 = mark;
    inconsistent(&steps, place as u64);
}

/// The same with another point.
#[track_caller]
fn moved(place: usize, point: Point) {
    let mut steps = e();
    steps[place].0 = point;
    inconsistent(&steps, place as u64);
}

#[test]
fn the_documents_paths_give_their_contours() {
    let [a, b, c, d] = [[0.0, 0.0], [4.0, 0.0], [8.0, 0.0], [0.0, 1.0]];
    gives(&e(), &[&[a, b, c], &[d]]);
    let (p, q) = ([4.0, 1.0], [8.0, 1.0]);
    gives(&[(a, [0, 0]), (b, [1, 0]), (p, [3, 2]), (q, [1, 2])], &[&[a, b], &[p, q]]);
    // A contour that is entered in its middle.
    let steps = [(b, [0, 0]), (p, [3, 2]), (q, [1, 2]), (p, [2, 1]), (d, [1, 1])];
    gives(&steps, &[&[b], &[d, p, q]]);
    gives(&[], &[]);
}

/// Contours of random lengths, some of them empty, with points that often meet.
fn picture(seed: &mut u64) -> (Vec<f64>, Vec<u32>) {
    let mut below = |most: u64| {
        *seed =
            seed.wrapping_mul(6_364_136_223_846_793_005).wrapping_add(1_442_695_040_888_963_407);
        (*seed >> 33) % most
    };
    let lengths: Vec<u32> = (0..below(6)).map(|_| below(5) as u32).collect();
    let odd = [0.0, -0.0, 5e-324, 0.1, LIMIT, -LIMIT, 1.0, 2.0];
    let points = (0..2 * lengths.iter().sum::<u32>()).map(|_| odd[below(8) as usize]).collect();
    (points, lengths)
}

#[test]
fn each_path_that_is_retraced_gives_the_contours_that_hold_a_point() {
    let mut seed = 1;
    for _ in 0..2_000 {
        let (points, lengths) = picture(&mut seed);
        let layers: Vec<u32> = (0..lengths.len()).map(|contour| contour as u32 % 3).collect();
        let home = twillharbor::Point { x: 5.0, y: -0.0 };
        for plate in [Plate::new(&points, &lengths), Plate::with_layers(&points, &lengths, &layers)]
        {
            for strategy in [StartPointStrategy::Inside, StartPointStrategy::Home(home)] {
                let drawn = plate.retrace(Size::default(), strategy).unwrap();
                let path: Vec<f64> = drawn.points().iter().flat_map(|p| [p.x, p.y]).collect();
                let marks: Vec<u32> = drawn.marks().iter().flat_map(|m| m.numbers()).collect();
                let back = contours(&path, &marks).unwrap();
                assert_eq!(bits(back.points()), bits(&points), "{plate:?}");
                let held: Vec<u32> = lengths.iter().copied().filter(|&n| n > 0).collect();
                assert_eq!(back.lengths(), held, "{plate:?}");
                assert_eq!(back.plate(), Plate::new(&points, &held));
                assert_eq!(check_path(back.points(), back.lengths(), &path, &marks), Ok(()));
            }
        }
    }
}

#[test]
fn another_order_sense_and_detour_give_the_same_contours() {
    let [a, b, c, d] = [[0.0, 0.0], [4.0, 0.0], [8.0, 0.0], [0.0, 1.0]];
    let steps =
        [(d, [0, 3]), (b, [3, 1]), (c, [1, 1]), (b, [2, 1]), (d, [2, 0]), (b, [2, 3]), (a, [1, 0])];
    // Back-step 3 goes from path point 4's vertex to path point 3's, and the cut on from vertex 1.
    gives(&steps, &[&[a, b, c], &[d]]);
    gives(&[(c, [0, 2]), (b, [1, 1]), (a, [1, 0]), (d, [3, 3])], &[&[a, b, c], &[d]]);
}

#[test]
fn cuts_alone_join() {
    let [a, b, c, d] = [[0.0, 0.0], [1.0, 0.0], [2.0, 0.0], [3.0, 0.0]];
    gives(&[(a, [0, 0]), (b, [3, 1]), (c, [3, 2])], &[&[a], &[b], &[c]]);
    gives(&[(a, [0, 0]), (b, [1, 0]), (c, [3, 2]), (d, [1, 2])], &[&[a, b], &[c, d]]);
    gives(&[(d, [0, 3]), (a, [3, 0]), (b, [1, 0]), (c, [1, 1])], &[&[a, b, c], &[d]]);
    // A segment of length 0, and a touch where another contour ends.
    gives(&[(c, [0, 0]), (c, [1, 0])], &[&[c, c]]);
    gives(&[(a, [0, 0]), (b, [1, 0]), (b, [4, 2]), (c, [1, 2])], &[&[a, b], &[b, c]]);
}

#[test]
fn points_are_kept_bit_for_bit() {
    let (zero, minus) = ([0.0, 0.0], [-0.0, 0.0]);
    gives(&[(zero, [0, 0]), (minus, [4, 1])], &[&[zero], &[minus]]);
    gives(&[(minus, [0, 1]), (zero, [4, 0])], &[&[zero], &[minus]]);
    let (far, tiny) = ([LIMIT, -LIMIT], [5e-324, -0.0]);
    gives(&[(far, [0, 0]), (tiny, [1, 0]), (far, [2, 0])], &[&[far, tiny]]);
}

#[test]
fn there_is_no_limit_on_contours_but_that_of_vertices() {
    let most = 65_536;
    let at = |v: u32| ([f64::from(v), 0.0], [if v == 0 { 0 } else { 3 }, v]);
    let steps: Vec<(Point, Mark)> = (0..most).map(at).collect();
    let back = recovered(&steps).unwrap();
    assert_eq!((back.points().len(), back.lengths()), (131_072, &vec![1; 65_536][..]));
    // The calls that take a plate refuse so many.
    let (path, marks) = handed(&steps);
    let checked = check_path(back.points(), back.lengths(), &path, &marks);
    assert_eq!(checked, Err(TooManyContours));
    let retraced = back.plate().retrace(Size::default(), StartPointStrategy::Inside);
    assert_eq!(retraced.err(), Some(TooManyContours));
    let steps: Vec<(Point, Mark)> = (0..most)
        .map(|v| ([f64::from(v), 0.0], if v == 0 { [0, 0] } else { [1, v - 1] }))
        .collect();
    let back = recovered(&steps).unwrap();
    assert_eq!(back.lengths(), [65_536]);
    inconsistent(&[&steps[..], &[([0.0, 1.0], [1, 65_535])]].concat(), 65_536);
    inconsistent(&[&steps[..], &[([0.0, 1.0], [3, 65_536])]].concat(), 65_536);
}

#[test]
fn a_path_may_be_longer_than_any_that_is_retraced() {
    let points = 1_048_579;
    let (a, b) = ([0.0, 0.0], [1.0, 0.0]);
    // After the cut it goes to and fro over the segment.
    let steps: Vec<(Point, Mark)> = (0..points)
        .map(|i: u32| match i {
            0 => (a, [0, 0]),
            1 => (b, [1, 0]),
            _ => (if i.is_multiple_of(2) { a } else { b }, [2, i - 2]),
        })
        .collect();
    let back = recovered(&steps).unwrap();
    assert_eq!((back.points(), back.lengths()), (&[0.0, 0.0, 1.0, 0.0][..], &[2][..]));
}

#[test]
fn kinds_are_0_to_4() {
    for place in 0..6 {
        for kind in [5, 6, u32::MAX] {
            marked(place, [kind, place as u32]);
        }
    }
}

#[test]
fn the_first_mark_and_no_other_is_a_start() {
    for kind in 1..5 {
        marked(0, [kind, 0]);
    }
    for place in 1..6 {
        marked(place, [0, 3]);
    }
}

#[test]
fn no_vertex_is_above_65535() {
    for vertex in [65_536, 65_537, u32::MAX] {
        marked(0, [0, vertex]);
        marked(5, [3, vertex]);
        inconsistent(&[(ORIGIN, [0, 0]), (ORIGIN, [4, vertex])], 1);
    }
    // The end of a segment, too.
    inconsistent(&[(ORIGIN, [0, 65_535]), ([1.0, 0.0], [1, 65_535])], 1);
    inconsistent(&[(ORIGIN, [0, 65_535]), ([1.0, 0.0], [1, u32::MAX])], 1);
    let below = recovered(&[(ORIGIN, [0, 65_535]), ([1.0, 0.0], [1, 65_534])]);
    assert_eq!(below, Err(VertexMissing { place: 0 }));
}

#[test]
fn before_a_cut_stands_an_end_of_its_segment() {
    marked(1, [1, 1]);
    marked(2, [1, 2]);
    marked(5, [1, 2]);
    marked(2, [1, u32::MAX]);
    // Vertices decide, and not points.
    let (a, b, c) = ([4.0, 0.0], [8.0, 0.0], [0.0, 0.0]);
    inconsistent(&[(a, [0, 1]), (a, [4, 2]), (b, [1, 2]), (a, [2, 1]), (c, [1, 0])], 4);
}

#[test]
fn a_back_step_reverses_an_earlier_pair() {
    for (place, k) in [(3, 2), (3, 3), (3, 4), (3, u32::MAX), (2, 1), (1, 0), (5, 4)] {
        marked(place, [2, k]);
    }
    // From another vertex than path point k + 1's.
    marked(3, [2, 0]);
    marked(4, [2, 1]);
    // To other bits than path point k's, though it has k + 1's.
    moved(3, [8.0, 0.0]);
    moved(3, [4.0, -0.0]);
    moved(4, [-0.0, 0.0]);
    moved(4, [5e-324, 0.0]);
}

#[test]
fn a_vertex_is_landed_on_once() {
    let point = |x: u32| [f64::from(x), 0.0];
    for last in [[3, 0], [3, 1], [3, 2], [1, 0], [1, 1]] {
        let steps = [(point(0), [0, 0]), (point(1), [1, 0]), (point(2), [1, 1]), (point(3), last)];
        inconsistent(&steps, 3);
    }
    // A cut onto a vertex that was jumped to, a touch, and far vertices that few path points reach.
    inconsistent(&[(point(0), [0, 0]), (point(1), [3, 1]), (point(0), [1, 0])], 2);
    inconsistent(&[(ORIGIN, [0, 0]), (ORIGIN, [4, 1]), (ORIGIN, [4, 0])], 2);
    inconsistent(&[(point(0), [0, 9]), (point(1), [3, 5]), (point(2), [3, 9])], 2);
    let landings = [(point(0), [0, 60_000]), (point(1), [3, 40_000]), (point(2), [3, 40_000])];
    inconsistent(&landings, 2);
}

#[test]
fn a_jumps_points_differ_and_a_touchs_are_equal() {
    for (from, to) in [(ORIGIN, ORIGIN), (ORIGIN, [-0.0, 0.0]), ([0.0, -0.0], ORIGIN)] {
        // Such a jump was written before there were touches.
        inconsistent(&[(from, [0, 0]), (to, [3, 1])], 1);
        gives(&[(from, [0, 0]), (to, [4, 1])], &[&[from], &[to]]);
    }
    for to in [[0.0, 1.0], [1.0, 0.0], [5e-324, 0.0], [0.0, -1e-200]] {
        inconsistent(&[(ORIGIN, [0, 0]), (to, [4, 1])], 1);
        gives(&[(ORIGIN, [0, 0]), (to, [3, 1])], &[&[ORIGIN], &[to]]);
    }
}

#[test]
fn a_missing_vertex_is_told_after_all_rules() {
    let point = |x: u32| [f64::from(x), 0.0];
    let lacks = |steps: &[(Point, Mark)], place: u64| {
        assert_eq!(recovered(steps), Err(VertexMissing { place }));
    };
    lacks(&[(ORIGIN, [0, 1])], 0);
    lacks(&[(ORIGIN, [0, 65_535])], 0);
    lacks(&[(point(0), [0, 0]), (point(1), [3, 3])], 1);
    lacks(&[(point(0), [0, 0]), (point(1), [3, 65_535])], 1);
    lacks(&[(point(0), [0, 5]), (point(1), [3, 0]), (point(2), [1, 0])], 2);
    inconsistent(&[(point(0), [0, 7]), (point(1), [4, 1])], 1);
}

/// What both functions answer of slices that no rule is looked at in; nothing is altered.
#[track_caller]
fn refused(path: &[f64], marks: &[u32], work: usize, refusal: Refusal) {
    let (mut points, mut lengths, mut work) = ([7.0; 8], [7; 8], vec![7; work]);
    let before = work.clone();
    let answer = contours_into(path, marks, &mut points, &mut lengths, &mut work);
    assert_eq!((answer, points, lengths), (Err(refusal), [7.0; 8], [7; 8]));
    assert_eq!(work, before);
    if !matches!(refusal, WorkShort { .. }) {
        assert_eq!(contours(path, marks), Err(refusal));
    }
}

#[test]
fn refusals_3_4_and_5_come_first_and_alter_nothing() {
    let (path, marks) = ([0.0, f64::NAN, 1.0, f64::NAN], [9; 6]);
    for (of_path, of_marks) in
        [(1, 2), (3, 2), (3, 4), (3, 3), (1, 1), (0, 1), (0, 2), (2, 0), (2, 1), (2, 3), (4, 2)]
    {
        refused(&path[..of_path], &marks[..of_marks], 0, Miscounted);
    }
    for off in [f64::NAN, f64::INFINITY, -f64::INFINITY, LIMIT.next_up(), -LIMIT.next_up()] {
        for place in 0..4 {
            let mut path = [LIMIT, -LIMIT, -0.0, 5e-324];
            path[place] = off;
            path[3] = off;
            refused(&path, &marks[..4], 0, PathOffThePlate { place: place as u64 });
        }
    }
    for work in [0, 1, 7] {
        refused(&[0.0; 4], &marks[..4], work, WorkShort { place: 0 });
    }
    assert_eq!(contours(&[0.0; 4], &marks[..4]), Err(MarksInconsistent { place: 0 }));
    assert_eq!(
        contours_into(&[], &[], &mut [], &mut [], &mut []),
        Ok(Recovered { points: 0, contours: 0 })
    );
}

#[test]
fn refusal_6_comes_last_and_writes_nothing() {
    let path = [0.0, 0.0, 4.0, 0.0, 0.0, 1.0];
    let with = |marks: [u32; 6], held: usize, counted: usize| {
        let (mut points, mut lengths) = (vec![7.0; held], vec![7; counted]);
        let mut work = vec![0; contours_work(3)];
        let answer = contours_into(&path, &marks, &mut points, &mut lengths, &mut work);
        if answer.is_err() {
            assert!(points.iter().all(|&c| c == 7.0) && lengths.iter().all(|&length| length == 7));
        }
        answer
    };
    let marks = [0, 0, 1, 0, 3, 2];
    for (held, counted) in [(5, 2), (6, 1), (0, 0), (5, 1), (4, 9), (9, 0)] {
        assert_eq!(with(marks, held, counted), Err(Full { place: 0 }));
        assert_eq!(with([0, 0, 1, 0, 3, 3], held, counted), Err(VertexMissing { place: 2 }));
        assert_eq!(with([0, 0, 1, 0, 4, 2], held, counted), Err(MarksInconsistent { place: 2 }));
    }
    for (held, counted) in [(6, 2), (7, 2), (6, 3), (20, 20)] {
        assert_eq!(with(marks, held, counted), Ok(Recovered { points: 3, contours: 2 }));
    }
}

#[test]
fn what_the_work_slice_holds_makes_no_difference() {
    let (path, marks) = handed(&e());
    let (mut points, mut lengths) = ([7.0; 8], [7; 2]);
    for content in [0, 1, 3, u32::MAX] {
        for more in [0, 1, 9] {
            let mut work = vec![content; contours_work(6) + more];
            for _ in 0..2 {
                let answer = contours_into(&path, &marks, &mut points, &mut lengths, &mut work);
                assert_eq!(answer, Ok(Recovered { points: 4, contours: 2 }));
            }
        }
    }
    assert_eq!((points, lengths), ([0.0, 0.0, 4.0, 0.0, 8.0, 0.0, 0.0, 1.0], [3, 1]));
}
