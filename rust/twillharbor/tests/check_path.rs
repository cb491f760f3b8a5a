//! The check of a path through the safe interface: paths of document 01's plates, paths that draw
//! them in another way, each rule, and every refusal.

mod refused;

use twillharbor::Refusal::{self, Miscounted, NotDrawn, OffThePlate, TooManyContours, WorkShort};
use twillharbor::{
    Size, StartPointStrategy, check_path, check_path_with, check_path_work, retrace,
};

type Point = [f64; 2];
type Mark = [u32; 2];

/// A plate and a path.
#[derive(Debug, Clone)]
struct Drawn {
    points: Vec<Point>,
    lengths: Vec<u32>,
    path: Vec<Point>,
    marks: Vec<Mark>,
}

impl Drawn {
    fn new(points: &[Point], lengths: &[u32], steps: &[(Point, Mark)]) -> Self {
        Self {
            points: points.to_vec(),
            lengths: lengths.to_vec(),
            path: steps.iter().map(|step| step.0).collect(),
            marks: steps.iter().map(|step| step.1).collect(),
        }
    }

    /// What both functions answer.
    fn check(&self) -> Result<(), Refusal> {
        let (points, path) = (self.points.as_flattened(), self.path.as_flattened());
        let marks = self.marks.as_flattened();
        let answer = check_path(points, &self.lengths, path, marks);
        let mut work = vec![7; check_path_work(self.points.len(), self.lengths.len())];
        assert_eq!(check_path_with(points, &self.lengths, path, marks, &mut work), answer);
        answer
    }

    /// Where a copy with that damage is refused.
    fn damaged(&self, damage: impl Fn(&mut Self)) -> u64 {
        let mut copy = self.clone();
        damage(&mut copy);
        match copy.check() {
            Err(NotDrawn { place }) => place,
            other => panic!("{other:?}, of {copy:?}"),
        }
    }

    fn marked(&self, place: usize, mark: Mark) -> u64 {
        self.damaged(|copy| copy.marks[place] = mark)
    }

    fn moved(&self, place: usize, point: Point) -> u64 {
        self.damaged(|copy| copy.path[place] = point)
    }
}

/// Plate E, whose path walks back.
fn e() -> Drawn {
    let [a, b, c, d] = [[0.0, 0.0], [4.0, 0.0], [8.0, 0.0], [0.0, 1.0]];
    let steps = [(a, [0, 0]), (b, [1, 0]), (c, [1, 1]), (b, [2, 1]), (a, [2, 0]), (d, [3, 3])];
    Drawn::new(&[a, b, c, d], &[3, 1], &steps)
}

/// Three contours that meet at the first's end, one of them a single point, and a skipped one.
fn touching() -> Drawn {
    let [a, b, c] = [[4.0, 0.0], [0.0, 0.0], [0.0, 4.0]];
    let other = [-0.0, 0.0];
    Drawn::new(
        &[a, b, other, c, b],
        &[2, 0, 2, 1],
        &[(a, [0, 0]), (b, [1, 0]), (b, [4, 4]), (other, [4, 2]), (c, [1, 2])],
    )
}

#[test]
fn the_documents_paths_are_accepted() {
    assert_eq!(e().check(), Ok(()));
    assert_eq!(touching().check(), Ok(()));
    for strategy in [StartPointStrategy::Outside, StartPointStrategy::Inside] {
        for plate in [e(), touching()] {
            let (points, lengths) = (plate.points.as_flattened(), &plate.lengths);
            let drawn = retrace(points, lengths, Size::default(), strategy).unwrap();
            let path: Vec<f64> = drawn.points().iter().flat_map(|p| [p.x, p.y]).collect();
            let marks: Vec<u32> = drawn.marks().iter().flat_map(|m| m.numbers()).collect();
            assert_eq!(check_path(points, lengths, &path, &marks), Ok(()));
        }
    }
}

#[test]
fn a_blank_plate_is_drawn_by_the_empty_path_alone() {
    for lengths in [&[][..], &[0], &[0, 0, 0]] {
        assert_eq!(Drawn::new(&[], lengths, &[]).check(), Ok(()));
        let more = Drawn::new(&[], lengths, &[([0.0, 0.0], [0, 0])]);
        assert_eq!(more.check(), Err(NotDrawn { place: 0 }));
    }
    assert_eq!(Drawn::new(&[[1.0, 1.0]], &[1], &[]).check(), Err(NotDrawn { place: 0 }));
}

#[test]
fn another_order_sense_and_detour_are_accepted() {
    let Drawn { points, lengths, .. } = e();
    let [a, b, c, d] = [points[0], points[1], points[2], points[3]];
    // The other contour first, then the middle of the first, a detour and a far jump among it.
    let steps =
        [(d, [0, 3]), (b, [3, 1]), (c, [1, 1]), (b, [2, 1]), (d, [2, 0]), (b, [2, 3]), (a, [1, 0])];
    assert_eq!(Drawn::new(&points, &lengths, &steps).check(), Ok(()));
}

#[test]
fn points_decide_and_not_vertex_numbers() {
    // A closed contour, whose last vertex has the bits of its first: the path starts on the last
    // and cuts the first segment from there; then it steps back over a pair of the same points.
    let [a, b] = [[0.0, 0.0], [4.0, 0.0]];
    let steps = [(a, [0, 2]), (b, [1, 0]), (a, [1, 1]), (b, [2, 0])];
    assert_eq!(Drawn::new(&[a, b, a], &[3], &steps[..3]).check(), Ok(()));
    assert_eq!(Drawn::new(&[a, b, a], &[3], &steps).check(), Err(NotDrawn { place: 3 }));
    let back = [(a, [0, 2]), (b, [1, 0]), (a, [1, 1]), (b, [2, 1]), (a, [2, 0])];
    assert_eq!(Drawn::new(&[a, b, a], &[3], &back).check(), Ok(()));
    // A cut that leaves the other contour's point, where both contours are entered.
    let steps = [(a, [0, 0]), (a, [4, 1]), (b, [1, 1])];
    assert_eq!(Drawn::new(&[a, a, b], &[1, 2], &steps).check(), Ok(()));
    let steps = [(a, [0, 1]), (a, [4, 0]), (b, [1, 1])];
    assert_eq!(Drawn::new(&[a, a, b], &[1, 2], &steps).check(), Ok(()));
}

#[test]
fn starts() {
    let e = e();
    for kind in [1, 2, 3, 4, 5, u32::MAX] {
        assert_eq!(e.marked(0, [kind, 0]), 0);
    }
    assert_eq!(e.marked(5, [0, 3]), 5);
    assert_eq!(e.marked(3, [0, 1]), 3);
    for vertex in [1, 3, 4, 65_535, u32::MAX] {
        assert_eq!(e.marked(0, [0, vertex]), 0);
    }
    assert_eq!(e.moved(0, [-0.0, 0.0]), 0);
    assert_eq!(e.moved(0, [0.0, -0.0]), 0);
}

#[test]
fn jumps_and_touches() {
    let (e, touching) = (e(), touching());
    assert_eq!(e.marked(5, [4, 3]), 5);
    assert_eq!(touching.marked(2, [3, 4]), 2);
    assert_eq!(touching.marked(3, [3, 2]), 3);
    // A vertex of a contour that was entered, of none, and another point.
    assert_eq!(e.marked(1, [3, 1]), 1);
    for vertex in [0, 2, 4, u32::MAX] {
        assert_eq!(e.marked(5, [3, vertex]), 5);
    }
    assert_eq!(e.moved(5, [-0.0, 1.0]), 5);
    assert_eq!(touching.moved(3, [0.0, 0.0]), 3);
    assert_eq!(touching.marked(3, [4, 4]), 3);
}

#[test]
fn cuts() {
    let e = e();
    // Another segment, one cut before, one across two contours, and none.
    for segment in [1, 2, 3, 65_535, u32::MAX] {
        assert_eq!(e.marked(1, [1, segment]), 1);
    }
    assert_eq!(e.marked(2, [1, 0]), 2);
    assert_eq!(e.marked(3, [1, 1]), 3);
    assert_eq!(e.moved(1, [4.0, -0.0]), 1);
    // A cut enters no contour: this one has the bits of a contour not entered before.
    let [a, b] = [[0.0, 0.0], [4.0, 0.0]];
    let steps = [(a, [0, 0]), (b, [1, 2]), (a, [1, 0])];
    let plate = Drawn::new(&[a, b, a, b], &[2, 2], &steps);
    assert_eq!(plate.check(), Err(NotDrawn { place: 1 }));
}

#[test]
fn back_steps() {
    let e = e();
    // One not earlier, the pair itself, and others.
    for path_point in [0, 2, 3, 4, u32::MAX] {
        assert_eq!(e.marked(3, [2, path_point]), 3);
    }
    assert_eq!(e.marked(4, [2, 3]), 4);
    assert_eq!(e.moved(4, [-0.0, 0.0]), 4);
    // Path point k + 1 is an earlier one, and not the back-step's own.
    let a = [0.0, 0.0];
    let plate = Drawn::new(&[a, a], &[2], &[(a, [0, 0]), (a, [1, 0]), (a, [2, 0])]);
    assert_eq!(plate.check(), Ok(()));
    assert_eq!(plate.marked(2, [2, 1]), 2);
    assert_eq!(plate.marked(1, [2, 0]), 1);
}

#[test]
fn what_is_left_out_shows_at_the_end() {
    let e = e();
    for points in 0..6 {
        let short = |copy: &mut Drawn| {
            copy.path.truncate(points);
            copy.marks.truncate(points);
        };
        assert_eq!(e.damaged(short), points as u64);
    }
    let uncut = Drawn::new(
        &[[0.0, 0.0], [1.0, 0.0], [2.0, 0.0]],
        &[3],
        &[([0.0, 0.0], [0, 0]), ([1.0, 0.0], [1, 0])],
    );
    assert_eq!(uncut.check(), Err(NotDrawn { place: 2 }));
}

#[test]
fn the_first_path_point_that_breaks_a_rule_counts() {
    let e = e();
    let twice = e.damaged(|copy| {
        copy.marks[4] = [9, 0];
        copy.path[2][1] = f64::NAN;
        copy.lengths[1] = 0;
        copy.lengths.push(1);
    });
    assert_eq!(twice, 2);
}

#[test]
fn numbers_that_no_plate_has_break_a_rule_at_their_point() {
    let e = e();
    for damaged in [f64::NAN, -f64::NAN, f64::INFINITY, f64::NEG_INFINITY, 1e300] {
        for place in 0..6 {
            for axis in 0..2 {
                let is = e.damaged(|copy| copy.path[place][axis] = damaged);
                assert_eq!(is, place as u64);
            }
        }
    }
    // All of a back-step's bits agree, but a NaN was no vertex before.
    let nan = [f64::NAN, 0.0];
    let steps = [([0.0, 0.0], [0, 0]), (nan, [1, 0]), ([0.0, 0.0], [2, 0])];
    let plate = Drawn::new(&[[0.0, 0.0], [1.0, 0.0]], &[2], &steps);
    assert_eq!(plate.check(), Err(NotDrawn { place: 1 }));
}

/// A plate that is refused before its path is looked at, and the work slice too: it stays as it
/// is.
fn assert_refused(points: &[f64], lengths: &[u32], refusal: Refusal) {
    // The path is not sound either, by its length and by its content.
    for path in [&[][..], &[1.0], &[f64::NAN, 0.0]] {
        for marks in [&[][..], &[0], &[0, 0]] {
            assert_eq!(check_path(points, lengths, path, marks), Err(refusal));
            let mut work = [7; 2];
            let with = check_path_with(points, lengths, path, marks, &mut work);
            assert_eq!((with, work), (Err(refusal), [7; 2]));
        }
    }
}

#[test]
fn refusals_1_to_4_are_the_plates() {
    refused::above_4096_contours(assert_refused);
    refused::above_65536_points(assert_refused);
    refused::unless_the_points_are_twice_the_sum(assert_refused);
    refused::at_the_first_coordinate_off_the_plate(assert_refused);
    assert_eq!(check_path(&[], &[0; 4_096], &[], &[]), Ok(()));
    assert_eq!(check_path(&[], &[0; 4_097], &[], &[]), Err(TooManyContours));
    let most = vec![1.0; 2 * 65_536];
    assert_eq!(check_path(&most, &[65_536], &[], &[]), Err(NotDrawn { place: 0 }));
}

#[test]
fn refusal_3_of_path_and_marks_comes_after_4_and_before_5() {
    let (points, lengths) = ([0.0, 0.0], [1]);
    let (path, marks) = ([0.0, 0.0, f64::NAN, 0.0], [0, 0, 7, 7]);
    for (path_length, marks_length) in
        [(1, 2), (3, 2), (3, 4), (1, 1), (3, 3), (0, 2), (2, 0), (2, 1), (2, 3), (2, 4), (4, 2)]
    {
        let (path, marks) = (&path[..path_length], &marks[..marks_length]);
        for held in [0, 1, 2] {
            let mut work = [7; 2];
            let with = check_path_with(&points, &lengths, path, marks, &mut work[..held]);
            assert_eq!((with, work), (Err(Miscounted), [7; 2]));
        }
        let off = check_path(&[0.0, f64::NAN], &lengths, path, marks);
        assert_eq!(off, Err(OffThePlate { place: 1 }));
    }
    assert_eq!(check_path(&points, &lengths, &path[..2], &marks[..2]), Ok(()));
}

#[test]
fn refusal_5_below_p_plus_m() {
    let e = e();
    let (points, path, marks) =
        (e.points.as_flattened(), e.path.as_flattened(), e.marks.as_flattened());
    // Skipped contours count too.
    let lengths = [0, 3, 0, 1];
    let enough = check_path_work(4, 4);
    assert_eq!(enough, 8);
    for held in 0..enough {
        let mut work = vec![7; held];
        let with = check_path_with(points, &lengths, path, marks, &mut work);
        assert_eq!((with, work), (Err(WorkShort { place: 0 }), vec![7; held]));
        let mut damaged = e.path.clone();
        damaged[0][0] = f64::NAN;
        let damaged = damaged.as_flattened();
        let with = check_path_with(points, &lengths, damaged, marks, &mut vec![7; held]);
        assert_eq!(with, Err(WorkShort { place: 0 }));
    }
    for (held, content) in [(enough, 0), (enough, 1), (enough + 9, u32::MAX)] {
        let mut work = vec![content; held];
        assert_eq!(check_path_with(points, &lengths, path, marks, &mut work), Ok(()));
        // What is left there makes no difference.
        assert_eq!(check_path_with(points, &lengths, path, marks, &mut work), Ok(()));
    }
    assert_eq!(check_path_with(&[], &[0], &[], &[], &mut []), Err(WorkShort { place: 0 }));
    assert_eq!(check_path_with(&[], &[], &[], &[], &mut []), Ok(()));
}
