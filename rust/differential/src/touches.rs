//! What a run meets of touches, and of pairs that are touches but for one thing.

use std::collections::HashSet;
use std::sync::atomic::{AtomicU64, Ordering};

use crate::plates::Plate;
use crate::rule::Retrace;
use crate::rule::retrace::{BACK_STEP, CUT, JUMP, TOUCH};
use crate::tally::{Cases, Listed, is_met};

/// What a run meets.
#[derive(Debug, Clone, Copy, PartialEq, Eq)]
pub enum Case {
    EndOnEnd,
    EndOnMiddle,
    MiddleOnEnd,
    MiddleOnMiddle,
    PointOnPoint,
    ThirdAtOnePoint,
    ClosedOnClosed,
    AfterAWalkBack,
    WalkedBackOver,
    OfAHigherLayer,
    OtherZeroX,
    OtherZeroY,
    OtherZeroBoth,
    Hundred,
    TouchesAlone,
    NoDistance,
    LeastApart,
    EqualX,
    EqualY,
    Exchanged,
    OneStepApart,
    EqualPassedOver,
    MeetElsewhere,
    EqualCut,
    EqualBackStep,
    FullBefore,
    FullAfter,
}

impl Listed for Case {
    const LIST: &'static [(Self, &'static str)] = &[
        (Self::EndOnEnd, "touches: an end on an end"),
        (Self::EndOnMiddle, "touches: an end on a point between ends"),
        (Self::MiddleOnEnd, "touches: a point between ends on an end"),
        (Self::MiddleOnMiddle, "touches: a point between ends on another"),
        (Self::PointOnPoint, "touches: a single point on a single point"),
        (Self::ThirdAtOnePoint, "touches: where a touch landed before"),
        (Self::ClosedOnClosed, "touches: a closed contour on a closed one"),
        (Self::AfterAWalkBack, "touches: after a walk back"),
        (Self::WalkedBackOver, "touches: from a point walked back over before"),
        (Self::OfAHigherLayer, "touches: of a contour of a higher layer"),
        (Self::OtherZeroX, "touches: 0 and -0 along x alone"),
        (Self::OtherZeroY, "touches: 0 and -0 along y alone"),
        (Self::OtherZeroBoth, "touches: 0 and -0 along both"),
        (Self::Hundred, "paths with a hundred touches or more"),
        (Self::TouchesAlone, "paths with two touches or more, and no jump"),
        (Self::NoDistance, "jumps: squared distance 0"),
        (Self::LeastApart, "jumps: 0 and 2^-1074 along one axis, equal along the other"),
        (Self::EqualX, "jumps: equal along x"),
        (Self::EqualY, "jumps: equal along y"),
        (Self::Exchanged, "jumps: each x is the other's y"),
        (Self::OneStepApart, "jumps: neighbouring numbers along one axis, equal along the other"),
        (Self::EqualPassedOver, "jumps: the path has a point that equals the landing"),
        (Self::MeetElsewhere, "jumps: the path has a point that equals another of the contour"),
        (Self::EqualCut, "cuts between equal points"),
        (Self::EqualBackStep, "back-steps between equal points"),
        (Self::FullBefore, "6: the path is cut off before a touch"),
        (Self::FullAfter, "6: the path is cut off after a touch"),
    ];
}

/// A run of as many plates meets every case.
const ENOUGH: u64 = 5_000;

/// In longer paths points are not looked for.
const SEARCHED: usize = 20_000;

/// How many paths there were with how many jumps and touches, and how often each case was met.
#[derive(Debug, Default)]
pub struct Seen {
    paths: AtomicU64,
    jumps: AtomicU64,
    touches: AtomicU64,
    cases: Cases<Case>,
}

/// A jump or a touch: the path place and vertex that are left, and the vertex landed on.
#[derive(Debug, Clone, Copy)]
struct Entry {
    place: usize,
    left: usize,
    landing: usize,
}

/// Where a vertex stands in its contour.
#[derive(Debug, Clone, Copy, PartialEq, Eq)]
enum Part {
    Single,
    End,
    Middle,
}

/// The plate's contours by vertex, and what became of the path so far.
struct Path<'a> {
    vertices: &'a [[f64; 2]],
    layers: &'a [u32],
    due: &'a Retrace,
    /// Of each vertex: the number of its contour, and the contour's first and last vertex.
    contours: Vec<[usize; 3]>,
    /// Of each path point: its vertex.
    vertex: Vec<usize>,
    /// The points of the path, unless it is long.
    points: HashSet<[u64; 2]>,
}

/// The same for equal numbers alone.
fn number(point: [f64; 2]) -> [u64; 2] {
    // -0 + 0 is 0.
    point.map(|c| (c + 0.0).to_bits())
}

impl<'a> Path<'a> {
    fn new(plate: &'a Plate, due: &'a Retrace) -> Self {
        let mut contours = Vec::new();
        for (number, &length) in plate.lengths.iter().enumerate().filter(|(_, n)| **n > 0) {
            let first = contours.len();
            let last = first + length as usize - 1;
            contours.resize(last + 1, [number, first, last]);
        }
        let (vertices, _) = plate.points.as_chunks();
        let (vertex, points) = (Vec::with_capacity(due.marks.len()), HashSet::new());
        Self { vertices, layers: &plate.layers, due, contours, vertex, points }
    }

    fn vertex_of(&self, place: usize) -> usize {
        let [kind, reference] = self.due.marks[place];
        let reference = reference as usize;
        match kind {
            CUT if self.vertex[place - 1] == reference => reference + 1,
            BACK_STEP => self.vertex[reference],
            _ => reference,
        }
    }

    /// The next path point is one of the path.
    fn advance(&mut self, place: usize) {
        self.vertex.push(self.vertex_of(place));
        if self.due.marks.len() <= SEARCHED {
            self.points.insert(number(self.due.path[place]));
        }
    }

    fn part(&self, vertex: usize) -> Part {
        match self.contours[vertex] {
            [_, first, last] if first == last => Part::Single,
            [_, first, last] if vertex == first || vertex == last => Part::End,
            _ => Part::Middle,
        }
    }

    fn is_closed(&self, vertex: usize) -> bool {
        let [_, first, last] = self.contours[vertex];
        last > first + 1 && self.vertices[first] == self.vertices[last]
    }

    fn layer(&self, vertex: usize) -> u32 {
        self.layers[self.contours[vertex][0]]
    }

    /// Whether there was a walk back before the entry, and the path place to which it went, or
    /// else the one left.
    fn walk_back(&self, entry: Entry) -> (bool, usize) {
        match self.due.marks[entry.place - 1] {
            [BACK_STEP, to] => (true, to as usize),
            _ => (false, entry.place - 1),
        }
    }

    fn has(&self, vertex: usize) -> bool {
        self.points.contains(&number(self.vertices[vertex]))
    }
}

impl Seen {
    /// The path of a plate, or its beginning.
    pub fn path(&self, plate: &Plate, due: &Retrace) {
        let mut path = Path::new(plate, due);
        let mut entries = [0; 2];
        for (place, &[kind, _]) in due.marks.iter().enumerate() {
            let landing = path.vertex_of(place);
            if place > 0 {
                let entry = Entry { place, left: path.vertex[place - 1], landing };
                let equal = due.path[place - 1] == due.path[place];
                match kind {
                    JUMP => self.jump(&path, entry),
                    TOUCH => self.touch(&path, entry),
                    CUT => self.cases.count_if(equal, Case::EqualCut),
                    _ => self.cases.count_if(equal, Case::EqualBackStep),
                }
            }
            entries[0] += u64::from(kind == JUMP);
            entries[1] += u64::from(kind == TOUCH);
            path.advance(place);
        }
        let [jumps, touches] = entries;
        self.paths.fetch_add(1, Ordering::Relaxed);
        self.jumps.fetch_add(jumps, Ordering::Relaxed);
        self.touches.fetch_add(touches, Ordering::Relaxed);
        self.cases.count_if(touches >= 100, Case::Hundred);
        self.cases.count_if(touches >= 2 && jumps == 0 && due.whole, Case::TouchesAlone);
    }

    fn touch(&self, path: &Path, entry: Entry) {
        let Entry { left, landing, .. } = entry;
        let case = match [left, landing].map(|vertex| path.part(vertex)) {
            [Part::Single, Part::Single] => Case::PointOnPoint,
            [Part::Middle, Part::Middle] => Case::MiddleOnMiddle,
            [Part::Middle, _] => Case::EndOnMiddle,
            [_, Part::Middle] => Case::MiddleOnEnd,
            _ => Case::EndOnEnd,
        };
        self.cases.count(case);
        let (walked, to) = path.walk_back(entry);
        let came = path.due.marks[to][0];
        self.cases.count_if(walked, Case::AfterAWalkBack);
        self.cases.count_if(came == BACK_STEP, Case::WalkedBackOver);
        self.cases.count_if(came == TOUCH, Case::ThirdAtOnePoint);
        let closed = path.is_closed(left) && path.is_closed(landing);
        self.cases.count_if(closed, Case::ClosedOnClosed);
        self.cases.count_if(path.layer(landing) > path.layer(left), Case::OfAHigherLayer);
        let [a, b] = [left, landing].map(|vertex| path.vertices[vertex].map(f64::to_bits));
        let zeros = [a[0] != b[0], a[1] != b[1]];
        self.cases.count_if(zeros == [true, false], Case::OtherZeroX);
        self.cases.count_if(zeros == [false, true], Case::OtherZeroY);
        self.cases.count_if(zeros == [true, true], Case::OtherZeroBoth);
    }

    fn jump(&self, path: &Path, entry: Entry) {
        let [left, landing] = [entry.left, entry.landing].map(|vertex| path.vertices[vertex]);
        let [x, y] = [left[0] == landing[0], left[1] == landing[1]];
        let apart = [left[0] - landing[0], left[1] - landing[1]];
        let squared = apart[0].mul_add(apart[0], apart[1] * apart[1]);
        self.cases.count_if(squared == 0.0, Case::NoDistance);
        self.cases.count_if(x, Case::EqualX);
        self.cases.count_if(y, Case::EqualY);
        self.cases.count_if(left == [landing[1], landing[0]], Case::Exchanged);
        if x || y {
            let [a, b] = if x { [left[1], landing[1]] } else { [left[0], landing[0]] };
            let least = f64::from_bits(1);
            self.cases.count_if(a * b == 0.0 && (a + b).abs() == least, Case::LeastApart);
            let neighbours = a.next_up() == b || b.next_up() == a;
            self.cases.count_if(neighbours && a.is_normal() && b.is_normal(), Case::OneStepApart);
        }
        self.cases.count_if(path.has(entry.landing), Case::EqualPassedOver);
        let [_, first, last] = path.contours[entry.landing];
        let elsewhere = !path.has(entry.landing) && (first..=last).any(|vertex| path.has(vertex));
        self.cases.count_if(elsewhere, Case::MeetElsewhere);
    }

    /// The path did not fit: that many points of it were written.
    pub fn full(&self, due: &Retrace, written: usize) {
        let is_touch = |mark: Option<&[u32; 2]>| mark.is_some_and(|mark| mark[0] == TOUCH);
        self.cases.count_if(is_touch(due.marks.get(written)), Case::FullBefore);
        self.cases.count_if(is_touch(due.marks[..written].last()), Case::FullAfter);
    }

    /// Prints how many paths, jumps and touches there were and how often each case was met, and
    /// says whether a run of that many plates met every one that it should.
    pub fn print(&self, plates: u64) -> bool {
        let [paths, jumps, touches] =
            [&self.paths, &self.jumps, &self.touches].map(|n| n.load(Ordering::Relaxed));
        println!("in {paths} paths: {jumps} jumps, {touches} touches; of these and beside them");
        self.cases.print();
        is_met(plates, ENOUGH, self.cases.numbers().chain([jumps, touches]))
    }
}

#[cfg(test)]
mod tests {
    use std::sync::atomic::Ordering;

    use twillharbor::Size;
    use twillharbor::StartPointStrategy::Inside;

    use super::{Case, ENOUGH, Seen};
    use crate::plates::Plate;
    use crate::reference::retrace;
    use crate::tally::Listed;

    /// What is met of a plate from its first contour on, and its jumps and touches.
    fn met(contours: &[&[[f64; 2]]], layers: &[u32]) -> (Vec<Case>, [u64; 2]) {
        let plate = Plate::of_contours(contours, [0; 2]).with_layers(layers);
        let due = retrace(&plate, Inside, usize::MAX).unwrap().unwrap();
        let seen = Seen::default();
        seen.path(&plate, &due);
        (seen.cases.met(), [seen.jumps, seen.touches].map(|n| n.load(Ordering::Relaxed)))
    }

    #[test]
    fn touches_are_told_apart() {
        let line: &[[f64; 2]] = &[[0.0, 0.0], [4.0, 0.0], [8.0, 0.0]];
        let cross: &[[f64; 2]] = &[[4.0, -4.0], [4.0, 0.0], [4.0, 4.0]];
        use Case::{
            AfterAWalkBack, ClosedOnClosed, EndOnEnd, EndOnMiddle, MiddleOnEnd, MiddleOnMiddle,
            OfAHigherLayer, OtherZeroBoth, OtherZeroX, OtherZeroY, PointOnPoint, ThirdAtOnePoint,
            TouchesAlone, WalkedBackOver,
        };
        let one = [0, 1];
        assert_eq!(met(&[line, &line[2..]], &[0; 2]), (vec![EndOnEnd], one));
        assert_eq!(met(&[line, &[[8.0, 0.0], [9.0, 9.0]]], &[0; 2]), (vec![EndOnEnd], one));
        assert_eq!(met(&[line, &line[1..2]], &[0; 2]), (vec![EndOnMiddle, AfterAWalkBack], one));
        assert_eq!(met(&[&line[..2], cross], &[0; 2]), (vec![MiddleOnEnd], one));
        assert_eq!(met(&[line, cross], &[0; 2]), (vec![MiddleOnMiddle, AfterAWalkBack], one));
        let stack = [&line[1..2]; 3];
        assert_eq!(
            met(&stack, &[0; 3]),
            (vec![PointOnPoint, ThirdAtOnePoint, TouchesAlone], [0, 2])
        );
        let ring: &[[f64; 2]] = &[[8.0, 0.0], [9.0, 0.0], [9.0, 1.0], [8.0, 0.0]];
        assert_eq!(met(&[ring, ring], &[3, 3]), (vec![EndOnEnd, ClosedOnClosed], one));
        assert_eq!(met(&stack[..2], &[3, 4]), (vec![PointOnPoint, OfAHigherLayer], one));
        let zero = |x, y| [[[0.0, 0.0]], [[x, y]]];
        for (point, case) in
            [([-0.0, 0.0], OtherZeroX), ([0.0, -0.0], OtherZeroY), ([-0.0, -0.0], OtherZeroBoth)]
        {
            let [a, b] = zero(point[0], point[1]);
            assert_eq!(met(&[&a, &b], &[0; 2]), (vec![PointOnPoint, case], one));
        }
        // Back to (0,0) for the second layer, then to the (4,0) that was walked back over.
        let (cases, entries) = met(&[line, &line[..1], &line[1..2]], &[0, 1, 2]);
        assert!(cases.contains(&WalkedBackOver), "{cases:?}");
        assert_eq!(entries, [0, 2]);
    }

    #[test]
    fn jumps_that_are_nearly_touches_are_told_apart() {
        use Case::{
            EqualBackStep, EqualCut, EqualPassedOver, EqualX, EqualY, Exchanged, LeastApart,
            MeetElsewhere, NoDistance, OneStepApart,
        };
        let jump = |a: [f64; 2], b: [f64; 2]| {
            let (cases, entries) = met(&[&[a], &[b]], &[0; 2]);
            assert_eq!(entries, [1, 0]);
            cases
        };
        let least = f64::from_bits(1);
        assert_eq!(jump([0.0, 0.0], [1e-200, 1e-200]), [NoDistance]);
        assert_eq!(jump([0.0, 0.0], [least, -0.0]), [NoDistance, LeastApart, EqualY]);
        assert_eq!(jump([1.0, 0.0], [1.0, -least]), [NoDistance, LeastApart, EqualX]);
        assert_eq!(jump([1.0, 2.0], [2.0, 1.0]), [Exchanged]);
        assert_eq!(jump([1.0, 2.0], [1.0, 2.0_f64.next_up()]), [EqualX, OneStepApart]);
        let passed = met(&[&[[0.0, 0.0], [1e-200, 0.0]], &[[0.0, -0.0]]], &[0; 2]);
        assert_eq!(passed, (vec![NoDistance, EqualY, EqualPassedOver], [1, 0]));
        // At (25,0), which is no sample of the other contour.
        let line: &[[f64; 2]] = &[[0.0, 0.0], [25.0, 0.0], [50.0, 0.0]];
        let beside: &[[f64; 2]] = &[[24.5, 0.25], [25.0, 0.0], [24.5, 0.5]];
        assert_eq!(met(&[line, beside], &[0; 2]), (vec![MeetElsewhere], [1, 0]));
        let twice: &[[f64; 2]] = &[[0.0, 0.0], [4.0, 0.0], [4.0, 0.0]];
        let cases = met(&[twice, &[[0.0, 1.0]]], &[0; 2]);
        assert_eq!(cases, (vec![EqualX, EqualCut, EqualBackStep], [1, 0]));
    }

    #[test]
    fn where_a_path_is_cut_off_is_told() {
        let plate = Plate::new(vec![1.0; 6], vec![1, 1, 1], Size::default());
        let mut due = retrace(&plate, Inside, usize::MAX).unwrap().unwrap();
        due.marks[1][0] = super::JUMP;
        let met = |written| {
            let seen = Seen::default();
            seen.full(&due, written);
            [Case::FullBefore, Case::FullAfter].map(|case| seen.cases.number(case))
        };
        assert_eq!([0, 1, 2, 3].map(met), [[0, 0], [0, 0], [1, 0], [0, 1]]);
    }

    #[test]
    fn a_long_run_that_lacks_a_case_fails() {
        let seen = Seen::default();
        assert!(seen.print(ENOUGH - 1));
        assert!(!seen.print(ENOUGH));
        let (last, others) = Case::LIST.split_last().unwrap();
        others.iter().for_each(|&(case, _)| seen.cases.count(case));
        seen.jumps.store(1, Ordering::Relaxed);
        seen.touches.store(1, Ordering::Relaxed);
        assert!(!seen.print(ENOUGH));
        seen.cases.count(last.0);
        assert!(seen.print(ENOUGH));
        seen.jumps.store(0, Ordering::Relaxed);
        assert!(!seen.print(ENOUGH));
    }
}
