//! Document 02's ticket 6 once more, written from its text: the contours of a path with marks, and
//! what the contours call refuses.

use std::collections::{BTreeMap, BTreeSet};

use crate::plates::LIMIT;
use crate::rule::retrace::{BACK_STEP, CUT, JUMP, START, TOUCH};
use crate::tally::Listed;

/// No vertex is above this.
pub const HIGHEST_VERTEX: u32 = 65_535;
/// How many numbers of work a path point takes.
pub const WORK: usize = 4;

/// A path with its marks, as the call is handed them.
#[derive(Debug, Clone, Default)]
pub struct Marked {
    pub path: Vec<f64>,
    pub marks: Vec<u32>,
}

/// The lengths of the slices that the call is lent.
#[derive(Debug, Clone, Copy, PartialEq, Eq)]
pub struct Room {
    pub points: usize,
    pub lengths: usize,
    pub work: usize,
}

/// Contours as the call writes them.
#[derive(Debug, Clone, Default, PartialEq)]
pub struct Picture {
    pub points: Vec<f64>,
    pub lengths: Vec<u32>,
}

/// A rule that a path with marks can break. In these names a landing is a start, a jump or a touch;
/// of a cut the same is said by itself.
#[derive(Debug, Clone, Copy, PartialEq, Eq)]
pub enum Rule {
    KindsAreThese,
    StartComesFirst,
    StartComesOnce,
    LandingIsAVertex,
    LandingIsAnew,
    JumpsDiffer,
    TouchesAreEqual,
    CutIsASegment,
    CutLeavesAnEnd,
    CutLandsAnew,
    BackStepIsEarlier,
    BackStepLeavesItsEnd,
    BackStepHasItsBits,
}

impl Listed for Rule {
    const LIST: &'static [(Self, &'static str)] = &[
        (Self::KindsAreThese, "a mark's kind is 0, 1, 2, 3 or 4"),
        (Self::StartComesFirst, "the first mark is a start"),
        (Self::StartComesOnce, "no other mark is a start"),
        (Self::LandingIsAVertex, "a landing names a vertex of at most 65,535"),
        (Self::LandingIsAnew, "a landing is on a vertex not landed on before"),
        (Self::JumpsDiffer, "a jump's pair is not equal as numbers"),
        (Self::TouchesAreEqual, "a touch's pair is equal as numbers"),
        (Self::CutIsASegment, "a cut's segment ends at a vertex of at most 65,535"),
        (Self::CutLeavesAnEnd, "a cut leaves one end of its segment"),
        (Self::CutLandsAnew, "a cut lands on a vertex not landed on before"),
        (Self::BackStepIsEarlier, "a back-step's k + 1 is an earlier path point"),
        (Self::BackStepLeavesItsEnd, "a back-step leaves the vertex of path point k + 1"),
        (Self::BackStepHasItsBits, "a back-step has path point k's bits"),
    ];
}

/// The rule that a path breaks first, and the path point at which it does.
#[derive(Debug, Clone, Copy, PartialEq, Eq)]
pub struct Broken {
    pub rule: Rule,
    pub place: usize,
}

/// What the call answers.
#[derive(Debug, Clone, PartialEq)]
pub enum Due {
    OddPath,
    MarksMiscounted,
    OffThePlate(usize),
    WorkShort,
    Inconsistent(Broken),
    Missing(u32),
    Full,
    Recovered(Picture),
}

impl Due {
    /// Number and place.
    pub fn refusal(&self) -> (u32, u64) {
        match *self {
            Self::Recovered(_) => (0, 0),
            Self::OddPath | Self::MarksMiscounted => (3, 0),
            Self::OffThePlate(place) => (4, place as u64),
            Self::WorkShort => (5, 0),
            Self::Full => (6, 0),
            Self::Inconsistent(Broken { place, .. }) => (10, place as u64),
            Self::Missing(vertex) => (11, vertex.into()),
        }
    }

    /// Number, place, points and contours.
    pub fn numbers(&self) -> (u32, u64, u32, u32) {
        let (number, place) = self.refusal();
        let (points, contours) = self.picture().map_or((0, 0), |picture| {
            ((picture.points.len() / 2) as u32, picture.lengths.len() as u32)
        });
        (number, place, points, contours)
    }

    pub fn picture(&self) -> Option<&Picture> {
        match self {
            Self::Recovered(picture) => Some(picture),
            _ => None,
        }
    }

    /// Whether the work slice may hold anything afterwards.
    pub fn frees_work(&self) -> bool {
        !matches!(self.refusal().0, 3..=5)
    }
}

/// Why a path has no contours.
#[derive(Debug, Clone, Copy, PartialEq, Eq)]
pub enum Fault {
    Inconsistent(Broken),
    Missing(u32),
}

impl Marked {
    /// How many path points there are.
    pub fn count(&self) -> usize {
        self.path.len() / 2
    }

    /// Slices that are long enough whatever the path is: each vertex is landed on by a path point.
    pub fn enough(&self) -> Room {
        let count = self.count();
        Room { points: 2 * count, lengths: count, work: WORK * count }
    }

    /// What the call answers, lent slices of these lengths.
    pub fn due(&self, room: Room) -> Due {
        let Self { path, marks } = self;
        if !path.len().is_multiple_of(2) {
            return Due::OddPath;
        }
        if marks.len() != path.len() {
            return Due::MarksMiscounted;
        }
        // A NaN is not at most anything.
        let is_off = |c: &f64| c.abs().partial_cmp(&LIMIT).is_none_or(|order| order.is_gt());
        if let Some(place) = path.iter().position(is_off) {
            return Due::OffThePlate(place);
        }
        if room.work < WORK * self.count() {
            return Due::WorkShort;
        }
        match self.contours() {
            Err(Fault::Inconsistent(broken)) => Due::Inconsistent(broken),
            Err(Fault::Missing(vertex)) => Due::Missing(vertex),
            Ok(Picture { points, lengths })
                if room.points < points.len() || room.lengths < lengths.len() =>
            {
                Due::Full
            }
            Ok(picture) => Due::Recovered(picture),
        }
    }

    /// The contours, of slices whose lengths match.
    pub fn contours(&self) -> Result<Picture, Fault> {
        let mut walk = Walk::new(self);
        for place in 0..walk.marks.len() {
            let landed = walk.step(place);
            let vertex = landed.map_err(|rule| Fault::Inconsistent(Broken { rule, place }))?;
            walk.vertices.push(vertex);
        }
        walk.picture().map_err(Fault::Missing)
    }
}

struct Walk<'a> {
    path: &'a [[f64; 2]],
    marks: &'a [[u32; 2]],
    /// The vertex of each path point so far.
    vertices: Vec<u32>,
    /// The points of the vertices landed on.
    landed: BTreeMap<u32, [f64; 2]>,
    /// The lower vertices of the segments cut.
    cut: BTreeSet<u32>,
}

impl<'a> Walk<'a> {
    fn new(marked: &'a Marked) -> Self {
        let ((path, _), (marks, _)) = (marked.path.as_chunks(), marked.marks.as_chunks());
        let (vertices, landed, cut) = (Vec::new(), BTreeMap::new(), BTreeSet::new());
        Self { path, marks, vertices, landed, cut }
    }

    /// The vertex of the next path point.
    fn step(&mut self, place: usize) -> Result<u32, Rule> {
        let [kind, reference] = self.marks[place];
        if place == 0 && kind <= TOUCH && kind != START {
            return Err(Rule::StartComesFirst);
        }
        match kind {
            START if place > 0 => Err(Rule::StartComesOnce),
            START => self.land(place, reference),
            CUT => self.cut(place, reference),
            BACK_STEP => self.step_back(place, reference as usize),
            JUMP | TOUCH => {
                let vertex = self.land(place, reference)?;
                match (kind, self.path[place - 1] == self.path[place]) {
                    (JUMP, true) => Err(Rule::JumpsDiffer),
                    (TOUCH, false) => Err(Rule::TouchesAreEqual),
                    _ => Ok(vertex),
                }
            }
            _ => Err(Rule::KindsAreThese),
        }
    }

    fn land(&mut self, place: usize, vertex: u32) -> Result<u32, Rule> {
        if vertex > HIGHEST_VERTEX {
            return Err(Rule::LandingIsAVertex);
        }
        match self.landed.insert(vertex, self.path[place]) {
            Some(_) => Err(Rule::LandingIsAnew),
            None => Ok(vertex),
        }
    }

    fn cut(&mut self, place: usize, segment: u32) -> Result<u32, Rule> {
        if segment >= HIGHEST_VERTEX {
            return Err(Rule::CutIsASegment);
        }
        let ends = [segment, segment + 1];
        let left = ends.iter().position(|&end| end == self.vertices[place - 1]);
        let vertex = ends[1 - left.ok_or(Rule::CutLeavesAnEnd)?];
        if self.landed.insert(vertex, self.path[place]).is_some() {
            return Err(Rule::CutLandsAnew);
        }
        self.cut.insert(segment);
        Ok(vertex)
    }

    fn step_back(&self, place: usize, k: usize) -> Result<u32, Rule> {
        if k + 1 >= place {
            return Err(Rule::BackStepIsEarlier);
        }
        if self.vertices[place - 1] != self.vertices[k + 1] {
            return Err(Rule::BackStepLeavesItsEnd);
        }
        let [now, then] = [place, k].map(|at| self.path[at].map(f64::to_bits));
        if now == then { Ok(self.vertices[k]) } else { Err(Rule::BackStepHasItsBits) }
    }

    /// The contours, or the lowest vertex that is missing below the highest landed on.
    fn picture(&self) -> Result<Picture, u32> {
        let mut contours: Vec<Vec<[f64; 2]>> = Vec::new();
        for (vertex, (&landed, &point)) in (0..).zip(&self.landed) {
            if vertex != landed {
                return Err(vertex);
            }
            let joined = vertex.checked_sub(1).is_some_and(|before| self.cut.contains(&before));
            match contours.last_mut() {
                Some(contour) if joined => contour.push(point),
                _ => contours.push(vec![point]),
            }
        }
        let lengths = contours.iter().map(|contour| contour.len() as u32).collect();
        Ok(Picture { points: contours.concat().into_flattened(), lengths })
    }
}

#[cfg(test)]
mod tests {
    use super::{Broken, Due, Fault, Marked, Picture, Room, Rule};

    /// Document 01's plate E, its path and marks: (0,0)(4,0)(8,0) | (0,1).
    fn e() -> Marked {
        Marked {
            path: vec![0.0, 0.0, 4.0, 0.0, 8.0, 0.0, 4.0, 0.0, 0.0, 0.0, 0.0, 1.0],
            marks: vec![0, 0, 1, 0, 1, 1, 2, 1, 2, 0, 3, 3],
        }
    }

    fn marked(path: &[f64], marks: &[u32]) -> Result<Picture, Fault> {
        Marked { path: path.to_vec(), marks: marks.to_vec() }.contours()
    }

    fn picture(points: &[f64], lengths: &[u32]) -> Result<Picture, Fault> {
        Ok(Picture { points: points.to_vec(), lengths: lengths.to_vec() })
    }

    fn broken(rule: Rule, place: usize) -> Result<Picture, Fault> {
        Err(Fault::Inconsistent(Broken { rule, place }))
    }

    #[test]
    fn contours_are_the_runs_of_vertices_that_cuts_join() {
        let points = [0.0, 0.0, 4.0, 0.0, 8.0, 0.0, 0.0, 1.0];
        assert_eq!(e().contours(), picture(&points, &[3, 1]));
        assert_eq!(marked(&[], &[]), picture(&[], &[]));
        // Entered between its ends, and drawn against its direction.
        let path = [4.0, 0.0, 0.0, 0.0, 4.0, 0.0, 8.0, 0.0];
        let between = marked(&path, &[0, 1, 1, 0, 2, 0, 1, 1]);
        assert_eq!(between, picture(&points[..6], &[3]));
        // The later contour first, and neighbours that no cut joins.
        let path = [1.0, 0.0, 2.0, 0.0, 0.0, 0.0];
        assert_eq!(
            marked(&path, &[0, 1, 3, 2, 3, 0]),
            picture(&[0.0, 0.0, 1.0, 0.0, 2.0, 0.0], &[1, 1, 1])
        );
        // A touch's vertex has its own bits.
        let touch = marked(&[0.0, 0.0, -0.0, 0.0], &[0, 0, 4, 1]).expect("it keeps the rules");
        let bits: Vec<u64> = touch.points.iter().map(|c| c.to_bits()).collect();
        assert_eq!(bits, [0.0, 0.0, -0.0, 0.0].map(f64::to_bits));
        assert_eq!(touch.lengths, [1, 1]);
    }

    #[test]
    fn each_rule_is_told_where_it_is_broken() {
        for (place, mark, rule) in [
            (2, [5, 1], Rule::KindsAreThese),
            (0, [u32::MAX, 0], Rule::KindsAreThese),
            (0, [3, 0], Rule::StartComesFirst),
            (0, [1, 0], Rule::StartComesFirst),
            (0, [2, 0], Rule::StartComesFirst),
            (5, [0, 3], Rule::StartComesOnce),
            (5, [3, 65_536], Rule::LandingIsAVertex),
            (0, [0, u32::MAX], Rule::LandingIsAVertex),
            (5, [3, 2], Rule::LandingIsAnew),
            (1, [3, 0], Rule::LandingIsAnew),
            (5, [4, 3], Rule::TouchesAreEqual),
            (1, [1, 65_535], Rule::CutIsASegment),
            (1, [1, u32::MAX], Rule::CutIsASegment),
            (1, [1, 1], Rule::CutLeavesAnEnd),
            (2, [1, 0], Rule::CutLandsAnew),
            (3, [1, 1], Rule::CutLandsAnew),
            (1, [2, 0], Rule::BackStepIsEarlier),
            (3, [2, 2], Rule::BackStepIsEarlier),
            (3, [2, u32::MAX], Rule::BackStepIsEarlier),
            (3, [2, 0], Rule::BackStepLeavesItsEnd),
            (2, [2, 0], Rule::BackStepHasItsBits),
        ] {
            let mut path = e();
            path.marks[2 * place..2 * place + 2].copy_from_slice(&mark);
            assert_eq!(path.contours(), broken(rule, place), "{mark:?} at {place}");
        }
        let jump = marked(&[0.0, 0.0, -0.0, 0.0], &[0, 0, 3, 1]);
        assert_eq!(jump, broken(Rule::JumpsDiffer, 1));
        // The bits of path point k, and not only its numbers.
        let path = [0.0, 0.0, 1.0, 0.0, -0.0, 0.0];
        let zero = marked(&path, &[0, 0, 1, 0, 2, 0]);
        assert_eq!(zero, broken(Rule::BackStepHasItsBits, 2));
        // A back-step over a back-step.
        let path = [0.0, 0.0, 1.0, 0.0, 0.0, 0.0, 1.0, 0.0, 0.0, 0.0];
        let twice = |k| marked(&path, &[0, 0, 1, 0, 2, 0, 2, 1, 2, k]);
        assert_eq!(twice(1), broken(Rule::BackStepLeavesItsEnd, 4));
        assert_eq!([twice(0), twice(2)], [(); 2].map(|()| picture(&path[..4], &[2])));
    }

    #[test]
    fn the_lowest_vertex_that_is_absent_is_told() {
        let path = [0.0, 0.0, 1.0, 0.0, 2.0, 0.0];
        for (marks, vertex) in [
            ([0, 1, 3, 2, 3, 3], 0),
            ([0, 0, 3, 2, 3, 4], 1),
            ([0, 65_535, 3, 0, 3, 1], 2),
            ([0, 3, 1, 2, 1, 1], 0),
        ] {
            assert_eq!(marked(&path, &marks), Err(Fault::Missing(vertex)));
        }
        assert_eq!(marked(&path[..2], &[0, 65_535]), Err(Fault::Missing(0)));
        // A rule is told before.
        assert_eq!(marked(&path, &[0, 5, 3, 9, 3, 5]), broken(Rule::LandingIsAnew, 2));
    }

    #[test]
    fn refusals_are_due_in_their_order() {
        let exact = Room { points: 8, lengths: 2, work: 24 };
        let mut path = e();
        assert_eq!(path.due(exact).numbers(), (0, 0, 4, 2));
        assert_eq!(path.due(Room { points: 7, ..exact }), Due::Full);
        assert_eq!(path.due(Room { lengths: 1, ..exact }), Due::Full);
        assert_eq!(path.due(Room { work: 23, ..exact }), Due::WorkShort);
        let none = Room { points: 0, lengths: 0, work: 24 };
        path.marks[11] = 4;
        assert_eq!(path.due(none).numbers(), (11, 3, 0, 0));
        path.marks[10] = 4;
        assert_eq!(path.due(none).numbers(), (10, 5, 0, 0));
        let none = Room { work: 23, ..none };
        assert_eq!(path.due(none).numbers(), (5, 0, 0, 0));
        for off in [f64::NAN, f64::INFINITY, -1_000_000.0_f64.next_up()] {
            path.path[9] = off;
            assert_eq!(path.due(none).numbers(), (4, 9, 0, 0));
        }
        path.marks.push(0);
        assert_eq!(path.due(none), Due::MarksMiscounted);
        path.path.push(0.0);
        assert_eq!(path.due(none), Due::OddPath);
        assert!(!path.due(none).frees_work());
    }
}
