//! Document 02's ticket 7 once more, written from its text: whether a path with marks draws a
//! plate, and what the check call refuses.

use std::collections::HashSet;
use std::ops::Range;

use crate::rule;
use crate::tally::Listed;

/// What the check call is handed, but for the work slice.
#[derive(Debug, Clone)]
pub struct Handed {
    pub points: Vec<f64>,
    pub lengths: Vec<u32>,
    pub path: Vec<f64>,
    pub marks: Vec<u32>,
}

/// A rule that a path can break. What is said of a landing holds of starts, jumps and touches.
#[derive(Debug, Clone, Copy, PartialEq, Eq)]
pub enum Rule {
    KindsAreThese,
    StartComesFirst,
    StartComesOnce,
    LandingIsAVertex,
    LandingHasItsBits,
    LandingIsAnew,
    JumpsDiffer,
    TouchesAreEqual,
    CutIsASegment,
    CutHasItsBits,
    CutEntersNothing,
    CutComesOnce,
    BackStepIsEarlier,
    BackStepLeavesItsEnd,
    BackStepHasItsBits,
    SegmentsAreCut,
    ContoursAreEntered,
}

impl Listed for Rule {
    const LIST: &'static [(Self, &'static str)] = &[
        (Self::KindsAreThese, "a mark's kind is 0, 1, 2, 3 or 4"),
        (Self::StartComesFirst, "the first mark is a start"),
        (Self::StartComesOnce, "no other mark is a start"),
        (Self::LandingIsAVertex, "a landing names a vertex"),
        (Self::LandingHasItsBits, "a landing has the bits of the vertex it names"),
        (Self::LandingIsAnew, "a landing enters a contour not entered before"),
        (Self::JumpsDiffer, "a jump's pair is not equal as numbers"),
        (Self::TouchesAreEqual, "a touch's pair is equal as numbers"),
        (Self::CutIsASegment, "a cut names a segment"),
        (Self::CutHasItsBits, "a cut's pair has the bits of its segment's ends"),
        (Self::CutEntersNothing, "a cut is of a contour entered before"),
        (Self::CutComesOnce, "a cut is of a segment not cut before"),
        (Self::BackStepIsEarlier, "a back-step's k + 1 is an earlier path point"),
        (Self::BackStepLeavesItsEnd, "a back-step leaves path point k + 1's bits"),
        (Self::BackStepHasItsBits, "a back-step has path point k's bits"),
        (Self::SegmentsAreCut, "each segment is cut"),
        (Self::ContoursAreEntered, "each contour is entered"),
    ];
}

/// The rule that a path breaks first, and the path point at which it does, or the path's length.
#[derive(Debug, Clone, Copy, PartialEq, Eq)]
pub struct Broken {
    pub rule: Rule,
    pub place: usize,
}

/// Why the call refuses.
#[derive(Debug, Clone, Copy, PartialEq, Eq)]
pub enum Due {
    Accepted,
    /// 1 to 4 of the plate: number and place.
    Plate(u32, u32),
    OddPath,
    MarksMiscounted,
    WorkShort,
    NotDrawn(Broken),
}

impl Due {
    /// Number and place.
    pub fn numbers(self) -> (u32, u64) {
        match self {
            Self::Accepted => (0, 0),
            Self::Plate(number, place) => (number, place.into()),
            Self::OddPath | Self::MarksMiscounted => (3, 0),
            Self::WorkShort => (5, 0),
            Self::NotDrawn(Broken { place, .. }) => (12, place as u64),
        }
    }
}

impl Handed {
    /// How many numbers the work slice holds at least.
    pub fn work(&self) -> usize {
        self.points.len() / 2 + self.lengths.len()
    }

    /// What the call answers, lent a work slice of that length.
    pub fn due(&self, work: usize) -> Due {
        let Self { points, lengths, path, marks } = self;
        let plate = rule::counted(points, lengths).and_then(|()| rule::on_plate(points));
        if let Err((number, place)) = plate {
            return Due::Plate(number, place);
        }
        if !path.len().is_multiple_of(2) {
            return Due::OddPath;
        }
        if marks.len() != path.len() {
            return Due::MarksMiscounted;
        }
        if work < self.work() {
            return Due::WorkShort;
        }
        match self.draws() {
            Ok(()) => Due::Accepted,
            Err(broken) => Due::NotDrawn(broken),
        }
    }

    /// Whether the path draws the plate, of slices whose lengths match.
    pub fn draws(&self) -> Result<(), Broken> {
        let mut walk = Walk::new(self);
        for place in 0..walk.path.len() {
            walk.step(place).map_err(|rule| Broken { rule, place })?;
        }
        walk.ends().map_err(|rule| Broken { rule, place: walk.path.len() })
    }
}

type Bits = [u64; 2];

fn bits(points: &[f64]) -> Vec<Bits> {
    let (points, _) = points.as_chunks();
    points.iter().map(|point: &[f64; 2]| point.map(f64::to_bits)).collect()
}

struct Walk<'a> {
    marks: &'a [[u32; 2]],
    numbers: &'a [[f64; 2]],
    path: Vec<Bits>,
    vertices: Vec<Bits>,
    /// The vertices of each contour that holds one.
    contours: Vec<Range<usize>>,
    /// The first vertices of the contours entered so far.
    entered: HashSet<usize>,
    /// The lower vertices of the segments cut so far.
    cut: HashSet<usize>,
}

impl<'a> Walk<'a> {
    fn new(handed: &'a Handed) -> Self {
        let mut end = 0;
        let ranges = handed.lengths.iter().map(|&length| {
            let first = end;
            end += length as usize;
            first..end
        });
        let contours = ranges.filter(|range| !range.is_empty()).collect();
        let ((marks, _), (numbers, _)) = (handed.marks.as_chunks(), handed.path.as_chunks());
        let (path, vertices) = (bits(&handed.path), bits(&handed.points));
        let (entered, cut) = (HashSet::new(), HashSet::new());
        Self { marks, numbers, path, vertices, contours, entered, cut }
    }

    fn contour_of(&self, vertex: usize) -> Option<Range<usize>> {
        let after = self.contours.partition_point(|contour| contour.start <= vertex);
        let contour = self.contours[..after].last()?;
        contour.contains(&vertex).then(|| contour.clone())
    }

    fn step(&mut self, place: usize) -> Result<(), Rule> {
        let [kind, reference] = self.marks[place];
        let reference = reference as usize;
        holds(kind <= 4, Rule::KindsAreThese)?;
        holds(place > 0 || kind == 0, Rule::StartComesFirst)?;
        holds(place == 0 || kind != 0, Rule::StartComesOnce)?;
        match kind {
            1 => self.cut(place, reference),
            2 => self.step_back(place, reference),
            _ => {
                self.land(place, reference)?;
                let is_equal = place > 0 && self.numbers[place - 1] == self.numbers[place];
                holds(kind != 3 || !is_equal, Rule::JumpsDiffer)?;
                holds(kind != 4 || is_equal, Rule::TouchesAreEqual)
            }
        }
    }

    fn land(&mut self, place: usize, vertex: usize) -> Result<(), Rule> {
        let contour = self.contour_of(vertex).ok_or(Rule::LandingIsAVertex)?;
        holds(self.path[place] == self.vertices[vertex], Rule::LandingHasItsBits)?;
        holds(self.entered.insert(contour.start), Rule::LandingIsAnew)
    }

    fn cut(&mut self, place: usize, segment: usize) -> Result<(), Rule> {
        let contour = self.contour_of(segment).ok_or(Rule::CutIsASegment)?;
        holds(contour.contains(&(segment + 1)), Rule::CutIsASegment)?;
        let (one, other) = (self.vertices[segment], self.vertices[segment + 1]);
        let pair = (self.path[place - 1], self.path[place]);
        holds(pair == (one, other) || pair == (other, one), Rule::CutHasItsBits)?;
        holds(self.entered.contains(&contour.start), Rule::CutEntersNothing)?;
        holds(self.cut.insert(segment), Rule::CutComesOnce)
    }

    fn step_back(&self, place: usize, k: usize) -> Result<(), Rule> {
        holds(k + 1 < place, Rule::BackStepIsEarlier)?;
        holds(self.path[place - 1] == self.path[k + 1], Rule::BackStepLeavesItsEnd)?;
        holds(self.path[place] == self.path[k], Rule::BackStepHasItsBits)
    }

    fn ends(&self) -> Result<(), Rule> {
        let is_entered = |contour: &Range<usize>| self.entered.contains(&contour.start);
        holds(self.contours.iter().all(is_entered), Rule::ContoursAreEntered)?;
        let mut segments = self.contours.iter().flat_map(|contour| contour.start..contour.end - 1);
        holds(segments.all(|segment| self.cut.contains(&segment)), Rule::SegmentsAreCut)
    }
}

fn holds(holds: bool, rule: Rule) -> Result<(), Rule> {
    if holds { Ok(()) } else { Err(rule) }
}

#[cfg(test)]
mod tests {
    use super::{Broken, Due, Handed, Rule};

    /// Plate E and its path, with a skipped contour.
    fn e() -> Handed {
        Handed {
            points: vec![0.0, 0.0, 4.0, 0.0, 8.0, 0.0, 0.0, 1.0],
            lengths: vec![3, 0, 1],
            path: vec![0.0, 0.0, 4.0, 0.0, 8.0, 0.0, 4.0, 0.0, 0.0, 0.0, 0.0, 1.0],
            marks: vec![0, 0, 1, 0, 1, 1, 2, 1, 2, 0, 3, 3],
        }
    }

    /// The path with another mark at a place.
    fn marked(place: usize, mark: [u32; 2]) -> Result<(), Broken> {
        let mut handed = e();
        handed.marks[2 * place..2 * place + 2].copy_from_slice(&mark);
        handed.draws()
    }

    #[test]
    fn each_rule_is_told_where_it_is_broken() {
        assert_eq!(e().draws(), Ok(()));
        for (place, mark, rule) in [
            (2, [5, 1], Rule::KindsAreThese),
            (0, [3, 0], Rule::StartComesFirst),
            (5, [0, 3], Rule::StartComesOnce),
            (5, [3, 4], Rule::LandingIsAVertex),
            (0, [0, 1], Rule::LandingHasItsBits),
            (1, [3, 1], Rule::LandingIsAnew),
            (5, [4, 3], Rule::TouchesAreEqual),
            (2, [1, 2], Rule::CutIsASegment),
            (2, [1, 0], Rule::CutHasItsBits),
            (3, [1, 1], Rule::CutComesOnce),
            (3, [2, 2], Rule::BackStepIsEarlier),
            (3, [2, 0], Rule::BackStepLeavesItsEnd),
            (2, [2, 0], Rule::BackStepHasItsBits),
        ] {
            assert_eq!(marked(place, mark), Err(Broken { rule, place }));
        }
        for (points, rule) in [(2, Rule::ContoursAreEntered), (5, Rule::ContoursAreEntered)] {
            let mut handed = e();
            handed.path.truncate(2 * points);
            handed.marks.truncate(2 * points);
            assert_eq!(handed.draws(), Err(Broken { rule, place: points }));
        }
        let mut handed = e();
        handed.lengths[2] = 0;
        handed.points.truncate(6);
        handed.path.truncate(4);
        handed.marks.truncate(4);
        assert_eq!(handed.draws(), Err(Broken { rule: Rule::SegmentsAreCut, place: 2 }));
    }

    #[test]
    fn equal_numbers_touch_and_equal_bits_cut() {
        // (0,0)(1,0) | (0,0)(1,0) | (-0,0)
        let handed = |path: &[f64], marks: &[u32]| Handed {
            points: vec![0.0, 0.0, 1.0, 0.0, 0.0, 0.0, 1.0, 0.0, -0.0, 0.0],
            lengths: vec![2, 2, 1],
            path: path.to_vec(),
            marks: marks.to_vec(),
        };
        let path = [0.0, 0.0, 0.0, 0.0, 1.0, 0.0, 0.0, 0.0, -0.0, 0.0];
        assert_eq!(handed(&path, &[0, 0, 4, 2, 1, 0, 1, 2, 4, 4]).draws(), Ok(()));
        let jumps = handed(&path, &[0, 0, 4, 2, 1, 0, 1, 2, 3, 4]).draws();
        assert_eq!(jumps, Err(Broken { rule: Rule::JumpsDiffer, place: 4 }));
        let enters = handed(&path[2..6], &[0, 0, 1, 2]).draws();
        assert_eq!(enters, Err(Broken { rule: Rule::CutEntersNothing, place: 1 }));
    }

    #[test]
    fn refusals_are_due_in_their_order() {
        let mut handed = e();
        assert_eq!((handed.work(), handed.due(7)), (7, Due::Accepted));
        assert_eq!(handed.due(6), Due::WorkShort);
        handed.marks.push(0);
        assert_eq!(handed.due(0), Due::MarksMiscounted);
        handed.path.push(0.0);
        assert_eq!(handed.due(0), Due::OddPath);
        handed.points[3] = f64::NAN;
        assert_eq!(handed.due(0), Due::Plate(4, 3));
        handed.points.pop();
        assert_eq!(handed.due(0), Due::Plate(3, 0));
    }
}
