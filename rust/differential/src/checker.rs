//! A check of a path with marks, written from the documents' text alone: it knows neither how
//! a path is made nor what else is compared.
//!
//! The marks divide the pairs of neighbouring path points into cuts, back-steps, jumps and
//! touches. Each segment of each contour is cut exactly once; each back-step reverses an earlier
//! pair; each jump or touch enters a contour not entered before, and leaves a point than which no
//! earlier path point in the nine cells around the landing is nearer. The two points of a jump
//! differ as numbers, those of a touch are equal: 0 and -0 are equal. Along the path the
//! layers of the contours that are entered and of those whose segments are cut never fall. All
//! other coordinates are compared by their bits.
//!
//! Lengths are added up pair by pair along the path, and those of the cuts segment by segment of
//! the plate too.

use std::collections::HashMap;
use std::fmt;

/// What a path with marks is said to draw, and the counts and lengths that came with it.
#[derive(Debug, Clone, Copy)]
pub struct Claim<'a> {
    pub points: &'a [f64],
    pub lengths: &'a [u32],
    pub layers: &'a [u32],
    pub path: &'a [[f64; 2]],
    pub marks: &'a [[u32; 2]],
    pub counts: Counts,
    pub sums: Lengths,
}

#[derive(Debug, Clone, Copy, PartialEq, Eq)]
pub struct Counts {
    pub points: u64,
    pub cuts: u64,
    pub back_steps: u64,
    pub jumps: u64,
    pub touches: u64,
}

/// In 1,024ths.
#[derive(Debug, Clone, Copy, PartialEq, Eq, Default)]
pub struct Lengths {
    pub cuts: u64,
    pub back_steps: u64,
    pub jumps: u64,
}

/// A rule that a path can break. S is the number of segments of all contours, B that of marks
/// of kind 2, n that of contours that hold a point. What is said of an entry holds of jumps and
/// of touches.
#[derive(Debug, Clone, Copy, PartialEq, Eq)]
pub enum Rule {
    Whole,
    KindsAreThese,
    StartComesFirst,
    StartComesOnce,
    LandingIsAVertex,
    LandingHasItsBits,
    EntryIsAnew,
    EntryLeavesTheNearest,
    EntryDoesNotFall,
    JumpLeavesAnother,
    TouchLeavesAnEqual,
    CutIsASegment,
    CutComesOnce,
    CutLeavesAnEnd,
    CutHasItsBits,
    CutDoesNotFall,
    BackStepIsEarlier,
    BackStepLeavesItsEnd,
    BackStepHasItsBits,
    CutsAreS,
    BackStepsAreB,
    EntriesAreOneLess,
    JumpsAreCounted,
    TouchesAreCounted,
    PointsAreTheSum,
    CutsAreSoLong,
    BackStepsAreSoLong,
    JumpsAreSoLong,
}

impl Rule {
    const fn words(self) -> &'static str {
        match self {
            Self::Whole => "path and marks have as many points as are counted",
            Self::KindsAreThese => "a mark's kind is 0, 1, 2, 3 or 4",
            Self::StartComesFirst => "the first path point is a start",
            Self::StartComesOnce => "no other path point is a start",
            Self::LandingIsAVertex => "a start, jump or touch names a vertex of a contour",
            Self::LandingHasItsBits => "a start, jump or touch has its vertex's coordinates",
            Self::EntryIsAnew => "a jump or touch enters a contour not entered before",
            Self::EntryLeavesTheNearest => {
                "no earlier path point in the nine cells is nearer than the one that a jump or \
                 touch leaves"
            }
            Self::EntryDoesNotFall => {
                "a jump or touch enters no contour of a lower layer than any entered or cut before"
            }
            Self::JumpLeavesAnother => "the two points of a jump differ as numbers",
            Self::TouchLeavesAnEqual => "the two points of a touch are equal as numbers",
            Self::CutIsASegment => "a cut names a segment of a contour",
            Self::CutComesOnce => "a segment is cut once",
            Self::CutLeavesAnEnd => "a cut leaves one end of its segment",
            Self::CutHasItsBits => "a cut has the coordinates of its segment's other end",
            Self::CutDoesNotFall => {
                "a cut is of no lower layer than any contour entered or cut before"
            }
            Self::BackStepIsEarlier => "a back-step names an earlier pair",
            Self::BackStepLeavesItsEnd => "a back-step leaves the end of its pair",
            Self::BackStepHasItsBits => "a back-step has the coordinates of its pair's beginning",
            Self::CutsAreS => "there are S cuts, and as many are counted",
            Self::BackStepsAreB => "the back-steps are counted",
            Self::EntriesAreOneLess => "there are n - 1 jumps and touches together, or none",
            Self::JumpsAreCounted => "the jumps are counted",
            Self::TouchesAreCounted => "the touches are counted",
            Self::PointsAreTheSum => "there are S + B + n path points",
            Self::CutsAreSoLong => {
                "the cuts' length is theirs along the path, and that of the plate's segments"
            }
            Self::BackStepsAreSoLong => "the back-steps' length is theirs along the path",
            Self::JumpsAreSoLong => "the jumps' length is theirs and the touches' along the path",
        }
    }
}

/// A rule that is broken, and the path point at which that shows, or the path's length.
#[derive(Debug, Clone, Copy, PartialEq, Eq)]
pub struct Broken {
    pub rule: Rule,
    pub place: usize,
}

impl fmt::Display for Broken {
    fn fmt(&self, f: &mut fmt::Formatter<'_>) -> fmt::Result {
        write!(f, "at path point {} it does not hold that {}", self.place, self.rule.words())
    }
}

/// Whether the path draws the plate, which is one that is not refused.
pub fn check(claim: &Claim) -> Result<(), Broken> {
    let Claim { path, marks, counts, .. } = *claim;
    let end = path.len();
    let at_end = |holds: bool, rule| if holds { Ok(()) } else { Err(Broken { rule, place: end }) };
    at_end(end == marks.len() && end as u64 == counts.points, Rule::Whole)?;

    let mut walk = Walk::new(claim);
    for place in 0..end {
        walk.step(place).map_err(|rule| Broken { rule, place })?;
    }

    let contours = claim.lengths.iter().filter(|&&length| length > 0).count() as u64;
    let segments = claim.points.len() as u64 / 2 - contours;
    let marked = |kind| marks.iter().filter(|mark| mark[0] == kind).count() as u64;
    // No segment is cut twice and no contour entered twice, so that of as many none is left.
    at_end(marked(1) == segments && counts.cuts == segments, Rule::CutsAreS)?;
    at_end(counts.back_steps == marked(2), Rule::BackStepsAreB)?;
    let entries = contours.saturating_sub(1);
    at_end(marked(3) + marked(4) == entries, Rule::EntriesAreOneLess)?;
    at_end(counts.jumps == marked(3), Rule::JumpsAreCounted)?;
    at_end(counts.touches == marked(4), Rule::TouchesAreCounted)?;
    at_end(end as u64 == segments + marked(2) + contours, Rule::PointsAreTheSum)?;

    let Lengths { cuts, back_steps, jumps } = claim.sums;
    let along = |kinds: &[u32]| length_along(path, marks, kinds);
    let plate = plate_length(claim.points, claim.lengths);
    at_end(cuts == along(&[1]) && cuts == plate, Rule::CutsAreSoLong)?;
    at_end(back_steps == along(&[2]), Rule::BackStepsAreSoLong)?;
    at_end(jumps == along(&[3, 4]), Rule::JumpsAreSoLong)
}

/// The plain distance times 1,024, rounded down.
fn length(a: [f64; 2], b: [f64; 2]) -> u64 {
    (squared(a, b).sqrt() * 1_024.0).floor() as u64
}

/// Of the pairs of neighbouring path points whose second has a mark of these kinds.
fn length_along(path: &[[f64; 2]], marks: &[[u32; 2]], kinds: &[u32]) -> u64 {
    let pairs = path.windows(2).zip(marks.iter().skip(1));
    let counted = pairs.filter(|(_, [kind, _])| kinds.contains(kind));
    counted.map(|(ends, _)| length(ends[0], ends[1])).sum()
}

/// Of the segments, contour by contour.
fn plate_length(points: &[f64], lengths: &[u32]) -> u64 {
    let (mut vertices, _) = points.as_chunks();
    let contours = lengths.iter().map(|&count| {
        let (contour, rest) = vertices.split_at(count as usize);
        vertices = rest;
        contour.windows(2).map(|ends| length(ends[0], ends[1])).sum::<u64>()
    });
    contours.sum()
}

/// The path points that were looked at.
struct Walk<'a> {
    path: &'a [[f64; 2]],
    marks: &'a [[u32; 2]],
    vertices: &'a [[f64; 2]],
    /// Of each vertex: the number of its contour.
    contour: Vec<usize>,
    layers: &'a [u32],
    /// The highest layer so far.
    layer: u32,
    entered: Vec<bool>,
    /// By the lower vertex.
    cut: Vec<bool>,
    /// Of each path point: its vertex.
    vertex: Vec<usize>,
    near: Near,
}

impl<'a> Walk<'a> {
    fn new(claim: &Claim<'a>) -> Self {
        let (vertices, _) = claim.points.as_chunks();
        let numbers = claim.lengths.iter().enumerate();
        Self {
            path: claim.path,
            marks: claim.marks,
            vertices,
            contour: numbers.flat_map(|(c, &n)| std::iter::repeat_n(c, n as usize)).collect(),
            layers: claim.layers,
            layer: 0,
            entered: vec![false; claim.lengths.len()],
            cut: vec![false; vertices.len()],
            vertex: Vec::with_capacity(claim.path.len()),
            near: Near::new(vertices),
        }
    }

    fn step(&mut self, place: usize) -> Result<(), Rule> {
        let [kind, reference] = self.marks[place];
        let reference = reference as usize;
        let vertex = match (kind, place) {
            (0, 0) => self.land(place, reference)?,
            (0, _) => return Err(Rule::StartComesOnce),
            (1..=4, 0) => return Err(Rule::StartComesFirst),
            (1, _) => self.cut(place, reference)?,
            (2, _) => self.step_back(place, reference)?,
            (3, _) => {
                let landing = self.enter(place, reference)?;
                holds(self.path[place] != self.path[place - 1], Rule::JumpLeavesAnother)?;
                landing
            }
            (4, _) => {
                let landing = self.enter(place, reference)?;
                holds(self.path[place] == self.path[place - 1], Rule::TouchLeavesAnEqual)?;
                landing
            }
            _ => return Err(Rule::KindsAreThese),
        };
        self.vertex.push(vertex);
        // The point of a back-step is that of an earlier path point, so it lies there already.
        if kind != 2 {
            self.near.insert(self.vertices[vertex]);
        }
        Ok(())
    }

    fn land(&mut self, place: usize, vertex: usize) -> Result<usize, Rule> {
        holds(vertex < self.vertices.len(), Rule::LandingIsAVertex)?;
        holds(same(self.path[place], self.vertices[vertex]), Rule::LandingHasItsBits)?;
        self.entered[self.contour[vertex]] = true;
        self.rise(vertex, Rule::EntryDoesNotFall)?;
        Ok(vertex)
    }

    /// Something of the vertex's contour is drawn.
    fn rise(&mut self, vertex: usize, rule: Rule) -> Result<(), Rule> {
        let layer = self.layers[self.contour[vertex]];
        holds(layer >= self.layer, rule)?;
        self.layer = layer;
        Ok(())
    }

    /// A jump or a touch.
    fn enter(&mut self, place: usize, vertex: usize) -> Result<usize, Rule> {
        holds(vertex < self.vertices.len(), Rule::LandingIsAVertex)?;
        holds(!self.entered[self.contour[vertex]], Rule::EntryIsAnew)?;
        let landing = self.land(place, vertex)?;
        let left = squared(self.path[place], self.path[place - 1]);
        let nearer = self.near.around(self.path[place]).any(|near| near < left);
        holds(!nearer, Rule::EntryLeavesTheNearest)?;
        Ok(landing)
    }

    fn cut(&mut self, place: usize, segment: usize) -> Result<usize, Rule> {
        let ends = (self.contour.get(segment), self.contour.get(segment + 1));
        let is_segment = matches!(ends, (Some(one), Some(other)) if one == other);
        holds(is_segment, Rule::CutIsASegment)?;
        holds(!self.cut[segment], Rule::CutComesOnce)?;
        self.cut[segment] = true;
        let before = self.vertex[place - 1];
        let vertex = if before == segment { segment + 1 } else { segment };
        holds(before == segment || before == segment + 1, Rule::CutLeavesAnEnd)?;
        holds(same(self.path[place - 1], self.vertices[before]), Rule::CutLeavesAnEnd)?;
        holds(same(self.path[place], self.vertices[vertex]), Rule::CutHasItsBits)?;
        self.rise(vertex, Rule::CutDoesNotFall)?;
        Ok(vertex)
    }

    fn step_back(&self, place: usize, reversed: usize) -> Result<usize, Rule> {
        holds(reversed + 1 < place, Rule::BackStepIsEarlier)?;
        let same_point = self.vertex[place - 1] == self.vertex[reversed + 1]
            && same(self.path[place - 1], self.path[reversed + 1]);
        holds(same_point, Rule::BackStepLeavesItsEnd)?;
        holds(same(self.path[place], self.path[reversed]), Rule::BackStepHasItsBits)?;
        Ok(self.vertex[reversed])
    }
}

fn holds(holds: bool, rule: Rule) -> Result<(), Rule> {
    if holds { Ok(()) } else { Err(rule) }
}

fn same(a: [f64; 2], b: [f64; 2]) -> bool {
    a.map(f64::to_bits) == b.map(f64::to_bits)
}

pub fn squared([ax, ay]: [f64; 2], [bx, by]: [f64; 2]) -> f64 {
    let (dx, dy) = (ax - bx, ay - by);
    f64::mul_add(dx, dx, dy * dy)
}

/// Points by cell of document 01's grid.
struct Near {
    least: [f64; 2],
    greatest: [f64; 2],
    cell: f64,
    points: HashMap<[i64; 2], Vec<[f64; 2]>>,
}

impl Near {
    fn new(vertices: &[[f64; 2]]) -> Self {
        let (mut least, mut greatest) = ([f64::INFINITY; 2], [f64::NEG_INFINITY; 2]);
        for vertex in vertices {
            for axis in 0..2 {
                least[axis] = least[axis].min(vertex[axis]);
                greatest[axis] = greatest[axis].max(vertex[axis]);
            }
        }
        let sides = [greatest[0] - least[0], greatest[1] - least[1], 1.0];
        let cell = sides.into_iter().fold(f64::NEG_INFINITY, f64::max) / 50.0;
        Self { least, greatest, cell, points: HashMap::new() }
    }

    fn cell_of(&self, point: [f64; 2]) -> [i64; 2] {
        let Self { least, greatest, cell, .. } = *self;
        [0, 1].map(|axis| {
            let origin = least[axis] - cell;
            let cells = ((greatest[axis] - origin + cell) / cell).ceil() as i64 + 1;
            let index = ((point[axis] - origin) * cell.recip()).floor() as i64;
            index.clamp(0, cells - 1)
        })
    }

    fn insert(&mut self, point: [f64; 2]) {
        self.points.entry(self.cell_of(point)).or_default().push(point);
    }

    /// The squared distances of the points in the nine cells around a point. At the rim there
    /// are fewer cells: no point lies beyond it.
    fn around(&self, point: [f64; 2]) -> impl Iterator<Item = f64> {
        let [column, row] = self.cell_of(point);
        let cells = (-1..=1).flat_map(move |c| (-1..=1).map(move |r| [column + c, row + r]));
        let points = cells.filter_map(|cell| self.points.get(&cell)).flatten();
        points.map(move |&near| squared(point, near))
    }
}

#[cfg(test)]
mod tests {
    use super::{Broken, Claim, Counts, Lengths, Rule, check, length};

    /// A plate and its path, to be damaged.
    #[derive(Debug, Clone)]
    struct Drawn {
        points: Vec<f64>,
        lengths: Vec<u32>,
        layers: Vec<u32>,
        path: Vec<[f64; 2]>,
        marks: Vec<[u32; 2]>,
        counts: Counts,
        sums: Lengths,
    }

    impl Drawn {
        fn check(&self) -> Result<(), Broken> {
            check(&Claim {
                points: &self.points,
                lengths: &self.lengths,
                layers: &self.layers,
                path: &self.path,
                marks: &self.marks,
                counts: self.counts,
                sums: self.sums,
            })
        }

        /// The rule that a damage breaks, and where.
        fn damaged(&self, damage: impl Fn(&mut Self)) -> (Rule, usize) {
            let mut copy = self.clone();
            damage(&mut copy);
            let Broken { rule, place } = copy.check().expect_err("the damage passed");
            (rule, place)
        }
    }

    /// Without touches.
    fn counts(points: u64, cuts: u64, back_steps: u64, jumps: u64) -> Counts {
        Counts { points, cuts, back_steps, jumps, touches: 0 }
    }

    /// Of lengths in units.
    fn sums(cuts: u64, back_steps: u64, jumps: u64) -> Lengths {
        let [cuts, back_steps, jumps] = [cuts, back_steps, jumps].map(|length| 1_024 * length);
        Lengths { cuts, back_steps, jumps }
    }

    /// Plate E.
    fn e() -> Drawn {
        let [a, b, c, d] = [[0.0, 0.0], [4.0, 0.0], [8.0, 0.0], [0.0, 1.0]];
        Drawn {
            points: [a, b, c, d].concat(),
            lengths: vec![3, 1],
            layers: vec![0, 0],
            path: vec![a, b, c, b, a, d],
            marks: vec![[0, 0], [1, 0], [1, 1], [2, 1], [2, 0], [3, 3]],
            counts: counts(6, 2, 2, 1),
            sums: sums(8, 8, 1),
        }
    }

    /// Plate F, with a skipped contour.
    fn f() -> Drawn {
        let [a, b, c, d] = [[4.0, 0.0], [0.0, 1.0], [4.0, 1.0], [8.0, 1.0]];
        Drawn {
            points: [a, b, c, d].concat(),
            lengths: vec![1, 0, 3],
            layers: vec![2, 0, 3],
            path: vec![a, c, d, c, b],
            marks: vec![[0, 0], [3, 2], [1, 2], [2, 1], [1, 1]],
            counts: counts(5, 2, 1, 1),
            sums: sums(8, 4, 1),
        }
    }

    /// Plate E with its other contour moved to where the walk back ends, and a segment longer.
    fn touching(landing: [f64; 2]) -> Drawn {
        let [a, b, c, e] = [[0.0, 0.0], [4.0, 0.0], [8.0, 0.0], [0.0, 4.0]];
        Drawn {
            points: [a, b, c, landing, e].concat(),
            lengths: vec![3, 2],
            layers: vec![0, 0],
            path: vec![a, b, c, b, a, landing, e],
            marks: vec![[0, 0], [1, 0], [1, 1], [2, 1], [2, 0], [4, 3], [1, 3]],
            counts: Counts { touches: 1, ..counts(7, 3, 2, 0) },
            sums: sums(12, 8, 0),
        }
    }

    /// Two single points, the second entered by a mark of this kind.
    fn two(points: [[f64; 2]; 2], kind: u32) -> Drawn {
        let entries = |of| u64::from(kind == of);
        Drawn {
            points: points.concat(),
            lengths: vec![1, 1],
            layers: vec![0, 0],
            path: points.to_vec(),
            marks: vec![[0, 0], [kind, 1]],
            counts: Counts { touches: entries(4), ..counts(2, 0, 0, entries(3)) },
            sums: Lengths { jumps: length(points[0], points[1]), ..Lengths::default() },
        }
    }

    #[test]
    fn marked_plates_pass() {
        assert_eq!(e().check(), Ok(()));
        assert_eq!(f().check(), Ok(()));
        let [a, b, c] = [[0.0, 0.0], [1.0, 0.0], [0.0, 1.0]];
        let g = Drawn {
            points: [a, b, c].concat(),
            lengths: vec![1, 1, 1],
            layers: vec![15, 15, 15],
            path: vec![a, b, a, c],
            marks: vec![[0, 0], [3, 1], [2, 0], [3, 2]],
            counts: counts(4, 0, 1, 2),
            sums: sums(0, 1, 2),
        };
        assert_eq!(g.check(), Ok(()));
        let a = Drawn {
            points: vec![],
            lengths: vec![0, 0],
            layers: vec![1, 0],
            path: vec![],
            marks: vec![],
            counts: counts(0, 0, 0, 0),
            sums: sums(0, 0, 0),
        };
        assert_eq!(a.check(), Ok(()));
        let nothing = [
            (Counts { cuts: 1, ..a.counts }, Rule::CutsAreS),
            (Counts { back_steps: 1, ..a.counts }, Rule::BackStepsAreB),
            (Counts { jumps: 1, ..a.counts }, Rule::JumpsAreCounted),
            (Counts { touches: 1, ..a.counts }, Rule::TouchesAreCounted),
        ];
        for (counts, rule) in nothing {
            assert_eq!(a.damaged(|a| a.counts = counts), (rule, 0));
        }
    }

    /// Points that are equal as numbers, though not all by their bits.
    const EQUAL: [[[f64; 2]; 2]; 6] = [
        [[1.5, -2.5], [1.5, -2.5]],
        [[0.0, 0.0], [0.0, 0.0]],
        [[0.0, 7.0], [-0.0, 7.0]],
        [[7.0, -0.0], [7.0, 0.0]],
        [[-0.0, 0.0], [0.0, -0.0]],
        [[5e-324, 0.0], [5e-324, -0.0]],
    ];

    /// Points that are not: without a squared distance, with one coordinate in common, with the
    /// same coordinates in another place or of another sign, and next to one another.
    const DIFFERENT: [[[f64; 2]; 2]; 12] = [
        [[0.0, 0.0], [1e-200, 0.0]],
        [[0.0, 0.0], [0.0, -1e-200]],
        [[0.0, 0.0], [5e-324, 0.0]],
        [[-0.0, 0.0], [0.0, 5e-324]],
        [[5e-324, 1.0], [-5e-324, 1.0]],
        [[3.0, 1.0], [3.0, 2.0]],
        [[1.0, 3.0], [2.0, 3.0]],
        [[1.0, 2.0], [2.0, 1.0]],
        [[1.0, 2.0], [-1.0, 2.0]],
        [[1.0, 2.0], [1.0, -2.0]],
        [[1.0, 1.0], [1.0_f64.next_up(), 1.0]],
        [[1.0, 1.0], [1.0, 1.0_f64.next_down()]],
    ];

    #[test]
    fn a_touch_is_between_equal_points_and_a_jump_is_not() {
        for points in EQUAL {
            assert_eq!(two(points, 4).check(), Ok(()), "{points:?}");
            let broken = Broken { rule: Rule::JumpLeavesAnother, place: 1 };
            assert_eq!(two(points, 3).check(), Err(broken), "{points:?}");
        }
        for points in DIFFERENT {
            assert_eq!(two(points, 3).check(), Ok(()), "{points:?}");
            let broken = Broken { rule: Rule::TouchLeavesAnEqual, place: 1 };
            assert_eq!(two(points, 4).check(), Err(broken), "{points:?}");
        }
    }

    #[test]
    fn a_touch_is_left_where_the_walk_back_ends() {
        for landing in [[0.0, 0.0], [-0.0, 0.0], [0.0, -0.0]] {
            let drawn = touching(landing);
            assert_eq!(drawn.check(), Ok(()));
            assert_eq!(drawn.damaged(|t| t.marks[5][0] = 3), (Rule::JumpLeavesAnother, 5));
        }
        assert_eq!(e().damaged(|e| e.marks[5][0] = 4), (Rule::TouchLeavesAnEqual, 5));
        // Straight from (8,0), by either kind.
        let mut straight = touching([0.0, 0.0]);
        straight.path.drain(3..5);
        straight.marks.drain(3..5);
        straight.counts = Counts { touches: 1, ..counts(5, 3, 0, 0) };
        assert_eq!(straight.damaged(|_| ()), (Rule::EntryLeavesTheNearest, 3));
        assert_eq!(straight.damaged(|t| t.marks[3][0] = 3), (Rule::EntryLeavesTheNearest, 3));
    }

    #[test]
    fn a_touch_keeps_the_rules_of_a_jump() {
        let drawn = touching([-0.0, 0.0]);
        // The vertex's own bits, not those of the point that is left.
        assert_eq!(drawn.damaged(|t| t.path[5] = [0.0, 0.0]), (Rule::LandingHasItsBits, 5));
        assert_eq!(drawn.damaged(|t| t.marks[5][1] = 0), (Rule::EntryIsAnew, 5));
        assert_eq!(drawn.damaged(|t| t.marks[5][1] = 4), (Rule::LandingHasItsBits, 5));
        assert_eq!(drawn.damaged(|t| t.marks[5][1] = 5), (Rule::LandingIsAVertex, 5));
        assert_eq!(drawn.damaged(|t| t.layers = vec![1, 0]), (Rule::EntryDoesNotFall, 5));
        assert_eq!(drawn.damaged(|t| t.marks[0][0] = 4), (Rule::StartComesFirst, 0));
        assert_eq!(drawn.damaged(|t| t.marks[5][0] = 0), (Rule::StartComesOnce, 5));
        assert_eq!(drawn.damaged(|t| t.marks[5][0] = 1), (Rule::CutLeavesAnEnd, 5));
        assert_eq!(drawn.damaged(|t| t.marks[5] = [2, 0]), (Rule::BackStepLeavesItsEnd, 5));
        assert_eq!(drawn.damaged(|t| t.marks[5] = [2, 3]), (Rule::BackStepHasItsBits, 5));
    }

    #[test]
    fn a_cut_or_a_back_step_between_equal_points_is_no_touch() {
        // (0,0)(4,0)(4,0) | (0,1): a cut and a step back of length zero.
        let [a, b, d] = [[0.0, 0.0], [4.0, 0.0], [0.0, 1.0]];
        let drawn = Drawn {
            points: [a, b, b, d].concat(),
            lengths: vec![3, 1],
            layers: vec![0, 0],
            path: vec![a, b, b, b, a, d],
            marks: vec![[0, 0], [1, 0], [1, 1], [2, 1], [2, 0], [3, 3]],
            counts: counts(6, 2, 2, 1),
            sums: sums(4, 4, 1),
        };
        assert_eq!(drawn.check(), Ok(()));
        assert_eq!(drawn.damaged(|p| p.marks[2] = [4, 2]), (Rule::EntryIsAnew, 2));
        assert_eq!(drawn.damaged(|p| p.marks[3] = [4, 1]), (Rule::EntryIsAnew, 3));
    }

    #[test]
    fn jumps_and_touches_are_counted_apart() {
        let counted = |jumps, touches| {
            move |drawn: &mut Drawn| drawn.counts = Counts { jumps, touches, ..drawn.counts }
        };
        let drawn = touching([0.0, 0.0]);
        assert_eq!(drawn.damaged(counted(1, 0)), (Rule::JumpsAreCounted, 7));
        assert_eq!(drawn.damaged(counted(1, 1)), (Rule::JumpsAreCounted, 7));
        assert_eq!(drawn.damaged(counted(0, 0)), (Rule::TouchesAreCounted, 7));
        assert_eq!(drawn.damaged(counted(0, 2)), (Rule::TouchesAreCounted, 7));
        assert_eq!(e().damaged(counted(0, 1)), (Rule::JumpsAreCounted, 6));
        assert_eq!(e().damaged(counted(1, 1)), (Rule::TouchesAreCounted, 6));
    }

    #[test]
    fn lengths_are_of_whole_1024ths_by_pair() {
        let pair = |x: f64, y| length([0.0, -0.0], [x, y]);
        assert_eq!([pair(3.0, 4.0), pair(-0.1, 0.0), pair(0.0, -0.0)], [5_120, 102, 0]);
        assert_eq!([pair(1.0, 1.0), pair(1e-4, 5e-324), pair(2.0, 2.0)], [1_448, 0, 2_896]);
        let part = 1.0_f64 / 1_024.0;
        assert_eq!([part, part.next_down(), part.next_up()].map(|x| pair(0.0, x)), [1, 0, 1]);
    }

    #[test]
    fn a_wrong_sum_of_lengths_is_found() {
        // (0,0)(0,.1)(0,.3) | (0,0)(0,.1) | (9,9): each segment and step back is rounded down.
        let [a, b, c, d] = [[0.0, 0.0], [0.0, 0.1], [0.0, 0.3], [9.0, 9.0]];
        let tenths = Drawn {
            points: [a, b, c, a, b, d].concat(),
            lengths: vec![3, 0, 2, 1],
            layers: vec![0; 4],
            path: vec![a, b, c, b, b, a, d],
            marks: vec![[0, 0], [1, 0], [1, 1], [2, 1], [4, 4], [1, 3], [3, 5]],
            counts: Counts { touches: 1, ..counts(7, 3, 1, 1) },
            sums: Lengths { cuts: 102 + 204 + 102, back_steps: 204, jumps: 13_033 },
        };
        for drawn in [tenths.clone(), e(), f(), touching([-0.0, 0.0]), two(DIFFERENT[5], 3)] {
            assert_eq!(drawn.check(), Ok(()));
            let end = drawn.path.len();
            for off in [1, u64::MAX, 1 << 32, 1_024] {
                let wrong = |sum: fn(&mut Lengths) -> &mut u64| {
                    drawn.damaged(|d| *sum(&mut d.sums) = sum(&mut d.sums).wrapping_add(off))
                };
                assert_eq!(wrong(|sums| &mut sums.cuts), (Rule::CutsAreSoLong, end));
                assert_eq!(wrong(|sums| &mut sums.back_steps), (Rule::BackStepsAreSoLong, end));
                assert_eq!(wrong(|sums| &mut sums.jumps), (Rule::JumpsAreSoLong, end));
            }
        }
        let sums = |cuts, back_steps, jumps| Lengths { cuts, back_steps, jumps };
        let wrong = [
            // the sum rounded down, or each to the nearest: .1, .2 and .1 are 102.4, 204.8 and 102.4
            (sums(409, 204, 13_033), Rule::CutsAreSoLong),
            // each rounded up
            (sums(103 + 205 + 103, 204, 13_033), Rule::CutsAreSoLong),
            (sums(408, 205, 13_033), Rule::BackStepsAreSoLong),
            (sums(408, 204, 13_034), Rule::JumpsAreSoLong),
            // one sum among another's
            (sums(408 + 204, 0, 13_033), Rule::CutsAreSoLong),
            (sums(408, 0, 204 + 13_033), Rule::BackStepsAreSoLong),
            (sums(408, 204, 0), Rule::JumpsAreSoLong),
        ];
        for (sums, rule) in wrong {
            assert_eq!(tenths.damaged(|d| d.sums = sums), (rule, 7), "{sums:?}");
        }
        // What no contour holds has no length.
        let blank = Drawn {
            points: vec![],
            lengths: vec![0],
            layers: vec![0],
            path: vec![],
            marks: vec![],
            counts: counts(0, 0, 0, 0),
            sums: Lengths::default(),
        };
        assert_eq!(blank.check(), Ok(()));
        assert_eq!(blank.damaged(|b| b.sums.cuts = 1), (Rule::CutsAreSoLong, 0));
        assert_eq!(blank.damaged(|b| b.sums.jumps = 1), (Rule::JumpsAreSoLong, 0));
    }

    #[test]
    fn whole() {
        assert_eq!(e().damaged(|e| e.counts.points = 5), (Rule::Whole, 6));
        assert_eq!(e().damaged(|e| e.marks.truncate(5)), (Rule::Whole, 6));
        assert_eq!(e().damaged(|e| e.path.truncate(5)), (Rule::Whole, 5));
    }

    #[test]
    fn kinds_are_these() {
        assert_eq!(e().damaged(|e| e.marks[3][0] = 5), (Rule::KindsAreThese, 3));
        assert_eq!(e().damaged(|e| e.marks[5][0] = 5), (Rule::KindsAreThese, 5));
        assert_eq!(e().damaged(|e| e.marks[0][0] = 5), (Rule::KindsAreThese, 0));
        assert_eq!(e().damaged(|e| e.marks[0][0] = u32::MAX), (Rule::KindsAreThese, 0));
    }

    #[test]
    fn the_start_comes_first_and_once() {
        assert_eq!(e().damaged(|e| e.marks[0][0] = 3), (Rule::StartComesFirst, 0));
        assert_eq!(e().damaged(|e| e.marks[0] = [1, 0]), (Rule::StartComesFirst, 0));
        assert_eq!(e().damaged(|e| e.marks[5][0] = 0), (Rule::StartComesOnce, 5));
    }

    #[test]
    fn a_landing_is_a_vertex() {
        assert_eq!(e().damaged(|e| e.marks[0][1] = 4), (Rule::LandingIsAVertex, 0));
        assert_eq!(e().damaged(|e| e.marks[5][1] = 4), (Rule::LandingIsAVertex, 5));
    }

    #[test]
    fn a_landing_has_its_bits() {
        assert_eq!(e().damaged(|e| e.path[0] = [-0.0, 0.0]), (Rule::LandingHasItsBits, 0));
        assert_eq!(e().damaged(|e| e.path[5] = [-0.0, 1.0]), (Rule::LandingHasItsBits, 5));
        assert_eq!(f().damaged(|f| f.marks[1][1] = 1), (Rule::LandingHasItsBits, 1));
    }

    #[test]
    fn a_jump_enters_anew() {
        // Back to the start by a jump instead of two back-steps.
        let again = |e: &mut Drawn| {
            e.marks[3] = [3, 0];
            e.path[3] = e.path[0];
        };
        assert_eq!(e().damaged(again), (Rule::EntryIsAnew, 3));
    }

    #[test]
    fn a_jump_leaves_the_nearest() {
        // Plate E without its walk back: straight from (8,0) to (0,1).
        let mut straight = e();
        straight.path.drain(3..5);
        straight.marks.drain(3..5);
        straight.counts = counts(4, 2, 0, 1);
        // The root of 65 is 8.0622..
        straight.sums = Lengths { jumps: 8_255, ..sums(8, 0, 0) };
        // The cells are 0.16 wide, and (0,0) lies six of them away from the landing.
        assert_eq!(straight.check(), Ok(()));
        // With one more contour, at (0,100), they are 2 wide: (0,0) lies in one of the nine.
        let wider = |e: &mut Drawn| {
            e.points.extend([0.0, 100.0]);
            e.lengths.push(1);
            e.layers.push(0);
            e.path.push([0.0, 100.0]);
            e.marks.push([3, 4]);
            e.counts = counts(5, 2, 0, 2);
        };
        assert_eq!(straight.damaged(wider), (Rule::EntryLeavesTheNearest, 3));
    }

    #[test]
    fn a_jump_does_not_fall() {
        // To a lower layer than the start's, and than that of a contour entered later.
        assert_eq!(e().damaged(|e| e.layers = vec![1, 0]), (Rule::EntryDoesNotFall, 5));
        assert_eq!(f().damaged(|f| f.layers[2] = 1), (Rule::EntryDoesNotFall, 1));
        let again = |e: &mut Drawn| {
            e.points.extend([0.0, 2.0]);
            e.lengths.push(1);
            e.layers = vec![0, 15, 14];
            e.path.push([0.0, 2.0]);
            e.marks.push([3, 4]);
            e.counts = counts(7, 2, 2, 2);
        };
        assert_eq!(e().damaged(again), (Rule::EntryDoesNotFall, 6));
    }

    #[test]
    fn a_cut_does_not_fall() {
        // (0,0)(4,0)(8,0) | (4,1): the other contour is entered between the two cuts of the first.
        let [a, b, c, d] = [[0.0, 0.0], [4.0, 0.0], [8.0, 0.0], [4.0, 1.0]];
        let between = Drawn {
            points: [a, b, c, d].concat(),
            lengths: vec![3, 1],
            layers: vec![7, 7],
            path: vec![a, b, d, b, c],
            marks: vec![[0, 0], [1, 0], [3, 3], [2, 1], [1, 1]],
            counts: counts(5, 2, 1, 1),
            sums: sums(8, 1, 1),
        };
        assert_eq!(between.check(), Ok(()));
        assert_eq!(between.damaged(|p| p.layers[1] = 8), (Rule::CutDoesNotFall, 4));
    }

    #[test]
    fn a_cut_is_a_segment() {
        // From one contour to the next, and beyond the last vertex.
        assert_eq!(e().damaged(|e| e.marks[2][1] = 2), (Rule::CutIsASegment, 2));
        assert_eq!(e().damaged(|e| e.marks[2][1] = 3), (Rule::CutIsASegment, 2));
        assert_eq!(e().damaged(|e| e.marks[2][1] = u32::MAX), (Rule::CutIsASegment, 2));
    }

    #[test]
    fn a_cut_comes_once() {
        let again = |e: &mut Drawn| e.marks[3] = [1, 1];
        assert_eq!(e().damaged(again), (Rule::CutComesOnce, 3));
    }

    #[test]
    fn a_cut_leaves_an_end() {
        // The first segment is cut from (8,0), which is none of its ends.
        let skipping = |f: &mut Drawn| {
            f.path.remove(3);
            f.marks.remove(3);
            f.counts = counts(4, 2, 0, 1);
        };
        assert_eq!(f().damaged(skipping), (Rule::CutLeavesAnEnd, 3));
    }

    #[test]
    fn a_cut_has_its_bits() {
        assert_eq!(e().damaged(|e| e.path[1] = [4.0, -0.0]), (Rule::CutHasItsBits, 1));
        assert_eq!(f().damaged(|f| f.path[4] = [-0.0, 1.0]), (Rule::CutHasItsBits, 4));
    }

    #[test]
    fn a_back_step_is_earlier() {
        assert_eq!(e().damaged(|e| e.marks[3][1] = 2), (Rule::BackStepIsEarlier, 3));
        assert_eq!(e().damaged(|e| e.marks[3][1] = 3), (Rule::BackStepIsEarlier, 3));
        assert_eq!(e().damaged(|e| e.marks[4][1] = u32::MAX), (Rule::BackStepIsEarlier, 4));
        assert_eq!(e().damaged(|e| e.marks[1] = [2, 0]), (Rule::BackStepIsEarlier, 1));
    }

    #[test]
    fn a_back_step_leaves_its_end() {
        assert_eq!(e().damaged(|e| e.marks[3][1] = 0), (Rule::BackStepLeavesItsEnd, 3));
        // The first of its two steps is left out.
        let short = |e: &mut Drawn| {
            e.path.remove(3);
            e.marks.remove(3);
            e.counts = counts(5, 2, 1, 1);
        };
        assert_eq!(e().damaged(short), (Rule::BackStepLeavesItsEnd, 3));
    }

    #[test]
    fn a_back_step_has_its_bits() {
        assert_eq!(e().damaged(|e| e.path[4] = [0.0, -0.0]), (Rule::BackStepHasItsBits, 4));
        assert_eq!(f().damaged(|f| f.path[3] = [8.0, 1.0]), (Rule::BackStepHasItsBits, 3));
    }

    #[test]
    fn cuts_are_s() {
        assert_eq!(e().damaged(|e| e.counts.cuts = 3), (Rule::CutsAreS, 6));
        // The last cut is left out.
        let uncut = |f: &mut Drawn| {
            f.path.pop();
            f.marks.pop();
            f.counts = counts(4, 1, 1, 1);
        };
        assert_eq!(f().damaged(uncut), (Rule::CutsAreS, 4));
    }

    #[test]
    fn back_steps_are_b() {
        assert_eq!(e().damaged(|e| e.counts.back_steps = 1), (Rule::BackStepsAreB, 6));
        assert_eq!(e().damaged(|e| e.counts.back_steps = 0), (Rule::BackStepsAreB, 6));
    }

    #[test]
    fn jumps_and_touches_are_one_less() {
        assert_eq!(e().damaged(|e| e.counts.jumps = 2), (Rule::JumpsAreCounted, 6));
        // The second contour is not entered.
        let unentered = |e: &mut Drawn| {
            e.path.pop();
            e.marks.pop();
            e.counts = counts(5, 2, 2, 0);
        };
        assert_eq!(e().damaged(unentered), (Rule::EntriesAreOneLess, 5));
        // Nor here, where a touch should enter it.
        let untouched = |drawn: &mut Drawn| {
            drawn.path.pop();
            drawn.marks.pop();
            drawn.counts = counts(1, 0, 0, 0);
        };
        assert_eq!(two(EQUAL[0], 4).damaged(untouched), (Rule::EntriesAreOneLess, 1));
    }

    #[test]
    fn points_are_the_sum() {
        // The path of a plate with points is not empty.
        let empty = |e: &mut Drawn| {
            e.path.clear();
            e.marks.clear();
            e.lengths = vec![1];
            e.layers = vec![0];
            e.points.truncate(2);
            e.counts = counts(0, 0, 0, 0);
        };
        assert_eq!(e().damaged(empty), (Rule::PointsAreTheSum, 0));
    }
}
