//! Paths that another program could make of a plate, and damaged copies of paths.

use std::collections::{HashMap, VecDeque};
use std::ops::Range;

use harness::random::Random;

use crate::decoder::Marked;
use crate::floats::nudged;
use crate::path_check::Handed;
use crate::plates::Plate;
use crate::rule::retrace::{BACK_STEP, CUT, JUMP, START, TOUCH};

type Bits = [u64; 2];

/// On larger plates every path is a plain one.
const LARGE: usize = 150;

/// A path that draws the plate, whose layers do not count.
pub fn drawn_otherwise(plate: &Plate, random: &mut Random) -> Handed {
    let (points, lengths) = (&plate.points, &plate.lengths);
    if points.len() / 2 > LARGE {
        plain_path(points, lengths, random)
    } else {
        other_path(points, lengths, random)
    }
}

impl From<Handed> for Marked {
    fn from(Handed { path, marks, .. }: Handed) -> Self {
        Self { path, marks }
    }
}

/// A path that draws the plate: contours in any order, entered at any vertex from wherever the path
/// stands, drawn in pieces, with steps back and forth over earlier pairs. Points decide what can
/// come next, so that where some coincide a cut or a back-step may be of another vertex than one
/// would expect.
pub fn other_path(points: &[f64], lengths: &[u32], random: &mut Random) -> Handed {
    let mut pen = Pen::new(points, lengths);
    // How often it enters a contour though it could cut, or steps back though it need not.
    let hurry = 1 + random.below(4);
    let detours = random.pick(&[0, 0, 2, 8]);
    while !pen.is_done() {
        let cuts = pen.cuts_from_here();
        if detours > 0 && random.one_in(detours) && pen.some_step_back(random) {
            continue;
        }
        if !pen.waiting.is_empty() && (cuts.is_empty() || random.one_in(hurry)) {
            pen.enter(random);
        } else if cuts.is_empty() {
            pen.walk_to_a_cut();
        } else {
            let [segment, to] = random.pick(&cuts);
            pen.cut(segment, to);
        }
    }
    if detours > 0 {
        for _ in 0..random.below(4) {
            pen.some_step_back(random);
        }
    }
    pen.handed(points, lengths)
}

/// A path that draws a plate of any size: the contours in their order or against it, each from its
/// first or from its last vertex.
fn plain_path(points: &[f64], lengths: &[u32], random: &mut Random) -> Handed {
    let mut pen = Pen::new(points, lengths);
    let backward = random.one_in(2);
    let mut contours = std::mem::take(&mut pen.waiting);
    if random.one_in(2) {
        contours.reverse();
    }
    for contour in contours {
        let segments = contour.start..contour.end - 1;
        if backward {
            pen.land(contour.end - 1);
            segments.rev().for_each(|segment| pen.cut(segment, segment));
        } else {
            pen.land(contour.start);
            segments.for_each(|segment| pen.cut(segment, segment + 1));
        }
    }
    pen.handed(points, lengths)
}

/// A path in the making.
struct Pen<'a> {
    vertices: &'a [[f64; 2]],
    path: Vec<[f64; 2]>,
    marks: Vec<[u32; 2]>,
    /// The vertices of the contours that hold one and are not entered.
    waiting: Vec<Range<usize>>,
    /// The segments of entered contours that are not cut, by their lower vertex.
    uncut: Vec<usize>,
    /// Of each point's bits: the path points before which it stands.
    pairs: HashMap<Bits, Vec<usize>>,
}

impl<'a> Pen<'a> {
    fn new(points: &'a [f64], lengths: &[u32]) -> Self {
        let (vertices, _) = points.as_chunks();
        let mut end = 0;
        let ranges = lengths.iter().map(|&length| {
            end += length as usize;
            end - length as usize..end
        });
        let waiting = ranges.filter(|range| !range.is_empty()).collect();
        let (path, marks, uncut) = (Vec::new(), Vec::new(), Vec::new());
        Self { vertices, path, marks, waiting, uncut, pairs: HashMap::new() }
    }

    fn is_done(&self) -> bool {
        self.waiting.is_empty() && self.uncut.is_empty()
    }

    fn handed(self, points: &[f64], lengths: &[u32]) -> Handed {
        Handed {
            points: points.to_vec(),
            lengths: lengths.to_vec(),
            path: self.path.into_flattened(),
            marks: self.marks.into_flattened(),
        }
    }

    fn push(&mut self, point: [f64; 2], mark: [u32; 2]) {
        if let Some(before) = self.path.len().checked_sub(1) {
            self.pairs.entry(bits(point)).or_default().push(before);
        }
        self.path.push(point);
        self.marks.push(mark);
    }

    fn here(&self) -> Option<Bits> {
        self.path.last().map(|&point| bits(point))
    }

    /// The start, a jump or a touch.
    fn land(&mut self, vertex: usize) {
        let point = self.vertices[vertex];
        let kind = match self.path.last() {
            None => START,
            Some(&before) if before == point => TOUCH,
            Some(_) => JUMP,
        };
        self.push(point, [kind, vertex as u32]);
    }

    /// Any contour, at any vertex.
    fn enter(&mut self, random: &mut Random) {
        let place = random.below(self.waiting.len() as u64) as usize;
        let contour = self.waiting.swap_remove(place);
        self.land(contour.start + random.below(contour.len() as u64) as usize);
        self.uncut.extend(contour.start..contour.end - 1);
    }

    /// Segments that can be cut from where the path stands, each with the vertex it leads to.
    fn cuts_from_here(&self) -> Vec<[usize; 2]> {
        let Some(here) = self.here() else { return Vec::new() };
        let ends = self.uncut.iter().flat_map(|&s| [[s, s, s + 1], [s, s + 1, s]]);
        let from_here = ends.filter(|&[_, from, _]| bits(self.vertices[from]) == here);
        from_here.map(|[segment, _, to]| [segment, to]).collect()
    }

    fn cut(&mut self, segment: usize, to: usize) {
        self.uncut.retain(|&uncut| uncut != segment);
        self.push(self.vertices[to], [CUT, segment as u32]);
    }

    fn step_back(&mut self, k: usize) {
        self.push(self.path[k], [BACK_STEP, k as u32]);
    }

    /// A step back over any earlier pair that ends where the path stands, if there is one.
    fn some_step_back(&mut self, random: &mut Random) -> bool {
        let pairs = self.here().and_then(|here| self.pairs.get(&here));
        let Some(k) = pairs.map(|pairs| random.pick(pairs)) else { return false };
        self.step_back(k);
        true
    }

    /// The fewest steps back to where a segment can be cut. There is such a point: an entered
    /// contour has a path point at each end of what is cut of it.
    fn walk_to_a_cut(&mut self) {
        let ends = self.uncut.iter().flat_map(|&segment| [segment, segment + 1]);
        let goals: Vec<Bits> = ends.map(|vertex| bits(self.vertices[vertex])).collect();
        let here = self.here().expect("a contour was entered");
        let mut ways: HashMap<Bits, Vec<usize>> = HashMap::from([(here, Vec::new())]);
        let mut next = VecDeque::from([here]);
        while let Some(at) = next.pop_front() {
            let way = ways[&at].clone();
            if goals.contains(&at) {
                way.into_iter().for_each(|k| self.step_back(k));
                return;
            }
            for &k in self.pairs.get(&at).into_iter().flatten() {
                ways.entry(bits(self.path[k])).or_insert_with_key(|&to| {
                    next.push_back(to);
                    [&way[..], &[k]].concat()
                });
            }
        }
        unreachable!("the path goes back to its start");
    }
}

fn bits(point: [f64; 2]) -> Bits {
    point.map(f64::to_bits)
}

/// What is done to a path.
#[derive(Debug, Clone, Copy, PartialEq, Eq)]
pub enum Damage {
    Kind,
    Reference,
    Point,
    Zero,
    NotANumber,
    PointsSwapped,
    MarksSwapped,
    Swapped,
    Dropped,
    Repeated,
    CutShort,
    Reentered,
    OtherVertex,
    OtherPair,
    SlicesMiscounted,
}

pub const DAMAGES: [(Damage, &str); 15] = [
    (Damage::Kind, "a mark's kind is altered"),
    (Damage::Reference, "a mark's reference is altered"),
    (Damage::Point, "a path point is moved"),
    (Damage::Zero, "a zero has the other sign"),
    (Damage::NotANumber, "a coordinate is NaN or infinite"),
    (Damage::PointsSwapped, "two path points are exchanged, and not their marks"),
    (Damage::MarksSwapped, "two marks are exchanged"),
    (Damage::Swapped, "two path points are exchanged with their marks"),
    (Damage::Dropped, "a path point is left out"),
    (Damage::Repeated, "a path point is there twice"),
    (Damage::CutShort, "the path ends early"),
    (Damage::Reentered, "a contour is entered once more"),
    (Damage::OtherVertex, "a landing is on another vertex"),
    (Damage::OtherPair, "a back-step is over another pair"),
    (Damage::SlicesMiscounted, "path or marks slice is longer or shorter"),
];

/// A copy with that damage, where there is anything to be damaged. It may still draw the plate.
pub fn damaged(handed: &Handed, damage: Damage, random: &mut Random) -> Handed {
    let mut copy = handed.clone();
    if damage == Damage::SlicesMiscounted {
        miscount(&mut copy.path, &mut copy.marks, random);
        return copy;
    }
    let mut path = copy.path.as_chunks().0.to_vec();
    let mut marks = copy.marks.as_chunks().0.to_vec();
    // A second damage may find slices that do not match.
    let count = path.len().min(marks.len());
    if count == 0 {
        return copy;
    }
    let (vertices, _) = copy.points.as_chunks();
    damage_path(&mut path, &mut marks, vertices, damage, count, random);
    copy.path = path.into_flattened();
    copy.marks = marks.into_flattened();
    copy
}

/// Makes one of the slices, or both, longer or shorter.
pub fn miscount(path: &mut Vec<f64>, marks: &mut Vec<u32>, random: &mut Random) {
    let change = 1 + random.below(4) as usize;
    let (in_path, in_marks) = (path.len(), marks.len());
    match random.below(5) {
        0 => path.truncate(in_path.saturating_sub(change)),
        1 => marks.truncate(in_marks.saturating_sub(change)),
        2 => path.resize(in_path + change, 0.0),
        3 => marks.resize(in_marks + change, 0),
        _ => {
            path.resize(in_path + change, 0.0);
            marks.resize(in_marks + change, 0);
        }
    }
}

fn damage_path(
    path: &mut Vec<[f64; 2]>,
    marks: &mut Vec<[u32; 2]>,
    vertices: &[[f64; 2]],
    damage: Damage,
    count: usize,
    random: &mut Random,
) {
    let place = random.below(count as u64) as usize;
    let other = if random.one_in(2) && place + 1 < count {
        place + 1
    } else {
        random.below(count as u64) as usize
    };
    let axis = random.below(2) as usize;
    match damage {
        Damage::Kind => marks[place][0] = random.pick(&[0, 1, 2, 3, 4, 5, 6, u32::MAX]),
        Damage::Reference => {
            let reference = marks[place][1];
            marks[place][1] = match random.below(6) {
                0 => reference.wrapping_add(1),
                1 => reference.wrapping_sub(1),
                2 => random.below(count as u64 + 2) as u32,
                3 => random.pick(&[u32::MAX, u32::MAX - 1, 65_535, 65_536, 1 << 31]),
                _ => random.below(vertices.len() as u64 + 2) as u32,
            };
        }
        Damage::Point => match random.below(4) {
            0 => path[place][axis] = nudged(path[place][axis], random.pick(&[-1, 1])),
            1 => path[place][axis] = random.unit() * 2e6 - 1e6,
            _ if vertices.is_empty() => path[place] = [0.0; 2],
            _ => path[place] = random.pick(vertices),
        },
        Damage::Zero => {
            let mut zeros = (0..count).cycle().skip(place).take(count);
            if let Some(place) = zeros.find(|&at| path[at].contains(&0.0)) {
                let axis = usize::from(path[place][0] != 0.0);
                path[place][axis] = -path[place][axis];
            }
        }
        Damage::NotANumber => {
            path[place][axis] =
                random.pick(&[f64::NAN, -f64::NAN, f64::INFINITY, f64::NEG_INFINITY]);
        }
        Damage::PointsSwapped => path.swap(place, other),
        Damage::MarksSwapped => marks.swap(place, other),
        Damage::Swapped => {
            path.swap(place, other);
            marks.swap(place, other);
        }
        Damage::Dropped => {
            path.remove(place);
            marks.remove(place);
        }
        Damage::Repeated => {
            path.insert(other, path[place]);
            marks.insert(other, marks[place]);
        }
        Damage::CutShort => {
            path.truncate(place);
            marks.truncate(place);
        }
        Damage::Reentered => {
            let landing = random.below(vertices.len().max(1) as u64) as usize;
            let point = vertices.get(landing).copied().unwrap_or([0.0; 2]);
            let at = if random.one_in(2) { count } else { place };
            let equal = at > 0 && path[at - 1] == point;
            path.insert(at, point);
            marks.insert(at, [if equal { TOUCH } else { JUMP }, landing as u32]);
        }
        Damage::OtherVertex => {
            let mut landings = (0..count).cycle().skip(place).take(count);
            let landing = landings.find(|&at| !matches!(marks[at][0], CUT | BACK_STEP));
            if let (Some(at), false) = (landing, vertices.is_empty()) {
                let vertex = random.below(vertices.len() as u64) as usize;
                // Its point too, unless only the mark names another.
                if random.one_in(2) {
                    path[at] = vertices[vertex];
                }
                marks[at][1] = vertex as u32;
            }
        }
        Damage::OtherPair => {
            let mut steps = (0..count).cycle().skip(place).take(count);
            if let Some(at) = steps.find(|&at| marks[at][0] == BACK_STEP) {
                let [k, near] = [random.below(at as u64 + 1) as u32, marks[at][1]];
                marks[at][1] = random.pick(&[k, k, near.wrapping_sub(1), near.wrapping_add(1)]);
            }
        }
        Damage::SlicesMiscounted => unreachable!("it is of the slices"),
    }
}

#[cfg(test)]
mod tests {
    use harness::random::Random;

    use super::{DAMAGES, damaged, other_path, plain_path};
    use crate::path_check::Due;
    use crate::plates;

    #[test]
    fn other_paths_draw_every_kind_of_plate() {
        let mut random = Random::new(1);
        let mut points = 0;
        for (kind, name) in plates::KINDS {
            for _ in 0..40 {
                let plate = plates::small_plate(kind, &mut random);
                for path in [other_path, plain_path] {
                    let handed = path(&plate.points, &plate.lengths, &mut random);
                    assert_eq!(handed.draws(), Ok(()), "{name}: {handed:?}");
                    points += handed.path.len() / 2;
                }
            }
        }
        assert!(points > 10_000, "{points}");
    }

    #[test]
    fn most_damages_show() {
        let mut random = Random::new(2);
        for (damage, name) in DAMAGES {
            let (mut refused, mut ran) = (0, 0);
            for _ in 0..200 {
                let plate = plates::small_plate(plates::Kind::Zeros, &mut random);
                if plate.points.is_empty() {
                    continue;
                }
                let handed = other_path(&plate.points, &plate.lengths, &mut random);
                let copy = damaged(&handed, damage, &mut random);
                ran += 1;
                refused += u32::from(copy.due(usize::MAX) != Due::Accepted);
            }
            assert!(ran > 100 && refused > ran / 8, "{name}: {refused} of {ran}");
        }
    }
}
