//! What is wrong with the marks of a path, in words. That something is, and where, is the library's
//! answer: the path points before that keep the rules.

use crate::number::show;
use crate::plate::point;
use crate::read::Drawing;
use crate::words::{self, count};
use std::collections::HashMap;
use twillharbor::{Mark, Point, Refusal};

/// No vertex of a path whose contours are recovered is above this.
const HIGHEST_VERTEX: usize = 65_535;

/// Of a jump's two points, and of a touch's.
pub const NO_JUMP: &str = "these two points are equal, so it is a touch and no jump";
pub const NO_TOUCH: &str = "these two points differ, so it is a jump and no touch";

/// Why the contours of a path are not recovered, and the path point that it is about, if it is one.
pub fn why(drawing: &Drawing, refusal: Refusal) -> (Option<usize>, String) {
    match refusal {
        Refusal::Miscounted => (None, miscounted(drawing)),
        Refusal::PathOffThePlate { place } => {
            let place = place as usize;
            (Some(place / 2), off_the_plate(drawing, place))
        }
        Refusal::MarksInconsistent { place } => {
            let place = place as usize;
            (Some(place), inconsistent(drawing, place))
        }
        Refusal::VertexMissing { place } => (None, missing(drawing, place as usize)),
        _ => (None, "the library was not handed what the file holds".into()),
    }
}

pub fn miscounted(drawing: &Drawing) -> String {
    let counted = count(drawing.bytes.len(), "path point");
    format!("{counted}, and {} in marks", count(drawing.marks.len(), "number"))
}

fn off_the_plate(drawing: &Drawing, place: usize) -> String {
    let axis = if place.is_multiple_of(2) { "x" } else { "y" };
    let value = show(drawing.path[place]);
    format!(
        "path point {}, {axis} = {value}; a coordinate lies between -1,000,000 and 1,000,000",
        place / 2
    )
}

/// The path point at fault with its mark, and the rule that it breaks.
fn inconsistent(drawing: &Drawing, place: usize) -> String {
    let broken = Walk::before(drawing, place).broken();
    let rule = broken.unwrap_or_else(|| "it breaks a rule of marks".into());
    format!("{}: {rule}", path_point(drawing, place))
}

/// A vertex that no path point lands on, and one that makes it missed.
fn missing(drawing: &Drawing, vertex: usize) -> String {
    let landed = Walk::before(drawing, drawing.bytes.len()).landed;
    let (&highest, at) = landed.iter().max().expect("a vertex is missing below one landed on");
    let absent = highest + 1 - landed.len();
    format!(
        "no path point lands on vertex {vertex}, and path point {at} lands on vertex {highest}; \
         vertices that are missing below that: {absent}"
    )
}

/// `path point 3: cut 1, from (8,0) to (4,0)`.
pub fn path_point(drawing: &Drawing, place: usize) -> String {
    let [kind, reference] = drawing.numbers()[place];
    let mark = match Mark::of([kind, reference]) {
        Some(mark) => format!("{} {reference}", words::kind(mark)),
        None => format!("kind {kind} reference {reference}"),
    };
    let path = drawing.points();
    let to = shown(path[place]);
    match place {
        0 => format!("path point 0: {mark}, at {to}"),
        _ => format!("path point {place}: {mark}, from {} to {to}", shown(path[place - 1])),
    }
}

/// The mark of a path point, or why there is no such mark there.
pub fn mark(drawing: &Drawing, place: usize) -> Result<Mark, String> {
    let numbers = drawing.numbers()[place];
    match Mark::of(numbers) {
        None => Err(format!("there is no kind {}: kinds are 0 to 4", numbers[0])),
        Some(Mark::Start { .. }) if place > 0 => {
            Err("the first path point alone is a start".into())
        }
        Some(mark) if place > 0 || matches!(mark, Mark::Start { .. }) => Ok(mark),
        Some(_) => Err("the first path point is a start".into()),
    }
}

pub fn shown([x, y]: [f64; 2]) -> String {
    point(Point { x, y })
}

/// What a point should be that is not the same.
pub fn should(is: [f64; 2], should: [f64; 2]) -> String {
    match is == should {
        true => format!("is {}: 0 and -0 are told apart here", shown(should)),
        false => format!("is {}", shown(should)),
    }
}

/// Whether two points have the same bits.
pub fn same(a: [f64; 2], b: [f64; 2]) -> bool {
    a.map(f64::to_bits) == b.map(f64::to_bits)
}

/// Where a path is before one of its points, by its marks alone.
struct Walk<'a> {
    drawing: &'a Drawing,
    place: usize,
    /// The vertices of the path points before.
    vertices: Vec<usize>,
    /// The path point that landed on a vertex.
    landed: HashMap<usize, usize>,
}

impl<'a> Walk<'a> {
    fn before(drawing: &'a Drawing, place: usize) -> Self {
        let (mut vertices, mut landed) = (Vec::with_capacity(place), HashMap::new());
        for (at, &numbers) in drawing.numbers()[..place].iter().enumerate() {
            let vertex =
                match Mark::of(numbers).expect("path points before the place keep the rules") {
                    Mark::Start { vertex } | Mark::Jump { vertex } | Mark::Touch { vertex } => {
                        vertex as usize
                    }
                    Mark::Cut { segment } if vertices.last() == Some(&(segment as usize)) => {
                        segment as usize + 1
                    }
                    Mark::Cut { segment } => segment as usize,
                    Mark::BackStep { reversed } => {
                        vertices.push(vertices[reversed as usize]);
                        continue;
                    }
                };
            vertices.push(vertex);
            landed.insert(vertex, at);
        }
        Self { drawing, place, vertices, landed }
    }

    /// The rule that the path point at the place breaks, if it breaks one.
    fn broken(&self) -> Option<String> {
        let mark = match mark(self.drawing, self.place) {
            Ok(mark) => mark,
            Err(broken) => return Some(broken),
        };
        match mark {
            Mark::Start { vertex } => self.broken_landing(vertex as usize),
            Mark::Jump { vertex } | Mark::Touch { vertex } => {
                self.broken_landing(vertex as usize).or_else(|| self.broken_meeting(mark))
            }
            Mark::Cut { segment } => self.broken_cut(segment as usize),
            Mark::BackStep { reversed } => self.broken_back_step(reversed as usize),
        }
    }

    fn broken_landing(&self, vertex: usize) -> Option<String> {
        if vertex > HIGHEST_VERTEX {
            return Some(format!("it lands on vertex {vertex}, and 65535 is the highest"));
        }
        let at = self.landed.get(&vertex)?;
        Some(format!("vertex {vertex} was landed on before, by path point {at}"))
    }

    fn broken_meeting(&self, mark: Mark) -> Option<String> {
        let path = self.drawing.points();
        // As numbers: 0 and -0 are equal.
        let are_equal = path[self.place - 1] == path[self.place];
        match mark {
            Mark::Jump { .. } if are_equal => Some(NO_JUMP.into()),
            Mark::Touch { .. } if !are_equal => Some(NO_TOUCH.into()),
            _ => None,
        }
    }

    fn broken_cut(&self, segment: usize) -> Option<String> {
        let (last, next) = (self.place - 1, segment + 1);
        let before = self.vertices[last];
        if before != segment && before != next {
            return Some(format!(
                "segment {segment} is between vertices {segment} and {next}, and path point {last} is \
                 on vertex {before}"
            ));
        }
        self.broken_landing(if before == segment { next } else { segment })
    }

    fn broken_back_step(&self, k: usize) -> Option<String> {
        let (last, next) = (self.place - 1, k + 1);
        if next >= self.place {
            return Some(format!("path points {k} and {next} are not both earlier"));
        }
        let (before, from) = (self.vertices[last], self.vertices[next]);
        if before != from {
            return Some(format!(
                "it goes back from path point {next}, which is on vertex {from}, and path point {last} \
                 is on vertex {before}"
            ));
        }
        let path = self.drawing.points();
        let (is, to) = (path[self.place], path[k]);
        (!same(is, to)).then(|| format!("it goes back to path point {k}, which {}", should(is, to)))
    }
}

#[cfg(test)]
mod tests {
    use super::{Walk, why};
    use crate::read::{self, Drawing};
    use twillharbor::{Refusal, contours};

    /// Plate E and a point that the path touches.
    const PATH: [&str; 7] = [
        "0 0 start 0",
        "4 0 cut 0",
        "8 0 cut 1",
        "4 0 back-step 1",
        "0 0 back-step 0",
        "0 1 jump 3",
        "0 1 touch 4",
    ];

    fn drawing(lines: &[&str]) -> Drawing {
        read::read_path(&lines.join("\n")).unwrap()
    }

    /// What is told of a path that is refused, with the place.
    #[track_caller]
    fn told(lines: &[&str]) -> (u64, Option<usize>, String) {
        let drawing = drawing(lines);
        let refusal = contours(&drawing.path, &drawing.marks).unwrap_err();
        let (place, why) = why(&drawing, refusal);
        (refusal.place(), place, why)
    }

    /// The path with another line in place of one breaks that rule there, as the library says.
    #[track_caller]
    fn breaks(place: usize, other: &str, pair: &str, rule: &str) {
        let mut lines = PATH;
        lines[place] = other;
        assert_eq!(
            told(&lines),
            (place as u64, Some(place), format!("path point {place}: {pair}: {rule}"))
        );
    }

    #[test]
    fn a_path_that_keeps_the_rules_breaks_none() {
        let drawing = drawing(&PATH);
        assert!(contours(&drawing.path, &drawing.marks).is_ok());
        for place in 0..PATH.len() {
            assert_eq!(Walk::before(&drawing, place).broken(), None);
        }
    }

    #[test]
    fn kinds_and_starts() {
        breaks(0, "0 0 jump 0", "jump 0, at (0,0)", "the first path point is a start");
        let alone = "the first path point alone is a start";
        breaks(5, "0 1 start 3", "start 3, from (0,0) to (0,1)", alone);
        let kinds = "there is no kind 5: kinds are 0 to 4";
        breaks(0, "0 0 5 0", "kind 5 reference 0, at (0,0)", kinds);
        breaks(2, "8 0 5 1", "kind 5 reference 1, from (4,0) to (8,0)", kinds);
    }

    #[test]
    fn landings() {
        let highest = "it lands on vertex 65536, and 65535 is the highest";
        breaks(0, "0 0 start 65536", "start 65536, at (0,0)", highest);
        breaks(5, "0 1 jump 65536", "jump 65536, from (0,0) to (0,1)", highest);
        breaks(6, "0 1 touch 65536", "touch 65536, from (0,1) to (0,1)", highest);
        let before = "vertex 3 was landed on before, by path point 5";
        breaks(6, "0 1 touch 3", "touch 3, from (0,1) to (0,1)", before);
        let before = "vertex 2 was landed on before, by path point 2";
        breaks(5, "0 1 jump 2", "jump 2, from (0,0) to (0,1)", before);
        let before = "vertex 0 was landed on before, by path point 0";
        breaks(2, "8 0 cut 0", "cut 0, from (4,0) to (8,0)", before);
        let before = "vertex 1 was landed on before, by path point 1";
        breaks(3, "4 0 cut 1", "cut 1, from (8,0) to (4,0)", before);
    }

    #[test]
    fn jumps_and_touches() {
        let touch = "these two points are equal, so it is a touch and no jump";
        breaks(6, "-0 1 jump 4", "jump 4, from (0,1) to (-0,1)", touch);
        let jump = "these two points differ, so it is a jump and no touch";
        breaks(5, "1e-300 0 touch 3", "touch 3, from (0,0) to (1e-300,0)", jump);
    }

    #[test]
    fn cuts() {
        let ends = "segment 2 is between vertices 2 and 3, and path point 1 is on vertex 1";
        breaks(2, "8 0 cut 2", "cut 2, from (4,0) to (8,0)", ends);
        let ends = "segment 4294967295 is between vertices 4294967295 and 4294967296, and path \
                    point 4 is on vertex 0";
        breaks(5, "0 1 cut 4294967295", "cut 4294967295, from (0,0) to (0,1)", ends);
        let highest = "path point 1: cut 65535, from (0,0) to (1,0): it lands on vertex 65536, and \
                       65535 is the highest";
        assert_eq!(told(&["0 0 start 65535", "1 0 cut 65535"]), (1, Some(1), highest.to_owned()));
    }

    #[test]
    fn back_steps() {
        let later = "path points 2 and 3 are not both earlier";
        breaks(3, "4 0 back-step 2", "back-step 2, from (8,0) to (4,0)", later);
        let later = "path points 4294967295 and 4294967296 are not both earlier";
        breaks(1, "4 0 back-step 4294967295", "back-step 4294967295, from (0,0) to (4,0)", later);
        let from = "it goes back from path point 1, which is on vertex 1, and path point 2 is on \
                    vertex 2";
        breaks(3, "4 0 back-step 0", "back-step 0, from (8,0) to (4,0)", from);
        let to = "it goes back to path point 1, which is (4,0)";
        breaks(3, "8 0 back-step 1", "back-step 1, from (8,0) to (8,0)", to);
        let to = "it goes back to path point 0, which is (0,0): 0 and -0 are told apart here";
        breaks(4, "0 -0 back-step 0", "back-step 0, from (4,0) to (0,-0)", to);
    }

    #[test]
    fn other_refusals() {
        let lacks = "no path point lands on vertex 3, and path point 5 lands on vertex 9; vertices \
                     that are missing below that: 5";
        let mut lines = PATH;
        lines[5] = "0 1 jump 9";
        assert_eq!(told(&lines), (3, None, lacks.to_owned()));
        let off = "path point 1, y = inf; a coordinate lies between -1,000,000 and 1,000,000";
        lines[1] = "4 inf cut 0";
        assert_eq!(told(&lines), (3, Some(1), off.to_owned()));
        let odd = read::read_path(r#"{"path":[[0,0],[4,0]],"marks":[[0,0]]}"#).unwrap();
        let counted = "2 path points, and 2 numbers in marks".to_owned();
        assert_eq!(why(&odd, Refusal::Miscounted), (None, counted));
    }

    /// All further path points of a path that keeps the rules, of some points and marks, up to four
    /// path points: a rule is told exactly where the library says that one is broken.
    fn agree(drawing: &mut Drawing, tally: &mut [usize; 2]) {
        let place = drawing.bytes.len();
        for point in [[0.0, 0.0], [-0.0, 0.0], [1.0, 0.0]] {
            for kind in 0..6 {
                for reference in [0, 1, 2, 65_535, 65_536, u32::MAX] {
                    drawing.path.extend(point);
                    drawing.marks.extend([kind, reference]);
                    drawing.bytes.push(0);
                    let broken = Walk::before(drawing, place).broken();
                    let answer = contours(&drawing.path, &drawing.marks);
                    let inconsistent = Err(Refusal::MarksInconsistent { place: place as u64 });
                    assert_eq!(broken.is_some(), answer == inconsistent, "{drawing:?}, {broken:?}");
                    tally[usize::from(broken.is_some())] += 1;
                    if broken.is_none() {
                        assert!(matches!(answer, Ok(_) | Err(Refusal::VertexMissing { .. })));
                        if place < 3 {
                            agree(drawing, tally);
                        }
                    }
                    drawing.path.truncate(2 * place);
                    drawing.marks.truncate(2 * place);
                    drawing.bytes.truncate(place);
                }
            }
        }
    }

    #[test]
    fn a_rule_is_told_exactly_where_one_is_broken() {
        let mut tally = [0, 0];
        agree(&mut Drawing::default(), &mut tally);
        assert!(tally.iter().all(|&paths| paths > 1_000), "{tally:?}");
    }
}
