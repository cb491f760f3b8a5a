//! Why a path does not draw a plate, in words. That it does not, and at which path point, is the
//! library's answer: the path points before that keep the rules.

use crate::marks::{self, NO_JUMP, NO_TOUCH, same, shown};
use crate::plate::Handed;
use crate::read::Drawing;
use crate::words::count;
use std::collections::HashMap;
use twillharbor::Mark;

/// Two lines: the pair at fault with its mark, and the rule that it breaks; or, where the place is
/// the path's end, that it ends and what is left out.
pub fn why(plate: &Handed, drawing: &Drawing, place: usize) -> [String; 2] {
    let walk = Walk::new(plate, drawing, place);
    if place == walk.path.len() {
        return [format!("the path ends after {}", count(place, "point")), walk.left_out()];
    }
    [marks::path_point(drawing, place), walk.broken(place)]
}

/// What the path points before a place have drawn.
struct Walk<'a> {
    plate: &'a Handed,
    drawing: &'a Drawing,
    points: &'a [[f64; 2]],
    path: &'a [[f64; 2]],
    /// For each vertex of the plate the contour that it is of and its number within it.
    vertices: Vec<(usize, usize)>,
    /// The path point that entered a contour.
    entered: HashMap<usize, usize>,
    /// The path point that cut a segment, by the segment's lower vertex.
    cut: HashMap<usize, usize>,
}

impl<'a> Walk<'a> {
    fn new(plate: &'a Handed, drawing: &'a Drawing, place: usize) -> Self {
        let (points, _) = plate.points.as_chunks();
        let path = drawing.points();
        let vertices: Vec<(usize, usize)> = plate.vertices().collect();
        let (mut entered, mut cut) = (HashMap::new(), HashMap::new());
        for (at, &mark) in drawing.numbers()[..place].iter().enumerate() {
            match Mark::of(mark) {
                Some(Mark::Start { vertex } | Mark::Jump { vertex } | Mark::Touch { vertex }) => {
                    let (contour, _) = vertices[vertex as usize];
                    entered.insert(contour, at);
                }
                Some(Mark::Cut { segment }) => _ = cut.insert(segment as usize, at),
                Some(Mark::BackStep { .. }) | None => {}
            }
        }
        Self { plate, drawing, points, path, vertices, entered, cut }
    }

    /// The rule that a path point breaks.
    fn broken(&self, place: usize) -> String {
        let mark = match marks::mark(self.drawing, place) {
            Ok(mark) => mark,
            Err(broken) => return broken,
        };
        match mark {
            Mark::Start { vertex } | Mark::Jump { vertex } | Mark::Touch { vertex } => {
                self.broken_landing(place, vertex as usize, mark)
            }
            Mark::Cut { segment } => self.broken_cut(place, segment as usize),
            Mark::BackStep { reversed } => self.broken_back_step(place, reversed as usize),
        }
    }

    fn broken_landing(&self, place: usize, vertex: usize, mark: Mark) -> String {
        let Some(&(contour, within)) = self.vertices.get(vertex) else {
            let points = count(self.vertices.len(), "point");
            return format!("the plate has no vertex {vertex}: it has {points}");
        };
        if !same(self.path[place], self.points[vertex]) {
            let should = marks::should(self.path[place], self.points[vertex]);
            return format!(
                "vertex {vertex}, which is contour {contour} vertex {within}, {should}"
            );
        }
        if let Some(at) = self.entered.get(&contour) {
            return format!("contour {contour} was entered before, at path point {at}");
        }
        match mark {
            Mark::Touch { .. } => NO_TOUCH.into(),
            _ => NO_JUMP.into(),
        }
    }

    fn broken_cut(&self, place: usize, segment: usize) -> String {
        let next = segment + 1;
        let (Some(&(contour, within)), Some(&(other, _))) =
            (self.vertices.get(segment), self.vertices.get(next))
        else {
            let points = count(self.vertices.len(), "point");
            return format!("the plate has no segment from vertex {segment}: it has {points}");
        };
        if contour != other {
            return format!("vertices {segment} and {next} are of two contours");
        }
        let name = format!("contour {contour} segment {within}");
        let ends = [self.points[segment], self.points[next]];
        let pair = [self.path[place - 1], self.path[place]];
        let is = |[a, b]: [[f64; 2]; 2]| same(pair[0], a) && same(pair[1], b);
        if !is(ends) && !is([ends[1], ends[0]]) {
            let [one, other] = ends.map(shown);
            return format!("{name} is between {one} and {other}, bit for bit");
        }
        match self.cut.get(&segment) {
            Some(at) => format!("{name} was cut before, at path point {at}"),
            None => format!("contour {contour} was not entered before, and a cut enters none"),
        }
    }

    fn broken_back_step(&self, place: usize, k: usize) -> String {
        let next = k + 1;
        if next >= place {
            return format!("path points {k} and {next} are not both earlier");
        }
        if !same(self.path[place - 1], self.path[next]) {
            let should = marks::should(self.path[place - 1], self.path[next]);
            return format!("it goes back from path point {next}, which {should}");
        }
        let should = marks::should(self.path[place], self.path[k]);
        format!("it goes back to path point {k}, which {should}")
    }

    /// What a path that keeps the rules does not draw: the first, and how much in all.
    fn left_out(&self) -> String {
        let lengths = self.plate.lengths.iter().enumerate();
        let held = lengths.filter(|&(_, &length)| length > 0).map(|(contour, _)| contour);
        let unentered: Vec<usize> = held.filter(|at| !self.entered.contains_key(at)).collect();
        let is_segment =
            |&v: &usize| self.vertices.get(v + 1).is_some_and(|next| next.0 == self.vertices[v].0);
        let segments = (0..self.vertices.len()).filter(is_segment);
        let uncut: Vec<usize> = segments.filter(|v| !self.cut.contains_key(v)).collect();
        let first = match (unentered.first(), uncut.first()) {
            (Some(contour), _) => format!("contour {contour} is not entered"),
            (None, Some(&vertex)) => {
                let (contour, segment) = self.vertices[vertex];
                format!("contour {contour} segment {segment} is not cut")
            }
            (None, None) => "something is left out".into(),
        };
        let (contours, segments) =
            (count(unentered.len(), "contour"), count(uncut.len(), "segment"));
        format!("{first}; in all {contours} not entered, {segments} not cut")
    }
}
