//! Document 01's retrace and its marks once more, with document 02's layers and touches, written
//! from their text and apart from the reference: grid and nearest, samples and cache, retrace and
//! marks.

use std::cmp::Reverse;

use twillharbor::StartPointStrategy;

use super::{Held, squared};
use crate::plates::Plate;

/// The kinds of a mark.
pub const START: u32 = 0;
pub const CUT: u32 = 1;
pub const BACK_STEP: u32 = 2;
pub const JUMP: u32 = 3;
pub const TOUCH: u32 = 4;

/// The path point's vertex and its mark: a kind and a reference.
#[derive(Debug, Clone, Copy, PartialEq, Eq)]
pub struct Step {
    pub vertex: usize,
    pub mark: [u32; 2],
}

#[derive(Debug, Clone)]
pub struct Grid {
    /// s
    pub cell_size: f64,
    pub origin: [f64; 2],
    /// Columns and rows.
    pub cells: [usize; 2],
}

impl Grid {
    /// The grid of points, of which there is at least one.
    pub fn of(points: &[[f64; 2]]) -> Self {
        let coordinates = |axis: usize| points.iter().map(move |point| point[axis]);
        let least = [0, 1].map(|axis| coordinates(axis).fold(f64::INFINITY, f64::min));
        let greatest = [0, 1].map(|axis| coordinates(axis).fold(f64::NEG_INFINITY, f64::max));
        let [width, height] = [0, 1].map(|axis| greatest[axis] - least[axis]);
        let cell_size = width.max(height).max(1.0) / 50.0;
        let origin = least.map(|least| least - cell_size);
        let cells = [0, 1].map(|axis| {
            ((greatest[axis] - origin[axis] + cell_size) / cell_size).ceil() as usize + 1
        });
        assert!(cells.iter().all(|&cells| cells <= 54), "{cells:?} cells");
        Self { cell_size, origin, cells }
    }

    /// A point's column and row.
    pub fn cell_of(&self, point: [f64; 2]) -> [usize; 2] {
        [0, 1].map(|axis| {
            let along = ((point[axis] - self.origin[axis]) * (1.0 / self.cell_size)).floor();
            if along < 0.0 { 0 } else { (along as usize).min(self.cells[axis] - 1) }
        })
    }

    /// The first and the last column, and row, of the square of a radius around a cell,
    /// clipped to the grid.
    fn square(&self, cell: [usize; 2], radius: usize) -> [[usize; 2]; 2] {
        [0, 1].map(|axis| {
            let last = (cell[axis] + radius).min(self.cells[axis] - 1);
            [cell[axis].saturating_sub(radius), last]
        })
    }

    fn number(&self, [column, row]: [usize; 2]) -> usize {
        row * self.cells[0] + column
    }

    /// What no point of a ring is said to be nearer than.
    fn bound(&self, ring: usize) -> f64 {
        let apart = (ring - 1) as f64 * self.cell_size;
        apart * apart
    }
}

/// A contour that is not skipped: its number, its layer, the vertex number of its vertex 0, and
/// its last vertex, counted from 0 within it.
#[derive(Debug, Clone, Copy)]
struct Contour {
    number: u32,
    layer: u32,
    first: usize,
    last: usize,
}

fn contours(plate: &Plate) -> Vec<Contour> {
    let mut first = 0;
    let mut contours = Vec::new();
    for ((number, &length), &layer) in (0..).zip(&plate.lengths).zip(&plate.layers) {
        if length > 0 {
            contours.push(Contour { number, layer, first, last: length as usize - 1 });
            first += length as usize;
        }
    }
    contours
}

/// The samples of a contour's points.
pub fn samples(points: &[[f64; 2]], cell_size: f64) -> Vec<usize> {
    let mut samples = vec![0];
    let mut total = 0.0;
    for vertex in 1..points.len() {
        total += f64::from_bits(squared(points[vertex - 1], points[vertex])).sqrt();
        let reached = total >= cell_size;
        if reached {
            total %= cell_size;
        }
        if reached || vertex == points.len() - 1 {
            samples.push(vertex);
        }
    }
    samples
}

/// A waiting contour's cached distance and entry. The cached place is read nowhere.
#[derive(Debug, Clone, Copy)]
struct Cache {
    squared: u64,
    entry: usize,
}

/// The path so far, and its points by cell.
///
/// An equal distance wins with a higher path place, so that of the path points with one
/// vertex the latest alone can be found: a cell lists its vertices.
struct Path<'a> {
    points: &'a [[f64; 2]],
    grid: &'a Grid,
    steps: Vec<Step>,
    latest: Vec<Option<usize>>,
    cells: Vec<Vec<usize>>,
}

impl Path<'_> {
    fn push(&mut self, vertex: usize, kind: u32, reference: usize) {
        let place = self.steps.len();
        self.steps.push(Step { vertex, mark: [kind, reference as u32] });
        if self.latest[vertex].replace(place).is_none() {
            let cell = self.grid.number(self.grid.cell_of(self.points[vertex]));
            self.cells[cell].push(vertex);
        }
    }

    /// The squared distance of the path point that is found for a vertex, and its place.
    fn nearest(&self, query: usize) -> (u64, usize) {
        let query = self.points[query];
        let cell = self.grid.cell_of(query);
        let mut best = None;
        for ring in 0..self.grid.cells[0].max(self.grid.cells[1]) {
            if let Some((squared, _)) = best
                && ring >= 2
                && self.grid.bound(ring) > f64::from_bits(squared)
            {
                break;
            }
            let [[left, right], [top, bottom]] = self.grid.square(cell, ring);
            for row in top..=bottom {
                let whole = row == top || row == bottom;
                let step = if whole { 1 } else { (right - left).max(1) };
                for column in (left..=right).step_by(step) {
                    for &vertex in &self.cells[self.grid.number([column, row])] {
                        let place = self.latest[vertex].expect("the path has been there");
                        let seen = (squared(query, self.points[vertex]), Reverse(place));
                        if best.is_none_or(|best| seen < best) {
                            best = Some(seen);
                        }
                    }
                }
            }
        }
        let (squared, Reverse(place)) = best.expect("the path has a point");
        (squared, place)
    }

    /// From the path's end back to a place. A path that has grown past the cap may stop.
    fn walk_back(&mut self, to: usize, cap: usize) {
        for place in (to..self.steps.len() - 1).rev() {
            if self.steps.len() > cap {
                return;
            }
            self.push(self.steps[place].vertex, BACK_STEP, place);
        }
    }

    /// A contour that was not entered before, from one of its vertices on. The path comes there
    /// from its end, and numbers are compared, so that 0 and -0 are equal.
    fn enter(&mut self, contour: Contour, entry: usize) {
        let end = self.steps.last().expect("the path has a point");
        let equal = self.points[end.vertex] == self.points[contour.first + entry];
        self.emit(contour, entry, if equal { TOUCH } else { JUMP });
    }

    /// A contour, from one of its vertices on; `kind` is the landing's.
    fn emit(&mut self, contour: Contour, entry: usize, kind: u32) {
        let first = contour.first;
        let [entry, last] = [first + entry, first + contour.last];
        let landing = self.steps.len();
        self.push(entry, kind, entry);
        if entry == first {
            (first..last).for_each(|segment| self.push(segment + 1, CUT, segment));
        } else if entry == last {
            (first..last).rev().for_each(|segment| self.push(segment, CUT, segment));
        } else {
            (entry..last).for_each(|segment| self.push(segment + 1, CUT, segment));
            (entry..last).rev().for_each(|vertex| {
                self.push(vertex, BACK_STEP, landing + (vertex - entry));
            });
            (first..entry).rev().for_each(|segment| self.push(segment, CUT, segment));
        }
    }
}

/// The path of a plate that is not refused, and what the layers did to the choices after the
/// start. It stops once it is longer than the cap.
pub fn retrace(plate: &Plate, strategy: StartPointStrategy, cap: usize) -> (Vec<Step>, Held) {
    let mut held = Held::default();
    let Some([number, reversed]) = super::start(plate, strategy) else {
        return (Vec::new(), held);
    };
    let (points, _) = plate.points.as_chunks::<2>();
    let contours = contours(plate);
    let grid = Grid::of(points);
    let cells = grid.cells[0] * grid.cells[1];

    let mut samples_of: Vec<Vec<usize>> = Vec::new();
    let mut samples_in = vec![Vec::new(); cells];
    for (contour, Contour { first, last, .. }) in contours.iter().enumerate() {
        let samples = samples(&points[*first..=first + last], grid.cell_size);
        for &vertex in &samples {
            let cell = grid.number(grid.cell_of(points[first + vertex]));
            samples_in[cell].push((contour, vertex));
        }
        samples_of.push(samples);
    }

    let mut path = Path {
        points,
        grid: &grid,
        steps: Vec::new(),
        latest: vec![None; points.len()],
        cells: vec![Vec::new(); cells],
    };
    let begin = contours.iter().position(|c| c.number == number).expect("it starts");
    let entry = if reversed == 1 { contours[begin].last } else { 0 };
    path.emit(contours[begin], entry, START);

    // Infinity's bits are above those of every squared distance.
    let cache = Cache { squared: f64::INFINITY.to_bits(), entry: 0 };
    let mut waiting: Vec<Option<Cache>> = vec![Some(cache); contours.len()];
    waiting[begin] = None;
    let query = |path: &Path, cache: &mut Cache, contour: usize, entry: usize| {
        let (squared, _) = path.nearest(contours[contour].first + entry);
        if squared < cache.squared {
            *cache = Cache { squared, entry };
        }
    };
    for (contour, cache) in waiting.iter_mut().enumerate() {
        if let Some(cache) = cache {
            samples_of[contour].iter().for_each(|&vertex| query(&path, cache, contour, vertex));
        }
    }

    while path.steps.len() <= cap {
        let caches = waiting.iter().enumerate().filter_map(|(contour, cache)| {
            cache.map(|cache| (contours[contour].layer, cache.squared, contour))
        });
        let Some((layer, squared, chosen)) = caches.clone().min() else {
            break;
        };
        held.look((layer, squared), caches.map(|(layer, squared, _)| (layer, squared)));
        let Some(Cache { entry, .. }) = waiting[chosen].take() else {
            unreachable!("it was waiting");
        };
        let contour = contours[chosen];
        let (_, place) = path.nearest(contour.first + entry);
        path.walk_back(place, cap);
        path.enter(contour, entry);

        let mut listed = Vec::new();
        let mut met = vec![false; cells];
        for &point in &points[contour.first..=contour.first + contour.last] {
            let [[left, right], [top, bottom]] = grid.square(grid.cell_of(point), 1);
            for row in top..=bottom {
                for column in left..=right {
                    let cell = grid.number([column, row]);
                    if !met[cell] {
                        met[cell] = true;
                        listed.push(cell);
                    }
                }
            }
        }
        for cell in listed {
            for &(contour, vertex) in &samples_in[cell] {
                if let Some(cache) = &mut waiting[contour] {
                    query(&path, cache, contour, vertex);
                }
            }
        }
    }
    (path.steps, held)
}

#[cfg(test)]
mod tests {
    use twillharbor::Size;
    use twillharbor::StartPointStrategy::{self, Inside, Outside};

    use super::{Grid, Plate, Step, retrace, samples};

    fn steps(
        points: &[f64],
        lengths: &[u32],
        layers: &[u32],
        [width, height]: [u32; 2],
        strategy: StartPointStrategy,
        cap: usize,
    ) -> Vec<Step> {
        let plate = Plate::new(points.to_vec(), lengths.to_vec(), Size { width, height });
        retrace(&plate.with_layers(layers), strategy, cap).0
    }

    fn marks(
        points: &[f64],
        lengths: &[u32],
        size: [u32; 2],
        strategy: StartPointStrategy,
    ) -> Vec<[u32; 2]> {
        let layers = vec![0; lengths.len()];
        let steps = steps(points, lengths, &layers, size, strategy, usize::MAX);
        steps.iter().map(|step| step.mark).collect()
    }

    #[test]
    fn a_nearer_contour_of_a_higher_layer_waits() {
        // (0,0) | (1,0) | (2,0)
        let marks = |layers: [u32; 3]| -> Vec<[u32; 2]> {
            let points = [0.0, 0.0, 1.0, 0.0, 2.0, 0.0];
            let steps = steps(&points, &[1; 3], &layers, [0, 0], Inside, usize::MAX);
            steps.iter().map(|step| step.mark).collect()
        };
        assert_eq!(marks([7; 3]), [[0, 0], [3, 1], [3, 2]]);
        assert_eq!(marks([0, 1, 0]), [[0, 0], [3, 2], [3, 1]]);
        assert_eq!(marks([15, 7, 0]), [[0, 2], [3, 1], [3, 0]]);
    }

    // The paths are compared with the reference wherever they are used. It has no marks.
    #[test]
    fn marks_are_those_of_the_marked_plates() {
        assert_eq!(marks(&[], &[], [0, 0], Outside), [[0; 2]; 0]);
        let d = [0.0, 0.0, 4.0, 0.0, 4.0, 1.0, 8.0, 1.0];
        assert_eq!(marks(&d, &[2, 2], [8, 2], Outside), [[0, 0], [1, 0], [3, 2], [1, 2]]);
        let e = [0.0, 0.0, 4.0, 0.0, 8.0, 0.0, 0.0, 1.0];
        assert_eq!(
            marks(&e, &[3, 1], [0, 0], Inside),
            [[0, 0], [1, 0], [1, 1], [2, 1], [2, 0], [3, 3]]
        );
        let f = [4.0, 0.0, 0.0, 1.0, 4.0, 1.0, 8.0, 1.0];
        assert_eq!(marks(&f, &[1, 3], [8, 0], Inside), [[0, 0], [3, 2], [1, 2], [2, 1], [1, 1]]);
        let g = [0.0, 0.0, 1.0, 0.0, 0.0, 1.0];
        assert_eq!(marks(&g, &[1, 1, 1], [0, 0], Inside), [[0, 0], [3, 1], [2, 0], [3, 2]]);
    }

    #[test]
    fn a_jump_between_equal_points_is_a_touch() {
        let entry = |a: [f64; 2], b: [f64; 2]| marks(&[a, b].concat(), &[1, 1], [0, 0], Inside)[1];
        for (a, b) in [([1.0, 2.0], [1.0, 2.0]), ([0.0, -0.0], [-0.0, 0.0])] {
            assert_eq!(entry(a, b), [4, 1]);
        }
        for b in [[1e-200, 0.0], [0.0, 5e-324], [0.0, 1.0], [1.0, 0.0]] {
            assert_eq!(entry([0.0, 0.0], b), [3, 1]);
        }
        // (0,0)(4,0)(8,0) | (4,0)(4,3): left where the walk back ends.
        let points = [0.0, 0.0, 4.0, 0.0, 8.0, 0.0, 4.0, 0.0, 4.0, 3.0];
        assert_eq!(
            marks(&points, &[3, 2], [0, 0], Inside),
            [[0, 0], [1, 0], [1, 1], [2, 1], [4, 3], [1, 3]]
        );
        // (0,0)(1e-200,0) | (0,0): the later of two path points at distance 0 is the other one.
        let points = [0.0, 0.0, 1e-200, 0.0, 0.0, 0.0];
        assert_eq!(marks(&points, &[2, 1], [0, 0], Inside), [[0, 0], [1, 0], [3, 2]]);
        // (1,1)(1,1)(2,1) | (1,0): cut and steps back stay what they are.
        let points = [1.0, 1.0, 1.0, 1.0, 2.0, 1.0, 1.0, 0.0];
        assert_eq!(
            marks(&points, &[3, 1], [2, 4], Inside),
            [[0, 0], [1, 0], [1, 1], [2, 1], [3, 3]]
        );
    }

    #[test]
    fn a_return_of_several_steps_names_the_places_on_the_way_up() {
        // (4,0) | (0,1)(4,1)(8,1)(12,1)(16,1): entered at its second point.
        let points = [4.0, 0.0, 0.0, 1.0, 4.0, 1.0, 8.0, 1.0, 12.0, 1.0, 16.0, 1.0];
        assert_eq!(
            marks(&points, &[1, 5], [8, 0], Inside),
            [[0, 0], [3, 2], [1, 2], [1, 3], [1, 4], [2, 3], [2, 2], [2, 1], [1, 1]]
        );
    }

    #[test]
    fn a_capped_path_starts_as_the_whole_one() {
        let points: Vec<f64> =
            (0..40_u32).flat_map(|i| [i * 37 % 101, i * 53 % 97]).map(f64::from).collect();
        let capped = |cap| steps(&points, &[1; 40], &[0; 40], [0, 0], Outside, cap);
        let whole = capped(usize::MAX);
        assert!(whole.len() > 100);
        for cap in [0, 1, 2, 10, whole.len() - 1] {
            let steps = capped(cap);
            assert!(steps.len() > cap, "it stopped too early");
            assert_eq!(steps[..cap], whole[..cap]);
        }
        assert_eq!(capped(whole.len()), whole);
    }

    #[test]
    fn a_grid_has_a_margin_and_more() {
        let grid = Grid::of(&[[0.0, 0.0], [50.0, 10.0]]);
        assert_eq!((grid.cell_size, grid.origin, grid.cells), (1.0, [-1.0, -1.0], [53, 13]));
        assert_eq!(grid.cell_of([0.0, 9.5]), [1, 10]);
        assert_eq!(grid.cell_of([1e9, -1e9]), [52, 0]);
    }

    #[test]
    fn an_equal_total_is_reached_and_a_remainder_stays() {
        let along: Vec<[f64; 2]> =
            [0.0, 0.5, 1.0, 1.75, 2.5, 2.75, 3.0].iter().map(|&x| [x, 0.0]).collect();
        assert_eq!(samples(&along, 1.0), [0, 2, 4, 6]);
        assert_eq!(samples(&along[..1], 1.0), [0]);
        assert_eq!(samples(&along[..2], 1.0), [0, 1]);
    }
}
