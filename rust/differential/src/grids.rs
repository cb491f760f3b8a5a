//! Grid, cells, nearest and samples against the reference's `polyline_bounding_box`,
//! `SpatialGrid` and `arc_length_sample_indices`.

use harness::grid;
use harness::plates::polylines;
use harness::random::Random;
use mujou_reference::join::door::{self, GRID_CELLS_PER_AXIS};
use mujou_reference::types::door::polyline_bounding_box;
use mujou_reference::types::{Point, Polyline};

use crate::floats::nudged;
use crate::plates::{self, LIMIT, small_plate};
use crate::run::{self, Plan};

/// How the points of a history and of its queries lie.
#[derive(Debug, Clone, Copy)]
enum Kind {
    /// As on a plate of that kind, with copies of them nudged by a few steps.
    Plate(plates::Kind),
    /// On the edges of the grid's own cells, and next to them.
    Edges,
    /// On whole multiples of the cell size, so that many are equally far away.
    Ties,
    /// Few points in the history, far from the queries: many rings are searched.
    Far,
}

/// Compares the plan's histories and plates.
pub fn run(plan: Plan) -> bool {
    println!("grids: {} plates, seed {}", plan.pairs, plan.seed);
    run::run(plan, &kinds(), case)
}

fn kinds() -> Vec<(Kind, &'static str)> {
    let mut kinds: Vec<_> =
        plates::KINDS.into_iter().map(|(kind, name)| (Kind::Plate(kind), name)).collect();
    kinds.push((Kind::Edges, "the grid's own cell edges"));
    kinds.push((Kind::Ties, "ties"));
    kinds.push((Kind::Far, "far away"));
    kinds
}

fn case(kind: Kind, random: &mut Random) -> Result<(), String> {
    let pool = pool(kind, random);
    let case = Case::new(&pool, kind, random);
    case.compare().map_err(|e| format!("{e}, of {case:?}"))
}

/// A plate: the path, place by place, and behind it points to query.
#[derive(Debug)]
struct Case {
    points: Vec<f64>,
    lengths: Vec<u32>,
    count: u32,
}

impl Case {
    fn new(pool: &[[f64; 2]], kind: Kind, random: &mut Random) -> Self {
        if pool.is_empty() {
            return Self { points: Vec::new(), lengths: Vec::new(), count: 0 };
        }
        let most = match kind {
            Kind::Far => 4,
            _ => random.pick(&[1, 5, 40, 40, 40, 300]),
        };
        let count = random.below(most + 1);
        let mut points: Vec<[f64; 2]> = (0..count).map(|_| random.pick(pool)).collect();
        points.extend_from_slice(pool);
        points.extend((0..random.below(12)).map(|_| {
            random.pick(pool).map(|c| nudged(c, random.between(-2, 2)).clamp(-LIMIT, LIMIT))
        }));
        let lengths = cut(points.len() as u32, random);
        Self { points: points.into_flattened(), lengths, count: count as u32 }
    }

    fn compare(&self) -> Result<(), String> {
        let contours = polylines(&self.points, &self.lengths);
        let candidates: Vec<&Polyline> = contours.iter().filter(|c| !c.is_empty()).collect();
        if candidates.is_empty() {
            return self.refused();
        }
        let mut reference = reference_grid(&candidates);
        self.grid(&reference)?;
        let (coordinates, _) = self.points.as_chunks();
        let vertices: Vec<Point> = coordinates.iter().map(|&[x, y]| Point::new(x, y)).collect();
        let cells = grid::cells(&self.points, &self.lengths).ok_or("no cells")?;
        for (v, (&p, &cell)) in vertices.iter().zip(&cells).enumerate() {
            let (col, row) = reference.cell_of(p);
            differ("cell of vertex", v, cell as usize, row * reference.cols() + col)?;
        }
        for (place, &p) in vertices.iter().take(self.count as usize).enumerate() {
            reference.insert(place, p);
        }
        let answers = grid::nearest(&self.points, &self.lengths, self.count).ok_or("no answers")?;
        for (v, (&q, &answer)) in vertices.iter().zip(&answers).enumerate() {
            let bits = |(place, squared): (usize, f64)| (place, squared.to_bits());
            let ours = answer.map(|(place, squared)| bits((place as usize, squared)));
            differ("nearest to vertex", v, ours, reference.nearest(q).map(bits))?;
        }
        self.samples(&contours, reference.cell_size())
    }

    fn grid(&self, reference: &door::Grid) -> Result<(), String> {
        let ours = grid::grid_of(&self.points, &self.lengths);
        let numbers = [ours.cell_size, ours.inv_cell_size, ours.origin_x, ours.origin_y];
        let origin = reference.origin();
        let theirs = [reference.cell_size(), reference.inv_cell_size(), origin.x, origin.y];
        for (k, (ours, theirs)) in numbers.into_iter().zip(theirs).enumerate() {
            differ("grid number", k, ours.to_bits(), theirs.to_bits())?;
        }
        differ("columns", 0, ours.cols as usize, reference.cols())?;
        differ("rows", 0, ours.rows as usize, reference.rows())
    }

    fn samples(&self, contours: &[Polyline], resolution: f64) -> Result<(), String> {
        let owners = grid::samples(&self.points, &self.lengths).ok_or("no samples")?;
        let mut first = 0;
        for (number, contour) in contours.iter().enumerate() {
            let mut theirs = vec![0; contour.len()];
            for i in door::arc_length_sample_indices(contour, resolution) {
                theirs[i] = number as u32 + 1;
            }
            differ("samples of contour", number, &owners[first..first + theirs.len()], &theirs)?;
            first += theirs.len();
        }
        Ok(())
    }

    fn refused(&self) -> Result<(), String> {
        let nothing = grid::cells(&self.points, &self.lengths).is_none()
            && grid::nearest(&self.points, &self.lengths, 0).is_none()
            && grid::samples(&self.points, &self.lengths).is_none()
            && grid::grid_of(&self.points, &self.lengths).cols == 0;
        if nothing { Ok(()) } else { Err("a plate without a point has answers".to_string()) }
    }
}

fn differ<T: PartialEq + std::fmt::Debug>(
    what: &str,
    number: usize,
    ours: T,
    theirs: T,
) -> Result<(), String> {
    if ours == theirs {
        return Ok(());
    }
    Err(format!("{what} {number}: library {ours:?}, reference {theirs:?}"))
}

/// The reference's grid of a plate, as `join_retrace` makes it.
pub fn reference_grid(candidates: &[&Polyline]) -> door::Grid {
    let (min_x, min_y, max_x, max_y) = polyline_bounding_box(candidates);
    let extent = (max_x - min_x).max(max_y - min_y).max(1.0);
    door::Grid::new(min_x, min_y, max_x, max_y, extent / GRID_CELLS_PER_AXIS)
}

/// Points to make a history and queries of.
fn pool(kind: Kind, random: &mut Random) -> Vec<[f64; 2]> {
    match kind {
        Kind::Plate(kind) => {
            let plate = small_plate(kind, random);
            plate.points.as_chunks().0.to_vec()
        }
        Kind::Edges => {
            let corners = corners(random);
            let grid = grid_over(corners);
            let mut pool = corners.to_vec();
            pool.extend((0..random.between(1, 20)).map(|_| {
                let [x, y] = [grid.origin().x, grid.origin().y].map(|origin| {
                    let edge = origin + random.between(0, 52) as f64 * grid.cell_size();
                    nudged(edge, random.between(-3, 3))
                });
                inside(corners, [x, y])
            }));
            pool
        }
        Kind::Ties => {
            let size = random.pick(&[1.0, 0.5, 0.1, 3.0]);
            let side = random.pick(&[3, 6, 50]);
            (0..random.between(1, 24))
                .map(|_| [(); 2].map(|()| random.between(0, side) as f64 * size))
                .collect()
        }
        Kind::Far => {
            let corners = corners(random);
            let mut pool = corners.to_vec();
            pool.extend((0..random.below(6)).map(|_| {
                let [x, y] = [(); 2].map(|()| random.unit());
                let [[left, low], [right, high]] = corners;
                inside(corners, [left + x * (right - left), low + y * (high - low)])
            }));
            pool
        }
    }
}

/// Two opposite corners of a box.
fn corners(random: &mut Random) -> [[f64; 2]; 2] {
    let low = [(); 2].map(|()| random.pick(&[0.0, -0.5, -3.0, 0.1, 1e5]) * random.unit());
    let scale = random.pick(&[1e-9, 1.0, 1.0, 7.0, 100.0, 4e5]);
    let sides = [(); 2].map(|()| scale * random.unit());
    [low, [low[0] + sides[0], low[1] + sides[1]]]
}

fn inside([low, high]: [[f64; 2]; 2], [x, y]: [f64; 2]) -> [f64; 2] {
    [x.clamp(low[0], high[0]), y.clamp(low[1], high[1])]
}

fn grid_over([low, high]: [[f64; 2]; 2]) -> door::Grid {
    let corners = Polyline::new(vec![Point::new(low[0], low[1]), Point::new(high[0], high[1])]);
    reference_grid(&[&corners])
}

/// Lengths of contours that `points` points are cut into.
fn cut(points: u32, random: &mut Random) -> Vec<u32> {
    let most = random.pick(&[3, 10, 400]);
    let mut left = points;
    let mut lengths = Vec::new();
    while left > 0 {
        let length = left.min(random.below(most) as u32);
        lengths.push(length);
        left -= length;
    }
    lengths
}

#[cfg(test)]
mod tests {
    use super::{Case, case, kinds, polylines, reference_grid};
    use crate::run::assert_every_kind_agrees;

    #[test]
    fn every_kind_agrees() {
        assert_every_kind_agrees(&kinds(), 200, case);
    }

    /// Rounded cell edges: path place 2 is the nearest, and the search leaves before its ring.
    #[test]
    fn the_true_nearest_is_missed_alike() {
        let points = vec![
            -0.5,
            -0.5,
            0.5,
            0.5,
            0.068_112_893_051_142_43,
            0.099_999_999_999_999_92,
            0.128_112_893_051_142_4,
            0.159_999_999_999_999_86,
            0.068_112_893_051_142_43,
            0.159_999_999_999_999_86,
        ];
        let case = Case { points, lengths: vec![4, 1], count: 4 };
        case.compare().unwrap();
        let contours = polylines(&case.points, &case.lengths);
        let candidates: Vec<_> = contours.iter().collect();
        let mut grid = reference_grid(&candidates);
        let path = contours[0].points();
        for (place, &p) in path.iter().enumerate() {
            grid.insert(place, p);
        }
        let q = contours[1].points()[0];
        let (found, squared) = grid.nearest(q).unwrap();
        let least = (0..4)
            .min_by(|&a, &b| q.distance_squared(path[a]).total_cmp(&q.distance_squared(path[b])));
        assert!(q.distance_squared(path[least.unwrap()]) < squared, "place {found} is nearest");
    }
}
