//! Plates for the retrace call: those of `plates`, others that lie at the edges of what its grid,
//! its search and its samples decide, those of `passed_over` among them, those of `path_lengths`, and
//! those of `meeting_plates`.

use harness::plates::{falling_layers, in_rows, rows as rows_of, touching_rows};
use harness::random::Random;
use twillharbor::Size;

use crate::floats::nudged;
use crate::meeting_plates::{self, MEETINGS, Meeting};
use crate::passed_over;
use crate::path_lengths;
use crate::plates::{self, LIMIT, MOST_POINTS, Plate, all_contours, all_points, of_lengths, up_to};
use crate::rule::retrace::Grid;
use crate::run::{self, Plan};

/// How the points of a plate lie.
#[derive(Debug, Clone, Copy, PartialEq, Eq)]
pub enum Kind {
    Of(plates::Kind),
    GridEdges,
    RingBounds,
    PassedOver,
    CellSteps,
    Scattered,
    Rows,
    Lengths,
    Meeting(Meeting),
}

const MORE: [(Kind, &str); 7] = [
    (Kind::GridEdges, "points at the edges of their grid's cells"),
    (Kind::RingBounds, "points as far apart as a ring's bound"),
    (Kind::PassedOver, "points in the ring that is left, nearer than the one that is found"),
    (Kind::CellSteps, "contours that step by parts of a cell"),
    (Kind::Scattered, "scattered single points"),
    (Kind::Rows, "rows of up to 65,536 points"),
    (Kind::Lengths, "points that are whole numbers of 1,024ths apart, or nearly"),
];

/// Where the plates of `meeting_plates` begin among all kinds.
const FIRST_MEETING: usize = plates::KINDS.len() + MORE.len();

pub const KINDS: [(Kind, &str); FIRST_MEETING + MEETINGS.len()] = {
    let mut kinds = [MORE[0]; FIRST_MEETING + MEETINGS.len()];
    let mut at = 0;
    while at < kinds.len() {
        kinds[at] = if at < plates::KINDS.len() {
            let (kind, name) = plates::KINDS[at];
            (Kind::Of(kind), name)
        } else if at < FIRST_MEETING {
            MORE[at - plates::KINDS.len()]
        } else {
            let (meeting, name) = MEETINGS[at - FIRST_MEETING];
            (Kind::Meeting(meeting), name)
        };
        at += 1;
    }
    kinds
};

/// A plate of the kind, mostly small.
pub fn plate(kind: Kind, random: &mut Random) -> Plate {
    let plate = match kind {
        Kind::Of(kind) => {
            let mut lengths = lengths(random);
            if kind == plates::Kind::Subnormals {
                // Processors are slow at these.
                lengths.truncate(100);
            }
            of_lengths(kind, lengths, random)
        }
        Kind::GridEdges => framed(at_edges, random),
        Kind::RingBounds => ring_bounds(random),
        Kind::PassedOver => passed_over::plate(random),
        Kind::CellSteps => framed(steps, random),
        Kind::Scattered => scattered(random),
        Kind::Rows => rows(random),
        Kind::Lengths => path_lengths::plate(random),
        Kind::Meeting(meeting) => meeting_plates::plate(meeting, random),
    };
    plates::assert_sound(&plate, kind);
    plate
}

/// Large plates are rarer here than among `plates`, and not so large: their paths are long, or
/// take long where many points lie in one cell.
fn lengths(random: &mut Random) -> Vec<u32> {
    match random.below(16_000) {
        0 => all_points(random, 4),
        1..33 => all_contours(random),
        33..43 => (0..random.between(61, 200)).map(|_| up_to(random, 8)).collect(),
        43..243 => (0..random.between(13, 60)).map(|_| up_to(random, 8)).collect(),
        _ => (0..random.below(13)).map(|_| up_to(random, 8)).collect(),
    }
}

/// A box, of which two corners are points of the plate, and the grid that it leads to.
struct Frame {
    least: [f64; 2],
    greatest: [f64; 2],
    grid: Grid,
}

impl Frame {
    fn new(random: &mut Random) -> Self {
        let side = random.pick(&[1e-3, 0.7, 1.0, 1.25, 3.0, 50.0, 64.0, 100.0, 123.456, 499_999.5]);
        let other = side * random.pick(&[1.0, 0.5, 0.02, 0.0, 1.0 / 3.0]);
        let sides = if random.one_in(2) { [side, other] } else { [other, side] };
        let least = [(); 2].map(|()| random.pick(&[0.0, 0.0, -side / 2.0, 0.1, -1.0 / 3.0, 1e5]));
        let greatest = [0, 1].map(|axis| least[axis] + sides[axis]);
        Self { least, greatest, grid: Grid::of(&[least, greatest]) }
    }

    /// The point, or the nearest one of the box, so that the grid stays what it is.
    fn within(&self, point: [f64; 2]) -> [f64; 2] {
        [0, 1].map(|axis| point[axis].clamp(self.least[axis], self.greatest[axis]))
    }

    fn anywhere(&self, random: &mut Random) -> [f64; 2] {
        let point = [0, 1].map(|axis| {
            self.least[axis] + random.unit() * (self.greatest[axis] - self.least[axis])
        });
        self.within(point)
    }

    /// Where a column or a row begins, and a step or two beside that.
    fn edge(&self, axis: usize, cell: usize, random: &mut Random) -> f64 {
        let edge = self.grid.origin[axis] + cell as f64 * self.grid.cell_size;
        nudged(edge, random.between(-2, 2))
    }
}

/// Draws a contour of a length into a frame in which points were drawn.
type Draw = fn(&Frame, &[[f64; 2]], usize, &mut Random) -> Vec<[f64; 2]>;

/// Up to 10 contours of up to 8 points.
fn framed(draw: Draw, random: &mut Random) -> Plate {
    let frame = Frame::new(random);
    let mut contours: Vec<Vec<[f64; 2]>> = Vec::new();
    let mut drawn = vec![frame.anywhere(random)];
    for _ in 0..random.between(1, 8) {
        let length = random.below(9) as usize;
        let contour = draw(&frame, &drawn, length, random);
        assert_eq!(contour.len(), length);
        drawn.extend(&contour);
        contours.push(contour);
    }
    let at = random.below(contours.len() as u64 + 1) as usize;
    if random.one_in(2) {
        contours.insert(at, vec![frame.least, frame.greatest]);
    } else {
        contours.splice(at..at, [vec![frame.least], vec![], vec![frame.greatest]]);
    }
    let size = random.pick(&[[0, 0], [1, 0], [100, 100], [7, 64], [1_000, 1]]);
    Plate::of_contours(&contours, size)
}

/// Points within a few cells of one another, at the cells' edges and corners.
fn at_edges(
    frame: &Frame,
    drawn: &[[f64; 2]],
    length: usize,
    random: &mut Random,
) -> Vec<[f64; 2]> {
    let cells = frame.grid.cells;
    let middle = frame.grid.cell_of(random.pick(drawn));
    let spread = random.pick(&[1, 2, 2, 60]);
    let points = (0..length).map(|_| {
        let point = [0, 1].map(|axis| match random.below(6) {
            0 => random.pick(drawn)[axis],
            1 => frame.anywhere(random)[axis],
            _ => {
                let cell = middle[axis] as i64 + random.between(-spread, spread);
                frame.edge(axis, cell.clamp(0, cells[axis] as i64) as usize, random)
            }
        });
        frame.within(point)
    });
    points.collect()
}

/// A point between two others that are as far away from it as the bound of a ring, to the last
/// bit: at 0, d and 2d along an axis. By rounded cell edges one of the two may lie in that ring
/// and the other in the one before.
fn ring_bounds(random: &mut Random) -> Plate {
    let side = match random.below(3) {
        0 => random.pick(&[0.5, 1.0, 3.0, 50.0, 100.0]),
        1 => random.unit(),
        _ => random.unit() * 1_000.0,
    };
    let other = side * random.pick(&[0.0, 0.5, 1.0]);
    let cell = Grid::of(&[[0.0, 0.0], [side, other]]).cell_size;
    let apart = random.between(1, 20) as f64 * cell;
    let apart = nudged(apart, random.pick(&[0, 0, 0, 1, -1]));
    let line = other * random.pick(&[0.0, 0.3, 1.0]);
    let mut contours = vec![vec![[0.0, 0.0], [side, other]], vec![[apart, line]]];
    let mut ends = vec![[0.0, line], [2.0 * apart, line]];
    if random.one_in(2) {
        ends.reverse();
    }
    if random.one_in(2) {
        contours.push(ends);
    } else {
        contours.extend(ends.into_iter().map(|end| vec![end]));
    }
    for _ in 0..random.below(3) {
        let far = [side * random.unit(), other * random.unit()];
        contours.push(vec![far; random.below(3) as usize]);
    }
    // Any order, and the other axis and the other side of 0 too.
    for end in (1..contours.len()).rev() {
        contours.swap(end, random.below(end as u64 + 1) as usize);
    }
    let (turned, sign) = (random.one_in(2), random.pick(&[1.0, -1.0]));
    for [x, y] in contours.iter_mut().flatten() {
        (*x, *y) = if turned { (sign * *y, sign * *x) } else { (sign * *x, sign * *y) };
    }
    Plate::of_contours(&contours, random.pick(&[[0, 0], [1, 1], [100, 0], [2_000, 2_000]]))
}

/// A contour whose segments add up to whole cells, or nearly.
fn steps(frame: &Frame, drawn: &[[f64; 2]], length: usize, random: &mut Random) -> Vec<[f64; 2]> {
    let cell = frame.grid.cell_size;
    let parts = [cell, cell / 2.0, cell / 4.0, cell / 3.0, 0.3 * cell, 2.0 * cell, 0.0];
    let usual = random.pick(&parts);
    let mut point = if random.one_in(2) { frame.anywhere(random) } else { random.pick(drawn) };
    let mut points = Vec::new();
    let mut step = [usual, 0.0];
    for _ in 0..length {
        points.push(point);
        if random.one_in(3) {
            let part = if random.one_in(2) { usual } else { random.pick(&parts) };
            let part = nudged(part, random.between(-1, 1)) * random.pick(&[-1.0, 1.0]);
            step = if random.one_in(2) { [part, 0.0] } else { [0.0, part] };
        }
        point = frame.within([0, 1].map(|axis| point[axis] + step[axis]));
    }
    points
}

/// Single points, most of them far from the one before: the path walks back again and again.
fn scattered(random: &mut Random) -> Plate {
    let most = random.pick(&[3, 10, 100, 0]);
    let contours: Vec<Vec<[f64; 2]>> = (0..random.between(10, 50))
        .map(|_| {
            vec![[(); 2].map(|()| match most {
                0 => random.unit() * 1_000.0,
                _ => random.between(0, most) as f64,
            })]
        })
        .collect();
    Plate::of_contours(&contours, random.pick(&[[0, 0], [10, 10], [1_000, 1_000]]))
}

/// Document 02's rows, as they are or scaled.
fn rows(random: &mut Random) -> Plate {
    // Of any size up to a power of two that is random too.
    let up_to = |random: &mut Random, power: u64| {
        let most = 1 << random.below(power + 1);
        1 + random.below(most) as usize
    };
    let (contours, points) = if random.one_in(1_000) {
        let contours = up_to(random, 12);
        (contours, 1 + random.below(u64::from(MOST_POINTS) / contours as u64) as usize)
    } else {
        (up_to(random, 4), up_to(random, 3))
    };
    let per_row = up_to(random, 6);
    let reach = per_row.min(contours) * (points + 4) + contours / per_row * 10;
    let spacing: f64 = random.pick(&[1.0, 1.0, 0.37, 1.0 / 3.0]);
    let spacing = spacing.min(LIMIT / (reach as f64 + 1.0));
    let shift = random.pick(&[0.0, 0.0, 0.11]);
    let contours: Vec<Vec<[f64; 2]>> = (0..contours)
        .map(|number| {
            let points = in_rows(number, points, per_row);
            points.map(|point| point.map(|c| c * spacing + shift)).collect()
        })
        .collect();
    Plate::of_contours(&contours, random.pick(&[[0, 0], [0, 0], [50, 50], [1_000, 10]]))
}

/// Plates that every run has: large ones, and one whose path has too many points.
#[derive(Debug, Clone, Copy)]
pub enum Large {
    /// Contours, points of each and contours to a row; then the coordinates' scale.
    Rows([usize; 3], f64),
    /// The same, unscaled, with layers for that many contours.
    RowsInLayers([usize; 3], fn(usize) -> Vec<u32>),
    /// Contours, points of each and contours to a row, each of which starts where the one before
    /// ends.
    TouchingRows([usize; 3]),
    /// Lines of a net each way, or contours of a chain.
    Meeting(Meeting, i64),
    /// Contours and points of each.
    Random([usize; 2]),
}

pub const LARGE: [(Large, &str); 18] = [
    (Large::Rows([200, 50, 10], 1.0), "200 contours of 50 points in rows"),
    (Large::Rows([200, 50, 10], 0.37), "the same, scaled"),
    (Large::Rows([4_000, 16, 40], 1.0), "4,000 contours of 16 points in rows"),
    (Large::Rows([4_000, 16, 40], 0.37), "the same, scaled"),
    (
        Large::RowsInLayers([200, 50, 10], falling_layers),
        "200 contours of 50 points in rows, in sixteen layers",
    ),
    (
        Large::RowsInLayers([200, 50, 10], alternating_layers),
        "200 contours of 50 points in rows, in two layers in turn",
    ),
    (
        Large::RowsInLayers([4_000, 16, 40], falling_layers),
        "4,000 contours of 16 points in rows, in sixteen layers",
    ),
    (
        Large::RowsInLayers([4_000, 16, 40], alternating_layers),
        "4,000 contours of 16 points in rows, in two layers in turn",
    ),
    (Large::TouchingRows([200, 50, 10]), "200 contours of 50 points in rows, end on start"),
    (Large::TouchingRows([4_000, 16, 40]), "4,000 contours of 16 points in rows, end on start"),
    (Large::Meeting(Meeting::Net, 12), "a net of 12 lines each way"),
    (Large::Meeting(Meeting::Chain, 2_000), "a chain of 2,000 contours"),
    (Large::Rows([4_096, 16, 64], 1.0), "4,096 contours of 16 points in rows"),
    (Large::Rows([16, 4_096, 2], 1.0), "16 contours of 4,096 points in rows"),
    (Large::Rows([1, 65_536, 1], 1.0), "one contour of 65,536 points"),
    (Large::Random([4, 16_384]), "4 contours of 16,384 random points"),
    (Large::Random([4_096, 1]), "4,096 random points"),
    (Large::Random([150, 1]), "150 random points, whose path has more than 1,048,576"),
];

/// Layers 0 and 1 in turn. The path goes back to every other contour.
fn alternating_layers(contours: usize) -> Vec<u32> {
    [0, 1].into_iter().cycle().take(contours).collect()
}

/// Runs each of the large plates.
pub fn run_large(
    plan: Plan,
    case: impl Fn(Large, &Plate, &mut Random) -> Result<(), String> + Sync,
) -> bool {
    println!("large plates: {}, seed {}", LARGE.len(), plan.seed);
    run::run_each(plan, &LARGE, |large, random| case(large, &large_plate(large, random), random))
}

fn large_plate(large: Large, random: &mut Random) -> Plate {
    let (points, lengths) = match large {
        Large::RowsInLayers([contours, points, per_row], layers) => {
            let plate = large_plate(Large::Rows([contours, points, per_row], 1.0), random);
            return Plate { layers: layers(contours), ..plate };
        }
        Large::Rows([contours, points, per_row], scale) => {
            let (coordinates, lengths) = rows_of(contours, points, per_row);
            let shift = if scale == 1.0 { 0.0 } else { 0.11 };
            (coordinates.iter().map(|c| c * scale + shift).collect(), lengths)
        }
        Large::TouchingRows([contours, points, per_row]) => {
            touching_rows(contours, points, per_row)
        }
        Large::Meeting(meeting, many) => return meeting_plates::large(meeting, many, random),
        Large::Random([contours, points]) => {
            let coordinates = (0..2 * contours * points).map(|_| random.unit() * 1_000.0);
            (coordinates.collect(), vec![points as u32; contours])
        }
    };
    Plate::new(points, lengths, Size::default())
}

#[cfg(test)]
mod tests {
    use harness::random::Random;
    use twillharbor::StartPointStrategy::Inside;

    use super::{Frame, KINDS, Kind, plate};
    use crate::plates;
    use crate::rule::checked;
    use crate::rule::retrace::Grid;

    #[test]
    fn every_kind_makes_sound_plates() {
        let mut random = Random::new(1);
        for (kind, name) in KINDS {
            let mut points = 0;
            for _ in 0..300 {
                let plate = plate(kind, &mut random);
                assert_eq!(checked(&plate, Inside), Ok(()), "{name}");
                points += plate.points.len() / 2;
            }
            assert!(points > 1_000, "{name}: {points} points");
        }
    }

    #[test]
    fn the_kinds_of_plates_come_first() {
        for (at, (kind, name)) in plates::KINDS.into_iter().enumerate() {
            assert_eq!(KINDS[at], (Kind::Of(kind), name));
        }
    }

    #[test]
    fn framed_plates_have_the_grid_of_their_frame() {
        let mut random = Random::new(2);
        for kind in [Kind::GridEdges, Kind::CellSteps] {
            for _ in 0..300 {
                let seed = random.bits();
                let Frame { grid, .. } = Frame::new(&mut Random::new(seed));
                let plate = plate(kind, &mut Random::new(seed));
                let (points, _) = plate.points.as_chunks();
                let theirs = Grid::of(points);
                assert_eq!(theirs.cell_size, grid.cell_size);
                assert_eq!((theirs.origin, theirs.cells), (grid.origin, grid.cells));
            }
        }
    }
}
