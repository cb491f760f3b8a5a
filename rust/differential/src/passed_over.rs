//! Plates on which the ring search may pass over a nearer point.
//!
//! Two points of a line lie at the ends of two columns, r - 1 columns apart. Rounded, these ends can
//! be nearer to one another than r - 1 cell sizes. A third point is then put a little farther from
//! the one than the other, but nearer than the bound of ring r: where the path has both before it
//! comes to the one, the search finds the third and ends before the other.

use harness::random::Random;
use twillharbor::Size;

use crate::floats::nudged;
use crate::meeting_plates::shuffle;
use crate::plates::{LIMIT, Plate};
use crate::rule::retrace::Grid;

type Contour = Vec<[f64; 2]>;

/// The widest extent of a plate, and the grid that it leads to.
struct Line {
    least: f64,
    greatest: f64,
    grid: Grid,
}

impl Line {
    fn new(random: &mut Random) -> Self {
        let side: f64 = match random.below(4) {
            0 => random.pick(&[0.3, 0.7, 1.0, 1.25, 65.0, 123.456, LIMIT, 1.5 * LIMIT]),
            1 => random.between(1, 400) as f64,
            2 => 0.3 + random.unit(),
            _ => 1.0 + random.unit() * 1_000.0,
        };
        let least = match random.below(8) {
            0 => 0.0,
            1 => -side,
            2 => random.between(-1_000, 1_000) as f64,
            3 => random.pick(&[-LIMIT, LIMIT]),
            4 => random.unit() * side,
            // Coordinates are finest around 0, and differences from the origin coarsest far from it.
            5 | 6 => (0.06 * random.unit() - 1.0) * side,
            _ => -random.unit() * side,
        };
        let least = least.clamp(-LIMIT, LIMIT - side);
        let greatest = (least + side).min(LIMIT);
        Self { least, greatest, grid: Grid::of(&[[least, 0.0], [greatest, 0.0]]) }
    }

    fn column(&self, x: f64) -> usize {
        self.grid.cell_of([x, 0.0])[0]
    }

    /// The last coordinate up to a column's end and the next after it. There are both.
    fn end_of(&self, column: usize) -> [f64; 2] {
        let [mut last, mut next] = [self.least, self.greatest];
        loop {
            let middle = last.midpoint(next);
            if middle <= last || next <= middle {
                return [last, next];
            }
            if self.column(middle) <= column {
                last = middle;
            } else {
                next = middle;
            }
        }
    }

    /// The ring, and two coordinates in columns as far apart: the last of the one, the first of the
    /// other.
    fn ends(&self, random: &mut Random) -> (usize, [f64; 2]) {
        let [first, last] = [self.least, self.greatest].map(|x| self.column(x) as i64);
        let most = (last - first).min(20);
        let ring = if random.one_in(2) { 2 } else { random.between(2, most) };
        let column = match self.column(0.0) as i64 - random.between(0, ring) {
            around_0 if random.one_in(2) => around_0.clamp(first, last - ring),
            _ => random.between(first, last - ring),
        };
        let [low, _] = self.end_of(column as usize);
        let [_, high] = self.end_of((column + ring) as usize - 1);
        (ring as usize, [low, high])
    }
}

/// A distance from that of two points to that of a ring's bound, or a step or two beside.
fn between(near: f64, bound: f64, random: &mut Random) -> f64 {
    match random.below(4) {
        0 => nudged(near, random.between(0, 2)),
        1 => nudged(bound, random.between(-2, 0)),
        _ => near + random.unit() * (bound - near),
    }
}

/// What becomes a plate: the line runs along the first axis, at a place on the second.
struct Points {
    line: Line,
    at: f64,
    /// To which side of the line the third point lies.
    side: f64,
}

impl Points {
    /// Away from the line, and from what lies within a few cells of it.
    fn far(&self, random: &mut Random) -> f64 {
        let reach = self.line.greatest - self.line.least;
        self.at + (0.4 + 0.08 * random.unit()) * reach * random.pick(&[-1.0, 1.0])
    }

    fn anywhere(&self, random: &mut Random) -> f64 {
        let Line { least, greatest, .. } = self.line;
        (least + random.unit() * (greatest - least)).clamp(least, greatest)
    }

    /// The points that come first: the third one, the other, and two that hold the line's ends.
    fn first(&self, third: [f64; 2], other: f64, random: &mut Random) -> Vec<Contour> {
        let on_line = random.one_in(3);
        let ends = [self.line.least, self.line.greatest]
            .map(|x| [x, if on_line { self.at } else { self.far(random) }]);
        let mut pair = [third, [other, self.at]];
        if random.one_in(2) {
            pair.reverse();
        }
        let ([from, to], [one, two]) = (ends, pair);
        match random.below(4) {
            0 => vec![vec![from, one, two, to]],
            1 => vec![vec![from, one], vec![two, to]],
            2 => vec![vec![from], vec![to], vec![one, two]],
            _ => [from, to, one, two].map(|point| vec![point]).to_vec(),
        }
    }

    /// The contour that is to be landed on at x: that point alone, at an end or between others.
    fn landed_on(&self, x: f64, random: &mut Random) -> Contour {
        let cell = self.line.grid.cell_size;
        let mut beside = || [x, self.at - self.side * random.between(2, 10) as f64 * cell];
        let (point, [one, two]) = ([x, self.at], [(); 2].map(|()| beside()));
        match random.below(5) {
            0 => vec![one, point, two],
            1 => vec![one, point],
            2 => vec![point, one],
            _ => vec![point],
        }
    }
}

/// A line and two of its points: of a few, the first pair that is nearer than the ring's bound.
fn line(random: &mut Random) -> (Line, [f64; 2], f64) {
    let line = Line::new(random);
    let mut tries = 0;
    loop {
        let (ring, [low, high]) = line.ends(random);
        let bound = (ring - 1) as f64 * line.grid.cell_size;
        tries += 1;
        if high - low < bound || tries == 20 {
            return (line, [low, high], bound);
        }
    }
}

pub fn plate(random: &mut Random) -> Plate {
    let (line, [low, high], bound) = line(random);
    let [landing, other, away] =
        if random.one_in(2) { [low, high, -1.0] } else { [high, low, 1.0] };
    let apart = between(high - low, bound, random);
    let at = random.pick(&[0.0, 0.0, 0.0, 0.1, -7.0]);
    let points = Points { line, at, side: random.pick(&[-1.0, 1.0]) };
    let along = landing + away * apart;
    let is_within = points.line.least <= along && along <= points.line.greatest;
    let third = if is_within && random.one_in(4) {
        [along, at]
    } else {
        [landing, at + points.side * apart]
    };
    let mut contours = points.first(third, other, random);
    for _ in 0..random.below(3) {
        let far = [points.anywhere(random), points.far(random)];
        contours.push(vec![far; random.below(3) as usize]);
    }
    // What is to be landed on mostly waits until all others are drawn.
    let higher = u32::from(!random.one_in(4));
    let mut layered: Vec<(Contour, u32)> = contours.into_iter().map(|c| (c, 0)).collect();
    layered.push((points.landed_on(landing, random), higher));
    shuffle(&mut layered, random);
    laid(layered, random)
}

/// The plate, with the line along either axis.
fn laid(layered: Vec<(Contour, u32)>, random: &mut Random) -> Plate {
    let (mut contours, layers): (Vec<Contour>, Vec<u32>) = layered.into_iter().unzip();
    if random.one_in(2) {
        contours.iter_mut().flatten().for_each(|point| point.reverse());
    }
    let lengths = contours.iter().map(|contour| contour.len() as u32).collect();
    let [width, height] = random.pick(&[[0, 0], [1, 1], [100, 0], [2_000, 2_000]]);
    let plate = Plate::new(contours.concat().into_flattened(), lengths, Size { width, height });
    Plate { layers, ..plate }
}

#[cfg(test)]
mod tests {
    use harness::random::Random;
    use twillharbor::StartPointStrategy::Inside;

    use super::{Line, plate};
    use crate::near;
    use crate::plates::LIMIT;
    use crate::reference::retrace;
    use crate::rule::retrace::Grid;

    #[test]
    fn a_column_ends_where_it_is_said_to() {
        let mut random = Random::new(1);
        for _ in 0..300 {
            let line = Line::new(&mut random);
            let [first, last] = [line.least, line.greatest].map(|x| line.column(x));
            assert!(first + 2 <= last && -LIMIT <= line.least && line.greatest <= LIMIT);
            for column in first..last {
                let [end, next] = line.end_of(column);
                assert_eq!(end.next_up(), next);
                assert_eq!([end, next].map(|x| line.column(x)), [column, column + 1]);
            }
        }
    }

    #[test]
    fn plates_have_the_grid_of_their_line() {
        let mut random = Random::new(2);
        for _ in 0..300 {
            let seed = random.bits();
            let Line { grid, .. } = Line::new(&mut Random::new(seed));
            let plate = plate(&mut Random::new(seed));
            let (points, _) = plate.points.as_chunks();
            let theirs = Grid::of(points);
            assert_eq!(theirs.cell_size, grid.cell_size);
            assert!(theirs.origin.contains(&grid.origin[0]));
        }
    }

    #[test]
    fn a_nearer_point_is_passed_over_of_one_in_ten_or_more() {
        let mut random = Random::new(3);
        let mut plates = 0;
        for _ in 0..600 {
            let due = retrace(&plate(&mut random), Inside, 1_000).unwrap().unwrap();
            let looked = near::check(&due.path, &due.marks).unwrap();
            plates += u32::from(!looked.passed_over.is_empty());
        }
        assert!(plates >= 60, "{plates} of 600");
    }
}
