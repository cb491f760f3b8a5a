//! How often a path runs over each of its grooves: what is walked back over is cut again and again.
//!
//! A groove is two neighbouring path points that differ as numbers, in either order: 0 and -0 are the
//! same. Each pair of the path between these points is a pass over it, whatever its kind, a jump's
//! scratch too. Whole pairs are compared, so segments that overlap in part are different grooves.

use std::collections::HashMap;
use std::collections::hash_map::Entry;
use twillharbor::Point;

/// The passes of a path. Pairs are known by their numbers, which are from 1.
pub struct Passes {
    /// For each pair the first that runs over the same groove; 0 for one between equal points.
    firsts: Vec<u32>,
    /// For each pair how many have run over its groove by then; 0 for one between equal points.
    ranks: Vec<u32>,
    /// For each pair that is the first over its groove how many run over it in all.
    totals: Vec<u32>,
    /// The pair that is the first over the groove with the most passes; of several the first.
    most: Option<usize>,
    /// How many grooves there are.
    grooves: usize,
}

/// The passes over a groove.
#[derive(Debug, Clone, Copy, PartialEq, Eq)]
pub struct Over {
    /// How many there are.
    pub passes: u32,
    /// The numbers of the first pair that runs over it and of the last.
    pub first: usize,
    pub last: usize,
}

impl Passes {
    /// Of a path with these points.
    pub fn of(points: &[Point]) -> Self {
        let pairs = points.len().saturating_sub(1);
        let mut known: HashMap<[u64; 4], u32> = HashMap::with_capacity(pairs.min(1 << 16));
        let mut passes = Self {
            firsts: Vec::with_capacity(pairs),
            ranks: Vec::with_capacity(pairs),
            totals: vec![0; pairs],
            most: None,
            grooves: 0,
        };
        for (before, ends) in points.windows(2).enumerate() {
            passes.add(before as u32 + 1, groove(ends[0], ends[1]), &mut known);
        }
        passes.grooves = known.len();
        // Of several that are the greatest `max_by_key` gives the last.
        let numbers = (1..=pairs).rev().filter(|&number| passes.totals[number - 1] > 0);
        passes.most = numbers.max_by_key(|&number| passes.totals[number - 1]);
        passes
    }

    fn add(&mut self, number: u32, groove: Option<[u64; 4]>, known: &mut HashMap<[u64; 4], u32>) {
        let first = match groove.map(|groove| known.entry(groove)) {
            None => 0,
            Some(Entry::Occupied(found)) => *found.get(),
            Some(Entry::Vacant(place)) => *place.insert(number),
        };
        self.firsts.push(first);
        self.ranks.push(match first {
            0 => 0,
            first => {
                let total = &mut self.totals[first as usize - 1];
                *total += 1;
                *total
            }
        });
    }

    /// For each pair the first that runs over the same groove; 0 for one between equal points.
    pub fn firsts(&self) -> &[u32] {
        &self.firsts
    }

    /// How often the groove of a pair has been run over by then; 0 if it is none.
    pub fn so_far(&self, number: usize) -> u32 {
        self.ranks[number - 1]
    }

    /// All passes over the groove of a pair; none where its points are equal.
    pub fn over(&self, number: usize) -> Option<Over> {
        let first = self.firsts[number - 1];
        let passes = self.totals[(first as usize).checked_sub(1)?];
        let is_last =
            |&number: &usize| self.firsts[number - 1] == first && self.ranks[number - 1] == passes;
        let last =
            (number..=self.firsts.len()).find(is_last).expect("one of its pairs is the last");
        Some(Over { passes, first: first as usize, last })
    }

    /// The greatest number of passes over one groove, and where; of several such grooves the one that
    /// the path comes to first. There is none where there is no groove.
    pub fn most(&self) -> Option<Over> {
        self.over(self.most?)
    }

    /// How many grooves there are.
    pub const fn grooves(&self) -> usize {
        self.grooves
    }

    /// How many grooves have the greatest number of passes.
    pub fn grooves_with_most(&self) -> usize {
        let most = self.most.map(|number| self.totals[number - 1]);
        self.totals.iter().filter(|&&total| Some(total) == most).count()
    }
}

/// A groove by the bits of its ends' coordinates, in one order; none between equal points. The library
/// gives no coordinate that is NaN.
fn groove(a: Point, b: Point) -> Option<[u64; 4]> {
    // Adding 0 makes 0 of -0, and alters nothing else.
    let bits = |point: Point| [point.x, point.y].map(|c| (c + 0.0).to_bits());
    let (a, b) = (bits(a), bits(b));
    let ([ax, ay], [bx, by]) = if a < b { (a, b) } else { (b, a) };
    (a != b).then_some([ax, ay, bx, by])
}

#[cfg(test)]
mod tests {
    use super::{Over, Passes};
    use twillharbor::Point;

    fn path(coordinates: &[(f64, f64)]) -> Vec<Point> {
        coordinates.iter().map(|&(x, y)| Point { x, y }).collect()
    }

    #[test]
    fn passes_are_counted_in_either_direction_and_by_numbers() {
        // Over (0,0)(4,0) four times, once by -0; over (0,0)(0,1) twice; and a pair of equal points.
        let points = path(&[
            (0.0, 0.0),
            (4.0, 0.0),
            (0.0, 0.0),
            (-0.0, 0.0),
            (0.0, 1.0),
            (0.0, -0.0),
            (4.0, -0.0),
            (0.0, 0.0),
        ]);
        let passes = Passes::of(&points);
        assert_eq!(passes.firsts(), [1, 1, 0, 4, 4, 1, 1]);
        assert_eq!([1, 2, 3, 4, 5, 6, 7].map(|n| passes.so_far(n)), [1, 2, 0, 1, 2, 3, 4]);
        let along = Over { passes: 4, first: 1, last: 7 };
        let across = Over { passes: 2, first: 4, last: 5 };
        for (number, over) in [(1, Some(along)), (3, None), (4, Some(across)), (6, Some(along))] {
            assert_eq!(passes.over(number), over, "{number}");
        }
        assert_eq!(passes.most(), Some(along));
        assert_eq!((passes.grooves(), passes.grooves_with_most()), (2, 1));
    }

    #[test]
    fn whole_pairs_are_compared() {
        // (0,0)(4,0) and its half (0,0)(2,0) overlap, and are two grooves.
        let points = path(&[(0.0, 0.0), (4.0, 0.0), (0.0, 0.0), (2.0, 0.0), (0.0, 0.0)]);
        let passes = Passes::of(&points);
        assert_eq!((passes.grooves(), passes.grooves_with_most()), (2, 2));
        assert_eq!(passes.firsts(), [1, 1, 3, 3]);
        // Of several with as many passes the first along the path is told.
        assert_eq!(passes.most(), Some(Over { passes: 2, first: 1, last: 2 }));
        // Points that are hardly apart differ.
        let passes = Passes::of(&path(&[(0.0, 5e-324), (0.0, -5e-324), (0.0, 0.0)]));
        assert_eq!((passes.grooves(), passes.firsts()), (2, &[1, 2][..]));
    }

    #[test]
    fn a_path_without_grooves_has_no_passes() {
        for points in [&[][..], &[(1.0, 2.0)], &[(0.0, 1.0), (-0.0, 1.0)]] {
            let passes = Passes::of(&path(points));
            assert_eq!((passes.most(), passes.grooves(), passes.grooves_with_most()), (None, 0, 0));
        }
    }
}
