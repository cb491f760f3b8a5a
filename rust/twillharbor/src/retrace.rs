//! The retrace call. It takes a plate as the other calls do, and gives a path with marks.

use crate::plate::{MOST_CONTOURS, MOST_POINTS};
use crate::{Lengths, Plate, Point, Refusal, Size, StartPointStrategy, c};
use StartPointStrategy::{Home, Inside, Outside};

/// A path has at most so many points: C is at most this, however long the slices are.
pub(crate) const MOST_PATH_POINTS: usize = 1_048_576;

/// How a path comes to one of its points. A vertex is a point's place among the plate's
/// points, from 0.
#[derive(Debug, Clone, Copy, PartialEq, Eq, Hash)]
pub enum Mark {
    /// The first path point has this mark, and no other.
    Start {
        /// The vertex that the path starts on.
        vertex: u32,
    },
    /// Along a segment of a contour. Each segment is cut once.
    Cut {
        /// The lower vertex of the segment.
        segment: u32,
    },
    /// Back over an earlier pair of path points.
    BackStep {
        /// The place of the pair's first path point, to whose coordinates the step goes; it
        /// goes from the coordinates of the path point after that.
        reversed: u32,
    },
    /// To a contour that was not entered before, from a point that differs from the one landed
    /// on.
    Jump {
        /// The vertex that is landed on.
        vertex: u32,
    },
    /// To a contour that was not entered before, from a point that equals the one landed on;
    /// 0 and -0 are equal.
    Touch {
        /// The vertex that is landed on.
        vertex: u32,
    },
}

impl Mark {
    /// The mark of two numbers of a marks slice, its kind and its reference. There is none
    /// where the kind is above 4.
    #[must_use]
    pub const fn of([kind, reference]: [u32; 2]) -> Option<Self> {
        match kind {
            0 => Some(Self::Start { vertex: reference }),
            1 => Some(Self::Cut { segment: reference }),
            2 => Some(Self::BackStep { reversed: reference }),
            3 => Some(Self::Jump { vertex: reference }),
            4 => Some(Self::Touch { vertex: reference }),
            _ => None,
        }
    }

    /// The kind and the reference, as they stand in a marks slice.
    #[must_use]
    pub const fn numbers(self) -> [u32; 2] {
        match self {
            Self::Start { vertex } => [0, vertex],
            Self::Cut { segment } => [1, segment],
            Self::BackStep { reversed } => [2, reversed],
            Self::Jump { vertex } => [3, vertex],
            Self::Touch { vertex } => [4, vertex],
        }
    }
}

/// What a pair of neighbouring path points is: a [`Mark`], but for the start's.
#[derive(Debug, Clone, Copy, PartialEq, Eq, Hash)]
pub enum PairKind {
    /// A segment of a contour.
    Cut {
        /// The lower vertex of the segment.
        segment: u32,
    },
    /// An earlier pair, reversed.
    BackStep {
        /// The place of the earlier pair's first path point.
        reversed: u32,
    },
    /// A jump to a contour that was not entered before: the two points differ.
    Jump {
        /// The vertex that is landed on.
        vertex: u32,
    },
    /// A touch, which is a jump but for this: the two points are equal, so it scratches nothing.
    /// 0 and -0 are equal.
    Touch {
        /// The vertex that is landed on.
        vertex: u32,
    },
}

/// A pair of neighbouring path points: a groove, unless the two are equal.
#[derive(Debug, Clone, Copy, PartialEq)]
pub struct Pair {
    /// The point that is left.
    pub from: Point,
    /// The point that is reached.
    pub to: Point,
    /// Which of the four the pair is.
    pub kind: PairKind,
}

/// How many points a path has, and how many of its pairs are of each kind.
#[derive(Debug, Clone, Copy, PartialEq, Eq, Hash, Default)]
pub struct Counts {
    /// The path points: the cuts, the back-steps, and the contours that hold a point.
    pub points: usize,
    /// The segments of all contours.
    pub cuts: usize,
    /// The steps back over earlier pairs.
    pub back_steps: usize,
    /// The jumps between points that differ. Jumps and touches together are one less than
    /// there are contours that hold a point; both are 0 where none does.
    pub jumps: usize,
    /// The jumps between points that are equal.
    pub touches: usize,
}

/// What a path comes to.
#[derive(Debug, Clone, Copy, PartialEq, Eq, Hash, Default)]
pub struct Totals {
    /// How many points and pairs there are.
    pub counts: Counts,
    /// How long the pairs are, in 1,024ths.
    pub lengths: Lengths,
}

/// A path, and how it comes to each of its points: what the retrace call gives, or one from
/// elsewhere ([`MarkedPath::of`]).
///
/// A jump or touch of the retrace call's path leaves the nearest of the path points before it, but
/// for less than a thousand-millionth part of the squared distance to where it lands.
#[derive(Debug, Clone, PartialEq)]
pub struct MarkedPath {
    points: Vec<Point>,
    marks: Vec<Mark>,
    counts: Counts,
    lengths: Option<Lengths>,
}

impl MarkedPath {
    /// # Panics
    ///
    /// Where the marks are not a start, if there is a path point, and then marks of the other
    /// kinds: then the library is not the one that this crate was written for.
    fn new(path: &[f64], marks: &[u32], totals: Totals) -> Self {
        let Totals { counts, lengths } = totals;
        let (path, _) = path[..2 * counts.points].as_chunks();
        let (marks, _) = marks[..2 * counts.points].as_chunks();
        let marks = marks.iter().enumerate().map(|(place, &numbers)| match Mark::of(numbers) {
            Some(mark) if matches!(mark, Mark::Start { .. }) == (place == 0) => mark,
            _ => panic!("libtwillharbor.a marked path point {place} with {numbers:?}"),
        });
        Self {
            marks: marks.collect(),
            points: path.iter().map(|&[x, y]| Point { x, y }).collect(),
            counts,
            lengths: Some(lengths),
        }
    }

    /// A path from elsewhere, with its counts and lengths: two numbers of each slice to a path
    /// point. There is none where the slices do not match, or where the marks are not a start, if there is a path
    /// point, and then marks of the other kinds. Whether it draws a plate,
    /// [`check_path`](crate::check_path()) says.
    #[must_use]
    pub fn of(path: &[f64], marks: &[u32]) -> Option<Self> {
        let ((path, half), (numbers, _)) = (path.as_chunks(), marks.as_chunks());
        if !half.is_empty() || marks.len() != 2 * path.len() {
            return None;
        }
        let marks: Vec<Mark> =
            numbers.iter().map(|&numbers| Mark::of(numbers)).collect::<Option<_>>()?;
        let is_start = |mark: &Mark| matches!(mark, Mark::Start { .. });
        if marks.iter().enumerate().any(|(place, mark)| is_start(mark) != (place == 0)) {
            return None;
        }
        let of_kind = |kind| numbers.iter().filter(|&&[of, _]| of == kind).count();
        let [cuts, back_steps, jumps, touches] = [1, 2, 3, 4].map(of_kind);
        let counts = Counts { points: path.len(), cuts, back_steps, jumps, touches };
        let points = path.iter().map(|&[x, y]| Point { x, y }).collect();
        let read = Self { points, marks, counts, lengths: None };
        Some(Self { lengths: Lengths::of(read.pairs()), ..read })
    }

    /// The path points.
    #[must_use]
    pub fn points(&self) -> &[Point] {
        &self.points
    }

    /// The path points' marks, as many.
    #[must_use]
    pub fn marks(&self) -> &[Mark] {
        &self.marks
    }

    /// How many there are of each.
    #[must_use]
    pub const fn counts(&self) -> Counts {
        self.counts
    }

    /// How long its pairs are: what the retrace call gave. Of a path from [elsewhere](Self::of) the
    /// [lengths of its pairs](crate::pair_length) are added up; there are none where a coordinate is
    /// beyond the distance call's limit, 2,147,483,648, or a sum beyond 64 bits.
    #[must_use]
    pub const fn lengths(&self) -> Option<Lengths> {
        self.lengths
    }

    /// The first path point and its vertex; none where no contour holds a point.
    #[must_use]
    pub fn start(&self) -> Option<(Point, u32)> {
        match (self.points.first(), self.marks.first()) {
            (Some(&point), Some(&Mark::Start { vertex })) => Some((point, vertex)),
            _ => None,
        }
    }

    /// The pairs of neighbouring path points, in order. Before the first stands the
    /// [`start`](Self::start).
    pub fn pairs(&self) -> impl ExactSizeIterator<Item = Pair> + DoubleEndedIterator {
        let ends = self.points.iter().zip(self.points.iter().skip(1));
        ends.zip(self.marks.iter().skip(1)).map(|((&from, &to), &mark)| {
            let kind = match mark {
                Mark::Cut { segment } => PairKind::Cut { segment },
                Mark::BackStep { reversed } => PairKind::BackStep { reversed },
                Mark::Jump { vertex } => PairKind::Jump { vertex },
                Mark::Touch { vertex } => PairKind::Touch { vertex },
                Mark::Start { .. } => unreachable!("the first path point alone is a start"),
            };
            Pair { from, to, kind }
        })
    }
}

/// How many numbers the work slice of [`retrace_into`] holds at least: C + 4P + 8M + 16,384,
/// where C is the capacity, P the number of points and M that of contours, skipped ones
/// counted.
#[must_use]
pub const fn retrace_work(capacity: usize, points: usize, contours: usize) -> usize {
    capacity + 4 * points + 8 * contours + 16_384
}

/// One path that draws the contours that hold a point. It begins with the
/// [start](crate::start) call's contour. As long as contours wait, the one whose cached distance
/// is least comes next: the path goes back over its own grooves to the place that a search in a
/// grid finds for the contour's entry, goes over to it and draws it, all as document 01 has it.
///
/// A path can be far longer than all contours together, so the slices are made longer and
/// the call is made again until the path fits, or 1,048,576 points are not enough.
///
/// # Errors
///
/// [`TooManyContours`](Refusal::TooManyContours), [`TooManyPoints`](Refusal::TooManyPoints),
/// [`Miscounted`](Refusal::Miscounted), [`HomeOffThePlate`](Refusal::HomeOffThePlate),
/// [`OffThePlate`](Refusal::OffThePlate), and [`Full`](Refusal::Full) with place 1,048,576 where
/// the path has more points than that.
pub fn retrace(
    points: &[f64],
    lengths: &[u32],
    size: Size,
    strategy: StartPointStrategy,
) -> Result<MarkedPath, Refusal> {
    Plate::new(points, lengths).retrace(size, strategy)
}

/// [`retrace`] into lent slices: gives the numbers of path points and of each kind of pair, and
/// how long these are.
///
/// A path point is two numbers of `path`, horizontal then vertical, and two of `marks`, its
/// kind and its reference ([`Mark::of`] reads them). C is the least of half the length of
/// `path`, half the length of `marks`, both rounded down, and 1,048,576. What lies beyond the
/// path points is unaltered. `work` holds at least [`retrace_work`] numbers for a capacity of
/// C, and `distances` at least as many as `lengths`; after a result or
/// [`Full`](Refusal::Full) the content of both is free.
///
/// # Errors
///
/// Those of [`retrace`] but [`Full`](Refusal::Full), then [`WorkShort`](Refusal::WorkShort)
/// with place 0 for `work`, or 1 for `distances` where `work` is enough: these alter no slice.
/// Then [`Full`](Refusal::Full) where there are more than C path points: the first C of them
/// are written with their marks, and nothing after them is altered.
#[allow(clippy::too_many_arguments)]
pub fn retrace_into(
    points: &[f64],
    lengths: &[u32],
    size: Size,
    strategy: StartPointStrategy,
    path: &mut [f64],
    marks: &mut [u32],
    work: &mut [u32],
    distances: &mut [f64],
) -> Result<Totals, Refusal> {
    Plate::new(points, lengths).retrace_into(size, strategy, path, marks, work, distances)
}

impl Plate<'_> {
    /// The [retrace](retrace()) call: the next contour is of the lowest layer that waits, and of
    /// its contours the one whose cached distance is least.
    ///
    /// # Errors
    ///
    /// Those of [`retrace`](retrace()), and [`BadLayer`](Refusal::BadLayer) after
    /// [`Miscounted`](Refusal::Miscounted).
    pub fn retrace(&self, size: Size, strategy: StartPointStrategy) -> Result<MarkedPath, Refusal> {
        // Where these are not the plate's numbers it is refused for them.
        let held = (self.points.len() / 2).min(MOST_POINTS);
        let contours = self.lengths.len().min(MOST_CONTOURS);
        let mut distances = vec![0.0; contours];
        let mut capacity = 2 * held;
        loop {
            let mut path = vec![0.0; 2 * capacity];
            let mut marks = vec![0; 2 * capacity];
            let mut work = vec![0; retrace_work(capacity, held, contours)];
            let outcome =
                self.retrace_into(size, strategy, &mut path, &mut marks, &mut work, &mut distances);
            match outcome {
                Ok(totals) => return Ok(MarkedPath::new(&path, &marks, totals)),
                Err(Refusal::Full { .. }) if capacity < MOST_PATH_POINTS => {
                    capacity = (4 * capacity).min(MOST_PATH_POINTS);
                }
                Err(refusal) => return Err(refusal),
            }
        }
    }

    /// [`retrace`](Self::retrace) into lent slices, as the function [`retrace_into`] has it.
    ///
    /// # Errors
    ///
    /// Those of [`retrace_into`], and [`BadLayer`](Refusal::BadLayer), which alters no slice either,
    /// after [`Miscounted`](Refusal::Miscounted).
    pub fn retrace_into(
        &self,
        size: Size,
        strategy: StartPointStrategy,
        path: &mut [f64],
        marks: &mut [u32],
        work: &mut [u32],
        distances: &mut [f64],
    ) -> Result<Totals, Refusal> {
        let Self { points, lengths, layers } = *self;
        let result = match strategy {
            Home(home) => c::retrace_home(
                points, lengths, layers, home.x, home.y, path, marks, work, distances,
            ),
            Outside | Inside => c::retrace(
                points,
                lengths,
                layers,
                size.width,
                size.height,
                strategy.is_inside(),
                path,
                marks,
                work,
                distances,
            ),
        };
        self.accepted(result.number, result.place, strategy)?;
        Ok(Totals {
            counts: Counts {
                points: result.points as usize,
                cuts: result.cuts as usize,
                back_steps: result.back_steps as usize,
                jumps: result.jumps as usize,
                touches: result.touches as usize,
            },
            lengths: Lengths {
                cuts: result.cut_length,
                back_steps: result.back_step_length,
                jumps: result.jump_length,
            },
        })
    }
}

#[cfg(test)]
mod tests {
    use super::{Counts, Mark, MarkedPath, Totals};
    use crate::Lengths;

    #[test]
    fn a_mark_is_its_two_numbers() {
        for kind in 0..5 {
            let numbers = [kind, 7 + kind];
            assert_eq!(Mark::of(numbers).map(Mark::numbers), Some(numbers));
        }
        assert_eq!(Mark::of([5, 0]), None);
        assert_eq!(Mark::of([u32::MAX, 0]), None);
    }

    #[test]
    fn marks_that_no_path_has_do_not_pass() {
        let counts = Counts { points: 2, ..Counts::default() };
        let totals = Totals { counts, ..Totals::default() };
        for kind in 1..5 {
            assert_eq!(MarkedPath::new(&[0.0; 4], &[0, 0, kind, 1], totals).pairs().len(), 1);
        }
        for marks in [[0, 0, 0, 1], [1, 0, 1, 0], [4, 0, 4, 1], [0, 0, 5, 1]] {
            let outcome = std::panic::catch_unwind(|| MarkedPath::new(&[0.0; 4], &marks, totals));
            assert!(outcome.is_err(), "{marks:?} passed");
        }
    }

    #[test]
    fn a_path_from_elsewhere_is_read_and_added_up() {
        let path = [0.0, 0.0, 1.0, 0.0, 0.0, 0.0, 0.0, 0.0, 5.0, 0.0];
        let marks = [0, 7, 1, 7, 2, 0, 4, 1, 3, 9];
        let read = MarkedPath::of(&path, &marks).unwrap();
        let counts = Counts { points: 5, cuts: 1, back_steps: 1, jumps: 1, touches: 1 };
        let lengths = Lengths { cuts: 1_024, back_steps: 1_024, jumps: 5 * 1_024 };
        assert_eq!((read.counts(), read.lengths()), (counts, Some(lengths)));
        assert_eq!(read, MarkedPath::new(&path, &marks, Totals { counts, lengths }));
        let empty = MarkedPath::of(&[], &[]).unwrap();
        assert_eq!(
            (empty.counts(), empty.lengths()),
            (Counts::default(), Some(Lengths::default()))
        );
        assert_eq!(MarkedPath::of(&path[..9], &marks), None);
        assert_eq!(MarkedPath::of(&path[..8], &marks), None);
        assert_eq!(MarkedPath::of(&path, &marks[..9]), None);
        for (place, kind) in [(0, 1), (0, 5), (2, 0), (4, 5), (8, 0)] {
            let mut other = marks;
            other[place] = kind;
            assert_eq!(MarkedPath::of(&path, &other), None);
        }
    }
}
