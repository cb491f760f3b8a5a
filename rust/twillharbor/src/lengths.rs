//! Lengths in 1,024ths, for a quotation: along a path, and of a plate's contours.

use crate::{Pair, PairKind, Plate, Point, Refusal, Size, StartPointStrategy, distance};

/// How long the pairs of a path are, in 1,024ths: of each pair its [`pair_length`], added up by
/// kind. A path of the retrace call has sums below 2^52, so that each is exact as an `f64`, and
/// divided by 1,024.0 too.
#[derive(Debug, Clone, Copy, PartialEq, Eq, Hash, Default)]
pub struct Lengths {
    /// The cuts. Of a whole path of the retrace call it is the plate's length too, the sum of
    /// [`Plate::contour_lengths`].
    pub cuts: u64,
    /// The back-steps.
    pub back_steps: u64,
    /// The jumps and the touches, of which a touch adds 0.
    pub jumps: u64,
}

impl Lengths {
    /// The sums over these pairs, such as the first few of [`MarkedPath::pairs`]. There are none
    /// where a coordinate is beyond the distance call's limit, 2,147,483,648, or a sum beyond 64
    /// bits.
    ///
    /// [`MarkedPath::pairs`]: crate::MarkedPath::pairs
    #[must_use]
    pub fn of(pairs: impl IntoIterator<Item = Pair>) -> Option<Self> {
        let mut lengths = Self::default();
        for Pair { from, to, kind } in pairs {
            let sum = match kind {
                PairKind::Cut { .. } => &mut lengths.cuts,
                PairKind::BackStep { .. } => &mut lengths.back_steps,
                PairKind::Jump { .. } | PairKind::Touch { .. } => &mut lengths.jumps,
            };
            *sum = sum.checked_add(pair_length(from, to).ok()?)?;
        }
        Some(lengths)
    }
}

/// The length of a pair of points in 1,024ths, be it a segment or a pair of path points: the plain
/// [`distance`] times 1,024, rounded down to a whole number. Either way it is the same.
///
/// ```
/// use twillharbor::{Point, pair_length};
///
/// let (a, b) = (Point { x: 0.0, y: 0.0 }, Point { x: 1.0, y: 1.0 });
/// // The square root of 2, times 1,024, is 1,448.15..
/// assert_eq!(pair_length(a, b), Ok(1_448));
/// ```
///
/// # Errors
///
/// Those of [`distance`].
pub fn pair_length(a: Point, b: Point) -> Result<u64, Refusal> {
    // Times a power of two nothing is rounded: the distance is at most 2^32.5. It is not negative, so
    // that its fraction is cut off downward.
    Ok((distance(a, b)?.plain * 1_024.0) as u64)
}

impl Plate<'_> {
    /// The length of each contour in 1,024ths, in their order: of its segments the [`pair_length`],
    /// added up. A skipped contour and a single point have 0. Together they are the
    /// [length of the cuts](Lengths::cuts) of each path that [`retrace`](Self::retrace) gives of the
    /// plate.
    ///
    /// ```
    /// use twillharbor::{Plate, Size, StartPointStrategy::Inside};
    ///
    /// // (0,0)(3,4) | (1,1) | (0,0)(0,0.1)(1,0.1)
    /// let points = [0.0, 0.0, 3.0, 4.0, 1.0, 1.0, 0.0, 0.0, 0.0, 0.1, 1.0, 0.1];
    /// let plate = Plate::new(&points, &[2, 1, 3]);
    /// let lengths = plate.contour_lengths().unwrap();
    /// // A tenth has 102.4 of them.
    /// assert_eq!(lengths, [5 * 1_024, 0, 102 + 1_024]);
    /// let path = plate.retrace(Size::default(), Inside).unwrap();
    /// assert_eq!(path.lengths().unwrap().cuts, lengths.iter().sum::<u64>());
    /// ```
    ///
    /// # Errors
    ///
    /// Those of the [start](Self::start) call but [`Blank`](Refusal::Blank) and
    /// [`HomeOffThePlate`](Refusal::HomeOffThePlate).
    pub fn contour_lengths(&self) -> Result<Vec<u64>, Refusal> {
        match self.start(Size::default(), StartPointStrategy::Outside) {
            Ok(_) | Err(Refusal::Blank) => {}
            Err(refusal) => return Err(refusal),
        }
        let (mut points, _) = self.points.as_chunks();
        let mut lengths = Vec::with_capacity(self.lengths.len());
        for &length in self.lengths {
            let (contour, rest) = points.split_at(length as usize);
            points = rest;
            lengths.push(contour_length(contour)?);
        }
        Ok(lengths)
    }
}

fn contour_length(contour: &[[f64; 2]]) -> Result<u64, Refusal> {
    let ends = contour.windows(2).map(|ends| [ends[0], ends[1]].map(|[x, y]| Point { x, y }));
    ends.map(|[a, b]| pair_length(a, b)).sum()
}
