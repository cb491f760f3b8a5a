//! The contours that a path with marks draws. It takes a path from wherever it comes, and no plate.

use crate::plate::MOST_POINTS;
use crate::{Plate, Refusal, c, refusal};

/// How many numbers the work slice of [`contours_into`] holds at least: four for each path point.
#[must_use]
pub const fn contours_work(path_points: usize) -> usize {
    4 * path_points
}

/// How many points and contours a path draws.
#[derive(Debug, Clone, Copy, PartialEq, Eq, Hash, Default)]
pub struct Recovered {
    /// The contours' points.
    pub points: u32,
    /// The contours, each of which holds a point.
    pub contours: u32,
}

/// The contours that a path draws, as the other calls take a plate's.
#[derive(Debug, Clone, PartialEq, Default)]
pub struct Contours {
    points: Vec<f64>,
    lengths: Vec<u32>,
}

impl Contours {
    /// Each point's horizontal, then its vertical coordinate, each contour's points following the
    /// last's.
    #[must_use]
    pub fn points(&self) -> &[f64] {
        &self.points
    }

    /// The contours' numbers of points, of which none is 0.
    #[must_use]
    pub fn lengths(&self) -> &[u32] {
        &self.lengths
    }

    /// The plate that they are, without layers. Where a path draws more than 4,096 contours, the
    /// calls refuse it.
    #[must_use]
    pub fn plate(&self) -> Plate<'_> {
        Plate::new(&self.points, &self.lengths)
    }
}

/// The contours that a path with marks draws. Of each path of [`retrace`](crate::retrace()) they are
/// the plate's contours that hold a point, in their order, bit for bit.
///
/// A path point is two numbers of `path`, horizontal then vertical, and two of `marks`, its kind
/// and its reference ([`Mark::numbers`](crate::Mark::numbers) gives them). It has a vertex: that of a
/// start, a jump and a touch is the one named; that of a cut r is the one of r and r + 1 that the
/// path point before it has not; and that of a back-step k is path point k's. All but back-steps
/// land on their vertex. The rules of marks:
///
/// - Kinds are 0 to 4, and no vertex is above 65,535.
/// - The first mark, and no other, is a start.
/// - A start, a jump, a touch and a cut land on a vertex not landed on before.
/// - The path point before a jump differs as numbers from the jump's own, and the one before a touch
///   is equal: there 0 and -0 are equal.
/// - The path point before a cut r has vertex r or r + 1.
/// - The path point before a back-step k has the vertex of path point k + 1, and both path points k
///   and k + 1 are earlier than the back-step's own, which has the bits of path point k.
///
/// Vertex v of the picture has the coordinates of the path point that lands on it, and v and v + 1
/// are of one contour exactly if segment v is cut.
///
/// ```
/// use twillharbor::{Refusal, Size, StartPointStrategy::Inside, contours, retrace};
///
/// let (points, lengths) = ([0.0, 0.0, 4.0, 0.0, 4.0, 1.0], [2, 0, 1]);
/// let drawn = retrace(&points, &lengths, Size::default(), Inside).unwrap();
/// let path: Vec<f64> = drawn.points().iter().flat_map(|p| [p.x, p.y]).collect();
/// let mut marks: Vec<u32> = drawn.marks().iter().flat_map(|mark| mark.numbers()).collect();
/// let back = contours(&path, &marks).unwrap();
/// assert_eq!((back.points(), back.lengths()), (&points[..], &[2, 1][..]));
/// // The last path point's vertex becomes 4, so that none lands on 2.
/// marks[5] = 4;
/// assert_eq!(contours(&path, &marks), Err(Refusal::VertexMissing { place: 2 }));
/// ```
///
/// # Errors
///
/// [`Miscounted`](Refusal::Miscounted) where the length of `path` is odd or `marks` is not as long,
/// [`PathOffThePlate`](Refusal::PathOffThePlate),
/// [`MarksInconsistent`](Refusal::MarksInconsistent), and [`VertexMissing`](Refusal::VertexMissing).
/// Of a path that was written before there were touches, a jump between equal points is inconsistent.
pub fn contours(path: &[f64], marks: &[u32]) -> Result<Contours, Refusal> {
    let path_points = path.len() / 2;
    // Each vertex is landed on by a path point of its own.
    let most = path_points.min(MOST_POINTS);
    let (mut points, mut lengths) = (vec![0.0; 2 * most], vec![0; most]);
    let mut work = vec![0; contours_work(path_points)];
    let recovered = contours_into(path, marks, &mut points, &mut lengths, &mut work)?;
    points.truncate(2 * recovered.points as usize);
    lengths.truncate(recovered.contours as usize);
    Ok(Contours { points, lengths })
}

/// [`contours`] into lent slices: gives how many points and contours there are.
///
/// `points` holds afterwards each point's horizontal, then its vertical coordinate, and `lengths` the
/// contours' numbers of points; what lies beyond them is unaltered. There are at most as many of each
/// as there are path points, and at most 65,536. `work` holds at least [`contours_work`] numbers.
///
/// # Errors
///
/// Those of [`contours`], with [`WorkShort`](Refusal::WorkShort) before
/// [`MarksInconsistent`](Refusal::MarksInconsistent), and after all of them [`Full`](Refusal::Full)
/// with place 0 where `points` or `lengths` has no room. None of them alters `points` or `lengths`.
/// After [`MarksInconsistent`](Refusal::MarksInconsistent),
/// [`VertexMissing`](Refusal::VertexMissing) and [`Full`](Refusal::Full) the content of `work` is
/// free, as after a result; the others do not alter it.
pub fn contours_into(
    path: &[f64],
    marks: &[u32],
    points: &mut [f64],
    lengths: &mut [u32],
    work: &mut [u32],
) -> Result<Recovered, Refusal> {
    let result = c::contours(path, marks, points, lengths, work);
    refusal::accepted_contours(result.number, result.place, path.len())?;
    Ok(Recovered { points: result.points, contours: result.contours })
}
