//! The check of a path with marks, from wherever it comes. It takes a plate as the other calls do,
//! but for its layers, size and strategy, of which it asks nothing.

use crate::plate::{MOST_CONTOURS, MOST_POINTS};
use crate::{Refusal, c, refusal};

/// How many numbers the work slice of [`check_path_with`] holds at least: P + M, where P is the
/// number of points and M that of contours, skipped ones counted.
#[must_use]
pub const fn check_path_work(points: usize, contours: usize) -> usize {
    points + contours
}

/// Whether a path with marks draws the plate. Each path of [`retrace`](crate::retrace()) does.
///
/// A path point is two numbers of `path`, horizontal then vertical, and two of `marks`, its kind
/// and its reference ([`Mark::numbers`](crate::Mark::numbers) gives them). Coordinates are compared
/// by their bits. The rules:
///
/// - The first mark, and no other, is a start.
/// - A start, a jump and a touch name a vertex of a contour not entered before, which they enter,
///   and have its coordinates. As numbers the path point before a jump differs from the jump's own,
///   and the one before a touch is equal: there 0 and -0 are equal.
/// - A cut r and the path point before it have the coordinates of vertices r and r + 1, in either
///   order, which are of one contour; that contour was entered before, and this segment not cut
///   before.
/// - A back-step k and the path point before it have the coordinates of path points k and k + 1,
///   both of them earlier than the back-step's own.
/// - In the end each segment is cut, and each contour that holds a point is entered.
///
/// ```
/// use twillharbor::{Refusal, Size, StartPointStrategy::Inside, check_path, retrace};
///
/// let (points, lengths) = ([0.0, 0.0, 4.0, 0.0, 4.0, 1.0], [2, 1]);
/// let drawn = retrace(&points, &lengths, Size::default(), Inside).unwrap();
/// let path: Vec<f64> = drawn.points().iter().flat_map(|p| [p.x, p.y]).collect();
/// let mut marks: Vec<u32> = drawn.marks().iter().flat_map(|mark| mark.numbers()).collect();
/// assert_eq!(check_path(&points, &lengths, &path, &marks), Ok(()));
/// // The last path point's kind becomes a touch.
/// marks[4] = 4;
/// let refused = check_path(&points, &lengths, &path, &marks);
/// assert_eq!(refused, Err(Refusal::NotDrawn { place: 2 }));
/// ```
///
/// # Errors
///
/// [`TooManyContours`](Refusal::TooManyContours), [`TooManyPoints`](Refusal::TooManyPoints),
/// [`Miscounted`](Refusal::Miscounted) and [`OffThePlate`](Refusal::OffThePlate) of the plate, then
/// [`Miscounted`](Refusal::Miscounted) where the length of `path` is odd or `marks` is not as long,
/// and [`NotDrawn`](Refusal::NotDrawn).
pub fn check_path(
    points: &[f64],
    lengths: &[u32],
    path: &[f64],
    marks: &[u32],
) -> Result<(), Refusal> {
    // Where these are not the plate's numbers it is refused for them.
    let held = (points.len() / 2).min(MOST_POINTS);
    let contours = lengths.len().min(MOST_CONTOURS);
    check_path_with(points, lengths, path, marks, &mut vec![0; check_path_work(held, contours)])
}

/// [`check_path`] with a lent work slice, of at least [`check_path_work`] numbers. After a result
/// or [`NotDrawn`](Refusal::NotDrawn) its content is free.
///
/// # Errors
///
/// Those of [`check_path`], and [`WorkShort`](Refusal::WorkShort) before
/// [`NotDrawn`](Refusal::NotDrawn), which alone may alter the work slice.
pub fn check_path_with(
    points: &[f64],
    lengths: &[u32],
    path: &[f64],
    marks: &[u32],
    work: &mut [u32],
) -> Result<(), Refusal> {
    let result = c::check_path(points, lengths, path, marks, work);
    refusal::accepted_path(result.number, result.place, path.len() / 2)
}
