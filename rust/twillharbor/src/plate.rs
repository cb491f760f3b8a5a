//! The calls that take a plate.
//!
//! A plate is handed over as document 01 has it: `points` holds each point's horizontal,
//! then its vertical coordinate, each contour's points following the last's; `lengths`
//! holds the contours' numbers of points. A zero is allowed there and such a contour is
//! skipped. A contour number is a place in `lengths`, skipped ones counted.
//!
//! The functions take a plate without layers; [`Plate`] has the same calls for one with layers.

use crate::{Point, Refusal, c, refusal};
use StartPointStrategy::{Home, Inside, Outside};

/// More contours are refused before any other slice counts.
pub(crate) const MOST_CONTOURS: usize = 4_096;
/// More points are refused before any other slice counts.
pub(crate) const MOST_POINTS: usize = 65_536;

/// The highest layer that a contour may have.
pub const HIGHEST_LAYER: u32 = 15;

/// The layers of a plate without layers. They are enough: a plate of more contours is refused
/// for that, whatever its layers.
static NO_LAYERS: [u32; MOST_CONTOURS] = [0; MOST_CONTOURS];

/// A plate whose contours have layers, or none.
///
/// A call chooses a contour only if none that waits has a lower layer. A contour waits that
/// holds a point and was not chosen before: a skipped one never waits, whatever its layer. So a
/// layer is drawn whole before the next, and along a path the layers of the cuts never fall.
///
/// ```
/// use twillharbor::{Plate, Size, StartPointStrategy::Inside};
///
/// // (0,0) | (1,0) | (2,0): the nearer contour 1 waits for contour 2.
/// let plate = Plate::with_layers(&[0.0, 0.0, 1.0, 0.0, 2.0, 0.0], &[1, 1, 1], &[0, 15, 7]);
/// let order = plate.order(Size::default(), Inside).unwrap();
/// assert_eq!(order.iter().map(|entry| entry.contour).collect::<Vec<_>>(), [0, 2, 1]);
/// ```
#[derive(Debug, Clone, Copy, PartialEq)]
pub struct Plate<'a> {
    pub(crate) points: &'a [f64],
    pub(crate) lengths: &'a [u32],
    pub(crate) layers: &'a [u32],
}

impl<'a> Plate<'a> {
    /// A plate without layers: every contour is of layer 0.
    #[must_use]
    pub fn new(points: &'a [f64], lengths: &'a [u32]) -> Self {
        let layers = &NO_LAYERS[..lengths.len().min(MOST_CONTOURS)];
        Self { points, lengths, layers }
    }

    /// A plate with layers: `layers` holds one number for each contour, 0 to [`HIGHEST_LAYER`],
    /// for a skipped one too.
    #[must_use]
    pub const fn with_layers(points: &'a [f64], lengths: &'a [u32], layers: &'a [u32]) -> Self {
        Self { points, lengths, layers }
    }

    /// The [start](start()) call: of the contours of the lowest layer that waits.
    ///
    /// # Errors
    ///
    /// Those of [`start`](start()), and [`BadLayer`](Refusal::BadLayer) after
    /// [`Miscounted`](Refusal::Miscounted).
    pub fn start(&self, size: Size, strategy: StartPointStrategy) -> Result<Start, Refusal> {
        let Self { points, lengths, layers } = *self;
        let Size { width, height } = size;
        let result = match strategy {
            Home(home) => c::start_home(points, lengths, layers, home.x, home.y),
            Outside | Inside => {
                c::start(points, lengths, layers, width, height, strategy.is_inside())
            }
        };
        self.accepted(result.number, result.place, strategy)?;
        Ok(Start { contour: result.contour, reversed: is_reversed(result.reversed) })
    }

    /// The [order](order()) call: the next is of the lowest layer that waits.
    ///
    /// # Errors
    ///
    /// Those of [`order`](order()), and [`BadLayer`](Refusal::BadLayer) after
    /// [`Miscounted`](Refusal::Miscounted).
    pub fn order(&self, size: Size, strategy: StartPointStrategy) -> Result<Vec<Entry>, Refusal> {
        let contours = self.lengths.len().min(MOST_CONTOURS);
        let mut order = vec![0; 2 * contours];
        let mut work = vec![0; contours];
        let entries = self.order_into(size, strategy, &mut order, &mut work)?;
        let (entries, _) = order[..2 * entries].as_chunks();
        Ok(entries
            .iter()
            .map(|&[contour, reversed]| Entry { contour, reversed: is_reversed(reversed) })
            .collect())
    }

    /// [`order`](Self::order) into a lent slice, as the function [`order_into`] has it.
    ///
    /// # Errors
    ///
    /// Those of [`order_into`], and [`BadLayer`](Refusal::BadLayer), which alters no slice either,
    /// after [`Miscounted`](Refusal::Miscounted).
    pub fn order_into(
        &self,
        size: Size,
        strategy: StartPointStrategy,
        order: &mut [u32],
        work: &mut [u32],
    ) -> Result<usize, Refusal> {
        let Self { points, lengths, layers } = *self;
        let Size { width, height } = size;
        let result = match strategy {
            Home(home) => c::order_home(points, lengths, layers, home.x, home.y, order, work),
            Outside | Inside => {
                let inside = strategy.is_inside();
                c::order(points, lengths, layers, width, height, inside, order, work)
            }
        };
        self.accepted(result.number, result.place, strategy)?;
        Ok(result.entries as usize)
    }

    /// The [straight](straight()) call: the [ordered](Self::order) contours' points.
    ///
    /// # Errors
    ///
    /// Those of [`straight`](straight()), and [`BadLayer`](Refusal::BadLayer) after
    /// [`Miscounted`](Refusal::Miscounted).
    pub fn straight(
        &self,
        size: Size,
        strategy: StartPointStrategy,
    ) -> Result<Vec<Point>, Refusal> {
        let mut path = vec![0.0; self.points.len().min(2 * MOST_POINTS)];
        let mut work = vec![0; self.lengths.len().min(MOST_CONTOURS)];
        let count = self.straight_into(size, strategy, &mut path, &mut work)?;
        let (path, _) = path[..2 * count].as_chunks();
        Ok(path.iter().map(|&[x, y]| Point { x, y }).collect())
    }

    /// [`straight`](Self::straight) into a lent slice, as the function [`straight_into`] has it.
    ///
    /// # Errors
    ///
    /// Those of [`straight_into`], and [`BadLayer`](Refusal::BadLayer), which alters no slice either,
    /// after [`Miscounted`](Refusal::Miscounted).
    pub fn straight_into(
        &self,
        size: Size,
        strategy: StartPointStrategy,
        path: &mut [f64],
        work: &mut [u32],
    ) -> Result<usize, Refusal> {
        let Self { points, lengths, layers } = *self;
        let Size { width, height } = size;
        let result = match strategy {
            Home(home) => c::straight_home(points, lengths, layers, home.x, home.y, path, work),
            Outside | Inside => {
                let inside = strategy.is_inside();
                c::straight(points, lengths, layers, width, height, inside, path, work)
            }
        };
        self.accepted(result.number, result.place, strategy)?;
        Ok(result.points as usize)
    }

    pub(crate) fn accepted(
        &self,
        number: u32,
        place: u32,
        strategy: StartPointStrategy,
    ) -> Result<(), Refusal> {
        refusal::accepted_plate(number, place, self.lengths.len(), strategy)
    }
}

/// The width and the height of a plate, of which the centre is half. With
/// [`Home`](StartPointStrategy::Home) they do not count.
#[derive(Debug, Clone, Copy, PartialEq, Eq, Default)]
pub struct Size {
    /// Twice the centre's horizontal position.
    pub width: u32,
    /// Twice the centre's vertical position.
    pub height: u32,
}

/// Which end of a contour comes first: contours in order, first point before last.
///
/// ```
/// use twillharbor::{Point, Size, StartPointStrategy::Home, start};
///
/// // (0,0)(4,0) | (5,3)(9,3): the second contour's last point is nearest to the parked point.
/// let (points, lengths) = ([0.0, 0.0, 4.0, 0.0, 5.0, 3.0, 9.0, 3.0], [2, 2]);
/// let first = start(&points, &lengths, Size::default(), Home(Point { x: 12.0, y: 0.5 })).unwrap();
/// assert_eq!((first.contour, first.reversed), (1, true));
/// ```
#[derive(Debug, Clone, Copy, PartialEq, Default)]
pub enum StartPointStrategy {
    /// A strictly larger squared distance from the centre is taken.
    #[default]
    Outside,
    /// A strictly smaller squared distance from the centre is taken.
    Inside,
    /// A strictly smaller squared distance from the parked point is taken. That point counts as it
    /// is, and may be far from every contour; each of its coordinates is at most 1,000,000 in
    /// magnitude, else the call is refused ([`HomeOffThePlate`](Refusal::HomeOffThePlate)).
    Home(Point),
}

impl StartPointStrategy {
    pub(crate) const fn is_inside(self) -> bool {
        matches!(self, Self::Inside)
    }
}

/// What the start call gives.
#[derive(Debug, Clone, Copy, PartialEq, Eq, Hash)]
pub struct Start {
    /// The number of the contour that comes first.
    pub contour: u32,
    /// Whether its last point won, so that it is reversed.
    pub reversed: bool,
}

/// An entry of the order.
#[derive(Debug, Clone, Copy, PartialEq, Eq, Hash)]
pub struct Entry {
    /// The contour's number.
    pub contour: u32,
    /// Whether it is reversed.
    pub reversed: bool,
}

/// Which contour comes first, and in which sense.
///
/// # Errors
///
/// [`TooManyContours`](Refusal::TooManyContours), [`TooManyPoints`](Refusal::TooManyPoints),
/// [`Miscounted`](Refusal::Miscounted), [`HomeOffThePlate`](Refusal::HomeOffThePlate),
/// [`OffThePlate`](Refusal::OffThePlate) and [`Blank`](Refusal::Blank).
pub fn start(
    points: &[f64],
    lengths: &[u32],
    size: Size,
    strategy: StartPointStrategy,
) -> Result<Start, Refusal> {
    Plate::new(points, lengths).start(size, strategy)
}

/// The contours that hold a point, in the order in which [`straight`] joins them: after the
/// start call's, from the last end, the strictly least squared distance wins; forward where
/// forward ≤ reverse; the lower contour on ties.
///
/// # Errors
///
/// [`TooManyContours`](Refusal::TooManyContours), [`TooManyPoints`](Refusal::TooManyPoints),
/// [`Miscounted`](Refusal::Miscounted), [`HomeOffThePlate`](Refusal::HomeOffThePlate) and
/// [`OffThePlate`](Refusal::OffThePlate).
pub fn order(
    points: &[f64],
    lengths: &[u32],
    size: Size,
    strategy: StartPointStrategy,
) -> Result<Vec<Entry>, Refusal> {
    Plate::new(points, lengths).order(size, strategy)
}

/// [`order`] into a lent slice: gives the number of entries.
///
/// An entry is two numbers of `order`: the contour number, then 1 if it is reversed, else
/// 0. C is half the length of `order`, rounded down. What lies beyond the entries is
/// unaltered. `work` holds at least as many numbers as `lengths`; after a result or
/// [`Full`](Refusal::Full) its content is free.
///
/// # Errors
///
/// Those of [`order`], then [`WorkShort`](Refusal::WorkShort): these alter no slice. Then
/// [`Full`](Refusal::Full) where there are more than C entries: the first C of them are
/// written, and nothing after them is altered.
pub fn order_into(
    points: &[f64],
    lengths: &[u32],
    size: Size,
    strategy: StartPointStrategy,
    order: &mut [u32],
    work: &mut [u32],
) -> Result<usize, Refusal> {
    Plate::new(points, lengths).order_into(size, strategy, order, work)
}

/// The [ordered](order) contours' points, one contour after the other, each in its sense.
///
/// # Errors
///
/// [`TooManyContours`](Refusal::TooManyContours), [`TooManyPoints`](Refusal::TooManyPoints),
/// [`Miscounted`](Refusal::Miscounted), [`HomeOffThePlate`](Refusal::HomeOffThePlate) and
/// [`OffThePlate`](Refusal::OffThePlate).
pub fn straight(
    points: &[f64],
    lengths: &[u32],
    size: Size,
    strategy: StartPointStrategy,
) -> Result<Vec<Point>, Refusal> {
    Plate::new(points, lengths).straight(size, strategy)
}

/// [`straight`] into a lent slice: gives the number of path points.
///
/// A path point is two numbers of `path`, horizontal then vertical. C is the lesser of half
/// the length of `path`, rounded down, and 1,048,576. What lies beyond the path points is
/// unaltered. `work` holds at least as many numbers as `lengths`; after a result or
/// [`Full`](Refusal::Full) its content is free.
///
/// # Errors
///
/// Those of [`straight`], then [`WorkShort`](Refusal::WorkShort): these alter no slice. Then
/// [`Full`](Refusal::Full) where there are more than C path points: the first C of them are
/// written, and nothing after them is altered.
pub fn straight_into(
    points: &[f64],
    lengths: &[u32],
    size: Size,
    strategy: StartPointStrategy,
    path: &mut [f64],
    work: &mut [u32],
) -> Result<usize, Refusal> {
    Plate::new(points, lengths).straight_into(size, strategy, path, work)
}

/// # Panics
///
/// Where the number is neither 0 nor 1: then the library is not the one that this crate was
/// written for.
fn is_reversed(number: u32) -> bool {
    match number {
        0 => false,
        1 => true,
        _ => {
            panic!("libtwillharbor.a answered {number} where it says whether a contour is reversed")
        }
    }
}
