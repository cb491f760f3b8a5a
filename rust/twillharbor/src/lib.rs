//! Twillharbor joins disconnected contours to one path that a machine can draw
//! without lifting its stylus.
//!
//! The work is done by a static library that was proved to give what documents 01
//! and 02 of the project define. This crate calls it: it turns slices and results into
//! Rust's types and a refusal into an error. It works out no answer itself; only whose
//! coordinate a refusal 4 is, it tells by the parked point that was handed over, and where no
//! call gives them it makes lengths of the distance call's answers and adds them up.
//!
//! The answers hold for IEEE 754's default floating-point environment alone: rounding to
//! nearest, ties to even, and subnormal numbers kept, as results and as operands. Rust itself
//! asks for that environment. Where linked code of another language has set flush-to-zero or
//! denormals-are-zero (as C's `-ffast-math` may for the whole program), clear them before a call.

#![deny(unsafe_code)]

pub mod c;
mod check_path;
mod contours;
mod lengths;
mod plate;
mod plate_file;
mod refusal;
mod retrace;

pub use check_path::{check_path, check_path_with, check_path_work};
pub use contours::{Contours, Recovered, contours, contours_into, contours_work};
pub use lengths::{Lengths, pair_length};
pub use plate::{
    Entry, HIGHEST_LAYER, Plate, Size, Start, StartPointStrategy, order, order_into, start,
    straight, straight_into,
};
pub use plate_file::{
    BLOCK_BYTES, BLOCK_POINTS, file_bytes, file_points, read_file, read_file_into, write_file,
    write_file_into,
};
pub use refusal::{LayerFault, Refusal};
pub use retrace::{
    Counts, Mark, MarkedPath, Pair, PairKind, Totals, retrace, retrace_into, retrace_work,
};

/// A point of the plate.
#[derive(Debug, Clone, Copy, PartialEq)]
pub struct Point {
    /// Horizontal position.
    pub x: f64,
    /// Vertical position.
    pub y: f64,
}

/// What lies between two points.
#[derive(Debug, Clone, Copy, PartialEq)]
pub struct Distances {
    /// The squared distance dx × dx + dy × dy: dx and dy are the rounded differences,
    /// dy × dy is rounded, and then the sum is rounded once.
    pub squared: f64,
    /// The correctly rounded square root of [`squared`](Self::squared).
    pub plain: f64,
}

/// The squared and the plain distance of two points.
///
/// # Errors
///
/// [`Refusal::OffThePlate`] where a coordinate is NaN, infinite or of magnitude above
/// 2,147,483,648; its place is 0 for `a.x`, 1 for `a.y`, 2 for `b.x`, 3 for `b.y`, and
/// the first of these counts.
pub fn distance(a: Point, b: Point) -> Result<Distances, Refusal> {
    let result = c::twillharbor_distance(a.x, a.y, b.x, b.y);
    refusal::accepted(result.number, result.place)?;
    Ok(Distances { squared: result.squared, plain: result.plain })
}
