// HOME: reference/layers/src/types.rs, its centre handed in. What differs is marked with that word.
// LAYER: reference/src/types.rs with layers. What differs is marked with that word.
// From crates/mujou-pipeline/src/types.rs of mujou at commit 8cf2e3ae71.
// Copyright (c) 2026 The mujou Authors. MIT OR Apache-2.0.
//
// Kept as they were: Point, Polyline, polyline_bounding_box, Dimensions,
// StartPointStrategy. Cut: every other item, the methods and traits of these
// that the kept functions do not call (Dimensions::shorter_dim, Display of
// StartPointStrategy), the derives of serde, the tests. Added: mod door.

//! Shared types for the mujou image processing pipeline.

/// A 2D point.
///
/// Before normalization (stages 0–4): pixel coordinates (origin at
/// top-left, +Y down).  After normalization (stages 5–9): center-origin
/// normalized coordinates (+Y up, mask edge = 1.0).
#[derive(Debug, Clone, Copy, PartialEq)]
pub struct Point {
    /// Horizontal position.
    pub x: f64,
    /// Vertical position.
    pub y: f64,
}

impl Point {
    /// Create a new point.
    #[must_use]
    pub const fn new(x: f64, y: f64) -> Self {
        Self { x, y }
    }

    /// Squared Euclidean distance to another point.
    ///
    /// Avoids the square root for comparison purposes.
    #[must_use]
    pub fn distance_squared(self, other: Self) -> f64 {
        let dx = self.x - other.x;
        let dy = self.y - other.y;
        dx.mul_add(dx, dy * dy)
    }

    /// Euclidean distance to another point.
    #[must_use]
    pub fn distance(self, other: Self) -> f64 {
        self.distance_squared(other).sqrt()
    }
}

/// A sequence of connected points forming a path segment.
#[derive(Debug, Clone, PartialEq)]
pub struct Polyline(Vec<Point>, u32); // LAYER

impl Polyline {
    /// Create a new polyline from a vector of points.
    #[must_use]
    pub const fn new(points: Vec<Point>) -> Self {
        Self(points, 0) // LAYER
    }
    // LAYER begins

    /// The same polyline in this layer; a new one is in layer 0.
    #[must_use]
    pub fn in_layer(self, layer: u32) -> Self {
        Self(self.0, layer)
    }

    /// Returns the layer.
    #[must_use]
    pub const fn layer(&self) -> u32 {
        self.1
    }
    // LAYER ends

    /// Returns `true` if the polyline has no points.
    #[must_use]
    pub const fn is_empty(&self) -> bool {
        self.0.is_empty()
    }

    /// Returns the number of points in the polyline.
    #[must_use]
    pub const fn len(&self) -> usize {
        self.0.len()
    }

    /// Returns the first point, if any.
    #[must_use]
    pub fn first(&self) -> Option<&Point> {
        self.0.first()
    }

    /// Returns the last point, if any.
    #[must_use]
    pub fn last(&self) -> Option<&Point> {
        self.0.last()
    }

    /// Returns a slice of all points.
    #[must_use]
    pub fn points(&self) -> &[Point] {
        &self.0
    }

    /// Consumes the polyline and returns the underlying vector of points.
    #[must_use]
    pub fn into_points(self) -> Vec<Point> {
        self.0
    }
}

/// Compute the axis-aligned bounding box of all points across polylines.
///
/// Returns `(min_x, min_y, max_x, max_y)`.  When all polylines are empty
/// the returned rectangle has inverted infinities (min > max).
#[must_use]
pub(crate) fn polyline_bounding_box(polylines: &[&Polyline]) -> (f64, f64, f64, f64) {
    let mut min_x = f64::INFINITY;
    let mut min_y = f64::INFINITY;
    let mut max_x = f64::NEG_INFINITY;
    let mut max_y = f64::NEG_INFINITY;

    for poly in polylines {
        for p in poly.points() {
            min_x = min_x.min(p.x);
            min_y = min_y.min(p.y);
            max_x = max_x.max(p.x);
            max_y = max_y.max(p.y);
        }
    }

    (min_x, min_y, max_x, max_y)
}

/// Image dimensions in pixels.
#[derive(Debug, Clone, Copy, PartialEq)] // HOME
pub struct Dimensions {
    // HOME begins
    /// The parked point, in place of the image center.
    pub center: Point,
    // HOME ends
}

/// Controls where path tracing begins relative to the image center.
///
/// Sand tables, plotters, and other CNC devices start drawing from a
/// home position. Choosing a start point that is already near home
/// avoids a visible traversal line across the output.
///
/// The strategy biases the selection of the first contour (for
/// `StraightLine` / `Retrace` joiners) or the Hierholzer start vertex
/// (for the `Mst` joiner) based on distance from the image center.
#[derive(Debug, Clone, Copy, PartialEq, Eq, Default)]
pub enum StartPointStrategy {
    /// Start from the contour or vertex **farthest** from the image
    /// center. Suitable for machines that home to the perimeter
    /// (plotters, laser cutters, Cartesian sand tables).
    #[default]
    Outside,

    /// Start from the contour or vertex **nearest** the image center.
    /// Suitable for machines that home to the center (e.g., Sisyphus
    /// polar sand tables where the ball rests at rho = 0).
    Inside,
}

// ---------------------------------------------------------------------------
// Added: a test door to what is private here
// ---------------------------------------------------------------------------

pub mod door {
    use super::Polyline;

    pub fn polyline_bounding_box(polylines: &[&Polyline]) -> (f64, f64, f64, f64) {
        super::polyline_bounding_box(polylines)
    }
}
