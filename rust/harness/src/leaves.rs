//! The float leaves that librun_float_c.a exports.
//!
//! The library proper exports none of these: they are there to be compared and timed.

unsafe extern "C" {
    /// x × x + y, rounded once. For finite x, and y finite with a clear sign bit.
    pub fn twillharbor_float_square_plus(x: f64, y: f64) -> f64;

    /// The square root, rounded once. For x finite with a clear sign bit.
    pub fn twillharbor_float_square_root(x: f64) -> f64;

    /// The whole part, as `x as u32`. For every x.
    pub safe fn twillharbor_float_truncated(x: f64) -> u32;

    /// The least whole number not below x, as `x.ceil() as u32`. For every x.
    pub safe fn twillharbor_float_ceiling(x: f64) -> u32;

    /// The remainder, as `t % s`. For all t and s.
    pub safe fn twillharbor_float_remainder(t: f64, s: f64) -> f64;
}

/// x × x + y, rounded once.
///
/// # Panics
///
/// Where x or y is not finite, or y has its sign bit set.
pub fn square_plus(x: f64, y: f64) -> f64 {
    assert!(x.is_finite() && y.is_finite() && y.is_sign_positive());
    // SAFETY: what the function's contract requires was tested.
    unsafe { twillharbor_float_square_plus(x, y) }
}

/// The square root, rounded once.
///
/// # Panics
///
/// Where x is not finite or has its sign bit set.
pub fn square_root(x: f64) -> f64 {
    assert!(x.is_finite() && x.is_sign_positive());
    // SAFETY: what the function's contract requires was tested.
    unsafe { twillharbor_float_square_root(x) }
}

/// The whole part, as `x as u32` gives it.
pub fn truncated(x: f64) -> u32 {
    twillharbor_float_truncated(x)
}

/// The least whole number that is not below x, as `x.ceil() as u32` gives it.
pub fn ceiling(x: f64) -> u32 {
    twillharbor_float_ceiling(x)
}

/// The remainder, as `t % s` gives it.
pub fn remainder(t: f64, s: f64) -> f64 {
    twillharbor_float_remainder(t, s)
}
