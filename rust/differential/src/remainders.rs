//! The remainder against Rust's `%`, and against whole-number arithmetic.
//!
//! `%` of f64 is the C library's `fmod`, so the exact remainder is worked out here once more,
//! from significands and exponents.

use harness::leaves;
use harness::random::Random;

use crate::floats::{any, nudged, scaled, signed, with_exponent};

/// How the total and the divisor lie.
#[derive(Debug, Clone, Copy, PartialEq, Eq)]
pub enum Kind {
    FullRange,
    FarAbove,
    Alike,
    Multiples,
    Subnormal,
    Samples,
    Special,
}

pub fn case(kind: Kind, random: &mut Random) -> Result<(), String> {
    let (t, s) = match kind {
        Kind::FullRange => (any(random), any(random)),
        Kind::FarAbove => {
            let e = random.between(-1074, 900);
            let s = with_exponent(random, e);
            let above = random.between(e + 100, 1023);
            (with_exponent(random, above), s)
        }
        Kind::Alike => {
            let e = random.between(-1000, 950);
            let s = with_exponent(random, e);
            let near = e + random.between(-2, 70);
            (with_exponent(random, near), s)
        }
        Kind::Multiples => multiple(random),
        Kind::Subnormal => {
            let s = nudged(0.0, random.between(1, 5_000));
            let e = random.between(-1074, -1010);
            match random.below(3) {
                0 => (with_exponent(random, e), s),
                1 => (nudged(f64::MIN_POSITIVE, random.between(-3, 3)), s),
                _ => (any(random), with_exponent(random, e)),
            }
        }
        Kind::Samples => as_samples(random),
        Kind::Special => return compare(special(random), special(random)),
    };
    compare(signed(random, t), signed(random, s))
}

/// A multiple of a divisor of few digits, and the floats next to it.
fn multiple(random: &mut Random) -> (f64, f64) {
    let digits = random.between(1, 52) as u32;
    let s = (random.bits() >> (64 - digits)) as f64 + 1.0;
    let times = (random.bits() >> random.between(11 + i64::from(digits), 63)) as f64;
    let e = random.between(-1000, 900);
    (nudged(scaled(times * s, e), random.between(-2, 2)).max(0.0), scaled(s, e))
}

/// As the samples have it: a cell size, and what is left of it with a distance added.
fn as_samples(random: &mut Random) -> (f64, f64) {
    let extent = random.pick(&[1.0, 8.0, 100.0, 640.0, 2_000_000.0]) * random.unit();
    let s = extent.max(1.0) / 50.0;
    let left = if random.one_in(3) { 0.0 } else { random.unit() * s };
    let distance = match random.below(3) {
        0 => s * random.between(1, 50) as f64,
        1 => random.unit() * s * 3.0,
        _ => random.unit() * extent.max(1.0) * std::f64::consts::SQRT_2,
    };
    (left + distance, s)
}

fn special(random: &mut Random) -> f64 {
    let x = random.pick(&[0.0, f64::INFINITY, f64::NAN, 1.0, f64::MAX, f64::MIN_POSITIVE]);
    let x = if random.one_in(4) { any(random) } else { x };
    signed(random, x)
}

fn compare(t: f64, s: f64) -> Result<(), String> {
    let (library, rust) = (leaves::remainder(t, s), t % s);
    let exact = exact(t, s);
    let same = |a: f64, b: f64| a.to_bits() == b.to_bits() || (a.is_nan() && b.is_nan());
    if same(library, rust) && same(library, exact) && within(library, t, s) {
        return Ok(());
    }
    let [t, s, library, rust, exact] =
        [t, s, library, rust, exact].map(|x| format!("{:016x}", x.to_bits()));
    Err(format!("t {t} s {s}: library {library}, % {rust}, whole numbers {exact}"))
}

/// That a remainder is below its divisor and has its total's sign.
fn within(r: f64, t: f64, s: f64) -> bool {
    r.is_nan() || (r.abs() < s.abs() && r.is_sign_negative() == t.is_sign_negative())
}

/// The remainder by whole numbers: of units that both are multiples of.
fn exact(t: f64, s: f64) -> f64 {
    if t.is_nan() || s.is_nan() || t.is_infinite() || s == 0.0 {
        return f64::NAN;
    }
    if s.is_infinite() {
        return t;
    }
    let ((m, e), (n, d)) = (parts(t), parts(s));
    let rest = if e >= d { shifted_remainder(m, e - d, n) } else { m % (n << (d - e).min(64)) };
    let r = scaled(rest as f64, e.min(d));
    if t.is_sign_negative() { -r } else { r }
}

/// The remainder of m × 2^places by n, for m and n below 2^53.
fn shifted_remainder(m: u128, places: i64, n: u128) -> u128 {
    let mut rest = m % n;
    let mut left = places;
    while left > 0 {
        let step = left.min(64);
        rest = (rest << step) % n;
        left -= step;
    }
    rest
}

/// m and e of the magnitude m × 2^e, m a whole number below 2^53.
fn parts(x: f64) -> (u128, i64) {
    let bits = x.abs().to_bits();
    let (field, digits) = ((bits >> 52) as i64, u128::from(bits & ((1 << 52) - 1)));
    if field == 0 { (digits, -1074) } else { (digits | 1 << 52, field - 1075) }
}

#[cfg(test)]
mod tests {
    use super::{exact, parts};
    use crate::floats::{power, scaled};

    #[test]
    fn parts_are_those_of_the_number() {
        for x in [1.0, 3.5, f64::MAX, f64::MIN_POSITIVE, power(-1074), 0.0, -7.25] {
            let (m, e) = parts(x);
            assert_eq!(scaled(m as f64, e), x.abs());
        }
    }

    #[test]
    fn exact_remainders() {
        assert_eq!(exact(7.5, 2.0), 1.5);
        assert_eq!(exact(-7.5, 2.0), -1.5);
        assert_eq!(exact(1.0, 7.5), 1.0);
        assert_eq!(exact(6.0, 2.0).to_bits(), 0);
        assert_eq!(exact(power(1023), power(-1074)), 0.0);
        assert_eq!(exact(power(1023), 3.0), 2.0);
        assert!(exact(1.0, 0.0).is_nan() && exact(f64::INFINITY, 1.0).is_nan());
    }
}
