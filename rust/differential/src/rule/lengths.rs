//! Lengths as document 02 has them, once more and by whole numbers alone: a pair's plain distance
//! times 1,024, rounded down. Only its squared distance comes of floats.

use super::retrace::{BACK_STEP, CUT, JUMP, TOUCH};
use super::squared;

/// The number significand × 2^exponent.
#[derive(Debug, Clone, Copy, PartialEq, Eq)]
struct Number {
    significand: u64,
    exponent: i32,
}

impl Number {
    /// The float with these bits, which is finite and has the sign plus.
    fn of(bits: u64) -> Self {
        let fraction = bits & ((1 << 52) - 1);
        match bits >> 52 {
            0 => Self { significand: fraction, exponent: -1_074 },
            biased @ 1..0x7ff => {
                Self { significand: 1 << 52 | fraction, exponent: biased as i32 - 1_075 }
            }
            _ => panic!("{bits:016x} is no number that is 0 or above"),
        }
    }

    /// The square root, correctly rounded to a significand of 53 digits.
    fn root(self) -> Self {
        if self.significand == 0 {
            return self;
        }
        // An even exponent, and so many digits, 107 or 108, that the whole root has 54.
        let mut shift = 44 + self.significand.leading_zeros() as i32;
        shift -= (self.exponent - shift) & 1;
        let square = u128::from(self.significand) << shift;
        let root = square.isqrt() as u64;
        // Half of it is rounded. The square is even: an odd root lies below the true one, so that
        // this is above half way, and an even one is below half way.
        Self { significand: root.div_ceil(2), exponent: (self.exponent - shift) / 2 + 1 }
    }

    /// 1,024 times the number, rounded down; it is below 2^53.
    fn in_1024ths(self) -> u64 {
        let exponent = self.exponent + 10;
        assert!(exponent <= 0, "{self:?} is too great");
        self.significand.checked_shr(exponent.unsigned_abs()).unwrap_or(0)
    }
}

/// 1,024 times a float that is 0 or above, rounded down.
pub fn in_1024ths(x: f64) -> u64 {
    Number::of(x.to_bits()).in_1024ths()
}

/// The length of a pair of points.
pub fn pair(a: [f64; 2], b: [f64; 2]) -> u64 {
    Number::of(squared(a, b)).root().in_1024ths()
}

/// Where a pair's length is added: the sums are those of the cuts, of the back-steps, and of the
/// jumps and touches. `kind` is the mark's of its second point.
pub fn sum_of(kind: u32) -> usize {
    match kind {
        CUT => 0,
        BACK_STEP => 1,
        JUMP | TOUCH => 2,
        _ => panic!("a pair's mark is of kind {kind}"),
    }
}

#[cfg(test)]
mod tests {
    use harness::random::Random;

    use super::{Number, in_1024ths, pair};
    use crate::floats::{any, nearly_halfway_root, nudged, power, scaled, with_exponent};

    /// By the root of Rust.
    fn assert_root(x: f64) {
        let is = Number::of(x.to_bits()).root();
        assert_eq!(scaled(is.significand as f64, is.exponent.into()), x.sqrt(), "{x:e}");
    }

    #[test]
    fn roots_are_those_of_rust() {
        let random = &mut Random::new(1);
        for _ in 0..20_000 {
            assert_root(any(random));
            assert_root(scaled(nearly_halfway_root(random), 2 * random.between(-560, 450)));
            let short = (random.bits() >> random.between(38, 63)) as f64;
            assert_root(nudged(short * short, random.between(0, 3)));
            assert_root(nudged(0.0, random.between(0, 100)));
        }
        for x in [0.0, f64::MIN_POSITIVE, f64::MIN_POSITIVE.next_down(), 1.0, 2.0, f64::MAX] {
            assert_root(x);
        }
    }

    #[test]
    fn a_1024th_is_rounded_down() {
        let part = power(-10);
        for whole in [1_u64, 2, 3, 1_023, 1_024, 1_025, 2_896_309_375, (1 << 43) - 1] {
            let x = whole as f64 * part;
            assert_eq!([x, x.next_up(), x + part / 2.0].map(in_1024ths), [whole; 3]);
            assert_eq!(in_1024ths(x.next_down()), whole - 1);
        }
        let small = [0.0, f64::from_bits(1), f64::MIN_POSITIVE, power(-537), power(-70)];
        assert_eq!(small.map(in_1024ths), [0; 5]);
        let random = &mut Random::new(2);
        for _ in 0..20_000 {
            let e = random.between(-40, 32);
            let x = with_exponent(random, e);
            assert_eq!(in_1024ths(x), (x * 1_024.0).floor() as u64);
        }
    }

    #[test]
    fn pairs_that_document_01_marks() {
        assert_eq!(pair([0.0, 0.0], [3.0, 4.0]), 5 * 1_024);
        // Each pair is rounded: a hundred tenths are not ten.
        assert_eq!(100 * pair([0.0, 0.0], [0.1, 0.0]), 10_200);
        assert_eq!(pair([1.0, 1.0], [1.0, 1.0]), 0);
        assert_eq!(pair([0.0, -0.0], [-0.0, 0.0]), 0);
        assert_eq!(pair([-1e6, -1e6], [1e6, 1e6]), 2_896_309_375);
    }
}
