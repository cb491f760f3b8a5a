//! Floats made to order: by exponent, by steps, half way between two others.

use harness::random::Random;

/// 2 to the power of `e`, from -1074 to 1023.
pub fn power(e: i64) -> f64 {
    assert!((-1074..=1023).contains(&e));
    if e < -1022 {
        f64::from_bits(1 << (e + 1074))
    } else {
        f64::from_bits(((e + 1023) as u64) << 52)
    }
}

/// x × 2^e, exact where that is a normal number.
pub fn scaled(x: f64, e: i64) -> f64 {
    x * power(e / 2) * power(e - e / 2)
}

/// The bits of these numbers, a blank before each.
pub fn hexadecimal(numbers: &[f64]) -> String {
    numbers.iter().map(|x| format!(" {:016x}", x.to_bits())).collect()
}

/// A number from 2^e up to 2^(e + 1) with random digits.
pub fn with_exponent(random: &mut Random, e: i64) -> f64 {
    let digits = random.bits() >> 12;
    if e < -1022 {
        let top = e + 1074;
        f64::from_bits(1 << top | digits >> (52 - top))
    } else {
        f64::from_bits(power(e).to_bits() | digits)
    }
}

/// A magnitude of any exponent.
pub fn any(random: &mut Random) -> f64 {
    let e = random.between(-1074, 1023);
    with_exponent(random, e)
}

/// x or -x.
pub fn signed(random: &mut Random, x: f64) -> f64 {
    if random.one_in(2) { x } else { -x }
}

/// The float that many steps above x, or below it.
pub fn nudged(x: f64, steps: i64) -> f64 {
    let bits = x.to_bits() as i64;
    let rank = if bits < 0 { i64::MIN - bits } else { bits };
    let rank = rank + steps;
    f64::from_bits(if rank < 0 { i64::MIN - rank } else { rank } as u64)
}

/// Whole numbers x and y below 2^53 for which x × x + y lies half way between two floats.
pub fn tie(random: &mut Random) -> (f64, f64) {
    loop {
        let digits = random.between(27, 53);
        let x = 1_u64 << (digits - 1) | random.bits() >> (65 - digits);
        let square = u128::from(x) * u128::from(x);
        let cut = 128 - square.leading_zeros() - 53;
        if cut > 0 {
            let unit = 1_u128 << cut;
            let y = (unit + unit / 2 - square % unit) % unit;
            return (x as f64, y as f64);
        }
    }
}

/// A number near 2^107 whose square root is nearly half way between two floats.
///
/// M is odd with 54 digits, so it lies half way between two floats of 53 digits. Where
/// M × M is c modulo a power of two, for a small c, and what is left without c has 53
/// digits, that is a float whose root differs from M by about c / 2M.
pub fn nearly_halfway_root(random: &mut Random) -> f64 {
    loop {
        let c = 8 * random.between(-500, 500) + 1;
        let modulus = random.between(54, 55) as u32;
        let root = root_modulo(c, modulus);
        let whole = 1_u64 << modulus;
        let other = if random.one_in(2) { root } else { whole - root };
        let m = if random.one_in(2) { other } else { (other + whole / 2) % whole };
        let square = u128::from(m) * u128::from(m);
        let rest = square.wrapping_sub(i128::from(c) as u128);
        if m >> 53 == 1 && 128 - square.leading_zeros() == modulus + 53 {
            assert!(rest % (1 << modulus) == 0);
            return rest as f64;
        }
    }
}

/// The least and the greatest float from 2^e up to 2^(e + 1) whose first digits are k.
///
/// The first digits of x are the whole part of x × 4^i, for the i with which that is from
/// 256 up to 1,024. So k is from 256 to 511 where e is even, from 512 to 1,023 where it is
/// odd. e is at least -1066: below, not every k has a float.
pub fn ends(k: i64, e: i64) -> [f64; 2] {
    let odd = e.rem_euclid(2);
    assert!((256 << odd..512 << odd).contains(&k) && e >= -1066);
    let unit = e - odd - 8;
    [scaled(k as f64, unit), nudged(scaled((k + 1) as f64, unit), -1)]
}

/// The least or the greatest float of an exponent and some first digits, or a few steps off.
pub fn near_end(random: &mut Random, e: i64) -> f64 {
    let odd = e.rem_euclid(2);
    let k = random.between(256 << odd, (512 << odd) - 1);
    let end = random.pick(&ends(k, e));
    // Above MAX are infinity and the NaNs: min turns both into MAX.
    nudged(end, random.between(-4, 4)).min(f64::MAX)
}

/// The square of a whole number, times a power of four: its root is a float too.
pub fn exact_square(random: &mut Random) -> f64 {
    // The greatest whole number whose square is below 2^53.
    let most = 94_906_265;
    let short = (random.bits() >> random.between(38, 63)) + 1;
    let root = if random.one_in(2) { short } else { random.below(most) + 1 };
    let square = root * root;
    let digits = 64 - i64::from(square.leading_zeros());
    scaled(square as f64, 2 * random.between(-537, (1024 - digits) / 2))
}

/// An odd number whose square is c modulo 2^digits. c is 1 modulo 8.
fn root_modulo(c: i64, digits: u32) -> u64 {
    let mut root = 1_u64;
    for digit in 3..digits {
        let off = root.wrapping_mul(root).wrapping_sub(c as u64);
        if off >> digit & 1 == 1 {
            root += 1 << (digit - 1);
        }
    }
    root
}

#[cfg(test)]
mod tests {
    use harness::random::Random;

    use super::{nearly_halfway_root, nudged, root_modulo, tie, with_exponent};

    #[test]
    fn exponents_are_those_asked_for() {
        let mut random = Random::new(1);
        for e in -1074..=1023 {
            let x = with_exponent(&mut random, e);
            let unit =
                if e < -1022 { f64::from_bits(1 << (e + 1074)) } else { 2.0_f64.powi(e as i32) };
            assert!(unit <= x && x < 2.0 * unit, "{x:e} is not from 2^{e} to 2^{}", e + 1);
        }
    }

    #[test]
    fn steps_pass_zero_and_come_back() {
        assert_eq!(nudged(1.0, 1), 1.0 + f64::EPSILON);
        assert_eq!(nudged(-1.0, 1), -1.0 + f64::EPSILON / 2.0);
        assert_eq!(nudged(0.0, -3), -nudged(0.0, 3));
        assert_eq!(nudged(-0.0, 1).to_bits(), 1);
    }

    #[test]
    fn a_tie_is_half_way() {
        let mut random = Random::new(2);
        for _ in 0..10_000 {
            let (x, y) = tie(&mut random);
            let sum = x as u128 * x as u128 + y as u128;
            let cut = 128 - sum.leading_zeros() - 53;
            // The sum may have one digit more than the square: then it lies at a quarter.
            assert!(sum.trailing_zeros() + 1 == cut || sum.trailing_zeros() + 2 == cut);
        }
    }

    #[test]
    fn a_root_modulo_a_power_of_two_squares_to_its_number() {
        for c in [1, 9, 17, 25, -7, -15, 801] {
            let root = root_modulo(c, 55);
            assert_eq!((root.wrapping_mul(root).wrapping_sub(c as u64)) % (1 << 55), 0);
        }
    }

    #[test]
    fn roots_are_nearly_half_way() {
        let mut random = Random::new(3);
        for _ in 0..10_000 {
            let s = nearly_halfway_root(&mut random);
            // The rounded root has an odd number to each side: s is nearly the square of one.
            let root = s.sqrt() as u128;
            let off = |m: u128| (m * m).abs_diff(s as u128);
            assert!(off(root - 1).min(off(root + 1)) < 5_000);
        }
    }
}
