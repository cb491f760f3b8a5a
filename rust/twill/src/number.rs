//! Floats as text, bit for bit in both directions.

/// A number of a plate: decimal, hexadecimal (`0x1.8p3`), or `nan`, `inf` and `-inf`, which the
/// library then refuses. It is rounded to the nearest, ties to even, as its standard has it.
pub fn parse(text: &str) -> Option<f64> {
    let (negative, digits) = match text.as_bytes().first()? {
        b'-' => (true, &text[1..]),
        b'+' => (false, &text[1..]),
        _ => (false, text),
    };
    let magnitude = match digits.get(..2) {
        Some("0x" | "0X") => hexadecimal(&digits[2..])?,
        // What is left is one of the words or a decimal; a second sign is neither.
        _ if digits.starts_with(['+', '-']) => return None,
        _ => digits.parse::<f64>().ok()?,
    };
    Some(if negative { -magnitude } else { magnitude })
}

/// A whole number, of digits alone.
pub fn whole(text: &str) -> Option<u32> {
    let is_digits = text.bytes().all(|b| b.is_ascii_digit());
    text.parse().ok().filter(|_| is_digits)
}

/// The digits after `0x`: hexadecimal, with at most one point, then perhaps `p` and a decimal
/// power of two.
fn hexadecimal(text: &str) -> Option<f64> {
    let (digits, power) = match text.find(['p', 'P']) {
        Some(at) => (&text[..at], exponent(&text[at + 1..])?),
        None => (text, 0),
    };
    let (whole, fraction) = digits.split_once('.').unwrap_or((digits, ""));
    if whole.is_empty() && fraction.is_empty() {
        return None;
    }
    // 120 bits are kept; what follows them counts as one bit more, if it is not zero.
    let mut significand: u128 = 0;
    let mut exponent = power;
    let mut sticky = false;
    for (digit, is_fraction) in
        whole.chars().map(|c| (c, false)).chain(fraction.chars().map(|c| (c, true)))
    {
        let digit = u128::from(digit.to_digit(16)?);
        if significand >> 120 == 0 {
            significand = significand << 4 | digit;
            exponent -= if is_fraction { 4 } else { 0 };
        } else {
            sticky |= digit != 0;
            exponent += if is_fraction { 0 } else { 4 };
        }
    }
    Some(rounded(significand << 1 | u128::from(sticky), exponent - 1))
}

/// A decimal exponent; one beyond any float's is cut to a bound.
fn exponent(text: &str) -> Option<i64> {
    let digits = text.strip_prefix(['+', '-']).unwrap_or(text);
    if digits.is_empty() || !digits.bytes().all(|b| b.is_ascii_digit()) {
        return None;
    }
    let magnitude = digits.parse::<i64>().unwrap_or(i64::MAX).min(1 << 40);
    Some(if text.starts_with('-') { -magnitude } else { magnitude })
}

/// significand × 2^exponent, rounded to the nearest float, ties to even.
fn rounded(significand: u128, exponent: i64) -> f64 {
    if significand == 0 {
        return 0.0;
    }
    let width = i64::from(128 - significand.leading_zeros());
    // The last bit of a float of this magnitude stands for 2^last.
    let last = (exponent + width - 53).max(-1074);
    let shift = last - exponent;
    let kept = if shift <= 0 {
        significand << -shift
    } else if shift > 127 {
        0
    } else {
        let rest = significand & ((1 << shift) - 1);
        let half = 1 << (shift - 1);
        let low = significand >> shift;
        low + u128::from(rest > half || rest == half && low & 1 == 1)
    };
    if last > 971 {
        return f64::INFINITY;
    }
    // A normal number's leading bit, at 52, adds one to the exponent's field; so does a carry,
    // up to infinity's.
    f64::from_bits(kept as u64 + (((last + 1074) as u64) << 52))
}

/// The shortest decimal that is read back as the same float.
pub fn show(value: f64) -> String {
    let magnitude = value.abs();
    if value == 0.0 || (1e-5..1e16).contains(&magnitude) || !value.is_finite() {
        format!("{value}")
    } else {
        format!("{value:e}")
    }
}

/// The same for JSON, where some readers take -0 for the whole number 0.
pub fn json(value: f64) -> String {
    if value == 0.0 && value.is_sign_negative() { "-0.0".into() } else { show(value) }
}

#[cfg(test)]
mod tests {
    use super::{json, parse, show, whole};

    #[test]
    fn hexadecimal_numbers_are_the_floats_that_they_name() {
        let cases = [
            ("0x0", 0.0),
            ("-0x0p5", -0.0),
            ("0x1.8p1", 3.0),
            ("0x.8", 0.5),
            ("0X1P-1074", f64::from_bits(1)),
            ("0x1p-1075", 0.0),
            ("0x1.000001p-1075", f64::from_bits(1)),
            ("0x1.8p-1074", f64::from_bits(2)),
            ("0x0.fffffffffffff8p-1022", f64::MIN_POSITIVE),
            ("0x1.fffffffffffffp1023", f64::MAX),
            ("0x1.fffffffffffff7p1023", f64::MAX),
            ("0x1.fffffffffffff8p1023", f64::INFINITY),
            ("0x1p1024", f64::INFINITY),
            ("0x1p99999999999999999999", f64::INFINITY),
            ("0x1p-99999999999999999999", 0.0),
            // A tie to even, a tie that a far digit breaks, and a tie up.
            ("0x1.00000000000008", 1.0),
            ("0x1.0000000000000800000000000000000000000000000001", 1.0 + f64::EPSILON),
            ("0x1.00000000000018", 1.0 + 2.0 * f64::EPSILON),
            ("0x100000000000000000000000000000000000000000000000", 2f64.powi(188)),
        ];
        for (text, value) in cases {
            assert_eq!(parse(text).map(f64::to_bits), Some(value.to_bits()), "{text}");
        }
    }

    #[test]
    fn what_is_no_number_is_not_read() {
        for text in [
            "", "-", "+-1", "--1", "0x", "0x.", "0x1p", "0x1p+", "0x1.1.1", "0xg", "1e", "1_0", "x",
        ] {
            assert_eq!(parse(text), None, "{text}");
        }
        assert!(parse("NaN").is_some_and(f64::is_nan));
        assert_eq!(parse("-inf"), Some(f64::NEG_INFINITY));
    }

    #[test]
    fn whole_numbers_are_digits() {
        for (text, number) in [("0", 0), ("007", 7), ("4294967295", u32::MAX)] {
            assert_eq!(whole(text), Some(number), "{text}");
        }
        for text in ["", "+1", "-1", "-0", " 1", "1.0", "0x1", "\u{661}", "4294967296"] {
            assert_eq!(whole(text), None, "{text}");
        }
    }

    #[test]
    fn what_is_shown_is_read_back_bit_for_bit() {
        let mut bits = 0x9E37_79B9_7F4A_7C15u64;
        for _ in 0..100_000 {
            bits = bits
                .wrapping_mul(6_364_136_223_846_793_005)
                .wrapping_add(1_442_695_040_888_963_407);
            let value = f64::from_bits(bits);
            if value.is_nan() {
                continue;
            }
            assert_eq!(parse(&show(value)).map(f64::to_bits), Some(bits), "{value:e}");
        }
        assert_eq!(
            (show(-0.0), show(0.1), show(1e300)),
            ("-0".into(), "0.1".into(), "1e300".into())
        );
        assert_eq!((json(-0.0), json(0.0), json(-2.5)), ("-0.0".into(), "0".into(), "-2.5".into()));
    }
}
