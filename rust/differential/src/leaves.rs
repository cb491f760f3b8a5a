//! The float leaves against Rust's own `mul_add`, `sqrt`, `as u32`, `ceil` and `%`.

use harness::leaves;
use harness::random::Random;

use crate::floats::{
    any, exact_square, near_end, nearly_halfway_root, nudged, power, scaled, signed, tie,
    with_exponent,
};
use crate::remainders::{self, Kind as Remainder};
use crate::run::{self, Plan};

/// What is called, and on what sort of numbers.
#[derive(Debug, Clone, Copy, PartialEq, Eq)]
enum Kind {
    SumFullRange,
    SumAlike,
    SumTies,
    SumHalfStep,
    SumSubnormal,
    SumOverflow,
    SumZeros,
    Root(Root),
    WholeAnyBits,
    WholeNearIntegers,
    WholeEdges,
    Remainder(Remainder),
}

/// Where the number lies whose root is taken. The root's table has a step wherever the first
/// digits of the number change (`floats::ends`).
#[derive(Debug, Clone, Copy, PartialEq, Eq)]
enum Root {
    FullRange,
    Subnormal,
    Squares,
    ExactSquares,
    NextToSquares,
    Halfway,
    StepsEven,
    StepsOdd,
    StepsSubnormal,
    Largest,
}

const KINDS: [(Kind, &str); 27] = [
    (Kind::SumFullRange, "square plus: full exponent range"),
    (Kind::SumAlike, "square plus: exponents alike"),
    (Kind::SumTies, "square plus: ties and next to them"),
    (Kind::SumHalfStep, "square plus: the square is half a step of the other"),
    (Kind::SumSubnormal, "square plus: subnormal results"),
    (Kind::SumOverflow, "square plus: near and beyond the greatest number"),
    (Kind::SumZeros, "square plus: zeros"),
    (Kind::Root(Root::FullRange), "root: full exponent range"),
    (Kind::Root(Root::Subnormal), "root: subnormals and zero"),
    (Kind::Root(Root::Squares), "root: squares and next to them"),
    (Kind::Root(Root::ExactSquares), "root: exact squares"),
    (Kind::Root(Root::NextToSquares), "root: one step from exact squares"),
    (Kind::Root(Root::Halfway), "root: nearly half way between two floats"),
    (Kind::Root(Root::StepsEven), "root: table steps, exponent even"),
    (Kind::Root(Root::StepsOdd), "root: table steps, exponent odd"),
    (Kind::Root(Root::StepsSubnormal), "root: table steps, subnormals"),
    (Kind::Root(Root::Largest), "root: the largest numbers"),
    (Kind::WholeAnyBits, "truncated and ceiling: any bits"),
    (Kind::WholeNearIntegers, "truncated and ceiling: near whole numbers"),
    (Kind::WholeEdges, "truncated and ceiling: edges"),
    (Kind::Remainder(Remainder::FullRange), "remainder: full exponent range"),
    (Kind::Remainder(Remainder::FarAbove), "remainder: far above the divisor"),
    (Kind::Remainder(Remainder::Alike), "remainder: exponents alike"),
    (Kind::Remainder(Remainder::Multiples), "remainder: multiples and next to them"),
    (Kind::Remainder(Remainder::Subnormal), "remainder: subnormals"),
    (Kind::Remainder(Remainder::Samples), "remainder: totals and cell sizes of plates"),
    (Kind::Remainder(Remainder::Special), "remainder: zeros, infinities and NaN"),
];

pub fn run(plan: Plan) -> bool {
    println!("leaves: {} cases, seed {}", plan.pairs, plan.seed);
    run::run(plan, &KINDS, case)
}

fn case(kind: Kind, random: &mut Random) -> Result<(), String> {
    match kind {
        Kind::SumFullRange => {
            let x = any(random);
            sum(signed(random, x), any(random))
        }
        Kind::SumAlike => {
            let e = random.between(-537, 511);
            let x = with_exponent(random, e);
            let f = (2 * e + random.between(-110, 110)).clamp(-1074, 1023);
            sum(signed(random, x), with_exponent(random, f))
        }
        Kind::SumTies => {
            let (x, y) = tie(random);
            let e = random.between(-500, 450);
            let y = (y + random.between(-2, 2) as f64).max(0.0);
            let x = signed(random, scaled(x, e));
            sum(x, scaled(y, 2 * e))
        }
        Kind::SumHalfStep => {
            let y = any_normal(random);
            let x = ((nudged(y, 1) - y) / 2.0).sqrt();
            sum(nudged(x, random.between(-1, 1)), y)
        }
        Kind::SumSubnormal => {
            let e = random.between(-560, -510);
            let x = match random.below(3) {
                0 => with_exponent(random, e),
                1 => nudged(power(-511), random.between(-3, 3)),
                _ => {
                    let whole = (random.bits() >> random.between(12, 63)) as f64;
                    nudged(scaled((whole + 0.5).sqrt(), -537), random.between(-1, 1))
                }
            };
            let y = match random.below(3) {
                0 => 0.0,
                1 => nudged(f64::MIN_POSITIVE, random.between(-3, 3)),
                _ => {
                    let e = random.between(-1074, -1020);
                    with_exponent(random, e)
                }
            };
            sum(signed(random, x), y)
        }
        Kind::SumOverflow => {
            let y = match random.below(3) {
                0 => nudged(f64::MAX, -random.between(0, 3)),
                1 => with_exponent(random, 1023),
                _ => any(random),
            };
            let x = match random.below(4) {
                // MAX and half a step, where infinity begins, and next to it
                0 => nudged(power(485), random.between(-2, 2)),
                1 => nudged(f64::MAX.sqrt(), random.between(-2, 2)),
                2 => nudged((f64::MAX - y).sqrt(), random.between(-2, 2)),
                _ => {
                    let e = random.between(480, 1023);
                    with_exponent(random, e)
                }
            };
            sum(signed(random, x), y)
        }
        Kind::SumZeros => {
            let [x, y] = [(); 2].map(|()| if random.one_in(2) { 0.0 } else { any(random) });
            sum(signed(random, x), y)
        }
        Kind::Root(kind) => root(radicand(kind, random)),
        Kind::WholeAnyBits => whole(f64::from_bits(random.bits())),
        Kind::WholeNearIntegers => {
            let n = (random.bits() >> random.between(28, 63)) as f64;
            let half = random.pick(&[0.0, 0.5, 0.25]);
            whole(nudged(signed(random, n + half), random.between(-2, 2)))
        }
        Kind::WholeEdges => {
            let edge = random.pick(&[
                0.0,
                -0.0,
                0.5,
                1.0,
                f64::MIN_POSITIVE,
                2_147_483_647.0,
                2_147_483_648.0,
                4_294_967_294.0,
                4_294_967_295.0,
                4_294_967_296.0,
                9_007_199_254_740_992.0,
                1.8446744073709552e19,
                f64::MAX,
                f64::INFINITY,
                f64::NAN,
            ]);
            let edge = signed(random, edge);
            // Up to the infinities and beyond them into the NaNs.
            let steps = random.between(-3, 3);
            whole(if edge.is_nan() { edge } else { nudged(edge, steps) })
        }
        Kind::Remainder(kind) => remainders::case(kind, random),
    }
}

fn radicand(kind: Root, random: &mut Random) -> f64 {
    match kind {
        Root::FullRange => any(random),
        Root::Subnormal => match random.below(3) {
            0 => nudged(0.0, random.between(0, 100)),
            1 => nudged(f64::MIN_POSITIVE, random.between(-3, 3)),
            _ => {
                let e = random.between(-1074, -1023);
                with_exponent(random, e)
            }
        },
        Root::Squares => {
            let short = (random.bits() >> random.between(38, 63)) as f64 + 1.0;
            let long = with_exponent(random, 0);
            let s = nudged(
                match random.below(3) {
                    0 => short * short,
                    1 => long * long,
                    _ => random.pick(&[1.0, 2.0, 4.0]),
                },
                random.between(-3, 3),
            );
            scaled(s, 2 * random.between(-500, 480))
        }
        Root::ExactSquares => exact_square(random),
        Root::NextToSquares => nudged(exact_square(random), random.pick(&[-1, 1])),
        Root::Halfway => {
            let s = nearly_halfway_root(random);
            scaled(s, 2 * random.between(-560, 450))
        }
        Root::StepsEven => {
            let e = 2 * random.between(-511, 511);
            near_end(random, e)
        }
        Root::StepsOdd => {
            let e = 2 * random.between(-511, 511) + 1;
            near_end(random, e)
        }
        Root::StepsSubnormal => {
            let e = random.between(-1066, -1023);
            near_end(random, e)
        }
        Root::Largest => match random.below(3) {
            0 => nudged(f64::MAX, -random.between(0, 100)),
            // Down through the top binade, by a number of steps of any length.
            1 => nudged(f64::MAX, -((random.bits() >> random.between(12, 63)) as i64)),
            _ => {
                let e = random.between(1020, 1023);
                with_exponent(random, e)
            }
        },
    }
}

fn any_normal(random: &mut Random) -> f64 {
    let e = random.between(-960, 1022);
    with_exponent(random, e)
}

fn sum(x: f64, y: f64) -> Result<(), String> {
    let (library, rust) = (leaves::square_plus(x, y), x.mul_add(x, y));
    if library.to_bits() == rust.to_bits() {
        return Ok(());
    }
    Err(format!(
        "x {:016x} y {:016x}: library {:016x}, mul_add {:016x}",
        x.to_bits(),
        y.to_bits(),
        library.to_bits(),
        rust.to_bits()
    ))
}

fn root(x: f64) -> Result<(), String> {
    let (library, rust) = (leaves::square_root(x), x.sqrt());
    if library.to_bits() == rust.to_bits() {
        return Ok(());
    }
    Err(format!(
        "x {:016x}: library {:016x}, sqrt {:016x}",
        x.to_bits(),
        library.to_bits(),
        rust.to_bits()
    ))
}

fn whole(x: f64) -> Result<(), String> {
    let library = (leaves::truncated(x), leaves::ceiling(x));
    let rust = (x as u32, x.ceil() as u32);
    if library == rust {
        return Ok(());
    }
    Err(format!(
        "x {:016x}: library truncated {} ceiling {}, Rust {} and {}",
        x.to_bits(),
        library.0,
        library.1,
        rust.0,
        rust.1
    ))
}

#[cfg(test)]
mod tests {
    use std::collections::BTreeSet;
    use std::ops::RangeInclusive;

    use harness::random::Random;

    use super::{KINDS, Root, case, radicand, root};
    use crate::floats::{any, ends, nudged};
    use crate::run::assert_every_kind_agrees;

    /// The significand, of 53 digits, and the exponent of its first, by the bits.
    fn parts(x: f64) -> (u64, i64) {
        let (field, digits) = (x.to_bits() >> 52, x.to_bits() & ((1 << 52) - 1));
        assert!(x > 0.0 && field < 2047);
        if field > 0 {
            return (1 << 52 | digits, field as i64 - 1023);
        }
        let places = digits.leading_zeros() - 11;
        (digits << places, -1022 - i64::from(places))
    }

    /// The first digits and the exponent: 9 digits of the significand where the exponent is
    /// even, 10 where it is odd.
    fn first_digits(x: f64) -> (i64, i64) {
        let (significand, e) = parts(x);
        let n = if e % 2 == 0 { significand << 8 } else { significand << 9 };
        ((n >> 52) as i64, e)
    }

    /// The first digits that numbers of this exponent have.
    fn all_first_digits(e: i64) -> RangeInclusive<i64> {
        if e % 2 == 0 { 256..=511 } else { 512..=1023 }
    }

    fn has_other_first_digits(x: f64, k: i64) -> bool {
        x.is_infinite() || first_digits(x).0 != k
    }

    #[test]
    fn every_kind_agrees() {
        assert_every_kind_agrees(&KINDS, 2_000, case);
    }

    #[test]
    fn first_digits_are_a_whole_part() {
        let mut random = Random::new(2);
        for _ in 0..10_000 {
            let x = any(&mut random);
            let mut moved = x;
            while moved < 256.0 {
                moved *= 4.0;
            }
            while moved >= 1024.0 {
                moved /= 4.0;
            }
            assert_eq!(first_digits(x).0, moved as i64, "{x:e}");
        }
    }

    #[test]
    fn ends_are_those_of_their_first_digits() {
        for e in -1066..=1023 {
            for k in all_first_digits(e) {
                let [least, greatest] = ends(k, e);
                assert_eq!([least, greatest].map(first_digits), [(k, e), (k, e)]);
                assert!(has_other_first_digits(nudged(least, -1), k));
                assert!(has_other_first_digits(nudged(greatest, 1), k));
            }
        }
    }

    /// Every exponent is met, and every k: at its least float and its greatest, and a step
    /// inside of them, which is to both sides of where k changes.
    #[test]
    fn every_table_step_is_met() {
        let even = (Root::StepsEven, -1022, 1022, 2);
        let odd = (Root::StepsOdd, -1021, 1023, 2);
        let subnormal = (Root::StepsSubnormal, -1066, -1023, 1);
        for (kind, low, high, apart) in [even, odd, subnormal] {
            let mut random = Random::new(3);
            let [mut least, mut greatest, mut above, mut below] = [(); 4].map(|()| BTreeSet::new());
            let mut exponents = BTreeSet::new();
            for _ in 0..300_000 {
                let x = radicand(kind, &mut random);
                let (k, e) = first_digits(x);
                exponents.insert(e);
                let off = |steps| has_other_first_digits(nudged(x, steps), k);
                if off(-1) {
                    least.insert(k);
                } else if off(-2) {
                    above.insert(k);
                }
                if off(1) {
                    greatest.insert(k);
                } else if off(2) {
                    below.insert(k);
                }
            }
            for e in (low..=high).step_by(apart) {
                assert!(exponents.contains(&e), "{kind:?}: exponent {e}");
            }
            for k in [low, high].into_iter().flat_map(all_first_digits) {
                for met in [&least, &greatest, &above, &below] {
                    assert!(met.contains(&k), "{kind:?}: first digits {k}");
                }
            }
        }
    }

    /// Both ends of every k, and two steps to both sides, with these exponents.
    #[test]
    fn every_table_step_agrees() {
        let even = [-1066, -1060, -1040, -1024, -1022, -540, -54, -2, 0, 2, 52, 540, 1020, 1022];
        for e in even.into_iter().flat_map(|e| [e, e + 1]) {
            for end in all_first_digits(e).flat_map(|k| ends(k, e)) {
                for x in (-2..=2).map(|steps| nudged(end, steps)).filter(|x| x.is_finite()) {
                    root(x).unwrap_or_else(|e| panic!("{e}"));
                }
            }
        }
    }

    fn is_square(x: f64) -> bool {
        // An odd whole number times a power of two: that one is a square, this one of four.
        let (significand, e) = parts(x);
        let zeros = significand.trailing_zeros();
        let odd = significand >> zeros;
        (e + i64::from(zeros)) % 2 == 0 && odd.isqrt() * odd.isqrt() == odd
    }

    #[test]
    fn exact_squares_are_met() {
        let mut random = Random::new(4);
        let mut exponents = BTreeSet::new();
        for _ in 0..100_000 {
            let x = radicand(Root::ExactSquares, &mut random);
            assert!(is_square(x), "{x:e}");
            exponents.insert(parts(x).1);
        }
        assert!((-1030..=1023).all(|e| exponents.contains(&e)));
    }

    #[test]
    fn both_neighbours_of_exact_squares_are_met() {
        let mut random = Random::new(5);
        let (mut above, mut below) = (0, 0);
        for _ in 0..10_000 {
            let x = radicand(Root::NextToSquares, &mut random);
            if x > 0.0 && is_square(nudged(x, -1)) {
                above += 1;
            } else {
                assert!(is_square(nudged(x, 1)), "{x:e}");
                below += 1;
            }
        }
        assert!(above > 4_000 && below > 4_000);
    }
}
