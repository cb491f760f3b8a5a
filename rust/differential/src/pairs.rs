//! Pairs of points of many kinds, as the four coordinates a.x, a.y, b.x, b.y.

use harness::random::Random;

use crate::floats::{nearly_halfway_root, nudged, power, scaled, signed, tie, with_exponent};
use crate::run::{self, Plan};

/// The greatest magnitude that the distance call takes.
pub const LIMIT: f64 = 2_147_483_648.0;

pub type Pair = [f64; 4];

/// A kind of pair that the distance call accepts.
#[derive(Debug, Clone, Copy, PartialEq, Eq)]
pub enum Kind {
    FullRange,
    AlikeExponents,
    Subnormals,
    SubnormalSquares,
    NegativeZeros,
    Integers,
    EqualPoints,
    OneStepApart,
    NearTies,
    NearSquares,
    PlateSized,
    AtTheLimit,
    Cancellation,
}

pub const KINDS: [(Kind, &str); 13] = [
    (Kind::FullRange, "full exponent range"),
    (Kind::AlikeExponents, "exponents alike"),
    (Kind::Subnormals, "subnormals and zeros"),
    (Kind::SubnormalSquares, "squares near or below the least normal number"),
    (Kind::NegativeZeros, "zeros of both signs"),
    (Kind::Integers, "integers"),
    (Kind::EqualPoints, "equal points"),
    (Kind::OneStepApart, "points one step apart"),
    (Kind::NearTies, "near ties of the sum"),
    (Kind::NearSquares, "near squares and half-way roots"),
    (Kind::PlateSized, "plate-sized coordinates"),
    (Kind::AtTheLimit, "coordinates at the limit"),
    (Kind::Cancellation, "cancellation"),
];

/// What takes a coordinate off the plate.
#[derive(Debug, Clone, Copy, PartialEq, Eq)]
pub enum Damage {
    NotANumber,
    Infinite,
    JustBeyond,
    FarBeyond,
}

/// Kinds of pair that the distance call refuses: one damaged coordinate, or several.
pub const DAMAGES: [(Option<Damage>, &str); 5] = [
    (Some(Damage::NotANumber), "one NaN"),
    (Some(Damage::Infinite), "one infinity"),
    (Some(Damage::JustBeyond), "one coordinate next to the limit"),
    (Some(Damage::FarBeyond), "one coordinate far beyond the limit"),
    (None, "several damaged coordinates"),
];

/// Compares the plan's pairs, then damaged ones, one for each sixteen of them.
pub fn run<K: Copy + Sync>(
    plan: Plan,
    kinds: &[(K, &str)],
    pair: impl Fn(K, &mut Random) -> Pair + Sync,
    compare: impl Fn(Pair) -> Result<(), String> + Sync,
) -> bool {
    if !run::run(plan, kinds, |kind, random| compare(pair(kind, random))) {
        return false;
    }
    let plan = Plan { pairs: plan.pairs.div_ceil(16), ..plan };
    println!("refusals: {} pairs, seed {}", plan.pairs, plan.seed);
    run::run(plan, &DAMAGES, |damage, random| compare(damaged(damage, random)))
}

/// The text, with the pair.
pub fn described(pair: Pair, text: &str) -> String {
    let [ax, ay, bx, by] = pair.map(f64::to_bits);
    format!("a {ax:016x} {ay:016x} b {bx:016x} {by:016x}: {text}")
}

/// A pair of the kind, all of it within the limit.
pub fn pair(kind: Kind, random: &mut Random) -> Pair {
    let pair = match kind {
        Kind::FullRange => coordinates(random, any),
        Kind::AlikeExponents => {
            let top = random.between(-1074, 30);
            coordinates(random, |r| with_exponent_from(r, (top - 60).max(-1074), top))
        }
        Kind::Subnormals => coordinates(random, |r| match r.below(6) {
            0 => 0.0,
            1 => nudged(f64::MIN_POSITIVE, r.between(-3, 3)),
            2 => nudged(0.0, r.between(1, 3)),
            3 => with_exponent_from(r, -1022, -960),
            _ => with_exponent_from(r, -1074, -1023),
        }),
        Kind::SubnormalSquares => {
            let [dx, dy] = [(); 2].map(|()| match random.below(8) {
                0 => 0.0,
                // dx * dx nearly half way between two subnormals, or at the edge of the normal ones
                1 => halfway_subnormal_root(random),
                2 => nudged(power(-511), random.between(-3, 3)),
                _ => with_exponent_from(random, -560, -500),
            });
            placed(random, dx, dy)
        }
        Kind::NegativeZeros => coordinates(random, |r| match r.below(4) {
            0 => any(r),
            1 => 1.0,
            _ => 0.0,
        }),
        Kind::Integers => {
            let most = random.pick(&[3, 1_000, 1 << 26, 1 << 31]);
            coordinates(random, |r| r.between(0, most) as f64)
        }
        Kind::EqualPoints => {
            let [x, y] = [(); 2].map(|()| coordinate(random));
            let [u, v] = [x, y].map(|c| if c == 0.0 { signed(random, c) } else { c });
            [x, y, u, v]
        }
        Kind::OneStepApart => {
            let [x, y] = [(); 2].map(|()| coordinate(random));
            let [u, v] = [x, y].map(|c| nudged(c, random.between(-1, 1)).clamp(-LIMIT, LIMIT));
            [x, y, u, v]
        }
        Kind::NearTies => near_tie(random),
        Kind::NearSquares => {
            let s = near_square(random);
            with_square(random, s)
        }
        Kind::PlateSized => plate_sized(random),
        Kind::AtTheLimit => coordinates(random, |r| match r.below(8) {
            0 => any(r),
            1 => LIMIT / 2.0,
            2 => nudged(LIMIT, -r.between(1, 3)),
            3 => r.pick(&[0.0, 1.0, f64::MIN_POSITIVE, 1e6]),
            _ => LIMIT,
        }),
        Kind::Cancellation => {
            let [x, y] = [(); 2].map(|()| match random.below(3) {
                0 => signed(random, LIMIT),
                1 => coordinate(random),
                _ => with_exponent_from(random, 0, 30),
            });
            let steps = random.pick(&[3, 1_000, 1 << 30]);
            let [u, v] = [x, y].map(|c| match random.below(4) {
                0 => -c,
                1 => any(random),
                _ => nudged(c, random.between(-steps, steps)).clamp(-LIMIT, LIMIT),
            });
            [x, y, u, v]
        }
    };
    assert!(pair.iter().all(|c| c.abs() <= LIMIT), "{kind:?} made {pair:?}");
    pair
}

/// A pair with that damage at one place, or with any damage at some places.
pub fn damaged(damage: Option<Damage>, random: &mut Random) -> Pair {
    let (kind, _) = random.pick(&KINDS);
    let mut pair = pair(kind, random);
    if let Some(damage) = damage {
        pair[random.below(4) as usize] = damaged_coordinate(damage, random);
        return pair;
    }
    let places = random.between(1, 15);
    for (place, c) in pair.iter_mut().enumerate() {
        if places >> place & 1 == 1 {
            let damage = random.pick(&[
                Damage::NotANumber,
                Damage::Infinite,
                Damage::JustBeyond,
                Damage::FarBeyond,
            ]);
            *c = damaged_coordinate(damage, random);
        }
    }
    pair
}

fn damaged_coordinate(damage: Damage, random: &mut Random) -> f64 {
    const INFINITY: u64 = 0x7ff0_0000_0000_0000;
    let magnitude = match damage {
        Damage::NotANumber => f64::from_bits(match random.below(5) {
            0 => INFINITY + 1,
            1 => INFINITY | 1 << 51,
            2 => u64::MAX >> 1,
            _ => INFINITY | (random.bits() >> 12).max(1),
        }),
        Damage::Infinite => f64::INFINITY,
        Damage::JustBeyond => nudged(LIMIT, 1),
        Damage::FarBeyond => match random.below(4) {
            0 => 1e300,
            1 => f64::MAX,
            2 => nudged(LIMIT, random.between(2, 1_000)),
            _ => nudged(with_exponent_from(random, 31, 1023), 1),
        },
    };
    // The sign bit by hand: arithmetic may lose a NaN's digits.
    f64::from_bits(magnitude.to_bits() | random.bits() >> 63 << 63)
}

/// Four coordinates, each with a sign of its own.
fn coordinates(random: &mut Random, magnitude: impl Fn(&mut Random) -> f64) -> Pair {
    [(); 4].map(|()| {
        let x = magnitude(random);
        signed(random, x)
    })
}

/// A magnitude within the limit, of any exponent.
fn any(random: &mut Random) -> f64 {
    with_exponent_from(random, -1074, 30)
}

fn with_exponent_from(random: &mut Random, low: i64, high: i64) -> f64 {
    let e = random.between(low, high);
    with_exponent(random, e)
}

/// A coordinate of one of several sorts.
fn coordinate(random: &mut Random) -> f64 {
    let x = match random.below(4) {
        0 => any(random),
        1 => random.between(0, 1_000_000) as f64,
        2 => random.pick(&[0.0, LIMIT, f64::MIN_POSITIVE, 1.0]),
        _ => random.unit() * 1e6,
    };
    signed(random, x)
}

/// A pair with the differences dx and dy, up to their signs.
fn placed(random: &mut Random, dx: f64, dy: f64) -> Pair {
    let dx = signed(random, dx);
    let dy = signed(random, dy);
    match random.below(3) {
        0 => [dx, dy, 0.0, 0.0],
        1 => [0.0, 0.0, dx, dy],
        _ => [dx, 0.0, 0.0, dy],
    }
}

/// A number whose square is nearly half way between two subnormals.
fn halfway_subnormal_root(random: &mut Random) -> f64 {
    let digits = random.between(0, 40);
    let square = (random.bits() >> (63 - digits)) as f64 + 0.5;
    nudged(scaled(square.sqrt(), -537), random.between(-1, 1))
}

/// A pair whose sum dx * dx + dy * dy, dy * dy rounded, is half way between two floats or
/// next to that: the pattern of document 01's plate I.
fn near_tie(random: &mut Random) -> Pair {
    let nudge = random.between(-1, 1);
    let (dx, dy) = match random.below(3) {
        // The digits of dx * dx beyond a float's are filled up to a half by dy * dy.
        0 => {
            let (x, y) = tie(random);
            (x, nudged(y.sqrt(), nudge))
        }
        // The lowest digit of dy * dy is worth half a step of the sum, which is exact.
        1 => loop {
            let x = random.between(1, (1 << 26) - 1) as u64;
            let top = 63 - i64::from((x * x).leading_zeros());
            if top % 2 == 1 {
                let y = (random.bits() >> random.between(39, 63)) | 1;
                let unit = power((top - 53) / 2);
                break (x as f64, nudged(y as f64 * unit, nudge));
            }
        },
        // dx * dx is half a step of dy * dy.
        _ => {
            let y = with_exponent(random, 20);
            let half = (nudged(y * y, 1) - y * y) / 2.0;
            (nudged(half.sqrt(), nudge), y)
        }
    };
    let e = random.between(-450, -22);
    placed(random, scaled(dx, e), scaled(dy, e))
}

/// A squared distance whose root is a short number, or nearly one, or nearly half way
/// between two floats.
fn near_square(random: &mut Random) -> f64 {
    let s = match random.below(4) {
        0 => {
            let root = (random.bits() >> random.between(38, 63)) as f64;
            nudged((root + 1.0) * (root + 1.0), random.between(-2, 2))
        }
        1 => nudged(random.pick(&[1.0, 2.0, 4.0]), random.between(-1_000, 1_000)),
        2 => {
            let root = with_exponent(random, 0);
            nudged(root * root, random.between(-1, 1))
        }
        _ => scaled(nearly_halfway_root(random), -106),
    };
    scaled(s, 2 * random.between(-400, 4))
}

/// A pair with that squared distance: dx is the root to 26 digits, so that its square is
/// exact, and dy * dy the small rest, whose own rounding the sum does not show.
fn with_square(random: &mut Random, s: f64) -> Pair {
    let short = s.sqrt().to_bits() >> 27;
    let dx = f64::from_bits(short << 27);
    // The root may have been rounded up to a short number.
    let dx = if dx * dx > s { f64::from_bits((short - 1) << 27) } else { dx };
    let dy = (s - dx * dx).sqrt();
    placed(random, dx, dy)
}

fn plate_sized(random: &mut Random) -> Pair {
    let most = random.pick(&[1.0, 100.0, 1_000.0, 1_000_000.0]);
    let kind = random.below(4);
    let one = |random: &mut Random| {
        let x = random.unit() * most;
        let x = match kind {
            0 => x,
            1 => x.round(),
            2 => (x * 8.0).round() / 8.0,
            _ => (x * 1_000.0).round() / 1_000.0,
        };
        signed(random, x)
    };
    let [x, y] = [one(random), one(random)];
    if random.one_in(4) {
        // A step along a contour.
        let step = most / 1_024.0;
        let [u, v] = [x, y].map(|c| c + step * (random.unit() - 0.5));
        [x, y, u, v]
    } else {
        [x, y, one(random), one(random)]
    }
}

#[cfg(test)]
mod tests {
    use harness::random::Random;

    use super::{DAMAGES, KINDS, Kind, LIMIT, damaged, near_square, pair, with_square};

    #[test]
    fn every_kind_keeps_to_the_limit() {
        let mut random = Random::new(1);
        for (kind, _) in KINDS {
            for _ in 0..10_000 {
                assert!(pair(kind, &mut random).iter().all(|c| c.abs() <= LIMIT));
            }
        }
    }

    #[test]
    fn every_damage_leaves_it() {
        let mut random = Random::new(2);
        for (damage, _) in DAMAGES {
            let mut first = [0; 4];
            for _ in 0..10_000 {
                let pair = damaged(damage, &mut random);
                let place = pair.iter().position(|c| c.is_nan() || c.abs() > LIMIT);
                first[place.expect("some coordinate is off the plate")] += 1;
            }
            assert!(first.iter().all(|&n| n > 400), "{damage:?} at the places {first:?}");
        }
    }

    // Only where such a sum differs do the near ties show that it is rounded once.
    #[test]
    fn near_ties_tell_a_sum_rounded_twice() {
        let mut random = Random::new(3);
        let mut told = 0;
        for _ in 0..10_000 {
            let [ax, ay, bx, by] = pair(Kind::NearTies, &mut random);
            let (dx, dy) = (ax - bx, ay - by);
            told += u32::from(dx.mul_add(dx, dy * dy) != dx * dx + dy * dy);
        }
        assert!(told > 1_000, "only {told} of 10,000");
    }

    #[test]
    fn squares_are_met_exactly() {
        let mut random = Random::new(4);
        for _ in 0..10_000 {
            let s = near_square(&mut random);
            let [ax, ay, bx, by] = with_square(&mut random, s);
            let (dx, dy) = (ax - bx, ay - by);
            assert_eq!(dx.mul_add(dx, dy * dy), s);
        }
    }

    #[test]
    fn zeros_of_both_signs_and_subnormals_occur() {
        let mut random = Random::new(5);
        let (mut zeros, mut subnormal) = (0, 0);
        for _ in 0..1_000 {
            zeros += pair(Kind::NegativeZeros, &mut random)
                .iter()
                .filter(|c| c.to_bits() == 1 << 63)
                .count();
            subnormal +=
                pair(Kind::Subnormals, &mut random).iter().filter(|c| c.is_subnormal()).count();
        }
        assert!(zeros > 500 && subnormal > 1_000, "{zeros} and {subnormal}");
    }
}
