//! How near a jump is: document 02's ticket 8, checked of paths with marks as they were written.
//!
//! Like the checker it is written from the document's text alone, and knows neither grid nor rings.
//! Let d be the squared distance from the path point before a jump's or touch's landing to the
//! landing, and f that from any path point before the landing. Then d × 1,073,741,824 is at most
//! f × 1,073,741,825, as whole numbers.
//!
//! A back-step with the bits of the earlier path point that it names has that point's f, so that
//! it is not looked at again. Of a path with more than [`MOST`] pairs of a landing and an earlier
//! point that remains, every k-th earlier point is compared: k is the least that leaves so many
//! pairs, but for one to a landing, and landings in turn begin with another point.

use std::cmp::Ordering;
use std::fmt;
use std::sync::Mutex;
use std::sync::atomic::{AtomicU64, Ordering::Relaxed};

use crate::checker::squared;
use crate::tally::is_met;

/// What d and f are multiplied by.
const TIMES_D: u64 = 1_073_741_824;
const TIMES_F: u64 = 1_073_741_825;

/// So many pairs of a path are compared at most, but for one to a landing.
const MOST: usize = 16_000_000;

/// A run of as many plates meets jumps with a nearer point passed over.
const ENOUGH: u64 = 5_000;

const BACK_STEP: u32 = 2;
const LANDINGS: [u32; 2] = [3, 4];

/// The whole number significand × 2^exponent.
#[derive(Debug, Clone, Copy)]
struct Whole {
    significand: u128,
    exponent: u32,
}

impl Whole {
    /// How many times 2^-1074 a float is. There is none of infinity, of what is no number, and of
    /// what has the sign minus.
    fn of(x: f64) -> Option<Self> {
        let bits = x.to_bits();
        let fraction = bits & ((1 << 52) - 1);
        let (significand, exponent) = match bits >> 52 {
            0 => (fraction, 0),
            biased @ 1..0x7ff => (1 << 52 | fraction, biased as u32 - 1),
            _ => return None,
        };
        Some(Self { significand: significand.into(), exponent })
    }

    /// The product, whose significand must have 128 digits at most.
    fn times(self, other: Self) -> Self {
        let significand = self.significand * other.significand;
        Self { significand, exponent: self.exponent + other.exponent }
    }

    fn digits(self) -> u32 {
        match self.significand {
            0 => 0,
            significand => 128 - significand.leading_zeros() + self.exponent,
        }
    }

    fn compare(self, other: Self) -> Ordering {
        // Of as many digits: then none is lost when the powers of two are made equal.
        self.digits().cmp(&other.digits()).then_with(|| {
            let exponent = self.exponent.min(other.exponent);
            let [a, b] = [self, other].map(|x| match x.significand {
                0 => 0,
                significand => significand << (x.exponent - exponent),
            });
            a.cmp(&b)
        })
    }
}

impl From<u64> for Whole {
    fn from(n: u64) -> Self {
        Self { significand: n.into(), exponent: 0 }
    }
}

/// Whether d × 1,073,741,824 is at most f × 1,073,741,825. Both must be finite, with the sign plus.
fn is_near(d: f64, f: f64) -> bool {
    let (Some(d), Some(f)) = (Whole::of(d), Whole::of(f)) else {
        return false;
    };
    d.times(TIMES_D.into()).compare(f.times(TIMES_F.into())).is_le()
}

/// A landing that is too far from the point before it.
#[derive(Debug, Clone, Copy, PartialEq)]
pub struct TooFar {
    /// The landing's path place and the nearer point's.
    pub place: usize,
    pub nearer: usize,
    pub d: f64,
    pub f: f64,
}

impl fmt::Display for TooFar {
    fn fmt(&self, formatter: &mut fmt::Formatter<'_>) -> fmt::Result {
        let Self { place, nearer, d, f } = self;
        write!(
            formatter,
            "at path point {place} it does not hold that d × 1,073,741,824 is at most \
             f × 1,073,741,825: the jump or touch has d = {d:?}, and path point {nearer} has \
             f = {f:?}"
        )
    }
}

/// A landing with an earlier path point that is nearer than the one before it.
#[derive(Debug, Clone, Copy, PartialEq)]
pub struct PassedOver {
    pub d: f64,
    /// The least of those compared.
    pub f: f64,
    /// The point before the landing, the nearer one and the landing.
    pub points: [[f64; 2]; 3],
}

impl PassedOver {
    /// By d / f, exactly. Of equal ones either is greater, but always the same.
    fn compare(&self, other: &Self) -> Ordering {
        let product = |d, f| match (Whole::of(d), Whole::of(f)) {
            (Some(d), Some(f)) => d.times(f),
            _ => unreachable!("they were compared"),
        };
        let by_bits = |x: &Self| (x.d.to_bits(), x.points.map(|point| point.map(f64::to_bits)));
        product(self.d, other.f)
            .compare(product(other.d, self.f))
            .then_with(|| by_bits(self).cmp(&by_bits(other)))
    }
}

impl fmt::Display for PassedOver {
    fn fmt(&self, formatter: &mut fmt::Formatter<'_>) -> fmt::Result {
        let Self { d, f, points: [before, nearer, landing] } = self;
        // The difference is exact.
        let excess = (d - f) / f;
        let part = 1.0 / (excess * TIMES_D as f64);
        write!(
            formatter,
            "{d:?} / {f:?}, 1 + {excess:.3e}: 1 part in {part:.0} of what 1 + 2^-30 allows; from \
             {before:?} to {landing:?}, where {nearer:?} is nearer"
        )
    }
}

/// What was looked at of a path.
#[derive(Debug, Clone, Default, PartialEq)]
pub struct Looked {
    pub landings: u64,
    /// Pairs of a landing and an earlier point.
    pub compared: u64,
    pub passed_over: Vec<PassedOver>,
    /// Whether some pairs were not compared, for their number.
    pub thinned: bool,
}

/// Looks at all landings of a path, or of the beginning of one.
pub fn check(path: &[[f64; 2]], marks: &[[u32; 2]]) -> Result<Looked, TooFar> {
    check_most(path, marks, MOST)
}

fn check_most(path: &[[f64; 2]], marks: &[[u32; 2]], most: usize) -> Result<Looked, TooFar> {
    assert_eq!(path.len(), marks.len());
    let is_landing = |place: usize| place > 0 && LANDINGS.contains(&marks[place][0]);
    let (mut points, mut pairs) = (0, 0);
    for place in 0..path.len() {
        pairs += if is_landing(place) { points } else { 0 };
        points += usize::from(!is_repeated(path, marks, place));
    }
    let step = pairs.div_ceil(most).max(1);

    let mut looked = Looked { thinned: step > 1, ..Looked::default() };
    let mut earlier = Vec::with_capacity(points);
    for place in 0..path.len() {
        if is_landing(place) {
            let first = looked.landings as usize % step;
            looked.land(path, place, earlier[first..].iter().step_by(step))?;
        }
        if !is_repeated(path, marks, place) {
            earlier.push(place);
        }
    }
    Ok(looked)
}

/// Whether a path point is a back-step with the bits of the earlier path point that it names.
fn is_repeated(path: &[[f64; 2]], marks: &[[u32; 2]], place: usize) -> bool {
    let [kind, reference] = marks[place];
    let bits = |place: usize| path[place].map(f64::to_bits);
    kind == BACK_STEP && (reference as usize) < place && bits(reference as usize) == bits(place)
}

impl Looked {
    /// A landing, and the earlier path places that are compared.
    fn land<'a>(
        &mut self,
        path: &[[f64; 2]],
        place: usize,
        earlier: impl Iterator<Item = &'a usize>,
    ) -> Result<(), TooFar> {
        let [before, landing] = [path[place - 1], path[place]];
        let d = squared(before, landing);
        let mut least: Option<PassedOver> = None;
        for &nearer in earlier {
            let f = squared(path[nearer], landing);
            self.compared += 1;
            if !is_near(d, f) {
                return Err(TooFar { place, nearer, d, f });
            }
            if f < least.map_or(d, |least| least.f) {
                least = Some(PassedOver { d, f, points: [before, path[nearer], landing] });
            }
        }
        self.landings += 1;
        self.passed_over.extend(least);
        Ok(())
    }
}

/// What was looked at of all paths, and the greatest d / f.
#[derive(Debug, Default)]
pub struct HowNear {
    paths: AtomicU64,
    thinned: AtomicU64,
    landings: AtomicU64,
    compared: AtomicU64,
    passed_over: AtomicU64,
    greatest: Mutex<Option<PassedOver>>,
}

impl HowNear {
    pub fn path(&self, path: &[[f64; 2]], marks: &[[u32; 2]]) -> Result<(), TooFar> {
        let Looked { landings, compared, passed_over, thinned } = check(path, marks)?;
        self.paths.fetch_add(1, Relaxed);
        self.thinned.fetch_add(thinned.into(), Relaxed);
        self.landings.fetch_add(landings, Relaxed);
        self.compared.fetch_add(compared, Relaxed);
        self.passed_over.fetch_add(passed_over.len() as u64, Relaxed);
        if let Some(other) = passed_over.into_iter().max_by(PassedOver::compare) {
            let mut greatest = self.greatest.lock().expect("no thread panics while it compares");
            if greatest.is_none_or(|greatest| greatest.compare(&other).is_lt()) {
                *greatest = Some(other);
            }
        }
        Ok(())
    }

    /// The numbers of landings, of earlier points compared, and of landings with a nearer point
    /// passed over.
    pub fn numbers(&self) -> [u64; 3] {
        [&self.landings, &self.compared, &self.passed_over].map(|n| n.load(Relaxed))
    }

    /// Prints what was looked at, and says whether a run of that many plates met what it should.
    pub fn print(&self, plates: u64) -> bool {
        let [paths, thinned] = [&self.paths, &self.thinned].map(|n| n.load(Relaxed));
        let [landings, compared, passed_over] = self.numbers();
        println!(
            "how near, in {paths} paths as calls wrote them: {landings} landings, {compared} \
             earlier points compared (of {thinned} long paths not all), {passed_over} landings with a \
             nearer point passed over"
        );
        match *self.greatest.lock().expect("no thread panics while it compares") {
            Some(greatest) => println!("greatest d / f: {greatest}"),
            None => println!("greatest d / f: 1"),
        }
        is_met(plates, ENOUGH, self.numbers().into_iter())
    }
}

#[cfg(test)]
mod tests {
    use std::cmp::Ordering;

    use super::{ENOUGH, HowNear, Looked, PassedOver, TooFar, Whole, check, check_most, is_near};
    use crate::floats::{power, scaled};

    const LEAST: f64 = f64::from_bits(1);

    #[test]
    fn the_limit_is_the_last_that_passes() {
        // (2^30 + 1) / 2^30 exactly, then a step to either side of it.
        let limit = 1.0 + power(-30);
        for exponent in [-1044, -1022, -1000, -30, -1, 0, 1, 52, 900, 1_022] {
            let [d, f] = [limit, 1.0].map(|x| scaled(x, exponent));
            assert!(d > f && is_near(d, f), "2^{exponent}");
            assert!(is_near(d.next_down(), f) && !is_near(d.next_up(), f), "2^{exponent}");
            assert!(is_near(d, f.next_up()) && !is_near(d, f.next_down()), "2^{exponent}");
        }
    }

    #[test]
    fn the_limit_between_two_floats_is_not_rounded() {
        // f × 2^-30 is 2^-30 and a little more than half a step: the product would round up.
        let f = 1.0 + power(-23) + power(-52);
        let d = f + power(-30);
        assert_eq!(f * (1.0 + power(-30)), d.next_up());
        assert!(is_near(d, f) && !is_near(d.next_up(), f));
        // A little less than half a step.
        let f = 1.0 + power(-23) - power(-52);
        let d = f + power(-30);
        assert!(is_near(d, f) && !is_near(d.next_up(), f));
    }

    #[test]
    fn subnormals_are_whole_numbers_of_the_least() {
        let times = |n: u64| f64::from_bits(n);
        assert!(is_near(LEAST, LEAST) && !is_near(times(2), LEAST));
        let n = (1 << 30) - 1;
        assert!(!is_near(times(n + 1), times(n)));
        assert!(is_near(times(n + 2), times(n + 1)) && !is_near(times(n + 3), times(n + 1)));
        assert!(is_near(times((1 << 31) + 2), times(1 << 31)));
        assert!(!is_near(times((1 << 31) + 3), times(1 << 31)));
        assert!(is_near(f64::MIN_POSITIVE, f64::MIN_POSITIVE.next_down()));
    }

    #[test]
    fn zero_and_numbers_far_apart() {
        assert!(is_near(0.0, 0.0) && is_near(0.0, LEAST) && is_near(0.0, f64::MAX));
        assert!(!is_near(LEAST, 0.0) && !is_near(f64::MAX, 0.0));
        assert!(is_near(LEAST, f64::MAX) && !is_near(f64::MAX, LEAST));
        assert!(is_near(f64::MAX, f64::MAX) && is_near(8e12, 8e12));
        assert!(is_near(1.0, 2.0) && !is_near(2.0, 1.0));
        assert!(is_near(1.0, power(400)) && !is_near(power(400), 1.0));
    }

    #[test]
    fn what_is_not_finite_or_has_the_sign_minus_does_not_pass() {
        for other in [f64::INFINITY, f64::NAN, -f64::NAN, -1.0, -LEAST, -0.0, f64::NEG_INFINITY] {
            for x in [0.0, LEAST, 1.0, f64::MAX, other] {
                assert!(!is_near(x, other) && !is_near(other, x), "{x:?} and {other:?}");
            }
        }
    }

    #[test]
    fn whole_numbers_compare_as_floats_do() {
        let floats = [0.0, LEAST, 3.0 * LEAST, f64::MIN_POSITIVE, 0.1, 1.0, 1.5, 2.0, 1e300];
        for a in floats {
            for b in floats {
                let [x, y] = [a, b].map(|x| Whole::of(x).unwrap());
                assert_eq!(Some(x.compare(y)), a.partial_cmp(&b), "{a:?} and {b:?}");
            }
        }
    }

    const CUT: u32 = 1;
    const JUMP: u32 = 3;
    const TOUCH: u32 = 4;

    /// A path along x, whose points have these kinds; back-steps name an earlier point that is
    /// equal.
    fn along(points: &[(f64, u32)]) -> (Vec<[f64; 2]>, Vec<[u32; 2]>) {
        let marks = points.iter().map(|&(x, kind)| match kind {
            super::BACK_STEP => {
                let named = points.iter().position(|&(other, _)| other == x);
                [kind, named.unwrap() as u32]
            }
            _ => [kind, 0],
        });
        (points.iter().map(|&(x, _)| [x, 0.0]).collect(), marks.collect())
    }

    fn checked(points: &[(f64, u32)]) -> Result<Looked, TooFar> {
        let (path, marks) = along(points);
        check(&path, &marks)
    }

    fn looked(landings: u64, compared: u64) -> Looked {
        Looked { landings, compared, ..Looked::default() }
    }

    #[test]
    fn plates_e_and_g_pass() {
        let [a, b, c, d] = [[0.0, 0.0], [4.0, 0.0], [8.0, 0.0], [0.0, 1.0]];
        let marks = [[0, 0], [1, 0], [1, 1], [2, 1], [2, 0], [3, 3]];
        assert_eq!(check(&[a, b, c, b, a, d], &marks), Ok(looked(1, 3)));
        let [a, b, c] = [[0.0, 0.0], [1.0, 0.0], [0.0, 1.0]];
        let marks = [[0, 0], [3, 1], [2, 0], [3, 2]];
        assert_eq!(check(&[a, b, a, c], &marks), Ok(looked(2, 3)));
        assert_eq!(check(&[], &[]), Ok(looked(0, 0)));
        assert_eq!(check(&[a], &[[0, 0]]), Ok(looked(0, 0)));
    }

    /// Just above the root of 1 + 2^-30, and just below.
    fn around_the_limit() -> [f64; 2] {
        let root = (1.0 + power(-30)).sqrt();
        let far = if is_near(root * root, 1.0) { root.next_up() } else { root };
        assert!(!is_near(far * far, 1.0));
        let near = far.next_down();
        assert!(is_near(near * near, 1.0) && near * near > 1.0);
        [far, near]
    }

    #[test]
    fn a_landing_from_a_farther_point_passes_up_to_the_limit() {
        let [far, near] = around_the_limit();
        for kind in [JUMP, TOUCH] {
            let path = |x: f64| [(1.0, 0), (-x, CUT), (0.0, kind)];
            let d = far * far;
            assert_eq!(checked(&path(far)), Err(TooFar { place: 2, nearer: 0, d, f: 1.0 }));
            let points = [[-near, 0.0], [1.0, 0.0], [0.0, 0.0]];
            let passed_over = vec![PassedOver { d: near * near, f: 1.0, points }];
            assert_eq!(checked(&path(near)), Ok(Looked { passed_over, ..looked(1, 2) }));
            assert_eq!(checked(&path(1.0)), Ok(looked(1, 2)));
        }
    }

    #[test]
    fn every_place_before_the_landing_is_asked() {
        let path = |nearer: usize| {
            let mut points = vec![(9.0, 0); 1];
            points.extend([(9.0, CUT); 5]);
            points[nearer].0 = 2.0;
            points.extend([(0.0, JUMP), (1.0, CUT)]);
            points
        };
        for nearer in 0..5 {
            let too_far = TooFar { place: 6, nearer, d: 81.0, f: 4.0 };
            assert_eq!(checked(&path(nearer)), Err(too_far));
        }
        assert_eq!(checked(&path(5)), Ok(looked(1, 6)));
        // A later landing too, and what came after an earlier one.
        let points = [(-9.0, 0), (-8.0, JUMP), (5.0, CUT), (9.0, CUT), (4.0, TOUCH)];
        assert_eq!(checked(&points), Err(TooFar { place: 4, nearer: 2, d: 25.0, f: 1.0 }));
    }

    #[test]
    fn cuts_back_steps_and_later_points_are_not_asked() {
        let points = [(0.0, 0), (1.0, CUT), (9.0, CUT), (1.5, CUT)];
        assert_eq!(checked(&points), Ok(looked(0, 0)));
        let back = [(0.0, 0), (1.0, CUT), (9.0, CUT), (0.0, super::BACK_STEP)];
        assert_eq!(checked(&back), Ok(looked(0, 0)));
        // By any kind that lands it would be too far.
        for kind in [JUMP, TOUCH] {
            let too_far = TooFar { place: 3, nearer: 0, d: 56.25, f: 2.25 };
            assert_eq!(checked(&[points[0], points[1], points[2], (1.5, kind)]), Err(too_far));
        }
        assert_eq!(checked(&[(0.0, 0), (4.0, JUMP), (3.0, CUT), (4.0, CUT)]), Ok(looked(1, 1)));
        // A start has no point before it, whatever its mark says.
        assert_eq!(checked(&[(0.0, JUMP), (1.0, CUT)]), Ok(looked(0, 0)));
    }

    #[test]
    fn a_back_step_is_looked_at_where_it_has_a_point_of_its_own() {
        let (path, marks) =
            along(&[(0.0, 0), (9.0, CUT), (0.0, super::BACK_STEP), (9.0, CUT), (1.0, JUMP)]);
        let too_far = |nearer, f| Err(TooFar { place: 4, nearer, d: 64.0, f });
        assert_eq!(check(&path, &marks), too_far(0, 1.0));
        // It names an earlier point that is another one, then itself and a later one.
        for reference in [1, 2, 4, u32::MAX] {
            let (mut path, mut marks) = (path.clone(), marks.clone());
            (path[0], path[2], marks[2][1]) = ([9.0, 0.0], [2.0, 0.0], reference);
            assert_eq!(check(&path, &marks), too_far(2, 1.0));
        }
    }

    #[test]
    fn distances_are_along_both_axes() {
        let path = [[0.0, 3.0], [4.0, 3.0], [0.0, 0.0]];
        let too_far = TooFar { place: 2, nearer: 0, d: 25.0, f: 9.0 };
        assert_eq!(check(&path, &[[0, 0], [1, 0], [3, 2]]), Err(too_far));
        let text = too_far.to_string();
        let parts = ["path point 2 ", "d = 25.0,", "path point 0 ", "f = 9.0"];
        assert!(parts.iter().all(|part| text.contains(part)), "{text}");
    }

    #[test]
    fn of_a_long_path_every_kth_earlier_point_is_compared() {
        // Twelve points, then landings in one place: 12 + 13 + 14 + 15 pairs.
        let mut points = vec![(0.0, 0)];
        points.extend([(0.0, CUT); 11]);
        points.extend([(0.0, TOUCH); 4]);
        let compared = |most| {
            let (path, marks) = along(&points);
            let looked = check_most(&path, &marks, most).unwrap();
            assert_eq!((looked.landings, looked.thinned), (4, most < 54));
            looked.compared
        };
        assert_eq!(compared(54), 54);
        // Every second from 0, 1, 0 and 1 on; every third from 0, 1, 2 and 0 on.
        assert_eq!(compared(53), 6 + 6 + 7 + 7);
        assert_eq!(compared(27), 6 + 6 + 7 + 7);
        assert_eq!(compared(26), 4 + 4 + 4 + 5);
        assert_eq!(compared(1), 4);
    }

    #[test]
    fn landings_in_turn_begin_with_another_point() {
        // Place 1 is nearer than what is left, and of every second point the second landing has it.
        let (path, marks) = along(&[(5.0, 0), (1.0, CUT), (5.0, CUT), (0.0, JUMP), (0.0, JUMP)]);
        assert_eq!(check_most(&path, &marks, 7).map_err(|e| e.place), Err(3));
        assert_eq!(check_most(&path, &marks, 4), Ok(Looked { thinned: true, ..looked(2, 4) }));
        let (path, marks) = along(&[(5.0, 0), (1.0, CUT), (5.0, CUT), (5.0, JUMP), (0.0, JUMP)]);
        let too_far = TooFar { place: 4, nearer: 1, d: 25.0, f: 1.0 };
        assert_eq!(check_most(&path, &marks, 4), Err(too_far));
    }

    fn passed_over(d: f64, f: f64) -> PassedOver {
        PassedOver { d, f, points: [[d, 0.0], [f, 0.0], [0.0, 0.0]] }
    }

    #[test]
    fn ratios_are_compared_exactly() {
        let e = f64::EPSILON;
        let rising = [
            passed_over(2.0, 2.0_f64.next_down()),
            passed_over(1.0 + e, 1.0),
            passed_over(1.0 + 2.0 * e, 1.0 + e / 2.0),
            passed_over(3.0 * LEAST, 2.0 * LEAST),
            passed_over(1e300, 1e-300),
        ];
        for (place, a) in rising.iter().enumerate() {
            for (other, b) in rising.iter().enumerate() {
                assert_eq!(a.compare(b), place.cmp(&other), "{a:?} and {b:?}");
            }
        }
        // As great: by d.
        assert_eq!(passed_over(6.0, 4.0).compare(&passed_over(3.0, 2.0)), Ordering::Greater);
    }

    #[test]
    fn paths_are_added_up_and_the_greatest_is_kept() {
        let near = HowNear::default();
        let [_, limit] = around_the_limit();
        let add = |x: f64| {
            let (path, marks) = along(&[(1.0, 0), (-x, CUT), (0.0, JUMP)]);
            near.path(&path, &marks)
        };
        let greatest = || near.greatest.lock().unwrap().map(|greatest| greatest.d);
        assert_eq!((add(1.0), greatest()), (Ok(()), None));
        assert!(near.print(ENOUGH - 1) && !near.print(ENOUGH));
        let small = 1.0_f64.next_up();
        assert_eq!((add(small), greatest()), (Ok(()), Some(small * small)));
        assert_eq!((add(limit), greatest()), (Ok(()), Some(limit * limit)));
        assert_eq!((add(small), greatest()), (Ok(()), Some(limit * limit)));
        assert!(add(2.0).is_err());
        assert_eq!(near.numbers(), [4, 8, 3]);
        assert!(near.print(ENOUGH));
        let text = passed_over(1.0 + power(-40), 1.0).to_string();
        assert!(text.contains("1 + 9.095e-13: 1 part in 1024 "), "{text}");
    }
}
