//! What a run meets of lengths, and plates whose pairs are whole numbers of 1,024ths, or nearly.

use harness::random::Random;
use twillharbor::Size;

use crate::checker::squared;
use crate::floats::{nudged, signed, with_exponent};
use crate::lengths::whole_step;
use crate::marked_paths::is_over_back_step;
use crate::mujou::distance;
use crate::plates::{LIMIT, Plate};
use crate::rule::Retrace;
use crate::rule::lengths::in_1024ths;
use crate::tally::{Cases, Listed, is_met};

/// What a run meets.
#[derive(Debug, Clone, Copy, PartialEq, Eq)]
pub enum Case {
    Nothing,
    NoNormalSquare,
    Whole,
    RootRoundedUp,
    JustBelow,
    JustAbove,
    HalfOrMore,
    Far,
    BackOverBack,
    Cuts,
    BackSteps,
    Jumps,
    Long,
}

impl Listed for Case {
    const LIST: &'static [(Self, &'static str)] = &[
        (Self::Nothing, "pairs of points that differ, of length 0"),
        (
            Self::NoNormalSquare,
            "pairs of points that differ, with a squared distance below 2^-1022",
        ),
        (Self::Whole, "pairs of a whole number of 1,024ths"),
        (Self::RootRoundedUp, "pairs that are rounded up to one with their distance's root"),
        (Self::JustBelow, "pairs one step of their distance below one"),
        (Self::JustAbove, "pairs one step of their distance above one"),
        (Self::HalfOrMore, "pairs that lose half a 1,024th or more"),
        (Self::Far, "pairs of 2^31 1,024ths or more"),
        (Self::BackOverBack, "back-steps over back-steps"),
        (Self::Cuts, "paths with cuts of 2^32 1,024ths or more"),
        (Self::BackSteps, "paths with back-steps of 2^32 1,024ths or more"),
        (Self::Jumps, "paths with jumps of 2^32 1,024ths or more"),
        (Self::Long, "paths of 65,536 points or more"),
    ];
}

/// A run of as many plates meets every case.
const ENOUGH: u64 = 5_000;

const LONG: usize = 65_536;

/// How often each case was met.
#[derive(Debug, Default)]
pub struct Quoted(Cases<Case>);

impl Quoted {
    /// The path of a plate, if it is whole.
    pub fn path(&self, due: &Retrace) {
        let Retrace { path, marks, whole: true, lengths, .. } = due else {
            return;
        };
        path.windows(2).for_each(|ends| self.pair(ends[0], ends[1]));
        for &mark in marks {
            self.0.count_if(is_over_back_step(mark, marks), Case::BackOverBack);
        }
        let beyond = lengths.map(|sum| sum > u32::MAX.into());
        for (beyond, case) in beyond.into_iter().zip([Case::Cuts, Case::BackSteps, Case::Jumps]) {
            self.0.count_if(beyond, case);
        }
        self.0.count_if(path.len() >= LONG, Case::Long);
    }

    fn pair(&self, a: [f64; 2], b: [f64; 2]) {
        if a == b {
            return;
        }
        let (apart, squared) = (distance(a, b), squared(a, b));
        let length = in_1024ths(apart);
        let is_whole = |d: f64| d > 0.0 && (d * 1_024.0).fract() == 0.0;
        self.0.count_if(length == 0, Case::Nothing);
        self.0.count_if(squared < f64::MIN_POSITIVE, Case::NoNormalSquare);
        self.0.count_if(is_whole(apart), Case::Whole);
        // The sign of a product and a difference that are rounded once is exact.
        let rounded_up = apart.mul_add(apart, -squared) > 0.0;
        self.0.count_if(is_whole(apart) && rounded_up, Case::RootRoundedUp);
        self.0.count_if(is_whole(apart.next_up()), Case::JustBelow);
        self.0.count_if(is_whole(apart.next_down()), Case::JustAbove);
        self.0.count_if((apart * 1_024.0).fract() >= 0.5, Case::HalfOrMore);
        self.0.count_if(length >= 1 << 31, Case::Far);
    }

    /// Prints how often each case was met, and says whether a run of that many plates met every one.
    pub fn print(&self, plates: u64) -> bool {
        println!("of the lengths of paths, in 1,024ths:");
        self.0.print();
        is_met(plates, ENOUGH, self.0.numbers())
    }
}

/// Up to 9 contours of up to 7 points, each a step from the one before, or for a contour's first
/// from any. Steps go from places that are whole numbers of 1,024ths. Or single points, most of them
/// in corners.
pub fn plate(random: &mut Random) -> Plate {
    let digits = random.pick(&[2, 8, 16, 27]);
    let is_far = random.one_in(4);
    let mut places = vec![[0.0; 2]];
    let (mut points, mut lengths) = (Vec::new(), Vec::new());
    for _ in 0..random.between(1, 9) {
        let length = if is_far { 1 } else { random.below(8) as u32 };
        let mut place = random.pick(&places);
        for _ in 0..length {
            place = if random.one_in(if is_far { 2 } else { 24 }) {
                [(); 2].map(|()| signed(random, LIMIT))
            } else {
                next(place, digits, random)
            };
            places.push(place);
            points.extend(beside(place, random));
        }
        lengths.push(length);
    }
    let (width, height) = random.pick(&[(0, 0), (2, 2), (1_000, 1), (2_000_000, 2_000_000)]);
    Plate::new(points, lengths, Size { width, height })
}

/// The place after one: a whole number of 1,024ths away, within the limit, or the same.
fn next(place: [f64; 2], digits: i64, random: &mut Random) -> [f64; 2] {
    if random.one_in(12) {
        return place;
    }
    let [dx, dy] = whole_step(random.one_in(2), digits, random);
    let step = if random.one_in(2) { [dx, dy] } else { [dy, dx] };
    // Without the steps of a float.
    let part = |c: f64| (c * 1_024.0).round() / 1_024.0;
    [0, 1].map(|axis| part(place[axis] + step[axis]).clamp(-LIMIT, LIMIT))
}

/// A point at a place, or a step or two of a float beside it, or less.
fn beside(place: [f64; 2], random: &mut Random) -> [f64; 2] {
    place.map(|c| match random.below(4) {
        0 | 1 => c,
        2 if c == 0.0 => {
            let e = random.between(-1_074, -30);
            let least = with_exponent(random, e);
            random.pick(&[-0.0, least, -least])
        }
        _ => nudged(c, random.between(-2, 2)).clamp(-LIMIT, LIMIT),
    })
}

#[cfg(test)]
mod tests {
    use twillharbor::StartPointStrategy::Inside;

    use super::{Case, ENOUGH, Quoted};
    use crate::plates::Plate;
    use crate::reference::retrace;
    use crate::tally::Listed;

    /// What is met of a plate.
    fn met(contours: &[&[[f64; 2]]]) -> Vec<Case> {
        let plate = Plate::of_contours(contours, [0; 2]);
        let quoted = Quoted::default();
        quoted.path(&retrace(&plate, Inside, usize::MAX).unwrap().unwrap());
        quoted.0.met()
    }

    #[test]
    fn pairs_are_told_apart() {
        let one = |x, y| met(&[&[[0.0, 0.0], [x, y]]]);
        assert_eq!(one(-0.0, 0.0), []);
        assert_eq!(one(3.0, 4.0), [Case::Whole]);
        // The square is rounded below that of 1.25, the root up to it.
        assert_eq!(one(0.75_f64.next_down(), 1.0), [Case::Whole, Case::RootRoundedUp]);
        assert_eq!(one(0.0, 5.0_f64.next_up()), [Case::JustAbove]);
        assert_eq!(one(0.0, 5.0_f64.next_down()), [Case::JustBelow, Case::HalfOrMore]);
        assert_eq!(one(0.0, 0.1), []);
        assert_eq!(one(0.0, 0.2), [Case::HalfOrMore]);
        assert_eq!(one(1e-4, 0.0), [Case::Nothing]);
        assert_eq!(one(9e-4, 0.0), [Case::Nothing, Case::HalfOrMore]);
        assert_eq!(one(1e-200, 1e-200), [Case::Nothing, Case::NoNormalSquare]);
        assert_eq!(one(5e-324, 0.0), [Case::Nothing, Case::NoNormalSquare]);
    }

    #[test]
    fn sums_beyond_32_bits_and_steps_back_over_steps_back_are_told() {
        let corner = |x, y| [x * 1e6, y * 1e6];
        let line = [corner(-1.0, -1.0), corner(1.0, 1.0), corner(-1.0, 1.0)];
        let far = met(&[&line]);
        assert!(far.contains(&Case::Far) && far.contains(&Case::Cuts), "{far:?}");
        assert!(!far.contains(&Case::BackSteps) && !far.contains(&Case::Jumps));
        let back = met(&[&line, &line[..1]]);
        assert!(back.contains(&Case::BackSteps) && !back.contains(&Case::Jumps), "{back:?}");
        let jumps = met(&[&line[..1], &line[1..2], &line[2..], &[corner(1.0, -1.0)]]);
        assert!(jumps.contains(&Case::Jumps) && !jumps.contains(&Case::Cuts), "{jumps:?}");
        let stacked: Vec<[[f64; 2]; 1]> =
            [[0.0, 0.0], [1.0, 0.0], [0.0, 1.0], [1.0, 1.5], [-1.0, 0.0], [2.0, 0.0]]
                .map(|point| [point])
                .to_vec();
        let stacked: Vec<&[[f64; 2]]> = stacked.iter().map(|point| &point[..]).collect();
        assert!(met(&stacked).contains(&Case::BackOverBack));
    }

    #[test]
    fn a_long_run_that_lacks_a_case_fails() {
        let quoted = Quoted::default();
        assert!(quoted.print(ENOUGH - 1));
        assert!(!quoted.print(ENOUGH));
        Case::LIST.iter().for_each(|&(case, _)| quoted.0.count(case));
        assert!(quoted.print(ENOUGH));
    }
}
