//! Parked points for plates, and a count of what a run meets of them.

use harness::random::Random;
use twillharbor::Point;
use twillharbor::StartPointStrategy::{self, Home};

use crate::floats::{nudged, signed, with_exponent};
use crate::plates::{self, LIMIT, Plate};
use crate::rule::{self, BAD_LAYER, Refused};
use crate::tally::{Cases, Listed, is_met};

/// Where the carriage is parked.
#[derive(Debug, Clone, Copy)]
enum Parking {
    OnAnEnd,
    BesideAnEnd,
    BetweenEnds,
    AtTheCentre,
    Within,
    Halves,
    Zeros,
    Subnormal,
    AtTheLimit,
    Far,
    Anywhere,
}

const PARKINGS: [Parking; 11] = [
    Parking::OnAnEnd,
    Parking::BesideAnEnd,
    Parking::BetweenEnds,
    Parking::AtTheCentre,
    Parking::Within,
    Parking::Halves,
    Parking::Zeros,
    Parking::Subnormal,
    Parking::AtTheLimit,
    Parking::Far,
    Parking::Anywhere,
];

/// The random numbers that parked points are made from: another stream of a plate's seed than that
/// of its points, which are what they were without parked points.
pub fn seeded(seed: u64) -> Random {
    const STREAM: u64 = 1;
    Random::stream(seed, STREAM)
}

/// A parked point for a sound plate. Its two coordinates are mostly of one sort.
pub fn on_the_plate(plate: &Plate, random: &mut Random) -> Point {
    let ends = rule::end_points(plate);
    let mut parked = || {
        let parking = random.pick(&PARKINGS);
        parked(parking, plate, &ends, random).map(|c| c.clamp(-LIMIT, LIMIT))
    };
    let ([x, y], [_, other]) = (parked(), parked());
    let point = Point { x, y: if random.one_in(5) { other } else { y } };
    assert_eq!(rule::parked(point), Ok(()));
    point
}

/// The same point with either coordinate, or both, off the plate.
pub fn off_the_plate(Point { x, y }: Point, random: &mut Random) -> Point {
    let [off_x, off_y] = [(); 2].map(|()| plates::off_the_plate(random));
    match random.below(3) {
        0 => Point { x: off_x, y },
        1 => Point { x, y: off_y },
        _ => Point { x: off_x, y: off_y },
    }
}

fn parked(parking: Parking, plate: &Plate, ends: &[[f64; 2]], random: &mut Random) -> [f64; 2] {
    match parking {
        Parking::OnAnEnd if !ends.is_empty() => random.pick(ends),
        Parking::BesideAnEnd if !ends.is_empty() => {
            random.pick(ends).map(|c| nudged(c, random.between(-2, 2)))
        }
        Parking::BetweenEnds if !ends.is_empty() => between_ends(plate, ends, random),
        Parking::Within if !ends.is_empty() => {
            let [a, b] = [(); 2].map(|()| random.pick(ends));
            [0, 1].map(|axis| a[axis] + random.unit() * (b[axis] - a[axis]))
        }
        Parking::AtTheCentre => {
            let Point { x, y } = rule::centre(plate.size);
            [x, y]
        }
        Parking::Halves => [(); 2].map(|()| random.between(-40, 40) as f64 / 2.0),
        Parking::Zeros => [(); 2].map(|()| random.pick(&[0.0, -0.0])),
        Parking::Subnormal => [(); 2].map(|()| {
            let x = match random.below(3) {
                0 => nudged(0.0, random.between(1, 3)),
                1 => nudged(f64::MIN_POSITIVE, -random.between(1, 3)),
                _ => {
                    let e = random.between(-1074, -1023);
                    with_exponent(random, e)
                }
            };
            signed(random, x)
        }),
        Parking::AtTheLimit => [(); 2].map(|()| {
            let x = random.pick(&[LIMIT, LIMIT, LIMIT, nudged(LIMIT, -1), 0.0]);
            signed(random, x)
        }),
        Parking::Far => [(); 2].map(|()| {
            let x = LIMIT * (0.5 + random.unit() / 2.0);
            signed(random, x)
        }),
        _ => [(); 2].map(|()| {
            let e = random.between(-30, 19);
            let x = with_exponent(random, e);
            signed(random, x)
        }),
    }
}

/// A point as far from one end as from another, but for the rounding: midway between them, or aside
/// from there. Of a few such points the first at which no end is nearer, or else the last.
fn between_ends(plate: &Plate, ends: &[[f64; 2]], random: &mut Random) -> [f64; 2] {
    let mut point = [0.0; 2];
    for _ in 0..6 {
        let [a, b] = [(); 2].map(|()| random.pick(ends));
        let aside = random.pick(&[0.0, 0.0, 0.5, -1.0]);
        point = [
            (a[0] + b[0]) / 2.0 + aside * (a[1] - b[1]),
            (a[1] + b[1]) / 2.0 - aside * (a[0] - b[0]),
        ];
        let [x, y] = point.map(|c| c.clamp(-LIMIT, LIMIT));
        let leaders = rule::leaders(plate, Home(Point { x, y }));
        if leaders.iter().any(|&(_, end)| end != leaders[0].1) {
            break;
        }
    }
    point
}

/// What a run meets of parked points.
#[derive(Debug, Clone, Copy, PartialEq, Eq)]
pub enum Case {
    Joined,
    Tied,
    TiedContours,
    TiedEnds,
    OnAnEnd,
    LastLeads,
    NearerWaits,
    AsNearWaits,
    Limit,
    NegativeZero,
    Subnormal,
    NoCentre,
    Far,
    AsInside,
    Blank,
    CoordinateOff,
    Refused,
    XAlone,
    YAlone,
    Both,
    Nan,
    Infinite,
    NegativeInfinite,
    NextAbove,
    NextBelow,
    After1,
    After2,
    After3,
    After13,
    Before4,
    Before5,
    Before6,
    Before7,
}

impl Listed for Case {
    const LIST: &'static [(Self, &'static str)] = &[
        (Self::Joined, "plates with Home that are not refused"),
        (Self::Tied, "of these, several ends as near: the first leads"),
        (Self::TiedContours, "ends of several contours as near, at points that differ"),
        (Self::TiedEnds, "both ends of a contour as near, at points that differ"),
        (Self::OnAnEnd, "parked on an end"),
        (Self::LastLeads, "a last point leads"),
        (Self::NearerWaits, "a nearer end of a higher layer does not start"),
        (Self::AsNearWaits, "an end of a higher layer as near as the start"),
        (Self::Limit, "a coordinate of magnitude 1,000,000"),
        (Self::NegativeZero, "a coordinate -0"),
        (Self::Subnormal, "a subnormal coordinate"),
        (Self::NoCentre, "a point that is the centre of no plate"),
        (Self::Far, "farther than 100,000 from every end"),
        (Self::AsInside, "at the centre, compared with Inside"),
        (Self::Blank, "no contour holds a point"),
        (Self::CoordinateOff, "4 of a coordinate, the parked point being on the plate"),
        (Self::Refused, "plates with Home refused for the parked point"),
        (Self::XAlone, "4 of the parked point: x alone"),
        (Self::YAlone, "4 of the parked point: y alone"),
        (Self::Both, "4 of the parked point: both, so x"),
        (Self::Nan, "4 of the parked point: NaN"),
        (Self::Infinite, "4 of the parked point: infinity"),
        (Self::NegativeInfinite, "4 of the parked point: -infinity"),
        (Self::NextAbove, "4 of the parked point: the float above 1,000,000"),
        (Self::NextBelow, "4 of the parked point: the float below -1,000,000"),
        (Self::After1, "1 before the parked point"),
        (Self::After2, "2 before the parked point"),
        (Self::After3, "3 before the parked point"),
        (Self::After13, "13 before the parked point"),
        (Self::Before4, "the parked point before 4 of a coordinate"),
        (Self::Before5, "the parked point before 5"),
        (Self::Before6, "the parked point before 6"),
        (Self::Before7, "the parked point before 7"),
    ];
}

/// A run of as many plates meets every case.
const ENOUGH: u64 = 10_000;

/// How often each case was met.
#[derive(Debug, Default)]
pub struct Met(Cases<Case>);

impl Met {
    /// A plate, if its strategy is Home, and why it is refused.
    pub fn plate(&self, plate: &Plate, strategy: StartPointStrategy, due: Result<(), Refused>) {
        match (strategy, due) {
            (Home(point), Ok(())) => self.joined(plate, point),
            (Home(point), Err(refused)) => self.refused(plate, point, refused),
            _ => {}
        }
    }

    /// A plate parked at its centre, and what is due of it: with Inside the same, unless the centre
    /// is off the plate.
    pub fn as_inside<Due>(&self, due: &Result<Due, Refused>) {
        self.0.count_if(due.is_ok(), Case::AsInside);
    }

    /// A call for which this number is due is lent a work slice, which should have a number for
    /// each contour, and a slice for the path or the order: of these lengths.
    pub fn lent(
        &self,
        plate: &Plate,
        strategy: StartPointStrategy,
        number: u32,
        work: usize,
        slice: usize,
    ) {
        if let Home(point) = strategy
            && rule::parked(point).is_err()
            && number == 4
        {
            self.0.count_if(work < plate.lengths.len(), Case::Before5);
            self.0.count_if(slice == 0 && !plate.points.is_empty(), Case::Before6);
        }
    }

    fn joined(&self, plate: &Plate, point: Point) {
        let Point { x, y } = point;
        let any = |holds: fn(f64) -> bool| holds(x) || holds(y);
        self.0.count(Case::Joined);
        self.0.count_if(any(|c| c.abs() == LIMIT), Case::Limit);
        self.0.count_if(any(|c| c == 0.0 && c.is_sign_negative()), Case::NegativeZero);
        self.0.count_if(any(f64::is_subnormal), Case::Subnormal);
        self.0.count_if(any(|c| c < 0.0 || (2.0 * c).fract() != 0.0), Case::NoCentre);
        self.starts(plate, point);
        let held = rule::held_at_start(plate, Home(point));
        self.0.count_if(held.nearer, Case::NearerWaits);
        self.0.count_if(held.as_near, Case::AsNearWaits);
    }

    fn starts(&self, plate: &Plate, point: Point) {
        let leaders = rule::leaders(plate, Home(point));
        let Some(&([contour, last], [x, y])) = leaders.first() else {
            return self.0.count(Case::Blank);
        };
        // A single point is both ends of its contour.
        let others = || leaders.iter().filter(|&&(_, end)| end != [x, y]);
        let of_others = leaders.iter().any(|&([number, _], _)| number != contour);
        self.0.count_if(of_others || others().count() > 0, Case::Tied);
        self.0.count_if(others().any(|&([number, _], _)| number != contour), Case::TiedContours);
        self.0.count_if(others().any(|&([number, _], _)| number == contour), Case::TiedEnds);
        self.0.count_if([x, y] == [point.x, point.y], Case::OnAnEnd);
        self.0.count_if(last == 1, Case::LastLeads);
        self.0.count_if((x - point.x).hypot(y - point.y) > 100_000.0, Case::Far);
    }

    fn refused(&self, plate: &Plate, point: Point, (number, place): Refused) {
        let Point { x, y } = point;
        if rule::parked(point).is_ok() {
            return self.0.count_if(number == 4, Case::CoordinateOff);
        }
        self.0.count_if(number == 1, Case::After1);
        self.0.count_if(number == 2, Case::After2);
        self.0.count_if(number == 3, Case::After3);
        self.0.count_if(number == BAD_LAYER, Case::After13);
        if number != 4 {
            return;
        }
        let off = |c: f64| rule::on_plate(&[c]).is_err();
        let first = if place == 0 { x } else { y };
        self.0.count(Case::Refused);
        self.0.count_if(off(x) && !off(y), Case::XAlone);
        self.0.count_if(off(y) && !off(x), Case::YAlone);
        self.0.count_if(off(x) && off(y), Case::Both);
        self.0.count_if(first.is_nan(), Case::Nan);
        self.0.count_if(first == f64::INFINITY, Case::Infinite);
        self.0.count_if(first == f64::NEG_INFINITY, Case::NegativeInfinite);
        self.0.count_if(first == LIMIT.next_up(), Case::NextAbove);
        self.0.count_if(first == -LIMIT.next_up(), Case::NextBelow);
        self.0.count_if(rule::on_plate(&plate.points).is_err(), Case::Before4);
        self.0.count_if(plate.points.is_empty(), Case::Before7);
    }

    /// Prints how often each case was met, and says whether a run of that many plates met every
    /// one.
    pub fn print(&self, plates: u64) -> bool {
        println!("met of parked points:");
        self.0.print();
        is_met(plates, ENOUGH, self.0.numbers())
    }
}

#[cfg(test)]
mod tests {
    use harness::random::Random;
    use twillharbor::StartPointStrategy::{Home, Inside};
    use twillharbor::{Point, Size};

    use super::{Case, Met, PARKINGS, off_the_plate, on_the_plate, parked};
    use crate::plates::{KINDS, LIMIT, Plate, small_plate};
    use crate::rule::{self, checked};
    use crate::tally::Listed;

    #[test]
    fn parked_points_are_on_the_plate_or_off_it() {
        let mut random = Random::new(1);
        for turn in 0..5_000 {
            let plate = small_plate(KINDS[turn % KINDS.len()].0, &mut random);
            let point = on_the_plate(&plate, &mut random);
            assert_eq!(checked(&plate, Home(point)), Ok(()));
            let off = off_the_plate(point, &mut random);
            let refused = checked(&plate, Home(off));
            assert!(matches!(refused, Err((4, 0 | 1))), "{off:?}: {refused:?}");
        }
    }

    #[test]
    fn every_parking_is_its_own() {
        let mut random = Random::new(2);
        let plate = Plate::new(vec![1.0, 2.0, 5.0, 2.0], vec![2], Size { width: 7, height: 9 });
        let ends = rule::end_points(&plate);
        let mut points = PARKINGS.map(|parking| parked(parking, &plate, &ends, &mut random));
        assert!(ends.contains(&points[0]));
        assert_eq!(points[3], [3.5, 4.5]);
        // Only midway between the two ends, and aside, are both as near.
        let [x, y] = points[2];
        assert_eq!((x, rule::leaders(&plate, Home(Point { x, y })).len()), (3.0, 2));
        points.sort_by(|a, b| a.partial_cmp(b).expect("none is NaN"));
        assert!(points.windows(2).all(|pair| pair[0] != pair[1]), "{points:?}");
    }

    fn met(lengths: &[u32], layers: &[u32], [x, y]: [f64; 2]) -> Vec<Case> {
        let points: Vec<f64> = (0..2 * lengths.iter().sum::<u32>()).map(f64::from).collect();
        let plate = Plate::new(points, lengths.to_vec(), Size::default()).with_layers(layers);
        let (met, home) = (Met::default(), Home(Point { x, y }));
        met.plate(&plate, home, checked(&plate, home));
        met.0.met()
    }

    #[test]
    fn what_is_met_is_counted() {
        use Case::*;
        // (0,1)(2,3) | (4,5)
        assert_eq!(met(&[2, 1], &[0, 0], [0.0, 1.0]), [Joined, OnAnEnd]);
        assert_eq!(met(&[2, 1], &[0, 0], [2.0, 3.5]), [Joined, LastLeads]);
        assert_eq!(met(&[2, 1], &[0, 0], [1.0, 2.0]), [Joined, Tied, TiedEnds]);
        assert_eq!(met(&[2, 1], &[0, 0], [3.0, 4.0]), [Joined, Tied, TiedContours, LastLeads]);
        assert_eq!(met(&[2, 1], &[0, 1], [3.0, 4.0]), [Joined, LastLeads, AsNearWaits]);
        assert_eq!(met(&[2, 1], &[1, 0], [0.5, 1.0]), [Joined, NearerWaits]);
        assert_eq!(met(&[1], &[0], [-0.0, 5e-324]), [Joined, NegativeZero, Subnormal, NoCentre]);
        assert_eq!(met(&[1], &[0], [LIMIT, 0.0]), [Joined, Limit, Far]);
        assert_eq!(met(&[0], &[0], [0.0, 0.0]), [Joined, Blank]);
        let beyond = LIMIT.next_up();
        assert_eq!(met(&[1], &[0], [beyond, 0.0]), [Refused, XAlone, NextAbove]);
        assert_eq!(met(&[1], &[0], [0.0, -beyond]), [Refused, YAlone, NextBelow]);
        assert_eq!(met(&[0], &[0], [f64::NAN; 2]), [Refused, Both, Nan, Before7]);
        assert_eq!(met(&[1], &[16], [f64::INFINITY, 0.0]), [After13]);
        assert_eq!(met(&[65_537], &[0], [f64::INFINITY, 0.0]), [After2]);
    }

    #[test]
    fn a_short_slice_counts_where_the_parked_point_is_refused() {
        let plate = Plate::new(vec![0.0; 2], vec![1], Size::default());
        let lent = |strategy, number| {
            let met = Met::default();
            met.lent(&plate, strategy, number, 0, 0);
            met.0.numbers().sum::<u64>()
        };
        let off = Home(Point { x: f64::NAN, y: 0.0 });
        assert_eq!([lent(off, 4), lent(off, 13), lent(Inside, 4)], [2, 0, 0]);
        assert_eq!(lent(Home(Point { x: 0.0, y: 0.0 }), 5), 0);
    }

    #[test]
    fn a_long_run_that_lacks_a_case_fails() {
        let met = Met::default();
        assert!(met.print(9_999));
        assert!(!met.print(10_000));
        Case::LIST.iter().for_each(|&(case, _)| met.0.count(case));
        assert!(met.print(10_000));
    }
}
