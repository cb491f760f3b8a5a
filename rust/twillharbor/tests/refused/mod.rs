//! Plates that every call refuses alike, with refusals 1 to 4 (`assert` is a call's own), and what
//! every call does that refuses a plate.

#![allow(dead_code, reason = "each file of tests uses its part")]

use twillharbor::Refusal::{self, Miscounted, OffThePlate, TooManyContours, TooManyPoints};
use twillharbor::{Plate, Size, StartPointStrategy};

const LIMIT: f64 = 1_000_000.0;
/// The coordinates of contours of one and of two points, as far out as they may be.
pub const SOUND: [f64; 6] = [LIMIT, -LIMIT, 0.0, -0.0, LIMIT, 5e-324];

pub fn above_4096_contours(assert: impl Fn(&[f64], &[u32], Refusal)) {
    let lengths = vec![0; 4_096];
    assert(&[], &[&lengths[..], &[0]].concat(), TooManyContours);
    // Of several the first tested wins: 2, 3, 4 and 5 hold too.
    assert(&[f64::NAN], &[&lengths[..], &[u32::MAX]].concat(), TooManyContours);
}

pub fn above_65536_points(assert: impl Fn(&[f64], &[u32], Refusal)) {
    assert(&[1.0; 2 * 65_537], &[65_536, 1], TooManyPoints);
    // The sum does not wrap.
    assert(&[], &[u32::MAX, 1], TooManyPoints);
    assert(&[1.0, 1.0], &[1 << 31, 1, 1 << 31], TooManyPoints);
    assert(&[f64::NAN], &[u32::MAX; 4_096], TooManyPoints);
}

pub fn unless_the_points_are_twice_the_sum(assert: impl Fn(&[f64], &[u32], Refusal)) {
    let points = [1.0, 2.0, 3.0, f64::NAN, 5.0];
    for count in [0, 1, 2, 3, 5] {
        assert(&points[..count], &[1, 0, 1], Miscounted);
    }
    assert(&[1.0, 2.0], &[], Miscounted);
}

pub fn at_the_first_coordinate_off_the_plate(assert: impl Fn(&[f64], &[u32], Refusal)) {
    let beyond = LIMIT.next_up();
    for damaged in [beyond, -beyond, f64::INFINITY, f64::NEG_INFINITY, f64::NAN, -f64::NAN] {
        for place in 0..6 {
            let mut points = SOUND;
            points[place] = damaged;
            points[5] = damaged;
            assert(&points, &[1, 2], OffThePlate { place: place as u32 });
        }
    }
}

/// Every call refuses alike and alters no slice that it is lent, though work is short and there
/// is room for nothing.
pub fn by_every_call(plate: Plate<'_>, strategy: StartPointStrategy, refusal: Refusal) {
    const NOWHERE: Size = Size { width: 0, height: 0 };
    assert_eq!(plate.start(NOWHERE, strategy), Err(refusal));
    assert_eq!(plate.order(NOWHERE, strategy), Err(refusal));
    assert_eq!(plate.straight(NOWHERE, strategy), Err(refusal));
    assert_eq!(plate.retrace(NOWHERE, strategy), Err(refusal));
    let (mut numbers, mut floats, mut work, mut distances) = ([7; 1], [7.0; 1], [7; 0], [7.0; 0]);
    let into = plate.order_into(NOWHERE, strategy, &mut numbers, &mut work);
    assert_eq!(into, Err(refusal));
    let into = plate.straight_into(NOWHERE, strategy, &mut floats, &mut work);
    assert_eq!(into, Err(refusal));
    let (path, marks) = (&mut floats, &mut numbers);
    let into = plate.retrace_into(NOWHERE, strategy, path, marks, &mut work, &mut distances);
    assert_eq!(into, Err(refusal));
    assert_eq!((numbers, floats), ([7; 1], [7.0; 1]));
}
