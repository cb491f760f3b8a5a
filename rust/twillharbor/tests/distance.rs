//! The distance call through the safe interface.

use twillharbor::{Distances, Point, Refusal, distance};

const LIMIT: f64 = 2_147_483_648.0;

fn point(x: f64, y: f64) -> Point {
    Point { x, y }
}

#[test]
fn plate_h() {
    let apart = distance(point(0.0, 0.0), point(3.0, 4.0));
    assert_eq!(apart, Ok(Distances { squared: 25.0, plain: 5.0 }));
}

#[test]
fn plate_i_rounds_the_sum_once() {
    let power = |e: i32| 2.0_f64.powi(e);
    let b = point(1.0 + power(-27), 1.25 * power(-27));
    let apart = distance(point(0.0, 0.0), b).unwrap();
    assert_eq!(apart.squared, 1.0 + power(-26) + power(-52));
}

#[test]
fn the_limit_passes_and_the_next_number_does_not() {
    let far = point(LIMIT, -LIMIT);
    let apart = distance(far, point(-LIMIT, LIMIT)).unwrap();
    assert_eq!(apart.squared, 2.0_f64.powi(65));
    for damaged in [LIMIT.next_up(), -LIMIT.next_up(), f64::INFINITY, f64::NEG_INFINITY, f64::NAN] {
        for place in 0..4 {
            let mut c = [LIMIT, -LIMIT, 0.0, -0.0];
            c[place] = damaged;
            assert_eq!(
                distance(point(c[0], c[1]), point(c[2], c[3])),
                Err(Refusal::OffThePlate { place: place as u32 })
            );
        }
    }
}

#[test]
fn the_first_damaged_coordinate_counts() {
    let refused = distance(point(0.0, f64::NAN), point(f64::INFINITY, f64::NAN)).unwrap_err();
    assert_eq!((refused.number(), refused.place()), (4, 1));
}
