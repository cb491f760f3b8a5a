//! The reference gives what document 01 says of its marked plates B to I, and its path where
//! contours touch.

use mujou_reference::join::{capped, door};
use mujou_reference::optimize::optimize_path_order;
use mujou_reference::types::StartPointStrategy::{Inside, Outside};
use mujou_reference::types::{Dimensions, Point, Polyline, StartPointStrategy};

fn polyline(points: &[(f64, f64)]) -> Polyline {
    Polyline::new(points.iter().map(|&(x, y)| Point::new(x, y)).collect())
}

fn plate(contours: &[&[(f64, f64)]]) -> Vec<Polyline> {
    contours.iter().map(|c| polyline(c)).collect()
}

fn size(width: u32, height: u32) -> Dimensions {
    Dimensions { width, height }
}

fn start(contours: &[Polyline], strategy: StartPointStrategy, dims: Dimensions) -> (usize, bool) {
    let candidates: Vec<&Polyline> = contours.iter().collect();
    door::choose_start_contour(&candidates, strategy, dims)
}

#[test]
fn b_and_c_start() {
    let b = plate(&[&[(0.0, 0.0), (4.0, 0.0)]]);
    assert_eq!(start(&b, Outside, size(10, 10)), (0, false));
    assert_eq!(start(&b, Inside, size(10, 10)), (0, true));
    let c = plate(&[&[(0.0, 0.0), (10.0, 0.0)]]);
    assert_eq!(start(&c, Outside, size(10, 10)), (0, false));
    assert_eq!(start(&c, Inside, size(10, 10)), (0, false));
}

#[test]
fn d_to_g_retrace() {
    let d = plate(&[&[(0.0, 0.0), (4.0, 0.0)], &[(4.0, 1.0), (8.0, 1.0)]]);
    assert_eq!(
        door::join_retrace(&d, Outside, size(8, 2)),
        polyline(&[(0.0, 0.0), (4.0, 0.0), (4.0, 1.0), (8.0, 1.0)])
    );
    let e = plate(&[&[(0.0, 0.0), (4.0, 0.0), (8.0, 0.0)], &[(0.0, 1.0)]]);
    assert_eq!(
        door::join_retrace(&e, Inside, size(0, 0)),
        polyline(&[
            (0.0, 0.0),
            (4.0, 0.0),
            (8.0, 0.0),
            (4.0, 0.0),
            (0.0, 0.0),
            (0.0, 1.0)
        ])
    );
    let f = plate(&[&[(4.0, 0.0)], &[(0.0, 1.0), (4.0, 1.0), (8.0, 1.0)]]);
    assert_eq!(
        door::join_retrace(&f, Inside, size(8, 0)),
        polyline(&[(4.0, 0.0), (4.0, 1.0), (8.0, 1.0), (4.0, 1.0), (0.0, 1.0)])
    );
    let g = plate(&[&[(0.0, 0.0)], &[(1.0, 0.0)], &[(0.0, 1.0)]]);
    assert_eq!(
        door::join_retrace(&g, Inside, size(0, 0)),
        polyline(&[(0.0, 0.0), (1.0, 0.0), (0.0, 0.0), (0.0, 1.0)])
    );
}

/// Where contours touch, the path has the point once in each, with the bits of each.
#[test]
fn contours_that_touch() {
    let joined = |contours: &[&[(f64, f64)]]| {
        let path = door::join_retrace(&plate(contours), Inside, size(0, 0));
        bits(path.points().iter().map(|p| (p.x, p.y)))
    };
    let [a, b, c] = [(0.0, 0.0), (4.0, 0.0), (8.0, 0.0)];
    assert_eq!(joined(&[&[a, b], &[b]]), bits([a, b, b]));
    assert_eq!(joined(&[&[a, b, c], &[b]]), bits([a, b, c, b, b]));
    let zeros = [(0.0, 0.0), (-0.0, 0.0), (0.0, -0.0)];
    let [first, second, third] = zeros;
    assert_eq!(joined(&[&[first], &[second], &[third]]), bits(zeros));
    // No way back to (0,0): the later point is at squared distance 0 too.
    let near = (1e-200, 0.0);
    assert_eq!(joined(&[&[a, near], &[a]]), bits([a, near, a]));
}

fn bits(points: impl IntoIterator<Item = (f64, f64)>) -> Vec<[u64; 2]> {
    let points = points.into_iter();
    points.map(|(x, y)| [x, y].map(f64::to_bits)).collect()
}

#[test]
fn g_order_and_straight() {
    let g = plate(&[&[(0.0, 0.0)], &[(1.0, 0.0)], &[(0.0, 1.0)]]);
    assert_eq!(optimize_path_order(&g, Inside, size(0, 0)), g);
    assert_eq!(
        door::join_straight_line(&g, Inside, size(0, 0)),
        polyline(&[(0.0, 0.0), (1.0, 0.0), (0.0, 1.0)])
    );
}

#[test]
fn h_and_i_distances() {
    let origin = Point::new(0.0, 0.0);
    let h = Point::new(3.0, 4.0);
    assert_eq!(origin.distance_squared(h), 25.0);
    assert_eq!(origin.distance(h), 5.0);
    let power = |e: i32| 2.0_f64.powi(e);
    let i = Point::new(1.0 + power(-27), 1.25 * power(-27));
    assert_eq!(origin.distance_squared(i), 1.0 + power(-26) + power(-52));
}

#[test]
fn capped_path_starts_as_the_full_one() {
    // Single points in a scattered order: many walks back, a path of some thousand points.
    let contours: Vec<Polyline> = (0..40_u32)
        .map(|i| polyline(&[(f64::from(i * 37 % 101), f64::from(i * 53 % 97))]))
        .collect();
    let full = door::join_retrace(&contours, Outside, size(100, 100));
    for cap in [0, 1, 2, 10, full.len() - 1] {
        let path = capped::join_retrace(&contours, Outside, size(100, 100), cap);
        assert!(path.len() > cap, "it stopped too early");
        assert_eq!(path.points()[..cap], full.points()[..cap]);
    }
    for cap in [full.len(), full.len() + 1, usize::MAX] {
        assert_eq!(
            capped::join_retrace(&contours, Outside, size(100, 100), cap),
            full
        );
    }
}
