//! What document 02's ticket 1 says of small plates, worked out by hand: "the endpoint with
//! strictly smallest squared distance to it leads".

use mujou_reference_home::join::{capped, door};
use mujou_reference_home::optimize::optimize_path_order;
use mujou_reference_home::types::StartPointStrategy::Inside;
use mujou_reference_home::types::{Dimensions, Point, Polyline};

const LIMIT: f64 = 1_000_000.0;

type Contour<'a> = (u32, &'a [(f64, f64)]);

/// The contours, each with its layer.
fn contours(contours: &[Contour]) -> Vec<Polyline> {
    let polylines = contours.iter().map(|&(layer, points)| {
        let points = points.iter().map(|&(x, y)| Point::new(x, y));
        Polyline::new(points.collect()).in_layer(layer)
    });
    polylines.collect()
}

const fn parked(x: f64, y: f64) -> Dimensions {
    Dimensions {
        center: Point::new(x, y),
    }
}

/// The contour that leads, and whether it is reversed.
fn start(plate: &[Contour], x: f64, y: f64) -> (usize, bool) {
    let contours = contours(plate);
    let candidates: Vec<&Polyline> = contours.iter().collect();
    door::choose_start_contour(&candidates, Inside, parked(x, y))
}

fn xs(path: &Polyline) -> Vec<f64> {
    path.points().iter().map(|p| p.x).collect()
}

/// (0,0)(4,0) | (4,1)(8,1)
const D: [Contour; 2] = [
    (0, &[(0.0, 0.0), (4.0, 0.0)]),
    (0, &[(4.0, 1.0), (8.0, 1.0)]),
];

#[test]
fn each_end_leads_where_it_is_parked_on_it() {
    assert_eq!(start(&D, 0.0, 0.0), (0, false));
    assert_eq!(start(&D, 4.0, 0.0), (0, true));
    assert_eq!(start(&D, 4.0, 1.0), (1, false));
    assert_eq!(start(&D, 8.0, 1.0), (1, true));
}

#[test]
fn of_equal_distances_the_first_leads() {
    // (4,0) and (4,1) are as far from (4,0.5), (0,0) and (4,0) from (2,0).
    assert_eq!(start(&D, 4.0, 0.5), (0, true));
    assert_eq!(start(&D, 2.0, 0.0), (0, false));
    let exchanged = [D[1], D[0]];
    assert_eq!(start(&exchanged, 4.0, 0.5), (0, false));
    // A single point is its contour's first point and its last.
    assert_eq!(start(&[(0, &[(3.0, 3.0)])], 3.0, 3.0), (0, false));
}

#[test]
fn one_float_nearer_leads() {
    assert_eq!(start(&D, 4.0, 0.5_f64.next_up()), (1, false));
    assert_eq!(start(&D, 4.0, 0.5_f64.next_down()), (0, true));
}

#[test]
fn the_point_may_be_negative_far_or_no_half() {
    assert_eq!(start(&D, -1.0, -1.0), (0, false));
    assert_eq!(start(&D, LIMIT, LIMIT), (1, true));
    assert_eq!(start(&D, -LIMIT, -LIMIT), (0, false));
    assert_eq!(start(&D, 7.3, 0.1), (1, true));
    assert_eq!(start(&D, 3.1, 0.1), (0, true));
}

#[test]
fn negative_zero_and_subnormals_count_as_they_are() {
    let least = f64::from_bits(1);
    let plate: [Contour; 2] = [
        (0, &[(1.0, 0.0), (-1.0, 0.0)]),
        (0, &[(0.0, 0.0), (-0.0, 0.0)]),
    ];
    assert_eq!(start(&plate, -0.0, -0.0), (1, false));
    // Both squared distances are 1.
    assert_eq!(start(&plate[..1], -0.0, 0.0), (0, false));
    assert_eq!(start(&plate[..1], -least, 0.0), (0, false));
    // The squares of 2^-537 and 2^-539: 2^-1074, and less than half of that, so 0.
    let small = f64::from_bits(0x1e60_0000_0000_0000);
    let tiny: [Contour; 1] = [(0, &[(small, 0.0), (small / 4.0, 0.0)])];
    assert_eq!(start(&tiny, least, 0.0), (0, true));
    assert_eq!(start(&tiny, small, 0.0), (0, false));
}

#[test]
fn a_nearer_end_of_a_higher_layer_waits() {
    let plate = [(1, D[0].1), (0, D[1].1)];
    assert_eq!(start(&plate, 0.0, 0.0), (1, false));
    let joined = contours(&plate);
    for path in [
        door::join_straight_line(&joined, Inside, parked(0.0, 0.0)),
        door::join_retrace(&joined, Inside, parked(0.0, 0.0)),
    ] {
        assert_eq!(xs(&path)[..2], [4.0, 8.0]);
    }
}

#[test]
fn the_rest_of_the_path_is_as_with_inside() {
    // From (8,1) back: (4,1), then (4,0) and (0,0).
    let joined = contours(&D);
    let parked = parked(8.0, 1.0);
    let ordered = optimize_path_order(&joined, Inside, parked);
    assert_eq!(
        ordered.iter().map(xs).collect::<Vec<_>>(),
        [[8.0, 4.0], [4.0, 0.0]]
    );
    for path in [
        door::join_straight_line(&joined, Inside, parked),
        door::join_retrace(&joined, Inside, parked),
        capped::join_retrace(&joined, Inside, parked, usize::MAX),
    ] {
        assert_eq!(xs(&path), [8.0, 4.0, 4.0, 0.0]);
    }
}

#[test]
fn an_empty_contour_does_not_lead() {
    let joined = contours(&[(0, &[]), (0, &[(5.0, 5.0)])]);
    let path = door::join_retrace(&joined, Inside, parked(0.0, 0.0));
    assert_eq!(xs(&path), [5.0]);
}
