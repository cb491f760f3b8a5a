//! What document 02's ticket 9 says of small plates, worked out by hand.

use mujou_reference_layers::join::{capped, door};
use mujou_reference_layers::optimize::optimize_path_order;
use mujou_reference_layers::types::StartPointStrategy::{Inside, Outside};
use mujou_reference_layers::types::{Dimensions, Point, Polyline};

const SIZE: Dimensions = Dimensions {
    width: 0,
    height: 0,
};

fn contour(layer: u32, points: &[(f64, f64)]) -> Polyline {
    Polyline::new(points.iter().map(|&(x, y)| Point::new(x, y)).collect()).in_layer(layer)
}

/// (0,0) | (1,0) | (2,0), one contour each.
fn three_points(layers: [u32; 3]) -> Vec<Polyline> {
    let xs = [0.0, 1.0, 2.0];
    let points = xs.into_iter().zip(layers);
    points
        .map(|(x, layer)| contour(layer, &[(x, 0.0)]))
        .collect()
}

fn xs(path: &Polyline) -> Vec<f64> {
    path.points().iter().map(|p| p.x).collect()
}

/// The paths of straight and of retrace, whole and capped.
fn paths(contours: &[Polyline]) -> [Vec<f64>; 3] {
    [
        xs(&door::join_straight_line(contours, Inside, SIZE)),
        xs(&door::join_retrace(contours, Inside, SIZE)),
        xs(&capped::join_retrace(contours, Inside, SIZE, usize::MAX)),
    ]
}

#[test]
fn the_nearer_contour_of_a_higher_layer_waits() {
    let contours = three_points([0, 1, 0]);
    for path in paths(&contours) {
        assert_eq!(path, [0.0, 2.0, 1.0]);
    }
    let ordered = optimize_path_order(&contours, Inside, SIZE);
    assert_eq!(
        ordered.iter().map(xs).collect::<Vec<_>>(),
        [[0.0], [2.0], [1.0]]
    );
}

#[test]
fn one_layer_is_as_none() {
    for layer in 0..16 {
        for path in paths(&three_points([layer; 3])) {
            assert_eq!(path, [0.0, 1.0, 2.0]);
        }
    }
}

#[test]
fn the_start_is_of_the_lowest_layer() {
    let contours = three_points([15, 3, 7]);
    let candidates: Vec<&Polyline> = contours.iter().collect();
    for strategy in [Inside, Outside] {
        assert_eq!(
            door::choose_start_contour(&candidates, strategy, SIZE),
            (1, false)
        );
    }
    assert_eq!(paths(&contours)[0], [1.0, 2.0, 0.0]);
}

#[test]
fn an_empty_contour_holds_nobody_back() {
    let mut contours = three_points([5, 9, 5]);
    contours.insert(1, contour(0, &[]));
    assert_eq!(paths(&contours)[0], [0.0, 2.0, 1.0]);
}
