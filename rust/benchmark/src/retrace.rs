//! Retrace against the reference's `join_retrace`, at the two plates of document 02's ticket 10,
//! at scaled copies of them, whose coordinates are no whole numbers, and at copies whose contours
//! touch along each row; and against that of the reference with layers, at the two plates in
//! sixteen layers.
//!
//! Each side is given the plate in its own form, made before the clock starts: the library
//! slices that are lent to it, long enough for the path, the reference polylines.

use std::hint::black_box;

use harness::plates::{falling_layers, polylines, rows, touching_rows};
use mujou_reference::{join, types};
use mujou_reference_layers::{join as layered_join, types as layered_types};
use twillharbor::{Plate, Size, StartPointStrategy, retrace_work};

use crate::plates::{fastest, print};

const ROUNDS: usize = 9;

pub fn report() {
    for (contours, points, per_row) in [(200, 50, 10), (4_000, 16, 40)] {
        let (in_rows, lengths) = rows(contours, points, per_row);
        let scaled: Vec<f64> = in_rows.iter().map(|c| c * 0.37 + 0.11).collect();
        println!("{contours} contours of {points} points, {per_row} to a row");
        compare("retrace", &in_rows, &lengths);
        compare("retrace, scaled", &scaled, &lengths);
        let (touching, lengths) = touching_rows(contours, points, per_row);
        compare("retrace, touching", &touching, &lengths);
        compare_in_layers("in sixteen layers", &in_rows, &lengths, &falling_layers(contours));
    }
}

/// All contours in layer 0, against mujou's own function.
fn compare(name: &str, points: &[f64], lengths: &[u32]) {
    let contours = polylines(points, lengths);
    let dims = types::Dimensions { width: 0, height: 0 };
    let inside = types::StartPointStrategy::Inside;
    let join = || join::door::join_retrace(black_box(&contours), inside, dims);
    let reference = join();
    let reference: Vec<f64> = reference.points().iter().flat_map(|p| [p.x, p.y]).collect();
    time(name, points, lengths, &vec![0; lengths.len()], &reference, join);
}

fn compare_in_layers(name: &str, points: &[f64], lengths: &[u32], layers: &[u32]) {
    let contours = in_layers(points, lengths, layers);
    let dims = layered_types::Dimensions { width: 0, height: 0 };
    let inside = layered_types::StartPointStrategy::Inside;
    let join = || layered_join::door::join_retrace(black_box(&contours), inside, dims);
    let reference = join();
    let reference: Vec<f64> = reference.points().iter().flat_map(|p| [p.x, p.y]).collect();
    time(name, points, lengths, layers, &reference, join);
}

/// The contours as the reference with layers takes them.
fn in_layers(points: &[f64], lengths: &[u32], layers: &[u32]) -> Vec<layered_types::Polyline> {
    let contours = polylines(points, lengths).into_iter().zip(layers);
    let contours = contours.map(|(contour, &layer)| {
        let points = contour.points().iter().map(|p| layered_types::Point::new(p.x, p.y));
        layered_types::Polyline::new(points.collect()).in_layer(layer)
    });
    contours.collect()
}

/// The call and the reference's function, whose path has these coordinates.
fn time<R>(
    name: &str,
    points: &[f64],
    lengths: &[u32],
    layers: &[u32],
    reference: &[f64],
    join: impl Fn() -> R,
) {
    let (size, strategy) = (Size { width: 0, height: 0 }, StartPointStrategy::Inside);
    let plate = Plate::with_layers(points, lengths, layers);
    let capacity = reference.len() / 2;
    let mut path = vec![0.0; 2 * capacity];
    let mut marks = vec![0; 2 * capacity];
    let mut work = vec![0; retrace_work(capacity, points.len() / 2, lengths.len())];
    let mut distances = vec![0.0; lengths.len()];

    let times = fastest(
        ROUNDS,
        || {
            black_box(plate).retrace_into(
                size,
                strategy,
                &mut path,
                &mut marks,
                &mut work,
                &mut distances,
            )
        },
        join,
    );
    print(name, times);
    assert!(path == reference, "the paths differ");
}
