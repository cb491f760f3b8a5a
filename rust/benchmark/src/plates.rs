//! Order and straight against the reference's `optimize_path_order` and `join_straight_line`,
//! at 4,000 contours of 16 points, all of one layer.
//!
//! Each side is given the plate in its own form, made before the clock starts: the library
//! slices that are lent to it, the reference polylines. The least of several rounds counts.

use std::hint::black_box;
use std::time::{Duration, Instant};

use harness::plates::{polylines, rows};
use harness::random::Random;
use mujou_reference::join::door::join_straight_line;
use mujou_reference::optimize::optimize_path_order;
use mujou_reference::types::{self, Dimensions, Polyline};
use twillharbor::{Plate, Size, StartPointStrategy, retrace};

const CONTOURS: usize = 4_000;
const POINTS: usize = 16;
const PER_ROW: usize = 40;
const ROUNDS: usize = 15;

pub fn report() {
    let (in_rows, lengths) = rows(CONTOURS, POINTS, PER_ROW);
    let scaled: Vec<f64> = in_rows.iter().map(|c| c * 0.37 + 0.11).collect();
    let mut random = Random::new(2);
    let scattered: Vec<f64> = in_rows.iter().map(|_| random.unit() * 1_000.0).collect();
    for (name, points) in [
        ("document 02's rows", in_rows),
        ("the rows, scaled by 0.37", scaled),
        ("random points", scattered),
    ] {
        println!("{CONTOURS} contours of {POINTS} points: {name}");
        compare(&points, &lengths);
    }
}

fn compare(points: &[f64], lengths: &[u32]) {
    let contours = polylines(points, lengths);
    let (size, strategy) = (Size { width: 0, height: 0 }, StartPointStrategy::Inside);
    let (dims, inside) = (Dimensions { width: 0, height: 0 }, types::StartPointStrategy::Inside);
    let mut order = vec![0; 2 * lengths.len()];
    let mut path = vec![0.0; points.len()];
    let mut work = vec![0; lengths.len()];
    let layers = vec![0; lengths.len()];
    let plate = Plate::with_layers(points, lengths, &layers);

    let times = fastest(
        ROUNDS,
        || black_box(plate).order_into(size, strategy, &mut order, &mut work),
        || optimize_path_order(black_box(&contours), inside, dims),
    );
    print("order", times);

    let times = fastest(
        ROUNDS,
        || black_box(plate).straight_into(size, strategy, &mut path, &mut work),
        || join_straight_line(black_box(&contours), inside, dims),
    );
    print("straight", times);
    assert!(same(&path, &join_straight_line(&contours, inside, dims)), "the paths differ");
}

/// A plate, and the path that retrace gives it.
pub struct Retraced {
    pub points: Vec<f64>,
    pub lengths: Vec<u32>,
    pub path: Vec<f64>,
    pub marks: Vec<u32>,
}

/// The two plates of document 02's ticket 10, each told in a line as it comes.
pub fn retraced() -> impl Iterator<Item = Retraced> {
    [(200, 50, 10), (4_000, 16, 40)].into_iter().map(|(contours, each, per_row)| {
        let (points, lengths) = rows(contours, each, per_row);
        let drawn = retrace(&points, &lengths, Size::default(), StartPointStrategy::Inside)
            .expect("the rows are a sound plate");
        let path = drawn.points().iter().flat_map(|p| [p.x, p.y]).collect();
        let marks = drawn.marks().iter().flat_map(|mark| mark.numbers()).collect();
        let count = drawn.counts().points;
        println!("{contours} contours of {each} points, {per_row} to a row: {count} path points");
        Retraced { points, lengths, path, marks }
    })
}

/// The fastest round of each. They take turns, so that what else the machine does meets both.
pub fn fastest<P, R>(
    rounds: usize,
    mut proved: impl FnMut() -> P,
    mut rust: impl FnMut() -> R,
) -> [Duration; 2] {
    let mut least = [Duration::MAX; 2];
    for _ in 0..rounds {
        least[0] = least[0].min(time(&mut proved));
        least[1] = least[1].min(time(&mut rust));
    }
    least
}

pub fn time<T>(call: impl FnOnce() -> T) -> Duration {
    let began = Instant::now();
    let answer = black_box(call());
    let took = began.elapsed();
    drop(answer);
    took
}

fn same(path: &[f64], reference: &Polyline) -> bool {
    path.iter().copied().eq(reference.points().iter().flat_map(|p| [p.x, p.y]))
}

pub fn print(call: &str, times: [Duration; 2]) {
    let [proved, rust] = times.map(|time| time.as_secs_f64() * 1e3);
    println!("  {call:<18} {proved:>7.2} ms {rust:>7.2} ms {:>6.2} times", proved / rust);
}
