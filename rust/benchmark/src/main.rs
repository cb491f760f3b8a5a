//! Prints the time a call takes, and how many times the proved function takes what Rust's does.
//!
//! Both run over the same plate-like numbers, each called through a pointer that the
//! compiler cannot see through, so that neither is inlined. The least of many rounds counts.
//! Independent calls overlap in the processor, as in a search over many points; of chained
//! calls each waits for the answer of the one before.

mod check_path;
mod contours;
mod files;
mod plain_contours;
mod plates;
mod retrace;

use std::hint::black_box;
use std::time::Instant;

use harness::leaves::{twillharbor_float_square_plus, twillharbor_float_square_root};
use harness::random::Random;
use mujou_reference::types::Point as ReferencePoint;
use twillharbor::Point;

/// Numbers to a round: few enough for the processor's nearest cache.
const NUMBERS: usize = 1024;
const ROUNDS: usize = 4000;

type OfOne = unsafe extern "C" fn(f64) -> f64;
type OfTwo = unsafe extern "C" fn(f64, f64) -> f64;
type OfFour = fn(f64, f64, f64, f64) -> f64;

extern "C" fn mul_add(x: f64, y: f64) -> f64 {
    x.mul_add(x, y)
}

extern "C" fn sqrt(x: f64) -> f64 {
    x.sqrt()
}

fn distance(ax: f64, ay: f64, bx: f64, by: f64) -> f64 {
    let (a, b) = (Point { x: ax, y: ay }, Point { x: bx, y: by });
    twillharbor::distance(a, b).map_or(f64::NAN, |apart| apart.plain)
}

fn reference_distance(ax: f64, ay: f64, bx: f64, by: f64) -> f64 {
    ReferencePoint::new(ax, ay).distance(ReferencePoint::new(bx, by))
}

fn main() {
    let mut random = Random::new(1);
    let pairs: Vec<[f64; 4]> =
        (0..NUMBERS).map(|_| [(); 4].map(|()| random.unit() * 1000.0)).collect();
    let sums: Vec<[f64; 2]> =
        pairs.iter().map(|[ax, ay, bx, by]| [ax - bx, (ay - by) * (ay - by)]).collect();
    let squares: Vec<[f64; 1]> = sums.iter().map(|&[x, y]| [mul_add(x, y)]).collect();

    let functions = [twillharbor_float_square_plus as OfTwo, mul_add].map(black_box);
    report(
        "fused sum against mul_add",
        // SAFETY: both are finite, and y, a square, has a clear sign bit.
        functions.map(|f| times(&sums, |[x, y]| unsafe { f(x, y) })),
    );

    let functions = [twillharbor_float_square_root as OfOne, sqrt].map(black_box);
    report(
        "root against sqrt",
        // SAFETY: a squared distance of the plate is finite and has a clear sign bit.
        functions.map(|f| times(&squares, |[x]| unsafe { f(x) })),
    );

    let functions = [distance as OfFour, reference_distance].map(black_box);
    report(
        "distance call against the reference's distance",
        functions.map(|f| times(&pairs, |[ax, ay, bx, by]| f(ax, ay, bx, by))),
    );

    plates::report();
    retrace::report();
    check_path::report();
    contours::report();
    files::report();
}

/// Nanoseconds a call.
struct Times {
    independent: f64,
    chained: f64,
}

fn times<const N: usize>(inputs: &[[f64; N]], call: impl Fn([f64; N]) -> f64) -> Times {
    // 0, which the compiler does not know: an answer masked by it changes no input.
    let zero = black_box(0);
    Times {
        independent: fastest(inputs, &call, zero, |_| zero),
        chained: fastest(inputs, &call, zero, |answer| answer & zero),
    }
}

/// Nanoseconds a call in the fastest round. `link` says what of an answer goes into the
/// first number of the next input.
fn fastest<const N: usize>(
    inputs: &[[f64; N]],
    call: &impl Fn([f64; N]) -> f64,
    begin: u64,
    link: impl Fn(u64) -> u64,
) -> f64 {
    let round = || {
        let inputs = black_box(inputs);
        let began = Instant::now();
        let (mut linked, mut all) = (begin, 0);
        for &(mut input) in inputs {
            input[0] = f64::from_bits(input[0].to_bits() ^ linked);
            let answer = call(input).to_bits();
            linked = link(answer);
            all ^= answer;
        }
        black_box(all);
        began.elapsed().as_nanos()
    };
    let least = (0..ROUNDS).map(|_| round()).min().expect("there are rounds");
    least as f64 / inputs.len() as f64
}

fn report(name: &str, [proved, rust]: [Times; 2]) {
    println!("{name}");
    for (how, proved, rust) in [
        ("independent calls", proved.independent, rust.independent),
        ("chained calls", proved.chained, rust.chained),
    ] {
        println!("  {how:<18} {proved:>7.2} ns {rust:>7.2} ns {:>6.2} times", proved / rust);
    }
}
