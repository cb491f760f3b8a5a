//! The check of a path against the same check in plain Rust, of the retraced paths of the two plates
//! of document 02's ticket 10.

use std::hint::black_box;

use twillharbor::{Refusal, check_path_with, check_path_work};

use crate::plates::{Retraced, fastest, print, retraced};

const ROUNDS: usize = 25;

pub fn report() {
    for Retraced { points, lengths, path, marks } in retraced() {
        compare(&points, &lengths, &path, &marks);
    }
}

fn compare(points: &[f64], lengths: &[u32], path: &[f64], marks: &[u32]) {
    let size = check_path_work(points.len() / 2, lengths.len());
    let (mut work, mut other) = (vec![0; size], vec![0; size]);
    let mut proved = |path| check_path_with(points, lengths, path, marks, &mut work);
    let mut rust = |path: &[f64]| place(points, lengths, path, marks, &mut other);

    // Both refuse a path whose last point was moved, there.
    let mut moved = path.to_vec();
    moved[path.len() - 1] += 0.5;
    let last = path.len() / 2 - 1;
    assert_eq!(proved(&moved), Err(Refusal::NotDrawn { place: last as u64 }));
    assert_eq!((rust(&moved), proved(path), rust(path)), (Some(last), Ok(()), None));

    let times = fastest(ROUNDS, || proved(black_box(path)), || rust(black_box(path)));
    print("check of a path", times);
}

const UNENTERED: u32 = 0;
const ENTERED: u32 = 1;

/// Where the path does not draw the plate, all tests of the slices included.
fn place(
    points: &[f64],
    lengths: &[u32],
    path: &[f64],
    marks: &[u32],
    work: &mut [u32],
) -> Option<usize> {
    let (vertices, _) = points.as_chunks::<2>();
    let ((path, _), (marks, _)) = (path.as_chunks::<2>(), marks.as_chunks::<2>());
    let is_sound = lengths.iter().map(|&n| n as usize).sum::<usize>() == vertices.len()
        && points.iter().all(|c| c.abs() <= 1_000_000.0)
        && path.len() == marks.len();
    assert!(is_sound, "the slices are refused");
    // Of each vertex: its contour, and whether the segment above it is cut.
    let (cut, entered) = work.split_at_mut(vertices.len());
    let mut first = 0;
    for (contour, &length) in (0..).zip(lengths) {
        cut[first..first + length as usize].fill(contour << 1);
        first += length as usize;
    }
    entered.fill(UNENTERED);
    let same = |a: [f64; 2], b: [f64; 2]| a.map(f64::to_bits) == b.map(f64::to_bits);
    for (at, &[kind, reference]) in marks.iter().enumerate() {
        let reference = reference as usize;
        let keeps = match kind {
            0 | 3 | 4 => {
                let is_in_turn = if at == 0 {
                    kind == 0
                } else {
                    kind == if path[at - 1] == path[at] { 4 } else { 3 }
                };
                let keeps = is_in_turn
                    && reference < vertices.len()
                    && same(path[at], vertices[reference])
                    && entered[(cut[reference] >> 1) as usize] == UNENTERED;
                if keeps {
                    entered[(cut[reference] >> 1) as usize] = ENTERED;
                }
                keeps
            }
            1 if at > 0 && reference + 1 < vertices.len() => {
                let (one, other) = (vertices[reference], vertices[reference + 1]);
                let (from, to) = (path[at - 1], path[at]);
                let keeps = cut[reference] & 1 == 0
                    && cut[reference] >> 1 == cut[reference + 1] >> 1
                    && entered[(cut[reference] >> 1) as usize] == ENTERED
                    && (same(from, one) && same(to, other) || same(from, other) && same(to, one));
                if keeps {
                    cut[reference] |= 1;
                }
                keeps
            }
            2 => {
                reference + 1 < at
                    && same(path[at - 1], path[reference + 1])
                    && same(path[at], path[reference])
            }
            _ => false,
        };
        if !keeps {
            return Some(at);
        }
    }
    let is_cut = |pair: &[u32]| pair[0] >> 1 != pair[1] >> 1 || pair[0] & 1 == 1;
    let is_entered = |(&entered, &length): (&u32, &u32)| length == 0 || entered == ENTERED;
    let is_whole = cut.windows(2).all(is_cut) && entered.iter().zip(lengths).all(is_entered);
    (!is_whole).then_some(path.len())
}
