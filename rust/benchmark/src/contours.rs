//! The contours call against the same in plain Rust: of the retraced paths of the two plates of
//! document 02's ticket 10, and of paths all of whose landings are on vertices that a path of their
//! length cannot reach without leaving some out.

use std::hint::black_box;

use twillharbor::{contours_into, contours_work};

use crate::plain_contours::{Tables, recover};
use crate::plates::{Retraced, fastest, print, retraced};

const ROUNDS: usize = 25;
const VERTICES: usize = 65_536;

pub fn report() {
    for Retraced { points, lengths, path, marks } in retraced() {
        let mut slices = Slices::new(path.len() / 2);
        slices.compare(&path, &marks, Ok([points.len() as u32 / 2, lengths.len() as u32]));
        for lent in [&slices.proved, &slices.rust] {
            assert!(lent.held() == (&points[..], &lengths[..]), "the contours differ");
        }
    }
    for count in [256, 1_024, 4_096, VERTICES / 2] {
        far(count);
    }
}

/// The slices that one side is lent.
struct Lent {
    points: Vec<f64>,
    lengths: Vec<u32>,
    /// How many points and contours there are.
    counts: [u32; 2],
}

impl Lent {
    fn new(count: usize) -> Self {
        Self { points: vec![0.0; 2 * count], lengths: vec![0; count], counts: [0; 2] }
    }

    fn held(&self) -> (&[f64], &[u32]) {
        let [points, contours] = self.counts.map(|count| count as usize);
        (&self.points[..2 * points], &self.lengths[..contours])
    }
}

struct Slices {
    proved: Lent,
    rust: Lent,
    work: Vec<u32>,
    tables: Tables,
}

/// The numbers of points and contours, or the refusal's number and place.
type Answer = Result<[u32; 2], (u32, u64)>;

impl Slices {
    fn new(count: usize) -> Self {
        let [proved, rust] = [(); 2].map(|()| Lent::new(count));
        Self { proved, rust, work: vec![0; contours_work(count)], tables: Tables::new(count) }
    }

    fn compare(&mut self, path: &[f64], marks: &[u32], due: Answer) {
        let Self { proved, rust, work, tables } = self;
        let size = work.len();
        let mut call = |path: &[f64]| -> Answer {
            contours_into(path, marks, &mut proved.points, &mut proved.lengths, work)
                .map(|recovered| [recovered.points, recovered.contours])
                .map_err(|refusal| (refusal.number(), refusal.place()))
        };
        let mut plain =
            |path: &[f64]| recover(path, marks, &mut rust.points, &mut rust.lengths, size, tables);
        assert_eq!((call(path), plain(path)), (due, due));
        let times = fastest(ROUNDS, || call(black_box(path)), || plain(black_box(path)));
        print("contours", times);
        let counts = due.unwrap_or_default();
        (proved.counts, rust.counts) = (counts, counts);
    }
}

/// As many landings as there are path points, on vertices of that number or above: first those that
/// leave the same remainder when divided by it, from 65,535 down, then other ones.
fn far(count: usize) {
    let of_remainder = (count..VERTICES).rev().step_by(count);
    let alike = of_remainder.len();
    let is_other = |vertex: &usize| vertex % count != (VERTICES - 1) % count;
    let others = (count..VERTICES).rev().filter(is_other);
    let landings = of_remainder.chain(others).take(count);
    let kinds = [0].into_iter().chain(std::iter::repeat(3));
    let marks: Vec<u32> = kinds.zip(landings).flat_map(|(kind, at)| [kind, at as u32]).collect();
    assert_eq!(marks.len(), 2 * count);
    let path: Vec<f64> = (0..count).flat_map(|at| [at as f64, 0.0]).collect();
    println!("{count} landings on vertices above, {alike} of equal remainder");
    Slices::new(count).compare(&path, &marks, Err((11, 0)));
}
