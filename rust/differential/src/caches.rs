//! The caches of the waiting contours against the reference: seeded as `join_retrace` does it,
//! then updated by `update_nearby_caches`.

use std::ops::Range;

use harness::caches::{self, Emitted};
use harness::plates::polylines;
use harness::random::Random;
use mujou_reference::join::door;
use mujou_reference::types::{Point, Polyline};

use crate::grids::reference_grid;
use crate::plates::{Plate, damaged_somehow};
use crate::retrace_plates::{self, KINDS};
use crate::rule;
use crate::run::{self, Plan};

/// Cases that share a stream of random numbers.
const CHUNK: u64 = 256;

/// Compares the plan's plates.
pub fn run(plan: Plan) -> bool {
    println!("caches: {} plates, seed {}", plan.pairs, plan.seed);
    run::run_in_chunks(plan, CHUNK, &KINDS, |kind, random| case(kind, random).map(|_| ()))
}

/// Whether the update replaced a cache.
fn case(kind: retrace_plates::Kind, random: &mut Random) -> Result<bool, String> {
    let mut plate = retrace_plates::plate(kind, random);
    if random.one_in(40) {
        plate = damaged_somehow(&plate, random);
    }
    let emitted = emitted(&plate.lengths, random);
    let mut work = vec![random.bits() as u32; caches::WORK];
    let ours = caches::update(&plate.points, &plate.lengths, emitted, &mut work);
    compare(&plate, emitted, ours).map_err(|e| format!("{e}, {emitted:?} of {plate:?}"))
}

/// Mostly a contour that lies at the end of the path, which was shorter by it before.
fn emitted(lengths: &[u32], random: &mut Random) -> Emitted {
    let points: u64 = lengths.iter().map(|&n| u64::from(n)).sum();
    let number = random.below(lengths.len() as u64 + 1);
    let first: u64 = lengths.iter().take(number as usize).map(|&n| u64::from(n)).sum();
    let size = lengths.get(number as usize).copied().unwrap_or(0);
    let (before, count) = match random.below(8) {
        0 => (random.below(points + 2), random.below(points + 2)),
        1 => {
            let count = random.below(points + 1);
            (random.below(count + 1), count)
        }
        _ => (first, first + u64::from(size)),
    };
    Emitted { number: number as u32, before: before as u32, count: count as u32 }
}

/// Whether the reference's update replaced a cache; an error where ours differ.
fn compare(plate: &Plate, emitted: Emitted, ours: Option<Vec<(f64, u32)>>) -> Result<bool, String> {
    let Plate { points, lengths, .. } = plate;
    let Emitted { number, before, count } = emitted;
    let size = lengths.get(number as usize).copied().unwrap_or(0);
    let fit = rule::counted(points, lengths).and_then(|()| rule::on_plate(points)).is_ok()
        && size > 0
        && before <= count
        && count as usize <= points.len() / 2;
    let Some(ours) = ours else {
        return if fit { Err("no answer".to_string()) } else { Ok(false) };
    };
    if !fit {
        return Err("an answer that is not due".to_string());
    }
    let (theirs, replaced) = reference(plate, emitted);
    for Cache { number, squared, entry } in theirs {
        let (ours_squared, ours_entry) = ours[number];
        if (ours_squared.to_bits(), ours_entry as usize) != (squared.to_bits(), entry) {
            return Err(format!(
                "contour {number}: library {ours_squared:?} at vertex {ours_entry}, \
                 reference {squared:?} at {entry}"
            ));
        }
    }
    Ok(replaced)
}

/// The cache of a waiting contour: its entry is a vertex number of the whole slice.
struct Cache {
    number: usize,
    squared: f64,
    entry: usize,
}

/// The reference's caches, and whether its update replaced one.
fn reference(plate: &Plate, emitted: Emitted) -> (Vec<Cache>, bool) {
    let contours = polylines(&plate.points, &plate.lengths);
    let (numbers, candidates): (Vec<usize>, Vec<&Polyline>) =
        contours.iter().enumerate().filter(|(_, contour)| !contour.is_empty()).unzip();
    let mut grid = reference_grid(&candidates);
    let samples: Vec<Vec<(usize, Point)>> =
        candidates.iter().map(|contour| samples(contour, grid.cell_size())).collect();
    let used: Vec<bool> = numbers.iter().map(|&number| number == emitted.number as usize).collect();
    let own = used.iter().position(|&used| used).expect("a contour that is not empty");
    let (path, _) = plate.points.as_chunks();
    let (before, count) = (emitted.before as usize, emitted.count as usize);

    insert(&mut grid, path, 0..before);
    let seeded = seed(&grid, &samples, &used);
    insert(&mut grid, path, before..count);
    let mut cache = seeded.clone();
    door::update_nearby_caches(
        candidates[own].points(),
        &grid,
        &by_cell(&grid, &samples),
        &used,
        &mut cache,
        &mut vec![false; grid.cols() * grid.rows()],
        &mut Vec::new(),
    );
    let replaced = cache != seeded;
    let first = |number: usize| plate.lengths[..number].iter().sum::<u32>() as usize;
    let waiting = numbers.into_iter().zip(cache).zip(used).filter(|(_, used)| !used);
    let caches = waiting.map(|((number, (squared, i, _)), _)| Cache {
        number,
        squared,
        entry: first(number) + i,
    });
    (caches.collect(), replaced)
}

/// The samples of a contour: each vertex, counted from 0 within it, and its point.
fn samples(contour: &Polyline, cell_size: f64) -> Vec<(usize, Point)> {
    let indices = door::arc_length_sample_indices(contour, cell_size);
    indices.into_iter().map(|i| (i, contour.points()[i])).collect()
}

/// Puts the places of a range on the path.
fn insert(grid: &mut door::Grid, path: &[[f64; 2]], places: Range<usize>) {
    for place in places {
        let [x, y] = path[place];
        grid.insert(place, Point::new(x, y));
    }
}

/// The caches after the start, as `join_retrace` seeds them.
fn seed(
    grid: &door::Grid,
    samples: &[Vec<(usize, Point)>],
    used: &[bool],
) -> Vec<(f64, usize, usize)> {
    let mut cache = vec![(f64::INFINITY, 0, 0); samples.len()];
    for (j, samples) in samples.iter().enumerate().filter(|&(j, _)| !used[j]) {
        for &(i, point) in samples {
            if let Some((place, squared)) = grid.nearest(point)
                && squared < cache[j].0
            {
                cache[j] = (squared, i, place);
            }
        }
    }
    cache
}

/// The samples of each cell, as `join_retrace` lists them.
fn by_cell(grid: &door::Grid, samples: &[Vec<(usize, Point)>]) -> Vec<Vec<(usize, Point, usize)>> {
    let mut cells = vec![Vec::new(); grid.cols() * grid.rows()];
    for (j, samples) in samples.iter().enumerate() {
        for &(i, point) in samples {
            let (col, row) = grid.cell_of(point);
            cells[row * grid.cols() + col].push((j, point, i));
        }
    }
    cells
}

#[cfg(test)]
mod tests {
    use super::{KINDS, case};
    use crate::run::assert_every_kind_agrees;

    #[test]
    fn every_kind_agrees_and_updates_replace() {
        let mut replaced = 0;
        assert_every_kind_agrees(&KINDS, 30, |kind, random| {
            replaced += u32::from(case(kind, random)?);
            Ok(())
        });
        assert!(replaced > 60, "only {replaced} updates replaced a cache");
    }
}
