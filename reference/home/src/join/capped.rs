// LAYER: reference/src/join/capped.rs with layers. What differs is marked with that word.
// From crates/mujou-pipeline/src/join.rs of mujou at commit 8cf2e3ae71.
// Copyright (c) 2026 The mujou Authors. MIT OR Apache-2.0.
//
// join_retrace alone, with a cap added: the lines marked CAP, and `pub` with the
// signature on six lines. All that it calls is that of the module above.

//! [`join_retrace`](super::door::join_retrace) that stops once its path is longer
//! than a cap. A full path can be exponentially long in the number of contours.
//!
//! A path that is no longer than the cap is the full result; of a longer one the
//! first `cap` points are those of the full result.

use super::{
    GRID_CELLS_PER_AXIS, SpatialGrid, arc_length_sample_indices, choose_start_contour,
    emit_and_index, emit_reversed_and_index, update_nearby_caches,
};
use crate::types::{Dimensions, Point, Polyline, StartPointStrategy, polyline_bounding_box};

/// Full-history retrace with integrated contour ordering.
///
/// Algorithm (retrace-aware greedy nearest-neighbor):
///
/// 1. Build a spatial grid over the output history for O(1) nearest
///    lookups.
/// 2. Pick contour 0, emit its points into the output path and index
///    them in the grid.
/// 3. While candidates remain:
///    a. For each candidate, sample entry points at `cell_size`
///    arc-length spacing (including endpoints). Query each sample
///    against the grid to find the closest history point.
///    b. Pick the (candidate, `entry_index`, `history_index`) triple with
///    the smallest distance.
///    c. Retrace backward through the output to the history point
///    (invisible in sand).
///    d. Emit the chosen contour starting from the entry index,
///    covering the full contour via a split traversal when the
///    entry is interior.
/// 4. Return the output path.
#[allow(clippy::too_many_lines)]
pub fn join_retrace(
    contours: &[Polyline],
    strategy: StartPointStrategy,
    dims: Dimensions,
    cap: usize, // CAP
) -> Polyline {
    // Filter out empty contours.
    let candidates: Vec<&Polyline> = contours.iter().filter(|c| !c.is_empty()).collect();

    if candidates.is_empty() {
        return Polyline::new(Vec::new());
    }

    // Derive cell size from bounding box.
    debug_assert!(
        candidates.iter().any(|c| !c.is_empty()),
        "join_retrace requires at least one non-empty contour"
    );
    let (min_x, min_y, max_x, max_y) = polyline_bounding_box(&candidates);
    let canvas_extent = (max_x - min_x).max(max_y - min_y).max(1.0);
    let cell_size = canvas_extent / GRID_CELLS_PER_AXIS;

    let n = candidates.len();
    let mut used = vec![false; n];
    let mut output: Vec<Point> = Vec::new();
    let mut grid = SpatialGrid::new(min_x, min_y, max_x, max_y, cell_size);

    // Reserve a lower bound (all contour points).
    let lower_bound: usize = candidates.iter().map(|c| c.len()).sum();
    output.reserve(lower_bound);

    // Pre-compute arc-length sample points: (point, contour_vertex_index).
    let samples: Vec<Vec<(Point, usize)>> = candidates
        .iter()
        .map(|c| {
            let indices = arc_length_sample_indices(c, cell_size);
            let pts = c.points();
            indices.iter().map(|&i| (pts[i], i)).collect()
        })
        .collect();

    // Map grid cells → candidate sample info for lazy cache updates.
    let mut cell_to_samples: Vec<Vec<(usize, Point, usize)>> =
        vec![Vec::new(); grid.cols * grid.rows];
    for (j, sample_pts) in samples.iter().enumerate() {
        for &(pt, vert_idx) in sample_pts {
            let (col, row) = grid.cell_of(pt);
            cell_to_samples[row * grid.cols + col].push((j, pt, vert_idx));
        }
    }

    // Per-candidate best-known (dist, entry_vertex_idx, history_idx).
    let mut cache: Vec<(f64, usize, usize)> = vec![(f64::INFINITY, 0, 0); n];

    // Start with the candidate chosen by the start-point strategy.
    // Reverse the contour when its best endpoint is the last point
    // so the path begins at the correct (innermost / outermost) end.
    let (start_idx, start_reversed) = choose_start_contour(&candidates, strategy, dims);
    used[start_idx] = true;
    if start_reversed {
        let mut pts: Vec<Point> = candidates[start_idx].points().to_vec();
        pts.reverse();
        emit_and_index(&mut output, &mut grid, &pts);
    } else {
        emit_and_index(&mut output, &mut grid, candidates[start_idx].points());
    }

    // Seed caches: query ALL candidates against initial grid.
    for (j, sample_pts) in samples.iter().enumerate() {
        if used[j] {
            continue;
        }
        for &(entry, entry_idx) in sample_pts {
            if let Some((hist_idx, dist)) = grid.nearest(entry)
                && dist < cache[j].0
            {
                cache[j] = (dist, entry_idx, hist_idx);
            }
        }
    }

    // Reusable buffers for update_nearby_caches (hoisted to avoid
    // per-iteration heap allocation).
    let mut visited_cells: Vec<bool> = vec![false; grid.cols * grid.rows];
    let mut cells_to_scan: Vec<usize> = Vec::new();

    for _ in 1..n {
        // CAP, this line and the next three
        if output.len() > cap {
            return Polyline::new(output);
        }
        // Pick the candidate with the best cached distance.
        let mut best_candidate: Option<usize> = None;
        let mut best_dist = f64::INFINITY;
        let waiting = (0..n).filter(|&j| !used[j]); // LAYER
        let lowest = waiting.map(|j| candidates[j].layer()).min(); // LAYER

        for j in 0..n {
            // LAYER begins
            if Some(candidates[j].layer()) > lowest {
                continue;
            }
            // LAYER ends
            if !used[j] && cache[j].0 < best_dist {
                best_dist = cache[j].0;
                best_candidate = Some(j);
            }
        }

        let Some(chosen_idx) = best_candidate else {
            break; // all candidates consumed (shouldn't happen in this loop)
        };

        // Re-query the chosen candidate's entry point for a fresh
        // history_idx (the grid may have grown since the cache was set).
        let best_entry_idx = cache[chosen_idx].1;
        let entry_pt = candidates[chosen_idx].points()[best_entry_idx];
        // Safety: the grid is non-empty — candidate 0 was already emitted.
        let Some((best_history_idx, _)) = grid.nearest(entry_pt) else {
            unreachable!("grid is non-empty after initial emission")
        };
        used[chosen_idx] = true;

        // Retrace from current output end to the best history point.
        // Every retraced point follows an already-drawn groove
        // (invisible in sand).
        //
        // Safety: `k` is always < `current_end` (the length before this
        // loop started).  Point is Copy, so `output[k]` captures a value
        // before any reallocation caused by push.
        let current_end = output.len() - 1;
        if best_history_idx < current_end {
            for k in (best_history_idx..current_end).rev() {
                let pt = output[k];
                output.push(pt);
                grid.insert(output.len() - 1, pt);
                // CAP, this line and the next three
                if output.len() > cap {
                    return Polyline::new(output);
                }
            }
        }

        // Emit the chosen contour from the entry index.
        let pts = candidates[chosen_idx].points();
        let e = best_entry_idx;
        let last = pts.len() - 1;

        if e == 0 {
            emit_and_index(&mut output, &mut grid, pts);
        } else if e == last {
            emit_reversed_and_index(&mut output, &mut grid, pts);
        } else {
            // Split traversal: forward → retrace → backward.
            emit_and_index(&mut output, &mut grid, &pts[e..]);
            for i in (e..last).rev() {
                output.push(pts[i]);
                grid.insert(output.len() - 1, pts[i]);
            }
            for i in (0..e).rev() {
                output.push(pts[i]);
                grid.insert(output.len() - 1, pts[i]);
            }
        }

        // Update caches for candidates near the newly emitted contour.
        // Only the contour's own points are passed because the retrace
        // prefix consists of coordinate-duplicates of existing history
        // points — they cannot improve any candidate's cached distance.
        update_nearby_caches(
            candidates[chosen_idx].points(),
            &grid,
            &cell_to_samples,
            &used,
            &mut cache,
            &mut visited_cells,
            &mut cells_to_scan,
        );
    }

    Polyline::new(output)
}
