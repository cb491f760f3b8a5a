// LAYER: reference/src/optimize.rs with layers. What differs is marked with that word.
// From crates/mujou-pipeline/src/optimize.rs of mujou at commit 8cf2e3ae71.
// Copyright (c) 2026 The mujou Authors. MIT OR Apache-2.0.
//
// Cut: the tests. Its one function is public and needs no test door.

//! Path optimization: reorder and orient contours to minimize travel distance.
//!
//! Uses a nearest-neighbor greedy heuristic on contour endpoints.
//! For each pair of contours, the minimum of four endpoint distances
//! (start-start, start-end, end-start, end-end) determines proximity.
//! Each contour may be reversed to minimize the gap from the previous
//! contour's endpoint.
//!
//! This is step 7 in the pipeline, between path simplification and path
//! joining.

use crate::join::choose_start_contour;
use crate::types::{Dimensions, Point, Polyline, StartPointStrategy};

/// Reorder and orient contours to minimize total travel distance.
///
/// Uses a nearest-neighbor greedy heuristic starting from the contour
/// chosen by [`StartPointStrategy`] and image dimensions. Greedily
/// visits the nearest unvisited contour, reversing its direction if
/// that shortens the gap from the previous contour's endpoint.
///
/// Returns the reordered (and possibly reversed) contours. Empty contours
/// are filtered out. If all contours are empty, returns an empty vec.
#[must_use = "returns the optimized contour ordering"]
pub fn optimize_path_order(
    contours: &[Polyline],
    strategy: StartPointStrategy,
    dims: Dimensions,
) -> Vec<Polyline> {
    // Filter out empty contours and collect into owned working set.
    let candidates: Vec<&Polyline> = contours.iter().filter(|c| !c.is_empty()).collect();

    if candidates.is_empty() {
        return Vec::new();
    }

    let n = candidates.len();
    let mut visited = vec![false; n];
    let mut result = Vec::with_capacity(n);

    // Start with the contour chosen by the start-point strategy.
    // `reversed` is true when the winning endpoint is the contour's
    // last point, meaning we must flip it so the path begins there.
    let (start, reversed) = choose_start_contour(&candidates, strategy, dims);
    visited[start] = true;
    if reversed {
        let mut pts = candidates[start].clone().into_points();
        pts.reverse();
        result.push(Polyline::new(pts));
    } else {
        result.push(candidates[start].clone());
    }

    for _ in 1..n {
        let current_end = result
            .last()
            .and_then(Polyline::last)
            .copied()
            .unwrap_or(Point::new(0.0, 0.0));

        let mut best: Option<(usize, bool)> = None;
        let mut best_dist = f64::INFINITY;
        let waiting = (0..n).filter(|&j| !visited[j]); // LAYER
        let lowest = waiting.map(|j| candidates[j].layer()).min(); // LAYER

        for (j, candidate) in candidates.iter().enumerate() {
            if visited[j] {
                continue;
            }
            // LAYER begins
            if Some(candidate.layer()) > lowest {
                continue;
            }
            // LAYER ends

            // unwrap_or is safe here because we filtered empty contours.
            let c_start = candidate.first().copied().unwrap_or(Point::new(0.0, 0.0));
            let c_end = candidate.last().copied().unwrap_or(Point::new(0.0, 0.0));

            let dist_forward = current_end.distance_squared(c_start);
            let dist_reverse = current_end.distance_squared(c_end);

            let (dist, reversed) = if dist_forward <= dist_reverse {
                (dist_forward, false)
            } else {
                (dist_reverse, true)
            };

            if dist < best_dist {
                best_dist = dist;
                best = Some((j, reversed));
            }
        }

        // The loop invariant guarantees at least one unvisited candidate,
        // so `best` is always `Some` here.
        let Some((best_idx, best_reversed)) = best else {
            unreachable!("all candidates visited before loop completed");
        };

        visited[best_idx] = true;

        if best_reversed {
            let mut points = candidates[best_idx].clone().into_points();
            points.reverse();
            result.push(Polyline::new(points));
        } else {
            result.push(candidates[best_idx].clone());
        }
    }

    result
}
