//! Plates: document 02's rows, and a plate's contours as the reference takes them.

use mujou_reference::types::{Point, Polyline};

/// Points and lengths of the plate of document 02's ticket 10.
#[must_use]
pub fn rows(contours: usize, points: usize, per_row: usize) -> (Vec<f64>, Vec<u32>) {
    let coordinates = (0..contours).flat_map(|number| in_rows(number, points, per_row)).flatten();
    (coordinates.collect(), vec![points as u32; contours])
}

/// The same with contours that start where the one before in the row ends.
#[must_use]
pub fn touching_rows(contours: usize, points: usize, per_row: usize) -> (Vec<f64>, Vec<u32>) {
    let coordinates = (0..contours).flat_map(|number| apart(0, number, points, per_row)).flatten();
    (coordinates.collect(), vec![points as u32; contours])
}

/// Layers for that many contours: the sixteen one after the other, each for as many contours as
/// the others or one less, from the highest to the lowest.
#[must_use]
pub fn falling_layers(contours: usize) -> Vec<u32> {
    const LAYERS: usize = 16;
    (0..contours).map(|number| (LAYERS - 1 - LAYERS * number / contours) as u32).collect()
}

/// The points of one contour there: from (0,0) row by row, points 1 apart along x, contours
/// 5 apart end to start, rows 10 apart.
pub fn in_rows(number: usize, points: usize, per_row: usize) -> impl Iterator<Item = [f64; 2]> {
    apart(5, number, points, per_row)
}

/// The same, contours as far apart as is said.
fn apart(
    gap: usize,
    number: usize,
    points: usize,
    per_row: usize,
) -> impl Iterator<Item = [f64; 2]> {
    let x = number % per_row * (points.saturating_sub(1) + gap);
    let y = number / per_row * 10;
    (x..x + points).map(move |x| [x as f64, y as f64])
}

/// The contours, skipped ones too.
///
/// # Panics
///
/// Where there are fewer coordinates than the lengths say.
#[must_use]
pub fn polylines(points: &[f64], lengths: &[u32]) -> Vec<Polyline> {
    let (points, _) = points.as_chunks();
    let mut points = points.iter().map(|&[x, y]| Point::new(x, y));
    let polylines = lengths.iter().map(|&length| {
        let contour: Vec<Point> = points.by_ref().take(length as usize).collect();
        assert_eq!(contour.len(), length as usize, "points are missing");
        Polyline::new(contour)
    });
    polylines.collect()
}

#[cfg(test)]
mod tests {
    use super::{falling_layers, polylines, rows, touching_rows};

    #[test]
    fn rows_lie_as_ticket_10_says() {
        let (points, lengths) = rows(5, 3, 2);
        assert_eq!(lengths, [3; 5]);
        let firsts: Vec<[f64; 2]> = points.chunks(6).map(|c| [c[0], c[1]]).collect();
        assert_eq!(firsts, [[0.0, 0.0], [7.0, 0.0], [0.0, 10.0], [7.0, 10.0], [0.0, 20.0]]);
        assert_eq!(points[..6], [0.0, 0.0, 1.0, 0.0, 2.0, 0.0]);
    }

    #[test]
    fn touching_rows_have_their_ends_in_common() {
        let (points, lengths) = touching_rows(4, 3, 3);
        assert_eq!(lengths, [3; 4]);
        let ends: Vec<[f64; 4]> = points.chunks(6).map(|c| [c[0], c[1], c[4], c[5]]).collect();
        let row = [[0.0, 0.0, 2.0, 0.0], [2.0, 0.0, 4.0, 0.0], [4.0, 0.0, 6.0, 0.0]];
        assert_eq!(ends, [&row[..], &[[0.0, 10.0, 2.0, 10.0]]].concat());
    }

    #[test]
    fn layers_fall() {
        let falling = falling_layers(32);
        assert_eq!(falling[..5], [15, 15, 14, 14, 13]);
        assert_eq!(falling[29..], [1, 0, 0]);
        assert!(falling_layers(200).is_sorted_by(|a, b| a >= b));
    }

    #[test]
    fn a_skipped_contour_is_an_empty_polyline() {
        let contours = polylines(&[1.0, 2.0, 3.0, 4.0, 5.0, 6.0], &[0, 2, 0, 1]);
        let counts: Vec<usize> = contours.iter().map(|c| c.len()).collect();
        assert_eq!(counts, [0, 2, 0, 1]);
        assert_eq!(contours[3].first().map(|p| (p.x, p.y)), Some((5.0, 6.0)));
    }
}
