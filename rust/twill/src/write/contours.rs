//! Contours as a picture that is read back, bit for bit, in each of its forms.

use super::{coordinates, line, list};
use crate::args::Format;
use crate::number::show;
use crate::words::count;
use twillharbor::{Contours, Point};

/// The width of a line, in parts of the picture's longer side.
const LINE: f64 = 320.0;

/// The contours in one of the forms of pictures.
pub fn contours(contours: &Contours, format: Format) -> String {
    let (points, _) = contours.points().as_chunks();
    let mut points = points.iter().map(|&[x, y]| Point { x, y });
    let lengths = contours.lengths().iter();
    let contours: Vec<Vec<Point>> =
        lengths.map(|&length| points.by_ref().take(length as usize).collect()).collect();
    match format {
        Format::Text => text(&contours),
        Format::Json => {
            format!(
                "{{\"contours\":{}}}\n",
                list(contours.iter().map(|points| coordinates(points)))
            )
        }
        Format::Svg => svg(&contours),
        Format::PlateMarks | Format::PlateFile => super::no_format(),
    }
}

fn counts(contours: &[Vec<Point>]) -> String {
    let points = contours.iter().map(Vec::len).sum();
    format!("{}, {}", count(contours.len(), "contour"), count(points, "point"))
}

/// A point a line, and a blank line between contours.
fn text(contours: &[Vec<Point>]) -> String {
    let mut text = format!("# {}\n", counts(contours));
    for (place, points) in contours.iter().enumerate() {
        if place > 0 {
            text.push('\n');
        }
        for p in points {
            line(&mut text, format_args!("{} {}", show(p.x), show(p.y)));
        }
    }
    text
}

/// A line a contour, or a dot. The picture's sides are whole, as a plate's size is.
fn svg(contours: &[Vec<Point>]) -> String {
    let points = contours.iter().flatten();
    let [x, y] = [side(points.clone().map(|p| p.x)), side(points.map(|p| p.y))];
    let width = show(x[1].max(y[1]) / LINE);
    let shapes: String = contours.iter().map(|points| shape(points)).collect();
    format!(
        "<svg xmlns=\"http://www.w3.org/2000/svg\" viewBox=\"{} {} {} {}\">\n<title>{}</title>\n\
         <g fill=\"none\" stroke=\"#111111\" stroke-width=\"{width}\" stroke-linecap=\"round\" \
         stroke-linejoin=\"round\">\n{shapes}</g>\n</svg>\n",
        x[0],
        y[0],
        x[1],
        y[1],
        counts(contours)
    )
}

/// Where a side of the picture begins and how long it is: the least whole numbers such that 0 and all
/// these are on it, and it has a length.
fn side(coordinates: impl Iterator<Item = f64>) -> [f64; 2] {
    let [least, most] = coordinates
        .fold([0.0, 0.0], |[least, most]: [f64; 2], c| [least.min(c.floor()), most.max(c.ceil())]);
    // Not -0, whose sign would be written.
    [least + 0.0, (most - least).max(1.0)]
}

/// A polyline; a closed path for a single point, since a polyline of one point draws nothing.
fn shape(points: &[Point]) -> String {
    let shown: Vec<String> =
        points.iter().map(|p| format!("{},{}", show(p.x), show(p.y))).collect();
    match shown.as_slice() {
        [one] => format!("<path d=\"M{one}Z\"/>\n"),
        all => format!("<polyline points=\"{}\"/>\n", all.join(" ")),
    }
}

#[cfg(test)]
mod tests {
    use super::{shape, side, svg, text};
    use crate::read;
    use twillharbor::Point;

    fn contour(points: &[[f64; 2]]) -> Vec<Point> {
        points.iter().map(|&[x, y]| Point { x, y }).collect()
    }

    #[test]
    fn a_picture_begins_at_0_where_no_coordinate_is_below() {
        for (coordinates, expected) in [
            (&[][..], [0.0, 1.0]),
            (&[0.0, 4.0], [0.0, 4.0]),
            (&[-0.0], [0.0, 1.0]),
            (&[0.25, 7.5], [0.0, 8.0]),
            (&[-0.25, -7.5], [-8.0, 8.0]),
            (&[-3.0, -0.0, 2.5], [-3.0, 6.0]),
            (&[-1e6, 1e6], [-1e6, 2e6]),
        ] {
            let found = side(coordinates.iter().copied());
            assert_eq!(found.map(f64::to_bits), expected.map(f64::to_bits), "{coordinates:?}");
        }
    }

    #[test]
    fn a_single_point_is_drawn() {
        assert_eq!(shape(&contour(&[[3.0, -0.5]])), "<path d=\"M3,-0.5Z\"/>\n");
        let line = contour(&[[3.0, 4.0], [0.0, -0.0]]);
        assert_eq!(shape(&line), "<polyline points=\"3,4 0,-0\"/>\n");
    }

    #[test]
    fn contours_that_end_where_they_begin_are_read_back() {
        let (a, b) = ([0.0, 0.0], [4.0, 1e-300]);
        let contours = [contour(&[a, b, a]), contour(&[b, b]), contour(&[b]), contour(&[a])];
        for written in [text(&contours), svg(&contours)] {
            let plate = read::read(&written).unwrap();
            assert_eq!(plate.lengths, [3, 2, 1, 1], "{written}");
            assert_eq!(plate.points, [a, b, a, b, b, b, a].as_flattened(), "{written}");
            assert_eq!((&plate.notes[..], &plate.layer_notes[..]), (&[][..], &[][..]));
        }
        for written in [text(&[]), svg(&[])] {
            assert_eq!(read::read(&written).unwrap().lengths, [], "{written}");
        }
    }
}
