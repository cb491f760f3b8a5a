//! The elements that draw contours.

use super::scan::{Number, Scan};
use super::{named, path, transform::Matrix};
use crate::plate::{Plate, Remark};
use crate::read::excerpt;
use crate::read::xml::Element;

/// Draws the contours of one shape.
pub struct Pen<'p> {
    pub plate: &'p mut Plate,
    pub transform: Option<Matrix>,
}

impl Pen<'_> {
    pub fn begin(&mut self) {
        self.plate.begin();
    }

    pub fn point(&mut self, at: (f64, f64), byte: usize) {
        let (x, y) = self.transform.map_or(at, |matrix| matrix.apply(at));
        self.plate.push(x, y, byte);
    }

    /// Ends the contour, which holds a point, on its first point, unless it does already.
    pub fn close(&mut self, byte: usize) {
        let points = &self.plate.points;
        let length = self.plate.lengths.last().map_or(0, |&length| length as usize);
        let (first, last) = (points.len() - 2 * length, points.len() - 2);
        if points[first..first + 2] != points[last..] {
            let (x, y) = (points[first], points[first + 1]);
            self.plate.push(x, y, byte);
        }
    }
}

type Draw = fn(&Element, Pen) -> Result<(), Remark>;

/// What draws an element of this name, if one is read.
pub fn drawing(element: &Element, name: &str) -> Result<Draw, Remark> {
    let message = match name {
        "polyline" => return Ok(draw_polyline),
        "polygon" => return Ok(draw_polygon),
        "path" => return Ok(path::draw),
        "line" => return Ok(draw_line),
        "rect" => return Ok(draw_rect),
        "circle" | "ellipse" => {
            format!("{} is a curve: curves are not read, flatten it to lines first", named(element))
        }
        _ => format!("{} is not read: the picture would be incomplete", named(element)),
    };
    Err(Remark::new(element.byte, message))
}

/// Whether it has a point at all.
fn draw_points(element: &Element, pen: &mut Pen) -> Result<bool, Remark> {
    let Some(value) = element.value("points") else { return Ok(false) };
    let mut scan = Scan::new(value);
    if scan.peek().is_none() {
        return Ok(false);
    }
    pen.begin();
    let mut has_more = true;
    while has_more {
        let x = scan.number()?;
        let y = scan.second()?;
        pen.point((x.value, y.value), x.byte);
        has_more = scan.has_more()?;
    }
    scan.end()?;
    Ok(true)
}

fn draw_polyline(element: &Element, mut pen: Pen) -> Result<(), Remark> {
    draw_points(element, &mut pen)?;
    Ok(())
}

fn draw_polygon(element: &Element, mut pen: Pen) -> Result<(), Remark> {
    if draw_points(element, &mut pen)? {
        pen.close(element.byte);
    }
    Ok(())
}

fn draw_line(element: &Element, mut pen: Pen) -> Result<(), Remark> {
    pen.begin();
    for [x, y] in [["x1", "y1"], ["x2", "y2"]] {
        let (x, y) = (length(element, x)?, length(element, y)?);
        pen.point((x.value, y.value), x.byte);
    }
    Ok(())
}

fn draw_rect(element: &Element, mut pen: Pen) -> Result<(), Remark> {
    for name in ["rx", "ry"] {
        if element.value(name).is_none_or(|value| value.text.trim() == "auto") {
            continue;
        }
        let radius = side(element, name)?;
        if radius.value != 0.0 {
            let message = format!("{} has round corners: curves are not read", named(element));
            return Err(Remark::new(radius.byte, message));
        }
    }
    let (x, y) = (length(element, "x")?, length(element, "y")?);
    let (width, height) = (side(element, "width")?, side(element, "height")?);
    if width.value == 0.0 || height.value == 0.0 {
        return Ok(());
    }
    let (right, bottom) = (x.value + width.value, y.value + height.value);
    pen.begin();
    pen.point((x.value, y.value), x.byte);
    pen.point((right, y.value), width.byte);
    pen.point((right, bottom), height.byte);
    pen.point((x.value, bottom), height.byte);
    pen.close(element.byte);
    Ok(())
}

/// A length that is not below 0.
fn side(element: &Element, name: &str) -> Result<Number, Remark> {
    let number = length(element, name)?;
    if number.value < 0.0 {
        let message = format!("the {name} of {} is negative", named(element));
        return Err(Remark::new(number.byte, message));
    }
    Ok(number)
}

/// An attribute that is a number without a unit; 0 where it is not given.
fn length(element: &Element, name: &str) -> Result<Number, Remark> {
    let Some(value) = element.value(name) else {
        return Ok(Number { value: 0.0, byte: element.byte });
    };
    let mut scan = Scan::new(value);
    let byte = scan.byte();
    let number = scan.number();
    scan.skip_blanks();
    match number {
        Ok(number) if scan.peek().is_none() => Ok(number),
        _ => {
            let shown = excerpt(value.text.trim());
            let message =
                format!("the {name} of {} is \"{shown}\", not a plain number", named(element));
            Err(Remark::new(byte, message))
        }
    }
}
