//! The `transform` of an element: translate, scale and matrix.
//!
//! The functions are multiplied from the outermost group's first to the shape's last, in f64.

use super::{named, scan::Scan};
use crate::plate::Remark;
use crate::read::excerpt;
use crate::read::xml::Element;

/// SVG's a b c d e f.
#[derive(Clone, Copy)]
pub struct Matrix([f64; 6]);

impl Matrix {
    pub fn apply(self, (x, y): (f64, f64)) -> (f64, f64) {
        let [a, b, c, d, e, f] = self.0;
        (a * x + c * y + e, b * x + d * y + f)
    }

    fn times(self, inner: Self) -> Self {
        let [a, b, c, d, e, f] = self.0;
        let [p, q, r, s, t, u] = inner.0;
        Self([
            a * p + c * q,
            b * p + d * q,
            a * r + c * s,
            b * r + d * s,
            a * t + c * u + e,
            b * t + d * u + f,
        ])
    }
}

/// What holds within an element, of which what holds around it is known. It is none as long as
/// no function was met, so that coordinates are kept as they are.
pub fn within(outer: Option<Matrix>, element: &Element) -> Result<Option<Matrix>, Remark> {
    let Some(value) = element.value("transform") else { return Ok(outer) };
    let mut scan = Scan::new(value);
    let mut matrix = outer;
    while scan.peek().is_some() {
        let inner = function(&mut scan, element)?;
        matrix = Some(matrix.map_or(inner, |outer| outer.times(inner)));
        let comma = scan.skip_separator();
        if let (Some(comma), None) = (comma, scan.peek()) {
            return Err(Remark::new(comma, "no function follows this comma"));
        }
    }
    Ok(matrix)
}

fn function(scan: &mut Scan, element: &Element) -> Result<Matrix, Remark> {
    let byte = scan.byte();
    let name_length = scan.rest().bytes().take_while(u8::is_ascii_alphanumeric).count();
    let name = &scan.rest()[..name_length];
    match name {
        "translate" | "scale" | "matrix" => scan.advance(name_length),
        "" => return Err(scan.unexpected("a function of transform")),
        _ => {
            let message = format!(
                "{} has the transform {}: only translate, scale and matrix are read",
                named(element),
                excerpt(name)
            );
            return Err(Remark::new(byte, message));
        }
    }
    let numbers = arguments(scan)?;
    match (name, numbers.as_slice()) {
        ("translate", &[x]) => Ok(Matrix([1.0, 0.0, 0.0, 1.0, x, 0.0])),
        ("translate", &[x, y]) => Ok(Matrix([1.0, 0.0, 0.0, 1.0, x, y])),
        ("scale", &[x]) => Ok(Matrix([x, 0.0, 0.0, x, 0.0, 0.0])),
        ("scale", &[x, y]) => Ok(Matrix([x, 0.0, 0.0, y, 0.0, 0.0])),
        ("matrix", &[a, b, c, d, e, f]) => Ok(Matrix([a, b, c, d, e, f])),
        _ => {
            let wanted = if name == "matrix" { "6 numbers" } else { "1 or 2 numbers" };
            Err(Remark::new(byte, format!("{name} takes {wanted}, not {}", numbers.len())))
        }
    }
}

/// The numbers in a function's parentheses.
fn arguments(scan: &mut Scan) -> Result<Vec<f64>, Remark> {
    scan.skip_blanks();
    if scan.peek() != Some(b'(') {
        return Err(scan.unexpected("("));
    }
    scan.advance(1);
    scan.skip_blanks();
    let mut numbers = Vec::new();
    let mut has_more = scan.peek() != Some(b')');
    while has_more {
        numbers.push(scan.number()?.value);
        has_more = scan.has_more()?;
    }
    if scan.peek() != Some(b')') {
        return Err(scan.unexpected("a number or )"));
    }
    scan.advance(1);
    Ok(numbers)
}
