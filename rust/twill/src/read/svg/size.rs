//! The plate's size, from the root's viewBox or else its width and height.

use super::{named, scan::Number, scan::Scan};
use crate::number;
use crate::plate::{Plate, Remark};
use crate::read::xml::{Element, Value};

pub fn read(root: &Element, plate: &mut Plate) -> Result<(), Remark> {
    let sides = [root.value("width"), root.value("height")];
    let size = match (root.value("viewBox"), sides) {
        (Some(value), _) => Some(view_box(value, root, plate)?),
        (None, [Some(width), Some(height)]) => pixels(width)?.zip(pixels(height)?),
        (None, _) => None,
    };
    if let (None, Some(side)) = (size, sides.into_iter().flatten().next()) {
        let message = "width and height are not both given in user units, so the plate has no size; \
                       --width and --height give one";
        plate.notes.push(Remark::new(side.place(0), message));
    }
    let Some((width, height)) = size else { return Ok(()) };
    let (whole_width, whole_height) = (whole(width)?, whole(height)?);
    plate.width = Some(whole_width);
    plate.height = Some(whole_height);
    if f64::from(whole_width) != width.value || f64::from(whole_height) != height.value {
        let message = format!(
            "the plate's size {} by {} is taken as {whole_width} by {whole_height}; \
             --width and --height give another",
            number::show(width.value),
            number::show(height.value)
        );
        plate.notes.push(Remark::new(width.byte, message));
    }
    Ok(())
}

fn view_box(value: &Value, root: &Element, plate: &mut Plate) -> Result<(Number, Number), Remark> {
    let numbers = Scan::new(value).numbers()?;
    let &[left, top, width, height] = numbers.as_slice() else {
        let message =
            format!("the viewBox of {} has {} numbers, not 4", named(root), numbers.len());
        return Err(Remark::new(value.place(0), message));
    };
    if left.value != 0.0 || top.value != 0.0 {
        let message = format!(
            "the viewBox begins at {},{}, but the centre is reckoned from 0,0",
            number::show(left.value),
            number::show(top.value)
        );
        plate.notes.push(Remark::new(left.byte, message));
    }
    Ok((width, height))
}

/// A length in user units, which px are; none where it has another unit.
fn pixels(value: &Value) -> Result<Option<Number>, Remark> {
    if value.text.trim() == "auto" {
        return Ok(None);
    }
    let mut scan = Scan::new(value);
    let number = scan.number()?;
    match scan.rest().trim_end() {
        "" | "px" => Ok(Some(number)),
        "%" => Ok(None),
        unit if unit.bytes().all(|b| b.is_ascii_alphabetic()) => Ok(None),
        _ => Err(scan.unexpected("a unit")),
    }
}

fn whole(number: Number) -> Result<u32, Remark> {
    let rounded = number.value.round();
    if number.value >= 0.0 && rounded <= f64::from(u32::MAX) {
        // In range and whole, so the cast is exact.
        return Ok(rounded as u32);
    }
    let message =
        format!("the plate's size {} is not from 0 to {}", number::show(number.value), u32::MAX);
    Err(Remark::new(number.byte, message))
}
