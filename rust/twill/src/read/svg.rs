//! SVG pictures as plates.
//!
//! Read are `polyline`, `polygon`, `path` (M L H V Z), `line` and `rect`, in `g`, `a` and `svg`,
//! under translate, scale and matrix. Coordinates are user units as the file has them; without
//! a transform around them they are kept bit for bit. Definitions, descriptions, elements with a
//! foreign prefix and what has display none are passed over. All else would leave the picture
//! incomplete, so it is refused by name. So are properties that hide, clip or move what is drawn,
//! on an element, in its style or in a stylesheet; no others are looked at. Layers are Inkscape's
//! layer groups in their order, or what `data-layer` says.

mod layer;
mod path;
mod scan;
mod shapes;
mod size;
mod style;
#[cfg(test)]
mod tests;
mod transform;

use super::excerpt;
use super::xml::{Content, Element, Event, Tokens};
use crate::plate::{Plate, Remark};
use shapes::Pen;
use transform::Matrix;

/// Elements that draw nothing where they stand.
const PASSED_OVER: [&str; 14] = [
    "title",
    "desc",
    "metadata",
    "style",
    "defs",
    "symbol",
    "clipPath",
    "mask",
    "marker",
    "pattern",
    "linearGradient",
    "radialGradient",
    "filter",
    "script",
];

const NAMESPACE: &str = "http://www.w3.org/2000/svg";

pub fn read(text: &str) -> Result<Plate, Remark> {
    let mut tokens = Tokens::new(text);
    let mut reader = Reader {
        plate: Plate::default(),
        open: Vec::new(),
        layers: layer::Groups::default(),
        passed_over: 0,
        sheets: 0,
    };
    while let Some(event) = tokens.event()? {
        match event {
            Event::Open(element) => reader.open(&element)?,
            Event::Close(content) => reader.close(content)?,
        }
    }
    reader.layers.note(&mut reader.plate);
    Ok(reader.plate)
}

/// An element that is not closed yet.
#[derive(Clone)]
enum Open {
    /// With what holds for all that is in it.
    Group(Option<Matrix>, layer::Within),
    Shape,
}

struct Reader {
    plate: Plate,
    open: Vec<Open>,
    layers: layer::Groups,
    /// How many elements are open from the one on that is passed over.
    passed_over: usize,
    /// How many of the open elements are stylesheets.
    sheets: usize,
}

impl Reader {
    fn open(&mut self, element: &Element) -> Result<(), Remark> {
        self.sheets += usize::from(is_sheet(element.name));
        if self.passed_over > 0 {
            self.passed_over += 1;
            return Ok(());
        }
        let name = element.name.strip_prefix("svg:").unwrap_or(element.name);
        let outer = self.open.last().cloned();
        if outer.is_none() {
            self.root(element, name)?;
        }
        check_prefixes(element)?;
        if name.contains(':') || PASSED_OVER.contains(&name) || style::is_hidden(element) {
            self.pass_over(outer, element);
            return Ok(());
        }
        style::check(element, name)?;
        let opened = match (outer, name) {
            (None, _) => Open::Group(None, self.layers.within(&layer::Within::default(), element)?),
            (Some(Open::Shape), _) => {
                let message = format!("{} stands within a shape", named(element));
                return Err(Remark::new(element.byte, message));
            }
            (Some(Open::Group(outer, around)), "g" | "a" | "svg") => {
                check_nested(element, name)?;
                let transform = transform::within(outer, element)?;
                Open::Group(transform, self.layers.within(&around, element)?)
            }
            (Some(Open::Group(outer, around)), _) => {
                let draw = shapes::drawing(element, name)?;
                let transform = transform::within(outer, element)?;
                self.plate.layer = self.layers.within(&around, element)?.layer;
                draw(element, Pen { plate: &mut self.plate, transform })?;
                Open::Shape
            }
        };
        self.open.push(opened);
        Ok(())
    }

    fn pass_over(&mut self, outer: Option<Open>, element: &Element) {
        self.passed_over = 1;
        if let Some(Open::Group(_, around)) = outer {
            self.layers.pass_over(&around, element);
        }
    }

    fn close(&mut self, content: Content) -> Result<(), Remark> {
        // Wherever it stands, it holds for all of the picture. One within another is looked at
        // as a part of that.
        if is_sheet(content.name) {
            self.sheets -= 1;
            if self.sheets == 0 {
                style::check_sheet(content)?;
            }
        }
        if self.passed_over > 0 {
            self.passed_over -= 1;
        } else {
            self.open.pop();
        }
        Ok(())
    }

    fn root(&mut self, element: &Element, name: &str) -> Result<(), Remark> {
        if name != "svg" {
            let message = format!("the root element is {}, not <svg>", named(element));
            return Err(Remark::new(element.byte, message));
        }
        // Programs turn and scale the root about other points than a group.
        if let Some(transform) = element.attributes.iter().find(|a| a.name == "transform") {
            let message = "the root has a transform: it is read on a group, not here";
            return Err(Remark::new(transform.byte, message));
        }
        size::read(element, &mut self.plate)
    }
}

fn is_sheet(name: &str) -> bool {
    matches!(name, "style" | "svg:style")
}

/// `<path id="leaf">`, to name an element in a remark.
fn named(element: &Element) -> String {
    let name = excerpt(element.name);
    match element.value("id") {
        Some(id) => format!("<{name} id=\"{}\">", excerpt(&id.text)),
        None => format!("<{name}>"),
    }
}

/// Elements of SVG have no prefix or `svg:`. Under another one they would be passed over.
fn check_prefixes(element: &Element) -> Result<(), Remark> {
    for attribute in &element.attributes {
        let prefix = attribute.name.strip_prefix("xmlns:");
        if prefix.is_some_and(|prefix| prefix != "svg") && attribute.value.text == NAMESPACE {
            let message =
                format!("{} makes a prefix of SVG's: only svg: is read", excerpt(attribute.name));
            return Err(Remark::new(attribute.byte, message));
        }
    }
    Ok(())
}

/// A nested `svg` is read as a group, so it must not move, scale or clip what is in it.
fn check_nested(element: &Element, name: &str) -> Result<(), Remark> {
    let is_placing = |name| matches!(name, "x" | "y" | "width" | "height" | "viewBox");
    let placing = element.attributes.iter().find(|attribute| is_placing(attribute.name));
    match placing {
        Some(placing) if name == "svg" => {
            let message = format!(
                "{} within the picture has {}: use a group with a transform",
                named(element),
                placing.name
            );
            Err(Remark::new(placing.byte, message))
        }
        _ => Ok(()),
    }
}
