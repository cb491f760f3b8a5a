//! The layers of a picture: Inkscape's layer groups, numbered as they follow one another, and the
//! numbers that `data-layer` gives, which win.

use super::named;
use crate::plate::{Layer, Plate, Remark};
use crate::read::excerpt;
use crate::read::xml::{Element, Value};
use crate::{number, words};
use std::collections::BTreeSet;
use twillharbor::HIGHEST_LAYER;

/// More are not listed in a note.
const MOST_LISTED: usize = 16;

/// What holds for all that is in an element.
#[derive(Clone, Default)]
pub struct Within {
    pub layer: Layer,
    /// A layer group is around it, of which layer groups within it are part.
    is_grouped: bool,
    /// A `data-layer` is around it.
    is_numbered: bool,
}

/// The layer groups so far, but those within another.
#[derive(Default)]
pub struct Groups {
    /// For each its label and place, and the number of the layer that holds in it.
    shown: Vec<Layer>,
    /// How many have display none.
    hidden: usize,
}

impl Groups {
    /// What holds within an element, given what holds around it.
    pub fn within(&mut self, outer: &Within, element: &Element) -> Result<Within, Remark> {
        let mut inner = outer.clone();
        let group = is_layer_group(outer, element).then(|| self.next(element));
        if let Some(group) = &group {
            inner.is_grouped = true;
            if !outer.is_numbered {
                inner.layer = group.clone();
            }
        }
        if let Some(value) = element.value("data-layer") {
            inner.layer = Layer::new(data_layer(element, value)?, value.place(0));
            inner.is_numbered = true;
        }
        self.shown.extend(group.map(|group| Layer { number: inner.layer.number, ..group }));
        Ok(inner)
    }

    /// Counts an element that is passed over if it is a layer group, which then has display none.
    pub fn pass_over(&mut self, outer: &Within, element: &Element) {
        self.hidden += usize::from(is_layer_group(outer, element));
    }

    /// The layer that a layer group is by its place among them.
    fn next(&self, element: &Element) -> Layer {
        let label = element.value("inkscape:label").or(element.value("id"));
        Layer {
            number: u32::try_from(self.shown.len()).unwrap_or(u32::MAX),
            byte: Some(element.byte),
            label: label.map(|label| escaped(&label.text).into()),
        }
    }

    /// Adds what the user is to be told of the layers, if there are any.
    pub fn note(&self, plate: &mut Plate) {
        if plate.layers.iter().all(|layer| layer.number == 0) {
            return;
        }
        let notes = [self.listed(), self.given(plate), outside(plate)];
        plate.layer_notes.extend(notes.into_iter().flatten());
    }

    /// `layer groups, in their order: 0 "Deep", 1 "Frosted"`.
    fn listed(&self) -> Option<Remark> {
        let byte = self.shown.first()?.byte?;
        let shown = self.shown.iter().take(MOST_LISTED).map(|layer| match &layer.label {
            Some(label) => format!("{} \"{label}\"", layer.number),
            None => layer.number.to_string(),
        });
        let shown = shown.collect::<Vec<_>>().join(", ");
        let more = more(self.shown.len());
        let hidden = match self.hidden {
            0 => String::new(),
            1 => ", and a hidden one that has no number".into(),
            count => format!(", and {count} hidden ones that have no number"),
        };
        let message = format!("layer groups, in their order: {shown}{more}{hidden}");
        Some(Remark::new(byte, message))
    }

    /// `data-layer gives layers 3 and 7`: those of the contours whose layer is given, and not at
    /// a group.
    fn given(&self, plate: &Plate) -> Option<Remark> {
        let groups: BTreeSet<Option<usize>> = self.shown.iter().map(|group| group.byte).collect();
        let is_given = |layer: &&Layer| layer.byte.is_some() && !groups.contains(&layer.byte);
        let given = plate.layers.iter().filter(is_given);
        let byte = given.clone().filter_map(|layer| layer.byte).min()?;
        let numbers: BTreeSet<u32> = given.map(|layer| layer.number).collect();
        let shown = words::layers(numbers.iter().take(MOST_LISTED));
        let more = more(numbers.len());
        Some(Remark::new(byte, format!("data-layer gives {shown}{more}")))
    }
}

/// How many contours are in no layer, at the first.
fn outside(plate: &Plate) -> Option<Remark> {
    let is_outside = |layer: &Layer| layer.byte.is_none();
    let first = plate.layers.iter().position(is_outside)?;
    let vertex: u32 = plate.lengths[..first].iter().sum();
    let message = match plate.layers.iter().filter(|layer| is_outside(layer)).count() {
        1 => "one contour stands outside of all layers: it is of layer 0".into(),
        count => format!("{count} contours stand outside of all layers: they are of layer 0"),
    };
    Some(Remark::new(plate.bytes[vertex as usize], message))
}

/// What a list ends in, given how many there are.
const fn more(count: usize) -> &'static str {
    if count > MOST_LISTED { ", .." } else { "" }
}

/// A label, to be shown in quotes.
fn escaped(label: &str) -> String {
    excerpt(&label.replace('\\', "\\\\").replace('"', "\\\""))
}

/// Whether it is a layer group that is not part of another.
fn is_layer_group(outer: &Within, element: &Element) -> bool {
    let name = element.name.strip_prefix("svg:").unwrap_or(element.name);
    let mode = element.value("inkscape:groupmode");
    !outer.is_grouped && name == "g" && mode.is_some_and(|mode| mode.text == "layer")
}

/// Above the highest layer it is the library that refuses it.
fn data_layer(element: &Element, value: &Value) -> Result<u32, Remark> {
    let word = value.text.trim();
    number::whole(word).ok_or_else(|| {
        let message = format!(
            "the data-layer of {} is \"{}\", not a whole number from 0 to {HIGHEST_LAYER}",
            named(element),
            excerpt(word)
        );
        Remark::new(value.place(0), message)
    })
}
