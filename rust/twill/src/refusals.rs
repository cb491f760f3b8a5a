//! Refusals of the library, told with what stands at their place.

use crate::number::show;
use crate::plate::{Handed, Layer, Position};
use crate::words::{count, grouped};
use twillharbor::{LayerFault, Mark, Point, Refusal, retrace_work};

/// A plate with the file that it was read from.
pub struct Loaded {
    /// The file's name, for messages.
    pub name: String,
    pub text: String,
    /// For each point the byte of the text at which it stands.
    pub bytes: Vec<usize>,
    /// The layers, with where the file gives them.
    pub layers: Vec<Layer>,
    /// The byte of the text at which the file lists them by themselves, if it does.
    pub layers_byte: Option<usize>,
    /// The byte of the text at which the parked point stands, if it is the file's.
    pub home_byte: Option<usize>,
    pub plate: Handed,
}

/// One line about why a plate was refused.
pub fn refused(loaded: &Loaded, refusal: Refusal) -> String {
    let Loaded { name, plate, .. } = loaded;
    let points = plate.points.len() / 2;
    let contours = plate.lengths.len();
    let reason = match refusal {
        Refusal::TooManyContours => {
            format!("{}, and 4,096 is the most", count(contours, "contour"))
        }
        Refusal::TooManyPoints => format!("{}, and 65,536 is the most", count(points, "point")),
        Refusal::BadLayer(LayerFault::Layer { contour }) => {
            return bad_layer(loaded, contour as usize, refusal);
        }
        Refusal::BadLayer(LayerFault::Length { .. }) => return layers_length(loaded, refusal),
        Refusal::HomeOffThePlate { place } => return home_off_the_plate(loaded, place, refusal),
        Refusal::OffThePlate { place } => return off_the_plate(loaded, place as usize, refusal),
        Refusal::Full { place } => full(plate, place as usize),
        Refusal::Blank => match contours {
            0 => "there is no contour, so there is no start".into(),
            1 => "the contour holds no point, so there is no start".into(),
            _ => format!("none of {contours} contours holds a point, so there is no start"),
        },
        _ => "the library was not handed what the file holds".into(),
    };
    format!("{name}: refused: {refusal}: {reason}")
}

/// A layer above 15 was given by the file, for 0 is that of a contour which it gives none.
fn bad_layer(loaded: &Loaded, contour: usize, refusal: Refusal) -> String {
    let Loaded { name, text, layers, .. } = loaded;
    let layer = &layers[contour];
    let position = Position::of(text, layer.byte.unwrap_or_default());
    let label = layer.label.as_ref().map_or(String::new(), |label| format!(", \"{label}\""));
    let number = layer.number;
    format!("{name}:{position}: refused: {refusal}: it is {number}{label}")
}

/// The layers can be of another number than the contours only where the file lists them.
fn layers_length(loaded: &Loaded, refusal: Refusal) -> String {
    let Loaded { name, text, layers, layers_byte, .. } = loaded;
    let position = Position::of(text, layers_byte.unwrap_or_default());
    let listed = count(layers.len(), "layer");
    format!("{name}:{position}: refused: {refusal}: the file lists {listed}")
}

/// The refusal names the coordinate itself.
fn home_off_the_plate(loaded: &Loaded, place: u32, refusal: Refusal) -> String {
    let Loaded { name, text, home_byte, plate, .. } = loaded;
    let home = plate.home().expect("the library refuses a parked point that it was handed");
    let position = match home_byte {
        Some(byte) => format!(":{}", Position::of(text, *byte)),
        None => String::new(),
    };
    let value = show(if place == 0 { home.x } else { home.y });
    format!(
        "{name}{position}: refused: {refusal} = {value}; \
         a coordinate lies between -1,000,000 and 1,000,000"
    )
}

fn off_the_plate(loaded: &Loaded, place: usize, refusal: Refusal) -> String {
    let Loaded { name, text, bytes, plate, .. } = loaded;
    let vertex = place / 2;
    let axis = if place.is_multiple_of(2) { "x" } else { "y" };
    let position = Position::of(text, bytes[vertex]);
    let named = plate.vertices().nth(vertex);
    let (contour, within) = named.expect("the library names a point of the plate");
    let value = show(plate.points[place]);
    format!(
        "{name}:{position}: refused: {refusal}: contour {contour}, vertex {within}, {axis} = {value}; \
         a coordinate lies between -1,000,000 and 1,000,000"
    )
}

/// How far the path got: what the library writes before it gives up, it leaves.
fn full(plate: &Handed, capacity: usize) -> String {
    let points = plate.points.len() / 2;
    let mut path = vec![0.0; 2 * capacity];
    let mut marks = vec![0; 2 * capacity];
    let mut work = vec![0; retrace_work(capacity, points, plate.lengths.len())];
    let mut distances = vec![0.0; plate.lengths.len()];
    // The answer is known: it is the refusal that is being told.
    let _ = plate.plate().retrace_into(
        plate.size,
        plate.strategy,
        &mut path,
        &mut marks,
        &mut work,
        &mut distances,
    );
    let (marks, _) = marks.as_chunks();
    let marks: Vec<Mark> = marks.iter().filter_map(|&numbers| Mark::of(numbers)).collect();
    let back_steps = marks.iter().filter(|mark| matches!(mark, Mark::BackStep { .. })).count();
    let is_landing =
        |mark: &&Mark| matches!(mark, Mark::Start { .. } | Mark::Jump { .. } | Mark::Touch { .. });
    let entered = marks.iter().filter(is_landing).count();
    let held = plate.lengths.iter().filter(|&&length| length > 0).count();
    format!(
        "the path outgrew {} points, the most that it can have, with {} of {} contours entered and {} \
         back-steps; each walk back over earlier grooves goes over the walks before it too, so a path can \
         be far longer than the plate's {}; fewer and longer contours, listed in the order in which they \
         lie, make it shorter",
        grouped(capacity),
        grouped(entered),
        grouped(held),
        grouped(back_steps),
        count(points, "point")
    )
}

/// One line about why the distance of two points was refused.
pub fn distance_refused(a: Point, b: Point, refusal: Refusal) -> String {
    let (name, value) = match refusal.place() {
        0 => ("ax", a.x),
        1 => ("ay", a.y),
        2 => ("bx", b.x),
        _ => ("by", b.y),
    };
    format!(
        "distance: refused: {refusal}: {name} = {}; a coordinate lies between -2,147,483,648 and 2,147,483,648",
        show(value)
    )
}
