//! What the calls give, in the formats.

mod contours;
mod picture;
mod quote;

use crate::args::Format;
use crate::joined_plate::Joined;
use crate::number::{json, show};
use crate::passes::Passes;
use crate::plate::{self, Handed, word};
use crate::plate_file::PlateFile;
use crate::words;
use std::fmt::Write;
use twillharbor::{Counts, Entry, Lengths, Mark, Point, Start, StartPointStrategy, write_file};

pub use contours::contours;
pub use quote::quote;

/// The path with its marks; a plate file has none.
pub fn retrace(joined: &Joined, format: Format) -> Vec<u8> {
    let text = match format {
        Format::Text => retrace_text(joined),
        Format::Json => retrace_json(joined),
        Format::Svg => picture::retrace(joined),
        Format::PlateMarks => retrace_row(joined),
        Format::PlateFile => return plate_file(joined.path.points()),
    };
    text.into_bytes()
}

fn plate_file(path: &[Point]) -> Vec<u8> {
    write_file(path).expect("a path that the library gave is within the limits of a plate file")
}

fn retrace_text(joined: &Joined) -> String {
    let counts = words::counts(joined.path.counts());
    let lengths = words::lengths(joined.lengths());
    let passes = Passes::of(joined.path.points());
    let passes = words::passes(passes.most().map(|most| (most, joined.pair(most.first))));
    let mut text =
        format!("# retrace, {}: {counts}\n# {lengths}\n# {passes}\n", joined.plate.terms());
    for (place, (p, mark)) in joined.path.points().iter().zip(joined.path.marks()).enumerate() {
        let [_, reference] = mark.numbers();
        let kind = words::kind(*mark);
        let (contour, _) = joined.locate(joined.vertex(place));
        let layer = layer_field(joined.is_layered, joined.plate.layers[contour]);
        line(&mut text, format_args!("{} {} {kind} {reference}{layer}", show(p.x), show(p.y)));
    }
    text
}

/// What a line ends in: a blank and the layer, where the plate has layers.
fn layer_field(is_layered: bool, layer: u32) -> String {
    if is_layered { format!(" {layer}") } else { String::new() }
}

fn retrace_json(joined: &Joined) -> String {
    let marks = list(joined.path.marks().iter().map(|mark| {
        let [kind, reference] = mark.numbers();
        format!("[{kind},{reference}]")
    }));
    format!(
        "{{{},\n{},\n\"lengths\":{},\n\"passes\":{},\n\"path\":{},\n\"marks\":{marks}}}\n",
        head(&joined.plate),
        counts(joined.path.counts()),
        lengths(joined.lengths()),
        passes(joined, &Passes::of(joined.path.points())),
        coordinates(joined.path.points())
    )
}

/// Counts as members of a JSON object.
fn counts(counts: Counts) -> String {
    let Counts { points, cuts, back_steps, jumps, touches } = counts;
    format!(
        "\"points\":{points},\"cuts\":{cuts},\"back_steps\":{back_steps},\"jumps\":{jumps},\"touches\":{touches}"
    )
}

/// Lengths in 1,024ths as a JSON object.
fn lengths(lengths: Lengths) -> String {
    let Lengths { cuts, back_steps, jumps } = lengths;
    format!("{{\"cuts\":{cuts},\"back_steps\":{back_steps},\"jumps\":{jumps}}}")
}

/// The greatest number of passes over one groove as a JSON object: where that is, and how many grooves
/// there are.
pub fn passes(joined: &Joined, passes: &Passes) -> String {
    let grooves = passes.grooves();
    let Some(most) = passes.most() else { return format!("{{\"most\":0,\"grooves\":{grooves}}}") };
    let pair = joined.pair(most.first);
    let [from, to] = [pair.from, pair.to].map(|p| format!("[{},{}]", json(p.x), json(p.y)));
    format!(
        "{{\"most\":{},\"from\":{from},\"to\":{to},\"first\":{},\"last\":{},\
         \"grooves_with_most\":{},\"grooves\":{grooves}}}",
        most.passes,
        most.first,
        most.last,
        passes.grooves_with_most()
    )
}

fn retrace_row(joined: &Joined) -> String {
    let (plate, points) = (row(&joined.plate), joined.path.points());
    if points.is_empty() {
        return format!("{plate}: empty path\n");
    }
    let mark = |mark: &Mark| {
        let [kind, reference] = mark.numbers();
        format!("{kind} {reference}")
    };
    let marks: Vec<String> = joined.path.marks().iter().map(mark).collect();
    format!("{plate}: {}; marks {}\n", bracketed(points), marks.join(", "))
}

/// The ordered contours' points; `entries` is the order.
pub fn straight(plate: &Handed, entries: &[Entry], path: &[Point], format: Format) -> Vec<u8> {
    let text = match format {
        Format::Text => straight_text(plate, entries, path),
        Format::Json => {
            format!(
                "{{{},\n\"points\":{},\n\"path\":{}}}\n",
                head(plate),
                path.len(),
                coordinates(path)
            )
        }
        Format::Svg => {
            let title = format!("Straight path: {}", words::count(path.len(), "point"));
            picture::straight(plate, entries, path, &title)
        }
        Format::PlateMarks if path.is_empty() => format!("{}: empty path\n", row(plate)),
        Format::PlateMarks => format!("{}: straight {}\n", row(plate), bracketed(path)),
        Format::PlateFile => return plate_file(path),
    };
    text.into_bytes()
}

/// The path of a plate file, which tells of contours nothing. Its text is that of a plate with this
/// path for its contour.
pub fn file(file: &PlateFile, format: Format) -> String {
    let PlateFile { path, blocks } = file;
    let counts =
        format!("{} in {}", words::count(path.len(), "point"), words::count(*blocks, "block"));
    match format {
        Format::Text => {
            let mut text = format!("# plate file: {counts}\n");
            for p in path {
                line(&mut text, format_args!("{} {}", show(p.x), show(p.y)));
            }
            text
        }
        Format::Json => {
            let (points, path) = (path.len(), coordinates(path));
            format!("{{\"blocks\":{blocks},\"points\":{points},\n\"path\":{path}}}\n")
        }
        Format::Svg => {
            let plate = Joined::of_file(path, *blocks).plate;
            let whole = Entry { contour: 0, reversed: false };
            let entries = if path.is_empty() { &[][..] } else { &[whole] };
            picture::straight(&plate, entries, path, &format!("Plate file: {counts}"))
        }
        Format::PlateMarks | Format::PlateFile => no_format(),
    }
}

/// The command line is refused where it asks for a format that a command has not.
fn no_format() -> ! {
    unreachable!("the command has no such format")
}

/// Where the plate has layers, a line names each before its points, so that the path is read back
/// as a contour a layer.
fn straight_text(plate: &Handed, entries: &[Entry], path: &[Point]) -> String {
    let mut text =
        format!("# straight, {}: {}\n", plate.terms(), words::count(path.len(), "point"));
    let is_layered = plate.is_layered();
    let mut rest = path;
    let mut named = None;
    for entry in entries {
        let contour = entry.contour as usize;
        let (points, after) = rest.split_at(plate.lengths[contour] as usize);
        let layer = plate.layers[contour];
        if is_layered && named.replace(layer) != Some(layer) {
            line(&mut text, format_args!("layer {layer}"));
        }
        for p in points {
            line(&mut text, format_args!("{} {}", show(p.x), show(p.y)));
        }
        rest = after;
    }
    text
}

/// The contours in order, each with its sense.
pub fn order(plate: &Handed, entries: &[Entry], format: Format) -> String {
    match format {
        Format::Text => {
            let mut text =
                format!("# order, {}: {}\n", plate.terms(), words::count(entries.len(), "contour"));
            let is_layered = plate.is_layered();
            for entry in entries {
                let layer = layer_field(is_layered, plate.layers[entry.contour as usize]);
                line(&mut text, format_args!("{} {}{layer}", entry.contour, sense(entry.reversed)));
            }
            text
        }
        Format::Json => {
            let entries = list(entries.iter().map(|entry| {
                format!("{{\"contour\":{},\"reversed\":{}}}", entry.contour, entry.reversed)
            }));
            format!("{{{},\n\"order\":{entries}}}\n", head(plate))
        }
        Format::Svg => picture::order(plate, entries),
        Format::PlateMarks if entries.is_empty() => format!("{}: empty order\n", row(plate)),
        Format::PlateMarks => {
            let entries: Vec<String> = entries
                .iter()
                .map(|entry| format!("{} {}", entry.contour, u32::from(entry.reversed)))
                .collect();
            format!("{}: order {}\n", row(plate), entries.join(", "))
        }
        Format::PlateFile => no_format(),
    }
}

/// The contour that comes first, and its sense.
pub fn start(plate: &Handed, start: Start, format: Format) -> String {
    let sense = sense(start.reversed);
    match format {
        Format::Text => {
            let layer = layer_field(plate.is_layered(), plate.layers[start.contour as usize]);
            format!("# start, {}\n{} {sense}{layer}\n", plate.terms(), start.contour)
        }
        Format::Json => format!(
            "{{{},\n\"contour\":{},\"reversed\":{}}}\n",
            head(plate),
            start.contour,
            start.reversed
        ),
        Format::Svg => {
            let entry = Entry { contour: start.contour, reversed: start.reversed };
            picture::order(plate, &[entry])
        }
        Format::PlateMarks => format!("{}: contour {} {sense}\n", row(plate), start.contour),
        Format::PlateFile => no_format(),
    }
}

const fn sense(reversed: bool) -> &'static str {
    if reversed { "reversed" } else { "forward" }
}

/// Adds a line to a text.
fn line(text: &mut String, line: std::fmt::Arguments<'_>) {
    writeln!(text, "{line}").expect("a string takes all that is written");
}

/// The terms of a plate, as members of a JSON object.
fn head(plate: &Handed) -> String {
    let size = plate.size;
    let home = plate
        .home()
        .map_or(String::new(), |home| format!(",\"home\":[{},{}]", json(home.x), json(home.y)));
    let layers = match plate.is_layered() {
        true => format!(",\"layers\":[{}]", numbers(&plate.layers, ",")),
        false => String::new(),
    };
    format!(
        "\"width\":{},\"height\":{},\"start\":\"{}\"{home}{layers}",
        size.width,
        size.height,
        word(plate.strategy)
    )
}

fn numbers(numbers: &[u32], between: &str) -> String {
    numbers.iter().map(u32::to_string).collect::<Vec<_>>().join(between)
}

/// A JSON array, a line an element.
fn list(elements: impl Iterator<Item = String>) -> String {
    let elements: Vec<String> = elements.collect();
    format!("[{}]", elements.join(",\n"))
}

fn coordinates(points: &[Point]) -> String {
    list(points.iter().map(|p| format!("[{},{}]", json(p.x), json(p.y))))
}

/// `(0,0)(4,0)`.
fn bracketed(points: &[Point]) -> String {
    points.iter().map(|&p| plate::point(p)).collect()
}

/// A plate as document 01 writes its marked plates: `(0,0)(4,0) | (4,1)(8,1), 8 by 2, Outside`, with
/// a parked point `Home (12,0.5)`, and `, layers 0 1` where it has layers.
fn row(plate: &Handed) -> String {
    let contour = |points: Vec<Point>| match points.as_slice() {
        [] => "empty".into(),
        points => bracketed(points),
    };
    let contours: Vec<String> = plate.contours().map(contour).collect();
    let strategy = match plate.strategy {
        StartPointStrategy::Outside => "Outside".into(),
        StartPointStrategy::Inside => "Inside".into(),
        StartPointStrategy::Home(home) => format!("Home {}", plate::point(home)),
    };
    let contours = if contours.is_empty() { "none".into() } else { contours.join(" | ") };
    let layers = match plate.is_layered() {
        true => format!(", layers {}", numbers(&plate.layers, " ")),
        false => String::new(),
    };
    format!("{contours}, {} by {}, {strategy}{layers}", plate.size.width, plate.size.height)
}
