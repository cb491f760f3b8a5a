//! Pictures in SVG. The four kinds of pair differ without colour too: a cut is a thin line, a
//! groove that is gone back over has a wide pale band under it, a jump is a dashed arrow, and a touch
//! a lozenge. Layers differ in colour and dashes, and each is a group with its name as title. A
//! parked point is a square around a dot. The colours are those of the page.

use crate::joined_plate::Joined;
use crate::number::show;
use crate::plate::{self, Handed};
use crate::words;
use std::collections::{BTreeMap, BTreeSet};
use std::fmt::Write;
use twillharbor::{Entry, PairKind, Point};

const CUT: &str = "#111111";
const BACK_STEP: &str = "#d55e00";
const JUMP: &str = "#0072b2";
const TOUCH: &str = "#5d3a9b";
const HOME: &str = "#8a6fb0";

/// A layer's dashes are by its number modulo 4, in units; its colour goes on by one after each four,
/// so that no two of sixteen layers look alike.
const LAYER_DASHES: [&[f64]; 4] = [&[], &[6.0, 2.6], &[0.1, 2.2], &[6.0, 2.4, 0.1, 2.4]];
const LAYER_COLOURS: [&str; 4] = [CUT, "#007a53", "#a8327d", "#7a5200"];

/// From a lozenge's middle to its corners, in units.
const LOZENGE: f64 = 2.3;
/// The side of a parked point's square, in units.
const SQUARE: f64 = 10.0;

/// How the lines of one kind are drawn.
struct Style<'a> {
    class: &'a str,
    colour: &'a str,
    /// In units.
    width: f64,
    /// Further attributes.
    more: &'a str,
}

/// The part of the plane that is drawn.
struct Frame {
    left: f64,
    top: f64,
    width: f64,
    height: f64,
    /// The width of a line.
    unit: f64,
}

/// A rectangle, by the least and the greatest coordinates in it.
#[derive(Clone, Copy)]
struct Extent {
    least: [f64; 2],
    most: [f64; 2],
}

impl Extent {
    /// Around all points.
    fn of(points: &[[f64; 2]]) -> Self {
        let Some(&first) = points.first() else { return Self { least: [0.0; 2], most: [1.0; 2] } };
        points.iter().fold(Self { least: first, most: first }, |extent, &point| extent.with(point))
    }

    fn with(self, point: [f64; 2]) -> Self {
        let least = [0, 1].map(|axis| self.least[axis].min(point[axis]));
        Self { least, most: [0, 1].map(|axis| self.most[axis].max(point[axis])) }
    }

    /// The longer side.
    fn side(self) -> f64 {
        (self.most[0] - self.least[0]).max(self.most[1] - self.least[1])
    }
}

impl Frame {
    /// All points with a margin around them, and the parked point too, unless the contours would
    /// become small by it.
    fn around(plate: &Handed) -> Self {
        let mut extent = Extent::of(plate.points.as_chunks().0);
        if let Some(home) = plate.home() {
            let wider = extent.with([home.x, home.y]);
            let is_near = extent.side() == 0.0 || wider.side() <= 2.0 * extent.side();
            extent = if is_near { wider } else { extent };
        }
        let Extent { least: [left, top], most: [right, bottom] } = extent;
        let side = extent.side().max(1e-3);
        let unit = side / 320.0;
        let margin = 16.0 * unit;
        // Wide enough for the words under the plate, of which a parked point's are the longest.
        let words = if plate.home().is_some() { 290.0 } else { 210.0 };
        let width = (right - left + 2.0 * margin).max(words * unit);
        Self {
            left: (left + right - width) / 2.0,
            top: top - margin,
            width,
            height: bottom - top + 2.0 * margin,
            unit,
        }
    }

    /// A picture: `foot` units are kept free under the plate.
    fn picture(&self, title: &str, foot: f64, body: &str) -> String {
        let (left, top, width) = (show(self.left), show(self.top), show(self.width));
        let height = show(self.height + foot * self.unit);
        let arrow = format!(
            "<marker id=\"arrow\" viewBox=\"0 0 6 6\" refX=\"6\" refY=\"3\" markerWidth=\"4\" \
             markerHeight=\"4\" orient=\"auto\"><path d=\"M0,0L6,3L0,6Z\" fill=\"{JUMP}\"/></marker>"
        );
        format!(
            "<svg xmlns=\"http://www.w3.org/2000/svg\" viewBox=\"{left} {top} {width} {height}\">\n\
             <title>{title}</title>\n<defs>{arrow}</defs>\n\
             <rect x=\"{left}\" y=\"{top}\" width=\"{width}\" height=\"{height}\" fill=\"#fff\"/>\n\
             <g fill=\"none\" stroke-linecap=\"round\" stroke-linejoin=\"round\">\n{body}</g>\n</svg>\n"
        )
    }

    fn cuts(&self, data: &str) -> String {
        self.lines(data, Style { class: "cuts", colour: CUT, width: 1.0, more: "" })
    }

    /// The contours' lines and dots, those of each layer in its look where the plate has layers.
    fn contours(&self, plate: &Handed, drawn: &BTreeMap<u32, Drawn>) -> String {
        if plate.is_layered() {
            return drawn.iter().map(|(&layer, drawn)| self.layer(layer, drawn)).collect();
        }
        let Some(Drawn { lines, dots }) = drawn.get(&0) else { return String::new() };
        self.cuts(&lines.data) + &self.dots(dots, &format!("fill=\"{CUT}\""))
    }

    fn layer(&self, layer: u32, drawn: &Drawn) -> String {
        let place = layer as usize;
        let colour = LAYER_COLOURS[(place + place / 4) % 4];
        let dashes = LAYER_DASHES[place % 4];
        let mut more = format!(" data-layer=\"{layer}\"");
        if !dashes.is_empty() {
            let dashes: Vec<String> = dashes.iter().map(|dash| show(dash * self.unit)).collect();
            more += &format!(" stroke-dasharray=\"{}\"", dashes.join(" "));
        }
        let mut inner = format!("<title>layer {layer}</title>\n");
        if !drawn.lines.data.is_empty() {
            inner += &format!("<path d=\"{}\"/>\n", drawn.lines.data);
        }
        inner += &self.dots(&drawn.dots, &format!("fill=\"{colour}\" stroke=\"none\""));
        self.group(&inner, Style { class: "cuts", colour, width: 1.0, more: &more })
    }

    fn back_steps(&self, data: &str) -> String {
        let more = " stroke-opacity=\"0.35\"";
        self.lines(data, Style { class: "back-steps", colour: BACK_STEP, width: 3.6, more })
    }

    /// What joins the contours: each jump a dashed arrow, each touch a lozenge.
    fn joins(&self, joins: &Joins) -> String {
        let arrow = |&(from, to): &(Point, Point)| {
            let mut line = Lines::default();
            line.add(from, to);
            format!("<path d=\"{}\" marker-end=\"url(#arrow)\"/>\n", line.data)
        };
        let jumps: String = joins.jumps.iter().map(arrow).collect();
        let touches: String = joins.touches.iter().map(|&at| self.lozenge(at)).collect();
        let dashes =
            format!(" stroke-dasharray=\"{} {}\"", show(3.0 * self.unit), show(2.4 * self.unit));
        let jump = Style { class: "jumps", colour: JUMP, width: 1.0, more: &dashes };
        let touch = Style { class: "touches", colour: TOUCH, width: 1.0, more: " fill=\"#fff\"" };
        self.group(&jumps, jump) + &self.group(&touches, touch)
    }

    fn lozenge(&self, at: Point) -> String {
        let (x, y, side) = (show(at.x), show(at.y), show(LOZENGE * self.unit));
        format!("<path d=\"M{x},{y}m0,-{side}l{side},{side}l-{side},{side}l-{side},-{side}Z\"/>\n")
    }

    /// Lines of one style; without data there are none.
    fn lines(&self, data: &str, style: Style) -> String {
        let drawn = if data.is_empty() { String::new() } else { format!("<path d=\"{data}\"/>\n") };
        self.group(&drawn, style)
    }

    fn group(&self, drawn: &str, style: Style) -> String {
        if drawn.is_empty() {
            return String::new();
        }
        let Style { class, colour, more, .. } = style;
        let width = show(style.width * self.unit);
        format!(
            "<g class=\"{class}\" stroke=\"{colour}\" stroke-width=\"{width}\"{more}>\n{drawn}</g>\n"
        )
    }

    /// Dots for contours of one point, which have no line.
    fn dots(&self, points: &[Point], style: &str) -> String {
        points.iter().map(|p| self.circle(*p, 1.0, style)).collect()
    }

    fn ring(&self, p: Point) -> String {
        let stroke =
            format!("class=\"start\" stroke=\"{CUT}\" stroke-width=\"{}\"", show(1.2 * self.unit));
        self.circle(p, 3.5, &stroke)
    }

    /// A square, which is wider than the start's ring, around a dot.
    fn parked(&self, p: Point) -> String {
        let side = SQUARE * self.unit;
        let (x, y) = (show(p.x - side / 2.0), show(p.y - side / 2.0));
        let (side, width) = (show(side), show(1.2 * self.unit));
        let square = format!("<rect x=\"{x}\" y=\"{y}\" width=\"{side}\" height=\"{side}\"/>\n");
        let dot = self.circle(p, 1.2, &format!("fill=\"{HOME}\" stroke=\"none\""));
        format!(
            "<g class=\"home\" stroke=\"{HOME}\" stroke-width=\"{width}\">\n{square}{dot}</g>\n"
        )
    }

    fn holds(&self, p: Point) -> bool {
        let (right, bottom) = (self.left + self.width, self.top + self.height);
        (self.left..=right).contains(&p.x) && (self.top..=bottom).contains(&p.y)
    }

    fn circle(&self, p: Point, radius: f64, style: &str) -> String {
        let radius = show(radius * self.unit);
        format!("<circle cx=\"{}\" cy=\"{}\" r=\"{radius}\" {style}/>\n", show(p.x), show(p.y))
    }

    /// Text in letters of a fixed size, scaled: browsers bound the size itself.
    fn text(&self, p: Point, text: &str) -> String {
        let (x, y, unit) = (show(p.x), show(p.y), show(self.unit));
        format!(
            "<text transform=\"translate({x},{y}) scale({unit})\" font-family=\"sans-serif\" \
             font-size=\"7\" fill=\"{CUT}\" stroke=\"none\">{text}</text>\n"
        )
    }
}

/// The path with its cuts, back-steps, jumps, touches and start, and their numbers under it.
pub fn retrace(joined: &Joined) -> String {
    let frame = Frame::around(&joined.plate);
    let mut walked_back = BTreeSet::new();
    let (mut drawn, mut joins) = (dots(&joined.plate), Joins::default());
    for number in 1..=joined.count() {
        let pair = joined.pair(number);
        match pair.kind {
            PairKind::Cut { .. } => {
                drawn.entry(joined.layer(number)).or_default().lines.add(pair.from, pair.to);
            }
            PairKind::Jump { .. } => joins.jumps.push((pair.from, pair.to)),
            PairKind::Touch { .. } => joins.touches.push(pair.to),
            PairKind::BackStep { .. } => {
                walked_back.insert(joined.groove(number));
            }
        }
    }
    let mut back_steps = Lines::default();
    for &number in &walked_back {
        back_steps.add(joined.pair(number).from, joined.pair(number).to);
    }
    let mut body = frame.back_steps(&back_steps.data) + &frame.contours(&joined.plate, &drawn);
    body += &frame.joins(&joins);
    body += &joined.path.start().map_or(String::new(), |(p, _)| frame.ring(p));
    let (legend, above) = legend(&frame, joined);
    body += &legend;
    let (terms, foot) = terms_legend(&frame, &joined.plate, above);
    body += &terms;
    let counts = joined.path.counts();
    frame.picture(&format!("Retraced path: {}", words::counts(counts)), foot, &body)
}

/// For each layer the dots of its contours of one point.
fn dots(plate: &Handed) -> BTreeMap<u32, Drawn> {
    let mut drawn: BTreeMap<u32, Drawn> = BTreeMap::new();
    for (contour, &layer) in plate.contours().zip(&plate.layers) {
        if let [point] = contour.as_slice() {
            drawn.entry(layer).or_default().dots.push(*point);
        }
    }
    drawn
}

/// Units under the plate below the legend's rows, and for each row of it or of the layers'.
const LEGEND_FOOT: f64 = 6.0;
const LEGEND_ROW: f64 = 10.0;
/// Units that are enough for a sample with its number, and for a layer's, so that as many stand
/// side by side.
const KIND_COLUMN: f64 = 84.0;
const LAYER_COLUMN: f64 = 170.0;

/// The parked point, on the plate and below it, and the layers, where there are any: below what
/// stands in so many units under the plate; and the units that are taken then.
fn terms_legend(frame: &Frame, plate: &Handed, above: f64) -> (String, f64) {
    let (home, above) = home_legend(frame, plate, above);
    let (layers, foot) = layer_legend(frame, plate, above);
    (home + &layers, foot)
}

/// The parked point's sign with its coordinates; the sign stands on the plate too, if it is in sight.
fn home_legend(frame: &Frame, plate: &Handed, above: f64) -> (String, f64) {
    let Some(home) = plate.home() else { return (String::new(), above) };
    let unit = frame.unit;
    let y = frame.top + frame.height + (above + 1.0) * unit;
    let x = frame.left + 7.0 * unit;
    let (on_plate, beyond) = match frame.holds(home) {
        true => (frame.parked(home), ""),
        false => (String::new(), ", out of sight"),
    };
    let sample = frame.parked(Point { x: x + 6.5 * unit, y });
    let words = format!("parked point {}{beyond}", plate::point(home));
    let text = frame.text(Point { x: x + 16.0 * unit, y: y + 2.4 * unit }, &words);
    (format!("{on_plate}<g id=\"parked\">\n{sample}{text}</g>\n"), above + LEGEND_ROW)
}

/// A sample of each layer with its counts, below what stands in so many units under the plate; and
/// the units that are taken then.
fn layer_legend(frame: &Frame, plate: &Handed, above: f64) -> (String, f64) {
    let layers = plate.layer_counts();
    if !plate.is_layered() || layers.is_empty() {
        return (String::new(), above);
    }
    let unit = frame.unit;
    let columns = if frame.width < 2.0 * LAYER_COLUMN * unit { 1 } else { 2 };
    let mut body = String::new();
    for (place, (&layer, &counts)) in layers.iter().enumerate() {
        let (row, column) = (place / columns, place % columns);
        let x = frame.left + 7.0 * unit + column as f64 * frame.width / columns as f64;
        let y = frame.top + frame.height + (above + 1.0 + LEGEND_ROW * row as f64) * unit;
        let mut sample = Drawn::default();
        sample.lines.add(Point { x, y }, Point { x: x + 22.0 * unit, y });
        body += &frame.layer(layer, &sample);
        let at = Point { x: x + 26.0 * unit, y: y + 2.4 * unit };
        body += &frame.text(at, &words::layer(layer, counts));
    }
    let rows = layers.len().div_ceil(columns);
    (format!("<g id=\"layers\">\n{body}</g>\n"), above + LEGEND_ROW * rows as f64)
}

/// A sample of each style with how many there are, and the units that are taken under the plate.
fn legend(frame: &Frame, joined: &Joined) -> (String, f64) {
    let counts = joined.path.counts();
    let kinds = [
        (counts.cuts, "cut"),
        (counts.back_steps, "back-step"),
        (counts.jumps, "jump"),
        (counts.touches, "touch"),
    ];
    let unit = frame.unit;
    let columns = if frame.width < kinds.len() as f64 * KIND_COLUMN * unit { 2 } else { 4 };
    let mut body = String::new();
    for (place, (number, what)) in kinds.into_iter().enumerate() {
        let (row, column) = (place / columns, place % columns);
        let x = frame.left + 7.0 * unit + column as f64 * frame.width / columns as f64;
        let y = frame.top + frame.height + (7.0 + LEGEND_ROW * row as f64) * unit;
        body += &sample(frame, what, Point { x, y });
        let at = Point { x: x + 16.0 * unit, y: y + 2.4 * unit };
        body += &frame.text(at, &words::count(number, what));
    }
    let rows = kinds.len().div_ceil(columns);
    (format!("<g id=\"legend\">\n{body}</g>\n"), LEGEND_FOOT + LEGEND_ROW * rows as f64)
}

/// How pairs of a kind are drawn, from this point to the right.
fn sample(frame: &Frame, kind: &str, from: Point) -> String {
    let to = Point { x: from.x + 13.0 * frame.unit, y: from.y };
    let mut line = Lines::default();
    line.add(from, to);
    let mut joins = Joins::default();
    match kind {
        "cut" => return frame.cuts(&line.data),
        "back-step" => return frame.back_steps(&line.data) + &frame.cuts(&line.data),
        "jump" => joins.jumps.push((from, to)),
        _ => joins.touches.push(Point { x: from.x + 6.5 * frame.unit, y: from.y }),
    }
    frame.joins(&joins)
}

/// The contours, and what joins each to the next: a line, or a lozenge where they meet.
pub fn straight(plate: &Handed, entries: &[Entry], path: &[Point], title: &str) -> String {
    let frame = Frame::around(plate);
    let (mut drawn, mut joins) = (BTreeMap::new(), Joins::default());
    let mut rest = path;
    let mut last: Option<Point> = None;
    for entry in entries {
        let (contour, after) = rest.split_at(plate.lengths[entry.contour as usize] as usize);
        match (last, contour.first()) {
            (Some(from), Some(&to)) if from == to => joins.touches.push(to),
            (Some(from), Some(&to)) => joins.jumps.push((from, to)),
            _ => {}
        }
        add_contour(&mut drawn, plate.layers[entry.contour as usize], contour);
        last = contour.last().copied();
        rest = after;
    }
    let mut body = frame.contours(plate, &drawn) + &frame.joins(&joins);
    body += &path.first().map_or(String::new(), |&p| frame.ring(p));
    let (terms, foot) = terms_legend(&frame, plate, 0.0);
    body += &terms;
    frame.picture(title, foot, &body)
}

fn add_contour(drawn: &mut BTreeMap<u32, Drawn>, layer: u32, contour: &[Point]) {
    let drawn = drawn.entry(layer).or_default();
    drawn.lines.all(contour);
    if let [point] = contour {
        drawn.dots.push(*point);
    }
}

/// All contours, and where those of the order begin, numbered from 1.
pub fn order(plate: &Handed, entries: &[Entry]) -> String {
    let frame = Frame::around(plate);
    let contours: Vec<Vec<Point>> = plate.contours().collect();
    let mut drawn = BTreeMap::new();
    for (contour, &layer) in contours.iter().zip(&plate.layers) {
        if !contour.is_empty() {
            add_contour(&mut drawn, layer, contour);
        }
    }
    let mut body = frame.contours(plate, &drawn);
    for (place, entry) in entries.iter().enumerate() {
        let contour = &contours[entry.contour as usize];
        let first = if entry.reversed { contour.last() } else { contour.first() };
        if let Some(&first) = first {
            let beside = Point { x: first.x + 2.0 * frame.unit, y: first.y - 2.0 * frame.unit };
            body += &frame.ring(first);
            body += &frame.text(beside, &(place + 1).to_string());
        }
    }
    let (terms, foot) = terms_legend(&frame, plate, 0.0);
    body += &terms;
    frame.picture(&format!("Order: {}", words::count(entries.len(), "contour")), foot, &body)
}

/// What is drawn of one layer's contours.
#[derive(Default)]
struct Drawn {
    lines: Lines,
    dots: Vec<Point>,
}

/// What joins one contour to the next.
#[derive(Default)]
struct Joins {
    jumps: Vec<(Point, Point)>,
    touches: Vec<Point>,
}

/// Path data, a line of text a run of lines.
#[derive(Default)]
struct Lines {
    data: String,
    end: Option<Point>,
}

impl Lines {
    /// A line, which goes on from the last if that ends where it begins.
    fn add(&mut self, from: Point, to: Point) {
        if self.end != Some(from) {
            let gap = if self.data.is_empty() { "" } else { "\n" };
            self.put(&format!("{gap}M"), from);
        }
        self.put("L", to);
    }

    fn all(&mut self, points: &[Point]) {
        self.end = None;
        for ends in points.windows(2) {
            self.add(ends[0], ends[1]);
        }
    }

    fn put(&mut self, command: &str, p: Point) {
        write!(self.data, "{command}{},{}", show(p.x), show(p.y))
            .expect("a string takes all that is written");
        self.end = Some(p);
    }
}
