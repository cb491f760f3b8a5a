//! A plate as it was read from a file.

use crate::{number, words};
use std::collections::BTreeMap;
use std::fmt;
use std::path::Path;
use std::rc::Rc;
use twillharbor::{HIGHEST_LAYER, Point, Size, StartPointStrategy};

/// Where something stands in a file; both count from 1, columns in characters.
#[derive(Debug, Clone, Copy, PartialEq, Eq)]
pub struct Position {
    pub line: usize,
    pub column: usize,
}

impl Position {
    /// The position of a byte of a text. Lines end as any system writes them, and a byte order
    /// mark is no character.
    pub fn of(text: &str, byte: usize) -> Self {
        let before = &text.as_bytes()[..byte.min(text.len())];
        let mut position = Self { line: 1, column: 1 };
        for (at, &b) in before.iter().enumerate() {
            let ends_line = b == b'\n' || b == b'\r' && text.as_bytes().get(at + 1) != Some(&b'\n');
            let is_char_start = b & 0xC0 != 0x80;
            if ends_line {
                position = Self { line: position.line + 1, column: 1 };
            } else if is_char_start && !(at == 0 && text.starts_with('\u{FEFF}')) {
                position.column += 1;
            }
        }
        position
    }
}

impl fmt::Display for Position {
    fn fmt(&self, f: &mut fmt::Formatter<'_>) -> fmt::Result {
        write!(f, "{}:{}", self.line, self.column)
    }
}

/// One line about a place in a file, without the file's name.
#[derive(Debug, Clone, PartialEq, Eq)]
pub struct Remark {
    /// The byte of the text that it is about.
    pub byte: usize,
    pub message: String,
}

impl Remark {
    pub fn new(byte: usize, message: impl Into<String>) -> Self {
        Self { byte, message: message.into() }
    }
}

/// A contour's layer. The default is that of a contour which the file gives none.
#[derive(Debug, Clone, Default, PartialEq, Eq)]
pub struct Layer {
    pub number: u32,
    /// The byte of the text at which the layer is given.
    pub byte: Option<usize>,
    /// The name of the group that is the layer.
    pub label: Option<Rc<str>>,
}

impl Layer {
    pub const fn new(number: u32, byte: usize) -> Self {
        Self { number, byte: Some(byte), label: None }
    }
}

/// What the library is handed, what the file says of the plate besides, and where each point
/// stands in the file.
#[derive(Debug, Clone, Default, PartialEq)]
pub struct Plate {
    /// Each point's horizontal, then its vertical coordinate, contour after contour.
    pub points: Vec<f64>,
    /// The contours' numbers of points.
    pub lengths: Vec<u32>,
    /// The contours' layers: as many, unless the file lists them by themselves.
    pub layers: Vec<Layer>,
    /// The byte of the text at which the file lists them by themselves, if it does.
    pub layers_byte: Option<usize>,
    /// The layer of the contours that are begun from here on.
    pub layer: Layer,
    /// For each point the byte of the text at which it stands.
    pub bytes: Vec<usize>,
    /// The width and height that the file gives, if it does.
    pub width: Option<u32>,
    pub height: Option<u32>,
    /// The strategy that the file gives, if it does.
    pub strategy: Option<StartPointStrategy>,
    /// The byte of the text at which the parked point stands, if the file gives one.
    pub home_byte: Option<usize>,
    /// What the user is to be told of the size, though the file was read.
    pub notes: Vec<Remark>,
    /// What the user is to be told of the layers.
    pub layer_notes: Vec<Remark>,
}

impl Plate {
    /// Adds a point to the contour that was last begun.
    pub fn push(&mut self, x: f64, y: f64, byte: usize) {
        self.points.extend([x, y]);
        self.bytes.push(byte);
        *self.lengths.last_mut().expect("a contour was begun") += 1;
    }

    /// Begins a contour.
    pub fn begin(&mut self) {
        self.lengths.push(0);
        self.layers.push(self.layer.clone());
    }

    /// Whether the library takes the layers: as many as the contours, and none above the highest.
    pub fn has_sound_layers(&self) -> bool {
        let is_sound = |layer: &Layer| layer.number <= HIGHEST_LAYER;
        self.layers.len() == self.lengths.len() && self.layers.iter().all(is_sound)
    }

    /// Empties the contours of all layers but one, so that the numbers of its contours stay.
    /// Where the layers are not as many as the contours it is left to the library, which
    /// refuses that.
    pub fn keep_layer(&mut self, number: u32) {
        if self.layers.len() != self.lengths.len() {
            return;
        }
        let (points, _) = self.points.as_chunks::<2>();
        let (mut kept, mut bytes, mut first) = (Vec::new(), Vec::new(), 0);
        for (length, layer) in self.lengths.iter_mut().zip(&self.layers) {
            let held = first..first + *length as usize;
            first = held.end;
            if layer.number == number {
                kept.extend(points[held.clone()].as_flattened());
                bytes.extend(&self.bytes[held]);
            } else {
                *length = 0;
            }
        }
        (self.points, self.bytes) = (kept, bytes);
    }
}

/// A plate, with the size and the strategy that hold.
#[derive(Debug, Clone, PartialEq)]
pub struct Handed {
    pub points: Vec<f64>,
    pub lengths: Vec<u32>,
    pub layers: Vec<u32>,
    pub size: Size,
    pub strategy: StartPointStrategy,
}

/// How much of a plate is of one layer.
#[derive(Debug, Clone, Copy, Default, PartialEq, Eq)]
pub struct LayerCounts {
    /// The contours that hold a point.
    pub contours: usize,
    /// Their segments.
    pub cuts: usize,
}

impl Handed {
    /// What the calls take.
    pub fn plate(&self) -> twillharbor::Plate<'_> {
        twillharbor::Plate::with_layers(&self.points, &self.lengths, &self.layers)
    }

    /// Whether a contour is of another layer than 0. Where none is, nothing is told of layers.
    pub fn is_layered(&self) -> bool {
        self.layers.iter().any(|&layer| layer != 0)
    }

    /// The layers of the contours that hold a point, in order.
    pub fn layer_counts(&self) -> BTreeMap<u32, LayerCounts> {
        let mut layers: BTreeMap<u32, LayerCounts> = BTreeMap::new();
        for (&length, &layer) in self.lengths.iter().zip(&self.layers) {
            if length > 0 {
                let counts = layers.entry(layer).or_default();
                counts.contours += 1;
                counts.cuts += length as usize - 1;
            }
        }
        layers
    }

    /// The parked point, where the strategy has one.
    pub const fn home(&self) -> Option<Point> {
        match self.strategy {
            StartPointStrategy::Home(home) => Some(home),
            StartPointStrategy::Outside | StartPointStrategy::Inside => None,
        }
    }

    /// For each vertex of the plate the contour that it is of and its number within it.
    pub fn vertices(&self) -> impl Iterator<Item = (usize, usize)> {
        let lengths = self.lengths.iter().enumerate();
        lengths.flat_map(|(contour, &length)| (0..length as usize).map(move |v| (contour, v)))
    }

    /// The contours' points, those of empty contours too.
    pub fn contours(&self) -> impl Iterator<Item = Vec<Point>> {
        let (points, _) = self.points.as_chunks();
        let mut points = points.iter().map(|&[x, y]| Point { x, y });
        self.lengths.iter().map(move |&length| points.by_ref().take(length as usize).collect())
    }

    /// `8 by 2, outside`, with a parked point `8 by 2, home (12,0.5)`, and for a plate in layers
    /// `8 by 2, outside, layers 0 and 3`.
    pub fn terms(&self) -> String {
        let occurring = self.layer_counts();
        let layers = match self.is_layered() && !occurring.is_empty() {
            true => format!(", {}", words::layers(occurring.keys())),
            false => String::new(),
        };
        let home = self.home().map_or(String::new(), |home| format!(" {}", point(home)));
        let Size { width, height } = self.size;
        format!("{width} by {height}, {}{home}{layers}", word(self.strategy))
    }
}

/// The strategy's word in files and on the command line.
pub const fn word(strategy: StartPointStrategy) -> &'static str {
    match strategy {
        StartPointStrategy::Outside => "outside",
        StartPointStrategy::Inside => "inside",
        StartPointStrategy::Home(_) => "home",
    }
}

/// The strategy of a word that stands alone, without a parked point.
pub fn strategy(word: &str) -> Option<StartPointStrategy> {
    match word {
        "outside" => Some(StartPointStrategy::Outside),
        "inside" => Some(StartPointStrategy::Inside),
        _ => None,
    }
}

/// `(4,0.5)`.
pub fn point(p: Point) -> String {
    format!("({},{})", number::show(p.x), number::show(p.y))
}

/// A file's name within a line.
pub fn file_name(path: &Path) -> String {
    let escape =
        |c: char| if c.is_control() { c.escape_default().collect() } else { String::from(c) };
    path.display().to_string().chars().map(escape).collect()
}

#[cfg(test)]
mod tests {
    use super::{Layer, Plate, Position, file_name};
    use std::path::Path;

    #[test]
    fn a_layer_is_kept_with_the_numbers_of_its_contours() {
        let mut plate = Plate::default();
        for (contour, layer) in [2, 0, 1, 1].into_iter().enumerate() {
            plate.layer = Layer::new(layer, 0);
            plate.begin();
            for point in 0..contour {
                plate.push(contour as f64, point as f64, 10 * contour + point);
            }
        }
        let whole = plate.clone();
        plate.keep_layer(1);
        assert_eq!((plate.lengths, plate.bytes), (vec![0, 0, 2, 3], vec![20, 21, 30, 31, 32]));
        assert_eq!(plate.points, [2.0, 0.0, 2.0, 1.0, 3.0, 0.0, 3.0, 1.0, 3.0, 2.0]);
        assert_eq!(plate.layers, whole.layers);
        // What the library is to refuse is left as it is.
        let mut short = Plate { layers: whole.layers[1..].to_vec(), ..whole };
        let before = short.clone();
        short.keep_layer(1);
        assert_eq!(short, before);
    }

    #[test]
    fn positions_count_characters_and_all_line_ends() {
        let text = "\u{FEFF}a\u{e9}b\nc\r\nd\re";
        for (sought, line, column) in
            [('a', 1, 1), ('b', 1, 3), ('c', 2, 1), ('d', 3, 1), ('e', 4, 1)]
        {
            let position = Position::of(text, text.find(sought).unwrap());
            assert_eq!(position, Position { line, column }, "{sought}");
        }
        assert_eq!(Position::of(text, usize::MAX), Position { line: 4, column: 2 });
    }

    #[test]
    fn names_stay_on_a_line() {
        assert_eq!(file_name(Path::new("a\n\u{1b}b \u{e9}")), "a\\n\\u{1b}b \u{e9}");
    }
}
