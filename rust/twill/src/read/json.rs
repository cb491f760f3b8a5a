//! JSON: an array of contours, each an array of points, each `[x, y]` or `{"x": x, "y": y}`; or
//! an object with such an array as `contours`, and perhaps `width`, `height`, `start`, with
//! "home" as start the point `home`, and `layers` with a number for each contour.
//!
//! A coordinate may also be a string with a number of the text form, as `"0x1.8p3"`, and the
//! words NaN, Infinity and -Infinity are read, which some programs write.

use super::{Drawing, excerpt};
use crate::number;
use crate::plate::{self, Layer, Plate, Remark};
use twillharbor::{HIGHEST_LAYER, Point, StartPointStrategy};

pub fn read(text: &str) -> Result<Plate, Remark> {
    let mut reader = Reader { text, at: 0, plate: Plate::default() };
    if text.starts_with('\u{FEFF}') {
        reader.at = '\u{FEFF}'.len_utf8();
    }
    if reader.peek() == Some(b'{') {
        reader.whole_plate()?;
    } else {
        reader.contours()?;
    }
    match reader.peek() {
        None => Ok(reader.plate),
        Some(_) => Err(reader.fault("expected nothing more after the contours")),
    }
}

/// Reads a path with its marks from an object with `path` and `marks`. What else it holds is
/// skipped: the path and its marks are all that is read of it.
pub fn read_path(text: &str) -> Result<Drawing, Remark> {
    let mut reader = Reader { text, at: 0, plate: Plate::default() };
    if text.starts_with('\u{FEFF}') {
        reader.at = '\u{FEFF}'.len_utf8();
    }
    let mut marks = None;
    reader.peek();
    reader.members(|reader, key, byte| {
        let is_twice = match key.as_str() {
            "path" => {
                reader.plate.begin();
                reader.elements("an array of path points", Reader::point)?;
                reader.plate.lengths.len() > 1
            }
            "marks" => marks.replace(reader.marks()?).is_some(),
            _ => return reader.skip(),
        };
        match is_twice {
            true => Err(Remark::new(byte, format!("`{key}` is given twice"))),
            false => Ok(()),
        }
    })?;
    if reader.peek().is_some() {
        return Err(reader.fault("expected nothing more after the path"));
    }
    let Plate { points, bytes, lengths, .. } = reader.plate;
    match marks {
        Some(marks) if !lengths.is_empty() => Ok(Drawing { path: points, marks, bytes }),
        _ => Err(Remark::new(reader.at, "a path has `path` and `marks`")),
    }
}

struct Reader<'a> {
    text: &'a str,
    at: usize,
    plate: Plate,
}

/// A point, and the byte of the text at which it stands.
struct Located {
    byte: usize,
    at: Point,
}

impl<'a> Reader<'a> {
    fn whole_plate(&mut self) -> Result<(), Remark> {
        let mut has_contours = false;
        let (mut start, mut home, mut layers) = (None, None, None);
        let mut keys: Vec<String> = Vec::new();
        self.members(|reader, key, byte| {
            if keys.contains(&key) {
                return Err(Remark::new(byte, format!("`{}` is given twice", excerpt(&key))));
            }
            match key.as_str() {
                "width" => reader.plate.width = Some(reader.whole(&key, u32::MAX)?),
                "height" => reader.plate.height = Some(reader.whole(&key, u32::MAX)?),
                "start" => start = Some((byte, reader.start()?)),
                "home" => home = Some((byte, reader.coordinates()?)),
                "layers" => {
                    reader.plate.layers_byte = Some(byte);
                    layers = Some(reader.layers()?);
                }
                "contours" => {
                    has_contours = true;
                    reader.contours()?;
                }
                _ => {
                    let message = format!(
                        "`{}` is none of the keys contours, layers, width, height, start and home",
                        excerpt(&key)
                    );
                    return Err(Remark::new(byte, message));
                }
            }
            keys.push(key);
            Ok(())
        })?;
        self.set_strategy(start, home)?;
        // Whether they are as many as the contours is for the library to say.
        if let Some(layers) = layers {
            self.plate.layers = layers;
        }
        if has_contours { Ok(()) } else { Err(Remark::new(self.at, "the plate has no `contours`")) }
    }

    fn contours(&mut self) -> Result<(), Remark> {
        self.elements("an array of contours", |reader| {
            reader.plate.begin();
            reader.elements("a contour, an array of points", Self::point)
        })
    }

    fn point(&mut self) -> Result<(), Remark> {
        let Located { byte, at } = self.coordinates()?;
        self.plate.push(at.x, at.y, byte);
        Ok(())
    }

    fn coordinates(&mut self) -> Result<Located, Remark> {
        let is_object = self.peek() == Some(b'{');
        let byte = self.at;
        let (mut x, mut y) = (None, None);
        if is_object {
            self.members(|reader, key, byte| {
                let coordinate = match key.as_str() {
                    "x" => &mut x,
                    "y" => &mut y,
                    _ => {
                        let message = format!("`{}` is neither x nor y", excerpt(&key));
                        return Err(Remark::new(byte, message));
                    }
                };
                if coordinate.replace(reader.coordinate()?).is_some() {
                    return Err(Remark::new(byte, format!("`{key}` is given twice")));
                }
                Ok(())
            })?;
        } else {
            let mut count = 0;
            self.elements("a point, [x, y]", |reader| {
                let value = reader.coordinate()?;
                count += 1;
                if count <= 2 {
                    *(if count == 1 { &mut x } else { &mut y }) = Some(value);
                }
                Ok(())
            })?;
            if count > 2 {
                return Err(Remark::new(byte, format!("a point has two numbers, not {count}")));
            }
        }
        match (x, y) {
            (Some(x), Some(y)) => Ok(Located { byte, at: Point { x, y } }),
            _ => Err(Remark::new(byte, "a point has two numbers, x and y")),
        }
    }

    fn coordinate(&mut self) -> Result<f64, Remark> {
        if self.peek() == Some(b'"') {
            let byte = self.at;
            let string = self.string()?;
            let fault = || Remark::new(byte, format!("`{}` is no number", excerpt(&string)));
            return number::parse(&string).ok_or_else(fault);
        }
        let word = self.word();
        let is_number = is_json_number(word) || matches!(word, "NaN" | "Infinity" | "-Infinity");
        match number::parse(word) {
            Some(value) if is_number => {
                self.at += word.len();
                Ok(value)
            }
            _ => Err(self.expected("a number")),
        }
    }

    /// A whole number. The most that it may be is told; a layer above it is the library's to
    /// refuse.
    fn whole(&mut self, name: &str, most: u32) -> Result<u32, Remark> {
        self.peek();
        let word = self.word();
        match number::whole(word) {
            Some(value) if is_json_number(word) => {
                self.at += word.len();
                Ok(value)
            }
            _ => Err(self.expected(&format!("as {name} a whole number from 0 to {most}"))),
        }
    }

    fn layers(&mut self) -> Result<Vec<Layer>, Remark> {
        let mut layers = Vec::new();
        self.elements("an array of layers", |reader| {
            reader.peek();
            let byte = reader.at;
            layers.push(Layer::new(reader.whole("layer", HIGHEST_LAYER)?, byte));
            Ok(())
        })?;
        Ok(layers)
    }

    /// Kinds and references. How many marks there are is for the library to say.
    fn marks(&mut self) -> Result<Vec<u32>, Remark> {
        let mut marks = Vec::new();
        self.elements("an array of marks", |reader| {
            reader.peek();
            let (byte, before) = (reader.at, marks.len());
            reader.elements("a mark, [kind, reference]", |reader| {
                marks.push(reader.whole("kind or reference", u32::MAX)?);
                Ok(())
            })?;
            match marks.len() - before {
                2 => Ok(()),
                count => Err(Remark::new(byte, format!("a mark has two numbers, not {count}"))),
            }
        })?;
        Ok(marks)
    }

    /// Goes over a value of any form.
    fn skip(&mut self) -> Result<(), Remark> {
        match self.peek() {
            Some(b'[') => self.elements("an array", Self::skip),
            Some(b'{') => self.members(|reader, _, _| reader.skip()),
            Some(b'"') => self.string().map(|_| ()),
            _ => match self.word() {
                "" => Err(self.expected("a value")),
                word => {
                    self.at += word.len();
                    Ok(())
                }
            },
        }
    }

    /// The strategy; none where it is "home", whose point stands by itself.
    fn start(&mut self) -> Result<Option<StartPointStrategy>, Remark> {
        self.peek();
        let byte = self.at;
        let word = self.string()?;
        match plate::strategy(&word) {
            None if word != "home" => {
                let message = format!(
                    "expected \"inside\", \"outside\" or \"home\", not `{}`",
                    excerpt(&word)
                );
                Err(Remark::new(byte, message))
            }
            strategy => Ok(strategy),
        }
    }

    /// The start and the parked point, each with its key's place: "home" and a point go together.
    fn set_strategy(
        &mut self,
        start: Option<(usize, Option<StartPointStrategy>)>,
        home: Option<(usize, Located)>,
    ) -> Result<(), Remark> {
        self.plate.strategy = match (start, home) {
            (None, None) => None,
            (Some((_, Some(strategy))), None) => Some(strategy),
            (Some((_, None)), Some((_, Located { byte, at }))) => {
                self.plate.home_byte = Some(byte);
                Some(StartPointStrategy::Home(at))
            }
            (Some((byte, None)), None) => {
                return Err(Remark::new(byte, "`start` is \"home\", but there is no `home`"));
            }
            (_, Some((byte, _))) => {
                return Err(Remark::new(byte, "there is a `home`, but `start` is not \"home\""));
            }
        };
        Ok(())
    }

    /// An array, of which `element` reads each element.
    fn elements(
        &mut self,
        what: &str,
        mut element: impl FnMut(&mut Self) -> Result<(), Remark>,
    ) -> Result<(), Remark> {
        if !self.take(b'[') {
            return Err(self.expected(what));
        }
        if self.take(b']') {
            return Ok(());
        }
        loop {
            element(self)?;
            if self.take(b']') {
                return Ok(());
            }
            if !self.take(b',') {
                return Err(self.expected("`,` or `]`"));
            }
        }
    }

    /// An object, of which `member` reads each value, given its key and the key's place.
    fn members(
        &mut self,
        mut member: impl FnMut(&mut Self, String, usize) -> Result<(), Remark>,
    ) -> Result<(), Remark> {
        self.take(b'{');
        if self.take(b'}') {
            return Ok(());
        }
        loop {
            self.peek();
            let byte = self.at;
            let key = self.string()?;
            if !self.take(b':') {
                return Err(self.expected("`:`"));
            }
            member(self, key, byte)?;
            if self.take(b'}') {
                return Ok(());
            }
            if !self.take(b',') {
                return Err(self.expected("`,` or `}`"));
            }
        }
    }

    fn string(&mut self) -> Result<String, Remark> {
        let byte = self.at;
        if !self.take(b'"') {
            return Err(self.expected("a string"));
        }
        let mut string = String::new();
        let mut rest = self.text[self.at..].char_indices();
        while let Some((offset, c)) = rest.next() {
            match c {
                '"' => {
                    self.at += offset + 1;
                    return Ok(string);
                }
                '\\' => match rest.next() {
                    Some((_, c @ ('"' | '\\' | '/'))) => string.push(c),
                    // No key or number here has a sign that must be escaped.
                    _ => return Err(Remark::new(self.at + offset, "this escape is not read here")),
                },
                c if c < ' ' => break,
                c => string.push(c),
            }
        }
        Err(Remark::new(byte, "the string is not closed on its line"))
    }

    /// The next byte that is not blank; it goes there.
    fn peek(&mut self) -> Option<u8> {
        let bytes = &self.text.as_bytes()[self.at..];
        let is_other = |b: &u8| !matches!(b, b' ' | b'\t' | b'\r' | b'\n');
        self.at += bytes.iter().position(is_other).unwrap_or(bytes.len());
        self.text.as_bytes().get(self.at).copied()
    }

    fn take(&mut self, expected: u8) -> bool {
        let is_there = self.peek() == Some(expected);
        self.at += usize::from(is_there);
        is_there
    }

    /// What stands here, up to a blank or one of JSON's signs.
    fn word(&mut self) -> &'a str {
        self.peek();
        let rest = &self.text[self.at..];
        let is_end = |c: char| c.is_whitespace() || "[]{},:\"".contains(c);
        &rest[..rest.find(is_end).unwrap_or(rest.len())]
    }

    fn expected(&mut self, what: &str) -> Remark {
        self.fault(&format!("expected {what}"))
    }

    fn fault(&mut self, message: &str) -> Remark {
        let word = self.word();
        let rest = &self.text[self.at..];
        let found = match (word, rest.chars().next()) {
            (_, None) => "the end of the file".into(),
            ("", Some(sign)) => format!("`{}`", excerpt(&rest[..sign.len_utf8()])),
            (word, _) => format!("`{}`", excerpt(word)),
        };
        Remark::new(self.at, format!("{message}, not {found}"))
    }
}

/// Whether a word is a number by JSON's grammar, which has no leading zeros or points.
fn is_json_number(word: &str) -> bool {
    fn digits(text: &str) -> Option<&str> {
        let rest = text.trim_start_matches(|c: char| c.is_ascii_digit());
        (rest.len() < text.len()).then_some(rest)
    }
    fn number(word: &str) -> Option<&str> {
        let whole = word.strip_prefix('-').unwrap_or(word);
        let mut rest = match whole.strip_prefix('0') {
            Some(rest) => rest,
            None => digits(whole)?,
        };
        if let Some(fraction) = rest.strip_prefix('.') {
            rest = digits(fraction)?;
        }
        if let Some(exponent) = rest.strip_prefix(['e', 'E']) {
            rest = digits(exponent.strip_prefix(['+', '-']).unwrap_or(exponent))?;
        }
        Some(rest)
    }
    number(word) == Some("")
}

#[cfg(test)]
mod tests {
    use super::{is_json_number, read, read_path};
    use crate::plate;
    use twillharbor::StartPointStrategy;

    #[test]
    fn arrays_of_contours() {
        let plate = read(" [ [[0,0],[4,-0.0]], [], [ {\"y\":1,\"x\":\"0x1.8p3\"} ] ]\n").unwrap();
        assert_eq!(plate.lengths, [2, 0, 1]);
        let bits: Vec<u64> = plate.points.iter().map(|x| x.to_bits()).collect();
        assert_eq!(bits, [0.0, 0.0, 4.0, -0.0, 12.0, 1.0].map(f64::to_bits));
        assert_eq!(plate.bytes, [4, 10, 27]);
        assert_eq!((plate.width, plate.height, plate.strategy), (None, None, None));
    }

    #[test]
    fn a_plate_with_size_and_start() {
        let text = r#"{"width":8,"height":2,"start":"inside","contours":[[[NaN,-Infinity]]]}"#;
        let plate = read(text).unwrap();
        assert_eq!((plate.width, plate.height), (Some(8), Some(2)));
        assert_eq!(plate.strategy, Some(StartPointStrategy::Inside));
        assert!(plate.points[0].is_nan() && plate.points[1] == f64::NEG_INFINITY);
    }

    #[test]
    fn a_parked_point_stands_beside_the_start() {
        for (text, x, y) in [
            (r#"{"start":"home","home":[12,-0.0],"contours":[]}"#, 12.0, -0.0),
            (r#"{"home": {"y":0.5,"x":"0x1p-3"},"contours":[],"start":"home"}"#, 0.125, 0.5),
            (r#"{"contours":[],"home":[1e6,NaN],"start":"home"}"#, 1e6, f64::NAN),
        ] {
            let plate = read(text).unwrap();
            let Some(StartPointStrategy::Home(home)) = plate.strategy else { panic!("{text}") };
            assert_eq!([home.x, home.y].map(f64::to_bits), [x, y].map(f64::to_bits), "{text}");
            let stands = plate.home_byte.unwrap();
            assert!(text[..stands].trim_end().ends_with("\"home\":"), "{text}");
            assert_eq!((plate.points.len(), plate.lengths.len()), (0, 0));
        }
        assert_eq!(read(r#"{"start":"outside","contours":[]}"#).unwrap().home_byte, None);
    }

    #[test]
    fn layers_stand_beside_the_contours() {
        let text = r#"{"layers": [0, 16,4294967295], "contours": [[[0,0]], [], [[1,0]]]}"#;
        let plate = read(text).unwrap();
        let layers: Vec<_> = plate.layers.iter().map(|l| (l.number, l.byte)).collect();
        assert_eq!(layers, [(0, Some(12)), (16, Some(15)), (u32::MAX, Some(18))]);
        assert_eq!(plate.layers_byte, Some(1));
        // The library refuses what is not as long as the contours.
        assert_eq!(read(r#"{"contours": [[[0,0]], []], "layers": [1]}"#).unwrap().layers.len(), 1);
        let without = read("[[[0,0]], []]").unwrap();
        assert_eq!(without.layers, [plate::Layer::default(), plate::Layer::default()]);
    }

    #[test]
    fn a_path_stands_beside_its_marks() {
        let text = r#"{"width":8, "start":"inside","layers":[0,1],"of":{"a":[1,{"b":null}]},
            "marks":[[0,2],[7,4294967295]],"path":[[0,-0.0],[NaN,"0x1p3"]]}"#;
        let drawing = read_path(text).unwrap();
        assert_eq!(drawing.marks, [0, 2, 7, u32::MAX]);
        assert_eq!(
            drawing.path.iter().map(|x| x.to_bits()).collect::<Vec<_>>(),
            [0.0, -0.0, f64::NAN, 8.0].map(f64::to_bits)
        );
        assert_eq!(drawing.bytes.len(), 2);
        assert!(text[drawing.bytes[1]..].starts_with("[NaN"));
        let cases = [
            ("{}", 2, "a path has `path` and `marks`"),
            ("{\"path\":[]}", 11, "a path has `path` and `marks`"),
            ("{\"marks\":[]}", 12, "a path has `path` and `marks`"),
            ("{\"path\":[],\"path\":[]}", 11, "`path` is given twice"),
            ("{\"marks\":[],\"marks\":[]}", 12, "`marks` is given twice"),
            (
                "{\"marks\":[[0,-1]]}",
                13,
                "expected as kind or reference a whole number from 0 to 4294967295, not `-1`",
            ),
            ("{\"path\":[[0]]}", 9, "a point has two numbers, x and y"),
            ("{\"marks\":[[0]]}", 10, "a mark has two numbers, not 1"),
            ("{\"marks\":[[0,0],[0,1,0]]}", 16, "a mark has two numbers, not 3"),
            ("{\"path\":[],\"marks\":[]} 1", 23, "expected nothing more after the path, not `1`"),
            ("{\"a\":}", 5, "expected a value, not `}`"),
        ];
        for (text, byte, message) in cases {
            let remark = read_path(text).unwrap_err();
            assert_eq!((remark.byte, remark.message.as_str()), (byte, message), "{text}");
        }
    }

    #[test]
    fn numbers_follow_the_grammar() {
        for word in ["0", "-0", "10", "0.5", "1e5", "1.25E-3", "-12e+0"] {
            assert!(is_json_number(word), "{word}");
        }
        for word in ["", "-", "01", "+1", ".5", "1.", "1e", "0x1", "inf", "nan", "1e+"] {
            assert!(!is_json_number(word), "{word}");
        }
    }

    #[test]
    fn faults_have_a_place() {
        let cases = [
            ("[", 1, "expected a contour, an array of points, not the end of the file"),
            ("[[[0,0]]", 8, "expected `,` or `]`, not the end of the file"),
            ("[[[0,0],]]", 8, "expected a point, [x, y], not `]`"),
            ("[[[0]]]", 2, "a point has two numbers, x and y"),
            ("[[[0,1,2]]]", 2, "a point has two numbers, not 3"),
            ("[[[0,01]]]", 5, "expected a number, not `01`"),
            ("[[[0,\"1k\"]]]", 5, "`1k` is no number"),
            ("[[[0,null]]]", 5, "expected a number, not `null`"),
            ("[[0,0]]", 2, "expected a point, [x, y], not `0`"),
            ("[[[0,\u{a0}1]]]", 5, "expected a number, not `\u{a0}`"),
            ("[[[0\u{b},1]]]", 4, "expected `,` or `]`, not `\\u{b}`"),
            ("[[{\"x\":1}]]", 2, "a point has two numbers, x and y"),
            ("[[{\"x\":1,\"z\":1}]]", 9, "`z` is neither x nor y"),
            ("[] []", 3, "expected nothing more after the contours, not `[`"),
            ("{}", 2, "the plate has no `contours`"),
            (
                "{\"contour\":[]}",
                1,
                "`contour` is none of the keys contours, layers, width, height, start and home",
            ),
            ("{\"layers\":[1.5]}", 11, "expected as layer a whole number from 0 to 15, not `1.5`"),
            ("{\"layers\":[-1]}", 11, "expected as layer a whole number from 0 to 15, not `-1`"),
            ("{\"layers\":[\"1\"]}", 11, "expected as layer a whole number from 0 to 15, not `\"`"),
            ("{\"layers\":1}", 10, "expected an array of layers, not `1`"),
            ("{\"layers\":[],\"layers\":[]}", 13, "`layers` is given twice"),
            ("{\"width\":1,\"width\":1}", 11, "`width` is given twice"),
            (
                "{\"width\":1.5}",
                9,
                "expected as width a whole number from 0 to 4294967295, not `1.5`",
            ),
            ("{\"start\":\"in\"}", 9, "expected \"inside\", \"outside\" or \"home\", not `in`"),
            ("{\"start\":\"home\"}", 1, "`start` is \"home\", but there is no `home`"),
            ("{\"home\":[1,2]}", 1, "there is a `home`, but `start` is not \"home\""),
            (
                "{\"start\":\"inside\",\"home\":[1,2]}",
                18,
                "there is a `home`, but `start` is not \"home\"",
            ),
            ("{\"home\":[1]}", 8, "a point has two numbers, x and y"),
            ("{\"home\":[1,2,3]}", 8, "a point has two numbers, not 3"),
            ("{\"home\":12}", 8, "expected a point, [x, y], not `12`"),
            ("{\"home\":[1,2],\"home\":[1,2]}", 14, "`home` is given twice"),
            ("{\"start", 1, "the string is not closed on its line"),
        ];
        for (text, byte, message) in cases {
            let remark = read(text).unwrap_err();
            assert_eq!((remark.byte, remark.message.as_str()), (byte, message), "{text}");
        }
    }
}
