//! A path with its marks, as the row of `retrace --format plate-marks`: in one line the plate, a
//! colon, the path's points and their marks. Of the plate nothing is kept: its form alone is read.

use super::Drawing;
use super::cursor::{Cursor, Signs};
use crate::plate::Remark;
use twillharbor::{HIGHEST_LAYER, Point};

/// What ends a word, beside blanks.
struct Ends;

impl Signs for Ends {
    fn has(sign: char) -> bool {
        matches!(sign, ',' | '(' | ')' | '|' | ':' | ';')
    }
}

/// Whether a text, from its first character that is not blank, is a row: no path point of the text
/// form begins so.
pub fn is_one(content: &str) -> bool {
    ["(", "empty", "none"].iter().any(|beginning| content.starts_with(beginning))
}

pub fn read(text: &str) -> Result<Drawing, Remark> {
    let mut reader = Reader { cursor: Cursor::new(text), drawing: Drawing::default() };
    reader.skip_lines();
    reader.plate()?;
    reader.path()?;
    reader.skip_lines();
    match reader.cursor.peek() {
        None => Ok(reader.drawing),
        Some(_) => Err(reader.cursor.expected("nothing more after the row")),
    }
}

struct Reader<'a> {
    cursor: Cursor<'a, Ends>,
    drawing: Drawing,
}

impl Reader<'_> {
    /// The contours, the size, the strategy and perhaps layers, with the colon behind them.
    fn plate(&mut self) -> Result<(), Remark> {
        self.contours()?;
        self.cursor.whole("width", u32::MAX)?;
        self.named("by")?;
        self.cursor.whole("height", u32::MAX)?;
        self.sign(',', "`,` and the strategy")?;
        self.strategy()?;
        if self.cursor.take(',') {
            self.named("layers")?;
            return self.layers();
        }
        self.sign(':', "`:` or `, layers`")
    }

    /// The contours with the comma behind them.
    fn contours(&mut self) -> Result<(), Remark> {
        if self.takes("none") {
            return self.sign(',', "`,` and the plate's size");
        }
        loop {
            if !self.takes("empty") {
                self.points("a contour", |_, _, _| {})?;
            }
            if !self.cursor.take('|') {
                return self.sign(',', "`|`, or `,` and the plate's size");
            }
        }
    }

    fn strategy(&mut self) -> Result<(), Remark> {
        if self.takes("Outside") || self.takes("Inside") {
            return Ok(());
        }
        match self.takes("Home") {
            true => self.point().map(|_| ()),
            false => Err(self.cursor.expected("`Outside`, `Inside` or `Home`")),
        }
    }

    /// The layers with the colon behind them.
    fn layers(&mut self) -> Result<(), Remark> {
        loop {
            self.cursor.whole("layer", HIGHEST_LAYER)?;
            if self.cursor.take(':') {
                return Ok(());
            }
        }
    }

    /// The path's points and marks, up to the line's end. How many marks there are is for the library
    /// to say.
    fn path(&mut self) -> Result<(), Remark> {
        if self.takes("empty") {
            self.named("path")?;
            return self.line_end("the end of the line");
        }
        self.points("path points or `empty path`", |drawing, byte, at| {
            drawing.path.extend([at.x, at.y]);
            drawing.bytes.push(byte);
        })?;
        self.sign(';', "a path point or `;`")?;
        self.named("marks")?;
        loop {
            let kind = self.cursor.whole("kind", u32::MAX)?;
            let reference = self.cursor.whole("reference", u32::MAX)?;
            self.drawing.marks.extend([kind, reference]);
            if !self.cursor.take(',') {
                return self.line_end("`,` or the end of the line");
            }
        }
    }

    /// Points in brackets, of which `keep` is given each with its byte.
    fn points(
        &mut self,
        what: &str,
        keep: impl Fn(&mut Drawing, usize, Point),
    ) -> Result<(), Remark> {
        self.cursor.skip_blanks();
        if self.cursor.peek() != Some('(') {
            return Err(self.cursor.expected(what));
        }
        while self.cursor.peek() == Some('(') {
            let byte = self.cursor.at;
            let at = self.point()?;
            keep(&mut self.drawing, byte, at);
            self.cursor.skip_blanks();
        }
        Ok(())
    }

    fn point(&mut self) -> Result<Point, Remark> {
        self.sign('(', "a point in brackets")?;
        let point = self.cursor.coordinates()?;
        self.cursor.close()?;
        Ok(point)
    }

    fn sign(&mut self, sign: char, what: &str) -> Result<(), Remark> {
        if self.cursor.take(sign) { Ok(()) } else { Err(self.cursor.expected(what)) }
    }

    /// Goes over a word, if it stands here.
    fn takes(&mut self, word: &str) -> bool {
        self.cursor.skip_blanks();
        let is_there = self.cursor.word() == word;
        if is_there {
            self.cursor.at += word.len();
        }
        is_there
    }

    fn named(&mut self, word: &str) -> Result<(), Remark> {
        if self.takes(word) { Ok(()) } else { Err(self.cursor.expected(&format!("`{word}`"))) }
    }

    fn line_end(&mut self, what: &str) -> Result<(), Remark> {
        self.cursor.skip_blanks();
        match self.cursor.line_end() {
            Some(_) => Ok(()),
            None => Err(self.cursor.expected(what)),
        }
    }

    /// Skips blanks and lines without anything else.
    fn skip_lines(&mut self) {
        self.cursor.at = self.cursor.text.len() - self.cursor.rest().trim_start().len();
    }
}

#[cfg(test)]
mod tests {
    use super::{is_one, read};
    use crate::args::Format;
    use crate::joined_plate::Joined;
    use crate::plate::Handed;
    use crate::{read as files, write};
    use twillharbor::{MarkedPath, Point, Size, StartPointStrategy};

    #[test]
    fn the_path_and_its_marks_are_kept() {
        let text = "(9,9)(4,0) | empty | (0,1), 8 by 2, Home (12,-0.5), layers 0 0 15: \
                    (0,-0)(0x1p3,nan) (1e-300 , 4); marks 0 0, 1 0,7 4294967295\r\n \n";
        for (before, text) in [("", text), ("", text.trim_end()), ("\u{FEFF}\n  ", text)] {
            let text = format!("{before}{text}");
            let drawing = read(&text).unwrap();
            let bits: Vec<u64> = drawing.path.iter().map(|x| x.to_bits()).collect();
            assert_eq!(bits, [0.0, -0.0, 8.0, f64::NAN, 1e-300, 4.0].map(f64::to_bits));
            assert_eq!(drawing.marks, [0, 0, 1, 0, 7, u32::MAX]);
            let starts = ["(0,-0)", "(0x1p3", "(1e-300"].map(|start| text.find(start).unwrap());
            assert_eq!(drawing.bytes, starts);
            let told_apart = files::read_path(&text).unwrap();
            assert_eq!((told_apart.marks, told_apart.bytes), (drawing.marks, drawing.bytes));
        }
        for plate in ["none, 0 by 0, Outside", "empty, 0 by 4294967295, Inside"] {
            let drawing = files::read_path(&format!("{plate}: empty path\n")).unwrap();
            assert_eq!((drawing.path, drawing.marks, drawing.bytes), (vec![], vec![], vec![]));
        }
        // As many as the points they need not be here.
        assert_eq!(read("(0,0), 0 by 0, Inside: (0,0); marks 0 0, 1 0").unwrap().marks.len(), 4);
    }

    #[test]
    fn the_plate_is_read_over() {
        let rest = ": (0,0)(4,0); marks 0 0, 1 0\n";
        let path = read(&format!("(0,0)(4,0), 0 by 0, Outside{rest}")).unwrap();
        for plate in [
            "(5,nan), 7 by 9, Outside",
            "none, 0 by 0, Inside",
            "empty | empty, 1 by 1, Home (inf,0), layers 99",
        ] {
            let drawing = read(&format!("{plate}{rest}")).unwrap();
            assert_eq!((&drawing.path, &drawing.marks), (&path.path, &path.marks), "{plate}");
        }
    }

    #[test]
    fn no_path_of_the_text_form_is_a_row() {
        for text in ["0 0 start 0", "nan 0 start 0", "NaN 0 0 0", "# (0,0)", "inf 0 0 0", "-1", ""]
        {
            assert!(!is_one(text), "{text}");
        }
        for text in ["(0,0)", "empty | (0,0)", "none, 0 by 0", "empty, 0 by 0"] {
            assert!(is_one(text), "{text}");
        }
    }

    #[test]
    fn faults_have_a_place() {
        let row = "(0,0), 8 by 2, Inside: (0,0)(4,0); marks 0 0, 1 0";
        for (from, to, message) in [
            ("(0,0), 8", "(0,), 8", "expected a number as y, not `)`"),
            ("(0,0), 8", "(0,0 | 8", "expected `)`, not `|`"),
            ("(0,0), 8", "(0,0) |, 8", "expected a contour, not `,`"),
            ("(0,0), 8", "(0,0) 8", "expected `|`, or `,` and the plate's size, not `8`"),
            (", 8", "\n, 8", "expected `|`, or `,` and the plate's size, not the end of the line"),
            ("(0,0), 8", "none 8", "expected `,` and the plate's size, not `8`"),
            ("8", "x", "expected as width a whole number from 0 to 4294967295, not `x`"),
            ("by", "x", "expected `by`, not `x`"),
            ("2,", "-2,", "expected as height a whole number from 0 to 4294967295, not `-2`"),
            ("2, I", "2 I", "expected `,` and the strategy, not `Inside`"),
            ("Inside", "inside", "expected `Outside`, `Inside` or `Home`, not `inside`"),
            ("Inside", "Home", "expected a point in brackets, not `:`"),
            ("Inside:", "Inside", "expected `:` or `, layers`, not `(`"),
            ("Inside", "Inside, 3", "expected `layers`, not `3`"),
            ("Inside", "Inside, layers", "expected as layer a whole number from 0 to 15, not `:`"),
            (": (0", ": order (0", "expected path points or `empty path`, not `order`"),
            ("(0,0)(4,0); marks", "empty order", "expected `path`, not `order`"),
            ("(0,0)(4,0); marks", "empty path;", "expected the end of the line, not `;`"),
            ("; marks", " marks", "expected a path point or `;`, not `marks`"),
            ("marks", "", "expected `marks`, not `0`"),
            (
                "marks 0",
                "marks cut",
                "expected as kind a whole number from 0 to 4294967295, not `cut`",
            ),
            (
                "0 0, 1",
                "0, 1",
                "expected as reference a whole number from 0 to 4294967295, not `,`",
            ),
            ("0 0, 1", "0 0 1", "expected `,` or the end of the line, not `1`"),
            (
                ", 1 0",
                ", 1",
                "expected as reference a whole number from 0 to 4294967295, not the end of the file",
            ),
            (
                ", 1 0",
                ",\n1 0",
                "expected as kind a whole number from 0 to 4294967295, not the end of the line",
            ),
            (", 1 0", "\n\n(0,0)", "expected nothing more after the row, not `(`"),
        ] {
            let text = row.replacen(from, to, 1);
            let remark = read(&text).unwrap_err();
            assert_eq!(remark.message, message, "{text}");
        }
        let short = read("(0,0)(4,0)\n(8,0)").unwrap_err();
        assert_eq!(short.byte, 10);
    }

    /// Numbers without order, which are the same in each run.
    struct Numbers(u64);

    impl Numbers {
        fn below(&mut self, bound: u64) -> u64 {
            self.0 ^= self.0 << 13;
            self.0 ^= self.0 >> 7;
            self.0 ^= self.0 << 17;
            self.0 % bound
        }

        /// Any coordinate on the plate, and often a zero of either sign.
        fn coordinate(&mut self) -> f64 {
            let magnitude = match self.below(4) {
                0 => 0.0,
                1 => self.below(1_000_000_001) as f64 / 1_000.0,
                _ => f64::from_bits(self.below(1e6_f64.to_bits() + 1)),
            };
            if self.below(2) == 0 { magnitude } else { -magnitude }
        }
    }

    /// A plate whose path is its contours one after the other, each begun by a jump.
    fn drawn(numbers: &mut Numbers) -> Joined {
        let lengths: Vec<u32> = (0..numbers.below(6)).map(|_| numbers.below(4) as u32).collect();
        let count = lengths.iter().sum::<u32>() as usize;
        let points: Vec<f64> = (0..2 * count).map(|_| numbers.coordinate()).collect();
        let mut marks: Vec<u32> = Vec::new();
        for &length in &lengths {
            for place in 0..length {
                let vertex = marks.len() as u32 / 2;
                marks.extend(match (vertex, place) {
                    (0, _) => [0, 0],
                    (_, 0) => [3, vertex],
                    _ => [1, vertex - 1],
                });
            }
        }
        let home = Point { x: numbers.coordinate(), y: numbers.coordinate() };
        let strategy = match numbers.below(3) {
            0 => StartPointStrategy::Outside,
            1 => StartPointStrategy::Inside,
            _ => StartPointStrategy::Home(home),
        };
        let most = 1 + numbers.below(2) * 15;
        let layers = lengths.iter().map(|_| numbers.below(most) as u32).collect();
        let size = Size { width: numbers.below(9) as u32, height: u32::MAX };
        let path = MarkedPath::of(&points, &marks).unwrap();
        Joined::new(Handed { points, lengths, layers, size, strategy }, path)
    }

    #[test]
    fn what_is_written_is_read_back_bit_for_bit() {
        let mut numbers = Numbers(0x9E37_79B9_7F4A_7C15);
        for _ in 0..2_000 {
            let joined = drawn(&mut numbers);
            let row = String::from_utf8(write::retrace(&joined, Format::PlateMarks)).unwrap();
            let drawing = files::read_path(&row).unwrap();
            let bits = |numbers: &[f64]| numbers.iter().map(|x| x.to_bits()).collect::<Vec<_>>();
            assert_eq!(bits(&drawing.path), bits(&joined.plate.points), "{row}");
            let marks: Vec<u32> = joined.path.marks().iter().flat_map(|m| m.numbers()).collect();
            assert_eq!(drawing.marks, marks, "{row}");
        }
    }
}
