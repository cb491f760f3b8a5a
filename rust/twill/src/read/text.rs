//! The plain text form.
//!
//! A line holds a point, `x y` or `x,y`, or points in brackets, `(x,y)(x,y)`. Blank lines and `|`
//! end a contour. The word `empty` is a contour without a point, `size W H` and `start inside`,
//! `start outside` or `start home X Y` give the plate's size and strategy, `layer N` the layer of
//! the contours from there on, and `#` begins a comment.

use super::cursor::{Cursor, Signs};
use crate::plate::{Layer, Plate, Remark};
use twillharbor::{HIGHEST_LAYER, Point, StartPointStrategy};

/// What ends a word, beside blanks.
struct Ends;

impl Signs for Ends {
    fn has(sign: char) -> bool {
        matches!(sign, ',' | '(' | ')' | '|' | '#')
    }
}

pub fn read(text: &str) -> Result<Plate, Remark> {
    let cursor = Cursor::new(text);
    let mut reader = Reader { cursor, plate: Plate::default(), apart: true };
    while reader.cursor.at < text.len() {
        reader.line()?;
    }
    Ok(reader.plate)
}

struct Reader<'a> {
    cursor: Cursor<'a, Ends>,
    plate: Plate,
    /// Whether the next point begins a contour.
    apart: bool,
}

impl Reader<'_> {
    /// Reads a line and goes to the next.
    fn line(&mut self) -> Result<(), Remark> {
        self.cursor.skip_blanks();
        if self.cursor.line_end().is_some() {
            self.apart = true;
        } else if matches!(self.cursor.word(), "size" | "start" | "layer") {
            self.setting()?;
        }
        loop {
            if let Some(length) = self.cursor.line_end() {
                self.cursor.at += length;
                return Ok(());
            }
            match self.cursor.peek() {
                Some('#') => self.skip_comment(),
                Some('(') => self.bracketed()?,
                Some(_) if self.cursor.word() == "empty" => self.empty()?,
                Some(_) => self.bare()?,
                None => {}
            }
            self.cursor.skip_blanks();
            if self.cursor.peek() == Some('|') {
                self.bar()?;
            }
        }
    }

    /// A contour has ended, and another follows, perhaps on a further line.
    fn bar(&mut self) -> Result<(), Remark> {
        self.apart = true;
        self.cursor.at += 1;
        self.cursor.skip_blanks();
        match self.cursor.rest().trim_start().chars().next() {
            Some('|') | None => Err(self.cursor.expected("a contour")),
            Some(_) => Ok(()),
        }
    }

    fn empty(&mut self) -> Result<(), Remark> {
        self.cursor.at += "empty".len();
        self.plate.begin();
        self.apart = true;
        self.item_end("empty")
    }

    /// A point without brackets is the last of its line: in `1,5 2,5` or in a third column
    /// another mistake would go unseen.
    fn bare(&mut self) -> Result<(), Remark> {
        let byte = self.cursor.at;
        let at = self.cursor.coordinates()?;
        self.push(at, byte);
        self.item_end("a point without brackets")
    }

    fn bracketed(&mut self) -> Result<(), Remark> {
        let byte = self.cursor.at;
        self.cursor.at += 1;
        let at = self.cursor.coordinates()?;
        self.cursor.close()?;
        self.push(at, byte);
        Ok(())
    }

    fn push(&mut self, at: Point, byte: usize) {
        if self.apart {
            self.plate.begin();
            self.apart = false;
        }
        self.plate.push(at.x, at.y, byte);
    }

    /// Nothing follows but another contour, a comment or the end of the line.
    fn item_end(&mut self, item: &str) -> Result<(), Remark> {
        self.cursor.skip_blanks();
        match self.cursor.peek() {
            Some('|' | '#') => Ok(()),
            _ if self.cursor.line_end().is_some() => Ok(()),
            _ => Err(self.cursor.expected(&format!("`|` or the end of the line after {item}"))),
        }
    }

    /// A line that gives the plate's size or strategy, or a layer, which may change.
    fn setting(&mut self) -> Result<(), Remark> {
        let byte = self.cursor.at;
        let word = self.cursor.word();
        self.cursor.at += word.len();
        self.apart = true;
        let is_twice = match word {
            "size" => {
                let width = self.cursor.whole("width", u32::MAX)?;
                let height = self.cursor.whole("height", u32::MAX)?;
                self.plate.height = Some(height);
                self.plate.width.replace(width).is_some()
            }
            "start" => {
                let strategy = self.strategy()?;
                self.plate.strategy.replace(strategy).is_some()
            }
            _ => {
                self.plate.layer = Layer::new(self.cursor.whole("layer", HIGHEST_LAYER)?, byte);
                false
            }
        };
        if is_twice {
            return Err(Remark::new(byte, format!("the {word} is given twice")));
        }
        self.cursor.skip_blanks();
        match self.cursor.peek() {
            Some('#') => Ok(()),
            _ if self.cursor.line_end().is_some() => Ok(()),
            _ => Err(self.cursor.expected("the end of the line")),
        }
    }

    fn strategy(&mut self) -> Result<StartPointStrategy, Remark> {
        self.cursor.skip_blanks();
        let word = self.cursor.word();
        let strategy = crate::plate::strategy(word);
        if strategy.is_none() && word != "home" {
            return Err(self.cursor.expected("`inside`, `outside` or `home`"));
        }
        self.cursor.at += word.len();
        match strategy {
            Some(strategy) => Ok(strategy),
            None => self.home().map(StartPointStrategy::Home),
        }
    }

    /// The parked point, in brackets or not.
    fn home(&mut self) -> Result<Point, Remark> {
        self.cursor.skip_blanks();
        self.plate.home_byte = Some(self.cursor.at);
        let is_bracketed = self.cursor.take('(');
        let home = self.cursor.coordinates()?;
        if is_bracketed {
            self.cursor.close()?;
        }
        Ok(home)
    }

    fn skip_comment(&mut self) {
        let rest = self.cursor.rest();
        self.cursor.at += rest.find(['\n', '\r']).unwrap_or(rest.len());
    }
}

#[cfg(test)]
mod tests {
    use super::read;
    use crate::plate::Plate;
    use twillharbor::StartPointStrategy;

    fn contours(plate: &Plate) -> Vec<Vec<(f64, f64)>> {
        let (points, _) = plate.points.as_chunks::<2>();
        let mut points = points.iter().map(|&[x, y]| (x, y));
        plate.lengths.iter().map(|&n| points.by_ref().take(n as usize).collect()).collect()
    }

    #[test]
    fn points_stand_in_three_ways() {
        let plate = read("0 0\n4,0\n(8 , 0)\n\n\n0 1 # last\n").unwrap();
        assert_eq!(contours(&plate), [vec![(0.0, 0.0), (4.0, 0.0), (8.0, 0.0)], vec![(0.0, 1.0)]]);
        assert_eq!(plate.bytes, [0, 4, 8, 18]);
        let same = read("(0,0)(4,0) (8,0) | (0,1)").unwrap();
        assert_eq!((same.points, same.lengths), (plate.points, plate.lengths));
    }

    #[test]
    fn settings_and_empty_contours() {
        let plate = read("\u{FEFF}# a plate\nsize 8 2\r\nstart inside\nempty\nempty # twice\n1 2\n# within\n3 4\n \nempty")
            .unwrap();
        assert_eq!((plate.width, plate.height), (Some(8), Some(2)));
        assert_eq!(plate.strategy, Some(StartPointStrategy::Inside));
        assert_eq!(plate.lengths, [0, 0, 2, 0]);
        assert_eq!(read("empty | (1,2)(3,4) | empty |\n\n5 6").unwrap().lengths, [0, 2, 0, 1]);
        assert_eq!(read("").unwrap(), Plate::default());
        assert_eq!(read("\n# nothing\n").unwrap(), Plate::default());
    }

    #[test]
    fn a_parked_point_stands_with_the_start() {
        for (text, x, y) in [
            ("start home 12 0.5\n1 2\n", 12.0, 0.5),
            ("1 2\nstart  home -5,3 # parked\n", -5.0, 3.0),
            ("start home (0x1p-1074, -0)", 5e-324, -0.0),
            ("start home\t( 1e6 -inf )\n", 1e6, f64::NEG_INFINITY),
        ] {
            let plate = read(text).unwrap();
            let Some(StartPointStrategy::Home(home)) = plate.strategy else { panic!("{text}") };
            assert_eq!([home.x, home.y].map(f64::to_bits), [x, y].map(f64::to_bits), "{text}");
            let stands = text.find("home").unwrap() + "home".len() + 1;
            assert_eq!(plate.home_byte, Some(stands), "{text}");
        }
        assert_eq!(read("start inside\n").unwrap().home_byte, None);
    }

    #[test]
    fn layers_hold_from_their_line_on() {
        let plate = read(
            "0 0\n1 0\nlayer 3\n2 0\n\nempty\nlayer 0 # again\n(3,0) | (4,0)\n\
                          layer 16\nlayer 4294967295\n5 0\n",
        )
        .unwrap();
        assert_eq!(plate.lengths, [2, 1, 0, 1, 1, 1]);
        let layers: Vec<_> = plate.layers.iter().map(|l| (l.number, l.byte)).collect();
        let (three, zero, last) = ((3, Some(8)), (0, Some(27)), (u32::MAX, Some(66)));
        assert_eq!(layers, [(0, None), three, three, zero, zero, last]);
    }

    #[test]
    fn lines_end_as_any_system_writes_them() {
        let text = "# a\n0 0\n4 0\n\n4 1\n8 1\n";
        for end in ["\n", "\r\n", "\r"] {
            let plate = read(&text.replace('\n', end)).unwrap();
            assert_eq!((plate.lengths, plate.points.len()), (vec![2, 2], 8), "{end:?}");
        }
    }

    #[test]
    fn numbers_are_kept_bit_for_bit() {
        let plate = read("-0 0x1.fffffffffffffp-3\nnan -inf\n1e-400 .5").unwrap();
        let bits: Vec<u64> = plate.points.iter().map(|x| x.to_bits()).collect();
        assert_eq!(bits[0], (-0.0f64).to_bits());
        assert_eq!(bits[1], 0x3FCF_FFFF_FFFF_FFFF);
        assert!(plate.points[2].is_nan() && plate.points[3] == f64::NEG_INFINITY);
        assert_eq!(bits[4..], [0, 0.5f64.to_bits()]);
    }

    #[test]
    fn faults_have_a_place() {
        let cases = [
            ("1 2\n3", 5, "expected a number as y, not the end of the file"),
            ("1 2\n3\n4 5", 5, "expected a number as y, not the end of the line"),
            ("1 2x", 2, "expected a number as y, not `2x`"),
            ("(1,2", 4, "expected `)`, not the end of the file"),
            ("(1,2,3)", 4, "expected `)`, not `,`"),
            ("1,,2", 2, "expected a number as y, not `,`"),
            ("| 1 2", 0, "expected a number as x, not `|`"),
            ("(1,2) | | (3,4)", 8, "expected a contour, not `|`"),
            ("(1,2) |", 7, "expected a contour, not the end of the file"),
            ("(1,2) |\n\n", 7, "expected a contour, not the end of the line"),
            ("1 2\nsizes 3 4", 4, "expected a number as x, not `sizes`"),
            (
                "size 3",
                6,
                "expected as height a whole number from 0 to 4294967295, not the end of the file",
            ),
            ("size 3 -4", 7, "expected as height a whole number from 0 to 4294967295, not `-4`"),
            ("size 3 +4", 7, "expected as height a whole number from 0 to 4294967295, not `+4`"),
            ("size 1 2\nsize 1 2", 9, "the size is given twice"),
            ("size 1 2 3", 9, "expected the end of the line, not `3`"),
            ("start in", 6, "expected `inside`, `outside` or `home`, not `in`"),
            ("start home", 10, "expected a number as x, not the end of the file"),
            ("start home 1\n2 3", 12, "expected a number as y, not the end of the line"),
            ("start home 1 2 3", 15, "expected the end of the line, not `3`"),
            ("start home (1,2", 15, "expected `)`, not the end of the file"),
            ("start home (1,2)(3,4)", 16, "expected the end of the line, not `(`"),
            ("start home 1 2\nstart inside", 15, "the start is given twice"),
            ("layer -1", 6, "expected as layer a whole number from 0 to 15, not `-1`"),
            (
                "layer 4294967296",
                6,
                "expected as layer a whole number from 0 to 15, not `4294967296`",
            ),
            (
                "1 2\nlayer\n",
                9,
                "expected as layer a whole number from 0 to 15, not the end of the line",
            ),
            ("layer 1 2", 8, "expected the end of the line, not `2`"),
            (
                "1 2 layer 1",
                4,
                "expected `|` or the end of the line after a point without brackets, not `layer`",
            ),
            (
                "1 2 start inside",
                4,
                "expected `|` or the end of the line after a point without brackets, not `start`",
            ),
            ("empty 1 2", 6, "expected `|` or the end of the line after empty, not `1`"),
            (
                "1,5 2,5",
                4,
                "expected `|` or the end of the line after a point without brackets, not `2`",
            ),
            (
                "0 0 1",
                4,
                "expected `|` or the end of the line after a point without brackets, not `1`",
            ),
        ];
        for (text, byte, message) in cases {
            let remark = read(text).unwrap_err();
            assert_eq!((remark.byte, remark.message.as_str()), (byte, message), "{text}");
        }
    }
}
