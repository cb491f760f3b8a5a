//! A path with its marks, in the text form: a path point a line, `x y mark reference`, where mark
//! is a word or a kind's number, and perhaps a layer, which is skipped; `#` begins a comment.

use super::excerpt;
use crate::number;
use crate::plate::Remark;

/// A path with marks as it was read from a file.
#[derive(Debug, Clone, Default, PartialEq)]
pub struct Drawing {
    /// Each path point's horizontal, then its vertical coordinate.
    pub path: Vec<f64>,
    /// Each path point's kind, then its reference.
    pub marks: Vec<u32>,
    /// For each path point the byte of the text at which it stands.
    pub bytes: Vec<usize>,
}

impl Drawing {
    /// The path points.
    pub fn points(&self) -> &[[f64; 2]] {
        self.path.as_chunks().0
    }

    /// Their kinds and references.
    pub fn numbers(&self) -> &[[u32; 2]] {
        self.marks.as_chunks().0
    }
}

/// The words for kinds, in the order of their numbers.
const KINDS: [&str; 5] = ["start", "cut", "back-step", "jump", "touch"];

pub fn read(text: &str) -> Result<Drawing, Remark> {
    let mut drawing = Drawing::default();
    let content = text.trim_start_matches('\u{FEFF}');
    let mut byte = text.len() - content.len();
    for line in content.split_inclusive(['\n', '\r']) {
        let (point, _) = line.split_once('#').unwrap_or((line, ""));
        path_point(point, byte, &mut drawing)?;
        byte += line.len();
    }
    Ok(drawing)
}

/// Reads a line that stands at a byte; a blank one holds no path point.
fn path_point(line: &str, byte: usize, drawing: &mut Drawing) -> Result<(), Remark> {
    let byte = byte + line.len() - line.trim_start().len();
    let words: Vec<&str> = line.split_whitespace().collect();
    let fault = |message: String| Err(Remark::new(byte, message));
    let (x, y, kind, reference) = match words[..] {
        [] => return Ok(()),
        [x, y, kind, reference] => (x, y, kind, reference),
        [x, y, kind, reference, layer] if number::whole(layer).is_some() => (x, y, kind, reference),
        _ => {
            return fault(format!(
                "expected x, y, mark and reference, not `{}`",
                excerpt(line.trim())
            ));
        }
    };
    let [Some(x), Some(y)] = [x, y].map(number::parse) else {
        return fault(format!(
            "expected numbers as x and y, not `{}`",
            excerpt(&format!("{x} {y}"))
        ));
    };
    let named = KINDS.iter().position(|&word| word == kind).map(|kind| kind as u32);
    let Some(kind) = named.or_else(|| number::whole(kind)) else {
        return fault(format!("`{}` is none of {}", excerpt(kind), KINDS.join(", ")));
    };
    let Some(reference) = number::whole(reference) else {
        let shown = excerpt(reference);
        return fault(format!("expected a whole number as reference, not `{shown}`"));
    };
    drawing.path.extend([x, y]);
    drawing.marks.extend([kind, reference]);
    drawing.bytes.push(byte);
    Ok(())
}

#[cfg(test)]
mod tests {
    use super::read;

    #[test]
    fn a_path_point_is_a_line() {
        let text =
            "\u{FEFF}# retrace\r\n0 -0 start 2\r\n\n  0x1p3\t1e2 touch 7 3 # layer 3\nNaN 1 9 0";
        let drawing = read(text).unwrap();
        let bits: Vec<u64> = drawing.path.iter().map(|x| x.to_bits()).collect();
        assert_eq!(bits, [0.0, -0.0, 8.0, 100.0, f64::NAN, 1.0].map(f64::to_bits));
        assert_eq!(drawing.marks, [0, 2, 4, 7, 9, 0]);
        let starts = ["0 -0", "0x1p3", "NaN"].map(|start| text.find(start).unwrap());
        assert_eq!(drawing.bytes, starts);
        assert_eq!(read("# nothing\n").unwrap().path, []);
    }

    #[test]
    fn faults_have_a_place() {
        for (text, byte, message) in [
            ("0 0 start", 0, "expected x, y, mark and reference, not `0 0 start`"),
            ("0 0 cut 1 2 3", 0, "expected x, y, mark and reference, not `0 0 cut 1 2 3`"),
            ("0 0 cut 1 x", 0, "expected x, y, mark and reference, not `0 0 cut 1 x`"),
            ("0 0 start 0\n a 0 cut 1", 13, "expected numbers as x and y, not `a 0`"),
            ("0 0 hop 1", 0, "`hop` is none of start, cut, back-step, jump, touch"),
            ("0 0 cut -1", 0, "expected a whole number as reference, not `-1`"),
            ("0 0 cut 4294967296", 0, "expected a whole number as reference, not `4294967296`"),
        ] {
            let remark = read(text).unwrap_err();
            assert_eq!((remark.byte, remark.message.as_str()), (byte, message), "{text}");
        }
    }
}
