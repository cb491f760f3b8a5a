//! Path data: the commands M, L, H, V and Z, in both cases.

use super::{named, scan::Scan, shapes::Pen};
use crate::plate::Remark;
use crate::read::excerpt;
use crate::read::xml::Element;

/// How far the current subpath is.
#[derive(Clone, Copy, PartialEq, Eq)]
enum State {
    /// No command came yet.
    Nothing,
    /// Its start is known, but nothing is drawn yet. If nothing ever is, there is no contour.
    Moved,
    Drawn,
    /// What is drawn now begins another subpath at the same start.
    Closed,
}

struct Path<'a, 'p> {
    scan: Scan<'a>,
    pen: Pen<'p>,
    state: State,
    start: (f64, f64),
    start_byte: usize,
    current: (f64, f64),
}

/// Draws an element's path data.
pub fn draw(element: &Element, pen: Pen) -> Result<(), Remark> {
    let Some(data) = element.value("d") else { return Ok(()) };
    let mut path = Path {
        scan: Scan::new(data),
        pen,
        state: State::Nothing,
        start: (0.0, 0.0),
        start_byte: element.byte,
        current: (0.0, 0.0),
    };
    while let Some(letter) = path.scan.peek() {
        path.check(letter, element)?;
        path.follow(letter)?;
        path.scan.skip_blanks();
    }
    Ok(())
}

impl Path<'_, '_> {
    /// Whether a letter is a command that is read, and may stand here.
    fn check(&self, letter: u8, element: &Element) -> Result<(), Remark> {
        let shown = char::from(letter);
        let message = match letter.to_ascii_uppercase() {
            b'C' | b'S' | b'Q' | b'T' | b'A' => format!(
                "{} has the curve command {shown}: curves are not read, \
                 flatten the path to lines first",
                named(element)
            ),
            b'M' => return Ok(()),
            b'L' | b'H' | b'V' | b'Z' if self.state != State::Nothing => return Ok(()),
            b'L' | b'H' | b'V' | b'Z' => {
                format!("{} begins with {shown}: a path begins with M or m", named(element))
            }
            letter if letter.is_ascii_alphabetic() => {
                let word = self.scan.rest().split(|c: char| !c.is_ascii_alphabetic()).next();
                let word = excerpt(word.unwrap_or_default());
                format!("{} has the unknown command {word}", named(element))
            }
            _ => return Err(self.scan.unexpected("a path command")),
        };
        Err(Remark::new(self.scan.byte(), message))
    }

    /// Follows a command and all the numbers after it.
    fn follow(&mut self, letter: u8) -> Result<(), Remark> {
        let byte = self.scan.byte();
        self.scan.advance(1);
        if letter.eq_ignore_ascii_case(&b'Z') {
            self.close(byte);
            return Ok(());
        }
        self.scan.skip_blanks();
        self.step(letter)?;
        // Further points of a moveto are those of a lineto.
        let further = match letter {
            b'M' => b'L',
            b'm' => b'l',
            _ => letter,
        };
        while self.scan.has_more()? {
            self.step(further)?;
        }
        Ok(())
    }

    /// One moveto or lineto.
    fn step(&mut self, letter: u8) -> Result<(), Remark> {
        // The first moveto is from nowhere.
        let is_relative = letter.is_ascii_lowercase() && self.state != State::Nothing;
        let reach = |from: f64, number: f64| if is_relative { from + number } else { number };
        let (x, y) = self.current;
        let first = self.scan.number()?;
        let to = match letter {
            b'H' | b'h' => (reach(x, first.value), y),
            b'V' | b'v' => (x, reach(y, first.value)),
            _ => (reach(x, first.value), reach(y, self.scan.second()?.value)),
        };
        self.current = to;
        if letter.eq_ignore_ascii_case(&b'M') {
            (self.start, self.start_byte, self.state) = (to, first.byte, State::Moved);
        } else {
            self.begin();
            self.pen.point(to, first.byte);
        }
        Ok(())
    }

    /// The start is drawn when the first command after it draws.
    fn begin(&mut self) {
        if self.state != State::Drawn {
            self.pen.begin();
            self.pen.point(self.start, self.start_byte);
            self.state = State::Drawn;
        }
    }

    fn close(&mut self, byte: usize) {
        // What is closed already is not closed again.
        if self.state != State::Closed {
            self.begin();
            self.pen.close(byte);
        }
        self.state = State::Closed;
        self.current = self.start;
    }
}
