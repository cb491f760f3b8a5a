//! Files as plates.

mod cursor;
mod drawing;
mod json;
mod row;
mod svg;
mod text;
mod xml;

use crate::plate::{Plate, Remark};

pub use drawing::Drawing;

/// Reads a plate. The form is told from the first character that is not blank: `<` begins an
/// SVG picture, `[` or `{` JSON, and anything else the plain text form.
pub fn read(text: &str) -> Result<Plate, Remark> {
    let content = text.trim_start_matches('\u{FEFF}');
    match content.trim_start().chars().next() {
        // Rather a program that failed before it wrote than a plate.
        None => Err(Remark::new(0, "the file is empty")),
        Some('<') => svg::read(text),
        Some('[' | '{') => json::read(text),
        _ => text::read(text),
    }
}

/// Reads a path with its marks, as `retrace` writes it: `{` begins JSON, a bracket or the word
/// `empty` or `none` the row of marked plates, and anything else is the text form.
pub fn read_path(text: &str) -> Result<Drawing, Remark> {
    let content = text.trim_start_matches('\u{FEFF}').trim_start();
    match content.chars().next() {
        None => Err(Remark::new(0, "the file is empty")),
        Some('{') => json::read_path(text),
        _ if row::is_one(content) => row::read(text),
        _ => drawing::read(text),
    }
}

/// Text of a file, to be shown within a line: not too long and without control characters.
fn excerpt(text: &str) -> String {
    const MOST: usize = 40;
    let mut shown = String::new();
    for (count, c) in text.chars().enumerate() {
        if count == MOST {
            shown.push_str("...");
            break;
        }
        if c.is_control() {
            shown.extend(c.escape_default());
        } else {
            shown.push(c);
        }
    }
    shown
}

#[cfg(test)]
mod tests {
    use super::excerpt;

    #[test]
    fn an_excerpt_is_one_short_line() {
        assert_eq!(excerpt("a\n\u{1b}[2J\u{e9}\"'"), "a\\n\\u{1b}[2J\u{e9}\"'");
        assert_eq!(excerpt(&"x".repeat(40)), "x".repeat(40));
        assert_eq!(excerpt(&"\u{e9}".repeat(41)), "\u{e9}".repeat(40) + "...");
    }
}
