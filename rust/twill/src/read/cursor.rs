//! A place in a text of words, numbers and signs, which stand on lines.

use super::excerpt;
use crate::number;
use crate::plate::Remark;
use std::marker::PhantomData;
use twillharbor::Point;

/// The signs that end a word, as blanks do.
pub trait Signs {
    fn has(sign: char) -> bool;
}

pub struct Cursor<'a, S> {
    pub text: &'a str,
    pub at: usize,
    signs: PhantomData<S>,
}

impl<'a, S: Signs> Cursor<'a, S> {
    /// Begins behind a byte order mark, if there is one.
    pub fn new(text: &'a str) -> Self {
        let at = if text.starts_with('\u{FEFF}') { '\u{FEFF}'.len_utf8() } else { 0 };
        Self { text, at, signs: PhantomData }
    }

    /// What is left of the text.
    pub fn rest(&self) -> &'a str {
        &self.text[self.at..]
    }

    pub fn peek(&self) -> Option<char> {
        self.rest().chars().next()
    }

    /// Goes over blanks within the line, and over a sign, if it stands behind them.
    pub fn take(&mut self, expected: char) -> bool {
        self.skip_blanks();
        let is_there = self.peek() == Some(expected);
        if is_there {
            self.at += expected.len_utf8();
        }
        is_there
    }

    /// What stands here, up to a blank or a sign.
    pub fn word(&self) -> &'a str {
        let rest = self.rest();
        let is_end = |c: char| c.is_whitespace() || S::has(c);
        &rest[..rest.find(is_end).unwrap_or(rest.len())]
    }

    /// A point's two numbers, perhaps with a comma between them.
    pub fn coordinates(&mut self) -> Result<Point, Remark> {
        let x = self.coordinate("x")?;
        self.take(',');
        Ok(Point { x, y: self.coordinate("y")? })
    }

    fn coordinate(&mut self, name: &str) -> Result<f64, Remark> {
        self.skip_blanks();
        let word = self.word();
        match number::parse(word) {
            Some(value) => {
                self.at += word.len();
                Ok(value)
            }
            None => Err(self.expected(&format!("a number as {name}"))),
        }
    }

    /// What ends a point in brackets.
    pub fn close(&mut self) -> Result<(), Remark> {
        if self.take(')') { Ok(()) } else { Err(self.expected("`)`")) }
    }

    /// A whole number. The most that it may be is told; a layer above it is the library's to
    /// refuse.
    pub fn whole(&mut self, name: &str, most: u32) -> Result<u32, Remark> {
        self.skip_blanks();
        let word = self.word();
        match number::whole(word) {
            Some(value) => {
                self.at += word.len();
                Ok(value)
            }
            None => Err(self.expected(&format!("as {name} a whole number from 0 to {most}"))),
        }
    }

    pub fn expected(&self, what: &str) -> Remark {
        let found = match (self.word(), self.peek()) {
            (_, None) => "the end of the file".into(),
            _ if self.line_end().is_some() => "the end of the line".into(),
            ("", Some(sign)) => format!("`{}`", sign.escape_debug()),
            (word, _) => format!("`{}`", excerpt(word)),
        };
        Remark::new(self.at, format!("expected {what}, not {found}"))
    }

    /// The length of a line's end, if one stands here; the file's end is one too.
    pub fn line_end(&self) -> Option<usize> {
        match self.text.as_bytes()[self.at..] {
            [] => Some(0),
            [b'\r', b'\n', ..] => Some(2),
            [b'\n' | b'\r', ..] => Some(1),
            _ => None,
        }
    }

    /// Skips blanks within the line.
    pub fn skip_blanks(&mut self) {
        let rest = self.rest();
        let is_other = |c: char| matches!(c, '\n' | '\r') || !c.is_whitespace();
        self.at += rest.find(is_other).unwrap_or(rest.len());
    }
}
