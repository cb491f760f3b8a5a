//! The numbers of an attribute's value.
//!
//! They are SVG's decimals, which need no blank between them where a sign or a point tells them
//! apart. Hexadecimal ones, `nan` and `inf` are read too, but stand apart by blanks or commas.

use crate::number;
use crate::plate::Remark;
use crate::read::excerpt;
use crate::read::xml::Value;

/// A number, and the byte of the file at which it stands.
#[derive(Clone, Copy)]
pub struct Number {
    pub value: f64,
    pub byte: usize,
}

/// Reads a value from the left.
pub struct Scan<'v> {
    value: &'v Value<'v>,
    at: usize,
}

impl<'v> Scan<'v> {
    pub fn new(value: &'v Value<'v>) -> Self {
        let mut scan = Self { value, at: 0 };
        scan.skip_blanks();
        scan
    }

    pub fn rest(&self) -> &'v str {
        &self.value.text[self.at..]
    }

    pub fn peek(&self) -> Option<u8> {
        self.value.text.as_bytes().get(self.at).copied()
    }

    /// The byte of the file that was come to.
    pub fn byte(&self) -> usize {
        self.value.place(self.at)
    }

    /// Goes on by ASCII characters.
    pub fn advance(&mut self, count: usize) {
        self.at += count;
    }

    pub fn skip_blanks(&mut self) {
        self.at += self.rest().bytes().take_while(|&b| is_blank(b)).count();
    }

    /// Skips blanks and at most one comma, whose byte is given.
    pub fn skip_separator(&mut self) -> Option<usize> {
        self.skip_blanks();
        let comma = (self.peek() == Some(b',')).then(|| self.byte());
        if comma.is_some() {
            self.at += 1;
            self.skip_blanks();
        }
        comma
    }

    /// After a number: whether another one follows. After a comma it must.
    pub fn has_more(&mut self) -> Result<bool, Remark> {
        let comma = self.skip_separator();
        let begins = |b: u8| b.is_ascii_digit() || b"+-.nNiI".contains(&b);
        match (self.peek().is_some_and(begins), comma) {
            (false, Some(comma)) => Err(Remark::new(comma, "no number follows this comma")),
            (found, _) => Ok(found),
        }
    }

    pub fn number(&mut self) -> Result<Number, Remark> {
        let rest = self.rest();
        let length = if self.is_word() { until_separator(rest) } else { decimal(rest) };
        let byte = self.byte();
        let Some(value) = number::parse(&rest[..length]) else {
            return Err(self.unexpected("a number"));
        };
        self.at += length;
        Ok(Number { value, byte })
    }

    /// A number that must be there after another.
    pub fn second(&mut self) -> Result<Number, Remark> {
        self.skip_separator();
        if self.peek().is_none() {
            let message = "the number of coordinates is odd: the last one is missing";
            return Err(Remark::new(self.byte(), message));
        }
        self.number()
    }

    /// All of the value as numbers.
    pub fn numbers(mut self) -> Result<Vec<Number>, Remark> {
        let mut numbers = Vec::new();
        let mut has_more = self.peek().is_some();
        while has_more {
            numbers.push(self.number()?);
            has_more = self.has_more()?;
        }
        self.end().map(|()| numbers)
    }

    /// Nothing is left of the value.
    pub fn end(&self) -> Result<(), Remark> {
        if self.peek().is_some() { Err(self.unexpected("a number")) } else { Ok(()) }
    }

    /// A remark about the place that was come to.
    pub fn unexpected(&self, wanted: &str) -> Remark {
        let rest = self.rest();
        let found = match until_separator(rest) {
            _ if rest.is_empty() => "the end of the value".into(),
            0 => format!("'{}'", excerpt(&rest[..1])),
            length => format!("'{}'", excerpt(&rest[..length])),
        };
        Remark::new(self.byte(), format!("{wanted} is expected here, not {found}"))
    }

    /// Whether what follows is to be read up to the next blank or comma. Directly after a
    /// decimal it is not.
    fn is_word(&self) -> bool {
        let before = self.value.text[..self.at].bytes().next_back();
        if before.is_some_and(|b| b.is_ascii_digit() || b == b'.') {
            return false;
        }
        let rest = self.rest();
        let unsigned = rest.strip_prefix(['+', '-']).unwrap_or(rest);
        unsigned.starts_with(['n', 'N', 'i', 'I'])
            || unsigned.starts_with("0x")
            || unsigned.starts_with("0X")
    }
}

pub const fn is_blank(byte: u8) -> bool {
    matches!(byte, b' ' | b'\t' | b'\n' | b'\r' | 0x0C)
}

fn until_separator(text: &str) -> usize {
    let is_separator = |b| is_blank(b) || matches!(b, b',' | b'(' | b')');
    text.bytes().position(is_separator).unwrap_or(text.len())
}

/// The length of the decimal that a text begins with, or 0.
fn decimal(text: &str) -> usize {
    let bytes = text.as_bytes();
    let is_sign = |at| matches!(bytes.get(at), Some(b'+' | b'-'));
    let digits = |from: usize| bytes[from..].iter().take_while(|b| b.is_ascii_digit()).count();
    let start = usize::from(is_sign(0));
    let whole = digits(start);
    let mut end = start + whole;
    if bytes.get(end) == Some(&b'.') {
        let fraction = digits(end + 1);
        if whole + fraction == 0 {
            return 0;
        }
        end += 1 + fraction;
    } else if whole == 0 {
        return 0;
    }
    if matches!(bytes.get(end), Some(b'e' | b'E')) {
        let power = end + 1 + usize::from(is_sign(end + 1));
        let count = digits(power.min(bytes.len()));
        // Without digits the letter is not of the number.
        end = if count > 0 { power + count } else { end };
    }
    end
}
