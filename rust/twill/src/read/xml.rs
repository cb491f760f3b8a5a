//! XML as a row of opened and closed elements.
//!
//! Text between tags, comments, processing instructions and the DOCTYPE are passed over. What
//! is not well-formed is refused at its byte, or where it begins if its end is missing.

use super::excerpt;
use crate::plate::{Position, Remark};
use std::borrow::Cow;
use std::collections::HashSet;

/// What comes next in a file.
pub enum Event<'a> {
    Open(Element<'a>),
    /// Of the element that was opened last and is not closed yet.
    Close(Content<'a>),
}

/// What stands between an element's tags, as it is written, and where that begins.
#[derive(Clone, Copy)]
pub struct Content<'a> {
    pub name: &'a str,
    pub text: &'a str,
    pub byte: usize,
}

pub struct Element<'a> {
    pub name: &'a str,
    /// Where its `<` stands.
    pub byte: usize,
    pub attributes: Vec<Attribute<'a>>,
}

impl<'a> Element<'a> {
    pub fn value(&self, name: &str) -> Option<&Value<'a>> {
        self.attributes.iter().find(|attribute| attribute.name == name).map(|found| &found.value)
    }
}

pub struct Attribute<'a> {
    pub name: &'a str,
    /// Where its name stands.
    pub byte: usize,
    pub value: Value<'a>,
}

/// An attribute's value with its references decoded.
pub struct Value<'a> {
    pub text: Cow<'a, str>,
    /// Where it begins in the file.
    start: usize,
    /// For each reference its place and the place after it: in the value, then in the file.
    references: Vec<(usize, usize)>,
}

impl Value<'_> {
    /// The byte of the file at which a byte of the value stands.
    pub fn place(&self, at: usize) -> usize {
        let before = self.references.partition_point(|&(decoded, _)| decoded <= at);
        match before.checked_sub(1).map(|last| self.references[last]) {
            Some((decoded, file)) => file + (at - decoded),
            None => self.start + at,
        }
    }
}

/// Reads a file from the left.
pub struct Tokens<'a> {
    text: &'a str,
    at: usize,
    /// The elements that are not closed yet, with the bytes at which they stand and those at
    /// which what is in them begins.
    open: Vec<(&'a str, usize, usize)>,
    has_doctype: bool,
    has_root: bool,
    /// The element that was last given, if it closes itself.
    closes: Option<&'a str>,
}

impl<'a> Tokens<'a> {
    pub fn new(text: &'a str) -> Self {
        Self {
            text,
            at: if text.starts_with('\u{FEFF}') { '\u{FEFF}'.len_utf8() } else { 0 },
            open: Vec::new(),
            has_doctype: false,
            has_root: false,
            closes: None,
        }
    }

    /// What comes next; none at the end of a well-formed file.
    pub fn event(&mut self) -> Result<Option<Event<'a>>, Remark> {
        if let Some(name) = self.closes.take() {
            return Ok(Some(Event::Close(Content { name, text: "", byte: self.at })));
        }
        loop {
            self.skip_text()?;
            let rest = self.rest();
            if rest.is_empty() {
                return self.end().map(|()| None);
            } else if rest.starts_with("<!--") {
                self.skip("<!--", "-->", "comment")?;
            } else if rest.starts_with("<![CDATA[") && !self.open.is_empty() {
                self.skip("<![CDATA[", "]]>", "CDATA section")?;
            } else if rest.starts_with("<?xml-stylesheet") {
                return Err(Remark::new(self.at, "a stylesheet of another file is not read"));
            } else if rest.starts_with("<?") {
                self.skip("<?", "?>", "processing instruction")?;
            } else if rest.starts_with("<!DOCTYPE") {
                self.skip_doctype()?;
            } else if rest.starts_with("</") {
                return self.close().map(Some);
            } else {
                return self.open().map(Some);
            }
        }
    }

    fn rest(&self) -> &'a str {
        &self.text[self.at..]
    }

    fn peek(&self) -> Option<u8> {
        self.text.as_bytes().get(self.at).copied()
    }

    /// A remark about the place that was come to.
    fn unexpected(&self, wanted: &str) -> Remark {
        let found = match self.rest().chars().next() {
            Some(c) => format!("'{}'", excerpt(c.encode_utf8(&mut [0; 4]))),
            None => "the end of the file".into(),
        };
        Remark::new(self.at, format!("{wanted} is expected here, not {found}"))
    }

    fn end(&self) -> Result<(), Remark> {
        match self.open.last() {
            Some(&(name, byte, _)) => {
                Err(Remark::new(byte, format!("<{}> is not closed", excerpt(name))))
            }
            None if !self.has_root => Err(self.unexpected("an element")),
            None => Ok(()),
        }
    }

    /// Goes to the next `<`. Outside of the root there is no text.
    fn skip_text(&mut self) -> Result<(), Remark> {
        let rest = self.rest();
        let text = &rest[..rest.find('<').unwrap_or(rest.len())];
        let written = text.bytes().position(|b| !is_blank(b)).filter(|_| self.open.is_empty());
        if let Some(written) = written {
            self.at += written;
            let where_to = if self.has_root { "after" } else { "before" };
            return Err(Remark::new(self.at, format!("text stands {where_to} the root element")));
        }
        self.at += text.len();
        Ok(())
    }

    fn skip(&mut self, opening: &str, ending: &str, what: &str) -> Result<(), Remark> {
        let content = &self.rest()[opening.len()..];
        let Some(length) = content.find(ending) else {
            return Err(Remark::new(self.at, format!("the {what} has no {ending} at its end")));
        };
        self.at += opening.len() + length + ending.len();
        Ok(())
    }

    fn skip_doctype(&mut self) -> Result<(), Remark> {
        let start = self.at;
        if self.has_doctype || self.has_root {
            return Err(Remark::new(start, "a DOCTYPE stands once, before the root element"));
        }
        self.has_doctype = true;
        self.at += "<!DOCTYPE".len();
        let mut in_brackets = false;
        while let Some(byte) = self.peek() {
            match byte {
                b'"' => self.skip("\"", "\"", "quoted text")?,
                b'\'' => self.skip("'", "'", "quoted text")?,
                b'<' if self.rest().starts_with("<!--") => self.skip("<!--", "-->", "comment")?,
                b'<' if self.rest().starts_with("<?") => {
                    self.skip("<?", "?>", "processing instruction")?;
                }
                b'>' if !in_brackets => {
                    self.at += 1;
                    return Ok(());
                }
                _ => {
                    in_brackets = (in_brackets || byte == b'[') && byte != b']';
                    self.at += 1;
                }
            }
        }
        Err(Remark::new(start, "the DOCTYPE has no > at its end"))
    }

    fn close(&mut self) -> Result<Event<'a>, Remark> {
        let start = self.at;
        self.at += "</".len();
        let name = self.name().ok_or_else(|| self.unexpected("an element's name"))?;
        self.skip_blanks();
        if self.peek() != Some(b'>') {
            return Err(self.unexpected("the > of a closing tag"));
        }
        self.at += 1;
        let message = match self.open.pop() {
            Some((opened, _, byte)) if opened == name => {
                let text = &self.text[byte..start];
                return Ok(Event::Close(Content { name, text, byte }));
            }
            Some((opened, byte, _)) => {
                let (opened, position) = (excerpt(opened), Position::of(self.text, byte));
                format!("stands where <{opened}> of {position} is to be closed")
            }
            None => "closes no element".into(),
        };
        Err(Remark::new(start, format!("</{}> {message}", excerpt(name))))
    }

    fn open(&mut self) -> Result<Event<'a>, Remark> {
        let byte = self.at;
        self.at += "<".len();
        let name = self.name().ok_or_else(|| self.unexpected("an element's name"))?;
        if self.has_root && self.open.is_empty() {
            let message = format!("<{}> stands after the root element", excerpt(name));
            return Err(Remark::new(byte, message));
        }
        self.has_root = true;
        let mut attributes = Vec::new();
        let mut names = HashSet::new();
        loop {
            let is_apart = self.skip_blanks();
            match self.peek() {
                None => {
                    let message = format!("the tag <{} has no > at its end", excerpt(name));
                    return Err(Remark::new(byte, message));
                }
                Some(b'>') => {
                    self.at += 1;
                    self.open.push((name, byte, self.at));
                    break;
                }
                Some(b'/') if self.rest().starts_with("/>") => {
                    self.at += 2;
                    self.closes = Some(name);
                    break;
                }
                Some(_) if is_apart => attributes.push(self.attribute(&mut names)?),
                Some(_) => return Err(self.unexpected("a blank, > or />")),
            }
        }
        Ok(Event::Open(Element { name, byte, attributes }))
    }

    /// An attribute of a tag that has those of these names already.
    fn attribute(&mut self, names: &mut HashSet<&'a str>) -> Result<Attribute<'a>, Remark> {
        let byte = self.at;
        let name = self.name().ok_or_else(|| self.unexpected("an attribute, > or />"))?;
        if !names.insert(name) {
            let message = format!("the attribute {} is given twice", excerpt(name));
            return Err(Remark::new(byte, message));
        }
        self.skip_blanks();
        if self.peek() != Some(b'=') {
            return Err(self.unexpected("an = with the value"));
        }
        self.at += 1;
        self.skip_blanks();
        match self.peek() {
            Some(quote @ (b'"' | b'\'')) => Ok(Attribute { name, byte, value: self.value(quote)? }),
            _ => Err(self.unexpected("a value in quotes")),
        }
    }

    fn value(&mut self, quote: u8) -> Result<Value<'a>, Remark> {
        let opening = self.at;
        let start = opening + 1;
        self.at = start;
        let mut decoded = String::new();
        let mut references = Vec::new();
        // What stands before this is decoded, if there is a reference at all.
        let mut copied = start;
        loop {
            let mut bytes = self.rest().bytes();
            let Some(length) = bytes.position(|b| b == quote || b == b'<' || b == b'&') else {
                return Err(Remark::new(opening, "the value has no quote at its end"));
            };
            self.at += length;
            match self.peek() {
                Some(b'&') => {
                    decoded.push_str(&self.text[copied..self.at]);
                    references.push((decoded.len(), self.at));
                    decoded.push(self.reference()?);
                    references.push((decoded.len(), self.at));
                    copied = self.at;
                }
                Some(b'<') => {
                    let message = "< stands in a value: write &lt; or end the value before it";
                    return Err(Remark::new(self.at, message));
                }
                _ => break,
            }
        }
        let last = &self.text[copied..self.at];
        self.at += 1;
        let text =
            if references.is_empty() { Cow::Borrowed(last) } else { Cow::Owned(decoded + last) };
        Ok(Value { text, start, references })
    }

    /// The character that a reference stands for.
    fn reference(&mut self) -> Result<char, Remark> {
        let content = &self.rest()[1..];
        let length = content.bytes().take_while(|&b| is_in_name(b) || b == b'#').count();
        let name = &content[..length];
        if length == 0 || !content[length..].starts_with(';') {
            return Err(Remark::new(self.at, "& begins no reference: write &amp;"));
        }
        let number = |digits, radix| u32::from_str_radix(digits, radix).ok();
        let found = match name {
            "lt" => Some('<'),
            "gt" => Some('>'),
            "amp" => Some('&'),
            "quot" => Some('"'),
            "apos" => Some('\''),
            _ => match (name.strip_prefix("#x"), name.strip_prefix('#')) {
                (Some(digits), _) => number(digits, 16),
                (None, digits) => digits.and_then(|digits| number(digits, 10)),
            }
            .and_then(char::from_u32)
            .filter(|&c| c >= ' ' || matches!(c, '\t' | '\n' | '\r')),
        };
        let Some(found) = found else {
            let message = format!(
                "the reference &{}; is not known, and a DOCTYPE's are not read",
                excerpt(name)
            );
            return Err(Remark::new(self.at, message));
        };
        self.at += 1 + length + 1;
        Ok(found)
    }

    fn name(&mut self) -> Option<&'a str> {
        let rest = self.rest();
        let length = rest.bytes().take_while(|&b| is_in_name(b)).count();
        let first = rest.bytes().next()?;
        if length == 0 || first.is_ascii_digit() || first == b'-' || first == b'.' {
            return None;
        }
        self.at += length;
        Some(&rest[..length])
    }

    /// Whether there was a blank.
    fn skip_blanks(&mut self) -> bool {
        let count = self.rest().bytes().take_while(|&b| is_blank(b)).count();
        self.at += count;
        count > 0
    }
}

const fn is_blank(byte: u8) -> bool {
    matches!(byte, b' ' | b'\t' | b'\n' | b'\r')
}

/// Characters beyond ASCII are all taken for letters.
const fn is_in_name(byte: u8) -> bool {
    byte.is_ascii_alphanumeric() || matches!(byte, b'_' | b':' | b'-' | b'.') || !byte.is_ascii()
}

#[cfg(test)]
mod tests {
    use super::{Event, Tokens};
    use crate::plate::Remark;

    /// The elements with their attributes, `/` where one is closed.
    fn told(text: &str) -> Result<String, Remark> {
        let mut tokens = Tokens::new(text);
        let mut told = String::new();
        while let Some(event) = tokens.event()? {
            match event {
                Event::Close(_) => told.push('/'),
                Event::Open(element) => {
                    told.push_str(element.name);
                    for attribute in &element.attributes {
                        told += &format!("[{}={}]", attribute.name, attribute.value.text);
                    }
                }
            }
        }
        Ok(told)
    }

    /// `^` marks where the fault stands in the text, which is without it.
    #[track_caller]
    fn assert_fault(marked: &str, message: &str) {
        let byte = marked.find('^').expect("the fault's place is marked");
        let text = marked.replacen('^', "", 1);
        assert_eq!(told(&text), Err(Remark::new(byte, message)), "{text}");
    }

    #[test]
    fn elements_and_attributes_are_told_in_order() {
        let cases = [
            ("<a/>", "a/"),
            ("<a></a >", "a/"),
            ("\u{FEFF}<a b='1' c = \"2\"\n/>\n", "a[b=1][c=2]/"),
            ("<a><b:c-d.e/>text &any; ]]> <\u{e9}/></a>", "ab:c-d.e/\u{e9}//"),
            ("<?xml version='1.0'?><!-- <b> -- --><a><!--</a>--></a><!----><?x ?>", "a/"),
            ("<a><![CDATA[ </a> ]] ]]></a>", "a/"),
            ("<!DOCTYPE a><a/>", "a/"),
            ("<!DOCTYPE a PUBLIC '>' \"[\" [<!ENTITY b ']>'><!-- ' ]> --><? \"?> ]><a/>", "a/"),
            ("<a b='\"' c=\"'>/>\"/>", "a[b=\"][c='>/>]/"),
            ("<a b='&lt;&gt;&amp;&quot;&apos;&#65;&#x4a;&#233;&#x1F600;.'/>", {
                "a[b=<>&\"'AJ\u{e9}\u{1F600}.]/"
            }),
        ];
        for (text, expected) in cases {
            assert_eq!(told(text).as_deref(), Ok(expected), "{text}");
        }
    }

    #[test]
    fn a_byte_of_a_value_has_its_place_in_the_file() {
        let text = "<a b='\u{e9}1&#x1F600;2&amp;&lt;3' c='4'/>";
        let mut tokens = Tokens::new(text);
        let Ok(Some(Event::Open(element))) = tokens.event() else { panic!("an element") };
        let value = element.value("b").expect("it is given");
        for (digit, sought) in
            [("1", "1&"), ("2", "2&"), ("&", "&amp;"), ("<", "&lt;"), ("3", "3'")]
        {
            let at = value.text.find(digit).expect("it stands there");
            assert_eq!(Some(value.place(at)), text.find(sought), "{digit}");
        }
        assert_eq!(Some(value.place(value.text.len())), text.find("' c"));
        let plain = element.value("c").expect("it is given");
        assert_eq!((plain.place(0), plain.place(1)), (text.len() - 4, text.len() - 3));
        assert!(element.value("d").is_none());
    }

    #[test]
    fn tags_that_do_not_match_are_refused() {
        assert_fault("<a>\n <b>^</a></b>", "</a> stands where <b> of 2:2 is to be closed");
        assert_fault("<a/>^</a>", "</a> closes no element");
        assert_fault("<a>^<b><c></c>", "<b> is not closed");
        assert_fault("<a/> ^<b/>", "<b> stands after the root element");
        assert_fault("<a/>\n ^x", "text stands after the root element");
        assert_fault(" ^x<a/>", "text stands before the root element");
        assert_fault("<!---->^", "an element is expected here, not the end of the file");
    }

    #[test]
    fn what_has_no_end_is_refused_where_it_begins() {
        assert_fault("<a>^<!-- </a>", "the comment has no --> at its end");
        assert_fault("<a>^<!--></a>", "the comment has no --> at its end");
        assert_fault("<a>^<![CDATA[ </a>", "the CDATA section has no ]]> at its end");
        assert_fault("^<?xml <a/>", "the processing instruction has no ?> at its end");
        assert_fault("^<!DOCTYPE a [ > ", "the DOCTYPE has no > at its end");
        assert_fault("<!DOCTYPE a ^'> ", "the quoted text has no ' at its end");
        assert_fault("^<a b='1' ", "the tag <a has no > at its end");
        assert_fault("<a b=^'1/>", "the value has no quote at its end");
        assert_fault(
            "<a></a ^",
            "the > of a closing tag is expected here, not the end of the file",
        );
        assert_fault("<a><^", "an element's name is expected here, not the end of the file");
    }

    #[test]
    fn damaged_tags_are_refused() {
        assert_fault("<^ a/>", "an element's name is expected here, not ' '");
        assert_fault("<^!doctype a>", "an element's name is expected here, not '!'");
        assert_fault("<^![CDATA[ ]]>", "an element's name is expected here, not '!'");
        assert_fault("<^1/>", "an element's name is expected here, not '1'");
        assert_fault("<a></^>", "an element's name is expected here, not '>'");
        assert_fault("<a^%/>", "a blank, > or /> is expected here, not '%'");
        assert_fault("<a ^/ >", "an attribute, > or /> is expected here, not '/'");
        assert_fault("<a b='1'^c='2'/>", "a blank, > or /> is expected here, not 'c'");
        assert_fault("<a b='1' c='2' ^b='1'/>", "the attribute b is given twice");
        assert_fault("<a b^/>", "an = with the value is expected here, not '/'");
        assert_fault("<a b=^1/>", "a value in quotes is expected here, not '1'");
        assert_fault("<a/>^<!DOCTYPE a>", "a DOCTYPE stands once, before the root element");
        let message = "< stands in a value: write &lt; or end the value before it";
        assert_fault("<a b='1>\n^<b c='2'/></a>", message);
    }

    #[test]
    fn references_that_are_none_are_refused() {
        let unknown = ["nbsp", "#", "#x", "#0", "#x1", "#xD800", "#x110000", "#99999999999", "LT"];
        for name in unknown {
            let marked = format!("<a b='&gt;\u{e9}^&{name};'/>");
            assert_fault(
                &marked,
                &format!("the reference &{name}; is not known, and a DOCTYPE's are not read"),
            );
        }
        for text in ["<a b='^&'/>", "<a b='^&;'/>", "<a b='^&lt '/>", "<a b='^& lt;'/>"] {
            assert_fault(text, "& begins no reference: write &amp;");
        }
    }
}
