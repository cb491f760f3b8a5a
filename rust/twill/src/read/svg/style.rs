//! Properties that decide whether and where something is drawn. An attribute `display="none"` and
//! the same in an inline style are read; the others are refused, since what is drawn would not
//! be what is engraved.

use super::named;
use crate::plate::Remark;
use crate::read::excerpt;
use crate::read::xml::{Content, Element};

/// Properties that hide, clip or move, if their value is none of these words.
const ALTERING: [(&str, &[&str]); 7] = [
    ("visibility", &["visible", "inherit"]),
    ("clip-path", &["none"]),
    ("mask", &["none"]),
    ("transform", &["none"]),
    ("translate", &["none"]),
    ("scale", &["none"]),
    ("rotate", &["none"]),
];

/// Properties that move what has a transform.
const ORIGIN: [&str; 2] = ["transform-origin", "transform-box"];

/// Whether it has display none. A style's holds against an attribute's.
pub fn is_hidden(element: &Element) -> bool {
    let style = element.value("style").map(|value| without_comments(&value.text));
    let style = style.unwrap_or_default();
    let displays = declarations(&style).filter(|(_, property, _)| is_word(property, "display"));
    let attribute = element.value("display").map(|value| value.text.trim());
    let display = displays.last().map(|(_, _, value)| value).or(attribute);
    display.is_some_and(|value| is_word(value, "none"))
}

/// What is not read is refused on an element of this name and in its style.
pub fn check(element: &Element, name: &str) -> Result<(), Remark> {
    let has_transform = element.value("transform").is_some();
    for attribute in &element.attributes {
        // As an attribute a transform is read.
        let is_refused = match attribute.name {
            "visibility" | "clip-path" | "mask" => alters(attribute.name, &attribute.value.text),
            "systemLanguage" | "requiredExtensions" | "requiredFeatures" => true,
            "transform-origin" => has_transform,
            _ => false,
        };
        if is_refused {
            let message = format!("{} has {}, which is not read", named(element), attribute.name);
            return Err(Remark::new(attribute.byte, message));
        }
    }
    let Some(style) = element.value("style") else { return Ok(()) };
    if let Some(at) = style.text.find('\\') {
        let message = format!("{} has an escape in its style, which is not read", named(element));
        return Err(Remark::new(style.place(at), message));
    }
    let geometry: &[&str] = match name {
        "rect" => &["x", "y", "width", "height", "rx", "ry"],
        "path" => &["d"],
        _ => &[],
    };
    for (at, property, value) in declarations(&without_comments(&style.text)) {
        let is_geometry = is_one_of(property, geometry);
        let is_origin = has_transform && is_one_of(property, &ORIGIN);
        if is_geometry || is_origin || alters(property, value) {
            let message = format!(
                "{} has {} in its style, where it is not read",
                named(element),
                excerpt(property)
            );
            return Err(Remark::new(style.place(at), message));
        }
    }
    Ok(())
}

/// A stylesheet is refused if it may hide, clip or move an element, whichever it is for.
pub fn check_sheet(content: Content) -> Result<(), Remark> {
    let sheet = without_comments(content.text);
    let unread = sheet.find('\\').or_else(|| sheet.to_ascii_lowercase().find("@import"));
    if let Some(at) = unread {
        let message = "the stylesheet has an import or an escape, which are not read";
        return Err(Remark::new(content.byte + at, message));
    }
    let mut start = 0;
    for rule in sheet.split_inclusive(['{', '}']) {
        for (at, property, value) in declarations(rule.trim_end_matches(['{', '}'])) {
            let is_refused = alters(property, value)
                || is_word(property, "display") && is_word(value, "none")
                || is_one_of(property, &["d", "x", "y", "rx", "ry"])
                || is_one_of(property, &ORIGIN);
            if is_refused {
                let message = format!(
                    "the stylesheet has {}: {}, which is not read there",
                    excerpt(property),
                    excerpt(value)
                );
                return Err(Remark::new(content.byte + start + at, message));
            }
        }
        start += rule.len();
    }
    Ok(())
}

/// A sheet or style with blanks in place of its comments, so that all else keeps its place.
fn without_comments(style: &str) -> String {
    let mut kept = String::with_capacity(style.len());
    let mut rest = style;
    while let Some(start) = rest.find("/*") {
        let length = rest[start + 2..].find("*/").map_or(rest.len() - start, |end| end + 4);
        kept.push_str(&rest[..start]);
        kept.extend(std::iter::repeat_n(' ', length));
        rest = &rest[start + length..];
    }
    kept + rest
}

/// The declarations of an inline style: where the property stands in it, the property, its value.
fn declarations(style: &str) -> impl Iterator<Item = (usize, &str, &str)> {
    let mut next = 0;
    style.split(';').filter_map(move |declaration| {
        let start = next;
        next += declaration.len() + 1;
        let (property, value) = declaration.split_once(':')?;
        let blanks = property.len() - property.trim_start().len();
        // What follows a `!` is the word important.
        let value = value.split('!').next().unwrap_or_default();
        Some((start + blanks, property.trim(), value.trim()))
    })
}

fn alters(property: &str, value: &str) -> bool {
    let found = ALTERING.iter().find(|(name, _)| is_word(property, name));
    found.is_some_and(|(_, harmless)| !is_one_of(value.trim(), harmless))
}

fn is_one_of(text: &str, words: &[&str]) -> bool {
    words.iter().any(|word| is_word(text, word))
}

/// CSS has its words in either case.
fn is_word(text: &str, word: &str) -> bool {
    text.eq_ignore_ascii_case(word)
}
