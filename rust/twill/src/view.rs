//! The page of a joined plate: one file that needs nothing else, with all its numbers in a
//! block that other programs can read.

use crate::joined_plate::Joined;
use crate::passes::Passes;
use crate::plate::word;
use crate::{number, write};
use std::fmt::Write;
use twillharbor::{Counts, Point};

const TEMPLATE: &str = include_str!("view/page.html");
const STYLE: &str = include_str!("view/page.css");
/// Parts of one script; each uses names of those before it.
const SCRIPT: [&str; 3] =
    [include_str!("view/path.js"), include_str!("view/draw.js"), include_str!("view/page.js")];

/// What each page begins with.
pub const FIRST_LINE: &str = "<!doctype html><!-- twill view -->\n";

/// The page of a joined plate; the name is its file's. It opens at a path point, if one is named.
pub fn page(joined: &Joined, name: &str, at: Option<u32>) -> String {
    let fill = |blank: &str| match blank {
        "name" => in_markup(name),
        "style" => STYLE.to_owned(),
        "data" => data(joined, name, at),
        "script" => SCRIPT.concat(),
        _ => unreachable!("the template has no other blanks"),
    };
    let mut pieces = TEMPLATE.split("{{");
    let mut page = pieces.next().unwrap_or_default().to_owned();
    for piece in pieces {
        let (blank, rest) = piece.split_once("}}").unwrap_or((piece, ""));
        page.push_str(&fill(blank));
        page.push_str(rest);
    }
    page
}

/// A text as it stands between tags or in an attribute.
fn in_markup(text: &str) -> String {
    let mut markup = String::with_capacity(text.len());
    for c in text.chars() {
        match c {
            '&' => markup.push_str("&amp;"),
            '<' => markup.push_str("&lt;"),
            '>' => markup.push_str("&gt;"),
            '"' => markup.push_str("&quot;"),
            '\'' => markup.push_str("&#39;"),
            _ => markup.push(c),
        }
    }
    markup
}

/// A text as a JSON string. What could end or change a script block is written by its number.
fn in_json(text: &str) -> String {
    let mut json = String::from("\"");
    for c in text.chars() {
        match c {
            '"' => json.push_str("\\\""),
            '\\' => json.push_str("\\\\"),
            '<' | '>' | '&' | '\u{2028}' | '\u{2029}' => push_number(&mut json, c),
            _ if c.is_control() => push_number(&mut json, c),
            _ => json.push(c),
        }
    }
    json.push('"');
    json
}

/// None of the characters that come here needs more than four digits.
fn push_number(json: &mut String, c: char) {
    let _ = write!(json, "\\u{:04x}", u32::from(c));
}

/// Numbers as a JSON array.
fn array(numbers: impl Iterator<Item = String>) -> String {
    let mut array = String::from("[");
    for (place, number) in numbers.enumerate() {
        if place > 0 {
            array.push(',');
        }
        array.push_str(&number);
    }
    array.push(']');
    array
}

/// What the path comes to: numbers of points and pairs, and lengths in 1,024ths.
fn totals(joined: &Joined) -> [(&'static str, String); 8] {
    let Counts { points, cuts, back_steps, jumps, touches } = joined.path.counts();
    let lengths = joined.lengths();
    [
        ("points", points.to_string()),
        ("cuts", cuts.to_string()),
        ("back_steps", back_steps.to_string()),
        ("jumps", jumps.to_string()),
        ("touches", touches.to_string()),
        ("cut_length", lengths.cuts.to_string()),
        ("back_step_length", lengths.back_steps.to_string()),
        ("jump_length", lengths.jumps.to_string()),
    ]
}

/// All that the page shows, one member a line.
fn data(joined: &Joined, name: &str, at: Option<u32>) -> String {
    let plate = &joined.plate;
    let coordinates = joined.path.points().iter().flat_map(|p| [p.x, p.y]);
    let marks = joined.path.marks().iter().flat_map(|mark| mark.numbers());
    let lengths = (1..=joined.count()).map(|number| joined.tell(number).length);
    let passes = Passes::of(joined.path.points());
    let layers = || ("layers", array(plate.layers.iter().map(u32::to_string)));
    let home = |home: Point| ("home", array([home.x, home.y].into_iter().map(number::json)));
    let terms = [
        ("name", in_json(name)),
        ("width", plate.size.width.to_string()),
        ("height", plate.size.height.to_string()),
        ("start", format!("\"{}\"", word(plate.strategy))),
    ];
    let members = terms.into_iter().chain(totals(joined)).chain([
        ("contours", array(plate.lengths.iter().map(u32::to_string))),
        ("path", array(coordinates.map(number::json))),
        ("marks", array(marks.map(|m| m.to_string()))),
        ("lengths", array(lengths.map(number::json))),
        ("passes", write::passes(joined, &passes)),
        ("first_passes", array(passes.firsts().iter().map(u32::to_string))),
    ]);
    // A path that is checked may be of a plate whose parked point is no number: nobody tests it then.
    let parked = plate.home().filter(|home| home.x.is_finite() && home.y.is_finite());
    let members = members.chain(parked.map(home));
    let members = members.chain(plate.is_layered().then(layers));
    // Otherwise they follow from the marks.
    let vertices = || {
        let vertices =
            (0..joined.path.points().len()).map(|place| joined.vertex(place).to_string());
        ("vertices", array(vertices))
    };
    let members = members.chain(joined.leaves_another.then(vertices));
    let members = members.chain(joined.blocks.map(|blocks| ("blocks", blocks.to_string())));
    let members = members.chain(at.map(|at| ("at", at.to_string())));
    let lines: Vec<String> = members.map(|(key, value)| format!("\"{key}\":{value}")).collect();
    format!("{{\n{}\n}}", lines.join(",\n"))
}

#[cfg(test)]
mod tests {
    use super::FIRST_LINE;
    use crate::joined_plate::Joined;
    use crate::number;
    use crate::tell::tests::{joined, layered, of_file, parked};

    fn page(joined: &Joined, name: &str) -> String {
        super::page(joined, name, None)
    }

    /// The value of a member of the page's data block, as it is written there.
    fn member<'a>(page: &'a str, key: &str) -> &'a str {
        let (_, data) = page.split_once("id=\"data\">").unwrap();
        let (data, _) = data.split_once("</script>").unwrap();
        let mut lines = data.lines();
        let value = lines.find_map(|line| line.strip_prefix(&format!("\"{key}\":"))).unwrap();
        value.strip_suffix(',').unwrap_or(value)
    }

    fn numbers<'a>(page: &'a str, key: &str) -> Vec<&'a str> {
        let array = member(page, key).strip_prefix('[').unwrap().strip_suffix(']').unwrap();
        array.split(',').filter(|number| !number.is_empty()).collect()
    }

    fn bits(page: &str, key: &str) -> Vec<u64> {
        numbers(page, key).iter().map(|text| number::parse(text).unwrap().to_bits()).collect()
    }

    #[test]
    fn the_data_block_holds_what_the_library_gave_bit_for_bit() {
        let bent = [(0.0, -0.0), (4.0, 1.0 / 3.0), (8.0, 5e-324)];
        let (near, far) = ([(-0.0, -1e-7)], [(999_999.999_999_999_9, 1.0)]);
        let met = [(-0.0, 0.0), (0.0, 9.0)];
        let joined = joined(&[&bent, &[], &near, &far, &met], 8, 2);
        let page = page(&joined, "plate.txt");
        let path = joined.path.points().iter().flat_map(|p| [p.x.to_bits(), p.y.to_bits()]);
        assert_eq!(bits(&page, "path"), path.collect::<Vec<_>>());
        let lengths = (1..=joined.count()).map(|n| joined.tell(n).length.to_bits());
        assert_eq!(bits(&page, "lengths"), lengths.collect::<Vec<_>>());
        let marks = joined.path.marks().iter().flat_map(|m| m.numbers().map(|n| n.to_string()));
        assert_eq!(numbers(&page, "marks"), marks.collect::<Vec<_>>());
        for kind in 0..5 {
            assert!(joined.path.marks().iter().any(|mark| mark.numbers()[0] == kind), "{kind}");
        }
        assert!(member(&page, "path").contains("-0.0,"));
        assert_eq!(numbers(&page, "contours"), ["3", "0", "1", "1", "2"]);
        let back_steps = joined.path.counts().back_steps.to_string();
        let short =
            ["width", "height", "start", "points", "cuts", "back_steps", "jumps", "touches"];
        let points = joined.path.points().len().to_string();
        let values = ["8", "2", "\"inside\"", &points, "3", &back_steps, "2", "1"];
        assert_eq!(short.map(|key| member(&page, key)), values);
    }

    #[test]
    fn the_data_block_holds_lengths_and_passes() {
        // The first line is walked back over twice, and the last contour lies on it the other way round.
        let (line, back) = ([(0.0, 0.0), (1.0, 1.0)], [(1.0, 1.0), (-0.0, 0.0)]);
        let page = page(&joined(&[&line, &[(0.0, 0.0)], &[(0.0, 2.0)], &back], 0, 0), "a");
        assert_eq!(numbers(&page, "marks").join(" "), "0 0 1 0 2 0 4 2 2 2 2 1 4 4 1 4 2 6 3 3");
        let lengths = ["cut_length", "back_step_length", "jump_length"];
        assert_eq!(lengths.map(|key| member(&page, key)), ["2896", "4344", "1448"]);
        assert_eq!(numbers(&page, "first_passes"), ["1", "1", "0", "0", "1", "0", "1", "1", "9"]);
        let most = "{\"most\":5,\"from\":[0,0],\"to\":[1,1],\"first\":1,\"last\":8,\
                    \"grooves_with_most\":1,\"grooves\":2}";
        assert_eq!(member(&page, "passes"), most);
    }

    #[test]
    fn the_data_block_holds_layers_where_there_are_any() {
        let contours: [&[(f64, f64)]; 3] = [&[(0.0, 0.0)], &[], &[(1.0, 0.0), (2.0, 0.0)]];
        let with = page(&layered(&contours, &[3, 0, 15], 0, 0), "a");
        assert_eq!(numbers(&with, "layers"), ["3", "0", "15"]);
        let without = page(&joined(&contours, 0, 0), "a");
        assert!(!without.contains("\n\"layers\":"));
    }

    #[test]
    fn the_data_block_holds_the_parked_point_if_there_is_one() {
        let contours: [&[(f64, f64)]; 2] = [&[(0.0, 0.0)], &[(1.0, 0.0), (2.0, 0.0)]];
        let with = page(&parked(&contours, &[0, 1], (2.5, -0.0)), "a");
        let short = ["start", "home", "layers", "path"];
        let values = ["\"home\"", "[2.5,-0.0]", "[0,1]", "[0,0,1,0,2,0]"];
        assert_eq!(short.map(|key| member(&with, key)), values);
        assert!(!page(&joined(&contours, 5, 0), "a").contains("\n\"home\":"));
    }

    #[test]
    fn the_data_block_holds_the_blocks_of_a_plate_file() {
        let file = page(&of_file(), "a");
        assert_eq!((member(&file, "blocks"), member(&file, "points")), ("2", "33"));
        assert_eq!(numbers(&file, "contours"), ["33"]);
        assert!(!page(&joined(&[&[(0.0, 0.0)]], 0, 0), "a").contains("\n\"blocks\":"));
    }

    #[test]
    fn the_data_block_holds_where_the_page_opens() {
        let joined = joined(&[&[(0.0, 0.0), (1.0, 0.0)]], 0, 0);
        assert_eq!(member(&super::page(&joined, "a", Some(1)), "at"), "1");
        assert!(!page(&joined, "a").contains("\n\"at\":"));
    }

    #[test]
    fn a_name_cannot_leave_its_place() {
        let joined = joined(&[&[(0.0, 0.0)]], 0, 0);
        let name = "</script><b>&\"'\\{{data}}\u{2028}\n\u{1}";
        let hostile = page(&joined, name);
        let escaped = concat!(
            r#""\u003c/script\u003e\u003cb\u003e\u0026\"'\\{{data}}"#,
            r#"\u2028\u000a\u0001""#
        );
        assert_eq!(member(&hostile, "name"), escaped);
        let markup = "&lt;/script&gt;&lt;b&gt;&amp;&quot;&#39;\\{{data}}\u{2028}\n\u{1}";
        assert!(hostile.contains(&format!("<title>{markup}")));
        // Apart from its two places the page is that of any other name.
        let plain = page(&joined, "name");
        assert_eq!(hostile.matches('<').count(), plain.matches('<').count());
        assert_eq!(plain.matches("</script>").count(), 2);
    }

    #[test]
    fn an_empty_plate_and_a_single_point_have_pages() {
        let empty = page(&joined(&[&[], &[]], 0, 0), "empty");
        assert!(empty.starts_with(FIRST_LINE));
        assert_eq!((member(&empty, "path"), member(&empty, "marks")), ("[]", "[]"));
        let counts = ["points", "cuts", "back_steps", "jumps", "touches"];
        assert_eq!(counts.map(|key| member(&empty, key)), ["0"; 5]);
        let lengths = ["cut_length", "back_step_length", "jump_length"];
        assert_eq!(lengths.map(|key| member(&empty, key)), ["0"; 3]);
        assert_eq!(member(&empty, "passes"), "{\"most\":0,\"grooves\":0}");
        let single = page(&joined(&[&[(0.5, -0.0)]], 0, 0), "single");
        assert_eq!((member(&single, "path"), member(&single, "marks")), ("[0.5,-0.0]", "[0,0]"));
        assert_eq!(member(&single, "lengths"), "[]");
    }

    #[test]
    fn the_page_asks_for_nothing_from_outside() {
        let page = page(&joined(&[&[(0.0, 0.0), (1.0, 1.0)]], 0, 0), "a");
        assert!(page.contains("content=\"default-src 'none'; "));
        for reach in ["http:", "https:", "src=", "@import", "fetch(", "XMLHttpRequest"] {
            assert!(!page.contains(reach), "{reach}");
        }
        assert!(!page.contains("{{"));
    }
}
