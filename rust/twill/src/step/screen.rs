//! What is shown, as rows of text for a screen of any size. Values are wrapped so that all of a
//! number is seen; where they need more rows than there are, they come in pages.

use super::state::State;
use crate::passes::Over;
use crate::tell;
use crate::words::units;
use twillharbor::{Counts, Lengths};

/// A row of the screen. `look` holds the parameters of the terminal's graphic rendition.
#[derive(Debug, Clone, Default, PartialEq, Eq)]
pub struct Row {
    pub text: String,
    pub look: String,
}

const fn plain(text: String) -> Row {
    Row { text, look: String::new() }
}

/// A label and its value.
pub type Item = (&'static str, String);

const HELP: [(&str, &str); 12] = [
    ("on", "Right, Down, n, Space, Enter"),
    ("back", "Left, Up, p, Backspace"),
    ("by ten", "PageDown on, PageUp back"),
    ("jump", "j next, J previous"),
    ("touch", "t next, T previous"),
    ("back-step", "b next, B previous"),
    ("cut", "c next, C previous"),
    ("pair N", "N Enter, or g N Enter"),
    ("start", "0 Enter"),
    ("ends", "Home first pair, End last"),
    ("more", "Tab, where not all values fit"),
    ("leave", "q, Esc, Ctrl-C"),
];

/// Columns of the labels, on a screen that is wide enough for them and any number.
const LABELS: usize = 11;
const WIDE: usize = 38;

/// All rows of the screen, none longer than its columns.
pub fn frame(state: &State, rows: usize, columns: usize) -> Vec<Row> {
    let (rows, columns) = (rows.max(1), columns.max(1));
    let notice = notice(state, columns);
    let below = match &notice {
        Some(lines) => lines.len().min(rows.div_ceil(2)),
        // A single row is the pair's.
        None => usize::from(rows > 1),
    };
    let room = rows - below;
    let (mut frame, page, pages) = values(state, room, columns);
    if !state.is_help {
        surroundings(state, room, columns, &mut frame);
    }
    frame.resize_with(room, Row::default);
    let bottom = notice.unwrap_or_else(|| vec![keys(state, columns, page, pages)]);
    frame.extend(bottom.into_iter().take(below).map(plain));
    frame
}

/// The current pair's values, with how many of each kind there are up to it and how long they are, and
/// how often its groove has been passed over.
pub fn items(state: &State) -> Vec<Item> {
    let mut items = match state.current {
        0 => tell::start_details(state.joined),
        number => tell::details(state.joined, &state.joined.tell(number)),
    };
    let is_file = state.joined.blocks.is_some();
    let place = items.len().min(if is_file { 3 } else { 4 });
    let now = state.so_far();
    let lengths = so_far_in_length(state, now.lengths);
    let mut totals = vec![("lengths", lengths)];
    if !is_file {
        totals.insert(0, ("so far", so_far(state, now.counts)));
    }
    totals.extend(passes(state).map(|passes| ("passes", passes)));
    items.splice(place..place, totals);
    items
}

fn so_far(state: &State, now: Counts) -> String {
    let all = state.joined.path.counts();
    format!(
        "cuts {} of {}, back-steps {} of {}, jumps {} of {}, touches {} of {}",
        now.cuts,
        all.cuts,
        now.back_steps,
        all.back_steps,
        now.jumps,
        all.jumps,
        now.touches,
        all.touches
    )
}

/// In units. A plate file does not tell the kinds.
fn so_far_in_length(state: &State, now: Lengths) -> String {
    let all = state.joined.lengths();
    let of = |now, all| format!("{} of {}", units(now), units(all));
    let cuts = of(now.cuts, all.cuts);
    if state.joined.blocks.is_some() {
        return cuts;
    }
    let (back_steps, jumps) = (of(now.back_steps, all.back_steps), of(now.jumps, all.jumps));
    format!("cuts {cuts}, back-steps {back_steps}, jumps {jumps}")
}

/// The passes over the current pair's groove up to it and in all; the start is no pair.
fn passes(state: &State) -> Option<String> {
    let number = state.current;
    if number == 0 {
        return None;
    }
    let Some(Over { passes, first, last }) = state.passes.over(number) else {
        return Some("none, as its points are equal".to_owned());
    };
    let now = state.passes.so_far(number);
    Some(format!("{now} of {passes} over this groove, first by pair {first}, last by pair {last}"))
}

pub fn help() -> Vec<Item> {
    HELP.map(|(label, value)| (label, value.to_owned())).to_vec()
}

/// The current pair's number and kind, as long as there is room for.
pub fn heading(state: &State, columns: usize) -> String {
    let (number, count) = (state.current, state.joined.count());
    let kind = state.joined.kind(number);
    let sign = sign(kind);
    let noun = if number == 0 { "" } else { "pair " };
    fitting(
        [
            format!("{noun}{number} of {count}  {sign} {kind}"),
            format!("{number} of {count} {sign} {kind}"),
            format!("{number} {sign} {kind}"),
            format!("{number} {kind}"),
        ],
        columns,
    )
}

/// What has to be seen in place of the keys: a number that is typed, or a message.
fn notice(state: &State, columns: usize) -> Option<Vec<String>> {
    let Some(entry) = &state.entry else {
        return state.message.as_ref().map(|message| wrap(message, columns));
    };
    let line = fitting(
        [
            format!("Go to pair {entry}_   Enter goes, Esc gives up"),
            format!("Go to pair {entry}_"),
            format!("{entry}_"),
        ],
        columns,
    );
    // The last digits are those that are being typed.
    Some(vec![line[line.len().saturating_sub(columns)..].to_owned()])
}

fn keys(state: &State, columns: usize, page: usize, pages: usize) -> String {
    let page = page + 1;
    let back = if state.is_help { "any other key: back" } else { "? keys  q leave" };
    let line = if pages > 1 {
        let tab = format!("Tab {page}/{pages}");
        fitting(
            [
                format!("Tab more ({page} of {pages})  {back}"),
                format!("{tab}  ? q"),
                tab,
                "Tab".to_owned(),
            ],
            columns,
        )
    } else if state.is_help {
        fitting(["Any key: back".to_owned(), "Any key".to_owned()], columns)
    } else {
        let lines = [
            "Right on  Left back  j next jump  J jump before  g number  ? keys  q leave",
            "n on  p back  j jump  g number  ? keys  q leave",
            "n on  p back  ? keys  q leave",
            "? keys  q leave",
            "? q",
        ];
        fitting(lines.map(str::to_owned), columns)
    };
    line.chars().take(columns).collect()
}

/// The first that fits, or the last.
fn fitting<const N: usize>(lines: [String; N], columns: usize) -> String {
    let best = lines.iter().position(|line| line.len() <= columns).unwrap_or(N - 1);
    lines[best].clone()
}

/// The heading and the page of values that is asked for, that page's place and how many pages
/// there are.
fn values(state: &State, room: usize, columns: usize) -> (Vec<Row>, usize, usize) {
    let (heading, look, items) = if state.is_help {
        ("Keys".to_owned(), "1".to_owned(), help())
    } else {
        let look = format!("1;{}", colour(state, state.current));
        (heading(state, columns), look, items(state))
    };
    let mut rows: Vec<Row> =
        wrap(&heading, columns).into_iter().map(|text| Row { text, look: look.clone() }).collect();
    let mut blocks: Vec<Vec<Row>> = items.iter().map(|item| block(item, columns)).collect();
    // Each page has the heading, unless that would leave few rows for the values.
    if 3 * rows.len() > room {
        blocks.insert(0, std::mem::take(&mut rows));
    }
    let mut pages = pack(blocks, room - rows.len());
    let (page, count) = (state.page % pages.len().max(1), pages.len());
    if page < count {
        rows.append(&mut pages[page]);
    }
    (rows, page, count)
}

/// Blocks of rows as pages. A block is split only where it is longer than a page.
fn pack(blocks: Vec<Vec<Row>>, height: usize) -> Vec<Vec<Row>> {
    if height == 0 {
        return Vec::new();
    }
    let mut pages: Vec<Vec<Row>> = vec![Vec::new()];
    for block in blocks {
        let left = height - pages[pages.len() - 1].len();
        if (left + 1..=height).contains(&block.len()) {
            pages.push(Vec::new());
        }
        for row in block {
            match pages.last_mut() {
                Some(page) if page.len() < height => page.push(row),
                _ => pages.push(vec![row]),
            }
        }
    }
    pages
}

/// Adds the neighbouring pairs, and the file's name, where there is room.
fn surroundings(state: &State, room: usize, columns: usize, frame: &mut Vec<Row>) {
    let left = room - frame.len();
    if left < 3 {
        return;
    }
    let listed = if left < 8 { left - 1 } else { left - 2 };
    if left >= 8 {
        frame.insert(0, plain(title(state.name, columns)));
    }
    frame.push(Row::default());
    let count = state.joined.count();
    let first = state.current.saturating_sub(listed / 2).min((count + 1).saturating_sub(listed));
    let last = count.min(first + listed - 1);
    frame.extend((first..=last).map(|number| neighbour(state, number, columns)));
}

fn neighbour(state: &State, number: usize, columns: usize) -> Row {
    let is_current = number == state.current;
    let line = match number {
        0 => tell::start_line(state.joined).unwrap_or_default(),
        _ => tell::line(state.joined, &state.joined.tell(number)),
    };
    let kind = state.joined.kind(number);
    let rest = line.splitn(3, ' ').nth(2).unwrap_or_default();
    let digits = state.joined.count().to_string().len();
    let padding = if columns >= 60 { "back-step".len() } else { 0 };
    let marker = if is_current { '>' } else { ' ' };
    let text = format!("{marker} {number:>digits$} {} {kind:padding$} {rest}", sign(kind));
    let colour = colour(state, number);
    let look = if is_current { format!("7;{colour}") } else { colour.to_owned() };
    Row { text: cut(&text, columns), look }
}

/// A sign for each kind, so that the list is read at a glance without colours too.
fn sign(kind: &str) -> char {
    match kind {
        "cut" | "pair" => '-',
        "back-step" => '~',
        "jump" => '^',
        "touch" => '+',
        _ => 'o',
    }
}

fn colour(state: &State, number: usize) -> &'static str {
    match state.joined.kind(number) {
        "cut" | "pair" => "32",
        "back-step" => "33",
        "jump" => "35",
        "touch" => "94",
        _ => "36",
    }
}

/// The file's name, of a long one the end. What might not be one column wide counts for two.
fn title(name: &str, columns: usize) -> String {
    let printed =
        |c: char| if c.is_alphanumeric() || c == ' ' || c.is_ascii_graphic() { c } else { '?' };
    let mut left = columns;
    let mut title: Vec<char> = Vec::new();
    for c in name.chars().rev().map(printed) {
        let width = if c < '\u{300}' { 1 } else { 2 };
        if width > left {
            break;
        }
        left -= width;
        title.push(c);
    }
    title.iter().rev().collect()
}

/// A label and its value, beside one another on a wide screen.
fn block((label, value): &Item, columns: usize) -> Vec<Row> {
    let (first, indent, text) = if columns < WIDE {
        (String::new(), usize::from(columns > 27), format!("{label} {value}"))
    } else {
        (format!("{label:LABELS$}"), LABELS, value.clone())
    };
    let lines = wrap(&text, columns - indent).into_iter().enumerate();
    let before = |n| if n > 0 { " ".repeat(indent) } else { first.clone() };
    lines.map(|(n, line)| plain(before(n) + &line)).collect()
}

/// Text in lines of at most so many columns, broken at blanks and behind commas, and elsewhere
/// only where a part is longer than a line. A number that fits stays with the word before it.
fn wrap(text: &str, columns: usize) -> Vec<String> {
    if text.len() <= columns {
        return vec![text.to_owned()];
    }
    let mut units: Vec<String> = Vec::new();
    for word in text.split(' ') {
        match units.last_mut() {
            Some(unit)
                if word.starts_with(|c: char| c.is_ascii_digit())
                    && unit.len() + 1 + word.len() <= columns =>
            {
                *unit += " ";
                *unit += word;
            }
            _ => units.push(word.to_owned()),
        }
    }
    let mut lines = vec![String::new()];
    for unit in units {
        let mut glue = " ";
        for part in unit.split_inclusive(',') {
            add(&mut lines, glue, part, columns);
            glue = "";
        }
    }
    lines
}

/// Adds a part of a text to its last line, or to as many further ones as it needs.
fn add(lines: &mut Vec<String>, glue: &str, part: &str, columns: usize) {
    let line = lines.last_mut().expect("there is a line");
    let glue = if line.is_empty() { "" } else { glue };
    if line.len() + glue.len() + part.len() <= columns {
        *line += glue;
        *line += part;
        return;
    }
    if line.is_empty() {
        lines.pop();
    }
    let letters: Vec<char> = part.chars().collect();
    lines.extend(letters.chunks(columns).map(String::from_iter));
}

/// As many whole words as fit, so that no number is shown in part.
fn cut(text: &str, columns: usize) -> String {
    if text.chars().count() <= columns {
        return text.to_owned();
    }
    let ends = text.match_indices(' ').map(|(end, _)| end);
    match ends.take_while(|end| end + 3 <= columns).last() {
        Some(end) => format!("{} ..", text[..end].trim_end()),
        None => ".".repeat(columns.min(2)),
    }
}

#[cfg(test)]
mod tests {
    use super::{Row, colour, cut, frame, sign, title, wrap};
    use crate::joined_plate::Joined;
    use crate::number::show;
    use crate::step::keys::Key;
    use crate::step::state::State;
    use crate::tell::tests::{joined, parked, plate_e, touching};
    use std::collections::BTreeSet;

    fn shown(state: &State, rows: usize, columns: usize) -> Vec<String> {
        frame(state, rows, columns)
            .into_iter()
            .map(|Row { text, .. }| text.trim_end().to_owned())
            .collect()
    }

    #[test]
    fn a_screen_shows_the_pair_and_its_neighbours() {
        let plate = plate_e();
        let mut state = State::new(&plate, "plates/e.txt");
        state.current = 3;
        let expected = [
            "plates/e.txt",
            "pair 3 of 5  ~ back-step",
            "from       (8,0)",
            "to         (4,0)",
            "length     4, counted as 4096/1024",
            "reverses   pair 2 over cut 2 contour 0 segment 1",
            "so far     cuts 2 of 2, back-steps 1 of 2, jumps 0 of 1, touches 0 of 0",
            "lengths    cuts 8 of 8, back-steps 4 of 8, jumps 0 of 1",
            "passes     2 of 2 over this groove, first by pair 2, last by pair 3",
            "mark       kind 2 reference 1",
            "points     path points 2 and 3",
            "vertices   2 to 1 of the plate, contour 0 vertex 2 to contour 0 vertex 1",
            "",
            "  0 o start     (0,0) on contour 0 vertex 0",
            "  1 - cut       (0,0) -> (4,0) length 4 contour 0 segment 0",
            "  2 - cut       (4,0) -> (8,0) length 4 contour 0 segment 1",
            "> 3 ~ back-step (8,0) -> (4,0) length 4 reverses pair 2 over cut 2 contour 0 ..",
            "  4 ~ back-step (4,0) -> (0,0) length 4 reverses pair 1 over cut 1 contour 0 ..",
            "  5 ^ jump      (0,0) -> (0,1) length 1 contour 0 vertex 0 to contour 1 vertex 0",
            "",
            "Right on  Left back  j next jump  J jump before  g number  ? keys  q leave",
        ];
        assert_eq!(shown(&state, 21, 80), expected);
    }

    #[test]
    fn a_touch_has_a_sign_and_a_colour_of_its_own() {
        let plate = touching();
        let mut state = State::new(&plate, "touching");
        state.current = 3;
        let rows = shown(&state, 24, 80);
        for row in [
            "pair 3 of 5  + touch",
            "to         (-0,0)",
            "touches    contour 0 vertex 0 to contour 1 vertex 0",
            "so far     cuts 1 of 2, back-steps 1 of 1, jumps 0 of 1, touches 1 of 1",
            "lengths    cuts 4 of 8, back-steps 4 of 4, jumps 0 of 1",
            "passes     none, as its points are equal",
            "mark       kind 4 reference 2",
            "> 3 + touch     (0,0) -> (-0,0) length 0 contour 0 vertex 0 to contour 1 ..",
            "  5 ^ jump      (0,4) -> (0,5) length 1 contour 1 vertex 1 to contour 2 vertex 0",
        ] {
            assert!(rows.iter().any(|shown| shown == row), "{row} is not in {rows:#?}");
        }
        // Start, cut, back-step, touch and jump.
        let signs: BTreeSet<char> = (0..=5).map(|n| sign(plate.kind(n))).collect();
        let colours: BTreeSet<&str> = (0..=5).map(|n| colour(&state, n)).collect();
        assert_eq!((signs.len(), colours.len()), (5, 5), "{signs:?} {colours:?}");
    }

    #[test]
    fn a_screen_shows_the_parked_point() {
        let plate = parked(&[&[(0.0, 0.0), (4.0, 0.0)], &[(4.0, 1.0)]], &[0, 0], (7.0, -4.0));
        let mut state = State::new(&plate, "parked");
        for (current, row) in [
            (0, "home       parked at (7,-4), length 5"),
            (1, "home       parked at (7,-4)"),
            (3, "home       parked at (7,-4)"),
        ] {
            state.current = current;
            let rows = shown(&state, 24, 80);
            assert!(rows.iter().any(|shown| shown == row), "{row} is not in {rows:#?}");
            let start = "0 o start     (4,0) on contour 0 vertex 1 home (7,-4)";
            assert!(rows.iter().any(|shown| shown.ends_with(start)), "{rows:#?}");
        }
    }

    #[test]
    fn a_small_screen_has_the_values_in_pages() {
        let plate = plate_e();
        let mut state = State::new(&plate, "e");
        state.current = 3;
        let pages = [
            ["3", "back-step", "from (8,0)", "to (4,0)", "Tab 1/13"],
            ["length 4,", "counted as", "4096/1024", "reverses", "Tab 2/13"],
        ];
        for (page, rows) in pages.iter().enumerate() {
            state.page = page;
            assert_eq!(shown(&state, 5, 10), rows);
        }
        state.page = 13;
        assert_eq!(shown(&state, 5, 10), pages[0]);
    }

    /// Numbers as long as they can be.
    const LONG: [f64; 2] = [-123_456.789_012_345_67, -1.234_567_890_123_456_7e-300];

    fn long() -> Joined {
        let [x, y] = LONG;
        joined(&[&[(x, y), (y, x)], &[(0.5, x), (x, x)], &[(y, y)]], 7, 7)
    }

    #[test]
    fn nothing_is_wider_or_higher_than_the_screen() {
        let plate = long();
        let long_name = "a-long-name/".repeat(30) + "\u{7c}\u{5f62}\u{5f62}\t";
        for keys in [&[][..], &[Key::Left], &[Key::Char('?')], &[Key::Char('7')], &[Key::Char('J')]]
        {
            let mut state = State::new(&plate, &long_name);
            for &key in keys {
                assert!(state.press(key).is_continue());
            }
            for (rows, columns) in
                (1..=30).flat_map(|rows| (1..=90).map(move |columns| (rows, columns)))
            {
                state.page = rows + columns;
                let frame = frame(&state, rows, columns);
                assert_eq!(frame.len(), rows);
                let width =
                    |row: &Row| row.text.chars().map(|c| if c.is_ascii() { 1 } else { 2 }).sum();
                let widest: usize = frame.iter().map(width).max().unwrap_or_default();
                assert!(widest <= columns, "{rows} by {columns}: {frame:#?}");
            }
        }
    }

    #[test]
    fn every_number_is_seen_whole_on_some_page() {
        let plate = long();
        let mut state = State::new(&plate, "long");
        for (rows, columns) in
            (1..=30).flat_map(|rows| (26..=90).map(move |columns| (rows, columns)))
        {
            let mut all = String::new();
            for page in 0..20 {
                state.page = page;
                all += &shown(&state, rows, columns).join("\n");
            }
            for value in LONG {
                assert!(all.contains(&show(value)), "{rows} by {columns}: {all}");
            }
        }
    }

    #[test]
    fn text_is_wrapped_at_blanks_and_commas_first() {
        assert_eq!(wrap("from (1.25,-3.5) on", 11), ["from (1.25,", "-3.5) on"]);
        assert_eq!(wrap("ab 1234567 c", 3), ["ab", "123", "456", "7 c"]);
        assert_eq!(wrap("the contour 0 segment 12", 12), ["the", "contour 0", "segment 12"]);
        assert_eq!(wrap("", 1), [""]);
    }

    #[test]
    fn a_list_is_cut_between_words() {
        assert_eq!(cut("> 3 - cut (1,2) -> (3,4)", 18), "> 3 - cut (1,2) ..");
        assert_eq!(cut("> 3 - cut (1,2) -> (3,4)", 17), "> 3 - cut ..");
        assert_eq!(
            (cut("> 3", 3), cut("> 34", 3), cut("> 34", 1)),
            ("> 3".into(), "..".into(), ".".into())
        );
    }

    #[test]
    fn of_a_long_name_the_end_is_shown() {
        assert_eq!(title("folder/plate.svg", 9), "plate.svg");
        assert_eq!(title("a\u{1b}[2J\nb", 80), "a?[2J?b");
        assert_eq!(title("\u{5f62}\u{5f62}", 3), "\u{5f62}");
    }
}
