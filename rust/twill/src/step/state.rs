//! Where the user is in a path, and what the keys do.

use super::keys::Key;
use crate::joined_plate::Joined;
use crate::passes::Passes;
use std::ops::ControlFlow;
use twillharbor::{Counts, Lengths, PairKind, Totals};

/// As far as PageUp and PageDown go.
const PAGE: usize = 10;
/// More digits than any pair's number has; further ones are not taken.
const MOST_DIGITS: usize = 12;

pub struct State<'a> {
    pub joined: &'a Joined,
    /// The file's name.
    pub name: &'a str,
    pub passes: Passes,
    /// The pairs' lengths in 1,024ths.
    lengths: Vec<u64>,
    /// The number of the pair that is shown; 0 is the start.
    pub current: usize,
    /// The digits of a number that is being typed.
    pub entry: Option<String>,
    pub message: Option<String>,
    pub is_help: bool,
    /// Which page of the values is shown where they do not fit at once; it is taken modulo
    /// their number.
    pub page: usize,
}

impl<'a> State<'a> {
    pub fn new(joined: &'a Joined, name: &'a str) -> Self {
        let (entry, message) = (None, None);
        Self {
            joined,
            name,
            passes: Passes::of(joined.path.points()),
            lengths: (1..=joined.count()).map(|number| joined.pair_length(number)).collect(),
            current: joined.count().min(1),
            entry,
            message,
            is_help: false,
            page: 0,
        }
    }

    /// Does what a key asks for; breaks where it is to leave.
    pub fn press(&mut self, key: Key) -> ControlFlow<()> {
        self.message = None;
        match key {
            Key::Leave => return ControlFlow::Break(()),
            Key::Redraw => {}
            Key::Cancel => (self.entry, self.is_help) = (None, false),
            Key::Tab => self.page += 1,
            _ if self.is_help => {
                self.is_help = false;
                self.page = 0;
            }
            _ if self.entry.is_some() => self.edit(key),
            Key::Escape | Key::Char('q') => return ControlFlow::Break(()),
            _ => self.act(key),
        }
        ControlFlow::Continue(())
    }

    /// How many there are of each kind up to the current pair, and how long they are.
    pub fn so_far(&self) -> Totals {
        let mut counts = Counts { points: self.current + 1, ..Counts::default() };
        let mut lengths = Lengths::default();
        for (number, length) in (1..=self.current).zip(&self.lengths) {
            let (count, sum) = match self.joined.pair(number).kind {
                PairKind::Cut { .. } => (&mut counts.cuts, &mut lengths.cuts),
                PairKind::BackStep { .. } => (&mut counts.back_steps, &mut lengths.back_steps),
                PairKind::Jump { .. } => (&mut counts.jumps, &mut lengths.jumps),
                PairKind::Touch { .. } => (&mut counts.touches, &mut lengths.jumps),
            };
            *count += 1;
            *sum += length;
        }
        Totals { counts, lengths }
    }

    fn act(&mut self, key: Key) {
        match key {
            Key::Right | Key::Down | Key::Enter | Key::Char('n' | ' ') => self.forward(1),
            Key::Left | Key::Up | Key::Backspace | Key::Char('p') => self.backward(1),
            Key::PageDown => self.forward(PAGE),
            Key::PageUp => self.backward(PAGE),
            Key::Home => self.current = self.joined.count().min(1),
            Key::End => self.current = self.joined.count(),
            Key::Char('j') => self.next("jump"),
            Key::Char('J') => self.previous("jump"),
            Key::Char('t') => self.next("touch"),
            Key::Char('T') => self.previous("touch"),
            Key::Char('b') => self.next("back-step"),
            Key::Char('B') => self.previous("back-step"),
            Key::Char('c') => self.next("cut"),
            Key::Char('C') => self.previous("cut"),
            Key::Char('g') => self.entry = Some(String::new()),
            Key::Char(digit @ '0'..='9') => self.entry = Some(digit.to_string()),
            Key::Char('?') => {
                self.is_help = true;
                self.page = 0;
            }
            Key::Char(other) => self.say(format!("No key {other}. ? lists them.")),
            Key::Tab | Key::Escape | Key::Cancel | Key::Leave | Key::Redraw => {}
        }
    }

    fn edit(&mut self, key: Key) {
        let Some(entry) = &mut self.entry else { return };
        match key {
            Key::Char(digit @ '0'..='9') if entry.len() < MOST_DIGITS => entry.push(digit),
            Key::Backspace if entry.is_empty() => self.entry = None,
            Key::Backspace => _ = entry.pop(),
            Key::Escape => self.entry = None,
            Key::Enter => {
                let digits = self.entry.take().unwrap_or_default();
                // At most MOST_DIGITS digits, so that only an empty entry is no number.
                if let Ok(number) = digits.parse::<u64>() {
                    self.go(number);
                }
            }
            _ => {}
        }
    }

    fn go(&mut self, number: u64) {
        let last = self.joined.count();
        self.current = usize::try_from(number).map_or(last, |number| number.min(last));
        if self.current as u64 != number {
            self.say(format!("There is no pair {number}; the last is {last}."));
        }
    }

    fn forward(&mut self, by: usize) {
        let last = self.joined.count();
        if self.current == last {
            self.say("This is the end of the path.".to_owned());
        }
        self.current = (self.current + by).min(last);
    }

    fn backward(&mut self, by: usize) {
        if self.current == 0 {
            self.say("This is the start of the path.".to_owned());
        }
        self.current = self.current.saturating_sub(by);
    }

    fn next(&mut self, kind: &str) {
        let mut later = self.current + 1..=self.joined.count();
        match later.find(|&number| self.joined.kind(number) == kind) {
            Some(number) => self.current = number,
            None => self.say(self.none(kind, "after")),
        }
    }

    fn previous(&mut self, kind: &str) {
        let mut earlier = (1..self.current).rev();
        match earlier.find(|&number| self.joined.kind(number) == kind) {
            Some(number) => self.current = number,
            None => self.say(self.none(kind, "before")),
        }
    }

    /// Why there is no pair of a kind before or after the current one.
    fn none(&self, kind: &str, side: &str) -> String {
        match self.joined.blocks {
            Some(_) => "A plate file does not tell the kinds of pairs.".to_owned(),
            None => format!("No {kind} {side} this."),
        }
    }

    fn say(&mut self, message: String) {
        self.message = Some(message);
    }
}

#[cfg(test)]
mod tests {
    use super::State;
    use crate::joined_plate::Joined;
    use crate::step::keys::Key;
    use crate::tell::tests::{joined, of_file, plate_e, touching};
    use twillharbor::{Lengths, Totals};

    /// The current pair after each key; where a key leaves, the row ends.
    fn walk(state: &mut State, keys: &[Key]) -> Vec<usize> {
        let stays = |&key: &Key| state.press(key).is_continue().then_some(state.current);
        keys.iter().map_while(stays).collect()
    }

    fn typed(text: &str) -> Vec<Key> {
        text.chars().map(|c| if c == '\n' { Key::Enter } else { Key::Char(c) }).collect()
    }

    /// Cut, cut, back-step, back-step, jump.
    #[test]
    fn keys_go_on_back_and_to_each_kind() {
        let plate = plate_e();
        let mut state = State::new(&plate, "e");
        assert_eq!(state.current, 1);
        assert_eq!(walk(&mut state, &typed("n \npp")), [2, 3, 4, 3, 2]);
        let arrows = [Key::Right, Key::Down, Key::Left, Key::Up, Key::Backspace];
        assert_eq!(walk(&mut state, &arrows), [3, 4, 3, 2, 1]);
        let far = [Key::PageDown, Key::PageUp, Key::End, Key::Home];
        assert_eq!(walk(&mut state, &far), [5, 0, 5, 1]);
        assert_eq!(walk(&mut state, &typed("bbBj")), [3, 4, 3, 5]);
        assert_eq!(walk(&mut state, &typed("CCc")), [2, 1, 2]);
    }

    /// Cut, back-step, touch, cut, jump.
    #[test]
    fn jumps_and_touches_have_keys_of_their_own() {
        let plate = touching();
        let mut state = State::new(&plate, "touching");
        assert_eq!(walk(&mut state, &typed("tjT")), [3, 5, 3]);
        for (key, message) in [
            ("t", "No touch after this."),
            ("T", "No touch before this."),
            ("J", "No jump before this."),
        ] {
            assert_eq!(walk(&mut state, &typed(key)), [3], "{key}");
            assert_eq!(state.message.as_deref(), Some(message));
        }
        let counts = [(0, 0), (0, 0), (0, 0), (0, 1), (0, 1), (1, 1)];
        for (current, expected) in counts.into_iter().enumerate() {
            state.current = current;
            let counts = state.so_far().counts;
            assert_eq!((counts.jumps, counts.touches), expected);
        }
        assert_eq!(state.so_far(), totals(&plate));
    }

    #[test]
    fn ends_and_missing_kinds_are_told() {
        let plate = plate_e();
        let mut state = State::new(&plate, "e");
        for (keys, current, message) in [
            ("J", 1, "No jump before this."),
            ("jj", 5, "No jump after this."),
            ("n", 5, "This is the end of the path."),
            ("5\n", 5, ""),
            ("6\n", 5, "There is no pair 6; the last is 5."),
            ("g0\n", 0, ""),
            ("p", 0, "This is the start of the path."),
            ("x", 0, "No key x. ? lists them."),
            ("99999999999999999999\n", 5, "There is no pair 999999999999; the last is 5."),
        ] {
            walk(&mut state, &typed(keys));
            assert_eq!(state.current, current, "{keys}");
            assert_eq!(state.message.as_deref().unwrap_or_default(), message, "{keys}");
        }
    }

    #[test]
    fn a_number_is_edited_and_given_up() {
        let plate = plate_e();
        let mut state = State::new(&plate, "e");
        walk(&mut state, &typed("g12"));
        assert_eq!(state.entry.as_deref(), Some("12"));
        // What is no digit is not taken, also not as a command.
        walk(&mut state, &[Key::Backspace, Key::Backspace, Key::Char('q'), Key::Right]);
        assert_eq!((state.entry.as_deref(), state.current), (Some(""), 1));
        walk(&mut state, &typed("3\n"));
        assert_eq!((state.entry.as_deref(), state.current), (None, 3));
        assert_eq!(walk(&mut state, &[Key::Char('2'), Key::Escape]), [3, 3]);
        assert_eq!(
            walk(&mut state, &[Key::Char('9'), Key::Cancel, Key::Left, Key::Right]),
            [3, 3, 2, 3]
        );
        assert_eq!(walk(&mut state, &[Key::Cancel]), [3]);
        assert_eq!(walk(&mut state, &[Key::Char('g'), Key::Enter]), [3, 3]);
        assert_eq!(walk(&mut state, &[Key::Char('g'), Key::Backspace, Key::Left]), [3, 3, 2]);
        assert_eq!((state.entry, state.message), (None, None));
    }

    #[test]
    fn leaving_and_help() {
        let plate = plate_e();
        for key in [Key::Char('q'), Key::Escape, Key::Leave] {
            let mut state = State::new(&plate, "e");
            assert_eq!(walk(&mut state, &[Key::Right, key, Key::Right]), [2], "{key:?}");
        }
        let mut state = State::new(&plate, "e");
        walk(&mut state, &[Key::Char('?'), Key::Tab]);
        assert!(state.is_help);
        assert_eq!(walk(&mut state, &[Key::Escape, Key::Right]), [1, 2]);
        assert!(!state.is_help);
        for keys in [[Key::Char('?'), Key::Leave], [Key::Char('1'), Key::Leave]] {
            assert_eq!(walk(&mut state, &keys).len(), 1, "{keys:?}");
        }
    }

    #[test]
    fn a_path_of_one_point_has_its_start_alone() {
        let plate = joined(&[&[(1.0, 2.0)]], 0, 0);
        let mut state = State::new(&plate, "one");
        assert_eq!(walk(&mut state, &typed("npjJtTbc1\n")), [0; 10]);
        assert_eq!(state.message.as_deref(), Some("There is no pair 1; the last is 0."));
        assert_eq!(walk(&mut state, &[Key::Home, Key::End]), [0, 0]);
    }

    #[test]
    fn counts_are_those_up_to_the_pair() {
        let plate = plate_e();
        let mut state = State::new(&plate, "e");
        let counts = [(0, 0, 0), (1, 0, 0), (2, 0, 0), (2, 1, 0), (2, 2, 0), (2, 2, 1)];
        for (current, expected) in counts.into_iter().enumerate() {
            state.current = current;
            let counts = state.so_far().counts;
            assert_eq!((counts.cuts, counts.back_steps, counts.jumps), expected);
        }
        assert_eq!(state.so_far(), totals(&plate));
    }

    /// Those of the whole path, as the library gave them.
    fn totals(joined: &Joined) -> Totals {
        Totals { counts: joined.path.counts(), lengths: joined.lengths() }
    }

    #[test]
    fn lengths_are_those_up_to_the_pair() {
        // A diagonal counts 1,448, its square root of 2 being rounded down, whenever it is run over.
        let plate = joined(&[&[(0.0, 0.0), (1.0, 1.0)], &[(0.0, 0.0)], &[(0.0, 0.5)]], 0, 0);
        let mut state = State::new(&plate, "diagonal");
        let lengths = [(0, 0, 0), (1_448, 0, 0), (1_448, 1_448, 0), (1_448, 1_448, 0)];
        for (current, expected) in lengths.into_iter().chain([(1_448, 1_448, 512)]).enumerate() {
            state.current = current;
            let Lengths { cuts, back_steps, jumps } = state.so_far().lengths;
            assert_eq!((cuts, back_steps, jumps), expected, "{current}");
        }
        assert_eq!(state.so_far(), totals(&plate));
    }

    #[test]
    fn a_plate_file_has_no_kinds_to_go_to() {
        let file = of_file();
        let mut state = State::new(&file, "file");
        for key in ["j", "J", "t", "b", "c", "C"] {
            assert_eq!(walk(&mut state, &typed(key)), [1], "{key}");
            let message = "A plate file does not tell the kinds of pairs.";
            assert_eq!(state.message.as_deref(), Some(message));
        }
        assert_eq!(walk(&mut state, &typed("n32\n")), [2, 2, 2, 32]);
    }
}
