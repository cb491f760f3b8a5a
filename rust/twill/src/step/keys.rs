//! The bytes of a terminal as keys.

#[derive(Debug, Clone, Copy, PartialEq, Eq)]
pub enum Key {
    /// A printable character of ASCII.
    Char(char),
    Enter,
    Tab,
    Backspace,
    Escape,
    /// An escape byte with another key at once: Esc before it, or Alt with it. It gives up what
    /// is being typed, but does not leave.
    Cancel,
    Left,
    Right,
    Up,
    Down,
    PageUp,
    PageDown,
    Home,
    End,
    /// Ctrl-C or Ctrl-D.
    Leave,
    /// Ctrl-L.
    Redraw,
}

const ESCAPE: u8 = 0x1B;

/// Takes bytes one by one, since a key's sequence can be split over several reads.
#[derive(Debug, Default)]
pub struct Decoder {
    /// What has come of a sequence that is not complete, from its escape byte on.
    pending: Vec<u8>,
}

impl Decoder {
    /// Adds the keys that the byte completes, as far as they are known.
    pub fn feed(&mut self, byte: u8, keys: &mut Vec<Key>) {
        match (self.pending.as_slice(), byte) {
            (_, ESCAPE) => self.pending = vec![ESCAPE],
            ([], _) => keys.extend(plain(byte)),
            ([_], b'[' | b'O') | ([_, b'['], b'[') | ([_, _, ..], 0x20..=0x3F) => {
                // No known sequence is as long; the end of a longer one is still found.
                if self.pending.len() < 16 {
                    self.pending.push(byte);
                }
            }
            ([_], _) => {
                self.pending.clear();
                if let Some(key) = plain(byte) {
                    keys.extend([Key::Cancel, key]);
                }
            }
            // Nothing keeps a control key from working.
            (_, ..0x20 | 0x7F) => {
                self.pending.clear();
                keys.extend(plain(byte));
            }
            _ => keys.extend(sequence(&std::mem::take(&mut self.pending), byte)),
        }
    }

    /// Whether a sequence has begun.
    pub fn is_pending(&self) -> bool {
        !self.pending.is_empty()
    }

    /// Nothing more has come for a while: an escape byte alone was the key of that name.
    pub fn give_up(&mut self) -> Option<Key> {
        (std::mem::take(&mut self.pending) == [ESCAPE]).then_some(Key::Escape)
    }
}

const fn plain(byte: u8) -> Option<Key> {
    Some(match byte {
        0x03 | 0x04 => Key::Leave,
        0x08 | 0x7F => Key::Backspace,
        b'\t' => Key::Tab,
        b'\n' | b'\r' => Key::Enter,
        0x0C => Key::Redraw,
        b' '..=b'~' => Key::Char(byte as char),
        _ => return None,
    })
}

/// A sequence by what came before its last byte. A modifier, after a semicolon, is not looked at.
fn sequence(before: &[u8], last: u8) -> Option<Key> {
    let parameters = match before {
        [_, b'[', b'[', ..] | [] | [_] => return None,
        [_, _, parameters @ ..] => parameters,
    };
    let first = parameters.split(|&b| b == b';').next().unwrap_or_default();
    Some(match (last, first) {
        (b'A', _) => Key::Up,
        (b'B', _) => Key::Down,
        (b'C', _) => Key::Right,
        (b'D', _) => Key::Left,
        (b'H', _) | (b'~', b"1" | b"7") => Key::Home,
        (b'F', _) | (b'~', b"4" | b"8") => Key::End,
        (b'~', b"5") => Key::PageUp,
        (b'~', b"6") => Key::PageDown,
        // The keypad's.
        (b'M', b"") if before[1] == b'O' => Key::Enter,
        _ => return None,
    })
}

#[cfg(test)]
mod tests {
    use super::{Decoder, Key};

    fn keys(bytes: &[u8]) -> Vec<Key> {
        let mut decoder = Decoder::default();
        let mut keys = Vec::new();
        for &byte in bytes {
            decoder.feed(byte, &mut keys);
        }
        keys.extend(decoder.give_up());
        assert!(!decoder.is_pending());
        keys
    }

    #[test]
    fn each_key_is_known_by_all_its_sequences() {
        let cases: [(Key, &[&str]); 13] = [
            (Key::Right, &["\x1B[C", "\x1BOC", "\x1B[1;5C", "\x1B\x1B[C"]),
            (Key::Left, &["\x1B[D", "\x1BOD"]),
            (Key::Up, &["\x1B[A", "\x1BOA"]),
            (Key::Down, &["\x1B[B", "\x1BOB"]),
            (Key::Home, &["\x1B[H", "\x1BOH", "\x1B[1~", "\x1B[7~", "\x1B[1;2H"]),
            (Key::End, &["\x1B[F", "\x1BOF", "\x1B[4~", "\x1B[8~"]),
            (Key::PageUp, &["\x1B[5~", "\x1B[5;3~"]),
            (Key::PageDown, &["\x1B[6~"]),
            (Key::Enter, &["\n", "\r", "\x1BOM"]),
            (Key::Backspace, &["\x08", "\x7F"]),
            (Key::Leave, &["\x03", "\x04"]),
            (Key::Escape, &["\x1B", "\x1B\x1B"]),
            (Key::Char(' '), &[" "]),
        ];
        for (key, sequences) in cases {
            for sequence in sequences {
                assert_eq!(keys(sequence.as_bytes()), [key], "{sequence:?}");
            }
        }
    }

    #[test]
    fn what_is_unknown_is_passed_over_whole() {
        let unknown = [
            "\x1B[3~",
            "\x1B[2~",
            "\x1B[15~",
            "\x1B[[A",
            "\x1BOP",
            "\x1B[Z",
            "\x1B[?1;2c",
            "\x1B[",
            "\x1BO",
            "\x1B[1;",
            "\x1B[99999999999999999999999~",
            "\u{e9}",
            "\x1A",
            "\0",
        ];
        for text in unknown {
            assert_eq!(keys(text.as_bytes()), [], "{text:?}");
        }
        for text in &unknown[..7] {
            assert_eq!(keys(format!("{text}n").as_bytes()), [Key::Char('n')], "{text:?}");
        }
    }

    #[test]
    fn a_sequence_that_is_split_is_one_key() {
        let mut decoder = Decoder::default();
        let mut fed = |byte| {
            let mut keys = Vec::new();
            decoder.feed(byte, &mut keys);
            (keys, decoder.is_pending())
        };
        assert_eq!((fed(0x1B), fed(b'[')), ((vec![], true), (vec![], true)));
        assert_eq!(fed(b'C'), (vec![Key::Right], false));
        // An unfinished one is no escape key.
        assert_eq!((fed(0x1B), fed(b'[')), ((vec![], true), (vec![], true)));
        assert_eq!(decoder.give_up(), None);
        assert_eq!(keys(b"C"), [Key::Char('C')]);
    }

    #[test]
    fn a_key_at_once_after_an_escape_byte_is_not_lost() {
        assert_eq!(keys(b"\x1Bn"), [Key::Cancel, Key::Char('n')]);
        assert_eq!(keys(b"\x1B\r"), [Key::Cancel, Key::Enter]);
        assert_eq!(keys(b"\x1B\x03"), [Key::Cancel, Key::Leave]);
    }

    #[test]
    fn a_sequence_holds_up_no_control_key() {
        assert_eq!(keys(b"\x1B[1;\x03n"), [Key::Leave, Key::Char('n')]);
        assert_eq!(keys(b"\x1B[1;\x1B[Dn"), [Key::Left, Key::Char('n')]);
    }
}
