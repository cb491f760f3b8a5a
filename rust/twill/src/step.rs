//! A path, pair by pair: with keys in a terminal, and as a line a pair anywhere else.

mod keys;
mod screen;
mod state;
mod terminal;

use crate::joined_plate::Joined;
use crate::tell;
use keys::{Decoder, Key};
use state::State;
use std::io::{self, BufRead, BufWriter, IsTerminal, Write};
use std::sync::mpsc::{Receiver, RecvTimeoutError};
use std::time::Duration;
use terminal::Terminal;

/// How long an escape byte waits for the rest of a key's sequence.
const ESCAPE_WAIT: Duration = Duration::from_millis(200);
/// How often the terminal is asked whether it was resized.
const RESIZE_WAIT: Duration = Duration::from_millis(500);

/// Steps through a path. A pipe whose reader has had enough is no error.
pub fn step(joined: &Joined, name: &str) -> io::Result<()> {
    let outcome = if !io::stdin().is_terminal() || !io::stdout().is_terminal() {
        print(joined, io::stdout().lock())
    } else if joined.path.points().is_empty() {
        writeln!(io::stdout(), "{name}: the path has no points.")
    } else {
        match Terminal::open() {
            Some(terminal) => by_keys(State::new(joined, name), &terminal),
            None => by_lines(State::new(joined, name), io::stdin().lock(), io::stdout().lock()),
        }
    };
    match outcome {
        Err(error) if error.kind() == io::ErrorKind::BrokenPipe => Ok(()),
        outcome => outcome,
    }
}

/// The start's line and a line a pair.
fn print(joined: &Joined, out: impl Write) -> io::Result<()> {
    let mut out = BufWriter::with_capacity(1 << 16, out);
    if let Some(line) = tell::start_line(joined) {
        writeln!(out, "{line}")?;
    }
    for number in 1..=joined.count() {
        writeln!(out, "{}", tell::line(joined, &joined.tell(number)))?;
    }
    out.flush()
}

fn by_keys(mut state: State, terminal: &Terminal) -> io::Result<()> {
    let bytes = terminal::bytes();
    let mut decoder = Decoder::default();
    loop {
        let size = terminal::size();
        let (rows, columns) = size;
        terminal.show(&screen::frame(&state, rows, columns), columns)?;
        let is_resized = || terminal::size() != size;
        let Some(keys) = pressed(&bytes, &mut decoder, is_resized) else { return Ok(()) };
        for key in keys {
            if state.press(key).is_break() {
                return Ok(());
            }
        }
    }
}

/// Waits for a key or a new size, and takes all keys that have come; none at the end of the
/// input.
fn pressed(
    bytes: &Receiver<Vec<u8>>,
    decoder: &mut Decoder,
    is_resized: impl Fn() -> bool,
) -> Option<Vec<Key>> {
    let mut keys: Vec<Key> = Vec::new();
    while keys.is_empty() {
        let is_pending = decoder.is_pending();
        let wait = if is_pending { ESCAPE_WAIT } else { RESIZE_WAIT };
        match bytes.recv_timeout(wait) {
            Ok(bytes) => bytes.iter().for_each(|&byte| decoder.feed(byte, &mut keys)),
            Err(RecvTimeoutError::Timeout) if is_pending => keys.extend(decoder.give_up()),
            Err(RecvTimeoutError::Timeout) if is_resized() => break,
            Err(RecvTimeoutError::Timeout) => {}
            Err(RecvTimeoutError::Disconnected) => return None,
        }
    }
    for bytes in bytes.try_iter() {
        bytes.iter().for_each(|&byte| decoder.feed(byte, &mut keys));
    }
    Some(keys)
}

/// For a terminal without a screen: each line typed is a row of keys.
fn by_lines(mut state: State, mut input: impl BufRead, mut out: impl Write) -> io::Result<()> {
    loop {
        tell_values(&state, &mut out)?;
        state.is_help = false;
        write!(out, "? lists the keys> ")?;
        out.flush()?;
        let mut line = Vec::new();
        if input.read_until(b'\n', &mut line)? == 0 {
            return writeln!(out);
        }
        line.retain(u8::is_ascii_graphic);
        let mut is_left = line.iter().any(|&byte| state.press(Key::Char(byte.into())).is_break());
        // An empty line goes on, and one that ends in a number goes there.
        if !is_left && (line.is_empty() || state.entry.is_some()) {
            is_left = state.press(Key::Enter).is_break();
        }
        if is_left {
            return Ok(());
        }
    }
}

fn tell_values(state: &State, out: &mut impl Write) -> io::Result<()> {
    let items = if state.is_help {
        writeln!(out, "Type keys, then Enter; Enter alone goes on.")?;
        screen::help()
    } else {
        writeln!(out, "{}", screen::heading(state, usize::MAX))?;
        screen::items(state)
    };
    for (label, value) in items {
        writeln!(out, "{label:10} {value}")?;
    }
    state.message.as_ref().map_or(Ok(()), |message| writeln!(out, "{message}"))
}

#[cfg(test)]
mod tests {
    use super::{by_lines, pressed, print};
    use crate::step::keys::{Decoder, Key};
    use crate::step::state::State;
    use crate::tell::tests::{joined, of_file, plate_e};
    use std::io::{self, Write};
    use std::sync::mpsc;

    fn typed(lines: &str) -> String {
        let (plate, mut out) = (plate_e(), Vec::new());
        by_lines(State::new(&plate, "e"), lines.as_bytes(), &mut out).unwrap();
        String::from_utf8(out).unwrap()
    }

    #[test]
    fn lines_are_rows_of_keys() {
        for (lines, last) in [
            ("", "1 of 5  - cut"),
            ("\n", "2 of 5  - cut"),
            ("nn\n", "3 of 5  ~ back-step"),
            ("j\n", "5 of 5  ^ jump"),
            ("g 4\n", "4 of 5  ~ back-step"),
            ("4\np\n\nq\nn\n", "4 of 5  ~ back-step"),
            ("0\n", "0 of 5  o start"),
            ("g\nn\n", "2 of 5  - cut"),
            ("\u{e9} n\n", "2 of 5  - cut"),
        ] {
            let out = typed(lines);
            let heading = out.lines().rev().find(|line| line.contains(" of 5  ")).unwrap();
            assert!(heading.ends_with(last), "{lines:?}: {out}");
        }
        let (file, mut out) = (of_file(), Vec::new());
        by_lines(State::new(&file, "file"), &b""[..], &mut out).unwrap();
        let told = "pair 1 of 32  - pair\nfrom       (0,-0)\nto         (1,-0)\nlength     1, counted as 1024/1024\n\
                    lengths    1 of 32\npasses     1 of 1 over this groove, first by pair 1, last by pair 1\n\
                    file       block 0 place 0 to block 0 place 1\n\
                    points     path points 0 and 1\n? lists the keys> \n";
        assert_eq!(String::from_utf8(out).unwrap(), told);
        assert!(typed("9\n").contains("\nThere is no pair 9; the last is 5.\n"));
        assert!(typed("?\n").contains("\njump       j next, J previous\n"));
    }

    #[test]
    fn a_path_is_printed_line_by_line() {
        for (plate, lines) in
            [(plate_e(), 6), (joined(&[&[(1.0, 2.0)]], 0, 0), 1), (joined(&[], 0, 0), 0)]
        {
            let mut out = Vec::new();
            print(&plate, &mut out).unwrap();
            assert_eq!(out.iter().filter(|&&byte| byte == b'\n').count(), lines);
        }
    }

    /// Fails as a pipe does that nobody reads.
    struct Closed;

    impl Write for Closed {
        fn write(&mut self, _: &[u8]) -> io::Result<usize> {
            Err(io::ErrorKind::BrokenPipe.into())
        }
        fn flush(&mut self) -> io::Result<()> {
            Ok(())
        }
    }

    #[test]
    fn a_write_that_fails_is_told() {
        assert_eq!(print(&plate_e(), Closed).unwrap_err().kind(), io::ErrorKind::BrokenPipe);
    }

    #[test]
    fn keys_are_taken_as_they_come() {
        let (sender, receiver) = mpsc::channel();
        let mut decoder = Decoder::default();
        for part in [&b"\x1B"[..], b"[", b"Cn"] {
            sender.send(part.to_vec()).unwrap();
        }
        assert_eq!(
            pressed(&receiver, &mut decoder, || false),
            Some(vec![Key::Right, Key::Char('n')])
        );
        sender.send(b"\x1B".to_vec()).unwrap();
        assert_eq!(pressed(&receiver, &mut decoder, || false), Some(vec![Key::Escape]));
        // A new size is a reason to draw, without a key.
        assert_eq!(pressed(&receiver, &mut decoder, || true), Some(vec![]));
        drop(sender);
        assert_eq!(pressed(&receiver, &mut decoder, || false), None);
    }
}
