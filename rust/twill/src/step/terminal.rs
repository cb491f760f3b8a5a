//! The terminal: its settings, size and screen. The settings are read and made by the `stty`
//! program.

use super::screen::Row;
use std::env;
use std::fmt::Write as _;
use std::io::{self, Read, Write};
use std::process::{Command, Stdio};
use std::sync::mpsc::{self, Receiver};
use std::thread;

/// The other screen, no cursor, no wrapping at the right edge; cleared.
const ENTER: &str = "\x1B[?1049h\x1B[?25l\x1B[?7l\x1B[2J";
const LEAVE: &str = "\x1B[?7h\x1B[?25h\x1B[?1049l";

/// A terminal that hands over each key at once, with a screen of its own. Dropped, also by a
/// panic, it is as it was.
pub struct Terminal {
    has_colours: bool,
    _saved: Saved,
}

impl Terminal {
    /// None where the terminal has no screen, or there is no `stty`.
    pub fn open() -> Option<Self> {
        if env::var_os("TERM").is_none_or(|name| name.is_empty() || name == "dumb") {
            return None;
        }
        let saved = Saved(stty(&["-g"])?.trim().to_owned());
        // Ctrl-C comes as a key too, so that nothing but this program ends it.
        stty(&["-icanon", "-echo", "-isig", "min", "1", "time", "0"])?;
        say(ENTER).ok()?;
        let has_colours = env::var_os("NO_COLOR").is_none_or(|value| value.is_empty());
        Some(Self { has_colours, _saved: saved })
    }

    /// Shows the rows, in one write.
    pub fn show(&self, rows: &[Row], columns: usize) -> io::Result<()> {
        say(&painted(rows, columns, self.has_colours))
    }
}

impl Drop for Terminal {
    fn drop(&mut self) {
        // There is no one to tell of an error, here and below.
        let _ = say(LEAVE);
    }
}

/// The settings that the terminal had.
struct Saved(String);

impl Drop for Saved {
    fn drop(&mut self) {
        let _ = stty(&[&self.0]);
    }
}

/// The rows and columns of the terminal, asked for each time, since it may have been resized.
pub fn size() -> (usize, usize) {
    let answer = stty(&["size"]).unwrap_or_default();
    let mut numbers = answer.split_whitespace().map(|word| word.parse().unwrap_or(0));
    let mut given = |name, usual| {
        let from_environment = || env::var(name).ok().and_then(|value| value.trim().parse().ok());
        let known = |&number: &usize| number > 0;
        numbers.next().filter(known).or_else(|| from_environment().filter(known)).unwrap_or(usual)
    };
    (given("LINES", 24), given("COLUMNS", 80))
}

/// The bytes that come from the terminal. The sender ends with them.
pub fn bytes() -> Receiver<Vec<u8>> {
    let (sender, receiver) = mpsc::channel();
    thread::spawn(move || {
        let mut buffer = [0; 256];
        loop {
            match io::stdin().read(&mut buffer) {
                Err(error) if error.kind() == io::ErrorKind::Interrupted => {}
                Ok(0) | Err(_) => return,
                Ok(length) => {
                    if sender.send(buffer[..length].to_vec()).is_err() {
                        return;
                    }
                }
            }
        }
    });
    receiver
}

/// What `stty` prints; none where it fails.
fn stty(arguments: &[&str]) -> Option<String> {
    let mut command = Command::new("stty");
    let output = command.args(arguments).stdin(Stdio::inherit()).output().ok()?;
    output.status.success().then(|| String::from_utf8_lossy(&output.stdout).into_owned())
}

fn say(text: &str) -> io::Result<()> {
    let mut stdout = io::stdout().lock();
    stdout.write_all(text.as_bytes())?;
    stdout.flush()
}

/// The rows, each written over the one that was there.
fn painted(rows: &[Row], columns: usize, has_colours: bool) -> String {
    let mut text = String::new();
    for (n, row) in rows.iter().enumerate() {
        let _ = write!(text, "\x1B[{};1H", n + 1);
        match has_colours && !row.look.is_empty() {
            true => _ = write!(text, "\x1B[{}m{}\x1B[0m", row.look, row.text),
            false => text += &row.text,
        }
        // On a full row this would clear its last column.
        if row.text.chars().count() < columns {
            text += "\x1B[K";
        }
    }
    text
}

#[cfg(test)]
mod tests {
    use super::painted;
    use crate::step::screen::Row;

    #[test]
    fn rows_are_written_in_place() {
        let rows = [("four", "1;32"), ("", ""), ("a", "")];
        let rows = rows.map(|(text, look)| Row { text: text.to_owned(), look: look.to_owned() });
        let coloured = "\x1B[1;1H\x1B[1;32mfour\x1B[0m\x1B[2;1H\x1B[K\x1B[3;1Ha\x1B[K";
        assert_eq!(painted(&rows, 4, true), coloured);
        let plain = "\x1B[1;1Hfour\x1B[K\x1B[2;1H\x1B[K\x1B[3;1Ha\x1B[K";
        assert_eq!(painted(&rows, 5, false), plain);
    }
}
