//! `twill step` through a pipe, and with keys in a terminal. The terminal is the one that `script`
//! of util-linux makes; each key waits for what the one before has to show.

mod common;

use common::Folder;
use std::io::{Read, Write};
use std::process::{Child, ChildStdin, Command, Stdio};
use std::sync::mpsc::{self, Receiver};
use std::thread;
use std::time::Duration;

const TWILL: &str = env!("CARGO_BIN_EXE_twill");
/// Plate E of document 01: cut, cut, back-step, back-step, jump.
const PLATE_E: &str = "size 0 0\nstart inside\n0 0\n4 0\n8 0\n\n0 1\n";
const LINES_E: &str = "\
0 start (0,0) on contour 0 vertex 0
1 cut (0,0) -> (4,0) length 4 contour 0 segment 0
2 cut (4,0) -> (8,0) length 4 contour 0 segment 1
3 back-step (8,0) -> (4,0) length 4 reverses pair 2 over cut 2 contour 0 segment 1
4 back-step (4,0) -> (0,0) length 4 reverses pair 1 over cut 1 contour 0 segment 0
5 jump (0,0) -> (0,1) length 1 contour 0 vertex 0 to contour 1 vertex 0
";

#[test]
fn a_pipe_gets_a_line_a_pair() {
    let folder = Folder::new("piped");
    for (plate, lines) in [
        (PLATE_E, LINES_E),
        ("start inside\n1 2\n", "0 start (1,2) on contour 0 vertex 0\n"),
        ("start inside\n", ""),
    ] {
        assert_eq!(folder.twill_with("step -", plate).done(), lines);
    }
}

/// A command in a terminal.
struct Terminal {
    _folder: Folder,
    child: Child,
    keys: Option<ChildStdin>,
    parts: Receiver<Vec<u8>>,
    seen: String,
    /// As far as what was seen has been asked for.
    read: usize,
}

impl Terminal {
    /// Steps through plate E in a terminal of this size, with words before the command, such as
    /// settings of the environment.
    fn new(name: &str, size: &str, before: &str) -> Self {
        Self::with(PLATE_E, name, size, before)
    }

    /// The same with another plate.
    fn with(plate: &str, name: &str, size: &str, before: &str) -> Self {
        let folder = Folder::new(name);
        folder.put("plate.txt", plate);
        let step = format!("{before} '{TWILL}' step '{}'", folder.path("plate.txt").display());
        let settings = "echo settings $(stty -g).";
        let shell = format!("stty {size}; {settings}; {step}; echo status $?; {settings}");
        let mut command = Command::new("script");
        command.args(["-qec", &shell, "/dev/null"]).env("SHELL", "/bin/sh").env("TERM", "xterm");
        command.env_remove("NO_COLOR").stdin(Stdio::piped()).stdout(Stdio::piped());
        let mut child = command.spawn().expect("script of util-linux is there");
        let (keys, mut stdout) = (child.stdin.take(), child.stdout.take().unwrap());
        let (sender, parts) = mpsc::channel();
        thread::spawn(move || {
            let mut buffer = [0; 4096];
            while let Ok(length @ 1..) = stdout.read(&mut buffer) {
                if sender.send(buffer[..length].to_vec()).is_err() {
                    return;
                }
            }
        });
        Self { _folder: folder, child, keys, parts, seen: String::new(), read: 0 }
    }

    /// Waits for a text after those that were waited for before.
    fn wait(&mut self, text: &str) {
        loop {
            if let Some(at) = self.seen[self.read..].find(text) {
                self.read += at + text.len();
                return;
            }
            match self.parts.recv_timeout(Duration::from_secs(60)) {
                Ok(part) => self.seen += &String::from_utf8_lossy(&part),
                Err(error) => panic!("no {text:?}, {error}: {:?}", &self.seen[self.read..]),
            }
        }
    }

    fn send(&mut self, keys: &str) {
        let pipe = self.keys.as_mut().unwrap();
        pipe.write_all(keys.as_bytes()).and_then(|()| pipe.flush()).unwrap();
    }

    /// Sends keys and waits for the heading that they lead to.
    fn press(&mut self, keys: &str, heading: &str) {
        self.send(keys);
        self.wait(heading);
    }

    /// Waits for the end, which is a success; the settings of the terminal are as before.
    fn end(mut self) -> String {
        self.wait("status 0\r\n");
        self.wait(".\r\n");
        drop(self.keys.take());
        assert!(self.child.wait().unwrap().success());
        let settings =
            self.seen.split("settings ").skip(1).filter_map(|text| text.split('.').next());
        let settings: Vec<&str> = settings.collect();
        assert!(matches!(settings[..], [before, after] if before == after), "{settings:?}");
        self.seen
    }
}

/// The rows of the last screen that was shown.
fn screen(seen: &str) -> Vec<String> {
    let shown = &seen[..seen.rfind("\x1B[?7h").expect("the screen was left")];
    let last = &shown[shown.rfind("\x1B[1;1H").expect("a screen was shown")..];
    let mut rows: Vec<String> = Vec::new();
    for part in last.split("\x1B[").skip(1) {
        let end = part.find(|c: char| c.is_ascii_alphabetic()).unwrap();
        if part[end..].starts_with('H') {
            rows.push(String::new());
        }
        *rows.last_mut().unwrap() += &part[end + 1..];
    }
    rows
}

#[test]
fn keys_step_through_the_path() {
    let mut terminal = Terminal::new("keys", "cols 80 rows 24", "");
    terminal.wait("pair 1 of 5  - cut");
    for (keys, heading) in [
        ("\x1B[C", "pair 2 of 5  - cut"),
        ("n", "pair 3 of 5  ~ back-step"),
        (" ", "pair 4 of 5  ~ back-step"),
        ("\x1BOD", "pair 3 of 5  ~ back-step"),
        ("\x7F", "pair 2 of 5  - cut"),
        ("j", "pair 5 of 5  ^ jump"),
        ("\x1B[1~", "pair 1 of 5  - cut"),
        ("\x1B[F", "pair 5 of 5  ^ jump"),
        ("2\r", "pair 2 of 5  - cut"),
        ("g9\x7F4\n", "pair 4 of 5  ~ back-step"),
        ("9\n", "There is no pair 9; the last is 5."),
        ("?", "j next, J previous"),
        ("x\x1AB", "pair 4 of 5  ~ back-step"),
    ] {
        terminal.press(keys, heading);
    }
    terminal.send("q");
    let rows = screen(&terminal.end());
    assert_eq!(rows.len(), 24);
    assert_eq!(rows[5], "reverses   pair 1 over cut 1 contour 0 segment 0");
    let listed = [
        "  3 ~ back-step (8,0) -> (4,0) length 4 reverses pair 2 over cut 2 contour 0 ..",
        "> 4 ~ back-step (4,0) -> (0,0) length 4 reverses pair 1 over cut 1 contour 0 ..",
        "  5 ^ jump      (0,0) -> (0,1) length 1 contour 0 vertex 0 to contour 1 vertex 0",
    ];
    let lengths = "lengths    cuts 8 of 8, back-steps 8 of 8, jumps 0 of 1";
    let passes = "passes     2 of 2 over this groove, first by pair 1, last by pair 4";
    assert_eq!(rows[7..9], [lengths, passes]);
    assert_eq!(rows[16..19], listed);
}

/// Touch, cut, back-step, touch, jump; one of the points touched is -0.
#[test]
fn keys_go_to_jumps_and_to_touches() {
    let plate = "start inside\n(0,0) | (0,-0)(4,0) | (0,0) | (0,1)\n";
    let mut terminal = Terminal::with(plate, "touches", "cols 80 rows 24", "NO_COLOR=1");
    terminal.wait("pair 1 of 5  + touch");
    for (keys, heading) in [
        ("j", "pair 5 of 5  ^ jump"),
        ("T", "pair 4 of 5  + touch"),
        ("t", "No touch after this."),
        ("?", "t next, T previous"),
        ("x", "pair 4 of 5  + touch"),
        ("T", "pair 1 of 5  + touch"),
    ] {
        terminal.press(keys, heading);
    }
    terminal.send("q");
    let rows = screen(&terminal.end());
    assert_eq!(rows[5], "touches    contour 0 vertex 0 to contour 1 vertex 0");
    assert_eq!(rows[6], "so far     cuts 0 of 1, back-steps 0 of 1, jumps 0 of 1, touches 1 of 2");
    let listed = [
        "> 1 + touch     (0,0) -> (0,-0) length 0 contour 0 vertex 0 to contour 1 ..",
        "  2 - cut       (0,-0) -> (4,0) length 4 contour 1 segment 0",
    ];
    assert_eq!(rows[8], "passes     none, as its points are equal");
    assert_eq!(rows[14..16], listed);
}

#[test]
fn the_parked_point_stays_in_sight() {
    let plate = "start home 12,-1\n(0,0)(4,0) | (5,3)(9,3)\n";
    let mut terminal = Terminal::with(plate, "parked", "cols 80 rows 24", "NO_COLOR=1");
    terminal.wait("pair 1 of 3  - cut");
    terminal.press("0\r", "home       parked at (12,-1), length 5");
    terminal.press("j", "pair 2 of 3  ^ jump");
    terminal.send("q");
    let rows = screen(&terminal.end());
    assert_eq!(rows[12], "home       parked at (12,-1)");
    assert_eq!(rows[14], "  0 o start     (9,3) on contour 1 vertex 1 home (12,-1)");
}

#[test]
fn each_way_to_leave_restores_the_terminal() {
    for (name, keys) in [("ctrl-c", "\x03"), ("ctrl-d", "\x04"), ("escape", "\x1B"), ("end", "")] {
        let mut terminal = Terminal::new(name, "cols 40 rows 12", "");
        terminal.wait("pair 1 of 5");
        match keys {
            "" => drop(terminal.keys.take()),
            keys => terminal.send(keys),
        }
        let seen = terminal.end();
        assert!(
            seen.contains("\x1B[?1049h") && seen.contains("\x1B[?25h\x1B[?1049l"),
            "{name}: {seen:?}"
        );
    }
}

#[test]
fn a_narrow_terminal_is_not_overrun() {
    let mut terminal = Terminal::new("narrow", "cols 10 rows 5", "NO_COLOR=1");
    terminal.wait("1 - cut");
    terminal.press("3\n", "back-step");
    terminal.press("\t", "4096/1024");
    terminal.send("q");
    let seen = terminal.end();
    let shown = ["length 4,", "counted as", "4096/1024", "reverses", "Tab 2/13"];
    assert_eq!(screen(&seen), shown);
    assert!(!seen.contains("\x1B[1;3") && !seen.contains("\x1B[7"), "{seen:?}");
}

#[test]
fn where_there_is_no_screen_lines_are_read() {
    for (name, before) in [("dumb", "TERM=dumb"), ("no-stty", "PATH=/nonexistent")] {
        let mut terminal = Terminal::new(name, "cols 80 rows 24", before);
        terminal.wait("pair 1 of 5  - cut\r\n");
        terminal.press("\n", "pair 2 of 5  - cut\r\n");
        terminal.press("j\n", "jumps      contour 0 vertex 0 to contour 1 vertex 0\r\n");
        terminal.press("3\n", "pair 3 of 5  ~ back-step\r\n");
        terminal.send("q\n");
        assert!(!terminal.end().contains('\x1B'));
    }
}
