//! Runs the tool in a folder of its own.

#![allow(dead_code, reason = "each file of tests uses its part")]

use std::fs;
use std::io::Write;
use std::path::PathBuf;
use std::process::{Command, Output, Stdio};

/// Plate E, and a point that the path touches.
pub const PLATE: &str = "start inside\n(0,0)(4,0)(8,0) | (0,1) | (0,1)\n";

/// Its path, in the text form.
pub const PATH: &str = "# made elsewhere
0 0 start 0
4 0 cut 0
8 0 cut 1
4 0 back-step 1
0 0 back-step 0
0 1 jump 3
0 1 touch 4
";

/// The lines of the path, counted from 0, with another in place of one.
pub fn with_line(line: usize, other: &str) -> String {
    let mut lines: Vec<&str> = PATH.lines().skip(1).collect();
    lines[line] = other;
    lines.join("\n")
}

/// A folder that is removed at the end.
pub struct Folder(PathBuf);

impl Folder {
    /// The process's number keeps it apart where the tests are run twice at once.
    pub fn new(name: &str) -> Self {
        let name = format!("{name}-{}", std::process::id());
        let path = PathBuf::from(env!("CARGO_TARGET_TMPDIR")).join(name);
        let _ = fs::remove_dir_all(&path);
        fs::create_dir_all(&path).unwrap();
        Self(path)
    }

    pub fn path(&self, name: &str) -> PathBuf {
        self.0.join(name)
    }

    pub fn put(&self, name: &str, content: impl AsRef<[u8]>) {
        fs::write(self.path(name), content).unwrap();
    }

    /// The names of what lies in it, sorted.
    pub fn names(&self) -> Vec<String> {
        let entries = fs::read_dir(&self.0).unwrap();
        let mut names: Vec<String> =
            entries.map(|entry| entry.unwrap().file_name().into_string().unwrap()).collect();
        names.sort();
        names
    }

    /// Runs the tool there with the words of a line, apart by blanks.
    pub fn twill(&self, line: &str) -> Ran {
        self.twill_with(line, "")
    }

    /// The same, with an input.
    pub fn twill_with(&self, line: &str, input: &str) -> Ran {
        Ran::of(self.run(line, input.as_bytes()))
    }

    /// The same, with bytes that need not be text.
    pub fn run(&self, line: &str, input: &[u8]) -> Output {
        let mut child = Command::new(env!("CARGO_BIN_EXE_twill"))
            .args(line.split_whitespace())
            .current_dir(&self.0)
            .stdin(Stdio::piped())
            .stdout(Stdio::piped())
            .stderr(Stdio::piped())
            .spawn()
            .unwrap();
        let mut stdin = child.stdin.take().unwrap();
        let input = input.to_vec();
        // It may end without having read all.
        let feeder = std::thread::spawn(move || stdin.write_all(&input));
        let output = child.wait_with_output().unwrap();
        let _ = feeder.join().unwrap();
        output
    }
}

impl Drop for Folder {
    fn drop(&mut self) {
        let _ = fs::remove_dir_all(&self.0);
    }
}

/// What a run left.
#[derive(Debug, PartialEq)]
pub struct Ran {
    pub status: Option<i32>,
    pub out: String,
    pub err: String,
}

impl Ran {
    pub fn of(output: Output) -> Self {
        Self {
            status: output.status.code(),
            out: String::from_utf8(output.stdout).unwrap(),
            err: String::from_utf8(output.stderr).unwrap(),
        }
    }

    /// What was printed by a run that did its work and had nothing else to tell.
    #[track_caller]
    pub fn done(self) -> String {
        assert_eq!((self.status, self.err.as_str()), (Some(0), ""));
        self.out
    }

    /// The one line of a run that failed and printed nothing.
    #[track_caller]
    pub fn failed(self, status: i32) -> String {
        assert_eq!((self.status, self.out.as_str()), (Some(status), ""), "{}", self.err);
        let line = self.err.strip_suffix('\n').expect("a line");
        assert!(!line.contains('\n'), "{line}");
        line.strip_prefix("twill: ").expect("the tool's name").to_owned()
    }
}
