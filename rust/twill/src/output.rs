//! Where results go.

use crate::failure::Failure;
use crate::plate::file_name;
use std::fs::{self, OpenOptions};
use std::io::{self, IsTerminal, Write};
use std::os::unix::fs::MetadataExt;
use std::path::{Path, PathBuf};

/// Writes to the standard output; whoever closed it has read enough.
pub fn print(content: impl AsRef<[u8]>) -> Result<(), Failure> {
    let mut out = io::stdout().lock();
    match out.write_all(content.as_ref()).and_then(|()| out.flush()) {
        Err(fault) if fault.kind() != io::ErrorKind::BrokenPipe => {
            Err(Failure::file(format!("standard output: {}", reason(&fault))))
        }
        _ => Ok(()),
    }
}

/// Writes a line to the standard error. Where that fails there is no one to tell.
pub fn report(line: &str) {
    let _ = io::stderr().write_all(format!("twill: {line}\n").as_bytes());
}

/// Whether what has no other place is shown on a terminal.
pub fn is_shown(to: Option<&Path>) -> bool {
    to.is_none_or(is_standard) && io::stdout().is_terminal()
}

/// Whether a name stands for the standard output.
pub fn is_standard(path: &Path) -> bool {
    ["-", "/dev/stdout", "/dev/fd/1", "/proc/self/fd/1"].iter().any(|name| path == Path::new(name))
}

/// Writes to the file of this name, or to the standard output if the name stands for that.
pub fn save(path: &Path, content: impl AsRef<[u8]>) -> Result<(), Failure> {
    if is_standard(path) {
        return print(content);
    }
    write_whole(path, content.as_ref())
        .map_err(|fault| Failure::file(format!("{}: {}", file_name(path), reason(&fault))))
}

/// Writes a file whole or not at all: beside it first, then in its place. What is no plain file,
/// as a device or a link to nothing, is written to as it stands.
fn write_whole(path: &Path, content: &[u8]) -> io::Result<()> {
    let is_link = fs::symlink_metadata(path).is_ok_and(|found| found.is_symlink());
    let (found, target) = (fs::metadata(path), fs::canonicalize(path));
    match (&found, &target) {
        (Ok(found), _) if !found.is_file() => return fs::write(path, content),
        (Err(_), _) if is_link => return fs::write(path, content),
        // A file that must not be written must not be replaced.
        (Ok(_), Ok(target)) => _ = OpenOptions::new().write(true).open(target)?,
        _ => {}
    }
    let target = target.unwrap_or_else(|_| path.to_path_buf());
    let beside = beside(&target);
    let outcome = fs::write(&beside, content).and_then(|()| {
        if let Ok(found) = found {
            fs::set_permissions(&beside, found.permissions())?;
        }
        fs::rename(&beside, &target)
    });
    if outcome.is_err() {
        let _ = fs::remove_file(&beside);
    }
    outcome
}

fn beside(path: &Path) -> PathBuf {
    let mut name = path.file_name().unwrap_or_default().to_os_string();
    name.push(format!(".{}.part", std::process::id()));
    path.with_file_name(name)
}

/// Whether both names are of one plain file, by links too.
pub fn is_same(one: &Path, other: &Path) -> bool {
    match (fs::metadata(one), fs::metadata(other)) {
        (Ok(one), Ok(other)) => {
            one.is_file() && (one.dev(), one.ino()) == (other.dev(), other.ino())
        }
        _ => false,
    }
}

/// What went wrong, without the system's number for it.
pub fn reason(fault: &io::Error) -> String {
    let text = fault.to_string();
    match text.split_once(" (os error ") {
        Some((words, _)) => words.to_owned(),
        None => text,
    }
}
