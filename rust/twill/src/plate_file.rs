//! Plate files, which hold a path and no marks. The library writes and reads them.

use crate::damage;
use crate::failure::Failure;
use twillharbor::{BLOCK_BYTES, Point, read_file};

/// A path, and how many blocks the file has that it was read from.
#[derive(Debug, PartialEq)]
pub struct PlateFile {
    pub path: Vec<Point>,
    pub blocks: usize,
}

/// Whether a file is a plate file and no text: it begins with the number of block 0, and no text has
/// a zero byte.
pub fn is_one(content: &[u8]) -> bool {
    content.starts_with(&[0; 4])
}

/// Reads a plate file; the name is for messages.
pub fn read(name: &str, content: &[u8]) -> Result<PlateFile, Failure> {
    match read_file(content) {
        Ok(path) => Ok(PlateFile { path, blocks: content.len() / BLOCK_BYTES }),
        Err(refusal) => {
            let why = damage::why(content, refusal);
            Err(Failure::refused(format!("{name}: refused: {refusal}: {why}")))
        }
    }
}
