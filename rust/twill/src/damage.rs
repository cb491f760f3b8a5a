//! Why a plate file is refused, in words. That it is, and at which block or byte, is the library's
//! answer.

use crate::number::show;
use crate::words::count;
use twillharbor::{BLOCK_BYTES, BLOCK_POINTS, Refusal};

/// The greatest magnitude of a coordinate.
const MOST: f64 = 1_000_000.0;
/// The bytes of a block before its places, of a place, and before the checks.
const HEAD: usize = 8;
const PLACE: usize = 16;
const CHECKED: usize = HEAD + PLACE * BLOCK_POINTS;

/// A line without the file's name and the refusal.
pub fn why(file: &[u8], refusal: Refusal) -> String {
    let why = match refusal {
        Refusal::BlockDamaged { place } => {
            let block = Block::new(file, place as usize);
            format!("{}: {}", block.range(), block.faults().join("; "))
        }
        Refusal::WrongEnd { place } => wrong_end(file, place as usize),
        Refusal::TooManyPoints => {
            "the file has more than 1,048,576 points, the most that a path can have".into()
        }
        _ => "the library was not handed what the file holds".into(),
    };
    let is_text = !file.is_empty() && !file.contains(&0) && str::from_utf8(file).is_ok();
    if is_text { format!("{why}; the file is text, and no plate file") } else { why }
}

/// Where the file ends, or goes on.
fn wrong_end(file: &[u8], place: usize) -> String {
    let (blocks, rest) = (place / BLOCK_BYTES, place % BLOCK_BYTES);
    if place < file.len() {
        let closing = Block::new(file, blocks - 1);
        let more = count(file.len() - place, "byte");
        let points = count(closing.count(), "point");
        return format!(
            "{}, has {points} and so closes the file, which is {more} longer",
            closing.range()
        );
    }
    match (blocks, rest) {
        (0, 0) => "the file is empty; one without points has a block".into(),
        (_, 0) => format!(
            "the file ends after {}, each of 31 points; a block of fewer closes it",
            count(blocks, "block")
        ),
        _ => format!(
            "the file ends within block {blocks}, of which it has {} of 512",
            count(rest, "byte")
        ),
    }
}

/// A block of a file.
struct Block<'a> {
    /// Its place in the file, which should be its number.
    place: usize,
    /// The file's byte with which it begins.
    first: usize,
    bytes: &'a [u8],
}

impl<'a> Block<'a> {
    fn new(file: &'a [u8], place: usize) -> Self {
        let first = BLOCK_BYTES * place;
        Self { place, first, bytes: &file[first..first + BLOCK_BYTES] }
    }

    /// `block 1, bytes 512 to 1023`.
    fn range(&self) -> String {
        format!("block {}, bytes {} to {}", self.place, self.first, self.first + BLOCK_BYTES - 1)
    }

    fn word(&self, at: usize) -> u32 {
        let bytes = self.bytes[at..].first_chunk().expect("a block has whole words");
        u32::from_le_bytes(*bytes)
    }

    fn count(&self) -> usize {
        usize::from(u16::from_le_bytes([self.bytes[4], self.bytes[5]]))
    }

    /// All that is wrong, in the order of the bytes.
    fn faults(&self) -> Vec<String> {
        let mut faults = Vec::new();
        let (number, held) = (self.word(0), self.count());
        if number as usize != self.place {
            faults.push(format!("its number is {number}"));
        }
        if held > BLOCK_POINTS {
            faults.push(format!("its count of points is {held}, and 31 is the most"));
        }
        for at in [6, 7] {
            if self.bytes[at] != 0 {
                let (byte, value) = (self.first + at, self.bytes[at]);
                faults.push(format!("byte {byte} is {value:#04x}, and not zero"));
            }
        }
        // With another count it is not known which places are used.
        if held <= BLOCK_POINTS {
            faults.extend(self.off_the_plate(held));
            faults.extend(self.unused(held));
        }
        let [first, second] = self.sums();
        faults.extend(self.check("first", CHECKED, first));
        faults.extend(self.check("second", CHECKED + 4, second));
        faults
    }

    /// The first coordinate that is off the plate, and how many more are.
    fn off_the_plate(&self, held: usize) -> Option<String> {
        let (coordinates, _) = self.bytes[HEAD..HEAD + PLACE * held].as_chunks();
        let coordinates = coordinates.iter().map(|&bytes| f64::from_le_bytes(bytes));
        let is_within = |c: f64| c.abs() <= MOST;
        let off: Vec<(usize, f64)> =
            coordinates.enumerate().filter(|&(_, c)| !is_within(c)).collect();
        let &(at, value) = off.first()?;
        let axis = if at.is_multiple_of(2) { "x" } else { "y" };
        let point = BLOCK_POINTS * self.place + at / 2;
        Some(format!(
            "place {}, path point {point}, {axis} = {} is off the plate{}",
            at / 2,
            show(value),
            more(off.len() - 1, "coordinate")
        ))
    }

    /// The first unused place that is not zero, and how many more are not.
    fn unused(&self, held: usize) -> Option<String> {
        let places = self.bytes[HEAD..CHECKED].chunks(PLACE).enumerate().skip(held);
        let set: Vec<(usize, &[u8])> =
            places.filter(|(_, place)| place.iter().any(|&byte| byte != 0)).collect();
        let &(at, place) = set.first()?;
        let within = place.iter().position(|&byte| byte != 0)?;
        let byte = self.first + HEAD + PLACE * at + within;
        Some(format!(
            "place {at} is unused, and byte {byte} in it is {:#04x}, and not zero{}",
            place[within],
            more(set.len() - 1, "place")
        ))
    }

    /// What the two checks should be.
    fn sums(&self) -> [u32; 2] {
        let (words, _) = self.bytes[..CHECKED].as_chunks();
        words.iter().fold([0, 0], |[first, second]: [u32; 2], &word| {
            let first = first.wrapping_add(u32::from_le_bytes(word));
            [first, second.wrapping_add(first)]
        })
    }

    fn check(&self, which: &str, at: usize, computed: u32) -> Option<String> {
        let (stored, byte) = (self.word(at), self.first + at);
        (stored != computed).then(|| {
            format!("the {which} check, at byte {byte}, is {stored:#010x}, and the content's is {computed:#010x}")
        })
    }
}

/// `, and 2 coordinates more`; nothing where there are none.
fn more(number: usize, what: &str) -> String {
    match number {
        0 => String::new(),
        _ => format!(", and {} more", count(number, what)),
    }
}
