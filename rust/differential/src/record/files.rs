//! The plate file's answers as text: words as in the other files, the number of rows first.
//!
//! A row is, in this order:
//!
//! - six words: the lengths of the path slice and of the file slice, the writer's number, place and
//!   bytes, and the number of readings;
//! - the path slice;
//! - the whole file slice as the writer leaves it, where every byte was [`FILE_FILL`]: eight bytes
//!   to a word, in their order from its highest digits on, and zeros behind the last;
//! - the readings.
//!
//! A reading is, in this order:
//!
//! - seven words: where the bytes that are read begin and end in the written file twice over, the
//!   length of the path slice, the number of altered bytes, and the reader's number, place and
//!   points;
//! - a word for each byte that is altered before: its place, twice over, times 256, and its value;
//! - the whole path slice as the reader leaves it, where every number was [`PATH_FILL`].
//!
//! The path slice has at most 128 numbers, that of a reading 192, and the file slice 1,600 bytes; at
//! most 64 bytes are altered. The answers are those of `plate_file`.

use harness::random::Random;

use super::{PATH_FILL, Words, after, file_of};
use crate::damaged_files::{DAMAGES, Damage, damaged, off, sound, special};
use crate::plate_file::{BLOCK, Refused, read, write};

/// What a file slice holds in each byte before the call.
const FILE_FILL: u8 = 0xa5;

const MOST_ALTERED: usize = 64;

/// Numbers of points that are written and read.
const POINTS: [usize; 11] = [0, 1, 2, 3, 7, 30, 31, 32, 61, 62, 63];
/// How many readings there are of each damage of a short path's file.
const DAMAGED: usize = 4;

/// A path and the file slice's length, then what is read of the file.
#[derive(Debug)]
struct Row {
    path: Vec<f64>,
    room: usize,
    readings: Vec<Reading>,
}

/// The bytes from `from` to `to` of the file twice over, into a path slice of `room` numbers, after
/// these bytes became these values.
#[derive(Debug, Clone, Default)]
struct Reading {
    from: usize,
    to: usize,
    room: usize,
    altered: Vec<(usize, u8)>,
}

impl Reading {
    /// What is read of the file.
    fn bytes(&self, file: &[u8]) -> Vec<u8> {
        let mut bytes = file.repeat(2);
        self.altered.iter().for_each(|&(place, value)| bytes[place] = value);
        bytes[self.from..self.to].to_vec()
    }
}

/// The rows: paths of each number of points with readings of their files, then paths that the writer
/// refuses.
pub fn files() -> String {
    file_of(&rows(), write_row)
}

fn rows() -> Vec<Row> {
    let random = &mut Random::new(35);
    let mut rows = Vec::new();
    for points in POINTS {
        let path: Vec<f64> = (0..2 * points).map(|_| coordinate(random)).collect();
        let file = write(&path, usize::MAX).expect("the path is sound");
        let readings = readings(&file, path.len(), random);
        rows.push(Row { path, room: file.len() + points % 2, readings });
    }
    rows.extend(refused(random));
    rows
}

fn coordinate(random: &mut Random) -> f64 {
    if random.one_in(2) { special(random) } else { sound(random) }
}

/// Readings of a file as it is, of parts of it, and of damaged copies.
fn readings(file: &[u8], numbers: usize, random: &mut Random) -> Vec<Reading> {
    let whole = Reading { to: file.len(), room: numbers, ..Reading::default() };
    let mut readings: Vec<Reading> = [numbers, numbers + 1, numbers.saturating_sub(1), 0]
        .map(|room| Reading { room, ..whole.clone() })
        .into();
    for length in lengths(file.len()) {
        readings.push(Reading { to: length, room: 2, ..whole.clone() });
    }
    for from in (BLOCK..2 * file.len()).step_by(BLOCK) {
        readings.push(Reading { from, to: 2 * file.len(), room: 2, ..whole.clone() });
    }
    // Another path of a long file would be many words.
    let is_long = numbers > 20;
    let alter = DAMAGES.iter().filter(|(damage, _)| alters(*damage));
    for (damage, _) in alter.flat_map(|damage| [damage; DAMAGED]) {
        let copy = damaged(file, *damage, random);
        let held = read(&copy, usize::MAX).map_or(2, |path| path.len());
        let altered: Vec<(usize, u8)> =
            (0..file.len()).filter(|&at| copy[at] != file[at]).map(|at| (at, copy[at])).collect();
        if altered.len() <= MOST_ALTERED && !(is_long && held > 2) {
            readings.push(Reading { room: held, altered, ..whole.clone() });
        }
    }
    readings
}

/// Whether the damage leaves the length.
fn alters(damage: Damage) -> bool {
    !matches!(
        damage,
        Damage::Noise
            | Damage::Cut
            | Damage::Extended
            | Damage::BlockAfter
            | Damage::Swapped
            | Damage::Repeated
            | Damage::Dropped
            | Damage::Renumbered
    )
}

/// Lengths about each block's end, in the file twice over.
fn lengths(whole: usize) -> Vec<usize> {
    let borders = (0..=2 * whole).step_by(BLOCK);
    let near = borders.flat_map(|at| [at.saturating_sub(1), at, at + 1, at + 188]);
    near.filter(|&at| at != whole && at <= 2 * whole).collect()
}

/// Paths that the writer refuses: odd ones, coordinates off the plate at each place, files of no
/// room or a byte short.
fn refused(random: &mut Random) -> Vec<Row> {
    let mut rows = Vec::new();
    for numbers in [1, 3, 5] {
        let mut path: Vec<f64> = (0..numbers).map(|_| coordinate(random)).collect();
        rows.push(Row { path: path.clone(), room: BLOCK, readings: Vec::new() });
        path[0] = f64::NAN;
        rows.push(Row { path, room: 0, readings: Vec::new() });
    }
    for place in [0, 1, 2, 3].repeat(3) {
        let mut path: Vec<f64> = (0..4).map(|_| coordinate(random)).collect();
        path[place] = off(random);
        let room = random.pick(&[0, 1, 8]);
        rows.push(Row { path, room, readings: Vec::new() });
    }
    for (points, room) in [(0, 511), (2, 511), (31, 1_023), (62, 1_535), (0, 0), (1, 1), (31, 512)]
    {
        let path = (0..2 * points).map(|_| coordinate(random)).collect();
        rows.push(Row { path, room, readings: Vec::new() });
    }
    rows
}

fn write_row(words: &mut Words, row: &Row) {
    let Row { path, room, readings } = row;
    let due = write(path, *room);
    let [number, place] = due.as_ref().map_or_else(|refused| refused.numbers(), |_| [0, 0]);
    let file = due.unwrap_or_default();
    let counts = [path.len(), *room, number, place, file.len(), readings.len()];
    words.line(counts.map(|count| count as u64));
    words.slice(path);
    let mut slice = after(&file, *room, FILE_FILL);
    slice.resize(room.next_multiple_of(8), 0);
    let (eights, _) = slice.as_chunks();
    words.line(eights.iter().map(|&bytes| u64::from_be_bytes(bytes)));
    readings.iter().for_each(|reading| write_reading(words, reading, &file));
}

fn write_reading(words: &mut Words, reading: &Reading, file: &[u8]) {
    let Reading { from, to, room, altered } = reading;
    let due = read(&reading.bytes(file), *room);
    let [number, place] =
        due.as_ref().map_or_else(|refused: &Refused| refused.numbers(), |_| [0, 0]);
    let path = due.unwrap_or_default();
    let counts = [*from, *to, *room, altered.len(), number, place, path.len() / 2];
    words.line(counts.map(|count| count as u64));
    words.line(altered.iter().map(|&(place, value)| place as u64 * 256 + u64::from(value)));
    words.slice(&after(&path, *room, PATH_FILL));
}

#[cfg(test)]
mod tests {
    use twillharbor::c;

    use super::{FILE_FILL, MOST_ALTERED, PATH_FILL, after, files, rows};
    use crate::plate_file::{Refused, WRONGS, read, write};

    #[test]
    fn rows_fit_the_replaying_program() {
        for row in rows() {
            assert!(row.path.len() <= 128 && row.room <= 1_600);
            for reading in row.readings {
                assert!(reading.room <= 192 && reading.altered.len() <= MOST_ALTERED);
            }
        }
        assert!(files().split_whitespace().count() < 15_420);
    }

    #[test]
    fn the_library_gives_what_the_rows_record() {
        let mut numbers = Vec::new();
        let mut alone = [0; WRONGS.len()];
        for row in rows() {
            let due = write(&row.path, row.room).map_err(Refused::numbers);
            let mut file = vec![FILE_FILL; row.room];
            let is = c::write_file(&row.path, &mut file);
            let size = due.as_ref().map_or(0, Vec::len);
            assert_eq!(is.bytes as usize, size);
            assert_eq!(file, after(due.as_deref().unwrap_or_default(), row.room, FILE_FILL));
            assert_eq!([is.number, is.place].map(|n| n as usize), due.err().unwrap_or([0, 0]));
            numbers.push(is.number);
            for reading in row.readings {
                let bytes = reading.bytes(&file[..size]);
                let due = read(&bytes, reading.room);
                let mut path = vec![PATH_FILL; reading.room];
                let is = c::read_file(&bytes, &mut path);
                if let Err(Refused::Damaged { faults, .. }) = due
                    && faults.iter().filter(|&&is| is).count() == 1
                {
                    (0..alone.len()).for_each(|wrong| alone[wrong] += u32::from(faults[wrong]));
                }
                let due = due.map_err(Refused::numbers);
                assert_eq!(is.points as usize, due.as_ref().map_or(0, |path| path.len() / 2));
                let left = after(due.as_deref().unwrap_or_default(), reading.room, PATH_FILL);
                assert!(path.iter().map(|c| c.to_bits()).eq(left.iter().map(|c| c.to_bits())));
                assert_eq!([is.number, is.place].map(|n| n as usize), due.err().unwrap_or([0, 0]));
                numbers.push(is.number);
            }
        }
        for number in [0, 3, 4, 6, 8, 9] {
            assert!(numbers.iter().filter(|&&is| is == number).count() > 4, "{number}");
        }
        assert!(alone.iter().all(|&met| met > 4), "{alone:?}");
    }
}
