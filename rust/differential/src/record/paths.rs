//! The check call's answers as text: words as in the other files, the number of rows first.
//!
//! A row is, in this order:
//!
//! - five words: the number of coordinates, the number of contours, and the lengths of the path
//!   slice, of the marks slice and of the work slice;
//! - the coordinates; the contours' lengths; the path slice; the marks slice;
//! - two words: the call's number and its place.
//!
//! A plate has at most 40 coordinates and 12 contours, the path slice and the marks slice have at
//! most 128 elements each and the work slice 64. The answers are those of `path_check`.

use harness::random::Random;

use super::{Words, file_of};
use crate::other_paths::{DAMAGES, damaged, other_path};
use crate::path_check::Handed;
use crate::plates::{KINDS, small_plate};

const MOST_ELEMENTS: usize = 128;
const MOST_WORK: usize = 64;
/// How many paths are recorded as they are, with a work slice of just enough and one short.
const DRAWN: usize = 16;
/// How many rows there are of each damage.
const DAMAGED: usize = 7;

/// What is handed over, and the length of the work slice.
type Row = (Handed, usize);

/// The rows: paths that draw their plate, with enough work and one short, then as many of each
/// damage.
pub fn paths() -> String {
    file_of(&rows(), |words, (handed, work)| write_row(words, handed, *work))
}

fn rows() -> Vec<Row> {
    let random = &mut Random::new(34);
    let mut rows = Vec::new();
    for turn in 0..DRAWN {
        let handed = drawn(turn, random);
        let work = handed.work();
        rows.extend(work.checked_sub(1).map(|short| (handed.clone(), short)));
        rows.push((handed, work));
    }
    for (damage, _) in DAMAGES {
        for turn in 0..DAMAGED {
            let handed = damaged(&drawn(turn, random), damage, random);
            let work = handed.work();
            rows.push((handed, work));
        }
    }
    rows
}

/// A path that draws a plate and leaves room for a damage.
fn drawn(turn: usize, random: &mut Random) -> Handed {
    let (kind, _) = KINDS[turn % KINDS.len()];
    loop {
        let plate = small_plate(kind, random);
        let handed = other_path(&plate.points, &plate.lengths, random);
        if handed.path.len() + 4 <= MOST_ELEMENTS && handed.work() <= MOST_WORK {
            return handed;
        }
    }
}

fn write_row(words: &mut Words, handed: &Handed, work: usize) {
    let Handed { points, lengths, path, marks } = handed;
    let counts = [points.len(), lengths.len(), path.len(), marks.len(), work];
    words.line(counts.map(|count| count as u64));
    words.slice(points);
    words.slice(lengths);
    words.slice(path);
    words.slice(marks);
    let (number, place) = handed.due(work).numbers();
    words.line([number.into(), place]);
}

#[cfg(test)]
mod tests {
    use twillharbor::c;

    use super::{MOST_ELEMENTS, MOST_WORK, paths, rows};

    #[test]
    fn rows_fit_the_replaying_program() {
        for (handed, work) in rows() {
            assert!(handed.points.len() <= 40 && handed.lengths.len() <= 12);
            assert!(handed.path.len().max(handed.marks.len()) <= MOST_ELEMENTS);
            assert!(work <= MOST_WORK);
        }
        assert!(paths().split_whitespace().count() < 15_420);
    }

    #[test]
    fn the_library_gives_what_the_rows_record() {
        let mut numbers = Vec::new();
        for (handed, work) in rows() {
            let mut lent = vec![7; work];
            let is = c::check_path(
                &handed.points,
                &handed.lengths,
                &handed.path,
                &handed.marks,
                &mut lent,
            );
            assert_eq!((is.number, is.place), handed.due(work).numbers(), "{handed:?}");
            numbers.push(is.number);
        }
        for number in [0, 3, 5, 12] {
            assert!(numbers.iter().filter(|&&is| is == number).count() > 4, "{number}");
        }
    }
}
