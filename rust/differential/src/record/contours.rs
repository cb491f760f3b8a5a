//! The contours call's answers as text: words as in the other files, the number of rows first.
//!
//! A row is, in this order:
//!
//! - five words: the lengths of the path slice, of the marks slice, of the points slice, of the
//!   lengths slice and of the work slice;
//! - the path slice; the marks slice;
//! - four words: the call's number, place, points and contours;
//! - the whole points slice as the call leaves it, where every element was [`POINTS_FILL`];
//! - the whole lengths slice as the call leaves it, where every element was [`LENGTHS_FILL`].
//!
//! The path slice and the marks slice have at most 64 elements each, the points slice as many, the
//! lengths slice 32 and the work slice 160. The answers are those of `decoder`. What the work slice
//! holds is not in the rows: it may hold anything before the call, and holds the same after
//! refusals 3, 4 and 5.

use harness::random::Random;
use twillharbor::StartPointStrategy::{Inside, Outside};

use super::{Words, after, file_of};
use crate::damaged_marks::{DAMAGES, THIRDS, damaged};
use crate::decoder::{HIGHEST_VERTEX, Marked, Picture, Room};
use crate::other_paths::other_path;
use crate::plates::{KINDS, Plate, small_plate};
use crate::reference::retrace;
use crate::rule::retrace::{BACK_STEP, CUT, JUMP, START, TOUCH};

/// What a points slice holds before the call.
const POINTS_FILL: f64 = 100.0;
/// What a lengths slice holds before the call.
const LENGTHS_FILL: u32 = 0xa5a5_a5a5;

const MOST_ELEMENTS: usize = 64;
const MOST_LENGTHS: usize = 32;
const MOST_WORK: usize = 160;
/// How many paths are recorded as they are, in slices of just enough and of one short each.
const DRAWN: usize = 10;
/// How many rows there are of each damage.
const DAMAGED: usize = 3;

/// What is handed over, and what is lent.
type Row = (Marked, Room);

/// The rows: paths worked out by hand, then paths of the reference and other ones that draw a
/// plate, in slices of several lengths, then as many of each damage.
pub fn contours() -> String {
    file_of(&rows(), |words, (marked, room)| write_row(words, marked, *room))
}

fn rows() -> Vec<Row> {
    let random = &mut Random::new(41);
    let mut rows: Vec<Row> =
        fixed().into_iter().map(|marked| (marked.clone(), exact(&marked))).collect();
    for turn in 0..DRAWN {
        let marked = drawn(turn, random);
        rows.extend(rooms(&marked).map(|room| (marked.clone(), room)));
    }
    for (damage, _) in DAMAGES {
        for turn in 0..DAMAGED {
            let marked = loop {
                let whole = drawn(turn, random);
                if let Some(copy) = damaged(&whole, damage, turn % THIRDS.len(), random) {
                    break copy;
                }
            };
            let room = exact(&marked);
            rows.push((marked, room));
        }
    }
    rows
}

/// Just enough; where there are no contours, as much as any path of the length can need.
fn exact(marked: &Marked) -> Room {
    let enough = marked.enough();
    match marked.due(enough).picture() {
        Some(Picture { points, lengths }) => {
            Room { points: points.len(), lengths: lengths.len(), ..enough }
        }
        None => enough,
    }
}

/// Just enough, then each slice one short, then each longer.
fn rooms(marked: &Marked) -> impl Iterator<Item = Room> {
    let exact = exact(marked);
    let Room { points, lengths, work } = exact;
    let short = [
        points.checked_sub(1).map(|points| Room { points, ..exact }),
        lengths.checked_sub(1).map(|lengths| Room { lengths, ..exact }),
        work.checked_sub(1).map(|work| Room { work, ..exact }),
    ];
    let longer = Room { points: points + 3, lengths: lengths + 1, work: work + 2 };
    [exact, longer].into_iter().chain(short.into_iter().flatten())
}

/// A path that draws a plate and leaves room for a damage: the reference's, or another one.
fn drawn(turn: usize, random: &mut Random) -> Marked {
    loop {
        let (kind, _) = KINDS[random.below(KINDS.len() as u64) as usize];
        let plate = small_plate(kind, random);
        let marked = if turn.is_multiple_of(2) {
            retraced(&plate, random)
        } else {
            otherwise(&plate, random)
        };
        if let Some(marked) =
            marked.filter(|marked| (6..MOST_ELEMENTS / 2 - 2).contains(&marked.count()))
        {
            return marked;
        }
    }
}

/// The reference's path, if it is short.
fn retraced(plate: &Plate, random: &mut Random) -> Option<Marked> {
    let strategy = random.pick(&[Outside, Inside]);
    let due = retrace(plate, strategy, MOST_ELEMENTS / 2).expect("the rules agree");
    let due = due.expect("the plate is sound");
    let (path, marks) = (due.path.into_flattened(), due.marks.into_flattened());
    due.whole.then_some(Marked { path, marks })
}

fn otherwise(plate: &Plate, random: &mut Random) -> Option<Marked> {
    let marked = Marked::from(other_path(&plate.points, &plate.lengths, random));
    marked.contours().is_ok().then_some(marked)
}

/// The x coordinates of paths along the x axis: one point after the other, to and fro, over 0 and -0,
/// and with the last one there twice.
const ALONG: &[f64] = &[0.0, 1.0, 2.0, 3.0];
const TO_AND_FRO: &[f64] = &[0.0, 1.0, 0.0, 1.0, 0.0];
const ZEROS: &[f64] = &[0.0, -0.0];
const BACK_TO_ZERO: &[f64] = &[0.0, 1.0, -0.0];
const STAYING: &[f64] = &[0.0, 1.0, 2.0, 3.0, 4.0, 5.0, 6.0, 7.0, 7.0];

/// Paths that separate one rule from another. The last but one steps back over its own pair: a
/// program that reads that vertex from the work slice finds 7 there, the number that every replay
/// lends, and accepts it.
fn fixed() -> Vec<Marked> {
    const TOP: u32 = HIGHEST_VERTEX;
    let paths: [(&[f64], &[[u32; 2]]); 28] = [
        (ALONG, &[]),
        (ALONG, &[[START, 0]]),
        (ALONG, &[[START, 1]]),
        (ALONG, &[[START, TOP]]),
        (ALONG, &[[START, TOP + 1]]),
        (ALONG, &[[START, TOP], [CUT, TOP - 1]]),
        (ALONG, &[[START, TOP], [CUT, TOP]]),
        (ALONG, &[[START, 0], [START, 1]]),
        (ALONG, &[[START, 1], [CUT, 0], [JUMP, 2]]),
        (ALONG, &[[START, 2], [JUMP, 0], [JUMP, 3], [JUMP, 1]]),
        (ALONG, &[[START, 2], [CUT, 1], [CUT, 0]]),
        (ALONG, &[[START, 0], [CUT, 0], [CUT, 0]]),
        (ALONG, &[[START, 0], [CUT, 0], [JUMP, 1]]),
        // A vertex that is too far is tested for a landing before.
        (ALONG, &[[START, 9], [JUMP, 7], [JUMP, 9]]),
        (TO_AND_FRO, &[[START, 0], [CUT, 0], [BACK_STEP, 0]]),
        (TO_AND_FRO, &[[START, 0], [CUT, 0], [BACK_STEP, 1]]),
        (TO_AND_FRO, &[[START, 0], [CUT, 0], [BACK_STEP, 0], [BACK_STEP, 1]]),
        (TO_AND_FRO, &[[START, 0], [CUT, 0], [BACK_STEP, 0], [BACK_STEP, 1], [BACK_STEP, 2]]),
        (TO_AND_FRO, &[[START, 0], [CUT, 0], [BACK_STEP, 0], [CUT, 0]]),
        (TO_AND_FRO, &[[START, 0], [JUMP, 1], [CUT, 1], [BACK_STEP, 1]]),
        (TO_AND_FRO, &[[START, 0], [JUMP, 1], [BACK_STEP, 0], [JUMP, 2]]),
        (TO_AND_FRO, &[[START, 0], [CUT, 0], [JUMP, 3], [BACK_STEP, 0]]),
        (ZEROS, &[[START, 0], [JUMP, 1]]),
        (ZEROS, &[[START, 0], [TOUCH, 1]]),
        (ZEROS, &[[START, 0], [TOUCH, 0]]),
        (ZEROS, &[[START, 0], [CUT, 0]]),
        (STAYING, &CUTS_AND_BACK),
        (BACK_TO_ZERO, &[[START, 0], [CUT, 0], [BACK_STEP, 0]]),
    ];
    let marked = |(xs, marks): (&[f64], &[[u32; 2]])| Marked {
        path: xs[..marks.len()].iter().flat_map(|&x| [x, 0.0]).collect(),
        marks: marks.as_flattened().to_vec(),
    };
    paths.map(marked).to_vec()
}

/// Along seven cuts to vertex 7, and a back-step over its own pair.
const CUTS_AND_BACK: [[u32; 2]; 9] = {
    let mut marks = [[START, 0]; 9];
    let mut at = 1;
    while at < 8 {
        marks[at] = [CUT, at as u32 - 1];
        at += 1;
    }
    marks[8] = [BACK_STEP, 7];
    marks
};

fn write_row(words: &mut Words, marked: &Marked, room: Room) {
    let Marked { path, marks } = marked;
    assert!(path.len().max(marks.len()).max(room.points) <= MOST_ELEMENTS);
    assert!(room.lengths <= MOST_LENGTHS && room.work <= MOST_WORK);
    let counts = [path.len(), marks.len(), room.points, room.lengths, room.work];
    words.line(counts.map(|count| count as u64));
    words.slice(path);
    words.slice(marks);
    let due = marked.due(room);
    let (number, place, points, contours) = due.numbers();
    words.line([number.into(), place, points.into(), contours.into()]);
    let none = Picture::default();
    let written = due.picture().unwrap_or(&none);
    words.slice(&after(&written.points, room.points, POINTS_FILL));
    words.slice(&after(&written.lengths, room.lengths, LENGTHS_FILL));
}

#[cfg(test)]
mod tests {
    use twillharbor::c;

    use super::{LENGTHS_FILL, POINTS_FILL, contours};
    use crate::record::tests::{MOST_BYTES, words};

    /// Reads the rows as a program without Rust would, and calls the library.
    #[test]
    fn the_library_gives_what_the_rows_record() {
        let text = contours();
        assert!(text.len() < MOST_BYTES, "{} bytes", text.len());
        let mut words = words(&text).into_iter();
        let mut next = || words.next().expect("the row has another word");
        let mut numbers = [0; 12];
        for _ in 0..next() {
            let [path, marks, points, lengths, work] = [(); 5].map(|()| next() as usize);
            let path: Vec<f64> = (0..path).map(|_| f64::from_bits(next())).collect();
            let marks: Vec<u32> =
                (0..marks).map(|_| u32::try_from(next()).expect("it is a mark")).collect();
            let (mut points, mut lengths) =
                (vec![POINTS_FILL; points], vec![LENGTHS_FILL; lengths]);
            let mut work = vec![7; work];
            let is = c::contours(&path, &marks, &mut points, &mut lengths, &mut work);
            let answer = [is.number.into(), is.place, is.points.into(), is.contours.into()];
            assert_eq!(answer, [(); 4].map(|()| next()));
            points.iter().for_each(|c| assert_eq!(c.to_bits(), next()));
            lengths.iter().for_each(|&length| assert_eq!(u64::from(length), next()));
            if matches!(is.number, 3..=5) {
                assert!(work.iter().all(|&n| n == 7));
            }
            numbers[is.number as usize] += 1;
        }
        assert_eq!(words.next(), None);
        let due = [0, 3, 4, 5, 6, 10, 11];
        assert!(due.iter().all(|&number| numbers[number] >= 3), "{numbers:?}");
    }
}
