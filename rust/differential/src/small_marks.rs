//! The contours call on every small path with marks.

use twillharbor::c;

use crate::contours::described;
use crate::decoder::{Due, Marked, Picture, Room};
use crate::run::{self, Plan};
use crate::tally::{self, Tally};

/// Three path points: all differ, some are equal, as numbers or by their bits.
const POINTS: [[[f64; 2]; 3]; 8] = [
    [[0.0, 0.0], [1.0, 0.0], [2.0, 0.0]],
    [[1.0, 2.0], [1.0, 2.0], [1.0, 2.0]],
    [[0.0, 0.0], [1.0, 0.0], [0.0, 0.0]],
    [[0.0, 0.0], [1.0, 0.0], [-0.0, 0.0]],
    [[3.0, 1.0], [3.0, 1.0], [0.0, 1.0]],
    [[0.0, 1.0], [3.0, 1.0], [3.0, 1.0]],
    [[0.0, 0.0], [-0.0, 0.0], [0.0, -0.0]],
    [[0.0, 0.0], [5e-324, 0.0], [0.0, 0.0]],
];
const MOST_KIND: u32 = 5;
const REFERENCES: [u32; 8] = [0, 1, 2, 3, 65_534, 65_535, 65_536, u32::MAX];
/// The two points that longer paths are made of.
const TO_AND_FRO: [[[f64; 2]; 2]; 2] = [[[0.0, 0.0], [1.0, 0.0]], [[0.0, 0.0], [-0.0, 0.0]]];
const LOW_REFERENCES: [u32; 5] = [0, 1, 2, 3, 4];
/// Path points to a longer path, of which only the last may break a rule.
const LONGER: usize = 5;

/// What the slices hold before a call.
const POINT_FILL: f64 = 100.0;
const LENGTH_FILL: u32 = 0xa5a5_a5a5;
/// A vertex: a number that was not written may be taken for it.
const WORK_FILL: u32 = 1;

/// Paths to be gone through: those that begin with a mark.
#[derive(Debug, Clone, Copy)]
enum Paths {
    OfThree([[f64; 2]; 3]),
    Longer([[f64; 2]; 2]),
}

/// Calls, by what is due.
const OUTCOMES: [&str; 4] = [
    "small paths with contours",
    "small paths refused by 10",
    "small paths refused by 11",
    "small paths refused by 6",
];
type Calls = Tally<{ OUTCOMES.len() }>;

pub fn run(plan: Plan) -> bool {
    let mut starts: Vec<(Paths, [u32; 2])> = Vec::new();
    for points in POINTS {
        starts.extend(marks(&REFERENCES).map(|mark| (Paths::OfThree(points), mark)));
    }
    for points in TO_AND_FRO {
        starts.extend(marks(&LOW_REFERENCES).map(|mark| (Paths::Longer(points), mark)));
    }
    println!("small paths: from {} first marks", starts.len());
    let calls = Calls::default();
    let name = "first marks, with every small path";
    let same = run::run_numbered(plan, starts.len(), name, |number| {
        let (paths, mark) = starts[number];
        from_mark(paths, mark, &calls)
            .map_err(|e| format!("{e}\n  again: differential contours --plates 0 --seed 1"))
    });
    calls.print(OUTCOMES);
    same && tally::is_met(1, 1, calls.numbers().into_iter())
}

/// Every mark with one of the references.
fn marks(references: &[u32]) -> impl Iterator<Item = [u32; 2]> {
    (0..=MOST_KIND).flat_map(|kind| references.iter().map(move |&reference| [kind, reference]))
}

fn from_mark(paths: Paths, mark: [u32; 2], calls: &Calls) -> Result<(), String> {
    match paths {
        Paths::OfThree(points) => {
            let mut marked = Marked { path: points[0].to_vec(), marks: mark.to_vec() };
            of_three(&mut marked, &points[1..], calls)
        }
        Paths::Longer(points) => {
            for point in points {
                let mut marked = Marked { path: point.to_vec(), marks: mark.to_vec() };
                longer(&mut marked, points, calls)?;
            }
            Ok(())
        }
    }
}

/// The path, and every one that goes on with all or some of the points.
fn of_three(marked: &mut Marked, rest: &[[f64; 2]], calls: &Calls) -> Result<(), String> {
    compare(marked, calls)?;
    let Some((point, rest)) = rest.split_first() else { return Ok(()) };
    for mark in marks(&REFERENCES) {
        marked.path.extend(point);
        marked.marks.extend(mark);
        of_three(marked, rest, calls)?;
        shorten(marked);
    }
    Ok(())
}

/// The path, and every one that goes on with either of the points, if the path keeps the rules.
fn longer(marked: &mut Marked, points: [[f64; 2]; 2], calls: &Calls) -> Result<(), String> {
    let keeps_rules = compare(marked, calls)?;
    if !keeps_rules || marked.count() == LONGER {
        return Ok(());
    }
    for point in points {
        for mark in marks(&LOW_REFERENCES) {
            marked.path.extend(point);
            marked.marks.extend(mark);
            longer(marked, points, calls)?;
            shorten(marked);
        }
    }
    Ok(())
}

fn shorten(marked: &mut Marked) {
    let before = marked.path.len() - 2;
    marked.path.truncate(before);
    marked.marks.truncate(before);
}

/// Whether the path keeps the rules of marks.
fn compare(marked: &Marked, calls: &Calls) -> Result<bool, String> {
    let enough = marked.enough();
    let due = call(marked, enough, calls)?;
    if let Some(Picture { points, lengths }) = due.picture() {
        let exact = Room { points: points.len(), lengths: lengths.len(), ..enough };
        for room in [
            exact,
            Room { points: exact.points - 1, ..exact },
            Room { lengths: exact.lengths - 1, ..exact },
        ] {
            call(marked, room, calls)?;
        }
    }
    Ok(!matches!(due, Due::Inconsistent(_)))
}

fn call(marked: &Marked, room: Room, calls: &Calls) -> Result<Due, String> {
    let due = marked.due(room);
    let (mut points, mut lengths) = ([POINT_FILL; 2 * LONGER], [LENGTH_FILL; LONGER]);
    let mut work = [WORK_FILL; 4 * LONGER];
    let is = c::contours(
        &marked.path,
        &marked.marks,
        &mut points[..room.points],
        &mut lengths[..room.lengths],
        &mut work[..room.work],
    );
    let numbers = (is.number, is.place, is.points, is.contours);
    let none = Picture::default();
    let written = due.picture().unwrap_or(&none);
    let (mut points_due, mut lengths_due) = ([POINT_FILL; 2 * LONGER], [LENGTH_FILL; LONGER]);
    points_due[..written.points.len()].copy_from_slice(&written.points);
    lengths_due[..written.lengths.len()].copy_from_slice(&written.lengths);
    let same = points.map(f64::to_bits) == points_due.map(f64::to_bits) && lengths == lengths_due;
    if numbers != due.numbers() || !same {
        let text = format!(
            "call, lent {room:?}: library {numbers:?}, {points:?} {lengths:?}, due {due:?}"
        );
        return Err(described(marked, &text));
    }
    calls.count(match due {
        Due::Recovered(_) => 0,
        Due::Inconsistent(_) => 1,
        Due::Missing(_) => 2,
        _ => 3,
    });
    Ok(due)
}

#[cfg(test)]
mod tests {
    use super::{Calls, Marked, POINTS, REFERENCES, marks, of_three};

    #[test]
    fn every_mark_is_there_once() {
        let all: Vec<[u32; 2]> = marks(&REFERENCES).collect();
        assert_eq!(all.len(), 6 * REFERENCES.len());
        assert!(all.is_sorted() && all.windows(2).all(|pair| pair[0] != pair[1]));
    }

    #[test]
    fn paths_of_two_points_agree() {
        let calls = Calls::default();
        for points in POINTS {
            let mut marked = Marked { path: points[0].to_vec(), marks: vec![0, 1] };
            of_three(&mut marked, &points[1..2], &calls).unwrap_or_else(|e| panic!("{e}"));
            assert_eq!(marked.marks, [0, 1]);
        }
        assert!(calls.numbers().iter().all(|&met| met > 0), "{calls:?}");
    }
}
