//! The retrace call's answers as text: words as in the other files, the number of rows first.
//!
//! A row is, in this order:
//!
//! - twelve words: the number of coordinates, the number of contours, the number of layers, width,
//!   height, the strategy (0 for Outside, 1 for Inside and 2 for Home), the lengths of the path
//!   slice, of the marks slice, of the u32 work slice and of the f64 work slice, and the parked
//!   point's x and y, which are 0 but for Home;
//! - the coordinates; the contours' lengths; the layers;
//! - ten words: the call's number, place, points, cuts, back-steps, jumps and touches, and the
//!   lengths of the cuts, of the back-steps, and of the jumps and touches, in 1,024ths;
//! - the whole path slice as the call leaves it, where every element was [`PATH_FILL`];
//! - the whole marks slice as the call leaves it, where every element was [`MARKS_FILL`].
//!
//! A plate has at most 40 coordinates, 12 contours and 16 layers. The path slice and the marks
//! slice have at most 128 elements each, so that C is at most 64, the u32 work slice at most
//! 16,640 and the f64 work slice at most 16. What work slices hold is not in the rows: they may
//! hold anything before the call, and hold the same after a refusal but 6.
//!
//! The path is the reference's. It has no marks: these are the documents' as transcribed in
//! `rule`. A refusal and the counts are the documents' rule, the lengths the reference's distances.

use harness::random::Random;
use twillharbor::StartPointStrategy::{self, Home, Inside, Outside};
use twillharbor::{Point, Size};

use super::{
    Contours, PATH_FILL, Words, after, damaged_copy, file_of, fits, fitting_damages, home_rows,
    in_layers, length_plates, plate_of, refused_plates, told_apart, touch_plates, write_plate,
};
use crate::layers;
use crate::meeting_plates::MEETINGS;
use crate::plates::{Plate, small_plate};
use crate::reference::retrace;
use crate::retrace_plates::{KINDS, Kind, plate};
use crate::rule::{self, Refused, Retrace};

/// How many rows there are of each kind of plate but those whose contours meet.
const PLATES: usize = 2;
/// How many points the path has at most where contours meet.
const MOST_MEETING: usize = 24;
/// How many rows there are of each damage.
const DAMAGED: usize = 3;

/// What a marks slice holds before the call.
const MARKS_FILL: u32 = 0xa5a5_a5a5;

const MOST_ELEMENTS: usize = 128;
const MOST_WORK: usize = 16_640;
const MOST_DISTANCES: usize = 16;

/// A plate and the slices that are lent for it.
#[derive(Debug, Clone)]
struct Row {
    plate: Plate,
    strategy: StartPointStrategy,
    path: usize,
    marks: usize,
    work: usize,
    distances: usize,
}

/// The rows: document 01's plates A and D to G, others that separate one rule from another,
/// plates whose contours meet, plates that are refused, plates that document 02's layers decide,
/// then two of each kind of plate but those of `passed_over`, in layers, but one of each kind whose
/// contours meet, the same number of each damage, and one plate by hand on which the search passes
/// over a nearer point. Then come the rows of Home: plates that the parked point decides, and one
/// of each kind of `plates`. Last come plates by hand for their lengths, and plates that tell rules
/// apart.
pub fn retraces() -> String {
    file_of(&rows(), write_row)
}

fn rows() -> Vec<Row> {
    let random = &mut Random::new(21);
    let mut rows = marked_rows(random);
    rows.extend(touching_rows(random));
    rows.extend(refused_plates().into_iter().map(|plate| row(plate, Outside, ROOMY, random)));
    rows.extend(layered_rows(random));
    rows.extend(kind_rows(rows.len(), random));
    rows.extend(meeting_rows(random));
    rows.extend(damaged_rows(random));
    let points = points_of(&passed_over(), Inside);
    rows.push(fitted(passed_over(), Inside, 2 * points, 2 * points));
    rows.extend(home_rows(24, has_short_path, row));
    rows.extend(measured_rows());
    rows.extend(told_apart_rows());
    rows
}

/// All fit.
fn told_apart_rows() -> Vec<Row> {
    let random = &mut Random::new(27);
    let plates = told_apart::retraced().into_iter();
    plates.map(|(plate, strategy)| row(plate, strategy, 0, random)).collect()
}

/// All fit.
fn measured_rows() -> Vec<Row> {
    let random = &mut Random::new(26);
    length_plates::plates().into_iter().map(|plate| row(plate, Inside, 0, random)).collect()
}

/// Whether the plate has a path, of some points, that fits in a row.
fn has_short_path(plate: &Plate, home: Point) -> bool {
    worked_out(plate, Home(home)).is_ok_and(|due| due.whole && due.marks.len() >= 4)
}

/// The jump comes from (7.8,3.9), though (11.7,0) is nearer: it lies in the ring whose bound ends
/// the search.
fn passed_over() -> Plate {
    const LINE: &[(f64, f64)] = &[(0.0, 0.0), (7.8, 3.9), (11.7, 0.0), (65.0, 0.0)];
    plate_of(&[LINE, &[(7.8, 0.0)]], Size::default())
}

/// The lettered plates come in slices of several lengths, the first of which are just enough.
fn marked_rows(random: &mut Random) -> Vec<Row> {
    let mut rows = Vec::new();
    for (place, (plate, strategy)) in marked().into_iter().enumerate() {
        let turns = if place < LETTERED { 0..4 } else { 0..1 };
        rows.extend(turns.map(|turn| row(plate.clone(), strategy, turn, random)));
        if place == PLATE_E {
            // C = 4, by both slices, by either.
            let slices = [(8, 8), (13, 9), (9, 24)];
            rows.extend(slices.map(|(path, marks)| fitted(plate.clone(), strategy, path, marks)));
        }
    }
    rows
}

/// The row whose work is just enough for these slices.
fn fitted(plate: Plate, strategy: StartPointStrategy, path: usize, marks: usize) -> Row {
    let contours = plate.lengths.len();
    let room = rule::retrace_room(path, marks);
    let work = rule::retrace_work(room, plate.points.len() / 2, contours);
    Row { plate, strategy, path, marks, work, distances: contours }
}

/// All fit; some are cut off before a touch and after it.
fn touching_rows(random: &mut Random) -> Vec<Row> {
    let mut rows = Vec::new();
    for (place, plate) in touch_plates::plates().into_iter().enumerate() {
        rows.push(row(plate.clone(), Inside, 0, random));
        if touch_plates::CUT_OFF.contains(&place) {
            let due = worked_out(&plate, Inside).expect("it is not refused");
            let touch = due.marks.iter().position(|mark| mark[0] == rule::retrace::TOUCH);
            let before = 2 * touch.expect("its contours meet");
            rows.push(fitted(plate.clone(), Inside, before, before + 2));
            rows.push(fitted(plate, Inside, before + 3, before + 2));
        }
    }
    rows
}

fn layered_rows(random: &mut Random) -> Vec<Row> {
    let mut rows = Vec::new();
    for (place, plate) in in_layers::sound().into_iter().enumerate() {
        let strategies =
            if place < in_layers::STARTING { &[Outside, Inside][..] } else { &[Inside] };
        rows.extend(strategies.iter().map(|&strategy| row(plate.clone(), strategy, 0, random)));
    }
    let refused = in_layers::refused().into_iter().enumerate();
    rows.extend(refused.map(|(turn, plate)| row(plate, [Outside, Inside][turn % 2], turn, random)));
    rows
}

/// Plates of each kind but those whose contours meet and those that pass over a nearer point. The
/// slices come in turn over all kinds, so that each meets each.
fn kind_rows(first: usize, random: &mut Random) -> Vec<Row> {
    let of_layers = &mut Random::new(22);
    let others = |kind: Kind| !matches!(kind, Kind::Meeting(_) | Kind::PassedOver);
    let kinds = KINDS.into_iter().filter(|&(kind, _)| others(kind));
    let kinds = kinds.flat_map(|(kind, _)| [kind; PLATES]);
    let rows = kinds.enumerate().map(|(turn, kind)| {
        let strategy = random.pick(&[Outside, Inside]);
        let fits = |due: &Retrace| due.marks.len() >= 4;
        let plate = fitting_plate(kind, strategy, fits, of_layers, random);
        row(plate, strategy, first + turn, random)
    });
    rows.collect()
}

/// A plate of each kind whose contours meet: its path touches, and fits.
fn meeting_rows(random: &mut Random) -> Vec<Row> {
    let of_layers = &mut Random::new(23);
    let rows = MEETINGS.map(|(meeting, _)| {
        let strategy = random.pick(&[Outside, Inside]);
        let touches = |due: &Retrace| {
            due.marks.len() <= MOST_MEETING
                && due.marks.iter().any(|mark| mark[0] == rule::retrace::TOUCH)
        };
        let plate = fitting_plate(Kind::Meeting(meeting), strategy, touches, of_layers, random);
        row(plate, strategy, 0, random)
    });
    rows.to_vec()
}

/// A plate of the kind, in layers, that fits in a row with a path of which this holds.
fn fitting_plate(
    kind: Kind,
    strategy: StartPointStrategy,
    holds: impl Fn(&Retrace) -> bool,
    of_layers: &mut Random,
    random: &mut Random,
) -> Plate {
    loop {
        let plate = match kind {
            Kind::Of(kind) => small_plate(kind, random),
            _ => plate(kind, random),
        };
        let plate = layers::in_layers(plate, of_layers);
        if fits(&plate)
            && let Ok(due) = worked_out(&plate, strategy)
            && due.whole
            && holds(&due)
        {
            return plate;
        }
    }
}

/// The damages of the layers are among the other plates.
fn damaged_rows(random: &mut Random) -> Vec<Row> {
    let damages = fitting_damages().filter(|damage| damage.number() != rule::BAD_LAYER);
    let damages = damages.flat_map(|damage| (0..DAMAGED).map(move |turn| (damage, turn)));
    let rows = damages.map(|(damage, turn)| {
        let copy = damaged_copy(damage, random);
        row(copy, random.pick(&[Outside, Inside]), ROOMY + turn, random)
    });
    rows.collect()
}

/// The path, or as many points of it as fit in a row.
fn worked_out(plate: &Plate, strategy: StartPointStrategy) -> Result<Retrace, Refused> {
    retrace(plate, strategy, MOST_ELEMENTS / 2).expect("the rules agree")
}

/// How many points the path has: of more than fit in a row, one more than fits.
fn points_of(plate: &Plate, strategy: StartPointStrategy) -> usize {
    worked_out(plate, strategy).map_or(0, |due| due.marks.len() + usize::from(!due.whole))
}

/// The turn whose slices are longer than they need be.
const ROOMY: usize = 3;

fn row(plate: Plate, strategy: StartPointStrategy, turn: usize, random: &mut Random) -> Row {
    let count = points_of(&plate, strategy);
    let exact = 2 * count;
    let short = |by: usize| exact.saturating_sub(by);
    let more = (exact + 1 + random.below(12) as usize).min(MOST_ELEMENTS);
    let [path, marks] = match turn % 11 {
        0 | 4 | 6 => [exact, exact],
        1 => [short(2), short(2)],
        2 => [count, count],
        ROOMY | 5 => [more, more],
        7 => [exact, short(1)],
        8 => [more, count],
        9 => [short(1), more],
        _ => [random.below(2) as usize, more],
    };
    let contours = plate.lengths.len();
    let room = rule::retrace_room(path, marks);
    let work = rule::retrace_work(room, plate.points.len() / 2, contours);
    let (work, distances) = match turn % 13 {
        6 => (work - 1, contours),
        7 => (work, contours.saturating_sub(1)),
        8 => (work - 1, contours.saturating_sub(1)),
        9 => (work + random.below(8) as usize, contours + random.below(4) as usize),
        _ => (work, contours),
    };
    Row { plate, strategy, path, marks, work, distances }
}

/// How many of the marked plates have a letter, and which of them is plate E.
const LETTERED: usize = 7;
const PLATE_E: usize = 4;

fn marked() -> Vec<(Plate, StartPointStrategy)> {
    const TINY: f64 = 1.0 / 64.0;
    let plates: [(Contours, u32, u32, StartPointStrategy); 41] = [
        // A, and with contours that are skipped
        (&[], 0, 0, Outside),
        (&[&[], &[], &[]], 10, 10, Inside),
        // B, Inside: a reversed start
        (&[&[(0.0, 0.0), (4.0, 0.0)]], 10, 10, Inside),
        // D to G
        (&[&[(0.0, 0.0), (4.0, 0.0)], &[(4.0, 1.0), (8.0, 1.0)]], 8, 2, Outside),
        (&[&[(0.0, 0.0), (4.0, 0.0), (8.0, 0.0)], &[(0.0, 1.0)]], 0, 0, Inside),
        (&[&[(4.0, 0.0)], &[(0.0, 1.0), (4.0, 1.0), (8.0, 1.0)]], 8, 0, Inside),
        (&[&[(0.0, 0.0)], &[(1.0, 0.0)], &[(0.0, 1.0)]], 0, 0, Inside),
        // an equal distance wins with the higher path place
        (&[&[(0.0, 0.0)], &[(1.0, 0.0), (0.0, 1.0)]], 0, 0, Outside),
        // the search does not stop at ring 1
        (&[&[(0.0, 2.0), (3.0, 0.0)], &[(1.0, 0.0)]], 4, 0, Inside),
        // ring 2 is searched: the bound is (r - 1) × s
        (&[&[(0.0, 2.0), (2.0, 0.0), (1.0, 0.0), (3.0, 1.0)], &[(3.0, 0.0)]], 0, 0, Outside),
        // a ring whose bound equals the best is still searched
        (&[&[(0.0, 0.0), (0.24, 0.0)], &[(0.12, 0.0)]], 0, 0, Inside),
        // a ring is left though by rounded cell edges it holds a point as near and later
        (&[&[(0.071, 0.002), (0.031, 0.002)], &[(0.051, 0.002)]], 0, 0, Inside),
        // the column is by (x - origin) × (1 / s), not by (x - origin) / s
        (&[&[(0.13, 0.0), (0.29, 0.0)], &[(0.21, 0.0)]], 8, 0, Outside),
        (&[&[(-1.1, -0.0), (-6.1, -0.0), (-1.9, -0.0)], &[(-1.5, -0.0)]], 0, 0, Outside),
        // dy × dy alone is rounded before the sum
        (
            &[
                &[(6.0, 0.0), (0.1, 0.04)],
                &[(0.02, 0.0)],
                &[(0.0, 0.0), (0.06, 0.02), (0.08, 0.1), (0.08, 0.08), (0.12, 0.06), (0.04, 0.06)],
            ],
            0,
            0,
            Outside,
        ),
        // 50 cells, not 40 or 51
        (&[&[(87.0, 1.0)], &[(3.0, 1.0)], &[(89.0, 0.0)], &[(46.0, 1.0)]], 100, 0, Inside),
        // the height of the box counts where it is above the width
        (&[&[(30.0, 10.0)], &[(65.0, 63.0), (65.0, 62.0), (65.0, 62.0)]], 100, 0, Inside),
        // the last vertex is always a sample
        (&[&[(57.0, 0.0)], &[(97.0, 2.0), (96.0, 1.0)], &[(11.0, 0.0), (10.0, 0.0)]], 0, 0, Inside),
        // vertices whose total did not reach s are no samples
        (
            &[&[(9.0, 0.0), (74.0, 0.0), (11.0, 32.0)], &[(47.0, 2.0), (47.0, 1.0), (45.0, 2.0)]],
            0,
            0,
            Inside,
        ),
        // s is a fiftieth of the box, not a fortieth
        (
            &[&[(59.0, 0.0), (60.0, 1.0), (59.0, 1.0)], &[(99.0, 0.0)], &[(34.0, 0.0)]],
            100,
            0,
            Outside,
        ),
        // a total equal to s reaches it
        (
            &[
                &[(28.0, 1.0), (28.0, 2.0), (29.0, 1.0), (29.0, 1.0)],
                &[(1.0, 3.0), (33.0, 50.0)],
                &[(11.0, 2.0), (12.0, 3.0)],
                &[(40.0, 0.0)],
            ],
            50,
            0,
            Outside,
        ),
        // the total becomes its remainder by s, not 0
        (&[&[(4.0, 0.0)], &[(0.0, 1.0), (3.0, 1.0), (4.0, 1.0), (4.0, 100.0)]], 8, 0, Inside),
        // the remainder is by s, not what is left after taking s once
        (&[&[(0.0, 0.0), (0.05, 0.0), (0.06, 0.0), (0.01, 0.0)], &[(0.07, 0.0)]], 0, 0, Outside),
        // a box smaller than 1 counts as 1
        (
            &[
                &[(11.0 * TINY, 3.0 * TINY)],
                &[(14.0 * TINY, 0.0), (14.0 * TINY, TINY), (15.0 * TINY, 2.0 * TINY)],
            ],
            0,
            0,
            Inside,
        ),
        // an equal distance replaces no cache
        (&[&[(2.0, 0.0), (2.0, 0.0)], &[(6.0, 1.0)]], 8, 0, Outside),
        // caches are updated after each later contour
        (&[&[(0.0, 0.0)], &[(2.0, 0.0), (0.0, 0.0)], &[(1.0, 2.0)]], 0, 0, Outside),
        // the listed cells are those within 1, in columns and in rows, and not those within 2
        (&[&[(6.0, 1.0)], &[(44.0, 1.0)], &[(5.0, 1.0)], &[(25.0, 1.0)]], 50, 0, Inside),
        (&[&[(1.0, 75.0)], &[(1.0, 25.0)], &[(1.0, 77.0)], &[(1.0, 50.0)]], 0, 100, Inside),
        (&[&[(23.0, 3.0)], &[(22.0, 3.0), (23.0, 5.0)], &[(50.0, 2.0)]], 50, 0, Outside),
        // samples in other cells are not queried again
        (&[&[(30.0, 2.0)], &[(50.0, 0.0)], &[(27.0, 0.0), (27.0, 1.0)]], 0, 0, Outside),
        // cells around each point are listed, not only around the ends
        (
            &[&[(4.0, 0.0)], &[(1.0, 0.0)], &[(3.0, 0.0)], &[(2.0, 0.0), (1.0, 0.0), (4.0, 0.0)]],
            4,
            0,
            Outside,
        ),
        // samples are queried by cell, not by contour
        (
            &[&[(3.0, 0.0), (4.0, 0.0)], &[(4.0, 0.0), (3.0, 0.0)], &[(0.0, 0.0)], &[(4.0, 1.0)]],
            0,
            0,
            Outside,
        ),
        // cells are listed in vertex order, by rows, then columns, each from the lowest
        (&[&[(8.0, 0.0), (4.0, 0.0)], &[(1.0, 0.0)], &[(8.0, 0.0), (4.0, 0.0)]], 0, 0, Inside),
        (&[&[(27.0, 1.0)], &[(27.0, 2.0), (28.0, 1.0)], &[(0.0, 1.0)]], 0, 0, Inside),
        (&[&[(8.0, 1.0)], &[(8.0, 2.0), (7.0, 1.0)], &[(50.0, 1.0)]], 8, 0, Outside),
        (&[&[(50.0, 0.0)], &[(8.0, 0.0), (7.0, 0.0)], &[(7.0, 0.0), (8.0, 0.0)]], 8, 0, Outside),
        // within a cell from the lowest vertex
        (&[&[(0.0, 1.0), (0.0, 1.0)], &[(0.0, 2.0)], &[(34.0, 3.0)]], 0, 0, Outside),
        // the place is the fresh one, not the cached one
        (&[&[(1.0, 8.0)], &[(7.0, 0.0)], &[(7.0, 2.0)]], 0, 0, Outside),
        // a return to e of two steps, after a walk-back: its references are places of the path
        (
            &[&[(4.0, 0.0), (13.0, 0.0)], &[(0.0, 1.0), (4.0, 1.0), (8.0, 1.0), (12.0, 1.0)]],
            8,
            0,
            Inside,
        ),
        // contours that hold no point are skipped, and are no jumps
        (told_apart::SKIPPING, 0, 0, Inside),
        // 0 and -0 are as near, and each keeps its bits
        (&[&[(0.0, -0.0)], &[(-0.0, 0.0), (-0.0, -0.0)], &[(0.0, 0.0)]], 0, 0, Outside),
    ];
    let plates = plates.map(|(contours, width, height, strategy)| {
        (plate_of(contours, Size { width, height }), strategy)
    });
    plates.to_vec()
}

fn write_row(words: &mut Words, row: &Row) {
    let Row { plate, strategy, path, marks, work, distances } = row;
    let [path, marks, work, distances] = [*path, *marks, *work, *distances];
    assert!(path.max(marks) <= MOST_ELEMENTS);
    assert!(work <= MOST_WORK && distances <= MOST_DISTANCES);
    write_plate(words, plate, *strategy, &[path, marks, work, distances]);

    let due = worked_out(plate, *strategy);
    let result = due.as_ref().map_err(|&refused| refused);
    let room = rule::retrace_room(path, marks);
    let lengths = &plate.lengths;
    let (answer, written) = rule::retrace_outcome(result, lengths, room, work, distances);
    words.line(answer);
    let (path_due, marks_due): (&[_], &[_]) = match &due {
        Ok(due) => (&due.path[..written], &due.marks[..written]),
        Err(_) => (&[], &[]),
    };
    words.slice(&after(path_due.as_flattened(), path, PATH_FILL));
    words.slice(&after(marks_due.as_flattened(), marks, MARKS_FILL));
}

#[cfg(test)]
mod tests {
    use twillharbor::StartPointStrategy::Inside;
    use twillharbor::{Size, c};

    use super::super::tests::{MOST_BYTES, Read, read_plate, words};
    use super::{
        LETTERED, MARKS_FILL, MOST_DISTANCES, MOST_ELEMENTS, MOST_WORK, PATH_FILL, PLATE_E, marked,
        passed_over, retraces, worked_out,
    };
    use crate::near::{self, PassedOver};
    use crate::retrace_call::answer;
    use crate::rule::retrace::TOUCH;

    /// Reads the rows as a program without Rust would, and calls the library.
    #[test]
    fn the_library_gives_what_the_rows_record() {
        let text = retraces();
        assert!(text.len() < MOST_BYTES, "{} bytes", text.len());
        let mut words = words(&text).into_iter();
        let mut next = || words.next().expect("the row has another word");
        let rows = next();
        assert!((280..=320).contains(&rows), "{rows} rows");
        let (mut numbers, mut places, mut touching) = ([0; 14], [0; 2], [0; 3]);
        let mut of_home = [0; 14];
        for _ in 0..rows {
            let (plate, [path, marks, work, distances]) = read_plate(&mut next);
            let Read { points, lengths, layers, size: [width, height], inside, home } = plate;
            assert!(path.max(marks) <= MOST_ELEMENTS);
            assert!(work <= MOST_WORK && distances <= MOST_DISTANCES);

            let mut path = vec![PATH_FILL; path];
            let mut marks = vec![MARKS_FILL; marks];
            let (mut work, mut distances) = (vec![7; work], vec![9.0; distances]);
            let r = if let Some([x, y]) = home {
                c::retrace_home(
                    &points,
                    &lengths,
                    &layers,
                    x,
                    y,
                    &mut path,
                    &mut marks,
                    &mut work,
                    &mut distances,
                )
            } else {
                c::retrace(
                    &points,
                    &lengths,
                    &layers,
                    width,
                    height,
                    inside,
                    &mut path,
                    &mut marks,
                    &mut work,
                    &mut distances,
                )
            };
            assert_eq!(answer(r), [(); 10].map(|()| next()));
            path.iter().for_each(|&x| assert_eq!(x.to_bits(), next()));
            marks.iter().for_each(|&n| assert_eq!(u64::from(n), next()));
            if r.number != 0 && r.number != 6 {
                assert!(work.iter().all(|&n| n == 7) && distances.iter().all(|&x| x == 9.0));
            }
            numbers[r.number as usize] += 1;
            of_home[r.number as usize] += u32::from(home.is_some());
            if r.number == 5 {
                places[r.place as usize] += 1;
            }
            touching[0] += u32::from(r.touches > 0);
            touching[1] += u32::from(r.touches > 0 && r.jumps > 0);
            let last = (r.place as usize).checked_sub(1).and_then(|last| marks.get(2 * last));
            touching[2] += u32::from(r.number == 6 && last == Some(&TOUCH));
        }
        assert_eq!(words.next(), None);
        // Every number but 1 is there, several times, and both places of 5.
        assert!([0, 2, 3, 13, 4, 5, 6].iter().all(|&n| numbers[n] >= 4), "{numbers:?}");
        assert!(places.iter().all(|&rows| rows >= 4), "{places:?}");
        assert!(numbers[0] >= 60 && numbers[6] >= 25, "{numbers:?}");
        assert!(of_home[0] >= 40 && of_home[4] >= 12, "{of_home:?}");
        assert!([2, 3, 13, 5, 6].iter().all(|&number| of_home[number] > 0), "{of_home:?}");
        // Touches, touches beside jumps, and paths that are cut off after a touch.
        let [touches, beside_jumps, cut_off] = touching;
        assert!(touches >= 30 && beside_jumps >= 10 && cut_off >= 2, "{touching:?}");
    }

    #[test]
    fn plate_e_is_where_it_is_said_to_be() {
        let (e, _) = &marked()[PLATE_E];
        assert_eq!(e.points, [0.0, 0.0, 4.0, 0.0, 8.0, 0.0, 0.0, 1.0]);
        let (g, _) = &marked()[LETTERED - 1];
        assert_eq!(g.points, [0.0, 0.0, 1.0, 0.0, 0.0, 1.0]);
    }

    /// By the reference and by the library.
    #[test]
    fn a_nearer_point_is_passed_over_within_the_limit() {
        let plate = passed_over();
        let due = worked_out(&plate, Inside).unwrap();
        assert_eq!(due.marks, [[0, 0], [1, 0], [1, 1], [1, 2], [2, 2], [2, 1], [3, 4]]);
        let is = twillharbor::Plate::new(&plate.points, &plate.lengths)
            .retrace(Size::default(), Inside)
            .unwrap();
        let path: Vec<[f64; 2]> = is.points().iter().map(|p| [p.x, p.y]).collect();
        let marks: Vec<[u32; 2]> = is.marks().iter().map(|mark| mark.numbers()).collect();
        assert_eq!((&path, &marks), (&due.path, &due.marks));
        for (path, marks) in [(&due.path, &due.marks), (&path, &marks)] {
            let looked = near::check(path, marks).unwrap();
            let points = [[7.8, 3.9], [11.7, 0.0], [7.8, 0.0]];
            let nearer = PassedOver { d: 15.209999999999999, f: 15.209999999999996, points };
            assert_eq!(looked.passed_over, [nearer]);
            assert_eq!((looked.landings, looked.compared), (1, 4));
        }
    }
}
