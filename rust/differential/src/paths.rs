//! The check of paths against document 02's ticket 7 as `path_check` has it: paths of the retrace call,
//! paths that draw the plate in another way, damaged copies of both, and every small path over two
//! points.
//!
//! Every call is lent slices between margins of random bits. All bits are compared afterwards: the
//! inputs stay, and so does the work slice after every refusal but 12. The cuts of every path that
//! is accepted are together as long as the plate's contours.

use harness::random::Random;
use twillharbor::StartPointStrategy::{self, Inside, Outside};
use twillharbor::{MarkedPath, c};

use crate::decoder::Marked;
use crate::floats::hexadecimal;
use crate::lent_slices::{self, Lent};
use crate::marked_paths::{Feature, features, landings, retraced};
use crate::other_paths::{DAMAGES, damaged, drawn_otherwise};
use crate::path_check::{Broken, Due, Handed, Rule};
use crate::plates::{Plate, damaged_somehow};
use crate::retrace_plates::{KINDS, Kind, plate};
use crate::rule::retrace::{BACK_STEP, CUT};
use crate::run::{self, Plan};
use crate::tally::{self, Cases, Listed, Tally, is_met};

/// How many damaged copies of each path are checked.
const COPIES: usize = 8;
/// Plates to a stream of random numbers.
const CHUNK: u64 = 256;
/// Longer paths of the retrace call are not checked here: the retrace run checks them.
const ROOM: usize = 3_000;

/// What a run meets beside the rules.
#[derive(Debug, Clone, Copy, PartialEq, Eq)]
enum Case {
    TooManyContours,
    TooManyPoints,
    Miscounted,
    OffThePlate,
    OddPath,
    MarksMiscounted,
    WorkShort,
    OddPathAndShort,
    Accepted,
    Blank,
    Retraced,
    OtherOrder,
    Has(Feature),
    OtherVertexOfTheseBits,
    HarmlessDamage,
    NanInThePath,
    LongerWork,
}

impl Listed for Case {
    const LIST: &'static [(Self, &'static str)] = &[
        (Self::TooManyContours, "1: too many contours"),
        (Self::TooManyPoints, "2: too many points"),
        (Self::Miscounted, "3: of the plate"),
        (Self::OffThePlate, "4: off the plate"),
        (Self::OddPath, "3: half a path point"),
        (Self::MarksMiscounted, "3: marks not as long as the path"),
        (Self::WorkShort, "5: work short"),
        (Self::OddPathAndShort, "3: of the path, where work is short too"),
        (Self::Accepted, "accepted"),
        (Self::Blank, "accepted: a blank plate"),
        (Self::Retraced, "accepted: paths of the retrace call"),
        (Self::OtherOrder, "accepted: contours in another order than theirs and the call's"),
        (Self::Has(Feature::EnteredBetween), "accepted: a contour entered between its ends"),
        (Self::Has(Feature::Touched), "accepted: with a touch"),
        (Self::Has(Feature::Jumped), "accepted: with a jump"),
        (Self::Has(Feature::SteppedBack), "accepted: with a back-step"),
        (
            Self::Has(Feature::SteppedBackOverBackStep),
            "accepted: with a back-step over a back-step",
        ),
        (Self::Has(Feature::OtherZero), "accepted: with a touch of 0 and -0"),
        (Self::OtherVertexOfTheseBits, "accepted: a cut from another vertex that has the bits"),
        (Self::HarmlessDamage, "accepted: though damaged"),
        (Self::NanInThePath, "12: at a NaN"),
        (Self::LongerWork, "accepted: with more work than is needed"),
    ];
}

/// A run of as many plates meets every case.
const ENOUGH: u64 = 2_000;

#[derive(Debug, Default)]
struct Met {
    cases: Cases<Case>,
    rules: Cases<Rule>,
}

impl Met {
    fn due(&self, handed: &Handed, work: usize, due: Due) {
        let case = match due {
            Due::Accepted => Case::Accepted,
            Due::Plate(1, _) => Case::TooManyContours,
            Due::Plate(2, _) => Case::TooManyPoints,
            Due::Plate(3, _) => Case::Miscounted,
            Due::Plate(..) => Case::OffThePlate,
            Due::OddPath => Case::OddPath,
            Due::MarksMiscounted => Case::MarksMiscounted,
            Due::WorkShort => Case::WorkShort,
            Due::NotDrawn(Broken { rule, place }) => {
                self.rules.count(rule);
                let at = handed.path.get(2 * place..2 * place + 2);
                let is_nan = at.is_some_and(|point| point.iter().any(|c| c.is_nan()));
                self.cases.count_if(is_nan, Case::NanInThePath);
                return;
            }
        };
        self.cases.count(case);
        let short = due == Due::OddPath && work < handed.work();
        self.cases.count_if(short, Case::OddPathAndShort);
        if due == Due::Accepted {
            self.accepted(handed, work);
        }
    }

    /// What an accepted path has.
    fn accepted(&self, handed: &Handed, work: usize) {
        let (marks, _) = handed.marks.as_chunks();
        self.cases.count_if(handed.points.is_empty(), Case::Blank);
        for feature in features(&handed.path, &handed.marks, &handed.lengths) {
            self.cases.count(Case::Has(feature));
        }
        self.cases.count_if(work > handed.work(), Case::LongerWork);
        self.cases.count_if(has_other_vertex(marks), Case::OtherVertexOfTheseBits);
    }

    fn print(&self, plates: u64) -> bool {
        self.cases.print();
        println!("12, by the rule that is broken first:");
        self.rules.print();
        let numbers = self.cases.numbers().chain(self.rules.numbers());
        is_met(plates, ENOUGH, numbers)
    }
}

/// Whether a cut leaves a point that is there by another vertex than an end of its segment.
fn has_other_vertex(marks: &[[u32; 2]]) -> bool {
    let mut vertices: Vec<u32> = Vec::with_capacity(marks.len());
    for &[kind, reference] in marks {
        let vertex = match (kind, vertices.last()) {
            (CUT, Some(&before)) if before == reference => reference + 1,
            (CUT, Some(&before)) if before == reference + 1 => reference,
            (CUT, _) => return true,
            (BACK_STEP, _) => vertices[reference as usize],
            _ => reference,
        };
        vertices.push(vertex);
    }
    false
}

/// Checks paths of the plan's plates, then every small path.
pub fn run(plan: Plan) -> bool {
    println!("paths: {} plates, seed {}", plan.pairs, plan.seed);
    let met = Met::default();
    let same =
        run::run_seeded(plan, CHUNK, &KINDS, "paths-plate", |kind, seed| compare(kind, seed, &met));
    if !same {
        return false;
    }
    let is_met = met.print(plan.pairs);
    let small = small_plates();
    println!("small paths: of {} plates", small.len());
    let calls = Tally::<2>::default();
    let name = "plates of up to 3 points, with every small path";
    let same = run::run_numbered(plan, small.len(), name, |number| {
        every_path(&small[number], &calls)
            .map_err(|e| format!("{e}\n  again: differential paths --plates 0 --seed 1"))
    });
    calls.print(["small paths refused", "small paths accepted"]);
    is_met && same && tally::is_met(1, 1, calls.numbers().into_iter())
}

/// Checks the paths of one plate of a run: the kind by its number, and the plate's own seed.
pub fn run_one(kind: u64, seed: u64) -> Result<bool, String> {
    let met = Met::default();
    run::run_one(kind, &KINDS, |kind| compare(kind, seed, &met))
}

fn compare(kind: Kind, seed: u64, met: &Met) -> Result<(), String> {
    let random = &mut Random::new(seed);
    let plate = plate(kind, random);
    let retraced = retraced_in_one_layer(&plate, random.pick(&[Outside, Inside]))?;
    let other = drawn_otherwise(&plate, random);
    if let Some(retraced) = &retraced {
        if retraced.draws().is_err() {
            return Err(described(retraced, "the retrace call's path does not draw the plate"));
        }
        met.cases.count(Case::Retraced);
    }
    if other.draws().is_err() {
        return Err(described(&other, "a path that was to draw the plate does not"));
    }
    if let Some(retraced) = &retraced {
        let orders = [entries(retraced), entries(&other)];
        let in_order = orders[1].is_sorted();
        met.cases.count_if(orders[0] != orders[1] && !in_order, Case::OtherOrder);
    }
    for handed in retraced.iter().chain([&other]) {
        for work in [handed.work(), handed.work() + 1 + random.below(30) as usize] {
            check(handed, work, met, random)?;
        }
        if let Some(short) = handed.work().checked_sub(1) {
            check(handed, short, met, random)?;
        }
        for _ in 0..COPIES {
            damaged_copy(handed, met, random)?;
        }
        wrapped(handed)?;
    }
    refused(&plate, &other, met, random)
}

/// The path of the retrace call without layers, of which the check call knows nothing, unless it is
/// long.
fn retraced_in_one_layer(
    plate: &Plate,
    strategy: StartPointStrategy,
) -> Result<Option<Handed>, String> {
    let (points, lengths) = (plate.points.clone(), plate.lengths.clone());
    let plate = Plate::new(points, lengths, plate.size);
    let Some(Marked { path, marks }) = retraced(&plate, strategy, ROOM)? else {
        return Ok(None);
    };
    let Plate { points, lengths, .. } = plate;
    Ok(Some(Handed { points, lengths, path, marks }))
}

/// The first vertices of the contours, as they are entered.
fn entries(handed: &Handed) -> Vec<u32> {
    let (marks, _) = handed.marks.as_chunks();
    let mut firsts = vec![0];
    for &length in handed.lengths.iter().filter(|&&length| length > 0) {
        firsts.push(firsts[firsts.len() - 1] + length);
    }
    let first_of = |vertex| firsts[firsts.partition_point(|&first| first <= vertex) - 1];
    landings(marks).into_iter().map(first_of).collect()
}

/// One damage, or two.
fn damaged_copy(handed: &Handed, met: &Met, random: &mut Random) -> Result<(), String> {
    let mut copy = handed.clone();
    for _ in 0..random.pick(&[1, 1, 1, 2]) {
        let (damage, _) = random.pick(&DAMAGES);
        copy = damaged(&copy, damage, random);
    }
    let work = match random.below(8) {
        0 => random.below(handed.work() as u64 + 1) as usize,
        1 => handed.work() + 1,
        _ => handed.work(),
    };
    let is_altered =
        copy.path.iter().map(|c| c.to_bits()).ne(handed.path.iter().map(|c| c.to_bits()))
            || copy.marks != handed.marks;
    met.cases.count_if(is_altered && copy.due(work) == Due::Accepted, Case::HarmlessDamage);
    check(&copy, work, met, random)?;
    wrapped(&copy)
}

/// Damaged plates, with slices of any length.
fn refused(plate: &Plate, drawn: &Handed, met: &Met, random: &mut Random) -> Result<(), String> {
    for _ in 0..2 {
        let Plate { points, lengths, .. } = damaged_somehow(plate, random);
        let mut handed = Handed { points, lengths, ..drawn.clone() };
        if random.one_in(2) {
            handed = damaged(&handed, random.pick(&DAMAGES).0, random);
        }
        // A few contours may be said to have far more points than there are.
        let work = if random.one_in(2) { random.below(40) as usize } else { drawn.work() };
        check(&handed, work, met, random)?;
        wrapped(&handed)?;
    }
    Ok(())
}

/// The call, lent a work slice of that length.
fn check(handed: &Handed, work: usize, met: &Met, random: &mut Random) -> Result<(), String> {
    let due = handed.due(work);
    met.due(handed, work, due);
    let points = Lent::holding(&handed.points, random);
    let lengths = Lent::holding(&handed.lengths, random);
    let path = Lent::holding(&handed.path, random);
    let marks = Lent::holding(&handed.marks, random);
    let mut lent = Lent::random(work, random);
    let is = c::check_path(
        points.slice(),
        lengths.slice(),
        path.slice(),
        marks.slice(),
        lent.slice_mut(),
    );
    let name = format!("call, lent work of {work}");
    if (is.number, is.place) != due.numbers() {
        return Err(described(
            handed,
            &format!("{name}: library {:?}, due {due:?}", (is.number, is.place)),
        ));
    }
    let is_free = is.number == 0 || is.number == 12;
    lent_slices::hold([
        ("points", points.altered()),
        ("lengths", lengths.altered()),
        ("path", path.altered()),
        ("marks", marks.altered()),
        ("work", lent.altered_unless(is_free)),
    ])
    .map_err(|wrong| described(handed, &format!("{name}: {wrong}")))
}

/// The safe interface, where it allocates the work slice itself.
fn wrapped(handed: &Handed) -> Result<(), String> {
    let Handed { points, lengths, path, marks } = handed;
    let is = match twillharbor::check_path(points, lengths, path, marks) {
        Ok(()) => (0, 0),
        Err(refusal) => (refusal.number(), refusal.place()),
    };
    let due = handed.due(usize::MAX);
    if is != due.numbers() {
        return Err(described(handed, &format!("safe interface: {is:?}, due {due:?}")));
    }
    if due == Due::Accepted { as_long(handed) } else { Ok(()) }
}

/// Whether the cuts are together as long as the contours.
fn as_long(handed: &Handed) -> Result<(), String> {
    let Handed { points, lengths, path, marks } = handed;
    let path = MarkedPath::of(path, marks).and_then(|path| path.lengths());
    let along = path.map(|lengths| lengths.cuts);
    let contours = twillharbor::Plate::new(points, lengths).contour_lengths();
    let by_contour = contours.map(|lengths| lengths.iter().sum());
    if along == by_contour.ok() && along.is_some() {
        return Ok(());
    }
    Err(described(handed, &format!("cuts of {along:?} 1,024ths, contours of {by_contour:?}")))
}

/// The text, with plate and path, the whole of them where that is a few lines.
fn described(handed: &Handed, text: &str) -> String {
    let Handed { points, lengths, path, marks } = handed;
    if points.len() <= 128 && lengths.len() <= 64 && path.len() <= 256 {
        let (points, path) = (hexadecimal(points), hexadecimal(path));
        format!("{text}\n  lengths {lengths:?}\n  points{points}\n  marks {marks:?}\n  path{path}")
    } else {
        let counts = [points.len(), lengths.len(), path.len(), marks.len()];
        format!("{text}\n  points, lengths, path and marks of {counts:?} numbers")
    }
}

/// The two points that small plates and their paths are made of.
const GRIDS: [[[f64; 2]; 2]; 2] = [[[0.0, 0.0], [1.0, 0.0]], [[0.0, 0.0], [-0.0, 0.0]]];
/// Path points to a path of which any may break a rule.
const ANY: usize = 3;
/// Path points to a path of which only the last may.
const SOUND_BUT_LAST: usize = 8;
const MOST_KIND: u32 = 5;
const MOST_REFERENCE: u32 = 4;

/// A plate of up to 3 points, and the points of its paths.
#[derive(Debug, Clone)]
struct Small {
    grid: [[f64; 2]; 2],
    points: Vec<f64>,
    lengths: Vec<u32>,
}

/// Every plate of up to 3 points on each grid, in every split into contours, and with a skipped
/// contour before the last.
fn small_plates() -> Vec<Small> {
    let mut plates = Vec::new();
    for grid in GRIDS {
        for count in 0..4_u32 {
            let splits = 1 << count.saturating_sub(1);
            for (which, split) in (0..1 << count).flat_map(|w| (0..splits).map(move |s| (w, s))) {
                let points = (0..count).flat_map(|i| grid[which >> i & 1]).collect();
                let mut lengths = vec![u32::from(count > 0)];
                for i in 1..count {
                    if split >> (i - 1) & 1 == 1 {
                        lengths.push(1);
                    } else {
                        *lengths.last_mut().expect("there is a first") += 1;
                    }
                }
                lengths.insert(lengths.len() - 1, 0);
                plates.push(Small { grid, points, lengths });
            }
        }
    }
    plates
}

/// Checks every path of up to [`ANY`] points, and every path of up to [`SOUND_BUT_LAST`] points of
/// which only the last may break a rule.
fn every_path(plate: &Small, calls: &Tally<2>) -> Result<(), String> {
    let Small { points, lengths, .. } = plate.clone();
    let mut handed = Handed { points, lengths, path: Vec::new(), marks: Vec::new() };
    let mut work = vec![0; handed.work()];
    small_path(&mut handed, plate.grid, &mut work, calls)
}

fn small_path(
    handed: &mut Handed,
    grid: [[f64; 2]; 2],
    work: &mut [u32],
    calls: &Tally<2>,
) -> Result<(), String> {
    let drawn = handed.draws();
    let due = match drawn {
        Ok(()) => Due::Accepted,
        Err(broken) => Due::NotDrawn(broken),
    };
    let Handed { points, lengths, path, marks } = &*handed;
    let is = c::check_path(points, lengths, path, marks, work);
    calls.count(usize::from(due == Due::Accepted));
    if (is.number, is.place) != due.numbers() {
        let text = format!("call: library {:?}, due {due:?}", (is.number, is.place));
        return Err(described(handed, &text));
    }
    let count = path.len() / 2;
    let is_sound = drawn.is_ok() || drawn.is_err_and(|broken| broken.place == count);
    if count >= SOUND_BUT_LAST || count >= ANY && !is_sound {
        return Ok(());
    }
    for point in grid {
        for kind in 0..=MOST_KIND {
            for reference in 0..=MOST_REFERENCE {
                handed.path.extend(point);
                handed.marks.extend([kind, reference]);
                small_path(handed, grid, work, calls)?;
                handed.path.truncate(2 * count);
                handed.marks.truncate(2 * count);
            }
        }
    }
    Ok(())
}

#[cfg(test)]
mod tests {
    use super::{Case, Met, compare, entries, has_other_vertex, small_plates};
    use crate::path_check::Handed;
    use crate::retrace_plates::KINDS;
    use crate::run::assert_every_kind_agrees;

    #[test]
    fn every_kind_agrees() {
        let met = Met::default();
        assert_every_kind_agrees(&KINDS, 10, |kind, random| compare(kind, random.bits(), &met));
        assert!(met.cases.number(Case::Accepted) > 500, "{met:?}");
    }

    #[test]
    fn small_plates_are_all_there_are() {
        // Of 0, 1, 2 and 3 points, on two grids.
        assert_eq!(small_plates().len(), 2 * (1 + 2 + 4 * 2 + 8 * 4));
        for plate in small_plates() {
            assert_eq!(plate.points.len() as u32, 2 * plate.lengths.iter().sum::<u32>());
        }
    }

    #[test]
    fn a_cut_from_another_vertex_is_seen() {
        assert!(!has_other_vertex(&[[0, 0], [1, 0], [2, 0], [3, 2], [1, 2]]));
        assert!(!has_other_vertex(&[[0, 1], [1, 0]]));
        assert!(has_other_vertex(&[[0, 2], [1, 0]]));
    }

    #[test]
    fn contours_are_told_by_their_first_vertex() {
        let handed = Handed {
            points: vec![0.0; 12],
            lengths: vec![0, 2, 0, 3, 1],
            path: Vec::new(),
            marks: vec![0, 4, 1, 3, 2, 0, 3, 5, 4, 1],
        };
        assert_eq!(entries(&handed), [2, 5, 0]);
    }
}
