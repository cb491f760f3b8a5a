//! The contours call against document 02's ticket 6 as `decoder` has it: paths of the retrace call,
//! which give the contours back that they were made of, paths that draw the plate in another way,
//! damaged copies of both, and every small path with marks.
//!
//! Every call is lent slices between margins of random bits. All bits are compared afterwards: the
//! inputs stay, the outputs hold what is due and are else what they were, and so is the work slice
//! after refusals 3, 4 and 5. Every path that has contours draws them, by the check call.

use harness::random::Random;
use twillharbor::StartPointStrategy::{self, Home, Inside, Outside};
use twillharbor::{Recovered, Refusal, c, check_path, contours, contours_into};

use crate::damaged_marks::{DAMAGES, Damage, THIRDS, damaged};
use crate::decoder::{Broken, Due, Fault, HIGHEST_VERTEX, Marked, Picture, Room, Rule, WORK};
use crate::floats::hexadecimal;
use crate::layers::in_seeded_layers;
use crate::lent_slices::{self, Lent};
use crate::marked_paths::{self, Feature, features, landings};
use crate::other_paths::drawn_otherwise;
use crate::parked_points;
use crate::plates;
use crate::retrace_plates::{KINDS, Kind, plate, run_large};
use crate::rule::retrace::{BACK_STEP, CUT};
use crate::run::{self, Plan};
use crate::small_marks;
use crate::tally::{Cases, Listed, Tally, is_met};

/// How many damaged copies of each path there are.
const COPIES: usize = 8;
/// Plates to a stream of random numbers.
const CHUNK: u64 = 256;
/// Longer paths of the retrace call are left out, but of large plates.
const ROOM: usize = 3_000;
/// The retrace call has no longer paths.
const LONGEST: usize = 1_048_576;
/// The check call takes no more contours.
const MOST_CONTOURS: usize = 4_096;

/// What a run meets beside damages and rules.
#[derive(Debug, Clone, Copy, PartialEq, Eq)]
enum Case {
    OddPath,
    MarksMiscounted,
    OffThePlate,
    WorkShort,
    Inconsistent,
    Missing,
    PointsShort,
    LengthsShort,
    Recovered,
    OddPathAndOff,
    OffAndWorkShort,
    WorkShortAndInconsistent,
    InconsistentAndShort,
    MissingAndShort,
    OffAtANan,
    MissingBelowTheHighest,
    Retraced,
    RetracedHome,
    RetracedInLayers,
    Blank,
    SkippedContours,
    OtherOrder,
    Has(Feature),
    LongerRoom,
    Harmless,
    OtherContours,
    OtherVertex,
}

impl Listed for Case {
    const LIST: &'static [(Self, &'static str)] = &[
        (Self::OddPath, "3: half a path point"),
        (Self::MarksMiscounted, "3: marks not as long as the path"),
        (Self::OffThePlate, "4: off the plate"),
        (Self::WorkShort, "5: work short"),
        (Self::Inconsistent, "10: marks inconsistent"),
        (Self::Missing, "11: vertex missing"),
        (Self::PointsShort, "6: points too short"),
        (Self::LengthsShort, "6: lengths too short"),
        (Self::Recovered, "contours"),
        (Self::OddPathAndOff, "3, where a coordinate is off the plate too"),
        (Self::OffAndWorkShort, "4, where work is short too"),
        (Self::WorkShortAndInconsistent, "5, where marks are inconsistent too"),
        (Self::InconsistentAndShort, "10, where points and lengths have no room"),
        (Self::MissingAndShort, "11, where points and lengths have no room"),
        (Self::OffAtANan, "4: at a NaN"),
        (Self::MissingBelowTheHighest, "11: below vertex 65,535"),
        (Self::Retraced, "contours: of a path of the retrace call"),
        (Self::RetracedHome, "contours: of one with a parked point"),
        (Self::RetracedInLayers, "contours: of one in layers"),
        (Self::Blank, "contours: none, of no path point"),
        (Self::SkippedContours, "contours: of a plate with empty ones"),
        (Self::OtherOrder, "contours: in another order than the path enters them"),
        (Self::Has(Feature::EnteredBetween), "contours: one is entered between its ends"),
        (Self::Has(Feature::Touched), "contours: with a touch"),
        (Self::Has(Feature::Jumped), "contours: with a jump"),
        (Self::Has(Feature::SteppedBack), "contours: with a back-step"),
        (
            Self::Has(Feature::SteppedBackOverBackStep),
            "contours: with a back-step over a back-step",
        ),
        (Self::Has(Feature::OtherZero), "contours: with a touch of 0 and -0"),
        (Self::LongerRoom, "contours: slices longer than is needed"),
        (Self::Harmless, "contours: those of the path that was damaged"),
        (Self::OtherContours, "contours: others than those of the path that was damaged"),
        (Self::OtherVertex, "10: though the path draws a plate"),
    ];
}

/// A run of as many plates meets every case.
const ENOUGH: u64 = 4_000;

#[derive(Debug, Default)]
struct Met {
    cases: Cases<Case>,
    rules: Cases<Rule>,
    damages: Cases<Damage>,
    /// Where marks are inconsistent.
    thirds: Tally<{ THIRDS.len() }>,
}

impl Met {
    fn due(&self, marked: &Marked, room: Room, due: &Due) {
        let no_room = room.points == 0 && room.lengths == 0;
        let work_short = room.work < WORK * marked.count();
        match due {
            Due::OddPath => {
                let off = marked.path.iter().any(|c| c.abs() > plates::LIMIT);
                self.cases.count_if(off, Case::OddPathAndOff);
                self.cases.count(Case::OddPath);
            }
            Due::MarksMiscounted => self.cases.count(Case::MarksMiscounted),
            Due::OffThePlate(place) => {
                self.cases.count(Case::OffThePlate);
                self.cases.count_if(work_short, Case::OffAndWorkShort);
                self.cases.count_if(marked.path[*place].is_nan(), Case::OffAtANan);
            }
            Due::WorkShort => {
                let faulty = matches!(marked.contours(), Err(Fault::Inconsistent(_)));
                self.cases.count_if(faulty, Case::WorkShortAndInconsistent);
                self.cases.count(Case::WorkShort);
            }
            Due::Inconsistent(Broken { rule, place }) => {
                self.cases.count(Case::Inconsistent);
                self.cases.count_if(no_room, Case::InconsistentAndShort);
                self.rules.count(*rule);
                self.thirds.count(THIRDS.len() * place / marked.count());
            }
            Due::Missing(_) => {
                self.cases.count_if(no_room, Case::MissingAndShort);
                self.missing(marked);
            }
            Due::Full => self.full(marked, room),
            Due::Recovered(picture) => self.recovered(marked, room, picture),
        }
    }

    fn missing(&self, marked: &Marked) {
        self.cases.count(Case::Missing);
        let lands = |&[kind, vertex]: &[u32; 2]| {
            kind != CUT && kind != BACK_STEP && vertex == HIGHEST_VERTEX
        };
        let (marks, _) = marked.marks.as_chunks();
        self.cases.count_if(marks.iter().any(lands), Case::MissingBelowTheHighest);
    }

    fn full(&self, marked: &Marked, room: Room) {
        let enough = Room { work: room.work, ..marked.enough() };
        let due = marked.due(enough);
        let picture = due.picture().expect("nothing else was wrong");
        self.cases.count_if(room.points < picture.points.len(), Case::PointsShort);
        self.cases.count_if(room.lengths < picture.lengths.len(), Case::LengthsShort);
    }

    /// What a path that has contours has.
    fn recovered(&self, marked: &Marked, room: Room, picture: &Picture) {
        let (marks, _) = marked.marks.as_chunks();
        self.cases.count(Case::Recovered);
        self.cases.count_if(marks.is_empty(), Case::Blank);
        for feature in features(&marked.path, &marked.marks, &picture.lengths) {
            self.cases.count(Case::Has(feature));
        }
        let longer = room.points > picture.points.len() && room.lengths > picture.lengths.len();
        self.cases.count_if(longer && room.work > WORK * marks.len(), Case::LongerRoom);
        self.cases.count_if(!landings(marks).is_sorted(), Case::OtherOrder);
    }

    fn print(&self, plates: u64) -> bool {
        self.cases.print();
        println!("10, by the rule that is broken first:");
        self.rules.print();
        println!("10, by where that is:");
        self.thirds.print(THIRDS);
        println!("copies, by what is done to them:");
        self.damages.print();
        let numbers = self.cases.numbers().chain(self.rules.numbers());
        let numbers = numbers.chain(self.thirds.numbers()).chain(self.damages.numbers());
        is_met(plates, ENOUGH, numbers)
    }
}

/// Reads paths of the plan's plates, then every small path.
pub fn run(plan: Plan) -> bool {
    println!("contours: {} plates, seed {}", plan.pairs, plan.seed);
    let met = Met::default();
    let same = run::run_seeded(plan, CHUNK, &KINDS, "contours-plate", |kind, seed| {
        compare(kind, seed, &met)
    });
    if !same {
        return false;
    }
    let same = run_large(plan, |_, plate, random| compare_large(plate, &met, random));
    let is_met = met.print(plan.pairs);
    same && small_marks::run(plan) && is_met
}

/// Reads the paths of one plate of a run: the kind by its number, and the plate's own seed.
pub fn run_one(kind: u64, seed: u64) -> Result<bool, String> {
    let met = Met::default();
    run::run_one(kind, &KINDS, |kind| compare(kind, seed, &met))
}

fn compare(kind: Kind, seed: u64, met: &Met) -> Result<(), String> {
    let random = &mut Random::new(seed);
    let plate = in_seeded_layers(plate(kind, random), seed);
    // Vertices of this are where their bits are, and may have other numbers than the marks say.
    let other = Marked::from(drawn_otherwise(&plate, random));
    let parked = Home(parked_points::on_the_plate(&plate, &mut parked_points::seeded(seed)));
    let strategy = random.pick(&[Outside, Inside, parked]);
    if let Some(marked) = retraced(&plate, strategy, ROOM, met)? {
        given_back(&plate, &marked, met)?;
        several(&marked, met, random)?;
    }
    let drawn = other.contours();
    met.cases.count_if(matches!(drawn, Err(Fault::Inconsistent(_))), Case::OtherVertex);
    several(&other, met, random)
}

/// The retraced path alone, and a few damaged copies.
fn compare_large(plate: &plates::Plate, met: &Met, random: &mut Random) -> Result<(), String> {
    let Some(marked) = retraced(plate, Inside, LONGEST, met)? else { return Ok(()) };
    given_back(plate, &marked, met)?;
    check(&marked, marked.enough(), met, random)?;
    draws(&marked)?;
    for _ in 0..2 {
        damaged_copy(&marked, met, random)?;
    }
    Ok(())
}

/// The path with slices of several lengths, and damaged copies.
fn several(marked: &Marked, met: &Met, random: &mut Random) -> Result<(), String> {
    let picture = marked.contours().unwrap_or_default();
    let points = picture.points.len();
    let Room { work, .. } = marked.enough();
    let exact = Room { points, lengths: picture.lengths.len(), work };
    let more = [(); 3].map(|()| 1 + random.below(30) as usize);
    let (points, lengths, work) = (exact.points, exact.lengths, exact.work);
    let shorter = [
        points.checked_sub(1).map(|points| Room { points, ..exact }),
        lengths.checked_sub(1).map(|lengths| Room { lengths, ..exact }),
        work.checked_sub(1).map(|work| Room { work, ..exact }),
    ];
    let longer = [
        Room { points: points + 1, ..exact },
        Room { lengths: lengths + 1, ..exact },
        Room { work: work + 1, ..exact },
        Room { points: points + more[0], lengths: lengths + more[1], work: work + more[2] },
    ];
    for room in [exact].into_iter().chain(shorter.into_iter().flatten()).chain(longer) {
        check(marked, room, met, random)?;
    }
    draws(marked)?;
    for _ in 0..COPIES {
        damaged_copy(marked, met, random)?;
    }
    wrapped(marked, exact)
}

/// The path of the retrace call, unless it has more points than that.
fn retraced(
    plate: &plates::Plate,
    strategy: StartPointStrategy,
    most: usize,
    met: &Met,
) -> Result<Option<Marked>, String> {
    let marked = marked_paths::retraced(plate, strategy, most)?;
    if marked.is_some() {
        met.cases.count_if(matches!(strategy, Home(_)), Case::RetracedHome);
        met.cases.count_if(plate.one_layer().is_none(), Case::RetracedInLayers);
    }
    Ok(marked)
}

/// A path of the retrace call has the plate's contours that are not empty.
fn given_back(plate: &plates::Plate, marked: &Marked, met: &Met) -> Result<(), String> {
    let held = plate.lengths.iter().copied().filter(|&length| length > 0);
    let due = Picture { points: plate.points.clone(), lengths: held.collect() };
    met.cases.count(Case::Retraced);
    met.cases.count_if(due.lengths.len() < plate.lengths.len(), Case::SkippedContours);
    match marked.contours() {
        Ok(is) if same(&is, &due) => Ok(()),
        other => Err(described(
            marked,
            &format!("a path of the retrace call gives {other:?}, its plate has {due:?}"),
        )),
    }
}

fn same(one: &Picture, other: &Picture) -> bool {
    let bits = |picture: &Picture| picture.points.iter().map(|c| c.to_bits()).collect::<Vec<_>>();
    bits(one) == bits(other) && one.lengths == other.lengths
}

/// One damage, or two.
fn damaged_copy(marked: &Marked, met: &Met, random: &mut Random) -> Result<(), String> {
    let mut copy = marked.clone();
    let mut is_altered = false;
    for _ in 0..random.pick(&[1, 1, 2]) {
        let (damage, _) = random.pick(&DAMAGES);
        let third = random.below(THIRDS.len() as u64) as usize;
        if let Some(altered) = damaged(&copy, damage, third, random) {
            copy = altered;
            is_altered = true;
            met.damages.count(damage);
        }
    }
    let [is, was] = [&copy, marked].map(|marked| marked.due(marked.enough()));
    if let (true, Some(is), Some(was)) = (is_altered, is.picture(), was.picture()) {
        met.cases.count_if(same(is, was), Case::Harmless);
        met.cases.count_if(!same(is, was), Case::OtherContours);
    }
    let room = some_room(&copy, random);
    check(&copy, room, met, random)?;
    draws(&copy)?;
    wrapped(&copy, room)
}

/// Enough, or one or all short.
fn some_room(marked: &Marked, random: &mut Random) -> Room {
    let enough = marked.enough();
    let picture = marked.due(enough).picture().cloned().unwrap_or_default();
    let room = Room { points: picture.points.len(), lengths: picture.lengths.len(), ..enough };
    match random.below(12) {
        0 => Room { work: random.below(enough.work as u64 + 1) as usize, ..enough },
        1 => Room { work: enough.work.saturating_sub(1), ..room },
        2 => Room { points: room.points.saturating_sub(1), ..room },
        3 => Room { lengths: room.lengths.saturating_sub(1), ..room },
        4 | 5 => Room { points: 0, lengths: 0, ..room },
        6 => Room { points: random.below(enough.points as u64 + 1) as usize, ..room },
        7 | 8 => enough,
        _ => room,
    }
}

/// The call, lent slices of these lengths.
fn check(marked: &Marked, room: Room, met: &Met, random: &mut Random) -> Result<(), String> {
    let due = marked.due(room);
    met.due(marked, room, &due);
    let path = Lent::holding(&marked.path, random);
    let marks = Lent::holding(&marked.marks, random);
    let mut points = Lent::random(room.points, random);
    let mut lengths = Lent::random(room.lengths, random);
    let mut work = Lent::random(room.work, random);
    let is = c::contours(
        path.slice(),
        marks.slice(),
        points.slice_mut(),
        lengths.slice_mut(),
        work.slice_mut(),
    );
    let name = format!("call, lent {room:?}");
    let numbers = (is.number, is.place, is.points, is.contours);
    if numbers != due.numbers() {
        return Err(described(marked, &format!("{name}: library {numbers:?}, due {due:?}")));
    }
    let none = Picture::default();
    let written = due.picture().unwrap_or(&none);
    lent_slices::hold([
        ("path", path.altered()),
        ("marks", marks.altered()),
        ("points", points.difference_from(&written.points)),
        ("lengths", lengths.difference_from(&written.lengths)),
        ("work", work.altered_unless(due.frees_work())),
    ])
    .map_err(|wrong| described(marked, &format!("{name}: {wrong}")))
}

/// The check call accepts a path that has contours as one that draws these.
fn draws(marked: &Marked) -> Result<(), String> {
    let due = marked.due(marked.enough());
    let Some(Picture { points, lengths }) = due.picture() else { return Ok(()) };
    let outcome = check_path(points, lengths, &marked.path, &marked.marks);
    let due = if lengths.len() > MOST_CONTOURS { Err(Refusal::TooManyContours) } else { Ok(()) };
    if outcome == due {
        return Ok(());
    }
    Err(described(marked, &format!("check of the path with its contours: {outcome:?}")))
}

/// The safe interface: what is written where slices are lent, and what is given where none are.
fn wrapped(marked: &Marked, room: Room) -> Result<(), String> {
    let Marked { path, marks } = marked;
    let (mut points, mut lengths) = (vec![0.0; room.points], vec![0; room.lengths]);
    let mut work = vec![0; room.work];
    let lent = contours_into(path, marks, &mut points, &mut lengths, &mut work);
    let lent = lent.map(|Recovered { points: held, contours }| Picture {
        points: points[..2 * held as usize].to_vec(),
        lengths: lengths[..contours as usize].to_vec(),
    });
    is_due(marked, room, lent, "lent slices")?;
    let given = contours(path, marks);
    let given = given.map(|contours| Picture {
        points: contours.points().to_vec(),
        lengths: contours.lengths().to_vec(),
    });
    is_due(marked, marked.enough(), given, "lent no slices")
}

/// What the safe interface answers is what is due of slices of these lengths.
fn is_due(
    marked: &Marked,
    room: Room,
    is: Result<Picture, Refusal>,
    name: &str,
) -> Result<(), String> {
    let due = marked.due(room);
    let agrees = match (&is, due.picture()) {
        (Ok(is), Some(due)) => same(is, due),
        (Err(is), None) => (is.number(), is.place()) == due.refusal(),
        _ => false,
    };
    if agrees {
        return Ok(());
    }
    Err(described(marked, &format!("safe interface, {name}: {is:?}, due {due:?}")))
}

/// The text, with path and marks, the whole of them where that is a few lines.
pub fn described(marked: &Marked, text: &str) -> String {
    let Marked { path, marks } = marked;
    if path.len() <= 256 && marks.len() <= 256 {
        format!("{text}\n  marks {marks:?}\n  path{}", hexadecimal(path))
    } else {
        let counts = [path.len(), marks.len()];
        format!("{text}\n  path and marks of {counts:?} numbers")
    }
}

#[cfg(test)]
mod tests {
    use super::{Case, Met, compare};
    use crate::retrace_plates::KINDS;
    use crate::run::assert_every_kind_agrees;

    #[test]
    fn every_kind_agrees() {
        let met = Met::default();
        assert_every_kind_agrees(&KINDS, 10, |kind, random| compare(kind, random.bits(), &met));
        assert!(met.cases.number(Case::Recovered) > 500, "{met:?}");
    }
}
