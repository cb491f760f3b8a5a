//! The retrace call against the reference's `join_retrace`, with layers; Home against the
//! reference's Inside with the parked point for its centre.
//!
//! Every call is lent slices between margins of random bits, and all bits are compared
//! afterwards: of the answer, of inputs and outputs, and of both work slices after every
//! refusal but 6. The marks are compared with those of the documents as transcribed in `rule`,
//! the checker looks at every result, the check call accepts it, and how near its landings are is
//! checked of every path that is written, whole or cut off. Lengths are the reference's distances,
//! and those of whole numbers, pair by pair along the path; the checker's are contour by contour
//! too.

use std::sync::atomic::{AtomicU64, Ordering};

use harness::random::Random;
use twillharbor::StartPointStrategy::{self, Home, Inside, Outside};
use twillharbor::{MarkedPath, PairKind, Point, Size, c};

use crate::checker::{self, Claim, Counts, Lengths};
use crate::layers::{Met, in_seeded_layers};
use crate::lent_slices::Lent;
use crate::meeting_plates::Meeting;
use crate::near::HowNear;
use crate::parked_points;
use crate::path_lengths::Quoted;
use crate::plate_case::{Handed, numbers};
use crate::plates::{Plate, damaged_somehow};
use crate::reference::retrace;
use crate::retrace_plates::{KINDS, Kind, Large, plate, run_large};
use crate::rule::{self, Answer, NUMBERS, Retrace};
use crate::run::{self, Plan};
use crate::touches::Seen;

/// How many damaged copies of each plate are handed over, and how many with Home.
const COPIES: usize = 4;
const HOME_COPIES: usize = 2;
/// Plates to a stream of random numbers.
const CHUNK: u64 = 256;
/// C is at most this.
const MOST: usize = 1_048_576;

/// How many calls were made, by the number that is due, and what their results hold.
#[derive(Debug, Default)]
struct Tally {
    calls: [AtomicU64; CALL_NUMBERS],
    /// Path points, cuts, back-steps, jumps and touches.
    counts: [AtomicU64; 5],
    met: Met,
    parked: parked_points::Met,
    seen: Seen,
    near: HowNear,
    quoted: Quoted,
}

/// The call does not give the last of the numbers, 7.
const CALL_NUMBERS: usize = NUMBERS.len() - 1;

impl Tally {
    fn count(&self, due: &Answer) {
        let [number, _, counts @ .., _, _, _] = due;
        self.calls[rule::place_of(*number as u32)].fetch_add(1, Ordering::Relaxed);
        for (sum, &count) in self.counts.iter().zip(counts) {
            sum.fetch_add(count, Ordering::Relaxed);
        }
    }

    fn print(&self) {
        let calls = self.calls.each_ref().map(|n| n.load(Ordering::Relaxed));
        println!("calls, by the number that is due:");
        let row = |cells: &[String]| {
            println!("{}", cells.iter().map(|cell| format!("{cell:>11}")).collect::<String>());
        };
        row(&NUMBERS.map(|number| number.to_string())[..CALL_NUMBERS]);
        row(&calls.map(|calls| calls.to_string()));
        let counts = self.counts.each_ref().map(|n| n.load(Ordering::Relaxed));
        let [points, cuts, back_steps, jumps, touches] = counts;
        println!(
            "in results: {points} path points, {cuts} cuts, {back_steps} back-steps, {jumps} \
             jumps, {touches} touches"
        );
    }
}

/// Compares the plan's plates, and damaged copies of each.
pub fn run(plan: Plan) -> bool {
    println!("retrace: {} plates, seed {}", plan.pairs, plan.seed);
    let tally = Tally::default();
    let same = run::run_seeded(plan, CHUNK, &KINDS, "retrace-plate", |kind, seed| {
        compare(kind, seed, &tally)
    });
    if !same {
        return false;
    }
    let same = run_large(plan, |large, plate, random| {
        sound(&handed(plate, Inside, MOST, &tally, random)?, 2, random)?;
        if matches!(large, Large::Meeting(Meeting::Chain, _)) {
            // From some ends its path passes 1,048,576 points, whose landings take long to check.
            return Ok(());
        }
        let home = Home(parked_points::on_the_plate(plate, random));
        sound(&handed(plate, home, MOST, &tally, random)?, 2, random)
    });
    tally.print();
    let met = [
        tally.met.print(plan.pairs),
        tally.parked.print(plan.pairs),
        tally.seen.print(plan.pairs),
        tally.near.print(plan.pairs),
        tally.quoted.print(plan.pairs),
    ];
    met == [true; 5] && same
}

/// Compares one plate of a run: the kind by its number, and the plate's own seed.
pub fn run_one(kind: u64, seed: u64) -> Result<bool, String> {
    let tally = Tally::default();
    run::run_one(kind, &KINDS, |kind| {
        let outcome = compare(kind, seed, &tally);
        tally.print();
        tally.near.print(1);
        outcome
    })
}

fn compare(kind: Kind, seed: u64, tally: &Tally) -> Result<(), String> {
    let random = &mut Random::new(seed);
    let plate = in_seeded_layers(plate(kind, random), seed);
    let of_home = &mut parked_points::seeded(seed);
    let large = plate.points.len() > 1_000 || plate.lengths.len() > 50;
    let cap = cap(&plate, random);
    if large {
        let strategy = random.pick(&[Outside, Inside]);
        sound(&handed(&plate, strategy, cap, tally, random)?, 2, random)?;
    } else {
        sound(&handed(&plate, Outside, cap, tally, random)?, 6, random)?;
        let inside = handed(&plate, Inside, cap, tally, random)?;
        sound(&inside, 6, random)?;
        at_the_centre(&inside, of_home)?;
    }
    for _ in 0..COPIES {
        let copy = damaged_somehow(&plate, random);
        if !large || rule::checked(&copy, Inside).is_err() {
            refused(&copy, random.pick(&[Outside, Inside]), tally, random)?;
        }
    }
    home(&plate, large, tally, of_home)
}

/// The plate with a parked point, with one off the plate, and damaged copies with either.
fn home(plate: &Plate, large: bool, tally: &Tally, random: &mut Random) -> Result<(), String> {
    let on = parked_points::on_the_plate(plate, random);
    let off = parked_points::off_the_plate(on, random);
    let case = handed(plate, Home(on), cap(plate, random), tally, random)?;
    sound(&case, if large { 2 } else { 6 }, random)?;
    refused(plate, Home(off), tally, random)?;
    for _ in 0..HOME_COPIES {
        let copy = damaged_somehow(plate, random);
        let home = Home(random.pick(&[on, off]));
        if !large || rule::checked(&copy, home).is_err() {
            refused(&copy, home, tally, random)?;
        }
    }
    Ok(())
}

/// With the centre for its parked point the plate of a case of Inside gives what that one gives.
fn at_the_centre(inside: &Case, random: &mut Random) -> Result<(), String> {
    let plate = inside.plate;
    let (strategy, due) = inside.at_the_centre();
    inside.tally.parked.as_inside(&due);
    let points = due.as_ref().map_or(0, |due| due.marks.len());
    let case = Case::new(plate, strategy, inside.tally, Ok(due), random)?;
    for room in [points, random.below(points as u64 + 1) as usize] {
        case.retrace(case.enough(2 * room, 2 * room), random)?;
    }
    case.wrapper()
}

/// How many points of a path are compared. A few paths are exponentially long.
fn cap(plate: &Plate, random: &mut Random) -> usize {
    match random.below(2_000) {
        0 => MOST,
        1..100 => random.below(100) as usize,
        _ => 10_000 + 4 * plate.points.len(),
    }
}

/// The lengths of the slices that a call is lent.
#[derive(Debug, Clone, Copy)]
struct Slices {
    path: usize,
    marks: usize,
    work: usize,
    distances: usize,
}

impl Slices {
    fn room(self) -> usize {
        rule::retrace_room(self.path, self.marks)
    }

    /// The same with one number less of work, or of either work.
    fn short_of_work(self) -> [Self; 3] {
        let [work, distances] = [self.work - 1, self.distances.saturating_sub(1)];
        [Self { work, ..self }, Self { distances, ..self }, Self { work, distances, ..self }]
    }
}

/// The slices themselves.
struct LentSlices {
    path: Lent<f64>,
    marks: Lent<u32>,
    work: Lent<u32>,
    distances: Lent<f64>,
}

impl LentSlices {
    fn random(slices: Slices, random: &mut Random) -> Self {
        Self {
            path: Lent::random(slices.path, random),
            marks: Lent::random(slices.marks, random),
            work: Lent::random(slices.work, random),
            distances: Lent::random(slices.distances, random),
        }
    }
}

/// A plate as it is: results, and refusals 5 and 6. At most `most` calls are made beside those
/// with just enough room.
fn sound(case: &Case, most: usize, random: &mut Random) -> Result<(), String> {
    let Ok(Retrace { marks, whole, .. }) = &case.due else {
        return Err(case.described("a sound plate is refused"));
    };
    let exact = case.enough(2 * marks.len(), 2 * marks.len());
    case.retrace(exact, random)?;
    for room in around_a_touch(marks, random) {
        case.retrace(case.enough(2 * room, 2 * room), random)?;
    }
    for slices in exact.short_of_work().into_iter().take(most) {
        case.retrace(slices, random)?;
    }
    let mut rooms = rooms(marks.len(), random);
    rooms.retain(|&[path, marks_room]| {
        *whole || rule::retrace_room(path, marks_room) <= marks.len()
    });
    while rooms.len() > most {
        rooms.swap_remove(random.below(rooms.len() as u64) as usize);
    }
    for [path, marks] in rooms {
        case.retrace(case.around_enough(path, marks, random), random)?;
    }
    if !whole && marks.len() == MOST {
        // Longer slices have no more room.
        case.retrace(case.enough(2 * MOST + 9, 2 * MOST + 6), random)?;
    }
    case.wrapper()
}

/// Numbers of path points of which the last, or else the next, is a touch, and more follow.
fn around_a_touch(marks: &[[u32; 2]], random: &mut Random) -> Vec<usize> {
    let is_touch = |place: &usize| marks[*place][0] == rule::retrace::TOUCH;
    let touches: Vec<usize> = (0..marks.len()).filter(is_touch).collect();
    if touches.is_empty() {
        return Vec::new();
    }
    let touch = random.pick(&touches);
    [touch, touch + 1].into_iter().filter(|&room| room < marks.len()).collect()
}

/// Lengths of path and marks slices around those of a result of `count` points.
fn rooms(count: usize, random: &mut Random) -> Vec<[usize; 2]> {
    let exact = 2 * count;
    let [more, other] = [(); 2].map(|()| exact + 2 + random.below(40) as usize);
    let [some, any] = [(); 2].map(|()| random.below(exact as u64 + 1) as usize);
    let short = |by: usize| exact.saturating_sub(by);
    vec![
        [exact + 1, exact + 1],
        [exact, more],
        [more, exact],
        [more, other],
        [short(2), short(2)],
        [short(1), more],
        [more, short(1)],
        [short(2), exact],
        [exact, short(2)],
        [count, count],
        [count, more],
        [exact, count],
        [0, 0],
        [0, more],
        [exact, random.below(2) as usize],
        [1, 1],
        [some, any],
        [some, more],
    ]
}

/// A plate that may be refused, for one reason or for several, and any slices.
fn refused(
    plate: &Plate,
    strategy: StartPointStrategy,
    tally: &Tally,
    random: &mut Random,
) -> Result<(), String> {
    let case = handed(plate, strategy, 1_000, tally, random)?;
    for _ in 0..2 {
        let [path, marks] = [(); 2].map(|()| random.below(40) as usize);
        let slices = if case.due.is_err() && random.one_in(2) {
            let [work, distances] = [(); 2].map(|()| random.below(40) as usize);
            Slices { path, marks, work, distances }
        } else {
            case.around_enough(path, marks, random)
        };
        case.retrace(slices, random)?;
    }
    case.wrapper()
}

type Case<'a> = Handed<'a, Retrace, Tally>;

/// The plate with what is due of it, of which `cap` path points are worked out.
fn handed<'a>(
    plate: &'a Plate,
    strategy: StartPointStrategy,
    cap: usize,
    tally: &'a Tally,
    random: &mut Random,
) -> Result<Case<'a>, String> {
    let due = retrace(plate, strategy, cap);
    if let Ok(due) = &due {
        let held = due.as_ref().map(|retrace| retrace.held).map_err(|&refused| refused);
        tally.met.plate(plate, strategy, held);
        tally.parked.plate(plate, strategy, held.map(|_| ()));
    }
    if let Ok(Ok(due)) = &due {
        tally.seen.path(plate, due);
        tally.quoted.path(due);
    }
    Case::new(plate, strategy, tally, due, random)
}

impl Case<'_> {
    /// Just enough work beside output slices of these lengths.
    fn enough(&self, path: usize, marks: usize) -> Slices {
        let contours = self.plate.lengths.len();
        let room = rule::retrace_room(path, marks);
        let work = rule::retrace_work(room, self.plate.points.len() / 2, contours);
        Slices { path, marks, work, distances: contours }
    }

    /// Work slices that are mostly enough.
    fn around_enough(&self, path: usize, marks: usize, random: &mut Random) -> Slices {
        let mut slices = self.enough(path, marks);
        for length in [&mut slices.work, &mut slices.distances] {
            match random.below(16) {
                0 => *length = random.below(*length as u64 + 1) as usize,
                1 => *length = length.saturating_sub(1),
                2..5 => *length += 1 + random.below(30) as usize,
                _ => {}
            }
        }
        slices
    }

    /// The retrace call, lent slices of these lengths.
    fn retrace(&self, slices: Slices, random: &mut Random) -> Result<(), String> {
        let result = self.due.as_ref().map_err(|&refused| refused);
        let Slices { path, marks, work, distances } = slices;
        let (due, written) =
            rule::retrace_outcome(result, &self.plate.lengths, slices.room(), work, distances);
        self.tally.count(&due);
        let number = due[0] as u32;
        match (number, &self.due) {
            (rule::BAD_LAYER, _) => self.tally.met.lent(self.plate, distances, slices.room()),
            (6, Ok(due)) => self.tally.seen.full(due, written),
            _ => {}
        }
        self.tally.parked.lent(self.plate, self.strategy, number, distances, slices.room());
        let name =
            format!("call, lent slices of {path} and {marks}, and work of {work} and {distances}");
        let mut lent = LentSlices::random(slices, random);
        let is = self.called(&mut lent);
        self.same("number, place, counts and lengths", &name, &is, &due)?;
        self.left(&name, &lent, number, written)?;
        self.near(&name, &lent, written)?;
        if number != 0 {
            return Ok(());
        }
        let (path, marks) = (&lent.path.slice()[..2 * written], &lent.marks.slice()[..2 * written]);
        self.checked(path, marks, is)
            .map_err(|broken| self.described(&format!("{name}: {broken}")))?;
        self.accepted(&name, path, marks)
    }

    /// The check call takes each path that is finished.
    fn accepted(&self, name: &str, path: &[f64], marks: &[u32]) -> Result<(), String> {
        let (points, lengths) = (self.points.slice(), self.lengths.slice());
        let mut work = vec![u32::MAX; points.len() / 2 + lengths.len()];
        let is = c::check_path(points, lengths, path, marks, &mut work);
        self.same("the check call's number and place", name, &(is.number, is.place), &(0, 0))?;
        self.inputs_kept(name)
    }

    /// The library's answer.
    fn called(&self, lent: &mut LentSlices) -> Answer {
        let (points, lengths, layers) = self.inputs();
        let Size { width, height } = self.plate.size;
        let path = lent.path.slice_mut();
        let marks = lent.marks.slice_mut();
        let work = lent.work.slice_mut();
        let distances = lent.distances.slice_mut();
        let result = match self.strategy {
            Home(Point { x, y }) => {
                c::retrace_home(points, lengths, layers, x, y, path, marks, work, distances)
            }
            base => {
                let inside = base == Inside;
                c::retrace(
                    points, lengths, layers, width, height, inside, path, marks, work, distances,
                )
            }
        };
        answer(result)
    }

    /// What the call that gave this number left of all slices. That many path points are due.
    fn left(
        &self,
        name: &str,
        lent: &LentSlices,
        number: u32,
        written: usize,
    ) -> Result<(), String> {
        let LentSlices { path, marks, work, distances } = lent;
        let (path_due, marks_due): (&[_], &[_]) = match &self.due {
            Ok(due) => (&due.path[..written], &due.marks[..written]),
            Err(_) => (&[], &[]),
        };
        let is_free = number == 0 || number == 6;
        self.hold(
            name,
            [
                ("path slice", path.difference(path_due)),
                ("marks slice", marks.difference(marks_due)),
                ("work", work.altered_unless(is_free)),
                ("distances", distances.altered_unless(is_free)),
            ],
        )?;
        self.inputs_kept(name)
    }

    /// How near the landings are among the path points that the call wrote.
    fn near(&self, name: &str, lent: &LentSlices, written: usize) -> Result<(), String> {
        let (path, _) = lent.path.slice().as_chunks();
        let (marks, _) = lent.marks.slice().as_chunks();
        if written == 0 {
            return Ok(());
        }
        let near = self.tally.near.path(&path[..written], &marks[..written]);
        near.map_err(|too_far| self.described(&format!("{name}: {too_far}")))
    }

    /// What the checker says of a result.
    fn checked(&self, path: &[f64], marks: &[u32], answer: Answer) -> Result<(), checker::Broken> {
        let [_, _, points, cuts, back_steps, jumps, touches, cut, back_step, jump] = answer;
        let (path, _) = path.as_chunks();
        let (marks, _) = marks.as_chunks();
        checker::check(&Claim {
            points: &self.plate.points,
            lengths: &self.plate.lengths,
            layers: &self.plate.layers,
            path,
            marks,
            counts: Counts { points, cuts, back_steps, jumps, touches },
            sums: Lengths { cuts: cut, back_steps: back_step, jumps: jump },
        })
    }

    /// The safe interface, where it allocates the slices itself, unless the beginning of a path
    /// does not tell what it answers. It comes last: there a write beyond a slice would not
    /// show.
    fn wrapper(&self) -> Result<(), String> {
        if let Ok(due) = &self.due
            && !due.whole
            && due.marks.len() < MOST
        {
            return Ok(());
        }
        self.plates().into_iter().try_for_each(|plate| self.wrapped(plate))
    }

    fn wrapped(&self, plate: twillharbor::Plate) -> Result<(), String> {
        const NAME: &str = "safe interface";
        let outcome = plate.retrace(self.plate.size, self.strategy);
        let refused = outcome.as_ref().err().map(|&refusal| numbers(refusal));
        let due = match &self.due {
            Ok(due) if due.whole => None,
            Ok(due) => Some((6, due.marks.len() as u32)),
            Err(refused) => Some(*refused),
        };
        self.same("refusal", NAME, &refused, &due)?;
        if let (Ok(is), Ok(due)) = (outcome, &self.due) {
            self.same_path(NAME, &is, due)?;
            let contours = plate.contour_lengths().map(|lengths| lengths.iter().sum());
            self.same("lengths by contour", NAME, &contours, &Ok(due.lengths[0]))?;
        }
        self.inputs_kept(NAME)
    }

    /// Whether the safe interface gives what is due, in each of its forms.
    fn same_path(&self, name: &str, is: &MarkedPath, due: &Retrace) -> Result<(), String> {
        let bits = |path: &[[f64; 2]]| -> Vec<[u64; 2]> {
            path.iter().map(|point| point.map(f64::to_bits)).collect()
        };
        let path: Vec<[f64; 2]> = is.points().iter().map(|p| [p.x, p.y]).collect();
        self.same("path", name, &bits(&path), &bits(&due.path))?;
        let marks: Vec<[u32; 2]> = is.marks().iter().map(|mark| mark.numbers()).collect();
        self.same("marks", name, &marks, &due.marks)?;
        let twillharbor::Counts { points, cuts, back_steps, jumps, touches } = is.counts();
        let counts = [points, cuts, back_steps, jumps, touches].map(|count| count as u64);
        let room = due.marks.len();
        let ([_, _, counts_due @ .., _, _, _], _) =
            rule::retrace_outcome(Ok(due), &self.plate.lengths, room, usize::MAX, usize::MAX);
        self.same("counts", name, &counts, &counts_due)?;
        let [cuts, back_steps, jumps] = due.lengths;
        let lengths = twillharbor::Lengths { cuts, back_steps, jumps };
        self.same("lengths", name, &is.lengths(), &Some(lengths))?;
        let read = MarkedPath::of(path.as_flattened(), marks.as_flattened());
        self.same("read again", name, &read.as_ref(), &Some(is))?;
        let pairs = is.pairs().map(|pair| match pair.kind {
            PairKind::Cut { segment } => [rule::retrace::CUT, segment],
            PairKind::BackStep { reversed } => [rule::retrace::BACK_STEP, reversed],
            PairKind::Jump { vertex } => [rule::retrace::JUMP, vertex],
            PairKind::Touch { vertex } => [rule::retrace::TOUCH, vertex],
        });
        let of_pairs: Vec<[u32; 2]> = pairs.collect();
        self.same("pairs", name, &&of_pairs[..], &due.marks.get(1..).unwrap_or(&[]))?;
        let ends: Vec<[f64; 2]> = is.pairs().map(|pair| [pair.to.x, pair.to.y]).collect();
        self.same("pairs", name, &bits(&ends), &bits(due.path.get(1..).unwrap_or(&[])))?;
        let starts: Vec<[f64; 2]> = is.pairs().map(|p| [p.from.x, p.from.y]).collect();
        let but_last = &due.path[..due.path.len().saturating_sub(1)];
        self.same("pairs", name, &bits(&starts), &bits(but_last))?;
        let start = is.start().map(|(point, vertex)| ([point.x, point.y], vertex));
        let first = due.path.first().zip(due.marks.first());
        self.same("start", name, &start, &first.map(|(point, mark)| (*point, mark[1])))
    }
}

/// The numbers of a result or refusal.
pub fn answer(r: c::RetraceResult) -> Answer {
    let numbers = [r.number, r.place, r.points, r.cuts, r.back_steps, r.jumps, r.touches];
    let lengths = [r.cut_length, r.back_step_length, r.jump_length];
    let mut answer = [0; 10];
    answer[..7].copy_from_slice(&numbers.map(u64::from));
    answer[7..].copy_from_slice(&lengths);
    answer
}

#[cfg(test)]
mod tests {
    use std::sync::atomic::Ordering;

    use harness::random::Random;
    use twillharbor::Size;
    use twillharbor::StartPointStrategy::Inside;

    use super::{MOST, Tally, compare, handed};
    use crate::checker::{self, Claim, Counts, Lengths};
    use crate::meeting_plates::{self, MEETINGS};
    use crate::plates::Plate;
    use crate::reference::retrace;
    use crate::retrace_plates::KINDS;
    use crate::rule::Retrace;
    use crate::run::assert_every_kind_agrees;

    #[test]
    fn every_kind_agrees_and_every_refusal_is_due() {
        let tally = Tally::default();
        assert_every_kind_agrees(&KINDS, 5, |kind, random| compare(kind, random.bits(), &tally));
        for (number, calls) in tally.calls.iter().enumerate() {
            let calls = calls.load(Ordering::Relaxed);
            assert!(calls > 50, "{calls} calls, where {number} is due");
        }
    }

    #[test]
    fn how_near_is_checked_of_results_and_of_paths_that_are_cut_off() {
        // Plate G, with two jumps; the second comes last.
        let points = [[0.0, 0.0], [1.0, 0.0], [0.0, 1.0]].concat();
        let plate = Plate::new(points, vec![1; 3], Size::default());
        let (random, tally) = (&mut Random::new(2), Tally::default());
        let case = handed(&plate, Inside, MOST, &tally, random).unwrap();
        let mut looked_at = |slices| {
            let [before, ..] = tally.near.numbers();
            case.retrace(slices, random).unwrap();
            let [after, ..] = tally.near.numbers();
            after - before
        };
        let exact = case.enough(8, 8);
        assert_eq!([exact, case.enough(20, 9)].map(&mut looked_at), [2, 2]);
        assert_eq!([6, 4, 2, 0].map(|room| looked_at(case.enough(room, room))), [1, 1, 0, 0]);
        assert_eq!(exact.short_of_work().map(looked_at), [0; 3]);
    }

    /// What the checker says of a path with these marks, correctly counted.
    fn checked(plate: &Plate, due: &Retrace, marks: &[[u32; 2]]) -> Result<(), checker::Broken> {
        let marked = |of| marks.iter().filter(|[kind, _]| *kind == of).count() as u64;
        let [cuts, back_steps, jumps, touches] = [1, 2, 3, 4].map(marked);
        let counts = Counts { points: marks.len() as u64, cuts, back_steps, jumps, touches };
        let [cut, back_step, jump] = due.lengths;
        let sums = Lengths { cuts: cut, back_steps: back_step, jumps: jump };
        let Plate { points, lengths, layers, .. } = plate;
        checker::check(&Claim { points, lengths, layers, path: &due.path, marks, counts, sums })
    }

    /// Each mark of the path is changed to each other kind, and the checker refuses that: a touch
    /// that becomes a jump, or a jump that becomes a touch, by its own rule and in its place. How
    /// many there were of these.
    fn exchanged(plate: &Plate, due: &Retrace) -> [u32; 2] {
        let mut exchanged = [0; 2];
        let changes = (0..due.marks.len()).flat_map(|place| (0..6).map(move |to| (place, to)));
        for (place, kind) in changes.filter(|&(place, kind)| kind != due.marks[place][0]) {
            let mut marks = due.marks.clone();
            marks[place][0] = kind;
            let broken = checked(plate, due, &marks).expect_err("it passed");
            let (which, rule) = match (due.marks[place][0], kind) {
                (4, 3) => (0, checker::Rule::JumpLeavesAnother),
                (3, 4) => (1, checker::Rule::TouchLeavesAnEqual),
                _ => continue,
            };
            assert_eq!((broken.rule, broken.place), (rule, place));
            exchanged[which] += 1;
        }
        exchanged
    }

    #[test]
    fn the_checker_refuses_another_kind_of_any_mark() {
        let mut random = Random::new(3);
        let mut sums = [0; 2];
        for meeting in MEETINGS.into_iter().flat_map(|(meeting, _)| [meeting; 20]) {
            let plate = meeting_plates::plate(meeting, &mut random);
            let due = retrace(&plate, Inside, 120).unwrap().unwrap();
            if due.whole {
                assert_eq!(checked(&plate, &due, &due.marks), Ok(()));
                let [to_jumps, to_touches] = exchanged(&plate, &due);
                sums = [sums[0] + to_jumps, sums[1] + to_touches];
            }
        }
        assert!(sums.iter().all(|&entries| entries > 200), "{sums:?}");
    }
}
