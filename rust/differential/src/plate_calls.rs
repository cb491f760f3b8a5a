//! The start, order and straight calls against the reference's `choose_start_contour`,
//! `optimize_path_order` and `join_straight_line`, with layers; Home against the reference's Inside
//! with the parked point for its centre.
//!
//! Every call is lent slices between margins of random bits, and all bits are compared
//! afterwards: of the answer, of inputs and outputs, and of the work slice after every
//! refusal but 6.

use std::sync::atomic::{AtomicU64, Ordering};

use harness::random::Random;
use twillharbor::StartPointStrategy::{self, Home, Inside, Outside};
use twillharbor::{Point, Size, c};

use crate::layers::{Met, in_seeded_layers};
use crate::lent_slices::{Lent, Number};
use crate::parked_points;
use crate::plate_case::{Handed, numbers};
use crate::plates::{KINDS, Kind, Plate, damaged_somehow, plate};
use crate::reference::{Results, results};
use crate::rule::{self, NUMBERS, Refused};
use crate::run::{self, Plan};

/// How many damaged copies of each plate are handed over, and how many with Home.
const COPIES: usize = 4;
const HOME_COPIES: usize = 2;

#[derive(Debug, Clone, Copy)]
enum Call {
    Start,
    Order,
    Straight,
}

/// How many calls were made, by the number that is due.
#[derive(Debug, Default)]
struct Tally {
    start: [AtomicU64; NUMBERS.len()],
    order: [AtomicU64; NUMBERS.len()],
    straight: [AtomicU64; NUMBERS.len()],
    met: Met,
    parked: parked_points::Met,
}

impl Tally {
    fn count(&self, call: Call, number: u32) {
        let numbers = match call {
            Call::Start => &self.start,
            Call::Order => &self.order,
            Call::Straight => &self.straight,
        };
        numbers[rule::place_of(number)].fetch_add(1, Ordering::Relaxed);
    }

    fn print(&self) {
        let row = |name: &str, cells: [String; NUMBERS.len()]| {
            println!("{name:>10}{}", cells.map(|cell| format!("{cell:>11}")).concat());
        };
        println!("calls, by the number that is due:");
        row("", NUMBERS.map(|number| number.to_string()));
        for (name, numbers) in
            [("start", &self.start), ("order", &self.order), ("straight", &self.straight)]
        {
            row(name, numbers.each_ref().map(|n| n.load(Ordering::Relaxed).to_string()));
        }
    }
}

/// Compares the plan's plates, and damaged copies of each.
pub fn run(plan: Plan) -> bool {
    println!("plates: {} plates, seed {}", plan.pairs, plan.seed);
    let tally = Tally::default();
    let same = run::run_seeded(plan, run::CHUNK, &KINDS, "plate", |kind, seed| {
        compare(kind, seed, &tally)
    });
    tally.print();
    let met = [tally.met.print(plan.pairs), tally.parked.print(plan.pairs)];
    met == [true; 2] && same
}

/// Compares one plate of a run: the kind by its number, and the plate's own seed.
pub fn run_one(kind: u64, seed: u64) -> Result<bool, String> {
    let tally = Tally::default();
    run::run_one(kind, &KINDS, |kind| {
        let outcome = compare(kind, seed, &tally);
        tally.print();
        outcome
    })
}

fn compare(kind: Kind, seed: u64, tally: &Tally) -> Result<(), String> {
    let random = &mut Random::new(seed);
    let plate = in_seeded_layers(plate(kind, random), seed);
    let of_home = &mut parked_points::seeded(seed);
    let most = if plate.points.len() > 1_000 || plate.lengths.len() > 50 {
        let case = handed(&plate, random.pick(&[Outside, Inside]), tally, random)?;
        sound(&case, 2, random)?;
        2
    } else {
        let most = usize::MAX;
        sound(&handed(&plate, Outside, tally, random)?, most, random)?;
        let inside = handed(&plate, Inside, tally, random)?;
        sound(&inside, most, random)?;
        at_the_centre(&inside, of_home)?;
        most
    };
    for _ in 0..COPIES {
        let copy = damaged_somehow(&plate, random);
        refused(&copy, random.pick(&[Outside, Inside]), tally, random)?;
    }
    home(&plate, tally, most, of_home)
}

/// The plate with a parked point, with one off the plate, and damaged copies with either.
fn home(plate: &Plate, tally: &Tally, most: usize, random: &mut Random) -> Result<(), String> {
    let on = parked_points::on_the_plate(plate, random);
    let off = parked_points::off_the_plate(on, random);
    sound(&handed(plate, Home(on), tally, random)?, most, random)?;
    refused(plate, Home(off), tally, random)?;
    for _ in 0..HOME_COPIES {
        let copy = damaged_somehow(plate, random);
        refused(&copy, Home(random.pick(&[on, off])), tally, random)?;
    }
    Ok(())
}

/// With the centre for its parked point the plate of a case of Inside gives what that one gives.
fn at_the_centre(inside: &Case, random: &mut Random) -> Result<(), String> {
    let plate = inside.plate;
    let (strategy, due) = inside.at_the_centre();
    inside.tally.parked.as_inside(&due);
    let case = Case::new(plate, strategy, inside.tally, Ok(due), random)?;
    case.start()?;
    let contours = plate.lengths.len();
    for count in [contours, random.below(contours as u64 + 1) as usize] {
        case.order(2 * count, contours, random)?;
    }
    let points = plate.points.len() / 2;
    for count in [points, random.below(points as u64 + 1) as usize] {
        case.straight(2 * count, contours, random)?;
    }
    case.wrapper()
}

/// A plate as it is: results, and refusals 5, 6 and 7. At most `most` calls of order and of
/// straight are made beside those with just enough room.
fn sound(case: &Case, most: usize, random: &mut Random) -> Result<(), String> {
    let plate = case.plate;
    let contours = plate.lengths.len();
    let entries = plate.lengths.iter().filter(|&&length| length > 0).count();
    let points = plate.points.len() / 2;
    case.start()?;
    for work in [contours, contours.saturating_sub(1)] {
        case.order(2 * entries, work, random)?;
        case.straight(2 * points, work, random)?;
    }
    for room in rooms(entries, most, random) {
        case.order(room, work(contours, random), random)?;
    }
    for room in rooms(points, most, random) {
        case.straight(room, work(contours, random), random)?;
    }
    case.wrapper()
}

/// Lengths of an output slice around that of a result of `count` pairs.
fn rooms(count: usize, most: usize, random: &mut Random) -> Vec<usize> {
    let exact = 2 * count;
    let mut rooms = vec![
        exact + 1,
        exact.saturating_sub(1),
        exact.saturating_sub(2),
        count,
        0,
        1,
        exact + 2 + random.below(40) as usize,
        random.below(exact as u64 + 1) as usize,
    ];
    while rooms.len() > most {
        rooms.swap_remove(random.below(rooms.len() as u64) as usize);
    }
    rooms
}

/// The length of a work slice: mostly enough.
fn work(contours: usize, random: &mut Random) -> usize {
    match random.below(8) {
        0 => random.below(contours as u64 + 1) as usize,
        1 => contours.saturating_sub(1),
        2 | 3 => contours + 1 + random.below(30) as usize,
        _ => contours,
    }
}

/// A plate that may be refused, for one reason or for several, and any slices.
fn refused(
    plate: &Plate,
    strategy: StartPointStrategy,
    tally: &Tally,
    random: &mut Random,
) -> Result<(), String> {
    let case = handed(plate, strategy, tally, random)?;
    case.start()?;
    for _ in 0..2 {
        let (room, work) = (random.below(40) as usize, work(plate.lengths.len(), random));
        case.order(room, work, random)?;
        case.straight(room, work, random)?;
    }
    case.wrapper()
}

type Case<'a> = Handed<'a, Results, Tally>;

/// The plate with what is due of it.
fn handed<'a>(
    plate: &'a Plate,
    strategy: StartPointStrategy,
    tally: &'a Tally,
    random: &mut Random,
) -> Result<Case<'a>, String> {
    let due = results(plate, strategy);
    if let Ok(due) = &due {
        let held = due.as_ref().map(|results| results.held);
        let held = held.map_err(|&refused| refused);
        tally.met.plate(plate, strategy, held);
        tally.parked.plate(plate, strategy, held.map(|_| ()));
    }
    Case::new(plate, strategy, tally, due, random)
}

impl Case<'_> {
    fn start(&self) -> Result<(), String> {
        let due = match self.start_due() {
            Ok([contour, reversed]) => [0, 0, contour, reversed],
            Err((number, place)) => [number, place, 0, 0],
        };
        self.tally.count(Call::Start, due[0]);
        let (points, lengths, layers) = self.inputs();
        let Size { width, height } = self.plate.size;
        let result = match self.strategy {
            Home(Point { x, y }) => c::start_home(points, lengths, layers, x, y),
            base => c::start(points, lengths, layers, width, height, base == Inside),
        };
        let is = [result.number, result.place, result.contour, result.reversed];
        self.same("number, place, contour and reversed", "Start call", &is, &due)?;
        self.inputs_kept("Start call")
    }

    fn start_due(&self) -> Result<[u32; 2], Refused> {
        self.due.as_ref().map_err(|&refused| refused)?.start.ok_or((7, 0))
    }

    /// The order call, lent slices of these lengths.
    fn order(&self, slice: usize, work: usize, random: &mut Random) -> Result<(), String> {
        let due = self.due.as_ref().map(|results| &results.order[..]).map_err(|&refused| refused);
        let due = rule::outcome(due, self.plate.lengths.len(), work, rule::order_room(slice));
        self.joined(Call::Order, due, slice, work, random, |case, order, work| {
            let (points, lengths, layers) = case.inputs();
            let Size { width, height } = case.plate.size;
            let result = match case.strategy {
                Home(Point { x, y }) => c::order_home(points, lengths, layers, x, y, order, work),
                base => {
                    let inside = base == Inside;
                    c::order(points, lengths, layers, width, height, inside, order, work)
                }
            };
            [result.number, result.place, result.entries]
        })
    }

    /// The straight call, lent slices of these lengths.
    fn straight(&self, slice: usize, work: usize, random: &mut Random) -> Result<(), String> {
        let due =
            self.due.as_ref().map(|results| &results.straight[..]).map_err(|&refused| refused);
        let due = rule::outcome(due, self.plate.lengths.len(), work, rule::straight_room(slice));
        self.joined(Call::Straight, due, slice, work, random, |case, path, work| {
            let (points, lengths, layers) = case.inputs();
            let Size { width, height } = case.plate.size;
            let result = match case.strategy {
                Home(Point { x, y }) => c::straight_home(points, lengths, layers, x, y, path, work),
                base => {
                    let inside = base == Inside;
                    c::straight(points, lengths, layers, width, height, inside, path, work)
                }
            };
            [result.number, result.place, result.points]
        })
    }

    fn joined<T: Number>(
        &self,
        call: Call,
        (due, written): ([u32; 3], &[[T; 2]]),
        slice: usize,
        work: usize,
        random: &mut Random,
        answer: impl Fn(&Self, &mut [T], &mut [u32]) -> [u32; 3],
    ) -> Result<(), String> {
        self.tally.count(call, due[0]);
        if due[0] == rule::BAD_LAYER {
            self.tally.met.lent(self.plate, work, slice);
        }
        self.tally.parked.lent(self.plate, self.strategy, due[0], work, slice);
        let name = format!("{call:?} call, lent a slice of {slice} and work of {work}");
        let mut slice = Lent::random(slice, random);
        let mut work = Lent::random(work, random);
        let is = answer(self, slice.slice_mut(), work.slice_mut());
        self.same("number, place and count", &name, &is, &due)?;
        let is_free = due[0] == 0 || due[0] == 6;
        self.hold(
            &name,
            [("output slice", slice.difference(written)), ("work", work.altered_unless(is_free))],
        )?;
        self.inputs_kept(&name)
    }

    /// The safe interface, where it allocates the slices itself. It comes last: there a write
    /// beyond a slice would not show.
    fn wrapper(&self) -> Result<(), String> {
        self.plates().into_iter().try_for_each(|plate| self.wrapped(plate))
    }

    fn wrapped(&self, plate: twillharbor::Plate) -> Result<(), String> {
        let (size, strategy) = (self.plate.size, self.strategy);
        let due = self.due.as_ref().map_err(|&refused| refused);

        let start = plate.start(size, strategy).map(|start| [start.contour, start.reversed.into()]);
        self.same("start", "safe interface", &start.map_err(numbers), &self.start_due())?;

        let order = plate.order(size, strategy).map(|order| {
            order.iter().map(|entry| [entry.contour, entry.reversed.into()]).collect::<Vec<_>>()
        });
        let order_due = due.map(|results| results.order.clone());
        self.same("order", "safe interface", &order.map_err(numbers), &order_due)?;

        let straight = plate
            .straight(size, strategy)
            .map(|path| path.iter().map(|p| [p.x, p.y].map(f64::to_bits)).collect::<Vec<_>>());
        let straight_due = due.map(|results| {
            results.straight.iter().map(|p| p.map(f64::to_bits)).collect::<Vec<_>>()
        });
        self.same("straight", "safe interface", &straight.map_err(numbers), &straight_due)?;
        self.inputs_kept("safe interface")
    }
}

#[cfg(test)]
mod tests {
    use super::{Tally, compare};
    use crate::plates::KINDS;
    use crate::run::assert_every_kind_agrees;

    #[test]
    fn every_kind_agrees() {
        let tally = Tally::default();
        assert_every_kind_agrees(&KINDS, 50, |kind, random| compare(kind, random.bits(), &tally));
    }
}
