//! The plate file's writer and reader against document 02's ticket 2 as `plate_file` has it: random
//! paths, damaged copies of their files, every single bit and every length of short files, and the
//! largest files.
//!
//! Every call is lent slices between margins of random bits. All bits are compared afterwards: a
//! refusal alters nothing, and a result nothing beyond itself.

use harness::random::Random;
use twillharbor::{Point, Refusal, c};

use crate::damaged_files::{DAMAGES, Damage, KINDS, Kind, damaged, path, sound};
use crate::floats::hexadecimal;
use crate::large_files;
use crate::lent_slices::{self, Difference, Lent};
use crate::plate_file::{
    BLOCK, CHECKED, Faults, HEAD, MOST_POINTS, PLACES, Refused, WRONGS, Wrong, count, file_of,
    is_off, read, set_checks, write,
};
use crate::run::{self, Plan};
use crate::tally::{Cases, Listed, is_met};

/// How many damaged copies of each file are read.
const COPIES: usize = 24;
/// Files to a stream of random numbers.
const CHUNK: u64 = 256;

/// What a run meets beside what is wrong with a block.
#[derive(Debug, Clone, Copy, PartialEq, Eq)]
enum Case {
    NoPoint,
    OnePoint,
    OneBlock,
    EmptyLastBlock,
    SeveralBlocks,
    MinusZero,
    Subnormal,
    AtTheLimit,
    WriteExact,
    WriteOneLonger,
    WriteTooMany,
    WriteOdd,
    WriteOddAndOff,
    WriteNan,
    WriteInfinite,
    WriteNextAbove,
    WriteOffAndShort,
    WriteOneShort,
    WriteNoRoom,
    ReadNone,
    ReadExact,
    ReadOneLonger,
    ReadDamaged,
    ReadOneShort,
    ReadOneShortOfFull,
    EmptyFile,
    EndsInFirstBlock,
    EndsInLaterBlock,
    EndsAtBorder,
    GoesOnByBytes,
    GoesOnByBlocks,
    DamagedFirst,
    DamagedLater,
    DamagedAndShort,
    DamagedAndGoesOn,
    UnusedMinusZero,
    GoesOnAndFull,
    TooMany,
    TooManyAndGoesOn,
    DamagedAtTheMost,
}

impl Listed for Case {
    const LIST: &'static [(Self, &'static str)] = &[
        (Self::NoPoint, "written: no point"),
        (Self::OnePoint, "written: one point"),
        (Self::OneBlock, "written: 30 points"),
        (Self::EmptyLastBlock, "written: full blocks and an empty one"),
        (Self::SeveralBlocks, "written: three blocks and more"),
        (Self::MinusZero, "written: with -0"),
        (Self::Subnormal, "written: with a subnormal number"),
        (Self::AtTheLimit, "written: with 1,000,000 or -1,000,000"),
        (Self::WriteExact, "written: just enough room"),
        (Self::WriteOneLonger, "written: room for a byte more"),
        (Self::WriteTooMany, "2 of the writer"),
        (Self::WriteOdd, "3"),
        (Self::WriteOddAndOff, "3: a coordinate is off the plate too"),
        (Self::WriteNan, "4: a NaN"),
        (Self::WriteInfinite, "4: an infinity"),
        (Self::WriteNextAbove, "4: the number next above 1,000,000, or its negative"),
        (Self::WriteOffAndShort, "4: there is no room either"),
        (Self::WriteOneShort, "6 of the writer: a byte short"),
        (Self::WriteNoRoom, "6 of the writer: an empty slice"),
        (Self::ReadNone, "read: no point"),
        (Self::ReadExact, "read: just enough room"),
        (Self::ReadOneLonger, "read: room for a number more"),
        (Self::ReadDamaged, "read: another path, by a damage whose checks are right"),
        (Self::ReadOneShort, "6 of the reader: a number short"),
        (Self::ReadOneShortOfFull, "6 of the reader: a number short of full blocks"),
        (Self::EmptyFile, "9: an empty file"),
        (Self::EndsInFirstBlock, "9: ends in its first block"),
        (Self::EndsInLaterBlock, "9: ends in a later block"),
        (Self::EndsAtBorder, "9: ends where a block does"),
        (Self::GoesOnByBytes, "9: goes on by less than a block"),
        (Self::GoesOnByBlocks, "9: goes on by a block or more"),
        (Self::DamagedFirst, "8: block 0"),
        (Self::DamagedLater, "8: a later block"),
        (Self::DamagedAndShort, "8: the file ends early too"),
        (Self::DamagedAndGoesOn, "8: a closing block after which the file goes on"),
        (Self::UnusedMinusZero, "8: nothing is wrong but -0 in an unused place"),
        (Self::GoesOnAndFull, "9: there is no room either"),
        (Self::TooMany, "2 of the reader"),
        (Self::TooManyAndGoesOn, "2 of the reader: the file goes on after its closing block too"),
        (Self::DamagedAtTheMost, "8: the block that can pass 1,048,576 points"),
    ];
}

/// A run of as many files meets every case.
const ENOUGH: u64 = 2_000;

#[derive(Debug, Default)]
pub struct Met {
    cases: Cases<Case>,
    alone: Cases<Wrong>,
    damages: Cases<Damage>,
}

impl Met {
    fn written(&self, path: &[f64], room: usize, due: &Result<Vec<u8>, Refused>) {
        let has = |is: fn(f64) -> bool| path.iter().any(|&c| is(c));
        match *due {
            Ok(ref file) => {
                let points = path.len() / 2;
                self.cases.count_if(points == 0, Case::NoPoint);
                self.cases.count_if(points == 1, Case::OnePoint);
                self.cases.count_if(points == PLACES - 1, Case::OneBlock);
                self.cases
                    .count_if(points > 0 && points.is_multiple_of(PLACES), Case::EmptyLastBlock);
                self.cases.count_if(points >= 2 * PLACES, Case::SeveralBlocks);
                self.cases.count_if(has(|c| c == 0.0 && c.is_sign_negative()), Case::MinusZero);
                self.cases.count_if(has(f64::is_subnormal), Case::Subnormal);
                self.cases.count_if(has(|c| c.abs() == 1e6), Case::AtTheLimit);
                self.cases.count_if(room == file.len(), Case::WriteExact);
                self.cases.count_if(room == file.len() + 1, Case::WriteOneLonger);
            }
            Err(Refused::TooManyPoints) => self.cases.count(Case::WriteTooMany),
            Err(Refused::Miscounted) => {
                self.cases.count(Case::WriteOdd);
                self.cases.count_if(has(is_off), Case::WriteOddAndOff);
            }
            Err(Refused::OffThePlate { place }) => {
                let c = path[place];
                self.cases.count_if(c.is_nan(), Case::WriteNan);
                self.cases.count_if(c.is_infinite(), Case::WriteInfinite);
                self.cases.count_if(c.abs() == 1e6_f64.next_up(), Case::WriteNextAbove);
                self.cases.count_if(room < BLOCK, Case::WriteOffAndShort);
            }
            Err(_) => {
                let blocks = path.len() / (2 * PLACES) + 1;
                self.cases.count_if(room + 1 == BLOCK * blocks, Case::WriteOneShort);
                self.cases.count_if(room == 0, Case::WriteNoRoom);
            }
        }
    }

    fn read(&self, file: &[u8], room: usize, due: &Result<Vec<f64>, Refused>) {
        match *due {
            Ok(ref path) => {
                self.cases.count_if(path.is_empty(), Case::ReadNone);
                self.cases.count_if(room == path.len(), Case::ReadExact);
                self.cases.count_if(room == path.len() + 1, Case::ReadOneLonger);
            }
            Err(Refused::Full) => {
                let held = read(file, usize::MAX).map_or(0, |path| path.len());
                self.cases.count_if(room + 1 == held, Case::ReadOneShort);
                let is_full = held.is_multiple_of(2 * PLACES);
                self.cases.count_if(room + 1 == held && is_full, Case::ReadOneShortOfFull);
            }
            Err(Refused::EndsEarly { length }) => {
                self.cases.count_if(length == 0, Case::EmptyFile);
                self.cases.count_if(0 < length && length < BLOCK, Case::EndsInFirstBlock);
                self.cases.count_if(length > BLOCK && length % BLOCK > 0, Case::EndsInLaterBlock);
                self.cases.count_if(length > 0 && length % BLOCK == 0, Case::EndsAtBorder);
            }
            Err(Refused::GoesOn { end }) => {
                let more = file.len() - end;
                self.cases.count_if(more < BLOCK, Case::GoesOnByBytes);
                self.cases.count_if(more >= BLOCK, Case::GoesOnByBlocks);
                self.cases.count_if(room == 0 && end > BLOCK, Case::GoesOnAndFull);
            }
            Err(Refused::Damaged { block, faults }) => self.damaged(file, block, faults),
            Err(_) => {
                self.cases.count(Case::TooMany);
                let block = &file[MOST_POINTS / PLACES * BLOCK..];
                self.cases.count_if(block.len() > BLOCK && block[4] < 31, Case::TooManyAndGoesOn);
            }
        }
    }

    fn damaged(&self, file: &[u8], block: usize, faults: Faults) {
        let wrong = WRONGS.iter().zip(faults).filter(|&(_, is)| is);
        if let [((alone, _), _)] = wrong.collect::<Vec<_>>()[..] {
            self.alone.count(*alone);
            let unused = *alone == Wrong::UnusedPlace;
            self.cases.count_if(unused && has_unused_zeros(file, block), Case::UnusedMinusZero);
        }
        let left = &file[block * BLOCK..];
        let is_closing = left[4] < 31 && left[5] == 0;
        self.cases.count_if(block == 0, Case::DamagedFirst);
        self.cases.count_if(block > 0, Case::DamagedLater);
        self.cases.count_if(!is_closing && left.len() < 2 * BLOCK, Case::DamagedAndShort);
        self.cases.count_if(is_closing && left.len() > BLOCK, Case::DamagedAndGoesOn);
        self.cases.count_if(block * PLACES + PLACES > MOST_POINTS, Case::DamagedAtTheMost);
    }

    fn print(&self, files: u64) -> bool {
        self.cases.print();
        println!("8, where this alone is wrong:");
        self.alone.print();
        println!("damages:");
        self.damages.print();
        let numbers = self.cases.numbers().chain(self.alone.numbers());
        is_met(files, ENOUGH, numbers.chain(self.damages.numbers()))
    }
}

/// Whether the unused places of the block hold 0 and -0 alone.
fn has_unused_zeros(file: &[u8], block: usize) -> bool {
    let (blocks, _) = file.as_chunks();
    let used = HEAD + 16 * count(&blocks[block]);
    let (unused, _) = blocks[block][used..CHECKED].as_chunks();
    unused.iter().all(|&bits| f64::from_le_bytes(bits) == 0.0)
}

/// Writes and reads the plan's files, then the largest, then every bit and length of short ones.
pub fn run(plan: Plan) -> bool {
    println!("files: {}, seed {}", plan.pairs, plan.seed);
    let met = Met::default();
    let same = run::run_seeded(plan, CHUNK, &KINDS, "file", |kind, seed| compare(kind, seed, &met));
    same && large_files::run(plan, &met) && short_files(plan, &met) && met.print(plan.pairs)
}

/// Writes and reads one file of a run: the kind by its number, and the file's own seed.
pub fn run_one(kind: u64, seed: u64) -> Result<bool, String> {
    let met = Met::default();
    run::run_one(kind, &KINDS, |kind| compare(kind, seed, &met))
}

fn compare(kind: Kind, seed: u64, met: &Met) -> Result<(), String> {
    let random = &mut Random::new(seed);
    let path = path(kind, random);
    wrapped_write(&path)?;
    let Ok(file) = write(&path, usize::MAX) else {
        for room in [0, BLOCK * (path.len() / (2 * PLACES) + 1), random.below(3_000) as usize] {
            check_write(&path, room, met, random)?;
        }
        return Ok(());
    };
    let any = random.below(file.len() as u64) as usize;
    for room in [0, any, file.len() - 1, file.len(), file.len() + 1, file.len() + any] {
        check_write(&path, room, met, random)?;
    }
    for room in [0, path.len().saturating_sub(1), path.len(), path.len() + 1, path.len() + any] {
        check_read(&file, room, met, random)?;
    }
    wrapped_read(&file)?;
    for _ in 0..COPIES {
        damaged_copy(&file, &path, met, random)?;
    }
    Ok(())
}

/// One damage, or two.
fn damaged_copy(file: &[u8], path: &[f64], met: &Met, random: &mut Random) -> Result<(), String> {
    let mut copy = file.to_vec();
    for _ in 0..random.pick(&[1, 1, 1, 2]) {
        let (damage, _) = random.pick(&DAMAGES);
        met.damages.count(damage);
        copy = damaged(&copy, damage, random);
    }
    let held = read(&copy, usize::MAX);
    let room = match (&held, random.below(8)) {
        (_, 0) => 0,
        (_, 1) => path.len(),
        (Ok(held), 2) => held.len().saturating_sub(1),
        (Ok(held), 3) => held.len(),
        _ => path.len() + 2 * PLACES,
    };
    check_read(&copy, room, met, random)?;
    wrapped_read(&copy)?;
    // Whatever reads as a path is that path's one file.
    if let Ok(held) = held {
        met.cases.count_if(copy != file, Case::ReadDamaged);
        if file_of(&held) != copy {
            return Err(format!("two files read as one path\n  path {held:?}"));
        }
        check_write(&held, copy.len(), met, random)?;
    }
    Ok(())
}

/// The writer, lent a file slice of that length.
pub fn check_write(
    path: &[f64],
    room: usize,
    met: &Met,
    random: &mut Random,
) -> Result<(), String> {
    let due = write(path, room);
    met.written(path, room, &due);
    let lent = Lent::holding(path, random);
    let mut file = Lent::<u8>::random(room, random);
    let is = c::write_file(lent.slice(), file.slice_mut());
    let written = due.as_deref().unwrap_or_default();
    let found = Found {
        is: [is.number, is.place, is.bytes],
        due: due.as_ref().map(Vec::len).map_err(|refused| *refused),
        input: lent.altered(),
        output: file.difference(written.as_chunks().0),
    };
    let path_of = || described("path", path.len(), 256, || hexadecimal(path));
    found.holds(room).map_err(|text| format!("writer, {text}{}", path_of()))
}

/// The reader, lent a path slice of that length.
pub fn check_read(file: &[u8], room: usize, met: &Met, random: &mut Random) -> Result<(), String> {
    let due = read(file, room);
    met.read(file, room, &due);
    let lent = Lent::holding(file, random);
    let mut path = Lent::<f64>::random(room, random);
    let is = c::read_file(lent.slice(), path.slice_mut());
    let written = due.as_deref().unwrap_or_default();
    let found = Found {
        is: [is.number, is.place, is.points],
        due: due.as_ref().map(|path| path.len() / 2).map_err(|refused| *refused),
        input: lent.altered(),
        output: path.difference(written.as_chunks().0),
    };
    let bytes = || file.iter().map(|byte| format!("{byte:02x}")).collect::<String>();
    let file_of = || described("file", file.len(), 2_048, bytes);
    found.holds(room).map_err(|text| format!("reader, {text}{}", file_of()))
}

/// The safe interface's writer, which takes whole points.
pub fn wrapped_write(path: &[f64]) -> Result<(), String> {
    let (points, _) = path.as_chunks();
    let due = write(points.as_flattened(), usize::MAX).map_err(Refused::numbers);
    let points: Vec<Point> = points.iter().map(|&[x, y]| Point { x, y }).collect();
    let is = twillharbor::write_file(&points).map_err(numbers);
    if is == due { Ok(()) } else { Err(format!("safe writer, of {} points", points.len())) }
}

/// The safe interface's reader.
pub fn wrapped_read(file: &[u8]) -> Result<(), String> {
    let bits = |path: Vec<f64>| path.into_iter().map(f64::to_bits).collect::<Vec<_>>();
    let due = read(file, usize::MAX).map(bits).map_err(Refused::numbers);
    let path = |points: Vec<Point>| points.iter().flat_map(|p| [p.x, p.y]).collect();
    let is = twillharbor::read_file(file).map(path).map(bits).map_err(numbers);
    if is == due { Ok(()) } else { Err(format!("safe reader, of {} bytes", file.len())) }
}

fn numbers(refusal: Refusal) -> [usize; 2] {
    [refusal.number() as usize, refusal.place() as usize]
}

/// The slice, the whole of it where that is a few lines.
fn described(name: &str, length: usize, most: usize, whole: impl Fn() -> String) -> String {
    let whole = if length <= most { whole() } else { String::new() };
    format!("\n  {name} of {length} {whole}")
}

/// What a call answered and left behind. What is due is a size or a refusal.
struct Found {
    is: [u32; 3],
    due: Result<usize, Refused>,
    input: Option<Difference>,
    output: Option<Difference>,
}

impl Found {
    fn holds(&self, room: usize) -> Result<(), String> {
        let Self { is, due, input, output } = self;
        let numbers = match *due {
            Ok(size) => [0, 0, size],
            Err(refused) => [refused.numbers()[0], refused.numbers()[1], 0],
        };
        if is.map(|number| number as usize) != numbers {
            return Err(format!("lent {room}: library {is:?}, due {numbers:?}, {due:?}"));
        }
        lent_slices::hold([("input", *input), ("output", *output)])
            .map_err(|wrong| format!("lent {room}: {wrong}"))
    }
}

/// For each last block of two: every single bit, with checks left and made right, then every length.
fn short_files(plan: Plan, met: &Met) -> bool {
    println!("short files: every single bit and every length");
    run::run_numbered(plan, PLACES, "files of two blocks", |last| {
        let random = &mut Random::stream(plan.seed, last as u64);
        let path: Vec<f64> = (0..2 * (PLACES + last)).map(|_| sound(random)).collect();
        let file = file_of(&path);
        every_bit(&file, met, random)
            .and_then(|()| every_length(&file, met, random))
            .map_err(|e| format!("{e}\n  again: differential files --files 0 --seed {}", plan.seed))
    })
}

fn every_bit(file: &[u8], met: &Met, random: &mut Random) -> Result<(), String> {
    let mut copy = file.to_vec();
    for bit in 0..8 * file.len() {
        let (at, number) = (bit / 8, bit / 8 / BLOCK);
        copy[at] ^= 1 << (bit % 8);
        let due = read(&copy, usize::MAX).map_err(Refused::numbers);
        if due != Err([8, number]) {
            return Err(format!("bit {bit} of a file may be another: {due:?}"));
        }
        check_read(&copy, 4 * PLACES, met, random)?;
        if at % BLOCK < CHECKED {
            let (blocks, _) = copy.as_chunks_mut();
            set_checks(&mut blocks[number]);
            check_read(&copy, 4 * PLACES, met, random)?;
        }
        copy.copy_from_slice(file);
    }
    Ok(())
}

/// The beginnings of the file twice over.
fn every_length(file: &[u8], met: &Met, random: &mut Random) -> Result<(), String> {
    let twice = file.repeat(2);
    for length in 0..=twice.len() {
        let room = if random.one_in(2) { 0 } else { 4 * PLACES };
        check_read(&twice[..length], room, met, random)?;
    }
    Ok(())
}

#[cfg(test)]
mod tests {
    use super::{Met, compare};
    use crate::damaged_files::KINDS;
    use crate::run::assert_every_kind_agrees;

    #[test]
    fn every_kind_agrees() {
        let met = Met::default();
        assert_every_kind_agrees(&KINDS, 10, |kind, random| compare(kind, random.bits(), &met));
    }
}
