//! Files of about 1,048,576 points, and one of far more: what is due is written beside each.

use harness::random::Random;

use crate::damaged_files::sound;
use crate::files::{Met, check_read, check_write, wrapped_read, wrapped_write};
use crate::plate_file::{self, BLOCK, MOST_POINTS, Refused};
use crate::run::{self, Plan};

/// The number of the block in which point 1,048,576 lies, and how many bytes end with it.
const LAST: usize = 33_825;
const BYTES: usize = 17_318_912;

/// A path that is handed to the writer: how many numbers it has, a place that is off the plate, the
/// file slice's length, and the answer due: number, place and bytes.
type Written = (usize, Option<usize>, usize, [usize; 3]);

const WRITTEN: [Written; 12] = [
    (2_097_150, None, BYTES, [0, 0, BYTES]),
    (2_097_152, None, BYTES, [0, 0, BYTES]),
    (2_097_152, None, BYTES + 1, [0, 0, BYTES]),
    (2_097_152, None, BYTES - 1, [6, 0, 0]),
    (2_097_152, Some(2_097_151), BYTES, [4, 2_097_151, 0]),
    (2_097_152, Some(0), 0, [4, 0, 0]),
    (2_097_151, Some(7), BYTES, [3, 0, 0]),
    (2_097_153, None, BYTES, [3, 0, 0]),
    (2_097_153, Some(2_097_152), 0, [3, 0, 0]),
    (2_097_154, None, BYTES + BLOCK, [2, 0, 0]),
    (2_097_154, Some(0), 0, [2, 0, 0]),
    (2_097_155, None, 0, [2, 0, 0]),
];

/// A file that is handed to the reader: the path that it is made from has that many points; then a
/// byte of it is altered, or none, and its length set, by zeros where it grows. Room, and the answer
/// due: number, place and points.
type Read = (usize, Option<usize>, usize, usize, [usize; 3]);

const MOST: usize = 2 * MOST_POINTS;
const READ: [Read; 22] = [
    (1_048_575, None, BYTES, MOST, [0, 0, 1_048_575]),
    (1_048_576, None, BYTES, MOST, [0, 0, 1_048_576]),
    (1_048_576, None, BYTES, MOST + 1, [0, 0, 1_048_576]),
    (1_048_576, None, BYTES, MOST - 1, [6, 0, 0]),
    (1_048_577, None, BYTES, MOST + 2, [2, 0, 0]),
    (1_048_577, None, BYTES, 0, [2, 0, 0]),
    (1_048_577, None, BYTES + 1, 0, [2, 0, 0]),
    (1_048_577, None, BYTES - 1, 0, [9, BYTES - 1, 0]),
    (1_048_577, Some(BYTES - 1), BYTES, 0, [8, LAST, 0]),
    (1_048_577, Some(BYTES - 1), BYTES + 1, 0, [8, LAST, 0]),
    (1_048_577, Some(BYTES - BLOCK - 1), BYTES, 0, [8, LAST - 1, 0]),
    (1_048_606, None, BYTES + BLOCK, 0, [2, 0, 0]),
    (1_048_606, None, BYTES, 0, [2, 0, 0]),
    (1_048_606, Some(BYTES), BYTES + BLOCK, 0, [2, 0, 0]),
    (1_048_576, None, BYTES + 1, MOST, [9, BYTES, 0]),
    (1_048_576, None, BYTES + BLOCK, MOST, [9, BYTES, 0]),
    (1_048_575, None, BYTES + 1, MOST, [9, BYTES, 0]),
    (1_048_576, None, BYTES - 1, MOST, [9, BYTES - 1, 0]),
    (1_048_576, None, BYTES - BLOCK, MOST, [9, BYTES - BLOCK, 0]),
    (1_048_576, None, BYTES - BLOCK - 1, MOST, [9, BYTES - BLOCK - 1, 0]),
    (1_048_576, Some(BYTES - 1), BYTES + 1, MOST, [8, LAST, 0]),
    (1_300_000, None, 21_472_000, MOST, [2, 0, 0]),
];

/// Whether the library gives what is due.
pub fn run(plan: Plan, met: &Met) -> bool {
    println!("large files: up to 1,048,576 points and beyond");
    let mut random = Random::new(plan.seed);
    let path: Vec<f64> = (0..2_600_000).map(|_| sound(&mut random)).collect();
    run::run_numbered(plan, WRITTEN.len() + READ.len(), "large files", |case| {
        let random = &mut Random::stream(plan.seed, case as u64);
        let outcome = match WRITTEN.get(case) {
            Some(&written) => write(&path, written, met, random),
            None => read(&path, READ[case - WRITTEN.len()], met, random),
        };
        let seed = plan.seed;
        outcome.map_err(|e| format!("{e}\n  again: differential files --files 0 --seed {seed}"))
    })
}

fn write(path: &[f64], case: Written, met: &Met, random: &mut Random) -> Result<(), String> {
    let (numbers, off, room, due) = case;
    let mut path = path[..numbers].to_vec();
    if let Some(off) = off {
        path[off] = f64::NAN;
    }
    is_due(plate_file::write(&path, room).map(|file| file.len()), due)?;
    wrapped_write(&path)?;
    check_write(&path, room, met, random)
}

fn read(path: &[f64], case: Read, met: &Met, random: &mut Random) -> Result<(), String> {
    let (points, damaged, length, room, due) = case;
    let mut file = plate_file::file_of(&path[..2 * points]);
    if let Some(damaged) = damaged {
        file[damaged] ^= 0x10;
    }
    file.resize(length, 0);
    is_due(plate_file::read(&file, room).map(|path| path.len() / 2), due)?;
    wrapped_read(&file)?;
    check_read(&file, room, met, random)
}

/// That `plate_file` gives what stands in the list.
fn is_due(is: Result<usize, Refused>, due: [usize; 3]) -> Result<(), String> {
    let numbers = match is {
        Ok(size) => [0, 0, size],
        Err(refused) => [refused.numbers()[0], refused.numbers()[1], 0],
    };
    if numbers == due { Ok(()) } else { Err(format!("listed {due:?}, by the rule {is:?}")) }
}

#[cfg(test)]
mod tests {
    use super::{BLOCK, BYTES, LAST, MOST_POINTS};
    use crate::plate_file::PLACES;

    #[test]
    fn the_last_block_holds_the_last_point() {
        assert_eq!(MOST_POINTS / PLACES, LAST);
        assert_eq!(BLOCK * (LAST + 1), BYTES);
    }
}
