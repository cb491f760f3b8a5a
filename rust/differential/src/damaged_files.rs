//! Paths to write, and damaged copies of their files. Most damages make the checks right again, so
//! that something else decides.

use harness::random::Random;

use crate::floats::{signed, with_exponent};
use crate::plate_file::{BLOCK, Block, CHECKED, HEAD, LIMIT, PLACES, count, set_checks};
use crate::tally::Listed;

#[derive(Debug, Clone, Copy, PartialEq, Eq)]
pub enum Kind {
    Few,
    Borders,
    Many,
    Special,
    Off,
    Odd,
}

pub const KINDS: [(Kind, &str); 6] = [
    (Kind::Few, "up to 4 points"),
    (Kind::Borders, "full blocks, and a point more or less"),
    (Kind::Many, "up to 300 points"),
    (Kind::Special, "coordinates at the limits"),
    (Kind::Off, "coordinates off the plate"),
    (Kind::Odd, "half a point"),
];

pub fn path(kind: Kind, random: &mut Random) -> Vec<f64> {
    let points = match kind {
        Kind::Few => random.below(5),
        Kind::Many => random.below(301),
        Kind::Borders => (31 * random.below(5) + random.below(3)).saturating_sub(1),
        _ => random.pick(&[1, 2, 30, 31, 32, 61, 62, 63]),
    };
    let numbers = 2 * points as usize + usize::from(kind == Kind::Odd);
    let mut path: Vec<f64> = (0..numbers).map(|_| coordinate(kind, random)).collect();
    if kind == Kind::Off || kind == Kind::Odd && random.one_in(3) {
        for _ in 0..random.pick(&[1, 1, 2]) {
            let place = random.below(numbers as u64) as usize;
            path[place] = off(random);
        }
    }
    path
}

fn coordinate(kind: Kind, random: &mut Random) -> f64 {
    if kind == Kind::Special || random.one_in(8) { special(random) } else { sound(random) }
}

pub fn sound(random: &mut Random) -> f64 {
    (random.unit() * 2.0 - 1.0) * LIMIT
}

/// On the plate: -0, subnormal numbers, the limit and the number below it, any exponent.
pub fn special(random: &mut Random) -> f64 {
    let x = match random.below(8) {
        0 => 0.0,
        1 => LIMIT,
        2 => LIMIT.next_down(),
        3 => f64::from_bits(1),
        4 => f64::MIN_POSITIVE.next_down(),
        5 => between_powers(random, -1074, -1023),
        _ => between_powers(random, -1074, 18),
    };
    signed(random, x)
}

/// Not on the plate: the number above the limit, infinities, NaNs of both sorts and signs.
pub fn off(random: &mut Random) -> f64 {
    let x = match random.below(6) {
        0 | 1 => LIMIT.next_up(),
        2 => f64::INFINITY,
        3 => f64::from_bits(f64::INFINITY.to_bits() | 1 << random.below(52)),
        4 => f64::from_bits(u64::MAX >> 1),
        _ => between_powers(random, 20, 1023),
    };
    signed(random, x)
}

fn between_powers(random: &mut Random, low: i64, high: i64) -> f64 {
    let e = random.between(low, high);
    with_exponent(random, e)
}

/// A damage to a file. One of a block alone leaves its checks wrong or makes them right.
#[derive(Debug, Clone, Copy, PartialEq, Eq)]
pub enum Damage {
    Bit,
    Byte,
    WordsSwapped,
    FirstCheck,
    SecondCheck,
    Number,
    Count,
    ZeroByte,
    Unused,
    CoordinateOff,
    CoordinateSound,
    BitRight,
    Noise,
    Closed,
    Cut,
    Extended,
    BlockAfter,
    Swapped,
    Repeated,
    Dropped,
    Renumbered,
}

pub const DAMAGES: [(Damage, &str); 21] = [
    (Damage::Bit, "a bit"),
    (Damage::Byte, "a byte"),
    (Damage::WordsSwapped, "two words swapped"),
    (Damage::FirstCheck, "the first check"),
    (Damage::SecondCheck, "the second check"),
    (Damage::Number, "a number, checks right"),
    (Damage::Count, "a count, checks right"),
    (Damage::ZeroByte, "a zero byte, checks right"),
    (Damage::Unused, "an unused place, checks right"),
    (Damage::CoordinateOff, "a coordinate off the plate, checks right"),
    (Damage::CoordinateSound, "another sound coordinate, checks right"),
    (Damage::BitRight, "a bit, checks right"),
    (Damage::Noise, "random places, checks right"),
    (Damage::Closed, "a block that closes the file, checks right"),
    (Damage::Cut, "cut short"),
    (Damage::Extended, "bytes after it"),
    (Damage::BlockAfter, "a block after it"),
    (Damage::Swapped, "two blocks swapped"),
    (Damage::Repeated, "a block twice"),
    (Damage::Dropped, "a block dropped"),
    (Damage::Renumbered, "blocks dropped or twice, then numbered, checks right"),
];

impl Listed for Damage {
    const LIST: &'static [(Self, &'static str)] = &DAMAGES;
}

/// A damaged copy. It may be that nothing was there to be damaged.
pub fn damaged(file: &[u8], damage: Damage, random: &mut Random) -> Vec<u8> {
    let mut file = file.to_vec();
    match damage {
        Damage::Cut => file.truncate(near_a_border(file.len(), random)),
        Damage::Extended => {
            let more = random.pick(&[1, 8, 188, 511, 512, 513, 1_024]);
            let is_zero = random.one_in(2);
            file.extend((0..more).map(|_| if is_zero { 0 } else { random.bits() as u8 }));
        }
        _ => {
            // Bytes of no whole block stay behind.
            let (blocks, rest) = file.as_chunks();
            let (mut blocks, rest) = (blocks.to_vec(), rest.to_vec());
            if !blocks.is_empty() {
                of_blocks(&mut blocks, damage, random);
            }
            file = blocks.concat();
            file.extend(rest);
        }
    }
    file
}

/// A length below this one, most often near the end of a block.
fn near_a_border(length: usize, random: &mut Random) -> usize {
    let border = BLOCK * random.below((length / BLOCK + 1) as u64) as usize;
    let at = match random.below(6) {
        0 => random.below(length as u64 + 1) as usize,
        1 => border + 1,
        2 => border.saturating_sub(1),
        3 => border + 504,
        _ => border,
    };
    at.min(length.saturating_sub(1))
}

fn of_blocks(blocks: &mut Vec<Block>, damage: Damage, random: &mut Random) {
    let [one, other] = [(); 2].map(|()| random.below(blocks.len() as u64) as usize);
    match damage {
        Damage::BlockAfter => blocks.push(blocks[one]),
        Damage::Swapped => blocks.swap(one, other),
        Damage::Repeated => blocks.insert(other, blocks[one]),
        Damage::Dropped => drop(blocks.remove(one)),
        Damage::Renumbered => {
            if random.one_in(2) {
                blocks.remove(one);
            } else {
                blocks.insert(other, blocks[one]);
            }
            for (number, block) in (0_u32..).zip(blocks) {
                block[..4].copy_from_slice(&number.to_le_bytes());
                set_checks(block);
            }
        }
        Damage::Unused => {
            // The last block most often has some.
            let at = if random.one_in(4) { one } else { blocks.len() - 1 };
            of_block(&mut blocks[at], damage, random);
        }
        _ => of_block(&mut blocks[one], damage, random),
    }
}

fn of_block(block: &mut Block, damage: Damage, random: &mut Random) {
    match damage {
        Damage::Bit => flip(&mut block[..], random),
        Damage::Byte => block[random.below(512) as usize] = random.bits() as u8,
        Damage::WordsSwapped => {
            let (words, _) = block.as_chunks_mut::<4>();
            words.swap(random.below(126) as usize, random.below(126) as usize);
        }
        Damage::FirstCheck => flip(&mut block[504..508], random),
        Damage::SecondCheck => flip(&mut block[508..], random),
        _ => {
            of_checked(block, damage, random);
            set_checks(block);
        }
    }
}

fn of_checked(block: &mut Block, damage: Damage, random: &mut Random) {
    let held = count(block).min(PLACES);
    let used = HEAD + 16 * held;
    match damage {
        Damage::Number => match random.below(3) {
            0 => flip(&mut block[..4], random),
            1 => block[0] = block[0].wrapping_add(1),
            _ => block[..4].copy_from_slice(&(random.bits() as u32).to_le_bytes()),
        },
        Damage::Count => block[4..6].copy_from_slice(&any_count(random).to_le_bytes()),
        Damage::ZeroByte => flip(&mut block[6..8], random),
        Damage::Unused if used < CHECKED => {
            let place = used + 8 * random.below(((CHECKED - used) / 8) as u64) as usize;
            let any = random.bits();
            let bits = random.pick(&[1 << 63, 1, 1.0_f64.to_bits(), any]);
            block[place..place + 8].copy_from_slice(&bits.to_le_bytes());
        }
        Damage::CoordinateOff | Damage::CoordinateSound if held > 0 => {
            let place = HEAD + 8 * random.below(2 * held as u64) as usize;
            let is_off = damage == Damage::CoordinateOff;
            let coordinate = if is_off { off(random) } else { special(random) };
            block[place..place + 8].copy_from_slice(&coordinate.to_bits().to_le_bytes());
        }
        Damage::BitRight => flip(&mut block[..CHECKED], random),
        Damage::Noise => {
            let end = HEAD + random.below((CHECKED - HEAD) as u64 + 1) as usize;
            block[HEAD..end].iter_mut().for_each(|byte| *byte = random.bits() as u8);
        }
        Damage::Closed => {
            let count = random.below(PLACES as u64) as u8;
            block[4..6].copy_from_slice(&[count, 0]);
            block[HEAD + 16 * usize::from(count)..CHECKED].fill(0);
        }
        _ => {}
    }
}

fn any_count(random: &mut Random) -> u16 {
    match random.below(4) {
        0 => random.bits() as u16,
        1 => random.pick(&[32, 33, 256, 31 + 256, u16::MAX]),
        _ => random.below(33) as u16,
    }
}

fn flip(bytes: &mut [u8], random: &mut Random) {
    let bit = random.below(8 * bytes.len() as u64) as usize;
    bytes[bit / 8] ^= 1 << (bit % 8);
}

#[cfg(test)]
mod tests {
    use harness::random::Random;

    use super::{DAMAGES, Damage, damaged, off, path, special};
    use crate::plate_file::{file_of, is_off, path_of};

    #[test]
    fn coordinates_lie_where_they_should() {
        let mut random = Random::new(1);
        for _ in 0..10_000 {
            assert!(!is_off(special(&mut random)));
            assert!(is_off(off(&mut random)));
        }
    }

    /// More than three files of ten are altered, and more than one is refused but for two damages.
    #[test]
    fn damages_alter_files_and_make_some_unsound() {
        let mut random = Random::new(2);
        for (damage, name) in DAMAGES {
            let (mut refused, mut files) = (0, 0);
            for _ in 0..200 {
                let path = path(super::Kind::Borders, &mut random);
                let file = damaged(&file_of(&path), damage, &mut random);
                refused += u32::from(path_of(&file).is_err());
                files += u32::from(file != file_of(&path));
            }
            assert!(files > 60, "{name}: {files}");
            let is_sound = matches!(damage, Damage::CoordinateSound | Damage::Renumbered);
            assert!(refused > 20 || is_sound, "{name}: {refused}");
        }
    }
}
