//! The plate file as document 02's ticket 2 words it: the file of a path, what a file is read as,
//! and the refusals of both calls.

use crate::tally::Listed;

/// Bytes to a block.
pub const BLOCK: usize = 512;
/// Points that a block has places for.
pub const PLACES: usize = 31;
/// Points that a path may have.
pub const MOST_POINTS: usize = 1_048_576;
/// The greatest magnitude of a coordinate.
pub const LIMIT: f64 = 1_000_000.0;

/// Bytes of a block before the places, and before the checks.
pub const HEAD: usize = 8;
pub const CHECKED: usize = 504;

pub type Block = [u8; BLOCK];

/// What of a block is wrong, in the order of the document's list.
#[derive(Debug, Clone, Copy, PartialEq, Eq)]
pub enum Wrong {
    FirstCheck,
    SecondCheck,
    Number,
    ZeroByte,
    UnusedPlace,
    Count,
    Coordinate,
}

pub const WRONGS: [(Wrong, &str); 7] = [
    (Wrong::FirstCheck, "the first check"),
    (Wrong::SecondCheck, "the second check"),
    (Wrong::Number, "the number"),
    (Wrong::ZeroByte, "a zero byte"),
    (Wrong::UnusedPlace, "an unused place"),
    (Wrong::Count, "the count"),
    (Wrong::Coordinate, "a coordinate"),
];

impl Listed for Wrong {
    const LIST: &'static [(Self, &'static str)] = &WRONGS;
}

/// Whether each of [`WRONGS`] is.
pub type Faults = [bool; WRONGS.len()];

/// Why a call is refused.
#[derive(Debug, Clone, Copy, PartialEq, Eq)]
pub enum Refused {
    TooManyPoints,
    Miscounted,
    OffThePlate { place: usize },
    Full,
    Damaged { block: usize, faults: Faults },
    EndsEarly { length: usize },
    GoesOn { end: usize },
}

impl Refused {
    /// Number and place.
    pub fn numbers(self) -> [usize; 2] {
        match self {
            Self::TooManyPoints => [2, 0],
            Self::Miscounted => [3, 0],
            Self::OffThePlate { place } => [4, place],
            Self::Full => [6, 0],
            Self::Damaged { block, .. } => [8, block],
            Self::EndsEarly { length } => [9, length],
            Self::GoesOn { end } => [9, end],
        }
    }
}

pub fn is_off(coordinate: f64) -> bool {
    coordinate.is_nan() || coordinate.abs() > LIMIT
}

/// What the writer gives where that many bytes fit.
pub fn write(path: &[f64], room: usize) -> Result<Vec<u8>, Refused> {
    if path.len() / 2 > MOST_POINTS {
        return Err(Refused::TooManyPoints);
    }
    if path.len() % 2 == 1 {
        return Err(Refused::Miscounted);
    }
    if let Some(place) = path.iter().position(|&c| is_off(c)) {
        return Err(Refused::OffThePlate { place });
    }
    let file = file_of(path);
    if file.len() > room { Err(Refused::Full) } else { Ok(file) }
}

/// What the reader gives where that many numbers fit.
pub fn read(file: &[u8], room: usize) -> Result<Vec<f64>, Refused> {
    let path = path_of(file)?;
    if path.len() > room { Err(Refused::Full) } else { Ok(path) }
}

/// The file of whole points, however many. The last block is not full.
pub fn file_of(path: &[f64]) -> Vec<u8> {
    let (points, half) = path.as_chunks::<2>();
    assert!(half.is_empty());
    let mut held = points.chunks(PLACES).peekable();
    let mut blocks = Vec::new();
    while held.peek().is_some_and(|held| held.len() == PLACES) {
        blocks.push(block(blocks.len() as u32, held.next().unwrap_or_default()));
    }
    blocks.push(block(blocks.len() as u32, held.next().unwrap_or_default()));
    blocks.concat()
}

/// The block of that number which holds these points.
pub fn block(number: u32, held: &[[f64; 2]]) -> Block {
    let mut block = [0; BLOCK];
    block[..4].copy_from_slice(&number.to_le_bytes());
    block[4..6].copy_from_slice(&(held.len() as u16).to_le_bytes());
    let places = block[HEAD..CHECKED].chunks_exact_mut(8);
    for (place, coordinate) in places.zip(held.as_flattened()) {
        place.copy_from_slice(&coordinate.to_bits().to_le_bytes());
    }
    set_checks(&mut block);
    block
}

/// Makes both checks right.
pub fn set_checks(block: &mut Block) {
    let [first, second] = checks(block);
    block[504..508].copy_from_slice(&first.to_le_bytes());
    block[508..].copy_from_slice(&second.to_le_bytes());
}

fn checks(block: &Block) -> [u32; 2] {
    let (words, _) = block[..CHECKED].as_chunks::<4>();
    let (mut sum, mut sum_of_sums) = (0, 0);
    for &word in words {
        sum += u64::from(u32::from_le_bytes(word));
        sum_of_sums += sum;
    }
    [sum as u32, sum_of_sums as u32]
}

/// The path that a file reads as, wherever it would be put.
pub fn path_of(file: &[u8]) -> Result<Vec<f64>, Refused> {
    let mut path = Vec::new();
    let mut number = 0;
    loop {
        let left = &file[BLOCK * number..];
        let Some(block) = left.first_chunk() else {
            return Err(Refused::EndsEarly { length: file.len() });
        };
        let faults = faults(block, number);
        if faults.contains(&true) {
            return Err(Refused::Damaged { block: number, faults });
        }
        path.extend(coordinates(block));
        if path.len() > 2 * MOST_POINTS {
            return Err(Refused::TooManyPoints);
        }
        number += 1;
        if count(block) < PLACES {
            let is_end = left.len() == BLOCK;
            return if is_end { Ok(path) } else { Err(Refused::GoesOn { end: BLOCK * number }) };
        }
    }
}

/// What a block says that it holds.
pub fn count(block: &Block) -> usize {
    u16::from_le_bytes([block[4], block[5]]).into()
}

/// The coordinates that it holds, of a count up to 31.
fn coordinates(block: &Block) -> impl Iterator<Item = f64> {
    let (places, _) = block[HEAD..HEAD + 16 * count(block)].as_chunks();
    places.iter().map(|&bits| f64::from_bits(u64::from_le_bytes(bits)))
}

fn faults(block: &Block, number: usize) -> Faults {
    let bytes = |from: usize| [block[from], block[from + 1], block[from + 2], block[from + 3]];
    let [first, second] = checks(block);
    let is_counted = count(block) <= PLACES;
    let unused = if is_counted { &block[HEAD + 16 * count(block)..CHECKED] } else { &[] };
    WRONGS.map(|(wrong, _)| match wrong {
        Wrong::FirstCheck => u32::from_le_bytes(bytes(504)) != first,
        Wrong::SecondCheck => u32::from_le_bytes(bytes(508)) != second,
        Wrong::Number => u32::from_le_bytes(bytes(0)) as usize != number,
        Wrong::ZeroByte => block[6] != 0 || block[7] != 0,
        Wrong::UnusedPlace => unused.iter().any(|&byte| byte != 0),
        Wrong::Count => !is_counted,
        Wrong::Coordinate => is_counted && coordinates(block).any(is_off),
    })
}

#[cfg(test)]
mod tests {
    use super::{
        BLOCK, CHECKED, MOST_POINTS, Refused, WRONGS, Wrong, block, file_of, read, set_checks,
        write,
    };

    /// The file with byte `at` altered, and that block's checks made right.
    fn altered(file: &[u8], at: usize, value: u8) -> Vec<u8> {
        let mut file = file.to_vec();
        file[at] = value;
        let (blocks, _) = file.as_chunks_mut();
        set_checks(&mut blocks[at / BLOCK]);
        file
    }

    fn numbers(file: &[u8]) -> [usize; 2] {
        read(file, usize::MAX).map_or_else(Refused::numbers, |path| [0, path.len()])
    }

    /// Worked out by hand.
    #[test]
    fn bytes_stand_where_they_should() {
        let file = file_of(&[1.0, -0.0]);
        assert_eq!(file.len(), BLOCK);
        assert_eq!(file[..8], [0, 0, 0, 0, 1, 0, 0, 0]);
        assert_eq!(file[8..16], [0, 0, 0, 0, 0, 0, 0xf0, 0x3f]);
        assert_eq!(file[16..24], [0, 0, 0, 0, 0, 0, 0, 0x80]);
        assert!(file[24..CHECKED].iter().all(|&byte| byte == 0));
        assert_eq!(file[CHECKED..], [1, 0, 240, 191, 125, 0, 80, 56]);
        let two = file_of(&[1.0, -0.0, f64::from_bits(1), 1e6]);
        assert_eq!(two[CHECKED..], [131, 132, 30, 1, 242, 143, 146, 2]);
        assert_eq!(block(1, &[])[CHECKED..], [1, 0, 0, 0, 126, 0, 0, 0]);
    }

    /// The second check is also each word times the number of sums that it is in.
    #[test]
    fn the_second_check_weighs_words() {
        let held: Vec<[f64; 2]> = (0..31).map(|i| [f64::from(i).sqrt(), -f64::from(i)]).collect();
        let block = block(33_825, &held);
        let (words, _) = block.as_chunks();
        let words: Vec<u128> = words.iter().map(|&w| u32::from_le_bytes(w).into()).collect();
        let first: u128 = words[..126].iter().sum();
        let second: u128 = words[..126].iter().zip((1..=126).rev()).map(|(w, n)| w * n).sum();
        assert_eq!(words[126..], [first % (1 << 32), second % (1 << 32)]);
    }

    #[test]
    fn a_path_of_full_blocks_ends_with_an_empty_one() {
        for (points, blocks) in [(0, 1), (1, 1), (30, 1), (31, 2), (32, 2), (61, 2), (62, 3)] {
            let path = vec![0.5; 2 * points];
            let file = write(&path, BLOCK * blocks).unwrap();
            assert_eq!(file.len(), BLOCK * blocks);
            assert_eq!(file[file.len() - BLOCK + 4], (points % 31) as u8);
            assert_eq!(read(&file, path.len()).unwrap(), path);
            assert_eq!(write(&path, BLOCK * blocks - 1), Err(Refused::Full));
        }
    }

    #[test]
    fn the_writer_refuses_in_order() {
        let mut path = vec![0.0; 2 * MOST_POINTS + 3];
        path[0] = f64::NAN;
        let due = |length: usize| write(&path[..length], 0).unwrap_err();
        assert_eq!(due(2 * MOST_POINTS + 3), Refused::TooManyPoints);
        assert_eq!(due(2 * MOST_POINTS + 2), Refused::TooManyPoints);
        assert_eq!(due(2 * MOST_POINTS + 1), Refused::Miscounted);
        assert_eq!(due(2 * MOST_POINTS), Refused::OffThePlate { place: 0 });
        assert_eq!(write(&path[2..4], 511), Err(Refused::Full));
    }

    #[test]
    fn the_reader_tests_blocks_in_file_order() {
        let file = file_of(&[0.25; 62]);
        assert_eq!(numbers(&file), [0, 62]);
        for (length, place) in [(0, 0), (511, 511), (512, 512), (700, 700), (1_023, 1_023)] {
            assert_eq!(numbers(&file[..length]), [9, place]);
        }
        let twice = file.repeat(2);
        assert_eq!(numbers(&twice[..1_025]), [9, 1_024]);
        assert_eq!(numbers(&twice), [9, 1_024]);
        let mut damaged = twice.clone();
        damaged[1_023] ^= 1;
        assert_eq!(numbers(&damaged), [8, 1]);
        assert_eq!(numbers(&damaged[..1_000]), [9, 1_000]);
        damaged[3] ^= 1;
        assert_eq!(numbers(&damaged[..700]), [8, 0]);
        assert_eq!(numbers(&damaged[..500]), [9, 500]);
    }

    #[test]
    fn each_fault_is_told_alone() {
        let file = file_of(&[1.0, 2.0, 3.0, 4.0]);
        let alone = |file: &[u8]| match read(file, 4) {
            Err(Refused::Damaged { block: 0, faults }) => {
                let mut wrong = WRONGS.iter().zip(faults).filter(|(_, is)| *is);
                let alone = wrong.next().map(|((wrong, _), _)| *wrong);
                assert!(wrong.next().is_none());
                alone
            }
            _ => None,
        };
        for (at, value, wrong) in [
            (0, 1, Wrong::Number),
            (3, 1, Wrong::Number),
            (4, 1, Wrong::UnusedPlace),
            (4, 32, Wrong::Count),
            (5, 1, Wrong::Count),
            (6, 1, Wrong::ZeroByte),
            (7, 255, Wrong::ZeroByte),
            (503, 128, Wrong::UnusedPlace),
            (40, 1, Wrong::UnusedPlace),
            (39, 0x7f, Wrong::Coordinate),
        ] {
            assert_eq!(alone(&altered(&file, at, value)), Some(wrong), "byte {at}");
        }
        for (at, wrong) in [(504, Wrong::FirstCheck), (511, Wrong::SecondCheck)] {
            let mut file = file.clone();
            file[at] ^= 1;
            assert_eq!(alone(&file), Some(wrong));
        }
        assert_eq!(numbers(&altered(&file, 4, 3)), [0, 6]);
        assert_eq!(numbers(&altered(&file, 23, 0xc0)), [0, 4]);
    }
}
