//! The plate file's writer and reader against the same in plain Rust, all tests and checks included,
//! of a path of 1,048,576 points. The pair of rounds with the median ratio counts.

use std::hint::black_box;
use std::time::Duration;

use harness::random::Random;
use twillharbor::c;

use crate::plates::{print, time};

const POINTS: usize = 1_048_576;
const ROUNDS: usize = 41;

pub fn report() {
    let mut random = Random::new(3);
    let path: Vec<f64> = (0..2 * POINTS).map(|_| (random.unit() - 0.5) * 2e6).collect();
    let mut files = [(); 2].map(|()| vec![1; BLOCK * (POINTS / PLACES + 1)]);
    let mut paths = [(); 2].map(|()| vec![1.0; path.len()]);
    println!("a path of {POINTS} points, a file of {} bytes", files[0].len());

    let [proved, rust] = &mut files;
    print_median(
        "write a file",
        || c::write_file(black_box(&path), proved).bytes as usize,
        || write(black_box(&path), rust).expect("the path is sound"),
    );
    assert!(files[0] == files[1], "the files differ");

    let file = &files[0];
    let [proved, rust] = &mut paths;
    print_median(
        "read a file",
        || c::read_file(black_box(file), proved).points as usize,
        || read(black_box(file), rust).expect("the file is sound"),
    );
    let bits = |path: &[f64]| path.iter().map(|c| c.to_bits()).collect::<Vec<_>>();
    assert!(paths.iter().all(|read| bits(read) == bits(&path)), "the paths differ");
    refused(file);
}

/// Both refuse a file whose last block is damaged, there.
fn refused(file: &[u8]) {
    let mut file = file.to_vec();
    let last = file.len() - 1;
    file[last] ^= 1;
    let mut path = vec![0.0; 2 * POINTS];
    let is = c::read_file(&file, &mut path);
    assert_eq!(read(&file, &mut path), Err((is.number, is.place as usize)));
    assert_eq!((is.number, is.place as usize), (8, last / BLOCK));
}

/// The two take turns, so that what else the machine does meets both. Each answers the same number.
fn print_median(call: &str, mut proved: impl FnMut() -> usize, mut rust: impl FnMut() -> usize) {
    assert_eq!(proved(), rust());
    let mut rounds: Vec<_> = (0..ROUNDS).map(|_| [time(&mut proved), time(&mut rust)]).collect();
    let ratio = |[proved, rust]: &[Duration; 2]| proved.as_secs_f64() / rust.as_secs_f64();
    rounds.sort_by(|a, b| ratio(a).total_cmp(&ratio(b)));
    print(call, rounds[ROUNDS / 2]);
}

const BLOCK: usize = 512;
const PLACES: usize = 31;
const CHECKED: usize = 504;

/// Number and place.
type Refused = (u32, usize);

fn is_on(coordinate: f64) -> bool {
    coordinate.abs() <= 1_000_000.0
}

fn checks(block: &[u8]) -> [u32; 2] {
    let (words, _) = block[..CHECKED].as_chunks();
    let (mut first, mut second) = (0_u32, 0_u32);
    for &word in words {
        first = first.wrapping_add(u32::from_le_bytes(word));
        second = second.wrapping_add(first);
    }
    [first, second]
}

fn write(path: &[f64], file: &mut [u8]) -> Result<usize, Refused> {
    let points = path.len() / 2;
    if points > POINTS {
        return Err((2, 0));
    }
    if path.len() % 2 == 1 {
        return Err((3, 0));
    }
    if let Some(place) = path.iter().position(|&c| !is_on(c)) {
        return Err((4, place));
    }
    let blocks = points / PLACES + 1;
    let Some(file) = file.get_mut(..BLOCK * blocks) else {
        return Err((6, 0));
    };
    let held = path.chunks(2 * PLACES).chain([&[][..]]);
    for ((number, block), held) in (0_u32..).zip(file.chunks_exact_mut(BLOCK)).zip(held) {
        block[..4].copy_from_slice(&number.to_le_bytes());
        block[4..8].copy_from_slice(&(held.len() as u32 / 2).to_le_bytes());
        let (places, unused) = block[8..CHECKED].split_at_mut(8 * held.len());
        for (place, coordinate) in places.chunks_exact_mut(8).zip(held) {
            place.copy_from_slice(&coordinate.to_le_bytes());
        }
        unused.fill(0);
        let [first, second] = checks(block);
        block[504..508].copy_from_slice(&first.to_le_bytes());
        block[508..].copy_from_slice(&second.to_le_bytes());
    }
    Ok(BLOCK * blocks)
}

/// The count of a sound block.
fn count(block: &[u8], number: u32) -> Option<usize> {
    let word = |from: usize| block[from..].first_chunk().map(|&word| u32::from_le_bytes(word));
    let [first, second] = checks(block);
    // With the two zero bytes behind it.
    let count = word(4)? as usize;
    if word(0)? != number || count > PLACES || word(504)? != first || word(508)? != second {
        return None;
    }
    let (used, unused) = block[8..CHECKED].split_at(16 * count);
    let (places, _) = used.as_chunks();
    let is_sound = places.iter().all(|&place| is_on(f64::from_le_bytes(place)))
        && unused.iter().all(|&byte| byte == 0);
    is_sound.then_some(count)
}

fn read(file: &[u8], path: &mut [f64]) -> Result<usize, Refused> {
    let mut points = 0;
    let mut is_closed = false;
    for (number, block) in file.chunks_exact(BLOCK).enumerate() {
        if is_closed {
            return Err((9, BLOCK * number));
        }
        let count = count(block, number as u32).ok_or((8, number))?;
        points += count;
        if points > POINTS {
            return Err((2, 0));
        }
        is_closed = count < PLACES;
    }
    if !is_closed {
        return Err((9, file.len()));
    }
    if !file.len().is_multiple_of(BLOCK) {
        return Err((9, file.len() / BLOCK * BLOCK));
    }
    let Some(path) = path.get_mut(..2 * points) else {
        return Err((6, 0));
    };
    for (block, held) in file.chunks_exact(BLOCK).zip(path.chunks_mut(2 * PLACES)) {
        for (place, coordinate) in block[8..].chunks_exact(8).zip(held) {
            *coordinate = f64::from_le_bytes(place.try_into().expect("a chunk has 8 bytes"));
        }
    }
    Ok(points)
}
