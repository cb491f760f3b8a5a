//! Plate files through the safe interface: the layout, what is read back, and every refusal. The
//! blocks to compare with are made here, from document 02's text.

mod block_checks;

use block_checks::seal;
use twillharbor::Refusal::{
    self, BlockDamaged, Full, Miscounted, OffThePlate, TooManyPoints, WrongEnd,
};
use twillharbor::{
    BLOCK_BYTES, BLOCK_POINTS, Point, file_bytes, file_points, read_file, read_file_into,
    write_file, write_file_into,
};

const LIMIT: f64 = 1_000_000.0;
const MOST: usize = 1_048_576;
/// Coordinates whose bits a careless copy would alter.
const ODD: [f64; 6] = [-0.0, 0.0, 5e-324, -LIMIT, LIMIT, 0.1];

/// A path of so many points.
fn path(points: usize) -> Vec<Point> {
    // Not even 0 is added to the first: that would make 0 of -0.
    let at = |place: usize| match ODD[place % ODD.len()] {
        odd if place > 40 => odd + place as f64 / 8.0,
        odd => odd,
    };
    let off = |c: f64| if c > LIMIT { c - LIMIT } else { c };
    (0..points).map(|i| Point { x: off(at(2 * i)), y: off(at(3 * i + 1)) }).collect()
}

fn bits(path: &[Point]) -> Vec<[u64; 2]> {
    path.iter().map(|p| [p.x.to_bits(), p.y.to_bits()]).collect()
}

/// A block by the document's text.
fn block(number: u32, points: &[Point]) -> Vec<u8> {
    let mut block = vec![0; BLOCK_BYTES];
    block[..4].copy_from_slice(&number.to_le_bytes());
    block[4..6].copy_from_slice(&(points.len() as u16).to_le_bytes());
    for (place, p) in block[8..504].chunks_mut(16).zip(points) {
        place[..8].copy_from_slice(&p.x.to_bits().to_le_bytes());
        place[8..].copy_from_slice(&p.y.to_bits().to_le_bytes());
    }
    seal(&mut block);
    block
}

/// A file of blocks with these counts, whether it is sound or not.
fn blocks(counts: &[usize]) -> Vec<u8> {
    let numbered = counts.iter().enumerate();
    numbered.flat_map(|(number, &count)| block(number as u32, &path(count))).collect()
}

/// What both functions answer of a file that is refused; nothing is altered.
#[track_caller]
fn refused(file: &[u8], refusal: Refusal) {
    assert_eq!(read_file(file), Err(refusal));
    let mut path = vec![7.0; 2 * file_points(file.len()).min(MOST)];
    assert_eq!(read_file_into(file, &mut path), Err(refusal));
    assert!(path.iter().all(|&c| c == 7.0));
}

#[test]
fn a_file_is_the_documents_blocks_and_is_read_back_bit_for_bit() {
    for points in [0, 1, 2, 30, 31, 32, 61, 62, 63, 93, 1_000] {
        let path = path(points);
        let file = write_file(&path).unwrap();
        assert_eq!((file.len(), file_points(file.len()) > points), (file_bytes(points), true));
        let mut rest = path.chunks(BLOCK_POINTS);
        let expected = (0..=points / BLOCK_POINTS)
            .flat_map(|number| block(number as u32, rest.next().unwrap_or_default()));
        assert_eq!(file, expected.collect::<Vec<u8>>(), "{points}");
        assert_eq!(bits(&read_file(&file).unwrap()), bits(&path), "{points}");
    }
}

#[test]
fn the_checks_are_sums_of_words() {
    // Block 0 of the point (1,-0): its words are 0, 1, 0, 0x3ff00000, 0, 0x80000000, and zeros.
    let file = write_file(&[Point { x: 1.0, y: -0.0 }]).unwrap();
    let word = |at: usize| u32::from_le_bytes(file[at..at + 4].try_into().unwrap());
    let [one, zero] = [0x3ff0_0000u32, 0x8000_0000];
    assert_eq!([0, 4, 8, 12, 16, 20, 24].map(word), [0, 1, 0, one, 0, zero, 0]);
    assert_eq!(word(504), 1 + one + zero);
    // The words at places 1, 3 and 5 are in 125, 123 and 121 of the 126 sums.
    let second = 125 + 123 * u64::from(one) + 121 * u64::from(zero);
    assert_eq!(u64::from(word(508)), second % (1 << 32));
}

#[test]
fn what_lies_beyond_the_result_is_unaltered() {
    let coordinates: Vec<f64> = path(31).iter().flat_map(|p| [p.x, p.y]).collect();
    let mut file = vec![7; 1_030];
    assert_eq!(write_file_into(&coordinates, &mut file), Ok(1_024));
    assert_eq!(file[1_024..], [7; 6]);
    let mut read = vec![7.0; 65];
    assert_eq!(read_file_into(&file[..1_024], &mut read), Ok(31));
    assert_eq!(read[62..], [7.0; 3]);
    let as_bits = |numbers: &[f64]| numbers.iter().map(|c| c.to_bits()).collect::<Vec<_>>();
    assert_eq!(as_bits(&read[..62]), as_bits(&coordinates));
}

#[test]
fn a_path_that_is_refused_alters_nothing() {
    let many = vec![f64::NAN; 2 * MOST + 3];
    let mut sound: Vec<f64> = path(40).iter().flat_map(|p| [p.x, p.y]).collect();
    let assert = |path: &[f64], held: usize, refusal: Refusal| {
        let mut file = vec![7; held];
        assert_eq!(write_file_into(path, &mut file), Err(refusal));
        assert!(file.iter().all(|&byte| byte == 7));
    };
    // Of several the first tested wins.
    assert(&many, 0, TooManyPoints);
    assert(&many[..2 * MOST + 2], 0, TooManyPoints);
    assert(&many[..2 * MOST + 1], 0, Miscounted);
    assert(&many[..2 * MOST], 0, OffThePlate { place: 0 });
    assert(&sound[..79], 5, Miscounted);
    assert(&sound, 1_023, Full { place: 0 });
    assert(&[], 511, Full { place: 0 });
    sound[79] = f64::INFINITY;
    for off in [LIMIT.next_up(), -LIMIT.next_up(), f64::NEG_INFINITY, f64::NAN] {
        for place in [0, 1, 62, 79] {
            let mut path = sound.clone();
            path[place] = off;
            assert(&path, 1_024, OffThePlate { place: place as u32 });
            assert(&path, 0, OffThePlate { place: place as u32 });
        }
    }
    let off = [Point { x: 0.0, y: 0.0 }, Point { x: 0.0, y: f64::NAN }];
    assert_eq!(write_file(&off), Err(OffThePlate { place: 3 }));
    assert_eq!(write_file(&vec![off[0]; MOST + 1]), Err(TooManyPoints));
}

#[test]
fn the_longest_path_is_written_and_read() {
    let longest = path(MOST);
    let file = write_file(&longest).unwrap();
    assert_eq!(file.len(), 33_826 * BLOCK_BYTES);
    assert_eq!(bits(&read_file(&file).unwrap()), bits(&longest));
    // A point more in the last block, and then a full last block: 2 wins over 9, and 8 over 2.
    let body = &file[..33_825 * BLOCK_BYTES];
    for count in [2, 31] {
        let last = block(33_825, &path(count));
        refused(&[body, &last].concat(), TooManyPoints);
        refused(&[body, &last, &[0]].concat(), TooManyPoints);
        let mut damaged = last;
        damaged[9] ^= 1;
        refused(&[body, &damaged].concat(), BlockDamaged { place: 33_825 });
    }
    refused(&[&file[..], &[0]].concat(), WrongEnd { place: 33_826 * 512 });
}

#[test]
fn every_byte_of_a_block_counts() {
    for count in [0, 1, 30, 31] {
        let counts = if count == 31 { vec![31, 31, 0] } else { vec![31, count] };
        let sound = blocks(&counts);
        read_file(&sound).unwrap();
        for at in 0..BLOCK_BYTES {
            for damage in [1, 0x80, 0xff] {
                let mut file = sound.clone();
                file[BLOCK_BYTES + at] ^= damage;
                refused(&file, BlockDamaged { place: 1 });
                // A damaged closing block is told before what follows it.
                file.push(0);
                refused(&file, BlockDamaged { place: 1 });
            }
        }
    }
}

/// Damage that both checks agree with.
#[test]
fn damage_is_found_though_the_checks_are_right() {
    let damaged = |count: usize, at: usize, bytes: &[u8]| {
        let mut file = blocks(&[31, count]);
        let block = &mut file[BLOCK_BYTES..];
        block[at..at + bytes.len()].copy_from_slice(bytes);
        seal(block);
        refused(&file, BlockDamaged { place: 1 });
    };
    for number in [0u32, 2, 257, 1 << 24 | 1, u32::MAX] {
        damaged(5, 0, &number.to_le_bytes());
    }
    for count in [32u16, 33, 256, 256 + 5, u16::MAX] {
        damaged(5, 4, &count.to_le_bytes());
    }
    // A lower count leaves a point in a place that is unused then.
    damaged(5, 4, &4u16.to_le_bytes());
    damaged(5, 6, &[1]);
    damaged(5, 7, &[128]);
    for (count, place) in [(0, 0), (5, 5), (5, 17), (30, 30)] {
        let (first, last) = (8 + 16 * place, 8 + 16 * place + 15);
        damaged(count, first, &[1]);
        damaged(count, last, &[1]);
        // -0, whose bits are not zero.
        damaged(count, first, &(-0.0f64).to_bits().to_le_bytes());
    }
    for off in [LIMIT.next_up(), -LIMIT.next_up(), f64::INFINITY, f64::NAN, -f64::NAN] {
        for coordinate in [0, 1, 8, 9] {
            damaged(5, 8 + 8 * coordinate, &off.to_bits().to_le_bytes());
        }
    }
}

#[test]
fn the_end_of_a_file_is_where_its_closing_block_ends() {
    refused(&[], WrongEnd { place: 0 });
    refused(&[0; 511], WrongEnd { place: 511 });
    refused(&blocks(&[31]), WrongEnd { place: 512 });
    // A full block and 188 bytes more, and a closing block and whatever follows it.
    refused(&[&blocks(&[31])[..], &[9; 188]].concat(), WrongEnd { place: 700 });
    refused(&[&blocks(&[5])[..], &[9; 1]].concat(), WrongEnd { place: 512 });
    refused(&[&blocks(&[5])[..], &[9; 600]].concat(), WrongEnd { place: 512 });
    refused(&blocks(&[31, 0, 0]), WrongEnd { place: 1_024 });
    refused(&blocks(&[31, 31, 31])[..1_500], WrongEnd { place: 1_500 });
    // Blocks are tested in their order.
    let mut file = blocks(&[31, 31, 31]);
    file[1_030] ^= 1;
    refused(&file, BlockDamaged { place: 2 });
    file[520] ^= 1;
    refused(&file, BlockDamaged { place: 1 });
}

#[test]
fn a_path_slice_that_is_short_is_full_after_all_else() {
    let file = blocks(&[31, 5]);
    for held in [0, 1, 62, 71] {
        let mut path = vec![7.0; held];
        assert_eq!(read_file_into(&file, &mut path), Err(Full { place: 0 }));
        assert!(path.iter().all(|&c| c == 7.0));
        let longer = [&file[..], &[0]].concat();
        assert_eq!(read_file_into(&longer, &mut path), Err(WrongEnd { place: 1_024 }));
    }
    assert_eq!(read_file_into(&file, &mut [7.0; 72]), Ok(36));
    assert_eq!(read_file_into(&blocks(&[0]), &mut []), Ok(0));
}
