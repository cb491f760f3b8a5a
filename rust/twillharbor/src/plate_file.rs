//! The plate file: a path, without its marks, as the controller takes it. All numbers in it are
//! little-endian, and it is blocks of 512 bytes:
//!
//! | bytes | |
//! |---|---|
//! | 0 to 3 | the block's number, from 0 |
//! | 4 and 5 | its count of points, 0 to 31 |
//! | 6 and 7 | zero |
//! | 8 to 503 | 31 places of 16 bytes: a point's x, then its y, each the bits of its f64; places that no point takes are zero |
//! | 504 to 507 | the first check: the sum of the block's first 126 u32, modulo 2^32 |
//! | 508 to 511 | the second check: that sum after each of them, added up, modulo 2^32 |
//!
//! A block with fewer than 31 points closes the file; where the number of points is a multiple of
//! 31, 0 too, that block holds none.

use crate::retrace::MOST_PATH_POINTS;
use crate::{Point, Refusal, c, refusal};

/// How many bytes a block of a plate file has.
pub const BLOCK_BYTES: usize = 512;
/// How many points a block of a plate file holds at most.
pub const BLOCK_POINTS: usize = 31;

/// How many bytes the plate file of so many points has, of which a path has at most 1,048,576.
#[must_use]
pub const fn file_bytes(points: usize) -> usize {
    BLOCK_BYTES * (points / BLOCK_POINTS + 1)
}

/// How many points a plate file of so many bytes holds at most.
#[must_use]
pub const fn file_points(bytes: usize) -> usize {
    bytes / BLOCK_BYTES * BLOCK_POINTS
}

/// The plate file of a path. A path has one file, which [`read_file`] reads back bit for bit.
///
/// ```
/// use twillharbor::{Point, Refusal, read_file, write_file};
///
/// let path = [Point { x: 0.1, y: -0.0 }, Point { x: 4.0, y: 1.0 }];
/// let mut file = write_file(&path).unwrap();
/// assert_eq!(file.len(), 512);
/// assert_eq!(read_file(&file).unwrap(), path);
/// file[9] ^= 1;
/// assert_eq!(read_file(&file), Err(Refusal::BlockDamaged { place: 0 }));
/// ```
///
/// # Errors
///
/// [`TooManyPoints`](Refusal::TooManyPoints) above 1,048,576 points, and
/// [`OffThePlate`](Refusal::OffThePlate) with the place of the first such coordinate, a point's x
/// being twice the point's and its y the next.
pub fn write_file(path: &[Point]) -> Result<Vec<u8>, Refusal> {
    // Of a longer path more are not looked at: it is refused for that.
    let held = &path[..path.len().min(MOST_PATH_POINTS + 1)];
    let coordinates: Vec<f64> = held.iter().flat_map(|p| [p.x, p.y]).collect();
    let mut file = vec![0; file_bytes(held.len())];
    let bytes = write_file_into(&coordinates, &mut file)?;
    file.truncate(bytes);
    Ok(file)
}

/// [`write_file`] from and into lent slices: gives the number of bytes.
///
/// A path point is two numbers of `path`, horizontal then vertical. `file` has room for the bytes
/// that [`file_bytes`] tells. What lies beyond the file's bytes is unaltered.
///
/// # Errors
///
/// [`TooManyPoints`](Refusal::TooManyPoints), for which an odd length of `path` is rounded down,
/// [`Miscounted`](Refusal::Miscounted) where that length is odd,
/// [`OffThePlate`](Refusal::OffThePlate), and [`Full`](Refusal::Full) with place 0 where `file` is
/// shorter than the file. None of them alters a slice.
pub fn write_file_into(path: &[f64], file: &mut [u8]) -> Result<usize, Refusal> {
    let result = c::write_file(path, file);
    refusal::accepted_write(result.number, result.place, path.len())?;
    Ok(result.bytes as usize)
}

/// The path that a plate file holds. Whatever is read is what [`write_file`] writes for that path:
/// every byte of the file counts.
///
/// # Errors
///
/// Block by block: [`WrongEnd`](Refusal::WrongEnd) with the file's length where less than a block is
/// left; [`BlockDamaged`](Refusal::BlockDamaged);
/// [`TooManyPoints`](Refusal::TooManyPoints) where there are more than 1,048,576 up to this block;
/// and [`WrongEnd`](Refusal::WrongEnd) with the block's end where it has fewer than 31 points and
/// bytes follow it.
pub fn read_file(file: &[u8]) -> Result<Vec<Point>, Refusal> {
    let mut path = vec![0.0; 2 * file_points(file.len()).min(MOST_PATH_POINTS)];
    let points = read_file_into(file, &mut path)?;
    let (path, _) = path[..2 * points].as_chunks();
    Ok(path.iter().map(|&[x, y]| Point { x, y }).collect())
}

/// [`read_file`] into a lent slice: gives the number of path points.
///
/// A path point is two numbers of `path`, horizontal then vertical. There are at most
/// [`file_points`] of them. What lies beyond them is unaltered.
///
/// # Errors
///
/// Those of [`read_file`], and after all of them [`Full`](Refusal::Full) with place 0 where `path`
/// has no room for the points. None of them alters a slice.
pub fn read_file_into(file: &[u8], path: &mut [f64]) -> Result<usize, Refusal> {
    let result = c::read_file(file, path);
    refusal::accepted_read(result.number, result.place, file.len())?;
    Ok(result.points as usize)
}
