//! The reference's answers as text, to be replayed where no Rust runs.
//!
//! A file is a list of words. A word is 16 lower-case hexadecimal digits and then one space
//! or newline: the bits of an f64, or a whole number. The first word is the number of rows;
//! then come the rows, one after the other. The reference refuses nothing: a refusal in a
//! row is the documents' rule.
//!
//! A row of the distance call is eight words: a.x, a.y, b.x, b.y, the number, the place, the
//! squared and the plain distance. In a refusal both distances are 0.
//!
//! A row of the start, order and straight calls is, in this order:
//!
//! - eleven words: the number of coordinates, the number of contours, the number of layers, width,
//!   height, the strategy (0 for Outside, 1 for Inside and 2 for Home), the lengths of the order
//!   slice, of the path slice and of the work slice, the same for order and straight, and the
//!   parked point's x and y, which are 0 but for Home;
//! - the coordinates; the contours' lengths; the layers;
//! - the start call's number, place, contour and reversed;
//! - the order call's number, place and entries, then the whole order slice as the call
//!   leaves it, where every element was [`ORDER_FILL`];
//! - the straight call's number, place and points, then the whole path slice as the call
//!   leaves it, where every element was [`PATH_FILL`].
//!
//! A plate has at most 40 coordinates, 12 contours and 16 layers, and each slice at most 64
//! elements.
//!
//! The rows of the retrace call are described in `retrace`, those of the check of a path in `paths`,
//! those of the contours call in `contours`, those of the plate file in `files`.

pub mod contours;
pub mod files;
mod home;
mod in_layers;
mod length_plates;
pub mod paths;
pub mod retrace;
mod told_apart;
mod touch_plates;

use harness::random::Random;
use twillharbor::StartPointStrategy::{self, Home, Inside, Outside};
use twillharbor::{Point, Size};

use crate::distances::{Answer, expected};
use crate::floats::power;
use crate::layers;
use crate::lent_slices::Number;
use crate::pairs::{self, Pair, pair};
use crate::parked_points;
use crate::plates::{self, Damage, Plate, small_plate};
use crate::reference::results;
use crate::rule;

/// How many rows there are of each kind of pair.
const PAIRS: usize = 24;
/// How many rows there are of each kind of plate.
const PLATES: usize = 4;

/// What an order slice holds before the call.
const ORDER_FILL: u32 = 0xa5a5_a5a5;
/// What a path slice holds before the call.
const PATH_FILL: f64 = 100.0;

const MOST_COORDINATES: usize = 40;
const MOST_LENGTHS: usize = 12;
const MOST_LAYERS: usize = 16;
const MOST_ELEMENTS: usize = 64;

/// A file as it is written.
#[derive(Debug, Default)]
struct Words(String);

impl Words {
    /// The words on a line of their own, if there are any.
    fn line(&mut self, words: impl IntoIterator<Item = u64>) {
        let words: Vec<String> = words.into_iter().map(|word| format!("{word:016x}")).collect();
        if !words.is_empty() {
            self.0 += &words.join(" ");
            self.0 += "\n";
        }
    }

    /// What a slice holds.
    fn slice<T: Number>(&mut self, slice: &[T]) {
        self.line(slice.iter().map(|number| number.bits()));
    }
}

/// The file of these rows, each of which is written in this way.
fn file_of<R>(rows: &[R], write: impl Fn(&mut Words, &R)) -> String {
    let mut words = Words::default();
    words.line([rows.len() as u64]);
    rows.iter().for_each(|row| write(&mut words, row));
    words.0
}

/// The rows of the distance call: document 01's plates H and I, the limit and the numbers
/// next to it, pairs that tell rules apart, then the same number of each kind.
pub fn distances() -> String {
    const LIMIT: f64 = pairs::LIMIT;
    let mut random = Random::new(8);
    let mut pairs: Vec<Pair> = vec![
        [0.0, 0.0, 3.0, 4.0],
        [0.0, 0.0, 1.0 + power(-27), 1.25 * power(-27)],
        [LIMIT, -LIMIT, -LIMIT, LIMIT],
        [LIMIT.next_up(), LIMIT, LIMIT, LIMIT],
        [LIMIT, -LIMIT.next_up(), LIMIT, LIMIT],
        [LIMIT, LIMIT, LIMIT.next_up(), LIMIT],
        [LIMIT, LIMIT, LIMIT, -LIMIT.next_up()],
        // the difference is rounded first; a root that is rounded down; a squared distance that is
        // subnormal
        [0.0, 1.0, 0.0, -3.0 * power(-55)],
        [0.0, 0.0, 2.0, 3.0],
        [0.0, 0.0, 3.0 * power(-538), 0.0],
        // at the limit and off it
        [LIMIT, 0.0, -LIMIT, 0.0],
        [0.0, 0.0, LIMIT.next_up(), 0.0],
        [f64::NEG_INFINITY, 0.0, 0.0, 0.0],
        [0.0, 0.0, 0.0, f64::NAN],
    ];
    for (kind, _) in pairs::KINDS {
        pairs.extend((0..PAIRS).map(|_| pair(kind, &mut random)));
    }
    for (damage, _) in pairs::DAMAGES {
        pairs.extend((0..PAIRS).map(|_| pairs::damaged(damage, &mut random)));
    }
    file_of(&pairs, write_pair)
}

fn write_pair(words: &mut Words, pair: &Pair) {
    let [ax, ay, bx, by] = pair.map(f64::to_bits);
    let (number, place, squared, plain) = match expected(*pair) {
        Answer::Apart(squared, plain) => (0, 0, squared, plain),
        Answer::Refused(number, place) => (number, place, 0, 0),
    };
    words.line([ax, ay, bx, by, number.into(), place.into(), squared, plain]);
}

/// A plate and the slices that are lent for it.
#[derive(Debug, Clone)]
struct Row {
    plate: Plate,
    strategy: StartPointStrategy,
    order: usize,
    path: usize,
    work: usize,
}

/// The rows of the start, order and straight calls: document 01's plates A to G and others
/// that separate one rule from another, plates that document 02's layers decide, then the same
/// number of each kind of plate, in layers, and of damage. Then come the rows of Home: plates that
/// the parked point decides, and one of each kind. Last come plates that tell rules apart.
pub fn plates() -> String {
    file_of(&rows(), write_row)
}

fn rows() -> Vec<Row> {
    let random = &mut Random::new(13);
    let of_layers = &mut Random::new(14);
    let mut rows: Vec<Row> = [fixed(), in_layers::sound()]
        .concat()
        .into_iter()
        .flat_map(|plate| [Outside, Inside].map(|strategy| row(plate.clone(), strategy, 0, random)))
        .collect();
    for (turn, plate) in in_layers::refused().into_iter().enumerate() {
        rows.push(row(plate, [Outside, Inside][turn % 2], turn, random));
    }
    for (kind, _) in plates::KINDS {
        for turn in 0..PLATES {
            let strategy = [Outside, Inside][turn % 2];
            let plate = layers::in_layers(small_plate(kind, random), of_layers);
            // The slices in turn over all kinds, so that each meets each.
            rows.push(row(plate, strategy, rows.len() / 2, random));
        }
    }
    for damage in fitting_damages() {
        for turn in 0..PLATES {
            let copy = damaged_copy(damage, random);
            rows.push(row(copy, [Outside, Inside][turn % 2], turn, random));
        }
    }
    rows.extend(home_rows(15, |_, _| true, row));
    rows.extend(told_apart_rows());
    rows
}

/// Those that are not refused fit.
fn told_apart_rows() -> Vec<Row> {
    let random = &mut Random::new(17);
    let ordered = told_apart::ordered().into_iter();
    let mut rows: Vec<Row> =
        ordered.map(|(plate, strategy)| row(plate, strategy, 0, random)).collect();
    rows.extend(
        told_apart::refused().into_iter().map(|(plate, strategy, [order, path, work])| Row {
            plate,
            strategy,
            order,
            path,
            work,
        }),
    );
    rows
}

/// Rows with parked points: of plates that these decide, and of a plate of each kind that suits with
/// its point.
fn home_rows<R>(
    seed: u64,
    suits: impl Fn(&Plate, Point) -> bool,
    row: impl Fn(Plate, StartPointStrategy, usize, &mut Random) -> R,
) -> Vec<R> {
    let (random, of_layers) = (&mut Random::new(seed), &mut Random::new(seed + 1));
    let mut rows = Vec::new();
    for (plate, point) in home::sound() {
        rows.push(row(plate, Home(point), 0, random));
    }
    for (turn, (plate, point)) in home::refused().into_iter().enumerate() {
        rows.push(row(plate, Home(point), turn, random));
    }
    for (turn, (kind, _)) in plates::KINDS.into_iter().enumerate() {
        let (plate, point) = loop {
            let plate = layers::in_layers(small_plate(kind, random), of_layers);
            let point = parked_points::on_the_plate(&plate, random);
            if suits(&plate, point) {
                break (plate, point);
            }
        };
        rows.push(row(plate, Home(point), turn, random));
    }
    rows
}

fn fits(plate: &Plate) -> bool {
    plate.points.len() <= MOST_COORDINATES
        && plate.lengths.len() <= MOST_LENGTHS
        && plate.layers.len() <= MOST_LAYERS
}

/// Too many contours do not fit in a row.
fn fitting_damages() -> impl Iterator<Item = Damage> {
    plates::DAMAGES.into_iter().filter(|&damage| damage != Damage::ManyContours)
}

/// A plate with this damage that is refused for it and fits in a row.
fn damaged_copy(damage: Damage, random: &mut Random) -> Plate {
    loop {
        let (kind, _) = random.pick(&plates::KINDS);
        let copy = plates::damaged(&small_plate(kind, random), damage, random);
        if fits(&copy) && rule::checked(&copy, Inside).is_err() {
            return copy;
        }
    }
}

fn row(plate: Plate, strategy: StartPointStrategy, turn: usize, random: &mut Random) -> Row {
    let contours = plate.lengths.len();
    let entries = plate.lengths.iter().filter(|&&length| length > 0).count();
    let work = match turn % 9 {
        3 => contours.saturating_sub(1),
        5 => contours + random.below(8) as usize,
        _ => contours,
    };
    let mut slice = |count: usize| match turn % 8 {
        0 | 1 => 2 * count,
        2 => 2 * count + 1,
        3 => (2 * count).saturating_sub(2),
        4 => count,
        5 => (2 * count).saturating_sub(1),
        6 => random.below(2) as usize,
        _ => 2 * count + 2 + random.below(20) as usize,
    };
    let order = slice(entries);
    let path = slice(plate.points.len() / 2);
    Row { plate, strategy, order, path, work }
}

fn fixed() -> Vec<Plate> {
    const LIMIT: f64 = plates::LIMIT;
    const BEYOND: f64 = LIMIT.next_up();
    const TINY: f64 = 1.0 / 134_217_728.0;
    let plates: [(Contours, u32, u32); 21] = [
        // A, and with contours that are skipped
        (&[], 0, 0),
        (&[&[], &[], &[]], 10, 10),
        // B to G
        (&[&[(0.0, 0.0), (4.0, 0.0)]], 10, 10),
        (&[&[(0.0, 0.0), (10.0, 0.0)]], 10, 10),
        (&[&[(0.0, 0.0), (4.0, 0.0)], &[(4.0, 1.0), (8.0, 1.0)]], 8, 2),
        (&[&[(0.0, 0.0), (4.0, 0.0), (8.0, 0.0)], &[(0.0, 1.0)]], 0, 0),
        (&[&[(4.0, 0.0)], &[(0.0, 1.0), (4.0, 1.0), (8.0, 1.0)]], 8, 0),
        (&[&[(0.0, 0.0)], &[(1.0, 0.0)], &[(0.0, 1.0)]], 0, 0),
        // skipped contours are counted
        (&[&[], &[(0.0, 0.0), (4.0, 0.0)], &[], &[(9.0, 0.0), (5.0, 0.0)]], 10, 10),
        // the first of equal contours starts, forward
        (&[&[(1.0, 0.0), (0.0, 1.0)], &[(0.0, 1.0), (1.0, 0.0)]], 0, 0),
        // forward where forward is as near as reverse; the lower contour where two are as near
        (&[&[(0.0, 0.0)], &[(2.0, 0.0), (0.0, 2.0)], &[(0.0, 2.0), (2.0, 0.0)]], 0, 0),
        (&[&[(5.0, 5.0), (0.0, 0.0)], &[(0.0, 3.0)], &[(3.0, 0.0)], &[(-3.0, 0.0)]], 10, 10),
        // a lower contour that is nearer in reverse
        (&[&[(0.0, 0.0)], &[(9.0, 0.0), (1.0, 0.0)], &[(1.0, 0.0), (9.0, 0.0)]], 0, 0),
        // plate I's point: as far away as the other if both products were rounded
        (&[&[(1.0 + TINY, 0.0)], &[(1.0 + TINY, 1.25 * TINY)]], 0, 0),
        (&[&[(0.0, 0.0)], &[(1.0 + TINY, 1.25 * TINY)], &[(1.0 + TINY, 0.0)]], 0, 0),
        // 0 and -0 are as near, and each keeps its bits
        (&[&[(0.0, -0.0)], &[(-0.0, 0.0), (-0.0, -0.0)], &[(0.0, 0.0)]], 0, 0),
        // the centre is at halves
        (&[&[(1.0, 1.0), (2.0, 2.0)]], 3, 3),
        (&[&[(0.0, 0.0), (1.0, 0.0)], &[(1.0, 1.0)]], u32::MAX, u32::MAX),
        // the limit and the number above it
        (&[&[(LIMIT, -LIMIT), (-LIMIT, LIMIT)], &[(LIMIT, LIMIT)]], 0, u32::MAX),
        (&[&[(LIMIT, -LIMIT), (-LIMIT, LIMIT)], &[(LIMIT, BEYOND)]], 0, 0),
        (&[&[(LIMIT, -LIMIT), (-BEYOND, LIMIT)], &[(LIMIT, BEYOND)]], 0, 0),
    ];
    let plates = plates.map(|(contours, width, height)| plate_of(contours, Size { width, height }));
    [&plates[..], &refused_plates()].concat()
}

/// Contours as they are written out.
type Contours = &'static [&'static [(f64, f64)]];

fn plate_of(contours: &[&[(f64, f64)]], size: Size) -> Plate {
    let points = contours.concat().iter().flat_map(|&(x, y)| [x, y]).collect();
    let lengths = contours.iter().map(|contour| contour.len() as u32).collect();
    Plate::new(points, lengths, size)
}

/// Plates that are refused. More than one refusal's condition holds, but for the first and the
/// last.
fn refused_plates() -> Vec<Plate> {
    const BEYOND: f64 = plates::LIMIT.next_up();
    let refused: [(&[f64], &[u32]); 8] = [
        (&[], &[65_536, 1]),
        (&[], &[u32::MAX, 1]),
        (&[1.0, 1.0], &[1 << 31, 1, 1 << 31]),
        (&[f64::NAN], &[65_537]),
        (&[f64::NAN, 1.0], &[2]),
        (&[f64::INFINITY, 1.0, 1.0], &[1]),
        (&[1.0, -BEYOND], &[]),
        (&[1.0, 1.0], &[0, 0]),
    ];
    let refused = refused
        .map(|(points, lengths)| Plate::new(points.to_vec(), lengths.to_vec(), Size::default()));
    refused.to_vec()
}

fn write_row(words: &mut Words, row: &Row) {
    let Row { plate, strategy, order, path, work } = row;
    assert!((*order).max(*path).max(*work) <= MOST_ELEMENTS);
    write_plate(words, plate, *strategy, &[*order, *path, *work]);

    let due = results(plate, *strategy).expect("the rules agree");
    let contours = plate.lengths.len();
    let start = match due.as_ref().map(|results| results.start) {
        Ok(Some([contour, reversed])) => [0, 0, contour, reversed],
        Ok(None) => [7, 0, 0, 0],
        Err(&(number, place)) => [number, place, 0, 0],
    };
    words.line(start.map(u64::from));
    let entries = due.as_ref().map(|results| &results.order[..]).map_err(|&refused| refused);
    let outcome = rule::outcome(entries, contours, *work, rule::order_room(*order));
    write_outcome(words, outcome, *order, ORDER_FILL);
    let points = due.as_ref().map(|results| &results.straight[..]).map_err(|&refused| refused);
    let outcome = rule::outcome(points, contours, *work, rule::straight_room(*path));
    write_outcome(words, outcome, *path, PATH_FILL);
}

/// The words of a row before its answers: the plate, the strategy and the lengths of the slices.
fn write_plate(words: &mut Words, plate: &Plate, strategy: StartPointStrategy, slices: &[usize]) {
    assert!(fits(plate));
    let Plate { points, lengths, layers, size } = plate;
    let counts = [points.len(), lengths.len(), layers.len()].map(|count| count as u64);
    let (strategy, parked) = match strategy {
        Outside => (0, [0; 2]),
        Inside => (1, [0; 2]),
        Home(Point { x, y }) => (2, [x, y].map(f64::to_bits)),
    };
    let numbers = [size.width.into(), size.height.into(), strategy];
    let slices = slices.iter().map(|&length| length as u64);
    words.line(counts.into_iter().chain(numbers).chain(slices).chain(parked));
    words.slice(points);
    words.slice(lengths);
    words.slice(layers);
}

fn write_outcome<T: Number>(
    words: &mut Words,
    (answer, written): ([u32; 3], &[[T; 2]]),
    slice: usize,
    fill: T,
) {
    words.line(answer.map(u64::from));
    words.slice(&after(written.as_flattened(), slice, fill));
}

/// A slice of that length as a call leaves it that was filled before: what was written stands at its
/// start.
fn after<T: Copy>(written: &[T], length: usize, fill: T) -> Vec<T> {
    let mut slice = vec![fill; length];
    slice[..written.len()].copy_from_slice(written);
    slice
}

#[cfg(test)]
mod tests {
    use twillharbor::c;

    use super::{
        MOST_COORDINATES, MOST_ELEMENTS, MOST_LAYERS, MOST_LENGTHS, ORDER_FILL, PATH_FILL,
        distances, plates,
    };

    /// A program that replays plates reads fewer bytes than this.
    pub const MOST_BYTES: usize = 393_216;

    /// The words of a file, each with exactly one separator after it.
    pub fn words(text: &str) -> Vec<u64> {
        let (words, rest) = text.as_bytes().as_chunks::<17>();
        assert!(rest.is_empty());
        let word = |word: &[u8; 17]| {
            let [digits @ .., b' ' | b'\n'] = word else {
                panic!("no separator after {word:?}");
            };
            assert!(digits.iter().all(|digit| matches!(digit, b'0'..=b'9' | b'a'..=b'f')));
            let digits = str::from_utf8(digits).expect("they are digits");
            u64::from_str_radix(digits, 16).expect("they are sixteen")
        };
        words.iter().map(word).collect()
    }

    /// A plate as it is read from a row.
    pub struct Read {
        pub points: Vec<f64>,
        pub lengths: Vec<u32>,
        pub layers: Vec<u32>,
        /// Width and height.
        pub size: [u32; 2],
        pub inside: bool,
        /// The parked point, if the strategy is Home.
        pub home: Option<[f64; 2]>,
    }

    /// Reads a plate as a program without Rust would, and the lengths of the slices lent for it.
    pub fn read_plate<const N: usize>(mut next: impl FnMut() -> u64) -> (Read, [usize; N]) {
        let [coordinates, contours, layers] = [(); 3].map(|()| next() as usize);
        assert!(coordinates <= MOST_COORDINATES && contours <= MOST_LENGTHS);
        assert!(layers <= MOST_LAYERS);
        let size = [(); 2].map(|()| u32::try_from(next()).unwrap());
        let strategy = next();
        assert!(strategy <= 2, "strategy {strategy}");
        let slices = [(); N].map(|()| next() as usize);
        let parked = [(); 2].map(|()| f64::from_bits(next()));
        let home = (strategy == 2).then_some(parked);
        assert!(home.is_some() || parked.map(f64::to_bits) == [0, 0]);
        let points = (0..coordinates).map(|_| f64::from_bits(next())).collect();
        let [lengths, layers] = [contours, layers]
            .map(|count| (0..count).map(|_| u32::try_from(next()).unwrap()).collect());
        (Read { points, lengths, layers, size, inside: strategy == 1, home }, slices)
    }

    #[test]
    fn distances_cover_results_and_every_place() {
        let text = distances();
        let words = words(&text);
        let (rows, rest) = words[1..].as_chunks::<8>();
        assert!(rest.is_empty());
        assert_eq!(words[0], rows.len() as u64);
        let mut results = 0;
        let mut refused = [0; 4];
        for row in rows {
            match (row[4], row[5]) {
                (0, 0) => results += 1,
                (4, place) => refused[place as usize] += 1,
                other => panic!("{other:?}"),
            }
        }
        assert!(results > 300 && refused.iter().all(|&n| n > 10), "{results} {refused:?}");
        let h = [0.0, 0.0, 3.0, 4.0, 0.0, 0.0, 25.0, 5.0].map(f64::to_bits);
        assert_eq!(rows[0], h);
        // The count is a line of its own, and each row is.
        assert!(text.lines().enumerate().all(|(i, l)| l.len() == if i == 0 { 16 } else { 135 }));
    }

    /// Reads the rows as a program without Rust would, and calls the library.
    #[test]
    fn the_library_gives_what_the_plates_record() {
        let text = plates();
        assert!(text.len() < MOST_BYTES, "{} bytes", text.len());
        let mut words = words(&text).into_iter();
        let mut next = || words.next().expect("the row has another word");
        let rows = next();
        let (mut numbers, mut of_home) = ([[0; 14]; 3], [0; 14]);
        for _ in 0..rows {
            let (plate, [order, path, work]) = read_plate(&mut next);
            let Read { points, lengths, layers, size: [width, height], inside, home } = plate;
            assert!(order.max(path).max(work) <= MOST_ELEMENTS);

            let r = if let Some([x, y]) = home {
                c::start_home(&points, &lengths, &layers, x, y)
            } else {
                c::start(&points, &lengths, &layers, width, height, inside)
            };
            let answer = [r.number, r.place, r.contour, r.reversed].map(u64::from);
            assert_eq!(answer, [(); 4].map(|()| next()));
            numbers[0][r.number as usize] += 1;
            of_home[r.number as usize] += u32::from(home.is_some());

            let mut slice = vec![ORDER_FILL; order];
            let mut lent = vec![7; work];
            let (slice_lent, work) = (&mut slice, &mut lent);
            let r = if let Some([x, y]) = home {
                c::order_home(&points, &lengths, &layers, x, y, slice_lent, work)
            } else {
                c::order(&points, &lengths, &layers, width, height, inside, slice_lent, work)
            };
            assert_eq!([r.number, r.place, r.entries].map(u64::from), [(); 3].map(|()| next()));
            slice.iter().for_each(|&n| assert_eq!(u64::from(n), next()));
            numbers[1][r.number as usize] += 1;

            let mut slice = vec![PATH_FILL; path];
            let (slice_lent, work) = (&mut slice, &mut lent);
            let r = if let Some([x, y]) = home {
                c::straight_home(&points, &lengths, &layers, x, y, slice_lent, work)
            } else {
                c::straight(&points, &lengths, &layers, width, height, inside, slice_lent, work)
            };
            assert_eq!([r.number, r.place, r.points].map(u64::from), [(); 3].map(|()| next()));
            slice.iter().for_each(|&x| assert_eq!(x.to_bits(), next()));
            numbers[2][r.number as usize] += 1;
        }
        assert_eq!(words.next(), None);
        // Every number but 1 that the call can give is there, several times.
        for (call, due) in [[0, 2, 3, 13, 4, 7, 7], [0, 2, 3, 13, 4, 5, 6], [0, 2, 3, 13, 4, 5, 6]]
            .iter()
            .enumerate()
        {
            assert!(due.iter().all(|&number| numbers[call][number] >= 4), "{numbers:?}");
        }
        // With Home there are results, and the start call's refusals beside 1.
        assert!(of_home[0] >= 40 && of_home[4] >= 12, "{of_home:?}");
        assert!([2, 3, 13, 7].iter().all(|&number| of_home[number] > 0), "{of_home:?}");
    }
}
