//! Document 01's refusals, start and order once more, with document 02's layers and its parked
//! point, written from their text and apart from the reference. The refusals are not the
//! reference's: it refuses nothing.

pub mod lengths;
pub mod retrace;

use twillharbor::StartPointStrategy::{self, Home, Inside, Outside};
use twillharbor::{Point, Size};

use crate::plates::Plate;

/// The number and the place of a refusal.
pub type Refused = (u32, u32);

/// The number of the refusal for layers.
pub const BAD_LAYER: u32 = 13;

/// The numbers that the calls give, 0 for a result and then in the order in which they are
/// tested.
pub const NUMBERS: [u32; 9] = [0, 1, 2, 3, BAD_LAYER, 4, 5, 6, 7];

/// Where a number stands among these.
pub fn place_of(number: u32) -> usize {
    NUMBERS.iter().position(|&known| known == number).expect("a call gives it")
}

/// Refusals 1 to 3, then 13, then 4: of the parked point, and then of the coordinates.
pub fn checked(plate: &Plate, strategy: StartPointStrategy) -> Result<(), Refused> {
    counted(&plate.points, &plate.lengths)?;
    layered(plate.lengths.len(), &plate.layers)?;
    if let Home(point) = strategy {
        parked(point)?;
    }
    on_plate(&plate.points)
}

/// Refusal 4 of a parked point: its place is 0 or 1, within that point.
pub fn parked(Point { x, y }: Point) -> Result<(), Refused> {
    on_plate(&[x, y])
}

/// Refusals 1 to 3.
pub fn counted(points: &[f64], lengths: &[u32]) -> Result<(), Refused> {
    let sum: u128 = lengths.iter().map(|&length| u128::from(length)).sum();
    if lengths.len() > 4_096 {
        Err((1, 0))
    } else if sum > 65_536 {
        Err((2, 0))
    } else if points.len() as u128 != 2 * sum {
        Err((3, 0))
    } else {
        Ok(())
    }
}

/// Layers are from 0 to this.
const HIGHEST_LAYER: u32 = 15;

/// Refusal 13.
pub fn layered(contours: usize, layers: &[u32]) -> Result<(), Refused> {
    if layers.len() != contours {
        Err((BAD_LAYER, contours as u32))
    } else if let Some(place) = layers.iter().position(|&layer| layer > HIGHEST_LAYER) {
        Err((BAD_LAYER, place as u32))
    } else {
        Ok(())
    }
}

/// Refusal 4.
pub fn on_plate(points: &[f64]) -> Result<(), Refused> {
    const LIMIT: u64 = 1_000_000.0_f64.to_bits();
    // Without its sign bit a NaN or an infinity is above every number's bits.
    let off = |c: &f64| c.to_bits() & (u64::MAX >> 1) > LIMIT;
    points.iter().position(off).map_or(Ok(()), |place| Err((4, place as u32)))
}

/// C of the order call.
pub fn order_room(slice: usize) -> usize {
    slice / 2
}

/// C of the straight call.
pub fn straight_room(slice: usize) -> usize {
    (slice / 2).min(1_048_576)
}

/// Refusals 5 and 6 of the order and the straight call: the answer's number, place and
/// count, and what it writes.
pub fn outcome<T>(
    result: Result<&[[T; 2]], Refused>,
    contours: usize,
    work: usize,
    room: usize,
) -> ([u32; 3], &[[T; 2]]) {
    match result {
        Err((number, place)) => ([number, place, 0], &[]),
        Ok(_) if work < contours => ([5, 0, 0], &[]),
        Ok(all) if all.len() > room => ([6, room as u32, 0], &all[..room]),
        Ok(all) => ([0, 0, all.len() as u32], all),
    }
}

/// C of the retrace call.
pub fn retrace_room(path: usize, marks: usize) -> usize {
    (path / 2).min(marks / 2).min(1_048_576)
}

/// How many numbers of u32 work are enough for the retrace call.
pub fn retrace_work(room: usize, points: usize, contours: usize) -> usize {
    room + 4 * points + 8 * contours + 16_384
}

/// The path of a plate with its marks, whatever slices are lent for it: the whole of it, or its
/// beginning.
#[derive(Debug, Clone)]
pub struct Retrace {
    pub path: Vec<[f64; 2]>,
    pub marks: Vec<[u32; 2]>,
    /// Otherwise the path has more points than these.
    pub whole: bool,
    /// Of the cuts, of the back-steps, and of the jumps and touches, in 1,024ths.
    pub lengths: [u64; 3],
    pub held: Held,
}

/// The retrace call's number, place, points, cuts, back-steps, jumps and touches, and then its
/// three lengths.
pub type Answer = [u64; 10];

/// Refusals 5 and 6 of the retrace call, lent work slices of these lengths: the answer, and how
/// many path points it writes. The room is at most as large as the beginning of a path that is not
/// whole.
pub fn retrace_outcome(
    result: Result<&Retrace, Refused>,
    lengths: &[u32],
    room: usize,
    work: usize,
    distances: usize,
) -> (Answer, usize) {
    let refused = |number, place| [number, place, 0, 0, 0, 0, 0, 0, 0, 0];
    let Retrace { marks, whole, lengths: [cut, back_step, jump], .. } = match result {
        Err((number, place)) => return (refused(number.into(), place.into()), 0),
        Ok(retrace) => retrace,
    };
    assert!(*whole || room <= marks.len(), "it is not known what fits");
    let contours = lengths.iter().filter(|&&length| length > 0).count();
    let points = lengths.iter().sum::<u32>() as usize;
    if work < retrace_work(room, points, lengths.len()) {
        (refused(5, 0), 0)
    } else if distances < lengths.len() {
        (refused(5, 1), 0)
    } else if marks.len() > room || !whole {
        (refused(6, room as u64), room)
    } else {
        let marked = |of| marks.iter().filter(|[kind, _]| *kind == of).count();
        let [back_steps, touches] = [retrace::BACK_STEP, retrace::TOUCH].map(marked);
        let jumps = contours.saturating_sub(1) - touches;
        let counts = [marks.len(), points - contours, back_steps, jumps, touches];
        let [points, cuts, back_steps, jumps, touches] = counts.map(|count| count as u64);
        let answer = [0, 0, points, cuts, back_steps, jumps, touches, *cut, *back_step, *jump];
        (answer, marks.len())
    }
}

/// Whether at some choice a contour of a higher layer than the lowest that waits lay nearer than
/// the chosen one, and whether one lay as near. At the start with Outside, farther and as far.
#[derive(Debug, Clone, Copy, PartialEq, Eq, Default)]
pub struct Held {
    pub nearer: bool,
    pub as_near: bool,
}

impl Held {
    /// Of the distances to choose by, with their layers, `chosen` was taken.
    fn look(&mut self, chosen: (u32, u64), all: impl Iterator<Item = (u32, u64)>) {
        let (lowest, distance) = chosen;
        let higher = all.filter(|&(layer, _)| layer > lowest).map(|(_, distance)| distance);
        if let Some(least) = higher.min() {
            self.nearer |= least < distance;
            self.as_near |= least == distance;
        }
    }
}

/// A contour that is not skipped.
#[derive(Debug, Clone, Copy)]
struct Contour {
    number: u32,
    layer: u32,
    first: [f64; 2],
    last: [f64; 2],
}

fn contours(plate: &Plate) -> Vec<Contour> {
    let (points, _) = plate.points.as_chunks();
    let mut from = 0;
    let mut contours = Vec::new();
    for ((number, &length), &layer) in (0..).zip(&plate.lengths).zip(&plate.layers) {
        if length > 0 {
            let to = from + length as usize;
            contours.push(Contour { number, layer, first: points[from], last: points[to - 1] });
            from = to;
        }
    }
    contours
}

/// The squared distance as the bits of an f64. It is finite and its sign bit is clear, so
/// these bits order as the numbers do.
fn squared([ax, ay]: [f64; 2], [bx, by]: [f64; 2]) -> u64 {
    let (dx, dy) = (ax - bx, ay - by);
    let squared = dx.mul_add(dx, dy * dy);
    assert!(squared.is_finite() && squared.is_sign_positive());
    squared.to_bits()
}

/// Half of width and height.
pub fn centre(size: Size) -> Point {
    Point { x: f64::from(size.width) / 2.0, y: f64::from(size.height) / 2.0 }
}

/// Of each end: its contour's layer, what it is chosen by, the contour's number and 1 if it is
/// the last point, else 0. The least is the start.
fn ends(plate: &Plate, strategy: StartPointStrategy) -> Vec<(u32, u64, [u32; 2])> {
    let Point { x, y } = match strategy {
        Home(point) => point,
        Outside | Inside => centre(plate.size),
    };
    let distance = |end| match strategy {
        Inside | Home(_) => squared([x, y], end),
        // Of the complements the least is that of the greatest.
        Outside => !squared([x, y], end),
    };
    let ends = contours(plate).into_iter().flat_map(|contour| {
        let Contour { number, layer, first, last } = contour;
        [(layer, distance(first), [number, 0]), (layer, distance(last), [number, 1])]
    });
    ends.collect()
}

/// The contour number and 1 if it is reversed, else 0; none where no contour holds a point.
pub fn start(plate: &Plate, strategy: StartPointStrategy) -> Option<[u32; 2]> {
    // What is as far away as an earlier end does not win: the earlier end is the lesser.
    ends(plate, strategy).into_iter().min().map(|(_, _, end)| end)
}

/// The first and the last point of each contour that is not skipped.
pub fn end_points(plate: &Plate) -> Vec<[f64; 2]> {
    contours(plate).into_iter().flat_map(|contour| [contour.first, contour.last]).collect()
}

/// All ends as good as the start, which is the first of them, with their points.
pub fn leaders(plate: &Plate, strategy: StartPointStrategy) -> Vec<([u32; 2], [f64; 2])> {
    let ends = ends(plate, strategy);
    let least = ends.iter().map(|&(layer, distance, _)| (layer, distance)).min();
    let leaders = ends
        .into_iter()
        .zip(end_points(plate))
        .filter(|&((layer, distance, _), _)| Some((layer, distance)) == least);
    leaders.map(|((_, _, end), point)| (end, point)).collect()
}

/// What the layers did to the choice of the start.
pub fn held_at_start(plate: &Plate, strategy: StartPointStrategy) -> Held {
    let mut held = Held::default();
    let ends: Vec<(u32, u64)> =
        ends(plate, strategy).into_iter().map(|(layer, distance, _)| (layer, distance)).collect();
    if let Some(&chosen) = ends.iter().min() {
        held.look(chosen, ends.into_iter());
    }
    held
}

/// Each entry's contour number and 1 if it is reversed, else 0; and what the layers did to the
/// choices after the start.
pub fn order(plate: &Plate, strategy: StartPointStrategy) -> (Vec<[u32; 2]>, Held) {
    let mut waiting = contours(plate);
    let (mut entries, mut held) = (Vec::new(), Held::default());
    let mut next = start(plate, strategy);
    while let Some([number, reversed]) = next {
        entries.push([number, reversed]);
        let at = waiting.iter().position(|c| c.number == number).expect("it was waiting");
        let contour = waiting.remove(at);
        let end = if reversed == 1 { contour.first } else { contour.last };
        let near = waiting.iter().map(|contour| {
            let forward = squared(end, contour.first);
            let reverse = squared(end, contour.last);
            let sense = u32::from(forward > reverse);
            (contour.layer, forward.min(reverse), [contour.number, sense])
        });
        let near: Vec<(u32, u64, [u32; 2])> = near.collect();
        next = near.iter().min().map(|&(layer, distance, entry)| {
            held.look((layer, distance), near.iter().map(|&(layer, near, _)| (layer, near)));
            entry
        });
    }
    (entries, held)
}

/// The entries' points, each contour's in its sense.
pub fn straight(points: &[f64], lengths: &[u32], order: &[[u32; 2]]) -> Vec<[f64; 2]> {
    let (points, _) = points.as_chunks();
    let mut ends = vec![0];
    ends.extend(lengths.iter().scan(0, |end, &length| {
        *end += length as usize;
        Some(*end)
    }));
    let mut path = Vec::with_capacity(points.len());
    for &[number, reversed] in order {
        let contour = &points[ends[number as usize]..ends[number as usize + 1]];
        if reversed == 1 {
            path.extend(contour.iter().rev());
        } else {
            path.extend(contour);
        }
    }
    path
}

#[cfg(test)]
mod tests {
    use super::{
        Held, Plate, Refused, Retrace, checked, held_at_start, leaders, order, order_room, outcome,
        retrace, retrace_outcome, retrace_room, start, straight_room,
    };
    use twillharbor::StartPointStrategy::{Home, Inside, Outside};
    use twillharbor::{Point, Size};

    type Row<'a> = (&'a [f64], &'a [u32], Result<(), Refused>);

    // The start and the order are compared with the reference wherever they are used.
    #[test]
    fn refusals_are_those_of_the_table_and_the_lowest_wins() {
        let many = vec![0; 4_097];
        let points = vec![1.0; 2 * 65_537];
        let next = 1_000_000.0_f64.next_up();
        let rows: [Row; 14] = [
            (&[], &[], Ok(())),
            (&[], &many[1..], Ok(())),
            (&[], &many, Err((1, 0))),
            (&[f64::NAN], &[&many[..], &[65_537]].concat(), Err((1, 0))),
            (&points[2..], &[65_536], Ok(())),
            (&points, &[65_536, 1], Err((2, 0))),
            (&[f64::NAN], &[u32::MAX, 1], Err((2, 0))),
            (&[1.0, 1.0], &[], Err((3, 0))),
            (&[1.0, f64::NAN, 1.0], &[1], Err((3, 0))),
            (&[1e6, -1e6, -0.0, 5e-324], &[1, 0, 1], Ok(())),
            (&[1e6, next, f64::NAN, 0.0], &[2], Err((4, 1))),
            (&[-next, 0.0], &[1], Err((4, 0))),
            (&[0.0, f64::NEG_INFINITY], &[1], Err((4, 1))),
            (&[0.0, 0.0, -f64::NAN, 0.0], &[2], Err((4, 2))),
        ];
        for (place, (points, lengths, due)) in rows.into_iter().enumerate() {
            assert_eq!(
                checked(&plate(points, lengths, &vec![0; lengths.len()]), Inside),
                due,
                "row {place}"
            );
        }
    }

    fn plate(points: &[f64], lengths: &[u32], layers: &[u32]) -> Plate {
        Plate::new(points.to_vec(), lengths.to_vec(), Size::default()).with_layers(layers)
    }

    #[test]
    fn a_bad_layer_comes_after_3_and_before_4() {
        type Row<'a> = (&'a [f64], &'a [u32], &'a [u32], Result<(), Refused>);
        let (many, nan) = (vec![0; 4_097], f64::NAN);
        let rows: [Row; 14] = [
            (&[], &[], &[], Ok(())),
            (&[1.0, 1.0], &[0, 1, 0], &[15, 0, 15], Ok(())),
            (&[1.0, 1.0], &[0, 1, 0], &[15, 0], Err((13, 3))),
            (&[1.0, 1.0], &[0, 1, 0], &[15, 0, 15, 0], Err((13, 3))),
            (&[1.0, 1.0], &[0, 1, 0], &[], Err((13, 3))),
            (&[], &[], &[0], Err((13, 0))),
            (&[1.0, 1.0], &[0, 1, 0], &[15, 16, u32::MAX], Err((13, 1))),
            (&[1.0, 1.0], &[0, 1, 0], &[1 << 31, 0, 0], Err((13, 0))),
            (&[1.0, 1.0], &[0, 1, 0], &[16, 0], Err((13, 3))),
            (&[nan, 1.0], &[0, 1, 0], &[0, 0, 17], Err((13, 2))),
            (&[nan, 1.0], &[0, 1, 0], &[0, 0, 15], Err((4, 0))),
            (&[nan], &[0, 1, 0], &[0, 0, 17], Err((3, 0))),
            (&[nan], &[65_537], &[16], Err((2, 0))),
            (&[nan], &many, &[], Err((1, 0))),
        ];
        for (place, (points, lengths, layers, due)) in rows.into_iter().enumerate() {
            assert_eq!(checked(&plate(points, lengths, layers), Outside), due, "row {place}");
        }
    }

    #[test]
    fn the_parked_point_comes_after_13_and_before_the_coordinates() {
        type Row<'a> = ([f64; 2], &'a [f64], &'a [u32], &'a [u32], Result<(), Refused>);
        const LIMIT: f64 = 1_000_000.0;
        let (many, nan, beyond) = (vec![0; 4_097], f64::NAN, LIMIT.next_up());
        let rows: [Row; 20] = [
            ([0.0, 0.0], &[], &[], &[], Ok(())),
            ([LIMIT, -LIMIT], &[1.0, 1.0], &[1], &[0], Ok(())),
            ([-LIMIT, LIMIT], &[1.0, 1.0], &[1], &[0], Ok(())),
            ([-0.0, 5e-324], &[1.0, 1.0], &[1], &[0], Ok(())),
            ([beyond, 0.0], &[1.0, 1.0], &[1], &[0], Err((4, 0))),
            ([-beyond, 0.0], &[1.0, 1.0], &[1], &[0], Err((4, 0))),
            ([0.0, beyond], &[1.0, 1.0], &[1], &[0], Err((4, 1))),
            ([0.0, -beyond], &[1.0, 1.0], &[1], &[0], Err((4, 1))),
            ([nan, 0.0], &[1.0, 1.0], &[1], &[0], Err((4, 0))),
            ([0.0, -nan], &[1.0, 1.0], &[1], &[0], Err((4, 1))),
            ([f64::INFINITY, nan], &[1.0, 1.0], &[1], &[0], Err((4, 0))),
            ([0.0, f64::NEG_INFINITY], &[], &[], &[], Err((4, 1))),
            ([0.0, nan], &[1.0, 1.0, nan, 1.0], &[2], &[0], Err((4, 1))),
            ([nan, 0.0], &[1.0, 1.0, nan, 1.0], &[2], &[0], Err((4, 0))),
            ([0.0, 0.0], &[1.0, 1.0, nan, 1.0], &[2], &[0], Err((4, 2))),
            ([nan, 0.0], &[1.0, 1.0], &[1], &[16], Err((13, 0))),
            ([nan, 0.0], &[1.0, 1.0], &[1], &[], Err((13, 1))),
            ([nan, 0.0], &[1.0], &[1], &[0], Err((3, 0))),
            ([nan, 0.0], &[], &[65_537], &[0], Err((2, 0))),
            ([nan, 0.0], &[], &many, &many, Err((1, 0))),
        ];
        for (place, ([x, y], points, lengths, layers, due)) in rows.into_iter().enumerate() {
            let home = Home(Point { x, y });
            assert_eq!(checked(&plate(points, lengths, layers), home), due, "row {place}");
        }
        // The other strategies have none.
        assert_eq!(checked(&plate(&[1.0, 1.0], &[1], &[0]), Inside), Ok(()));
    }

    #[test]
    fn the_end_nearest_the_parked_point_leads() {
        // (0,0)(4,0) | (4,1)(8,1), on a plate whose centre is (4,0.5).
        let plate = Plate {
            size: Size { width: 8, height: 1 },
            ..plate(&[0.0, 0.0, 4.0, 0.0, 4.0, 1.0, 8.0, 1.0], &[2, 2], &[0, 0])
        };
        let home = |x, y| Home(Point { x, y });
        let ends = [
            ([0, 0], [0.0, 0.0]),
            ([0, 1], [4.0, 0.0]),
            ([1, 0], [4.0, 1.0]),
            ([1, 1], [8.0, 1.0]),
        ];
        for (end, [x, y]) in ends {
            assert_eq!(start(&plate, home(x, y)), Some(end));
            assert_eq!(leaders(&plate, home(x, y)), [(end, [x, y])]);
        }
        assert_eq!(leaders(&plate, home(1e6, 1e6)), ends[3..]);
        assert_eq!(leaders(&plate, home(-1e6, -1e6)), ends[..1]);
        assert_eq!(leaders(&plate, home(4.0, 0.5)), ends[1..3]);
        assert_eq!(leaders(&plate, Inside), ends[1..3]);
        assert_eq!(leaders(&plate, Outside), [ends[0], ends[3]]);
        assert_eq!(leaders(&plate, home(2.0, -7.0)), ends[..2]);
        assert_eq!(start(&plate, home(2.0, -7.0)), Some([0, 0]));
        let layered = Plate { layers: vec![1, 0], ..plate };
        assert_eq!(leaders(&layered, home(0.0, 0.0)), ends[2..3]);
        assert!(held_at_start(&layered, home(0.0, 0.0)).nearer);
    }

    #[test]
    fn what_layers_do_to_a_choice_is_seen() {
        // (0,0) | (1,0) | (2,0) | (-2,0), from the first.
        let held = |layers: &[u32]| {
            let plate = plate(&[0.0, 0.0, 1.0, 0.0, 2.0, 0.0, -2.0, 0.0], &[1; 4], layers);
            let (_, next) = order(&plate, Inside);
            [held_at_start(&plate, Inside), held_at_start(&plate, Outside), next]
                .map(|Held { nearer, as_near }| [nearer, as_near])
        };
        assert_eq!(held(&[0; 4]), [[false; 2]; 3]);
        assert_eq!(held(&[0, 1, 2, 3]), [[false, false], [true, false], [false, false]]);
        assert_eq!(held(&[0, 1, 0, 0]), [[false, false], [false, false], [true, false]]);
        assert_eq!(held(&[0, 0, 0, 1]), [[false, false], [false, true], [false, false]]);
        assert_eq!(held(&[1, 0, 0, 0])[0], [true, false]);
    }

    #[test]
    fn work_comes_before_room() {
        let all = [[1, 2], [3, 4]];
        assert_eq!(outcome(Ok(&all), 3, 3, 2), ([0, 0, 2], &all[..]));
        assert_eq!(outcome(Ok(&all), 3, 3, 9), ([0, 0, 2], &all[..]));
        assert_eq!(outcome(Ok(&all), 3, 3, 1), ([6, 1, 0], &all[..1]));
        assert_eq!(outcome(Ok(&all), 3, 2, 1), ([5, 0, 0], &[][..]));
        assert_eq!(outcome(Err::<&[[u32; 2]], _>((4, 7)), 3, 2, 1), ([4, 7, 0], &[][..]));
    }

    #[test]
    fn room_is_half_rounded_down() {
        assert_eq!([0, 1, 2, 7, 8].map(order_room), [0, 0, 1, 3, 4]);
        assert_eq!(
            [0, 1, 7, 2_097_153, 9_999_999].map(straight_room),
            [0, 0, 3, 1_048_576, 1_048_576]
        );
        let slices = [(0, 9), (9, 1), (9, 12), (13, 12), (2_097_153, 8), (9_999_999, 2_097_152)];
        assert_eq!(
            slices.map(|(path, marks)| retrace_room(path, marks)),
            [0, 0, 4, 6, 4, 1_048_576]
        );
    }

    #[test]
    fn both_works_come_before_room() {
        // Plate E: two cuts, two steps back and a jump.
        let marks = vec![[0, 0], [1, 0], [1, 1], [2, 1], [2, 0], [3, 3]];
        let (held, lengths) = (Held::default(), [8_192, 8_192, 1_024]);
        let e = Retrace { path: vec![[0.0; 2]; 6], marks, whole: true, lengths, held };
        let whole = [0, 0, 6, 2, 2, 1, 0, 8_192, 8_192, 1_024];
        let refused = |number, place| [number, place, 0, 0, 0, 0, 0, 0, 0, 0];
        let outcome = |e: &Retrace, room, work, distances| {
            retrace_outcome(Ok(e), &[3, 0, 1], room, work, distances)
        };
        let enough = 4 * 4 + 8 * 3 + 16_384;
        assert_eq!(outcome(&e, 6, enough + 6, 3), (whole, 6));
        assert_eq!(outcome(&e, 9, enough + 9, 9), (whole, 6));
        assert_eq!(outcome(&e, 5, enough + 5, 3), (refused(6, 5), 5));
        assert_eq!(outcome(&e, 5, enough + 5, 2), (refused(5, 1), 0));
        assert_eq!(outcome(&e, 5, enough + 4, 2), (refused(5, 0), 0));
        let mut touching = Retrace { lengths: [8_192, 8_192, 0], ..e.clone() };
        touching.marks[5] = [retrace::TOUCH, 3];
        let touched = [0, 0, 6, 2, 2, 0, 1, 8_192, 8_192, 0];
        assert_eq!(outcome(&touching, 6, enough + 6, 3), (touched, 6));
        let beginning = Retrace { whole: false, ..e };
        assert_eq!(outcome(&beginning, 6, enough + 6, 3), (refused(6, 6), 6));
        let blank = Retrace { path: vec![], marks: vec![], whole: true, lengths: [0; 3], held };
        assert_eq!(retrace_outcome(Ok(&blank), &[0], 0, 16_392, 1), ([0; 10], 0));
        assert_eq!(retrace_outcome(Err((4, 7)), &[1], 0, 0, 0), (refused(4, 7), 0));
    }
}
