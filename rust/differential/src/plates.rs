//! Plates of many kinds, and damaged copies of them.

use std::fmt;

use harness::plates::in_rows;
use harness::random::Random;
use twillharbor::Size;

use crate::floats::{nudged, signed, with_exponent};
use crate::rule::BAD_LAYER;

/// The greatest magnitude of a coordinate.
pub const LIMIT: f64 = 1_000_000.0;
pub const MOST_CONTOURS: usize = 4_096;
pub const MOST_POINTS: u32 = 65_536;
/// How many layers there are.
pub const LAYERS: u64 = 16;

/// What is handed over, but for the strategy.
#[derive(Debug, Clone)]
pub struct Plate {
    pub points: Vec<f64>,
    pub lengths: Vec<u32>,
    pub layers: Vec<u32>,
    pub size: Size,
}

impl Plate {
    /// The plate of these slices, every contour in layer 0.
    pub fn new(points: Vec<f64>, lengths: Vec<u32>, size: Size) -> Self {
        let layers = vec![0; lengths.len()];
        Self { points, lengths, layers, size }
    }

    /// The plate of these contours, every one in layer 0, with its width and height.
    pub fn of_contours<C: AsRef<[[f64; 2]]>>(contours: &[C], [width, height]: [u32; 2]) -> Self {
        let points = contours.iter().flat_map(AsRef::as_ref).flatten().copied().collect();
        let lengths = contours.iter().map(|contour| contour.as_ref().len() as u32).collect();
        Self::new(points, lengths, Size { width, height })
    }

    /// The plate with these layers in place of its own.
    pub fn with_layers(self, layers: &[u32]) -> Self {
        Self { layers: layers.to_vec(), ..self }
    }

    /// The layers of the contours that hold a point.
    pub fn held_layers(&self) -> impl Iterator<Item = u32> + Clone {
        let contours = self.lengths.iter().zip(&self.layers);
        contours.filter(|&(&length, _)| length > 0).map(|(_, &layer)| layer)
    }

    /// The layer of all contours that hold a point, if they have one in common.
    pub fn one_layer(&self) -> Option<u32> {
        let first = self.held_layers().next()?;
        self.held_layers().all(|layer| layer == first).then_some(first)
    }
}

/// How the points of a plate lie.
#[derive(Debug, Clone, Copy, PartialEq, Eq)]
pub enum Kind {
    Random,
    IntegerGrid,
    Duplicates,
    TouchingEnds,
    SinglePoints,
    EmptyContours,
    AtTheLimit,
    Subnormals,
    Zeros,
    ThinBoxes,
    Collinear,
    Clustered,
    CellEdges,
    Rows,
    Mirrored,
    Circles,
    Mixed,
}

pub const KINDS: [(Kind, &str); 17] = [
    (Kind::Random, "random points"),
    (Kind::IntegerGrid, "integer grids"),
    (Kind::Duplicates, "duplicates"),
    (Kind::TouchingEnds, "touching ends"),
    (Kind::SinglePoints, "single points"),
    (Kind::EmptyContours, "mostly empty contours"),
    (Kind::AtTheLimit, "coordinates at the limit"),
    (Kind::Subnormals, "subnormals and subnormal squares"),
    (Kind::Zeros, "zeros of both signs"),
    (Kind::ThinBoxes, "thin boxes"),
    (Kind::Collinear, "collinear points"),
    (Kind::Clustered, "clusters"),
    (Kind::CellEdges, "points at cell edges"),
    (Kind::Rows, "rows"),
    (Kind::Mirrored, "points mirrored at the centre"),
    (Kind::Circles, "points on circles around the centre"),
    (Kind::Mixed, "mixed"),
];

/// A plate of the kind, mostly small: up to 12 contours of up to 8 points.
pub fn plate(kind: Kind, random: &mut Random) -> Plate {
    let mut lengths = lengths(random);
    if kind == Kind::Subnormals {
        // Processors are slow at these.
        lengths.truncate(600);
    }
    let plate = of_lengths(kind, lengths, random);
    assert_sound(&plate, kind);
    plate
}

/// A plate that was made of the kind is not refused.
pub fn assert_sound(plate: &Plate, kind: impl fmt::Debug) {
    assert!(plate.lengths.len() <= MOST_CONTOURS);
    assert_eq!(plate.points.len() as u32, 2 * plate.lengths.iter().sum::<u32>());
    assert!(plate.lengths.iter().sum::<u32>() <= MOST_POINTS);
    assert!(plate.points.iter().all(|c| c.abs() <= LIMIT), "{kind:?} made {plate:?}");
}

/// A plate of the kind with up to 12 contours and up to 20 points.
pub fn small_plate(kind: Kind, random: &mut Random) -> Plate {
    let mut left = 20;
    let lengths = (0..random.below(13)).map(|_| {
        let length = left.min(random.below(6) as u32);
        left -= length;
        length
    });
    let lengths = lengths.collect();
    of_lengths(kind, lengths, random)
}

/// A length of at most `most`.
pub fn up_to(random: &mut Random, most: u64) -> u32 {
    random.below(most + 1) as u32
}

/// As many points as there may be, in fewer than `cuts` + 1 contours.
pub fn all_points(random: &mut Random, cuts: u64) -> Vec<u32> {
    let mut left = MOST_POINTS;
    let mut lengths: Vec<u32> = (0..random.below(cuts))
        .map(|_| {
            let length = up_to(random, left.into());
            left -= length;
            length
        })
        .collect();
    lengths.push(left);
    lengths
}

/// As many contours as there may be, nearly all of them skipped.
pub fn all_contours(random: &mut Random) -> Vec<u32> {
    (0..MOST_CONTOURS).map(|_| if random.one_in(400) { up_to(random, 8) } else { 0 }).collect()
}

fn lengths(random: &mut Random) -> Vec<u32> {
    match random.below(16_000) {
        0 => {
            let full = random.one_in(3);
            let contours = if full { MOST_CONTOURS as i64 } else { random.between(1_000, 4_000) };
            (0..contours).map(|_| up_to(random, 15)).collect()
        }
        1..9 => all_points(random, 40),
        9..33 => all_contours(random),
        33..133 => (0..random.between(100, 600)).map(|_| up_to(random, 8)).collect(),
        _ => (0..random.below(13)).map(|_| up_to(random, 8)).collect(),
    }
}

/// What the contours of a plate have in common.
struct Frame {
    /// The side of the box, more or less.
    scale: f64,
    /// The greatest integer of a grid.
    most: i64,
    /// The centre, where it is on the plate.
    middle: [f64; 2],
    /// How many of the triples there are.
    triples: usize,
    /// The direction of a line.
    step: [f64; 2],
    /// One of two ways to lay the points.
    turned: bool,
    /// Of the clusters.
    centres: [[f64; 2]; 3],
    per_row: usize,
    /// Between the points of a row.
    spacing: f64,
}

/// Whole numbers a, b and c with a × a + b × b = c × c.
const TRIPLES: [[f64; 3]; 5] =
    [[3.0, 4.0, 5.0], [0.0, 1.0, 1.0], [5.0, 12.0, 13.0], [8.0, 15.0, 17.0], [20.0, 21.0, 29.0]];

type Contour = Vec<[f64; 2]>;

/// A plate of the kind with contours of these lengths, or shorter ones.
pub fn of_lengths(kind: Kind, mut lengths: Vec<u32>, random: &mut Random) -> Plate {
    let size = size(kind, random);
    match kind {
        Kind::SinglePoints => lengths.iter_mut().for_each(|n| *n = (*n).min(1)),
        Kind::EmptyContours => {
            lengths.iter_mut().for_each(|n| *n = if random.one_in(4) { *n } else { 0 });
        }
        Kind::Duplicates | Kind::Rows => {
            let usual = 1 + random.below(4) as u32;
            lengths.iter_mut().for_each(|n| *n = (*n).min(usual));
        }
        _ => {}
    }
    let scale = random.pick(&[1e-3, 1.0, 100.0, 1_000.0, 499_999.5]);
    let middle = [size.width, size.height].map(|n| f64::from(n) / 2.0);
    let frame = Frame {
        scale,
        most: random.pick(&[1, 2, 3, 5, 10, 1_000]),
        middle: if middle.iter().all(|&c| c < 1_000.0) { middle } else { [scale / 3.0; 2] },
        triples: random.between(1, TRIPLES.len() as i64) as usize,
        step: random.pick(&[[1.0, 0.0], [0.0, 1.0], [1.0, 1.0], [1.0, -2.0], [0.1, 0.3]]),
        turned: random.one_in(2),
        centres: [(); 3].map(|()| [(); 2].map(|()| random.unit() * scale)),
        per_row: random.between(1, 40) as usize,
        spacing: random.pick(&[1.0, 1.0, 0.37]),
    };
    let mut drawn: Vec<Contour> = Vec::new();
    for &length in &lengths {
        let kind = if kind == Kind::Mixed { random.pick(&KINDS).0 } else { kind };
        let contour = contour(kind, &frame, &drawn, length as usize, random);
        assert_eq!(contour.len(), length as usize);
        drawn.push(contour);
    }
    Plate::new(drawn.concat().into_flattened(), lengths, size)
}

/// Sizes of every sort; a small one where the points lie around the centre.
fn size(kind: Kind, random: &mut Random) -> Size {
    let sort = if matches!(kind, Kind::Mirrored | Kind::Circles) { 1 } else { random.below(5) };
    let [width, height] = match sort {
        0 => [0, 0],
        1 => [(); 2].map(|()| random.below(12) as u32),
        2 => [(); 2].map(|()| random.below(2_001) as u32),
        3 => [(); 2].map(|()| random.pick(&[0, 1, u32::MAX - 1, u32::MAX])),
        _ => [(); 2].map(|()| random.bits() as u32 >> random.below(32)),
    };
    Size { width, height }
}

fn contour(
    kind: Kind,
    frame: &Frame,
    drawn: &[Contour],
    length: usize,
    random: &mut Random,
) -> Contour {
    match kind {
        Kind::Duplicates if random.one_in(2) => {
            if let Some(earlier) = some_contour(drawn, random) {
                let backward = random.one_in(2);
                let place = |i: usize| {
                    let i = i % earlier.len();
                    if backward { earlier.len() - 1 - i } else { i }
                };
                return (0..length).map(|i| earlier[place(i)]).collect();
            }
        }
        Kind::TouchingEnds => {
            let sort = random.pick(&[Kind::Random, Kind::IntegerGrid]);
            let mut contour = contour(sort, frame, drawn, length, random);
            for end in [0, length.saturating_sub(1)] {
                if let Some(earlier) = some_contour(drawn, random)
                    && length > 0
                    && random.one_in(2)
                {
                    contour[end] = random.pick(&[earlier[0], earlier[earlier.len() - 1]]);
                }
            }
            return contour;
        }
        Kind::Rows => {
            let points = in_rows(drawn.len(), length, frame.per_row);
            return points.map(|point| point.map(|c| c * frame.spacing)).collect();
        }
        _ => {}
    }
    (0..length).map(|_| point(kind, frame, random)).collect()
}

/// One of the last few contours that hold a point.
fn some_contour<'a>(drawn: &'a [Contour], random: &mut Random) -> Option<&'a Contour> {
    let recent: Vec<&Contour> = drawn.iter().rev().filter(|c| !c.is_empty()).take(8).collect();
    if recent.is_empty() { None } else { Some(random.pick(&recent)) }
}

fn point(kind: Kind, frame: &Frame, random: &mut Random) -> [f64; 2] {
    let scale = frame.scale;
    match kind {
        Kind::Random | Kind::EmptyContours => [(); 2].map(|()| {
            let x = random.unit() * scale;
            signed(random, x)
        }),
        Kind::SinglePoints if frame.turned => [(); 2].map(|()| random.unit() * scale),
        Kind::AtTheLimit => [(); 2].map(|()| {
            let x = match random.below(8) {
                0 => random.unit() * LIMIT,
                1 => nudged(LIMIT, -random.between(1, 3)),
                2 => random.pick(&[0.0, 1.0, 5e-324, 0.5 * LIMIT]),
                _ => LIMIT,
            };
            signed(random, x)
        }),
        Kind::Subnormals => [(); 2].map(|()| {
            let x = match random.below(6) {
                0 => nudged(0.0, random.between(0, 3)),
                1 => nudged(f64::MIN_POSITIVE, random.between(-3, 3)),
                2 => {
                    let e = random.between(-1074, -1023);
                    with_exponent(random, e)
                }
                // Their squares are near or below the least normal number.
                3 => nudged(f64::MIN_POSITIVE.sqrt(), random.between(-3, 3)),
                _ => {
                    let e = random.between(-545, -505);
                    with_exponent(random, e)
                }
            };
            signed(random, x)
        }),
        Kind::Zeros => [(); 2].map(|()| {
            let x = random.pick(&[0.0, 0.0, 0.0, 1.0]);
            signed(random, x)
        }),
        Kind::ThinBoxes => {
            let long = random.unit() * scale;
            let thin = match random.below(3) {
                0 => frame.middle[1],
                1 => nudged(frame.middle[1], random.between(-2, 2)),
                _ => frame.middle[1] + random.unit() * 1e-9,
            };
            if frame.turned { [thin, long] } else { [long, thin] }
        }
        Kind::Collinear => {
            let along =
                if frame.turned { random.below(12) as f64 } else { random.unit() * scale / 3.0 };
            frame.step.map(|c| c * along)
        }
        Kind::Clustered => {
            let centre = random.pick(&frame.centres);
            let steps = random.pick(&[0, 2, 1_000]);
            centre.map(|c| nudged(c, random.between(-steps, steps)))
        }
        Kind::CellEdges => {
            let cell = scale / 50.0;
            [(); 2].map(|()| match random.below(6) {
                0 => 0.0,
                1 => scale,
                _ => nudged(random.below(51) as f64 * cell, random.between(-1, 1)),
            })
        }
        Kind::Mirrored => {
            let [a, b] = [(); 2].map(|()| random.pick(&[0.0, 1.0, 2.0, 0.5]));
            let [x, y] = [signed(random, a), signed(random, b)];
            [frame.middle[0] + x, frame.middle[1] + y]
        }
        // Equally far from the centre, and in pairs from each other, but for the rounding.
        Kind::Circles => {
            let [a, b, c] = random.pick(&TRIPLES[..frame.triples]);
            let [a, b] = if random.one_in(2) { [a, b] } else { [b, a] };
            let [x, y] = [signed(random, a), signed(random, b)];
            let radius = if random.one_in(8) { 0.0 } else { scale };
            [frame.middle[0] + radius * x / c, frame.middle[1] + radius * y / c]
        }
        _ => [(); 2].map(|()| random.between(0, frame.most) as f64),
    }
}

/// What is done to a plate so that it is refused, for its points, lengths or layers.
#[derive(Debug, Clone, Copy, PartialEq, Eq)]
pub enum Damage {
    OffThePlate,
    SeveralOffThePlate,
    HighLayer,
    SeveralHighLayers,
    HighLayerOfEmpty,
    LayersMiscounted,
    Miscounted,
    ManyPoints,
    SumPastTwoTo32,
    ManyContours,
}

impl Damage {
    /// The number of the refusal that it leads to.
    pub const fn number(self) -> u32 {
        match self {
            Self::ManyContours => 1,
            Self::SumPastTwoTo32 | Self::ManyPoints => 2,
            Self::Miscounted => 3,
            Self::LayersMiscounted
            | Self::HighLayer
            | Self::SeveralHighLayers
            | Self::HighLayerOfEmpty => BAD_LAYER,
            Self::OffThePlate | Self::SeveralOffThePlate => 4,
        }
    }
}

/// Where a plate gets several damages, it gets them in this order.
pub const DAMAGES: [Damage; 10] = [
    Damage::OffThePlate,
    Damage::SeveralOffThePlate,
    Damage::HighLayer,
    Damage::SeveralHighLayers,
    Damage::HighLayerOfEmpty,
    Damage::LayersMiscounted,
    Damage::Miscounted,
    Damage::ManyPoints,
    Damage::SumPastTwoTo32,
    Damage::ManyContours,
];

/// A copy with that damage. Without points none can be taken off the plate, and without
/// contours no length or layer can be changed: then the copy may be sound. Layers that are as
/// many as the lengths stay so, but for their own damages.
pub fn damaged(plate: &Plate, damage: Damage, random: &mut Random) -> Plate {
    let mut copy = plate.clone();
    if damage.number() == BAD_LAYER {
        damage_layers(&mut copy, damage, random);
    } else {
        damage_points(&mut copy, damage, random);
        if plate.layers.len() == plate.lengths.len() {
            copy.layers.resize_with(copy.lengths.len(), || random.below(LAYERS) as u32);
        }
    }
    copy
}

fn damage_layers(plate: &mut Plate, damage: Damage, random: &mut Random) {
    let Plate { lengths, layers, .. } = plate;
    match damage {
        Damage::LayersMiscounted => match random.below(4) {
            0 if !layers.is_empty() => layers.clear(),
            1 if !layers.is_empty() => {
                layers.pop();
            }
            2 => layers.extend((0..random.between(2, 5)).map(|_| random.below(LAYERS) as u32)),
            _ => layers.push(random.pick(&[0, 15, 16])),
        },
        Damage::HighLayerOfEmpty => {
            let at = lengths.iter().position(|&length| length == 0).unwrap_or_else(|| {
                let at = random.below(lengths.len() as u64 + 1) as usize;
                lengths.insert(at, 0);
                layers.insert(at.min(layers.len()), 0);
                at
            });
            if let Some(layer) = layers.get_mut(at) {
                *layer = high_layer(random);
            }
        }
        _ => {
            let several = damage == Damage::SeveralHighLayers;
            let times = if several { random.between(2, 5) } else { 1 };
            for _ in 0..times {
                if !layers.is_empty() {
                    let contour = random.below(layers.len() as u64) as usize;
                    layers[contour] = high_layer(random);
                }
            }
        }
    }
}

fn high_layer(random: &mut Random) -> u32 {
    match random.below(10) {
        0..3 => 16,
        3..5 => 17,
        5 => 1 << 31,
        6 => u32::MAX,
        // Its low four bits are those of a layer.
        7 => random.below(LAYERS) as u32 | 16 << random.below(28),
        _ => (random.bits() as u32).max(16),
    }
}

fn damage_points(plate: &mut Plate, damage: Damage, random: &mut Random) {
    let Plate { points, lengths, .. } = plate;
    match damage {
        Damage::ManyContours => {
            let contours = MOST_CONTOURS + random.pick(&[1, 1, 2, 500]);
            let at = random.below(lengths.len() as u64 + 1) as usize;
            let more = contours.saturating_sub(lengths.len());
            lengths.splice(at..at, std::iter::repeat_n(0, more));
        }
        // A sum that wraps would be the true one.
        Damage::SumPastTwoTo32 => {
            let more: &[u32] = random.pick(&[
                &[1 << 31, 1 << 31],
                &[u32::MAX, 1],
                &[1, u32::MAX],
                &[1 << 30, 1 << 30, 1 << 30, 1 << 30],
                &[u32::MAX, u32::MAX, 2],
            ]);
            for &length in more {
                let at = random.below(lengths.len() as u64 + 1) as usize;
                lengths.insert(at, length);
            }
        }
        Damage::ManyPoints => {
            let sum: u32 = lengths.iter().sum();
            let beyond = (MOST_POINTS + 1).saturating_sub(sum) + random.pick(&[0, 0, 1, 1_000_000]);
            if let Some(length) = lengths.last_mut()
                && random.one_in(2)
            {
                *length += beyond;
            } else {
                lengths.push(beyond);
            }
            if beyond < 100_000 && random.one_in(64) {
                let more = 2 * beyond as usize;
                points.extend((0..more).map(|_| random.unit()));
            }
        }
        Damage::Miscounted => match random.below(5) {
            0 => {
                points.pop();
            }
            1 => points.push(random.unit()),
            2 => points.extend([random.unit(), random.unit()]),
            3 => points.clear(),
            _ => {
                if let Some(length) = lengths.last_mut() {
                    *length = if random.one_in(2) { *length + 1 } else { length.saturating_sub(1) };
                }
            }
        },
        _ => {
            let several = damage == Damage::SeveralOffThePlate;
            let times = if several { random.between(2, 5) } else { 1 };
            for _ in 0..times {
                if !points.is_empty() {
                    let place = random.below(points.len() as u64) as usize;
                    points[place] = off_the_plate(random);
                }
            }
        }
    }
}

/// A copy with one damage or several, or none where several were tried.
pub fn damaged_somehow(plate: &Plate, random: &mut Random) -> Plate {
    let alone = random.one_in(2).then(|| random.pick(&DAMAGES));
    let mut copy = plate.clone();
    for damage in DAMAGES {
        // Among several those that win are rarer, and each of the four of the layers is.
        let rarity = if matches!(damage.number(), 1 | 2 | BAD_LAYER) { 6 } else { 2 };
        if alone.map_or(random.one_in(rarity), |alone| alone == damage) {
            copy = damaged(&copy, damage, random);
        }
    }
    copy
}

/// A coordinate off the plate.
pub fn off_the_plate(random: &mut Random) -> f64 {
    const INFINITY: u64 = 0x7ff0_0000_0000_0000;
    let magnitude = match random.below(8) {
        0 => INFINITY,
        1 => INFINITY + 1,
        2 => INFINITY | 1 << 51,
        3 => INFINITY | (random.bits() >> 12).max(1),
        4 | 5 => nudged(LIMIT, 1).to_bits(),
        6 => nudged(LIMIT, random.between(2, 1_000)).to_bits(),
        _ => {
            let e = random.between(20, 1023);
            with_exponent(random, e).to_bits()
        }
    };
    f64::from_bits(magnitude | random.bits() >> 63 << 63)
}

#[cfg(test)]
mod tests {
    use harness::random::Random;
    use twillharbor::Size;
    use twillharbor::StartPointStrategy::Inside;

    use super::{
        DAMAGES, KINDS, MOST_CONTOURS, MOST_POINTS, Plate, damaged, lengths, plate, small_plate,
    };
    use crate::rule::checked;

    #[test]
    fn every_kind_makes_sound_plates() {
        let mut random = Random::new(1);
        for (kind, name) in KINDS {
            let (mut points, mut blank) = (0, 0);
            for _ in 0..500 {
                let plate = plate(kind, &mut random);
                assert_eq!(checked(&plate, Inside), Ok(()), "{name}");
                points += plate.points.len() / 2;
                blank += usize::from(plate.points.is_empty());
                let plate = small_plate(kind, &mut random);
                assert!(plate.lengths.len() <= 12 && plate.points.len() <= 40);
                assert_eq!(checked(&plate, Inside), Ok(()), "{name}");
            }
            assert!(points > 1_000 && blank < 250, "{name}: {points} points, {blank} blank");
        }
    }

    #[test]
    fn lengths_reach_both_limits_and_stay_within() {
        let mut random = Random::new(2);
        let (mut contours, mut points) = (0, 0);
        for _ in 0..40_000 {
            let lengths = lengths(&mut random);
            let sum: u32 = lengths.iter().sum();
            assert!(lengths.len() <= MOST_CONTOURS && sum <= MOST_POINTS);
            contours += u32::from(lengths.len() == MOST_CONTOURS);
            points += u32::from(sum == MOST_POINTS);
        }
        assert!(contours > 10 && points > 10, "{contours} and {points}");
    }

    #[test]
    fn every_damage_leads_to_its_refusal() {
        let mut random = Random::new(3);
        let mut tried = 0;
        while tried < 2_000 {
            let (kind, _) = random.pick(&KINDS);
            let plate = small_plate(kind, &mut random);
            if plate.lengths.last().is_none_or(|&length| length == 0) {
                continue;
            }
            tried += 1;
            for damage in DAMAGES {
                let copy = damaged(&plate, damage, &mut random);
                let refused = checked(&copy, Inside);
                assert_eq!(refused.map_err(|(number, _)| number), Err(damage.number()));
            }
        }
    }

    #[test]
    fn one_layer_is_that_of_the_contours_that_hold_a_point() {
        let plate = |lengths: &[u32], layers: &[u32]| {
            let plate = Plate::new(vec![], lengths.to_vec(), Size::default());
            plate.with_layers(layers).one_layer()
        };
        assert_eq!(plate(&[1, 0, 2], &[7, 0, 7]), Some(7));
        assert_eq!(plate(&[1, 1, 2], &[7, 0, 7]), None);
        assert_eq!(plate(&[0], &[3]), None);
    }
}
