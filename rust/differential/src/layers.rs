//! Layers for plates, and a count of what a run meets of them.

use harness::random::Random;
use twillharbor::StartPointStrategy::{self, Home, Inside, Outside};

use crate::plates::{LAYERS, Plate};
use crate::rule::{self, Held, Refused};
use crate::tally::{Cases, Listed, Tally, is_met};

/// How the contours of a plate are layered.
#[derive(Debug, Clone, Copy)]
enum Layering {
    One,
    Two,
    Any,
    All,
    Rising,
    Falling,
    OneApart,
    EmptyLow,
    StartsHigh,
    AgainstTheOrder,
}

const LAYERINGS: [Layering; 10] = [
    Layering::One,
    Layering::Two,
    Layering::Any,
    Layering::All,
    Layering::Rising,
    Layering::Falling,
    Layering::OneApart,
    Layering::EmptyLow,
    Layering::StartsHigh,
    Layering::AgainstTheOrder,
];

/// A plate whose contours are in layer 0, with layers of one sort or another. One that has layers
/// keeps them.
pub fn in_layers(plate: Plate, random: &mut Random) -> Plate {
    if plate.layers.iter().any(|&layer| layer > 0) {
        return plate;
    }
    let layering = if random.one_in(5) { Layering::One } else { random.pick(&LAYERINGS) };
    let layers = layers(layering, &plate, random);
    assert_eq!(layers.len(), plate.lengths.len());
    Plate { layers, ..plate }
}

/// The same, with layers from the plate's own seed, but from another stream of it than its
/// points: these are what they were without layers.
pub fn in_seeded_layers(plate: Plate, seed: u64) -> Plate {
    const STREAM: u64 = 9;
    in_layers(plate, &mut Random::stream(seed, STREAM))
}

fn any(random: &mut Random) -> u32 {
    random.below(LAYERS) as u32
}

/// A layer, and a higher one.
fn two(random: &mut Random) -> [u32; 2] {
    let low = random.below(LAYERS - 1);
    [low as u32, (low + 1 + random.below(LAYERS - 1 - low)) as u32]
}

fn layers(layering: Layering, plate: &Plate, random: &mut Random) -> Vec<u32> {
    let contours = plate.lengths.len();
    let [low, high] = two(random);
    match layering {
        Layering::One => vec![any(random); contours],
        Layering::Two => (0..contours).map(|_| random.pick(&[low, high])).collect(),
        Layering::Any => (0..contours).map(|_| any(random)).collect(),
        Layering::All => {
            let first = any(random);
            (first..).take(contours).map(|layer| layer % LAYERS as u32).collect()
        }
        Layering::Rising | Layering::Falling => {
            let mut layers: Vec<u32> = (0..contours).map(|_| any(random)).collect();
            layers.sort_unstable();
            if matches!(layering, Layering::Falling) {
                layers.reverse();
            }
            layers
        }
        Layering::OneApart => {
            let [usual, other] = if random.one_in(2) { [low, high] } else { [high, low] };
            let apart = random.below(contours as u64 + 1) as usize;
            (0..contours).map(|number| if number == apart { other } else { usual }).collect()
        }
        Layering::EmptyLow => {
            let layers = plate.lengths.iter().map(|&length| {
                let above = low + 1 + random.below(LAYERS - 1 - u64::from(low)) as u32;
                if length == 0 { random.below(u64::from(low) + 1) as u32 } else { above }
            });
            layers.collect()
        }
        Layering::StartsHigh => starts_high(plate, [low, high]),
        Layering::AgainstTheOrder => against_the_order(plate, random),
    }
}

/// The contours that Outside and Inside start with wait for all others.
fn starts_high(plate: &Plate, [low, high]: [u32; 2]) -> Vec<u32> {
    let mut layers = vec![low; plate.lengths.len()];
    for strategy in [Outside, Inside] {
        if let Some([contour, _]) = rule::start(plate, strategy) {
            layers[contour as usize] = high;
        }
    }
    layers
}

/// Layers that fall along the order that the contours have in one layer.
fn against_the_order(plate: &Plate, random: &mut Random) -> Vec<u32> {
    let mut layers: Vec<u32> = plate.lengths.iter().map(|_| any(random)).collect();
    let (order, _) = rule::order(plate, random.pick(&[Outside, Inside]));
    for (place, &[contour, _]) in order.iter().enumerate() {
        let fallen = LAYERS * place as u64 / order.len() as u64;
        layers[contour as usize] = (LAYERS - 1 - fallen) as u32;
    }
    layers
}

/// What a run meets of layers.
#[derive(Debug, Clone, Copy, PartialEq, Eq)]
pub enum Case {
    SeveralLayers,
    SixteenLayers,
    Rising,
    Falling,
    OneApart,
    EmptyBelow,
    NearerStartWaits,
    FartherStartWaits,
    StartsAsFar,
    NearerWaits,
    AsNearWaits,
    NoLayers,
    Short,
    Long,
    NoContours,
    LengthBeforeLayer,
    SixteenIsHigh,
    SeventeenIsHigh,
    TwoTo31IsHigh,
    GreatestIsHigh,
    OnlyFirstOfSeveral,
    SkippedIsHigh,
    After1,
    After2,
    After3,
    Before4,
    Before5,
    Before6,
    Blank,
}

impl Listed for Case {
    const LIST: &'static [(Self, &'static str)] = &[
        (Self::SeveralLayers, "several layers"),
        (Self::SixteenLayers, "all sixteen layers"),
        (Self::Rising, "several layers, which rise along the slice"),
        (Self::Falling, "several layers, which fall along the slice"),
        (Self::OneApart, "one contour apart from four or more in one layer"),
        (Self::EmptyBelow, "an empty contour of a lower layer than all others"),
        (Self::NearerStartWaits, "Inside, and a nearer end of a higher layer does not start"),
        (Self::FartherStartWaits, "Outside, and a farther end of a higher layer does not start"),
        (Self::StartsAsFar, "an end of a higher layer as far from the centre as the start"),
        (Self::NearerWaits, "a nearer contour of a higher layer waits"),
        (Self::AsNearWaits, "a contour of a higher layer as near as the next one waits"),
        (Self::NoLayers, "13: no layers, but contours"),
        (Self::Short, "13: too few layers"),
        (Self::Long, "13: too many layers"),
        (Self::NoContours, "13: layers, but no contours"),
        (Self::LengthBeforeLayer, "13: a wrong length before a high layer"),
        (Self::SixteenIsHigh, "13: layer 16"),
        (Self::SeventeenIsHigh, "13: layer 17"),
        (Self::TwoTo31IsHigh, "13: layer 2,147,483,648"),
        (Self::GreatestIsHigh, "13: layer 4,294,967,295"),
        (Self::OnlyFirstOfSeveral, "13: the first of several high layers"),
        (Self::SkippedIsHigh, "13: the layer of an empty contour"),
        (Self::After1, "1 before 13"),
        (Self::After2, "2 before 13"),
        (Self::After3, "3 before 13"),
        (Self::Before4, "13 before 4"),
        (Self::Before5, "13 before 5"),
        (Self::Before6, "13 before 6"),
        (Self::Blank, "13: no contour holds a point"),
    ];
}

/// A run of as many plates meets every case.
const ENOUGH: u64 = 10_000;

/// How often each case was met. `one_layer` counts, by the layer, plates whose contours have one
/// in common: those are compared with mujou's own functions too, but for those with Home.
#[derive(Debug, Default)]
pub struct Met {
    one_layer: Tally<{ LAYERS as usize }>,
    cases: Cases<Case>,
}

impl Met {
    /// A plate, and what the layers did to the choices after the start, or why it is refused.
    pub fn plate(&self, plate: &Plate, strategy: StartPointStrategy, due: Result<Held, Refused>) {
        match due {
            Ok(held) => self.sound(plate, strategy, held),
            Err(refused) => self.refused(plate, refused),
        }
    }

    /// A call that is refused for the layers is lent a work slice, which should have a number for
    /// each contour, and a slice for the path or the order: of these lengths.
    pub fn lent(&self, plate: &Plate, work: usize, slice: usize) {
        self.cases.count_if(work < plate.lengths.len(), Case::Before5);
        self.cases.count_if(slice == 0 && !plate.points.is_empty(), Case::Before6);
    }

    fn sound(&self, plate: &Plate, strategy: StartPointStrategy, held: Held) {
        if let Some(layer) = plate.one_layer()
            && !matches!(strategy, Home(_))
        {
            self.one_layer.count(layer as usize);
        }
        let mut times = [0_usize; LAYERS as usize];
        plate.held_layers().for_each(|layer| times[layer as usize] += 1);
        let used: Vec<usize> = times.into_iter().filter(|&times| times > 0).collect();
        let several = used.len() > 1;
        self.cases.count_if(several, Case::SeveralLayers);
        self.cases.count_if(used.len() == times.len(), Case::SixteenLayers);
        self.cases.count_if(several && plate.held_layers().is_sorted(), Case::Rising);
        self.cases
            .count_if(several && plate.held_layers().is_sorted_by(|a, b| a >= b), Case::Falling);
        let apart = matches!(used[..], [1, many] | [many, 1] if many >= 4);
        self.cases.count_if(apart, Case::OneApart);
        let mut contours = plate.lengths.iter().zip(&plate.layers);
        let below = plate
            .held_layers()
            .min()
            .is_some_and(|lowest| contours.any(|(&length, &layer)| length == 0 && layer < lowest));
        self.cases.count_if(below, Case::EmptyBelow);
        self.choices(plate, strategy, held);
    }

    fn choices(&self, plate: &Plate, strategy: StartPointStrategy, held: Held) {
        let start = rule::held_at_start(plate, strategy);
        self.cases.count_if(start.nearer && strategy == Inside, Case::NearerStartWaits);
        self.cases.count_if(start.nearer && strategy == Outside, Case::FartherStartWaits);
        self.cases.count_if(start.as_near && !matches!(strategy, Home(_)), Case::StartsAsFar);
        self.cases.count_if(held.nearer, Case::NearerWaits);
        self.cases.count_if(held.as_near, Case::AsNearWaits);
    }

    fn refused(&self, plate: &Plate, (number, place): Refused) {
        let Plate { points, lengths, layers, .. } = plate;
        let Err((bad_layer, _)) = rule::layered(lengths.len(), layers) else {
            return;
        };
        self.cases.count_if(number == 1, Case::After1);
        self.cases.count_if(number == 2, Case::After2);
        self.cases.count_if(number == 3, Case::After3);
        if number != bad_layer {
            return;
        }
        self.cases.count_if(rule::on_plate(points).is_err(), Case::Before4);
        self.cases.count_if(points.is_empty(), Case::Blank);
        let high = layers.iter().filter(|&&layer| u64::from(layer) >= LAYERS).count();
        if layers.len() != lengths.len() {
            self.cases.count_if(layers.is_empty(), Case::NoLayers);
            self.cases.count_if(!layers.is_empty() && layers.len() < lengths.len(), Case::Short);
            self.cases.count_if(!lengths.is_empty() && layers.len() > lengths.len(), Case::Long);
            self.cases.count_if(lengths.is_empty(), Case::NoContours);
            self.cases.count_if(high > 0, Case::LengthBeforeLayer);
            return;
        }
        let layer = layers[place as usize];
        self.cases.count_if(layer == 16, Case::SixteenIsHigh);
        self.cases.count_if(layer == 17, Case::SeventeenIsHigh);
        self.cases.count_if(layer == 1 << 31, Case::TwoTo31IsHigh);
        self.cases.count_if(layer == u32::MAX, Case::GreatestIsHigh);
        self.cases.count_if(high > 1, Case::OnlyFirstOfSeveral);
        self.cases.count_if(lengths[place as usize] == 0, Case::SkippedIsHigh);
    }

    /// Prints how often each case was met, and says whether a run of that many plates met every
    /// one that it should.
    pub fn print(&self, plates: u64) -> bool {
        let one_layer = self.one_layer.numbers();
        println!("plates in one layer, from layer 0 to 15, compared with mujou's own functions:");
        println!("    {}", one_layer.map(|n| n.to_string()).join(" "));
        println!("met of layers:");
        self.cases.print();
        is_met(plates, ENOUGH, one_layer.into_iter().chain(self.cases.numbers()))
    }
}

#[cfg(test)]
mod tests {
    use harness::random::Random;
    use twillharbor::Size;
    use twillharbor::StartPointStrategy::Inside;

    use super::{Case, LAYERINGS, Met, layers};
    use crate::plates::{KINDS, Plate, small_plate};
    use crate::rule::{Held, checked};
    use crate::tally::Listed;

    #[test]
    fn every_layering_makes_sound_layers() {
        let mut random = Random::new(1);
        for layering in LAYERINGS {
            let mut several = 0;
            for turn in 0..300 {
                let plate = small_plate(KINDS[turn % KINDS.len()].0, &mut random);
                let layers = layers(layering, &plate, &mut random);
                let plate = Plate { layers, ..plate };
                assert_eq!(checked(&plate, Inside), Ok(()), "{layering:?}");
                several += u32::from(plate.held_layers().min() != plate.held_layers().max());
            }
            assert_eq!(several > 50, !matches!(layering, super::Layering::One), "{layering:?}");
        }
    }

    fn met(lengths: &[u32], layers: &[u32]) -> Vec<Case> {
        let points: Vec<f64> = (0..2 * lengths.iter().sum::<u32>()).map(f64::from).collect();
        let plate = Plate::new(points, lengths.to_vec(), Size::default()).with_layers(layers);
        let met = Met::default();
        met.plate(&plate, Inside, checked(&plate, Inside).map(|()| Held::default()));
        met.cases.met()
    }

    #[test]
    fn what_is_met_is_counted() {
        assert_eq!(met(&[1, 1], &[5, 5]), []);
        assert_eq!(met(&[1, 1], &[5, 6]), [Case::SeveralLayers, Case::Rising]);
        assert_eq!(met(&[1, 0, 1], &[5, 4, 5]), [Case::EmptyBelow]);
        assert_eq!(
            met(&[1; 5], &[6, 6, 5, 6, 6]),
            [Case::SeveralLayers, Case::OneApart, Case::NearerStartWaits]
        );
        assert_eq!(met(&[1], &[]), [Case::NoLayers]);
        assert_eq!(met(&[1, 1], &[16]), [Case::Short, Case::LengthBeforeLayer]);
        assert_eq!(met(&[1], &[0, 0]), [Case::Long]);
        assert_eq!(met(&[], &[0]), [Case::NoContours, Case::Blank]);
        assert_eq!(
            met(&[1, 0, 1], &[15, 17, 16]),
            [Case::SeventeenIsHigh, Case::OnlyFirstOfSeveral, Case::SkippedIsHigh]
        );
    }

    #[test]
    fn a_long_run_that_lacks_a_case_fails() {
        let met = Met::default();
        assert!(met.print(9_999));
        assert!(!met.print(10_000));
        Case::LIST.iter().for_each(|&(case, _)| met.cases.count(case));
        (0..super::LAYERS as usize).for_each(|layer| met.one_layer.count(layer));
        assert!(met.print(10_000));
    }
}
