//! A plate that is handed to a call: what is due of it, and whether the library gives it.

use std::fmt::Debug;

use harness::random::Random;
use twillharbor::Refusal;
use twillharbor::StartPointStrategy::{self, Home};

use crate::floats::hexadecimal;
use crate::lent_slices::{self, Difference, Lent};
use crate::plates::Plate;
use crate::rule::{self, Refused};

/// `due` is the reference's result or the refusal; `tally` counts the calls.
pub struct Handed<'a, Due, Tally> {
    pub plate: &'a Plate,
    pub strategy: StartPointStrategy,
    pub tally: &'a Tally,
    pub points: Lent<f64>,
    pub lengths: Lent<u32>,
    pub layers: Lent<u32>,
    pub due: Result<Due, Refused>,
}

impl<'a, Due, Tally> Handed<'a, Due, Tally> {
    /// It is an error where what is due could not be worked out.
    pub fn new(
        plate: &'a Plate,
        strategy: StartPointStrategy,
        tally: &'a Tally,
        due: Result<Result<Due, Refused>, String>,
        random: &mut Random,
    ) -> Result<Self, String> {
        let due = due.map_err(|error| described(plate, strategy, &error))?;
        let points = Lent::holding(&plate.points, random);
        let lengths = Lent::holding(&plate.lengths, random);
        let layers = Lent::holding(&plate.layers, random);
        Ok(Self { plate, strategy, tally, points, lengths, layers, due })
    }

    /// Home with the plate's centre for the parked point, and what is due of it where this is the
    /// plate with Inside: the same, unless the centre is off the plate.
    pub fn at_the_centre(&self) -> (StartPointStrategy, Result<Due, Refused>)
    where
        Due: Clone,
    {
        let strategy = Home(rule::centre(self.plate.size));
        (strategy, rule::checked(self.plate, strategy).and_then(|()| self.due.clone()))
    }

    /// Points, lengths and layers.
    pub fn inputs(&self) -> (&[f64], &[u32], &[u32]) {
        (self.points.slice(), self.lengths.slice(), self.layers.slice())
    }

    pub fn inputs_kept(&self, call: &str) -> Result<(), String> {
        self.hold(
            call,
            [
                ("points", self.points.altered()),
                ("lengths", self.lengths.altered()),
                ("layers", self.layers.altered()),
            ],
        )
    }

    /// The plate as the safe interface takes it: with its layers, and without where all are 0.
    pub fn plates(&self) -> Vec<twillharbor::Plate<'_>> {
        let (points, lengths, layers) = self.inputs();
        let mut plates = vec![twillharbor::Plate::with_layers(points, lengths, layers)];
        if layers.len() == lengths.len() && layers.iter().all(|&layer| layer == 0) {
            plates.push(twillharbor::Plate::new(points, lengths));
        }
        plates
    }

    /// It is an error where one of these slices holds wrong bits.
    pub fn hold<const N: usize>(
        &self,
        call: &str,
        slices: [(&str, Option<Difference>); N],
    ) -> Result<(), String> {
        lent_slices::hold(slices).map_err(|wrong| self.described(&format!("{call}: {wrong}")))
    }

    pub fn same<A: PartialEq + Debug>(
        &self,
        what: &str,
        call: &str,
        is: &A,
        due: &A,
    ) -> Result<(), String> {
        if is == due {
            return Ok(());
        }
        let [is, due] = [is, due].map(|answer| format!("{answer:?}"));
        Err(self.described(&format!("{call}: {what}: library {is:.400}, due {due:.400}")))
    }

    pub fn described(&self, text: &str) -> String {
        described(self.plate, self.strategy, text)
    }
}

/// Number and place of a refusal by a call whose places are u32.
pub fn numbers(refusal: Refusal) -> Refused {
    let place = refusal.place().try_into().expect("a call's place is of its type");
    (refusal.number(), place)
}

/// The text, with the plate, the whole of it where that is a few lines.
fn described(plate: &Plate, strategy: StartPointStrategy, text: &str) -> String {
    let Plate { points, lengths, layers, size } = plate;
    let mut text = format!("{text}\n  {} by {}, {strategy:?}", size.width, size.height);
    if points.len() <= 256 && lengths.len() <= 64 {
        let points = hexadecimal(points);
        let points = points.trim_start();
        text += &format!("\n  lengths {lengths:?}\n  layers {layers:?}\n  points {points}");
    } else {
        let [lengths, layers] = [lengths.len(), layers.len()];
        text += &format!("\n  {lengths} lengths, {layers} layers, {} coordinates", points.len());
    }
    text
}
