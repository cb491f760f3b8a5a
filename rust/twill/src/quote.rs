//! The quotation of a joined plate: how long its path is, and how often it runs over its grooves.

use crate::joined_plate::Joined;
use crate::passes::Passes;
use std::collections::BTreeMap;
use twillharbor::Lengths;

/// All lengths are in 1,024ths of a unit, as the library gives them.
pub struct Quotation<'a> {
    pub joined: &'a Joined,
    /// Along the path.
    pub lengths: Lengths,
    /// Of each contour, from the input; those of empty contours and of single points are 0.
    pub contours: Vec<u64>,
    pub passes: Passes,
}

impl<'a> Quotation<'a> {
    /// A fault is a line for the user.
    pub fn of(joined: &'a Joined) -> Result<Self, String> {
        let contours = joined.plate.plate().contour_lengths().expect("the plate was accepted");
        let lengths = joined.lengths();
        equal(contours.iter().sum(), lengths.cuts)?;
        let passes = Passes::of(joined.path.points());
        Ok(Self { joined, lengths, contours, passes })
    }

    /// The length of the path.
    pub const fn whole(&self) -> u64 {
        self.lengths.cuts + self.lengths.back_steps + self.lengths.jumps
    }

    /// For each layer of the contours that hold a point, in order, how long they are.
    pub fn layers(&self) -> BTreeMap<u32, u64> {
        let plate = &self.joined.plate;
        let mut layers: BTreeMap<u32, u64> =
            plate.layer_counts().into_keys().map(|layer| (layer, 0)).collect();
        for (layer, &length) in plate.layers.iter().zip(&self.contours) {
            // An empty contour's layer need not be among them, and its length is 0.
            if let Some(sum) = layers.get_mut(layer) {
                *sum += length;
            }
        }
        layers
    }

    /// How much of the path a length is. There is no share where the path has no length.
    pub fn percent_of_whole(&self, length: u64) -> Option<String> {
        percent(length, self.whole())
    }

    /// How much of all contours a length is, which together are as long as the cuts. There is no
    /// share where they have no length.
    pub fn percent_of_contours(&self, length: u64) -> Option<String> {
        percent(length, self.lengths.cuts)
    }
}

/// What is added up contour by contour is what is added up along the path: that is proved of the
/// library. Where it does not hold, no number is to be relied on.
fn equal(contours: u64, cuts: u64) -> Result<(), String> {
    if contours == cuts {
        return Ok(());
    }
    Err(format!(
        "no quotation: the contours' lengths come to {contours}/1024 and the cuts' to {cuts}/1024, \
         which are proved to be equal: this is a fault of the library or of this tool"
    ))
}

/// In percent with two decimals: to the nearest hundredth, each by itself, halves up.
fn percent(part: u64, whole: u64) -> Option<String> {
    let (part, whole) = (u128::from(part), u128::from(whole));
    let hundredths = (20_000 * part + whole).checked_div(2 * whole)?;
    Some(format!("{}.{:02}", hundredths / 100, hundredths % 100))
}

#[cfg(test)]
mod tests {
    use super::{Quotation, equal, percent};
    use crate::tell::tests::{joined, layered, plate_e};
    use twillharbor::Lengths;

    #[test]
    fn a_quotation_has_the_lengths_of_path_and_contours() {
        let plate = plate_e();
        let quoted = Quotation::of(&plate).unwrap();
        let lengths = Lengths { cuts: 8_192, back_steps: 8_192, jumps: 1_024 };
        assert_eq!((quoted.lengths, quoted.whole()), (lengths, 17_408));
        assert_eq!(quoted.contours, [8_192, 0]);
        assert_eq!(quoted.percent_of_whole(1_024).as_deref(), Some("5.88"));
        assert_eq!(quoted.percent_of_contours(1_024).as_deref(), Some("12.50"));
        let blank = joined(&[&[], &[]], 0, 0);
        let quoted = Quotation::of(&blank).unwrap();
        assert_eq!(quoted.lengths, Lengths::default());
        assert_eq!((quoted.percent_of_whole(0), quoted.percent_of_contours(0)), (None, None));
        assert_eq!(quoted.contours, [0, 0]);
    }

    #[test]
    fn layers_have_the_lengths_of_their_contours() {
        let line = [(0.0, 0.0), (1.0, 1.0), (1.0, 2.0)];
        let other = [(3.0, 0.0), (3.0, 0.5)];
        let plate = layered(&[&line, &other, &[], &[(9.0, 9.0)], &line], &[3, 0, 7, 5, 3], 0, 0);
        let layers = Quotation::of(&plate).unwrap().layers();
        assert_eq!(layers.into_iter().collect::<Vec<_>>(), [(0, 512), (3, 2 * 2_472), (5, 0)]);
    }

    #[test]
    fn shares_are_rounded_to_the_nearest_hundredth() {
        for (part, whole, shown) in [
            (0, 3, "0.00"),
            (1, 3, "33.33"),
            (2, 3, "66.67"),
            (3, 3, "100.00"),
            (1, 20_000, "0.01"),
            (1, 20_001, "0.00"),
            (19_999, 20_000, "100.00"),
            (u64::MAX, u64::MAX, "100.00"),
        ] {
            assert_eq!(percent(part, whole).as_deref(), Some(shown), "{part} of {whole}");
        }
        assert_eq!(percent(0, 0), None);
    }

    #[test]
    fn sums_that_differ_are_told() {
        assert_eq!(equal(7, 7), Ok(()));
        let told = equal(7, 8).unwrap_err();
        assert!(told.contains("come to 7/1024 and the cuts' to 8/1024"), "{told}");
    }
}
