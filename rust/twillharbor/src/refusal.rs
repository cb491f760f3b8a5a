use crate::plate::MOST_POINTS;
use crate::{BLOCK_BYTES, HIGHEST_LAYER, StartPointStrategy};
use std::cmp::Ordering;
use std::error::Error;
use std::fmt;

const BAD_LAYER: u32 = 13;
const OFF_THE_PLATE: u32 = 4;
const FULL: u32 = 6;
const BLOCK_DAMAGED: u32 = 8;
const WRONG_END: u32 = 9;
const MARKS_INCONSISTENT: u32 = 10;
const VERTEX_MISSING: u32 = 11;
const NOT_DRAWN: u32 = 12;

/// The greatest magnitude of a coordinate of a plate, and of its parked point.
const HIGHEST_COORDINATE: f64 = 1_000_000.0;

/// Why a call was refused: the table of documents 01 and 02. Its conditions are tested in this
/// order, 13 between 3 and 4, 4 of a parked point before that of the contours' coordinates, and 3
/// of a path that is checked after 4; the first that holds wins. Of a plate file that is read, 8, 2
/// and 9 are tested block by block. Of such a file, and of a path whose contours are recovered, 6 is
/// tested after all else.
#[derive(Debug, Clone, Copy, PartialEq, Eq, Hash)]
#[non_exhaustive]
pub enum Refusal {
    /// 1: above 4,096 contours.
    TooManyContours,
    /// 2: the lengths sum to more than 65,536; or the path of a plate file has more than 1,048,576
    /// points.
    TooManyPoints,
    /// 3: the point slice's length is not twice that sum; or, of a path that is checked or whose
    /// contours are recovered, its slice's length is odd or the marks slice is not as long; or, of
    /// one that is written to a plate file, its slice's length is odd.
    Miscounted,
    /// 13: the layer slice has not one number for each contour, or a layer is above 15.
    BadLayer(LayerFault),
    /// 4: a coordinate of the [parked point](StartPointStrategy::Home) is NaN, infinite or of
    /// magnitude above 1,000,000.
    HomeOffThePlate {
        /// 0 for the parked point's x; 1 for its y, its x being within the limit.
        place: u32,
    },
    /// 4: a coordinate is NaN, infinite or beyond the call's limit.
    OffThePlate {
        /// The first such coordinate.
        place: u32,
    },
    /// 4: a coordinate of a path whose contours are recovered is NaN, infinite or of magnitude above
    /// 1,000,000.
    PathOffThePlate {
        /// The first such coordinate: twice the path point's place for its x, and the next for its y.
        place: u64,
    },
    /// 5: a work slice is too short.
    WorkShort {
        /// 0 for the u32 work slice; 1 for the f64 one, the u32 one being enough.
        place: u32,
    },
    /// 6: the result has more points, order entries or bytes than fit.
    Full {
        /// How many fit, and were written; of a plate file or its path, and of contours that are
        /// recovered, 0, for nothing is written.
        place: u32,
    },
    /// 7: no contour holds a point.
    Blank,
    /// 8: a block of a plate file is damaged: a check, number, zero byte, unused place or count is
    /// wrong, or a coordinate off the plate.
    BlockDamaged {
        /// The block's number, from 0; its first byte is [`BLOCK_BYTES`] times that.
        place: u32,
    },
    /// 9: a plate file ends early, or goes on after its closing block.
    WrongEnd {
        /// The file's length where it ends early; else the byte at which its closing block ends.
        place: u32,
    },
    /// 10: a path whose contours are recovered breaks a rule of marks.
    MarksInconsistent {
        /// The first path point that breaks one.
        place: u64,
    },
    /// 11: a path whose contours are recovered does not land on every vertex below the highest that
    /// it lands on.
    VertexMissing {
        /// The lowest vertex that it does not land on.
        place: u64,
    },
    /// 12: a path that is checked does not draw the plate.
    NotDrawn {
        /// The first path point that breaks a rule; or the number of path points, where none does
        /// and a segment is not cut or a contour not entered.
        place: u64,
    },
}

/// What is wrong with the layers. The length is tested first.
#[derive(Debug, Clone, Copy, PartialEq, Eq, Hash)]
pub enum LayerFault {
    /// The layer slice's length is not the number of contours.
    Length {
        /// The number of contours, which is the refusal's place.
        contours: u32,
    },
    /// A layer is above 15.
    Layer {
        /// The first contour that has such a layer, a skipped one too: the refusal's place.
        contour: u32,
    },
}

impl Refusal {
    /// The refusal's number in the table.
    #[must_use]
    pub const fn number(self) -> u32 {
        match self {
            Self::TooManyContours => 1,
            Self::TooManyPoints => 2,
            Self::Miscounted => 3,
            Self::BadLayer(_) => BAD_LAYER,
            Self::HomeOffThePlate { .. }
            | Self::OffThePlate { .. }
            | Self::PathOffThePlate { .. } => OFF_THE_PLATE,
            Self::WorkShort { .. } => 5,
            Self::Full { .. } => FULL,
            Self::Blank => 7,
            Self::BlockDamaged { .. } => BLOCK_DAMAGED,
            Self::WrongEnd { .. } => WRONG_END,
            Self::MarksInconsistent { .. } => MARKS_INCONSISTENT,
            Self::VertexMissing { .. } => VERTEX_MISSING,
            Self::NotDrawn { .. } => NOT_DRAWN,
        }
    }

    /// The refusal's word in the table.
    #[must_use]
    pub const fn word(self) -> &'static str {
        match self {
            Self::TooManyContours => "too many contours",
            Self::TooManyPoints => "too many points",
            Self::Miscounted => "miscounted",
            Self::BadLayer(_) => "bad layer",
            Self::HomeOffThePlate { .. }
            | Self::OffThePlate { .. }
            | Self::PathOffThePlate { .. } => "off the plate",
            Self::WorkShort { .. } => "work short",
            Self::Full { .. } => "full",
            Self::Blank => "blank",
            Self::BlockDamaged { .. } => "block damaged",
            Self::WrongEnd { .. } => "file ends early, or goes on after its closing block",
            Self::MarksInconsistent { .. } => "marks inconsistent",
            Self::VertexMissing { .. } => "vertex missing",
            Self::NotDrawn { .. } => "path does not draw the plate",
        }
    }

    /// The refusal's place, 0 where the table gives none.
    #[must_use]
    pub const fn place(self) -> u64 {
        match self {
            Self::HomeOffThePlate { place }
            | Self::OffThePlate { place }
            | Self::WorkShort { place }
            | Self::Full { place }
            | Self::BlockDamaged { place }
            | Self::WrongEnd { place }
            | Self::BadLayer(
                LayerFault::Length { contours: place } | LayerFault::Layer { contour: place },
            ) => place as u64,
            Self::PathOffThePlate { place }
            | Self::MarksInconsistent { place }
            | Self::VertexMissing { place }
            | Self::NotDrawn { place } => place,
            Self::TooManyContours | Self::TooManyPoints | Self::Miscounted | Self::Blank => 0,
        }
    }
}

impl fmt::Display for Refusal {
    fn fmt(&self, f: &mut fmt::Formatter<'_>) -> fmt::Result {
        write!(f, "{} (refusal {}, place {})", self.word(), self.number(), self.place())?;
        match self {
            Self::BadLayer(fault) => write!(f, ": {fault}"),
            Self::HomeOffThePlate { place: 0 } => write!(f, ": the parked point's x"),
            Self::HomeOffThePlate { .. } => write!(f, ": the parked point's y"),
            _ => Ok(()),
        }
    }
}

impl Error for Refusal {}

impl fmt::Display for LayerFault {
    fn fmt(&self, f: &mut fmt::Formatter<'_>) -> fmt::Result {
        match self {
            Self::Length { contours } => {
                write!(f, "the number of layers is not that of the contours, {contours}")
            }
            Self::Layer { contour } => {
                write!(f, "contour {contour} has a layer above {HIGHEST_LAYER}")
            }
        }
    }
}

/// Whether a call gave a result: number 0 says so, any other is a refusal's.
///
/// # Panics
///
/// Where the table has no such number and place: then the library is not the one that
/// this crate was written for.
pub(crate) fn accepted(number: u32, place: u32) -> Result<(), Refusal> {
    Err(match (number, place) {
        (0, 0) => return Ok(()),
        (1, 0) => Refusal::TooManyContours,
        (2, 0) => Refusal::TooManyPoints,
        (3, 0) => Refusal::Miscounted,
        (4, place) => Refusal::OffThePlate { place },
        (5, 0 | 1) => Refusal::WorkShort { place },
        (6, place) => Refusal::Full { place },
        (7, 0) => Refusal::Blank,
        _ => {
            panic!("libtwillharbor.a answered number {number}, place {place}, which no refusal has")
        }
    })
}

/// [`accepted`] for a call that takes a plate, which may have layers, and a strategy. A place of
/// refusal 13 is below the number of contours where it is a contour's. One of refusal 4 is the
/// parked point's exactly if that is off the plate, for it is tested before the contours.
///
/// # Panics
///
/// As [`accepted`].
pub(crate) fn accepted_plate(
    number: u32,
    place: u32,
    contours: usize,
    strategy: StartPointStrategy,
) -> Result<(), Refusal> {
    match number {
        BAD_LAYER => Err(Refusal::BadLayer(match (place as usize).cmp(&contours) {
            Ordering::Less => LayerFault::Layer { contour: place },
            Ordering::Equal => LayerFault::Length { contours: place },
            Ordering::Greater => {
                panic!("libtwillharbor.a refused a layer of contour {place} of {contours}")
            }
        })),
        OFF_THE_PLATE => Err(match home_off_the_plate(strategy) {
            Some(home) if home == place => Refusal::HomeOffThePlate { place },
            Some(_) => panic!("libtwillharbor.a answered number 4, place {place}, of {strategy:?}"),
            None => Refusal::OffThePlate { place },
        }),
        _ => accepted(number, place),
    }
}

/// The place of the parked point's first coordinate that is off the plate, if there is one.
fn home_off_the_plate(strategy: StartPointStrategy) -> Option<u32> {
    let StartPointStrategy::Home(home) = strategy else { return None };
    let is_within = |coordinate: f64| coordinate.abs() <= HIGHEST_COORDINATE;
    match (is_within(home.x), is_within(home.y)) {
        (false, _) => Some(0),
        (true, false) => Some(1),
        (true, true) => None,
    }
}

/// [`accepted`] for the check of a path of that many points.
///
/// # Panics
///
/// As [`accepted`].
pub(crate) fn accepted_path(number: u32, place: u64, points: usize) -> Result<(), Refusal> {
    match (number, u32::try_from(place)) {
        (NOT_DRAWN, _) if place <= points as u64 => Err(Refusal::NotDrawn { place }),
        (0..=4, Ok(place)) | (5, Ok(place @ 0)) => accepted(number, place),
        _ => panic!(
            "libtwillharbor.a answered number {number}, place {place} of a path of {points} points"
        ),
    }
}

/// [`accepted`] for the contours of a path whose slice has that length. The vertices below a missing
/// one are landed on, and so is a higher one, each by a path point of its own.
///
/// # Panics
///
/// As [`accepted`].
pub(crate) fn accepted_contours(
    number: u32,
    place: u64,
    coordinates: usize,
) -> Result<(), Refusal> {
    let is_below = |most: usize| place < most as u64;
    let points = coordinates / 2;
    match (number, place) {
        (0, 0) => Ok(()),
        (3, 0) => Err(Refusal::Miscounted),
        (OFF_THE_PLATE, _) if is_below(coordinates) => Err(Refusal::PathOffThePlate { place }),
        (5, 0) => Err(Refusal::WorkShort { place: 0 }),
        (FULL, 0) => Err(Refusal::Full { place: 0 }),
        (MARKS_INCONSISTENT, _) if is_below(points) => Err(Refusal::MarksInconsistent { place }),
        (VERTEX_MISSING, _) if is_below(points.min(MOST_POINTS - 1)) => {
            Err(Refusal::VertexMissing { place })
        }
        _ => panic!(
            "libtwillharbor.a answered number {number}, place {place} where it recovers the \
             contours of a path of {points} points"
        ),
    }
}

/// [`accepted`] for the writer of a plate file, of a path slice of that length.
///
/// # Panics
///
/// As [`accepted`].
pub(crate) fn accepted_write(number: u32, place: u32, coordinates: usize) -> Result<(), Refusal> {
    match (number, place) {
        (0, 0) | (2, 0) | (3, 0) | (FULL, 0) => accepted(number, place),
        (OFF_THE_PLATE, _) if (place as usize) < coordinates => accepted(number, place),
        _ => panic!(
            "libtwillharbor.a answered number {number}, place {place} where it writes a file of \
             {coordinates} coordinates"
        ),
    }
}

/// [`accepted`] for the reader of a plate file of that many bytes.
///
/// # Panics
///
/// As [`accepted`].
pub(crate) fn accepted_read(number: u32, place: u32, bytes: usize) -> Result<(), Refusal> {
    match (number, place) {
        (0, 0) | (2, 0) | (FULL, 0) => accepted(number, place),
        (BLOCK_DAMAGED, _) if (place as usize) < bytes / BLOCK_BYTES => {
            Err(Refusal::BlockDamaged { place })
        }
        (WRONG_END, _) if place as usize <= bytes => Err(Refusal::WrongEnd { place }),
        _ => panic!(
            "libtwillharbor.a answered number {number}, place {place} of a file of {bytes} bytes"
        ),
    }
}

#[cfg(test)]
mod tests {
    use super::{
        LayerFault, Refusal, accepted, accepted_contours, accepted_path, accepted_read,
        accepted_write,
    };
    use crate::StartPointStrategy::{self, Home, Inside, Outside};
    use crate::{Point, refusal};

    /// Of a plate that has no parked point.
    fn accepted_plate(number: u32, place: u32, contours: usize) -> Result<(), Refusal> {
        let outcome = refusal::accepted_plate(number, place, contours, Inside);
        assert_eq!(outcome, refusal::accepted_plate(number, place, contours, Outside));
        outcome
    }

    fn accepted_4(place: u32, strategy: StartPointStrategy) -> Result<(), Refusal> {
        refusal::accepted_plate(4, place, 9, strategy)
    }

    #[test]
    fn numbers_words_and_places_are_those_of_the_table() {
        let table = [
            (1, 0, "too many contours"),
            (2, 0, "too many points"),
            (3, 0, "miscounted"),
            (4, 3, "off the plate"),
            (5, 1, "work short"),
            (6, 1_048_576, "full"),
            (7, 0, "blank"),
        ];
        for (number, place, word) in table {
            let refusal = accepted(number, place).unwrap_err();
            let place = u64::from(place);
            assert_eq!((refusal.number(), refusal.place(), refusal.word()), (number, place, word));
        }
        assert_eq!(accepted(0, 0), Ok(()));
    }

    #[test]
    fn an_error_says_word_number_and_place() {
        let refusal = Refusal::OffThePlate { place: 2 };
        assert_eq!(refusal.to_string(), "off the plate (refusal 4, place 2)");
    }

    #[test]
    fn what_the_table_lacks_does_not_pass() {
        for (number, place) in [(8, 0), (u32::MAX, 0), (0, 1), (1, 1), (3, 9), (5, 2), (7, 1)] {
            let outcome = std::panic::catch_unwind(|| accepted(number, place));
            assert!(outcome.is_err(), "number {number}, place {place} passed");
            let outcome = std::panic::catch_unwind(|| accepted_plate(number, place, 9));
            assert!(outcome.is_err(), "number {number}, place {place} passed of a plate");
        }
        // The distance call has no layers, and no contour is beyond the last.
        assert!(std::panic::catch_unwind(|| accepted(13, 0)).is_err());
        assert!(std::panic::catch_unwind(|| accepted_plate(13, 10, 9)).is_err());
    }

    #[test]
    fn a_bad_layer_is_a_contours_or_the_slices() {
        for (place, fault, message) in [
            (
                8,
                LayerFault::Layer { contour: 8 },
                "bad layer (refusal 13, place 8): contour 8 has a layer above 15",
            ),
            (
                9,
                LayerFault::Length { contours: 9 },
                "bad layer (refusal 13, place 9): the number of layers is not that of the contours, 9",
            ),
        ] {
            let refusal = accepted_plate(13, place, 9).unwrap_err();
            assert_eq!(refusal, Refusal::BadLayer(fault));
            assert_eq!((refusal.number(), refusal.place()), (13, place.into()));
            assert_eq!(refusal.word(), "bad layer");
            assert_eq!(refusal.to_string(), message);
        }
        assert_eq!(accepted_plate(0, 0, 0), Ok(()));
    }

    #[test]
    fn off_the_plate_is_a_parked_points_or_a_contours() {
        let limit = 1_000_000.0_f64;
        let beyond = limit.next_up();
        for off in [beyond, -beyond, f64::INFINITY, f64::NEG_INFINITY, f64::NAN] {
            for (x, y, place, axis) in
                [(off, 0.0, 0, "x"), (off, off, 0, "x"), (limit, off, 1, "y")]
            {
                let home = Home(Point { x, y });
                let refusal = accepted_4(place, home).unwrap_err();
                assert_eq!(refusal, Refusal::HomeOffThePlate { place });
                assert_eq!((refusal.number(), refusal.place()), (4, place.into()));
                assert_eq!(refusal.word(), "off the plate");
                let message =
                    format!("off the plate (refusal 4, place {place}): the parked point's {axis}");
                assert_eq!(refusal.to_string(), message);
                assert!(std::panic::catch_unwind(|| accepted_4(1 - place, home)).is_err());
                assert!(std::panic::catch_unwind(|| accepted_4(7, home)).is_err());
            }
        }
        for (x, y) in [(limit, -limit), (-0.0, 5e-324), (-2.5, 1e-300)] {
            for place in [0, 1, 131_071] {
                let refusal = accepted_4(place, Home(Point { x, y }));
                assert_eq!(refusal, Err(Refusal::OffThePlate { place }));
            }
        }
        assert_eq!(accepted_4(1, Inside), Err(Refusal::OffThePlate { place: 1 }));
        // What is tested before the parked point, or does not ask for it, stays what it is.
        let off = Home(Point { x: f64::NAN, y: 0.0 });
        assert_eq!(refusal::accepted_plate(3, 0, 9, off), Err(Refusal::Miscounted));
        let layer = Refusal::BadLayer(LayerFault::Layer { contour: 0 });
        assert_eq!(refusal::accepted_plate(13, 0, 9, off), Err(layer));
        assert_eq!(accepted(4, 0), Err(Refusal::OffThePlate { place: 0 }));
    }

    #[test]
    fn a_path_is_refused_at_one_of_its_points_or_its_end() {
        for (number, place, points, word) in [
            (12, 0, 0, "path does not draw the plate"),
            (12, 7, 9, "path does not draw the plate"),
            (12, 1 << 40, 1 << 40, "path does not draw the plate"),
            (1, 0, 9, "too many contours"),
            (2, 0, 9, "too many points"),
            (3, 0, 9, "miscounted"),
            (4, 131_071, 9, "off the plate"),
            (5, 0, 9, "work short"),
        ] {
            let refusal = accepted_path(number, place, points).unwrap_err();
            assert_eq!((refusal.number(), refusal.place(), refusal.word()), (number, place, word));
        }
        assert_eq!(accepted_path(0, 0, 9), Ok(()));
        let refusal = Refusal::NotDrawn { place: 1 << 40 };
        let message = "path does not draw the plate (refusal 12, place 1099511627776)";
        assert_eq!(refusal.to_string(), message);
        for (number, place) in [(12, 10), (5, 1), (6, 0), (7, 0), (13, 0), (0, 1), (4, 1 << 32)] {
            let outcome = std::panic::catch_unwind(|| accepted_path(number, place, 9));
            assert!(outcome.is_err(), "number {number}, place {place} passed");
        }
        assert!(std::panic::catch_unwind(|| accepted(12, 0)).is_err());
        assert!(std::panic::catch_unwind(|| accepted_plate(12, 0, 9)).is_err());
    }

    #[test]
    fn contours_are_refused_at_a_coordinate_a_path_point_or_a_vertex() {
        let long = 1 << 40;
        for (number, place, coordinates, word) in [
            (3, 0, 7, "miscounted"),
            (4, 7, 8, "off the plate"),
            (4, long - 1, long, "off the plate"),
            (5, 0, 8, "work short"),
            (6, 0, 8, "full"),
            (10, 3, 8, "marks inconsistent"),
            (10, long / 2 - 1, long, "marks inconsistent"),
            (11, 3, 8, "vertex missing"),
            (11, 65_534, long, "vertex missing"),
        ] {
            let refusal = accepted_contours(number, place, coordinates as usize).unwrap_err();
            assert_eq!((refusal.number(), refusal.place(), refusal.word()), (number, place, word));
        }
        assert_eq!(accepted_contours(0, 0, 8), Ok(()));
        let refusal = Refusal::PathOffThePlate { place: long };
        assert_eq!(refusal.to_string(), "off the plate (refusal 4, place 1099511627776)");
        let refusal = Refusal::MarksInconsistent { place: 3 };
        assert_eq!(refusal.to_string(), "marks inconsistent (refusal 10, place 3)");
        for (number, place, coordinates) in [
            (0, 1, 8),
            (1, 0, 8),
            (2, 0, 8),
            (3, 1, 8),
            (4, 8, 8),
            (5, 1, 8),
            (6, 1, 8),
            (10, 4, 8),
            (10, 3, 7),
            (11, 4, 8),
            (11, 65_535, long),
            (12, 0, 8),
            (13, 0, 8),
        ] {
            let outcome =
                std::panic::catch_unwind(|| accepted_contours(number, place, coordinates as usize));
            assert!(outcome.is_err(), "number {number}, place {place} passed");
        }
        for number in [10, 11] {
            assert!(std::panic::catch_unwind(|| accepted(number, 0)).is_err());
            assert!(std::panic::catch_unwind(|| accepted_plate(number, 0, 9)).is_err());
            assert!(std::panic::catch_unwind(|| accepted_path(number, 0, 9)).is_err());
        }
    }

    #[test]
    fn a_plate_file_is_refused_at_a_coordinate_a_block_or_a_byte() {
        for (number, place, word) in [
            (2, 0, "too many points"),
            (3, 0, "miscounted"),
            (4, 7, "off the plate"),
            (6, 0, "full"),
        ] {
            let refusal = accepted_write(number, place, 8).unwrap_err();
            let place = u64::from(place);
            assert_eq!((refusal.number(), refusal.place(), refusal.word()), (number, place, word));
        }
        let end = "file ends early, or goes on after its closing block";
        for (number, place, word) in [
            (2, 0, "too many points"),
            (6, 0, "full"),
            (8, 1, "block damaged"),
            (9, 0, end),
            (9, 1_300, end),
        ] {
            let refusal = accepted_read(number, place, 1_300).unwrap_err();
            let place = u64::from(place);
            assert_eq!((refusal.number(), refusal.place(), refusal.word()), (number, place, word));
        }
        assert_eq!((accepted_write(0, 0, 8), accepted_read(0, 0, 512)), (Ok(()), Ok(())));
        let damaged = Refusal::BlockDamaged { place: 3 };
        assert_eq!(damaged.to_string(), "block damaged (refusal 8, place 3)");
        assert_eq!(
            Refusal::WrongEnd { place: 700 }.to_string(),
            "file ends early, or goes on after its closing block (refusal 9, place 700)"
        );
        for (number, place) in [(0, 1), (1, 0), (4, 8), (5, 0), (6, 1), (8, 0), (9, 0), (12, 0)] {
            let outcome = std::panic::catch_unwind(|| accepted_write(number, place, 8));
            assert!(outcome.is_err(), "number {number}, place {place} passed of a writer");
        }
        for (number, place) in [(0, 1), (3, 0), (4, 0), (6, 9), (8, 2), (9, 1_301), (12, 0)] {
            let outcome = std::panic::catch_unwind(|| accepted_read(number, place, 1_300));
            assert!(outcome.is_err(), "number {number}, place {place} passed of a reader");
        }
    }
}
