//! mujou's functions as the runs call them: the reference's, those of its copy with layers, and
//! those of the copy of that one whose centre is handed in.

use twillharbor::StartPointStrategy::{self, Home, Inside, Outside};
use twillharbor::{Point, Size};

/// The reference, or one of its copies. Empty contours are handed over too, but to `start`.
pub trait Mujou {
    type Contour;

    fn contour(points: &[[f64; 2]], layer: u32) -> Self::Contour;

    fn points(contour: &Self::Contour) -> Vec<[f64; 2]>;

    fn start(
        candidates: &[&Self::Contour],
        strategy: StartPointStrategy,
        size: Size,
    ) -> (usize, bool);

    fn order(
        contours: &[Self::Contour],
        strategy: StartPointStrategy,
        size: Size,
    ) -> Vec<Self::Contour>;

    fn straight(
        contours: &[Self::Contour],
        strategy: StartPointStrategy,
        size: Size,
    ) -> Self::Contour;

    /// It stops past the cap, if there is one.
    fn retrace(
        contours: &[Self::Contour],
        strategy: StartPointStrategy,
        size: Size,
        cap: Option<usize>,
    ) -> Self::Contour;
}

/// The functions of mujou itself, which knows no layers.
pub struct Plain;

/// Those of the copy that is altered in its choices.
pub struct Layered;

/// Those of the copy with layers whose centre is handed in.
pub struct Parked;

/// The reference's plain distance.
pub fn distance([ax, ay]: [f64; 2], [bx, by]: [f64; 2]) -> f64 {
    let [a, b] = [(ax, ay), (bx, by)].map(|(x, y)| mujou_reference::types::Point::new(x, y));
    a.distance(b)
}

/// What the centre is half of. There is no other point that distances are taken from.
fn sides(strategy: StartPointStrategy, size: Size) -> [u32; 2] {
    assert!(!matches!(strategy, Home(_)), "the centre is not handed in");
    [size.width, size.height]
}

/// The centre that is handed in.
fn parked(strategy: StartPointStrategy) -> Point {
    let Home(point) = strategy else {
        unreachable!("Home alone is compared with it");
    };
    point
}

/// The packages have the same functions, each of its own types.
macro_rules! mujou {
    ($which:ident, $package:ident, $contour:expr, $dimensions:expr) => {
        impl $which {
            fn strategy(strategy: StartPointStrategy) -> $package::types::StartPointStrategy {
                match strategy {
                    Outside => $package::types::StartPointStrategy::Outside,
                    Inside | Home(_) => $package::types::StartPointStrategy::Inside,
                }
            }

            fn dimensions(strategy: StartPointStrategy, size: Size) -> $package::types::Dimensions {
                $dimensions(strategy, size)
            }
        }

        impl Mujou for $which {
            type Contour = $package::types::Polyline;

            fn contour(points: &[[f64; 2]], layer: u32) -> Self::Contour {
                let points = points.iter().map(|&[x, y]| $package::types::Point::new(x, y));
                $contour($package::types::Polyline::new(points.collect()), layer)
            }

            fn points(contour: &Self::Contour) -> Vec<[f64; 2]> {
                contour.points().iter().map(|p| [p.x, p.y]).collect()
            }

            fn start(
                candidates: &[&Self::Contour],
                strategy: StartPointStrategy,
                size: Size,
            ) -> (usize, bool) {
                let size = Self::dimensions(strategy, size);
                let strategy = Self::strategy(strategy);
                $package::join::door::choose_start_contour(candidates, strategy, size)
            }

            fn order(
                contours: &[Self::Contour],
                strategy: StartPointStrategy,
                size: Size,
            ) -> Vec<Self::Contour> {
                let size = Self::dimensions(strategy, size);
                let strategy = Self::strategy(strategy);
                $package::optimize::optimize_path_order(contours, strategy, size)
            }

            fn straight(
                contours: &[Self::Contour],
                strategy: StartPointStrategy,
                size: Size,
            ) -> Self::Contour {
                let size = Self::dimensions(strategy, size);
                let strategy = Self::strategy(strategy);
                $package::join::door::join_straight_line(contours, strategy, size)
            }

            fn retrace(
                contours: &[Self::Contour],
                strategy: StartPointStrategy,
                size: Size,
                cap: Option<usize>,
            ) -> Self::Contour {
                let size = Self::dimensions(strategy, size);
                let strategy = Self::strategy(strategy);
                match cap {
                    None => $package::join::door::join_retrace(contours, strategy, size),
                    Some(cap) => {
                        $package::join::capped::join_retrace(contours, strategy, size, cap)
                    }
                }
            }
        }
    };
}

mujou!(Plain, mujou_reference, |contour, _layer| contour, |strategy, size| {
    let [width, height] = sides(strategy, size);
    mujou_reference::types::Dimensions { width, height }
});
mujou!(
    Layered,
    mujou_reference_layers,
    |contour: Self::Contour, layer| contour.in_layer(layer),
    |strategy, size| {
        let [width, height] = sides(strategy, size);
        mujou_reference_layers::types::Dimensions { width, height }
    }
);
mujou!(
    Parked,
    mujou_reference_home,
    |contour: Self::Contour, layer| contour.in_layer(layer),
    |strategy, _size| {
        let Point { x, y } = parked(strategy);
        let center = mujou_reference_home::types::Point::new(x, y);
        mujou_reference_home::types::Dimensions { center }
    }
);
