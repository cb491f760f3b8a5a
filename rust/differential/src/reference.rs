//! The reference's answers to the start, order, straight and retrace calls.
//!
//! They are those of the copy with layers, and with Home those of the copy of that one whose centre
//! is handed in. Where all contours that hold a point are of one layer, mujou's own functions,
//! which know no layers and no parked point, must give the same with Outside and Inside.

use twillharbor::StartPointStrategy::{self, Home, Inside, Outside};

use crate::mujou::{Layered, Mujou, Parked, Plain, distance};
use crate::plates::Plate;
use crate::rule::{self, Held, Refused, Retrace};

/// What becomes of a plate, whatever slices are lent for it.
#[derive(Debug, Clone)]
pub struct Results {
    /// The contour number and 1 if it is reversed, else 0.
    pub start: Option<[u32; 2]>,
    /// Each entry's contour number and 1 if it is reversed, else 0.
    pub order: Vec<[u32; 2]>,
    pub straight: Vec<[f64; 2]>,
    /// What the layers did to the choices after the start.
    pub held: Held,
}

/// The reference's results, or the refusal of a plate that is refused for its points, lengths or
/// layers, or for the parked point. It is an error where the reference and the documents as
/// transcribed in `rule` differ.
pub fn results(
    plate: &Plate,
    strategy: StartPointStrategy,
) -> Result<Result<Results, Refused>, String> {
    if let Err(refused) = rule::checked(plate, strategy) {
        return Ok(Err(refused));
    }
    let (start, order, straight) = match strategy {
        Home(_) => joined::<Parked>(plate, strategy)?,
        Outside | Inside => joined_in_layers(plate, strategy)?,
    };
    let rule_start = rule::start(plate, strategy);
    let (rule_order, held) = rule::order(plate, strategy);
    if (rule_start, &rule_order) != (start, &order) {
        return Err(format!(
            "the documents as transcribed start with {rule_start:?} and order {rule_order:?}, \
             the reference {start:?} and {order:?}"
        ));
    }
    if !same_bits(&rule::straight(&plate.points, &plate.lengths, &order), &straight) {
        return Err("the documents as transcribed have another path than the reference".to_string());
    }
    Ok(Ok(Results { start, order, straight, held }))
}

type Joined = (Option<[u32; 2]>, Vec<[u32; 2]>, Vec<[f64; 2]>);

/// What the copy with layers gives, and with one layer the reference too.
fn joined_in_layers(plate: &Plate, strategy: StartPointStrategy) -> Result<Joined, String> {
    let (start, order, straight) = joined::<Layered>(plate, strategy)?;
    if plate.one_layer().is_some() {
        let (their_start, their_order, their_straight) = joined::<Plain>(plate, strategy)?;
        if (start, &order) != (their_start, &their_order) || !same_bits(&straight, &their_straight)
        {
            return Err("with one layer the reference's copy differs from it".to_string());
        }
    }
    Ok((start, order, straight))
}

/// Start, order and straight path. It is an error where contours that carry their number are
/// ordered in another way than the contours themselves.
fn joined<M: Mujou>(plate: &Plate, strategy: StartPointStrategy) -> Result<Joined, String> {
    let contours = contours::<M>(plate);
    let order = order::<M>(plate, strategy);
    let ordered = M::order(&contours, strategy, plate.size);
    let as_tagged = |(entry, ordered): (&[u32; 2], &M::Contour)| {
        let mut contour = M::points(&contours[entry[0] as usize]);
        if entry[1] == 1 {
            contour.reverse();
        }
        same_bits(&contour, &M::points(ordered))
    };
    if ordered.len() != order.len() || !order.iter().zip(&ordered).all(as_tagged) {
        return Err("the reference orders tagged contours in another way".to_string());
    }
    let straight = M::points(&M::straight(&contours, strategy, plate.size));
    Ok((start::<M>(plate, &contours, strategy), order, straight))
}

/// The reference's path with the documents' marks, or the refusal of a plate that is refused for
/// its points, lengths or layers, or for the parked point. A path that has more points than the cap
/// says can be exponentially long: then the copy of the reference that stops gives its beginning.
///
/// The reference has no marks. They are those of the documents as transcribed in `rule`, and it
/// is an error where its path differs from the reference's, or a pair's length from the reference's
/// distance, times 1,024 and rounded down.
pub fn retrace(
    plate: &Plate,
    strategy: StartPointStrategy,
    cap: usize,
) -> Result<Result<Retrace, Refused>, String> {
    if let Err(refused) = rule::checked(plate, strategy) {
        return Ok(Err(refused));
    }
    let (mut steps, held) = rule::retrace::retrace(plate, strategy, cap);
    let whole = steps.len() <= cap;
    steps.truncate(cap);
    let path = match strategy {
        Home(_) => retraced::<Parked>(plate, strategy, cap, whole)?,
        Outside | Inside => retraced_in_layers(plate, strategy, cap, whole)?,
    };

    let (vertices, _) = plate.points.as_chunks();
    let ours: Vec<[f64; 2]> = steps.iter().map(|step| vertices[step.vertex]).collect();
    if !same_bits(&ours, &path) {
        let apart = ours.iter().zip(&path).position(|(a, b)| !same_bits(&[*a], &[*b]));
        return Err(format!(
            "the documents as transcribed have another path than the reference: {} and {} points, \
             different from place {:?} on",
            ours.len(),
            path.len(),
            apart
        ));
    }
    let marks: Vec<[u32; 2]> = steps.iter().map(|step| step.mark).collect();
    let lengths = lengths(&path, &marks)?;
    Ok(Ok(Retrace { path, marks, whole, lengths, held }))
}

/// The lengths of the cuts, of the back-steps, and of the jumps and touches.
fn lengths(path: &[[f64; 2]], marks: &[[u32; 2]]) -> Result<[u64; 3], String> {
    let mut lengths = [0; 3];
    for (ends, [kind, _]) in path.windows(2).zip(marks.iter().skip(1)) {
        let length = rule::lengths::pair(ends[0], ends[1]);
        let theirs = (distance(ends[0], ends[1]) * 1_024.0).floor() as u64;
        if length != theirs {
            return Err(format!(
                "from {:?} to {:?} the length is {length} by whole numbers, {theirs} by the \
                 reference's distance",
                ends[0], ends[1]
            ));
        }
        lengths[rule::lengths::sum_of(*kind)] += length;
    }
    Ok(lengths)
}

/// What the copy with layers gives, and with one layer the reference too.
fn retraced_in_layers(
    plate: &Plate,
    strategy: StartPointStrategy,
    cap: usize,
    whole: bool,
) -> Result<Vec<[f64; 2]>, String> {
    let path = retraced::<Layered>(plate, strategy, cap, whole)?;
    if plate.one_layer().is_some()
        && !same_bits(&path, &retraced::<Plain>(plate, strategy, cap, whole)?)
    {
        return Err("with one layer the reference's copy differs from it".to_string());
    }
    Ok(path)
}

/// The whole path, or as many points of a longer one as the cap says.
fn retraced<M: Mujou>(
    plate: &Plate,
    strategy: StartPointStrategy,
    cap: usize,
    whole: bool,
) -> Result<Vec<[f64; 2]>, String> {
    let contours = contours::<M>(plate);
    let cap = (!whole).then_some(cap);
    let mut path = M::points(&M::retrace(&contours, strategy, plate.size, cap));
    if let Some(cap) = cap {
        if path.len() <= cap {
            return Err(format!(
                "the documents as transcribed have a path of more than {cap} points, the \
                 reference one of {}",
                path.len()
            ));
        }
        path.truncate(cap);
    }
    Ok(path)
}

/// The contours, skipped ones too.
fn contours<M: Mujou>(plate: &Plate) -> Vec<M::Contour> {
    let (mut points, _) = plate.points.as_chunks();
    let contours = plate.lengths.iter().zip(&plate.layers).map(|(&length, &layer)| {
        let (contour, rest) = points.split_at(length as usize);
        points = rest;
        M::contour(contour, layer)
    });
    contours.collect()
}

fn start<M: Mujou>(
    plate: &Plate,
    contours: &[M::Contour],
    strategy: StartPointStrategy,
) -> Option<[u32; 2]> {
    let numbered = (0..).zip(contours).zip(&plate.lengths);
    let (numbers, candidates): (Vec<u32>, Vec<&M::Contour>) =
        numbered.filter(|&(_, &length)| length > 0).map(|(numbered, _)| numbered).unzip();
    if candidates.is_empty() {
        return None;
    }
    let (index, reversed) = M::start(&candidates, strategy, plate.size);
    Some([numbers[index], reversed.into()])
}

/// The order, read off contours that carry their number.
///
/// `optimize_path_order` gives the contours themselves, and two may have equal points. It
/// looks at nothing but their layers and their first and last points, so between these it is
/// given two points that name the contour and, by which of them comes first, its sense.
fn order<M: Mujou>(plate: &Plate, strategy: StartPointStrategy) -> Vec<[u32; 2]> {
    let (mut points, _) = plate.points.as_chunks::<2>();
    let contours = plate.lengths.iter().zip(&plate.layers).enumerate();
    let tagged = contours.map(|(number, (&length, &layer))| {
        let (contour, rest) = points.split_at(length as usize);
        points = rest;
        match (contour.first(), contour.last()) {
            (Some(&first), Some(&last)) => {
                let tag = |sense| [number as f64, sense];
                M::contour(&[first, tag(0.0), tag(1.0), last], layer)
            }
            _ => M::contour(&[], layer),
        }
    });
    let tagged: Vec<M::Contour> = tagged.collect();
    let ordered = M::order(&tagged, strategy, plate.size);
    ordered
        .iter()
        .map(|contour| M::points(contour)[1])
        .map(|[number, sense]| [number as u32, sense as u32])
        .collect()
}

fn same_bits(a: &[[f64; 2]], b: &[[f64; 2]]) -> bool {
    a.len() == b.len() && a.iter().zip(b).all(|(a, b)| a.map(f64::to_bits) == b.map(f64::to_bits))
}
