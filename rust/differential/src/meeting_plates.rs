//! Plates whose contours meet, and plates whose contours all but meet: where the path touches, and
//! where it jumps though next to nothing lies between.

use harness::random::Random;

use crate::floats::{nudged, power, signed};
use crate::plates::Plate;

/// How the contours of a plate meet.
#[derive(Debug, Clone, Copy, PartialEq, Eq)]
pub enum Meeting {
    EndsOnEnds,
    EndsOnMiddles,
    MiddlesOnMiddles,
    AtOnePoint,
    Closed,
    WalkedBack,
    Stacked,
    SignedZeros,
    NoDistance,
    OneCoordinate,
    Net,
    Chain,
}

pub const MEETINGS: [(Meeting, &str); 12] = [
    (Meeting::EndsOnEnds, "contours that meet end on end"),
    (Meeting::EndsOnMiddles, "contours that meet end on middle"),
    (Meeting::MiddlesOnMiddles, "contours that meet middle on middle"),
    (Meeting::AtOnePoint, "several contours at one point"),
    (Meeting::Closed, "closed contours that meet"),
    (Meeting::WalkedBack, "contours that meet points walked back over"),
    (Meeting::Stacked, "single points on top of one another"),
    (Meeting::SignedZeros, "contours that meet at 0 and -0"),
    (Meeting::NoDistance, "different points at squared distance 0"),
    (Meeting::OneCoordinate, "points with one coordinate in common"),
    (Meeting::Net, "nets"),
    (Meeting::Chain, "chains of up to hundreds of contours"),
];

/// A plate of the kind, mostly small. Its contours are in layer 0, but where layers decide what
/// is walked back over.
pub fn plate(meeting: Meeting, random: &mut Random) -> Plate {
    use Part::{End, Middle};
    let contours = match meeting {
        Meeting::EndsOnEnds => grown(&[[End, End]], random),
        Meeting::EndsOnMiddles => grown(&[[End, Middle], [Middle, End]], random),
        Meeting::MiddlesOnMiddles => grown(&[[Middle, Middle]], random),
        Meeting::AtOnePoint => {
            let hubs = [(); 2].map(|()| anywhere(20, random));
            through_any(&hubs, random)
        }
        Meeting::Closed => rings(random),
        Meeting::WalkedBack => return walked_back(random),
        Meeting::Stacked => stacked(random),
        Meeting::SignedZeros => return signed_zeros(random),
        Meeting::NoDistance => return no_distance(random),
        Meeting::OneCoordinate => return one_coordinate(random),
        Meeting::Net => {
            let lines = if random.one_in(30) { random.between(6, 9) } else { random.between(2, 5) };
            net(lines, random)
        }
        Meeting::Chain => {
            let many = if random.one_in(30) { random.between(100, 600) } else { count(random) };
            let contours = disordered(chain(many, random), random);
            let step = random.pick(&[1.0, 0.37, 50.0]);
            return laid(&contours, Lattice { origin: [0.0; 2], step }, random);
        }
    };
    laid(&disordered(contours, random), Lattice::any(random), random)
}

/// A point of a lattice. Equal ones become equal points.
type Node = [i64; 2];

/// Nodes have coordinates of at most this.
const REACH: i64 = 100;

fn anywhere(reach: i64, random: &mut Random) -> Node {
    [(); 2].map(|()| random.between(-reach, reach))
}

#[derive(Debug, Clone, Copy)]
struct Lattice {
    origin: [f64; 2],
    step: f64,
}

impl Lattice {
    fn any(random: &mut Random) -> Self {
        Self {
            origin: [(); 2].map(|()| random.pick(&[0.0, 0.0, 0.11, -7.5, 1e5])),
            step: random.pick(&[1.0, 1.0, 0.37, 1.0 / 3.0, 1e-3, 4_000.0]),
        }
    }

    fn point(&self, node: Node) -> [f64; 2] {
        [0, 1].map(|axis| self.origin[axis] + node[axis] as f64 * self.step)
    }
}

fn laid(contours: &[Vec<Node>], lattice: Lattice, random: &mut Random) -> Plate {
    let contours: Vec<Vec<[f64; 2]>> = contours
        .iter()
        .map(|contour| contour.iter().map(|&node| lattice.point(node)).collect())
        .collect();
    of_any_size(&contours, random)
}

fn of_any_size(contours: &[Vec<[f64; 2]>], random: &mut Random) -> Plate {
    let size = random.pick(&[[0, 0], [0, 0], [10, 10], [1_000, 1], [u32::MAX, 7]]);
    Plate::of_contours(contours, size)
}

/// Hundreds of contours in any order would be walked over again and again.
const FEW: usize = 60;

/// In any order where there are few, and with contours that are skipped.
fn disordered(mut contours: Vec<Vec<Node>>, random: &mut Random) -> Vec<Vec<Node>> {
    if contours.len() <= FEW && random.one_in(2) {
        shuffle(&mut contours, random);
    }
    if random.one_in(4) {
        let at = random.below(contours.len() as u64 + 1) as usize;
        contours.insert(at, Vec::new());
    }
    contours
}

pub fn shuffle<T>(values: &mut [T], random: &mut Random) {
    for end in (1..values.len()).rev() {
        values.swap(end, random.below(end as u64 + 1) as usize);
    }
}

/// How many contours a plate has.
fn count(random: &mut Random) -> i64 {
    match random.below(400) {
        0 => random.between(100, 300),
        1..20 => random.between(13, FEW as i64),
        _ => random.between(2, 11),
    }
}

/// Where a vertex stands in its contour.
#[derive(Debug, Clone, Copy)]
enum Part {
    End,
    Middle,
}

impl Part {
    /// A place in a contour of that length: an end where there is no middle.
    fn place(self, length: usize, random: &mut Random) -> usize {
        match self {
            Self::Middle if length > 2 => 1 + random.below(length as u64 - 2) as usize,
            _ => random.pick(&[0, length - 1]),
        }
    }

    /// Of a contour that has such a vertex.
    fn length(self, random: &mut Random) -> usize {
        match self {
            Self::Middle => random.between(3, 6) as usize,
            Self::End => random.between(1, 6) as usize,
        }
    }
}

/// That many nodes, each a few steps from the one before.
fn walk(from: Node, nodes: usize, random: &mut Random) -> Vec<Node> {
    let mut node = from;
    let steps = (0..nodes).map(|_| {
        node = node.map(|c| (c + random.between(-3, 3)).clamp(-REACH, REACH));
        node
    });
    steps.collect()
}

/// A contour with such a vertex at a node.
fn through(node: Node, part: Part, random: &mut Random) -> Vec<Node> {
    let length = part.length(random);
    let place = part.place(length, random);
    let mut contour = walk(node, place, random);
    contour.reverse();
    contour.push(node);
    contour.extend(walk(node, length - 1 - place, random));
    contour
}

/// Contours of which most have a vertex in common with one before them. Of each of the pairs the
/// first says where it stands in the contour, the second where in the earlier one.
fn grown(pairs: &[[Part; 2]], random: &mut Random) -> Vec<Vec<Node>> {
    let mut contours = vec![through(anywhere(5, random), Part::Middle, random)];
    // Far away, so that the cells are wide and fewer vertices are samples.
    if random.one_in(4) {
        contours.push(vec![[REACH; 2]]);
    }
    for _ in 1..count(random) {
        let [part, theirs] = random.pick(pairs);
        let earlier = &contours[random.below(contours.len() as u64) as usize];
        let mut node = earlier[theirs.place(earlier.len(), random)];
        if random.one_in(6) {
            node = anywhere(20, random);
        }
        contours.push(through(node, part, random));
    }
    contours
}

/// Contours through these nodes.
fn through_any(hubs: &[Node], random: &mut Random) -> Vec<Vec<Node>> {
    let contours = (0..count(random)).map(|_| {
        let part = random.pick(&[Part::End, Part::Middle]);
        through(random.pick(hubs), part, random)
    });
    contours.collect()
}

/// Rectangles and triangles that have corners in common, closed at any of these.
fn rings(random: &mut Random) -> Vec<Vec<Node>> {
    let mut rings: Vec<Vec<Node>> = Vec::new();
    let mut corners = vec![[0, 0]];
    for _ in 0..count(random) {
        let [x, y] = random.pick(&corners);
        let [width, height] = [(); 2].map(|()| random.pick(&[-4, -2, -1, 1, 2, 4]));
        let ends = [x, y, x + width, y + height].map(|c| c.clamp(-REACH, REACH));
        let [left, top, right, bottom] = ends;
        let mut ring = vec![[left, top], [right, top], [right, bottom], [left, bottom]];
        ring.truncate(random.between(3, 4) as usize);
        let turn = random.below(ring.len() as u64) as usize;
        ring.rotate_left(turn);
        corners.extend(&ring);
        ring.push(ring[0]);
        rings.push(ring);
    }
    rings
}

/// Single points in a few places, and contours that stay in one.
fn stacked(random: &mut Random) -> Vec<Vec<Node>> {
    let places = [(); 3].map(|()| anywhere(random.pick(&[1, 3, REACH]), random));
    let contours = (0..count(random)).map(|_| {
        let length = random.pick(&[1, 1, 1, 2, 3]);
        vec![random.pick(&places); length]
    });
    contours.collect()
}

/// That many lines each way, each cut into contours that have their ends in common. Of ten lines
/// the path has tens of thousands of points.
fn net(lines: i64, random: &mut Random) -> Vec<Vec<Node>> {
    let contours = (0..2 * lines).flat_map(|number| {
        let line = number / 2;
        let across = move |along| if number % 2 == 0 { [along, line] } else { [line, along] };
        pieces(lines - 1, random).into_iter().map(move |nodes| nodes.map(across).collect())
    });
    contours.collect()
}

/// The nodes of a line from 0 to its last, in pieces.
fn pieces(last: i64, random: &mut Random) -> Vec<std::ops::RangeInclusive<i64>> {
    let mut pieces = Vec::new();
    let mut from = 0;
    while from < last {
        let to = last.min(from + random.between(1, 5));
        pieces.push(from..=to);
        from = to;
    }
    pieces
}

/// Contours of which nearly each begins where the one before ends. All go the same way, so that
/// they meet nowhere else and the path is not much longer than they are.
fn chain(contours: i64, random: &mut Random) -> Vec<Vec<Node>> {
    let mut end = [0, 0];
    let contours = (0..contours).map(|_| {
        end[0] += i64::from(random.one_in(20));
        let mut contour = vec![end];
        contour.extend((0..random.below(5)).map(|_| {
            end = [end[0] + random.between(1, 3), random.between(-3, 3)];
            end
        }));
        contour
    });
    contours.collect()
}

/// A large plate: a chain of that many contours, or else a net of that many lines each way.
pub fn large(meeting: Meeting, many: i64, random: &mut Random) -> Plate {
    let contours = match meeting {
        Meeting::Chain => chain(many, random),
        _ => net(many, random),
    };
    laid(&contours, Lattice { origin: [0.0; 2], step: 1.0 }, random)
}

/// A long contour, and others that meet it and wait for their layers: the path goes over the long
/// one again and again.
fn walked_back(random: &mut Random) -> Plate {
    let spine: Vec<Node> = (0..random.between(3, 9)).map(|place| [3 * place, 0]).collect();
    let mut contours = vec![(spine.clone(), 0)];
    for _ in 0..random.between(2, 8) {
        let part = random.pick(&[Part::End, Part::End, Part::Middle]);
        let contour = through(random.pick(&spine), part, random);
        contours.push((contour, random.below(6) as u32));
    }
    shuffle(&mut contours, random);
    let (contours, layers): (Vec<Vec<Node>>, Vec<u32>) = contours.into_iter().unzip();
    let lattice = Lattice::any(random);
    Plate { layers, ..laid(&contours, lattice, random) }
}

/// Contours that meet where one coordinate is 0 or both are, each of which has either sign.
fn signed_zeros(random: &mut Random) -> Plate {
    let [along, other] = [(); 2].map(|()| random.between(-5, 5));
    let hubs =
        random.pick(&[[[0, 0]; 2], [[along, 0]; 2], [[0, along]; 2], [[along, 0], [0, other]]]);
    let contours = disordered(through_any(&hubs, random), random);
    let step = random.pick(&[1.0, 0.37, 1e-200, power(-1074)]);
    let mut plate = laid(&contours, Lattice { origin: [0.0; 2], step }, random);
    plate.points.iter_mut().filter(|c| **c == 0.0).for_each(|zero| *zero = signed(random, *zero));
    plate
}

/// Coordinates whose differences have squares of 0, or of next to 0.
fn no_distance(random: &mut Random) -> Plate {
    let [least, vanishing, kept] = [-1074, -538, -537].map(power);
    let small = [0.0, least, 2.0 * least, f64::MIN_POSITIVE, 1e-200, 1e-170, vanishing, kept];
    let values = [(); 4].map(|()| {
        let value = random.pick(&small);
        signed(random, value)
    });
    let contours = (0..random.between(2, 10)).map(|_| {
        let length = random.pick(&[1, 1, 2, 3]);
        (0..length).map(|_| [(); 2].map(|()| random.pick(&values))).collect()
    });
    let mut contours: Vec<Vec<[f64; 2]>> = contours.collect();
    if random.one_in(4) {
        contours.push(vec![[random.unit(), 1.0]]);
    }
    of_any_size(&contours, random)
}

/// Points that have one coordinate in common with an earlier one, or both but in another place, of
/// another sign or a step away.
fn one_coordinate(random: &mut Random) -> Plate {
    let mut contours: Vec<Vec<[f64; 2]>> = Vec::new();
    let mut drawn = vec![[1.0, 2.0]];
    for _ in 0..count(random).min(FEW as i64) {
        let length = random.pick(&[1, 1, 1, 2, 3]);
        let from = random.pick(&drawn);
        let contour: Vec<[f64; 2]> = (0..length).map(|_| beside(from, random)).collect();
        drawn.extend(&contour);
        contours.push(contour);
    }
    of_any_size(&contours, random)
}

fn beside([x, y]: [f64; 2], random: &mut Random) -> [f64; 2] {
    let other = random.between(-6, 6) as f64 / 2.0;
    let step = random.pick(&[-1, 1]);
    match random.below(10) {
        0 | 1 => [x, other],
        2 | 3 => [other, y],
        4 => [y, x],
        5 => [-x, y],
        6 => [x, -y],
        7 => [nudged(x, step), y],
        8 => [x, nudged(y, step)],
        _ => [x, y],
    }
}

#[cfg(test)]
mod tests {
    use std::collections::HashMap;

    use harness::random::Random;

    use super::{MEETINGS, Meeting, plate};
    use crate::plates::Plate;

    /// Whether two contours have a point in common; 0 and -0 are equal.
    fn meet(plate: &Plate) -> bool {
        let (points, _) = plate.points.as_chunks::<2>();
        let owners = plate.lengths.iter().enumerate();
        let owners =
            owners.flat_map(|(owner, &length)| std::iter::repeat_n(owner, length as usize));
        let mut first = HashMap::new();
        let mut points = points.iter().map(|point| point.map(|c| (c + 0.0).to_bits())).zip(owners);
        points.any(|(point, owner)| *first.entry(point).or_insert(owner) != owner)
    }

    #[test]
    fn contours_meet() {
        let mut random = Random::new(1);
        for (meeting, name) in MEETINGS {
            let plates: Vec<Plate> = (0..300).map(|_| plate(meeting, &mut random)).collect();
            let meeting_ones = plates.iter().filter(|plate| meet(plate)).count();
            assert!(meeting_ones > 200, "{name}: {meeting_ones}");
        }
    }

    #[test]
    fn some_plates_have_hundreds_of_contours() {
        let mut random = Random::new(2);
        for (meeting, name) in MEETINGS {
            let most = (0..2_000).map(|_| plate(meeting, &mut random).lengths.len()).max();
            let due = match meeting {
                Meeting::WalkedBack | Meeting::NoDistance => 8,
                Meeting::OneCoordinate | Meeting::Net => 50,
                _ => 100,
            };
            assert!(most >= Some(due), "{name}: {most:?}");
        }
    }
}
