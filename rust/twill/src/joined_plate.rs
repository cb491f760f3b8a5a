//! A joined plate, and its pairs told one by one.

use crate::plate::Handed;
use crate::words;
use twillharbor::{Lengths, Mark, MarkedPath, Pair, PairKind, Point, Size, StartPointStrategy};

/// What was handed over and what the library gave. Pair i goes from path point i − 1 to path
/// point i, so pairs are numbered from 1.
pub struct Joined {
    pub plate: Handed,
    /// Whether the plate has layers.
    pub is_layered: bool,
    pub path: MarkedPath,
    /// How many blocks the plate file has that the path was read from. It has no marks: then those of
    /// the path are a start and cuts of one contour, and nothing is told of them.
    pub blocks: Option<usize>,
    pairs: Vec<Pair>,
    /// The vertex of each path point: a start's, jump's or touch's is the one named, a cut's the
    /// end of its segment that the point before does not have, a back-step's that of path point k.
    visited: Vec<u32>,
    /// Whether a cut leaves a vertex that only has the coordinates of its segment's end, as one of a
    /// path from elsewhere may.
    pub leaves_another: bool,
    /// For each pair the cut, jump or touch that it is, or that it goes back over.
    grooves: Vec<usize>,
    /// For each vertex of the plate the contour that it is of and its number within it.
    vertices: Vec<(usize, usize)>,
}

/// A pair with all that is shown of it. Contours count from 0, vertices and segments from 0
/// within their contour; segment j lies between vertices j and j + 1.
#[derive(Debug, Clone, Copy, PartialEq)]
pub struct Told {
    pub number: usize,
    pub pair: Pair,
    /// The library's plain distance of the two points.
    pub length: f64,
    /// Contour and vertex that are left.
    pub from: (usize, usize),
    /// Contour and vertex that are reached.
    pub to: (usize, usize),
    /// The cut, jump or touch that the pair is, or that it goes back over.
    pub groove: usize,
}

impl Joined {
    pub fn new(plate: Handed, path: MarkedPath) -> Self {
        let vertices = plate.vertices().collect();
        let mut visited: Vec<u32> = Vec::with_capacity(path.marks().len());
        let mut leaves_another = false;
        for (point, mark) in path.points().iter().zip(path.marks()) {
            visited.push(match *mark {
                Mark::Start { vertex } | Mark::Jump { vertex } | Mark::Touch { vertex } => vertex,
                Mark::Cut { segment } if visited.last() == Some(&segment) => segment + 1,
                Mark::Cut { segment } if visited.last() == Some(&(segment + 1)) => segment,
                Mark::Cut { segment } => {
                    leaves_another = true;
                    segment + u32::from(is_vertex(&plate, segment + 1, point))
                }
                Mark::BackStep { reversed } => visited[reversed as usize],
            });
        }
        let pairs: Vec<Pair> = path.pairs().collect();
        let mut grooves: Vec<usize> = Vec::with_capacity(pairs.len());
        for (before, pair) in pairs.iter().enumerate() {
            grooves.push(match pair.kind {
                PairKind::BackStep { reversed } => grooves[reversed as usize],
                PairKind::Cut { .. } | PairKind::Jump { .. } | PairKind::Touch { .. } => before + 1,
            });
        }
        let is_layered = plate.is_layered();
        let blocks = None;
        Self { plate, is_layered, path, blocks, pairs, visited, leaves_another, grooves, vertices }
    }

    /// A path that was read from a plate file of so many blocks.
    pub fn of_file(path: &[Point], blocks: usize) -> Self {
        let coordinates: Vec<f64> = path.iter().flat_map(|p| [p.x, p.y]).collect();
        let kind = |place: u32| if place == 0 { [0, 0] } else { [1, place - 1] };
        let marks: Vec<u32> = (0..path.len() as u32).flat_map(kind).collect();
        let marked = MarkedPath::of(&coordinates, &marks).expect("a start, and then cuts");
        let lengths = if path.is_empty() { vec![] } else { vec![path.len() as u32] };
        let plate = Handed {
            points: coordinates,
            layers: vec![0; lengths.len()],
            lengths,
            size: Size::default(),
            strategy: StartPointStrategy::default(),
        };
        Self { blocks: Some(blocks), ..Self::new(plate, marked) }
    }

    /// How many pairs there are; their numbers are from 1 to this.
    pub fn count(&self) -> usize {
        self.pairs.len()
    }

    /// A pair by its number.
    pub fn pair(&self, number: usize) -> &Pair {
        &self.pairs[number - 1]
    }

    /// The number of the cut, jump or touch that a pair is, or that it goes back over.
    pub fn groove(&self, number: usize) -> usize {
        self.grooves[number - 1]
    }

    /// `start`, `cut`, `back-step`, `jump` or `touch`: how the path comes to a point, which is what
    /// the pair of that number is; of a plate file, which does not tell, `start` or `pair`.
    pub fn kind(&self, path_point: usize) -> &'static str {
        match self.blocks {
            Some(_) if path_point > 0 => "pair",
            _ => words::kind(self.path.marks()[path_point]),
        }
    }

    /// The vertex of a path point, counted over the whole plate.
    pub fn vertex(&self, path_point: usize) -> u32 {
        self.visited[path_point]
    }

    /// The contour of a vertex of the plate and its number within it.
    pub fn locate(&self, vertex: u32) -> (usize, usize) {
        self.vertices[vertex as usize]
    }

    /// The layer of the contour whose groove a pair is or goes back over; a jump's or touch's is
    /// that of the contour that it lands on, and so is that of number 0, the start.
    pub fn layer(&self, number: usize) -> u32 {
        let groove = if number == 0 { 0 } else { self.groove(number) };
        let (contour, _) = self.locate(self.vertex(groove));
        self.plate.layers[contour]
    }

    /// How long the path is by kinds of pairs, in 1,024ths. Of a plate file, which does not tell kinds,
    /// the pairs are among the cuts.
    pub fn lengths(&self) -> Lengths {
        self.path
            .lengths()
            .expect("points of an accepted plate are within the distance call's limit")
    }

    /// How much of the path's length a pair is, in 1,024ths.
    pub fn pair_length(&self, number: usize) -> u64 {
        let pair = self.pair(number);
        twillharbor::pair_length(pair.from, pair.to)
            .expect("points of an accepted plate are within the distance call's limit")
    }

    /// All about a pair, by its number.
    pub fn tell(&self, number: usize) -> Told {
        let pair = *self.pair(number);
        let distances = twillharbor::distance(pair.from, pair.to)
            .expect("points of an accepted plate are within the distance call's limit");
        Told {
            number,
            pair,
            length: distances.plain,
            from: self.locate(self.vertex(number - 1)),
            to: self.locate(self.vertex(number)),
            groove: self.groove(number),
        }
    }
}

/// Whether a point has the bits of a vertex.
fn is_vertex(plate: &Handed, vertex: u32, point: &Point) -> bool {
    let place = 2 * vertex as usize;
    let bits = |coordinates: &[f64]| coordinates.iter().map(|c| c.to_bits()).collect::<Vec<_>>();
    bits(&plate.points[place..place + 2]) == bits(&[point.x, point.y])
}
