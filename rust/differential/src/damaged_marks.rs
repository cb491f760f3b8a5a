//! Damaged copies of paths with marks.

use harness::random::Random;

use crate::decoder::Marked;
use crate::floats::nudged;
use crate::other_paths::miscount;
use crate::plates;
use crate::rule::retrace::{BACK_STEP, CUT, JUMP, TOUCH};
use crate::tally::Listed;

/// What is done to a path with marks.
#[derive(Debug, Clone, Copy, PartialEq, Eq)]
pub enum Damage {
    Kind,
    Reference,
    LastBit,
    Zero,
    NotANumber,
    BeyondTheLimit,
    Moved,
    PointsSwapped,
    MarksSwapped,
    Swapped,
    Merged,
    Split,
    CutRepeated,
    JumpIsATouch,
    TouchIsAJump,
    LandedOnBefore,
    OtherPair,
    Raised,
    Dropped,
    Repeated,
    MarkDropped,
    MarkRepeated,
    CutShort,
    Miscounted,
}

pub const DAMAGES: [(Damage, &str); 24] = [
    (Damage::Kind, "a mark's kind is altered"),
    (Damage::Reference, "a mark's reference is altered"),
    (Damage::LastBit, "a coordinate's last bit is altered"),
    (Damage::Zero, "a zero has the other sign"),
    (Damage::NotANumber, "a coordinate is NaN or infinite"),
    (Damage::BeyondTheLimit, "a coordinate is above the limit"),
    (Damage::Moved, "a path point lies on another"),
    (Damage::PointsSwapped, "two path points are exchanged, and not their marks"),
    (Damage::MarksSwapped, "two marks are exchanged"),
    (Damage::Swapped, "two path points are exchanged with their marks"),
    (Damage::Merged, "a jump or touch is a cut"),
    (Damage::Split, "a cut is a jump or touch"),
    (Damage::CutRepeated, "a cut is there once more"),
    (Damage::JumpIsATouch, "a jump is a touch"),
    (Damage::TouchIsAJump, "a touch is a jump"),
    (Damage::LandedOnBefore, "a jump or touch is on a vertex landed on before"),
    (Damage::OtherPair, "a back-step is over another pair"),
    (Damage::Raised, "vertices from one on have higher numbers"),
    (Damage::Dropped, "a path point is left out"),
    (Damage::Repeated, "a path point is there twice"),
    (Damage::MarkDropped, "a mark is left out, and one is added at the end"),
    (Damage::MarkRepeated, "a mark is there twice, and the last is left out"),
    (Damage::CutShort, "the path ends early"),
    (Damage::Miscounted, "path or marks slice is longer or shorter"),
];

impl Listed for Damage {
    const LIST: &'static [(Self, &'static str)] = &DAMAGES;
}

/// Where a path is damaged.
pub const THIRDS: [&str; 3] = ["early", "in the middle", "late"];

/// A copy with that damage in that third of the path, or after it where nothing is to be damaged
/// there. It may still have contours. None where nothing is altered.
pub fn damaged(
    marked: &Marked,
    damage: Damage,
    third: usize,
    random: &mut Random,
) -> Option<Marked> {
    let mut copy = marked.clone();
    if damage == Damage::Miscounted {
        miscount(&mut copy.path, &mut copy.marks, random);
        return differs(&copy, marked).then_some(copy);
    }
    // A second damage may find slices that do not match.
    let count = copy.count().min(copy.marks.len() / 2);
    if count == 0 || copy.path.len() % 2 == 1 || copy.marks.len() % 2 == 1 {
        return None;
    }
    let mut altered = Damaged {
        path: copy.path.as_chunks().0.to_vec(),
        marks: copy.marks.as_chunks().0.to_vec(),
        count,
        place: place_in(third, count, random),
    };
    altered.apply(damage, random)?;
    copy = Marked { path: altered.path.into_flattened(), marks: altered.marks.into_flattened() };
    differs(&copy, marked).then_some(copy)
}

fn differs(one: &Marked, other: &Marked) -> bool {
    let bits = |path: &[f64]| path.iter().map(|c| c.to_bits()).collect::<Vec<_>>();
    bits(&one.path) != bits(&other.path) || one.marks != other.marks
}

fn place_in(third: usize, count: usize, random: &mut Random) -> usize {
    let from = |third: usize| third * count / THIRDS.len();
    let (first, end) = (from(third), from(third + 1).max(from(third) + 1));
    (first + random.below((end - first) as u64) as usize).min(count - 1)
}

/// A path that is damaged at a place.
struct Damaged {
    path: Vec<[f64; 2]>,
    marks: Vec<[u32; 2]>,
    /// How many points have a mark.
    count: usize,
    place: usize,
}

impl Damaged {
    /// The first path point from the place on, then from the start on, for which that holds.
    fn find(&self, holds: impl Fn(&Self, usize) -> bool) -> Option<usize> {
        (0..self.count).cycle().skip(self.place).take(self.count).find(|&at| holds(self, at))
    }

    fn find_kind(&self, kinds: &[u32]) -> Option<usize> {
        self.find(|altered, at| at > 0 && kinds.contains(&altered.marks[at][0]))
    }

    /// The place, and another one: often the next.
    fn two(&self, random: &mut Random) -> [usize; 2] {
        let next = self.place + 1;
        let other = if random.one_in(2) && next < self.count {
            next
        } else {
            random.below(self.count as u64) as usize
        };
        [self.place, other]
    }

    fn apply(&mut self, damage: Damage, random: &mut Random) -> Option<()> {
        match damage {
            Damage::Kind => {
                self.marks[self.place][0] = random.pick(&[0, 1, 2, 3, 4, 5, 6, u32::MAX]);
            }
            Damage::Reference => {
                let reference = self.marks[self.place][1];
                self.marks[self.place][1] = self.other_reference(reference, random);
            }
            Damage::LastBit | Damage::Zero | Damage::NotANumber | Damage::BeyondTheLimit => {
                return self.alter_coordinate(damage, random);
            }
            Damage::Moved => {
                let [place, other] = self.two(random);
                self.path[place] = self.path[other];
            }
            Damage::PointsSwapped | Damage::MarksSwapped | Damage::Swapped => {
                let [place, other] = self.two(random);
                if damage != Damage::MarksSwapped {
                    self.path.swap(place, other);
                }
                if damage != Damage::PointsSwapped {
                    self.marks.swap(place, other);
                }
            }
            Damage::Dropped | Damage::Repeated | Damage::CutShort => {
                self.alter_count(damage, random);
            }
            Damage::MarkDropped => {
                let mark = self.marks.remove(self.place);
                self.marks.push(mark);
            }
            Damage::MarkRepeated => {
                self.marks.insert(self.place, self.marks[self.place]);
                self.marks.pop();
            }
            _ => return self.alter_mark(damage, random),
        }
        Some(())
    }

    fn other_reference(&self, reference: u32, random: &mut Random) -> u32 {
        match random.below(7) {
            0 => reference.wrapping_add(1),
            1 => reference.wrapping_sub(1),
            2 => u32::MAX,
            3 => random.pick(&[65_534, 65_535]),
            4 => random.pick(&[65_536, 1 << 31]),
            _ => random.below(self.count as u64 + 2) as u32,
        }
    }

    fn alter_coordinate(&mut self, damage: Damage, random: &mut Random) -> Option<()> {
        let axis = random.below(2) as usize;
        let place = match damage {
            Damage::Zero => self.find(|altered, at| altered.path[at].contains(&0.0))?,
            _ => self.place,
        };
        let [x, _] = self.path[place];
        let axis = if damage == Damage::Zero { usize::from(x != 0.0) } else { axis };
        let coordinate = &mut self.path[place][axis];
        *coordinate = match damage {
            Damage::LastBit => f64::from_bits(coordinate.to_bits() ^ 1),
            Damage::Zero => -*coordinate,
            Damage::NotANumber => {
                random.pick(&[f64::NAN, -f64::NAN, f64::INFINITY, f64::NEG_INFINITY])
            }
            _ if random.one_in(2) => nudged(plates::LIMIT, 1).copysign(*coordinate),
            _ => plates::off_the_plate(random),
        };
        Some(())
    }

    fn alter_count(&mut self, damage: Damage, random: &mut Random) {
        let [place, other] = self.two(random);
        match damage {
            Damage::Dropped => {
                self.path.remove(place);
                self.marks.remove(place);
            }
            Damage::Repeated => {
                self.path.insert(other, self.path[place]);
                self.marks.insert(other, self.marks[place]);
            }
            _ => {
                self.path.truncate(place);
                self.marks.truncate(place);
            }
        }
    }

    /// The vertex that a landing names, and that of the path point before it.
    fn pair(&self, at: usize) -> [u32; 2] {
        let vertices = self.vertices();
        [vertices[at - 1], vertices[at]]
    }

    /// The vertices of the path points, where the marks keep the rules; otherwise numbers.
    fn vertices(&self) -> Vec<u32> {
        let mut vertices: Vec<u32> = Vec::with_capacity(self.count);
        for &[kind, reference] in &self.marks[..self.count] {
            let before = vertices.last().copied().unwrap_or(0);
            vertices.push(match kind {
                CUT if before == reference => reference.wrapping_add(1),
                BACK_STEP => vertices.get(reference as usize).copied().unwrap_or(before),
                _ => reference,
            });
        }
        vertices
    }

    fn alter_mark(&mut self, damage: Damage, random: &mut Random) -> Option<()> {
        match damage {
            Damage::Merged => return self.merge(),
            Damage::Split => {
                let at = self.find_kind(&[CUT])?;
                let [_, vertex] = self.pair(at);
                let is_equal = self.path[at - 1] == self.path[at];
                self.marks[at] = [if is_equal { TOUCH } else { JUMP }, vertex];
            }
            Damage::CutRepeated => return self.repeat_cut(random),
            Damage::JumpIsATouch => {
                let at = self.find_kind(&[JUMP])?;
                self.marks[at][0] = TOUCH;
            }
            Damage::TouchIsAJump => {
                let at = self.find_kind(&[TOUCH])?;
                self.marks[at][0] = JUMP;
            }
            Damage::LandedOnBefore => {
                let at = self.find_kind(&[JUMP, TOUCH])?;
                self.marks[at][1] = self.vertices()[random.below(at as u64) as usize];
            }
            Damage::OtherPair => {
                let at = self.find_kind(&[BACK_STEP])?;
                let [any, near] = [random.below(at as u64 + 1) as u32, self.marks[at][1]];
                let others = [any, any, near.wrapping_sub(1), near.wrapping_add(1)];
                self.marks[at][1] = random.pick(&others);
            }
            _ => self.raise(random),
        }
        Some(())
    }

    /// A jump or touch is a cut, if it can be of two neighbours: then two contours may be one.
    fn merge(&mut self) -> Option<()> {
        let is_landing =
            |altered: &Self, at: usize| at > 0 && matches!(altered.marks[at][0], JUMP | TOUCH);
        let vertices = self.vertices();
        let is_near = |altered: &Self, at: usize| {
            is_landing(altered, at) && vertices[at - 1].abs_diff(vertices[at]) == 1
        };
        let at = self.find(is_near).or_else(|| self.find(is_landing))?;
        self.marks[at] = [CUT, vertices[at - 1].min(vertices[at])];
        Some(())
    }

    /// A cut once more: along a step back over it, or to where it came from.
    fn repeat_cut(&mut self, random: &mut Random) -> Option<()> {
        let at = self.find_kind(&[CUT])?;
        let mark = self.marks[at];
        let back = self.find(|altered, step| altered.marks[step] == [BACK_STEP, at as u32 - 1]);
        match back {
            Some(step) if random.one_in(2) => self.marks[step] = mark,
            _ => {
                self.path.insert(at + 1, self.path[at - 1]);
                self.marks.insert(at + 1, mark);
            }
        }
        Some(())
    }

    /// The vertices from one on have higher numbers: some are missing, or too high. Mostly it is
    /// one to which no cut leads from below, so that the marks keep the rules.
    fn raise(&mut self, random: &mut Random) {
        let vertices = self.vertices();
        let is_first = |altered: &Self, at: usize| {
            let below = vertices[at].wrapping_sub(1);
            altered.marks.iter().all(|&mark| mark != [CUT, below])
        };
        let first = if random.one_in(4) { None } else { self.find(is_first) };
        let from = vertices[first.unwrap_or(self.place)];
        let by = random.pick(&[1, 1, 2, 1_000, 65_535, 65_536]);
        for mark in &mut self.marks[..self.count] {
            if mark[0] != BACK_STEP && mark[1] >= from {
                mark[1] = mark[1].wrapping_add(by);
            }
        }
    }
}

#[cfg(test)]
mod tests {
    use harness::random::Random;

    use super::{DAMAGES, Damage, THIRDS, damaged};
    use crate::decoder::Marked;
    use crate::other_paths::other_path;
    use crate::plates::{Kind, small_plate};

    #[test]
    fn most_damages_show() {
        let mut random = Random::new(1);
        for (damage, name) in DAMAGES {
            let (mut refused, mut ran) = (0, 0);
            for turn in 0..900 {
                let plate = small_plate(Kind::Zeros, &mut random);
                let drawn = other_path(&plate.points, &plate.lengths, &mut random);
                let marked = Marked { path: drawn.path, marks: drawn.marks };
                let copy = damaged(&marked, damage, turn % THIRDS.len(), &mut random);
                let Some(copy) = copy else { continue };
                ran += 1;
                refused += u32::from(copy.due(copy.enough()).picture().is_none());
            }
            assert!(ran > 100 && refused > ran / 16, "{name}: {refused} of {ran}");
        }
    }

    #[test]
    fn each_third_is_damaged() {
        let mut random = Random::new(2);
        let marked = Marked { path: vec![1.0; 18], marks: vec![9; 18] };
        for (third, name) in THIRDS.into_iter().enumerate() {
            let mut places = [0; 9];
            for _ in 0..200 {
                let copy = damaged(&marked, Damage::LastBit, third, &mut random);
                let copy = copy.expect("a bit is altered");
                let at = copy.path.iter().position(|&c| c != 1.0).expect("it shows");
                places[at / 2] += 1;
            }
            let hit: Vec<usize> = (0..9).filter(|&at| places[at] > 0).collect();
            assert_eq!(hit, [3 * third, 3 * third + 1, 3 * third + 2], "{name}");
        }
    }

    #[test]
    fn a_split_and_a_merger_keep_the_rules() {
        let mut random = Random::new(3);
        // (0,0)(1,0) | (2,0)
        let path = vec![0.0, 0.0, 1.0, 0.0, 2.0, 0.0];
        let marked = Marked { path, marks: vec![0, 0, 1, 0, 3, 2] };
        for (damage, lengths) in [(Damage::Split, vec![1, 1, 1]), (Damage::Merged, vec![3])] {
            let copy = damaged(&marked, damage, 0, &mut random).expect("it has one");
            let picture = copy.contours().expect("it keeps the rules");
            assert_eq!((picture.points, picture.lengths), (marked.path.clone(), lengths));
        }
    }
}
