//! Slices that are lent to a call and looked at afterwards, bit by bit.

use std::fmt;

use harness::random::Random;

/// What a slice holds.
pub trait Number: Copy {
    fn bits(self) -> u64;
    /// Random bits: of an f64 many are NaNs, quiet and signalling, of all payloads.
    fn random(random: &mut Random) -> Self;
}

macro_rules! whole_numbers {
    ($($number:ty)*) => {$(
        impl Number for $number {
            fn bits(self) -> u64 {
                self.into()
            }

            fn random(random: &mut Random) -> Self {
                random.bits() as Self
            }
        }
    )*};
}

whole_numbers!(u8 u32);

impl Number for f64 {
    fn bits(self) -> u64 {
        self.to_bits()
    }

    fn random(random: &mut Random) -> Self {
        const EXPONENT: u64 = 0x7ff0_0000_0000_0000;
        let bits = random.bits();
        Self::from_bits(if bits & 3 == 0 { bits | EXPONENT } else { bits })
    }
}

/// A slice to lend, between margins of random bits: what is written beside it shows.
#[derive(Debug, Clone)]
pub struct Lent<T> {
    before: Vec<T>,
    now: Vec<T>,
    margin: usize,
}

impl<T: Number> Lent<T> {
    /// A slice of that length which holds random bits.
    pub fn random(length: usize, random: &mut Random) -> Self {
        // Of 8 to 15, so that the slice begins at odd and even places of memory.
        let margin = 8 + random.below(8) as usize;
        let before: Vec<T> = (0..length + 2 * margin).map(|_| T::random(random)).collect();
        Self { now: before.clone(), before, margin }
    }

    /// A slice that holds these numbers.
    pub fn holding(numbers: &[T], random: &mut Random) -> Self {
        let mut lent = Self::random(0, random);
        lent.before.splice(lent.margin..lent.margin, numbers.iter().copied());
        lent.now.clone_from(&lent.before);
        lent
    }

    pub fn slice(&self) -> &[T] {
        &self.now[self.margin..self.now.len() - self.margin]
    }

    pub fn slice_mut(&mut self) -> &mut [T] {
        let end = self.now.len() - self.margin;
        &mut self.now[self.margin..end]
    }

    /// The first place whose bits are not what they should be: the slice begins with
    /// `written`, and all else, the margins too, is what it was.
    pub fn difference(&self, written: &[[T; 2]]) -> Option<Difference> {
        self.difference_from(written.as_flattened())
    }

    /// The same, of numbers that are no pairs.
    pub fn difference_from(&self, written: &[T]) -> Option<Difference> {
        let (margin, slice) = self.before.split_at(self.margin);
        // What does not fit in the slice shows as a difference: the margin is not that.
        let should = margin.iter().chain(written).chain(slice.get(written.len()..).unwrap_or(&[]));
        self.first(should, |_| true)
    }

    /// The first place of slice and margins that was altered.
    pub fn altered(&self) -> Option<Difference> {
        self.difference(&[])
    }

    /// The first place that was altered; where the slice is free, of the margins alone.
    pub fn altered_unless(&self, is_free: bool) -> Option<Difference> {
        let slice = self.margin..self.now.len() - self.margin;
        self.first(self.before.iter(), |at| !(is_free && slice.contains(&at)))
    }

    fn first<'a>(
        &self,
        should: impl Iterator<Item = &'a T>,
        counts: impl Fn(usize) -> bool,
    ) -> Option<Difference>
    where
        T: 'a,
    {
        self.now.iter().zip(should).enumerate().find_map(|(at, (is, should))| {
            let (is, should) = (is.bits(), should.bits());
            let place = at as i64 - self.margin as i64;
            (is != should && counts(at)).then_some(Difference { place, is, should })
        })
    }
}

/// A place of a slice with wrong bits. Below 0 and from the length on it is in a margin.
#[derive(Debug, Clone, Copy, PartialEq, Eq)]
pub struct Difference {
    place: i64,
    is: u64,
    should: u64,
}

/// It is an error, told with the slice's name, where one of these holds wrong bits.
pub fn hold<const N: usize>(slices: [(&str, Option<Difference>); N]) -> Result<(), String> {
    let mut wrong = slices.into_iter().filter_map(|(slice, wrong)| Some((slice, wrong?)));
    match wrong.next() {
        None => Ok(()),
        Some((slice, wrong)) => Err(format!("of the {slice}, {wrong}")),
    }
}

impl fmt::Display for Difference {
    fn fmt(&self, f: &mut fmt::Formatter<'_>) -> fmt::Result {
        let Self { place, is, should } = self;
        write!(f, "at place {place} it holds {is:016x} where it should hold {should:016x}")
    }
}

#[cfg(test)]
mod tests {
    use harness::random::Random;

    use super::Lent;

    #[test]
    fn every_bit_of_slice_and_margins_counts() {
        let mut random = Random::new(1);
        for length in [0, 1, 7, 64] {
            let mut lent = Lent::<f64>::random(length, &mut random);
            assert_eq!(lent.slice().len(), length);
            for at in 0..lent.now.len() {
                assert_eq!(lent.altered(), None);
                let kept = lent.now[at];
                lent.now[at] = f64::from_bits(kept.to_bits() ^ 1 << random.below(64));
                assert!(lent.altered().is_some());
                lent.now[at] = kept;
            }
        }
    }

    #[test]
    fn what_is_written_must_be_there_and_nothing_more() {
        let mut random = Random::new(2);
        let mut lent = Lent::<u32>::random(5, &mut random);
        assert!(lent.difference(&[[1, 2]]).is_some());
        lent.slice_mut()[..2].copy_from_slice(&[1, 2]);
        assert_eq!(lent.difference(&[[1, 2]]), None);
        assert!(lent.altered().is_some());
        lent.slice_mut()[2] ^= 1;
        assert!(lent.difference(&[[1, 2]]).is_some());
    }

    #[test]
    fn a_slice_holds_the_numbers_given() {
        let mut random = Random::new(3);
        let lent = Lent::holding(&[1.0, -0.0, 3.0], &mut random);
        assert_eq!(lent.slice(), [1.0, -0.0, 3.0]);
        assert_eq!(lent.altered(), None);
    }

    #[test]
    fn random_floats_have_nans_of_both_sorts() {
        let mut random = Random::new(4);
        let lent = Lent::<f64>::random(1_000, &mut random);
        let nans = || lent.slice().iter().filter(|x| x.is_nan()).map(|x| x.to_bits() >> 51 & 1);
        assert!(nans().filter(|&quiet| quiet == 1).count() > 50);
        assert!(nans().filter(|&quiet| quiet == 0).count() > 50);
    }
}
