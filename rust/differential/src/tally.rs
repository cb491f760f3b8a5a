//! How often a run meets each of the cases that it has to meet.

use std::array;
use std::marker::PhantomData;
use std::sync::atomic::{AtomicU64, Ordering};

/// Cases that a run has to meet.
pub trait Listed: Copy + PartialEq + 'static {
    /// All of them, each with the name that is printed.
    const LIST: &'static [(Self, &'static str)];
}

/// A number for each of the cases of a list.
#[derive(Debug)]
pub struct Cases<C> {
    numbers: Vec<AtomicU64>,
    of: PhantomData<C>,
}

impl<C: Listed> Default for Cases<C> {
    fn default() -> Self {
        Self { numbers: C::LIST.iter().map(|_| AtomicU64::new(0)).collect(), of: PhantomData }
    }
}

impl<C: Listed> Cases<C> {
    pub fn count(&self, case: C) {
        self.numbers[place(case)].fetch_add(1, Ordering::Relaxed);
    }

    pub fn count_if(&self, holds: bool, case: C) {
        if holds {
            self.count(case);
        }
    }

    pub fn numbers(&self) -> impl Iterator<Item = u64> {
        self.numbers.iter().map(|n| n.load(Ordering::Relaxed))
    }

    /// Prints each case's number before its name.
    pub fn print(&self) {
        print(self.numbers(), C::LIST.iter().map(|&(_, name)| name));
    }

    #[cfg(test)]
    pub fn number(&self, case: C) -> u64 {
        self.numbers[place(case)].load(Ordering::Relaxed)
    }

    /// The cases that were met, in the order of the list.
    #[cfg(test)]
    pub fn met(&self) -> Vec<C> {
        let cases = C::LIST.iter().map(|&(case, _)| case);
        cases.filter(|&case| self.number(case) > 0).collect()
    }
}

/// Where the case stands in its list.
fn place<C: Listed>(case: C) -> usize {
    C::LIST.iter().position(|&(listed, _)| listed == case).expect("it is listed")
}

/// A number for each of N cases that have no names.
#[derive(Debug)]
pub struct Tally<const N: usize>([AtomicU64; N]);

impl<const N: usize> Default for Tally<N> {
    fn default() -> Self {
        Self(array::from_fn(|_| AtomicU64::new(0)))
    }
}

impl<const N: usize> Tally<N> {
    pub fn count(&self, case: usize) {
        self.0[case].fetch_add(1, Ordering::Relaxed);
    }

    pub fn numbers(&self) -> [u64; N] {
        self.0.each_ref().map(|n| n.load(Ordering::Relaxed))
    }

    /// Prints each case's number before its name.
    pub fn print(&self, names: [&str; N]) {
        print(self.numbers(), names);
    }
}

fn print<'a>(numbers: impl IntoIterator<Item = u64>, names: impl IntoIterator<Item = &'a str>) {
    for (met, name) in numbers.into_iter().zip(names) {
        println!("{met:>12} {name}");
    }
}

/// Whether a run of that many plates met what it should: one of `enough` plates meets all. Prints
/// if it did not.
pub fn is_met(plates: u64, enough: u64, mut numbers: impl Iterator<Item = u64>) -> bool {
    let met = plates < enough || numbers.all(|met| met > 0);
    if !met {
        println!("NOT MET: what stands at 0 above");
    }
    met
}

#[cfg(test)]
mod tests {
    use super::{Cases, Listed, Tally, is_met};

    #[test]
    fn a_long_run_meets_every_case() {
        let tally = Tally::<2>::default();
        tally.count(1);
        tally.count(1);
        assert_eq!(tally.numbers(), [0, 2]);
        assert!(is_met(9, 10, tally.numbers().into_iter()));
        assert!(!is_met(10, 10, tally.numbers().into_iter()));
        tally.count(0);
        assert!(is_met(10, 10, tally.numbers().into_iter()));
    }

    impl Listed for char {
        const LIST: &'static [(Self, &'static str)] = &[('b', "first"), ('a', "second")];
    }

    #[test]
    fn cases_are_counted_where_they_stand_in_their_list() {
        let cases = Cases::default();
        cases.count_if(false, 'b');
        cases.count_if(true, 'a');
        cases.count('a');
        assert_eq!((cases.numbers().collect(), cases.met()), (vec![0, 2], vec!['a']));
        cases.count('b');
        assert_eq!((cases.number('b'), cases.met()), (1, vec!['b', 'a']));
    }
}
