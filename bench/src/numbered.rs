//! Cases by their numbers, made from a seed: sweeps first, then random ones.

use crate::random::Random;

/// What can be made from a seed and a number.
pub trait Made: Clone {
    /// Those that visit everything once, the same for every seed.
    fn sweeps() -> Vec<Self>;

    /// One that depends on nothing but the numbers that are drawn.
    fn random(random: &mut Random) -> Self;
}

/// Everything that can be made from one seed. The sweeps come first and are the same for every seed.
pub struct Numbered<C> {
    seed: u64,
    sweeps: Vec<C>,
}

impl<C: Made> Numbered<C> {
    pub fn new(seed: u64) -> Numbered<C> {
        Numbered {
            seed,
            sweeps: C::sweeps(),
        }
    }

    /// How many come before the first one that depends on the seed.
    pub fn sweeps(&self) -> usize {
        self.sweeps.len()
    }

    /// The one of a number; it depends on the seed and the number alone.
    pub fn case(&self, number: usize) -> C {
        match self.sweeps.get(number) {
            Some(case) => case.clone(),
            None => C::random(&mut Random::for_item(self.seed, number as u64)),
        }
    }

    /// Those of some numbers, each behind its number.
    pub fn cases<'a>(
        &'a self,
        numbers: impl Iterator<Item = usize> + 'a,
    ) -> impl Iterator<Item = (usize, C)> + 'a {
        numbers.map(|number| (number, self.case(number)))
    }
}

#[cfg(test)]
pub mod tests {
    use super::*;
    use std::fmt::Debug;

    /// That a case depends on seed and number alone, by what is shown of it, and a random one on both.
    pub fn depends_on_seed_and_number_alone<C: Made, T: Debug + PartialEq>(shown: fn(C) -> T) {
        let [one, same, other] = [5, 5, 6].map(Numbered::<C>::new);
        let case = |of: &Numbered<C>, number| shown(of.case(number));
        let first = one.sweeps();
        for number in [0, 3, first, first + 1, first + 77] {
            assert_eq!(case(&one, number), case(&same, number));
        }
        assert_eq!(case(&one, 3), case(&other, 3));
        let differ = (first..first + 20).filter(|&n| case(&one, n) != case(&other, n));
        assert!(differ.count() > 15);
    }
}
