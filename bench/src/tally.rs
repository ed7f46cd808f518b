//! How often each item was reached that a comparison counts; a listed item not reached is a gap.

use std::collections::HashMap;
use std::fmt::Debug;
use std::hash::Hash;

/// Items, and how often each was reached.
#[derive(Clone, Debug)]
pub struct Tally<I> {
    counts: HashMap<I, u64>,
}

impl<I> Default for Tally<I> {
    fn default() -> Tally<I> {
        let counts = HashMap::new();
        Tally { counts }
    }
}

/// A situation in plain words, and whether it is there.
pub type Fact = (bool, &'static str);

/// Situations in plain words, each with what tells that it is there. A table becomes a function that judges all of its
/// situations; the names of all tables are the list, so that none is counted that is not listed.
#[macro_export]
macro_rules! facts {
    ($seen:vis $list:ident; $(
        $(#[$about:meta])*
        fn $table:ident($($given:ident: $of:ty),*) {
            $(let $name:pat = $is:expr;)*
            $($fact:literal if $there:expr;)*
        }
    )*) => {
        $seen const $list: &[&str] = &[$($($fact),*),*];
        $(
            $(#[$about])*
            fn $table($($given: $of),*) -> [$crate::tally::Fact; [$($fact),*].len()] {
                $(let $name = $is;)*
                [$(($there, $fact)),*]
            }
        )*
    };
}

/// What has few values, all of which are to be reached.
pub trait Every: Copy {
    fn every() -> Vec<Self>;
}

/// An item for each value, or for each two or three of them.
pub fn each<T: Every, I>(item: impl Fn(T) -> I) -> impl Iterator<Item = I> {
    T::every().into_iter().map(item)
}

impl Every for bool {
    fn every() -> Vec<bool> {
        vec![false, true]
    }
}

impl<A: Every, B: Every> Every for (A, B) {
    fn every() -> Vec<(A, B)> {
        let with = |a: A| B::every().into_iter().map(move |b| (a, b));
        A::every().into_iter().flat_map(with).collect()
    }
}

impl<A: Every, B: Every, C: Every> Every for (A, B, C) {
    fn every() -> Vec<(A, B, C)> {
        each(|((a, b), c)| (a, b, c)).collect()
    }
}

/// Sorts of things that items tell apart.
#[macro_export]
macro_rules! sorts {
    ($($(#[$about:meta])* $name:ident { $($(#[$of:meta])* $value:ident),* $(,)? })*) => {
        $(
            $crate::listed! {
                $(#[$about])*
                #[derive(Clone, Copy, Debug, PartialEq, Eq, PartialOrd, Ord, Hash)]
                pub enum $name { $($(#[$of])* $value),* }
            }

            impl $crate::tally::Every for $name {
                fn every() -> Vec<$name> {
                    $name::ALL.to_vec()
                }
            }
        )*
    };
}

impl<I: Copy + Eq + Hash> Tally<I> {
    pub fn reach(&mut self, item: I) {
        *self.counts.entry(item).or_insert(0) += 1;
    }

    /// Counts the situations that are there, each as an item.
    pub fn facts(
        &mut self,
        item: impl Fn(&'static str) -> I,
        facts: impl IntoIterator<Item = Fact>,
    ) {
        for (_, fact) in facts.into_iter().filter(|&(there, _)| there) {
            self.reach(item(fact));
        }
    }

    pub fn count(&self, item: I) -> u64 {
        self.counts.get(&item).copied().unwrap_or(0)
    }

    /// All that was reached, in any order, with its count.
    pub fn reached(&self) -> impl Iterator<Item = (I, u64)> + '_ {
        self.counts.iter().map(|(&item, &count)| (item, count))
    }
}

/// What counts the items that a comparison reaches, and lists those that it should reach.
pub trait Listed {
    type Item: Copy + Ord + Hash + Debug;

    /// All items that are to be reached.
    fn wanted() -> Vec<Self::Item>;

    fn tally(&self) -> &Tally<Self::Item>;

    /// How often an item was reached.
    fn count(&self, item: Self::Item) -> u64 {
        self.tally().count(item)
    }

    /// The listed items with their counts, the rarest first.
    fn table(&self) -> Vec<(u64, Self::Item)> {
        let items = Self::wanted().into_iter();
        let mut table: Vec<_> = items.map(|item| (self.count(item), item)).collect();
        table.sort();
        table
    }

    /// The listed items that were not reached.
    fn gaps(&self) -> Vec<Self::Item> {
        let mut items = Self::wanted();
        items.retain(|&item| self.count(item) == 0);
        items
    }

    /// What was reached and is not listed.
    fn unlisted(&self) -> Vec<Self::Item> {
        let listed = Self::wanted();
        let reached = self.tally().reached().map(|(item, _)| item);
        reached.filter(|item| !listed.contains(item)).collect()
    }

    /// The items that are listed more than once.
    fn listed_twice() -> Vec<Self::Item> {
        let mut items = Self::wanted();
        items.sort();
        let twice = items.windows(2).filter(|pair| pair[0] == pair[1]);
        twice.map(|pair| pair[0]).collect()
    }
}
