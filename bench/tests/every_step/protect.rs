//! The AIC's protect mode (02, 9/12): what is remembered is sound, and what a write of IVR opens and clears.

use bench::generate::aic::{DCR, IVR};
use bench::model::aic::{Aic, Selection, Source, SOURCES};
use bench::model::Refusal::ProtectMode;
use bench::model::Step;

use super::marks::is_sound;
use super::{aic_of, each_step, handler, mark, sweeps, Turn};

/// Looks at every step of an AIC.
#[derive(Default)]
struct Watch {
    looks: usize,
    starts: usize,
    marks: usize,
    gone: usize,
}

/// What of two controllers is the same: all but the entries, what is remembered, and the memories.
fn rest_is_the_same(before: &Aic, after: &Aic) {
    let bits = |aic: &Aic| (aic.masked(), aic.protected());
    assert_eq!(bits(before), bits(after));
    for (was, is) in before.sources().iter().zip(after.sources()) {
        let memory = is.memory;
        assert_eq!(Source { memory, ..*was }, *is);
    }
}

/// The words of the edges that are remembered.
fn memories(aic: &Aic) -> u32 {
    let set = (0..SOURCES).filter(|&n| aic.sources()[n].memory);
    set.fold(0, |word, n| word | 1 << n)
}

/// The rule of what is remembered (02, 9/12, refusal 12).
fn remembers_soundly(aic: &Aic) {
    match aic.remembered() {
        None => {}
        Some(Selection::Nobody) => assert!(aic.protected()),
        Some(Selection::Source { number, level, .. }) => {
            assert!(aic.protected() && (1..=31).contains(&number) && level <= 7);
            assert!(aic.entries().len() < 8);
            assert!(aic.last_level().is_none_or(|last| level > last));
        }
    }
}

impl Watch {
    fn counts(&self) -> [usize; 4] {
        [self.looks, self.starts, self.marks, self.gone]
    }

    fn look(&mut self, turn: Turn<Aic>) {
        let (before, after, answer) = (turn.before, turn.after, turn.answer);
        assert_ne!(answer, Err(ProtectMode));
        let (was, is) = (before.remembered(), after.remembered());
        match turn.step {
            Step::Read { offset: IVR } if before.protected() => {
                self.looks += 1;
                assert_eq!(before.entries(), after.entries());
                assert_eq!(memories(before), memories(after));
                let first = (1..SOURCES)
                    .filter(|&n| before.candidate(n))
                    .min_by_key(|&n| (7 - before.sources()[n].priority, n));
                let found = first.map_or(Selection::Nobody, |n| Selection::Source {
                    number: n as u8,
                    vector: before.sources()[n].vector,
                    level: before.sources()[n].priority,
                });
                assert_eq!(is, Some(found));
                rest_is_the_same(before, after);
            }
            Step::Write { offset: IVR, .. } => {
                assert_eq!((answer, is), (Ok(0), None));
                self.written(before, after, was);
                rest_is_the_same(before, after);
            }
            Step::Write { offset: DCR, value } => {
                assert_eq!(answer, Ok(0));
                assert_eq!(
                    (after.protected(), after.masked()),
                    (value & 1 == 1, value & 2 == 2)
                );
                assert_eq!(is, was.filter(|_| value & 1 == 1));
            }
            _ => assert_eq!(was, is),
        }
        remembers_soundly(after);
        is_sound(after.entries());
    }

    /// What a write opens, and whose edge it spends.
    fn written(&mut self, before: &Aic, after: &Aic, was: Option<Selection>) {
        let mut entries = before.entries().to_vec();
        let mut edges = memories(before);
        match was {
            Some(Selection::Source { number, level, .. }) => {
                let now = &before.sources()[usize::from(number)];
                if now.kind % 2 == 1 {
                    edges &= !(1 << number);
                }
                entries.push(handler(number, level));
                self.starts += 1;
                self.gone += usize::from(!before.candidate(usize::from(number)));
            }
            Some(Selection::Nobody) if entries.len() < 8 => {
                let level = entries.last().and_then(|entry| entry.level);
                entries.push(mark(level));
                self.marks += 1;
            }
            _ => {}
        }
        assert_eq!(after.entries(), entries);
        assert_eq!(memories(after), edges);
    }
}

#[test]
fn what_is_remembered_is_sound_and_five_is_never_given() {
    let mut watch = Watch::default();
    each_step((6, 0..sweeps(), 4_000), aic_of, |turn| watch.look(turn));
    let swept = watch.counts();
    let mut watch = Watch::default();
    let random = sweeps()..sweeps() + 3_000;
    each_step((6, random, 4_000), aic_of, |turn| watch.look(turn));
    let random = watch.counts();
    println!("looks, handlers, marks, handlers of what is no candidate now: {swept:?}, {random:?}");
    assert!(random.iter().all(|&count| count > 30), "{random:?}");
}
