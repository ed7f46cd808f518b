//! What holds of the model on every step of many traces, told from the controller before and after the step by other
//! words than the model's.

#[path = "every_step/aintc.rs"]
mod aintc;
#[path = "every_step/indexed.rs"]
mod indexed;
#[path = "every_step/levels.rs"]
mod levels;
#[path = "every_step/marks.rs"]
mod marks;
#[path = "every_step/protect.rs"]
mod protect;

use std::ops::Range;

use bench::generate::Generator;
use bench::model::aic::{Aic, Entry};
use bench::model::{Answer, Machine, Recorded, Step};
use bench::trace::{play, Observer};

/// One step: its number, and what the controller was and became.
struct Turn<'a, C> {
    number: u32,
    before: &'a C,
    after: &'a C,
    step: Step,
    answer: Answer,
}

type Picked<C> = fn(&Machine) -> Option<&C>;

/// Plays some cases of a seed, each up to so many steps, and hands over the steps of the controllers that are picked.
fn each_step<C: Clone>(
    (seed, numbers, most): (u64, Range<usize>, u32),
    picked: Picked<C>,
    mut look: impl FnMut(Turn<C>),
) {
    let generator = Generator::new(seed);
    for case in numbers.map(|number| generator.case(number)) {
        let mut watch = Watch {
            picked,
            before: None,
            look: &mut look,
        };
        play(&case.trace, case.limit.min(most), &mut watch);
    }
}

struct Watch<'a, C, L> {
    picked: Picked<C>,
    before: Option<C>,
    look: &'a mut L,
}

impl<C: Clone, L: FnMut(Turn<C>)> Observer for Watch<'_, C, L> {
    fn before(&mut self, machine: &Machine, _: Recorded) {
        self.before = (self.picked)(machine).cloned();
    }

    fn after(&mut self, machine: &Machine, number: u32, recorded: Recorded, answer: Answer) {
        if let (Some(before), Some(after)) = (&self.before, (self.picked)(machine)) {
            let step = recorded.step;
            (self.look)(Turn {
                number,
                before,
                after,
                step,
                answer,
            });
        }
    }
}

fn sweeps() -> usize {
    Generator::new(1).sweeps()
}

fn aic_of(machine: &Machine) -> Option<&Aic> {
    match machine {
        Machine::Aic(aic) => Some(aic),
        _ => None,
    }
}

/// A mark at a level, or at none.
fn mark(level: Option<u8>) -> Entry {
    let source = None;
    Entry { source, level }
}

/// A handler of a source at a level.
fn handler(source: u8, level: u8) -> Entry {
    let (source, level) = (Some(source), Some(level));
    Entry { source, level }
}
