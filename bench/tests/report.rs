//! The report of many traces: the decided points by hand, a second count step by step, and wrong ways to count, each of
//! which the generated traces tell apart.

#[path = "report/names.rs"]
mod names;
#[path = "report/points.rs"]
mod points;
#[path = "report/wrong.rs"]
mod wrong;

use bench::report::generate::{Counted, Generator};
use bench::report::history::History;
use bench::trace::play;

/// What the model keeps of a trace that is played up to a limit.
fn history(trace: &[u8], limit: u32) -> History {
    let mut history = History::default();
    play(trace, limit, &mut history);
    history
}

/// The cases of a seed: all that are the same for every seed, and so many more.
fn cases(seed: u64, more: usize) -> impl Iterator<Item = (usize, Counted)> {
    let generator = Generator::new(seed);
    let numbers = 0..generator.sweeps() + more;
    numbers.map(move |number| (number, generator.case(number)))
}
