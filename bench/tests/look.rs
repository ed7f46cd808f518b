//! The comparison of waves and pictures: what the model writes is found right, and what is made wrong is found wrong.

#[path = "look/pictures.rs"]
mod pictures;
#[path = "look/programs.rs"]
mod programs;
#[path = "look/readings.rs"]
mod readings;
#[path = "look/texts.rs"]
mod texts;

use std::fmt::Display;

use bench::look::Generator;

/// How many traces are tried, of which the first are the sweeps.
const TRACES: usize = 2_500;

/// The traces that are tried, but for the few long ones.
fn traces() -> Vec<Vec<u8>> {
    let generator = Generator::new(1);
    let traces = (0..TRACES).map(|number| generator.trace(number).trace);
    traces.filter(|trace| trace.len() <= 4_000).collect()
}

/// The beginning of a trace, to be told.
fn begins(trace: &[u8]) -> String {
    format!(
        "{:02X?} of {} bytes",
        &trace[..trace.len().min(80)],
        trace.len()
    )
}

/// Tells how often each was found, and wants each to be found at all.
fn all_found(what: &str, found: &[(impl Display, usize)]) {
    for (name, count) in found {
        println!("{what}: {name}: found {count} times");
        assert!(*count > 0, "{what}: never found: {name}");
    }
}
