//! Traces as long as can be, of which the dumps are long or the pictures large: much changes at each of their steps.

use crate::patterns;
use crate::picture::MOST_STEPS;
use crate::trace::{pieces, play, LONGEST, PROGRAM_LIMIT};
use crate::typed::encode;

use super::Window;

/// The first of the typed traces are those of which the dumps are long.
const LONG: usize = 4;

/// All of them, those with the large pictures last.
fn all() -> Vec<Vec<u8>> {
    let blocks = patterns::blocks(include_str!("heavy.txt"));
    let traces = blocks.iter().filter(|block| !block.is_empty());
    traces.map(|lines| filled(lines)).collect()
}

/// Repeats the steps behind `again` up to as many as the program plays, or as there is room for in a trace.
fn filled(lines: &[String]) -> Vec<u8> {
    let again = lines.iter().position(|line| line == "again");
    let (opening, cycle) = lines.split_at(again.expect("it goes on"));
    let bytes = |lines: &[String]| encode(lines.join("\n").as_bytes()).expect("it is of the form");
    let mut trace = bytes(opening);
    let cycle = bytes(&[&opening[..1], &cycle[1..]].concat());
    let opened = play(&trace, PROGRAM_LIMIT, &mut ()).steps;
    let steps = pieces(&cycle).into_iter().skip(1).map(<[u8]>::to_vec);
    let steps: Vec<Vec<u8>> = steps.collect();
    for (_, step) in (opened..PROGRAM_LIMIT).zip(steps.iter().cycle()) {
        if trace.len() + step.len() > LONGEST {
            break;
        }
        trace.extend(step);
    }
    trace
}

pub fn traces() -> Vec<Vec<u8>> {
    let mut all = all();
    all.truncate(LONG);
    all
}

pub fn windows() -> Vec<Vec<u8>> {
    all().split_off(LONG)
}

/// The last steps of a trace, as many as a picture has.
pub fn window(trace: &[u8]) -> Window {
    let steps = play(trace, PROGRAM_LIMIT, &mut ()).steps;
    Window {
        trace: trace.to_vec(),
        first: (steps - MOST_STEPS + 1).to_string(),
        steps: MOST_STEPS.to_string(),
    }
}

#[cfg(test)]
mod tests {
    use super::*;
    use crate::picture::{nesting, write};
    use crate::waves;

    #[test]
    fn each_is_played_to_its_end() {
        assert_eq!(all().len(), 7);
        for trace in all() {
            let report = play(&trace, PROGRAM_LIMIT, &mut ());
            assert!(report.steps > 15_000, "{}", report.steps);
            assert_eq!(report.ending, Ok(trace.len()));
        }
    }

    #[test]
    fn dumps_are_long() {
        let sizes = traces().into_iter().map(|trace| {
            let waves = waves::waves(&trace, PROGRAM_LIMIT);
            waves::write(&waves).len()
        });
        let sizes: Vec<usize> = sizes.collect();
        assert!(sizes.iter().all(|&size| size > 800_000), "{sizes:?}");
        assert!(sizes.iter().any(|&size| size > 1_600_000), "{sizes:?}");
    }

    #[test]
    fn pictures_are_large() {
        let sizes = windows().into_iter().map(|trace| {
            let first = window(&trace).first.parse().expect("it is a number");
            let nesting = nesting(&trace, PROGRAM_LIMIT, first, MOST_STEPS);
            let nesting = nesting.expect("there is a picture");
            assert!(nesting.columns.iter().all(|column| column.fiq));
            write(&nesting).len()
        });
        let sizes: Vec<usize> = sizes.collect();
        assert!(sizes.iter().all(|&size| size > 60_000), "{sizes:?}");
        assert!(sizes.iter().any(|&size| size > 100_000), "{sizes:?}");
    }
}
