//! The lines of a report, each number behind the name of what it counts (02, 11/12).

use super::{Counts, Ending, Figures};
use crate::model::aic::SOURCES;
use crate::model::Refusal;

/// The line of a trace whose figures are in the totals. Its ending is 0, or the number of the refusal that ended it
/// early, and the offset.
pub fn trace_line(figures: &Figures, ending: Ending, name: &[u8]) -> Vec<u8> {
    let ended = match ending {
        (0, _) => String::new(),
        (refusal, offset) => format!(", E {refusal} {offset}"),
    };
    let (steps, refused) = (figures.steps, figures.refused);
    named(
        format!("steps played {steps}, steps refused {refused}{ended}"),
        name,
    )
}

/// The line of a trace that is left out.
pub fn refusal_line(refusal: Refusal, name: &[u8]) -> Vec<u8> {
    named(format!("refusal {}", refusal.number()), name)
}

fn named(text: String, name: &[u8]) -> Vec<u8> {
    [text.as_bytes(), b": ", name, b"\n"].concat()
}

/// The lines of all sources.
pub fn source_lines(sources: &[Counts; SOURCES]) -> Vec<u8> {
    let lines = sources.iter().enumerate().map(|(source, counts)| {
        format!(
            "source {source}: handlers started {}, most handlers started while it waited {}, most entries open while it was open {}\n",
            counts.started, counts.waited, counts.entries
        )
    });
    lines.collect::<String>().into_bytes()
}
