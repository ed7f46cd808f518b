//! Refusals in words: those of a step, and those that end a trace.

use super::places::accessed;
use super::Told;
use crate::model::{Refusal, Step};

/// Why a step was refused, by its number and in words; of one that was carried out nothing.
pub fn refusal(told: &Told) -> String {
    match told.answer {
        Ok(_) => String::new(),
        Err(refusal) => format!(" refused by {}: {}", refusal.number(), words(told, refusal)),
    }
}

fn words(told: &Told, refusal: Refusal) -> String {
    let words = match refusal {
        Refusal::Misaligned => "the offset is no multiple of 4",
        Refusal::NoRegister => "no register at this offset",
        Refusal::WriteOnly => "this register can only be written",
        Refusal::ReadOnly => "this register can only be read",
        Refusal::Unprivileged => "only a privileged access may do this",
        Refusal::OutOfRange => return beyond(told),
        _ => "a step that no rule takes",
    };
    words.to_owned()
}

/// Which number of a step is beyond its limit.
fn beyond(told: &Told) -> String {
    let step = told.recorded.step;
    let register = accessed(told.before, step);
    let field: Vec<&str> = register.map_or(vec![], |it| it.group.told.split(' ').collect());
    match (step, &field[..]) {
        (Step::Line { level: 0 | 1, .. }, _) => "no such line".to_owned(),
        (Step::Line { .. }, _) => "a level is 0 or 1".to_owned(),
        _ if told.recorded.privilege > 1 => "a privilege is 0 or 1".to_owned(),
        (_, ["number", noun]) => format!("no such {noun}"),
        (_, ["map", .., to]) => format!("a byte names no {to}"),
        _ => "a number is beyond its limit".to_owned(),
    }
}

/// Why a trace ends early, in words.
pub fn ending(refusal: Refusal) -> &'static str {
    match refusal {
        Refusal::StepLimit => "the limit of steps is reached, and bytes are left",
        Refusal::BadNumber => "a number breaks off here, or has more than 32 bits or five bytes",
        Refusal::UnknownKind => "no controller or step has this number",
        Refusal::BadConfiguration => "the controller cannot be configured so",
        Refusal::TraceTooLong => "the trace has more than 65536 bytes",
        other => unreachable!("no trace ends by {other:?}"),
    }
}
