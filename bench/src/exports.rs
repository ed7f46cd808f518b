//! The other side in process: the proved texts through their C functions, in a library that is linked on request.

use crate::compare::{written, Outcome};
use crate::explained::reader::agrees;
use crate::explained::Asked;
use crate::generate::Case;
use crate::looked::{self, Question};
use crate::model::aic::SOURCES;
use crate::model::core::{CoreInterrupt, Group};
use crate::report::generate::told;
use crate::report::{Counts, Figures};
use crate::stack::generate::Typed;

/// Declares functions of the library that get the lent trace, its length and a limit of steps first. The declarations are
/// checked by nothing: they have to be those of the library.
macro_rules! of_a_trace {
    ($($(#[$about:meta])* fn $name:ident($($more:ident: $sort:ty),*) -> $answer:ty;)*) => {
        extern "C" {
            $(
                $(#[$about])*
                fn $name(trace: *const u8, length: usize, limit: u32, $($more: $sort),*) -> $answer;
            )*
        }
    };
}

of_a_trace! {
    /// Writes the listing into the lent buffer and answers the bytes written; what finds no room is dropped.
    fn wisteria_list(out: *mut u8, room: usize) -> usize;
    /// The steps played, refused ones among them; the number of the refusal that ended the play, 0 where it went to the
    /// end; the offset of that refusal, or the length of the trace, in bytes.
    fn wisteria_steps() -> u32;
    fn wisteria_refusal() -> u32;
    fn wisteria_offset() -> usize;
    /// The listing and the steps by the loops over a controller of any kind, as above.
    fn wisteria_list_plain(out: *mut u8, room: usize) -> usize;
    fn wisteria_play_plain() -> u32;
    /// Writes the figures of each source into the lent words, 32 of each: the handlers started, the most handlers started
    /// while it waited, and the most entries open while it was open. Answers the number of steps refused.
    fn wisteria_figures(started: *mut OfSources, waited: *mut OfSources, entries: *mut OfSources) -> u32;
    /// Writes the figures of all waits of a source into the lent words, how many began, of these did not end and have no
    /// bound, the first step by which one has none, and the terms of the largest bound; answers this bound: handlers.
    fn wisteria_bounds(source: u32, waits: *mut [u32; 4], terms: *mut [u32; 6]) -> u64;
    /// Writes the explanation into the lent buffer, as the listing; the second that of so many steps from a first one on.
    fn wisteria_explain(out: *mut u8, room: usize) -> usize;
    fn wisteria_explain_window(first: u32, steps: u32, out: *mut u8, room: usize) -> usize;
    /// The status words that a read of the register at the offset would look at after the play.
    fn wisteria_looked(offset: u32) -> u32;
}

extern "C" {
    /// Writes the line of the lent text of a table into the lent buffer and answers the bytes written, as above.
    fn wisteria_stack(text: *const u8, length: usize, out: *mut u8, room: usize) -> usize;

    /// A start of the lent CoreInterrupt, and a step on it told by its kind and two numbers; the record is updated.
    fn wisteria_core_start(core: *mut LentCore, fiqs: u32, irqs: u32, fiq: u32, irq: u32) -> Reply;
    fn wisteria_core_step(core: *mut LentCore, kind: u32, first: u32, second: u32) -> Reply;
}

/// A figure of each source.
type OfSources = [u32; SOURCES];

/// How a listing is asked for.
type Lister = unsafe extern "C" fn(*const u8, usize, u32, *mut u8, usize) -> usize;

fn listed_by(lister: Lister, trace: &[u8], limit: u32, buffer: &mut [u8]) -> usize {
    let (out, room) = (buffer.as_mut_ptr(), buffer.len());
    // Both pointers come from slices of the lengths that go with them, and the two slices cannot overlap.
    unsafe { lister(trace.as_ptr(), trace.len(), limit, out, room) }
}

/// Fills the buffer with the listing of a trace and answers how many bytes of it were written.
pub fn list_into(trace: &[u8], limit: u32, buffer: &mut [u8]) -> usize {
    listed_by(wisteria_list, trace, limit, buffer)
}

/// How many steps of a trace are played.
pub fn steps_of(trace: &[u8], limit: u32) -> u32 {
    // The pointer comes from a slice of the length that goes with it, here and below.
    unsafe { wisteria_steps(trace.as_ptr(), trace.len(), limit) }
}

/// The listing by the loop over a controller of any kind.
pub fn list_plain_into(trace: &[u8], limit: u32, buffer: &mut [u8]) -> usize {
    listed_by(wisteria_list_plain, trace, limit, buffer)
}

/// The steps by the loop over a controller of any kind.
pub fn steps_plain_of(trace: &[u8], limit: u32) -> u32 {
    unsafe { wisteria_play_plain(trace.as_ptr(), trace.len(), limit) }
}

/// The number of the refusal that ends the play and its offset; 0 and the length where there is none.
pub fn ending_of(trace: &[u8], limit: u32) -> (u32, usize) {
    unsafe {
        (
            wisteria_refusal(trace.as_ptr(), trace.len(), limit),
            wisteria_offset(trace.as_ptr(), trace.len(), limit),
        )
    }
}

/// Fills the buffer with the line of a typed table and answers how many bytes of it were written.
pub fn stack_into(text: &[u8], buffer: &mut [u8]) -> usize {
    // As for the listing.
    unsafe { wisteria_stack(text.as_ptr(), text.len(), buffer.as_mut_ptr(), buffer.len()) }
}

/// Fills the buffer with the explanation of a trace, or of so many steps from a first one on.
pub fn explain_into(
    trace: &[u8],
    limit: u32,
    window: Option<(u32, u32)>,
    buffer: &mut [u8],
) -> usize {
    let Some((first, steps)) = window else {
        return listed_by(wisteria_explain, trace, limit, buffer);
    };
    let (out, room) = (buffer.as_mut_ptr(), buffer.len());
    // As for the listing.
    unsafe { wisteria_explain_window(trace.as_ptr(), trace.len(), limit, first, steps, out, room) }
}

/// The explanation of a case. What it tells has to be what the listing has, where there is room for all of it.
pub fn explained(asked: &Asked) -> Outcome {
    let Case { trace, limit, .. } = &asked.case;
    let text = written(asked.ample_room(), |buffer| {
        explain_into(trace, *limit, asked.window, buffer)
    })?;
    if asked.case.room.is_none() && asked.window.is_none() {
        let listed = written(asked.case.ample_room(), |buffer| {
            list_into(trace, *limit, buffer)
        })?;
        agrees(&text, &listed)?;
    }
    Ok(text)
}

/// The status words that a read of an offset would look at after the play of a trace.
pub fn words_looked_at(trace: &[u8], limit: u32, offset: u32) -> u32 {
    // As for the steps.
    unsafe { wisteria_looked(trace.as_ptr(), trace.len(), limit, offset) }
}

/// The listing of a case. The loop over a controller of any kind has to make the same of it, in listing and in play.
pub fn list(case: &Case) -> Outcome {
    let (trace, limit) = (&case.trace, case.limit);
    let (steps, plain) = (steps_of(trace, limit), steps_plain_of(trace, limit));
    if steps != plain {
        return Err(format!(
            "{steps} steps are played, {plain} by the loop over any kind"
        ));
    }
    let listing = written(case.ample_room(), |buffer| list_into(trace, limit, buffer))?;
    let plain = written(case.ample_room(), |buffer| {
        list_plain_into(trace, limit, buffer)
    })?;
    if listing != plain {
        return Err("the loop over any kind lists it otherwise".to_string());
    }
    Ok(listing)
}

/// The line of a typed table.
pub fn stack(typed: &Typed) -> Outcome {
    written(typed.ample_room(), |buffer| stack_into(&typed.text, buffer))
}

/// The count of a question, as it is told.
pub fn looked(question: &Question) -> Outcome {
    let Question {
        trace,
        limit,
        offset,
        ..
    } = question;
    Ok(looked::told(words_looked_at(trace, *limit, *offset)))
}

/// What the library writes the figures of a trace into: for each source the handlers started, the most of others started
/// while it waited, and the most entries.
pub type Words = [OfSources; 3];

/// No figure has this value, so that a word that is not written differs.
pub const UNTOUCHED: Words = [[0xA5A5_A5A5; SOURCES]; 3];

/// Fills the words with the figures of a trace, and answers how many steps were refused.
pub fn figures_into(trace: &[u8], limit: u32, [started, waited, entries]: &mut Words) -> u32 {
    let (bytes, length) = (trace.as_ptr(), trace.len());
    // The first pointer comes from a slice of the length that goes with it; the others lead to three arrays apart.
    unsafe { wisteria_figures(bytes, length, limit, started, waited, entries) }
}

/// The waits of a source over a trace: the counts, the terms of the largest bound, and this bound.
pub fn bounds_of(trace: &[u8], limit: u32, source: u32) -> ([u32; 4], [u32; 6], u64) {
    // No figure has this value, so that a word that is not written differs.
    let (mut waits, mut terms) = ([0xA5A5_A5A5; 4], [0xA5A5_A5A5; 6]);
    let (bytes, length) = (trace.as_ptr(), trace.len());
    // The first pointer comes from a slice of the length that goes with it; the others lead to two arrays apart.
    let most = unsafe { wisteria_bounds(bytes, length, limit, source, &mut waits, &mut terms) };
    (waits, terms, most)
}

/// The figures of a trace.
pub fn figures_of(trace: &[u8], limit: u32) -> Figures {
    let mut words = UNTOUCHED;
    let refused = figures_into(trace, limit, &mut words);
    let [started, waited, entries] = words;
    Figures {
        steps: steps_of(trace, limit),
        refused,
        sources: std::array::from_fn(|source| Counts {
            started: started[source],
            waited: waited[source],
            entries: entries[source],
        }),
    }
}

/// The figures of a case as the report of it alone has them, with the steps and the ending that the library tells.
pub fn figures(case: &Case) -> Outcome {
    let figures = figures_of(&case.trace, case.limit);
    Ok(told(&figures, ending_of(&case.trace, case.limit)))
}

/// One side of a CoreInterrupt as the library's callers hold it.
#[repr(C)]
#[derive(Clone, Copy, Debug, PartialEq, Eq)]
pub struct LentSide {
    pub count: u32,
    pub level: u32,
    pub inputs: u32,
    pub soft: u32,
    pub enable: u32,
}

/// A CoreInterrupt as they hold it.
#[repr(C)]
#[derive(Clone, Copy, Debug, PartialEq, Eq)]
pub struct LentCore {
    pub fiq: LentSide,
    pub irq: LentSide,
}

/// What a start or a step of it answers.
#[repr(C)]
#[derive(Clone, Copy, Debug, PartialEq, Eq)]
pub struct Reply {
    pub refusal: u32,
    pub value: u32,
}

impl From<&Group> for LentSide {
    fn from(group: &Group) -> LentSide {
        LentSide {
            count: group.count,
            level: u32::from(group.active_level),
            inputs: group.inputs,
            soft: group.soft,
            enable: group.enable,
        }
    }
}

impl From<&CoreInterrupt> for LentCore {
    fn from(core: &CoreInterrupt) -> LentCore {
        LentCore {
            fiq: LentSide::from(&core.fiq),
            irq: LentSide::from(&core.irq),
        }
    }
}

/// Starts a lent CoreInterrupt: FIQ count, IRQ count, FIQ level, IRQ level.
pub fn core_start(core: &mut LentCore, [fiqs, irqs, fiq, irq]: [u32; 4]) -> Reply {
    // The pointer is that of a record which nothing else uses, here and below.
    unsafe { wisteria_core_start(core, fiqs, irqs, fiq, irq) }
}

/// A step on it, told by its kind and two numbers.
pub fn core_step(core: &mut LentCore, [kind, first, second]: [u32; 3]) -> Reply {
    unsafe { wisteria_core_step(core, kind, first, second) }
}
