//! The waves of a trace: what a value change dump of it has to show by the model, a reader of such dumps (IEEE
//! 1364-2005, 18.2), a plain writer, and the comparison of a dump with the model.

pub mod compare;
pub mod reader;
pub mod signals;
pub mod writer;

pub use self::compare::{compare, meaning, Compared};
pub use self::signals::{waves, Signal, Waves};
pub use self::writer::write;

/// What the first comment says, its words apart by one blank.
pub const TICKS: &str =
    "one tick is one step of the trace, refused steps counted; tick 0 is the start";

/// The code of the nth signal: the printable characters in their order, which are more than the signals of any kind.
pub fn code(nth: usize) -> char {
    char::from(b'!' + nth as u8)
}
