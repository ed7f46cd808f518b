//! The picture of the nesting of an AIC in a window of its trace: what it has to show by the model, a strict reader of
//! XML, a plain writer, and the comparison of a picture with the model.

pub mod compare;
pub mod nesting;
pub mod writer;
pub mod xml;

pub use self::compare::{compare, meaning, Compared};
pub use self::nesting::{nesting, Bar, Column, Nesting};
pub use self::writer::write;

/// The most steps that a window has.
pub const MOST_STEPS: u32 = 500;

/// The columns' width, and the height of a bar.
pub const WIDTH: usize = 24;
pub const HEIGHT: usize = 26;
/// The bands' height, and where they lie.
pub const BAND: usize = 14;
pub const IRQ_TOP: usize = 26;
pub const FIQ_TOP: usize = 46;
/// Where the numbers of refusals and of steps stand.
pub const REFUSALS: usize = 84;
pub const STEPS: usize = 332;
/// Every step whose number is a multiple of this has its number under it.
pub const NUMBERED: u32 = 5;

/// The left edge of a column, from 1.
pub fn left(column: usize) -> usize {
    40 + WIDTH * column
}

/// The middle of a column.
pub fn middle(column: usize) -> usize {
    left(column) + WIDTH / 2
}

/// The upper edge of the bars of a place, of which 0 is the lowest.
pub fn top(place: usize) -> usize {
    288 - 28 * place
}
