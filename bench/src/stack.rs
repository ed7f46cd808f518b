//! The stack bytes that a priority table needs, and the line that is printed for a typed one (02, 4/12).

pub mod coverage;
pub mod generate;
pub mod lead;
pub mod text;

use self::text::Misread;
use crate::model::aic::SOURCES;
use crate::model::Refusal;
use crate::trace::LONGEST;

/// The levels of the AIC, each of which counts with one frame (02, 4/12).
pub const LEVELS: u32 = 8;

/// The largest priority, type and frame in bytes that are not refused (02, 4/12).
pub const MOST_PRIORITY: u32 = 7;
pub const MOST_TYPE: u32 = 3;
pub const MOST_FRAME: u32 = 65_535;

/// What is said of one source.
#[derive(Clone, Copy, Debug, Default, PartialEq, Eq)]
pub struct Row {
    pub priority: u32,
    pub kind: u32,
    /// The bytes that its handler takes from the stack.
    pub frame: u32,
}

/// One of a source's three numbers.
pub type Place = fn(&mut Row) -> &mut u32;

impl Row {
    /// A source's numbers, each with its limit.
    pub const LIMITS: [(Place, u32); 3] = [
        (|row| &mut row.priority, MOST_PRIORITY),
        (|row| &mut row.kind, MOST_TYPE),
        (|row| &mut row.frame, MOST_FRAME),
    ];

    fn within_limits(&self) -> bool {
        self.priority <= MOST_PRIORITY && self.kind <= MOST_TYPE && self.frame <= MOST_FRAME
    }
}

/// A priority table as it is handed in, its numbers within their limits or not.
#[derive(Clone, Debug, Default, PartialEq, Eq)]
pub struct Table {
    pub rows: [Row; SOURCES],
    /// Bit n says that source n is forced to the fast side; bit 0 says nothing.
    pub forced: u32,
    /// The bytes that the handler of a spurious mark takes.
    pub mark: u32,
}

impl Table {
    /// Whether a source can have a handler on the normal side: source 0 and forced ones are fast.
    pub fn is_normal(&self, source: usize) -> bool {
        source != 0 && self.forced >> source & 1 == 0
    }

    /// All numbers are asked, those of fast sources and the mark's too (02, 4/12, 14).
    pub fn within_limits(&self) -> bool {
        self.rows.iter().all(Row::within_limits) && self.mark <= MOST_FRAME
    }

    /// The frames of the normal sources of a level, the smallest first.
    pub fn frames_at(&self, level: u32) -> Vec<u32> {
        let sources = (0..SOURCES).filter(|&n| self.is_normal(n));
        let rows = sources.map(|n| self.rows[n]);
        let of_level = rows.filter(|row| row.priority == level);
        let mut frames: Vec<u32> = of_level.map(|row| row.frame).collect();
        frames.sort_unstable();
        frames
    }

    /// The largest frame that can stand for a level: a mark can take the place of any handler.
    fn largest_at(&self, level: u32) -> u32 {
        let mut frames = self.frames_at(level);
        frames.push(self.mark);
        frames.sort_unstable();
        frames[frames.len() - 1]
    }

    /// The stack bytes needed, or 14.
    pub fn bytes(&self) -> Result<u32, Fault> {
        if !self.within_limits() {
            return Err(Fault::Beyond);
        }
        Ok((0..LEVELS).map(|level| self.largest_at(level)).sum())
    }
}

/// Why there is no figure.
#[derive(Clone, Copy, Debug, PartialEq, Eq)]
pub enum Fault {
    /// The text is longer than 65,536 bytes.
    TooLong,
    /// The text is no table.
    Misread(Misread),
    /// A number of the table is beyond its limit.
    Beyond,
}

impl Fault {
    pub fn refusal(self) -> Refusal {
        match self {
            Fault::TooLong => Refusal::TraceTooLong,
            Fault::Misread(_) => Refusal::BadNumber,
            Fault::Beyond => Refusal::BeyondTable,
        }
    }

    /// The byte offset that is printed; a number beyond its limit has none.
    fn offset(self) -> Option<usize> {
        match self {
            Fault::TooLong => Some(LONGEST),
            Fault::Misread(misread) => Some(misread.offset),
            Fault::Beyond => None,
        }
    }
}

/// The stack bytes that a typed table needs. It is read whole before its numbers are judged.
pub fn needed(text: &[u8]) -> Result<u32, Fault> {
    text::table(text)?.bytes()
}

/// The line that is printed for a typed table: the figure and its unit, or the refusal.
pub fn line(text: &[u8]) -> Vec<u8> {
    line_of(needed(text)).into_bytes()
}

fn line_of(needed: Result<u32, Fault>) -> String {
    match needed {
        Ok(bytes) => format!("{bytes} bytes\n"),
        Err(fault) => {
            let number = fault.refusal().number();
            let offset = fault.offset().map(|offset| format!(" {offset}"));
            format!("E {number}{}\n", offset.unwrap_or_default())
        }
    }
}

#[cfg(test)]
mod tests {
    use super::*;

    /// All sources forced, so that each level counts the mark's frame.
    fn marks_alone(mark: u32) -> Table {
        Table {
            forced: u32::MAX,
            mark,
            ..Table::default()
        }
    }

    /// Source 4 alone is normal, at priority 2 with a frame of 100 bytes; a mark takes 10.
    fn one_source() -> Table {
        let mut table = marks_alone(10);
        table.forced = !(1 << 4);
        (table.rows[4].priority, table.rows[4].frame) = (2, 100);
        table
    }

    fn with(table: &Table, change: impl FnOnce(&mut Table)) -> Table {
        let mut table = table.clone();
        change(&mut table);
        table
    }

    #[test]
    fn each_level_counts_once() {
        assert_eq!(Table::default().bytes(), Ok(0));
        assert_eq!(marks_alone(10).bytes(), Ok(80));
        for level in 0..LEVELS {
            let moved = with(&one_source(), |table| table.rows[4].priority = level);
            assert_eq!(moved.bytes(), Ok(170));
        }
    }

    #[test]
    fn of_a_level_the_largest_counts() {
        for (priority, frame, bytes) in [
            (2, 99, 170),
            (2, 100, 170),
            (2, 101, 171),
            (3, 99, 259),
            (3, 10, 170),
            (3, 9, 170),
        ] {
            let second = with(&one_source(), |table| {
                table.forced &= !(1 << 7);
                (table.rows[7].priority, table.rows[7].frame) = (priority, frame);
            });
            assert_eq!(second.bytes(), Ok(bytes), "{priority} {frame}");
        }
    }

    #[test]
    fn the_mark_counts_where_it_is_the_largest() {
        for (mark, bytes) in [(0, 100), (99, 793), (100, 800), (101, 808)] {
            let table = with(&one_source(), |table| table.mark = mark);
            assert_eq!(table.bytes(), Ok(bytes));
        }
    }

    #[test]
    fn fast_sources_do_not_count() {
        let larger = |source: usize| move |table: &mut Table| table.rows[source].frame = 9_000;
        assert_eq!(with(&one_source(), larger(0)).bytes(), Ok(170));
        let forced = with(&one_source(), larger(5));
        assert_eq!(forced.bytes(), Ok(170));
        let freed = with(&forced, |table| table.forced &= !(1 << 5));
        assert_eq!(freed.bytes(), Ok(9_160));
    }

    #[test]
    fn bit_0_of_the_forced_word_and_types_say_nothing() {
        for table in [one_source(), marks_alone(3), Table::default()] {
            let other = with(&table, |table| table.forced ^= 1);
            assert_eq!(other.bytes(), table.bytes());
        }
        for kind in 0..=MOST_TYPE {
            let table = with(&one_source(), |table| table.rows[4].kind = kind);
            assert_eq!(table.bytes(), Ok(170));
        }
    }

    #[test]
    fn the_largest_figure() {
        assert_eq!(marks_alone(65_535).bytes(), Ok(524_280));
        let mut table = Table::default();
        for source in 1..=8 {
            table.rows[source].priority = source as u32 - 1;
            table.rows[source].frame = 65_535;
        }
        assert_eq!(table.bytes(), Ok(524_280));
    }

    /// Source 0, a forced one, a normal one and the last one: each number at its limit and one beyond.
    #[test]
    fn every_number_is_tested_for_14() {
        for source in [0, 4, 5, 31] {
            for ((number, _), limit) in Row::LIMITS.into_iter().zip([7, 3, 65_535]) {
                let put = |value| {
                    let put = |table: &mut Table| *number(&mut table.rows[source]) = value;
                    with(&one_source(), put).bytes()
                };
                assert!(put(limit).is_ok());
                assert_eq!(put(limit + 1), Err(Fault::Beyond));
                assert_eq!(put(u32::MAX), Err(Fault::Beyond));
            }
        }
        assert!(marks_alone(65_535).bytes().is_ok());
        assert_eq!(marks_alone(65_536).bytes(), Err(Fault::Beyond));
    }

    #[test]
    fn the_line_has_the_unit_or_the_refusal() {
        assert_eq!(line_of(Ok(0)), "0 bytes\n");
        assert_eq!(line_of(Ok(524_280)), "524280 bytes\n");
        assert_eq!(line_of(Err(Fault::Beyond)), "E 14\n");
        assert_eq!(line_of(Err(Fault::TooLong)), "E 11 65536\n");
        assert_eq!(line(b""), b"E 8 0\n");
    }
}
