//! The tuning sheet: one page over a typed table and many traces, by the decided points and the fixed text of the page.
//!
//! A trace is played to its end first, with every record kept whole, and what the page says of it is looked for in
//! these. Of all traces a sheet keeps sums and largest numbers, from which the rest of the page is written.

pub mod figures;
pub mod generate;
pub mod names;
pub mod noted;
pub mod page;
pub mod reached;
pub mod sums;
pub mod table;

use std::io::BufRead;

use self::names::{named_table, Names};
use self::noted::Noted;
use self::sums::{LeftOut, Sheet};
use crate::report::names::{content, next_name, LONGEST_NAME};
use crate::stack::{Fault, Table};

/// A page before it is written.
#[derive(Clone, Debug)]
pub struct Pages {
    pub table: Table,
    pub names: Names,
    /// A name as it is shown, and what became of its trace.
    pub rows: Vec<(Vec<u8>, Result<Noted, LeftOut>)>,
    pub sheet: Sheet,
}

impl Pages {
    /// A page with no trace yet; a table that is refused has none.
    pub fn of(table: &[u8]) -> Result<Pages, Fault> {
        let (table, names) = named_table(table)?;
        Ok(Pages {
            table,
            names,
            rows: Vec::new(),
            sheet: Sheet::default(),
        })
    }

    /// Puts the next name, and the bytes of its file if it could be read.
    pub fn put(&mut self, name: &[u8], trace: Option<&[u8]>) {
        let noted = trace.map(|trace| Noted::of(trace, &self.table));
        let shown = &name[..name.len().min(LONGEST_NAME)];
        let outcome = self.sheet.put(noted.as_ref());
        let row = outcome.map(|()| noted.expect("what is counted was read"));
        self.rows.push((shown.to_vec(), row));
    }

    pub fn text(&self) -> String {
        let rows = self.rows.iter().zip(1..);
        let rows: String = rows
            .map(|((name, row), n)| page::row(n, name, row))
            .collect();
        page::HEAD.to_owned() + &rows + &page::end(&self.table, &self.names, &self.sheet)
    }
}

/// The page over a table and traces by their names, of which some could not be read.
pub fn sheet(
    table: &[u8],
    traces: impl IntoIterator<Item = (Vec<u8>, Option<Vec<u8>>)>,
) -> Result<Pages, Fault> {
    let mut pages = Pages::of(table)?;
    for (name, trace) in traces {
        pages.put(&name, trace.as_deref());
    }
    Ok(pages)
}

/// The page over a table and the files that are named, one to a line.
pub fn sheet_of_files(table: &[u8], mut names: impl BufRead) -> Result<Pages, Fault> {
    let names = std::iter::from_fn(|| next_name(&mut names).ok().flatten());
    sheet(table, names.map(|name| (name.clone(), content(&name))))
}
