//! The report of the files that standard input names (02, 11/12).

use std::ffi::OsStr;
use std::fs::File;
use std::io::{self, BufRead, Read, Write};
use std::os::unix::ffi::OsStrExt;

use super::figures;
use super::text::{refusal_line, source_lines, trace_line};
use super::totals::Totals;
use crate::model::Refusal;
use crate::trace::{LONGEST, PROGRAM_LIMIT};

/// A name of so many bytes or more names no file, and only so many of it are printed.
pub const LONGEST_NAME: usize = 4_096;

/// Reads names, one to a line, and writes a line for each and then those of all sources. Each line of a trace is
/// written before the next name is read.
pub fn report(names: &mut impl BufRead, to: &mut impl Write) -> io::Result<()> {
    let mut totals = Totals::default();
    while let Some(name) = next_name(names)? {
        to.write_all(&line_of(&name, &mut totals))?;
    }
    to.write_all(&source_lines(&totals.sources))
}

/// The next name: what stands before a line feed, less one carriage return right before it, or before the end if
/// anything does.
pub fn next_name(names: &mut impl BufRead) -> io::Result<Option<Vec<u8>>> {
    let mut name = Vec::new();
    if names.read_until(b'\n', &mut name)? == 0 {
        return Ok(None);
    }
    if name.last() == Some(&b'\n') {
        name.pop();
        if name.last() == Some(&b'\r') {
            name.pop();
        }
    }
    Ok(Some(name))
}

/// The line of a name, whose trace is put to the totals if it can be.
fn line_of(name: &[u8], totals: &mut Totals) -> Vec<u8> {
    let shown = &name[..name.len().min(LONGEST_NAME)];
    let Some(trace) = content(name) else {
        return refusal_line(Refusal::Unreadable, shown);
    };
    let (figures, ending) = figures(&trace, PROGRAM_LIMIT);
    match totals.add(&figures) {
        Ok(()) => trace_line(&figures, ending, shown),
        Err(refusal) => refusal_line(refusal, shown),
    }
}

/// What the file of a name begins with, one byte more than the longest trace at most; nothing if it cannot be opened or
/// read, as one whose name is not UTF-8.
pub fn content(name: &[u8]) -> Option<Vec<u8>> {
    if name.is_empty()
        || name.len() >= LONGEST_NAME
        || name.contains(&0)
        || std::str::from_utf8(name).is_err()
    {
        return None;
    }
    let file = File::open(OsStr::from_bytes(name)).ok()?;
    let mut bytes = Vec::new();
    file.take(LONGEST as u64 + 1).read_to_end(&mut bytes).ok()?;
    Some(bytes)
}
