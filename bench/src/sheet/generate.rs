//! Folders of traces with a typed table, made from a seed: tours that keep the table, that break it in one step, of other
//! kinds, damaged and missing, under names of any bytes.

use std::ffi::OsStr;
use std::fs;
use std::io;
use std::os::unix::ffi::OsStrExt;
use std::path::Path;

use super::names::{Names, LONGEST_SOURCE_NAME};
use crate::bounds::kept::culprit;
use crate::generate::aic::{DISABLE, ENABLE, EOICR, FFDR, FFER};
use crate::generate::damage::{damaged, noise};
use crate::generate::{in_any_form, tour_of, Script};
use crate::model::aic::{Aic, SOURCES};
use crate::model::{Kind, Machine};
use crate::numbered::{Made, Numbered};
use crate::random::Random;
use crate::report::generate::waits;
use crate::stack::generate::any_table;
use crate::stack::Table;
use crate::trace::{decode, pieces, play, LONGEST, PROGRAM_LIMIT};
use crate::workload::year;

/// A typed table, and the names of traces in the order of the list, each with the bytes of its file if there is one.
#[derive(Clone, Debug)]
pub struct Folder {
    pub table: Vec<u8>,
    pub traces: Vec<(Vec<u8>, Option<Vec<u8>>)>,
    /// What ends each name in the list but perhaps the last.
    line_end: &'static [u8],
}

pub type Generator = Numbered<Folder>;

impl Folder {
    /// Makes the folder, with `table` and `names` in it, and gives the list of names, which begin with the folder's.
    pub fn write(&self, folder: &Path) -> io::Result<Vec<u8>> {
        fs::create_dir_all(folder)?;
        fs::write(folder.join("table"), &self.table)?;
        let mut list = Vec::new();
        for (name, trace) in &self.traces {
            let path = [folder.as_os_str().as_bytes(), b"/", name].concat();
            if let Some(trace) = trace {
                fs::write(Path::new(OsStr::from_bytes(&path)), trace)?;
            }
            list.extend([&path, self.line_end].concat());
        }
        if self.traces.len() % 2 == 1 {
            list.truncate(list.len() - self.line_end.len());
        }
        fs::write(folder.join("names"), &list)?;
        Ok(list)
    }
}

/// A folder whose names end in line feeds.
fn plain(table: Vec<u8>, traces: Vec<(Vec<u8>, Option<Vec<u8>>)>) -> Folder {
    let line_end = b"\n";
    Folder {
        table,
        traces,
        line_end,
    }
}

impl Made for Folder {
    /// Tables that are refused, no name at all, more steps than are played, traces that start nothing, and
    /// names that cannot be opened: a directory, with a byte 0, too long.
    fn sweeps() -> Vec<Folder> {
        let random = &mut Random::new(0);
        let table = any_table(random);
        let over = Table {
            mark: 65_536,
            ..table
        };
        let [text, over] = [table, over].map(|table| typed(random, &table, &Names::default()));
        let too_long = [&text, b"\n#".as_slice(), &[b'.'; LONGEST]].concat();
        let tables = [text[40..].to_vec(), vec![], too_long, over, text.clone()];
        let spoilt = SPOILT.map(|(nth, words)| zeros_but(nth, words));
        let tables = tables.into_iter().chain(spoilt);
        let mut folders: Vec<Folder> = tables.map(|table| plain(table, vec![])).collect();
        let year = year(1, PROGRAM_LIMIT + 1);
        let own = table_of(random, &year);
        let own = typed(random, &own, &Names::default());
        folders.push(plain(own, vec![(b"year".to_vec(), Some(year))]));
        let bad = [vec![0; LONGEST + 1], vec![1, 9], vec![9]];
        let bad = bad.map(|trace| (vec![b'0' + trace[0]], Some(trace)));
        let unreadable = [
            vec![],
            b"0\0".to_vec(),
            vec![b'x'; 4_096],
            vec![b'y'; 70_000],
        ];
        let unreadable = unreadable.map(|name| (name, None));
        folders.push(plain(text, [bad.as_slice(), &unreadable].concat()));
        folders
    }

    fn random(random: &mut Random) -> Folder {
        let tour = any_tour(random);
        let table = match random.below(3) {
            0 => any_table(random),
            _ => table_of(random, &tour),
        };
        let names = std::array::from_fn(|_| source_name(random));
        let mut text = typed(random, &table, &names);
        if random.one_in(20) {
            let at = random.below(text.len() as u32) as usize;
            text.splice(at..at, random.pick(&SLIPS).bytes());
        }
        let mut folder = plain(text, vec![]);
        for number in 0..random.pick(&[0, 1, 2, 3, 4, 6, 9]) {
            let one = match folder.traces.last() {
                Some(last) if random.one_in(12) => last.clone(),
                _ => (file_name(random, number), trace(random, &table, &tour)),
            };
            folder.traces.push(one);
        }
        folder.line_end = random.pick::<&[u8]>(&[b"\n", b"\n", b"\r\n"]);
        folder
    }
}

/// Traces for a typed table, to be looked at.
pub fn sample(text: &[u8], table: &Table, count: u32) -> Folder {
    let random = &mut Random::new(45);
    let one = |n: u32| {
        let name = match n % 25 {
            24 => file_name(random, n),
            _ => format!("board-{:02}-run-{n:04}.trace", n % 12).into_bytes(),
        };
        let tour = any_tour(random);
        (name, trace(random, table, &tour))
    };
    plain(text.to_vec(), (0..count).map(one).collect())
}

/// The AIC that a trace ends with.
pub fn aic_of(trace: &[u8]) -> Option<Aic> {
    match play(trace, PROGRAM_LIMIT, &mut ()).machine {
        Some(Machine::Aic(aic)) => Some(*aic),
        _ => None,
    }
}

/// The modes and forcings that a trace of an AIC ends with, and frames of any size.
fn table_of(random: &mut Random, trace: &[u8]) -> Table {
    let mut table = any_table(random);
    let aic = aic_of(trace).expect("it is a trace of an AIC");
    let few = random.one_in(2);
    for (source, row) in aic.sources().iter().zip(&mut table.rows) {
        (row.priority, row.kind) = (source.priority.into(), source.kind.into());
        let used = row.priority + row.kind > 0 || source.enabled;
        row.frame = if few && !used { 0 } else { row.frame };
    }
    let forced = |n: usize| u32::from(aic.sources()[n].forced) << n;
    table.forced = (0..SOURCES).map(forced).sum();
    table
}

/// A quote where none may be, names with a byte that they may not have, with none and with one too many.
const SLIPS: [&str; 5] = [
    "\"",
    " \"x\" ",
    " \"a<b\" ",
    " \"\" ",
    " \"a name of 25 characters..\" ",
];

/// Words that spoil a table as its nth number, one for each thing that a line can tell of one.
const SPOILT: [(usize, &str); 8] = [
    (33, "8"),
    (34, "4"),
    (35, "65540"),
    (36, "123456789012345678901"),
    (8, "1,024"),
    (4, "\"x\" 0"),
    (96, "4294967296"),
    (97, "0 0"),
];

/// A table of zeros, three to a line, but for its nth number.
fn zeros_but(nth: usize, words: &str) -> Vec<u8> {
    let word = |n| if n == nth { words } else { "0" };
    let end = |n| if n % 3 == 2 { '\n' } else { ' ' };
    let text: String = (0..98).map(|n| format!("{}{}", word(n), end(n))).collect();
    text.into_bytes()
}

/// A table as it is typed, with names and comments.
fn typed(random: &mut Random, table: &Table, names: &Names) -> Vec<u8> {
    let mut text = String::from("# priority, type, frame in bytes\n");
    for (row, name) in table.rows.iter().zip(names) {
        text += &format!("{} {}\t{:#x}", row.priority, row.kind, row.frame);
        text += random.pick(&[" ", "\n", " # of \"it\"\n", "\r\n\t"]);
        if !name.is_empty() {
            text += &format!("\"{name}\"{}", random.pick(&["\n", "#\n", "\t"]));
        }
    }
    text += &format!("{} # forced\n{}", table.forced, table.mark);
    text.into_bytes()
}

/// None, or 1 to 24 bytes; a name may have a `#` and a backslash.
fn source_name(random: &mut Random) -> String {
    let length = random.pick(&[0, 0, 1, 9, LONGEST_SOURCE_NAME]);
    let name = (0..length).map(|_| char::from(random.pick(b"abcxyzABC 0129#\\;-'/.")));
    name.collect()
}

/// A name with its number: a plain one, one of any bytes, or a long one.
fn file_name(random: &mut Random, number: u32) -> Vec<u8> {
    let number = format!("{number}").into_bytes();
    let more: Vec<u8> = match random.below(4) {
        0 => b".trace".to_vec(),
        1 => (0..90).map(|_| random.within(1, 255) as u8).collect(),
        2 => (0..20).map(|_| random.pick(b"&<>\"\\ '#x\t\x7F")).collect(),
        _ => return [b"./".repeat(random.within(1, 1_990) as usize), number].concat(),
    };
    let more = more.into_iter().filter(|byte| !b"\n\r/".contains(byte));
    number.into_iter().chain(more).collect()
}

/// A trace, or none. Most are of an AIC, made of a tour or of another: they keep the table, break it in one step, or are
/// what they are; the rest enable nothing, are of another kind, damaged, noise, or missing.
fn trace(random: &mut Random, table: &Table, tour: &[u8]) -> Option<Vec<u8>> {
    let tour = match random.one_in(3) {
        true => any_tour(random),
        false => varied(random, tour),
    };
    let style = random.below(27);
    let trace = match style {
        0 | 1 => return None,
        2 => return Some(noise(random)),
        3..=5 => {
            let kind = random.pick(&Kind::ALL[1..]);
            return Some(tour_of(random, kind, 30).bytes);
        }
        6 | 7 => tour,
        8 => {
            let mut pieces = pieces(&tour);
            pieces.retain(|piece| written(piece).is_none_or(|(offset, _)| offset != ENABLE));
            pieces.concat()
        }
        9..=12 => {
            let kept = keeping(random, table, &tour);
            broken(random, table, &kept)
        }
        _ => keeping(random, table, &tour),
    };
    let script = in_any_form(random, scripted(&trace));
    Some(match style {
        13 | 14 => damaged(random, script),
        _ => script.bytes,
    })
}

fn any_tour(random: &mut Random) -> Vec<u8> {
    let steps = random.within(5, 120);
    match random.one_in(4) {
        true => tour_of(random, Kind::Aic, steps).bytes,
        false => waits::tour(random, steps).bytes,
    }
}

/// A trace with its last steps first and some left out, so that the same sources ask otherwise.
fn varied(random: &mut Random, tour: &[u8]) -> Vec<u8> {
    let pieces = pieces(tour);
    let mut steps = pieces[1..].to_vec();
    let middle = random.below(pieces.len() as u32) as usize;
    steps.rotate_left(middle);
    steps.retain(|_| !random.one_in(6));
    [pieces[0].to_vec(), steps.concat()].concat()
}

/// The numbers of a trace, as far as they are ones.
fn scripted(trace: &[u8]) -> Script {
    let (mut script, mut at) = (Script::default(), 0);
    while let Ok((value, length)) = decode(&trace[at..]) {
        script.number(value);
        at += length;
    }
    script
}

/// The register and the value that a piece of a trace writes.
fn written(piece: &[u8]) -> Option<(u32, u32)> {
    let (offset, length) = decode(piece.strip_prefix(&[2])?).ok()?;
    let (value, _) = decode(&piece[1 + length..]).ok()?;
    Some((offset, value))
}

fn mode(table: &Table, source: usize) -> u32 {
    table.rows[source].kind << 5 | table.rows[source].priority
}

/// Start-up code of a table, which writes forcing and modes and enables some sources last, and behind it the steps of a
/// tour. Each of these by which the table would not be kept is left out; of its modes some are the table's, and some are
/// not written.
fn keeping(random: &mut Random, table: &Table, tour: &[u8]) -> Vec<u8> {
    let tour = pieces(tour);
    let mut start = Script::default();
    start.write(FFER, table.forced);
    (0..SOURCES).for_each(|n| start.write(4 * n as u32, mode(table, n)));
    start.write(ENABLE, random.pick(&[u32::MAX, 0x0F0F_0F0E, 0]));
    let mut trace = [tour[0], &start.bytes].concat();
    for piece in &tour[1..] {
        let length = trace.len();
        let mode_of = written(piece).filter(|(offset, _)| offset % 4 == 0 && *offset < 0x80);
        match (mode_of, random.below(4)) {
            (Some(_), 0 | 1) => continue,
            (Some((offset, _)), 2) => {
                let mut own = Script::default();
                own.write(offset, mode(table, offset as usize / 4));
                trace.extend(own.bytes);
            }
            _ => trace.extend_from_slice(piece),
        }
        if aic_of(&trace).is_some_and(|aic| culprit(table, &aic).is_some()) {
            trace.truncate(length);
        }
    }
    if random.one_in(3) {
        let mut end = Script::default();
        (0..8).for_each(|_| end.write(EOICR, 0));
        end.write(DISABLE, random.word());
        trace.extend(end.bytes);
    }
    trace
}

/// A trace with one step in it, at any place, that gives a source that is enabled another priority, type or forcing.
fn broken(random: &mut Random, table: &Table, trace: &[u8]) -> Vec<u8> {
    let pieces = pieces(trace);
    let place = random.within(1, pieces.len() as u32) as usize;
    let before = pieces[..place].concat();
    let enabled = |aic: Aic| (0..SOURCES).filter(|&n| aic.sources()[n].enabled).collect();
    let enabled: Vec<usize> = aic_of(&before).map_or(vec![], enabled);
    let mut slip = Script::default();
    match enabled.as_slice() {
        [] => slip.write(ENABLE, u32::MAX),
        some => {
            let source = random.pick(some);
            let (at, mode) = (4 * source as u32, mode(table, source));
            match random.below(3) {
                0 => slip.write(at, mode ^ (1 + random.below(7))),
                1 => slip.write(at, mode ^ (0x20 << random.below(2))),
                _ if table.forced >> source & 1 == 1 => slip.write(FFDR, 1 << source),
                _ => slip.write(FFER, 1 << source),
            }
        }
    }
    [before, slip.bytes, pieces[place..].concat()].concat()
}
