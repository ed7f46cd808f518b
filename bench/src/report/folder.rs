//! Folders of traces with lists of their names, the same at every time: one for what a report can meet, one of a whole
//! year for the clock.

use std::ffi::OsStr;
use std::fs;
use std::io;
use std::os::unix::ffi::OsStrExt;
use std::os::unix::fs::symlink;
use std::path::Path;

use super::generate::{steps_of_kind, Generator};
use super::names::LONGEST_NAME;
use crate::trace::{LONGEST, PROGRAM_LIMIT};
use crate::workload::year;

/// How many names are in the long lists.
pub const NAMES: usize = 3_000;

/// Makes the folder and puts traces into it, and lists of names that begin with the folder's as it is given:
/// `all.names` has 3,000; `odd.names` what cannot be read, what is no whole trace and what is easily read otherwise;
/// `kinds.names` each kind, whole, cut and with refused steps; `twice.names` one trace twice and in another order;
/// `returns.names` names with a carriage return before each line feed; `empty.names` nothing; `line.names` an empty
/// name; `open.names` one name with no line feed.
pub fn make(folder: &Path) -> io::Result<()> {
    fs::create_dir_all(folder)?;
    let in_folder = |name: &[u8]| List::new(folder).within(name);
    let lists = [
        ("all.names", all(folder)?),
        ("odd.names", odd(folder)?),
        ("kinds.names", kinds(folder)?),
        ("twice.names", twice(folder)),
        ("returns.names", returns(folder)),
        ("empty.names", vec![]),
        ("line.names", b"\n".to_vec()),
        ("open.names", in_folder(b"aic-whole.trace")),
    ];
    for (list, names) in lists {
        fs::write(folder.join(list), names)?;
    }
    Ok(())
}

/// Makes a folder of so many traces of 20,000 steps, and `all.names` in it.
pub fn make_year(folder: &Path, count: usize) -> io::Result<()> {
    fs::create_dir_all(folder)?;
    let mut list = List::new(folder);
    for number in 0..count {
        let trace = year(number as u64, PROGRAM_LIMIT);
        list.file(format!("{number:05}.trace"), &trace)?;
    }
    fs::write(folder.join("all.names"), list.names)
}

/// A list of names, of files in a folder and others.
struct List<'a> {
    folder: &'a Path,
    names: Vec<u8>,
}

impl List<'_> {
    fn new(folder: &Path) -> List<'_> {
        let names = Vec::new();
        List { folder, names }
    }

    /// A name in the folder.
    fn within(&self, name: &[u8]) -> Vec<u8> {
        [self.folder.as_os_str().as_bytes(), b"/", name].concat()
    }

    /// A name and its line feed.
    fn name(&mut self, name: &[u8]) {
        self.names.extend_from_slice(name);
        self.names.push(b'\n');
    }

    /// The same of a name in the folder.
    fn inside(&mut self, name: &[u8]) {
        self.name(&self.within(name));
    }

    /// Writes a file into the folder and its name behind the others.
    fn file(&mut self, name: impl AsRef<[u8]>, bytes: &[u8]) -> io::Result<()> {
        let path = self.within(name.as_ref());
        self.name(&path);
        fs::write(Path::new(OsStr::from_bytes(&path)), bytes)
    }
}

/// The lines of a text that is written here.
fn lines(text: &[u8]) -> impl Iterator<Item = &[u8]> {
    text.split(|&byte| byte == b'\n')
}

/// Traces of all sorts, as many as there are names.
fn all(folder: &Path) -> io::Result<Vec<u8>> {
    let generator = Generator::new(11);
    let mut list = List::new(folder);
    for number in 0..NAMES {
        let trace = generator.case(generator.sweeps() + number).case.trace;
        list.file(format!("{number:04}.trace"), &trace)?;
    }
    Ok(list.names)
}

const KINDS: [&str; 5] = ["aic", "core", "cic", "aintc", "indexed"];

/// Of each kind three traces: whole, with refused steps, and that cut short.
fn kinds(folder: &Path) -> io::Result<Vec<u8>> {
    let mut list = List::new(folder);
    for (kind, name) in KINDS.iter().enumerate() {
        let refused = steps_of_kind(kind, true).bytes;
        let cut = &refused[..refused.len() - 1];
        list.file(
            format!("{name}-whole.trace"),
            &steps_of_kind(kind, false).bytes,
        )?;
        list.file(format!("{name}-refused.trace"), &refused)?;
        list.file(format!("{name}-cut.trace"), cut)?;
    }
    Ok(list.names)
}

/// Names of `all.names`, one of them twice in a row and again at the end, the others in another order.
fn twice(folder: &Path) -> Vec<u8> {
    let mut list = List::new(folder);
    for number in [7, 7, 2_999, 41, 5, 1_234, 999, 0, 7] {
        list.inside(format!("{number:04}.trace").as_bytes());
    }
    list.names
}

/// Names that end in a carriage return and a line feed: with another carriage return before these, first, in the middle
/// and alone; around the longest name; and a last one with a carriage return and no line feed.
fn returns(folder: &Path) -> Vec<u8> {
    let mut list = List::new(folder);
    lines(b"good.trace\r\ngood.trace\r\r\ngo\rod.trace\r").for_each(|name| list.inside(name));
    list.names.push(b'\r');
    list.inside(b"good.trace\r");
    lines(b"\r\n\r\r\nx\r\n\0\r").for_each(|name| list.name(name));
    for length in LONGEST_NAME - 3..LONGEST_NAME + 3 {
        list.name(&[&padded(&list, length), b"\r".as_slice()].concat());
    }
    list.name(&[b"x".repeat(9_000).as_slice(), b"\r"].concat());
    let last = list.within(b"good.trace\r");
    [list.names, last].concat()
}

/// The good trace by a name of this length.
fn padded(list: &List, length: usize) -> Vec<u8> {
    let name = list.within(b"");
    let missing = length - name.len() - b"good.trace".len();
    let dots = b"./".repeat(missing / 2);
    let slash: &[u8] = if missing % 2 == 1 { b"/" } else { b"" };
    [&name, slash, &dots, b"good.trace".as_slice()].concat()
}

/// What is odd about a name or a file; the last name has no line feed.
fn odd(folder: &Path) -> io::Result<Vec<u8>> {
    let good = steps_of_kind(0, true).bytes;
    let mut list = List::new(folder);
    list.file("good.trace", &good)?;
    unreadable(&mut list)?;
    lengths_of_names(&mut list);
    // Any byte may be in a name but a line feed and a 0; a carriage return at its end is none of it.
    for name in lines(
        b"with spaces .trace\n before\na: b.trace\nreturn.trace\r\ntab\tbell\x07.trace\n\
        \xFF\xC3\xA4.trace\nrefusal 17: it",
    ) {
        list.file(name, &good)?;
    }
    list.inside(b"good.trace\r");
    lengths_of_files(&mut list)?;
    list.inside(b"good.trace");
    let last = list.within(b"good.trace");
    Ok([list.names, last].concat())
}

/// What cannot be opened or read.
fn unreadable(list: &mut List) -> io::Result<()> {
    fs::create_dir_all(list.folder.join("directory"))?;
    for (link, to) in [("loop", "loop"), ("astray", "nowhere")] {
        let link = list.folder.join(link);
        if fs::symlink_metadata(&link).is_err() {
            symlink(to, link)?;
        }
    }
    lines(
        b"missing.trace\ndirectory\ndirectory/\n.\ngood.trace/\ngood.trace/more\nloop\nastray\n\
        good.trace\0\n\0\ngood.trace ",
    )
    .for_each(|name| list.inside(name));
    lines(b"\n\0\n \n\r\n").for_each(|name| list.name(name));
    Ok(())
}

/// Names around the length from which on they name no file, all of the same file; and longer ones.
fn lengths_of_names(list: &mut List) {
    for length in [4_000]
        .into_iter()
        .chain(LONGEST_NAME - 2..LONGEST_NAME + 2)
    {
        list.name(&padded(list, length));
    }
    for length in [255, 256, 5_000, 70_000, 140_000] {
        list.name(&b"x".repeat(length));
    }
    // Its first 4,096 bytes have no 0.
    list.name(&[b"y".repeat(LONGEST_NAME), vec![0]].concat());
    list.name(&[b"z".repeat(LONGEST_NAME - 1), vec![0]].concat());
}

/// Files that are empty, as long as a trace may be, longer, and far longer; with as many steps as are played, and more.
fn lengths_of_files(list: &mut List) -> io::Result<()> {
    list.file("empty.trace", b"")?;
    for length in [LONGEST - 1, LONGEST, LONGEST + 1, LONGEST + 2, 1_000_000] {
        let steps = [1, 0x80, 0x80, 0x80, 0x80, 0].repeat(length / 6);
        let mut trace = [&[0, 0, 0], steps.as_slice()].concat();
        trace.resize(length, 0x81);
        list.file(format!("length-{length}.trace"), &trace)?;
    }
    for steps in [PROGRAM_LIMIT - 1, PROGRAM_LIMIT, PROGRAM_LIMIT + 1] {
        list.file(format!("steps-{steps}.trace"), &year(1, steps))?;
    }
    Ok(())
}
