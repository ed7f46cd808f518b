//! The decided points Y8 to Y10: names, files and the text.

use std::fs;
use std::path::{Path, PathBuf};
use std::process::{Command, Stdio};

use bench::report::folder::{make, make_year, NAMES};
use bench::report::names::report;
use bench::report::text::{refusal_line, trace_line};
use bench::report::{figures, Figures};
use bench::trace::PROGRAM_LIMIT;

/// A folder of this test alone.
fn folder(name: &str) -> PathBuf {
    let folder = Path::new(env!("CARGO_TARGET_TMPDIR")).join(name);
    // It is there from another time, or not.
    let _ = fs::remove_dir_all(&folder);
    fs::create_dir_all(&folder).expect("the folder can be made");
    folder
}

/// The report of some names, without its 32 last lines, and those.
fn reported(mut names: &[u8]) -> (Vec<u8>, Vec<u8>) {
    let mut text = Vec::new();
    report(&mut names, &mut text).expect("a vector takes all bytes");
    let ends: Vec<usize> = (0..text.len()).filter(|&at| text[at] == b'\n').collect();
    // No name here has a line feed.
    let from = ends.len() - 32;
    let sources = text.split_off(from.checked_sub(1).map_or(0, |line| ends[line] + 1));
    (text, sources)
}

/// Y10: each sort of line, byte for byte.
#[test]
fn the_text_is_the_decided_one() {
    let none = Figures {
        steps: 7,
        refused: 1,
        sources: Default::default(),
    };
    let line = trace_line(&none, (0, 27), b"examples/first.trace");
    assert_eq!(
        line,
        b"steps played 7, steps refused 1: examples/first.trace\n"
    );
    let none = Figures {
        steps: 5,
        refused: 0,
        ..none
    };
    let line = trace_line(&none, (8, 24), b"examples/cut-short.trace");
    let expected = b"steps played 5, steps refused 0, E 8 24: examples/cut-short.trace\n";
    assert_eq!(line, expected);
    let line = refusal_line(bench::model::Refusal::Unreadable, b"missing.trace");
    assert_eq!(line, b"refusal 17: missing.trace\n");
    let line = refusal_line(bench::model::Refusal::BeyondTotal, b"left-out.trace");
    assert_eq!(line, b"refusal 16: left-out.trace\n");
    let (lines, sources) = reported(b"");
    assert!(lines.is_empty());
    let expected: String = (0..32)
        .map(|source| {
            format!("source {source}: handlers started 0, most handlers started while it waited 0, most entries open while it was open 0\n")
        })
        .collect();
    assert_eq!(sources, expected.as_bytes());
}

/// Y8 and Y9: lines as they come, and what cannot be read.
#[test]
fn each_line_is_a_name() {
    let folder = folder("lines");
    let trace = folder.join("a.trace");
    fs::write(&trace, [0, 0, 0, 1, 0]).expect("a trace is written");
    fs::write(folder.join("none"), []).expect("a file is written");
    let (trace, none) = (trace.display(), folder.join("none"));
    let (none, folder) = (none.display(), folder.display());
    let played = format!("steps played 1, steps refused 0: {trace}\n");
    let empty = format!("steps played 0, steps refused 0, E 8 0: {none}\n");
    let cases = [
        (format!("{trace}\n"), played.clone()),
        (format!("{trace}"), played.clone()),
        (format!("{trace}\n{trace}"), format!("{played}{played}")),
        ("\n".into(), "refusal 17: \n".into()),
        (format!("{trace}\n\n"), format!("{played}refusal 17: \n")),
        (format!("\n{trace}"), format!("refusal 17: \n{played}")),
        (format!("{trace}\r\n"), played.clone()),
        (format!("{trace}\r\r\n"), format!("refusal 17: {trace}\r\n")),
        (format!("{trace}\r"), format!("refusal 17: {trace}\r\n")),
        (format!("\r{trace}\r\n"), format!("refusal 17: \r{trace}\n")),
        ("\r\n".into(), "refusal 17: \n".into()),
        (format!(" {trace}"), format!("refusal 17:  {trace}\n")),
        (format!("{trace}\0\n"), format!("refusal 17: {trace}\0\n")),
        (format!("{folder}\n"), format!("refusal 17: {folder}\n")),
        (format!("{folder}/b"), format!("refusal 17: {folder}/b\n")),
        (format!("{none}\n{trace}"), format!("{empty}{played}")),
    ];
    for (names, expected) in cases {
        let (lines, _) = reported(names.as_bytes());
        assert_eq!(lines, expected.as_bytes(), "{names:?}");
    }
    for length in [4_095, 4_096, 4_097, 5_000] {
        let name = "/".repeat(length - trace.to_string().len()) + &trace.to_string();
        let expected = match length {
            4_095 => format!("steps played 1, steps refused 0: {name}\n"),
            _ => format!("refusal 17: {}\n", &name[..4_096]),
        };
        for ending in ["", "\n", "\r\n"] {
            let (lines, _) = reported(format!("{name}{ending}").as_bytes());
            assert_eq!(lines, expected.as_bytes(), "{length} {ending:?}");
        }
    }
}

/// The totals of a report are those of its traces.
#[test]
fn the_lines_of_sources_are_of_all_traces_together() {
    let folder = folder("year");
    make_year(&folder, 3).expect("the folder can be made");
    let names = fs::read(folder.join("all.names")).expect("the names are there");
    let (lines, sources) = reported(&names);
    let all = [0, 1, 2].map(|number| {
        let trace = fs::read(folder.join(format!("{number:05}.trace"))).expect("a trace");
        figures(&trace, PROGRAM_LIMIT).0
    });
    assert!(String::from_utf8_lossy(&lines).starts_with("steps played 20000, steps refused 0: "));
    let line = |source: usize| {
        let of = all.iter().map(|figures| figures.sources[source]);
        let started: u32 = of.clone().map(|counts| counts.started).sum();
        let waited = of.clone().map(|counts| counts.waited).max().unwrap_or(0);
        let entries = of.map(|counts| counts.entries).max().unwrap_or(0);
        format!("source {source}: handlers started {started}, most handlers started while it waited {waited}, most entries open while it was open {entries}\n")
    };
    let expected: String = (0..32).map(line).collect();
    assert_eq!(sources, expected.as_bytes());
    assert!(all[0].sources[6].started > 100);
}

/// The folder for the program is the same each time, and the program of this model reads it.
#[test]
fn the_folder_has_what_a_report_can_meet() {
    let folder = folder("met");
    make(&folder).expect("the folder can be made");
    let list = |name: &str| fs::read(folder.join(name)).expect("the list is there");
    let before = list("odd.names");
    make(&folder).expect("the folder can be made again");
    assert_eq!(list("odd.names"), before);
    let (lines, _) = reported(&list("all.names"));
    let count = lines.iter().filter(|&&byte| byte == b'\n').count();
    assert_eq!(count, NAMES);
    let text = String::from_utf8_lossy(&lines);
    for ending in [", E 8 ", ", E 9 ", ", E 10 "] {
        assert!(text.contains(ending), "{ending}");
    }
    let mut child = Command::new(env!("CARGO_BIN_EXE_report"))
        .stdin(fs::File::open(folder.join("odd.names")).expect("the list is there"))
        .stdout(Stdio::piped())
        .spawn()
        .expect("the program starts");
    let mut printed = Vec::new();
    let mut out = child.stdout.take().expect("its output is piped");
    std::io::Read::read_to_end(&mut out, &mut printed).expect("it prints");
    assert!(child.wait().expect("it ends").success());
    let (lines, sources) = reported(&list("odd.names"));
    assert!(printed == [lines, sources].concat());
}
