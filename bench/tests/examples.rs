//! The examples: a readable text, the bytes it stands for and their listing have to belong together, the waves and the
//! picture of some of them, and a typed table, its line and what leads to its slip.

use std::collections::BTreeMap;
use std::fs;
use std::path::PathBuf;

use bench::hex;
use bench::listing::listing;
use bench::stack::lead::lead;
use bench::stack::{line, text};
use bench::trace::{decode, encode, NUMBER_BYTES, PROGRAM_LIMIT};
use bench::{picture, typed, waves};

/// The contents of a sort of examples' files, by name and then by ending.
type Examples = BTreeMap<String, BTreeMap<String, Vec<u8>>>;

/// The traces that no text stands for: damaged, cut, empty, not in shortest forms, or with a step that there is not.
const AS_BYTES: [&str; 6] = [
    "beyond-limit",
    "cut-short",
    "damaged-number",
    "empty",
    "padded",
    "unknown-step",
];

/// The traces.
fn examples() -> Examples {
    let all = all().into_iter();
    all.filter(|(_, files)| !files.contains_key("table"))
        .collect()
}

/// The typed tables.
fn tables() -> Examples {
    let all = all().into_iter();
    all.filter(|(_, files)| files.contains_key("table"))
        .collect()
}

/// Bytes that differ are told as text.
fn same(there: &[u8], expected: &[u8], name: &str) {
    let [there, expected] = [there, expected].map(|bytes| bytes.escape_ascii().to_string());
    assert_eq!(there, expected, "{name}");
}

fn all() -> Examples {
    let folder = PathBuf::from(env!("CARGO_MANIFEST_DIR")).join("../examples");
    let mut examples = BTreeMap::<_, BTreeMap<_, _>>::new();
    for entry in fs::read_dir(folder).expect("the folder of the examples can be read") {
        let path = entry.expect("an entry can be read").path();
        if path.is_dir() {
            continue; // programs that ask a controller, which have no trace of their own
        }
        let part = |part: Option<&std::ffi::OsStr>| {
            let part = part.expect("a file has a name and an ending");
            part.to_str().expect("names are plain text").to_owned()
        };
        let (name, ending) = (part(path.file_stem()), part(path.extension()));
        if ending != "md" {
            let bytes = fs::read(&path).expect("a file can be read");
            examples.entry(name).or_default().insert(ending, bytes);
        }
    }
    examples
}

#[test]
fn each_example_has_its_three_files() {
    let examples = examples();
    assert!(examples.len() >= 12);
    for (name, mut files) in examples {
        files.retain(|ending, _| !["vcd", "svg", "waits"].contains(&ending.as_str()));
        let endings: Vec<&str> = files.keys().map(String::as_str).collect();
        match AS_BYTES.contains(&name.as_str()) {
            true => assert_eq!(endings, ["hex", "listing", "trace"], "{name}"),
            false => assert_eq!(endings, ["listing", "trace", "txt"], "{name}"),
        }
    }
}

/// Where an example has its waves, they are the model's; and its picture is that of all its steps.
#[test]
fn waves_and_pictures_are_what_the_model_says() {
    let (mut dumps, mut pictures) = (0, 0);
    for (name, files) in examples() {
        let trace = &files["trace"];
        if let Some(dump) = files.get("vcd") {
            let expected = waves::write(&waves::waves(trace, PROGRAM_LIMIT));
            same(dump, &expected, &name);
            dumps += 1;
        }
        if let Some(drawn) = files.get("svg") {
            let nesting = picture::nesting(trace, PROGRAM_LIMIT, 1, picture::MOST_STEPS);
            let expected = picture::write(&nesting.expect("it is of an AIC"));
            same(drawn, &expected, &name);
            pictures += 1;
        }
    }
    assert_eq!((dumps, pictures), (2, 1));
}

#[test]
fn each_trace_is_what_its_text_says() {
    for (name, files) in examples() {
        let bytes = match files.get("txt") {
            Some(text) => typed::encode(text),
            None => hex::parse(&String::from_utf8_lossy(&files["hex"])),
        };
        assert_eq!(bytes.as_ref(), Ok(&files["trace"]), "{name}");
    }
}

#[test]
fn each_listing_is_what_the_model_says() {
    for (name, files) in examples() {
        let expected = listing(&files["trace"], PROGRAM_LIMIT);
        same(&files["listing"], &expected, &name);
    }
}

#[test]
fn the_first_example_and_the_empty_one_are_the_papers() {
    let examples = examples();
    let lines = String::from_utf8_lossy(&examples["first"]["listing"]).into_owned();
    assert_eq!(lines.lines().nth(5), Some("5 R 000000A0 0 0 1"));
    assert_eq!(examples["first"]["trace"].len(), 27);
    assert_eq!(examples["empty"]["listing"], b"E 8 0\n");
}

#[test]
fn the_padded_example_is_the_first_in_five_bytes_each() {
    let examples = examples();
    let (mut left, mut padded) = (examples["first"]["trace"].as_slice(), Vec::new());
    while !left.is_empty() {
        let (value, bytes) = decode(left).expect("its numbers are good");
        encode(value, NUMBER_BYTES, &mut padded);
        left = &left[bytes..];
    }
    assert_eq!(examples["padded"]["trace"], padded);
    assert_eq!(padded.len() % NUMBER_BYTES, 0);
    assert_eq!(examples["padded"]["listing"], examples["first"]["listing"]);
}

/// With the choice off the same steps list as those of a plain CIC; only the kind and the choice differ.
#[test]
fn the_indices_that_are_off_are_a_plain_cic() {
    let examples = examples();
    let (off, plain) = (&examples["index-off"], &examples["index-off-plain"]);
    assert_eq!(off["listing"], plain["listing"]);
    let configuration = 9;
    let (numbers, steps) = plain["trace"].split_at(configuration);
    let indexed = [&[4], &numbers[1..], &[0], steps].concat();
    assert_eq!(off["trace"], indexed);
}

#[test]
fn the_small_endings_are_all_there() {
    let listings: String = examples()
        .into_values()
        .map(|mut files| files.remove("listing").expect("it has a listing"))
        .map(|listing| String::from_utf8_lossy(&listing).into_owned())
        .collect();
    for refusal in [1, 2, 3, 4, 6, 13] {
        assert!(listings.contains(&format!(" X {refusal:08X} ")));
    }
    assert!(!listings.contains(" X 00000005 "), "5 is never given");
    for ending in [8, 9, 10] {
        assert!(listings.contains(&format!("E {ending} ")));
    }
}

#[test]
fn each_table_has_its_line() {
    let tables = tables();
    assert!(tables.len() >= 8);
    for (name, files) in tables {
        let endings: Vec<&str> = files.keys().map(String::as_str).collect();
        match lead(&files["table"]) {
            None => assert_eq!(endings, ["line", "table"], "{name}"),
            Some(slip) => {
                assert_eq!(endings, ["line", "slip", "table"], "{name}");
                assert_eq!(files["slip"], slip.into_bytes(), "{name}");
            }
        }
        assert!(name.starts_with("stack-"), "{name}");
        same(&files["line"], &line(&files["table"]), &name);
    }
}

#[test]
fn every_refusal_of_a_table_but_its_length_is_there() {
    let lines: Vec<Vec<u8>> = tables()
        .into_values()
        .map(|mut files| files.remove("line").expect("it has a line"))
        .collect();
    for start in [b"E 8 ".as_slice(), b"E 14\n"] {
        assert!(lines.iter().filter(|line| line.starts_with(start)).count() >= 3);
    }
}

/// All eight levels have a source above the mark, so that the figure is eight handlers' frames; seven are less.
#[test]
fn the_board_needs_eight_frames() {
    let table = text::table(&tables()["stack-board"]["table"]).expect("it is a table");
    let largest = |level| table.frames_at(level).last().copied();
    let frames: Vec<u32> = (0..8).filter_map(largest).collect();
    assert_eq!(frames, [240, 208, 320, 416, 288, 352, 272, 160]);
    assert!(frames.iter().all(|&frame| frame > table.mark));
    assert_eq!(table.bytes(), Ok(2_256));
    assert_eq!(frames.iter().sum::<u32>(), 2_256);
}
