//! The tuning sheet: worked figures and decided points by hand, and wrong readings of what it is, each told apart by
//! generated folders.

use bench::bounds::kept::{culprit, source_keeps, Unkept};
use bench::bounds::waits::Summary;
use bench::bounds::Records;
use bench::model::aic::SOURCES;
use bench::sheet::figures::figures;
use bench::sheet::generate::{aic_of, Folder, Generator};
use bench::sheet::names::named_table;
use bench::sheet::noted::Noted;
use bench::sheet::page::escaped;
use bench::sheet::sums::{LeftOut, Sheet};
use bench::sheet::table::table;
use bench::sheet::{sheet, Pages};
use bench::stack::Table;
use bench::trace::PROGRAM_LIMIT;

/// What stands in the cells of a figure.
fn cells(pages: &Pages, named: &str) -> Vec<String> {
    let all = figures(&pages.text()).expect("a page is XML").into_iter();
    all.filter(|figure| figure.0 == named)
        .map(|figure| figure.1)
        .collect()
}

fn example(name: &str) -> Vec<u8> {
    let folder = concat!(env!("CARGO_MANIFEST_DIR"), "/../examples");
    std::fs::read(format!("{folder}/{name}")).expect("the example is there")
}

/// The waits of source 9 in this example are worked out by hand. The mode that is written in its second wait is made the
/// one that source 6 has, so that the trace keeps a table.
#[test]
fn the_waits_of_the_example() {
    let mut trace = example("bound.trace");
    let rewrite = trace.windows(3).rposition(|step| step == [2, 0x18, 0x65]);
    trace[rewrite.expect("step 26") + 2] = 0x66;
    let typed = table(&trace).expect("it is of an AIC");
    let traces = [(b"missing".to_vec(), None), (b"it".to_vec(), Some(trace))];
    let pages = sheet(typed.as_bytes(), traces).expect("it is a table");
    let told = [
        ("waits 9", "3 waits"),
        ("waits-unended 9", "1 waits"),
        ("waits-unbounded 9", "1 waits"),
        ("first-unbounded 9", "step 26 of trace 2"),
        ("most-started-while-waiting 9", "5 handlers"),
        ("most-startable-while-waiting 9", "5 handlers"),
        ("bound-closed-active 9", "1 handlers"),
        ("bound-remembered 9", "0 handlers"),
        ("most-startable-while-waiting 4", "0 handlers"),
        ("17", "1 traces"),
        ("trace-ending", "whole"),
    ];
    for (named, text) in told {
        assert_eq!(cells(&pages, named), [text], "{named}");
    }
}

/// The board of docs/STACK.md, level by level; the forced source and source 0 come last.
#[test]
fn the_levels_of_the_board() {
    let pages = sheet(&example("stack-board.table"), []).expect("it is a table");
    assert_eq!(cells(&pages, "stack-bytes"), ["2256 bytes"]);
    let levels = [10, 2, 4, 5, 8, 6, 11, 1]
        .into_iter()
        .zip([240, 208, 320, 416, 288, 352, 272, 160]);
    for (level, (source, bytes)) in levels.enumerate() {
        assert_eq!(
            cells(&pages, &format!("level-bytes {level}")),
            [format!("{bytes} bytes")]
        );
        assert_eq!(
            cells(&pages, &format!("level-source {level}")),
            [format!("source {source}")]
        );
    }
    let text = pages.text();
    let order = [1, 11, 6, 7, 8, 9, 5, 31, 4, 30, 2, 3, 10, 12, 13, 14, 24, 0];
    let places = order.map(|n| text.find(&format!("data-figure=\"priority\" data-source=\"{n}\"")));
    assert!(places.is_sorted() && places.iter().all(Option::is_some));
    assert_eq!(
        [14, 24].map(|n| cells(&pages, &format!("ahead-sources {n}")).concat()),
        ["15 sources", "-"]
    );
    assert_eq!(cells(&pages, "sources-left-out"), ["14 sources"]);
}

#[test]
fn names_are_shown_byte_by_byte() {
    assert_eq!(
        escaped(b"a&b<c>d\"e\\f g"),
        "a&amp;b&lt;c&gt;d&quot;e\\\\f g"
    );
    assert_eq!(escaped(b"\0\x1F\x7E\x7F\xFF"), "\\x00\\x1F~\\x7F\\xFF");
    let pages = sheet(&example("stack-board.table"), [(vec![b'y'; 4_097], None)]);
    let shown = format!("<td>{}</td>", "y".repeat(4_096));
    assert!(pages.is_ok_and(|pages| pages.text().contains(&shown)));
}

#[test]
fn names_of_sources_stand_behind_three_numbers() {
    let zeros = |count| "0 ".repeat(count);
    let read = |text: String| named_table(text.as_bytes()).map(|(_, names)| names);
    let longest = "x".repeat(24);
    let names = read(format!(
        "{}\"a #1\"# 0\n{}\"{longest}\"\t0 0",
        zeros(3),
        zeros(93)
    ));
    assert!(names.is_ok_and(|names| names[0] == "a #1" && names[31] == longest));
    for slip in [
        "\"\"",
        "\"a<\"",
        "\"a",
        "\"a\"0",
        "\"a\" \"b\"",
        "\"a\tb\"",
        &format!("\"x{longest}\""),
    ] {
        assert!(
            read(format!("{}{slip} {}", zeros(3), zeros(95))).is_err(),
            "{slip}"
        );
    }
    for place in [0, 1, 2, 4, 97, 98] {
        assert!(
            read(format!("{}\"a\" {}", zeros(place), zeros(98 - place))).is_err(),
            "{place}"
        );
    }
}

/// Each sum at its largest takes no more of its own, and takes what adds nothing to it; 17 and 18 come before 16.
#[test]
fn left_out_by_sixteen() {
    let none = Noted::of(&[0, 0, 0], &Table::default());
    let sums: [fn(&mut Noted) -> &mut u32; 9] = [
        |noted| &mut noted.figures.steps,
        |noted| &mut noted.figures.refused,
        |noted| &mut noted.marks,
        |noted| &mut noted.idle,
        |noted| &mut noted.left,
        |noted| &mut noted.figures.sources[31].started,
        |noted| &mut noted.waits[31].waits,
        |noted| &mut noted.waits[31].unended,
        |noted| &mut noted.waits[31].unbounded,
    ];
    for sum in sums {
        let [mut most, mut one] = [none.clone(), none.clone()];
        (*sum(&mut most), *sum(&mut one)) = (u32::MAX, 1);
        let mut sheet = Sheet::default();
        assert_eq!(sheet.put(Some(&most)), Ok(()));
        let before = sheet.clone();
        assert_eq!(sheet.put(Some(&one)), Err(LeftOut::Full));
        assert_eq!(
            sheet,
            Sheet {
                named: 2,
                full: 1,
                ..before
            }
        );
        assert_eq!(sheet.put(Some(&none)), Ok(()));
        let strays = Unkept { step: 7, source: 3 };
        one.strays = Some(strays);
        sheet.unkept = u32::MAX;
        assert_eq!(sheet.put(Some(&one)), Err(LeftOut::Unkept(strays)));
        assert_eq!(sheet.put(None), Err(LeftOut::Unopened));
        assert_eq!(
            [sheet.named, sheet.unkept, sheet.unopened],
            [5, u32::MAX, 1]
        );
    }
}

/// A printed table is read back as what the trace ends with, which keeps it there, with no frame filled in.
#[test]
fn a_printed_table_is_read_back() {
    let traces = bench::report::generate::Generator::new(2);
    let traces = (0..600).map(|n| traces.case(traces.sweeps() + n).case.trace);
    let printed = traces.filter_map(|trace| Some((table(&trace).ok()?, aic_of(&trace)?)));
    let read = printed.map(|(text, mut aic)| {
        let (typed, _) = named_table(text.as_bytes()).expect("what is printed is a table");
        let _ = bench::model::Controller::write(
            &mut aic,
            bench::model::aic::Register::Enable,
            u32::MAX,
        );
        assert_eq!(culprit(&typed, &aic), None);
        assert!(typed.mark == 0 && typed.rows.iter().all(|row| row.frame == 0));
    });
    assert!(read.count() > 300);
}

/// What a wrong reading makes of a page, of which the right one is given.
type Wrong = fn(&Folder, &mut Pages);

/// Makes the waits of each source anew, from those of the counted traces, each with the number of its name.
fn again(pages: &mut Pages, make: fn(&mut Summary, &mut u32, &[(u32, Summary)])) {
    let rows = pages.rows.iter().zip(1..);
    let counted: Vec<(u32, Noted)> = rows
        .filter_map(|((_, row), n)| Some((n, row.clone().ok()?)))
        .collect();
    for n in 0..SOURCES {
        let of: Vec<_> = counted
            .iter()
            .map(|(number, noted)| (*number, noted.waits[n]))
            .collect();
        make(&mut pages.sheet.waits[n], &mut pages.sheet.trace[n], &of);
    }
}

/// Changes what is said of each trace that could be read.
fn each(
    folder: &Folder,
    pages: &mut Pages,
    change: fn(&mut Result<Noted, LeftOut>, &Table, &mut Sheet, &[u8]),
) {
    for ((_, row), (_, trace)) in pages.rows.iter_mut().zip(&folder.traces) {
        trace
            .iter()
            .for_each(|trace| change(row, &pages.table, &mut pages.sheet, trace));
    }
}

#[rustfmt::skip]
const WRONG: [(&str, Wrong); 15] = [
    ("a trace left out makes sources used", |folder, pages| each(folder, pages, |_, table, sheet, trace| sheet.used |= Noted::of(trace, table).used)),
    ("18 tells the highest source", |folder, pages| each(folder, pages, |row, table, _, trace| if let Err(LeftOut::Unkept(at)) = row {
        let aic = &Records::of(trace, PROGRAM_LIMIT).aics[at.step as usize];
        at.source = (0..SOURCES).rfind(|&n| !source_keeps(table, aic, n)).expect("one does not");
    })),
    ("18 counts steps from 0", |folder, pages| each(folder, pages, |row, _, _, _| if let Err(LeftOut::Unkept(at)) = row { at.step -= 1 })),
    ("a mark is not left open", |folder, pages| each(folder, pages, |row, _, _, trace| if let (Ok(noted), Some(aic)) = (row, aic_of(trace)) {
        noted.left = aic.entries().iter().filter(|entry| !entry.is_mark()).count() as u32;
    })),
    ("the end of a mark is an idle one", |folder, pages| each(folder, pages, |row, _, _, _| if let Ok(noted) = row { noted.idle += noted.marks })),
    ("a trace is numbered among those that count", |_, pages| again(pages, |_, trace, of| {
        *trace = of.iter().position(|(_, of)| of.first_unbounded.is_some()).map_or(0, |at| at as u32 + 1);
    })),
    ("the last lost bound is told", |_, pages| again(pages, |waits, trace, of| if let Some((number, last)) = of.iter().rfind(|(_, of)| of.unbounded > 0) {
        (waits.first_unbounded, *trace) = (last.first_unbounded, *number);
    })),
    ("of equal bounds the last trace tells its terms", |_, pages| again(pages, |waits, _, of| {
        waits.most = of.iter().filter_map(|(_, of)| of.most).max_by_key(|terms| terms.sum());
    })),
    ("waits that do not end are a largest number", |_, pages| again(pages, |waits, _, of| waits.unended = of.iter().map(|(_, of)| of.unended).max().unwrap_or(0))),
    ("a wait that does not end is none", |_, pages| again(pages, |waits, _, _| waits.waits -= waits.unended)),
    ("one wait without a bound leaves none", |_, pages| again(pages, |waits, _, _| if waits.unbounded > 0 { waits.most = None })),
    ("forced sources are normal", |_, pages| pages.table.forced = 0),
    ("a mark stands only where no source does", |_, pages| pages.table.mark = 0),
    ("a source that no trace enables is not shown", |_, pages| (0..SOURCES).filter(|n| pages.sheet.used >> n & 1 == 0).for_each(|n| pages.table.rows[n] = Default::default())),
    ("a source that is 0 0 0 is not shown", |_, pages| (0..SOURCES).filter(|&n| pages.table.rows[n] == Default::default()).for_each(|n| pages.sheet.used &= !(1 << n))),
];

/// By two folders each, of the first thousand.
#[test]
fn each_wrong_reading_is_told_apart() {
    let generator = Generator::new(1);
    let mut left: Vec<_> = [WRONG, WRONG].concat();
    for folder in (0..1_000).map(|number| generator.case(number)) {
        let Ok(right) = sheet(&folder.table, folder.traces.clone()) else {
            continue;
        };
        let text = right.text();
        let mut found = Vec::new();
        left.retain(|(what, wrong)| {
            let mut pages = right.clone();
            wrong(&folder, &mut pages);
            let same = pages.text() == text || found.contains(what);
            found.push(what);
            same
        });
    }
    let left: Vec<&str> = left.iter().map(|(what, _)| *what).collect();
    assert!(left.is_empty(), "{left:?}");
}
