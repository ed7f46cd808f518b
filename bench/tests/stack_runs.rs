//! What the figure of a table means (02, 4/12), on the model of the AIC: over all runs of small tables the largest sum of
//! open frames is the figure, and a run made for a table of any size ends with it.
//!
//! A run starts with no entry open, the table's modes and forcings and nothing remembered (02, 9/12), and makes no mode or
//! forcing write. All else is free at the start; what is not searched from there is reached by steps of the run itself.

use std::collections::HashSet;

use bench::generate::aic::{CLEAR, DCR, DISABLE, ENABLE, FFDR, FFER, SET};
use bench::model::aic::{Aic, Selection, ENTRIES, SOURCES};
use bench::model::{Controller, Step};
use bench::random::Random;
use bench::stack::generate::any_table;
use bench::stack::{text, Row, Table, LEVELS};

const IVR: Step = Step::Read { offset: 0x100 };
const WRITE_IVR: Step = write(0x100, 0);
const FVR: Step = Step::Read { offset: 0x104 };
const EOICR: Step = write(0x130, 0);

const fn write(offset: u32, value: u32) -> Step {
    Step::Write { offset, value }
}

/// A step that must be carried out.
fn put(aic: &mut Aic, step: Step) {
    aic.step(step).expect("the step is carried out");
}

/// The record of a table after its modes and forcings are written, with no entry open.
fn set_up(table: &Table, external: u32) -> Aic {
    let mut aic = Aic::new(external, 0);
    for (source, row) in (0..).zip(&table.rows) {
        put(&mut aic, write(4 * source, row.kind << 5 | row.priority));
    }
    put(&mut aic, write(FFER, table.forced));
    aic
}

/// The bytes of all frames that are open.
fn open_bytes(table: &Table, aic: &Aic) -> u32 {
    let frame = |source: Option<u8>| match source {
        Some(source) => table.rows[usize::from(source)].frame,
        None => table.mark,
    };
    let entries = aic.entries().iter();
    entries.map(|entry| frame(entry.source)).sum()
}

/// A table in which few sources are free to move; all others are forced, so that no run can start one of them.
struct Small {
    table: Table,
    external: u32,
    /// The sources whose lines, enables and memories the runs move.
    moved: Vec<usize>,
}

impl Small {
    /// The figure, which a table within its limits has.
    fn figure(&self) -> u32 {
        self.table.bytes().expect("the table is within its limits")
    }

    /// Every step of a run that can change what is kept of these sources, the entries, the mask or protect mode.
    fn steps(&self, debug: &[u32]) -> Vec<Step> {
        let mut steps = vec![IVR, EOICR, FVR];
        for &source in &self.moved {
            let line = |level| Step::Line {
                line: source as u32,
                level,
            };
            steps.extend([0, 1].map(line));
            steps.extend([ENABLE, DISABLE, SET, CLEAR].map(|offset| write(offset, 1 << source)));
        }
        steps.extend(debug.iter().map(|&value| write(DCR, value)));
        if debug.iter().any(|value| value & 1 == 1) {
            steps.push(WRITE_IVR);
        }
        steps
    }

    /// All that such a step can change, in one number: the entries by their sources, then three bits for each source
    /// that is moved, what is remembered by its source, and DCR. Levels and modes stay what the table says.
    fn key(&self, aic: &Aic) -> u128 {
        let source = |entry: &bench::model::aic::Entry| entry.source.map_or(32, u128::from);
        let entries = aic.entries().iter();
        let mut key = entries.fold(1, |key, entry| key << 6 | source(entry));
        for &source in &self.moved {
            let source = aic.sources()[source];
            let bits = [source.line, source.enabled, source.memory];
            key = bits
                .iter()
                .fold(key, |key, &bit| key << 1 | u128::from(bit));
        }
        let remembered = match aic.remembered() {
            Some(Selection::Source { number, .. }) => u128::from(number),
            Some(Selection::Nobody) => 32,
            None => 0,
        };
        key << 8 | remembered << 2 | u128::from(aic.masked()) << 1 | u128::from(aic.protected())
    }

    /// How many records all runs reach, with some values of DCR written: the largest sum of open frames is the figure.
    fn is_met(&self, debug: &[u32]) -> usize {
        let (most, records) = self.search(&self.steps(debug));
        assert_eq!(most, self.figure(), "{:?} of {:?}", self.moved, self.table);
        records
    }

    /// The largest sum of open frames over all records that the steps reach, and how many records there are.
    fn search(&self, steps: &[Step]) -> (u32, usize) {
        let first = set_up(&self.table, self.external);
        let mut seen = HashSet::from([self.key(&first)]);
        let (mut open, mut most) = (vec![first], 0);
        while let Some(aic) = open.pop() {
            most = most.max(open_bytes(&self.table, &aic));
            for &step in steps {
                let mut next = aic.clone();
                put(&mut next, step);
                if seen.insert(self.key(&next)) {
                    open.push(next);
                }
            }
        }
        (most, seen.len())
    }
}

/// Frames that tell entries apart: of up to eight marks and one handler of each source every mix has another sum.
const FRAMES: [u32; 4] = [1, 9, 81, 729];

/// The orders in which three frames can go to two sources and a mark.
const ORDERS: [[usize; 3]; 6] = [
    [0, 1, 2],
    [0, 2, 1],
    [1, 0, 2],
    [1, 2, 0],
    [2, 0, 1],
    [2, 1, 0],
];

/// A table of some sources, each with its number, priority and frame, and a mark's frame. Types and which sources are
/// external go by the variant.
fn small(sources: &[(usize, u32, u32)], mark: u32, variant: u32) -> Small {
    let mut table = Table {
        forced: u32::MAX,
        mark,
        ..Table::default()
    };
    let mut external = 0;
    for (place, &(source, priority, frame)) in (0..).zip(sources) {
        let kind = variant >> (2 * place) & 3;
        table.rows[source] = Row {
            priority,
            kind,
            frame,
        };
        table.forced &= !(1 << source);
        external |= (variant >> (6 + place) & 1) << source;
    }
    Small {
        table,
        external,
        moved: sources.iter().map(|&(source, ..)| source).collect(),
    }
}

#[test]
fn over_all_runs_of_two_sources_the_largest_sum_is_the_figure() {
    let (mut tables, mut records, mut variant) = (0, 0, 0);
    for priorities in 0..64 {
        for [one, other, mark] in ORDERS {
            let sources = [
                (3, priorities % 8, FRAMES[one]),
                (17, priorities / 8, FRAMES[other]),
            ];
            variant += 37;
            let debug: &[u32] = if tables % 8 == 0 { &[0, 2] } else { &[] };
            records += small(&sources, FRAMES[mark], variant).is_met(debug);
            tables += 1;
        }
    }
    assert_eq!(tables, 384);
    assert!(records > 1_000_000, "{records} records");
}

/// The mode on and off, and the handshake of a read and a write between which anything may happen.
#[test]
fn over_all_runs_with_protect_mode_the_largest_sum_is_the_figure() {
    let mut records = 0;
    for number in 0..48 {
        let [one, other, mark] = ORDERS[number % 6];
        let priorities = [number * 5 % 8, number / 6].map(|priority| priority as u32);
        let sources = [
            (3, priorities[0], FRAMES[one]),
            (17, priorities[1], FRAMES[other]),
        ];
        records += small(&sources, FRAMES[mark], 29 * number as u32).is_met(&[0, 1]);
    }
    println!("{records} records");
    assert!(records > 500_000, "{records} records");
}

/// What a run may not start with: a source that was remembered at another level is open twice.
#[test]
fn with_something_remembered_at_the_start_more_is_open_than_the_figure() {
    let small = small(&[(4, 3, FRAMES[3])], 0, 1);
    let mut aic = set_up(&small.table, 0);
    let mode = 1 << 5;
    let remembers = [write(DCR, 1), write(ENABLE, 1 << 4), write(4 * 4, mode)];
    let asks = [write(SET, 1 << 4), IVR, write(4 * 4, mode | 3)];
    for step in remembers.into_iter().chain(asks) {
        put(&mut aic, step);
    }
    assert!(aic.entries().is_empty() && aic.remembered().is_some());
    for step in [WRITE_IVR, write(SET, 1 << 4), IVR, WRITE_IVR] {
        put(&mut aic, step);
    }
    assert_eq!(open_bytes(&small.table, &aic), 2 * small.figure());
}

/// Three sources, on levels that are all the same, two the same, or apart; the mark below, between and above them.
#[test]
fn over_all_runs_of_three_sources_the_largest_sum_is_the_figure() {
    for number in 0..27 {
        let levels = [number % 3, number / 3 % 3, number / 9].map(|place| [0, 4, 7][place]);
        // The frames go round, one way or the other.
        let frame = |place: usize| match number % 2 {
            0 => FRAMES[(number + place) % 4],
            _ => FRAMES[(number + 4 - place) % 4],
        };
        let source = |place: usize| ([1, 2, 31][place], levels[place], frame(place));
        let sources = [0, 1, 2].map(source);
        small(&sources, frame(3), 0x5B * number as u32).is_met(&[]);
    }
}

/// Frames that are the same, or nothing.
#[test]
fn ties_and_noughts() {
    for mark in [0, 5, 6] {
        for frames in [[0, 0, 0], [5, 5, 0], [5, 0, 5], [6, 5, 5]] {
            let sources = [(1, 5, frames[0]), (2, 5, frames[1]), (31, 0, frames[2])];
            small(&sources, mark, 0).is_met(&[]);
        }
    }
}

/// Source 0 and a forced source have the largest frames and move as they like; only the third source counts.
#[test]
fn fast_sources_never_count() {
    for mark in [FRAMES[0], FRAMES[2]] {
        let sources = [(0, 7, 50_000), (9, 6, 40_000), (12, 2, FRAMES[1])];
        let mut small = small(&sources, mark, 0x3F);
        small.table.forced |= 1 << 9;
        small.is_met(&[]);
        assert!(small.figure() < 40_000);
    }
}

/// What a run may not do: after a mode write two sources of one level are both open, and after a forcing write a
/// forced one is.
#[test]
fn with_rewrites_more_is_open_than_the_figure() {
    let small = small(&[(4, 2, FRAMES[3]), (5, 2, FRAMES[2])], 0, 0);
    let mut aic = set_up(&small.table, 0);
    start(&mut aic, 4);
    put(&mut aic, write(4 * 5, 3));
    start(&mut aic, 5);
    assert_eq!(open_bytes(&small.table, &aic), small.figure() + FRAMES[2]);
    let mut table = small.table.clone();
    (table.forced, table.rows[5].priority) = (!(1 << 4), 3);
    let mut aic = set_up(&table, 0);
    start(&mut aic, 4);
    put(&mut aic, write(FFDR, 1 << 5));
    start(&mut aic, 5);
    let open = open_bytes(&table, &aic);
    assert_eq!(Ok(open), table.bytes().map(|bytes| bytes + FRAMES[2]));
}

/// The normal source of a level with the largest frame, if that is larger than the mark's.
fn best_of(table: &Table, level: u32) -> Option<usize> {
    let sources = (0..SOURCES).filter(|&n| table.is_normal(n) && table.rows[n].priority == level);
    let best = sources.max_by_key(|&n| table.rows[n].frame)?;
    (table.rows[best].frame > table.mark).then_some(best)
}

/// Level by level upwards: a source that beats the mark is made pending alone and started, else a mark is opened.
fn reach(table: &Table, external: u32) -> Aic {
    let mut aic = set_up(table, external);
    for level in 0..LEVELS {
        match best_of(table, level) {
            Some(source) => start(&mut aic, source),
            None => put(&mut aic, IVR),
        }
    }
    aic
}

#[test]
fn a_run_for_any_table_ends_with_its_figure() {
    let random = &mut Random::new(8);
    for _ in 0..2_000 {
        let table = any_table(random);
        let aic = reach(&table, random.word());
        assert_eq!(aic.entries().len(), ENTRIES);
        assert_eq!(Ok(open_bytes(&table, &aic)), table.bytes());
    }
}

/// The board of the examples: eight handlers and no mark, 2,256 bytes.
#[test]
fn the_board_has_eight_handlers_open_at_once() {
    let text = include_bytes!("../../examples/stack-board.table");
    let table = text::table(text).expect("it is a table");
    let aic = reach(&table, 0xC000_0000);
    let sources = aic.entries().iter().map(|entry| entry.source);
    let expected = [10, 2, 4, 5, 8, 7, 11, 1].map(Some);
    assert!(sources.eq(expected), "{:?}", aic.entries());
    assert_eq!(open_bytes(&table, &aic), 2_256);
}

/// Makes a source pending, by command or, where it goes by level, by its line; reads IVR, and disables it again.
fn start(aic: &mut Aic, source: usize) {
    put(aic, write(ENABLE, 1 << source));
    put(aic, write(SET, 1 << source));
    if !aic.sources()[source].pending() {
        let level = u32::from(!aic.sources()[source].line);
        let line = source as u32;
        put(aic, Step::Line { line, level });
    }
    put(aic, IVR);
    put(aic, write(DISABLE, 1 << source));
}

/// Any steps but mode and forcing writes, on tables of every size: the open frames never add up to more.
#[test]
fn no_run_has_more_open_than_the_figure() {
    let random = &mut Random::new(9);
    let mut full = 0;
    for _ in 0..400 {
        let table = any_table(random);
        let figure = table.bytes().expect("the table is within its limits");
        let mut aic = set_up(&table, random.word());
        for _ in 0..400 {
            let step = any_step(random);
            // Refused or not, it is a step of a run.
            let _ = aic.step(step);
            assert!(open_bytes(&table, &aic) <= figure);
            full += usize::from(aic.entries().len() == ENTRIES);
        }
    }
    assert!(full > 1_000, "eight open in {full} records");
}

/// A step that is no mode or forcing write, or one that is refused.
fn any_step(random: &mut Random) -> Step {
    let source = random.below(32);
    match random.below(13) {
        0 | 1 => IVR,
        2 | 3 => WRITE_IVR,
        4 | 5 => EOICR,
        6 => FVR,
        7 => write(ENABLE, random.word()),
        8 => write(random.pick(&[DISABLE, SET, CLEAR]), 1 << source),
        9 => write(random.pick(&[0x134, 0x80, 4 * source + 1, FFER + 2]), 0),
        10 => write(DCR, random.below(4)),
        _ => Step::Line {
            line: source,
            level: random.below(2),
        },
    }
}
