//! That the figure of a table that is kept holds on generated traces, and that one that is not kept bounds nothing; what
//! keeps a table is worked in the text of bounds.

use bench::bounds::kept::Unkept;
use bench::bounds::Records;
use bench::model::aic::{Aic, SOURCES};
use bench::random::Random;
use bench::stack::{Row, Table};
use bench::trace::PROGRAM_LIMIT;
use bench::typed::encode;

use super::random;

/// What the open handlers and marks take.
fn open_bytes(table: &Table, aic: &Aic) -> u32 {
    let frame = |source: Option<u8>| match source {
        Some(source) => table.rows[usize::from(source)].frame,
        None => table.mark,
    };
    aic.entries().iter().map(|entry| frame(entry.source)).sum()
}

/// A mode that is written while its source is on: one record does not keep the table, and the figure is passed.
#[test]
fn a_table_that_is_not_kept_bounds_nothing() {
    let mut table = Table::default();
    table.rows[1] = Row {
        priority: 0,
        kind: 3,
        frame: 300,
    };
    let text = "aic 0 0\nwrite 4 0x60\nwrite 0x120 2\nline 1 1\nread 0x100
        write 4 0x61    # step 5
        write 0x12C 2
        read 0x100      # a second handler of source 1";
    let trace = encode(text.as_bytes()).expect("the text has the form");
    let records = Records::of(&trace, PROGRAM_LIMIT);
    assert_eq!(records.unkept(&table), Some(Unkept { step: 5, source: 1 }));
    assert_eq!(table.bytes(), Ok(300));
    let end = &records.aics[records.aics.len() - 1];
    assert_eq!(open_bytes(&table, end), 600);
}

/// The table that a trace ran with: of each source the numbers that it has where it is enabled first.
fn table_of(records: &Records, random: &mut Random) -> Table {
    let mut table = Table {
        mark: random.below(40),
        ..Table::default()
    };
    for source in 0..SOURCES {
        let enabled = |aic: &&Aic| aic.sources()[source].enabled;
        let Some(aic) = records.aics.iter().find(enabled) else {
            continue;
        };
        let now = &aic.sources()[source];
        table.rows[source] = Row {
            priority: u32::from(now.priority),
            kind: u32::from(now.kind),
            frame: random.below(200),
        };
        table.forced |= u32::from(now.forced) << source;
    }
    table
}

/// Whatever the trace writes, as long as it keeps the table the open frames are at most the figure.
#[test]
fn the_figure_of_a_table_that_is_kept_is_never_passed() {
    let (mut kept, mut met, mut broken, mut passed) = (0, 0, 0, 0);
    for (number, records) in random(6, 6_000) {
        let table = table_of(&records, &mut Random::for_item(6, number as u64));
        let figure = table.bytes().expect("its numbers are within their limits");
        let open = records.aics.iter().map(|aic| open_bytes(&table, aic));
        let most = open.max().unwrap_or(0);
        match records.unkept(&table) {
            None => {
                assert!(most <= figure, "case {number}");
                kept += 1;
                met += u32::from(most > 0 && most == figure);
            }
            Some(_) => {
                broken += 1;
                passed += u32::from(most > figure);
            }
        }
    }
    assert!(kept > 1_000 && broken > 1_000, "{kept} kept, {broken} not");
    assert!(met > 0 && passed > 0, "{met} met, {passed} passed");
}
