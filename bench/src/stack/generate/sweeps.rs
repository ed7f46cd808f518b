//! Typed tables that visit everything once and on purpose: every way to a level's frame, every limit, slip and form.

use super::parts;
use super::sheet::{Form, Sheet};
use crate::model::aic::SOURCES;
use crate::stack::text::NUMBERS;
use crate::stack::{Row, Table, LEVELS, MOST_FRAME};
use crate::trace::LONGEST;

/// All sweeps, the same in every run.
pub fn all() -> Vec<Vec<u8>> {
    let mut texts: Vec<Vec<u8>> = [b"".as_slice(), b" \t\r\n", b"# no table\n\n#"]
        .map(<[u8]>::to_vec)
        .into();
    let mut tables = figures();
    tables.extend(ways());
    tables.extend(fast_ones());
    tables.extend(limits());
    texts.extend(tables.iter().map(|table| typed(table, |_| ())));
    texts.extend(forms());
    texts.extend(layouts());
    texts.extend(slips());
    texts.extend(names());
    texts.extend(lengths());
    texts
}

/// The text of a table that is typed otherwise.
fn typed(table: &Table, change: impl FnOnce(&mut Sheet)) -> Vec<u8> {
    let mut sheet = Sheet::plain(table);
    change(&mut sheet);
    sheet.text()
}

/// Source n at level n modulo 8, with frames that differ from source to source; the last eight sources are forced.
fn board() -> Table {
    let row = |source: usize| Row {
        priority: source as u32 % LEVELS,
        kind: source as u32 % 4,
        frame: 0x0ABC + 0x0101 * source as u32,
    };
    Table {
        rows: std::array::from_fn(row),
        forced: 0xFF00_0000,
        mark: 0x00EF,
    }
}

/// Figures of every number of digits, the smallest and the largest.
fn figures() -> Vec<Table> {
    let marks = [0, 1, 2, 12, 13, 124, 125, 1_249, 1_250, 12_500, 65_535];
    let marks_alone = |mark| Table {
        forced: u32::MAX,
        mark,
        ..Table::default()
    };
    let mut tables: Vec<Table> = marks.map(marks_alone).into();
    tables.push(Table::default());
    tables.push(board());
    tables
}

/// For each level each way in which its frame comes about, five tables in which the ways go round.
fn ways() -> Vec<Table> {
    let of_round = |round: u32| {
        let mut table = Table {
            forced: 0,
            mark: 500,
            ..Table::default()
        };
        for level in 0..LEVELS {
            // Its sources are 1, 2 and 3 more than three times the level; what is left is forced.
            let first = 1 + 3 * level as usize;
            let frames: [u32; 3] = match (level + round) % 5 {
                0 => [400, 300, 499],
                1 => [400, 500, 300],
                2 => [501 + level, 300, 500],
                3 => [400, 600 + level, 600 + level],
                _ => {
                    table.forced |= 7 << first;
                    [900, 900, 900]
                }
            };
            for (source, frame) in (first..).zip(frames) {
                (table.rows[source].priority, table.rows[source].frame) = (level, frame);
            }
        }
        table.forced |= 0xFE00_0000 | (round & 1);
        table
    };
    (0..5).map(of_round).collect()
}

/// At each level source 0 or a forced source with the largest frame of all, which does not count.
fn fast_ones() -> Vec<Table> {
    let mut tables = Vec::new();
    for level in 0..LEVELS {
        for source in [0, 24 + level as usize] {
            let mut table = board();
            table.rows[source].priority = level;
            table.rows[source].frame = MOST_FRAME;
            tables.push(table);
        }
    }
    tables
}

/// Each sort of number of source 0, of a forced and of a normal source, and the mark's: at its limit, one beyond it,
/// and so far beyond that its low bits are within.
fn limits() -> Vec<Table> {
    let mut tables = Vec::new();
    for source in [0, 31, 13] {
        for (number, limit) in Row::LIMITS {
            for value in [limit, limit + 1, 1 << 31, u32::MAX] {
                let mut table = board();
                *number(&mut table.rows[source]) = value;
                tables.push(table);
            }
        }
    }
    for mark in [65_535, 65_536, 0x8000_0001, u32::MAX] {
        tables.push(Table { mark, ..board() });
    }
    tables
}

/// All numbers in each form, with letters among their hexadecimal digits and without; the forced word at its most.
fn forms() -> Vec<Vec<u8>> {
    let with = |forced, mark| Table {
        forced,
        mark,
        ..board()
    };
    let letters = with(0xFEDC_BA98, board().mark);
    let mut digits = with(0x1234_5678, 0x0009);
    for (source, row) in (0..).zip(&mut digits.rows) {
        row.frame = 0x1000 + 0x0111 * (source % 9);
    }
    let most = with(u32::MAX, board().mark);
    let all = |sheet: &mut Sheet, form| (0..NUMBERS).for_each(|nth| sheet.retype(nth, form));
    let in_forms = |table| Form::ALL.map(|form| typed(&table, |sheet| all(sheet, form)));
    [letters, digits, most].map(in_forms).concat()
}

/// The same white space or comment between all numbers, and each way to begin and to end.
fn layouts() -> Vec<Vec<u8>> {
    let gaps = b" >\t>\r>\n>\r\n> \t\t  \n\n\r\r >#note\n> # note\r\n>\n# 1 2 3 # 0x4\r5\n\
        >#\x00\x7F\x80\xFF\n";
    let mut texts = Vec::new();
    for gap in parts(gaps) {
        let between = |nths: std::ops::Range<usize>| {
            typed(&board(), |sheet| nths.for_each(|nth| sheet.gap(nth, gap)))
        };
        texts.extend([between(1..NUMBERS), between(0..NUMBERS + 1)]);
    }
    let ends = parts(b">#> # end>\n#").into_iter();
    texts.extend(ends.map(|end| typed(&board(), |sheet| sheet.gap(NUMBERS, end))));
    texts
}

/// Each slip of each sort of number, at the first source and at the last, and more digits than 32 or 64 bits hold; a
/// number too many; and slips that come before another one or before a number beyond its limit.
fn slips() -> Vec<Vec<u8>> {
    let last = 3 * (SOURCES - 1);
    let words = parts(
        b"0x>0X7>O>7.>4294967296>0x100000000>18446744073709551616>0x10000000000000000\
        >100000000000000000000000000000000000000000000000000000000000000000",
    );
    let put = |nth, word| typed(&board(), |sheet| sheet.put(nth, word));
    let mut texts = Vec::new();
    for nth in [0, 1, 2, last, last + 1, last + 2, last + 3, last + 4] {
        texts.push(typed(&board(), |sheet| sheet.cut(nth)));
        texts.extend(words.iter().map(|word| put(nth, word)));
    }
    texts.extend(parts(b"0>x>0x").iter().map(|word| put(NUMBERS, word)));
    let mark = 65_536;
    for (first, second) in [(0, NUMBERS - 1), (40, 41), (97, NUMBERS)] {
        let two = |table, nth, word| {
            typed(&table, |sheet| {
                sheet.put(nth, word);
                sheet.put(second, b"0x");
            })
        };
        texts.push(two(board(), first, b"-1"));
        texts.push(two(Table { mark, ..board() }, 0, b"8"));
    }
    texts
}

/// A name behind each number, the shortest and the longest, each byte in one, and what is no name.
fn names() -> Vec<Vec<u8>> {
    let with =
        |nth, name: &[u8], parted: &[u8]| typed(&board(), |sheet| sheet.name(nth, name, parted));
    let mut texts: Vec<Vec<u8>> = (0..=NUMBERS).map(|nth| with(nth, b"name", b" ")).collect();
    texts.extend((0..=u8::MAX).map(|byte| with(6, &[b'a', byte], b" ")));
    texts.extend([0, 1, 24, 25].map(|length| with(3, &vec![b'x'; length], b"#\n")));
    texts.push(with(9, b"glued", b""));
    texts.push(with(9, b"first\" \"second", b" "));
    texts.push(with(9, b"first\"\"second", b" "));
    texts.push(with(96, b"first\" \"second", b" "));
    texts.push(with(9, b"a # b", b"\n# \"\n"));
    let all = |sheet: &mut Sheet| {
        (0..SOURCES).for_each(|source| sheet.name(3 * source + 3, b"source", b"\t"));
    };
    texts.push(typed(&board(), all));
    texts.push(typed(&board(), |sheet| sheet.gap(6, b" \"open\n")));
    texts
}

/// The longest text and its neighbours, good and bad, and much longer ones.
fn lengths() -> Vec<Vec<u8>> {
    let good = Sheet::plain(&board());
    let mut bad = good.clone();
    bad.put(50, b"?");
    let mut short = good.clone();
    short.cut(NUMBERS - 1);
    let mut texts = Vec::new();
    for length in [LONGEST - 1, LONGEST, LONGEST + 1, LONGEST + 4_000] {
        texts.extend([&good, &bad, &short].map(|sheet| sheet.of_length(length)));
    }
    texts
}
