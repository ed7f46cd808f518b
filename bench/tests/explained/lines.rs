//! Every rule of a line, by hand.

use bench::explained::reader::{agrees, read};
use bench::explained::{explain, window, LONGEST_LINE};
use bench::listing::listing;
use bench::typed::encode;

use super::{asked, explained};

/// Explanations that were worked by hand, each behind an empty line; a title says what comes below it.
const WORKED: &str = include_str!("lines.txt");

#[test]
fn every_worked_explanation_is_told() {
    let blocks = WORKED.trim_end().split("\n\n");
    let worked: Vec<&str> = blocks.filter(|block| !block.starts_with('#')).collect();
    for text in &worked {
        assert_eq!(explained(text).trim_end(), *text);
    }
    assert_eq!(worked.len(), 28);
}

#[test]
fn every_ending() {
    let broken = "a number breaks off here, or has more than 32 bits or five bytes";
    let unknown = "no controller or step has this number";
    let endings: [(&[u8], u32, usize, String); 8] = [
        (&[], 9, 1, format!("# E 8 0: {broken}")),
        (&[0, 0, 0, 1, 0x80], 9, 2, format!("# E 8 4: {broken}")),
        (
            &[0, 0, 0, 1, 0, 1, 4],
            1,
            3,
            "# E 7 5: the limit of steps is reached, and bytes are left".to_owned(),
        ),
        (&[5], 9, 1, format!("# E 9 0: {unknown}")),
        (&[3, 4], 9, 2, format!("# E 9 1: {unknown}")),
        (
            &[1, 9],
            9,
            1,
            "# E 10 1: the controller cannot be configured so".to_owned(),
        ),
        (
            &[0; 65_537],
            9,
            1,
            "# E 11 65536: the trace has more than 65536 bytes".to_owned(),
        ),
        (
            &[3, 1, 0, 1],
            1,
            2,
            "read 0x000 1                # 1 REVISION (000, 4.5.1) = 0x00000000".to_owned(),
        ),
    ];
    for (trace, limit, count, last) in endings {
        let text = String::from_utf8(explain(trace, limit)).expect("it is plain text");
        assert_eq!(text.lines().last(), Some(last.as_str()));
        assert_eq!(text.lines().count(), count, "{last}");
    }
}

#[test]
fn a_window_is_those_lines_alone() {
    let text = "aic 0 0\nwrite 0x10 0x63\nwrite 0x14 0x65\nwrite 0x120 0x30\n";
    let mut trace = encode(text.as_bytes()).expect("it has the form");
    trace.push(9);
    let whole = String::from_utf8(explain(&trace, 9)).expect("it is plain text");
    let lines: Vec<&str> = whole.split_inclusive('\n').collect();
    assert_eq!(lines.len(), 5);
    for first in 0..6 {
        for steps in 1..6 {
            let last = (first + steps).min(4) as usize;
            let from = (first.max(1) as usize).min(last);
            let wanted = lines[from..last].concat();
            let part = window(&trace, 9, first, steps);
            assert_eq!(String::from_utf8_lossy(&part), wanted, "{first} {steps}");
        }
    }
    assert!(window(&[9], 9, 1, 5).is_empty());
    assert_eq!(window(&trace, 9, u32::MAX, u32::MAX), b"");
    assert_eq!(window(&trace, 2, 2, 5), lines[2].as_bytes());
}

#[test]
fn an_explanation_tells_the_listing_and_is_encoded_to_itself() {
    let mut longest = 0;
    for asked in asked(3_000) {
        let (trace, limit) = (&asked.case.trace, asked.case.limit);
        let text = explain(trace, limit);
        agrees(&text, &listing(trace, limit)).expect("it tells the listing");
        let lines = text.split_inclusive(|&byte| byte == b'\n');
        longest = longest.max(lines.map(<[u8]>::len).max().unwrap_or(0));
        let read = read(&text).expect("it can be read");
        if read.controller.is_none() {
            assert!(encode(&text).is_err());
            continue;
        }
        let again = encode(&text).expect("its statements have the form");
        let mut same = explain(&again, limit);
        if let Some((refusal, offset, words)) = read.end {
            same.extend(format!("# E {refusal} {offset}: {words}\n").bytes());
        }
        assert!(same == text, "{:02X?}", &trace[..trace.len().min(80)]);
    }
    assert!(longest <= LONGEST_LINE, "{longest}");
}

/// The widest of everything: the longest statements, names, lists, deeds and outputs, in a step of five digits.
#[test]
fn no_line_is_too_long() {
    let reads = "read 0 1\n".repeat(9_999);
    let routes = "write 0x2FC 1 0x1FC\nwrite 0x2F8 1 0x1FD\n";
    let banks = "write 0xF0 1 0xFFFFFFFF\nwrite 0xE4 1 0xFFFFFFFF\nwrite 0xE8 1 0xFFFFFFFF\n";
    let aintc = ["aintc\n", &reads, routes, banks].concat();
    let told = explained(&aintc);
    let line = told.lines().last().unwrap_or("");
    assert_eq!(
        line,
        "write 0x0E8 1 0xFFFFFFFF    # 10004 MIR_CLEAR3 (000, 4.5.14); inputs 96, 97, 98, 99, 100, 101, 102, 103 and 24 more; chooses input 125 for IRQ; chooses input 126 for FIQ; IRQ active; FIQ active"
    );
    assert!(line.len() < LONGEST_LINE);
}
