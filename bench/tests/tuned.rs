//! The tuned player against the model: every byte of a listing and all that a play comes to.

use bench::compare::{compare, expected, first_difference, written, Subject};
use bench::generate::{Case, Generator};
use bench::listing::listing;
use bench::trace::{LONGEST, PROGRAM_LIMIT};
use bench::tuned::{list, play};
use bench::typed::encode;
use bench::workload::{busy, polls, workloads};

/// A case with ample room.
fn case(trace: Vec<u8>, limit: u32) -> Case {
    Case {
        name: "test",
        trace,
        limit,
        room: None,
    }
}

/// The listing and the play of a case are those of the model.
fn is_the_models(case: &Case) {
    let text = case.by_tuned().expect("the play is the model's");
    assert_eq!(first_difference(&expected(case), &text), None);
}

/// All sweeps, and tours, damaged ones, noise and long ones, with limits and rooms that vary.
#[test]
fn it_lists_and_plays_as_the_model_does() {
    let generator = Generator::new(17);
    let cases = generator.cases(0..generator.sweeps() + 4_000);
    let summary = compare(cases, Case::by_tuned);
    if let Some((number, case)) = summary.first {
        panic!("case {number} differs: {:?}", case.by_tuned());
    }
}

#[test]
fn it_does_so_on_what_is_timed() {
    let timed = workloads(2_000).into_iter().chain(workloads(PROGRAM_LIMIT));
    for workload in timed.chain(busy()).chain(polls(PROGRAM_LIMIT)) {
        is_the_models(&case(workload.trace, PROGRAM_LIMIT));
    }
}

/// The beginning of a trace of each kind.
const KINDS: [&str; 5] = [
    "aic 1 2",
    "coreinterrupt 8 32 0 1",
    "cic 1024 256 256 7",
    "aintc",
    "indexed 1024 256 256 7 1",
];

/// The trace of a kind: a step of each sort, one that is refused, and then some more, told by offset and value; without a
/// value it is a read.
fn trace_of(kind: usize, more: &[(u32, Option<u32>)]) -> Vec<u8> {
    let by = if KINDS[kind] == "aintc" { " 1" } else { "" };
    let mut text = format!(
        "{}\nread 0{by}\nline 3 1\nwrite 16{by} 4294967295\nread 2{by}\n",
        KINDS[kind]
    );
    for (offset, value) in more {
        text += &match value {
            Some(value) => format!("write {offset}{by} {value}\n"),
            None => format!("read {offset}{by}\n"),
        };
    }
    encode(text.as_bytes()).expect("the text has the form")
}

#[test]
fn what_finds_no_room_is_dropped() {
    for kind in 0..KINDS.len() {
        let mut trace = trace_of(kind, &[]);
        trace.push(9);
        let whole = listing(&trace, 9);
        for room in 0..whole.len() + 60 {
            let text = written(room, |buffer| list(&trace, 9, buffer));
            assert_eq!(text, Ok(whole[..room.min(whole.len())].to_vec()));
        }
    }
}

#[test]
fn every_number_of_a_step_is_counted() {
    let mut trace = vec![1, 0, 0, 0, 0];
    trace.extend([1, 0].repeat((LONGEST - trace.len()) / 2));
    for limit in [0, 9, 10, 99, 100, 9_999, 10_000, u32::MAX] {
        is_the_models(&case(trace.clone(), limit));
    }
    trace.extend([0; 2]);
    is_the_models(&case(trace, u32::MAX));
}

/// The figures made from all state after some traces of a kind are all different.
fn tells_apart(kind: usize, traces: &[&[(u32, Option<u32>)]]) {
    let states = traces
        .iter()
        .map(|more| play(&trace_of(kind, more), 99).state);
    let mut states: Vec<_> = states.collect();
    states.sort_unstable();
    states.dedup();
    assert_eq!(states.len(), traces.len(), "{}", KINDS[kind]);
}

/// The figure that is made from all state tells states apart, so that no part of a play can be left out.
#[test]
fn the_state_is_in_the_figure() {
    let changes = [
        "4=99 132=1 288=2 308=5 312=1 312=2 312=3 320=4",
        "0=1 8=2 24=4 32=8",
        "512=1 768=2 1024=3 2048=4 5376=5 52=9",
        "0=1 76=1 80=2 104=3 132=4 144=5 256=4",
        "4=0 512=1 768=2 1024=3 2048=4",
    ];
    for (kind, changes) in changes.iter().enumerate() {
        let number = |word: &str| word.parse().expect("it is a number");
        let writes = changes
            .split(' ')
            .filter_map(|change| change.split_once('='));
        let writes = writes.map(|(offset, value)| [(number(offset), Some(number(value)))]);
        let writes: Vec<_> = writes.collect();
        let mut traces: Vec<&[_]> = vec![&[]];
        traces.extend(writes.iter().map(|write| &write[..]));
        tells_apart(kind, &traces);
    }
}

/// What an index holds is told apart by which index it is and by its word; once system 3 is disabled nothing else tells of
/// it.
#[test]
fn what_is_held_is_in_the_figure() {
    let (enable, disable) = ((0x028, Some(3)), (0x02C, Some(3)));
    let [global, zero, one] = [0x080, 0x900, 0x904].map(|index| (index, None));
    tells_apart(
        4,
        &[
            &[enable, disable],
            &[enable, global, disable],
            &[enable, zero, disable],
            &[enable, one, disable],
            &[enable, global, zero, disable],
            &[enable, disable, global, disable],
            &[enable, disable, zero, disable],
        ],
    );
}
