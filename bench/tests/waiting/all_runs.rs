//! Waiting over all runs of two to four sources, some with entries open from before: the right sides are met and never
//! passed, a source that is not ahead starts only if it was remembered, and each part of the right sides is needed.

use std::collections::BTreeMap;

use bench::model::aic::Source;

use super::*;

/// What an exhaustive search counts as owed at the outset and as gained by a step, and which closes it leaves out.
#[derive(Clone, Copy)]
struct Count {
    owed: fn(&Seen) -> u32,
    turns: bool,
    premise: bool,
}

const LEVELS: Count = Count {
    owed: |seen| seen.pending,
    turns: true,
    premise: true,
};
const NORMAL: Count = Count {
    owed: |seen| seen.due,
    ..LEVELS
};

/// A small board: its first records, some with entries open from before, and all steps that rewrite nothing.
struct Board {
    first: Vec<Aic>,
    steps: Vec<Step>,
    /// The most entries that are followed.
    entries: usize,
}

/// The records after each of some preludes on a board of some modes.
fn after_each(modes: &[(u32, u32)], preludes: &[&[Step]]) -> Vec<Aic> {
    let after = |prelude: &&[Step]| {
        let mut aic = Aic::new(0, 0);
        let modes = modes.iter().map(|&(source, mode)| write(4 * source, mode));
        modes.for_each(|step| put(&mut aic, step));
        put(&mut aic, write(ENABLE, u32::MAX));
        prelude.iter().for_each(|&step| put(&mut aic, step));
        aic
    };
    preludes.iter().map(after).collect()
}

fn steps_on(levels: &[u32], edges: &[u32]) -> Vec<Step> {
    let mut steps = vec![IVR, WRITE_IVR, EOICR, write(DCR, 0), write(DCR, 1)];
    steps.extend(levels.iter().flat_map(|&n| [line(n, 0), line(n, 1)]));
    steps.extend(
        edges
            .iter()
            .flat_map(|&n| [write(SET, 1 << n), write(CLEAR, 1 << n)]),
    );
    steps
}

/// A name for a record of a board, and the extra.
fn name(aic: &Aic, extra: Option<usize>) -> String {
    let word = |property: fn(&Source) -> bool| those(|n| property(&aic.sources()[n]));
    let (lines, memories) = (word(|source| source.line), word(|source| source.memory));
    let (entries, remembered) = (aic.entries(), aic.remembered());
    let mode = aic.protected();
    format!("{lines:x} {memories:x} {entries:?} {remembered:?} {mode} {extra:?}")
}

/// All records that the steps of a board lead to.
fn records(board: &Board) -> BTreeMap<String, Aic> {
    let (mut records, mut open) = (BTreeMap::new(), board.first.clone());
    while let Some(aic) = open.pop() {
        if aic.entries().len() > board.entries || records.contains_key(&name(&aic, None)) {
            continue;
        }
        for &step in &board.steps {
            let mut next = aic.clone();
            put(&mut next, step);
            open.push(next);
        }
        records.insert(name(&aic, None), aic);
    }
    records
}

/// The largest excess of the starts of others over what accounts for them, without the extra and with it, in all
/// windows of source 3 on a board; a search that finds more than 1 ends there. Also how many records, outsets and
/// nodes.
fn largest_excess(board: &Board, counted: Count) -> ([i32; 2], [usize; 3]) {
    let room = |aic: &Aic| aic.entries().len() <= board.entries;
    let records = records(board);
    let mut most: BTreeMap<String, i32> = BTreeMap::new();
    let mut open: Vec<(Aic, Option<usize>, i32)> = Vec::new();
    for aic in records.values().filter(|aic| waits(aic, 3)) {
        let (seen, modes) = (Seen::of(aic), Modes::of(aic));
        let owed = count((counted.owed)(&seen) & modes.ahead[3] & !modes.fast);
        open.push((aic.clone(), seen.extra(3), -owed));
    }
    let (outsets, mut largest) = (open.len(), [i32::MIN; 2]);
    while let Some((aic, extra, excess)) = open.pop() {
        let place = most.entry(name(&aic, extra)).or_insert(i32::MIN);
        if excess <= *place {
            continue;
        }
        *place = excess;
        let place = &mut largest[usize::from(extra.is_some())];
        *place = excess.max(*place);
        if excess > 1 {
            break;
        }
        let ahead = Modes::of(&aic).ahead[3];
        for &step in &board.steps {
            let mut next = aic.clone();
            put(&mut next, step);
            let happened = Happened::of(&aic, &next, step);
            let hot = counted.premise && happened.hot & ahead != 0;
            if hot || !room(&next) || !waits(&next, 3) {
                continue;
            }
            let turned = if counted.turns { happened.turned } else { 0 };
            let started = happened.started.filter(|&other| other != 3);
            assert!(started.is_none_or(|other| has(ahead, other) || started == extra));
            let change = i32::from(started.is_some()) - count((happened.received | turned) & ahead);
            open.push((next, extra, excess + change));
        }
    }
    (largest, [records.len(), outsets, most.len()])
}

/// IVR is read while a level-sensitive source asks at a priority, which then has its own mode again.
fn read_at(priority: u32, source: u32, mode: u32) -> [Step; 4] {
    [
        write(4 * source, HIGH_LEVEL | priority),
        line(source, 1),
        IVR,
        write(4 * source, mode),
    ]
}

/// Two sources: 5 is level-sensitive and ahead of 3. At first nothing is open, or a handler of 5 at a level below its
/// priority or above it, or a mark and such a handler, or 5 is remembered at another level.
fn two_sources() -> Board {
    let read = |priority: u32| read_at(priority, 5, HIGH_LEVEL | 5);
    let look = |priority: u32| [&[write(DCR, 1)], &read(priority)[..]].concat();
    let marked: &[Step] = &[IVR, line(5, 1), IVR, IVR];
    let modes = [(3, RISING_EDGE | 4), (5, HIGH_LEVEL | 5)];
    Board {
        first: after_each(
            &modes,
            &[&[], &read(1), &read(7), marked, &look(1), &look(7)],
        ),
        steps: steps_on(&[5], &[3]),
        entries: 4,
    }
}

/// Three sources: 5 level-sensitive and 6 edge-triggered, or both level-sensitive, or 20 level-sensitive and behind; at
/// first nothing is open, or a handler of 5 below its priority.
fn three_sources(modes: [(u32, u32); 3]) -> Board {
    let (second, mode) = modes[1];
    let of = |kind: u32| {
        let those = modes.iter().filter(move |(_, mode)| mode & !7 == kind);
        those.map(|&(source, _)| source).collect::<Vec<_>>()
    };
    Board {
        first: after_each(&modes, &[&[], &read_at(1, second, mode)]),
        steps: steps_on(&of(HIGH_LEVEL), &of(RISING_EDGE)),
        entries: 3,
    }
}

/// Four sources by edge: 5 and 6 are ahead of 3, and 20 is behind.
fn four_edges() -> Board {
    let modes = [(3, 4), (5, 5), (6, 6), (20, 1)];
    let modes = modes.map(|(source, priority)| (source, RISING_EDGE | priority));
    Board {
        first: after_each(&modes, &[&[write(DCR, 1)]]),
        steps: steps_on(&[], &modes.map(|(source, _)| source)),
        entries: 3,
    }
}

fn boards() -> Vec<(&'static str, Board)> {
    let k = (3, RISING_EDGE | 4);
    vec![
        ("edges alone", four_edges()),
        ("a level ahead", two_sources()),
        (
            "a level and an edge ahead",
            three_sources([k, (5, HIGH_LEVEL | 5), (6, RISING_EDGE | 6)]),
        ),
        (
            "two levels ahead",
            three_sources([k, (5, HIGH_LEVEL | 5), (6, HIGH_LEVEL | 6)]),
        ),
        (
            "an equal level ahead",
            three_sources([k, (2, HIGH_LEVEL | 4), (6, RISING_EDGE | 6)]),
        ),
        (
            "a level ahead and one behind",
            three_sources([k, (5, HIGH_LEVEL | 5), (20, HIGH_LEVEL | 1)]),
        ),
    ]
}

#[test]
fn over_all_runs_of_few_sources_the_excess_is_the_extra() {
    for (what, board) in boards() {
        for counted in [LEVELS, NORMAL] {
            let (largest, sizes) = largest_excess(&board, counted);
            println!("{what}: largest excess {largest:?}; records, outsets, nodes {sizes:?}");
            assert_eq!(largest, [0, 1], "{what}");
        }
    }
}

/// Each right side less one of its parts is broken on the smallest board.
#[test]
fn over_all_runs_of_two_sources_each_part_is_needed() {
    let [mut no_premise, mut no_turns] = [[NORMAL, LEVELS]; 2];
    no_premise
        .iter_mut()
        .for_each(|count| count.premise = false);
    no_turns.iter_mut().for_each(|count| count.turns = false);
    let owed = |seen: &Seen| seen.due_by_any;
    let by_any = Count { owed, ..NORMAL };
    let less = [
        ("the premise", no_premise[0]),
        ("the premise of the first", no_premise[1]),
        ("the turns", no_turns[0]),
        ("the turns of the first", no_turns[1]),
        ("the level of the handler", by_any),
    ];
    for (what, counted) in less {
        let (largest, sizes) = largest_excess(&two_sources(), counted);
        println!("without {what}: {largest:?}; records, outsets, nodes {sizes:?}");
        let broken = largest[0] > 0 || largest[1] > 1;
        assert!(broken, "without {what} it holds: {largest:?}");
    }
}
