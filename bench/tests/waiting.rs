//! How long a source of the AIC waits (02, demand 3; 02, 12/12, its fourth sentence): the three right sides beside the
//! starts, in every window of random runs, and in windows that are worked by hand; over all runs of few sources they are in
//! all_runs.rs.
//!
//! A window is an outset and a source k that waits from it on, up to where the wait ends; each of its beginnings is
//! looked at. What a source gains: an edge-triggered one its edges and set commands, a level-sensitive one the turns of
//! its line from inactive to active. A close is hot if it closes a handler of a level-sensitive source whose line is
//! active. With no hot close of a source ahead, the starts of other sources are at most
//!
//! - the sources ahead pending at the outset, what they gain, and one if another source was remembered (`levels`);
//! - the same of those that are not fast alone, of which a level-sensitive one counts as pending only if no handler of
//!   it is open at its priority or above (`normal`); only their closes must not be hot.
//!
//! And a source that is not fast, with no hot close of its own, starts no more than it is due at the outset and gains,
//! and one more if it was the one remembered (`alone`), be somebody waiting or not.
//!
//! Behind edge-triggered sources alone no close is hot, and what is gained is what is received. Whatever is ahead, a source
//! that is not starts in a wait only if it was remembered at the outset.

#[path = "waiting/all_runs.rs"]
mod all_runs;

use bench::generate::aic::{CLEAR, DCR, DISABLE, ENABLE, FFDR, FFER, HIGH_LEVEL, RISING_EDGE, SET};
use bench::model::aic::{Aic, Selection, Trigger, SOURCES};
use bench::model::{Controller, Step};
use bench::random::Random;

const IVR: Step = Step::Read { offset: 0x100 };
const WRITE_IVR: Step = write(0x100, 0);
const EOICR: Step = write(0x130, 0);

const fn write(offset: u32, value: u32) -> Step {
    Step::Write { offset, value }
}

fn put(aic: &mut Aic, step: Step) {
    aic.step(step).expect("the step is carried out");
}

/// Pending, enabled and normal.
fn waits(aic: &Aic, source: usize) -> bool {
    source != 0 && aic.normal_request(source)
}

fn has(word: u32, source: usize) -> bool {
    word >> source & 1 == 1
}

/// The source that is remembered, if one is.
fn remembered(aic: &Aic) -> Option<usize> {
    match aic.remembered() {
        Some(Selection::Source { number, .. }) => Some(usize::from(number)),
        _ => None,
    }
}

/// The source whose handler a step has started.
fn started(before: &Aic, after: &Aic) -> Option<usize> {
    let opened = after.entries().get(before.entries().len())?;
    opened.source.map(usize::from)
}

/// Whether a source receives an edge or a set command by a step.
fn receives(before: &Aic, step: Step, n: usize) -> bool {
    let source = &before.sources()[n];
    match step {
        Step::Write { offset: SET, value } => has(value, n) && source.edge_triggered(),
        Step::Line { line, level } if line as usize == n => match source.trigger() {
            Trigger::RisingEdge => !source.line && level == 1,
            Trigger::FallingEdge => source.line && level == 0,
            _ => false,
        },
        _ => false,
    }
}

/// Whether its line turns active by a step, of a level-sensitive source.
fn turns(before: &Aic, step: Step, n: usize) -> bool {
    let source = &before.sources()[n];
    match step {
        Step::Line { line, level } if line as usize == n => match source.trigger() {
            Trigger::HighLevel => !source.line && level == 1,
            Trigger::LowLevel => source.line && level == 0,
            _ => false,
        },
        _ => false,
    }
}

/// A rewrite of a mode or the forcing.
fn rewrites(step: Step) -> bool {
    matches!(
        step,
        Step::Write {
            offset: 0..=0x7C | FFER | FFDR,
            ..
        }
    )
}

/// A type of the mode: level-sensitive, high for an internal source and low for an external one.
const LEVEL: u32 = 0;
/// An edge, rising for an internal source and falling for an external one.
const EDGE: u32 = 1 << 5;

fn line(line: u32, level: u32) -> Step {
    Step::Line { line, level }
}

fn bits(word: u32) -> impl Iterator<Item = usize> {
    (0..SOURCES).filter(move |&n| has(word, n))
}

fn count(word: u32) -> i32 {
    word.count_ones() as i32
}

/// The sources that have a property, as a word.
fn those(property: impl Fn(usize) -> bool) -> u32 {
    let found = (0..SOURCES).filter(|&n| property(n));
    found.fold(0, |word, n| word | 1 << n)
}

/// A level-sensitive source whose line is active.
fn active_level(aic: &Aic, n: usize) -> bool {
    let source = &aic.sources()[n];
    !source.edge_triggered() && source.pending()
}

/// What no step of a run moves that rewrites no mode and no forcing.
struct Modes {
    edge: u32,
    fast: u32,
    /// For each source those ahead of it, fast or not.
    ahead: [u32; SOURCES],
}

impl Modes {
    fn of(aic: &Aic) -> Modes {
        let place = |n: usize| (7 - aic.sources()[n].priority, n);
        Modes {
            edge: those(|n| aic.sources()[n].edge_triggered()),
            fast: those(|n| aic.fast(n)),
            ahead: std::array::from_fn(|k| those(|n| place(n) < place(k))),
        }
    }
}

/// What a record shows.
#[derive(Clone, Copy)]
struct Seen {
    waiting: u32,
    pending: u32,
    /// Edge-triggered and remembered, or level-sensitive and active with no handler open at its priority or above.
    due: u32,
    /// The same with any handler of it taken for one at its priority or above.
    due_by_any: u32,
    remembered: Option<usize>,
}

impl Seen {
    fn of(aic: &Aic) -> Seen {
        let open = |n: usize, least: u8| {
            let entries = aic.entries().iter();
            let mut own = entries.filter(|entry| entry.source.map(usize::from) == Some(n));
            own.any(|entry| entry.level >= Some(least))
        };
        let due = |n: usize, least: u8| {
            let source = &aic.sources()[n];
            source.pending() && (source.edge_triggered() || !open(n, least))
        };
        Seen {
            waiting: those(|n| waits(aic, n)),
            pending: those(|n| aic.sources()[n].pending()),
            due: those(|n| due(n, aic.sources()[n].priority)),
            due_by_any: those(|n| due(n, 0)),
            remembered: remembered(aic),
        }
    }

    /// The source that is remembered, if it is another one than the waiting one.
    fn extra(&self, waiting: usize) -> Option<usize> {
        self.remembered.filter(|&other| other != waiting)
    }
}

/// What a step did.
#[derive(Clone, Copy)]
struct Happened {
    started: Option<usize>,
    /// The sources that received an edge or a set command.
    received: u32,
    /// The level-sensitive sources whose line turned active.
    turned: u32,
    /// The level-sensitive source of which a handler was closed while its line was active.
    hot: u32,
}

impl Happened {
    fn of(before: &Aic, after: &Aic, step: Step) -> Happened {
        let closed = match before.entries().last() {
            Some(entry) if step == EOICR => entry.source.map(usize::from),
            _ => None,
        };
        let hot = closed.filter(|&n| active_level(before, n));
        Happened {
            started: started(before, after),
            received: those(|n| receives(before, step, n)),
            turned: those(|n| turns(before, step, n)),
            hot: hot.map_or(0, |n| 1 << n),
        }
    }

    fn gained(&self, word: u32) -> i32 {
        count(self.received & word) + count(self.turned & word)
    }
}

/// A run that rewrites nothing, with what each record of it shows and each step did.
struct Watched {
    modes: Modes,
    seen: Vec<Seen>,
    happened: Vec<Happened>,
}

impl Watched {
    /// From a record on, by the steps that are chosen from record to record.
    fn run(aic: &mut Aic, steps: usize, mut next: impl FnMut(&Aic) -> Step) -> Watched {
        let mut watched = Watched {
            modes: Modes::of(aic),
            seen: vec![Seen::of(aic)],
            happened: Vec::new(),
        };
        for _ in 0..steps {
            let step = next(aic);
            assert!(!rewrites(step));
            let before = aic.clone();
            put(aic, step);
            watched.happened.push(Happened::of(&before, aic, step));
            watched.seen.push(Seen::of(aic));
        }
        watched
    }

    fn by(aic: &mut Aic, steps: &[Step]) -> Watched {
        let mut steps = steps.iter();
        Watched::run(aic, steps.len(), |_| *steps.next().expect("a step is left"))
    }
}

/// The starts of other sources in a window so far, and the parts of the right sides.
#[derive(Clone, Copy, Debug, Default, PartialEq, Eq)]
struct Sides {
    starts: i32,
    /// Of these such of level-sensitive sources, and of sources that are not ahead.
    by_level: i32,
    strangers: i32,
    /// The sources ahead that were pending at the outset, and what they gained.
    pending: i32,
    gained: i32,
    /// The same of those that are not fast, by what is due, with any handler of a source taken for one at its priority
    /// or above, and the turns among what they gained.
    due: i32,
    due_by_any: i32,
    gained_normal: i32,
    turned_normal: i32,
    extra: i32,
    /// A source ahead, and one that is not fast, was closed hot.
    hot: bool,
    hot_normal: bool,
    /// Those ahead that are not fast are edge-triggered.
    edges_alone: bool,
}

impl Sides {
    fn levels(&self) -> i32 {
        self.pending + self.gained + self.extra
    }

    fn normal(&self) -> i32 {
        self.due + self.gained_normal + self.extra
    }
}

/// What a window comes to: its beginnings one by one, each longer by a step.
fn window(watched: &Watched, outset: usize, k: usize, mut each: impl FnMut(&Sides)) {
    let (modes, seen) = (&watched.modes, watched.seen[outset]);
    let (all, normal) = (modes.ahead[k], modes.ahead[k] & !modes.fast);
    let mut sides = Sides {
        pending: count(seen.pending & all),
        due: count(seen.due & normal),
        due_by_any: count(seen.due_by_any & normal),
        extra: i32::from(seen.extra(k).is_some()),
        edges_alone: normal & !modes.edge == 0,
        ..Sides::default()
    };
    for (before, happened) in watched.seen.iter().zip(&watched.happened).skip(outset) {
        if !has(before.waiting, k) {
            return;
        }
        if let Some(other) = happened.started.filter(|&other| other != k) {
            sides.starts += 1;
            sides.by_level += i32::from(!has(modes.edge, other));
            sides.strangers += i32::from(!has(normal, other));
            assert!(has(normal, other) || seen.remembered == Some(other));
        }
        sides.gained += happened.gained(all);
        sides.gained_normal += happened.gained(normal);
        sides.turned_normal += count(happened.turned & normal);
        sides.hot |= happened.hot & all != 0;
        sides.hot_normal |= happened.hot & normal != 0;
        each(&sides);
    }
}

/// What a beginning of a window can show, with how many windows have to show it at least.
const OF_WINDOWS: [(&str, usize, fn(&Sides) -> bool); 15] = [
    // The starts are the right side, one of a level-sensitive source among them, with the premise.
    ("tight", 1_000, |s| {
        !s.hot && s.by_level > 0 && s.starts == s.levels()
    }),
    ("tight, normal", 1_000, |s| {
        !s.hot_normal && s.by_level > 0 && s.starts == s.normal()
    }),
    // The second right side is less than the first, and both premises hold.
    ("sharper", 1_000, |s| !s.hot && s.normal() < s.levels()),
    // The starts are more than the right side less a part of it, or with `due_by_any` for what is due.
    ("extra needed", 100, |s| {
        !s.hot && s.starts > s.levels() - s.extra
    }),
    ("extra needed, normal", 100, |s| {
        !s.hot_normal && s.starts > s.normal() - s.extra
    }),
    ("turns needed", 1_000, |s| {
        !s.hot_normal && s.starts > s.normal() - s.turned_normal
    }),
    ("level of the handler needed", 100, |s| {
        !s.hot_normal && s.starts > s.normal() - s.due + s.due_by_any
    }),
    // A hot close, and then more starts than the right side.
    ("premise fails", 1_000, |s| s.hot),
    ("broken", 100, |s| s.hot && s.starts > s.levels()),
    ("premise fails, normal", 1_000, |s| s.hot_normal),
    ("broken, normal", 100, |s| {
        s.hot_normal && s.starts > s.normal()
    }),
    // Only a fast source ahead was closed hot: the second right side holds all the same.
    ("fast closed hot", 10, |s| s.hot && !s.hot_normal),
    ("a source not ahead started", 500, |s| s.strangers > 0),
    ("tight behind edges", 2_000, |s| {
        s.edges_alone && s.starts > 0 && s.starts == s.normal()
    }),
    ("extra needed behind edges", 400, |s| {
        s.edges_alone && s.starts > s.normal() - s.extra
    }),
];

/// A source followed from an outset on: its starts, what it was due then and gained since, one if it was remembered,
/// whether it was closed hot and whether it is level-sensitive.
struct Follow {
    starts: i32,
    due: i32,
    gained: i32,
    extra: i32,
    hot: bool,
    level: bool,
}

impl Follow {
    fn right(&self) -> i32 {
        self.due + self.gained + self.extra
    }

    fn tight(&self) -> bool {
        !self.hot && self.starts > 0 && self.starts == self.right()
    }
}

/// What a source that is followed can show, with how many have to show it at least.
const OF_SOURCES: [(&str, usize, fn(&Follow) -> bool); 6] = [
    ("tight", 1_000, Follow::tight),
    ("tight of a level", 1_000, |f| f.tight() && f.level),
    ("extra needed", 100, |f| {
        !f.hot && f.starts > f.due + f.gained
    }),
    // Twice started though it was due but once and gained nothing.
    ("twice", 10, |f| {
        !f.hot && f.starts == 2 && f.due == 1 && f.gained == 0
    }),
    ("premise fails", 1_000, |f| f.hot),
    ("broken", 100, |f| f.hot && f.starts > f.right()),
];

/// How many windows, or sources that were followed, have shown each thing of a table; one counts once for each.
struct Tally<T: 'static> {
    table: &'static [(&'static str, usize, fn(&T) -> bool)],
    looked: usize,
    counts: Vec<usize>,
}

impl<T> Tally<T> {
    fn new(table: &'static [(&'static str, usize, fn(&T) -> bool)]) -> Tally<T> {
        let counts = vec![0; table.len()];
        Tally {
            table,
            looked: 0,
            counts,
        }
    }

    /// Counts one: what it came to is seen bit by bit.
    fn count(&mut self, shown: u32) {
        self.looked += 1;
        for (place, count) in self.counts.iter_mut().enumerate() {
            *count += usize::from(has(shown, place));
        }
    }

    fn shown(&self, now: &T) -> u32 {
        let rows = self.table.iter().enumerate();
        rows.fold(0, |shown, (place, row)| {
            shown | u32::from(row.2(now)) << place
        })
    }

    /// Each thing was shown often enough.
    fn suffices(&self) {
        for ((what, least, _), count) in self.table.iter().zip(&self.counts) {
            println!("{what}: {count} of {}", self.looked);
            assert!(count > least, "{what}: {count} of at least {least}");
        }
    }
}

/// Looks at the window of a source from an outset on; what must hold is asserted.
fn look(tally: &mut Tally<Sides>, watched: &Watched, outset: usize, k: usize) -> Sides {
    let normal = watched.modes.ahead[k] & !watched.modes.fast;
    let mut owed = count(watched.seen[outset].pending & normal);
    let mut steps = watched.happened[outset..].iter();
    let (mut shown, mut last) = (0, Sides::default());
    window(watched, outset, k, |sides| {
        let happened = steps.next().expect("a step for each beginning");
        owed += count(happened.received & normal);
        assert!(sides.strangers <= sides.extra, "{sides:?}");
        assert!(sides.hot || sides.starts <= sides.levels(), "{sides:?}");
        assert!(
            sides.hot_normal || sides.starts <= sides.normal(),
            "{sides:?}"
        );
        if sides.edges_alone {
            assert_eq!(sides.due + sides.gained_normal, owed);
            assert!(happened.turned & normal == 0 && !sides.hot_normal);
        }
        shown |= tally.shown(sides);
        last = *sides;
    });
    tally.count(shown);
    last
}

/// Follows a source that is not fast from an outset to the end of the run. What is due at the end is promised besides: it
/// counts with the starts.
fn follow(tally: &mut Tally<Follow>, watched: &Watched, outset: usize, source: usize) {
    let first = watched.seen[outset];
    let mut follow = Follow {
        starts: 0,
        due: i32::from(has(first.due, source)),
        gained: 0,
        extra: i32::from(first.remembered == Some(source)),
        hot: false,
        level: !has(watched.modes.edge, source),
    };
    let mut shown = 0;
    let after = watched.seen.iter().skip(outset + 1);
    for (happened, after) in watched.happened.iter().skip(outset).zip(after) {
        follow.starts += i32::from(happened.started == Some(source));
        follow.gained += happened.gained(1 << source);
        follow.hot |= has(happened.hot, source);
        let left = follow.starts + i32::from(has(after.due, source));
        assert!(follow.hot || left <= follow.right(), "{left}");
        shown |= tally.shown(&follow);
    }
    tally.count(shown);
}

/// A level step, an access or a command on few sources. Before a close the line of its source is quieted, more often or
/// less.
struct Driver {
    sources: Vec<u32>,
    /// The types that sources are given.
    types: [u32; 5],
    /// In so many of ten times a handler of a level-sensitive source is closed only when its line is inactive.
    careful: u32,
}

impl Driver {
    fn next(&self, random: &mut Random, aic: &Aic) -> Step {
        let source = random.pick(&self.sources);
        match random.below(30) {
            0..=5 => IVR,
            6..=9 => WRITE_IVR,
            10..=14 => self.close(random, aic),
            15..=17 => write(SET, 1 << source),
            18..=25 => line(source, random.below(2)),
            26 => write(CLEAR, 1 << source),
            27 => write(ENABLE, 1 << source | 1 << random.pick(&self.sources)),
            28 => write(DISABLE, 1 << source),
            _ => write(DCR, random.below(2) | random.below(2) << 1),
        }
    }

    fn close(&self, random: &mut Random, aic: &Aic) -> Step {
        let last = aic.entries().last().and_then(|entry| entry.source);
        let active = last.filter(|&n| active_level(aic, usize::from(n)));
        match active {
            Some(n) if random.below(10) < self.careful => {
                let level = !aic.sources()[usize::from(n)].line;
                line(u32::from(n), u32::from(level))
            }
            _ => EOICR,
        }
    }

    /// Any step, rewrites of modes and forcing among them: of any source, of the one remembered, of the last entry's.
    fn any(&self, random: &mut Random, aic: &Aic) -> Step {
        if random.below(10) > 0 {
            return self.next(random, aic);
        }
        let last = aic.entries().last().and_then(|entry| entry.source);
        let concerned = remembered(aic).or(last.map(usize::from));
        let source = match concerned {
            Some(source) if random.one_in(2) => source as u32,
            _ => random.pick(&self.sources),
        };
        let kept = u32::from(aic.sources()[source as usize].kind) << 5;
        match random.below(8) {
            0 => write(FFER, 1 << source),
            1 => write(FFDR, 1 << source),
            2 => write(FFDR, u32::MAX),
            3 | 4 => write(4 * source, kept | random.below(8)),
            _ => write(4 * source, random.pick(&self.types) | random.below(8)),
        }
    }
}

const MIXED: [u32; 5] = [RISING_EDGE, EDGE, LEVEL, HIGH_LEVEL, HIGH_LEVEL];
const MOSTLY_EDGES: [u32; 5] = [RISING_EDGE, RISING_EDGE, EDGE, EDGE, HIGH_LEVEL];

/// A record after any steps, with entries open, sources remembered and modes rewritten since, and the driver that goes
/// on from there.
fn outset(random: &mut Random, types: [u32; 5]) -> (Aic, Driver) {
    let count = random.within(2, 5);
    let driver = Driver {
        types,
        sources: (0..count).map(|_| 1 + random.below(31)).collect(),
        careful: random.pick(&[0, 8, 10, 10]),
    };
    let mut aic = Aic::new(random.word(), random.word());
    for source in 1..SOURCES as u32 {
        put(&mut aic, write(4 * source, RISING_EDGE));
    }
    for &source in &driver.sources {
        let mode = random.pick(&types) | random.below(8);
        put(&mut aic, write(4 * source, mode));
    }
    put(&mut aic, write(ENABLE, u32::MAX));
    put(&mut aic, write(DCR, random.below(2)));
    for _ in 0..random.below(40) {
        let step = driver.any(random, &aic);
        put(&mut aic, step);
    }
    if let (Some(source), true) = (remembered(&aic), random.one_in(2)) {
        let kept = u32::from(aic.sources()[source].kind) << 5;
        put(&mut aic, write(4 * source as u32, kept | random.below(8)));
    }
    (aic, driver)
}

const RUNS: usize = 40_000;
const STEPS: usize = 30;

#[test]
fn on_random_runs_the_three_right_sides_hold() {
    let random = &mut Random::new(12);
    let (mut windows, mut sources) = (Tally::new(&OF_WINDOWS), Tally::new(&OF_SOURCES));
    let (mut behind_edges, mut starts) = (0, 0);
    for run in 0..RUNS {
        let types = if run % 2 == 0 { MIXED } else { MOSTLY_EDGES };
        let (mut aic, driver) = outset(random, types);
        let watched = Watched::run(&mut aic, STEPS, |aic| driver.next(random, aic));
        for (outset, seen) in watched.seen.iter().enumerate() {
            for k in bits(seen.waiting) {
                let last = look(&mut windows, &watched, outset, k);
                behind_edges += usize::from(last.edges_alone);
                starts += last.starts;
            }
        }
        let moved = driver.sources.iter().fold(0, |word, n| word | 1 << n);
        for source in bits(moved & !watched.modes.fast) {
            (0..STEPS).for_each(|outset| follow(&mut sources, &watched, outset, source));
        }
    }
    println!("{RUNS} runs, {behind_edges} windows behind edges alone, {starts} starts");
    assert!(behind_edges > 50_000 && windows.looked - behind_edges > 50_000);
    assert!(starts > 50_000);
    windows.suffices();
    sources.suffices();
}

/// Windows of source 3 worked by hand.
const WORKED: &str = include_str!("waiting/worked.txt");

/// A step as it is typed: `look` and `take` read and write IVR, `end` writes EOICR, `up` and `down` are of a line.
fn typed(step: &str) -> Step {
    let words: Vec<&str> = step.split(' ').collect();
    let number = |nth: usize| words[nth].parse::<u32>().expect("it is a number");
    match words[0] {
        "look" => IVR,
        "take" => WRITE_IVR,
        "end" => EOICR,
        "protect" => write(DCR, 1),
        "set" => write(SET, 1 << number(1)),
        "clear" => write(CLEAR, 1 << number(1)),
        "disable" => write(DISABLE, 1 << number(1)),
        "up" => line(number(1), 1),
        "down" => line(number(1), 0),
        "high" => write(4 * number(1), HIGH_LEVEL | number(2)),
        "edge" => write(4 * number(1), RISING_EDGE | number(2)),
        _ => panic!("{step:?} is no step"),
    }
}

fn steps(text: &str) -> Vec<Step> {
    text.trim().split(", ").map(typed).collect()
}

/// What is told of the last beginning of a window, by its name.
fn figure(sides: &Sides, name: &str) -> i32 {
    match name {
        "starts" => sides.starts,
        "strangers" => sides.strangers,
        "pending" => sides.pending,
        "due" => sides.due,
        "due-by-any" => sides.due_by_any,
        "gained" => sides.gained,
        "extra" => sides.extra,
        "levels" => sides.levels(),
        "normal" => sides.normal(),
        "hot" => i32::from(sides.hot),
        _ => panic!("{name:?} is no figure"),
    }
}

#[test]
fn windows_are_as_they_were_worked() {
    let mut windows = 0;
    for worked in WORKED.split("\n\n").filter(|text| !text.starts_with('#')) {
        let part = |name: &str| {
            let line = worked.lines().find_map(|line| line.strip_prefix(name));
            line.unwrap_or_else(|| panic!("{worked}: no {name}"))
        };
        let mut aic = Aic::new(0, 0);
        put(&mut aic, write(ENABLE, u32::MAX));
        for step in steps(part("before:")) {
            put(&mut aic, step);
        }
        let watched = Watched::by(&mut aic, &steps(part("window:")));
        let (mut last, mut seen) = (Sides::default(), 0);
        window(&watched, 0, 3, |sides| (last, seen) = (*sides, seen + 1));
        assert_eq!(seen, watched.happened.len(), "{worked}: source 3 waits");
        for told in part("told:").trim().split(", ") {
            let (name, number) = told.split_once(' ').expect("a figure has a number");
            let found = figure(&last, name).to_string();
            assert_eq!(found, number, "{worked}: {name}");
        }
        windows += 1;
    }
    assert_eq!(windows, 11);
}
