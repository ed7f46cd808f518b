//! Wrong ways to count beside the right one: each is told apart by generated traces, of single ones or of two that
//! follow each other. And a second right way, step by step.

use bench::model::aic::SOURCES;
use bench::model::Step;
use bench::report::history::{End, History, Moment, Wait};
use bench::report::Counts;

use super::{cases, history};

type All = [Counts; SOURCES];
type Wrong = fn(&History, usize, &mut Counts);

const IVR: u32 = 0x100;

/// The largest number over some waits.
fn most(waits: &[Wait], count: impl Fn(&Wait) -> u32) -> u32 {
    waits.iter().map(count).max().unwrap_or(0)
}

/// The largest number over the waits of a source if it asks where something else holds.
fn if_it_asks(history: &History, source: usize, asks: impl Fn(&Moment) -> bool) -> u32 {
    let mut other = history.clone();
    for moment in &mut other.moments {
        let bit = 1 << source;
        let holds = asks(moment);
        for word in [&mut moment.pending, &mut moment.enabled] {
            *word = *word & !bit | u32::from(holds) << source;
        }
        moment.fast &= !bit;
    }
    most(&other.waits(source), |wait| history.others(wait))
}

fn has(word: u32, source: usize) -> bool {
    word >> source & 1 == 1
}

/// What each makes of the counts of a source, the right ones of which it is given.
const WRONG: [(&str, Wrong); 24] = [
    ("its own start is counted", |history, n, counts| {
        counts.waited = most(&history.waits(n), |wait| {
            history.others(wait) + u32::from(wait.end == End::Started)
        });
    }),
    ("a mark is counted as a handler", |history, n, counts| {
        counts.waited = most(&history.waits(n), |wait| {
            let marks = (wait.from + 1..=wait.to).filter(|&at| marks(history, at));
            history.others(wait) + marks.count() as u32
        });
    }),
    ("a mark is started by source 0", |history, n, counts| {
        if n == 0 {
            let marks = (1..history.moments.len()).filter(|&at| marks(history, at));
            counts.started = marks.count() as u32;
        }
    }),
    ("waiting goes on after the start", |history, n, counts| {
        counts.waited = most(&history.waits(n), |wait| {
            let moments = &history.moments;
            let still = (wait.to..moments.len()).take_while(|&at| moments[at].asks(n));
            let to = still.last().unwrap_or(wait.to);
            history.others(&Wait { to, ..*wait })
        });
    }),
    ("a wait begins while it is fast", |history, n, counts| {
        let asks = |moment: &Moment| has(moment.pending & moment.enabled, n);
        counts.waited = if_it_asks(history, n, asks);
    }),
    ("source 0 waits", |history, n, counts| {
        if n == 0 {
            let asks = |moment: &Moment| has(moment.pending & moment.enabled, 0);
            counts.waited = if_it_asks(history, n, asks);
        }
    }),
    ("it waits while it is disabled", |history, n, counts| {
        let asks = |moment: &Moment| has(moment.pending & !moment.fast, n);
        counts.waited = if_it_asks(history, n, asks);
    }),
    ("the mask ends a wait", |history, n, counts| {
        let asks = |moment: &Moment| moment.asks(n) && !moment.masked;
        counts.waited = if_it_asks(history, n, asks);
    }),
    ("its open handler ends its wait", |history, n, counts| {
        let asks = |moment: &Moment| moment.asks(n) && !moment.has_open(n);
        counts.waited = if_it_asks(history, n, asks);
    }),
    ("it waits again after its close", |history, n, counts| {
        let asks = |moment: &Moment| moment.asks(n) && !moment.has_open(n);
        counts.waited = if_it_asks(history, n, asks).max(counts.waited);
    }),
    ("nesting without the entries below", |history, n, counts| {
        counts.entries = nesting(history, n, |entries, at| entries.len() - at);
    }),
    ("nesting without the entries above", |history, n, counts| {
        counts.entries = nesting(history, n, |_, at| at + 1);
    }),
    ("nesting without itself", |history, n, counts| {
        counts.entries = nesting(history, n, |entries, _| entries.len() - 1);
    }),
    ("nesting without marks", |history, n, counts| {
        counts.entries = nesting(history, n, |entries, _| entries.iter().flatten().count());
    }),
    ("nesting while it is last alone", |history, n, counts| {
        counts.entries = nesting(history, n, |entries, at| {
            if at + 1 == entries.len() {
                entries.len()
            } else {
                0
            }
        });
    }),
    ("an endless wait is not counted", |history, n, counts| {
        counts.waited = most(&history.waits(n), |wait| match wait.end {
            End::Never => 0,
            _ => history.others(wait),
        });
    }),
    ("a wait must end in a start", |history, n, counts| {
        counts.waited = most(&history.waits(n), |wait| match wait.end {
            End::Started => history.others(wait),
            _ => 0,
        });
    }),
    ("the waits are added up", |history, n, counts| {
        let waits = history.waits(n);
        counts.waited = waits.iter().map(|wait| history.others(wait)).sum();
    }),
    ("the last wait is the figure", |history, n, counts| {
        let last = history.waits(n).pop();
        counts.waited = last.map_or(0, |wait| history.others(&wait));
    }),
    ("the first wait is the figure", |history, n, counts| {
        let waits = history.waits(n);
        counts.waited = waits.first().map_or(0, |wait| history.others(wait));
    }),
    ("the first step is not counted", |history, n, counts| {
        counts.waited = most(&history.waits(n), |wait| {
            let from = wait.to.min(wait.from + 1);
            history.others(&Wait { from, ..*wait })
        });
    }),
    ("the last step is not counted", |history, n, counts| {
        let mut shorter = history.clone();
        shorter.moments.pop();
        if !shorter.moments.is_empty() {
            *counts = shorter.counts(n);
        }
    }),
    ("a look in protect mode is a start", |history, n, counts| {
        let mut other = history.clone();
        for moment in &mut other.moments {
            let read = Step::Read { offset: IVR };
            if moment.protected {
                let reads = moment.step == Some((read, false));
                moment.started = moment.remembered.filter(|_| reads);
            }
        }
        *counts = other.counts(n);
    }),
    ("a start must end a wait", |history, n, counts| {
        let waits = history.waits(n);
        let ended = waits.iter().filter(|wait| wait.end == End::Started);
        counts.started = ended.count() as u32;
    }),
];

/// Whether the step that led to a moment opened a mark.
fn marks(history: &History, at: usize) -> bool {
    let (before, moment) = (&history.moments[at - 1], &history.moments[at]);
    moment.entries().len() > before.entries().len() && moment.started.is_none()
}

/// The largest of what is counted of the entries where a handler of the source is among them, by its first place.
fn nesting(history: &History, source: usize, count: impl Fn(&[Option<u8>], usize) -> usize) -> u32 {
    let counted = history.moments.iter().filter_map(|moment| {
        let entries = moment.entries();
        let at = entries
            .iter()
            .position(|&entry| entry == Some(source as u8))?;
        Some(count(entries, at) as u32)
    });
    counted.max().unwrap_or(0)
}

/// The histories of an AIC among the random traces of a seed.
fn random_histories(seed: u64, count: usize) -> impl Iterator<Item = History> {
    let sweeps = bench::report::generate::Generator::new(seed).sweeps();
    let random = cases(seed, count).skip(sweeps);
    let histories = random.map(|(_, counted)| history(&counted.case.trace, counted.case.limit));
    histories.filter(|history| !history.moments.is_empty())
}

#[test]
fn random_traces_tell_each_apart() {
    let (mut found, mut traces) = ([0; WRONG.len()], 0);
    for history in random_histories(1, 3_000) {
        traces += 1;
        let right = history.figures().sources;
        for (found, (_, wrong)) in found.iter_mut().zip(WRONG) {
            let differs = |source: usize| {
                let mut counts = right[source];
                wrong(&history, source, &mut counts);
                counts != right[source]
            };
            *found += usize::from((0..SOURCES).any(differs));
        }
    }
    for ((name, _), found) in WRONG.iter().zip(found) {
        println!("{found:5} of {traces} traces: {name}");
    }
    for ((name, _), found) in WRONG.iter().zip(found) {
        assert!(found > 10, "{name} was found on {found} traces");
    }
}

/// A source as one who follows the steps has it: it does not ask, it is served, or so many handlers of others have been
/// started in its wait.
#[derive(Clone, Copy, PartialEq, Eq)]
enum Standing {
    Idle,
    Served,
    Waiting(u32),
}

/// Counts step by step.
#[derive(Clone)]
struct Follower {
    standing: [Standing; SOURCES],
    counts: All,
}

impl Follower {
    fn new() -> Follower {
        Follower {
            standing: [Standing::Idle; SOURCES],
            counts: Default::default(),
        }
    }

    fn step(&mut self, moment: &Moment) {
        for source in 0..SOURCES {
            let counts = &mut self.counts[source];
            let started = moment.started == Some(source);
            counts.started += u32::from(started);
            if moment.has_open(source) {
                counts.entries = counts.entries.max(moment.entries().len() as u32);
            }
            let standing = &mut self.standing[source];
            if let (Standing::Waiting(others), false) = (&mut *standing, started) {
                *others += u32::from(moment.started.is_some());
                counts.waited = counts.waited.max(*others);
            }
            *standing = match (moment.asks(source), started, *standing) {
                (false, ..) => Standing::Idle,
                (true, true, _) => Standing::Served,
                (true, false, Standing::Idle) => Standing::Waiting(0),
                (true, false, standing) => standing,
            };
        }
    }

    fn follow(&mut self, history: &History) -> All {
        history.moments[1..]
            .iter()
            .for_each(|moment| self.step(moment));
        std::mem::take(&mut self.counts)
    }
}

#[test]
fn following_the_steps_gives_the_same() {
    let mut traces = 0;
    for (number, counted) in cases(3, 4_000) {
        let history = history(&counted.case.trace, counted.case.limit);
        if history.moments.is_empty() {
            continue;
        }
        traces += 1;
        let followed = Follower::new().follow(&history);
        assert_eq!(followed, history.figures().sources, "case {number}");
    }
    assert!(traces > 3_000, "{traces}");
}

/// Nothing is carried over from one trace to the next: one who follows on in the next trace is told apart, with the
/// numbers of the waits or without.
#[test]
fn what_is_carried_over_is_found() {
    for with_numbers in [true, false] {
        let (mut follower, mut found, mut traces) = (Follower::new(), 0, 0);
        for history in random_histories(5, 6_000) {
            traces += 1;
            found += usize::from(follower.follow(&history) != history.figures().sources);
            for standing in &mut follower.standing {
                if let (Standing::Waiting(others), false) = (standing, with_numbers) {
                    *others = 0;
                }
            }
        }
        println!("{found} of {traces} traces: carried over, with numbers: {with_numbers}");
        assert!(found > 10, "{found}");
    }
}

/// Over two traces: the largest numbers added, or that of the last trace taken.
#[test]
fn wrong_totals_are_found() {
    type Total = fn(u32, u32) -> u32;
    let wrong: [(&str, Total); 3] = [
        ("the two largest numbers are added", |one, other| {
            one + other
        }),
        ("the last trace's number is the figure", |_, other| other),
        ("the first trace's number is the figure", |one, _| one),
    ];
    let histories: Vec<History> = random_histories(6, 400).collect();
    for (name, total) in wrong {
        let (mut waited, mut entries) = (0, 0);
        for pair in histories.windows(2) {
            let [one, other] = [&pair[0], &pair[1]].map(|history| history.figures().sources);
            let differs = |figure: fn(&Counts) -> u32| {
                (0..SOURCES).any(|source| {
                    let (one, other) = (figure(&one[source]), figure(&other[source]));
                    total(one, other) != one.max(other)
                })
            };
            waited += usize::from(differs(|counts| counts.waited));
            entries += usize::from(differs(|counts| counts.entries));
        }
        assert!(waited > 10 && entries > 10, "{name}: {waited}, {entries}");
    }
}
