//! A second count of the bounds, step by step with what stands meanwhile, and wrong ways to count beside it: each is told
//! apart by generated traces, and those that leave out what is needed have a wait in which more is started.

use bench::bounds::waits::{Bound, Bounded, Terms};
use bench::bounds::Records;
use bench::generate::aic::{DCR, ENABLE, EOICR, FFDR, FFER, SET, VECTORS};
use bench::model::aic::{Aic, Selection, SOURCES};
use bench::model::Step;

use bench::listed;

use super::{all, random};

listed! {
    /// One way to go wrong.
    #[derive(Clone, Copy, Debug, PartialEq, Eq)]
    enum Slip {
        Right, NoPending, NoEdges, NoCommands, NoTurns, NoClosed, NoRemembered, OffRivalsCount,
        LateRivalsNeverCount, LateRivalsAreNeverDue, OnlyWhileEnabled, RivalsMayBeFast, RivalsMayBeBehind,
        EqualsAreBehind, EqualsAreAhead, HeldIsDue, HeldByAnyHandler, HeldAboveAlone, EdgesAreHeld,
        CommandsToLevels, RepeatedLevelsTurn, FallsTurn, QuietClosesCount, ClosesOfEdgesCount, OwnRemembered,
        NobodyRemembered, RememberedMeanwhile, BeginningStepGives, RefusedRewrites, RewritesOfOthersAlone,
        OnlyChangesRewrite, ForcingIsNoRewrite, ModesAreNoRewrite, VectorsRewrite, EnablesRewrite,
        DebugRewrites, EndingRewrites, BeginningRewrites, LastRewriteIsTold, MarksAreHandlers, OwnStartCounts
    }
}

use Slip::*;

/// Those that a wait can pass: without what they leave out more is started.
const TOO_SMALL: [Slip; 14] = [
    NoPending,
    NoEdges,
    NoCommands,
    NoTurns,
    NoClosed,
    NoRemembered,
    LateRivalsNeverCount,
    LateRivalsAreNeverDue,
    EqualsAreBehind,
    HeldByAnyHandler,
    EdgesAreHeld,
    ForcingIsNoRewrite,
    ModesAreNoRewrite,
    RewritesOfOthersAlone,
];

/// One step, with the records around it.
struct Turn<'a> {
    slip: Slip,
    before: &'a Aic,
    after: &'a Aic,
    step: Step,
    refused: bool,
}

/// A wait that goes on.
#[derive(Clone)]
struct Going {
    bounded: Bounded,
    terms: Terms,
    rewritten: Option<u32>,
    rivals: u32,
    on: u32,
}

fn bit(holds: bool, n: usize) -> u32 {
    u32::from(holds) << n
}

fn word(holds: impl Fn(usize) -> bool) -> u32 {
    (0..SOURCES).fold(0, |word, n| word | bit(holds(n), n))
}

fn asks(aic: &Aic, source: usize) -> bool {
    aic.normal_request(source)
}

/// The highest level at which a handler of a source is open.
fn open_at(aic: &Aic, source: usize) -> Option<u8> {
    let own = aic
        .entries()
        .iter()
        .filter(|entry| entry.source == Some(source as u8));
    own.filter_map(|entry| entry.level).max()
}

impl Turn<'_> {
    fn is(&self, slip: Slip) -> bool {
        self.slip == slip
    }

    fn rivals(&self, waiting: usize) -> u32 {
        let of = &self.after.sources()[waiting];
        word(|n| {
            let other = &self.after.sources()[n];
            let equal = match other.priority == of.priority && n != waiting {
                true if self.is(EqualsAreBehind) => false,
                true if self.is(EqualsAreAhead) => true,
                same => same && n < waiting,
            };
            let ahead = other.priority > of.priority || equal;
            let ahead = ahead || self.is(RivalsMayBeBehind) && n != waiting;
            ahead && (!self.after.fast(n) || self.is(RivalsMayBeFast))
        })
    }

    /// Whether a source is due in the record after the step.
    fn due(&self, n: usize) -> u32 {
        let source = &self.after.sources()[n];
        let level = open_at(self.after, n);
        let held = match self.slip {
            HeldIsDue => false,
            HeldByAnyHandler => level.is_some(),
            HeldAboveAlone => level > Some(source.priority),
            _ => level >= Some(source.priority),
        };
        let held = held && (!source.edge_triggered() || self.is(EdgesAreHeld));
        u32::from(source.pending() && !held && !self.is(NoPending))
    }

    fn remembered(&self, waiting: usize) -> u32 {
        let counts = match self.after.remembered() {
            Some(Selection::Source { number, .. }) => {
                usize::from(number) != waiting || self.is(OwnRemembered)
            }
            Some(Selection::Nobody) => self.is(NobodyRemembered),
            None => false,
        };
        u32::from(counts && !self.is(NoRemembered))
    }

    fn writes(&self, offset: u32) -> Option<u32> {
        match self.step {
            Step::Write { offset: at, value } if at == offset && !self.refused => Some(value),
            _ => None,
        }
    }

    /// What the step gives to each of some sources.
    fn give(&self, sources: u32, terms: &mut Terms) {
        for n in (0..SOURCES).filter(|n| sources >> n & 1 == 1) {
            let source = &self.before.sources()[n];
            let edge = source.edge_triggered();
            if let Step::Line { line, level } = self.step {
                if line as usize == n && !self.refused {
                    let to = (level == 1) != (source.external && source.kind < 2);
                    let moved = source.line != (level == 1);
                    let turns = match self.slip {
                        RepeatedLevelsTurn => to,
                        FallsTurn => moved,
                        _ => to && moved,
                    };
                    terms.edges += u32::from(turns && edge && !self.is(NoEdges));
                    terms.turns += u32::from(turns && !edge && !self.is(NoTurns));
                }
            }
            let set = self.writes(SET).is_some_and(|value| value >> n & 1 == 1);
            let set = set && (edge || self.is(CommandsToLevels));
            terms.commands += u32::from(set && !self.is(NoCommands));
            let last = self.before.entries().last().and_then(|entry| entry.source);
            let closed = self.writes(EOICR).is_some() && last == Some(n as u8);
            let hot = closed && (source.pending() || self.is(QuietClosesCount));
            let hot = hot && (!edge || self.is(ClosesOfEdgesCount));
            terms.closed_active += u32::from(hot && !self.is(NoClosed));
        }
    }

    fn is_rewrite(&self) -> bool {
        let Step::Write { offset, .. } = self.step else {
            return false;
        };
        let mode = offset < 0x80 && !self.is(ModesAreNoRewrite);
        let forcing = (offset == FFER || offset == FFDR) && !self.is(ForcingIsNoRewrite);
        let more = match self.slip {
            VectorsRewrite => (VECTORS..0x100).contains(&offset),
            EnablesRewrite => offset == ENABLE,
            DebugRewrites => offset == DCR,
            _ => false,
        };
        let changes = (0..SOURCES).any(|n| {
            let (before, after) = (&self.before.sources()[n], &self.after.sources()[n]);
            (before.kind, before.priority, before.forced)
                != (after.kind, after.priority, after.forced)
        });
        (mode || forcing || more)
            && (!self.refused || self.is(RefusedRewrites))
            && (changes || !self.is(OnlyChangesRewrite))
    }

    /// Whether the step wrote the mode of the source, which one slip takes for nothing.
    fn of_its_own(&self, waiting: usize) -> bool {
        self.is(RewritesOfOthersAlone)
            && matches!(self.step, Step::Write { offset, .. } if offset as usize == 4 * waiting)
    }

    /// Whose handler the step started, if it opened an entry; a mark has none.
    fn started(&self) -> Option<Option<usize>> {
        let (before, after) = (self.before.entries(), self.after.entries());
        let opened = after.len() > before.len();
        opened.then(|| after[before.len()].source.map(usize::from))
    }

    /// The wait that the step begins.
    fn begins(&self, at: u32, waiting: usize) -> Going {
        let mut going = Going {
            bounded: Bounded {
                began: at,
                ended: None,
                started: 0,
                bound: Bound::Rewritten(0),
            },
            terms: Terms::default(),
            rewritten: (self.is(BeginningRewrites) && self.is_rewrite()).then_some(at),
            rivals: self.rivals(waiting),
            on: 0,
        };
        going.terms.remembered = self.remembered(waiting);
        self.turn_on(&mut going, true);
        if self.is(BeginningStepGives) {
            self.give(going.on, &mut going.terms);
        }
        going
    }

    /// Rivals that are enabled now count from here on.
    fn turn_on(&self, going: &mut Going, outset: bool) {
        let enabled = word(|n| self.after.sources()[n].enabled || self.is(OffRivalsCount));
        if !outset && self.is(LateRivalsNeverCount) {
            return;
        }
        let new = going.rivals & enabled & !going.on;
        if outset || !self.is(LateRivalsAreNeverDue) {
            let due = (0..SOURCES)
                .filter(|n| new >> n & 1 == 1)
                .map(|n| self.due(n));
            going.terms.pending += due.sum::<u32>();
        }
        going.on |= new;
    }

    /// A step within a wait.
    fn goes_on(&self, at: u32, waiting: usize, going: &mut Going) {
        if self.is_rewrite()
            && !self.of_its_own(waiting)
            && (going.rewritten.is_none() || self.is(LastRewriteIsTold))
        {
            going.rewritten = Some(at);
        }
        let enabled = word(|n| self.before.sources()[n].enabled || !self.is(OnlyWhileEnabled));
        self.give(going.on & enabled, &mut going.terms);
        self.turn_on(going, false);
        if self.is(RememberedMeanwhile) {
            going.terms.remembered = going.terms.remembered.max(self.remembered(waiting));
        }
        going.bounded.started += u32::from(match self.started() {
            Some(Some(source)) => source != waiting,
            Some(None) => self.is(MarksAreHandlers),
            None => false,
        });
    }

    /// The step that ends a wait.
    fn ends(&self, at: u32, going: &mut Going) {
        going.bounded.ended = Some(at);
        if self.is(EndingRewrites) && self.is_rewrite() && going.rewritten.is_none() {
            going.rewritten = Some(at);
        }
        let own = self.is(OwnStartCounts) && self.started().is_some();
        going.bounded.started += u32::from(own);
    }
}

impl Going {
    fn bounded(self) -> Bounded {
        let bound = match self.rewritten {
            None => Bound::Terms(self.terms),
            Some(step) => Bound::Rewritten(step),
        };
        Bounded {
            bound,
            ..self.bounded
        }
    }
}

/// The waits of a source, step by step, with a slip.
fn second(records: &Records, source: usize, slip: Slip) -> Vec<Bounded> {
    let mut waits = Vec::new();
    let mut going: Option<Going> = None;
    for at in 1..records.aics.len() {
        let (step, refused) = records.history.moments[at].step.expect("a step led here");
        let turn = Turn {
            slip,
            before: &records.aics[at - 1],
            after: &records.aics[at],
            step,
            refused,
        };
        let number = at as u32;
        match &mut going {
            Some(wait) => {
                let ended = turn.started() == Some(Some(source)) || !asks(turn.after, source);
                if ended {
                    turn.ends(number, wait);
                    waits.extend(going.take().map(Going::bounded));
                } else {
                    turn.goes_on(number, source, wait);
                }
            }
            None if asks(turn.after, source) && !asks(turn.before, source) => {
                going = Some(turn.begins(number, source));
            }
            None => {}
        }
    }
    waits.extend(going.map(Going::bounded));
    waits
}

fn differs(records: &Records, slip: Slip) -> bool {
    (1..SOURCES).any(|source| second(records, source, slip) != records.waits(source))
}

/// In some wait with a bound more is started.
fn passes(records: &Records, slip: Slip) -> bool {
    (1..SOURCES).any(|source| {
        let waits = second(records, source, slip);
        let more = |wait: &Bounded| match wait.bound {
            Bound::Terms(terms) => wait.started > terms.sum(),
            Bound::Rewritten(_) => false,
        };
        waits.iter().any(more)
    })
}

#[test]
fn a_second_count_agrees() {
    for (number, records) in all(7, 1_500) {
        if records.aics.len() < 1_000 {
            assert!(!differs(&records, Right), "case {number}");
        }
    }
}

#[test]
fn every_wrong_way_is_told_apart() {
    let mut left: Vec<Slip> = Slip::ALL[1..].to_vec();
    for (_, records) in random(8, 6_000) {
        left.retain(|&slip| !differs(&records, slip));
    }
    assert_eq!(left, []);
}

/// None of what these leave out can be spared.
#[test]
fn what_is_left_out_is_needed() {
    let mut left: Vec<Slip> = TOO_SMALL.to_vec();
    for (_, records) in random(9, 30_000) {
        left.retain(|&slip| !passes(&records, slip));
        if left.is_empty() {
            break;
        }
    }
    assert_eq!(left, []);
}

/// Where all rivals are enabled at the outset it is the figure of 02, 12/12, which asks for no enable, with what is closed
/// while active put to it; elsewhere it is at most that.
#[test]
fn where_all_rivals_are_enabled_it_is_the_figure_of_12_12() {
    let mut same = 0;
    for (number, records) in random(10, 1_500) {
        for source in 1..SOURCES {
            let old = second(&records, source, OffRivalsCount);
            for (wait, old) in records.history.waits(source).iter().zip(old) {
                let (outset, rivals) = (&records.aics[wait.from], records.rivals(wait));
                let bounded = records.bounded(wait);
                if rivals.iter().all(|&n| outset.sources()[n].enabled) {
                    assert_eq!(bounded, old, "case {number}, source {source}");
                    same += u32::from(!rivals.is_empty());
                } else if let (Bound::Terms(terms), Bound::Terms(old)) = (bounded.bound, old.bound)
                {
                    assert!(terms.sum() <= old.sum(), "case {number}, source {source}");
                }
            }
        }
    }
    assert!(same > 500, "{same}");
}
