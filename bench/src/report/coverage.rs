//! What the compared figures have reached, found in the model's own history; a listed item not reached is a gap.

use super::history::{End, History, Moment, Wait};
use crate::generate::aic::{CLEAR, DISABLE, ENABLE, FFDR, FFER, IVR, SET};
use crate::model::aic::{ENTRIES, SOURCES};
use crate::model::{Kind, Refusal, Step};
use crate::tally::{each, Fact, Listed, Tally};
use crate::trace::{Report, PROGRAM_LIMIT};
use crate::{facts, sorts};

/// Something that a comparison should have reached.
#[derive(Clone, Copy, Debug, PartialEq, Eq, PartialOrd, Ord, Hash)]
pub enum Item {
    /// A wait began by a step of this sort.
    Began(Cause),
    /// A wait ended so, after so many handlers of other sources.
    Ended(How, Many),
    /// A source that was served, since it went on asking after its own start, stopped asking so.
    Served(How),
    /// A wait of the source had some handlers of others in it.
    Waited(usize),
    /// So many handlers were the most in a wait of a source.
    Most(u32),
    /// So many entries were the most that were open while a handler of the source was.
    Open(usize, u32),
    /// A figure was above this number.
    Above(Figure, u32),
    /// Steps of a kind of controller were played, and some of them were refused or none.
    Played(Kind, bool),
    /// A trace was ended early so: of a controller that was started, or of none.
    Early(Option<Kind>, Refusal),
    /// A situation in plain words.
    Fact(&'static str),
}

sorts! {
    /// What makes a source ask.
    Cause {
        /// The line of a level source.
        Level,
        /// An edge.
        Edge,
        Set,
        Enable,
        Unforce,
        Mode,
    }

    /// What ends a wait, or that a source asks after its start.
    How {
        /// Its own start, by the read outside protect mode or by the write in it.
        Read,
        Write,
        Line,
        Clear,
        Disable,
        Force,
        Mode,
        /// The trace ended, whole or early.
        Whole,
        Early,
    }

    Many { None, One, More }

    Figure { Steps, Refused, Started, Waited }
}

/// Numbers that fewer bits than 32 would not hold, or that only a limit of one's own reaches.
const ABOVE: [(Figure, u32); 8] = [
    (Figure::Steps, 255),
    (Figure::Steps, PROGRAM_LIMIT),
    (Figure::Refused, 255),
    (Figure::Refused, 4_095),
    (Figure::Started, 255),
    (Figure::Started, 4_095),
    (Figure::Waited, 255),
    (Figure::Waited, 4_095),
];

facts! { FACTS;
    fn ending(history: &History, report: &Report, limit: u32) {
        let started = report.machine.is_some();
        "the limit was as many as the steps that there were"
            if report.ending.is_ok() && limit == history.steps;
        "a trace was ended early before its first step"
            if report.ending.is_err() && started && history.steps == 0;
    }

    fn in_vain(waits: &[Wait], nothing_started: bool) {
        "a source waited, and nothing was started in all the trace"
            if nothing_started && !waits.is_empty();
    }

    /// What is to be seen of a wait, and of the one before it of the same source.
    fn waited(history: &History, wait: &Wait, previous: Option<End>) {
        let (moments, source) = (&history.moments, wait.source);
        let (before, begun) = (&moments[wait.from - 1], &moments[wait.from]);
        let another = |n: usize| n != source && before.asks(n) && begun.asks(n);
        let read = |moment: &Moment| moment.step == Some((Step::Read { offset: IVR }, false));
        let remembered = moments[..wait.to].iter().rposition(read);
        let by_write = wait.end == End::Started && moments[wait.to].protected;
        "a wait began with a handler of its own open" if before.has_open(source);
        "a wait began in protect mode" if begun.protected;
        "a wait began with the mask on" if begun.masked;
        "a wait began with eight entries open" if begun.entries().len() == ENTRIES;
        "a wait began while another source waited" if (0..SOURCES).any(another);
        "a wait ended in the step behind the one that began it"
            if wait.end != End::Never && wait.to == wait.from + 1;
        "a source waited again after its start" if previous == Some(End::Started);
        "a source waited again after a wait that ended otherwise" if previous == Some(End::Over);
        "a source was started in a wait that began after it was remembered"
            if by_write && remembered.is_some_and(|read| read < wait.from);
    }

    /// What came in a wait of a source and did not end it.
    fn went_on(source: usize, before: &Moment, moment: &Moment) {
        let opened = moment.entries().len() > before.entries().len();
        let step = moment.step.map(|(step, _)| step);
        let looked = step == Some(Step::Read { offset: IVR }) && moment.protected;
        let ivr = written(moment) == Some(IVR);
        "a wait went on over a write of its own mode" if written(moment) == Some(4 * source as u32);
        "a wait went on while the mask was turned" if before.masked != moment.masked;
        "a mark was opened in a wait" if opened && moment.started.is_none();
        "a source was remembered in its own wait" if looked && moment.remembered == Some(source);
        "a source was remembered in a wait of another"
            if looked && moment.remembered.is_some_and(|other| other != source);
        "IVR was written in a wait, and nothing opened" if ivr && !opened;
        "a wait went on over a start by the write of IVR" if ivr && moment.started.is_some();
        "a step was refused in a wait" if moment.step.is_some_and(|(_, refused)| refused);
    }

    /// While a source goes on asking after its start.
    fn served(source: usize, before: &Moment, moment: &Moment) {
        let closed = before.has_open(source) && !moment.has_open(source);
        "a handler was closed whose source is served" if closed;
        "a source was started again while it was served" if moment.started == Some(source);
        "another source was started while one was served"
            if moment.started.is_some_and(|other| other != source);
    }

    /// What else is there when a handler of a source is started.
    fn started(source: usize, before: &Moment) {
        let but_it = !(1 << source);
        let fast = before.pending & before.enabled & before.fast & but_it;
        "a source was started that did not ask" if !before.asks(source);
        "a forced source was pending and enabled while another was started" if fast & !1 != 0;
        "source 0 was pending and enabled while another was started" if fast & 1 == 1;
        "a pending source was disabled while another was started"
            if before.pending & !before.enabled & but_it != 0;
    }

    /// Which of its waits a source's figure is of.
    fn largest(waits: &[Wait], at: usize) {
        "the most handlers were in a wait that ended in a start" if waits[at].end == End::Started;
        "the most handlers were in a wait that ended otherwise" if waits[at].end == End::Over;
        "the most handlers were in a wait that had no end" if waits[at].end == End::Never;
        "the most handlers were in an earlier wait than the last" if at + 1 < waits.len();
        "the most handlers were in a later wait than the first" if at > 0;
    }

    fn opened_again(entries: &[Option<u8>], own: Option<u8>, deeper: bool) {
        let handlers = entries.iter().filter(|&&entry| entry == own).count();
        "two handlers of one source were open" if handlers > 1;
        "a source had more entries about it when it was started again" if deeper;
    }

    /// How the most entries lay about a handler of a source.
    fn nested(below: &[Option<u8>], above: &[Option<u8>]) {
        "of the most entries its handler was the last" if above.is_empty();
        "of the most entries some were above its handler" if !above.is_empty();
        "of the most entries a mark was below its handler" if below.contains(&None);
        "of the most entries a mark was above its handler" if above.contains(&None);
    }
}

impl Listed for Coverage {
    type Item = Item;

    fn tally(&self) -> &Tally<Item> {
        &self.tally
    }

    fn wanted() -> Vec<Item> {
        let mut items: Vec<Item> = Cause::ALL.map(Item::Began).into();
        items.extend(each(|(how, many)| Item::Ended(how, many)));
        // An edge source does not ask when it has been started, and a level source has nothing to clear.
        let served = |how: &How| !matches!(how, How::Read | How::Write | How::Clear);
        items.extend(How::ALL.into_iter().filter(served).map(Item::Served));
        items.extend((1..SOURCES).map(Item::Waited));
        items.extend((0..=12).map(Item::Most));
        for entries in 1..=ENTRIES as u32 {
            items.extend((1..SOURCES).map(|source| Item::Open(source, entries)));
        }
        items.extend(ABOVE.map(|(figure, number)| Item::Above(figure, number)));
        for kind in Kind::ALL {
            items.extend(each(|refused| Item::Played(kind, refused)));
            let early = [Refusal::StepLimit, Refusal::BadNumber, Refusal::UnknownKind];
            items.extend(early.map(|refusal| Item::Early(Some(kind), refusal)));
        }
        let never_started = [
            Refusal::BadNumber,
            Refusal::UnknownKind,
            Refusal::BadConfiguration,
            Refusal::TraceTooLong,
        ];
        items.extend(never_started.map(|refusal| Item::Early(None, refusal)));
        items.extend(FACTS.iter().copied().map(Item::Fact));
        items
    }
}

/// The counters.
#[derive(Default)]
pub struct Coverage {
    tally: Tally<Item>,
    steps: u64,
    handlers: u64,
    waits: u64,
    started: [u64; 5],
}

impl Coverage {
    /// Steps played, handlers started and waits seen, in all traces.
    pub fn amounts(&self) -> [u64; 3] {
        [self.steps, self.handlers, self.waits]
    }

    /// How many traces started a controller of a kind.
    pub fn started(&self, kind: Kind) -> u64 {
        self.started[kind as usize]
    }

    fn reach(&mut self, item: Item) {
        self.tally.reach(item);
    }

    /// Counts the situations that are there.
    fn facts(&mut self, facts: impl IntoIterator<Item = Fact>) {
        self.tally.facts(Item::Fact, facts);
    }

    /// Counts what a trace shows that was played up to a limit.
    pub fn see(&mut self, history: &History, report: &Report, limit: u32) {
        self.steps += u64::from(history.steps);
        self.trace(history, report, limit);
        if history.moments.is_empty() {
            return;
        }
        let early = report.ending.is_err();
        let figures = history.figures();
        let nothing_started = figures.sources.iter().all(|counts| counts.started == 0);
        for (source, counts) in figures.sources.iter().enumerate() {
            self.handlers += u64::from(counts.started);
            self.above(Figure::Started, counts.started);
            self.above(Figure::Waited, counts.waited);
            let waits = history.waits(source);
            self.waits += waits.len() as u64;
            self.facts(in_vain(&waits, nothing_started));
            let mut previous = None;
            for wait in &waits {
                self.facts(waited(history, wait, previous));
                self.wait(history, wait, early);
                previous = Some(wait.end);
            }
            self.largest(history, &waits);
            self.nesting(history, source, counts.entries);
        }
        for pair in history.moments.windows(2) {
            if let Some(source) = pair[1].started {
                self.facts(started(source, &pair[0]));
            }
        }
    }

    fn above(&mut self, figure: Figure, number: u32) {
        for (which, above) in ABOVE {
            if which == figure && number > above {
                self.reach(Item::Above(which, above));
            }
        }
    }

    /// What is to be seen of a trace of any kind.
    fn trace(&mut self, history: &History, report: &Report, limit: u32) {
        self.above(Figure::Steps, history.steps);
        self.above(Figure::Refused, history.refused);
        self.facts(ending(history, report, limit));
        let kind = report.machine.as_ref().map(|machine| machine.kind());
        if let Some(kind) = kind {
            self.started[kind as usize] += 1;
            if history.steps > 0 {
                self.reach(Item::Played(kind, history.refused > 0));
            }
        }
        if let Err(fault) = report.ending {
            self.reach(Item::Early(kind, fault.refusal));
        }
    }

    /// How a wait began and ended, what came in it, and from its end on while the source goes on asking.
    fn wait(&mut self, history: &History, wait: &Wait, early: bool) {
        let (moments, source) = (&history.moments, wait.source);
        self.reach(Item::Began(cause(&moments[wait.from], source)));
        let many = match history.others(wait) {
            0 => Many::None,
            1 => Many::One,
            _ => Many::More,
        };
        let how = match wait.end {
            End::Never => ended(early),
            End::Started if moments[wait.to].protected => How::Write,
            End::Started => How::Read,
            End::Over => over(&moments[wait.to]),
        };
        self.reach(Item::Ended(how, many));
        if many != Many::None {
            self.reach(Item::Waited(source));
        }
        let end = wait.to + usize::from(wait.end == End::Never);
        for at in wait.from + 1..end {
            self.facts(went_on(source, &moments[at - 1], &moments[at]));
        }
        if wait.end == End::Started && moments[wait.to].asks(source) {
            let until = (wait.to + 1..moments.len()).find(|&at| !moments[at].asks(source));
            let how = until.map_or(ended(early), |at| over(&moments[at]));
            self.reach(Item::Served(how));
            for at in wait.to + 1..until.unwrap_or(moments.len()) {
                self.facts(served(source, &moments[at - 1], &moments[at]));
            }
        }
    }

    /// Which of its waits a source's figure is of, if it is of one alone.
    fn largest(&mut self, history: &History, waits: &[Wait]) {
        let counts: Vec<u32> = waits.iter().map(|wait| history.others(wait)).collect();
        let Some(&most) = counts.iter().max() else {
            return;
        };
        if most < 13 {
            self.reach(Item::Most(most));
        }
        let of_most = |&at: &usize| counts[at] == most;
        let mut places = (0..counts.len()).filter(of_most);
        if let (1.., Some(at), None) = (most, places.next(), places.next()) {
            self.facts(largest(waits, at));
        }
    }

    /// How the most entries lay about a handler of a source.
    fn nesting(&mut self, history: &History, source: usize, most: u32) {
        let own = Some(source as u8);
        let mut first = None;
        if most > 0 {
            self.reach(Item::Open(source, most));
        }
        for moment in history.moments.iter().filter(|m| m.has_open(source)) {
            let entries = moment.entries();
            let mut deeper = false;
            if moment.started == Some(source) {
                deeper = *first.get_or_insert(entries.len()) < entries.len();
            }
            self.facts(opened_again(entries, own, deeper));
            let at = entries.iter().position(|&entry| entry == own).unwrap_or(0);
            if entries.len() as u32 == most {
                self.facts(nested(&entries[..at], &entries[at + 1..]));
            }
        }
    }
}

/// The offset that the step to this moment wrote, if it did.
fn written(moment: &Moment) -> Option<u32> {
    match moment.step {
        Some((Step::Write { offset, .. }, _)) => Some(offset),
        _ => None,
    }
}

/// What made a source ask at this moment.
fn cause(begun: &Moment, source: usize) -> Cause {
    match written(begun) {
        Some(SET) => Cause::Set,
        Some(ENABLE) => Cause::Enable,
        Some(FFDR) => Cause::Unforce,
        Some(_) => Cause::Mode,
        None if begun.edges >> source & 1 == 1 => Cause::Edge,
        None => Cause::Level,
    }
}

/// What ended that a source asks at this moment.
fn over(moment: &Moment) -> How {
    match written(moment) {
        Some(CLEAR) => How::Clear,
        Some(DISABLE) => How::Disable,
        Some(FFER) => How::Force,
        Some(_) => How::Mode,
        None => How::Line,
    }
}

fn ended(early: bool) -> How {
    match early {
        true => How::Early,
        false => How::Whole,
    }
}
