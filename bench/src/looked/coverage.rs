//! What the questions have reached, counted from the model alone; a listed item not reached is a gap.

use super::Question;
use crate::model::cic::Cic;
use crate::model::indexed::{Index, Indexed, Register, NONE};
use crate::model::{Access, Controller, Kind, Machine, Refusal};
use crate::tally::{each, Fact, Listed, Tally};
use crate::trace::Report;
use crate::{facts, sorts};

/// Something that a comparison should have reached. All but the last four are about an index that is not held.
#[derive(Clone, Copy, Debug, PartialEq, Eq, PartialOrd, Ord, Hash)]
pub enum Item {
    /// In the channel that has one, so many words were looked at.
    Words(Whose, u32),
    /// In a part of three words or more it was found here, or nowhere.
    Found(Whose, Place),
    /// The same in a part of so many systems, where one word is first and last.
    Systems(usize, Place),
    /// So many channels were searched.
    Searched(Whose, Channels),
    /// A situation of a search in plain words.
    Search(Whose, &'static str),
    /// The index is held.
    Held(Whose, &'static str),
    /// The read would be refused.
    Refused(Refusal),
    /// Another controller, which looks at no word.
    Other(Kind),
    /// A situation in plain words.
    Fact(&'static str),
}

sorts! {
    /// Whose index is asked for.
    Whose { Global, Host }
}

impl Whose {
    fn of(index: Index) -> Whose {
        match index {
            Index::Global => Whose::Global,
            Index::Host(_) => Whose::Host,
        }
    }
}

sorts! {
    /// In which word of its channel one was found.
    Place { First, Middle, Last, Nowhere }

    /// How many channels were searched.
    Channels {
        None,
        One,
        Several,
        /// All 256.
        Most,
    }
}

/// The numbers of systems that are to be met: one word or two, just filled or just begun.
const SIZES: [usize; 4] = [1, 32, 33, 1_024];

facts! { FACTS;
    fn ending(report: &Report) {
        let ended = report.ending.map_err(|fault| fault.refusal);
        let limit = ended == Err(Refusal::StepLimit);
        let started = report.machine.is_some();
        let indexed = matches!(report.machine, Some(Machine::Indexed(_)));
        "no controller was started" if !started;
        "after the whole trace" if indexed && ended.is_ok();
        "before the first step" if indexed && limit && report.steps == 0;
        "amid the trace, at the step limit" if indexed && limit && report.steps > 0;
        "where a fault ended the trace" if indexed && ended.is_err() && !limit;
    }

    fn registers(indexed: &Indexed, offset: u32) {
        let found = indexed.found(offset);
        let (register, access) = (found.map(|found| found.0), found.map(|found| found.1));
        let cic = matches!(register, Ok(Register::Cic(_)));
        "choice off: a register of its own"
            if !indexed.prioritised() && [0x004, 0x080, 0x900].contains(&offset);
        "the control register" if register == Ok(Register::Control);
        "a register of the CIC" if cic && access != Ok(Access::WriteOnly);
    }
}

facts! { HOLDS;
    fn held(word: u32, first: Option<usize>) {
        "a number" if word != NONE;
        "none" if word == NONE;
        "a search would find another" if word != first.map_or(NONE, |system| system as u32);
    }
}

facts! { SEARCHES;
    /// What stands in a word before the one in which a channel has one.
    fn passed(cic: &Cic, channel: usize, word: usize) {
        let (set, enabled) = (cic.status().word(word), cic.enable().word(word));
        let of_channel = |bit: &usize| cic.channel_of(32 * word + bit) == channel;
        let own = (0..32).filter(of_channel).fold(0, |own, bit| own | 1 << bit);
        "a word of zeros before it" if set == 0;
        "one of another channel before it" if set & enabled & !own != 0;
        "a disabled one before it" if set & !enabled & own != 0;
        "one that is not set before it" if !set & enabled & own != 0;
    }

    fn found(indexed: &Indexed, index: Index, system: usize) {
        let (cic, own) = (indexed.cic(), indexed.cic().channel_of(system));
        let active = cic.status().word(system / 32) & cic.enable().word(system / 32);
        let leads = |channel: usize| indexed.leads(index, channel);
        "several in its word" if active.count_ones() > 1;
        "a channel behind it not searched" if (own + 1..cic.channels()).any(leads);
    }

    /// What a search does not ask for.
    fn mode(indexed: &Indexed) {
        let cic = indexed.cic();
        let mut indices = (0..cic.hosts()).map(Index::Host).chain([Index::Global]);
        "the hold mode on" if indexed.hold();
        "the hold mode off" if !indexed.hold();
        "another index held" if indices.any(|other| indexed.held(other).is_some());
        "global enable 0" if !cic.global_enable();
        "the largest part" if cic.systems() == 1_024 && cic.channels() == 256;
    }
}

facts! { OF_A_HOST;
    /// The channels before the one that has one.
    fn skipped(indexed: &Indexed, index: Index, own: usize) {
        let cic = indexed.cic();
        let skipped = || (0..own).filter(|&channel| !indexed.leads(index, channel));
        let has = |channel| cic.active().any(|system| cic.channel_of(system) == channel);
        "a channel of another host skipped" if skipped().count() > 0;
        "one that has one skipped" if skipped().any(has);
    }

    fn masked(cic: &Cic, index: Index) {
        "its host disabled" if matches!(index, Index::Host(host) if !cic.host_enable().get(host));
    }
}

/// The counters.
#[derive(Default)]
pub struct Coverage {
    tally: Tally<Item>,
    /// The words of all answers together.
    pub words: u64,
}

impl Coverage {
    fn reach(&mut self, item: Item) {
        self.tally.reach(item);
    }

    /// Counts what a question shows, of which the trace was played so.
    pub fn see(&mut self, question: &Question, report: &Report) {
        self.tally.facts(Item::Fact, ending(report));
        match &report.machine {
            None => {}
            Some(Machine::Indexed(indexed)) => {
                self.words += u64::from(indexed.looked(question.offset));
                self.asked(indexed, question.offset);
            }
            Some(other) => self.reach(Item::Other(other.kind())),
        }
    }

    fn asked(&mut self, indexed: &Indexed, offset: u32) {
        self.tally.facts(Item::Fact, registers(indexed, offset));
        match indexed.found(offset) {
            Err(refusal) => self.reach(Item::Refused(refusal)),
            Ok((_, Access::WriteOnly)) => self.reach(Item::Refused(Refusal::WriteOnly)),
            Ok((Register::Index(index), _)) => match indexed.held(index) {
                Some(word) => {
                    let item = |fact| Item::Held(Whose::of(index), fact);
                    self.tally.facts(item, held(word, indexed.first(index)));
                }
                None => self.search(indexed, index),
            },
            Ok(_) => {}
        }
    }

    /// Counts the situations of a search that are there.
    fn searches(&mut self, whose: Whose, facts: impl IntoIterator<Item = Fact>) {
        self.tally.facts(|fact| Item::Search(whose, fact), facts);
    }

    /// The index is not held, so its channels are searched.
    fn search(&mut self, indexed: &Indexed, index: Index) {
        let (whose, cic) = (Whose::of(index), indexed.cic());
        let first = indexed.first(index);
        if let Some(system) = first {
            self.reach(Item::Words(whose, system as u32 / 32 + 1));
            let own = cic.channel_of(system);
            for word in 0..system / 32 {
                self.searches(whose, passed(cic, own, word));
            }
            self.searches(whose, found(indexed, index, system));
            self.searches(whose, skipped(indexed, index, own));
        }
        self.place(cic, whose, first);
        let end = first.map_or(cic.channels(), |system| cic.channel_of(system) + 1);
        let searched = (0..end).filter(|&channel| indexed.leads(index, channel));
        let channels = match searched.count() {
            0 => Channels::None,
            1 => Channels::One,
            256 => Channels::Most,
            _ => Channels::Several,
        };
        self.reach(Item::Searched(whose, channels));
        self.searches(whose, mode(indexed));
        self.searches(whose, masked(cic, index));
    }

    /// In which word one was found, where that tells something.
    fn place(&mut self, cic: &Cic, whose: Whose, first: Option<usize>) {
        let words = cic.systems().div_ceil(32);
        let place = match first.map(|system| system / 32) {
            None => Place::Nowhere,
            Some(0) => Place::First,
            Some(word) if word + 1 < words => Place::Middle,
            Some(_) => Place::Last,
        };
        if words >= 3 {
            self.reach(Item::Found(whose, place));
        }
        if SIZES.contains(&cic.systems()) {
            self.reach(Item::Systems(cic.systems(), place));
            if place == Place::First && words == 1 {
                self.reach(Item::Systems(cic.systems(), Place::Last));
            }
        }
    }
}

impl Listed for Coverage {
    type Item = Item;

    fn tally(&self) -> &Tally<Item> {
        &self.tally
    }

    fn wanted() -> Vec<Item> {
        let mut items = Vec::new();
        for whose in Whose::ALL {
            items.extend((1..=32).map(|words| Item::Words(whose, words)));
            items.extend(each(|place| Item::Found(whose, place)));
            let channels = [Channels::One, Channels::Several, Channels::Most];
            items.extend(channels.map(|channels| Item::Searched(whose, channels)));
            items.extend(SEARCHES.iter().map(|fact| Item::Search(whose, fact)));
            items.extend(HOLDS.iter().map(|fact| Item::Held(whose, fact)));
        }
        items.extend(OF_A_HOST.iter().map(|fact| Item::Search(Whose::Host, fact)));
        items.push(Item::Searched(Whose::Host, Channels::None));
        for systems in SIZES {
            let places = [Place::First, Place::Last, Place::Nowhere];
            items.extend(places.map(|place| Item::Systems(systems, place)));
        }
        items.push(Item::Systems(1_024, Place::Middle));
        let refusals = [Refusal::Misaligned, Refusal::NoRegister, Refusal::WriteOnly];
        items.extend(refusals.map(Item::Refused));
        let others = Kind::ALL.into_iter().filter(|&kind| kind != Kind::Indexed);
        items.extend(others.map(Item::Other));
        items.extend(FACTS.iter().copied().map(Item::Fact));
        items
    }
}
