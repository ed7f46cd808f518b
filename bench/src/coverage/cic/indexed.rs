//! What is to be reached on the CIC with prioritised indices (02, 6/12): its registers, what an index names and passes
//! over, how a hold begins, each way in which it ends and each in which it must not.

use super::{place, registers, spots};
use crate::coverage::{offset, word_offset, Change, Coverage, Item, Outcome, Spot, Way, Whose};
use crate::facts;
use crate::model::cic::{Cic, Register as CicRegister};
use crate::model::indexed::{Index, Indexed, Register, NONE};
use crate::model::{Controller, Refusal, Step};
use crate::tally::Fact;

impl Change<'_, Indexed> {
    /// The register that the step is aimed at.
    fn register(&self) -> Option<Register> {
        Some(self.before.register(word_offset(self.step)?)?.0)
    }

    /// The register that was written, or would have been, and the value.
    fn written(&self) -> Option<(Register, u32)> {
        match self.step {
            Step::Write { value, .. } => Some((self.register()?, value)),
            _ => None,
        }
    }

    /// The indices that were held before the step, with their words.
    fn held(&self) -> impl Iterator<Item = (Index, u32)> + '_ {
        let hosts = (0..self.before.cic().hosts()).map(Index::Host);
        let indices = [Index::Global].into_iter().chain(hosts);
        indices.filter_map(|index| Some((index, self.before.held(index)?)))
    }
}

impl Whose {
    fn of(index: Index) -> Whose {
        match index {
            Index::Global => Whose::Global,
            Index::Host(_) => Whose::Host,
        }
    }
}

/// The bit of a number in a word.
fn has(word: u32, number: usize) -> bool {
    word >> (number % 32) & 1 == 1
}

facts! { FACTS;
    fn started(cic: &Cic) {
        let size = (cic.systems(), cic.channels(), cic.hosts());
        "indices of the smallest part" if size == (1, 1, 1);
        "indices of the largest part" if size == (1_024, 256, 256);
    }

    fn without_choice(change: &Change<Indexed>) {
        let (way, accepted) = (Way::of(change.step), change.answer.is_ok());
        let absent = change.answer == Err(Refusal::NoRegister);
        let no = |own, by| absent && offset(change.step) == Some(own) && way == by;
        "choice off: a read" if accepted && way == Way::Read;
        "choice off: a write" if accepted && way == Way::Write;
        "choice off: a line step" if accepted && way == Way::Line;
        "choice off: no control to read" if no(0x004, Way::Read);
        "choice off: no control to write" if no(0x004, Way::Write);
        "choice off: no global index to read" if no(0x080, Way::Read);
        "choice off: no global index to write" if no(0x080, Way::Write);
        "choice off: no host index to read" if no(0x900, Way::Read);
        "choice off: no host index to write" if no(0x900, Way::Write);
        "choice off: no last host index to read" if no(0xCFC, Way::Read);
        "choice off: no last host index to write" if no(0xCFC, Way::Write);
    }

    fn misaligned(offset: u32) {
        "a misaligned offset among the host indices"
            if !offset.is_multiple_of(4) && (0x900..0xD00).contains(&offset);
    }

    fn control(change: &Change<Indexed>, value: u32) {
        let (was, is) = (change.before.hold(), change.after.hold());
        let held = change.held().count();
        "control with bits that are dropped" if value & !0x10 != 0;
        "the mode off with nothing held" if was && !is && held == 0;
        "the mode off ends several holds" if was && !is && held > 1;
        "the mode on again" if !was && is;
        "the mode off again" if !was && !is;
    }
}

facts! { BOTH;
    fn polled(change: &Change<Indexed>, index: Index, word: u32) {
        let (mode, again) = (change.before.hold(), change.before.held(index).is_some());
        let begins = mode && !again;
        "a hold begun by a number" if begins && word != NONE;
        "a hold begun by none" if begins && word == NONE;
        "a hold begun beside another" if begins && change.held().count() > 0;
        "a number read with the mode off" if !mode && word != NONE;
        "none read with the mode off" if !mode && word == NONE;
    }

    /// None is held and read again.
    fn none_again(first: Option<usize>) {
        "none is held, and there is none" if first.is_none();
        "none is held against a system" if first.is_some();
    }

    /// A number is held and read again, though it may not be so any more.
    fn number_again(before: &Indexed, index: Index, held: usize) {
        let (cic, first) = (before.cic(), before.first(index));
        let order = |system: usize| (cic.channel_of(system), system);
        let earlier = first.is_some_and(|first| order(first) < order(held));
        let (set, enabled) = (cic.status().get(held), cic.enable().get(held));
        "a number is held that would be named" if first == Some(held);
        "held against one that comes before it" if earlier && before.meets(index, held);
        "held though its system is cleared" if !set;
        "held though its system is disabled" if set && !enabled;
    }

    /// Nothing was held, and a system was named.
    fn names(before: &Indexed, index: Index, named: usize) {
        let (cic, channel) = (before.cic(), before.cic().channel_of(named));
        let any = |test: &dyn Fn(usize) -> bool| (0..cic.systems()).any(test);
        let (set, enabled) = (|n| cic.status().get(n), |n| cic.enable().get(n));
        let meets = |other| other != named && before.meets(index, other);
        let passed = |other| passed_over(cic, named, other) && leads(cic, index, other);
        "the lower of two in a channel"
            if any(&|other| meets(other) && cic.channel_of(other) == channel);
        "a lower channel before a lower system" if any(&|other| other < named && meets(other));
        "a disabled system passed over"
            if any(&|other| passed(other) && set(other) && !enabled(other));
        "a system that is not set passed over"
            if any(&|other| passed(other) && !set(other) && enabled(other));
        "several channels have one"
            if any(&|other| meets(other) && cic.channel_of(other) != channel);
        "named while its host is disabled" if !cic.host_enable().get(cic.host_of(channel));
        "named while global enable is 0" if !cic.global_enable();
        "system 0 is named" if named == 0;
        "system 1,023 is named" if named == 1_023;
        "one of channel 255 is named" if channel == 255;
    }

    /// Nothing was held, and no system was named.
    fn names_none(before: &Indexed) {
        let nothing = before.cic().status().ones() == 0;
        "none with nothing set" if nothing;
        "none while all that are set are disabled"
            if !nothing && before.first(Index::Global).is_none();
    }

    fn index_written(before: &Indexed, index: Index) {
        "written with nothing held" if before.hold() && before.held(index).is_none();
        "written with the mode off" if !before.hold();
    }

    /// The hold of an index has ended by a write of a register.
    fn ended(register: Register, already: bool) {
        let by = |wanted| register == Register::Cic(wanted);
        let bit = matches!(register, Register::Cic(CicRegister::HostEnable(_)));
        "ended by a write of it" if matches!(register, Register::Index(_));
        "ended by the mode" if register == Register::Control;
        "ended by host index set" if by(CicRegister::HostEnableSetIndex);
        "ended by host index clear" if by(CicRegister::HostEnableClearIndex);
        "ended by an enable bit" if bit && !already;
    }

    /// An index is held after the step as before it.
    fn stayed(change: &Change<Indexed>, index: Index) {
        let (way, register) = (Way::of(change.step), change.register());
        let (read, write) = (way == Way::Read, way == Way::Write);
        let refused = change.answer.is_err();
        let another = |of: &Register| matches!(of, Register::Index(other) if *other != index);
        let host = matches!(register, Some(Register::Index(Index::Host(_))));
        let group = group(change.before.cic(), register);
        let past = |groups: &[&str]| write && groups.contains(&group);
        "kept past a line step" if way == Way::Line;
        "kept past a read of another index" if read && register.as_ref().is_some_and(another);
        "kept past a read of the CIC" if read && !group.is_empty();
        "kept past control with the mode on" if write && register == Some(Register::Control);
        "kept past a write of a host's index" if write && host;
        "kept past host index set, refused" if refused && past(&["host enable set index"]);
        "kept past host index clear, refused" if refused && past(&["host enable clear index"]);
        "kept past global enable" if past(&["global enable"]);
        "kept past a status write"
            if past(&["status set index", "status clear index", "raw/set", "enabled/clear"]);
        "kept past an enable write"
            if past(&["enable set index", "enable clear index", "enable set", "enable clear"]);
        "kept past a channel map write" if past(&["channel map"]);
        "kept past a host map write" if past(&["host map"]);
    }

    /// What a write does to the very system that is held.
    fn unsettled(before: &Cic, after: &Cic, system: usize) {
        let channel = before.channel_of(system);
        "kept past a clear of its system"
            if before.status().get(system) && !after.status().get(system);
        "kept past a disable of its system"
            if before.enable().get(system) && !after.enable().get(system);
        "kept past another channel of its system" if channel != after.channel_of(system);
        "kept past another host of its channel"
            if before.host_of(channel) != after.host_of(channel);
    }
}

facts! { GLOBAL;
    fn global_ended(register: Register, value: u32) {
        let enables = matches!(register, Register::Cic(CicRegister::HostEnable(_)));
        "ended by one enable bit of many hosts" if enables && value.count_ones() == 1;
    }

    fn global_stayed(value: u32) {
        "kept past enables of 0" if value == 0;
        "kept past bits of spare hosts" if value != 0;
    }
}

facts! { HOST;
    fn led_away(before: &Indexed, index: Index, held: usize) {
        let active = before.cic().status().get(held) && before.cic().enable().get(held);
        "held though its channel leads to another host" if active && !before.meets(index, held);
    }

    fn foreign(cic: &Cic, index: Index, named: usize) {
        let foreign = |other| passed_over(cic, named, other) && !leads(cic, index, other);
        "a system of another host passed over" if cic.active().any(foreign);
    }

    fn elsewhere(before: &Indexed) {
        "none while another host has one" if before.first(Index::Global).is_some();
    }

    fn host_ended(register: Register, already: bool) {
        let enables = matches!(register, Register::Cic(CicRegister::HostEnable(_)));
        "ended by an enable bit that was 1" if enables && already;
    }

    fn host_stayed(register: Register, refused: bool) {
        let by = |wanted| register == Register::Cic(wanted) && !refused;
        "kept past a write of the global index" if register == Register::Index(Index::Global);
        "kept past host index set of another" if by(CicRegister::HostEnableSetIndex);
        "kept past host index clear of another" if by(CicRegister::HostEnableClearIndex);
    }

    /// A register of host enables was written.
    fn enables_stayed(cic: &Cic, host: usize, register: usize, value: u32) {
        let (own, was) = (host / 32 == register, cic.host_enable().get(host));
        "kept past its enable bit put to 0" if own && was;
        "kept past its enable bit left at 0" if own && !was;
        "kept past enable bits of its neighbours" if own && value != 0;
        "kept past its place in another word" if !own && has(value, host);
    }
}

/// Whether another system comes before the one that is named.
fn passed_over(cic: &Cic, named: usize, other: usize) -> bool {
    (cic.channel_of(other), other) < (cic.channel_of(named), named)
}

/// Whether the channel of a system leads to the host of an index.
fn leads(cic: &Cic, index: Index, system: usize) -> bool {
    match index {
        Index::Global => true,
        Index::Host(host) => cic.host_of(cic.channel_of(system)) == host,
    }
}

/// The name of the group of a register of the CIC itself.
fn group(cic: &Cic, register: Option<Register>) -> &'static str {
    match register {
        Some(Register::Cic(register)) => place(cic, register).0,
        _ => "",
    }
}

impl Coverage {
    pub(in crate::coverage) fn indexed_started(&mut self, indexed: &Indexed) {
        self.facts(started(indexed.cic()));
    }

    /// Counts what a step on a CIC with prioritised indices shows.
    pub(in crate::coverage) fn indexed_step(&mut self, change: &Change<Indexed>) {
        let (before, after, step) = (change.before, change.after, change.step);
        if !before.prioritised() {
            return self.facts(without_choice(change));
        }
        self.indexed_register(change);
        match (step, change.register(), change.answer) {
            (Step::Read { .. }, Some(Register::Index(index)), Ok(word)) => {
                self.index_read(change, index, word);
            }
            (Step::Write { value, .. }, Some(Register::Control), _) => {
                self.facts(control(change, value));
            }
            (Step::Write { .. }, Some(Register::Index(index)), _) => {
                self.index(index, index_written(before, index));
            }
            _ => {}
        }
        for (index, word) in change.held() {
            match after.held(index) {
                Some(_) => self.hold_stayed(change, index, word),
                None => self.hold_ended(change, index),
            }
        }
    }

    /// Counts the situations of an index that are there.
    fn index(&mut self, index: Index, facts: impl IntoIterator<Item = Fact>) {
        let item = |situation| Item::Index(Whose::of(index), situation);
        self.tally.facts(item, facts);
    }

    fn indexed_register(&mut self, change: &Change<Indexed>) {
        let Some(offset) = offset(change.step) else {
            return;
        };
        self.facts(misaligned(offset));
        let cic = change.before.cic();
        let (group, place, size) = match offset {
            _ if !offset.is_multiple_of(4) => return,
            0x004 => ("control", 0, None),
            0x080 => ("global index", 0, None),
            0x900..0xD00 => {
                let host = (offset as usize - 0x900) / 4;
                ("host index", host, Some((cic.hosts(), 0)))
            }
            _ => match CicRegister::at(offset) {
                Some(register) => place(cic, register),
                None => return,
            },
        };
        for spot in spots(place, size) {
            self.reach(Item::Indexed(group, spot, change.outcome()));
        }
    }

    /// A read of an index that was carried out: it is held already, or names a system, or none.
    fn index_read(&mut self, change: &Change<Indexed>, index: Index, word: u32) {
        let before = change.before;
        let held = before.held(index).filter(|_| before.hold());
        let system = word as usize;
        self.index(index, polled(change, index, word));
        match (held.is_some(), word) {
            (true, NONE) => self.index(index, none_again(before.first(index))),
            (true, _) => {
                self.index(index, number_again(before, index, system));
                self.index(index, led_away(before, index, system));
            }
            (false, NONE) => {
                self.index(index, names_none(before));
                self.index(index, elsewhere(before));
            }
            (false, _) => {
                self.index(index, names(before, index, system));
                self.index(index, foreign(before.cic(), index, system));
            }
        }
    }

    /// The hold of an index has ended.
    fn hold_ended(&mut self, change: &Change<Indexed>, index: Index) {
        let Some((register, value)) = change.written() else {
            return self.index(index, [(true, "ended by no write")]);
        };
        let enables = change.before.cic().host_enable();
        let already = matches!(index, Index::Host(host) if enables.get(host));
        let group = group(change.before.cic(), Some(register));
        let other = !group.is_empty() && !group.starts_with("host enable");
        self.index(index, ended(register, already));
        self.index(index, [(other, "ended by something else")]);
        match index {
            Index::Global => self.index(index, global_ended(register, value)),
            Index::Host(_) => self.index(index, host_ended(register, already)),
        }
    }

    /// An index is held after the step as before it.
    fn hold_stayed(&mut self, change: &Change<Indexed>, index: Index, word: u32) {
        let (before, after) = (change.before.cic(), change.after.cic());
        self.index(index, stayed(change, index));
        let Some((register, value)) = change.written() else {
            return;
        };
        if word != NONE {
            self.index(index, unsettled(before, after, word as usize));
        }
        let enables = match register {
            Register::Cic(CicRegister::HostEnable(k)) => Some(k),
            _ => None,
        };
        match (index, enables) {
            (Index::Global, Some(_)) => self.index(index, global_stayed(value)),
            (Index::Host(host), Some(k)) => {
                self.index(index, enables_stayed(before, host, k, value));
            }
            (_, None) => self.index(index, host_stayed(register, change.answer.is_err())),
        }
    }
}

pub(in crate::coverage) fn wanted() -> Vec<Item> {
    let mut items = registers(Item::Indexed);
    for group in ["control", "global index"] {
        let outcomes = [Outcome::Read, Outcome::Written];
        items.extend(outcomes.map(|outcome| Item::Indexed(group, Spot::Single, outcome)));
    }
    for spot in [Spot::First, Spot::Middle, Spot::LastWhole] {
        let outcomes = [Outcome::Read, Outcome::Written];
        items.extend(outcomes.map(|outcome| Item::Indexed("host index", spot, outcome)));
    }
    let absent = Outcome::Refused(Refusal::NoRegister);
    items.push(Item::Indexed("host index", Spot::Beyond, absent));
    for (whose, own) in [(Whose::Global, GLOBAL), (Whose::Host, HOST)] {
        let situations = BOTH.iter().chain(own).copied();
        items.extend(situations.map(|situation| Item::Index(whose, situation)));
    }
    items.extend(FACTS.iter().copied().map(Item::Fact));
    items
}
