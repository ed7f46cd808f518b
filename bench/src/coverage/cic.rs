//! What is to be reached on the CIC: every register at every place of its group, limits, sizes and asserted hosts.

pub(super) mod indexed;

use super::{offset, word_offset, Change, Coverage, Item, Outcome, Spot};
use crate::facts;
use crate::model::cic::{Cic, Register};
use crate::model::{Access, Answer, Controller, Refusal, Step};

facts! { FACTS;
    fn left_out(offset: u32) {
        "CIC control 0x004 is left out" if offset == 0x004;
        "CIC global index 0x080 is left out" if offset == 0x080;
        "CIC host index 0x900 is left out" if offset == 0x900;
        "CIC host index 0xCFC is left out" if offset == 0xCFC;
        "CIC 0x1520, just after the map" if offset == 0x1520;
    }

    fn line(before: &Cic, line: u32, level: u32, answer: Answer) {
        let (systems, system) = (before.systems() as u32, line as usize);
        let rises = answer.is_ok() && !before.lines().get(system) && level == 1;
        let high = answer.is_ok() && before.lines().get(system);
        let set = answer.is_ok() && before.status().get(system);
        "the last CIC line" if line == systems - 1 && answer.is_ok();
        "the first CIC line that is none" if line == systems && level < 2;
        "CIC level 2" if line < systems && level == 2;
        "a rise sets the status" if rises && !set;
        "a rise on a disabled system" if rises && !before.enable().get(system);
        "a fall leaves the status" if high && level == 0 && set;
        "level 1 again is no rise" if high && level == 1 && !set;
    }

    fn cleared(before: &Cic, word: usize, value: u32) {
        let cleared = value & before.status().word(word);
        "a clear while the line is high" if cleared & before.lines().word(word) != 0;
        "a clear of a disabled system" if cleared & !before.enable().word(word) != 0;
    }

    fn enabled(value: u32) {
        "global enable with bits that are dropped" if value & !1 != 0;
    }

    fn index(index: u32, count: usize, refused: bool) {
        let count = count as u32;
        "the last index" if !refused && index + 1 == count;
        "the first index that is none" if refused && index == count;
        "an index that is only right in its low ten bits" if refused && index & 0x3FF < count;
    }

    /// `entries` are configured from this register on.
    fn map(value: u32, entries: usize, limit: usize, refused: bool) {
        let bytes = value.to_le_bytes().map(usize::from);
        let (real, spare) = bytes.split_at(entries.min(4));
        let at = |wanted: usize| real.iter().filter(|&&byte| byte == wanted).count();
        let wrong = real.iter().filter(|&&byte| byte >= limit).count();
        "a map byte just below its limit" if !refused && at(limit - 1) > 0;
        "a map byte at its limit" if refused && at(limit) == wrong;
        "one wrong map byte refuses three right ones" if refused && wrong == 1 && real.len() == 4;
        "a spare map byte over the limit is not checked"
            if !refused && spare.iter().any(|&byte| byte >= limit);
        "map byte 255 with 256 to choose from" if !refused && limit == 256 && at(255) > 0;
    }

    fn outputs(before: &Cic, after: &Cic) {
        let (was, now) = (before.asserted().ones(), after.asserted().ones());
        let reached = after.reached();
        let held_back = |host| reached.get(host) && !after.host_enable().get(host);
        "some hosts asserted" if now > 1 && now < 256;
        "one more host asserted" if was > 0 && now > was;
        "one host less asserted" if was > now && now > 0;
        "global enable holds a host back" if reached.ones() > 0 && !after.global_enable();
        "its own enable holds a host back"
            if after.global_enable() && (0..after.hosts()).any(held_back);
        "system enables hold all back" if after.status().ones() > 0 && reached.ones() == 0;
    }
}

impl Coverage {
    pub(super) fn cic_started(&mut self, cic: &Cic) {
        self.reach(Item::Count("systems", cic.systems()));
        self.reach(Item::Count("channels", cic.channels()));
        self.reach(Item::Count("hosts", cic.hosts()));
    }

    /// Counts what a step on the CIC shows.
    pub(super) fn cic_step(&mut self, change: &Change<Cic>) {
        let (before, cic, step, answer) = (change.before, change.after, change.step, change.answer);
        if let Some(register) = word_offset(step).and_then(Register::at) {
            let (group, place, size) = place(cic, register);
            for spot in spots(place, size) {
                self.reach(Item::Cic(group, spot, change.outcome()));
            }
        }
        match (step, offset(step)) {
            (Step::Line { line: n, level }, _) => self.facts(line(before, n, level, answer)),
            (_, Some(offset)) if answer.is_err() => self.facts(left_out(offset)),
            _ => {}
        }
        if let (Step::Write { value, .. }, Some(offset)) = (step, word_offset(step)) {
            if let Some((register, _)) = cic.register(offset) {
                self.cic_write(before, register, value, answer.is_err());
            }
        }
        let asserted = cic.asserted();
        self.reach(Item::Asserted(asserted.ones() as usize));
        self.reach(Item::Lowest(asserted.lowest().unwrap_or(256)));
        self.facts(outputs(before, cic));
    }

    fn cic_write(&mut self, before: &Cic, register: Register, value: u32, refused: bool) {
        let (systems, channels, hosts) = (before.systems(), before.channels(), before.hosts());
        match register {
            Register::StatusSetIndex
            | Register::StatusClearIndex
            | Register::EnableSetIndex
            | Register::EnableClearIndex => self.facts(index(value, systems, refused)),
            Register::HostEnableSetIndex | Register::HostEnableClearIndex => {
                self.facts(index(value, hosts, refused));
            }
            Register::ChannelMap(k) => self.facts(map(value, systems - 4 * k, channels, refused)),
            Register::HostMap(k) => self.facts(map(value, channels - 4 * k, hosts, refused)),
            Register::EnabledClear(k) => self.facts(cleared(before, k, value)),
            Register::GlobalEnable => self.facts(enabled(value)),
            _ => {}
        }
    }
}

/// The name of a register's group, its place in it, and the size of the group in registers and in entries beyond them.
fn place(cic: &Cic, register: Register) -> (&'static str, usize, Option<(usize, usize)>) {
    let of = |entries: usize, each| Some((entries.div_ceil(each), entries % each));
    let (systems, channels, hosts) = (cic.systems(), cic.channels(), cic.hosts());
    match register {
        Register::Revision => ("revision", 0, None),
        Register::GlobalEnable => ("global enable", 0, None),
        Register::StatusSetIndex => (INDEXES[0], 0, None),
        Register::StatusClearIndex => (INDEXES[1], 0, None),
        Register::EnableSetIndex => (INDEXES[2], 0, None),
        Register::EnableClearIndex => (INDEXES[3], 0, None),
        Register::HostEnableSetIndex => (INDEXES[4], 0, None),
        Register::HostEnableClearIndex => (INDEXES[5], 0, None),
        Register::RawSet(k) => (GROUPS[0], k, of(systems, 32)),
        Register::EnabledClear(k) => (GROUPS[1], k, of(systems, 32)),
        Register::EnableSet(k) => (GROUPS[2], k, of(systems, 32)),
        Register::EnableClear(k) => (GROUPS[3], k, of(systems, 32)),
        Register::ChannelMap(k) => (GROUPS[4], k, of(systems, 4)),
        Register::HostMap(k) => (GROUPS[5], k, of(channels, 4)),
        Register::HostEnable(k) => (GROUPS[6], k, of(hosts, 32)),
    }
}

/// What a place is: it can be the first and the last at once.
fn spots(place: usize, size: Option<(usize, usize)>) -> Vec<Spot> {
    let Some((registers, over)) = size else {
        return vec![Spot::Single];
    };
    let last = place + 1 == registers;
    let is = [
        (place >= registers, Spot::Beyond),
        (place == 0, Spot::First),
        (0 < place && place + 1 < registers, Spot::Middle),
        (last && over == 0, Spot::LastWhole),
        (last && over > 0, Spot::LastWithSpare),
    ];
    let there = is.into_iter().filter(|&(there, _)| there);
    there.map(|(_, spot)| spot).collect()
}

const INDEXES: [&str; 6] = [
    "status set index",
    "status clear index",
    "enable set index",
    "enable clear index",
    "host enable set index",
    "host enable clear index",
];

const GROUPS: [&str; 7] = [
    "raw/set",
    "enabled/clear",
    "enable set",
    "enable clear",
    "channel map",
    "host map",
    "host enable",
];

/// The places of a group's registers.
const INSIDE: [Spot; 4] = [
    Spot::First,
    Spot::Middle,
    Spot::LastWhole,
    Spot::LastWithSpare,
];

/// The registers with all that can come of an access to each, as items of a kind of CIC.
fn registers(item: fn(&'static str, Spot, Outcome) -> Item) -> Vec<Item> {
    let mut items = Vec::new();
    let mut both = |group, spot, access| {
        items.extend(Outcome::both(access).map(|outcome| item(group, spot, outcome)));
    };
    both("revision", Spot::Single, Access::ReadOnly);
    both("global enable", Spot::Single, Access::ReadWrite);
    for group in INDEXES {
        both(group, Spot::Single, Access::WriteOnly);
    }
    for group in GROUPS {
        for spot in INSIDE {
            both(group, spot, Access::ReadWrite);
        }
    }
    let out_of_range = Outcome::Refused(Refusal::OutOfRange);
    items.extend(INDEXES.map(|group| item(group, Spot::Single, out_of_range)));
    for group in ["channel map", "host map"] {
        items.extend(INSIDE.map(|spot| item(group, spot, out_of_range)));
    }
    let absent = Outcome::Refused(Refusal::NoRegister);
    items.extend(GROUPS.map(|group| item(group, Spot::Beyond, absent)));
    items
}

pub(super) fn wanted() -> Vec<Item> {
    let mut items = registers(Item::Cic);
    items.extend([1, 32, 33, 1_023, 1_024].map(|count| Item::Count("systems", count)));
    items.extend([1, 2, 255, 256].map(|count| Item::Count("channels", count)));
    items.extend([1, 2, 33, 255, 256].map(|count| Item::Count("hosts", count)));
    items.extend([0, 1, 2, 33, 256].map(Item::Asserted));
    items.extend([0, 1, 255, 256].map(Item::Lowest));
    items.extend(FACTS.iter().copied().map(Item::Fact));
    items
}
