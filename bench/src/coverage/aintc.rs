//! What is to be reached on the AINTC: every register by every privilege, and each way to be chosen, held and released
//! on both sides.

use super::{offset, By, Change, Coverage, Item, Outcome, Way};
use crate::facts;
use crate::model::aintc::{has, ones, Aintc, Chosen, Register, Side, INPUTS};
use crate::model::{Access, Kind, Refusal, Step};
use crate::tally::{each, Fact};

impl Change<'_, Aintc> {
    /// The register that was written and the value.
    fn written(&self) -> Option<(Register, u32)> {
        match self.step {
            Step::Write { offset, value } => Register::at(offset).map(|register| (register, value)),
            _ => None,
        }
    }

    /// The value that was written to a register.
    fn value_for(&self, register: Register) -> Option<u32> {
        let written = self.written().filter(|&(other, _)| other == register);
        written.map(|(_, value)| value)
    }

    /// One of the bits is 1 in what was written to a register.
    fn writes(&self, register: Register, bits: u32) -> bool {
        self.value_for(register)
            .is_some_and(|value| value & bits != 0)
    }

    fn resets(&self) -> bool {
        self.writes(Register::SysConfig, 2)
    }

    /// The side's agreement bit was written.
    fn releases(&self, side: Side) -> bool {
        self.writes(Register::Control, side.agreement())
    }

    fn reads(&self) -> bool {
        matches!(self.step, Step::Read { .. })
    }

    /// The side looked for one to choose.
    fn sorts(&self, side: Side) -> bool {
        let free = self.before.chosen(side).is_none() || self.releases(side);
        free && !self.resets() && !self.reads()
    }

    /// The bit of an input is 1 in what was written to a register of its bank.
    fn names(&self, input: usize, register: fn(u8) -> Register) -> bool {
        self.writes(register((input / 32) as u8), 1 << (input % 32))
    }
}

facts! { FACTS;
    fn refused_line(line: u32, level: u32) {
        "AINTC line 128" if line == 128 && level < 2;
        "AINTC level 2" if line < 128 && level == 2;
        "AINTC line and level both wrong" if line > 127 && level > 1;
    }

    fn line(before: &Aintc, line: u32) {
        "AINTC line 127" if line == 127;
        "an AINTC line under protection" if before.protected();
    }

    fn shown(after: &Aintc) {
        let of = |number| after.chosen(Side::Irq).is_some_and(|chosen| chosen.number == number);
        "IRQ active with number 0" if of(0);
        "IRQ active with number 127" if of(127);
    }

    /// The order of the checks.
    fn access(offset: u32, privilege: u32, guarded: bool) {
        let aligned = offset.is_multiple_of(4);
        let nowhere = aligned && Register::at(offset).is_none();
        let large = privilege > 1;
        let unprivileged = privilege == 0 && guarded;
        "too large a privilege, misaligned" if large && !aligned;
        "too large a privilege at no register" if large && nowhere;
        "a privilege that is right in its low byte alone" if large && privilege & 0xFF < 2;
        "the largest privilege" if privilege == u32::MAX;
        "unprivileged and misaligned under protection" if unprivileged && !aligned;
        "unprivileged at no register under protection" if unprivileged && nowhere;
    }

    /// Offsets beside registers where there is none.
    fn gaps(offset: u32) {
        "AINTC 0x004, just after REVISION" if offset == 0x004;
        "AINTC 0x00C, just before SYSCONFIG" if offset == 0x00C;
        "AINTC 0x018, just after SYSSTATUS" if offset == 0x018;
        "AINTC 0x03C, just before SIR_IRQ" if offset == 0x03C;
        "AINTC 0x054, just after IDLE" if offset == 0x054;
        "AINTC 0x05C, just before IRQ_PRIORITY" if offset == 0x05C;
        "AINTC 0x06C, just after THRESHOLD" if offset == 0x06C;
        "AINTC 0x07C, just before ITR0" if offset == 0x07C;
        "AINTC 0x300, just after the map" if offset == 0x300;
    }

    fn itr(after: &Aintc, n: u8, value: u32) {
        "ITR passes over a soft bit" if in_bank(after.soft() & !after.levels(), n) != 0;
        "ITR shows a masked line" if value & in_bank(after.masks(), n) != 0;
    }

    fn isr_set(after: &Aintc, n: u8, value: u32) {
        "ISR_SET passes over a line" if in_bank(after.levels() & !after.soft(), n) != 0;
        "ISR_SET reads a soft bit" if value != 0;
    }

    /// Bits that are dropped, masks both ways at once, both agreements, and what the soft reset finds.
    fn write(change: &Change<Aintc>, register: Register, value: u32) {
        let (before, after) = (change.before, change.after);
        let drops = |name, kept: u32| register == name && value & !kept != 0;
        let freed = before.masks() & !after.masks() != 0;
        let masked = after.masks() & !before.masks() != 0;
        let mir = matches!(register, Register::Mir(_));
        let stays = |n| value & in_bank(before.soft() & before.levels(), n) != 0;
        let busy = |side| change.releases(side) && before.chosen(side).is_some();
        let resets = change.resets();
        "REVISION written with bits that are dropped" if drops(Register::Revision, 0xFF);
        "SYSCONFIG written with bits that are dropped" if drops(Register::SysConfig, 3);
        "CONTROL written with bits that are dropped" if drops(Register::Control, 3);
        "PROTECTION written with bits that are dropped" if drops(Register::Protection, 1);
        "IDLE written with bits that are dropped" if drops(Register::Idle, 3);
        "THRESHOLD written with bits that are dropped" if drops(Register::Threshold, 0xFF);
        "ILR written with bits that are dropped"
            if matches!(register, Register::Ilr(_)) && value & !0x1FD != 0;
        "MIR masks and unmasks in one write" if mir && freed && masked;
        "a soft clear leaves a line that is high"
            if matches!(register, Register::IsrClear(n) if stays(n));
        "both agreements in one write" if busy(Side::Irq) && busy(Side::Fiq);
        "a soft reset by 2" if resets && value & 1 == 0;
        "a soft reset by 3" if resets && value & 1 == 1;
        "a soft reset with a line high" if resets && before.levels() != 0;
        "a soft reset with a soft bit set" if resets && before.soft() != 0;
        "a soft reset ends protection" if resets && before.protected();
    }
}

facts! { SIDE_FACTS;
    fn sir_read(after: &Aintc, side: Side) {
        "SIR with one chosen" if after.chosen(side).is_some();
        "SIR with none chosen" if after.chosen(side).is_none();
    }

    fn priority_read(after: &Aintc, side: Side) {
        let chosen = after.chosen(side);
        let today = |chosen: &Chosen| after.priority(chosen.number.into());
        "PRIORITY with one chosen" if chosen.is_some();
        "PRIORITY with none chosen" if chosen.is_none();
        "PRIORITY is 0x7F" if chosen.is_some_and(|chosen| chosen.priority == 0x7F);
        "PRIORITY where today's ILR would mislead"
            if chosen.is_some_and(|chosen| today(&chosen) != chosen.priority);
    }

    fn pending_read(after: &Aintc, side: Side, n: u8, value: u32) {
        let own = |word| ones(word).filter(|&input| input / 32 == usize::from(n));
        let low = |input| !after.passes(after.priority(input));
        let masked = |input| after.route(input) == side;
        "PENDING shows an input" if value != 0;
        "PENDING shows an input that the threshold keeps out" if own(after.pending(side)).any(low);
        "PENDING passes over an input of the other side"
            if in_bank(after.pending(side.other()), n) != 0;
        "PENDING passes over a masked input" if own(after.raised() & after.masks()).any(masked);
    }

    fn chosen_over(after: &Aintc, side: Side, chosen: Chosen) {
        let number = usize::from(chosen.number);
        let mut pending = ones(after.pending(side));
        let others = || after.eligible(side).filter(|&other| other != number);
        let lower = |other: usize| after.priority(other) > chosen.priority;
        "chosen alone" if others().count() == 0;
        "chosen before a lower priority of a lower input"
            if others().any(|other| other < number && lower(other));
        "chosen before a lower priority of a higher input"
            if others().any(|other| other > number && lower(other));
        "chosen by a tie" if others().any(|other| after.priority(other) == chosen.priority);
        "chosen while the threshold keeps another out"
            if pending.any(|other| !after.passes(after.priority(other)));
        "chosen while the other side is busy" if after.chosen(side.other()).is_some();
    }

    fn chosen_by(change: &Change<Aintc>, side: Side, number: usize) {
        let line = Step::Line { line: number as u32, level: 1 };
        let ilr = change.value_for(Register::Ilr(number as u8)).is_some();
        let routed = change.before.route(number) != side;
        let passes = change.before.passes(change.before.priority(number));
        "chosen by its line" if change.step == line;
        "chosen by its soft bit" if change.names(number, Register::IsrSet);
        "chosen by MIR_CLEAR" if change.names(number, Register::MirClear);
        "chosen by a write of MIR" if matches!(change.written(), Some((Register::Mir(_), _)));
        "chosen by a write of THRESHOLD" if change.value_for(Register::Threshold).is_some();
        "chosen by the route in its ILR" if ilr && routed;
        "chosen by the priority in its ILR" if ilr && !routed && !passes;
    }

    /// The side keeps its chosen one over a step that might have moved it: another is better; its line, its soft bit or
    /// its mask goes, and with it what was pending; its ILR or the threshold is another, so that it would not be chosen
    /// now, or not so soon.
    fn held(change: &Change<Aintc>, side: Side, chosen: Chosen) {
        let (before, after, number) = (change.before, change.after, usize::from(chosen.number));
        let came = |&other: &usize| !before.eligible(side).any(|there| there == other);
        let newcomers = || after.eligible(side).filter(came);
        let equal = |other: usize| after.priority(other) == chosen.priority;
        let gone = has(before.raised(), number) && !has(after.raised(), number);
        let by_line = matches!(change.step, Step::Line { .. });
        let masked = has(after.masks(), number) && !has(before.masks(), number);
        let by_set = change.names(number, Register::MirSet);
        let waits = |aintc: &Aintc, input| aintc.eligible(side).any(|there| there == input);
        let lost = |input| input != number && waits(before, input) && !waits(after, input);
        let ilr = change.value_for(Register::Ilr(number as u8)).is_some();
        let passes = |aintc: &Aintc| aintc.passes(aintc.priority(number));
        let control = change.value_for(Register::Control);
        let twice = |aintc: &Aintc| {
            aintc.chosen(side.other()).is_some_and(|other| other.number == chosen.number)
        };
        "held against a higher priority"
            if newcomers().any(|other| after.priority(other) < chosen.priority);
        "held against an equal priority of a higher input"
            if newcomers().any(|other| other > number && equal(other));
        "held though its line is gone" if gone && by_line;
        "held though its soft bit is cleared" if gone && !by_line;
        "held though masked by MIR_SET" if masked && by_set;
        "held though masked by a write of MIR" if masked && !by_set;
        "an input that waits goes away unseen"
            if matches!(change.step, Step::Line { line, level: 0 } if lost(line as usize));
        "held though rerouted"
            if ilr && before.route(number) == side && after.route(number) != side;
        "held though its priority is another"
            if ilr && before.priority(number) != after.priority(number);
        "held though the threshold falls to it" if passes(before) && !passes(after) && !ilr;
        "held against the other side's agreement" if change.releases(side.other());
        "held against CONTROL without either bit" if control.is_some_and(|value| value & 3 == 0);
        "held while the other side chooses the same input" if twice(after) && !twice(before);
    }

    fn kept(change: &Change<Aintc>, side: Side) {
        let refused = change.answer == Err(Refusal::Unprivileged);
        "held against an agreement that is refused"
            if refused && change.releases(side) && change.before.chosen(side).is_some();
    }

    fn released(change: &Change<Aintc>, side: Side) {
        let number = |aintc: &Aintc| aintc.chosen(side).map(|chosen| chosen.number);
        let (was, is) = (number(change.before), number(change.after));
        let (some, none) = (was.is_some(), is.is_none());
        "released with none chosen" if !some;
        "released to the same" if some && is == was;
        "released to another" if some && !none && is != was;
        "released to none" if some && none;
        "released to none while the threshold keeps one out"
            if some && none && change.after.pending(side) != 0;
    }

    fn reset(before: &Aintc, side: Side) {
        let chosen = before.chosen(side);
        "a soft reset with one chosen" if chosen.is_some();
        "a soft reset with the chosen line high"
            if chosen.is_some_and(|chosen| has(before.levels(), chosen.number.into()));
    }
}

impl Coverage {
    /// Counts what a step on the AINTC shows.
    pub(super) fn aintc_step(&mut self, change: &Change<Aintc>, privilege: u32) {
        let (before, after, step) = (change.before, change.after, change.step);
        self.aintc_access(change, privilege);
        let Ok(read) = change.answer else {
            if let Step::Line { line, level } = step {
                self.facts(refused_line(line, level));
            }
            for side in Side::BOTH {
                self.side(side, kept(change, side));
            }
            return;
        };
        match step {
            Step::Read { offset } => self.aintc_read(after, offset, read),
            Step::Write { value, .. } => {
                if let Some((register, _)) = change.written() {
                    self.facts(write(change, register, value));
                }
            }
            Step::Line { line: n, .. } => self.facts(line(before, n)),
        }
        for side in Side::BOTH {
            self.aintc_side(change, side);
        }
        self.facts(shown(after));
    }

    /// The access as it was asked for.
    fn aintc_access(&mut self, change: &Change<Aintc>, privilege: u32) {
        let Some(offset) = offset(change.step) else {
            return;
        };
        let (way, by) = (Way::of(change.step), By::of(privilege));
        let guarded = change.before.protected();
        let register = Register::at(offset).filter(|_| offset.is_multiple_of(4));
        if let Some(register) = register.filter(|&register| is_listed(register)) {
            self.reach(Item::Aintc(register, way, by, guarded, change.outcome()));
        }
        match (register, change.answer) {
            (Some(Register::Ilr(input)), Ok(_)) => self.reach(Item::Ilr(input, way)),
            (_, Err(_)) => self.facts(gaps(offset)),
            _ => {}
        }
        self.facts(access(offset, privilege, guarded));
    }

    fn aintc_read(&mut self, after: &Aintc, offset: u32, value: u32) {
        match Register::at(offset) {
            Some(Register::Sir(side)) => self.side(side, sir_read(after, side)),
            Some(Register::Priority(side)) => self.side(side, priority_read(after, side)),
            Some(Register::Pending(side, n)) => {
                self.side(side, pending_read(after, side, n, value));
            }
            Some(Register::Itr(n)) => self.facts(itr(after, n, value)),
            Some(Register::IsrSet(n)) => self.facts(isr_set(after, n, value)),
            _ => {}
        }
    }

    /// What an accepted step does to a side.
    fn aintc_side(&mut self, change: &Change<Aintc>, side: Side) {
        let (before, after) = (change.before, change.after);
        if change.sorts(side) {
            self.judged(after, side);
        }
        match (before.chosen(side), after.chosen(side)) {
            (_, Some(chosen)) if change.sorts(side) => {
                let number = usize::from(chosen.number);
                if number % 32 == 0 || number % 32 == 31 {
                    self.reach(Item::Chosen(side, chosen.number));
                }
                self.side(side, chosen_over(after, side, chosen));
                self.side(side, chosen_by(change, side, number));
            }
            (Some(_), Some(chosen)) if !change.reads() => {
                self.side(side, held(change, side, chosen));
            }
            _ => {}
        }
        if change.releases(side) {
            self.side(side, released(change, side));
        }
        if change.resets() {
            self.side(side, reset(before, side));
        }
    }

    /// The priorities of all that is pending, against the threshold.
    fn judged(&mut self, after: &Aintc, side: Side) {
        let threshold = after.threshold();
        for input in ones(after.pending(side)) {
            let priority = after.priority(input);
            if JUDGED.contains(&(threshold, priority)) {
                self.reach(Item::Judged(side, threshold, priority));
            }
        }
    }

    /// Counts the situations of a side that are there.
    fn side(&mut self, side: Side, facts: impl IntoIterator<Item = Fact>) {
        self.tally.facts(|fact| Item::Side(side, fact), facts);
    }
}

/// The 32 bits of a bank.
fn in_bank(word: u128, n: u8) -> u32 {
    (word >> (32 * n)) as u32
}

/// All registers but the ILRs between the first and the last.
fn is_listed(register: Register) -> bool {
    !matches!(register, Register::Ilr(1..=126))
}

/// What an access must come to (02, 2/12): 6 before 13 before 3 or 4.
fn outcome(register: Register, way: Way, by: By, guarded: bool) -> Outcome {
    let restricted = guarded || register == Register::Protection;
    match (by, way, register.access()) {
        (By::TooLarge, ..) => Outcome::Refused(Refusal::OutOfRange),
        (By::Unprivileged, ..) if restricted => Outcome::Refused(Refusal::Unprivileged),
        (_, Way::Read, Access::WriteOnly) => Outcome::Refused(Refusal::WriteOnly),
        (_, Way::Write, Access::ReadOnly) => Outcome::Refused(Refusal::ReadOnly),
        (_, Way::Read, _) => Outcome::Read,
        _ => Outcome::Written,
    }
}

/// The registers with all that can come of an access to each, by every privilege, under protection and not.
fn registers() -> Vec<Item> {
    let mut items = Vec::new();
    let registers = (0..0x300).step_by(4).filter_map(Register::at);
    for register in registers.filter(|&register| is_listed(register)) {
        for way in [Way::Read, Way::Write] {
            items.extend(each(|(by, guarded)| {
                let outcome = outcome(register, way, by, guarded);
                Item::Aintc(register, way, by, guarded, outcome)
            }));
        }
    }
    for input in 0..INPUTS {
        items.extend([Way::Read, Way::Write].map(|way| Item::Ilr(input as u8, way)));
    }
    items
}

pub(super) fn wanted() -> Vec<Item> {
    let mut items = registers();
    for way in [Way::Read, Way::Write] {
        for refusal in [Refusal::OutOfRange, Refusal::Unprivileged] {
            items.push(Item::Refused(Kind::Aintc, way, refusal));
        }
    }
    for side in Side::BOTH {
        let ends = [0, 31, 32, 63, 64, 95, 96, 127];
        items.extend(ends.map(|number| Item::Chosen(side, number)));
        items.extend(JUDGED.map(|(threshold, priority)| Item::Judged(side, threshold, priority)));
        items.extend(SIDE_FACTS.iter().map(|&fact| Item::Side(side, fact)));
    }
    items.extend(FACTS.iter().copied().map(Item::Fact));
    items
}

/// Thresholds and priorities at whose meeting the rule turns, and at the ends of both.
const JUDGED: [(u8, u8); 14] = [
    (0, 0),
    (0, 1),
    (0, 127),
    (1, 0),
    (1, 1),
    (2, 1),
    (2, 2),
    (127, 126),
    (127, 127),
    (128, 127),
    (254, 127),
    (255, 0),
    (255, 126),
    (255, 127),
];
