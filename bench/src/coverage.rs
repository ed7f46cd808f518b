//! What the compared traces have reached, counted from the model's own run; a listed item not reached is a gap.

mod aic;
mod aintc;
mod cic;
mod core;
mod levels;
mod protect;

use crate::model::aic::Register as AicRegister;
use crate::model::aintc::{Register as AintcRegister, Side as Request};
use crate::model::core::{Register as CoreRegister, Side};
use crate::model::{Access, Answer, Kind, Machine, Recorded, Refusal, Step};
use crate::tally::{each, Fact, Listed, Tally};
use crate::trace::{shortest, Defect, Fault, Field, Observer, Report};
use crate::trace::{LONGEST, NUMBER_BYTES, PROGRAM_LIMIT};
use crate::{facts, sorts};

/// Something that a comparison should have reached.
#[derive(Clone, Copy, Debug, PartialEq, Eq, PartialOrd, Ord, Hash)]
pub enum Item {
    /// A register of the AIC answered so.
    Aic(AicRegister, Outcome),
    /// A register of a CoreInterrupt group with no sources, or with some, answered so.
    Core(CoreRegister, Size, Outcome),
    /// A register of the CIC, named by its group and its place in the group, answered so.
    Cic(&'static str, Spot, Outcome),
    /// The same of a CIC with prioritised indices, whose own registers are groups too.
    Indexed(&'static str, Spot, Outcome),
    /// A situation of the global index, or of a host's, in plain words.
    Index(Whose, &'static str),
    /// A register of the AINTC, read or written by a privilege, under protection or not, answered so.
    Aintc(AintcRegister, Way, By, bool, Outcome),
    /// The ILR of an input was read or written.
    Ilr(u8, Way),
    /// An input of the AINTC was chosen for a request.
    Chosen(Request, u8),
    /// For a request of the AINTC a pending input of a priority met a threshold, given first.
    Judged(Request, u8, u8),
    /// A situation of a request of the AINTC in plain words.
    Side(Request, &'static str),
    /// A step of a controller was refused, whatever it was aimed at.
    Refused(Kind, Way, Refusal),
    /// A controller was started, and then played so many steps (none, or some).
    Started(Kind, Size),
    /// A trace was ended early by a number of its own.
    Ended(Refusal, Field),
    /// A trace was ended early by the value of a number with groups of 0 on top.
    EndedPadded(Refusal, Field),
    /// A number of the trace had a defect.
    Defect(Field, Defect),
    /// A number of an accepted configuration or of a step that was played had so many bytes, and needed them.
    Shortest(Field, usize),
    /// A number of an accepted configuration or of a step that was played had so many bytes, and needed fewer.
    Padded(Field, usize),
    /// An AIC source of a type, external or not, was pending or idle when IPR was read.
    Pending(u8, bool, bool),
    /// A line of an AIC edge source of a type, external or not, changed: an edge for it, or not.
    Edge(u8, bool, bool),
    /// An IVR read opened an entry and left so many, the marks among them given by a word whose bit 0 is the first.
    Mix(usize, u8),
    /// An EOICR write found so many entries open, and this one last.
    Closed(usize, Option<Entered>),
    /// A level of the AIC got or lost a waiting source by a step of this sort.
    Level(u8, Turn, Cause),
    /// A mode write took a waiting source of the AIC from one level to another.
    Moved(u8, u8),
    /// IVR was read while just the levels of these bits had a waiting source.
    Byte(u8),
    /// IVR was read with room left, at this level of the last entry and this highest level with a waiting source.
    Against(Option<u8>, Option<u8>),
    /// IVR started a source at a level, and a higher number of the same level waited too; the level is given first.
    LowerNumber(u8, u8),
    /// DCR answered this.
    Debug(u8),
    /// DCR was written and its two bits went from the first to the second.
    DebugTurns(u8, u8),
    /// IVR was read in protect mode and found this, over such a last entry.
    Look(Seen, Option<Entered>),
    /// A second read in protect mode put the second in the place of the first, and a write followed.
    Replaced(Seen, Seen),
    /// IVR was written, and since the read in protect mode that found this something else had come.
    WrittenAfter(Seen, Since),
    /// A write of IVR started a source that was remembered at a level, given first, and has this priority now.
    LevelThen(u8, u8),
    /// A write of IVR opened an entry and left so many, the marks among them given by a word whose bit 0 is the first.
    Handshakes(usize, u8),
    /// CISR answered this.
    Cisr(u32),
    /// A CoreInterrupt side was configured with so many sources.
    Sources(Side, u32),
    /// The CoreInterrupt outputs were configured with these active levels, FIQ first.
    Levels(bool, bool),
    /// A CIC was configured with so many systems, channels or hosts.
    Count(&'static str, usize),
    /// So many hosts were asserted after a step.
    Asserted(usize),
    /// This was the lowest asserted host after a step.
    Lowest(usize),
    /// A situation in plain words.
    Fact(&'static str),
}

sorts! {
    /// What an entry of the AIC is.
    Entered { Handler, Mark }

    /// What a read of IVR in protect mode found.
    Seen { Source, Nobody }

    /// What came between that read and a write of IVR. Of a selected source only what concerns it counts, where nobody
    /// was selected what concerns any source.
    Since {
        Nothing,
        /// Its memory was cleared by command.
        Cleared,
        Set, Disabled, Forced, Retyped, Reordered,
        /// Its line took it away.
        Gone,
        Vector, Spurious,
        /// FVR was read.
        Fast,
        /// At the write another candidate is ahead of it.
        Overtaken,
        /// An entry was closed.
        Closed,
        /// At the write seven entries are open.
        LastRoom,
        /// At the write eight entries are open.
        Full,
        ReadAgain,
        /// DCR was written with bit 0 set: the mask was turned, or not.
        Masked,
        Stayed,
        /// The mode was left, and the write came outside it.
        Left,
        /// The mode was left and entered again.
        Reentered,
    }

    /// What became of a level of the AIC.
    Turn {
        /// It had no waiting source and has one.
        Filled,
        /// It had some and has more.
        Joined,
        /// It had more and has some.
        Left,
        /// It had some and has none.
        Emptied,
    }

    /// What can put a source of the AIC into a level or take it out.
    Cause {
        Line, Mode, Enable, Disable, Set, Clear, Force, Unforce,
        /// A read of IVR outside protect mode.
        Start,
        /// A write of IVR in protect mode.
        Handshake,
    }
}

/// What came of an access to a register.
#[derive(Clone, Copy, Debug, PartialEq, Eq, PartialOrd, Ord, Hash)]
pub enum Outcome {
    Read,
    Written,
    Refused(Refusal),
}

sorts! {
    /// Nothing, or something.
    Size { None, Some }

    /// Whose prioritised index it is.
    Whose { Global, Host }

    /// Which sort of step it was.
    Way { Read, Write, Line }

    /// Who made an access, by its privilege number.
    By { Unprivileged, Privileged, TooLarge }
}

impl By {
    fn of(privilege: u32) -> By {
        match privilege {
            0 => By::Unprivileged,
            1 => By::Privileged,
            _ => By::TooLarge,
        }
    }
}

impl Size {
    fn of(count: u32) -> Size {
        match count {
            0 => Size::None,
            _ => Size::Some,
        }
    }
}

sorts! {
    /// The place of a register in its group, as far as it is configured.
    Spot {
        /// A register that is alone in its group.
        Single,
        First,
        Middle,
        /// The last one, all of whose bits or bytes are configured.
        LastWhole,
        /// The last one, some of whose bits or bytes are spare.
        LastWithSpare,
        /// One that would exist in a larger part.
        Beyond,
    }
}

impl Way {
    fn of(step: Step) -> Way {
        match step {
            Step::Read { .. } => Way::Read,
            Step::Write { .. } => Way::Write,
            Step::Line { .. } => Way::Line,
        }
    }
}

impl Outcome {
    fn of(step: Step, answer: Answer) -> Outcome {
        match (Way::of(step), answer) {
            (_, Err(refusal)) => Outcome::Refused(refusal),
            (Way::Read, Ok(_)) => Outcome::Read,
            (_, Ok(_)) => Outcome::Written,
        }
    }

    /// What a read and a write of a register come to, by the accesses that it allows.
    fn both(access: Access) -> [Outcome; 2] {
        match access {
            Access::ReadWrite => [Outcome::Read, Outcome::Written],
            Access::ReadOnly => [Outcome::Read, Outcome::Refused(Refusal::ReadOnly)],
            Access::WriteOnly => [Outcome::Refused(Refusal::WriteOnly), Outcome::Written],
        }
    }
}

/// The offset that a step reads or writes.
fn offset(step: Step) -> Option<u32> {
    match step {
        Step::Read { offset } | Step::Write { offset, .. } => Some(offset),
        Step::Line { .. } => None,
    }
}

/// The same, where it is that of a word.
fn word_offset(step: Step) -> Option<u32> {
    offset(step).filter(|offset| offset.is_multiple_of(4))
}

/// A step with its answer, and the controller before and after it.
struct Change<'a, C> {
    before: &'a C,
    after: &'a C,
    step: Step,
    answer: Answer,
}

impl<'a, C> Change<'a, C> {
    fn new(before: &'a C, after: &'a C, step: Step, answer: Answer) -> Change<'a, C> {
        Change {
            before,
            after,
            step,
            answer,
        }
    }

    /// What came of it, if it is an access.
    fn outcome(&self) -> Outcome {
        Outcome::of(self.step, self.answer)
    }
}

/// The counters, and what is known of a step before it is carried out.
#[derive(Default)]
pub struct Coverage {
    tally: Tally<Item>,
    steps: u64,
    /// The forms of the numbers read since the start or the last step.
    forms: Vec<Item>,
    /// The controller before the present step.
    before: Option<Machine>,
    /// The last read of IVR in protect mode that no write has followed.
    looked: Option<protect::Looked>,
}

impl Coverage {
    /// How many steps were played in all.
    pub fn steps(&self) -> u64 {
        self.steps
    }

    /// How many traces started a controller of a kind.
    pub fn started(&self, kind: Kind) -> u64 {
        let of = |size| self.count(Item::Started(kind, size));
        of(Size::None) + of(Size::Some)
    }

    fn reach(&mut self, item: Item) {
        self.tally.reach(item);
    }

    /// Counts the situations that are there.
    fn facts(&mut self, facts: impl IntoIterator<Item = Fact>) {
        self.tally.facts(Item::Fact, facts);
    }

    /// Counts the forms of the numbers of a configuration that was accepted, or of a step that was read whole.
    fn reach_forms(&mut self) {
        let mut forms = std::mem::take(&mut self.forms);
        for item in forms.drain(..) {
            self.reach(item);
        }
        self.forms = forms;
    }
}

facts! { FACTS;
    fn offsets(offset: u32, answer: Answer) {
        let past = |bytes| answer == Err(Refusal::Misaligned) && offset % 4 == bytes;
        let alias = offset >= 0xFFFF_F000 && answer == Err(Refusal::NoRegister);
        "an offset one past a word" if past(1);
        "an offset two past a word" if past(2);
        "an offset three past a word" if past(3);
        "an offset that names a register modulo 4 KiB" if alias;
    }

    fn endings(report: &Report) {
        let at_limit = report.steps == PROGRAM_LIMIT;
        let early = |refusal| report.ending.is_err_and(|fault| fault.refusal == refusal);
        "a trace played to its end" if report.ending.is_ok();
        "as many steps as the program's limit" if report.ending.is_ok() && at_limit;
        "the longest trace played to its end" if report.ending == Ok(LONGEST);
        "ended by the program's step limit" if early(Refusal::StepLimit) && at_limit;
        "ended by the length of the trace" if early(Refusal::TraceTooLong);
    }
}

impl Observer for Coverage {
    fn number(&mut self, field: Field, value: u32, bytes: usize) {
        self.forms.push(match bytes == shortest(value) {
            true => Item::Shortest(field, bytes),
            false => Item::Padded(field, bytes),
        });
    }

    fn started(&mut self, machine: &Machine) {
        self.reach_forms();
        match machine {
            Machine::Aic(_) => self.looked = None,
            Machine::Aintc(_) => {}
            Machine::Core(core) => self.core_started(core),
            Machine::Cic(cic) => self.cic_started(cic),
            Machine::Indexed(indexed) => self.indexed_started(indexed),
        }
    }

    fn before(&mut self, machine: &Machine, _: Recorded) {
        self.reach_forms();
        self.before = Some(machine.clone());
    }

    fn after(&mut self, machine: &Machine, _number: u32, recorded: Recorded, answer: Answer) {
        let step = recorded.step;
        self.steps += 1;
        if let Some(offset) = offset(step) {
            self.facts(offsets(offset, answer));
        }
        if let Err(refusal) = answer {
            self.reach(Item::Refused(machine.kind(), Way::of(step), refusal));
        }
        let before = self.before.take().expect("a step has a before");
        match (&before, machine) {
            (Machine::Aic(was), Machine::Aic(is)) => {
                self.aic_step(&Change::new(&**was, is, step, answer))
            }
            (Machine::Core(was), Machine::Core(is)) => {
                self.core_step(&Change::new(was, is, step, answer))
            }
            (Machine::Cic(was), Machine::Cic(is)) => {
                self.cic_step(&Change::new(&**was, is, step, answer))
            }
            (Machine::Aintc(was), Machine::Aintc(is)) => {
                self.aintc_step(&Change::new(&**was, is, step, answer), recorded.privilege);
            }
            (Machine::Indexed(was), Machine::Indexed(is)) => {
                self.indexed_step(&Change::new(&**was, is, step, answer));
            }
            _ => unreachable!("a step leaves the controller what it is"),
        }
    }

    fn ended(&mut self, report: &Report) {
        if let Some(machine) = &report.machine {
            self.reach(Item::Started(machine.kind(), Size::of(report.steps)));
        }
        self.facts(endings(report));
        let number = |fault: Fault| Some((fault, fault.field?));
        if let Some((fault, field)) = report.ending.err().and_then(number) {
            self.reach(Item::Ended(fault.refusal, field));
            match (fault.defect, self.forms.last()) {
                (Some(defect), _) => self.reach(Item::Defect(field, defect)),
                (None, Some(Item::Padded(..))) => {
                    self.reach(Item::EndedPadded(fault.refusal, field));
                }
                _ => {}
            }
        }
        self.forms.clear();
    }
}

impl Listed for Coverage {
    type Item = Item;

    fn tally(&self) -> &Tally<Item> {
        &self.tally
    }

    fn wanted() -> Vec<Item> {
        let mut items = traces();
        items.extend(aic::wanted());
        items.extend(core::wanted());
        items.extend(cic::wanted());
        items.extend(aintc::wanted());
        items.extend(cic::indexed::wanted());
        items
    }
}

/// The items about traces, endings and refusals in general.
fn traces() -> Vec<Item> {
    let mut items = Vec::new();
    for kind in Kind::ALL {
        items.extend(each(|size| Item::Started(kind, size)));
        for way in [Way::Read, Way::Write] {
            items.push(Item::Refused(kind, way, Refusal::Misaligned));
            items.push(Item::Refused(kind, way, Refusal::NoRegister));
        }
        items.push(Item::Refused(kind, Way::Line, Refusal::OutOfRange));
    }
    for field in fields() {
        items.push(Item::Ended(Refusal::BadNumber, field));
        items.extend(defects(field).map(|defect| Item::Defect(field, defect)));
        items.extend((1..=widest(field)).map(|bytes| Item::Shortest(field, bytes)));
        items.extend((2..=NUMBER_BYTES).map(|bytes| Item::Padded(field, bytes)));
        if let Some(refusal) = judged(field) {
            items.push(Item::Ended(refusal, field));
            items.push(Item::EndedPadded(refusal, field));
        }
    }
    items.extend(FACTS.iter().copied().map(Item::Fact));
    items
}

/// All the numbers that a trace can have.
fn fields() -> Vec<Field> {
    let mut fields = vec![
        Field::Kind,
        Field::StepKind,
        Field::Offset,
        Field::Privilege,
        Field::Value,
        Field::Line,
        Field::Level,
    ];
    let configured = [
        (Kind::Aic, 2),
        (Kind::Core, 4),
        (Kind::Cic, 4),
        (Kind::Indexed, 5),
    ];
    for (kind, count) in configured {
        fields.extend((0..count).map(|place| Field::Configuration(kind, place)));
    }
    fields
}

/// The defects that a number can have: a step that does not begin is no defect.
fn defects(field: Field) -> impl Iterator<Item = Defect> {
    let can_be = move |defect: &Defect| (field, *defect) != (Field::StepKind, Defect::Missing);
    Defect::ALL.into_iter().filter(can_be)
}

/// The refusal that a number can get for its value (01: not the two words of the AIC, nor the revision of a CIC).
fn judged(field: Field) -> Option<Refusal> {
    match field {
        Field::Kind | Field::StepKind => Some(Refusal::UnknownKind),
        Field::Configuration(Kind::Core, _) => Some(Refusal::BadConfiguration),
        Field::Configuration(Kind::Cic | Kind::Indexed, 0..=2)
        | Field::Configuration(Kind::Indexed, 4) => Some(Refusal::BadConfiguration),
        _ => None,
    }
}

/// How many bytes the largest value needs that a number can have without a refusal of its own.
fn widest(field: Field) -> usize {
    match (judged(field), field) {
        (None, _) => NUMBER_BYTES,
        (Some(_), Field::Configuration(Kind::Cic | Kind::Indexed, 0..=2)) => 2,
        (Some(_), _) => 1,
    }
}
