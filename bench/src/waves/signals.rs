//! The signals of a trace by the model: their names and widths, and what each is worth at every tick. Where the state
//! of a controller is asked, it is by what the model's own sentence says of it; each has its source there.

use crate::model::aic::{Aic, SOURCES};
use crate::model::aintc::{Aintc, Side};
use crate::model::cic::Cic;
use crate::model::core::CoreInterrupt;
use crate::model::{Answer, Kind, Machine, Recorded, Step};
use crate::trace::{play, Observer, Report};

/// A signal as it is declared: its name, and of how many bits it is.
#[derive(Clone, Copy, Debug, PartialEq, Eq)]
pub struct Signal {
    pub name: &'static str,
    pub width: u32,
}

/// The signals that every kind has, about the step and not the controller, each with its bits.
const STEP: &str = "refusal 8, value 32, step 8";

/// What `level` is where there is none: no entry is open, or marks alone are.
pub const NO_LEVEL: u32 = 255;
/// What `lowest` is where no host is asserted, as in the listing (01, house trace).
pub const NO_HOST: u32 = 256;

/// All signals of a kind, in the order in which they are declared.
pub fn signals(kind: Kind) -> Vec<Signal> {
    let own = match kind {
        Kind::Aic => "irq 1, fiq 1, entries 4, source 5, level 8, lines 32, pending 32, enabled 32",
        Kind::Core => "irq 1, fiq 1, irq_raw 32, irq_status 32, fiq_raw 8, fiq_status 8",
        Kind::Cic | Kind::Indexed => "hosts 9, lowest 9",
        Kind::Aintc => "irq 1, fiq 1, irq_number 7, irq_priority 7, fiq_number 7, fiq_priority 7",
    };
    let all = STEP.split(", ").chain(own.split(", "));
    let signals = all.map(|signal| {
        let (name, width) = signal.split_once(' ').expect("a name and its bits");
        let width = width.parse().expect("a number of bits");
        Signal { name, width }
    });
    signals.collect()
}

/// What a dump of a trace has to show.
#[derive(Clone, Debug, Default, PartialEq, Eq)]
pub struct Waves {
    /// The kind of controller; none where no configuration was accepted.
    pub kind: Option<Kind>,
    /// What each signal is worth at each tick: at the start, and after each step.
    pub ticks: Vec<Vec<u32>>,
    /// The refusal that ended the trace early and its place, as the listing's line E has them.
    pub ending: Option<(u32, usize)>,
}

/// The waves of a trace that is played up to a number of steps.
pub fn waves(trace: &[u8], limit: u32) -> Waves {
    let mut waves = Waves::default();
    play(trace, limit, &mut waves);
    waves
}

impl Observer for Waves {
    fn started(&mut self, machine: &Machine) {
        self.kind = Some(machine.kind());
        self.ticks.push([vec![0, 0, 0], shown(machine)].concat());
    }

    fn after(&mut self, machine: &Machine, _: u32, recorded: Recorded, answer: Answer) {
        let step = match answer {
            Ok(value) => vec![0, value, letter(recorded.step)],
            Err(refusal) => vec![refusal.number(), 0, u32::from(b'X')],
        };
        self.ticks.push([step, shown(machine)].concat());
    }

    fn ended(&mut self, report: &Report) {
        let fault = report.ending.err();
        self.ending = fault.map(|fault| (fault.refusal.number(), fault.offset));
    }
}

impl Waves {
    /// The signals that are declared, none where nothing was started.
    pub fn signals(&self) -> Vec<Signal> {
        self.kind.map_or(Vec::new(), signals)
    }
}

/// The letter of a step as a number.
pub fn letter(step: Step) -> u32 {
    u32::from(step.letter())
}

/// What the signals of the controller itself are worth now.
pub fn shown(machine: &Machine) -> Vec<u32> {
    match machine {
        Machine::Aic(aic) => aic_shown(aic),
        Machine::Core(core) => core_shown(core),
        Machine::Cic(cic) => cic_shown(cic),
        Machine::Indexed(indexed) => cic_shown(indexed.cic()),
        Machine::Aintc(aintc) => aintc_shown(aintc),
    }
}

/// The outputs as CISR has them, with the mask (003, 27.8.10); the entries open (02, 3/12); of the last one the source, as
/// ISR reads it (003, 27.8.7), and the level, which of a mark is that of the entry below it (02, 3/12); the levels of the
/// lines (01, house trace), the pending sources, enabled or not, as IPR reads them (003, 27.8.8), and the enabled ones, as
/// IMR does (003, 27.8.9).
fn aic_shown(aic: &Aic) -> Vec<u32> {
    let last = aic.entries().last();
    vec![
        aic.irq().into(),
        aic.fiq().into(),
        aic.entries().len() as u32,
        last.and_then(|entry| entry.source).map_or(0, u32::from),
        last.and_then(|entry| entry.level)
            .map_or(NO_LEVEL, u32::from),
        word(|n| aic.sources()[n].line),
        word(|n| aic.sources()[n].pending()),
        word(|n| aic.sources()[n].enabled),
    ]
}

/// A word with a bit for each source of an AIC for which something holds.
pub fn word(holds: impl Fn(usize) -> bool) -> u32 {
    (0..SOURCES).fold(0, |word, n| word | u32::from(holds(n)) << n)
}

/// Each side is active by its status (01, CoreInterrupt); what a line or software raises, and what of it is enabled, is as
/// the raw and the status register read it (004, FIQRawStatus and FIQStatus, and those of IRQ).
fn core_shown(core: &CoreInterrupt) -> Vec<u32> {
    vec![
        core.irq.active().into(),
        core.fiq.active().into(),
        core.irq.raw(),
        core.irq.status(),
        core.fiq.raw(),
        core.fiq.status(),
    ]
}

/// The hosts that are asserted: how many, and the lowest (01, CIC and house trace).
fn cic_shown(cic: &Cic) -> Vec<u32> {
    let asserted = cic.asserted();
    let lowest = asserted.lowest().map_or(NO_HOST, |host| host as u32);
    vec![asserted.ones(), lowest]
}

/// Each side is active while it has chosen an input, and keeps its number and the priority that it had then (000, 4.3.1.2.3
/// and figures 4-9, 4-10, 4-14, 4-15; 02, 2/12). Where none is chosen both are 0 here, unlike in the registers.
fn aintc_shown(aintc: &Aintc) -> Vec<u32> {
    let (irq, fiq) = (aintc.chosen(Side::Irq), aintc.chosen(Side::Fiq));
    vec![
        irq.is_some().into(),
        fiq.is_some().into(),
        irq.map_or(0, |chosen| chosen.number.into()),
        irq.map_or(0, |chosen| chosen.priority.into()),
        fiq.map_or(0, |chosen| chosen.number.into()),
        fiq.map_or(0, |chosen| chosen.priority.into()),
    ]
}
