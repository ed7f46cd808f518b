//! Wrong readings of what a signal is worth, each played beside the right one: generated traces tell each apart, and
//! wherever the values differ the comparison says so.

use bench::listing::listing;
use bench::model::aic::Aic;
use bench::model::aintc::{Aintc, Side};
use bench::model::cic::Cic;
use bench::model::core::CoreInterrupt;
use bench::model::{Answer, Kind, Machine, Recorded, Step};
use bench::trace::{play, Observer, Report, PROGRAM_LIMIT};
use bench::waves::signals::{letter, shown, word};
use bench::waves::{compare, meaning, waves, write, Waves};

use super::{all_found, begins, traces};

/// A tick as a wrong reading sees it.
struct Moment<'a> {
    before: Option<&'a Machine>,
    machine: &'a Machine,
    /// The step and what it answered; at the start there is none.
    step: Option<(Recorded, Answer)>,
    /// The right values of the tick before.
    last: Option<&'a [u32]>,
}

impl Moment<'_> {
    /// The step, if it was carried out.
    fn done(&self) -> Option<Step> {
        let (recorded, answer) = self.step?;
        answer.ok().map(|_| recorded.step)
    }
}

/// Makes other values of the right ones, from a tick or from the controller of a kind.
#[derive(Clone, Copy)]
enum Wrong {
    Tick(fn(&Moment, &mut [u32])),
    Aic(fn(&Aic, &mut [u32])),
    Core(fn(&CoreInterrupt, &mut [u32])),
    Cic(fn(&Cic, &mut [u32])),
    Aintc(fn(&Aintc, &mut [u32])),
}

impl Wrong {
    fn put(self, moment: &Moment, values: &mut [u32]) {
        match (self, moment.machine) {
            (Wrong::Tick(edit), _) => edit(moment, values),
            (Wrong::Aic(edit), Machine::Aic(aic)) => edit(aic, values),
            (Wrong::Core(edit), Machine::Core(core)) => edit(core, values),
            (Wrong::Cic(edit), Machine::Cic(cic)) => edit(cic, values),
            (Wrong::Cic(edit), Machine::Indexed(indexed)) => edit(indexed.cic(), values),
            (Wrong::Aintc(edit), Machine::Aintc(aintc)) => edit(aintc, values),
            _ => {}
        }
    }
}

/// Makes other ticks of the right ones.
type Ticks = fn(&mut Waves);

/// Where the values of the step stand, and where those of the controller begin.
const REFUSAL: usize = 0;
const VALUE: usize = 1;
const STEP: usize = 2;
const OWN: usize = 3;

const IRQ: usize = OWN;
const FIQ: usize = OWN + 1;
const ENTRIES: usize = OWN + 2;
const SOURCE: usize = OWN + 3;
const LEVEL: usize = OWN + 4;
const LINES: usize = OWN + 5;
const PENDING: usize = OWN + 6;
const ENABLED: usize = OWN + 7;

const OF_STEPS: [(&str, fn(&Moment, &mut [u32])); 9] = [
    ("a refused step's value is its refusal", |_, values| {
        values[VALUE] |= values[REFUSAL];
    }),
    ("a write's value is what was written", |tick, values| {
        if let Some(Step::Write { value, .. }) = tick.done() {
            values[VALUE] = value;
        }
    }),
    ("a line step's value is its level", |tick, values| {
        if let Some(Step::Line { level, .. }) = tick.done() {
            values[VALUE] = level;
        }
    }),
    ("a refused step has the letter asked", |tick, values| {
        if let Some((recorded, _)) = tick.step {
            values[STEP] = letter(recorded.step);
        }
    }),
    ("the value read stays", |tick, values| {
        if values[STEP] != u32::from(b'R') {
            values[VALUE] = tick.last.map_or(0, |last| last[VALUE]);
        }
    }),
    ("the refusal stays", |tick, values| {
        if values[REFUSAL] == 0 {
            values[REFUSAL] = tick.last.map_or(0, |last| last[REFUSAL]);
        }
    }),
    ("the start has a letter", |tick, values| {
        if tick.step.is_none() {
            values[STEP] = u32::from(b'S');
        }
    }),
    ("the outputs are those before the step", |tick, values| {
        if let Some(before) = tick.before {
            values[OWN..].copy_from_slice(&shown(before));
        }
    }),
    ("a refused step shows no outputs", |tick, values| {
        if let Some((_, Err(_))) = tick.step {
            values[OWN..].fill(0);
        }
    }),
];

/// The last entry, if it is a mark.
fn ends_in_mark(aic: &Aic) -> bool {
    aic.entries().last().is_some_and(|entry| entry.is_mark())
}

const OF_AIC: [(&str, fn(&Aic, &mut [u32])); 18] = [
    ("IRQ though masked", |aic, values| {
        values[IRQ] = (0..32).any(|n| aic.candidate(n)).into();
    }),
    ("FIQ though masked", |aic, values| {
        values[FIQ] = aic.fast_request().into();
    }),
    ("IRQ and FIQ exchanged", |_, values| values.swap(IRQ, FIQ)),
    ("marks are no entries", |aic, values| {
        let handlers = aic.entries().iter().filter(|entry| !entry.is_mark());
        values[ENTRIES] = handlers.count() as u32;
    }),
    ("the source of the lowest entry", |aic, values| {
        let first = aic.entries().first().and_then(|entry| entry.source);
        values[SOURCE] = first.map_or(0, u32::from);
    }),
    ("the level of the lowest entry", |aic, values| {
        let first = aic.entries().first().and_then(|entry| entry.level);
        values[LEVEL] = first.map_or(255, u32::from);
    }),
    ("a mark has the source below", |aic, values| {
        let last = aic.entries().iter().rev().find_map(|entry| entry.source);
        values[SOURCE] = last.map_or(0, u32::from);
    }),
    ("a mark's source is 31", |aic, values| {
        if ends_in_mark(aic) {
            values[SOURCE] = 31;
        }
    }),
    ("a mark has no level", |aic, values| {
        if ends_in_mark(aic) {
            values[LEVEL] = 255;
        }
    }),
    ("no level is 0", |_, values| values[LEVEL] %= 255),
    ("no level is 7", |_, values| values[LEVEL] &= 7),
    ("the level is the priority now", |aic, values| {
        if let Some(source) = aic.entries().last().and_then(|entry| entry.source) {
            values[LEVEL] = aic.sources()[usize::from(source)].priority.into();
        }
    }),
    ("lines that are active", |aic, values| {
        values[LINES] = word(|n| aic.sources()[n].line != aic.sources()[n].external);
    }),
    ("pending and enabled", |_, values| {
        values[PENDING] &= values[ENABLED];
    }),
    ("pending without the fast ones", |aic, values| {
        values[PENDING] &= word(|n| !aic.fast(n));
    }),
    ("edges remembered, not pending", |aic, values| {
        values[PENDING] = word(|n| aic.sources()[n].memory);
    }),
    ("enabled, the highest source first", |_, values| {
        values[ENABLED] = values[ENABLED].reverse_bits();
    }),
    ("enabled without the forced ones", |aic, values| {
        values[ENABLED] &= word(|n| !aic.sources()[n].forced);
    }),
];

const OF_CORE: [(&str, fn(&CoreInterrupt, &mut [u32])); 6] = [
    ("IRQ as a level", |core, values| {
        values[OWN] = core.irq.output_level().into();
    }),
    ("FIQ as a level", |core, values| {
        values[OWN + 1] = core.fiq.output_level().into();
    }),
    ("raw without software", |core, values| {
        values[OWN + 2] = core.irq.inputs;
    }),
    ("status without the enables", |core, values| {
        values[OWN + 3] = core.irq.raw();
    }),
    ("raw FIQ that is enabled", |core, values| {
        values[OWN + 4] = core.fiq.status();
    }),
    ("the enables as status of FIQ", |core, values| {
        values[OWN + 5] = core.fiq.enable;
    }),
];

const OF_CIC: [(&str, fn(&Cic, &mut [u32])); 5] = [
    ("hosts that are reached", |cic, values| {
        values[OWN] = cic.reached().ones();
    }),
    ("hosts that are enabled", |cic, values| {
        values[OWN] = cic.host_enable().ones();
    }),
    ("the lowest of none is 0", |_, values| {
        values[OWN + 1] &= 255
    }),
    ("the lowest that is reached", |cic, values| {
        values[OWN + 1] = cic.reached().lowest().map_or(256, |host| host as u32);
    }),
    ("the highest host", |cic, values| {
        let asserted = cic.asserted();
        let highest = (0..cic.hosts()).rev().find(|&host| asserted.get(host));
        values[OWN + 1] = highest.map_or(256, |host| host as u32);
    }),
];

const OF_AINTC: [(&str, fn(&Aintc, &mut [u32])); 5] = [
    ("IRQ and FIQ exchanged", |_, values| {
        values.swap(OWN, OWN + 1)
    }),
    ("the numbers exchanged", |_, values| {
        values.swap(OWN + 2, OWN + 4)
    }),
    ("no number is 127", |aintc, values| {
        if aintc.chosen(Side::Fiq).is_none() {
            values[OWN + 4] = 127;
        }
    }),
    ("the priority that the input has now", |aintc, values| {
        if let Some(chosen) = aintc.chosen(Side::Irq) {
            values[OWN + 3] = aintc.priority(chosen.number.into()).into();
        }
    }),
    ("the best that is pending", |aintc, values| {
        let all = aintc.eligible(Side::Fiq);
        let best = all.min_by_key(|&input| (aintc.priority(input), 127 - input));
        values[OWN + 4] = best.map_or(0, |input| input as u32);
    }),
];

/// All 43 of them.
fn wrong_readings() -> Vec<(String, Wrong)> {
    fn of<F: Copy>(whose: &str, all: &[(&str, F)], wrong: fn(F) -> Wrong) -> Vec<(String, Wrong)> {
        let named = |&(name, edit): &(&str, F)| (format!("{whose}: {name}"), wrong(edit));
        all.iter().map(named).collect()
    }
    [
        of("step", &OF_STEPS, Wrong::Tick),
        of("AIC", &OF_AIC, Wrong::Aic),
        of("CoreInterrupt", &OF_CORE, Wrong::Core),
        of("CIC", &OF_CIC, Wrong::Cic),
        of("AINTC", &OF_AINTC, Wrong::Aintc),
    ]
    .concat()
}

/// The right waves, and beside them those of every wrong reading.
struct Beside {
    right: Waves,
    before: Option<Machine>,
    wrong: Vec<(Wrong, Waves)>,
}

impl Beside {
    fn add(&mut self, machine: &Machine, step: Option<(Recorded, Answer)>) {
        let (values, earlier) = self.right.ticks.split_last().expect("a tick was added");
        let moment = Moment {
            before: self.before.as_ref(),
            machine,
            step,
            last: earlier.last().map(Vec::as_slice),
        };
        for (wrong, waves) in &mut self.wrong {
            let mut values = values.clone();
            wrong.put(&moment, &mut values);
            waves.ticks.push(values);
        }
        self.before = Some(machine.clone());
    }
}

impl Observer for Beside {
    fn started(&mut self, machine: &Machine) {
        self.right.started(machine);
        self.add(machine, None);
    }

    fn after(&mut self, machine: &Machine, number: u32, recorded: Recorded, answer: Answer) {
        self.right.after(machine, number, recorded, answer);
        self.add(machine, Some((recorded, answer)));
    }

    fn ended(&mut self, report: &Report) {
        self.right.ended(report);
        for (_, waves) in &mut self.wrong {
            waves.kind = self.right.kind;
            waves.ending = self.right.ending;
        }
    }
}

#[test]
fn what_the_model_writes_is_right() {
    let mut ticks = 0;
    for trace in traces() {
        let waves = waves(&trace, PROGRAM_LIMIT);
        let compared = compare(&write(&waves), &waves).expect("nothing differs");
        assert_eq!(compared.ticks, waves.ticks.len());
        assert_eq!(compared.values, compared.ticks * compared.signals);
        ticks += compared.ticks;
    }
    assert!(ticks > 100_000);
}

/// A line of the listing has its letter, its value or refusal and its three numbers in common with the tick of its step.
#[test]
fn ticks_agree_with_the_listing() {
    for trace in traces() {
        let waves = waves(&trace, PROGRAM_LIMIT);
        let listing = String::from_utf8(listing(&trace, PROGRAM_LIMIT)).expect("it is plain text");
        let mut lines: Vec<&str> = listing.lines().collect();
        let last = lines.pop_if(|line| line.starts_with("E "));
        let ending = waves
            .ending
            .map(|(refusal, offset)| format!("E {refusal} {offset}"));
        assert_eq!(ending.as_deref(), last);
        let expected = waves.kind.map(|kind| kind.name().to_string()).into_iter();
        let expected: Vec<String> = expected
            .chain((1..waves.ticks.len()).map(|tick| line(&waves, tick)))
            .collect();
        assert_eq!(lines, expected, "{}", begins(&trace));
    }
}

/// The line of a step from the values of its tick.
fn line(waves: &Waves, tick: usize) -> String {
    let values = &waves.ticks[tick];
    let letter = char::from(values[STEP] as u8);
    let value = values[VALUE].max(values[REFUSAL]);
    let third = match waves.kind {
        Some(Kind::Aic | Kind::Aintc) => values[OWN + 2],
        _ => 0,
    };
    let (first, second) = (values[OWN], values[OWN + 1]);
    format!("{tick} {letter} {value:08X} {first} {second} {third}")
}

#[test]
fn wrong_readings_are_told_apart() {
    let wrong = wrong_readings();
    assert_eq!(wrong.len(), 43);
    let mut found: Vec<(&str, usize)> = wrong.iter().map(|(name, _)| (name.as_str(), 0)).collect();
    for trace in traces() {
        let mut beside = Beside {
            right: Waves::default(),
            before: None,
            wrong: wrong
                .iter()
                .map(|(_, wrong)| (*wrong, Waves::default()))
                .collect(),
        };
        play(&trace, PROGRAM_LIMIT, &mut beside);
        for ((_, waves), (name, count)) in beside.wrong.iter().zip(&mut found) {
            if *waves != beside.right {
                let text = write(waves);
                let compared = compare(&text, &beside.right);
                assert!(meaning(&text, &beside.right).is_err(), "{name}");
                assert!(compared.is_err(), "{name}: {}", begins(&trace));
                *count += 1;
            }
        }
    }
    all_found("readings", &found);
}

/// Ticks that belong to other steps: each is wrong as a whole.
const OF_TICKS: [(&str, Ticks); 5] = [
    ("refused steps are no ticks", |waves| {
        waves.ticks.retain(|values| values[REFUSAL] == 0);
    }),
    ("ticks at which nothing changes are left out", |waves| {
        waves.ticks.dedup();
    }),
    ("no tick for the start", |waves| {
        if waves.ticks.len() > 1 {
            waves.ticks.remove(0);
        }
    }),
    ("no tick for the last step", |waves| {
        if waves.ticks.len() > 1 {
            waves.ticks.pop();
        }
    }),
    ("the last step twice", |waves| {
        if waves.ticks.len() > 1 {
            waves.ticks.extend(waves.ticks.last().cloned());
        }
    }),
];

#[test]
fn ticks_at_wrong_steps_are_told_apart() {
    let mut found: Vec<(&str, usize)> = OF_TICKS.iter().map(|&(name, _)| (name, 0)).collect();
    for trace in traces() {
        let right = waves(&trace, PROGRAM_LIMIT);
        for ((_, wrong), (name, count)) in OF_TICKS.iter().zip(&mut found) {
            let mut other = right.clone();
            wrong(&mut other);
            if other != right {
                assert!(
                    compare(&write(&other), &right).is_err(),
                    "{name}: {}",
                    begins(&trace)
                );
                *count += 1;
            }
        }
    }
    all_found("ticks", &found);
}
