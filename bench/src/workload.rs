//! The traces that are timed, with no step refused: for each controller a small and a full one, of any number of steps;
//! writes to a full CIC, with prioritised indices and without, of which every system is active; polls of a full one with
//! indices; and reads of an index beside the words that they look at.

mod looks;

pub use looks::{looks, Look};

use crate::generate::Script;
use crate::random::Random;
use crate::trace::play;

/// A trace with what is to be known of it.
pub struct Workload {
    pub controller: &'static str,
    pub size: &'static str,
    pub steps: u32,
    pub trace: Vec<u8>,
}

/// What it is called, what is written once at the beginning, and what is then done again and again.
struct Plan {
    controller: &'static str,
    size: &'static str,
    opening: Script,
    step: Box<dyn Fn(&mut Random, &mut Script, u32)>,
}

const SMALL: &str = "8 systems, 2 channels, 2 hosts";
const FULL: &str = "1,024 systems, 256 channels, 256 hosts";

/// How many writes follow the opening of a busy CIC.
const BUSY_WRITES: u32 = 5_000;

/// One for each controller and size, with so many steps each.
pub fn workloads(steps: u32) -> Vec<Workload> {
    let plans = [
        aic("1 source", 1),
        aic("32 sources", 32),
        core("1 FIQ, 1 IRQ", 1, 1),
        core("8 FIQ, 32 IRQ", 8, 32),
        plain("CIC", SMALL, cic(8, 2, 2, EVERY_OTHER), 8),
        plain("CIC", FULL, cic(1_024, 256, 256, EVERY_OTHER), 1_024),
        indices(SMALL, indexed(8, 2, 2, EVERY_OTHER), 8, 2),
        indices(FULL, full_indexed(EVERY_OTHER), 1_024, 256),
        aintc("4 inputs", 4),
        aintc("128 inputs", 128),
    ];
    plans.map(|plan| workload(plan, steps)).into()
}

/// Those of a CIC of full size with all systems active, of either kind: what is written to it again and again.
pub fn busy() -> Vec<Workload> {
    let both = [
        ("busy CIC", cic(1_024, 256, 256, u32::MAX)),
        ("busy CIC with indices", full_indexed(u32::MAX)),
    ];
    let workloads = both.into_iter().flat_map(|(controller, opening)| {
        let plan = |size, step| Plan {
            controller,
            size,
            opening: opening.clone(),
            step,
        };
        let plans = [
            plan("writes of the channel map", Box::new(write_channels)),
            plan("writes of the host map", Box::new(write_hosts)),
            plan("writes of status words", Box::new(write_status)),
        ];
        let steps = played(&opening) + BUSY_WRITES;
        plans.map(|plan| workload(plan, steps))
    });
    workloads.collect()
}

/// Those of a CIC with prioritised indices of full size, of which an index is polled again and again with the hold mode
/// off, with so many steps each.
pub fn polls(steps: u32) -> Vec<Workload> {
    let plan = |size, opening, offset, apart| Plan {
        controller: "polled CIC",
        size,
        opening,
        step: Box::new(move |_, script, at| script.read(offset + apart * (at % 256))),
    };
    let last_pending = "global index, only the last system of the last channel pending";
    let one_each = "indices of hosts of one channel each, nothing pending";
    let one_host = "index of a host of all channels, nothing pending";
    let crowd = "index of the last host, all systems but its own pending";
    let plans = [
        plan(
            "global index, the first system pending",
            full_indexed(1),
            0x080,
            0,
        ),
        plan(last_pending, last_alone(), 0x080, 0),
        plan("global index, nothing pending", full_indexed(0), 0x080, 0),
        plan(one_each, full_indexed(0), 0x900, 4),
        plan(one_host, indexed(1_024, 256, 1, 0), 0x900, 0),
        plan(crowd, crowded(), 0x900 + 4 * 255, 0),
    ];
    plans.map(|plan| workload(plan, steps)).into()
}

/// One of many traces of a full AIC for a report, with so many steps.
pub fn year(number: u64, steps: u32) -> Vec<u8> {
    let random = &mut Random::for_item(11, number);
    drawn(random, aic("32 sources", 32), steps).trace
}

/// The trace of a plan, of so many steps with its opening.
fn workload(plan: Plan, steps: u32) -> Workload {
    drawn(&mut Random::new(11), plan, steps)
}

fn drawn(random: &mut Random, plan: Plan, steps: u32) -> Workload {
    let mut script = plan.opening;
    for at in 0..steps - played(&script) {
        (plan.step)(random, &mut script, at);
    }
    Workload {
        controller: plan.controller,
        size: plan.size,
        steps,
        trace: script.bytes,
    }
}

/// How many steps a script has.
fn played(script: &Script) -> u32 {
    play(&script.bytes, u32::MAX, &mut ()).steps
}

/// Sources of all priorities, those of odd number by edge, all enabled; source 0 is among them. Lines move, entries are
/// opened and closed, and status is read.
fn aic(size: &'static str, sources: u32) -> Plan {
    let mut opening = Script::new(0, &[0, 0]);
    for source in 0..sources {
        let kind = 2 + source % 2;
        opening.write(4 * source, kind << 5 | (source % 8));
        opening.write(0x80 + 4 * source, 0x100 + source);
    }
    opening.write(0x120, u32::MAX);
    Plan {
        controller: "AIC",
        size,
        opening,
        step: Box::new(move |random, script, at| match at % 6 {
            0 | 3 => script.line(random.below(sources), random.below(2)),
            1 => script.read(0x100),
            2 => script.write(0x130, 0),
            4 => script.read(0x10C),
            _ => script.read(4 * random.below(31)),
        }),
    }
}

/// Lines of both sides move, software bits are set and cleared, and status is read.
fn core(size: &'static str, fiqs: u32, irqs: u32) -> Plan {
    let mut opening = Script::new(1, &[fiqs, irqs, 0, 0]);
    opening.write(0x08, u32::MAX);
    opening.write(0x20, u32::MAX);
    Plan {
        controller: "CoreInterrupt",
        size,
        opening,
        step: Box::new(move |random, script, at| match at % 6 {
            0 | 3 => script.line(random.below(irqs), random.below(2)),
            1 => script.line(32 + random.below(fiqs), random.below(2)),
            2 => script.write(random.pick(&[0x00, 0x04, 0x18, 0x1C]), 1 << random.below(7)),
            4 => script.read(0x2C),
            _ => script.read(0x10),
        }),
    }
}

/// A word with every other system set, so that steps cost the same from the first to the last.
const EVERY_OTHER: u32 = 0x5555_5555;

/// System n drives channel n and channel n drives host n, modulo how many there are; everything is enabled, and each
/// word of systems is set as the given one.
fn cic(systems: u32, channels: u32, hosts: u32, set: u32) -> Script {
    let script = Script::new(2, &[systems, channels, hosts, 0x4E82_0000]);
    opened(script, systems, channels, hosts, set)
}

/// The same of a CIC with prioritised indices, with the hold mode off as one who polls has it.
fn indexed(systems: u32, channels: u32, hosts: u32, set: u32) -> Script {
    let mut script = Script::new(4, &[systems, channels, hosts, 0x4E82_0000, 1]);
    script.write(0x004, 0);
    opened(script, systems, channels, hosts, set)
}

fn full_indexed(set: u32) -> Script {
    indexed(1_024, 256, 256, set)
}

/// One of full size with nothing but its last system pending, which drives the last channel.
fn last_alone() -> Script {
    let mut script = full_indexed(0);
    script.line(1_023, 1);
    script
}

/// One of full size with every system pending but the four of the last channel, which are disabled.
fn crowded() -> Script {
    let mut script = full_indexed(u32::MAX);
    for system in [255, 511, 767, 1_023] {
        script.write(0x02C, system);
    }
    script
}

/// A CIC of either kind as [`cic`] has it, behind its configuration.
fn opened(mut script: Script, systems: u32, channels: u32, hosts: u32, set: u32) -> Script {
    let maps = [(0x400, systems, channels), (0x800, channels, hosts)];
    for (base, entries, limit) in maps {
        for register in 0..entries.div_ceil(4) {
            let byte = |place: u32| ((4 * register + place) % limit) << (8 * place);
            script.write(base + 4 * register, byte(0) | byte(1) | byte(2) | byte(3));
        }
    }
    let words = [
        (0x200, systems, set),
        (0x300, systems, u32::MAX),
        (0x1500, hosts, u32::MAX),
    ];
    for (base, bits, value) in words {
        for word in 0..bits.div_ceil(32) {
            script.write(base + 4 * word, value);
        }
    }
    script.write(0x010, 1);
    script
}

/// Lines move, single systems are set and cleared (about half of all stay set), and registers are read.
fn plain(controller: &'static str, size: &'static str, opening: Script, systems: u32) -> Plan {
    Plan {
        controller,
        size,
        opening,
        step: Box::new(move |random, script, at| match at % 6 {
            0 => script.line(random.below(systems), random.below(2)),
            1 => script.write(0x020, random.below(systems)),
            3 => script.write(0x024, random.below(systems)),
            4 => script.read(0x280),
            _ => script.read(0x010),
        }),
    }
}

/// The same with polls of the global index and of hosts' indices. Few steps are longer than three bytes, so that 20,000
/// fit.
fn indices(size: &'static str, opening: Script, systems: u32, hosts: u32) -> Plan {
    Plan {
        controller: "CIC with indices",
        size,
        opening,
        step: Box::new(move |random, script, at| match at % 8 {
            0 => script.line(random.below(systems), random.below(2)),
            1 => script.write(0x020, random.below(systems)),
            4 => script.write(0x024, random.below(systems)),
            2 | 5 => script.read(0x080),
            3 => script.read(0x900 + 4 * random.below(hosts)),
            6 => script.read(0x004),
            _ => script.read(0x010),
        }),
    }
}

/// Four systems go to any channels.
fn write_channels(random: &mut Random, script: &mut Script, _: u32) {
    script.write(0x400 + 4 * random.below(256), random.bits() as u32);
}

/// Four channels go to any hosts.
fn write_hosts(random: &mut Random, script: &mut Script, _: u32) {
    script.write(0x800 + 4 * random.below(64), random.bits() as u32);
}

/// A whole word of systems is cleared, and the same one set again in the next step.
fn write_status(_: &mut Random, script: &mut Script, at: u32) {
    let base = if at.is_multiple_of(2) { 0x280 } else { 0x200 };
    script.write(base + 4 * (at / 2 % 32), u32::MAX);
}

/// Inputs of eight priorities, those of odd number routed to FIQ, unmasked; every other line is high, so that steps
/// cost the same from the first to the last. Lines move, both sides are asked for their numbers and agreed to, and
/// priorities and what is pending are read. Few steps are longer than three bytes, so that 20,000 fit.
fn aintc(size: &'static str, inputs: u32) -> Plan {
    let mut opening = Script::new(3, &[]);
    for input in 0..inputs {
        opening.write(0x100 + 4 * input, (input / 2 % 8) << 2 | (input % 2));
    }
    for input in (0..inputs).filter(|input| input / 2 % 2 == 0) {
        opening.line(input, 1);
    }
    for bank in 0..inputs.div_ceil(32) {
        opening.write(0x88 + 0x20 * bank, u32::MAX);
    }
    Plan {
        controller: "AINTC",
        size,
        opening,
        step: Box::new(move |random, script, at| match at % 10 {
            0 | 2 | 4 | 6 | 8 => script.line(random.below(inputs), random.below(2)),
            1 => script.read(0x40),
            3 => script.read(0x44),
            5 => script.read(0x60),
            7 => script.write(0x48, 3),
            _ => script.read(0x98),
        }),
    }
}

#[cfg(test)]
mod tests {
    use super::*;
    use crate::model::{Answer, Machine, Recorded};
    use crate::trace::{Observer, LONGEST, PROGRAM_LIMIT};

    struct NoneRefused;

    impl Observer for NoneRefused {
        fn after(&mut self, _: &Machine, number: u32, recorded: Recorded, answer: Answer) {
            assert!(answer.is_ok(), "step {number}, {recorded:?}: {answer:?}");
        }
    }

    pub fn has_its_steps_and_fits(workload: &Workload) {
        let report = play(&workload.trace, PROGRAM_LIMIT, &mut NoneRefused);
        assert_eq!(report.steps, workload.steps);
        assert_eq!(report.ending, Ok(workload.trace.len()));
        assert!(workload.trace.len() <= LONGEST);
    }

    #[test]
    fn the_workloads_have_their_steps_and_fit() {
        for steps in [2_000, PROGRAM_LIMIT] {
            for workload in workloads(steps) {
                assert_eq!(workload.steps, steps);
                has_its_steps_and_fits(&workload);
            }
        }
        busy().iter().for_each(has_its_steps_and_fits);
        polls(PROGRAM_LIMIT).iter().for_each(has_its_steps_and_fits);
        for number in 0..3 {
            let (steps, trace) = (PROGRAM_LIMIT, year(number, PROGRAM_LIMIT));
            has_its_steps_and_fits(&Workload {
                controller: "AIC",
                size: "32 sources",
                steps,
                trace,
            });
        }
    }
}
