//! Traces that visit everything once and on purpose: every register, every defect of every number, every limit.

mod aintc;
mod levels;
mod marks;
mod protect;

use self::marks::opening;
use super::damage::spoil;
use super::steps::steps;
use super::{indexed, long, Script, AINTC, INDEXED};
use crate::model::Kind;
use crate::random::Random;
use crate::trace::{Defect, LONGEST, NUMBER_BYTES, PROGRAM_LIMIT};

/// All sweeps, the same in every run.
pub fn all() -> Vec<Script> {
    let mut sweeps = vec![Script::default(), papers_example()];
    sweeps.extend(registers());
    sweeps.extend(aic_situations());
    sweeps.extend(marks::situations());
    sweeps.extend(levels::situations());
    sweeps.extend(protect::situations());
    sweeps.extend(core_situations());
    sweeps.extend(cic_situations());
    sweeps.extend(indexed::situations());
    sweeps.push(line_limits(AINTC, &[], 128));
    sweeps.extend(aintc::situations());
    sweeps.extend(forms());
    sweeps.extend(defects());
    sweeps.extend(unknown_and_beyond());
    sweeps.extend(limits());
    sweeps
}

/// The example that 01 prints.
fn papers_example() -> Script {
    let steps = "MODE5=23 VECTOR5=A0 ENABLE=20 5+ IVR @2 EOICR=0";
    Script::with(0, &[0, 0], steps)
}

/// Every offset of the maps and some beyond, misaligned ones too: written, read, written with other values, read.
fn registers() -> Vec<Script> {
    let aic = [[0, 0], [u32::MAX, 0xF0F0_F0F0]];
    let core = [[8, 32, 1, 1], [0, 0, 0, 0], [1, 31, 0, 1], [7, 1, 1, 0]];
    let cic = [
        [1_024, 256, 256, 0x4E82_1234],
        [1, 1, 1, 0],
        [33, 5, 33, u32::MAX],
        [1_023, 255, 255, 1],
    ];
    let mut scripts = Vec::new();
    for configuration in aic {
        scripts.push(every_offset(Script::new(0, &configuration), 0..0x160));
    }
    for configuration in core {
        scripts.push(every_offset(Script::new(1, &configuration), 0..0x40));
    }
    let sizes = [
        Script::new(0, &aic[0]),
        Script::new(1, &core[0]),
        Script::new(2, &cic[0]),
        Script::new(AINTC, &[]),
        prioritised(&cic[0], 1),
    ];
    scripts.extend(sizes.map(far_offsets));
    let plain = cic.map(|configuration| Script::new(2, &configuration));
    let indexed = cic.map(|configuration| prioritised(&configuration, 1));
    let without = prioritised(&cic[2], 0);
    for script in plain.into_iter().chain(indexed).chain([without]) {
        scripts.push(every_offset(script.clone(), 0..0x110));
        scripts.push(every_word(script.clone(), 0x1F0..0xD10));
        scripts.push(every_word(script, 0x14F0..0x1530));
    }
    scripts
}

/// A CIC of the kind that says whether it is prioritised.
fn prioritised(configuration: &[u32], choice: u32) -> Script {
    Script::new(INDEXED, &[configuration, &[choice]].concat())
}

fn every_offset(mut script: Script, offsets: std::ops::Range<u32>) -> Script {
    for value in [0x0302_0100, u32::MAX, 0x0000_0002] {
        for offset in offsets.clone() {
            script.write(offset, value);
        }
        for offset in offsets.clone() {
            script.read(offset);
        }
    }
    script
}

/// Offsets that would name a register if high bits were dropped, or at the address that 003, 27.8.1 has for the map.
fn far_offsets(mut script: Script) -> Script {
    for base in [0x1000, 0x2000, 0x1_0000, 0x8000_0000, 0xFFFF_F000] {
        for offset in [0x000, 0x008, 0x010, 0x020, 0x100, 0x120] {
            script.write(base + offset, 1);
            script.read(base + offset);
        }
    }
    script
}

fn every_word(mut script: Script, offsets: std::ops::Range<u32>) -> Script {
    for value in [0x0302_0100, u32::MAX, 0] {
        for offset in offsets.clone().step_by(4) {
            script.write(offset, value);
            script.read(offset);
        }
    }
    script
}

fn aic_situations() -> Vec<Script> {
    let mut scripts = vec![
        nesting_to_eight(),
        fast_side(),
        both_sides(),
        waiting(),
        line_limits(0, &[0, 0], 32),
    ];
    for external in [0, u32::MAX] {
        for levels in [0, u32::MAX] {
            scripts.push(all_types(external, levels));
        }
    }
    scripts
}

/// Eight handlers one above the other, priority 7 waiting on top, then one close more than there are entries.
fn nesting_to_eight() -> Script {
    let mut script = Script::with(0, &[0, 0], "SPU=5555AAAA ENABLE=FFFFFFFF");
    for level in 0..8 {
        let source = 20 - level;
        steps!(script: "{source}:H{level} {source}+ IVR ISR");
    }
    script.steps("MODE30=47 30+ IVR");
    script.steps(&"EOICR=FFFFFFFF ISR ".repeat(9));
    script
}

/// Source 0 by edge and by level, forced sources that are idle, waiting, disabled and unforced again.
fn fast_side() -> Script {
    let mut script = Script::with(0, &[0, 0], "VECTOR0=F0F0 SPU=5050 MODE0=60 MODE9=63");
    script.steps("0+ FVR ENABLE=201 FVR FVR FFER=201 FFSR SET=1 FVR IPR 9+ FVR IPR");
    script.steps("CLEAR=1 FVR DCR=2 CISR FVR DCR=0 CISR FFDR=200 CISR IVR FFER=200");
    script.steps("MODE0=40 FVR EOICR=0 FFDR=200 FVR");
    script
}

/// Four sources by edge with their priorities, each with a vector of its own.
fn edge_sources(script: &mut Script, sources: [(u32, u32); 4]) {
    for (source, priority) in sources {
        steps!(script: "MODE{source}={:x} VECTOR{source}={:x}", 0x60 | priority, 0xC000 + source);
    }
}

/// Forced and normal sources side by side: each side passes over the other's, whatever the priorities.
fn both_sides() -> Script {
    let mut script = Script::with(0, &[0, 0], "VECTOR0=F0F0 SPU=5050");
    edge_sources(&mut script, [(3, 1), (8, 6), (20, 2), (21, 0)]);
    script.steps("FFER=100 SET=100108 FVR ENABLE=FFFFFFFF CISR IVR FVR FFER=100000 ISR");
    script.steps("CLEAR=100 FVR IVR EOICR=0 IVR EOICR=0 IVR SET=200000 IVR SET=200000 IVR IPR");
    script
}

/// Lower and equal priorities wait, a changed mode does not lift an open handler, ties go to the lower number.
fn waiting() -> Script {
    let mut script = opening("");
    edge_sources(&mut script, [(4, 4), (5, 4), (6, 3), (7, 5)]);
    script.steps("5+ 4+ 6+ IVR MODE4=62 IVR IVR 7+ DCR=2 CISR IVR=9 IVR DISABLE=80 ISR");
    script.steps(&"EOICR=0 IVR ".repeat(4));
    script
}

/// Each type: its level or edge and the other one, set and clear, repeated levels, and changes of type and priority.
fn all_types(external: u32, levels: u32) -> Script {
    let mut script = Script::with(0, &[external, levels], "IPR");
    let (one, other) = match levels & 1 {
        0 => ('+', '-'),
        _ => ('-', '+'),
    };
    for kind in 0..4_u32 {
        let source = 10 + kind;
        let (bit, mode) = (1 << source, kind << 5);
        steps!(script: "MODE{source}={:x}", mode | kind);
        for level in [one, one, other, other, one] {
            steps!(script: "{source}{level} IPR");
        }
        steps!(script: "CLEAR={bit:x} IPR {source}{one} IPR SET={bit:x} FFER={bit:x}");
        for mode in [mode | 7, 0xFFFF_FF98 | mode | 7] {
            steps!(script: "MODE{source}={mode:x} IPR");
        }
        for mode in [0x20, 0x60, 0x20, 0] {
            steps!(script: "SET={bit:x} MODE{source}={mode:x} IPR");
        }
    }
    script
}

/// The last line and the first beyond, levels 1 and 2, both at once.
fn line_limits(kind: u32, configuration: &[u32], lines: u32) -> Script {
    let mut script = Script::new(kind, configuration);
    for line in [0, lines - 1, lines, u32::MAX] {
        for level in [0, 1, 2, u32::MAX] {
            script.line(line, level);
        }
    }
    script
}

fn core_situations() -> Vec<Script> {
    let mut scripts = vec![
        line_limits(1, &[8, 32, 0, 0], 40),
        line_limits(1, &[7, 31, 0, 0], 40),
        line_limits(1, &[0, 0, 1, 1], 40),
    ];
    for (fiqs, irqs) in [(0, 0), (1, 1), (4, 9), (8, 32)] {
        for levels in 0..4 {
            let script = Script::new(1, &[fiqs, irqs, levels & 1, levels >> 1]);
            scripts.push(both_groups(script));
        }
    }
    scripts
}

/// Every input up and down and every software bit set and cleared, first masked and then enabled.
fn both_groups(mut script: Script) -> Script {
    for of in 0..2 {
        for enable in [0, u32::MAX] {
            steps!(script: "ENABLE{of}={enable:x} SOFT{of}=FFFFFFFF RAW{of} STATUS{of}");
            steps!(script: "SOFT_CLEAR{of}=FFFFFFFF");
            for line in 0..40 {
                steps!(script: "{line}+ RAW{of} STATUS{of}");
            }
            steps!(script: "SOFT{of}=1 SOFT_CLEAR{of}=1 RAW{of}");
            (0..40).for_each(|line| script.line(line, 0));
        }
        steps!(script: "ENABLE_CLEAR{of}=55555555 ENABLE{of} SOFT_CLEAR{of} ENABLE_CLEAR{of}");
    }
    script
}

fn cic_situations() -> Vec<Script> {
    let mut scripts = Vec::new();
    let sizes = [
        [1, 1, 1],
        [2, 2, 2],
        [32, 4, 4],
        [33, 5, 33],
        [1_024, 256, 256],
    ];
    for [systems, channels, hosts] in sizes {
        let configuration = [systems, channels, hosts, 7];
        scripts.extend(cic_limits(2, &configuration));
        scripts.extend(cic_limits(INDEXED, &[systems, channels, hosts, 7, 1]));
    }
    scripts.extend(cic_limits(INDEXED, &[33, 5, 33, 7, 0]));
    scripts
}

/// The limits of a CIC of either kind.
fn cic_limits(kind: u32, configuration: &[u32]) -> [Script; 4] {
    [
        line_limits(kind, configuration, configuration[0]),
        index_limits(kind, configuration),
        map_limits(kind, configuration),
        one_host_each(kind, configuration),
    ]
}

/// Each index register at its last index, at the first that is refused, and with the first of the high bits.
fn index_limits(kind: u32, configuration: &[u32]) -> Script {
    let mut script = Script::new(kind, configuration);
    for offset in [0x020, 0x024, 0x028, 0x02C, 0x034, 0x038] {
        let count = configuration[if offset < 0x030 { 0 } else { 2 }];
        for index in [0, count - 1, count, 0x400, 0x8000_0000, u32::MAX] {
            script.write(offset, index);
        }
        script.read(offset);
    }
    script
}

/// The first and last register of both maps: the largest byte, the first that is refused, and spare bytes.
fn map_limits(kind: u32, configuration: &[u32]) -> Script {
    let mut script = Script::new(kind, configuration);
    let maps = [
        (0x400, configuration[0], configuration[1]),
        (0x800, configuration[1], configuration[2]),
    ];
    for (base, entries, limit) in maps {
        let (largest, past) = (limit - 1, limit.min(255));
        let last = base + (entries - 1) / 4 * 4;
        for offset in [base, last] {
            for place in 0..4 {
                for byte in [largest, past, 255] {
                    script.write(offset, byte << (8 * place));
                    script.read(offset);
                }
            }
        }
        script.write(last, 0xFFFF_FF00);
        script.read(last);
    }
    script
}

/// Systems mapped each to a channel and a host of its own where there are enough, raised, cleared, masked, unmasked.
fn one_host_each(kind: u32, configuration: &[u32]) -> Script {
    let (systems, channels, hosts) = (configuration[0], configuration[1], configuration[2]);
    let mut script = Script::new(kind, configuration);
    for (map, count, limit) in [("CHANNELS", systems, channels), ("HOSTS", channels, hosts)] {
        for register in 0..count.div_ceil(4) {
            let entry = |place| match 4 * register + place {
                entry if entry < count => entry % limit,
                _ => 255,
            };
            let word = (0..4).fold(0, |word, place| word | entry(place) << (8 * place));
            steps!(script: "{map}{register}={word:x}");
        }
    }
    for word in 0..systems.div_ceil(32) {
        steps!(script: "ENABLE{word}=FFFFFFFF");
    }
    for word in 0..hosts.div_ceil(32) {
        steps!(script: "HOST_ENABLE{word}=FFFFFFFF");
    }
    script.steps("0+ GLOBAL=FFFFFFFF");
    (0..systems).for_each(|system| script.line(system, 1));
    script.steps("0+ 0-");
    for word in 0..systems.div_ceil(32) {
        steps!(script: "CLEAR{word}=FFFFFFFF SET{word}");
    }
    let (last, host) = (systems - 1, systems.min(hosts) - 1);
    steps!(script: "{last}- {last}+ CLEAR{} IHOST_OFF={host:x}", last / 32);
    steps!(script: "IHOST_ON={host:x} IDISABLE={last:x} {last}- ICLEAR={last:x} {last}+");
    steps!(script: "IENABLE={last:x} GLOBAL=2 GLOBAL");
    script
}

/// Short sound traces, one of each kind and one of each sort of step, behind which any number can be spoiled.
fn short_traces() -> Vec<Script> {
    let kinds: [(u32, &[u32]); 5] = [
        (0, &[0x8000_0001, 0x4000_0002]),
        (1, &[8, 32, 1, 0]),
        (2, &[33, 2, 2, 0x4E82_0000]),
        (AINTC, &[]),
        (INDEXED, &[33, 2, 2, 0x4E82_0000, 1]),
    ];
    let short = |(kind, configuration)| Script::with(kind, configuration, "@10 @20=1 0+");
    kinds.map(short).into()
}

/// The least and the largest value that needs one byte, two bytes, up to five.
const ENDS: [(u32, u32); NUMBER_BYTES] = [
    (0, 0x7F),
    (0x80, 0x3FFF),
    (0x4000, 0x1F_FFFF),
    (0x20_0000, 0x0FFF_FFFF),
    (0x1000_0000, u32::MAX),
];

/// Every number in every form: for values that need so many bytes, the whole trace in so many and in more.
fn forms() -> Vec<Script> {
    let mut scripts = Vec::new();
    for (needed, (least, most)) in (1..).zip(ENDS) {
        for width in needed..=NUMBER_BYTES {
            for script in of_values(least, most) {
                scripts.push(script.rewritten(|| width));
            }
        }
    }
    scripts
}

/// A trace of each kind with two values wherever a number has no limit; what is kept of them is read back.
fn of_values(least: u32, most: u32) -> [Script; 5] {
    let kinds = [
        (Script::new(0, &[least, most]), 0x134),
        (Script::new(1, &[8, 32, 1, 0]), 0x20),
        (Script::new(2, &[33, 2, 2, most]), 0x300),
        (Script::new(AINTC, &[]), 0x84),
        (Script::new(INDEXED, &[33, 2, 2, most, 1]), 0x300),
    ];
    kinds.map(|(mut script, register)| {
        for value in [least, most] {
            script.write(register, value);
            script.read(register);
            script.read(value);
            script.read_by(value, register);
            script.write_by(value, register, value);
            script.line(0, value);
            script.line(value, 1);
        }
        script.read(0x000);
        script
    })
}

/// Every defect at every number.
fn defects() -> Vec<Script> {
    let mut scripts = Vec::new();
    for script in short_traces() {
        for place in 0..script.numbers.len() {
            for defect in Defect::ALL {
                let mut spoiled = script.clone();
                spoil(&mut spoiled, place, defect);
                scripts.push(spoiled);
            }
        }
    }
    scripts
}

/// Unknown kinds and steps, and configuration numbers just beyond their limits and far beyond; in longer forms too.
fn unknown_and_beyond() -> Vec<Script> {
    let mut scripts = Vec::new();
    for kind in [5, 0x83, 0x84, u32::MAX] {
        scripts.push(Script::new(kind, &[0, 0, 0, 0]));
    }
    for width in 2..=NUMBER_BYTES {
        scripts.push(Script::new(5, &[0, 0, 0, 0]).rewritten(|| width));
        for step in [0, 4] {
            let mut script = papers_example();
            script.number(step);
            scripts.push(script.rewritten(|| width));
        }
    }
    for step in [0, 4, 0x81, u32::MAX] {
        for mut script in short_traces() {
            script.number(step);
            scripts.push(script);
        }
    }
    let sound: [(u32, &[u32]); 3] = [
        (1, &[8, 32, 1, 1]),
        (2, &[1_024, 256, 256, u32::MAX]),
        (INDEXED, &[1_024, 256, 256, u32::MAX, 1]),
    ];
    for (kind, most) in sound {
        scripts.push(Script::new(kind, most));
        for place in 0..most.len() {
            let with = |number: u32| {
                let mut configuration = most.to_vec();
                configuration[place] = number;
                Script::new(kind, &configuration)
            };
            let beyond = most[place].wrapping_add(1);
            scripts.extend([0, beyond, u32::MAX].map(with));
            scripts.push(with(beyond).rewritten(|| NUMBER_BYTES - place % 4));
        }
    }
    scripts
}

/// The step limit and the length limit, each met and passed by one, for every kind.
fn limits() -> Vec<Script> {
    let random = &mut Random::new(0);
    let mut traces = Vec::new();
    for script in short_traces() {
        let full = long::of_steps(random, script.clone(), PROGRAM_LIMIT);
        let mut with_noise = full.clone();
        with_noise.push(0xFF);
        traces.push(full);
        traces.push(with_noise);
        traces.push(long::of_steps(random, script.clone(), PROGRAM_LIMIT + 1));
        for length in [LONGEST, LONGEST + 1] {
            traces.push(long::of_length(random, script.clone(), length));
        }
    }
    for kind in Kind::ALL {
        traces.push(long::wide(random, kind));
        traces.push(long::padded(random, kind));
    }
    traces.push(vec![0xFF; LONGEST]);
    traces.push(vec![0xFF; LONGEST + 1]);
    traces.push(vec![0; 3 * LONGEST]);
    traces.into_iter().map(raw).collect()
}

/// A trace of which only the bytes matter.
fn raw(bytes: Vec<u8>) -> Script {
    Script {
        bytes,
        ..Script::default()
    }
}
