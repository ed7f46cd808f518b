//! The questions that visit everything once: each word of parts of all sizes, channels that are searched and skipped,
//! indices that are held, and offsets and traces that have nothing to be searched.

use super::{CONTROL, GLOBAL_INDEX, HOST_INDEX};
use crate::generate::steps::steps;
use crate::generate::{Script, INDEXED};
use crate::looked::Question;
use crate::trace::PROGRAM_LIMIT;

pub fn all() -> Vec<Question> {
    let mut questions = Vec::new();
    let words = [1, 31, 32, 33, 64, 65, 97, 1_023, 1_024].into_iter();
    questions.extend(words.flat_map(each_word));
    questions.extend(channels());
    questions.extend(most());
    questions.extend(holds());
    questions.extend(offsets());
    questions.extend(traces());
    questions
}

fn question(script: &Script, limit: u32, offset: u32) -> Question {
    Question {
        name: "sweep",
        trace: script.bytes.clone(),
        limit,
        offset,
    }
}

/// The same trace asked for at several offsets.
fn at(script: &Script, offsets: &[u32]) -> Vec<Question> {
    let asked = |&offset| question(script, PROGRAM_LIMIT, offset);
    offsets.iter().map(asked).collect()
}

/// A part with every system enabled, and some steps.
fn part(systems: u32, channels: u32, hosts: u32, text: &str) -> Script {
    let mut script = Script::new(INDEXED, &[systems, channels, hosts, 0, 1]);
    for word in 0..systems.div_ceil(32) {
        steps!(script: "ENABLE{word}=FFFFFFFF");
    }
    script.steps(text);
    script
}

/// For each word of a part with three channels, of which the second leads to the second host: nothing pending, or the
/// word's first system or its last one, alone or behind systems that do not count, or before others.
fn each_word(systems: u32) -> Vec<Question> {
    let words = systems.div_ceil(32);
    let indices = [GLOBAL_INDEX, HOST_INDEX, HOST_INDEX + 4];
    let opened = || part(systems, 3, 2, "HOSTS0=100");
    let mut questions = at(&opened(), &indices);
    for word in 0..words {
        let (first, last) = (32 * word, (32 * word + 31).min(systems - 1));
        for system in [first, last] {
            for channel in [0, 1] {
                let map = channel << (8 * (system % 4));
                let mut script = opened();
                steps!(script: "CHANNELS{}={map:x} ISET={system:x}", system / 4);
                questions.extend(at(&script, &indices));
                before(&mut script, word);
                questions.extend(at(&script, &indices));
            }
        }
        let mut script = opened();
        for later in word..words {
            steps!(script: "SET{later}=FFFFFFFF");
        }
        questions.extend(at(&script, &indices));
    }
    questions
}

/// In the words before: in one word a system that is disabled, in the next one of the last channel, in the next none.
fn before(script: &mut Script, word: u32) {
    for earlier in 0..word {
        let system = 32 * earlier + 7;
        match earlier % 3 {
            0 => steps!(script: "IDISABLE={system:x} ISET={system:x}"),
            1 => steps!(script: "CHANNELS{}=02000000 ISET={system:x}", system / 4),
            _ => {}
        }
    }
}

/// Two words, six channels and three hosts, under maps that lead none, one, some or all channels to a host: a system of
/// one channel pending, in either word, and then one of each, from the last channel to the first.
fn channels() -> Vec<Question> {
    let indices = [0, 1, 2].map(|host| HOST_INDEX + 4 * host);
    let indices = [&indices[..], &[GLOBAL_INDEX]].concat();
    let mut questions = Vec::new();
    for map in [
        "HOSTS0=0 HOSTS1=0",
        "HOSTS0=01010101 HOSTS1=0101",
        "HOSTS0=02000100 HOSTS1=0001",
        "HOSTS0=00010102 HOSTS1=0201",
        "HOSTS0=02020201 HOSTS1=0100",
    ] {
        let opened = |mode: &str| part(40, 6, 3, &format!("{mode} IHOST_ON=0 {map}"));
        let on = "CONTROL=10 GLOBAL=1";
        questions.extend(at(&opened(on), &indices));
        let mut all = opened("CONTROL=0 GLOBAL=0");
        for channel in (0..6).rev() {
            let mut alone = opened(on);
            let system = if channel % 2 == 1 { 36 } else { 4 * channel };
            for (script, system) in [(&mut alone, system), (&mut all, 36 - 4 * channel)] {
                steps!(script: "CHANNELS{}={channel} ISET={system:x}", system / 4);
                questions.extend(at(script, &indices));
            }
        }
    }
    questions
}

/// The largest part: 256 channels of 32 words, with nothing pending, with only the last system of the last channel,
/// with one of each channel; all channels on one host, or each on its own.
fn most() -> Vec<Question> {
    let hosts = [0, 1, 31, 32, 128, 254, 255].map(|host| HOST_INDEX + 4 * host);
    let indices = [&hosts[..], &[GLOBAL_INDEX]].concat();
    let four = |register: u32| 0x0302_0100 + 0x0101_0101 * (4 * register);
    let mut questions = Vec::new();
    for own in [false, true] {
        let mut script = part(1_024, 256, 256, "CONTROL=0");
        for register in (0..64).filter(|_| own) {
            steps!(script: "HOSTS{register}={:x}", four(register));
        }
        questions.extend(at(&script, &indices));
        script.steps("CHANNELS255=FF000000 ISET=3FF");
        questions.extend(at(&script, &indices));
        for register in 0..64 {
            let word = four(register);
            steps!(script: "CHANNELS{}={word:x} SET{register}=FFFFFFFF", 8 * register);
        }
        questions.extend(at(&script, &indices));
    }
    questions
}

/// Indices held by a number or by none, with the same pending, another, or nothing since; after the hold has ended; and
/// with one beside it.
fn holds() -> Vec<Question> {
    let indices = [GLOBAL_INDEX, HOST_INDEX, HOST_INDEX + 4];
    let mut questions = Vec::new();
    for held in ["INDEX", "HOST_INDEX0", "HOST_INDEX1"] {
        for pending in ["ICLEAR=28 ICLEAR=44", "ISET=28 ISET=44"] {
            let mut script = part(96, 2, 2, "HOSTS0=100 CHANNELS17=1");
            for change in [pending, held, "ISET=3", "ICLEAR=3 ICLEAR=28 ICLEAR=44"] {
                script.steps(change);
                questions.extend(at(&script, &indices));
            }
            let mut off = script.clone();
            off.steps("CONTROL=0");
            questions.extend(at(&off, &indices));
            steps!(script: "{held}=0");
            questions.extend(at(&script, &indices));
        }
    }
    questions
}

/// Every offset around the registers of prioritisation, and all up to the end of the map in steps of 4, with the choice
/// on and off.
fn offsets() -> Vec<Question> {
    let mut questions = Vec::new();
    for choice in [0, 1] {
        let steps = "ENABLE1=FFFFFFFF HOSTS0=200 ISET=27";
        let script = Script::with(INDEXED, &[40, 2, 3, 0, choice], steps);
        let near = [CONTROL, GLOBAL_INDEX, HOST_INDEX, HOST_INDEX + 8];
        let near = near.into_iter().flat_map(|offset| offset - 4..offset + 9);
        let all = (0..0x1528).step_by(4);
        let far = [0x1_0080, 0x1_0900, 0x8000_0080, !3, !0];
        let offsets: Vec<u32> = near.chain(all).chain(far).collect();
        questions.extend(at(&script, &offsets));
    }
    questions
}

/// Traces of other kinds, traces that start nothing or end in a fault, and every limit of one.
fn traces() -> Vec<Question> {
    let mut questions = Vec::new();
    let offsets = [CONTROL, GLOBAL_INDEX, HOST_INDEX, 0x100];
    let mut ask = |script: &Script| questions.extend(at(script, &offsets));
    for (kind, configuration) in [
        (0, &[0, 0][..]),
        (1, &[8, 32, 0, 0]),
        (2, &[40, 2, 3, 0]),
        (3, &[]),
        (5, &[]),
        (4, &[0, 2, 3, 0, 1]),
        (4, &[40, 2, 3, 0, 2]),
        (4, &[40, 2, 3, 0]),
    ] {
        let mut script = Script::new(kind, configuration);
        ask(&script);
        script.line(7, 1);
        ask(&script);
    }
    ask(&Script::default());
    let mut script = part(70, 1, 1, "ISET=21 INDEX INDEX=0 ICLEAR=21 ISET=45");
    for limit in 0..10 {
        questions.extend(offsets.map(|offset| question(&script, limit, offset)));
    }
    script.number(4);
    script.steps("ISET=1");
    questions.extend(at(&script, &offsets));
    script.bytes.resize(65_537, 0);
    questions.extend(at(&script, &offsets));
    questions
}
