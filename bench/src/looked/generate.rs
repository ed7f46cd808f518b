//! Questions made from a seed: sweeps that visit everything once, then tours, scattered systems, and traces of any
//! kind.

mod sweeps;

use super::Question;
use crate::generate::indexed::{CONTROL, GLOBAL_INDEX, HOST_INDEX};
use crate::generate::steps::steps;
use crate::generate::{in_any_form, random_case, tour_of, Script, INDEXED};
use crate::model::Kind;
use crate::numbered::{Made, Numbered};
use crate::random::Random;
use crate::trace::{pieces, PROGRAM_LIMIT};

/// Everything that can be made from one seed.
pub type Generator = Numbered<Question>;

impl Made for Question {
    fn sweeps() -> Vec<Question> {
        sweeps::all()
    }

    fn random(random: &mut Random) -> Question {
        // The same numbers once more, for the trace that has this number among the listed ones.
        let listed = &mut random.clone();
        let (name, trace) = match random.below(10) {
            0 => ("any trace", random_case(listed).trace),
            1..=4 => {
                let steps = random.within(0, 80);
                let script = tour_of(random, Kind::Indexed, steps);
                ("tour", in_any_form(random, script).bytes)
            }
            _ => ("scattered", scattered(random).bytes),
        };
        let limit = match random.below(6) {
            0 => random.below(pieces(&trace).len() as u32 + 2),
            _ => PROGRAM_LIMIT,
        };
        Question {
            name,
            trace,
            limit,
            offset: offset(random),
        }
    }
}

/// The global index, that of a low host, of the last or any, and now and then something else.
fn offset(random: &mut Random) -> u32 {
    let host = match random.below(8) {
        0 => random.pick(&[254, 255]),
        1 => random.below(256),
        2 => random.below(4),
        _ => random.below(2),
    };
    match random.below(20) {
        0..=6 => GLOBAL_INDEX,
        7..=16 => HOST_INDEX + 4 * host,
        17 => HOST_INDEX + random.below(1_040),
        18 => random.pick(&[CONTROL, 0x020, 0x200, 0x300, 0x400, 0x081, 0x084]),
        _ => random.word(),
    }
}

const SYSTEMS: [u32; 14] = [1, 2, 31, 32, 33, 63, 64, 65, 96, 97, 992, 993, 1_023, 1_024];

/// A part of any size with some systems pending anywhere on few channels, which lead to few hosts; some of them are
/// disabled again, some indices are held, and sometimes what they hold has gone since, or a fault ends the trace.
fn scattered(random: &mut Random) -> Script {
    let systems = match random.below(3) {
        0 => random.within(1, 1_024),
        _ => random.pick(&SYSTEMS),
    };
    let channels = random.pick(&[1, 2, 3, 4, 5, 8, 256]);
    let hosts = random.pick(&[1, 2, 3, 4, 256]);
    let choice = u32::from(!random.one_in(16));
    let mut script = Script::new(INDEXED, &[systems, channels, hosts, 0, choice]);
    if random.one_in(2) {
        script.steps("CONTROL=0");
    }
    steps!(script: "GLOBAL={}", random.below(2));
    for word in 0..systems.div_ceil(32) {
        steps!(script: "ENABLE{word}=FFFFFFFF");
    }
    for register in 0..channels.min(12).div_ceil(4) {
        steps!(script: "HOSTS{register}={:x}", few(random, hosts));
    }
    let count = random.below(7);
    let pending: Vec<u32> = (0..count).map(|_| random.below(systems)).collect();
    for system in &pending {
        let word = few(random, channels);
        steps!(script: "CHANNELS{}={word:x} ISET={system:x}", system / 4);
        if random.one_in(4) {
            steps!(script: "IDISABLE={system:x}");
        }
    }
    for _ in 0..random.below(3) {
        script.read(offset(random));
    }
    if let (Some(system), true) = (pending.first(), random.one_in(3)) {
        steps!(script: "ICLEAR={system:x}");
    }
    if random.one_in(4) {
        steps!(script: "IHOST_ON={:x}", random.below(hosts));
    }
    if random.one_in(20) {
        script.number(4 + random.below(9));
        script.steps("ISET=0");
    }
    script
}

/// The bytes of a map, each of the first few below the count, and now and then the last one.
fn few(random: &mut Random, count: u32) -> u32 {
    (0..4).fold(0, |word, place| {
        let byte = match random.below(8) {
            0 => count - 1,
            _ => random.below(count.min(4)),
        };
        word | byte << (8 * place)
    })
}

#[cfg(test)]
mod tests {
    use super::*;
    use crate::numbered::tests::depends_on_seed_and_number_alone;

    #[test]
    fn a_question_depends_on_seed_and_number_alone() {
        depends_on_seed_and_number_alone(|question: Question| question);
    }
}
