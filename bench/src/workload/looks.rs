//! What is timed beside the words that it looks at: reads of an index of a part of full size, 1,024 systems, 256 channels
//! and 256 hosts, with the hold mode off.

use super::Workload;
use crate::generate::cic::{CHANNEL_MAP, HOST_MAP};
use crate::generate::indexed::{CONTROL, ENABLE_SET, GLOBAL_INDEX, HOST_INDEX, STATUS_SET};
use crate::generate::Script;

const LAST_HOST_INDEX: u32 = HOST_INDEX + 4 * 255;

/// One index and what is pending. The words are those that the definition of 02, 10/12 says.
pub struct Look {
    pub channels: &'static str,
    pub pending: &'static str,
    pub words: u32,
    /// The index that is read.
    pub offset: u32,
    /// The few steps after which it is so.
    pub opening: Vec<u8>,
    /// The same, and then reads of that index up to so many steps.
    pub reads: Workload,
}

/// What is pending, the system if there is one with its channel, and the words of a look.
type Pending = (&'static str, Option<(u32, u32)>, u32);

const PLANS: [(&str, u32, [Pending; 3]); 2] = [
    (
        "one: the index of a host of one channel",
        LAST_HOST_INDEX,
        [
            ("the first system", Some((0, 255)), 1),
            ("only the last system", Some((1_023, 255)), 32),
            ("nothing", None, 32),
        ],
    ),
    (
        "256: the global index",
        GLOBAL_INDEX,
        [
            ("the first system, on the first channel", Some((0, 0)), 1),
            (
                "only the last system, on the last channel",
                Some((1_023, 255)),
                8_192,
            ),
            ("nothing", None, 8_192),
        ],
    ),
];

/// All of them, with so many steps of reads.
pub fn looks(steps: u32) -> Vec<Look> {
    let looks = PLANS.into_iter().flat_map(|(channels, offset, pending)| {
        pending.map(|pending| look(channels, offset, pending, steps))
    });
    looks.collect()
}

fn look(
    channels: &'static str,
    offset: u32,
    (pending, system, words): Pending,
    steps: u32,
) -> Look {
    let mut script = Script::new(4, &[1_024, 256, 256, 0x4E82_0000, 1]);
    script.write(CONTROL, 0);
    script.write(HOST_MAP + 0xFC, 0xFF00_0000);
    let mut opened = 2;
    if let Some((system, channel)) = system {
        let place = 8 * (system % 4);
        script.write(CHANNEL_MAP + 4 * (system / 4), channel << place);
        script.write(ENABLE_SET, system);
        script.write(STATUS_SET, system);
        opened += 3;
    }
    let opening = script.bytes.clone();
    (opened..steps).for_each(|_| script.read(offset));
    Look {
        channels,
        pending,
        words,
        offset,
        opening,
        reads: Workload {
            controller: channels,
            size: pending,
            steps,
            trace: script.bytes,
        },
    }
}

#[cfg(test)]
mod tests {
    use super::super::tests::has_its_steps_and_fits;
    use super::*;
    use crate::looked::looked;
    use crate::trace::PROGRAM_LIMIT;

    #[test]
    fn the_reads_look_at_as_many_words_as_is_said() {
        for look in looks(PROGRAM_LIMIT) {
            has_its_steps_and_fits(&look.reads);
            for trace in [&look.opening, &look.reads.trace] {
                assert_eq!(looked(trace, PROGRAM_LIMIT, look.offset), look.words);
            }
        }
    }
}
