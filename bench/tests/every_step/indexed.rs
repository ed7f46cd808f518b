//! The CIC with prioritised indices (02, 6/12): what an index names, and which steps hold it and end the hold; with the
//! choice off it is the CIC of kind 2.

use bench::generate::cic::{CHANNEL_MAP as CHANNELS, HOST_ENABLE as HOST_ENABLES};
use bench::generate::indexed::{CONTROL, GLOBAL_INDEX as GLOBAL, HOLD, HOST_CLEAR, HOST_SET};
use bench::generate::{Generator, Script};
use bench::listing::listing;
use bench::model::indexed::{Index, Indexed, NONE};
use bench::model::{Controller, Machine, Step};
use bench::trace::{pieces, play, LONGEST, PROGRAM_LIMIT};

use super::{each_step, sweeps, Turn};

/// The offset of an index.
fn offset_of(index: Index) -> u32 {
    match index {
        Index::Global => GLOBAL,
        Index::Host(host) => 0x900 + 4 * host as u32,
    }
}

/// D33: with the choice off a trace lists as the one of kind 2 with the same steps does, byte for byte; the offset of
/// an ending is one byte later, since the choice stands before it.
#[test]
fn with_the_choice_off_it_lists_as_a_plain_cic() {
    let generator = Generator::new(21);
    let mut compared = 0;
    for number in 0..generator.sweeps() + 3_000 {
        let trace = generator.case(number).trace;
        let Some(other) = with_choice_off(&trace) else {
            continue;
        };
        let (plain, off) = (text(&trace), text(&other));
        assert_eq!(off, ending_later(&plain), "case {number}");
        compared += 1;
    }
    assert!(compared > 300, "{compared} compared");
}

/// The trace of a CIC as one of kind 4 with the choice off, unless it is none, or as long as a trace can be.
fn with_choice_off(trace: &[u8]) -> Option<Vec<u8>> {
    let plays = |trace: &[u8]| matches!(play(trace, 0, &mut ()).machine, Some(Machine::Cic(_)));
    let (&beginning, steps) = pieces(trace).split_first().map(|(b, s)| (b, s.concat()))?;
    if trace.len() >= LONGEST || !plays(beginning) {
        return None;
    }
    // The low bits of the first byte are the kind, whatever its form.
    let kind = beginning[0] & 0x80 | 4;
    Some([&[kind], &beginning[1..], &[0], &steps].concat())
}

fn text(trace: &[u8]) -> String {
    String::from_utf8(listing(trace, PROGRAM_LIMIT)).expect("a listing is plain text")
}

/// A listing with the offset of its ending, if it has one, a byte later.
fn ending_later(listing: &str) -> String {
    let Some((lines, ending)) = listing.split_once("\nE ") else {
        return listing.to_string();
    };
    let (number, offset) = ending.trim_end().split_once(' ').expect("it has an offset");
    let offset: usize = offset.parse().expect("it is a number");
    format!("{lines}\nE {number} {}\n", offset + 1)
}

/// What must hold of every step of a prioritised part, told from before and after by other words than the model's.
#[derive(Default)]
struct Rules {
    polls: u64,
    ended: u64,
    kept: u64,
}

/// All indices of a part.
fn indices(on: &Indexed) -> Vec<Index> {
    let hosts = (0..on.cic().hosts()).map(Index::Host);
    [Index::Global].into_iter().chain(hosts).collect()
}

/// Whether one system comes before another (001, 1.3.5).
fn comes_before(on: &Indexed, one: usize, other: usize) -> bool {
    let channel = |system| on.cic().channel_of(system);
    channel(one) < channel(other) || channel(one) == channel(other) && one < other
}

impl Rules {
    /// An index that is not held names none exactly if no system meets its conditions, and else one that does and
    /// before which none of them comes.
    fn named(&mut self, on: &Indexed, index: Index, word: u32) {
        self.polls += 1;
        let asked = |system: &usize| {
            let (set, enabled) = (
                on.cic().status().get(*system),
                on.cic().enable().get(*system),
            );
            let channel = on.cic().channel_of(*system);
            let leads = match index {
                Index::Global => true,
                Index::Host(host) => on.cic().host_of(channel) == host,
            };
            set && enabled && leads
        };
        let meet: Vec<usize> = (0..on.cic().systems()).filter(asked).collect();
        assert_eq!(word == NONE, meet.is_empty());
        if word != NONE {
            let named = word as usize;
            assert!(meet.contains(&named));
            assert!(!meet.iter().any(|&other| comes_before(on, other, named)));
        }
    }

    /// Whether an accepted write ends the hold of an index, by the list of the decided points.
    fn ends(on: &Indexed, index: Index, offset: u32, value: u32) -> bool {
        let hosts = on.cic().hosts() as u32;
        let own = offset_of(index);
        let concerns =
            |host: u32| host < hosts && (index == Index::Global || own == 0x900 + 4 * host);
        let bits = (0..32).filter(|bit| value >> bit & 1 == 1);
        match offset {
            _ if offset == own => true,
            CONTROL => value & HOLD == 0,
            HOST_SET | HOST_CLEAR => concerns(value),
            0x1500..0x1520 => bits.map(|bit| 8 * (offset - 0x1500) + bit).any(concerns),
            _ => false,
        }
    }

    fn held(&mut self, turn: &Turn<Indexed>) {
        let (before, after, step) = (turn.before, turn.after, turn.step);
        for index in indices(before) {
            let Some(word) = before.held(index) else {
                continue;
            };
            let ends = match step {
                Step::Write { offset, value } if turn.answer.is_ok() => {
                    Rules::ends(before, index, offset, value)
                }
                _ => false,
            };
            assert_eq!(after.held(index), (!ends).then_some(word), "{step:?}");
            self.ended += u64::from(ends);
            self.kept += u64::from(!ends);
        }
    }

    /// What is held after a step and was not before it is the word that a read has just answered.
    fn begun(turn: &Turn<Indexed>) {
        let (before, after) = (turn.before, turn.after);
        for index in indices(before) {
            if before.held(index).is_none() && after.held(index).is_some() {
                let offset = offset_of(index);
                assert_eq!(turn.step, Step::Read { offset });
                assert_eq!(after.held(index), turn.answer.ok());
                assert!(before.hold());
            }
        }
    }

    fn look(&mut self, turn: Turn<Indexed>) {
        let (before, after) = (turn.before, turn.after);
        if !before.prioritised() {
            assert!(!after.hold() && indices(after).iter().all(|&i| after.held(i).is_none()));
            return;
        }
        let polled = match turn.step {
            Step::Read { offset: GLOBAL } => Some(Index::Global),
            Step::Read { offset } if (0x900..0xD00).contains(&offset) => {
                Some(Index::Host((offset as usize - 0x900) / 4))
            }
            _ => None,
        };
        if let (Some(index), Ok(word)) = (polled, turn.answer) {
            match before.held(index) {
                Some(held) => assert_eq!(word, held),
                None => self.named(before, index, word),
            }
        }
        self.held(&turn);
        Rules::begun(&turn);
        assert_eq!(after.shown(), after.cic().shown());
    }
}

fn indexed_of(machine: &Machine) -> Option<&Indexed> {
    match machine {
        Machine::Indexed(indexed) => Some(indexed),
        _ => None,
    }
}

#[test]
fn every_step_keeps_the_rules() {
    let mut rules = Rules::default();
    let numbers = 0..sweeps() + 3_000;
    each_step((23, numbers, u32::MAX), indexed_of, |turn| rules.look(turn));
    let (polls, ended, kept) = (rules.polls, rules.ended, rules.kept);
    assert!(polls > 10_000, "{polls} polls");
    assert!(ended > 2_000, "{ended} ended");
    assert!(kept > 20_000, "{kept} kept");
}

/// A step beside the registers of prioritisation is the CIC's, whatever is held.
#[test]
fn elsewhere_it_is_the_cic() {
    let mut script = Script::new(4, &[33, 5, 33, 7, 1]);
    let mut plain = Script::new(2, &[33, 5, 33, 7]);
    for round in 0..40 {
        let (system, host) = (7 * round % 33, 5 * round % 34);
        for script in [&mut script, &mut plain] {
            script.line(system, 1);
            script.write(0x028, system);
            script.write(HOST_SET, host);
            script.write(CHANNELS + 4 * (system / 4), 0x0403_0201 * (round % 2));
            script.read(0x280);
            script.write(HOST_ENABLES, round << 3);
            script.read(HOST_ENABLES);
            script.line(system, round % 3);
        }
        script.read(GLOBAL);
        script.read(0x900 + 4 * host);
    }
    // All but the name and the numbers of the lines.
    let lines = |script: &Script| -> Vec<String> {
        let text = text(&script.bytes);
        let fields = text.lines().filter_map(|line| line.split_once(' '));
        fields.map(|(_, fields)| fields.to_string()).collect()
    };
    let (indexed, plain) = (lines(&script), lines(&plain));
    let both = indexed.chunks(10).flat_map(|round| &round[..8]);
    assert!(both.eq(&plain));
}
