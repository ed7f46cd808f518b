//! The AINTC (000, chapter 4): what each offset allows by each privilege, which priorities a threshold lets pass, and on
//! every step that a side holds its choice or chooses the first.

use bench::model::aintc::{Aintc, Side, INPUTS};
use bench::model::Refusal::{self, *};
use bench::model::{Answer, Machine, Recorded, Step};

use super::{each_step, sweeps, Turn};

const SYSCONFIG: u32 = 0x10;
const CONTROL: u32 = 0x48;
const PROTECTION: u32 = 0x4C;
const THRESHOLD: u32 = 0x68;
const ITR: u32 = 0x80;
const MIR: u32 = 0x84;
const MIR_CLEAR: u32 = 0x88;
const ISR_SET: u32 = 0x90;
const PENDING: [u32; 2] = [0x98, 0x9C];
const ILR: u32 = 0x100;
const BANK: u32 = 0x20;
const SOFTRESET: u32 = 2;

fn by(aintc: &mut Aintc, privilege: u32, step: Step) -> Answer {
    aintc.recorded(Recorded { step, privilege })
}

/// A value that a privileged read must answer.
fn value(aintc: &mut Aintc, offset: u32) -> u32 {
    by(aintc, 1, Step::Read { offset }).expect("the register can be read")
}

/// A privileged write that must be accepted.
fn put(aintc: &mut Aintc, offset: u32, value: u32) {
    assert_eq!(by(aintc, 1, Step::Write { offset, value }), Ok(0));
}

/// What each offset allows, written down from table 4-3 and figures 4-6 to 4-25: why a read and a write are refused.
fn refusals(offset: u32) -> [Option<Refusal>; 2] {
    let in_bank = ["R", "RW", "W", "W", "RW", "W", "R", "R"];
    let allowed = match offset {
        _ if offset % 4 != 0 => return [Some(Misaligned); 2],
        0x00 | 0x10 | 0x4C | 0x50 | 0x68 => "RW",
        0x14 | 0x40 | 0x44 | 0x60 | 0x64 => "R",
        0x48 => "W",
        0x80..0x100 => in_bank[(offset / 4 % 8) as usize],
        0x100..0x300 => "RW",
        _ => return [Some(NoRegister); 2],
    };
    let unless = |letter, refusal| (!allowed.contains(letter)).then_some(refusal);
    [unless('R', WriteOnly), unless('W', ReadOnly)]
}

/// While protection is on, and of its own register always, an access that is not privileged is refused by 13, behind 1
/// and 2 alone; a refused step changes nothing.
#[test]
fn every_offset_allows_what_the_tables_say() {
    for (protection, privilege) in [(0, 1), (0, 0), (1, 1), (1, 0)] {
        for offset in 0..0x400 {
            let mut aintc = Aintc::new();
            put(&mut aintc, PROTECTION, protection);
            let secret = privilege == 0 && (protection == 1 || offset == PROTECTION);
            let steps = [Step::Read { offset }, Step::Write { offset, value: 0 }];
            for (step, expected) in steps.into_iter().zip(refusals(offset)) {
                let expected = match expected {
                    Some(Misaligned | NoRegister) => expected,
                    _ if secret => Some(Unprivileged),
                    _ => expected,
                };
                let before = aintc.clone();
                assert_eq!(by(&mut aintc, privilege, step).err(), expected, "{step:?}");
                assert!(expected.is_none() || aintc == before, "{step:?}");
            }
        }
    }
}

/// Lower and equal priorities are masked, and 0 never is; 0 is as 1, and all from 80 on let all pass. Only bits 7:0 of
/// the threshold count, and pending shows what is masked too.
#[test]
fn a_threshold_lets_higher_priorities_pass() {
    for route in 0..2 {
        for threshold in (0..0x100).chain([0x100, u32::MAX]) {
            for priority in 0..0x80 {
                let mut aintc = Aintc::new();
                put(&mut aintc, ILR + 4 * 40, priority << 2 | route);
                put(&mut aintc, MIR_CLEAR + BANK, 1 << 8);
                put(&mut aintc, THRESHOLD, threshold);
                let (line, level) = (40, 1);
                assert_eq!(by(&mut aintc, 1, Step::Line { line, level }), Ok(0));
                let pending = PENDING[route as usize] + BANK;
                assert_eq!(value(&mut aintc, pending), 1 << 8);
                let passes = priority == 0 || priority < threshold & 0xFF;
                let chosen = aintc.chosen(Side::BOTH[route as usize]);
                assert_eq!(chosen.is_some(), passes, "{threshold:#x}, {priority:#x}");
            }
        }
    }
}

/// Whether an input may be chosen, from the registers alone (000, 4.3.1.1 to 4.3.1.2.2).
fn may_be_chosen(aintc: &mut Aintc, input: u32, side: Side) -> Option<u32> {
    let (bank, bit) = (BANK * (input / 32), input % 32);
    let mut is_set = |register| value(aintc, register + bank) >> bit & 1 == 1;
    let open = (is_set(ITR) || is_set(ISR_SET)) && !is_set(MIR);
    let ilr = value(aintc, ILR + 4 * input);
    let (priority, threshold) = (ilr >> 2, value(aintc, THRESHOLD));
    let passes = priority == 0 || priority < threshold;
    (open && passes && ilr & 1 == side as u32).then_some(priority)
}

fn look(turn: Turn<Aintc>) {
    let (before, after, step) = (turn.before, turn.after, turn.step);
    if turn.answer.is_err() || matches!(step, Step::Read { .. }) {
        assert_eq!(before, after, "{step:?} changed something");
        return;
    }
    for side in Side::BOTH {
        let ended = match step {
            Step::Write {
                offset: CONTROL,
                value,
            } => value & (1 + side as u32) != 0,
            Step::Write {
                offset: SYSCONFIG,
                value,
            } => value & SOFTRESET != 0,
            _ => false,
        };
        match before.chosen(side) {
            Some(_) if !ended => assert_eq!(before.chosen(side), after.chosen(side)),
            _ => is_first(after, side),
        }
    }
}

/// The chosen one is eligible and none comes before it; with none chosen, none is eligible.
fn is_first(after: &Aintc, side: Side) {
    let aintc = &mut after.clone();
    let mut first: Option<(u32, u32)> = None;
    for input in 0..INPUTS as u32 {
        if let Some(priority) = may_be_chosen(aintc, input, side) {
            if first.is_none_or(|(_, other)| priority <= other) {
                first = Some((input, priority));
            }
        }
    }
    let chosen = after.chosen(side);
    let chosen = chosen.map(|it| (u32::from(it.number), u32::from(it.priority)));
    assert_eq!(chosen, first);
}

fn aintc_of(machine: &Machine) -> Option<&Aintc> {
    match machine {
        Machine::Aintc(aintc) => Some(aintc),
        _ => None,
    }
}

#[test]
fn a_side_holds_or_chooses_the_first() {
    let mut steps = 0;
    let random = sweeps()..sweeps() + 1_000;
    each_step((12, random, 400), aintc_of, |turn| {
        look(turn);
        steps += 1;
    });
    assert!(steps > 5_000, "{steps} steps");
}
