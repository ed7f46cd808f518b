//! The AINTC as one array of what its registers read, kept up to date, so that most reads are a load. What is pending is
//! kept by route: a choice is made only where a side is free and something is open for it, and goes over the bits of
//! the priorities and not over the inputs (000, chapter 4; 02, 2/12).

use super::text::{show_input, Line};
use super::{mixed, nothing_at, Device, Done};
use crate::model::aintc::{INPUTS, NO_THRESHOLD};
use crate::model::{Access, Answer, Kind, Refusal, PRIVILEGED};

/// What the active number and priority registers read with none chosen (000, figures 4-9, 4-10, 4-14, 4-15).
const SPURIOUS: u32 = 0xFFFF_FF80;

/// The two sides.
const IRQ: usize = 0;
const FIQ: usize = 1;

/// The slots of the registers in their array, a quarter of their offsets (000, table 4-3).
const REVISION: usize = 0;
const SYSCONFIG: usize = 4;
const SYSSTATUS: usize = 5;
const NUMBERS: usize = 16;
const CONTROL: usize = 18;
const PROTECTION: usize = 19;
const IDLE: usize = 20;
const PRIORITIES: usize = 24;
const THRESHOLD: usize = 26;
const BANKS: usize = 32;
const ILRS: usize = 64;
const SLOTS: usize = ILRS + INPUTS;

/// The slots of a bank of 32 inputs.
const BANK: usize = 8;
const ITR: usize = 0;
const MIR: usize = 1;
const MIR_CLEAR: usize = 2;
const MIR_SET: usize = 3;
const ISR: usize = 4;
const ISR_CLEAR: usize = 5;
const PENDING: usize = 6;
/// A 1 where the input is routed to FIQ. It is no register, and is kept in the slot of one that cannot be read.
const ROUTES: usize = MIR_CLEAR;

/// Who may do what at each slot, if it is a register's (000, figures 4-6 to 4-25).
static ACCESS: [Option<Access>; SLOTS] = {
    let mut access = [None; SLOTS];
    let mut slot = 0;
    while slot < SLOTS {
        access[slot] = access_of(slot);
        slot += 1;
    }
    access
};

const fn access_of(slot: usize) -> Option<Access> {
    Some(match slot {
        REVISION | SYSCONFIG | PROTECTION | IDLE | THRESHOLD | ILRS.. => Access::ReadWrite,
        SYSSTATUS | NUMBERS..CONTROL | PRIORITIES..THRESHOLD => Access::ReadOnly,
        CONTROL => Access::WriteOnly,
        BANKS..ILRS => match slot % BANK {
            MIR | ISR => Access::ReadWrite,
            MIR_CLEAR | MIR_SET | ISR_CLEAR => Access::WriteOnly,
            _ => Access::ReadOnly,
        },
        _ => return None,
    })
}

/// The slot of an aligned offset; that of a misaligned one is far beyond the registers.
#[inline(always)]
fn slot_of(offset: u32) -> usize {
    offset.rotate_right(2) as usize
}

/// Why an access is refused that is not among those allowed at its offset: there is no register, or else as said.
#[cold]
fn refusal_at(offset: u32, else_for: Refusal) -> Refusal {
    match ACCESS.get(slot_of(offset)) {
        Some(Some(_)) => else_for,
        _ => nothing_at(offset),
    }
}

/// The whole controller.
pub struct Aintc {
    registers: [u32; SLOTS],
    /// Bits 6 to 0 of the priorities, for inputs 0 to 63 and 64 to 127.
    priorities: [[u64; 7]; 2],
}

impl Aintc {
    pub fn new() -> Aintc {
        let mut registers = [0; SLOTS];
        registers[SYSSTATUS] = 1;
        registers[THRESHOLD] = u32::from(NO_THRESHOLD);
        for side in [IRQ, FIQ] {
            registers[NUMBERS + side] = SPURIOUS;
            registers[PRIORITIES + side] = SPURIOUS;
        }
        for bank in registers[BANKS..ILRS].chunks_exact_mut(BANK) {
            bank[MIR] = u32::MAX;
        }
        Aintc {
            registers,
            priorities: [[0; 7]; 2],
        }
    }

    #[inline(always)]
    fn bank(&mut self, bank: usize) -> &mut [u32; BANK] {
        let first = BANKS + BANK * (bank % 4);
        let bank = self.registers[first..].first_chunk_mut();
        bank.expect("there are eight slots from there on")
    }

    #[inline(always)]
    fn is_free(&self, side: usize) -> bool {
        self.registers[NUMBERS + side] == SPURIOUS
    }

    #[inline(always)]
    fn priority(&self, input: usize) -> u32 {
        self.registers[ILRS + input % INPUTS] >> 2
    }

    /// What is open for a side, inputs 0 to 63 and 64 to 127.
    #[inline(always)]
    fn open(&self, side: usize) -> [u64; 2] {
        let pending = |bank| u64::from(self.registers[BANKS + BANK * bank + PENDING + side]);
        [pending(0) | pending(1) << 32, pending(2) | pending(3) << 32]
    }

    /// Priority 0 passes any threshold.
    #[inline(always)]
    fn passes(&self, priority: u32) -> bool {
        (priority == 0) | (priority < self.registers[THRESHOLD])
    }

    /// Each side that is free chooses. Whether something is open for it is hard to foretell, so that no branch asks it.
    #[inline(always)]
    fn choose(&mut self) {
        for side in [IRQ, FIQ] {
            if self.is_free(side) {
                let open = self.open(side);
                let input = self.first(open);
                let priority = self.priority(input);
                let chosen = (open != [0; 2]) & self.passes(priority);
                let [number, priority] = match chosen {
                    true => [input as u32, priority],
                    false => [SPURIOUS; 2],
                };
                self.registers[NUMBERS + side] = number;
                self.registers[PRIORITIES + side] = priority;
            }
        }
    }

    /// The smallest priority number and of equal ones the highest input, which is the first of its half. If the
    /// threshold stops that one it stops all, for it stops the larger numbers.
    #[inline(always)]
    fn first(&self, [low, high]: [u64; 2]) -> usize {
        if high == 0 {
            return first_of(&self.priorities[0], low);
        }
        let upper = 64 + first_of(&self.priorities[1], high);
        if low == 0 {
            return upper;
        }
        let lower = first_of(&self.priorities[0], low);
        match self.priority(lower) < self.priority(upper) {
            true => lower,
            false => upper,
        }
    }

    /// Bit 1 resets all but the lines, and takes bit 0 of the same write with it.
    fn write_sysconfig(&mut self, value: u32) {
        self.registers[SYSCONFIG] = value & 1;
        if value & 2 != 0 {
            let before = std::mem::replace(self, Aintc::new());
            for bank in 0..4 {
                self.bank(bank)[ITR] = before.registers[BANKS + BANK * bank + ITR];
            }
        }
    }

    /// Each agreement bit ends its side's business.
    #[inline(always)]
    fn write_control(&mut self, value: u32) {
        for side in [IRQ, FIQ] {
            if value >> side & 1 != 0 {
                self.registers[NUMBERS + side] = SPURIOUS;
                self.registers[PRIORITIES + side] = SPURIOUS;
            }
        }
    }

    /// Bits 8:2 are the priority and bit 0 is the route.
    fn write_ilr(&mut self, input: usize, value: u32) {
        let input = input % INPUTS;
        self.registers[ILRS + input] = value & 0x1FD;
        for (place, bits) in (0..7).rev().zip(&mut self.priorities[input / 64]) {
            let bit = u64::from(value >> (2 + place) & 1);
            *bits = *bits & !(1 << (input % 64)) | bit << (input % 64);
        }
        let bank = self.bank(input / 32);
        put_bit(&mut bank[ROUTES], input, value);
        renew(bank);
    }

    fn write_bank(&mut self, slot: usize, value: u32) {
        let bank = self.bank((slot - BANKS) / BANK);
        match slot % BANK {
            MIR => bank[MIR] = value,
            MIR_CLEAR => bank[MIR] &= !value,
            MIR_SET => bank[MIR] |= value,
            ISR => bank[ISR] |= value,
            _ => bank[ISR] &= !value,
        }
        renew(bank);
    }

    /// An access that does not say it is privileged is refused for a number over 1, then as any other for where it
    /// goes, then for its privilege.
    fn admit(&self, offset: u32, privilege: u32) -> Done {
        if privilege > PRIVILEGED {
            return Err(Refusal::OutOfRange);
        }
        let slot = slot_of(offset);
        let restricted = self.registers[PROTECTION] == 1 || slot == PROTECTION;
        match ACCESS.get(slot) {
            Some(Some(_)) if !restricted => Ok(()),
            _ => Err(refusal_at(offset, Refusal::Unprivileged)),
        }
    }
}

impl Device for Aintc {
    const KIND: Kind = Kind::Aintc;

    #[inline(always)]
    fn read(&mut self, offset: u32, privilege: u32) -> Answer {
        if privilege != PRIVILEGED {
            self.admit(offset, privilege)?;
        }
        let slot = slot_of(offset);
        match ACCESS.get(slot) {
            Some(Some(Access::ReadWrite | Access::ReadOnly)) => Ok(self.registers[slot]),
            _ => Err(refusal_at(offset, Refusal::WriteOnly)),
        }
    }

    /// No value is refused; the sides that are free then choose.
    #[inline(always)]
    fn write(&mut self, offset: u32, value: u32, privilege: u32) -> Done {
        if privilege != PRIVILEGED {
            self.admit(offset, privilege)?;
        }
        let slot = slot_of(offset);
        match slot {
            CONTROL => self.write_control(value),
            REVISION | THRESHOLD => self.registers[slot] = value & 0xFF,
            SYSCONFIG => self.write_sysconfig(value),
            PROTECTION => self.registers[PROTECTION] = value & 1,
            IDLE => self.registers[IDLE] = value & 3,
            ILRS..SLOTS => self.write_ilr(slot - ILRS, value),
            BANKS..ILRS if MIR <= slot % BANK && slot % BANK < PENDING => {
                self.write_bank(slot, value);
            }
            _ => return Err(refusal_at(offset, Refusal::ReadOnly)),
        }
        self.choose();
        Ok(())
    }

    /// A free side had nothing to choose before, so that it can only be this input now, and only by a rise.
    #[inline(always)]
    fn move_line(&mut self, line: u32, level: u32) -> Done {
        let input = line as usize;
        if input >= INPUTS || level > 1 {
            return Err(Refusal::OutOfRange);
        }
        let bank = self.bank(input / 32);
        put_bit(&mut bank[ITR], input, level);
        renew(bank);
        let side = (bank[ROUTES] >> (input % 32) & 1) as usize;
        let raised = bank[ITR] & !bank[MIR] & 1 << (input % 32) != 0;
        if raised & self.is_free(side) {
            let priority = self.priority(input);
            if self.passes(priority) {
                self.registers[NUMBERS + side] = line;
                self.registers[PRIORITIES + side] = priority;
            }
        }
        Ok(())
    }

    /// With none chosen the number has its lowest seven bits 0, as it is shown.
    #[inline(always)]
    fn show(&self, line: &mut Line, at: usize) -> usize {
        let irq = self.registers[NUMBERS + IRQ] % INPUTS as u32;
        show_input(line, at, !self.is_free(IRQ), !self.is_free(FIQ), irq)
    }

    fn digest(&self) -> u64 {
        let registers = self.registers.into_iter().map(u64::from);
        mixed(registers.chain(self.priorities.into_iter().flatten()))
    }
}

/// To be called after a change of what is raised, masked or routed in a bank.
#[inline(always)]
fn renew(bank: &mut [u32; BANK]) {
    let requests = (bank[ITR] | bank[ISR]) & !bank[MIR];
    bank[PENDING + IRQ] = requests & !bank[ROUTES];
    bank[PENDING + FIQ] = requests & bank[ROUTES];
}

/// The input of the smallest priority number among some of a half, and of equal ones the highest.
#[inline]
fn first_of(priorities: &[u64; 7], mut among: u64) -> usize {
    for bits in priorities {
        let smaller = among & !bits;
        among = if smaller != 0 { smaller } else { among };
    }
    63 - among.leading_zeros() as usize % 64
}

/// Puts the lowest bit of a word at the place of an input.
#[inline(always)]
fn put_bit(word: &mut u32, input: usize, bit: u32) {
    let place = input % 32;
    *word = *word & !(1 << place) | (bit & 1) << place;
}
