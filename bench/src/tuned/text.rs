//! The lines of a listing, each written under one test for room.

use super::cic::Outputs;
use super::{Device, Sink};
use crate::model::{Kind, Refusal};

/// Room for a line, which has 27 bytes or fewer, and for stores behind its end that another store then covers.
pub const LINE: usize = 40;
pub type Line = [u8; LINE];

/// Stores bytes in a line.
#[inline(always)]
pub fn put<const N: usize>(line: &mut Line, at: usize, bytes: [u8; N]) {
    line[at..at + N].copy_from_slice(&bytes);
}

/// The room for a listing, how much of it is written, and the number of the last line.
pub struct Text<'a> {
    out: &'a mut [u8],
    at: usize,
    number: Number,
}

impl<'a> Text<'a> {
    pub fn new(out: &'a mut [u8]) -> Text<'a> {
        Text {
            out,
            at: 0,
            number: Number::ZERO,
        }
    }

    pub fn written(&self) -> usize {
        self.at
    }

    /// The line of an early end, if it was one.
    pub fn ended(&mut self, refusal: u32, offset: usize) {
        if refusal != 0 {
            let line = format!("E {refusal} {offset}\n");
            self.at = cut(self.out, self.at, line.as_bytes());
        }
    }

    #[inline(always)]
    fn line<D: Device>(&mut self, device: &D, letter: u8, value: u32) {
        self.number.count();
        let room = self.out.get_mut(self.at..);
        self.at = match room.and_then(|room| room.first_chunk_mut()) {
            Some(line) => self.at + fill(line, self.number, letter, value, device),
            None => last(self.out, self.at, self.number, letter, value, device),
        };
    }
}

impl Sink for Text<'_> {
    type Outputs = Outputs;

    fn started(&mut self, kind: Kind) {
        self.at = cut(self.out, self.at, kind.name().as_bytes());
        self.at = cut(self.out, self.at, b"\n");
    }

    #[inline(always)]
    fn done<D: Device>(&mut self, device: &D, letter: u8, value: u32) {
        self.line(device, letter, value);
    }

    #[inline(always)]
    fn refused<D: Device>(&mut self, device: &D, refusal: Refusal) {
        self.line(device, b'X', refusal.number());
    }
}

/// Writes a line and answers its length. Stores may reach beyond what they are for, but only into what comes next.
#[inline(always)]
fn fill<D: Device>(line: &mut Line, number: Number, letter: u8, value: u32, device: &D) -> usize {
    put(line, 0, number.digits());
    // The number has five digits or fewer; the mask tells the compiler that no store needs a test.
    let at = number.length & 7;
    put(line, at, [b' ', letter, b' ', b'0']);
    put(line, at + 3, hex(value));
    device.show(line, at + 11)
}

/// A line near the end of the room, as far as it fits.
#[cold]
#[inline(never)]
fn last<D: Device>(
    out: &mut [u8],
    at: usize,
    number: Number,
    letter: u8,
    value: u32,
    device: &D,
) -> usize {
    let mut line = [0; LINE];
    let length = fill(&mut line, number, letter, value, device);
    cut(out, at, &line[..length])
}

/// Writes as much as fits and answers where it stops.
fn cut(out: &mut [u8], at: usize, bytes: &[u8]) -> usize {
    let fits = bytes.len().min(out.len() - at);
    out[at..at + fits].copy_from_slice(&bytes[..fits]);
    at + fits
}

/// The number of a line, kept as its digits: a trace has room for 32,767 steps, so there are five at most.
#[derive(Clone, Copy)]
struct Number {
    /// ASCII, the last digit in the lowest byte.
    ascii: u64,
    length: usize,
}

impl Number {
    const ZERO: Number = Number {
        ascii: b'0' as u64,
        length: 1,
    };

    /// The digits from the first on.
    #[inline(always)]
    fn digits(self) -> [u8; 8] {
        (self.ascii << ((64 - 8 * self.length) & 63)).to_be_bytes()
    }

    #[inline(always)]
    fn count(&mut self) {
        self.ascii += 1;
        if self.ascii as u8 > b'9' {
            *self = self.carried();
        }
    }

    /// The same with each digit of ten turned into 0 and one more at the next.
    fn carried(mut self) -> Number {
        let mut at = 0;
        while (self.ascii >> at) as u8 > b'9' {
            self.ascii = self.ascii - (10 << at) + (0x100 << at);
            at += 8;
        }
        if at == 8 * self.length as u32 {
            self.ascii += u64::from(b'0') << at;
            self.length += 1;
        }
        self
    }
}

/// Eight digits at once: each half byte in a byte of its own, and 7 more for a letter.
#[inline(always)]
fn hex(value: u32) -> [u8; 8] {
    let mut digits = u64::from(value);
    digits = (digits | digits << 16) & 0x0000_FFFF_0000_FFFF;
    digits = (digits | digits << 8) & 0x00FF_00FF_00FF_00FF;
    digits = (digits | digits << 4) & 0x0F0F_0F0F_0F0F_0F0F;
    let letters = (digits + 0x0606_0606_0606_0606) >> 4 & 0x0101_0101_0101_0101;
    (digits + 0x3030_3030_3030_3030 + 7 * letters).to_be_bytes()
}

/// The ending of a line with two flags and a number below ten.
#[inline(always)]
pub fn show_few(line: &mut Line, at: usize, irq: bool, fiq: bool, few: u32) -> usize {
    let fiq = flag(fiq);
    put(line, at, [b' ', flag(irq), b' ', fiq]);
    put(line, at + 3, [fiq, b' ', b'0' + few as u8, b'\n']);
    at + 7
}

/// The ending of a line with two flags and an input number. The second store covers what the first has too much.
#[inline(always)]
pub fn show_input(line: &mut Line, at: usize, irq: bool, fiq: bool, input: u32) -> usize {
    let fiq = flag(fiq);
    let decimal = &DECIMALS[input as usize % 128];
    let [space, first, second, _] = decimal.bytes;
    put(line, at, [b' ', flag(irq), b' ', fiq]);
    put(line, at + 3, [fiq, space, first, second]);
    let end = at + 5 + decimal.length();
    put(line, end - 2, [decimal.last, b'\n']);
    end
}

/// The ending of a line with two numbers up to 256 and a 0. Each store covers what the one before has too much.
#[inline(always)]
pub fn show_hosts(line: &mut Line, at: usize, hosts: usize, lowest: usize) -> usize {
    let (hosts, lowest) = (&DECIMALS[hosts], &DECIMALS[lowest]);
    put(line, at, hosts.bytes);
    let at = at + hosts.length();
    put(line, at, lowest.bytes);
    let at = at + lowest.length();
    put(line, at, *b" 0\n");
    at + 3
}

#[inline(always)]
fn flag(is: bool) -> u8 {
    b'0' + u8::from(is)
}

/// A number behind a space in four bytes, its last digit, and how many of the four it needs.
#[derive(Clone, Copy)]
#[repr(align(8))]
struct Decimal {
    bytes: [u8; 4],
    last: u8,
    length: u8,
}

/// The numbers that a listing shows.
static DECIMALS: [Decimal; 257] = {
    let mut decimals = [Decimal::of(0); 257];
    let mut value = 1;
    while value < decimals.len() {
        decimals[value] = Decimal::of(value);
        value += 1;
    }
    decimals
};

impl Decimal {
    const fn of(value: usize) -> Decimal {
        let units = b'0' + (value % 10) as u8;
        let tens = b'0' + (value / 10 % 10) as u8;
        let hundreds = b'0' + (value / 100) as u8;
        let (bytes, length) = match value {
            0..=9 => ([b' ', units, 0, 0], 2),
            10..=99 => ([b' ', tens, units, 0], 3),
            _ => ([b' ', hundreds, tens, units], 4),
        };
        Decimal {
            bytes,
            last: units,
            length,
        }
    }

    /// At most 4; the mask tells the compiler that it is small.
    #[inline(always)]
    fn length(&self) -> usize {
        usize::from(self.length & 7)
    }
}
