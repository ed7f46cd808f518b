//! Numbers read from a trace, those of one and two bytes first.

use crate::model::Refusal;
use crate::trace::NUMBER_BYTES;

/// What ends a trace early, and where.
#[derive(Clone, Copy)]
pub struct Fault {
    pub refusal: Refusal,
    pub offset: usize,
}

impl Fault {
    pub fn new(refusal: Refusal, offset: usize) -> Fault {
        Fault { refusal, offset }
    }
}

/// The bytes of a trace, and where the next number begins.
pub struct Reader<'a> {
    trace: &'a [u8],
    at: usize,
}

impl<'a> Reader<'a> {
    pub fn new(trace: &'a [u8]) -> Reader<'a> {
        Reader { trace, at: 0 }
    }

    pub fn at(&self) -> usize {
        self.at
    }

    pub fn at_end(&self) -> bool {
        self.at >= self.trace.len()
    }

    /// The next number, or refusal 8 at its first byte. The length of a number is told by branches and not worked out,
    /// so that the next number is begun before this one is known.
    #[inline(always)]
    pub fn number(&mut self) -> Result<u32, Fault> {
        if let Some(&first) = self.trace.get(self.at) {
            if first < 0x80 {
                self.at += 1;
                return Ok(u32::from(first));
            }
            if let Some(&second) = self.trace.get(self.at + 1) {
                if second < 0x80 {
                    self.at += 2;
                    return Ok(u32::from(first & 0x7F) | u32::from(second) << 7);
                }
            }
        }
        let (value, bytes) = longer(self.trace, self.at);
        if bytes == 0 {
            return Err(Fault::new(Refusal::BadNumber, self.at));
        }
        self.at += bytes as usize;
        Ok(value)
    }

    /// The next number if it is within its limits, else refusal 10.
    pub fn limited(&mut self, least: u32, most: u32) -> Result<u32, Fault> {
        let fault = Fault::new(Refusal::BadConfiguration, self.at);
        let value = self.number()?;
        match (least..=most).contains(&value) {
            true => Ok(value),
            false => Err(fault),
        }
    }
}

/// A number of any form and its bytes, or 0 bytes if it is none. It takes what it needs by value, so that the reader of
/// the loop can stay in registers.
#[inline(never)]
fn longer(trace: &[u8], at: usize) -> (u32, u32) {
    let mut value = 0_u64;
    for (bytes, &byte) in (1..).zip(trace[at..].iter().take(NUMBER_BYTES)) {
        value |= u64::from(byte & 0x7F) << (7 * (bytes - 1));
        if byte < 0x80 {
            return u32::try_from(value).map_or((0, 0), |value| (value, bytes));
        }
    }
    (0, 0)
}
