//! CoreInterrupt in words of both sides: bits 0 to 31 are IRQ, bits 32 to 39 FIQ, as the lines are numbered (01,
//! CoreInterrupt; 004).

use super::reader::{Fault, Reader};
use super::text::{show_few, Line};
use super::{mixed, nothing_at, Device, Done};
use crate::model::{Answer, Kind, Refusal};

/// How many lines there are, whatever is configured.
const LINES: u32 = 40;

/// No bit of a source that is not configured is ever stored.
pub struct CoreInterrupt {
    configured: u64,
    inputs: u64,
    soft: u64,
    enable: u64,
    levels: u32,
}

impl CoreInterrupt {
    pub fn read_from(reader: &mut Reader) -> Result<CoreInterrupt, Fault> {
        let fiqs = reader.limited(0, 8)?;
        let irqs = reader.limited(0, 32)?;
        let fiq_level = reader.limited(0, 1)?;
        let irq_level = reader.limited(0, 1)?;
        Ok(CoreInterrupt {
            configured: ((1 << fiqs) - 1) << 32 | ((1 << irqs) - 1),
            inputs: 0,
            soft: 0,
            enable: 0,
            levels: fiq_level << 1 | irq_level,
        })
    }

    #[inline(always)]
    fn raw(&self) -> u64 {
        self.inputs | self.soft
    }

    #[inline(always)]
    fn status(&self) -> u64 {
        self.raw() & self.enable
    }

    /// With no sources a clear may be read, and reads 0.
    #[inline(always)]
    fn read_clear(&self, side: u32) -> Answer {
        match (self.configured >> side) as u32 {
            0 => Ok(0),
            _ => Err(Refusal::WriteOnly),
        }
    }

    /// The bits of a value that a side stores.
    #[inline(always)]
    fn stored(&self, value: u32, side: u32) -> u64 {
        u64::from(value) << side & self.configured
    }
}

/// Where the sides have their bits.
const IRQ: u32 = 0;
const FIQ: u32 = 32;

impl Device for CoreInterrupt {
    const KIND: Kind = Kind::Core;

    #[inline(always)]
    fn read(&mut self, offset: u32, _: u32) -> Answer {
        Ok(match offset {
            0x00 => (self.soft >> FIQ) as u32,
            0x08 => (self.enable >> FIQ) as u32,
            0x10 => (self.raw() >> FIQ) as u32,
            0x14 => (self.status() >> FIQ) as u32,
            0x18 => self.soft as u32,
            0x20 => self.enable as u32,
            0x28 => self.raw() as u32,
            0x2C => self.status() as u32,
            0x04 | 0x0C => return self.read_clear(FIQ),
            0x1C | 0x24 => return self.read_clear(IRQ),
            _ => return Err(nothing_at(offset)),
        })
    }

    #[inline(always)]
    fn write(&mut self, offset: u32, value: u32, _: u32) -> Done {
        match offset {
            0x00 => self.soft |= self.stored(value, FIQ),
            0x04 => self.soft &= !self.stored(value, FIQ),
            0x08 => self.enable |= self.stored(value, FIQ),
            0x0C => self.enable &= !self.stored(value, FIQ),
            0x18 => self.soft |= self.stored(value, IRQ),
            0x1C => self.soft &= !self.stored(value, IRQ),
            0x20 => self.enable |= self.stored(value, IRQ),
            0x24 => self.enable &= !self.stored(value, IRQ),
            0x10 | 0x14 | 0x28 | 0x2C => return Err(Refusal::ReadOnly),
            _ => return Err(nothing_at(offset)),
        }
        Ok(())
    }

    /// An input that is not configured may move, but is not stored.
    #[inline(always)]
    fn move_line(&mut self, line: u32, level: u32) -> Done {
        if line >= LINES || level > 1 {
            return Err(Refusal::OutOfRange);
        }
        let moved = self.inputs & !(1 << line) | u64::from(level) << line;
        self.inputs = moved & self.configured;
        Ok(())
    }

    #[inline(always)]
    fn show(&self, line: &mut Line, at: usize) -> usize {
        let status = self.status();
        show_few(line, at, status as u32 != 0, status >> FIQ != 0, 0)
    }

    fn digest(&self) -> u64 {
        let levels = u64::from(self.levels);
        mixed([self.configured, self.inputs, self.soft, self.enable, levels])
    }
}
