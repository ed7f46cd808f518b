//! The AIC in words with a bit for each source; a step looks at no source but its own (01, AIC; 02, 3/12 and
//! 9/12; 003).

use super::reader::{Fault, Reader};
use super::text::{show_few, Line};
use super::{mixed, nothing_at, Device, Done};
use crate::model::{Answer, Kind, Refusal};

/// With so many entries open nothing more opens (02, 3/12).
const ENTRIES: u32 = 8;

/// What a read of IVR in protect mode remembers of a source: this, its number, and its floor eight bits higher; of none
/// this alone.
const REMEMBERED: u32 = 1 << 16;

/// The state, and below it what is worked out from it whenever it changes.
pub struct Aic {
    external: u32,
    lines: u32,
    /// Edge-triggered: bit 5 of the mode.
    edge: u32,
    /// Low level or falling edge: external, and bit 6 of the mode is 0.
    low: u32,
    /// Edges seen and not cleared yet; only where `edge` is.
    memory: u32,
    enabled: u32,
    /// Without source 0, which cannot be forced.
    forced: u32,
    masked: bool,
    /// Protect mode, and what is remembered in it, 0 for nothing.
    protected: bool,
    remembered: u32,
    spurious: u32,
    /// The 32 modes and behind them the 32 vectors, as they are read.
    registers: [u32; 64],
    /// The open entries, a byte each, the last one lowest: the source, or 0 for a mark.
    sources: u64,
    /// Likewise the level of each, plus 1; 0 for none.
    floors: u64,
    depth: u32,
    /// Bits 2, 1 and 0 of the priorities.
    priorities: [u32; 3],
    /// Normal sources that are enabled and above the last entry, none if nothing more opens: candidates once pending.
    normal: u32,
    /// Fast sources that are enabled.
    fast: u32,
}

impl Aic {
    pub fn read_from(reader: &mut Reader) -> Result<Aic, Fault> {
        let external = reader.number()?;
        let lines = reader.number()?;
        Ok(Aic {
            external,
            lines,
            edge: 0,
            low: external,
            memory: 0,
            enabled: 0,
            forced: 0,
            masked: false,
            protected: false,
            remembered: 0,
            spurious: 0,
            registers: [0; 64],
            sources: 0,
            floors: 0,
            depth: 0,
            priorities: [0; 3],
            normal: 0,
            fast: 0,
        })
    }

    /// A level source is pending by its line, an edge source by its memory.
    #[inline(always)]
    fn pending(&self) -> u32 {
        self.memory | !self.edge & (self.lines ^ self.low)
    }

    #[inline(always)]
    fn candidates(&self) -> u32 {
        self.pending() & self.normal
    }

    #[inline(always)]
    fn irq(&self) -> bool {
        !self.masked & (self.candidates() != 0)
    }

    #[inline(always)]
    fn fiq(&self) -> bool {
        !self.masked & (self.pending() & self.fast != 0)
    }

    /// The sources above the last entry: those of a larger priority, bit by bit from the top; all where it has no level.
    fn above(&self) -> u32 {
        if self.depth == ENTRIES {
            return 0;
        }
        let Some(level) = (self.floors as u8).checked_sub(1) else {
            return u32::MAX;
        };
        let (mut larger, mut equal) = (0, u32::MAX);
        for (place, bits) in [2, 1, 0].into_iter().zip(self.priorities) {
            let level = 0_u32.wrapping_sub(u32::from(level >> place & 1));
            larger |= equal & bits & !level;
            equal &= !(bits ^ level);
        }
        larger
    }

    /// To be called when an entry opens or closes, and after a write of modes, enables or forcings.
    #[inline(always)]
    fn renew(&mut self) {
        let fast = self.forced | 1;
        self.normal = self.enabled & !fast & self.above();
        self.fast = self.enabled & fast;
    }

    /// The source of highest priority among some, and of equal ones the lowest number.
    #[inline(always)]
    fn first(&self, mut among: u32) -> u32 {
        for bits in self.priorities {
            let higher = among & bits;
            among = if higher != 0 { higher } else { among };
        }
        among.trailing_zeros() % 32
    }

    #[inline(always)]
    fn open(&mut self, source: u32, floor: u64) {
        self.sources = self.sources << 8 | u64::from(source);
        self.floors = self.floors << 8 | floor;
        self.depth += 1;
        self.renew();
    }

    /// With nothing open there are only zeros to move.
    #[inline(always)]
    fn close(&mut self) {
        self.sources >>= 8;
        self.floors >>= 8;
        self.depth = self.depth.saturating_sub(1);
        self.renew();
    }

    /// Starts the first candidate, or opens a mark; in protect mode the one or the other is only remembered.
    #[inline(always)]
    fn read_ivr(&mut self) -> u32 {
        let candidates = self.candidates();
        if candidates == 0 {
            if self.protected {
                self.remembered = REMEMBERED;
            } else {
                self.open_mark();
            }
            return self.spurious;
        }
        let source = self.first(candidates);
        let floor = (self.registers[source as usize] & 7) + 1;
        if self.protected {
            self.remembered = REMEMBERED | floor << 8 | source;
        } else {
            self.start(source, floor);
        }
        self.registers[32 + source as usize]
    }

    #[inline(always)]
    fn start(&mut self, source: u32, floor: u32) {
        self.memory &= !(1 << source);
        self.open(source, u64::from(floor));
    }

    /// At the level of the entry below it, if there is room.
    #[inline(always)]
    fn open_mark(&mut self) {
        if self.depth < ENTRIES {
            self.open(0, self.floors & 0xFF);
        }
    }

    /// Opens what is remembered and forgets it; outside protect mode nothing is.
    fn write_ivr(&mut self) {
        match std::mem::take(&mut self.remembered) {
            0 => {}
            REMEMBERED => self.open_mark(),
            source => self.start(source % 32, source >> 8 & 0xFF),
        }
    }

    /// Source 0's edge is forgotten only while nothing is forced.
    fn read_fvr(&mut self) -> u32 {
        if self.pending() & self.fast == 0 {
            return self.spurious;
        }
        if self.forced == 0 {
            self.memory &= !1;
        }
        self.registers[32]
    }

    /// A new type forgets the edge, a new priority alone does not.
    fn write_mode(&mut self, source: u32, value: u32) {
        let source = source % 32;
        let bit = 1 << source;
        let mode = value & 0x67;
        let before = std::mem::replace(&mut self.registers[source as usize], mode);
        if (before ^ mode) & 0x60 != 0 {
            self.memory &= !bit;
        }
        put_bit(&mut self.edge, source, mode >> 5);
        put_bit(&mut self.low, source, !mode >> 6 & self.external >> source);
        for (place, bits) in [2, 1, 0].into_iter().zip(&mut self.priorities) {
            put_bit(bits, source, mode >> place);
        }
        self.renew();
    }

    /// Leaving protect mode forgets.
    fn write_dcr(&mut self, value: u32) {
        self.protected = value & 1 != 0;
        self.masked = value & 2 != 0;
        if !self.protected {
            self.remembered = 0;
        }
    }

    /// The words of sources that a command changes, and what follows from them.
    fn command(&mut self, change: impl FnOnce(&mut Aic)) {
        change(self);
        self.renew();
    }
}

impl Device for Aic {
    const KIND: Kind = Kind::Aic;

    #[inline(always)]
    fn read(&mut self, offset: u32, _: u32) -> Answer {
        if offset < 0x100 && offset.is_multiple_of(4) {
            return Ok(self.registers[offset as usize / 4]);
        }
        Ok(match offset {
            0x100 => self.read_ivr(),
            0x104 => self.read_fvr(),
            0x108 => self.sources as u32 & 0xFF,
            0x10C => self.pending(),
            0x110 => self.enabled,
            0x114 => u32::from(self.irq()) << 1 | u32::from(self.fiq()),
            0x134 => self.spurious,
            0x138 => u32::from(self.masked) << 1 | u32::from(self.protected),
            0x148 => self.forced,
            0x120 | 0x124 | 0x128 | 0x12C | 0x130 | 0x140 | 0x144 => {
                return Err(Refusal::WriteOnly)
            }
            _ => return Err(nothing_at(offset)),
        })
    }

    #[inline(always)]
    fn write(&mut self, offset: u32, value: u32, _: u32) -> Done {
        match offset {
            0x000..=0x0FC if offset.is_multiple_of(4) => match offset / 4 {
                source @ 0..32 => self.write_mode(source, value),
                vector => self.registers[vector as usize % 64] = value,
            },
            0x100 => self.write_ivr(),
            0x120 => self.command(|aic| aic.enabled |= value),
            0x124 => self.command(|aic| aic.enabled &= !value),
            0x128 => self.memory &= !value,
            0x12C => self.memory |= value & self.edge,
            0x130 => self.close(),
            0x134 => self.spurious = value,
            0x138 => self.write_dcr(value),
            0x140 => self.command(|aic| aic.forced |= value & !1),
            0x144 => self.command(|aic| aic.forced &= !value),
            0x104 | 0x108 | 0x10C | 0x110 | 0x114 | 0x148 => return Err(Refusal::ReadOnly),
            _ => return Err(nothing_at(offset)),
        }
        Ok(())
    }

    /// Only a change of level can be an edge, and it is remembered though the source be disabled.
    #[inline(always)]
    fn move_line(&mut self, line: u32, level: u32) -> Done {
        if line > 31 || level > 1 {
            return Err(Refusal::OutOfRange);
        }
        let changed = (self.lines ^ level << line) & 1 << line;
        self.lines ^= changed;
        self.memory |= changed & self.edge & (self.lines ^ self.low);
        Ok(())
    }

    #[inline(always)]
    fn show(&self, line: &mut Line, at: usize) -> usize {
        show_few(line, at, self.irq(), self.fiq(), self.depth)
    }

    fn digest(&self) -> u64 {
        let words = [
            self.external,
            self.lines,
            self.edge,
            self.low,
            self.memory,
            self.enabled,
            self.forced,
            u32::from(self.masked),
            u32::from(self.protected),
            self.remembered,
            self.spurious,
            self.depth,
            self.normal,
            self.fast,
        ];
        let narrow = words.into_iter().chain(self.registers);
        let narrow = narrow.chain(self.priorities).map(u64::from);
        mixed(narrow.chain([self.sources, self.floors]))
    }
}

/// Puts the lowest bit of a word at the place of a source.
#[inline(always)]
fn put_bit(word: &mut u32, source: u32, bit: u32) {
    *word = *word & !(1 << source) | (bit & 1) << source;
}
