//! Tours of an AIC, in several moods: a bit of everything, deep nesting, marks, the fast side, single edges, sources
//! that change their level, protect mode. Outside protect mode every IVR read opens an entry while there is room, so
//! that a mood with such reads needs closes as often; that of levels has fewer, since levels are to change with eight
//! entries open too. That of protect mode plays along on the model, to meddle with the very source that is remembered.

use super::played::{weights, Played};
use super::steps::steps;
use super::Script;
use crate::model::aic::{Aic, Selection};
use crate::random::Random;

// Offsets of the map. The model takes nothing from here, so that tests can hold them against it.
pub const VECTORS: u32 = 0x80;
pub const IVR: u32 = 0x100;
pub const FVR: u32 = 0x104;
pub const ISR: u32 = 0x108;
pub const IPR: u32 = 0x10C;
pub const IMR: u32 = 0x110;
pub const CISR: u32 = 0x114;
pub const ENABLE: u32 = 0x120;
pub const DISABLE: u32 = 0x124;
pub const CLEAR: u32 = 0x128;
pub const SET: u32 = 0x12C;
pub const EOICR: u32 = 0x130;
pub const SPU: u32 = 0x134;
pub const DCR: u32 = 0x138;
pub const FFER: u32 = 0x140;
pub const FFDR: u32 = 0x144;
pub const FFSR: u32 = 0x148;
const END: u32 = 0x14C;
const STATUS: [u32; 7] = [ISR, ISR, IPR, IPR, IMR, CISR, FFSR];

/// Types as they stand in a mode.
pub const HIGH_LEVEL: u32 = 2 << 5;
pub const RISING_EDGE: u32 = 3 << 5;

/// How often each act comes in each mood.
const MIXED: &str = "24 line, 12 mode, 4 vector, 6 enable, 3 disable, 4 set, 3 clear, 2 force, \
    2 unforce, 10 read IVR, 2 write IVR, 4 read FVR, 10 read status, 11 close, 2 mask, 1 protect, \
    2 spurious, 3 any register, 3 odd access, 1 bad line";
const NESTING: &str = "30 nest, 4 line, 4 mode, 4 read IVR, 10 close, 6 read status, 1 force, \
    1 unforce, 1 disable, 1 mask";
const MARKS: &str = "6 tower, 8 read IVR, 10 close, 8 line, 4 mode, 8 read status, 1 write IVR, \
    1 read FVR, 1 force, 2 unforce, 2 enable, 1 mask";
const FAST: &str = "20 line, 14 read FVR, 6 force, 5 unforce, 6 set, 4 clear, 5 enable, 8 mode, \
    8 read status, 4 read IVR, 4 close, 1 mask";
const EDGES: &str = "30 line, 15 mode, 20 read status, 4 set, 4 clear, 2 enable, 2 disable, \
    4 read IVR, 4 close";
const LEVELS: &str = "20 line, 16 mode, 4 enable, 4 disable, 5 set, 4 clear, 4 force, 5 unforce, \
    10 read IVR, 8 close, 4 read status, 2 crowd";
const PROTECTED: &str = "10 line, 4 mode, 3 enable, 1 disable, 4 set, 1 force, 3 unforce, \
    5 read IVR, 5 write IVR, 18 handshake, 16 rouse, 4 meddle, 14 close, 3 unwind, 8 read status, \
    3 protect";

/// What a tour is mostly about.
const MOODS: [&str; 8] = [
    MIXED, NESTING, MARKS, FAST, EDGES, LEVELS, PROTECTED, PROTECTED,
];

/// A tour as it goes on, with the sources it likes and the next level to nest.
struct Tour<'a> {
    at: Played<'a, Aic>,
    sources: Vec<u32>,
    next_level: u32,
}

/// A sound AIC trace of about so many steps.
pub fn tour(random: &mut Random, steps: u32) -> Script {
    let mood = random.pick(&MOODS);
    // Marks alone stand only where nothing has been pending.
    let (external, levels) = match mood {
        MARKS if random.one_in(2) => (0, 0),
        _ => (random.word(), random.word()),
    };
    let script = Script::new(0, &[external, levels]);
    let mut tour = Tour {
        sources: favourites(random, mood),
        next_level: 0,
        at: Played::new(random, script, Aic::new(external, levels)),
    };
    if steps > 8 {
        tour.prepare();
    }
    if mood == PROTECTED {
        tour.at.write(DCR, 1);
    }
    let acts = weights(mood);
    for _ in 0..steps {
        let act = tour.at.random.weighted(&acts);
        tour.act(act);
    }
    tour.at.script
}

/// A few sources that the tour keeps to; the fast side wants source 0 among them.
fn favourites(random: &mut Random, mood: &str) -> Vec<u32> {
    let count = random.pick(&[1, 2, 3, 8, 12]);
    let mut sources: Vec<u32> = (0..count).map(|_| random.below(32)).collect();
    if mood == FAST {
        sources[0] = 0;
    }
    sources
}

impl Tour<'_> {
    /// Gives the favourite sources modes and vectors that can be told apart, and mostly enables them.
    fn prepare(&mut self) {
        for place in 0..self.sources.len() {
            let source = self.sources[place];
            self.mode(source);
            self.at.write(VECTORS + 4 * source, 0x1000 + 0x11 * source);
        }
        if !self.at.random.one_in(4) {
            self.at.write(ENABLE, u32::MAX);
        }
        let vector = 0x0BAD_0000 | self.at.random.below(256);
        self.at.write(SPU, vector);
    }

    fn act(&mut self, act: &str) {
        match act {
            "line" => self.turn_line(),
            "mode" => {
                let source = self.source();
                self.mode(source);
            }
            "vector" => {
                let source = self.source();
                self.at.write_word(VECTORS + 4 * source);
            }
            "enable" => self.command(ENABLE),
            "disable" => self.command(DISABLE),
            "set" => self.command(SET),
            "clear" => self.command(CLEAR),
            "force" => self.command(FFER),
            "unforce" => self.command(FFDR),
            "read IVR" => self.at.read(IVR),
            "write IVR" => self.at.write_word(IVR),
            "read FVR" => self.at.read(FVR),
            "read status" => self.read_status(),
            "close" => self.write_below(EOICR, 2),
            "nest" => self.nest(),
            "tower" => self.tower(),
            "crowd" => self.crowd(),
            "mask" => self.mask(),
            "protect" => self.protect(),
            "handshake" => self.handshake(),
            "meddle" => self.meddle(),
            "rouse" => self.rouse(),
            "unwind" => self.unwind(),
            "spurious" => self.at.write_word(SPU),
            "any register" => {
                let offset = 4 * self.at.random.below(END / 4);
                self.at.access(offset);
            }
            "odd access" => self.at.odd_access(END),
            "bad line" => self.at.bad_line(32),
            _ => unreachable!("{act} is no act"),
        }
    }

    fn source(&mut self) -> u32 {
        if self.at.random.one_in(16) {
            self.at.random.below(32)
        } else {
            self.at.random.pick(&self.sources)
        }
    }

    fn read_status(&mut self) {
        let offset = self.at.random.pick(&STATUS);
        self.at.read(offset);
    }

    fn write_below(&mut self, offset: u32, bound: u32) {
        let value = self.at.random.below(bound);
        self.at.write(offset, value);
    }

    /// The level of a source's line.
    fn level(&self, source: u32) -> u32 {
        self.at.model.sources()[source as usize].line.into()
    }

    /// Mostly turns a line round, since only that can be an edge; sometimes says its level again.
    fn turn_line(&mut self) {
        let source = self.source();
        let turned = u32::from(!self.at.random.one_in(6));
        self.at.line(source, self.level(source) ^ turned);
    }

    /// Any type and priority, now and then with bits that are dropped.
    fn mode(&mut self, source: u32) {
        let random = &mut *self.at.random;
        let fields = random.below(4) << 5 | random.below(8);
        let dropped = match random.below(4) {
            0 => random.word() & !0x67,
            _ => 0,
        };
        self.at.write(4 * source, fields | dropped);
    }

    fn command(&mut self, offset: u32) {
        let word = match self.at.random.below(8) {
            0 => self.at.random.word(),
            1 => 1 | 1 << self.source(),
            _ => 1 << self.source() | 1 << self.source(),
        };
        self.at.write(offset, word);
    }

    /// Raises a source one level above the last one raised and starts it; at the top, winds back.
    fn nest(&mut self) {
        if self.next_level == 8 {
            self.unwind();
            return;
        }
        self.raise(self.next_level);
        self.at.read(IVR);
        self.next_level += 1;
    }

    /// Makes some source a normal one of a priority that is pending and enabled.
    fn raise(&mut self, priority: u32) {
        let source = 1 + self.at.random.below(31);
        let (mode, bit) = (HIGH_LEVEL | priority, 1_u32 << source);
        steps!(self.at: "MODE{source}={mode:x} FFDR={bit:x} ENABLE={bit:x} {source}+");
    }

    /// Some entries one above the other, few or many of them marks, at times with priority 7 waiting above them; most
    /// are closed again.
    fn tower(&mut self) {
        let marks = self.at.random.below(5);
        for _ in 0..self.at.random.within(1, 9) {
            if self.at.random.below(4) < marks {
                self.at.read(IVR);
            } else {
                self.nest();
            }
        }
        if self.at.random.one_in(3) {
            self.raise(7);
        }
        self.unwind();
    }

    /// Eight handlers or eight marks that stay open, and every source enabled beneath them.
    fn crowd(&mut self) {
        let marks = self.at.random.one_in(2);
        self.at.write(DISABLE, u32::MAX);
        self.close(8);
        for level in 0..8 {
            if !marks {
                self.raise(level);
            }
            self.at.read(IVR);
        }
        self.at.write(ENABLE, u32::MAX);
    }

    fn close(&mut self, times: u32) {
        for _ in 0..times {
            self.at.write(EOICR, 0);
        }
    }

    fn unwind(&mut self) {
        self.at.read(IVR);
        let times = self.at.random.within(1, 9);
        self.close(times);
        let lowered = self.at.random.word();
        for source in (0..32).filter(|source| lowered >> source & 1 == 1) {
            self.at.line(source, 0);
        }
        self.next_level = self.at.random.below(3);
    }

    /// The mask on or off, now and then with protect mode; other bits are dropped.
    fn mask(&mut self) {
        let mask = match self.at.random.below(5) {
            0 => self.at.random.word() & !1,
            other => other & 2,
        };
        let mode = u32::from(self.at.random.one_in(8));
        self.at.write(DCR, mask | mode);
    }

    /// Protect mode on or off, twice as often on, with the mask or without.
    fn protect(&mut self) {
        let mode = u32::from(!self.at.random.one_in(3));
        let mask = match self.at.random.below(5) {
            0 => self.at.random.word() & !1,
            1 => 2,
            _ => 0,
        };
        self.at.write(DCR, mask | mode);
    }

    /// The read and the write of IVR, with something between them or not.
    fn handshake(&mut self) {
        self.at.read(IVR);
        for _ in 0..self.at.random.pick(&[0, 0, 1, 1, 2, 3]) {
            self.meddle();
        }
        self.write_below(IVR, 2);
        self.read_status();
    }

    /// Makes a favourite source a normal one that is enabled and pending, mostly by its memory.
    fn rouse(&mut self) {
        if self.at.random.one_in(4) {
            let priority = self.at.random.below(8);
            self.raise(priority);
            return;
        }
        let source = self.source();
        let priority = self.at.random.below(8);
        let (mode, bit) = (RISING_EDGE | priority, 1_u32 << source);
        steps!(self.at: "MODE{source}={mode:x} FFDR={bit:x} ENABLE={bit:x} SET={bit:x}");
    }

    /// Does something to the source that is remembered, or else to any; to what is open, or to the mode.
    fn meddle(&mut self) {
        let source = match self.at.model.remembered() {
            Some(Selection::Source { number, .. }) => u32::from(number),
            _ => self.source(),
        };
        let (mode, bit) = (4 * source, 1_u32 << source);
        let now = self.at.model.sources()[source as usize];
        let (kind, priority) = (u32::from(now.kind), u32::from(now.priority));
        match self.at.random.below(20) {
            0 => self.at.write(CLEAR, bit),
            1 => self.at.write(SET, bit),
            2 => self.at.write(DISABLE, bit),
            3 => self.at.write(FFER, bit),
            4 | 5 => {
                let priority = self.at.random.below(8);
                self.at.write(mode, kind << 5 | priority);
            }
            6 => self.at.write(mode, (kind ^ 1) << 5 | priority),
            7 => steps!(self.at: "MODE{source}={:x} SET={bit:x}", RISING_EDGE | priority),
            8 | 9 => self.raise(7),
            10 | 11 => self.close(1),
            12 => self.at.read(IVR),
            13 => self.at.line(source, self.level(source) ^ 1),
            14 => {
                let mask = self.at.random.below(2) << 1;
                self.at.write(DCR, 1 | mask);
            }
            15 => {
                let mask = self.at.random.below(2) << 1;
                self.at.write(DCR, mask);
                if self.at.random.one_in(2) {
                    self.at.write(DCR, 1);
                }
            }
            16 => self.at.write_word(VECTORS + 4 * source),
            17 => self.at.read(FVR),
            18 => self.fill(),
            _ => self.protect(),
        }
    }

    /// Marks up to eight entries or nearly so, whatever was remembered.
    fn fill(&mut self) {
        let marks = "IVR IVR=0 ".repeat(self.at.random.within(6, 9) as usize);
        steps!(self.at: "DISABLE=FFFFFFFF {marks} IVR ENABLE=FFFFFFFF");
    }
}
