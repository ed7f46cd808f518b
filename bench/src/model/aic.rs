//! The AIC: 32 sources, eight levels, a fast side, spurious marks and protect mode (01, AIC; 02, 3/12 and 9/12; 003,
//! sections 27.7 and 27.8).

use super::{Access, Controller, Refusal};

/// The number of sources, and of input lines (003, 27.1).
pub const SOURCES: usize = 32;

/// The most entries that are open at once (02, 3/12).
pub const ENTRIES: usize = 8;

/// The registers in the order of 003, table 27-2.
#[derive(Clone, Copy, Debug, PartialEq, Eq, PartialOrd, Ord, Hash)]
pub enum Register {
    Mode(u8),
    Vector(u8),
    Ivr,
    Fvr,
    Isr,
    Ipr,
    Imr,
    Cisr,
    Enable,
    Disable,
    Clear,
    Set,
    Eoicr,
    Spu,
    Dcr,
    Ffer,
    Ffdr,
    Ffsr,
}

impl Register {
    /// The register at an aligned offset (01, AIC, map).
    pub fn at(offset: u32) -> Option<Register> {
        use Register::*;
        let place = (offset / 4 % 32) as u8;
        Some(match offset {
            0x000..=0x07C => Mode(place),
            0x080..=0x0FC => Vector(place),
            0x100 => Ivr,
            0x104 => Fvr,
            0x108 => Isr,
            0x10C => Ipr,
            0x110 => Imr,
            0x114 => Cisr,
            0x120 => Enable,
            0x124 => Disable,
            0x128 => Clear,
            0x12C => Set,
            0x130 => Eoicr,
            0x134 => Spu,
            0x138 => Dcr,
            0x140 => Ffer,
            0x144 => Ffdr,
            0x148 => Ffsr,
            _ => return None,
        })
    }

    /// Who may do what. IVR counts as writable, though outside protect mode a write does nothing (01, AIC, map; 003,
    /// 27.7.5).
    pub fn access(self) -> Access {
        use Register::*;
        match self {
            Mode(_) | Vector(_) | Ivr | Spu | Dcr => Access::ReadWrite,
            Fvr | Isr | Ipr | Imr | Cisr | Ffsr => Access::ReadOnly,
            Enable | Disable | Clear | Set | Eoicr | Ffer | Ffdr => Access::WriteOnly,
        }
    }
}

/// What makes a source pending (01, AIC, mode; 003, 27.8.3).
#[derive(Clone, Copy, Debug, PartialEq, Eq)]
pub enum Trigger {
    HighLevel,
    LowLevel,
    RisingEdge,
    FallingEdge,
}

/// One source with all that is stored for it.
#[derive(Clone, Copy, Debug, Default, PartialEq, Eq)]
pub struct Source {
    pub external: bool,
    pub line: bool,
    /// Bits 6:5 of the mode.
    pub kind: u8,
    /// Bits 2:0 of the mode.
    pub priority: u8,
    pub vector: u32,
    pub enabled: bool,
    pub forced: bool,
    /// An edge was seen and is not cleared yet; never set on a level source.
    pub memory: bool,
}

impl Source {
    /// The trigger that the type names; only types 0 and 1 differ for an external source.
    pub fn trigger(&self) -> Trigger {
        match (self.kind, self.external) {
            (0, true) => Trigger::LowLevel,
            (1, true) => Trigger::FallingEdge,
            (0 | 2, _) => Trigger::HighLevel,
            _ => Trigger::RisingEdge,
        }
    }

    pub fn edge_triggered(&self) -> bool {
        matches!(self.trigger(), Trigger::RisingEdge | Trigger::FallingEdge)
    }

    /// A level source is pending by its line, an edge source by its memory (01, AIC, pending).
    pub fn pending(&self) -> bool {
        match self.trigger() {
            Trigger::HighLevel => self.line,
            Trigger::LowLevel => !self.line,
            Trigger::RisingEdge | Trigger::FallingEdge => self.memory,
        }
    }

    pub fn requests(&self) -> bool {
        self.enabled && self.pending()
    }

    /// What the mode register reads: the two fields, all other bits 0.
    fn mode(&self) -> u32 {
        u32::from(self.kind) << 5 | u32::from(self.priority)
    }

    /// A new type forgets the edge, a new priority alone does not (01, AIC, mode).
    fn set_mode(&mut self, value: u32) {
        let kind = (value >> 5 & 3) as u8;
        if kind != self.kind {
            self.memory = false;
        }
        self.kind = kind;
        self.priority = (value & 7) as u8;
    }

    /// Only a change of level can be an edge, and it is remembered though the source be disabled (01, AIC, pending).
    fn set_line(&mut self, level: bool) {
        let edge = match self.trigger() {
            Trigger::RisingEdge => !self.line && level,
            Trigger::FallingEdge => self.line && !level,
            Trigger::HighLevel | Trigger::LowLevel => false,
        };
        self.memory |= edge;
        self.line = level;
    }

    /// The set command, without effect on a level source (003, 27.7.1.3).
    fn remember(&mut self) {
        self.memory = self.edge_triggered();
    }

    /// The clear command; a level source has nothing to forget.
    fn forget(&mut self) {
        self.memory = false;
    }
}

/// What a read of IVR, or in protect mode a write, opened and no EOICR write has closed: a handler or a spurious mark
/// (02, 3/12 and 9/12).
#[derive(Clone, Copy, Debug, PartialEq, Eq)]
pub struct Entry {
    /// The source of a handler; a mark has none.
    pub source: Option<u8>,
    /// The priority that a handler's source had at its start; for a mark the level of the entry below it, if any.
    pub level: Option<u8>,
}

impl Entry {
    pub fn is_mark(&self) -> bool {
        self.source.is_none()
    }
}

/// What a read of IVR finds: what it starts outside protect mode, and in the mode remembers for a write of IVR (02,
/// 9/12).
#[derive(Clone, Copy, Debug, PartialEq, Eq)]
pub enum Selection {
    /// The candidate ahead of all others, with its vector and its priority at the read.
    Source { number: u8, vector: u32, level: u8 },
    /// There was no candidate.
    Nobody,
}

/// The whole controller.
#[derive(Clone, Debug, PartialEq, Eq)]
pub struct Aic {
    sources: [Source; SOURCES],
    /// What is open, the last one at the end.
    entries: Vec<Entry>,
    spurious: u32,
    masked: bool,
    /// Bit 0 of DCR.
    protected: bool,
    /// What the last read of IVR in protect mode found, until a write of IVR takes it or the mode is left.
    remembered: Option<Selection>,
}

impl Aic {
    /// The controller after reset: bit n of a word is for source n; a first level is no edge (01, AIC, configuration).
    pub fn new(external: u32, levels: u32) -> Aic {
        let sources = std::array::from_fn(|n| Source {
            external: bit(external, n),
            line: bit(levels, n),
            ..Source::default()
        });
        Aic {
            sources,
            entries: Vec::with_capacity(ENTRIES),
            spurious: 0,
            masked: false,
            protected: false,
            remembered: None,
        }
    }

    pub fn sources(&self) -> &[Source; SOURCES] {
        &self.sources
    }

    pub fn entries(&self) -> &[Entry] {
        &self.entries
    }

    pub fn masked(&self) -> bool {
        self.masked
    }

    /// Whether protect mode is on.
    pub fn protected(&self) -> bool {
        self.protected
    }

    pub fn remembered(&self) -> Option<Selection> {
        self.remembered
    }

    /// Puts something else in the place of what is remembered. No step does that: tests make wrong models with it.
    pub fn remember_instead(&mut self, remembered: Option<Selection>) {
        self.remembered = remembered;
    }

    /// Source 0 is always on the fast side, another one if it is forced there (01, AIC, fast side).
    pub fn fast(&self, source: usize) -> bool {
        source == 0 || self.sources[source].forced
    }

    pub fn some_forced(&self) -> bool {
        self.sources.iter().any(|source| source.forced)
    }

    /// Some fast source is pending and enabled. The mask is not asked.
    pub fn fast_request(&self) -> bool {
        (0..SOURCES).any(|n| self.sources[n].requests() && self.fast(n))
    }

    /// A normal source that is pending and enabled, be it a candidate or kept waiting.
    pub fn normal_request(&self, source: usize) -> bool {
        self.sources[source].requests() && !self.fast(source)
    }

    /// The level that a source has to pass and that a mark takes over: that of the last entry, if it has one.
    pub fn last_level(&self) -> Option<u8> {
        self.entries.last().and_then(|entry| entry.level)
    }

    /// With eight entries open there is no candidate and nothing more opens (02, 3/12).
    pub fn is_full(&self) -> bool {
        self.entries.len() == ENTRIES
    }

    /// The priority of a source is strictly above the level of the last entry, if that has one.
    pub fn is_above(&self, source: usize) -> bool {
        match self.last_level() {
            Some(level) => self.sources[source].priority > level,
            None => true,
        }
    }

    /// A normal request that finds room and is above the last entry (01, AIC, normal side; 02, 3/12).
    pub fn candidate(&self, source: usize) -> bool {
        !self.is_full() && self.is_above(source) && self.normal_request(source)
    }

    /// The candidate ahead of all others: the highest priority, and of equal ones the lowest number.
    pub fn best(&self) -> Option<usize> {
        let mut best: Option<usize> = None;
        for source in (0..SOURCES).filter(|&n| self.candidate(n)) {
            let ahead = match best {
                Some(other) => self.sources[source].priority > self.sources[other].priority,
                None => true,
            };
            if ahead {
                best = Some(source);
            }
        }
        best
    }

    /// The IRQ output, with the mask.
    pub fn irq(&self) -> bool {
        !self.masked && (0..SOURCES).any(|n| self.candidate(n))
    }

    /// The FIQ output, with the mask.
    pub fn fiq(&self) -> bool {
        !self.masked && self.fast_request()
    }

    /// The best candidate as it is now, if there is one; the mask plays no part (01, AIC, normal side).
    pub fn selection(&self) -> Selection {
        match self.best() {
            Some(number) => Selection::Source {
                number: number as u8,
                vector: self.sources[number].vector,
                level: self.sources[number].priority,
            },
            None => Selection::Nobody,
        }
    }

    /// Answers the vector of what it finds, or SPU. Outside protect mode that is opened at once, in the mode only
    /// remembered, in the place of what was (01, AIC, normal side; 02, 3/12 and 9/12).
    fn read_ivr(&mut self) -> u32 {
        let selection = self.selection();
        if self.protected {
            self.remembered = Some(selection);
        } else {
            self.open(selection);
        }
        match selection {
            Selection::Source { vector, .. } => vector,
            Selection::Nobody => self.spurious,
        }
    }

    /// In protect mode opens what is remembered, whatever has become of it since, and forgets it (02, 9/12). Outside
    /// the mode it does nothing (01, AIC, map).
    fn write_ivr(&mut self) {
        if !self.protected {
            return;
        }
        if let Some(selection) = self.remembered.take() {
            self.open(selection);
        }
    }

    /// Opens a handler of a source, whose edge it spends, or else a mark.
    fn open(&mut self, selection: Selection) {
        match selection {
            Selection::Source { number, level, .. } => {
                self.sources[usize::from(number)].forget();
                self.entries.push(Entry {
                    source: Some(number),
                    level: Some(level),
                });
            }
            Selection::Nobody => self.open_mark(),
        }
    }

    /// Opens a mark at the level of the entry below it, if there is room (02, 3/12).
    fn open_mark(&mut self) {
        if !self.is_full() {
            self.entries.push(Entry {
                source: None,
                level: self.last_level(),
            });
        }
    }

    /// The source whose handler is the last entry, 0 on a mark and with nothing open (01, AIC; 02, 3/12).
    fn read_isr(&self) -> u32 {
        let source = self.entries.last().and_then(|entry| entry.source);
        source.map_or(0, u32::from)
    }

    /// Answers vector 0 for any fast request. Source 0's edge is forgotten only while nothing is forced, be the
    /// forced source idle or not (01, AIC, fast side; 003, 27.7.4.5).
    fn read_fvr(&mut self) -> u32 {
        if !self.fast_request() {
            return self.spurious;
        }
        if !self.some_forced() {
            self.sources[0].forget();
        }
        self.sources[0].vector
    }

    /// A word with a bit for each source that has the property.
    fn word(&self, property: impl Fn(&Source) -> bool) -> u32 {
        self.sources
            .iter()
            .rev()
            .fold(0, |word, source| word << 1 | u32::from(property(source)))
    }

    /// Does something to each source whose bit is 1, as all the command registers do.
    fn command(&mut self, word: u32, act: impl Fn(&mut Source)) {
        for (n, source) in self.sources.iter_mut().enumerate() {
            if bit(word, n) {
                act(source);
            }
        }
    }

    /// Bit 0 is protect mode, which forgets what is remembered when it is left; bit 1 is the mask, the rest is dropped
    /// (02, 9/12; 003, 27.8.17).
    fn write_dcr(&mut self, value: u32) {
        self.protected = bit(value, 0);
        self.masked = bit(value, 1);
        if !self.protected {
            self.remembered = None;
        }
    }
}

impl Controller for Aic {
    type Register = Register;

    fn register(&self, offset: u32) -> Option<(Register, Access)> {
        Register::at(offset).map(|register| (register, register.access()))
    }

    fn lines(&self) -> u32 {
        SOURCES as u32
    }

    fn read(&mut self, register: Register) -> u32 {
        use Register::*;
        match register {
            Mode(n) => self.sources[usize::from(n)].mode(),
            Vector(n) => self.sources[usize::from(n)].vector,
            Ivr => self.read_ivr(),
            Fvr => self.read_fvr(),
            Isr => self.read_isr(),
            Ipr => self.word(Source::pending),
            Imr => self.word(|source| source.enabled),
            Cisr => u32::from(self.irq()) << 1 | u32::from(self.fiq()),
            Spu => self.spurious,
            Dcr => u32::from(self.masked) << 1 | u32::from(self.protected),
            Ffsr => self.word(|source| source.forced),
            Enable | Disable | Clear | Set | Eoicr | Ffer | Ffdr => {
                unreachable!("{register:?} is write-only")
            }
        }
    }

    fn write(&mut self, register: Register, value: u32) -> Result<(), Refusal> {
        use Register::*;
        match register {
            Mode(n) => self.sources[usize::from(n)].set_mode(value),
            Vector(n) => self.sources[usize::from(n)].vector = value,
            Ivr => self.write_ivr(),
            Enable => self.command(value, |source| source.enabled = true),
            Disable => self.command(value, |source| source.enabled = false),
            Clear => self.command(value, Source::forget),
            Set => self.command(value, Source::remember),
            // One write closes the last entry whatever its value, and none is fine too (02, 3/12; 003, 27.8.15).
            Eoicr => drop(self.entries.pop()),
            Spu => self.spurious = value,
            Dcr => self.write_dcr(value),
            // Source 0 cannot be forced: its bit is dropped (01, AIC, fast side).
            Ffer => self.command(value & !1, |source| source.forced = true),
            Ffdr => self.command(value, |source| source.forced = false),
            Fvr | Isr | Ipr | Imr | Cisr | Ffsr => unreachable!("{register:?} is read-only"),
        }
        Ok(())
    }

    fn set_line(&mut self, line: usize, level: bool) {
        self.sources[line].set_line(level);
    }

    fn shown(&self) -> [u32; 3] {
        [
            u32::from(self.irq()),
            u32::from(self.fiq()),
            self.entries.len() as u32,
        ]
    }
}

fn bit(word: u32, n: usize) -> bool {
    word >> n & 1 == 1
}
