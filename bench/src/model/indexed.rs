//! The CIC with prioritised indices: a CIC, three more sorts of registers if it is so configured, and the words that
//! are held for them (02, 6/12 and 10/12; 001, 1.3.5, 2.2.2, 2.2.10 and 2.2.17).

use super::cic::{self, Cic};
use super::{Access, Controller, Refusal};

/// What an index reads that names no system interrupt: bit 31, NONE, and nothing else (001, tables 2-11 and 2-18).
pub const NONE: u32 = 0x8000_0000;
/// Where the control register has PRIORITY_HOLD (001, table 2-3).
const HOLD: u32 = 4;

/// Whose index: the one across all hosts, or that of a host.
#[derive(Clone, Copy, Debug, PartialEq, Eq, PartialOrd, Ord, Hash)]
pub enum Index {
    Global,
    Host(usize),
}

/// The registers: those of the CIC, and those that prioritisation brings (001, table 2-1).
#[derive(Clone, Copy, Debug, PartialEq, Eq, PartialOrd, Ord, Hash)]
pub enum Register {
    Cic(cic::Register),
    Control,
    Index(Index),
}

/// The whole controller. A held word is there as it was answered.
#[derive(Clone, Debug, PartialEq, Eq, Hash)]
pub struct Indexed {
    cic: Cic,
    prioritised: bool,
    hold: bool,
    global: Option<u32>,
    hosts: Vec<Option<u32>>,
}

impl Indexed {
    /// The controller after reset, prioritised or not; if it is, the hold mode is on (001, figure 2-2).
    pub fn new(cic: Cic, prioritised: bool) -> Indexed {
        Indexed {
            prioritised,
            hold: prioritised,
            global: None,
            hosts: vec![None; cic.hosts()],
            cic,
        }
    }

    pub fn cic(&self) -> &Cic {
        &self.cic
    }

    pub fn prioritised(&self) -> bool {
        self.prioritised
    }

    /// Whether a read of an index holds what it answers.
    pub fn hold(&self) -> bool {
        self.hold
    }

    /// The word that is held for an index.
    pub fn held(&self, index: Index) -> Option<u32> {
        match index {
            Index::Global => self.global,
            Index::Host(host) => self.hosts[host],
        }
    }

    /// Whether a system meets the conditions of an index: it is set and enabled, and for a host's index its channel
    /// leads to that host. Neither the global enable nor the host's own is asked (001, 1.3.2 and table 1-2).
    pub fn meets(&self, index: Index, system: usize) -> bool {
        let pending = self.cic.status().get(system) && self.cic.enable().get(system);
        pending && self.leads(index, self.cic.channel_of(system))
    }

    /// The system that an index names when nothing is held: of those that meet its conditions that of the lowest
    /// channel, and of one channel the lowest (001, 1.3.5).
    pub fn first(&self, index: Index) -> Option<usize> {
        self.cic
            .active()
            .filter(|&system| self.meets(index, system))
            .min_by_key(|&system| (self.cic.channel_of(system), system))
    }

    /// Whether a channel is one of an index: of the global one any, of a host's those mapped to it.
    pub fn leads(&self, index: Index, channel: usize) -> bool {
        match index {
            Index::Global => true,
            Index::Host(host) => self.cic.host_of(channel) == host,
        }
    }

    /// The status words, of 32 systems each, that a read of an offset would look at now (02, 10/12). A read that is
    /// refused, of what is held or of another register looks at none.
    pub fn looked(&self, offset: u32) -> u32 {
        match self.found(offset) {
            Ok((Register::Index(index), _)) if self.held(index).is_none() => self.searched(index),
            _ => 0,
        }
    }

    /// Told by the system that would be named: of each earlier channel of the index all words were looked at, of its own
    /// those up to its word. Where none is named it is all words of all channels of the index.
    fn searched(&self, index: Index) -> u32 {
        let whole = self.cic.systems().div_ceil(32);
        let (channels, own) = match self.first(index) {
            Some(system) => (self.cic.channel_of(system), system / 32 + 1),
            None => (self.cic.channels(), 0),
        };
        let earlier = (0..channels).filter(|&channel| self.leads(index, channel));
        (earlier.count() * whole + own) as u32
    }

    fn read_index(&mut self, index: Index) -> u32 {
        let now = self.first(index).map_or(NONE, |system| system as u32);
        let word = self.held(index).unwrap_or(now);
        if self.hold {
            *self.held_mut(index) = Some(word);
        }
        word
    }

    fn held_mut(&mut self, index: Index) -> &mut Option<u32> {
        match index {
            Index::Global => &mut self.global,
            Index::Host(host) => &mut self.hosts[host],
        }
    }

    /// The hold mode as bit 4 says it; with the mode off nothing is held (001, table 2-3).
    fn write_control(&mut self, value: u32) {
        self.hold = value >> HOLD & 1 == 1;
        if !self.hold {
            self.global = None;
            self.hosts.fill(None);
        }
    }

    /// A host was set or cleared by software, which ends its hold and that of the index across all hosts (001, 1.3.5
    /// and table 2-3).
    fn host_written(&mut self, host: usize) {
        self.hosts[host] = None;
        self.global = None;
    }

    /// What a write to a register of the CIC ends, once it is carried out: a bit of a host enable register counts only
    /// if it is written as 1 (001, 1.3.5).
    fn ended_by(&mut self, register: cic::Register, value: u32) {
        match register {
            cic::Register::HostEnableSetIndex | cic::Register::HostEnableClearIndex => {
                self.host_written(value as usize);
            }
            cic::Register::HostEnable(k) => {
                for host in 32 * k..self.cic.hosts().min(32 * k + 32) {
                    if value >> (host % 32) & 1 == 1 {
                        self.host_written(host);
                    }
                }
            }
            _ => {}
        }
    }
}

impl Controller for Indexed {
    type Register = Register;

    /// Without prioritisation all is the CIC's, and with it all but three sorts of registers.
    fn register(&self, offset: u32) -> Option<(Register, Access)> {
        let host = |offset| (offset - 0x900) as usize / 4;
        let own = match offset {
            _ if !self.prioritised => None,
            0x004 => Some(Register::Control),
            0x080 => Some(Register::Index(Index::Global)),
            0x900..=0xCFC if host(offset) < self.cic.hosts() => {
                Some(Register::Index(Index::Host(host(offset))))
            }
            _ => None,
        };
        match own {
            Some(register) => Some((register, Access::ReadWrite)),
            None => {
                let (register, access) = self.cic.register(offset)?;
                Some((Register::Cic(register), access))
            }
        }
    }

    fn lines(&self) -> u32 {
        self.cic.systems() as u32
    }

    fn read(&mut self, register: Register) -> u32 {
        match register {
            Register::Cic(register) => self.cic.read(register),
            Register::Control => u32::from(self.hold) << HOLD,
            Register::Index(index) => self.read_index(index),
        }
    }

    fn write(&mut self, register: Register, value: u32) -> Result<(), Refusal> {
        match register {
            Register::Cic(register) => {
                self.cic.write(register, value)?;
                self.ended_by(register, value);
            }
            Register::Control => self.write_control(value),
            // Whatever is written, it ends the hold and does nothing else (001, 1.3.5).
            Register::Index(index) => *self.held_mut(index) = None,
        }
        Ok(())
    }

    fn set_line(&mut self, line: usize, level: bool) {
        self.cic.set_line(line, level);
    }

    fn shown(&self) -> [u32; 3] {
        self.cic.shown()
    }
}
