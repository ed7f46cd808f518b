//! Tours of a CIC with prioritised indices: what a tour of a CIC does, and between it polls, holds, and all that ends a
//! hold or nearly does. They keep to a few channels and hosts, so that a host has several channels, and play along on
//! the model, to know what is held.

mod situations;

pub use situations::situations;

use super::cic::{self, end_or_any, CHANNEL_MAP, END, GLOBAL, HOST_ENABLE, HOST_MAP};
use super::played::weights;
use super::steps::steps;
use super::{Script, INDEXED};
use crate::model::indexed::{Index, Indexed, NONE};
use crate::random::Random;

// Offsets of the map. The model takes nothing from here, so that tests can hold them against it.
pub const CONTROL: u32 = 0x004;
pub const GLOBAL_INDEX: u32 = 0x080;
pub const HOST_INDEX: u32 = 0x900;
/// The value of control that turns the hold mode on.
pub const HOLD: u32 = 0x10;

/// Index registers of the CIC itself, which set and clear the bit that they are told.
pub const STATUS_SET: u32 = 0x020;
pub const STATUS_CLEAR: u32 = 0x024;
pub const ENABLE_SET: u32 = 0x028;
pub const ENABLE_CLEAR: u32 = 0x02C;
pub const HOST_SET: u32 = 0x034;
pub const HOST_CLEAR: u32 = 0x038;

/// How often each act comes: in a mixed tour; in one that polls, where hold is off nearly all the time; and in one
/// without prioritisation, where what it has not is asked for all the same.
const MIXED: &str = "24 CIC, 14 poll, 10 raise, 5 lower, 5 earlier, 4 serve, 8 end, 8 almost end, \
    6 unsettle, 4 control, 3 map, 5 own";
const POLLING: &str = "16 poll, 10 raise, 10 lower, 5 earlier, 4 map, 4 unsettle, 6 CIC";
const WITHOUT: &str = "24 CIC, 8 raise, 6 own, 2 poll";

/// A tour as it goes on: that of the CIC, and liked channels and hosts.
struct Tour<'a> {
    cic: cic::Tour<'a, Indexed>,
    channels: Vec<u32>,
    hosts: Vec<u32>,
}

/// A sound trace of a CIC with prioritised indices, or with that choice off, of about so many steps.
pub fn tour(random: &mut Random, steps: u32) -> Script {
    let choice = !random.one_in(8);
    let mood = match random.below(4) {
        _ if !choice => WITHOUT,
        0 => POLLING,
        _ => MIXED,
    };
    let of = |cic| Indexed::new(cic, choice);
    let cic = cic::Tour::new(random, INDEXED, &[u32::from(choice)], of);
    let mut tour = Tour {
        channels: favourites(cic.at.random, cic.sizes.channels, 4),
        hosts: favourites(cic.at.random, cic.sizes.hosts, 3),
        cic,
    };
    if steps > 8 {
        tour.prepare(mood == POLLING);
    }
    let acts = weights(mood);
    for _ in 0..steps {
        let act = tour.cic.at.random.weighted(&acts);
        tour.act(act);
    }
    tour.cic.at.script
}

/// A few numbers below a count.
fn favourites(random: &mut Random, count: u32, most: u32) -> Vec<u32> {
    let some = random.within(1, most);
    (0..some).map(|_| end_or_any(random, count)).collect()
}

/// The register of an index.
fn register(index: Index) -> u32 {
    match index {
        Index::Global => GLOBAL_INDEX,
        Index::Host(host) => HOST_INDEX + 4 * host as u32,
    }
}

impl Tour<'_> {
    /// What a tour of the CIC prepares, and the favourite systems on liked channels and these on liked hosts.
    fn prepare(&mut self, polling: bool) {
        if polling {
            self.write(CONTROL, 0);
        }
        self.cic.prepare();
        self.map_channels();
        for nth in 0..self.cic.favourites.len() {
            self.map_system(self.cic.favourites[nth]);
        }
    }

    fn read(&mut self, offset: u32) {
        self.cic.at.read(offset);
    }

    fn write(&mut self, offset: u32, value: u32) {
        self.cic.at.write(offset, value);
    }

    fn act(&mut self, act: &str) {
        match act {
            "CIC" => self.cic.act(),
            "poll" => {
                let index = self.index();
                self.read(register(index));
            }
            "raise" => self.raise(),
            "lower" => self.lower(),
            "earlier" => self.earlier(),
            "serve" => self.serve(),
            "end" => self.end(),
            "almost end" => self.almost_end(),
            "unsettle" => self.unsettle(),
            "control" => {
                let value = match self.random().below(8) {
                    0..=2 => 0,
                    3..=5 => HOLD,
                    6 => !HOLD,
                    _ => self.random().word(),
                };
                self.write(CONTROL, value);
                self.read(CONTROL);
            }
            "map" => self.map_channels(),
            "own" => self.own(),
            _ => unreachable!("{act} is no act"),
        }
    }

    fn random(&mut self) -> &mut Random {
        self.cic.at.random
    }

    fn model(&self) -> &Indexed {
        &self.cic.at.model
    }

    /// The global index, or that of a liked host, seldom of any.
    fn index(&mut self) -> Index {
        match self.random().below(8) {
            0..=2 => Index::Global,
            3 => Index::Host(self.any_host() as usize),
            _ => Index::Host(self.host() as usize),
        }
    }

    /// An index that is held if there is one at hand, and the word.
    fn held(&mut self) -> Option<(Index, u32)> {
        let index = self.index();
        let liked = self.hosts.iter().map(|&host| Index::Host(host as usize));
        let mut all = [index].into_iter().chain(liked).chain([Index::Global]);
        all.find_map(|index| Some((index, self.model().held(index)?)))
    }

    fn any_host(&mut self) -> u32 {
        self.cic.at.random.below(self.cic.sizes.hosts)
    }

    fn host(&mut self) -> u32 {
        self.cic.at.random.pick(&self.hosts)
    }

    /// A system becomes pending: by its line, or by software.
    fn raise(&mut self) {
        let system = self.cic.system();
        match self.random().below(3) {
            0 => self.write(STATUS_SET, system),
            _ => steps!(self.cic.at: "{system}- {system}+"),
        }
        if self.random().one_in(3) {
            self.write(ENABLE_SET, system);
        }
    }

    /// A system that an index names now, or any, is cleared or disabled.
    fn lower(&mut self) {
        let index = self.index();
        let system = match self.model().first(index) {
            Some(system) => system as u32,
            None => self.cic.system(),
        };
        let offset = self
            .random()
            .pick(&[STATUS_CLEAR, STATUS_CLEAR, ENABLE_CLEAR]);
        self.write(offset, system);
    }

    /// A system before the one that an index names becomes pending: a lower one of its channel, or one of a lower
    /// channel.
    fn earlier(&mut self) {
        let index = self.index();
        let Some(first) = self.model().first(index) else {
            return self.raise();
        };
        let cic = self.model().cic();
        let channel = cic.channel_of(first);
        let earlier: Vec<u32> = (0..cic.systems())
            .filter(|&system| (cic.channel_of(system), system) < (channel, first))
            .map(|system| system as u32)
            .collect();
        if earlier.is_empty() {
            return self.raise();
        }
        let system = self.random().pick(&earlier);
        steps!(self.cic.at: "IENABLE={system:x} ISET={system:x}");
        self.read(register(index));
    }

    /// The maker's service sequence: the host off, the index read, what it names cleared, the host on (001, table 1-2).
    fn serve(&mut self) {
        let host = self.host();
        let index = match self.random().below(3) {
            0 => Index::Global,
            _ => Index::Host(host as usize),
        };
        self.write(HOST_CLEAR, host);
        self.read(register(index));
        let named = self.model().held(index).filter(|&word| word != NONE);
        let now = self.model().first(index).map(|system| system as u32);
        if let Some(system) = named.or(now) {
            self.write(STATUS_CLEAR, system);
        }
        if self.random().one_in(3) {
            self.read(register(index));
        }
        self.write(HOST_SET, host);
        self.read(register(index));
    }

    /// A word of host enables with or without the bit of a host.
    fn enables(&mut self, host: u32, with: bool) {
        let bit = 1 << (host % 32);
        let others = match self.random().below(3) {
            0 => 0,
            _ => self.random().word(),
        };
        let value = if with { others | bit } else { others & !bit };
        self.write(HOST_ENABLE + 4 * (host / 32), value);
    }

    /// What ends a hold, and the read after it.
    fn end(&mut self) {
        let index = self.held().map_or(Index::Global, |(index, _)| index);
        let host = match index {
            Index::Host(host) => host as u32,
            Index::Global => self.host(),
        };
        match self.random().below(6) {
            0 | 1 => {
                let value = self.random().pick(&[0, NONE, 0x3FF, u32::MAX]);
                self.write(register(index), value);
            }
            2 => self.write(HOST_SET, host),
            3 => self.write(HOST_CLEAR, host),
            4 => self.enables(host, true),
            _ => {
                self.write(CONTROL, 0);
                if !self.random().one_in(4) {
                    self.write(CONTROL, HOLD);
                }
            }
        }
        self.read(register(index));
    }

    /// What does not end a hold, but looks like it, and the read after it.
    fn almost_end(&mut self) {
        let index = self.held().map_or(Index::Global, |(index, _)| index);
        let (host, other) = match index {
            Index::Host(host) => (host as u32, self.any_host()),
            Index::Global => (self.host(), self.host()),
        };
        match self.random().below(8) {
            0 => self.enables(host, false),
            1 => self.write(HOST_ENABLE + 4 * (host / 32), 0),
            2 => self.write(HOST_SET, other),
            3 => self.write(HOST_CLEAR, other),
            4 => {
                let offset = self.random().pick(&[HOST_SET, HOST_CLEAR]);
                self.write(offset, self.cic.sizes.hosts);
            }
            5 => self.write(register(Index::Host(other as usize)), 0),
            6 => self.write(CONTROL, HOLD),
            _ => {
                let value = self.random().below(2);
                self.write(GLOBAL, value);
            }
        }
        self.read(register(index));
    }

    /// What is held goes away: it is cleared, disabled, given another channel, or its channel another host.
    fn unsettle(&mut self) {
        let Some((index, word)) = self.held().filter(|&(_, word)| word != NONE) else {
            return self.raise();
        };
        match self.random().below(4) {
            0 => self.write(STATUS_CLEAR, word),
            1 => self.write(ENABLE_CLEAR, word),
            2 => self.map_system(word),
            _ => self.map_channels(),
        }
        self.read(register(index));
    }

    /// Liked channels for a system and its three neighbours.
    fn map_system(&mut self, system: u32) {
        let word = four(self.cic.at.random, &self.channels);
        self.write(CHANNEL_MAP + 4 * (system / 4), word);
    }

    /// Liked hosts for all liked channels and their neighbours.
    fn map_channels(&mut self) {
        for nth in 0..self.channels.len() {
            let word = four(self.cic.at.random, &self.hosts);
            self.write(HOST_MAP + 4 * (self.channels[nth] / 4), word);
        }
    }

    /// One of the registers that prioritisation brings, or the first that it does not, or one beside it.
    fn own(&mut self) {
        let hosts = self.cic.sizes.hosts;
        let host = match self.random().below(5) {
            0 => hosts,
            1 => hosts - 1,
            2 => 255,
            _ => self.host(),
        };
        let offset = match self.random().below(8) {
            0 | 1 => CONTROL,
            2 | 3 => GLOBAL_INDEX,
            4 => self.random().pick(&[0x005, 0x006, 0x07C, 0x083, 0x084]),
            5 => HOST_INDEX + 4 * host + self.random().below(4),
            _ => HOST_INDEX + 4 * host,
        };
        self.cic.at.access(offset.min(END));
    }
}

/// Four of some numbers, as the bytes of a map.
fn four(random: &mut Random, from: &[u32]) -> u32 {
    (0..4).fold(0, |word, place| word | random.pick(from) << (8 * place))
}
