//! Tours of a CIC of any size, which keep to a few systems, channels and hosts so that they meet.

use super::played::Played;
use super::Script;
use crate::model::cic::Cic;
use crate::model::Controller;
use crate::random::Random;

// Offsets of the map. The model takes nothing from here, so that tests can hold them against it.
pub const GLOBAL: u32 = 0x010;
pub const RAW_SET: u32 = 0x200;
pub const ENABLED_CLEAR: u32 = 0x280;
pub const ENABLE_SET: u32 = 0x300;
pub const ENABLE_CLEAR: u32 = 0x380;
pub const CHANNEL_MAP: u32 = 0x400;
pub const HOST_MAP: u32 = 0x800;
pub const HOST_ENABLE: u32 = 0x1500;
pub const END: u32 = 0x1520;

/// Single registers, and places that 01 leaves out or 001 reserves.
const SINGLE: [u32; 16] = [
    0x000, 0x004, 0x008, 0x010, 0x014, 0x020, 0x024, 0x028, 0x02C, 0x030, 0x034, 0x038, 0x03C,
    0x080, 0x900, 0xCFC,
];

const SYSTEMS: [u32; 14] = [1, 2, 4, 5, 31, 32, 33, 63, 64, 65, 97, 160, 1_023, 1_024];
const CHANNELS: [u32; 10] = [1, 1, 2, 3, 4, 5, 33, 64, 255, 256];
const HOSTS: [u32; 10] = [1, 2, 3, 8, 31, 32, 33, 65, 255, 256];

/// The sizes of a part.
#[derive(Clone, Copy)]
pub struct Sizes {
    pub systems: u32,
    pub channels: u32,
    pub hosts: u32,
}

impl Sizes {
    fn any(random: &mut Random) -> Sizes {
        Sizes {
            systems: size(random, &SYSTEMS, 1_024),
            channels: size(random, &CHANNELS, 256),
            hosts: size(random, &HOSTS, 256),
        }
    }

    /// The model of such a part.
    fn part(self) -> Cic {
        let [systems, channels, hosts] =
            [self.systems, self.channels, self.hosts].map(|count| count as usize);
        Cic::new(systems, channels, hosts, 0)
    }
}

/// A tour as it goes on, with the systems it likes.
pub struct Tour<'a, M> {
    pub at: Played<'a, M>,
    pub sizes: Sizes,
    pub favourites: Vec<u32>,
}

/// A sound CIC trace of about so many steps.
pub fn tour(random: &mut Random, steps: u32) -> Script {
    let mut tour = Tour::new(random, 2, &[], |cic| cic);
    if steps > 8 {
        tour.prepare();
    }
    for _ in 0..steps {
        tour.act();
    }
    tour.at.script
}

fn size(random: &mut Random, edges: &[u32], most: u32) -> u32 {
    if random.one_in(4) {
        random.within(1, most)
    } else {
        random.pick(edges)
    }
}

/// A number below the count, and often the first or the last one.
pub fn end_or_any(random: &mut Random, count: u32) -> u32 {
    match random.below(4) {
        0 => 0,
        1 => count - 1,
        _ => random.below(count),
    }
}

impl<'a, M: Controller> Tour<'a, M> {
    /// A tour of any size that has only its configuration yet; of a kind that is no plain CIC more numbers follow.
    pub fn new(random: &'a mut Random, kind: u32, more: &[u32], of: impl Fn(Cic) -> M) -> Self {
        let sizes = Sizes::any(random);
        let configuration = [sizes.systems, sizes.channels, sizes.hosts, random.word()];
        let script = Script::new(kind, &[&configuration, more].concat());
        Tour {
            sizes,
            favourites: (0..6).map(|_| end_or_any(random, sizes.systems)).collect(),
            at: Played::new(random, script, of(sizes.part())),
        }
    }

    /// Opens what stands between a line and its host, for most of the favourite systems.
    pub fn prepare(&mut self) {
        if !self.at.random.one_in(8) {
            self.at.write(GLOBAL, 1);
        }
        for place in 0..self.favourites.len() {
            let system = self.favourites[place];
            if !self.at.random.one_in(4) {
                self.at.write(0x028, system);
            }
            if self.at.random.one_in(2) {
                self.write_channel_map(system / 4);
            }
        }
        for word in 0..self.sizes.hosts.div_ceil(32) {
            self.at.write_word(HOST_ENABLE + 4 * word);
        }
        let register = self.at.random.below(self.sizes.channels.div_ceil(4));
        self.write_host_map(register);
        self.write_host_map(0);
    }

    pub fn act(&mut self) {
        let sizes = self.sizes;
        match self.at.random.below(40) {
            0..=11 => {
                let (system, level) = (self.system(), self.at.random.below(2));
                self.at.line(system, level);
            }
            12..=15 => self.index(),
            16..=20 => self.set_or_clear(),
            21 | 22 => {
                let register = self.system() / 4;
                self.write_channel_map(register);
            }
            23 | 24 => {
                let register = end_or_any(self.at.random, sizes.channels.div_ceil(4));
                self.write_host_map(register);
            }
            25 | 26 => {
                let word = self.at.random.below(sizes.hosts.div_ceil(32));
                self.at.write_word(HOST_ENABLE + 4 * word);
            }
            27 => {
                let value = self.at.random.pick(&[0, 1, 1, 1, 2, 3, u32::MAX]);
                self.at.write(GLOBAL, value);
            }
            28..=34 => self.read_something(),
            35 | 36 => {
                let offset = self.at.random.pick(&SINGLE);
                self.at.access(offset);
            }
            37 => self.at.odd_access(END),
            38 => self.access_near_end(),
            _ => self.at.bad_line(sizes.systems),
        }
    }

    pub fn system(&mut self) -> u32 {
        if self.at.random.one_in(6) {
            self.at.random.below(self.sizes.systems)
        } else {
            self.at.random.pick(&self.favourites)
        }
    }

    /// An index that exists, or the first that does not, or any word.
    fn index(&mut self) {
        let offset = self.at.random.pick(&[
            0x020, 0x020, 0x024, 0x028, 0x028, 0x02C, 0x034, 0x034, 0x038,
        ]);
        let count = match offset {
            0..0x030 => self.sizes.systems,
            _ => self.sizes.hosts,
        };
        let index = match self.at.random.below(12) {
            0 => count,
            1 => self.at.random.word(),
            2 | 3 => count - 1,
            _ if offset < 0x030 => self.system(),
            _ => self.at.random.below(count),
        };
        self.at.write(offset, index);
    }

    fn set_or_clear(&mut self) {
        let bases = [RAW_SET, ENABLED_CLEAR, ENABLE_SET, ENABLE_SET, ENABLE_CLEAR];
        let base = self.at.random.pick(&bases);
        let system = self.system();
        let value = if self.at.random.one_in(3) {
            self.at.random.word()
        } else {
            1 << (system % 32)
        };
        self.at.write(base + 4 * (system / 32), value);
    }

    fn write_channel_map(&mut self, register: u32) {
        let value = self.map_word(self.sizes.channels);
        self.at.write(CHANNEL_MAP + 4 * register, value);
    }

    fn write_host_map(&mut self, register: u32) {
        let value = self.map_word(self.sizes.hosts);
        self.at.write(HOST_MAP + 4 * register, value);
    }

    /// Four bytes below the limit, now and then with one at it or beyond it.
    fn map_word(&mut self, limit: u32) -> u32 {
        let random = &mut *self.at.random;
        let mut bytes = [(); 4].map(|()| end_or_any(random, limit) as u8);
        if random.one_in(5) {
            let place = random.below(4) as usize;
            let past = [limit, limit + 1, 255];
            bytes[place] = random.pick(&past).min(255) as u8;
        }
        u32::from_le_bytes(bytes)
    }

    fn read_something(&mut self) {
        let system = self.system();
        let channel = end_or_any(self.at.random, self.sizes.channels);
        let host = end_or_any(self.at.random, self.sizes.hosts);
        let offset = match self.at.random.below(8) {
            0 | 1 => RAW_SET + 4 * (system / 32),
            2 | 3 => ENABLED_CLEAR + 4 * (system / 32),
            4 => self.at.random.pick(&[ENABLE_SET, ENABLE_CLEAR]) + 4 * (system / 32),
            5 => CHANNEL_MAP + 4 * (system / 4),
            6 => HOST_MAP + 4 * (channel / 4),
            _ => HOST_ENABLE + 4 * (host / 32),
        };
        self.at.read(offset);
    }

    /// The last register of a group, or the first one that does not exist, or any of the group at full size.
    fn access_near_end(&mut self) {
        let [of_systems, of_hosts] = [self.sizes.systems, self.sizes.hosts].map(|n| n.div_ceil(32));
        let groups = [
            (RAW_SET, of_systems, 32),
            (ENABLED_CLEAR, of_systems, 32),
            (ENABLE_SET, of_systems, 32),
            (ENABLE_CLEAR, of_systems, 32),
            (CHANNEL_MAP, self.sizes.systems.div_ceil(4), 256),
            (HOST_MAP, self.sizes.channels.div_ceil(4), 64),
            (HOST_ENABLE, of_hosts, 8),
        ];
        let (base, exist, most) = self.at.random.pick(&groups);
        let register = match self.at.random.below(3) {
            0 => exist - 1,
            1 => exist,
            _ => self.at.random.below(most),
        };
        self.at.access(base + 4 * register);
    }
}
