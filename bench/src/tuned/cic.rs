//! The CIC with counts of the active systems of each channel and host, changed as systems turn active and inactive, so
//! that outputs look at no system (01, CIC; 001).

use super::reader::{Fault, Reader};
use super::text::{show_hosts, Line};
use super::{mixed, nothing_at, Device, Done};
use crate::model::{Answer, Kind, Refusal};

/// What "lowest asserted host" shows where there is none.
const NO_HOST: usize = 256;

/// What is kept beside the state and told of its changes; who needs nothing of it keeps `()`.
pub trait Kept {
    /// Whether to tell of each system that turns.
    const TURNS: bool;

    fn new() -> Self;

    /// A system of a channel and of the host of that turned active, or is so no more.
    fn turn(&mut self, channel: u8, host: u8, active: bool);

    /// A word of status or enables was written.
    fn change(&mut self, _word: usize) {}

    /// A system is mapped to another channel than before.
    fn remap(&mut self, _system: usize, _before: u8, _after: u8) {}

    /// A channel is led to another host than before.
    fn lead(&mut self, channel: usize, before: u8, after: u8);

    /// After a change of the enables of hosts.
    fn allow(&mut self, host_enable: &[u32; 8], all: bool);

    /// How many hosts are asserted, and the lowest.
    fn shown(&self) -> (usize, usize);
}

impl Kept for () {
    const TURNS: bool = false;

    fn new() {}

    fn turn(&mut self, _: u8, _: u8, _: bool) {}

    fn lead(&mut self, _: usize, _: u8, _: u8) {}

    fn allow(&mut self, _: &[u32; 8], _: bool) {}

    fn shown(&self) -> (usize, usize) {
        (0, NO_HOST)
    }
}

/// The controller, with what is kept beside it.
pub struct Cic<K> {
    systems: u32,
    channels: u32,
    pub hosts: u32,
    revision: u32,
    global_enable: bool,
    lines: [u32; 32],
    pub status: [u32; 32],
    pub enable: [u32; 32],
    pub channel_of_system: [u8; 1_024],
    host_of_channel: [u8; 256],
    host_enable: [u32; 8],
    pub kept: K,
}

/// What is kept beside the state for the outputs. An active system is set and enabled.
pub struct Outputs {
    /// The active systems of each channel and of each host.
    of_channel: [u16; 256],
    of_host: [u16; 256],
    /// Hosts with an active system, and hosts that may be asserted: enabled themselves, and all of them enabled.
    reached: [u64; 4],
    allowed: [u64; 4],
    /// How many hosts are both.
    asserted: u32,
}

impl Outputs {
    #[inline(always)]
    fn add(&mut self, host: u8, systems: u16) {
        let before = self.of_host[usize::from(host)];
        self.of_host[usize::from(host)] = before.wrapping_add(systems);
        if before == 0 {
            self.flip(host);
        }
    }

    #[inline(always)]
    fn take(&mut self, host: u8, systems: u16) {
        let after = self.of_host[usize::from(host)].wrapping_sub(systems);
        self.of_host[usize::from(host)] = after;
        if after == 0 {
            self.flip(host);
        }
    }

    /// A host is reached now and was not, or the other way round.
    #[inline(always)]
    fn flip(&mut self, host: u8) {
        let (word, bit) = (usize::from(host / 64), host % 64);
        self.reached[word] ^= 1 << bit;
        let allowed = (self.allowed[word] >> bit & 1) as u32;
        let reached = (self.reached[word] >> bit & 1) as u32;
        // One more if it is reached now, else one less.
        let change = (2 * reached).wrapping_sub(1);
        self.asserted = self.asserted.wrapping_add(allowed * change);
    }

    #[inline(always)]
    fn lowest(&self) -> usize {
        for word in 0..4 {
            let asserted = self.reached[word] & self.allowed[word];
            if asserted != 0 {
                return 64 * word + asserted.trailing_zeros() as usize;
            }
        }
        NO_HOST
    }
}

impl Kept for Outputs {
    const TURNS: bool = true;

    fn new() -> Outputs {
        Outputs {
            of_channel: [0; 256],
            of_host: [0; 256],
            reached: [0; 4],
            allowed: [0; 4],
            asserted: 0,
        }
    }

    #[inline(always)]
    fn turn(&mut self, channel: u8, host: u8, active: bool) {
        let count = &mut self.of_channel[usize::from(channel)];
        if active {
            *count = count.wrapping_add(1);
            self.add(host, 1);
        } else {
            *count = count.wrapping_sub(1);
            self.take(host, 1);
        }
    }

    /// The active systems of the channel go along.
    #[inline(always)]
    fn lead(&mut self, channel: usize, before: u8, after: u8) {
        let systems = self.of_channel[channel % 256];
        if systems != 0 {
            self.take(before, systems);
            self.add(after, systems);
        }
    }

    fn allow(&mut self, host_enable: &[u32; 8], all: bool) {
        self.asserted = 0;
        for (word, pair) in host_enable.chunks_exact(2).enumerate() {
            let enabled = u64::from(pair[1]) << 32 | u64::from(pair[0]);
            self.allowed[word] = if all { enabled } else { 0 };
            self.asserted += (self.allowed[word] & self.reached[word]).count_ones();
        }
    }

    #[inline(always)]
    fn shown(&self) -> (usize, usize) {
        (self.asserted as usize, self.lowest())
    }
}

impl<K: Kept> Cic<K> {
    pub fn read_from(reader: &mut Reader) -> Result<Self, Fault> {
        let systems = reader.limited(1, 1_024)?;
        let channels = reader.limited(1, 256)?;
        let hosts = reader.limited(1, 256)?;
        let revision = reader.number()?;
        Ok(Cic {
            systems,
            channels,
            hosts,
            revision,
            global_enable: false,
            lines: [0; 32],
            status: [0; 32],
            enable: [0; 32],
            channel_of_system: [0; 1_024],
            host_of_channel: [0; 256],
            host_enable: [0; 8],
            kept: K::new(),
        })
    }

    /// Tells of a system of a channel that turned active, or of one that is so no more.
    #[inline(always)]
    fn turn(&mut self, channel: u8, active: bool) {
        let host = self.host_of_channel[usize::from(channel)];
        self.kept.turn(channel, host, active);
    }

    /// Tells of the systems of a word that are turned by a change of its status or enables.
    #[inline(always)]
    fn turn_all(&mut self, word: usize, before: u32) {
        self.kept.change(word);
        if !K::TURNS {
            return;
        }
        let after = self.active(word);
        let channel = |cic: &Self, bit| cic.channel_of_system[(32 * word + bit) % 1_024];
        each_bit(after & !before, |bit| self.turn(channel(self, bit), true));
        each_bit(before & !after, |bit| self.turn(channel(self, bit), false));
    }

    #[inline(always)]
    fn active(&self, word: usize) -> u32 {
        self.status[word % 32] & self.enable[word % 32]
    }

    /// Puts the bit of a system in the words of status or enables; the other words say whether that turns it.
    #[inline(always)]
    fn put(&mut self, which: Which, system: u32, value: bool) {
        let (word, bit) = (system as usize / 32 % 32, 1 << (system % 32));
        let (words, others) = match which {
            Which::Status => (&mut self.status, &self.enable),
            Which::Enable => (&mut self.enable, &self.status),
        };
        let before = words[word];
        words[word] = if value { before | bit } else { before & !bit };
        let turned = (words[word] ^ before) & others[word] != 0;
        self.kept.change(word);
        if K::TURNS && turned {
            self.turn(self.channel_of_system[system as usize % 1_024], value);
        }
    }

    /// The same for the system that the whole value names, which must exist.
    #[inline(always)]
    fn put_index(&mut self, which: Which, index: u32, value: bool) -> Done {
        if index >= self.systems {
            return Err(Refusal::OutOfRange);
        }
        self.put(which, index, value);
        Ok(())
    }

    fn put_host_index(&mut self, index: u32, value: bool) -> Done {
        if index >= self.hosts {
            return Err(Refusal::OutOfRange);
        }
        let (word, bit) = (index as usize / 32 % 8, 1 << (index % 32));
        let before = self.host_enable[word];
        self.host_enable[word] = if value { before | bit } else { before & !bit };
        self.allow();
        Ok(())
    }

    fn allow(&mut self) {
        self.kept.allow(&self.host_enable, self.global_enable);
    }

    /// Ones set or clear their bits in a word of status or enables, as far as there are such systems.
    fn write_word(&mut self, group: u32, word: usize, value: u32) {
        let value = value & existing(self.systems, word);
        let before = self.active(word);
        match group {
            RAW_SET => self.status[word] |= value,
            // The status goes, enabled or not.
            ENABLED_CLEAR => self.status[word] &= !value,
            ENABLE_SET => self.enable[word] |= value,
            _ => self.enable[word] &= !value,
        }
        self.turn_all(word, before);
    }

    /// Four channels, or as many as there are systems; an active system is told where it goes.
    fn write_channel_map(&mut self, first: usize, value: u32) -> Done {
        let entries = entries(value, self.systems - first as u32, self.channels)?;
        for (nth, channel) in entries.into_iter().enumerate() {
            let system = (first + nth) % 1_024;
            let before = std::mem::replace(&mut self.channel_of_system[system], channel);
            if before == channel {
                continue;
            }
            self.kept.remap(system, before, channel);
            if K::TURNS && self.active(system / 32) >> (system % 32) & 1 == 1 {
                self.turn(before, false);
                self.turn(channel, true);
            }
        }
        Ok(())
    }

    /// Four hosts, or as many as there are channels.
    fn write_host_map(&mut self, first: usize, value: u32) -> Done {
        let entries = entries(value, self.channels - first as u32, self.hosts)?;
        for (nth, host) in entries.into_iter().enumerate() {
            let channel = (first + nth) % 256;
            let before = std::mem::replace(&mut self.host_of_channel[channel], host);
            if before != host {
                self.kept.lead(channel, before, host);
            }
        }
        Ok(())
    }

    /// The registers below 0x80.
    #[inline(always)]
    fn read_low(&self, offset: u32) -> Answer {
        match offset {
            0x000 => Ok(self.revision),
            0x010 => Ok(u32::from(self.global_enable)),
            0x020 | 0x024 | 0x028 | 0x02C | 0x034 | 0x038 => Err(Refusal::WriteOnly),
            _ => Err(nothing_at(offset)),
        }
    }

    #[inline(always)]
    fn write_low(&mut self, offset: u32, value: u32) -> Done {
        match offset {
            0x010 => {
                self.global_enable = value & 1 == 1;
                self.allow();
                Ok(())
            }
            0x020 => self.put_index(Which::Status, value, true),
            0x024 => self.put_index(Which::Status, value, false),
            0x028 => self.put_index(Which::Enable, value, true),
            0x02C => self.put_index(Which::Enable, value, false),
            0x034 => self.put_host_index(value, true),
            0x038 => self.put_host_index(value, false),
            0x000 => Err(Refusal::ReadOnly),
            _ => Err(nothing_at(offset)),
        }
    }

    /// The group of a register by its offset in pieces of 0x80, and its number in the group; a register exists if its
    /// first bit or byte is below the count it goes by.
    #[inline(always)]
    fn group(&self, offset: u32) -> Option<(Group, usize)> {
        let (group, nth, count) = match offset >> 7 {
            at @ RAW_SET..=ENABLE_CLEAR => (Group::Words(at), 8 * (offset & 0x7F), self.systems),
            8..=15 => (Group::ChannelMap, offset - 0x400, self.systems),
            16 | 17 => (Group::HostMap, offset - 0x800, self.channels),
            42 => (Group::HostEnable, 8 * (offset & 0x7F), self.hosts),
            _ => return None,
        };
        let exists = offset.is_multiple_of(4) && nth < count;
        exists.then_some((group, nth as usize))
    }
}

/// Which words of systems are meant.
#[derive(Clone, Copy)]
enum Which {
    Status,
    Enable,
}

/// The registers from 0x200 on.
#[derive(Clone, Copy)]
enum Group {
    Words(u32),
    ChannelMap,
    HostMap,
    HostEnable,
}

/// The groups of words, by their offset in pieces of 0x80.
const RAW_SET: u32 = 4;
const ENABLED_CLEAR: u32 = 5;
const ENABLE_SET: u32 = 6;
const ENABLE_CLEAR: u32 = 7;

impl<K: Kept> Device for Cic<K> {
    const KIND: Kind = Kind::Cic;

    #[inline(always)]
    fn read(&mut self, offset: u32, _: u32) -> Answer {
        if offset < 0x80 {
            return self.read_low(offset);
        }
        let Some((group, first)) = self.group(offset) else {
            return Err(nothing_at(offset));
        };
        Ok(match group {
            Group::Words(RAW_SET) => self.status[first / 32 % 32],
            Group::Words(ENABLED_CLEAR) => self.active(first / 32),
            Group::Words(_) => self.enable[first / 32 % 32],
            Group::ChannelMap => read_map(&self.channel_of_system, first),
            Group::HostMap => read_map(&self.host_of_channel, first),
            Group::HostEnable => self.host_enable[first / 32 % 8],
        })
    }

    #[inline(always)]
    fn write(&mut self, offset: u32, value: u32, _: u32) -> Done {
        if offset < 0x80 {
            return self.write_low(offset, value);
        }
        let Some((group, first)) = self.group(offset) else {
            return Err(nothing_at(offset));
        };
        match group {
            Group::Words(group) => self.write_word(group, first / 32 % 32, value),
            Group::ChannelMap => self.write_channel_map(first, value)?,
            Group::HostMap => self.write_host_map(first, value)?,
            Group::HostEnable => {
                let word = first / 32 % 8;
                self.host_enable[word] = value & existing(self.hosts, word);
                self.allow();
            }
        }
        Ok(())
    }

    /// A rise sets the status whether enabled or not; a fall or a repeated level does nothing.
    #[inline(always)]
    fn move_line(&mut self, line: u32, level: u32) -> Done {
        if line >= self.systems || level > 1 {
            return Err(Refusal::OutOfRange);
        }
        let word = line as usize / 32 % 32;
        let before = self.lines[word];
        self.lines[word] = before & !(1 << (line % 32)) | level << (line % 32);
        if self.lines[word] > before {
            self.put(Which::Status, line, true);
        }
        Ok(())
    }

    #[inline(always)]
    fn show(&self, line: &mut Line, at: usize) -> usize {
        let (asserted, lowest) = self.kept.shown();
        show_hosts(line, at, asserted, lowest)
    }

    fn digest(&self) -> u64 {
        let numbers = [
            self.systems,
            self.channels,
            self.hosts,
            self.revision,
            u32::from(self.global_enable),
        ];
        let words = numbers.into_iter().chain(self.lines).chain(self.status);
        let words = words.chain(self.enable).chain(self.host_enable);
        let maps = self.channel_of_system.chunks_exact(4);
        let maps = maps.chain(self.host_of_channel.chunks_exact(4));
        let maps = maps.map(|entries| read_map(entries, 0));
        mixed(words.chain(maps).map(u64::from))
    }
}

/// Does something with each set bit, the lowest first.
#[inline(always)]
pub fn each_bit(mut bits: u32, mut act: impl FnMut(usize)) {
    while bits != 0 {
        act(bits.trailing_zeros() as usize);
        bits &= bits - 1;
    }
}

/// A 1 for each bit of a word that is below the count.
#[inline(always)]
pub fn existing(count: u32, word: usize) -> u32 {
    match count - 32 * word as u32 {
        32.. => u32::MAX,
        some => (1 << some) - 1,
    }
}

/// Four entries of a map; those that do not exist are never written, and read 0.
#[inline(always)]
fn read_map(map: &[u8], first: usize) -> u32 {
    let entries = map[first..].first_chunk();
    entries.map_or(0, |&entries| u32::from_le_bytes(entries))
}

/// The entries that a write of a map brings, all below the limit. Those that do not exist are 0, as they stay, so that
/// four can be written in any case.
#[inline(always)]
fn entries(value: u32, exist: u32, limit: u32) -> Result<[u8; 4], Refusal> {
    let existing = match exist {
        4.. => u32::MAX,
        some => (1 << (8 * some)) - 1,
    };
    let entries = (value & existing).to_le_bytes();
    match entries.iter().any(|&entry| u32::from(entry) >= limit) {
        true => Err(Refusal::OutOfRange),
        false => Ok(entries),
    }
}
