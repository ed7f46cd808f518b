//! The CIC without prioritisation: systems drive channels, channels drive hosts (01, CIC; 001, chapters 1 and 2).

use super::{Access, Controller, Refusal};

/// The registers, with the number of the register inside its group (001, table 2-1, less those that 01 leaves out).
#[derive(Clone, Copy, Debug, PartialEq, Eq, PartialOrd, Ord, Hash)]
pub enum Register {
    Revision,
    GlobalEnable,
    StatusSetIndex,
    StatusClearIndex,
    EnableSetIndex,
    EnableClearIndex,
    HostEnableSetIndex,
    HostEnableClearIndex,
    RawSet(usize),
    EnabledClear(usize),
    EnableSet(usize),
    EnableClear(usize),
    ChannelMap(usize),
    HostMap(usize),
    HostEnable(usize),
}

impl Register {
    /// The register at an aligned offset in a part of full size.
    pub fn at(offset: u32) -> Option<Register> {
        use Register::*;
        let from = |base: u32| ((offset - base) / 4) as usize;
        Some(match offset {
            0x000 => Revision,
            0x010 => GlobalEnable,
            0x020 => StatusSetIndex,
            0x024 => StatusClearIndex,
            0x028 => EnableSetIndex,
            0x02C => EnableClearIndex,
            0x034 => HostEnableSetIndex,
            0x038 => HostEnableClearIndex,
            0x200..=0x27C => RawSet(from(0x200)),
            0x280..=0x2FC => EnabledClear(from(0x280)),
            0x300..=0x37C => EnableSet(from(0x300)),
            0x380..=0x3FC => EnableClear(from(0x380)),
            0x400..=0x7FC => ChannelMap(from(0x400)),
            0x800..=0x8FC => HostMap(from(0x800)),
            0x1500..=0x151C => HostEnable(from(0x1500)),
            _ => return None,
        })
    }

    /// Who may do what. The index registers cannot be read here, unlike in 001 (01, CIC).
    pub fn access(self) -> Access {
        use Register::*;
        match self {
            Revision => Access::ReadOnly,
            StatusSetIndex | StatusClearIndex | EnableSetIndex | EnableClearIndex
            | HostEnableSetIndex | HostEnableClearIndex => Access::WriteOnly,
            _ => Access::ReadWrite,
        }
    }
}

/// A row of bits, 32 to a word, of which only the first `count` exist: the others read 0 and cannot be set.
#[derive(Clone, Debug, PartialEq, Eq, Hash)]
pub struct Bits<const WORDS: usize> {
    words: [u32; WORDS],
    count: usize,
}

impl<const WORDS: usize> Bits<WORDS> {
    fn new(count: usize) -> Self {
        Bits {
            words: [0; WORDS],
            count,
        }
    }

    pub fn get(&self, n: usize) -> bool {
        self.words[n / 32] >> (n % 32) & 1 == 1
    }

    pub fn word(&self, word: usize) -> u32 {
        self.words[word]
    }

    pub fn ones(&self) -> u32 {
        self.words.iter().map(|word| word.count_ones()).sum()
    }

    /// The number of the lowest bit that is set.
    pub fn lowest(&self) -> Option<usize> {
        let word = self.words.iter().position(|&word| word != 0)?;
        Some(32 * word + self.words[word].trailing_zeros() as usize)
    }

    fn put(&mut self, n: usize, value: bool) {
        if value {
            self.words[n / 32] |= 1 << (n % 32);
        } else {
            self.words[n / 32] &= !(1 << (n % 32));
        }
    }

    /// Replaces a word, save for bits that do not exist.
    fn put_word(&mut self, word: usize, value: u32) {
        let exist = match self.count - 32 * word {
            32.. => u32::MAX,
            some => (1 << some) - 1,
        };
        self.words[word] = value & exist;
    }

    fn set_ones(&mut self, word: usize, value: u32) {
        self.put_word(word, self.words[word] | value);
    }

    fn clear_ones(&mut self, word: usize, value: u32) {
        self.put_word(word, self.words[word] & !value);
    }
}

/// The whole controller. The lengths of the two maps are the numbers of systems and of channels.
#[derive(Clone, Debug, PartialEq, Eq, Hash)]
pub struct Cic {
    revision: u32,
    global_enable: bool,
    lines: Bits<32>,
    status: Bits<32>,
    enable: Bits<32>,
    channel_of_system: Vec<u8>,
    host_of_channel: Vec<u8>,
    host_enable: Bits<8>,
}

impl Cic {
    /// The controller after reset, for counts within their limits; all lines are low and all maps 0.
    pub fn new(systems: usize, channels: usize, hosts: usize, revision: u32) -> Cic {
        Cic {
            revision,
            global_enable: false,
            lines: Bits::new(systems),
            status: Bits::new(systems),
            enable: Bits::new(systems),
            channel_of_system: vec![0; systems],
            host_of_channel: vec![0; channels],
            host_enable: Bits::new(hosts),
        }
    }

    pub fn systems(&self) -> usize {
        self.channel_of_system.len()
    }

    pub fn channels(&self) -> usize {
        self.host_of_channel.len()
    }

    pub fn hosts(&self) -> usize {
        self.host_enable.count
    }

    pub fn global_enable(&self) -> bool {
        self.global_enable
    }

    pub fn lines(&self) -> &Bits<32> {
        &self.lines
    }

    pub fn status(&self) -> &Bits<32> {
        &self.status
    }

    pub fn enable(&self) -> &Bits<32> {
        &self.enable
    }

    pub fn host_enable(&self) -> &Bits<8> {
        &self.host_enable
    }

    /// The channel that a system is mapped to.
    pub fn channel_of(&self, system: usize) -> usize {
        usize::from(self.channel_of_system[system])
    }

    /// The host that a channel is mapped to.
    pub fn host_of(&self, channel: usize) -> usize {
        usize::from(self.host_of_channel[channel])
    }

    /// The systems that are set and enabled, the lowest first.
    pub fn active(&self) -> impl Iterator<Item = usize> + '_ {
        let words = 0..self.systems().div_ceil(32);
        words.flat_map(|word| {
            let requests = self.status.word(word) & self.enable.word(word);
            let bits = if requests == 0 { 0..0 } else { 0..32 };
            let set = bits.filter(move |bit| requests >> bit & 1 == 1);
            set.map(move |bit| 32 * word + bit)
        })
    }

    /// The hosts that some set and enabled system reaches through its channel. No host enable is asked.
    pub fn reached(&self) -> Bits<8> {
        let mut hosts = Bits::new(self.hosts());
        for word in 0..self.systems().div_ceil(32) {
            let mut requests = self.status.word(word) & self.enable.word(word);
            while requests != 0 {
                let system = 32 * word + requests.trailing_zeros() as usize;
                let channel = usize::from(self.channel_of_system[system]);
                hosts.put(usize::from(self.host_of_channel[channel]), true);
                requests &= requests - 1;
            }
        }
        hosts
    }

    /// The hosts that are asserted: reached, enabled themselves, and all of them enabled (01, CIC).
    pub fn asserted(&self) -> Bits<8> {
        if !self.global_enable {
            return Bits::new(self.hosts());
        }
        let mut hosts = self.reached();
        for (word, enabled) in hosts.words.iter_mut().zip(self.host_enable.words) {
            *word &= enabled;
        }
        hosts
    }

    /// A register exists if its first bit or byte is below the count it goes by: systems for status, enables and the
    /// channel map, channels for the host map, hosts for the host enables (01, CIC; 001, 2.2.15 and 2.2.16).
    fn exists(&self, register: Register) -> bool {
        use Register::*;
        match register {
            RawSet(k) | EnabledClear(k) | EnableSet(k) | EnableClear(k) => 32 * k < self.systems(),
            ChannelMap(k) => 4 * k < self.systems(),
            HostMap(k) => 4 * k < self.channels(),
            HostEnable(k) => 32 * k < self.hosts(),
            _ => true,
        }
    }
}

impl Controller for Cic {
    type Register = Register;

    fn register(&self, offset: u32) -> Option<(Register, Access)> {
        let register = Register::at(offset).filter(|&register| self.exists(register))?;
        Some((register, register.access()))
    }

    /// A line for each configured system interrupt, and no more.
    fn lines(&self) -> u32 {
        self.systems() as u32
    }

    fn read(&mut self, register: Register) -> u32 {
        use Register::*;
        match register {
            Revision => self.revision,
            GlobalEnable => u32::from(self.global_enable),
            RawSet(k) => self.status.word(k),
            EnabledClear(k) => self.status.word(k) & self.enable.word(k),
            EnableSet(k) | EnableClear(k) => self.enable.word(k),
            ChannelMap(k) => read_map(&self.channel_of_system, k),
            HostMap(k) => read_map(&self.host_of_channel, k),
            HostEnable(k) => self.host_enable.word(k),
            StatusSetIndex | StatusClearIndex | EnableSetIndex | EnableClearIndex
            | HostEnableSetIndex | HostEnableClearIndex => {
                unreachable!("{register:?} is write-only")
            }
        }
    }

    fn write(&mut self, register: Register, value: u32) -> Result<(), Refusal> {
        use Register::*;
        let (channels, hosts) = (self.channels(), self.hosts());
        match register {
            GlobalEnable => self.global_enable = value & 1 == 1,
            StatusSetIndex => put_index(&mut self.status, value, true)?,
            StatusClearIndex => put_index(&mut self.status, value, false)?,
            EnableSetIndex => put_index(&mut self.enable, value, true)?,
            EnableClearIndex => put_index(&mut self.enable, value, false)?,
            HostEnableSetIndex => put_index(&mut self.host_enable, value, true)?,
            HostEnableClearIndex => put_index(&mut self.host_enable, value, false)?,
            RawSet(k) => self.status.set_ones(k, value),
            // The status goes, enabled or not (001, 2.2.12).
            EnabledClear(k) => self.status.clear_ones(k, value),
            EnableSet(k) => self.enable.set_ones(k, value),
            EnableClear(k) => self.enable.clear_ones(k, value),
            ChannelMap(k) => write_map(&mut self.channel_of_system, k, value, channels)?,
            HostMap(k) => write_map(&mut self.host_of_channel, k, value, hosts)?,
            HostEnable(k) => self.host_enable.put_word(k, value),
            Revision => unreachable!("the revision is read-only"),
        }
        Ok(())
    }

    /// A rise sets the status whether enabled or not; a fall or a repeated level does nothing (01, CIC; 001, 1.3.2).
    fn set_line(&mut self, line: usize, level: bool) {
        if level && !self.lines.get(line) {
            self.status.put(line, true);
        }
        self.lines.put(line, level);
    }

    fn shown(&self) -> [u32; 3] {
        let asserted = self.asserted();
        let lowest = asserted.lowest().unwrap_or(256);
        [asserted.ones(), lowest as u32, 0]
    }
}

/// Sets or clears the one bit that the whole word names, which must exist (01, CIC).
fn put_index<const WORDS: usize>(
    bits: &mut Bits<WORDS>,
    index: u32,
    value: bool,
) -> Result<(), Refusal> {
    if index as usize >= bits.count {
        return Err(Refusal::OutOfRange);
    }
    bits.put(index as usize, value);
    Ok(())
}

/// Four entries of a map, the lowest in the lowest byte; entries that do not exist read 0.
fn read_map(map: &[u8], register: usize) -> u32 {
    let mut bytes = [0; 4];
    let entries = &map[4 * register..];
    let exist = entries.len().min(4);
    bytes[..exist].copy_from_slice(&entries[..exist]);
    u32::from_le_bytes(bytes)
}

/// Writes the entries that exist, all of them or, if one is at or beyond the limit, none (01, CIC).
fn write_map(map: &mut [u8], register: usize, value: u32, limit: usize) -> Result<(), Refusal> {
    let entries = &mut map[4 * register..];
    let exist = entries.len().min(4);
    let bytes = &value.to_le_bytes()[..exist];
    if bytes.iter().any(|&byte| usize::from(byte) >= limit) {
        return Err(Refusal::OutOfRange);
    }
    entries[..exist].copy_from_slice(bytes);
    Ok(())
}
