//! The CIC with prioritised indices (02, 6/12; 001, 1.3.5, 2.2.2, 2.2.10 and 2.2.17): what an index names comes from
//! kept words, by three looks for the lowest bit, however many systems and channels there are. A step says which word
//! of systems it wrote; the systems that turned in it are sorted by the next read of an index.

use super::cic::{each_bit, existing, Cic, Kept};
use super::reader::{Fault, Reader};
use super::text::Line;
use super::{mixed, Device, Done};
use crate::model::{Answer, Kind};

/// What an index reads that names no system.
const NONE: u32 = 0x8000_0000;
/// What stands for the word of the index across all hosts while it is not held; no index reads it.
const FREE: u32 = u32::MAX;
/// Where the control register has the hold mode.
const HOLD: u32 = 4;

/// The active systems by channel, as they were when they were sorted last.
pub struct Waiting {
    /// The words of systems that were written since, and what all of them were.
    written: u32,
    sorted: [u32; 32],
    /// Of each channel the words of its active systems.
    systems: Box<[[u32; 32]; 256]>,
    /// Which of those words have any.
    words: [u32; 256],
    /// The channels that have any.
    channels: [u64; 4],
    /// Of each host the channels that are led to it.
    led: Box<[[u64; 4]; 256]>,
}

impl Waiting {
    /// Every channel leads to host 0.
    fn new() -> Waiting {
        let mut led = zeros([0; 4]);
        led[0] = [u64::MAX; 4];
        Waiting {
            written: 0,
            sorted: [0; 32],
            systems: zeros([0; 32]),
            words: [0; 256],
            channels: [0; 4],
            led,
        }
    }

    /// The bit of a system turns; what says that a word or a channel has any is made anew from what it is about.
    #[inline(always)]
    fn flip(&mut self, system: usize, channel: u8) {
        let (word, nth) = (system / 32 % 32, usize::from(channel));
        let systems = &mut self.systems[nth][word];
        *systems ^= 1 << (system % 32);
        let any = u32::from(*systems != 0);
        let words = &mut self.words[nth];
        *words = *words & !(1 << word) | any << word;
        let any = u64::from(*words != 0);
        let channels = &mut self.channels[nth / 64];
        *channels = *channels & !(1 << (nth % 64)) | any << (nth % 64);
    }

    /// A system that is sorted goes from one channel to another.
    #[inline(always)]
    fn remap(&mut self, system: usize, before: u8, after: u8) {
        if self.sorted[system / 32 % 32] >> (system % 32) & 1 == 1 {
            self.flip(system, before);
            self.flip(system, after);
        }
    }

    #[inline(always)]
    fn lead(&mut self, channel: usize, before: u8, after: u8) {
        let (word, bit) = (channel / 64 % 4, 1 << (channel % 64));
        self.led[usize::from(before)][word] &= !bit;
        self.led[usize::from(after)][word] |= bit;
    }

    /// The word of an index over some channels: the lowest of them with an active system, and of it the lowest system.
    #[inline(always)]
    fn first(&self, over: &[u64; 4]) -> u32 {
        for (nth, &over) in over.iter().enumerate() {
            let some = self.channels[nth] & over;
            if some != 0 {
                let channel = 64 * nth + some.trailing_zeros() as usize;
                // Both words have a bit; the masks tell the compiler that they are small.
                let word = self.words[channel].trailing_zeros() & 31;
                let bit = self.systems[channel][word as usize].trailing_zeros() & 31;
                return 32 * word + bit;
            }
        }
        NONE
    }
}

/// All zeros, of any length, without a copy.
fn zeros<T: Clone, const N: usize>(zero: T) -> Box<[T; N]> {
    let whole = vec![zero; N].into_boxed_slice();
    whole.try_into().ok().expect("it has that length")
}

/// What the outputs need, and what waits; the first shows.
impl<K: Kept> Kept for (K, Waiting) {
    const TURNS: bool = K::TURNS;

    fn new() -> Self {
        (K::new(), Waiting::new())
    }

    #[inline(always)]
    fn turn(&mut self, channel: u8, host: u8, active: bool) {
        self.0.turn(channel, host, active);
    }

    #[inline(always)]
    fn change(&mut self, word: usize) {
        self.1.written |= 1 << (word % 32);
    }

    #[inline(always)]
    fn remap(&mut self, system: usize, before: u8, after: u8) {
        self.1.remap(system, before, after);
    }

    #[inline(always)]
    fn lead(&mut self, channel: usize, before: u8, after: u8) {
        self.0.lead(channel, before, after);
        self.1.lead(channel, before, after);
    }

    fn allow(&mut self, host_enable: &[u32; 8], all: bool) {
        self.0.allow(host_enable, all);
    }

    #[inline(always)]
    fn shown(&self) -> (usize, usize) {
        self.0.shown()
    }
}

impl<K: Kept> Cic<(K, Waiting)> {
    /// The active systems by channel, as they are now.
    #[inline(always)]
    fn waiting(&mut self) -> &Waiting {
        let waiting = &mut self.kept.1;
        each_bit(std::mem::take(&mut waiting.written), |word| {
            let turned =
                waiting.sorted[word % 32] ^ self.status[word % 32] & self.enable[word % 32];
            waiting.sorted[word % 32] ^= turned;
            each_bit(turned, |bit| {
                let system = 32 * word + bit;
                waiting.flip(system, self.channel_of_system[system % 1_024]);
            });
        });
        waiting
    }
}

/// The controller: a CIC, the choice, the mode and what is held.
pub struct Indexed<K: Kept> {
    cic: Cic<(K, Waiting)>,
    prioritised: bool,
    hold: bool,
    /// The word that the index across all hosts holds, or [`FREE`].
    global: u32,
    /// The hosts whose indices are held, a bit for each as in the host enable registers, and their words.
    held: [u32; 8],
    words: [u32; 256],
}

/// The registers that prioritisation brings.
#[derive(Clone, Copy)]
enum Own {
    Control,
    Global,
    Host(usize),
}

impl<K: Kept> Indexed<K> {
    /// With the choice on the hold mode is on at first.
    pub fn read_from(reader: &mut Reader) -> Result<Self, Fault> {
        let cic = Cic::read_from(reader)?;
        let prioritised = reader.limited(0, 1)? == 1;
        Ok(Indexed {
            cic,
            prioritised,
            hold: prioritised,
            global: FREE,
            held: [0; 8],
            words: [0; 256],
        })
    }

    /// The register at an offset, if it is none of the CIC's.
    #[inline(always)]
    fn own(&self, offset: u32) -> Option<Own> {
        let from = offset.wrapping_sub(0x900);
        match offset {
            _ if !self.prioritised => None,
            0x004 => Some(Own::Control),
            0x080 => Some(Own::Global),
            _ if from < 4 * self.cic.hosts && from.is_multiple_of(4) => {
                Some(Own::Host(from as usize / 4))
            }
            _ => None,
        }
    }

    /// What is held, or else what is first now; in the mode it is held from here on.
    #[inline(always)]
    fn read_global(&mut self) -> u32 {
        if self.global != FREE {
            return self.global;
        }
        let word = self.cic.waiting().first(&[u64::MAX; 4]);
        if self.hold {
            self.global = word;
        }
        word
    }

    #[inline(always)]
    fn read_host(&mut self, host: usize) -> u32 {
        let (nth, bit) = (host / 32 % 8, 1 << (host % 32));
        if self.held[nth] & bit != 0 {
            return self.words[host % 256];
        }
        let waiting = self.cic.waiting();
        let word = waiting.first(&waiting.led[host % 256]);
        if self.hold {
            self.held[nth] |= bit;
            self.words[host % 256] = word;
        }
        word
    }

    #[inline(always)]
    fn write_own(&mut self, own: Own, value: u32) {
        match own {
            Own::Control => {
                self.hold = value >> HOLD & 1 == 1;
                if !self.hold {
                    self.global = FREE;
                    self.held = [0; 8];
                }
            }
            // Whatever is written, it ends the hold.
            Own::Global => self.global = FREE,
            Own::Host(host) => self.held[host / 32 % 8] &= !(1 << (host % 32)),
        }
    }

    /// Some hosts of a word were set or cleared by software, which ends their holds and that across all hosts.
    fn free(&mut self, word: usize, hosts: u32) {
        if hosts != 0 {
            self.held[word % 8] &= !hosts;
            self.global = FREE;
        }
    }
}

impl<K: Kept> Device for Indexed<K> {
    const KIND: Kind = Kind::Indexed;

    #[inline(always)]
    fn read(&mut self, offset: u32, privilege: u32) -> Answer {
        match self.own(offset) {
            None => self.cic.read(offset, privilege),
            Some(Own::Control) => Ok(u32::from(self.hold) << HOLD),
            Some(Own::Global) => Ok(self.read_global()),
            Some(Own::Host(host)) => Ok(self.read_host(host)),
        }
    }

    /// What a write to a register of the CIC ends, it ends once it is carried out; of a host enable register only the
    /// bits count that are written as 1.
    #[inline(always)]
    fn write(&mut self, offset: u32, value: u32, privilege: u32) -> Done {
        if let Some(own) = self.own(offset) {
            self.write_own(own, value);
            return Ok(());
        }
        self.cic.write(offset, value, privilege)?;
        match offset {
            0x034 | 0x038 => self.free(value as usize / 32, 1 << (value % 32)),
            0x1500.. => {
                let word = (offset - 0x1500) as usize / 4;
                self.free(word, value & existing(self.cic.hosts, word));
            }
            _ => {}
        }
        Ok(())
    }

    #[inline(always)]
    fn move_line(&mut self, line: u32, level: u32) -> Done {
        self.cic.move_line(line, level)
    }

    #[inline(always)]
    fn show(&self, line: &mut Line, at: usize) -> usize {
        self.cic.show(line, at)
    }

    fn digest(&self) -> u64 {
        let flags = [self.prioritised, self.hold].map(u32::from);
        let words = flags.into_iter().chain([self.global]);
        let words = words.chain(self.held).chain(self.words);
        mixed(words.map(u64::from).chain([self.cic.digest()]))
    }
}
