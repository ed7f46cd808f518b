//! A second board, by recursion from the top down and bit by bit, which can also be made wrong in one way.

use std::collections::BTreeSet;

use bench::boards::{Call, Reply};
use bench::listed;
use bench::model::board::Wire;
use bench::model::core::Side;

listed! {
    /// A wrong model.
    #[derive(Clone, Copy, Debug, PartialEq, Eq)]
    pub enum Slip {
        LevelForActivity, FiqForIrq, IrqForFiq, RawForStatus, SoftOfOthersLeftOut, OneFloorOnly,
        PinsOfOthersAsBefore, UnusedCounts, UnusedIsLow, UnusedIsRefused, UnusedOutOfChain, ChainCountsItself,
        ChainCountsAllBelow, ChainCountsTheWired, ChainByTheLowest, ChainByTheHighest, ChainLeavesOutFiqInputs,
        ChainLeavesOutFiqWires, SameNumberAccepted, HigherNumberAccepted, UnusedMayLeadUp, FifteenBeforeSix,
        EightForTheControllersThere, RefusedWireUnwires, OldWireStays, InputsOfSidesSwapped, WiredToPinsAtFirst,
        TenBeforeSix, NinthAccepted, NumbersFromOne, CountsSwapped, LevelsSwapped, OutputsSwapped,
        PinsModulo256, LastPinRefused, PinBeyondIsNothing, LevelTwoIsHigh, RefusedPinFalls,
        OffsetBeforeController, WriteStoresInputs, WriteOfZerosClears, RefusedCallsHaveValues
    }
}

/// One side of a controller, bit by bit.
#[derive(Clone, Default)]
struct Half {
    count: usize,
    level: u32,
    soft: [bool; 32],
    enable: [bool; 32],
}

/// A controller: the FIQ side first. More than one wire of an input is there by a slip alone.
#[derive(Clone)]
struct Chip {
    halves: [Half; 2],
    wires: Vec<Vec<Wire>>,
}

#[derive(Clone)]
pub struct Second {
    slip: Option<Slip>,
    chips: Vec<Chip>,
    pins: [u32; 320],
    pins_before: [u32; 320],
}

/// A refusal number, or what is answered.
type Answered = Result<Vec<u32>, u32>;

impl Second {
    pub fn new(slip: Option<Slip>) -> Second {
        Second {
            slip,
            chips: Vec::new(),
            pins: [0; 320],
            pins_before: [0; 320],
        }
    }

    fn is(&self, slip: Slip) -> bool {
        self.slip == Some(slip)
    }

    pub fn ask(&mut self, call: &Call) -> Reply {
        let answered = match *call {
            Call::Add {
                fiqs,
                irqs,
                fiq_level,
                irq_level,
            } => self.add([fiqs, irqs, fiq_level, irq_level]),
            Call::Connect {
                controller,
                input,
                wire,
            } => self.connect(controller, input, wire),
            Call::Pin { pin, level } => self.pin(pin, level),
            Call::Write {
                controller,
                offset,
                value,
            } => self.access(controller, offset, Some(value)),
            Call::Read { controller, offset } => self.access(controller, offset, None),
            Call::Outputs { controller } => self.outputs(controller),
            Call::Input { controller, input } => self.input(controller, input),
            Call::Chain { controller } => self.chain(controller),
        };
        let value = u32::from(self.is(Slip::RefusedCallsHaveValues));
        answered.map_or_else(
            |refusal| Reply {
                refusal,
                values: vec![value; call.sort().values()],
            },
            |values| Reply::done(&values),
        )
    }

    fn add(&mut self, [fiqs, irqs, fiq_level, irq_level]: [u32; 4]) -> Answered {
        let full = self.chips.len() >= 8 && !self.is(Slip::NinthAccepted);
        let bad = fiqs > 8 || irqs > 32 || fiq_level > 1 || irq_level > 1;
        match (full, bad) {
            (true, true) if self.is(Slip::TenBeforeSix) => return Err(10),
            (true, _) => return Err(6),
            (false, true) => return Err(10),
            (false, false) => {}
        }
        let mut halves = [Half::default(), Half::default()];
        (halves[0].count, halves[1].count) = match self.is(Slip::CountsSwapped) {
            true => ((irqs as usize).min(8), fiqs as usize),
            false => (fiqs as usize, irqs as usize),
        };
        (halves[0].level, halves[1].level) = match self.is(Slip::LevelsSwapped) {
            true => (irq_level, fiq_level),
            false => (fiq_level, irq_level),
        };
        let first = |input| match self.is(Slip::WiredToPinsAtFirst) {
            true => vec![Wire::Pin(input)],
            false => Vec::new(),
        };
        let wires = (0..40).map(first).collect();
        self.chips.push(Chip { halves, wires });
        let from = u32::from(self.is(Slip::NumbersFromOne));
        Ok(vec![self.chips.len() as u32 - 1 + from])
    }

    /// The place of a controller that is there.
    fn there(&self, controller: u32) -> Result<usize, u32> {
        let place = controller as usize;
        (place < self.chips.len()).then_some(place).ok_or(6)
    }

    fn input_there(&self, place: usize, input: u32) -> Result<usize, u32> {
        let input = input as usize;
        let used = input < 40 && self.used(place, input);
        let there = input < 40 && (used || !self.is(Slip::UnusedIsRefused));
        there.then_some(input).ok_or(6)
    }

    fn connect(&mut self, controller: u32, input: u32, wire: Wire) -> Answered {
        let connected = self.connected(controller, input, wire);
        let place = self.there(controller);
        if let (Err(_), Ok(place), 0..40) = (&connected, place, input) {
            if self.is(Slip::RefusedWireUnwires) {
                self.chips[place].wires[input as usize].clear();
            }
        }
        connected
    }

    fn connected(&mut self, controller: u32, input: u32, wire: Wire) -> Answered {
        let up = self.leads_up(controller, input, wire);
        if up && self.is(Slip::FifteenBeforeSix) {
            return Err(15);
        }
        let place = self.there(controller)?;
        let input = self.input_there(place, input)?;
        let mut wire = wire;
        match wire {
            Wire::Nothing => {}
            Wire::Pin(pin) if pin < 319 => {}
            Wire::Pin(319) if !self.is(Slip::LastPinRefused) => {}
            Wire::Pin(_) if self.is(Slip::PinBeyondIsNothing) => wire = Wire::Nothing,
            Wire::Pin(_) => return Err(6),
            Wire::Output(_, other) if self.is(Slip::EightForTheControllersThere) && other < 8 => {}
            Wire::Output(_, other) => self.there(other).map(|_| ())?,
        }
        if up {
            return Err(15);
        }
        let wires = &mut self.chips[place].wires[input];
        if self.slip != Some(Slip::OldWireStays) {
            wires.clear();
        }
        wires.push(wire);
        Ok(Vec::new())
    }

    /// Whether a wire is refused for leading to the same or to a higher number.
    fn leads_up(&self, controller: u32, input: u32, wire: Wire) -> bool {
        let Wire::Output(_, other) = wire else {
            return false;
        };
        let unused = (controller as usize) < self.chips.len()
            && input < 40
            && !self.used(controller as usize, input as usize);
        match self.slip {
            Some(Slip::SameNumberAccepted) => other > controller,
            Some(Slip::HigherNumberAccepted) => other == controller,
            Some(Slip::UnusedMayLeadUp) => other >= controller && !unused,
            _ => other >= controller,
        }
    }

    fn pin(&mut self, pin: u32, level: u32) -> Answered {
        let high = level == 1 || (level == 2 && self.is(Slip::LevelTwoIsHigh));
        if pin < 320 && (level == 0 || high) {
            self.pins_before = self.pins;
            self.pins[pin as usize] = u32::from(high);
            return Ok(Vec::new());
        }
        if self.is(Slip::RefusedPinFalls) && pin < 320 {
            self.pins[pin as usize] = 0;
        }
        Err(6)
    }

    /// The side and the bit of an input, FIQ first.
    fn half_of(&self, input: usize) -> (usize, usize) {
        match (self.is(Slip::InputsOfSidesSwapped), input) {
            (false, 0..32) => (1, input),
            (false, _) => (0, input - 32),
            (true, 0..8) => (0, input),
            (true, _) => (1, input - 8),
        }
    }

    fn input_of(&self, half: usize, bit: usize) -> usize {
        match (self.is(Slip::InputsOfSidesSwapped), half) {
            (false, 1) | (true, 0) => bit,
            (false, _) => bit + 32,
            (true, _) => bit + 8,
        }
    }

    fn used(&self, place: usize, input: usize) -> bool {
        let (half, bit) = self.half_of(input);
        bit < self.chips[place].halves[half].count
    }

    /// What an input of a controller is, asked by another controller or not.
    fn value(&self, place: usize, input: usize, from_above: bool) -> bool {
        let mut wires = self.chips[place].wires[input].iter();
        wires.any(|&wire| self.carried(place, wire, from_above))
    }

    fn carried(&self, place: usize, wire: Wire, from_above: bool) -> bool {
        let pins = match from_above && self.is(Slip::PinsOfOthersAsBefore) {
            true => &self.pins_before,
            false => &self.pins,
        };
        match wire {
            Wire::Nothing => false,
            Wire::Pin(pin) if self.is(Slip::PinsModulo256) => pins[pin as usize % 256] == 1,
            Wire::Pin(pin) => pins[pin as usize] == 1,
            // Only a slip lets a wire lead up.
            Wire::Output(_, other) if other as usize >= place => false,
            Wire::Output(..) if from_above && self.is(Slip::OneFloorOnly) => false,
            Wire::Output(side, other) => {
                let half = match (side, self.slip) {
                    (Side::Fiq, Some(Slip::IrqForFiq)) => 1,
                    (Side::Irq, Some(Slip::FiqForIrq)) => 0,
                    (Side::Fiq, _) => 0,
                    (Side::Irq, _) => 1,
                };
                let active = self.active(other as usize, half, true);
                let level = self.chips[other as usize].halves[half].level;
                match self.is(Slip::LevelForActivity) {
                    true => active == (level == 1),
                    false => active,
                }
            }
        }
    }

    /// The bits that are raised by their inputs, asked with the wires that are shared asked once.
    fn active(&self, place: usize, half: usize, from_above: bool) -> bool {
        let chip = &self.chips[place];
        let own = &chip.halves[half];
        let enabled = |bit: &usize| own.enable[*bit] || self.is(Slip::RawForStatus);
        let bits: Vec<usize> = (0..self.count(place, half)).filter(enabled).collect();
        let soft = !(from_above && self.is(Slip::SoftOfOthersLeftOut));
        if soft && bits.iter().any(|&bit| own.soft[bit]) {
            return true;
        }
        let inputs = bits.iter().map(|&bit| self.input_of(half, bit));
        let mut apart: Vec<Wire> = Vec::new();
        for &wire in inputs.flat_map(|input| &chip.wires[input]) {
            if !apart.contains(&wire) {
                apart.push(wire);
            }
        }
        let mut apart = apart.into_iter();
        apart.any(|wire| self.carried(place, wire, from_above))
    }

    /// How many bits of a side count.
    fn count(&self, place: usize, half: usize) -> usize {
        let all = [8, 32][half];
        match self.is(Slip::UnusedCounts) {
            true => all,
            false => self.chips[place].halves[half].count,
        }
    }

    fn word(&self, place: usize, half: usize, bit: impl Fn(usize) -> bool) -> u32 {
        let bits = (0..self.count(place, half)).filter(|&number| bit(number));
        bits.map(|number| 1 << number).sum()
    }

    fn access(&mut self, controller: u32, offset: u32, value: Option<u32>) -> Answered {
        let place = self.there(controller);
        let misplaced = match offset {
            _ if !offset.is_multiple_of(4) => Some(1),
            0x30.. => Some(2),
            _ => None,
        };
        match (place, misplaced) {
            (Err(_), Some(number)) if self.is(Slip::OffsetBeforeController) => return Err(number),
            (Err(number), _) | (Ok(_), Some(number)) => return Err(number),
            (Ok(_), None) => {}
        }
        let (place, half) = (place?, usize::from(offset >= 0x18));
        match (offset % 0x18, value) {
            (register, None) => self.read(place, half, register).map(|value| vec![value]),
            (0x10 | 0x14, Some(_)) => Err(4),
            (register, Some(value)) => {
                self.write(place, half, register, value);
                Ok(Vec::new())
            }
        }
    }

    fn read(&self, place: usize, half: usize, register: u32) -> Result<u32, u32> {
        let own = &self.chips[place].halves[half];
        let raised =
            |bit: usize| own.soft[bit] || self.value(place, self.input_of(half, bit), false);
        match register {
            0x00 => Ok(self.word(place, half, |bit| own.soft[bit])),
            0x08 => Ok(self.word(place, half, |bit| own.enable[bit])),
            0x10 => Ok(self.word(place, half, raised)),
            0x14 => Ok(self.word(place, half, |bit| own.enable[bit] && raised(bit))),
            _ if own.count == 0 => Ok(0),
            _ => Err(3),
        }
    }

    fn write(&mut self, place: usize, half: usize, register: u32, value: u32) {
        let high: Vec<bool> = (0..self.chips[place].halves[half].count)
            .map(|bit| self.value(place, self.input_of(half, bit), false))
            .collect();
        let slips = [Slip::WriteStoresInputs, Slip::WriteOfZerosClears];
        let [stores, zeros] = slips.map(|slip| self.is(slip));
        let own = &mut self.chips[place].halves[half];
        for (bit, &high) in high.iter().enumerate() {
            let one = value >> bit & 1 == 1;
            own.soft[bit] |= stores && high;
            match register {
                0x00 if one || zeros => own.soft[bit] = one,
                0x04 if one => own.soft[bit] = false,
                0x08 if one || zeros => own.enable[bit] = one,
                0x0C if one => own.enable[bit] = false,
                _ => {}
            }
        }
    }

    fn outputs(&self, controller: u32) -> Answered {
        let place = self.there(controller)?;
        let [fiq, irq] = [0, 1].map(|half| self.active(place, half, false));
        let level = |half: usize, active: bool| {
            let level = self.chips[place].halves[half].level;
            level ^ u32::from(!active)
        };
        let shown = [u32::from(irq), u32::from(fiq), level(1, irq), level(0, fiq)];
        Ok(match self.is(Slip::OutputsSwapped) {
            true => vec![shown[1], shown[0], shown[3], shown[2]],
            false => shown.to_vec(),
        })
    }

    fn input(&self, controller: u32, input: u32) -> Answered {
        let place = self.there(controller)?;
        let input = self.input_there(place, input)?;
        let silent = self.is(Slip::UnusedIsLow) && !self.used(place, input);
        Ok(vec![u32::from(!silent && self.value(place, input, false))])
    }

    fn chain(&self, controller: u32) -> Answered {
        let place = self.there(controller)?;
        let length = match self.slip {
            Some(Slip::ChainCountsItself) => self.longest(place) + 1,
            Some(Slip::ChainCountsTheWired) => self.wired(place).len() as u32,
            Some(Slip::ChainCountsAllBelow) => {
                let mut below = BTreeSet::new();
                self.gather(place, &mut below);
                below.len() as u32
            }
            _ => self.longest(place),
        };
        Ok(vec![length])
    }

    /// The longest way down, by trying every one.
    fn longest(&self, place: usize) -> u32 {
        let wired = self.wired(place);
        let longer = |&other: &usize| 1 + self.longest(other);
        match self.slip {
            Some(Slip::ChainByTheLowest) => wired.first().map_or(0, longer),
            Some(Slip::ChainByTheHighest) => wired.last().map_or(0, longer),
            _ => wired.iter().map(longer).max().unwrap_or(0),
        }
    }

    fn gather(&self, place: usize, below: &mut BTreeSet<usize>) {
        for other in self.wired(place) {
            if below.insert(other) {
                self.gather(other, below);
            }
        }
    }

    /// The controllers that one is wired to.
    fn wired(&self, place: usize) -> BTreeSet<usize> {
        let counts = |input: usize| match self.slip {
            Some(Slip::UnusedOutOfChain) => self.used(place, input),
            Some(Slip::ChainLeavesOutFiqInputs) => input < 32,
            _ => true,
        };
        let inputs = (0..40).filter(|&input| counts(input));
        let wires = inputs.flat_map(|input| &self.chips[place].wires[input]);
        wires
            .filter_map(|&wire| match wire {
                Wire::Output(Side::Fiq, _) if self.is(Slip::ChainLeavesOutFiqWires) => None,
                Wire::Output(_, other) if (other as usize) < place => Some(other as usize),
                _ => None,
            })
            .collect()
    }
}
