//! A board of up to eight CoreInterrupts whose inputs are wired to pins or to lower controllers (02, 8/12).
//!
//! Nothing here calls itself. A wire leads to a lower number only, so whatever is asked of a board is worked out for
//! controller 0 first and then upwards, each time from what is known of those below.

use super::core::{CoreInterrupt, Side, FIQ_INPUTS, IRQ_INPUTS};
use super::{Answer, Controller, Refusal, Step};

/// How many controllers a board has room for.
pub const CONTROLLERS: usize = 8;
/// How many pins a board has.
pub const PINS: usize = 320;
/// How many inputs each controller has, used or not: the IRQ inputs first.
pub const INPUTS: usize = IRQ_INPUTS + FIQ_INPUTS;

/// What an input is wired to.
#[derive(Clone, Copy, Debug, PartialEq, Eq)]
pub enum Wire {
    Nothing,
    Pin(u32),
    /// The activity of an output of a controller, whatever the level of that output then is.
    Output(Side, u32),
}

/// The two outputs of a controller.
#[derive(Clone, Copy, Debug, PartialEq, Eq)]
pub struct Outputs {
    pub irq_active: bool,
    pub fiq_active: bool,
    pub irq_level: bool,
    pub fiq_level: bool,
}

/// A controller on its board. Its own lines stay low here: what they are is told by the wires.
#[derive(Clone, Debug, PartialEq, Eq)]
struct Place {
    core: CoreInterrupt,
    wires: [Wire; INPUTS],
}

/// The whole board.
#[derive(Clone, Debug, PartialEq, Eq)]
pub struct Board {
    places: Vec<Place>,
    pins: [bool; PINS],
}

impl Board {
    /// A board with no controller, its pins low.
    pub fn new() -> Board {
        Board {
            places: Vec::new(),
            pins: [false; PINS],
        }
    }

    /// How many controllers there are.
    pub fn controllers(&self) -> usize {
        self.places.len()
    }

    /// The controller of a number that is there, with its lines low.
    pub fn stored(&self, controller: usize) -> &CoreInterrupt {
        &self.places[controller].core
    }

    /// The wires of a controller that is there.
    pub fn wires(&self, controller: usize) -> &[Wire; INPUTS] {
        &self.places[controller].wires
    }

    /// Puts one more controller on the board and answers its number; all its inputs are wired to nothing.
    pub fn add(&mut self, fiqs: u32, irqs: u32, fiq_level: u32, irq_level: u32) -> Answer {
        if self.controllers() == CONTROLLERS {
            return Err(Refusal::OutOfRange);
        }
        let most = [FIQ_INPUTS as u32, IRQ_INPUTS as u32, 1, 1];
        let numbers = [fiqs, irqs, fiq_level, irq_level];
        if numbers
            .iter()
            .zip(most)
            .any(|(&number, most)| number > most)
        {
            return Err(Refusal::BadConfiguration);
        }
        self.places.push(Place {
            core: CoreInterrupt::new(fiqs, irqs, fiq_level == 1, irq_level == 1),
            wires: [Wire::Nothing; INPUTS],
        });
        Ok(self.controllers() as u32 - 1)
    }

    /// Wires an input anew. Every number is held against its limit before the direction of the wire is looked at.
    pub fn connect(&mut self, controller: u32, input: u32, wire: Wire) -> Answer {
        let place = self.there(controller)?;
        let input = below(input, INPUTS)?;
        match wire {
            Wire::Nothing => {}
            Wire::Pin(pin) => {
                below(pin, PINS)?;
            }
            Wire::Output(_, other) if self.there(other)? >= place => return Err(Refusal::NotLower),
            Wire::Output(..) => {}
        }
        self.places[place].wires[input] = wire;
        Ok(0)
    }

    /// Puts a pin at a level.
    pub fn put_pin(&mut self, pin: u32, level: u32) -> Answer {
        let pin = below(pin, PINS)?;
        self.pins[pin] = below(level, 2)? == 1;
        Ok(0)
    }

    /// Reads a register of a controller, with the values of its wires on its lines.
    pub fn read(&self, controller: u32, offset: u32) -> Answer {
        let place = self.there(controller)?;
        self.settled()[place].step(Step::Read { offset })
    }

    /// Writes a register of a controller.
    pub fn write(&mut self, controller: u32, offset: u32, value: u32) -> Answer {
        let place = self.there(controller)?;
        self.places[place].core.step(Step::Write { offset, value })
    }

    /// The outputs of a controller.
    pub fn outputs(&self, controller: u32) -> Result<Outputs, Refusal> {
        let place = self.there(controller)?;
        let CoreInterrupt { fiq, irq } = &self.settled()[place];
        Ok(Outputs {
            irq_active: irq.active(),
            fiq_active: fiq.active(),
            irq_level: irq.output_level(),
            fiq_level: fiq.output_level(),
        })
    }

    /// The value of an input, used or not.
    pub fn input(&self, controller: u32, input: u32) -> Result<bool, Refusal> {
        let place = self.there(controller)?;
        let input = below(input, INPUTS)?;
        Ok(self.value(self.places[place].wires[input], &self.settled()))
    }

    /// How many controllers the longest chain below one has, itself not counted.
    pub fn chain(&self, controller: u32) -> Answer {
        let place = self.there(controller)?;
        Ok(self.chains()[place])
    }

    /// Every controller with the values of its wires on its lines, from the lowest number upwards.
    pub fn settled(&self) -> Vec<CoreInterrupt> {
        let mut settled = Vec::with_capacity(self.controllers());
        for place in &self.places {
            let mut core = place.core.clone();
            for (input, &wire) in place.wires.iter().enumerate() {
                core.set_line(input, self.value(wire, &settled));
            }
            settled.push(core);
        }
        settled
    }

    /// The longest chain below every controller, from the lowest number upwards.
    fn chains(&self) -> Vec<u32> {
        let mut chains: Vec<u32> = Vec::with_capacity(self.controllers());
        for place in &self.places {
            let longer = |wire: &Wire| match *wire {
                Wire::Output(_, other) => chains[other as usize] + 1,
                Wire::Nothing | Wire::Pin(_) => 0,
            };
            chains.push(place.wires.iter().map(longer).max().unwrap_or(0));
        }
        chains
    }

    /// What a wire carries, given the controllers that it can lead to.
    pub fn value(&self, wire: Wire, settled: &[CoreInterrupt]) -> bool {
        match wire {
            Wire::Nothing => false,
            Wire::Pin(pin) => self.pins[pin as usize],
            Wire::Output(side, other) => settled[other as usize].group(side).active(),
        }
    }

    /// A controller number that this board has, or refusal 6.
    fn there(&self, controller: u32) -> Result<usize, Refusal> {
        below(controller, self.controllers())
    }
}

/// A number below its limit, or refusal 6.
fn below(number: u32, limit: usize) -> Result<usize, Refusal> {
    let number = number as usize;
    match number < limit {
        true => Ok(number),
        false => Err(Refusal::OutOfRange),
    }
}
