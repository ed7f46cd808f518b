//! Which numbers of a call are beyond their limits.

use super::{Far, Limit};
use crate::boards::Call;
use crate::model::board::{Board, Wire, CONTROLLERS, INPUTS, PINS};

/// The limits that a call's numbers pass, with how far.
pub fn beyond(board: &Board, call: &Call) -> Vec<(Limit, Far)> {
    numbers(board, call)
        .into_iter()
        .filter(|&(_, number, limit)| number >= limit)
        .map(|(which, number, limit)| (which, far(which, number, limit)))
        .collect()
}

/// The numbers of a call that have a limit: which limit, the number, and the first one beyond.
pub fn numbers(board: &Board, call: &Call) -> Vec<(Limit, u32, u32)> {
    let there = board.controllers() as u32;
    let controller = call.controller();
    let mut numbers: Vec<_> = controller
        .map(|number| (Limit::Controller, number, there))
        .into_iter()
        .collect();
    match *call {
        Call::Add { .. } => numbers.push((Limit::Room, there, CONTROLLERS as u32)),
        Call::Connect { input, wire, .. } => {
            numbers.push((Limit::Input, input, INPUTS as u32));
            match wire {
                Wire::Nothing => {}
                Wire::Pin(pin) => numbers.push((Limit::Pin, pin, PINS as u32)),
                Wire::Output(_, other) => numbers.push((Limit::Other, other, there)),
            }
        }
        Call::Pin { pin, level } => {
            numbers.push((Limit::Pin, pin, PINS as u32));
            numbers.push((Limit::Level, level, 2));
        }
        Call::Input { input, .. } => numbers.push((Limit::Input, input, INPUTS as u32)),
        Call::Write { .. } | Call::Read { .. } | Call::Outputs { .. } | Call::Chain { .. } => {}
    }
    numbers
}

fn far(which: Limit, number: u32, limit: u32) -> Far {
    let controller = matches!(which, Limit::Controller | Limit::Other);
    if number == limit {
        Far::First
    } else if controller && (number as usize) < CONTROLLERS {
        Far::Absent
    } else {
        Far::Further
    }
}

/// The numbers of a new controller's configuration that are beyond their limits, by their places.
pub fn configured_beyond(call: &Call) -> Vec<usize> {
    let Call::Add {
        fiqs,
        irqs,
        fiq_level,
        irq_level,
    } = *call
    else {
        return Vec::new();
    };
    let passed = [fiqs > 8, irqs > 32, fiq_level > 1, irq_level > 1];
    (0..4).filter(|&nth| passed[nth]).collect()
}
