//! The listing once more, with its digits made by hand: for the clock only, where standard formatting weighs most.

use crate::model::{Answer, Machine, Recorded};
use crate::trace::{Observer, Report};

/// The text of a listing as far as it has come.
#[derive(Default)]
pub struct Digits {
    pub bytes: Vec<u8>,
}

impl Observer for Digits {
    fn started(&mut self, machine: &Machine) {
        self.bytes
            .extend_from_slice(machine.kind().name().as_bytes());
        self.bytes.push(b'\n');
    }

    fn after(&mut self, machine: &Machine, number: u32, recorded: Recorded, answer: Answer) {
        let (letter, value) = match answer {
            Err(refusal) => (b'X', refusal.number()),
            Ok(value) => (recorded.step.letter() as u8, value),
        };
        self.decimal(number);
        self.bytes.extend_from_slice(&[b' ', letter, b' ']);
        self.hex(value);
        for shown in machine.shown() {
            self.bytes.push(b' ');
            self.decimal(shown);
        }
        self.bytes.push(b'\n');
    }

    fn ended(&mut self, report: &Report) {
        if let Err(fault) = report.ending {
            self.bytes.extend_from_slice(b"E ");
            self.decimal(fault.refusal.number());
            self.bytes.push(b' ');
            self.decimal(fault.offset as u32);
            self.bytes.push(b'\n');
        }
    }
}

impl Digits {
    fn decimal(&mut self, mut value: u32) {
        let mut digits = [b'0'; 10];
        let mut first = digits.len();
        loop {
            first -= 1;
            digits[first] += (value % 10) as u8;
            value /= 10;
            if value == 0 {
                break;
            }
        }
        self.bytes.extend_from_slice(&digits[first..]);
    }

    fn hex(&mut self, value: u32) {
        let digit = |place: usize| b"0123456789ABCDEF"[(value >> (28 - 4 * place)) as usize % 16];
        let digits: [u8; 8] = std::array::from_fn(digit);
        self.bytes.extend_from_slice(&digits);
    }
}

#[cfg(test)]
mod tests {
    use super::*;
    use crate::generate::Generator;
    use crate::listing::listing;
    use crate::trace::play;

    #[test]
    fn it_is_the_same_listing() {
        let generator = Generator::new(4);
        for number in 0..generator.sweeps() + 200 {
            let case = generator.case(number);
            let mut digits = Digits::default();
            play(&case.trace, case.limit, &mut digits);
            assert!(digits.bytes == listing(&case.trace, case.limit));
        }
    }
}
