//! The listing of a trace: a name, a line for each step, and a line for an early end (01, house trace).

use std::io::Write;

use crate::model::{Answer, Machine, Recorded};
use crate::trace::{play, Observer, Report};

/// The listing of a trace that is played up to a number of steps.
pub fn listing(trace: &[u8], limit: u32) -> Vec<u8> {
    let mut text = Text::default();
    play(trace, limit, &mut text);
    text.bytes
}

/// The text of a listing as far as it has come.
#[derive(Default)]
pub struct Text {
    pub bytes: Vec<u8>,
}

impl Observer for Text {
    fn started(&mut self, machine: &Machine) {
        self.line(format_args!("{}", machine.kind().name()));
    }

    fn after(&mut self, machine: &Machine, number: u32, recorded: Recorded, answer: Answer) {
        let (letter, value) = match answer {
            Ok(value) => (recorded.step.letter(), value),
            Err(refusal) => ('X', refusal.number()),
        };
        let [first, second, third] = machine.shown();
        self.line(format_args!(
            "{number} {letter} {value:08X} {first} {second} {third}"
        ));
    }

    fn ended(&mut self, report: &Report) {
        if let Err(fault) = report.ending {
            let (number, offset) = (fault.refusal.number(), fault.offset);
            self.line(format_args!("E {number} {offset}"));
        }
    }
}

impl Text {
    fn line(&mut self, line: std::fmt::Arguments) {
        writeln!(self.bytes, "{line}").expect("a vector takes all bytes");
    }
}

#[cfg(test)]
mod tests {
    use super::*;
    use crate::trace::{LONGEST, PROGRAM_LIMIT};

    fn text(trace: &[u8], limit: u32) -> String {
        String::from_utf8(listing(trace, limit)).expect("a listing is plain text")
    }

    #[test]
    fn too_long_a_trace_prints_one_line() {
        assert_eq!(text(&[0; LONGEST + 1], PROGRAM_LIMIT), "E 11 65536\n");
        assert_eq!(text(&[0; LONGEST + 2], PROGRAM_LIMIT), "E 11 65536\n");
    }

    /// Reads of the first register, two bytes each, behind a configuration of three bytes.
    fn reads(steps: usize) -> Vec<u8> {
        let mut trace = vec![0, 0, 0];
        trace.extend([1, 0].repeat(steps));
        trace
    }

    #[test]
    fn the_programs_limit() {
        let last = "\n20000 R 00000000 0 0 0\n";
        assert!(text(&reads(20_000), PROGRAM_LIMIT).ends_with(last));
        let over = text(&reads(20_001), PROGRAM_LIMIT);
        assert!(over.ends_with(&format!("{last}E 7 40003\n")));
        let mut damaged = reads(20_000);
        damaged.push(0xFF);
        assert!(text(&damaged, PROGRAM_LIMIT).ends_with("E 7 40003\n"));
    }
}
