//! What all tours share: they write steps down and play along on the model, to know what has become of the controller.

use super::steps::{decimal, parsed};
use super::Script;
use crate::model::{Controller, Step};
use crate::random::Random;

/// A tour as it goes on: what is written, how many steps it has, and the controller as it is then.
pub struct Played<'a, M> {
    pub random: &'a mut Random,
    pub script: Script,
    pub steps: u32,
    pub model: M,
}

/// How often each thing comes, as in `24 line, 12 mode`.
pub fn weights(acts: &str) -> Vec<(u32, &str)> {
    let split = acts
        .split(',')
        .map(|act| act.trim().split_once(' ').expect("a weight and an act"));
    split.map(|(weight, act)| (decimal(weight), act)).collect()
}

impl<'a, M: Controller> Played<'a, M> {
    pub fn new(random: &'a mut Random, script: Script, model: M) -> Played<'a, M> {
        Played {
            random,
            script,
            steps: 0,
            model,
        }
    }

    /// Writes a step down and plays it. Refused or not, the model is where the trace is.
    pub fn put(&mut self, step: Step) {
        self.script.put(step);
        let _ = self.model.step(step);
        self.steps += 1;
    }

    /// The same of the steps of a text.
    pub fn steps(&mut self, text: &str) {
        for step in parsed(self.script.kind, text) {
            self.put(step);
        }
    }

    pub fn read(&mut self, offset: u32) {
        self.put(Step::Read { offset });
    }

    pub fn write(&mut self, offset: u32, value: u32) {
        self.put(Step::Write { offset, value });
    }

    pub fn line(&mut self, line: u32, level: u32) {
        self.put(Step::Line { line, level });
    }

    /// Writes a word of any sort.
    pub fn write_word(&mut self, offset: u32) {
        let value = self.random.word();
        self.write(offset, value);
    }

    /// Reads or writes whatever is at an offset.
    pub fn access(&mut self, offset: u32) {
        if self.random.one_in(2) {
            self.read(offset);
        } else {
            self.write_word(offset);
        }
    }

    /// A read or a write of an offset that is likely to be refused.
    pub fn odd_access(&mut self, end_of_map: u32) {
        let offset = odd_offset(self.random, end_of_map);
        self.access(offset);
    }

    /// A line step that is refused: the number is beyond the inputs, or the level over 1, or both.
    pub fn bad_line(&mut self, lines: u32) {
        let random = &mut *self.random;
        let beyond = match random.below(3) {
            0 => lines,
            1 => lines + random.below(2_000),
            _ => random.word().max(lines),
        };
        let level = random.word().max(2);
        let (line, level) = match random.below(3) {
            0 => (beyond, random.below(2)),
            1 => (random.below(lines), level),
            _ => (beyond, level),
        };
        self.line(line, level);
    }
}

/// An offset that is likely to be refused: a misaligned one, one just beside the map, or any at all.
pub fn odd_offset(random: &mut Random, end_of_map: u32) -> u32 {
    match random.below(6) {
        0 | 1 => random.below(end_of_map),
        2 => random.below(end_of_map + 64) / 4 * 4,
        3 => end_of_map + 4 * random.below(4),
        4 => 0xFFFF_F000 | (4 * random.below(end_of_map / 4)),
        _ => random.word(),
    }
}
