//! Tours of an AIC in which sources wait: a few of them ask again and again, are started, kept waiting, taken away and
//! served with their lines still high. A tour plays along on the model, to know who asks and who is open.

use crate::generate::aic::{
    CLEAR, DCR, DISABLE, ENABLE, EOICR, FFDR, FFER, IPR, IVR, SET, VECTORS,
};
use crate::generate::played::{weights, Played};
use crate::generate::Script;
use crate::model::aic::{Aic, Trigger};
use crate::random::Random;

/// How often each act comes.
const ACTS: &str = "30 rouse, 8 calm, 24 take, 18 close, 6 again, 4 reorder, 2 retype, 3 burst, \
    2 read IVR, 2 write IVR, 2 debug, 2 look, 2 refused";

struct Tour<'a> {
    at: Played<'a, Aic>,
    sources: Vec<u32>,
}

/// A sound AIC trace of about so many steps.
pub fn tour(random: &mut Random, steps: u32) -> Script {
    let (external, levels) = match random.below(3) {
        0 => (random.word(), random.word()),
        _ => (0, 0),
    };
    let count = random.pick(&[1, 2, 3, 4, 6, 9]);
    let script = Script::new(0, &[external, levels]);
    let mut tour = Tour {
        sources: (0..count).map(|_| random.below(32)).collect(),
        at: Played::new(random, script, Aic::new(external, levels)),
    };
    tour.prepare();
    let acts = weights(ACTS);
    while tour.at.steps < steps {
        let act = tour.at.random.weighted(&acts);
        tour.act(act);
    }
    tour.at.script
}

impl Tour<'_> {
    /// Types and priorities: few of both or all; protect mode in one tour of three. In one of four what is pending at
    /// reset asks from the first step on.
    fn prepare(&mut self) {
        if self.at.random.one_in(4) {
            self.at.write(ENABLE, u32::MAX);
        }
        let levels = self.at.random.pick(&[1, 2, 3, 8]);
        let least = self.at.random.below(9 - levels);
        let kind = self.at.random.below(6);
        for place in 0..self.sources.len() {
            let source = self.sources[place];
            let kind = if kind < 4 {
                kind
            } else {
                self.at.random.below(4)
            };
            let priority = least + self.at.random.below(levels);
            self.at.write(4 * source, kind << 5 | priority);
            if self.at.random.one_in(4) {
                self.at.write(VECTORS + 4 * source, 0x100 + source);
            }
        }
        if !self.at.random.one_in(5) {
            let all = self
                .sources
                .iter()
                .fold(0, |word, source| word | 1 << source);
            let word = self.at.random.pick(&[all, u32::MAX]);
            self.at.write(ENABLE, word);
        }
        if self.at.random.one_in(3) {
            self.at.write(DCR, 1);
        }
    }

    fn act(&mut self, act: &str) {
        let source = match act {
            "rouse" | "calm" | "reorder" | "retype" => self.source(),
            _ => 0,
        };
        match act {
            "rouse" => self.rouse(source),
            "calm" => self.calm(source),
            "take" => self.take(),
            "close" => self.at.write(EOICR, 0),
            "again" => self.again(),
            "reorder" => {
                let priority = self.at.random.below(8);
                let kind = u32::from(self.at.model.sources()[source as usize].kind);
                self.at.write(4 * source, kind << 5 | priority);
            }
            "retype" => {
                let mode = self.at.random.below(128);
                self.at.write(4 * source, mode);
            }
            "burst" => self.burst(),
            "read IVR" => self.at.read(IVR),
            "write IVR" => self.at.write(IVR, 0),
            "debug" => {
                let value = self.at.random.below(4);
                self.at.write(DCR, value);
            }
            "look" => self.at.read(IPR),
            "refused" => match self.at.random.below(3) {
                0 => self.at.read(EOICR),
                1 => self.at.write(IPR, 0),
                _ => {
                    let line = 32 + self.at.random.below(4);
                    self.at.line(line, 1);
                }
            },
            _ => unreachable!("{act} is no act"),
        }
    }

    fn source(&mut self) -> u32 {
        match self.at.random.below(24) {
            0 => self.at.random.below(32),
            _ => self.at.random.pick(&self.sources),
        }
    }

    /// Gives a source what it lacks, one thing or all.
    fn rouse(&mut self, source: u32) {
        let all = !self.at.random.one_in(4);
        let state = self.at.model.sources()[source as usize];
        if !state.enabled {
            self.at.write(ENABLE, 1 << source);
            if !all {
                return;
            }
        }
        if state.forced {
            self.at.write(FFDR, 1 << source);
            if !all {
                return;
            }
        }
        if state.pending() {
            return;
        }
        match state.trigger() {
            Trigger::HighLevel => self.at.line(source, 1),
            Trigger::LowLevel => self.at.line(source, 0),
            _ if self.at.random.one_in(3) => self.at.write(SET, 1 << source),
            trigger => {
                let level = trigger == Trigger::RisingEdge;
                if state.line == level {
                    self.at.line(source, (!level).into());
                }
                self.at.line(source, level.into());
            }
        }
    }

    /// Takes from a source what makes it ask, by its line or a command.
    fn calm(&mut self, source: u32) {
        let state = self.at.model.sources()[source as usize];
        match self.at.random.below(5) {
            0 => self.at.write(DISABLE, 1 << source),
            1 => self.at.write(FFER, 1 << source),
            _ => match state.trigger() {
                Trigger::HighLevel => self.at.line(source, 0),
                Trigger::LowLevel => self.at.line(source, 1),
                _ => self.at.write(CLEAR, 1 << source),
            },
        }
    }

    /// The read, and in protect mode mostly the write, at times with something between.
    fn take(&mut self) {
        self.at.read(IVR);
        if !self.at.model.protected() {
            return;
        }
        let source = self.source();
        match self.at.random.below(8) {
            0 => self.calm(source),
            1 => self.rouse(source),
            2 => return,
            _ => (),
        }
        self.at.write(IVR, 0);
    }

    /// A source whose handler is open stops asking, and asks once more.
    fn again(&mut self) {
        let open = self.at.model.entries().iter().rev();
        let open = open.filter_map(|entry| entry.source).next();
        let source = match open {
            Some(source) => u32::from(source),
            None => self.source(),
        };
        self.calm(source);
        if !self.at.random.one_in(4) {
            self.rouse(source);
        }
    }

    /// A source of the highest priority is started and closed some times, and whoever waits has to wait.
    fn burst(&mut self) {
        let source = self.source().max(1);
        let edge = self.at.random.one_in(2);
        let kind = if edge { 3 } else { 2 };
        self.at.write(4 * source, kind << 5 | 7);
        let times = self.at.random.within(1, 12);
        for _ in 0..times {
            self.rouse(source);
            self.take();
            self.at.write(EOICR, 0);
        }
        if self.at.random.one_in(2) {
            self.calm(source);
        }
    }
}
