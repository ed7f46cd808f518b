//! Wrong ways to build the AIC's protect mode (02, 9/12), each put beside the model: the sweeps alone tell it apart,
//! and so do some thousand random traces. The one that refuses bit 0 of DCR, as it was before, differs exactly where a
//! trace writes it.

use bench::generate::aic::{CLEAR, DCR, EOICR, IVR, SET};
use bench::generate::Generator;
use bench::listed;
use bench::model::aic::{Aic, Selection};
use bench::model::{Answer, Controller, Machine, Recorded, Refusal, Step};
use bench::trace::{play, Observer};

const LOOK: Step = Step::Read { offset: IVR };

const fn write(offset: u32, value: u32) -> Step {
    Step::Write { offset, value }
}

/// A controller that goes wrong in one way, made of the right one: what is slipped is said before or after its step.
struct Wrong {
    aic: Aic,
    /// Whether the source of the last look was edge-triggered then, and the level of the last entry.
    edge_then: bool,
    last_then: Option<u8>,
}

impl Wrong {
    fn right(&mut self, step: Step) -> Answer {
        self.aic.step(step)
    }

    fn seen(&self) -> Option<Selection> {
        self.aic.remembered()
    }

    /// A read of IVR in the mode.
    fn looks(&self, step: Step) -> bool {
        self.aic.protected() && step == LOOK
    }

    /// A write of IVR in the mode.
    fn writes(&self, step: Step) -> bool {
        self.aic.protected() && matches!(step, Step::Write { offset: IVR, .. })
    }

    /// The source that a write of IVR is about to start.
    fn starts(&self, step: Step) -> Option<u8> {
        match self.seen() {
            Some(Selection::Source { number, .. }) if self.writes(step) => Some(number),
            _ => None,
        }
    }

    /// Whether a write of IVR finds that nobody was.
    fn marks(&self, step: Step) -> bool {
        self.writes(step) && self.seen() == Some(Selection::Nobody)
    }

    /// The step, after which the same is remembered as before.
    fn remembering(&mut self, step: Step) -> Answer {
        let seen = self.seen();
        let answer = self.right(step);
        self.aic.remember_instead(seen);
        answer
    }

    /// The step, before which all is forgotten.
    fn forgetting(&mut self, step: Step) -> Answer {
        self.aic.remember_instead(None);
        self.right(step)
    }
}

listed! {
    /// One way to go wrong.
    #[derive(Clone, Copy, Debug, PartialEq, Eq)]
    enum Slip {
        WriteStartsTheBestOfNow, LevelIsThatOfNow, LookClearsTheMemory, LookOpens, SecondReadDoesNotReplace,
        SecondReadAnswersWhatIsRemembered, LeavingKeeps, StayingForgets, TurningTheMaskForgets, NoneIsNotForgotten,
        NoneIsNotForgottenWithEightOpen, SourceIsNotForgotten, NoneOpensNothing, NoneStartsWhatCameSince,
        WriteOutsideTheModeStarts, WriteWithNothingStarts, WriteWithNothingOpensAMark, ClearedByTheTypeAtTheRead,
        WriteKeepsTheMemory, WriteKeepsTheMemoryOfAForced, WhatHasGoneIsNotStarted, ClearForgets, EoicrForgets,
        ModeDropsTheMask, Bit0OfDcrIsDropped, MarkHasTheLevelOfTheRead, Bit0OfDcrIsRefusedBy5
    }
}

use Slip::*;

/// What a step writes to DCR.
fn debugged(step: Step) -> Option<u32> {
    match step {
        Step::Write { offset: DCR, value } => Some(value),
        _ => None,
    }
}

impl Wrong {
    /// A step as it is carried out with a slip.
    fn slipping(&mut self, slip: Slip, step: Step) -> Answer {
        match slip {
            _ if self.keeps(slip, step) => self.remembering(step),
            _ if self.loses(slip, step) => self.forgetting(step),
            _ if self.looks_again(slip, step) => {
                self.right(LOOK)?;
                self.right(step)
            }
            ClearedByTheTypeAtTheRead | WriteKeepsTheMemory | WriteKeepsTheMemoryOfAForced => {
                self.keeping_the_edge(slip, step)
            }
            _ => self.otherwise(slip, step),
        }
    }

    /// Whether the same is remembered after the step as before.
    fn keeps(&self, slip: Slip, step: Step) -> bool {
        match slip {
            SecondReadDoesNotReplace => self.looks(step) && self.seen().is_some(),
            LeavingKeeps => debugged(step).is_some_and(|value| value & 1 == 0),
            NoneIsNotForgotten => self.marks(step),
            NoneIsNotForgottenWithEightOpen => self.marks(step) && self.aic.is_full(),
            SourceIsNotForgotten => self.starts(step).is_some(),
            _ => false,
        }
    }

    /// Whether all is forgotten before the step.
    fn loses(&self, slip: Slip, step: Step) -> bool {
        let started = self.starts(step).map(usize::from);
        let masked = self.aic.masked();
        match (slip, step) {
            (StayingForgets, _) => debugged(step).is_some_and(|value| value & 1 == 1),
            (TurningTheMaskForgets, _) => {
                debugged(step).is_some_and(|value| (value & 2 == 2) != masked)
            }
            (NoneOpensNothing, _) => self.marks(step),
            (WhatHasGoneIsNotStarted, _) => started.is_some_and(|n| !self.aic.candidate(n)),
            (EoicrForgets, Step::Write { offset, .. }) => offset == EOICR,
            (ClearForgets, Step::Write { offset, value }) if offset == CLEAR => match self.seen() {
                Some(Selection::Source { number, .. }) => value >> number & 1 == 1,
                _ => false,
            },
            _ => false,
        }
    }

    /// Whether IVR is looked at once more before the step.
    fn looks_again(&self, slip: Slip, step: Step) -> bool {
        match slip {
            WriteStartsTheBestOfNow => self.writes(step) && self.seen().is_some(),
            NoneStartsWhatCameSince => self.marks(step),
            WriteWithNothingStarts => self.writes(step) && self.seen().is_none(),
            _ => false,
        }
    }

    /// The write of IVR, which spends the edge of a source that it starts unless a slip keeps that.
    fn keeping_the_edge(&mut self, slip: Slip, step: Step) -> Answer {
        if self.looks(step) {
            let best = self.aic.best();
            self.edge_then = best.is_some_and(|n| self.aic.sources()[n].edge_triggered());
        }
        let kept = self.starts(step).map(usize::from).filter(|&number| {
            let keeps = match slip {
                ClearedByTheTypeAtTheRead => !self.edge_then,
                WriteKeepsTheMemoryOfAForced => self.aic.fast(number),
                _ => true,
            };
            self.aic.sources()[number].memory && keeps
        });
        let answer = self.right(step);
        if let Some(number) = kept {
            self.right(write(SET, 1 << number)).expect("a set command");
        }
        answer
    }

    /// What each of the rest does.
    fn otherwise(&mut self, slip: Slip, step: Step) -> Answer {
        let writes_ivr = matches!(step, Step::Write { offset: IVR, .. });
        match (slip, debugged(step), self.seen()) {
            (LevelIsThatOfNow, _, Some(Selection::Source { number, vector, .. }))
                if self.writes(step) =>
            {
                let level = self.aic.sources()[usize::from(number)].priority;
                self.starting(number, vector, level, step)
            }
            (LookClearsTheMemory, ..) if self.looks(step) => self.clearing(step),
            (LookOpens, ..) if self.looks(step) => self.opening(step),
            (SecondReadAnswersWhatIsRemembered, _, Some(Selection::Source { vector, .. }))
                if self.looks(step) =>
            {
                Ok(vector)
            }
            (WriteOutsideTheModeStarts, ..) if writes_ivr && !self.aic.protected() => {
                self.right(LOOK).map(|_| 0)
            }
            (WriteWithNothingOpensAMark, _, None) if self.writes(step) => {
                self.aic.remember_instead(Some(Selection::Nobody));
                self.right(step)
            }
            (ModeDropsTheMask, Some(value), _) if value & 1 == 1 => self.right(write(DCR, 1)),
            (Bit0OfDcrIsDropped, Some(value), _) => self.right(write(DCR, value & !1)),
            // What was there before 02, 9/12: a write of IVR does nothing.
            (Bit0OfDcrIsRefusedBy5, Some(value), _) if value & 1 == 1 => Err(Refusal::ProtectMode),
            (Bit0OfDcrIsRefusedBy5, ..) if writes_ivr => Ok(0),
            (MarkHasTheLevelOfTheRead, ..) => self.marking(step),
            _ => self.right(step),
        }
    }

    /// The step, before which another level is remembered.
    fn starting(&mut self, number: u8, vector: u32, level: u8, step: Step) -> Answer {
        self.aic.remember_instead(Some(Selection::Source {
            number,
            vector,
            level,
        }));
        self.right(step)
    }

    /// A look, after which the memory of what it found is cleared.
    fn clearing(&mut self, step: Step) -> Answer {
        let answer = self.right(step);
        if let Some(Selection::Source { number, .. }) = self.seen() {
            self.right(write(CLEAR, 1 << number))?;
        }
        answer
    }

    /// A look as outside the mode.
    fn opening(&mut self, step: Step) -> Answer {
        let mask = u32::from(self.aic.masked()) << 1;
        self.right(write(DCR, mask))?;
        let answer = self.right(step);
        self.right(write(DCR, mask | 1))?;
        answer
    }

    /// A mark at the level of the read: an entry of source 0 reads as a mark does, and can be put at any level.
    fn marking(&mut self, step: Step) -> Answer {
        let zero = self.aic.sources()[0].memory;
        if self.looks(step) {
            self.last_then = self.aic.last_level();
        }
        match self.last_then {
            Some(level) if self.marks(step) && !self.aic.is_full() => {
                let answer = self.starting(0, 0, level, step);
                self.right(write(SET, u32::from(zero)))?;
                answer
            }
            _ => self.right(step),
        }
    }
}

/// Plays wrong controllers beside the right one; each until its first step that answers or shows otherwise.
struct Beside {
    slips: Vec<Slip>,
    wrong: Vec<Option<Wrong>>,
    /// For each the traces on which it differs.
    found: Vec<usize>,
    differs: Vec<bool>,
    /// Whether the trace writes bit 0 of DCR.
    enters: bool,
    traces: usize,
}

impl Beside {
    fn new(slips: &[Slip]) -> Beside {
        Beside {
            slips: slips.to_vec(),
            wrong: Vec::new(),
            found: vec![0; slips.len()],
            differs: Vec::new(),
            enters: false,
            traces: 0,
        }
    }

    /// Plays the cases of some numbers; after each trace of an AIC something is done.
    fn play(&mut self, numbers: std::ops::Range<usize>, seed: u64, mut after: impl FnMut(&Beside)) {
        let generator = Generator::new(seed);
        for number in numbers {
            let case = generator.case(number);
            self.wrong.clear();
            play(&case.trace, case.limit, self);
            if !self.wrong.is_empty() {
                after(self);
            }
        }
    }
}

impl Observer for Beside {
    fn started(&mut self, machine: &Machine) {
        let Machine::Aic(aic) = machine else {
            return;
        };
        let wrong = || Wrong {
            aic: Aic::clone(aic),
            edge_then: false,
            last_then: None,
        };
        self.wrong = self.slips.iter().map(|_| Some(wrong())).collect();
        self.differs = vec![false; self.slips.len()];
        self.enters = false;
        self.traces += 1;
    }

    fn after(&mut self, machine: &Machine, _: u32, recorded: Recorded, answer: Answer) {
        let Machine::Aic(aic) = machine else {
            return;
        };
        let enters = matches!(recorded.step, Step::Write { offset: DCR, value } if value & 1 == 1);
        self.enters |= enters;
        let shown = aic.shown();
        for (at, place) in self.wrong.iter_mut().enumerate() {
            let Some(wrong) = place else {
                continue;
            };
            let told = wrong.slipping(self.slips[at], recorded.step);
            if (told, wrong.aic.shown()) != (answer, shown) {
                *place = None;
                self.found[at] += 1;
                self.differs[at] = true;
            }
        }
    }
}

fn all_found(beside: &Beside) {
    for (slip, &found) in beside.slips.iter().zip(&beside.found) {
        println!("{found:5} of {} traces: {slip:?}", beside.traces);
        assert!(found > 0, "{slip:?} was not found");
    }
}

fn sweeps() -> usize {
    Generator::new(1).sweeps()
}

#[test]
fn the_sweeps_find_each() {
    let mut beside = Beside::new(&Slip::ALL);
    beside.play(0..sweeps(), 1, |_| ());
    all_found(&beside);
}

#[test]
fn random_traces_find_each() {
    let mut beside = Beside::new(&Slip::ALL);
    beside.play(sweeps()..sweeps() + 4_000, 1, |_| ());
    all_found(&beside);
}

/// A trace that never writes bit 0 of DCR answers and shows as before, step by step; one that does differs from there
/// on.
#[test]
fn without_the_mode_everything_is_as_before() {
    let (mut same, mut other) = (0, 0);
    let mut beside = Beside::new(&[Bit0OfDcrIsRefusedBy5]);
    beside.play(0..sweeps() + 6_000, 7, |beside| {
        assert_eq!(beside.differs[0], beside.enters);
        match beside.enters {
            true => other += 1,
            false => same += 1,
        }
    });
    println!("{same} as before, {other} with a write of bit 0");
    assert!(same > 1_000 && other > 300, "{same}, {other}");
}
