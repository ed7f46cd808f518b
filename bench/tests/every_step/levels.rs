//! The AIC's sources kept by level (02, 5/12), on the model: eight words and a byte say IRQ and the source that starts,
//! and a step changes the words of few levels.

use bench::generate::aic::{DISABLE, ENABLE, FFER, HIGH_LEVEL, IVR};
use bench::generate::Generator;
use bench::model::aic::{Aic, Register, Selection};
use bench::model::{Controller, Machine, Step};
use bench::trace::play;

use super::{aic_of, each_step, sweeps, Turn};

/// A word for each level, and a bit for each that is not 0.
#[derive(Clone, Copy, Debug, PartialEq, Eq)]
struct Levels {
    words: [u32; 8],
    any: u8,
}

impl Levels {
    /// A source that is pending, enabled and not fast is in the level of its priority.
    fn of(aic: &Aic) -> Levels {
        let mut words = [0; 8];
        for (n, source) in aic.sources().iter().enumerate() {
            if source.pending() && source.enabled && !aic.fast(n) {
                words[usize::from(source.priority)] |= 1 << n;
            }
        }
        let any = (0..8).filter(|&level| words[level] != 0);
        Levels {
            words,
            any: any.fold(0, |any, level| any | 1 << level),
        }
    }

    /// The highest level of the byte, 255 for none.
    fn highest(&self) -> u8 {
        let found = (0..8).rev().find(|level| self.any >> level & 1 == 1);
        found.unwrap_or(255)
    }

    /// The lowest number of the highest level, if that is above the last entry and there is room for one more.
    fn first(&self, aic: &Aic) -> Option<usize> {
        let highest = self.highest();
        let least = aic.last_level().map_or(0, |level| level + 1);
        let may = aic.entries().len() < 8 && highest != 255 && least <= highest;
        may.then(|| self.words[usize::from(highest)].trailing_zeros() as usize)
    }
}

/// Looks at every step of an AIC.
#[derive(Default)]
struct Watch {
    moved: usize,
    started: usize,
}

impl Watch {
    /// The levels whose words a step may change; none is said for a command, which may change all.
    fn touched(turn: &Turn<Aic>) -> Option<Vec<u8>> {
        let (before, after) = (turn.before, turn.after);
        let now = |n: usize| after.sources()[n].priority;
        Some(match turn.step {
            _ if turn.answer.is_err() => vec![],
            Step::Line { line, .. } => vec![now(line as usize)],
            Step::Read { offset: IVR } if !before.protected() => {
                let edge = |&n: &usize| before.sources()[n].edge_triggered();
                before.best().filter(edge).map(now).into_iter().collect()
            }
            Step::Read { .. } => vec![],
            Step::Write { offset: IVR, .. } => match before.remembered() {
                Some(Selection::Source { number, .. }) => vec![now(usize::from(number))],
                _ => vec![],
            },
            Step::Write { offset, .. } => match Register::at(offset)? {
                Register::Mode(n) => {
                    let n = usize::from(n);
                    vec![before.sources()[n].priority, now(n)]
                }
                Register::Enable
                | Register::Disable
                | Register::Clear
                | Register::Set
                | Register::Ffer
                | Register::Ffdr => return None,
                _ => vec![],
            },
        })
    }

    fn look(&mut self, turn: Turn<Aic>) {
        let (before, after, step) = (turn.before, turn.after, turn.step);
        let (were, are) = (Levels::of(before), Levels::of(after));
        assert_eq!(are.first(after), after.best());
        assert_eq!(
            after.irq(),
            !after.masked() && are.first(after).is_some(),
            "{are:?}"
        );
        if let (Step::Read { offset: IVR }, Some(source)) = (step, were.first(before)) {
            assert_eq!(turn.answer, Ok(before.sources()[source].vector));
            let (number, level) = match after.remembered() {
                Some(Selection::Source { number, level, .. }) => (Some(number), Some(level)),
                _ => {
                    let opened = after.entries().last().expect("an entry was opened");
                    (opened.source, opened.level)
                }
            };
            assert_eq!(number.map(usize::from), Some(source));
            assert_eq!(level, Some(were.highest()));
            self.started += 1;
        }
        if let Some(touched) = Watch::touched(&turn) {
            for level in (0..8_u8).filter(|level| !touched.contains(level)) {
                let at = usize::from(level);
                assert_eq!(were.words[at], are.words[at], "level {level}, {step:?}");
            }
        }
        self.moved += usize::from(were != are);
    }
}

#[test]
fn levels_say_irq_and_the_start_after_every_step() {
    let mut watch = Watch::default();
    let numbers = 0..sweeps() + 2_000;
    each_step((5, numbers.clone(), 2_000), aic_of, |turn| watch.look(turn));
    assert!(watch.moved > 10_000, "{} steps moved", watch.moved);
    assert!(watch.started > 2_000, "{} starts", watch.started);
    let (words, any) = ([0; 8], 0);
    let generator = Generator::new(5);
    for case in numbers.map(|number| generator.case(number)) {
        if let Some(Machine::Aic(aic)) = play(&case.trace, 0, &mut ()).machine {
            assert_eq!(Levels::of(&aic), Levels { words, any });
        }
    }
}

/// Source 0 and forced sources are in no level, whatever their priority; nor is one that is disabled or idle.
#[test]
fn who_is_in_a_level() {
    let mut aic = Aic::new(0, 0);
    let mut put = |offset, value| assert_eq!(aic.step(Step::Write { offset, value }), Ok(0));
    put(ENABLE, u32::MAX);
    (0..32).for_each(|source| put(4 * source, HIGH_LEVEL | source % 8));
    put(FFER, 1 << 9 | 1);
    put(DISABLE, 1 << 17);
    for line in (0..32).filter(|&line| line != 25) {
        assert_eq!(aic.step(Step::Line { line, level: 1 }), Ok(0));
    }
    let levels = Levels::of(&aic);
    assert_eq!(levels.words[0], 1 << 8 | 1 << 16 | 1 << 24);
    assert_eq!(levels.words[1], 1 << 1);
    assert_eq!(levels.words[2], 1 << 2 | 1 << 10 | 1 << 18 | 1 << 26);
    assert_eq!((levels.any, levels.highest()), (0xFF, 7));
    let (offset, value) = (DISABLE, u32::MAX);
    assert_eq!(aic.step(Step::Write { offset, value }), Ok(0));
    let levels = Levels::of(&aic);
    assert_eq!((levels.any, levels.highest()), (0, 255));
}
