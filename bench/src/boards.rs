//! Transcripts of boards: one call a line with what it was answered, replayed on the model and compared.

pub mod coverage;
pub mod generate;
pub mod text;

use crate::model::board::{Board, Outputs, Wire};
use crate::model::Refusal;

use self::coverage::Coverage;
use self::text::{lines, Line, Told};

/// The number by which a record that breaks a rule is refused (01, numbers).
const BREAKS_A_RULE: u32 = 12;

/// The calls, each with its word and its numbers in the order of its line.
macro_rules! calls {
    ($($word:literal $sort:ident { $($number:ident: $of:ty),* })*) => {
        /// A call on a board.
        #[derive(Clone, Copy, Debug, PartialEq, Eq)]
        pub enum Call {
            $($sort { $($number: $of),* }),*
        }

        listed! {
            /// The sorts of calls.
            #[derive(Clone, Copy, Debug, PartialEq, Eq, PartialOrd, Ord, Hash)]
            pub enum Sort { $($sort),* }
        }

        impl Sort {
            /// The first word of its lines.
            pub fn word(self) -> &'static str {
                match self {
                    $(Sort::$sort => $word),*
                }
            }
        }

        impl Call {
            pub fn sort(&self) -> Sort {
                match self {
                    $(Call::$sort { .. } => Sort::$sort),*
                }
            }

            /// The call of a sort that has these numbers.
            fn made(sort: Sort, words: &mut &[&str]) -> Option<Call> {
                Some(match sort {
                    $(Sort::$sort => Call::$sort { $($number: <$of>::taken(words)?),* }),*
                })
            }

            /// Its numbers as they stand in its line.
            fn told(&self) -> Vec<String> {
                match self {
                    $(Call::$sort { $($number),* } => vec![$($number.told()),*]),*
                }
            }
        }
    };
}

calls! {
    "add" Add { fiqs: u32, irqs: u32, fiq_level: u32, irq_level: u32 }
    "connect" Connect { controller: u32, input: u32, wire: Wire }
    "pin" Pin { pin: u32, level: u32 }
    "write" Write { controller: u32, offset: u32, value: u32 }
    "read" Read { controller: u32, offset: u32 }
    "outputs" Outputs { controller: u32 }
    "input" Input { controller: u32, input: u32 }
    "chain" Chain { controller: u32 }
}

impl Sort {
    /// How many numbers follow the refusal in an answer.
    pub fn values(self) -> usize {
        match self {
            Sort::Connect | Sort::Pin | Sort::Write => 0,
            Sort::Add | Sort::Read | Sort::Input | Sort::Chain => 1,
            Sort::Outputs => 4,
        }
    }
}

impl Call {
    /// The controller that the call is about, if it names one.
    pub fn controller(&self) -> Option<u32> {
        match *self {
            Call::Add { .. } | Call::Pin { .. } => None,
            Call::Connect { controller, .. }
            | Call::Write { controller, .. }
            | Call::Read { controller, .. }
            | Call::Outputs { controller }
            | Call::Input { controller, .. }
            | Call::Chain { controller } => Some(controller),
        }
    }
}

/// What a call is answered: the number of its refusal, 0 where it was carried out, and the values after it.
#[derive(Clone, Debug, PartialEq, Eq)]
pub struct Reply {
    pub refusal: u32,
    pub values: Vec<u32>,
}

impl Reply {
    /// The values of a call that was carried out.
    pub fn done(values: &[u32]) -> Reply {
        Reply {
            refusal: 0,
            values: values.to_vec(),
        }
    }

    /// A refusal: all values are 0.
    pub fn refused(number: u32, sort: Sort) -> Reply {
        Reply {
            refusal: number,
            values: vec![0; sort.values()],
        }
    }
}

/// Makes a call on the model's board.
pub fn ask(board: &mut Board, call: &Call) -> Reply {
    let one = |value: u32| vec![value];
    let none = |_: u32| Vec::new();
    let answer: Result<Vec<u32>, Refusal> = match *call {
        Call::Add {
            fiqs,
            irqs,
            fiq_level,
            irq_level,
        } => board.add(fiqs, irqs, fiq_level, irq_level).map(one),
        Call::Connect {
            controller,
            input,
            wire,
        } => board.connect(controller, input, wire).map(none),
        Call::Pin { pin, level } => board.put_pin(pin, level).map(none),
        Call::Write {
            controller,
            offset,
            value,
        } => board.write(controller, offset, value).map(none),
        Call::Read { controller, offset } => board.read(controller, offset).map(one),
        Call::Outputs { controller } => board.outputs(controller).map(four),
        Call::Input { controller, input } => {
            board.input(controller, input).map(|high| one(high.into()))
        }
        Call::Chain { controller } => board.chain(controller).map(one),
    };
    match answer {
        Ok(values) => Reply::done(&values),
        Err(refusal) => Reply::refused(refusal.number(), call.sort()),
    }
}

/// The outputs as they stand in a line.
fn four(outputs: Outputs) -> Vec<u32> {
    [
        outputs.irq_active,
        outputs.fiq_active,
        outputs.irq_level,
        outputs.fiq_level,
    ]
    .map(u32::from)
    .to_vec()
}

/// Why a transcript is not taken, and at which line, counted from 1.
#[derive(Clone, Debug, PartialEq, Eq)]
pub struct Fault {
    pub line: usize,
    pub why: String,
}

/// Replays a transcript. Answers what it reached, or the first line that cannot be read or was answered otherwise.
pub fn replay(transcript: &str) -> Result<Coverage, Fault> {
    let mut coverage = Coverage::default();
    let mut board: Option<Board> = None;
    let mut last = 0;
    for (number, line) in (1..).zip(lines(transcript)) {
        let fault = |why: String| Fault { line: number, why };
        last = number;
        match line.map_err(fault)? {
            Line::Board(_) => {
                board = Some(Board::new());
                coverage.board();
            }
            Line::Unsound(title, numbers) => {
                if numbers.iter().any(|&number| number != BREAKS_A_RULE) {
                    let why = format!("a record that breaks a rule ({title}) has {numbers:?}");
                    return Err(fault(why));
                }
                coverage.unsound(title);
            }
            Line::Call(call, reply) => {
                let board = board.as_mut();
                let board = board.ok_or_else(|| fault("no board was begun".to_owned()))?;
                let before = board.clone();
                let right = ask(board, &call);
                if right != reply {
                    return Err(fault(text::difference(&call, &reply, &right)));
                }
                coverage.call(&before, board, &call, &reply);
            }
        }
    }
    match last {
        0 => Err(Fault {
            line: 0,
            why: "the transcript is empty".to_owned(),
        }),
        _ => Ok(coverage),
    }
}
