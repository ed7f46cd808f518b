//! The other side as one program that serves many cases, for machines that cannot link the library into this process.
//!
//! Requests and replies are those of `batch.c`: numbers of 32 bits, lowest byte first, and bytes.

use std::io::{self, Read, Write};
use std::process::{Child, ChildStdin, Command, Stdio};
use std::sync::mpsc::{self, Receiver};
use std::thread;

use crate::compare::Outcome;
use crate::explained::Asked as Explained;
use crate::generate::Case;
use crate::looked::Question;
use crate::model::aic::SOURCES;
use crate::program::{Program, PATIENCE};
use crate::report::{Counts, Ending, Figures};
use crate::stack::generate::Typed;

listed! {
    /// What is printed for the bytes of a request; the numbers count from 0.
    #[derive(Clone, Copy, Debug, PartialEq, Eq)]
    pub enum Asked {
        /// The listing of a trace.
        Listing,
        /// The line of a typed table.
        Stack,
        /// The status words that a read looks at after a trace.
        Looked,
        /// The figures of a trace, as numbers.
        Figures,
        /// The explanation of a trace.
        Explanation,
        /// That of some of its steps: two numbers before the trace are the first step, and how many.
        Part,
    }
}

/// What is asked for, the step limit (0 for a table), the room or, for words looked at, the offset that is read, and the
/// trace or table.
pub struct Request {
    pub asked: Asked,
    pub limit: u32,
    pub room: usize,
    pub input: Vec<u8>,
}

impl Request {
    fn new(asked: Asked, limit: u32, room: usize, input: &[u8]) -> Request {
        Request {
            asked,
            limit,
            room,
            input: input.to_vec(),
        }
    }

    pub fn listing(case: &Case) -> Request {
        Request::new(Asked::Listing, case.limit, case.ample_room(), &case.trace)
    }

    pub fn figures(case: &Case) -> Request {
        Request::new(Asked::Figures, case.limit, FIGURES, &case.trace)
    }

    pub fn explanation(explained: &Explained) -> Request {
        let (asked, window) = match explained.window {
            None => (Asked::Explanation, Vec::new()),
            Some((first, steps)) => (Asked::Part, [first, steps].map(u32::to_le_bytes).concat()),
        };
        let input = [&window, &explained.case.trace[..]].concat();
        Request::new(asked, explained.case.limit, explained.ample_room(), &input)
    }

    pub fn stack(typed: &Typed) -> Request {
        Request::new(Asked::Stack, 0, typed.ample_room(), &typed.text)
    }

    pub fn looked(question: &Question) -> Request {
        let offset = question.offset as usize;
        Request::new(Asked::Looked, question.limit, offset, &question.trace)
    }

    fn write(&self, to: &mut impl Write) -> io::Result<()> {
        let length = self.input.len() as u32;
        let head = [self.asked as u32, length, self.limit, self.room as u32];
        write_message(to, &head, &self.input)
    }

    /// The next request, or nothing at the end of the input.
    fn read(from: &mut impl Read) -> io::Result<Option<Request>> {
        let asked = match read_number(from) {
            Ok(asked) => Asked::ALL.get(asked as usize),
            Err(error) if error.kind() == io::ErrorKind::UnexpectedEof => return Ok(None),
            Err(error) => return Err(error),
        };
        let asked = *asked.ok_or(io::ErrorKind::InvalidData)?;
        let mut input = vec![0; read_number(from)? as usize];
        let limit = read_number(from)?;
        let room = read_number(from)? as usize;
        from.read_exact(&mut input)?;
        Ok(Some(Request {
            asked,
            limit,
            room,
            input,
        }))
    }
}

/// What comes back: how many bytes behind the text changed, and the text.
pub struct Reply {
    pub changed: u32,
    pub text: Vec<u8>,
}

impl Reply {
    fn write(&self, to: &mut impl Write) -> io::Result<()> {
        write_message(to, &[self.text.len() as u32, self.changed], &self.text)
    }

    fn read(from: &mut impl Read) -> io::Result<Reply> {
        let written = read_number(from)?;
        let changed = read_number(from)?;
        let mut text = vec![0; written as usize];
        from.read_exact(&mut text)?;
        Ok(Reply { changed, text })
    }
}

/// How many bytes the figures of a trace are.
const FIGURES: usize = 4 * (4 + 3 * SOURCES);

/// The figures of a trace as the bytes of a reply.
pub fn figures_to_bytes(figures: &Figures, (refusal, offset): Ending) -> Vec<u8> {
    let mut numbers = vec![figures.steps, figures.refused, refusal, offset as u32];
    numbers.extend(figures.sources.iter().map(|counts| counts.started));
    numbers.extend(figures.sources.iter().map(|counts| counts.waited));
    numbers.extend(figures.sources.iter().map(|counts| counts.entries));
    numbers.into_iter().flat_map(u32::to_le_bytes).collect()
}

/// The figures of a trace and its ending from the bytes of a reply, if there are as many as that takes.
pub fn figures_from_bytes(bytes: &[u8]) -> Option<(Figures, Ending)> {
    if bytes.len() != FIGURES {
        return None;
    }
    let mut rest = bytes;
    let mut next = || read_number(&mut rest).expect("there are as many as that takes");
    let [steps, refused, refusal, offset] = [(); 4].map(|()| next());
    let [started, waited, entries] = [(); 3].map(|()| [(); SOURCES].map(|()| next()));
    let sources = std::array::from_fn(|source| Counts {
        started: started[source],
        waited: waited[source],
        entries: entries[source],
    });
    let figures = Figures {
        steps,
        refused,
        sources,
    };
    Some((figures, (refusal, offset as usize)))
}

/// Answers requests until there are no more.
pub fn serve(
    from: &mut impl Read,
    to: &mut impl Write,
    reply: impl Fn(&Request) -> Reply,
) -> io::Result<()> {
    while let Some(request) = Request::read(from)? {
        reply(&request).write(to)?;
    }
    Ok(())
}

/// A program that is kept running; after a failure it is started anew for the next case.
pub struct Batch {
    program: Program,
    running: Option<Running>,
}

struct Running {
    child: Child,
    requests: ChildStdin,
    replies: Receiver<Reply>,
}

impl Batch {
    pub fn new(program: Program) -> Batch {
        Batch {
            program,
            running: None,
        }
    }

    pub fn ask(&mut self, request: Request) -> Outcome {
        let running = match self.running.take() {
            Some(running) => running,
            None => Running::start(self.program.command())
                .map_err(|error| format!("the program does not start: {error}"))?,
        };
        let (running, reply) = running.ask(request)?;
        self.running = Some(running);
        match reply.changed {
            0 => Ok(reply.text),
            changed => Err(format!("{changed} bytes behind the text changed")),
        }
    }
}

impl Running {
    fn start(mut command: Command) -> io::Result<Running> {
        let mut child = command
            .stdin(Stdio::piped())
            .stdout(Stdio::piped())
            .spawn()?;
        let requests = child.stdin.take().expect("its input is piped");
        let mut output = child.stdout.take().expect("its output is piped");
        let (sender, replies) = mpsc::channel();
        thread::spawn(move || {
            while let Ok(reply) = Reply::read(&mut output) {
                if sender.send(reply).is_err() {
                    break;
                }
            }
        });
        Ok(Running {
            child,
            requests,
            replies,
        })
    }

    /// The reply, if there is one in time; if not, the program is ended.
    fn ask(mut self, request: Request) -> Result<(Running, Reply), String> {
        let asked = request.write(&mut self.requests);
        match (asked, self.replies.recv_timeout(PATIENCE)) {
            (Ok(()), Ok(reply)) => Ok((self, reply)),
            (asked, _) => {
                // It may have ended by itself.
                let _ = self.child.kill();
                let status = self.child.wait().map_err(|error| error.to_string())?;
                Err(format!("no reply ({asked:?}), the program: {status}"))
            }
        }
    }
}

impl Drop for Batch {
    /// The end of its input ends the program.
    fn drop(&mut self) {
        if let Some(mut running) = self.running.take() {
            drop(running.requests);
            let _ = running.child.wait();
        }
    }
}

fn write_message(to: &mut impl Write, head: &[u32], bytes: &[u8]) -> io::Result<()> {
    for number in head {
        to.write_all(&number.to_le_bytes())?;
    }
    to.write_all(bytes)?;
    to.flush()
}

fn read_number(from: &mut impl Read) -> io::Result<u32> {
    let mut bytes = [0; 4];
    from.read_exact(&mut bytes)?;
    Ok(u32::from_le_bytes(bytes))
}
