//! The other side as a program: a process for each case, which reads it on standard input and prints the text.

use std::io::{Read, Write};
use std::path::PathBuf;
use std::process::{Child, Command, ExitCode, Stdio};
use std::sync::mpsc;
use std::thread;
use std::time::Duration;

use crate::compare::Outcome;

/// A program that takes longer than this for one case has failed.
pub const PATIENCE: Duration = Duration::from_secs(10);

/// A program to be run, which may be an emulator that is told what to run by its arguments.
pub struct Program {
    path: PathBuf,
    arguments: Vec<String>,
}

impl Program {
    pub fn new(path: impl Into<PathBuf>, arguments: &[&str]) -> Program {
        Program {
            path: path.into(),
            arguments: arguments.iter().map(|&word| word.to_owned()).collect(),
        }
    }

    pub fn command(&self) -> Command {
        let mut command = Command::new(&self.path);
        command.args(&self.arguments);
        command
    }

    /// What the program prints for a trace. It has to end well, in time, and with nothing on standard error.
    pub fn ask(&self, input: &[u8]) -> Outcome {
        self.ask_with(input, b"")
    }

    /// What it prints for a trace or table of which it says just this on standard error.
    pub fn ask_with(&self, input: &[u8], complaint: &[u8]) -> Outcome {
        let (printed, complaints) = self.run(&[], input)?;
        match complaints == complaint {
            true => Ok(printed),
            false => Err(format!("on standard error: {}", complaints.escape_ascii())),
        }
    }

    /// What the program prints with some more arguments, and what it says on standard error. It has to end well and in
    /// time.
    pub fn run(&self, more: &[&str], input: &[u8]) -> Result<(Vec<u8>, Vec<u8>), String> {
        let mut child = self
            .command()
            .args(more)
            .stdin(Stdio::piped())
            .stdout(Stdio::piped())
            .stderr(Stdio::piped())
            .spawn()
            .map_err(|error| format!("{} does not start: {error}", self.path.display()))?;
        feed(&mut child, input.to_vec());
        let printed = in_background(child.stdout.take().expect("its output is piped"));
        let complaints = in_background(child.stderr.take().expect("its errors are piped"));
        let (Ok(printed), Ok(complaints)) = (
            printed.recv_timeout(PATIENCE),
            complaints.recv_timeout(PATIENCE),
        ) else {
            // It may have ended in the meantime, which is as good.
            let _ = child.kill();
            let _ = child.wait();
            return Err(format!("no end after {PATIENCE:?}"));
        };
        let status = child.wait().map_err(|error| error.to_string())?;
        match status.success() {
            true => Ok((printed, complaints)),
            false => {
                let complaints = complaints.escape_ascii();
                Err(format!("{status}, on standard error: {complaints}"))
            }
        }
    }
}

/// What this program was called with. It is kept for as long as the program runs.
pub fn words() -> Vec<&'static str> {
    let words = std::env::args().skip(1);
    words.map(|word| &*word.leak()).collect()
}

/// Says how a program is asked, and answers the exit status of one that was not asked so.
pub fn not_so(usage: &str) -> ExitCode {
    eprint!("{usage}");
    ExitCode::from(2)
}

/// All of standard input. What cannot be read ends where it cannot be read.
pub fn input() -> Vec<u8> {
    let mut input = Vec::new();
    let _ = std::io::stdin().read_to_end(&mut input);
    input
}

/// Writes the input from a thread of its own. A program may stop reading once it knows that it is too long.
fn feed(child: &mut Child, input: Vec<u8>) {
    let mut pipe = child.stdin.take().expect("its input is piped");
    thread::spawn(move || {
        let _ = pipe.write_all(&input);
    });
}

/// All that a stream has, as soon as it ends.
fn in_background(mut stream: impl Read + Send + 'static) -> mpsc::Receiver<Vec<u8>> {
    let (sender, receiver) = mpsc::channel();
    thread::spawn(move || {
        let mut bytes = Vec::new();
        if stream.read_to_end(&mut bytes).is_ok() {
            let _ = sender.send(bytes);
        }
    });
    receiver
}
