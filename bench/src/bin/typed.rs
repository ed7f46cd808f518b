//! Runs the program that encodes typed traces on generated texts, and compares what it prints and says with the model.

use std::process::ExitCode;

#[cfg(feature = "exports")]
use bench::compare::written;
use bench::compare::{on_all_processors, Outcome};
#[cfg(feature = "exports")]
use bench::explained::LONGEST_LINE;
use bench::explained::{explain, Asked};
use bench::numbered::Numbered;
use bench::program::{not_so, words, Program};
use bench::say;
use bench::trace::PROGRAM_LIMIT;
use bench::typed::{encode, generate};

const USAGE: &str = "\
typed [--explained] COUNT PATH [WORD..]

The program at PATH, with WORDs as its arguments, is given COUNT generated texts and as many damaged ones, each on
standard input. Ends with 0 if for each it prints the bytes that the model encodes, or says the line by which the model
refuses and prints nothing; else with 1, and with 2 if it was not asked properly.

With --explained the texts are explanations of generated traces. What the program prints is then explained, by the
linked library if it is built with the feature `exports`: that has to be the same text once more, less a last line E,
and of a damaged one what the model explains.
";

/// The texts that are handed over.
enum Texts {
    Typed,
    Explained(Numbered<Asked>),
}

impl Texts {
    fn text(&self, item: usize) -> Vec<u8> {
        match self {
            Texts::Typed => generate::text(1, item as u64),
            Texts::Explained(traces) => generate::explained(traces, item),
        }
    }

    /// Whether the program does with a text what the model does.
    fn compared(&self, program: &Program, item: usize) -> Result<bool, String> {
        let text = self.text(item);
        let expected = encode(&text);
        compared(program, &text, &expected)?;
        if let (Texts::Explained(_), Ok(trace)) = (self, &expected) {
            let again = match item % 2 {
                0 => statements(&text).to_vec(),
                _ => explain(trace, PROGRAM_LIMIT),
            };
            if explained_again(trace)? != again {
                return Err("explained again it is another text".to_owned());
            }
        }
        Ok(expected.is_err())
    }
}

/// An explanation without its last line, if that is an E.
fn statements(text: &[u8]) -> &[u8] {
    let lines = text.split_inclusive(|&byte| byte == b'\n');
    let last = lines.last().unwrap_or(b"");
    match last.starts_with(b"# E ") {
        true => &text[..text.len() - last.len()],
        false => text,
    }
}

#[cfg(feature = "exports")]
fn explained_again(trace: &[u8]) -> Outcome {
    let room = LONGEST_LINE * (trace.len() / 2 + 2);
    written(room, |buffer| {
        bench::exports::explain_into(trace, PROGRAM_LIMIT, None, buffer)
    })
}

#[cfg(not(feature = "exports"))]
fn explained_again(trace: &[u8]) -> Outcome {
    Ok(explain(trace, PROGRAM_LIMIT))
}

fn main() -> ExitCode {
    let (texts, count, program) = match words()[..] {
        ["--explained", count, path, ref more @ ..] => {
            let texts = Texts::Explained(Numbered::new(1));
            (texts, count, Program::new(path, more))
        }
        [count, path, ref more @ ..] => (Texts::Typed, count, Program::new(path, more)),
        _ => return not_so(USAGE),
    };
    let Ok(count) = count.parse::<usize>() else {
        return not_so(USAGE);
    };
    let compare = |item: usize, refused: &mut usize| {
        *refused += usize::from(texts.compared(&program, item)?);
        Ok(())
    };
    let (refused, wrong) = on_all_processors(2 * count, compare);
    for (item, why) in &wrong {
        let text = texts.text(*item);
        let shown = text[..text.len().min(600)].escape_ascii();
        say!("text {item}: {why}\n{shown}");
    }
    let (texts, refused, wrong) = (2 * count, refused.iter().sum::<usize>(), wrong.len());
    say!("{texts} texts, {refused} of them refused, {wrong} differ");
    ExitCode::from(u8::from(wrong > 0))
}

/// Whether the program does with a text what the model does.
fn compared(
    program: &Program,
    text: &[u8],
    expected: &Result<Vec<u8>, String>,
) -> Result<(), String> {
    let (printed, told) = program.run(&[], text)?;
    let expected = match expected {
        Ok(trace) => (trace.clone(), Vec::new()),
        Err(line) => (Vec::new(), line.clone().into_bytes()),
    };
    match (printed, told) == expected {
        true => Ok(()),
        false => Err("another trace or line than the model's".to_owned()),
    }
}
