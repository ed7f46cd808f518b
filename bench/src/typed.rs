//! A trace typed as text, a statement to a line: its bytes, or the line that says what was expected (docs/TEXT.md).

pub mod generate;

use crate::trace::{encode as put, LONGEST};

/// The longest text.
pub const LONGEST_TEXT: usize = 5_242_880;

/// The controllers, each with the numbers that configure it, in the order of their kinds.
pub const CONTROLLERS: [(&str, usize); 5] = [
    ("aic", 2),
    ("coreinterrupt", 4),
    ("cic", 4),
    ("aintc", 0),
    ("indexed", 5),
];

/// The one whose steps tell a privilege.
pub const AINTC: usize = 3;

/// The steps from 1 on, each with its numbers, and with those where privilege is told.
pub const STEPS: [(&str, usize, usize); 3] = [("read", 1, 2), ("write", 2, 3), ("line", 2, 2)];

/// The bytes of a text, or the line that refuses it.
pub fn encode(text: &[u8]) -> Result<Vec<u8>, String> {
    let mut trace = Vec::new();
    let mut controller = None;
    let (mut begins, mut lines) = (0, 0);
    for line in text.split(|&byte| byte == b'\n') {
        lines += 1;
        let told = |why: String| format!("line {lines}: {why}\n");
        if begins + line.len() > LONGEST_TEXT {
            return Err(told(format!(
                "the text is longer than {LONGEST_TEXT} bytes"
            )));
        }
        begins += line.len() + 1;
        let words = words(line);
        if words.is_empty() {
            continue;
        }
        let numbers = statement(&mut controller, &words).map_err(told)?;
        for number in numbers {
            put(number, 1, &mut trace);
        }
        if trace.len() > LONGEST {
            return Err(told(format!("the trace is longer than {LONGEST} bytes")));
        }
    }
    match controller {
        Some(_) => Ok(trace),
        None => Err(format!("line {lines}: {}\n", no_controller())),
    }
}

/// The words before the comment.
fn words(line: &[u8]) -> Vec<&[u8]> {
    let code = line.split(|&byte| byte == b'#').next().unwrap_or(b"");
    let words = code.split(|byte| b" \t\r\n".contains(byte));
    words.filter(|word| !word.is_empty()).collect()
}

fn no_controller() -> String {
    "a controller was expected: aic, coreinterrupt, cic, aintc or indexed".to_owned()
}

/// The numbers that a statement stands for.
fn statement(controller: &mut Option<usize>, words: &[&[u8]]) -> Result<Vec<u32>, String> {
    let (first, more) = match *controller {
        None => {
            let found = CONTROLLERS
                .iter()
                .position(|(name, _)| name.as_bytes() == words[0]);
            let kind = found.ok_or_else(no_controller)?;
            *controller = Some(kind);
            (kind as u32, CONTROLLERS[kind].1)
        }
        Some(kind) => {
            let found = STEPS
                .iter()
                .position(|(name, _, _)| name.as_bytes() == words[0]);
            let step = found.ok_or("a step was expected: read, write or line")?;
            let (_, plain, told) = STEPS[step];
            (step as u32 + 1, if kind == AINTC { told } else { plain })
        }
    };
    let mut numbers = vec![first];
    for nth in 1..=more {
        let value = words.get(nth).and_then(|word| number(word));
        numbers.push(value.ok_or_else(|| {
            let word = nth + 1;
            format!("a number of at most 32 bits was expected as word {word}")
        })?);
    }
    match words.len() > more + 1 {
        true => Err(format!(
            "the end of the line was expected before word {}",
            more + 2
        )),
        false => Ok(numbers),
    }
}

/// Decimal, or hexadecimal behind `0x`; of 32 bits.
fn number(word: &[u8]) -> Option<u32> {
    let (base, digits) = match word.strip_prefix(b"0x") {
        Some(digits) => (16, digits),
        None => (10, word),
    };
    let mut value: Option<u32> = None;
    for &digit in digits {
        let digit = char::from(digit).to_digit(base)?;
        let before = value.unwrap_or(0).checked_mul(base)?;
        value = Some(before.checked_add(digit)?);
    }
    value
}

#[cfg(test)]
mod tests {
    use super::*;

    fn refused(text: &str) -> String {
        encode(text.as_bytes()).expect_err("the text is refused")
    }

    #[test]
    fn statements_are_their_numbers() {
        let text = "aic 0 0x80\r\n\n\twrite 0x120 32#1\nread 4294967295\nline 007 1";
        let bytes = encode(text.as_bytes()).expect("it is of the form");
        assert_eq!(
            bytes,
            [0, 0, 0x80, 1, 2, 0xA0, 2, 32, 1, 0xFF, 0xFF, 0xFF, 0xFF, 0x0F, 3, 7, 1]
        );
        assert_eq!(
            encode(b"aintc\nwrite 4 0 9\nread 4 1\nline 3 1"),
            Ok(vec![3, 2, 4, 0, 9, 1, 4, 1, 3, 3, 1])
        );
    }

    #[test]
    fn refusals_tell_line_and_word() {
        let number = "a number of at most 32 bits was expected as word 2";
        let step = "a step was expected: read, write or line";
        let end = "the end of the line was expected before word 4";
        let controller = no_controller();
        let cases = [
            (
                "# a question\naic 0 0x80\r\n\n\twrite 0X0 1 # no\n",
                4,
                number,
            ),
            ("", 1, &controller),
            ("# nothing\n\n", 3, &controller),
            ("read 0", 1, &controller),
            ("aintc\naintc", 2, step),
            ("aic 0 0\nread 4294967296", 2, number),
            ("aic 0 0 0", 1, end),
        ];
        for (text, line, why) in cases {
            assert_eq!(refused(text), format!("line {line}: {why}\n"));
        }
    }

    #[test]
    fn the_limits_are_met_and_not_passed() {
        let steps = |count| {
            "aintc\n".to_owned() + &"read 0 0\n".repeat(count) + "line 4294967295 4294967295\n"
        };
        let most = encode(steps(21_841).as_bytes()).expect("it has room");
        assert_eq!(most.len(), 65_535);
        let longer = "line 21844: the trace is longer than 65536 bytes\n";
        assert_eq!(refused(&steps(21_842)), longer);
        let padded = |count| "aintc\n".to_owned() + &" ".repeat(count);
        assert_eq!(encode(padded(LONGEST_TEXT - 6).as_bytes()), Ok(vec![3]));
        let longer = "line 2: the text is longer than 5242880 bytes\n";
        assert_eq!(refused(&padded(LONGEST_TEXT - 5)), longer);
    }
}
