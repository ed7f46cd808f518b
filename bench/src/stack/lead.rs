//! The line that leads to the slip of a refused table: in which line of the text it stands, and what was expected
//! there.

use super::text::{self, Misread, Slip, Word, NUMBERS};
use super::{needed, Fault, MOST_FRAME, MOST_PRIORITY, MOST_TYPE};

/// The line, none for a table that has a figure.
pub fn lead(text: &[u8]) -> Option<String> {
    let told = match needed(text).err()? {
        Fault::TooLong => return Some("the text is longer than 65536 bytes\n".to_string()),
        Fault::Misread(misread) => (misread.offset, expected(misread).to_string()),
        Fault::Beyond => over(text)?,
    };
    let (offset, what) = told;
    let feeds = text[..offset].iter().filter(|&&byte| byte == b'\n').count();
    Some(format!("line {}: {what}\n", feeds + 1))
}

fn expected(misread: Misread) -> &'static str {
    match misread.slip {
        Slip::Missing | Slip::OtherCharacter | Slip::NoDigit => "a number was expected",
        Slip::TooManyBits => "the word of forced sources has more than 32 bits",
        Slip::TooMany => "nothing may follow the mark's frame",
        Slip::Quote => "a name has 1 to 24 characters and stands behind a source's three numbers",
    }
}

/// The first number of the text that is over its limit.
fn over(text: &[u8]) -> Option<(usize, String)> {
    let words = text::words(text);
    let read = text::numbers(text).ok()?;
    for (nth, (word, value)) in words.iter().zip(read).enumerate() {
        let (what, limit, whose) = match nth {
            96 => continue,
            nth if nth == NUMBERS - 1 => ("frame", MOST_FRAME, " of the mark"),
            nth if nth % 3 == 0 => ("priority", MOST_PRIORITY, ""),
            nth if nth % 3 == 1 => ("type", MOST_TYPE, ""),
            _ => ("frame", MOST_FRAME, ""),
        };
        if value.is_none_or(|value| value > limit) {
            let typed = shortened(word);
            return Some((
                word.offset,
                format!("{what} {typed}{whose} is over {limit}"),
            ));
        }
    }
    None
}

/// A number as it was typed, at most 20 characters of it.
fn shortened(word: &Word) -> String {
    let typed = String::from_utf8_lossy(word.characters);
    match typed.get(..20) {
        Some(front) if typed.len() > 20 => format!("{front}.."),
        _ => typed.into_owned(),
    }
}

#[cfg(test)]
mod tests {
    use super::*;

    /// What is told of a table of zeros, a source to a line, with this word as its nth number.
    fn with(nth: usize, word: &str) -> Option<String> {
        let mut words = vec!["0"; NUMBERS];
        words[nth] = word;
        let line = |row: &[&str]| row.join(" ");
        let mut lines: Vec<String> = words[..96].chunks(3).map(line).collect();
        lines.extend(words[96..].iter().map(ToString::to_string));
        lead(lines.join("\n").as_bytes())
    }

    #[test]
    fn it_leads_to_the_slip() {
        assert_eq!(with(0, "7"), None);
        for (nth, word, line) in [
            (18, "9", "line 7: priority 9 is over 7"),
            (19, "0x4", "line 7: type 0x4 is over 3"),
            (20, "65536", "line 7: frame 65536 is over 65535"),
            (
                97,
                "70000",
                "line 34: frame 70000 of the mark is over 65535",
            ),
            (35, "1,024", "line 12: a number was expected"),
            (
                96,
                "4294967296",
                "line 33: the word of forced sources has more than 32 bits",
            ),
            (97, "0 0", "line 34: nothing may follow the mark's frame"),
            (
                1,
                "\"a\"",
                "line 1: a name has 1 to 24 characters and stands behind a source's three numbers",
            ),
            (
                0,
                "123456789012345678901",
                "line 1: priority 12345678901234567890.. is over 7",
            ),
        ] {
            assert_eq!(with(nth, word), Some(format!("{line}\n")));
        }
        let told = |text: &[u8], line: &str| assert_eq!(lead(text), Some(format!("{line}\n")));
        told(b"", "line 1: a number was expected");
        told(b"\n\n", "line 3: a number was expected");
        told(&[b' '; 65_537], "the text is longer than 65536 bytes");
    }
}
