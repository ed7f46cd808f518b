//! A priority table as people type it, read into its 98 numbers: words between white space, comments and names left
//! out.

use super::{Fault, Row, Table};
use crate::model::aic::SOURCES;
use crate::trace::LONGEST;

/// Priority, type and frame for each source, the forced word, the mark's frame.
pub const NUMBERS: usize = 3 * SOURCES + 2;

/// The one among them that has no limit but its 32 bits.
const FORCED: usize = NUMBERS - 2;

/// What is wrong with a typed table.
#[derive(Clone, Copy, Debug, PartialEq, Eq, PartialOrd, Ord, Hash)]
pub enum Slip {
    /// The text ends before the number.
    Missing,
    /// A character that is no digit of the number.
    OtherCharacter,
    /// Nothing behind the `0x`.
    NoDigit,
    /// The forced word is worth 2^32 or more.
    TooManyBits,
    /// Something stands behind the last number.
    TooMany,
    /// A quote that begins no name, or one where none may stand.
    Quote,
}

/// The first slip of a text.
#[derive(Clone, Copy, Debug, PartialEq, Eq)]
pub struct Misread {
    pub slip: Slip,
    /// Which number it is, from 0; one too many has the number 98.
    pub nth: usize,
    /// The byte offset of its first character, or the length of the text where it is missing.
    pub offset: usize,
}

/// What stands between white space and comments, and its byte offset.
#[derive(Clone, Copy, Debug, PartialEq, Eq)]
pub struct Word<'a> {
    pub offset: usize,
    pub characters: &'a [u8],
}

/// The table that a text says.
pub fn table(text: &[u8]) -> Result<Table, Fault> {
    if text.len() > LONGEST {
        return Err(Fault::TooLong);
    }
    let numbers = numbers(text).map_err(Fault::Misread)?;
    let numbers: Option<Vec<u32>> = numbers.into_iter().collect();
    Ok(made_of(&numbers.ok_or(Fault::Beyond)?))
}

/// The table of 98 numbers.
pub fn made_of(numbers: &[u32]) -> Table {
    let row = |source: usize| Row {
        priority: numbers[3 * source],
        kind: numbers[3 * source + 1],
        frame: numbers[3 * source + 2],
    };
    Table {
        rows: std::array::from_fn(row),
        forced: numbers[FORCED],
        mark: numbers[NUMBERS - 1],
    }
}

/// The 98 numbers of a text, which has nothing else; none for one that is worth 2^32 or more, which is beyond any
/// limit.
pub fn numbers(text: &[u8]) -> Result<Vec<Option<u32>>, Misread> {
    let words = words(text);
    let mut numbers = Vec::with_capacity(NUMBERS);
    for nth in 0..NUMBERS {
        let (offset, read) = match words.get(nth) {
            Some(word) => (word.offset, value(word.characters)),
            None => (text.len(), Err(Slip::Missing)),
        };
        let read = match read {
            Ok(None) if nth == FORCED => Err(Slip::TooManyBits),
            read => read,
        };
        numbers.push(read.map_err(|slip| Misread { slip, nth, offset })?);
    }
    match words.get(NUMBERS) {
        None => Ok(numbers),
        Some(word) => Err(Misread {
            slip: match word.characters {
                [b'"', ..] => Slip::Quote,
                _ => Slip::TooMany,
            },
            nth: NUMBERS,
            offset: word.offset,
        }),
    }
}

/// The words of all lines; what stands behind a `#` is none, nor is a name.
pub fn words(text: &[u8]) -> Vec<Word<'_>> {
    parts(text).0
}

/// The name of each source, empty where it has none, whatever else is wrong with the text.
pub fn names(text: &[u8]) -> [&[u8]; SOURCES] {
    parts(text).1
}

/// The words of a text, and the names behind the third, the sixth and so on up to the last source's.
fn parts(text: &[u8]) -> (Vec<Word<'_>>, [&[u8]; SOURCES]) {
    let (mut words, mut names) = (Vec::new(), [b"".as_slice(); SOURCES]);
    let mut offset = 0;
    while let Some(&first) = text.get(offset) {
        let rest = &text[offset..];
        let up_to = |ends: &[u8]| rest.iter().position(|byte| ends.contains(byte));
        let place = match words.len() {
            count if count > 0 && count % 3 == 0 => names.get_mut(count / 3 - 1),
            _ => None,
        };
        let free = place.filter(|name| name.is_empty());
        offset += match (first, free.zip(quoted(rest))) {
            (b' ' | b'\t' | b'\r' | b'\n', _) => 1,
            (b'#', _) => up_to(b"\n").unwrap_or(rest.len()),
            (_, Some((name, there))) => {
                *name = there;
                there.len() + 2
            }
            _ => {
                let characters = &rest[..up_to(b" \t\r\n#").unwrap_or(rest.len())];
                words.push(Word { offset, characters });
                characters.len()
            }
        };
    }
    (words, names)
}

/// The name in quotes with which a text begins, where white space, a comment or nothing stands behind it.
fn quoted(text: &[u8]) -> Option<&[u8]> {
    let behind = text.strip_prefix(b"\"")?;
    let name = &behind[..behind.iter().position(|&byte| byte == b'"')?];
    let fits = |byte: &u8| (b' '..=b'~').contains(byte) && !b"<>&".contains(byte);
    let parted = match behind.get(name.len() + 1) {
        Some(next) => b" \t\r\n#".contains(next),
        None => true,
    };
    ((1..=24).contains(&name.len()) && name.iter().all(fits) && parted).then_some(name)
}

/// The value of a number in decimal or, behind `0x`, in hexadecimal; none where it passes 32 bits.
fn value(word: &[u8]) -> Result<Option<u32>, Slip> {
    if word.starts_with(b"\"") {
        return Err(Slip::Quote);
    }
    let (digits, base) = match word.strip_prefix(b"0x") {
        Some(digits) => (digits, 16),
        None => (word, 10),
    };
    if digits.is_empty() {
        return Err(Slip::NoDigit);
    }
    let mut value: Option<u32> = Some(0);
    for &character in digits {
        let digit = char::from(character).to_digit(base);
        let digit = digit.ok_or(Slip::OtherCharacter)?;
        value = value.and_then(|v| v.checked_mul(base)?.checked_add(digit));
    }
    Ok(value)
}

#[cfg(test)]
mod tests {
    use super::*;
    use crate::stack::line;

    /// Words that are read as the first numbers; the others are 0.
    fn first_read(words: &str) -> Result<Vec<Option<u32>>, Misread> {
        let there = super::words(words.as_bytes()).len();
        let text = format!("{words}{}", " 0".repeat(NUMBERS - there));
        numbers(text.as_bytes()).map(|numbers| numbers[..there].to_vec())
    }

    /// The same of words that 32 bits can hold.
    fn first(words: &str) -> Result<Vec<u32>, Misread> {
        let all = |read: Vec<Option<u32>>| read.into_iter().collect::<Option<_>>();
        first_read(words).map(|read| all(read).expect("none passes 32 bits"))
    }

    /// What is printed of a table of zeros with this word as its nth number.
    fn printed_with(nth: usize, word: &str) -> String {
        printed(&format!(
            "{}{word} {}",
            zeros(nth),
            zeros(NUMBERS - 1 - nth)
        ))
    }

    fn first_slip(words: &str) -> (Slip, usize, usize) {
        let misread = first(words).expect_err("it is no table");
        (misread.slip, misread.nth, misread.offset)
    }

    fn printed(text: &str) -> String {
        String::from_utf8(line(text.as_bytes())).expect("a line is plain text")
    }

    /// A table of so many zeros.
    fn zeros(count: usize) -> String {
        "0 ".repeat(count)
    }

    #[test]
    fn decimal_and_hexadecimal() {
        for (words, numbers) in [
            ("0 7 65535 010", vec![0, 7, 65_535, 10]),
            ("0x0 0xff 0xFF 0xaBcDeF", vec![0, 255, 255, 0xABCDEF]),
            ("0x0000000000000000001 0000000000000000002", vec![1, 2]),
            ("5#note\n6 # 7 #8\r9\n10", vec![5, 6, 10]),
            ("#\n##1\n1", vec![1]),
            (" \t\r\n1\t2\r3\r\n4\n\n5  6", vec![1, 2, 3, 4, 5, 6]),
        ] {
            assert_eq!(first(words), Ok(numbers), "{words:?}");
        }
    }

    /// No digit, other characters, and white space that is none.
    #[test]
    fn words_that_are_no_numbers() {
        for text in ["0 0x 0", "0 0x\n", "0 0x#1", "0 0x\t1"] {
            assert_eq!(first_slip(text), (Slip::NoDigit, 1, 2), "{text:?}");
        }
        assert_eq!(first_slip("0 0X1"), (Slip::OtherCharacter, 1, 2));
        for text in [
            "00x1", "0x1g", "0x0x1", "1f", "1\u{b}2", "1\u{c}2", "1\02", "1\u{a0}2",
        ] {
            assert_eq!(first_slip(text), (Slip::OtherCharacter, 0, 0), "{text:?}");
        }
    }

    #[test]
    fn thirty_two_bits_and_one_more() {
        let most = Ok(vec![u32::MAX]);
        for text in ["4294967295", "0xFFFFFFFF", "0xffffffff", "0x0ffffffff"] {
            assert_eq!(first(text), most, "{text}");
        }
        for text in over_32_bits() {
            assert_eq!(first_read(&text), Ok(vec![None]), "{text}");
        }
    }

    /// Numbers of 33 bits and of many more, in either base; all but the third have a low word of 0.
    fn over_32_bits() -> [String; 5] {
        let zeros = "0".repeat(64);
        let decimal = ["4294967296", "0x100000000", "99999999999999999999999"];
        let [a, b, c] = decimal.map(str::to_string);
        [a, b, c, format!("1{zeros}"), format!("0x1{zeros}")]
    }

    /// 14 for a number that is too large for its limit, however many digits it has; the forced word has no limit but
    /// its 32 bits, and beyond them it is no word: 8, at its first character.
    #[test]
    fn however_many_digits() {
        for text in over_32_bits() {
            for nth in (0..NUMBERS).filter(|&nth| nth != FORCED) {
                assert_eq!(printed_with(nth, &text), "E 14\n", "{nth} {text}");
            }
            assert_eq!(printed_with(FORCED, &text), "E 8 192\n", "{text}");
            let and_a_slip = format!("{text} {}x", zeros(96));
            let offset = text.len() + 1 + 2 * 96;
            assert_eq!(printed(&and_a_slip), format!("E 8 {offset}\n"));
        }
        assert_eq!(printed_with(FORCED, "4294967295"), "0 bytes\n");
        let many_zeros = format!("{}7", "0".repeat(64));
        assert_eq!(printed_with(NUMBERS - 1, &many_zeros), "56 bytes\n");
    }

    #[test]
    fn any_other_character_refuses_its_number() {
        for byte in (0..=u8::MAX).filter(|byte| !byte.is_ascii_digit()) {
            let text = [b"0 1", [byte].as_slice(), b"2 ", zeros(NUMBERS).as_bytes()].concat();
            let (slip, nth, offset) = match byte {
                b' ' | b'\t' | b'\r' | b'\n' => (Slip::TooMany, NUMBERS, 2 * NUMBERS),
                // It takes the line with it, and so all that follows.
                b'#' => (Slip::Missing, 2, text.len()),
                _ => (Slip::OtherCharacter, 1, 2),
            };
            let expected = Fault::Misread(Misread { slip, nth, offset });
            assert_eq!(table(&text), Err(expected), "{byte:#x}");
        }
    }

    /// A text of zeros with something behind the nth number, from 1.
    fn behind(nth: usize, what: &str) -> String {
        format!("{}{what}{}", "0 ".repeat(nth), " 0".repeat(NUMBERS - nth))
    }

    #[test]
    fn a_name_stands_behind_three_numbers() {
        for source in 0..SOURCES {
            let text = behind(3 * source + 3, "\"timer # tick\"");
            assert_eq!(printed(&text), "0 bytes\n", "{source}");
            let mut expected = [b"".as_slice(); SOURCES];
            expected[source] = b"timer # tick";
            assert_eq!(names(text.as_bytes()), expected);
        }
        for nth in (0..=NUMBERS).filter(|nth| *nth == 0 || nth % 3 != 0 || *nth > 96) {
            let slip = format!("E 8 {}\n", 2 * nth);
            assert_eq!(printed(&behind(nth, "\"name\"")), slip, "{nth}");
        }
        assert_eq!(printed(&behind(3, "#\"\n\"a\"# \"\n")), "0 bytes\n");
        assert_eq!(printed(&behind(3, "\"a\"  \"b\"")), "E 8 11\n");
        assert_eq!(printed(&behind(3, "# \"\n")), "0 bytes\n");
    }

    #[test]
    fn a_name_has_1_to_24_printable_characters() {
        let quoted = |name: &str| printed(&behind(3, &format!("\"{name}\"")));
        let [longest, longer] = [24, 25].map(|length| "x".repeat(length));
        for name in ["a", " ", "#", "~", &longest, "a, b; c!"] {
            assert_eq!(quoted(name), "0 bytes\n", "{name}");
        }
        for name in ["", &longer, "a\tb", "a\nb", "<", ">", "&", "\u{7f}", "é"] {
            assert_eq!(quoted(name), "E 8 6\n", "{name}");
        }
        for text in ["\"a", "\"a\"0", "\"a\"\"b\"", "\"", "\"a\".", "\"a b\"x"] {
            assert_eq!(printed(&behind(3, text)), "E 8 6\n", "{text}");
        }
        let glued = format!("0 0 0\"a\"{}", " 0".repeat(95));
        assert_eq!(printed(&glued), "E 8 4\n");
    }

    /// A comment ends with its line feed; a missing number is told at the end of the text, one too many at its own; of
    /// two slips the first is told, and a slip of the typing before 14. A number stands for so many zeros.
    #[test]
    fn where_a_slip_is_told() {
        let beyond = "8 4 65536";
        for (text, line) in [
            ("97 0#", "0 bytes"),
            ("97 #no line feed, no 0", "E 8 213"),
            ("", "E 8 0"),
            (" \n# nothing\n", "E 8 12"),
            ("97 ", "E 8 194"),
            ("98 ", "0 bytes"),
            ("97 0", "0 bytes"),
            ("97 \n\n", "E 8 196"),
            ("98  \n# end", "0 bytes"),
            ("99 ", "E 8 196"),
            ("98 \n x 0x", "E 8 198"),
            ("B 95 ", "E 14"),
            ("B 94 ", "E 8 198"),
            ("B 96 ", "E 8 200"),
            ("B 94 x", "E 8 198"),
            ("0 y 95 x", "E 8 2"),
            ("0 y", "E 8 2"),
        ] {
            let mut text = text.replace('B', beyond);
            for count in [94, 95, 96, 97, 98, 99] {
                text = text.replace(&format!("{count} "), &zeros(count));
            }
            assert_eq!(printed(&text), format!("{line}\n"), "{text:?}");
        }
    }

    #[test]
    fn each_number_has_its_place() {
        let text: Vec<String> = (1..=NUMBERS).map(|n| n.to_string()).collect();
        let table = table(text.join(" ").as_bytes()).expect("it is a table");
        for source in 0..SOURCES {
            let row = table.rows[source];
            let before = 3 * source as u32;
            let place = (before + 1, before + 2, before + 3);
            assert_eq!((row.priority, row.kind, row.frame), place);
        }
        assert_eq!((table.forced, table.mark), (97, 98));
    }

    #[test]
    fn the_longest_text() {
        for filling in [' ', '\n', '#', '\0'] {
            let of_length = |length: usize| {
                let start = format!("{}0#", zeros(97));
                let rest = length - start.len();
                start + &filling.to_string().repeat(rest)
            };
            assert_eq!(printed(&of_length(65_536)), "0 bytes\n");
            assert_eq!(printed(&of_length(65_537)), "E 11 65536\n");
        }
        assert_eq!(printed(&"0 ".repeat(32_768)), "E 8 196\n");
        assert_eq!(printed(&"x".repeat(65_536)), "E 8 0\n");
        assert_eq!(printed(&"x".repeat(65_537)), "E 11 65536\n");
        assert_eq!(printed(&" ".repeat(65_536)), "E 8 65536\n");
    }
}
