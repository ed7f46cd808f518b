//! A table as it is typed: its words, and what stands before, between and behind them.

use crate::stack::text::NUMBERS;
use crate::stack::Table;

listed! {
    /// How a number is typed.
    #[derive(Clone, Copy, Debug, PartialEq, Eq)]
    pub enum Form {
        Decimal,
        /// Decimal with zeros before it.
        Zeros,
        SmallLetters,
        LargeLetters,
        /// Hexadecimal with letters of either case in turn, and zeros before it.
        MixedLetters,
    }
}

impl Form {
    fn typed(self, value: u32) -> Vec<u8> {
        let word = match self {
            Form::Decimal => format!("{value}"),
            Form::Zeros => format!("{value:012}"),
            Form::SmallLetters => format!("{value:#x}"),
            Form::LargeLetters => format!("0x{value:X}"),
            Form::MixedLetters => format!("0x{}", mixed(value)),
        };
        word.into_bytes()
    }
}

/// Ten hex digits, those at even places with small letters.
fn mixed(value: u32) -> String {
    let digits = format!("{value:010X}");
    let turn = |(at, digit): (usize, char)| match at % 2 {
        0 => digit.to_ascii_lowercase(),
        _ => digit,
    };
    digits.chars().enumerate().map(turn).collect()
}

/// A typed table. Before each word stands its gap, and behind the last one another.
#[derive(Clone)]
pub struct Sheet {
    words: Vec<Vec<u8>>,
    gaps: Vec<Vec<u8>>,
    values: Vec<u32>,
}

impl Sheet {
    /// A line for each source, one for the forced word and one for the mark's frame.
    pub fn plain(table: &Table) -> Sheet {
        let rows = table.rows.iter();
        let mut values: Vec<u32> = rows
            .flat_map(|row| [row.priority, row.kind, row.frame])
            .collect();
        values.extend([table.forced, table.mark]);
        let gap = |nth: usize| match nth {
            0 => "",
            NUMBERS.. => "\n",
            _ if nth.is_multiple_of(3) || nth == NUMBERS - 1 => "\n",
            _ => " ",
        };
        Sheet {
            words: values.iter().map(|&v| Form::Decimal.typed(v)).collect(),
            gaps: (0..=NUMBERS).map(|nth| gap(nth).into()).collect(),
            values,
        }
    }

    pub fn text(&self) -> Vec<u8> {
        let mut text = Vec::new();
        for (gap, word) in self.gaps.iter().zip(&self.words) {
            text.extend_from_slice(gap);
            text.extend_from_slice(word);
        }
        text.extend_from_slice(self.gaps.last().map_or(b"", |gap| gap));
        text
    }

    /// The text, filled up to a length by a comment behind it.
    pub fn of_length(&self, length: usize) -> Vec<u8> {
        let mut text = self.text();
        text.extend_from_slice(b"\n#");
        text.resize(length, b'.');
        text
    }

    /// Types the nth number otherwise.
    pub fn retype(&mut self, nth: usize, form: Form) {
        self.words[nth] = form.typed(self.values[nth]);
    }

    /// Puts something else before the nth word.
    pub fn gap(&mut self, nth: usize, gap: &[u8]) {
        self.gaps[nth] = gap.to_vec();
    }

    /// Puts a name in quotes before the nth gap, parted from the word before it.
    pub fn name(&mut self, nth: usize, name: &[u8], parted: &[u8]) {
        let quoted = [parted, b"\"", name, b"\"", &self.gaps[nth]].concat();
        self.gaps[nth] = quoted;
    }

    /// Puts any word in the place of the nth, or behind the last one.
    pub fn put(&mut self, nth: usize, word: &[u8]) {
        match self.words.get_mut(nth) {
            Some(place) => *place = word.to_vec(),
            None => {
                self.words.push(word.to_vec());
                self.gaps.push(b"\n".to_vec());
            }
        }
    }

    /// Leaves the nth word out, so that those behind it move up.
    pub fn leave_out(&mut self, nth: usize) {
        self.words.remove(nth);
        self.gaps.remove(nth);
    }

    /// Types the nth word twice, so that those behind it move down.
    pub fn double(&mut self, nth: usize) {
        self.words.insert(nth, self.words[nth].clone());
        self.gaps.insert(nth + 1, b" ".to_vec());
    }

    /// Ends the text before the nth word.
    pub fn cut(&mut self, nth: usize) {
        self.words.truncate(nth);
        self.gaps.truncate(nth + 1);
    }
}
