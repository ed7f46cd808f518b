//! What the compared tables have reached, counted from the model's own reading; a listed item not reached is a gap.

use super::text::{self, words, Slip, Word, NUMBERS};
use super::{Fault, Row, Table, LEVELS, MOST_FRAME, MOST_PRIORITY, MOST_TYPE};
use crate::model::aic::SOURCES;
use crate::tally::{each, Fact, Listed, Tally};
use crate::trace::LONGEST;
use crate::{facts, sorts};

/// Something that a comparison should have reached.
#[derive(Clone, Copy, Debug, PartialEq, Eq, PartialOrd, Ord, Hash)]
pub enum Item {
    /// The figure had so many digits.
    Digits(usize),
    /// The frame that counts for a level came about so.
    Largest(u32, How),
    /// A fast source of a level had a larger frame than the one that counts.
    PassedOver(u32, Standing),
    /// A number was at its limit, in a table with a figure.
    AtLimit(Limited),
    /// 14 by this number alone, by one beyond its limit or by more.
    Beyond(Limited, Far),
    /// 14 by a number of this sort alone, which passes 32 bits.
    Over(Field),
    /// 8 by a number of this sort.
    Misread(Field, Slip),
    /// A number of this sort was typed so, in a table with a figure.
    Typed(Field, Form),
    /// A situation in plain words.
    Fact(&'static str),
}

sorts! {
    /// How the frame that counts for a level came about.
    How {
        /// The level has no normal source, so it is the mark's.
        None,
        /// The mark's is larger than those of all its sources.
        Mark,
        /// The mark's and a source's are the same.
        MarkTies,
        /// One source has a larger frame than the mark and the others.
        One,
        /// Several sources share it, above the mark's.
        Tie,
    }

    /// Whether a source can open an entry, and why not.
    Standing { Nought, Forced, Normal }
}

/// A number with a limit of its own.
#[derive(Clone, Copy, Debug, PartialEq, Eq, PartialOrd, Ord, Hash)]
pub enum Limited {
    Priority(Standing),
    Type(Standing),
    Frame(Standing),
    Mark,
}

sorts! {
    /// How far beyond its limit a number is.
    Far { ByOne, ByMore }

    /// A sort of number in the order of the text.
    Field {
        Priority,
        Type,
        Frame,
        Forced,
        Mark,
        /// What stands behind the last number.
        Behind,
    }
}

impl Field {
    const NUMBERS: [Field; 5] = [
        Field::Priority,
        Field::Type,
        Field::Frame,
        Field::Forced,
        Field::Mark,
    ];

    /// The sort of the nth number.
    fn of(nth: usize) -> Field {
        match (NUMBERS - 2).checked_sub(nth) {
            Some(0) => Field::Forced,
            Some(_) => Field::NUMBERS[nth % 3],
            None if nth < NUMBERS => Field::Mark,
            None => Field::Behind,
        }
    }

    /// Priorities and types with a letter are beyond their limits.
    fn takes(self, form: Form) -> bool {
        let letters = matches!(form, Form::Small | Form::Large | Form::Mixed);
        !letters || !matches!(self, Field::Priority | Field::Type)
    }
}

sorts! {
    /// How a number was typed.
    Form {
        Decimal,
        /// With a zero before another digit.
        Zeros,
        /// Hexadecimal with no letter.
        Hexadecimal,
        /// Hexadecimal with small letters, large ones, or both.
        Small,
        Large,
        Mixed,
    }
}

impl Form {
    fn of(word: &[u8]) -> Form {
        let Some(digits) = word.strip_prefix(b"0x") else {
            return match word {
                [b'0', _, ..] => Form::Zeros,
                _ => Form::Decimal,
            };
        };
        let small = digits.iter().any(u8::is_ascii_lowercase);
        let large = digits.iter().any(u8::is_ascii_uppercase);
        match (small, large) {
            (false, false) => Form::Hexadecimal,
            (true, false) => Form::Small,
            (false, true) => Form::Large,
            (true, true) => Form::Mixed,
        }
    }
}

facts! { FACTS;
    fn too_long(text: &[u8]) {
        "one byte too many" if text.len() == LONGEST + 1;
        "many bytes too many" if text.len() > LONGEST + 1;
    }

    fn figure(table: &Table, bytes: u32) {
        "the figure 0" if bytes == 0;
        "the figure 524,280" if bytes == 524_280;
        "bit 0 of the forced word" if table.forced & 1 == 1;
        "every source forced" if table.forced == u32::MAX;
        "no source forced" if table.forced == 0;
    }

    /// A word that passes 32 bits, and no other number is beyond its limit.
    fn over(word: &[u8]) {
        "33 bits beyond a limit, in decimal" if word == b"4294967296";
        "33 bits beyond a limit, in hexadecimal" if word == b"0x100000000";
        "more than 64 bits beyond a limit" if word.len() > 20;
    }

    fn forced(word: &[u8]) {
        "32 bits in decimal" if word == b"4294967295";
        "32 bits in hexadecimal" if word == b"0xffffffff";
    }

    /// What stands before and behind the numbers of a table with a figure.
    fn around(text: &[u8], first: usize, last: usize) {
        let lines = text[first..last].split(|&byte| byte == b'\n').count();
        let end = text[last..].rsplit(|&byte| byte == b'\n').next();
        "something before the first number" if first > 0;
        "nothing behind the last number" if last == text.len();
        "all numbers on one line" if lines == 1;
        "a comment at the end without a line feed" if end.is_some_and(|line| line.contains(&b'#'));
        "65,536 bytes with a figure" if text.len() == LONGEST;
    }

    fn between(gap: &[u8]) {
        let white = |byte: u8| !gap.is_empty() && gap.iter().all(|&other| other == byte);
        "only spaces between numbers" if white(b' ');
        "only tabs between numbers" if white(b'\t');
        "only carriage returns between numbers" if white(b'\r');
        "only line feeds between numbers" if white(b'\n');
        "a DOS line end between numbers" if gap == b"\r\n";
        "a comment behind a number" if gap.first() == Some(&b'#');
    }

    fn commented(gap: &[u8], at: usize) {
        let comment = gap[at + 1..].split(|&byte| byte == b'\n').next().unwrap_or_default();
        let has = |found: fn(&u8) -> bool| comment.iter().any(found);
        "a comment behind white space" if at > 0;
        "digits in a comment" if has(u8::is_ascii_digit);
        "a # in a comment" if has(|&byte| byte == b'#');
        "a CR in a comment" if has(|&byte| byte == b'\r');
        "other bytes in a comment" if has(|byte| !byte.is_ascii());
    }

    fn named(names: &[&[u8]; SOURCES]) {
        let some = |fits: &dyn Fn(&[u8]) -> bool| names.iter().any(|name| fits(name));
        "a name of 1 byte" if some(&|name| name.len() == 1);
        "a name of 24 bytes" if some(&|name| name.len() == 24);
        "a space in a name" if some(&|name| name.contains(&b' '));
        "a # in a name" if some(&|name| name.contains(&b'#'));
        "a name of the first source" if !names[0].is_empty();
        "a name of the last source" if !names[SOURCES - 1].is_empty();
        "a name of every source" if !some(&|name| name.is_empty());
    }

    /// The nth number is no number, or none is there.
    fn misread(text: &[u8], words: &[&[u8]], nth: usize) {
        let word = words.get(nth).copied().unwrap_or_default();
        let mut later = words.iter().take(NUMBERS).skip(nth + 1);
        "an empty text" if text.is_empty();
        "no word at all" if words.is_empty() && !text.is_empty();
        "65,536 bytes with a slip" if text.len() == LONGEST;
        "the prefix 0X" if word.starts_with(b"0X");
        "a forced word of 33 bits in decimal" if word == b"4294967296";
        "a forced word of 33 bits in hexadecimal" if word == b"0x100000000";
        "a sign" if word.starts_with(b"-");
        "a second slip behind the first" if later.any(|word| *word == b"0x");
        "a slip behind a number beyond its limit" if nth > 0 && words[0] == b"8";
    }
}

/// The counters.
#[derive(Default)]
pub struct Coverage {
    tally: Tally<Item>,
}

impl Coverage {
    fn reach(&mut self, item: Item) {
        self.tally.reach(item);
    }

    /// Counts the situations that are there.
    fn facts(&mut self, facts: impl IntoIterator<Item = Fact>) {
        self.tally.facts(Item::Fact, facts);
    }

    /// Counts what a typed table and its outcome show.
    pub fn see(&mut self, text: &[u8], needed: Result<u32, Fault>) {
        match (needed, text::table(text)) {
            (Ok(bytes), Ok(table)) => {
                self.figure(&table, bytes);
                self.layout(text);
                self.facts(named(&text::names(text)));
            }
            (Err(Fault::Misread(slip)), _) => {
                self.reach(Item::Misread(Field::of(slip.nth), slip.slip));
                let words: Vec<_> = words(text).iter().map(|word| word.characters).collect();
                self.facts(misread(text, &words, slip.nth));
            }
            (Err(Fault::TooLong), _) => self.facts(too_long(text)),
            (_, Ok(table)) => self.beyond(&table),
            (_, Err(_)) => self.over(text),
        }
    }

    fn figure(&mut self, table: &Table, bytes: u32) {
        self.reach(Item::Digits(bytes.to_string().len()));
        self.facts(figure(table, bytes));
        for level in 0..LEVELS {
            let frames = table.frames_at(level);
            self.reach(Item::Largest(level, how(&frames, table.mark)));
            self.passed_over(table, level, frames.last().copied());
        }
        for (number, value, limit) in numbers(table) {
            if value == limit {
                self.reach(Item::AtLimit(number));
            }
        }
    }

    fn passed_over(&mut self, table: &Table, level: u32, largest: Option<u32>) {
        let counts = largest.unwrap_or(0).max(table.mark);
        for source in 0..SOURCES {
            let row = table.rows[source];
            let standing = standing(table, source);
            if standing != Standing::Normal && row.priority == level && row.frame > counts {
                self.reach(Item::PassedOver(level, standing));
            }
        }
    }

    /// Counted only where one number is beyond its limit: whoever overlooks it gives a figure.
    fn beyond(&mut self, table: &Table) {
        let mut numbers = numbers(table);
        numbers.retain(|&(_, value, limit)| value > limit);
        if let [(number, value, limit)] = numbers[..] {
            let far = match value - limit {
                1 => Far::ByOne,
                _ => Far::ByMore,
            };
            self.reach(Item::Beyond(number, far));
        }
    }

    /// Counted only where one number passes 32 bits, and no other is beyond its limit.
    fn over(&mut self, text: &[u8]) {
        let numbers = text::numbers(text).unwrap_or_default();
        let passes = |nth: &usize| numbers[*nth].is_none();
        let passing: Vec<usize> = (0..numbers.len()).filter(passes).collect();
        let rest: Vec<u32> = numbers.iter().map(|n| n.unwrap_or(0)).collect();
        if let ([nth], true) = (&passing[..], text::made_of(&rest).within_limits()) {
            self.reach(Item::Over(Field::of(*nth)));
            self.facts(over(words(text)[*nth].characters));
        }
    }

    /// The numbers of a table with a figure, and what stands before, between and behind them.
    fn layout(&mut self, text: &[u8]) {
        let words = words(text);
        for (nth, word) in words.iter().enumerate() {
            self.reach(Item::Typed(Field::of(nth), Form::of(word.characters)));
        }
        self.facts(forced(words[NUMBERS - 2].characters));
        for pair in words.windows(2) {
            let gap = &text[end(&pair[0])..pair[1].offset];
            self.facts(between(gap));
            if let Some(at) = gap.iter().position(|&byte| byte == b'#') {
                self.facts(commented(gap, at));
            }
        }
        self.facts(around(text, words[0].offset, end(&words[NUMBERS - 1])));
    }
}

/// The byte offset behind a word.
fn end(word: &Word) -> usize {
    word.offset + word.characters.len()
}

/// How the frame that counts comes about from those of a level's sources, the smallest first, and the mark's.
fn how(frames: &[u32], mark: u32) -> How {
    match *frames {
        [] => How::None,
        [.., largest] if mark > largest => How::Mark,
        [.., largest] if mark == largest => How::MarkTies,
        [.., second, largest] if second == largest => How::Tie,
        _ => How::One,
    }
}

fn standing(table: &Table, source: usize) -> Standing {
    match source {
        0 => Standing::Nought,
        _ if table.is_normal(source) => Standing::Normal,
        _ => Standing::Forced,
    }
}

/// The numbers of a table that have a limit, each with its value and its limit.
fn numbers(table: &Table) -> Vec<(Limited, u32, u32)> {
    let mut numbers = vec![(Limited::Mark, table.mark, MOST_FRAME)];
    for (source, row) in table.rows.iter().enumerate() {
        let &Row {
            priority,
            kind,
            frame,
        } = row;
        let of = standing(table, source);
        numbers.push((Limited::Priority(of), priority, MOST_PRIORITY));
        numbers.push((Limited::Type(of), kind, MOST_TYPE));
        numbers.push((Limited::Frame(of), frame, MOST_FRAME));
    }
    numbers
}

impl Listed for Coverage {
    type Item = Item;

    fn tally(&self) -> &Tally<Item> {
        &self.tally
    }

    fn wanted() -> Vec<Item> {
        let mut items: Vec<Item> = (1..=6).map(Item::Digits).collect();
        for level in 0..LEVELS {
            items.extend(each(|how| Item::Largest(level, how)));
            let fast = [Standing::Nought, Standing::Forced];
            items.extend(fast.map(|standing| Item::PassedOver(level, standing)));
        }
        for number in limited() {
            items.push(Item::AtLimit(number));
            items.extend(each(|far| Item::Beyond(number, far)));
        }
        let slips = [
            Slip::Missing,
            Slip::OtherCharacter,
            Slip::NoDigit,
            Slip::Quote,
        ];
        for field in Field::NUMBERS {
            items.extend(slips.map(|slip| Item::Misread(field, slip)));
            items.push(match field {
                Field::Forced => Item::Misread(field, Slip::TooManyBits),
                _ => Item::Over(field),
            });
            let forms = Form::ALL.into_iter().filter(|&form| field.takes(form));
            items.extend(forms.map(|form| Item::Typed(field, form)));
        }
        items.push(Item::Misread(Field::Behind, Slip::TooMany));
        items.push(Item::Misread(Field::Behind, Slip::Quote));
        items.extend(FACTS.iter().copied().map(Item::Fact));
        items
    }
}

/// The numbers with limits, of sources of every standing.
fn limited() -> Vec<Limited> {
    let mut all = vec![Limited::Mark];
    for of in Standing::ALL {
        all.extend([Limited::Priority(of), Limited::Type(of), Limited::Frame(of)]);
    }
    all
}
