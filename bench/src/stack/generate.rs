//! Typed tables made from a seed: sweeps that visit everything once, then plain ones, adorned ones, limits and damage.

mod sheet;
mod sweeps;

use std::time::Duration;

use self::sheet::{Form, Sheet};
use super::coverage::Coverage;
use super::lead::lead;
use super::text::NUMBERS;
use super::{line, needed, Row, Table, MOST_FRAME, MOST_PRIORITY, MOST_TYPE};
use crate::batch::Request;
use crate::compare::Subject;
use crate::generate::played::weights;
use crate::model::aic::SOURCES;
use crate::numbered::{Made, Numbered};
use crate::random::Random;
use crate::trace::LONGEST;

/// One thing to compare: the text of a table, and how much room its line gets (none said: ample).
#[derive(Clone, Debug)]
pub struct Typed {
    pub name: &'static str,
    pub text: Vec<u8>,
    pub room: Option<usize>,
}

impl Typed {
    /// The room that the line gets. Where none is said it is enough for any.
    pub fn ample_room(&self) -> usize {
        self.room.unwrap_or(40)
    }
}

impl Subject for Typed {
    type Coverage = Coverage;

    fn name(&self) -> &'static str {
        self.name
    }

    fn input(&self) -> &[u8] {
        &self.text
    }

    fn room(&self) -> Option<usize> {
        self.room
    }

    fn by_model(&self, coverage: &mut Coverage) -> Vec<u8> {
        coverage.see(&self.text, needed(&self.text));
        line(&self.text)
    }

    fn request(&self) -> Request {
        Request::stack(self)
    }

    #[cfg(feature = "exports")]
    fn by_library(&self) -> crate::compare::Outcome {
        crate::exports::stack(self)
    }

    fn complaint(&self) -> Vec<u8> {
        let line = lead(&self.text).map(|line| format!("stacksize: {line}"));
        line.unwrap_or_default().into_bytes()
    }

    fn for_program(self) -> Typed {
        Typed { room: None, ..self }
    }

    /// One number less is another slip, so nothing is left out.
    fn smaller(&self, _: Duration, _: impl FnMut(&Typed) -> bool) -> Typed {
        self.clone()
    }
}

/// Everything that can be made from one seed.
pub type Generator = Numbered<Typed>;

impl Made for Typed {
    fn sweeps() -> Vec<Typed> {
        let typed = |text| Typed {
            name: "sweep",
            text,
            room: None,
        };
        sweeps::all().into_iter().map(typed).collect()
    }

    fn random(random: &mut Random) -> Typed {
        random_typed(random)
    }
}

/// What a random table is like, and how often it comes.
const STYLES: &str = "300 plain, 300 adorned, 150 limits, 150 spoiled, 100 harmed, 2 long";

fn random_typed(random: &mut Random) -> Typed {
    let style = random.weighted(&weights(STYLES));
    let table = match style {
        "limits" => at_limits(random),
        _ => any_table(random),
    };
    let mut sheet = Sheet::plain(&table);
    if style != "plain" && random.below(4) > 0 {
        adorn(random, &mut sheet);
    }
    if random.one_in(3) {
        name(random, &mut sheet);
    }
    if style == "spoiled" {
        spoil(random, &mut sheet);
    }
    let text = match style {
        "harmed" => harmed(random, sheet.text()),
        "long" => sheet.of_length(LONGEST - 2 + random.below(5) as usize),
        _ => sheet.text(),
    };
    Typed {
        name: style,
        text,
        room: random.one_in(10).then(|| random.below(20) as usize),
    }
}

/// A table within its limits: few levels or all, frames that tie or not, some sources forced.
pub fn any_table(random: &mut Random) -> Table {
    let levels = random.pick(&[1, 2, 4, 8, 8, 8]);
    let first = random.below(8);
    let frames = random.below(4);
    let frame = |random: &mut Random| match frames {
        0 => random.below(4),
        1 => MOST_FRAME - random.below(4),
        2 => 16 * random.below(8),
        _ => random.below(MOST_FRAME + 1),
    };
    let rows = std::array::from_fn(|_| Row {
        priority: (first + random.below(levels)) % 8,
        kind: random.below(4),
        frame: frame(random),
    });
    let forced = match random.below(4) {
        0 => 0,
        // Few normal sources, so that levels have none.
        1 => random.word() | random.word(),
        _ => random.word(),
    };
    let mark = match random.below(4) {
        0 => 0,
        1 => rows[random.below(SOURCES as u32) as usize].frame,
        _ => frame(random),
    };
    Table { rows, forced, mark }
}

/// A table with some numbers at their limits, one beyond, or further beyond in ways that fewer bits would not show.
fn at_limits(random: &mut Random) -> Table {
    let mut table = any_table(random);
    for _ in 0..random.within(1, 3) {
        let row = &mut table.rows[random.below(SOURCES as u32) as usize];
        let (number, limit) = match random.below(7) {
            0 | 1 => (&mut row.priority, MOST_PRIORITY),
            2 | 3 => (&mut row.kind, MOST_TYPE),
            4 | 5 => (&mut row.frame, MOST_FRAME),
            _ => (&mut table.mark, MOST_FRAME),
        };
        *number = match random.below(6) {
            0..=2 => limit,
            3 => limit + 1,
            4 => *number | (1 << random.within(limit.count_ones(), 31)),
            _ => random.word(),
        };
    }
    table
}

/// The parts of a list of texts.
fn parts(list: &[u8]) -> Vec<&[u8]> {
    list.split(|&byte| byte == b'>').collect()
}

/// What may stand between two numbers.
const GAPS: &[u8] =
    b" >\n>\t>\r\n>\r> \t \r\n \n>#\n># 7 note #\n> # 0x1F\r 3 4 5\r\n>\n# a line\n\t\
    >#\xC3\xA4\xFF\0\n>    ";

/// Other gaps and other forms of the numbers, many or few of them, that say the same table.
fn adorn(random: &mut Random, sheet: &mut Sheet) {
    let gaps = parts(GAPS);
    let often = random.pick(&[1, 2, 10, 50]);
    let forms = random.pick(&[1, 2, 10, 50]);
    for nth in 0..NUMBERS {
        if random.one_in(often) {
            sheet.gap(nth, random.pick(&gaps));
        }
        if random.one_in(forms) {
            sheet.retype(nth, random.pick(&Form::ALL));
        }
    }
    if random.one_in(2) {
        sheet.gap(NUMBERS, random.pick(&parts(b">#># end>\n\n")));
    }
}

/// What may stand between quotes, or may not: the last ones are no names.
const NAMES: &[u8] =
    b"a>timer tick>#>0 0 0 # 7> >~!$%'()*+,-./:;=?@[]^_`{|>twenty-four characters..\
    >twenty-five characters...>>a<b>a&b>a\tb>a\nb>\x7F";

/// Names behind some sources; now and then one that is none, or one elsewhere.
fn name(random: &mut Random, sheet: &mut Sheet) {
    let (names, parted) = (parts(NAMES), parts(b" >\t>#\n>\n"));
    let good = random.pick(&[5, 7, 7, 7, names.len()]);
    for source in 0..SOURCES {
        if random.one_in(3) {
            let name = random.pick(&names[..good]);
            sheet.name(3 * source + 3, name, random.pick(&parted));
        }
    }
    if random.one_in(4) {
        let nth = random.below(NUMBERS as u32 + 1) as usize;
        let name = random.pick(&names);
        sheet.name(nth, name, random.pick(&parts(b" > >")));
    }
}

/// Words that are no number, or none of 32 bits.
const NO_NUMBERS: &[u8] =
    b"0x>0X1F>x>0x1G>-1>+1>1,>1.0>1_000>1f>O>0x-1>\0>1\x0B2>4294967296>0x100000000\
    >18446744073709551616>0x10000000000000000";

/// One word, or more of them, that the table cannot have, left out or too many.
fn spoil(random: &mut Random, sheet: &mut Sheet) {
    let no_numbers = parts(NO_NUMBERS);
    let nth = random.below(NUMBERS as u32) as usize;
    match random.below(6) {
        0 => sheet.leave_out(nth),
        1 => sheet.cut(nth),
        2 => sheet.double(nth),
        3 => sheet.put(NUMBERS, random.pick(&parts(b"0>x>0x"))),
        _ => sheet.put(nth, random.pick(&no_numbers)),
    }
    if random.one_in(4) {
        let nth = random.below(NUMBERS as u32 - 1) as usize;
        sheet.put(nth, random.pick(&no_numbers));
    }
}

/// The text with one or more harms that know nothing of numbers.
fn harmed(random: &mut Random, mut text: Vec<u8>) -> Vec<u8> {
    loop {
        let at = random.below(text.len() as u32) as usize;
        match random.below(7) {
            0 => text.truncate(at),
            1 => text[at] ^= 1 << random.below(8),
            2 => text[at] = random.below(256) as u8,
            3 => drop(text.remove(at)),
            4 => text.insert(at, text[at]),
            _ => text.insert(at, random.pick(b"0 \n\t\r#xX9aF\"")),
        }
        if text.is_empty() || !random.one_in(3) {
            return text;
        }
    }
}

#[cfg(test)]
mod tests {
    use super::*;
    use crate::numbered::tests::depends_on_seed_and_number_alone;
    use crate::stack::text;

    #[test]
    fn a_table_depends_on_seed_and_number_alone() {
        depends_on_seed_and_number_alone(|typed: Typed| typed.text);
    }

    #[test]
    fn a_typed_table_says_the_table_however_it_is_adorned() {
        let random = &mut Random::new(9);
        for _ in 0..300 {
            let table = at_limits(random);
            let mut sheet = Sheet::plain(&table);
            assert_eq!(text::table(&sheet.text()), Ok(table.clone()));
            adorn(random, &mut sheet);
            assert_eq!(text::table(&sheet.text()), Ok(table.clone()));
            let length = LONGEST - random.below(3) as usize;
            assert_eq!(text::table(&sheet.of_length(length)), Ok(table));
        }
    }
}
