//! The text of worked cases: blocks of lines, names, and the numbers that words stand for.

use std::collections::BTreeMap;

/// What each name stands for: a number, or another word.
pub type Names = BTreeMap<String, String>;

/// One indented line.
pub struct Line<'a> {
    pub number: usize,
    pub words: Vec<&'a str>,
}

/// A word or a case, by the words of its first line, and the lines indented below it.
pub struct Block<'a> {
    pub head: Vec<&'a str>,
    pub lines: Vec<Line<'a>>,
}

/// What a text has: names for numbers, words for several steps, and cases.
#[derive(Default)]
pub struct Text<'a> {
    pub names: Names,
    pub blocks: Vec<Block<'a>>,
}

impl<'a> Text<'a> {
    pub fn read(text: &'a str) -> Result<Text<'a>, String> {
        let mut read = Text::default();
        for (number, line) in (1..).zip(text.lines()) {
            let code = line.split('#').next().unwrap_or("");
            let words: Vec<&str> = code.split_whitespace().collect();
            let told = |why: &str| format!("line {number}: {why}");
            match words[..] {
                [] => {}
                _ if code.starts_with(' ') => {
                    let block = read.blocks.last_mut();
                    let block = block.ok_or_else(|| told("a step of no case"))?;
                    match block.lines.last_mut() {
                        Some(line) if code.starts_with("    ") => line.words.extend(words),
                        _ => block.lines.push(Line { number, words }),
                    }
                }
                ["name", name, value] => {
                    let value = number_of(value, &read.names).map_err(|why| told(&why))?;
                    read.names.insert(name.to_owned(), value.to_string());
                }
                ["word" | "case", ..] => read.blocks.push(Block {
                    head: words,
                    lines: Vec::new(),
                }),
                _ => return Err(told("a name, a word or a case was expected")),
            }
        }
        Ok(read)
    }

    pub fn cases(&self) -> impl Iterator<Item = &Block<'a>> {
        self.blocks.iter().filter(|block| block.head[0] == "case")
    }

    /// The word of a name.
    pub fn word(&self, name: &str) -> Option<&Block<'a>> {
        self.blocks
            .iter()
            .find(|block| block.head[0] == "word" && block.head[1] == name)
    }
}

/// The operators from the loosest to the tightest; those of one row are taken from the left.
const OPERATORS: [&[&str]; 6] = [
    &[">"],
    &["|"],
    &["&"],
    &["<<"],
    &["+", "-"],
    &["*", "/", "%"],
];

/// What a word without spaces comes to: a decimal number with no zero in front, a hexadecimal one, a name, or both with operators and brackets.
pub fn number_of(word: &str, names: &Names) -> Result<u32, String> {
    if let Some((before, rest)) = word.rsplit_once('(') {
        let (inner, behind) = rest.split_once(')').ok_or("a bracket is not closed")?;
        let inner = number_of(inner, names)?;
        return number_of(&format!("{before}{inner}{behind}"), names);
    }
    for row in OPERATORS {
        let found = row
            .iter()
            .filter_map(|sign| Some((word.rfind(sign)?, sign)));
        let Some((at, sign)) = found.max() else {
            continue;
        };
        let one = number_of(&word[..at], names)?;
        let other = number_of(&word[at + sign.len()..], names)?;
        return Ok(joined(one, sign, other));
    }
    if let Some(rest) = word.strip_prefix('!') {
        return number_of(rest, names).map(|number| !number);
    }
    let read = match word.strip_prefix("0x") {
        Some(digits) => u32::from_str_radix(digits, 16).ok(),
        None => word
            .parse()
            .ok()
            .filter(|_| word == "0" || !word.starts_with('0')),
    };
    match (read, names.get(word)) {
        (Some(number), _) => Ok(number),
        (None, Some(meaning)) if meaning != word => number_of(meaning, names),
        _ => Err(format!("{word:?} is no number")),
    }
}

fn joined(one: u32, sign: &str, other: u32) -> u32 {
    match sign {
        ">" => u32::from(one > other),
        "|" => one | other,
        "&" => one & other,
        "<<" => one << other,
        "+" => one.wrapping_add(other),
        "-" => one.wrapping_sub(other),
        "*" => one.wrapping_mul(other),
        "/" => one / other,
        _ => one % other,
    }
}

/// A word with what stands for a number as that number; parts are joined by `@`.
pub fn normal(word: &str, names: &Names) -> String {
    let parts = word.split('@').map(|part| {
        let number = number_of(part, names).map(|number| number.to_string());
        number.unwrap_or_else(|_| names.get(part).map_or(part, String::as_str).to_owned())
    });
    parts.collect::<Vec<_>>().join("@")
}

/// Values as they are listed, `a..b` for those from a up to b, without b.
pub fn values(words: &[&str], names: &Names) -> Result<Vec<String>, String> {
    let mut values = Vec::new();
    for word in words {
        match word.split_once("..") {
            None => values.push((*word).to_owned()),
            Some((first, end)) => {
                let range = number_of(first, names)?..number_of(end, names)?;
                values.extend(range.map(|number| number.to_string()));
            }
        }
    }
    Ok(values)
}
