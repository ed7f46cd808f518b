//! A reader of value change dumps, by the rules of the format alone (IEEE 1364-2005, 18.2): words apart by white space,
//! sections from a keyword to `$end`, declarations first, then times and the changes of values.

/// What stands before `$enddefinitions`, in its order.
#[derive(Clone, Debug, PartialEq, Eq)]
pub enum Declared<'a> {
    /// The words of a `$comment`.
    Comment(Vec<&'a str>),
    /// The words of `$date` or `$version`.
    Words(&'a str, Vec<&'a str>),
    Timescale(String),
    Scope {
        sort: &'a str,
        name: &'a str,
    },
    Variable(Variable<'a>),
    Upscope,
}

/// A variable, and the code by which its changes name it.
#[derive(Clone, Debug, PartialEq, Eq)]
pub struct Variable<'a> {
    pub sort: &'a str,
    pub width: u32,
    pub code: &'a str,
    /// The name, with a bit or range behind it where one is said.
    pub name: String,
}

/// What stands behind `$enddefinitions`, in its order.
#[derive(Clone, Debug, PartialEq, Eq)]
pub enum Event<'a> {
    Comment(Vec<&'a str>),
    Time(u64),
    /// `$dumpvars`, `$dumpall`, `$dumpon` or `$dumpoff`, and its end.
    Dump(&'a str),
    EndOfDump,
    Change {
        code: &'a str,
        value: Value<'a>,
    },
}

/// A value as it is written. The digits are 0, 1, x and z in either case, the highest first.
#[derive(Clone, Copy, Debug, PartialEq, Eq)]
pub enum Value<'a> {
    Scalar(&'a str),
    Vector(&'a str),
    Real(&'a str),
}

/// A number of so many bits, or the digits of a value that has an unknown one among them.
#[derive(Clone, Debug, PartialEq, Eq)]
pub enum Bits {
    Known(u64),
    Unknown(String),
}

impl Value<'_> {
    /// The bits that are meant: a shorter value is filled up from the left, by 0 where it begins with 1, else by what it
    /// begins with (18.2.2). None where it has more digits than the variable, or is no row of bits.
    pub fn bits(&self, width: u32) -> Option<Bits> {
        let (Value::Scalar(digits) | Value::Vector(digits)) = *self else {
            return None;
        };
        if digits.len() as u64 > u64::from(width) || width > 64 {
            return None;
        }
        if let Ok(number) = u64::from_str_radix(digits, 2) {
            return Some(Bits::Known(number));
        }
        let fill = digits.chars().next().filter(|&digit| digit != '1');
        let missing = width as usize - digits.len();
        let filled = fill.unwrap_or('0').to_string().repeat(missing) + digits;
        Some(Bits::Unknown(filled.to_ascii_lowercase()))
    }
}

/// A dump that keeps to the rules.
#[derive(Clone, Debug, Default, PartialEq, Eq)]
pub struct Dump<'a> {
    pub declared: Vec<Declared<'a>>,
    pub events: Vec<Event<'a>>,
}

/// Reads a whole dump, or says what is against the rules and in which line.
pub fn read(text: &[u8]) -> Result<Dump<'_>, String> {
    let text = std::str::from_utf8(text).map_err(|_| "it is no plain text".to_string())?;
    if let Some(odd) = text.chars().find(|&c| !c.is_ascii() || odd_control(c)) {
        return Err(format!("{odd:?} is no printable character"));
    }
    let mut reader = Reader { text, at: 0 };
    let dump = reader.dump();
    dump.map_err(|why| format!("line {}: {why}", reader.line()))
}

fn odd_control(c: char) -> bool {
    c.is_ascii_control() && !c.is_ascii_whitespace()
}

/// The text, and how far it is read.
struct Reader<'a> {
    text: &'a str,
    at: usize,
}

impl<'a> Reader<'a> {
    /// The line of the last word that was read, from 1.
    fn line(&self) -> usize {
        self.text[..self.at].matches('\n').count() + 1
    }

    /// The next word, if there is one.
    fn next(&mut self) -> Option<&'a str> {
        let rest = &self.text[self.at..];
        let begin = rest.find(|c: char| !c.is_ascii_whitespace())?;
        let word = &rest[begin..];
        let length = word.find(|c: char| c.is_ascii_whitespace());
        let word = &word[..length.unwrap_or(word.len())];
        self.at += begin + word.len();
        Some(word)
    }

    fn word(&mut self) -> Result<&'a str, String> {
        self.next().ok_or_else(|| "the text ends here".to_string())
    }

    /// All words up to `$end`.
    fn words(&mut self) -> Result<Vec<&'a str>, String> {
        let mut words = Vec::new();
        loop {
            match self.word()? {
                "$end" => return Ok(words),
                word => words.push(word),
            }
        }
    }

    fn dump(&mut self) -> Result<Dump<'a>, String> {
        let mut dump = Dump::default();
        let mut depth = 0_u32;
        while let Some(declared) = self.declared()? {
            match declared {
                Declared::Scope { .. } => depth += 1,
                Declared::Upscope => {
                    depth = depth.checked_sub(1).ok_or("$upscope without a scope")?;
                }
                _ => {}
            }
            dump.declared.push(declared);
        }
        if depth != 0 {
            return Err("a scope is open at $enddefinitions".to_string());
        }
        let mut dumping = false;
        while let Some(word) = self.next() {
            let event = self.event(word, dumping)?;
            dumping = match event {
                Event::Dump(_) => true,
                Event::EndOfDump => false,
                _ => dumping,
            };
            dump.events.push(event);
        }
        if dumping {
            return Err("the text ends in a section".to_string());
        }
        Ok(dump)
    }

    /// The next declaration, or none at `$enddefinitions`.
    fn declared(&mut self) -> Result<Option<Declared<'a>>, String> {
        let keyword = self.word()?;
        if keyword == "$var" {
            return self.variable().map(Some);
        }
        if !is_one_of(DECLARATIONS, keyword) {
            return Err(format!("{keyword:?} is no declaration"));
        }
        let words = self.words()?;
        Ok(Some(match (keyword, words.as_slice()) {
            ("$comment", _) => Declared::Comment(words),
            ("$date" | "$version", _) => Declared::Words(keyword, words),
            ("$timescale", _) => Declared::Timescale(timescale(&words.concat())?),
            ("$scope", [sort, name]) if is_one_of(SCOPES, sort) => Declared::Scope { sort, name },
            ("$upscope", []) => Declared::Upscope,
            ("$enddefinitions", []) => return Ok(None),
            _ => return Err(format!("{words:?} in {keyword}")),
        }))
    }

    /// The words of `$var` have their places: a code may be any printable characters, `$end` too.
    fn variable(&mut self) -> Result<Declared<'a>, String> {
        let (sort, width, code) = (self.word()?, self.word()?, self.word()?);
        let name = self.word()?.to_string();
        let name = name + &self.words()?.concat();
        let number = width.parse().ok().filter(|&width: &u32| width > 0);
        let width = number.ok_or_else(|| format!("a width {width:?}"))?;
        if !is_one_of(VARIABLES, sort) {
            return Err(format!("a variable of sort {sort:?}"));
        }
        if name.starts_with('$') {
            return Err(format!("a variable without a name, or {name:?}"));
        }
        Ok(Declared::Variable(Variable {
            sort,
            width,
            code,
            name,
        }))
    }

    /// What a word behind `$enddefinitions` begins; inside of a section with values or outside.
    fn event(&mut self, word: &'a str, dumping: bool) -> Result<Event<'a>, String> {
        if let Some(time) = word.strip_prefix('#') {
            let plain = !time.is_empty() && time.bytes().all(|byte| byte.is_ascii_digit());
            return match time.parse() {
                Ok(time) if plain && !dumping => Ok(Event::Time(time)),
                _ => Err(format!("{word:?} is no time, or stands in a section")),
            };
        }
        match word {
            "$comment" => return Ok(Event::Comment(self.words()?)),
            "$end" if dumping => return Ok(Event::EndOfDump),
            _ if is_one_of(DUMPS, word) && !dumping => return Ok(Event::Dump(word)),
            _ => {}
        }
        let (sign, rest) = word.split_at(1);
        match sign {
            "b" | "B" if !rest.is_empty() && rest.bytes().all(is_digit) => Ok(Event::Change {
                value: Value::Vector(rest),
                code: self.word()?,
            }),
            "r" | "R" if rest.parse::<f64>().is_ok() => Ok(Event::Change {
                value: Value::Real(rest),
                code: self.word()?,
            }),
            _ if is_digit(sign.as_bytes()[0]) && !rest.is_empty() => Ok(Event::Change {
                value: Value::Scalar(sign),
                code: rest,
            }),
            _ => Err(format!("{word:?} is no change, time or section")),
        }
    }
}

fn is_digit(byte: u8) -> bool {
    b"01xXzZ".contains(&byte)
}

/// A number 1, 10 or 100 and a unit, with white space between them or none.
fn timescale(words: &str) -> Result<String, String> {
    let good = |number: &&str| {
        let unit = words.strip_prefix(*number);
        unit.is_some_and(|unit| is_one_of("s ms us ns ps fs", unit))
    };
    match ["1", "10", "100"].iter().any(good) {
        true => Ok(words.to_string()),
        false => Err(format!("a timescale {words:?}")),
    }
}

/// Whether a word is one of a list.
fn is_one_of(list: &str, word: &str) -> bool {
    list.split(' ').any(|other| other == word)
}

const DECLARATIONS: &str = "$comment $date $enddefinitions $scope $timescale $upscope $version";
const DUMPS: &str = "$dumpvars $dumpall $dumpon $dumpoff";
const SCOPES: &str = "begin fork function module task";
const VARIABLES: &str =
    "event integer parameter real realtime reg supply0 supply1 time tri triand \
    trior trireg tri0 tri1 wand wire wor";

#[cfg(test)]
mod tests {
    use super::*;

    /// The example of 18.2, in parts: several variables, codes of odd characters, unknown values, two dumps.
    const EXAMPLE: &str = "$date June 26, 1989 10:05:41 $end\n\
        $version VERILOG-SIMULATOR 1.0a $end\n\
        $timescale 1 ns $end $scope module top $end $scope module m1 $end\n\
        $var trireg 1 *@ net1 $end $var trireg 1 *# net2 $end $var trireg 1 *$ net3 $end\n\
        $upscope $end $scope task t1 $end $var reg 32 (k accumulator[31:0] $end\n\
        $var integer 32 {2 index $end $upscope $end $upscope $end $enddefinitions $end\n\
        $comment Note: $dumpvars was executed at time '#500'. $end\n\
        #500 $dumpvars x*@ x*# x*$ bx (k bx {2 $end\n\
        #505 0*@ 1*# 1*$ b10zx1110x11100 (k b1111000101z01x {2\n\
        #510 0*$\n#520 1*$ #530 0*$ bz (k\n#535 $dumpall 0*@ 1*# 0*$ bz (k b1111000101z01x {2 $end\n";

    /// The codes of the changes in a dump.
    fn changed<'a>(dump: &Dump<'a>) -> Vec<&'a str> {
        let changes = dump.events.iter().filter_map(|event| match event {
            Event::Change { code, .. } => Some(*code),
            _ => None,
        });
        changes.collect()
    }

    #[test]
    fn the_standards_example_is_read() {
        let dump = read(EXAMPLE.as_bytes()).expect("it is a good one");
        let variables = dump.declared.iter().filter_map(|declared| match declared {
            Declared::Variable(variable) => Some(format!("{} {}", variable.code, variable.width)),
            _ => None,
        });
        let codes: Vec<String> = variables.collect();
        assert_eq!(codes, ["*@ 1", "*# 1", "*$ 1", "(k 32", "{2 32"]);
        let times = dump.events.iter().filter_map(|event| match event {
            Event::Time(time) => Some(*time),
            _ => None,
        });
        let times: Vec<u64> = times.collect();
        assert_eq!(times, [500, 505, 510, 520, 530, 535]);
        assert_eq!(changed(&dump).len(), 19);
    }

    #[test]
    fn codes_may_look_like_anything() {
        let text = "$var wire 4 # a $end $var wire 1 $ b $end $var wire 2 $end c $end\n\
            $enddefinitions $end #0 b1 # 0$ b1 $end 1# b11 $";
        let dump = read(text.as_bytes()).expect("it keeps to the rules");
        assert_eq!(dump.declared.len(), 3);
        assert_eq!(changed(&dump), ["#", "$", "$end", "#", "$"]);
    }

    #[test]
    fn values_are_filled_up_from_the_left() {
        let bits = |digits: &'static str, width| Value::Vector(digits).bits(width);
        let unknown = |digits: &str| Some(Bits::Unknown(digits.to_string()));
        assert_eq!(bits("10", 4), Some(Bits::Known(2)));
        assert_eq!(bits("0010", 4), Some(Bits::Known(2)));
        assert_eq!(bits("00010", 4), None);
        assert_eq!(bits("X10", 4), unknown("xx10"));
        assert_eq!(bits("zx0", 4), unknown("zzx0"));
        assert_eq!(bits("0X10", 6), unknown("000x10"));
        assert_eq!(bits("1x", 4), unknown("001x"));
        assert_eq!(Value::Scalar("z").bits(1), unknown("z"));
        assert_eq!(Value::Real("1.5").bits(64), None);
    }

    #[test]
    fn declarations_that_break_the_rules_are_refused() {
        let bad = [
            "",
            "$enddefinitions",
            "$scope module a $end $enddefinitions $end",
            "$upscope $end $enddefinitions $end",
            "$scope module $end $enddefinitions $end",
            "$scope engine a $end $upscope $end $enddefinitions $end",
            "$var wire 0 ! a $end $enddefinitions $end",
            "$var wire x ! a $end $enddefinitions $end",
            "$var wires 1 ! a $end $enddefinitions $end",
            "$var wire 1 ! $end $enddefinitions $end",
            "$timescale 5 ns $end $enddefinitions $end",
            "$timescale 1 hour $end $enddefinitions $end",
            "$comment without an end",
            "#0 $enddefinitions $end",
        ];
        for text in bad {
            assert!(read(text.as_bytes()).is_err(), "{text:?}");
        }
    }

    #[test]
    fn changes_that_break_the_rules_are_refused() {
        let bad =
            "#, #-1, #+1, #1x, b12 !, b !, b1, 1, 2!, $end, $dumpvars 1!, $dumpvars #1 $end, \
            $dumpvars $dumpall $end $end, $var wire 1 ! a $end, 1\u{7}, 1\u{e9}";
        for changes in bad.split(", ") {
            let text = format!("$enddefinitions $end\n{changes}");
            assert!(read(text.as_bytes()).is_err(), "{text:?}");
        }
        assert_eq!(
            read(b"$enddefinitions $end\n#0\n??\n").err().as_deref(),
            Some("line 3: \"??\" is no change, time or section")
        );
    }
}
