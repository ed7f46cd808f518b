//! Reads an explanation back, line by line and part by part, and works out from what it tells the listing of its trace.

use crate::typed::CONTROLLERS;

/// An explanation as it was read.
#[derive(Clone, Debug, Default, PartialEq, Eq)]
pub struct Explained {
    /// The words of the first statement, and its comment.
    pub controller: Option<(Vec<String>, String)>,
    pub steps: Vec<Line>,
    /// The refusal and offset that end the trace, and what is said of them.
    pub end: Option<(u32, u32, String)>,
}

/// The line of a step.
#[derive(Clone, Debug, PartialEq, Eq)]
pub struct Line {
    pub words: Vec<String>,
    /// How many bytes the statement has.
    pub width: usize,
    pub number: u32,
    /// The register with its document and section, or the line by its name.
    pub place: String,
    pub value: Option<u32>,
    pub refusal: Option<(u32, String)>,
    pub fields: Option<String>,
    pub deeds: Vec<String>,
    pub outputs: Vec<String>,
}

/// How deeds begin.
const DEEDS: &str = "starts source |opens a mark|closes |nothing open|remembers |forgets|\
    asserts host |ends host |chooses input |frees ";
const OUTPUTS: [&str; 4] = ["IRQ active", "IRQ inactive", "FIQ active", "FIQ inactive"];

/// The explanation that a text is, or the first line that is none of one.
pub fn read(text: &[u8]) -> Result<Explained, String> {
    let text = std::str::from_utf8(text).map_err(|error| error.to_string())?;
    let whole = text.is_empty() || text.ends_with('\n');
    let mut explained = Explained::default();
    for (at, line) in text.lines().enumerate() {
        let wrong = |why: &str| format!("line {}: {why}: {line}", at + 1);
        if !whole || explained.end.is_some() || line.len() > 255 || !line.is_ascii() {
            return Err(wrong("no line of an explanation"));
        }
        if let Some(end) = line.strip_prefix("# E ") {
            explained.end = Some(ended(end).ok_or_else(|| wrong("no end"))?);
            continue;
        }
        let (words, width, comment) = parted(line).ok_or_else(|| wrong("no statement"))?;
        let first = CONTROLLERS.iter().any(|(name, _)| *name == words[0]);
        match (first, at) {
            (true, 0) => explained.controller = Some((words, comment.to_owned())),
            (false, _) => {
                let step = step(words, width, comment).ok_or_else(|| wrong("no step"))?;
                explained.steps.push(step);
            }
            _ => return Err(wrong("a second controller")),
        }
    }
    Ok(explained)
}

/// The words of the statement, its width, and the comment, which begins where it is due.
fn parted(line: &str) -> Option<(Vec<String>, usize, &str)> {
    let (code, comment) = line.split_once("# ")?;
    let statement = code.trim_end_matches(' ');
    let width = statement.len();
    let due = if width < 28 { 28 } else { width + 1 };
    let words: Vec<String> = statement.split(' ').map(str::to_owned).collect();
    let sound = code.len() == due && words.iter().all(|word| !word.is_empty());
    sound.then_some((words, width, comment))
}

fn ended(end: &str) -> Option<(u32, u32, String)> {
    let (numbers, words) = end.split_once(": ")?;
    let (refusal, offset) = numbers.split_once(' ')?;
    let (refusal, offset) = (refusal.parse().ok()?, offset.parse().ok()?);
    Some((refusal, offset, words.to_owned()))
}

fn step(words: Vec<String>, width: usize, comment: &str) -> Option<Line> {
    let mut parts = comment.split("; ");
    let head = parts.next()?;
    let (head, refusal) = match head.split_once(" refused by ") {
        Some((head, refusal)) => {
            let (number, words) = refusal.split_once(": ")?;
            (head, Some((number.parse().ok()?, words.to_owned())))
        }
        None => (head, None),
    };
    let (head, value) = match head.split_once(" = 0x") {
        Some((head, digits)) if digits.len() == 8 => {
            (head, Some(u32::from_str_radix(digits, 16).ok()?))
        }
        Some(_) => return None,
        None => (head, None),
    };
    let (number, place) = head.split_once(' ').unwrap_or((head, ""));
    let mut line = Line {
        words,
        width,
        number: number.parse().ok()?,
        place: place.to_owned(),
        value,
        refusal,
        fields: None,
        deeds: Vec::new(),
        outputs: Vec::new(),
    };
    for part in parts {
        let nothing_before = line.deeds.is_empty() && line.outputs.is_empty();
        if OUTPUTS.contains(&part) {
            line.outputs.push(part.to_owned());
        } else if DEEDS.split('|').any(|deed| part.starts_with(deed)) && line.outputs.is_empty() {
            line.deeds.push(part.to_owned());
        } else if line.fields.is_none() && nothing_before {
            line.fields = Some(part.to_owned());
        } else {
            return None;
        }
    }
    Some(line)
}

/// What the listing shows behind a step, as far as deeds and outputs tell it.
#[derive(Default)]
struct Shown {
    irq: u32,
    fiq: u32,
    /// Open entries of an AIC, asserted hosts of a CIC.
    count: u32,
    /// The input that an AINTC has chosen for IRQ.
    input: u32,
}

impl Shown {
    fn see(&mut self, line: &Line) -> Option<()> {
        for output in &line.outputs {
            let (side, active) = output.split_once(' ')?;
            let shown = match side {
                "IRQ" => &mut self.irq,
                _ => &mut self.fiq,
            };
            let active = u32::from(active == "active");
            if *shown == active {
                return None;
            }
            *shown = active;
        }
        for deed in &line.deeds {
            let words: Vec<&str> = deed.split(' ').collect();
            let hosts = || match words.get(4) {
                Some(more) => more.parse::<u32>().ok().map(|more| more + 1),
                None => Some(1),
            };
            match words[..] {
                ["starts", ..] | ["opens", ..] => self.count += 1,
                ["closes", ..] => self.count = self.count.checked_sub(1)?,
                ["asserts", ..] => self.count += hosts()?,
                ["ends", ..] => self.count = self.count.checked_sub(hosts()?)?,
                ["chooses", _, input, _, "IRQ"] => self.input = input.parse().ok()?,
                ["frees", "IRQ"] => self.input = 0,
                _ => {}
            }
        }
        Some(())
    }
}

/// The lines of the listing that an explanation tells of; of a CIC the lowest host is not told, and stands as `?`.
pub fn listing(explained: &Explained) -> Result<Vec<String>, String> {
    let mut lines = Vec::new();
    let name = explained.controller.as_ref().map(|(words, _)| &*words[0]);
    if let Some(name) = name {
        lines.push(match name {
            "indexed" => "CIC".to_owned(),
            name => name.to_uppercase(),
        });
    }
    let mut shown = Shown::default();
    for line in &explained.steps {
        shown
            .see(line)
            .ok_or_else(|| format!("step {} tells what cannot be", line.number))?;
        let letter = match (&line.refusal, &*line.words[0]) {
            (Some(_), _) => 'X',
            (None, "read") => 'R',
            (None, "write") => 'W',
            _ => 'L',
        };
        let refusal = line.refusal.as_ref().map(|(number, _)| *number);
        let value = refusal.or(line.value).unwrap_or(0);
        let outputs = format!("{} {}", shown.irq, shown.fiq);
        let columns = match name {
            Some("cic" | "indexed") => format!("{} ? 0", shown.count),
            Some("aintc") => format!("{outputs} {}", shown.input),
            _ => format!("{outputs} {}", shown.count),
        };
        lines.push(format!("{} {letter} {value:08X} {columns}", line.number));
    }
    if let Some((refusal, offset, _)) = &explained.end {
        lines.push(format!("E {refusal} {offset}"));
    }
    Ok(lines)
}

/// Whether an explanation tells what a listing has.
pub fn agrees(text: &[u8], listed: &[u8]) -> Result<(), String> {
    let told = listing(&read(text)?)?;
    let listed = String::from_utf8_lossy(listed);
    let listed: Vec<&str> = listed.lines().collect();
    let same = |(told, listed): (&String, &&str)| {
        let (told, listed) = (told.split(' '), listed.split(' '));
        told.zip(listed).all(|(a, b)| a == b || a == "?")
    };
    match told.len() == listed.len() && told.iter().zip(&listed).all(same) {
        true => Ok(()),
        false => Err("the listing has another line".to_owned()),
    }
}
