//! A picture against the model: every shape and number in it is one that the window asks for, and none is missing; and
//! every byte, those of the words too, is that of the model's own writer.

use super::xml::{read, Element, Node};
use super::{left, middle, top, write, Nesting};
use super::{BAND, FIQ_TOP, HEIGHT, IRQ_TOP, NUMBERED, REFUSALS, STEPS, WIDTH};
use crate::compare::first_difference;
use crate::model::aic::ENTRIES;

/// How much was compared.
#[derive(Clone, Copy, Debug, Default, PartialEq, Eq)]
pub struct Compared {
    pub columns: usize,
    pub bars: usize,
    /// Dark boxes, each of which says that an output is active after a step.
    pub boxes: usize,
    /// Numbers of refusals.
    pub refused: usize,
}

/// Where the scale of the places stands.
const SCALE: usize = 52;
/// Where the words begin, of which all but the title are the same in every picture.
const WORDS: &str = "8";

/// What a picture says, a line for each shape or number in it.
type Facts = Vec<String>;

/// Compares a picture with the window of the model, what it means first, then every byte; or says the first thing that
/// differs.
pub fn compare(text: &[u8], nesting: &Nesting) -> Result<Compared, String> {
    let compared = meaning(text, nesting)?;
    match first_difference(&write(nesting), text) {
        None => Ok(compared),
        Some(difference) => Err(format!("means the same by another text, {difference:?}")),
    }
}

/// Reads a picture and compares its title, its shapes and its numbers. Its other words and its colours mean nothing
/// here, but for those of boxes and bars.
pub fn meaning(text: &[u8], nesting: &Nesting) -> Result<Compared, String> {
    let svg = read(text)?;
    let columns = &nesting.columns;
    frame(&svg, nesting)?;
    let elements: Vec<&Element> = svg.elements().collect();
    let mut facts = Facts::new();
    let mut rest = elements.get(1..).unwrap_or_default();
    while let Some((element, behind)) = rest.split_first() {
        let used = take(&mut facts, element, behind, left(columns.len() + 1))?;
        rest = &behind[used..];
    }
    let mut expected = expected(nesting);
    facts.sort();
    expected.sort();
    if facts != expected {
        let same = facts.iter().zip(&expected).take_while(|(a, b)| a == b);
        let at = same.count();
        let (found, expected) = (facts.get(at), expected.get(at));
        return Err(format!("{found:?}, expected {expected:?}"));
    }
    let found = |what: &str| facts.iter().filter(|fact| fact.contains(what)).count();
    Ok(Compared {
        columns: columns.len(),
        bars: found("a bar of"),
        boxes: found("a dark box"),
        refused: found("refused by"),
    })
}

fn dark(output: &str, column: usize) -> String {
    format!("a dark box of {output} in column {column}")
}

fn refusal(column: usize, number: u32) -> String {
    format!("column {column} refused by {number}")
}

fn step(column: usize, number: u32) -> String {
    format!("column {column} is step {number}")
}

fn scale(place: usize, number: u32) -> String {
    format!("place {place} has number {number}")
}

fn bar(place: usize, from: usize, to: usize, mark: bool, labels: &[String]) -> String {
    let sort = if mark { "mark" } else { "handler" };
    format!("a bar of a {sort} at place {place} from column {from} up to {to}: {labels:?}")
}

const AXES: &str = "the axes";

/// What the window says.
fn expected(nesting: &Nesting) -> Facts {
    let mut facts = vec![AXES.to_string()];
    facts.extend((0..ENTRIES).map(|place| scale(place, place as u32 + 1)));
    for (number, (nth, column)) in (nesting.first..).zip((1..).zip(&nesting.columns)) {
        facts.extend(column.irq.then(|| dark("IRQ", nth)));
        facts.extend(column.fiq.then(|| dark("FIQ", nth)));
        facts.extend(column.refused.map(|number| refusal(nth, number)));
        facts.extend((number % NUMBERED == 0).then(|| step(nth, number)));
    }
    facts.extend(nesting.bars.iter().map(|it| {
        let labels = match (it.entry.source, it.entry.level) {
            (Some(source), Some(level)) => vec![format!("S{source}"), format!("L{level}")],
            _ => vec!["mark".to_string()],
        };
        bar(it.place, it.from, it.to, it.entry.is_mark(), &labels)
    }));
    facts
}

/// The picture as a whole: its sort, its size, its ground, its title, and nothing but elements inside.
fn frame(svg: &Element, nesting: &Nesting) -> Result<(), String> {
    let columns = nesting.columns.len();
    if svg.name != "svg" || svg.attribute("xmlns") != Some("http://www.w3.org/2000/svg") {
        return Err(format!("{} is no picture", svg.name));
    }
    let (width, height) = (number(svg, "width")?, number(svg, "height")?);
    if width < left(columns + 1) || height < STEPS {
        return Err(format!("{width} by {height} is too small"));
    }
    if let Some(words) = svg.inner.iter().find_map(loose) {
        return Err(format!("{words:?} stands between the elements"));
    }
    let all = |element: &Element| {
        let whole = |name| element.attribute(name) == Some("100%");
        element.name == "rect" && whole("width") && whole("height")
    };
    if !svg.elements().next().is_some_and(all) {
        return Err("the ground is missing".to_string());
    }
    let last = nesting.first + columns as u32 - 1;
    let window = format!("AIC, steps {} to {last} of the trace", nesting.first);
    let title = svg.elements().find(|element| element.name == "text");
    let title = title.and_then(Element::text).unwrap_or_default();
    match title.split(':').next() {
        Some(words) if words == window => Ok(()),
        _ => Err(format!("the title is {title:?}, expected {window:?}")),
    }
}

/// Text that is no white space.
fn loose(node: &Node) -> Option<&str> {
    match node {
        Node::Text(text) => Some(text.trim()).filter(|words| !words.is_empty()),
        Node::Element(_) => None,
    }
}

/// A whole number that an attribute gives.
fn number(element: &Element, name: &str) -> Result<usize, String> {
    let value = element.attribute(name);
    let number = value.and_then(|value| value.parse().ok());
    number.ok_or_else(|| format!("{name} of {} is {value:?}", element.name))
}

/// The number that a text is.
fn told(element: &Element) -> Result<u32, String> {
    let text = element.text().unwrap_or_default();
    let number = text.parse().ok();
    number.ok_or_else(|| format!("{text:?} is no number"))
}

/// The column whose left edge or middle this is.
fn column(x: usize, of: fn(usize) -> usize) -> Result<usize, String> {
    let nth = x.saturating_sub(of(0)) / WIDTH;
    match nth > 0 && of(nth) == x {
        true => Ok(nth),
        false => Err(format!("{x} belongs to no column")),
    }
}

fn is_centred(element: &Element) -> bool {
    element.name == "text" && element.attribute("text-anchor") == Some("middle")
}

/// Takes an element, and of those behind it the ones that belong to it; answers how many these are.
fn take(
    facts: &mut Facts,
    element: &Element,
    behind: &[&Element],
    end: usize,
) -> Result<usize, String> {
    let (fact, used) = match element.name.as_str() {
        "rect" if number(element, "height")? == BAND => (taken_box(element)?, 0),
        "rect" => taken_bar(element, behind)?,
        "path" if element.attribute("d") == Some(&format!("M64 92V316H{end}")) => {
            (AXES.to_string(), 0)
        }
        "path" => (taken_refusal(element, behind)?, 1),
        "text" if is_centred(element) => (taken_number(element)?, 0),
        "text" if element.attribute("x") == Some(WORDS) => return Ok(0),
        "text" if element.attribute("transform").is_some() => return Ok(0),
        _ => return Err(format!("{element:?} is not asked for")),
    };
    facts.push(fact);
    Ok(used)
}

/// A dark box of an output.
fn taken_box(element: &Element) -> Result<String, String> {
    let nth = column(number(element, "x")?, left)?;
    let wide = number(element, "width")? == WIDTH;
    match number(element, "y")? {
        _ if !wide || element.attribute("fill") != Some("#333") => {}
        IRQ_TOP => return Ok(dark("IRQ", nth)),
        FIQ_TOP => return Ok(dark("FIQ", nth)),
        _ => {}
    }
    Err(format!("{element:?} is no dark box"))
}

/// A tick with the number of the refusal behind it.
fn taken_refusal(element: &Element, behind: &[&Element]) -> Result<String, String> {
    let label = behind.first().filter(|label| is_centred(label));
    let label = label.ok_or_else(|| format!("{element:?} has no number"))?;
    let (x, y) = (number(label, "x")?, number(label, "y")?);
    let drawn = element.attribute("d").unwrap_or_default();
    match y == REFUSALS && drawn.starts_with(&format!("M{x} ")) {
        true => Ok(refusal(column(x, middle)?, told(label)?)),
        false => Err(format!("{element:?} belongs to no refused step")),
    }
}

/// The number of a step or of a place.
fn taken_number(element: &Element) -> Result<String, String> {
    let (x, y) = (number(element, "x")?, number(element, "y")?);
    let place = (0..ENTRIES).find(|&place| top(place) < y && y < top(place) + HEIGHT);
    match (place, y) {
        (Some(place), _) if x == SCALE => Ok(scale(place, told(element)?)),
        (_, STEPS) => Ok(step(column(x, middle)?, told(element)?)),
        _ => Err(format!("{element:?} belongs to no column")),
    }
}

/// A bar, and how many labels in it stand behind it.
fn taken_bar(element: &Element, behind: &[&Element]) -> Result<(String, usize), String> {
    let (x, y) = (number(element, "x")?, number(element, "y")?);
    let width = number(element, "width")?;
    let place = (0..ENTRIES).find(|&place| top(place) == y);
    let place = place.ok_or_else(|| format!("{y} is the edge of no place"))?;
    let from = column(x, left)?;
    if number(element, "height")? != HEIGHT || width == 0 || width % WIDTH != 0 {
        return Err(format!("{element:?} is no bar"));
    }
    let dashed = element.attribute("stroke-dasharray").is_some();
    let mark = match (element.attribute("fill"), dashed) {
        (Some("#ddd"), true) => true,
        (Some("white"), false) => false,
        _ => return Err(format!("{element:?} is neither a handler nor a mark")),
    };
    let inside = |label: &Element| {
        let label_x = number(label, "x").ok()?;
        let label_y = number(label, "y").ok()?;
        let here = (x..x + WIDTH).contains(&label_x) && (y..y + HEIGHT).contains(&label_y);
        let plain = label.name == "text" && !is_centred(label);
        (here && plain).then(|| label.text().unwrap_or_default().to_string())
    };
    let labels: Vec<String> = behind.iter().map_while(|label| inside(label)).collect();
    let fact = bar(place, from, from + width / WIDTH, mark, &labels);
    Ok((fact, labels.len()))
}
