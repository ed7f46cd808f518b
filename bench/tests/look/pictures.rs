//! Wrong pictures: windows drawn otherwise, and pictures spoiled in their text. The comparison finds every one.

use bench::look::{Generator, Window};
use bench::model::aic::Entry;
use bench::picture::{compare, meaning, nesting, write, Bar, Column, Compared, Nesting};
use bench::random::Random;
use bench::trace::PROGRAM_LIMIT;

use super::{all_found, begins};

const WINDOWS: usize = 1_500;

/// The windows that there is a picture of, with what each has to show.
fn windows() -> Vec<(Window, Nesting)> {
    let generator = Generator::new(1);
    let windows = (0..WINDOWS).map(|number| generator.window(number));
    let drawn = windows.filter_map(|window| {
        let (first, steps) = (window.first.parse().ok()?, window.steps.parse().ok()?);
        let nesting = nesting(&window.trace, PROGRAM_LIMIT, first, steps)?;
        Some((window, nesting))
    });
    drawn.collect()
}

/// Makes a window wrong, or leaves it where it has nothing of the sort.
type Wrong = fn(&mut Random, &Window, &mut Nesting) -> Option<()>;

fn pick<'a, T>(
    random: &mut Random,
    those: &'a mut [T],
    holds: impl Fn(&T) -> bool,
) -> Option<&'a mut T> {
    let all: Vec<usize> = (0..those.len()).filter(|&nth| holds(&those[nth])).collect();
    match all.is_empty() {
        true => None,
        false => those.get_mut(random.pick(&all)),
    }
}

/// One of the bars for which something holds.
fn any<'a>(
    random: &mut Random,
    nesting: &'a mut Nesting,
    holds: impl Fn(&Bar) -> bool,
) -> Option<&'a mut Bar> {
    pick(random, &mut nesting.bars, holds)
}

/// One of the columns for which something holds.
fn column<'a>(
    random: &mut Random,
    nesting: &'a mut Nesting,
    holds: impl Fn(&Column) -> bool,
) -> Option<&'a mut Column> {
    pick(random, &mut nesting.columns, holds)
}

const WRONG: [(&str, Wrong); 31] = [
    ("a bar one column short", |random, _, nesting| {
        any(random, nesting, |bar| bar.to > bar.from + 1).map(|bar| bar.to -= 1)
    }),
    ("a bar one column long", |random, _, nesting| {
        let end = nesting.columns.len();
        any(random, nesting, |bar| bar.to <= end).map(|bar| bar.to += 1)
    }),
    ("a bar one column late", |random, _, nesting| {
        any(random, nesting, |bar| bar.to > bar.from + 1).map(|bar| bar.from += 1)
    }),
    ("a bar one column early", |random, _, nesting| {
        any(random, nesting, |bar| bar.from > 1).map(|bar| bar.from -= 1)
    }),
    ("a closed bar up to the end", |random, _, nesting| {
        let end = nesting.columns.len() + 1;
        any(random, nesting, |bar| bar.to < end).map(|bar| bar.to = end)
    }),
    ("a bar left out", |random, _, nesting| {
        let gone = *any(random, nesting, |_| true)?;
        nesting.bars.retain(|bar| *bar != gone);
        Some(())
    }),
    ("a bar twice", |random, _, nesting| {
        let again = *any(random, nesting, |_| true)?;
        nesting.bars.push(again);
        Some(())
    }),
    ("a bar one place higher", |random, _, nesting| {
        any(random, nesting, |bar| bar.place < 7).map(|bar| bar.place += 1)
    }),
    ("the places upside down", |_, _, nesting| {
        nesting
            .bars
            .iter_mut()
            .for_each(|bar| bar.place = 7 - bar.place);
        Some(())
    }),
    ("no bars from before the window", |_, window, nesting| {
        let before = before(window, nesting)?;
        let old = |bar: &Bar| bar.from == 1 && bar.place < before;
        nesting.bars.retain(|bar| !old(bar));
        Some(())
    }),
    ("a bar that the first step closes", |_, window, nesting| {
        let before = before(window, nesting)?;
        let open = nesting.bars.iter().filter(|bar| bar.from == 1).count();
        (open < before).then(|| {
            nesting.bars.push(Bar {
                place: before - 1,
                from: 1,
                to: 2,
                entry: MARK,
            });
        })
    }),
    ("no bars opened in the last column", |_, _, nesting| {
        let end = nesting.columns.len();
        nesting.bars.retain(|bar| bar.from != end);
        Some(())
    }),
    ("a second bar joined to the first", |_, _, nesting| {
        let bars = nesting.bars.clone();
        let first = nesting.bars.iter_mut().find(|bar| {
            let next = |other: &&Bar| other.place == bar.place && other.from > bar.from;
            bars.iter().any(|other| next(&other))
        })?;
        let next = bars
            .iter()
            .filter(|bar| bar.place == first.place && bar.from > first.from);
        let next = *next.min_by_key(|bar| bar.from)?;
        first.to = next.to;
        nesting.bars.retain(|bar| *bar != next);
        Some(())
    }),
    ("a mark as a handler of source 0", |random, _, nesting| {
        let bar = any(random, nesting, |bar| bar.entry.is_mark())?;
        bar.entry.source = Some(0);
        bar.entry.level = bar.entry.level.or(Some(255));
        Some(())
    }),
    ("a handler as a mark", |random, _, nesting| {
        let bar = any(random, nesting, |bar| !bar.entry.is_mark())?;
        bar.entry.source = None;
        Some(())
    }),
    ("another source", |random, _, nesting| {
        let bar = any(random, nesting, |bar| !bar.entry.is_mark())?;
        bar.entry.source = bar.entry.source.map(|source| source ^ 1);
        Some(())
    }),
    ("another level", |random, _, nesting| {
        let bar = any(random, nesting, |bar| !bar.entry.is_mark())?;
        bar.entry.level = bar.entry.level.map(|level| level ^ 1);
        Some(())
    }),
    ("source and level exchanged", |random, _, nesting| {
        let bar = any(random, nesting, |bar| {
            !bar.entry.is_mark() && bar.entry.source != bar.entry.level
        })?;
        std::mem::swap(&mut bar.entry.source, &mut bar.entry.level);
        Some(())
    }),
    ("the labels of two bars exchanged", |random, _, nesting| {
        let one = *any(random, nesting, |_| true)?;
        let other = any(random, nesting, |bar| {
            bar.entry != one.entry && !bar.entry.is_mark() && !one.entry.is_mark()
        })?;
        other.entry = one.entry;
        Some(())
    }),
    ("an IRQ box left out", |random, _, nesting| {
        column(random, nesting, |it| it.irq).map(|it| it.irq = false)
    }),
    ("an IRQ box too many", |random, _, nesting| {
        column(random, nesting, |it| !it.irq).map(|it| it.irq = true)
    }),
    ("an FIQ box left out", |random, _, nesting| {
        column(random, nesting, |it| it.fiq).map(|it| it.fiq = false)
    }),
    ("an FIQ box too many", |random, _, nesting| {
        column(random, nesting, |it| !it.fiq).map(|it| it.fiq = true)
    }),
    ("IRQ and FIQ exchanged", |_, _, nesting| {
        for column in &mut nesting.columns {
            std::mem::swap(&mut column.irq, &mut column.fiq);
        }
        Some(())
    }),
    ("the outputs one column late", |_, _, nesting| {
        for nth in (1..nesting.columns.len()).rev() {
            nesting.columns[nth].irq = nesting.columns[nth - 1].irq;
            nesting.columns[nth].fiq = nesting.columns[nth - 1].fiq;
        }
        Some(())
    }),
    ("a refusal left out", |random, _, nesting| {
        column(random, nesting, |it| it.refused.is_some()).map(|it| it.refused = None)
    }),
    ("a refusal too many", |random, _, nesting| {
        column(random, nesting, |it| it.refused.is_none()).map(|it| it.refused = Some(1))
    }),
    ("another refusal", |random, _, nesting| {
        let it = column(random, nesting, |it| it.refused.is_some())?;
        it.refused = it.refused.map(|number| number + 1);
        Some(())
    }),
    ("a column too few", |_, _, nesting| {
        nesting.columns.pop();
        (!nesting.columns.is_empty()).then_some(())
    }),
    ("a column too many", |_, _, nesting| {
        nesting.columns.push(*nesting.columns.last()?);
        Some(())
    }),
    ("the next window", |_, window, nesting| {
        let steps = nesting.columns.len() as u32;
        let next = bench::picture::nesting(&window.trace, PROGRAM_LIMIT, nesting.first + 1, steps);
        *nesting = next?;
        Some(())
    }),
];

const MARK: Entry = Entry {
    source: None,
    level: None,
};

/// How many entries are open before the window.
fn before(window: &Window, now: &Nesting) -> Option<usize> {
    let before = nesting(&window.trace, PROGRAM_LIMIT, now.first - 1, 1)?;
    Some(before.bars.len())
}

fn told(window: &Window) -> String {
    let (first, steps) = (&window.first, &window.steps);
    format!("{first} {steps} of {}", begins(&window.trace))
}

/// Whether two windows show the same; the order of the bars is nothing that one sees.
fn same(one: &Nesting, other: &Nesting) -> bool {
    let bars = |nesting: &Nesting| {
        let mut bars = nesting.bars.clone();
        bars.sort_by_key(|bar| (bar.place, bar.from));
        bars
    };
    one.columns == other.columns && one.first == other.first && bars(one) == bars(other)
}

#[test]
fn what_the_model_draws_is_right() {
    let windows = windows();
    assert!(windows.len() > WINDOWS / 2);
    for (window, nesting) in windows {
        let compared = compare(&write(&nesting), &nesting).expect("nothing differs");
        assert_eq!(compared.bars, nesting.bars.len(), "{}", told(&window));
        assert_eq!(compared.columns, nesting.columns.len());
    }
}

#[test]
fn wrong_pictures_are_told_apart() {
    let mut found: Vec<(&str, usize)> = WRONG.iter().map(|&(name, _)| (name, 0)).collect();
    for (number, (window, right)) in windows().into_iter().enumerate() {
        let random = &mut Random::for_item(4, number as u64);
        for (&(name, wrong), (_, count)) in WRONG.iter().zip(&mut found) {
            let mut other = right.clone();
            if wrong(random, &window, &mut other).is_none() || same(&other, &right) {
                continue;
            }
            let compared = meaning(&write(&other), &right);
            assert!(compared.is_err(), "{name}: {}", told(&window));
            *count += 1;
        }
    }
    all_found("pictures", &found);
}

/// Whether a line of a picture is one of those that are the same in every picture.
fn is_words(line: &str) -> bool {
    line.starts_with("<text x=\"8\"") && !line.contains("AIC") || line.contains("transform")
}

/// A line with one digit changed of a number in quotation marks that says where something is.
fn other_digit(random: &mut Random, line: &str) -> Option<String> {
    let end = line.find(" fill").unwrap_or(line.len());
    let quoted = |at: &usize| line[..*at].matches('"').count() % 2 == 1;
    let numeric = |at: &usize| line.as_bytes()[*at].is_ascii_digit() && quoted(at);
    let places: Vec<usize> = (0..end).filter(numeric).collect();
    if places.is_empty() {
        return None;
    }
    let at = random.pick(&places);
    let digit = line.as_bytes()[at] - b'0';
    let other = (digit + 1 + random.below(9) as u8) % 10;
    let mut line = line.to_string();
    line.replace_range(at..=at, &other.to_string());
    Some(line)
}

/// Makes another row of lines of the one at a place.
type Spoil = fn(&mut Random, &str) -> Option<Vec<String>>;

/// What changes the meaning.
const SPOILED: [(&str, Spoil); 11] = [
    ("a line left out", |_, line| {
        (!is_words(line)).then(Vec::new)
    }),
    ("words between two lines", |_, line| {
        let inside = line != "</svg>";
        inside.then(|| vec![line.to_string(), "odd".to_string()])
    }),
    ("a line twice", |_, line| {
        let again = !line.starts_with("<text x=\"8\"") && !is_words(line);
        again.then(|| vec![line.to_string(); 2])
    }),
    ("a digit of a shape", |random, line| {
        let line = other_digit(random, line).filter(|_| line.starts_with("<rect x"));
        Some(vec![line?])
    }),
    ("a digit of a number's place", |random, line| {
        let centred = line.starts_with("<text text-anchor") && !line.contains("x=\"52\"");
        let line = other_digit(random, line).filter(|_| centred);
        Some(vec![line?])
    }),
    ("an element not closed", |_, line| {
        let open = line.strip_suffix("/>")?;
        Some(vec![format!("{open}>")])
    }),
    ("an end of another name", |_, line| {
        line.contains("</text>")
            .then(|| vec![line.replace("</text>", "</rect>")])
    }),
    ("an attribute twice", |_, line| {
        line.contains(" y=")
            .then(|| vec![line.replacen(" y=", " y=\"1\" y=", 1)])
    }),
    ("a quotation mark left out", |_, line| {
        let at = line.find('"')?;
        Some(vec![format!("{}{}", &line[..at], &line[at + 1..])])
    }),
    ("a box of another colour", |_, line| {
        line.contains("#333")
            .then(|| vec![line.replace("#333", "#eee")])
    }),
    ("a bar hidden in a group that is moved", |_, line| {
        let bar = line.starts_with("<rect x");
        bar.then(|| vec![format!("<g transform=\"translate(1 1)\">{line}</g>")])
    }),
];

/// What is another text, whatever it means.
const OTHER_TEXTS: [(&str, Spoil); 8] = [
    ("any line left out", |_, _| Some(Vec::new())),
    ("any line twice", |_, line| Some(vec![line.to_string(); 2])),
    ("words left out", |_, line| is_words(line).then(Vec::new)),
    ("words twice", |_, line| {
        is_words(line).then(|| vec![line.to_string(); 2])
    }),
    ("words at another place", |random, line| {
        let line = other_digit(random, line).filter(|_| is_words(line));
        Some(vec![line?])
    }),
    ("a character of any text", |random, line| {
        let (begin, end) = (line.find('>')? + 1, line.rfind("</text>")?);
        let at = random.within(begin as u32, end as u32 - 1) as usize;
        let line = format!("{}*{}", &line[..at], &line[at + 1..]);
        Some(vec![line])
    }),
    ("a comment", |_, line| {
        (line != "</svg>").then(|| vec![line.to_string(), "<!-- odd -->".to_string()])
    }),
    ("a blank too many", |_, line| Some(vec![format!("{line} ")])),
];

/// Every picture with one line spoiled is found.
fn all_spoiled_are_found(what: &str, ways: &[(&'static str, Spoil)], compare: Comparison) {
    let mut found: Vec<(&str, usize)> = ways.iter().map(|&(name, _)| (name, 0)).collect();
    for (number, (window, right)) in windows().into_iter().take(400).enumerate() {
        let text = String::from_utf8(write(&right)).expect("a picture is plain text");
        let lines: Vec<&str> = text.lines().collect();
        let random = &mut Random::for_item(5, number as u64);
        for (&(name, spoil), (_, count)) in ways.iter().zip(&mut found) {
            let places = 0..lines.len();
            let places: Vec<usize> = places
                .filter(|&at| spoil(random, lines[at]).is_some())
                .collect();
            if places.is_empty() {
                continue;
            }
            let at = random.pick(&places);
            let other = spoil(random, lines[at]).expect("it can be spoiled");
            let other: Vec<&str> = other.iter().map(String::as_str).collect();
            let text = [&lines[..at], &other, &lines[at + 1..]].concat().join("\n") + "\n";
            let compared = compare(text.as_bytes(), &right);
            let place = || format!("{}: {}", lines[at], told(&window));
            assert!(compared.is_err(), "{name}: {}", place());
            *count += 1;
        }
    }
    all_found(what, &found);
}

type Comparison = fn(&[u8], &Nesting) -> Result<Compared, String>;

#[test]
fn spoiled_pictures_are_found() {
    all_spoiled_are_found("meaning of pictures", &SPOILED, meaning);
}

#[test]
fn other_texts_are_found() {
    all_spoiled_are_found("texts of pictures", &OTHER_TEXTS, compare);
}

/// Each line of words, left out of a picture or put into it with other words.
#[test]
fn no_words_may_be_missing() {
    let (_, right) = windows().swap_remove(0);
    let text = String::from_utf8(write(&right)).expect("a picture is plain text");
    let words: Vec<&str> = text.lines().filter(|line| is_words(line)).collect();
    assert_eq!(words.len(), 8);
    for line in words {
        let without = text.replace(&format!("{line}\n"), "");
        assert!(compare(without.as_bytes(), &right).is_err(), "{line}");
        let begin = line.find('>').map_or(0, |at| at + 1);
        let other = text.replace(line, &format!("{}other</text>", &line[..begin]));
        assert!(compare(other.as_bytes(), &right).is_err(), "{line}");
    }
    assert!(compare(text.as_bytes(), &right).is_ok());
}
