//! Dumps spoiled in their text, at any place: the comparison finds every one.

use bench::random::Random;
use bench::trace::PROGRAM_LIMIT;
use bench::waves::{compare, waves, write};

use super::{all_found, begins, traces};

type Lines = Vec<String>;
/// Whether a line is one that can be spoiled so.
type Place = fn(&Lines, usize) -> bool;
/// Spoils a dump at such a line.
type Spoil = fn(&mut Random, &mut Lines, usize);

fn is_value(lines: &Lines, at: usize) -> bool {
    lines[at].starts_with(['0', '1', 'b'])
}

/// Where tick 1 begins, or else the end.
fn first_tick(lines: &Lines) -> usize {
    let found = lines.iter().position(|line| line == "#1");
    found.unwrap_or(lines.len())
}

/// A value behind the start.
fn is_change(lines: &Lines, at: usize) -> bool {
    at > first_tick(lines) && is_value(lines, at)
}

/// A value at the start.
fn is_first(lines: &Lines, at: usize) -> bool {
    at < first_tick(lines) && is_value(lines, at)
}

/// A value at the start whose signal does not change at tick 1, which is not the last one.
fn is_unchanged(lines: &Lines, at: usize) -> bool {
    let (begin, code) = (first_tick(lines), lines[at].chars().last());
    let same = |line: &String| line.starts_with(['0', '1', 'b']) && line.chars().last() == code;
    let second = lines.iter().position(|line| line == "#2");
    is_first(lines, at) && second.is_some_and(|end| !lines[begin..end].iter().any(same))
}

fn is_variable(lines: &Lines, at: usize) -> bool {
    lines[at].starts_with("$var")
}

/// A variable behind another one.
fn is_later(lines: &Lines, at: usize) -> bool {
    is_variable(lines, at) && is_variable(lines, at - 1)
}

fn is_tick(lines: &Lines, at: usize) -> bool {
    lines[at].starts_with('#')
}

fn is_vector(lines: &Lines, at: usize) -> bool {
    lines[at].starts_with('b')
}

/// The last line of a dump.
fn is_last(lines: &Lines, at: usize) -> bool {
    at + 1 == lines.len()
}

/// The comment in which a dump ends that tells a refusal.
fn is_ending(lines: &Lines, at: usize) -> bool {
    is_last(lines, at) && lines[at].starts_with("$comment")
}

fn remove(_: &mut Random, lines: &mut Lines, at: usize) {
    lines.remove(at);
}

fn double(_: &mut Random, lines: &mut Lines, at: usize) {
    lines.insert(at, lines[at].clone());
}

/// A word of a line put in the place of what it is.
fn reword(line: &mut String, nth: usize, with: impl Fn(&str) -> String) {
    let mut words: Vec<String> = line.split(' ').map(str::to_string).collect();
    words[nth] = with(&words[nth]);
    *line = words.join(" ");
}

/// The word of the line before in the place of that word.
fn as_before(lines: &mut Lines, at: usize, nth: usize) {
    let word = lines[at - 1].split(' ').nth(nth).unwrap_or("").to_string();
    reword(&mut lines[at], nth, |_| word.clone());
}

fn one_more(word: &str) -> String {
    let number: u32 = word.parse().expect("it is a number");
    (number + 1).to_string()
}

/// The number of every tick put otherwise.
fn renumber(lines: &mut Lines, with: impl Fn(u32) -> u32) {
    for line in lines {
        if let Some(number) = line.strip_prefix('#') {
            let number = number.parse().expect("it is a number");
            *line = format!("#{}", with(number));
        }
    }
}

/// Of values, of ticks and of what is declared, in this order.
const SPOILED: [(&str, Place, Spoil); 37] = [
    ("a change left out", is_change, remove),
    ("a value at the start left out", is_first, remove),
    ("a change twice", is_change, double),
    ("one bit changed", is_value, |random, lines, at| {
        let digits = lines[at].split(' ').next().unwrap_or("").len() as u32;
        let vector = lines[at].starts_with('b');
        let place = if vector {
            random.within(1, digits - 1)
        } else {
            0
        } as usize;
        let other = if lines[at].as_bytes()[place] == b'0' {
            "1"
        } else {
            "0"
        };
        lines[at].replace_range(place..=place, other);
    }),
    ("another signal", is_change, |_, lines, at| {
        let code = lines[at].pop().unwrap_or('!');
        let other = if code == '!' { b'"' } else { code as u8 - 1 };
        lines[at].push(char::from(other));
    }),
    ("no signal", is_change, |_, lines, at| {
        lines[at].pop();
        lines[at].push('~');
    }),
    ("a code of two characters", is_change, |_, lines, at| {
        let code = lines[at].chars().last();
        lines[at].extend(code);
    }),
    (
        "one tick early",
        |lines, at| is_change(lines, at) && is_tick(lines, at - 1),
        |_, lines, at| lines.swap(at - 1, at),
    ),
    (
        "one tick late",
        |lines, at| is_change(lines, at) && !is_last(lines, at) && is_tick(lines, at + 1),
        |_, lines, at| lines.swap(at, at + 1),
    ),
    ("unchanged and repeated", is_unchanged, |_, lines, at| {
        lines.insert(first_tick(lines) + 1, lines[at].clone());
    }),
    (
        "a leading zero",
        |lines, at| lines[at].starts_with("b1"),
        |_, lines, at| lines[at].insert(1, '0'),
    ),
    ("more digits than bits", is_vector, |_, lines, at| {
        lines[at].insert_str(1, &"0".repeat(33));
    }),
    (
        "a scalar as a vector",
        |lines, at| lines[at].starts_with(['0', '1']),
        |_, lines, at| lines[at] = format!("b{} {}", &lines[at][..1], &lines[at][1..]),
    ),
    (
        "a vector as a scalar",
        |lines, at| lines[at].starts_with("b0 ") || lines[at].starts_with("b1 "),
        |_, lines, at| lines[at] = lines[at][1..].replace(' ', ""),
    ),
    ("an unknown value", is_value, |_, lines, at| {
        let place = usize::from(lines[at].starts_with('b'));
        lines[at].replace_range(place..=place, "x");
    }),
    ("the last line cut off", is_last, remove),
    ("a tick left out", is_tick, remove),
    ("a tick twice", is_tick, double),
    ("two ticks exchanged", is_tick, |random, lines, at| {
        let ticks: Vec<usize> = (0..lines.len()).filter(|&at| is_tick(lines, at)).collect();
        lines.swap(at, random.pick(&ticks));
    }),
    ("all ticks from 1 on", is_last, |_, lines, _| {
        renumber(lines, |number| number + 1);
    }),
    ("two steps to a tick", is_last, |_, lines, _| {
        renumber(lines, |number| 2 * number);
    }),
    ("a tick beyond the last step", is_last, |_, lines, at| {
        if let Some(last) = lines.iter().rfind(|line| line.starts_with('#')) {
            let line = format!("#{}", one_more(&last[1..]));
            lines.insert(at + usize::from(!is_ending(lines, at)), line);
        }
    }),
    ("a signal not declared", is_variable, remove),
    ("a signal declared twice", is_variable, double),
    ("two signals of one code", is_later, |_, lines, at| {
        as_before(lines, at, 3);
    }),
    ("two signals of one name", is_later, |_, lines, at| {
        as_before(lines, at, 4);
    }),
    ("a signal of another name", is_variable, |_, lines, at| {
        reword(&mut lines[at], 4, |name| format!("{name}s"));
    }),
    ("a signal of another width", is_variable, |_, lines, at| {
        reword(&mut lines[at], 2, one_more);
    }),
    ("a signal of another sort", is_variable, |_, lines, at| {
        reword(&mut lines[at], 1, |_| "reg".to_string());
    }),
    (
        "another controller's name",
        |lines, at| lines[at].starts_with("$scope"),
        |_, lines, at| reword(&mut lines[at], 2, |name| format!("{name}2")),
    ),
    ("no first comment", |_, at| at == 0, remove),
    ("no timescale", |_, at| at == 1, remove),
    (
        "another timescale",
        |_, at| at == 1,
        |_, lines, at| reword(&mut lines[at], 1, |_| "10".to_string()),
    ),
    (
        "no $dumpvars",
        |lines, at| lines[at] == "$dumpvars",
        |_, lines, at| {
            lines.remove(at);
            let end = lines[at..].iter().position(|line| line == "$end");
            end.map(|end| lines.remove(at + end));
        },
    ),
    ("another refusal at the end", is_ending, |_, lines, at| {
        reword(&mut lines[at], 2, one_more);
    }),
    ("another place at the end", is_ending, |_, lines, at| {
        reword(&mut lines[at], 3, one_more);
    }),
    (
        "an end by a refusal that there is not",
        |lines, at| is_last(lines, at) && !is_ending(lines, at),
        |_, lines, _| lines.push("$comment E 8 5 $end".to_string()),
    ),
];

#[test]
fn spoiled_dumps_are_found() {
    let mut found: Vec<(&str, usize)> = SPOILED.iter().map(|&(name, ..)| (name, 0)).collect();
    for (number, trace) in traces().into_iter().enumerate() {
        let right = waves(&trace, PROGRAM_LIMIT);
        let text = String::from_utf8(write(&right)).expect("a dump is plain text");
        let lines: Lines = text.lines().map(str::to_string).collect();
        let random = &mut Random::for_item(3, number as u64);
        for (&(name, place, spoil), (_, count)) in SPOILED.iter().zip(&mut found) {
            let places = (0..lines.len()).filter(|&at| place(&lines, at));
            let places: Vec<usize> = places.collect();
            let mut other = lines.clone();
            if !places.is_empty() {
                let at = random.pick(&places);
                spoil(random, &mut other, at);
            }
            if other != lines {
                let other = other.join("\n") + "\n";
                let compared = compare(other.as_bytes(), &right);
                assert!(compared.is_err(), "{name}: {}", begins(&trace));
                *count += 1;
            }
        }
    }
    all_found("dumps", &found);
}
