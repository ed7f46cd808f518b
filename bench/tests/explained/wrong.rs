//! Wrong writers, each with one part otherwise: the comparison finds every one of them.

use bench::compare::compare;
use bench::explained::places::{accessed, register};
use bench::explained::{document, explain_by, Asked, Parts, Told};
use bench::model::aic::Selection;
use bench::model::aintc::Side;
use bench::model::{Answer, Kind, Machine, Recorded, Step};
use bench::numbered::Numbered;

const RIGHT: Parts = Parts::RIGHT;

/// The same step, with something of it otherwise.
fn with<'a>(told: &Told<'a>, step: Step, answer: Answer) -> Told<'a> {
    let privilege = told.recorded.privilege;
    Told {
        before: told.before,
        recorded: Recorded { step, privilege },
        answer,
        after: told.after,
    }
}

/// The name of the register that a step is about, and the value that it writes there.
fn written(told: &Told) -> Option<(&'static str, u32)> {
    match told.recorded.step {
        Step::Write { value, .. } => {
            let register = accessed(told.before, told.recorded.step)?;
            Some((register.group.name, value))
        }
        _ => None,
    }
}

/// The fields of a write into one of some registers with another value.
fn writing(told: &Told, names: &[&str], edit: fn(u32) -> u32) -> String {
    let step = match (told.recorded.step, written(told)) {
        (Step::Write { offset, value }, Some((name, _))) if names.contains(&name) => {
            let value = edit(value);
            Step::Write { offset, value }
        }
        (step, _) => step,
    };
    (RIGHT.fields)(&with(told, step, told.answer))
}

/// The parts in the other order, each still led as it was.
fn turned(text: &str) -> String {
    let parts = text.split("; ").skip(1).collect::<Vec<_>>().into_iter();
    parts.rev().map(|part| format!("; {part}")).collect()
}

/// What an AIC remembered before the step and remembers after it, as number, vector and level.
fn remembered(told: &Told) -> Option<[(u8, u32, u8); 2]> {
    let seen = |machine: &Machine| match machine {
        Machine::Aic(aic) => match aic.remembered()? {
            Selection::Source {
                number,
                vector,
                level,
            } => Some((number, vector, level)),
            Selection::Nobody => None,
        },
        _ => None,
    };
    Some([seen(told.before)?, seen(told.after)?])
}

/// One part of a writer made wrong: what it makes of a step and of the right text.
macro_rules! wrong {
    ($part:ident, $name:literal, $edit:expr) => {
        ($name, |parts: &mut Parts| {
            parts.$part = |told| {
                let edit: fn(&Told, String) -> String = $edit;
                edit(told, (RIGHT.$part)(told))
            }
        })
    };
}

type Wrong = (&'static str, fn(&mut Parts));

/// The first line and the statement, the place, the answer, the fields, what was done and the outputs, in this order.
const WRONG: [Wrong; 29] = [
    ("kind 4 has another document", |parts| {
        parts.first = |kind| match kind {
            Kind::Indexed => document(Kind::Aintc),
            kind => document(kind),
        }
    }),
    ("a document is named by its number alone", |parts| {
        parts.first = |kind| &document(kind)[..3]
    }),
    wrong!(statement, "digits are small letters", |_, text| text
        .to_lowercase()),
    wrong!(statement, "a value has no zeros before it", |told, text| {
        match told.recorded.step {
            Step::Write { offset, value } => format!("write 0x{offset:03X} 0x{value:X}"),
            _ => text,
        }
    }),
    wrong!(statement, "a privilege is not told", |told, text| {
        match told.recorded.step {
            Step::Read { offset } => format!("read 0x{offset:03X}"),
            _ => text,
        }
    }),
    wrong!(statement, "it is followed by two spaces", |_, text| {
        format!("{text:<29}")
    }),
    wrong!(place, "a misaligned offset has a name", |told, text| {
        match told.recorded.step {
            Step::Read { offset } => {
                let offset = offset & !3;
                (RIGHT.place)(&with(told, Step::Read { offset }, told.answer))
            }
            _ => text,
        }
    }),
    wrong!(place, "there are systems beyond the count", |told, text| {
        match (told.before, told.recorded.step) {
            (Machine::Cic(cic), Step::Read { offset })
                if (0x400..0x800).contains(&offset)
                    && offset % 4 == 0
                    && register(told.before, offset).is_none()
                    && cic.systems() > 1 =>
            {
                format!(" CH_MAP{} (001, 2.2.15)", (offset - 0x400) / 4)
            }
            _ => text,
        }
    }),
    wrong!(value, "a value has small letters", |_, text| text
        .to_lowercase()),
    wrong!(value, "a write has a value", |told, text| {
        match (told.recorded.step, told.answer) {
            (Step::Write { .. }, Ok(value)) => format!(" = 0x{value:08X}"),
            _ => text,
        }
    }),
    wrong!(refusal, "a line comes before its level", |told, text| {
        match told.recorded.step {
            Step::Line { line, .. } if told.answer.is_err() && (RIGHT.place)(told).is_empty() => {
                (RIGHT.refusal)(&with(told, Step::Line { line, level: 0 }, told.answer))
            }
            _ => text,
        }
    }),
    wrong!(fields, "a refused write has fields", |told, _| {
        (RIGHT.fields)(&with(told, told.recorded.step, Ok(0)))
    }),
    wrong!(fields, "a priority has four bits", |told, text| {
        match written(told) {
            Some(("SMR", value)) if value & 8 != 0 => text + "8",
            _ => text,
        }
    }),
    wrong!(fields, "the type stands in bits 5:4", |told, _| {
        writing(told, &["SMR"], |value| value << 1 & 0x60 | value & 7)
    }),
    wrong!(fields, "a map is read from its highest byte", |told, _| {
        writing(told, &["CH_MAP", "HINT_MAP"], u32::swap_bytes)
    }),
    wrong!(fields, "a map always has four entries", |_, text| {
        match text.contains(" to channel ") && text.split(", ").count() < 4 {
            true => text + ", 1 to 0",
            false => text,
        }
    }),
    wrong!(fields, "an ILR's priority is its whole word", |told, _| {
        writing(told, &["ILR"], |value| value << 2 | value & 1)
    }),
    wrong!(fields, "a threshold is its whole word", |told, text| {
        match written(told) {
            Some(("THRESHOLD", value)) if told.answer.is_ok() => {
                format!("; PRIORITYTHRESHOLD {value}")
            }
            _ => text,
        }
    }),
    wrong!(fields, "a vector is told", |told, text| {
        match written(told) {
            Some(("SVR", value)) => format!("; VECTOR {value}"),
            _ => text,
        }
    }),
    wrong!(
        deeds,
        "what is closed is what is open then",
        |told, text| {
            match told.after {
                Machine::Aic(after) if text.starts_with("; closes source ") => {
                    let source = after.entries().last().and_then(|entry| entry.source);
                    source.map_or(text, |source| format!("; closes source {source}"))
                }
                _ => text,
            }
        }
    ),
    wrong!(deeds, "another vector alone is nothing", |told, text| {
        match remembered(told) {
            Some([(one, _, level), (other, _, now)]) if (one, level) == (other, now) => {
                String::new()
            }
            _ => text,
        }
    }),
    wrong!(deeds, "another level alone is nothing", |told, text| {
        match remembered(told) {
            Some([(one, vector, _), (other, now, _)]) if (one, vector) == (other, now) => {
                String::new()
            }
            _ => text,
        }
    }),
    wrong!(deeds, "a second read of the same is told", |told, text| {
        match (told.before, told.after, told.recorded.step) {
            (Machine::Aic(before), Machine::Aic(after), Step::Read { offset: 0x100 })
                if before.remembered() == after.remembered()
                    && after.remembered() == Some(Selection::Nobody) =>
            {
                "; remembers no source".to_owned()
            }
            _ => text,
        }
    }),
    wrong!(deeds, "hosts that end come first", |_, text| {
        match text.contains("; asserts") && text.contains("; ends") {
            true => turned(&text),
            false => text,
        }
    }),
    wrong!(deeds, "an agreement tells the same again", |told, text| {
        match (told.after, written(told)) {
            (Machine::Aintc(after), Some(("CONTROL", 1))) if told.answer.is_ok() => {
                let chosen = after.chosen(Side::Irq);
                chosen.map_or(text, |it| format!("; chooses input {} for IRQ", it.number))
            }
            _ => text,
        }
    }),
    wrong!(
        outputs,
        "an output is told though it stays",
        |told, text| {
            match (told.after, told.after.shown()) {
                (Machine::Cic(_) | Machine::Indexed(_), _) => text,
                (_, [1, ..]) => "; IRQ active".to_owned(),
                _ => text,
            }
        }
    ),
    wrong!(outputs, "the wire's level is told", |told, text| {
        match (told.after, text.as_str()) {
            (Machine::Core(core), "; IRQ active") if !core.irq.active_level => {
                "; IRQ inactive".to_owned()
            }
            (Machine::Core(core), "; IRQ inactive") if !core.irq.active_level => {
                "; IRQ active".to_owned()
            }
            _ => text,
        }
    }),
    wrong!(outputs, "a CIC has an output", |told, text| {
        match (told.before, told.after) {
            (Machine::Cic(before), Machine::Cic(after))
                if before.asserted().ones() == 0 && after.asserted().ones() > 0 =>
            {
                "; IRQ active".to_owned()
            }
            _ => text,
        }
    }),
    ("deeds come behind outputs", |parts| {
        (parts.deeds, parts.outputs) = (RIGHT.outputs, RIGHT.deeds)
    }),
];

/// Wrong writers that say other words.
const OTHER_WORDS: &str = include_str!("wrong.txt");

/// Whether the comparison finds what is wrong: the sweeps from the back, where those of explanations are; one that
/// differs is enough.
fn is_found(wrong: impl Fn(&Asked) -> Vec<u8>) -> bool {
    let generator = Numbered::<Asked>::new(1);
    let wrong = |asked: &Asked| match asked.window {
        None => Ok(wrong(asked)),
        Some(_) => Ok(asked.text()),
    };
    let mut cases = (0..generator.sweeps()).rev();
    cases.any(|number| compare([(number, generator.case(number))], wrong).differ > 0)
}

#[test]
fn the_comparison_finds_every_wrong_writer() {
    let rows = OTHER_WORDS.lines().filter(|row| row.contains(" | "));
    assert_eq!(WRONG.len() + rows.clone().count(), 74);
    let mut missed = Vec::new();
    for (name, edit) in WRONG {
        let mut parts = RIGHT;
        edit(&mut parts);
        if !is_found(|asked| explain_by(parts, &asked.case.trace, asked.case.limit)) {
            missed.push(name);
        }
    }
    for row in rows {
        let words: Vec<&str> = row.split(" | ").collect();
        let text = |asked: &Asked| String::from_utf8_lossy(&asked.text()).into_owned();
        let other = words.get(2).copied().unwrap_or("");
        if !is_found(|asked| text(asked).replace(words[1], other).into_bytes()) {
            missed.push(words[0]);
        }
    }
    assert!(missed.is_empty(), "not found: {missed:#?}");
    assert!(
        !is_found(Asked::text),
        "the right text is taken for a wrong one"
    );
}

/// The right parts are what the comparison finds no difference in.
#[test]
fn the_comparison_finds_the_right_one_right() {
    let generator = Numbered::<Asked>::new(2);
    let numbers = generator.sweeps() - 40..generator.sweeps() + 300;
    let right = |asked: &Asked| {
        let mut text = asked.text();
        text.truncate(asked.case.room.unwrap_or(usize::MAX));
        Ok(text)
    };
    assert_eq!(compare(generator.cases(numbers), right).differ, 0);
}
