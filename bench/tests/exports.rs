//! The proved library through its C functions: only built where it is linked in, with the feature `exports`.
#![cfg(feature = "exports")]

#[path = "exports/kept.rs"]
mod kept;

use std::collections::BTreeMap;
use std::fmt::Debug;
use std::mem::{align_of, offset_of, size_of};

use bench::compare::{compare, expected, Subject};
use bench::explained::{explain, window, Asked};
use bench::exports::{core_start, core_step, LentCore, LentSide, Reply};
use bench::exports::{ending_of, explain_into, list_into, stack_into, steps_of, words_looked_at};
use bench::generate::{Case, Generator, Script};
use bench::listing::listing;
use bench::looked::{looked, Question};
use bench::model::core::CoreInterrupt;
use bench::model::{Answer, Controller, Refusal, Step};
use bench::numbered::{Made, Numbered};
use bench::random::Random;
use bench::report::ending;
use bench::report::generate::Counted;
use bench::stack::generate::Typed;
use bench::stack::line;
use bench::trace::play;

/// The library answers as the model does on all sweeps and so many random cases.
fn answers_as_the_model_does<S: Subject + Made + Debug>(more: usize) {
    let generator = Numbered::<S>::new(7);
    let cases = generator.cases(0..generator.sweeps() + more);
    if let Some((number, case)) = compare(cases, S::by_library).first {
        let expected = expected(&case);
        panic!("{number}, {case:?}, differs: {}", expected.escape_ascii());
    }
}

/// Listings, explanations, figures, stacks of tables and the words that a read looks at.
#[test]
fn the_library_answers_as_the_model_does() {
    answers_as_the_model_does::<Case>(500);
    answers_as_the_model_does::<Asked>(500);
    answers_as_the_model_does::<Counted>(2_000);
    answers_as_the_model_does::<Typed>(2_000);
    answers_as_the_model_does::<Question>(3_000);
}

/// A text is written as far as there is room, and the room behind it is left alone.
fn fills(whole: &[u8], room: usize, write: impl Fn(&mut [u8]) -> usize) {
    let mut buffer = vec![0xA5; room];
    let written = write(&mut buffer);
    assert_eq!(written, room.min(whole.len()));
    assert_eq!(buffer[..written], whole[..written]);
    assert!(buffer[written..].iter().all(|&byte| byte == 0xA5));
}

/// The same into rooms of every size.
fn fills_any_room(whole: &[u8], write: impl Fn(&mut [u8]) -> usize) {
    (0..whole.len() + 3).for_each(|room| fills(whole, room, &write));
}

#[test]
fn what_finds_no_room_is_dropped() {
    let trace = [0, 0, 0, 1, 0];
    fills_any_room(&listing(&trace, 9), |out| list_into(&trace, 9, out));
    fills_any_room(&explain(&trace, 9), |out| {
        explain_into(&trace, 9, None, out)
    });
    fills_any_room(&window(&trace, 9, 1, 1), |out| {
        explain_into(&trace, 9, Some((1, 1)), out)
    });
}

#[test]
fn steps_and_endings_are_those_of_the_model() {
    let generator = Generator::new(11);
    for number in 0..generator.sweeps() + 500 {
        let case = generator.case(number);
        let report = play(&case.trace, case.limit, &mut ());
        let steps = steps_of(&case.trace, case.limit);
        let end = ending_of(&case.trace, case.limit);
        assert_eq!((steps, end), (report.steps, ending(&report)), "{number}");
    }
}

/// The line of a text, into a room of so many bytes.
fn stack_line(text: &[u8], room: usize) {
    fills(&line(text), room, |out| stack_into(text, out));
}

#[test]
fn a_line_is_written_as_far_as_there_is_room() {
    let largest = format!("{}65535", "7 3 65535 ".repeat(32) + "0 ");
    let beyond = "8 ".repeat(98);
    let long = " ".repeat(65_537);
    for text in [largest.as_str(), &beyond, &long, &long[1..], ""] {
        (0..20).for_each(|room| stack_line(text.as_bytes(), room));
    }
}

/// Every byte before, inside and behind a number, and behind the last one.
#[test]
fn every_character_counts_as_in_the_model() {
    for byte in 0..=u8::MAX {
        for around in ["|", "1|", "|1", "0|1", "0x|1", "0x1| "] {
            let (before, after) = around.split_once('|').expect("a byte stands between");
            let word = [before.as_bytes(), &[byte], after.as_bytes()].concat();
            let first = [&word, b" ".as_slice(), "0 ".repeat(97).as_bytes()].concat();
            let last = ["0 ".repeat(97).as_bytes(), &word].concat();
            let behind = ["0 ".repeat(98).as_bytes(), &word].concat();
            [first, last, behind]
                .iter()
                .for_each(|text| stack_line(text, 40));
        }
    }
}

/// Every limit and every offset of a trace that holds, ends the hold and clears.
#[test]
fn every_limit_and_offset_is_asked_alike() {
    let mut script = Script::new(4, &[70, 3, 2, 0, 1]);
    script.write(0x300, u32::MAX);
    script.write(0x308, u32::MAX);
    script.write(0x800, 0x0000_0100);
    script.write(0x444, 0x0000_0100);
    script.write(0x020, 69);
    script.read(0x080);
    script.write(0x020, 3);
    script.read(0x904);
    script.write(0x080, 0);
    script.write(0x024, 3);
    script.write(0x004, 0);
    for limit in 0..14 {
        for offset in (0..0x1000).chain([0x1500, 0x1520, u32::MAX]) {
            let words = looked(&script.bytes, limit, offset);
            let library = words_looked_at(&script.bytes, limit, offset);
            assert_eq!(library, words, "limit {limit}, offset {offset:#x}");
        }
    }
}

/// The words of a lent CoreInterrupt in the order of the header: count, level, inputs, soft, enable of FIQ, then of IRQ.
fn core_of(words: [u32; 10]) -> LentCore {
    let side = |at: usize| LentSide {
        count: words[at],
        level: words[at + 1],
        inputs: words[at + 2],
        soft: words[at + 3],
        enable: words[at + 4],
    };
    LentCore {
        fiq: side(0),
        irq: side(5),
    }
}

#[test]
fn the_words_of_a_lent_record_lie_as_the_header_says() {
    assert_eq!((size_of::<LentCore>(), align_of::<LentCore>()), (40, 4));
    assert_eq!(
        (offset_of!(LentCore, fiq), offset_of!(LentCore, irq)),
        (0, 20)
    );
    let offsets = [
        offset_of!(LentSide, count),
        offset_of!(LentSide, level),
        offset_of!(LentSide, inputs),
        offset_of!(LentSide, soft),
        offset_of!(LentSide, enable),
    ];
    assert_eq!(offsets, [0, 4, 8, 12, 16]);
    assert_eq!((size_of::<Reply>(), offset_of!(Reply, value)), (8, 4));
    // The library has them there too: each word is given a value of its own, by the start or by a step.
    let mut core = core_of([u32::MAX; 10]);
    let (refusal, value) = (0, 0);
    let taken = Reply { refusal, value };
    assert_eq!(core_start(&mut core, [7, 31, 1, 0]), taken);
    assert_eq!(core, core_of([7, 1, 0, 0, 0, 31, 0, 0, 0, 0]));
    for step in [
        [3, 33, 1],
        [2, 0x00, 0x11],
        [2, 0x08, 0x21],
        [3, 3, 1],
        [2, 0x18, 0x12],
        [2, 0x20, 0x22],
    ] {
        assert_eq!(core_step(&mut core, step), taken);
    }
    assert_eq!(core, core_of([7, 1, 2, 0x11, 0x21, 31, 0, 8, 0x12, 0x22]));
}

/// A step told by numbers: any offset, line and level near those that exist, any word, and now and then no kind of step.
fn any_told(random: &mut Random) -> [u32; 3] {
    let kind = random.pick(&[1, 1, 1, 2, 2, 2, 3, 3, 3, 0, 4, u32::MAX]);
    let value = match random.below(3) {
        0 => random.word(),
        1 => 1 << random.below(32),
        _ => u32::MAX,
    };
    match kind {
        3 => [kind, random.below(43), random.pick(&[0, 0, 1, 1, 1, 2])],
        _ if random.one_in(8) => [kind, random.below(0x40), value],
        _ => [kind, 4 * random.below(13), value],
    }
}

/// The model's answer to a step told by numbers, a refusal and a value; 9 for what is no step.
fn told_to_model([kind, x, y]: [u32; 3], take: impl FnOnce(Step) -> Answer) -> Reply {
    let [offset, line] = [x; 2];
    let [value, level] = [y; 2];
    let answer = match kind {
        1 => take(Step::Read { offset }),
        2 => take(Step::Write { offset, value }),
        3 => take(Step::Line { line, level }),
        _ => Err(Refusal::UnknownKind),
    };
    Reply {
        refusal: answer.err().map_or(0, Refusal::number),
        value: answer.unwrap_or(0),
    }
}

/// 400 configurations with 200 steps each: every reply and, after every step, every word of the record.
#[test]
fn a_lent_record_steps_as_the_model_does() {
    let random = &mut Random::new(36);
    let mut refusals: BTreeMap<u32, u32> = BTreeMap::new();
    for _ in 0..400 {
        let some = [random.below(9), random.below(33)];
        let fiqs = random.pick(&[0, 1, some[0], 8]);
        let irqs = random.pick(&[0, 1, some[1], 32]);
        let levels = [random.below(2), random.below(2)];
        let mut model = CoreInterrupt::new(fiqs, irqs, levels[0] == 1, levels[1] == 1);
        let mut lent = core_of(std::array::from_fn(|_| random.word()));
        let reply = core_start(&mut lent, [fiqs, irqs, levels[0], levels[1]]);
        assert_eq!((reply.refusal, reply.value), (0, 0));
        assert_eq!(lent, LentCore::from(&model));
        for _ in 0..200 {
            let told = any_told(random);
            let before = lent;
            let reply = core_step(&mut lent, told);
            let expected = told_to_model(told, |step| model.step(step));
            assert_eq!(reply, expected, "{before:?}, {told:?}");
            assert_eq!(lent, LentCore::from(&model), "{before:?}, {told:?}");
            if reply.refusal != 0 {
                assert_eq!((lent, reply.value), (before, 0), "{told:?}");
            }
            *refusals.entry(reply.refusal).or_default() += 1;
        }
    }
    let seen: Vec<u32> = refusals.keys().copied().collect();
    assert_eq!(seen, [0, 1, 2, 3, 4, 6, 9]);
    assert!(refusals.values().all(|&times| times > 300), "{refusals:?}");
}

/// Each number of a configuration at its limit and beyond it, over records of any words: 10, and no word is written.
#[test]
fn a_refused_start_leaves_the_lent_record() {
    let random = &mut Random::new(10);
    for round in 0..2_000 {
        let limits = [8, 32, 1, 1];
        let mut numbers = limits.map(|limit| random.within(0, limit));
        if round % 2 == 1 {
            let at = random.below(4) as usize;
            let far = random.pick(&[1, 2, 1 << 16, u32::MAX - limits[at]]);
            numbers[at] = limits[at] + far;
        }
        let before = core_of(std::array::from_fn(|_| random.word()));
        let mut lent = before;
        let reply = core_start(&mut lent, numbers);
        let [fiqs, irqs, fiq, irq] = numbers;
        let (refusal, after) = match round % 2 {
            0 => (0, core_of([fiqs, fiq, 0, 0, 0, irqs, irq, 0, 0, 0])),
            _ => (10, before),
        };
        assert_eq!(reply, Reply { refusal, value: 0 }, "{numbers:?}");
        assert_eq!(lent, after, "{numbers:?}");
    }
}

/// Each rule of a sound record broken alone: 12 before all else, but 9 for what is no step; no word is written.
#[test]
fn a_record_that_breaks_a_rule_is_refused_as_it_is() {
    let sound = core_of([3, 1, 1, 2, 4, 31, 0, 1, 2, 4]);
    let breaks: [fn(&mut LentCore); 12] = [
        |core| core.fiq.count = 9,
        |core| core.fiq.level = 2,
        |core| core.fiq.inputs |= 1 << 3,
        |core| core.fiq.soft |= 1 << 31,
        |core| core.fiq.enable |= 1 << 8,
        |core| core.fiq.count = u32::MAX,
        |core| core.irq.count = 33,
        |core| core.irq.level = u32::MAX,
        |core| core.irq.inputs |= 1 << 31,
        |core| core.irq.soft |= 1 << 31,
        |core| core.irq.enable |= 1 << 31,
        |core| core.irq.count = 2,
    ];
    let random = &mut Random::new(12);
    for (which, broken) in breaks.into_iter().enumerate() {
        let mut before = sound;
        broken(&mut before);
        for _ in 0..200 {
            let told = any_told(random);
            let mut lent = before;
            let reply = core_step(&mut lent, told);
            let refusal = if (1..=3).contains(&told[0]) { 12 } else { 9 };
            assert_eq!(reply, Reply { refusal, value: 0 }, "{which}, {told:?}");
            assert_eq!(lent, before, "{which}, {told:?}");
        }
    }
    let mut lent = sound;
    assert_eq!(core_step(&mut lent, [1, 0x0C, 0]).refusal, 3);
}
