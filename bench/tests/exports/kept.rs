//! One controller that a caller keeps, many steps at once through `wisteria_step_words`, beside the model: 100,000 steps of each
//! kind, or as many as KEPT_STEPS says.

use bench::generate::Script;
use bench::model::{Kind, Recorded};
use bench::random::Random;
use bench::trace::play;

use super::told_to_model;

const WORDS: usize = 2048;

extern "C" {
    /// As include/wisteria.h has them; the declarations are checked by nothing.
    fn wisteria_start(held: *mut [u32; WORDS], kind: u32, numbers: *const [u32; 5]) -> u32;
    fn wisteria_outputs(held: *const [u32; WORDS], columns: *mut [u32; 3]) -> u32;
    fn wisteria_step_words(
        held: *mut [u32; WORDS],
        words: *const u32,
        words_len: usize,
        answers: *mut u32,
        answers_len: usize,
    ) -> u32;
}

/// The words of a started controller.
fn started(kind: Kind, configured: &[u32]) -> Box<[u32; WORDS]> {
    let mut held = Box::new([0xA5A5_A5A5; WORDS]);
    let mut numbers = [0; 5];
    numbers[..configured.len()].copy_from_slice(configured);
    // Both pointers are those of arrays that nothing else uses, here and below.
    let refusal = unsafe { wisteria_start(&mut *held, kind as u32, &numbers) };
    assert_eq!(refusal, 0, "{kind:?} {numbers:?}");
    held
}

fn shown(held: &[u32; WORDS]) -> [u32; 3] {
    let mut columns = [0xA5A5_A5A5; 3];
    assert_eq!(unsafe { wisteria_outputs(held, &mut columns) }, 0);
    columns
}

/// The answers to some steps, refusal and value of each.
fn taken(held: &mut [u32; WORDS], steps: &[[u32; 4]]) -> Vec<[u32; 2]> {
    let mut answers = vec![[0xA5A5_A5A5; 2]; steps.len()];
    // The pointers come from slices of the lengths that go with them, in words.
    let refusal = unsafe {
        wisteria_step_words(
            held,
            steps.as_ptr().cast(),
            4 * steps.len(),
            answers.as_mut_ptr().cast(),
            2 * steps.len(),
        )
    };
    assert_eq!(refusal, 0);
    answers
}

/// Mostly registers and lines that there are, and now and then anything.
fn by_chance(random: &mut Random, kind: Kind) -> [u32; 4] {
    let (last, lines) = match kind {
        Kind::Aic => (0x150, 33),
        Kind::Core => (0x034, 41),
        Kind::Cic => (0x900, 60),
        Kind::Aintc => (0x300, 129),
        Kind::Indexed => (0xD00, 60),
    };
    let step = random.weighted(&[(40, 1), (40, 2), (40, 3), (1, 0), (1, 4)]);
    let x = match (step, random.below(20)) {
        (3, 0) => random.word(),
        (3, _) => random.below(lines),
        (_, 0) => random.below(0x2000),
        (_, 1) => 0x1500 + 4 * random.below(8),
        _ => 4 * random.below(last / 4),
    };
    let y = match step {
        3 => u32::from(!random.one_in(2)) + u32::from(random.one_in(40)),
        _ => random.word(),
    };
    [step, x, y, random.weighted(&[(6, 1), (2, 0), (1, 2)])]
}

#[test]
fn many_steps_at_once_are_those_of_the_model() {
    let count =
        std::env::var("KEPT_STEPS").map_or(100_000, |count| count.parse().expect("a number"));
    let configured: [(Kind, &[u32]); 5] = [
        (Kind::Aic, &[0xFFFF_0000, 0x30]),
        (Kind::Core, &[3, 9, 1, 0]),
        (Kind::Cic, &[40, 5, 3, 0x4E80_0200]),
        (Kind::Aintc, &[]),
        (Kind::Indexed, &[40, 5, 3, 7, 1]),
    ];
    let mut refusals = std::collections::BTreeMap::new();
    for (kind, numbers) in configured {
        let mut random = Random::for_item(46, kind as u64);
        let mut held = started(kind, numbers);
        let begins = Script::new(kind as u32, numbers).bytes;
        let machine = play(&begins, 0, &mut ()).machine;
        let mut machine = machine.expect("the model is started");
        let mut done = 0;
        while done < count {
            let portion = random.within(1, 3_000).min(count - done) as usize;
            let steps: Vec<_> = (0..portion).map(|_| by_chance(&mut random, kind)).collect();
            let answers = taken(&mut held, &steps);
            for (&[step, x, y, privilege], answer) in steps.iter().zip(answers) {
                let expected = told_to_model([step, x, y], |step| {
                    machine.step(Recorded { step, privilege })
                });
                let expected = [expected.refusal, expected.value];
                assert_eq!(answer, expected, "{kind:?} {step} {x:x} {y:x} {privilege}");
                *refusals.entry(answer[0]).or_insert(0) += 1;
            }
            assert_eq!(shown(&held), machine.shown(), "{kind:?} after {done}");
            done += portion as u32;
        }
    }
    println!("refusals, and how often: {refusals:?}");
    assert!([0, 1, 2, 3, 4, 6, 9, 13]
        .iter()
        .all(|number| refusals[number] > 100));
}
