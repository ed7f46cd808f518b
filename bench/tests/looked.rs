//! How far an index read looks (02, 10/12): the model against a count word by word and against wrong counts.

use bench::compare::{compare, Outcome, Summary};
use bench::generate::cic::{ENABLE_SET as ENABLES, RAW_SET as STATUS};
use bench::generate::indexed::{CONTROL, GLOBAL_INDEX as GLOBAL, STATUS_SET};
use bench::generate::Script;
use bench::listed;
use bench::looked::generate::Generator;
use bench::looked::{looked, told, Question};
use bench::model::cic::Cic;
use bench::model::indexed::{Index, Indexed, Register, NONE};
use bench::model::{Controller, Machine, Step};
use bench::trace::{play, PROGRAM_LIMIT};

/// The index of a host.
fn index(host: u32) -> u32 {
    0x900 + 4 * host
}

/// D39 and D40: asking changes nothing, other kinds look at nothing, and the steps played are those of the limit.
#[test]
fn a_question_is_about_the_controller_after_the_steps_played() {
    let mut script = Script::new(4, &[64, 1, 1, 0, 1]);
    script.write(ENABLES + 4, u32::MAX);
    script.write(STATUS_SET, 40);
    script.read(GLOBAL);
    script.write(STATUS + 4, 1);
    let counts = (0..6).map(|limit| looked(&script.bytes, limit, GLOBAL));
    assert_eq!(counts.collect::<Vec<_>>(), [2, 2, 2, 0, 0, 0]);
    let counts = (0..6).map(|limit| looked(&script.bytes, limit, index(0)));
    assert_eq!(counts.collect::<Vec<_>>(), [2; 6]);
    let others: [(u32, &[u32]); 6] = [
        (0, &[0, 0]),
        (1, &[8, 32, 0, 0]),
        (2, &[64, 1, 1, 0]),
        (3, &[]),
        (5, &[]),
        (4, &[64, 1, 1, 0, 2]),
    ];
    for (kind, configuration) in others {
        let trace = Script::new(kind, configuration).bytes;
        for offset in [GLOBAL, index(0), 0x100] {
            assert_eq!(looked(&trace, PROGRAM_LIMIT, offset), 0, "kind {kind}");
        }
    }
}

listed! {
    /// One thing that a count can have wrong.
    #[derive(Clone, Copy, Debug, PartialEq, Eq)]
    enum Slip {
        Nothing, LastWordLeftOut, AllWordsCounted, EmptyWordSkipped, DisabledFound, UnsetFound, AnyChannelFound,
        WordsRoundedDown, OneWordMore, UnmappedChannelCounted, LaterChannelsCounted, OnlyTheLastChannelCounted,
        FirstChannelOnly, LowestSystemOfAllChannels, HeldReadCounts, HeldNoneCounts, HoldModeCountsNothing,
        HostEnableAsked, GlobalEnableAsked, MisalignedCounts, BeyondTheHostsCounts, ControlCounts,
        LimitPassedOver, TheReadIsCarriedOut
    }
}

/// The answer of a question by counting words, with a slip.
fn by_words(question: &Question, slip: Slip) -> u32 {
    let limit = match slip {
        Slip::LimitPassedOver => PROGRAM_LIMIT,
        _ => question.limit,
    };
    let Some(Machine::Indexed(mut indexed)) = play(&question.trace, limit, &mut ()).machine else {
        return 0;
    };
    let offset = match slip {
        Slip::MisalignedCounts => question.offset & !3,
        Slip::BeyondTheHostsCounts if (0x900..0xD00).contains(&question.offset) => {
            let last = index(indexed.cic().hosts() as u32 - 1);
            question.offset.min(last)
        }
        Slip::ControlCounts if question.offset == CONTROL => GLOBAL,
        _ => question.offset,
    };
    if slip == Slip::TheReadIsCarriedOut {
        // A refused read is a good one here, and changes nothing.
        let _ = indexed.step(Step::Read { offset });
    }
    let Ok((Register::Index(index), _)) = indexed.found(offset) else {
        return 0;
    };
    let held = match indexed.held(index) {
        Some(_) if slip == Slip::HeldReadCounts => None,
        Some(NONE) if slip == Slip::HeldNoneCounts => None,
        held => held,
    };
    let still = slip == Slip::HoldModeCountsNothing && indexed.hold();
    match held.is_some() || still {
        true => 0,
        false => over_channels(&indexed, index, slip),
    }
}

/// The channels of an index in order, up to and including the first that has one.
fn over_channels(indexed: &Indexed, index: Index, slip: Slip) -> u32 {
    let cic = indexed.cic();
    let (mut sum, mut done) = (0, false);
    if slip == Slip::LowestSystemOfAllChannels {
        let lowest = cic.active().find(|&system| indexed.meets(index, system));
        let all = cic.systems().div_ceil(32);
        return lowest.map_or(all, |system| system / 32 + 1) as u32;
    }
    for channel in 0..cic.channels() {
        let leads = match index {
            Index::Global => true,
            Index::Host(host) => cic.host_of(channel) == host,
        };
        let counts = leads || slip == Slip::UnmappedChannelCounted;
        if !counts || (done && slip != Slip::LaterChannelsCounted) {
            continue;
        }
        let host = cic.host_enable().get(cic.host_of(channel));
        let asked = match slip {
            Slip::HostEnableAsked => host,
            Slip::GlobalEnableAsked => cic.global_enable(),
            _ => true,
        };
        let (words, found) = in_channel(cic, channel, asked, slip);
        sum = match slip {
            Slip::OnlyTheLastChannelCounted => words,
            _ => sum + words,
        };
        done |= (found && leads) || slip == Slip::FirstChannelOnly;
    }
    sum
}

/// The words of one channel in order, up to and including the first that has one, and whether one has.
fn in_channel(cic: &Cic, channel: usize, asked: bool, slip: Slip) -> (u32, bool) {
    let words = match slip {
        Slip::WordsRoundedDown => cic.systems() / 32,
        _ => cic.systems().div_ceil(32),
    };
    let more = u32::from(slip == Slip::OneWordMore);
    let mut looked = 0;
    for word in 0..words {
        let (status, enable) = (cic.status().word(word), cic.enable().word(word));
        let requests = match slip {
            Slip::DisabledFound => status,
            Slip::UnsetFound => enable,
            _ => status & enable,
        };
        let mut systems = (32 * word..cic.systems().min(32 * word + 32))
            .filter(|&system| requests >> (system % 32) & 1 == 1);
        let any = slip == Slip::AnyChannelFound;
        let found = asked && systems.any(|system| any || cic.channel_of(system) == channel);
        let empty = slip == Slip::EmptyWordSkipped && status == 0;
        let left_out = slip == Slip::LastWordLeftOut && found;
        looked += u32::from(!empty && !left_out);
        if found && slip == Slip::AllWordsCounted {
            return (words as u32, true);
        }
        if found {
            return (looked, true);
        }
    }
    (looked + more, false)
}

/// The sweeps and so many random questions.
fn compare_some(more: usize, other: impl FnMut(&Question) -> Outcome) -> Summary<Question> {
    let generator = Generator::new(3);
    compare(generator.cases(0..generator.sweeps() + more), other)
}

fn with(slip: Slip) -> impl Fn(&Question) -> Outcome {
    move |question| Ok(told(by_words(question, slip)))
}

#[test]
fn a_count_word_by_word_says_the_same() {
    let summary = compare_some(10_000, with(Slip::Nothing));
    if let Some((number, question)) = summary.first {
        let words = by_words(&question, Slip::Nothing);
        panic!("question {number}: {words} word by word: {question:?}");
    }
}

#[test]
fn a_wrong_count_differs() {
    for &slip in &Slip::ALL[1..] {
        let summary = compare_some(0, with(slip));
        assert!(summary.differ > 0, "{slip:?} is not found by the sweeps");
        assert!(summary.differ < summary.compared, "{slip:?} is everywhere");
        let generator = Generator::new(4);
        let random = generator.sweeps()..generator.sweeps() + 4_000;
        let summary = compare(generator.cases(random), with(slip));
        assert!(summary.differ > 0, "{slip:?} is not found at random");
    }
}
