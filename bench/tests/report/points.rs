//! The decided points Y5 to Y7 and Y11, by hand; Y1 to Y5 are in the text of worked figures.

use bench::model::Refusal;
use bench::random::Random;
use bench::report::generate::Generator;
use bench::report::totals::Totals;
use bench::report::{figures, Counts, Figures};
use bench::trace::PROGRAM_LIMIT;
use bench::typed::encode;

/// Y5: other kinds have steps alone.
#[test]
fn other_kinds_have_zeros() {
    for kind in 1..5 {
        let trace = bench::report::generate::steps_of_kind(kind, true).bytes;
        let (figures, ending) = figures(&trace, PROGRAM_LIMIT);
        assert_eq!((figures.steps, figures.refused), (5, 2), "kind {kind}");
        assert_eq!(figures.sources, [Counts::default(); 32]);
        assert_eq!(ending, (0, trace.len()));
    }
}

/// Y6: a trace that ends early counts up to there.
#[test]
fn an_early_end_counts_up_to_there() {
    let source_4_waits =
        "write 16 0x40\nwrite 20 0x60\nwrite 24 0x67\nwrite 28 0x47\nwrite 0x120 0xF0\nline 4 1\n";
    let another = "write 0x12C 64\nread 0x100\nwrite 0x130 0\n";
    let text = ["aic 0 0\n", source_4_waits, another, another].concat();
    let whole = encode(text.as_bytes()).expect("the text has the form");
    let (all, _) = figures(&whole, PROGRAM_LIMIT);
    assert_eq!((all.steps, all.sources[4].waited), (12, 2));
    // The last step has a write of five numbers' bytes: cut it, or spoil its kind.
    let (cut, ending) = figures(&whole[..whole.len() - 1], PROGRAM_LIMIT);
    assert_eq!((cut.steps, cut.sources[4].waited), (11, 2));
    assert_eq!(ending, (8, whole.len() - 1));
    let (limited, ending) = figures(&whole, 8);
    assert_eq!((limited.steps, limited.sources[4].waited), (8, 1));
    assert_eq!(ending.0, 7);
    let beginnings: [(&[u8], (u32, usize)); 5] = [
        (&[], (8, 0)),
        (&[5], (9, 0)),
        (&[1, 9, 0, 0, 0], (10, 1)),
        (&[0, 0], (8, 2)),
        (&[0; 65_537], (11, 65_536)),
    ];
    for (trace, expected) in beginnings {
        let (figures, ending) = figures(trace, PROGRAM_LIMIT);
        assert_eq!((figures.steps, figures.refused, ending), (0, 0, expected));
        assert_eq!(figures.sources, [Counts::default(); 32]);
    }
}

fn counts(started: u32, waited: u32, entries: u32) -> Counts {
    Counts {
        started,
        waited,
        entries,
    }
}

/// Figures with one source's handlers, and one for all else.
fn with(source: usize, started: u32) -> Figures {
    let mut figures = Figures {
        steps: 1,
        refused: 1,
        sources: [Counts::default(); 32],
    };
    figures.sources[source] = counts(started, 5, 2);
    figures
}

/// Y7: a sum that reaches the figure is kept; where one of 32 would pass it all of the trace is left out.
#[test]
fn a_sum_that_would_pass_leaves_the_trace_out() {
    for source in 0..32 {
        let mut totals = Totals::default();
        assert_eq!(totals.add(&with(source, u32::MAX - 1)), Ok(()));
        assert_eq!(totals.add(&with(source, 1)), Ok(()));
        assert_eq!(totals.sources[source].started, u32::MAX);
        let before = totals.clone();
        let mut beyond = with(source, 1);
        beyond.sources[(source + 1) % 32] = counts(3, 9, 8);
        assert_eq!(totals.add(&beyond), Err(Refusal::BeyondTotal));
        assert_eq!(totals, before);
        assert_eq!(totals.add(&with(source, 0)), Ok(()));
        assert_eq!(totals.add(&with((source + 1) % 32, 7)), Ok(()));
    }
    let mut totals = Totals::default();
    assert_eq!(totals.add(&with(3, u32::MAX)), Ok(()));
    assert_eq!(totals.add(&with(3, u32::MAX)), Err(Refusal::BeyondTotal));
}

/// Y7: the two largest numbers are no sums.
#[test]
fn the_largest_numbers_are_not_added() {
    let mut totals = Totals::default();
    for counted in [counts(2, 7, 3), counts(4, 5, 6)] {
        let mut figures = with(0, 0);
        figures.sources[9] = counted;
        assert_eq!(totals.add(&figures), Ok(()));
    }
    assert_eq!(totals.sources[9], counts(6, 7, 6));
}

/// Y11: the same traces in another order.
#[test]
fn another_order_gives_the_same() {
    let generator = Generator::new(4);
    let first = generator.sweeps();
    let mut traces: Vec<Figures> = (first..first + 200)
        .map(|number| figures(&generator.case(number).case.trace, PROGRAM_LIMIT).0)
        .collect();
    let total = |traces: &[Figures]| {
        let mut totals = Totals::default();
        traces
            .iter()
            .for_each(|figures| assert_eq!(totals.add(figures), Ok(())));
        totals
    };
    let expected = total(&traces);
    let random = &mut Random::new(3);
    for _ in 0..20 {
        for place in (1..traces.len()).rev() {
            traces.swap(place, random.below(place as u32 + 1) as usize);
        }
        assert_eq!(total(&traces), expected);
    }
}
