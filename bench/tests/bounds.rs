//! The bounds of waits and the keeping of tables: tables worked by hand, a second count step by step with wrong ways
//! beside it, and on generated traces what is promised of both.

#[path = "bounds/tables.rs"]
mod tables;
#[path = "bounds/wrong.rs"]
mod wrong;

use bench::bounds::text::told;
use bench::bounds::waits::{last, Bound};
use bench::bounds::Records;
use bench::model::aic::SOURCES;
use bench::report::generate::Generator;
use bench::report::history::{End, Wait};

/// The records of the traces of a seed: those that are the same for every seed, and so many more.
fn all(seed: u64, more: usize) -> impl Iterator<Item = (usize, Records)> {
    let generator = Generator::new(seed);
    let numbers = 0..generator.sweeps() + more;
    numbers.map(move |number| (number, records(&generator, number)))
}

/// Those of random traces alone.
fn random(seed: u64, count: usize) -> impl Iterator<Item = (usize, Records)> {
    let generator = Generator::new(seed);
    let first = generator.sweeps();
    (first..first + count).map(move |number| (number, records(&generator, number)))
}

fn records(generator: &Generator, number: usize) -> Records {
    let case = generator.case(number).case;
    Records::of(&case.trace, case.limit)
}

/// The waits of all sources; each is looked at by brute force, so none that is endless.
fn waits(records: &Records) -> Vec<Wait> {
    let all = (0..SOURCES).flat_map(|source| records.history.waits(source));
    all.filter(|wait| wait.to - wait.from < 500).collect()
}

/// The moments at which a start is judged: where one is, and the last one of the wait or before a rewrite. Between them
/// nothing is started and no term can fall.
fn judged(records: &Records, wait: &Wait) -> impl Iterator<Item = usize> {
    let last = records.rewritten(wait).map_or(last(wait), |step| step - 1);
    let moments = records.history.moments.clone();
    let starts = move |at: &usize| *at == last || moments[*at].started.is_some();
    (wait.from..=last).filter(starts)
}

#[test]
fn no_wait_has_more_started_than_its_bound_at_any_moment() {
    let (mut judgements, mut met) = (0, 0);
    for (number, records) in all(3, 4_000) {
        for wait in waits(&records) {
            for at in judged(&records, &wait) {
                let started = records.started(&wait, at);
                let terms = records.terms(&wait, at);
                assert!(
                    started <= terms.sum(),
                    "case {number}, {wait:?}, to {at}: {started} of {terms:?}"
                );
                judgements += 1;
                met += u32::from(started > 0 && started == terms.sum());
            }
        }
    }
    assert!(
        judgements > 20_000 && met > 2_000,
        "{judgements}, {met} met"
    );
}

#[test]
fn what_was_seen_is_at_most_what_is_possible_where_no_wait_is_without_a_bound() {
    for (number, records) in random(4, 1_500) {
        for source in 0..SOURCES {
            let summary = records.summary(source);
            assert_eq!(
                summary.seen,
                records.history.counts(source).waited,
                "case {number}"
            );
            let most = summary.most.map_or(0, |terms| terms.sum());
            if summary.unbounded == 0 {
                assert!(summary.seen <= most, "case {number}, source {source}");
            }
        }
    }
}

/// Each term, of waits with one rival or several, each end, and each sort of rewrite.
#[test]
fn generated_traces_reach_every_term_end_and_break() {
    let mut reached = [0; 11];
    for (_, records) in random(5, 2_000) {
        for wait in waits(&records) {
            let bounded = records.bounded(&wait);
            match bounded.bound {
                Bound::Terms(terms) => {
                    let each = terms.each();
                    for (reached, term) in reached.iter_mut().zip(each) {
                        *reached += u32::from(term > 0);
                    }
                    reached[6] += u32::from(each.iter().filter(|&&term| term > 0).count() > 3);
                }
                Bound::Rewritten(_) => reached[7] += 1,
            }
            let ends = [End::Started, End::Over, End::Never];
            for (reached, end) in reached[8..].iter_mut().zip(ends) {
                *reached += u32::from(wait.end == end);
            }
        }
    }
    assert!(reached.iter().all(|&times| times > 20), "{reached:?}");
}

#[test]
fn the_waits_of_the_example_are_those_of_the_program_and_slips_are_told() {
    let folder = concat!(env!("CARGO_MANIFEST_DIR"), "/../examples");
    let trace = std::fs::read(format!("{folder}/bound.trace")).expect("the example is there");
    let waits = std::fs::read_to_string(format!("{folder}/bound.waits"));
    assert_eq!(told(&trace, "9"), Ok(waits.expect("its waits are there")));
    let slip = Err("no bound: a source that waits is a number from 1 to 31\n".to_owned());
    for word in ["", "0", "32", "+9", "9 ", "x", "4294967305"] {
        assert_eq!(told(&trace, word), slip, "{word:?}");
    }
    assert!(told(&[], "9").is_err_and(|line| line.ends_with("E 8 0\n")));
    assert!(told(&[3], "9").is_err_and(|line| line.contains("not of an AIC")));
}
