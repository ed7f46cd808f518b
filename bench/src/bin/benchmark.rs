//! Times play and listing, the proved one, the model and the tuned player side by side on the same traces, and the
//! figures of a trace for a report; it reports and judges nothing.

use std::fs;
use std::hint::black_box;
use std::time::Instant;

use bench::digits::Digits;
use bench::listing::Text;
use bench::looked::looked;
use bench::report;
use bench::trace::{play, Observer, PROGRAM_LIMIT};
use bench::tuned;
use bench::workload::{busy, looks, polls, workloads, Look, Workload};

#[cfg(feature = "exports")]
use bench::exports as proved;

/// Where the proved library is not linked in there is nothing to do.
#[cfg(not(feature = "exports"))]
mod proved {
    pub const UNTOUCHED: () = ();

    pub fn figures_into(_: &[u8], _: u32, _: &mut ()) -> u32 {
        0
    }

    pub fn figures_of(trace: &[u8], limit: u32) -> bench::report::Figures {
        bench::report::figures(trace, limit).0
    }

    pub fn list_into(_: &[u8], _: u32, _: &mut [u8]) -> usize {
        0
    }

    pub fn steps_of(_: &[u8], _: u32) -> u32 {
        0
    }

    pub fn words_looked_at(_: &[u8], _: u32, _: u32) -> u32 {
        0
    }

    pub use {list_into as list_plain_into, steps_of as steps_plain_of};
}

/// Whether it is linked in.
const LINKED: bool = cfg!(feature = "exports");

const NOTES: &str = "\
Nanoseconds per step in the fastest of several rounds; a round is one play of the whole trace by each side in turn.

- proved: the proved library through its C functions; plain: its loops over a controller of any kind.
- model: the plain Rust model, its listing with digits made by hand; std text: with the standard library's formatting, as
  the differential test has it.
- tuned: the Rust player that is tuned by hand.
- Listing is play and listing. Play is the steps alone, with no text and no outputs after each step. Figures are play and
  the count of a report, with no text.

Buffers: each side writes its listing into one buffer that is kept from round to round and not cleared. The proved library
and the tuned player get ample room; the model's vectors have grown to their size before the rounds begin. The trace is in
memory before the clock starts.
";

const LOOK_NOTES: &str = "\
Status words (of 32 systems each) that a search for an index, channel by channel, looks at (a step goes by one pass),
and nanoseconds, for a CIC with indices of 1,024 systems, 256 channels and 256 hosts, the hold mode off:

- read: a step of a play of 20,000 steps, all but the first five or less of them reads of that index.
- question: one call of `wisteria_looked` (the model's `looked`) on a trace of those first steps, less one call of
  `wisteria_steps` (the model's play) on the same trace, each the mean of 1,000 calls in the fastest round.

| channels searched | pending | words looked at | read, proved | read, model | read, tuned | question, proved | question, model |
|---|---|--:|--:|--:|--:|--:|--:|";

/// How many calls of a question are timed together.
const CALLS: u32 = 1_000;

/// How often each workload is timed, unless said otherwise.
const ROUNDS: usize = 31;

/// Room for any listing that is timed.
const AMPLE: usize = 1 << 20;

fn main() {
    let rounds = match std::env::args().nth(1) {
        None => ROUNDS,
        Some(word) => word.parse().expect("benchmark [ROUNDS]"),
    };
    println!("Build: {}; {rounds} rounds.\n", build());
    println!("{NOTES}");
    let few = workloads(2_000).into_iter();
    let most: Vec<_> = few.chain(workloads(PROGRAM_LIMIT)).collect();
    let times: Vec<_> = most.iter().map(|each| measure(each, rounds)).collect();
    let rows = || most.iter().zip(&times);
    print_tables("Listing:", "Play:", rows());
    println!("\nFigures, beside play and listing, all proved, and the figures of the model:\n");
    println!("{FIGURES_HEAD}");
    for (workload, times) in rows() {
        println!("{}", figures_row(workload, times, rounds));
    }
    println!();
    let full = [
        ("a full CIC, 1,024 systems active", busy()),
        ("polls of a full CIC with indices", polls(PROGRAM_LIMIT)),
    ];
    for (what, workloads) in full {
        let times: Vec<_> = workloads.iter().map(|each| measure(each, rounds)).collect();
        let (listing, play) = (format!("Listing of {what}:"), format!("Play of {what}:"));
        print_tables(&listing, &play, workloads.iter().zip(&times));
        println!();
    }
    println!("{LOOK_NOTES}");
    for look in looks(PROGRAM_LIMIT) {
        println!("{}", look_row(&look, rounds));
    }
    if let Some(peak) = peak_memory() {
        println!("\nPeak memory of this process, all sides and all buffers: {peak}.");
    }
}

/// Two tables of the same workloads.
fn print_tables<'a>(
    listing: &str,
    play: &str,
    rows: impl Iterator<Item = (&'a Workload, &'a Times)> + Clone,
) {
    println!("{listing}\n\n{}", head("trace bytes | listing bytes", true));
    for (workload, times) in rows.clone() {
        println!("{}", listing_row(workload, times));
    }
    println!("\n{play}\n\n{}", head("trace bytes", false));
    for (workload, times) in rows {
        println!("{}", play_row(workload, times));
    }
}

fn build() -> String {
    let architecture = std::env::consts::ARCH;
    let alone = "without the proved library (feature `exports`), so the Rust sides are timed alone";
    let exports = match LINKED {
        true => "with the proved library linked in",
        false => alone,
    };
    let debug = match cfg!(debug_assertions) {
        true => ", and NOT a release build",
        false => "",
    };
    format!("{architecture}, {exports}{debug}")
}

/// The times of one workload in nanoseconds for a whole play.
struct Times {
    listing_bytes: usize,
    listing: Sides,
    std_text: u128,
    play: Sides,
}

/// The same work by all sides: proved, plain, by the model and tuned.
type Sides = [u128; 4];

/// A side that writes listings, or one that plays.
type Lister = fn(&[u8], u32, &mut [u8]) -> usize;
type Player = fn(&[u8], u32) -> u32;

/// The fastest of so many rounds for each of several, which take turns.
fn fastest<const N: usize>(rounds: usize, mut sides: [Box<dyn FnMut() + '_>; N]) -> [u128; N] {
    let mut fastest = [u128::MAX; N];
    for _ in 0..rounds {
        for (fastest, side) in fastest.iter_mut().zip(&mut sides) {
            let begin = Instant::now();
            side();
            *fastest = begin.elapsed().as_nanos().min(*fastest);
        }
    }
    fastest
}

/// Lists a trace again and again into one buffer; the first listing has to be the given one.
fn lists<'a>(by: Lister, trace: &'a [u8], listing: &[u8]) -> Box<dyn FnMut() + 'a> {
    let mut buffer = vec![0; AMPLE];
    let written = by(trace, PROGRAM_LIMIT, &mut buffer);
    assert!(buffer[..written] == *listing, "the listings differ");
    Box::new(move || {
        black_box(by(black_box(trace), PROGRAM_LIMIT, &mut buffer));
        black_box(&buffer);
    })
}

/// The same by the model.
fn lists_by_model<'a, O: Observer + 'a>(
    trace: &'a [u8],
    mut text: O,
    bytes: fn(&mut O) -> &mut Vec<u8>,
    listing: &[u8],
) -> Box<dyn FnMut() + 'a> {
    play(trace, PROGRAM_LIMIT, &mut text);
    assert!(bytes(&mut text) == listing, "the model's listings differ");
    Box::new(move || {
        bytes(&mut text).clear();
        play(black_box(trace), PROGRAM_LIMIT, &mut text);
        black_box(bytes(&mut text));
    })
}

fn plays<'a>(by: Player, trace: &'a [u8]) -> Box<dyn FnMut() + 'a> {
    Box::new(move || {
        black_box(by(black_box(trace), PROGRAM_LIMIT));
    })
}

fn play_model(trace: &[u8], limit: u32) -> u32 {
    black_box(play(trace, limit, &mut ())).steps
}

fn play_tuned(trace: &[u8], limit: u32) -> u32 {
    black_box(tuned::play(trace, limit)).steps
}

fn measure(workload: &Workload, rounds: usize) -> Times {
    let trace = workload.trace.as_slice();
    let listing = bench::listing::listing(trace, PROGRAM_LIMIT);
    let theirs: &[u8] = if LINKED { &listing } else { b"" };
    let sides = [
        lists(proved::list_into, trace, theirs),
        lists(proved::list_plain_into, trace, theirs),
        lists_by_model(trace, Digits::default(), |it| &mut it.bytes, &listing),
        lists(tuned::list, trace, &listing),
        lists_by_model(trace, Text::default(), |it| &mut it.bytes, &listing),
        plays(proved::steps_of, trace),
        plays(proved::steps_plain_of, trace),
        plays(play_model, trace),
        plays(play_tuned, trace),
    ];
    let [proved, plain, model, tuned, std_text, play @ ..] = fastest(rounds, sides);
    Times {
        listing_bytes: listing.len(),
        listing: [proved, plain, model, tuned],
        std_text,
        play,
    }
}

/// The words and the times of one look.
fn look_row(look: &Look, rounds: usize) -> String {
    let (reads, opening) = (look.reads.trace.as_slice(), look.opening.as_slice());
    for trace in [opening, reads] {
        let words = proved::words_looked_at(trace, PROGRAM_LIMIT, look.offset);
        assert!(words == look.words || !LINKED, "the words looked at differ");
    }
    let offset = look.offset;
    let calls = |run: Box<dyn Fn(&[u8]) -> u32>| -> Box<dyn FnMut()> {
        Box::new(move || {
            for _ in 0..CALLS {
                black_box(run(black_box(opening)));
            }
        })
    };
    let sides = [
        plays(proved::steps_of, reads),
        plays(play_model, reads),
        plays(play_tuned, reads),
        calls(Box::new(move |it| {
            proved::words_looked_at(it, PROGRAM_LIMIT, offset)
        })),
        calls(Box::new(|it| proved::steps_of(it, PROGRAM_LIMIT))),
        calls(Box::new(move |it| looked(it, PROGRAM_LIMIT, offset))),
        calls(Box::new(|it| play_model(it, PROGRAM_LIMIT))),
    ];
    let [read, read_model, read_tuned, asked, played, asked_model, played_model] =
        fastest(rounds, sides);
    let question = |asked: u128, played: u128| {
        format!("{:.0}", (asked as f64 - played as f64) / f64::from(CALLS))
    };
    let cells = [
        linked(per_step(&look.reads, read)),
        per_step(&look.reads, read_model),
        per_step(&look.reads, read_tuned),
        linked(question(asked, played)),
        question(asked_model, played_model),
    ];
    let (channels, pending, words) = (look.channels, look.pending, look.words);
    format!(
        "| {channels} | {pending} | {words} | {} |",
        cells.join(" | ")
    )
}

/// What is told of the proved side, where it is linked in.
fn linked(cell: String) -> String {
    match LINKED {
        true => cell,
        false => "-".to_string(),
    }
}

const FIGURES_HEAD: &str = "\
| controller | size | steps | trace bytes | figures | play | listing | figures/play | model's figures |
|---|---|--:|--:|--:|--:|--:|--:|--:|";

/// The figures of a workload, timed by both sides in turn, beside what was timed before.
fn figures_row(workload: &Workload, times: &Times, rounds: usize) -> String {
    let trace = workload.trace.as_slice();
    let figures = report::figures(trace, PROGRAM_LIMIT).0;
    assert!(
        proved::figures_of(trace, PROGRAM_LIMIT) == figures,
        "the figures differ"
    );
    let mut words = proved::UNTOUCHED;
    let sides: [Box<dyn FnMut()>; 2] = [
        Box::new(|| {
            black_box(proved::figures_into(
                black_box(trace),
                PROGRAM_LIMIT,
                &mut words,
            ));
            black_box(&words);
        }),
        Box::new(|| {
            black_box(report::figures(black_box(trace), PROGRAM_LIMIT));
        }),
    ];
    let [figures, model] = fastest(rounds, sides);
    let cells = [figures, times.play[0], times.listing[0]];
    let cells = cells.map(|whole| linked(per_step(workload, whole)));
    let ratio = figures as f64 / times.play[0] as f64;
    format!(
        "{} | {} | {} | {} |",
        beginning(workload),
        cells.join(" | "),
        linked(format!("{ratio:.2}")),
        per_step(workload, model),
    )
}

/// The head of a table: what a workload is, what counts its bytes, the sides, and last the standard text if it is timed.
fn head(bytes: &str, std_text: bool) -> String {
    let std_text = if std_text { " std text |" } else { "" };
    let head = format!(
        "| controller | size | steps | {bytes} | proved | plain | model | tuned | proved/model | proved/tuned |{std_text}"
    );
    let numbers = head.matches('|').count() - 3;
    format!("{head}\n|---|---|{}", "--:|".repeat(numbers))
}

fn listing_row(workload: &Workload, times: &Times) -> String {
    format!(
        "{} | {} | {} | {} |",
        beginning(workload),
        times.listing_bytes,
        side_by_side(workload, times.listing),
        per_step(workload, times.std_text),
    )
}

fn play_row(workload: &Workload, times: &Times) -> String {
    let sides = side_by_side(workload, times.play);
    format!("{} | {sides} |", beginning(workload))
}

/// What a workload is.
fn beginning(workload: &Workload) -> String {
    let (controller, size, steps) = (workload.controller, workload.size, workload.steps);
    let bytes = workload.trace.len();
    format!("| {controller} | {size} | {steps} | {bytes}")
}

/// The times of all sides, and the ratios of the proved one to the model and to the tuned player.
fn side_by_side(workload: &Workload, [proved, plain, model, tuned]: Sides) -> String {
    let ratio = |other: u128| linked(format!("{:.2}", proved as f64 / other as f64));
    let mut cells = Vec::from([proved, plain].map(|whole| linked(per_step(workload, whole))));
    cells.extend([model, tuned].map(|whole| per_step(workload, whole)));
    cells.extend([model, tuned].map(ratio));
    cells.join(" | ")
}

fn per_step(workload: &Workload, whole: u128) -> String {
    format!("{:.1}", whole as f64 / f64::from(workload.steps))
}

/// The most memory that this process had, where the system tells.
fn peak_memory() -> Option<String> {
    let status = fs::read_to_string("/proc/self/status").ok()?;
    let line = status.lines().find(|line| line.starts_with("VmHWM:"))?;
    Some(line.trim_start_matches("VmHWM:").trim().to_string())
}
