//! Boards: the model against 02, 8/12 and the decided points, worked by hand; against a second evaluation on
//! generated boards; and that the reader of transcripts finds wrong models, spoiled lines and gaps.

#[path = "boards/second.rs"]
mod second;

use std::collections::BTreeSet;
use std::io::Write;
use std::process::{Command, Output, Stdio};

use bench::boards::coverage::{Coverage, Item};
use bench::boards::generate::{script, unsound, Script};
use bench::boards::text::{lines, Line};
use bench::boards::{ask, replay};
use bench::model::board::{Board, Wire};
use bench::model::core::Side;
use bench::tally::Listed;

use second::{Second, Slip};

/// As many boards as reach every listed item, and as are asked of the second evaluation.
const BOARDS: u64 = 400;

/// The decided points worked by hand, as a transcript with a board for each: what is asked, and behind the colon the
/// refusal, 0 where there is none, and the values.
const POINTS: &str = include_str!("boards/points.txt");

/// A refused call changes nothing, and the second evaluation answers alike.
#[test]
fn the_decided_points_are_as_they_were_worked() {
    let (mut board, mut second, mut boards) = (Board::new(), Second::new(None), 0);
    for line in lines(POINTS) {
        match line.expect("the line can be read") {
            Line::Call(call, reply) => {
                let before = board.clone();
                assert_eq!(ask(&mut board, &call), reply, "{call:?}");
                assert_eq!(second.ask(&call), reply, "{call:?}");
                assert!(reply.refusal == 0 || board == before, "{call:?}");
            }
            _ => (board, second, boards) = (Board::new(), Second::new(None), boards + 1),
        }
    }
    assert_eq!(boards, 12);
}

/// How many activities the pair of `board_wires` asks for, to tell that of a controller, itself among them: each lower
/// controller that feeds an input, used or not, is asked once.
fn asked(board: &Board, controller: usize) -> u32 {
    let fed = |wire: &Wire| match *wire {
        Wire::Output(_, other) => Some(other as usize),
        _ => None,
    };
    let feeders: BTreeSet<usize> = board.wires(controller).iter().filter_map(fed).collect();
    1 + feeders
        .into_iter()
        .map(|other| asked(board, other))
        .sum::<u32>()
}

#[test]
fn the_highest_of_eight_asks_for_at_most_128_activities() {
    let mut board = Board::new();
    (0..8).for_each(|number| assert_eq!(board.add(8, 32, 0, 0), Ok(number)));
    let mut connect = |controller, input, side, other| {
        let wire = Wire::Output(side, other);
        assert_eq!(board.connect(controller, input, wire), Ok(0));
        asked(&board, 7)
    };
    let chain = (1..8).map(|controller| connect(controller, 0, Side::Irq, controller - 1));
    assert_eq!(chain.last(), Some(8));
    for (controller, other) in (1..8).flat_map(|upper| (0..upper).map(move |lower| (upper, lower)))
    {
        connect(controller, other, Side::Irq, other);
        connect(controller, 32 + other, Side::Fiq, other);
    }
    let all: Vec<u32> = (0..8).map(|number| asked(&board, number)).collect();
    assert_eq!(all, [1, 2, 4, 8, 16, 32, 64, 128]);
}

#[test]
fn no_generated_board_asks_for_more() {
    let mut most = 0;
    for script in scripts() {
        let board = played(&script);
        for number in 0..board.controllers() {
            assert!(asked(&board, number) <= 1 << number, "{}", script.title);
            most = most.max(asked(&board, number));
        }
    }
    assert!(most > 8, "no generated board is dearer than a chain");
}

/// The boards that are asked.
fn scripts() -> impl Iterator<Item = Script> {
    (0..BOARDS).map(|number| script(1, number))
}

/// The model's board after a script.
fn played(script: &Script) -> Board {
    let mut board = Board::new();
    for call in &script.calls {
        ask(&mut board, call);
    }
    board
}

/// What a second board answers to a script.
fn told(script: &Script, slip: Option<Slip>) -> String {
    let mut second = Second::new(slip);
    script.transcript(|call| second.ask(call))
}

#[test]
fn a_second_evaluation_answers_the_same() {
    for script in scripts().chain((0..600).map(|number| self::script(2, 1_000 + number))) {
        assert_eq!(replay(&told(&script, None)).map(|_| ()), Ok(()));
    }
}

/// A guess at all activities, FIQ first, bettered by looking once at every wire.
fn bettered(board: &Board, guess: &[[bool; 2]]) -> Vec<[bool; 2]> {
    let high = |wire: &Wire| match *wire {
        Wire::Output(side, other) => guess[other as usize][side as usize],
        other => board.value(other, &[]),
    };
    let side = |controller: usize, side: Side, first: usize| {
        let group = board.stored(controller).group(side);
        let wires = board.wires(controller)[first..].iter();
        let mut sources = wires.zip(0..group.count);
        let raised = |bit: u32, wire: &Wire| group.soft >> bit & 1 == 1 || high(wire);
        sources.any(|(wire, bit)| group.enable >> bit & 1 == 1 && raised(bit, wire))
    };
    (0..board.controllers())
        .map(|number| [side(number, Side::Fiq, 32), side(number, Side::Irq, 0)])
        .collect()
}

#[test]
fn only_one_set_of_activities_agrees_with_the_wires() {
    for script in scripts() {
        let board = played(&script);
        let settled = board.settled();
        let found = settled
            .iter()
            .map(|core| [core.fiq.active(), core.irq.active()]);
        let found: Vec<_> = found.collect();
        assert_eq!(bettered(&board, &found), found, "{}", script.title);
        for first in [false, true] {
            let guess = vec![[first; 2]; board.controllers()];
            let after = (0..board.controllers()).fold(guess, |guess, _| bettered(&board, &guess));
            assert_eq!(after, found, "{}", script.title);
        }
    }
}

#[test]
fn wrong_models_are_told_apart() {
    for slip in Slip::ALL {
        let found = |script: &Script| replay(&told(script, Some(slip))).is_err();
        let random = scripts().skip(4).filter(found).count();
        assert!(random > 0, "{slip:?} is found by no random board");
    }
}

#[test]
fn every_listed_item_is_reached_and_what_is_counted_is_listed() {
    let transcript: String = scripts().map(|script| script.right()).collect();
    let coverage = replay(&(transcript + &unsound())).expect("the model agrees with itself");
    assert_eq!(coverage.boards(), BOARDS);
    assert_eq!(coverage.gaps(), []);
    let mut unlisted = coverage.unlisted();
    // Of the counts of sources only those at the ends are listed.
    unlisted.retain(|item| !matches!(item, Item::Sources(..)));
    assert_eq!(unlisted, [], "counted and not listed");
    assert_eq!(Coverage::listed_twice(), []);
}

#[test]
fn one_wrong_number_in_an_answer_is_found_at_its_line() {
    for number in [1, 9, 30] {
        let right = script(1, number).right();
        let lines: Vec<&str> = right.lines().collect();
        for (nth, line) in lines.iter().enumerate().skip(1) {
            let (asked, answered) = line.split_once(": ").expect("a call has an answer");
            let words: Vec<&str> = answered.split(' ').collect();
            for place in (0..words.len()).filter(|&place| words[place] != "controllers") {
                let wrong: u32 = words[place].parse().expect("an answer is numbers");
                let wrong = wrong.wrapping_add(1).to_string();
                let mut spoiled = words.clone();
                spoiled[place] = &wrong;
                let mut lines: Vec<String> = lines.iter().map(|line| line.to_string()).collect();
                lines[nth] = format!("{asked}: {}", spoiled.join(" "));
                let fault = replay(&(lines.join("\n") + "\n")).expect_err("it differs");
                assert_eq!(fault.line, nth + 1);
                assert!(fault.why.contains(&spoiled.join(" ")), "{}", fault.why);
                assert!(fault.why.contains(answered), "{}", fault.why);
            }
        }
    }
}

#[test]
fn a_record_that_breaks_a_rule_is_refused_by_twelve_alone() {
    let line = unsound();
    assert!(replay(&line).is_ok());
    assert!(replay(&line.replacen("12", "0", 1)).is_err());
    assert!(replay(&line.replacen("12\n", "6\n", 1)).is_err());
}

#[test]
fn a_call_wants_a_board() {
    assert!(replay("").is_err());
    assert!(replay("pin 0 1: 0\n").is_err());
    assert!(replay("board x\npin 0 1: 0\n").is_ok());
    assert!(replay("board x\nadd 0 0 0 0: 0 0\nboard y\nadd 0 0 0 0: 0 0\n").is_ok());
    assert!(replay("board x\npin 0 1: 0").is_err(), "a line with no end");
    assert!(replay("board x\n\npin 0 1: 0\n").is_err(), "an empty line");
}

/// A run of the reader on a transcript.
fn read(transcript: &str, words: &[&str]) -> Output {
    let mut child = Command::new(env!("CARGO_BIN_EXE_boards"))
        .args(words)
        .stdin(Stdio::piped())
        .stdout(Stdio::piped())
        .stderr(Stdio::null())
        .spawn()
        .expect("the reader starts");
    let mut input = child.stdin.take().expect("standard input is piped");
    // One that ends before it has read all is judged by its status.
    let _ = input.write_all(transcript.as_bytes());
    drop(input);
    child.wait_with_output().expect("the reader ends")
}

#[test]
fn the_exit_status_of_the_reader_tells() {
    let status = |transcript: &str, words: &[&str]| read(transcript, words).status.code();
    let whole: String = scripts().map(|script| script.right()).collect::<String>() + &unsound();
    let unreadable = whole.replacen(" controllers\n", " controller\n", 1);
    let gaps = script(1, 9).right();
    let cut = &whole[..whole.len() - 1];
    for (what, transcript, words, code) in [
        ("all is right", whole.as_str(), &[][..], 0),
        ("as many boards as wanted", &whole, &["400"], 0),
        ("fewer boards than wanted", &whole, &["401"], 1),
        ("no number", &whole, &["many"], 2),
        ("an empty transcript", "", &[], 1),
        ("a gap in coverage", &gaps, &[], 1),
        ("a cut line", cut, &[], 1),
        ("a line that cannot be read", &unreadable, &[], 1),
    ] {
        assert_eq!(status(transcript, words), Some(code), "{what}");
    }
}

#[test]
fn the_reader_says_where_it_differs_and_both_answers() {
    let said = |transcript| String::from_utf8(read(transcript, &[]).stdout).expect("plain text");
    assert_eq!(
        said("board x\nadd 1 1 0 0: 0 0\noutputs 0: 0 0 0 0 0\n"),
        "boards: line 3: outputs 0: answered 0 0 0 0 0, and by the model 0 0 0 1 1\n"
    );
}
