//! The program that compares, run on programs that are right and wrong: its exit status tells.

use std::process::{Command, Output};

const LOOK: &str = env!("CARGO_BIN_EXE_look");
const REFERENCE: &str = env!("CARGO_BIN_EXE_reference");

fn look(words: &[&str]) -> Output {
    let output = Command::new(LOOK).args(words).output();
    output.expect("the program starts")
}

const FEW: [&str; 4] = ["--traces", "60", "--windows", "60"];

/// The model as both programs, or a line of shell in the place of one.
fn run(wave: &str, picture: &str) -> Output {
    let script = format!("case $1 in wave) shift; {wave};; *) shift; {picture};; esac");
    let by = [
        "--wave",
        "wave",
        "--picture",
        "picture",
        "--",
        "sh",
        "-c",
        &script,
        "it",
    ];
    look(&[&FEW[..], &by].concat())
}

/// Wrong programs: `W` is the model's waves, `P` its picture.
const WRONG_WAVES: [&str; 7] = [
    "cat",
    "cat >/dev/null",
    "exit 1",
    "W; echo odd >&2",
    "W | head -n 40",
    "W | tr ! '~'",
    "W | sed 's/^\\$scope module \\(.*\\)$/& $end/;/^\\$end$/d'",
];
const WRONG_PICTURES: [&str; 10] = [
    "cat >/dev/null",
    "cat >/dev/null; echo there is none >&2",
    "REFERENCE --picture \"$1\" 40",
    "REFERENCE --picture 1 \"$2\"",
    "P 2>/dev/null",
    "P | sed 's/mark/none/'",
    "P | sed 's/#333/#334/'",
    "P | grep -v '</svg>'",
    "P | grep -v '>steps<'",
    "P | sed 's/at most 8/at most 9/'",
];

#[test]
fn only_the_model_is_right() {
    let program = |line: &str| {
        let line = line.replacen('W', "REFERENCE --wave", 1);
        let line = line.replacen('P', "REFERENCE --picture \"$@\"", 1);
        line.replace("REFERENCE", REFERENCE)
    };
    let right = run(&program("W"), &program("P"));
    let text = String::from_utf8_lossy(&right.stdout);
    assert_eq!(right.status.code(), Some(0), "{text}");
    assert_eq!(text.matches("none differs").count(), 2, "{text}");
    let waves = WRONG_WAVES.map(|wrong| (wrong, run(&program(wrong), &program("P"))));
    let pictures = WRONG_PICTURES.map(|wrong| (wrong, run(&program("W"), &program(wrong))));
    for (wrong, output) in waves.into_iter().chain(pictures) {
        let text = String::from_utf8_lossy(&output.stdout);
        assert_eq!(output.status.code(), Some(1), "{wrong}: {text}");
    }
}

#[test]
fn what_is_not_asked_properly_is_refused() {
    let bad: [&[&str]; 6] = [
        &[],
        &["--wave", "a"],
        &["--wave", "a", "--picture"],
        &["--wave", "a", "--picture", "b", "--traces", "x"],
        &["--wave", "a", "--picture", "b", "--odd", "1"],
        &["a", "b"],
    ];
    for words in bad {
        assert_eq!(look(words).status.code(), Some(2), "{words:?}");
    }
}
