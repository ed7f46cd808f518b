//! The comparing program run on programs that are right and wrong: its exit status tells.

use std::process::Command;

const DIFFERENTIAL: &str = env!("CARGO_BIN_EXE_differential");
const REFERENCE: &str = env!("CARGO_BIN_EXE_reference");

/// The exit status, and the words behind `differential`: 0 where all is right, 1 where something differs or a listed item
/// was not reached, 2 where it was not asked properly. `REFERENCE` is the model as a program, `REPORT` another program.
const RUNS: &str = "
0 --program REFERENCE --count 900
1 --program REFERENCE --count 3
1 --program REPORT --count 900
2 --program REFERENCE --count many
0 --tuned --count 900
2 --tuned --stack
0 --stack --program REFERENCE --count 700 -- --stacksize
1 --stack --program REFERENCE --count 3 -- --stacksize
1 --stack --program REFERENCE --count 700 -- --batch
2 --stack --program REFERENCE --count many -- --stacksize
0 --looked --batch REFERENCE --count 6000 -- --batch
1 --looked --batch REFERENCE --count 3 -- --batch
1 --looked --batch REFERENCE --count 6000 -- --nothing
2 --looked --program REFERENCE
2 --looked --tuned
0 --looked --trace 3
0 --figures --batch REFERENCE --count 5000 -- --batch
1 --figures --batch REFERENCE --count 300 -- --batch
1 --figures --batch REFERENCE --count 5000 -- --nothing
2 --figures --batch REFERENCE --count many -- --batch
2 --figures --tuned
2 --figures --program REFERENCE
2 --figures --stack --batch REFERENCE
";

#[test]
fn the_exit_status_tells() {
    for run in RUNS.lines().skip(1) {
        let (expected, words) = run.split_once(' ').expect("a status stands first");
        let words = words.split(' ').map(|word| match word {
            "REFERENCE" => REFERENCE,
            "REPORT" => env!("CARGO_BIN_EXE_report"),
            word => word,
        });
        let output = Command::new(DIFFERENTIAL).args(words).output();
        let status = output.expect("the comparison runs").status.code();
        assert_eq!(status, expected.parse().ok(), "{run}");
    }
}
