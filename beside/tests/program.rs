//! The command itself: a small run, cases replayed, and bad usage in one line with status 2.

use std::process::{Command, Output};
use std::{env, fs, process};

fn beside(words: &[&str]) -> Output {
    Command::new(env!("CARGO_BIN_EXE_beside"))
        .args(words)
        .output()
        .expect("the program starts")
}

fn refused(words: &[&str], part: &str) {
    let output = beside(words);
    let line = String::from_utf8(output.stderr).expect("plain text");
    assert_eq!(output.status.code(), Some(2), "{words:?}");
    assert_eq!(line.lines().count(), 1, "{line}");
    assert!(
        line.starts_with("beside: ") && line.contains(part),
        "{line}"
    );
    assert!(output.stdout.is_empty());
}

/// A case file of this text, for as long as the test runs.
struct Kept(String);

impl Kept {
    fn new(name: &str, text: &str) -> Kept {
        let at = env::temp_dir().join(format!("beside-{}-{name}", process::id()));
        fs::write(&at, text).expect("the temporary folder can be written");
        Kept(at.to_str().expect("plain text").to_string())
    }
}

impl Drop for Kept {
    fn drop(&mut self) {
        let _ = fs::remove_file(&self.0);
    }
}

#[test]
fn a_small_run_reports() {
    let output = beside(&["--from", "3", "--seeds", "8"]);
    let said = String::from_utf8(output.stdout).expect("plain text");
    assert!(output.status.success(), "{said}");
    assert!(
        said.starts_with("histories                            8\n"),
        "{said}"
    );
    assert!(
        said.contains("not met: ") && said.ends_with("no difference was found\n"),
        "{said}"
    );
}

#[test]
fn bad_usage_gets_one_line() {
    refused(&["--seed", "7"], "beside: --seed isn't known");
    refused(&["--seeds"], "give its value");
    refused(&["--seeds", "many"], "isn't a number");
    refused(&["--quick", "--seeds", "9"], "leave one of the two out");
    refused(&["--replay", "/nowhere/at/all"], "give a case file");
    refused(&["--replay", "x", "--quick"], "leave --quick out");
}

#[test]
fn bad_cases_get_their_line() {
    for (name, text, part) in [
        ("empty", "", "no line `pools NODES CELLS`"),
        (
            "sizes",
            "pools 0 8\n",
            "line 1: \"pools 0 8\": 0 isn't a pool size",
        ),
        ("record", "pools 8 8\nrecord 01zz\n", "line 2"),
        (
            "bad",
            "pools 8 8\nrecord 061b00000a00011300000007\n",
            "a good record",
        ),
        (
            "slice",
            "pools 8 8\nword heap 0 1\n",
            "heap isn't known: give one of nodes",
        ),
        ("call", "pools 8 8\nword cells 0 1\n", "no call follows"),
        ("word", "pools 8 8\nnonsense\n", "line 2"),
        (
            "operation",
            "pools 8 8\ncall find 0 0 0\n",
            "find isn't known",
        ),
    ] {
        let case = Kept::new(name, text);
        refused(&["--replay", &case.0], part);
    }
}

#[test]
fn cases_are_replayed() {
    let history = "pools 8 8\n# the held cell\nrecord 011b00000a00011300000007\nrecord 042000000a00011200000000\n";
    let case = Kept::new("history", history);
    let output = beside(&["--replay", &case.0]);
    assert!(output.status.success());
    assert_eq!(output.stdout, b"2 records: no difference\n");

    let damaged = format!("{history}word state 1 00000009\ncall exact 0a000113 27 00000000\n");
    let case = Kept::new("damaged", &damaged);
    let output = beside(&["--replay", &case.0, "--bare"]);
    let said = String::from_utf8(output.stdout).expect("plain text");
    assert!(
        output.status.success() && said.contains("number: 5"),
        "{said}"
    );
}
