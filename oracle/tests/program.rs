//! The program itself: refusals in one line with status 2, input in pieces, the sample.

use std::io::Write;
use std::process::{Command, Output, Stdio};
use std::{env, fs, process};

fn judge(words: &[&str], pieces: &[&[u8]]) -> Output {
    let mut child = Command::new(env!("CARGO_BIN_EXE_judge"))
        .args(words)
        .stdin(Stdio::piped())
        .stdout(Stdio::piped())
        .stderr(Stdio::piped())
        .spawn()
        .expect("the program starts");
    let mut input = child.stdin.take().expect("it has an input");
    for piece in pieces {
        // A program that refuses its options may be gone before it reads.
        let _ = input.write_all(piece).and_then(|()| input.flush());
    }
    drop(input);
    child.wait_with_output().expect("the program ends")
}

fn refused(words: &[&str], input: &[u8], part: &str) {
    let output = judge(words, &[input]);
    let line = String::from_utf8(output.stderr).expect("plain text");
    assert_eq!(output.status.code(), Some(2), "{words:?}");
    assert_eq!(line.lines().count(), 1, "{line}");
    assert!(line.starts_with("judge: ") && line.contains(part), "{line}");
    assert!(output.stdout.is_empty());
}

#[test]
fn bad_usage_gets_one_line() {
    refused(&[], b"", "no command");
    refused(&["judge"], b"", "isn't a command");
    refused(&["play", "--node", "7"], b"", "--node isn't known");
    refused(&["play", "--nodes"], b"", "give its value");
    refused(&["play", "--nodes", "0"], b"", "1 to 65536");
    refused(&["play", "--cells", "65537"], b"", "1 to 65536");
    refused(
        &["play", "--cells", "7", "--cells", "8"],
        b"",
        "given twice",
    );
    refused(&["leaves", "--seed", "1"], b"", "takes no options");
    refused(&["leaves"], b"short", "5 bytes into request 0");
    refused(
        &["history", "--seed", "1", "--count", "1"],
        b"",
        "--kind is missing",
    );
    let odd = ["history", "--seed", "1", "--count", "1", "--kind", "odd"];
    refused(&odd, b"", "random, dense, chain, drain, lengths");
    refused(
        &["leaf-requests", "--seed", "x", "--keys", "1"],
        b"",
        "isn't a number",
    );
    refused(&["sample"], b"", "--out is missing");
    refused(&["sample", "--out", "/dev/null/x"], b"", "/dev/null/x");
}

/// A short read is no tail: the answers are those of the whole.
#[test]
fn input_in_pieces() {
    let history = [
        "history", "--seed", "5", "--kind", "lengths", "--count", "40",
    ];
    let input = judge(&history, &[]).stdout;
    let whole = judge(&["play"], &[&input]);
    assert_eq!(whole.stdout.len(), input.len());
    let pieces: Vec<&[u8]> = input.chunks(7).collect();
    assert_eq!(judge(&["play"], &pieces).stdout, whole.stdout);
}

/// Every answer line of a trace is play's answer, and every edit in good form has its image.
#[test]
fn trace_tells_what_play_tells() {
    let history = [
        "history", "--seed", "5", "--kind", "lengths", "--count", "200",
    ];
    let input = judge(&history, &[]).stdout;
    let played = judge(&["play", "--nodes", "40", "--cells", "9"], &[&input]).stdout;
    let traced = judge(&["trace", "--nodes", "40", "--cells", "9"], &[&input]).stdout;
    let traced = String::from_utf8(traced).expect("plain text");
    let lines = traced
        .lines()
        .filter_map(|line| line.strip_prefix("answer "));
    let expected = played.chunks(12).enumerate().map(|(at, answer)| {
        let word = |at: usize| u32::from_be_bytes(answer[at..at + 4].try_into().unwrap());
        let [number, length, count] = [answer[0], answer[1], answer[2]];
        format!(
            "{at} {number} {length} {count} {:08x} {:08x}",
            word(4),
            word(8)
        )
    });
    assert!(lines.eq(expected));
    let edits = input.chunks(12).zip(played.chunks(12));
    let edits = edits.filter(|(record, answer)| (1..=2).contains(&record[0]) && answer[0] != 6);
    let images = traced.lines().filter(|line| line.starts_with("marks "));
    assert_eq!(images.count(), edits.count());
}

/// The sample's answers are those of the commands, and it meets what it should.
#[test]
fn sample_is_what_the_commands_answer() {
    let folder = env::temp_dir().join(format!("judge-sample-{}", process::id()));
    let out = folder.to_str().expect("plain text");
    assert!(judge(&["sample", "--out", out], &[]).status.success());
    let read = |name: &str| fs::read(folder.join(name)).expect("the sample has this file");
    let (records, requests) = (read("maps.in"), read("leaves.in"));
    let answers = judge(&["play"], &[&records]).stdout;
    assert_eq!(answers, read("maps.out"));
    assert_eq!(judge(&["leaves"], &[&requests]).stdout, read("leaves.out"));
    let met = |operation: u8, number: u8| {
        let mut both = records.chunks(12).zip(answers.chunks(12));
        both.any(|(record, answer)| record[0] == operation && answer[0] == number)
    };
    assert!(met(1, 4) && met(2, 4) && met(3, 1) && met(5, 7) && met(1, 8));
    fs::remove_dir_all(&folder).expect("the folder is ours");
}
