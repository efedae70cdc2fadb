//! The reading of the steps beside the vectors of calls on damaged memory, where that folder is at
//! hand: they come from elsewhere and share nothing with it.

use std::path::PathBuf;
use std::str::Lines;
use std::{env, fs};

use beside::damage::Call;
use beside::memory::{state_of, Words, STATE_WORDS};
use beside::outcomes::{allowed_outcome, fits, settled_first};
use beside::reading::steps;
use hestrovik::boundary::Answer;
use judge::record::Operation;

/// Names the folder of the vectors; else they stand in `shared/` beside the repository.
const VARIABLE: &str = "VECTORS";

/// The numbers of a line behind its first word.
fn numbers(line: &str, word: &str, base: u32) -> Vec<u32> {
    let mut words = line.split_whitespace();
    assert_eq!(words.next(), Some(word), "{line}");
    let number = |word| u32::from_str_radix(word, base).expect("a number of 32 bits");
    words.map(number).collect()
}

fn next<'a>(lines: &mut Lines<'a>) -> &'a str {
    lines.next().expect("a case is whole")
}

/// Sizes, marks, rules, free counts and four slices.
fn image(lines: &mut Lines) -> Words {
    let sizes = numbers(next(lines), "sizes", 10);
    let marks = numbers(next(lines), "marks", 10);
    let rules = numbers(next(lines), "rules", 10);
    let node_free = numbers(next(lines), "nfree", 16);
    let cell_free = numbers(next(lines), "cfree", 16);
    let nodes = [&[sizes[0], marks[0]], node_free.as_slice()].concat();
    let cells = [&[sizes[1], marks[1]], cell_free.as_slice()].concat();
    let state = [nodes, cells, rules].concat();
    let state: [u32; STATE_WORDS] = state.try_into().expect("seven free counts a pool");
    Words {
        state: state_of(state),
        slices: ["nodes", "cells", "nlist", "clist"].map(|name| numbers(next(lines), name, 16)),
    }
}

/// Operation and length are decimal, the rest hexadecimal.
fn mixed(line: &str, word: &str, decimal: usize) -> Vec<u32> {
    let (tens, all) = (line.split_whitespace(), numbers(line, word, 16));
    let tens = tens
        .skip(1)
        .take(decimal)
        .map(|word| word.parse().expect("a number"));
    let rest = all[decimal..].iter().copied();
    tens.chain(rest).collect()
}

#[test]
fn every_case_of_damaged_memory() {
    let beside = || PathBuf::from(env!("CARGO_MANIFEST_DIR")).join("../../shared/vectors");
    let folder = env::var_os(VARIABLE).map_or_else(beside, PathBuf::from);
    let file = folder.join("broken-memory.txt");
    let Ok(text) = fs::read_to_string(&file) else {
        println!(
            "skipped: no {}; {VARIABLE} names the folder",
            file.display()
        );
        return;
    };
    let mut lines = text.lines();
    let (mut cases, mut walked) = (0, 0);
    while let Some(line) = lines.next() {
        if line.is_empty() {
            continue;
        }
        assert!(line.starts_with("case "), "{line}");
        assert_eq!(next(&mut lines), "before");
        let before = image(&mut lines);
        let call = mixed(next(&mut lines), "call", 2);
        let call = Call {
            operation: Operation::ALL[call[0] as usize - 1],
            length: call[1],
            key: call[2],
            value: call[3],
        };
        let said = mixed(next(&mut lines), "answer", 3);
        let said = Answer {
            number: said[0],
            len: said[1],
            nodes: said[2],
            key: said[3],
            value: said[4],
        };
        let memory = next(&mut lines) == "memory=1";
        let after = match next(&mut lines) {
            "after same" => before.clone(),
            _ => image(&mut lines),
        };
        // What comes before the steps, and what an outcome may leave.
        if memory {
            assert_eq!(
                allowed_outcome(&before, call, &said, &after),
                Ok(()),
                "{line}"
            );
        }
        // The steps themselves.
        let edit = call.operation.is_edit();
        if fits(&before, edit) && !settled_first(&before, call) {
            let told = steps(&before, call);
            assert_eq!(told.answer, said, "{line}");
            if memory {
                assert_eq!(told.state, after.state, "{line}");
            }
            walked += 1;
        }
        cases += 1;
    }
    assert!(cases > 0 && walked > 0, "{} holds no case", file.display());
    println!(
        "{cases} cases of {}, {walked} of them walked",
        file.display()
    );
}
