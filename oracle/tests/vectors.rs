//! The whole runs of the vectors, where that folder is at hand.

use std::ffi::OsStr;
use std::path::PathBuf;
use std::{env, fs};

use judge::desk::{Desk, Pools};
use judge::play::play;

/// Names the folder of the vectors; else they stand in `shared/` beside the repository.
const VARIABLE: &str = "VECTORS";

#[test]
fn every_base_run() {
    let beside = || PathBuf::from(env!("CARGO_MANIFEST_DIR")).join("../../shared/vectors");
    let folder = env::var_os(VARIABLE).map_or_else(beside, PathBuf::from);
    let base = folder.join("base");
    let Ok(files) = fs::read_dir(&base) else {
        println!(
            "skipped: no {}; {VARIABLE} names the folder",
            base.display()
        );
        return;
    };
    let mut runs = 0;
    for file in files {
        let at = file.expect("the folder can be listed").path();
        if at.extension() != Some(OsStr::new("in")) {
            continue;
        }
        let input = fs::read(&at).expect("a run's records can be read");
        let expected = fs::read(at.with_extension("out")).expect("a run has its answers");
        let mut output = Vec::new();
        play(&mut Desk::new(Pools::BENCH), input.as_slice(), &mut output).expect("memory only");
        assert!(output == expected, "{}: answers differ", at.display());
        runs += 1;
    }
    assert!(runs > 0, "{} holds no run", base.display());
    println!("{runs} runs of {} are the same", base.display());
}
