//! The program: one command, its options, standard input to standard output.

use std::io::{self, BufWriter, Read, Write};
use std::path::Path;
use std::process::ExitCode;

use judge::desk::Desk;
use judge::history::{history, Kind};
use judge::leaves::answer_all;
use judge::options::Options;
use judge::play::{play, unwritable};
use judge::requests::{requests, Lengths};
use judge::sample::sample;
use judge::trace::trace;

/// Exit status of a refusal; what was wrong stands in one line on standard error.
const REFUSED: u8 = 2;

const COMMANDS: &str = "play, trace, history, leaves, leaf-requests or sample";

fn main() -> ExitCode {
    let words: Result<Vec<String>, _> = std::env::args_os()
        .skip(1)
        .map(|word| word.into_string())
        .collect();
    let done = match words {
        Ok(words) => obey(&words),
        Err(word) => Err(format!("{word:?} isn't UTF-8: give plain words")),
    };
    match done {
        Ok(()) => ExitCode::SUCCESS,
        Err(line) => {
            eprintln!("judge: {line}");
            ExitCode::from(REFUSED)
        }
    }
}

fn obey(words: &[String]) -> Result<(), String> {
    let Some((command, rest)) = words.split_first() else {
        return Err(format!("no command: give {COMMANDS}"));
    };
    let read = |valued: &[&str], flags: &[&str]| Options::read(command, rest, valued, flags);
    let input = io::stdin().lock();
    let output = BufWriter::new(io::stdout().lock());
    match command.as_str() {
        "play" => {
            let pools = read(&["--nodes", "--cells"], &[])?.pools()?;
            play(&mut Desk::new(pools), input, output)
        }
        "trace" => {
            let pools = read(&["--nodes", "--cells"], &[])?.pools()?;
            trace(&mut Desk::new(pools), input, output)
        }
        "history" => {
            let valued = ["--seed", "--kind", "--count", "--nodes", "--cells"];
            write(output, &history_of(&read(&valued, &[])?)?)
        }
        "leaves" => {
            read(&[], &[])?;
            write(output, &answer_all(&whole(input)?)?)
        }
        "leaf-requests" => {
            let options = read(&["--seed", "--keys"], &["--outside"])?;
            write(output, &requests_of(&options)?)
        }
        "sample" => sample(Path::new(read(&["--out"], &[])?.word("--out")?)),
        _ => Err(format!("{command} isn't a command: give {COMMANDS}")),
    }
}

fn history_of(options: &Options) -> Result<Vec<u8>, String> {
    let name = options.word("--kind")?;
    let kind = Kind::named(name).ok_or_else(|| {
        let names = Kind::ALL.map(|(name, _)| name).join(", ");
        format!("history: --kind {name} isn't known: give one of {names}")
    })?;
    let seed = options.number("--seed")?;
    let count = options.number("--count")? as usize;
    Ok(history(kind, seed, count, options.pools()?).concat())
}

fn requests_of(options: &Options) -> Result<Vec<u8>, String> {
    let lengths = if options.has("--outside") {
        Lengths::Past
    } else {
        Lengths::Inside
    };
    let keys = u32::try_from(options.number("--keys")?)
        .map_err(|_| format!("leaf-requests: --keys is too large: give 0 to {}", u32::MAX))?;
    let made = requests(options.number("--seed")?, keys, lengths);
    Ok(made.iter().flat_map(|request| request.encode()).collect())
}

fn whole(mut input: impl Read) -> Result<Vec<u8>, String> {
    let mut bytes = Vec::new();
    let read = input.read_to_end(&mut bytes);
    read.map_err(|e| format!("cannot read the requests from standard input: {e}"))?;
    Ok(bytes)
}

fn write(mut output: impl Write, bytes: &[u8]) -> Result<(), String> {
    let written = output.write_all(bytes).and_then(|()| output.flush());
    written.map_err(unwritable)
}
