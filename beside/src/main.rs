//! The command: its options, the progress line, standard output.

use std::env;
use std::io::{self, IsTerminal, Write};
use std::path::{Path, PathBuf};
use std::process::ExitCode;
use std::time::{Duration, Instant};

use beside::counts::Counts;
use beside::memory::GUARDS;
use beside::run::{replay, End, Run};
use beside::subject::Port;
use judge::options::Options;

/// Seeds of a run, and of a quick one.
const SEEDS: u64 = 2000;
const QUICK: u64 = 600;

/// Exit status where a difference is found or something was not met, and where the usage is wrong.
const DIFFERS: u8 = 1;
const REFUSED: u8 = 2;

/// How often the progress line is written: to a terminal, which it rewrites, and elsewhere.
const OFTEN: Duration = Duration::from_millis(500);
const SELDOM: Duration = Duration::from_secs(10);

fn main() -> ExitCode {
    match obey().and_then(say) {
        Ok(status) => status,
        Err(line) => {
            // What the options refuse begins with the command's name already.
            eprintln!("beside: {}", line.trim_start_matches("beside: "));
            ExitCode::from(REFUSED)
        }
    }
}

fn obey() -> Result<End, String> {
    let words: Result<Vec<String>, _> = env::args_os().skip(1).map(|w| w.into_string()).collect();
    let words = words.map_err(|word| format!("{word:?} isn't UTF-8: give plain words"))?;
    let options = Options::read(
        "beside",
        &words,
        &["--seeds", "--from", "--out", "--replay"],
        &["--quick", "--bare"],
    )?;
    // Slices that are heap blocks of exactly their length, for a run under a memory checker.
    let guards = if options.has("--bare") { 0 } else { GUARDS };
    if options.has("--replay") {
        for other in ["--seeds", "--from", "--out", "--quick"] {
            if options.has(other) {
                return Err(format!("--replay plays one case: leave {other} out"));
            }
        }
        return replay::<Port>(Path::new(options.word("--replay")?), guards);
    }
    if options.has("--quick") && options.has("--seeds") {
        return Err("--quick has its own number of seeds: leave one of the two out".into());
    }
    let number = |name: &str, usual: u64| match options.has(name) {
        true => options.number(name),
        false => Ok(usual),
    };
    let usual = if options.has("--quick") { QUICK } else { SEEDS };
    let run = Run {
        first: number("--from", 0)?,
        seeds: number("--seeds", usual)?,
        out: match options.has("--out") {
            true => PathBuf::from(options.word("--out")?),
            false => env::temp_dir(),
        },
        guards,
        demanding: !options.has("--seeds"),
    };
    let mut progress = Progress::new(run.seeds);
    let end = run.go::<Port>(|done, counts| progress.say(done, counts));
    progress.end();
    end
}

/// The report goes to standard output, a difference to standard error.
fn say(end: End) -> Result<ExitCode, String> {
    match end {
        End::Same(text) => {
            let said = writeln!(io::stdout().lock(), "{text}");
            said.map_err(|e| format!("cannot write to standard output: {e}"))?;
            Ok(ExitCode::SUCCESS)
        }
        End::Differs(text) => {
            eprintln!("beside: {text}");
            Ok(ExitCode::from(DIFFERS))
        }
    }
}

/// The progress line on standard error.
struct Progress {
    of: u64,
    last: Instant,
    terminal: bool,
}

impl Progress {
    fn new(of: u64) -> Progress {
        Progress {
            of,
            last: Instant::now(),
            terminal: io::stderr().is_terminal(),
        }
    }

    fn say(&mut self, done: u64, counts: &Counts) {
        let pause = if self.terminal { OFTEN } else { SELDOM };
        if self.last.elapsed() < pause {
            return;
        }
        self.last = Instant::now();
        let line = format!("beside: {done} of {} seeds: {}", self.of, counts.line());
        if self.terminal {
            eprint!("\r\x1b[K{line}");
        } else {
            eprintln!("{line}");
        }
    }

    /// Leaves the line, where it is one that is rewritten.
    fn end(&self) {
        if self.terminal {
            eprintln!();
        }
    }
}
