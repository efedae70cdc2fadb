//! The benchmark: the proved map beside prefix-trie's own, on the same rules and the same queries.
//!
//! `tests/speed` runs it. `rules` and `rows` make the inputs, `sides` are the two maps, `timed` is what is
//! timed, `ground` plays it, `measure` measures, `results` reads that back, `page` and `plot` show it.

mod ground;
mod measure;
mod page;
mod plot;
mod results;
mod rows;
mod rules;
#[path = "../../oracle/src/seed.rs"]
mod seed; // the judge's: numbers by seed, the same on every machine
mod sides;
mod timed;

use std::process::ExitCode;

use measure::Plan;

const USAGE: &str = "usage: speed time | speed time-smoke | speed count | speed count-smoke | speed show MADE PAGE PLOT TIMES [COUNTS]";

/// A million calls a row and round.
const TIMED: Plan = Plan {
    calls: 1_000_000,
    piece: 5_000,
    rounds: 11,
};

/// Instructions hardly differ from one query to the next: fewer calls give the same numbers.
const COUNTED: Plan = Plan {
    calls: 20_000,
    piece: 20_000,
    rounds: 1,
};

/// Just enough to see that everything runs and agrees.
const SMOKE: Plan = Plan {
    calls: 1_000,
    piece: 500,
    rounds: 2,
};

const COUNTED_SMOKE: Plan = Plan {
    calls: 100,
    piece: 100,
    rounds: 1,
};

fn main() -> ExitCode {
    let words: Vec<String> = std::env::args().skip(1).collect();
    let words: Vec<&str> = words.iter().map(String::as_str).collect();
    let done = match words[..] {
        ["time"] => measure::time(&TIMED),
        ["time-smoke"] => measure::time(&SMOKE),
        ["count"] => measure::count(&COUNTED),
        ["count-smoke"] => measure::count(&COUNTED_SMOKE),
        ["show", made, page, plot, times] => show(made, page, plot, times, None),
        ["show", made, page, plot, times, counts] => show(made, page, plot, times, Some(counts)),
        _ => {
            eprintln!("{USAGE}");
            return ExitCode::from(2);
        }
    };
    match done {
        Ok(()) => ExitCode::SUCCESS,
        Err(line) => {
            eprintln!("speed: {line}");
            ExitCode::FAILURE
        }
    }
}

/// Writes what was measured into the page and draws the plot.
fn show(
    made: &str,
    page: &str,
    plot: &str,
    times: &str,
    counts: Option<&str>,
) -> Result<(), String> {
    let measured = results::read(times, counts)?;
    page::write(page, &measured, made)?;
    plot::write(plot, &measured)
}
