//! What was measured, read back: one result a row, in the table's order.

use std::fs;

use crate::rows::{all, Row};

/// A number of our map and the same of the crate's.
#[derive(Clone, Copy, Debug, PartialEq)]
pub struct Pair {
    pub ours: f64,
    pub theirs: f64,
}

impl Pair {
    pub fn ratio(self) -> f64 {
        self.ours / self.theirs
    }
}

/// One row of the table. Times are nanoseconds a call, counts instructions a call.
pub struct Measured {
    pub row: Row,
    pub least: Pair,
    pub middle: Pair,
    pub instructions: Option<Pair>,
}

/// Reads the times, a line a row as `speed time` prints them, and the counts if there are any: the row's
/// words, then the instructions of a call on each side.
pub fn read(times: &str, counts: Option<&str>) -> Result<Vec<Measured>, String> {
    let times = numbers(times, 4)?;
    let counts = counts.map(|at| numbers(at, 2)).transpose()?;
    let mut measured = Vec::new();
    for (at, row) in all().into_iter().enumerate() {
        let time = &times[at];
        measured.push(Measured {
            row,
            least: pair(&time[..2]),
            middle: pair(&time[2..]),
            instructions: counts.as_ref().map(|counts| pair(&counts[at])),
        });
    }
    Ok(measured)
}

fn pair(numbers: &[f64]) -> Pair {
    Pair {
        ours: numbers[0],
        theirs: numbers[1],
    }
}

/// The numbers behind every row's words; each line must be the row that is next, with `width` numbers above 0.
fn numbers(at: &str, width: usize) -> Result<Vec<Vec<f64>>, String> {
    let text = fs::read_to_string(at).map_err(|e| format!("cannot read {at}: {e}"))?;
    let mut lines = text.lines();
    let mut rows = Vec::new();
    for row in all() {
        let words = row.words();
        let line = lines.next().ok_or_else(|| {
            format!("{at} ends before the row '{words}': measure again with tests/speed")
        })?;
        let rest = line.strip_prefix(&words).ok_or_else(|| {
            format!(
                "{at} has '{line}' where the row '{words}' is due: measure again with tests/speed"
            )
        })?;
        let given: Option<Vec<f64>> = rest
            .split_whitespace()
            .map(|word| {
                word.parse()
                    .ok()
                    .filter(|n: &f64| n.is_finite() && *n > 0.0)
            })
            .collect();
        rows.push(given.filter(|given| given.len() == width).ok_or_else(|| {
            format!("{at}: '{line}' doesn't end in {width} numbers above 0: measure again with tests/speed")
        })?);
    }
    match lines.next() {
        Some(line) => Err(format!("{at} goes on behind its last row with '{line}'")),
        None => Ok(rows),
    }
}
