//! Writes the tables into the page, between two marks.

use std::fmt::Write;
use std::fs;

use crate::results::{Measured, Pair};
use crate::rows::Call;
use crate::rules::{Set, SIZES};

const BEGIN: &str = "<!-- tests/speed writes from here -->";
const END: &str = "<!-- to here -->";

/// Said in place of counts where there are none.
pub const UNCOUNTED: &str = "Instructions were not counted: valgrind was not at hand.";

/// Puts the tables into the page. `made` says with what and on what they were measured.
pub fn write(page: &str, measured: &[Measured], made: &str) -> Result<(), String> {
    let text = fs::read_to_string(page).map_err(|e| format!("cannot read {page}: {e}"))?;
    let marks = || {
        format!("{page} has no line '{BEGIN}' with a line '{END}' behind it: put them where the tables belong")
    };
    let (before, rest) = text.split_once(BEGIN).ok_or_else(marks)?;
    let (_, behind) = rest.split_once(END).ok_or_else(marks)?;
    let tables = tables(measured, made);
    let text = format!("{before}{BEGIN}\n{tables}{END}{behind}");
    fs::write(page, text).map_err(|e| format!("cannot write {page}: {e}"))
}

fn tables(measured: &[Measured], made: &str) -> String {
    let mut text = format!("\nMeasured with {made}.\n\n");
    if measured.iter().any(|row| row.instructions.is_none()) {
        text += &format!("{UNCOUNTED}\n\n");
    }
    text += &summary(measured);
    for set in Set::ALL {
        for (rules, _) in SIZES {
            let of_map = |row: &&Measured| row.row.set == set && row.row.rules == rules;
            let rows: Vec<&Measured> = measured.iter().filter(of_map).collect();
            text += &format!("### {}, {} rules\n\n", title(set), thousands(rules));
            text += &table(&rows);
        }
    }
    text
}

/// The set of rules in words, as tables and plot name it.
pub fn title(set: Set) -> &'static str {
    match set {
        Set::Batches => "Batches and held cells",
        Set::Random => "Random rules",
    }
}

/// The number with a comma before its thousands.
pub fn thousands(number: usize) -> String {
    match number {
        0..1000 => number.to_string(),
        _ => format!("{},{:03}", thousands(number / 1000), number % 1000),
    }
}

/// From the least to the greatest ratio of each call, over all maps and queries.
fn summary(measured: &[Measured]) -> String {
    let mut text = String::from(
        "| Call | Ratio of minima | of medians | of instructions |\n|---|--:|--:|--:|\n",
    );
    for call in Call::ALL {
        let of_call = || measured.iter().filter(|row| row.row.call == call);
        let least: Vec<f64> = of_call().map(|row| row.least.ratio()).collect();
        let middle: Vec<f64> = of_call().map(|row| row.middle.ratio()).collect();
        let counted: Vec<f64> = of_call()
            .filter_map(|row| row.instructions)
            .map(Pair::ratio)
            .collect();
        let _ = writeln!(
            text,
            "| {} | {} | {} | {} |",
            call.word(),
            span(&least),
            span(&middle),
            span(&counted)
        );
    }
    text + "\n"
}

fn span(ratios: &[f64]) -> String {
    let least = ratios.iter().copied().reduce(f64::min);
    let most = ratios.iter().copied().reduce(f64::max);
    match (least, most) {
        (Some(least), Some(most)) => format!("{least:.2} to {most:.2}"),
        _ => String::new(),
    }
}

fn table(rows: &[&Measured]) -> String {
    let mut text = String::from(
        "| Call | Queries | Min ns, ours | crate | ratio | Median ns, ours | crate | ratio | Instructions, ours | crate | ratio |\n\
         |---|---|--:|--:|--:|--:|--:|--:|--:|--:|--:|\n",
    );
    for measured in rows {
        let Measured {
            row,
            least,
            middle,
            instructions,
        } = measured;
        let _ = writeln!(
            text,
            "| {} | {} | {} | {} | {} |",
            row.call.word(),
            row.kind.word(),
            cells(Some(*least), 1),
            cells(Some(*middle), 1),
            cells(*instructions, 0),
        );
    }
    text + "\n"
}

/// Three cells: ours, the crate's, the ratio.
fn cells(pair: Option<Pair>, places: usize) -> String {
    match pair {
        Some(pair) => format!(
            "{:.places$} | {:.places$} | {:.2}",
            pair.ours,
            pair.theirs,
            pair.ratio()
        ),
        None => String::from(" | | "),
    }
}
