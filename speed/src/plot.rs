//! Draws the ratios of the table as SVG: a place for every row, readable on light and dark grounds.

use std::fmt::Write;
use std::fs;

use crate::page::{thousands, title};
use crate::results::{Measured, Pair};
use crate::rows::{Call, Kind};
use crate::rules::{Set, SIZES};

/// Pixels: the row labels, a panel, what is between and around them, a row, the head above the rows.
const LABELS: f64 = 150.0;
const PANEL: f64 = 370.0;
const GAP: f64 = 36.0;
const EDGE: f64 = 24.0;
const ROW: f64 = 29.0;
const HEAD: f64 = 124.0;
const FOOT: f64 = 40.0;

/// Between two lines of the scale.
const TICK: f64 = 0.5;

/// Colours on a light ground, then what a dark one changes; both pairs can be told apart by the
/// colour-blind. No CSS variables: not every viewer knows them.
const STYLE: &str = "\
  text { font: 13px 'Helvetica Neue', Arial, sans-serif; fill: #1f2328; }
  .head { font-size: 17px; font-weight: 600; }
  .strong { font-weight: 600; }
  .soft { fill: #59636e; font-size: 12px; }
  .ground { fill: #ffffff; }
  .line { stroke: #d9dee3; stroke-width: 1; }
  .one { stroke: #1f2328; stroke-width: 1.5; }
  .batches { fill: #0868ac; stroke: #0868ac; }
  .random { fill: #c2500a; stroke: #c2500a; }
  .hollow { fill: #ffffff; stroke-width: 1.8; }
  @media (prefers-color-scheme: dark) {
    text { fill: #e6edf3; }
    .soft { fill: #9aa4af; }
    .ground, .hollow { fill: #0d1117; }
    .line { stroke: #30363d; }
    .one { stroke: #e6edf3; }
    .batches { fill: #62b3f5; stroke: #62b3f5; }
    .random { fill: #f5a04a; stroke: #f5a04a; }
    .hollow { fill: #0d1117; }
  }
";

pub fn write(at: &str, measured: &[Measured]) -> Result<(), String> {
    fs::write(at, draw(measured)).map_err(|e| format!("cannot write {at}: {e}"))
}

/// One ratio of a row, and another to draw a thin line to.
type Ratio = fn(&Measured) -> Option<(f64, f64)>;

fn time(measured: &Measured) -> Option<(f64, f64)> {
    Some((measured.least.ratio(), measured.middle.ratio()))
}

fn instructions(measured: &Measured) -> Option<(f64, f64)> {
    let ratio = measured.instructions.map(Pair::ratio)?;
    Some((ratio, ratio))
}

fn draw(measured: &[Measured]) -> String {
    let counted = measured.iter().any(|row| row.instructions.is_some());
    let mut panels: Vec<(&str, Ratio)> = vec![("Time", time)];
    if counted {
        panels.push(("Instructions", instructions));
    }
    let rows = Call::ALL.len() * Kind::ALL.len();
    let width = 2.0 * EDGE + LABELS + panels.len() as f64 * (PANEL + GAP) - GAP;
    let height = HEAD + rows as f64 * ROW + FOOT;
    let most = measured
        .iter()
        .flat_map(|row| panels.iter().filter_map(|(_, ratio)| ratio(row)))
        .fold(1.0, |most: f64, (a, b)| most.max(a).max(b));
    let end = (most / TICK).ceil() * TICK;

    let mut svg = format!(
        "<svg xmlns=\"http://www.w3.org/2000/svg\" viewBox=\"0 0 {width} {height}\" width=\"{width}\" height=\"{height}\" role=\"img\" \
         aria-label=\"Time and instructions of each call, as a multiple of prefix-trie's\">\n<style>\n{STYLE}</style>\n\
         <rect class=\"ground\" width=\"{width}\" height=\"{height}\" rx=\"8\"/>\n"
    );
    let mut text = |x: f64, y: f64, class: &str, anchor: &str, words: &str| {
        let _ = writeln!(
            svg,
            "<text x=\"{x:.1}\" y=\"{y:.1}\" class=\"{class}\" text-anchor=\"{anchor}\">{words}</text>"
        );
    };
    text(
        EDGE,
        34.0,
        "head",
        "start",
        "What a call costs, as a multiple of prefix-trie 0.10.1",
    );
    text(
        EDGE,
        54.0,
        "soft",
        "start",
        "1 is the crate itself; left of it the proved map takes less, right of it more. A thin line leads from the ratio of minima to that of medians.",
    );
    for (at, call) in Call::ALL.into_iter().enumerate() {
        for (of, kind) in Kind::ALL.into_iter().enumerate() {
            let y = row_middle(at * Kind::ALL.len() + of) + 4.0;
            if of == 0 {
                text(EDGE, y, "strong", "start", call.word());
            }
            text(EDGE + LABELS - 14.0, y, "", "end", kind.word());
        }
    }
    legend(&mut svg);
    for (at, (name, ratio)) in panels.into_iter().enumerate() {
        let left = EDGE + LABELS + at as f64 * (PANEL + GAP);
        panel(&mut svg, left, end, name, ratio, measured);
    }
    svg + "</svg>\n"
}

fn row_middle(row: usize) -> f64 {
    HEAD + (row as f64 + 0.5) * ROW
}

/// The signs: a colour for the set of rules, a disc for few rules and an open square for many.
fn legend(svg: &mut String) {
    let mut x = EDGE + 5.0;
    for set in Set::ALL {
        for (size, (rules, _)) in SIZES.into_iter().enumerate() {
            sign(svg, set, size, x, 76.0);
            let words = format!("{}, {}", title(set), thousands(rules));
            let _ = writeln!(
                svg,
                "<text x=\"{:.1}\" y=\"80\" class=\"soft\">{words}</text>",
                x + 10.0
            );
            x += 40.0 + 6.6 * words.len() as f64;
        }
    }
}

fn sign(svg: &mut String, set: Set, size: usize, x: f64, y: f64) {
    let class = set.word();
    let _ = match size {
        0 => writeln!(
            svg,
            "<circle class=\"{class}\" cx=\"{x:.1}\" cy=\"{y:.1}\" r=\"3.6\"/>"
        ),
        _ => writeln!(
            svg,
            "<rect class=\"{class} hollow\" x=\"{:.1}\" y=\"{:.1}\" width=\"6.4\" height=\"6.4\"/>",
            x - 3.2,
            y - 3.2
        ),
    };
}

fn panel(svg: &mut String, left: f64, end: f64, name: &str, ratio: Ratio, measured: &[Measured]) {
    let rows = Call::ALL.len() * Kind::ALL.len();
    let (top, bottom) = (HEAD, HEAD + rows as f64 * ROW);
    let x = |ratio: f64| left + ratio / end * PANEL;
    let _ = writeln!(
        svg,
        "<text x=\"{left}\" y=\"{:.1}\" class=\"strong\">{name}</text>",
        top - 12.0
    );
    for tick in 0..=(end / TICK).round() as usize {
        let ratio = tick as f64 * TICK;
        let at = x(ratio);
        let class = if ratio == 1.0 { "one" } else { "line" };
        let _ = writeln!(
            svg,
            "<line class=\"{class}\" x1=\"{at:.1}\" y1=\"{top}\" x2=\"{at:.1}\" y2=\"{bottom}\"/>"
        );
        let _ = writeln!(
            svg,
            "<text x=\"{at:.1}\" y=\"{:.1}\" class=\"soft\" text-anchor=\"middle\">{ratio}</text>",
            bottom + 18.0
        );
    }
    for group in 0..=Call::ALL.len() {
        let y = top + (group * Kind::ALL.len()) as f64 * ROW;
        let _ = writeln!(
            svg,
            "<line class=\"line\" x1=\"{left}\" y1=\"{y}\" x2=\"{:.1}\" y2=\"{y}\"/>",
            left + PANEL
        );
    }
    for row in measured {
        let Some((to, from)) = ratio(row) else {
            continue;
        };
        let call = Call::ALL
            .iter()
            .position(|call| *call == row.row.call)
            .unwrap_or(0);
        let kind = Kind::ALL
            .iter()
            .position(|kind| *kind == row.row.kind)
            .unwrap_or(0);
        let size = SIZES
            .iter()
            .position(|(rules, _)| *rules == row.row.rules)
            .unwrap_or(0);
        let set = Set::ALL
            .iter()
            .position(|set| *set == row.row.set)
            .unwrap_or(0);
        // The four maps of a row stand one below the other.
        let step = (set * SIZES.len() + size) as f64 - 1.5;
        let y = row_middle(call * Kind::ALL.len() + kind) + step * 5.2;
        let _ = writeln!(
            svg,
            "<line class=\"{}\" x1=\"{:.1}\" y1=\"{y:.1}\" x2=\"{:.1}\" y2=\"{y:.1}\"/>",
            row.row.set.word(),
            x(to),
            x(from)
        );
        sign(svg, row.row.set, size, x(to), y);
    }
}
