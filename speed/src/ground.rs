//! The maps of both sides with the same rules in them, and how a row is played on them.

use std::hint::black_box;
use std::time::{Duration, Instant};

use crate::rows::{queries, stretches, Call, Kind, Row, Stretch};
use crate::rules::{Pools, Prefix, Rules, Set};
use crate::seed::Seed;
use crate::sides::{Crate, Ours, Side};
use crate::timed;

/// All rules and queries come from this number.
const SEED: u64 = 0x0A00_0113;

/// What one side did: calls, the time that they took, and a sum of their answers.
pub struct Played {
    pub calls: usize,
    pub time: Duration,
    sum: u64,
}

/// The work of one row.
pub enum Work {
    Queries(Vec<Prefix>),
    Edits(Vec<Stretch>),
}

impl Work {
    /// The calls of a piece: edits come in whole stretches.
    pub fn calls(&self, piece: usize) -> usize {
        match self {
            Work::Queries(_) => piece,
            Work::Edits(list) => piece.next_multiple_of(list[0].edits.len()),
        }
    }
}

/// One map a side for the lookups, which nothing changes, and one for the edits.
struct Field<S> {
    still: S,
    edited: S,
}

impl<S: Side> Field<S> {
    fn new(rules: &Rules, pools: Pools) -> Field<S> {
        let build = || {
            let mut map = S::new(pools);
            for (value, rule) in (0..).zip(&rules.stored) {
                map.insert(*rule, value);
            }
            map
        };
        Field {
            still: build(),
            edited: build(),
        }
    }

    /// Plays one piece of a row. `first` is the first value that is stored.
    fn play(&mut self, call: Call, work: &Work, piece: usize, calls: usize, first: u32) -> Played {
        let played = match work {
            Work::Queries(list) => self.look(call, &list[piece * calls..(piece + 1) * calls]),
            Work::Edits(list) => self.edit(call, list, calls, first),
        };
        side_done();
        played
    }

    fn look(&self, call: Call, list: &[Prefix]) -> Played {
        let map = black_box(&self.still);
        let start = Instant::now();
        let sum = match call {
            Call::Longest => timed::longest(map, list),
            Call::Exact => timed::exact(map, list),
            _ => timed::shortest(map, list),
        };
        Played {
            calls: list.len(),
            time: start.elapsed(),
            sum: black_box(sum),
        }
    }

    fn edit(&mut self, call: Call, list: &[Stretch], calls: usize, first: u32) -> Played {
        let mut played = Played {
            calls: 0,
            time: Duration::ZERO,
            sum: 0,
        };
        for stretch in list.iter().cycle() {
            let map = black_box(&mut self.edited);
            let start = Instant::now();
            let sum = match call {
                Call::Insert => timed::insert(map, &stretch.edits, first),
                _ => timed::remove(map, &stretch.edits),
            };
            played.time += start.elapsed();
            played.sum = played.sum.wrapping_mul(3).wrapping_add(black_box(sum));
            played.calls += stretch.edits.len();
            for prefix in &stretch.undo {
                match call {
                    Call::Insert => map.remove(*prefix),
                    _ => map.insert(*prefix, first),
                };
            }
            if played.calls >= calls {
                break;
            }
        }
        played
    }
}

/// A set of rules in both sides' maps, and the rows on it.
pub struct Ground {
    ours: Field<Ours>,
    theirs: Field<Crate>,
    pub rows: Vec<(Row, Work)>,
}

impl Ground {
    pub fn new(set: Set, count: usize, pools: Pools, calls: usize) -> Ground {
        let mut seed = Seed::new(SEED ^ (count as u64) << 32 ^ (set as u64) << 60);
        let rules = Rules::new(set, count, &mut seed);
        let ours = Field::new(&rules, pools);
        let theirs: Field<Crate> = Field::new(&rules, pools);
        let row = |call, kind| Row {
            set,
            rules: count,
            call,
            kind,
        };
        let mut rows = Vec::new();
        for call in Call::LOOKUPS {
            for kind in Kind::ALL {
                let list = queries(call, kind, &rules, &theirs.still, calls, &mut seed);
                rows.push((row(call, kind), Work::Queries(list)));
            }
        }
        for call in Call::EDITS {
            for kind in Kind::ALL {
                let list = stretches(call, kind, &rules, &mut seed);
                rows.push((row(call, kind), Work::Edits(list)));
            }
        }
        Ground { ours, theirs, rows }
    }

    /// Plays one piece of a row, so many calls, on both sides and compares the sums of their answers. The
    /// first value that is stored is `first`.
    pub fn play(
        &mut self,
        at: usize,
        piece: usize,
        calls: usize,
        first: u32,
        ours_first: bool,
    ) -> Result<[Played; 2], String> {
        let (row, work) = &self.rows[at];
        let (ours, theirs) = if ours_first {
            let played = self.ours.play(row.call, work, piece, calls, first);
            (
                played,
                self.theirs.play(row.call, work, piece, calls, first),
            )
        } else {
            let played = self.theirs.play(row.call, work, piece, calls, first);
            (self.ours.play(row.call, work, piece, calls, first), played)
        };
        if (ours.sum, ours.calls) != (theirs.sum, theirs.calls) {
            return Err(format!("{}: the two maps' answers differ", row.words()));
        }
        Ok([ours, theirs])
    }

    /// Holds the two sides' answers to each other, query by query.
    pub fn compare(&self) -> Result<(), String> {
        for (row, work) in &self.rows {
            let Work::Queries(list) = work else { continue };
            let (ours, theirs) = (&self.ours.still, &self.theirs.still);
            let differs = |query: &&Prefix| match row.call {
                Call::Longest => ours.longest(query) != theirs.longest(query),
                Call::Exact => ours.exact(query) != theirs.exact(query),
                _ => ours.shortest(query) != theirs.shortest(query),
            };
            if let Some((key, length)) = list.iter().find(differs) {
                return Err(format!(
                    "{}: the two maps answer {key:08X}/{length} differently",
                    row.words()
                ));
            }
        }
        Ok(())
    }
}

/// Called behind each side's part: here callgrind writes its count down and begins anew (`tests/speed`).
#[inline(never)]
fn side_done() {
    black_box(());
}
