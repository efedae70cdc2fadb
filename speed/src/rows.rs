//! The rows of the table: which call, on which queries.

use crate::rules::{shuffle, Prefix, Rules, Set, SIZES};
use crate::seed::Seed;
use crate::sides::Side;

#[derive(Clone, Copy, PartialEq, Eq)]
pub enum Call {
    Longest,
    Exact,
    Shortest,
    Insert,
    Remove,
}

impl Call {
    pub const LOOKUPS: [Call; 3] = [Call::Longest, Call::Exact, Call::Shortest];
    pub const EDITS: [Call; 2] = [Call::Insert, Call::Remove];
    pub const ALL: [Call; 5] = [
        Call::Longest,
        Call::Exact,
        Call::Shortest,
        Call::Insert,
        Call::Remove,
    ];

    /// Its word in the results.
    pub fn word(self) -> &'static str {
        match self {
            Call::Longest => "longest",
            Call::Exact => "exact",
            Call::Shortest => "shortest",
            Call::Insert => "insert",
            Call::Remove => "remove",
        }
    }
}

/// What the queries meet. A hit finds a rule, replaces a value or removes a rule; a miss finds nothing,
/// adds a rule or has nothing to remove; mixed has half of each, in no order.
#[derive(Clone, Copy, PartialEq, Eq)]
pub enum Kind {
    Hit,
    Miss,
    Mixed,
}

impl Kind {
    pub const ALL: [Kind; 3] = [Kind::Hit, Kind::Miss, Kind::Mixed];

    /// Its word in the results.
    pub fn word(self) -> &'static str {
        match self {
            Kind::Hit => "hit",
            Kind::Miss => "miss",
            Kind::Mixed => "mixed",
        }
    }

    /// Whether query number `at` is to be a hit.
    fn hits(self, at: usize) -> bool {
        match self {
            Kind::Hit => true,
            Kind::Miss => false,
            Kind::Mixed => at % 2 == 0,
        }
    }
}

/// Which row a result belongs to.
#[derive(Clone, Copy)]
pub struct Row {
    pub set: Set,
    pub rules: usize,
    pub call: Call,
    pub kind: Kind,
}

impl Row {
    /// The row's words, as results begin.
    pub fn words(&self) -> String {
        let Row {
            set,
            rules,
            call,
            kind,
        } = self;
        format!("{} {rules} {} {}", set.word(), call.word(), kind.word())
    }
}

/// Every row, in the order in which they are measured.
pub fn all() -> Vec<Row> {
    let mut rows = Vec::new();
    for set in Set::ALL {
        for (rules, _) in SIZES {
            for call in Call::ALL {
                for kind in Kind::ALL {
                    rows.push(Row {
                        set,
                        rules,
                        call,
                        kind,
                    });
                }
            }
        }
    }
    rows
}

/// Queries of a lookup. `map` holds the stored rules and says what is covered.
pub fn queries<S: Side>(
    call: Call,
    kind: Kind,
    rules: &Rules,
    map: &S,
    count: usize,
    seed: &mut Seed,
) -> Vec<Prefix> {
    let mut list = Vec::with_capacity(count);
    for at in 0..count {
        list.push(match (call, kind.hits(at)) {
            (Call::Exact, true) => seed.pick(&rules.stored),
            (Call::Exact, false) => seed.pick(&rules.absent),
            (_, true) => rules.cell_below(seed.pick(&rules.stored), seed),
            (_, false) => uncovered(rules, map, seed),
        });
    }
    shuffle(&mut list, seed);
    list
}

/// A cell where a rule could be and none is.
fn uncovered<S: Side>(rules: &Rules, map: &S, seed: &mut Seed) -> Prefix {
    loop {
        let cell = rules.cell_below(seed.pick(&rules.absent), seed);
        if map.longest(&cell).is_none() {
            return cell;
        }
    }
}

/// Edits of one stretch, which are timed, and what is undone behind them, which isn't: the map then
/// holds the stored rules again.
pub struct Stretch {
    pub edits: Vec<Prefix>,
    pub undo: Vec<Prefix>,
}

/// A stretch is a tenth of the stored rules, so that a map's size hardly moves while it is timed.
const TENTH: usize = 10;

/// Stretches that differ, to be gone through again and again.
const STRETCHES: usize = 5;

pub fn stretches(call: Call, kind: Kind, rules: &Rules, seed: &mut Seed) -> Vec<Stretch> {
    let count = rules.stored.len() / TENTH;
    let mut stored = rules.stored.clone();
    let mut absent = rules.absent.clone();
    let mut list = Vec::new();
    for _ in 0..STRETCHES {
        shuffle(&mut stored, seed);
        shuffle(&mut absent, seed);
        let hits = (0..count).filter(|at| kind.hits(*at)).count();
        let (hits, misses) = (&stored[..hits], &absent[..count - hits]);
        let undo = match call {
            Call::Insert => misses,
            _ => hits,
        };
        let mut edits = [hits, misses].concat();
        let undo = undo.to_vec();
        shuffle(&mut edits, seed);
        list.push(Stretch { edits, undo });
    }
    list
}
