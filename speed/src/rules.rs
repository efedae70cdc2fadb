//! The rules that the maps hold, by seed: a plant's batches with held cells, or prefixes drawn at random.

use std::collections::HashSet;

use crate::seed::Seed;

/// A key and a length; bits behind the length are zero.
pub type Prefix = (u32, u8);

/// Sizes of the two pools.
#[derive(Clone, Copy)]
pub struct Pools {
    pub nodes: u32,
    pub cells: u32,
}

/// How the rules lie.
#[derive(Clone, Copy, PartialEq, Eq)]
pub enum Set {
    Batches,
    Random,
}

impl Set {
    pub const ALL: [Set; 2] = [Set::Batches, Set::Random];

    /// Its word in the results.
    pub fn word(self) -> &'static str {
        match self {
            Set::Batches => "batches",
            Set::Random => "random",
        }
    }
}

/// How many rules a map holds, and pools that hold them.
pub const SIZES: [(usize, Pools); 2] = [
    (
        500,
        Pools {
            nodes: 4_096,
            cells: 4_096,
        },
    ),
    (
        20_000,
        Pools {
            nodes: 65_536,
            cells: 65_536,
        },
    ),
];

/// Bits of a cell's number up to the end of the plant and up to the end of the line.
const PLANT: u8 = 6;
const LINE: u8 = 10;

/// Bits of the position in a pack, and the cells of a pack: positions 24 to 31 don't occur.
const POSITION: u8 = 5;
const CELLS: u32 = 24;

/// Lines of a plant, and rules of a line.
const LINES: usize = 8;
const LINE_RULES: usize = 240;

/// Lengths of a batch's rule: from large batches to a single pack.
const BATCH: (u8, u8) = (16, 27);

/// Lengths of random rules. Shorter ones would cover so much that hardly a query were a miss.
const RANDOM: (u8, u8) = (12, 32);

/// The rules of one map: those that it holds, and others that it could, for misses and new rules.
pub struct Rules {
    pub set: Set,
    pub stored: Vec<Prefix>,
    pub absent: Vec<Prefix>,
}

impl Rules {
    /// `count` rules to be stored and half as many to stay outside, all different.
    pub fn new(set: Set, count: usize, seed: &mut Seed) -> Rules {
        let all = count + count / 2;
        let mut stored = match set {
            Set::Batches => batches_and_cells(all, seed),
            Set::Random => random(all, seed),
        };
        shuffle(&mut stored, seed);
        let absent = stored.split_off(count);
        Rules {
            set,
            stored,
            absent,
        }
    }

    /// A cell below a prefix: the cell itself, or one somewhere in the batch.
    pub fn cell_below(&self, (key, length): Prefix, seed: &mut Seed) -> Prefix {
        let inside = key | seed.next_u32() & behind(length);
        let cell = match self.set {
            Set::Batches if length < 32 => inside & !behind(32 - POSITION) | seed.below(CELLS),
            _ => inside,
        };
        (cell, 32)
    }
}

/// Half of them batches, which don't overlap and have gaps between them; half of them held cells.
fn batches_and_cells(count: usize, seed: &mut Seed) -> Vec<Prefix> {
    let batches = batches(count / 2, count.div_ceil(LINE_RULES), seed);
    let mut cells = HashSet::new();
    let mut rules = batches.clone();
    while rules.len() < count {
        let (key, length) = seed.pick(&batches);
        let pack = key | seed.next_u32() & behind(length) & !behind(32 - POSITION);
        let cell = (pack | seed.below(CELLS), 32);
        if cells.insert(cell) {
            rules.push(cell);
        }
    }
    rules
}

/// Batches one behind the other along each line, as numbers are handed out; about every third stands
/// behind a gap of its own size.
fn batches(count: usize, lines: usize, seed: &mut Seed) -> Vec<Prefix> {
    let mut batches = Vec::new();
    for line in 0..lines {
        let share = count * (line + 1) / lines - count * line / lines;
        // Plants are numbered from 1.
        let start =
            ((line / LINES + 1) as u64) << (32 - PLANT) | ((line % LINES) as u64) << (32 - LINE);
        let end = start + (1u64 << (32 - LINE));
        let mut next = start;
        for _ in 0..share {
            let length = BATCH.0 + seed.below(u32::from(BATCH.1 - BATCH.0) + 1) as u8;
            let size = 1u64 << (32 - length);
            next = next.next_multiple_of(size);
            if seed.chance(33) {
                next += size;
            }
            assert!(next + size <= end, "a line has no room for its batches");
            batches.push((next as u32, length));
            next += size;
        }
    }
    batches
}

fn random(count: usize, seed: &mut Seed) -> Vec<Prefix> {
    let mut seen = HashSet::new();
    let mut rules = Vec::new();
    while rules.len() < count {
        let length = RANDOM.0 + seed.below(u32::from(RANDOM.1 - RANDOM.0) + 1) as u8;
        let rule = (seed.next_u32() & !behind(length), length);
        if seen.insert(rule) {
            rules.push(rule);
        }
    }
    rules
}

/// The bits behind a length.
fn behind(length: u8) -> u32 {
    u32::MAX.checked_shr(length.into()).unwrap_or(0)
}

pub fn shuffle(list: &mut [Prefix], seed: &mut Seed) {
    for at in (1..list.len()).rev() {
        list.swap(at, seed.below(at as u32 + 1) as usize);
    }
}
