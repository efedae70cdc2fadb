//! Harm by seed: which words are changed, and which call follows.

use judge::record::Operation;
use judge::seed::Seed;

use crate::compare::History;
use crate::damage::{Call, Damage, STATE};
use crate::memory::{both_sections, right_lengths, state_words, Words, STATE_WORDS};

/// The most words that one case changes.
const MOST_DAMAGE: u32 = 4;

/// Mostly a call on a prefix that is stored, or that the history has at least met.
pub fn any_call(by: &mut Seed, history: &History, stored: &[(u32, u32)]) -> Call {
    let met = !history.records.is_empty();
    let (key, length) = match by.below(3) {
        0 if met => {
            let record = by.pick(&history.records);
            (record.key, record.length.into())
        }
        1 | 2 if !stored.is_empty() => by.pick(stored),
        _ => (by.next_u32(), by.below(33)),
    };
    let (key, length) = match by.below(20) {
        0 => (key, by.pick(&[33, 64, 256, 256 + length, u32::MAX])),
        1..=3 => (by.next_u32(), by.below(33)),
        4..=7 => (key, by.below(33)),
        8..=10 => (key ^ 1 << by.below(32), length),
        _ => (key, length),
    };
    let operation = by.pick(&[
        Operation::Insert,
        Operation::Insert,
        Operation::Insert,
        Operation::Remove,
        Operation::Remove,
        Operation::Remove,
        Operation::Exact,
        Operation::Longest,
        Operation::Shortest,
    ]);
    Call {
        operation,
        key,
        length,
        value: by.next_u32(),
    }
}

/// Some words, seldom a length, seldom everything as for other pools.
pub fn any_damage(by: &mut Seed, words: &Words) -> Vec<Damage> {
    let mut damage = Vec::new();
    if by.chance(5) {
        damage.extend(other_pools(by));
    }
    for _ in 0..1 + by.below(MOST_DAMAGE).min(by.below(MOST_DAMAGE)) {
        damage.push(match by.below(20) {
            0 => other_length(by, words),
            1..=6 => state_word(by, words),
            7..=14 => node_word(by, words),
            15 => {
                let at = by.below(words.slices[1].len() as u32) as usize;
                slice_word(by, words, 1, at)
            }
            _ => free_entry(by, words),
        });
    }
    damage
}

/// Sizes of the state and lengths of all slices as for other pools, contents as they are.
fn other_pools(by: &mut Seed) -> Vec<Damage> {
    let (nodes, cells) = (1 + by.below(80), 1 + by.below(80));
    let size = |at, value| Damage::Word {
        area: STATE,
        at,
        value,
    };
    let right = right_lengths(nodes, cells);
    let slices = right.into_iter().enumerate();
    let lengths = slices.map(|(slice, length)| Damage::Length { slice, length });
    [size(0, nodes), size(9, cells)]
        .into_iter()
        .chain(lengths)
        .collect()
}

/// A slice of another length.
pub fn other_length(by: &mut Seed, words: &Words) -> Damage {
    let slice = by.below(4) as usize;
    let length = words.slices[slice].len();
    let length = match by.below(5) {
        0 => 0,
        1 => length + 1,
        2 => length.saturating_sub(1),
        3 => length + 4,
        _ => by.below(300) as usize,
    };
    Damage::Length { slice, length }
}

fn state_word(by: &mut Seed, words: &Words) -> Damage {
    let at = by.below(STATE_WORDS as u32) as usize;
    let state = state_words(words.state);
    let value = other_value(by, state[at], &state);
    Damage::Word {
        area: STATE,
        at,
        value,
    }
}

/// Mostly of a node that is issued.
fn node_word(by: &mut Seed, words: &Words) -> Damage {
    let whole = words.slices[0].len() as u32;
    let issued = (4 * words.state.node_mark.min(64)).clamp(1, whole);
    let end = if by.chance(90) { issued } else { whole };
    let at = by.below(end) as usize;
    slice_word(by, words, 0, at)
}

/// The entry that is taken next from some section, or any.
fn free_entry(by: &mut Seed, words: &Words) -> Damage {
    let pool = by.below(2) as usize;
    let sections = both_sections(&words.state)[pool];
    let counts = [words.state.node_free, words.state.cell_free][pool];
    let tier = by.below(7) as usize;
    let start: usize = sections[..tier].iter().sum();
    let next = start + (counts[tier] as usize).saturating_sub(1);
    let at = match by.chance(70) {
        true => next,
        false => by.below(words.slices[2 + pool].len() as u32) as usize,
    };
    slice_word(by, words, 2 + pool, at)
}

fn slice_word(by: &mut Seed, words: &Words, area: usize, at: usize) -> Damage {
    let slice = &words.slices[area];
    let old = slice.get(at).copied().unwrap_or(0);
    let value = other_value(by, old, slice);
    Damage::Word { area, at, value }
}

/// A value that tries a bound: near the old one, near a size, a neighbour's, all bits, any.
fn other_value(by: &mut Seed, old: u32, others: &[u32]) -> u32 {
    match by.below(8) {
        0 => 0,
        1 => u32::MAX,
        2 => by.next_u32(),
        3 => by.below(70),
        4 => old ^ 1 << by.below(32),
        5 => old.wrapping_add(1),
        6 => old.wrapping_sub(1),
        _ => by.pick(others),
    }
}
