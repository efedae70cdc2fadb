//! What is timed and counted, and nothing else: one loop a call, the same source for both sides.
//!
//! Every function here stands alone in the machine code, so that callgrind can be told to count in this
//! module only (`tests/speed`). A sum over all that an answer says keeps the compiler from leaving a
//! part of it out, and is compared between the sides.

use crate::rules::Prefix;
use crate::sides::Side;

#[inline(never)]
pub fn longest<S: Side>(side: &S, queries: &[Prefix]) -> u64 {
    let mut sum = 0u64;
    for query in queries {
        if let Some(((key, length), value)) = side.longest(query) {
            sum = sum.wrapping_add(u64::from(key) + u64::from(length) + u64::from(value));
        }
    }
    sum
}

#[inline(never)]
pub fn shortest<S: Side>(side: &S, queries: &[Prefix]) -> u64 {
    let mut sum = 0u64;
    for query in queries {
        if let Some(((key, length), value)) = side.shortest(query) {
            sum = sum.wrapping_add(u64::from(key) + u64::from(length) + u64::from(value));
        }
    }
    sum
}

#[inline(never)]
pub fn exact<S: Side>(side: &S, queries: &[Prefix]) -> u64 {
    let mut sum = 0u64;
    for query in queries {
        if let Some(value) = side.exact(query) {
            sum = sum.wrapping_add(u64::from(value) + 1);
        }
    }
    sum
}

/// The value that is stored is the one before it plus one, so that values change from round to round.
#[inline(never)]
pub fn insert<S: Side>(side: &mut S, prefixes: &[Prefix], first: u32) -> u64 {
    let mut sum = 0u64;
    let mut value = first;
    for prefix in prefixes {
        if let Some(old) = side.insert(*prefix, value) {
            sum = sum.wrapping_add(u64::from(old) + 1);
        }
        value = value.wrapping_add(1);
    }
    sum
}

#[inline(never)]
pub fn remove<S: Side>(side: &mut S, prefixes: &[Prefix]) -> u64 {
    let mut sum = 0u64;
    for prefix in prefixes {
        if let Some(old) = side.remove(*prefix) {
            sum = sum.wrapping_add(u64::from(old) + 1);
        }
    }
    sum
}
