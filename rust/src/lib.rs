//! A prefix map that is proved: 32-bit keys, `u32` values, longest match, over pools of fixed size.
//!
//! The map itself is written in Rattle and proved to meet its contract, to stay in bounds and to end,
//! for every key, length, state and memory content; this crate gives it a Rust face. A [`PrefixMap`]
//! owns its pools, a [`LentMap`] borrows them. Both have the same calls, under the names of the crate
//! prefix-trie where they mean the same.
//!
//! A cell on hold in a released batch gets its own rule, its neighbour the batch's:
//!
//! ```
//! use hestrovik::{Prefix, PrefixMap};
//!
//! let mut map = PrefixMap::new(64, 64)?; // 64 nodes, 64 cells
//! map.insert((0x0A000100, 27), 1)?; // the batch is released
//! map.insert((0x0A000113, 32), 2)?; // one cell of it is on hold
//!
//! let held = map.get_lpm((0x0A000113, 32))?;
//! assert_eq!(held, Some((Prefix::new(0x0A000113, 32), 2)));
//!
//! let neighbour = map.get_lpm((0x0A000112, 32))?;
//! assert_eq!(neighbour, Some((Prefix::new(0x0A000100, 27), 1)));
//! # Ok::<(), hestrovik::Refusal>(())
//! ```
//!
//! Every call answers. What it can't do it refuses with a [`Refusal`], and then nothing is changed;
//! no call panics, and after construction none allocates.
//!
//! Unsafe code stands in [`boundary`] alone, where the six functions of the proved library are
//! declared and called.

#![deny(unsafe_code)]
#![warn(missing_docs)]

#[allow(unsafe_code)]
pub mod boundary;
pub mod lengths;
mod map;
mod prefix;
mod refusal;

pub use boundary::State;
pub use map::{LentMap, Lookup, Map, Memory, PrefixMap, Rule};
pub use prefix::{Prefix, LENGTH_MAX};
pub use refusal::Refusal;

/// The page for movers from prefix-trie; its program is run as a test.
#[cfg(doctest)]
#[doc = include_str!("../../docs/MOVING.md")]
struct Moving;
