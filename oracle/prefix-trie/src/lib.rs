//! prefix-trie 0.10.1 as its own sources have it, and windows on what they keep private.
//!
//! The build lays the sources out unchanged (`build.rs`) and this root takes the place of theirs.

include!(concat!(env!("OUT_DIR"), "/modules.rs"));

pub mod image;
pub mod leaf;

pub use map::PrefixMap;
pub use prefix::Prefix;

/// The map of the order: 32-bit keys with a length, u32 values.
pub type Map = PrefixMap<(u32, u8), u32>;

// The sources take this macro from a crate of the same name.
extern crate self as array_const_fn_init;

/// The array of a const function's values at 0, 1, ... up to a length.
#[macro_export]
macro_rules! array_const_fn_init {
    ($entry:ident; $length:expr) => {{
        let mut table = [$entry(0); $length];
        let mut i = 1;
        while i < $length {
            table[i] = $entry(i);
            i += 1;
        }
        table
    }};
}
