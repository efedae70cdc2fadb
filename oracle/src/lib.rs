//! The judge: answers for the bench records and leaf requests, given by the crate itself.
//!
//! `record` and `desk` say what one record gets, `play` and `trace` run a whole input, `history`
//! makes inputs; `leaves` and `requests` do the same for single functions. `model` answers records a
//! second time, from a plain list of `rules` and the block `ledger`, with no look at the crate.

pub mod desk;
pub mod ground;
pub mod history;
pub mod leaves;
pub mod ledger;
pub mod model;
pub mod options;
pub mod play;
pub mod record;
pub mod requests;
pub mod rules;
pub mod sample;
pub mod seed;
pub mod trace;

pub use prefix_trie::image;
