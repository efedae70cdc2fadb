//! The map beside the judge, in one process.
//!
//! `histories` makes calls by seed (`maker` one by one), `compare` plays them on the crate (`judge::desk`), on a plain list
//! of rules with the block ledger (`judge::model`) and on the map (`subject`), and holds answers and
//! whole memories together. `damage` plays calls on memory that somebody else wrote to: `harm` says
//! what was written, `outcomes` and `reading` what a call gives then. `shrink` makes a failing case short, `case`
//! writes and reads it, `counts` says what a run met, and `run` does all of it over many seeds.

#![forbid(unsafe_code)]

pub mod case;
pub mod compare;
pub mod counts;
pub mod damage;
pub mod harm;
pub mod histories;
pub mod maker;
pub mod memory;
pub mod outcomes;
pub mod reading;
pub mod run;
pub mod shrink;
pub mod subject;
