//! What a record gets, worked out from document 01 alone: a plain list of rules and the block ledger.
//!
//! It shares nothing with the desk: it reads the records' bytes itself, answers by scanning, and
//! refuses by counting blocks, where the desk lets the crate edit and looks at its marks.

use crate::desk::Pools;
use crate::ledger::{Ledger, Shortage};
use crate::rules::{masked, Prefix, Rules};

/// Everything that document 01 says a record gets, by the slowest means.
pub struct Model {
    pub rules: Rules,
    pub ledger: Ledger,
    /// The block that the last record's edit needed and didn't get.
    pub shortage: Option<Shortage>,
}

impl Model {
    pub fn new(pools: Pools) -> Model {
        Model {
            rules: Rules::default(),
            ledger: Ledger::new(pools.nodes, pools.cells),
            shortage: None,
        }
    }

    /// The answer to twelve bytes.
    pub fn answer(&mut self, bytes: &[u8; 12]) -> [u8; 12] {
        self.shortage = None;
        let [operation, length, zero, naught, ..] = *bytes;
        let key = u32::from_be_bytes(bytes[4..8].try_into().unwrap());
        let value = u32::from_be_bytes(bytes[8..].try_into().unwrap());
        let good = (1..=5).contains(&operation) && zero == 0 && naught == 0;
        if !good || operation != 1 && value != 0 {
            return out(6, 0, (0, 0), 0);
        }
        if length > 32 {
            return out(1, 0, (0, 0), 0);
        }
        let query = (masked(key, length), length);
        match operation {
            1 => self.insert(query, value),
            2 => self.remove(query),
            3 => {
                let found = self.rules.value(query).map(|value| (query, value));
                self.found(query, found, length)
            }
            4 => self.found(query, self.rules.longest(query), length),
            _ => {
                let found = self.rules.shortest(query);
                let end = found.map_or(length, |(rule, _)| rule.1);
                self.found(query, found, end)
            }
        }
    }

    fn insert(&mut self, rule: Prefix, value: u32) -> [u8; 12] {
        if let Some(old) = self.rules.value(rule) {
            self.rules.store(rule, value);
            return out(8, 0, rule, old);
        }
        if let Err(shortage) = self.ledger.insert(&self.rules, rule) {
            return self.no_room(shortage);
        }
        self.rules.store(rule, value);
        out(0, 0, rule, 0)
    }

    fn remove(&mut self, rule: Prefix) -> [u8; 12] {
        let Some(value) = self.rules.value(rule) else {
            return out(2, 0, (0, 0), 0);
        };
        let mut after = self.rules.clone();
        after.drop(rule);
        if let Err(shortage) = self.ledger.remove(&self.rules, &after, rule) {
            return self.no_room(shortage);
        }
        self.rules = after;
        out(0, 0, rule, value)
    }

    fn no_room(&mut self, shortage: Shortage) -> [u8; 12] {
        self.shortage = Some(shortage);
        out(4, 0, (0, 0), 0)
    }

    fn found(&self, query: Prefix, found: Option<(Prefix, u32)>, end: u8) -> [u8; 12] {
        let depths = (0..=end).step_by(5);
        let count = depths.filter(|depth| self.rules.has_node(query.0, *depth));
        let count = count.count() as u8;
        match found {
            Some((rule, value)) => out(0, count, rule, value),
            None => out(2, count, (0, 0), 0),
        }
    }
}

fn out(number: u8, count: u8, rule: Prefix, value: u32) -> [u8; 12] {
    let mut bytes = [0; 12];
    bytes[..3].copy_from_slice(&[number, rule.1, count]);
    bytes[4..8].copy_from_slice(&rule.0.to_be_bytes());
    bytes[8..].copy_from_slice(&value.to_be_bytes());
    bytes
}
