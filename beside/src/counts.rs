//! What a run met, so that it can be seen that each thing was.

use hestrovik::boundary::{number, Answer};
use judge::ledger::{Kind, Shortage, TIERS};
use judge::record::Operation;

use crate::compare::operation_name;

/// Numbers run from 0 to 8.
const NUMBERS: usize = 9;

/// A removal asks for a smaller block, so never for one of the last tier.
const REMOVAL_TIERS: usize = TIERS - 1;

/// Node counts run from 1 to 7.
const MOST_NODES: usize = 7;

#[derive(Clone, Debug, Default)]
pub struct Counts {
    pub histories: u64,
    /// From a fresh start, by operation and number.
    pub calls: [[u64; NUMBERS]; 5],
    /// Number 4, by edit (insert, remove), pool (nodes, cells) and the tier that was lacking.
    pub no_room: [[[u64; TIERS]; 2]; 2],
    /// Lookups by node count.
    pub node_counts: [u64; MOST_NODES + 1],
    /// On damaged memory, by operation and number.
    pub damaged: [[u64; NUMBERS]; 5],
    /// Fresh starts over damaged memory: taken, refused.
    pub starts: [u64; 2],
}

impl Counts {
    /// Counts a call from a fresh start.
    pub fn call(&mut self, operation: Operation, answer: &Answer, shortage: Option<Shortage>) {
        self.calls[place(operation)][answer.number as usize] += 1;
        if let Some(Shortage { pool, tier }) = shortage {
            let pool = usize::from(pool == Kind::Cells);
            self.no_room[place(operation)][pool][tier] += 1;
        }
        if !operation.is_edit() {
            self.node_counts[answer.nodes as usize] += 1;
        }
    }

    /// Counts a call on damaged memory.
    pub fn damaged_call(&mut self, operation: Operation, answer: &Answer) {
        self.damaged[place(operation)][answer.number as usize] += 1;
    }

    pub fn all_calls(&self) -> u64 {
        self.calls.iter().flatten().sum()
    }

    pub fn edits(&self) -> u64 {
        self.calls[..2].iter().flatten().sum()
    }

    pub fn all_damaged(&self) -> u64 {
        self.damaged.iter().flatten().sum()
    }

    fn refused_for_room(&self) -> u64 {
        self.no_room.iter().flatten().flatten().sum()
    }

    /// One line of progress.
    pub fn line(&self) -> String {
        let met = |edit: usize| {
            let tiers = |pool: usize| {
                let met = self.no_room[edit][pool].iter().enumerate();
                let met = met.map(|(tier, met)| match met {
                    0 => '-',
                    _ => char::from(b'0' + tier as u8),
                });
                met.collect::<String>()
            };
            format!("nodes {} cells {}", tiers(0), tiers(1))
        };
        format!(
            "{} histories, {} calls, {} edits, {} refused for room (tiers: inserts {}, removals {}), {} calls on damaged memory",
            self.histories,
            self.all_calls(),
            self.edits(),
            self.refused_for_room(),
            met(0),
            met(1),
            self.all_damaged(),
        )
    }

    /// What should be met and wasn't.
    pub fn not_met(&self) -> Vec<String> {
        let mut missing = Vec::new();
        for operation in Operation::ALL {
            let name = operation_name(operation);
            for number in numbers(operation) {
                if self.calls[place(operation)][*number as usize] == 0 {
                    missing.push(format!("{name} with number {number}"));
                }
            }
            for number in numbers(operation).iter().chain(&DAMAGED) {
                if self.damaged[place(operation)][*number as usize] == 0 {
                    missing.push(format!("{name} on damaged memory with number {number}"));
                }
            }
        }
        for (edit, (name, tiers)) in [("insert", TIERS), ("remove", REMOVAL_TIERS)]
            .into_iter()
            .enumerate()
        {
            for (pool, pool_name) in ["nodes", "cells"].into_iter().enumerate() {
                for tier in 0..tiers {
                    if self.no_room[edit][pool][tier] == 0 {
                        missing.push(format!("{name} short of {pool_name} of tier {tier}"));
                    }
                }
            }
        }
        for count in 1..=MOST_NODES {
            if self.node_counts[count] == 0 {
                missing.push(format!("a node count of {count}"));
            }
        }
        if self.starts.contains(&0) {
            missing.push("fresh starts taken and refused over damaged memory".into());
        }
        missing
    }

    /// The whole report.
    pub fn report(&self) -> String {
        let mut lines = vec![
            format!("histories                 {:>12}", self.histories),
            format!("calls from a fresh start  {:>12}", self.all_calls()),
            format!("edits, memory compared    {:>12}", self.edits()),
            format!("calls on damaged memory   {:>12}", self.all_damaged()),
            format!(
                "fresh starts over it      {:>12} taken, {} refused",
                self.starts[0], self.starts[1]
            ),
        ];
        lines.extend(self.numbers("from a fresh start", &self.calls, &FRESH_COLUMNS));
        lines.push("number 4: tier lacking         0         1         2         3         4         5         6".into());
        for (edit, name) in ["insert", "remove"].into_iter().enumerate() {
            for (pool, pool_name) in ["nodes", "cells"].into_iter().enumerate() {
                let row = self.no_room[edit][pool].map(|met| format!("{met:>10}"));
                lines.push(format!("{name:<9}{pool_name:<13}{}", row.concat()));
            }
        }
        lines.push(
            "lookups by node count          1         2         3         4         5         6         7"
                .into(),
        );
        let row = self.node_counts[1..].iter().map(|met| format!("{met:>10}"));
        lines.push(format!("{:<22}{}", "", row.collect::<String>()));
        lines.extend(self.numbers("on damaged memory", &self.damaged, &ALL_COLUMNS));
        lines.join("\n")
    }

    fn numbers(&self, title: &str, table: &[[u64; NUMBERS]; 5], columns: &[u32]) -> Vec<String> {
        let heads: String = columns
            .iter()
            .map(|number| format!("{number:>10}"))
            .collect();
        let mut lines = vec![format!("{:<22}{heads}", format!("{title}: number"))];
        for operation in Operation::ALL {
            let row = columns
                .iter()
                .map(|number| format!("{:>10}", table[place(operation)][*number as usize]));
            let row: String = row.collect();
            lines.push(format!("{:<22}{row}", operation_name(operation)));
        }
        lines
    }
}

/// Columns of the two tables; from a fresh start 3 and 5 never come.
const FRESH_COLUMNS: [u32; 5] = [0, 8, 1, 2, 4];
const ALL_COLUMNS: [u32; 7] = [0, 8, 1, 2, 3, 4, 5];

/// Numbers that come on damaged memory alone.
const DAMAGED: [u32; 2] = [number::WRONG_SLICE, number::BROKEN];

/// The numbers that an operation can give from a fresh start.
pub fn numbers(operation: Operation) -> &'static [u32] {
    use number::{DONE, NOTHING, NO_ROOM, REPLACED, TOO_LONG};
    match operation {
        Operation::Insert => &[DONE, REPLACED, TOO_LONG, NO_ROOM],
        Operation::Remove => &[DONE, TOO_LONG, NOTHING, NO_ROOM],
        _ => &[DONE, TOO_LONG, NOTHING],
    }
}

fn place(operation: Operation) -> usize {
    operation as usize - 1
}
