//! What one record gets: the crate's own map, with the pool sizes that it doesn't have itself.

use prefix_trie::image::{self, Image};
use prefix_trie::{Map, Prefix};

use crate::record::{number, Answer, Operation, Record, LENGTH_MAX, RECORD};

/// Most nodes that an edit issues: a block of 32 for the growth, five single blocks below it.
const MOST_NODES: usize = 32 + 5;

/// Most cells that an edit issues: one block of 31.
const MOST_CELLS: usize = 31;

/// The sizes of the two pools.
#[derive(Clone, Copy, Debug, PartialEq, Eq)]
pub struct Pools {
    pub nodes: usize,
    pub cells: usize,
}

impl Pools {
    /// Largest size of either pool; the smallest is 1.
    pub const MAX: usize = 65_536;

    /// The pools of the bench program.
    pub const BENCH: Pools = Pools {
        nodes: 1024,
        cells: 2048,
    };

    fn hold(self, (nodes, cells): (usize, usize)) -> bool {
        nodes <= self.nodes && cells <= self.cells
    }
}

/// A map from a fresh start and the pools that it must keep to.
pub struct Desk {
    map: Map,
    pools: Pools,
}

impl Desk {
    pub fn new(pools: Pools) -> Desk {
        Desk {
            map: Map::new(),
            pools,
        }
    }

    /// The answer to twelve bytes.
    pub fn answer(&mut self, bytes: &[u8; RECORD]) -> Answer {
        match Record::decode(bytes) {
            Some(record) => self.call(record),
            None => Answer::bare(number::BAD_RECORD),
        }
    }

    /// The answer to a record in good form.
    pub fn call(&mut self, record: Record) -> Answer {
        if record.length > LENGTH_MAX {
            return Answer::bare(number::TOO_LONG);
        }
        let prefix = (record.key, record.length);
        match record.operation {
            Operation::Insert => self.edit(|map| insert(map, prefix, record.value)),
            Operation::Remove => self.edit(|map| remove(map, prefix)),
            Operation::Exact => {
                let found = self.map.get_key_value(&prefix);
                self.found(prefix, found, record.length)
            }
            Operation::Longest => {
                let found = self.map.get_lpm(&prefix);
                self.found(prefix, found, record.length)
            }
            Operation::Shortest => {
                let found = self.map.get_spm(&prefix);
                let end = found.map_or(record.length, |(rule, _)| rule.1);
                self.found(prefix, found, end)
            }
        }
    }

    /// What the map's memory holds.
    pub fn image(&mut self) -> Image {
        image::image(&mut self.map)
    }

    /// Lets the crate edit and reads its marks afterwards. It issues what no free list supplies and
    /// never takes a mark back, so a mark past its pool says that some step found no room; the map
    /// as it was is put back then.
    fn edit(&mut self, change: impl FnOnce(&mut Map) -> Answer) -> Answer {
        let (nodes, cells) = image::marks(&mut self.map);
        let ample = self.pools.hold((nodes + MOST_NODES, cells + MOST_CELLS));
        let before = (!ample).then(|| image::copy(&mut self.map));
        let answer = change(&mut self.map);
        if self.pools.hold(image::marks(&mut self.map)) {
            return answer;
        }
        self.map = before.expect("no edit issues more than the most");
        Answer::bare(number::NO_ROOM)
    }

    /// A lookup's answer. The node count runs over depths up to `end`.
    fn found(&self, query: (u32, u8), found: Option<((u32, u8), &u32)>, end: u8) -> Answer {
        let count = image::nodes_on_path(&self.map, query.0, end);
        match found {
            Some(((key, length), &value)) => Answer {
                number: number::DONE,
                length,
                count,
                key,
                value,
            },
            None => Answer {
                count,
                ..Answer::bare(number::NOTHING)
            },
        }
    }
}

fn insert(map: &mut Map, prefix: (u32, u8), value: u32) -> Answer {
    let old = map.insert(prefix, value);
    Answer {
        number: old.map_or(number::DONE, |_| number::REPLACED),
        length: prefix.1,
        count: 0,
        key: prefix.mask(),
        value: old.unwrap_or(0),
    }
}

fn remove(map: &mut Map, prefix: (u32, u8)) -> Answer {
    match map.remove(&prefix) {
        Some(value) => Answer {
            number: number::DONE,
            length: prefix.1,
            count: 0,
            key: prefix.mask(),
            value,
        },
        None => Answer::bare(number::NOTHING),
    }
}
