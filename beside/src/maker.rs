//! Makes a history call by call, and knows what is stored.

use judge::desk::{Desk, Pools};
use judge::ground::{behind, Prefix};
use judge::record::{number, Answer, Operation, Record, LENGTH_MAX};
use judge::seed::Seed;

use crate::compare::History;

/// Counts on both sides of the marks between block sizes.
const TURNS: [usize; 17] = [0, 1, 2, 3, 4, 5, 6, 7, 8, 9, 12, 16, 17, 24, 25, 31, 32];

/// Lengths that mean nothing.
const TOO_LONG: [u8; 5] = [33, 34, 64, 128, 255];

/// A node whose rules or children are counted up and down.
pub struct Nest {
    pub places: Vec<Prefix>,
    target: usize,
}

impl Nest {
    /// All 31 rules of a node.
    pub fn of_rules(by: &mut Seed) -> Nest {
        let depth = 5 * by.below(6) as u8;
        let base = by.next_u32() & !behind(depth);
        let level = |level: u8| {
            let length = depth + level;
            (0..1u32 << level).map(move |bits| (base | placed(bits, length), length))
        };
        Nest {
            places: (0..5).flat_map(level).collect(),
            target: 0,
        }
    }

    /// A rule in each of the 32 children of a node, or some way below the child.
    pub fn of_children(by: &mut Seed) -> Nest {
        let depth = 5 * by.below(6) as u8;
        let base = by.next_u32() & !behind(depth);
        let deepest = by.pick(&[0, 0, 4, 10, LENGTH_MAX]);
        let places = (0..32).map(|child| {
            let length = depth + 5;
            let most = deepest.min(LENGTH_MAX - length);
            let longer = length + by.below(u32::from(most) + 1) as u8;
            let below = by.next_u32() & behind(length) & !behind(longer);
            (base | placed(child, length) | below, longer)
        });
        Nest {
            places: places.collect(),
            target: 0,
        }
    }
}

/// The bits moved so that the last of them ends a prefix of this length.
fn placed(bits: u32, length: u8) -> u32 {
    let behind = u32::from(LENGTH_MAX - length);
    bits.checked_shl(behind).unwrap_or(0)
}

/// Plays each call on a desk as it makes it.
pub struct Maker {
    pub by: Seed,
    desk: Desk,
    stored: Vec<Prefix>,
    pub history: History,
}

impl Maker {
    pub fn new(by: &Seed, pools: Pools) -> Maker {
        Maker {
            by: by.clone(),
            desk: Desk::new(pools),
            stored: Vec::new(),
            history: History {
                pools,
                records: Vec::new(),
            },
        }
    }

    /// A call like those around it: mostly inserts where the map fills, mostly removals where it
    /// drains, and lookups.
    pub fn step(&mut self, place: Prefix, rising: bool) {
        let inserts = if rising { 65 } else { 10 };
        let choice = self.by.below(100);
        if choice < inserts {
            self.insert(place);
        } else if choice < 75 {
            let place = self.stored_or(place);
            self.remove(place);
        } else {
            let place = self.stored_or(place);
            self.look(place);
        }
    }

    /// One edit that moves a nest's count to its target; a new target where it is reached, or where
    /// there is no room.
    pub fn towards(&mut self, nest: &mut Nest) {
        let stored: Vec<Prefix> = self.in_nest(nest, true);
        let answer = if stored.len() < nest.target {
            let idle = self.in_nest(nest, false);
            let place = self.by.pick(&idle);
            self.insert(place)
        } else if stored.len() > nest.target {
            let place = self.by.pick(&stored);
            self.remove(place)
        } else {
            nest.target = self.by.pick(&TURNS).min(nest.places.len());
            return;
        };
        if answer.number == number::NO_ROOM {
            nest.target = self.by.pick(&TURNS).min(nest.places.len());
        }
    }

    fn in_nest(&self, nest: &Nest, stored: bool) -> Vec<Prefix> {
        let places = nest.places.iter().copied();
        places
            .filter(|place| self.stored.contains(place) == stored)
            .collect()
    }

    pub fn insert(&mut self, place: Prefix) -> Answer {
        let value = match self.by.below(10) {
            0 => self.by.pick(&[0, 1, u32::MAX]),
            _ => self.by.next_u32(),
        };
        self.call(Operation::Insert, place, value)
    }

    pub fn remove(&mut self, place: Prefix) -> Answer {
        self.call(Operation::Remove, place, 0)
    }

    /// A lookup of a place, of one below it or of one above it.
    pub fn look(&mut self, (key, length): Prefix) {
        let operation = self
            .by
            .pick(&[Operation::Exact, Operation::Longest, Operation::Shortest]);
        let place = match self.by.below(3) {
            0 => (key, length),
            1 => {
                let more = u32::from(LENGTH_MAX - length) + 1;
                let longer = length + self.by.below(more) as u8;
                (key ^ self.by.next_u32() & behind(length), longer)
            }
            _ => (key, self.by.below(u32::from(length) + 1) as u8),
        };
        self.call(operation, place, 0);
    }

    fn stored_or(&mut self, place: Prefix) -> Prefix {
        if self.stored.is_empty() || self.by.chance(15) {
            return place;
        }
        self.by.pick(&self.stored)
    }

    /// Half of the keys get bits behind their length; a few lengths are too long.
    fn call(&mut self, operation: Operation, (key, length): Prefix, value: u32) -> Answer {
        let mut record = Record {
            operation,
            length,
            key,
            value,
        };
        if self.by.chance(50) {
            record.key ^= self.by.next_u32() & behind(length);
        }
        if self.by.below(60) == 0 {
            record.length = self.by.pick(&TOO_LONG);
        }
        self.history.records.push(record);
        let answer = self.desk.call(record);
        let rule = (answer.key, answer.length);
        match (operation, answer.number) {
            (Operation::Insert, number::DONE) => self.stored.push(rule),
            (Operation::Remove, number::DONE) => self.stored.retain(|stored| *stored != rule),
            _ => {}
        }
        answer
    }
}
