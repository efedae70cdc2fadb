//! Histories by seed: records that a map meets from a fresh start.
//!
//! The maker plays each record as it makes it, so that it knows which rules are stored and how the
//! pools stand; the kinds differ in where their rules lie and in whether the map fills or drains.

use crate::desk::{Desk, Pools};
use crate::ground::{bases, behind, chains, one_node, Prefix};
use crate::record::{number, Answer, Operation, Record, LENGTH_MAX, RECORD};
use crate::seed::Seed;

/// Refusals for room after which a rising tide turns.
const ENOUGH_REFUSALS: u32 = 8;

/// A rising tide of `drain` takes one record in so many at the most.
const TIDES: usize = 6;

#[derive(Clone, Copy, Debug, PartialEq, Eq)]
pub enum Kind {
    /// Keys anywhere, all lengths.
    Random,
    /// Under one prefix: one node with up to 31 data bits and 32 children, filled and drained.
    Dense,
    /// Nested lengths along three keys.
    Chain,
    /// Filled until refusals for room or long enough, then drained, again and again.
    Drain,
    /// All lengths from 0 to 33, and bad records among them.
    Lengths,
}

impl Kind {
    pub const ALL: [(&'static str, Kind); 5] = [
        ("random", Kind::Random),
        ("dense", Kind::Dense),
        ("chain", Kind::Chain),
        ("drain", Kind::Drain),
        ("lengths", Kind::Lengths),
    ];

    pub fn named(name: &str) -> Option<Kind> {
        let found = Kind::ALL.into_iter().find(|(known, _)| *known == name);
        found.map(|(_, kind)| kind)
    }
}

/// The records of a history.
pub fn history(kind: Kind, seed: u64, count: usize, pools: Pools) -> Vec<[u8; RECORD]> {
    let mut maker = Maker::new(kind, seed, count, pools);
    (0..count).map(|_| maker.record()).collect()
}

/// Which way the rule count goes.
#[derive(Clone, Copy, PartialEq, Eq)]
enum Tide {
    Even,
    Rising,
    Falling,
}

impl Tide {
    /// In a hundred records: inserts, removals, exact, longest, the rest shortest.
    fn shares(self) -> [u32; 4] {
        match self {
            Tide::Even => [35, 20, 12, 18],
            Tide::Rising => [65, 5, 8, 12],
            Tide::Falling => [5, 65, 8, 12],
        }
    }
}

struct Maker {
    kind: Kind,
    seed: Seed,
    desk: Desk,
    stored: Vec<Prefix>,
    /// Where new rules may stand, for the kinds that keep to a few places.
    ground: Vec<Prefix>,
    tide: Tide,
    tide_records: usize,
    tide_longest: usize,
    refusals: u32,
}

impl Maker {
    fn new(kind: Kind, seed: u64, count: usize, pools: Pools) -> Maker {
        let mut seed = Seed::new(seed);
        let ground = match kind {
            Kind::Dense => one_node(&mut seed),
            Kind::Chain => chains(&mut seed),
            Kind::Drain => bases(&mut seed),
            Kind::Random | Kind::Lengths => Vec::new(),
        };
        let tide = match kind {
            Kind::Dense | Kind::Drain => Tide::Rising,
            _ => Tide::Even,
        };
        Maker {
            kind,
            seed,
            desk: Desk::new(pools),
            stored: Vec::new(),
            ground,
            tide,
            tide_records: 0,
            tide_longest: count / TIDES + 1,
            refusals: 0,
        }
    }

    fn record(&mut self) -> [u8; RECORD] {
        if self.kind == Kind::Lengths && self.seed.chance(6) {
            return self.bad_record();
        }
        let operation = self.operation();
        let (key, mut length) = match operation {
            Operation::Insert => self.insert_place(),
            Operation::Remove => self.remove_place(),
            _ => self.lookup_place(),
        };
        if self.kind == Kind::Lengths && self.seed.chance(40) {
            length = self.any_length();
        }
        let record = Record {
            operation,
            length,
            key: self.untidy(key, length),
            value: self.value(operation),
        };
        let answer = self.desk.call(record);
        self.note(operation, answer);
        self.turn();
        record.encode()
    }

    fn operation(&mut self) -> Operation {
        let mut left = self.seed.below(100);
        for (operation, share) in Operation::ALL.into_iter().zip(self.tide.shares()) {
            if left < share {
                return operation;
            }
            left -= share;
        }
        Operation::Shortest
    }

    /// Mostly a new place, now and then a stored one: a replacement.
    fn insert_place(&mut self) -> Prefix {
        if self.seed.chance(12) {
            if let Some(stored) = self.any_stored() {
                return stored;
            }
        }
        self.fresh()
    }

    fn remove_place(&mut self) -> Prefix {
        if self.seed.chance(85) {
            if let Some(stored) = self.any_stored() {
                return stored;
            }
        }
        self.fresh()
    }

    /// A stored prefix, one below it, or any.
    fn lookup_place(&mut self) -> Prefix {
        let choice = self.seed.below(10);
        match self.any_stored() {
            Some(stored) if choice < 3 => stored,
            Some((key, length)) if choice < 8 => {
                let longer = length + self.seed.below(u32::from(LENGTH_MAX - length) + 1) as u8;
                (key | self.seed.next_u32() & behind(length), longer)
            }
            _ => self.fresh(),
        }
    }

    fn any_stored(&mut self) -> Option<Prefix> {
        (!self.stored.is_empty()).then(|| self.seed.pick(&self.stored))
    }

    /// A place of the history's kind.
    fn fresh(&mut self) -> Prefix {
        match self.kind {
            Kind::Random => (self.seed.next_u32(), self.seed.below(33) as u8),
            Kind::Lengths => (self.seed.next_u32(), self.any_length()),
            Kind::Chain => self.seed.pick(&self.ground),
            Kind::Dense => self.unfilled(),
            Kind::Drain => {
                let (key, length) = self.seed.pick(&self.ground);
                let key = key | self.seed.next_u32() & behind(length);
                let lengths = u32::from(LENGTH_MAX - length) + 1;
                let longer = self.seed.below(lengths).max(self.seed.below(lengths));
                (key, length + longer as u8)
            }
        }
    }

    /// 0 to 33, seldom more.
    fn any_length(&mut self) -> u8 {
        if self.seed.chance(2) {
            return self.seed.pick(&[34, 64, 128, 255]);
        }
        self.seed.below(34) as u8
    }

    /// A place of the ground without a rule, if there is one.
    fn unfilled(&mut self) -> Prefix {
        let places = self.ground.len();
        let first = self.seed.below(places as u32) as usize;
        let mut turns = (0..places).map(|turn| self.ground[(first + turn) % places]);
        let free = turns.find(|place| !self.stored.contains(place));
        free.unwrap_or(self.ground[first])
    }

    /// The key with bits behind its length, which no call looks at, in half of the cases.
    fn untidy(&mut self, key: u32, length: u8) -> u32 {
        if self.seed.chance(50) {
            return key;
        }
        key ^ self.seed.next_u32() & behind(length)
    }

    /// 0 and the largest u32 are values like another.
    fn value(&mut self, operation: Operation) -> u32 {
        match operation {
            Operation::Insert if self.seed.chance(10) => self.seed.pick(&[0, u32::MAX]),
            Operation::Insert => self.seed.next_u32(),
            _ => 0,
        }
    }

    /// Number 6, by each of its four reasons.
    fn bad_record(&mut self) -> [u8; RECORD] {
        let mut bytes = Record {
            operation: self.seed.pick(&Operation::ALL),
            length: self.any_length(),
            key: self.seed.next_u32(),
            value: 0,
        }
        .encode();
        let junk = 1 + self.seed.below(255) as u8;
        match self.seed.below(4) {
            0 => bytes[0] = self.seed.pick(&[0, 6, 7, 128, 255]),
            1 => bytes[2] = junk,
            2 => bytes[3] = junk,
            _ => {
                bytes[0] = Operation::Remove as u8 + self.seed.below(4) as u8;
                bytes[8 + self.seed.below(4) as usize] = junk;
            }
        }
        bytes
    }

    fn note(&mut self, operation: Operation, answer: Answer) {
        let prefix = (answer.key, answer.length);
        match (operation, answer.number) {
            (Operation::Insert, number::DONE) => self.stored.push(prefix),
            (Operation::Remove, number::DONE) => self.stored.retain(|stored| *stored != prefix),
            (_, number::NO_ROOM) => self.refusals += 1,
            _ => {}
        }
    }

    /// Turns the tide where it has run its course. A falling one may meet a pool in which every
    /// removal is refused for room: it turns too, after twice the time.
    fn turn(&mut self) {
        self.tide_records += 1;
        let next = match self.tide {
            Tide::Even => return,
            Tide::Rising => {
                let full = self.kind == Kind::Dense && self.stored.len() >= self.ground.len();
                let long = self.kind == Kind::Drain && self.tide_records >= self.tide_longest;
                if !full && !long && self.refusals < ENOUGH_REFUSALS {
                    return;
                }
                Tide::Falling
            }
            Tide::Falling => {
                if !self.stored.is_empty() && self.tide_records < 2 * self.tide_longest {
                    return;
                }
                Tide::Rising
            }
        };
        self.tide = next;
        self.tide_records = 0;
        self.refusals = 0;
    }
}
