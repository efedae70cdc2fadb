//! Pools of the largest size, filled to their last place, thinned out and filled again: the crate and the map alone, the
//! plain list of rules being too slow for so many. Answers are compared at every call, memory now and
//! then and wherever room runs out.

use beside::memory::Words;
use beside::subject::{Port, Subject};
use judge::desk::{Desk, Pools};
use judge::record::{number, Operation, Record};
use judge::seed::Seed;

const LARGEST: Pools = Pools {
    nodes: Pools::MAX,
    cells: Pools::MAX,
};

/// Memory is compared once in so many edits.
const SELDOM: usize = 4000;

/// Inserts that are refused for room before rules are removed again, and how many are: where room is
/// short the judge copies its map at every edit.
const REFUSALS: usize = 100;
const REMOVALS: usize = 6000;

struct Sides {
    desk: Desk,
    port: Port,
    stored: Vec<(u32, u8)>,
    calls: usize,
}

impl Sides {
    fn new() -> Sides {
        Sides {
            desk: Desk::new(LARGEST),
            port: Port::start(LARGEST).unwrap(),
            stored: Vec::new(),
            calls: 0,
        }
    }

    /// The number, where both sides give the same answer.
    fn call(&mut self, operation: Operation, (key, length): (u32, u8), value: u32) -> u8 {
        let record = Record {
            operation,
            length,
            key,
            value,
        };
        let judged = self.desk.call(record);
        let answer = self.port.call(record);
        let told = [
            answer.number,
            answer.len,
            answer.nodes,
            answer.key,
            answer.value,
        ];
        let judged_words = [
            judged.number.into(),
            judged.length.into(),
            judged.count.into(),
            judged.key,
            judged.value,
        ];
        assert_eq!(told, judged_words, "call {} {record:?}", self.calls);
        self.calls += 1;
        if self.calls % SELDOM == 0 {
            self.compare();
        }
        judged.number
    }

    fn compare(&mut self) {
        let expected = Words::of(&self.desk.image(), LARGEST);
        assert_eq!(self.port.words().first_difference(&expected), None);
    }

    /// Inserts until room has run out often enough, then compares.
    fn fill(&mut self, seed: &mut Seed, mut place: impl FnMut(&mut Seed) -> (u32, u8)) {
        let mut refusals = 0;
        while refusals < REFUSALS {
            let rule = place(seed);
            match self.call(Operation::Insert, rule, seed.next_u32()) {
                number::NO_ROOM => refusals += 1,
                number::DONE => self.stored.push(rule),
                _ => {}
            }
            if seed.chance(5) {
                let query = (rule.0 ^ (1 << seed.below(32)), 32);
                self.call(Operation::Longest, query, 0);
            }
        }
        self.compare();
    }

    /// Removes rules here and there.
    fn drain(&mut self, seed: &mut Seed) {
        for _ in 0..REMOVALS {
            let at = seed.below(self.stored.len() as u32) as usize;
            let rule = self.stored[at];
            if self.call(Operation::Remove, rule, 0) != number::NO_ROOM {
                self.stored.swap_remove(at);
            }
        }
        self.compare();
    }
}

/// Many rules in few nodes: the cells run out.
#[test]
fn all_cells() {
    let mut seed = Seed::new(1);
    let mut sides = Sides::new();
    let dense = |seed: &mut Seed| {
        let bits = seed.below(5);
        let key = seed.below(2600).wrapping_mul(0x9E37_79B9) & !0x7F;
        (key | (seed.next_u32() & 0x7F), 25 + bits as u8)
    };
    sides.fill(&mut seed, dense);
    assert!(sides.port.state.cell_mark > LARGEST.cells as u32 - 31);
    sides.drain(&mut seed);
    sides.fill(&mut seed, dense);
}

/// Rules far apart: the nodes run out.
#[test]
fn all_nodes() {
    let mut seed = Seed::new(2);
    let mut sides = Sides::new();
    let apart = |seed: &mut Seed| (seed.next_u32(), 26 + seed.below(7) as u8);
    sides.fill(&mut seed, apart);
    assert!(sides.port.state.node_mark > LARGEST.nodes as u32 - 37);
    sides.drain(&mut seed);
    sides.fill(&mut seed, apart);
}
