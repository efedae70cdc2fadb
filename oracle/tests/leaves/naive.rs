//! What each leaf function means, said by covering and counting, without a shift of the crate's.
//!
//! Keys are taken three bits wider than 32, so that the window of depth 30 has its five bits.

use judge::leaves::Reply::{self, Nothing, One, Two};
use judge::leaves::{op, Request};

const WIDTH: u32 = 35;

/// A prefix of a widened key; bits behind the length are not looked at.
#[derive(Clone, Copy)]
struct Prefix {
    key: u64,
    length: u32,
}

impl Prefix {
    fn new(key: u32, length: u32) -> Prefix {
        Prefix {
            key: u64::from(key) << 3,
            length,
        }
    }

    /// The first bits of a key, then some more.
    fn extended(key: u32, depth: u32, bits: u32, more: u32) -> Prefix {
        let length = depth + more;
        let first = Prefix::new(key, depth).tidy();
        Prefix {
            key: first | u64::from(bits) << (WIDTH - length),
            length,
        }
    }

    fn tidy(self) -> u64 {
        let behind = WIDTH - self.length;
        self.key >> behind << behind
    }

    fn covers(self, other: Prefix) -> bool {
        let first = |key: u64| key >> (WIDTH - self.length);
        self.length <= other.length && first(self.key) == first(other.key)
    }

    fn narrow(self) -> u32 {
        (self.tidy() >> 3) as u32
    }
}

/// The prefix of a data bit: level by level, a level's prefixes by their bits.
fn data(key: u32, depth: u32, bit: u32) -> Prefix {
    let mut level = 0;
    let mut before = bit;
    while before >= 1 << level {
        before -= 1 << level;
        level += 1;
    }
    Prefix::extended(key, depth, before, level)
}

fn child(key: u32, depth: u32, bit: u32) -> Prefix {
    Prefix::extended(key, depth, bit, 5)
}

/// The bits below `end` that pass a test.
fn bits(end: u32, test: impl Fn(u32) -> bool) -> u32 {
    (0..end)
        .filter(|bit| test(*bit))
        .fold(0, |all, bit| all | 1 << bit)
}

fn has(bitmap: u32, bit: u32) -> bool {
    bitmap >> bit & 1 == 1
}

fn lpm(depth: u32, key: u32, length: u32) -> u32 {
    bits(31, |bit| {
        data(key, depth, bit).covers(Prefix::new(key, length))
    })
}

fn data_cover(depth: u32, key: u32, length: u32) -> u32 {
    bits(31, |bit| {
        Prefix::new(key, length).covers(data(key, depth, bit))
    })
}

fn child_cover(depth: u32, key: u32, length: u32) -> u32 {
    bits(32, |bit| {
        Prefix::new(key, length).covers(child(key, depth, bit))
    })
}

/// The lengths of a node's rules rise with their bits: those that match, shortest first.
fn matching(bitmap: u32, depth: u32, key: u32, length: u32) -> Vec<u32> {
    let found = bitmap & lpm(depth, key, length);
    let mut matching: Vec<u32> = (0..31).filter(|bit| has(found, *bit)).collect();
    matching.sort_by_key(|bit| data(key, depth, *bit).length);
    matching
}

/// Data and children of a node in the order of a listing: by key, a prefix before those below it.
fn order() -> Vec<(u32, u32)> {
    let data = (0..31).map(|bit| (data(0, 0, bit), (0, bit)));
    let children = (0..32).map(|bit| (child(0, 0, bit), (1, bit)));
    let mut all: Vec<_> = data.chain(children).collect();
    all.sort_by_key(|(prefix, _)| (prefix.key, prefix.length));
    all.into_iter().map(|(_, element)| element).collect()
}

/// Masks of data and children in part of the order.
fn masks(part: &[(u32, u32)]) -> Reply {
    let of = |kind: u32| bits(32, |bit| part.contains(&(kind, bit)));
    Two(of(0), of(1))
}

fn place(element: (u32, u32)) -> usize {
    let place = order().iter().position(|other| *other == element);
    place.expect("every element has a place")
}

fn tier(spacings: [u32; 7], count: u32) -> Reply {
    let holding = (0..7).find(|tier| spacings[*tier as usize] >= count);
    One(holding.expect("no count is above the last spacing"))
}

const DATA_SPACINGS: [u32; 7] = [1, 2, 4, 8, 16, 24, 31];
const CHILD_SPACINGS: [u32; 7] = [1, 2, 4, 8, 16, 24, 32];

/// The reply to a request inside the function's inputs, lengths past the node left out.
pub fn reply(request: Request) -> Reply {
    let Request { op, a, b, c, d } = request;
    match op {
        op::COMPUTE_SLOT => One((0..b).filter(|bit| has(a, *bit)).count() as u32),
        op::DATA_TIER => tier(DATA_SPACINGS, a),
        op::CHILD_TIER => tier(CHILD_SPACINGS, a),
        op::DATA_SPACING => One(DATA_SPACINGS[a as usize]),
        op::CHILD_SPACING => One(CHILD_SPACINGS[a as usize]),
        op::DATA_BIT => {
            let (depth, rule) = (b / 5 * 5, Prefix::new(a, b));
            let same =
                |bit: &u32| data(a, depth, *bit).length == b && rule.covers(data(a, depth, *bit));
            (0..31).find(same).map_or(Nothing, One)
        }
        op::CHILD_BIT => {
            let on_path = |bit: &u32| child(b, a, *bit).covers(Prefix::new(b, 32));
            (0..32).find(on_path).map_or(Nothing, One)
        }
        op::DATA_LPM_MASK => One(lpm(a, b, c)),
        op::DATA_COVER_MASK => One(data_cover(a, b, c)),
        op::CHILD_COVER_MASK => One(child_cover(a, b, c)),
        op::PATTERN => One([lpm, data_cover, child_cover][a as usize](0, c << 28, b)),
        op::DATA_LPM_LOC => matching(a, b, c, d).last().map_or(Nothing, |bit| One(*bit)),
        op::DATA_SPM_LOC => matching(a, b, c, d)
            .first()
            .map_or(Nothing, |bit| One(*bit)),
        op::DATA_COVER_LOCS => One(a & data_cover(b, c, d)),
        op::CHILD_COVER_LOCS => One(a & child_cover(b, c, d)),
        op::LEX_ORDER => Two(order()[a as usize].0, order()[a as usize].1),
        op::LEX_AFTER_DATA => masks(&order()[place((0, a))..]),
        op::LEX_AFTER_CHILD => masks(&order()[place((1, a)) + 1..]),
        op::DATA_BIT_TO_PREFIX => {
            let prefix = data(0, 0, a);
            Two(prefix.narrow() >> 28, prefix.length)
        }
        op::EXTEND_REPR => One(child(a, b, c).narrow()),
        op::MASKED => One(Prefix::new(a, b).narrow()),
        op::RECONSTRUCT_PREFIX => Two(data(b, a, c).narrow(), data(b, a, c).length),
        op::HAS_DATA_BIT | op::HAS_CHILD_BIT => One(has(a, b).into()),
        op::SET_DATA_BIT | op::SET_CHILD_BIT => One(bits(32, |bit| has(a, bit) || bit == b)),
        op::UNSET_DATA_BIT | op::UNSET_CHILD_BIT => One(bits(32, |bit| has(a, bit) && bit != b)),
        _ => Reply::Outside,
    }
}
