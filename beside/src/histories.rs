//! Histories by seed: which kind, which pools, which calls.
//!
//! The judge's five kinds, and four more: `few` plays with a handful of prefixes, `band` keeps to
//! clustered or spread keys and to deep or shallow lengths, `tiers` moves the counts of a few nodes up
//! and down over the marks between block sizes in pools that hold just about that, and `wide` fills
//! the bench program's pools.

use judge::desk::Pools;
use judge::ground::{behind, Prefix};
use judge::history;
use judge::record::{Record, LENGTH_MAX};
use judge::seed::Seed;

use crate::compare::History;
use crate::maker::{Maker, Nest};

/// Every so many seeds comes a wide history: they take longest.
const WIDE_EVERY: u64 = 50;

/// Calls of a wide history.
const WIDE_CALLS: usize = 2500;

#[derive(Clone, Copy, Debug, PartialEq, Eq)]
pub enum Kind {
    Judges(history::Kind),
    Few,
    Band,
    Tiers,
    Wide,
}

impl Kind {
    fn of(seed: u64) -> Kind {
        if seed % WIDE_EVERY == WIDE_EVERY - 1 {
            return Kind::Wide;
        }
        match seed % 10 {
            0 => Kind::Judges(history::Kind::Random),
            1 => Kind::Judges(history::Kind::Dense),
            2 => Kind::Judges(history::Kind::Chain),
            3 => Kind::Judges(history::Kind::Drain),
            4 => Kind::Judges(history::Kind::Lengths),
            5 => Kind::Few,
            6 => Kind::Band,
            _ => Kind::Tiers,
        }
    }
}

/// The history of a seed.
pub fn history_of(seed: u64) -> History {
    let mut by = Seed::new(seed);
    match Kind::of(seed) {
        Kind::Judges(kind) => judges(kind, seed, &mut by),
        Kind::Few => few(&mut by),
        Kind::Band => band(&mut by),
        Kind::Tiers => tiers(&mut by),
        Kind::Wide => wide(&mut by),
    }
}

/// Bad records are the bench program's (number 6); a map never sees them.
fn judges(kind: history::Kind, seed: u64, by: &mut Seed) -> History {
    let pools = any_pools(by);
    let count = 60 + by.below(300) as usize;
    let made = history::history(kind, seed, count, pools);
    let records = made.iter().filter_map(Record::decode).collect();
    History { pools, records }
}

/// A size that is small far more often than large, now and then one that a reading of document 01
/// names.
fn any_size(by: &mut Seed) -> usize {
    if by.chance(15) {
        return by.pick(&[1, 2, 3, 4, 6, 7, 12, 13, 31, 32]);
    }
    let most = 1 << (2 + by.below(8));
    1 + by.below(most) as usize
}

/// Both pools tight, or one of them ample.
fn any_pools(by: &mut Seed) -> Pools {
    let mut pools = Pools {
        nodes: any_size(by),
        cells: any_size(by),
    };
    match by.below(4) {
        0 => pools.nodes = 512,
        1 => pools.cells = 512,
        _ => {}
    }
    pools
}

fn few(by: &mut Seed) -> History {
    let pools = any_pools(by);
    let first = by.next_u32();
    let ground: Vec<Prefix> = (0..1 + by.below(6))
        .map(|_| {
            let key = match by.below(3) {
                0 => by.next_u32(),
                _ => first ^ 1 << by.below(32),
            };
            (key, by.below(33) as u8)
        })
        .collect();
    let mut maker = Maker::new(by, pools);
    for _ in 0..40 + maker.by.below(120) {
        let place = maker.by.pick(&ground);
        match maker.by.below(10) {
            0..=3 => drop(maker.insert(place)),
            4..=6 => drop(maker.remove(place)),
            _ => maker.look(place),
        }
    }
    maker.history
}

fn band(by: &mut Seed) -> History {
    let pools = any_pools(by);
    let common = by.pick(&[0, 0, 0, 8, 16, 24, 28]);
    let base = by.next_u32() & !behind(common);
    let low = by.below(33).min(by.below(33)) as u8;
    let high = low + by.below(u32::from(LENGTH_MAX - low) + 1) as u8;
    let mut maker = Maker::new(by, pools);
    let turn = 5 + maker.by.below(120);
    let calls = 80 + maker.by.below(300);
    for call in 0..calls {
        let rising = call / turn % 2 == 0;
        let length = low + maker.by.below(u32::from(high - low) + 1) as u8;
        let place = (base | maker.by.next_u32() & behind(common), length);
        maker.step(place, rising);
    }
    maker.history
}

fn wide(by: &mut Seed) -> History {
    let bases: Vec<Prefix> = (0..1 + by.below(5))
        .map(|_| (by.next_u32(), by.below(24) as u8))
        .collect();
    let mut maker = Maker::new(by, Pools::BENCH);
    for call in 0..WIDE_CALLS {
        let falling = (WIDE_CALLS / 2..=WIDE_CALLS * 5 / 6).contains(&call);
        let (base, common) = maker.by.pick(&bases);
        let key = base & !behind(common) | maker.by.next_u32() & behind(common);
        let length = common + maker.by.below(u32::from(LENGTH_MAX - common) + 1) as u8;
        maker.step((key, length), !falling);
    }
    maker.history
}

fn tiers(by: &mut Seed) -> History {
    let count = 1 + by.below(4);
    let rules = by.chance(50);
    let make = if rules {
        Nest::of_rules
    } else {
        Nest::of_children
    };
    let mut nests: Vec<Nest> = (0..count).map(|_| make(by)).collect();
    let tight = 1 + by.below(20 + 55 * count) as usize;
    let ample = 512;
    let pools = match (rules, by.chance(85)) {
        (true, true) => Pools {
            nodes: ample,
            cells: tight,
        },
        (false, true) => Pools {
            nodes: tight + 6,
            cells: ample,
        },
        _ => Pools {
            nodes: tight + 6,
            cells: tight,
        },
    };
    let mut maker = Maker::new(by, pools);
    for _ in 0..100 + maker.by.below(400) {
        let nest = maker.by.below(count) as usize;
        maker.towards(&mut nests[nest]);
        if maker.by.chance(15) {
            let place = maker.by.pick(&nests[nest].places);
            maker.look(place);
        }
    }
    maker.history
}
