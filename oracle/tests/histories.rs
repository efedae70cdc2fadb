//! Each kind of history meets what it is made for, and a seed gives the same one again.

use std::collections::BTreeSet;

use judge::desk::{Desk, Pools};
use judge::history::{history, Kind};
use judge::record::{number, Operation};
use prefix_trie::leaf;

/// Pairs of operation byte and number that a history meets with the bench program's pools.
fn met(kind: Kind, seed: u64, count: usize) -> BTreeSet<(u8, u8)> {
    let mut desk = Desk::new(Pools::BENCH);
    let records = history(kind, seed, count, Pools::BENCH);
    let answers = records
        .iter()
        .map(|record| (record[0], desk.answer(record).number));
    answers.collect()
}

#[test]
fn the_same_seed_gives_the_same_history() {
    for (_, kind) in Kind::ALL {
        let once = history(kind, 7, 200, Pools::BENCH);
        assert_eq!(once, history(kind, 7, 200, Pools::BENCH));
        assert_ne!(once, history(kind, 8, 200, Pools::BENCH));
    }
}

#[test]
fn every_kind_mixes_all_operations() {
    for (_, kind) in Kind::ALL {
        let met = met(kind, 3, 2000);
        for operation in Operation::ALL {
            for answer in [number::DONE, number::NOTHING] {
                let both = (operation as u8, answer);
                assert!(
                    met.contains(&both) || both == (1, 2),
                    "{kind:?} lacks {both:?}"
                );
            }
        }
        assert!(met.contains(&(1, number::REPLACED)), "{kind:?}");
    }
}

#[test]
fn drain_meets_refusals_for_room_and_an_empty_map() {
    let met = met(Kind::Drain, 3, 12_000);
    assert!(met.contains(&(1, number::NO_ROOM)) && met.contains(&(2, number::NO_ROOM)));
    let mut desk = Desk::new(Pools::BENCH);
    let mut emptied = 0;
    for record in history(Kind::Drain, 3, 12_000, Pools::BENCH) {
        let removed = desk.answer(&record).number == number::DONE && record[0] == 2;
        emptied += usize::from(removed && desk.image().rules == 0);
    }
    assert!(emptied >= 3, "{emptied}");
}

#[test]
fn dense_meets_every_tier_of_both_pools() {
    let mut desk = Desk::new(Pools::BENCH);
    let (mut children, mut data) = (BTreeSet::new(), BTreeSet::new());
    for record in history(Kind::Dense, 3, 2000, Pools::BENCH) {
        desk.answer(&record);
        for node in desk.image().nodes {
            children.insert(node.child_bitmap.count_ones());
            data.insert(node.data_bitmap.count_ones());
        }
    }
    assert!(children.contains(&32) && data.contains(&31));
    let tiers: BTreeSet<u32> = children.into_iter().map(leaf::child_tier).collect();
    assert_eq!(tiers.len(), 7);
    let tiers: BTreeSet<u32> = data.into_iter().map(leaf::data_tier).collect();
    assert_eq!(tiers.len(), 7);
}

#[test]
fn lengths_meets_all_lengths_and_bad_records() {
    let records = history(Kind::Lengths, 3, 2000, Pools::BENCH);
    for length in 0..=33 {
        let asked = |operation: u8| {
            let alike = |record: &[u8; 12]| record[0] == operation && record[1] == length;
            records.iter().any(alike)
        };
        assert!((1..=5).all(asked), "length {length}");
    }
    let met = met(Kind::Lengths, 3, 2000);
    assert!(met.contains(&(0, number::BAD_RECORD)) && met.contains(&(1, number::BAD_RECORD)));
    assert!(met.contains(&(1, number::TOO_LONG)) && met.contains(&(4, number::TOO_LONG)));
}
