//! The judge beside a plain list of rules and the block ledger, over histories by seed.

use judge::desk::{Desk, Pools};
use judge::history::{history, Kind};
use judge::model::Model;

/// Plays one history on both sides and compares every answer, mark and free count. Hands back how
/// many inserts and removals were refused for room.
fn compare(kind: Kind, seed: u64, count: usize, pools: Pools) -> (usize, usize) {
    let mut desk = Desk::new(pools);
    let mut model = Model::new(pools);
    let mut refused = (0, 0);
    for (at, record) in history(kind, seed, count, pools).iter().enumerate() {
        let ours = desk.answer(record).encode();
        let place = format!("{kind:?} seed {seed} {pools:?} record {at} {record:02x?}");
        assert_eq!(ours, model.answer(record), "{place}");
        assert_eq!(model.shortage.is_some(), ours[0] == 4, "{place}");
        refused.0 += usize::from(ours[0] == 4 && record[0] == 1);
        refused.1 += usize::from(ours[0] == 4 && record[0] == 2);
        if record[0] > 2 {
            continue;
        }
        let image = desk.image();
        for (books, pool) in [
            (&image.node_books, &model.ledger.nodes),
            (&image.cell_books, &model.ledger.cells),
        ] {
            assert_eq!(books.mark, pool.mark, "{place}");
            assert_eq!(
                books.free.clone().map(|list| list.len()),
                pool.free,
                "{place}"
            );
        }
    }
    adds_up(&model);
    refused
}

/// Document 01: blocks in use, free blocks and unused cells sum to the pool size.
fn adds_up(model: &Model) {
    let Model { rules, ledger, .. } = model;
    let nodes = rules.nodes();
    let children = nodes
        .iter()
        .map(|(key, depth)| rules.child_count(*key, *depth));
    let data = nodes
        .iter()
        .map(|(key, depth)| rules.data_count(*key, *depth));
    assert!(ledger.nodes.sums_up(children, 1));
    assert!(ledger.cells.sums_up(data, 0));
}

/// Small pools of all shapes: the refusals for room are what this is about.
#[test]
fn small_pools() {
    const SIZES: [usize; 13] = [1, 2, 4, 7, 8, 13, 16, 25, 33, 40, 64, 100, 160];
    let mut seed = 0;
    let mut refused = (0, 0);
    for nodes in SIZES {
        for cells in SIZES {
            for (_, kind) in Kind::ALL {
                let (inserts, removals) = compare(kind, seed, 300, Pools { nodes, cells });
                refused = (refused.0 + inserts, refused.1 + removals);
                seed += 1;
            }
        }
    }
    assert!(refused.0 > 10_000 && refused.1 > 500, "{refused:?}");
}

/// Cells short, nodes ample, and the other way round.
#[test]
fn one_pool_short() {
    for seed in 0..20 {
        let tight = 20 + 9 * seed as usize;
        for (nodes, cells) in [(Pools::MAX, tight), (tight, Pools::MAX)] {
            for (_, kind) in Kind::ALL {
                compare(kind, seed, 400, Pools { nodes, cells });
            }
        }
    }
}

/// The bench program's own pools.
#[test]
fn bench_pools() {
    for seed in 0..4 {
        for (_, kind) in Kind::ALL {
            compare(kind, seed, 1500, Pools::BENCH);
        }
    }
}
