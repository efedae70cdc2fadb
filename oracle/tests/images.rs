//! The crate's memory after every edit: no block twice, none lost, and nothing moved by a refusal.

use judge::desk::{Desk, Pools};
use judge::history::{history, Kind};
use judge::record::{number, Operation, Record};
use prefix_trie::image::{Books, Image};
use prefix_trie::leaf;

/// Marks a block's places as taken, each for the first time.
fn lay(taken: &mut [bool], start: u32, spacing: u32) {
    for place in start..start + spacing {
        let was = std::mem::replace(&mut taken[place as usize], true);
        assert!(!was, "place {place} lies in two blocks");
    }
}

/// Lays the blocks in use and the free ones; together they are the issued part.
fn fills(
    books: &Books,
    in_use: &[(Option<u32>, u32)],
    tier: fn(u32) -> u32,
    spacing: fn(u32) -> u32,
) {
    let mut taken = vec![false; books.mark];
    for (start, count) in in_use {
        assert_eq!(
            start.is_some(),
            *count > 0,
            "an index beside an empty bitmap"
        );
        if let Some(start) = start {
            lay(&mut taken, *start, spacing(tier(*count)));
        }
    }
    for (tier, starts) in (0..).zip(&books.free) {
        for start in starts {
            lay(&mut taken, *start, spacing(tier));
        }
    }
    assert!(taken.iter().all(|place| *place), "a place is lost");
}

fn sound(image: &Image) {
    let children = image
        .nodes
        .iter()
        .map(|node| (node.children_idx, node.child_bitmap.count_ones()));
    let data = image
        .nodes
        .iter()
        .map(|node| (node.data_idx, node.data_bitmap.count_ones()));
    // The root is a block of one that no index names.
    let children: Vec<_> = [(Some(0), 1)].into_iter().chain(children).collect();
    let data: Vec<_> = data.collect();
    fills(
        &image.node_books,
        &children,
        leaf::child_tier,
        leaf::child_spacing,
    );
    fills(
        &image.cell_books,
        &data,
        leaf::data_tier,
        leaf::data_spacing,
    );
    assert_eq!(image.cells.len(), image.rules);
    for node in &image.nodes[1..] {
        assert!(node.data_bitmap | node.child_bitmap != 0, "an empty node");
    }
}

#[test]
fn blocks_fill_the_issued_part_after_every_edit() {
    for seed in 0..12 {
        let nodes = 10 + 13 * seed as usize;
        let cells = 7 + 11 * (seed as usize % 5);
        for (_, kind) in Kind::ALL {
            let pools = Pools { nodes, cells };
            let mut desk = Desk::new(pools);
            let mut before = desk.image();
            for record in history(kind, seed, 300, pools) {
                let answer = desk.answer(&record);
                let after = desk.image();
                sound(&after);
                if !matches!(answer.number, number::DONE | number::REPLACED) || record[0] > 2 {
                    assert_eq!(before, after, "{record:02x?} was no edit");
                }
                before = after;
            }
        }
    }
}

/// Marks before and after the last of these inserts, with ample pools.
fn marks_around_the_last(rules: &[(u32, u8)]) -> [(usize, usize); 2] {
    let mut desk = Desk::new(Pools::BENCH);
    let marks = rules.iter().map(|(key, length)| {
        assert_eq!(insert(&mut desk, *key, *length), number::DONE);
        let image = desk.image();
        (image.node_books.mark, image.cell_books.mark)
    });
    let marks: Vec<_> = marks.collect();
    [marks[marks.len() - 2], marks[marks.len() - 1]]
}

fn insert(desk: &mut Desk, key: u32, length: u8) -> u8 {
    let operation = Operation::Insert;
    let value = 1;
    let record = Record {
        operation,
        length,
        key,
        value,
    };
    desk.call(record).number
}

/// What the last of these inserts gets with just such pools.
fn last_number(rules: &[(u32, u8)], (nodes, cells): (usize, usize)) -> u8 {
    let mut desk = Desk::new(Pools { nodes, cells });
    let numbers = rules
        .iter()
        .map(|(key, length)| insert(&mut desk, *key, *length));
    numbers.last().expect("there is an insert")
}

/// A /32 beside 24 children of the root, no single block free: a block of 32 and five singles.
#[test]
fn the_insert_that_issues_most_nodes() {
    let mut rules: Vec<(u32, u8)> = (0..24).map(|child| (child << 27, 5)).collect();
    rules.extend([(0, 10), (24 << 27, 32)]);
    let [before, after] = marks_around_the_last(&rules);
    assert_eq!(after.0 - before.0, 37);
    assert_eq!(last_number(&rules, (after.0, 2048)), number::DONE);
    assert_eq!(last_number(&rules, (after.0 - 1, 2048)), number::NO_ROOM);
}

/// A twenty-fifth rule in one node: a block of 31.
#[test]
fn the_insert_that_issues_most_cells() {
    let fourth = (0..16).map(|bits| (bits << 28, 4));
    let third = (0..8).map(|bits| (bits << 29, 3));
    let rules: Vec<(u32, u8)> = fourth.chain(third).chain([(0, 0)]).collect();
    let [before, after] = marks_around_the_last(&rules);
    assert_eq!(after.1 - before.1, 31);
    assert_eq!(last_number(&rules, (1024, after.1)), number::DONE);
    assert_eq!(last_number(&rules, (1024, after.1 - 1)), number::NO_ROOM);
}
