//! Every refusal on both sides of its mark, with the map that owns its pools and the one that borrows
//! them; and that a refused call leaves every word.

use hestrovik::boundary::State;
use hestrovik::{lengths, LentMap, Map, Memory, Prefix, PrefixMap, Refusal};

const HELD: u32 = 0x0A00_0113;

/// The words of a map, to be compared.
fn words<M: std::ops::DerefMut<Target = [u32]>>(map: &Map<M>) -> (State, [Vec<u32>; 4]) {
    let memory = map.memory();
    let four = [
        &memory.nodes,
        &memory.cells,
        &memory.node_free,
        &memory.cell_free,
    ];
    (map.state(), four.map(|slice| slice.to_vec()))
}

/// Vectors to lend, each so many words longer or shorter than it must be.
fn lend(nodes: u32, cells: u32, off: [isize; 4]) -> [Vec<u32>; 4] {
    let right = [
        lengths::nodes(nodes),
        lengths::cells(cells),
        lengths::node_free(nodes),
        lengths::cell_free(cells),
    ];
    let mut off = off.into_iter();
    right.map(|length| vec![9; length.saturating_add_signed(off.next().unwrap_or(0))])
}

fn memory(four: &mut [Vec<u32>; 4]) -> Memory<&mut [u32]> {
    let [nodes, cells, node_free, cell_free] = four;
    Memory {
        nodes,
        cells,
        node_free,
        cell_free,
    }
}

/// A map with these rules, each of value 1.
fn map(nodes: u32, cells: u32, rules: &[(u32, u8)]) -> PrefixMap {
    let mut map = PrefixMap::new(nodes, cells).unwrap();
    for rule in rules {
        assert_eq!(map.insert(rule, 1), Ok(None), "{rule:?}");
    }
    map
}

#[test]
fn lengths_32_and_33() {
    let mut map = map(8, 8, &[(0, 0)]);
    assert_eq!(map.insert((HELD, 32), 2), Ok(None));
    let before = words(&map);
    for length in [33, 34, 128, 255] {
        let long = Prefix::new(HELD, length);
        assert_eq!(map.insert(long, 3), Err(Refusal::TooLong));
        assert_eq!(map.remove(long), Err(Refusal::TooLong));
        assert_eq!(map.get(long), Err(Refusal::TooLong));
        assert_eq!(map.get_key_value(long), Err(Refusal::TooLong));
        assert_eq!(map.contains_key(long), Err(Refusal::TooLong));
        assert_eq!(map.get_lpm(long), Err(Refusal::TooLong));
        assert_eq!(map.get_spm(long), Err(Refusal::TooLong));
        assert_eq!(map.exact(long), Err(Refusal::TooLong));
        assert_eq!(map.longest(long), Err(Refusal::TooLong));
        assert_eq!(map.shortest(long), Err(Refusal::TooLong));
    }
    assert_eq!(words(&map), before);
    assert_eq!(map.get((HELD, 32)), Ok(Some(2)));
    assert_eq!(map.remove((HELD, 32)), Ok(Some(2)));
}

#[test]
fn pool_sizes_1_and_65536() {
    let wrong = Some(Refusal::WrongSlices);
    for (nodes, cells) in [(1, 1), (65_536, 1), (1, 65_536), (65_536, 65_536)] {
        let map = PrefixMap::new(nodes, cells).unwrap();
        assert_eq!((map.len(), map.is_empty()), (0, true));
        assert_eq!(
            (map.state().node_size, map.state().cell_size),
            (nodes, cells)
        );
    }
    for (nodes, cells) in [
        (0, 1),
        (1, 0),
        (65_537, 1),
        (1, 65_537),
        (u32::MAX, u32::MAX),
    ] {
        assert_eq!(PrefixMap::new(nodes, cells).err(), wrong);
    }
    // The library says the same where the slices would fit such a size.
    for (nodes, cells) in [(0, 1), (1, 0), (65_537, 1), (1, 65_537)] {
        let mut four = lend(nodes, cells, [0; 4]);
        assert_eq!(LentMap::fresh(memory(&mut four), nodes, cells).err(), wrong);
        assert!(four.iter().flatten().all(|word| *word == 9));
    }
}

#[test]
fn lent_slices_by_one_word() {
    let (nodes, cells) = (8, 8);
    let mut four = lend(nodes, cells, [0; 4]);
    assert!(LentMap::fresh(memory(&mut four), nodes, cells).is_ok());
    for slice in 0..4 {
        for by in [-1, 1] {
            let mut off = [0; 4];
            off[slice] = by;
            let mut four = lend(nodes, cells, off);
            let refused = LentMap::fresh(memory(&mut four), nodes, cells);
            assert_eq!(
                refused.err(),
                Some(Refusal::WrongSlices),
                "slice {slice} off by {by}"
            );
            assert!(four.iter().flatten().all(|word| *word == 9));
        }
    }
}

/// A map that goes on over slices of another length: edits use all four, lookups nodes and cells.
#[test]
fn resumed_over_other_slices() {
    let (state, right) = map(8, 8, &[(HELD, 27)]).into_parts();
    let four = [right.nodes, right.cells, right.node_free, right.cell_free];
    for slice in 0..4 {
        let mut four = four.clone().map(|words| words.to_vec());
        four[slice].push(0);
        let before = four.clone();
        let mut map = LentMap::resume(state, memory(&mut four));
        assert_eq!(map.insert((HELD, 32), 1), Err(Refusal::WrongSlices));
        assert_eq!(map.remove((HELD, 27)), Err(Refusal::WrongSlices));
        assert_eq!(map.clear(), Err(Refusal::WrongSlices));
        let lookup = if slice < 2 {
            Err(Refusal::WrongSlices)
        } else {
            Ok(Some(1))
        };
        assert_eq!(map.get((HELD, 27)), lookup);
        assert_eq!(map.state(), state);
        assert_eq!(four, before);
    }
}

/// The all-zero state, over any memory.
#[test]
fn the_state_of_a_refused_start() {
    let mut map = PrefixMap::resume(State::default(), map(8, 8, &[]).into_parts().1);
    assert_eq!(map.insert((0, 0), 1), Err(Refusal::WrongSlices));
    assert_eq!(map.remove((0, 0)), Err(Refusal::WrongSlices));
    assert_eq!(map.get((0, 0)), Err(Refusal::WrongSlices));
    assert_eq!(map.clear(), Err(Refusal::WrongSlices));
    assert_eq!(map.len(), 0);
}

/// Takes all of these rules, then with smaller pools all but the last.
fn last_is_refused(rules: &[(u32, u8)], just: (u32, u32), short: (u32, u32)) {
    map(just.0, just.1, rules);
    let (first, last) = rules.split_at(rules.len() - 1);
    let mut short = map(short.0, short.1, first);
    let before = words(&short);
    assert_eq!(short.insert(last[0], 1), Err(Refusal::NoRoom), "{rules:?}");
    assert_eq!(words(&short), before);
}

#[test]
fn room_at_inserts() {
    last_is_refused(&[(HELD, 32)], (7, 1), (6, 1));
    last_is_refused(&[(0, 5)], (2, 1), (1, 1));
    last_is_refused(&[(0, 32), (0x8000_0000, 32)], (13, 2), (12, 2));
    last_is_refused(&[(HELD - 1, 32), (HELD, 32)], (7, 3), (7, 2));
    last_is_refused(&[(0, 0), (0, 5)], (2, 2), (2, 1));
}

/// A removal that leaves contents for a smaller block, with and without room for it.
#[test]
fn room_at_removals() {
    let node_rules = [(0, 5), (0x0800_0000, 5), (0, 10)];
    let cell_rules = [(0, 0), (0, 1), (0, 2), (0, 5), (0, 6)];
    let mut ample = map(5, 4, &node_rules);
    assert_eq!(ample.remove((0x0800_0000, 5)), Ok(Some(1)));
    let mut ample = map(2, 9, &cell_rules);
    assert_eq!(ample.remove((0, 1)), Ok(Some(1)));
    for (mut short, rule) in [
        (map(4, 4, &node_rules), (0x0800_0000, 5)),
        (map(2, 7, &cell_rules), (0, 1)),
    ] {
        let before = words(&short);
        assert_eq!(short.remove(rule), Err(Refusal::NoRoom));
        assert_eq!(words(&short), before);
    }
}

/// One word of the memory or the state changed by somebody else.
#[test]
fn broken_memory() {
    const DATA_IDX: usize = 3;
    let sound = map(4, 4, &[(0, 5)]);
    assert_eq!(sound.get((0, 5)), Ok(Some(1)));

    let (state, mut memory) = sound.clone().into_parts();
    memory.nodes[DATA_IDX] = 0; // the root has no rule, its index isn't empty
    refuses_as_broken(PrefixMap::resume(state, memory));

    for change in [
        |state: &mut State| state.node_mark = 5,
        |state: &mut State| state.cell_mark = 5,
        |state: &mut State| state.node_free[0] = 5,
        |state: &mut State| state.cell_free[6] = 1,
        |state: &mut State| state.rules = 5,
    ] {
        let (mut state, memory) = sound.clone().into_parts();
        change(&mut state);
        refuses_as_broken(PrefixMap::resume(state, memory));
    }

    // At the marks themselves nothing is broken.
    let (mut state, memory) = sound.into_parts();
    (state.node_mark, state.cell_mark, state.rules) = (4, 4, 4);
    assert_eq!(PrefixMap::resume(state, memory).get((0, 5)), Ok(Some(1)));
}

fn refuses_as_broken(mut map: PrefixMap) {
    let before = words(&map);
    assert_eq!(map.insert((0, 5), 2), Err(Refusal::Broken));
    assert_eq!(map.remove((0, 5)), Err(Refusal::Broken));
    assert_eq!(map.get((0, 5)), Err(Refusal::Broken));
    assert_eq!(map.get_lpm((0, 5)), Err(Refusal::Broken));
    assert_eq!(map.get_spm((0, 5)), Err(Refusal::Broken));
    assert_eq!(words(&map), before);
    // A fresh start writes every word, so it mends the map.
    assert_eq!(map.clear(), Ok(()));
    assert_eq!(map.insert((0, 5), 2), Ok(None));
}

/// The lent map answers like the one that owns its pools, word for word.
#[test]
fn lent_and_owned_alike() {
    let mut owned = PrefixMap::new(16, 16).unwrap();
    let mut four = lend(16, 16, [0; 4]);
    let mut lent = LentMap::fresh(memory(&mut four), 16, 16).unwrap();
    for step in 0..200u32 {
        let rule = (step.wrapping_mul(0x9E37_79B9), (step % 35) as u8);
        if step % 3 == 2 {
            assert_eq!(owned.remove(rule), lent.remove(rule));
        } else {
            assert_eq!(owned.insert(rule, step), lent.insert(rule, step));
        }
        assert_eq!(owned.longest(rule), lent.longest(rule));
        assert_eq!(words(&owned), words(&lent));
        assert_eq!(owned.len(), lent.len());
    }
}

/// Maps can go to another thread and be looked at from several.
#[test]
fn threads() {
    fn passes<T: Send + Sync>(_: &T) {}
    let map = map(8, 8, &[(HELD, 27)]);
    passes(&map);
    std::thread::scope(|scope| {
        for _ in 0..2 {
            scope.spawn(|| assert_eq!(map.get((HELD, 27)), Ok(Some(1))));
        }
    });
}
