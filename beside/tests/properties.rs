//! Properties of the Rust crate, tried on inputs that quickcheck makes and shrinks: its calls beside a
//! `BTreeMap`, prefixes beside bits, and any words at all as a map's memory.

use std::collections::BTreeMap;

use hestrovik::boundary::State;
use hestrovik::{lengths, LentMap, Lookup, Map, Memory, Prefix, PrefixMap, Refusal};
use quickcheck::{Arbitrary, Gen, QuickCheck};

/// Pools that hold whatever a list of some hundred edits asks for.
const NODES: u32 = 4096;
const CELLS: u32 = 4096;

/// A prefix near others: few key bits, all lengths, seldom too long ones.
#[derive(Clone, Copy, Debug)]
struct Near(u32, u8);

impl Arbitrary for Near {
    fn arbitrary(g: &mut Gen) -> Near {
        let key = match u8::arbitrary(g) % 4 {
            0 => u32::arbitrary(g),
            1 => 0x0A00_0100 | (u32::arbitrary(g) % 64),
            2 => 1 << (u32::arbitrary(g) % 32),
            _ => (u32::arbitrary(g) % 8) << 29,
        };
        let length = match u8::arbitrary(g) % 16 {
            0 => u8::arbitrary(g),
            length if length < 8 => [0, 1, 4, 5, 27, 30, 31, 32][usize::from(length)],
            _ => u8::arbitrary(g) % 33,
        };
        Near(key, length)
    }

    fn shrink(&self) -> Box<dyn Iterator<Item = Near>> {
        let pair = (self.0, self.1).shrink();
        Box::new(pair.map(|(key, length)| Near(key, length)))
    }
}

#[derive(Clone, Debug)]
enum Step {
    Insert(Near, u32),
    Remove(Near),
    Look(Near),
    Clear,
    Resume,
}

impl Arbitrary for Step {
    fn arbitrary(g: &mut Gen) -> Step {
        let near = Near::arbitrary(g);
        match u8::arbitrary(g) % 32 {
            0 => Step::Resume,
            1 if u8::arbitrary(g) % 8 == 0 => Step::Clear,
            2..=14 => Step::Insert(near, u32::arbitrary(g)),
            15..=22 => Step::Remove(near),
            _ => Step::Look(near),
        }
    }

    fn shrink(&self) -> Box<dyn Iterator<Item = Step>> {
        match self.clone() {
            Step::Insert(near, value) => {
                Box::new(near.shrink().map(move |n| Step::Insert(n, value)))
            }
            Step::Remove(near) => Box::new(near.shrink().map(Step::Remove)),
            Step::Look(near) => Box::new(near.shrink().map(Step::Look)),
            Step::Clear | Step::Resume => Box::new(std::iter::empty()),
        }
    }
}

type Model = BTreeMap<Prefix, u32>;

/// The covering rules, the shortest first.
fn covering(model: &Model, query: Prefix) -> Vec<(Prefix, u32)> {
    let rules = model.iter().map(|(rule, value)| (*rule, *value));
    let mut rules: Vec<_> = rules.filter(|(rule, _)| rule.contains(query)).collect();
    rules.sort_by_key(|(rule, _)| rule.prefix_len());
    rules
}

/// How many nodes a lookup meets: depths up to a length at which some rule has those leading bits.
fn nodes(model: &Model, query: Prefix, end: u8) -> u32 {
    let node = |depth: u8| {
        let place = Prefix::new(query.key(), depth);
        depth == 0 || model.keys().any(|rule| place.contains(*rule))
    };
    (0..=end).step_by(5).filter(|depth| node(*depth)).count() as u32
}

fn looks_right<M: std::ops::DerefMut<Target = [u32]>>(
    map: &Map<M>,
    model: &Model,
    query: Prefix,
) -> bool {
    let rules = covering(model, query);
    let own = model.get(&query).map(|value| (query, *value));
    let (shortest, longest) = (rules.first().copied(), rules.last().copied());
    let end = query.prefix_len();
    let lookup = |rule, end| {
        let nodes = nodes(model, query, end);
        Ok(Lookup { rule, nodes })
    };
    map.exact(query) == lookup(own, end)
        && map.longest(query) == lookup(longest, end)
        && map.shortest(query)
            == lookup(
                shortest,
                shortest.map_or(end, |(rule, _)| rule.prefix_len()),
            )
        && map.get(query) == Ok(own.map(|(_, value)| value))
        && map.get_key_value(query) == Ok(own)
        && map.contains_key(query) == Ok(own.is_some())
        && map.get_lpm(query) == Ok(longest)
        && map.get_spm(query) == Ok(shortest)
        && map.len() == model.len()
        && map.is_empty() == model.is_empty()
}

fn like_a_btree_map(steps: Vec<Step>) -> bool {
    let mut map = PrefixMap::new(NODES, CELLS).unwrap();
    let mut model = Model::new();
    for step in steps {
        let (near, right) = match step {
            Step::Insert(near, value) => {
                let prefix = Prefix::new(near.0, near.1);
                let refused = near.1 > 32;
                let old = (!refused).then(|| model.insert(prefix, value));
                // Both ways in: the prefix, and the pair with its bits behind the length.
                (
                    near,
                    map.insert((near.0, near.1), value) == old.ok_or(Refusal::TooLong),
                )
            }
            Step::Remove(near) => {
                let prefix = Prefix::new(near.0, near.1);
                let old = (near.1 <= 32).then(|| model.remove(&prefix));
                (near, map.remove(prefix) == old.ok_or(Refusal::TooLong))
            }
            Step::Look(near) => (near, true),
            Step::Clear => {
                model.clear();
                (Near(0, 32), map.clear() == Ok(()))
            }
            Step::Resume => {
                let (state, memory) = map.into_parts();
                map = PrefixMap::resume(state, memory);
                (Near(0, 0), true)
            }
        };
        let query = Prefix::new(near.0, near.1);
        let looked = match near.1 {
            0..=32 => looks_right(&map, &model, query),
            _ => map.get_lpm(query) == Err(Refusal::TooLong),
        };
        if !right || !looked {
            return false;
        }
    }
    true
}

/// Small pools: a refused edit leaves every word, and whatever was accepted is as in the model.
fn refusals_leave_everything(nodes: u8, cells: u8, steps: Vec<Step>) -> bool {
    let (n, d) = (1 + u32::from(nodes % 40), 1 + u32::from(cells % 20));
    let mut map = PrefixMap::new(n, d).unwrap();
    let mut model = Model::new();
    for step in steps {
        let before = map.clone().into_parts();
        let edit = match step {
            Step::Insert(near, value) => {
                let done = map.insert((near.0, near.1), value);
                done.map(|old| model.insert(Prefix::new(near.0, near.1), value) == old)
            }
            Step::Remove(near) => {
                let done = map.remove((near.0, near.1));
                done.map(|old| model.remove(&Prefix::new(near.0, near.1)) == old)
            }
            Step::Look(near) if near.1 <= 32 => {
                Ok(looks_right(&map, &model, Prefix::new(near.0, near.1)))
            }
            _ => Ok(true),
        };
        let right = match edit {
            Ok(right) => right,
            Err(_) => map.clone().into_parts() == before,
        };
        if !right {
            return false;
        }
    }
    true
}

/// Any state and any words, of any lengths: every call answers, and a refusal changes nothing.
fn any_memory_is_answered(state: Vec<u32>, four: (Words, Words, Words, Words), near: Near) -> bool {
    let state = any_state(&state, &four);
    let mut slices = [four.0 .0, four.1 .0, four.2 .0, four.3 .0];
    let before = slices.clone();
    let [nodes, cells, node_free, cell_free] = &mut slices;
    let memory = Memory {
        nodes: &mut nodes[..],
        cells: &mut cells[..],
        node_free: &mut node_free[..],
        cell_free: &mut cell_free[..],
    };
    let mut map = LentMap::resume(state, memory);
    let query = (near.0, near.1);
    let looked = [map.exact(query), map.longest(query), map.shortest(query)];
    let covers = looked.iter().flatten().all(|lookup| {
        let covers = |rule: Prefix| rule.contains(Prefix::from(query));
        lookup.rule.is_none_or(|(rule, _)| covers(rule)) && (1..=7).contains(&lookup.nodes)
    });
    let removed = map.remove(query);
    let kept = map.state() == state || matches!(removed, Ok(Some(_)));
    let refused = removed.is_err() && {
        let again = map.insert(query, 1);
        again.is_err() && map.state() == state
    };
    covers && kept && (!refused || slices == before)
}

/// A short row of words, many of them small.
#[derive(Clone, Debug)]
struct Words(Vec<u32>);

impl Arbitrary for Words {
    fn arbitrary(g: &mut Gen) -> Words {
        let length = [0, 1, 4, 8, 12, 15, 16, 32, 64][usize::arbitrary(g) % 9];
        let word = |g: &mut Gen| match u8::arbitrary(g) % 4 {
            0 => u32::MAX,
            1 => u32::arbitrary(g),
            _ => u32::arbitrary(g) % 9,
        };
        Words((0..length).map(|_| word(g)).collect())
    }
}

/// A state of these words; its sizes mostly fit the slices.
fn any_state(words: &[u32], four: &(Words, Words, Words, Words)) -> State {
    let word = |at: usize| words.get(at).copied().unwrap_or(0);
    let (nodes, cells) = (four.0 .0.len() as u32 / 4, four.1 .0.len() as u32);
    State {
        node_size: if word(0) % 8 == 0 { word(1) } else { nodes },
        node_mark: word(2) % 20,
        cell_size: if word(3) % 8 == 0 { word(4) } else { cells },
        cell_mark: word(5) % 20,
        rules: word(6) % 20,
        ..State::default()
    }
}

/// A prefix's key has zeros behind its length, and covering is what the bits say.
fn prefixes_are_bits(a: Near, b: Near) -> bool {
    let (one, other) = (Prefix::new(a.0, a.1), Prefix::new(b.0, b.1));
    let bit = |key: u32, at: u8| key >> (31 - at) & 1;
    let masked =
        a.1 > 32 || (0..32).all(|at| bit(one.key(), at) == if at < a.1 { bit(a.0, at) } else { 0 });
    let covers = a.1 <= b.1 && b.1 <= 32 && (0..a.1.min(32)).all(|at| bit(a.0, at) == bit(b.0, at));
    masked && one.contains(other) == covers && Prefix::from(<(u32, u8)>::from(one)) == one
}

/// Exactly the right lengths start a map.
fn lengths_decide(nodes: u8, cells: u8, off: [i8; 4]) -> bool {
    let (n, d) = (u32::from(nodes), u32::from(cells));
    let right = [
        lengths::nodes(n),
        lengths::cells(d),
        lengths::node_free(n),
        lengths::cell_free(d),
    ];
    let mut off = off.map(|by| isize::from(by % 2)).into_iter();
    let lent = right.map(|length| length.saturating_add_signed(off.next().unwrap_or(0)));
    let [mut nodes, mut cells, mut node_free, mut cell_free] = lent.map(|length| vec![7; length]);
    let memory = Memory {
        nodes: &mut nodes[..],
        cells: &mut cells[..],
        node_free: &mut node_free[..],
        cell_free: &mut cell_free[..],
    };
    let started = LentMap::fresh(memory, n, d);
    let fits = lent == right && n > 0 && d > 0;
    started.map(|map| map.len())
        == if fits {
            Ok(0)
        } else {
            Err(Refusal::WrongSlices)
        }
}

fn checker(tests: u64) -> QuickCheck {
    QuickCheck::new()
        .tests(tests)
        .max_tests(tests)
        .gen(Gen::new(160))
}

#[test]
fn the_map_is_like_a_btree_map() {
    checker(500).quickcheck(like_a_btree_map as fn(Vec<Step>) -> bool);
}

#[test]
fn a_refusal_leaves_everything() {
    checker(2000).quickcheck(refusals_leave_everything as fn(u8, u8, Vec<Step>) -> bool);
}

#[test]
fn any_memory() {
    checker(20_000).quickcheck(
        any_memory_is_answered as fn(Vec<u32>, (Words, Words, Words, Words), Near) -> bool,
    );
}

#[test]
fn prefixes() {
    checker(20_000).quickcheck(prefixes_are_bits as fn(Near, Near) -> bool);
}

#[test]
fn starts() {
    fn property(nodes: u8, cells: u8, a: (i8, i8), b: (i8, i8)) -> bool {
        // Without an offset in a good part of the tries.
        let off = if a.0 % 3 == 0 {
            [0; 4]
        } else {
            [a.0, a.1, b.0, b.1]
        };
        lengths_decide(nodes, cells, off)
    }
    checker(1000).quickcheck(property as fn(u8, u8, (i8, i8), (i8, i8)) -> bool);
}
