//! Where the rules of a history lie: the places that a kind keeps to.

use crate::record::LENGTH_MAX;
use crate::seed::Seed;

/// A key and a length; bits behind the length are zero in every place.
pub type Prefix = (u32, u8);

/// The bits behind a length; none behind 32 and above.
pub fn behind(length: u8) -> u32 {
    u32::MAX.checked_shr(length.into()).unwrap_or(0)
}

/// All data places of one node, and two places in each of its 32 children.
pub fn one_node(seed: &mut Seed) -> Vec<Prefix> {
    let depth = 5 * seed.below(6) as u8;
    let base = seed.next_u32() & !behind(depth);
    let mut places = Vec::new();
    for level in 0..5 {
        let length = depth + level;
        for bits in 0..1u32 << level {
            places.push((base | shifted(bits, length), length));
        }
    }
    for child in 0..32 {
        let length = depth + 5;
        let key = base | shifted(child, length);
        places.push((key, length));
        let longer = length + 1 + seed.below(4.min(u32::from(LENGTH_MAX - length))) as u8;
        let inner = seed.next_u32() & behind(length) & !behind(longer);
        places.push((key | inner, longer));
    }
    places
}

/// The bits moved so that the last of them ends a prefix of this length.
fn shifted(bits: u32, length: u8) -> u32 {
    bits.checked_shl(u32::from(LENGTH_MAX - length))
        .unwrap_or(0)
}

/// All lengths along a key and along two that part from it somewhere.
pub fn chains(seed: &mut Seed) -> Vec<Prefix> {
    let first = seed.next_u32();
    let keys = [
        first,
        first ^ 1 << seed.below(32),
        first ^ 1 << seed.below(32),
    ];
    let along = |key: u32| (0..=LENGTH_MAX).map(move |length| (key & !behind(length), length));
    keys.into_iter().flat_map(along).collect()
}

/// Places to crowd below: the whole space, which takes nodes, and some prefixes of 10 to 27 bits,
/// which take cells.
pub fn bases(seed: &mut Seed) -> Vec<Prefix> {
    let mut places = vec![(0, 0); 3];
    for _ in 0..4 {
        let length = 10 + seed.below(18) as u8;
        places.push((seed.next_u32() & !behind(length), length));
    }
    places
}
