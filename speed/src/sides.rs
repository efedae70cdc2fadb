//! The two sides: the proved map and the crate's own, each as a Rust program would call it.

use crate::rules::{Pools, Prefix};

/// One map. Answers are plain values, so that both sides' can be compared and summed.
pub trait Side {
    /// An empty map; pools are for the side that has them.
    fn new(pools: Pools) -> Self;
    fn insert(&mut self, prefix: Prefix, value: u32) -> Option<u32>;
    fn remove(&mut self, prefix: Prefix) -> Option<u32>;
    fn exact(&self, prefix: &Prefix) -> Option<u32>;
    fn longest(&self, prefix: &Prefix) -> Option<(Prefix, u32)>;
    fn shortest(&self, prefix: &Prefix) -> Option<(Prefix, u32)>;
}

/// The proved map, through the crate in `rust/`.
pub struct Ours(hestrovik::PrefixMap);

/// The plain map of prefix-trie 0.10.1.
pub struct Crate(prefix_trie::Map);

/// Said where a call is refused: every length here is at most 32 and the pools are ample.
const REFUSED: &str = "no call of the benchmark is refused";

impl Side for Ours {
    fn new(pools: Pools) -> Ours {
        Ours(hestrovik::PrefixMap::new(pools.nodes, pools.cells).expect(REFUSED))
    }

    #[inline]
    fn insert(&mut self, prefix: Prefix, value: u32) -> Option<u32> {
        self.0.insert(prefix, value).expect(REFUSED)
    }

    #[inline]
    fn remove(&mut self, prefix: Prefix) -> Option<u32> {
        self.0.remove(prefix).expect(REFUSED)
    }

    #[inline]
    fn exact(&self, prefix: &Prefix) -> Option<u32> {
        self.0.get(prefix).expect(REFUSED)
    }

    #[inline]
    fn longest(&self, prefix: &Prefix) -> Option<(Prefix, u32)> {
        plain(self.0.get_lpm(prefix).expect(REFUSED))
    }

    #[inline]
    fn shortest(&self, prefix: &Prefix) -> Option<(Prefix, u32)> {
        plain(self.0.get_spm(prefix).expect(REFUSED))
    }
}

#[inline]
fn plain(found: Option<hestrovik::Rule>) -> Option<(Prefix, u32)> {
    found.map(|(rule, value)| (rule.into(), value))
}

impl Side for Crate {
    fn new(_: Pools) -> Crate {
        Crate(prefix_trie::Map::new())
    }

    #[inline]
    fn insert(&mut self, prefix: Prefix, value: u32) -> Option<u32> {
        self.0.insert(prefix, value)
    }

    #[inline]
    fn remove(&mut self, prefix: Prefix) -> Option<u32> {
        self.0.remove(&prefix)
    }

    #[inline]
    fn exact(&self, prefix: &Prefix) -> Option<u32> {
        self.0.get(prefix).copied()
    }

    #[inline]
    fn longest(&self, prefix: &Prefix) -> Option<(Prefix, u32)> {
        self.0.get_lpm(prefix).map(|(rule, value)| (rule, *value))
    }

    #[inline]
    fn shortest(&self, prefix: &Prefix) -> Option<(Prefix, u32)> {
        self.0.get_spm(prefix).map(|(rule, value)| (rule, *value))
    }
}
