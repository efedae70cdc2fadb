//! A plain list of rules: every question is answered by going through all of them.

/// A prefix whose bits behind the length are zero.
pub type Prefix = (u32, u8);

#[derive(Clone, Default)]
pub struct Rules {
    list: Vec<(Prefix, u32)>,
}

impl Rules {
    pub fn value(&self, rule: Prefix) -> Option<u32> {
        let found = self.list.iter().find(|(other, _)| *other == rule);
        found.map(|(_, value)| *value)
    }

    /// Adds or replaces.
    pub fn store(&mut self, rule: Prefix, value: u32) {
        self.drop(rule);
        self.list.push((rule, value));
    }

    pub fn drop(&mut self, rule: Prefix) {
        self.list.retain(|(other, _)| *other != rule);
    }

    pub fn longest(&self, query: Prefix) -> Option<(Prefix, u32)> {
        self.covering(query).max_by_key(|((_, length), _)| *length)
    }

    pub fn shortest(&self, query: Prefix) -> Option<(Prefix, u32)> {
        self.covering(query).min_by_key(|((_, length), _)| *length)
    }

    fn covering(&self, query: Prefix) -> impl Iterator<Item = (Prefix, u32)> + '_ {
        let all = self.list.iter().copied();
        all.filter(move |(rule, _)| covers(*rule, query))
    }

    /// Whether the ledger has a node at this depth on the way to the key.
    pub fn has_node(&self, key: u32, depth: u8) -> bool {
        let below = |rule: &Prefix| rule.1 >= depth && top(rule.0, depth) == top(key, depth);
        depth == 0 || self.list.iter().any(|(rule, _)| below(rule))
    }

    /// Children of the node at this depth: the next depth's nodes that share its leading bits.
    pub fn child_count(&self, key: u32, depth: u8) -> usize {
        let next = depth + 5;
        let mut children: Vec<u64> = Vec::new();
        for ((other, length), _) in &self.list {
            let child = top(*other, next.min(32));
            let below = *length >= next && top(*other, depth) == top(key, depth);
            if below && !children.contains(&child) {
                children.push(child);
            }
        }
        children.len()
    }

    /// Rules that live in the node at this depth.
    pub fn data_count(&self, key: u32, depth: u8) -> usize {
        let here = |(other, length): Prefix| {
            node_depth(length) == depth && top(other, depth) == top(key, depth)
        };
        self.list.iter().filter(|(rule, _)| here(*rule)).count()
    }

    /// One rule in each node that holds data or children, with the node's depth, the root first.
    pub fn nodes(&self) -> Vec<Prefix> {
        let mut nodes = vec![(0, 0)];
        for ((key, length), _) in &self.list {
            for depth in (5..=node_depth(*length)).step_by(5) {
                let node = (masked(*key, depth), depth);
                if !nodes.contains(&node) {
                    nodes.push(node);
                }
            }
        }
        nodes
    }
}

/// Covering as RFC 4632 has it.
pub fn covers(rule: Prefix, query: Prefix) -> bool {
    rule.1 <= query.1 && top(rule.0, rule.1) == top(query.0, rule.1)
}

/// The first `length` bits as a number.
fn top(key: u32, length: u8) -> u64 {
    u64::from(key) >> (32 - length)
}

/// The key with zeros behind the length.
pub fn masked(key: u32, length: u8) -> u32 {
    (top(key, length) << (32 - length)) as u32
}

/// The depth of the node in which a length lives.
pub fn node_depth(length: u8) -> u8 {
    length / 5 * 5
}
