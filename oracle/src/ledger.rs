//! The block ledger of document 01: counts of blocks, no block starts, no order of writes.

use crate::rules::{node_depth, Prefix, Rules};

/// How many sizes of blocks a pool has.
pub const TIERS: usize = 7;

/// One of the two pools.
#[derive(Clone, Copy, Debug, PartialEq, Eq)]
pub enum Kind {
    Nodes,
    Cells,
}

/// A block that an edit needs and that its pool can't supply.
#[derive(Clone, Copy, Debug, PartialEq, Eq)]
pub struct Shortage {
    pub pool: Kind,
    pub tier: usize,
}

/// One pool's account.
#[derive(Clone, Debug, PartialEq, Eq)]
pub struct Pool {
    kind: Kind,
    spacings: [usize; TIERS],
    size: usize,
    pub mark: usize,
    pub free: [usize; TIERS],
}

impl Pool {
    fn new(kind: Kind, last_spacing: usize, size: usize, mark: usize) -> Pool {
        Pool {
            kind,
            spacings: [1, 2, 4, 8, 16, 24, last_spacing],
            size,
            mark,
            free: [0; TIERS],
        }
    }

    fn tier(&self, count: usize) -> usize {
        let holding = self.spacings.iter().position(|spacing| *spacing >= count);
        holding.expect("no count is above the last spacing")
    }

    /// What the unused end must supply for one block of a tier.
    fn end_supplies(&self, tier: usize) -> usize {
        if self.free[tier] > 0 {
            0
        } else {
            self.spacings[tier]
        }
    }

    /// Whether the unused end holds so many; if not, a block of this tier is what is lacking.
    fn end_holds(&self, cells: usize, tier: usize) -> Result<(), Shortage> {
        if self.mark + cells <= self.size {
            return Ok(());
        }
        let pool = self.kind;
        Err(Shortage { pool, tier })
    }

    fn take(&mut self, tier: usize) {
        self.mark += self.end_supplies(tier);
        self.free[tier] = self.free[tier].saturating_sub(1);
    }

    fn give(&mut self, tier: usize) {
        self.free[tier] += 1;
    }

    /// Cells of the blocks in use for these counts, of free blocks, and never issued: the size.
    pub fn sums_up(&self, in_use: impl Iterator<Item = usize>, fixed: usize) -> bool {
        let used: usize = in_use
            .filter(|count| *count > 0)
            .map(|count| self.spacings[self.tier(count)])
            .sum();
        let free: usize = (0..TIERS)
            .map(|tier| self.free[tier] * self.spacings[tier])
            .sum();
        fixed + used + free + (self.size - self.mark) == self.size
    }
}

#[derive(Clone, Debug, PartialEq, Eq)]
pub struct Ledger {
    pub nodes: Pool,
    pub cells: Pool,
}

impl Ledger {
    pub fn new(nodes: usize, cells: usize) -> Ledger {
        Ledger {
            nodes: Pool::new(Kind::Nodes, 32, nodes, 1),
            cells: Pool::new(Kind::Cells, 31, cells, 0),
        }
    }

    /// Books the insert of a prefix that isn't stored, where there is room.
    pub fn insert(&mut self, rules: &Rules, (key, length): Prefix) -> Result<(), Shortage> {
        let depth = node_depth(length);
        let missing = (0..=depth)
            .step_by(5)
            .filter(|depth| !rules.has_node(key, *depth));
        let missing = missing.count();
        let lowest = depth - 5 * missing as u8;
        let children = rules.child_count(key, lowest);
        let data = rules.data_count(key, depth);
        self.node_room(missing, children)?;
        self.data_room(data)?;
        self.add_nodes(missing, children);
        let old = self.cells.tier(data);
        let new = self.cells.tier(data + 1);
        if data == 0 {
            self.cells.take(new);
        } else if new > old {
            self.cells.take(new);
            self.cells.give(old);
        }
        Ok(())
    }

    fn node_room(&self, missing: usize, children: usize) -> Result<(), Shortage> {
        let nodes = &self.nodes;
        if missing == 0 {
            return Ok(());
        }
        if children == 0 {
            return nodes.end_holds(missing.saturating_sub(nodes.free[0]), 0);
        }
        let (old, new) = (nodes.tier(children), nodes.tier(children + 1));
        let mut singles = nodes.free[0];
        let mut end = 0;
        if new > old {
            end += nodes.end_supplies(new);
            nodes.end_holds(end, new)?;
            singles += usize::from(old == 0);
        }
        end += (missing - 1).saturating_sub(singles);
        nodes.end_holds(end, 0)
    }

    fn data_room(&self, data: usize) -> Result<(), Shortage> {
        let cells = &self.cells;
        let new = cells.tier(data + 1);
        let needs = data == 0 || new > cells.tier(data);
        let end = if needs { cells.end_supplies(new) } else { 0 };
        cells.end_holds(end, new)
    }

    fn add_nodes(&mut self, missing: usize, children: usize) {
        let nodes = &mut self.nodes;
        let mut singles = missing;
        if missing > 0 && children > 0 {
            singles -= 1;
            let (old, new) = (nodes.tier(children), nodes.tier(children + 1));
            if new > old {
                nodes.take(new);
                nodes.give(old);
            }
        }
        for _ in 0..singles {
            nodes.take(0);
        }
    }

    /// Books the removal of a stored prefix, `after` being the rules without it, where there is room.
    pub fn remove(
        &mut self,
        rules: &Rules,
        after: &Rules,
        (key, length): Prefix,
    ) -> Result<(), Shortage> {
        let depth = node_depth(length);
        let data = rules.data_count(key, depth);
        let emptied = (0..=depth)
            .step_by(5)
            .filter(|depth| !after.has_node(key, *depth));
        let emptied = emptied.count();
        let parent = depth - 5 * emptied as u8;
        let children = rules.child_count(key, parent);
        let mut cells = self.cells.clone();
        let mut nodes = self.nodes.clone();
        shrink(&mut cells, data)?;
        if emptied > 0 {
            for _ in 1..emptied {
                nodes.give(0);
            }
            shrink(&mut nodes, children)?;
        }
        (self.nodes, self.cells) = (nodes, cells);
        Ok(())
    }
}

/// A count falls by one: to 0 it returns its block, to a lower tier it needs the smaller one first.
fn shrink(pool: &mut Pool, count: usize) -> Result<(), Shortage> {
    let (old, new) = (pool.tier(count), pool.tier(count - 1));
    if count > 1 && new < old {
        pool.end_holds(pool.end_supplies(new), new)?;
        pool.take(new);
    }
    if count == 1 || new < old {
        pool.give(old);
    }
    Ok(())
}
