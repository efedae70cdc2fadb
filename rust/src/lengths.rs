//! How long the four slices of a map are, for so many nodes and cells.
//!
//! All are `const`, so that memory can be set aside at compile time:
//!
//! ```
//! use hestrovik::lengths;
//!
//! const NODES: u32 = 64;
//! let nodes = [0u32; lengths::nodes(NODES)];
//! let node_free = [0u32; lengths::node_free(NODES)];
//! assert_eq!((nodes.len(), node_free.len()), (256, 128));
//! ```

/// The largest size of either pool; the smallest is 1.
pub const POOL_MAX: u32 = 65_536;

/// Words of one node.
pub const NODE_WORDS: usize = 4;

/// The block sizes that both pools have; the seventh is each pool's own.
const SPACINGS: [usize; 6] = [1, 2, 4, 8, 16, 24];

/// The largest block of nodes: a node has at most 32 children.
const MOST_CHILDREN: usize = 32;

/// The largest block of cells: a node has at most 31 rules.
const MOST_RULES: usize = 31;

/// Words of the node pool.
pub const fn nodes(nodes: u32) -> usize {
    NODE_WORDS * nodes as usize
}

/// Words of the cell pool.
pub const fn cells(cells: u32) -> usize {
    cells as usize
}

/// Entries of the node pool's free list: room for as many blocks of each size as the pool has.
pub const fn node_free(nodes: u32) -> usize {
    sections(nodes as usize, MOST_CHILDREN)
}

/// Entries of the cell pool's free list.
pub const fn cell_free(cells: u32) -> usize {
    sections(cells as usize, MOST_RULES)
}

const fn sections(size: usize, last: usize) -> usize {
    let mut sum = size / last;
    let mut tier = 0;
    while tier < SPACINGS.len() {
        sum += size / SPACINGS[tier];
        tier += 1;
    }
    sum
}

/// Whether a pool may have this size.
pub const fn allowed(size: u32) -> bool {
    1 <= size && size <= POOL_MAX
}

#[cfg(test)]
mod tests {
    use super::*;

    #[test]
    fn as_the_document_has_them() {
        assert_eq!((nodes(64), cells(64)), (256, 64));
        assert_eq!((node_free(64), cell_free(64)), (128, 128));
        assert_eq!(
            (node_free(31), cell_free(31)),
            (31 + 15 + 7 + 3 + 1 + 1, 59)
        );
        assert_eq!((node_free(1), cell_free(1)), (1, 1));
    }

    #[test]
    fn both_ends_of_a_pool() {
        assert!(!allowed(0) && allowed(1) && allowed(POOL_MAX) && !allowed(POOL_MAX + 1));
    }
}
