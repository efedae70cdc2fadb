//! What a map's memory holds: the live nodes and values where they stand, marks and free lists.

use crate::allocator::probe::{cell_books, node_books};
use crate::allocator::{AllocIdx, Loc};
use crate::node::{child_bit, extend_repr, MultiBitNode};
use crate::table::{probe, reconstruct_prefix, K};
use crate::Map;

/// A live node: where it stands, whose it is, and its four words. An empty index is `None`.
#[derive(Clone, Debug, PartialEq, Eq)]
pub struct LiveNode {
    pub position: u32,
    pub depth: u8,
    pub key: u32,
    pub data_bitmap: u32,
    pub child_bitmap: u32,
    pub children_idx: Option<u32>,
    pub data_idx: Option<u32>,
}

/// A live value: its cell, its rule and itself.
#[derive(Clone, Debug, PartialEq, Eq)]
pub struct LiveCell {
    pub position: u32,
    pub key: u32,
    pub length: u8,
    pub value: u32,
}

/// One pool's books: how far it is issued, and the free blocks of each tier, last returned last.
#[derive(Clone, Debug, PartialEq, Eq)]
pub struct Books {
    pub mark: usize,
    pub free: [Vec<u32>; 7],
}

/// All of it. Idle memory is left out: the crate leaves old contents there.
#[derive(Clone, Debug, PartialEq, Eq)]
pub struct Image {
    /// A node before its children, children by rising bit.
    pub nodes: Vec<LiveNode>,
    /// Node by node in the same order, by rising bit within a node.
    pub cells: Vec<LiveCell>,
    pub node_books: Books,
    pub cell_books: Books,
    pub rules: usize,
}

/// The image of a map. It is borrowed mutably because the cells sit behind an `UnsafeCell`.
pub fn image(map: &mut Map) -> Image {
    let mut image = Image {
        nodes: Vec::new(),
        cells: Vec::new(),
        node_books: books(node_books(probe::nodes(map.table()))),
        cell_books: books(cell_books(probe::cells(map.table_mut()))),
        rules: map.len(),
    };
    walk(map, Loc::root(), 0, 0, &mut image);
    image
}

/// The marks alone: nodes, then cells.
pub fn marks(map: &mut Map) -> (usize, usize) {
    let nodes = node_books(probe::nodes(map.table())).0;
    (nodes, cell_books(probe::cells(map.table_mut())).0)
}

/// A copy that keeps every block start, mark and free list.
pub fn copy(map: &mut Map) -> Map {
    let mut twin = Map::new();
    twin.count = map.count;
    *twin.table_mut() = probe::copy(map.table_mut());
    twin
}

/// How many nodes stand on the way to a prefix, the root among them, none deeper than its length.
pub fn nodes_on_path(map: &Map, key: u32, length: u8) -> u8 {
    let mut at = Loc::root();
    let mut depth = 0;
    let mut count = 1;
    while depth + K <= u32::from(length) {
        let node = map.table().node(at);
        let bit = child_bit(depth, key);
        if !node.has_child_bit(bit) {
            break;
        }
        at = Loc::new(node.children_idx, bit, node.child_bitmap);
        depth += K;
        count += 1;
    }
    count
}

fn books((mark, free): (usize, &[Vec<u32>; 7])) -> Books {
    Books {
        mark,
        free: free.clone(),
    }
}

fn walk(map: &Map, at: Loc, depth: u32, key: u32, image: &mut Image) {
    let node: MultiBitNode = *map.table().node(at);
    image.nodes.push(LiveNode {
        position: position(at),
        depth: depth as u8,
        key,
        data_bitmap: node.data_bitmap,
        child_bitmap: node.child_bitmap,
        children_idx: index(node.children_idx),
        data_idx: index(node.data_idx),
    });
    for data in node.data_locs() {
        let rule: (u32, u8) = reconstruct_prefix(key, depth, data.bit as usize);
        image.cells.push(LiveCell {
            position: position(data),
            key: rule.0,
            length: rule.1,
            value: *map.get(&rule).expect("a set data bit has a value"),
        });
    }
    for child in node.child_locs() {
        walk(
            map,
            child,
            depth + K,
            extend_repr(key, depth, child.bit),
            image,
        );
    }
}

fn position(at: Loc) -> u32 {
    at.idx.as_usize() as u32 + at.slot
}

fn index(idx: AllocIdx) -> Option<u32> {
    (!idx.is_empty()).then(|| idx.as_usize() as u32)
}
