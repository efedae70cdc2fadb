//! The crate's private leaf functions, lent out over plain numbers under their own names.
//!
//! Each keeps the crate's premise, which it can't test: whoever calls asks inside it.

use crate::allocator::{
    self, CHILD_COUNT_TO_TIER, CHILD_SPACING, DATA_COUNT_TO_TIER, DATA_SPACING,
};
use crate::node::{self, probe, MultiBitNode, DATA_BIT_TO_PREFIX, LEX_ORDER};
use crate::prefix::mask_from_prefix_len;
use crate::table;

pub fn compute_slot(bitmap: u32, bit: u32) -> u32 {
    allocator::compute_slot(bitmap, bit)
}

pub fn data_tier(count: u32) -> u32 {
    DATA_COUNT_TO_TIER[count as usize].into()
}

pub fn child_tier(count: u32) -> u32 {
    CHILD_COUNT_TO_TIER[count as usize].into()
}

pub fn data_spacing(tier: u32) -> u32 {
    DATA_SPACING[tier as usize] as u32
}

pub fn child_spacing(tier: u32) -> u32 {
    CHILD_SPACING[tier as usize] as u32
}

pub fn data_bit(key: u32, length: u32) -> u32 {
    node::data_bit(key, length)
}

pub fn child_bit(depth: u32, key: u32) -> u32 {
    node::child_bit(depth, key)
}

pub fn data_lpm_mask(depth: u32, key: u32, length: u32) -> u32 {
    node::data_lpm_mask(depth, key, length)
}

pub fn data_cover_mask(depth: u32, key: u32, length: u32) -> u32 {
    node::data_cover_mask(depth, key, length)
}

pub fn child_cover_mask(depth: u32, key: u32, length: u32) -> u32 {
    node::child_cover_mask(depth, key, length)
}

/// Section 0 is the longest match table, 1 the data cover table, 2 the child cover table.
pub fn pattern(section: u32, level: u32, pos: u32) -> u32 {
    probe::pattern(section as usize, level as usize, pos as usize)
}

pub fn data_lpm_loc(data_bitmap: u32, depth: u32, key: u32, length: u32) -> Option<u32> {
    let found = with_data(data_bitmap).data_lpm_loc(depth, key, length);
    found.map(|loc| loc.bit)
}

pub fn data_spm_loc(data_bitmap: u32, depth: u32, key: u32, length: u32) -> Option<u32> {
    let found = with_data(data_bitmap).data_spm_loc(depth, key, length);
    found.map(|loc| loc.bit)
}

/// The yielded bits as a bitmap.
pub fn data_cover_locs(data_bitmap: u32, depth: u32, key: u32, length: u32) -> u32 {
    let locs = with_data(data_bitmap).data_cover_locs(depth, key, length);
    locs.fold(0, |bits, loc| bits | 1 << loc.bit)
}

/// The yielded bits as a bitmap.
pub fn child_cover_locs(child_bitmap: u32, depth: u32, key: u32, length: u32) -> u32 {
    let locs = with_children(child_bitmap).child_cover_locs(depth, key, length);
    locs.fold(0, |bits, loc| bits | 1 << loc.bit)
}

/// `Ok` is a data bit, `Err` a child bit.
pub fn lex_order(place: u32) -> Result<u32, u32> {
    LEX_ORDER[place as usize].decode()
}

pub fn lex_after_data(bit: u32) -> (u32, u32) {
    node::lex_after_data(bit)
}

pub fn lex_after_child(bit: u32) -> (u32, u32) {
    node::lex_after_child(bit)
}

/// Offset, then level.
pub fn data_bit_to_prefix(bit: u32) -> (u32, u32) {
    let (offset, level) = DATA_BIT_TO_PREFIX[bit as usize];
    (offset.into(), level.into())
}

pub fn extend_repr(key: u32, depth: u32, offset: u32) -> u32 {
    node::extend_repr(key, depth, offset)
}

pub fn masked(key: u32, length: u32) -> u32 {
    key & mask_from_prefix_len::<u32>(length as u8)
}

/// Key, then length.
pub fn reconstruct_prefix(depth: u32, key: u32, data_bit: u32) -> (u32, u32) {
    let (key, length): (u32, u8) = table::reconstruct_prefix(key, depth, data_bit as usize);
    (key, length.into())
}

pub fn has_data_bit(data_bitmap: u32, bit: u32) -> bool {
    with_data(data_bitmap).has_data_bit(bit)
}

pub fn set_data_bit(data_bitmap: u32, bit: u32) -> u32 {
    let mut node = with_data(data_bitmap);
    node.set_data_bit(bit);
    node.data_bitmap()
}

pub fn unset_data_bit(data_bitmap: u32, bit: u32) -> u32 {
    let mut node = with_data(data_bitmap);
    node.unset_data_bit(bit);
    node.data_bitmap()
}

pub fn has_child_bit(child_bitmap: u32, bit: u32) -> bool {
    with_children(child_bitmap).has_child_bit(bit)
}

pub fn set_child_bit(child_bitmap: u32, bit: u32) -> u32 {
    let mut node = with_children(child_bitmap);
    node.set_child_bit(bit);
    node.child_bitmap()
}

pub fn unset_child_bit(child_bitmap: u32, bit: u32) -> u32 {
    let mut node = with_children(child_bitmap);
    node.unset_child_bit(bit);
    node.child_bitmap()
}

/// A node that isn't in any table: its indices are empty, and no leaf reads through them.
fn with_data(data_bitmap: u32) -> MultiBitNode {
    MultiBitNode {
        data_bitmap,
        ..MultiBitNode::default()
    }
}

fn with_children(child_bitmap: u32) -> MultiBitNode {
    MultiBitNode {
        child_bitmap,
        ..MultiBitNode::default()
    }
}
