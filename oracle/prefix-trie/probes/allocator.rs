/// Appended for the judge: what the two allocators keep to themselves.
pub(crate) mod probe {
    use std::cell::UnsafeCell;

    use super::{CellAllocator, NodeAllocator, NUM_TIERS};

    /// The node mark (length of the flat array) and the free lists, the last returned block last.
    pub(crate) fn node_books(nodes: &NodeAllocator) -> (usize, &[Vec<u32>; NUM_TIERS]) {
        (nodes.data.len(), &nodes.free_lists)
    }

    /// The cell mark and the free lists.
    pub(crate) fn cell_books<T>(cells: &mut CellAllocator<T>) -> (usize, &[Vec<u32>; NUM_TIERS]) {
        (cells.data.get_mut().len(), &cells.free_lists)
    }

    /// A copy cell for cell: the crate's own `Clone` of a table packs the cells anew.
    pub(crate) fn copy_cells<T: Copy>(cells: &mut CellAllocator<T>) -> CellAllocator<T> {
        CellAllocator {
            data: UnsafeCell::new(cells.data.get_mut().clone()),
            free_lists: cells.free_lists.clone(),
        }
    }
}
