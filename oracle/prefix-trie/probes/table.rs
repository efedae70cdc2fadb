/// Appended for the judge: the way from a table to its allocators.
pub(crate) mod probe {
    use super::Table;
    use crate::allocator::{probe::copy_cells, CellAllocator, NodeAllocator};

    pub(crate) fn nodes<T>(table: &Table<T>) -> &NodeAllocator {
        &table.nodes
    }

    pub(crate) fn cells<T>(table: &mut Table<T>) -> &mut CellAllocator<T> {
        &mut table.cells
    }

    /// A copy in which every block keeps its start, and every free list its order.
    pub(crate) fn copy<T: Copy>(table: &mut Table<T>) -> Table<T> {
        Table {
            nodes: table.nodes.clone(),
            cells: copy_cells(&mut table.cells),
        }
    }
}
