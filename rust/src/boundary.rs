//! The six calls as the proved library has them: numbers, words and slices.
//!
//! [`Map`](crate::Map) is the face to use. This floor is for programs that look at the words
//! themselves: the calls take any state and any slices, and answer whatever they are given, because the
//! library is proved for every content and every length.
//!
//! All unsafe code of this crate stands in this file. The calls are inline, so that a caller copies the
//! state once, to where the library reads it, and not a second time on the way.

/// The number of an answer. `TOO_LONG` to `BROKEN` are refusals, and with `NOTHING` nothing is changed
/// either.
pub mod number {
    /// Started, added, removed, found.
    pub const DONE: u32 = 0;
    /// The length is above 32.
    pub const TOO_LONG: u32 = 1;
    /// Nothing covers the query, or the rule isn't stored.
    pub const NOTHING: u32 = 2;
    /// A slice isn't exactly as long as it must be, or a pool's size is outside its range.
    pub const WRONG_SLICE: u32 = 3;
    /// A pool can't supply a block that the edit needs.
    pub const NO_ROOM: u32 = 4;
    /// The words or the state aren't what the calls left.
    pub const BROKEN: u32 = 5;
    /// The prefix was stored: its value is replaced.
    pub const REPLACED: u32 = 8;
}

/// How many sizes of blocks a pool has.
pub const TIERS: usize = 7;

/// The small state beside the pools. Each edit gives the one for the next call; the all-zero state,
/// which is the default, is met with number 3 by every call.
#[repr(C)]
#[derive(Clone, Copy, Debug, Default, PartialEq, Eq)]
pub struct State {
    /// Nodes of the node pool.
    pub node_size: u32,
    /// How far the node pool is issued.
    pub node_mark: u32,
    /// Free blocks of nodes, by tier.
    pub node_free: [u32; TIERS],
    /// Cells of the cell pool.
    pub cell_size: u32,
    /// How far the cell pool is issued.
    pub cell_mark: u32,
    /// Free blocks of cells, by tier.
    pub cell_free: [u32; TIERS],
    /// Stored rules.
    pub rules: u32,
}

/// An answer. What its number doesn't give is 0.
#[repr(C)]
#[derive(Clone, Copy, Debug, Default, PartialEq, Eq)]
pub struct Answer {
    /// One of [`number`]'s.
    pub number: u32,
    /// Length of the rule that was added, replaced, removed or found.
    pub len: u32,
    /// A lookup's nodes on its path, 1 to 7, also where nothing is found; 0 for an edit.
    pub nodes: u32,
    /// Key of that rule, zero behind its length.
    pub key: u32,
    /// The value found or removed, or the one that was replaced; 0 where a rule was added.
    pub value: u32,
}

/// What an edit gives: the state for the next call, which is the one handed in where the edit is
/// refused, and the answer.
#[repr(C)]
#[derive(Clone, Copy, Debug, Default, PartialEq, Eq)]
pub struct Edit {
    /// For the next call.
    pub state: State,
    /// What became of it.
    pub answer: Answer,
}

/// The functions of `libcabinet.a`, as `include/cabinet.h` declares them.
mod library {
    use super::{Answer, Edit, State};

    extern "C" {
        pub fn cabinet_fresh(
            nodes: *mut u32,
            nodes_len: usize,
            cells: *mut u32,
            cells_len: usize,
            node_free: *mut u32,
            node_free_len: usize,
            cell_free: *mut u32,
            cell_free_len: usize,
            n: u32,
            d: u32,
        ) -> Edit;

        pub fn cabinet_insert(
            state: State,
            nodes: *mut u32,
            nodes_len: usize,
            cells: *mut u32,
            cells_len: usize,
            node_free: *mut u32,
            node_free_len: usize,
            cell_free: *mut u32,
            cell_free_len: usize,
            key: u32,
            len: u32,
            value: u32,
        ) -> Edit;

        pub fn cabinet_remove(
            state: State,
            nodes: *mut u32,
            nodes_len: usize,
            cells: *mut u32,
            cells_len: usize,
            node_free: *mut u32,
            node_free_len: usize,
            cell_free: *mut u32,
            cell_free_len: usize,
            key: u32,
            len: u32,
        ) -> Edit;

        pub fn cabinet_exact(
            state: State,
            nodes: *const u32,
            nodes_len: usize,
            cells: *const u32,
            cells_len: usize,
            key: u32,
            len: u32,
        ) -> Answer;

        pub fn cabinet_longest(
            state: State,
            nodes: *const u32,
            nodes_len: usize,
            cells: *const u32,
            cells_len: usize,
            key: u32,
            len: u32,
        ) -> Answer;

        pub fn cabinet_shortest(
            state: State,
            nodes: *const u32,
            nodes_len: usize,
            cells: *const u32,
            cells_len: usize,
            key: u32,
            len: u32,
        ) -> Answer;
    }
}

/// Starts an empty map over `n` nodes and `d` cells and writes every word of the four slices, whose
/// lengths [`lengths`](crate::lengths) gives; number 3 and an all-zero state where one is another.
#[inline]
pub fn fresh(
    nodes: &mut [u32],
    cells: &mut [u32],
    node_free: &mut [u32],
    cell_free: &mut [u32],
    n: u32,
    d: u32,
) -> Edit {
    // SAFETY: each pointer and length come from one slice, so the pointer isn't null, is aligned and
    // leads to that many words; the four are borrowed mutably side by side, so they don't overlap and
    // nobody else touches them during the call. The function is proved to stay within the lengths, to
    // end, and to keep no pointer, whatever the numbers and words are; it takes and gives plain words.
    unsafe {
        library::cabinet_fresh(
            nodes.as_mut_ptr(),
            nodes.len(),
            cells.as_mut_ptr(),
            cells.len(),
            node_free.as_mut_ptr(),
            node_free.len(),
            cell_free.as_mut_ptr(),
            cell_free.len(),
            n,
            d,
        )
    }
}

/// Stores a value under the first `len` bits of a key, or replaces the one stored there.
#[allow(clippy::too_many_arguments)] // the library's own list, four of them its memory
#[inline]
pub fn insert(
    state: State,
    nodes: &mut [u32],
    cells: &mut [u32],
    node_free: &mut [u32],
    cell_free: &mut [u32],
    key: u32,
    len: u32,
    value: u32,
) -> Edit {
    // SAFETY: four slices borrowed mutably side by side, each handed on with its own length, as for
    // `fresh`; the function is proved in bounds for every state, length and content, so a state that
    // doesn't belong to these slices is answered and not trusted.
    unsafe {
        library::cabinet_insert(
            state,
            nodes.as_mut_ptr(),
            nodes.len(),
            cells.as_mut_ptr(),
            cells.len(),
            node_free.as_mut_ptr(),
            node_free.len(),
            cell_free.as_mut_ptr(),
            cell_free.len(),
            key,
            len,
            value,
        )
    }
}

/// Removes the rule of the first `len` bits of a key.
#[inline]
pub fn remove(
    state: State,
    nodes: &mut [u32],
    cells: &mut [u32],
    node_free: &mut [u32],
    cell_free: &mut [u32],
    key: u32,
    len: u32,
) -> Edit {
    // SAFETY: as for `insert`: four slices borrowed mutably side by side with their own lengths, and a
    // function that is proved in bounds for every state, length and content.
    unsafe {
        library::cabinet_remove(
            state,
            nodes.as_mut_ptr(),
            nodes.len(),
            cells.as_mut_ptr(),
            cells.len(),
            node_free.as_mut_ptr(),
            node_free.len(),
            cell_free.as_mut_ptr(),
            cell_free.len(),
            key,
            len,
        )
    }
}

/// The rule of exactly the first `len` bits of a key.
#[inline]
pub fn exact(state: State, nodes: &[u32], cells: &[u32], key: u32, len: u32) -> Answer {
    // SAFETY: two slices handed on with their own lengths; the function only reads them (it is proved
    // over shared slices), in bounds for every state, length and content, and keeps no pointer.
    unsafe {
        library::cabinet_exact(
            state,
            nodes.as_ptr(),
            nodes.len(),
            cells.as_ptr(),
            cells.len(),
            key,
            len,
        )
    }
}

/// The longest rule that covers the first `len` bits of a key.
#[inline]
pub fn longest(state: State, nodes: &[u32], cells: &[u32], key: u32, len: u32) -> Answer {
    // SAFETY: as for `exact`: two shared slices with their own lengths, read alone and in bounds.
    unsafe {
        library::cabinet_longest(
            state,
            nodes.as_ptr(),
            nodes.len(),
            cells.as_ptr(),
            cells.len(),
            key,
            len,
        )
    }
}

/// The shortest rule that covers the first `len` bits of a key.
#[inline]
pub fn shortest(state: State, nodes: &[u32], cells: &[u32], key: u32, len: u32) -> Answer {
    // SAFETY: as for `exact`: two shared slices with their own lengths, read alone and in bounds.
    unsafe {
        library::cabinet_shortest(
            state,
            nodes.as_ptr(),
            nodes.len(),
            cells.as_ptr(),
            cells.len(),
            key,
            len,
        )
    }
}

#[cfg(test)]
mod tests {
    use super::*;
    use std::mem::{align_of, size_of};

    /// The structs are rows of words, as the header has them: 19, 5 and 24.
    #[test]
    fn structs_are_rows_of_words() {
        assert_eq!(size_of::<State>(), 19 * 4);
        assert_eq!(size_of::<Answer>(), 5 * 4);
        assert_eq!(size_of::<Edit>(), 24 * 4);
        assert_eq!(align_of::<Edit>(), 4);
    }

    /// Every field crosses to the place that is meant: a fresh start and one insert, told apart.
    #[test]
    fn fields_cross_in_order() {
        let (mut nodes, mut cells) = ([9; 4 * 8], [9; 3]);
        let (mut node_free, mut cell_free) = ([9; 15], [9; 4]);
        let edit = fresh(&mut nodes, &mut cells, &mut node_free, &mut cell_free, 8, 3);
        let mut state = State {
            node_size: 8,
            node_mark: 1,
            cell_size: 3,
            ..State::default()
        };
        assert_eq!(
            edit,
            Edit {
                state,
                answer: Answer::default()
            }
        );
        let edit = insert(
            state,
            &mut nodes,
            &mut cells,
            &mut node_free,
            &mut cell_free,
            0x0A00_0113,
            12,
            7,
        );
        (state.node_mark, state.cell_mark, state.rules) = (3, 1, 1);
        let answer = Answer {
            len: 12,
            key: 0x0A00_0000,
            ..Answer::default()
        };
        assert_eq!(edit, Edit { state, answer });
        let found = longest(state, &nodes, &cells, 0x0A00_0113, 32);
        let answer = Answer {
            nodes: 3,
            value: 7,
            ..answer
        };
        assert_eq!(found, answer);
    }

    /// Slices of no words at all are refused like other wrong ones.
    #[test]
    fn empty_slices() {
        let edit = fresh(&mut [], &mut [], &mut [], &mut [], 0, 0);
        assert_eq!(edit.answer.number, number::WRONG_SLICE);
        assert_eq!(edit.state, State::default());
        for call in [exact, longest, shortest] {
            assert_eq!(call(edit.state, &[], &[], 0, 0).number, number::WRONG_SLICE);
        }
    }
}
