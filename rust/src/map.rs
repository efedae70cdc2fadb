//! The map: the state, its four slices, and the calls on them.

use std::fmt;
use std::ops::DerefMut;

use crate::boundary::{self, number, Answer, Edit, State};
use crate::{lengths, Prefix, Refusal};

/// A rule: a prefix and its value.
pub type Rule = (Prefix, u32);

/// A map that owns its pools: four allocations at construction, none afterwards.
///
/// ```
/// use hestrovik::PrefixMap;
///
/// let mut map = PrefixMap::new(1024, 2048)?;
/// assert_eq!(map.insert((0x0A000000, 8), 5)?, None);
/// assert_eq!(map.insert((0x0A000000, 8), 6)?, Some(5));
/// assert_eq!(map.get((0x0A000000, 8))?, Some(6));
/// assert_eq!(map.remove((0x0A000000, 8))?, Some(6));
/// assert!(map.is_empty());
/// # Ok::<(), hestrovik::Refusal>(())
/// ```
pub type PrefixMap = Map<Box<[u32]>>;

/// A map over four slices that the caller lends: it allocates nothing at all.
///
/// ```
/// use hestrovik::{lengths, LentMap, Memory, Prefix};
///
/// const NODES: u32 = 64;
/// const CELLS: u32 = 32;
/// let mut nodes = [0; lengths::nodes(NODES)];
/// let mut cells = [0; lengths::cells(CELLS)];
/// let mut node_free = [0; lengths::node_free(NODES)];
/// let mut cell_free = [0; lengths::cell_free(CELLS)];
/// let memory = Memory {
///     nodes: &mut nodes[..],
///     cells: &mut cells[..],
///     node_free: &mut node_free[..],
///     cell_free: &mut cell_free[..],
/// };
///
/// let mut map = LentMap::fresh(memory, NODES, CELLS)?;
/// map.insert((0x0A000100, 27), 1)?;
/// assert_eq!(map.get_lpm((0x0A000113, 32))?, Some((Prefix::new(0x0A000100, 27), 1)));
/// # Ok::<(), hestrovik::Refusal>(())
/// ```
pub type LentMap<'a> = Map<&'a mut [u32]>;

/// The four slices of a map: two pools, and the free list of each. [`lengths`] says how long each is.
#[derive(Clone, Debug, PartialEq, Eq)]
pub struct Memory<M> {
    /// The node pool, four words a node.
    pub nodes: M,
    /// The cell pool, one value a cell.
    pub cells: M,
    /// The node pool's free list.
    pub node_free: M,
    /// The cell pool's free list.
    pub cell_free: M,
}

/// What a lookup gives: the rule that it found, and how many nodes it visited.
#[derive(Clone, Copy, Debug, PartialEq, Eq)]
pub struct Lookup {
    /// The rule, or none where nothing covers the query or it isn't stored.
    pub rule: Option<Rule>,
    /// Nodes on the path, the root among them: 1 to 7.
    pub nodes: u32,
}

/// The map over memory of some kind: use it as [`PrefixMap`], which owns its memory, or as [`LentMap`],
/// which borrows it.
///
/// Prefixes are taken as a [`Prefix`], as a pair `(u32, u8)`, or as a reference to either.
#[derive(Clone)]
pub struct Map<M> {
    state: State,
    memory: Memory<M>,
}

/// The state alone: the words of the memory are many, and `memory` shows them.
impl<M> fmt::Debug for Map<M> {
    fn fmt(&self, f: &mut fmt::Formatter<'_>) -> fmt::Result {
        f.debug_struct("Map")
            .field("state", &self.state)
            .finish_non_exhaustive()
    }
}

impl PrefixMap {
    /// An empty map with room for so many nodes and cells, each 1 to 65,536; another size is
    /// [`Refusal::WrongSlices`].
    ///
    /// A rule takes a cell and up to seven nodes of its own, and blocks are handed out in sizes 1, 2, 4,
    /// 8, 16, 24 and 31 or 32; how many rules fit depends on how they lie.
    ///
    /// ```
    /// use hestrovik::{PrefixMap, Refusal};
    ///
    /// assert!(PrefixMap::new(1, 65_536).is_ok());
    /// assert_eq!(PrefixMap::new(0, 1).err(), Some(Refusal::WrongSlices));
    /// assert_eq!(PrefixMap::new(1, 65_537).err(), Some(Refusal::WrongSlices));
    /// ```
    pub fn new(nodes: u32, cells: u32) -> Result<PrefixMap, Refusal> {
        // Tested here and not by the call alone: a size that is refused isn't allocated first.
        if !lengths::allowed(nodes) || !lengths::allowed(cells) {
            return Err(Refusal::WrongSlices);
        }
        let words = |length| vec![0; length].into_boxed_slice();
        let memory = Memory {
            nodes: words(lengths::nodes(nodes)),
            cells: words(lengths::cells(cells)),
            node_free: words(lengths::node_free(nodes)),
            cell_free: words(lengths::cell_free(cells)),
        };
        Map::fresh(memory, nodes, cells)
    }
}

impl<M: DerefMut<Target = [u32]>> Map<M> {
    /// An empty map over memory for so many nodes and cells. Whatever stands in the memory is
    /// overwritten; where a slice isn't exactly as long as it must be, or a size is outside 1 to
    /// 65,536, this is [`Refusal::WrongSlices`] and no word is written.
    pub fn fresh(mut memory: Memory<M>, nodes: u32, cells: u32) -> Result<Map<M>, Refusal> {
        let Memory {
            nodes: n,
            cells: d,
            node_free,
            cell_free,
        } = &mut memory;
        let edit = boundary::fresh(n, d, node_free, cell_free, nodes, cells);
        match edit.answer.number {
            number::DONE => Ok(Map {
                state: edit.state,
                memory,
            }),
            refused => Err(Refusal::of(refused)),
        }
    }

    /// Goes on with a state and its memory, as [`into_parts`](Self::into_parts) gave them. Nothing is
    /// tested here: every call tests what it uses and answers [`Refusal::WrongSlices`] or
    /// [`Refusal::Broken`] where the two don't belong together.
    pub fn resume(state: State, memory: Memory<M>) -> Map<M> {
        Map { state, memory }
    }

    /// The state and the memory, to be kept and resumed.
    ///
    /// ```
    /// use hestrovik::PrefixMap;
    ///
    /// let mut map = PrefixMap::new(8, 8)?;
    /// map.insert((0, 0), 1)?;
    /// let (state, memory) = map.into_parts();
    /// let again = PrefixMap::resume(state, memory);
    /// assert_eq!(again.get((0, 0))?, Some(1));
    /// # Ok::<(), hestrovik::Refusal>(())
    /// ```
    pub fn into_parts(self) -> (State, Memory<M>) {
        (self.state, self.memory)
    }

    /// The state beside the pools: sizes, how far each is issued, free blocks and the rule count.
    pub fn state(&self) -> State {
        self.state
    }

    /// The pools and free lists, to be looked at.
    pub fn memory(&self) -> &Memory<M> {
        &self.memory
    }

    /// How many rules are stored.
    pub fn len(&self) -> usize {
        self.state.rules as usize
    }

    /// Whether no rule is stored.
    pub fn is_empty(&self) -> bool {
        self.state.rules == 0
    }

    /// Drops all rules: a fresh start over the same memory.
    ///
    /// ```
    /// use hestrovik::PrefixMap;
    ///
    /// let mut map = PrefixMap::new(7, 1)?;
    /// map.insert((0x0A000113, 32), 1)?;
    /// map.clear()?;
    /// assert!(map.is_empty());
    /// assert_eq!(map.insert((0x0B000000, 32), 2)?, None);
    /// # Ok::<(), hestrovik::Refusal>(())
    /// ```
    pub fn clear(&mut self) -> Result<(), Refusal> {
        let (nodes, cells) = (self.state.node_size, self.state.cell_size);
        let memory = &mut self.memory;
        let edit = boundary::fresh(
            &mut memory.nodes,
            &mut memory.cells,
            &mut memory.node_free,
            &mut memory.cell_free,
            nodes,
            cells,
        );
        match edit.answer.number {
            number::DONE => {
                self.state = edit.state;
                Ok(())
            }
            // The refused start's all-zero state isn't kept: a refusal changes nothing.
            refused => Err(Refusal::of(refused)),
        }
    }

    /// Stores a value under a prefix. Gives the value that it replaces, or `None` where the rule is new.
    ///
    /// ```
    /// use hestrovik::{PrefixMap, Refusal};
    ///
    /// let mut map = PrefixMap::new(7, 1)?;
    /// assert_eq!(map.insert((0x0A000113, 32), 1), Ok(None));
    /// assert_eq!(map.insert((0x0A000113, 32), 2), Ok(Some(1)));
    /// assert_eq!(map.insert((0x0A000113, 31), 3), Err(Refusal::NoRoom)); // a second cell
    /// assert_eq!(map.insert((0x0A000113, 33), 4), Err(Refusal::TooLong));
    /// assert_eq!(map.len(), 1);
    /// # Ok::<(), hestrovik::Refusal>(())
    /// ```
    pub fn insert(
        &mut self,
        prefix: impl Into<Prefix>,
        value: u32,
    ) -> Result<Option<u32>, Refusal> {
        let prefix = prefix.into();
        let memory = &mut self.memory;
        let edit = boundary::insert(
            self.state,
            &mut memory.nodes,
            &mut memory.cells,
            &mut memory.node_free,
            &mut memory.cell_free,
            prefix.key(),
            prefix.prefix_len().into(),
            value,
        );
        let answer = self.keep(edit);
        match answer.number {
            number::DONE => Ok(None),
            number::REPLACED => Ok(Some(answer.value)),
            refused => Err(Refusal::of(refused)),
        }
    }

    /// Removes the rule of a prefix and gives its value, or `None` where it isn't stored.
    ///
    /// Also a removal may be refused for room: what stays behind may need a smaller block before the
    /// larger one is returned.
    ///
    /// ```
    /// use hestrovik::PrefixMap;
    ///
    /// let mut map = PrefixMap::new(8, 8)?;
    /// map.insert((0x0A000000, 8), 5)?;
    /// assert_eq!(map.remove((0x0A000000, 7)), Ok(None));
    /// assert_eq!(map.remove((0x0A000000, 8)), Ok(Some(5)));
    /// assert_eq!(map.remove((0x0A000000, 8)), Ok(None));
    /// # Ok::<(), hestrovik::Refusal>(())
    /// ```
    pub fn remove(&mut self, prefix: impl Into<Prefix>) -> Result<Option<u32>, Refusal> {
        let prefix = prefix.into();
        let memory = &mut self.memory;
        let edit = boundary::remove(
            self.state,
            &mut memory.nodes,
            &mut memory.cells,
            &mut memory.node_free,
            &mut memory.cell_free,
            prefix.key(),
            prefix.prefix_len().into(),
        );
        let answer = self.keep(edit);
        match answer.number {
            number::DONE => Ok(Some(answer.value)),
            number::NOTHING => Ok(None),
            refused => Err(Refusal::of(refused)),
        }
    }

    /// The value of exactly this prefix.
    ///
    /// ```
    /// use hestrovik::{PrefixMap, Refusal};
    ///
    /// let mut map = PrefixMap::new(8, 8)?;
    /// map.insert((0x0A000100, 27), 1)?;
    /// assert_eq!(map.get((0x0A000113, 27)), Ok(Some(1))); // bits behind the length don't count
    /// assert_eq!(map.get((0x0A000100, 26)), Ok(None));
    /// assert_eq!(map.get((0x0A000113, 32)), Ok(None)); // covered, not stored
    /// assert_eq!(map.get((0x0A000100, 33)), Err(Refusal::TooLong));
    /// # Ok::<(), hestrovik::Refusal>(())
    /// ```
    pub fn get(&self, prefix: impl Into<Prefix>) -> Result<Option<u32>, Refusal> {
        Ok(self.get_key_value(prefix)?.map(|(_, value)| value))
    }

    /// The rule of exactly this prefix.
    pub fn get_key_value(&self, prefix: impl Into<Prefix>) -> Result<Option<Rule>, Refusal> {
        Ok(self.exact(prefix)?.rule)
    }

    /// Whether exactly this prefix is stored.
    pub fn contains_key(&self, prefix: impl Into<Prefix>) -> Result<bool, Refusal> {
        Ok(self.get_key_value(prefix)?.is_some())
    }

    /// The longest rule that covers a prefix: the one that counts for a cell.
    ///
    /// ```
    /// use hestrovik::{Prefix, PrefixMap};
    ///
    /// let mut map = PrefixMap::new(64, 64)?;
    /// map.insert((0x0A000100, 27), 1)?;
    /// map.insert((0x0A000113, 32), 2)?;
    /// assert_eq!(map.get_lpm((0x0A000113, 32))?, Some((Prefix::new(0x0A000113, 32), 2)));
    /// assert_eq!(map.get_lpm((0x0A000112, 32))?, Some((Prefix::new(0x0A000100, 27), 1)));
    /// assert_eq!(map.get_lpm((0x0B000000, 32))?, None);
    /// # Ok::<(), hestrovik::Refusal>(())
    /// ```
    pub fn get_lpm(&self, prefix: impl Into<Prefix>) -> Result<Option<Rule>, Refusal> {
        Ok(self.longest(prefix)?.rule)
    }

    /// The shortest rule that covers a prefix.
    ///
    /// ```
    /// use hestrovik::{Prefix, PrefixMap};
    ///
    /// let mut map = PrefixMap::new(64, 64)?;
    /// map.insert((0x0A000100, 27), 1)?;
    /// map.insert((0x0A000113, 32), 2)?;
    /// assert_eq!(map.get_spm((0x0A000113, 32))?, Some((Prefix::new(0x0A000100, 27), 1)));
    /// # Ok::<(), hestrovik::Refusal>(())
    /// ```
    pub fn get_spm(&self, prefix: impl Into<Prefix>) -> Result<Option<Rule>, Refusal> {
        Ok(self.shortest(prefix)?.rule)
    }

    /// [`get_key_value`](Self::get_key_value), with the node count.
    pub fn exact(&self, prefix: impl Into<Prefix>) -> Result<Lookup, Refusal> {
        self.lookup(boundary::exact, prefix.into())
    }

    /// [`get_lpm`](Self::get_lpm), with the node count.
    ///
    /// ```
    /// use hestrovik::PrefixMap;
    ///
    /// let mut map = PrefixMap::new(64, 64)?;
    /// assert_eq!(map.longest((0x0A000113, 32))?.nodes, 1); // the root alone
    /// map.insert((0x0A000113, 32), 2)?;
    /// assert_eq!(map.longest((0x0A000113, 32))?.nodes, 7);
    /// # Ok::<(), hestrovik::Refusal>(())
    /// ```
    pub fn longest(&self, prefix: impl Into<Prefix>) -> Result<Lookup, Refusal> {
        self.lookup(boundary::longest, prefix.into())
    }

    /// [`get_spm`](Self::get_spm), with the node count: it stops at the node of the rule that it finds.
    pub fn shortest(&self, prefix: impl Into<Prefix>) -> Result<Lookup, Refusal> {
        self.lookup(boundary::shortest, prefix.into())
    }

    fn lookup(
        &self,
        call: fn(State, &[u32], &[u32], u32, u32) -> Answer,
        prefix: Prefix,
    ) -> Result<Lookup, Refusal> {
        let memory = &self.memory;
        let length = prefix.prefix_len().into();
        let answer = call(
            self.state,
            &memory.nodes,
            &memory.cells,
            prefix.key(),
            length,
        );
        let rule = match answer.number {
            // A found rule covers the query, so its length is at most 32.
            number::DONE => Some((Prefix::new(answer.key, answer.len as u8), answer.value)),
            number::NOTHING => None,
            refused => return Err(Refusal::of(refused)),
        };
        Ok(Lookup {
            rule,
            nodes: answer.nodes,
        })
    }

    /// Keeps an edit's state for the next call: a refused edit hands back the one that it was given.
    fn keep(&mut self, edit: Edit) -> Answer {
        self.state = edit.state;
        edit.answer
    }
}
