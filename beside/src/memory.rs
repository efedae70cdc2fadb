//! The words of a map: its state and four slices, as they are lent and as the judge says they are.

use hestrovik::boundary::State;
use hestrovik::lengths;
use judge::desk::Pools;
use judge::image::{Books, Image};

/// The lent slices, by the names that case files use.
pub const SLICES: [&str; 4] = ["nodes", "cells", "node_free", "cell_free"];

/// What stands around a lent slice, and how many of it on each side.
const GUARD: u32 = 0xC0DE_FEED;
pub const GUARDS: usize = 16;

/// What stands in memory before a fresh start.
const RUBBISH: u32 = 0xDEAD_5EED;

/// The spacings of the first six tiers; the last is each pool's own.
const SPACINGS: [usize; 6] = [1, 2, 4, 8, 16, 24];
const MOST_CHILDREN: usize = 32;
const MOST_RULES: usize = 31;

/// Index of an empty node.
const EMPTY: u32 = u32::MAX;

/// A state and the words of four slices.
#[derive(Clone, Debug, PartialEq, Eq)]
pub struct Words {
    pub state: State,
    pub slices: [Vec<u32>; 4],
}

impl Words {
    /// Memory of the right lengths, as somebody may have left it.
    pub fn unused(pools: Pools) -> Words {
        let (nodes, cells) = (pools.nodes as u32, pools.cells as u32);
        let right = right_lengths(nodes, cells);
        Words {
            state: State::default(),
            slices: right.map(|length| vec![RUBBISH; length]),
        }
    }

    /// What the judge's image says: every word, the idle ones too. Vacated cells and popped free-list
    /// entries are 0, vacated nodes are empty.
    pub fn of(image: &Image, pools: Pools) -> Words {
        let mut nodes = [0, 0, EMPTY, EMPTY].repeat(pools.nodes);
        for node in &image.nodes {
            let at = lengths::NODE_WORDS * node.position as usize;
            nodes[at..at + lengths::NODE_WORDS].copy_from_slice(&[
                node.data_bitmap,
                node.child_bitmap,
                node.children_idx.unwrap_or(EMPTY),
                node.data_idx.unwrap_or(EMPTY),
            ]);
        }
        let mut cells = vec![0; pools.cells];
        for cell in &image.cells {
            cells[cell.position as usize] = cell.value;
        }
        let node_free = free_list(&image.node_books, pools.nodes, MOST_CHILDREN);
        let cell_free = free_list(&image.cell_books, pools.cells, MOST_RULES);
        let counts = |books: &Books| books.free.clone().map(|list| list.len() as u32);
        Words {
            state: State {
                node_size: pools.nodes as u32,
                node_mark: image.node_books.mark as u32,
                node_free: counts(&image.node_books),
                cell_size: pools.cells as u32,
                cell_mark: image.cell_books.mark as u32,
                cell_free: counts(&image.cell_books),
                rules: image.rules as u32,
            },
            slices: [nodes, cells, node_free, cell_free],
        }
    }

    /// Where these words, the map's, first part from others, the judge's; in words.
    pub fn first_difference(&self, other: &Words) -> Option<String> {
        let state = state_words(self.state)
            .into_iter()
            .zip(state_words(other.state));
        if let Some((at, (ours, theirs))) = state.enumerate().find(|(_, (a, b))| a != b) {
            let field = state_field(at);
            return Some(format!(
                "the state's {field}: {ours}, the judge has {theirs}"
            ));
        }
        let slices = self.slices.iter().zip(&other.slices).zip(SLICES);
        for ((ours, theirs), name) in slices {
            if ours.len() != theirs.len() {
                let (ours, theirs) = (ours.len(), theirs.len());
                return Some(format!("{name} has {ours} words, the judge's {theirs}"));
            }
            let first = ours.iter().zip(theirs).position(|(a, b)| a != b);
            if let Some(at) = first {
                let (ours, theirs) = (ours[at], theirs[at]);
                return Some(format!(
                    "{name} word {at}: {ours:08x}, the judge has {theirs:08x}"
                ));
            }
        }
        None
    }
}

/// Lengths of the four slices for these pools.
pub fn right_lengths(nodes: u32, cells: u32) -> [usize; 4] {
    [
        lengths::nodes(nodes),
        lengths::cells(cells),
        lengths::node_free(nodes),
        lengths::cell_free(cells),
    ]
}

/// How many entries each section of a pool's free list has.
pub fn sections(size: usize, last: usize) -> [usize; 7] {
    let mut sections = [size / last; 7];
    for (section, spacing) in sections.iter_mut().zip(SPACINGS) {
        *section = size / spacing;
    }
    sections
}

/// The sections of both pools: nodes, then cells.
pub fn both_sections(state: &State) -> [[usize; 7]; 2] {
    [
        sections(state.node_size as usize, MOST_CHILDREN),
        sections(state.cell_size as usize, MOST_RULES),
    ]
}

fn free_list(books: &Books, size: usize, last: usize) -> Vec<u32> {
    let mut words = Vec::new();
    for (starts, section) in books.free.iter().zip(sections(size, last)) {
        words.extend_from_slice(starts);
        words.resize(words.len() - starts.len() + section, 0);
    }
    words
}

/// The words of a state, in the order in which it crosses.
pub const STATE_WORDS: usize = 19;

pub fn state_words(state: State) -> [u32; STATE_WORDS] {
    let mut words = [0; STATE_WORDS];
    words[..2].copy_from_slice(&[state.node_size, state.node_mark]);
    words[2..9].copy_from_slice(&state.node_free);
    words[9..11].copy_from_slice(&[state.cell_size, state.cell_mark]);
    words[11..18].copy_from_slice(&state.cell_free);
    words[18] = state.rules;
    words
}

pub fn state_of(words: [u32; STATE_WORDS]) -> State {
    let mut state = State {
        node_size: words[0],
        node_mark: words[1],
        cell_size: words[9],
        cell_mark: words[10],
        rules: words[18],
        ..State::default()
    };
    state.node_free.copy_from_slice(&words[2..9]);
    state.cell_free.copy_from_slice(&words[11..18]);
    state
}

fn state_field(at: usize) -> String {
    match at {
        0 => "node size".into(),
        1 => "node mark".into(),
        2..=8 => format!("free node blocks of tier {}", at - 2),
        9 => "cell size".into(),
        10 => "cell mark".into(),
        11..=17 => format!("free cell blocks of tier {}", at - 11),
        _ => "rule count".into(),
    }
}

/// Four slices as they are lent, each with words around it that no call may touch. With no guards
/// each is a heap block of exactly its length, for tools that watch those.
#[derive(Clone, Debug)]
pub struct Lent {
    areas: [Vec<u32>; 4],
    guards: usize,
}

impl Lent {
    pub fn new(slices: &[Vec<u32>; 4], guards: usize) -> Lent {
        let areas = slices.each_ref().map(|slice| {
            let mut area = Vec::with_capacity(slice.len() + 2 * guards);
            area.resize(guards, GUARD);
            area.extend_from_slice(slice);
            area.resize(slice.len() + 2 * guards, GUARD);
            area
        });
        Lent { areas, guards }
    }

    pub fn slices(&self) -> [&[u32]; 4] {
        let guards = self.guards;
        let whole = self.areas.each_ref();
        whole.map(|area| &area[guards..area.len() - guards])
    }

    pub fn slices_mut(&mut self) -> [&mut [u32]; 4] {
        let guards = self.guards;
        self.areas.each_mut().map(|area| {
            let end = area.len() - guards;
            &mut area[guards..end]
        })
    }

    /// The words around a slice, to be spoilt by a test.
    pub fn area_mut(&mut self, slice: usize) -> &mut [u32] {
        &mut self.areas[slice]
    }

    /// Which guard word was written, if any.
    pub fn stray_write(&self) -> Option<String> {
        for (area, name) in self.areas.iter().zip(SLICES) {
            let end = area.len() - self.guards;
            let around = area[..self.guards].iter().chain(&area[end..]);
            if around.into_iter().any(|word| *word != GUARD) {
                return Some(format!("a word outside {name} was written"));
            }
        }
        None
    }
}
