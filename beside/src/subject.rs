//! What is held beside the judge: the map through its Rust boundary.

use hestrovik::boundary::{self, Answer, State};
use judge::desk::Pools;
use judge::record::{Operation, Record};

use crate::memory::{Lent, Words, GUARDS};

/// Something that answers like the map and shows its words. Tests put wrong ones here.
pub trait Subject: Sized {
    /// Goes on with any state and words, each slice with so many guard words around it.
    fn over(words: &Words, guards: usize) -> Self;
    /// A fresh start over the memory as it is.
    fn fresh(&mut self, nodes: u32, cells: u32) -> Answer;
    /// Any other call; the length may be any number.
    fn ask(&mut self, operation: Operation, key: u32, length: u32, value: u32) -> Answer;
    fn state(&self) -> State;
    fn lent(&self) -> &Lent;

    /// A fresh start over memory that somebody used before.
    fn start(pools: Pools) -> Result<Self, String> {
        let mut subject = Self::over(&Words::unused(pools), GUARDS);
        let answer = subject.fresh(pools.nodes as u32, pools.cells as u32);
        if answer == Answer::default() {
            return Ok(subject);
        }
        Err(format!("the map answers {answer:?}"))
    }

    fn call(&mut self, record: Record) -> Answer {
        let length = record.length.into();
        self.ask(record.operation, record.key, length, record.value)
    }

    /// All words, to be compared.
    fn words(&self) -> Words {
        Words {
            state: self.state(),
            slices: self.lent().slices().map(<[u32]>::to_vec),
        }
    }
}

/// The map.
#[derive(Clone, Debug)]
pub struct Port {
    pub state: State,
    pub lent: Lent,
}

impl Subject for Port {
    fn over(words: &Words, guards: usize) -> Port {
        Port {
            state: words.state,
            lent: Lent::new(&words.slices, guards),
        }
    }

    fn fresh(&mut self, nodes: u32, cells: u32) -> Answer {
        let [n, d, node_free, cell_free] = self.lent.slices_mut();
        let edit = boundary::fresh(n, d, node_free, cell_free, nodes, cells);
        self.state = edit.state;
        edit.answer
    }

    fn ask(&mut self, operation: Operation, key: u32, length: u32, value: u32) -> Answer {
        let state = self.state;
        let [nodes, cells, node_free, cell_free] = self.lent.slices_mut();
        let edit = match operation {
            Operation::Insert => boundary::insert(
                state, nodes, cells, node_free, cell_free, key, length, value,
            ),
            Operation::Remove => {
                boundary::remove(state, nodes, cells, node_free, cell_free, key, length)
            }
            Operation::Exact => return boundary::exact(state, nodes, cells, key, length),
            Operation::Longest => return boundary::longest(state, nodes, cells, key, length),
            Operation::Shortest => return boundary::shortest(state, nodes, cells, key, length),
        };
        self.state = edit.state;
        edit.answer
    }

    fn state(&self) -> State {
        self.state
    }

    fn lent(&self) -> &Lent {
        &self.lent
    }
}
