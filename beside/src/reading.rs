//! An executable reading of document 01's steps over the raw numbers, for memory of any content: the
//! answer, the state and the free lists afterwards. Where document 01 is open, docs/DECISIONS.md
//! (13 to 15, 20 to 23) has the reading that is meant.
//!
//! It shares no code with the map or the crate. What an accepted edit leaves in nodes and cells isn't
//! read here: on sound memory the crate says it, and where damaged blocks overlap it hangs on the
//! order of the writes.

use hestrovik::boundary::{number, Answer, State};
use judge::record::Operation;

use crate::damage::Call;
use crate::memory::{both_sections, Words};

/// What a call leaves behind, as far as it is read here.
#[derive(Clone, Debug, PartialEq, Eq)]
pub struct Told {
    pub answer: Answer,
    pub state: State,
    /// Of nodes and of cells.
    pub lists: [Vec<u32>; 2],
}

/// A step's result, or the number that decides.
type Step<T> = Result<T, u32>;

/// Index of an empty node.
const EMPTY: u32 = u32::MAX;

/// A data bitmap has no bit 31.
const NO_RULE: u32 = 1 << 31;

/// The steps of a call whose slices fit, whose length is at most 32 and whose state is within its
/// limits.
pub fn steps(words: &Words, call: Call) -> Told {
    let mut desk = Desk::new(words, call);
    let done = match call.operation {
        Operation::Insert => desk.insert(),
        Operation::Remove => desk.remove(),
        Operation::Exact => desk.exact(),
        Operation::Longest => desk.longest(),
        Operation::Shortest => desk.shortest(),
    };
    match done {
        Ok(answer) => desk.told(answer),
        // A refusal leaves everything as it was found.
        Err(number) => Desk::new(words, call).told(Answer {
            number,
            ..Answer::default()
        }),
    }
}

/// A pool with its free list, as the steps so far have left it.
struct Pool {
    size: u32,
    mark: u32,
    /// The mark as it was found: number 5 goes by this one.
    found: u32,
    free: [u32; 7],
    sections: [usize; 7],
    spacings: [u32; 7],
    list: Vec<u32>,
}

impl Pool {
    /// The smallest tier whose spacing holds a count.
    fn tier(&self, count: u32) -> usize {
        let holds = |spacing: &u32| *spacing >= count;
        self.spacings.iter().position(holds).unwrap_or(6)
    }

    /// The block must lie wholly below the issued mark.
    fn below_mark(&self, start: u32, tier: usize) -> Step<()> {
        let end = u64::from(start) + u64::from(self.spacings[tier]);
        if end <= u64::from(self.found) {
            Ok(())
        } else {
            Err(number::BROKEN)
        }
    }

    /// The list's place for the next entry of a tier.
    fn top(&self, tier: usize) -> usize {
        self.sections[..tier].iter().sum::<usize>() + self.free[tier] as usize
    }

    /// The last returned block of a tier, else one from the unused end.
    fn take(&mut self, tier: usize) -> Step<()> {
        if self.free[tier] > 0 {
            let last = self.top(tier) - 1;
            self.below_mark(self.list[last], tier)?;
            self.list[last] = 0;
            self.free[tier] -= 1;
            return Ok(());
        }
        if self.size - self.mark < self.spacings[tier] {
            return Err(number::NO_ROOM);
        }
        self.mark += self.spacings[tier];
        Ok(())
    }

    fn give(&mut self, start: u32, tier: usize) -> Step<()> {
        self.below_mark(start, tier)?;
        if self.free[tier] as usize == self.sections[tier] {
            return Err(number::BROKEN);
        }
        let top = self.top(tier);
        self.list[top] = start;
        self.free[tier] += 1;
        Ok(())
    }

    /// A block's count goes from one number to another, neither of them 0: in place, or to a block of
    /// another tier, which is taken before the old one is returned.
    fn resize(&mut self, start: u32, from: u32, to: u32) -> Step<()> {
        let (old, new) = (self.tier(from), self.tier(to));
        if old == new {
            return self.below_mark(start, old);
        }
        self.take(new)?;
        self.give(start, old)
    }

    /// One more than a count, which may be 0.
    fn grow(&mut self, start: u32, count: u32) -> Step<()> {
        match count {
            0 => self.take(0),
            _ => self.resize(start, count, count + 1),
        }
    }

    /// One less than a count, which may become 0.
    fn shrink(&mut self, start: u32, count: u32) -> Step<()> {
        match count {
            1 => self.give(start, 0),
            _ => self.resize(start, count, count - 1),
        }
    }
}

/// A node as it stands.
#[derive(Clone, Copy)]
struct Node {
    depth: u32,
    rules: u32,
    children: u32,
    children_start: u32,
    rules_start: u32,
}

struct Desk<'a> {
    words: &'a Words,
    call: Call,
    nodes: Pool,
    cells: Pool,
    rules: u32,
}

impl Desk<'_> {
    fn new(words: &Words, call: Call) -> Desk<'_> {
        let state = &words.state;
        let [node_sections, cell_sections] = both_sections(state);
        let pool = |size, mark, free, sections, last, list: &Vec<u32>| Pool {
            size,
            mark,
            found: mark,
            free,
            sections,
            spacings: [1, 2, 4, 8, 16, 24, last],
            list: list.clone(),
        };
        Desk {
            words,
            call,
            nodes: pool(
                state.node_size,
                state.node_mark,
                state.node_free,
                node_sections,
                32,
                &words.slices[2],
            ),
            cells: pool(
                state.cell_size,
                state.cell_mark,
                state.cell_free,
                cell_sections,
                31,
                &words.slices[3],
            ),
            rules: state.rules,
        }
    }

    fn told(self, answer: Answer) -> Told {
        Told {
            answer,
            state: State {
                node_mark: self.nodes.mark,
                node_free: self.nodes.free,
                cell_mark: self.cells.mark,
                cell_free: self.cells.free,
                rules: self.rules,
                ..self.words.state
            },
            lists: [self.nodes.list, self.cells.list],
        }
    }

    /// The node at a position that is below the mark, tested.
    fn node(&self, position: u32, depth: u32) -> Step<Node> {
        let at = 4 * position as usize;
        let [rules, children, children_start, rules_start] =
            [0, 1, 2, 3].map(|word| self.words.slices[0][at + word]);
        let agree = |bitmap: u32, start: u32| (bitmap == 0) == (start == EMPTY);
        if !agree(rules, rules_start) || !agree(children, children_start) || rules & NO_RULE != 0 {
            return Err(number::BROKEN);
        }
        Ok(Node {
            depth,
            rules,
            children,
            children_start,
            rules_start,
        })
    }

    fn root(&self) -> Step<Node> {
        self.nodes.below_mark(0, 0)?;
        self.node(0, 0)
    }

    /// The child on the way to the query, where it exists and isn't deeper than the query's length.
    fn child(&self, node: Node) -> Step<Option<Node>> {
        let depth = node.depth + 5;
        if depth > self.call.length {
            return Ok(None);
        }
        let bit = self.call.key << node.depth >> 27;
        if node.children >> bit & 1 == 0 {
            return Ok(None);
        }
        let tier = self.nodes.tier(node.children.count_ones());
        self.nodes.below_mark(node.children_start, tier)?;
        let slot = slot(node.children, bit);
        self.node(node.children_start + slot, depth).map(Some)
    }

    /// All nodes on the way.
    fn path(&self) -> Step<Vec<Node>> {
        let mut path = vec![self.root()?];
        while let Some(child) = self.child(path[path.len() - 1])? {
            path.push(child);
        }
        Ok(path)
    }

    /// The data bit of the query's first `length` bits, in the node where that length lives.
    fn data_bit(&self, length: u32) -> u32 {
        let depth = length / 5 * 5;
        let level = length - depth;
        let bits = u64::from(self.call.key << depth) >> (32 - level);
        (1 << level) - 1 + bits as u32
    }

    /// Lengths in a node whose rule covers the query and is stored, the shortest first.
    fn stored_lengths(&self, node: Node) -> Vec<u32> {
        let last = self.call.length.min(node.depth + 4);
        let stored = |length: &u32| node.rules >> self.data_bit(*length) & 1 == 1;
        (node.depth..=last).filter(stored).collect()
    }

    /// The value of a stored length in a node.
    fn value(&self, node: Node, length: u32) -> Step<u32> {
        let tier = self.cells.tier(node.rules.count_ones());
        self.cells.below_mark(node.rules_start, tier)?;
        let at = node.rules_start + slot(node.rules, self.data_bit(length));
        Ok(self.words.slices[1][at as usize])
    }

    fn found(&self, number: u32, length: u32, value: u32) -> Answer {
        let key = u64::from(self.call.key) >> (32 - length) << (32 - length);
        Answer {
            number,
            len: length,
            nodes: 0,
            key: key as u32,
            value,
        }
    }

    fn looked_up(&self, rule: Option<(Node, u32)>, nodes: usize) -> Step<Answer> {
        let answer = match rule {
            Some((node, length)) => self.found(number::DONE, length, self.value(node, length)?),
            None => Answer {
                number: number::NOTHING,
                ..Answer::default()
            },
        };
        Ok(Answer {
            nodes: nodes as u32,
            ..answer
        })
    }

    fn exact(&self) -> Step<Answer> {
        let path = self.path()?;
        let own = self.own(&path);
        self.looked_up(own, path.len())
    }

    /// The query's own rule, where the path reaches its node and it is stored.
    fn own(&self, path: &[Node]) -> Option<(Node, u32)> {
        let length = self.call.length;
        let last = path.last()?;
        let there = last.depth == length / 5 * 5;
        let stored = there && last.rules >> self.data_bit(length) & 1 == 1;
        stored.then_some((*last, length))
    }

    fn longest(&self) -> Step<Answer> {
        let path = self.path()?;
        let longest = path.iter().rev().find_map(|node| {
            let length = self.stored_lengths(*node).pop();
            length.map(|length| (*node, length))
        });
        self.looked_up(longest, path.len())
    }

    fn shortest(&self) -> Step<Answer> {
        let mut node = self.root()?;
        let mut nodes = 1;
        loop {
            if let Some(length) = self.stored_lengths(node).first() {
                return self.looked_up(Some((node, *length)), nodes);
            }
            match self.child(node)? {
                Some(child) => node = child,
                None => return self.looked_up(None, nodes),
            }
            nodes += 1;
        }
    }

    fn insert(&mut self) -> Step<Answer> {
        let path = self.path()?;
        let length = self.call.length;
        if let Some((node, _)) = self.own(&path) {
            return Ok(self.found(number::REPLACED, length, self.value(node, length)?));
        }
        let last = path[path.len() - 1];
        let missing = length / 5 + 1 - path.len() as u32;
        if missing > 0 {
            self.nodes
                .grow(last.children_start, last.children.count_ones())?;
            for _ in 1..missing {
                self.nodes.take(0)?;
            }
            self.cells.take(0)?;
        } else {
            self.cells.grow(last.rules_start, last.rules.count_ones())?;
        }
        self.rules += 1;
        Ok(self.found(number::DONE, length, 0))
    }

    fn remove(&mut self) -> Step<Answer> {
        let path = self.path()?;
        let Some((node, length)) = self.own(&path) else {
            return Err(number::NOTHING);
        };
        if self.rules == 0 {
            return Err(number::BROKEN);
        }
        let value = self.value(node, length)?;
        let count = node.rules.count_ones();
        self.cells.shrink(node.rules_start, count)?;
        let mut empty = count == 1 && node.children == 0;
        for parent in path[..path.len() - 1].iter().rev() {
            if !empty {
                break;
            }
            let count = parent.children.count_ones();
            self.nodes.shrink(parent.children_start, count)?;
            empty = count == 1 && parent.rules == 0;
        }
        self.rules -= 1;
        Ok(self.found(number::DONE, length, value))
    }
}

/// How many bits are set below a bit.
fn slot(bitmap: u32, bit: u32) -> u32 {
    (bitmap & ((1 << bit) - 1)).count_ones()
}
