//! One history on three sides: the crate, the plain rules with the block ledger, and the map.

use hestrovik::boundary::Answer;
use judge::desk::{Desk, Pools};
use judge::ledger::Pool;
use judge::model::Model;
use judge::record::{self, Operation, Record};

use crate::counts::Counts;
use crate::memory::Words;
use crate::subject::Subject;

/// Calls from a fresh start over pools of these sizes.
#[derive(Clone, Debug, PartialEq, Eq)]
pub struct History {
    pub pools: Pools,
    pub records: Vec<Record>,
}

/// Where the sides part first: at the fresh start, or at a record counted from 0.
#[derive(Clone, Debug, PartialEq, Eq)]
pub struct Difference {
    pub at: Option<usize>,
    pub what: String,
}

/// Plays a history and hands back the first difference. After every call the answers are compared
/// field by field, and the map's whole memory with the one that the judge's image and the ledger ask
/// for: block starts, bitmaps, values, marks, free counts and free lists, idle words too.
pub fn compare<S: Subject>(history: &History, counts: &mut Counts) -> Option<Difference> {
    let pools = history.pools;
    let differs = |at, what| Some(Difference { at, what });
    let mut desk = Desk::new(pools);
    let mut model = Model::new(pools);
    let mut subject = match S::start(pools) {
        Ok(subject) => subject,
        Err(what) => return differs(None, what),
    };
    let mut expected = Words::of(&desk.image(), pools);
    if let Some(what) = memory_difference(&subject, &expected) {
        return differs(None, what);
    }
    counts.histories += 1;
    for (at, record) in history.records.iter().enumerate() {
        let judged = desk.call(*record);
        let reckoned = model.answer(&record.encode());
        if judged.encode() != reckoned {
            return differs(
                Some(at),
                format!("the crate answers {judged:?}, the plain rules and ledger {reckoned:02x?}"),
            );
        }
        let judged = widened(judged);
        let answer = subject.call(*record);
        if answer != judged {
            return differs(
                Some(at),
                format!("the map answers {answer:?}, the judge {judged:?}"),
            );
        }
        if record.operation.is_edit() {
            expected = Words::of(&desk.image(), pools);
            if let Some(what) = ledger_difference(&model, &expected) {
                return differs(Some(at), what);
            }
        }
        if let Some(what) = memory_difference(&subject, &expected) {
            return differs(Some(at), what);
        }
        counts.call(record.operation, &answer, model.shortage);
    }
    None
}

/// The judge's answer in the words of the boundary; nothing is cut off on the map's side.
fn widened(answer: record::Answer) -> Answer {
    Answer {
        number: answer.number.into(),
        len: answer.length.into(),
        nodes: answer.count.into(),
        key: answer.key,
        value: answer.value,
    }
}

fn memory_difference(subject: &impl Subject, expected: &Words) -> Option<String> {
    if let Some(stray) = subject.lent().stray_write() {
        return Some(stray);
    }
    let slices = subject.lent().slices();
    let same = subject.state() == expected.state
        && slices.iter().zip(&expected.slices).all(|(a, b)| *a == *b);
    if same {
        return None;
    }
    subject.words().first_difference(expected)
}

/// The ledger's marks and free counts against the crate's.
fn ledger_difference(model: &Model, expected: &Words) -> Option<String> {
    let state = &expected.state;
    let same = |pool: &Pool, mark: u32, free: [u32; 7]| {
        pool.mark == mark as usize && pool.free == free.map(|count| count as usize)
    };
    if same(&model.ledger.nodes, state.node_mark, state.node_free)
        && same(&model.ledger.cells, state.cell_mark, state.cell_free)
    {
        return None;
    }
    Some(format!(
        "the ledger has {:?}, the crate {state:?}",
        model.ledger
    ))
}

/// A record in words.
pub fn told(record: &Record) -> String {
    let (key, length, value) = (record.key, record.length, record.value);
    let name = operation_name(record.operation);
    match record.operation {
        Operation::Insert => format!("{name} {key:08X}/{length} value {value}"),
        _ => format!("{name} {key:08X}/{length}"),
    }
}

pub fn operation_name(operation: Operation) -> &'static str {
    match operation {
        Operation::Insert => "insert",
        Operation::Remove => "remove",
        Operation::Exact => "exact",
        Operation::Longest => "longest",
        Operation::Shortest => "shortest",
    }
}
