//! A small fixed sample, for tests that have the answers but not the crate.

use std::fs;
use std::path::Path;

use crate::desk::{Desk, Pools};
use crate::history::{history, Kind};
use crate::leaves::{answer_all, Request};
use crate::play::play;
use crate::record::{number, Operation, Record, RECORD};
use crate::requests::{requests, Lengths};
use crate::seed::Seed;

/// Leaf requests of each function, where it has so many.
const EACH_LEAF: usize = 18;

/// Writes `leaves.in`, `leaves.out`, `maps.in` and `maps.out` into a folder.
pub fn sample(folder: &Path) -> Result<(), String> {
    fs::create_dir_all(folder)
        .map_err(|e| format!("sample: cannot make the folder {}: {e}", folder.display()))?;
    let leaves = leaf_requests();
    let maps = map_records();
    let mut answers = Vec::new();
    play(&mut Desk::new(Pools::BENCH), maps.as_slice(), &mut answers)?;
    for (name, bytes) in [
        ("leaves.out", answer_all(&leaves)?),
        ("leaves.in", leaves),
        ("maps.in", maps),
        ("maps.out", answers),
    ] {
        let at = folder.join(name);
        fs::write(&at, bytes).map_err(|e| format!("sample: cannot write {}: {e}", at.display()))?;
    }
    Ok(())
}

/// Of each function some requests, spread evenly over all that there are with two random keys.
pub fn leaf_requests() -> Vec<u8> {
    let all = requests(1, 2, Lengths::Inside);
    let mut chosen = Vec::new();
    for op in 1..=28 {
        let of_op: Vec<&Request> = all.iter().filter(|request| request.op == op).collect();
        let take = of_op.len().min(EACH_LEAF);
        let spread = (0..take).map(|i| of_op[i * of_op.len() / take]);
        chosen.extend(spread.map(Request::encode));
    }
    chosen.concat()
}

/// Document 01's run, a length above 32, some of two histories, a map filled to the last node, and a
/// record cut short.
pub fn map_records() -> Vec<u8> {
    let mut records = vec![
        record(Operation::Insert, 0x0a00_0113, 27, 7),
        record(Operation::Longest, 0x0a00_0112, 32, 0),
        record(Operation::Exact, 0x0a00_0113, 33, 0),
    ];
    records.extend(history(Kind::Lengths, 1, 70, Pools::BENCH));
    records.extend(history(Kind::Chain, 1, 40, Pools::BENCH));
    fill(&mut records);
    let mut bytes = records.concat();
    bytes.extend([Operation::Shortest as u8, 32]);
    bytes
}

/// Goes on until both edits meet number 4: fills the node pool with long prefixes, then node by node
/// below two short ones, and takes away one of two siblings, which would need a single block.
fn fill(records: &mut Vec<[u8; RECORD]>) {
    let siblings = [(0xc0de_0000, 15), (0xc0dc_0000, 15)];
    let short = [(0x1000_0000, 5), (0xe000_0000, 5)];
    for (key, length) in siblings.into_iter().chain(short) {
        records.push(record(Operation::Insert, key, length, 15));
    }
    let mut desk = Desk::new(Pools::BENCH);
    for bytes in records.iter() {
        desk.answer(bytes);
    }
    let mut refused = |record: [u8; RECORD]| {
        records.push(record);
        desk.answer(&record).number == number::NO_ROOM
    };
    let mut seed = Seed::new(1);
    let mut refusals = 0;
    while refusals < 5 {
        refusals += u32::from(refused(record(Operation::Insert, seed.next_u32(), 32, 32)));
    }
    for (key, length) in short {
        for deeper in (length + 5..=30).step_by(5) {
            refused(record(Operation::Insert, key, deeper, 1));
        }
    }
    for (key, length) in siblings {
        refused(record(Operation::Remove, key, length, 0));
        refused(record(Operation::Longest, key, 32, 0));
    }
}

fn record(operation: Operation, key: u32, length: u8, value: u32) -> [u8; RECORD] {
    Record {
        operation,
        length,
        key,
        value,
    }
    .encode()
}
