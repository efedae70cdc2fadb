//! Cases as text that can be read, kept and replayed.
//!
//! One line a thing, words parted by spaces; a line that begins with `#` says something to the reader.
//!
//! ```text
//! pools NODES CELLS
//! record TWELVE_BYTES            in hexadecimal, as the bench program takes them; any number of these
//! length SLICE LENGTH            a slice is lent with another length
//! word SLICE INDEX VALUE         a word is damaged; SLICE may be state, VALUE is hexadecimal
//! call OPERATION KEY LENGTH VALUE  any number of these
//! ```
//!
//! SLICE is `nodes`, `cells`, `node_free` or `cell_free`. With no `call` the case is a history for both
//! sides; with one or more they are calls on damaged memory.

use judge::desk::Pools;
use judge::record::{Operation, Record, RECORD};

use crate::compare::{operation_name, told, History};
use crate::damage::{Call, Case, Damage};
use crate::memory::SLICES;

/// What a case file holds.
#[derive(Clone, Debug, PartialEq, Eq)]
pub enum File {
    History(History),
    Damaged(Case),
}

/// The areas that damage names.
const AREAS: [&str; 5] = [SLICES[0], SLICES[1], SLICES[2], SLICES[3], "state"];

/// The text of a history.
pub fn history_text(history: &History) -> String {
    let mut text = format!("pools {} {}\n", history.pools.nodes, history.pools.cells);
    for record in &history.records {
        let bytes: String = record.encode().map(|byte| format!("{byte:02x}")).concat();
        text += &format!("# {}\nrecord {bytes}\n", told(record));
    }
    text
}

/// The text of a case of damaged memory.
pub fn case_text(case: &Case) -> String {
    let mut text = history_text(&case.history);
    for damage in &case.damage {
        text += &match *damage {
            Damage::Word { area, at, value } => format!("word {} {at} {value:08x}\n", AREAS[area]),
            Damage::Length { slice, length } => format!("length {} {length}\n", SLICES[slice]),
        };
    }
    for call in &case.calls {
        let (key, length, value) = (call.key, call.length, call.value);
        let name = operation_name(call.operation);
        text += &format!("call {name} {key:08x} {length} {value:08x}\n");
    }
    text
}

/// Reads a case; what is wrong is said with its line.
pub fn read(text: &str) -> Result<File, String> {
    let mut pools = None;
    let mut records = Vec::new();
    let mut damage = Vec::new();
    let mut calls = Vec::new();
    for (at, line) in text.lines().enumerate() {
        let words: Vec<&str> = line.split_whitespace().collect();
        let done = match words[..] {
            [] => Ok(()),
            [first, ..] if first.starts_with('#') => Ok(()),
            ["pools", nodes, cells] => read_pools(nodes, cells).map(|read| pools = Some(read)),
            ["record", bytes] => read_record(bytes).map(|read| records.push(read)),
            ["length", slice, length] => read_length(slice, length).map(|read| damage.push(read)),
            ["word", area, at, value] => read_word(area, at, value).map(|read| damage.push(read)),
            ["call", name, key, length, value] => {
                read_call(name, key, length, value).map(|read| calls.push(read))
            }
            _ => Err("give pools, record, length, word or call with what belongs to it".into()),
        };
        done.map_err(|what: String| format!("line {}: {line:?}: {what}", at + 1))?;
    }
    let pools = pools.ok_or("no line `pools NODES CELLS`: give the sizes of the pools")?;
    let history = History { pools, records };
    if !calls.is_empty() {
        return Ok(File::Damaged(Case {
            history,
            damage,
            calls,
        }));
    }
    if !damage.is_empty() {
        return Err("memory is damaged and no call follows: give a line `call`".into());
    }
    Ok(File::History(history))
}

fn read_pools(nodes: &str, cells: &str) -> Result<Pools, String> {
    let size = |word: &str| {
        let size = word.parse().ok();
        size.filter(|size| (1..=Pools::MAX).contains(size))
            .ok_or_else(|| format!("{word} isn't a pool size: give 1 to {}", Pools::MAX))
    };
    Ok(Pools {
        nodes: size(nodes)?,
        cells: size(cells)?,
    })
}

fn read_record(word: &str) -> Result<Record, String> {
    let wrong = || format!("give {} hexadecimal digits of a good record", 2 * RECORD);
    let digits = word.len() == 2 * RECORD && word.bytes().all(|byte| byte.is_ascii_hexdigit());
    if !digits {
        return Err(wrong());
    }
    let mut bytes = [0; RECORD];
    for (at, byte) in bytes.iter_mut().enumerate() {
        *byte = u8::from_str_radix(&word[2 * at..2 * at + 2], 16).map_err(|_| wrong())?;
    }
    Record::decode(&bytes).ok_or_else(wrong)
}

fn read_length(slice: &str, length: &str) -> Result<Damage, String> {
    const MOST: usize = 1 << 20;
    let length = length.parse().ok().filter(|length| *length <= MOST);
    Ok(Damage::Length {
        slice: named(&SLICES, slice)?,
        length: length.ok_or_else(|| format!("give a length of 0 to {MOST} words"))?,
    })
}

fn read_word(area: &str, at: &str, value: &str) -> Result<Damage, String> {
    let at = at.parse();
    Ok(Damage::Word {
        area: named(&AREAS, area)?,
        at: at.map_err(|_| "the index isn't a number".to_string())?,
        value: hexadecimal(value)?,
    })
}

fn read_call(name: &str, key: &str, length: &str, value: &str) -> Result<Call, String> {
    let names = Operation::ALL.map(operation_name);
    let length = length.parse();
    Ok(Call {
        operation: Operation::ALL[named(&names, name)?],
        key: hexadecimal(key)?,
        length: length.map_err(|_| format!("the length isn't a number up to {}", u32::MAX))?,
        value: hexadecimal(value)?,
    })
}

fn named(names: &[&str], name: &str) -> Result<usize, String> {
    let at = names.iter().position(|known| *known == name);
    at.ok_or_else(|| format!("{name} isn't known: give one of {}", names.join(", ")))
}

fn hexadecimal(word: &str) -> Result<u32, String> {
    u32::from_str_radix(word, 16)
        .map_err(|_| format!("{word} isn't a number of up to eight hexadecimal digits"))
}
