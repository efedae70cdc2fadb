//! Bench records and answers as bytes (document 01, "Bench records").

/// Bytes of a record, and of an answer.
pub const RECORD: usize = 12;

/// Longest length of a prefix.
pub const LENGTH_MAX: u8 = 32;

/// The numbers of document 01 that the bench can meet from a fresh start.
pub mod number {
    /// Added, removed or found.
    pub const DONE: u8 = 0;
    pub const TOO_LONG: u8 = 1;
    /// Nothing covers, or not stored.
    pub const NOTHING: u8 = 2;
    pub const NO_ROOM: u8 = 4;
    pub const BAD_RECORD: u8 = 6;
    pub const CUT_SHORT: u8 = 7;
    pub const REPLACED: u8 = 8;
}

#[derive(Clone, Copy, Debug, PartialEq, Eq)]
pub enum Operation {
    Insert = 1,
    Remove = 2,
    Exact = 3,
    Longest = 4,
    Shortest = 5,
}

impl Operation {
    pub const ALL: [Operation; 5] = [
        Operation::Insert,
        Operation::Remove,
        Operation::Exact,
        Operation::Longest,
        Operation::Shortest,
    ];

    /// Whether it may change the map.
    pub fn is_edit(self) -> bool {
        matches!(self, Operation::Insert | Operation::Remove)
    }
}

/// A record in good form. Its length may still be above 32.
#[derive(Clone, Copy, Debug, PartialEq, Eq)]
pub struct Record {
    pub operation: Operation,
    pub length: u8,
    pub key: u32,
    pub value: u32,
}

impl Record {
    /// The record in these bytes; none where they are a bad record (number 6).
    pub fn decode(bytes: &[u8; RECORD]) -> Option<Record> {
        let [operation, length, zero, naught, k0, k1, k2, k3, v0, v1, v2, v3] = *bytes;
        let operation = *Operation::ALL.get(usize::from(operation).checked_sub(1)?)?;
        let value = u32::from_be_bytes([v0, v1, v2, v3]);
        let good = zero == 0 && naught == 0 && (value == 0 || operation == Operation::Insert);
        good.then_some(Record {
            operation,
            length,
            key: u32::from_be_bytes([k0, k1, k2, k3]),
            value,
        })
    }

    pub fn encode(&self) -> [u8; RECORD] {
        let head = [self.operation as u8, self.length, 0, 0];
        join(head, self.key, self.value)
    }
}

/// An answer. A refusal has zeros in every other field, a lookup's 2 in all but the count.
#[derive(Clone, Copy, Debug, PartialEq, Eq)]
pub struct Answer {
    pub number: u8,
    pub length: u8,
    pub count: u8,
    pub key: u32,
    pub value: u32,
}

impl Answer {
    /// A number with zeros.
    pub fn bare(number: u8) -> Answer {
        Answer {
            number,
            length: 0,
            count: 0,
            key: 0,
            value: 0,
        }
    }

    pub fn encode(&self) -> [u8; RECORD] {
        join(
            [self.number, self.length, self.count, 0],
            self.key,
            self.value,
        )
    }
}

fn join(head: [u8; 4], key: u32, value: u32) -> [u8; RECORD] {
    let mut bytes = [0; RECORD];
    bytes[..4].copy_from_slice(&head);
    bytes[4..8].copy_from_slice(&key.to_be_bytes());
    bytes[8..].copy_from_slice(&value.to_be_bytes());
    bytes
}
