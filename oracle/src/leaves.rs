//! Single functions of the crate: twenty bytes ask, twelve bytes answer.
//!
//! A request is five big-endian u32: the function's number and up to four arguments; arguments that
//! a function doesn't have are not looked at. An answer is three: kind, x, y.

use prefix_trie::leaf;

/// Bytes of a request.
pub const REQUEST: usize = 20;

/// Bytes of an answer.
pub const REPLY: usize = 12;

/// The functions by number. The arguments stand behind each, in order.
pub mod op {
    /// bitmap, bit below 32
    pub const COMPUTE_SLOT: u32 = 1;
    /// count up to 31
    pub const DATA_TIER: u32 = 2;
    /// count up to 32
    pub const CHILD_TIER: u32 = 3;
    /// tier below 7
    pub const DATA_SPACING: u32 = 4;
    /// tier below 7
    pub const CHILD_SPACING: u32 = 5;
    /// key, length up to 32
    pub const DATA_BIT: u32 = 6;
    /// depth up to 25, key
    pub const CHILD_BIT: u32 = 7;
    /// depth, key, length from the depth to 32
    pub const DATA_LPM_MASK: u32 = 8;
    /// depth, key, length from the depth to 32
    pub const DATA_COVER_MASK: u32 = 9;
    /// depth up to 25, key, length from the depth to 32
    pub const CHILD_COVER_MASK: u32 = 10;
    /// section below 3, level below 5, pos below 16
    pub const PATTERN: u32 = 11;
    /// data bitmap without bit 31, depth, key, length from the depth to 32
    pub const DATA_LPM_LOC: u32 = 12;
    /// data bitmap without bit 31, depth, key, length from the depth to 32
    pub const DATA_SPM_LOC: u32 = 13;
    /// data bitmap, depth, key, length from the depth to 32
    pub const DATA_COVER_LOCS: u32 = 14;
    /// child bitmap, depth up to 25, key, length from the depth to 32
    pub const CHILD_COVER_LOCS: u32 = 15;
    /// place below 63; answers 0 for data or 1 for child, then the bit
    pub const LEX_ORDER: u32 = 16;
    /// data bit below 31; answers the data mask, then the child mask
    pub const LEX_AFTER_DATA: u32 = 17;
    /// child bit below 32; answers the data mask, then the child mask
    pub const LEX_AFTER_CHILD: u32 = 18;
    /// data bit below 31; answers the offset, then the level
    pub const DATA_BIT_TO_PREFIX: u32 = 19;
    /// key, depth, offset below 32
    pub const EXTEND_REPR: u32 = 20;
    /// key, length up to 32
    pub const MASKED: u32 = 21;
    /// depth, key, data bit below 31, below 7 at depth 30; answers the key, then the length
    pub const RECONSTRUCT_PREFIX: u32 = 22;
    /// data bitmap, bit below 31; this and the next two
    pub const HAS_DATA_BIT: u32 = 23;
    pub const SET_DATA_BIT: u32 = 24;
    pub const UNSET_DATA_BIT: u32 = 25;
    /// child bitmap, bit below 32; this and the next two
    pub const HAS_CHILD_BIT: u32 = 26;
    pub const SET_CHILD_BIT: u32 = 27;
    pub const UNSET_CHILD_BIT: u32 = 28;
}

#[derive(Clone, Copy, Debug, PartialEq, Eq)]
pub struct Request {
    pub op: u32,
    pub a: u32,
    pub b: u32,
    pub c: u32,
    pub d: u32,
}

impl Request {
    pub fn encode(&self) -> [u8; REQUEST] {
        join([self.op, self.a, self.b, self.c, self.d])
    }

    pub fn decode(bytes: &[u8; REQUEST]) -> Request {
        let word = |at: usize| {
            let part = [
                bytes[4 * at],
                bytes[4 * at + 1],
                bytes[4 * at + 2],
                bytes[4 * at + 3],
            ];
            u32::from_be_bytes(part)
        };
        Request {
            op: word(0),
            a: word(1),
            b: word(2),
            c: word(3),
            d: word(4),
        }
    }
}

#[derive(Clone, Copy, Debug, PartialEq, Eq)]
pub enum Reply {
    One(u32),
    Two(u32, u32),
    /// The function itself found nothing.
    Nothing,
    /// The function has no such inputs, or there is no such function.
    Outside,
}

impl Reply {
    pub fn encode(&self) -> [u8; REPLY] {
        join(match *self {
            Reply::One(x) => [0, x, 0],
            Reply::Two(x, y) => [1, x, y],
            Reply::Nothing => [2, 0, 0],
            Reply::Outside => [3, 0, 0],
        })
    }
}

/// Answers a whole input; one that isn't whole requests is refused before any answer.
pub fn answer_all(input: &[u8]) -> Result<Vec<u8>, String> {
    let whole = input.chunks_exact(REQUEST);
    let left = whole.remainder().len();
    if left > 0 {
        return Err(format!(
            "the requests end {left} bytes into request {}: give whole requests of {REQUEST} bytes",
            input.len() / REQUEST
        ));
    }
    let requests = whole.map(|bytes| Request::decode(bytes.try_into().expect("a whole request")));
    Ok(requests
        .flat_map(|request| reply(request).encode())
        .collect())
}

/// What the crate's own function gives. Premises are tested here: the crate doesn't.
pub fn reply(request: Request) -> Reply {
    use Reply::{One, Outside, Two};
    let Request { op, a, b, c, d } = request;
    match op {
        op::COMPUTE_SLOT if b < 32 => One(leaf::compute_slot(a, b)),
        op::DATA_TIER if a <= 31 => One(leaf::data_tier(a)),
        op::CHILD_TIER if a <= 32 => One(leaf::child_tier(a)),
        op::DATA_SPACING if a < 7 => One(leaf::data_spacing(a)),
        op::CHILD_SPACING if a < 7 => One(leaf::child_spacing(a)),
        op::DATA_BIT if b <= 32 => One(leaf::data_bit(a, b)),
        op::CHILD_BIT if has_children(a) => One(leaf::child_bit(a, b)),
        op::DATA_LPM_MASK if reaches(a, c) => One(leaf::data_lpm_mask(a, b, c)),
        op::DATA_COVER_MASK if reaches(a, c) => One(leaf::data_cover_mask(a, b, c)),
        op::CHILD_COVER_MASK if has_children(a) && reaches(a, c) => {
            One(leaf::child_cover_mask(a, b, c))
        }
        op::PATTERN if a < 3 && b < 5 && c < 16 => One(leaf::pattern(a, b, c)),
        op::DATA_LPM_LOC if a >> 31 == 0 && reaches(b, d) => found(leaf::data_lpm_loc(a, b, c, d)),
        op::DATA_SPM_LOC if a >> 31 == 0 && reaches(b, d) => found(leaf::data_spm_loc(a, b, c, d)),
        op::DATA_COVER_LOCS if reaches(b, d) => One(leaf::data_cover_locs(a, b, c, d)),
        op::CHILD_COVER_LOCS if has_children(b) && reaches(b, d) => {
            One(leaf::child_cover_locs(a, b, c, d))
        }
        op::LEX_ORDER if a < 63 => match leaf::lex_order(a) {
            Ok(data_bit) => Two(0, data_bit),
            Err(child_bit) => Two(1, child_bit),
        },
        op::LEX_AFTER_DATA if a < 31 => pair(leaf::lex_after_data(a)),
        op::LEX_AFTER_CHILD if a < 32 => pair(leaf::lex_after_child(a)),
        op::DATA_BIT_TO_PREFIX if a < 31 => pair(leaf::data_bit_to_prefix(a)),
        op::EXTEND_REPR if is_depth(b) && c < 32 => One(leaf::extend_repr(a, b, c)),
        op::MASKED if b <= 32 => One(leaf::masked(a, b)),
        op::RECONSTRUCT_PREFIX if is_depth(a) && c < data_bits(a) => {
            pair(leaf::reconstruct_prefix(a, b, c))
        }
        op::HAS_DATA_BIT if b < 31 => One(leaf::has_data_bit(a, b).into()),
        op::SET_DATA_BIT if b < 31 => One(leaf::set_data_bit(a, b)),
        op::UNSET_DATA_BIT if b < 31 => One(leaf::unset_data_bit(a, b)),
        op::HAS_CHILD_BIT if b < 32 => One(leaf::has_child_bit(a, b).into()),
        op::SET_CHILD_BIT if b < 32 => One(leaf::set_child_bit(a, b)),
        op::UNSET_CHILD_BIT if b < 32 => One(leaf::unset_child_bit(a, b)),
        _ => Outside,
    }
}

/// Depths at which nodes stand.
fn is_depth(depth: u32) -> bool {
    depth % 5 == 0 && depth <= 30
}

/// Depths at which nodes may have children.
fn has_children(depth: u32) -> bool {
    is_depth(depth) && depth <= 25
}

/// Whether a walk to this length comes through the depth.
fn reaches(depth: u32, length: u32) -> bool {
    is_depth(depth) && depth <= length && length <= 32
}

/// Data bits that stand for a prefix: at depth 30 only lengths 30 to 32 are left.
pub fn data_bits(depth: u32) -> u32 {
    if depth == 30 {
        7
    } else {
        31
    }
}

fn found(bit: Option<u32>) -> Reply {
    bit.map_or(Reply::Nothing, Reply::One)
}

fn pair((x, y): (u32, u32)) -> Reply {
    Reply::Two(x, y)
}

fn join<const WORDS: usize, const BYTES: usize>(words: [u32; WORDS]) -> [u8; BYTES] {
    let mut bytes = [0; BYTES];
    for (part, word) in bytes.chunks_exact_mut(4).zip(words) {
        part.copy_from_slice(&word.to_be_bytes());
    }
    bytes
}
