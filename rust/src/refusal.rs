//! Refusals: why a call did nothing.

use std::error::Error;
use std::fmt;

/// Why a call was refused. A refused call has changed nothing: neither the map nor a word of its
/// memory.
///
/// ```
/// use hestrovik::{PrefixMap, Refusal};
///
/// let mut map = PrefixMap::new(6, 8)?;
/// let refusal = map.insert((0x0A000113, 32), 1).unwrap_err(); // a first /32 needs 7 nodes
/// assert_eq!(refusal, Refusal::NoRoom);
/// assert_eq!(refusal.number(), 4);
/// assert_eq!(refusal.to_string(), "no room: a pool can't supply a block that the edit needs");
/// assert!(map.is_empty());
/// # Ok::<(), hestrovik::Refusal>(())
/// ```
///
/// That nothing covers a query, or that a rule isn't stored, is no refusal but an answer: `None`.
#[derive(Clone, Copy, Debug, PartialEq, Eq, Hash)]
#[non_exhaustive]
pub enum Refusal {
    /// The length is above 32.
    TooLong,
    /// A slice isn't exactly as long as its pool asks, or a pool's size is outside 1 to 65,536. A map
    /// that was started meets this no more.
    WrongSlices,
    /// A pool can't supply a block that the edit needs. A removal may meet this too: what stays
    /// behind may need a smaller block before the larger one is returned.
    NoRoom,
    /// The memory or the state isn't what the calls left. A map that nobody else writes to never
    /// meets this.
    Broken,
    /// A number that this crate doesn't know: the library that was linked isn't the one that it was
    /// written for.
    Unknown(u32),
}

impl Refusal {
    /// The refusal of a number.
    pub(crate) const fn of(number: u32) -> Refusal {
        match number {
            1 => Refusal::TooLong,
            3 => Refusal::WrongSlices,
            4 => Refusal::NoRoom,
            5 => Refusal::Broken,
            other => Refusal::Unknown(other),
        }
    }

    /// The number that the library gives for it.
    pub const fn number(self) -> u32 {
        match self {
            Refusal::TooLong => 1,
            Refusal::WrongSlices => 3,
            Refusal::NoRoom => 4,
            Refusal::Broken => 5,
            Refusal::Unknown(number) => number,
        }
    }
}

impl fmt::Display for Refusal {
    fn fmt(&self, f: &mut fmt::Formatter<'_>) -> fmt::Result {
        match self {
            Refusal::TooLong => f.write_str("the prefix length is above 32"),
            Refusal::WrongSlices => {
                f.write_str("a slice isn't exactly as long as its pool asks, or a pool's size is outside 1 to 65,536")
            }
            Refusal::NoRoom => {
                f.write_str("no room: a pool can't supply a block that the edit needs")
            }
            Refusal::Broken => {
                f.write_str("broken memory: the words or the state aren't what the map's calls left")
            }
            Refusal::Unknown(number) => {
                write!(f, "number {number}, which this crate doesn't know: the library that is linked is another one")
            }
        }
    }
}

impl Error for Refusal {}

#[cfg(test)]
mod tests {
    use super::*;

    #[test]
    fn every_number_is_its_refusals() {
        for number in 0..20 {
            let refusal = Refusal::of(number);
            assert_eq!(refusal.number(), number);
            let known = matches!(number, 1 | 3 | 4 | 5);
            assert_eq!(refusal == Refusal::Unknown(number), !known);
        }
    }

    #[test]
    fn words_differ() {
        let all = [1, 3, 4, 5, 9, 10].map(|number| Refusal::of(number).to_string());
        for (at, words) in all.iter().enumerate() {
            assert!(!words.is_empty() && !all[..at].contains(words), "{words}");
        }
    }
}
