//! Prefixes: a key and how many of its leading bits count.

use std::fmt;

/// The longest length of a prefix.
pub const LENGTH_MAX: u8 = 32;

/// A prefix: the first `prefix_len` bits of a 32-bit key.
///
/// The other bits of the key don't count: they are masked to zero when a prefix is made, so that two
/// prefixes are equal exactly where they mean the same.
///
/// ```
/// use hestrovik::Prefix;
///
/// let batch = Prefix::new(0x0A000113, 27);
/// assert_eq!(batch.key(), 0x0A000100);
/// assert_eq!(batch, Prefix::new(0x0A000100, 27));
/// assert_eq!(batch.to_string(), "0A000100/27");
/// ```
///
/// Calls take anything that turns into one: a `Prefix`, a pair `(u32, u8)`, or a reference to either.
///
/// A length above 32 can be written down and means nothing; every call that gets it answers
/// [`Refusal::TooLong`](crate::Refusal::TooLong). Its key is kept as it is.
#[derive(Clone, Copy, Debug, PartialEq, Eq, Hash, PartialOrd, Ord)]
pub struct Prefix {
    key: u32,
    prefix_len: u8,
}

impl Prefix {
    /// The first `prefix_len` bits of a key.
    pub const fn new(key: u32, prefix_len: u8) -> Prefix {
        let key = key & mask(prefix_len);
        Prefix { key, prefix_len }
    }

    /// The key, zero behind the length.
    pub const fn key(self) -> u32 {
        self.key
    }

    /// How many leading bits count.
    pub const fn prefix_len(self) -> u8 {
        self.prefix_len
    }

    /// Whether this prefix covers another: it isn't longer, and its bits are the other's first ones.
    /// It contains itself. A length above 32 contains nothing and lies in nothing.
    ///
    /// ```
    /// use hestrovik::Prefix;
    ///
    /// let batch = Prefix::new(0x0A000100, 27);
    /// assert!(batch.contains(Prefix::new(0x0A000113, 32)));
    /// assert!(batch.contains(batch));
    /// assert!(!batch.contains(Prefix::new(0x0A000100, 26)));
    /// ```
    pub const fn contains(self, other: Prefix) -> bool {
        self.prefix_len <= other.prefix_len
            && other.prefix_len <= LENGTH_MAX
            && other.key & mask(self.prefix_len) == self.key
    }
}

/// The leading bits of a length; all of them from 32 on.
const fn mask(prefix_len: u8) -> u32 {
    if prefix_len >= LENGTH_MAX {
        u32::MAX
    } else {
        !(u32::MAX >> prefix_len)
    }
}

impl From<(u32, u8)> for Prefix {
    fn from((key, prefix_len): (u32, u8)) -> Prefix {
        Prefix::new(key, prefix_len)
    }
}

impl From<&(u32, u8)> for Prefix {
    fn from(pair: &(u32, u8)) -> Prefix {
        Prefix::from(*pair)
    }
}

impl From<&Prefix> for Prefix {
    fn from(prefix: &Prefix) -> Prefix {
        *prefix
    }
}

impl From<Prefix> for (u32, u8) {
    fn from(prefix: Prefix) -> (u32, u8) {
        (prefix.key, prefix.prefix_len)
    }
}

/// Eight hexadecimal digits, a slash and the length.
impl fmt::Display for Prefix {
    fn fmt(&self, f: &mut fmt::Formatter<'_>) -> fmt::Result {
        write!(f, "{:08X}/{}", self.key, self.prefix_len)
    }
}

#[cfg(test)]
mod tests {
    use super::*;

    #[test]
    fn bits_behind_the_length_are_zero() {
        let all = u32::MAX;
        assert_eq!(Prefix::new(all, 0).key(), 0);
        assert_eq!(Prefix::new(all, 1).key(), 0x8000_0000);
        assert_eq!(Prefix::new(all, 31).key(), 0xFFFF_FFFE);
        assert_eq!(Prefix::new(all, 32).key(), all);
        for length in 0..=LENGTH_MAX {
            let key = Prefix::new(all, length).key();
            assert_eq!(
                (key.leading_ones(), key.count_ones()),
                (length.into(), length.into())
            );
        }
    }

    #[test]
    fn a_length_that_means_nothing_is_kept() {
        for length in [33, 64, 128, 255] {
            let prefix = Prefix::new(0x0A00_0113, length);
            assert_eq!(<(u32, u8)>::from(prefix), (0x0A00_0113, length));
            assert!(!prefix.contains(prefix));
            assert!(!Prefix::new(0, 0).contains(prefix));
        }
    }

    #[test]
    fn covering() {
        let held = Prefix::new(0x0A00_0113, 32);
        for length in 0..=LENGTH_MAX {
            assert!(Prefix::new(0x0A00_0113, length).contains(held));
            assert_eq!(
                held.contains(Prefix::new(0x0A00_0113, length)),
                length == 32
            );
            let other = Prefix::new(0x0A00_0113 ^ 0x8000_0000, length);
            assert_eq!(other.contains(held), length == 0);
        }
    }

    #[test]
    fn all_ways_in_give_the_same() {
        let prefix = Prefix::new(0x0A00_0113, 27);
        let pair = (0x0A00_0113, 27);
        assert_eq!(Prefix::from(pair), prefix);
        assert_eq!(Prefix::from(&pair), prefix);
        assert_eq!(Prefix::from(&prefix), prefix);
    }
}
