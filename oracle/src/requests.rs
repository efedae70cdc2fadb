//! Leaf requests: every countable input, crossed with keys and bitmaps by seed.

use crate::leaves::{data_bits, op, Request};
use crate::seed::Seed;

/// Keys and bitmaps that are always among them.
const CORNERS: [u32; 10] = [
    0,
    1,
    0x0a00_0113,
    0x0a00_0100,
    0x5555_5555,
    0x7fff_ffff,
    0x8000_0000,
    0xaaaa_aaaa,
    0xffff_fffe,
    0xffff_ffff,
];

/// A data bitmap has no bit 31.
const DATA_BITS: u32 = 0x7fff_ffff;

/// Which lengths the cover functions are asked about: those in the node, or those past it, where the
/// crate clamps the level and the port gives nothing.
#[derive(Clone, Copy, Debug, PartialEq, Eq)]
pub enum Lengths {
    Inside,
    Past,
}

/// All requests with lengths in the node, or with [`Lengths::Past`] those of the cover functions
/// alone; corners and `keys` random keys each.
pub fn requests(seed: u64, keys: u32, lengths: Lengths) -> Vec<Request> {
    let mut maker = Maker::new(seed, keys);
    if lengths == Lengths::Inside {
        maker.tiers_and_tables();
        maker.bits();
        maker.keys_and_depths();
        maker.matches();
    }
    maker.covers(lengths);
    maker.made
}

struct Maker {
    seed: Seed,
    keys: Vec<u32>,
    made: Vec<Request>,
}

impl Maker {
    fn new(seed: u64, keys: u32) -> Maker {
        let mut seed = Seed::new(seed);
        let random = (0..keys).map(|_| seed.next_u32());
        let keys = CORNERS.into_iter().chain(random).collect();
        Maker {
            seed,
            keys,
            made: Vec::new(),
        }
    }

    fn ask(&mut self, op: u32, [a, b, c, d]: [u32; 4]) {
        self.made.push(Request { op, a, b, c, d });
    }

    /// What takes nothing but a small number.
    fn tiers_and_tables(&mut self) {
        let counted = [
            (op::DATA_TIER, 32),
            (op::CHILD_TIER, 33),
            (op::DATA_SPACING, 7),
            (op::CHILD_SPACING, 7),
            (op::LEX_ORDER, 63),
            (op::LEX_AFTER_DATA, 31),
            (op::LEX_AFTER_CHILD, 32),
            (op::DATA_BIT_TO_PREFIX, 31),
        ];
        for (op, end) in counted {
            for a in 0..end {
                self.ask(op, [a, 0, 0, 0]);
            }
        }
        for entry in 0..240 {
            self.ask(op::PATTERN, [entry / 80, entry / 16 % 5, entry % 16, 0]);
        }
    }

    /// What takes a bitmap and a bit; the keys serve as bitmaps.
    fn bits(&mut self) {
        for bitmap in self.keys.clone() {
            for bit in 0..32 {
                self.ask(op::COMPUTE_SLOT, [bitmap, bit, 0, 0]);
                self.ask(op::HAS_CHILD_BIT, [bitmap, bit, 0, 0]);
                self.ask(op::SET_CHILD_BIT, [bitmap, bit, 0, 0]);
                self.ask(op::UNSET_CHILD_BIT, [bitmap, bit, 0, 0]);
            }
            for bit in 0..31 {
                self.ask(op::HAS_DATA_BIT, [bitmap & DATA_BITS, bit, 0, 0]);
                self.ask(op::SET_DATA_BIT, [bitmap & DATA_BITS, bit, 0, 0]);
                self.ask(op::UNSET_DATA_BIT, [bitmap & DATA_BITS, bit, 0, 0]);
            }
        }
    }

    /// What takes a key and lengths, depths, offsets or bits.
    fn keys_and_depths(&mut self) {
        for key in self.keys.clone() {
            for length in 0..=32 {
                self.ask(op::DATA_BIT, [key, length, 0, 0]);
                self.ask(op::MASKED, [key, length, 0, 0]);
            }
            for depth in (0..=25).step_by(5) {
                self.ask(op::CHILD_BIT, [depth, key, 0, 0]);
            }
            for depth in (0..=30).step_by(5) {
                for offset in 0..32 {
                    self.ask(op::EXTEND_REPR, [key, depth, offset, 0]);
                }
                for bit in 0..data_bits(depth) {
                    self.ask(op::RECONSTRUCT_PREFIX, [depth, key, bit, 0]);
                }
            }
        }
    }

    /// Longest and shortest in a node, at every length that a walk through it may have.
    fn matches(&mut self) {
        for key in self.keys.clone() {
            for depth in (0..=30).step_by(5) {
                for length in depth..=32 {
                    self.ask(op::DATA_LPM_MASK, [depth, key, length, 0]);
                    for bitmap in self.bitmaps() {
                        let bitmap = bitmap & DATA_BITS;
                        self.ask(op::DATA_LPM_LOC, [bitmap, depth, key, length]);
                        self.ask(op::DATA_SPM_LOC, [bitmap, depth, key, length]);
                    }
                }
            }
        }
    }

    /// What a prefix covers in a node.
    fn covers(&mut self, lengths: Lengths) {
        for key in self.keys.clone() {
            for depth in (0..=30).step_by(5) {
                let asked = match lengths {
                    Lengths::Inside => depth..33.min(depth + 5),
                    Lengths::Past => depth + 5..33,
                };
                for length in asked {
                    self.covers_at(depth, key, length);
                }
            }
        }
    }

    fn covers_at(&mut self, depth: u32, key: u32, length: u32) {
        let children = depth < 30;
        self.ask(op::DATA_COVER_MASK, [depth, key, length, 0]);
        if children {
            self.ask(op::CHILD_COVER_MASK, [depth, key, length, 0]);
        }
        for bitmap in self.bitmaps() {
            self.ask(
                op::DATA_COVER_LOCS,
                [bitmap & DATA_BITS, depth, key, length],
            );
            if children {
                self.ask(op::CHILD_COVER_LOCS, [bitmap, depth, key, length]);
            }
        }
    }

    /// A full bitmap, and by seed a half, a quarter and an eighth full one.
    fn bitmaps(&mut self) -> [u32; 4] {
        let half = self.seed.next_u32();
        let quarter = half.rotate_left(7) & self.seed.next_u32();
        let eighth = quarter.rotate_left(11) & self.seed.next_u32();
        [u32::MAX, half, quarter, eighth]
    }
}
