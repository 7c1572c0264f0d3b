//! The sentences of item 9 once more, each as a part of a reading that can be exchanged for another one; and the next occupied bucket by a
//! walk over all bits.

use reference::word::Snapshot;

/// Something that was done in a bucket, or would have been, and the index before it.
#[derive(Clone, Debug)]
pub struct Act {
    pub n: u64,
    pub bucket: u64,
    /// The mark word before and after.
    pub words: [u64; 2],
    /// The place of a turn, or RETIRED.
    pub place: u8,
    pub index: [u64; 5],
    /// How many slots of the whole board are valid before.
    pub on_board: u64,
}

/// No turn is at this place.
pub const RETIRED: u8 = 0;

/// How the sentences are read.
#[derive(Clone, Copy)]
pub struct Reading {
    /// Whether a mark counts.
    pub counts: fn(u8) -> bool,
    /// Which bit of which word is a bucket's.
    pub place_of_bit: fn(u64) -> (u64, u64),
    /// Whether a bucket of so many counted slots refutes this bit.
    pub refutes_bit: fn(bool, [u64; 2]) -> bool,
    /// The least and the greatest total, with so many counted slots.
    pub least: fn(u64) -> u64,
    pub greatest: fn(&Act, u64) -> u64,
    /// The total after, by the total before and the counted slots before and after.
    pub total: fn(&Act, u64, [u64; 2]) -> u64,
    /// The bit after, by the bit before and the same.
    pub bit: fn(bool, [u64; 2]) -> bool,
    /// Whether unused bits are taken away.
    pub clears_unused: bool,
}

pub const AS_LAID_DOWN: Reading = Reading {
    counts: |mark| mark == 1,
    place_of_bit: |bucket| (1 + bucket / 64, bucket % 64),
    refutes_bit: |bit, [before, _]| bit != (before > 0),
    least: |valid| valid,
    greatest: |act, valid| 3 * act.n - (3 - valid),
    total: |_, total, [before, after]| total.wrapping_sub(before).wrapping_add(after),
    bit: |_, [_, after]| after > 0,
    clears_unused: false,
};

/// What else they could be taken for; each has one part that is another.
pub const OTHERS: &[(&str, Reading)] = &[
    (
        "every mark but 0 counts",
        Reading {
            counts: |mark| mark != 0,
            ..AS_LAID_DOWN
        },
    ),
    (
        "mark 2 alone counts",
        Reading {
            counts: |mark| mark == 2,
            ..AS_LAID_DOWN
        },
    ),
    (
        "bits begin in word 0",
        Reading {
            place_of_bit: |bucket| (bucket / 64, bucket % 64),
            ..AS_LAID_DOWN
        },
    ),
    (
        "bits begin at the high end",
        Reading {
            place_of_bit: |bucket| (1 + bucket / 64, 63 - bucket % 64),
            ..AS_LAID_DOWN
        },
    ),
    (
        "buckets go round the words",
        Reading {
            place_of_bit: |bucket| (1 + bucket % 4, bucket / 4),
            ..AS_LAID_DOWN
        },
    ),
    (
        "the last word is not used",
        Reading {
            place_of_bit: |bucket| (1 + bucket / 64 % 3, bucket % 64),
            ..AS_LAID_DOWN
        },
    ),
    (
        "the bit is not looked at",
        Reading {
            refutes_bit: |_, _| false,
            ..AS_LAID_DOWN
        },
    ),
    (
        "only a bit that is set is looked at",
        Reading {
            refutes_bit: |bit, [before, _]| bit && before == 0,
            ..AS_LAID_DOWN
        },
    ),
    (
        "only a bit that is not set is looked at",
        Reading {
            refutes_bit: |bit, [before, _]| !bit && before > 0,
            ..AS_LAID_DOWN
        },
    ),
    (
        "the bit is looked at afterwards",
        Reading {
            refutes_bit: |bit, [_, after]| bit != (after > 0),
            ..AS_LAID_DOWN
        },
    ),
    (
        "any total is low enough",
        Reading {
            greatest: |_, _| u64::MAX,
            ..AS_LAID_DOWN
        },
    ),
    (
        "3N, and nothing less",
        Reading {
            greatest: |act, _| 3 * act.n,
            ..AS_LAID_DOWN
        },
    ),
    (
        "3N less its valid slots",
        Reading {
            greatest: |act, valid| 3 * act.n - valid,
            ..AS_LAID_DOWN
        },
    ),
    (
        "below 3N less its other slots",
        Reading {
            greatest: |act, valid| (3 * act.n - (3 - valid)).saturating_sub(1),
            ..AS_LAID_DOWN
        },
    ),
    (
        "3N of the largest board",
        Reading {
            greatest: |_, valid| 3 * 256 - (3 - valid),
            ..AS_LAID_DOWN
        },
    ),
    (
        "the board's own total alone",
        Reading {
            greatest: |act, _| act.on_board,
            ..AS_LAID_DOWN
        },
    ),
    (
        "any total is high enough",
        Reading {
            least: |_| 0,
            ..AS_LAID_DOWN
        },
    ),
    (
        "above its valid slots",
        Reading {
            least: |valid| valid + 1,
            ..AS_LAID_DOWN
        },
    ),
    (
        "a raised version is one lot more",
        Reading {
            total: |act, total, [before, after]| {
                let raised = act.words[0] as u32 != act.words[1] as u32;
                total - before.saturating_sub(after) + u64::from(raised)
            },
            ..AS_LAID_DOWN
        },
    ),
    (
        "commits and closes alone count",
        Reading {
            total: |act, total, [before, after]| match act.place {
                9 | 13 => total - before + after,
                _ => total,
            },
            ..AS_LAID_DOWN
        },
    ),
    (
        "retirings do not count",
        Reading {
            total: |act, total, [before, after]| match act.place {
                RETIRED => total,
                _ => total - before + after,
            },
            ..AS_LAID_DOWN
        },
    ),
    (
        "the total is taken from the board",
        Reading {
            total: |act, _, [before, after]| act.on_board - before + after,
            ..AS_LAID_DOWN
        },
    ),
    (
        "the total counts buckets",
        Reading {
            total: |_, total, [before, after]| total - u64::from(before > 0) + u64::from(after > 0),
            ..AS_LAID_DOWN
        },
    ),
    (
        "bits are set and stay",
        Reading {
            bit: |bit, [_, after]| bit || after > 0,
            ..AS_LAID_DOWN
        },
    ),
    (
        "any lot that goes takes the bit",
        Reading {
            bit: |_, [before, after]| after > 0 && after >= before,
            ..AS_LAID_DOWN
        },
    ),
    (
        "a bit is for a full bucket",
        Reading {
            bit: |_, [_, after]| after == 3,
            ..AS_LAID_DOWN
        },
    ),
    (
        "unused bits are taken away",
        Reading {
            clears_unused: true,
            ..AS_LAID_DOWN
        },
    ),
];

impl Reading {
    fn counted(&self, word: u64) -> u64 {
        let marks = Snapshot::of(word).map;
        marks.iter().filter(|&&mark| (self.counts)(mark)).count() as u64
    }

    /// The index after the act; none where it is refused by 11.
    pub fn after(&self, act: &Act) -> Option<[u64; 5]> {
        let counted = act.words.map(|word| self.counted(word));
        let valid = counted[0];
        let (word, bit) = (self.place_of_bit)(act.bucket);
        let (word, power) = (word as usize, 1_u64 << bit);
        let mut index = act.index;
        let is_set = index[word] / power % 2 == 1;
        let total = index[0];
        if (self.refutes_bit)(is_set, counted)
            || total < (self.least)(valid)
            || total > (self.greatest)(act, valid)
        {
            return None;
        }
        index[0] = (self.total)(act, total, counted);
        match (is_set, (self.bit)(is_set, counted)) {
            (false, true) => index[word] |= power,
            (true, false) => index[word] &= !power,
            _ => (),
        }
        if self.clears_unused {
            for bucket in act.n..256 {
                index[1 + bucket as usize / 64] &= !(1 << (bucket % 64));
            }
        }
        Some(index)
    }
}

/// Which buckets have their bit, of 256.
pub fn bits(index: &[u64]) -> Vec<bool> {
    let words = index[1..].iter();
    let bits = words.flat_map(|word| (0..64).map(move |bit| word / (1 << bit) % 2 == 1));
    bits.collect()
}

/// How the next occupied bucket is read from the bits.
pub type NextReading = fn(&[bool], u64, u64) -> Option<u64>;

/// The first in a range of buckets that has its bit.
fn first(bits: &[bool], mut range: std::ops::Range<u64>) -> Option<u64> {
    range.find(|&bucket| bits.get(bucket as usize).copied().unwrap_or(false))
}

pub const NEXT_AS_LAID_DOWN: NextReading = |bits, from, n| {
    let occupied = bits.iter().enumerate().filter(|(_, bit)| **bit);
    let mut buckets = occupied.map(|(bucket, _)| bucket as u64);
    buckets.find(|&bucket| from <= bucket && bucket < n)
};

pub const OTHER_NEXTS: &[(&str, NextReading)] = &[
    ("after and not at", |bits, from, n| {
        first(bits, from.saturating_add(1)..n)
    }),
    ("N too", |bits, from, n| first(bits, from..n + 1)),
    ("to the end of the bits", |bits, from, _| {
        first(bits, from..256)
    }),
    ("and round again", |bits, from, n| {
        first(bits, from..n).or(first(bits, 0..n))
    }),
    ("to the end of the word alone", |bits, from, n| {
        first(bits, from..n.min((from / 64 + 1).saturating_mul(64)))
    }),
    ("no more than one word on", |bits, from, n| {
        first(bits, from..n.min((from / 64 + 2).saturating_mul(64)))
    }),
    ("from the start of the word", |bits, from, n| {
        first(bits, from / 64 * 64..n)
    }),
    ("from a byte", |bits, from, n| first(bits, from % 256..n)),
    ("from 32 bits", |bits, from, n| {
        first(bits, from % (1 << 32)..n)
    }),
    ("from a bucket of the board", |bits, from, n| {
        first(bits, from % n..n)
    }),
    ("the last one before", |bits, from, n| {
        let range = 0..n.min(from.saturating_add(1));
        range.rev().find(|&bucket| bits[bucket as usize])
    }),
];
