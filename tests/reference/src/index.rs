//! The display's index (§21): how many slots are valid, and for each bucket whether any of its own is. It is lent as the board is, and may
//! have come from anywhere, so nothing in it need be true.

use crate::memory::BUCKET_WORDS;
use crate::word::Snapshot;

/// §21.1: the total, and four words of bits.
pub const INDEX_WORDS: usize = 5;

/// §21.1: where the bits begin, and how many stand in a word.
const FIRST_BITS: u64 = 1;
const BITS: u64 = 64;

/// Buckets that have a bit.
const MOST_BITS: usize = BITS as usize * (INDEX_WORDS - FIRST_BITS as usize);

/// Slots of a bucket.
const SLOTS: u64 = 3;

/// The lent index; any number of words.
#[derive(Clone, Debug, PartialEq, Eq)]
pub struct Index(pub Vec<u64>);

impl Index {
    /// §21.2: what an opening makes, since no slot is valid then.
    pub fn made() -> Index {
        Index(vec![0; INDEX_WORDS])
    }

    /// The index that is true of a board, by reading all of it. A board of more buckets than there are bits is read as far as these go.
    pub fn counted(board: &[u64]) -> Index {
        let mut index = Index::made();
        for (bucket, words) in board.chunks(BUCKET_WORDS).take(MOST_BITS).enumerate() {
            let valid = Snapshot::of(words[0]).valid_slots();
            index.keep(bucket as u64, 0, valid);
        }
        index
    }

    /// §6.1.
    pub fn is_sized(&self) -> bool {
        self.0.len() == INDEX_WORDS
    }

    /// §21.3.
    pub fn total(&self) -> u64 {
        self.0[0]
    }

    /// §21.1: bucket b has bit b mod 64 of word 1 + b div 64.
    pub fn is_occupied(&self, bucket: u64) -> bool {
        let word = self.0[(FIRST_BITS + bucket / BITS) as usize];
        (word >> (bucket % BITS)) & 1 == 1
    }

    fn set_occupied(&mut self, bucket: u64, occupied: bool) {
        let word = &mut self.0[(FIRST_BITS + bucket / BITS) as usize];
        let bit = 1 << (bucket % BITS);
        match occupied {
            true => *word |= bit,
            false => *word &= !bit,
        }
    }

    /// §21.4: of the buckets from this one on, and below N, the first whose bit is set.
    pub fn next_occupied(&self, from: u64, n: u64) -> Option<u64> {
        (from..n).find(|&bucket| self.is_occupied(bucket))
    }

    /// §21.5: whether a bucket with so many valid slots, of N buckets, does not refute the index. The total counts at least these slots, and
    /// at most all slots of the board but those of this bucket that are not valid.
    pub fn agrees(&self, bucket: u64, valid: u64, n: u64) -> bool {
        let others = SLOTS - valid;
        self.is_occupied(bucket) == (valid > 0)
            && self.total() >= valid
            && self.total() <= SLOTS * n - others
    }

    /// §21.2: the valid slots of a bucket were so many, and are so many now. The total counts the others of the board on.
    pub fn keep(&mut self, bucket: u64, before: u64, after: u64) {
        self.0[0] = self.0[0] - before + after;
        self.set_occupied(bucket, after > 0);
    }
}
