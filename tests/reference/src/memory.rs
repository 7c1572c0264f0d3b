//! The lent board, and a bucket as the report's `bucket_t` has it.

use crate::word::{snap_set_map, Snapshot, MAP_INVLD};
use std::cell::Cell;
use std::rc::Rc;

/// §2.3.
pub const BUCKET_WORDS: usize = 8;

const KEYS: usize = 1;
const VALUES: usize = 4;
const SPARE: usize = 7;

/// The board that all calls share; any number of words.
#[derive(Clone)]
pub struct Board(Rc<[Cell<u64>]>);

impl Board {
    pub fn of(words: &[u64]) -> Board {
        Board(words.iter().map(|&word| Cell::new(word)).collect())
    }

    pub fn words(&self) -> Vec<u64> {
        self.0.iter().map(Cell::get).collect()
    }

    pub fn len(&self) -> usize {
        self.0.len()
    }

    pub fn is_empty(&self) -> bool {
        self.0.is_empty()
    }

    pub fn set(&self, at: usize, word: u64) {
        self.0[at].set(word);
    }

    pub fn bucket(&self, number: usize) -> Bucket {
        Bucket {
            board: self.clone(),
            number,
        }
    }

    /// All that are whole, in their order.
    pub fn buckets(&self) -> impl Iterator<Item = Bucket> + '_ {
        (0..self.len() / BUCKET_WORDS).map(|number| self.bucket(number))
    }

    /// §2.10: every bucket has this version, empty marks and zeros.
    pub fn clear(&self, version: u32) {
        let empty = Snapshot {
            version,
            map: [MAP_INVLD; 3],
            byte_7: 0,
        };
        for at in 0..self.len() {
            let is_mark_word = at % BUCKET_WORDS == 0;
            self.set(at, if is_mark_word { empty.snapshot() } else { 0 });
        }
    }
}

/// `bucket_t`: where a call's memory actions go.
#[derive(Clone)]
pub struct Bucket {
    board: Board,
    pub number: usize,
}

impl Bucket {
    /// §2.3: where a bucket begins, and so many words on.
    fn cell(&self, at: usize) -> &Cell<u64> {
        &self.board.0[self.number * BUCKET_WORDS + at]
    }

    pub fn snapshot(&self) -> u64 {
        self.cell(0).get()
    }

    pub fn set_snapshot(&self, word: u64) {
        self.cell(0).set(word);
    }

    pub fn map(&self, index: u8) -> u8 {
        Snapshot::of(self.snapshot()).map[index as usize]
    }

    /// A store of one byte of the mark word.
    pub fn set_map(&self, index: u8, mark: u8) {
        self.set_snapshot(snap_set_map(self.snapshot(), index, mark));
    }

    pub fn key(&self, index: u8) -> u64 {
        self.cell(KEYS + index as usize).get()
    }

    pub fn set_key(&self, index: u8, key: u64) {
        self.cell(KEYS + index as usize).set(key);
    }

    pub fn val(&self, index: u8) -> u64 {
        self.cell(VALUES + index as usize).get()
    }

    pub fn set_val(&self, index: u8, val: u64) {
        self.cell(VALUES + index as usize).set(val);
    }

    pub fn valid_slots(&self) -> u64 {
        Snapshot::of(self.snapshot()).valid_slots()
    }

    /// §2.7.
    pub fn is_broken(&self) -> bool {
        !Snapshot::of(self.snapshot()).is_sound() || self.cell(SPARE).get() != 0
    }
}
