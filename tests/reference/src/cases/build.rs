//! What cases are made of: sound words, buckets and records, small and likely to meet, and sound cases of every call.

use crate::case::{self, Case};
use crate::desk::{Floor, List, MOST_DEPTH, SMALL_BUCKETS};
use crate::index::Index;
use crate::memory::BUCKET_WORDS;
use crate::outcome::outcome;
use crate::random::Random;
use crate::record::{Record, INSERT, LOOK, NONE, REMOVE};
use crate::word::{Snapshot, MAP_INVLD, MAP_VALID};

/// Numbers at the ends of bytes, half words, words and the number format.
pub const EDGES: [u64; 12] = [
    0,
    1,
    3,
    247,
    248,
    255,
    256,
    4_294_967_295,
    4_294_967_296,
    1 << 63,
    u64::MAX - 1,
    u64::MAX,
];

/// Tickets at the ends of their low half and of the whole (§3.5), and about the highest bit.
pub const LONG_ENDS: [u64; 8] = [
    4_294_967_294,
    4_294_967_295,
    4_294_967_296,
    4_294_967_297,
    (1 << 63) - 1,
    1 << 63,
    u64::MAX - 1,
    u64::MAX,
];

/// The places of each kind.
pub fn places(kind: u8) -> &'static [u8] {
    match kind {
        LOOK => &[2, 3, 4, 5],
        INSERT => &[1, 2, 3, 4, 5, 6, 7, 8, 9, 10],
        _ => &[1, 11, 12, 13],
    }
}

/// What held may be for a kind at a place.
pub fn helds(kind: u8, place: u8) -> &'static [u8] {
    match (kind, place) {
        (INSERT, 1..=5) => &[0, 1, 2, 3],
        (INSERT, 7..=10) => &[0, 1, 2],
        _ => &[NONE],
    }
}

impl Random {
    /// A small number, so that keys and values meet, or seldom one at an edge.
    pub fn value(&mut self) -> u64 {
        if self.once_in(16) {
            return self.pick(&EDGES);
        }
        self.below(6)
    }

    pub fn version(&mut self) -> u32 {
        if self.once_in(10) {
            return u32::MAX;
        }
        self.below(3) as u32
    }

    pub fn slot(&mut self) -> u8 {
        self.below(3) as u8
    }

    pub fn busy_kind(&mut self) -> u8 {
        self.pick(&[LOOK, INSERT, REMOVE])
    }

    /// A sound mark word.
    pub fn word(&mut self) -> u64 {
        let version = self.version();
        let map = [self.slot(), self.slot(), self.slot()];
        mark_word(version, map)
    }

    /// A sound bucket.
    pub fn bucket(&mut self) -> [u64; BUCKET_WORDS] {
        let mut words = [0; BUCKET_WORDS];
        words[0] = self.word();
        for word in &mut words[1..7] {
            *word = self.value();
        }
        words
    }

    /// A sound busy record.
    pub fn record(&mut self, kind: u8, place: u8) -> Record {
        Record {
            kind,
            place,
            key: self.value(),
            ticket: if kind == INSERT { self.ticket() } else { 0 },
            slot: self.slot(),
            word: if kind == LOOK { 0 } else { self.word() },
            held: self.pick(helds(kind, place)),
            seen: self.value(),
            asleep: self.asleep(),
        }
    }

    /// §20.1: few turns, or a number at the end of its range, or any.
    pub fn asleep(&mut self) -> u32 {
        match self.below(8) {
            0 => u32::MAX,
            1 => u32::MAX - 1,
            2 => self.any() as u32,
            _ => self.below(4) as u32,
        }
    }

    pub fn any_record(&mut self) -> Record {
        let kind = self.busy_kind();
        let place = self.pick(places(kind));
        self.record(kind, place)
    }

    /// A sound record of an insert that holds a slot.
    pub fn holding_record(&mut self) -> Record {
        let place = self.pick(&[1, 2, 3, 4, 5, 7, 8, 9, 10]);
        let record = self.record(INSERT, place);
        let held = self.slot();
        Record { held, ..record }
    }

    /// A ticket of an insert: mostly a small one, so that tickets meet values.
    pub fn ticket(&mut self) -> u64 {
        match self.once_in(12) {
            true => self.pick(&LONG_ENDS),
            false => 1 + self.below(8),
        }
    }

    /// A floor's last ticket, above which there are some.
    pub fn last_ticket(&mut self) -> u64 {
        match self.once_in(12) {
            true => self.pick(&LONG_ENDS[..6]),
            false => self.below(9),
        }
    }

    /// A ticket above the last one, if there is any: mostly the next, seldom one far up.
    pub fn next_ticket(&mut self, last: u64) -> u64 {
        match self.below(40) {
            0 => last.saturating_add(1 << 32),
            1 => last.max(4_294_967_294).saturating_add(1),
            2 => last.saturating_add(1 << 62),
            _ => last.saturating_add(1),
        }
    }

    /// Mostly 1, so that cases are short.
    pub fn few(&mut self) -> u64 {
        self.pick(&[1, 1, 1, 2, 2, 3])
    }

    /// A depth of all orders, often at an end of its range.
    pub fn depth(&mut self) -> u64 {
        match self.below(8) {
            0 => 1,
            1 => MOST_DEPTH,
            _ => 2 + self.below(10),
        }
    }

    /// A case that is not refused, of small sizes.
    pub fn sound(&mut self, call: u8) -> Case {
        let (w, n) = (self.few(), self.few());
        match call {
            case::ORDERS => self.sound_sized(call, w, SMALL_BUCKETS),
            _ => self.sound_sized(call, w, n),
        }
    }

    /// A case that is not refused, with W and N as asked. All orders is, where they are no small class's.
    pub fn sound_sized(&mut self, call: u8, w: u64, n: u64) -> Case {
        let worker = self.below(w);
        let mut records = vec![Record::idle(); w as usize];
        // of a long list the first records and the last, so that its lines stay short
        for at in (0..w).filter(|at| *at < 3 || at + 1 == w) {
            if !self.once_in(3) {
                records[at as usize] = self.any_record();
            }
        }
        let mut case = Case {
            call,
            floor: Floor {
                workers: w,
                buckets: n,
                last_ticket: self.last_ticket(),
                version: self.version(),
            },
            worker,
            lot: self.value(),
            ticket: 0,
            board: self.board(n),
            list: List { length: w, records },
            index: Vec::new(),
            second: Vec::new(),
            turns: Vec::new(),
        };
        self.fit(&mut case);
        count_index(&mut case);
        case
    }

    /// Makes what the call itself is given acceptable.
    fn fit(&mut self, case: &mut Case) {
        let worker = case.worker as usize;
        match case.call {
            case::OPEN => {
                (case.worker, case.lot) = (case.floor.workers, case.floor.buckets);
                case.ticket = self.version().into();
                case.floor.workers = self.value();
                case.floor.buckets = self.value();
            }
            case::LOOK | case::INSERT | case::REMOVE => {
                case.list.records[worker] = Record::idle();
                case.ticket = case.floor.last_ticket + 1 + self.below(3);
            }
            case::TURN | case::RUN | case::RETIRE => {
                case.list.records[worker] = self.any_record();
                case.turns = vec![worker as u8; 1];
            }
            case::ORDERS => case.worker = self.depth(),
            case::NEXT => case.worker = self.below(case.floor.buckets + 2),
            case::MOVE => {
                case.list.records.fill(Record::idle());
                let n = self.pick(&[1, 2, 2, 3, 3, 4, 5, case.floor.buckets]);
                self.go_to(case, n);
                settle(case);
            }
            _ => (),
        }
    }

    /// A move goes to so many buckets, on a board that is filled with anything.
    pub fn go_to(&mut self, case: &mut Case, n: u64) {
        case.worker = n;
        case.second = vec![self.value(); BUCKET_WORDS * n as usize];
        let start = BUCKET_WORDS * self.below(n) as usize;
        case.second[start..start + BUCKET_WORDS].copy_from_slice(&self.bucket());
        // a large board is mostly zeros, so that its lines stay short
        if n > 5 {
            case.floor.version = 0;
        }
    }

    /// A sound board; a large one is empty but for three buckets.
    pub fn board(&mut self, n: u64) -> Vec<u64> {
        let mut words = vec![0; BUCKET_WORDS * n as usize];
        for _ in 0..n.min(3) {
            let start = BUCKET_WORDS * self.below(n) as usize;
            words[start..start + BUCKET_WORDS].copy_from_slice(&self.bucket());
        }
        words
    }

    /// A turn of a worker with this record on a bucket of these words.
    pub fn turn_of(&mut self, record: Record, bucket: [u64; BUCKET_WORDS]) -> Case {
        let mut case = self.sound(case::TURN);
        case.list.records[case.worker as usize] = record;
        set_bucket(&mut case, record.key, bucket);
        case
    }
}

/// The mark word of a version and marks.
pub fn mark_word(version: u32, map: [u8; 3]) -> u64 {
    let word = Snapshot {
        version,
        map,
        byte_7: 0,
    };
    word.snapshot()
}

/// The bucket of a lot gets these words, and the index is true of the board again.
pub fn set_bucket(case: &mut Case, lot: u64, bucket: [u64; BUCKET_WORDS]) {
    let start = BUCKET_WORDS * (lot % case.floor.buckets) as usize;
    case.board[start..start + BUCKET_WORDS].copy_from_slice(&bucket);
    count_index(case);
}

/// What keeps a move back is taken off the board: a mark 2 becomes 1, and what would be the fourth lot of its new bucket is no lot.
pub fn settle(case: &mut Case) {
    let n = case.worker;
    let mut lots = vec![0; n as usize];
    for bucket in case.board.chunks_mut(BUCKET_WORDS) {
        let mut word = Snapshot::of(bucket[0]);
        for slot in 0..3 {
            let before = &mut lots[(bucket[1 + slot] % n) as usize];
            word.map[slot] = match (word.map[slot], *before) {
                (MAP_INVLD, _) | (_, 3) => MAP_INVLD,
                _ => MAP_VALID,
            };
            *before += u64::from(word.map[slot]);
        }
        bucket[0] = word.snapshot();
    }
}

/// The case stands on what it has left itself: floor, board, records and index.
pub fn leave(case: &mut Case) {
    let after = outcome(case);
    case.board = after.next_board();
    case.floor = after.floor;
    case.list.records = after.records;
    case.index = after.index;
}

/// A bucket's bit of the index becomes the other.
pub fn flip_bit(index: &mut [u64], bucket: u64) {
    index[1 + bucket as usize / 64] ^= 1 << (bucket % 64);
}

/// The index becomes the one that is true of the board.
pub fn count_index(case: &mut Case) {
    case.index = Index::counted(&case.board).0;
}

/// W is another, and the list as long as that, if a list can be.
pub fn set_workers(case: &mut Case, w: u64) {
    match case.call {
        case::OPEN => case.worker = w,
        _ => case.floor.workers = w,
    }
    set_list(case, w);
}

/// N is another, and nothing else.
pub fn set_buckets(case: &mut Case, n: u64) {
    match case.call {
        case::OPEN => case.lot = n,
        _ => case.floor.buckets = n,
    }
}

/// The list is of another length, or as long as a case's can be; records are dropped at its end, or idle ones put there.
pub fn set_list(case: &mut Case, length: u64) {
    let length = length.min(case::MOST_RECORDS);
    case.list.length = length;
    case.list.records.resize(length as usize, Record::idle());
}
