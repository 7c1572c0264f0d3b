//! A case: one call with everything it is given, and its bytes. The format is described in README.md.

use crate::desk::{Floor, List};
use crate::record::Record;

/// The calls, by their number in a case.
pub const OPEN: u8 = 0;
pub const LOOK: u8 = 1;
pub const INSERT: u8 = 2;
pub const REMOVE: u8 = 3;
pub const TURN: u8 = 4;
pub const RUN: u8 = 5;
pub const SHOW: u8 = 6;
pub const COUNT: u8 = 7;
pub const ORDERS: u8 = 8;
pub const RETIRE: u8 = 9;
pub const TOTAL: u8 = 10;
pub const NEXT: u8 = 11;
pub const MOVE: u8 = 12;

pub const NAMES: [&str; 13] = [
    "open", "look", "insert", "remove", "turn", "run", "show", "count", "orders", "retire",
    "total", "next", "move",
];

/// A board of more words counts as one of so many.
pub const MOST_WORDS: u64 = 2_064;
/// A list of more records counts as one of so many: what a list can have, and as many more as a byte has values.
pub const MOST_RECORDS: u64 = 64 + 256;
/// An index of more words counts as one of so many: what an index has, and as many more as a bucket has.
pub const MOST_INDEX_WORDS: u64 = 5 + 8;
/// Turns past so many are left out.
pub const MOST_TURNS_READ: usize = 65_540;

/// The first byte of a longer number, less the number of bytes that follow.
const LONGER: u8 = 247;

#[derive(Clone, Debug, PartialEq, Eq)]
pub struct Case {
    pub call: u8,
    pub floor: Floor,
    /// For an opening: W. For all orders: the depth. For the next occupied bucket: the one that is asked from. For a move: the new N.
    pub worker: u64,
    /// For an opening: N.
    pub lot: u64,
    /// For an opening: the version is in its low half.
    pub ticket: u64,
    pub board: Vec<u64>,
    pub list: List,
    pub index: Vec<u64>,
    /// For a move: the board that it goes to.
    pub second: Vec<u64>,
    pub turns: Vec<u8>,
}

/// Takes a stream apart; each piece is a case with its length, the last one perhaps cut short.
pub fn pieces(stream: &[u8]) -> impl Iterator<Item = &[u8]> {
    let mut rest = stream;
    std::iter::from_fn(move || {
        let length = usize::from(u16::from_be_bytes([*rest.first()?, *rest.get(1)?]));
        let (piece, after) = rest.split_at(rest.len().min(2 + length));
        rest = after;
        Some(piece)
    })
}

/// A body with its length before it.
pub fn with_length(body: &[u8]) -> Vec<u8> {
    let length = u16::try_from(body.len()).expect("a body has at most 65,535 bytes");
    [&length.to_be_bytes(), body].concat()
}

impl Case {
    /// The case that a row of bytes is; every row is one.
    pub fn read(body: &[u8]) -> Case {
        let mut bytes = Bytes { body, at: 0 };
        let call = bytes.byte() % NAMES.len() as u8;
        let floor = Floor {
            workers: bytes.number(),
            buckets: bytes.number(),
            last_ticket: bytes.number(),
            version: bytes.number() as u32,
        };
        Case {
            call,
            floor,
            worker: bytes.number(),
            lot: bytes.number(),
            ticket: bytes.number(),
            board: bytes.words(MOST_WORDS),
            list: bytes.list(),
            index: bytes.words(MOST_INDEX_WORDS),
            second: bytes.words(MOST_WORDS),
            turns: bytes.turns(),
        }
    }

    /// The version that an opening asks for: of the number that is a ticket in other calls, what 32 bits can have.
    pub fn version(&self) -> u32 {
        self.ticket as u32
    }

    /// The bytes of the case, in the shortest form.
    pub fn write(&self) -> Vec<u8> {
        let mut body = vec![self.call];
        for number in [
            self.floor.workers,
            self.floor.buckets,
            self.floor.last_ticket,
            self.floor.version.into(),
            self.worker,
            self.lot,
            self.ticket,
        ] {
            push_number(&mut body, number);
        }
        push_words(&mut body, &self.board);
        push_number(&mut body, self.list.length);
        for (record, count) in groups(&self.list.records, 256) {
            body.push((count - 1) as u8);
            push_record(&mut body, &record);
        }
        push_words(&mut body, &self.index);
        push_words(&mut body, &self.second);
        for (worker, count) in groups(&self.turns, 65_535) {
            body.push(worker);
            body.extend((count as u16).to_be_bytes());
        }
        body
    }
}

/// Equal neighbours as one item with its count, at most so many at a time.
pub fn groups<T: PartialEq + Copy>(items: &[T], most: usize) -> Vec<(T, usize)> {
    let mut groups: Vec<(T, usize)> = Vec::new();
    for &item in items {
        match groups.last_mut() {
            Some((last, count)) if *last == item && *count < most => *count += 1,
            _ => groups.push((item, 1)),
        }
    }
    groups
}

fn push_number(body: &mut Vec<u8>, number: u64) {
    if number <= LONGER.into() {
        return body.push(number as u8);
    }
    let bytes = number.to_be_bytes();
    let first = bytes.iter().position(|&byte| byte != 0).unwrap_or(7);
    body.push(LONGER + (8 - first) as u8);
    body.extend(&bytes[first..]);
}

/// How many words there are, and the words in groups.
fn push_words(body: &mut Vec<u8>, words: &[u64]) {
    push_number(body, words.len() as u64);
    for (word, count) in groups(words, 256) {
        body.push((count - 1) as u8);
        push_number(body, word);
    }
}

fn push_record(body: &mut Vec<u8>, record: &Record) {
    for number in fields(record) {
        push_number(body, number);
    }
}

/// The fields in their order.
pub fn fields(record: &Record) -> [u64; 9] {
    [
        record.kind.into(),
        record.place.into(),
        record.key,
        record.ticket,
        record.slot.into(),
        record.word,
        record.held.into(),
        record.seen,
        record.asleep.into(),
    ]
}

/// A body that is being read; past its end there are zeros.
struct Bytes<'a> {
    body: &'a [u8],
    at: usize,
}

impl Bytes<'_> {
    fn byte(&mut self) -> u8 {
        let byte = self.body.get(self.at).copied().unwrap_or(0);
        self.at += 1;
        byte
    }

    fn number(&mut self) -> u64 {
        let first = self.byte();
        if first <= LONGER {
            return first.into();
        }
        (LONGER..first).fold(0, |number, _| number << 8 | u64::from(self.byte()))
    }

    /// A board or the index, of which there are so many words at most.
    fn words(&mut self, most: u64) -> Vec<u64> {
        let length = self.number().min(most) as usize;
        self.grouped(length, Bytes::number)
    }

    fn list(&mut self) -> List {
        let length = self.number().min(MOST_RECORDS);
        List {
            length,
            records: self.grouped(length as usize, Bytes::record),
        }
    }

    fn record(&mut self) -> Record {
        Record {
            kind: self.number() as u8,
            place: self.number() as u8,
            key: self.number(),
            ticket: self.number(),
            slot: self.number() as u8,
            word: self.number(),
            held: self.number() as u8,
            seen: self.number(),
            asleep: self.number() as u32,
        }
    }

    /// Groups of a byte and an item until so many items are there; what the last group has too many of is dropped.
    fn grouped<T: Clone>(&mut self, length: usize, item: impl Fn(&mut Self) -> T) -> Vec<T> {
        let mut items = Vec::new();
        while items.len() < length {
            let count = usize::from(self.byte()) + 1;
            let item = item(self);
            items.resize(length.min(items.len() + count), item);
        }
        items
    }

    fn turns(&mut self) -> Vec<u8> {
        let mut turns = Vec::new();
        while self.at < self.body.len() {
            let worker = self.byte();
            let count = usize::from(u16::from_be_bytes([self.byte(), self.byte()]));
            turns.resize(MOST_TURNS_READ.min(turns.len() + count), worker);
        }
        turns
    }
}
