//! Directed cases: every cause of a broken record and of a broken bucket, and what is broken elsewhere.

use super::build::{places, set_bucket};
use super::Bodies;
use crate::case::{COUNT, INSERT, LOOK, MOVE, ORDERS, REMOVE, RETIRE, RUN, SHOW, TURN};
use crate::memory::BUCKET_WORDS;
use crate::random::Random;
use crate::record::{Record, NONE};
use crate::word::Snapshot;

pub fn make(bodies: &mut Bodies) {
    for record in broken_records(&mut bodies.random) {
        let start = bodies.random.pick(&[LOOK, INSERT, REMOVE]);
        for call in [start, TURN, RUN, ORDERS, RETIRE, MOVE] {
            with_record(bodies, call, record);
        }
        beside(bodies, record);
    }
    for spoil in BUCKETS {
        with_bucket(bodies, ORDERS, 1, spoil);
    }
    for n in [1, 2, 3] {
        for spoil in BUCKETS {
            for call in [TURN, RUN, SHOW, COUNT, RETIRE] {
                with_bucket(bodies, call, n, spoil);
            }
            under_nothing_held(bodies, n, spoil);
        }
    }
    elsewhere(bodies);
}

/// The call on a worker with this record. All orders and a move are on every worker, so there it can be any.
fn with_record(bodies: &mut Bodies, call: u8, record: Record) {
    let mut case = bodies.random.sound(call);
    let worker = match call {
        ORDERS | MOVE => bodies.random.below(case.floor.workers),
        _ => case.worker,
    };
    case.list.records[worker as usize] = record;
    bodies.push(case);
}

/// §20.2: a turn of somebody else, which leaves this record as it is.
fn beside(bodies: &mut Bodies, record: Record) {
    let mut case = bodies.random.sound_sized(TURN, 2, 1);
    case.list.records[1 - case.worker as usize] = record;
    bodies.push(case);
}

fn broken_records(random: &mut Random) -> Vec<Record> {
    let mut records = Vec::new();
    broken_kinds(random, &mut records);
    broken_idle(&mut records);
    broken_places(random, &mut records);
    broken_tickets(random, &mut records);
    broken_helds(random, &mut records);
    broken_slots(random, &mut records);
    broken_words(random, &mut records);
    records
}

/// A sound record of this kind at one of its places.
fn sound(random: &mut Random, kind: u8) -> Record {
    let place = random.pick(places(kind));
    random.record(kind, place)
}

fn broken_kinds(random: &mut Random, records: &mut Vec<Record>) {
    for kind in [4, 5, 255] {
        for mut record in [random.any_record(), Record::idle()] {
            record.kind = kind;
            records.push(record);
        }
    }
}

fn broken_idle(records: &mut Vec<Record>) {
    let fills: [fn(&mut Record); 19] = [
        |record| record.place = 1,
        |record| record.key = 7,
        |record| record.ticket = 1,
        |record| record.ticket = 4_294_967_295,
        |record| record.ticket = 1 << 32,
        |record| record.ticket = u64::MAX,
        |record| record.slot = 1,
        |record| record.word = 1,
        |record| record.seen = 1,
        |record| record.held = 0,
        |record| record.held = 1,
        |record| record.held = 2,
        |record| record.held = 4,
        |record| record.held = 255,
        |record| record.asleep = 1,
        |record| record.asleep = 256,
        |record| record.asleep = 65_536,
        |record| record.asleep = u32::MAX - 1,
        |record| record.asleep = u32::MAX,
    ];
    for fill in fills {
        let mut record = Record::idle();
        fill(&mut record);
        records.push(record);
    }
}

fn broken_places(random: &mut Random, records: &mut Vec<Record>) {
    let outside: [(u8, &[u8]); 3] = [
        (LOOK, &[0, 1, 6, 11, 255]),
        (INSERT, &[0, 11, 13, 255]),
        (REMOVE, &[0, 2, 5, 10, 14, 255]),
    ];
    for (kind, places) in outside {
        for &place in places {
            let mut record = sound(random, kind);
            record.place = place;
            record.held = 3;
            records.push(record);
        }
    }
}

fn broken_tickets(random: &mut Random, records: &mut Vec<Record>) {
    let mut insert = sound(random, INSERT);
    insert.ticket = 0;
    records.push(insert);
    for kind in [LOOK, REMOVE] {
        // the third has nothing in its low half
        for ticket in [1, 4_294_967_295, 1 << 32, u64::MAX] {
            let mut record = sound(random, kind);
            record.ticket = ticket;
            records.push(record);
        }
    }
}

fn broken_helds(random: &mut Random, records: &mut Vec<Record>) {
    for kind in [LOOK, REMOVE] {
        for held in [0, 1, 2, 4, 255] {
            let mut record = sound(random, kind);
            record.held = held;
            records.push(record);
        }
    }
    for place in 1..=10 {
        let wrong: &[u8] = match place {
            1..=5 => &[4, 255],
            6 => &[0, 1, 2, 4, 255],
            _ => &[3, 4, 255],
        };
        for &held in wrong {
            let mut record = random.record(INSERT, place);
            record.held = held;
            records.push(record);
        }
    }
}

fn broken_slots(random: &mut Random, records: &mut Vec<Record>) {
    for kind in [LOOK, INSERT, REMOVE] {
        for slot in [3, 255] {
            let mut record = sound(random, kind);
            record.slot = slot;
            records.push(record);
        }
    }
}

fn broken_words(random: &mut Random, records: &mut Vec<Record>) {
    for kind in [INSERT, REMOVE] {
        for spoil in BUCKETS.iter().filter(|spoil| spoil.at < 8) {
            let mut record = sound(random, kind);
            record.word = spoil.word(record.word);
            records.push(record);
        }
    }
    for word in [1, 1 << 32, 2 << 40, 3 << 48] {
        let mut record = sound(random, LOOK);
        record.word = word;
        records.push(record);
    }
}

/// A way to break a bucket: a byte of the mark word, or at 8 the spare word.
#[derive(Clone, Copy)]
pub struct Spoil {
    at: usize,
    with: u64,
}

const fn spoil(at: usize, with: u64) -> Spoil {
    Spoil { at, with }
}

pub const BUCKETS: [Spoil; 19] = [
    spoil(4, 3),
    spoil(4, 4),
    spoil(4, 128),
    spoil(4, 255),
    spoil(5, 3),
    spoil(5, 4),
    spoil(5, 128),
    spoil(5, 255),
    spoil(6, 3),
    spoil(6, 4),
    spoil(6, 128),
    spoil(6, 255),
    spoil(7, 1),
    spoil(7, 2),
    spoil(7, 128),
    spoil(7, 255),
    spoil(8, 1),
    spoil(8, 1 << 40),
    spoil(8, 1 << 63),
];

impl Spoil {
    /// The mark word, spoilt.
    fn word(self, word: u64) -> u64 {
        let mut s = Snapshot::of(word);
        match self.at {
            7 => s.byte_7 = self.with as u8,
            at => s.map[at - 4] = self.with as u8,
        }
        s.snapshot()
    }

    /// The bucket, spoilt.
    pub fn spoil(self, words: &mut [u64]) {
        match self.at {
            8 => words[7] = self.with,
            _ => words[0] = self.word(words[0]),
        }
    }

    fn bucket(self, random: &mut Random) -> [u64; BUCKET_WORDS] {
        let mut words = random.bucket();
        self.spoil(&mut words);
        words
    }
}

/// A case whose bucket is broken in this way, and no other bucket.
fn with_bucket(bodies: &mut Bodies, call: u8, n: u64, spoil: Spoil) {
    let mut case = bodies.random.sound_sized(call, 1, n);
    if call == RETIRE {
        case.list.records[0] = bodies.random.holding_record();
    }
    let lot = match call {
        TURN | RUN | RETIRE => case.list.records[0].key,
        _ => case.lot,
    };
    let bucket = spoil.bucket(&mut bodies.random);
    set_bucket(&mut case, lot, bucket);
    bodies.push(case);
}

/// A worker that holds nothing is retired, whose lot's bucket is broken in this way.
fn under_nothing_held(bodies: &mut Bodies, n: u64, spoil: Spoil) {
    let mut case = bodies.random.sound_sized(RETIRE, 1, n);
    let kind = bodies.random.busy_kind();
    // of an insert some of those places at which it may hold nothing
    let place = bodies.random.pick(&places(kind)[..4]);
    let record = Record {
        held: NONE,
        ..bodies.random.record(kind, place)
    };
    case.list.records[0] = record;
    let bucket = spoil.bucket(&mut bodies.random);
    set_bucket(&mut case, record.key, bucket);
    bodies.push(case);
}

/// What is broken in another bucket or another record, which matters to a count alone.
fn elsewhere(bodies: &mut Bodies) {
    for spoil in BUCKETS {
        for call in [LOOK, INSERT, REMOVE, TURN, RUN, SHOW, COUNT, RETIRE] {
            let mut case = bodies.random.sound_sized(call, 2, 2);
            let own = match call {
                TURN | RUN | RETIRE => case.list.records[case.worker as usize].key,
                // a start does not look at the bucket at all
                LOOK | INSERT | REMOVE => case.lot.wrapping_add(bodies.random.below(2)),
                _ => case.lot,
            };
            let bucket = spoil.bucket(&mut bodies.random);
            set_bucket(&mut case, own ^ 1, bucket);
            let mut record = bodies.random.any_record();
            record.slot = 3;
            case.list.records[1 - case.worker as usize % 2] = record;
            bodies.push(case);
        }
    }
}
