//! Directed cases: a worker is retired, from every place, whatever it holds and whatever stands there; and what follows on an opened board.

use super::build::{helds, leave, mark_word, places, set_bucket};
use super::refusals::{break_bucket, refute_index, spoil_size};
use super::Bodies;
use crate::case::{Case, COUNT, INSERT, LOOK, REMOVE, RETIRE, SHOW, TURN};
use crate::desk::{Desk, Manner};
use crate::memory::BUCKET_WORDS;
use crate::random::Random;
use crate::record::{Record, NONE};
use crate::word::{snap_set_map, MAP_INSRT};

type Words = [u64; BUCKET_WORDS];

const SLOTS: [u8; 3] = [0, 1, 2];
const MARKS: [u8; 3] = [0, 1, 2];

pub fn make(bodies: &mut Bodies) {
    refused(bodies);
    last_worker(bodies);
    every_place(bodies);
    every_mark(bodies);
    versions(bodies);
    nothing_held(bodies);
    buckets(bodies);
    tickets(bodies);
    beside(bodies);
    trials(bodies);
}

/// The worker has this record, and the bucket of its lot these words.
fn retiring(bodies: &mut Bodies, w: u64, n: u64, record: Record, words: Words) -> Case {
    let mut case = bodies.random.sound_sized(RETIRE, w, n);
    case.list.records[case.worker as usize] = record;
    set_bucket(&mut case, record.key, words);
    case
}

fn push(bodies: &mut Bodies, record: Record, words: Words) {
    let (w, n) = (bodies.random.few(), bodies.random.few());
    let case = retiring(bodies, w, n, record, words);
    bodies.push(case);
}

/// One reason or none, of a worker that holds a slot if it has a sound record or only its slot makes it broken; with the bucket broken
/// besides, and a board of a wrong length.
fn refused(bodies: &mut Bodies) {
    for why in [0, 2, 3, 6] {
        for broken in [false, true] {
            for spoilt in [false, true] {
                let record = bodies.random.holding_record();
                let words = bodies.random.bucket();
                let mut case = retiring(bodies, 2, 2, record, words);
                give_reason(&mut case, why);
                if broken {
                    // the lot of an idle worker is 0
                    let lot = if why == 6 { 0 } else { record.key };
                    break_bucket(&mut case, lot);
                }
                if spoilt {
                    spoil_size(&mut case);
                }
                bodies.push(case);
            }
        }
    }
}

fn give_reason(case: &mut Case, why: u8) {
    let worker = case.worker as usize;
    match why {
        2 => case.worker = case.floor.workers,
        3 => case.list.records[worker].slot = 3,
        6 => case.list.records[worker] = Record::idle(),
        _ => (),
    }
}

/// Worker 63 of 64: done, and refused for its record or its bucket.
fn last_worker(bodies: &mut Bodies) {
    for why in [0, 3, 6, 7, 11] {
        let mut case = bodies.random.sound_sized(RETIRE, 64, 1);
        case.worker = 63;
        case.list.records[63] = bodies.random.holding_record();
        give_reason(&mut case, why);
        match why {
            7 => break_bucket(&mut case, 0),
            11 => refute_index(&mut case, 0),
            _ => (),
        }
        bodies.push(case);
    }
}

/// Every place of every kind with everything that can be held there, and each slot that the call is at.
fn every_place(bodies: &mut Bodies) {
    for kind in [LOOK, INSERT, REMOVE] {
        for &place in places(kind) {
            for &held in helds(kind, place) {
                let record = bodies.random.record(kind, place);
                let words = bodies.random.bucket();
                push(bodies, Record { held, ..record }, words);
            }
        }
    }
    for slot in SLOTS {
        for held in [0, 1, 2, NONE] {
            let record = bodies.random.record(INSERT, 4);
            let words = bodies.random.bucket();
            let record = Record {
                slot,
                held,
                ..record
            };
            push(bodies, record, words);
        }
        for kind in [LOOK, REMOVE] {
            let record = bodies.random.record(kind, places(kind)[1]);
            let words = bodies.random.bucket();
            push(bodies, Record { slot, ..record }, words);
        }
    }
}

/// An insert that holds this slot. Its commit would win on this word, as after its claim, or its own word is any other.
fn holder(random: &mut Random, held: u8, word: u64) -> Record {
    let record = random.holding_record();
    let own = match random.once_in(2) {
        true => snap_set_map(word, held, MAP_INSRT),
        false => random.word(),
    };
    Record {
        held,
        word: own,
        ..record
    }
}

/// The marks of a bucket, of which this one is the held slot's.
fn map(held: u8, mark: u8, others: [u8; 2]) -> [u8; 3] {
    let mut map = others.to_vec();
    map.insert(held as usize, mark);
    [map[0], map[1], map[2]]
}

/// Each mark at the held slot, with all that the others can have; both in the first bucket with any version, and with the last one.
fn every_mark(bodies: &mut Bodies) {
    for held in SLOTS {
        for mark in MARKS {
            for others in 0..9 {
                let map = map(held, mark, [others / 3, others % 3]);
                let any = bodies.random.below(3) as u32;
                // the version that goes round, with the mark of an opened board
                let last = (mark == MAP_INSRT).then_some(u32::MAX);
                for version in [Some(any), last].into_iter().flatten() {
                    with_word(bodies, held, mark_word(version, map));
                }
            }
        }
    }
}

/// Versions that are counted on across a byte, to the last one, and past it.
fn versions(bodies: &mut Bodies) {
    for version in [
        0,
        1,
        255,
        65_535,
        16_777_215,
        2_147_483_647,
        u32::MAX - 1,
        u32::MAX,
    ] {
        for held in SLOTS {
            for mark in MARKS {
                let others = [bodies.random.slot(), bodies.random.slot()];
                with_word(bodies, held, mark_word(version, map(held, mark, others)));
            }
        }
    }
}

/// This slot is held in a bucket with this mark word, and something is in it.
fn with_word(bodies: &mut Bodies, held: u8, word: u64) {
    let record = holder(&mut bodies.random, held, word);
    let mut words = bodies.random.bucket();
    words[0] = word;
    for at in [1, 4] {
        let cell = &mut words[at + held as usize];
        *cell = (*cell).max(1);
    }
    push(bodies, record, words);
}

/// Nothing is held, and at the slot that the call is at there is each mark, 2 too: a look, an insert, a remove.
fn nothing_held(bodies: &mut Bodies) {
    for (kind, place) in [(LOOK, 3), (INSERT, 2), (INSERT, 6), (REMOVE, 13)] {
        for slot in SLOTS {
            for mark in MARKS {
                let record = Record {
                    slot,
                    held: NONE,
                    ..bodies.random.record(kind, place)
                };
                let mut words = bodies.random.bucket();
                words[0] = snap_set_map(words[0], slot, mark);
                push(bodies, record, words);
            }
        }
    }
}

/// The held slot is in the first bucket, the last, or one between, and the lot is the bucket's number or another; no other bucket is empty.
fn buckets(bodies: &mut Bodies) {
    for (n, lot) in [
        (1, 7),
        (2, 5),
        (3, 10),
        (3, 11),
        (100, 1_234_567),
        (255, 254),
        (256, 255),
        (256, 256),
        (256, 1_023),
        (256, 0),
        (256, u64::MAX),
        (3, 0),
        (3, u64::MAX),
        (7, (1 << 32) + 3),
        (100, u64::MAX - 5),
        (5, 1 << 63),
    ] {
        let words = bodies.random.bucket();
        let record = Record {
            key: lot,
            ..holder(&mut bodies.random, 1, words[0])
        };
        let mut case = retiring(bodies, 2, n, record, words);
        // a bucket beside it, which must stay; with one bucket there is none
        if n > 1 {
            let beside = bodies.random.bucket();
            set_bucket(&mut case, lot ^ 1, beside);
        }
        bodies.push(case);
    }
}

/// A ticket stays spent (§3.5): the floor's last one, an earlier one, or one that it never was.
fn tickets(bodies: &mut Bodies) {
    for (ticket, last) in [
        (1, 1),
        (1, 0),
        (3, 9),
        (4_294_967_295, 4_294_967_295),
        (7, 4_294_967_295),
        (4_294_967_295, 0),
        (1 << 32, 1 << 32),
        (7, 1 << 32),
        (1 << 32, 0),
        (u64::MAX, u64::MAX),
        (1, u64::MAX),
        (u64::MAX, 0),
    ] {
        for held in [0, NONE] {
            let record = Record {
                ticket,
                held,
                ..bodies.random.record(INSERT, 5)
            };
            let words = bodies.random.bucket();
            let mut case = retiring(bodies, 1, 1, record, words);
            case.floor.last_ticket = last;
            bodies.push(case);
        }
    }
}

/// Others of the same bucket, who stay as they are: one with the very same record, one that holds the same slot or another, one that looks.
fn beside(bodies: &mut Bodies) {
    for worker in SLOTS {
        for other in 0..4 {
            let words = bodies.random.bucket();
            let record = holder(&mut bodies.random, 1, words[0]);
            let mut case = retiring(bodies, 3, 1, record, words);
            case.worker = worker.into();
            case.list.records.fill(match other {
                0 => record,
                1 => holder(&mut bodies.random, 1, words[0]),
                2 => holder(&mut bodies.random, 2, words[0]),
                _ => bodies.random.record(LOOK, 4),
            });
            case.list.records[usize::from(worker)] = record;
            bodies.push(case);
        }
    }
    for worker in [0, 31, 63] {
        let words = bodies.random.bucket();
        let record = holder(&mut bodies.random, 2, words[0]);
        let mut case = retiring(bodies, 64, 1, record, words);
        case.worker = worker;
        case.list.records.fill(record);
        bodies.push(case);
    }
}

/// On an opened board: an insert of lot 7 is retired after each of its turns; then what is shown and counted, that the worker is idle, and
/// the turn of another insert, which has read the word before and was about to claim.
fn trials(bodies: &mut Bodies) {
    for version in [0, u32::MAX] {
        for turns in 0..=10 {
            let mut case = stopped(version, turns);
            bodies.push(case.clone());
            leave(&mut case);
            for (call, worker) in [(SHOW, 0), (COUNT, 0), (TURN, 0), (RETIRE, 0), (TURN, 1)] {
                bodies.push(Case {
                    call,
                    worker,
                    ..case.clone()
                });
            }
        }
    }
}

/// Two workers insert lots 7 and 8; the second has had seven turns, and then the first so many.
fn stopped(version: u32, turns: usize) -> Case {
    let mut desk = Desk::opened(2, 1, version, Manner::Remade).expect("a floor of small sizes");
    for (worker, lot, turns) in [(1, 8, 7), (0, 7, turns)] {
        let ticket = desk.floor.last_ticket + 1;
        let started = desk.start(INSERT, worker, lot, ticket);
        started.expect("nothing refuses the start");
        let run = desk.run(&vec![worker as u8; turns], &mut |_, _, _| ());
        assert_eq!(run.0, 0);
    }
    Case {
        call: RETIRE,
        floor: desk.floor,
        worker: 0,
        lot: 7,
        ticket: 0,
        board: desk.board.words(),
        list: desk.list,
        index: desk.index.0,
        second: Vec::new(),
        turns: Vec::new(),
    }
}
