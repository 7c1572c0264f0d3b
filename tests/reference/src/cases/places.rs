//! Directed cases: a turn at every place with every outcome, on records that a history may or may not lead to.

use super::build::mark_word;
use super::Bodies;
use crate::memory::BUCKET_WORDS;
use crate::random::Random;
use crate::record::{Record, INSERT, LOOK, NONE, REMOVE};
use crate::word::{snap_set_map, Snapshot, MAP_INSRT, MAP_VALID};

type Words = [u64; BUCKET_WORDS];

const SLOTS: [u8; 3] = [0, 1, 2];
const MARKS: [u8; 3] = [0, 1, 2];

pub fn make(bodies: &mut Bodies) {
    first_reads(bodies);
    for record in searching(&mut bodies.random) {
        values(bodies, record);
        marks(bodies, record);
        keys(bodies, record);
        second_values(bodies, record);
    }
    swaps(bodies);
    wraps(bodies);
    stores(bodies);
    removes(bodies);
}

fn push(bodies: &mut Bodies, record: Record, words: Words) {
    let case = bodies.random.turn_of(record, words);
    bodies.push(case);
}

/// A number that is not this one.
fn other(random: &mut Random, number: u64) -> u64 {
    match random.value() {
        same if same == number => number ^ (1 << random.below(64)),
        another => another,
    }
}

fn first_reads(bodies: &mut Bodies) {
    for slot in SLOTS {
        for held in [0, 1, 2, NONE] {
            let record = bodies.random.record(INSERT, 1);
            let words = bodies.random.bucket();
            push(
                bodies,
                Record {
                    slot,
                    held,
                    ..record
                },
                words,
            );
        }
        let record = bodies.random.record(REMOVE, 1);
        let words = bodies.random.bucket();
        push(bodies, Record { slot, ..record }, words);
    }
}

/// Records in a search, at no place yet: each slot, for a look and for an insert with everything that can follow an empty look.
fn searching(random: &mut Random) -> Vec<Record> {
    let mut records = Vec::new();
    for slot in SLOTS {
        let look = random.record(LOOK, 2);
        records.push(Record { slot, ..look });
        for held in SLOTS {
            let insert = random.record(INSERT, 2);
            records.push(Record {
                slot,
                held,
                ..insert
            });
        }
        for empty in [0, 1, 2, 3] {
            let insert = random.record(INSERT, 2);
            records.push(Record {
                slot,
                held: NONE,
                word: word_with_first_empty(random, empty),
                ..insert
            });
        }
    }
    records
}

/// A word whose first empty slot is this one, or that has none.
fn word_with_first_empty(random: &mut Random, empty: usize) -> u64 {
    let mut map = [random.slot(), random.slot(), random.slot()];
    for mark in map.iter_mut().take(empty) {
        *mark = random.pick(&[1, 2]);
    }
    if let Some(mark) = map.get_mut(empty) {
        *mark = 0;
    }
    mark_word(random.version(), map)
}

fn values(bodies: &mut Bodies, record: Record) {
    let words = bodies.random.bucket();
    push(bodies, Record { place: 2, ..record }, words);
}

fn marks(bodies: &mut Bodies, record: Record) {
    for mark in MARKS {
        let mut words = bodies.random.bucket();
        words[0] = snap_set_map(words[0], record.slot, mark);
        push(bodies, Record { place: 3, ..record }, words);
    }
}

fn keys(bodies: &mut Bodies, record: Record) {
    for equal in [true, false] {
        let mut words = bodies.random.bucket();
        words[1 + record.slot as usize] = match equal {
            true => record.key,
            false => other(&mut bodies.random, record.key),
        };
        push(bodies, Record { place: 4, ..record }, words);
    }
}

fn second_values(bodies: &mut Bodies, record: Record) {
    let random = &mut bodies.random;
    let value = random.value().max(1);
    let differs = other(random, value).max(1);
    let pairs = [
        (value, value),
        (0, 0),
        (value, if differs == value { 9 } else { differs }),
        (0, value),
        (value, 0),
    ];
    for (seen, now) in pairs {
        let mut words = bodies.random.bucket();
        words[4 + record.slot as usize] = now;
        let record = Record {
            place: 5,
            seen,
            ..record
        };
        push(bodies, record, words);
    }
}

/// Places 6, 9 and 13 on each mark of the word: won, and lost by each part of the word and by more.
fn swaps(bodies: &mut Bodies) {
    for (kind, place) in [(INSERT, 6), (INSERT, 9), (REMOVE, 13)] {
        for at in SLOTS {
            for mark in MARKS {
                let mut record = bodies.random.record(kind, place);
                let mut expected = snap_set_map(record.word, at, mark);
                record.word = expected;
                if place == 9 {
                    record.held = at;
                    expected = snap_set_map(expected, at, MAP_INSRT);
                } else {
                    record.slot = at;
                }
                for stood in stand(&mut bodies.random, expected, record.word) {
                    let mut words = bodies.random.bucket();
                    words[0] = stood;
                    push(bodies, record, words);
                }
            }
        }
    }
    for seen in [0, 1, u64::MAX] {
        let mut record = bodies.random.record(REMOVE, 13);
        record.seen = seen;
        let mut words = bodies.random.bucket();
        words[0] = record.word;
        push(bodies, record, words);
    }
}

/// Mark words on which a swap wins, and on which it loses.
fn stand(random: &mut Random, expected: u64, word: u64) -> [u64; 5] {
    let mut version = Snapshot::of(expected);
    version.version = match random.once_in(2) {
        true => version.version.wrapping_add(1),
        false => version.version ^ (1 << random.below(32)),
    };
    let mut mark = Snapshot::of(expected);
    let slot = random.slot() as usize;
    mark.map[slot] = (mark.map[slot] + random.pick(&[1, 2])) % 3;
    [
        expected,
        version.snapshot(),
        mark.snapshot(),
        random.word(),
        word,
    ]
}

/// The commit of the last version, with all marks that the others can have.
fn wraps(bodies: &mut Bodies) {
    for held in SLOTS {
        for one in MARKS {
            for two in MARKS {
                let mut map = vec![one, two];
                map.insert(held as usize, MAP_INSRT);
                let mut record = bodies.random.record(INSERT, 9);
                record.held = held;
                record.word = mark_word(u32::MAX, [map[0], map[1], map[2]]);
                let mut words = bodies.random.bucket();
                words[0] = record.word;
                push(bodies, record, words);
            }
        }
    }
}

fn stores(bodies: &mut Bodies) {
    for held in SLOTS {
        for slot in SLOTS {
            for place in [7, 8, 10] {
                let record = bodies.random.record(INSERT, place);
                let words = bodies.random.bucket();
                push(
                    bodies,
                    Record {
                        held,
                        slot,
                        ..record
                    },
                    words,
                );
            }
        }
        for mark in MARKS {
            let record = bodies.random.record(INSERT, 10);
            let mut words = bodies.random.bucket();
            words[0] = snap_set_map(words[0], held, mark);
            push(bodies, Record { held, ..record }, words);
        }
    }
    for key in [0, u64::MAX] {
        let record = bodies.random.record(INSERT, 8);
        let words = bodies.random.bucket();
        push(bodies, Record { key, ..record }, words);
    }
}

fn removes(bodies: &mut Bodies) {
    for slot in SLOTS {
        for equal in [true, false] {
            for mark in MARKS {
                for live in MARKS {
                    let record = bodies.random.record(REMOVE, 11);
                    let word = snap_set_map(record.word, slot, mark);
                    let mut words = bodies.random.bucket();
                    words[0] = snap_set_map(words[0], slot, live);
                    words[1 + slot as usize] = match equal {
                        true => record.key,
                        false => other(&mut bodies.random, record.key),
                    };
                    push(
                        bodies,
                        Record {
                            slot,
                            word,
                            ..record
                        },
                        words,
                    );
                }
            }
        }
        for value in [0, 1, u64::MAX] {
            for place in [2, 12] {
                let kind = if place == 2 { LOOK } else { REMOVE };
                let record = bodies.random.record(kind, place);
                let mut words = bodies.random.bucket();
                words[4 + slot as usize] = value;
                push(bodies, Record { slot, ..record }, words);
            }
        }
    }
    keys_at_the_ends(bodies);
}

fn keys_at_the_ends(bodies: &mut Bodies) {
    for key in [0, u64::MAX] {
        for slot in SLOTS {
            for (kind, place) in [(LOOK, 4), (LOOK, 5), (REMOVE, 11)] {
                let mut record = bodies.random.record(kind, place);
                record.seen = u64::MAX;
                record.word = match kind {
                    LOOK => 0,
                    _ => snap_set_map(record.word, slot, MAP_VALID),
                };
                let mut words = bodies.random.bucket();
                words[1 + slot as usize] = key;
                words[4 + slot as usize] = u64::MAX;
                push(
                    bodies,
                    Record {
                        key,
                        slot,
                        ..record
                    },
                    words,
                );
            }
        }
    }
}
