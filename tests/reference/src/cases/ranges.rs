//! Directed cases: both ends of every range, long runs, runs as a whole, and the trials.

use super::build::{count_index, leave, mark_word, set_bucket};
use super::Bodies;
use crate::case::{self, Case, COUNT, INSERT, LOOK, MOVE, OPEN, REMOVE, RETIRE, RUN, SHOW, TURN};
use crate::memory::BUCKET_WORDS;
use crate::record::Record;

pub fn make(bodies: &mut Bodies) {
    // for all orders only the first of these sizes is a small class
    for call in OPEN..=MOVE {
        for (w, n) in [(1, 1), (64, 1), (1, 256), (64, 256)] {
            let case = bodies.random.sound_sized(call, w, n);
            bodies.push(case);
        }
    }
    workers(bodies);
    lots(bodies);
    any_lots(bodies);
    versions(bodies);
    lengths(bodies);
    counts(bodies);
    runs(bodies);
    trials(bodies);
}

fn workers(bodies: &mut Bodies) {
    for call in [LOOK, INSERT, REMOVE, TURN, RETIRE] {
        for w in [1, 2, 63, 64] {
            for worker in [0, w - 1, w, 63, 64, 255, 256, 1 << 32, u64::MAX] {
                let mut case = bodies.random.sound_sized(call, w, 1);
                // the record of the call is brought to the worker that is named
                if worker < w {
                    case.list
                        .records
                        .swap(case.worker as usize, worker as usize);
                }
                case.worker = worker;
                bodies.push(case);
            }
        }
    }
    for (w, worker) in [
        (1, 0),
        (1, 1),
        (2, 255),
        (64, 0),
        (64, 63),
        (64, 64),
        (64, 255),
    ] {
        let mut case = bodies.random.sound_sized(RUN, w, 1);
        if worker < w {
            case.list
                .records
                .swap(case.worker as usize, worker as usize);
        }
        case.turns = vec![worker as u8; 1];
        bodies.push(case);
    }
}

fn lots(bodies: &mut Bodies) {
    for n in [1, 2, 3, 256] {
        for call in [LOOK, INSERT, REMOVE, TURN, SHOW, RETIRE] {
            for lot in [0, n - 1, n, u64::MAX] {
                let mut case = bodies.random.sound_sized(call, 1, n);
                case.lot = lot;
                if matches!(call, TURN | RETIRE) {
                    case.list.records[0].key = lot;
                }
                if !matches!(call, LOOK | INSERT | REMOVE) {
                    let bucket = bodies.random.bucket();
                    set_bucket(&mut case, lot, bucket);
                }
                bodies.push(case);
            }
        }
    }
}

/// Lots of any size, on boards of any number of buckets.
fn any_lots(bodies: &mut Bodies) {
    for call in [TURN, SHOW, RETIRE] {
        for n in [3, 5, 7, 100, 255, 256] {
            let mut case = bodies.random.sound_sized(call, 1, n);
            case.lot = bodies.random.any();
            case.list.records[0].key = case.lot;
            let (lot, bucket) = (case.lot, bodies.random.bucket());
            set_bucket(&mut case, lot, bucket);
            bodies.push(case);
        }
    }
}

fn versions(bodies: &mut Bodies) {
    for version in [0, 1, u32::MAX] {
        for (n, before) in [(1, 0), (2, 0), (1, u32::MAX)] {
            let mut case = bodies.random.sound_sized(OPEN, 2, n);
            case.ticket = version.into();
            case.floor.version = before;
            bodies.push(case);
        }
    }
}

/// A full bucket, on which an insert goes round and round: any number of turns is accepted.
fn round_and_round(bodies: &mut Bodies) -> Case {
    let mut case = bodies.random.sound_sized(RUN, 1, 1);
    let record = Record {
        key: 9,
        held: 3,
        ..bodies.random.record(INSERT, 1)
    };
    case.list.records = vec![record];
    set_bucket(&mut case, 9, [mark_word(5, [1, 2, 1]), 3, 4, 5, 6, 7, 8, 0]);
    case
}

fn lengths(bodies: &mut Bodies) {
    for length in [0, 1, 2, 255, 256, 65_535, 65_536, 65_540] {
        let mut case = round_and_round(bodies);
        case.turns = vec![0; length];
        bodies.push(case);
    }
    for stopper in [1, 255] {
        let mut case = round_and_round(bodies);
        case.turns = vec![0; 65_534];
        case.turns.push(stopper);
        bodies.push(case);
    }
    for stopper in [1, 65_540] {
        let mut case = round_and_round(bodies);
        case.turns = vec![1; stopper];
        bodies.push(case);
    }
}

fn counts(bodies: &mut Bodies) {
    for n in [1, 3, 256] {
        for mark in [0, 1, 2] {
            let mut case = bodies.random.sound_sized(COUNT, 1, n);
            case.board.fill(0);
            for bucket in case.board.chunks_mut(BUCKET_WORDS) {
                bucket[0] = mark_word(0, [mark; 3]);
            }
            count_index(&mut case);
            bodies.push(case.clone());
            case.board.fill(0);
            case.board[BUCKET_WORDS * (n as usize - 1)] = mark_word(7, [0, 0, mark]);
            count_index(&mut case);
            bodies.push(case);
        }
    }
    half_written(bodies);
}

/// §2.9: a half-written slot beside lots, in every order of one bucket, and in either of two buckets as one of four slots.
fn half_written(bodies: &mut Bodies) {
    for map in [
        [0, 1, 2],
        [0, 2, 1],
        [1, 0, 2],
        [1, 2, 0],
        [2, 0, 1],
        [2, 1, 0],
    ] {
        bodies.push(count_over(&[map]));
    }
    bodies.push(count_over(&[[2, 1, 0], [1, 1, 0]]));
    bodies.push(count_over(&[[1, 1, 0], [1, 2, 0]]));
}

/// A count over buckets of these marks, and no list, since it takes none. Every key and value is filled, so that the marks alone tell
/// what is on the board.
fn count_over(maps: &[[u8; 3]]) -> Case {
    let mut case = Case::read(&[COUNT, 1, maps.len() as u8]);
    let buckets = maps
        .iter()
        .map(|&map| [mark_word(0, map), 7, 7, 7, 7, 7, 7, 0]);
    case.board = buckets.flatten().collect();
    count_index(&mut case);
    case
}

/// Runs of several workers that meet in few buckets, and one that has every count more than 0.
fn runs(bodies: &mut Bodies) {
    for n in [1, 2, 3] {
        for _ in 0..20 {
            let mut case = bodies.random.sound_sized(RUN, 3, n);
            for record in &mut case.list.records {
                *record = bodies.random.any_record();
            }
            case.turns.clear();
            for _ in 0..bodies.random.below(8) {
                let worker = bodies.random.below(3) as u8;
                let burst = 1 + bodies.random.below(5) as usize;
                case.turns.extend(vec![worker; burst]);
            }
            bodies.push(case);
        }
    }
    everything_at_once(bodies);
}

/// One insert loses its swap and goes round a full bucket, since another filled it.
fn everything_at_once(bodies: &mut Bodies) {
    let word = mark_word(4, [1, 1, 0]);
    let mut case = bodies.random.sound_sized(RUN, 2, 1);
    set_bucket(&mut case, 0, [word, 3, 4, 0, 6, 7, 0, 0]);
    let insert = Record {
        kind: INSERT,
        place: 6,
        key: 8,
        ticket: 8,
        slot: 2,
        word,
        ..Record::idle()
    };
    let rival = Record {
        key: 9,
        ticket: 9,
        ..insert
    };
    case.list.records = vec![insert, rival];
    case.turns = [vec![0; 4], vec![1; 12]].concat();
    bodies.push(case);
}

/// §10.12: an insert that is stopped, a look beside it, and its commit; what is shown and counted before that and after.
fn trials(bodies: &mut Bodies) {
    let mut case = bodies.random.sound_sized(RUN, 2, 1);
    case.floor.last_ticket = 1;
    set_bucket(&mut case, 7, [0; BUCKET_WORDS]);
    let insert = Record {
        kind: INSERT,
        place: 1,
        key: 7,
        ticket: 1,
        ..Record::idle()
    };
    let look = Record {
        kind: LOOK,
        place: 2,
        key: 7,
        ..Record::idle()
    };
    case.list.records = vec![insert, look];
    case.turns = vec![0; 8];
    bodies.push(case.clone());
    leave(&mut case);
    case.turns = vec![1; 6];
    bodies.push(case.clone());
    case.call = case::TURN;
    case.worker = 1;
    bodies.push(case.clone());
    show_and_count(bodies, &case);
    case.call = RUN;
    case.turns = vec![0; 3];
    bodies.push(case.clone());
    leave(&mut case);
    show_and_count(bodies, &case);
}

/// A show of the trial's lot and a count, on what the case stands on.
fn show_and_count(bodies: &mut Bodies, case: &Case) {
    for call in [SHOW, COUNT] {
        bodies.push(Case {
            call,
            lot: 7,
            turns: Vec::new(),
            ..case.clone()
        });
    }
}
