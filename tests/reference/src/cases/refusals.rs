//! Directed cases: every number of refusal, what comes before what, and every cause of 1.

use super::build::{flip_bit, set_buckets, set_list, set_workers};
use super::Bodies;
use crate::case::{self, Case, COUNT, INSERT, LOOK, MOVE, OPEN, REMOVE, RUN, SHOW, TURN};
use crate::memory::BUCKET_WORDS;
use crate::random::Random;
use crate::record::Record;

pub fn make(bodies: &mut Bodies) {
    for call in OPEN..=MOVE {
        accepted(bodies, call);
        causes_of_1(bodies, call);
        large_boards(bodies, call);
    }
    for call in [LOOK, INSERT, REMOVE] {
        starts(bodies, call);
    }
    turns(bodies);
    runs(bodies);
    last_worker(bodies);
    shows(bodies);
}

fn accepted(bodies: &mut Bodies, call: u8) {
    for _ in 0..12 {
        let case = bodies.random.sound(call);
        bodies.push(case);
    }
}

fn causes_of_1(bodies: &mut Bodies, call: u8) {
    for w in [0, 65, 256] {
        let mut case = bodies.random.sound(call);
        set_workers(&mut case, w);
        bodies.push(case);
    }
    // no list is as long as these; this one is as long as the number that a narrower reading would take them for
    for (w, length) in [((1 << 32) + 1, 1), (u64::MAX, 255)] {
        let mut case = bodies.random.sound(call);
        set_workers(&mut case, w);
        set_list(&mut case, length);
        bodies.push(case);
    }
    for (n, words) in [
        (0, 0),
        (257, 257 * BUCKET_WORDS),
        (u64::MAX, BUCKET_WORDS),
        ((1 << 32) + 1, BUCKET_WORDS),
        ((1 << 61) + 1, BUCKET_WORDS),
    ] {
        let mut case = bodies.random.sound_sized(call, 2, 1);
        set_buckets(&mut case, n);
        case.board.resize(words, 0);
        bodies.push(case);
    }
    for words in [0, BUCKET_WORDS - 1, BUCKET_WORDS + 1] {
        let mut case = bodies.random.sound_sized(call, 1, 1);
        case.board.resize(words, 0);
        bodies.push(case);
    }
    // for show and count these are accepted
    for (w, length) in [
        (2, 0),
        (2, 1),
        (2, 3),
        (1, 0),
        (1, 257),
        (64, 63),
        (64, 65),
        (64, 320),
    ] {
        let mut case = bodies.random.sound_sized(call, w, 1);
        set_list(&mut case, length);
        bodies.push(case);
    }
}

fn large_boards(bodies: &mut Bodies, call: u8) {
    for words in [2_040, 2_047, 2_049] {
        let mut case = bodies.random.sound_sized(call, 1, 256);
        case.board.resize(words, 0);
        bodies.push(case);
    }
}

/// Something for which every call gives 1, and which leaves every bucket whole.
pub fn spoil_size(case: &mut Case) {
    case.board.push(0);
}

pub fn broken_record(random: &mut Random) -> Record {
    let mut record = random.any_record();
    record.slot = 3;
    record
}

/// The bucket of the worker's lot is broken.
pub fn break_bucket(case: &mut Case, lot: u64) {
    let start = BUCKET_WORDS * (lot % case.floor.buckets) as usize;
    case.board[start + 7] = 1;
}

/// The index tells that the bucket of this lot is occupied where it is not, or that it is not where it is.
pub fn refute_index(case: &mut Case, lot: u64) {
    flip_bit(&mut case.index, lot % case.floor.buckets);
}

fn starts(bodies: &mut Bodies, call: u8) {
    for spent in [false, true] {
        for spoilt in [false, true] {
            for why in [2, 3, 4, 5] {
                let random = &mut bodies.random;
                let mut case = random.sound(call);
                let at = case.worker as usize;
                match why {
                    2 => case.worker = case.floor.workers + random.below(2),
                    3 => case.list.records[at] = broken_record(random),
                    4 => case.list.records[at] = random.any_record(),
                    _ => (),
                }
                if spent {
                    case.floor.last_ticket = case.ticket + random.below(2);
                }
                if spoilt {
                    spoil_size(&mut case);
                }
                bodies.push(case);
            }
        }
    }
}

fn turns(bodies: &mut Bodies) {
    for broken in [false, true] {
        for spoilt in [false, true] {
            for why in [2, 3, 6, 7, 11] {
                let mut case = bodies.random.sound(TURN);
                stand(bodies, &mut case, why, broken);
                if spoilt {
                    spoil_size(&mut case);
                }
                bodies.push(case);
            }
        }
    }
}

/// Gives a turn this reason to be refused, and a broken bucket besides.
fn stand(bodies: &mut Bodies, case: &mut Case, why: u8, broken: bool) {
    let random = &mut bodies.random;
    let at = case.worker as usize;
    match why {
        2 => case.worker = case.floor.workers,
        3 => case.list.records[at] = broken_record(random),
        6 => case.list.records[at] = Record::idle(),
        _ => (),
    }
    let lot = case.list.records[at].key;
    if broken || why == 7 {
        break_bucket(case, lot);
    }
    if why == 11 {
        refute_index(case, lot);
    }
    case.turns = vec![case.worker as u8; 2];
}

fn runs(bodies: &mut Bodies) {
    for long in [false, true] {
        for spoilt in [false, true] {
            for broken in [false, true] {
                for why in [0, 2, 3, 6, 7, 11] {
                    let mut case = bodies.random.sound(RUN);
                    stand(bodies, &mut case, why, broken);
                    let count = if long { 65_536 } else { 2 };
                    case.turns = vec![case.worker as u8; count];
                    if spoilt {
                        spoil_size(&mut case);
                    }
                    bodies.push(case);
                }
            }
        }
    }
    stopped_later(bodies);
}

/// Worker 63 of 64, refused for its record or its bucket.
fn last_worker(bodies: &mut Bodies) {
    for call in [LOOK, INSERT, REMOVE, TURN, RUN] {
        for why in [3, 4, 6, 7, 11] {
            let mut case = bodies.random.sound_sized(call, 64, 1);
            case.worker = 63;
            case.list.records[63] = bodies.random.any_record();
            stand(bodies, &mut case, why, false);
            bodies.push(case);
        }
    }
}

/// Runs of two workers, of which one is refused after some turns of the other.
fn stopped_later(bodies: &mut Bodies) {
    for why in [2, 3, 6, 7, 7, 11] {
        for before in 1..4 {
            let mut case = bodies.random.sound_sized(RUN, 2, 2);
            case.worker = 0;
            let mut good = bodies.random.record(LOOK, 2);
            (good.key, good.slot) = (2, 0);
            let mut bad = bodies.random.any_record();
            bad.key = 3;
            case.list.records = vec![bad, good];
            stand(bodies, &mut case, why, false);
            let mut turns = vec![1; before];
            turns.extend([case.worker as u8, 1]);
            case.turns = turns;
            bodies.push(case);
        }
    }
}

fn shows(bodies: &mut Bodies) {
    for call in [SHOW, COUNT] {
        for spoilt in [false, true] {
            for n in [1, 3] {
                let mut case = bodies.random.sound_sized(call, 1, n);
                let lot = case.lot;
                break_bucket(&mut case, lot);
                if spoilt {
                    spoil_size(&mut case);
                }
                if bodies.random.once_in(2) {
                    case.list.records[0] = broken_record(&mut bodies.random);
                }
                bodies.push(case);
            }
        }
        let mut case = bodies.random.sound(call);
        case.list.records[0] = broken_record(&mut bodies.random);
        bodies.push(case);
    }
    opening_over_anything(bodies);
    openings_over_a_record(bodies);
}

/// A list of 64 with this at its first or at its last worker: every record of it becomes idle.
fn openings_over_a_record(bodies: &mut Bodies) {
    for worker in [0, 31, 63] {
        for broken in [false, true] {
            let mut case = bodies.random.sound_sized(case::OPEN, 64, 1);
            case.list.records.fill(Record::idle());
            case.list.records[worker] = match broken {
                true => broken_record(&mut bodies.random),
                false => bodies.random.any_record(),
            };
            bodies.push(case);
        }
    }
}

fn opening_over_anything(bodies: &mut Bodies) {
    for floor in [0, 1, 300] {
        let mut case = bodies.random.sound(case::OPEN);
        case.list.records[0] = broken_record(&mut bodies.random);
        case.board[7] = 1;
        case.floor.workers = floor;
        case.floor.buckets = floor;
        bodies.push(case);
    }
}
