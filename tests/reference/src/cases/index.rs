//! Directed cases: the display's index (§21). Turns, runs and retirings on an index that their bucket refutes, which is 11, and on one that
//! it does not, though it may be wrong about everything else; and what becomes of it.

mod runs;

use super::build::{flip_bit, mark_word, places, set_bucket};
use super::refusals::{break_bucket, refute_index, spoil_size};
use super::Bodies;
use crate::case::{Case, COUNT, INSERT, LOOK, MOVE, OPEN, ORDERS, REMOVE, RETIRE, RUN, SHOW, TURN};
use crate::index::INDEX_WORDS;
use crate::random::Random;
use crate::record::{Record, NONE};
use crate::word::{MAP_INSRT, MAP_VALID};

/// Either end of each word of bits.
pub const WORD_ENDS: [u64; 8] = [0, 63, 64, 127, 128, 191, 192, 255];

/// The calls that touch a bucket.
const TOUCHING: [u8; 3] = [TURN, RUN, RETIRE];

type Marks = [u8; 3];

pub fn make(bodies: &mut Bodies) {
    lengths(bodies);
    openings(bodies);
    for call in TOUCHING {
        totals(bodies, call);
        bits(bodies, call);
        half_written(bodies, call);
        before_11(bodies, call);
        elsewhere(bodies, call);
    }
    not_asked_for(bodies);
    nothing_held(bodies);
    every_place(bodies);
    every_mark(bodies);
    word_ends(bodies);
    runs::make(bodies);
}

// ---- cases that touch a bucket

/// Marks of which so many are valid, and the others empty or being inserted.
fn marks(random: &mut Random, valid: u64) -> Marks {
    let mut marks = [(); 3].map(|()| random.pick(&[0, 2]));
    marks[..valid as usize].fill(MAP_VALID);
    random.shuffle(&mut marks);
    marks
}

/// A turn, a run of one turn, or a retiring that holds a slot, of the only worker, in this bucket with these marks. All others are empty,
/// and the index is true of the board.
fn touching(bodies: &mut Bodies, call: u8, n: u64, bucket: u64, marks: Marks) -> Case {
    let random = &mut bodies.random;
    let lot = n * random.below(3) + bucket;
    let record = match call {
        RETIRE => random.holding_record(),
        _ => random.any_record(),
    };
    let mut words = random.bucket();
    words[0] = mark_word(9, marks);
    let mut case = random.sound_sized(call, 1, n);
    case.board.fill(0);
    case.list.records = vec![Record { key: lot, ..record }];
    set_bucket(&mut case, lot, words);
    case
}

/// The same with so many valid slots.
fn over(bodies: &mut Bodies, call: u8, n: u64, valid: u64) -> Case {
    let bucket = match n {
        256 => bodies.random.pick(&WORD_ENDS),
        _ => bodies.random.below(n),
    };
    let marks = marks(&mut bodies.random, valid);
    touching(bodies, call, n, bucket, marks)
}

/// The one change that sets this slot's mark in this bucket: the won swap of place 6, 9 or 13, the store of place 10, or a retiring.
fn changing(bodies: &mut Bodies, what: (u8, u8), n: u64, bucket: u64, at: (u8, Marks)) -> Case {
    let ((call, place), (slot, marks)) = (what, at);
    let mut case = touching(bodies, call, n, bucket, marks);
    let kind = if place == 13 { REMOVE } else { INSERT };
    case.list.records[0] = Record {
        key: case.list.records[0].key,
        slot,
        word: mark_word(9, marks),
        held: match place {
            6 | 13 => NONE,
            _ => slot,
        },
        ..bodies.random.record(kind, place)
    };
    case
}

const CLAIM: (u8, u8) = (TURN, 6);
const COMMIT: (u8, u8) = (TURN, 9);
const FREE: (u8, u8) = (TURN, 10);
const CLOSE: (u8, u8) = (TURN, 13);
const RETIRING: (u8, u8) = (RETIRE, 9);

/// Every bit is set but this bucket's, which stays.
fn set_other_bits(case: &mut Case, bucket: u64) {
    for other in (0..256).filter(|&other| other != bucket) {
        case.index[1 + other as usize / 64] |= 1 << (other % 64);
    }
}

// ---- 11, and what comes before it

/// §6.1: an index of no words, of too few and of too many, for every call; where it is refused by that, also with another reason besides.
fn lengths(bodies: &mut Bodies) {
    for length in [0, 4, 6, 13] {
        for call in OPEN..=MOVE {
            let mut case = bodies.random.sound(call);
            case.index.resize(length, 0);
            bodies.push(case);
        }
        for call in TOUCHING {
            for &why in earlier(call) {
                let mut case = over(bodies, call, 1, 1);
                give_reason(&mut case, why);
                case.index.resize(length, 0);
                bodies.push(case);
            }
        }
    }
    let mut case = bodies.random.sound_sized(RETIRE, 1, 1);
    case.list.records[0] = bodies.random.record(LOOK, 2);
    case.index.pop();
    bodies.push(case);
    let mut case = bodies.random.sound_sized(RUN, 1, 1);
    case.turns.clear();
    case.index.pop();
    bodies.push(case);
}

/// The numbers that come before 11.
fn earlier(call: u8) -> &'static [u8] {
    match call {
        RUN => &[1, 2, 3, 6, 7, 9],
        _ => &[1, 2, 3, 6, 7],
    }
}

/// Gives the only worker's call this reason to be refused.
fn give_reason(case: &mut Case, why: u8) {
    match why {
        1 => spoil_size(case),
        2 => (case.worker, case.turns) = (1, vec![1]),
        3 => case.list.records[0].slot = 3,
        6 => case.list.records[0] = Record::idle(),
        7 => break_bucket(case, case.list.records[0].key),
        _ => case.turns.resize(65_536, 0),
    }
}

/// Both ends of the total that so many valid slots allow, just past them, and far past them.
fn totals(bodies: &mut Bodies, call: u8) {
    for valid in 0..=3 {
        for n in [1, 256] {
            let most = 3 * n - (3 - valid);
            for total in [valid, most, most + 1] {
                push_total(bodies, call, n, valid, total);
            }
            if valid > 0 {
                push_total(bodies, call, n, valid, valid - 1);
            }
        }
        for total in [(1 << 32) + valid, 1 << 63, u64::MAX] {
            let n = bodies.random.pick(&[1, 3, 256]);
            push_total(bodies, call, n, valid, total);
        }
    }
}

fn push_total(bodies: &mut Bodies, call: u8, n: u64, valid: u64, total: u64) {
    let mut case = over(bodies, call, n, valid);
    case.index[0] = total;
    bodies.push(case);
}

/// The touched bucket's bit is wrong, and at an end of a word it alone is set, or alone is not; then the total is wrong besides.
fn bits(bodies: &mut Bodies, call: u8) {
    for n in [1, 256] {
        for valid in 0..=3 {
            let mut case = over(bodies, call, n, valid);
            let lot = case.list.records[0].key;
            refute_index(&mut case, lot);
            bodies.push(case.clone());
            case.index[0] = u64::MAX;
            bodies.push(case);
        }
    }
    for bucket in WORD_ENDS {
        for valid in [0, 1] {
            let marks = marks(&mut bodies.random, valid);
            let mut case = touching(bodies, call, 256, bucket, marks);
            if valid > 0 {
                set_other_bits(&mut case, bucket);
            }
            flip_bit(&mut case.index, bucket);
            bodies.push(case);
        }
    }
}

/// A slot that is being inserted is not valid, and makes no bucket occupied.
fn half_written(bodies: &mut Bodies, call: u8) {
    for marks in [[2, 0, 0], [0, 2, 2], [2, 2, 2]] {
        let mut case = touching(bodies, call, 3, 1, marks);
        bodies.push(case.clone());
        flip_bit(&mut case.index, 1);
        bodies.push(case);
    }
}

/// §7.2: with each number that comes before 11, by a total that is wrong for every bucket, and by the bit of the touched one.
fn before_11(bodies: &mut Bodies, call: u8) {
    for &why in earlier(call) {
        let mut case = over(bodies, call, 2, 1);
        give_reason(&mut case, why);
        let mut other = case.clone();
        case.index[0] = u64::MAX;
        bodies.push(case);
        // the lot of an idle worker is 0
        let lot = other.list.records[0].key;
        refute_index(&mut other, lot);
        bodies.push(other);
    }
}

// ---- what is not looked at

/// Unused bits, bits of other buckets, and a total that is another, none of which the touched bucket refutes. They stay, but the total
/// counts on from where it is.
fn elsewhere(bodies: &mut Bodies, call: u8) {
    let what = match call {
        RETIRE => RETIRING,
        _ => (call, bodies.random.pick(&[9, 13])),
    };
    let mark = if what.1 == 13 { MAP_VALID } else { MAP_INSRT };
    for n in [1, 3, 63, 65, 100, 255, 256] {
        let mut case = changing(bodies, what, n, n - 1, (1, [0, mark, 0]));
        set_other_bits(&mut case, n - 1);
        if n > 1 {
            case.index[0] += 1 + bodies.random.below(n);
        }
        bodies.push(case);
    }
}

/// An untrue index beside calls that are not given it.
fn not_asked_for(bodies: &mut Bodies) {
    for call in [LOOK, INSERT, REMOVE, SHOW, COUNT, ORDERS] {
        for bit in [0, 200] {
            let mut case = bodies.random.sound_sized(call, 2, 1);
            flip_bit(&mut case.index, bit);
            bodies.push(case);
        }
        for total in [1, u64::MAX] {
            let mut case = bodies.random.sound_sized(call, 2, 1);
            case.index[0] = case.index[0].wrapping_add(total);
            bodies.push(case);
        }
    }
}

/// A worker that holds nothing is retired, whatever the index tells of its lot's bucket.
fn nothing_held(bodies: &mut Bodies) {
    for valid in 0..=3 {
        let mut case = over(bodies, RETIRE, 3, valid);
        let key = case.list.records[0].key;
        let kind = bodies.random.busy_kind();
        let record = bodies.random.record(kind, places(kind)[0]);
        case.list.records[0] = Record {
            key,
            held: NONE,
            ..record
        };
        let totals = [valid.wrapping_sub(1), 9 - (3 - valid) + 1, u64::MAX];
        for total in totals {
            let mut case = case.clone();
            case.index[0] = total;
            bodies.push(case);
        }
        refute_index(&mut case, key);
        bodies.push(case);
    }
}

/// §21.2: whatever the index was.
fn openings(bodies: &mut Bodies) {
    for index in [
        [0; INDEX_WORDS],
        [u64::MAX; INDEX_WORDS],
        [0, 1, 2, 3, 4],
        [u64::MAX, 0, 0, 0, 0],
        [0, u64::MAX, u64::MAX, u64::MAX, u64::MAX],
    ] {
        for n in [1, 256] {
            let mut case = bodies.random.sound_sized(OPEN, 1, n);
            case.index = index.to_vec();
            // so that the line of a large board stays short
            case.ticket = 0;
            bodies.push(case);
        }
    }
}

// ---- what becomes of it

/// Every place over every number of valid slots. No swap is won, since its word has another version; at place 10 a mark is taken away.
fn every_place(bodies: &mut Bodies) {
    for kind in [LOOK, INSERT, REMOVE] {
        for &place in places(kind) {
            for valid in 0..=3 {
                let mut case = over(bodies, TURN, 2, valid);
                let key = case.list.records[0].key;
                let record = bodies.random.record(kind, place);
                case.list.records = vec![Record { key, ..record }];
                bodies.push(case);
            }
        }
    }
}

/// Every mark at the slot whose mark is set, beside every number of other valid slots.
fn every_mark(bodies: &mut Bodies) {
    for beside in 0..=2 {
        for mark in [0, 1, 2] {
            for what in [CLAIM, COMMIT, FREE, CLOSE, RETIRING] {
                // a commit is won over a mark 2 alone
                if what == COMMIT && mark != MAP_INSRT {
                    continue;
                }
                let at = with_others(&mut bodies.random, mark, beside);
                let case = changing(bodies, what, 2, 1, at);
                bodies.push(case);
            }
        }
    }
}

/// A slot with this mark, and marks beside it of which so many are valid.
fn with_others(random: &mut Random, mark: u8, beside: u64) -> (u8, Marks) {
    let slot = random.slot();
    let mut others = [(); 2].map(|()| random.pick(&[0, 2]));
    others[..beside as usize].fill(MAP_VALID);
    random.shuffle(&mut others);
    let mut marks = others.to_vec();
    marks.insert(slot.into(), mark);
    (slot, [marks[0], marks[1], marks[2]])
}

/// At either end of each word a bucket is occupied, emptied, or stays what it was; all other bits are 0, or all are 1.
fn word_ends(bodies: &mut Bodies) {
    for bucket in WORD_ENDS {
        for (what, mark, beside) in [
            (COMMIT, MAP_INSRT, 0),
            (COMMIT, MAP_INSRT, 1),
            (CLOSE, MAP_VALID, 0),
            (CLOSE, MAP_VALID, 1),
            (RETIRING, MAP_VALID, 0),
            (RETIRING, MAP_INSRT, 0),
            (CLAIM, 0, 0),
        ] {
            for others in [false, true] {
                let at = with_others(&mut bodies.random, mark, beside);
                let mut case = changing(bodies, what, 256, bucket, at);
                if others {
                    set_other_bits(&mut case, bucket);
                    case.index[0] = 300;
                }
                bodies.push(case);
            }
        }
    }
}
