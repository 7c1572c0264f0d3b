//! Random cases: histories on opened boards, sound states with one thing spoilt, and bytes of any sort.

use super::build::{count_index, flip_bit, leave, EDGES};
use super::length::shorten;
use super::Bodies;
use crate::case::{
    Case, COUNT, INSERT, LOOK, MOVE, NEXT, OPEN, ORDERS, REMOVE, RETIRE, RUN, SHOW, TOTAL, TURN,
};
use crate::desk::{Floor, List};
use crate::index::INDEX_WORDS;
use crate::random::Random;
use crate::record::{Record, NONE};
use crate::word::MAP_VALID;

const HISTORIES: usize = 50;
const STEPS: u64 = 40;
const SPOILT: usize = 900;
const BYTES: usize = 500;

pub fn make(bodies: &mut Bodies) {
    for _ in 0..HISTORIES {
        history(bodies);
    }
    for _ in 0..SPOILT {
        let case = spoilt(&mut bodies.random);
        bodies.push(case);
    }
    for _ in 0..BYTES {
        let body = bytes(&mut bodies.random);
        bodies.bodies.push(body);
    }
}

/// An opening and calls after it, each on what the one before left; each call is a case of its own.
fn history(bodies: &mut Bodies) {
    let mut case = opening(&mut bodies.random);
    let buckets: &[u64] = match case.lot {
        0..=2 => &[0, 1],
        // on either side of where a word of the index ends, and the last one
        n => &[0, 63, 64, n - 1],
    };
    let lots = [0, 1, 2, 3].map(|lot| lot * case.lot + bodies.random.pick(buckets));
    let lots = &lots[..2 + bodies.random.below(3) as usize];
    let from = bodies.random.below(60);
    for step in 0..from + STEPS {
        if step >= from || step == 0 {
            bodies.push(case.clone());
        }
        leave(&mut case);
        next_call(&mut bodies.random, &mut case, lots);
        shorten(&mut case);
    }
}

fn opening(random: &mut Random) -> Case {
    let w = random.pick(&[1, 2, 2, 3, 3, 4]);
    let n = random.pick(&[1, 1, 1, 1, 1, 2, 2, 65, 256]);
    // a large board is mostly zeros, so that its lines stay short
    let version = if n > 2 { 0 } else { random.version() };
    let any_words = [(); INDEX_WORDS].map(|()| random.value());
    Case {
        call: OPEN,
        floor: Floor {
            workers: 0,
            buckets: 0,
            last_ticket: 0,
            version: 0,
        },
        worker: w,
        lot: n,
        ticket: version.into(),
        board: vec![0; 8 * n as usize],
        list: List {
            length: w,
            records: vec![Record::idle(); w as usize],
        },
        index: any_words.to_vec(),
        second: Vec::new(),
        turns: Vec::new(),
    }
}

/// Chooses what is called next: mostly a turn of a worker that is busy, or a start of one that is idle. Who holds a slot is retired at
/// times, and who holds none is seldom. Between rounds the board is often another.
fn next_call(random: &mut Random, case: &mut Case, lots: &[u64]) {
    let w = case.floor.workers;
    case.turns.clear();
    case.second.clear();
    case.worker = random.below(w);
    case.lot = random.pick(lots);
    case.ticket = random.next_ticket(case.floor.last_ticket);
    let record = case.list.records[case.worker as usize];
    let idle = record.is_idle();
    let all_idle = case.list.records.iter().all(Record::is_idle);
    case.call = match random.below(40) {
        0 => random.pick(&[SHOW, TOTAL]),
        1 => random.pick(&[COUNT, ORDERS, NEXT]),
        2 => random.pick(&[LOOK, INSERT, REMOVE, TURN, RETIRE, MOVE]),
        10.. if all_idle && random.once_in(4) => MOVE,
        8 | 9 if record.held != NONE => RETIRE,
        8 if !idle && random.once_in(4) => RETIRE,
        3..=7 => RUN,
        _ if idle => random.pick(&[LOOK, INSERT, INSERT, INSERT, REMOVE]),
        _ => TURN,
    };
    if random.once_in(60) {
        case.worker = w;
    }
    if random.once_in(40) {
        case.ticket = case.floor.last_ticket;
    }
    if case.call == ORDERS {
        case.worker = random.depth();
    }
    if case.call == NEXT {
        case.worker = random.pick(&[0, 0, 1, 63, 64, case.floor.buckets]);
    }
    if case.call == MOVE {
        let sizes: &[u64] = match case.floor.version {
            0 => &[1, 1, 2, 2, 3, 65, 256],
            _ => &[1, 1, 2, 2, 3],
        };
        let n = random.pick(sizes);
        random.go_to(case, n);
    }
    if case.call == RUN {
        for _ in 0..1 + random.below(4) {
            let worker = random.below(w) as u8;
            let burst = 1 + random.below(7) as usize;
            case.turns.extend(vec![worker; burst]);
        }
    }
}

/// A sound case with one thing in it spoilt, which may leave it sound.
fn spoilt(random: &mut Random) -> Case {
    let call = random.pick(&[
        OPEN, LOOK, INSERT, REMOVE, TURN, TURN, TURN, TURN, TURN, RUN, RUN, SHOW, COUNT, ORDERS,
        RETIRE, RETIRE, TOTAL, NEXT, MOVE, MOVE,
    ]);
    let mut case = random.sound(call);
    let edge = random.pick(&EDGES);
    match random.below(9) {
        0 => spoil_sizes(random, &mut case),
        1 => case.worker = edge,
        2 => case.ticket = edge,
        3 => match random.once_in(2) {
            true => case.floor.last_ticket = edge,
            false => case.floor.version = edge as u32,
        },
        4 | 5 => {
            spoil_word(random, &mut case.board);
            // else the index tells of the mark that was there
            if !random.once_in(4) {
                count_index(&mut case);
            }
        }
        6 => spoil_index(random, &mut case.index),
        _ => {
            let at = match random.once_in(4) {
                true => random.below(case.list.records.len() as u64),
                false => case.worker % case.list.records.len() as u64,
            };
            spoil_record(random, &mut case.list.records[at as usize]);
        }
    }
    case
}

fn spoil_sizes(random: &mut Random, case: &mut Case) {
    let edge = random.pick(&EDGES);
    match random.below(6) {
        0 => case.floor.workers = edge,
        1 => case.floor.buckets = edge,
        2 => case.board.resize(random.below(26) as usize, 0),
        3 => case.index.resize(random.below(9) as usize, 0),
        4 => case.second.resize(random.below(26) as usize, 0),
        _ => super::build::set_list(case, edge),
    }
}

/// One byte of a word, so that marks, byte 7 and versions are met as well as keys.
fn spoil_word(random: &mut Random, board: &mut [u64]) {
    let at = random.below(board.len() as u64) as usize;
    let mut bytes = board[at].to_le_bytes();
    bytes[random.below(8) as usize] = match random.once_in(2) {
        true => random.any() as u8,
        false => random.pick(&[0, 1, 2, 3, 255]),
    };
    board[at] = u64::from_le_bytes(bytes);
}

/// The total a little off or quite another, the bit of one of the first buckets or any bit, and so perhaps an unused one.
fn spoil_index(random: &mut Random, index: &mut [u64]) {
    match random.below(6) {
        0 => index[0] = random.pick(&EDGES),
        1 | 2 => index[0] = index[0].wrapping_add(random.pick(&[1, 2, u64::MAX])),
        3 => flip_bit(index, random.below(256)),
        _ => flip_bit(index, random.below(3)),
    }
}

fn spoil_record(random: &mut Random, record: &mut Record) {
    let edge = random.pick(&EDGES);
    match random.below(9) {
        0 => record.kind = random.pick(&[0, 1, 2, 3, 4, 255]),
        1 => record.place = random.below(16) as u8,
        2 => record.key = edge,
        3 => record.ticket = edge,
        4 => record.slot = random.below(5) as u8,
        5 => {
            let mut word = [record.word];
            spoil_word(random, &mut word);
            record.word = word[0];
        }
        6 => record.held = random.below(5) as u8,
        7 => record.seen = edge,
        _ => record.asleep = edge as u32,
    }
}

/// Bytes: of any value, of small values, or the bytes of a case with something changed, cut or put behind.
fn bytes(random: &mut Random) -> Vec<u8> {
    match random.below(8) {
        0 => row(random, 256),
        1 => row(random, 4),
        2 => row(random, 250),
        3 | 4 => likely(random),
        _ => {
            let mut body = spoilt(random).write();
            change(random, &mut body);
            body
        }
    }
}

fn row(random: &mut Random, below: u64) -> Vec<u8> {
    let length = random.below(100);
    (0..length).map(|_| random.below(below) as u8).collect()
}

/// A turn, a run, a retiring or all orders on one worker and one bucket, all else of small bytes, so that it is often sound.
fn likely(random: &mut Random) -> Vec<u8> {
    let call = random.pick(&[TURN, TURN, RUN, RUN, ORDERS, RETIRE]);
    let worker = match call {
        ORDERS => random.below(26) as u8,
        _ => 0,
    };
    let mut body = vec![call, 1, 1, random.below(4) as u8, 0, worker, 0, 0, 8];
    let marks = [random.slot(), random.slot(), random.slot()];
    // the mark word in its long form, and the other words in short groups
    body.extend([0, 254, marks[0], marks[1], marks[2], 0, 0, 0, 0]);
    for _ in 0..6 {
        body.extend([0, random.below(3) as u8]);
    }
    body.extend([0, 0, 1, 0]);
    body.extend([random.below(4) as u8, random.below(14) as u8]);
    for bound in [3, 3, 3] {
        body.push(random.below(bound) as u8);
    }
    body.extend([254, random.slot(), random.slot(), random.slot(), 0, 0, 0, 0]);
    for bound in [4, 3, 3] {
        body.push(random.below(bound) as u8);
    }
    let valid = marks.iter().filter(|&&mark| mark == MAP_VALID).count() as u8;
    let (total, bits) = match random.once_in(4) {
        true => (random.below(4) as u8, random.below(3) as u8),
        false => (valid, valid.min(1)),
    };
    body.extend([5, 0, total, 0, bits, 2, 0]);
    // no second board, and the turns
    body.extend([0, 0, 0, 1 + random.below(20) as u8]);
    body
}

fn change(random: &mut Random, body: &mut Vec<u8>) {
    let at = random.below(body.len() as u64) as usize;
    match random.below(3) {
        0 => body[at] = random.below(256) as u8,
        1 => body.truncate(at),
        _ => {
            let more = row(random, 256);
            body.extend(more);
        }
    }
}
