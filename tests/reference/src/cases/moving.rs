//! Directed cases: a move to another board (§22). Each number by each of its causes, what comes before what, which
//! lots go where, and what is done on the new board then; and random ones, of boards that no history leads to.

mod after;

use super::broken::BUCKETS;
use super::build::{count_index, mark_word, places, set_list, set_workers, settle, LONG_ENDS};
use super::index::WORD_ENDS;
use super::refusals::broken_record;
use super::Bodies;
use crate::case::{Case, INSERT, LOOK, MOVE, REMOVE};
use crate::index::INDEX_WORDS;
use crate::memory::BUCKET_WORDS;
use crate::record::Record;
use crate::word::{snap_set_map, MAP_INSRT, MAP_VALID};

pub fn make(bodies: &mut Bodies) {
    sizes_of_the_new_board(bodies);
    several_reasons(bodies);
    records(bodies);
    buckets_that_keep_back(bodies);
    crowded_behind_and_before(bodies);
    crowds(bodies);
    crowds_of_one_lot(bodies);
    far_apart(bodies);
    every_mark(bodies);
    every_order(bodies);
    sizes(bodies);
    full_boards(bodies);
    empty_boards(bodies);
    word_ends(bodies);
    numbers(bodies);
    lots(bodies);
    whatever_was_there(bodies);
    after::make(bodies);
    any(bodies);
}

/// A lot in a slot of an old bucket: the bucket, the slot, the lot.
type Standing = (u64, u8, u64);

/// A move of these lots, from a board of N buckets with no others to so many new ones. What is left in empty slots, versions and tickets are
/// anything.
fn moving(bodies: &mut Bodies, n: u64, lots: &[Standing], to: u64) -> Case {
    let w = bodies.random.few();
    moving_of(bodies, w, n, lots, to)
}

fn moving_of(bodies: &mut Bodies, w: u64, n: u64, lots: &[Standing], to: u64) -> Case {
    let random = &mut bodies.random;
    let mut case = random.sound_sized(MOVE, w, n);
    for mark in case.board.iter_mut().step_by(BUCKET_WORDS) {
        *mark = mark_word(*mark as u32, [0; 3]);
    }
    for &(bucket, slot, lot) in lots {
        let words = &mut case.board[BUCKET_WORDS * bucket as usize..][..BUCKET_WORDS];
        words[0] = snap_set_map(words[0], slot, MAP_VALID);
        words[1 + usize::from(slot)] = lot;
        words[4 + usize::from(slot)] = random.ticket();
    }
    random.go_to(&mut case, to);
    count_index(&mut case);
    case
}

fn push(bodies: &mut Bodies, n: u64, lots: &[Standing], to: u64) {
    let case = moving(bodies, n, lots, to);
    bodies.push(case);
}

// ---- 1, and what comes after it

/// The new N out of its range, and the new board of a length that its N does not have.
fn sizes_of_the_new_board(bodies: &mut Bodies) {
    for (n, words) in [
        (0, 0),
        (0, BUCKET_WORDS),
        (257, 257 * BUCKET_WORDS),
        (u64::MAX, BUCKET_WORDS),
        ((1 << 32) + 1, BUCKET_WORDS),
        ((1 << 61) + 1, BUCKET_WORDS),
        (1, 0),
        (1, BUCKET_WORDS - 1),
        (1, BUCKET_WORDS + 1),
        (1, 2 * BUCKET_WORDS),
        (2, BUCKET_WORDS),
        (256, 2_040),
        (256, 2_047),
        (256, 2_049),
    ] {
        let mut case = moving(bodies, 1, &[(0, 1, 7)], 1);
        case.worker = n;
        case.second.resize(words, 0);
        bodies.push(case);
    }
    // the old board has the words of the new N, and the new one those of the old
    let mut case = moving(bodies, 1, &[(0, 1, 7)], 2);
    std::mem::swap(&mut case.board, &mut case.second);
    bodies.push(case);
}

/// Whatever is measured, each with a wrong size, and the buckets that are there are left whole.
const WRONG_SIZES: [fn(&mut Case); 9] = [
    |case| case.board.push(0),
    |case| case.second.push(0),
    |case| (case.worker, case.second) = (257, vec![7; 257 * BUCKET_WORDS]),
    |case| (case.worker, case.second) = (0, vec![]),
    |case| {
        case.floor.buckets = 257;
        case.board.resize(257 * BUCKET_WORDS, 0);
    },
    |case| set_list(case, case.list.length + 1),
    |case| set_workers(case, 65),
    |case| case.index.push(0),
    |case| case.index.truncate(INDEX_WORDS - 1),
];

/// The reasons that come after 1, in their order.
const LATER: [u8; 4] = [3, 12, 7, 13];

/// Every set of reasons after 1, alone and with each wrong size.
fn several_reasons(bodies: &mut Bodies) {
    for set in 0..16 {
        let whys: Vec<u8> = (0..4)
            .filter(|at| set >> at & 1 == 1)
            .map(|at| LATER[at])
            .collect();
        let case = for_reasons(bodies, &whys);
        bodies.push(case);
        for wrong in WRONG_SIZES {
            let mut case = for_reasons(bodies, &whys);
            wrong(&mut case);
            bodies.push(case);
        }
    }
}

/// A move of three workers from two buckets to one, with these reasons to be refused.
fn for_reasons(bodies: &mut Bodies, whys: &[u8]) -> Case {
    // lots that 257 buckets would have in one too
    let four = [(0, 0, 257), (0, 1, 514), (0, 2, 257), (1, 0, 771)];
    let lots = match whys.contains(&13) {
        true => &four[..],
        false => &four[1..],
    };
    let mut case = moving_of(bodies, 3, 2, lots, 1);
    let random = &mut bodies.random;
    let mut workers = [0, 1, 2];
    random.shuffle(&mut workers);
    if whys.contains(&3) {
        case.list.records[workers[0]] = broken_record(random);
    }
    if whys.contains(&12) {
        case.list.records[workers[1]] = random.any_record();
    }
    if whys.contains(&7) {
        match random.below(4) {
            0 => case.board[7] = 1,
            1 => case.board[15] = 1,
            2 => case.board[8] = snap_set_map(case.board[8], 2, 3),
            _ => case.board[8] = snap_set_map(case.board[8], 1, MAP_INSRT),
        }
    }
    case
}

// ---- 3 and 12

/// Nobody is idle but those who are not named.
fn with_records(bodies: &mut Bodies, w: u64, records: &[(usize, Record)]) {
    let mut case = moving_of(bodies, w, 1, &[(0, 2, 7)], 2);
    for &(worker, record) in records {
        case.list.records[worker] = record;
    }
    bodies.push(case);
}

fn records(bodies: &mut Bodies) {
    for kind in [LOOK, INSERT, REMOVE] {
        for &place in places(kind) {
            let record = bodies.random.record(kind, place);
            let worker = bodies.random.below(3) as usize;
            with_records(bodies, 3, &[(worker, record)]);
        }
    }
    for held in [0, 1, 2, 3] {
        let record = Record {
            held,
            ..bodies.random.record(INSERT, 5)
        };
        with_records(bodies, 1, &[(0, record)]);
    }
    for asleep in [0, 1, u32::MAX - 1, u32::MAX] {
        let record = Record {
            asleep,
            ..bodies.random.any_record()
        };
        with_records(bodies, 2, &[(1, record)]);
    }
    for w in [1, 2, 3, 64] {
        positions(bodies, w);
    }
}

/// A broken one, a busy one, and both, at the ends of the list and between.
fn positions(bodies: &mut Bodies, w: u64) {
    let (first, last) = (0, w as usize - 1);
    let between = last / 2;
    for worker in [first, between, last] {
        let (broken, busy) = (
            broken_record(&mut bodies.random),
            bodies.random.any_record(),
        );
        with_records(bodies, w, &[(worker, broken)]);
        with_records(bodies, w, &[(worker, busy)]);
        for other in [first, between, last] {
            if other != worker {
                with_records(bodies, w, &[(worker, broken), (other, busy)]);
            }
        }
        with_records(bodies, w, &all(w, busy));
        with_records(bodies, w, &all(w, broken));
        let but_one = [all(w, busy), vec![(worker, broken)]].concat();
        with_records(bodies, w, &but_one);
    }
}

fn all(w: u64, record: Record) -> Vec<(usize, Record)> {
    (0..w as usize).map(|worker| (worker, record)).collect()
}

// ---- 7

/// Every cause in the first bucket and in the last, of three; a mark 2 also in the only one, and in the last of 256.
fn buckets_that_keep_back(bodies: &mut Bodies) {
    for bucket in [0, 2] {
        for spoil in BUCKETS {
            let mut case = three_lots(bodies);
            spoil.spoil(&mut case.board[BUCKET_WORDS * bucket..][..BUCKET_WORDS]);
            bodies.push(case);
        }
        for slot in [0, 1, 2] {
            let mut case = three_lots(bodies);
            half_write(&mut case, bucket, slot);
            bodies.push(case);
        }
    }
    for (n, bucket) in [(1, 0), (256, 0), (256, 255)] {
        let slot = bodies.random.slot();
        let mut case = moving(bodies, n, &[(0, 1, 7)], 2);
        half_write(&mut case, bucket, slot);
        bodies.push(case);
        for spoil in [BUCKETS[0], BUCKETS[12], BUCKETS[16]] {
            let mut case = moving(bodies, n, &[(0, 1, 7)], 2);
            spoil.spoil(&mut case.board[BUCKET_WORDS * bucket..][..BUCKET_WORDS]);
            bodies.push(case);
        }
    }
}

fn three_lots(bodies: &mut Bodies) -> Case {
    moving(bodies, 3, &[(0, 1, 3), (1, 0, 4), (2, 2, 5)], 2)
}

fn half_write(case: &mut Case, bucket: usize, slot: u8) {
    let word = &mut case.board[BUCKET_WORDS * bucket];
    *word = snap_set_map(*word, slot, MAP_INSRT);
}

/// A bucket that keeps the move back, before the one with a fourth lot, in it, and behind it; by each sort of cause.
fn crowded_behind_and_before(bodies: &mut Bodies) {
    for bucket in [0, 2, 4] {
        for cause in 0..4 {
            let lots = [(1, 0, 6), (1, 2, 8), (2, 0, 12), (2, 1, 3), (3, 1, 7)];
            let mut case = moving(bodies, 5, &lots, 1);
            match cause {
                0 => half_write(&mut case, bucket, 2),
                1 => BUCKETS[8].spoil(&mut case.board[BUCKET_WORDS * bucket..]),
                2 => BUCKETS[13].spoil(&mut case.board[BUCKET_WORDS * bucket..]),
                _ => BUCKETS[17].spoil(&mut case.board[BUCKET_WORDS * bucket..]),
            }
            bodies.push(case);
        }
    }
}

// ---- 13, and what is just allowed

/// Four lots of one new bucket, by how many of them come from each old bucket, and three.
const FOUR: [&[usize]; 7] = [
    &[3, 1],
    &[1, 3],
    &[2, 2],
    &[1, 1, 2],
    &[1, 2, 1],
    &[2, 1, 1],
    &[1, 1, 1, 1],
];
const THREE: [&[usize]; 4] = [&[3], &[1, 2], &[2, 1], &[1, 1, 1]];

fn crowds(bodies: &mut Bodies) {
    for split in [&FOUR[..], &THREE[..]].concat() {
        for (to, bucket) in [(1, 0), (3, 0), (3, 1), (3, 2), (5, 4), (256, 255)] {
            let lots = crowd(bodies, split, to, bucket);
            push(bodies, split.len() as u64, &lots, to);
        }
        // with a lot of another bucket before them and one behind
        let mut lots = crowd(bodies, split, 3, 1);
        for lot in &mut lots {
            lot.0 += 1;
        }
        let last = split.len() as u64 + 1;
        lots.extend([(0, 1, 9), (last, 2, 5)]);
        push(bodies, last + 1, &lots, 3);
    }
    // two new buckets with a fourth lot, and more than a fourth
    let lots = [0, 1, 2, 3].map(|bucket| [(bucket, 0, bucket), (bucket, 2, 3)]);
    push(bodies, 4, &lots.concat()[..], 1);
    let both = [0, 1, 2, 3].map(|bucket| [(bucket, 1, 2 * bucket), (bucket, 0, 2 * bucket + 1)]);
    push(bodies, 4, &both.concat()[..], 2);
    let five = [0, 1, 2, 3, 4].map(|bucket| (bucket, 2, 4 * bucket));
    push(bodies, 5, &five[..], 2);
}

/// So many lots of this new bucket from each old one, in any of its slots.
fn crowd(bodies: &mut Bodies, split: &[usize], to: u64, bucket: u64) -> Vec<Standing> {
    let mut lots = Vec::new();
    for (old, &count) in (0..).zip(split) {
        let mut slots = [0, 1, 2];
        bodies.random.shuffle(&mut slots);
        for &slot in &slots[..count] {
            lots.push((old, slot, bucket + to * bodies.random.below(1_000)));
        }
    }
    lots
}

/// The same lot in several slots, which no history leads to: each goes.
fn crowds_of_one_lot(bodies: &mut Bodies) {
    let twice_in_one = [(1, 0, 7), (1, 2, 7)];
    let twice_in_two = [(0, 1, 7), (2, 1, 7)];
    let thrice = [(0, 1, 7), (1, 0, 7), (1, 2, 7)];
    let four_times = [(0, 1, 7), (1, 0, 7), (1, 2, 7), (2, 2, 7)];
    for to in [1, 3, 256] {
        push(bodies, 2, &twice_in_one, to);
        push(bodies, 3, &twice_in_two, to);
        push(bodies, 2, &thrice, to);
        push(bodies, 3, &four_times, to);
    }
}

/// The fourth lot in the last slot of the largest board, and the third.
fn far_apart(bodies: &mut Bodies) {
    let lots = [(0, 0, 256), (100, 1, 100), (200, 2, 712), (255, 2, 255)];
    for to in [1, 2, 3] {
        let same = lots.map(|(bucket, slot, lot)| (bucket, slot, to * lot));
        push(bodies, 256, &same, to);
        push(bodies, 256, &same[1..], to);
    }
}

/// Two buckets with each slot valid or not, to one bucket: which of them goes where, and whether it is too many.
fn every_mark(bodies: &mut Bodies) {
    for marks in 0..64 {
        let slots = (0..6).filter(|slot| marks >> slot & 1 == 1);
        let lots: Vec<Standing> = slots
            .map(|slot| (slot / 3, (slot % 3) as u8, 20 - slot))
            .collect();
        push(bodies, 2, &lots, 1);
    }
    for marks in 0..8 {
        let slots = (0..3).filter(|slot| marks >> slot & 1 == 1);
        let lots: Vec<Standing> = slots.map(|slot| (0, slot as u8, 9 - slot)).collect();
        for to in [1, 2] {
            push(bodies, 1, &lots, to);
        }
    }
}

// ---- what goes where

/// Three lots of three old buckets in every order; three of one, in its slots.
fn every_order(bodies: &mut Bodies) {
    for [a, b, c] in [
        [2, 4, 9],
        [2, 9, 4],
        [4, 2, 9],
        [4, 9, 2],
        [9, 2, 4],
        [9, 4, 2],
    ] {
        let slots = [(); 3].map(|()| bodies.random.slot());
        push(
            bodies,
            3,
            &[(0, slots[0], a), (1, slots[1], b), (2, slots[2], c)],
            1,
        );
        push(bodies, 1, &[(0, 0, a), (0, 1, b), (0, 2, c)], 1);
    }
}

/// From each end of the range to each, and from sizes to others. Lots stand in the first bucket, the last and one between.
fn sizes(bodies: &mut Bodies) {
    for (n, to) in [
        (1, 1),
        (1, 256),
        (256, 1),
        (256, 256),
        (1, 2),
        (2, 1),
        (2, 3),
        (3, 2),
        (64, 65),
        (65, 64),
        (255, 256),
        (256, 255),
        (100, 7),
        (7, 100),
        (128, 64),
        (64, 128),
    ] {
        for _ in 0..2 {
            let lots = [(0, 1), (n / 2, 0), (n - 1, 2)].map(|(bucket, slot)| {
                let lot = n * bodies.random.below(1 << 40) + bucket;
                (bucket, slot, lot)
            });
            push(bodies, n, &lots, to);
        }
    }
    for w in [1, 64] {
        let case = moving_of(bodies, w, 2, &[(0, 0, 2), (1, 2, 3)], 3);
        bodies.push(case);
    }
}

/// Every slot of the new board is filled: by as many of the old one, or by some of more; and by one lot more, which is too many.
fn full_boards(bodies: &mut Bodies) {
    for (n, to) in [(1, 1), (3, 3), (4, 3), (2, 1), (5, 4)] {
        let mut lots: Vec<Standing> = Vec::new();
        for lot in 0..3 * to {
            lots.push((lot % n, (lot / n) as u8, 7 * to + lot));
        }
        push(bodies, n, &lots, to);
        if n > to {
            lots.push((n - 1, 2, 3 * to));
            push(bodies, n, &lots, to);
        }
    }
    let most: Vec<Standing> = (0..768).map(|at| (at / 3, (at % 3) as u8, at)).collect();
    let mut case = moving_of(bodies, 1, 256, &most, 256);
    for bucket in case.board.chunks_mut(BUCKET_WORDS) {
        // so that the line is no longer than it must be
        bucket[0] &= !0xffff_ffff;
        bucket[4..7].fill(5);
    }
    bodies.push(case);
}

fn empty_boards(bodies: &mut Bodies) {
    for n in [1, 3, 256] {
        for to in [1, 3, 256] {
            push(bodies, n, &[], to);
        }
    }
}

/// Each bucket at an end of a word of the index alone, and all of them.
fn word_ends(bodies: &mut Bodies) {
    for bucket in WORD_ENDS {
        push(bodies, 1, &[(0, 2, 512 + bucket)], 256);
    }
    let all: Vec<Standing> = (0..)
        .zip(WORD_ENDS)
        .map(|(at, bucket)| (at / 3, (at % 3) as u8, bucket))
        .collect();
    push(bodies, 3, &all, 256);
    push(bodies, 3, &all, 192);
}

/// Versions on the floor and in the old bucket, last tickets, and tickets of any width.
fn numbers(bodies: &mut Bodies) {
    for version in [0, 1, 255, 1 << 31, u32::MAX] {
        for old in [0, version, u32::MAX] {
            for lots in [&[][..], &[(1, 1, 7), (0, 2, 4)]] {
                let mut case = moving(bodies, 2, lots, 3);
                case.floor.version = version;
                for bucket in case.board.chunks_mut(BUCKET_WORDS) {
                    bucket[0] = bucket[0] & !0xffff_ffff | u64::from(old);
                }
                bodies.push(case);
            }
        }
    }
    let mut case = moving(bodies, 1, &[(0, 1, 255)], 256);
    case.floor.version = u32::MAX;
    bodies.push(case);
    for last in [0, 1, 7].into_iter().chain(LONG_ENDS) {
        for to in [1, 2] {
            let mut case = moving(bodies, 1, &[(0, 1, 7)], to);
            case.floor.last_ticket = last;
            bodies.push(case);
        }
    }
    for ticket in [0, 1].into_iter().chain(LONG_ENDS) {
        let mut case = moving(bodies, 1, &[(0, 1, 7), (0, 2, 4)], 2);
        case.board[5] = ticket;
        bodies.push(case);
    }
}

/// Lots of any size, on boards of any number of buckets; in their own bucket, and in another's.
fn lots(bodies: &mut Bodies) {
    for to in [1, 2, 3, 7, 100, 255, 256] {
        for lot in [0, to - 1, to, 1 << 32, 1 << 63, u64::MAX - 1, u64::MAX] {
            let slot = bodies.random.slot();
            push(bodies, 2, &[(lot % 2, slot, lot)], to);
        }
        let (lot, slot) = (bodies.random.any(), bodies.random.slot());
        push(bodies, 3, &[(lot % 3, slot, lot)], to);
        push(
            bodies,
            3,
            &[((lot + 1) % 3, slot, lot), ((lot + 2) % 3, slot, 0)],
            to,
        );
    }
}

/// The new board and the index, of any words, where the move is done and where it is not.
fn whatever_was_there(bodies: &mut Bodies) {
    let indexes = [
        [0; INDEX_WORDS],
        [u64::MAX; INDEX_WORDS],
        [0, 1, 2, 3, 4],
        [u64::MAX, 0, 0, 0, 0],
        [0, u64::MAX, u64::MAX, u64::MAX, u64::MAX],
    ];
    for whys in [&[][..], &[3], &[12], &[7], &[13]] {
        let mut case = for_reasons(bodies, whys);
        case.second.fill(0);
        bodies.push(case.clone());
        case.board.push(0);
        bodies.push(case);
    }
    let lots = [(0, 0, 3), (0, 2, 5), (1, 1, 9), (1, 0, 7)];
    for count in [0, 3, 4] {
        for index in indexes {
            let mut case = moving(bodies, 2, &lots[..count], 1);
            case.index = index.to_vec();
            bodies.push(case);
        }
        for word in [0, u64::MAX, mark_word(7, [1; 3]), mark_word(7, [2; 3])] {
            let mut case = moving(bodies, 2, &lots[..count], 1);
            case.second.fill(word);
            bodies.push(case);
        }
        let mut case = moving(bodies, 2, &lots[..count], 2);
        case.second = case.board.clone();
        bodies.push(case);
    }
}

// ---- random ones

/// Few buckets to few, mostly between rounds, with marks of any sort.
fn any(bodies: &mut Bodies) {
    for _ in 0..60 {
        let case = bodies.random.sound(MOVE);
        bodies.push(case);
    }
    for at in 0..160 {
        let random = &mut bodies.random;
        let (w, n, to) = (random.few(), 1 + random.below(5), 1 + random.below(5));
        let mut case = random.sound_sized(MOVE, w, n);
        case.board = random.board(n);
        random.go_to(&mut case, to);
        let marks = if at % 8 == 0 { 3 } else { 2 };
        for word in case.board.iter_mut().step_by(BUCKET_WORDS) {
            *word = mark_word(*word as u32, [(); 3].map(|()| random.below(marks) as u8));
        }
        if random.once_in(12) {
            case.list.records[0] = random.any_record();
        }
        if random.once_in(3) {
            settle(&mut case);
        }
        count_index(&mut case);
        bodies.push(case);
    }
}
