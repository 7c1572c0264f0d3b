//! Directed cases: the display's two questions (§21.3, §21.4), on indexes that no board need have.

use super::build::flip_bit;
use super::index::WORD_ENDS;
use super::refusals::{break_bucket, broken_record};
use super::Bodies;
use crate::case::{Case, NEXT, TOTAL};

/// Boards that end in every word of bits: just before the end of a word, at it, just after it, and elsewhere.
const SIZES: [u64; 12] = [1, 3, 63, 64, 65, 100, 128, 129, 192, 193, 255, 256];

pub fn make(bodies: &mut Bodies) {
    totals(bodies);
    alone(bodies);
    in_pairs(bodies);
    every_bit(bodies);
    last_buckets(bodies);
    any_bits(bodies);
    for call in [TOTAL, NEXT] {
        whatever_the_board(bodies, call);
    }
}

fn totals(bodies: &mut Bodies) {
    for total in [0, 1, 768, 769, 1 << 32, u64::MAX] {
        for n in [1, 256] {
            let mut case = bodies.random.sound_sized(TOTAL, 1, n);
            case.index[0] = total;
            bodies.push(case);
        }
    }
}

/// Asks from this bucket of an empty board, where these buckets have their bit, and perhaps some that are none of the board's.
fn push(bodies: &mut Bodies, n: u64, from: u64, occupied: &[u64]) {
    let mut case = bodies.random.sound_sized(NEXT, 1, n);
    case.board.fill(0);
    case.index.fill(0);
    for &bucket in occupied {
        flip_bit(&mut case.index, bucket);
    }
    case.worker = from;
    bodies.push(case);
}

/// The only one at an end of a word: from the first, from just before it, from itself, and from just past it.
fn alone(bodies: &mut Bodies) {
    for bucket in WORD_ENDS {
        for from in [0, bucket.max(1) - 1, bucket, bucket + 1] {
            push(bodies, 256, from, &[bucket]);
        }
    }
    for n in [1, 3, 64, 256] {
        push(bodies, n, 0, &[]);
    }
}

/// From just past one to the next; then over whole words in which there is none.
fn in_pairs(bodies: &mut Bodies) {
    for pair in WORD_ENDS.windows(2) {
        push(bodies, 256, pair[0] + 1, pair);
        push(bodies, 256, pair[0] + 1, &[0, pair[0], pair[1], 255]);
    }
    for (from, occupied) in [
        (1, [0, 255]),
        (1, [0, 192]),
        (64, [63, 200]),
        (70, [69, 130]),
        (5, [4, 6]),
    ] {
        push(bodies, 256, from, &occupied);
    }
}

/// From the end of the board and past it, and from numbers that a narrower reading would take for a bucket's.
fn every_bit(bodies: &mut Bodies) {
    for n in [1, 3, 64, 65, 255, 256] {
        for from in [n - 1, n, n + 1] {
            push_full(bodies, n, from);
        }
    }
    for from in [
        0,
        100,
        257,
        320,
        (1 << 32) - 1,
        1 << 32,
        (1 << 32) + 3,
        1 << 63,
        u64::MAX,
    ] {
        push_full(bodies, 256, from);
    }
}

fn push_full(bodies: &mut Bodies, n: u64, from: u64) {
    let every: Vec<u64> = (0..256).collect();
    push(bodies, n, from, &every);
}

/// The last bucket, and the bit just past it, which is none of the board's.
fn last_buckets(bodies: &mut Bodies) {
    for n in SIZES {
        for from in [0, n - 1] {
            push(bodies, n, from, &[n - 1]);
        }
        if n < 256 {
            push(bodies, n, 0, &[n]);
            push(bodies, n, n - 1, &[n]);
            push(bodies, n, n - 1, &[n - 1, n, 255]);
        }
        if n > 1 {
            push(bodies, n, n - 1, &[n - 2]);
        }
        if (2..255).contains(&n) {
            push(bodies, n, n - 1, &[0, n - 2, n, 255]);
        }
    }
}

/// Few bits of any, on a board of any size.
fn any_bits(bodies: &mut Bodies) {
    for _ in 0..20 {
        let n = 1 + bodies.random.below(256);
        let from = bodies.random.below(n + 1);
        let occupied = [(); 3].map(|()| bodies.random.below(256));
        push(bodies, n, from, &occupied);
    }
}

/// Neither looks at a bucket, a record or what the other is told.
fn whatever_the_board(bodies: &mut Bodies, call: u8) {
    let spoils: [fn(&mut Case); 5] = [
        |case| break_bucket(case, 0),
        |case| break_bucket(case, 2),
        |case| flip_bit(&mut case.index, 1),
        |case| flip_bit(&mut case.index, 200),
        |case| case.index[0] += 1,
    ];
    for spoil in spoils {
        let mut case = bodies.random.sound_sized(call, 1, 3);
        spoil(&mut case);
        bodies.push(case);
    }
    let mut case = bodies.random.sound_sized(call, 1, 3);
    case.list.records[0] = broken_record(&mut bodies.random);
    bodies.push(case);
}
