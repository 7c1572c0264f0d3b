//! Directed cases: the bucket and the mark words that are reported, by a turn with every outcome of every place, and by runs.
//!
//! Versions tell the words apart: 9 in bucket 0, 6 in a bucket of a turn (8 where its swap is lost), 5 or 6 in its record. The commit that
//! takes the version round has the highest in both.

use super::build::{mark_word, set_bucket};
use super::refusals::refute_index;
use super::Bodies;
use crate::case::{Case, INSERT, LOOK, REMOVE, RUN, TURN};
use crate::memory::BUCKET_WORDS;
use crate::random::Random;
use crate::record::{Record, NONE};
use crate::word::{snap_set_map, MAP_INSRT, MAP_INVLD, MAP_VALID};

/// The record of a worker, and the words of its lot's bucket.
type Turn = (Record, [u64; BUCKET_WORDS]);

pub fn make(bodies: &mut Bodies) {
    for (n, bucket) in [(256, 255), (3, 1)] {
        for (record, words) in every_outcome(&mut bodies.random, lot_of(n, bucket)) {
            // it has slept, and somebody is asleep beside it
            let own = Record {
                asleep: 5,
                ..record
            };
            let mut other = turn_at(&mut bodies.random, lot_of(n, 2), LOOK, 2);
            other.0.asleep = 7;
            let case = desk_with(bodies, TURN, n, &[(own, words), other]);
            bodies.push(case);
        }
    }
    ends_of_words(bodies);
    runs_of_two(bodies);
    stopped_later(bodies);
    for why in [0, 1, 2, 3, 6, 7, 9, 11] {
        refused_at_once(bodies, why);
    }
}

/// A lot of this bucket, whose number is no bucket's.
fn lot_of(n: u64, bucket: u64) -> u64 {
    3 * n + bucket
}

/// A desk of these workers and no others, the call for the first of them.
fn desk_with(bodies: &mut Bodies, call: u8, n: u64, turns: &[Turn]) -> Case {
    let mut case = bodies.random.sound_sized(call, turns.len() as u64, n);
    case.worker = 0;
    case.turns.clear();
    case.board.fill(0);
    case.board[0] = marked(&mut bodies.random, 9);
    for (at, (record, words)) in turns.iter().enumerate() {
        case.list.records[at] = *record;
        set_bucket(&mut case, record.key, *words);
    }
    case
}

fn marked(random: &mut Random, version: u32) -> u64 {
    mark_word(version, [random.slot(), random.slot(), random.slot()])
}

/// A turn at this place. Its record has another word than its bucket.
fn turn_at(random: &mut Random, lot: u64, kind: u8, place: u8) -> Turn {
    let record = Record {
        key: lot,
        word: match kind {
            LOOK => 0,
            _ => marked(random, 5),
        },
        ..random.record(kind, place)
    };
    let mut words = random.bucket();
    words[0] = marked(random, 6);
    (record, words)
}

fn every_outcome(random: &mut Random, lot: u64) -> Vec<Turn> {
    let mut turns = Vec::new();
    for (kind, place) in [
        (INSERT, 1),
        (REMOVE, 1),
        (LOOK, 2),
        (INSERT, 2),
        (INSERT, 7),
        (INSERT, 8),
        (REMOVE, 12),
    ] {
        turns.push(turn_at(random, lot, kind, place));
    }
    for kind in [LOOK, INSERT] {
        for place in [3, 4, 5] {
            turns.extend([true, false].map(|hit| search(random, lot, kind, place, hit)));
        }
    }
    let (mut holding, words) = search(random, lot, INSERT, 5, true);
    holding.held = random.slot();
    turns.push((holding, words));
    for slot in [0, 2] {
        let (mut record, mut words) = turn_at(random, lot, REMOVE, 11);
        record.slot = slot;
        words[1 + slot as usize] = !lot;
        turns.push((record, words));
    }
    for won in [true, false] {
        turns.push(swap(random, lot, 6, 6, won));
        turns.push(swap(random, lot, 9, 6, won));
        turns.push(swap(random, lot, 9, u32::MAX, won));
        turns.push(swap(random, lot, 13, 6, won));
    }
    let (mut nothing, words) = swap(random, lot, 13, 6, true);
    nothing.seen = 0;
    turns.push((nothing, words));
    let (record, mut words) = turn_at(random, lot, INSERT, 10);
    words[0] = snap_set_map(words[0], record.held, MAP_INSRT);
    turns.push((record, words));
    turns
}

/// A search at its last slot, which meets what it looks for or comes to its end; an insert then goes round, for its word is full.
fn search(random: &mut Random, lot: u64, kind: u8, place: u8, hit: bool) -> Turn {
    let (record, mut words) = turn_at(random, lot, kind, place);
    let (mark, key, value) = match hit {
        true => (MAP_VALID, lot, 4),
        false => (MAP_INVLD, !lot, 5),
    };
    words[0] = snap_set_map(words[0], 2, mark);
    (words[3], words[6]) = (key, value);
    let record = Record {
        slot: 2,
        held: NONE,
        word: match kind {
            LOOK => 0,
            _ => mark_word(5, [1, 2, 1]),
        },
        seen: 4,
        ..record
    };
    (record, words)
}

/// A claim, a commit or a close whose word has the mark that a history leads to, and that is lost to a later version.
fn swap(random: &mut Random, lot: u64, place: u8, version: u32, won: bool) -> Turn {
    let (kind, mark) = match place {
        6 => (INSERT, MAP_INVLD),
        9 => (INSERT, MAP_INSRT),
        _ => (REMOVE, MAP_VALID),
    };
    let (mut record, mut words) = turn_at(random, lot, kind, place);
    let at = if place == 9 { record.held } else { record.slot };
    record.word = snap_set_map(marked(random, version), at, mark);
    record.seen = 4;
    words[0] = match won {
        true => record.word,
        false => snap_set_map(marked(random, version.wrapping_add(2)), at, mark),
    };
    (record, words)
}

/// The lowest mark word and the highest: read, left, and come to.
fn ends_of_words(bodies: &mut Bodies) {
    let highest = mark_word(u32::MAX, [2, 2, 2]);
    let last_claim = mark_word(u32::MAX, [2, 0, 2]);
    for (kind, place, at, word) in [
        (LOOK, 2, 0, 0),
        (LOOK, 2, 0, highest),
        (INSERT, 6, 0, 0),
        (INSERT, 6, 1, last_claim),
        (INSERT, 10, 1, mark_word(0, [0, 2, 0])),
        (INSERT, 10, 1, highest),
    ] {
        let (mut record, mut words) = turn_at(&mut bodies.random, 7, kind, place);
        record.slot = at;
        if place == 6 {
            record.word = word;
        }
        if place == 10 {
            record.held = at;
        }
        words[0] = word;
        let case = bodies.random.turn_of(record, words);
        bodies.push(case);
    }
}

/// A turn of one worker, and then one of another in another bucket; each outcome is there as the first and as the last, and so far from
/// itself that in many pairs nothing of the first may be left in the last report.
fn runs_of_two(bodies: &mut Bodies) {
    let lasts = every_outcome(&mut bodies.random, lot_of(3, 1));
    let mut firsts = every_outcome(&mut bodies.random, lot_of(3, 2));
    firsts.rotate_left(13);
    for pair in lasts.into_iter().zip(firsts) {
        let case = desk_with(bodies, RUN, 3, &[pair.0, pair.1]);
        bodies.push(Case {
            turns: vec![1, 0],
            ..case
        });
    }
    for bucket in [0, 255] {
        let last = turn_at(&mut bodies.random, lot_of(256, bucket), LOOK, 2);
        let first = turn_at(&mut bodies.random, lot_of(256, 7), LOOK, 2);
        let case = desk_with(bodies, RUN, 256, &[last, first]);
        bodies.push(Case {
            turns: vec![1, 0],
            ..case
        });
    }
}

/// A worker of bucket 1, one of bucket 2 who is refused for this reason, and one of bucket 0 who is not; and the refused one's number.
fn with_refused(bodies: &mut Bodies, call: u8, turn: Turn, why: u8) -> (Case, u8) {
    let mut refused = turn_at(&mut bodies.random, lot_of(3, 2), LOOK, 2);
    match why {
        3 => refused.0.slot = 3,
        7 => refused.1[7] = 1,
        _ => (),
    }
    let other = turn_at(&mut bodies.random, lot_of(3, 0), LOOK, 2);
    let mut case = desk_with(bodies, call, 3, &[turn, refused, other]);
    match why {
        1 => case.board.push(0),
        6 => case.list.records[1] = Record::idle(),
        11 => refute_index(&mut case, lot_of(3, 2)),
        _ => (),
    }
    let number = match why {
        2 => 3,
        _ => 1,
    };
    (case, number)
}

/// Runs in which turns are done before the refused one, and could be after it.
fn stopped_later(bodies: &mut Bodies) {
    for why in [2, 3, 6, 7, 11] {
        for turn in every_outcome(&mut bodies.random, lot_of(3, 1)) {
            if matches!(turn.0.place, 6 | 7 | 12 | 13) {
                let (case, refused) = with_refused(bodies, RUN, turn, why);
                bodies.push(Case {
                    turns: vec![2, 0, refused, 2],
                    ..case
                });
            }
        }
    }
}

/// A turn, and a run, of which nothing is done. Other turns of the run could be.
fn refused_at_once(bodies: &mut Bodies, why: u8) {
    let turn = turn_at(&mut bodies.random, lot_of(3, 1), INSERT, 1);
    let (case, refused) = with_refused(bodies, RUN, turn, why);
    let turns = match why {
        0 => Vec::new(),
        9 => vec![0; 65_536],
        _ => vec![refused, 0, 2],
    };
    bodies.push(Case {
        turns,
        ..case.clone()
    });
    if !matches!(why, 0 | 9) {
        bodies.push(Case {
            call: TURN,
            worker: refused.into(),
            ..case
        });
    }
}
