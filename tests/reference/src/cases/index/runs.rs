//! Directed cases: runs that keep the index turn by turn (§21.2), and that are stopped by 11 (§21.5) after turns which are done.

use super::{marks, Marks};
use crate::case::{Case, INSERT, LOOK, REMOVE, RUN};
use crate::cases::build::{flip_bit, mark_word, set_bucket};
use crate::cases::Bodies;
use crate::random::Random;
use crate::record::Record;

pub fn make(bodies: &mut Bodies) {
    there_and_back(bodies);
    stopped_by_a_bit(bodies);
    stopped_by_a_total(bodies);
    stopped_by_itself(bodies);
}

/// A record, and the marks of its lot's bucket.
type Touch = (Record, Marks);

/// Two workers, each in a bucket of its own, and these turns of theirs; the index is true of the board.
fn run_of(bodies: &mut Bodies, n: u64, workers: [Touch; 2], turns: &[u8]) -> Case {
    let mut case = bodies.random.sound_sized(RUN, 2, n);
    case.board.fill(0);
    for (at, (record, marks)) in workers.into_iter().enumerate() {
        case.list.records[at] = record;
        let mut words = bodies.random.bucket();
        words[0] = mark_word(9, marks);
        set_bucket(&mut case, record.key, words);
    }
    case.turns = turns.to_vec();
    case
}

/// A look that goes on for two turns at least.
fn look(random: &mut Random, lot: u64, valid: u64) -> Touch {
    let record = Record {
        key: lot,
        slot: 0,
        ..random.record(LOOK, 2)
    };
    (record, marks(random, valid))
}

/// The commit of an insert of which nothing else stands in its bucket.
fn commit(random: &mut Random, lot: u64) -> Touch {
    let marks = [0, 2, 0];
    let record = Record {
        key: lot,
        held: 1,
        word: mark_word(9, marks),
        ..random.record(INSERT, 9)
    };
    (record, marks)
}

/// The close of the only lot in its bucket.
fn close(random: &mut Random, lot: u64) -> Touch {
    let marks = [0, 1, 0];
    let record = Record {
        key: lot,
        slot: 1,
        word: mark_word(9, marks),
        ..random.record(REMOVE, 13)
    };
    (record, marks)
}

/// A lot comes and another worker closes it; one is closed and comes again; and lots come and go on either side of where a word ends.
fn there_and_back(bodies: &mut Bodies) {
    for lot in [0, 63, 64, 255] {
        let random = &mut bodies.random;
        let (comes, goes) = (commit(random, lot), close(random, lot));
        let start = Record {
            key: lot,
            ..Record::idle()
        };
        let remove = Record {
            kind: REMOVE,
            place: 1,
            ..start
        };
        let mut case = run_of(bodies, 256, [comes, (remove, comes.1)], &[0, 1, 1, 1, 1, 1]);
        case.board[8 * lot as usize + 2] = lot;
        bodies.push(case);
        let insert = Record {
            kind: INSERT,
            place: 1,
            ticket: 5,
            ..start
        };
        let turns = [vec![0], vec![1; 11]].concat();
        let case = run_of(bodies, 256, [goes, (insert, goes.1)], &turns);
        bodies.push(case);
        let workers = [goes, commit(&mut bodies.random, lot ^ 127)];
        let case = run_of(bodies, 256, workers, &[0, 1]);
        bodies.push(case);
    }
}

/// Turns in one bucket, and then one in another, whose bit is wrong; those before may have changed the index.
fn stopped_by_a_bit(bodies: &mut Bodies) {
    for n in [2, 256] {
        for valid in [0, 1] {
            let random = &mut bodies.random;
            let refused = look(random, n - 1, valid);
            let workers = [
                (look(random, 0, 1), vec![0, 0]),
                (commit(random, 0), vec![0]),
                (close(random, 0), vec![0]),
            ];
            for (done, mut turns) in workers {
                turns.extend([1, 1]);
                let mut case = run_of(bodies, n, [done, refused], &turns);
                flip_bit(&mut case.index, n - 1);
                bodies.push(case);
            }
        }
    }
}

/// A total that the first bucket allows, and the second does not.
fn stopped_by_a_total(bodies: &mut Bodies) {
    for valid in 0..=3 {
        let others = 3 - valid;
        if valid > 0 {
            push_total(bodies, [0, valid], valid - 1);
        }
        if others > 0 {
            push_total(bodies, [3, valid], 9 - others + 1);
        }
    }
}

fn push_total(bodies: &mut Bodies, valid: [u64; 2], total: u64) {
    let random = &mut bodies.random;
    let workers = [look(random, 0, valid[0]), look(random, 2, valid[1])];
    let mut case = run_of(bodies, 3, workers, &[0, 0, 1, 0]);
    case.index[0] = total;
    bodies.push(case);
}

/// A total that both buckets allow at first, and then the turn in one makes it too high or too low for the other.
fn stopped_by_itself(bodies: &mut Bodies) {
    let random = &mut bodies.random;
    let cases = [
        (commit(random, 0), look(random, 1, 0), 3),
        (close(random, 0), look(random, 1, 1), 1),
    ];
    for (changes, refused, total) in cases {
        let mut case = run_of(bodies, 2, [changes, refused], &[1, 0, 1, 1]);
        case.index[0] = total;
        bodies.push(case);
    }
}
