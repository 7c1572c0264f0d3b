//! Which numbers came, in which order, and what alone caused a 1.

use super::index::is_refuted;
use super::moving::{is_crowded, is_kept_back, sizes_of_the_new_board};
use super::orders::causes_of_10;
use crate::case::{self, Case, NAMES};
use crate::desk::{MOST_BUCKETS, MOST_TURNS, MOST_WORKERS};
use crate::index::INDEX_WORDS;
use crate::memory::{Board, BUCKET_WORDS};
use crate::outcome::{Answer, Outcome};
use crate::record::{Record, NONE};

pub fn see(case: &Case, outcome: &Outcome, met: &mut Vec<String>) {
    let name = NAMES[case.call as usize];
    let number = outcome.answer.number();
    match &outcome.answer {
        Answer::Run(2 | 3 | 6 | 7 | 11, ran) => {
            let when = if ran.counts.turns == 0 {
                "at once"
            } else {
                "later"
            };
            met.push(format!("run is stopped by {number} {when}"));
        }
        _ => met.push(format!("{name} gives {number}")),
    }
    for other in applying(case) {
        // a run's later turns are no part of the order
        let at_once = !matches!(&outcome.answer, Answer::Run(_, ran) if ran.counts.turns > 0);
        if number != 0 && number != other && at_once {
            met.push(format!("{name}: {number} before {other}"));
        }
    }
    if number == 1 {
        see_cause_of_1(case, met);
    }
}

fn see_cause_of_1(case: &Case, met: &mut Vec<String>) {
    let name = NAMES[case.call as usize];
    let [cause] = &causes_of_1(case)[..] else {
        return;
    };
    met.push(format!("{name}: 1 by {cause}"));
    if cause.contains("index") {
        for other in applying(case) {
            met.push(format!("{name}: 1 by an index alone before {other}"));
        }
        if case.call == case::RETIRE && record_of(case).is_some_and(holds_nothing) {
            met.push("retire: 1 by an index with nothing held".into());
        }
        if case.call == case::RUN && case.turns.is_empty() {
            met.push("run: 1 by an index with no turns".into());
        }
    }
}

fn holds_nothing(record: &Record) -> bool {
    !record.is_idle() && !record.is_broken() && record.held == NONE
}

/// §1.1: what a call is given beside the board.
pub fn takes_list(call: u8) -> bool {
    !matches!(call, case::SHOW | case::COUNT | case::TOTAL | case::NEXT)
}

pub fn takes_index(call: u8) -> bool {
    use case::{MOVE, NEXT, OPEN, RETIRE, RUN, TOTAL, TURN};
    matches!(call, OPEN | TURN | RUN | RETIRE | TOTAL | NEXT | MOVE)
}

/// W and N that the call must measure: an opening's are those asked for.
pub fn sizes(case: &Case) -> (u64, u64) {
    match case.call {
        case::OPEN => (case.worker, case.lot),
        _ => (case.floor.workers, case.floor.buckets),
    }
}

/// The worker that a call, or the first turn of a run, is for.
pub fn worker_of(case: &Case) -> Option<u64> {
    match case.call {
        case::LOOK | case::INSERT | case::REMOVE | case::TURN | case::RETIRE => Some(case.worker),
        case::RUN => case.turns.first().map(|&worker| worker.into()),
        _ => None,
    }
}

/// The record of that worker, if the list has one.
pub fn record_of(case: &Case) -> Option<&Record> {
    let worker = usize::try_from(worker_of(case)?).ok()?;
    case.list.records.get(worker)
}

/// Whether the bucket of a lot is there and broken.
pub fn is_broken_at(case: &Case, lot: u64) -> bool {
    let (_, buckets) = sizes(case);
    buckets != 0 && is_broken_bucket(case, lot % buckets)
}

fn is_broken_bucket(case: &Case, number: u64) -> bool {
    let whole = (case.board.len() / BUCKET_WORDS) as u64;
    number < whole && Board::of(&case.board).bucket(number as usize).is_broken()
}

/// Every number that the case gives cause for, each looked at alone.
pub fn applying(case: &Case) -> Vec<u8> {
    let starts = matches!(case.call, case::LOOK | case::INSERT | case::REMOVE);
    let busy = matches!(case.call, case::TURN | case::RUN | case::RETIRE);
    let record = record_of(case);
    let broken_bucket = match case.call {
        case::TURN | case::RUN => record.is_some_and(|record| is_broken_at(case, record.key)),
        case::RETIRE => {
            record.is_some_and(|record| record.held < NONE && is_broken_at(case, record.key))
        }
        case::SHOW => is_broken_at(case, case.lot),
        case::COUNT | case::ORDERS => {
            (0..MOST_BUCKETS).any(|number| is_broken_bucket(case, number))
        }
        case::MOVE => is_kept_back(case),
        _ => false,
    };
    let broken_record = match case.call {
        case::ORDERS | case::MOVE => case.list.records.iter().any(Record::is_broken),
        _ => record.is_some_and(Record::is_broken),
    };
    let applies = [
        (1, !causes_of_1(case).is_empty()),
        (
            2,
            worker_of(case).is_some_and(|worker| worker >= sizes(case).0),
        ),
        (3, broken_record),
        (4, starts && record.is_some_and(|record| !record.is_idle())),
        (
            5,
            case.call == case::INSERT && case.ticket <= case.floor.last_ticket,
        ),
        (6, busy && record.is_some_and(Record::is_idle)),
        (7, broken_bucket),
        (9, case.call == case::RUN && case.turns.len() > MOST_TURNS),
        (10, !causes_of_10(case).is_empty()),
        (11, is_refuted(case)),
        (
            12,
            case.call == case::MOVE && case.list.records.iter().any(Record::is_sleeper),
        ),
        (13, case.call == case::MOVE && is_crowded(case)),
    ];
    let numbers = applies.iter().filter(|(_, does)| *does);
    numbers.map(|(number, _)| *number).collect()
}

/// What gives cause for a 1. A board is measured only by an N that it can have, and a list only by a W that it can have.
pub fn causes_of_1(case: &Case) -> Vec<&'static str> {
    let (w, n) = sizes(case);
    let words = case.board.len() as u64;
    let mut causes = Vec::new();
    match w {
        0 => causes.push("W 0"),
        65 => causes.push("W 65"),
        0x1_0000_0001 => causes.push("W 2^32+1"),
        u64::MAX => causes.push("W 2^64-1"),
        w if w > MOST_WORKERS => causes.push("another W"),
        _ => (),
    }
    match n {
        0 => causes.push("N 0"),
        257 => causes.push("N 257"),
        0x1_0000_0001 => causes.push("N 2^32+1"),
        u64::MAX => causes.push("N 2^64-1"),
        n if n > MOST_BUCKETS && n.wrapping_mul(8) == words => causes.push("an N whose 8N wraps"),
        n if n > MOST_BUCKETS => causes.push("another N"),
        _ => (),
    }
    if n <= 257 && words != 8 * n {
        causes.push(match words {
            0 => "a board empty",
            2_040 if n == 256 => "a board of 2040 words for N 256",
            words if words + 1 == 8 * n => "a board one word short",
            words if words == 8 * n + 1 => "a board one word long",
            _ => "another board",
        });
    }
    if takes_list(case.call) && w <= case::MOST_RECORDS && case.list.length != w {
        causes.push(length_of_list(case.list.length, w));
    }
    if takes_index(case.call) && case.index.len() != INDEX_WORDS {
        causes.push(length_of_index(case.index.len()));
    }
    if case.call == case::MOVE {
        causes.extend(sizes_of_the_new_board(case));
    }
    causes
}

/// What is wrong with an index of so many words.
pub fn length_of_index(length: usize) -> &'static str {
    match length {
        0 => "an index empty",
        4 => "an index of 4 words",
        6 => "an index of 6 words",
        13 => "an index of 13 words",
        _ => "another index",
    }
}

/// What is wrong with a list of so many records.
pub fn length_of_list(length: u64, w: u64) -> &'static str {
    let more = length.checked_sub(w);
    match (length, more) {
        (_, Some(1)) => "a list one long",
        (_, Some(256)) => "a list of W+256",
        (0, _) if w > 1 => "a list empty",
        (length, None) if length == w - 1 => "a list one short",
        _ => "another list",
    }
}
