//! What alone made a record or a bucket broken, and what was broken and did not matter.

use super::refusals::{is_broken_at, record_of, sizes, worker_of};
use super::shown;
use crate::case::{self, Case, NAMES};
use crate::memory::{Board, BUCKET_WORDS};
use crate::outcome::Outcome;
use crate::record::{Record, IDLE, INSERT, LOOK, NONE, REMOVE};
use crate::word::Snapshot;

pub fn see(case: &Case, outcome: &Outcome, met: &mut Vec<String>) {
    match outcome.answer.number() {
        0 => see_what_does_not_matter(case, met),
        3 => see_broken_record(case, outcome, met),
        // a move has more causes, and looks at every bucket
        7 if case.call != case::MOVE => see_broken_bucket(case, outcome, met),
        _ => (),
    }
}

fn see_broken_record(case: &Case, outcome: &Outcome, met: &mut Vec<String>) {
    let by = match case.call {
        case::TURN => "turn",
        case::RUN => "run",
        case::ORDERS => "orders",
        case::RETIRE => "retire",
        case::MOVE => "move",
        _ => "start",
    };
    if !outcome.told.is_empty() {
        return;
    }
    let record = match case.call {
        case::ORDERS | case::MOVE => only_broken(&case.list.records),
        _ => record_of(case),
    };
    if let Some([cause]) = record.map(causes).as_deref() {
        met.push(format!("{by}: broken record, {cause}"));
    }
}

fn only_broken(records: &[Record]) -> Option<&Record> {
    let mut broken = records.iter().filter(|record| record.is_broken());
    let first = broken.next();
    first.filter(|_| broken.next().is_none())
}

/// Everything in a record that the rules don't allow, each with its name.
pub fn causes(record: &Record) -> Vec<String> {
    match record.kind {
        IDLE => causes_in_idle(record),
        LOOK | INSERT | REMOVE => causes_in_busy(record),
        kind => vec![format!("kind {kind}")],
    }
}

fn causes_in_idle(record: &Record) -> Vec<String> {
    let filled = [
        (record.place != 0, "a place"),
        (record.key != 0, "a key"),
        (record.slot != 0, "a slot"),
        (record.word != 0, "a word"),
        (record.seen != 0, "a seen"),
    ];
    let mut causes: Vec<String> = filled
        .iter()
        .filter(|(is_filled, _)| *is_filled)
        .map(|(_, field)| format!("idle with {field}"))
        .collect();
    if record.ticket != 0 {
        causes.push(format!("idle with ticket {}", shown(record.ticket)));
    }
    if record.held != NONE {
        causes.push(format!("idle with held {}", record.held));
    }
    if record.asleep != 0 {
        causes.push(format!("idle with asleep {}", record.asleep));
    }
    causes
}

fn causes_in_busy(record: &Record) -> Vec<String> {
    let Record {
        place,
        ticket,
        slot,
        held,
        ..
    } = *record;
    let kind = NAMES[record.kind as usize];
    let mut causes = Vec::new();
    let places: &[u8] = match record.kind {
        LOOK => &[2, 3, 4, 5],
        INSERT => &[1, 2, 3, 4, 5, 6, 7, 8, 9, 10],
        _ => &[1, 11, 12, 13],
    };
    if !places.contains(&place) {
        causes.push(format!("{kind} at {place}"));
    }
    if (ticket == 0) == (record.kind == INSERT) {
        causes.push(format!("{kind} with ticket {}", shown(ticket)));
    }
    let helds: &[u8] = match (record.kind, place) {
        (INSERT, 1..=5) => &[0, 1, 2, 3],
        (INSERT, 7..=10) => &[0, 1, 2],
        _ => &[3],
    };
    if !helds.contains(&held) {
        causes.push(match record.kind {
            INSERT => format!("insert at {place} with held {held}"),
            _ => format!("{kind} with held {held}"),
        });
    }
    if slot > 2 {
        causes.push(format!("{kind} with slot {slot}"));
    }
    causes.extend(causes_in_word(record, kind));
    causes
}

fn causes_in_word(record: &Record, kind: &str) -> Vec<String> {
    let word = Snapshot::of(record.word);
    if record.kind == LOOK {
        return match (word.version, word.map.iter().max(), word.byte_7) {
            (0, Some(0), 0) => vec![],
            (_, Some(0), 0) => vec!["look with a version in its word".into()],
            (0, Some(mark), 0) => vec![format!("look with mark {mark} in its word")],
            _ => vec!["look with another word".into()],
        };
    }
    let causes = causes_in_mark_word(word).into_iter();
    causes
        .map(|cause| format!("{kind} with {cause} in its word"))
        .collect()
}

/// §2.7, of the mark word.
fn causes_in_mark_word(word: Snapshot) -> Vec<String> {
    let mut causes = Vec::new();
    for (slot, mark) in word.map.iter().enumerate() {
        if *mark > 2 {
            causes.push(format!("mark {mark} at {slot}"));
        }
    }
    if word.byte_7 != 0 {
        causes.push(format!("byte 7 {}", word.byte_7));
    }
    causes
}

fn see_broken_bucket(case: &Case, outcome: &Outcome, met: &mut Vec<String>) {
    let name = NAMES[case.call as usize];
    let broken = broken_buckets(case);
    let (_, n) = sizes(case);
    let lot = match case.call {
        case::SHOW => Some(case.lot),
        case::COUNT => None,
        // the only bucket is every lot's
        case::ORDERS => Some(0),
        _ => record_of(case).map(|record| record.key),
    };
    if !outcome.told.is_empty() {
        return;
    }
    let bucket = match (lot, &broken[..]) {
        (Some(lot), _) => lot % n,
        (None, [alone]) => {
            for (number, name) in [(0, "0"), (n - 1, "N-1")] {
                if *alone == number && n > 1 {
                    met.push(format!("count: 7 by bucket {name} alone"));
                }
            }
            *alone
        }
        _ => return,
    };
    let words = &case.board[BUCKET_WORDS * bucket as usize..][..BUCKET_WORDS];
    if let [cause] = &causes_in_bucket(words)[..] {
        met.push(format!("{name}: 7 by {cause}"));
    }
}

/// §2.7.
pub fn causes_in_bucket(words: &[u64]) -> Vec<String> {
    let mut causes = causes_in_mark_word(Snapshot::of(words[0]));
    if words[7] != 0 {
        causes.push(format!("the spare word {}", words[7]));
    }
    causes
}

pub fn broken_buckets(case: &Case) -> Vec<u64> {
    let board = Board::of(&case.board);
    (0..(case.board.len() / BUCKET_WORDS) as u64)
        .filter(|&number| board.bucket(number as usize).is_broken())
        .collect()
}

fn see_what_does_not_matter(case: &Case, met: &mut Vec<String>) {
    let name = NAMES[case.call as usize];
    let records = &case.list.records;
    let any_record = records.iter().any(Record::is_broken);
    let any_bucket = !broken_buckets(case).is_empty();
    match case.call {
        case::OPEN => see_opening(case, any_bucket, met),
        case::SHOW | case::COUNT | case::TOTAL | case::NEXT if any_record => {
            met.push(format!("{name}: 0 with a broken record"))
        }
        _ => (),
    }
    if worker_of(case).is_some() && any_record {
        met.push(format!("{name}: 0 with a broken record elsewhere"));
    }
    // a retiring that holds nothing is done over its own
    let own = case.call == case::RETIRE
        && record_of(case).is_some_and(|record| is_broken_at(case, record.key));
    if (worker_of(case).is_some() || case.call == case::SHOW) && any_bucket && !own {
        met.push(format!("{name}: 0 with a broken bucket elsewhere"));
    }
    if matches!(case.call, case::LOOK | case::INSERT | case::REMOVE) && is_broken_at(case, case.lot)
    {
        met.push(format!("{name}: 0 on a broken bucket"));
    }
}

/// §2.10, whatever was there.
fn see_opening(case: &Case, any_bucket: bool, met: &mut Vec<String>) {
    for (worker, record) in case.list.records.iter().enumerate() {
        let was = match (record.is_broken(), record.is_idle()) {
            (true, _) => "broken",
            (_, false) => "busy",
            _ => continue,
        };
        met.push(format!("open: 0 over a {was} record of worker {worker}"));
    }
    let floor = case.floor;
    let outside = |number: u64, most: u64| number == 0 || number > most;
    for (is_so, what) in [
        (any_bucket, "over a broken bucket"),
        (floor.last_ticket != 0, "with a last ticket"),
        (
            outside(floor.workers, 64) && outside(floor.buckets, 256),
            "with a floor outside its ranges",
        ),
    ] {
        if is_so {
            met.push(format!("open: 0 {what}"));
        }
    }
}
