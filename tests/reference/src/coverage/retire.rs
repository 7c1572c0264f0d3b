//! Retirings: from which record, over what that stood in its bucket, beside whom, and where that did not matter.

use super::broken::causes_in_bucket;
use super::refusals::{is_broken_at, record_of};
use super::shown;
use crate::case::{Case, NAMES, RETIRE};
use crate::memory::BUCKET_WORDS;
use crate::outcome::Outcome;
use crate::record::{Record, INSERT, NONE};
use crate::word::{Snapshot, MAP_INSRT};

/// What an insert of lot 7 with ticket 2 leaves in a bucket that was opened at version 0, if it is retired before its claim, after it,
/// after its first store and after its second.
const LEFT: [([u64; BUCKET_WORDS], &str); 4] = [
    ([0; BUCKET_WORDS], "nothing is left"),
    ([1, 0, 0, 0, 0, 0, 0, 0], "a version is left"),
    ([1, 0, 0, 0, 2, 0, 0, 0], "a version and a ticket are left"),
    (
        [1, 7, 0, 0, 2, 0, 0, 0],
        "a version, a ticket and a lot are left",
    ),
];

pub fn see(case: &Case, outcome: &Outcome, met: &mut Vec<String>) {
    if case.call != RETIRE {
        return;
    }
    match (outcome.answer.number(), record_of(case)) {
        (0, Some(record)) => see_retired(case, record, outcome, met),
        (6, _) if is_broken_at(case, 0) => met.push("retire: 6 over a broken bucket".into()),
        _ => (),
    }
}

fn see_retired(case: &Case, record: &Record, outcome: &Outcome, met: &mut Vec<String>) {
    let start = BUCKET_WORDS * (record.key % case.floor.buckets) as usize;
    let words = &case.board[start..start + BUCKET_WORDS];
    see_record(case, record, met);
    see_others(case, record, met);
    match record.held {
        NONE => see_nothing_held(record, words, met),
        _ => {
            see_marks(record, words[0], met);
            see_version(record, words[0], met);
            see_likeness(case, record, words, met);
        }
    }
    for (left, what) in LEFT {
        if (record.key, record.ticket) == (7, 2) && outcome.board == left {
            met.push(format!("retire, trial: {what}"));
        }
    }
}

fn see_record(case: &Case, record: &Record, met: &mut Vec<String>) {
    let kind = NAMES[record.kind as usize];
    let Record {
        place, slot, held, ..
    } = record;
    match record.kind {
        INSERT => met.push(format!("retire: insert at {place} held {held}")),
        _ => met.push(format!("retire: {kind} at {place}")),
    }
    match record.kind {
        INSERT => met.push(format!("retire: insert at slot {slot} held {held}")),
        _ => met.push(format!("retire: {kind} at slot {slot}")),
    }
    met.push(format!("retire: {kind} ticket {}", shown(record.ticket)));
    let last = case.floor.last_ticket;
    met.push(format!("retire: 0 with last ticket {}", shown(last)));
    if record.ticket == last && record.kind == INSERT {
        met.push("retire: the last ticket is its own".into());
    }
}

/// Who else is in the same bucket.
fn see_others(case: &Case, record: &Record, met: &mut Vec<String>) {
    let bucket = |record: &Record| record.key % case.floor.buckets;
    let others = case.list.records.iter().enumerate();
    let others = others.filter(|&(worker, _)| worker as u64 != case.worker);
    for (_, other) in others.filter(|(_, other)| bucket(other) == bucket(record)) {
        let who = match other.held {
            _ if other.is_idle() || other.is_broken() => continue,
            _ if other == record => "its like",
            NONE => "who holds nothing",
            held if held == record.held => "who holds the same slot",
            _ if record.held == NONE => "who holds a slot and it none",
            _ => "who holds another slot",
        };
        met.push(format!("retire: beside one {who}"));
    }
}

fn see_nothing_held(record: &Record, words: &[u64], met: &mut Vec<String>) {
    let kind = NAMES[record.kind as usize];
    if let [cause] = &causes_in_bucket(words)[..] {
        met.push(format!("retire: 0 with nothing held over {cause}"));
    }
    if Snapshot::of(words[0]).map[usize::from(record.slot)] == MAP_INSRT {
        met.push(format!("retire: {kind} with nothing held at a mark 2"));
    }
}

fn see_marks(record: &Record, word: u64, met: &mut Vec<String>) {
    let held = record.held;
    let mut others = Snapshot::of(word).map.to_vec();
    let mark = others.remove(usize::from(held));
    let others = format!("{}{}", others[0], others[1]);
    met.push(format!(
        "retire: held {held} mark {mark}, other marks {others}"
    ));
    if Snapshot::of(word).version == u32::MAX {
        met.push(format!(
            "retire: version 4294967295 to 0 held {held} mark {mark}"
        ));
        met.push(format!(
            "retire: version 4294967295 to 0 held {held}, other marks {others}"
        ));
    }
}

fn see_version(record: &Record, word: u64, met: &mut Vec<String>) {
    let version = Snapshot::of(word).version;
    met.push(format!("retire: version {version} goes up"));
    let would = match record.commit_expects() == Some(word) {
        true => "won",
        false => "lost",
    };
    met.push(format!("retire: its commit would have {would}"));
    if Snapshot::of(record.word).version != version {
        met.push("retire: another version than in its word".into());
    }
    if record.word == word {
        met.push("retire: its own word stands".into());
    }
}

/// What the bucket must not be mistaken for, and what must stay in the slot.
fn see_likeness(case: &Case, record: &Record, words: &[u64], met: &mut Vec<String>) {
    let (lot, n) = (record.key, case.floor.buckets);
    let bucket = lot % n;
    met.push(match bucket {
        0 => "retire: holding in bucket 0".into(),
        255 => "retire: holding in bucket 255".into(),
        _ => "retire: holding in bucket between".into(),
    });
    if bucket != 0 && bucket != lot {
        met.push("retire: holding in a bucket neither 0 nor the lot".into());
    }
    if n > 1 && bucket == n - 1 {
        met.push("retire: holding in bucket N-1".into());
    }
    match lot {
        0 => met.push("retire: holding for lot 0".into()),
        u64::MAX => met.push("retire: holding for lot 2^64-1".into()),
        _ => (),
    }
    let held = usize::from(record.held);
    if words[1 + held] != 0 && words[4 + held] != 0 {
        met.push(format!("retire: held {held} over a lot and a ticket"));
    }
}
