//! What reports tell of a bucket and its mark word: the report of each turn, and the one that a run keeps. Seen from the reports.

use super::places::expected;
use super::refusals::record_of;
use crate::case::{Case, NAMES};
use crate::memory::BUCKET_WORDS;
use crate::outcome::{Answer, Outcome, Told};
use crate::record::Record;
use crate::report::{Action, Report};
use crate::word::Snapshot;

/// The highest mark word of a bucket that is not broken.
const HIGHEST: u64 = 0x0002_0202_ffff_ffff;

pub fn see(case: &Case, outcome: &Outcome, met: &mut Vec<String>) {
    match (&outcome.answer, outcome.told.split_last()) {
        (Answer::Turn(Ok(report)), _) => see_turn(case, report, met),
        (Answer::Turn(Err(number)), _) if has_word_to_tell(case) => {
            met.push(format!("turn: {number} with a word to tell"))
        }
        (Answer::Run(number, ran), Some((_, earlier))) => {
            see_last(case, *number, &ran.last, earlier, met);
            see_after(&ran.last, earlier, met);
        }
        (Answer::Run(number, ran), None) => see_no_turn(case, *number, &ran.last, met),
        _ => (),
    }
}

fn see_turn(case: &Case, report: &Report, met: &mut Vec<String>) {
    let record = record_of(case).expect("an accepted turn has a record");
    met.push(format!(
        "report, {} at {}: {}, bucket {}, the word {}",
        NAMES[record.kind as usize],
        record.place,
        came(report),
        bucket(report),
        word(report)
    ));
    see_likeness(case, record, report, met);
    see_swap(record, report, met);
    see_ends(report, met);
}

/// What a turn did, and how its call stands then.
pub fn came(report: &Report) -> String {
    let action = match report.action {
        Action::Read => "read",
        Action::Store => "store",
        Action::Won => "won",
        Action::Lost => "lost",
    };
    let then = match (report.full_round, report.ended) {
        (true, _) => "full round",
        (_, None) => "goes on",
        (_, Some(0)) => "ends with 0",
        (_, Some(_)) => "ends with more",
    };
    format!("{action}, {then}")
}

fn bucket(report: &Report) -> &'static str {
    match report.bucket {
        0 => "0",
        255 => "255",
        _ => "between",
    }
}

fn word(report: &Report) -> &'static str {
    match report.before == report.after {
        true => "stays",
        false => "changes",
    }
}

/// What the report must not be mistaken for: another number, another bucket's word, the word that the worker has in mind.
fn see_likeness(case: &Case, record: &Record, report: &Report, met: &mut Vec<String>) {
    let Record { place, key, .. } = *record;
    let words = [report.before, report.after];
    if report.bucket != 0 && report.bucket != key {
        met.push(format!("report at {place}: a bucket neither 0 nor the lot"));
    }
    if report.bucket != 0 && !words.contains(&case.board[0]) {
        met.push(format!("report at {place}: no word of bucket 0"));
    }
    if !words.contains(&record.word) {
        met.push(format!("report at {place}: no word of the record"));
    }
    // §4.9
    if report.change && report.before == report.after {
        met.push(format!("report at {place}: a change, the word stays"));
    }
}

fn see_swap(record: &Record, report: &Report, met: &mut Vec<String>) {
    let place = record.place;
    let versions = [report.before, report.after].map(|word| Snapshot::of(word).version);
    match report.action {
        Action::Lost if report.bucket != 0 && report.before != expected(record) => met.push(
            format!("report at {place}: lost to another word than expected, bucket not 0"),
        ),
        Action::Won if versions == [u32::MAX, 0] => met.push(format!(
            "report at {place}: version 4294967295 before and 0 after, bucket {}",
            bucket(report)
        )),
        _ => (),
    }
}

fn see_ends(report: &Report, met: &mut Vec<String>) {
    for (end, name) in [(0, "0"), (HIGHEST, "the highest")] {
        match (report.before == end, report.after == end) {
            (true, true) => met.push(format!("report: word {name} stays")),
            (true, false) => met.push(format!("report: word {name} changes")),
            (false, true) => met.push(format!("report: another word changes to {name}")),
            _ => (),
        }
    }
}

/// The last report of a run in which turns were done.
fn see_last(case: &Case, number: u8, last: &Report, earlier: &[Told], met: &mut Vec<String>) {
    let end = match number {
        0 => "to its end".to_string(),
        _ => format!("stopped by {number}"),
    };
    met.push(format!("last report of a run {end}: {}", came(last)));
    met.push(format!(
        "last report of a run {end}: the word {}",
        word(last)
    ));
    met.push(format!("last report: bucket {}", bucket(last)));
    let started = case.board[BUCKET_WORDS * last.bucket as usize];
    if started != last.before {
        met.push("last report: a word before that the run itself has made".into());
    }
    // the turn that was refused, if its worker has a record
    let refused = case.turns.get(earlier.len() + 1);
    let refused = refused.and_then(|&worker| case.list.records.get(usize::from(worker)));
    if refused.is_some_and(|record| record.key % case.floor.buckets != last.bucket) {
        met.push(format!(
            "last report of a run {end}: another bucket than the refused turn's"
        ));
    }
}

/// How the last report differs from the first and from the one before it.
fn see_after(last: &Report, earlier: &[Told], met: &mut Vec<String>) {
    let (Some((_, _, first)), Some((_, _, previous))) = (earlier.first(), earlier.last()) else {
        return met.push("last report: of the only turn".into());
    };
    met.push(match previous.bucket == last.bucket {
        true => "last report: the bucket of the turn before".into(),
        false => "last report: another bucket than the turn before".into(),
    });
    if first.action != last.action
        && first.bucket != last.bucket
        && first.before != last.before
        && first.after != last.after
    {
        met.push("last report: another action, bucket and words than the first turn's".into());
    }
    see_left_behind(last, earlier, met);
}

/// What some earlier turn reported and the last one does not, so that it cannot have stayed.
fn see_left_behind(last: &Report, earlier: &[Told], met: &mut Vec<String>) {
    let was = |it: fn(&Report) -> bool| earlier.iter().any(|(_, _, report)| it(report));
    let mut see = |name: &str, is: bool, was: bool| {
        if is && was {
            met.push(format!("last report: {name}"));
        }
    };
    let ended = was(|turn| turn.ended.is_some());
    see(
        "goes on after a call that ended",
        last.ended.is_none(),
        ended,
    );
    let with_more = was(|turn| turn.ended > Some(0));
    see(
        "ends with 0 after one that ended with more",
        last.ended == Some(0),
        with_more,
    );
    let round = was(|turn| turn.full_round);
    see("no full round after one", !last.full_round, round);
    let read = last.action == Action::Read;
    let lost = was(|turn| turn.action == Action::Lost);
    see("a read after a lost swap", read, lost);
    let won = was(|turn| turn.action == Action::Won);
    see("a read after a won swap", read, won);
    let store = was(|turn| turn.action == Action::Store);
    see("a read after a store", read, store);
    let stays = last.before == last.after;
    let changed = was(|turn| turn.before != turn.after);
    see("the word stays after one that changed", stays, changed);
}

/// §4.13: what a run keeps without a turn, field by field, where a turn would have told something else.
fn see_no_turn(case: &Case, number: u8, last: &Report, met: &mut Vec<String>) {
    let numbers = [last.bucket, last.before, last.after];
    if (last.action, last.ended, last.full_round) == (Action::Read, None, false)
        && numbers == [0; 3]
        && has_word_to_tell(case)
    {
        let why = match number {
            0 => "the run is empty".to_string(),
            _ => format!("by {number}"),
        };
        met.push(format!("last report: none, {why}"));
    }
}

/// Whether the first turn, were it done, would tell a mark word that is not 0, and a bucket that is not 0 if its worker has a lot.
fn has_word_to_tell(case: &Case) -> bool {
    let busy = record_of(case).filter(|record| !record.is_idle());
    let lot = busy.map_or(0, |record| record.key);
    let bucket = lot.checked_rem(case.floor.buckets).unwrap_or(0);
    let start = BUCKET_WORDS.saturating_mul(bucket as usize);
    let told = case.board.get(start).is_some_and(|&word| word != 0);
    told && (bucket != 0 || busy.is_none())
}
