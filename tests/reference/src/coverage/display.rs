//! The display's two questions (§21.3, §21.4): from where was asked, which bits were set, and what was answered.

use super::broken::broken_buckets;
use super::index::oddities;
use super::shown;
use crate::case::{Case, NAMES};
use crate::outcome::{Answer, Outcome};

pub fn see(case: &Case, outcome: &Outcome, met: &mut Vec<String>) {
    match outcome.answer {
        Answer::Total(Ok(total)) => met.push(format!("total: {}", shown(total))),
        Answer::Next(Ok(next)) => see_next(case, next, met),
        _ => return,
    }
    let name = NAMES[case.call as usize];
    for what in oddities(case) {
        met.push(format!("{name}: 0 with {what}"));
    }
    if !broken_buckets(case).is_empty() {
        met.push(format!("{name}: 0 over a broken bucket"));
    }
}

/// Every bucket that has its bit, used or not.
fn occupied(index: &[u64]) -> Vec<u64> {
    let is_set = |&bucket: &u64| index[1 + bucket as usize / 64] >> (bucket % 64) & 1 == 1;
    (0..256).filter(is_set).collect()
}

fn see_next(case: &Case, next: Option<u64>, met: &mut Vec<String>) {
    let (from, n) = (case.worker, case.floor.buckets);
    let occupied = occupied(&case.index);
    let came = match next {
        Some(bucket) => {
            see_bucket(from, n, bucket, &occupied, met);
            "some"
        }
        None => {
            see_none(from, n, &occupied, met);
            "none"
        }
    };
    let every = match occupied.len() {
        256 => "every bit",
        _ => "some bits",
    };
    for (number, name) in [(n - 1, "N-1"), (n, "N"), (n + 1, "N+1")] {
        if from == number {
            met.push(format!("next: {came} from {name} of {n}, {every} set"));
        }
    }
    met.push(format!("next: {came} from {}, {every} set", shown(from)));
    if from
        .checked_sub(1)
        .is_some_and(|before| occupied.contains(&before))
    {
        met.push(format!("next: {came} from just past {}", from - 1));
    }
}

fn see_bucket(from: u64, n: u64, bucket: u64, occupied: &[u64], met: &mut Vec<String>) {
    let way = match bucket - from {
        0 => "itself",
        1 => "just before it",
        _ => "further before it",
    };
    met.push(format!("next: bucket {bucket} from {way}"));
    if bucket == n - 1 {
        met.push(format!("next: bucket N-1 of {n}"));
    }
    met.push(format!("next: {} words on", bucket / 64 - from / 64));
    for (is_so, what) in [
        (occupied == [bucket], "alone"),
        (occupied[0] < from, "beside one before it"),
        (occupied.contains(&(bucket + 1)), "beside one just after it"),
        (
            occupied.iter().any(|&other| other >= n),
            "beside bits past N",
        ),
        (occupied.len() == 256, "of every bit"),
    ] {
        if is_so {
            met.push(format!("next: a bucket {what}"));
        }
    }
}

fn see_none(from: u64, n: u64, occupied: &[u64], met: &mut Vec<String>) {
    let before = occupied.iter().any(|&bucket| bucket < n);
    let past = occupied.iter().any(|&bucket| bucket >= n);
    let why = match (before, past) {
        (false, false) => "no bit is set",
        (true, false) => "bits before it alone are set",
        (false, true) => "bits past N alone are set",
        (true, true) => "bits before it and past N are set",
    };
    met.push(format!("next: none, {why}"));
    if from < n && occupied.contains(&n) {
        met.push(format!("next: none below N of {n} with bit N set"));
    }
}
