//! Both ends of every range, the runs as a whole, and the trials.

use super::refusals::{length_of_list, sizes, worker_of};
use super::shown;
use crate::case::{self, Case, NAMES};
use crate::desk::MOST_TURNS;
use crate::memory::BUCKET_WORDS;
use crate::outcome::{Answer, Outcome};
use crate::record::{INSERT, LOOK};
use crate::report::Counts;
use crate::word::{Snapshot, MAP_INSRT, MAP_INVLD, MAP_VALID};

/// The mark word that an insert leaves after eight turns on an opened board.
const BEING_INSERTED: u64 = 8_589_934_592;

/// The boards that an insert of lot 7 with ticket 1 leaves by its claim, its eighth turn, and by its commit, its eleventh.
const CLAIMED: [u64; BUCKET_WORDS] = [BEING_INSERTED, 0, 0, 0, 0, 0, 0, 0];
const COMMITTED: [u64; BUCKET_WORDS] = [4_294_967_297, 7, 0, 0, 1, 0, 0, 0];

pub fn see(case: &Case, outcome: &Outcome, met: &mut Vec<String>) {
    let number = outcome.answer.number();
    match number {
        0 => see_accepted(case, outcome, met),
        2 => see_worker(case, met),
        3 | 4 | 6 | 7 | 11 => see_last_worker(case, outcome, met),
        9 => met.push(format!("run: 9 of {} turns", case.turns.len())),
        _ => (),
    }
    if let Answer::Run(number, ran) = &outcome.answer {
        see_run(case, outcome, *number, &ran.counts, met);
        see_trials(case, outcome, *number, met);
    }
}

fn see_accepted(case: &Case, outcome: &Outcome, met: &mut Vec<String>) {
    let name = NAMES[case.call as usize];
    let (w, n) = sizes(case);
    met.push(format!("{name}: 0 with W {w}"));
    met.push(format!("{name}: 0 with N {n}"));
    if let (Some(worker), true) = (worker_of(case), case.call != case::RUN) {
        met.push(format!("{name}: 0 with worker {worker}"));
        if worker == w - 1 {
            met.push(format!("{name}: 0 with worker W-1"));
        }
    }
    match case.call {
        case::OPEN => met.push(format!("open: 0 with version {}", case.version())),
        case::SHOW | case::COUNT | case::TOTAL | case::NEXT => see_list(case, name, met),
        _ => (),
    }
    see_lot(case, n, met);
    if let Answer::Count(Ok(lots)) = outcome.answer {
        see_count(case, lots, met);
    }
    see_stopped_insert(case, outcome, met);
}

fn see_lot(case: &Case, n: u64, met: &mut Vec<String>) {
    let name = NAMES[case.call as usize];
    let lot = match case.call {
        case::LOOK | case::INSERT | case::REMOVE | case::SHOW => case.lot,
        case::TURN | case::RETIRE => case.list.records[case.worker as usize].key,
        _ => return,
    };
    match lot {
        0 => met.push(format!("{name}: 0 with lot 0")),
        u64::MAX => met.push(format!("{name}: 0 with lot 2^64-1")),
        _ => (),
    }
    if n > 1 {
        met.push(format!("{name}: 0 in bucket {}", lot % n));
        if lot % n == n - 1 {
            met.push(format!("{name}: 0 in bucket N-1"));
        }
    }
}

/// §6.1: a call that is given no list is accepted beside one of any length.
fn see_list(case: &Case, name: &str, met: &mut Vec<String>) {
    let (length, w) = (case.list.length, case.floor.workers);
    if length != w {
        met.push(format!("{name}: 0 with {}", length_of_list(length, w)));
    }
}

fn see_worker(case: &Case, met: &mut Vec<String>) {
    if case.call == case::RUN {
        return;
    }
    let name = NAMES[case.call as usize];
    let worker = shown(case.worker);
    met.push(format!("{name}: 2 with worker {worker}"));
    if case.worker == case.floor.workers {
        met.push(format!("{name}: 2 with worker W"));
        met.push(format!("{name}: 2 with worker {worker} of {worker}"));
    }
}

/// The last record of the longest list is looked at like any other.
fn see_last_worker(case: &Case, outcome: &Outcome, met: &mut Vec<String>) {
    if worker_of(case) == Some(63) && outcome.told.is_empty() {
        let name = NAMES[case.call as usize];
        let number = outcome.answer.number();
        met.push(format!("{name}: {number} for worker 63"));
    }
}

fn see_count(case: &Case, lots: u64, met: &mut Vec<String>) {
    met.push(format!("count: {lots} lots"));
    let buckets = case.board.chunks(BUCKET_WORDS);
    let maps: Vec<[u8; 3]> = buckets.map(|bucket| Snapshot::of(bucket[0]).map).collect();
    if let [[m0, m1, m2]] = maps[..] {
        met.push(format!("count: marks {m0}{m1}{m2} in the only bucket"));
    }
    see_half_written(&maps, lots, met);
    if case.board.chunks(BUCKET_WORDS).any(has_lot_twice) {
        met.push("count: a lot in two valid slots".into());
    }
    let mut marks = maps.concat();
    marks.retain(|&mark| mark != MAP_INVLD);
    marks.dedup();
    if let [mark] = marks[..] {
        met.push(format!("count: mark {mark} alone"));
    }
}

/// Two valid slots of the bucket have the same lot.
fn has_lot_twice(bucket: &[u64]) -> bool {
    let map = Snapshot::of(bucket[0]).map;
    let valid = (0..3).filter(|&slot| map[slot] == MAP_VALID);
    let mut lots: Vec<u64> = valid.map(|slot| bucket[1 + slot]).collect();
    let slots = lots.len();
    lots.sort();
    lots.dedup();
    lots.len() < slots
}

/// §2.9: what is counted beside half-written slots, and in which bucket the only one of them stands.
fn see_half_written(maps: &[[u8; 3]], lots: u64, met: &mut Vec<String>) {
    let marks = maps.concat();
    let mut slots: Vec<usize> = (0..marks.len()).collect();
    slots.retain(|&slot| marks[slot] == MAP_INSRT);
    met.push(format!("count: {lots} lots beside {} marks 2", slots.len()));
    let [alone] = slots[..] else {
        return;
    };
    for (bucket, name) in [(0, "0"), (maps.len() - 1, "N-1")] {
        if alone / 3 == bucket && maps.len() > 1 {
            met.push(format!(
                "count: {lots} lots beside a mark 2 in bucket {name}"
            ));
        }
    }
}

fn see_run(case: &Case, outcome: &Outcome, number: u8, counts: &Counts, met: &mut Vec<String>) {
    let turns = case.turns.len();
    let done = counts.turns as usize;
    if number == 0 {
        met.push(format!("run: 0 of {turns} turns"));
    }
    for (worker, ..) in &outcome.told {
        met.push(format!("run: worker {worker} goes on"));
        if u64::from(*worker) + 1 == case.floor.workers {
            met.push("run: worker W-1 goes on".into());
        }
    }
    met.dedup();
    let totals = [counts.changes, counts.lost, counts.full_rounds];
    if totals.iter().all(|&total| total > 0) {
        met.push("run: changes, lost swaps and full rounds".into());
    }
    let ended = |(_, _, report): &&crate::outcome::Told| report.ended.is_some();
    if outcome.told.iter().filter(ended).count() >= 2 {
        met.push("run: two calls end".into());
    }
    see_workers(case, outcome, met);
    if !matches!(number, 2 | 3 | 6 | 7 | 11) {
        return;
    }
    let stopper = case.turns[done];
    if done + 1 == MOST_TURNS {
        met.push("run: turn 65535 stops it".into());
    }
    if done + 1 < turns {
        met.push("run: a refused turn stands before others".into());
    }
    if number == 2 {
        met.push(format!("run: worker {stopper} stops it"));
        if u64::from(stopper) == case.floor.workers {
            met.push("run: worker W stops it".into());
            met.push(format!("run: worker {stopper} of {stopper} stops it"));
        }
    }
    let mut told = outcome.told.iter().rev();
    let last = told.find(|(worker, ..)| *worker == stopper);
    if number == 6 && last.as_ref().is_some_and(ended) {
        met.push("run: a call ends and its worker is idle then".into());
    }
}

fn see_workers(case: &Case, outcome: &Outcome, met: &mut Vec<String>) {
    let Some((first, record, _)) = outcome.told.first() else {
        return;
    };
    let n = case.floor.buckets;
    for (worker, other, _) in &outcome.told {
        if worker != first {
            let buckets = match other.key % n == record.key % n {
                true => "one bucket",
                false => "several buckets",
            };
            met.push(format!("run: several workers in {buckets}"));
            return;
        }
    }
}

/// §10.12.
fn see_trials(case: &Case, outcome: &Outcome, number: u8, met: &mut Vec<String>) {
    let told = &outcome.told;
    let (Some((_, first, _)), Some((_, _, last)), 0) = (told.first(), told.last(), number) else {
        return;
    };
    if told.iter().any(|(worker, ..)| *worker != case.turns[0]) {
        return;
    }
    let opened = case.board.iter().all(|&word| word == 0);
    if first.kind == INSERT
        && first.place == 1
        && opened
        && told.len() == 8
        && outcome.board[0] == BEING_INSERTED
    {
        met.push("trial: an insert's first 8 turns leave 8589934592".into());
    }
    if first.kind == LOOK
        && (first.place, first.slot) == (2, 0)
        && told.len() == 6
        && case.board[0] == BEING_INSERTED
        && last.ended == Some(0)
    {
        met.push("trial: beside it a look of 6 turns ends with 0".into());
    }
    if first.kind == INSERT
        && case.board == CLAIMED
        && told.len() == 3
        && outcome.board == COMMITTED
        && last.ended == Some(1)
    {
        met.push("trial: its next 3 turns end with 1".into());
    }
}

/// §10.12, between its turns.
fn see_stopped_insert(case: &Case, outcome: &Outcome, met: &mut Vec<String>) {
    let when = match &case.board {
        board if *board == CLAIMED => "beside it",
        board if *board == COMMITTED => "after them",
        _ => return,
    };
    match &outcome.answer {
        Answer::Count(Ok(lots)) => met.push(format!("trial: {when} a count is {lots}")),
        Answer::Show(Ok((_, part))) if case.lot == 7 => {
            let mark = Snapshot::of(part[0]).map[0];
            met.push(format!("trial: {when} a show has mark {mark}"));
        }
        _ => (),
    }
}
