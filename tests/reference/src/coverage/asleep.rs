//! Who has been asleep (§20): beside whom turns are done and who sleeps on, what becomes of the number of whoever has a turn, and what is
//! no turn.

use super::broken::causes;
use super::refusals::{is_broken_at, record_of, worker_of};
use super::reports::came;
use crate::case::{Case, NAMES, OPEN, RETIRE, TURN};
use crate::outcome::{Answer, Outcome, Told};
use crate::record::Record;
use crate::report::{Action, Report};

/// §10.6: the board before the sleeper's turn 30.
const SOLD_AGAIN: [u64; 8] = [4_294_967_298, 7, 0, 0, 2, 0, 0, 0];

pub fn see(case: &Case, outcome: &Outcome, met: &mut Vec<String>) {
    match (&outcome.answer, &outcome.told[..]) {
        (Answer::Turn(Ok(report)), _) => {
            let record = record_of(case).expect("an accepted turn has a record");
            let turn = (case.worker as u8, *record, *report);
            see_turns(case, &[turn], met);
            see_turn(case, record, report, met);
        }
        (Answer::Run(number, _), told @ [_, ..]) => {
            see_turns(case, told, met);
            see_run(case, outcome, met);
            if *number != 0 && sleepers(case, &workers(told)).any(can_be_counted) {
                met.push(format!("run: {number} later beside one asleep"));
            }
        }
        _ => see_no_turn(case, outcome, met),
    }
}

/// Those who had these turns.
fn workers(told: &[Told]) -> Vec<usize> {
    let mut workers: Vec<usize> = told.iter().map(|(worker, ..)| (*worker).into()).collect();
    workers.sort();
    workers.dedup();
    workers
}

/// The records of all others, each with where it stands.
fn others<'a>(case: &'a Case, workers: &'a [usize]) -> impl Iterator<Item = (usize, &'a Record)> {
    let records = case.list.records.iter().enumerate();
    records.filter(|(at, _)| !workers.contains(at))
}

/// Of the others those who are asleep while these workers have turns.
fn sleepers<'a>(case: &'a Case, workers: &'a [usize]) -> impl Iterator<Item = &'a Record> {
    let records = others(case, workers).map(|(_, record)| record);
    records.filter(|record| record.is_sleeper())
}

/// So that a turn which must not count would be seen.
fn can_be_counted(record: &Record) -> bool {
    record.asleep < u32::MAX
}

/// Turns that were done, of a turn or of a run.
fn see_turns(case: &Case, told: &[Told], met: &mut Vec<String>) {
    let name = NAMES[case.call as usize];
    let workers = workers(told);
    for (at, record) in others(case, &workers) {
        if record.is_sleeper() {
            see_sleeper(case, told, record, met);
            see_position(case, &workers, at, met);
        } else if record.is_broken() {
            see_broken(case, record, met);
        } else {
            met.push(format!("{name}: an idle one stays"));
        }
    }
    see_all_others(case, &workers, met);
    for (_, record, report) in told {
        let then = match report.ended {
            None => "goes on",
            Some(_) => "ends",
        };
        let number = record.asleep;
        met.push(format!("{name}: its own number {number}, the call {then}"));
    }
}

fn see_sleeper(case: &Case, told: &[Told], sleeper: &Record, met: &mut Vec<String>) {
    let name = NAMES[case.call as usize];
    let kind = NAMES[sleeper.kind as usize];
    let bucket = |record: &Record| record.key % case.floor.buckets;
    let wheres = [
        (is_broken_at(case, sleeper.key), "a broken bucket"),
        (bucket(sleeper) == bucket(&told[0].1), "the same bucket"),
        (bucket(sleeper) != bucket(&told[0].1), "another bucket"),
    ];
    met.push(format!(
        "{name}: one asleep for {} sleeps on",
        sleeper.asleep
    ));
    met.push(format!("{name}: {kind} at {} sleeps on", sleeper.place));
    for (_, place) in wheres.iter().filter(|(is_there, _)| *is_there) {
        met.push(format!("{name}: one in {place} sleeps on"));
    }
}

/// Where the sleeper stands, beside whoever has turns.
fn see_position(case: &Case, workers: &[usize], sleeper: usize, met: &mut Vec<String>) {
    let name = NAMES[case.call as usize];
    let last = case.list.records.len() - 1;
    let position = |at: usize| match at {
        0 => "the first",
        at if at == last => "the last",
        _ => "one between",
    };
    for &worker in workers {
        met.push(format!(
            "{name} of {}: {} sleeps on",
            position(worker),
            position(sleeper)
        ));
        if sleeper + 1 == worker {
            met.push(format!("{name}: the one just before sleeps on"));
        }
        if sleeper == worker + 1 {
            met.push(format!("{name}: the one just after sleeps on"));
        }
    }
}

fn see_broken(case: &Case, record: &Record, met: &mut Vec<String>) {
    let name = NAMES[case.call as usize];
    met.push(format!(
        "{name}: a broken one asleep for {} stays",
        record.asleep
    ));
    if record.awake().is_idle() {
        met.push(format!("{name}: one broken by its number alone stays"));
    }
    if let (TURN, [cause]) = (case.call, &causes(record)[..]) {
        met.push(format!("turn beside: broken record, {cause}"));
    }
}

fn see_all_others(case: &Case, workers: &[usize], met: &mut Vec<String>) {
    let name = NAMES[case.call as usize];
    let w = case.floor.workers;
    let count = |is_so: fn(&Record) -> bool| {
        let such = others(case, workers).filter(|(_, record)| is_so(record));
        such.count()
    };
    let all = others(case, workers).count();
    let [idle, broken, asleep] =
        [Record::is_idle, Record::is_broken, Record::is_sleeper].map(count);
    match all {
        0 if w == 1 => met.push(format!("{name}: nobody is beside")),
        0 => (),
        _ if idle == all => met.push(format!("{name}: all others are idle")),
        _ if broken == all => met.push(format!("{name}: all others are broken")),
        _ if asleep == all => {
            met.push(format!("{name}: all others of {w} sleep on"));
            if let [worker] = workers {
                met.push(format!(
                    "{name} of worker {worker}: all others of {w} sleep on"
                ));
            }
        }
        _ if idle * broken * asleep > 0 => met.push(format!(
            "{name}: somebody else is idle, somebody broken, and somebody sleeps on"
        )),
        _ => (),
    }
}

/// §20.2 with every outcome of every place.
fn see_turn(case: &Case, record: &Record, report: &Report, met: &mut Vec<String>) {
    let kind = NAMES[record.kind as usize];
    let (place, came) = (record.place, came(report));
    let beside = sleepers(case, &[case.worker as usize]).any(can_be_counted);
    for (is_so, who) in [
        (record.asleep > 0, "has slept"),
        (beside, "beside one asleep"),
    ] {
        if is_so {
            met.push(format!("{who}, {kind} at {place}: {came}"));
        }
    }
    if case.board == SOLD_AGAIN && (place, report.action) == (13, Action::Lost) {
        met.push(format!(
            "trial: the sleeper's turn 30 after {} of others",
            record.asleep
        ));
    }
}

/// What a number comes to over the turns of a run.
fn see_run(case: &Case, outcome: &Outcome, met: &mut Vec<String>) {
    let told = &outcome.told;
    let workers = workers(told);
    for sleeper in sleepers(case, &workers) {
        see_many_turns(sleeper.asleep, told.len(), met);
    }
    for &worker in &workers {
        let own = |(by, ..): &Told| usize::from(*by) == worker;
        let first = told.iter().position(own).expect("it had a turn");
        let last = told.iter().rposition(own).expect("it had a turn");
        let others_between = told[first..last].iter().any(|turn| !own(turn));
        let others_after = last + 1 < told.len();
        let busy = outcome.records[worker].is_sleeper();
        for (is_so, what) in [
            (first > 0, "one sleeps on before its turn"),
            (others_between, "one sleeps on between two turns"),
            (others_after && busy, "one sleeps on after its turn"),
            (others_after && !busy, "a call ends and others go on"),
            (
                told[first].1.asleep == u32::MAX && case.list.records[worker].asleep < u32::MAX,
                "one comes to 4294967295 and has a turn then",
            ),
        ] {
            if is_so {
                met.push(format!("run: {what}"));
            }
        }
    }
}

/// So many turns of others, from this number on.
fn see_many_turns(number: u32, turns: usize, met: &mut Vec<String>) {
    let missing = (u32::MAX - number) as usize;
    match missing {
        0 => (),
        _ if turns == missing => met.push("run: one comes just to 4294967295".into()),
        _ if turns + 1 == missing => met.push("run: one comes not quite to 4294967295".into()),
        _ if turns > missing => met.push("run: one comes past 4294967295".into()),
        _ => (),
    }
    if turns <= missing {
        met.push(format!("run: one sleeps {turns} turns on"));
    }
}

/// §20.3: whatever is no turn that was done.
fn see_no_turn(case: &Case, outcome: &Outcome, met: &mut Vec<String>) {
    let name = NAMES[case.call as usize];
    let number = outcome.answer.number();
    let worker = worker_of(case).map(|worker| worker as usize);
    let own: Vec<usize> = worker.into_iter().collect();
    let relation = if case.call == OPEN { "over" } else { "beside" };
    for sleeper in sleepers(case, &own) {
        let when = match (&outcome.answer, number) {
            (Answer::Run(..), 2 | 3 | 6 | 7 | 11) => " at once",
            _ => "",
        };
        if number == 0 {
            let asleep = sleeper.asleep;
            met.push(format!("{name}: 0 {relation} one asleep for {asleep}"));
        } else if can_be_counted(sleeper) {
            met.push(format!("{name}: {number}{when} beside one asleep"));
        }
    }
    match record_of(case) {
        Some(record) if record.asleep > 0 && number != 0 => {
            met.push(format!("{name}: {number} for one asleep"))
        }
        Some(record) if case.call == RETIRE && number == 0 => {
            let asleep = record.asleep;
            met.push(format!("retire: 0 for one asleep for {asleep}"));
        }
        _ => (),
    }
}
