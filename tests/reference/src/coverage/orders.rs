//! All orders: why they are refused, of which classes they are, and what came of their walks.

use super::refusals::applying;
use super::reports::came;
use super::shown;
use crate::case::{Case, NAMES, ORDERS};
use crate::desk::{MOST_DEPTH, SMALL_BUCKETS, SMALL_WORKERS};
use crate::orders::{Tally, Walks};
use crate::outcome::{brought, Answer, Outcome};
use crate::record::{Record, INSERT, LOOK, NONE, REMOVE};
use crate::report::Report;
use crate::word::{Snapshot, MAP_INVLD};

/// §18.1 and §18.6: counts that are laid down.
const NO_TURN: [u64; 4] = [1, 0, 0, 0];
const TWO_LOOKS: [u64; 4] = [924, 0, 0, 0];

pub fn see(case: &Case, outcome: &Outcome, met: &mut Vec<String>) {
    match &outcome.answer {
        Answer::Orders(Ok(walks)) => {
            see_class(case, met);
            see_walks(case, walks, met);
            see_lost(walks, met);
            see_trials(case, walks, met);
            see_lengths(&levels(case, met), met);
        }
        Answer::Orders(Err(1)) => {
            if let Some(size) = only_size(case) {
                met.push(format!("orders: 1 before 10 by {size} alone"));
            }
        }
        Answer::Orders(Err(3)) => see_broken_records(case, met),
        Answer::Orders(Err(7)) => {
            let busy = share(busy_workers(case).len(), case);
            met.push(format!("orders: 7 with {busy} busy"));
        }
        Answer::Orders(Err(_)) => see_large(case, met),
        _ => (),
    }
}

/// §6.10: what makes the class no small one.
pub fn causes_of_10(case: &Case) -> Vec<&'static str> {
    let mut causes = Vec::new();
    if case.call != ORDERS {
        return causes;
    }
    match case.floor.buckets {
        2 => causes.push("N 2"),
        256 => causes.push("N 256"),
        n if n > SMALL_BUCKETS => causes.push("N of another size"),
        _ => (),
    }
    match case.floor.workers {
        4 => causes.push("W 4"),
        64 => causes.push("W 64"),
        w if w > SMALL_WORKERS => causes.push("W of another size"),
        _ => (),
    }
    match case.worker {
        0 => causes.push("depth 0"),
        25 => causes.push("depth 25"),
        257 => causes.push("depth 257"),
        0x1_0000_0001 => causes.push("depth 2^32+1"),
        u64::MAX => causes.push("depth 2^64-1"),
        depth if depth > MOST_DEPTH => causes.push("depth of another size"),
        _ => (),
    }
    causes
}

fn see_large(case: &Case, met: &mut Vec<String>) {
    match causes_of_10(case)[..] {
        [cause] if applying(case) == [10] => met.push(format!("orders: 10 by {cause} alone")),
        [_, _, _] => met.push("orders: 10 by W and N and depth".into()),
        _ => (),
    }
    let Some(size) = only_size(case) else {
        return;
    };
    for number in applying(case).iter().filter(|&&number| number != 10) {
        met.push(format!("orders: 10 by {size} alone before {number}"));
    }
}

/// Which of the three sizes alone gives cause for 10.
fn only_size(case: &Case) -> Option<&'static str> {
    match causes_of_10(case)[..] {
        [cause] => cause.split(' ').next(),
        _ => None,
    }
}

fn see_broken_records(case: &Case, met: &mut Vec<String>) {
    let records = case.list.records.iter().enumerate();
    let broken: Vec<usize> = records
        .filter(|(_, record)| record.is_broken())
        .map(|(worker, _)| worker)
        .collect();
    let w = case.floor.workers;
    match broken[..] {
        [worker] => met.push(format!("orders: 3 by worker {worker} of {w} alone")),
        _ => met.push(format!("orders: 3 by {} of {w} workers", broken.len())),
    }
}

fn busy_workers(case: &Case) -> Vec<(usize, &Record)> {
    let records = case.list.records.iter().enumerate();
    records.filter(|(_, record)| !record.is_idle()).collect()
}

fn share(count: usize, case: &Case) -> &'static str {
    match count {
        0 => "nobody",
        _ if count == case.list.records.len() => "everybody",
        _ => "somebody",
    }
}

/// Who is busy, at which calls and places, and on which bucket.
fn see_class(case: &Case, met: &mut Vec<String>) {
    let (w, depth) = (case.floor.workers, case.worker);
    met.push(format!("orders: 0 with W {w} and depth {depth}"));
    let last = shown(case.floor.last_ticket);
    met.push(format!("orders: 0 with last ticket {last}"));
    let busy = busy_workers(case);
    let numbers: Vec<String> = busy.iter().map(|(worker, _)| worker.to_string()).collect();
    met.push(format!("orders: busy of {w}: {}", numbers.join("+")));
    let mut kinds: Vec<u8> = busy.iter().map(|(_, record)| record.kind).collect();
    kinds.sort();
    let names: Vec<&str> = kinds.iter().map(|&kind| NAMES[kind as usize]).collect();
    met.push(format!("orders of {}", names.join("+")));
    for (_, record) in &busy {
        let kind = NAMES[record.kind as usize];
        met.push(format!("orders from {kind} at {}", record.place));
    }
    let marks = Snapshot::of(case.board[0]).map;
    let taken = marks.iter().filter(|&&mark| mark != MAP_INVLD).count();
    met.push(format!("orders on {taken} taken slots"));
    let mut lots: Vec<u64> = busy.iter().map(|(_, record)| record.key).collect();
    lots.sort();
    lots.dedup();
    met.push(format!(
        "orders, {} busy on {} lots",
        busy.len(),
        lots.len()
    ));
}

/// §18.2: which walks there are, finished or cut, and whether they are many.
fn see_walks(case: &Case, walks: &Walks, met: &mut Vec<String>) {
    let busy = busy_workers(case).len();
    let came = match (walks.finished.walks, walks.cut.walks) {
        (_, 0) => "finished",
        (0, _) => "cut",
        _ => "finished and cut",
    };
    met.push(format!("orders, {busy} busy: {came}"));
    if let [(_, record)] = busy_workers(case)[..] {
        let kind = NAMES[record.kind as usize];
        met.push(format!("orders, {kind} alone: {came}"));
    }
    for (count, name) in [
        (walks.finished.walks, "finished walks"),
        (walks.cut.walks, "cut walks"),
        (walks.finished.lost + walks.cut.lost, "lost swaps"),
    ] {
        for bound in [255, 4_095] {
            if count > bound {
                met.push(format!("orders: over {bound} {name}"));
            }
        }
    }
}

/// §18.4: in which walks swaps are lost, and how many.
fn see_lost(walks: &Walks, met: &mut Vec<String>) {
    let Walks { finished, cut } = walks;
    let [.., lost, most] = walks.counts();
    let has_lost = |tally: &Tally| tally.lost > 0;
    let none_lost = |tally: &Tally| tally.walks > 0 && tally.lost == 0;
    let mut see = |is_so: bool, what: &str| {
        if is_so {
            met.push(format!("orders: lost swaps {what}"));
        }
    };
    see(lost == 0, "in no walk");
    see(has_lost(finished) && cut.walks == 0, "where none is cut");
    see(
        has_lost(cut) && finished.walks == 0,
        "where none is finished",
    );
    see(
        has_lost(finished) && none_lost(cut),
        "in finished walks alone",
    );
    see(has_lost(cut) && none_lost(finished), "in cut walks alone");
    see(
        has_lost(finished) && has_lost(cut),
        "in finished and cut walks",
    );
    see(
        finished.most > cut.most && has_lost(cut),
        "and most of them in a finished walk",
    );
    see(
        cut.most > finished.most && has_lost(finished),
        "and most of them in a cut walk",
    );
    see(lost == most && most > 0, "in one walk alone");
    let all = finished.walks + cut.walks;
    see(lost == most * all && most > 0, "as many in every walk");
    met.push(format!("orders: most {most}"));
}

fn see_trials(case: &Case, walks: &Walks, met: &mut Vec<String>) {
    let busy = busy_workers(case);
    let empty = Snapshot::of(case.board[0]).map == [MAP_INVLD; 3];
    if busy.is_empty() && walks.counts() == NO_TURN {
        met.push(format!("orders, trial: all of {} idle", case.floor.workers));
    }
    let [(_, one), (_, other)] = busy[..] else {
        return;
    };
    let just_started = |record: &Record| {
        let first = if record.kind == LOOK { 2 } else { 1 };
        (record.place, record.slot, record.held) == (first, 0, NONE)
    };
    if !just_started(one) || !just_started(other) {
        return;
    }
    let deepest = case.worker == MOST_DEPTH;
    met.push(match (one.kind, other.kind, empty) {
        (LOOK, LOOK, true) if deepest && walks.counts() == TWO_LOOKS => {
            "orders, trial: two looks on an empty bucket".into()
        }
        (INSERT, INSERT, true) if one.key == other.key => {
            "orders, trial: two inserts of one lot".into()
        }
        (REMOVE, REMOVE, false) if one.key == other.key => {
            "orders, trial: two removes of one lot".into()
        }
        _ => return,
    });
}

/// What the walks come to with each number of turns, from none to one more than the depth. Every turn of them is looked at but the first,
/// which finds nothing but what the case brings.
fn levels(case: &Case, met: &mut Vec<String>) -> Vec<Walks> {
    let outset = brought(case).outset(case.worker);
    let mut walking = outset.expect("a class that was walked");
    let mut levels = vec![walking.walks()];
    for turn in 1..=case.worker + 1 {
        walking.go_on(&mut |record, report| {
            if (2..=case.worker).contains(&turn) {
                see_turn(record, report, met);
            }
        });
        levels.push(walking.walks());
    }
    levels
}

/// How long the walks are beside the depth.
fn see_lengths(levels: &[Walks], met: &mut Vec<String>) {
    let (depth, cut) = (levels.len() - 2, |turns: usize| levels[turns].cut.walks);
    let ends = levels[..=depth]
        .windows(2)
        .filter(|pair| pair[0].finished != pair[1].finished);
    if ends.count() > 1 {
        met.push("orders: finished walks of several lengths".into());
    }
    match (cut(depth - 1), cut(depth), cut(depth + 1)) {
        (0, ..) => met.push("orders: the depth is not used up".into()),
        (_, 0, _) => met.push("orders: the depth is just enough".into()),
        (_, _, 0) => met.push("orders: the depth is one too few".into()),
        _ => met.push("orders: the depth is too few".into()),
    }
}

fn see_turn(record: &Record, report: &Report, met: &mut Vec<String>) {
    let kind = NAMES[record.kind as usize];
    let (place, came) = (record.place, came(report));
    met.push(format!("later in a walk, {kind} at {place}: {came}"));
    let versions = [report.before, report.after].map(|word| Snapshot::of(word).version);
    if versions == [u32::MAX, 0] {
        met.push("later in a walk, the version goes round".into());
    }
}
