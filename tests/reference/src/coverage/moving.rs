//! A move to another board (§22): what kept it back, what went where, what was there before; the board as a move
//! leaves it, and what is done there; and the version that the floor keeps. Seen from the words before and after.

use super::broken::causes_in_bucket;
use super::refusals::{applying, causes_of_1};
use super::shown;
use crate::case::{self, Case, INSERT, MOVE, NAMES};
use crate::desk::MOST_BUCKETS;
use crate::memory::BUCKET_WORDS;
use crate::outcome::{Answer, Outcome, Told};
use crate::record::Record;
use crate::report::Action;
use crate::word::{Snapshot, MAP_INSRT, MAP_INVLD, MAP_VALID};

pub fn see(case: &Case, outcome: &Outcome, met: &mut Vec<String>) {
    see_floor(case, outcome, met);
    if is_just_moved(case) {
        see_after(case, outcome, met);
    }
    if case.call != MOVE {
        return;
    }
    match outcome.answer.number() {
        0 => {
            see_sizes(case, outcome, met);
            see_lots(case, outcome, met);
            see_numbers(case, met);
            see_gone_on(case, met);
        }
        1 => see_wrong_size(case, met),
        3 => see_broken_record(case, met),
        12 => see_busy_record(case, met),
        7 => see_kept_back(case, met),
        _ => see_crowded(case, met),
    }
    see_what_was_there(case, outcome, met);
    if applying(case) == [3, 7, 12, 13] {
        met.push("move: 3 before 12 before 7 before 13".into());
    }
}

// ---- what a board has

/// A valid slot of the old board.
#[derive(Clone, Copy, PartialEq)]
struct Lot {
    bucket: usize,
    slot: usize,
    lot: u64,
    ticket: u64,
}

/// The valid slots of a board's whole buckets, in their order.
fn lots(board: &[u64]) -> Vec<Lot> {
    let mut lots = Vec::new();
    for (bucket, words) in board.chunks_exact(BUCKET_WORDS).enumerate() {
        for slot in 0..3 {
            if marks(words)[slot] == MAP_VALID {
                let (lot, ticket) = (words[1 + slot], words[4 + slot]);
                lots.push(Lot {
                    bucket,
                    slot,
                    lot,
                    ticket,
                });
            }
        }
    }
    lots
}

fn marks(bucket: &[u64]) -> [u8; 3] {
    Snapshot::of(bucket[0]).map
}

/// The lots of each new bucket that has any; none if there is no such N.
fn by_new_bucket(case: &Case) -> Vec<(u64, Vec<Lot>)> {
    let n = case.worker;
    let lots = lots(&case.board);
    let mut numbers: Vec<u64> = lots
        .iter()
        .filter_map(|lot| lot.lot.checked_rem(n))
        .collect();
    numbers.sort();
    numbers.dedup();
    let of = |number: u64| {
        lots.iter()
            .copied()
            .filter(move |lot| lot.lot % n == number)
    };
    numbers
        .iter()
        .map(|&number| (number, of(number).collect()))
        .collect()
}

/// 13, looked at alone.
pub fn is_crowded(case: &Case) -> bool {
    by_new_bucket(case).iter().any(|(_, lots)| lots.len() > 3)
}

/// What of 7 each old bucket has, each with its name: a mark 2 too.
fn causes_of_7(case: &Case) -> Vec<(usize, String)> {
    let mut causes = Vec::new();
    for (bucket, words) in case.board.chunks_exact(BUCKET_WORDS).enumerate() {
        let broken = causes_in_bucket(words).into_iter();
        causes.extend(broken.map(|cause| (bucket, cause)));
        for (slot, mark) in marks(words).iter().enumerate() {
            if *mark == MAP_INSRT {
                causes.push((bucket, format!("mark 2 at {slot}")));
            }
        }
    }
    causes
}

/// 7, looked at alone.
pub fn is_kept_back(case: &Case) -> bool {
    !causes_of_7(case).is_empty()
}

/// How many lots come from each of their old buckets.
fn split(lots: &[Lot]) -> String {
    let groups = lots.chunk_by(|one, next| one.bucket == next.bucket);
    let counts: Vec<String> = groups.map(|group| group.len().to_string()).collect();
    counts.join("+")
}

// ---- why it was refused

/// What is wrong with the new N and the new board.
pub fn sizes_of_the_new_board(case: &Case) -> Vec<&'static str> {
    let (n, words) = (case.worker, case.second.len() as u64);
    let mut causes = Vec::new();
    match n {
        0 => causes.push("new N 0"),
        257 => causes.push("new N 257"),
        0x1_0000_0001 => causes.push("new N 2^32+1"),
        u64::MAX => causes.push("new N 2^64-1"),
        n if n > MOST_BUCKETS && n.wrapping_mul(8) == words => {
            causes.push("a new N whose 8N wraps")
        }
        n if n > MOST_BUCKETS => causes.push("another new N"),
        _ => (),
    }
    if n <= 257 && words != 8 * n {
        causes.push(match words {
            0 => "a new board empty",
            2_040 if n == 256 => "a new board of 2040 words for N 256",
            words if words + 1 == 8 * n => "a new board one word short",
            words if words == 8 * n + 1 => "a new board one word long",
            words if words == case.board.len() as u64 => "a new board as long as the old one",
            _ => "another new board",
        });
    }
    causes
}

fn see_wrong_size(case: &Case, met: &mut Vec<String>) {
    let [cause] = causes_of_1(case)[..] else {
        return;
    };
    let what = match cause {
        cause if cause.contains("new N") => "the new N",
        cause if cause.contains("new board") => "the new board",
        cause if cause.contains("board") => "the old board",
        cause if cause.contains("list") => "the list",
        cause if cause.contains("index") => "the index",
        cause if cause.contains('W') => "W",
        _ => "the old N",
    };
    for other in applying(case) {
        met.push(format!("move: 1 by {what} alone before {other}"));
    }
}

/// The workers whose records are so.
fn workers(case: &Case, is_so: fn(&Record) -> bool) -> Vec<usize> {
    let records = case.list.records.iter().enumerate();
    let such = records.filter(|(_, record)| is_so(record));
    such.map(|(worker, _)| worker).collect()
}

fn see_broken_record(case: &Case, met: &mut Vec<String>) {
    let w = case.list.records.len();
    let broken = workers(case, Record::is_broken);
    let busy = workers(case, Record::is_sleeper);
    if broken.len() == w {
        met.push("move: 3 with everybody broken".into());
    }
    let [alone] = broken[..] else {
        return;
    };
    if busy.is_empty() {
        met.push(format!("move: 3 by worker {alone} of {w} alone"));
    }
    if w > 1 && busy.len() == w - 1 {
        met.push("move: 3 with everybody else busy".into());
    }
    let [other] = busy[..] else {
        return;
    };
    met.push(format!(
        "move: 3 by worker {alone} of {w} with worker {other} busy"
    ));
    let (way, next) = match alone < other {
        true => ("before", other - alone == 1),
        false => ("after", alone - other == 1),
    };
    let just = if next { "just " } else { "" };
    met.push(format!("move: 3 by one {just}{way} a busy one"));
}

fn see_busy_record(case: &Case, met: &mut Vec<String>) {
    let w = case.list.records.len();
    let busy = workers(case, Record::is_sleeper);
    if busy.len() == w {
        met.push(format!("move: 12 with everybody of {w} busy"));
    }
    let [alone] = busy[..] else {
        return;
    };
    let record = case.list.records[alone];
    let kind = NAMES[record.kind as usize];
    met.push(format!("move: 12 by worker {alone} of {w} alone"));
    met.push(format!("move: 12 by {kind} at {} alone", record.place));
    met.push(format!("move: 12 by {kind} held {} alone", record.held));
    met.push(format!("move: 12 by one asleep for {}", record.asleep));
}

fn see_kept_back(case: &Case, met: &mut Vec<String>) {
    let n = case.floor.buckets as usize;
    let [(bucket, cause)] = &causes_of_7(case)[..] else {
        return;
    };
    let sort = match &cause[..] {
        cause if cause.starts_with("mark 2 at") => "a mark 2",
        cause if cause.starts_with("mark") => "another mark",
        cause if cause.starts_with("byte 7") => "byte 7",
        _ => "the spare word",
    };
    for (number, name) in [(0, "0"), (n - 1, "N-1")] {
        if *bucket == number && n > 1 {
            met.push(format!("move: 7 by {cause} in bucket {name} alone"));
        }
    }
    match (n, bucket) {
        (1, _) => met.push(format!("move: 7 by {sort} in the only bucket")),
        (256, 0) => met.push(format!("move: 7 by {sort} in bucket 0 of 256")),
        (256, 255) => met.push(format!("move: 7 by {sort} in bucket 255")),
        _ => (),
    }
    // the first lot that finds its new bucket full
    let new = by_new_bucket(case);
    let fourths = new.iter().filter_map(|(_, lots)| lots.get(3));
    if let Some(fourth) = fourths.map(|lot| lot.bucket).min() {
        let way = match bucket.cmp(&fourth) {
            std::cmp::Ordering::Less => "before",
            std::cmp::Ordering::Equal => "in",
            std::cmp::Ordering::Greater => "behind",
        };
        met.push(format!(
            "move: 7 by {sort} {way} the bucket of a fourth lot"
        ));
    }
}

fn see_crowded(case: &Case, met: &mut Vec<String>) {
    let n = case.worker;
    let new = by_new_bucket(case);
    let all = lots(&case.board);
    let crowded: Vec<&(u64, Vec<Lot>)> = new.iter().filter(|(_, lots)| lots.len() > 3).collect();
    let [(bucket, lots)] = crowded[..] else {
        return met.push("move: 13 in several buckets".into());
    };
    if n == 1 {
        met.push("move: 13 in the only bucket".into());
        met.push(format!("move: 13 by {} lots for one bucket", lots.len()));
        if case.floor.buckets == 2 {
            let split = split(lots);
            met.push(format!("move: 13 from {split} valid slots to one bucket"));
        }
    } else {
        let place = match *bucket {
            0 => "bucket 0",
            last if last == n - 1 => "bucket N-1",
            _ => "a bucket between",
        };
        met.push(format!("move: 13 in {place}"));
        met.push(format!("move: 13 in bucket {bucket}"));
    }
    if all.len() as u64 == 3 * n + 1 && new.iter().all(|(_, lots)| lots.len() >= 3) {
        met.push("move: 13 one lot after every slot is filled".into());
    }
    if (new.len() as u64) < n {
        met.push("move: 13 with room elsewhere".into());
    }
    if lots.len() != 4 {
        return;
    }
    let beside = if all.len() > 4 { " beside others" } else { "" };
    let split = split(lots);
    met.push(format!("move: 13 by lots {split}{beside}"));
    let olds = split.split('+').count();
    met.push(format!("move: 13 by lots of {olds} old buckets"));
    let last = lots[3];
    if (last.bucket as u64, last.slot) == (case.floor.buckets - 1, 2) {
        met.push("move: 13 by the last slot of the old board".into());
        met.push(format!(
            "move: 13 by the last slot of {} buckets",
            case.floor.buckets
        ));
    }
    if lots.iter().all(|lot| lot.lot == last.lot) {
        met.push(format!("move: 13 by one lot four times, to {n}"));
    }
}

// ---- what it did

fn see_sizes(case: &Case, outcome: &Outcome, met: &mut Vec<String>) {
    let (n, to) = (case.floor.buckets, case.worker);
    let lots = lots(&case.board).len();
    met.push(format!("move: 0 from {n} to {to}"));
    met.push(match to.cmp(&n) {
        std::cmp::Ordering::Less => "move: 0 to a smaller one".into(),
        std::cmp::Ordering::Equal => "move: 0 to one as large".into(),
        std::cmp::Ordering::Greater => "move: 0 to a larger board".into(),
    });
    met.push(format!("move: 0 of {lots} lots"));
    if lots == 0 {
        met.push(format!("move: 0 of no lots from {n} to {to}"));
    }
    if lots as u64 == 3 * to {
        met.push(format!("move: every slot is filled of {to} buckets"));
    }
    let words = outcome.index[1..].iter().filter(|&&word| word != 0);
    met.push(format!(
        "move: bits in {} words are set then",
        words.count()
    ));
    let maps: Vec<String> = case
        .board
        .chunks(BUCKET_WORDS)
        .take(3)
        .map(|bucket| marks(bucket).map(|mark| mark.to_string()).concat())
        .collect();
    match &maps[..] {
        [only] => met.push(format!("move: marks {only} in the only bucket")),
        [first, second] if to == 1 => {
            met.push(format!("move: marks {first} and {second} to one bucket"))
        }
        _ => (),
    }
}

fn see_lots(case: &Case, outcome: &Outcome, met: &mut Vec<String>) {
    let (n, to) = (case.floor.buckets, case.worker);
    let old = lots(&case.board);
    for (bucket, lots) in by_new_bucket(case) {
        met.push(format!("move: bucket {bucket} is occupied then"));
        met.push(format!("move: a new bucket of lots {}", split(&lots)));
        see_order(&lots, met);
        for (slot, lot) in lots.iter().enumerate() {
            met.push(format!("move: from slot {} to slot {slot}", lot.slot));
            met.push(format!(
                "move: from bucket {} to bucket {bucket}",
                lot.bucket
            ));
            met.push(match lot.bucket as u64 == bucket {
                true => "move: a lot goes to a bucket of the same number".into(),
                false => "move: a lot goes to another bucket".into(),
            });
        }
    }
    for lot in &old {
        let number = shown(lot.lot);
        met.push(format!("move: lot {number} goes"));
        met.push(format!("move: lot {number} to {to} buckets"));
        met.push(format!("move: ticket {} goes", shown(lot.ticket)));
        if lot.lot % n != lot.bucket as u64 {
            met.push("move: a lot of another's bucket goes".into());
        }
        let like: Vec<&Lot> = old.iter().filter(|other| other.lot == lot.lot).collect();
        match like[..] {
            [one, other] if one.bucket == other.bucket => {
                met.push("move: a lot goes twice from one bucket".into())
            }
            [_, _] => met.push("move: a lot goes twice from two buckets".into()),
            [_, _, _] => met.push("move: a lot goes three times".into()),
            _ => (),
        }
        let tickets = old.iter().filter(|other| other.ticket == lot.ticket);
        if tickets.count() > 1 {
            met.push("move: equal tickets go".into());
        }
        let last = case.floor.last_ticket;
        met.push(match last < lot.ticket {
            true => "move: 0 with last ticket below a ticket that goes".into(),
            false => "move: 0 with last ticket above a ticket that goes".into(),
        });
    }
    let left = case.board.chunks(BUCKET_WORDS).any(|words| {
        let empty = |slot: &usize| marks(words)[*slot] == MAP_INVLD;
        let mut left = (0..3).filter(empty);
        left.any(|slot| words[1 + slot] != 0 && words[4 + slot] != 0)
    });
    if left && !old.is_empty() && outcome.second != case.board {
        met.push("move: a lot beside what is left in an empty slot".into());
    }
}

/// Which of three lots is the least, which the greatest, in the order in which they stand in the new bucket.
fn see_order(lots: &[Lot], met: &mut Vec<String>) {
    let [a, b, c] = lots else {
        return;
    };
    let rank = |lot: &Lot| lots.iter().filter(|other| other.lot < lot.lot).count();
    let order = [a, b, c].map(|lot| rank(lot).to_string()).concat();
    let from = match &split(lots)[..] {
        "1+1+1" => "three old buckets",
        "3" => "one old bucket",
        _ => return,
    };
    met.push(format!("move: three lots of {from}, by size {order}"));
}

fn see_numbers(case: &Case, met: &mut Vec<String>) {
    let (version, to) = (case.floor.version, case.worker);
    let with = match lots(&case.board).is_empty() {
        true => "none",
        false => "lots",
    };
    met.push(format!("move: 0 at version {version} with {with}"));
    met.push(format!("move: 0 at version {version} to {to} buckets"));
    for bucket in case.board.chunks(BUCKET_WORDS) {
        met.push(match Snapshot::of(bucket[0]).version == version {
            true => "move: 0 at the version of an old bucket".into(),
            false => "move: 0 at another version than an old bucket's".into(),
        });
    }
    let last = shown(case.floor.last_ticket);
    met.push(format!("move: 0 with last ticket {last}"));
}

/// On the new board and in the index.
fn see_what_was_there(case: &Case, outcome: &Outcome, met: &mut Vec<String>) {
    let number = outcome.answer.number();
    let all = |is_so: fn(u64) -> bool| case.second.iter().all(|&word| is_so(word));
    let of = |mark: u8| {
        let mut buckets = case.second.chunks(BUCKET_WORDS);
        buckets.all(|bucket| marks(bucket) == [mark; 3])
    };
    for (is_so, what) in [
        (all(|word| word == 0), "zeros"),
        (!all(|word| word == 0), "other words"),
        (all(|word| word == u64::MAX), "ones"),
        (of(MAP_VALID), "valid marks"),
        (of(MAP_INSRT), "marks 2"),
        (case.second == case.board, "the old board's words"),
    ] {
        if is_so && !case.second.is_empty() {
            met.push(format!("move: {number} over a new board of {what}"));
        }
    }
    if number != 0 && case.index.iter().any(|&word| word != 0) {
        met.push(format!("move: {number} with an index that is not zeros"));
    }
}

// ---- what follows

/// Whether the board is as a move leaves it, with a lot on it: every bucket at the floor's version, lots in their own buckets and in the
/// first slots there, zeros elsewhere. Without a move no opened board with a lot on it is so, since its insert has raised a version.
pub fn is_just_moved(case: &Case) -> bool {
    let n = case.floor.buckets;
    let is_laid_out = |(number, bucket): (usize, &[u64])| {
        let valid = marks(bucket)
            .iter()
            .take_while(|&&mark| mark == MAP_VALID)
            .count();
        let word = Snapshot {
            version: case.floor.version,
            map: [0, 1, 2].map(|slot| u8::from(slot < valid)),
            byte_7: 0,
        };
        bucket[0] == word.snapshot()
            && (0..valid).all(|slot| bucket[1 + slot] % n == number as u64)
            && (valid..3).all(|slot| bucket[1 + slot] == 0 && bucket[4 + slot] == 0)
            && bucket[7] == 0
    };
    let words = BUCKET_WORDS as u64 * n.min(MOST_BUCKETS);
    n > 0
        && case.board.len() as u64 == words
        && case.board.chunks(BUCKET_WORDS).enumerate().all(is_laid_out)
        && !lots(&case.board).is_empty()
}

fn see_after(case: &Case, outcome: &Outcome, met: &mut Vec<String>) {
    let name = NAMES[case.call as usize];
    let number = outcome.answer.number();
    met.push(format!("just moved: {name} gives {number}"));
    let last = case.floor.last_ticket;
    for (ticket, what) in [
        (Some(last), "the last ticket"),
        (Some(0), "ticket 0"),
        (last.checked_add(1), "one more than the last"),
    ] {
        if case.call == INSERT && ticket == Some(case.ticket) {
            met.push(format!("just moved: insert {number} with {what}"));
        }
    }
    match &outcome.answer {
        Answer::Count(Ok(lots)) if case.index[..1] == [*lots] => {
            met.push(format!("just moved: count and total {lots}"))
        }
        Answer::Run(_, ran) if ran.counts.turns > 0 => see_turns(case, &outcome.told, met),
        Answer::Move(Ok(())) => met.push(format!(
            "just moved: a move from {} to {}",
            case.floor.buckets, case.worker
        )),
        _ => (),
    }
}

/// The turns of one worker on the new board.
fn see_turns(case: &Case, told: &[Told], met: &mut Vec<String>) {
    let (_, first, _) = told[0];
    let kind = NAMES[first.kind as usize];
    let standing = lots(&case.board);
    for (_, record, report) in told {
        let bucket = match report.bucket {
            bucket @ 0..=1 => bucket.to_string(),
            _ => "another".into(),
        };
        met.push(format!("just moved: a run in bucket {bucket}"));
        if report.full_round {
            met.push(format!("just moved: {kind} goes round"));
        }
        if (record.place, report.action) == (9, Action::Won) {
            let version = Snapshot::of(report.before).version;
            met.push(format!("just moved: a commit at version {version}"));
        }
        let is_ticket = |answer: u64| {
            let mut lots = standing.iter();
            lots.any(|lot| (lot.lot, lot.ticket) == (record.key, answer))
        };
        match report.ended {
            Some(answer) if first.kind != INSERT && is_ticket(answer) => {
                met.push(format!("just moved: {kind} ends with its ticket"))
            }
            Some(answer) => met.push(format!("just moved: {kind} ends with {answer}")),
            None => (),
        }
    }
}

/// A lot stands at the floor's version, as a move has left it, and another at the next one, where an insert has committed since.
fn see_gone_on(case: &Case, met: &mut Vec<String>) {
    let version = case.floor.version;
    let has_lot_at = |version: u32| {
        let mut buckets = case.board.chunks(BUCKET_WORDS);
        buckets.any(|bucket| {
            let word = Snapshot::of(bucket[0]);
            word.version == version && word.valid_slots() > 0
        })
    };
    if has_lot_at(version) && has_lot_at(version.wrapping_add(1)) {
        met.push("moved and gone on: move gives 0".into());
    }
}

// ---- the floor's version

fn see_floor(case: &Case, outcome: &Outcome, met: &mut Vec<String>) {
    let name = NAMES[case.call as usize];
    let version = case.floor.version;
    match (case.call, outcome.answer.number()) {
        (case::OPEN, 0) => {
            let asked = case.version();
            met.push(format!(
                "open: 0 with version {asked} over {version} on the floor"
            ));
        }
        (_, 0) => met.push(format!("{name}: 0 with version {version} on the floor")),
        _ => met.push(format!(
            "{name}: refused with version {version} on the floor"
        )),
    }
}
