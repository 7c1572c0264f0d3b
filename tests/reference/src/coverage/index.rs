//! The display's index (§21) where a turn, a run or a retiring keeps it: why 11 was given, what did not matter, and what became of the
//! index. Seen from the words before and after.

use super::refusals::{length_of_index, record_of, takes_index, worker_of};
use crate::case::{Case, MOVE, NAMES, OPEN, RETIRE, RUN, TURN};
use crate::desk::MOST_BUCKETS;
use crate::index::{Index, INDEX_WORDS};
use crate::memory::BUCKET_WORDS;
use crate::outcome::{Answer, Outcome};
use crate::record::{Record, NONE};
use crate::report::{Action, Report};
use crate::word::{Snapshot, MAP_INSRT, MAP_VALID};

/// The bucket that something touches, and what the index tells of it.
struct Touched {
    bucket: u64,
    n: u64,
    marks: [u8; 3],
    valid: u64,
    bit: bool,
    total: u64,
}

impl Touched {
    /// The bucket of the record's lot; none where the board does not have it, or the index has no bit for it.
    fn by(record: &Record, n: u64, board: &[u64], index: &[u64]) -> Option<Touched> {
        let bucket = record.key.checked_rem(n).filter(|_| n <= MOST_BUCKETS)?;
        let word = *board.get(BUCKET_WORDS * bucket as usize)?;
        let bits = index.get(1 + bucket as usize / 64)?;
        Some(Touched {
            bucket,
            n,
            marks: Snapshot::of(word).map,
            valid: valid(word),
            bit: bits >> (bucket % 64) & 1 == 1,
            total: index[0],
        })
    }

    /// By the call, or by the first turn of a run; a retiring that holds nothing touches none.
    fn by_case(case: &Case) -> Option<Touched> {
        let record = record_of(case)?;
        let touches = match case.call {
            TURN | RUN => true,
            RETIRE => record.held < NONE,
            _ => false,
        };
        if !touches || case.index.len() != INDEX_WORDS {
            return None;
        }
        Touched::by(record, case.floor.buckets, &case.board, &case.index)
    }

    /// §21.5: everything that the index has wrong about the bucket, each with its name.
    fn causes(&self) -> Vec<String> {
        let Touched {
            n,
            valid,
            bit,
            total,
            ..
        } = *self;
        let others = 3 - valid;
        let most = 3 * n - others;
        let mut causes = Vec::new();
        match (bit, valid) {
            (true, 0) => causes.push("a bit over no valid slot".into()),
            (false, 1..) => causes.push(format!("no bit over {valid} valid slots")),
            _ => (),
        }
        let over = format!("over {valid} valid slots");
        if total < valid {
            causes.push(match valid - total {
                1 => format!("a total one below {valid} valid slots"),
                _ => "a low total".into(),
            });
        }
        if total > most {
            causes.push(match total {
                u64::MAX => format!("a total of 2^64-1 {over}"),
                0x8000_0000_0000_0000 => format!("a total of 2^63 {over}"),
                total if total == (1 << 32) + valid => format!("a total of 2^32 and more {over}"),
                total if total == most + 1 => {
                    format!("a total one above 3N less {others} other slots")
                }
                _ => "a high total".into(),
            });
        }
        causes
    }
}

fn valid(word: u64) -> u64 {
    let marks = Snapshot::of(word).map;
    marks.iter().filter(|&&mark| mark == MAP_VALID).count() as u64
}

/// Whether the case gives cause for 11. Where there is no such worker, and so no lot, it does by a total that is too high for any bucket.
pub fn is_refuted(case: &Case) -> bool {
    let touching = matches!(case.call, TURN | RUN | RETIRE) && worker_of(case).is_some();
    match record_of(case) {
        None if touching && case.index.len() == INDEX_WORDS => {
            case.index[0] > case.floor.buckets.saturating_mul(3)
        }
        _ => Touched::by_case(case).is_some_and(|touched| !touched.causes().is_empty()),
    }
}

pub fn see(case: &Case, outcome: &Outcome, met: &mut Vec<String>) {
    see_call(case, outcome, met);
    match &outcome.answer {
        Answer::Turn(Ok(report)) => see_turn(case, report, met),
        Answer::Run(number, ran) if ran.counts.turns > 0 => see_run(case, outcome, *number, met),
        Answer::Alone(Ok(())) if case.call == RETIRE => see_retired(case, met),
        _ => (),
    }
    let name = NAMES[case.call as usize];
    let number = outcome.answer.number();
    if matches!(case.call, OPEN | MOVE) && number == 0 {
        see_made_afresh(name, case, met);
    }
    if !takes_index(case.call) && number == 0 {
        for what in oddities(case) {
            met.push(format!("{name}: 0 with {what}"));
        }
    }
}

/// The first thing that is touched: done or refused.
fn see_call(case: &Case, outcome: &Outcome, met: &mut Vec<String>) {
    let name = NAMES[case.call as usize];
    let Some(touched) = Touched::by_case(case) else {
        return;
    };
    match (outcome.answer.number(), outcome.told.is_empty()) {
        (11, true) => see_refuted(name, &touched, met),
        (0, _) | (_, false) => see_ends(name, case, &touched, met),
        _ => (),
    }
}

fn see_refuted(name: &str, touched: &Touched, met: &mut Vec<String>) {
    let Touched { bucket, n, .. } = touched;
    let causes = touched.causes();
    let [cause] = &causes[..] else {
        return met.push(format!("{name}: 11 by bit and total"));
    };
    met.push(format!("{name}: 11 by {cause}"));
    met.push(format!("{name}: 11 by {cause}, N {n}"));
    if cause.contains("bit over") {
        let bit = if touched.bit { "a bit" } else { "no bit" };
        met.push(format!("{name}: 11 by {bit} in bucket {bucket} of {n}"));
        if touched.bit && touched.marks.contains(&MAP_INSRT) {
            met.push(format!("{name}: 11 by a bit over a mark 2"));
        }
    }
}

/// What was accepted: totals at both ends, and what the touched bucket does not refute.
fn see_ends(name: &str, case: &Case, touched: &Touched, met: &mut Vec<String>) {
    let Touched {
        n, valid, total, ..
    } = *touched;
    let others = 3 - valid;
    if total == valid {
        met.push(format!(
            "{name}: 0 with a total of just {valid} valid slots, N {n}"
        ));
    }
    if total == 3 * n - others {
        met.push(format!(
            "{name}: 0 with a total of 3N less {others} other slots, N {n}"
        ));
    }
    if valid == 0 && touched.marks.contains(&MAP_INSRT) {
        met.push(format!("{name}: 0 with no bit over a mark 2"));
    }
    for what in oddities(case) {
        met.push(format!("{name}: 0 with {what}"));
    }
}

/// In what an index is not what an opening and calls after it would have made of it.
pub fn oddities(case: &Case) -> Vec<&'static str> {
    let n = case.floor.buckets;
    let index = &case.index;
    if index.len() != INDEX_WORDS {
        return vec![length_of_index(index.len())];
    }
    let counted = Index::counted(&case.board).0;
    let bit = |index: &[u64], bucket: u64| index[1 + bucket as usize / 64] >> (bucket % 64) & 1;
    let differs = |bucket: u64| bit(index, bucket) != bit(&counted, bucket);
    let oddities = [
        (index[0] != counted[0], "a total that is not the board's"),
        (
            (0..n.min(256)).any(differs),
            "a bit that is not the board's",
        ),
        (
            (n..256).any(|bucket| bit(index, bucket) == 1),
            "unused bits",
        ),
    ];
    let found = oddities.iter().filter(|(is_so, _)| *is_so);
    found.map(|(_, what)| *what).collect()
}

/// §21.2: what a turn at each place makes of its bucket's valid slots.
fn see_turn(case: &Case, report: &Report, met: &mut Vec<String>) {
    let record = record_of(case).expect("an accepted turn has a record");
    let Record { place, held, .. } = *record;
    let at = match (place, report.action) {
        (9 | 10, Action::Won | Action::Store) => held,
        (6 | 13, Action::Won) => record.slot,
        _ => {
            let kind = NAMES[record.kind as usize];
            let lost = match report.action {
                Action::Lost => "lost ",
                _ => "",
            };
            let valid = valid(report.before);
            met.push(format!(
                "index, {lost}{kind} at {place}: over {valid} valid slots"
            ));
            return;
        }
    };
    see_mark(&format!("at {place}"), at, report.before, met);
    let what = match place {
        6 => "claim",
        9 => "commit",
        10 => "freed slot",
        _ => "close",
    };
    see_bit(what, report.bucket, [report.before, report.after], met);
}

fn see_retired(case: &Case, met: &mut Vec<String>) {
    let record = record_of(case).expect("a retired worker has a record");
    let (bucket, held) = (record.key % case.floor.buckets, record.held);
    let word = case.board[BUCKET_WORDS * bucket as usize];
    if held == NONE {
        let touched = Touched::by(record, case.floor.buckets, &case.board, &case.index);
        if let [cause] = &touched.expect("it was measured").causes()[..] {
            met.push(format!("retire: 0 with nothing held over {cause}"));
        }
        return;
    }
    see_mark("retire", held, word, met);
    let mut after = Snapshot::of(word);
    after.map[usize::from(held)] = 0;
    see_bit("retiring", bucket, [word, after.snapshot()], met);
}

/// The mark that is set, and how many other slots of its bucket are valid.
fn see_mark(what: &str, slot: u8, word: u64, met: &mut Vec<String>) {
    let mark = Snapshot::of(word).map[usize::from(slot)];
    let beside = valid(word) - u64::from(mark == MAP_VALID);
    met.push(format!(
        "index, {what} over mark {mark}: beside {beside} valid slots"
    ));
}

fn see_bit(what: &str, bucket: u64, words: [u64; 2], met: &mut Vec<String>) {
    let then = match words.map(|word| valid(word) > 0) {
        [false, true] => "is occupied",
        [true, false] => "is emptied",
        [true, true] => "stays occupied",
        [false, false] => "stays empty",
    };
    met.push(format!("index: bucket {bucket} {then} by a {what}"));
}

/// What the turns of a run made of the index one after another, and why one was refused by 11.
fn see_run(case: &Case, outcome: &Outcome, number: u8, met: &mut Vec<String>) {
    let changes: Vec<(u64, [bool; 2])> = outcome
        .told
        .iter()
        .map(|(_, _, report)| {
            let occupied = [report.before, report.after].map(|word| valid(word) > 0);
            (report.bucket, occupied)
        })
        .filter(|(_, [before, after])| before != after)
        .collect();
    for (at, (bucket, [before, _])) in changes.iter().enumerate() {
        let again = changes[at + 1..].iter().any(|(later, _)| later == bucket);
        match (again, before) {
            (true, false) => met.push("run: a bucket is occupied and emptied again".into()),
            (true, true) => met.push("run: a bucket is emptied and occupied again".into()),
            _ => (),
        }
    }
    let mut words: Vec<u64> = changes.iter().map(|(bucket, _)| bucket / 64).collect();
    words.sort();
    words.dedup();
    if words.len() > 1 {
        met.push("run: bits in several words change".into());
    }
    if number == 11 {
        see_stop(case, outcome, met);
    }
}

/// The turn that was refused found what the turns before it had left.
fn see_stop(case: &Case, outcome: &Outcome, met: &mut Vec<String>) {
    let worker = case.turns[outcome.told.len()];
    let record = outcome.records[usize::from(worker)];
    let n = case.floor.buckets;
    let stopped = Touched::by(&record, n, &outcome.board, &outcome.index);
    let stopped = stopped.expect("11 comes of a bucket");
    let outset = Touched::by(&record, n, &case.board, &case.index);
    if let [cause] = &stopped.causes()[..] {
        met.push(format!("run: 11 later by {cause}"));
    }
    if outset.is_some_and(|outset| outset.causes().is_empty()) {
        let total = match outcome.index[0] > case.index[0] {
            true => "higher",
            false => "lower",
        };
        met.push(format!("run: 11 by a total that the run has made {total}"));
    }
    if outcome.index != case.index {
        met.push("run: 11 after turns that changed the index".into());
    }
    let mut buckets = outcome.told.iter().map(|(_, _, report)| report.bucket);
    if buckets.any(|bucket| bucket == stopped.bucket) {
        met.push("run: 11 in a bucket in which turns were done".into());
    }
}

/// §21.2, whatever was there.
fn see_made_afresh(name: &str, case: &Case, met: &mut Vec<String>) {
    let bits = &case.index[1..];
    for (is_so, what) in [
        (case.index.iter().all(|&word| word == 0), "zeros"),
        (case.index[0] != 0, "a total"),
        (case.index[0] == u64::MAX, "a total of 2^64-1"),
        (bits.iter().all(|&word| word != 0), "bits in each word"),
        (bits.iter().all(|&word| word == u64::MAX), "all bits"),
    ] {
        if is_so {
            met.push(format!("{name}: 0 over an index of {what}"));
        }
    }
}
