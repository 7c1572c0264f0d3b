//! What reports are for: by whose turn each was, it can be told from their words who changed a bucket's mark word, and why a swap was lost.
//! And the third demand (§11.3) with its bound. Tried on opened boards with retirings anywhere, with code that lives and with code made
//! anew from the records; which turns are changes and moments is told by their places, so that the words are held against something else.

mod sleeper;

use reference::desk::{Desk, Manner};
use reference::random::Random;
use reference::record::{INSERT, LOOK, NONE, REMOVE};
use reference::report::{Action, Report};
use std::collections::{BTreeSet, HashMap};

const MANNERS: [Manner; 2] = [Manner::Living, Manner::Remade];

/// What was done in a bucket, and by whom: a turn, with its place and its report; or a retiring with a held slot, which reports nothing, so
/// that its two words are the board's.
#[derive(Clone, Copy)]
struct Act {
    worker: u64,
    /// RETIRED for a retiring.
    place: u8,
    /// None for a retiring.
    action: Option<Action>,
    bucket: u64,
    before: u64,
    after: u64,
}

/// No turn is at this place.
const RETIRED: u8 = 0;

impl Act {
    fn turn(worker: u64, place: u8, report: &Report) -> Act {
        Act {
            worker,
            place,
            action: Some(report.action),
            bucket: report.bucket,
            before: report.before,
            after: report.after,
        }
    }

    /// §4.9, by the place and not by the report's words; and what frees a held slot is a change by the one who held it.
    fn is_change(&self) -> bool {
        self.action == Some(Action::Won) || matches!(self.place, 10 | RETIRED)
    }

    fn is_swap(&self) -> bool {
        matches!(self.place, 6 | 9 | 13)
    }

    fn is_commit_or_close(&self) -> bool {
        self.action == Some(Action::Won) && matches!(self.place, 9 | 13)
    }

    fn is_lost(&self) -> bool {
        self.action == Some(Action::Lost)
    }
}

/// An opened desk, and what was done since.
struct History {
    version: u32,
    desk: Desk,
    inserts: u64,
    removes: u64,
    acts: Vec<Act>,
}

fn any_opening(random: &mut Random, manner: Manner) -> (Desk, u32) {
    let (w, n) = (1 + random.below(6), random.pick(&[1, 1, 2, 3, 256]));
    let near = random.below(4) as u32;
    let version = random.pick(&[0, near, u32::MAX - near]);
    (Desk::opened(w, n, version, manner).unwrap(), version)
}

/// A call for one of four lots of at most three buckets, of which the last is one; its kind.
fn start_any_call(random: &mut Random, desk: &mut Desk, worker: u64) -> u8 {
    let n = desk.floor.buckets;
    let kind = random.pick(&[LOOK, INSERT, INSERT, REMOVE]);
    let lot = n * random.below(4) + random.pick(&[0, n / 2, n - 1]);
    let ticket = desk.floor.last_ticket + 1;
    desk.start(kind, worker, lot, ticket).unwrap();
    kind
}

impl History {
    /// An opening, and turns after it in any order and few in a row, so that calls meet; somebody is retired now and then.
    fn any(seed: u64, manner: Manner) -> History {
        let mut random = Random::new(seed);
        let (desk, version) = any_opening(&mut random, manner);
        let mut history = History {
            version,
            desk,
            inserts: 0,
            removes: 0,
            acts: Vec::new(),
        };
        let often = random.pick(&[4, 12, 1_000]);
        while history.acts.len() < 300 {
            let worker = random.below(history.desk.floor.workers);
            for _ in 0..1 + random.below(9) {
                history.go_on(&mut random, worker);
            }
            if random.once_in(often) {
                history.retire(worker);
            }
        }
        history
    }

    /// A turn, or a start if the worker is idle.
    fn go_on(&mut self, random: &mut Random, worker: u64) {
        let record = self.desk.list.records[worker as usize];
        if record.is_idle() {
            let kind = start_any_call(random, &mut self.desk, worker);
            self.inserts += u64::from(kind == INSERT);
            self.removes += u64::from(kind == REMOVE);
            return;
        }
        let report = self.desk.turn(worker).unwrap();
        assert_eq!(report.bucket, record.key % self.desk.floor.buckets);
        self.acts.push(Act::turn(worker, record.place, &report));
    }

    /// Whoever is busy can be retired; only where a slot is held is it something done in a bucket.
    fn retire(&mut self, worker: u64) {
        let record = self.desk.list.records[worker as usize];
        let bucket = self
            .desk
            .board
            .bucket((record.key % self.desk.floor.buckets) as usize);
        let before = bucket.snapshot();
        let refusal = self.desk.retire(worker).err();
        assert_eq!(refusal, record.is_idle().then_some(6));
        let after = bucket.snapshot();
        if record.held == NONE {
            assert_eq!(before, after);
            return;
        }
        self.acts.push(Act {
            worker,
            place: RETIRED,
            action: None,
            bucket: bucket.number as u64,
            before,
            after,
        });
    }
}

fn each_history(mut look_at: impl FnMut(&History)) {
    for manner in MANNERS {
        for seed in 0..8_000 {
            look_at(&History::any(seed, manner));
        }
    }
}

/// A swap, and where something stands that was done before it.
struct Swap<'a> {
    swap: &'a Act,
    /// All that was done before it.
    before: &'a [Act],
    /// Its moment (§11.3).
    moment: usize,
    /// The last change in its bucket, if there is one.
    change: Option<usize>,
}

fn each_swap(mut look_at: impl FnMut(&Swap)) {
    each_history(|history| {
        for (at, swap) in history.acts.iter().enumerate() {
            if !swap.is_swap() {
                continue;
            }
            let before = &history.acts[..at];
            let last = |is_it: &dyn Fn(&Act) -> bool| {
                let here = |act: &Act| act.bucket == swap.bucket && is_it(act);
                before.iter().rposition(here)
            };
            let whole = |act: &Act| act.place == 1 || act.is_change();
            let moment = last(&|act| act.worker == swap.worker && whole(act));
            look_at(&Swap {
                swap,
                before,
                moment: moment.expect("a call begins with the whole word"),
                change: last(&Act::is_change),
            });
        }
    });
}

#[test]
fn each_turn_finds_what_the_last_act_left() {
    each_history(|history| {
        let mut left = HashMap::new();
        for act in &history.acts {
            let before = left.insert(act.bucket, act.after);
            assert_eq!(act.before, before.unwrap_or(history.version.into()));
        }
    });
}

/// The version is counted on by a commit and by a retiring with a held slot, by one each, and by nothing else.
#[test]
fn a_change_alone_makes_another_word() {
    let mut wraps = BTreeSet::new();
    each_history(|history| {
        for act in &history.acts {
            assert_eq!(act.before != act.after, act.is_change());
            let [before, after] = [act.before, act.after].map(|word| word as u32);
            let counted = act.is_commit_or_close() && act.place == 9 || act.place == RETIRED;
            assert_eq!(after, before.wrapping_add(counted.into()));
            if (before, after) == (u32::MAX, 0) {
                wraps.insert(act.place);
            }
        }
    });
    assert_eq!(wraps, BTreeSet::from([9, RETIRED]));
}

#[test]
fn a_swap_wins_on_the_word_of_its_moment_alone() {
    let mut met = BTreeSet::new();
    each_swap(|found| {
        let won = found.swap.before == found.before[found.moment].after;
        let action = if won { Action::Won } else { Action::Lost };
        assert_eq!(found.swap.action, Some(action));
        let changed = found.change.is_some_and(|change| change > found.moment);
        met.insert((found.swap.place, won, changed));
    });
    // a claim, a commit, a close: lost, won, and won on a word that went and came back (§13.7)
    assert_eq!(met.len(), 3 * 3);
}

#[test]
fn a_lost_swap_was_lost_to_the_last_change() {
    let mut met = BTreeSet::new();
    each_swap(|found| {
        if found.swap.is_lost() {
            let change = found.change.expect("something was changed");
            assert!(change > found.moment);
            let change = found.before[change];
            assert_ne!(change.worker, found.swap.worker);
            assert_eq!(change.after, found.swap.before);
            met.insert((found.swap.place, change.place));
        }
    });
    // each of the three is lost to a claim, a commit, a close, a slot that is given back, and one whose holder is retired
    assert_eq!(met.len(), 3 * 5);
}

/// §11.3. Where a swap wins, others may have claimed and given back since its moment (§13.7), and nothing else: nobody who held a slot was
/// retired either, since the version is counted on then.
#[test]
fn a_swap_wins_only_where_nobody_else_committed_or_closed() {
    let mut met = BTreeSet::new();
    each_swap(|found| {
        let since = &found.before[found.moment + 1..];
        let mut here = since.iter().filter(|act| act.bucket == found.swap.bucket);
        let others = |act: &Act| act.is_commit_or_close() || act.place == RETIRED;
        if here.any(others) {
            assert!(found.swap.is_lost());
            met.insert(found.swap.place);
        }
    });
    assert_eq!(met.len(), 3);
}

/// §11.3: no more swaps are lost than each other worker could lose to each change, of which an insert makes two at most, with its retiring,
/// and a remove one.
#[test]
fn lost_swaps_are_bounded() {
    let mut nearest = 0.0_f64;
    each_history(|history| {
        let lost = history.acts.iter().filter(|act| act.is_lost()).count() as u64;
        let changes = history.acts.iter().filter(|act| act.is_change()).count() as u64;
        let (others, most) = (
            history.desk.floor.workers - 1,
            2 * history.inserts + history.removes,
        );
        assert!(changes <= most && lost <= others * changes);
        nearest = nearest.max(lost as f64 / (others * most).max(1) as f64);
    });
    println!(
        "{:.0} in a hundred of the bound are lost at most",
        100.0 * nearest
    );
    assert!(nearest > 0.1);
}

/// Gives turns of this worker a reason to be refused, 3, 7 or 11; done once more, it takes the reason away.
fn spoil(desk: &mut Desk, why: u8, worker: u64) {
    let record = &mut desk.list.records[worker as usize];
    let bucket = (record.key % desk.floor.buckets) as usize;
    let spare = 8 * bucket + 7;
    match why {
        3 => record.slot ^= 4,
        7 => desk.board.set(spare, desk.board.words()[spare] ^ 1),
        11 => desk.index.0[1 + bucket / 64] ^= 1 << (bucket % 64),
        _ => (),
    }
}

/// The turns of a run, one by one: the number that stops them or 0, the report of the last, and how many there were.
fn give_singly(desk: &mut Desk, turns: &[u8]) -> (u8, Report, u64) {
    let mut last = Report::none();
    for (done, &worker) in turns.iter().enumerate() {
        match desk.turn(worker.into()) {
            Ok(report) => last = report,
            Err(number) => return (number, last, done as u64),
        }
    }
    (0, last, turns.len() as u64)
}

/// One history on two desks, in runs and by single turns; in the runs are workers who are refused or are not there.
fn runs_and_turns(seed: u64, manner: Manner, met: &mut BTreeSet<(u8, bool)>) {
    let mut random = Random::new(seed);
    let mut desks = [(); 2].map(|()| any_opening(&mut Random::new(seed), manner).0);
    let w = desks[0].floor.workers;
    for _ in 0..30 {
        let (worker, why, call) = (
            random.below(w),
            random.pick(&[0, 0, 0, 3, 7, 11]),
            random.any(),
        );
        for desk in &mut desks {
            if desk.list.records[worker as usize].is_idle() {
                start_any_call(&mut Random::new(call), desk, worker);
            }
            spoil(desk, why, worker);
        }
        let mut turns = Vec::new();
        let workers = w + u64::from(random.once_in(4));
        for _ in 0..random.below(5) {
            let worker = random.below(workers) as u8;
            turns.extend(vec![worker; 1 + random.below(12) as usize]);
        }
        let (number, ran) = desks[0].run(&turns, &mut |_, _, _| ());
        let single = give_singly(&mut desks[1], &turns);
        assert_eq!((number, ran.last, ran.counts.turns), single);
        met.insert((number, ran.counts.turns > 0));
        // §20.2: the numbers of the others too
        assert_eq!(desks[0].list, desks[1].list);
        assert_eq!(desks[0].index, desks[1].index);
        for desk in &mut desks {
            spoil(desk, why, worker);
        }
    }
}

#[test]
fn a_run_keeps_the_report_of_its_last_turn() {
    let mut met = BTreeSet::new();
    for manner in MANNERS {
        for seed in 0..2_000 {
            runs_and_turns(seed, manner, &mut met);
        }
    }
    // to the end of the list and stopped by 2, 3, 6, 7 and 11; with turns done and without
    assert_eq!(met.len(), 6 * 2);
}

#[test]
fn a_run_that_is_refused_whole_keeps_none() {
    let mut desk = Desk::opened(1, 2, 9, Manner::Living).unwrap();
    desk.start(LOOK, 0, 7, 0).unwrap();
    let (number, ran) = desk.run(&[0; 65_536], &mut |_, _, _| ());
    assert_eq!((number, ran.last), (9, Report::none()));
    desk.floor.buckets = 3;
    let (number, ran) = desk.run(&[0], &mut |_, _, _| ());
    assert_eq!((number, ran.last), (1, Report::none()));
}

/// §10.6: three reports show why the sleeper's swap, turn 30, is lost.
#[test]
fn the_sleeper() {
    for manner in MANNERS {
        let mut reports = Vec::new();
        let mut desk = sleeper::asleep(manner, |_, report| reports.push(report));
        reports.extend((0..5).map(|_| desk.turn(1).unwrap()));
        assert_eq!(reports.len(), 34);
        let told = |turn: usize| {
            let report: Report = reports[turn - 1];
            let words = [report.before, report.after];
            (report.action, report.ended, report.bucket, words)
        };
        let read = [4_294_967_297; 2];
        assert_eq!(told(12), (Action::Read, None, 0, read));
        let committed = [8_589_934_593, 4_294_967_298];
        assert_eq!(told(29), (Action::Won, Some(1), 0, committed));
        let stood = [4_294_967_298; 2];
        assert_eq!(told(30), (Action::Lost, None, 0, stood));
    }
}
