//! The clerk, and the checks of item 5 while a schedule is played. Turns count from 1 over the whole schedule; refused ones do not count,
//! and a retiring is none.

use crate::engines::{Engine, Room};
use crate::points::{self, Point};
use crate::schedules::{Event, Schedule};
use reference::desk::Desk;
use reference::record::{Record, INSERT, LOOK, NONE, REMOVE};
use reference::report::{Action, Report};
use reference::word::{KEY_BUCKT, MAP_INSRT, MAP_VALID};
use std::collections::btree_map::{BTreeMap, Entry};
use std::collections::BTreeSet;

/// What a check found, and at which turn.
#[derive(Clone, Copy, Debug, PartialEq, Eq)]
pub struct Failure {
    pub turn: usize,
    pub check: Check,
}

#[derive(Clone, Copy, Debug, PartialEq, Eq, PartialOrd, Ord)]
pub enum Check {
    /// A won commit or a won remove has an answer that the clerk would not give.
    WonAnswer,
    /// Another call ends with an answer that the clerk would not give after any of its turns.
    NoMoment,
    /// A lot is valid in two slots.
    TwoSlots,
    /// The valid slots are not the clerk's list, or the count is not its length.
    List,
    /// The slots with mark 2 are not just those that busy workers hold, each of one worker.
    Held,
    /// The mark word of a bucket is once more the one that somebody's commit expects who held a slot there and was retired.
    Again,
    /// The calls in the order of their moments are not what the clerk did.
    Sequence,
}

/// One list of lots and tickets.
#[derive(Clone, Debug, Default, PartialEq, Eq)]
struct Clerk {
    list: BTreeMap<u64, u64>,
}

impl Clerk {
    /// Does a call in one act; its answer.
    fn does(&mut self, call: &Call) -> u64 {
        match call.kind {
            LOOK => self.list.get(&call.lot).copied().unwrap_or(0),
            INSERT => match self.list.entry(call.lot) {
                Entry::Occupied(_) => 0,
                Entry::Vacant(place) => {
                    place.insert(call.ticket);
                    1
                }
            },
            REMOVE => self.list.remove(&call.lot).unwrap_or(0),
            kind => panic!("the clerk knows no call {kind}"),
        }
    }

    /// Whether this is the call's answer and the list stays as it is.
    fn only_answers(&self, call: &Call, answer: u64) -> bool {
        let mut after = self.clone();
        after.does(call) == answer && after == *self
    }
}

/// A call from its first turn on.
#[derive(Clone, Copy, Debug)]
pub struct Call {
    pub kind: u8,
    pub lot: u64,
    pub ticket: u64,
    pub first: usize,
}

/// A call that has ended.
#[derive(Clone, Debug)]
pub struct Ended {
    pub call: Call,
    pub last: usize,
    pub answer: u64,
    /// A commit or a remove that won; the clerk does it at its last turn and changes the list.
    pub won: bool,
    /// After which turns the clerk would have given this answer.
    pub moments: Vec<usize>,
}

/// What a schedule came to, where nothing failed.
#[derive(Debug, PartialEq, Eq)]
pub struct Played {
    pub reports: Vec<Report>,
    /// The answers of the ended calls, by their last turns.
    pub answers: Vec<(usize, u64)>,
    /// The board and the records at the end.
    pub words: Vec<u64>,
    pub records: Vec<Record>,
    pub met: BTreeSet<Point>,
}

/// Plays a schedule to its end, or until a check fails.
pub fn play(engine: Engine, schedule: &Schedule) -> Result<Played, Failure> {
    play_overlooking(None, engine, schedule)
}

/// The same without one of the checks.
pub fn play_overlooking(
    overlooked: Option<Check>,
    engine: Engine,
    schedule: &Schedule,
) -> Result<Played, Failure> {
    let mut watch = Watch::opened(overlooked, engine, schedule);
    for &event in &schedule.events {
        watch.see(event)?;
    }
    watch.check_sequences()?;
    Ok(Played {
        reports: watch.reports,
        answers: watch.answers,
        words: watch.room.desk.board.words(),
        records: watch.room.desk.list.records,
        met: watch.met,
    })
}

struct Watch {
    overlooked: Option<Check>,
    room: Room,
    clerk: Clerk,
    /// The clerk after each turn; the first is the one of the opening.
    clerks: Vec<Clerk>,
    /// By worker; a call is here from its first turn on.
    running: Vec<Option<Call>>,
    ended: Vec<Ended>,
    reports: Vec<Report>,
    /// As the reports told them, each with its turn.
    answers: Vec<(usize, u64)>,
    /// Of all who held a slot and were retired: the bucket, and the word that their commit expects.
    retired: Vec<(usize, u64)>,
    /// By worker: whether it was ever retired.
    returned: Vec<bool>,
    met: BTreeSet<Point>,
}

impl Watch {
    fn opened(overlooked: Option<Check>, engine: Engine, schedule: &Schedule) -> Watch {
        let Schedule {
            workers,
            buckets,
            version,
            ..
        } = *schedule;
        Watch {
            overlooked,
            room: Room::opened(engine, workers, buckets, version),
            clerk: Clerk::default(),
            clerks: vec![Clerk::default()],
            running: vec![None; workers as usize],
            ended: Vec::new(),
            reports: Vec::new(),
            answers: Vec::new(),
            retired: Vec::new(),
            returned: vec![false; workers as usize],
            met: BTreeSet::new(),
        }
    }

    /// The turn that was done last, or 0.
    fn now(&self) -> usize {
        self.reports.len()
    }

    fn see(&mut self, event: Event) -> Result<(), Failure> {
        match event {
            Event::Look(worker, lot) => self.start(LOOK, worker, lot, 0),
            Event::Insert(worker, lot, ticket) => self.start(INSERT, worker, lot, ticket),
            Event::Remove(worker, lot) => self.start(REMOVE, worker, lot, 0),
            Event::Turns(worker, turns) => (0..turns).try_for_each(|_| self.turn(worker)),
            Event::Retire(worker) => self.retire(worker),
        }
    }

    /// The clerk hears nothing of a start, refused or not, so the board must be as it was.
    fn start(&mut self, kind: u8, worker: u64, lot: u64, ticket: u64) -> Result<(), Failure> {
        if let Err(refusal) = self.room.desk.start(kind, worker, lot, ticket) {
            self.met.insert(Point::Refused(refusal));
        }
        self.check_board()
    }

    fn turn(&mut self, worker: u64) -> Result<(), Failure> {
        let record = self.room.desk.list.records.get(worker as usize).copied();
        match self.room.turn(worker) {
            Ok(report) => self.done(worker as usize, &record.unwrap(), &report)?,
            Err(refusal) => {
                self.met.insert(Point::Refused(refusal));
            }
        }
        self.check_board()
    }

    /// The clerk hears nothing of a retiring, done or refused: the call that is dropped has no answer, and is as good as never begun.
    fn retire(&mut self, worker: u64) -> Result<(), Failure> {
        let record = self.room.desk.list.records.get(worker as usize).copied();
        let before = self.room.desk.board.words();
        match self.room.retire(worker) {
            Ok(()) => self.dropped(worker as usize, &record.unwrap(), &before),
            Err(refusal) => {
                self.met.insert(Point::Refused(refusal));
            }
        }
        self.check_board()
    }

    /// Notes that a call was dropped, from this record and on a board that had these words.
    fn dropped(&mut self, worker: usize, record: &Record, before: &[u64]) {
        let number = (record.key % self.room.desk.floor.buckets) as usize;
        let after = self.room.desk.board.bucket(number).snapshot();
        points::meet_retiring(&mut self.met, record, [before[8 * number], after]);
        self.running[worker] = None;
        self.returned[worker] = true;
        let expected = record.commit_expects();
        self.retired.extend(expected.map(|word| (number, word)));
    }

    /// Tells the clerk of a turn that was done, from this record.
    fn done(&mut self, worker: usize, record: &Record, report: &Report) -> Result<(), Failure> {
        self.reports.push(*report);
        let now = self.now();
        let call = *self.running[worker].get_or_insert(Call {
            kind: record.kind,
            lot: record.key,
            ticket: record.ticket,
            first: now,
        });
        let won = report.action == Action::Won && matches!(record.place, 9 | 13);
        let clerks_answer = won.then(|| self.clerk.does(&call));
        self.clerks.push(self.clerk.clone());
        points::meet_turn(&mut self.met, record, report);
        if won && report.ended != clerks_answer {
            return self.fail(Check::WonAnswer);
        }
        let Some(answer) = report.ended else {
            return Ok(());
        };
        self.running[worker] = None;
        self.answers.push((now, answer));
        let is_moment = |&turn: &usize| self.clerks[turn].only_answers(&call, answer);
        let moments = match won {
            true => vec![now],
            false => (call.first..=now).filter(is_moment).collect(),
        };
        if moments.is_empty() {
            return self.fail(Check::NoMoment);
        }
        let ended = Ended {
            call,
            last: now,
            answer,
            won,
            moments,
        };
        let ticket_after = |turn: usize| self.clerks[turn].list.get(&call.lot).copied();
        let at_its_ends = [ticket_after(call.first), ticket_after(now)];
        points::meet_end(&mut self.met, &ended, at_its_ends);
        if self.returned[worker] {
            self.met.insert(Point::Returns);
        }
        self.ended.push(ended);
        Ok(())
    }

    fn fail(&self, check: Check) -> Result<(), Failure> {
        let turn = self.now();
        match self.overlooked == Some(check) {
            true => Ok(()),
            false => Err(Failure { turn, check }),
        }
    }

    fn check_board(&self) -> Result<(), Failure> {
        let desk = &self.room.desk;
        let valid = slots_with(desk, MAP_VALID);
        let tickets = valid.iter().map(|&(number, slot)| {
            let bucket = desk.board.bucket(number);
            (bucket.key(slot), bucket.val(slot))
        });
        let list: BTreeMap<u64, u64> = tickets.collect();
        if list.len() < valid.len() {
            return self.fail(Check::TwoSlots);
        }
        if list != self.clerk.list || desk.count() != Ok(list.len() as u64) {
            return self.fail(Check::List);
        }
        if slots_with(desk, MAP_INSRT) != held_slots(desk) {
            return self.fail(Check::Held);
        }
        let stands = |&(number, word): &(usize, u64)| desk.board.bucket(number).snapshot() == word;
        if self.retired.iter().any(stands) {
            return self.fail(Check::Again);
        }
        Ok(())
    }

    /// Whichever of its moments each call takes, the clerk can do them one by one.
    fn check_sequences(&self) -> Result<(), Failure> {
        let choices: [fn(&[usize]) -> usize; 3] = [
            |moments| moments[0],
            |moments| moments[moments.len() / 2],
            |moments| moments[moments.len() - 1],
        ];
        for choose in choices {
            let mut sequence: Vec<&Ended> = self.ended.iter().collect();
            // a call that only answers comes after what is done at that turn, since the list after the turn gives its answer
            sequence.sort_by_key(|ended| (choose(&ended.moments), !ended.won));
            if !self.is_what_was_done(&sequence) {
                return self.fail(Check::Sequence);
            }
        }
        Ok(())
    }

    fn is_what_was_done(&self, sequence: &[&Ended]) -> bool {
        let mut clerk = Clerk::default();
        let answered = |ended: &&Ended| clerk.does(&ended.call) == ended.answer;
        let all_answered = sequence.iter().all(answered);
        // no call that comes later has ended before one that comes earlier has begun
        let mut latest_first = 0;
        let in_order = sequence.iter().all(|ended| {
            latest_first = latest_first.max(ended.call.first);
            latest_first <= ended.last
        });
        let mut answers: Vec<(usize, u64)> = sequence
            .iter()
            .map(|ended| (ended.last, ended.answer))
            .collect();
        answers.sort();
        // a turn ends one call at most, so by their last turns each is there, and once
        all_answered && in_order && clerk == self.clerk && answers == self.answers
    }
}

/// Bucket and slot of all that have this mark, in order.
fn slots_with(desk: &Desk, mark: u8) -> Vec<(usize, u8)> {
    let buckets = 0..desk.floor.buckets as usize;
    let slots = buckets.flat_map(|number| (0..KEY_BUCKT).map(move |slot| (number, slot)));
    slots
        .filter(|&(number, slot)| desk.board.bucket(number).map(slot) == mark)
        .collect()
}

/// Bucket and slot of all that busy workers hold, in order; twice, where two hold it.
fn held_slots(desk: &Desk) -> Vec<(usize, u8)> {
    let holding = desk
        .list
        .records
        .iter()
        .filter(|record| record.held != NONE);
    let mut slots: Vec<(usize, u8)> = holding
        .map(|record| ((record.key % desk.floor.buckets) as usize, record.held))
        .collect();
    slots.sort();
    slots
}
