//! What is kept of a history of a small class beside its desk, so that each act can be judged by the third demand (§11.3), by the clerk of
//! item 5, and by whether a retired worker's word comes back.

use reference::desk::Desk;
use reference::record::{Record, INSERT, LOOK, REMOVE};
use reference::report::{Action, Report};
use reference::word::{Snapshot, MAP_VALID};
use std::collections::BTreeMap;

/// What can be wrong with an act.
#[derive(Clone, Copy, Debug, PartialEq, Eq)]
pub enum Wrong {
    /// A swap is lost, and since its moment nobody else changed the mark word; or one is won though somebody else committed or closed; or
    /// so many are lost by now that the bound does not hold.
    ThirdDemand,
    /// A lot is valid twice, or the valid slots are not what the clerk would have after his commits and closes, or an answer has no moment.
    Clerk,
    /// The mark word is the one that the commit of somebody expects who held a slot and was retired.
    Again,
}

#[derive(Clone)]
pub struct Watch {
    /// By what acts are judged; nothing is kept for what they are not judged by.
    judged: &'static [Wrong],
    pub workers: Vec<Since>,
    /// How many swaps more may be lost.
    pub may_be_lost: u64,
    /// The words that the commits of retired workers expect, in order.
    pub retired: Vec<u64>,
}

/// What a busy worker has missed.
#[derive(Clone, Copy, Default, PartialEq, Eq, PartialOrd, Ord, Hash)]
pub struct Since {
    /// Since it last read the mark word whole or changed it another changed it; or committed or closed.
    changed: bool,
    committed: bool,
    /// The tickets that its lot had after a turn, from the first turn of its call on: bit t for ticket t, and bit 0 for none.
    tickets: u32,
}

/// A turn that was done: whose it was, from which record, and with what report; the board had these words before it, and is now the desk's.
pub struct Turned<'a> {
    pub worker: usize,
    pub record: &'a Record,
    pub report: &'a Report,
    pub words: &'a [u64],
    pub desk: &'a Desk,
}

impl Watch {
    pub fn new(workers: usize, judged: &'static [Wrong]) -> Watch {
        Watch {
            judged,
            workers: vec![Since::default(); workers],
            may_be_lost: 0,
            retired: Vec::new(),
        }
    }

    /// An insert makes two changes at most, and a remove one; each can make each other worker lose a swap.
    pub fn started(&mut self, kind: u8) {
        let changes = match kind {
            INSERT => 2,
            REMOVE => 1,
            _ => 0,
        };
        self.may_be_lost += changes * (self.workers.len() as u64 - 1);
    }

    pub fn turned(&mut self, turn: &Turned) -> Result<(), Wrong> {
        let (worker, place, action) = (turn.worker, turn.record.place, turn.report.action);
        let won = action == Action::Won;
        if self.judged.contains(&Wrong::ThirdDemand) {
            self.judge_swap(worker, action)?;
        }
        if won || place == 10 {
            self.changed_by(worker, won && place != 6);
        }
        if place == 1 {
            self.read_by(worker);
        }
        if self.judged.contains(&Wrong::Clerk) {
            self.judge_answer(turn)?;
        }
        self.judge_word(turn.desk)
    }

    /// A retiring of the worker, who had this record: no turn, so that no call's moment can be after it.
    pub fn retired(
        &mut self,
        worker: usize,
        record: &Record,
        words: &[u64],
        desk: &Desk,
    ) -> Result<(), Wrong> {
        if valid_slots(words) != valid_slots(&desk.board.words()) {
            return Err(Wrong::Clerk);
        }
        if let Some(word) = record.commit_expects() {
            self.changed_by(worker, false);
            self.retired.push(word);
            self.retired.sort();
            self.retired.dedup();
        }
        self.judge_word(desk)
    }

    fn changed_by(&mut self, worker: usize, committed: bool) {
        for since in &mut self.workers {
            since.changed = true;
            since.committed |= committed;
        }
        self.read_by(worker);
    }

    fn read_by(&mut self, worker: usize) {
        self.workers[worker].changed = false;
        self.workers[worker].committed = false;
    }

    fn judge_swap(&mut self, worker: usize, action: Action) -> Result<(), Wrong> {
        let Since {
            changed, committed, ..
        } = self.workers[worker];
        match action {
            Action::Won if committed => Err(Wrong::ThirdDemand),
            Action::Lost if !changed || self.may_be_lost == 0 => Err(Wrong::ThirdDemand),
            Action::Lost => {
                self.may_be_lost -= 1;
                Ok(())
            }
            _ => Ok(()),
        }
    }

    fn judge_answer(&mut self, turn: &Turned) -> Result<(), Wrong> {
        let &Turned {
            worker,
            record,
            report,
            words,
            desk,
        } = turn;
        let mut list = valid_slots(words).ok_or(Wrong::Clerk)?;
        let now = valid_slots(&desk.board.words()).ok_or(Wrong::Clerk)?;
        let clerks_answer = match (report.action, record.place) {
            (Action::Won, 9) => match list.insert(record.key, record.ticket) {
                None => Some(1),
                Some(_) => return Err(Wrong::Clerk),
            },
            (Action::Won, 13) => Some(list.remove(&record.key).ok_or(Wrong::Clerk)?),
            _ => None,
        };
        if list != now || clerks_answer.is_some() && clerks_answer != report.ended {
            return Err(Wrong::Clerk);
        }
        self.meet_moments(worker, record, desk, &list);
        let tickets = self.workers[worker].tickets;
        let has_moment = match (report.ended, clerks_answer) {
            (Some(answer), None) => match record.kind {
                LOOK => tickets >> answer & 1 == 1,
                INSERT => answer == 0 && tickets >> 1 != 0,
                _ => answer == 0 && tickets & 1 == 1,
            },
            _ => true,
        };
        has_moment.then_some(()).ok_or(Wrong::Clerk)
    }

    /// Just after this turn each call that has begun could have its moment.
    fn meet_moments(
        &mut self,
        worker: usize,
        record: &Record,
        desk: &Desk,
        list: &BTreeMap<u64, u64>,
    ) {
        let bit = |lot: u64| 1 << list.get(&lot).copied().unwrap_or(0);
        let others = self.workers.iter_mut().zip(&desk.list.records);
        for (_, (since, other)) in others.enumerate().filter(|(at, _)| *at != worker) {
            if since.tickets != 0 {
                since.tickets |= bit(other.key);
            }
        }
        self.workers[worker].tickets |= bit(record.key);
    }

    fn judge_word(&self, desk: &Desk) -> Result<(), Wrong> {
        match self.retired.contains(&desk.board.words()[0]) {
            true => Err(Wrong::Again),
            false => Ok(()),
        }
    }

    /// Drops what nothing will ask for, so that more states are the same: of the idle all, of a look and of whoever is about to read the
    /// mark word what it has missed of that, and all that acts are not judged by.
    pub fn forget(&mut self, records: &[Record]) {
        let third_demand = self.judged.contains(&Wrong::ThirdDemand);
        for (since, record) in self.workers.iter_mut().zip(records) {
            if record.is_idle() {
                *since = Since::default();
            }
            if record.kind == LOOK || record.place == 1 || !third_demand {
                (since.changed, since.committed) = (false, false);
            }
        }
        if !third_demand {
            self.may_be_lost = 0;
        }
        if !self.judged.contains(&Wrong::Again) {
            self.retired.clear();
        }
    }
}

/// The lots in valid slots of the only bucket, with their tickets; none where a lot is there twice.
fn valid_slots(words: &[u64]) -> Option<BTreeMap<u64, u64>> {
    let mut list = BTreeMap::new();
    let marks = Snapshot::of(words[0]).map;
    for slot in (0..3).filter(|&slot| marks[slot] == MAP_VALID) {
        if list.insert(words[1 + slot], words[4 + slot]).is_some() {
            return None;
        }
    }
    Some(list)
}
