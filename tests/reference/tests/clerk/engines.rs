//! Desks that the checks can be tried on: the reference itself, and turns by the customers' table of places and retirings by their words,
//! over the reference's own types, as they are laid down or with one mistake of a trainee in it. Starts and refusals are the reference's in
//! all of them. The table keeps no index, and nothing that is given to the reference then comes so far that it would ask for one.

use reference::desk::{Desk, Manner, Refusal};
use reference::memory::Bucket;
use reference::record::{Record, IDLE, INSERT, LOOK, NONE};
use reference::report::{Action, Report};
use reference::word::*;

/// What a trainee writes instead.
#[derive(Clone, Copy, Debug, PartialEq, Eq)]
pub enum Flaw {
    /// Place 5 is skipped: an equal key is found at once, with the value seen before.
    OneReading,
    /// Places 7 and 8 are exchanged in what they store.
    KeyFirst,
    /// A swap does not compare, and always wins.
    BlindSwap,
    /// A lost commit forgets the held slot.
    ForgetsHeld,
    /// A retiring makes the worker idle and leaves its mark where it is.
    LeavesMark,
    /// A retiring takes the mark away and leaves the version as it is.
    LeavesVersion,
    /// A retiring makes its word of the one that the worker had in mind.
    WritesOwnWord,
}

#[derive(Clone, Copy, Debug, PartialEq, Eq)]
pub enum Engine {
    /// The reference, with code that lives.
    Figures,
    /// The table of places, retirings by their words, and what is wrong with them.
    Table(Option<Flaw>),
}

/// An opened desk and the engine that gives its turns and retires its workers.
pub struct Room {
    pub desk: Desk,
    engine: Engine,
}

impl Room {
    pub fn opened(engine: Engine, workers: u64, buckets: u64, version: u32) -> Room {
        // the table keeps a call in its record alone
        let manner = match engine {
            Engine::Figures => Manner::Living,
            Engine::Table(_) => Manner::Remade,
        };
        Room {
            desk: Desk::opened(workers, buckets, version, manner).unwrap(),
            engine,
        }
    }

    pub fn turn(&mut self, worker: u64) -> Result<Report, Refusal> {
        let record = self.desk.list.records.get_mut(worker as usize);
        match (self.engine, record) {
            (Engine::Table(flaw), Some(record)) if !record.is_idle() => {
                let number = (record.key % self.desk.floor.buckets) as usize;
                let report = turn_by_table(record, self.desk.board.bucket(number), flaw);
                self.wake(worker as usize);
                Ok(report)
            }
            _ => self.desk.turn(worker),
        }
    }

    /// §20.2, on an opened board, where nobody is broken and nobody sleeps so long that the number is held.
    fn wake(&mut self, worker: usize) {
        for (at, record) in self.desk.list.records.iter_mut().enumerate() {
            match record.kind {
                _ if at == worker => record.asleep = 0,
                IDLE => (),
                _ => record.asleep += 1,
            }
        }
    }

    pub fn retire(&mut self, worker: u64) -> Result<(), Refusal> {
        let record = self.desk.list.records.get_mut(worker as usize);
        match (self.engine, record) {
            (Engine::Table(flaw), Some(record)) if !record.is_idle() => {
                let number = (record.key % self.desk.floor.buckets) as usize;
                retire_by_words(record, self.desk.board.bucket(number), flaw);
                Ok(())
            }
            _ => self.desk.retire(worker),
        }
    }
}

fn retire_by_words(record: &mut Record, bucket: Bucket, flaw: Option<Flaw>) {
    let Record { word, held, .. } = std::mem::replace(record, Record::idle());
    if held == NONE {
        return;
    }
    let stood = bucket.snapshot();
    bucket.set_snapshot(match flaw {
        Some(Flaw::LeavesMark) => stood,
        Some(Flaw::LeavesVersion) => snap_set_map(stood, held, MAP_INVLD),
        Some(Flaw::WritesOwnWord) => snap_set_map_and_inc_version(word, held, MAP_INVLD),
        _ => snap_set_map_and_inc_version(stood, held, MAP_INVLD),
    });
}

fn turn_by_table(record: &mut Record, bucket: Bucket, flaw: Option<Flaw>) -> Report {
    let report = Report {
        bucket: bucket.number as u64,
        before: bucket.snapshot(),
        ..Report::none()
    };
    let mut step = Step {
        record,
        bucket,
        flaw,
        report,
    };
    step.take();
    step.report.after = step.bucket.snapshot();
    if step.report.ended.is_some() {
        *step.record = Record::idle();
    }
    step.report
}

/// One turn by the table, which a report is made of.
struct Step<'a> {
    record: &'a mut Record,
    bucket: Bucket,
    flaw: Option<Flaw>,
    report: Report,
}

impl Step<'_> {
    fn take(&mut self) {
        let Record {
            slot, word, held, ..
        } = *self.record;
        match self.record.place {
            1 => {
                self.record.word = self.bucket.snapshot();
                self.record.slot = 0;
                self.record.place = if self.record.kind == INSERT { 2 } else { 11 };
            }
            2 => {
                self.record.seen = self.bucket.val(slot);
                self.record.place = 3;
            }
            3 if self.bucket.map(slot) == MAP_VALID => self.record.place = 4,
            4 if self.bucket.key(slot) == self.record.key => {
                if self.flaw == Some(Flaw::OneReading) {
                    self.found();
                } else {
                    self.record.place = 5;
                }
            }
            3 | 4 if slot < 2 => {
                self.record.slot += 1;
                self.record.place = 2;
            }
            3 | 4 => self.look_is_empty(),
            5 => {
                let value = self.bucket.val(slot);
                if value == self.record.seen && value != 0 {
                    self.found();
                } else {
                    self.look_is_empty();
                }
            }
            6 => {
                let claimed = snap_set_map(word, slot, MAP_INSRT);
                if self.swaps(word, claimed) {
                    self.record.word = claimed;
                    self.record.held = slot;
                    self.record.place = 7;
                }
            }
            7 => {
                self.stores(self.flaw == Some(Flaw::KeyFirst));
                self.record.place = 8;
            }
            8 => {
                self.stores(self.flaw != Some(Flaw::KeyFirst));
                self.record.place = 9;
            }
            9 => {
                let expected = snap_set_map(word, held, MAP_INSRT);
                let committed = snap_set_map_and_inc_version(expected, held, MAP_VALID);
                if self.swaps(expected, committed) {
                    self.report.ended = Some(1);
                } else if self.flaw == Some(Flaw::ForgetsHeld) {
                    self.record.held = NONE;
                }
            }
            10 => {
                self.bucket.set_map(held, MAP_INVLD);
                self.report.action = Action::Store;
                self.report.change = true;
                self.report.ended = Some(0);
            }
            11 => {
                let valid = Snapshot::of(word).map[slot as usize] == MAP_VALID;
                if self.bucket.key(slot) == self.record.key && valid {
                    self.record.place = 12;
                } else if slot < 2 {
                    self.record.slot += 1;
                } else {
                    self.report.ended = Some(0);
                }
            }
            12 => {
                self.record.seen = self.bucket.val(slot);
                self.record.place = 13;
            }
            13 => {
                if self.swaps(word, snap_set_map(word, slot, MAP_INVLD)) {
                    self.report.ended = Some(self.record.seen);
                }
            }
            place => panic!("no turn at place {place}"),
        }
    }

    fn found(&mut self) {
        if self.record.kind == LOOK {
            self.report.ended = Some(self.record.seen);
        } else if self.record.held == NONE {
            self.report.ended = Some(0);
        } else {
            self.record.place = 10;
        }
    }

    fn look_is_empty(&mut self) {
        if self.record.kind == LOOK {
            self.report.ended = Some(0);
        } else if self.record.held != NONE {
            self.record.place = 9;
        } else if let Ok(slot) = u8::try_from(snap_get_empty_index(self.record.word)) {
            self.record.slot = slot;
            self.record.place = 6;
        } else {
            self.record.slot = 0;
            self.record.place = 1;
            self.report.full_round = true;
        }
    }

    fn stores(&mut self, key: bool) {
        let held = self.record.held;
        if key {
            self.bucket.set_key(held, self.record.key);
        } else {
            self.bucket.set_val(held, self.record.ticket);
        }
        self.report.action = Action::Store;
    }

    /// Whether the swap wins; one that loses goes to place 1.
    fn swaps(&mut self, expected: u64, new: u64) -> bool {
        let wins = self.bucket.snapshot() == expected || self.flaw == Some(Flaw::BlindSwap);
        if wins {
            self.bucket.set_snapshot(new);
            self.report.action = Action::Won;
            self.report.change = true;
        } else {
            self.record.place = 1;
            self.report.action = Action::Lost;
        }
        wins
    }
}
