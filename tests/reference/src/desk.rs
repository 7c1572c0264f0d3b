//! The desk: floor, board, list and index, and every call with its refusals in their order.

use crate::call::Call;
use crate::index::Index;
use crate::memory::{Board, Bucket, BUCKET_WORDS};
use crate::moving::{keeps_back, laid_out, standing};
use crate::orders::{Walking, Walks};
use crate::record::{Record, INSERT, NONE};
use crate::report::{Ran, Report};
use crate::word::{snap_set_map_and_inc_version, MAP_INVLD};

/// A number of refusal.
pub type Refusal = u8;

/// §2.1: the ranges of W and N.
pub const MOST_WORKERS: u64 = 64;
pub const MOST_BUCKETS: u64 = 256;

/// §4.10: the most turns of a run.
pub const MOST_TURNS: usize = 65_535;

/// §6.10: a small class, of which all orders are walked.
pub const SMALL_BUCKETS: u64 = 1;
pub const SMALL_WORKERS: u64 = 3;
pub const MOST_DEPTH: u64 = 24;

/// §2.1.
#[derive(Clone, Copy, Debug, PartialEq, Eq)]
pub struct Floor {
    pub workers: u64,
    pub buckets: u64,
    pub last_ticket: u64,
    /// The opening's, which every board has that a move comes to.
    pub version: u32,
}

/// The lent list: its length may be any number, and then only its first records are there to be seen.
#[derive(Clone, Debug, PartialEq, Eq)]
pub struct List {
    pub length: u64,
    pub records: Vec<Record>,
}

/// Whether a call's code lives from its start to its end, or is made anew from the record at each turn.
#[derive(Clone, Copy, Debug, PartialEq, Eq)]
pub enum Manner {
    Living,
    Remade,
}

pub struct Desk {
    pub floor: Floor,
    pub board: Board,
    pub list: List,
    pub index: Index,
    manner: Manner,
    calls: Vec<Option<Call>>,
}

impl Desk {
    /// A desk as somebody brings it; nothing in it is running.
    pub fn brought(floor: Floor, words: &[u64], list: List, index: Index, manner: Manner) -> Desk {
        let mut calls = Vec::new();
        calls.resize_with(list.records.len(), || None);
        Desk {
            floor,
            board: Board::of(words),
            list,
            index,
            manner,
            calls,
        }
    }

    /// A desk with room for `w` workers and `n` buckets, opened.
    pub fn opened(w: u64, n: u64, version: u32, manner: Manner) -> Result<Desk, Refusal> {
        let floor = Floor {
            workers: 0,
            buckets: 0,
            last_ticket: 0,
            version: 0,
        };
        let words = vec![0; BUCKET_WORDS * n.min(MOST_BUCKETS) as usize];
        let list = List {
            length: w,
            records: vec![Record::idle(); w.min(MOST_WORKERS) as usize],
        };
        let mut desk = Desk::brought(floor, &words, list, Index::made(), manner);
        desk.open(w, n, version)?;
        Ok(desk)
    }

    /// §2.10; refused by 1 only.
    pub fn open(&mut self, w: u64, n: u64, version: u32) -> Result<(), Refusal> {
        self.measure(w, n)?;
        self.measure_list(w)?;
        self.measure_index()?;
        self.board.clear(version);
        self.list.records.fill(Record::idle());
        self.calls.fill_with(|| None);
        self.index = Index::made();
        self.floor = Floor {
            workers: w,
            buckets: n,
            last_ticket: 0,
            version,
        };
        Ok(())
    }

    /// §22: all lots go to a second lent board of `n` buckets, which is the desk's from then on. The one that it
    /// had stays as it is. Refused by 1, 3, 12, 7 and 13, in this order.
    pub fn move_to(&mut self, second: &Board, n: u64) -> Result<(), Refusal> {
        self.measure_all()?;
        measure_board(second, n)?;
        if self.list.records.iter().any(Record::is_broken) {
            return Err(3);
        }
        if !self.list.records.iter().all(Record::is_idle) {
            return Err(12);
        }
        if self.board.buckets().any(|bucket| keeps_back(&bucket)) {
            return Err(7);
        }
        let board = laid_out(&standing(&self.board), n, self.floor.version).ok_or(13)?;
        let words = board.words();
        for (at, &word) in words.iter().enumerate() {
            second.set(at, word);
        }
        self.board = second.clone();
        self.index = Index::counted(&words);
        self.floor.buckets = n;
        Ok(())
    }

    /// §3.4; refused as §7.2 has it.
    pub fn start(&mut self, kind: u8, worker: u64, lot: u64, ticket: u64) -> Result<(), Refusal> {
        self.measure(self.floor.workers, self.floor.buckets)?;
        self.measure_list(self.floor.workers)?;
        let at = self.sound_worker(worker)?;
        if !self.list.records[at].is_idle() {
            return Err(4);
        }
        if kind == INSERT && ticket <= self.floor.last_ticket {
            return Err(5);
        }
        let ticket = if kind == INSERT { ticket } else { 0 };
        let call = Call::start(kind, lot, ticket, self.bucket_of(lot));
        self.list.records[at] = call.record();
        self.keep(at, Some(call));
        if kind == INSERT {
            self.floor.last_ticket = ticket;
        }
        Ok(())
    }

    /// §4.1; refused as §7.2 has it.
    pub fn turn(&mut self, worker: u64) -> Result<Report, Refusal> {
        self.measure_all()?;
        let at = self.sound_worker(worker)?;
        let record = self.list.records[at];
        if record.is_idle() {
            return Err(6);
        }
        let bucket = self.touched(record.key)?;
        let valid = bucket.valid_slots();
        let mut call = match self.calls[at].take() {
            Some(call) => call,
            None => Call::resume(&record, bucket.clone()),
        };
        let report = call.turn();
        self.keep_index(&bucket, valid);
        self.list.records[at] = match report.ended {
            Some(_) => Record::idle(),
            None => call.record(),
        };
        self.keep(at, report.ended.is_none().then_some(call));
        self.others_sleep_on(at);
        Ok(report)
    }

    /// §20.2.
    fn others_sleep_on(&mut self, awake: usize) {
        for (at, record) in self.list.records.iter_mut().enumerate() {
            if at != awake {
                *record = record.slept_on();
            }
        }
    }

    /// §4.10; refused as §7.2 has it. `told` hears of each turn done, with the record before it.
    pub fn run(
        &mut self,
        turns: &[u8],
        told: &mut dyn FnMut(u8, &Record, &Report),
    ) -> (Refusal, Ran) {
        let mut ran = Ran::none();
        if let Err(refusal) = self.measure_all() {
            return (refusal, ran);
        }
        if turns.len() > MOST_TURNS {
            return (9, ran);
        }
        for &worker in turns {
            let before = self.list.records.get(worker as usize).copied();
            match self.turn(u64::from(worker)) {
                Err(refusal) => return (refusal, ran),
                Ok(report) => {
                    ran.add(&report);
                    told(worker, &before.expect("a worker of the list"), &report);
                }
            }
        }
        (0, ran)
    }

    /// Item 7 of the second document; refused as §7.2 has it. The call is dropped where it stands, and no turn tells of it.
    pub fn retire(&mut self, worker: u64) -> Result<(), Refusal> {
        self.measure_all()?;
        let at = self.sound_worker(worker)?;
        let record = self.list.records[at];
        if record.is_idle() {
            return Err(6);
        }
        if record.held != NONE {
            self.free(record.key, record.held)?;
        }
        self.list.records[at] = Record::idle();
        self.keep(at, None);
        Ok(())
    }

    /// Takes a retired worker's mark away, whichever it is, and counts the version on in the same act. The word is the one that stands:
    /// what the worker had in mind does not matter.
    fn free(&mut self, lot: u64, held: u8) -> Result<(), Refusal> {
        let bucket = self.touched(lot)?;
        let valid = bucket.valid_slots();
        let freed = snap_set_map_and_inc_version(bucket.snapshot(), held, MAP_INVLD);
        bucket.set_snapshot(freed);
        self.keep_index(&bucket, valid);
        Ok(())
    }

    /// 7 and 11; the bucket that a turn or a retiring touches, which is the lot's.
    fn touched(&self, lot: u64) -> Result<Bucket, Refusal> {
        let bucket = self.bucket_of(lot);
        if bucket.is_broken() {
            return Err(7);
        }
        let (number, valid) = (bucket.number as u64, bucket.valid_slots());
        if !self.index.agrees(number, valid, self.floor.buckets) {
            return Err(11);
        }
        Ok(bucket)
    }

    /// §21.2, after something was done in a bucket that had so many valid slots before.
    fn keep_index(&mut self, bucket: &Bucket, before: u64) {
        self.index
            .keep(bucket.number as u64, before, bucket.valid_slots());
    }

    /// §2.8: where the lot's bucket starts on the board, and its words.
    pub fn show(&self, lot: u64) -> Result<(usize, Vec<u64>), Refusal> {
        self.measure(self.floor.workers, self.floor.buckets)?;
        if self.bucket_of(lot).is_broken() {
            return Err(7);
        }
        let start = BUCKET_WORDS * (lot % self.floor.buckets) as usize;
        Ok((
            start,
            self.board.words()[start..start + BUCKET_WORDS].to_vec(),
        ))
    }

    /// §2.9: a lot that is being inserted is not on the board yet; refused as §7.2 has it.
    pub fn count(&self) -> Result<u64, Refusal> {
        self.measure(self.floor.workers, self.floor.buckets)?;
        if self.board.buckets().any(|bucket| bucket.is_broken()) {
            return Err(7);
        }
        Ok(self
            .board
            .buckets()
            .map(|bucket| bucket.valid_slots())
            .sum())
    }

    /// §21.3: by the index alone, whatever the board is; refused by 1 only.
    pub fn total(&self) -> Result<u64, Refusal> {
        self.measure(self.floor.workers, self.floor.buckets)?;
        self.measure_index()?;
        Ok(self.index.total())
    }

    /// §21.4: likewise.
    pub fn next_occupied(&self, from: u64) -> Result<Option<u64>, Refusal> {
        self.measure(self.floor.workers, self.floor.buckets)?;
        self.measure_index()?;
        Ok(self.index.next_occupied(from, self.floor.buckets))
    }

    /// §18: all orders to the depth; refused as §7.2 has it.
    pub fn orders(&self, depth: u64) -> Result<Walks, Refusal> {
        let mut walking = self.outset(depth)?;
        for _ in 0..depth {
            walking.go_on(&mut |_, _| ());
        }
        Ok(walking.walks())
    }

    /// The same, before the first turn.
    pub fn outset(&self, depth: u64) -> Result<Walking, Refusal> {
        self.measure(self.floor.workers, self.floor.buckets)?;
        self.measure_list(self.floor.workers)?;
        if !self.is_small_class() || !(1..=MOST_DEPTH).contains(&depth) {
            return Err(10);
        }
        if self.list.records.iter().any(Record::is_broken) {
            return Err(3);
        }
        if self.board.bucket(0).is_broken() {
            return Err(7);
        }
        Ok(Walking::outset(self))
    }

    /// §6.10, but for the depth.
    fn is_small_class(&self) -> bool {
        self.floor.workers <= SMALL_WORKERS && self.floor.buckets <= SMALL_BUCKETS
    }

    /// §6.1, of what every call is given.
    fn measure(&self, w: u64, n: u64) -> Result<(), Refusal> {
        (1..=MOST_WORKERS).contains(&w).then_some(()).ok_or(1)?;
        measure_board(&self.board, n)
    }

    /// §6.1, where a call is given a list.
    fn measure_list(&self, w: u64) -> Result<(), Refusal> {
        (self.list.length == w).then_some(()).ok_or(1)
    }

    /// §6.1, where a call is given an index.
    fn measure_index(&self) -> Result<(), Refusal> {
        self.index.is_sized().then_some(()).ok_or(1)
    }

    /// §6.1, where a call is given both.
    fn measure_all(&self) -> Result<(), Refusal> {
        self.measure(self.floor.workers, self.floor.buckets)?;
        self.measure_list(self.floor.workers)?;
        self.measure_index()
    }

    /// 2 and 3; where the worker's record stands in the list.
    fn sound_worker(&self, worker: u64) -> Result<usize, Refusal> {
        if worker >= self.floor.workers {
            return Err(2);
        }
        let at = worker as usize;
        if self.list.records[at].is_broken() {
            return Err(3);
        }
        Ok(at)
    }

    /// §2.4.
    fn bucket_of(&self, lot: u64) -> Bucket {
        self.board.bucket((lot % self.floor.buckets) as usize)
    }

    fn keep(&mut self, at: usize, call: Option<Call>) {
        self.calls[at] = match self.manner {
            Manner::Living => call,
            Manner::Remade => None,
        };
    }
}

/// §6.1, of a board and its N.
fn measure_board(board: &Board, n: u64) -> Result<(), Refusal> {
    let sized = (1..=MOST_BUCKETS).contains(&n) && board.len() as u64 == BUCKET_WORDS as u64 * n;
    sized.then_some(()).ok_or(1)
}
