//! Random histories of opened boards, of which every act in a bucket is told with the index before it.

use crate::readings::{Act, RETIRED};
use reference::desk::{Desk, Manner, Refusal};
use reference::random::Random;
use reference::record::{INSERT, LOOK, NONE, REMOVE};
use reference::report::Report;

/// Boards that end in every word of bits, and often one that has all bits.
const SIZES: [u64; 14] = [1, 2, 3, 63, 64, 65, 100, 128, 130, 192, 200, 256, 256, 256];

pub struct History {
    pub desk: Desk,
    pub random: Random,
    /// Every act in a bucket that was done since the history began, over all openings.
    pub acts: Vec<Act>,
    /// Every number that refused something.
    pub refusals: Vec<Refusal>,
    /// Few buckets, so that calls meet in them; some at the ends of words.
    buckets: Vec<u64>,
}

/// How many slots of a board are valid, by its bytes.
pub fn valid_on(words: &[u64]) -> u64 {
    let marks = words.iter().step_by(8).flat_map(|word| {
        let bytes = word.to_le_bytes();
        [bytes[4], bytes[5], bytes[6]]
    });
    marks.filter(|&mark| mark == 1).count() as u64
}

impl History {
    pub fn opened(seed: u64, manner: Manner) -> History {
        let mut random = Random::new(seed);
        let (w, n) = (1 + random.below(5), random.pick(&SIZES));
        let version = random.pick(&[0, 7, u32::MAX]);
        let ends = [0, 63, 64, 127, 128, 191, 192, 255, n - 1, n / 2];
        let buckets = (0..2 + random.below(4)).map(|_| random.pick(&ends) % n);
        let buckets = buckets.collect();
        History {
            desk: Desk::opened(w, n, version, manner).unwrap(),
            random,
            acts: Vec::new(),
            refusals: Vec::new(),
            buckets,
        }
    }

    /// Something more is done, or refused.
    pub fn go_on(&mut self) {
        let w = self.desk.floor.workers;
        let strangers = u64::from(self.random.once_in(8));
        let worker = self.random.below(w + strangers);
        match self.random.below(200) {
            0 => self.open_again(),
            1..=6 => self.retire(worker),
            7..=60 => self.start(worker),
            61..=90 => self.run(),
            _ => drop(self.turn(worker)),
        }
    }

    /// The same floor once more, at another version; or one of a size that is refused.
    fn open_again(&mut self) {
        let (w, n) = (self.desk.floor.workers, self.desk.floor.buckets);
        let version = self.random.any() as u32;
        let wrong = self.random.pick(&[0, 0, 1]);
        let opened = self.desk.open(w + wrong, n, version);
        self.refusals.extend(opened.err());
    }

    fn start(&mut self, worker: u64) {
        let n = self.desk.floor.buckets;
        let kind = self
            .random
            .pick(&[LOOK, INSERT, INSERT, INSERT, INSERT, REMOVE]);
        let lot = n * self.random.below(4) + self.random.pick(&self.buckets);
        let ticket = self.desk.floor.last_ticket + self.random.pick(&[0, 1, 1, 1, 1]);
        let started = self.desk.start(kind, worker, lot, ticket);
        self.refusals.extend(started.err());
    }

    /// What a worker's act would be told as, before it is done.
    fn act_of(&self, worker: u64) -> Option<Act> {
        let record = self.desk.list.records.get(worker as usize)?;
        let bucket = record.key % self.desk.floor.buckets;
        let words = self.desk.board.words();
        let word = words[8 * bucket as usize];
        Some(Act {
            n: self.desk.floor.buckets,
            bucket,
            words: [word; 2],
            place: record.place,
            index: self.desk.index.0.clone().try_into().unwrap(),
            on_board: valid_on(&words),
        })
    }

    fn turn(&mut self, worker: u64) -> Option<Report> {
        let act = self.act_of(worker);
        match self.desk.turn(worker) {
            Ok(report) => {
                let words = [report.before, report.after];
                let act = act.expect("whoever has a turn has a record");
                self.acts.push(Act { words, ..act });
                Some(report)
            }
            Err(number) => {
                self.refusals.push(number);
                None
            }
        }
    }

    /// Some turns in a row of one worker after another. What its turns did is not told singly.
    fn run(&mut self) {
        let w = self.desk.floor.workers;
        let mut turns = Vec::new();
        for _ in 0..self.random.below(4) {
            let worker = self.random.below(w) as u8;
            turns.extend(vec![worker; 1 + self.random.below(12) as usize]);
        }
        let (refusal, _) = self.desk.run(&turns, &mut |_, _, _| ());
        self.refusals.extend((refusal != 0).then_some(refusal));
    }

    fn retire(&mut self, worker: u64) {
        let act = self.act_of(worker);
        let records = &self.desk.list.records;
        let held = records.get(worker as usize).map(|record| record.held);
        match self.desk.retire(worker) {
            Ok(()) if held == Some(NONE) => (),
            Ok(()) => {
                let act = act.expect("whoever is retired has a record");
                let after = self.desk.board.words()[8 * act.bucket as usize];
                self.acts.push(Act {
                    words: [act.words[0], after],
                    place: RETIRED,
                    ..act
                });
            }
            Err(number) => self.refusals.push(number),
        }
    }
}
