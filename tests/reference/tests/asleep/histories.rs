//! Random histories of opened boards, with a log of all that was done; and the numbers told from such a log alone.

use reference::desk::{Desk, Manner};
use reference::random::Random;
use reference::record::{INSERT, LOOK, REMOVE};

/// Something that was done, and by whom.
#[derive(Clone, Copy, Debug, PartialEq, Eq)]
pub enum Done {
    Start(usize),
    Turn {
        worker: usize,
        ended: bool,
    },
    Retire(usize),
    RefusedTurn,
    OtherRefusal,
    /// A show, a count or all orders.
    Question,
}

/// From which acts a worker's number counts, and what it counts.
pub struct Reading {
    pub begins: fn(&Done, usize) -> bool,
    pub counts: fn(&Done, usize) -> bool,
    /// Whether an idle worker has a number too.
    pub of_the_idle: bool,
}

pub fn is_own_turn(done: &Done, own: usize) -> bool {
    matches!(done, Done::Turn { worker, .. } if *worker == own)
}

pub fn is_turn_of_another(done: &Done, own: usize) -> bool {
    matches!(done, Done::Turn { worker, .. } if *worker != own)
}

/// §20.1.
pub const AS_LAID_DOWN: Reading = Reading {
    begins: |done, own| *done == Done::Start(own) || is_own_turn(done, own),
    counts: is_turn_of_another,
    of_the_idle: false,
};

/// Whether the log leaves this worker with a call.
fn is_busy(log: &[Done], worker: usize) -> bool {
    let own = |done: &&Done| {
        [Done::Start(worker), Done::Retire(worker)].contains(done) || is_own_turn(done, worker)
    };
    match log.iter().rev().find(own) {
        Some(Done::Start(_)) => true,
        Some(Done::Turn { ended, .. }) => !ended,
        _ => false,
    }
}

/// The number of this worker by this reading of the log.
pub fn number(reading: &Reading, log: &[Done], worker: usize) -> u32 {
    if !reading.of_the_idle && !is_busy(log, worker) {
        return 0;
    }
    let since = log
        .iter()
        .rev()
        .take_while(|done| !(reading.begins)(done, worker));
    since.filter(|done| (reading.counts)(done, worker)).count() as u32
}

pub struct History {
    pub desk: Desk,
    pub log: Vec<Done>,
    random: Random,
    lots: u64,
}

impl History {
    pub fn opened(seed: u64, manner: Manner) -> History {
        let mut random = Random::new(seed);
        let (w, n) = (1 + random.below(6), 1 + random.below(2));
        let version = random.pick(&[0, u32::MAX]);
        History {
            desk: Desk::opened(w, n, version, manner).unwrap(),
            log: Vec::new(),
            lots: n * (1 + random.below(4)),
            random,
        }
    }

    /// Something more is done, or refused; some do little and sleep long.
    pub fn go_on(&mut self) {
        let w = self.desk.floor.workers;
        let strangers = u64::from(self.random.once_in(8));
        let worker = self.random.below(w + strangers);
        match self.random.below(16) {
            0 => self.retire(worker),
            1 => self.ask(),
            2..=6 => self.start(worker),
            7 | 8 => self.run(),
            _ => {
                let worker = worker.min(self.random.below(w + strangers));
                self.turn(worker);
            }
        }
    }

    fn start(&mut self, worker: u64) {
        let kind = self.random.pick(&[LOOK, INSERT, INSERT, REMOVE]);
        let lot = self.random.below(self.lots);
        let ticket = self.desk.floor.last_ticket + self.random.pick(&[0, 1, 1, 1]);
        self.log
            .push(match self.desk.start(kind, worker, lot, ticket) {
                Ok(()) => Done::Start(worker as usize),
                Err(_) => Done::OtherRefusal,
            });
    }

    fn turn(&mut self, worker: u64) {
        self.log.push(match self.desk.turn(worker) {
            Ok(report) => Done::Turn {
                worker: worker as usize,
                ended: report.ended.is_some(),
            },
            Err(_) => Done::RefusedTurn,
        });
    }

    /// Some turns in a row of one worker after another.
    fn run(&mut self) {
        let w = self.desk.floor.workers;
        let mut turns = Vec::new();
        for _ in 0..self.random.below(4) {
            let worker = self.random.below(w) as u8;
            turns.extend(vec![worker; 1 + self.random.below(5) as usize]);
        }
        let log = &mut self.log;
        let (refusal, _) = self.desk.run(&turns, &mut |worker, _, report| {
            log.push(Done::Turn {
                worker: worker.into(),
                ended: report.ended.is_some(),
            });
        });
        if refusal != 0 {
            log.push(Done::RefusedTurn);
        }
    }

    fn retire(&mut self, worker: u64) {
        self.log.push(match self.desk.retire(worker) {
            Ok(()) => Done::Retire(worker as usize),
            Err(_) => Done::OtherRefusal,
        });
    }

    fn ask(&mut self) {
        let lot = self.random.below(self.lots);
        match self.random.below(3) {
            0 => drop(self.desk.show(lot).unwrap()),
            1 => drop(self.desk.count().unwrap()),
            // refused where the class is no small one
            _ => drop(self.desk.orders(4)),
        }
        self.log.push(Done::Question);
    }

    pub fn numbers(&self) -> Vec<u32> {
        let records = self.desk.list.records.iter();
        records.map(|record| record.asleep).collect()
    }

    /// The numbers that they would be by this reading.
    pub fn numbers_by(&self, reading: &Reading) -> Vec<u32> {
        let workers = 0..self.desk.list.records.len();
        workers
            .map(|worker| number(reading, &self.log, worker))
            .collect()
    }
}
