//! Moves to another board (item 10 of the second document): the stored ones by its sentences, read once more, and other readings told apart;
//! and in random histories of opened boards, that the clerk keeps the list, that every call finds what stands there, and that the third
//! demand counts from the move on.

#[path = "moves/readings.rs"]
mod readings;

use readings::{full_reading, Left, AS_LAID_DOWN, OTHERS};
use reference::case::{Case, MOVE};
use reference::cases;
use reference::desk::{Desk, Manner};
use reference::index::Index;
use reference::memory::Board;
use reference::outcome::{outcome, Outcome};
use reference::random::Random;
use reference::record::{Record, INSERT, LOOK, REMOVE};
use reference::report::Action;
use std::collections::{BTreeMap, BTreeSet};

const MANNERS: [Manner; 2] = [Manner::Living, Manner::Remade];

// ---- any board

fn stored_moves() -> Vec<(Case, Outcome)> {
    let cases = cases::stored().into_iter();
    let cases = cases.map(|piece| Case::read(&piece[2..]));
    let moves = cases.filter(|case| case.call == MOVE);
    moves.map(|case| (case.clone(), outcome(&case))).collect()
}

fn left(came: &Outcome) -> Left {
    Left {
        number: came.answer.number(),
        floor: came.floor,
        second: came.second.clone(),
        index: came.index.clone(),
    }
}

/// Whatever it comes to, the old board and the records stay.
#[test]
fn stored_moves_go_by_the_sentences() {
    let mut numbers = BTreeMap::new();
    for (case, came) in stored_moves() {
        assert_eq!(AS_LAID_DOWN.after(&case), left(&came), "{case:?}");
        assert_eq!(came.board, case.board);
        assert_eq!(came.records, case.list.records);
        *numbers.entry(came.answer.number()).or_insert(0) += 1;
    }
    println!("{numbers:?}");
    for number in [0, 1, 3, 7, 12, 13] {
        assert!(numbers[&number] > 50);
    }
}

/// Each of these is wrong, and some stored case shows it.
#[test]
fn other_readings_are_told_apart() {
    let moves = stored_moves();
    for (name, reading) in OTHERS {
        let is_wrong = |(case, came): &&(Case, Outcome)| reading.after(case) != left(came);
        let count = moves.iter().filter(is_wrong).count();
        println!("{count:5} {name}");
        assert!(count > 0, "{name}");
    }
}

/// On any sound board, and on such boards with one thing spoilt.
#[test]
fn any_move_goes_by_the_sentences() {
    let mut random = Random::new(50);
    let mut numbers = BTreeSet::new();
    for _ in 0..20_000 {
        let (w, n) = (random.few(), 1 + random.below(6));
        let mut case = random.sound_sized(MOVE, w, n);
        match random.below(8) {
            0 => case.worker = random.below(8),
            1 => case.board = random.board(n),
            2 => case.list.records[0] = random.any_record(),
            3 => case.list.records[0].slot = random.slot(),
            4 => case.board[8 * random.below(n) as usize] = random.word(),
            5 => {
                let word = case.board[0] & 0xffff_ffff | 0x0001_0101_0000_0000;
                case.board
                    .iter_mut()
                    .step_by(8)
                    .for_each(|mark| *mark = word);
            }
            6 => case.index[random.below(5) as usize] = random.any(),
            _ => (),
        }
        let came = outcome(&case);
        assert_eq!(AS_LAID_DOWN.after(&case), left(&came), "{case:?}");
        numbers.insert(came.answer.number());
    }
    assert_eq!(numbers, BTreeSet::from([0, 1, 3, 7, 12, 13]));
}

/// Of several reasons the first, and each alone; then it is done.
#[test]
fn refusals_in_their_order() {
    for manner in MANNERS {
        let mut desk = Desk::opened(3, 4, 9, manner).unwrap();
        for (ticket, lot) in (1..).zip([0, 1, 2, 3, 6]) {
            desk.start(INSERT, 0, lot, ticket).unwrap();
            while desk.turn(0).is_ok() {}
        }
        let second = Board::of(&[7; 8]);
        desk.list.records[2].slot = 1;
        desk.start(LOOK, 1, 0, 0).unwrap();
        desk.board.set(31, 1);
        for n in [0, 2, 257, u64::MAX] {
            assert_eq!(desk.move_to(&second, n), Err(1));
        }
        desk.index.0.push(0);
        assert_eq!(desk.move_to(&second, 1), Err(1));
        desk.index.0.pop();
        assert_eq!(desk.move_to(&second, 1), Err(3));
        desk.list.records[2] = Record::idle();
        assert_eq!(desk.move_to(&second, 1), Err(12));
        desk.retire(1).unwrap();
        assert_eq!(desk.move_to(&second, 1), Err(7));
        desk.board.set(31, 0);
        assert_eq!(desk.move_to(&second, 1), Err(13));
        assert_eq!(second.words(), [7; 8]);
        let three = Board::of(&[7; 24]);
        let (floor, old) = (desk.floor, desk.board.clone());
        let words = old.words();
        assert_eq!(desk.move_to(&three, 3), Ok(()));
        let mark = |lots: &[u64]| 9 + lots.iter().map(|slot| 1 << (32 + 8 * slot)).sum::<u64>();
        assert_eq!(
            three.words(),
            [
                [mark(&[0, 1, 2]), 0, 6, 3, 1, 5, 4, 0],
                [mark(&[0]), 1, 0, 0, 2, 0, 0, 0],
                [mark(&[0]), 2, 0, 0, 3, 0, 0, 0],
            ]
            .concat()
        );
        assert_eq!(old.words(), words);
        assert_eq!(desk.index, Index(vec![5, 7, 0, 0, 0]));
        assert_eq!((desk.floor.buckets, desk.floor.version), (3, 9));
        assert_eq!(desk.floor.last_ticket, floor.last_ticket);
        // turns are on the new board from now on
        assert_eq!(desk.start(INSERT, 0, 4, 5), Err(5));
        desk.start(INSERT, 0, 4, 6).unwrap();
        while desk.turn(0).is_ok() {}
        assert_eq!(three.words()[8..10], [mark(&[0, 1]) + 1, 1]);
        assert_eq!((three.words()[10], three.words()[13]), (4, 6));
        assert_eq!(old.words(), words);
    }
}

// ---- opened boards

/// A history of an opened board, with the clerk's list, and what was counted since the opening or the last move.
struct History {
    desk: Desk,
    random: Random,
    clerk: BTreeMap<u64, u64>,
    inserts: u64,
    removes: u64,
    lost: u64,
    /// The numbers that moves came to.
    numbers: BTreeMap<u8, u64>,
    /// Moves after which a call was done.
    gone_on: u64,
}

impl History {
    fn opened(seed: u64, manner: Manner) -> History {
        let mut random = Random::new(seed);
        let (w, n) = (1 + random.below(3), 1 + random.below(4));
        let version = random.version();
        History {
            desk: Desk::opened(w, n, version, manner).unwrap(),
            random,
            clerk: BTreeMap::new(),
            inserts: 0,
            removes: 0,
            lost: 0,
            numbers: BTreeMap::new(),
            gone_on: 0,
        }
    }

    fn go_on(&mut self) {
        let worker = self.random.below(self.desk.floor.workers);
        let record = self.desk.list.records[worker as usize];
        let idle = self.desk.list.records.iter().all(Record::is_idle);
        if self.random.once_in(if idle { 3 } else { 40 }) {
            return self.move_on(idle);
        }
        if record.is_idle() {
            let kind = self.random.pick(&[LOOK, INSERT, INSERT, REMOVE]);
            let lot = self.random.below(9);
            let ticket = self.desk.floor.last_ticket + 1;
            self.inserts += u64::from(kind == INSERT);
            self.removes += u64::from(kind == REMOVE);
            return self.desk.start(kind, worker, lot, ticket).unwrap();
        }
        if self.random.once_in(30) {
            return self.desk.retire(worker).unwrap();
        }
        for _ in 0..1 + self.random.below(12) {
            if !self.turn(worker) {
                return;
            }
        }
    }

    /// Whether the call goes on.
    fn turn(&mut self, worker: u64) -> bool {
        let record = self.desk.list.records[worker as usize];
        let report = self.desk.turn(worker).unwrap();
        match (record.place, report.action) {
            (9, Action::Won) => {
                let before = self.clerk.insert(record.key, record.ticket);
                assert_eq!(before, None);
            }
            (13, Action::Won) => assert_eq!(self.clerk.remove(&record.key), report.ended),
            _ => (),
        }
        self.lost += u64::from(report.action == Action::Lost);
        let w = self.desk.floor.workers;
        assert!(self.lost <= (w - 1) * (2 * self.inserts + self.removes));
        self.gone_on += u64::from(report.ended.is_some() && !self.numbers.is_empty());
        report.ended.is_none()
    }

    /// A move to any number of buckets, where somebody is busy perhaps.
    fn move_on(&mut self, idle: bool) {
        let n = self.random.pick(&[1, 1, 2, 3, 4, 5, 64, 65, 256]);
        let second = Board::of(&vec![self.random.value(); 8 * n as usize]);
        let (floor, old) = (self.desk.floor, self.desk.board.clone());
        let words = (old.words(), second.words());
        let moved = self.desk.move_to(&second, n);
        *self.numbers.entry(moved.err().unwrap_or(0)).or_default() += 1;
        assert_eq!(old.words(), words.0);
        let crowded =
            (0..n).any(|bucket| self.clerk.keys().filter(|&lot| lot % n == bucket).count() > 3);
        assert_eq!(
            moved,
            if !idle {
                Err(12)
            } else if crowded {
                Err(13)
            } else {
                Ok(())
            }
        );
        match moved {
            Err(_) => {
                assert_eq!((self.desk.floor, second.words()), (floor, words.1));
                assert_eq!(self.desk.board.words(), words.0);
            }
            Ok(()) => {
                assert_eq!(self.desk.floor.buckets, n);
                (self.inserts, self.removes, self.lost) = (0, 0, 0);
            }
        }
    }

    /// The valid slots are the clerk's list, each lot in its own bucket, and the index tells of them.
    fn assert_list(&self) {
        let words = self.desk.board.words();
        let mut valid = BTreeMap::new();
        for (bucket, words) in (0..).zip(words.chunks(8)) {
            let marks = words[0].to_le_bytes();
            for slot in (0..3).filter(|slot| marks[4 + slot] == 1) {
                let (lot, ticket) = (words[1 + slot], words[4 + slot]);
                assert_eq!(lot % self.desk.floor.buckets, bucket);
                assert_eq!(valid.insert(lot, ticket), None);
            }
        }
        assert_eq!(valid, self.clerk);
        assert_eq!(self.desk.index.0, full_reading(&words));
    }
}

#[test]
fn the_clerk_keeps_the_list() {
    let (mut numbers, mut gone_on) = (BTreeMap::new(), 0);
    for manner in MANNERS {
        for seed in 0..300 {
            let mut history = History::opened(seed, manner);
            for _ in 0..200 {
                history.go_on();
                history.assert_list();
            }
            for (number, count) in history.numbers {
                *numbers.entry(number).or_insert(0) += count;
            }
            gone_on += history.gone_on;
        }
    }
    println!("{numbers:?}, {gone_on} calls after a move");
    // neither 1 nor 3, and 7 never where everybody is idle
    assert_eq!(numbers.keys().copied().collect::<Vec<u8>>(), [0, 12, 13]);
    assert!(numbers.values().all(|&count| count > 100) && gone_on > 1_000);
}

/// Every look after a move ends with the lot's ticket, or with 0.
#[test]
fn what_stood_there_is_found() {
    for manner in MANNERS {
        for (n, to) in [(1, 256), (256, 1), (2, 3), (3, 2), (256, 256), (1, 1)] {
            let mut desk = Desk::opened(1, n, u32::MAX, manner).unwrap();
            let lots = [u64::MAX, 0, 300];
            for (ticket, lot) in (1..).zip(lots) {
                desk.start(INSERT, 0, lot, ticket).unwrap();
                while desk.turn(0).is_ok() {}
            }
            for n in [to, n] {
                let second = Board::of(&vec![5; 8 * n as usize]);
                desk.move_to(&second, n).unwrap();
                for (lot, ticket) in [(u64::MAX, 1), (0, 2), (300, 3), (7, 0)] {
                    desk.start(LOOK, 0, lot, 0).unwrap();
                    let mut ended = None;
                    while let Ok(report) = desk.turn(0) {
                        ended = report.ended;
                    }
                    assert_eq!(ended, Some(ticket));
                }
                assert_eq!((desk.total(), desk.count()), (Ok(3), Ok(3)));
            }
        }
    }
}
