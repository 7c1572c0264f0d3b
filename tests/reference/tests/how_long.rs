//! How many turns a call can last, tried by running: a look beside anything at all, a remove and an insert of a worker who is alone. Alone
//! means that from the start of the call to its end nobody else has a turn, and nobody is retired who holds a slot; the others stand
//! wherever they were stopped, may even start calls, and are retired where they hold nothing. On code that lives and on code made anew from
//! the records.

use reference::desk::{Desk, Manner};
use reference::index::Index;
use reference::random::Random;
use reference::record::{INSERT, LOOK, NONE, REMOVE};
use reference::report::Report;
use reference::word::{Snapshot, MAP_INVLD, MAP_VALID};
use std::collections::BTreeSet;

/// All lengths of a look: two turns at a slot that is not valid, three at one with another lot, four at the one where it ends.
const LOOK_TURNS: [usize; 6] = [4, 6, 7, 8, 9, 10];

/// All lengths of a remove alone: the mark word and three keys; or the mark word, one to three keys, the value and the swap.
const REMOVE_TURNS: [usize; 3] = [4, 5, 6];

/// All lengths of an insert alone that ends: the mark word and a look that finds; or the mark word, a look past two other lots at most, the
/// claim, two stores and the commit.
const INSERT_TURNS: [usize; 8] = [5, 7, 8, 9, 10, 11, 12, 13];

/// After so many turns alone an insert is taken for one that goes round for ever.
const LONG: usize = 300;

/// The mark word and three other lots.
const LONGEST_ROUND: usize = 1 + 3 * 3;

fn on_both(trial: impl Fn(Manner)) {
    for manner in [Manner::Living, Manner::Remade] {
        trial(manner);
    }
}

/// An opened desk at which random calls are made.
struct Room {
    desk: Desk,
    random: Random,
    /// How many turns each worker's call has had.
    turns: Vec<usize>,
    /// How many turns the looks had that have ended.
    looks: BTreeSet<usize>,
}

impl Room {
    fn opened(seed: u64, manner: Manner) -> Room {
        let mut random = Random::new(seed);
        let (w, n) = (1 + random.below(4), 1 + random.below(3));
        let any = random.any() as u32;
        let version = random.pick(&[0, u32::MAX, any]);
        Room {
            desk: Desk::opened(w, n, version, manner).unwrap(),
            random,
            turns: vec![0; w as usize],
            looks: BTreeSet::new(),
        }
    }

    /// One of four lots for each bucket, which has room for three.
    fn any_lot(&mut self) -> u64 {
        self.random.below(4 * self.desk.floor.buckets)
    }

    fn any_idle_worker(&mut self) -> Option<u64> {
        let workers = 0..self.desk.floor.workers;
        let idle: Vec<u64> = workers.filter(|&worker| self.is_idle(worker)).collect();
        (!idle.is_empty()).then(|| self.random.pick(&idle))
    }

    fn is_idle(&self, worker: u64) -> bool {
        self.desk.list.records[worker as usize].is_idle()
    }

    /// Starts a call; an insert gets a fresh ticket.
    fn start(&mut self, kind: u8, worker: u64, lot: u64) {
        let ticket = self.desk.floor.last_ticket + 1;
        assert_eq!(self.desk.start(kind, worker, lot, ticket), Ok(()));
        self.turns[worker as usize] = 0;
    }

    fn start_any_call(&mut self, worker: u64) {
        let kind = self.random.pick(&[LOOK, INSERT, INSERT, REMOVE]);
        let lot = self.any_lot();
        self.start(kind, worker, lot);
    }

    /// A turn of a busy worker, which nothing refuses. A look is measured at each of its turns.
    fn turn(&mut self, worker: u64) -> Report {
        let at = worker as usize;
        let kind = self.desk.list.records[at].kind;
        let report = match self.desk.turn(worker) {
            Ok(report) => report,
            Err(refusal) => panic!("busy worker {worker} is refused by {refusal}"),
        };
        self.turns[at] += 1;
        if kind == LOOK {
            self.measure_look(self.turns[at], report.ended.is_some());
        }
        report
    }

    fn measure_look(&mut self, turns: usize, ended: bool) {
        if ended {
            assert!((4..=10).contains(&turns), "a look ends at turn {turns}");
            self.looks.insert(turns);
        } else {
            assert!(turns < 10, "a look goes on after turn {turns}");
        }
    }

    /// A busy worker is retired, which nothing refuses.
    fn retire(&mut self, worker: u64) {
        assert_eq!(self.desk.retire(worker), Ok(()));
        assert!(self.is_idle(worker));
    }

    /// So many times a worker is chosen, who may start a call if idle, and if busy then has some turns in a row, and may be retired after
    /// them.
    fn make_history(&mut self, length: usize) {
        for _ in 0..length {
            let worker = self.random.below(self.desk.floor.workers);
            if self.is_idle(worker) && self.random.once_in(4) {
                self.start_any_call(worker);
            }
            for _ in 0..self.random.below(9) {
                if !self.is_idle(worker) {
                    self.turn(worker);
                }
            }
            if !self.is_idle(worker) && self.random.once_in(12) {
                self.retire(worker);
            }
        }
    }

    /// Writes anything to the lot's bucket that does not break it (§2.7).
    fn overwrite_bucket(&mut self, lot: u64) {
        let marks = Snapshot {
            version: self.random.any() as u32,
            map: [(); 3].map(|()| self.random.below(3) as u8),
            byte_7: 0,
        };
        let keys = [(); 3].map(|()| self.any_lot());
        let values = [(); 3].map(|()| self.random.below(3));
        let words = [&[marks.snapshot()][..], &keys, &values, &[0]].concat();
        let (start, _) = self.desk.show(lot).unwrap();
        for (at, word) in words.into_iter().enumerate() {
            self.desk.board.set(start + at, word);
        }
        // else the index would refuse the next turn
        self.desk.index = Index::counted(&self.desk.board.words());
    }

    /// The kinds and places of the calls that stand in the lot's bucket.
    fn stopped_beside(&self, lot: u64) -> Vec<(u8, u8)> {
        let bucket = |lot: u64| lot % self.desk.floor.buckets;
        let records = self.desk.list.records.iter();
        records
            .filter(|record| !record.is_idle() && bucket(record.key) == bucket(lot))
            .map(|record| (record.kind, record.place))
            .collect()
    }

    /// Whether the lot's bucket has an empty slot, or the lot is valid there.
    fn lets_insert_end(&self, lot: u64) -> bool {
        let (_, part) = self.desk.show(lot).unwrap();
        let marks = Snapshot::of(part[0]).map;
        let keys = &part[1..4];
        (0..3).any(|slot| marks[slot] == MAP_INVLD || marks[slot] == MAP_VALID && keys[slot] == lot)
    }

    /// A turn of a worker who is alone, before which another may start a call, or be retired if it holds nothing.
    fn turn_alone(&mut self, worker: u64) -> Report {
        if self.random.once_in(8) {
            if let Some(other) = self.any_idle_worker() {
                self.start_any_call(other);
            }
        }
        let other = self.random.below(self.desk.floor.workers);
        let holds_nothing = self.desk.list.records[other as usize].held == NONE;
        if other != worker && !self.is_idle(other) && holds_nothing && self.random.once_in(4) {
            self.retire(other);
        }
        self.turn(worker)
    }

    /// The turn that ends the call of a worker who is alone, if one of so many does.
    fn ends_within(&mut self, most: usize, worker: u64) -> Option<usize> {
        (1..=most).find(|_| self.turn_alone(worker).ended.is_some())
    }

    /// A long time alone with a call, which makes full rounds and does not end.
    fn goes_round(&mut self, worker: u64) {
        let mut rounds = 0;
        for _ in 0..LONG {
            let report = self.turn_alone(worker);
            assert_eq!(report.ended, None);
            rounds += usize::from(report.full_round);
        }
        assert!(rounds >= LONG / LONGEST_ROUND);
    }
}

/// Again and again in random histories: an idle worker and a lot, for a call alone. Beside it calls are stopped at every place there is.
fn each_alone(manner: Manner, mut call: impl FnMut(&mut Room, u64, u64)) {
    let mut beside = BTreeSet::new();
    for seed in 0..2_000 {
        let mut room = Room::opened(seed, manner);
        for _ in 0..50 {
            room.make_history(3);
            let lot = room.any_lot();
            if let Some(worker) = room.any_idle_worker() {
                beside.extend(room.stopped_beside(lot));
                call(&mut room, worker, lot);
            }
        }
    }
    // four places of a look, ten of an insert, four of a remove
    assert_eq!(beside.len(), 4 + 10 + 4);
}

/// So many rooms are played, and the looks in them meet all lengths and no other.
fn looks_of_all_lengths(rooms: u64, play: impl Fn(&mut Room)) {
    on_both(|manner| {
        let mut looks = BTreeSet::new();
        for seed in 0..rooms {
            let mut room = Room::opened(seed, manner);
            play(&mut room);
            looks.append(&mut room.looks);
        }
        assert_eq!(looks, BTreeSet::from(LOOK_TURNS));
    });
}

#[test]
fn a_look_in_any_history() {
    looks_of_all_lengths(1_000, |room| room.make_history(400));
}

/// Before each turn of the look its whole bucket is overwritten, which no call could do.
#[test]
fn a_look_against_a_hostile_hand() {
    looks_of_all_lengths(20_000, |room| {
        let lot = room.any_lot();
        room.start(LOOK, 0, lot);
        while !room.is_idle(0) {
            room.overwrite_bucket(lot);
            room.turn(0);
        }
    });
}

#[test]
fn a_remove_alone() {
    on_both(|manner| {
        let mut removes = BTreeSet::new();
        each_alone(manner, |room, worker, lot| {
            room.start(REMOVE, worker, lot);
            let turns = room.ends_within(6, worker);
            removes.insert(turns.expect("a remove alone ends"));
        });
        assert_eq!(removes, BTreeSet::from(REMOVE_TURNS));
    });
}

#[test]
fn an_insert_alone() {
    on_both(|manner| {
        let mut inserts = BTreeSet::new();
        let mut endless = 0;
        each_alone(manner, |room, worker, lot| {
            let ends = room.lets_insert_end(lot);
            room.start(INSERT, worker, lot);
            if ends {
                let turns = room.ends_within(13, worker);
                inserts.insert(turns.expect("such an insert alone ends"));
            } else {
                room.goes_round(worker);
                endless += 1;
            }
        });
        assert_eq!(inserts, BTreeSet::from(INSERT_TURNS));
        assert!(endless > 0);
    });
}

/// How many turns a call of the only worker has.
fn turns_of(desk: &mut Desk, kind: u8, lot: u64) -> Option<usize> {
    let ticket = desk.floor.last_ticket + 1;
    desk.start(kind, 0, lot, ticket).unwrap();
    (1..=LONG).find(|_| desk.turn(0).unwrap().ended.is_some())
}

/// One bucket is filled: each call comes to its longest, and a look to its shortest too.
#[test]
fn the_figures_themselves() {
    on_both(|manner| {
        let mut desk = Desk::opened(1, 1, 0, manner).unwrap();
        for (kind, lot, turns) in [
            (INSERT, 7, 11),
            (INSERT, 8, 12),
            (INSERT, 9, 13),
            (LOOK, 9, 10),
            (LOOK, 7, 4),
            (REMOVE, 9, 6),
        ] {
            assert_eq!(turns_of(&mut desk, kind, lot), Some(turns));
        }
    });
}

/// A desk of two on one bucket, on which lots 7 and 8 stand and worker 1 holds the third slot.
fn with_a_holder(manner: Manner) -> Desk {
    let mut desk = Desk::opened(2, 1, 0, manner).unwrap();
    for lot in [7, 8] {
        assert!(turns_of(&mut desk, INSERT, lot).is_some());
    }
    let ticket = desk.floor.last_ticket + 1;
    desk.start(INSERT, 1, 9, ticket).unwrap();
    while desk.list.records[1].held == NONE {
        desk.turn(1).unwrap();
    }
    desk
}

/// The turn that ends the call of worker 0, if worker 1, who holds a slot, is retired before this one.
fn turns_with_a_retiring(desk: &mut Desk, before: usize) -> Option<usize> {
    (1..=LONG).find(|&turn| {
        if turn == before {
            desk.retire(1).unwrap();
        }
        desk.turn(0).unwrap().ended.is_some()
    })
}

/// A held slot that is freed is a change by the one who held it (§11.3): whoever meets it is not alone, and can need longer. A remove's
/// swap at its fifth turn is lost, and it begins again.
#[test]
fn a_retiring_with_a_held_slot_can_make_a_swap_lose() {
    on_both(|manner| {
        for (before, turns) in [(1, 5), (2, 10), (5, 10), (6, 5)] {
            let mut desk = with_a_holder(manner);
            desk.start(REMOVE, 0, 8, 0).unwrap();
            assert_eq!(turns_with_a_retiring(&mut desk, before), Some(turns));
        }
    });
}

/// While the holder is dead the bucket has two slots, and an insert of a third lot goes round and round. It ends once the slot is freed.
#[test]
fn an_insert_that_waits_for_a_dead_container() {
    on_both(|manner| {
        let mut desk = with_a_holder(manner);
        let ticket = desk.floor.last_ticket + 1;
        desk.start(INSERT, 0, 10, ticket).unwrap();
        // the mark word, two other lots, and a slot that is being inserted
        let round = 1 + 3 + 3 + 2;
        for turn in 1..=20 * round {
            let report = desk.turn(0).unwrap();
            assert_eq!(report.full_round, turn % round == 0);
        }
        assert_eq!(turns_with_a_retiring(&mut desk, 1), Some(round + 4));
        assert_eq!(desk.count(), Ok(3));
    });
}
