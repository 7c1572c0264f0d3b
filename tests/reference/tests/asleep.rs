//! Who has been asleep (item 8 of the second document): in random histories of opened boards the numbers are those that the log of what was
//! done tells, and other readings of the rule are told apart by the same histories; on records of any sort a turn touches whom it must, in
//! this number alone, and nothing else asks for it.

#[path = "asleep/histories.rs"]
mod histories;
mod sleeper;

use histories::{is_own_turn, is_turn_of_another, Done, History, Reading, AS_LAID_DOWN};
use reference::case::{Case, ORDERS, RETIRE, TURN};
use reference::desk::{Desk, Manner};
use reference::outcome::brought;
use reference::random::Random;
use reference::record::{Record, INSERT, LOOK, REMOVE};
use reference::report::Action;
use std::collections::{BTreeSet, HashSet};
use std::mem::discriminant;

const MANNERS: [Manner; 2] = [Manner::Living, Manner::Remade];
const LAST: u32 = 4_294_967_295;
const ENDS: [u32; 4] = [0, 1, LAST - 1, LAST];

// ---- opened boards

const ACTS: usize = 400;

fn each_history(mut look_at: impl FnMut(&mut History)) {
    for manner in MANNERS {
        for seed in 0..1_000 {
            look_at(&mut History::opened(seed, manner));
        }
    }
}

/// After each turn, run, start, retiring, show, count and all orders, done or refused.
#[test]
fn numbers_are_what_the_log_tells() {
    let (mut longest, mut asleep) = (0, BTreeSet::new());
    each_history(|history| {
        for _ in 0..ACTS {
            history.go_on();
            assert_eq!(history.numbers(), history.numbers_by(&AS_LAID_DOWN));
            for record in &history.desk.list.records {
                assert!(!record.is_broken());
                longest = longest.max(record.asleep);
                if record.asleep > 0 {
                    asleep.insert((record.kind, record.place));
                }
            }
        }
    });
    println!("asleep for {longest} turns at most");
    assert!(longest > 50);
    // four places of a look, ten of an insert, four of a remove
    assert_eq!(asleep.len(), 4 + 10 + 4);
}

/// Of others a turn leaves all else, and what is no turn leaves their numbers too.
#[test]
fn others_are_touched_by_turns_in_their_numbers_alone() {
    let mut met = HashSet::new();
    each_history(|history| {
        for _ in 0..ACTS {
            let (length, before) = (history.log.len(), history.desk.list.records.clone());
            history.go_on();
            // a run can be several acts, or none
            if let [done] = history.log[length..] {
                assert_touched_by(done, &before, &history.desk.list.records);
                met.insert(discriminant(&done));
            }
        }
    });
    assert_eq!(met.len(), 6);
}

fn assert_touched_by(done: Done, before: &[Record], after: &[Record]) {
    let own = match done {
        Done::Start(worker) | Done::Retire(worker) | Done::Turn { worker, .. } => Some(worker),
        _ => None,
    };
    for (worker, (before, after)) in before.iter().zip(after).enumerate() {
        match done {
            _ if Some(worker) == own => assert_eq!(after.asleep, 0),
            Done::Turn { .. } => assert_eq!(after.awake(), before.awake()),
            _ => assert_eq!(after, before),
        }
    }
}

/// Each of these is wrong, and there is a history that shows it.
#[test]
fn other_readings_are_told_apart() {
    let readings = [
        (
            "from the start alone",
            Reading {
                begins: |done, own| *done == Done::Start(own),
                ..AS_LAID_DOWN
            },
        ),
        (
            "from the last turn alone",
            Reading {
                begins: is_own_turn,
                ..AS_LAID_DOWN
            },
        ),
        (
            "own turns too",
            Reading {
                begins: |done, own| *done == Done::Start(own),
                counts: |done, _| matches!(done, Done::Turn { .. }),
                ..AS_LAID_DOWN
            },
        ),
        (
            "no turn that ends a call",
            Reading {
                counts: |done, own| {
                    is_turn_of_another(done, own) && matches!(done, Done::Turn { ended: false, .. })
                },
                ..AS_LAID_DOWN
            },
        ),
        (
            "starts too",
            Reading {
                counts: |done, own| is_turn_of_another(done, own) || matches!(done, Done::Start(_)),
                ..AS_LAID_DOWN
            },
        ),
        (
            "retirings too",
            Reading {
                counts: |done, own| {
                    is_turn_of_another(done, own) || matches!(done, Done::Retire(_))
                },
                ..AS_LAID_DOWN
            },
        ),
        (
            "refused turns too",
            Reading {
                counts: |done, own| is_turn_of_another(done, own) || *done == Done::RefusedTurn,
                ..AS_LAID_DOWN
            },
        ),
        (
            "questions too",
            Reading {
                counts: |done, own| is_turn_of_another(done, own) || *done == Done::Question,
                ..AS_LAID_DOWN
            },
        ),
        (
            "of the idle too",
            Reading {
                of_the_idle: true,
                ..AS_LAID_DOWN
            },
        ),
    ];
    let mut missing: BTreeSet<&str> = readings.iter().map(|(name, _)| *name).collect();
    each_history(|history| {
        for _ in 0..ACTS {
            history.go_on();
        }
        let numbers = history.numbers();
        for (name, reading) in &readings {
            if history.numbers_by(reading) != numbers {
                missing.remove(name);
            }
        }
    });
    assert_eq!(missing, BTreeSet::new());
}

/// §10.6: the sleeper has its third turn as turn 14, and its next is turn 30.
#[test]
fn the_sleeper() {
    for manner in MANNERS {
        let mut numbers = Vec::new();
        let mut desk = sleeper::asleep(manner, |desk, _| numbers.push(desk.list.records[1].asleep));
        // idle for eleven turns, then three of its own, then fifteen of the other
        let expected = [vec![0; 11 + 3], (1..=15).collect()].concat();
        assert_eq!(numbers, expected);
        assert_eq!(desk.turn(1).unwrap().action, Action::Lost);
        assert_eq!(desk.list.records[1].asleep, 0);
    }
}

/// Everybody of 64 starts, and then each has a turn, from the first to the last, and once more.
#[test]
fn a_round_of_the_longest_list() {
    for manner in MANNERS {
        let mut desk = Desk::opened(64, 3, 0, manner).unwrap();
        for worker in 0..64 {
            desk.start(LOOK, worker, worker, 0).unwrap();
        }
        let round: Vec<u8> = (0..64).collect();
        for _ in 0..2 {
            assert_eq!(desk.run(&round, &mut |_, _, _| ()).0, 0);
            for (worker, record) in (0..64).zip(&desk.list.records) {
                assert_eq!(record.asleep, 63 - worker);
            }
        }
    }
}

/// A retired worker has no number, and begins with none when it starts again.
#[test]
fn a_sleeper_is_retired() {
    for manner in MANNERS {
        let mut desk = Desk::opened(2, 1, 0, manner).unwrap();
        desk.start(INSERT, 0, 7, 1).unwrap();
        desk.start(INSERT, 1, 8, 2).unwrap();
        for _ in 0..5 {
            desk.turn(1).unwrap();
        }
        assert_eq!(desk.list.records[0].asleep, 5);
        desk.retire(0).unwrap();
        assert_eq!(desk.list.records[0], Record::idle());
        desk.turn(1).unwrap();
        desk.start(REMOVE, 0, 7, 0).unwrap();
        assert_eq!(desk.list.records[0].asleep, 0);
        desk.turn(1).unwrap();
        assert_eq!(desk.list.records[0].asleep, 1);
    }
}

// ---- records of any sort

/// A record that is idle but for this number.
fn idle_but_for(asleep: u32) -> Record {
    Record {
        asleep,
        ..Record::idle()
    }
}

/// Busy, idle and broken ones, one of the last for its number alone.
fn any_record(random: &mut Random) -> Record {
    let sound = random.any_record();
    match random.below(6) {
        0 => Record::idle(),
        1 => Record { slot: 3, ..sound },
        2 => Record { kind: 4, ..sound },
        3 => idle_but_for(random.asleep().max(1)),
        _ => sound,
    }
}

/// A turn that is accepted, of one worker of any list.
fn any_turn(random: &mut Random) -> Case {
    let w = 1 + random.below(5);
    let mut case = random.sound_sized(TURN, w, 2);
    for at in (0..w).filter(|&at| at != case.worker) {
        case.list.records[at as usize] = any_record(random);
    }
    case
}

/// The number after a turn of somebody else, by sentences and not by the record's own functions.
fn counted_on(record: &Record) -> u32 {
    let busy = (1..=3).contains(&record.kind) && record.slot <= 2;
    match record.asleep {
        number if busy && number < LAST => number + 1,
        number => number,
    }
}

#[test]
fn a_turn_beside_anybody() {
    let mut random = Random::new(20);
    let mut met = BTreeSet::new();
    for _ in 0..20_000 {
        let case = any_turn(&mut random);
        let mut desk = brought(&case);
        desk.turn(case.worker).unwrap();
        for (at, record) in case.list.records.iter().enumerate() {
            let after = desk.list.records[at];
            if at as u64 == case.worker {
                assert_eq!(after.asleep, 0);
                continue;
            }
            let asleep = counted_on(record);
            assert_eq!(after, Record { asleep, ..*record });
            met.insert((
                record.is_idle(),
                record.is_broken(),
                ENDS.iter().position(|&end| end == record.asleep),
            ));
        }
    }
    // an idle one; busy and broken ones at each end and elsewhere
    assert_eq!(met.len(), 1 + 2 * 5);
}

/// Whatever the numbers are, a turn reports and leaves the same.
#[test]
fn no_turn_asks_for_a_number() {
    let mut random = Random::new(21);
    for _ in 0..5_000 {
        let mut case = random.sound_sized(TURN, 3, 2);
        let (mut one, worker) = (brought(&case), case.worker);
        for record in case.list.records.iter_mut().filter(|it| !it.is_idle()) {
            record.asleep = random.asleep();
        }
        let mut other = brought(&case);
        assert_eq!(one.turn(worker), other.turn(worker));
        assert_eq!(one.board.words(), other.board.words());
        assert_eq!(one.floor, other.floor);
        let all_else = |desk: &Desk| -> Vec<Record> {
            let records = desk.list.records.iter();
            records.map(|record| record.awake()).collect()
        };
        assert_eq!(all_else(&one), all_else(&other));
    }
}

/// Nor does the walk of all orders.
#[test]
fn all_orders_from_any_numbers() {
    let mut random = Random::new(22);
    for _ in 0..500 {
        let mut case = random.sound_sized(ORDERS, 3, 1);
        let depth = 1 + random.below(10);
        let walks = brought(&case).orders(depth).unwrap();
        for record in case.list.records.iter_mut().filter(|it| !it.is_idle()) {
            record.asleep = random.asleep();
        }
        let desk = brought(&case);
        assert_eq!(desk.orders(depth), Ok(walks));
        assert_eq!(desk.list, case.list);
    }
}

#[test]
fn held_at_the_last_number() {
    for manner in MANNERS {
        let mut desk = Desk::opened(2, 1, 0, manner).unwrap();
        desk.start(INSERT, 0, 7, 1).unwrap();
        desk.start(LOOK, 1, 7, 0).unwrap();
        desk.list.records[1].asleep = LAST - 3;
        for number in [LAST - 2, LAST - 1, LAST, LAST, LAST] {
            desk.turn(0).unwrap();
            assert_eq!(desk.list.records[1].asleep, number);
        }
        assert_eq!(desk.run(&[0; 4], &mut |_, _, _| ()).0, 0);
        assert_eq!(desk.list.records[1].asleep, LAST);
        desk.turn(1).unwrap();
        assert_eq!(desk.list.records[1].asleep, 0);
    }
}

/// §3.7: of the busy none is broken by it.
#[test]
fn any_number_in_a_busy_record() {
    let mut random = Random::new(23);
    for _ in 0..20_000 {
        let record = random.any_record();
        for asleep in ENDS {
            let record = Record { asleep, ..record };
            assert!(!record.is_broken() && !record.is_idle());
        }
    }
}

/// §3.3: of the idle each is, and each call that asks for such a record gives 3.
#[test]
fn a_number_in_an_idle_record() {
    let mut random = Random::new(24);
    for asleep in [1, 2, 256, 65_536, LAST - 1, LAST] {
        let record = idle_but_for(asleep);
        assert!(record.is_broken() && !record.is_idle());
        let mut case = random.sound_sized(RETIRE, 3, 1);
        case.list.records = vec![random.any_record(), record, random.any_record()];
        let list = case.list.clone();
        for kind in [LOOK, INSERT, REMOVE] {
            let mut desk = brought(&case);
            assert_eq!(desk.start(kind, 1, 7, u64::MAX), Err(3));
            assert_eq!(desk.list, list);
        }
        let mut desk = brought(&case);
        assert_eq!(desk.turn(1), Err(3));
        assert_eq!(desk.run(&[1, 0], &mut |_, _, _| ()).0, 3);
        assert_eq!(desk.retire(1), Err(3));
        assert_eq!(desk.orders(4), Err(3));
        assert_eq!(desk.list, list);
        assert!(desk.count().is_ok() && desk.show(7).is_ok());
        // a turn of another leaves it as it is, and an opening makes it idle
        desk.turn(0).unwrap();
        assert_eq!(desk.list.records[1], record);
        desk.open(3, 1, 0).unwrap();
        assert_eq!(desk.list.records, [Record::idle(); 3]);
    }
}
