//! Retiring a worker (item 7 of the second document): what it refuses and what it leaves, on opened boards; and every history of small
//! classes with retirings anywhere, by the third demand, by the clerk, and by whether the word that a retired worker's commit expects can
//! come back. It cannot, since the version is counted on; with the version left it can. That is all the version is for: the other two hold
//! without it.

#[path = "retirings/histories.rs"]
mod histories;
#[path = "retirings/watch.rs"]
mod watch;

use histories::Act::{self, *};
use histories::{retire, Class, Rule, Walked};
use reference::case::{Case, RETIRE};
use reference::desk::{Desk, Manner};
use reference::outcome::brought;
use reference::random::Random;
use reference::record::{Record, INSERT, LOOK, NONE, REMOVE};
use reference::report::Action;
use watch::Wrong;

const MANNERS: [Manner; 2] = [Manner::Living, Manner::Remade];
const KINDS: &[u8] = &[LOOK, INSERT, REMOVE];
const EVERYTHING: &[Wrong] = &[Wrong::ThirdDemand, Wrong::Clerk, Wrong::Again];

// ---- what it refuses and what it leaves

/// Of several reasons the first, and each alone; then it is done.
#[test]
fn refusals_in_their_order() {
    let mut random = Random::new(7);
    let mut case = random.sound_sized(RETIRE, 3, 1);
    let number = |case: &Case| brought(case).retire(case.worker).err();
    let holder = random.holding_record();
    case.list.records.fill(holder);
    case.list.records[2].slot = 3;
    case.board[7] = 1;
    case.list.length = 2;
    for worker in [0, 2, 3] {
        case.worker = worker;
        assert_eq!(number(&case), Some(1));
    }
    case.list.length = 3;
    assert_eq!(number(&case), Some(2));
    case.worker = 2;
    assert_eq!(number(&case), Some(3));
    case.list.records[2] = Record::idle();
    assert_eq!(number(&case), Some(6));
    case.list.records[2] = holder;
    assert_eq!(number(&case), Some(7));
    // with nothing held the bucket is not looked at
    case.list.records[2] = random.record(REMOVE, 13);
    assert_eq!(number(&case), None);
    case.list.records[2] = holder;
    case.board[7] = 0;
    assert_eq!(number(&case), None);
}

/// Two buckets, and two lots of the second: one stands, and of the other a call is made, which has had so many turns.
fn stopped(manner: Manner, version: u32, kind: u8, turns: usize) -> Desk {
    let mut desk = Desk::opened(2, 2, version, manner).unwrap();
    desk.start(INSERT, 1, 7, 1).unwrap();
    while desk.turn(1).is_ok() {}
    desk.start(kind, 0, 9, 2).unwrap();
    for _ in 0..turns {
        desk.turn(0).unwrap();
    }
    desk
}

/// The worker is idle and has no turn, it can have another call, the ticket stays spent, and of the board only the mark word of a held slot
/// is another: the claim's mark is gone, and the version one more than before it.
fn retired_after(mut desk: Desk, kind: u8, holds: bool) {
    let (floor, mut words) = (desk.floor, desk.board.words());
    assert_eq!(desk.list.records[0].held != NONE, holds);
    if holds {
        words[8] = (words[8] - (2 << 40)) & 0xffff_ffff_0000_0000
            | u64::from((words[8] as u32).wrapping_add(1));
    }
    assert_eq!(desk.retire(0), Ok(()));
    assert_eq!(desk.board.words(), words);
    assert_eq!((desk.floor, desk.count()), (floor, Ok(1)));
    assert_eq!(desk.list.records, [Record::idle(); 2]);
    assert_eq!(desk.turn(0), Err(6));
    assert_eq!(desk.retire(0), Err(6));
    assert_eq!(desk.start(INSERT, 0, 9, floor.last_ticket), Err(5));
    assert_eq!(desk.start(kind, 0, 9, 3), Ok(()));
}

#[test]
fn after_each_turn() {
    for manner in MANNERS {
        for version in [0, u32::MAX - 1, u32::MAX] {
            for (kind, most) in [(LOOK, 6), (INSERT, 11), (REMOVE, 3)] {
                for turns in 0..=most {
                    let desk = stopped(manner, version, kind, turns);
                    // the ninth turn of the insert is its claim
                    retired_after(desk, kind, kind == INSERT && turns >= 9);
                }
            }
        }
    }
}

/// A lot and a ticket that were stored stay in the empty slot, where nothing finds them, as those of a closed lot do.
#[test]
fn what_was_stored_counts_for_nothing() {
    for manner in MANNERS {
        let mut desk = stopped(manner, 0, INSERT, 11);
        desk.retire(0).unwrap();
        assert_eq!(
            desk.board.words()[8..],
            [(1 << 32) + 2, 7, 9, 0, 1, 2, 0, 0]
        );
        for (kind, answer) in [(LOOK, 0), (REMOVE, 0), (INSERT, 1)] {
            desk.start(kind, 0, 9, 3).unwrap();
            let ended = (0..13).find_map(|_| desk.turn(0).unwrap().ended);
            assert_eq!(ended, Some(answer));
        }
        assert_eq!(
            desk.board.words()[8..],
            [(1 << 32) + (1 << 40) + 3, 7, 9, 0, 1, 3, 0, 0]
        );
    }
}

// ---- the word of a dead container

/// The mark word after each of these acts, on one bucket that is opened at version 0 for two; and the desk in the end.
fn words_of(acts: &[Act], rule: Rule) -> (Vec<u64>, Desk) {
    let mut desk = Desk::opened(2, 1, 0, Manner::Remade).unwrap();
    let mut words = Vec::new();
    for &act in acts {
        match act {
            Start(worker, kind, lot) => {
                let ticket = desk.floor.last_ticket + 1;
                desk.start(kind, worker, lot, ticket).unwrap();
            }
            Turn(worker) => drop(desk.turn(worker).unwrap()),
            Retire(worker) => retire(&mut desk, worker, rule),
        }
        words.push(desk.board.words()[0]);
    }
    (words, desk)
}

/// An act so often.
fn times(act: Act, count: usize) -> Vec<Act> {
    vec![act; count]
}

/// Worker 0 claims a slot for lot 7, and its container dies after so many turns. It is retired, and worker 1 claims a slot for lot 8.
fn dead_and_claimed(turns: usize) -> Vec<Act> {
    [
        vec![Start(0, INSERT, 7)],
        times(Turn(0), turns),
        vec![Retire(0), Start(1, INSERT, 8)],
        times(Turn(1), 8),
    ]
    .concat()
}

/// Mark 2 in slot 0, with version 0 and with version 1.
const CLAIMED: u64 = 8_589_934_592;
const CLAIMED_LATER: u64 = 8_589_934_593;

/// The shortest way for the word to come back: nothing with fewer acts has it. The second insert can be the same worker's just as well, and
/// of any lot.
#[test]
fn the_shortest_way_back() {
    let acts = dead_and_claimed(8);
    let (left, _) = words_of(&acts, Rule::VersionLeft);
    let expected = [vec![0; 8], vec![CLAIMED], vec![0; 9], vec![CLAIMED]].concat();
    assert_eq!(left, expected);
    let (counted, _) = words_of(&acts, Rule::AsLaidDown);
    let expected = [vec![0; 8], vec![CLAIMED], vec![1; 9], vec![CLAIMED_LATER]].concat();
    assert_eq!(counted, expected);
    let (wrong, found) = small(Rule::VersionLeft).walk().wrong.unwrap();
    assert_eq!((wrong, found.len()), (Wrong::Again, acts.len()));
}

/// A container that returns all the same, after its worker was retired, with its commit still to do: its record is put back. With the
/// version left its swap wins, and there is a valid lot in a slot that another holds; as it is, its swap is lost.
#[test]
fn a_commit_that_comes_too_late() {
    for (rule, action, word) in [
        (Rule::VersionLeft, Action::Won, 4_294_967_297),
        (Rule::AsLaidDown, Action::Lost, CLAIMED_LATER),
    ] {
        let acts = dead_and_claimed(10);
        let (_, dead) = words_of(&acts[..11], rule);
        let (_, mut desk) = words_of(&acts, rule);
        desk.list.records[0] = dead.list.records[0];
        assert_eq!(desk.list.records[0].place, 9);
        assert_eq!(desk.list.records[1].held, 0);
        let report = desk.turn(0).unwrap();
        assert_eq!((report.action, report.after), (action, word));
    }
}

// ---- every history of small classes

fn small(rule: Rule) -> Class {
    Class {
        workers: 2,
        standing: &[],
        calls: 2,
        kinds: KINDS,
        lots: &[7, 8],
        rule,
        judged: EVERYTHING,
    }
}

fn assert_all_right(class: Class) {
    let walked = class.walk();
    let Walked {
        states,
        acts,
        longest,
        ..
    } = walked;
    println!("{class:?}: {states} states, {acts} acts, the furthest after {longest}");
    assert_eq!(walked.wrong, None);
    assert!(states > 1_000);
}

/// Classes that take less than a second together. With more calls there are classes below that take longer.
fn small_classes(rule: Rule, judged: &'static [Wrong]) -> [Class; 3] {
    let class = Class {
        judged,
        ..small(rule)
    };
    [
        class,
        Class {
            calls: 3,
            kinds: &[INSERT, REMOVE],
            lots: &[7],
            ..class
        },
        Class {
            standing: &[8, 9],
            lots: &[7, 9],
            ..class
        },
    ]
}

#[test]
fn every_history_of_small_classes() {
    for class in small_classes(Rule::AsLaidDown, EVERYTHING) {
        assert_all_right(class);
    }
}

#[test]
fn the_version_is_for_the_word_alone() {
    for class in small_classes(Rule::VersionLeft, &[Wrong::ThirdDemand, Wrong::Clerk]) {
        assert_all_right(class);
    }
}

/// So each of these can be found.
#[test]
fn wrong_rules_are_found() {
    for (rule, judged) in [
        (Rule::VersionLeft, Wrong::Again),
        (Rule::AlwaysCounted, Wrong::ThirdDemand),
        (Rule::OwnWord, Wrong::Clerk),
    ] {
        let found = small_classes(rule, EVERYTHING)
            .into_iter()
            .find_map(|class| class.walk().wrong);
        let (wrong, acts) = found.expect("a wrong rule is found");
        println!("{rule:?}: {wrong:?} after {acts:?}");
        assert_eq!(wrong, judged);
    }
}

/// Larger classes, for whoever has some minutes and asks for them: `tests/reference/run larger`.
#[test]
#[ignore]
fn every_history_of_larger_classes() {
    for (rule, judged) in [
        (Rule::AsLaidDown, EVERYTHING),
        (Rule::VersionLeft, &[Wrong::ThirdDemand, Wrong::Clerk]),
    ] {
        let class = Class {
            judged,
            calls: 3,
            ..small(rule)
        };
        for standing in [&[][..], &[7], &[8, 9], &[8, 9, 10]] {
            assert_all_right(Class { standing, ..class });
        }
        let changing = Class {
            kinds: &[INSERT, REMOVE],
            lots: &[7],
            ..class
        };
        for (workers, calls, standing) in [
            (2, 4, &[][..]),
            (2, 4, &[8, 9]),
            (2, 5, &[]),
            (3, 3, &[]),
            (3, 3, &[7]),
            (3, 3, &[8, 9]),
        ] {
            assert_all_right(Class {
                workers,
                calls,
                standing,
                ..changing
            });
        }
        assert_all_right(Class { calls: 4, ..class });
        assert_all_right(Class {
            workers: 3,
            ..class
        });
    }
}
