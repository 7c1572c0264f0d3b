//! Directed cases: who has been asleep (§20). Turns and runs beside the busy, the idle and the broken, wherever they stand in the list; from
//! every end of the number; and all that counts as no turn.

use super::build::{mark_word, places, set_bucket};
use super::refusals::{break_bucket, broken_record, refute_index, spoil_size};
use super::Bodies;
use crate::case::{Case, COUNT, INSERT, LOOK, NEXT, OPEN, ORDERS, REMOVE, RETIRE, RUN, SHOW, TURN};
use crate::desk::{Desk, Manner};
use crate::record::{Record, NONE};

/// The ends of the number.
const ENDS: [u32; 4] = [0, 1, u32::MAX - 1, u32::MAX];

/// Numbers of which one more is carried into another byte.
const CARRIES: [u32; 4] = [255, 65_535, 16_777_215, 2_147_483_647];

pub fn make(bodies: &mut Bodies) {
    for call in [TURN, RUN] {
        numbers(bodies, call);
        every_place(bodies, call);
        positions(bodies, call);
        longest_lists(bodies, call);
        buckets(bodies, call);
        nobody_to_count(bodies, call);
        own_number(bodies, call);
    }
    runs_of_several(bodies);
    to_the_last_number(bodies);
    longest_run(bodies);
    no_turn(bodies);
    refused(bodies);
    the_sleeper(bodies);
}

/// A sound busy record with this number.
fn asleep(bodies: &mut Bodies, asleep: u32) -> Record {
    Record {
        asleep,
        ..bodies.random.any_record()
    }
}

/// A turn, or a run of one, for this worker of a list of these records.
fn push(bodies: &mut Bodies, call: u8, worker: usize, records: &[Record]) {
    let n = bodies.random.few();
    let mut case = bodies.random.sound_sized(call, records.len() as u64, n);
    case.list.records = records.to_vec();
    (case.worker, case.turns) = (worker as u64, vec![worker as u8]);
    bodies.push(case);
}

/// Beside one with each number, and beside a broken one with it.
fn numbers(bodies: &mut Bodies, call: u8) {
    for number in [ENDS, CARRIES].concat() {
        let (own, other) = (bodies.random.any_record(), asleep(bodies, number));
        let broken = Record { slot: 3, ..other };
        push(bodies, call, 1, &[other, own]);
        push(bodies, call, 0, &[own, broken, Record::idle()]);
    }
}

/// Beside a call of every kind at each of its places.
fn every_place(bodies: &mut Bodies, call: u8) {
    for kind in [LOOK, INSERT, REMOVE] {
        for &place in places(kind) {
            let own = bodies.random.any_record();
            let other = bodies.random.record(kind, place);
            push(bodies, call, 0, &[own, other]);
        }
    }
}

/// Everybody of a short list is busy, and the turn is each one's once; then with somebody else idle and somebody broken.
fn positions(bodies: &mut Bodies, call: u8) {
    for w in 2..=5 {
        for worker in 0..w {
            let mut records = vec![Record::idle(); w];
            records.fill_with(|| bodies.random.any_record());
            push(bodies, call, worker, &records);
            if w > 2 {
                records[(worker + 1) % w] = Record::idle();
                records[(worker + 2) % w] = broken_record(&mut bodies.random);
                push(bodies, call, worker, &records);
            }
        }
    }
}

/// Everybody of 64 is busy: one is like another, so that the lines are short, and in one list none is.
fn longest_lists(bodies: &mut Bodies, call: u8) {
    for worker in [0, 31, 63] {
        let mut records = [bodies.random.any_record(); 64];
        records[worker] = bodies.random.any_record();
        push(bodies, call, worker, &records);
    }
    let different = [(); 64].map(|()| bodies.random.any_record());
    push(bodies, call, 17, &different);
}

/// Others in the same bucket and in another one, and one whose bucket is broken: it is its record that matters.
fn buckets(bodies: &mut Bodies, call: u8) {
    for lot in [4, 5] {
        for broken in [false, true] {
            let own = Record {
                key: 2,
                ..bodies.random.any_record()
            };
            let other = Record {
                key: lot,
                ..bodies.random.any_record()
            };
            let mut case = bodies.random.sound_sized(call, 2, 2);
            case.list.records = vec![own, other];
            (case.worker, case.turns) = (0, vec![0]);
            if broken {
                break_bucket(&mut case, 5);
            }
            bodies.push(case);
        }
    }
}

/// The only worker; and one beside whom all are idle, or broken, of whom one would be idle but for its number.
fn nobody_to_count(bodies: &mut Bodies, call: u8) {
    let own = bodies.random.any_record();
    push(bodies, call, 0, &[own]);
    for number in [1, u32::MAX] {
        let (broken, other) = (broken_record(&mut bodies.random), asleep(bodies, number));
        let not_idle = Record {
            asleep: number,
            ..Record::idle()
        };
        push(bodies, call, 1, &[Record::idle(), own, Record::idle()]);
        push(bodies, call, 1, &[broken, own, not_idle]);
        push(bodies, call, 0, &[own, not_idle, other]);
    }
}

fn look_at(bodies: &mut Bodies, place: u8, number: u32) -> Record {
    Record {
        asleep: number,
        ..bodies.random.record(LOOK, place)
    }
}

/// A look that goes on, and one that ends, after each number.
fn own_number(bodies: &mut Bodies, call: u8) {
    for number in ENDS {
        for place in [2, 5] {
            let own = look_at(bodies, place, number);
            let other = asleep(bodies, number);
            push(bodies, call, 1, &[other, own]);
        }
    }
}

/// An insert that goes round a full bucket for ever, and a case in which it stands there.
fn goes_round(bodies: &mut Bodies, other: Record) -> Case {
    let own = Record {
        key: 9,
        held: NONE,
        ..bodies.random.record(INSERT, 1)
    };
    let mut case = bodies.random.sound_sized(RUN, 2, 1);
    case.list.records = vec![own, other];
    let full = [mark_word(5, [1, 2, 1]), 3, 4, 5, 6, 7, 8, 0];
    set_bucket(&mut case, 9, full);
    case
}

/// One sleeps before its turn, after it, and between two of its turns; or its call ends, and it is idle while others go on.
fn runs_of_several(bodies: &mut Bodies) {
    for number in ENDS {
        for place in [2, 5] {
            let other = look_at(bodies, place, number);
            let case = goes_round(bodies, other);
            for turns in [
                &[0, 0, 1][..],
                &[1, 0, 0],
                &[1, 0, 0, 1],
                &[0, 1, 0, 0, 1, 0],
            ] {
                bodies.push(Case {
                    turns: turns.to_vec(),
                    ..case.clone()
                });
            }
        }
    }
}

/// Runs that come to the last number with their last turn, one before it, and past it; then the sleeper has a turn too.
fn to_the_last_number(bodies: &mut Bodies) {
    for missing in [1, 2, 5] {
        for turns in [missing - 1, missing, missing + 1, 2 * missing] {
            let other = Record {
                asleep: u32::MAX - missing,
                ..bodies.random.record(LOOK, 2)
            };
            let mut case = goes_round(bodies, other);
            case.turns = vec![0; turns as usize];
            bodies.push(case.clone());
            case.turns.push(1);
            bodies.push(case);
        }
    }
}

/// As many turns as a run can have.
fn longest_run(bodies: &mut Bodies) {
    for number in [0, u32::MAX - 65_535, u32::MAX - 65_534, u32::MAX] {
        let other = asleep(bodies, number);
        let mut case = goes_round(bodies, other);
        case.turns = vec![0; 65_535];
        bodies.push(case);
    }
}

/// §20.3: a start, a show, a count, all orders, a retiring, and an opening, which takes the numbers away with all else.
fn no_turn(bodies: &mut Bodies) {
    for call in OPEN..=NEXT {
        if matches!(call, TURN | RUN) {
            continue;
        }
        for number in ENDS {
            let other = asleep(bodies, number);
            let mut case = bodies.random.sound_sized(call, 3, 1);
            case.list.records[1] = other;
            match call {
                LOOK | INSERT | REMOVE => (case.worker, case.list.records[0]) = (0, Record::idle()),
                RETIRE => (case.worker, case.list.records[0]) = (0, asleep(bodies, number)),
                _ => (),
            }
            bodies.push(case);
        }
    }
}

/// Each call beside one asleep, with each reason to be refused; for some calls it is none. Whoever is refused has slept as well.
fn refused(bodies: &mut Bodies) {
    for call in [LOOK, INSERT, REMOVE, TURN, RUN, SHOW, COUNT, ORDERS, RETIRE] {
        for why in [1, 2, 3, 4, 5, 6, 7, 9, 10, 11] {
            let mut case = bodies.random.sound_sized(call, 3, 1);
            let (own, other) = (asleep(bodies, 6), asleep(bodies, 7));
            case.list.records = vec![other, own, other];
            (case.worker, case.turns) = (1, vec![1, 0, 2]);
            give_reason(bodies, &mut case, why);
            bodies.push(case);
        }
    }
    for why in [2, 3, 6, 7, 11] {
        stopped_later(bodies, why);
    }
}

fn give_reason(bodies: &mut Bodies, case: &mut Case, why: u8) {
    match why {
        1 => spoil_size(case),
        2 => (case.worker, case.turns[0]) = (3, 3),
        3 => case.list.records[1].slot = 3,
        5 | 6 => case.list.records[1] = Record::idle(),
        7 | 11 => {
            case.list.records[1] = Record {
                asleep: 6,
                ..bodies.random.holding_record()
            };
            match why {
                7 => break_bucket(case, 0),
                _ => refute_index(case, 0),
            }
        }
        9 => case.turns.resize(65_536, 0),
        _ => (),
    }
    if why == 5 {
        case.ticket = case.floor.last_ticket;
    }
    if case.call == ORDERS {
        case.worker = if why == 10 { 25 } else { 3 };
    }
}

/// A run whose third turn is refused: two count.
fn stopped_later(bodies: &mut Bodies, why: u8) {
    let other = Record {
        key: 1,
        ..asleep(bodies, 7)
    };
    let mut case = bodies.random.sound_sized(RUN, 3, 2);
    let own = Record {
        key: 2,
        slot: 0,
        ..bodies.random.record(LOOK, 2)
    };
    case.list.records = vec![own, other, other];
    case.turns = vec![0, 0, 1, 0];
    match why {
        2 => case.turns[2] = 3,
        3 => case.list.records[1].slot = 3,
        6 => case.list.records[1] = Record::idle(),
        7 => break_bucket(&mut case, 1),
        _ => refute_index(&mut case, 1),
    }
    bodies.push(case);
}

/// §10.6, before turn 30: the sleeper's next turn, and the five it has left.
fn the_sleeper(bodies: &mut Bodies) {
    let mut desk = Desk::opened(2, 1, 0, Manner::Remade).expect("a floor of small sizes");
    for (worker, kind, ticket, turns) in [
        (0, INSERT, 1, 11),
        (1, REMOVE, 0, 3),
        (0, REMOVE, 0, 4),
        (0, INSERT, 2, 11),
    ] {
        let started = desk.start(kind, worker, 7, ticket);
        started.expect("nothing refuses the start");
        let run = desk.run(&vec![worker as u8; turns], &mut |_, _, _| ());
        assert_eq!(run.0, 0);
    }
    for call in [TURN, RUN] {
        bodies.push(Case {
            call,
            floor: desk.floor,
            worker: 1,
            lot: 0,
            ticket: 0,
            board: desk.board.words(),
            list: desk.list.clone(),
            index: desk.index.0.clone(),
            second: Vec::new(),
            turns: vec![1; 5],
        });
    }
}
