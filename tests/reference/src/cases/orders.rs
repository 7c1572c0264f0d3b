//! Directed cases: all orders, refused for every reason, and of classes to which short histories lead.

use super::build::{count_index, mark_word};
use super::refusals::{broken_record, spoil_size};
use super::Bodies;
use crate::case::{Case, ORDERS};
use crate::desk::{Desk, Manner, MOST_DEPTH, SMALL_WORKERS};
use crate::memory::BUCKET_WORDS;
use crate::outcome::brought;
use crate::record::{Record, IDLE, INSERT, LOOK, REMOVE};

/// A worker; the kind and the lot of a call, which it starts if it is idle; and how many turns it has then, unless its call ends before.
/// Where the kind is that of an idle worker, it is retired instead.
type Event = (u64, u8, u64, usize);

/// As many turns as an insert or a remove needs that is alone and finds room (§15).
const WHOLE: usize = 13;

/// A bucket has room for three lots.
const FULL: [Event; 3] = [
    (0, INSERT, 7, WHOLE),
    (0, INSERT, 8, WHOLE),
    (0, INSERT, 9, WHOLE),
];

const ANY_CLASSES: usize = 100;

pub fn make(bodies: &mut Bodies) {
    too_large(bodies);
    broken(bodies);
    idle(bodies);
    alone(bodies);
    looks(bodies);
    rivals(bodies);
    sleepers(bodies);
    round_and_round(bodies);
    near_their_ends(bodies);
    nothing_to_close(bodies);
    for _ in 0..ANY_CLASSES {
        any_class(bodies);
    }
}

/// §6.10: W, N or the depth too large, or too small, each alone and all at once; then with what comes before it and after it.
fn too_large(bodies: &mut Bodies) {
    for (w, n, depth) in [
        (2, 2, 5),
        (1, 256, 5),
        (4, 1, 5),
        (64, 1, 5),
        (2, 1, 0),
        (2, 1, 25),
        (1, 1, 257),
        (1, 1, (1 << 32) + 1),
        (3, 1, u64::MAX),
        (4, 2, 25),
    ] {
        for also in [0, 1, 3, 7] {
            let mut case = bodies.random.sound_sized(ORDERS, w, n);
            case.worker = depth;
            match also {
                1 => spoil_size(&mut case),
                3 => case.list.records[w as usize - 1] = broken_record(&mut bodies.random),
                7 => break_bucket(&mut case, bodies.random.below(n)),
                _ => (),
            }
            bodies.push(case);
        }
    }
}

fn break_bucket(case: &mut Case, number: u64) {
    case.board[BUCKET_WORDS * number as usize + 7] = 1;
}

/// Any of three workers broken, the bucket too, and the board of a wrong length besides; then the bucket alone, with none to all busy.
fn broken(bodies: &mut Bodies) {
    for workers in 0..8 {
        for bucket in [false, true] {
            for spoilt in [false, true] {
                let mut case = bodies.random.sound_sized(ORDERS, 3, 1);
                for worker in (0..3).filter(|worker| workers >> worker & 1 == 1) {
                    case.list.records[worker] = broken_record(&mut bodies.random);
                }
                if bucket {
                    break_bucket(&mut case, 0);
                }
                if spoilt {
                    spoil_size(&mut case);
                }
                bodies.push(case);
            }
        }
    }
    for w in 1..=SMALL_WORKERS {
        for busy in 0..=w {
            let mut case = all_idle(bodies, w);
            for record in case.list.records.iter_mut().take(busy as usize) {
                *record = bodies.random.any_record();
            }
            break_bucket(&mut case, 0);
            bodies.push(case);
        }
    }
}

fn all_idle(bodies: &mut Bodies, w: u64) -> Case {
    let mut case = bodies.random.sound_sized(ORDERS, w, 1);
    case.list.records.fill(Record::idle());
    case
}

/// §18.1: nobody is busy, and there is one order all the same.
fn idle(bodies: &mut Bodies) {
    for w in 1..=SMALL_WORKERS {
        for depth in [1, MOST_DEPTH] {
            let case = all_idle(bodies, w);
            bodies.push(Case {
                worker: depth,
                ..case
            });
        }
    }
}

/// The class to which these events lead, on one bucket that is opened at any version.
fn class(bodies: &mut Bodies, w: u64, events: &[Event]) -> Case {
    let random = &mut bodies.random;
    let mut desk =
        Desk::opened(w, 1, random.version(), Manner::Remade).expect("a floor of small sizes");
    for &(worker, kind, lot, turns) in events {
        if kind == IDLE {
            // refused where the worker is idle already
            let _ = desk.retire(worker);
            continue;
        }
        let ticket = desk.floor.last_ticket + 1;
        // refused where the worker is still at a call; it goes on with that
        let _ = desk.start(kind, worker, lot, ticket);
        (0..turns).take_while(|_| desk.turn(worker).is_ok()).count();
    }
    if random.once_in(8) {
        desk.floor.last_ticket = random.pick(&[0, 4_294_967_295, 1 << 32, u64::MAX]);
    }
    Case {
        call: ORDERS,
        floor: desk.floor,
        worker: random.depth(),
        lot: random.value(),
        ticket: 0,
        board: desk.board.words(),
        list: desk.list,
        index: desk.index.0,
        second: Vec::new(),
        turns: Vec::new(),
    }
}

/// The class to the depth that its longest walk needs, to one less, and to the greatest; to another one where none is enough.
fn push(bodies: &mut Bodies, case: Case) {
    let depths = match enough(&case) {
        Some(depth) => vec![depth.max(2) - 1, depth, MOST_DEPTH],
        None => vec![case.worker, MOST_DEPTH],
    };
    for depth in depths {
        bodies.push(Case {
            worker: depth,
            ..case.clone()
        });
    }
}

/// The first depth to which no walk is cut.
fn enough(case: &Case) -> Option<u64> {
    let mut walking = brought(case).outset(case.worker).ok()?;
    (1..=MOST_DEPTH).find(|_| {
        walking.go_on(&mut |_, _| ());
        walking.walks().cut.walks == 0
    })
}

fn push_class(bodies: &mut Bodies, w: u64, events: &[Event]) {
    let case = class(bodies, w, events);
    push(bodies, case);
}

/// One worker, on an empty, a partly filled and a full bucket; its lot stands, or does not.
fn alone(bodies: &mut Bodies) {
    for kind in [LOOK, INSERT, REMOVE] {
        for standing in [0, 1, 3] {
            for lot in [7, 4] {
                let call = (0, kind, lot, 0);
                push_class(bodies, 1, &[&FULL[..standing], &[call]].concat());
            }
        }
    }
    // a commit that takes the version round
    let mut case = class(bodies, 1, &[(0, INSERT, 7, 9)]);
    case.board[0] = mark_word(u32::MAX, [2, 0, 0]);
    case.list.records[0].word = case.board[0];
    count_index(&mut case);
    push(bodies, case);
}

fn looks(bodies: &mut Bodies) {
    for (w, first, second) in [(2, 0, 1), (3, 0, 2), (3, 1, 2)] {
        push_class(bodies, w, &[(first, LOOK, 7, 0), (second, LOOK, 7, 0)]);
    }
    let three = [(0, LOOK, 7, 2), (1, LOOK, 7, 0), (2, LOOK, 8, 4)];
    push_class(bodies, 3, &three);
}

/// Inserts of one lot, and of several, from their starts (§10.8) and from just before and after their swaps.
fn rivals(bodies: &mut Bodies) {
    for turns in [
        &[0, 0][..],
        &[7, 7],
        &[7, 8],
        &[7, 9],
        &[8, 10],
        &[10, 10],
        &[3, 6],
        &[0, 0, 0],
        &[7, 7, 7],
        &[7, 9, 10],
        &[10, 10, 10],
    ] {
        for lots in [[7, 7, 7], [7, 8, 8], [7, 8, 9]] {
            let workers = 0..turns.len();
            let events = workers.map(|at| (at as u64, INSERT, lots[at], turns[at]));
            let events: Vec<Event> = events.collect();
            push_class(bodies, turns.len() as u64, &events);
        }
    }
    // §10.11, from where a slot is about to be freed
    let lost = [
        (1, INSERT, 7, 8),
        (2, INSERT, 7, WHOLE),
        (1, INSERT, 7, 10),
        (0, INSERT, 8, 8),
    ];
    push_class(bodies, 3, &lost);
    push_class(bodies, 3, &[&lost[..], &[(2, INSERT, 9, 0)]].concat());
}

/// A remove that has slept since it read the mark word (§10.6), while others remove and insert its lot.
fn sleepers(bodies: &mut Bodies) {
    let stands = FULL[0];
    push_class(bodies, 2, &[stands, (1, REMOVE, 7, 0), (0, REMOVE, 7, 0)]);
    for (remove, insert) in [(0, 0), (3, 0), (3, 4), (4, 0), (4, 7), (4, 9), (4, 10)] {
        let asleep = (1, REMOVE, 7, 3);
        let others = [(0, REMOVE, 7, remove), (2, INSERT, 7, insert)];
        push_class(bodies, 3, &[stands, asleep, others[0], others[1]]);
    }
}

/// Inserts that have read a full mark word, and whoever is beside them.
fn round_and_round(bodies: &mut Bodies) {
    let insert = (0, INSERT, 4, 9);
    for others in [
        &[(1, REMOVE, 8, 3)][..],
        &[(1, LOOK, 9, 7)],
        &[(1, INSERT, 5, 8)],
        &[(1, INSERT, 5, 8), (2, LOOK, 9, 7)],
        &[(1, REMOVE, 8, 3), (2, REMOVE, 8, 3)],
        &[(1, REMOVE, 7, 2), (2, LOOK, 7, 2)],
        &[(2, REMOVE, 9, 5)],
    ] {
        push_class(bodies, 3, &[&FULL[..], &[insert], others].concat());
    }
    // walks that lose a swap are all finished, and of the others some are cut
    let waiting = [(0, INSERT, 4, 0), (1, REMOVE, 9, 5), (2, REMOVE, 4, 3)];
    push_class(bodies, 3, &[&FULL[..], &waiting].concat());
    // the most lost swaps are in walks that are finished
    let overtaken = [
        (2, INSERT, 7, 4),
        (1, REMOVE, 8, WHOLE),
        (1, REMOVE, 7, 3),
        (0, INSERT, 8, 5),
    ];
    push_class(bodies, 3, &[&FULL[..], &overtaken].concat());
}

/// Calls that have few turns left, so that the walks of three are finished too.
fn near_their_ends(bodies: &mut Bodies) {
    for calls in [
        [(0, LOOK, 7, 3), (1, LOOK, 8, 5), (2, LOOK, 4, 4)],
        [(0, LOOK, 7, 2), (1, REMOVE, 7, 3), (2, REMOVE, 8, 4)],
        [(0, LOOK, 7, 2), (1, LOOK, 7, 3), (2, REMOVE, 7, 2)],
        [(0, REMOVE, 7, 2), (1, INSERT, 7, 4), (2, LOOK, 7, 3)],
        [(0, INSERT, 4, 11), (1, LOOK, 7, 3), (2, LOOK, 7, 2)],
        [(0, INSERT, 8, 7), (1, INSERT, 7, 4), (2, REMOVE, 7, 2)],
        [(0, REMOVE, 7, 3), (1, REMOVE, 7, 3), (2, REMOVE, 7, 3)],
    ] {
        push_class(bodies, 3, &[&FULL[..2], &calls].concat());
    }
}

/// A valid slot with no value, which no history leads to: a remove wins its swap there, and ends with 0.
fn nothing_to_close(bodies: &mut Bodies) {
    let mut case = class(bodies, 2, &[(0, REMOVE, 7, 0), (1, LOOK, 7, 0)]);
    case.board[0] |= mark_word(0, [1, 0, 0]);
    case.board[1] = 7;
    count_index(&mut case);
    push(bodies, case);
}

/// Calls of any kinds at any places, idle workers among them, on a bucket filled in any way.
fn any_class(bodies: &mut Bodies) {
    let random = &mut bodies.random;
    let w = 1 + random.below(SMALL_WORKERS);
    let mut events = FULL[..random.below(4) as usize].to_vec();
    for _ in 0..random.below(7) {
        let kind = random.pick(&[LOOK, INSERT, INSERT, INSERT, REMOVE, IDLE]);
        let lot = random.pick(&[7, 7, 8, 9, 0, u64::MAX]);
        let turns = random.below(WHOLE as u64) as usize;
        events.push((random.below(w), kind, lot, turns));
    }
    let case = class(bodies, w, &events);
    bodies.push(case);
}
