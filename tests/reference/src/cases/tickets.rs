//! Directed cases: tickets that need more than their low half, wherever a ticket stands (§3.5), and a last ticket above which there is none.

use super::build::{mark_word, set_bucket, LONG_ENDS};
use super::refusals::{broken_record, spoil_size};
use super::Bodies;
use crate::case::{Case, INSERT, LOOK, MOVE, OPEN, ORDERS, REMOVE, RUN, TURN};
use crate::desk::{Desk, Manner};
use crate::memory::BUCKET_WORDS;
use crate::record::{Record, NONE};
use crate::word::{snap_set_map, Snapshot};

/// The ends of the low half, of the whole, and about the highest bit.
const ENDS: [u64; 9] = [
    0,
    1,
    4_294_967_295,
    4_294_967_296,
    4_294_967_297,
    (1 << 63) - 1,
    1 << 63,
    u64::MAX - 1,
    u64::MAX,
];

/// No low half, and all that there is.
const WHOLE: [u64; 2] = [1 << 32, u64::MAX];

/// Every byte is another, and at each place another in the second.
const EIGHT_BYTES: u64 = 0x8967_4523_1f3d_5b79;
const EIGHT_OTHERS: u64 = 0x1234_5678_9abc_def1;

pub fn make(bodies: &mut Bodies) {
    pairs(bodies);
    halves(bodies);
    highest(bodies);
    no_ticket(bodies);
    openings(bodies);
    in_records(bodies);
    stores(bodies);
    kept(bodies);
    readings(bodies);
    other_readings(bodies);
    runs(bodies);
    orders(bodies);
}

fn insert(bodies: &mut Bodies, ticket: u64, last: u64) {
    let mut case = bodies.random.sound_sized(INSERT, 1, 1);
    case.ticket = ticket;
    case.floor.last_ticket = last;
    bodies.push(case);
}

/// Every two of the ends, and on either side of each what is next to it.
fn pairs(bodies: &mut Bodies) {
    for last in ENDS {
        for ticket in ENDS {
            insert(bodies, ticket, last);
        }
    }
    for end in [2_147_483_647, 2_147_483_648, 4_294_967_294]
        .into_iter()
        .chain(ENDS)
    {
        for near in [end.checked_sub(1), end.checked_add(1)]
            .into_iter()
            .flatten()
        {
            insert(bodies, end, near);
            insert(bodies, near, end);
        }
    }
    insert(bodies, EIGHT_BYTES, EIGHT_OTHERS);
    insert(bodies, EIGHT_OTHERS, EIGHT_BYTES);
}

/// Each half below, equal and above, as numbers with a sign too.
fn halves(bodies: &mut Bodies) {
    let middle = 1 << 31;
    let pairs: [(u64, u64); 7] = [
        (0, 0),
        (7, 7),
        (7, 6),
        (6, 7),
        (0, 4_294_967_295),
        (4_294_967_295, 0),
        (middle, middle - 1),
    ];
    for (high, last_high) in pairs {
        for (low, last_low) in pairs {
            insert(bodies, high << 32 | low, last_high << 32 | last_low);
        }
    }
}

/// §3.5: no ticket is above the highest, and what comes before 5 still does.
fn highest(bodies: &mut Bodies) {
    for why in [1, 2, 3, 4] {
        for ticket in [0, u64::MAX] {
            let random = &mut bodies.random;
            let mut case = random.sound_sized(INSERT, 2, 1);
            let at = case.worker as usize;
            match why {
                1 => spoil_size(&mut case),
                2 => case.worker = 2,
                3 => case.list.records[at] = broken_record(random),
                _ => case.list.records[at] = random.any_record(),
            }
            case.ticket = ticket;
            case.floor.last_ticket = u64::MAX;
            bodies.push(case);
        }
    }
    for worker in [0, 63] {
        for ticket in [0, 1, 1 << 32, u64::MAX] {
            let mut case = bodies.random.sound_sized(INSERT, 64, 1);
            case.list.records.fill(Record::idle());
            case.worker = worker;
            case.ticket = ticket;
            case.floor.last_ticket = u64::MAX;
            bodies.push(case);
        }
    }
}

/// A look and a remove, after any last ticket.
fn no_ticket(bodies: &mut Bodies) {
    for call in [LOOK, REMOVE] {
        for last in ENDS {
            let mut case = bodies.random.sound(call);
            case.floor.last_ticket = last;
            bodies.push(case);
        }
    }
}

/// Over any last ticket, and over an insert with any ticket; and refused. Of the number that would be a ticket the low half is the version.
fn openings(bodies: &mut Bodies) {
    for last in ENDS {
        for refused in [false, true] {
            let mut case = bodies.random.sound_sized(OPEN, 1, 1);
            case.floor.last_ticket = last;
            case.ticket = last;
            case.list.records[0] = Record {
                ticket: last.max(1),
                ..bodies.random.record(INSERT, 8)
            };
            if refused {
                spoil_size(&mut case);
            }
            bodies.push(case);
        }
    }
}

/// §3.7: a record that would be broken if its ticket were no more than its low half, wherever records are looked at. A turn of its own and
/// a retiring come elsewhere.
fn in_records(bodies: &mut Bodies) {
    for ticket in WHOLE {
        for call in [LOOK, INSERT, REMOVE, MOVE, TURN, RUN] {
            let mut case = bodies.random.sound_sized(call, 2, 1);
            let place = bodies.random.pick(&[1, 4, 7, 10]);
            let record = Record {
                ticket,
                asleep: 3,
                ..bodies.random.record(INSERT, place)
            };
            let at = match call {
                TURN | RUN => 1 - case.worker as usize,
                MOVE => bodies.random.below(2) as usize,
                _ => case.worker as usize,
            };
            case.list.records[at] = record;
            bodies.push(case);
        }
    }
}

fn turn(bodies: &mut Bodies, record: Record, words: [u64; BUCKET_WORDS]) {
    let mut case = bodies.random.sound_sized(TURN, 1, 1);
    case.list.records[0] = record;
    set_bucket(&mut case, record.key, words);
    bodies.push(case);
}

/// §5.7: over a value of both halves, of the low one and of the high one.
fn stores(bodies: &mut Bodies) {
    for ticket in [1, 5].into_iter().chain(LONG_ENDS) {
        for old in [u64::MAX, 6, 1 << 40] {
            store(bodies, ticket, old);
        }
    }
    store(bodies, EIGHT_BYTES, EIGHT_OTHERS);
    store(bodies, EIGHT_OTHERS, EIGHT_BYTES);
}

fn store(bodies: &mut Bodies, ticket: u64, old: u64) {
    let record = Record {
        ticket,
        ..bodies.random.record(INSERT, 7)
    };
    let mut words = bodies.random.bucket();
    words[4 + usize::from(record.held)] = old;
    turn(bodies, record, words);
}

/// Every turn of an insert that goes on leaves its ticket.
fn kept(bodies: &mut Bodies) {
    for ticket in WHOLE {
        for place in 1..=9 {
            let record = Record {
                ticket,
                seen: 4,
                ..bodies.random.record(INSERT, place)
            };
            let mut words = bodies.random.bucket();
            // no search has found, and no commit is won
            words[4 + usize::from(record.slot)] = 5;
            let mut word = Snapshot::of(record.word);
            word.version ^= 1;
            words[0] = word.snapshot();
            turn(bodies, record, words);
        }
    }
}

/// Values of any ticket, read once, read twice, and answered.
fn readings(bodies: &mut Bodies) {
    for ticket in [1].into_iter().chain(LONG_ENDS) {
        for (kind, place) in [
            (LOOK, 2),
            (LOOK, 5),
            (INSERT, 5),
            (REMOVE, 12),
            (REMOVE, 13),
        ] {
            let mut record = bodies.random.record(kind, place);
            let mut words = bodies.random.bucket();
            words[4 + usize::from(record.slot)] = ticket;
            if matches!(place, 5 | 13) {
                record.seen = ticket;
            }
            if place == 13 {
                record.word = snap_set_map(record.word, record.slot, 1);
                words[0] = record.word;
            }
            turn(bodies, record, words);
        }
    }
}

/// §5.5: two readings that differ in one half alone, or in which a half has nothing.
fn other_readings(bodies: &mut Bodies) {
    let long = 1 << 32;
    for (seen, value) in [
        (long | 3, 3),
        (3, long | 3),
        (long | 3, long | 4),
        (long | 3, (2 * long) | 3),
        (long, 2 * long),
        (long, 0),
        (long, 3),
        (3, long),
        (3, long | 4),
        (EIGHT_BYTES, EIGHT_OTHERS),
    ] {
        for kind in [LOOK, INSERT] {
            let record = Record {
                seen,
                ..bodies.random.record(kind, 5)
            };
            let mut words = bodies.random.bucket();
            words[4 + usize::from(record.slot)] = value;
            turn(bodies, record, words);
        }
    }
}

/// A call of lot 7 just as it is started.
fn started(kind: u8, ticket: u64) -> Record {
    Record {
        kind,
        place: if kind == LOOK { 2 } else { 1 },
        key: 7,
        ticket,
        ..Record::idle()
    }
}

/// From the start of an insert to its commit; then a look and a remove of its lot, or an insert, which finds it.
fn runs(bodies: &mut Bodies) {
    for ticket in LONG_ENDS {
        let rivals = [
            (vec![started(LOOK, 0), started(REMOVE, 0)], 4),
            (vec![started(INSERT, 1)], 5),
        ];
        for (others, turns) in rivals {
            let records = [vec![started(INSERT, ticket)], others].concat();
            let mut case = bodies.random.sound_sized(RUN, records.len() as u64, 1);
            set_bucket(&mut case, 7, [0; BUCKET_WORDS]);
            case.floor.last_ticket = ticket;
            case.turns = vec![0; 11];
            for worker in 1..records.len() {
                case.turns.extend(vec![worker as u8; turns]);
            }
            case.list.records = records;
            bodies.push(case);
        }
    }
    late_store(bodies);
}

/// A look has seen ticket 3, and an insert stores another with the same low half before the look reads again.
fn late_store(bodies: &mut Bodies) {
    let mut case = bodies.random.sound_sized(RUN, 2, 1);
    set_bucket(&mut case, 7, [mark_word(4, [2, 0, 0]), 7, 0, 0, 3, 0, 0, 0]);
    case.list.records = vec![storing(), waiting(LOOK)];
    case.turns = vec![0, 1];
    bodies.push(case);
}

/// An insert that has claimed slot 0 and is about to store a ticket with the low half 3.
fn storing() -> Record {
    Record {
        place: 7,
        held: 0,
        word: mark_word(4, [2, 0, 0]),
        ..started(INSERT, 1 << 32 | 3)
    }
}

/// A look or an insert of the same lot, before its second reading of slot 0, in which it has seen 3.
fn waiting(kind: u8) -> Record {
    let (ticket, word) = match kind {
        INSERT => (9, mark_word(4, [2, 0, 0])),
        _ => (0, 0),
    };
    Record {
        place: 5,
        held: NONE,
        seen: 3,
        word,
        ..started(kind, ticket)
    }
}

/// All orders: an insert of any ticket beside whoever looks for its lot, before its stores and after its commit.
fn orders(bodies: &mut Bodies) {
    for ticket in LONG_ENDS {
        for turns in [8, 11] {
            let case = class(bodies, ticket, turns);
            bodies.push(case);
        }
    }
    for (one, other) in [
        (3, 1 << 32 | 3),
        (1 << 32 | 3, 1 << 32 | 4),
        (1 << 32, 2 << 32),
    ] {
        let mut case = class(bodies, other, 8);
        case.list.records[1].ticket = one;
        bodies.push(case);
    }
    let mut case = bodies.random.sound_sized(ORDERS, 2, 1);
    set_bucket(&mut case, 7, [mark_word(4, [2, 0, 0]), 7, 0, 0, 3, 0, 0, 0]);
    case.list.records = vec![storing(), waiting(INSERT)];
    case.worker = 7;
    bodies.push(case);
}

/// Worker 1 has started to insert lot 7 on ticket 1, and worker 0 has had so many turns of the same on this ticket. Where they have ended
/// its call it closes the lot.
fn class(bodies: &mut Bodies, ticket: u64, turns: usize) -> Case {
    let mut desk = Desk::opened(2, 1, 0, Manner::Remade).expect("a floor of small sizes");
    for (worker, ticket, turns) in [(1, 1, 0), (0, ticket, turns)] {
        let started = desk.start(INSERT, worker, 7, ticket);
        started.expect("nothing refuses the start");
        let run = desk.run(&vec![0; turns], &mut |_, _, _| ());
        assert_eq!(run.0, 0);
    }
    // refused where it is at its call still
    let _ = desk.start(REMOVE, 0, 7, 0);
    Case {
        floor: desk.floor,
        worker: 16,
        board: desk.board.words(),
        list: desk.list,
        index: desk.index.0,
        ..bodies.random.sound_sized(ORDERS, 2, 1)
    }
}
