//! Tickets of 64 bits (§3.5), told once more by their two halves; the last ticket at its highest; and other readings, which the stored cases
//! tell apart.

use reference::case::{Case, TURN};
use reference::cases;
use reference::desk::{Desk, Manner};
use reference::memory::Board;
use reference::outcome::{outcome, Outcome};
use reference::random::Random;
use reference::record::{Record, INSERT, LOOK, REMOVE};

const MANNERS: [Manner; 2] = [Manner::Living, Manner::Remade];

/// A number by its halves.
fn whole(high: u64, low: u64) -> u64 {
    high * 4_294_967_296 + low
}

/// One turn after another, up to the end of the call.
fn end(desk: &mut Desk, worker: u64) -> u64 {
    loop {
        if let Some(answer) = desk.turn(worker).unwrap().ended {
            return answer;
        }
    }
}

/// An insert by worker 0, to its end; its ticket is the floor's last from its start on.
fn insert(desk: &mut Desk, lot: u64, ticket: u64) -> u64 {
    desk.start(INSERT, 0, lot, ticket).unwrap();
    assert_eq!(desk.list.records[0].ticket, ticket);
    assert_eq!(desk.floor.last_ticket, ticket);
    end(desk, 0)
}

fn answer(desk: &mut Desk, kind: u8, lot: u64) -> u64 {
    desk.start(kind, 0, lot, 0).unwrap();
    end(desk, 0)
}

/// Of two halves the high ones decide; where they are equal, the low ones.
#[test]
fn which_ticket_is_above_which() {
    let halves = [0, 1, 2, 2_147_483_648, 4_294_967_294, 4_294_967_295];
    let mut accepted = 0;
    for (last_high, last_low) in halves
        .iter()
        .flat_map(|high| halves.map(|low| (*high, low)))
    {
        for (high, low) in halves
            .iter()
            .flat_map(|high| halves.map(|low| (*high, low)))
        {
            let mut desk = Desk::opened(1, 1, 0, Manner::Remade).unwrap();
            desk.floor.last_ticket = whole(last_high, last_low);
            let above = high > last_high || high == last_high && low > last_low;
            let started = desk.start(INSERT, 0, 7, whole(high, low));
            assert_eq!(started, if above { Ok(()) } else { Err(5) });
            accepted += u64::from(above);
        }
    }
    assert_eq!(accepted, 36 * 35 / 2);
}

/// What is stored, found and closed is the whole ticket.
#[test]
fn a_ticket_stays_whole() {
    for manner in MANNERS {
        for ticket in [
            whole(0, 4_294_967_295),
            whole(1, 0),
            whole(1, 1),
            0x102_0304_0506_0708,
            1 << 63,
            u64::MAX - 1,
            u64::MAX,
        ] {
            let mut desk = Desk::opened(1, 1, 0, manner).unwrap();
            assert_eq!(insert(&mut desk, 7, ticket), 1);
            assert_eq!(
                desk.board.words(),
                [0x1_0000_0001, 7, 0, 0, ticket, 0, 0, 0]
            );
            assert_eq!(answer(&mut desk, LOOK, 7), ticket);
            let second = Board::of(&[0; 16]);
            desk.move_to(&second, 2).unwrap();
            assert_eq!(desk.floor.last_ticket, ticket);
            assert_eq!(answer(&mut desk, LOOK, 7), ticket);
            assert_eq!(answer(&mut desk, REMOVE, 7), ticket);
            assert_eq!(answer(&mut desk, LOOK, 7), 0);
        }
    }
}

/// Above the highest ticket there is none: every insert is refused, before a move and after it, up to another opening. All else goes on.
#[test]
fn the_highest_ticket() {
    for manner in MANNERS {
        let mut desk = Desk::opened(2, 1, 0, manner).unwrap();
        assert_eq!(insert(&mut desk, 7, u64::MAX - 1), 1);
        assert_eq!(insert(&mut desk, 8, u64::MAX), 1);
        refuses_inserts(&mut desk);
        assert_eq!(answer(&mut desk, LOOK, 7), u64::MAX - 1);
        assert_eq!(answer(&mut desk, LOOK, 8), u64::MAX);
        desk.start(REMOVE, 1, 9, 0).unwrap();
        desk.retire(1).unwrap();
        refuses_inserts(&mut desk);
        let second = Board::of(&[0; 24]);
        desk.move_to(&second, 3).unwrap();
        refuses_inserts(&mut desk);
        assert_eq!(answer(&mut desk, REMOVE, 8), u64::MAX);
        assert_eq!(desk.count(), Ok(1));
        desk.open(2, 3, 5).unwrap();
        assert_eq!(desk.floor.last_ticket, 0);
        assert_eq!(insert(&mut desk, 8, 1), 1);
    }
}

fn refuses_inserts(desk: &mut Desk) {
    let (floor, records) = (desk.floor, desk.list.records.clone());
    for ticket in [
        0,
        1,
        4_294_967_295,
        whole(1, 0),
        1 << 63,
        u64::MAX - 1,
        u64::MAX,
    ] {
        for worker in [0, 1] {
            assert_eq!(desk.start(INSERT, worker, 7, ticket), Err(5));
        }
    }
    // what comes before it
    assert_eq!(desk.start(INSERT, 2, 7, u64::MAX), Err(2));
    assert_eq!((desk.floor, &desk.list.records), (floor, &records));
}

/// An insert that ends with 0, or never ends, has spent its ticket.
#[test]
fn a_long_ticket_stays_spent() {
    for manner in MANNERS {
        let mut desk = Desk::opened(2, 1, 0, manner).unwrap();
        assert_eq!(insert(&mut desk, 7, 1), 1);
        assert_eq!(insert(&mut desk, 7, whole(1, 0)), 0);
        assert_eq!(desk.start(INSERT, 0, 8, 4_294_967_295), Err(5));
        assert_eq!(desk.start(INSERT, 0, 8, whole(1, 0)), Err(5));
        desk.start(INSERT, 1, 8, whole(1, 1)).unwrap();
        desk.retire(1).unwrap();
        assert_eq!(desk.start(INSERT, 0, 8, whole(1, 1)), Err(5));
        assert_eq!(insert(&mut desk, 8, whole(1, 2)), 1);
        assert_eq!(answer(&mut desk, LOOK, 7), 1);
    }
}

/// §3.7: whether a record is sound is the same for a ticket as for 1, however many bits it has.
#[test]
fn records_with_long_tickets() {
    let mut random = Random::new(11);
    for _ in 0..20_000 {
        let shift = random.below(64);
        let record = Record {
            kind: random.below(5) as u8,
            place: random.below(15) as u8,
            ticket: 1,
            held: random.below(5) as u8,
            word: random.pick(&[0, 0, 1 << 32, 3 << 32]),
            ..Record::idle()
        };
        let longer = Record {
            ticket: 1 << shift | random.any() & ((1 << shift) - 1),
            ..record
        };
        assert_eq!(longer.is_broken(), record.is_broken());
        assert!(!longer.is_idle());
    }
}

/// A history plays the same whichever tickets its inserts have, as long as they rise: each answer and each value is the other's, by rank.
#[test]
fn only_the_order_of_tickets_counts() {
    let steps = [1, whole(1, 0), whole(1, 0) - 1, 77];
    for seed in 0..300 {
        for step in steps {
            let one = played(seed, 0, 1);
            let other = played(seed, u64::MAX - 100 * whole(2, 0), step);
            assert_eq!(one, other);
        }
    }
}

/// A random history of inserts with tickets from this one on, in these steps: what each call ended with, and the values on the board, of
/// each ticket its rank. No more than a hundred are accepted.
fn played(seed: u64, below: u64, step: u64) -> Vec<u64> {
    let mut random = Random::new(seed);
    let mut desk = Desk::opened(3, 1, 0, Manner::Remade).unwrap();
    desk.floor.last_ticket = below;
    let rank = |ticket: u64| (ticket - below) / step;
    let mut seen = Vec::new();
    for _ in 0..90 {
        let (worker, lot) = (random.below(3), random.below(4));
        let kind = random.pick(&[LOOK, INSERT, INSERT, REMOVE]);
        let ticket = desk.floor.last_ticket + step;
        // refused where the worker is at a call; it goes on with that
        let _ = desk.start(kind, worker, lot, ticket);
        for _ in 0..1 + random.below(12) {
            let record = desk.list.records[worker as usize];
            let Some(answer) = desk.turn(worker).ok().and_then(|report| report.ended) else {
                continue;
            };
            seen.push(match (record.kind, answer) {
                (INSERT, _) | (_, 0) => answer,
                _ => rank(answer),
            });
        }
    }
    let words = desk.board.words();
    seen.push(words[0]);
    seen.extend(&words[1..4]);
    seen.extend(
        words[4..7]
            .iter()
            .map(|&value| if value == 0 { 0 } else { rank(value) }),
    );
    seen
}

/// The stored cases of a call, with what they come to.
fn stored(call: u8) -> Vec<(Case, Outcome)> {
    let cases = cases::stored().into_iter();
    let cases = cases.map(|piece| Case::read(&piece[2..]));
    let cases = cases.filter(|case| case.call == call);
    cases.map(|case| (case.clone(), outcome(&case))).collect()
}

fn low(number: u64) -> u64 {
    number % 4_294_967_296
}

fn high(number: u64) -> u64 {
    number / 4_294_967_296
}

/// Whether a ticket is above a last one, by a rule that is not §3.5.
type Above = fn(u64, u64) -> bool;

const OTHER_ORDERS: [(&str, Above); 9] = [
    ("by the low half", |ticket, last| low(ticket) > low(last)),
    ("by the high half", |ticket, last| high(ticket) > high(last)),
    ("by either half", |ticket, last| {
        high(ticket) > high(last) || low(ticket) > low(last)
    }),
    ("by both halves", |ticket, last| {
        high(ticket) >= high(last) && low(ticket) > low(last)
    }),
    ("with a sign", |ticket, last| ticket as i64 > last as i64),
    ("by a difference with a sign", |ticket, last| {
        ticket.wrapping_sub(last) as i64 > 0
    }),
    ("from the next one on, which wraps", |ticket, last| {
        ticket >= last.wrapping_add(1)
    }),
    ("none above 32 bits", |ticket, last| {
        ticket > last && high(ticket) == 0
    }),
    ("equal will do", |ticket, last| ticket >= last),
];

#[test]
fn other_orders_of_tickets_are_told_apart() {
    let starts = stored(INSERT);
    let asked: Vec<(u64, u64, bool)> = starts
        .iter()
        .filter(|(_, came)| matches!(came.answer.number(), 0 | 5))
        .map(|(case, came)| {
            let accepted = came.answer.number() == 0;
            (case.ticket, case.floor.last_ticket, accepted)
        })
        .collect();
    for &(ticket, last, accepted) in &asked {
        assert_eq!(ticket > last, accepted);
    }
    for (name, above) in OTHER_ORDERS {
        let differs =
            |&(ticket, last, accepted): &(u64, u64, bool)| above(ticket, last) != accepted;
        assert!(
            asked.iter().filter(|case| differs(case)).count() > 3,
            "{name}"
        );
    }
}

/// What is kept of a ticket, where that is not all of it.
type Width = fn(u64) -> u64;

const OTHER_WIDTHS: [(&str, Width); 4] = [
    ("the low half", low),
    ("the low half, with its sign", |ticket| ticket as i32 as u64),
    ("at most 32 bits", |ticket| ticket.min(4_294_967_295)),
    ("63 bits", |ticket| ticket & !(1 << 63)),
];

/// What an accepted insert leaves of its ticket, in the record and on the floor, and what place 7 stores: all of it.
#[test]
fn other_widths_of_tickets_are_told_apart() {
    let starts = stored(INSERT);
    let turns = stored(TURN);
    let started = starts.iter().filter(|(_, came)| came.answer.number() == 0);
    let started: Vec<[u64; 3]> = started
        .map(|(case, came)| {
            let record = came.records[case.worker as usize];
            [case.ticket, record.ticket, came.floor.last_ticket]
        })
        .collect();
    let stores = turns.iter().filter_map(|(case, came)| {
        let record = case.list.records.get(case.worker as usize)?;
        let is_store = came.answer.number() == 0 && record.place == 7;
        let start = 8 * (record.key % case.floor.buckets.max(1)) as usize;
        is_store.then(|| {
            [
                record.ticket,
                came.board[start + 4 + usize::from(record.held)],
            ]
        })
    });
    let stores: Vec<[u64; 2]> = stores.collect();
    assert!(started
        .iter()
        .all(|[ticket, record, last]| ticket == record && ticket == last));
    assert!(stores.iter().all(|[ticket, value]| ticket == value));
    for (name, width) in OTHER_WIDTHS {
        let differ = started
            .iter()
            .filter(|[ticket, ..]| width(*ticket) != *ticket);
        assert!(differ.count() > 3, "{name}");
        let differ = stores
            .iter()
            .filter(|[ticket, _]| width(*ticket) != *ticket);
        assert!(differ.count() > 3, "{name}");
    }
}
