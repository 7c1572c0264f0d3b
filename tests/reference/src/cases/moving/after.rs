//! Directed cases: an opened board that has moved, and how the sale goes on there.

use crate::case::{
    Case, COUNT, INSERT, LOOK, MOVE, NEXT, OPEN, ORDERS, REMOVE, RETIRE, RUN, SHOW, TOTAL, TURN,
};
use crate::cases::build::leave;
use crate::cases::Bodies;
use crate::desk::{Desk, Manner};
use crate::outcome::brought;

pub fn make(bodies: &mut Bodies) {
    for (n, to, version) in [
        (1, 1, 5),
        (1, 2, 0),
        (1, 2, u32::MAX),
        (2, 1, u32::MAX),
        (3, 2, 6),
        (1, 256, 0),
        (256, 1, 0),
    ] {
        let mut case = sold(n, version, 1);
        go_to(bodies, &mut case, to);
        goes_on(bodies, &case);
        // and back again
        go_to(bodies, &mut case, n);
        with_turns(bodies, &case, INSERT, 10);
    }
    for first in [4_294_967_294, u64::MAX - 4, u64::MAX - 3] {
        long_tickets(bodies, first);
    }
}

/// The same from tickets that need more than their low half; of the last of them the fourth is the highest there is (§3.5).
fn long_tickets(bodies: &mut Bodies, first: u64) {
    let mut case = sold(1, 7, first);
    go_to(bodies, &mut case, 2);
    let last = case.floor.last_ticket;
    let near = [
        last,
        last - 1,
        last.wrapping_add(1),
        last & 0xffff_ffff,
        0,
        1,
        1 << 32,
    ];
    for ticket in near {
        bodies.push(Case {
            call: INSERT,
            worker: 1,
            lot: 10,
            ticket,
            ..case.clone()
        });
    }
    for (kind, lot) in [LOOK, REMOVE]
        .into_iter()
        .flat_map(|kind| [7, 9, 11].map(|lot| (kind, lot)))
    {
        with_turns(bodies, &case, kind, lot);
    }
    go_to(bodies, &mut case, 1);
}

/// Lots 7, 8, 9 and 11 were inserted on an opened board, from this ticket on, and lot 8 is closed; nobody has anything to do.
fn sold(n: u64, version: u32, first: u64) -> Case {
    let mut desk = Desk::opened(2, n, version, Manner::Remade).expect("a floor of small sizes");
    for (kind, lot, ticket) in [
        (INSERT, 7, first),
        (INSERT, 8, first + 1),
        (INSERT, 9, first + 2),
        (REMOVE, 8, 0),
        (INSERT, 11, first + 3),
    ] {
        let started = desk.start(kind, 0, lot, ticket);
        started.expect("nothing refuses the start");
        while desk.turn(0).is_ok() {}
    }
    Case {
        call: MOVE,
        floor: desk.floor,
        worker: 0,
        lot: 0,
        ticket: 0,
        board: desk.board.words(),
        list: desk.list,
        index: desk.index.0,
        second: Vec::new(),
        turns: Vec::new(),
    }
}

/// A move, and the case is on the new board then.
fn go_to(bodies: &mut Bodies, case: &mut Case, to: u64) {
    case.call = MOVE;
    let version = case.floor.version;
    bodies.random.go_to(case, to);
    case.floor.version = version;
    bodies.push(case.clone());
    leave(case);
    case.second.clear();
}

/// Every call on the new board, with the floor and the index that the move has left.
fn goes_on(bodies: &mut Bodies, case: &Case) {
    let last = case.floor.last_ticket;
    for ticket in [last, last + 1, 0] {
        bodies.push(Case {
            call: INSERT,
            worker: 1,
            lot: 10,
            ticket,
            ..case.clone()
        });
    }
    for (call, worker) in [
        (SHOW, 0),
        (COUNT, 0),
        (TOTAL, 0),
        (NEXT, 0),
        (NEXT, 1),
        (ORDERS, 3),
        (TURN, 0),
        (RETIRE, 0),
    ] {
        bodies.push(Case {
            call,
            worker,
            lot: 9,
            ..case.clone()
        });
    }
    bodies.push(Case {
        call: OPEN,
        worker: case.floor.workers,
        lot: case.floor.buckets,
        ticket: 0,
        ..case.clone()
    });
    for (kind, lot) in [
        (LOOK, 9),
        (LOOK, 8),
        (LOOK, 10),
        (INSERT, 9),
        (INSERT, 8),
        (INSERT, 10),
        (REMOVE, 7),
        (REMOVE, 8),
        (REMOVE, 11),
    ] {
        with_turns(bodies, case, kind, lot);
    }
}

/// A start, its first turn, its retiring, all orders of it, and all turns of it; where it does not end, those of a full round.
fn with_turns(bodies: &mut Bodies, case: &Case, kind: u8, lot: u64) {
    let mut case = Case {
        call: kind,
        worker: 0,
        lot,
        ticket: case.floor.last_ticket.saturating_add(1),
        ..case.clone()
    };
    bodies.push(case.clone());
    leave(&mut case);
    for call in [TURN, RETIRE] {
        bodies.push(Case {
            call,
            ..case.clone()
        });
    }
    bodies.push(Case {
        call: ORDERS,
        worker: 4,
        ..case.clone()
    });
    let mut desk = brought(&case);
    let turns = (0..13).take_while(|_| desk.turn(0).is_ok()).count();
    case.call = RUN;
    case.turns = vec![0; turns];
    bodies.push(case.clone());
    // the board on which all that was done can move again
    leave(&mut case);
    case.turns.clear();
    bodies.random.go_to(&mut case, 2);
    bodies.push(Case { call: MOVE, ..case });
}
