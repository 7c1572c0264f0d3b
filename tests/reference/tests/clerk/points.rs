//! What the histories together must meet, so that the checks are not passed for want of anything to check.

use crate::checks::Ended;
use reference::desk::Refusal;
use reference::record::{Record, INSERT, LOOK, NONE, REMOVE};
use reference::report::{Action, Report};
use std::collections::BTreeSet;

#[derive(Clone, Copy, Debug, PartialEq, Eq, PartialOrd, Ord)]
pub enum Point {
    /// A look answers a ticket that is no longer its lot's.
    Outdated,
    /// A look answers 0 though its lot stood at its first turn and at its last.
    Missed,
    /// An insert that holds a slot answers 0.
    FreesHeld,
    /// A swap at this place is lost.
    Lost(u8),
    FullRound,
    /// A call of this kind has its moments strictly between its first and its last turn, and only there.
    OnlyBetween(u8),
    /// The version goes from 4,294,967,295 to 0, by a commit or by a retiring.
    Wraps {
        retiring: bool,
    },
    /// A call of this kind is dropped at this place.
    Retired {
        kind: u8,
        place: u8,
        holding: bool,
    },
    /// A worker is retired and has a whole call after that.
    Returns,
    Refused(Refusal),
}

/// All that the histories must meet. There is nothing else of this sort: on an opened board nothing is refused for another reason, and only
/// an insert holds a slot: it may at places 1 to 5, it does not at 6, and it does at 7 to 10.
pub fn points() -> BTreeSet<Point> {
    let mut points = BTreeSet::from([
        Point::Outdated,
        Point::Missed,
        Point::FreesHeld,
        Point::Lost(6),
        Point::Lost(9),
        Point::Lost(13),
        Point::FullRound,
        Point::OnlyBetween(LOOK),
        Point::OnlyBetween(INSERT),
        Point::OnlyBetween(REMOVE),
        Point::Wraps { retiring: false },
        Point::Wraps { retiring: true },
        Point::Returns,
        Point::Refused(2),
        Point::Refused(4),
        Point::Refused(5),
        Point::Refused(6),
    ]);
    for (kind, places, holding) in [
        (LOOK, &[2, 3, 4, 5][..], false),
        (INSERT, &[1, 2, 3, 4, 5, 6], false),
        (INSERT, &[1, 2, 3, 4, 5, 7, 8, 9, 10], true),
        (REMOVE, &[1, 11, 12, 13], false),
    ] {
        points.extend(places.iter().map(|&place| Point::Retired {
            kind,
            place,
            holding,
        }));
    }
    points
}

/// Notes what a turn that is done from this record meets.
pub fn meet_turn(met: &mut BTreeSet<Point>, record: &Record, report: &Report) {
    if report.action == Action::Lost {
        met.insert(Point::Lost(record.place));
    }
    if report.full_round {
        met.insert(Point::FullRound);
    }
    if record.place == 10 && report.ended == Some(0) {
        met.insert(Point::FreesHeld);
    }
    if wraps(report.before, report.after) {
        met.insert(Point::Wraps { retiring: false });
    }
}

fn wraps(before: u64, after: u64) -> bool {
    (before as u32, after as u32) == (u32::MAX, 0)
}

/// Notes what a retiring from this record meets; the mark word of its bucket was the one, and is the other.
pub fn meet_retiring(met: &mut BTreeSet<Point>, record: &Record, [before, after]: [u64; 2]) {
    met.insert(Point::Retired {
        kind: record.kind,
        place: record.place,
        holding: record.held != NONE,
    });
    if wraps(before, after) {
        met.insert(Point::Wraps { retiring: true });
    }
}

/// Notes what an ended call meets; its lot had these tickets, or none, after its first turn and after its last.
pub fn meet_end(met: &mut BTreeSet<Point>, ended: &Ended, tickets: [Option<u64>; 2]) {
    let Ended { call, answer, .. } = ended;
    if call.kind == LOOK && *answer != 0 && tickets[1] != Some(*answer) {
        met.insert(Point::Outdated);
    }
    if call.kind == LOOK && *answer == 0 && tickets.iter().all(Option::is_some) {
        met.insert(Point::Missed);
    }
    let at_an_end = |&turn: &usize| turn == call.first || turn == ended.last;
    if !ended.moments.iter().any(at_an_end) {
        met.insert(Point::OnlyBetween(call.kind));
    }
}
