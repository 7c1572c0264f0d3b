//! §10.6: the sleeper, as far as turn 29; turn 30 is the one with which it wakes.

use reference::desk::{Desk, Manner};
use reference::record::{INSERT, REMOVE};
use reference::report::Report;

/// Plays it, and shows whoever looks the desk just after each turn, with what the turn reports.
pub fn asleep(manner: Manner, mut look_at: impl FnMut(&Desk, Report)) -> Desk {
    let mut desk = Desk::opened(2, 1, 0, manner).unwrap();
    for (worker, kind, ticket, turns) in [
        (0, INSERT, 1, 11),
        (1, REMOVE, 0, 3),
        (0, REMOVE, 0, 4),
        (0, INSERT, 2, 11),
    ] {
        desk.start(kind, worker, 7, ticket).unwrap();
        for _ in 0..turns {
            let report = desk.turn(worker).unwrap();
            look_at(&desk, report);
        }
    }
    desk
}
