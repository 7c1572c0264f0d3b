//! The turns and retirings of cases, as the sentences of the document speak of them.

use crate::histories::valid_on;
use crate::readings::{Act, RETIRED};
use reference::case::{Case, RETIRE, TURN};
use reference::cases;
use reference::outcome::{outcome, Outcome};
use reference::record::NONE;

/// A turn or a retiring of a case, with what the document's sentences speak of; none where another number refuses it, or no bucket is
/// touched.
pub fn act_of(case: &Case, came: &Outcome) -> Option<Act> {
    if !matches!(case.call, TURN | RETIRE) || !matches!(came.answer.number(), 0 | 11) {
        return None;
    }
    let record = case.list.records[case.worker as usize];
    let bucket = record.key % case.floor.buckets;
    let at = 8 * bucket as usize;
    let touches = case.call == TURN || record.held != NONE;
    touches.then(|| Act {
        n: case.floor.buckets,
        bucket,
        words: [case.board[at], came.board[at]],
        place: if case.call == TURN {
            record.place
        } else {
            RETIRED
        },
        index: case.index.clone().try_into().unwrap(),
        on_board: valid_on(&case.board),
    })
}

/// The index that the case leaves; none where it is refused.
pub fn index_left(came: &Outcome) -> Option<[u64; 5]> {
    let left = came.index.clone().try_into().unwrap();
    (came.answer.number() == 0).then_some(left)
}

/// The stored cases that touch a bucket of an index of five words, and the index each leaves.
pub fn stored_acts() -> Vec<(Act, Option<[u64; 5]>)> {
    let stored = cases::stored().into_iter().filter_map(|piece| {
        let case = Case::read(&piece[2..]);
        let came = outcome(&case);
        act_of(&case, &came).map(|act| (act, index_left(&came)))
    });
    stored.collect()
}
