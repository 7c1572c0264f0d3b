//! The trials (§10) with their numbers, on code that lives and on code made anew from the records.

use reference::desk::{Desk, Floor, List, Manner};
use reference::index::Index;
use reference::record::{Record, INSERT, LOOK, REMOVE};
use reference::report::{Action, Counts, Report};
use reference::sheet::listing;
use reference::word::Snapshot;

/// One bucket, version 0.
fn on_both(workers: u64, version: u32, trial: impl Fn(Desk)) {
    for manner in [Manner::Living, Manner::Remade] {
        trial(Desk::opened(workers, 1, version, manner).unwrap());
    }
}

/// So many turns of one worker, none of which ends a call.
fn go_on(desk: &mut Desk, worker: u64, turns: usize) -> Counts {
    let mut counts = Counts::default();
    for _ in 0..turns {
        let report = desk.turn(worker).unwrap();
        assert_eq!(report.ended, None);
        counts.add(&report);
    }
    counts
}

/// So many turns of one worker, the last of which ends its call with this answer.
fn end(desk: &mut Desk, worker: u64, turns: usize, answer: u64) -> Counts {
    let mut counts = go_on(desk, worker, turns - 1);
    let report = desk.turn(worker).unwrap();
    assert_eq!(report.ended, Some(answer));
    assert!(desk.list.records[worker as usize].is_idle());
    counts.add(&report);
    counts
}

fn sum(parts: &[Counts]) -> (u64, u64) {
    parts.iter().fold((0, 0), |(changes, lost), part| {
        (changes + part.changes, lost + part.lost)
    })
}

fn mark_word(desk: &Desk) -> u64 {
    desk.board.words()[0]
}

/// The marks of the lot's bucket as it is shown.
fn shown_marks(desk: &Desk, lot: u64) -> [u8; 3] {
    let (_, part) = desk.show(lot).unwrap();
    Snapshot::of(part[0]).map
}

/// P2, from which others go on.
fn insert_7(desk: &mut Desk) -> Counts {
    desk.start(INSERT, 0, 7, 1).unwrap();
    end(desk, 0, 11, 1)
}

#[test]
fn p1_look_on_an_empty_bucket() {
    on_both(1, 0, |mut desk| {
        desk.start(LOOK, 0, 7, 0).unwrap();
        end(&mut desk, 0, 6, 0);
    });
}

#[test]
fn p2_insert() {
    on_both(1, 0, |mut desk| {
        insert_7(&mut desk);
        assert_eq!(mark_word(&desk), 4_294_967_297);
    });
}

#[test]
fn p3_insert_at_the_last_version() {
    on_both(1, 4_294_967_295, |mut desk| {
        insert_7(&mut desk);
        assert_eq!(mark_word(&desk), 4_294_967_296);
    });
}

#[test]
fn p4_remove() {
    on_both(1, 0, |mut desk| {
        insert_7(&mut desk);
        desk.start(REMOVE, 0, 7, 0).unwrap();
        end(&mut desk, 0, 4, 1);
        assert_eq!(mark_word(&desk), 1);
    });
}

#[test]
fn p5_insert_of_a_lot_that_stands() {
    on_both(1, 0, |mut desk| {
        insert_7(&mut desk);
        desk.start(INSERT, 0, 7, 2).unwrap();
        assert_eq!(end(&mut desk, 0, 5, 0).changes, 0);
        assert_eq!(desk.floor.last_ticket, 2);
        assert_eq!(desk.start(INSERT, 0, 7, 2), Err(5));
    });
}

#[test]
fn p6_the_sleeper_sheet() {
    let call = |worker: u8, kind: u8| [2, 0, 10, worker, kind, 0, 0, 0, 0, 0, 0, 0, 7].to_vec();
    let insert =
        |ticket: u8| [2, 0, 14, 0, INSERT, 0, 0, 0, 0, 0, 0, 0, 7, 0, 0, 0, ticket].to_vec();
    let turns = |worker: u8, count: u8| {
        let mut field = vec![3, 0, count];
        field.extend(vec![worker; count.into()]);
        field
    };
    let sheet = [
        vec![1, 0, 7, 2, 0, 1, 0, 0, 0, 0],
        insert(1),
        turns(0, 11),
        call(1, REMOVE),
        turns(1, 3),
        call(0, REMOVE),
        turns(0, 4),
        insert(2),
        turns(0, 11),
        turns(1, 5),
    ]
    .concat();
    let whole = "E 11 0 2 1\nE 18 0 3 1\nE 29 0 2 1\nE 34 1 3 2\nT 34 6 1 0\n";
    assert_eq!(listing(&sheet), whole);
}

#[test]
fn p7_tickets() {
    on_both(2, 0, |mut desk| {
        assert_eq!(desk.start(INSERT, 0, 7, 0), Err(5));
        assert_eq!(desk.start(INSERT, 0, 7, 1), Ok(()));
        assert_eq!(desk.start(INSERT, 1, 7, 1), Err(5));
    });
}

#[test]
fn p8_two_inserts_of_one_lot() {
    on_both(2, 0, |mut desk| {
        desk.start(INSERT, 0, 7, 1).unwrap();
        desk.start(INSERT, 1, 7, 2).unwrap();
        let first = go_on(&mut desk, 0, 7);
        let second = go_on(&mut desk, 1, 7);
        let a_swaps = desk.turn(0).unwrap();
        assert_eq!(a_swaps.action, Action::Won);
        let b_swaps = desk.turn(1).unwrap();
        assert_eq!(b_swaps.action, Action::Lost);
        let a_ends = end(&mut desk, 0, 11 - 8, 1);
        let b_ends = end(&mut desk, 1, 13 - 8, 0);
        let mut swaps = Counts::default();
        swaps.add(&a_swaps);
        swaps.add(&b_swaps);
        assert_eq!(sum(&[first, second, swaps, a_ends, b_ends]), (2, 1));
    });
}

#[test]
fn p9_a_full_bucket() {
    on_both(1, 0, |mut desk| {
        for (lot, turns) in [(7, 11), (8, 12), (9, 13)] {
            desk.start(INSERT, 0, lot, lot).unwrap();
            end(&mut desk, 0, turns, 1);
        }
        desk.start(INSERT, 0, 10, 10).unwrap();
        assert_eq!(go_on(&mut desk, 0, 10).full_rounds, 1);
        assert_eq!(desk.list.records[0].place, 1);
        assert_eq!(desk.list.records[0].slot, 0);
    });
}

#[test]
fn p10_lot_0() {
    on_both(1, 0, |mut desk| {
        desk.start(INSERT, 0, 0, 5).unwrap();
        end(&mut desk, 0, 11, 1);
        desk.start(LOOK, 0, 0, 0).unwrap();
        end(&mut desk, 0, 4, 5);
    });
}

#[test]
fn p11_a_mark_word_that_repeats() {
    on_both(3, 0, |mut desk| {
        let (a, b, c) = (0, 1, 2);
        desk.start(INSERT, b, 7, 1).unwrap();
        let b_first = go_on(&mut desk, b, 8);
        desk.start(INSERT, c, 7, 2).unwrap();
        let c_first = end(&mut desk, c, 11, 1);
        let b_then = go_on(&mut desk, b, 18 - 8);
        desk.start(INSERT, a, 8, 3).unwrap();
        let a_first = go_on(&mut desk, a, 8);
        let read = desk.list.records[a as usize].word;
        let b_last = end(&mut desk, b, 19 - 18, 0);
        desk.start(INSERT, c, 9, 4).unwrap();
        assert_ne!(mark_word(&desk), read);
        let c_then = go_on(&mut desk, c, 9);
        assert_eq!(mark_word(&desk), read);
        let a_swaps = desk.turn(a).unwrap();
        assert_eq!(a_swaps.action, Action::Won);
        let mut swap = Counts::default();
        swap.add(&a_swaps);
        let all = [b_first, c_first, b_then, a_first, b_last, c_then, swap];
        assert_eq!(sum(&all), (6, 1));
    });
}

#[test]
fn insert_stopped_after_8_turns() {
    on_both(2, 0, |mut desk| {
        desk.start(INSERT, 0, 7, 1).unwrap();
        go_on(&mut desk, 0, 8);
        assert_eq!(mark_word(&desk), 8_589_934_592);
        assert_eq!(shown_marks(&desk, 7), [2, 0, 0]);
        assert_eq!(desk.count(), Ok(0));
        desk.start(LOOK, 1, 7, 0).unwrap();
        end(&mut desk, 1, 6, 0);
        end(&mut desk, 0, 11 - 8, 1);
        assert_eq!(shown_marks(&desk, 7), [1, 0, 0]);
        assert_eq!(desk.count(), Ok(1));
    });
}

/// §2.9: four slots are taken, and one of them is being inserted from the ninth turn of its insert to the eleventh.
#[test]
fn a_lot_half_written_is_not_counted() {
    for manner in [Manner::Living, Manner::Remade] {
        let mut desk = Desk::opened(1, 2, 0, manner).unwrap();
        for (lot, turns) in [(2, 11), (3, 11), (4, 12)] {
            desk.start(INSERT, 0, lot, lot).unwrap();
            end(&mut desk, 0, turns, 1);
        }
        desk.start(INSERT, 0, 5, 5).unwrap();
        go_on(&mut desk, 0, 8);
        for _ in 9..=11 {
            go_on(&mut desk, 0, 1);
            assert_eq!(shown_marks(&desk, 4), [1, 1, 0]);
            assert_eq!(shown_marks(&desk, 5), [1, 2, 0]);
            assert_eq!(desk.count(), Ok(3));
        }
        end(&mut desk, 0, 1, 1);
        assert_eq!(desk.count(), Ok(4));
    }
}

#[test]
fn worker_63_of_64() {
    on_both(64, 0, |mut desk| {
        assert_eq!(desk.start(LOOK, 63, 7, 0), Ok(()));
        assert_eq!(desk.start(LOOK, 64, 7, 0), Err(2));
        assert!(desk.turn(63).is_ok());
        assert_eq!(desk.turn(64), Err(2));
    });
}

/// A desk of any sizes, on which nothing was opened.
fn bare(words: usize, records: u64) -> Desk {
    let floor = Floor {
        workers: 1,
        buckets: 1,
        last_ticket: 0,
        version: 0,
    };
    let list = List {
        length: records,
        records: vec![Record::idle(); records.min(64) as usize],
    };
    Desk::brought(floor, &vec![0; words], list, Index::made(), Manner::Living)
}

#[test]
fn sizes_that_are_refused() {
    assert_eq!(bare(8, 65).open(65, 1, 0), Err(1));
    assert_eq!(bare(2_056, 1).open(1, 257, 0), Err(1));
    assert_eq!(bare(2_040, 1).open(1, 256, 0), Err(1));
    assert_eq!(bare(2_048, 64).open(64, 256, 0), Ok(()));
}

#[test]
fn a_turn_reports_a_read_and_that_it_goes_on() {
    on_both(1, 5, |mut desk| {
        desk.start(LOOK, 0, 7, 0).unwrap();
        let expected = Report {
            action: Action::Read,
            ended: None,
            full_round: false,
            change: false,
            bucket: 0,
            before: 5,
            after: 5,
        };
        assert_eq!(desk.turn(0), Ok(expected));
        // §4.13: a run without a turn reports a read too, and no word
        let (number, ran) = desk.run(&[], &mut |_, _, _| ());
        assert_eq!((number, ran.counts), (0, Counts::default()));
        let nothing = Report {
            before: 0,
            after: 0,
            ..expected
        };
        assert_eq!(ran.last, nothing);
        assert_eq!(Report::none(), nothing);
    });
}
