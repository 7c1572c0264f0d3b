//! The display's index (item 9 of the second document): in random histories of opened boards it is what the whole board tells, both
//! questions are answered as by reading all of it, and 11 is never given; on an index of any sort a turn or a retiring gives 11 or keeps it
//! by the sentences of the document, read once more; and other readings of these are told apart.

#[path = "index/histories.rs"]
mod histories;
#[path = "index/readings.rs"]
mod readings;
#[path = "index/stored.rs"]
mod stored;

use histories::{valid_on, History};
use readings::{bits, AS_LAID_DOWN, NEXT_AS_LAID_DOWN, OTHERS, OTHER_NEXTS};
use reference::case::{Case, NEXT, RETIRE, RUN, TOTAL, TURN};
use reference::cases;
use reference::desk::{Desk, Manner};
use reference::index::Index;
use reference::outcome::{brought, outcome, Answer};
use reference::random::Random;
use reference::record::{Record, INSERT, LOOK, REMOVE};
use std::collections::BTreeSet;
use stored::{act_of, index_left, stored_acts};

const MANNERS: [Manner; 2] = [Manner::Living, Manner::Remade];
const WORD_ENDS: [u64; 8] = [0, 63, 64, 127, 128, 191, 192, 255];

// ---- opened boards

const ACTS: usize = 400;

fn each_history(mut look_at: impl FnMut(&mut History)) {
    for manner in MANNERS {
        for seed in 0..500 {
            look_at(&mut History::opened(seed, manner));
        }
    }
}

/// For each bucket whether a slot of it is valid, by reading all of the board.
fn full_reading(desk: &Desk) -> Vec<bool> {
    let words = desk.board.words();
    words.chunks(8).map(|bucket| valid_on(bucket) > 0).collect()
}

/// The total, which a count tells too, and each bit, with those that are unused.
fn assert_true(desk: &Desk) {
    let mut occupied = full_reading(desk);
    occupied.resize(256, false);
    let total = valid_on(&desk.board.words());
    assert_eq!(desk.index.0.len(), 5);
    assert_eq!(desk.index.0[0], total);
    assert_eq!(bits(&desk.index.0), occupied);
    assert_eq!((desk.total(), desk.count()), (Ok(total), Ok(total)));
}

/// By a walk over the board.
fn assert_next(desk: &Desk, from: u64) {
    let occupied = full_reading(desk);
    let next = (0..desk.floor.buckets).find(|&it| it >= from && occupied[it as usize]);
    assert_eq!(desk.next_occupied(from), Ok(next));
}

/// After each start, turn, run, retiring and opening, done or refused.
#[test]
fn an_opened_board_has_a_true_index() {
    let (mut met, mut most) = (BTreeSet::new(), 0);
    each_history(|history| {
        for _ in 0..ACTS {
            history.go_on();
            assert_true(&history.desk);
            let n = history.desk.floor.buckets;
            for from in [0, n - 1, n, history.random.below(n), u64::MAX] {
                assert_next(&history.desk, from);
            }
            most = most.max(history.desk.index.total());
        }
        for from in 0..=history.desk.floor.buckets + 1 {
            assert_next(&history.desk, from);
        }
        met.extend(history.refusals.iter().copied());
    });
    println!("{most} lots at most");
    assert!(most > 10);
    // neither 7 nor 11
    assert_eq!(met, BTreeSet::from([1, 2, 4, 5, 6]));
}

/// At either end of each word a bucket is occupied and emptied again by turns.
#[test]
fn bits_come_and_go_in_every_word() {
    let mut met = BTreeSet::new();
    each_history(|history| {
        for _ in 0..ACTS {
            history.go_on();
        }
        for act in &history.acts {
            let [before, after] = act.words.map(|word| valid_on(&[word]) > 0);
            if before != after {
                met.insert((act.bucket, after));
            }
        }
    });
    for bucket in WORD_ENDS {
        assert!(met.contains(&(bucket, true)) && met.contains(&(bucket, false)));
    }
}

/// Not even a lot of the first bucket is in word 0 but by the total; and the last bucket of the largest board has the highest bit.
#[test]
fn where_each_bit_is() {
    for manner in MANNERS {
        let mut desk = Desk::opened(1, 256, 5, manner).unwrap();
        let mut index = [0; 5];
        for (lots, bucket) in (1..).zip(WORD_ENDS) {
            desk.start(INSERT, 0, bucket, lots).unwrap();
            assert_eq!(desk.run(&[0; 10], &mut |_, _, _| ()).0, 0);
            assert_eq!(desk.index.0, index);
            assert_eq!(desk.turn(0).unwrap().ended, Some(1));
            let word = 1 + bucket as usize / 64;
            index[word] += if bucket % 64 == 0 { 1 } else { 1 << 63 };
            index[0] = lots;
            assert_eq!(desk.index.0, index);
        }
        assert_eq!(desk.index.0[1..], [(1 << 63) + 1; 4]);
        // a second lot of a bucket counts, and its bit stays until both are closed
        desk.start(INSERT, 0, 256, 9).unwrap();
        while desk.turn(0).is_ok() {}
        for (lot, total, bits) in [(0, 8, (1 << 63) + 1), (256, 7, 1 << 63)] {
            desk.start(REMOVE, 0, lot, 0).unwrap();
            while desk.turn(0).is_ok() {}
            assert_eq!(desk.index.0[..2], [total, bits]);
        }
        desk.open(1, 256, 5).unwrap();
        assert_eq!(desk.index, Index::made());
        assert_eq!(desk.next_occupied(0), Ok(None));
    }
}

/// A slot is not valid between its claim and its commit, and a retiring that frees it leaves the index.
#[test]
fn a_lot_half_written_is_not_in_it() {
    for manner in MANNERS {
        let mut desk = Desk::opened(1, 65, 0, manner).unwrap();
        for turns in 0..=10 {
            let ticket = desk.floor.last_ticket + 1;
            desk.start(INSERT, 0, 64, ticket).unwrap();
            assert_eq!(desk.run(&vec![0; turns], &mut |_, _, _| ()).0, 0);
            assert_eq!((desk.total(), desk.next_occupied(0)), (Ok(0), Ok(None)));
            desk.retire(0).unwrap();
            assert_eq!(desk.index, Index::made());
        }
    }
}

// ---- an index of any sort

#[test]
fn stored_cases_go_by_the_sentences() {
    let (mut refused, mut kept) = (0, 0);
    for (act, left) in stored_acts() {
        assert_eq!(AS_LAID_DOWN.after(&act), left, "{act:?}");
        match left {
            None => refused += 1,
            Some(_) => kept += 1,
        }
    }
    println!("{refused} refused by 11, {kept} kept");
    assert!(refused > 100 && kept > 3_000);
}

/// Each of these is wrong, and some stored case shows it.
#[test]
fn other_readings_are_told_apart_by_stored_cases() {
    let acts = stored_acts();
    for (name, reading) in OTHERS {
        let told_apart = acts
            .iter()
            .filter(|(act, left)| reading.after(act) != *left);
        let count = told_apart.count();
        println!("{count:5} {name}");
        assert!(count > 0, "{name}");
    }
}

/// Most of them are seen on opened boards too. The others are wrong only where an index is not true, or a mark is one that no history
/// leads to.
#[test]
fn other_readings_are_told_apart_by_histories() {
    let mut missing: BTreeSet<&str> = OTHERS.iter().map(|(name, _)| *name).collect();
    each_history(|history| {
        for _ in 0..ACTS {
            history.go_on();
        }
        for act in &history.acts {
            let right = AS_LAID_DOWN.after(act);
            assert!(right.is_some());
            for (name, reading) in OTHERS {
                if missing.contains(name) && reading.after(act) != right {
                    missing.remove(name);
                }
            }
        }
    });
    let only_elsewhere = [
        "3N of the largest board",
        "3N, and nothing less",
        "any total is high enough",
        "any total is low enough",
        "commits and closes alone count",
        "only a bit that is not set is looked at",
        "only a bit that is set is looked at",
        "retirings do not count",
        "the bit is not looked at",
        "the board's own total alone",
        "the total is taken from the board",
        "unused bits are taken away",
    ];
    assert_eq!(missing, BTreeSet::from(only_elsewhere));
}

/// A total or some bits are another than the board's, or the whole index is.
fn any_index(random: &mut Random, index: &mut [u64]) {
    match random.below(6) {
        0 => index[0] = random.below(10),
        1 => index[0] = random.any(),
        2 => index[1] ^= 1 << random.below(3),
        3 => index[1 + random.below(4) as usize] = random.any(),
        4 => index.fill_with(|| random.any()),
        _ => (),
    }
}

/// On any sound board, with any index: 11 or what it leaves is by the sentences, and it decides on nothing but that.
#[test]
fn an_index_decides_on_11_alone() {
    let mut random = Random::new(40);
    let (mut refused, mut kept) = (0, 0);
    for _ in 0..30_000 {
        let call = random.pick(&[TURN, TURN, RETIRE]);
        let mut case = random.sound_sized(call, 2, 3);
        let with_true_index = outcome(&case);
        let index = case.index.clone();
        any_index(&mut random, &mut case.index);
        let came = outcome(&case);
        if let Some(act) = act_of(&case, &came) {
            assert_eq!(AS_LAID_DOWN.after(&act), index_left(&came));
        }
        if came.answer.number() == 11 {
            refused += 1;
            continue;
        }
        kept += usize::from(case.index != index);
        assert_eq!(came.answer, with_true_index.answer);
        assert_eq!(came.board, with_true_index.board);
        assert_eq!(came.records, with_true_index.records);
        assert_eq!(came.floor, with_true_index.floor);
    }
    println!("{refused} refused by 11, {kept} others of an untrue index");
    assert!(refused > 1_000 && kept > 1_000);
}

// ---- the questions

#[test]
fn stored_questions_are_answered_by_the_index() {
    let mut questions = Vec::new();
    for piece in cases::stored() {
        let case = Case::read(&piece[2..]);
        match outcome(&case).answer {
            Answer::Total(Ok(total)) => assert_eq!(total, case.index[0]),
            Answer::Next(Ok(next)) => questions.push((case, next)),
            _ => (),
        }
    }
    for (case, next) in &questions {
        let bits = bits(&case.index);
        let right = NEXT_AS_LAID_DOWN(&bits, case.worker, case.floor.buckets);
        assert_eq!(*next, right);
    }
    for (name, reading) in OTHER_NEXTS {
        let is_wrong = |(case, next): &&(Case, Option<u64>)| {
            reading(&bits(&case.index), case.worker, case.floor.buckets) != *next
        };
        let count = questions.iter().filter(is_wrong).count();
        println!("{count:5} {name}");
        assert!(count > 0, "{name}");
    }
}

#[test]
fn any_bits_from_anywhere() {
    let mut random = Random::new(41);
    for _ in 0..3_000 {
        let n = 1 + random.below(256);
        let mut case = random.sound_sized(NEXT, 1, n);
        let empty = random.below(5) as usize;
        for (at, word) in case.index.iter_mut().enumerate() {
            *word = if at < empty {
                0
            } else {
                random.any() & random.any()
            };
        }
        let (desk, bits) = (brought(&case), bits(&case.index));
        for from in [0, 1, 63, 64, n - 1, n, n + 1, random.below(n), u64::MAX] {
            let next = NEXT_AS_LAID_DOWN(&bits, from, n);
            assert_eq!(desk.next_occupied(from), Ok(next));
        }
        assert_eq!(desk.total(), Ok(case.index[0]));
        assert_eq!(desk.index.0, case.index);
    }
}

// ---- refusals

/// §7.2: of several reasons the first, and each alone; then it is done.
#[test]
fn refusals_in_their_order() {
    for call in [TURN, RUN, RETIRE] {
        let mut random = Random::new(42);
        let mut case = random.sound_sized(call, 2, 1);
        let holder = random.holding_record();
        case.list.records = vec![holder, Record { slot: 3, ..holder }];
        case.board[7] = 1;
        let index = case.index.clone();
        case.index = vec![u64::MAX; 4];
        let number = |case: &Case, worker: u64| {
            let case = Case {
                worker,
                turns: vec![worker as u8],
                ..case.clone()
            };
            outcome(&case).answer.number()
        };
        for worker in [0, 1, 2] {
            assert_eq!(number(&case, worker), 1);
        }
        case.index = vec![u64::MAX; 5];
        assert_eq!((number(&case, 2), number(&case, 1)), (2, 3));
        case.list.records[1] = Record::idle();
        assert_eq!((number(&case, 1), number(&case, 0)), (6, 7));
        case.board[7] = 0;
        assert_eq!(number(&case, 0), 11);
        case.index = index;
        assert_eq!(number(&case, 0), 0);
    }
}

/// Every length but five, for whoever is given an index.
#[test]
fn lengths() {
    let mut random = Random::new(43);
    for length in 0..=13 {
        let refused = if length == 5 { 0 } else { 1 };
        for (call, number) in [
            (0, refused),
            (TURN, refused),
            (RUN, refused),
            (RETIRE, refused),
            (TOTAL, refused),
            (NEXT, refused),
            (1, 0),
            (2, 0),
            (3, 0),
            (6, 0),
            (7, 0),
            (8, 0),
        ] {
            let mut case = random.sound(call);
            case.index.resize(length, 0);
            assert_eq!(outcome(&case).answer.number(), number);
        }
    }
}

/// A run that 11 stops tells the turns before, which stand, also in the index.
#[test]
fn a_stop_by_11_comes_with_the_counts() {
    for manner in MANNERS {
        let mut desk = Desk::opened(2, 2, 0, manner).unwrap();
        desk.start(INSERT, 0, 6, 1).unwrap();
        desk.start(LOOK, 1, 7, 0).unwrap();
        // bucket 1 is told to be occupied, and is not
        desk.index.0[1] = 2;
        let turns = [vec![0; 11], vec![1, 0]].concat();
        let (number, ran) = desk.run(&turns, &mut |_, _, _| ());
        assert_eq!((number, ran.counts.turns, ran.counts.changes), (11, 11, 2));
        assert_eq!(ran.last.ended, Some(1));
        assert_eq!(desk.index.0, [1, 3, 0, 0, 0]);
        assert_eq!(desk.run(&[1], &mut |_, _, _| ()).0, 11);
        assert_eq!(desk.retire(1), Ok(()));
        assert_eq!(desk.index.0, [1, 3, 0, 0, 0]);
    }
}
