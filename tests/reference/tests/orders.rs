//! All orders: classes whose counts are laid down or can be told beforehand; the same counts by walking each order on its own; and how
//! much walking the cases ask for.

#[path = "orders/one_by_one.rs"]
mod one_by_one;

use one_by_one::{by_lists, one_by_one};
use reference::case::{Case, ORDERS};
use reference::cases;
use reference::cases::length::{shorten, MOST_WALKED};
use reference::desk::{Desk, Manner};
use reference::outcome::brought;
use reference::random::Random;
use reference::record::{Record, INSERT, LOOK, REMOVE};
use std::collections::BTreeSet;

/// One bucket at version 0, and for each of these workers a call that is just started; tickets count from 1.
fn started(calls: &[(u8, u64)]) -> Desk {
    let mut desk = Desk::opened(calls.len() as u64, 1, 0, Manner::Remade).unwrap();
    start_all(&mut desk, calls);
    desk
}

fn start_all(desk: &mut Desk, calls: &[(u8, u64)]) {
    for (worker, &(kind, lot)) in calls.iter().enumerate() {
        let ticket = desk.floor.last_ticket + 1;
        desk.start(kind, worker as u64, lot, ticket).unwrap();
    }
}

fn counts(desk: &Desk, depth: u64) -> [u64; 4] {
    desk.orders(depth).unwrap().counts()
}

/// §18.6. A look on an empty bucket has six turns, so the orders are the ways to choose six of twelve.
#[test]
fn two_looks_on_an_empty_bucket() {
    let desk = started(&[(LOOK, 7), (LOOK, 7)]);
    assert_eq!(counts(&desk, 24), [924, 0, 0, 0]);
    assert_eq!(counts(&desk, 12), [924, 0, 0, 0]);
    assert_eq!(counts(&desk, 11), [0, 924, 0, 0]);
    assert_eq!(counts(&desk, 1), [0, 2, 0, 0]);
}

/// The ways to deal eighteen turns to three.
#[test]
fn three_looks_on_an_empty_bucket() {
    let desk = started(&[(LOOK, 7), (LOOK, 8), (LOOK, 9)]);
    assert_eq!(counts(&desk, 24), [17_153_136, 0, 0, 0]);
    assert_eq!(counts(&desk, 17), [0, 17_153_136, 0, 0]);
}

/// §18.1.
#[test]
fn all_idle() {
    for workers in 1..=3 {
        let desk = Desk::opened(workers, 1, 5, Manner::Remade).unwrap();
        for depth in [1, 24] {
            assert_eq!(counts(&desk, depth), [1, 0, 0, 0]);
        }
    }
}

/// The class of §10.8. No walk is finished before its 16th turn (eleven of one and five of the other, who finds the lot), and no swap is
/// lost before (after seven of each, one claims and the other loses).
#[test]
fn two_inserts_of_one_lot() {
    let desk = started(&[(INSERT, 7), (INSERT, 7)]);
    for (depth, expected) in [
        (6, [0, 64, 0, 0]),
        (12, [0, 4_094, 0, 0]),
        (14, [0, 16_172, 0, 0]),
        (16, [66, 60_436, 12_868, 1]),
        (20, [66, 533_568, 533_412, 1]),
        (24, [433_116, 1_766_314, 2_199_364, 1]),
    ] {
        assert_eq!(counts(&desk, depth), expected);
        if depth <= 16 {
            assert_eq!(one_by_one(&desk, depth).counts, expected);
        }
    }
}

#[test]
fn three_inserts_of_one_lot() {
    let desk = started(&[(INSERT, 7), (INSERT, 7), (INSERT, 7)]);
    assert_eq!(counts(&desk, 6), [0, 729, 0, 0]);
    assert_eq!(one_by_one(&desk, 6).counts, [0, 729, 0, 0]);
    assert_eq!(counts(&desk, 16), [0, 42_944_382, 38_604, 1]);
    let to_the_last = [148_338, 226_534_630_500, 190_232_909_874, 2];
    assert_eq!(counts(&desk, 24), to_the_last);
}

/// The lot of §10.6 with both removes just started. Of two whole ones the later loses no swap; in any other order it does, begins again,
/// and finds nothing.
#[test]
fn two_removes_of_one_lot() {
    let mut desk = Desk::opened(2, 1, 0, Manner::Remade).unwrap();
    desk.start(INSERT, 0, 7, 1).unwrap();
    while desk.turn(0).is_ok() {}
    start_all(&mut desk, &[(REMOVE, 7), (REMOVE, 7)]);
    assert_eq!(counts(&desk, 8), [2, 68, 68, 1]);
    assert_eq!(counts(&desk, 12), [70, 0, 68, 1]);
    assert_eq!(counts(&desk, 24), [70, 0, 68, 1]);
    assert_eq!(one_by_one(&desk, 24).counts, [70, 0, 68, 1]);
}

/// Calls at any places, to which a history of an opened board has led; workers may have been retired in it.
fn any_history(random: &mut Random) -> Desk {
    let workers = 1 + random.below(3);
    let version = random.pick(&[0, u32::MAX - 1, u32::MAX]);
    let mut desk = Desk::opened(workers, 1, version, Manner::Remade).unwrap();
    for _ in 0..random.below(30) {
        let worker = random.below(workers);
        let kind = random.pick(&[LOOK, INSERT, INSERT, REMOVE]);
        let (lot, ticket) = (random.below(4), desk.floor.last_ticket + 1);
        let _ = desk.start(kind, worker, lot, ticket);
        let turns = random.below(14);
        (0..turns).take_while(|_| desk.turn(worker).is_ok()).count();
        if random.once_in(6) {
            // refused where the worker is idle
            let _ = desk.retire(worker);
        }
    }
    desk
}

/// Any sound records on any sound bucket.
fn any_state(random: &mut Random) -> Desk {
    let workers = 1 + random.below(3);
    brought(&random.sound_sized(ORDERS, workers, 1))
}

/// The last depth to which there are no more turns than that.
fn deepest(desk: &Desk, most: u64) -> u64 {
    let mut walking = desk.outset(1).unwrap();
    let depths = (1..=24).take_while(|_| {
        walking.go_on(&mut |_, _| ());
        walking.turns <= most
    });
    depths.count() as u64
}

fn turns_walked(desk: &Desk, depth: u64) -> u64 {
    let mut walking = desk.outset(depth).unwrap();
    for _ in 0..depth {
        walking.go_on(&mut |_, _| ());
    }
    walking.turns
}

#[test]
fn one_by_one_they_come_to_the_same() {
    let mut random = Random::new(6);
    let (mut finished, mut cut, mut lost) = (0, 0, BTreeSet::new());
    for at in 0..2_000 {
        let desk = match at % 2 {
            0 => any_history(&mut random),
            _ => any_state(&mut random),
        };
        let deepest = deepest(&desk, 2_000);
        for depth in [1 + random.below(deepest), deepest] {
            let came = counts(&desk, depth);
            let walked = one_by_one(&desk, depth);
            assert_eq!(came, walked.counts);
            assert_eq!(turns_walked(&desk, depth), walked.turns);
            finished += came[0];
            cut += came[1];
            lost.insert(came[3]);
        }
    }
    println!("{finished} finished walks, {cut} cut, most lost: {lost:?}");
    assert!(finished > 10_000 && cut > 100_000);
    assert!(lost.is_superset(&BTreeSet::from([0, 1, 2, 3])));
}

#[test]
fn the_orders_are_those_lists() {
    let mut random = Random::new(7);
    for at in 0..100 {
        let desk = match at % 2 {
            0 => any_history(&mut random),
            _ => any_state(&mut random),
        };
        for depth in 1..=8 {
            assert_eq!(counts(&desk, depth.into()), by_lists(&desk, depth));
        }
    }
}

/// §18.5.
#[test]
fn the_desk_stays_as_it_was() {
    let mut random = Random::new(8);
    for _ in 0..200 {
        let desk = any_state(&mut random);
        let (floor, words, list) = (desk.floor, desk.board.words(), desk.list.clone());
        desk.orders(8).unwrap();
        assert_eq!(desk.floor, floor);
        assert_eq!(desk.board.words(), words);
        assert_eq!(desk.list, list);
    }
}

/// §7.2: of several reasons the first, and each alone.
#[test]
fn refusals_in_their_order() {
    let mut case = Random::new(9).sound_sized(ORDERS, 3, 1);
    let orders = |case: &Case| brought(case).orders(case.worker).err();
    case.worker = 24;
    assert_eq!(orders(&case), None);
    case.list.records.fill(Record::idle());
    case.board[7] = 1;
    assert_eq!(orders(&case), Some(7));
    for worker in [2, 1, 0] {
        case.list.records.fill(Record::idle());
        // kind 0 alone does not make it idle (§3.3)
        case.list.records[worker].held = 0;
        assert_eq!(orders(&case), Some(3));
    }
    for depth in [0, 25, 257, u64::MAX] {
        case.worker = depth;
        assert_eq!(orders(&case), Some(10));
    }
    case.board.push(0);
    assert_eq!(orders(&case), Some(1));
}

#[test]
fn sizes_of_a_small_class() {
    for (workers, buckets, refusal) in [
        (1, 1, None),
        (3, 1, None),
        (4, 1, Some(10)),
        (64, 1, Some(10)),
        (1, 2, Some(10)),
        (3, 256, Some(10)),
    ] {
        let desk = Desk::opened(workers, buckets, 0, Manner::Remade).unwrap();
        assert_eq!(desk.orders(24).err(), refusal);
    }
    for (workers, buckets) in [(65, 1), (0, 1), (1, 257), (1, 0)] {
        let mut case = Random::new(9).sound_sized(ORDERS, 1, 1);
        (case.floor.workers, case.floor.buckets) = (workers, buckets);
        case.list.length = workers;
        case.board.resize(8 * buckets as usize, 0);
        assert_eq!(brought(&case).orders(24), Err(1));
    }
}

#[test]
fn no_case_asks_for_a_long_walk() {
    let mut longest = 0;
    for piece in [cases::stored(), cases::fresh(5, 7_000)].concat() {
        let case = Case::read(&piece[2..]);
        let desk = brought(&case);
        if case.call == ORDERS && desk.outset(case.worker).is_ok() {
            longest = longest.max(turns_walked(&desk, case.worker));
        }
    }
    assert!((MOST_WALKED / 2..=MOST_WALKED).contains(&longest));
}

#[test]
fn a_depth_is_lowered_no_more_than_needed() {
    let mut random = Random::new(10);
    for _ in 0..300 {
        let mut case = random.sound(ORDERS);
        case.worker = 24;
        let desk = brought(&case);
        shorten(&mut case);
        assert_eq!(case.worker, deepest(&desk, MOST_WALKED));
    }
}
