//! Code that lives from the start of a call to its end, and code made anew from the record at each turn, agree.

use reference::desk::{Desk, Manner};
use reference::random::Random;
use reference::record::{INSERT, LOOK, REMOVE};
use reference::sheet::{listing, listing_in};
use reference::sheets;
use std::collections::BTreeSet;

fn assert_same(one: &Desk, other: &Desk) {
    assert_eq!(one.floor, other.floor);
    assert_eq!(one.board.words(), other.board.words());
    assert_eq!(one.list, other.list);
    assert_eq!(one.index, other.index);
}

/// The kinds and places of calls.
type Places = BTreeSet<(u8, u8)>;

/// One random history on two desks; the places that were met, and those from which somebody was retired.
fn history(seed: u64, met: &mut Places, retired: &mut Places) {
    let mut random = Random::new(seed);
    let (w, n) = (1 + random.below(4), 1 + random.below(2));
    let version = random.any() as u32;
    let mut living = Desk::opened(w, n, version, Manner::Living).unwrap();
    let mut remade = Desk::opened(w, n, version, Manner::Remade).unwrap();
    for _ in 0..400 {
        let worker = random.below(w);
        let record = living.list.records[worker as usize];
        if record.is_idle() {
            let kind = random.pick(&[LOOK, INSERT, INSERT, REMOVE]);
            let (lot, ticket) = (random.below(5), living.floor.last_ticket + 1);
            assert_eq!(living.start(kind, worker, lot, ticket), Ok(()));
            assert_eq!(remade.start(kind, worker, lot, ticket), Ok(()));
        }
        for _ in 0..random.below(6) {
            let record = living.list.records[worker as usize];
            met.insert((record.kind, record.place));
            assert_eq!(living.turn(worker), remade.turn(worker));
        }
        if random.once_in(6) {
            let record = living.list.records[worker as usize];
            retired.insert((record.kind, record.place));
            assert_eq!(living.retire(worker), remade.retire(worker));
        }
        assert_same(&living, &remade);
        assert!(!living.list.records.iter().any(|record| record.is_broken()));
        assert!(living.count().is_ok());
    }
}

#[test]
fn on_random_histories() {
    let (mut met, mut retired) = (BTreeSet::new(), BTreeSet::new());
    for seed in 0..600 {
        history(seed, &mut met, &mut retired);
    }
    // idle, which is refused, four places of a look, ten of an insert, four of a remove
    assert_eq!(met.len(), 1 + 4 + 10 + 4);
    assert_eq!(retired, met);
}

#[test]
fn on_fresh_sheets() {
    let mut refusals = BTreeSet::new();
    for sheet in sheets::fresh(3, 3_000) {
        let listed = listing(&sheet);
        assert_eq!(listing_in(Manner::Remade, &sheet), listed);
        let last = listed.lines().last().unwrap();
        let mut words = last.split(' ');
        match (words.next(), words.next()) {
            (Some("R"), Some(number)) => refusals.insert(number.to_string()),
            (Some("T"), _) => refusals.insert("0".to_string()),
            _ => panic!("{last}"),
        };
    }
    let all = ["0", "1", "2", "4", "5", "6", "8", "9"].map(String::from);
    assert_eq!(refusals, BTreeSet::from(all));
}
