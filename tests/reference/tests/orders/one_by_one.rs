//! Each order walked on its own, in two ways that share nothing with the table of states but the turn. Records keep all their fields here,
//! with how long each worker is asleep (§20.1).

use reference::desk::{Desk, List, Manner};
use reference::index::Index;
use reference::record::Record;
use reference::report::Action;
use std::collections::BTreeSet;

/// What a walk of each order on its own comes to, and how many turns it takes if one begins where the last one left the way.
#[derive(Default)]
pub struct Walked {
    pub counts: [u64; 4],
    pub turns: u64,
}

/// By recursion over the turns that are left.
pub fn one_by_one(desk: &Desk, depth: u64) -> Walked {
    let mut walked = Walked::default();
    let records = desk.list.records.clone();
    walk(desk, &desk.board.words(), &records, depth, 0, &mut walked);
    walked
}

fn walk(desk: &Desk, words: &[u64], records: &[Record], left: u64, lost: u64, sums: &mut Walked) {
    let finished = records.iter().all(Record::is_idle);
    if finished || left == 0 {
        sums.counts[if finished { 0 } else { 1 }] += 1;
        sums.counts[2] += lost;
        sums.counts[3] = sums.counts[3].max(lost);
        return;
    }
    let busy = (0..records.len()).filter(|&worker| !records[worker].is_idle());
    for worker in busy {
        let mut next = again(desk, words, records, Manner::Remade);
        let report = next.turn(worker as u64).unwrap();
        sums.turns += 1;
        let lost = lost + u64::from(report.action == Action::Lost);
        let (words, records) = (next.board.words(), &next.list.records);
        walk(desk, &words, records, left - 1, lost, sums);
    }
}

/// A desk of the same floor with these words and records, and an index of its own.
fn again(desk: &Desk, words: &[u64], records: &[Record], manner: Manner) -> Desk {
    let list = List {
        length: desk.list.length,
        records: records.to_vec(),
    };
    Desk::brought(desk.floor, words, list, Index::counted(words), manner)
}

/// By §18.1 to the letter: every list of so many numbers is run from the outset, on code that lives, and is an order as far as it is not
/// refused, if all are idle there or the depth is used up.
pub fn by_lists(desk: &Desk, depth: u32) -> [u64; 4] {
    let workers = desk.list.records.len() as u64;
    let (mut orders, mut sums) = (BTreeSet::new(), [0; 4]);
    for number in 0..workers.pow(depth) {
        let digits = (0..depth).map(|at| (number / workers.pow(at) % workers) as u8);
        let mut turns: Vec<u8> = digits.collect();
        let (words, records) = (desk.board.words(), &desk.list.records);
        let mut run = again(desk, &words, records, Manner::Living);
        let (refusal, ran) = run.run(&turns, &mut |_, _, _| ());
        let finished = run.list.records.iter().all(Record::is_idle);
        if refusal != 0 && !finished {
            continue;
        }
        turns.truncate(ran.counts.turns as usize);
        if orders.insert(turns) {
            sums[if finished { 0 } else { 1 }] += 1;
            sums[2] += ran.counts.lost;
            sums[3] = ran.counts.lost.max(sums[3]);
        }
    }
    assert_eq!(orders.len() as u64, sums[0] + sums[1]);
    sums
}
