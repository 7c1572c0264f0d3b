//! Schedules: an opening, and then starts, turns and retirings, of which some may be refused.

use reference::random::Random;

/// The numbers stand in the order worker, lot, ticket; or worker, how many turns; or it is the worker alone.
#[derive(Clone, Copy, Debug, PartialEq, Eq)]
pub enum Event {
    Look(u64, u64),
    Insert(u64, u64, u64),
    Remove(u64, u64),
    Turns(u64, usize),
    Retire(u64),
}

#[derive(Clone, Debug)]
pub struct Schedule {
    pub workers: u64,
    pub buckets: u64,
    pub version: u32,
    pub events: Vec<Event>,
}

/// A schedule that looks at nothing while it is made, so that every engine can be given the same one.
pub fn any_schedule(seed: u64) -> Schedule {
    let mut random = Random::new(seed);
    let workers = 2 + random.below(4);
    let buckets = random.pick(&[1, 1, 1, 2, 3]);
    let near = random.below(4) as u32;
    let version = random.pick(&[0, near, u32::MAX - near]);
    // with one lot for a bucket all calls meet, with four its three slots do not suffice
    let lots = buckets * (1 + random.below(4));
    // they are the lowest numbers there are, 0 among them, or the highest
    let lowest = random.pick(&[0, u64::MAX - lots + 1]);
    // some do little at a time, and sleep while others do whole calls
    let paces: Vec<u64> = (0..=workers).map(|_| random.pick(&[3, 8, 14])).collect();
    let retirings = random.pick(&[4, 16, 1_000]);
    // tickets are small, or some of them need more than their low half, or the last of them is the highest
    let below = random.pick(&[0, 4_294_967_220, u64::MAX - 149]);
    let mut events = Vec::new();
    for at in 0..150 {
        let worker = any_worker(&mut random, workers);
        if random.once_in(2) {
            let lot = lowest + random.below(lots);
            // tickets rise; one from further back is refused if a higher one was accepted since
            let ticket = if random.once_in(8) { at / 2 } else { at };
            events.push(any_start(&mut random, worker, lot, below + ticket));
        }
        let turns = 1 + random.below(paces[worker as usize]) as usize;
        events.push(Event::Turns(worker, turns));
        if random.once_in(retirings) {
            let worker = any_worker(&mut random, workers);
            events.push(Event::Retire(worker));
        }
    }
    Schedule {
        workers,
        buckets,
        version,
        events,
    }
}

fn any_start(random: &mut Random, worker: u64, lot: u64, ticket: u64) -> Event {
    match random.below(3) {
        0 => Event::Look(worker, lot),
        1 => Event::Insert(worker, lot, ticket),
        _ => Event::Remove(worker, lot),
    }
}

/// At times one more than there are, who is refused.
fn any_worker(random: &mut Random, workers: u64) -> u64 {
    let strangers = u64::from(random.once_in(8));
    random.below(workers + strangers)
}
