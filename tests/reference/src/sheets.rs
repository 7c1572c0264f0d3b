//! Fresh sheets: histories in which few workers meet on few lots, some of them spoilt, and sheets about as long as allowed.

use crate::desk::{Desk, Manner};
use crate::random::Random;
use crate::record::{INSERT, LOOK, REMOVE};
use crate::sheet::MOST_BYTES;

/// So many fresh sheets.
pub fn fresh(seed: u64, count: usize) -> impl Iterator<Item = Vec<u8>> {
    let mut random = Random::new(seed);
    (0..count).map(move |at| match at % 16 {
        0..=4 => join(&history(&mut random, false)),
        5..=8 => join(&history(&mut random, true)),
        9..=11 => spoilt(&mut random),
        12 | 13 => malformed(&mut random),
        14 => refused_floor(&mut random),
        _ => long(&mut random),
    })
}

fn join(fields: &[Vec<u8>]) -> Vec<u8> {
    fields.concat()
}

fn field(tag: u8, value: &[u8]) -> Vec<u8> {
    let length = u16::try_from(value.len()).expect("a field has at most 65,535 bytes");
    [&[tag][..], &length.to_be_bytes(), value].concat()
}

fn floor(workers: u8, buckets: u16, version: u32) -> Vec<u8> {
    let value = [
        &[workers][..],
        &buckets.to_be_bytes(),
        &version.to_be_bytes(),
    ];
    field(1, &value.concat())
}

/// A call's field; a look and a remove have no ticket there.
fn call(random: &mut Random, worker: u8, kind: u8, lot: u64, ticket: u64) -> Vec<u8> {
    let mut value = vec![worker, kind];
    value.extend(lot.to_be_bytes());
    if kind == INSERT {
        value.extend(written(random, ticket));
    }
    field(2, &value)
}

/// §8.3: a ticket in its long form, or in the short one if that can have it.
fn written(random: &mut Random, ticket: u64) -> Vec<u8> {
    match u32::try_from(ticket) {
        Ok(short) if random.once_in(2) => short.to_be_bytes().to_vec(),
        _ => ticket.to_be_bytes().to_vec(),
    }
}

/// What a sheet has come to while it is made, so that most of its fields are accepted.
struct Making {
    random: Random,
    desk: Desk,
    lots: Vec<u64>,
    /// Whether worker 0 sleeps between its turns, while others end whole calls on the same lots.
    sleeper: bool,
    /// Tickets are above this one.
    below_tickets: u64,
    fields: Vec<Vec<u8>>,
}

/// Where tickets begin: at 1; about where they need more than four bytes, so that there are some of either sort; and near the highest.
const BELOW_TICKETS: [u64; 8] = [
    0,
    0,
    0,
    4_294_967_290,
    4_294_967_294,
    4_294_967_295,
    (1 << 63) - 4,
    u64::MAX - 8,
];

/// The fields of a history, the floor first.
fn history(random: &mut Random, sleeper: bool) -> Vec<Vec<u8>> {
    let mut random = Random::new(random.any());
    let (workers, buckets) = match sleeper {
        true => (2 + random.below(2), 1),
        false => sizes(&mut random),
    };
    let version = random.pick(&[0, 1, u32::MAX - 1, u32::MAX, 77]);
    let lots = match sleeper {
        true => 1 + random.below(2),
        false => 2 + random.below(3),
    };
    let lots = (0..lots)
        .map(|lot| match random.once_in(10) {
            true => u64::MAX,
            false => lot * buckets,
        })
        .collect();
    let desk = Desk::opened(workers, buckets, version, Manner::Living);
    let below_tickets = random.pick(&BELOW_TICKETS);
    let mut making = Making {
        random,
        below_tickets,
        desk: desk.expect("sizes in their ranges"),
        lots,
        sleeper,
        fields: vec![floor(workers as u8, buckets as u16, version)],
    };
    for _ in 0..making.random.below(40) {
        making.next_field();
    }
    making.fields
}

/// Mostly few workers and few buckets, so that they meet.
fn sizes(random: &mut Random) -> (u64, u64) {
    let rare = random.once_in(12);
    let workers = if rare { 64 } else { 1 + random.below(4) };
    let buckets = match random.once_in(12) {
        true => 256,
        false => random.pick(&[1, 1, 2, 3]),
    };
    (workers, buckets)
}

impl Making {
    fn next_field(&mut self) {
        if self.random.once_in(80) {
            self.anything();
        } else if self.random.once_in(2) {
            self.start();
        } else {
            self.turns();
        }
    }

    /// Some worker, mostly one of the first few, so that they meet.
    fn worker(&mut self) -> u64 {
        let workers = self.desk.floor.workers;
        match self.random.once_in(8) {
            true => workers - 1,
            false => self.random.below(workers.min(4)),
        }
    }

    fn start(&mut self) {
        let worker = self.worker();
        let kinds: &[u8] = match (self.sleeper, worker) {
            (true, 0) => &[LOOK, LOOK, REMOVE, INSERT],
            (true, _) => &[INSERT, REMOVE],
            (false, _) => &[LOOK, INSERT, INSERT, INSERT, REMOVE],
        };
        let kind = self.random.pick(kinds);
        let lot = self.random.pick(&self.lots);
        let ticket = self.ticket();
        if self.desk.start(kind, worker, lot, ticket).is_ok() {
            let made = call(&mut self.random, worker as u8, kind, lot, ticket);
            self.fields.push(made);
        }
    }

    /// A ticket just above the last one, or seldom far above it, if there is one.
    fn ticket(&mut self) -> u64 {
        let last = self.desk.floor.last_ticket.max(self.below_tickets);
        last.saturating_add(match self.random.below(24) {
            0 => 1 << 32,
            1 => 4_294_967_295,
            _ => 1 + self.random.below(2),
        })
    }

    /// How many turns a worker gets at a time.
    fn burst(&mut self, worker: u64) -> u64 {
        match (self.sleeper, worker) {
            (true, 0) => 1 + self.random.below(2),
            (true, _) => 6 + self.random.below(6),
            (false, _) => 1 + self.random.below(9),
        }
    }

    /// Bursts of turns, of busy workers only.
    fn turns(&mut self) {
        let mut turns = Vec::new();
        for _ in 0..1 + self.random.below(8) {
            let worker = self.worker();
            for _ in 0..self.burst(worker) {
                if self.desk.turn(worker).is_ok() {
                    turns.push(worker as u8);
                }
            }
        }
        if !turns.is_empty() {
            self.fields.push(field(3, &turns));
        }
    }

    /// A field that is often refused.
    fn anything(&mut self) {
        let workers = self.desk.floor.workers;
        let worker = self.random.below(workers + 2) as u8;
        let kind = self.random.pick(&[LOOK, INSERT, REMOVE]);
        let last = self.desk.floor.last_ticket;
        let ticket = self.random.pick(&[last, last, last & 0xffff_ffff, 0]);
        let lot = self.random.pick(&self.lots);
        let random = &mut self.random;
        let made = match random.below(4) {
            0 => call(random, worker, kind, lot, ticket),
            1 => call(random, worker, INSERT, lot, ticket),
            2 => field(3, &[worker, 255]),
            _ => field(3, &[worker]),
        };
        self.fields.push(made);
    }
}

/// A history with a byte changed, cut short, with a field twice or left out, or with something behind it.
fn spoilt(random: &mut Random) -> Vec<u8> {
    let mut fields = history(random, false);
    let at = random.below(fields.len() as u64) as usize;
    match random.below(7) {
        0 => fields.insert(at, fields[at].clone()),
        1 => drop(fields.remove(at)),
        2 => {
            let most = random.below(20) as usize;
            let junk = (0..most).map(|_| random.below(6) as u8).collect();
            fields.push(junk);
        }
        _ => {
            let mut sheet = join(&fields);
            spoil_bytes(random, &mut sheet);
            return sheet;
        }
    }
    join(&fields)
}

/// A history, or nothing, and then a field with another tag, length or kind.
fn malformed(random: &mut Random) -> Vec<u8> {
    let mut fields = match random.once_in(4) {
        true => Vec::new(),
        false => history(random, false),
    };
    let kind = random.pick(&[0, 1, 2, 3, 4, 255]);
    let value = |kind: u8, length: usize| [&[0, kind][..], &vec![7; length - 2]].concat();
    fields.push(match random.below(9) {
        0 => field(
            1,
            &[1, 0, 1, 0, 0, 0, 0, 0, 0][..6 + random.below(4) as usize],
        ),
        1 => field(2, &value(kind, random.pick(&[2, 9, 11, 13, 15, 26]))),
        2 | 3 => field(2, &value(kind, random.pick(&[10, 14, 18]))),
        4 | 5 => field(
            2,
            &value(INSERT, random.pick(&[10, 12, 13, 15, 16, 17, 19, 22])),
        ),
        6 => {
            let kind = random.pick(&[LOOK, REMOVE]);
            field(2, &value(kind, random.pick(&[14, 18])))
        }
        7 => field(3, &[]),
        _ => field(random.pick(&[0, 4, 129, 255]), &[0]),
    });
    join(&fields)
}

fn spoil_bytes(random: &mut Random, sheet: &mut Vec<u8>) {
    let at = random.below(sheet.len() as u64) as usize;
    match random.below(4) {
        0 => sheet.truncate(at),
        1 => sheet[at] = random.below(256) as u8,
        2 => sheet[at] = random.below(5) as u8,
        // near the start, so that tags, lengths and the floor are met
        _ => sheet[at % 30] = random.below(5) as u8,
    }
}

/// Floors at the ends of their ranges and outside, perhaps with something behind.
fn refused_floor(random: &mut Random) -> Vec<u8> {
    let workers = random.pick(&[0, 1, 64, 65, 255]);
    let buckets = random.pick(&[0, 1, 256, 257, 512, 65_535]);
    let mut fields = vec![floor(workers, buckets, random.any() as u32)];
    match random.below(4) {
        0 => fields.push(call(random, workers, LOOK, 7, 0)),
        1 => fields.push(vec![9]),
        2 => fields.push(fields[0].clone()),
        _ => (),
    }
    join(&fields)
}

/// A sheet of about 16,384 bytes, or more: three lots stand, and the insert of a fourth goes round for the rest of the sheet.
fn long(random: &mut Random) -> Vec<u8> {
    let size = match random.below(6) {
        0 => MOST_BYTES + 1 + random.below(60_000) as usize,
        _ => MOST_BYTES - 2 + random.below(4) as usize,
    };
    let mut sheet = floor(1, 1, random.version());
    for (lot, turns) in [(1, 11), (2, 12), (3, 13)] {
        sheet.extend(call(random, 0, INSERT, lot, lot));
        sheet.extend(field(3, &vec![0; turns]));
    }
    sheet.extend(call(random, 0, INSERT, 4, 4));
    while sheet.len() < size {
        let left = size - sheet.len();
        let turns = (left.max(4) - 3).min(20_000);
        sheet.extend(field(3, &vec![0; turns]));
    }
    sheet.truncate(size);
    sheet
}
