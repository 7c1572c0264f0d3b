//! The sentences of item 10 once more, bucket by bucket of the new board and by sums of powers of two, each as a part of a reading that can be
//! exchanged for another one.

use reference::case::Case;
use reference::desk::Floor;
use reference::record::Record;

/// What a move comes to: the number, the floor, the new board and the index.
#[derive(Clone, Debug, PartialEq, Eq)]
pub struct Left {
    pub number: u8,
    pub floor: Floor,
    pub second: Vec<u64>,
    pub index: Vec<u64>,
}

/// A valid slot of the old board.
#[derive(Clone, Copy, Debug, PartialEq, Eq)]
pub struct Lot {
    pub bucket: u64,
    pub slot: u64,
    pub lot: u64,
    pub value: u64,
    /// Of its old bucket.
    pub version: u64,
}

/// How the sentences are read.
#[derive(Clone, Copy)]
pub struct Reading {
    /// The numbers in their order, each looked at alone.
    pub order: [u8; 5],
    /// Which N the new board is measured by.
    pub measured_by: fn(&Case) -> u64,
    /// Whether the index is measured.
    pub measures_index: bool,
    /// 3 and 12, by all records.
    pub is_broken: fn(&[Record]) -> bool,
    pub is_busy: fn(&[Record]) -> bool,
    /// Which marks are well, and which go.
    pub most_mark: u64,
    pub goes: fn(u64) -> bool,
    /// Which of the lots go, and in which order.
    pub lots: fn(Vec<Lot>) -> Vec<Lot>,
    /// The bucket to which a lot goes.
    pub bucket: fn(&Lot, u64) -> u64,
    /// How many lots a bucket can have.
    pub room: usize,
    /// The slot of a lot that is so far behind the first of its bucket.
    pub slot: fn(&Lot, usize) -> u64,
    pub value: fn(&Lot) -> u64,
    /// The version of a bucket with these lots.
    pub version: fn(&Case, &[Lot]) -> u64,
    /// What stands in a cell that is not used.
    pub unused: fn(&Case, usize) -> u64,
    pub floor: fn(&Case) -> Floor,
    /// The index, by the board.
    pub index: fn(&Case, &[u64]) -> Vec<u64>,
}

pub const AS_LAID_DOWN: Reading = Reading {
    order: [1, 3, 12, 7, 13],
    measured_by: |case| case.worker,
    measures_index: true,
    is_broken: |records| records.iter().any(Record::is_broken),
    is_busy: |records| !records.iter().all(Record::is_idle),
    most_mark: 1,
    goes: |mark| mark == 1,
    lots: |lots| lots,
    bucket: |lot, n| lot.lot % n,
    room: 3,
    slot: |_, at| at as u64,
    value: |lot| lot.value,
    version: |case, _| case.floor.version.into(),
    unused: |_, _| 0,
    floor: |case| Floor {
        buckets: case.worker,
        ..case.floor
    },
    index: |_, board| full_reading(board),
};

/// The index by reading all of a board.
pub fn full_reading(board: &[u64]) -> Vec<u64> {
    let mut index = vec![0; 5];
    for (bucket, word) in board.iter().step_by(8).enumerate() {
        let valid = (0..3).filter(|slot| mark(*word, *slot) == 1).count() as u64;
        index[0] += valid;
        index[1 + bucket / 64] += u64::from(valid > 0) * 2_u64.pow(bucket as u32 % 64);
    }
    index
}

fn mark(word: u64, slot: u64) -> u64 {
    word / power(slot) % 256
}

fn power(slot: u64) -> u64 {
    2_u64.pow(32 + 8 * slot as u32)
}

impl Reading {
    pub fn after(&self, case: &Case) -> Left {
        let refused = |number| Left {
            number,
            floor: case.floor,
            second: case.second.clone(),
            index: case.index.clone(),
        };
        let sized = self.is_sized(case);
        for number in self.order {
            // without sizes that fit nothing else can be looked at
            let applies = match number {
                1 => !sized,
                _ if !sized => continue,
                3 => (self.is_broken)(&case.list.records),
                12 => (self.is_busy)(&case.list.records),
                7 => self.keeps_back(case),
                _ => self.buckets(case).iter().any(|lots| lots.len() > self.room),
            };
            if applies {
                return refused(number);
            }
        }
        let second = self.second(case);
        Left {
            number: 0,
            floor: (self.floor)(case),
            index: (self.index)(case, &second),
            second,
        }
    }

    fn is_sized(&self, case: &Case) -> bool {
        let Floor {
            workers, buckets, ..
        } = case.floor;
        let fits = |board: &[u64], n: u64| {
            (1..257).contains(&n) && board.len() == 8 * usize::try_from(n).unwrap()
        };
        (1..65).contains(&workers)
            && case.list.length == workers
            && fits(&case.board, buckets)
            && (1..257).contains(&case.worker)
            && fits(&case.second, (self.measured_by)(case))
            && (case.index.len() == 5 || !self.measures_index)
    }

    fn keeps_back(&self, case: &Case) -> bool {
        case.board.chunks(8).any(|words| {
            let marks = (0..3).any(|slot| mark(words[0], slot) > self.most_mark);
            marks || words[0] >= 2_u64.pow(56) || words[7] > 0
        })
    }

    /// For each new bucket the lots that go there.
    fn buckets(&self, case: &Case) -> Vec<Vec<Lot>> {
        let mut lots = Vec::new();
        for (bucket, words) in (0..).zip(case.board.chunks(8)) {
            for slot in (0..3).filter(|slot| (self.goes)(mark(words[0], *slot))) {
                lots.push(Lot {
                    bucket,
                    slot,
                    lot: words[1 + slot as usize],
                    value: words[4 + slot as usize],
                    version: words[0] % 2_u64.pow(32),
                });
            }
        }
        let lots = (self.lots)(lots);
        let n = case.worker;
        let of = |number: u64| {
            lots.iter()
                .copied()
                .filter(move |lot| (self.bucket)(lot, n) == number)
        };
        (0..n).map(|number| of(number).collect()).collect()
    }

    fn second(&self, case: &Case) -> Vec<u64> {
        let words = 8 * case.worker as usize;
        let mut second: Vec<u64> = (0..words).map(|at| (self.unused)(case, at)).collect();
        for (number, lots) in self.buckets(case).iter().enumerate() {
            let words = &mut second[8 * number..8 * number + 8];
            words[0] = (self.version)(case, lots);
            for (at, lot) in lots.iter().enumerate() {
                let slot = (self.slot)(lot, at);
                words[0] += power(slot);
                words[1 + slot as usize] = lot.lot;
                words[4 + slot as usize] = (self.value)(lot);
            }
        }
        second
    }
}

/// The first of the lots with each number.
fn once(lots: Vec<Lot>) -> Vec<Lot> {
    let mut kept: Vec<Lot> = Vec::new();
    for lot in lots {
        if kept.iter().all(|other| other.lot != lot.lot) {
            kept.push(lot);
        }
    }
    kept
}

fn sorted(mut lots: Vec<Lot>, by: fn(&Lot) -> (u64, u64)) -> Vec<Lot> {
    lots.sort_by_key(by);
    lots
}

/// What else they could be taken for; each has one part that is another.
pub const OTHERS: &[(&str, Reading)] = &[
    (
        "3 after 12",
        Reading {
            order: [1, 12, 3, 7, 13],
            ..AS_LAID_DOWN
        },
    ),
    (
        "12 after 7",
        Reading {
            order: [1, 3, 7, 12, 13],
            ..AS_LAID_DOWN
        },
    ),
    (
        "12 last",
        Reading {
            order: [1, 3, 7, 13, 12],
            ..AS_LAID_DOWN
        },
    ),
    (
        "7 before 3",
        Reading {
            order: [1, 7, 3, 12, 13],
            ..AS_LAID_DOWN
        },
    ),
    (
        "13 before 7",
        Reading {
            order: [1, 3, 12, 13, 7],
            ..AS_LAID_DOWN
        },
    ),
    (
        "13 before 12",
        Reading {
            order: [1, 3, 13, 12, 7],
            ..AS_LAID_DOWN
        },
    ),
    (
        "the new board is measured by the old N",
        Reading {
            measured_by: |case| case.floor.buckets,
            ..AS_LAID_DOWN
        },
    ),
    (
        "an index of any length",
        Reading {
            measures_index: false,
            ..AS_LAID_DOWN
        },
    ),
    (
        "3 by the first record alone",
        Reading {
            is_broken: |records| records[0].is_broken(),
            ..AS_LAID_DOWN
        },
    ),
    (
        "3 by the last record alone",
        Reading {
            is_broken: |records| records[records.len() - 1].is_broken(),
            ..AS_LAID_DOWN
        },
    ),
    (
        "3 or 12 by the first record that is not idle",
        Reading {
            is_broken: |records| {
                let first = records.iter().find(|record| !record.is_idle());
                first.is_some_and(Record::is_broken)
            },
            ..AS_LAID_DOWN
        },
    ),
    (
        "12 by the first record alone",
        Reading {
            is_busy: |records| !records[0].is_idle(),
            ..AS_LAID_DOWN
        },
    ),
    (
        "12 by the last record alone",
        Reading {
            is_busy: |records| !records[records.len() - 1].is_idle(),
            ..AS_LAID_DOWN
        },
    ),
    (
        "12 by those who hold a slot",
        Reading {
            is_busy: |records| records.iter().any(|record| record.held != 3),
            ..AS_LAID_DOWN
        },
    ),
    (
        "12 by inserts",
        Reading {
            is_busy: |records| records.iter().any(|record| record.kind == 2),
            ..AS_LAID_DOWN
        },
    ),
    (
        "12 by those who can write",
        Reading {
            is_busy: |records| records.iter().any(|record| record.kind > 1),
            ..AS_LAID_DOWN
        },
    ),
    (
        "nobody need be idle",
        Reading {
            is_busy: |_| false,
            ..AS_LAID_DOWN
        },
    ),
    (
        "a mark 2 is well, and stays behind",
        Reading {
            most_mark: 2,
            ..AS_LAID_DOWN
        },
    ),
    (
        "a mark 2 is well, and goes",
        Reading {
            most_mark: 2,
            goes: |mark| mark > 0,
            ..AS_LAID_DOWN
        },
    ),
    (
        "by slot, and then by bucket",
        Reading {
            lots: |lots| sorted(lots, |lot| (lot.slot, lot.bucket)),
            ..AS_LAID_DOWN
        },
    ),
    (
        "the last first",
        Reading {
            lots: |lots| lots.into_iter().rev().collect(),
            ..AS_LAID_DOWN
        },
    ),
    (
        "the last bucket first",
        Reading {
            lots: |lots| sorted(lots, |lot| (u64::MAX - lot.bucket, lot.slot)),
            ..AS_LAID_DOWN
        },
    ),
    (
        "the last slot first",
        Reading {
            lots: |lots| sorted(lots, |lot| (lot.bucket, 3 - lot.slot)),
            ..AS_LAID_DOWN
        },
    ),
    (
        "by lot",
        Reading {
            lots: |lots| sorted(lots, |lot| (lot.lot, 0)),
            ..AS_LAID_DOWN
        },
    ),
    (
        "by ticket",
        Reading {
            lots: |lots| sorted(lots, |lot| (lot.value, 0)),
            ..AS_LAID_DOWN
        },
    ),
    (
        "no lot twice",
        Reading {
            lots: once,
            ..AS_LAID_DOWN
        },
    ),
    (
        "lot 0 is no lot",
        Reading {
            lots: |lots| lots.into_iter().filter(|lot| lot.lot != 0).collect(),
            ..AS_LAID_DOWN
        },
    ),
    (
        "a ticket 0 is no lot's",
        Reading {
            lots: |lots| lots.into_iter().filter(|lot| lot.value != 0).collect(),
            ..AS_LAID_DOWN
        },
    ),
    (
        "the last slot stays behind",
        Reading {
            lots: |lots| lots.into_iter().filter(|lot| lot.slot < 2).collect(),
            ..AS_LAID_DOWN
        },
    ),
    (
        "the last bucket stays behind",
        Reading {
            lots: |lots| lots.into_iter().filter(|lot| lot.bucket < 255).collect(),
            ..AS_LAID_DOWN
        },
    ),
    (
        "by the old bucket's number",
        Reading {
            bucket: |lot, n| lot.bucket % n,
            ..AS_LAID_DOWN
        },
    ),
    (
        "by the low half of the lot",
        Reading {
            bucket: |lot, n| lot.lot % 2_u64.pow(32) % n,
            ..AS_LAID_DOWN
        },
    ),
    (
        "a fourth goes over the third",
        Reading {
            order: [1, 3, 12, 7, 7],
            slot: |_, at| at.min(2) as u64,
            ..AS_LAID_DOWN
        },
    ),
    (
        "a third is too many",
        Reading {
            room: 2,
            ..AS_LAID_DOWN
        },
    ),
    (
        "values are of 32 bits",
        Reading {
            value: |lot| lot.value % 2_u64.pow(32),
            ..AS_LAID_DOWN
        },
    ),
    (
        "values stay behind",
        Reading {
            value: |_| 0,
            ..AS_LAID_DOWN
        },
    ),
    (
        "version 0",
        Reading {
            version: |_, _| 0,
            ..AS_LAID_DOWN
        },
    ),
    (
        "a version more for each lot",
        Reading {
            version: |case, lots| {
                (u64::from(case.floor.version) + lots.len() as u64) % 2_u64.pow(32)
            },
            ..AS_LAID_DOWN
        },
    ),
    (
        "the next version",
        Reading {
            version: |case, _| (u64::from(case.floor.version) + 1) % 2_u64.pow(32),
            ..AS_LAID_DOWN
        },
    ),
    (
        "the version of the lot's old bucket",
        Reading {
            version: |case, lots| {
                lots.first()
                    .map_or(case.floor.version.into(), |lot| lot.version)
            },
            ..AS_LAID_DOWN
        },
    ),
    (
        "the version of the first old bucket",
        Reading {
            version: |case, _| case.board[0] % 2_u64.pow(32),
            ..AS_LAID_DOWN
        },
    ),
    (
        "the version in occupied buckets alone",
        Reading {
            version: |case, lots| u64::from(case.floor.version) * u64::from(!lots.is_empty()),
            ..AS_LAID_DOWN
        },
    ),
    (
        "unused cells stay",
        Reading {
            unused: |case, at| case.second[at],
            ..AS_LAID_DOWN
        },
    ),
    (
        "the spare word stays",
        Reading {
            unused: |case, at| case.second[at] * u64::from(at % 8 == 7),
            ..AS_LAID_DOWN
        },
    ),
    (
        "N stays",
        Reading {
            floor: |case| case.floor,
            ..AS_LAID_DOWN
        },
    ),
    (
        "no ticket is spent",
        Reading {
            floor: |case| Floor {
                buckets: case.worker,
                last_ticket: 0,
                ..case.floor
            },
            ..AS_LAID_DOWN
        },
    ),
    (
        "the last ticket has no high half",
        Reading {
            floor: |case| Floor {
                buckets: case.worker,
                last_ticket: case.floor.last_ticket & 0xffff_ffff,
                ..case.floor
            },
            ..AS_LAID_DOWN
        },
    ),
    (
        "the last ticket is one on the board",
        Reading {
            floor: |case| {
                let values = case.board.chunks(8).flat_map(|words| &words[4..7]);
                Floor {
                    buckets: case.worker,
                    last_ticket: *values.max().unwrap(),
                    ..case.floor
                }
            },
            ..AS_LAID_DOWN
        },
    ),
    (
        "the version is forgotten",
        Reading {
            floor: |case| Floor {
                buckets: case.worker,
                version: 0,
                ..case.floor
            },
            ..AS_LAID_DOWN
        },
    ),
    (
        "the index stays",
        Reading {
            index: |case, _| case.index.clone(),
            ..AS_LAID_DOWN
        },
    ),
    (
        "the index is the old board's",
        Reading {
            index: |case, _| full_reading(&case.board),
            ..AS_LAID_DOWN
        },
    ),
    (
        "the index is zeros",
        Reading {
            index: |_, _| vec![0; 5],
            ..AS_LAID_DOWN
        },
    ),
    (
        "bits are set, and none is cleared",
        Reading {
            index: |case, board| {
                let mut index = full_reading(board);
                for (at, word) in index.iter_mut().enumerate().skip(1) {
                    *word |= case.index[at];
                }
                index
            },
            ..AS_LAID_DOWN
        },
    ),
    (
        "the total stays",
        Reading {
            index: |case, board| {
                let mut index = full_reading(board);
                index[0] = case.index[0];
                index
            },
            ..AS_LAID_DOWN
        },
    ),
];
