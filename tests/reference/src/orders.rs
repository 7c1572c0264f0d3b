//! All orders of a small class (§18), and no recursion over them: orders that have come to the same state go on together. A level is a
//! table of states, each with how many orders lead to it, and the next level comes of one more turn of each busy worker in each state.

use crate::desk::{Desk, Floor, List, Manner};
use crate::index::Index;
use crate::record::Record;
use crate::report::{Action, Report};
use std::collections::HashMap;

/// §18.4, of the finished walks alone or of the cut ones.
#[derive(Clone, Copy, Debug, Default, PartialEq, Eq)]
pub struct Tally {
    pub walks: u64,
    /// The sum of their lost swaps.
    pub lost: u64,
    /// The largest number of lost swaps in one of them.
    pub most: u64,
}

impl Tally {
    /// So many walks more, in each of which so many swaps were lost.
    fn add(&mut self, walks: u64, lost: u64) {
        self.walks += walks;
        self.lost += walks * lost;
        self.most = self.most.max(lost);
    }
}

/// What all orders answers.
#[derive(Clone, Copy, Debug, Default, PartialEq, Eq)]
pub struct Walks {
    pub finished: Tally,
    pub cut: Tally,
}

impl Walks {
    /// §18.4: the four counts.
    pub fn counts(&self) -> [u64; 4] {
        let Walks { finished, cut } = self;
        [
            finished.walks,
            cut.walks,
            finished.lost + cut.lost,
            finished.most.max(cut.most),
        ]
    }
}

/// What an order leads to. The lost swaps are a part of it, since walks that differ in them must not be taken for one. How long each
/// worker is asleep is not (§20.1): it makes no busy record broken and is 0 in an idle one, and no turn asks for it, so whatever it is the
/// walks from here on are the same and count the same. Were it a part, hardly any two orders would lead to one state.
#[derive(Clone, PartialEq, Eq, Hash)]
struct State {
    words: Vec<u64>,
    records: Vec<Record>,
    lost: u64,
}

impl State {
    /// What is left out makes nobody idle who was not: no record of a walk is broken, since all orders is refused where one is.
    fn of(desk: &Desk, lost: u64) -> State {
        let records = desk.list.records.iter();
        State {
            words: desk.board.words(),
            records: records.map(|record| record.awake()).collect(),
            lost,
        }
    }

    fn is_finished(&self) -> bool {
        self.records.iter().all(Record::is_idle)
    }

    /// The state after one more turn, which is this worker's, and the turn's report. All orders is lent no index, so the turn gets one of
    /// its own, which is true of these words.
    fn after(&self, floor: Floor, worker: usize) -> (State, Report) {
        let list = List {
            length: floor.workers,
            records: self.records.clone(),
        };
        let index = Index::counted(&self.words);
        let mut desk = Desk::brought(floor, &self.words, list, index, Manner::Remade);
        let turn = desk.turn(worker as u64);
        let report = turn.expect("§18.3: no turn of a walk is refused");
        let lost = self.lost + u64::from(report.action == Action::Lost);
        (State::of(&desk, lost), report)
    }
}

/// All orders as far as their first turns, the same number for each but those that are at their end.
pub struct Walking {
    floor: Floor,
    /// Where orders lead that are not at their end, and how many orders lead there.
    level: HashMap<State, u64>,
    finished: Tally,
    /// How many turns there were, if orders that begin alike share the turns of that beginning and no others.
    pub turns: u64,
}

impl Walking {
    /// The one order with no turn. The desk is one whose orders are not refused.
    pub fn outset(desk: &Desk) -> Walking {
        let mut walking = Walking {
            floor: desk.floor,
            level: HashMap::new(),
            finished: Tally::default(),
            turns: 0,
        };
        walking.lead_to(State::of(desk, 0), 1);
        walking
    }

    /// So many orders lead to this state, which is the end of them if all are idle.
    fn lead_to(&mut self, state: State, orders: u64) {
        match state.is_finished() {
            true => self.finished.add(orders, state.lost),
            false => *self.level.entry(state).or_default() += orders,
        }
    }

    /// Every order that is not at its end goes on by one turn, in each way there is. `told` hears once of each turn of each state, with
    /// the worker's record before it, but for how long it was asleep.
    pub fn go_on(&mut self, told: &mut dyn FnMut(&Record, &Report)) {
        for (state, orders) in std::mem::take(&mut self.level) {
            for (worker, record) in state.records.iter().enumerate() {
                if !record.is_idle() {
                    let (after, report) = state.after(self.floor, worker);
                    told(record, &report);
                    self.turns += orders;
                    self.lead_to(after, orders);
                }
            }
        }
    }

    /// The depth is used up: what is not finished is cut.
    pub fn walks(&self) -> Walks {
        let mut cut = Tally::default();
        for (state, orders) in &self.level {
            cut.add(*orders, state.lost);
        }
        Walks {
            finished: self.finished,
            cut,
        }
    }
}
