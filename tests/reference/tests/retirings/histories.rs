//! Every history of a small class, state by state: each state is left by each act that is possible in it, and none is left twice. Those
//! with the fewest acts come first, so the first history to something wrong is a shortest one.

use crate::watch::{Turned, Watch, Wrong};
use reference::case::fields;
use reference::desk::{Desk, Floor, List, Manner};
use reference::index::Index;
use reference::record::{Record, INSERT, NONE};
use reference::word::*;
use std::collections::hash_map::DefaultHasher;
use std::collections::HashSet;
use std::hash::{Hash, Hasher};

/// One bucket, opened at version 0, on which some lots stand, each inserted by a call that was alone.
#[derive(Clone, Copy, Debug)]
pub struct Class {
    pub workers: usize,
    pub standing: &'static [u64],
    /// So many calls are started at most, of these kinds and for these lots.
    pub calls: u32,
    pub kinds: &'static [u8],
    pub lots: &'static [u64],
    pub rule: Rule,
    /// By what each act is judged.
    pub judged: &'static [Wrong],
}

/// What a retiring does to the mark word.
#[derive(Clone, Copy, Debug, PartialEq, Eq)]
pub enum Rule {
    AsLaidDown,
    /// Of a held slot only the mark is taken away.
    VersionLeft,
    /// The version is counted on, also where nothing is held.
    AlwaysCounted,
    /// Of a held slot the mark is taken away in the word that the worker had in mind, and that is written.
    OwnWord,
}

/// Something that is done to a class: a start is by a worker, of a kind, for a lot, and an insert's ticket is the next one.
#[derive(Clone, Copy, Debug, PartialEq, Eq)]
pub enum Act {
    Start(u64, u8, u64),
    Turn(u64),
    Retire(u64),
}

/// What a walk came to.
#[derive(Debug)]
pub struct Walked {
    pub states: usize,
    /// How many acts were done, from all states together.
    pub acts: u64,
    /// The most acts that it takes to come to a state.
    pub longest: usize,
    /// The first thing that was found wrong, and the acts that lead to it.
    pub wrong: Option<(Wrong, Vec<Act>)>,
}

/// Where a history leads: the desk, and what was seen of the history.
#[derive(Clone)]
struct State {
    words: Vec<u64>,
    records: Vec<Record>,
    last_ticket: u64,
    calls_left: u32,
    watch: Watch,
}

impl Class {
    pub fn walk(&self) -> Walked {
        let mut found = HashSet::new();
        // of each state the one before it, by its number, and the act that led here
        let mut ways: Vec<(usize, Option<Act>)> = vec![(0, None)];
        let outset = State::outset(self);
        found.insert(outset.fingerprint());
        let mut level = vec![(0, outset)];
        let (mut acts, mut longest) = (0, 0);
        let mut wrong = None;
        while !level.is_empty() && wrong.is_none() {
            let mut next = Vec::new();
            for (number, state) in &level {
                for act in state.acts(self) {
                    acts += 1;
                    match state.after(self, act) {
                        Ok(after) if found.insert(after.fingerprint()) => {
                            next.push((ways.len(), after));
                            ways.push((*number, Some(act)));
                        }
                        Ok(_) => (),
                        Err(what) => wrong = wrong.or(Some((what, way(&ways, *number, act)))),
                    }
                }
            }
            longest += usize::from(!next.is_empty());
            level = next;
        }
        Walked {
            states: ways.len(),
            acts,
            longest,
            wrong,
        }
    }
}

/// The acts to this state, and this one after them.
fn way(ways: &[(usize, Option<Act>)], mut number: usize, last: Act) -> Vec<Act> {
    let mut acts = vec![last];
    while let (before, Some(act)) = ways[number] {
        acts.push(act);
        number = before;
    }
    acts.reverse();
    acts
}

impl State {
    fn outset(class: &Class) -> State {
        let mut desk = Desk::opened(class.workers as u64, 1, 0, Manner::Remade).unwrap();
        for &lot in class.standing {
            let ticket = desk.floor.last_ticket + 1;
            desk.start(INSERT, 0, lot, ticket).unwrap();
            while desk.turn(0).is_ok() {}
        }
        let watch = Watch::new(class.workers, class.judged);
        State::of(desk, class.calls, watch)
    }

    fn of(desk: Desk, calls_left: u32, mut watch: Watch) -> State {
        watch.forget(&desk.list.records);
        State {
            words: desk.board.words(),
            last_ticket: desk.floor.last_ticket,
            records: desk.list.records,
            calls_left,
            watch,
        }
    }

    /// The index is counted anew, since a wrong rule for a retiring can leave other marks than it tells of.
    fn desk(&self) -> Desk {
        let floor = Floor {
            workers: self.records.len() as u64,
            buckets: 1,
            last_ticket: self.last_ticket,
            version: 0,
        };
        let list = List {
            length: floor.workers,
            records: self.records.clone(),
        };
        let index = Index::counted(&self.words);
        Desk::brought(floor, &self.words, list, index, Manner::Remade)
    }

    /// All that can be done here.
    fn acts(&self, class: &Class) -> Vec<Act> {
        let mut acts = Vec::new();
        for (worker, record) in (0..).zip(&self.records) {
            if !record.is_idle() {
                acts.extend([Act::Turn(worker), Act::Retire(worker)]);
            } else if self.calls_left > 0 {
                for &kind in class.kinds {
                    acts.extend(class.lots.iter().map(|&lot| Act::Start(worker, kind, lot)));
                }
            }
        }
        acts
    }

    /// The state after an act, or what is wrong with it. On an opened board none of these is refused.
    fn after(&self, class: &Class, act: Act) -> Result<State, Wrong> {
        let mut desk = self.desk();
        let mut watch = self.watch.clone();
        let mut calls_left = self.calls_left;
        match act {
            Act::Start(worker, kind, lot) => {
                let started = desk.start(kind, worker, lot, self.last_ticket + 1);
                started.expect("a start of somebody idle");
                watch.started(kind);
                calls_left -= 1;
            }
            Act::Turn(worker) => {
                let report = desk.turn(worker).expect("a turn of somebody busy");
                let at = worker as usize;
                watch.turned(&Turned {
                    worker: at,
                    record: &self.records[at],
                    report: &report,
                    words: &self.words,
                    desk: &desk,
                })?;
            }
            Act::Retire(worker) => {
                retire(&mut desk, worker, class.rule);
                let at = worker as usize;
                watch.retired(at, &self.records[at], &self.words, &desk)?;
            }
        }
        Ok(State::of(desk, calls_left, watch))
    }

    /// So many bits that no two states of a walk have the same; but whether it is one worker or another who is somewhere makes no
    /// difference, nor how long anybody is asleep, which nothing asks for (§20.2).
    fn fingerprint(&self) -> u128 {
        let workers = self.records.iter().zip(&self.watch.workers);
        let mut workers: Vec<_> = workers
            .map(|(record, since)| (fields(&record.awake()), since))
            .collect();
        workers.sort();
        let kept = (self.watch.may_be_lost, &self.watch.retired);
        let all = (
            &self.words,
            workers,
            self.last_ticket,
            self.calls_left,
            kept,
        );
        let half = |salt: u8| {
            let mut hasher = DefaultHasher::new();
            (salt, &all).hash(&mut hasher);
            u128::from(hasher.finish())
        };
        half(0) << 64 | half(1)
    }
}

/// Retires a busy worker by this rule.
pub fn retire(desk: &mut Desk, worker: u64, rule: Rule) {
    let record = desk.list.records[worker as usize];
    let bucket = desk
        .board
        .bucket((record.key % desk.floor.buckets) as usize);
    let stood = bucket.snapshot();
    desk.retire(worker).expect("a retiring of somebody busy");
    match (rule, record.held) {
        (Rule::AlwaysCounted, NONE) => bucket.set_snapshot(stood + 1),
        (Rule::VersionLeft, 0..NONE) => {
            bucket.set_snapshot(snap_set_map(stood, record.held, MAP_INVLD));
        }
        (Rule::OwnWord, 0..NONE) => {
            let written = snap_set_map_and_inc_version(record.word, record.held, MAP_INVLD);
            bucket.set_snapshot(written);
        }
        _ => (),
    }
}
