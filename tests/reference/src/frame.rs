//! The frame of a running call: the variables of the report's C functions, and the memory actions, each of which pauses first.

use crate::memory::Bucket;
use crate::record::{Record, NONE};
use crate::report::{Action, Report};
use std::cell::Cell;
use std::future::Future;
use std::ops::RangeInclusive;
use std::pin::Pin;
use std::task::{Context, Poll};

/// The variables of `clht_bucket_search`, `clht_put` and `clht_remove`, by their names in the figures.
pub struct Frame {
    pub bucket: Bucket,
    kind: u8,
    pub key: u64,
    /// `val` of figure 7; the ticket.
    pub new_val: u64,
    /// `i`; the slot. It is also the empty spot of figure 7, line 26, until that spot is won.
    pub i: Cell<u8>,
    /// `s`; the word.
    pub s: Cell<u64>,
    /// `empty_index`, -1 for none; held.
    pub empty_index: Cell<i32>,
    /// `val` of figure 6 and `removed` of figure 8; seen.
    pub val: Cell<u64>,
    /// Which memory action comes next, by its label.
    place: Cell<u8>,
    /// The label up to which the code is brought without memory actions, where it is made from a record.
    bound: Cell<Option<u8>>,
    /// How many memory actions were done since somebody asked.
    actions: Cell<u32>,
    /// The report of the turn as far as the code itself can tell it.
    report: Cell<Report>,
}

impl Frame {
    /// The frame that a record describes; `bound` says whether the code must be brought to the record's place.
    pub fn of(record: &Record, bucket: Bucket, bound: bool) -> Frame {
        Frame {
            bucket,
            kind: record.kind,
            key: record.key,
            new_val: record.ticket,
            i: Cell::new(record.slot),
            s: Cell::new(record.word),
            empty_index: Cell::new(if record.held == NONE {
                -1
            } else {
                record.held as i32
            }),
            val: Cell::new(record.seen),
            place: Cell::new(0),
            bound: Cell::new(bound.then_some(record.place)),
            actions: Cell::new(0),
            report: Cell::new(Report::none()),
        }
    }

    /// The record that describes this frame. The figures have no variable for the turns of others.
    pub fn record(&self) -> Record {
        Record {
            kind: self.kind,
            place: self.place.get(),
            key: self.key,
            ticket: self.new_val,
            slot: self.i.get(),
            word: self.s.get(),
            held: match self.empty_index.get() {
                -1 => NONE,
                index => index as u8,
            },
            seen: self.val.get(),
            asleep: 0,
        }
    }

    /// Whether the code is on its way to one of these places, so that it passes over what stands before them.
    pub fn bound_for(&self, places: RangeInclusive<u8>) -> bool {
        self.bound
            .get()
            .is_some_and(|place| places.contains(&place))
    }

    /// The spot this insert holds.
    pub fn held(&self) -> u8 {
        self.empty_index.get() as u8
    }

    /// §4.7.
    pub fn note_full_round(&self) {
        self.report.set(Report {
            full_round: true,
            ..self.report.get()
        });
    }

    /// Hands over how many memory actions were done since the last time, and what they came to.
    pub fn take_done(&self) -> (u32, Report) {
        (self.actions.take(), self.report.replace(Report::none()))
    }

    /// Stands before the memory action with this label until the next turn.
    async fn pause(&self, place: u8) {
        assert!(self.bound.get().is_none_or(|bound| bound == place));
        self.bound.set(None);
        self.place.set(place);
        Pause { paused: false }.await
    }

    fn note(&self, action: Action, change: bool) {
        self.actions.set(self.actions.get() + 1);
        self.report.set(Report {
            action,
            change,
            ..self.report.get()
        });
    }

    pub async fn load_snapshot(&self, place: u8) -> u64 {
        self.pause(place).await;
        self.note(Action::Read, false);
        self.bucket.snapshot()
    }

    pub async fn load_map(&self, place: u8, index: u8) -> u8 {
        self.pause(place).await;
        self.note(Action::Read, false);
        self.bucket.map(index)
    }

    pub async fn load_key(&self, place: u8, index: u8) -> u64 {
        self.pause(place).await;
        self.note(Action::Read, false);
        self.bucket.key(index)
    }

    pub async fn load_val(&self, place: u8, index: u8) -> u64 {
        self.pause(place).await;
        self.note(Action::Read, false);
        self.bucket.val(index)
    }

    pub async fn store_map(&self, place: u8, index: u8, mark: u8) {
        self.pause(place).await;
        self.note(Action::Store, true);
        self.bucket.set_map(index, mark);
    }

    pub async fn store_key(&self, place: u8, index: u8, key: u64) {
        self.pause(place).await;
        self.note(Action::Store, false);
        self.bucket.set_key(index, key);
    }

    pub async fn store_val(&self, place: u8, index: u8, val: u64) {
        self.pause(place).await;
        self.note(Action::Store, false);
        self.bucket.set_val(index, val);
    }

    /// `CAS_U64(&bucket->snapshot, expected, new)`, which gives the word that stood there.
    pub async fn cas_snapshot(&self, place: u8, expected: u64, new: u64) -> u64 {
        self.pause(place).await;
        let stood = self.bucket.snapshot();
        if stood == expected {
            self.bucket.set_snapshot(new);
            self.note(Action::Won, true);
        } else {
            self.note(Action::Lost, false);
        }
        stood
    }
}

/// A future that is pending once.
struct Pause {
    paused: bool,
}

impl Future for Pause {
    type Output = ();

    fn poll(mut self: Pin<&mut Self>, _: &mut Context<'_>) -> Poll<()> {
        if self.paused {
            return Poll::Ready(());
        }
        self.paused = true;
        Poll::Pending
    }
}
