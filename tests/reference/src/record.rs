//! A worker's record: the nine fields (§3.2), what is idle and what is broken.

use crate::word::{snap_set_map, Snapshot, KEY_BUCKT, MAP_INSRT};

pub const IDLE: u8 = 0;
pub const LOOK: u8 = 1;
pub const INSERT: u8 = 2;
pub const REMOVE: u8 = 3;

/// §3.2: no slot is held.
pub const NONE: u8 = 3;

#[derive(Clone, Copy, Debug, PartialEq, Eq, Hash)]
pub struct Record {
    pub kind: u8,
    pub place: u8,
    pub key: u64,
    pub ticket: u64,
    pub slot: u8,
    pub word: u64,
    pub held: u8,
    pub seen: u64,
    /// §20.1.
    pub asleep: u32,
}

impl Record {
    /// §3.3.
    pub const fn idle() -> Record {
        Record {
            kind: IDLE,
            place: 0,
            key: 0,
            ticket: 0,
            slot: 0,
            word: 0,
            held: NONE,
            seen: 0,
            asleep: 0,
        }
    }

    pub fn is_idle(&self) -> bool {
        *self == Record::idle()
    }

    /// §20.2: whether a turn of somebody else counts for this one.
    pub fn is_sleeper(&self) -> bool {
        !self.is_idle() && !self.is_broken()
    }

    /// The record after a turn of somebody else.
    pub fn slept_on(self) -> Record {
        match self.is_sleeper() {
            true => Record {
                asleep: self.asleep.saturating_add(1),
                ..self
            },
            false => self,
        }
    }

    /// All that a call goes by: no turn asks for how long its worker was asleep.
    pub fn awake(self) -> Record {
        Record { asleep: 0, ..self }
    }

    /// The mark word that the commit of a sound insert expects, if it holds a slot.
    pub fn commit_expects(&self) -> Option<u64> {
        (self.held != NONE).then(|| snap_set_map(self.word, self.held, MAP_INSRT))
    }

    /// §3.7. A busy record may have any number in `asleep`.
    pub fn is_broken(&self) -> bool {
        let busy = self.place_fits()
            && self.ticket_fits()
            && self.held_fits()
            && self.slot < KEY_BUCKT
            && self.word_fits();
        !self.is_idle() && !busy
    }

    /// §3.7: the places of each kind.
    fn place_fits(&self) -> bool {
        match self.kind {
            LOOK => (2..=5).contains(&self.place),
            INSERT => (1..=10).contains(&self.place),
            REMOVE => self.place == 1 || (11..=13).contains(&self.place),
            _ => false,
        }
    }

    /// §3.7: only an insert has a ticket.
    fn ticket_fits(&self) -> bool {
        (self.kind == INSERT) == (self.ticket >= 1)
    }

    /// §3.7: only an insert holds a slot, and not at every place.
    fn held_fits(&self) -> bool {
        match (self.kind, self.place) {
            (INSERT, 1..=5) => self.held <= NONE,
            (INSERT, 7..=10) => self.held < NONE,
            _ => self.held == NONE,
        }
    }

    /// §3.7: a look has no word.
    fn word_fits(&self) -> bool {
        Snapshot::of(self.word).is_sound() && (self.kind != LOOK || self.word == 0)
    }
}
