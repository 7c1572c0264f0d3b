//! What a turn reports, and what a run makes of its turns' reports.

/// §4.8: what a turn did.
#[derive(Clone, Copy, Debug, PartialEq, Eq)]
pub enum Action {
    Read,
    Store,
    Won,
    Lost,
}

/// §4.8, §4.12: the report of a turn; a run keeps that of its last one.
#[derive(Clone, Copy, Debug, PartialEq, Eq)]
pub struct Report {
    pub action: Action,
    /// The answer, where the call ended.
    pub ended: Option<u64>,
    /// §4.7.
    pub full_round: bool,
    /// §4.9; told by the counts of a run alone, since equal words before and after do not tell it.
    pub change: bool,
    /// The number of the bucket that the lot belongs to.
    pub bucket: u64,
    /// The whole mark word of that bucket as the turn found it, and as the turn left it.
    pub before: u64,
    pub after: u64,
}

impl Report {
    /// §4.13: what a run keeps where no turn was done.
    pub const fn none() -> Report {
        Report {
            action: Action::Read,
            ended: None,
            full_round: false,
            change: false,
            bucket: 0,
            before: 0,
            after: 0,
        }
    }
}

/// §4.10: what a run counts; the totals of a sheet are the same counts.
#[derive(Clone, Copy, Debug, Default, PartialEq, Eq)]
pub struct Counts {
    pub turns: u64,
    pub changes: u64,
    pub lost: u64,
    pub full_rounds: u64,
}

impl Counts {
    pub fn add(&mut self, report: &Report) {
        self.turns += 1;
        self.changes += u64::from(report.change);
        self.lost += u64::from(report.action == Action::Lost);
        self.full_rounds += u64::from(report.full_round);
    }
}

/// §4.10: what a run reports, beside the number that stopped or refused it.
#[derive(Clone, Copy, Debug, PartialEq, Eq)]
pub struct Ran {
    pub counts: Counts,
    pub last: Report,
}

impl Ran {
    /// No turn is done yet.
    pub fn none() -> Ran {
        Ran {
            counts: Counts::default(),
            last: Report::none(),
        }
    }

    pub fn add(&mut self, report: &Report) {
        self.counts.add(report);
        self.last = *report;
    }
}
