//! What the stored cases must meet. A point counts by what a case and its outcome are, not by what the case was made for.

mod asleep;
mod broken;
mod display;
mod index;
mod moving;
mod orders;
mod places;
mod points;
mod ranges;
mod refusals;
mod reports;
mod retire;
mod tickets;

use crate::case::Case;
use crate::outcome::Outcome;
use std::collections::HashMap;
use std::fmt::Write;

/// A number by the name that points have for it.
fn shown(number: u64) -> String {
    const HIGHEST_BIT: u64 = 1 << 63;
    const BELOW_IT: u64 = HIGHEST_BIT - 1;
    match (number, u64::MAX - number) {
        (BELOW_IT, _) => "2^63-1".into(),
        (HIGHEST_BIT, _) => "2^63".into(),
        (_, above @ 0..8) => format!("2^64-{}", above + 1),
        _ => number.to_string(),
    }
}

/// How often each point was met.
pub struct Coverage {
    cases: u64,
    met: HashMap<String, u64>,
}

impl Coverage {
    pub fn of<'a>(seen: impl Iterator<Item = (&'a Case, &'a Outcome)>) -> Coverage {
        let mut coverage = Coverage {
            cases: 0,
            met: HashMap::new(),
        };
        for (case, outcome) in seen {
            coverage.see(case, outcome);
        }
        coverage
    }

    fn see(&mut self, case: &Case, outcome: &Outcome) {
        let mut met = Vec::new();
        refusals::see(case, outcome, &mut met);
        broken::see(case, outcome, &mut met);
        places::see(case, outcome, &mut met);
        ranges::see(case, outcome, &mut met);
        reports::see(case, outcome, &mut met);
        orders::see(case, outcome, &mut met);
        retire::see(case, outcome, &mut met);
        asleep::see(case, outcome, &mut met);
        index::see(case, outcome, &mut met);
        display::see(case, outcome, &mut met);
        moving::see(case, outcome, &mut met);
        tickets::see(case, outcome, &mut met);
        met.sort();
        met.dedup();
        for point in met {
            *self.met.entry(point).or_default() += 1;
        }
        self.cases += 1;
    }

    fn count(&self, point: &str) -> u64 {
        self.met.get(point).copied().unwrap_or(0)
    }

    /// The points that no case meets.
    pub fn unmet(&self) -> Vec<String> {
        let mut unmet = points::points();
        unmet.retain(|point| self.count(point) == 0);
        unmet
    }

    /// Every point with its count.
    pub fn report(&self) -> String {
        let points = points::points();
        let mut report = String::new();
        for point in &points {
            writeln!(report, "{:6}  {point}", self.count(point)).expect("a string takes any text");
        }
        let met = points.len() - self.unmet().len();
        writeln!(
            report,
            "{} cases, {met} of {} points met",
            self.cases,
            points.len()
        )
        .expect("a string takes any text");
        report
    }
}
