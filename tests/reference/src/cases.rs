//! The cases: directed ones, so that every point is met, and random ones beside them.

mod asleep;
mod broken;
mod build;
mod display;
mod index;
pub mod length;
mod loose;
mod moving;
mod orders;
mod places;
mod ranges;
mod refusals;
mod reports;
mod retire;
mod tickets;

use crate::case::{with_length, Case};
use crate::random::Random;
use length::shortened;

/// The seed of the stored cases.
pub const STORED_SEED: u64 = 1;

/// Bodies as they are made.
pub struct Bodies {
    pub random: Random,
    pub bodies: Vec<Vec<u8>>,
}

impl Bodies {
    fn push(&mut self, case: Case) {
        self.bodies.push(case.write());
    }
}

/// One round of everything, by a seed.
fn round(seed: u64) -> Bodies {
    let mut bodies = Bodies {
        random: Random::new(seed),
        bodies: Vec::new(),
    };
    refusals::make(&mut bodies);
    broken::make(&mut bodies);
    for _ in 0..2 {
        places::make(&mut bodies);
    }
    ranges::make(&mut bodies);
    reports::make(&mut bodies);
    orders::make(&mut bodies);
    retire::make(&mut bodies);
    asleep::make(&mut bodies);
    index::make(&mut bodies);
    display::make(&mut bodies);
    moving::make(&mut bodies);
    tickets::make(&mut bodies);
    loose::make(&mut bodies);
    bodies
}

/// A stream's pieces: each body with its length, the last one cut short by the end of the stream. Every case that is put out passes here.
fn pieces(bodies: &[Vec<u8>]) -> Vec<Vec<u8>> {
    let Some((last, others)) = bodies.split_last() else {
        return Vec::new();
    };
    let whole = others.iter().map(|body| with_length(&shortened(body)));
    whole.chain([cut_short(last)]).collect()
}

/// A body of which two bytes are missing, or as many as it has. What is left of it is a case too, and may be another.
fn cut_short(body: &[u8]) -> Vec<u8> {
    let missing = body.len().min(2);
    let left = shortened(&body[..body.len() - missing]);
    let mut piece = with_length(&[left, vec![0; missing]].concat());
    piece.truncate(piece.len() - missing);
    piece
}

/// The stored cases, each with its length.
pub fn stored() -> Vec<Vec<u8>> {
    pieces(&round(STORED_SEED).bodies)
}

/// So many fresh cases, each with its length: rounds like the stored one, but shuffled.
pub fn fresh(seed: u64, count: usize) -> Vec<Vec<u8>> {
    let mut random = Random::new(seed);
    let mut bodies = Vec::new();
    while bodies.len() < count {
        let mut more = round(random.any()).bodies;
        random.shuffle(&mut more);
        bodies.extend(more);
    }
    bodies.truncate(count);
    pieces(&bodies)
}

#[cfg(test)]
mod tests {
    use super::*;

    /// What is put out is short enough, also where the end of the stream has made another case of it.
    #[test]
    fn nothing_is_left_to_shorten() {
        for body in round(STORED_SEED).bodies {
            for piece in pieces(&[body.clone(), body]) {
                assert_eq!(shortened(&piece[2..]), &piece[2..]);
            }
        }
    }
}
