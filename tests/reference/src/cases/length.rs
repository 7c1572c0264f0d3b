//! How much walking a case may ask for. Here orders go on together; but the probe's library walks each of them, and the probe may run
//! under an emulator.

use crate::case::{Case, ORDERS};
use crate::outcome::brought;

/// So many turns at most, where orders that begin alike share the turns of that beginning.
pub const MOST_WALKED: u64 = 30_000;

/// Lowers the depth, where the case is all orders and accepted, to the last one with no more turns than that.
pub fn shorten(case: &mut Case) {
    if case.call != ORDERS {
        return;
    }
    let Ok(mut walking) = brought(case).outset(case.worker) else {
        return;
    };
    let depths = (1..=case.worker).take_while(|_| {
        walking.go_on(&mut |_, _| ());
        walking.turns <= MOST_WALKED
    });
    case.worker = depths.count() as u64;
}

/// The bytes of a case that asks for no more. They stay as they are, in whatever form, where its depth does.
pub fn shortened(body: &[u8]) -> Vec<u8> {
    let mut case = Case::read(body);
    let depth = case.worker;
    shorten(&mut case);
    match case.worker == depth {
        true => body.to_vec(),
        false => case.write(),
    }
}
