//! The sheet and its listing.

use crate::desk::{Desk, Manner, Refusal};
use crate::record::{INSERT, LOOK, REMOVE};
use crate::report::Counts;
use std::fmt::Write;

/// §6.9: the most bytes of a sheet.
pub const MOST_BYTES: usize = 16_384;

/// Bytes of a field's tag and length.
const HEAD: usize = 3;

/// A field that was read whole.
enum Field<'a> {
    Floor {
        workers: u8,
        buckets: u16,
        version: u32,
    },
    Call {
        worker: u8,
        kind: u8,
        lot: u64,
        ticket: u64,
    },
    Turns(&'a [u8]),
}

/// The listing of any row of bytes; calls live from their start to their end.
pub fn listing(sheet: &[u8]) -> String {
    listing_in(Manner::Living, sheet)
}

/// The listing, with the calls' code in either manner.
pub fn listing_in(manner: Manner, sheet: &[u8]) -> String {
    let mut listing = String::new();
    match play(manner, sheet, &mut listing) {
        Ok(totals) => {
            let Counts {
                turns,
                changes,
                lost,
                full_rounds,
            } = totals;
            writeln!(listing, "T {turns} {changes} {lost} {full_rounds}")
        }
        Err((number, offset)) => writeln!(listing, "R {number} {offset}"),
    }
    .expect("a string takes any text");
    listing
}

/// Plays the sheet field by field, writes the lines of the calls that end, and gives the totals or the refusal with its offset.
fn play(manner: Manner, sheet: &[u8], listing: &mut String) -> Result<Counts, (Refusal, usize)> {
    if sheet.len() > MOST_BYTES {
        return Err((9, 0));
    }
    let mut at = 0;
    let mut totals = Counts::default();
    let mut desk: Option<Desk> = None;
    // an empty sheet is refused like a field that is cut
    while at < sheet.len() || desk.is_none() {
        let refused = |number| (number, at);
        let (field, after) = read_field(sheet, at).ok_or(refused(8))?;
        match (field, &mut desk) {
            (
                Field::Floor {
                    workers,
                    buckets,
                    version,
                },
                None,
            ) => {
                let opened = Desk::opened(workers.into(), buckets.into(), version, manner);
                desk = Some(opened.map_err(refused)?);
            }
            (
                Field::Call {
                    worker,
                    kind,
                    lot,
                    ticket,
                },
                Some(desk),
            ) => desk
                .start(kind, worker.into(), lot, ticket)
                .map_err(refused)?,
            (Field::Turns(turns), Some(desk)) => {
                run(desk, turns, &mut totals, listing).map_err(refused)?
            }
            // §8.5: the floor comes first, and only first
            _ => return Err(refused(8)),
        }
        at = after;
    }
    Ok(totals)
}

/// The field at an offset and the offset after it; none where it is cut, or of another tag, length or kind.
fn read_field(sheet: &[u8], at: usize) -> Option<(Field<'_>, usize)> {
    let head = sheet.get(at..at + HEAD)?;
    let length = usize::from(u16::from_be_bytes([head[1], head[2]]));
    let after = at + HEAD + length;
    let value = sheet.get(at + HEAD..after)?;
    let field = match head[0] {
        1 => read_floor(value)?,
        2 => read_call(value)?,
        3 if !value.is_empty() => Field::Turns(value),
        _ => return None,
    };
    Some((field, after))
}

/// §8.2.
fn read_floor(value: &[u8]) -> Option<Field<'_>> {
    let &[workers, n1, n0, v3, v2, v1, v0] = value else {
        return None;
    };
    Some(Field::Floor {
        workers,
        buckets: u16::from_be_bytes([n1, n0]),
        version: u32::from_be_bytes([v3, v2, v1, v0]),
    })
}

/// §8.3.
fn read_call(value: &[u8]) -> Option<Field<'_>> {
    let (&[worker, kind], rest) = value.split_first_chunk::<2>()?;
    let (&lot, rest) = rest.split_first_chunk::<8>()?;
    let ticket = match (kind, rest) {
        (LOOK | REMOVE, []) => 0,
        (INSERT, rest) => read_ticket(rest)?,
        _ => return None,
    };
    Some(Field::Call {
        worker,
        kind,
        lot: u64::from_be_bytes(lot),
        ticket,
    })
}

/// §8.3: a ticket in the short form or in the long one.
fn read_ticket(bytes: &[u8]) -> Option<u64> {
    match *bytes {
        [t3, t2, t1, t0] => Some(u32::from_be_bytes([t3, t2, t1, t0]).into()),
        [t7, t6, t5, t4, t3, t2, t1, t0] => {
            Some(u64::from_be_bytes([t7, t6, t5, t4, t3, t2, t1, t0]))
        }
        _ => None,
    }
}

/// The turns of one field; what was done of them stands, also where one is refused.
fn run(
    desk: &mut Desk,
    turns: &[u8],
    totals: &mut Counts,
    listing: &mut String,
) -> Result<(), Refusal> {
    let (refusal, _) = desk.run(turns, &mut |worker, record, report| {
        totals.add(report);
        if let Some(answer) = report.ended {
            writeln!(
                listing,
                "E {} {worker} {} {answer}",
                totals.turns, record.kind
            )
            .expect("a string takes any text");
        }
    });
    match refusal {
        0 => Ok(()),
        number => Err(number),
    }
}
