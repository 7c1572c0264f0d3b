//! Every sheet that the project keeps comes to its listing; an insert's two forms (§8.3), and what is no form of it; and what is met in
//! fresh sheets.

use reference::desk::Manner;
use reference::record::{INSERT, LOOK, REMOVE};
use reference::sheet::{listing, listing_in};
use reference::sheets::fresh;
use std::collections::BTreeSet;
use std::fs;
use std::path::Path;

#[test]
fn kept_sheets() {
    let folder = Path::new(env!("CARGO_MANIFEST_DIR")).join("../../sheets");
    let mut met = 0;
    for entry in fs::read_dir(folder).unwrap() {
        let path = entry.unwrap().path();
        if path
            .extension()
            .is_some_and(|extension| extension == "sheet")
        {
            let expected = fs::read_to_string(path.with_extension("listing")).unwrap();
            assert_eq!(listing(&fs::read(&path).unwrap()), expected, "{path:?}");
            met += 1;
        }
    }
    assert!(met > 0);
}

/// Two workers, one bucket, version 0.
const FLOOR: [u8; 10] = [1, 0, 7, 2, 0, 1, 0, 0, 0, 0];

fn field(tag: u8, value: &[u8]) -> Vec<u8> {
    [&[tag, 0, value.len() as u8][..], value].concat()
}

/// A call of worker 0, with these bytes behind its lot.
fn call(kind: u8, lot: u64, ticket: &[u8]) -> Vec<u8> {
    field(2, &[&[0, kind][..], &lot.to_be_bytes(), ticket].concat())
}

fn short(lot: u64, ticket: u32) -> Vec<u8> {
    call(INSERT, lot, &ticket.to_be_bytes())
}

fn long(lot: u64, ticket: u64) -> Vec<u8> {
    call(INSERT, lot, &ticket.to_be_bytes())
}

fn turns(count: u8) -> Vec<u8> {
    field(3, &vec![0; count.into()])
}

fn listed(fields: &[Vec<u8>]) -> String {
    let sheet = [&FLOOR[..], &fields.concat()].concat();
    let listing = listing_in(Manner::Living, &sheet);
    assert_eq!(listing_in(Manner::Remade, &sheet), listing);
    listing
}

fn refused(number: u8, offset: usize) -> String {
    format!("R {number} {offset}\n")
}

/// Inserts of lots 7, 8 and 9 in these forms; then each is looked for, and then each is removed.
fn bids(inserts: [Vec<u8>; 3]) -> Vec<Vec<u8>> {
    let mut fields = Vec::new();
    for (at, insert) in inserts.into_iter().enumerate() {
        fields.extend([insert, turns(11 + at as u8)]);
    }
    for at in 0..3 {
        fields.extend([call(LOOK, 7 + at, &[]), turns(4 + 3 * at as u8)]);
    }
    for at in 0..3 {
        fields.extend([call(REMOVE, 7 + at, &[]), turns(4 + at as u8)]);
    }
    fields
}

/// What they come to with these tickets.
fn sold(tickets: [u64; 3]) -> String {
    let [one, two, three] = tickets;
    format!(
        "E 11 0 2 1\nE 23 0 2 1\nE 36 0 2 1\n\
         E 40 0 1 {one}\nE 47 0 1 {two}\nE 57 0 1 {three}\n\
         E 61 0 3 {one}\nE 66 0 3 {two}\nE 72 0 3 {three}\n\
         T 72 9 0 0\n"
    )
}

#[test]
fn either_form_is_the_same_ticket() {
    for tickets in [[1, 2, 3], [255, 256, 65_536], [1, 0x102_0304, u32::MAX]] {
        for long_ones in 0..8 {
            let inserts = [0, 1, 2].map(|at| match long_ones >> at & 1 {
                1 => long(7 + at, tickets[at as usize].into()),
                _ => short(7 + at, tickets[at as usize]),
            });
            assert_eq!(listed(&bids(inserts)), sold(tickets.map(u64::from)));
        }
    }
}

#[test]
fn tickets_of_more_than_four_bytes() {
    for tickets in [
        [1 << 32, (1 << 32) + 1, 1 << 33],
        [1 << 63, u64::MAX - 1, u64::MAX],
        [1, 0x102_0304_0506_0708, 0x809_0a0b_0c0d_0e0f],
    ] {
        let inserts = [0, 1, 2].map(|at| long(7 + at, tickets[at as usize]));
        assert_eq!(listed(&bids(inserts)), sold(tickets));
    }
    let mixed = [short(7, u32::MAX), long(8, 1 << 32), long(9, u64::MAX)];
    let tickets = [u32::MAX.into(), 1 << 32, u64::MAX];
    assert_eq!(listed(&bids(mixed)), sold(tickets));
}

/// §3.5: whichever form the last ticket had, and whichever this one has.
#[test]
fn a_spent_ticket_in_either_form() {
    for first in [short(7, 5), long(7, 5)] {
        let start = FLOOR.len() + first.len();
        for second in [short(8, 5), long(8, 5), short(8, 0), long(8, 0)] {
            let worker_1 = |mut field: Vec<u8>| {
                field[3] = 1;
                field
            };
            let fields = [first.clone(), worker_1(second)];
            assert_eq!(listed(&fields), refused(5, start));
        }
    }
    for last in [1 << 32, (1 << 32) + 3, u64::MAX] {
        for ticket in [0, 1, 4, u32::MAX] {
            let fields = [long(7, last), turns(11), short(8, ticket)];
            let refusal = refused(5, FLOOR.len() + fields[0].len() + fields[1].len());
            assert_eq!(listed(&fields), format!("E 11 0 2 1\n{refusal}"));
        }
    }
}

/// §8.5: every length but those of the kind, whatever else could be said of the field.
#[test]
fn other_lengths() {
    for kind in [LOOK, INSERT, REMOVE] {
        for length in 0..40 {
            let known: &[u8] = match kind {
                INSERT => &[14, 18],
                _ => &[10],
            };
            for worker in [0, 1, 9] {
                let mut value = vec![1; length.into()];
                for (byte, is) in value.iter_mut().zip([worker, kind]) {
                    *byte = is;
                }
                let expected = match (known.contains(&length), worker) {
                    (false, _) => refused(8, FLOOR.len()),
                    (true, 9) => refused(2, FLOOR.len()),
                    (true, _) => "T 0 0 0 0\n".into(),
                };
                assert_eq!(listed(&[field(2, &value)]), expected, "{kind} {length}");
            }
        }
    }
}

/// A long form of which bytes are missing is no short one.
#[test]
fn cut_forms() {
    for whole in [short(7, 1), long(7, 1)] {
        for left in 1..whole.len() {
            let cut = whole[..left].to_vec();
            assert_eq!(listed(&[cut]), refused(8, FLOOR.len()));
        }
    }
}

/// The calls that a sheet has, as far as it can be taken apart: where each field is, its kind, and all of its value.
fn calls(sheet: &[u8]) -> Vec<(usize, u8, Vec<u8>)> {
    let (mut calls, mut at) = (Vec::new(), 0);
    while let Some(&[tag, high, low]) = sheet.get(at..).and_then(|rest| rest.first_chunk()) {
        let length = usize::from(u16::from_be_bytes([high, low]));
        let Some(value) = sheet.get(at + 3..at + 3 + length) else {
            break;
        };
        if let (2, Some(kind)) = (tag, value.get(1)) {
            calls.push((at, *kind, value.to_vec()));
        }
        at += 3 + length;
    }
    calls
}

/// The number and the offset of a refused sheet; of one that is not refused an offset past its end.
fn refusal(listing: &str) -> (u8, usize) {
    let last = listing.lines().last().unwrap();
    match last.split(' ').collect::<Vec<_>>()[..] {
        ["R", number, offset] => (number.parse().unwrap(), offset.parse().unwrap()),
        _ => (0, usize::MAX),
    }
}

/// The ticket of an insert's field, by its size.
fn size(value: &[u8]) -> &'static str {
    let bytes = value[10..].iter();
    match bytes.fold(0, |sum, &byte| sum << 8 | u64::from(byte)) {
        0..=0xffff_fff0 => "small",
        0xffff_fff1..=0xffff_ffff => "below 2^32",
        0x1_0000_0000..=0x1_0000_000f => "from 2^32 on",
        u64::MAX => "the highest",
        _ => "large",
    }
}

/// What there is in fresh sheets, so that another program is asked for it.
#[test]
fn fresh_sheets_have_both_forms() {
    let mut met = BTreeSet::new();
    for sheet in fresh(3, 3_200) {
        let (number, offset) = refusal(&listing(&sheet));
        let mut forms = Vec::new();
        for (at, kind, value) in calls(&sheet) {
            let length = value.len();
            match (at == offset, number) {
                (true, 5) => met.insert(format!("{length} bytes, spent")),
                (true, _) => met.insert(format!("kind {kind} of {length} bytes gives {number}")),
                (false, _) if at < offset && kind == INSERT => {
                    forms.push(length);
                    met.insert(format!("{length} bytes, {}", size(&value)))
                }
                _ => continue,
            };
        }
        for pair in forms.windows(2) {
            met.insert(format!("{} after {}", pair[1], pair[0]));
        }
    }
    for expected in [
        "14 after 14",
        "14 after 18",
        "18 after 14",
        "18 after 18",
        "14 bytes, small",
        "18 bytes, small",
        "14 bytes, below 2^32",
        "18 bytes, below 2^32",
        "18 bytes, from 2^32 on",
        "18 bytes, large",
        "18 bytes, the highest",
        "14 bytes, spent",
        "18 bytes, spent",
        "kind 1 of 14 bytes gives 8",
        "kind 1 of 18 bytes gives 8",
        "kind 2 of 10 bytes gives 8",
        "kind 2 of 13 bytes gives 8",
        "kind 2 of 15 bytes gives 8",
        "kind 2 of 16 bytes gives 8",
        "kind 2 of 17 bytes gives 8",
        "kind 2 of 19 bytes gives 8",
        "kind 3 of 14 bytes gives 8",
        "kind 3 of 18 bytes gives 8",
    ] {
        assert!(met.contains(expected), "not met: {expected}");
    }
}
