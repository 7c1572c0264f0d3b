//! Tickets of 64 bits (§3.5): which one was asked for after which, and where a ticket stood that needs all of its bits.

use super::moving::is_just_moved;
use super::refusals::record_of;
use super::shown;
use crate::case::{self, Case, INSERT, LOOK, MOVE, NAMES, OPEN, REMOVE, RUN, TURN};
use crate::memory::BUCKET_WORDS;
use crate::outcome::{Answer, Outcome, Told};
use crate::record::Record;
use crate::report::{Action, Report};
use crate::word::{Snapshot, MAP_VALID};
use std::cmp::Ordering;

pub fn see(case: &Case, outcome: &Outcome, met: &mut Vec<String>) {
    match case.call {
        LOOK | INSERT | REMOVE => see_start(case, outcome.answer.number(), met),
        OPEN => see_opening(case, outcome.answer.number(), met),
        MOVE => see_move(case, outcome.answer.number(), met),
        _ => (),
    }
    match &outcome.answer {
        Answer::Turn(Ok(report)) => {
            let record = record_of(case).expect("an accepted turn has a record");
            see_turn(case, record, report, &outcome.board, met);
            see_kept(record, &outcome.records[case.worker as usize], met);
        }
        Answer::Run(_, ran) if ran.counts.turns > 0 => see_run(&outcome.told, met),
        Answer::Orders(Ok(_)) => see_orders(case, met),
        _ => (),
    }
    see_sleepers(case, outcome, met);
    if is_just_moved(case) {
        see_moved(case, outcome, met);
    }
}

/// The two halves of a ticket.
fn halves(ticket: u64) -> (u32, u32) {
    ((ticket >> 32) as u32, ticket as u32)
}

/// Every byte is another, and none is 0.
fn has_eight_bytes(ticket: u64) -> bool {
    let mut bytes = ticket.to_be_bytes().to_vec();
    bytes.retain(|&byte| byte != 0);
    bytes.sort();
    bytes.dedup();
    bytes.len() == 8
}

/// Two such numbers, with another byte at each place.
fn differ_in_every_byte(one: u64, other: u64) -> bool {
    let differ = (one ^ other).to_be_bytes();
    has_eight_bytes(one) && has_eight_bytes(other) && !differ.contains(&0)
}

// ---- starts

fn see_start(case: &Case, number: u8, met: &mut Vec<String>) {
    let name = NAMES[case.call as usize];
    let last = case.floor.last_ticket;
    if number == 4 {
        let busy = record_of(case).expect("a busy worker has a record");
        met.push(format!(
            "{name}: 4 for one with ticket {}",
            shown(busy.ticket)
        ));
    }
    if case.call != INSERT {
        if number == 0 {
            met.push(format!("{name}: 0 after {}", shown(last)));
        }
        return;
    }
    met.push(format!("insert: {number} with last ticket {}", shown(last)));
    if matches!(number, 0 | 5) {
        see_pair(case, number, met);
        see_halves(case, number, met);
    }
}

/// An insert that was accepted or refused by 5: its ticket beside the last.
fn see_pair(case: &Case, number: u8, met: &mut Vec<String>) {
    let (ticket, last) = (case.ticket, case.floor.last_ticket);
    let (name, last_name) = (shown(ticket), shown(last));
    met.push(format!(
        "insert: {number} with ticket {name} after {last_name}"
    ));
    met.push(format!(
        "insert: {number} with last ticket {last_name} for worker {}",
        case.worker
    ));
    for (is_so, how) in [
        (last.checked_add(1) == Some(ticket), "one more than"),
        (ticket.checked_add(1) == Some(last), "one less than"),
    ] {
        if is_so {
            met.push(format!("insert: {number} with ticket {how} {last_name}"));
            met.push(format!(
                "insert: {number} with ticket {name}, {how} the last"
            ));
        }
    }
    if differ_in_every_byte(ticket, last) {
        met.push(format!(
            "insert: {number} with a ticket of eight bytes after one of eight others"
        ));
    }
}

/// How each half of the ticket is beside the last one's.
fn see_halves(case: &Case, number: u8, met: &mut Vec<String>) {
    let ((high, low), (last_high, last_low)) =
        (halves(case.ticket), halves(case.floor.last_ticket));
    let high_is = beside(high, last_high);
    let low_is = beside(low, last_low);
    met.push(format!(
        "insert: {number}, high half {high_is}, low half {low_is}"
    ));
    if high == last_high && high != 0 {
        met.push(format!(
            "insert: {number}, high half equal and not 0, low half {low_is}"
        ));
    }
    match (low, last_low) {
        (0, 1..) if high_is == "above" => {
            met.push(format!("insert: {number}, high half above, no low half"))
        }
        (1.., 0) if high_is == "below" => met.push(format!(
            "insert: {number}, high half below, no low half after one"
        )),
        _ => (),
    }
}

fn beside(one: u32, other: u32) -> &'static str {
    match one.cmp(&other) {
        Ordering::Less => "below",
        Ordering::Equal => "equal",
        Ordering::Greater => "above",
    }
}

// ---- who looks at a record or hands on the floor

fn see_opening(case: &Case, number: u8, met: &mut Vec<String>) {
    let last = shown(case.floor.last_ticket);
    met.push(format!("open: {number} over last ticket {last}"));
    if case.ticket != u64::from(case.version()) {
        met.push(format!(
            "open: {number} with version {} as the low half of more",
            case.version()
        ));
    }
    for record in case.list.records.iter().filter(|it| it.is_sleeper()) {
        let ticket = shown(record.ticket);
        met.push(format!("open: {number} over one with ticket {ticket}"));
    }
}

fn see_move(case: &Case, number: u8, met: &mut Vec<String>) {
    let busy: Vec<&Record> = case
        .list
        .records
        .iter()
        .filter(|it| !it.is_idle())
        .collect();
    if let [record] = busy[..] {
        let ticket = shown(record.ticket);
        met.push(format!("move: {number} by one with ticket {ticket}"));
    }
}

/// §20.2: who is beside a turn and has the number of turns counted on, so is not taken for broken.
fn see_sleepers(case: &Case, outcome: &Outcome, met: &mut Vec<String>) {
    if !matches!(case.call, TURN | RUN) {
        return;
    }
    let name = NAMES[case.call as usize];
    for (before, after) in case.list.records.iter().zip(&outcome.records) {
        if after.asleep > before.asleep {
            let ticket = shown(before.ticket);
            met.push(format!("{name}: one with ticket {ticket} sleeps on"));
        }
    }
}

// ---- turns

fn see_turn(case: &Case, record: &Record, report: &Report, after: &[u64], met: &mut Vec<String>) {
    let start = BUCKET_WORDS * (record.key % case.floor.buckets) as usize;
    let values = start + 4;
    match record.place {
        2 | 12 => {
            let value = shown(case.board[values + usize::from(record.slot)]);
            met.push(format!("at {} reads {value} as its value", record.place));
        }
        5 => {
            let value = case.board[values + usize::from(record.slot)];
            see_second_reading(record, value, met);
        }
        7 => {
            let at = values + usize::from(record.held);
            see_store(case.board[at], after[at], met);
        }
        _ => (),
    }
    if let (LOOK | REMOVE, Some(answer)) = (record.kind, report.ended) {
        let name = NAMES[record.kind as usize];
        met.push(format!("{name} ends with ticket {}", shown(answer)));
    }
}

/// A ticket stays in the record of an insert that goes on.
fn see_kept(before: &Record, after: &Record, met: &mut Vec<String>) {
    if before.kind == INSERT && after.ticket == before.ticket {
        let ticket = shown(before.ticket);
        met.push(format!("at {} keeps ticket {ticket}", before.place));
    }
}

/// §5.5: the value of the first reading and of the second.
fn see_second_reading(record: &Record, value: u64, met: &mut Vec<String>) {
    let kind = NAMES[record.kind as usize];
    let ((high, low), (seen_high, seen_low)) = (halves(value), halves(record.seen));
    match (high == seen_high, low == seen_low) {
        (true, true) => met.push(format!("at 5 {kind}: found with {}", shown(value))),
        (false, true) => met.push(format!("at 5 {kind}: not equal by the high half alone")),
        (true, false) => met.push(format!("at 5 {kind}: not equal by the low half alone")),
        (false, false) => (),
    }
    if value != record.seen && record.seen != 0 {
        for (half, name) in [(seen_low, "low"), (seen_high, "high")] {
            if half == 0 {
                met.push(format!(
                    "at 5 {kind}: not equal, no {name} half in what was seen"
                ));
            }
        }
    }
}

/// §5.7: what was there and what is there now.
fn see_store(before: u64, after: u64, met: &mut Vec<String>) {
    met.push(format!("at 7 stores {}", shown(after)));
    let ((high, low), (old_high, old_low)) = (halves(after), halves(before));
    for (half, old, name) in [(high, old_high, "high half"), (low, old_low, "low half")] {
        match (half, old) {
            (0, 1..) => met.push(format!("at 7 stores no {name} over one")),
            (1.., 0) => met.push(format!("at 7 stores a {name} over none")),
            _ => (),
        }
    }
    if differ_in_every_byte(after, before) {
        met.push("at 7 stores eight bytes over eight others".into());
    }
}

// ---- runs

fn see_run(told: &[Told], met: &mut Vec<String>) {
    for (at, (_, record, report)) in told.iter().enumerate() {
        if record.kind == INSERT && report.ended.is_none() {
            let ticket = shown(record.ticket);
            met.push(format!("run: one with ticket {ticket} goes on"));
        }
        if (record.place, report.action) == (9, Action::Won) {
            see_committed(record, &told[at + 1..], met);
        }
        if record.place == 5 && report.ended == Some(0) && record.kind == LOOK {
            see_late_store(record, &told[..at], met);
        }
    }
}

/// What was made of a ticket after its commit.
fn see_committed(record: &Record, later: &[Told], met: &mut Vec<String>) {
    let ticket = shown(record.ticket);
    met.push(format!("run: ticket {ticket} is committed"));
    let ended = |kind: u8, answer: u64| {
        let mut ends = later.iter().filter(|(_, other, _)| other.key == record.key);
        ends.any(|(_, other, report)| other.kind == kind && report.ended == Some(answer))
    };
    if ended(LOOK, record.ticket) && ended(REMOVE, record.ticket) {
        met.push(format!(
            "run: ticket {ticket} is committed, found by a look and closed"
        ));
    }
    let mut ends = later.iter();
    let found = |(_, other, report): &Told| {
        (other.key, other.kind, other.seen) == (record.key, INSERT, record.ticket)
            && report.ended == Some(0)
    };
    if ends.any(found) {
        met.push(format!(
            "run: ticket {ticket} is committed and found by an insert"
        ));
    }
}

/// A look whose two readings differ, since an insert stored a ticket of the same low half in between.
fn see_late_store(record: &Record, earlier: &[Told], met: &mut Vec<String>) {
    let mut stores = earlier.iter().filter(|(_, other, _)| other.place == 7);
    let alike = |(_, other, _): &Told| {
        other.held == record.slot
            && other.ticket != record.seen
            && halves(other.ticket).1 == halves(record.seen).1
    };
    if stores.any(alike) {
        met.push(
            "run: a look is empty after a store of a ticket with the low half that it had seen"
                .into(),
        );
    }
}

// ---- all orders

fn see_orders(case: &Case, met: &mut Vec<String>) {
    let records = case.list.records.iter();
    let inserts: Vec<&Record> = records.filter(|record| record.kind == INSERT).collect();
    for (at, record) in inserts.iter().enumerate() {
        let ticket = shown(record.ticket);
        met.push(format!("orders: an insert has ticket {ticket}"));
        for other in &inserts[at + 1..] {
            see_tickets(record.ticket, other.ticket, met);
        }
        let waits = |other: &&Record| {
            other.place == 5
                && other.slot == record.held
                && other.seen != record.ticket
                && halves(other.seen).1 == halves(record.ticket).1
        };
        if record.place == 7 && inserts.iter().any(waits) {
            met.push(
                "orders: an insert is at 5, and another at 7 with a ticket of the same low half as seen"
                    .into(),
            );
        }
    }
    let marks = Snapshot::of(case.board[0]).map;
    for slot in (0..3).filter(|&slot| marks[slot] == MAP_VALID) {
        let ticket = shown(case.board[4 + slot]);
        met.push(format!("orders: a lot stands on ticket {ticket}"));
    }
}

fn see_tickets(one: u64, other: u64, met: &mut Vec<String>) {
    let ((high, low), (other_high, other_low)) = (halves(one), halves(other));
    match (high == other_high, low == other_low) {
        (false, true) => {
            met.push("orders: two inserts with tickets of the same low half".into());
        }
        (true, false) if high != 0 => {
            met.push("orders: two inserts with tickets of the same high half".into());
        }
        _ => (),
    }
}

// ---- the board as a move leaves it

fn see_moved(case: &Case, outcome: &Outcome, met: &mut Vec<String>) {
    let number = outcome.answer.number();
    let last = case.floor.last_ticket;
    let name = shown(last);
    if case.call == INSERT {
        let ticket = shown(case.ticket);
        met.push(format!(
            "just moved: insert {number} with ticket {ticket} after {name}"
        ));
        for (is_so, what) in [
            (case.ticket == last, "the last ticket after"),
            (case.ticket.checked_add(1) == Some(last), "one less after"),
            (case.ticket == 0, "ticket 0 after"),
            (case.ticket == last & 0xffff_ffff, "the low half after"),
            (last.checked_add(1) == Some(case.ticket), "one more than"),
        ] {
            if is_so {
                met.push(format!("just moved: insert {number} with {what} {name}"));
            }
        }
    }
    if (case.call, number) == (case::MOVE, 0) {
        met.push(format!("just moved: a move with last ticket {name}"));
    }
    for (_, record, report) in &outcome.told {
        if let (LOOK | REMOVE, Some(answer)) = (record.kind, report.ended) {
            let kind = NAMES[record.kind as usize];
            met.push(format!(
                "just moved: {kind} ends with ticket {}",
                shown(answer)
            ));
        }
    }
}
