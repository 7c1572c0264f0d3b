//! Which places were met in turns, with which outcome. Seen from the record and the bucket before and the record after.

use super::refusals::record_of;
use super::shown;
use crate::case::{self, Case, NAMES};
use crate::memory::BUCKET_WORDS;
use crate::outcome::{Answer, Outcome};
use crate::record::{Record, INSERT, LOOK, NONE};
use crate::report::{Action, Report};
use crate::word::Snapshot;

/// A turn that was done.
struct Turn<'a> {
    before: &'a Record,
    after: Record,
    report: Report,
    words: &'a [u64],
    kind: &'static str,
}

pub fn see(case: &Case, outcome: &Outcome, met: &mut Vec<String>) {
    let (case::TURN, Answer::Turn(Ok(report))) = (case.call, &outcome.answer) else {
        return;
    };
    let before = record_of(case).expect("an accepted turn has a record");
    let start = BUCKET_WORDS * (before.key % case.floor.buckets) as usize;
    let turn = Turn {
        before,
        after: outcome.records[case.worker as usize],
        report: *report,
        words: &case.board[start..start + BUCKET_WORDS],
        kind: NAMES[before.kind as usize],
    };
    see_sound(&turn, met);
    see_place(&turn, met);
    see_reads(&turn, met);
    match before.place {
        3..=5 => see_search_end(&turn, met),
        6 | 9 | 13 => see_swap(&turn, met),
        _ => (),
    }
}

fn see_sound(turn: &Turn, met: &mut Vec<String>) {
    let Turn { before, kind, .. } = turn;
    let Record { place, held, .. } = before;
    let word = Snapshot::of(before.word);
    match before.kind {
        INSERT => met.push(format!("turn: sound insert at {place} held {held}")),
        _ => met.push(format!("turn: sound {kind} at {place}")),
    }
    met.push(format!("turn: sound {kind} slot {}", before.slot));
    met.push(format!(
        "turn: sound {kind} ticket {}",
        shown(before.ticket)
    ));
    met.push(format!("turn: sound {kind} asleep {}", before.asleep));
    met.push(format!(
        "turn: sound {kind} version {} in its word",
        word.version
    ));
    for (slot, mark) in word.map.iter().enumerate() {
        met.push(format!(
            "turn: sound {kind} mark {mark} at {slot} in its word"
        ));
    }
}

fn see_place(turn: &Turn, met: &mut Vec<String>) {
    let Turn {
        before,
        words,
        kind,
        ..
    } = turn;
    let Record {
        place, slot, held, ..
    } = **before;
    let word = Snapshot::of(before.word);
    let board = Snapshot::of(words[0]);
    let at = usize::from(slot);
    let equal = if words[1 + at] == before.key {
        "equal"
    } else {
        "not equal"
    };
    if matches!(place, 7 | 8 | 10) {
        met.push(format!("at {place} held {held} slot {slot}"));
    }
    met.push(match place {
        1 if before.kind == INSERT => format!("at 1 insert slot {slot} held {held}"),
        1 | 2 => format!("at {place} {kind} slot {slot}"),
        3 => format!("at 3 {kind} slot {slot} mark {}", board.map[at]),
        4 => format!("at 4 {kind} slot {slot} {equal}"),
        5 => {
            let values = second_reading(before.seen, words[4 + at]);
            format!("at 5 {kind} slot {slot} {values}")
        }
        10 => {
            let mark = board.map[usize::from(held)];
            format!("at 10 held {held} mark {mark}")
        }
        11 => format!(
            "at 11 slot {slot} {equal}, mark {} in the word, {} on the board",
            word.map[at], board.map[at]
        ),
        12 => format!("at 12 slot {slot}"),
        _ => return,
    });
}

fn second_reading(seen: u64, value: u64) -> &'static str {
    match (seen, value) {
        (0, 0) => "equal and 0",
        (0, _) => "seen 0 alone",
        (_, 0) => "value 0 alone",
        _ if seen == value => "equal and not 0",
        _ => "not equal",
    }
}

/// What was read or stored, at the ends of its range.
fn see_reads(turn: &Turn, met: &mut Vec<String>) {
    let Turn { before, words, .. } = turn;
    let at = usize::from(before.slot);
    match before.place {
        4 | 11 if words[1 + at] == before.key => met.push(format!(
            "at {} equal with key {}",
            before.place,
            shown(before.key)
        )),
        2 | 12 => met.push(format!(
            "at {} reads {}",
            before.place,
            shown(words[4 + at])
        )),
        5 if words[4 + at] == before.seen => met.push(format!("at 5 finds {}", shown(before.seen))),
        7 => met.push(format!("at 7 stores {}", shown(before.ticket))),
        8 => met.push(format!("at 8 stores {}", shown(before.key))),
        _ => (),
    }
}

/// What follows where a search found or came to its end.
fn see_search_end(turn: &Turn, met: &mut Vec<String>) {
    let Turn {
        before,
        after,
        report,
        ..
    } = turn;
    let Record {
        place, slot, held, ..
    } = **before;
    let found = format!("found from slot {slot}: insert");
    let empty = format!("empty from {place}: insert");
    match (before.kind, report.ended, after.place) {
        (LOOK, Some(0), _) => met.push(format!("empty from {place}: look ends with 0")),
        (LOOK, Some(answer), _) if answer == before.seen => {
            met.push(format!("found from slot {slot}: look ends with seen"))
        }
        (INSERT, Some(0), _) => met.push(format!("{found} ends with 0")),
        (INSERT, None, 10) => met.push(format!("{found} holding {held} to 10")),
        (INSERT, None, 9) => met.push(format!("{empty} holding {held} to 9")),
        (INSERT, None, 6) => met.push(format!("{empty} to 6 with slot {}", after.slot)),
        (INSERT, None, 1) if report.full_round => {
            met.push(format!("empty from {place}: full round"))
        }
        _ => (),
    }
}

fn see_swap(turn: &Turn, met: &mut Vec<String>) {
    let Turn {
        before,
        report,
        words,
        ..
    } = turn;
    let Record { place, word, .. } = **before;
    let (at, which) = match place {
        9 => (before.held, "held"),
        _ => (before.slot, "slot"),
    };
    let mark = Snapshot::of(word).map[usize::from(at)];
    let expected = expected(before);
    let won = report.action == Action::Won;
    let came = if won { "won" } else { "lost" };
    met.push(format!("at {place} {which} {at} mark {mark} {came}"));
    if !won {
        met.push(format!(
            "at {place} lost by {} alone",
            difference(expected, words[0])
        ));
        if place == 9 && words[0] == word {
            met.push("at 9 lost to the word without its mark 2".into());
        }
        return;
    }
    match (place, mark) {
        (6, 2) | (13, 0) => met.push(format!("at {place} won by a word that stays as it is")),
        _ => (),
    }
    match report.ended {
        Some(u64::MAX) => met.push(format!("at {place} ends with 2^64-1")),
        Some(0) => met.push(format!("at {place} ends with 0")),
        Some(_) => met.push(format!("at {place} ends with more")),
        None => (),
    }
    if place == 9 && before.held != NONE && Snapshot::of(word).version == u32::MAX {
        let mut others = Snapshot::of(word).map.to_vec();
        others.remove(usize::from(at));
        met.push(format!(
            "at 9 version 4294967295 to 0 held {at}, other marks {}{}",
            others[0], others[1]
        ));
    }
}

/// The word that a swap expects.
pub fn expected(record: &Record) -> u64 {
    match (record.place, record.commit_expects()) {
        (9, Some(word)) => word,
        _ => record.word,
    }
}

/// The one part in which two mark words differ, or that there are more.
fn difference(expected: u64, stood: u64) -> &'static str {
    let (one, two) = (Snapshot::of(expected), Snapshot::of(stood));
    let differs = [0, 1, 2].map(|slot| one.map[slot] != two.map[slot]);
    match (one.version != two.version, differs) {
        (true, [false, false, false]) => "the version",
        (false, [true, false, false]) => "mark 0",
        (false, [false, true, false]) => "mark 1",
        (false, [false, false, true]) => "mark 2",
        _ => "more than one part",
    }
}
