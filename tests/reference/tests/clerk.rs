//! The whole board as one clerk (item 5 of the second document), tried by running random histories of opened boards, with retirings (item
//! 7) anywhere in them; and wrong engines, on which the same checks fail.

#[path = "clerk/checks.rs"]
mod checks;
#[path = "clerk/engines.rs"]
mod engines;
#[path = "clerk/points.rs"]
mod points;
#[path = "clerk/schedules.rs"]
mod schedules;
#[path = "clerk/stories.rs"]
mod stories;

use checks::{play, play_overlooking, Check, Failure};
use engines::{Engine, Flaw};
use points::points;
use schedules::Event::{self, *};
use schedules::{any_schedule, Schedule};
use std::collections::BTreeSet;
use stories::STORIES;

const HISTORIES: u64 = 20_000;

const fn wrong(flaw: Flaw) -> Engine {
    Engine::Table(Some(flaw))
}

fn with_two_workers(events: Vec<Event>) -> Schedule {
    Schedule {
        workers: 2,
        buckets: 1,
        version: 0,
        events,
    }
}

#[test]
fn in_random_histories() {
    let mut met = BTreeSet::new();
    let (mut turns, mut ended) = (0, 0);
    for seed in 0..HISTORIES {
        match play(Engine::Figures, &any_schedule(seed)) {
            Ok(mut played) => {
                turns += played.reports.len();
                ended += played.answers.len();
                met.append(&mut played.met);
            }
            Err(failure) => panic!("history {seed}: {failure:?}"),
        }
    }
    println!("{HISTORIES} histories, {turns} turns, {ended} ended calls");
    assert_eq!(met, points());
}

/// So a wrong engine is wrong by its mistake alone.
#[test]
fn the_table_is_what_the_figures_are() {
    for seed in 0..2_000 {
        let schedule = any_schedule(seed);
        let by_figures = play(Engine::Figures, &schedule);
        assert!(by_figures.is_ok());
        assert_eq!(play(Engine::Table(None), &schedule), by_figures);
    }
}

/// By which checks each mistake is seen first, in one history or another; so each of these checks can fail.
#[test]
fn wrong_engines_fail_in_random_histories() {
    for (flaw, checks) in [
        (Flaw::OneReading, &[Check::NoMoment][..]),
        (Flaw::KeyFirst, &[Check::NoMoment]),
        (
            Flaw::BlindSwap,
            &[
                Check::WonAnswer,
                Check::TwoSlots,
                Check::List,
                Check::Held,
                Check::Again,
            ],
        ),
        (Flaw::ForgetsHeld, &[Check::Held]),
        (Flaw::LeavesMark, &[Check::Held]),
        (Flaw::LeavesVersion, &[Check::Again]),
        (Flaw::WritesOwnWord, &[Check::List, Check::Held]),
    ] {
        let mut missing = BTreeSet::from_iter(checks.iter().copied());
        for seed in 0..HISTORIES {
            if let Err(failure) = play(wrong(flaw), &any_schedule(seed)) {
                assert!(checks.contains(&failure.check), "{flaw:?}: {failure:?}");
                missing.remove(&failure.check);
            }
            if missing.is_empty() {
                println!("{flaw:?}: seen in all these ways by history {seed}");
                break;
            }
        }
        assert!(missing.is_empty(), "{flaw:?} is not seen by {missing:?}");
    }
}

/// A slot that is lost for good is all that two of these mistakes do, and a word that stands again all that the third does.
#[test]
fn mistakes_that_make_no_answer_wrong() {
    for (flaw, overlooked) in [
        (Flaw::ForgetsHeld, Check::Held),
        (Flaw::LeavesMark, Check::Held),
        (Flaw::LeavesVersion, Check::Again),
    ] {
        for seed in 0..2_000 {
            let played = play_overlooking(Some(overlooked), wrong(flaw), &any_schedule(seed));
            assert!(played.is_ok());
        }
    }
}

#[test]
fn stories_of_wrong_engines() {
    for story in STORIES {
        let told = with_two_workers(story.events.to_vec());
        assert_eq!(play(wrong(story.flaw), &told), Err(story.failure));
        let to_the_end = with_two_workers([story.events, story.ending].concat());
        for engine in [Engine::Figures, Engine::Table(None)] {
            assert!(play(engine, &told).is_ok());
            let played = play(engine, &to_the_end).unwrap();
            assert_eq!(played.answers, story.right_answers);
            assert!(played.records.iter().all(|record| record.is_idle()));
        }
    }
}

/// The schedule without this event, or without one of its turns.
fn shorter(events: &[Event], at: usize) -> Schedule {
    let mut events = events.to_vec();
    match &mut events[at] {
        Turns(_, turns) => *turns -= 1,
        _ => drop(events.remove(at)),
    }
    with_two_workers(events)
}

#[test]
fn stories_have_no_start_and_no_turn_too_many() {
    for story in STORIES {
        for at in 0..story.events.len() {
            let played = play(wrong(story.flaw), &shorter(story.events, at));
            assert!(played.is_ok());
        }
    }
}

/// Where the look's first turn comes while the old ticket still stands, a beaten bid is no wrong answer: that turn is its moment. The
/// right engine reads the value once more, finds another, and answers 0, whose moment is between the remove and the new commit.
#[test]
fn a_beaten_bid_with_a_moment() {
    let mut events = vec![Insert(1, 7, 1), Turns(1, 11)];
    events.extend([Look(0, 7), Turns(0, 1)]);
    events.extend([Remove(1, 7), Turns(1, 4), Insert(1, 7, 2), Turns(1, 11)]);
    events.push(Turns(0, 3));
    let schedule = with_two_workers(events);
    let last_answer = |engine| -> Result<_, Failure> { Ok(play(engine, &schedule)?.answers.pop()) };
    assert_eq!(last_answer(wrong(Flaw::OneReading)), Ok(Some((29, 1))));
    assert_eq!(last_answer(Engine::Figures), Ok(Some((30, 0))));
}
