//! What a case comes to, and its line.

use crate::case::{self, fields, groups, Case};
use crate::desk::{Desk, Floor, Manner, Refusal};
use crate::index::Index;
use crate::memory::Board;
use crate::orders::Walks;
use crate::record::Record;
use crate::report::{Action, Counts, Ran, Report};
use std::fmt::Write;

#[derive(Clone, Debug, PartialEq, Eq)]
pub enum Answer {
    /// An opening, a start or a retiring.
    Alone(Result<(), Refusal>),
    Turn(Result<Report, Refusal>),
    Run(Refusal, Ran),
    Show(Result<(usize, Vec<u64>), Refusal>),
    Count(Result<u64, Refusal>),
    Orders(Result<Walks, Refusal>),
    Total(Result<u64, Refusal>),
    Next(Result<Option<u64>, Refusal>),
    Move(Result<(), Refusal>),
}

impl Answer {
    /// The number of refusal, or 0.
    pub fn number(&self) -> Refusal {
        match self {
            Answer::Alone(Err(number))
            | Answer::Turn(Err(number))
            | Answer::Run(number, _)
            | Answer::Show(Err(number))
            | Answer::Count(Err(number))
            | Answer::Orders(Err(number))
            | Answer::Total(Err(number))
            | Answer::Next(Err(number))
            | Answer::Move(Err(number)) => *number,
            _ => 0,
        }
    }
}

/// A turn of a run that was done: the worker, its record before, what it reported.
pub type Told = (u8, Record, Report);

#[derive(Clone, Debug, PartialEq, Eq)]
pub struct Outcome {
    pub answer: Answer,
    pub floor: Floor,
    /// The one that the call was given; of a move that is the old one.
    pub board: Vec<u64>,
    pub records: Vec<Record>,
    pub index: Vec<u64>,
    pub second: Vec<u64>,
    /// The turns of a run one by one; no part of the line.
    pub told: Vec<Told>,
}

impl Outcome {
    /// The board that the next call is given: after a move that was done it is the new one.
    pub fn next_board(&self) -> Vec<u64> {
        match self.answer {
            Answer::Move(Ok(())) => self.second.clone(),
            _ => self.board.clone(),
        }
    }
}

/// The desk that a case brings.
pub fn brought(case: &Case) -> Desk {
    let index = Index(case.index.clone());
    Desk::brought(
        case.floor,
        &case.board,
        case.list.clone(),
        index,
        Manner::Remade,
    )
}

/// Does the case's call on what the case brings.
pub fn outcome(case: &Case) -> Outcome {
    let mut desk = brought(case);
    let (board, second) = (desk.board.clone(), Board::of(&case.second));
    let mut told = Vec::new();
    let answer = call(case, &mut desk, &second, &mut told);
    Outcome {
        answer,
        floor: desk.floor,
        board: board.words(),
        records: desk.list.records,
        index: desk.index.0,
        second: second.words(),
        told,
    }
}

fn call(case: &Case, desk: &mut Desk, second: &Board, told: &mut Vec<Told>) -> Answer {
    let &Case {
        worker,
        lot,
        ticket,
        ..
    } = case;
    match case.call {
        case::OPEN => Answer::Alone(desk.open(worker, lot, case.version())),
        case::LOOK | case::INSERT | case::REMOVE => {
            Answer::Alone(desk.start(case.call, worker, lot, ticket))
        }
        case::TURN => Answer::Turn(desk.turn(worker)),
        case::RUN => {
            let (number, ran) = desk.run(&case.turns, &mut |worker, record, report| {
                told.push((worker, *record, *report));
            });
            Answer::Run(number, ran)
        }
        case::SHOW => Answer::Show(desk.show(lot)),
        case::COUNT => Answer::Count(desk.count()),
        case::ORDERS => Answer::Orders(desk.orders(worker)),
        case::RETIRE => Answer::Alone(desk.retire(worker)),
        case::TOTAL => Answer::Total(desk.total()),
        case::NEXT => Answer::Next(desk.next_occupied(worker)),
        _ => Answer::Move(desk.move_to(second, worker)),
    }
}

/// The line of a case, with its LF.
pub fn line(case: &Case, outcome: &Outcome) -> String {
    let mut line = String::from(case::NAMES[case.call as usize]);
    push_answer(&mut line, outcome);
    let Floor {
        workers,
        buckets,
        last_ticket,
        version,
    } = outcome.floor;
    push(&mut line, format_args!("|"));
    push_numbers(&mut line, &[workers, buckets, last_ticket, version.into()]);
    push(&mut line, format_args!("|"));
    push_words(&mut line, &outcome.board);
    push(&mut line, format_args!("|"));
    for (record, count) in groups(&outcome.records, usize::MAX) {
        let fields = fields(&record).map(|field| format!("{field:x}"));
        push(&mut line, format_args!("{}", fields.join(".")));
        push_count(&mut line, count);
    }
    push(&mut line, format_args!("|"));
    push_words(&mut line, &outcome.index);
    line.push('\n');
    line
}

fn push_answer(line: &mut String, outcome: &Outcome) {
    let number = u64::from(outcome.answer.number());
    match &outcome.answer {
        Answer::Alone(_) => push_numbers(line, &[number]),
        Answer::Turn(turn) => {
            push_numbers(line, &[number]);
            push_numbers(line, &turn.map_or([0; 7], |report| report_items(&report)));
        }
        Answer::Run(_, ran) => {
            let Counts {
                turns,
                changes,
                lost,
                full_rounds,
            } = ran.counts;
            push_numbers(line, &[number, turns, changes, lost, full_rounds]);
            push_numbers(line, &report_items(&ran.last));
        }
        Answer::Show(show) => {
            let (start, part) = show.clone().unwrap_or_default();
            push_numbers(line, &[number, start as u64]);
            push(line, format_args!("|"));
            push_words(line, &part);
        }
        Answer::Count(count) | Answer::Total(count) => {
            push_numbers(line, &[number, count.unwrap_or(0)])
        }
        Answer::Orders(walks) => {
            push_numbers(line, &[number]);
            push_numbers(line, &walks.unwrap_or_default().counts());
        }
        Answer::Next(next) => {
            let bucket = next.unwrap_or(None);
            push_numbers(
                line,
                &[number, bucket.is_some().into(), bucket.unwrap_or(0)],
            );
        }
        Answer::Move(_) => {
            push_numbers(line, &[number]);
            push(line, format_args!("|"));
            push_words(line, &outcome.second);
        }
    }
}

/// A report in the numbers of a line: of a turn that was done, or what a run keeps.
fn report_items(report: &Report) -> [u64; 7] {
    let action = match report.action {
        Action::Read => 1,
        Action::Store => 2,
        Action::Won => 3,
        Action::Lost => 4,
    };
    [
        action,
        report.ended.is_some().into(),
        report.ended.unwrap_or(0),
        report.full_round.into(),
        report.bucket,
        report.before,
        report.after,
    ]
}

/// One item, with the space that precedes every item and every bar.
fn push(line: &mut String, item: std::fmt::Arguments) {
    write!(line, " {item}").expect("a string takes any text");
}

fn push_numbers(line: &mut String, numbers: &[u64]) {
    for number in numbers {
        push(line, format_args!("{number:x}"));
    }
}

fn push_words(line: &mut String, words: &[u64]) {
    for (word, count) in groups(words, usize::MAX) {
        push(line, format_args!("{word:x}"));
        push_count(line, count);
    }
}

fn push_count(line: &mut String, count: usize) {
    if count > 1 {
        write!(line, "*{count:x}").expect("a string takes any text");
    }
}

/// The lines that a stream of cases must come to.
pub fn lines(stream: &[u8]) -> String {
    case::pieces(stream).map(line_of).collect()
}

/// The line of one piece of a stream, that is of a case with its length.
pub fn line_of(piece: &[u8]) -> String {
    let case = Case::read(&piece[2..]);
    line(&case, &outcome(&case))
}
