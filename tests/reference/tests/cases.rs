//! Cases: written and read back, the lines of the format's own examples, and the stored ones as a whole.

use reference::case::{pieces, with_length, Case, MOVE, NEXT, OPEN, RETIRE, TOTAL};
use reference::desk::{Floor, List};
use reference::outcome::{line, lines, outcome, Answer};
use reference::record::{Record, INSERT, LOOK, NONE};
use reference::{cases, store};

fn read_back(case: &Case) -> Case {
    Case::read(&case.write())
}

#[test]
fn a_written_case_reads_back() {
    for piece in cases::stored() {
        let case = Case::read(&piece[2..]);
        assert_eq!(read_back(&case), case);
    }
}

/// Numbers at the ends of each length of the format.
#[test]
fn numbers_read_back() {
    for shift in 0..64 {
        for number in [(1 << shift) - 1, 1 << shift, (1 << shift) | 247, u64::MAX] {
            let mut case = Case::read(&[]);
            case.worker = number;
            case.floor.workers = number;
            case.board = vec![number, number, 0];
            case.index = vec![0, number, number, number, 1, 0];
            case.second = vec![0, 0, number, 9];
            case.floor.version = number as u32;
            (case.floor.last_ticket, case.ticket) = (number, !number);
            case.list = List {
                length: 1,
                records: vec![Record {
                    ticket: number,
                    ..Record::idle()
                }],
            };
            assert_eq!(read_back(&case), case);
        }
    }
}

#[test]
fn missing_bytes_are_0() {
    let empty = Case {
        call: 0,
        floor: Floor {
            workers: 0,
            buckets: 0,
            last_ticket: 0,
            version: 0,
        },
        worker: 0,
        lot: 0,
        ticket: 0,
        board: vec![],
        list: List {
            length: 0,
            records: vec![],
        },
        index: vec![],
        second: vec![],
        turns: vec![],
    };
    assert_eq!(Case::read(&[]), empty);
    assert_eq!(Case::read(&[13]), empty);
    assert_eq!(Case::read(&[22]).call, RETIRE);
    assert_eq!(Case::read(&[23]).call, TOTAL);
    assert_eq!(Case::read(&[24]).call, NEXT);
    assert_eq!(Case::read(&[25]).call, MOVE);
    assert_eq!(Case::read(&[247]).call, OPEN);
    let words = Case::read(&[0, 0, 0, 0, 0, 0, 0, 0, 3, 0, 5]);
    assert_eq!(words.board, vec![5, 0, 0]);
}

/// Sizes past the format's bounds, and numbers past a field's.
#[test]
fn bounds_of_the_format() {
    let numbers = [0, 0, 0, 252, 1, 0, 0, 0, 9, 252, 2, 0, 0, 0, 8, 0, 0, 0];
    let case = Case::read(&[&numbers[..], &[249, 255, 255, 255, 7]].concat());
    // a ticket is whole, and of a version the lowest four bytes are taken
    let last = 0x1_0000_0009;
    assert_eq!((case.floor.last_ticket, case.floor.version), (last, 8));
    assert_eq!(case.board.len(), 2_064);
    assert_eq!(case.board[..257], [vec![7; 256], vec![0]].concat());
    // call, floor, numbers, board: the list
    let mut body = vec![0; 9];
    body.extend([249, 255, 255, 255, 249, 1, 2]);
    let list = Case::read(&body).list;
    assert_eq!((list.length, list.records.len()), (320, 320));
    assert_eq!((list.records[255].kind, list.records[256].kind), (2, 0));
    // of the last number of a record the lowest four bytes
    let mut body = vec![0; 9];
    body.extend([1, 0, 0, 0, 0, 0, 0, 0, 3, 0, 252, 9, 255, 255, 255, 254]);
    let records = Case::read(&body).list.records;
    let asleep = u32::MAX - 1;
    assert_eq!(
        records,
        [Record {
            asleep,
            ..Record::idle()
        }]
    );
    tickets_of_the_format();
    // call, floor, numbers, board, list: the index, the second board, and the turns behind it
    let mut body = vec![0; 10];
    body.extend([14, 1, 7, 255, 9, 3, 1, 4, 255, 5, 3, 0, 2]);
    let case = Case::read(&body);
    assert_eq!(case.index, [vec![7; 2], vec![9; 11]].concat());
    assert_eq!(case.second, [4, 4, 5]);
    assert_eq!(case.turns, [3, 3]);
    let mut body = vec![0; 10];
    body.extend([249, 255, 255, 0, 249, 1, 2, 3]);
    assert_eq!(Case::read(&body).index, [vec![0x102], vec![0; 12]].concat());
    let mut body = vec![0; 11];
    body.extend([249, 255, 255, 255, 6]);
    let second = Case::read(&body).second;
    assert_eq!(second.len(), 2_064);
    assert_eq!(second[..257], [vec![6; 256], vec![0]].concat());
    let mut body = vec![0; 12];
    body.extend([1, 0, 2, 3, 255, 255, 4, 255, 255, 5, 1]);
    let turns = Case::read(&body).turns;
    assert_eq!(turns.len(), 65_540);
    assert_eq!((turns[1], turns[2], turns[65_537]), (1, 3, 4));
    body.truncate(17);
    assert_eq!(Case::read(&body).turns.len(), 2 + 0xff00);
}

/// A ticket has all 64 bits wherever it stands; the version that an opening asks for is the low half of the same number.
fn tickets_of_the_format() {
    let ticket = [255, 1, 2, 3, 4, 5, 6, 7, 8];
    let floor = [&[0, 1, 1][..], &ticket, &[0]].concat();
    let numbers = [&[1, 1][..], &ticket].concat();
    let record = [&[1, 0, 2, 1, 7][..], &ticket, &[0, 0, 3, 0, 0]].concat();
    let index = [5, 4, 0];
    let case = Case::read(&[&floor[..], &numbers, &[8, 7, 0], &record, &index].concat());
    let whole = 0x102_0304_0506_0708;
    assert_eq!((case.floor.last_ticket, case.ticket), (whole, whole));
    assert_eq!(case.list.records[0].ticket, whole);
    assert_eq!(
        line_of(&case),
        "open 0 | 1 1 0 5060708 | 5060708 0*7 | 0.0.0.0.0.0.3.0.0 | 0*5\n"
    );
}

#[test]
fn streams() {
    let stream = [with_length(&[4, 1]), vec![0, 0], vec![0, 9, 6, 1], vec![]].concat();
    let bodies: Vec<&[u8]> = pieces(&stream).map(|piece| &piece[2..]).collect();
    assert_eq!(bodies, [&[4, 1][..], &[], &[6, 1]]);
    assert_eq!(pieces(&[0]).count(), 0);
    assert_eq!(lines(&[0, 0, 0]), "open 1 | 0 0 0 0 | | |\n");
}

fn opened(call: u8, w: u64) -> Case {
    let mut case = Case::read(&[call]);
    case.floor.workers = w;
    case.floor.buckets = 1;
    case.board = vec![0; 8];
    case.list = List {
        length: w,
        records: vec![Record::idle(); w as usize],
    };
    case.index = vec![0; 5];
    case
}

fn line_of(case: &Case) -> String {
    line(case, &outcome(case))
}

#[test]
fn lines_of_the_format() {
    let mut insert = opened(2, 2);
    (insert.lot, insert.ticket) = (7, 1);
    assert_eq!(
        line_of(&insert),
        "insert 0 | 2 1 1 0 | 0*8 | 2.1.7.1.0.0.3.0.0 0.0.0.0.0.0.3.0.0 | 0*5\n"
    );
    let floor = Floor {
        last_ticket: 1 << 32,
        ..insert.floor
    };
    insert = Case { floor, ..insert };
    assert_eq!(
        line_of(&insert),
        "insert 5 | 2 1 100000000 0 | 0*8 | 0.0.0.0.0.0.3.0.0*2 | 0*5\n"
    );
    insert.ticket = u64::MAX;
    assert_eq!(
        line_of(&insert),
        "insert 0 | 2 1 ffffffffffffffff 0 | 0*8 | 2.1.7.ffffffffffffffff.0.0.3.0.0 0.0.0.0.0.0.3.0.0 | 0*5\n"
    );
    let mut turn = opened(4, 1);
    turn.floor.last_ticket = 1;
    turn.board = vec![8_589_934_592, 7, 0, 0, 1, 0, 0, 0];
    turn.list.records[0] = Record {
        kind: INSERT,
        place: 9,
        key: 7,
        ticket: 1,
        slot: 0,
        word: 8_589_934_592,
        held: 0,
        seen: 0,
        asleep: 5,
    };
    assert_eq!(
        line_of(&turn),
        "turn 0 3 1 1 0 0 200000000 100000001 | 1 1 1 0 | 100000001 7 0*2 1 0*3 | 0.0.0.0.0.0.3.0.0 | 1*2 0*3\n"
    );
    let twice = Case {
        call: 5,
        turns: vec![0; 2],
        ..turn.clone()
    };
    assert_eq!(
        line_of(&twice),
        "run 6 1 1 0 0 3 1 1 0 0 200000000 100000001 | 1 1 1 0 | 100000001 7 0*2 1 0*3 | 0.0.0.0.0.0.3.0.0 | 1*2 0*3\n"
    );
    assert_eq!(
        line_of(&opened(4, 1)),
        "turn 6 0 0 0 0 0 0 0 | 1 1 0 0 | 0*8 | 0.0.0.0.0.0.3.0.0 | 0*5\n"
    );
    assert_eq!(
        line_of(&opened(5, 1)),
        "run 0 0 0 0 0 1 0 0 0 0 0 0 | 1 1 0 0 | 0*8 | 0.0.0.0.0.0.3.0.0 | 0*5\n"
    );
    assert_eq!(
        line_of(&opened(6, 1)),
        "show 0 0 | 0*8 | 1 1 0 0 | 0*8 | 0.0.0.0.0.0.3.0.0 | 0*5\n"
    );
    let mut beside = opened(4, 3);
    let look = Record {
        kind: LOOK,
        place: 2,
        key: 7,
        ..Record::idle()
    };
    let others = [9, u32::MAX].map(|asleep| Record { asleep, ..look });
    beside.list.records = vec![look, others[0], others[1]];
    assert_eq!(
        line_of(&beside),
        "turn 0 1 0 0 0 0 0 0 | 3 1 0 0 | 0*8 | 1.3.7.0.0.0.3.0.0 1.2.7.0.0.0.3.0.a 1.2.7.0.0.0.3.0.ffffffff | 0*5\n"
    );
    let mut orders = opened(8, 2);
    assert_eq!(
        line_of(&orders),
        "orders a 0 0 0 0 | 2 1 0 0 | 0*8 | 0.0.0.0.0.0.3.0.0*2 | 0*5\n"
    );
    orders.worker = 24;
    orders.list.records.fill(look);
    assert_eq!(
        line_of(&orders),
        "orders 0 39c 0 0 0 | 2 1 0 0 | 0*8 | 1.2.7.0.0.0.3.0.0*2 | 0*5\n"
    );
    let retire = Case {
        call: RETIRE,
        ..turn
    };
    assert_eq!(
        line_of(&retire),
        "retire 0 | 1 1 1 0 | 1 7 0*2 1 0*3 | 0.0.0.0.0.0.3.0.0 | 0*5\n"
    );
    assert_eq!(
        line_of(&opened(9, 1)),
        "retire 6 | 1 1 0 0 | 0*8 | 0.0.0.0.0.0.3.0.0 | 0*5\n"
    );
}

/// The index in each form it can have, 11, and the display's two questions.
#[test]
fn lines_with_an_index() {
    let mut next = opened(11, 1);
    next.floor.buckets = 256;
    next.board = vec![0; 2_048];
    next.index = vec![2, 0, 1, 0, 8];
    for (from, line) in [
        (0, "next 0 1 40"),
        (65, "next 0 1 c3"),
        (196, "next 0 0 0"),
        (u64::MAX, "next 0 0 0"),
    ] {
        next.worker = from;
        let rest = " | 1 100 0 0 | 0*800 | 0.0.0.0.0.0.3.0.0 | 2 0 1 0 8\n";
        assert_eq!(line_of(&next), [line, rest].concat());
    }
    let mut total = opened(10, 1);
    total.index = vec![u64::MAX, 0, 0, 0, 0];
    assert_eq!(
        line_of(&total),
        "total 0 ffffffffffffffff | 1 1 0 0 | 0*8 | 0.0.0.0.0.0.3.0.0 | ffffffffffffffff 0*4\n"
    );
    total.index.pop();
    assert_eq!(
        line_of(&total),
        "total 1 0 | 1 1 0 0 | 0*8 | 0.0.0.0.0.0.3.0.0 | ffffffffffffffff 0*3\n"
    );
    total.call = NEXT;
    assert_eq!(
        line_of(&total),
        "next 1 0 0 | 1 1 0 0 | 0*8 | 0.0.0.0.0.0.3.0.0 | ffffffffffffffff 0*3\n"
    );
    let mut look = opened(1, 1);
    look.index.clear();
    assert_eq!(
        line_of(&look),
        "look 0 | 1 1 0 0 | 0*8 | 1.2.0.0.0.0.3.0.0 |\n"
    );
    let mut turn = Case { call: 4, ..look };
    turn.list.records[0] = Record {
        kind: LOOK,
        place: 2,
        ..Record::idle()
    };
    turn.index = vec![0, 1, 0, 0, 0];
    assert_eq!(
        line_of(&turn),
        "turn b 0 0 0 0 0 0 0 | 1 1 0 0 | 0*8 | 1.2.0.0.0.0.3.0.0 | 0 1 0*3\n"
    );
    turn.index[0] = 1;
    (turn.call, turn.turns) = (5, vec![0]);
    assert_eq!(
        line_of(&turn),
        "run b 0 0 0 0 1 0 0 0 0 0 0 | 1 1 0 0 | 0*8 | 1.2.0.0.0.0.3.0.0 | 1*2 0*3\n"
    );
}

/// The floor's version, from an opening on, and the new board of a move.
#[test]
fn lines_with_a_version() {
    let mut open = opened(0, 1);
    (open.worker, open.lot, open.ticket) = (1, 1, u32::MAX.into());
    open.floor.version = 9;
    assert_eq!(
        line_of(&open),
        "open 0 | 1 1 0 ffffffff | ffffffff 0*7 | 0.0.0.0.0.0.3.0.0 | 0*5\n"
    );
    open.worker = 0;
    assert_eq!(
        line_of(&open),
        "open 1 | 1 1 0 9 | 0*8 | 0.0.0.0.0.0.3.0.0 | 0*5\n"
    );
    let mut moving = opened(MOVE, 1);
    (moving.floor.last_ticket, moving.floor.version) = (6, 5);
    moving.board = vec![0x1_0001_0000_0007, 9, 8, 7, 6, 5, 4, 0];
    moving.worker = 2;
    moving.second = vec![3; 16];
    assert_eq!(
        line_of(&moving),
        "move 0 | 5 0*7 10100000005 9 7 0 6 4 0*2 | 1 2 6 5 | 1000100000007 9 8 7 6 5 4 0 | 0.0.0.0.0.0.3.0.0 | 2*2 0*3\n"
    );
    moving.worker = 1;
    assert_eq!(
        line_of(&moving),
        "move 1 | 3*10 | 1 1 6 5 | 1000100000007 9 8 7 6 5 4 0 | 0.0.0.0.0.0.3.0.0 | 0*5\n"
    );
    moving.second.clear();
    assert_eq!(
        line_of(&moving),
        "move 1 | | 1 1 6 5 | 1000100000007 9 8 7 6 5 4 0 | 0.0.0.0.0.0.3.0.0 | 0*5\n"
    );
    moving.board[0] = 0x2_0001_0000_0007;
    moving.second = vec![3; 8];
    assert_eq!(
        line_of(&moving),
        "move 7 | 3*8 | 1 1 6 5 | 2000100000007 9 8 7 6 5 4 0 | 0.0.0.0.0.0.3.0.0 | 0*5\n"
    );
}

#[test]
fn a_refused_call_changes_nothing() {
    for piece in cases::stored() {
        let case = Case::read(&piece[2..]);
        let came = outcome(&case);
        if came.answer.number() != 0 && came.told.is_empty() {
            assert_eq!(came.floor, case.floor);
            assert_eq!(came.board, case.board);
            assert_eq!(came.records, case.list.records);
            assert_eq!(came.index, case.index);
            assert_eq!(came.second, case.second);
        }
    }
}

/// What a retiring leaves, told once more by sums of powers of two: one record is idle, and of the board only the mark word of a held slot
/// is another, with no mark there and one more in the version.
#[test]
fn a_retiring_leaves_all_else() {
    let (mut holding, mut others) = (0, 0);
    for piece in cases::stored() {
        let case = Case::read(&piece[2..]);
        let came = outcome(&case);
        if case.call != RETIRE || came.answer.number() != 0 {
            continue;
        }
        let worker = case.worker as usize;
        let (mut board, mut records) = (case.board, case.list.records);
        let Record { key, held, .. } = records[worker];
        if held == NONE {
            others += 1;
        } else {
            let word = &mut board[8 * (key % case.floor.buckets) as usize];
            let power = 1 << (32 + 8 * held);
            *word -= *word / power % 256 * power;
            let version = *word % (1 << 32);
            *word = *word - version + (version + 1) % (1 << 32);
            holding += 1;
        }
        records[worker] = Record::idle();
        assert_eq!((came.board, came.records), (board, records));
        assert_eq!(came.floor, case.floor);
    }
    assert!(holding > 200 && others > 100);
}

/// Of every turn, and of the last of every run: the bucket is the lot's, and the words are those of the board on either side of the turn.
#[test]
fn a_report_tells_the_words_of_the_board() {
    let mut reports = 0;
    for piece in cases::stored() {
        let case = Case::read(&piece[2..]);
        let came = outcome(&case);
        let (lot, report, board) = match (&came.answer, came.told.last()) {
            (Answer::Turn(Ok(report)), _) => {
                let record = case.list.records[case.worker as usize];
                (record.key, *report, case.board)
            }
            (Answer::Run(_, ran), Some((_, record, _))) => {
                let mut shorter = case.clone();
                shorter.turns.truncate(came.told.len() - 1);
                (record.key, ran.last, outcome(&shorter).board)
            }
            _ => continue,
        };
        let bucket = lot % case.floor.buckets;
        let mark_word = 8 * bucket as usize;
        assert_eq!(report.bucket, bucket);
        assert_eq!(report.before, board[mark_word]);
        assert_eq!(report.after, came.board[mark_word]);
        reports += 1;
    }
    assert!(reports > 3_000);
}

#[test]
fn the_stored_cases_meet_every_point() {
    let stored = store::make();
    assert_eq!(stored.coverage.unmet(), Vec::<String>::new());
    assert_eq!(lines(&stored.stream), stored.lines);
    assert!(stored.lines.lines().count() >= 5_000);
    // two mebibytes and a half
    assert!(stored.stream.len() + stored.lines.len() < 5 << 19);
}

#[test]
fn fresh_cases_are_as_many_as_asked() {
    for count in [0, 1, 2, 7_000] {
        let fresh = cases::fresh(5, count);
        assert_eq!(fresh.len(), count);
        assert_eq!(pieces(&fresh.concat()).count(), count);
    }
    assert_ne!(cases::fresh(5, 100), cases::fresh(6, 100));
}
