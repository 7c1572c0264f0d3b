//! Short schedules on which the wrong engines fail, in words and as data. All have one bucket, version 0 and two workers, and no start and
//! no turn too many.

use crate::checks::{Check, Failure};
use crate::engines::Flaw;
use crate::schedules::Event::{self, *};

pub struct Story {
    pub flaw: Flaw,
    pub events: &'static [Event],
    /// What is seen at the last of these events, on the wrong engine.
    pub failure: Failure,
    /// Turns that end all calls on the right engine, and all its answers with the turns at which they are given.
    pub ending: &'static [Event],
    pub right_answers: &'static [(usize, u64)],
}

/// Worker 1 has inserted lot 7. Worker 0 looks for lot 8: in slot 0 it reads the value, which is 7's ticket, and the mark, which is
/// valid. Now it sleeps. Worker 1 removes 7 and inserts 8, up to before its commit, so slot 0 has 8's ticket and key and the mark 2.
/// Worker 0 reads the key, which is 8, and answers 1, the ticket that 7 had. No clerk says so at any moment: 8 is not on the board from
/// the look's first turn (12) to its last (28), and it never had this ticket. A second reading of the value would have met ticket 2.
const ANOTHER_LOTS_TICKET: Story = Story {
    flaw: Flaw::OneReading,
    events: &[
        Insert(1, 7, 1),
        Turns(1, 11),
        Look(0, 8),
        Turns(0, 2),
        Remove(1, 7),
        Turns(1, 4),
        Insert(1, 8, 2),
        Turns(1, 10),
        Turns(0, 1),
    ],
    failure: Failure {
        turn: 28,
        check: Check::NoMoment,
    },
    ending: &[Turns(0, 1), Turns(1, 1)],
    right_answers: &[(11, 1), (17, 1), (29, 0), (30, 1)],
};

/// Worker 1 has inserted lot 7 with ticket 1 and removed it again, which leaves the value where it was. Worker 0 looks for 7 and reads
/// that value. Now it sleeps, and worker 1 inserts 7 with ticket 2. Worker 0 reads the mark, valid, and the key, 7, and answers 1, a
/// beaten bid. From the look's first turn (16) to its last (29) the list has no lot 7, and then 7 with ticket 2: answers 0 and 2 have a
/// moment, 1 has none.
const BEATEN_BID: Story = Story {
    flaw: Flaw::OneReading,
    events: &[
        Insert(1, 7, 1),
        Turns(1, 11),
        Remove(1, 7),
        Turns(1, 4),
        Look(0, 7),
        Turns(0, 1),
        Insert(1, 7, 2),
        Turns(1, 11),
        Turns(0, 2),
    ],
    failure: Failure {
        turn: 29,
        check: Check::NoMoment,
    },
    ending: &[Turns(0, 1)],
    right_answers: &[(11, 1), (15, 1), (27, 1), (30, 0)],
};

/// As in the first story, but worker 1 has stored only the key of 8 when it stops, and the value is still 7's ticket. Worker 0, which saw
/// that ticket and a valid mark before, reads the key, 8, and then the value a second time: it is the same, so it answers 1. Mark 2 hides
/// nothing from a look that has read the mark already. 8 is not on the board from the look's first turn (12) to its last (28).
const KEY_WITHOUT_ITS_VALUE: Story = Story {
    flaw: Flaw::KeyFirst,
    events: &[
        Insert(1, 7, 1),
        Turns(1, 11),
        Look(0, 8),
        Turns(0, 2),
        Remove(1, 7),
        Turns(1, 4),
        Insert(1, 8, 2),
        Turns(1, 9),
        Turns(0, 2),
    ],
    failure: Failure {
        turn: 28,
        check: Check::NoMoment,
    },
    // with the value stored first, the look's key at turn 27 is still 7, and it goes on to slots that are not valid
    ending: &[Turns(0, 3), Turns(1, 2)],
    right_answers: &[(11, 1), (17, 1), (31, 0), (33, 1)],
};

/// Worker 0 has inserted lot 7 and begins to remove it: it reads the word, the key and the value, ticket 1, and stands before its swap.
/// Worker 1 removes 7 and answers 1. Worker 0 swaps and does not see that the word is another by now: it answers 1 too, and one lot is
/// sold twice. The swap is its moment, and before that turn (19) the clerk's list is empty, so the clerk answers 0.
const SOLD_TWICE: Story = Story {
    flaw: Flaw::BlindSwap,
    events: &[
        Insert(0, 7, 1),
        Turns(0, 11),
        Remove(0, 7),
        Turns(0, 3),
        Remove(1, 7),
        Turns(1, 4),
        Turns(0, 1),
    ],
    failure: Failure {
        turn: 19,
        check: Check::WonAnswer,
    },
    // the swap is lost, and the word and three keys are read again
    ending: &[Turns(0, 4)],
    right_answers: &[(11, 1), (18, 1), (23, 0)],
};

/// Worker 0 inserts lot 7: it reads the word, of an empty bucket, and the value of slot 0, which is 0. Now it sleeps, and worker 1
/// inserts 7 and is answered 1. Worker 0 reads the mark, valid, the key, 7, and the value, which is not the one it saw, so its look is
/// empty and it claims slot 0, which was empty in its word. It does not see that the word is another by now: with the mark 2 lot 7 is
/// gone from the board (turn 17), though nobody has removed it, and the clerk still has it.
const WIPED_OUT: Story = Story {
    flaw: Flaw::BlindSwap,
    events: &[
        Insert(0, 7, 1),
        Turns(0, 2),
        Insert(1, 7, 2),
        Turns(1, 11),
        Turns(0, 4),
    ],
    failure: Failure {
        turn: 17,
        check: Check::List,
    },
    // the swap is lost; the word is read again, and 7 is found
    ending: &[Turns(0, 5)],
    right_answers: &[(13, 1), (22, 0)],
};

/// Worker 0 inserts lot 7, has claimed slot 0 and stored its value and key, and stands before its commit. Worker 1, inserting lot 8,
/// claims slot 1, which makes another word. Worker 0 loses its commit and forgets that it holds slot 0: the mark 2 stays there, and
/// nobody will ever take it away. No answer is wrong, but the bucket has one slot less for good.
const SLOT_LOST_FOR_GOOD: Story = Story {
    flaw: Flaw::ForgetsHeld,
    events: &[
        Insert(0, 7, 1),
        Turns(0, 10),
        Insert(1, 8, 2),
        Turns(1, 8),
        Turns(0, 1),
    ],
    failure: Failure {
        turn: 19,
        check: Check::Held,
    },
    // worker 0 reads and looks again, commits the slot it still holds, and so worker 1 loses its commit and looks past lot 7
    ending: &[Turns(0, 8), Turns(1, 12)],
    right_answers: &[(27, 1), (39, 1)],
};

/// Worker 0 inserts lot 7 and has claimed slot 0 when its container dies. It is retired, but the mark 2 stays: it is nobody's now, and
/// nobody will ever take it away.
const DEAD_MANS_SLOT: Story = Story {
    flaw: Flaw::LeavesMark,
    events: &[Insert(0, 7, 1), Turns(0, 8), Retire(0)],
    failure: Failure {
        turn: 8,
        check: Check::Held,
    },
    // there is nobody left
    ending: &[],
    right_answers: &[],
};

/// Worker 0 inserts lot 7, has claimed slot 0, and its container dies. The word that it has in mind, and that its commit would expect, is
/// mark 2 in slot 0 and version 0. It is retired, and the mark is taken away, but the version stays 0. Worker 1 inserts lot 8, reads that
/// word, and claims slot 0: mark 2 in slot 0 and version 0, the word that the dead one expects (turn 16). Were it to wake, its commit would
/// win, for a slot that is not its own. No answer is wrong as long as it does not.
const THE_DEAD_MANS_WORD: Story = Story {
    flaw: Flaw::LeavesVersion,
    events: &[
        Insert(0, 7, 1),
        Turns(0, 8),
        Retire(0),
        Insert(1, 8, 2),
        Turns(1, 8),
    ],
    failure: Failure {
        turn: 16,
        check: Check::Again,
    },
    ending: &[Turns(1, 3)],
    right_answers: &[(19, 1)],
};

/// Worker 1 has inserted lot 8, in slot 0. Worker 0 inserts lot 7, has claimed slot 1, and its container dies. Worker 1 removes 8 and is
/// answered its ticket. Worker 0 is retired, and its mark is taken away from the word that it had in mind, in which 8 is still valid: 8 is
/// on the board again, and the clerk has struck it.
const BACK_FROM_A_DEAD_MANS_WORD: Story = Story {
    flaw: Flaw::WritesOwnWord,
    events: &[
        Insert(1, 8, 1),
        Turns(1, 11),
        Insert(0, 7, 2),
        Turns(0, 9),
        Remove(1, 8),
        Turns(1, 4),
        Retire(0),
    ],
    failure: Failure {
        turn: 24,
        check: Check::List,
    },
    ending: &[],
    right_answers: &[(11, 1), (24, 1)],
};

pub const STORIES: [&Story; 9] = [
    &ANOTHER_LOTS_TICKET,
    &BEATEN_BID,
    &KEY_WITHOUT_ITS_VALUE,
    &SOLD_TWICE,
    &WIPED_OUT,
    &SLOT_LOST_FOR_GOOD,
    &DEAD_MANS_SLOT,
    &THE_DEAD_MANS_WORD,
    &BACK_FROM_A_DEAD_MANS_WORD,
];
