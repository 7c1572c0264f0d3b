//! The points of tickets of 64 bits (§3.5): which is above which, and that a ticket is kept whole wherever it stands.

pub const POINTS: &[&str] = &[
    // every pair of a ticket and a last one at the ends of the low half and of the whole, and about the highest bit
    "insert: 5 with ticket 0 after {0,1,4294967295,4294967296,4294967297,2^63-1,2^63,2^64-2,2^64-1}",
    "insert: 0 with ticket 1 after 0",
    "insert: 5 with ticket 1 after {1,4294967295,4294967296,4294967297,2^63-1,2^63,2^64-2,2^64-1}",
    "insert: 0 with ticket 4294967295 after {0,1}",
    "insert: 5 with ticket 4294967295 after {4294967295,4294967296,4294967297,2^63-1,2^63,2^64-2,2^64-1}",
    "insert: 0 with ticket 4294967296 after {0,1,4294967295}",
    "insert: 5 with ticket 4294967296 after {4294967296,4294967297,2^63-1,2^63,2^64-2,2^64-1}",
    "insert: 0 with ticket 4294967297 after {0,1,4294967295,4294967296}",
    "insert: 5 with ticket 4294967297 after {4294967297,2^63-1,2^63,2^64-2,2^64-1}",
    "insert: 0 with ticket 2^63-1 after {0,1,4294967295,4294967296,4294967297}",
    "insert: 5 with ticket 2^63-1 after {2^63-1,2^63,2^64-2,2^64-1}",
    "insert: 0 with ticket 2^63 after {0,1,4294967295,4294967296,4294967297,2^63-1}",
    "insert: 5 with ticket 2^63 after {2^63,2^64-2,2^64-1}",
    "insert: 0 with ticket 2^64-2 after {0,1,4294967295,4294967296,4294967297,2^63-1,2^63}",
    "insert: 5 with ticket 2^64-2 after {2^64-2,2^64-1}",
    "insert: 0 with ticket 2^64-1 after {0,1,4294967295,4294967296,4294967297,2^63-1,2^63,2^64-2}",
    "insert: 5 with ticket 2^64-1 after 2^64-1",
    // one more and one less, on either side of each of these
    "insert: 0 with ticket one more than {0,1,2147483647,4294967294,4294967295,4294967296,4294967297,2^63-1,2^63,2^64-2}",
    "insert: 0 with ticket {4294967297,2^63-1,2^63,2^64-2,2^64-1}, one more than the last",
    "insert: 5 with ticket one less than {1,2147483648,4294967295,4294967296,4294967297,2^63-1,2^63,2^64-2,2^64-1}",
    "insert: 5 with ticket {0,4294967295,4294967296,4294967297,2^63-1,2^63,2^64-2}, one less than the last",
    // the high half decides, and the low one only where the high ones are equal
    "insert: 0, high half above, low half {below,equal,above}",
    "insert: 0, high half above, no low half",
    "insert: 0, high half {equal,equal and not 0}, low half above",
    "insert: 5, high half {equal,equal and not 0}, low half {below,equal}",
    "insert: 5, high half below, low half {below,equal,above}",
    "insert: 5, high half below, no low half after one",
    // where the last ticket is the highest, whoever asks, and what comes before 5 then; a look and a remove ask for no ticket
    "insert: {1,2,3,4,5} with last ticket 2^64-1",
    "insert: 5 with last ticket 2^64-1 for worker {0,63}",
    "{look,remove}: 0 after {4294967295,4294967296,4294967297,2^63,2^64-2,2^64-1}",
    // the floor and the record have it whole, and a byte of it in another place would be seen
    "insert: 0 with a ticket of eight bytes after one of eight others",
    "open: 0 over last ticket {4294967295,4294967296,2^64-1}",
    "open: 1 over last ticket {4294967295,4294967296,2^64-1}",
    // the version that it asks for is the low half of a case's number
    "open: 0 with version {0,1,4294967295} as the low half of more",
    // §3.7: in a sound record, whoever looks at it
    "{look,insert,remove}: 4 for one with ticket {4294967296,2^64-1}",
    "{turn,run}: one with ticket {4294967296,2^64-1} sleeps on",
    "run: one with ticket {4294967296,2^64-1} goes on",
    "move: 12 by one with ticket {4294967296,2^64-1}",
    "open: 0 over one with ticket {4294967296,2^64-1}",
    // §5.7: stored whole, over whatever was there
    "at 7 stores {1,4294967295,4294967296,4294967297,2^63-1,2^63,2^64-2,2^64-1}",
    "at 7 stores {no high half over one,a high half over none,no low half over one,a low half over none}",
    "at 7 stores eight bytes over eight others",
    "at {1,2,3,4,5,6,7,8,9} keeps ticket {4294967296,2^64-1}",
    // §5.2, §5.5, §5.12, §5.13: read whole, compared whole, and answered whole
    "at {2,12} reads {4294967295,4294967296,4294967297,2^63,2^64-2} as its value",
    "at 5 {look,insert}: found with {1,4294967295,4294967296,4294967297,2^63,2^64-2,2^64-1}",
    "at 5 {look,insert}: not equal by the {high half,low half} alone",
    "at 5 {look,insert}: not equal, {no low half,no high half} in what was seen",
    "{look,remove} ends with ticket {1,4294967295,4294967296,4294967297,2^63,2^64-2,2^64-1}",
    // from an insert's start to the end of the calls that meet its lot
    "run: ticket {4294967295,4294967296,4294967297,2^63,2^64-2,2^64-1} is committed",
    "run: ticket {4294967295,4294967296,4294967297,2^63,2^64-2,2^64-1} is committed, found by a look and closed",
    "run: ticket {4294967295,4294967296,4294967297,2^63,2^64-2,2^64-1} is committed and found by an insert",
    "run: a look is empty after a store of a ticket with the low half that it had seen",
    // all orders
    "orders: an insert has ticket {4294967295,4294967296,4294967297,2^63,2^64-2,2^64-1}",
    "orders: a lot stands on ticket {4294967295,4294967296,4294967297,2^63,2^64-2,2^64-1}",
    "orders: two inserts with tickets of the same {low half,high half}",
    "orders: an insert is at 5, and another at 7 with a ticket of the same low half as seen",
    // the board just as a move has left it, and the last ticket with it
    "just moved: insert 5 with {the last ticket,one less,ticket 0,the low half} after {4294967297,2^64-2}",
    "just moved: insert 0 with one more than {4294967297,2^64-2}",
    "just moved: insert 5 with ticket {0,1,4294967296,2^64-2,2^64-1} after 2^64-1",
    "just moved: {look,remove} ends with ticket {4294967294,4294967296,4294967297,2^64-5,2^64-4,2^64-3,2^64-2,2^64-1}",
    "just moved: a move with last ticket {4294967297,2^64-2,2^64-1}",
];
