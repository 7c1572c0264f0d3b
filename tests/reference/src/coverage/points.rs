//! The points, by name. `{a,b}` stands for one point with a and one with b.

mod index;
mod moving;
mod tickets;

const POINTS: &[&str] = &[
    // every number of every call
    "open gives {0,1}",
    "{look,remove} gives {0,1,2,3,4}",
    "insert gives {0,1,2,3,4,5}",
    "turn gives {0,1,2,3,6,7,11}",
    "run gives {0,1,9}",
    "run is stopped by {2,3,6,7,11} {at once,later}",
    "{show,count} gives {0,1,7}",
    "orders gives {0,1,3,7,10}",
    "retire gives {0,1,2,3,6,7,11}",
    "{total,next} gives {0,1}",
    // the order of the numbers, where two apply. A worker that is not there has no record, so 2 never meets 3, 4, 6 or 7, and meets 11 only
    // where the total is too high for any bucket; an idle record is not broken, so 3 never meets 6; a start and a turn never meet in one
    // call, so 4 and 5 never meet 6, 7 and 11. An idle worker holds nothing, so where one is retired 6 never meets 7 or 11.
    "{look,insert,remove}: 1 before {2,3,4}",
    "{look,insert,remove}: 3 before 4",
    "insert: {1,2,3,4} before 5",
    "turn: 1 before {2,3,6,7}",
    "turn: {3,6} before 7",
    "turn: {1,2,3,6,7} before 11",
    "run: 1 before {2,3,6,7,9}",
    "run: 9 before {2,3,6,7}",
    "run: {3,6} before 7",
    "run: {1,2,3,6,7,9} before 11",
    "{show,count}: 1 before 7",
    "orders: 1 before {3,7,10}",
    "orders: 10 before {3,7}",
    "orders: 3 before 7",
    "retire: 1 before {2,3,6,7}",
    "retire: 3 before 7",
    "retire: {1,2,3,7} before 11",
    // the causes of 1, each alone
    "{open,look,insert,remove,turn,run,show,count,orders,retire,total,next,move}: 1 by {W 0,W 65,W 2^32+1,W 2^64-1}",
    "{open,look,insert,remove,turn,run,show,count,orders,retire,total,next,move}: 1 by {N 0,N 257,N 2^32+1,N 2^64-1,an N whose 8N wraps}",
    "{open,look,insert,remove,turn,run,show,count,orders,retire,total,next,move}: 1 by a board {empty,one word short,one word long,of 2040 words for N 256}",
    "{open,look,insert,remove,turn,run,orders,retire,move}: 1 by a list {empty,one short,one long,of W+256}",
    "{show,count,total,next}: 0 with a list {empty,one short,one long,of W+256}",
    "{show,count,total,next}: 0 with a broken record",
    "open: 0 {over a broken bucket,with a last ticket,with a floor outside its ranges}",
    "open: 0 over a {broken,busy} record of worker {0,63}",
    // the causes of a broken record, each alone
    "{start,turn,run,orders,retire,turn beside,move}: broken record, kind {4,255}",
    "{start,turn,run,orders,retire,turn beside,move}: broken record, idle with {a place,a key,a slot,a word,a seen}",
    "{start,turn,run,orders,retire,turn beside,move}: broken record, idle with ticket {1,4294967295,4294967296,2^64-1}",
    "{start,turn,run,orders,retire,turn beside,move}: broken record, idle with held {0,1,2,4,255}",
    "{start,turn,run,orders,retire,turn beside,move}: broken record, idle with asleep {1,256,65536,4294967294,4294967295}",
    "{start,turn,run,orders,retire,turn beside,move}: broken record, look at {0,1,6,255}",
    "{start,turn,run,orders,retire,turn beside,move}: broken record, insert at {0,11,255}",
    "{start,turn,run,orders,retire,turn beside,move}: broken record, remove at {0,2,10,14,255}",
    "{start,turn,run,orders,retire,turn beside,move}: broken record, insert with ticket 0",
    "{start,turn,run,orders,retire,turn beside,move}: broken record, {look,remove} with ticket {1,4294967295,4294967296,2^64-1}",
    "{start,turn,run,orders,retire,turn beside,move}: broken record, {look,remove} with held {0,1,2,4,255}",
    "{start,turn,run,orders,retire,turn beside,move}: broken record, insert at {1,2,3,4,5} with held {4,255}",
    "{start,turn,run,orders,retire,turn beside,move}: broken record, insert at 6 with held {0,1,2,4,255}",
    "{start,turn,run,orders,retire,turn beside,move}: broken record, insert at {7,8,9,10} with held {3,4,255}",
    "{start,turn,run,orders,retire,turn beside,move}: broken record, {look,insert,remove} with slot {3,255}",
    "{start,turn,run,orders,retire,turn beside,move}: broken record, {insert,remove} with mark {3,4,128,255} at {0,1,2} in its word",
    "{start,turn,run,orders,retire,turn beside,move}: broken record, {insert,remove} with byte 7 {1,2,128,255} in its word",
    "{start,turn,run,orders,retire,turn beside,move}: broken record, look with {a version,mark 1,mark 2,mark 3} in its word",
    // the sound ends of the same ranges
    "turn: sound look at {2,3,4,5}",
    "turn: sound insert at {1,2,3,4,5} held {0,1,2,3}",
    "turn: sound insert at 6 held 3",
    "turn: sound insert at {7,8,9,10} held {0,1,2}",
    "turn: sound remove at {1,11,12,13}",
    "turn: sound {look,insert,remove} slot {0,1,2}",
    "turn: sound {insert,remove} mark {0,1,2} at {0,1,2} in its word",
    "turn: sound {insert,remove} version {0,4294967295} in its word",
    "turn: sound insert ticket {1,4294967295,4294967296,4294967297,2^63,2^64-2,2^64-1}",
    "turn: sound {look,insert,remove} asleep {0,1,4294967294,4294967295}",
    "{look,insert,remove,turn,run,retire}: 0 with a broken record elsewhere",
    // the causes of a broken bucket, each alone
    "{turn,run,show,count,orders,retire}: 7 by mark {3,4,128,255} at {0,1,2}",
    "{turn,run,show,count,orders,retire}: 7 by byte 7 {1,2,128,255}",
    "{turn,run,show,count,orders,retire}: 7 by the spare word {1,1099511627776,9223372036854775808}",
    "{turn,run,show,retire}: 0 with a broken bucket elsewhere",
    "count: 7 by bucket {0,N-1} alone",
    "{look,insert,remove}: 0 on a broken bucket",
    // every place by every kind, every outcome
    "at 1 insert slot {0,1,2} held {0,1,2,3}",
    "at 1 remove slot {0,1,2}",
    "at 2 {look,insert} slot {0,1,2}",
    "at 3 {look,insert} slot {0,1,2} mark {0,1,2}",
    "at 4 {look,insert} slot {0,1,2} {equal,not equal}",
    "at 5 {look,insert} slot {0,1,2} {equal and not 0,equal and 0,not equal,seen 0 alone,value 0 alone}",
    "found from slot {0,1,2}: look ends with seen",
    "found from slot {0,1,2}: insert ends with 0",
    "found from slot {0,1,2}: insert holding {0,1,2} to 10",
    "empty from {3,4,5}: look ends with 0",
    "empty from {3,4,5}: insert holding {0,1,2} to 9",
    "empty from {3,4,5}: insert to 6 with slot {0,1,2}",
    "empty from {3,4,5}: full round",
    "at 6 slot {0,1,2} mark {0,1,2} {won,lost}",
    "at 9 held {0,1,2} mark {0,1,2} {won,lost}",
    "at 13 slot {0,1,2} mark {0,1,2} {won,lost}",
    "at {6,9,13} lost by {the version,mark 0,mark 1,mark 2} alone",
    "at 9 lost to the word without its mark 2",
    "at 6 won by a word that stays as it is",
    "at 13 won by a word that stays as it is",
    "at {7,8,10} held {0,1,2} slot {0,1,2}",
    "at 10 held {0,1,2} mark {0,1,2}",
    "at 11 slot {0,1,2} {equal,not equal}, mark {0,1,2} in the word, {0,1,2} on the board",
    "at 12 slot {0,1,2}",
    "at 13 ends with {0,more,2^64-1}",
    "at 9 version 4294967295 to 0 held {0,1,2}, other marks {00,01,02,10,11,12,20,21,22}",
    // both ends of every range
    "{open,look,insert,remove,turn,run,show,count,retire,total,next,move}: 0 with {W 1,W 64,N 1,N 256}",
    "{look,insert,remove,turn,retire}: 0 with worker {0,W-1,63}",
    "{look,insert,remove,turn,retire}: 2 with worker {W,64 of 64,256,4294967296,2^64-1}",
    "{look,insert,remove}: {3,4} for worker 63",
    "{turn,run,retire}: {3,6,7,11} for worker 63",
    "run: worker {0,W-1,63} goes on",
    "run: worker {W,64 of 64,255} stops it",
    "{look,insert,remove,turn,show,retire}: 0 with lot {0,2^64-1}",
    "{turn,show,retire}: 0 in bucket {0,N-1,255}",
    "at {4,11} equal with key {0,2^64-1}",
    "at {2,12} reads {0,2^64-1}",
    "at 5 finds 2^64-1",
    "at 8 stores {0,2^64-1}",
    "open: 0 with version {0,4294967295}",
    "run: 0 of {0,1,65535} turns",
    "run: turn 65535 stops it",
    "run: 9 of {65536,65540} turns",
    "count: {0,1,768} lots",
    "count: 0 lots beside {0,1,768} marks 2",
    "count: 3 lots beside a mark 2 in bucket {0,N-1}",
    "count: marks {012,021,102,120,201,210} in the only bucket",
    "count: mark {1,2} alone",
    "count: a lot in two valid slots",
    "orders: 0 with {W 1,W 3,N 1}",
    "orders: 0 with W {1,2,3} and depth {1,24}",
    // runs
    "run: a call ends and its worker is idle then",
    "run: a refused turn stands before others",
    "run: changes, lost swaps and full rounds",
    "run: several workers in {one bucket,several buckets}",
    "run: two calls end",
    // what a turn tells of its bucket and the mark word there, with every outcome of every place
    "report, {insert,remove} at 1: read, goes on, bucket {0,between,255}, the word stays",
    "report, {look,insert} at {2,3,4}: read, goes on, bucket {0,between,255}, the word stays",
    "report, look at {3,4,5}: read, ends with 0, bucket {0,between,255}, the word stays",
    "report, look at 5: read, ends with more, bucket {0,between,255}, the word stays",
    "report, insert at {3,4,5}: read, full round, bucket {0,between,255}, the word stays",
    "report, insert at 5: read, {goes on,ends with 0}, bucket {0,between,255}, the word stays",
    "report, insert at 6: won, goes on, bucket {0,between,255}, the word changes",
    "report, insert at {7,8}: store, goes on, bucket {0,between,255}, the word stays",
    "report, insert at 9: won, ends with more, bucket {0,between,255}, the word changes",
    "report, insert at {6,9}: lost, goes on, bucket {0,between,255}, the word stays",
    "report, insert at 10: store, ends with 0, bucket {0,between,255}, the word changes",
    "report, remove at {11,12}: read, goes on, bucket {0,between,255}, the word stays",
    "report, remove at 11: read, ends with 0, bucket {0,between,255}, the word stays",
    "report, remove at 13: won, ends with {0,more}, bucket {0,between,255}, the word changes",
    "report, remove at 13: lost, goes on, bucket {0,between,255}, the word stays",
    "report at {1,2,3,4,5,6,7,8,9,10,11,12,13}: a bucket neither 0 nor the lot",
    "report at {1,2,3,4,5,6,7,8,9,10,11,12,13}: no word of bucket 0",
    // of the swaps only those that are lost
    "report at {1,2,3,4,5,6,7,8,9,10,11,12,13}: no word of the record",
    "report at {6,10,13}: a change, the word stays",
    "report at {6,9,13}: lost to another word than expected, bucket not 0",
    "report at 9: version 4294967295 before and 0 after, bucket {0,between,255}",
    "report: word {0,the highest} {stays,changes}",
    "report: another word changes to {0,the highest}",
    "turn: {1,2,3,6,7,11} with a word to tell",
    // what a run keeps of its last turn, and without one
    "last report of a run to its end: read, {goes on,ends with 0,ends with more,full round}",
    "last report of a run to its end: store, {goes on,ends with 0}",
    "last report of a run to its end: won, {goes on,ends with 0,ends with more}",
    "last report of a run to its end: lost, goes on",
    "last report of a run stopped by {2,3,6,7,11}: {read,store,won,lost}, goes on",
    "last report of a run stopped by {2,3,6,7,11}: won, ends with more",
    "last report of a run {to its end,stopped by 2,stopped by 3,stopped by 6,stopped by 7,stopped by 11}: the word {stays,changes}",
    "last report of a run stopped by {3,6,7,11}: another bucket than the refused turn's",
    "last report: bucket {0,between,255}",
    "last report: of the only turn",
    "last report: {another bucket than,the bucket of} the turn before",
    "last report: another action, bucket and words than the first turn's",
    "last report: a word before that the run itself has made",
    "last report: {goes on after a call that ended,ends with 0 after one that ended with more,no full round after one}",
    "last report: a read after a {lost swap,store,won swap}",
    "last report: the word stays after one that changed",
    "last report: none, {the run is empty,by 1,by 2,by 3,by 6,by 7,by 9,by 11}",
    // all orders: what alone makes a class no small one, and that another number comes before or after whichever it is
    "orders: 10 by {N 2,N 256,W 4,W 64,depth 0,depth 25,depth 257,depth 2^32+1,depth 2^64-1} alone",
    "orders: 10 by W and N and depth",
    "orders: 1 before 10 by {W,N,depth} alone",
    "orders: 10 by {W,N,depth} alone before {3,7}",
    "orders: 3 by worker {0,1,2} of 3 alone",
    "orders: 3 by {2,3} of 3 workers",
    "orders: 7 with {nobody,somebody,everybody} busy",
    // of which classes they are
    "orders of {look,insert,remove}",
    "orders of {look+look,look+insert,look+remove,insert+insert,insert+remove,remove+remove}",
    "orders of look+{look+look,look+insert,look+remove,insert+insert,insert+remove,remove+remove}",
    "orders of {insert+insert+insert,insert+insert+remove,insert+remove+remove,remove+remove+remove}",
    "orders: busy of 2: {0,1,0+1}",
    "orders: busy of 3: {0,1,2,0+1,0+2,1+2,0+1+2}",
    "orders from look at {2,3,4,5}",
    "orders from insert at {1,2,3,4,5,6,7,8,9,10}",
    "orders from remove at {1,11,12,13}",
    "orders on {0,1,2,3} taken slots",
    "orders, {2,3} busy on {1,2} lots",
    "orders, 3 busy on 3 lots",
    "orders: 0 with last ticket {0,4294967295,4294967296,2^64-1}",
    // what came of their walks
    "orders, 1 busy: {finished,cut}",
    "orders, {2,3} busy: {finished,cut,finished and cut}",
    "orders, {look,insert,remove} alone: {finished,cut}",
    "orders: the depth is {not used up,just enough,one too few,too few}",
    "orders: finished walks of several lengths",
    "orders: over {255,4095} {finished walks,cut walks,lost swaps}",
    "orders: lost swaps {in no walk,where none is cut,where none is finished,in one walk alone,as many in every walk}",
    "orders: lost swaps in {finished walks alone,cut walks alone,finished and cut walks}",
    "orders: lost swaps and most of them in a {finished,cut} walk",
    "orders: most {0,1,2,3}",
    "later in a walk, {insert,remove} at 1: read, goes on",
    "later in a walk, {look,insert} at {2,3,4}: read, goes on",
    "later in a walk, look at {3,4,5}: read, ends with 0",
    "later in a walk, look at 5: read, ends with more",
    "later in a walk, insert at {3,4,5}: read, full round",
    "later in a walk, insert at 5: read, {goes on,ends with 0}",
    "later in a walk, insert at {6,9}: lost, goes on",
    "later in a walk, insert at 6: won, goes on",
    "later in a walk, insert at {7,8}: store, goes on",
    "later in a walk, insert at 9: won, ends with more",
    "later in a walk, insert at 10: store, ends with 0",
    "later in a walk, remove at 11: read, {goes on,ends with 0}",
    "later in a walk, remove at 12: read, goes on",
    "later in a walk, remove at 13: won, ends with {0,more}",
    "later in a walk, remove at 13: lost, goes on",
    "later in a walk, the version goes round",
    "orders, trial: all of {1,2,3} idle",
    "orders, trial: two {looks on an empty bucket,inserts of one lot,removes of one lot}",
    // retirings: from which record
    "retire: look at {2,3,4,5}",
    "retire: insert at {1,2,3,4,5} held {0,1,2,3}",
    "retire: insert at 6 held 3",
    "retire: insert at {7,8,9,10} held {0,1,2}",
    "retire: remove at {1,11,12,13}",
    "retire: {look,remove} at slot {0,1,2}",
    "retire: insert at slot {0,1,2} held {0,1,2,3}",
    "retire: insert ticket {1,4294967295,4294967296,2^64-1}",
    "retire: 0 with last ticket {0,4294967295,4294967296,2^64-1}",
    "retire: the last ticket is its own",
    // with a held slot: over which mark word, in which bucket
    "retire: held {0,1,2} mark {0,1,2}, other marks {00,01,02,10,11,12,20,21,22}",
    "retire: version 4294967295 to 0 held {0,1,2} mark {0,1,2}",
    "retire: version 4294967295 to 0 held {0,1,2}, other marks {00,01,02,10,11,12,20,21,22}",
    "retire: version {0,1,255,65535,16777215,2147483647,4294967294,4294967295} goes up",
    "retire: its commit would have {won,lost}",
    "retire: its own word stands",
    "retire: another version than in its word",
    "retire: holding in bucket {0,between,255,N-1}",
    "retire: holding in a bucket neither 0 nor the lot",
    "retire: holding for lot {0,2^64-1}",
    "retire: held {0,1,2} over a lot and a ticket",
    // with nothing held: what does not matter then
    "retire: {look,insert,remove} with nothing held at a mark 2",
    "retire: 0 with nothing held over mark {3,4,128,255} at {0,1,2}",
    "retire: 0 with nothing held over byte 7 {1,2,128,255}",
    "retire: 0 with nothing held over the spare word {1,1099511627776,9223372036854775808}",
    "retire: 6 over a broken bucket",
    // beside whom, and what an insert leaves on an opened board
    "retire: beside one {its like,who holds nothing,who holds the same slot,who holds another slot,who holds a slot and it none}",
    "retire, trial: {nothing is left,a version is left,a version and a ticket are left}",
    "retire, trial: a version, a ticket and a lot are left",
    // who has been asleep: beside whom a turn is done, and who sleeps on; wherever either stands in the list
    "{turn,run}: one asleep for {0,1,255,65535,16777215,2147483647,4294967294,4294967295} sleeps on",
    "{turn,run}: look at {2,3,4,5} sleeps on",
    "{turn,run}: insert at {1,2,3,4,5,6,7,8,9,10} sleeps on",
    "{turn,run}: remove at {1,11,12,13} sleeps on",
    "{turn,run}: one in {the same bucket,another bucket,a broken bucket} sleeps on",
    "{turn,run} of the first: {one between,the last} sleeps on",
    "{turn,run} of one between: {the first,one between,the last} sleeps on",
    "{turn,run} of the last: {the first,one between} sleeps on",
    "{turn,run}: the one just {before,after} sleeps on",
    "{turn,run}: all others of {2,3,4,5} sleep on",
    "{turn,run} of worker {0,31,63}: all others of 64 sleep on",
    "{turn,run}: nobody is beside",
    "{turn,run}: all others are {idle,broken}",
    "{turn,run}: somebody else is idle, somebody broken, and somebody sleeps on",
    "{turn,run}: an idle one stays",
    "{turn,run}: a broken one asleep for {0,1,4294967294,4294967295} stays",
    "{turn,run}: one broken by its number alone stays",
    // whose turn it is has slept itself; and every outcome of every place, of one who has slept and beside one who sleeps on
    "{turn,run}: its own number {0,1,4294967294,4294967295}, the call {goes on,ends}",
    "{has slept,beside one asleep}, {insert,remove} at 1: read, goes on",
    "{has slept,beside one asleep}, {look,insert} at {2,3,4}: read, goes on",
    "{has slept,beside one asleep}, look at {3,4,5}: read, ends with 0",
    "{has slept,beside one asleep}, look at 5: read, ends with more",
    "{has slept,beside one asleep}, insert at {3,4,5}: read, full round",
    "{has slept,beside one asleep}, insert at 5: read, {goes on,ends with 0}",
    "{has slept,beside one asleep}, insert at {6,9}: lost, goes on",
    "{has slept,beside one asleep}, insert at 6: won, goes on",
    "{has slept,beside one asleep}, insert at {7,8}: store, goes on",
    "{has slept,beside one asleep}, insert at 9: won, ends with more",
    "{has slept,beside one asleep}, insert at 10: store, ends with 0",
    "{has slept,beside one asleep}, remove at 11: read, {goes on,ends with 0}",
    "{has slept,beside one asleep}, remove at 12: read, goes on",
    "{has slept,beside one asleep}, remove at 13: won, ends with {0,more}",
    "{has slept,beside one asleep}, remove at 13: lost, goes on",
    // over several turns
    "run: one sleeps on {before its turn,after its turn,between two turns}",
    "run: a call ends and others go on",
    "run: one comes {just to,not quite to,past} 4294967295",
    "run: one comes to 4294967295 and has a turn then",
    "run: one sleeps 65535 turns on",
    // what is no turn, and leaves the numbers of others
    "{look,insert,remove,show,count,orders,retire,total,next}: 0 beside one asleep for {0,1,4294967294,4294967295}",
    "open: 0 over one asleep for {0,1,4294967294,4294967295}",
    "retire: 0 for one asleep for {0,1,4294967294,4294967295}",
    "{look,insert,remove}: {1,2,3,4} beside one asleep",
    "insert: 5 beside one asleep",
    "turn: {1,2,3,6,7,11} beside one asleep",
    "run: {1,9} beside one asleep",
    "run: {2,3,6,7,11} {at once,later} beside one asleep",
    "{show,count}: {1,7} beside one asleep",
    "orders: {1,3,7,10} beside one asleep",
    "retire: {1,2,3,6,7,11} beside one asleep",
    "{look,insert,remove}: {3,4} for one asleep",
    "{turn,run,retire}: {3,7,11} for one asleep",
    // the trials that are not proved together
    "trial: the sleeper's turn 30 after 15 of others",
    "trial: an insert's first 8 turns leave 8589934592",
    "trial: beside it a look of 6 turns ends with 0",
    "trial: beside it a {count is 0,show has mark 2}",
    "trial: its next 3 turns end with 1",
    "trial: after them a {count is 1,show has mark 1}",
];

/// Every point by its name.
pub fn points() -> Vec<String> {
    let patterns = [POINTS, index::POINTS, moving::POINTS, tickets::POINTS].concat();
    let points = patterns.iter().flat_map(|pattern| expand(pattern));
    points.collect()
}

/// All that a pattern stands for.
fn expand(pattern: &str) -> Vec<String> {
    let Some((before, rest)) = pattern.split_once('{') else {
        return vec![pattern.to_string()];
    };
    let (choices, after) = rest.split_once('}').expect("a brace is closed");
    let tails = expand(after);
    let mut all = Vec::new();
    for choice in choices.split(',') {
        all.extend(tails.iter().map(|tail| format!("{before}{choice}{tail}")));
    }
    all
}

#[cfg(test)]
mod tests {
    use super::*;

    #[test]
    fn braces() {
        assert_eq!(
            expand("a {b,c} d{e,f}").join(";"),
            "a b de;a b df;a c de;a c df"
        );
    }

    #[test]
    fn no_point_twice() {
        let mut all = points();
        let count = all.len();
        all.sort();
        all.dedup();
        assert_eq!(all.len(), count);
    }
}
