//! The points of the display's index (§21) and of its two questions.

pub const POINTS: &[&str] = &[
    // §6.1: an index of another length, where a call is given one and where it is not
    "{open,turn,run,retire,total,next,move}: 1 by an index {empty,of 4 words,of 6 words,of 13 words}",
    "{look,insert,remove,show,count,orders}: 0 with an index {empty,of 4 words,of 6 words,of 13 words}",
    "{turn,retire}: 1 by an index alone before {2,3,6,7}",
    "run: 1 by an index alone before {2,3,6,7,9}",
    "retire: 1 by an index with nothing held",
    "run: 1 by an index with no turns",
    // §21.2: an opening makes it, whatever it was, and a move makes it afresh
    "{open,move}: 0 over an index of {zeros,a total,a total of 2^64-1,bits in each word,all bits}",
    // §21.5: the causes of 11, each alone, and where the bit is that is looked at
    "{turn,run,retire}: 11 by a bit over no valid slot, N {1,256}",
    "{turn,run,retire}: 11 by no bit over {1,2,3} valid slots, N {1,256}",
    "{turn,run,retire}: 11 by a total one below {1,2,3} valid slots, N {1,256}",
    "{turn,run,retire}: 11 by a total one above 3N less {0,1,2,3} other slots, N {1,256}",
    "{turn,run,retire}: 11 by a total of {2^32 and more,2^63,2^64-1} over {0,1,2,3} valid slots",
    "{turn,run,retire}: 11 by {a bit,no bit} in bucket {0,63,64,127,128,191,192,255} of 256",
    "{turn,run,retire}: 11 by bit and total",
    "{turn,run,retire}: 11 by a bit over a mark 2",
    // what it allows: both ends of the total, and all that another bucket would refute
    "{turn,run,retire}: 0 with a total of just {0,1,2,3} valid slots, N {1,256}",
    "{turn,run,retire}: 0 with a total of 3N less {0,1,2,3} other slots, N {1,256}",
    "{turn,run,retire}: 0 with no bit over a mark 2",
    "{turn,run,retire}: 0 with {a total that is not the board's,a bit that is not the board's,unused bits}",
    // who is not given an index, or touches no bucket, does not ask for it
    "{look,insert,remove,show,count,orders}: 0 with {a total that is not the board's,a bit that is not the board's,unused bits}",
    "retire: 0 with nothing held over a bit over no valid slot",
    "retire: 0 with nothing held over no bit over {1,2,3} valid slots",
    "retire: 0 with nothing held over a total one below {1,2,3} valid slots",
    "retire: 0 with nothing held over a total one above 3N less {0,1,2,3} other slots",
    // what becomes of it: every mark that is set, beside every number of valid slots, and every turn that sets none
    "index, at {6,10,13} over mark {0,1,2}: beside {0,1,2} valid slots",
    "index, at 9 over mark 2: beside {0,1,2} valid slots",
    "index, retire over mark {0,1,2}: beside {0,1,2} valid slots",
    "index, lost insert at {6,9}: over {0,1,2,3} valid slots",
    "index, lost remove at 13: over {0,1,2,3} valid slots",
    "index, {insert,remove} at 1: over {0,1,2,3} valid slots",
    "index, {look,insert} at {2,3,4,5}: over {0,1,2,3} valid slots",
    "index, insert at {7,8}: over {0,1,2,3} valid slots",
    "index, remove at {11,12}: over {0,1,2,3} valid slots",
    "index: bucket {0,63,64,127,128,191,192,255} is occupied by a commit",
    "index: bucket {0,63,64,127,128,191,192,255} is emptied by a {close,retiring}",
    "index: bucket {0,63,64,127,128,191,192,255} stays occupied by a {commit,close}",
    "index: bucket {0,63,64,127,128,191,192,255} stays empty by a {claim,retiring}",
    // over several turns
    "run: a bucket is {occupied and emptied,emptied and occupied} again",
    "run: bits in several words change",
    "run: 11 later by {a bit over no valid slot,no bit over 1 valid slots}",
    "run: 11 later by a total one below {1,2,3} valid slots",
    // no accepted turn leaves a total above 3N
    "run: 11 later by a total one above 3N less {1,2,3} other slots",
    "run: 11 by a total that the run has made {higher,lower}",
    "run: 11 after turns that changed the index",
    "run: 11 in a bucket in which turns were done",
    // §21.3: the total, whatever it is
    "total: {0,1,768,769,4294967296,2^64-1}",
    "{total,next}: 0 with {a total that is not the board's,a bit that is not the board's,unused bits}",
    "{total,next}: 0 over a broken bucket",
    // §21.4: the next occupied bucket: at either end of each word, from it and from before, and how far on
    "next: bucket {0,63,64,127,128,191,192,255} from itself",
    "next: bucket {63,64,127,128,191,192,255} from {just before it,further before it}",
    "next: {0,1,2,3} words on",
    "next: a bucket {alone,beside one before it,beside one just after it,beside bits past N,of every bit}",
    "next: some from just past {0,63,64,127,128,191,192}",
    "next: none from just past {0,63,64,127,128,191,192,255}",
    // the end of the board, in every word of bits
    "next: bucket N-1 of {1,3,63,64,65,100,128,129,192,193,255,256}",
    "next: none below N of {1,3,63,64,65,100,128,129,192,193,255} with bit N set",
    "next: {some,none} from N-1 of {1,3,63,64,65,100,128,129,192,193,255,256}, some bits set",
    "next: some from N-1 of {1,3,64,65,256}, every bit set",
    "next: none from {N,N+1} of {1,3,64,65,255,256}, every bit set",
    "next: none from {257,320,4294967295,4294967296,2^63,2^64-1}, every bit set",
    "next: none, {no bit is set,bits before it alone are set,bits past N alone are set,bits before it and past N are set}",
];
