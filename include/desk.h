/* The desk's library, for C and C++.

   Board, worker records, index and floor are the caller's own memory. desk_open_floor makes them ready; a start gives an idle worker a
   call to do, a look, an insert or a remove; each desk_turn then does one memory action of that call, and is given again until it says
   that the call has ended. A worker that will not go on is retired. The index is for a display that is to find the occupied buckets
   without a walk over the board: turns and retirings keep it, and two questions are answered from it. Between two rounds, when nobody is at
   a call, the lots can be moved to a bigger or a smaller board. README.md, under "From C", has a whole program and how it is built.

   What is asked of the caller: a pointer has as many words, records or turns behind it as the number after it says, and what a function
   may write to overlaps nothing else that it is given. Where that number is 0 the pointer may be NULL: an empty run is desk_run(board,
   words, records, listed, index, entries, floor, NULL, 0). All else may be anything: whatever the words, the records and the numbers are,
   every function comes to its end; what does not fit it refuses by a number, and then nothing has changed.

   Threads: the library keeps nothing between two calls and asks the system for nothing. So each thread can have a board, a list, an index
   and a floor of its own and use them while others use theirs; one board with its list and its index belongs to one thread at a time.
   Workers are no threads: which of them moves is what the caller says, turn by turn.

   What each function leaves and answers is promised in crates/floor_c/src/lib.rt, that of desk_orders in crates/walks_c/src/lib.rt, and
   proved. Nothing checks the declarations below against these files but the programs of tests/c, which see each size, each offset and each
   field arrive. Each of the two crates is an archive: libfloor.a has all functions but desk_orders, libwalks.a has that one. */
#ifndef DESK_H
#define DESK_H

#include <stdbool.h>
#include <stddef.h>
#include <stdint.h>

/* The number of this interface, for `#if`. It goes up by one when a program that was written for it has to be looked at again: a
   struct has another layout, a function takes or answers something else, a constant stands for something else. Whoever upgrades compares
   it with the number that his program was written for. It has nothing to do with the version in a mark word. */
#define DESK_VERSION 7

/* ---- numbers */

/* How many there can be, how many there are, and where in a bucket they stand. All in one enum, since C++20 warns where constants of two
   are multiplied or added: the largest board has DESK_BUCKET_WORDS * DESK_MOST_BUCKETS words. */
enum {
    DESK_MOST_WORKERS = 64,  /* of workers and buckets there is at least one */
    DESK_MOST_BUCKETS = 256,
    DESK_MOST_TURNS = 65535, /* of one run; none at all is a run too */
    DESK_MOST_IN_CLASS = 3,  /* workers of a small class, which has one bucket: see desk_orders */
    DESK_MOST_DEPTH = 24,    /* turns of one of its walks; the least is 1 */
    DESK_BUCKET_WORDS = 8,   /* see "the board" below, also for the places in a bucket */
    DESK_INDEX_WORDS = 5,    /* see "the index" below */
    DESK_SLOTS = 3,          /* of a bucket */
    DESK_NO_SLOT = 3,        /* the number that stands where there is no slot, as in `held` */
    DESK_AT_MARK = 0,
    DESK_AT_KEYS = 1,
    DESK_AT_VALUES = 4,
    DESK_AT_SPARE = 7
};

/* What a call answers: done, or the number by which it is refused. Of two reasons the one that the call looks at first is told: the
   sizes, then a run's length or whether a class is small, the worker's number, its record, whether it is busy, the ticket, the bucket, the
   index. A move looks at the sizes, all records, whether somebody is at a call, all old buckets, and then whether the new ones have room. */
enum {
    DESK_DONE = 0,
    DESK_WRONG_SIZES = 1,    /* too few or too many workers or buckets, the board not eight words for each bucket, the list not one
                                record for each worker, or the index not DESK_INDEX_WORDS words; the list, and the index, where the call is
                                given one; for a move also the second board, and how many buckets it is to have */
    DESK_NO_WORKER = 2,      /* workers are counted from 0, and the number is past the last */
    DESK_BROKEN_RECORD = 3,  /* in the worker's record kind, place, ticket, held, slot and word do not go together: there is no such kind;
                                it is idle, and not desk_idle_record() in every field; its kind of call never comes to that place; an
                                insert has no ticket, or another call has one; a slot is held where none can be, or none where one must
                                be; the slot is past the last; a look has a word, or another call one that is no mark word. For all
                                orders, and for a move, it can be any worker's record */
    DESK_BUSY_WORKER = 4,    /* a start for a worker whose last call has not ended */
    DESK_SPENT_TICKET = 5,   /* an insert's ticket has to be greater than all before it; so 0 never is a ticket, and after 2^64 - 1 there
                                is none */
    DESK_IDLE_WORKER = 6,    /* a turn for a worker that has no call, or a retiring of one */
    DESK_BROKEN_BUCKET = 7,  /* the lot's bucket has a mark over 2, something above the marks, or a spare word that is not 0. For a
                                retiring only where the worker holds a slot; for a count it can be any bucket; for all orders it is the
                                only one, also where nobody is busy; for a move it can be any of the old board, and one that has a mark of
                                2 counts for broken too */
    DESK_MALFORMED = 8,      /* a sheet that cannot be read: the number is the rostrum's, and no call here gives it */
    DESK_TOO_LONG = 9,       /* a run of more than DESK_MOST_TURNS */
    DESK_NO_SMALL_CLASS = 10,
                             /* all orders, of more than one bucket, of more than DESK_MOST_IN_CLASS workers, or to a depth of 0 or of
                                more than DESK_MOST_DEPTH */
    DESK_UNTRUE_INDEX = 11,  /* a turn, by itself or in a run, or a retiring of a worker that holds a slot, and the index does not tell
                                what the bucket of the worker's lot does: the bucket's bit is set and it has no valid slot, or the other
                                way round; or the total is below its valid slots; or the total is above three slots for every bucket
                                less the slots of this one that are not valid. Never on an opened board with its own index */
    DESK_NOT_AT_REST = 12,   /* a move, and a worker is at a call: whoever will not go on can be retired */
    DESK_CROWDED_BUCKET = 13 /* a move, and some bucket of the new board would need a fourth slot for the lots that come there */
};

/* What a worker is at: `kind` in its record. */
enum { DESK_IDLE = 0, DESK_LOOK = 1, DESK_INSERT = 2, DESK_REMOVE = 3 };

/* What a turn did to the board: `action`. A swap is won where the mark word was the one that the worker expected. */
enum {
    DESK_NONE = 0,  /* nothing: the turn was refused */
    DESK_READ = 1,  /* one word, or one mark */
    DESK_STORE = 2, /* one word, or one mark */
    DESK_WON = 3,   /* a swap of the mark word, done */
    DESK_LOST = 4   /* a swap, not done, since the mark word was another */
};

/* ---- the board

   It is buckets, one after another, and a bucket is eight words:

     DESK_AT_MARK         the mark word: the bucket's version and the marks of its three slots
     DESK_AT_KEYS + s     the lot in slot s
     DESK_AT_VALUES + s   the ticket in slot s
     DESK_AT_SPARE        nothing; it stays 0

   What stands in a slot counts only where its mark is valid; a closed lot leaves its number and its ticket behind in an empty slot. In
   the mark word, from the low end, the bits

     0 to 31    are the version: each insert that commits adds one to it, and each retiring that gives a slot back; 0 comes after
                2^32 - 1
     32 to 39   are the mark of slot 0
     40 to 47   are the mark of slot 1
     48 to 55   are the mark of slot 2
     56 to 63   are 0

   A mark is one of these. */
enum {
    DESK_MARK_EMPTY = 0,
    DESK_MARK_VALID = 1,    /* the slot's lot stands on the slot's ticket */
    DESK_MARK_INSERTING = 2 /* an insert has claimed the slot and not yet committed it */
};

/* ---- the index

   Of DESK_INDEX_WORDS words the first is the total, the number of valid slots on the board. Then comes a bit for each bucket, which is
   set where a slot of it is valid: that of bucket b is bit b % 64 of word 1 + b / 64. Bits past the last bucket are 0. desk_open_floor
   makes it, and desk_move makes it afresh, for the new board; as long as every turn, run and retiring of that board is given it, it stays
   so. An index of any other numbers can be given too: a turn or a retiring follows the bucket of its lot in it and touches nothing else of
   it, or is refused by DESK_UNTRUE_INDEX; the questions are answered from what stands there. */

/* ---- what goes in and comes back */

/* The floor. A call that can change it hands it back as it now stands: pass that one on. */
typedef struct {
    size_t workers;   /* how many there are; also how many records are listed */
    size_t buckets;   /* how many the board has */
    uint64_t last;    /* the ticket that an insert brought last; 0 before the first */
    uint32_t version; /* with which every bucket began when the floor was opened, and begins again on a board that the lots move to; any */
    uint32_t spare;   /* nothing; 0 from an opening, and handed on as it is by every other call, so that no byte of a floor is left to
                         chance */
} desk_floor;

/* What an opening asks for. */
typedef struct {
    size_t workers;   /* 1 to DESK_MOST_WORKERS */
    size_t buckets;   /* 1 to DESK_MOST_BUCKETS */
    uint32_t version; /* with which every bucket begins; any */
} desk_plan;

/* What an insert brings. */
typedef struct {
    uint64_t lot;    /* any, 0 too */
    uint64_t ticket; /* greater than the floor's last */
} desk_bid;

/* A worker's record. The library writes it; a caller can read it, and can keep one and put it back. It has no bytes but those of its fields,
   and neither have a floor and a bid. */
typedef struct {
    uint64_t key;    /* the lot of its call */
    uint64_t word;   /* the mark word as an insert or a remove last read or swapped it; 0 in a look */
    uint64_t seen;   /* the ticket that it read in a slot, to be compared with a second reading or answered */
    uint64_t ticket; /* what an insert brought; 0 in a look and a remove */
    uint32_t asleep; /* the turns that others have had since its start or its own last turn, whichever is later; it stays at 2^32 - 1.
                        0 in an idle record; a busy one is sound with any number here */
    uint8_t slot;    /* the slot that the call is at */
    uint8_t kind;    /* DESK_IDLE, DESK_LOOK, DESK_INSERT or DESK_REMOVE */
    uint8_t place;   /* which memory action the next turn does, 1 to 13; 0 in an idle record */
    uint8_t held;    /* the slot that an insert has claimed, or DESK_NO_SLOT */
} desk_worker;

/* What an opening, a start or a move comes to. */
typedef struct {
    desk_floor floor; /* as it now stands; where refused, the one that was given */
    uint8_t refusal;  /* DESK_DONE, or why it is refused */
} desk_outcome;

/* What a turn that is done reports. `before` and `after` are the mark word of its bucket, whichever word of it the turn was about. On an
   opened board the `before` of a turn is the `after` of the last turn before it in that bucket, whoever had it, or the opening's word; a
   retiring between them that gives a slot back of that bucket has changed it, and reports nothing (see desk_retire). The two of one turn
   differ just where it changed the mark word (a swap that was won, or a claimed slot given back). A swap is won where its `before` is the
   `after` of its worker's last turn that read the mark word whole or changed it, and else lost; the last before a lost swap to change that
   word, a turn whose two words differ or such a retiring, is another worker's, and what made it lose. */
typedef struct {
    uint64_t answer; /* of a call that ended: a look's and a remove's is the lot's ticket, or 0 where the lot is not there; an
                        insert's is 1, or 0 where the lot is there already */
    uint64_t before; /* the mark word of the bucket before the turn */
    uint64_t after;  /* and after it */
    size_t bucket;   /* the number of the bucket of the worker's lot: 0 for the first */
    uint8_t action;  /* DESK_READ, DESK_STORE, DESK_WON or DESK_LOST */
    bool ended;      /* the call is over, and the worker idle again */
    bool full;       /* an insert found no empty slot and begins again */
} desk_report;

/* What a turn comes to. */
typedef struct {
    desk_report report; /* where the turn is refused, 0 and false everywhere */
    uint8_t refusal;    /* DESK_DONE, or why it is refused */
} desk_turn_outcome;

/* What turns add up to. */
typedef struct {
    uint32_t turns;   /* that were done */
    uint32_t changes; /* of a mark word by these turns: a swap that was won, or a claimed slot given back */
    uint32_t lost;    /* swaps */
    uint32_t full;    /* rounds in which an insert found no empty slot */
} desk_totals;

/* What a run comes to. */
typedef struct {
    desk_report last;   /* of the last turn that was done; where none was, a read that goes on (DESK_READ), and 0 and false elsewhere */
    desk_totals totals; /* of the turns before the one that was refused, or of all */
    uint8_t stop;       /* DESK_DONE, or why the run was refused or where it stopped */
} desk_run_outcome;

/* A part of the board that was lent: `board + start`, so many `words`. It is no copy, and changes as the board does. */
typedef struct {
    size_t start; /* 0 where there is no part */
    size_t words; /* DESK_BUCKET_WORDS, or 0 where there is no part */
} desk_part;

/* What a count comes to. */
typedef struct {
    size_t lots;     /* slots whose mark is valid, over the whole board; 0 where refused */
    uint8_t refusal; /* DESK_DONE, or why it is refused */
} desk_count_outcome;

/* What the display is told of the total. */
typedef struct {
    uint64_t total;  /* valid slots, by the index; 0 where refused */
    uint8_t refusal; /* DESK_DONE, or why it is refused */
} desk_total_outcome;

/* What it is told of the next occupied bucket. */
typedef struct {
    size_t bucket;   /* its number; 0 where there is none, or where refused */
    bool found;      /* whether there is one; false where refused */
    uint8_t refusal; /* DESK_DONE, or why it is refused */
} desk_next_outcome;

/* What all orders come to; where they are refused, all four counts are 0. */
typedef struct {
    uint64_t finished; /* walks, after which nobody is busy */
    uint64_t cut;      /* walks, after which somebody still is: the depth is used up */
    uint64_t lost;     /* swaps, in all walks together, the cut ones too */
    uint64_t most;     /* swaps that were lost in one walk, in whichever they were most */
    uint8_t refusal;   /* DESK_DONE, or why it is refused */
} desk_orders_outcome;

/* ---- the functions. `words` is how many words the board has, `listed` how many records the list has, `entries` how many words the
   index has; `had` is how many words the board has that a move leaves. */

#ifdef __cplusplus
extern "C" {
#endif

/* Opens a floor: every bucket empty and at the plan's version, every worker idle, no ticket spent, an index of zeros. The floor has the
   plan's numbers then, the version too. The one that is passed in is the one that stood before, all 0 where there was none; it comes back
   where the opening is refused. */
desk_outcome desk_open_floor(uint64_t *board, size_t words, desk_worker *records, size_t listed, uint64_t *index, size_t entries,
    desk_floor floor, desk_plan plan);

/* Start a call for an idle worker, and touch no more than its record, in which `asleep` is 0; an insert's ticket becomes the floor's last.
   The call is done by turns for that worker, until one has `ended`. */
desk_outcome desk_start_look(const uint64_t *board, size_t words, desk_worker *records, size_t listed, desk_floor floor,
    size_t worker, uint64_t lot);
desk_outcome desk_start_insert(const uint64_t *board, size_t words, desk_worker *records, size_t listed, desk_floor floor,
    size_t worker, desk_bid bid);
desk_outcome desk_start_remove(const uint64_t *board, size_t words, desk_worker *records, size_t listed, desk_floor floor,
    size_t worker, uint64_t lot);

/* Does the next memory action of a worker's call. On an opened board a busy worker's turn is never refused, and a look takes 4 to 10 turns,
   whatever others do. While no other worker has a turn, and none that holds a slot is retired, a remove takes 6 at most, and an insert 13, if
   a slot of its bucket is empty when it starts, or is valid with its lot. Any other insert goes round, and reports it by `full` each time,
   until somebody else changes that bucket: whoever gives turns to one worker alone, until the call has ended, looks at that too.

   A turn that is done leaves 0 in the `asleep` of its worker's record, and whoever else is busy sleeps through it: each other record that is
   busy and not broken counts one more in `asleep`, or stays at the highest number, and nothing else of it is touched. One that is idle stays
   as it is, and so does one that is broken. Nothing but such a turn counts: no start, no retiring, no show, no count, no question of the
   display, no walk of all orders, and no turn that is refused.

   In the index it follows the bucket of its lot: the total by as much as there are more or fewer valid slots, and the bucket's bit. */
desk_turn_outcome desk_turn(uint64_t *board, size_t words, desk_worker *records, size_t listed, uint64_t *index, size_t entries,
    desk_floor floor, size_t worker);

/* Retires a worker that is at a call and will not go on: its record becomes idle, and its call has no answer and is never done. If it
   held a slot, that slot's mark becomes DESK_MARK_EMPTY, whatever it was, and the version of its bucket goes on by one, both in one act;
   if it held none, its bucket is not looked at, and neither is the index, which else follows the bucket. Nothing else is touched; the
   floor stays as it is, and the ticket of a retired insert stays spent. A retiring is no turn: it reports nothing, is in no totals, and
   counts in nobody's `asleep`. On an opened board whoever is busy can be retired, and the mark word that the commit of a retired insert
   would have expected never stands in its bucket again, however that board is used from then on, while fewer than 2^32 inserts have been
   accepted since it was opened or moved to: a version that has gone all the way round is the old one again. For a container that comes back
   after all that is one lost swap, and no leave to go on with its old record: it begins a new call.

   Answers DESK_DONE, or why it is refused: DESK_WRONG_SIZES, DESK_NO_WORKER, DESK_BROKEN_RECORD, DESK_IDLE_WORKER, DESK_BROKEN_BUCKET and
   DESK_UNTRUE_INDEX are looked at in this order, the last two only where a slot is held. */
uint8_t desk_retire(uint64_t *board, size_t words, desk_worker *records, size_t listed, uint64_t *index, size_t entries, desk_floor floor,
    size_t worker);

/* Does `count` turns, each for the worker whose number stands in `turns`, and stops before the first that is refused; those before it are
   done, and leave all that as many single turns would, in every record and in the index too. It has the report of the last turn done, and
   not of those before: which turn ended a call it tells of the last one alone. A worker whose call has ended is idle, and a further turn
   for it stops the run. */
desk_run_outcome desk_run(uint64_t *board, size_t words, desk_worker *records, size_t listed, uint64_t *index, size_t entries,
    desk_floor floor, const uint8_t *turns, size_t count);

/* Moves the lots to a second board, of so many `buckets`, when nobody is at a call: each lot that stands on the old board, with its ticket,
   in the order of the old buckets, and in a bucket of the slots, goes to the first empty slot of bucket lot % buckets. On the new board
   every bucket is at the floor's version, every slot that no lot came to is empty, and every other word is 0, whatever was there before; the
   index is made afresh from it. The floor that comes back has the new number of buckets, and all else as it was: tickets that are spent stay
   spent. The old board and the records are only read, so whoever would rather stay goes on with the old board, its floor and an index of
   it that he has kept.

   From then on all calls are given the new board: whatever is still done on the old one does not reach it. A record that somebody has kept
   from before must not be put back, since the versions have begun again. The old board can be lent again for the next move; the two boards of
   one move must not overlap.

   It is refused by DESK_WRONG_SIZES, DESK_BROKEN_RECORD, DESK_NOT_AT_REST, DESK_BROKEN_BUCKET and DESK_CROWDED_BUCKET, which are looked at in
   this order, each for all records or all buckets before the next; then the new board and the index are as they were. On an opened board
   where nobody is busy, and with sizes that fit, it is refused just where a new bucket would need a fourth slot. */
desk_outcome desk_move(const uint64_t *old, size_t had, uint64_t *board, size_t words, const desk_worker *records, size_t listed,
    uint64_t *index, size_t entries, desk_floor floor, size_t buckets);

/* Tells which words of the board are the bucket of a lot: with `p` for the answer, the eight words from `board + p.start` on. Where
   the show is refused p.words is 0, and the second function, given the same, has the number. */
desk_part desk_show(const uint64_t *board, size_t words, desk_floor floor, uint64_t lot);
uint8_t desk_show_refusal(const uint64_t *board, size_t words, desk_floor floor, uint64_t lot);

/* Counts the lots on the board, which are the slots whose mark is valid. One that is being inserted counts from its commit on, and a
   show of its bucket has it before that. */
desk_count_outcome desk_count(const uint64_t *board, size_t words, desk_floor floor);

/* The two questions of the display. Both are answered from the index alone, of which the second reads four words at most, and are refused
   by DESK_WRONG_SIZES alone; nothing on the board is looked at. The first tells the total. The second tells the first occupied bucket
   whose number is `from` or above, or that there is none: asked from 0, and then from one past the bucket that it told, it goes over all
   that are occupied. On an opened board with its own index the total is what desk_count tells, and the next bucket the one that a walk
   over the board would come to. */
desk_total_outcome desk_total(const uint64_t *board, size_t words, const uint64_t *index, size_t entries, desk_floor floor);
desk_next_outcome desk_next_occupied(const uint64_t *board, size_t words, const uint64_t *index, size_t entries, desk_floor floor,
    size_t from);

/* Walks every order in which the workers of a small class can have their turns, each order once, where a run is given one of them, and tells
   what the walks come to together. A small class has one bucket and DESK_MOST_IN_CLASS workers at most, each of whom is idle or anywhere
   in a call. A walk begins with the board and the records as they are lent, and each turn of it is for a worker that is busy then. It is
   finished when nobody is busy any more, and cut if it has had `depth` turns before that. Where nobody is busy to begin with there is one
   walk, with no turn in it, and it is finished.

   Walks are made on copies: board, list and floor are left as they were, so there is no floor to pass on.

   No order is left out for leading where another led, and nothing is kept of what was met. So the time grows with the number of orders: each
   turn more can double them where two are busy, and treble them where three are, which makes 3^depth at most. Three inserts of one lot have
   531,438 orders to depth 12, which takes milliseconds, and 226,534,778,838 to depth 24, which takes an hour or so; two inserts of one lot
   have 2,199,430 to depth 24.

   It is refused by DESK_WRONG_SIZES, DESK_NO_SMALL_CLASS, DESK_BROKEN_RECORD and DESK_BROKEN_BUCKET, which are looked at in this order, the
   records from the first worker's on. */
desk_orders_outcome desk_orders(const uint64_t *board, size_t words, const desk_worker *records, size_t listed, desk_floor floor,
    size_t depth);

#ifdef __cplusplus
}
#endif

/* ---- reading what stands there. These are the header's own and in no proof; tests/c compares the first two with the proved functions
   of crate mark, and the others with what the library writes. */

/* The version in a mark word. */
static inline uint32_t desk_version(uint64_t word) {
    return (uint32_t)(word & 0xffffffffu);
}

/* The mark of a slot in a mark word; of a number that is no slot DESK_MARK_EMPTY. */
static inline uint8_t desk_mark(uint64_t word, size_t slot) {
    if (slot >= DESK_SLOTS) {
        return DESK_MARK_EMPTY;
    }
    return (uint8_t)(word >> (32 + 8 * slot) & 0xffu);
}

/* The number of the bucket that a lot belongs to, on a board of so many buckets (0 where there are none). Its words begin at
   `board + DESK_BUCKET_WORDS * desk_bucket(lot, buckets)`; desk_show says the same, and refuses a bucket that is broken. */
static inline size_t desk_bucket(uint64_t lot, size_t buckets) {
    if (buckets == 0) {
        return 0;
    }
    return (size_t)(lot % buckets);
}

/* The lot and the ticket in a slot, out of a bucket's eight words; of a number that is no slot 0. */
static inline uint64_t desk_key(const uint64_t *bucket, size_t slot) {
    if (slot >= DESK_SLOTS) {
        return 0;
    }
    return bucket[DESK_AT_KEYS + slot];
}

static inline uint64_t desk_value(const uint64_t *bucket, size_t slot) {
    if (slot >= DESK_SLOTS) {
        return 0;
    }
    return bucket[DESK_AT_VALUES + slot];
}

/* The record of an idle worker. An opening leaves these; whoever makes a list by hand begins with them. */
static inline desk_worker desk_idle_record(void) {
    desk_worker idle = {0, 0, 0, 0, 0, 0, DESK_IDLE, 0, DESK_NO_SLOT};
    return idle;
}

#endif
