#include "met.h"
#include "reading.h"
#include <stdio.h>
#include <string.h>

const char *const call_names[CALLS] = {"open", "start look", "start insert", "start remove", "turn", "run", "show", "count",
    "orders", "retire", "total", "next", "move"};

enum { REFUSALS = DESK_CROWDED_BUCKET + 1, NO_MORE = REFUSALS };

/* the numbers that each call gives, 0 for a call that is accepted */
static const unsigned call_refusals[CALLS][REFUSALS + 1] = {
    [OPEN] = {0, 1, NO_MORE},
    [START_LOOK] = {0, 1, 2, 3, 4, NO_MORE},
    [START_INSERT] = {0, 1, 2, 3, 4, 5, NO_MORE},
    [START_REMOVE] = {0, 1, 2, 3, 4, NO_MORE},
    [TURN] = {0, 1, 2, 3, 6, 7, 11, NO_MORE},
    [RUN] = {0, 1, 2, 3, 6, 7, 9, 11, NO_MORE},
    [SHOW] = {0, 1, 7, NO_MORE},
    [COUNT] = {0, 1, 7, NO_MORE},
    [ORDERS] = {0, 1, 3, 7, 10, NO_MORE},
    [RETIRE] = {0, 1, 2, 3, 6, 7, 11, NO_MORE},
    [TOTAL] = {0, 1, NO_MORE},
    [NEXT] = {0, 1, NO_MORE},
    [MOVE] = {0, 1, 3, 7, 12, 13, NO_MORE},
};

static unsigned long met[CALLS][REFUSALS], places[LAST_PLACE + 1], changes, lost, full;

/* reports, of a turn or the last of a run: those of a bucket past the first, and those whose two words differ; and runs that were stopped,
   but not at once */
static unsigned long elsewhere[CALLS], changed[CALLS], stopped_later;

/* all orders that were walked, by how many workers were busy; their walks, and the swaps that these lost; and those of which one walk lost
   more than one swap */
static unsigned long classes[MOST_IN_CLASS + 1], finished, cut, lost_in_walks, lost_more;

/* retirings, by the place of the call that was dropped, of those that hold no slot and of those that do; of these last by the mark that
   stood there, and those whose version came round; and of the others those whose bucket was broken, which nobody asks about */
static unsigned long retired[LAST_PLACE + 1], freed[LAST_PLACE + 1], freed_mark[DESK_MARK_INSERTING + 1], freed_round, over_broken;

/* records beside a turn that was done: those that counted it, those that were at the highest number, idle ones and broken ones; and turns
   whose worker had slept */
static unsigned long slept, slept_most, idle_beside, broken_beside, woke;

/* calls that take the index, refused for nothing but its length: where it is shorter, and where it is longer */
static unsigned long too_short[CALLS], too_long[CALLS];

/* what an index has wrong about a bucket (§21.5): its bit, or the total */
enum { LIT_FOR_NOTHING, DARK, TOTAL_BELOW, TOTAL_ABOVE, CAUSES };

/* turns and retirings that 11 refused, by the only thing that was wrong; those where something was wrong, by the number that refused them;
   those that were done with the total as low or as high as it may be, and with a bit past the last bucket set; retirings that hold no slot,
   where something was wrong, which nobody asks about; and runs that 11 stopped, but not at once */
static unsigned long refuted[CALLS][CAUSES], outranked[CALLS][REFUSALS], lowest[CALLS], highest[CALLS], unused[CALLS], over_untrue,
    untrue_later;

/* calls that changed the index: the total up or down, a bit set or cleared; and those that changed each of its words */
enum { UP, DOWN, LIT, CLEARED, WAYS };
static unsigned long followed[CALLS][WAYS], followed_in[INDEX_WORDS];

/* totals that no board has; next buckets, by how many words on they were found, and those found past a bit of the same word that is not
   asked for; and none, from past the last bucket and from before it, and where a bit past the last is set */
static unsigned long too_great, words_on[INDEX_WORDS - 1], passed, none_beyond, none_within, none_but_unused;

/* moves that were done: to more buckets, to fewer and to as many; whose index was untrue of the old board; whose old board had a bucket of
   another version than the floor's; and by the lots that a new bucket has, the new buckets */
enum { TO_MORE, TO_FEWER, TO_AS_MANY, SIZINGS };
static unsigned long sized[SIZINGS], mended, of_other_versions, new_buckets[SLOTS + 1];

/* moves that were refused: for nothing but the new N, for nothing but the length of the new board, and for a mark of 2 where no bucket is
   broken; and by the number, where a later one would have applied too */
static unsigned long wrong_buckets, wrong_words, inserting, before_others[REFUSALS][REFUSALS];

/* calls of each kind that were accepted on a board to which the hall had moved */
static unsigned long on_moved[CALLS];

/* inserts that were accepted: with a ticket whose low half is not above the last one's; with one past 32 bits, where the last one was not; with
   one whose highest bit is set, where the last one's was not; with the highest ticket; and on a floor whose last is past 32 bits */
enum { LOWER_LOW_HALF, OUT_OF_32_BITS, OVER_THE_SIGN, THE_HIGHEST, PAST_32_BITS, RISES };

/* those that were refused by 5: with a ticket whose low half is above the last one's; below the last one, where a sign would put it above; and
   after the highest */
enum { HIGHER_LOW_HALF, UNDER_THE_SIGN, AFTER_THE_HIGHEST, FALLS };
static unsigned long risen[RISES], fallen[FALLS];

/* of tickets whose low half is 0, and the whole is not: turns that stored one, turns that answered one, and records of a kind that have one and
   nothing else that is wrong, which breaks all but an insert; and moves of a floor whose last ticket is past 32 bits */
static unsigned long stored_long, answered_long, kept_long[REMOVE + 1], moved_long;

/* calls that hand back a floor, and were given one whose spare is not 0: those that were done, and those that were refused */
static unsigned long spare_done[CALLS], spare_refused[CALLS];

static bool missing(const char *what, unsigned number, unsigned long times) {
    if (times == 0) printf("never met: %s %u\n", what, number);
    return times == 0;
}

/* an insert holds a slot at places 1 to 5 or does not, never at 6, and always at 7 to 10; nobody else holds one */
static bool lacks_retirings(void) {
    bool lacks = false;
    for (unsigned place = 1; place <= LAST_PLACE; place++) {
        if (place < 7 || place > 10) lacks |= missing("nothing held and retired at place", place, retired[place]);
        if (place < 11 && place != 6) lacks |= missing("a slot held and retired at place", place, freed[place]);
    }
    for (unsigned mark = 0; mark <= DESK_MARK_INSERTING; mark++) lacks |= missing("a retiring over mark", mark, freed_mark[mark]);
    lacks |= missing("a retiring that takes the version to", 0, freed_round);
    lacks |= missing("retirings with nothing held over a broken bucket over", 0, over_broken);
    return lacks;
}

static bool lacks_sleepers(void) {
    bool lacks = missing("sleepers beside a turn over", 0, slept);
    lacks |= missing("sleepers at the highest number beside a turn over", 0, slept_most);
    lacks |= missing("idle workers beside a turn over", 0, idle_beside);
    lacks |= missing("broken records beside a turn over", 0, broken_beside);
    lacks |= missing("turns of sleepers over", 0, woke);
    return lacks;
}

static bool lacks_indexes(which w) {
    bool lacks = false;
    for (unsigned cause = 0; cause < CAUSES; cause++)
        lacks |= missing("refused for nothing but what the index has wrong:", cause, refuted[w][cause]);
    lacks |= missing("with an untrue index, refused by", DESK_NO_WORKER, outranked[w][DESK_NO_WORKER]);
    lacks |= missing("with an untrue index, refused by", DESK_BROKEN_RECORD, outranked[w][DESK_BROKEN_RECORD]);
    lacks |= missing("with an untrue index, refused by", DESK_IDLE_WORKER, outranked[w][DESK_IDLE_WORKER]);
    lacks |= missing("with an untrue index, refused by", DESK_BROKEN_BUCKET, outranked[w][DESK_BROKEN_BUCKET]);
    lacks |= missing("the lowest total in an accepted call of", w, lowest[w]);
    lacks |= missing("the highest total in an accepted call of", w, highest[w]);
    lacks |= missing("a bit past the last bucket in an accepted call of", w, unused[w]);
    lacks |= missing("the total down in a call of", w, followed[w][DOWN]);
    lacks |= missing("a bit cleared in a call of", w, followed[w][CLEARED]);
    return lacks;
}

static bool lacks_lengths(void) {
    static const which calls[] = {OPEN, TURN, RUN, RETIRE, TOTAL, NEXT, MOVE};
    bool lacks = false;
    for (size_t i = 0; i < sizeof calls / sizeof calls[0]; i++) {
        lacks |= missing("refused for a short index a call of", calls[i], too_short[calls[i]]);
        lacks |= missing("refused for a long index a call of", calls[i], too_long[calls[i]]);
    }
    return lacks;
}

/* a retiring makes no slot valid */
static bool lacks_display(void) {
    bool lacks = lacks_lengths();
    lacks |= lacks_indexes(TURN);
    lacks |= lacks_indexes(RETIRE);
    for (unsigned way = 0; way < WAYS; way++) {
        lacks |= missing("in turns a change of the index of kind", way, followed[TURN][way]);
        lacks |= missing("in runs a change of the index of kind", way, followed[RUN][way]);
    }
    for (unsigned word = 0; word < INDEX_WORDS; word++) lacks |= missing("a change in the index of word", word, followed_in[word]);
    lacks |= missing("retirings with nothing held over an untrue index over", 0, over_untrue);
    lacks |= missing("turns done in a run that an untrue index stops over", 0, untrue_later);
    lacks |= missing("totals that no board has over", 0, too_great);
    for (unsigned words = 0; words < INDEX_WORDS - 1; words++) lacks |= missing("a next bucket so many words on:", words, words_on[words]);
    lacks |= missing("next buckets past an occupied one of the same word over", 0, passed);
    lacks |= missing("none from past the last bucket over", 0, none_beyond);
    lacks |= missing("none from before it over", 0, none_within);
    lacks |= missing("none where a bit past the last bucket is set over", 0, none_but_unused);
    return lacks;
}

/* the order of a move's numbers (§7.2) */
enum { MOVE_NUMBERS = 5 };
static const unsigned move_order[MOVE_NUMBERS] = {DESK_WRONG_SIZES, DESK_BROKEN_RECORD, DESK_NOT_AT_REST, DESK_BROKEN_BUCKET,
    DESK_CROWDED_BUCKET};

static bool lacks_moves(void) {
    bool lacks = false;
    for (unsigned i = 0; i < MOVE_NUMBERS; i++)
        for (unsigned j = i + 1; j < MOVE_NUMBERS; j++) {
            unsigned long times = before_others[move_order[i]][move_order[j]];
            if (times == 0) printf("never met: a move that %u refuses, where %u would have\n", move_order[i], move_order[j]);
            lacks |= times == 0;
        }
    for (unsigned sizing = 0; sizing < SIZINGS; sizing++) lacks |= missing("a move to a size of kind", sizing, sized[sizing]);
    for (unsigned lots = 0; lots <= SLOTS; lots++) lacks |= missing("a new bucket with so many lots:", lots, new_buckets[lots]);
    lacks |= missing("moves with an untrue index over", 0, mended);
    lacks |= missing("moves from another version over", 0, of_other_versions);
    lacks |= missing("moves refused for the new number of buckets alone over", 0, wrong_buckets);
    lacks |= missing("moves refused for the new board's words alone over", 0, wrong_words);
    lacks |= missing("moves refused for a mark of 2 alone over", 0, inserting);
    for (which w = OPEN; w < CALLS; w++) lacks |= missing("accepted after a move a call of", w, on_moved[w]);
    return lacks;
}

static bool lacks_tickets(void) {
    bool lacks = false;
    for (unsigned rise = 0; rise < RISES; rise++) lacks |= missing("an insert accepted of kind", rise, risen[rise]);
    for (unsigned fall = 0; fall < FALLS; fall++) lacks |= missing("an insert refused for its ticket of kind", fall, fallen[fall]);
    for (unsigned kind = IDLE; kind <= REMOVE; kind++) lacks |= missing("a ticket whose low half is 0 in a record of kind", kind, kept_long[kind]);
    lacks |= missing("turns that store a ticket whose low half is 0 over", 0, stored_long);
    lacks |= missing("turns that answer a ticket whose low half is 0 over", 0, answered_long);
    lacks |= missing("moves after a ticket past 32 bits over", 0, moved_long);
    return lacks;
}

static bool lacks_spares(void) {
    static const which calls[] = {OPEN, START_LOOK, START_INSERT, START_REMOVE, MOVE};
    bool lacks = false;
    for (size_t i = 0; i < sizeof calls / sizeof calls[0]; i++) {
        lacks |= missing("done with a spare that is not 0 a call of", calls[i], spare_done[calls[i]]);
        lacks |= missing("refused with a spare that is not 0 a call of", calls[i], spare_refused[calls[i]]);
    }
    return lacks;
}

bool lacks_something(void) {
    bool lacks = false;
    for (size_t i = 0; i < CALLS; i++)
        for (const unsigned *number = call_refusals[i]; *number != NO_MORE; number++)
            lacks |= missing(call_names[i], *number, met[i][*number]);
    for (unsigned place = 1; place <= LAST_PLACE; place++) lacks |= missing("a turn at place", place, places[place]);
    lacks |= missing("changes in runs over", 0, changes);
    lacks |= missing("lost swaps in runs over", 0, lost);
    lacks |= missing("full rounds in runs over", 0, full);
    lacks |= missing("turns in buckets over", 0, elsewhere[TURN]);
    lacks |= missing("last turns of runs in buckets over", 0, elsewhere[RUN]);
    lacks |= missing("turns that leave another mark word over", 0, changed[TURN]);
    lacks |= missing("last turns of runs that leave another mark word over", 0, changed[RUN]);
    lacks |= missing("turns done in a run that is stopped over", 0, stopped_later);
    for (unsigned busy = 0; busy <= MOST_IN_CLASS; busy++) lacks |= missing("all orders where so many are busy:", busy, classes[busy]);
    lacks |= missing("finished walks over", 0, finished);
    lacks |= missing("cut walks over", 0, cut);
    lacks |= missing("lost swaps in one walk over", 1, lost_more);
    lacks |= lacks_retirings();
    lacks |= lacks_sleepers();
    lacks |= lacks_display();
    lacks |= lacks_moves();
    lacks |= lacks_tickets();
    lacks |= lacks_spares();
    return lacks;
}

void tell_what_was_met(void) {
    printf("runs had %lu changes, %lu lost swaps, %lu full rounds; of all orders %lu were finished and %lu cut, with %lu lost swaps\n",
        changes, lost, full, finished, cut, lost_in_walks);
}

/* ---- of one call */

/* the bucket and its two words are the last three of a report's seven numbers */
static void note_report(which w, const uint64_t *report) {
    elsewhere[w] += report[4] != 0;
    changed[w] += report[5] != report[6];
}

static void note_orders(const hall *h, const answer *a) {
    if (a->number[0] == 0) classes[busy_workers(h)]++;
    finished += a->number[1];
    cut += a->number[2];
    lost_in_walks += a->number[3];
    lost_more += a->number[4] > 1;
}

found find(const hall *h, const call *c) {
    found f = {.worker = {.held = HOLDS_NONE}, .floor = h->floor};
    if (c->worker < h->listed) f.worker = h->records[c->worker];
    size_t bucket = desk_bucket(f.worker.key, h->floor.buckets);
    if (bucket < MOST_BUCKETS) {
        f.bucket = bucket;
        f.word = h->board[BUCKET_WORDS * bucket];
        f.spare = h->board[BUCKET_WORDS * bucket + DESK_AT_SPARE];
    }
    memcpy(f.records, h->records, sizeof f.records);
    memcpy(f.index, h->index, sizeof f.index);
    return f;
}

static bool marks_are_broken(uint64_t word) {
    for (size_t slot = 0; slot < SLOTS; slot++)
        if (desk_mark(word, slot) > DESK_MARK_INSERTING) return true;
    return word >> 56 != 0;
}

/* of one that is done */
static void note_retiring(const found *f) {
    unsigned place = f->worker.place;
    if (f->worker.held == HOLDS_NONE) {
        retired[place]++;
        over_broken += marks_are_broken(f->word) || f->spare != 0;
        return;
    }
    freed[place]++;
    freed_mark[desk_mark(f->word, f->worker.held)]++;
    freed_round += desk_version(f->word) == 0xffffffff;
}

/* whether a record is idle, broken or busy, as a start for it says */
static uint8_t refused_start(desk_worker w) {
    uint64_t bucket[BUCKET_WORDS] = {0};
    desk_floor floor = {.workers = 1, .buckets = 1};
    return by_hand.start_look(bucket, BUCKET_WORDS, &w, 1, floor, 0, 0).refusal;
}

/* ---- of tickets */

static bool only_high_half(uint64_t ticket) {
    return ticket != 0 && ticket % HALF == 0;
}

static void note_rise(uint64_t last, uint64_t ticket) {
    risen[LOWER_LOW_HALF] += ticket % HALF <= last % HALF;
    risen[OUT_OF_32_BITS] += last < HALF && ticket >= HALF;
    risen[OVER_THE_SIGN] += last <= INT64_MAX && ticket > INT64_MAX;
    risen[THE_HIGHEST] += ticket == UINT64_MAX;
    risen[PAST_32_BITS] += last >= HALF;
}

static void note_fall(uint64_t last, uint64_t ticket) {
    fallen[HIGHER_LOW_HALF] += ticket % HALF > last % HALF;
    fallen[UNDER_THE_SIGN] += ticket <= INT64_MAX && last > INT64_MAX;
    fallen[AFTER_THE_HIGHEST] += last == UINT64_MAX;
}

/* of a call for this worker whose record was looked at: an insert has to have a ticket, and nobody else may have one */
static void note_ticket_kept(const desk_worker *w) {
    desk_worker with = *w;
    with.ticket = w->kind == INSERT;
    if (w->kind <= REMOVE && only_high_half(w->ticket)) kept_long[w->kind] += refused_start(with) != DESK_BROKEN_RECORD;
}

static void note_tickets(const call *c, const answer *a, const found *f) {
    uint64_t refusal = a->number[0];
    if (c->which == START_INSERT && refusal == 0) note_rise(f->floor.last, c->ticket);
    if (c->which == START_INSERT && refusal == DESK_SPENT_TICKET) note_fall(f->floor.last, c->ticket);
    if (c->which == MOVE && refusal == 0) moved_long += f->floor.last >= HALF;
    if (c->which != TURN || refusal == DESK_WRONG_SIZES) return;
    note_ticket_kept(&f->worker);
    if (refusal != 0) return;
    stored_long += f->worker.place == 7 && only_high_half(f->worker.ticket);
    answered_long += only_high_half(a->number[REPORT_OF_TURN + 3]);
}

/* only the calls that hand back a floor are asked about */
static void note_spare(which w, uint64_t refusal, uint32_t spare) {
    spare_done[w] += refusal == 0 && spare != 0;
    spare_refused[w] += refusal != 0 && spare != 0;
}

/* of a turn that is done */
static void note_sleepers(const found *f, size_t listed, size_t worker) {
    woke += f->worker.asleep != 0;
    for (size_t i = 0; i < listed; i++) {
        if (i == worker) continue;
        uint8_t refusal = refused_start(f->records[i]);
        idle_beside += refusal == 0;
        broken_beside += refusal == DESK_BROKEN_RECORD;
        slept += refusal == DESK_BUSY_WORKER && f->records[i].asleep != UINT32_MAX;
        slept_most += refusal == DESK_BUSY_WORKER && f->records[i].asleep == UINT32_MAX;
    }
}

static uint64_t valid_in(uint64_t word) {
    uint64_t valid = 0;
    for (size_t slot = 0; slot < SLOTS; slot++) valid += desk_mark(word, slot) == DESK_MARK_VALID;
    return valid;
}

/* whether a bit of these buckets is set, of which the last is left out */
static bool any_lit(const uint64_t *index, size_t from, size_t to) {
    for (size_t bucket = from; bucket < to; bucket++)
        if (index[1 + bucket / IN_WORD] >> bucket % IN_WORD & 1) return true;
    return false;
}

/* what the index has wrong about the bucket that was found, a bit for each thing */
static unsigned wrong_about(const found *f, size_t buckets) {
    uint64_t valid = valid_in(f->word), total = f->index[0];
    bool lit = any_lit(f->index, f->bucket, f->bucket + 1);
    return (unsigned)(lit && valid == 0) << LIT_FOR_NOTHING | (unsigned)(!lit && valid > 0) << DARK |
        (unsigned)(total < valid) << TOTAL_BELOW | (unsigned)(total > SLOTS * buckets - (SLOTS - valid)) << TOTAL_ABOVE;
}

/* of a call that looked at the index and found it true enough; of one bucket the lowest total is the highest */
static void note_true(which w, const found *f, size_t buckets) {
    uint64_t valid = valid_in(f->word);
    lowest[w] += buckets > 1 && f->index[0] == valid;
    highest[w] += buckets > 1 && f->index[0] == SLOTS * buckets - (SLOTS - valid);
    unused[w] += any_lit(f->index, buckets, MOST_BUCKETS);
}

/* of a turn or a retiring whose sizes are right */
static void note_index(which w, const found *f, size_t buckets, uint64_t refusal) {
    unsigned wrong = wrong_about(f, buckets);
    for (unsigned cause = 0; cause < CAUSES; cause++) refuted[w][cause] += refusal == DESK_UNTRUE_INDEX && wrong == 1u << cause;
    outranked[w][refusal % REFUSALS] += wrong != 0;
    if (refusal != 0) return;
    if (w == RETIRE && f->worker.held == HOLDS_NONE) over_untrue += wrong != 0;
    else note_true(w, f, buckets);
}

static void note_following(which w, const uint64_t *before, const uint64_t *after) {
    followed[w][UP] += after[0] > before[0];
    followed[w][DOWN] += after[0] < before[0];
    for (size_t i = 0; i < INDEX_WORDS; i++) {
        followed[w][LIT] += i > 0 && (after[i] & ~before[i]) != 0;
        followed[w][CLEARED] += i > 0 && (before[i] & ~after[i]) != 0;
        followed_in[i] += after[i] != before[i];
    }
}

/* of one that is answered */
static void note_next(size_t from, size_t buckets, const uint64_t *index, const answer *a) {
    bool is_found = a->number[1] != 0;
    size_t bucket = a->number[2];
    if (is_found) {
        words_on[(bucket / IN_WORD - from / IN_WORD) % (INDEX_WORDS - 1)]++;
        passed += any_lit(index, from - from % IN_WORD, from);
        return;
    }
    none_beyond += from >= buckets;
    none_within += from < buckets;
    none_but_unused += from < buckets && any_lit(index, buckets, MOST_BUCKETS);
}

static bool within(size_t number, size_t most) {
    return number >= 1 && number <= most;
}

/* of a call that is refused for its sizes; the questions are given no list */
static void note_lengths(const call *c, const hall *h) {
    size_t workers = c->which == OPEN ? c->plan.workers : h->floor.workers, buckets = c->which == OPEN ? c->plan.buckets : h->floor.buckets;
    if (!within(workers, MOST_WORKERS) || !within(buckets, MOST_BUCKETS) || h->words != BUCKET_WORDS * buckets) return;
    if (c->which != TOTAL && c->which != NEXT && h->listed != workers) return;
    if (c->which == MOVE && !(within(c->buckets, MOST_BUCKETS) && c->words == BUCKET_WORDS * c->buckets)) return;
    too_short[c->which] += h->entries < INDEX_WORDS;
    too_long[c->which] += h->entries > INDEX_WORDS;
}

static void note_display(const call *c, const hall *h, const answer *a, const found *f) {
    uint64_t refusal = a->number[0];
    size_t buckets = h->floor.buckets;
    if (refusal == DESK_WRONG_SIZES) {
        note_lengths(c, h);
        return;
    }
    if (c->which == TURN || c->which == RETIRE) note_index(c->which, f, buckets, refusal);
    if (c->which == TURN || c->which == RETIRE || c->which == RUN) note_following(c->which, f->index, h->index);
    if (c->which == RUN) untrue_later += refusal == DESK_UNTRUE_INDEX && a->number[1] != 0;
    if (c->which == TOTAL) too_great += a->number[1] > SLOTS * buckets;
    if (c->which == NEXT) note_next(c->from, buckets, h->index, a);
}

/* ---- of a move */

static bool any_broken(const uint64_t *board, size_t buckets) {
    for (size_t i = 0; i < buckets; i++)
        if (marks_are_broken(board[BUCKET_WORDS * i]) || board[BUCKET_WORDS * i + DESK_AT_SPARE] != 0) return true;
    return false;
}

static bool any_inserting(const uint64_t *board, size_t buckets) {
    for (size_t i = 0; i < SLOTS * buckets; i++)
        if (desk_mark(board[BUCKET_WORDS * (i / SLOTS)], i % SLOTS) == DESK_MARK_INSERTING) return true;
    return false;
}

/* whether more lots come to a new bucket than it has slots */
static bool any_crowded(const uint64_t *board, size_t buckets, size_t to) {
    size_t lots[MOST_BUCKETS] = {0};
    for (size_t i = 0; i < SLOTS * buckets; i++) {
        const uint64_t *bucket = board + BUCKET_WORDS * (i / SLOTS);
        if (desk_mark(bucket[0], i % SLOTS) == DESK_MARK_VALID && ++lots[desk_key(bucket, i % SLOTS) % to] > SLOTS) return true;
    }
    return false;
}

/* whether a record gives this number to a start, which tells what it is */
static bool any_record_is(const hall *h, uint8_t number) {
    for (size_t i = 0; i < h->listed; i++)
        if (refused_start(h->records[i]) == number) return true;
    return false;
}

/* which numbers would have applied, where the old board's sizes are right and the new N is one that there can be */
static void note_order(const call *c, const hall *h, uint64_t refusal) {
    bool applies[REFUSALS] = {false};
    applies[DESK_BROKEN_RECORD] = any_record_is(h, DESK_BROKEN_RECORD);
    applies[DESK_NOT_AT_REST] = any_record_is(h, DESK_BUSY_WORKER);
    applies[DESK_BROKEN_BUCKET] = any_broken(h->board, h->floor.buckets) || any_inserting(h->board, h->floor.buckets);
    applies[DESK_CROWDED_BUCKET] = any_crowded(h->board, h->floor.buckets, c->buckets);
    for (size_t i = 0; i < REFUSALS; i++) before_others[refusal][i] += applies[i];
    inserting += refusal == DESK_BROKEN_BUCKET && !any_broken(h->board, h->floor.buckets);
}

/* of one that is refused, so that the board is the old one still */
static void note_refused_move(const call *c, const hall *h, uint64_t refusal) {
    const desk_floor *floor = &h->floor;
    bool old_fits = within(floor->workers, MOST_WORKERS) && within(floor->buckets, MOST_BUCKETS) && h->listed == floor->workers &&
        h->words == BUCKET_WORDS * floor->buckets;
    bool fits = within(c->buckets, MOST_BUCKETS), filled = c->words == BUCKET_WORDS * c->buckets;
    if (!old_fits) return;
    if (fits) note_order(c, h, refusal);
    wrong_buckets += !fits && filled && h->entries == INDEX_WORDS;
    wrong_words += fits && !filled && h->entries == INDEX_WORDS;
}

/* of one that is done, so that the second board is the old one */
static void note_done_move(const hall *h, const found *f) {
    uint64_t index[INDEX_WORDS];
    size_t old = f->floor.buckets, new = h->floor.buckets;
    bool other = false;
    sized[new > old ? TO_MORE : new < old ? TO_FEWER : TO_AS_MANY]++;
    read_index(h->second, old, index);
    mended += memcmp(index, f->index, sizeof index) != 0;
    for (size_t i = 0; i < old; i++) other |= desk_version(h->second[BUCKET_WORDS * i]) != f->floor.version;
    of_other_versions += other;
    for (size_t i = 0; i < new; i++) new_buckets[valid_in(h->board[BUCKET_WORDS * i])]++;
}

void note(const call *c, const hall *h, const answer *a, const found *f) {
    unsigned place = f->worker.place;
    met[c->which][a->number[0] % REFUSALS]++;
    on_moved[c->which] += f->moved && a->number[0] == 0;
    note_display(c, h, a, f);
    note_tickets(c, a, f);
    note_spare(c->which, a->number[0], f->floor.spare);
    if (c->which == MOVE && a->number[0] == 0) note_done_move(h, f);
    if (c->which == MOVE && a->number[0] != 0) note_refused_move(c, h, a->number[0] % REFUSALS);
    if (c->which == ORDERS) note_orders(h, a);
    if (c->which == RETIRE && a->number[0] == 0) note_retiring(f);
    if (c->which == TURN) {
        if (a->number[0] == 0 && place <= LAST_PLACE) places[place]++;
        if (a->number[0] == 0) note_sleepers(f, h->listed, c->worker);
        note_report(TURN, a->number + REPORT_OF_TURN);
    }
    if (c->which == RUN) {
        changes += a->number[2];
        lost += a->number[3];
        full += a->number[4];
        stopped_later += a->number[0] != 0 && a->number[1] != 0;
        note_report(RUN, a->number + REPORT_OF_RUN);
    }
}
