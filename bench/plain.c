/* The engine as somebody would write it in C who has the customers' documents alone: it works on the lent memory itself, tests the sizes
   once for each call, and has one switch over the place. */
#include "step.h"

enum { MOST_TURNS = 65535 };

static size_t bucket_start(uint64_t lot, size_t buckets) {
    return BUCKET_WORDS * (lot % buckets);
}

/* ---- the index (§21): the total, then a bit for each bucket */

enum { INDEX_WORDS = 5, TOTAL = 0, BITS = 1, IN_WORD = 64 };

static bool indexed_fits(size_t words, size_t listed, size_t entries, size_t workers, size_t buckets) {
    return hall_fits(words, listed, workers, buckets) && entries == INDEX_WORDS;
}

static bool display_fits(size_t words, size_t entries, size_t workers, size_t buckets) {
    return board_fits(words, workers, buckets) && entries == INDEX_WORDS;
}

/* The bit does not say what the bucket's marks do, or the total leaves more valid slots to the other buckets than these have slots (§21.5).
   Where it is below the bucket's own, what is left goes round, and is more than that too. */
static bool untrue_index(const uint64_t *index, size_t buckets, size_t number, uint64_t word) {
    uint64_t valid = valid_slots(word);
    bool lit = index[BITS + number / IN_WORD] >> number % IN_WORD & 1;
    return lit != (valid > 0) || index[TOTAL] - valid > SLOTS * (buckets - 1);
}

/* follows a bucket from one mark word to another; most turns leave it */
static void follow(uint64_t *index, size_t number, uint64_t before, uint64_t after) {
    if (before == after) return;
    uint64_t *word = &index[BITS + number / IN_WORD], bit = (uint64_t)1 << number % IN_WORD, valid = valid_slots(after);
    *word = valid > 0 ? *word | bit : *word & ~bit;
    index[TOTAL] += valid - valid_slots(before);
}

/* ---- opening */

static desk_outcome answer_floor(uint8_t refusal, desk_floor floor) {
    return (desk_outcome){.refusal = refusal, .floor = floor};
}

desk_outcome plain_open_floor(uint64_t *board, size_t words, desk_worker *records, size_t listed, uint64_t *index, size_t entries,
    desk_floor floor, desk_plan plan) {
    if (!indexed_fits(words, listed, entries, plan.workers, plan.buckets)) return answer_floor(DESK_WRONG_SIZES, floor);
    for (size_t at = 0; at < words; at += BUCKET_WORDS) {
        board[at + MARKS] = plan.version;
        for (size_t i = KEYS; i < BUCKET_WORDS; i++) board[at + i] = 0;
    }
    for (size_t i = 0; i < listed; i++) records[i] = idle_record;
    for (size_t i = 0; i < INDEX_WORDS; i++) index[i] = 0;
    return answer_floor(0, (desk_floor){.workers = plan.workers, .buckets = plan.buckets, .last = 0, .version = plan.version, .spare = 0});
}

/* ---- starting */

static uint8_t refuse_start(size_t words, const desk_worker *records, size_t listed, const desk_floor *floor, size_t worker) {
    if (!hall_fits(words, listed, floor->workers, floor->buckets)) return DESK_WRONG_SIZES;
    if (worker >= listed) return DESK_NO_WORKER;
    if (idle(&records[worker])) return 0;
    return broken_record(&records[worker]) ? DESK_BROKEN_RECORD : DESK_BUSY_WORKER;
}

desk_outcome plain_start_look(const uint64_t *board, size_t words, desk_worker *records, size_t listed, desk_floor floor,
    size_t worker, uint64_t lot) {
    (void)board;
    uint8_t refusal = refuse_start(words, records, listed, &floor, worker);
    if (refusal == 0) records[worker] = (desk_worker){.kind = LOOK, .place = 2, .key = lot, .held = HOLDS_NONE};
    return answer_floor(refusal, floor);
}

desk_outcome plain_start_insert(const uint64_t *board, size_t words, desk_worker *records, size_t listed, desk_floor floor,
    size_t worker, desk_bid bid) {
    (void)board;
    uint8_t refusal = refuse_start(words, records, listed, &floor, worker);
    if (refusal == 0 && bid.ticket <= floor.last) refusal = DESK_SPENT_TICKET;
    if (refusal == 0) {
        records[worker] = (desk_worker){.kind = INSERT, .place = 1, .key = bid.lot, .ticket = bid.ticket, .held = HOLDS_NONE};
        floor.last = bid.ticket;
    }
    return answer_floor(refusal, floor);
}

desk_outcome plain_start_remove(const uint64_t *board, size_t words, desk_worker *records, size_t listed, desk_floor floor,
    size_t worker, uint64_t lot) {
    (void)board;
    uint8_t refusal = refuse_start(words, records, listed, &floor, worker);
    if (refusal == 0) records[worker] = (desk_worker){.kind = REMOVE, .place = 1, .key = lot, .held = HOLDS_NONE};
    return answer_floor(refusal, floor);
}

/* ---- one turn */

/* The sizes are right; answers the refusal, or 0. A refused turn leaves *report alone, so a run that lends one place keeps the last. */
static uint8_t give_turn(uint64_t *board, desk_worker *records, uint64_t *index, const desk_floor *floor, size_t worker,
    desk_report *report) {
    size_t number;
    uint8_t refusal = refuse_turn(board, records, floor, worker, &number);
    if (refusal != 0) return refusal;
    if (untrue_index(index, floor->buckets, number, board[BUCKET_WORDS * number + MARKS])) return DESK_UNTRUE_INDEX;
    *report = do_turn(board, records, worker, number);
    follow(index, number, report->before, report->after);
    let_sleep(records, floor->workers, worker);
    return 0;
}

desk_turn_outcome plain_turn(uint64_t *board, size_t words, desk_worker *records, size_t listed, uint64_t *index, size_t entries,
    desk_floor floor, size_t worker) {
    desk_turn_outcome turn = {.refusal = DESK_WRONG_SIZES};
    if (indexed_fits(words, listed, entries, floor.workers, floor.buckets))
        turn.refusal = give_turn(board, records, index, &floor, worker, &turn.report);
    return turn;
}

/* ---- a run of turns */

/* a store that ends a call is place 10's */
static bool is_change(const desk_report *report) {
    return report->action == DESK_WON || (report->action == DESK_STORE && report->ended);
}

static void add_up(desk_totals *totals, const desk_report *report) {
    totals->turns++;
    totals->changes += is_change(report);
    totals->lost += report->action == DESK_LOST;
    totals->full += report->full;
}

desk_run_outcome plain_run(uint64_t *board, size_t words, desk_worker *records, size_t listed, uint64_t *index, size_t entries,
    desk_floor floor, const uint8_t *turns, size_t count) {
    desk_run_outcome run = {.last = {.action = DESK_READ}};
    if (!indexed_fits(words, listed, entries, floor.workers, floor.buckets)) run.stop = DESK_WRONG_SIZES;
    else if (count > MOST_TURNS) run.stop = DESK_TOO_LONG;
    for (size_t i = 0; i < count && run.stop == 0; i++) {
        run.stop = give_turn(board, records, index, &floor, turns[i], &run.last);
        if (run.stop == 0) add_up(&run.totals, &run.last);
    }
    return run;
}

/* ---- retiring */

/* the mark goes and the version counts on in one store; where nothing is held neither bucket nor index is even looked at */
uint8_t plain_retire(uint64_t *board, size_t words, desk_worker *records, size_t listed, uint64_t *index, size_t entries, desk_floor floor,
    size_t worker) {
    if (!indexed_fits(words, listed, entries, floor.workers, floor.buckets)) return DESK_WRONG_SIZES;
    if (worker >= listed) return DESK_NO_WORKER;
    desk_worker *w = &records[worker];
    if (broken_record(w)) return DESK_BROKEN_RECORD;
    if (w->kind == IDLE) return DESK_IDLE_WORKER;
    if (w->held != HOLDS_NONE) {
        size_t number = w->key % floor.buckets;
        uint64_t *bucket = board + BUCKET_WORDS * number, before = bucket[MARKS];
        if (broken_bucket(bucket)) return DESK_BROKEN_BUCKET;
        if (untrue_index(index, floor.buckets, number, before)) return DESK_UNTRUE_INDEX;
        bucket[MARKS] = with_next_version(with_mark(before, w->held, EMPTY));
        follow(index, number, before, bucket[MARKS]);
    }
    *w = idle_record;
    return 0;
}

/* ---- moving (§22) */

/* for each new bucket how many lots come there, and where on the old board these stand; a place that no lot comes to is never read */
typedef struct {
    uint8_t lots[MOST_BUCKETS];
    uint16_t from[SLOTS * MOST_BUCKETS];
} seating;

/* the marks of a bucket whose first so many slots are valid */
static const uint64_t first_valid[SLOTS + 1] = {0, 0x0000000100000000, 0x0000010100000000, 0x0001010100000000};

/* somebody is broken, or else at a call; or 0 */
static uint8_t refuse_records(const desk_worker *records, size_t listed) {
    uint8_t refusal = 0;
    for (size_t i = 0; i < listed; i++) {
        if (idle(&records[i])) continue;
        if (broken_record(&records[i])) return DESK_BROKEN_RECORD;
        refusal = DESK_NOT_AT_REST;
    }
    return refusal;
}

/* a mark that is neither empty nor valid has a bit above the lowest */
static bool unsettled(const uint64_t *bucket) {
    return (bucket[MARKS] & 0xfffefefe00000000) != 0 || bucket[SPARE] != 0;
}

/* Finds every lot its slot with nothing written, as a later bucket can still refuse the move; answers the refusal, or 0. An old bucket that is
   not settled comes before a new one that is crowded, so that all are gone over. */
static uint8_t seat_lots(const uint64_t *old, size_t had, size_t buckets, seating *s) {
    bool crowded = false;
    for (size_t i = 0; i < buckets; i++) s->lots[i] = 0;
    for (size_t at = 0; at < had; at += BUCKET_WORDS) {
        if (unsettled(old + at)) return DESK_BROKEN_BUCKET;
        for (uint64_t marks = old[at + MARKS] >> mark_shift(0), from = at + KEYS; marks != 0; marks >>= 8, from++) {
            if ((marks & 0xff) == EMPTY) continue;
            size_t to = old[from] % buckets;
            if (s->lots[to] == SLOTS) crowded = true;
            else s->from[SLOTS * to + s->lots[to]++] = (uint16_t)from;
        }
    }
    return crowded ? DESK_CROWDED_BUCKET : 0;
}

/* so many lots, whose places on the old board begin at `from` */
static void lay_bucket(const uint64_t *old, uint64_t *bucket, uint32_t version, unsigned lots, const uint16_t *from) {
    bucket[MARKS] = first_valid[lots] | version;
    for (size_t i = KEYS; i < BUCKET_WORDS; i++) bucket[i] = 0;
    for (unsigned slot = 0; slot < lots; slot++) {
        bucket[KEYS + slot] = old[from[slot]];
        bucket[VALUES + slot] = old[from[slot] + SLOTS];
    }
}

/* every bucket, and the index along with it: for each of its words the buckets whose bits are there */
static void lay_lots(const uint64_t *old, uint64_t *board, uint64_t *index, const desk_floor *floor, const seating *s) {
    uint64_t total = 0;
    for (size_t word = 0, number = 0; word < INDEX_WORDS - BITS; word++) {
        uint64_t bits = 0;
        for (size_t end = IN_WORD * (word + 1); number < end && number < floor->buckets; number++) {
            unsigned lots = s->lots[number];
            lay_bucket(old, board + BUCKET_WORDS * number, floor->version, lots, s->from + SLOTS * number);
            bits |= (uint64_t)(lots > 0) << number % IN_WORD;
            total += lots;
        }
        index[BITS + word] = bits;
    }
    index[TOTAL] = total;
}

desk_outcome plain_move(const uint64_t *old, size_t had, uint64_t *board, size_t words, const desk_worker *records, size_t listed,
    uint64_t *index, size_t entries, desk_floor floor, size_t buckets) {
    if (!indexed_fits(had, listed, entries, floor.workers, floor.buckets) || !board_fits(words, floor.workers, buckets))
        return answer_floor(DESK_WRONG_SIZES, floor);
    seating s;
    uint8_t refusal = refuse_records(records, listed);
    if (refusal == 0) refusal = seat_lots(old, had, buckets, &s);
    if (refusal != 0) return answer_floor(refusal, floor);
    floor.buckets = buckets;
    lay_lots(old, board, index, &floor, &s);
    return answer_floor(0, floor);
}

/* ---- showing and counting */

uint8_t plain_show_refusal(const uint64_t *board, size_t words, desk_floor floor, uint64_t lot) {
    if (!board_fits(words, floor.workers, floor.buckets)) return DESK_WRONG_SIZES;
    return broken_bucket(board + bucket_start(lot, floor.buckets)) ? DESK_BROKEN_BUCKET : 0;
}

desk_part plain_show(const uint64_t *board, size_t words, desk_floor floor, uint64_t lot) {
    desk_part nothing = {.start = 0, .words = 0};
    if (!board_fits(words, floor.workers, floor.buckets)) return nothing;
    size_t start = bucket_start(lot, floor.buckets);
    return broken_bucket(board + start) ? nothing : (desk_part){.start = start, .words = BUCKET_WORDS};
}

desk_count_outcome plain_count(const uint64_t *board, size_t words, desk_floor floor) {
    if (!board_fits(words, floor.workers, floor.buckets)) return (desk_count_outcome){.refusal = DESK_WRONG_SIZES};
    size_t lots = 0;
    for (size_t at = 0; at < words; at += BUCKET_WORDS) {
        if (broken_bucket(board + at)) return (desk_count_outcome){.refusal = DESK_BROKEN_BUCKET};
        for (unsigned slot = 0; slot < SLOTS; slot++) lots += mark(board[at + MARKS], slot) == VALID;
    }
    return (desk_count_outcome){.refusal = 0, .lots = lots};
}

/* ---- the display's questions */

desk_total_outcome plain_total(const uint64_t *board, size_t words, const uint64_t *index, size_t entries, desk_floor floor) {
    (void)board;
    if (!display_fits(words, entries, floor.workers, floor.buckets)) return (desk_total_outcome){.refusal = DESK_WRONG_SIZES};
    return (desk_total_outcome){.total = index[TOTAL]};
}

/* The first bit from there on is the answer, or is past the last bucket, as then all others are. */
desk_next_outcome plain_next_occupied(const uint64_t *board, size_t words, const uint64_t *index, size_t entries, desk_floor floor,
    size_t from) {
    (void)board;
    desk_next_outcome none = {.found = false};
    if (!display_fits(words, entries, floor.workers, floor.buckets)) return (desk_next_outcome){.refusal = DESK_WRONG_SIZES};
    if (from >= floor.buckets) return none;
    size_t at = BITS + from / IN_WORD;
    uint64_t left = index[at] & UINT64_MAX << from % IN_WORD;
    while (left == 0) {
        if (++at == INDEX_WORDS) return none;
        left = index[at];
    }
    size_t bucket = IN_WORD * (at - BITS) + (size_t)__builtin_ctzll(left);
    return bucket < floor.buckets ? (desk_next_outcome){.bucket = bucket, .found = true} : none;
}
