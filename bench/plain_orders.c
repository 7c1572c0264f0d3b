/* All orders by hand: recursion over the depth that is left, which tries each busy worker on a copy, with no table of what was met before
   (docs/RULES.md, §18). Turns here leave everybody's `asleep` alone, the worker's own too: no action of a turn and no count of a walk goes by
   it, and the copies are thrown away (§20.3). */
#include "step.h"

enum { MOST_IN_CLASS = 3, MOST_DEPTH = 24 };

/* The words and the records are a value each: the compiler copies either in place, and calls memcpy for as much as both together. */
typedef struct {
    struct { uint64_t word[BUCKET_WORDS]; } bucket;
    struct { desk_worker of[MOST_IN_CLASS]; } records;
} small_class;

/* ---- by value: the class goes in as a copy, and the counts come back */

static bool all_idle(const small_class *c) {
    for (size_t i = 0; i < MOST_IN_CLASS; i++)
        if (c->records.of[i].kind != IDLE) return false;
    return true;
}

static void add_walks(desk_orders_outcome *counts, desk_orders_outcome some) {
    counts->finished += some.finished;
    counts->cut += some.cut;
    counts->lost += some.lost;
    if (counts->most < some.most) counts->most = some.most;
}

/* All orders from here, with so many turns left of the depth and so many swaps lost. Whoever is sound stays so, and the bucket whole, so no
   turn is refused. */
static desk_orders_outcome walks(small_class now, unsigned left, uint64_t lost) {
    if (all_idle(&now)) return (desk_orders_outcome){.finished = 1, .lost = lost, .most = lost};
    if (left == 0) return (desk_orders_outcome){.cut = 1, .lost = lost, .most = lost};
    desk_orders_outcome counts = {.refusal = 0};
    for (size_t i = 0; i < MOST_IN_CLASS; i++) {
        if (now.records.of[i].kind == IDLE) continue;
        small_class next = now;
        desk_report report = act(next.bucket.word, &next.records.of[i]);
        add_walks(&counts, walks(next, left - 1, lost + (report.action == DESK_LOST)));
    }
    return counts;
}

/* ---- tuned: of thirteen forms the fastest here; the class is copied once, a number says how many are busy, the counts stay where they are */

static void end_walk(bool finished, uint64_t lost, desk_orders_outcome *counts) {
    if (finished) counts->finished++;
    else counts->cut++;
    counts->lost += lost;
    if (counts->most < lost) counts->most = lost;
}

/* Gives the worker its turn, on a copy, and walks every order that goes on from there. Before that turn so many are busy, and so many swaps
   were lost; after it so many turns are left of the depth. Whoever is sound stays so, and the bucket whole, so no turn is refused. */
static void walk_tuned(const small_class *from, size_t worker, unsigned busy, unsigned left, uint64_t lost, desk_orders_outcome *counts) {
    small_class now;
    now.bucket = from->bucket;
    now.records = from->records;
    desk_report report = act(now.bucket.word, &now.records.of[worker]);
    busy -= report.ended;
    lost += report.action == DESK_LOST;
    if (busy == 0 || left == 0) {
        end_walk(busy == 0, lost, counts);
        return;
    }
    for (size_t i = 0; i < MOST_IN_CLASS; i++)
        if (now.records.of[i].kind != IDLE) walk_tuned(&now, i, busy, left - 1, lost, counts);
}

/* ---- the call */

static uint8_t refuse_orders(const uint64_t *board, size_t words, const desk_worker *records, size_t listed, const desk_floor *floor,
    size_t depth) {
    if (!hall_fits(words, listed, floor->workers, floor->buckets)) return DESK_WRONG_SIZES;
    if (floor->buckets > 1 || listed > MOST_IN_CLASS || depth - 1 >= MOST_DEPTH) return DESK_NO_SMALL_CLASS;
    for (size_t i = 0; i < listed; i++)
        if (broken_record(&records[i])) return DESK_BROKEN_RECORD;
    return broken_bucket(board) ? DESK_BROKEN_BUCKET : 0;
}

/* somebody idle stands in the places that no record has */
static small_class class_of(const uint64_t *board, const desk_worker *records, size_t listed) {
    small_class c;
    for (size_t i = 0; i < BUCKET_WORDS; i++) c.bucket.word[i] = board[i];
    for (size_t i = 0; i < MOST_IN_CLASS; i++) c.records.of[i] = i < listed ? records[i] : idle_record;
    return c;
}

desk_orders_outcome plain_orders(const uint64_t *board, size_t words, const desk_worker *records, size_t listed, desk_floor floor,
    size_t depth) {
    uint8_t refusal = refuse_orders(board, words, records, listed, &floor, depth);
    if (refusal != 0) return (desk_orders_outcome){.refusal = refusal};
    return walks(class_of(board, records, listed), (unsigned)depth, 0);
}

desk_orders_outcome tuned_orders(const uint64_t *board, size_t words, const desk_worker *records, size_t listed, desk_floor floor,
    size_t depth) {
    desk_orders_outcome counts = {.refusal = refuse_orders(board, words, records, listed, &floor, depth)};
    if (counts.refusal != 0) return counts;
    small_class outset = class_of(board, records, listed);
    unsigned busy = 0;
    for (size_t i = 0; i < listed; i++) busy += records[i].kind != IDLE;
    if (busy == 0) counts.finished = 1;
    for (size_t i = 0; i < listed; i++)
        if (records[i].kind != IDLE) walk_tuned(&outset, i, busy, (unsigned)depth - 1, 0, &counts);
    return counts;
}
