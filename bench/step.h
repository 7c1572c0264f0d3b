/* One turn by hand, and what is asked before it: the mark word, the records, the sizes, and one switch over the place. Whatever gives turns
   compiles its own, so that the switch is built into it: plain.c, plain_orders.c and sheet.c. Of the index only plain.c knows: the others
   have no display. */
#ifndef STEP_H
#define STEP_H

#include "plain.h"

enum { MOST_WORKERS = 64, MOST_BUCKETS = 256 };

/* a bucket: where its mark word, its keys, its values and its spare word stand */
enum { SLOTS = 3, MARKS = 0, KEYS = 1, VALUES = 4, SPARE = 7, BUCKET_WORDS = 8 };

/* the marks of a slot */
enum { EMPTY = 0, VALID = 1, INSERTING = 2 };

/* the kinds of a record, and held where a worker holds no slot */
enum { IDLE = 0, LOOK = 1, INSERT = 2, REMOVE = 3, HOLDS_NONE = 3 };

static const desk_worker idle_record = {.held = HOLDS_NONE};

/* ---- the mark word */

static unsigned mark_shift(unsigned slot) {
    return 32 + 8 * slot;
}

static unsigned mark(uint64_t word, unsigned slot) {
    return word >> mark_shift(slot) & 0xff;
}

static uint64_t with_mark(uint64_t word, unsigned slot, uint64_t to) {
    return (word & ~((uint64_t)0xff << mark_shift(slot))) | to << mark_shift(slot);
}

static uint64_t with_next_version(uint64_t word) {
    return (word & 0xffffffff00000000) | (uint32_t)(word + 1);
}

/* a mark over 2 has a bit above the lowest two, or both of these; byte 7 has no bit at all */
static bool broken_word(uint64_t word) {
    uint64_t above = word & 0xfffcfcfc00000000;
    uint64_t both = word & word >> 1 & 0x0001010100000000;
    return (above | both) != 0;
}

static unsigned first_empty(uint64_t word) {
    unsigned slot = 0;
    while (slot < SLOTS && mark(word, slot) != EMPTY) slot++;
    return slot;
}

/* of a word that is not broken: a valid mark has the lowest bit, and no other mark has it */
static inline uint64_t valid_slots(uint64_t word) {
    return (word >> 32 & 1) + (word >> 40 & 1) + (word >> 48 & 1);
}

static bool broken_bucket(const uint64_t *bucket) {
    return broken_word(bucket[MARKS]) || bucket[SPARE] != 0;
}

/* ---- the records */

static bool idle(const desk_worker *w) {
    return w->kind == IDLE && w->place == 0 && w->key == 0 && w->ticket == 0 && w->slot == 0 && w->word == 0 &&
        w->held == HOLDS_NONE && w->seen == 0 && w->asleep == 0;
}

static bool held_fits(unsigned place, unsigned held) {
    if (place == 6) return held == HOLDS_NONE;
    return place < 6 ? held <= HOLDS_NONE : held < SLOTS;
}

static bool broken_record(const desk_worker *w) {
    if (w->slot >= SLOTS) return true;
    switch (w->kind) {
    case IDLE:
        return !idle(w);
    case LOOK:
        return w->place < 2 || w->place > 5 || w->ticket != 0 || w->held != HOLDS_NONE || w->word != 0;
    case INSERT:
        return w->place < 1 || w->place > 10 || w->ticket == 0 || !held_fits(w->place, w->held) || broken_word(w->word);
    case REMOVE:
        return (w->place != 1 && (w->place < 11 || w->place > 13)) || w->ticket != 0 || w->held != HOLDS_NONE || broken_word(w->word);
    default:
        return true;
    }
}

/* ---- the sizes */

/* N is tested before it is multiplied, so that no product goes over */
static bool board_fits(size_t words, size_t workers, size_t buckets) {
    return workers - 1 < MOST_WORKERS && buckets - 1 < MOST_BUCKETS && words == BUCKET_WORDS * buckets;
}

static bool hall_fits(size_t words, size_t listed, size_t workers, size_t buckets) {
    return board_fits(words, workers, buckets) && listed == workers;
}

/* ---- one turn */

/* what is reported of the bucket is taken in the same way at every place, so do_turn puts it in */
static desk_report goes_on(desk_worker *w, uint8_t action, uint8_t place) {
    w->place = place;
    return (desk_report){.action = action};
}

static desk_report ends(desk_worker *w, uint8_t action, uint64_t answer) {
    *w = idle_record;
    return (desk_report){.action = action, .ended = true, .answer = answer};
}

/* a look call answers; an insert takes a slot, or commits the one it holds, or goes round once more where none is empty */
static desk_report look_is_empty(desk_worker *w) {
    if (w->kind == LOOK) return ends(w, DESK_READ, 0);
    if (w->held != HOLDS_NONE) return goes_on(w, DESK_READ, 9);
    unsigned slot = first_empty(w->word);
    if (slot < SLOTS) {
        w->slot = (uint8_t)slot;
        return goes_on(w, DESK_READ, 6);
    }
    w->slot = 0;
    w->place = 1;
    return (desk_report){.action = DESK_READ, .full = true};
}

static desk_report look_finds(desk_worker *w) {
    if (w->kind == LOOK) return ends(w, DESK_READ, w->seen);
    return w->held == HOLDS_NONE ? ends(w, DESK_READ, 0) : goes_on(w, DESK_READ, 10);
}

static desk_report look_on(desk_worker *w) {
    if (w->slot == SLOTS - 1) return look_is_empty(w);
    w->slot++;
    return goes_on(w, DESK_READ, 2);
}

static desk_report remove_on(desk_worker *w) {
    if (w->slot == SLOTS - 1) return ends(w, DESK_READ, 0);
    w->slot++;
    return goes_on(w, DESK_READ, 11);
}

/* The record is busy and not broken, and the bucket is not broken. That the worker wakes (§20.2) is left to whoever lets the others sleep. */
static desk_report act(uint64_t *bucket, desk_worker *w) {
    switch (w->place) {
    case 1:
        w->word = bucket[MARKS];
        w->slot = 0;
        return goes_on(w, DESK_READ, w->kind == INSERT ? 2 : 11);
    case 2:
        w->seen = bucket[VALUES + w->slot];
        return goes_on(w, DESK_READ, 3);
    case 3:
        return mark(bucket[MARKS], w->slot) == VALID ? goes_on(w, DESK_READ, 4) : look_on(w);
    case 4:
        return bucket[KEYS + w->slot] == w->key ? goes_on(w, DESK_READ, 5) : look_on(w);
    case 5:
        return w->seen != 0 && bucket[VALUES + w->slot] == w->seen ? look_finds(w) : look_is_empty(w);
    case 6:
        if (bucket[MARKS] != w->word) return goes_on(w, DESK_LOST, 1);
        w->word = with_mark(w->word, w->slot, INSERTING);
        bucket[MARKS] = w->word;
        w->held = w->slot;
        return goes_on(w, DESK_WON, 7);
    case 7:
        bucket[VALUES + w->held] = w->ticket;
        return goes_on(w, DESK_STORE, 8);
    case 8:
        bucket[KEYS + w->held] = w->key;
        return goes_on(w, DESK_STORE, 9);
    case 9:
        if (bucket[MARKS] != with_mark(w->word, w->held, INSERTING)) return goes_on(w, DESK_LOST, 1);
        bucket[MARKS] = with_next_version(with_mark(w->word, w->held, VALID));
        return ends(w, DESK_WON, 1);
    case 10:
        bucket[MARKS] = with_mark(bucket[MARKS], w->held, EMPTY);
        return ends(w, DESK_STORE, 0);
    case 11:
        if (bucket[KEYS + w->slot] != w->key || mark(w->word, w->slot) != VALID) return remove_on(w);
        return goes_on(w, DESK_READ, 12);
    case 12:
        w->seen = bucket[VALUES + w->slot];
        return goes_on(w, DESK_READ, 13);
    default: /* 13: a record that is not broken has no other place */
        if (bucket[MARKS] != w->word) return goes_on(w, DESK_LOST, 1);
        bucket[MARKS] = with_mark(w->word, w->slot, EMPTY);
        return ends(w, DESK_WON, w->seen);
    }
}

/* ---- a turn on the board, for one worker of the list */

/* The sizes are right; answers the refusal, or 0, and then *number is that of the bucket of the worker's lot. */
static inline uint8_t refuse_turn(const uint64_t *board, const desk_worker *records, const desk_floor *floor, size_t worker,
    size_t *number) {
    if (worker >= floor->workers) return DESK_NO_WORKER;
    const desk_worker *w = &records[worker];
    if (broken_record(w)) return DESK_BROKEN_RECORD;
    if (w->kind == IDLE) return DESK_IDLE_WORKER;
    *number = w->key % floor->buckets;
    return broken_bucket(board + BUCKET_WORDS * *number) ? DESK_BROKEN_BUCKET : 0;
}

/* Nothing refuses it, and the bucket has this number. Afterwards the others sleep through it. */
static inline desk_report do_turn(uint64_t *board, desk_worker *records, size_t worker, size_t number) {
    uint64_t *bucket = board + BUCKET_WORDS * number, before = bucket[MARKS];
    records[worker].asleep = 0;
    desk_report done = act(bucket, &records[worker]);
    done.bucket = number;
    done.before = before;
    done.after = bucket[MARKS];
    return done;
}

/* The others who are busy sleep through a turn (§20.2): their number counts on in place. An idle record is passed over at a glance. */
static inline void let_sleep(desk_worker *records, size_t listed, size_t worker) {
    for (size_t i = 0; i < listed; i++) {
        desk_worker *w = &records[i];
        if (w->kind != IDLE && i != worker && w->asleep != UINT32_MAX && !broken_record(w)) w->asleep++;
    }
}

#endif
