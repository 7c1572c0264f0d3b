#include "chances.h"
#include "reading.h"

/* ---- numbers for a call */

uint64_t one_of(chance *c, const uint64_t *numbers, size_t many) {
    return numbers[below(c, many)];
}

uint32_t some_version(chance *c) {
    return (uint32_t)ONE_OF(c, 0, 1, 0xfffffffe, 0xffffffff, any(c));
}

/* few lots in few buckets, mostly in the first, so that workers meet; lot 0 and lots as large as there are among them */
uint64_t some_lot(chance *c, size_t buckets) {
    if (now_and_then(c, 4)) return ONE_OF(c, UINT64_MAX, any(c));
    size_t n = buckets == 0 || buckets > MOST_BUCKETS ? 1 : buckets;
    return n * below(c, 5) + (now_and_then(c, 80) ? 0 : ONE_OF(c, n - 1, below(c, n)));
}

/* numbers that would be a worker's if they were cut to 32 bits or to 8 are among them */
static size_t wrong_worker(chance *c, size_t workers) {
    return ONE_OF(c, workers, workers + 1, 0x100, 0x100000000, UINT64_MAX);
}

size_t some_worker(chance *c, size_t workers) {
    return now_and_then(c, 3) || workers == 0 ? wrong_worker(c, workers) : below(c, workers);
}

/* the first from a random one on that is idle, or that is not; any where there is none */
size_t worker_who(chance *c, const hall *h, bool idle) {
    size_t from = below(c, h->floor.workers);
    for (size_t i = 0; i < h->floor.workers; i++) {
        size_t worker = (from + i) % h->floor.workers;
        if ((h->records[worker].kind == IDLE) == idle) return worker;
    }
    return from;
}

/* about where the low half of a ticket comes round, where a sign would change, and the highest; and any. Of some the low half is 0. */
uint64_t some_ticket(chance *c) {
    return ONE_OF(c, 1, 2, 0xffffffff, HALF, HALF + 1, HALF << below(c, 32), INT64_MAX, any(c), any(c) >> below(c, 64), UINT64_MAX - below(c, 3));
}

/* Mostly one of the next few. Some are spent, and of these some would not be if both numbers were cut to their low halves; and some leap: to
   just before the low half comes round, to where it is the same or 0, anywhere, or to the highest ones, after which there is none. */
uint64_t next_ticket(chance *c, uint64_t last) {
    if (now_and_then(c, 6)) return ONE_OF(c, last, last - 1, last % HALF + 1, 0);
    if (now_and_then(c, 8)) return ONE_OF(c, last | 0xffffffff, last + HALF, last - last % HALF + HALF, some_ticket(c));
    if (now_and_then(c, 1)) return UINT64_MAX - below(c, 3);
    return last + 1 + below(c, 3);
}

/* Of all orders no more than some four thousand turns are walked, whoever is busy; where more are busy than a small class has, any depth is
   refused. Those that would be a depth if they were cut to 32 bits or to 8 are among the wrong ones. */
size_t some_depth(chance *c, const hall *h) {
    static const size_t deepest[MOST_IN_CLASS + 1] = {MOST_DEPTH, MOST_DEPTH, 11, 7};
    if (now_and_then(c, 8)) return ONE_OF(c, 0, MOST_DEPTH + 1, 0x101, 0x100000001, UINT64_MAX);
    size_t busy = busy_workers(h);
    return 1 + below(c, busy > MOST_IN_CLASS ? MOST_DEPTH : deepest[busy]);
}

/* buckets about the ends of the board and of the index's words; of those past the last some would be a bucket if they were cut to 32 bits
   or to 8 */
size_t some_from(chance *c, size_t buckets) {
    if (now_and_then(c, 20)) return ONE_OF(c, buckets, buckets + 1, MOST_BUCKETS, 0x100000000, UINT64_MAX);
    if (now_and_then(c, 30)) return ONE_OF(c, 0, 63, 64, 127, 128, 191, 192, buckets - 1);
    return below(c, MOST_BUCKETS);
}

/* the first from a random one on that holds a slot; any where there is none */
size_t worker_who_holds(chance *c, const hall *h) {
    size_t from = below(c, h->floor.workers);
    for (size_t i = 0; i < h->floor.workers; i++) {
        size_t worker = (from + i) % h->floor.workers;
        if (h->records[worker].held != HOLDS_NONE) return worker;
    }
    return from;
}

desk_plan some_plan(chance *c) {
    desk_plan plan = {.workers = ONE_OF(c, 1, 2, 2, 3, 3, 4, 8), .buckets = ONE_OF(c, 1, 1, 1, 2, 3, 5), .version = some_version(c)};
    if (now_and_then(c, 3)) plan.workers = MOST_WORKERS;
    if (now_and_then(c, 6)) plan.buckets = ONE_OF(c, 16, 64, 65, 130, 255, MOST_BUCKETS);
    return plan;
}

/* how many the second board is to have; of those that there cannot be some would fit if they were cut to 32 bits or to 8, or eight times of
   them go over 64 bits */
size_t some_buckets(chance *c) {
    if (now_and_then(c, 5)) return ONE_OF(c, 0, MOST_BUCKETS + 1, 0x10000, 0x100000002, 0x2000000000000001, UINT64_MAX);
    if (now_and_then(c, 25)) return ONE_OF(c, 16, 63, 64, 65, 128, 129, 192, 193, 255, MOST_BUCKETS);
    return 1 + below(c, 12);
}

/* mostly eight words for each; and no more than there is room for */
size_t words_for(chance *c, size_t buckets) {
    size_t words = BUCKET_WORDS * buckets;
    if (now_and_then(c, 4)) words += ONE_OF(c, 1, 8, (uint64_t)-1, (uint64_t)-8);
    return words <= ROOM_WORDS ? words : below(c, ROOM_WORDS);
}

/* ---- boards, records and indexes */

void fill_with_anything(chance *c, hall *h) {
    for (size_t i = 0; i < ROOM_WORDS; i++) h->board[i] = any(c);
    for (size_t i = 0; i < ROOM_RECORDS; i++)
        h->records[i] = (desk_worker){
            .kind = 9, .place = 99, .key = any(c), .ticket = any(c), .slot = 9, .word = any(c), .held = 9, .seen = i, .asleep = 9};
    for (size_t i = 0; i < ROOM_INDEX; i++) h->index[i] = any(c);
    for (size_t i = 0; i < ROOM_WORDS; i++) h->second[i] = any(c);
}

uint64_t some_word(chance *c) {
    uint64_t word = some_version(c);
    for (unsigned slot = 0; slot < SLOTS; slot++) word |= below(c, 3) << (32 + 8 * slot);
    return word;
}

uint64_t broken_word(chance *c) {
    return some_word(c) | ONE_OF(c, 3, 4, 0x80, 0xff) << (32 + 8 * below(c, 4));
}

/* few, so that they meet; of some one half is the same, and of some it is 0 */
uint64_t some_value(chance *c) {
    return now_and_then(c, 75) ? below(c, 4) : ONE_OF(c, HALF, HALF + 1, 2 * HALF + 1, UINT64_MAX);
}

void any_bucket(chance *c, uint64_t *bucket, size_t buckets) {
    bucket[0] = now_and_then(c, 4) ? broken_word(c) : some_word(c);
    for (size_t slot = 0; slot < SLOTS; slot++) {
        bucket[1 + slot] = some_lot(c, buckets);
        bucket[4 + slot] = some_value(c);
    }
    bucket[7] = now_and_then(c, 3) ? ONE_OF(c, 1, 0x8000000000000000, any(c)) : 0;
}

static uint8_t held_at(chance *c, unsigned place) {
    if (place == 6) return HOLDS_NONE;
    return (uint8_t)below(c, place < 6 ? HOLDS_NONE + 1 : SLOTS);
}

/* often so near to the highest number that a run comes to it */
uint32_t some_sleep(chance *c) {
    return (uint32_t)ONE_OF(c, 0, 1, 0xffffffff, 0xfffffffe, 0xffffffff - below(c, 12), any(c));
}

/* a record that is not broken; often its word and its seen are what the bucket has, so that swaps win and looks find */
static desk_worker any_record(chance *c, const hall *h) {
    desk_worker w = {.kind = (uint8_t)ONE_OF(c, LOOK, INSERT, INSERT, REMOVE), .key = some_lot(c, h->floor.buckets), .held = HOLDS_NONE};
    const uint64_t *bucket = h->board + BUCKET_WORDS * (w.key % h->floor.buckets);
    w.slot = (uint8_t)below(c, SLOTS);
    w.asleep = some_sleep(c);
    w.seen = now_and_then(c, 60) ? bucket[4 + w.slot] : some_value(c);
    if (w.kind != LOOK) w.word = now_and_then(c, 60) ? bucket[0] : some_word(c);
    if (w.kind == LOOK) w.place = (uint8_t)(2 + below(c, 4));
    if (w.kind == REMOVE) w.place = (uint8_t)ONE_OF(c, 1, 11, 12, 13);
    if (w.kind == INSERT) {
        w.place = (uint8_t)(1 + below(c, 10));
        w.ticket = some_ticket(c);
        if (w.ticket == 0) w.ticket = 1;
        w.held = held_at(c, w.place);
    }
    return w;
}

/* one field as no call leaves it, or by chance as one does */
static void spoil(chance *c, desk_worker *w) {
    switch (below(c, 10)) {
    case 0: w->kind = (uint8_t)ONE_OF(c, 0, 1, 2, 3, 4, 255); break;
    case 1: w->place = (uint8_t)ONE_OF(c, below(c, 16), below(c, 16), 255); break;
    case 2: w->ticket = ONE_OF(c, 0, 1, HALF, some_ticket(c)); break;
    case 3: w->slot = (uint8_t)ONE_OF(c, 3, 255); break;
    case 4: w->word = ONE_OF(c, broken_word(c), some_word(c), 1); break;
    case 5: w->held = (uint8_t)ONE_OF(c, below(c, 5), 255); break;
    case 6: w->seen = below(c, 3); break;
    case 7: w->key = below(c, 2); break;
    case 8: w->asleep = some_sleep(c); break;
    default: *w = (desk_worker){0}; break;
    }
}

/* the total at the ends of what a bucket leaves it, and past them */
static uint64_t some_total(chance *c, const hall *h, size_t bucket) {
    uint64_t valid = 0, slots = SLOTS * h->floor.buckets;
    for (size_t slot = 0; slot < SLOTS; slot++) valid += desk_mark(h->board[BUCKET_WORDS * bucket], slot) == DESK_MARK_VALID;
    uint64_t most = slots - (SLOTS - valid);
    return ONE_OF(c, valid, valid - 1, valid - 1, most, most + 1, most + 1, 0, slots, slots + 1, UINT64_MAX, any(c));
}

static uint64_t bit_of(size_t bucket) {
    return (uint64_t)1 << bucket % IN_WORD;
}

/* one thing as no call leaves it, or by chance as one does: the bit of a lot's bucket, the total, or a bit past the last bucket; or all of
   it */
void spoil_index(chance *c, hall *h) {
    size_t bucket = some_lot(c, h->floor.buckets) % h->floor.buckets, past = h->floor.buckets + below(c, MOST_BUCKETS);
    switch (below(c, 8)) {
    case 0:
    case 1: h->index[1 + bucket / IN_WORD] ^= bit_of(bucket); break;
    case 2:
    case 3:
    case 4: h->index[0] = some_total(c, h, bucket); break;
    case 5:
    case 6:
        if (past < MOST_BUCKETS) h->index[1 + past / IN_WORD] |= bit_of(past);
        break;
    default:
        for (size_t i = 0; i < INDEX_WORDS; i++) h->index[i] = ONE_OF(c, 0, UINT64_MAX, any(c));
        break;
    }
}

void true_index(hall *h) {
    h->entries = INDEX_WORDS;
    read_index(h->board, h->floor.buckets, h->index);
}

void any_hall(chance *c, hall *h) {
    h->floor = (desk_floor){.workers = 1 + below(c, 5), .buckets = ONE_OF(c, 1, 1, 2, 3), .last = ONE_OF(c, 0, 7, some_ticket(c)),
        .version = some_version(c), .spare = (uint32_t)any(c)};
    if (now_and_then(c, 6)) h->floor.buckets = ONE_OF(c, 64, 65, 130, 193, MOST_BUCKETS);
    h->words = BUCKET_WORDS * h->floor.buckets;
    h->listed = h->floor.workers;
    for (size_t i = 0; i < h->floor.buckets; i++) any_bucket(c, h->board + BUCKET_WORDS * i, h->floor.buckets);
    for (size_t i = 0; i < h->listed; i++) {
        h->records[i] = now_and_then(c, 20) ? (desk_worker){.held = HOLDS_NONE} : any_record(c, h);
        if (now_and_then(c, 15)) spoil(c, &h->records[i]);
    }
    true_index(h);
    for (size_t i = INDEX_WORDS; i < ROOM_INDEX; i++) h->index[i] = any(c);
    while (now_and_then(c, 30)) spoil_index(c, h);
    for (size_t i = 0; i < ROOM_WORDS; i++) h->second[i] = any(c);
}

/* a bucket with so many of a hundred slots valid and none that is being inserted; lots are any, so that they scatter over boards of any size */
static void settled_bucket(chance *c, uint64_t *bucket, uint64_t percent) {
    bucket[0] = some_version(c);
    for (size_t slot = 0; slot < SLOTS; slot++) {
        if (now_and_then(c, percent)) bucket[0] |= (uint64_t)DESK_MARK_VALID << (32 + 8 * slot);
        bucket[1 + slot] = ONE_OF(c, any(c), below(c, 1000), 0);
        bucket[4 + slot] = ONE_OF(c, any(c), below(c, 4));
    }
    bucket[7] = 0;
}

/* a board of another size, mostly with few lots, as they would have no room elsewhere */
void bring_to_rest(chance *c, hall *h) {
    uint64_t percent = ONE_OF(c, 0, 1, 4, 20, 60, 100);
    h->floor.buckets = now_and_then(c, 60) ? 1 + below(c, 12) : ONE_OF(c, 63, 64, 65, 128, 193, 255, MOST_BUCKETS);
    h->words = BUCKET_WORDS * h->floor.buckets;
    for (size_t i = 0; i < h->floor.buckets; i++) settled_bucket(c, h->board + BUCKET_WORDS * i, percent);
    for (size_t i = 0; i < h->listed; i++) h->records[i] = (desk_worker){.held = HOLDS_NONE};
    if (now_and_then(c, 50)) true_index(h);
}

/* something that keeps a hall from moving, or by chance not: a record, a mark that is being inserted, or a bucket */
void spoil_rest(chance *c, hall *h) {
    uint64_t *bucket = h->board + BUCKET_WORDS * below(c, h->floor.buckets);
    desk_worker *w = &h->records[below(c, h->listed)];
    switch (below(c, 6)) {
    case 0:
    case 1: *w = any_record(c, h); break;
    case 2: spoil(c, w); break;
    case 3:
    case 4: bucket[0] |= (uint64_t)DESK_MARK_INSERTING << (32 + 8 * below(c, SLOTS)); break;
    default: any_bucket(c, bucket, h->floor.buckets); break;
    }
}

/* one size that is wrong, or by chance two that agree; eight times some of these N go over 64 bits and come to a right size again */
void spoil_sizes(chance *c, hall *h) {
    switch (below(c, 7)) {
    case 0: h->words += ONE_OF(c, 1, 8); break;
    case 1: h->words -= ONE_OF(c, 1, 8); break;
    case 2: h->listed += ONE_OF(c, 1, (uint64_t)-1); break;
    case 3: h->floor.workers = ONE_OF(c, 0, h->listed + 1, h->listed - 1, 65, 0x100000000 + h->listed, UINT64_MAX); break;
    case 4: h->floor.buckets = ONE_OF(c, 0, h->words / 8 + 1, 257, 0x2000000000000000 + h->words / 8, UINT64_MAX); break;
    case 5: h->entries = ONE_OF(c, 0, 1, 4, 6, 0x100000005, UINT64_MAX); break;
    default:
        h->floor.workers = ONE_OF(c, 0, 1, 65);
        h->floor.buckets = ONE_OF(c, 0, 1, 257);
        h->listed = h->floor.workers;
        h->words = BUCKET_WORDS * h->floor.buckets;
        break;
    }
}
