#include "hall.h"

hall one, two, before;
static hall singly, unwalked, unretired, unmoved, expected;
static desk_worker stood[ROOM_FOR_WORKERS];
static uint64_t displayed[ROOM_FOR_ENTRIES];
uint8_t many[ROOM_FOR_TURNS];
const desk_report refused_report = {.action = DESK_NONE}, no_turn = {.action = DESK_READ};

bool same_report(desk_report a, desk_report b) {
    return a.answer == b.answer && a.before == b.before && a.after == b.after && a.bucket == b.bucket && a.action == b.action &&
           a.ended == b.ended && a.full == b.full;
}

bool same_record(const desk_worker *a, const desk_worker *b) {
    return a->key == b->key && a->word == b->word && a->seen == b->seen && a->ticket == b->ticket && a->asleep == b->asleep &&
           a->kind == b->kind && a->place == b->place && a->slot == b->slot && a->held == b->held;
}

bool same_floor(desk_floor a, desk_floor b) {
    return a.workers == b.workers && a.buckets == b.buckets && a.last == b.last && a.version == b.version && a.spare == b.spare;
}

static bool same_index(const uint64_t *a, const uint64_t *b) {
    for (size_t i = 0; i < ROOM_FOR_ENTRIES; i++)
        if (a[i] != b[i]) return false;
    return true;
}

/* every word, every record and every entry, also those past what is lent */
bool same_hall(const hall *a, const hall *b) {
    for (size_t i = 0; i < ROOM_FOR_WORDS; i++)
        if (a->board[i] != b->board[i]) return false;
    for (size_t i = 0; i < ROOM_FOR_WORKERS; i++)
        if (!same_record(&a->records[i], &b->records[i])) return false;
    return same_index(a->index, b->index) && same_floor(a->floor, b->floor);
}

size_t below(size_t bound) {
    static uint64_t state = 1;
    uint64_t z = state += 0x9e3779b97f4a7c15u;
    z = (z ^ z >> 30) * 0xbf58476d1ce4e5b9u;
    z = (z ^ z >> 27) * 0x94d049bb133111ebu;
    return (z ^ z >> 31) % bound;
}

void copy_hall(hall *to, const hall *from) {
    for (size_t i = 0; i < sizeof(hall); i++) ((uint8_t *)to)[i] = ((const uint8_t *)from)[i];
}

void fill(hall *h) {
    for (size_t i = 0; i < ROOM_FOR_WORDS; i++) h->board[i] = 0x5555555555555555u + i;
    for (size_t i = 0; i < ROOM_FOR_WORKERS; i++)
        h->records[i] = (desk_worker){
            .key = i, .word = 9, .seen = 9, .ticket = 0x0900000009u, .asleep = 9, .kind = 9, .place = 9, .slot = 9, .held = 9};
    for (size_t i = 0; i < ROOM_FOR_ENTRIES; i++) h->index[i] = 0x3333333333333333u + i;
    h->floor = (desk_floor){.workers = 3, .buckets = 5, .last = 0x7700000077u, .version = 88, .spare = 99};
}

void opened(hall *h, size_t workers, size_t buckets, uint32_t version) {
    fill(h);
    h->words = DESK_BUCKET_WORDS * buckets;
    h->listed = workers;
    h->entries = DESK_INDEX_WORDS;
    CHECK(open_hall(h, workers, buckets, version) == DESK_DONE);
    h->floor.spare = 0x9ABCDEF0u;
}

/* keeps the floor that came back, which has to be this one if the call is done, and else the one that was given */
static uint8_t kept(hall *h, desk_outcome o, desk_floor done) {
    CHECK(same_floor(o.floor, o.refusal == DESK_DONE ? done : h->floor));
    h->floor = o.floor;
    return o.refusal;
}

uint8_t open_hall(hall *h, size_t workers, size_t buckets, uint32_t version) {
    desk_plan plan = {.workers = workers, .buckets = buckets, .version = version};
    desk_floor done = {.workers = workers, .buckets = buckets, .last = 0, .version = version, .spare = 0};
    return kept(h, desk_open_floor(h->board, h->words, h->records, h->listed, h->index, h->entries, h->floor, plan), done);
}

uint8_t start_look(hall *h, size_t worker, uint64_t lot) {
    return kept(h, desk_start_look(h->board, h->words, h->records, h->listed, h->floor, worker, lot), h->floor);
}

uint8_t start_insert(hall *h, size_t worker, uint64_t lot, uint64_t ticket) {
    desk_bid bid = {.lot = lot, .ticket = ticket};
    desk_floor done = h->floor;
    done.last = ticket;
    return kept(h, desk_start_insert(h->board, h->words, h->records, h->listed, h->floor, worker, bid), done);
}

uint8_t start_remove(hall *h, size_t worker, uint64_t lot) {
    return kept(h, desk_start_remove(h->board, h->words, h->records, h->listed, h->floor, worker, lot), h->floor);
}

/* 0 for a bucket that is past the room, as the sizes that are refused can lead to one */
static uint64_t mark_word(const hall *h, size_t bucket) {
    return bucket < ROOM_FOR_BUCKETS ? h->board[DESK_BUCKET_WORDS * bucket + DESK_AT_MARK] : 0;
}

size_t valid_slots(uint64_t word) {
    size_t valid = 0;
    for (size_t i = 0; i < DESK_SLOTS; i++) valid += desk_mark(word, i) == DESK_MARK_VALID;
    return valid;
}

/* §21.1: which bit of which word is a bucket's */
static void put_bit(uint64_t *index, size_t bucket, bool set) {
    uint64_t bit = 1ull << bucket % 64, *word = &index[1 + bucket / 64];
    *word = set ? *word | bit : *word & ~bit;
}

/* the index that is true of a board, which has all its buckets read for it */
static void full_reading(const hall *h, uint64_t *index) {
    for (size_t i = 0; i < DESK_INDEX_WORDS; i++) index[i] = 0;
    for (size_t i = 0; i < h->floor.buckets; i++) {
        size_t valid = valid_slots(mark_word(h, i));
        index[0] += valid;
        put_bit(index, i, valid > 0);
    }
}

void read_anew(hall *h) { full_reading(h, h->index); }

bool is_true(const hall *h) {
    uint64_t read[DESK_INDEX_WORDS];
    full_reading(h, read);
    for (size_t i = 0; i < DESK_INDEX_WORDS; i++)
        if (h->index[i] != read[i]) return false;
    return true;
}

/* §21.2: what an index becomes when the mark word of a bucket becomes another */
static void follow(uint64_t *index, size_t bucket, uint64_t word, uint64_t after) {
    index[0] = index[0] - valid_slots(word) + valid_slots(after);
    put_bit(index, bucket, valid_slots(after) > 0);
}

bool is_busy(desk_worker w) {
    uint64_t bucket[DESK_BUCKET_WORDS] = {0};
    desk_floor floor = {.workers = 1, .buckets = 1};
    return desk_start_look(bucket, DESK_BUCKET_WORDS, &w, 1, floor, 0, 0).refusal == DESK_BUSY_WORKER;
}

/* §20.2: what another's turn leaves of a record */
static desk_worker slept(desk_worker w) {
    if (is_busy(w) && w.asleep < UINT32_MAX) w.asleep++;
    return w;
}

/* whether a turn that is done has left the others as it has to, and whatever stands past what is lent */
static bool others_slept(const hall *h, size_t worker) {
    for (size_t i = 0; i < ROOM_FOR_WORKERS; i++) {
        desk_worker expected = i < h->listed ? slept(stood[i]) : stood[i];
        if (i != worker && !same_record(&h->records[i], &expected)) return false;
    }
    return true;
}

static bool nobody_slept(const hall *h) {
    for (size_t i = 0; i < ROOM_FOR_WORKERS; i++)
        if (!same_record(&h->records[i], &stood[i])) return false;
    return true;
}

desk_turn_outcome turn(hall *h, size_t worker) {
    size_t bucket = worker < h->listed ? desk_bucket(h->records[worker].key, h->floor.buckets) : 0;
    uint64_t word = mark_word(h, bucket);
    for (size_t i = 0; i < ROOM_FOR_WORKERS; i++) stood[i] = h->records[i];
    for (size_t i = 0; i < ROOM_FOR_ENTRIES; i++) displayed[i] = h->index[i];
    desk_turn_outcome t = desk_turn(h->board, h->words, h->records, h->listed, h->index, h->entries, h->floor, worker);
    if (t.refusal == DESK_DONE) {
        CHECK(t.report.bucket == bucket);
        CHECK(t.report.before == word && t.report.after == mark_word(h, bucket));
        CHECK(h->records[worker].asleep == 0 && others_slept(h, worker));
        follow(displayed, bucket, word, mark_word(h, bucket));
    } else {
        CHECK(nobody_slept(h));
    }
    CHECK(same_index(h->index, displayed));
    return t;
}

desk_run_outcome run(hall *h, const uint8_t *turns, size_t count) {
    copy_hall(&singly, h);
    desk_run_outcome r = desk_run(h->board, h->words, h->records, h->listed, h->index, h->entries, h->floor, turns, count);
    desk_report last = no_turn;
    hall *s = &singly;
    for (size_t i = 0; i < count && i < r.totals.turns; i++)
        last = desk_turn(s->board, s->words, s->records, s->listed, s->index, s->entries, s->floor, turns[i]).report;
    CHECK(same_report(r.last, last));
    CHECK(same_hall(h, &singly));
    return r;
}

bool counts(desk_run_outcome r, uint32_t turns, uint32_t changes, uint32_t lost, uint32_t full, uint8_t stop) {
    return r.totals.turns == turns && r.totals.changes == changes && r.totals.lost == lost && r.totals.full == full && r.stop == stop;
}

/* a mark word without the mark of a slot, and of the next version */
static uint64_t without_mark(uint64_t word, size_t slot) {
    uint64_t marks = 0;
    for (size_t i = 0; i < DESK_SLOTS; i++)
        if (i != slot) marks |= (uint64_t)desk_mark(word, i) << (32 + 8 * i);
    return marks | (uint32_t)(desk_version(word) + 1);
}

/* what a retiring that is done has to make of a hall */
static void expect_retired(hall *h, size_t worker) {
    desk_worker *w = &h->records[worker];
    if (w->held != DESK_NO_SLOT) {
        size_t bucket = desk_bucket(w->key, h->floor.buckets);
        uint64_t *word = &h->board[DESK_BUCKET_WORDS * bucket + DESK_AT_MARK], after = without_mark(*word, w->held);
        follow(h->index, bucket, *word, after);
        *word = after;
    }
    *w = desk_idle_record();
}

uint8_t retire(hall *h, size_t worker) {
    copy_hall(&unretired, h);
    uint8_t refusal = desk_retire(h->board, h->words, h->records, h->listed, h->index, h->entries, h->floor, worker);
    if (refusal == DESK_DONE) expect_retired(&unretired, worker);
    CHECK(same_hall(h, &unretired));
    return refusal;
}

desk_orders_outcome orders(const hall *h, size_t depth) {
    copy_hall(&unwalked, h);
    desk_orders_outcome o = desk_orders(h->board, h->words, h->records, h->listed, h->floor, depth);
    CHECK(same_hall(h, &unwalked));
    return o;
}

/* ---- a move: the second board is lent out of the middle of this room */

enum { FENCE = 8 };
static uint64_t fenced[FENCE + ROOM_FOR_WORDS + FENCE], *const lent = fenced + FENCE;

/* numbers that stand on no other board here */
static uint64_t post(size_t i) { return 0x7777777777777777u + i; }

/* §22.2: a lot that stands goes to the first empty slot of its bucket; all slots before that one have lots already */
static void expect_lot(hall *h, uint64_t lot, uint64_t ticket) {
    uint64_t *bucket = h->board + DESK_BUCKET_WORDS * desk_bucket(lot, h->floor.buckets);
    size_t slot = valid_slots(bucket[DESK_AT_MARK]);
    CHECK(slot < DESK_SLOTS);
    bucket[DESK_AT_MARK] |= (uint64_t)DESK_MARK_VALID << (32 + 8 * slot);
    bucket[DESK_AT_KEYS + slot] = lot;
    bucket[DESK_AT_VALUES + slot] = ticket;
}

/* §22: what a move that is done has to make of a hall */
static void expect_moved(hall *h, const hall *from, size_t buckets) {
    h->floor.buckets = buckets;
    for (size_t i = 0; i < DESK_BUCKET_WORDS * buckets; i++) h->board[i] = i % DESK_BUCKET_WORDS == 0 ? from->floor.version : 0;
    for (size_t i = 0; i < DESK_SLOTS * from->floor.buckets; i++) {
        const uint64_t *bucket = from->board + DESK_BUCKET_WORDS * (i / DESK_SLOTS);
        size_t slot = i % DESK_SLOTS;
        if (desk_mark(bucket[DESK_AT_MARK], slot) == DESK_MARK_VALID) expect_lot(h, desk_key(bucket, slot), desk_value(bucket, slot));
    }
    full_reading(h, h->index);
}

static bool fence_stands(void) {
    for (size_t i = 0; i < FENCE; i++)
        if (fenced[i] != post(i) || lent[ROOM_FOR_WORDS + i] != post(FENCE + ROOM_FOR_WORDS + i)) return false;
    return true;
}

uint8_t move_to(const hall *from, hall *to, size_t words, size_t buckets) {
    copy_hall(&unmoved, from);
    copy_hall(to, from);
    for (size_t i = 0; i < FENCE + ROOM_FOR_WORDS + FENCE; i++) fenced[i] = post(i);
    for (size_t i = 0; i < ROOM_FOR_WORDS; i++) to->board[i] = lent[i];
    copy_hall(&expected, to);
    desk_outcome o = desk_move(from->board, from->words, lent, words, to->records, to->listed, to->index, to->entries, from->floor, buckets);
    for (size_t i = 0; i < ROOM_FOR_WORDS; i++) to->board[i] = lent[i];
    to->words = words;
    to->floor = o.floor;
    if (o.refusal == DESK_DONE) expect_moved(&expected, from, buckets);
    CHECK(same_hall(to, &expected) && same_hall(from, &unmoved) && fence_stands());
    return o.refusal;
}

uint8_t move(const hall *from, hall *to, size_t buckets) { return move_to(from, to, DESK_BUCKET_WORDS * buckets, buckets); }

/* ---- the display's questions, and what is refused */

desk_total_outcome total(const hall *h) { return desk_total(h->board, h->words, h->index, h->entries, h->floor); }

desk_next_outcome next_occupied(const hall *h, size_t from) {
    return desk_next_occupied(h->board, h->words, h->index, h->entries, h->floor, from);
}

uint8_t refused_turn(size_t worker) {
    desk_turn_outcome t = turn(&one, worker);
    CHECK(same_report(t.report, refused_report));
    return t.refusal;
}

uint8_t refused_run(const uint8_t *turns, size_t count) {
    desk_run_outcome r = run(&one, turns, count);
    CHECK(counts(r, 0, 0, 0, 0, r.stop));
    CHECK(same_report(r.last, no_turn));
    return r.stop;
}

uint8_t refused_orders(size_t depth) {
    desk_orders_outcome o = orders(&one, depth);
    CHECK(o.finished == 0 && o.cut == 0 && o.lost == 0 && o.most == 0);
    return o.refusal;
}

bool walked(desk_orders_outcome o, uint64_t finished, uint64_t cut, uint64_t lost, uint64_t most) {
    return o.refusal == DESK_DONE && o.finished == finished && o.cut == cut && o.lost == lost && o.most == most;
}
