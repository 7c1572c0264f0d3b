/* Moving to a bigger or a smaller board (docs/RULES.md, section 22): from one bucket to the most there are and back; in which order lots that
   meet in one bucket stand there; every version; the ticket that was spent last; the play afterwards, with the display's questions, and the
   old board, which nothing has touched; who is at a call, and is retired; each number by each of its causes, and of two the one that comes
   first; and moves between rounds of calls in no order. What a move may change is looked at in hall.c, each time. */
#include "hall.h"

static hall three;

/* ---- calls of one worker alone, to their ends */

static uint64_t ends(hall *h, size_t worker) {
    desk_report r = {0};
    for (unsigned i = 0; i < 13 && !r.ended; i++) r = turn(h, worker).report;
    CHECK(r.ended);
    return r.answer;
}

static uint64_t inserted(hall *h, uint64_t lot) {
    CHECK(start_insert(h, 0, lot, h->floor.last + 1) == DESK_DONE);
    return ends(h, 0);
}

static uint64_t removed(hall *h, uint64_t lot) {
    CHECK(start_remove(h, 0, lot) == DESK_DONE);
    return ends(h, 0);
}

static uint64_t found(hall *h, uint64_t lot) {
    CHECK(start_look(h, 0, lot) == DESK_DONE);
    return ends(h, 0);
}

/* ---- a board by hand: a lot that stands in a slot, whatever the slots beside it have */

static void stand(hall *h, size_t bucket, size_t slot, uint64_t lot, uint64_t ticket) {
    uint64_t *words = h->board + DESK_BUCKET_WORDS * bucket;
    words[DESK_AT_MARK] |= (uint64_t)DESK_MARK_VALID << (32 + 8 * slot);
    words[DESK_AT_KEYS + slot] = lot;
    words[DESK_AT_VALUES + slot] = ticket;
}

static bool has(const hall *h, size_t bucket, size_t slot, uint64_t lot, uint64_t ticket) {
    const uint64_t *words = h->board + DESK_BUCKET_WORDS * bucket;
    return desk_mark(words[DESK_AT_MARK], slot) == DESK_MARK_VALID && desk_key(words, slot) == lot && desk_value(words, slot) == ticket;
}

/* ---- what the display is told, beside a walk over the board */

static void told_truly(const hall *h) {
    uint64_t lots = 0;
    size_t from = 0;
    for (size_t bucket = 0; bucket < h->floor.buckets; bucket++) {
        size_t valid = valid_slots(h->board[DESK_BUCKET_WORDS * bucket + DESK_AT_MARK]);
        if (valid == 0) continue;
        desk_next_outcome n = next_occupied(h, from);
        CHECK(n.refusal == DESK_DONE && n.found && n.bucket == bucket);
        lots += valid;
        from = bucket + 1;
    }
    CHECK(!next_occupied(h, from).found && is_true(h));
    CHECK(total(h).total == lots && desk_count(h->board, h->words, h->floor).lots == lots);
}

/* ---- the sale of docs/CLASS.md, "A bigger board" */

static void test_class(void) {
    static const uint64_t moved[] = {4294967296u, 4294967296u, 0, 4294967296u}; /* the mark words of four buckets: version 0, slot 0 valid */
    opened(&one, 2, 1, 0);
    CHECK(inserted(&one, 7) == 1 && inserted(&one, 8) == 1 && inserted(&one, 9) == 1 && one.board[0] == 282578783305731u);
    CHECK(start_insert(&one, 1, 10, 4) == DESK_DONE);
    for (unsigned i = 0; i < 100; i++) CHECK(turn(&one, 1).report.full == (i % 10 == 9));
    REFUSED(DESK_NOT_AT_REST, move(&one, &two, 4));
    CHECK(retire(&one, 1) == DESK_DONE && one.board[0] == 282578783305731u);
    CHECK(move(&one, &two, 4) == DESK_DONE);
    for (size_t b = 0; b < 4; b++) CHECK(two.board[DESK_BUCKET_WORDS * b] == moved[b]);
    CHECK(has(&two, 0, 0, 8, 2) && has(&two, 1, 0, 9, 3) && has(&two, 3, 0, 7, 1));
    CHECK(two.floor.last == 4 && two.index[0] == 3 && two.index[1] == 11);
    CHECK(start_insert(&two, 1, 10, 4) == DESK_SPENT_TICKET && start_insert(&two, 1, 10, 5) == DESK_DONE);
    for (unsigned i = 1; i < 11; i++) CHECK(!turn(&two, 1).report.ended);
    CHECK(turn(&two, 1).report.answer == 1 && has(&two, 2, 0, 10, 5));
    CHECK(move(&two, &three, 1) == DESK_CROWDED_BUCKET);
    CHECK(removed(&two, 8) == 2 && move(&two, &three, 1) == DESK_DONE);
    CHECK(has(&three, 0, 0, 9, 3) && has(&three, 0, 1, 10, 5) && has(&three, 0, 2, 7, 1) && desk_version(three.board[0]) == 0);
}

/* ---- from one bucket to the most there are, and back */

/* three lots of one bucket are in three afterwards, one of them in the last, and come back in the order of these */
static void test_grow_and_back(void) {
    static const uint64_t grown[DESK_INDEX_WORDS] = {3, 1ull << 7, 0, 0, 1ull << 63 | 1ull << 62};
    static const uint64_t back[DESK_BUCKET_WORDS] = {0x0001010100000005u, 7, 254, UINT64_MAX, 3, 2, 1, 0};
    opened(&one, 2, 1, 5);
    CHECK(inserted(&one, UINT64_MAX) == 1 && inserted(&one, 254) == 1 && inserted(&one, 7) == 1);
    CHECK(one.board[0] == 0x0001010100000008u); /* three commits */
    CHECK(move(&one, &two, 256) == DESK_DONE);
    CHECK(two.floor.workers == 2 && two.floor.buckets == 256 && two.floor.last == 3 && two.floor.version == 5);
    for (size_t i = 0; i < DESK_INDEX_WORDS; i++) CHECK(two.index[i] == grown[i]);
    CHECK(has(&two, 255, 0, UINT64_MAX, 1) && has(&two, 254, 0, 254, 2) && has(&two, 7, 0, 7, 3));
    for (size_t i = 0; i < 256; i++) CHECK(desk_version(two.board[8 * i]) == 5 && two.board[8 * i + DESK_AT_SPARE] == 0);
    CHECK(move(&two, &three, 1) == DESK_DONE);
    for (size_t i = 0; i < DESK_BUCKET_WORDS; i++) CHECK(three.board[i] == back[i]);
    CHECK(three.index[0] == 3 && three.index[1] == 1 && three.index[4] == 0);
}

/* of the most buckets one is left: up to three lots have room there, wherever they stood, and a fourth has not; then one is removed */
static void test_shrink_to_one(void) {
    static const uint64_t lots[] = {255, 128, 0, 63};
    opened(&one, 1, 256, 9);
    for (size_t i = 0; i < 4; i++) {
        CHECK(move(&one, &two, 1) == DESK_DONE);
        CHECK(two.index[0] == i && two.index[1] == (i > 0));
        CHECK(inserted(&one, lots[i]) == 1);
    }
    CHECK(has(&two, 0, 0, 0, 3) && has(&two, 0, 1, 128, 2) && has(&two, 0, 2, 255, 1));
    REFUSED(DESK_CROWDED_BUCKET, move(&one, &two, 1));
    CHECK(removed(&one, 128) == 2 && move(&one, &two, 1) == DESK_DONE);
    CHECK(has(&two, 0, 0, 0, 3) && has(&two, 0, 1, 63, 4) && has(&two, 0, 2, 255, 1));
}

/* every slot of the largest board is taken, and they move to a board of the same size, and of one bucket less, where most have no room */
static void test_full_board(void) {
    opened(&one, 1, 256, 9);
    for (size_t i = 0; i < 768; i++) stand(&one, i / 3, i % 3, i / 3 + 256 * (3 - i % 3), 1 + i);
    read_anew(&one);
    CHECK(move(&one, &two, 256) == DESK_DONE && two.index[0] == 768 && two.index[4] == UINT64_MAX);
    for (size_t i = 0; i < DESK_BUCKET_WORDS * 256; i++) CHECK(two.board[i] == one.board[i]);
    CHECK(move(&one, &two, 255) == DESK_CROWDED_BUCKET);
}

/* ---- in which order lots that meet stand (§22.2): by the old bucket, then by the slot; not by the lot, nor by the ticket */

/* one from each of three buckets, each from another slot, the greatest lot and the greatest ticket first */
static void test_order_of_buckets(void) {
    opened(&one, 1, 3, 9);
    stand(&one, 0, 2, 9, 30);
    stand(&one, 1, 1, 7, 20);
    stand(&one, 2, 0, 5, 10);
    read_anew(&one);
    CHECK(move(&one, &two, 2) == DESK_DONE && two.board[0] == 9 && two.board[8] == 0x0001010100000009u);
    CHECK(has(&two, 1, 0, 9, 30) && has(&two, 1, 1, 7, 20) && has(&two, 1, 2, 5, 10));
    CHECK(two.index[0] == 3 && two.index[1] == 2);
}

/* of one bucket they keep their order, and close up over an empty slot: what a closed lot has left there does not come along */
static void test_order_of_slots(void) {
    opened(&one, 1, 2, 9);
    CHECK(inserted(&one, 6) == 1 && inserted(&one, 4) == 1 && inserted(&one, 2) == 1 && removed(&one, 6) == 1);
    CHECK(desk_key(one.board, 0) == 6 && desk_value(one.board, 0) == 1);
    CHECK(move(&one, &two, 2) == DESK_DONE);
    CHECK(has(&two, 0, 0, 4, 2) && has(&two, 0, 1, 2, 3));
    CHECK(desk_mark(two.board[0], 2) == DESK_MARK_EMPTY && desk_key(two.board, 2) == 0 && desk_value(two.board, 2) == 0);
    /* two of the first bucket and then one of the second, to a board of three; and one of them beside it */
    CHECK(inserted(&one, 5) == 1 && inserted(&one, 8) == 1 && inserted(&one, 3) == 1);
    CHECK(has(&one, 0, 0, 8, 5));
    CHECK(move(&one, &two, 3) == DESK_DONE);
    CHECK(has(&two, 2, 0, 8, 5) && has(&two, 2, 1, 2, 3) && has(&two, 2, 2, 5, 4));
    CHECK(has(&two, 1, 0, 4, 2) && has(&two, 0, 0, 3, 6) && two.index[0] == 5 && two.index[1] == 7);
}

/* lot 0 is a lot like others, also with a ticket of 0, which no insert brings; and one that stands twice, which no history leads to, goes
   over twice */
static void test_lot_zero(void) {
    opened(&one, 1, 2, 0);
    stand(&one, 0, 1, 0, 0);
    stand(&one, 1, 2, 0, 8);
    read_anew(&one);
    CHECK(move(&one, &two, 256) == DESK_DONE && two.index[0] == 2 && two.index[1] == 1);
    CHECK(has(&two, 0, 0, 0, 0) && has(&two, 0, 1, 0, 8) && two.board[0] == 0x0000010100000000u);
}

/* where a bucket's number is a remainder: at both ends of all lots, and where they would fit into fewer bits */
static void test_remainders(void) {
    static const uint64_t lots[] = {0, 254, 255, 256, 257, 4294967295u, 4294967296u, 4294967297u, UINT64_MAX - 1, UINT64_MAX};
    static const size_t buckets[] = {1, 2, 3, 7, 100, 255, 256};
    for (size_t i = 0; i < sizeof lots / sizeof lots[0]; i++)
        for (size_t j = 0; j < sizeof buckets / sizeof buckets[0]; j++) {
            opened(&one, 1, 1, 9);
            CHECK(inserted(&one, lots[i]) == 1 && move(&one, &two, buckets[j]) == DESK_DONE);
            CHECK(has(&two, (size_t)(lots[i] % buckets[j]), 0, lots[i], 1));
            CHECK(found(&two, lots[i]) == 1);
        }
}

/* ---- the version is the opening's, whatever the old buckets have come to; where no opening was, it is what stands in the floor */

static void test_versions(void) {
    static const uint32_t versions[] = {0, 1, 0x12345678u, 0xFFFFFFFEu, 0xFFFFFFFFu};
    for (size_t i = 0; i < sizeof versions / sizeof versions[0]; i++) {
        opened(&one, 1, 2, versions[i]);
        CHECK(inserted(&one, 7) == 1 && removed(&one, 7) == 1 && inserted(&one, 9) == 1);
        CHECK(one.board[8] == 0x0000000100000000u + (uint32_t)(versions[i] + 2));
        CHECK(move(&one, &two, 3) == DESK_DONE && two.floor.version == versions[i]);
        CHECK(two.board[0] == 0x0000000100000000u + versions[i] && two.board[8] == versions[i] && two.board[16] == versions[i]);
        CHECK(inserted(&two, 12) == 1 && two.board[0] == 0x0000010100000000u + (uint32_t)(versions[i] + 1));
        one.floor.version = ~versions[i];
        CHECK(move(&one, &two, 1) == DESK_DONE && two.floor.version == (uint32_t)~versions[i]);
        CHECK(two.board[0] == 0x0000000100000000u + (uint32_t)~versions[i]);
    }
}

/* ---- tickets that are spent stay spent */

static void tickets_after(uint64_t last) {
    opened(&one, 2, 4, 9);
    CHECK(start_insert(&one, 1, 6, last) == DESK_DONE && ends(&one, 1) == 1 && removed(&one, 6) == last);
    CHECK(move(&one, &two, 8) == DESK_DONE && two.floor.last == last);
    CHECK(start_insert(&two, 0, 6, last) == DESK_SPENT_TICKET && start_insert(&two, 0, 6, 0) == DESK_SPENT_TICKET);
    if (last == UINT64_MAX) return;
    CHECK(start_insert(&two, 0, 6, last + 1) == DESK_DONE && ends(&two, 0) == 1 && has(&two, 6, 0, 6, last + 1));
}

static void test_spent_tickets(void) {
    tickets_after(1);
    tickets_after(41);
    tickets_after(0xFFFFFFFFu);
    tickets_after(0x100000000u);
    tickets_after(0x8765432100000000u);
    tickets_after(UINT64_MAX - 1);
    tickets_after(UINT64_MAX);
}

/* ---- play goes on, and the old board is what it was */

/* Three lots fill the only bucket, and the insert of a fourth goes round until it is retired. On a board of eight buckets it has room, and
   each call is answered as if all lots had come there by themselves. On the old board, with records, a floor and an index of its own, play
   could go on as well: the library knows of neither. */
static void test_play_goes_on(void) {
    opened(&one, 2, 1, 0);
    for (uint64_t lot = 1; lot <= 3; lot++) CHECK(inserted(&one, lot) == 1);
    CHECK(start_insert(&one, 1, 4, 4) == DESK_DONE);
    for (unsigned i = 0; i < 20; i++) CHECK(!turn(&one, 1).report.ended); /* it finds no slot */
    REFUSED(DESK_NOT_AT_REST, move(&one, &two, 8));
    CHECK(retire(&one, 1) == DESK_DONE && move(&one, &two, 8) == DESK_DONE);
    told_truly(&two);
    for (uint64_t lot = 4; lot <= 6; lot++) CHECK(inserted(&two, lot) == 1 && found(&two, lot) == lot + 1);
    CHECK(inserted(&two, 2) == 0 && found(&two, 2) == 2 && found(&two, 10) == 0);
    told_truly(&two);
    CHECK(removed(&two, 1) == 1 && removed(&two, 1) == 0 && removed(&two, 6) == 7 && found(&two, 1) == 0);
    told_truly(&two);
    copy_hall(&before, &two);
    CHECK(is_true(&one) && found(&one, 1) == 1 && removed(&one, 2) == 2 && inserted(&one, 4) == 1);
    told_truly(&one);
    CHECK(same_hall(&two, &before));
}

/* a look that begins on the old board after the move ends there, and one on the new board begins with its own record */
static void test_two_boards(void) {
    opened(&one, 1, 2, 0);
    CHECK(inserted(&one, 3) == 1 && move(&one, &two, 2) == DESK_DONE);
    CHECK(start_look(&one, 0, 3) == DESK_DONE && start_remove(&two, 0, 3) == DESK_DONE);
    CHECK(turn(&one, 0).refusal == DESK_DONE && ends(&two, 0) == 1 && ends(&one, 0) == 1);
    CHECK(found(&one, 3) == 1 && found(&two, 3) == 0);
}

/* what is left of a board can be lent for the next move: two boards are enough for any number of them */
static void test_to_and_fro(void) {
    static const size_t buckets[] = {3, 256, 2, 64, 65, 129, 1, 5};
    static uint64_t boards[2][DESK_BUCKET_WORDS * DESK_MOST_BUCKETS];
    opened(&one, 1, 1, 9);
    CHECK(inserted(&one, 7) == 1 && inserted(&one, 70) == 1 && inserted(&one, 200) == 1);
    for (size_t i = 0; i < one.words; i++) boards[0][i] = one.board[i];
    desk_floor floor = one.floor;
    for (size_t i = 0; i < sizeof buckets / sizeof buckets[0]; i++) {
        const uint64_t *old = boards[i % 2];
        uint64_t *board = boards[1 - i % 2];
        size_t n = buckets[i];
        desk_outcome o = desk_move(old, 8 * floor.buckets, board, 8 * n, one.records, 1, one.index, 5, floor, n);
        CHECK(o.refusal == DESK_DONE);
        floor = o.floor;
        CHECK(floor.buckets == n && desk_count(board, 8 * n, floor).lots == 3);
        CHECK(desk_total(board, 8 * n, one.index, 5, floor).total == 3);
    }
}

/* what is only read stands here where nothing can be written */
static const uint64_t shut_board[DESK_BUCKET_WORDS] = {0x0001000100000002u, 7, 0, 8, 1, 0, 2};
static const desk_worker shut_records[2] = {{.held = DESK_NO_SLOT}, {.held = DESK_NO_SLOT}};

static void test_read_only(void) {
    desk_floor floor = {.workers = 2, .buckets = 1, .last = 2, .version = 6};
    fill(&two);
    desk_outcome o = desk_move(shut_board, 8, two.board, 32, shut_records, 2, two.index, 5, floor, 4);
    CHECK(o.refusal == DESK_DONE && o.floor.buckets == 4 && two.index[0] == 2 && two.index[1] == 9);
    CHECK(has(&two, 3, 0, 7, 1) && has(&two, 0, 0, 8, 2) && two.board[8] == 6 && two.board[32] == 0x5555555555555555u + 32);
}

/* ---- 12: at each turn of each call, whoever it is; once it is retired the move is accepted */

static uint8_t start_kind(hall *h, size_t worker, uint8_t kind, uint64_t lot) {
    if (kind == DESK_LOOK) return start_look(h, worker, lot);
    return kind == DESK_INSERT ? start_insert(h, worker, lot, h->floor.last + 1) : start_remove(h, worker, lot);
}

static void at_each_turn(uint8_t kind, uint64_t lot, size_t worker) {
    for (unsigned turns = 0; turns < 13; turns++) {
        desk_report r = {0};
        opened(&one, 64, 2, 9);
        CHECK(inserted(&one, 7) == 1);
        CHECK(start_kind(&one, worker, kind, lot) == DESK_DONE);
        for (unsigned i = 0; i < turns; i++) r = turn(&one, worker).report;
        if (r.ended) {
            CHECK(move(&one, &two, 1) == DESK_DONE);
            return;
        }
        REFUSED(DESK_NOT_AT_REST, move(&one, &two, 1));
        CHECK(retire(&one, worker) == DESK_DONE && move(&one, &two, 1) == DESK_DONE);
        CHECK(has(&two, 0, 0, 7, 1) && two.index[0] == 1);
    }
}

static void test_at_rest(void) {
    static const size_t workers[] = {0, 31, 63};
    for (size_t i = 0; i < 3; i++) {
        at_each_turn(DESK_LOOK, 7, workers[i]);
        at_each_turn(DESK_LOOK, 9, workers[i]);
        at_each_turn(DESK_INSERT, 7, workers[i]);
        at_each_turn(DESK_INSERT, 9, workers[i]);
        at_each_turn(DESK_REMOVE, 7, workers[i]);
        at_each_turn(DESK_REMOVE, 9, workers[i]);
    }
}

/* ---- each number by each cause alone */

/* three buckets, with lots that have room on a board of two and none on a board of one; everybody is idle */
static void at_rest(void) {
    opened(&one, 3, 3, 9);
    stand(&one, 0, 0, 3, 1);
    stand(&one, 1, 1, 4, 2);
    stand(&one, 2, 2, 5, 3);
    stand(&one, 2, 0, 8, 4);
    read_anew(&one);
}

static void test_sizes(void) {
    static const size_t buckets[] = {0, 257, 65536, 4294967298u, (size_t)1 << 61, ((size_t)1 << 61) + 2, SIZE_MAX};
    static const size_t words[] = {0, 1, 8, 15, 17, 24, 2048, 2056};
    at_rest();
    CHECK(move(&one, &two, 2) == DESK_DONE);
    for (size_t i = 0; i < sizeof buckets / sizeof buckets[0]; i++) REFUSED(DESK_WRONG_SIZES, move_to(&one, &two, 16, buckets[i]));
    REFUSED(DESK_WRONG_SIZES, move_to(&one, &two, 0, 0));
    REFUSED(DESK_WRONG_SIZES, move_to(&one, &two, 2056, 257));
    for (size_t i = 0; i < sizeof words / sizeof words[0]; i++) REFUSED(DESK_WRONG_SIZES, move_to(&one, &two, words[i], 2));
    for (one.entries = 0; one.entries <= ROOM_FOR_ENTRIES; one.entries++)
        REFUSED(one.entries == DESK_INDEX_WORDS ? DESK_DONE : DESK_WRONG_SIZES, move(&one, &two, 2));
    at_rest();
    for (one.words = 0; one.words <= 32; one.words++) REFUSED(one.words == 24 ? DESK_DONE : DESK_WRONG_SIZES, move(&one, &two, 2));
    at_rest();
    for (one.listed = 0; one.listed <= 4; one.listed++) REFUSED(one.listed == 3 ? DESK_DONE : DESK_WRONG_SIZES, move(&one, &two, 2));
    at_rest();
    for (size_t n = 0; n <= 4; n++) {
        one.floor.workers = n;
        REFUSED(n == 3 ? DESK_DONE : DESK_WRONG_SIZES, move(&one, &two, 2));
        one.floor.workers = 3, one.floor.buckets = n;
        REFUSED(n == 3 ? DESK_DONE : DESK_WRONG_SIZES, move(&one, &two, 2));
        one.floor.buckets = 3;
    }
}

/* a record of each worker that is broken, in one way after another */
static void test_records(void) {
    static const desk_worker broken[] = {
        {.held = 0}, {.held = DESK_NO_SLOT, .key = 1}, {.held = DESK_NO_SLOT, .asleep = 1}, {.held = DESK_NO_SLOT, .seen = 1},
        {.held = DESK_NO_SLOT, .kind = 4}, {.held = DESK_NO_SLOT, .kind = DESK_LOOK}, {.held = DESK_NO_SLOT, .kind = DESK_INSERT, .place = 1},
        {.held = DESK_NO_SLOT, .kind = DESK_REMOVE, .place = 14}, {.held = DESK_NO_SLOT, .kind = DESK_LOOK, .place = 2, .slot = 3}};
    for (size_t i = 0; i < sizeof broken / sizeof broken[0]; i++)
        for (size_t worker = 0; worker < 3; worker++) {
            at_rest();
            one.records[worker] = broken[i];
            REFUSED(DESK_BROKEN_RECORD, move(&one, &two, 2));
        }
}

/* each way to break a bucket, and a mark of 2 in each slot, in each bucket; what stands in the new board's place is nothing to anybody */
static void test_buckets(void) {
    static const uint64_t marks[] = {2ull << 32, 2ull << 40, 2ull << 48, 3ull << 32, 4ull << 40, 255ull << 48, 1ull << 56, 1ull << 63};
    for (size_t bucket = 0; bucket < 3; bucket++) {
        for (size_t i = 0; i < sizeof marks / sizeof marks[0]; i++) {
            at_rest();
            one.board[8 * bucket] = marks[i] | 9;
            REFUSED(DESK_BROKEN_BUCKET, move(&one, &two, 2));
        }
        at_rest();
        one.board[8 * bucket + DESK_AT_SPARE] = 1ull << 63;
        REFUSED(DESK_BROKEN_BUCKET, move(&one, &two, 2));
    }
}

/* a fourth lot for a bucket: for the first, the last and one between; from one old bucket and from several; and just three */
static void test_crowded(void) {
    at_rest();
    REFUSED(DESK_CROWDED_BUCKET, move(&one, &two, 1));
    for (size_t bucket = 0; bucket < 3; bucket++) {
        opened(&one, 1, 4, 9);
        for (size_t i = 0; i < 4; i++) stand(&one, i, i % 3, bucket + 3 * (4 + i), i);
        CHECK(move(&one, &two, 3) == DESK_CROWDED_BUCKET);
        one.board[8 * bucket] = 9;
        CHECK(move(&one, &two, 3) == DESK_DONE);
        CHECK(valid_slots(two.board[8 * bucket]) == 3);
    }
    opened(&one, 1, 2, 9);
    for (size_t i = 0; i < 3; i++) stand(&one, 0, i, 2 * i, i);
    CHECK(move(&one, &two, 1) == DESK_DONE);
    stand(&one, 1, 0, 1, 9);
    CHECK(move(&one, &two, 1) == DESK_CROWDED_BUCKET && move(&one, &two, 2) == DESK_DONE);
}

/* the index is made afresh, so nothing of it is looked at */
static void test_any_index(void) {
    at_rest();
    for (size_t i = 0; i < DESK_INDEX_WORDS; i++) one.index[i] = UINT64_MAX - i;
    CHECK(move(&one, &two, 2) == DESK_DONE && two.index[0] == 4 && two.index[1] == 3 && two.index[4] == 0);
}

/* ---- of two numbers the one that comes first (§7.2), wherever the two causes stand */

enum { OF_SIZES = 3 };

static void spoil_sizes(unsigned which) {
    if (which == 0) one.listed = 2;
    if (which == 1) one.entries = 4;
    if (which == 2) one.words = 16;
}

static void break_record(size_t worker) { one.records[worker].place = 9; }
static void keep_busy(size_t worker) { CHECK(start_look(&one, worker, 7) == DESK_DONE); }
static void break_bucket(size_t bucket) { one.board[8 * bucket + DESK_AT_MARK] |= 2ull << (bucket == 1 ? 32 : 40); }

/* each call finds the causes of both numbers, and a move to one bucket is crowded besides */
static void test_order(void) {
    for (size_t i = 0; i < 3; i++)
        for (size_t j = 0; j < 3; j++) {
            for (unsigned which = 0; which < OF_SIZES; which++) {
                at_rest(), break_record(i % 2), spoil_sizes(which);
                REFUSED(DESK_WRONG_SIZES, move(&one, &two, 2));
                at_rest(), keep_busy(i), spoil_sizes(which);
                REFUSED(DESK_WRONG_SIZES, move(&one, &two, 2));
                at_rest(), break_bucket(i), spoil_sizes(which);
                REFUSED(DESK_WRONG_SIZES, move(&one, &two, 2));
                at_rest(), spoil_sizes(which);
                REFUSED(DESK_WRONG_SIZES, move(&one, &two, 1));
            }
            at_rest(), break_record(i), break_bucket(j);
            REFUSED(DESK_BROKEN_RECORD, move(&one, &two, 2));
            REFUSED(DESK_BROKEN_RECORD, move(&one, &two, 1));
            REFUSED(DESK_WRONG_SIZES, move(&one, &two, 257));
            at_rest(), keep_busy(i), break_bucket(j);
            REFUSED(DESK_NOT_AT_REST, move(&one, &two, 2));
            REFUSED(DESK_NOT_AT_REST, move(&one, &two, 1));
            REFUSED(DESK_WRONG_SIZES, move(&one, &two, 0));
            at_rest(), break_bucket(j);
            REFUSED(DESK_BROKEN_BUCKET, move(&one, &two, 1));
            REFUSED(DESK_WRONG_SIZES, move_to(&one, &two, 24, 2));
            if (i == j) continue;
            at_rest(), keep_busy(i), break_record(j);
            REFUSED(DESK_BROKEN_RECORD, move(&one, &two, 2));
        }
    at_rest(), break_record(0);
    REFUSED(DESK_BROKEN_RECORD, move(&one, &two, 1));
    at_rest(), keep_busy(2);
    REFUSED(DESK_NOT_AT_REST, move(&one, &two, 1));
}

/* four lots stand in the first two buckets, so whoever goes over the board meets the crowd before or after the bucket that is not settled */
static void test_order_on_the_board(void) {
    for (size_t bucket = 0; bucket < 5; bucket++) {
        opened(&one, 1, 5, 9);
        for (size_t i = 0; i < 4; i++) stand(&one, i / 2, 2 * (i % 2), i, 1 + i);
        REFUSED(DESK_CROWDED_BUCKET, move(&one, &two, 1));
        one.board[8 * bucket] |= 2ull << 40;
        REFUSED(DESK_BROKEN_BUCKET, move(&one, &two, 1));
        one.board[8 * bucket] = 9, one.board[8 * bucket + DESK_AT_SPARE] = 1;
        REFUSED(DESK_BROKEN_BUCKET, move(&one, &two, 1));
    }
}

/* ---- rounds of calls in no order, each on a board of another size */

enum { WORKERS = 5, ROUNDS = 300, ACTS = 60 };

static void any_act(hall *h) {
    size_t worker = below(WORKERS);
    if (h->records[worker].kind != DESK_IDLE) CHECK(turn(h, worker).refusal == DESK_DONE);
    else CHECK(start_kind(h, worker, (uint8_t)(DESK_LOOK + below(3)), below(24)) == DESK_DONE);
}

/* whoever does not come to an end is retired */
static void all_to_rest(hall *h) {
    for (size_t worker = 0; worker < WORKERS; worker++) {
        for (unsigned i = 0; i < 13 && h->records[worker].kind != DESK_IDLE; i++) CHECK(turn(h, worker).refusal == DESK_DONE);
        if (h->records[worker].kind != DESK_IDLE) CHECK(retire(h, worker) == DESK_DONE);
    }
}

/* whether a new bucket would need a fourth slot, by counting for each the lots that come there */
static bool would_crowd(const hall *h, size_t buckets) {
    for (size_t to = 0; to < buckets; to++) {
        size_t lots = 0;
        for (size_t i = 0; i < DESK_SLOTS * h->floor.buckets; i++) {
            const uint64_t *bucket = h->board + DESK_BUCKET_WORDS * (i / DESK_SLOTS);
            bool stands = desk_mark(bucket[DESK_AT_MARK], i % DESK_SLOTS) == DESK_MARK_VALID;
            lots += stands && desk_key(bucket, i % DESK_SLOTS) % buckets == to;
        }
        if (lots > DESK_SLOTS) return true;
    }
    return false;
}

/* on an opened board where nobody is busy nothing but a crowded bucket refuses a move, however many there were before */
static void test_rounds(void) {
    static const size_t buckets[] = {1, 2, 3, 4, 5, 7, 8, 11, 16, 63, 64, 65, 200, 256};
    hall *now = &one, *next = &two;
    unsigned moved = 0, crowded = 0;
    opened(now, WORKERS, 8, 0xFFFFFFFDu);
    for (unsigned round = 0; round < ROUNDS; round++) {
        for (unsigned i = 0; i < ACTS; i++) any_act(now);
        all_to_rest(now);
        told_truly(now);
        size_t n = buckets[below(sizeof buckets / sizeof buckets[0])];
        bool crowds = would_crowd(now, n);
        CHECK(move(now, next, n) == (crowds ? DESK_CROWDED_BUCKET : DESK_DONE));
        crowded += crowds;
        if (crowds) continue;
        moved++;
        told_truly(next);
        hall *old = now;
        now = next, next = old;
    }
    CHECK(moved > 30 && crowded > 30);
}

void test_move(void) {
    test_class();
    test_grow_and_back();
    test_shrink_to_one();
    test_full_board();
    test_order_of_buckets();
    test_order_of_slots();
    test_lot_zero();
    test_remainders();
    test_versions();
    test_spent_tickets();
    test_play_goes_on();
    test_two_boards();
    test_to_and_fro();
    test_read_only();
    test_at_rest();
    test_sizes();
    test_records();
    test_buckets();
    test_crowded();
    test_any_index();
    test_order();
    test_order_on_the_board();
    test_rounds();
}
