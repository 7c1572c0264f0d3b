/* The hall display's index (docs/RULES.md, section 21): on opened boards it is the full reading after every call, and both questions are
   answered as a walk over the board answers them; the buckets at the ends of its words; calls in no order; an index that no opening made; and
   each cause of 11. hall.c besides holds each turn and each retiring of all these programs to what becomes of the index. */
#include "hall.h"

static hall unasked;

/* the buckets whose bits are the first and the last of the four words */
static const size_t ends[] = {0, 63, 64, 127, 128, 191, 192, 255};
enum { ENDS = sizeof ends / sizeof ends[0] };

/* ---- what the display is told, beside a walk over the board */

static bool occupied(const hall *h, size_t bucket) { return valid_slots(h->board[DESK_BUCKET_WORDS * bucket + DESK_AT_MARK]) > 0; }

/* whether this bucket is told from that number on; one past the last stands for none (§21.4) */
static bool is_next(const hall *h, size_t from, size_t bucket) {
    desk_next_outcome n = next_occupied(h, from);
    bool found = bucket < h->floor.buckets;
    return n.refusal == DESK_DONE && n.found == found && n.bucket == (found ? bucket : 0);
}

/* from each bucket, the last one first: it is the one that the walk has met last; and from what is past them */
static bool next_as_walked(const hall *h) {
    size_t none = h->floor.buckets, met = none;
    for (size_t from = none; from-- > 0;) {
        if (occupied(h, from)) met = from;
        if (!is_next(h, from, met)) return false;
    }
    return is_next(h, none, none) && is_next(h, none + 1, none) && is_next(h, SIZE_MAX, none);
}

/* what is so of an opened board after each call: §21.2 to §21.4; and who asks changes nothing */
static void kept(const hall *h) {
    copy_hall(&unasked, h);
    CHECK(is_true(h));
    desk_total_outcome t = total(h);
    CHECK(t.refusal == DESK_DONE && t.total == desk_count(h->board, h->words, h->floor).lots);
    CHECK(next_as_walked(h));
    CHECK(same_hall(h, &unasked));
}

/* ---- calls, and the display after each */

static void opened_and_kept(size_t workers, size_t buckets) {
    opened(&one, workers, buckets, 0xFFFFFFFEu);
    kept(&one);
}

static uint8_t start(size_t worker, uint8_t kind, uint64_t lot) {
    switch (kind) {
    case DESK_LOOK: return start_look(&one, worker, lot);
    case DESK_INSERT: return start_insert(&one, worker, lot, one.floor.last + 1);
    default: return start_remove(&one, worker, lot);
    }
}

/* a call of worker 0 alone, to its end; its answer */
static uint64_t ends_with(uint8_t kind, uint64_t lot) {
    desk_report r = {0};
    CHECK(start(0, kind, lot) == DESK_DONE);
    kept(&one);
    for (unsigned i = 0; i < 13 && !r.ended; i++) {
        r = turn(&one, 0).report;
        kept(&one);
    }
    CHECK(r.ended);
    return r.answer;
}

/* two lots of one bucket and one of the next, which is the same where there is one; then the board is opened anew */
static void test_each_turn(void) {
    static const size_t buckets[] = {1, 2, 3, 64, 65, 256};
    for (size_t i = 0; i < sizeof buckets / sizeof buckets[0]; i++) {
        size_t n = buckets[i];
        opened_and_kept(1, n);
        CHECK(ends_with(DESK_INSERT, 5) == 1 && ends_with(DESK_INSERT, 6) == 1 && ends_with(DESK_INSERT, 5 + 2 * n) == 1);
        CHECK(total(&one).total == 3 && ends_with(DESK_INSERT, 6) == 0 && ends_with(DESK_LOOK, 5) == 1);
        CHECK(ends_with(DESK_REMOVE, 5) == 1 && ends_with(DESK_REMOVE, 5) == 0 && total(&one).total == 2);
        CHECK(ends_with(DESK_REMOVE, 5 + 2 * n) == 3 && total(&one).total == 1 && is_next(&one, 0, 6 % n));
        REFUSED(DESK_WRONG_SIZES, open_hall(&one, 2, n, 9));
        CHECK(open_hall(&one, 1, n, 9) == DESK_DONE && total(&one).total == 0);
        kept(&one);
    }
}

/* an insert that is retired after each number of turns, beside a lot of its bucket and beside none */
static void test_retirings(void) {
    static const uint64_t lots[] = {128, 129 + 130};
    for (size_t i = 0; i < 2; i++)
        for (unsigned turns = 0; turns <= 10; turns++) {
            opened_and_kept(2, 130);
            CHECK(ends_with(DESK_INSERT, 129) == 1);
            CHECK(start(1, DESK_INSERT, lots[i]) == DESK_DONE);
            for (unsigned j = 0; j < turns; j++) CHECK(turn(&one, 1).refusal == DESK_DONE);
            CHECK(retire(&one, 1) == DESK_DONE);
            kept(&one);
            CHECK(one.index[0] == 1 && one.index[3] == 2);
        }
}

/* one bucket: it has three lots, a fourth goes round and is retired, and they are closed again */
static void test_one_bucket(void) {
    opened_and_kept(2, 1);
    for (uint64_t lot = 1; lot <= 3; lot++) {
        CHECK(ends_with(DESK_INSERT, lot) == 1);
        CHECK(one.index[0] == lot && one.index[1] == 1 && is_next(&one, 0, 0));
    }
    CHECK(start(1, DESK_INSERT, 4) == DESK_DONE);
    for (unsigned i = 0; i < 20; i++) {
        CHECK(turn(&one, 1).refusal == DESK_DONE);
        kept(&one);
    }
    CHECK(retire(&one, 1) == DESK_DONE);
    for (uint64_t lot = 1; lot <= 3; lot++) {
        CHECK(ends_with(DESK_REMOVE, lot) == lot);
        CHECK(one.index[0] == 3 - lot && one.index[1] == (lot < 3));
    }
}

/* ---- the ends of the words (§21.1) */

/* who asks from 0, and then from one past what was told, is told all of them, and then that there is no more */
static void all_in_turn(void) {
    size_t from = 0;
    for (size_t i = 0; i < ENDS; i++) {
        CHECK(is_next(&one, from, ends[i]));
        from = next_occupied(&one, from).bucket + 1;
    }
    CHECK(is_next(&one, from, 256));
}

/* a lot in each of these buckets; a second one beside it, which leaves the bit, and so does it when the first is closed; then none */
static void test_ends_of_words(void) {
    uint64_t first = 1, last = 1ull << 63;
    opened_and_kept(1, 256);
    for (size_t i = 0; i < ENDS; i++) {
        CHECK(ends_with(DESK_INSERT, ends[i]) == 1);
        CHECK(one.index[0] == i + 1 && one.index[1 + i / 2] == (i % 2 == 0 ? first : first | last));
    }
    all_in_turn();
    for (size_t i = 0; i < ENDS; i++) {
        CHECK(ends_with(DESK_INSERT, 256 + ends[i]) == 1 && one.index[0] == 9);
        CHECK(ends_with(DESK_REMOVE, ends[i]) == i + 1 && one.index[0] == 8);
        CHECK(one.index[1 + i / 2] == (first | last));
    }
    for (size_t i = 0; i < ENDS; i++) {
        CHECK(ends_with(DESK_REMOVE, 256 + ends[i]) == 9 + i);
        CHECK(one.index[0] == 7 - i && one.index[1 + i / 2] == (i % 2 == 0 ? last : 0));
    }
}

/* the last bucket of a board, with the first */
static void test_last_buckets(void) {
    static const size_t buckets[] = {1, 2, 63, 64, 65, 127, 128, 129, 191, 192, 193, 255, 256};
    for (size_t i = 0; i < sizeof buckets / sizeof buckets[0]; i++) {
        size_t n = buckets[i];
        opened_and_kept(1, n);
        CHECK(ends_with(DESK_INSERT, n - 1) == 1 && is_next(&one, 0, n - 1));
        CHECK(ends_with(DESK_INSERT, n) == 1 && is_next(&one, 0, 0) && is_next(&one, n - 1, n - 1));
        CHECK(ends_with(DESK_REMOVE, n - 1) == 1 && ends_with(DESK_REMOVE, n) == 2);
    }
}

/* a call of worker 0 as one run, which finds it idle if the call takes fewer turns */
static void run_of(uint8_t kind, uint64_t lot) {
    CHECK(start(0, kind, lot) == DESK_DONE);
    desk_run_outcome r = run(&one, many, 13);
    CHECK(one.records[0].kind == DESK_IDLE && r.stop == (r.totals.turns < 13 ? DESK_IDLE_WORKER : DESK_DONE));
    kept(&one);
}

/* every slot of the largest board is filled, and emptied again: the total comes to both ends of what it can be */
static void test_full_board(void) {
    for (unsigned i = 0; i < 13; i++) many[i] = 0;
    opened_and_kept(1, 256);
    for (uint64_t lot = 0; lot < 768; lot++) run_of(DESK_INSERT, 5 * lot);
    CHECK(total(&one).total == 768);
    for (size_t i = 1; i < DESK_INDEX_WORDS; i++) CHECK(one.index[i] == UINT64_MAX);
    for (uint64_t lot = 0; lot < 768; lot++) run_of(DESK_REMOVE, 5 * (767 - lot));
    for (size_t i = 0; i < DESK_INDEX_WORDS; i++) CHECK(one.index[i] == 0);
}

/* ---- calls in no order, of eight workers in few buckets, and retirings between their turns */

enum { WORKERS = 8, ACTS = 4000 };

static uint8_t any_act(size_t buckets, size_t places) {
    size_t worker = below(WORKERS), bucket = ends[below(places)];
    uint64_t lot = bucket + buckets * below(4);
    if (one.records[worker].kind == DESK_IDLE) return start(worker, (uint8_t)(DESK_LOOK + below(3)), lot);
    return below(40) == 0 ? retire(&one, worker) : turn(&one, worker).refusal;
}

static void any_order(size_t buckets, size_t places) {
    uint64_t most = 0;
    unsigned rises = 0, falls = 0;
    opened_and_kept(WORKERS, buckets);
    for (unsigned i = 0; i < ACTS; i++) {
        uint64_t lots = one.index[0];
        CHECK(any_act(buckets, places) == DESK_DONE);
        kept(&one);
        rises += one.index[0] > lots, falls += one.index[0] < lots;
        if (most < one.index[0]) most = one.index[0];
    }
    CHECK(most > places && rises > 20 && falls > 20);
}

static void test_any_order(void) {
    any_order(256, ENDS);
    any_order(193, 7);
    any_order(65, 3);
    any_order(1, 1);
}

/* ---- an index that no opening made: questions */

static void put_index(uint64_t total, uint64_t bits) {
    one.index[0] = total;
    for (size_t i = 1; i < DESK_INDEX_WORDS; i++) one.index[i] = bits;
}

/* one bit of all that an index has is told from each number up to it, if there is such a bucket; the board has no sound bucket at all */
static void test_each_bit(void) {
    static const size_t buckets[] = {1, 64, 65, 200, 256};
    for (size_t i = 0; i < sizeof buckets / sizeof buckets[0]; i++) {
        size_t n = buckets[i];
        opened(&one, 1, n, 9);
        for (size_t j = 0; j < one.words; j++) one.board[j] = UINT64_MAX;
        bool told = true;
        for (size_t bit = 0; bit < 256; bit++) {
            put_index(0, 0);
            one.index[1 + bit / 64] = 1ull << bit % 64;
            for (size_t from = 0; from <= n + 1; from++) told = told && is_next(&one, from, from <= bit ? bit : n);
        }
        put_index(0, UINT64_MAX);
        for (size_t from = 0; from <= n + 1; from++) told = told && is_next(&one, from, from);
        CHECK(told && is_next(&one, SIZE_MAX, n));
    }
}

static void test_any_total(void) {
    static const uint64_t totals[] = {0, 1, 4, 768, 769, 0x1122334455667788u, UINT64_MAX};
    opened(&one, 64, 1, 9);
    for (size_t i = 0; i < sizeof totals / sizeof totals[0]; i++) {
        put_index(totals[i], 0);
        REFUSED(DESK_DONE, total(&one).refusal);
        CHECK(total(&one).total == totals[i]);
    }
}

/* what is lent to a question is only read: here it stands where nothing can be written */
static const uint64_t shut_board[DESK_BUCKET_WORDS] = {0x0001000100000002u, 7, 0, 8, 1, 0, 2};
static const uint64_t shut_index[DESK_INDEX_WORDS] = {2, 1};

static void test_read_only(void) {
    desk_floor floor = {.workers = 1, .buckets = 1, .last = 2};
    CHECK(desk_total(shut_board, DESK_BUCKET_WORDS, shut_index, DESK_INDEX_WORDS, floor).total == 2);
    CHECK(desk_next_occupied(shut_board, DESK_BUCKET_WORDS, shut_index, DESK_INDEX_WORDS, floor, 0).found);
    CHECK(!desk_next_occupied(shut_board, DESK_BUCKET_WORDS, shut_index, DESK_INDEX_WORDS, floor, 1).found);
}

/* ---- an index that no opening made: turns and retirings */

/* Worker 0 holds slot 1 of a bucket and stands before its commit, whatever the marks there are. The others are at the same bucket, an insert
   that would claim slot 0, a look, and a remove that closes it, and hold nothing. */
static void opened_with_holder(size_t buckets, size_t bucket, uint64_t marks) {
    uint64_t word = marks | 9;
    opened(&one, 4, buckets, 9);
    one.board[DESK_BUCKET_WORDS * bucket] = word;
    one.records[0] = (desk_worker){.key = bucket, .word = word, .ticket = 1, .kind = DESK_INSERT, .place = 9, .held = 1};
    one.records[1] = (desk_worker){.key = bucket, .word = word, .ticket = 1, .kind = DESK_INSERT, .place = 6, .held = DESK_NO_SLOT};
    one.records[2] = (desk_worker){.key = bucket, .kind = DESK_LOOK, .place = 3, .held = DESK_NO_SLOT};
    one.records[3] = (desk_worker){.key = bucket, .word = word, .kind = DESK_REMOVE, .place = 13, .held = DESK_NO_SLOT};
    read_anew(&one);
}

/* a turn, a run and a retiring of each worker, from the same hall */
static void all_are_done(void) {
    for (uint8_t worker = 0; worker < 4; worker++) {
        copy_hall(&two, &one);
        CHECK(turn(&two, worker).refusal == DESK_DONE);
        copy_hall(&two, &one);
        CHECK(run(&two, &worker, 1).stop == DESK_DONE);
        copy_hall(&two, &one);
        CHECK(retire(&two, worker) == DESK_DONE);
    }
}

/* the same where they are refused; but whoever holds nothing is retired all the same */
static void all_give(uint8_t number) {
    for (uint8_t worker = 0; worker < 4; worker++) {
        REFUSED(number, refused_turn(worker));
        REFUSED(number, refused_run(&worker, 1));
        copy_hall(&two, &one);
        CHECK(retire(&two, worker) == (worker == 0 ? number : DESK_DONE));
    }
}

/* §21.5: the total from v to 3N - (3 - v), of v valid slots, both ends among them, and what is past either; then the bit alone; and a
   broken bucket, which comes first */
static void each_cause(size_t buckets, size_t bucket, uint64_t marks) {
    uint64_t valid = valid_slots(marks), most = 3 * buckets - (3 - valid);
    const uint64_t past[] = {valid - 1, most + 1, 3 * buckets + 1, valid + 4294967296u, UINT64_MAX};
    opened_with_holder(buckets, bucket, marks);
    CHECK(one.index[0] == valid);
    all_are_done();
    one.index[0] = most;
    all_are_done();
    for (size_t i = 0; i < sizeof past / sizeof past[0]; i++) {
        one.index[0] = past[i];
        all_give(DESK_UNTRUE_INDEX);
    }
    one.index[0] = valid;
    one.index[1 + bucket / 64] ^= 1ull << bucket % 64;
    all_give(DESK_UNTRUE_INDEX);
    one.board[DESK_BUCKET_WORDS * bucket + DESK_AT_SPARE] = 1;
    all_give(DESK_BROKEN_BUCKET);
}

/* no slot is valid, one is, two are, all are; that of the holder is being inserted, or is not, as no history leaves it */
static void test_causes(void) {
    static const uint64_t marks[] = {0, 0x020000000000u, 0x020100000000u, 0x010000000000u, 0x1020100000000u, 0x1010100000000u};
    static const size_t buckets[] = {1, 2, 65, 256};
    for (size_t i = 0; i < sizeof marks / sizeof marks[0]; i++) {
        for (size_t j = 0; j < sizeof buckets / sizeof buckets[0]; j++) each_cause(buckets[j], buckets[j] - 1, marks[i]);
        for (size_t j = 0; j < ENDS; j++) each_cause(256, ends[j], marks[i]);
    }
}

/* no more is looked at than the total and the bucket's own bit, and of other bits none changes, those past the last bucket among them */
static void test_other_bits(void) {
    for (size_t i = 0; i < ENDS; i++) {
        opened_with_holder(256, ends[i], 0x0000020000000000u);
        for (size_t j = 1; j < DESK_INDEX_WORDS; j++) one.index[j] = ~one.index[j];
        one.index[1 + i / 2] ^= i % 2 == 0 ? 1 : 1ull << 63;
        all_are_done();
    }
    opened(&one, 1, 1, 9);
    put_index(0, UINT64_MAX);
    one.index[1] -= 1;
    CHECK(start(0, DESK_INSERT, 7) == DESK_DONE);
    for (unsigned i = 0; i < 11; i++) CHECK(turn(&one, 0).refusal == DESK_DONE);
    CHECK(one.index[0] == 1);
    for (size_t i = 1; i < DESK_INDEX_WORDS; i++) CHECK(one.index[i] == UINT64_MAX);
    CHECK(start(0, DESK_REMOVE, 7) == DESK_DONE);
    for (unsigned i = 0; i < 4; i++) CHECK(turn(&one, 0).refusal == DESK_DONE);
    CHECK(one.index[0] == 0 && one.index[1] == UINT64_MAX - 1 && one.index[2] == UINT64_MAX && one.index[4] == UINT64_MAX);
}

/* A retiring takes a valid slot away where its record holds one, which no history leads to: with the last of a bucket the bit goes. */
static void test_valid_slot_retired(void) {
    opened_with_holder(256, 127, 0x0001010000000000u);
    CHECK(one.index[0] == 2 && retire(&one, 0) == DESK_DONE && one.index[0] == 1 && one.index[2] == 1ull << 63);
    opened_with_holder(256, 127, 0x0002010000000000u);
    CHECK(one.index[0] == 1 && retire(&one, 0) == DESK_DONE && one.index[0] == 0 && one.index[2] == 0);
}

/* ---- a run in which the total that one bucket allows becomes one that another does not */

/* worker 0 swaps in the first bucket of two, between turns of a look in the second, the later of which is refused */
static void stops_after(desk_worker swaps, uint64_t first, uint64_t second, uint64_t total) {
    static const uint8_t turns[] = {1, 0, 1, 1};
    opened(&one, 2, 2, 9);
    one.board[DESK_AT_MARK] = swaps.word = first | 9, one.board[DESK_BUCKET_WORDS + DESK_AT_MARK] = second | 9;
    read_anew(&one);
    one.records[0] = swaps;
    CHECK(start(1, DESK_LOOK, 5) == DESK_DONE);
    one.index[0] = total;
    desk_run_outcome r = run(&one, turns, 4);
    CHECK(counts(r, 2, 1, 0, 0, DESK_UNTRUE_INDEX) && r.last.action == DESK_WON && r.last.bucket == 0);
    REFUSED(DESK_UNTRUE_INDEX, refused_turn(1));
}

/* a lot is closed, and the other bucket has more than what is left; one is committed, and the other has too many slots that are not valid */
static void test_stops(void) {
    desk_worker closes = {.key = 4, .seen = 6, .kind = DESK_REMOVE, .place = 13, .held = DESK_NO_SLOT};
    desk_worker commits = {.key = 4, .ticket = 6, .kind = DESK_INSERT, .place = 9, .held = 0};
    stops_after(closes, 0x0000000100000000u, 0x0000010100000000u, 2);
    CHECK(one.index[0] == 1 && one.index[1] == 2);
    stops_after(commits, 0x0000000200000000u, 0, 3);
    CHECK(one.index[0] == 4 && one.index[1] == 1);
}

/* the index of docs/CLASS.md, and its four questions */
static void test_class(void) {
    static const uint64_t index[DESK_INDEX_WORDS] = {3, 128, 64, 0, 256};
    opened_and_kept(1, 256);
    CHECK(ends_with(DESK_INSERT, 7) == 1 && ends_with(DESK_INSERT, 70) == 1 && ends_with(DESK_INSERT, 200) == 1);
    for (size_t i = 0; i < DESK_INDEX_WORDS; i++) CHECK(one.index[i] == index[i]);
    CHECK(is_next(&one, 0, 7) && is_next(&one, 8, 70) && is_next(&one, 71, 200) && is_next(&one, 201, 256));
}

void test_display(void) {
    test_class();
    test_each_turn();
    test_retirings();
    test_one_bucket();
    test_ends_of_words();
    test_last_buckets();
    test_full_board();
    test_any_order();
    test_each_bit();
    test_any_total();
    test_read_only();
    test_causes();
    test_other_bits();
    test_valid_slot_retired();
    test_stops();
}
