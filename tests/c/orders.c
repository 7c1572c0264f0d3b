/* All orders: what the call tells of a class, beside every order of it found here, turn by turn, and then given to the library as a run;
   figures that can be told beforehand; that nothing lent is written to; and when it is refused. Rules: docs/RULES.md, section 18. */
#include "hall.h"

/* ---- every order, one by one */

typedef struct {
    uint64_t board[DESK_BUCKET_WORDS];
    desk_worker records[DESK_MOST_IN_CLASS];
    uint64_t index[DESK_INDEX_WORDS]; /* of which the call knows nothing; it is for the turns and the runs beside it */
} small_class;

/* the order that is being made, what all before it came to, and whether none of them was told by a run otherwise than by its turns */
typedef struct {
    const hall *outset;
    size_t depth;
    uint8_t turns[DESK_MOST_DEPTH];
    desk_orders_outcome sum;
    bool as_runs;
} account;

static small_class class_of(const hall *h) {
    small_class c;
    for (size_t i = 0; i < DESK_BUCKET_WORDS; i++) c.board[i] = h->board[i];
    for (size_t i = 0; i < DESK_MOST_IN_CLASS; i++) c.records[i] = i < h->listed ? h->records[i] : desk_idle_record();
    for (size_t i = 0; i < DESK_INDEX_WORDS; i++) c.index[i] = h->index[i];
    return c;
}

static bool same_class(const small_class *a, const small_class *b) {
    for (size_t i = 0; i < DESK_BUCKET_WORDS; i++)
        if (a->board[i] != b->board[i]) return false;
    for (size_t i = 0; i < DESK_MOST_IN_CLASS; i++)
        if (!same_record(&a->records[i], &b->records[i])) return false;
    for (size_t i = 0; i < DESK_INDEX_WORDS; i++)
        if (a->index[i] != b->index[i]) return false;
    return true;
}

static bool busy(const small_class *c, size_t worker) { return c->records[worker].kind != DESK_IDLE; }

/* an order that is at its end, which its turns have brought to `now`: from the outset, as one run */
static void add_order(account *a, const small_class *now, size_t turns) {
    small_class left = class_of(a->outset);
    size_t workers = a->outset->listed;
    desk_floor floor = a->outset->floor;
    desk_run_outcome r =
        desk_run(left.board, DESK_BUCKET_WORDS, left.records, workers, left.index, DESK_INDEX_WORDS, floor, a->turns, turns);
    if (r.stop != DESK_DONE || r.totals.turns != turns || !same_class(&left, now)) a->as_runs = false;
    bool finished = true;
    for (size_t i = 0; i < workers; i++) finished = finished && !busy(&left, i);
    a->sum.finished += finished;
    a->sum.cut += !finished;
    a->sum.lost += r.totals.lost;
    if (a->sum.most < r.totals.lost) a->sum.most = r.totals.lost;
}

/* every order whose first turns are those made so far; each busy worker in turn has the next one */
static void try_orders(account *a, const small_class *now, size_t turns) {
    bool ended = true;
    size_t workers = a->outset->listed;
    desk_floor floor = a->outset->floor;
    for (size_t i = 0; i < workers && turns < a->depth; i++) {
        if (!busy(now, i)) continue;
        small_class next = *now;
        desk_turn_outcome t = desk_turn(next.board, DESK_BUCKET_WORDS, next.records, workers, next.index, DESK_INDEX_WORDS, floor, i);
        if (t.refusal != DESK_DONE) a->as_runs = false;
        a->turns[turns] = (uint8_t)i;
        try_orders(a, &next, turns + 1);
        ended = false;
    }
    if (ended) add_order(a, now, turns);
}

/* what the call tells, once it is held to the orders one by one */
static desk_orders_outcome ordered(const hall *h, size_t depth) {
    account a = {.outset = h, .depth = depth, .as_runs = true};
    small_class outset = class_of(h);
    try_orders(&a, &outset, 0);
    CHECK(a.as_runs);
    desk_orders_outcome o = orders(h, depth);
    CHECK(walked(o, a.sum.finished, a.sum.cut, a.sum.lost, a.sum.most));
    return o;
}

static void ordered_to(const hall *h, size_t from, size_t to) {
    for (size_t depth = from; depth <= to; depth++) ordered(h, depth);
}

/* ---- classes */

static void opened_class(hall *h, size_t workers) { opened(h, workers, 1, 0); }

static void turns_of(hall *h, size_t worker, unsigned turns) {
    for (unsigned i = 0; i < turns; i++) CHECK(turn(h, worker).refusal == DESK_DONE);
}

/* worker 0 inserts a lot, alone */
static void stands(hall *h, uint64_t lot, uint64_t ticket) {
    CHECK(start_insert(h, 0, lot, ticket) == DESK_DONE);
    for (unsigned i = 0; i < 13 && h->records[0].kind != DESK_IDLE; i++) turns_of(h, 0, 1);
    CHECK(h->records[0].kind == DESK_IDLE);
}

/* nobody is busy: one order, of no turn, to whatever depth */
static void test_all_idle(void) {
    for (size_t workers = 1; workers <= DESK_MOST_IN_CLASS; workers++) {
        opened_class(&one, workers);
        stands(&one, 7, 1);
        CHECK(walked(ordered(&one, 1), 1, 0, 0, 0));
        CHECK(walked(ordered(&one, DESK_MOST_DEPTH), 1, 0, 0, 0));
    }
}

/* One worker has one order. A look takes six turns on an empty bucket, and is finished where those are all that the depth allows; an insert
   that goes round on a full one is cut at every depth. */
static void test_alone(void) {
    opened_class(&one, 1);
    CHECK(start_look(&one, 0, 7) == DESK_DONE);
    for (size_t depth = 1; depth <= DESK_MOST_DEPTH; depth++) CHECK(walked(ordered(&one, depth), depth >= 6, depth < 6, 0, 0));
    opened_class(&one, 1);
    for (uint64_t lot = 1; lot <= DESK_SLOTS; lot++) stands(&one, lot, lot);
    CHECK(start_insert(&one, 0, 7, 4) == DESK_DONE);
    for (size_t depth = 1; depth <= DESK_MOST_DEPTH; depth++) CHECK(walked(ordered(&one, depth), 0, 1, 0, 0));
}

/* Two looks of six turns each can be put together in 12! / (6! 6!) orders. One turn less cuts each of them once; while both are busy each
   turn doubles the orders. */
static void test_two_looks(void) {
    opened_class(&one, 2);
    CHECK(start_look(&one, 0, 7) == DESK_DONE && start_look(&one, 1, 7) == DESK_DONE);
    CHECK(walked(orders(&one, DESK_MOST_DEPTH), 924, 0, 0, 0));
    CHECK(walked(orders(&one, 12), 924, 0, 0, 0));
    CHECK(walked(orders(&one, 11), 0, 924, 0, 0));
    CHECK(walked(orders(&one, 6), 0, 64, 0, 0));
    CHECK(walked(orders(&one, 1), 0, 2, 0, 0));
    ordered_to(&one, 1, DESK_MOST_DEPTH);
}

/* P8's two inserts: from their starts, and when both are about to swap, where each number is another to the last depth. The figures were
   made by a program apart. */
static void test_two_inserts(void) {
    opened_class(&one, 2);
    CHECK(start_insert(&one, 0, 7, 1) == DESK_DONE && start_insert(&one, 1, 7, 2) == DESK_DONE);
    ordered_to(&one, 6, 14);
    CHECK(walked(orders(&one, 16), 66, 60436, 12868, 1));
    turns_of(&one, 0, 7);
    turns_of(&one, 1, 7);
    ordered_to(&one, 1, 17);
    CHECK(walked(orders(&one, DESK_MOST_DEPTH), 7012, 18994, 70968, 3));
}

/* the first commit's version is 0, and the second insert, of another lot, has met both versions */
static void test_version(void) {
    opened(&one, 2, 1, 0xFFFFFFFFu);
    CHECK(start_insert(&one, 0, 7, 1) == DESK_DONE && start_insert(&one, 1, 8, 2) == DESK_DONE);
    turns_of(&one, 0, 7);
    turns_of(&one, 1, 7);
    ordered_to(&one, 8, 14);
}

/* an insert and a remove of one lot: it is not there, it is there, and both are on their way */
static void test_insert_and_remove(void) {
    opened_class(&one, 2);
    CHECK(start_insert(&one, 0, 7, 1) == DESK_DONE && start_remove(&one, 1, 7) == DESK_DONE);
    ordered_to(&one, 9, 15);
    opened_class(&one, 2);
    stands(&one, 7, 1);
    CHECK(start_insert(&one, 0, 7, 2) == DESK_DONE && start_remove(&one, 1, 7) == DESK_DONE);
    ordered_to(&one, 1, 14);
    turns_of(&one, 1, 3);
    turns_of(&one, 0, 3);
    ordered_to(&one, 10, 14);
}

static void test_three(void) {
    opened_class(&one, 3);
    CHECK(start_insert(&one, 0, 7, 1) == DESK_DONE && start_insert(&one, 1, 7, 2) == DESK_DONE && start_remove(&one, 2, 7) == DESK_DONE);
    CHECK(walked(ordered(&one, 4), 0, 81, 0, 0));
    ordered_to(&one, 5, 6);
    turns_of(&one, 0, 7);
    turns_of(&one, 1, 7);
    ordered_to(&one, 1, 6);
    opened_class(&one, 3);
    stands(&one, 7, 1);
    for (size_t worker = 0; worker < 3; worker++) {
        CHECK(start_remove(&one, worker, 7) == DESK_DONE);
        turns_of(&one, worker, 3);
    }
    ordered_to(&one, 1, 6); /* of three closes one is won */
}

/* an idle worker has no turn, wherever it stands in the list; and who is where in it is all the same for the counts */
static void test_idle_ones(void) {
    opened_class(&one, 2);
    stands(&one, 7, 1);
    CHECK(start_remove(&one, 0, 7) == DESK_DONE && start_remove(&one, 1, 7) == DESK_DONE);
    desk_orders_outcome of_two = ordered(&one, 9);
    for (size_t idle = 0; idle < 3; idle++) {
        opened_class(&two, 3);
        stands(&two, 7, 1);
        for (size_t i = 0; i < 3; i++) CHECK(i == idle || start_remove(&two, i, 7) == DESK_DONE);
        CHECK(walked(ordered(&two, 9), of_two.finished, of_two.cut, of_two.lost, of_two.most));
    }
}

/* Records that no history leads to, and a board that no history leaves, where the rules say all the same what a turn does: two hold one slot,
   a remove expects a word that never stood there. */
static void test_any_records(void) {
    opened_class(&one, 3);
    one.board[0] = 0x0002010200000005u, one.board[2] = 9, one.board[5] = 0;
    read_anew(&one);
    one.records[0] = (desk_worker){.kind = DESK_INSERT, .place = 9, .key = 7, .ticket = 4, .word = one.board[0], .held = 1};
    one.records[1] = (desk_worker){.kind = DESK_INSERT, .place = 10, .key = 7, .ticket = 4, .slot = 2, .held = 1};
    one.records[2] = (desk_worker){.kind = DESK_REMOVE, .place = 13, .key = 9, .word = 3, .slot = 1, .seen = 6, .held = DESK_NO_SLOT};
    ordered_to(&one, 1, 7);
}

/* ---- what is lent is only read: here it stands where nothing can be written */

static const uint64_t shut_board[DESK_BUCKET_WORDS] = {0x0000000100000001u, 7, 0, 0, 1};
static const desk_worker shut_records[2] = {
    {.key = 7, .kind = DESK_REMOVE, .place = 1, .held = DESK_NO_SLOT},
    {.key = 7, .ticket = 2, .kind = DESK_INSERT, .place = 1, .held = DESK_NO_SLOT},
};

static void test_read_only(void) {
    desk_floor floor = {.workers = 2, .buckets = 1, .last = 2};
    opened_class(&one, 2);
    for (size_t i = 0; i < DESK_BUCKET_WORDS; i++) one.board[i] = shut_board[i];
    for (size_t i = 0; i < 2; i++) one.records[i] = shut_records[i];
    read_anew(&one);
    desk_orders_outcome o = desk_orders(shut_board, DESK_BUCKET_WORDS, shut_records, 2, floor, 10), same = ordered(&one, 10);
    CHECK(walked(o, same.finished, same.cut, same.lost, same.most));
}

/* ---- refusals: 10 by each cause alone and both ends of each range; a broken record of whichever worker; the bucket, also where nobody is
   busy; and which comes first */

static bool accepted_orders(size_t depth) {
    return orders(&one, depth).refusal == DESK_DONE;
}

static void test_small_class(void) {
    static const size_t no_depth[] = {0, 25, 256, 257, 4294967296u, 4294967297u, SIZE_MAX};
    for (size_t workers = 1; workers <= 3; workers++) {
        opened(&one, workers, 1, 9);
        CHECK(start_look(&one, workers - 1, 7) == DESK_DONE);
        CHECK(accepted_orders(1) && accepted_orders(24));
        for (size_t i = 0; i < sizeof no_depth / sizeof no_depth[0]; i++) REFUSED(DESK_NO_SMALL_CLASS, refused_orders(no_depth[i]));
    }
    static const size_t too_many_workers[] = {4, 5, 64}, too_many_buckets[] = {2, 3, 256};
    for (unsigned i = 0; i < 3; i++) {
        opened(&one, too_many_workers[i], 1, 9);
        REFUSED(DESK_NO_SMALL_CLASS, refused_orders(1));
        opened(&one, 1, too_many_buckets[i], 9);
        REFUSED(DESK_NO_SMALL_CLASS, refused_orders(1));
        opened(&one, too_many_workers[i], too_many_buckets[i], 9);
        REFUSED(DESK_NO_SMALL_CLASS, refused_orders(0));
    }
}

/* what makes a record broken, one thing in each; the others of the class are sound, or idle */
static void test_broken_in_class(void) {
    uint64_t no_mark_word = 3ull << 40, low_half_0 = 1ull << 32;
    const desk_worker broken[] = {
        {.kind = 4, .place = 2, .held = 3},
        {.held = 0},
        {.held = 3, .seen = 1},
        {.held = 3, .asleep = 1},
        {.held = 3, .asleep = UINT32_MAX},
        {.held = 3, .ticket = 1},
        {.held = 3, .ticket = low_half_0},
        {.kind = DESK_LOOK, .place = 1, .held = 3},
        {.kind = DESK_LOOK, .place = 6, .held = 3},
        {.kind = DESK_LOOK, .place = 2, .slot = 3, .held = 3},
        {.kind = DESK_LOOK, .place = 2, .held = 3, .ticket = 1},
        {.kind = DESK_LOOK, .place = 2, .held = 3, .ticket = low_half_0},
        {.kind = DESK_LOOK, .place = 2, .held = 3, .word = 1},
        {.kind = DESK_LOOK, .place = 2, .held = 2},
        {.kind = DESK_INSERT, .place = 11, .held = 2, .ticket = 1},
        {.kind = DESK_INSERT, .place = 1, .held = 3},
        {.kind = DESK_INSERT, .place = 6, .held = 0, .ticket = 1},
        {.kind = DESK_INSERT, .place = 7, .held = 3, .ticket = 1},
        {.kind = DESK_INSERT, .place = 1, .held = 4, .ticket = 1},
        {.kind = DESK_INSERT, .place = 1, .held = 3, .ticket = 1, .word = no_mark_word},
        {.kind = DESK_REMOVE, .place = 10, .held = 3},
        {.kind = DESK_REMOVE, .place = 14, .held = 3},
        {.kind = DESK_REMOVE, .place = 13, .held = 3, .ticket = 1},
        {.kind = DESK_REMOVE, .place = 13, .held = 3, .ticket = low_half_0},
        {.kind = DESK_REMOVE, .place = 13, .held = 1},
        {.kind = DESK_REMOVE, .place = 13, .held = 3, .word = 1ull << 56},
    };
    for (size_t i = 0; i < sizeof broken / sizeof broken[0]; i++)
        for (size_t worker = 0; worker < 3; worker++) {
            opened(&one, 3, 1, 9);
            CHECK(start_insert(&one, (worker + 1) % 3, 7, 1) == DESK_DONE && accepted_orders(2));
            one.records[worker] = broken[i];
            REFUSED(DESK_BROKEN_RECORD, refused_orders(1));
        }
}

static void test_broken_bucket_of_class(void) {
    static const uint64_t words[] = {3ull << 32, 4ull << 40, 255ull << 48, 1ull << 56, 1ull << 63};
    opened(&one, 2, 1, 9);
    for (unsigned busy = 0; busy < 2; busy++) {
        for (size_t i = 0; i < sizeof words / sizeof words[0]; i++) {
            one.board[DESK_AT_MARK] = words[i];
            REFUSED(DESK_BROKEN_BUCKET, refused_orders(24));
        }
        one.board[DESK_AT_MARK] = 0x0002010000000009u;
        one.board[DESK_AT_SPARE] = 1ull << 63;
        REFUSED(DESK_BROKEN_BUCKET, refused_orders(24));
        one.board[DESK_AT_SPARE] = 0;
        CHECK(accepted_orders(24));
        CHECK(busy > 0 || start_remove(&one, 1, 7) == DESK_DONE);
    }
}

/* everything is wrong, and then one thing less after another */
static void test_order_in_class(void) {
    opened(&one, 3, 1, 9);
    one.board[DESK_AT_SPARE] = 1;
    one.records[2].place = 14;
    one.listed = 2;
    REFUSED(DESK_WRONG_SIZES, refused_orders(25));
    one.listed = 3;
    REFUSED(DESK_NO_SMALL_CLASS, refused_orders(25));
    REFUSED(DESK_BROKEN_RECORD, refused_orders(24));
    one.records[2].place = 0;
    REFUSED(DESK_BROKEN_BUCKET, refused_orders(24));
    one.board[DESK_AT_SPARE] = 0;
    CHECK(accepted_orders(24));
    /* 10 before 3 and before 7 by each of its other causes, with the rest as it should be */
    opened(&one, 4, 1, 9);
    one.records[0].place = 14;
    REFUSED(DESK_NO_SMALL_CLASS, refused_orders(1));
    opened(&one, 3, 2, 9);
    one.records[0].place = 14;
    REFUSED(DESK_NO_SMALL_CLASS, refused_orders(1));
    opened(&one, 3, 2, 9);
    one.board[DESK_AT_SPARE] = 1;
    REFUSED(DESK_NO_SMALL_CLASS, refused_orders(1));
}

void test_orders(void) {
    test_all_idle();
    test_alone();
    test_two_looks();
    test_two_inserts();
    test_version();
    test_insert_and_remove();
    test_three();
    test_idle_ones();
    test_any_records();
    test_read_only();
    test_small_class();
    test_broken_in_class();
    test_broken_bucket_of_class();
    test_order_in_class();
}
