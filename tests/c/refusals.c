/* Every refusal: the number alone, and everything as it was; those of all orders are in orders.c, each cause of 11 is in display.c, and those
   of a move, one by one and two by two, in move.c. Buckets begin at version 9, and some lots are of the second one, since a refused turn must
   tell nothing of its bucket. */
#include "hall.h"

static uint8_t refused_show(uint64_t lot) {
    desk_part p = desk_show(one.board, one.words, one.floor, lot);
    CHECK(p.start == 0 && p.words == 0);
    return desk_show_refusal(one.board, one.words, one.floor, lot);
}

static uint8_t refused_count(void) {
    desk_count_outcome c = desk_count(one.board, one.words, one.floor);
    CHECK(c.lots == 0);
    return c.refusal;
}

static uint8_t refused_total(void) {
    desk_total_outcome t = total(&one);
    CHECK(t.total == 0);
    return t.refusal;
}

static uint8_t refused_next(size_t from) {
    desk_next_outcome n = next_occupied(&one, from);
    CHECK(n.bucket == 0 && !n.found);
    return n.refusal;
}

/* 1, where the sizes do not fit together: each call that takes the list, and each that takes none. The index has something to tell. */
static void all_give_1(bool board_too) {
    uint8_t first = 0;
    one.index[0] = 3, one.index[1] = 1;
    REFUSED(DESK_WRONG_SIZES, start_look(&one, 0, 7));
    REFUSED(DESK_WRONG_SIZES, start_insert(&one, 0, 7, 1));
    REFUSED(DESK_WRONG_SIZES, start_remove(&one, 0, 7));
    REFUSED(DESK_WRONG_SIZES, refused_turn(0));
    REFUSED(DESK_WRONG_SIZES, refused_run(&first, 1));
    REFUSED(DESK_WRONG_SIZES, refused_run(many, ROOM_FOR_TURNS));
    REFUSED(DESK_WRONG_SIZES, refused_orders(1));
    REFUSED(DESK_WRONG_SIZES, refused_orders(0));
    REFUSED(DESK_WRONG_SIZES, retire(&one, 0));
    REFUSED(DESK_WRONG_SIZES, retire(&one, SIZE_MAX));
    REFUSED(DESK_WRONG_SIZES, move(&one, &two, 1));
    REFUSED(DESK_WRONG_SIZES, move(&one, &two, 256));
    if (board_too) {
        REFUSED(DESK_WRONG_SIZES, refused_show(7));
        REFUSED(DESK_WRONG_SIZES, refused_count());
        REFUSED(DESK_WRONG_SIZES, refused_total());
        REFUSED(DESK_WRONG_SIZES, refused_next(0));
    } else {
        REFUSED(DESK_DONE, desk_show_refusal(one.board, one.words, one.floor, 7));
        REFUSED(DESK_DONE, desk_count(one.board, one.words, one.floor).refusal);
        REFUSED(DESK_DONE, total(&one).refusal);
        REFUSED(DESK_DONE, next_occupied(&one, 0).refusal);
    }
}

/* §6.1: 1, where the index has not five words: each call that takes it, before all other numbers; those that take none are done */
static void index_gives_1(size_t entries) {
    uint8_t first = 0;
    opened(&one, 2, 2, 9);
    CHECK(start_insert(&one, 0, 7, 1) == DESK_DONE);
    one.index[0] = 3, one.index[1] = 1, one.entries = entries;
    REFUSED(DESK_WRONG_SIZES, open_hall(&one, 2, 2, 0));
    REFUSED(DESK_WRONG_SIZES, refused_turn(0));
    REFUSED(DESK_WRONG_SIZES, refused_turn(2));
    REFUSED(DESK_WRONG_SIZES, refused_run(&first, 1));
    REFUSED(DESK_WRONG_SIZES, refused_run(NULL, 0));
    REFUSED(DESK_WRONG_SIZES, refused_run(many, ROOM_FOR_TURNS));
    REFUSED(DESK_WRONG_SIZES, retire(&one, 0));
    REFUSED(DESK_WRONG_SIZES, retire(&one, 1));
    REFUSED(DESK_WRONG_SIZES, refused_total());
    REFUSED(DESK_WRONG_SIZES, refused_next(0));
    REFUSED(DESK_WRONG_SIZES, refused_next(SIZE_MAX));
    REFUSED(DESK_WRONG_SIZES, move(&one, &two, 2));
    REFUSED(DESK_DONE, desk_show_refusal(one.board, one.words, one.floor, 7));
    REFUSED(DESK_DONE, desk_count(one.board, one.words, one.floor).refusal);
    CHECK(start_look(&one, 1, 7) == DESK_DONE);
}

static void test_entries(void) {
    for (size_t entries = 0; entries <= ROOM_FOR_ENTRIES; entries++)
        if (entries != DESK_INDEX_WORDS) index_gives_1(entries);
}

static void test_sizes(void) {
    size_t workers[] = {0, 65, 66, SIZE_MAX}, buckets[] = {0, 257, SIZE_MAX};
    fill(&one);
    one.entries = DESK_INDEX_WORDS;
    for (unsigned i = 0; i < 4; i++) {
        one.words = 8, one.listed = i < 3 ? workers[i] : 2;
        REFUSED(DESK_WRONG_SIZES, open_hall(&one, workers[i], 1, 0));
        opened(&one, 2, 1, 9);
        one.floor.workers = workers[i], one.listed = i < 3 ? workers[i] : 2;
        all_give_1(true);
    }
    for (unsigned i = 0; i < 3; i++) {
        fill(&one);
        one.words = i < 2 ? 8 * buckets[i] : 8, one.listed = 2;
        REFUSED(DESK_WRONG_SIZES, open_hall(&one, 2, buckets[i], 0));
        opened(&one, 2, 1, 9);
        one.floor.buckets = buckets[i], one.words = i < 2 ? 8 * buckets[i] : 8;
        all_give_1(true);
    }
    opened(&one, 64, 256, 9);
    one.words = 2040;
    REFUSED(DESK_WRONG_SIZES, open_hall(&one, 64, 256, 0));
    all_give_1(true);
    opened(&one, 2, 1, 9);
    for (size_t listed = 0; listed <= ROOM_FOR_WORKERS; listed += listed < 3 ? 1 : 63) {
        if (listed == 2) continue;
        one.listed = listed;
        REFUSED(DESK_WRONG_SIZES, open_hall(&one, 2, 1, 0));
        all_give_1(false);
    }
}

static void test_workers(void) {
    uint8_t sixty_four = 64, all = 255;
    opened(&one, 64, 1, 9);
    CHECK(start_look(&one, 63, 7) == DESK_DONE);
    REFUSED(DESK_NO_WORKER, start_look(&one, 64, 7));
    REFUSED(DESK_NO_WORKER, start_insert(&one, SIZE_MAX, 7, 1));
    REFUSED(DESK_NO_WORKER, start_remove(&one, 64, 7));
    REFUSED(DESK_NO_WORKER, refused_turn(64));
    REFUSED(DESK_NO_WORKER, refused_run(&sixty_four, 1));
    REFUSED(DESK_NO_WORKER, refused_run(&all, 1));
    static const size_t nobody[] = {64, 65, 127, 256, 4294967296u, 4294967359u, SIZE_MAX};
    for (size_t i = 0; i < sizeof nobody / sizeof nobody[0]; i++) REFUSED(DESK_NO_WORKER, retire(&one, nobody[i]));
}

/* a record that is no call's and not idle (§3.3), the last of three */
static void nearly_idle(desk_worker w) {
    uint8_t third = 2;
    opened(&one, 3, 1, 9);
    one.records[2] = w;
    REFUSED(DESK_BROKEN_RECORD, start_look(&one, 2, 7));
    REFUSED(DESK_BROKEN_RECORD, start_insert(&one, 2, 7, 0));
    REFUSED(DESK_BROKEN_RECORD, start_remove(&one, 2, 7));
    REFUSED(DESK_BROKEN_RECORD, refused_turn(2));
    REFUSED(DESK_BROKEN_RECORD, refused_run(&third, 1));
    REFUSED(DESK_BROKEN_RECORD, retire(&one, 2));
    REFUSED(DESK_BROKEN_RECORD, refused_orders(1));
    REFUSED(DESK_BROKEN_RECORD, move(&one, &two, 1));
    one.records[2] = desk_idle_record();
    CHECK(start_look(&one, 2, 7) == DESK_DONE);
}

/* one that is idle but for the turns that it counts (§20.1) */
static void idle_and_asleep(uint32_t asleep) {
    desk_worker w = desk_idle_record();
    w.asleep = asleep;
    nearly_idle(w);
}

/* and one that is idle but for a ticket, of which either half can be 0 */
static void idle_with_ticket(uint64_t ticket) {
    desk_worker w = desk_idle_record();
    w.ticket = ticket;
    nearly_idle(w);
}

static void test_records(void) {
    uint8_t first = 0, second = 1;
    opened(&one, 2, 2, 9);
    one.records[0].held = 2;
    REFUSED(DESK_BROKEN_RECORD, start_look(&one, 0, 7));
    REFUSED(DESK_BROKEN_RECORD, start_insert(&one, 0, 7, 0));
    REFUSED(DESK_BROKEN_RECORD, start_remove(&one, 0, 7));
    REFUSED(DESK_BROKEN_RECORD, refused_turn(0));
    REFUSED(DESK_BROKEN_RECORD, refused_run(&first, 1));
    REFUSED(DESK_BROKEN_RECORD, retire(&one, 0));
    REFUSED(DESK_BROKEN_RECORD, move(&one, &two, 2));
    CHECK(start_remove(&one, 1, 5) == DESK_DONE);
    one.records[1].place = 14;
    REFUSED(DESK_BROKEN_RECORD, refused_turn(1));
    REFUSED(DESK_BROKEN_RECORD, retire(&one, 1));
    REFUSED(DESK_BROKEN_RECORD, refused_run(&second, 1));
    idle_and_asleep(1);
    idle_and_asleep(UINT32_MAX);
    idle_with_ticket(1);
    idle_with_ticket(UINT32_MAX);
    idle_with_ticket(1ull << 32);
    idle_with_ticket(1ull << 63);
    idle_with_ticket(UINT64_MAX);
}

/* the worker busy or idle, the ticket, the length of a run; and then the bucket, of which a start asks nothing */
static void test_calls(void) {
    uint8_t first = 0, second = 1;
    opened(&one, 2, 1, 9);
    REFUSED(DESK_SPENT_TICKET, start_insert(&one, 0, 7, 0));
    CHECK(start_insert(&one, 0, 7, 4) == DESK_DONE);
    REFUSED(DESK_BUSY_WORKER, start_look(&one, 0, 7));
    REFUSED(DESK_BUSY_WORKER, start_insert(&one, 0, 7, 4));
    REFUSED(DESK_BUSY_WORKER, start_remove(&one, 0, 7));
    REFUSED(DESK_SPENT_TICKET, start_insert(&one, 1, 7, 4));
    REFUSED(DESK_IDLE_WORKER, refused_turn(1));
    REFUSED(DESK_IDLE_WORKER, refused_run(&second, 1));
    REFUSED(DESK_IDLE_WORKER, retire(&one, 1));
    REFUSED(DESK_TOO_LONG, refused_run(many, ROOM_FOR_TURNS));
    REFUSED(DESK_DONE, refused_run(many, 0));
    REFUSED(DESK_NOT_AT_REST, move(&one, &two, 1));

    one.board[DESK_AT_SPARE] = 1;
    REFUSED(DESK_BROKEN_BUCKET, refused_turn(0));
    REFUSED(DESK_BROKEN_BUCKET, refused_run(&first, 1));
    REFUSED(DESK_BROKEN_BUCKET, refused_show(7));
    REFUSED(DESK_BROKEN_BUCKET, refused_count());
    REFUSED(DESK_IDLE_WORKER, refused_turn(1)); /* which comes first */
    REFUSED(DESK_IDLE_WORKER, retire(&one, 1));
    CHECK(start_look(&one, 1, 7) == DESK_DONE);
}

/* of two buckets one is broken: a turn and a show go by their lot's own, a count and a move by any */
static void test_buckets(void) {
    uint8_t second = 1;
    opened(&one, 2, 2, 9);
    CHECK(start_look(&one, 0, 4) == DESK_DONE && start_look(&one, 1, 5) == DESK_DONE);
    one.board[8] = 3ull << 48; /* a mark over 2 in the bucket of the odd lots */
    CHECK(turn(&one, 0).refusal == DESK_DONE);
    REFUSED(DESK_BROKEN_BUCKET, refused_turn(1));
    REFUSED(DESK_BROKEN_BUCKET, refused_run(&second, 1));
    CHECK(desk_show_refusal(one.board, one.words, one.floor, 4) == DESK_DONE);
    REFUSED(DESK_BROKEN_BUCKET, refused_show(5));
    REFUSED(DESK_BROKEN_BUCKET, refused_count());
    CHECK(retire(&one, 0) == DESK_DONE && retire(&one, 1) == DESK_DONE);
    REFUSED(DESK_BROKEN_BUCKET, move(&one, &two, 2));
}

/* ---- a retiring: each way to break a bucket, where a slot is held and where none is; and which reason comes first */

/* an insert of an odd lot, about to commit, and another that holds nothing; both in the second bucket of two */
static void opened_with_holder(void) {
    opened(&one, 2, 2, 9);
    one.board[8] = 0x0000010200000009u;
    one.records[0] = (desk_worker){.key = 5, .word = one.board[8], .ticket = 1, .kind = DESK_INSERT, .place = 9, .held = 0};
    one.records[1] = (desk_worker){.key = 7, .word = one.board[8], .ticket = 2, .kind = DESK_INSERT, .place = 6, .slot = 2, .held = 3};
    read_anew(&one);
}

/* whoever holds a slot is not retired while its bucket is broken, and whoever holds none is */
static void broken_under_retiring(size_t at, uint64_t with) {
    uint8_t number = at < DESK_BUCKET_WORDS ? DESK_DONE : DESK_BROKEN_BUCKET;
    opened_with_holder();
    one.board[at] = with;
    CHECK(retire(&one, 1) == DESK_DONE);
    CHECK(retire(&one, 0) == number);
}

static void test_broken_under_retiring(void) {
    static const uint64_t words[] = {3ull << 32, 4ull << 40, 255ull << 48, 1ull << 56, 1ull << 63};
    for (size_t i = 0; i < sizeof words / sizeof words[0]; i++) {
        broken_under_retiring(8 + DESK_AT_MARK, words[i]);
        broken_under_retiring(DESK_AT_MARK, words[i]); /* in the bucket of the even lots, which is nobody's */
    }
    broken_under_retiring(8 + DESK_AT_SPARE, 1);
    broken_under_retiring(8 + DESK_AT_SPARE, 1ull << 63);
    broken_under_retiring(DESK_AT_SPARE, 1);
}

/* everything is wrong, and then one thing less after another */
static void test_order_of_retiring(void) {
    opened_with_holder();
    one.index[0] = 0;
    one.board[8 + DESK_AT_SPARE] = 1;
    one.records[0].slot = 3;
    one.listed = 1;
    REFUSED(DESK_WRONG_SIZES, retire(&one, 2));
    REFUSED(DESK_WRONG_SIZES, retire(&one, 0));
    one.listed = 2;
    REFUSED(DESK_NO_WORKER, retire(&one, 2));
    REFUSED(DESK_BROKEN_RECORD, retire(&one, 0));
    one.records[0].slot = 0;
    REFUSED(DESK_BROKEN_BUCKET, retire(&one, 0));
    one.board[8 + DESK_AT_SPARE] = 0;
    REFUSED(DESK_UNTRUE_INDEX, retire(&one, 0));
    one.index[0] = 1;
    CHECK(retire(&one, 0) == DESK_DONE);
    one.index[1] = 1; /* and so untrue of either bucket */
    REFUSED(DESK_IDLE_WORKER, retire(&one, 0));
}

/* a turn by itself and in a run */
static void both_give(uint8_t number, uint8_t worker) {
    REFUSED(number, refused_turn(worker));
    REFUSED(number, refused_run(&worker, 1));
}

/* the same of a turn, to 11, which comes last (§6.11); worker 1 is idle, and its lot would be of the first bucket */
static void test_order_of_turns(void) {
    opened_with_holder();
    one.records[1] = desk_idle_record();
    one.index[0] = 0, one.index[1] = 1;
    one.board[DESK_AT_SPARE] = one.board[8 + DESK_AT_SPARE] = 1;
    one.records[0].slot = 3;
    one.listed = 1;
    both_give(DESK_WRONG_SIZES, 2);
    REFUSED(DESK_WRONG_SIZES, refused_run(many, ROOM_FOR_TURNS));
    one.listed = 2;
    REFUSED(DESK_TOO_LONG, refused_run(many, ROOM_FOR_TURNS));
    both_give(DESK_NO_WORKER, 2);
    both_give(DESK_BROKEN_RECORD, 0);
    one.records[0].slot = 0;
    both_give(DESK_IDLE_WORKER, 1);
    both_give(DESK_BROKEN_BUCKET, 0);
    one.board[8 + DESK_AT_SPARE] = 0;
    both_give(DESK_UNTRUE_INDEX, 0);
    one.index[0] = 1, one.index[1] = 3;
    CHECK(turn(&one, 0).refusal == DESK_DONE);
}

/* a run whose ninth turn of twenty is refused by `number` has done eight, keeps the report of the eighth and tells that number */
static void stops(uint8_t number, uint8_t ninth) {
    static const desk_report claim = {.before = 9, .after = 8589934601u, .bucket = 1, .action = DESK_WON};
    for (unsigned i = 0; i < 20; i++) many[i] = i == 8 ? ninth : 0;
    desk_run_outcome r = run(&one, many, 20);
    CHECK(counts(r, 8, 1, 0, 0, number));
    CHECK(same_report(r.last, claim));
}

static void opened_with_insert(void) {
    opened(&one, 3, 2, 9);
    CHECK(start_insert(&one, 0, 5, 1) == DESK_DONE);
}

static void test_stops(void) {
    opened_with_insert();
    stops(DESK_NO_WORKER, 3);
    CHECK(one.board[8] == 8589934601u);
    opened_with_insert();
    one.records[1].place = 14;
    stops(DESK_BROKEN_RECORD, 1);
    opened_with_insert();
    stops(DESK_IDLE_WORKER, 1);
    opened_with_insert();
    CHECK(start_look(&one, 2, 4) == DESK_DONE);
    one.board[7] = 1;
    stops(DESK_BROKEN_BUCKET, 2);
    opened_with_insert();
    CHECK(start_look(&one, 2, 4) == DESK_DONE);
    one.index[1] = 1;
    stops(DESK_UNTRUE_INDEX, 2);
}

static void open_nothing(uint64_t *board, size_t words, desk_worker *records, size_t listed, uint64_t *index, size_t entries) {
    desk_plan plan = {.workers = listed, .buckets = words / DESK_BUCKET_WORDS, .version = 0};
    desk_outcome o = {.refusal = DESK_DONE};
    REFUSED(DESK_WRONG_SIZES, (o = desk_open_floor(board, words, records, listed, index, entries, one.floor, plan)).refusal);
    CHECK(same_floor(o.floor, one.floor));
}

static void move_nothing(const uint64_t *old, size_t had, uint64_t *board, size_t words, const desk_worker *records, size_t listed,
    uint64_t *index, size_t entries) {
    desk_outcome o = {.refusal = DESK_DONE};
    REFUSED(DESK_WRONG_SIZES, (o = desk_move(old, had, board, words, records, listed, index, entries, one.floor, words / 8)).refusal);
    CHECK(same_floor(o.floor, one.floor));
}

/* no pointer where there is nothing behind it: an empty run is done, and no board, no second one, no list and no index are sizes that do not
   fit */
static void test_nothing(void) {
    desk_floor none = {0};
    opened(&one, 2, 1, 9);
    REFUSED(DESK_DONE, refused_run(NULL, 0));
    open_nothing(NULL, 0, one.records, 2, one.index, 5);
    open_nothing(one.board, 8, NULL, 0, one.index, 5);
    open_nothing(one.board, 8, one.records, 2, NULL, 0);
    open_nothing(NULL, 0, NULL, 0, NULL, 0);
    CHECK(desk_start_look(NULL, 0, NULL, 0, none, 0, 7).refusal == DESK_WRONG_SIZES);
    desk_turn_outcome t = desk_turn(NULL, 0, NULL, 0, NULL, 0, none, 0);
    CHECK(t.refusal == DESK_WRONG_SIZES && same_report(t.report, refused_report));
    desk_run_outcome r = desk_run(NULL, 0, NULL, 0, NULL, 0, none, NULL, 0);
    CHECK(r.stop == DESK_WRONG_SIZES && same_report(r.last, no_turn));
    CHECK(desk_show_refusal(NULL, 0, none, 7) == DESK_WRONG_SIZES);
    CHECK(desk_count(NULL, 0, none).refusal == DESK_WRONG_SIZES);
    CHECK(desk_retire(NULL, 0, NULL, 0, NULL, 0, none, 0) == DESK_WRONG_SIZES);
    CHECK(desk_retire(one.board, 8, NULL, 0, one.index, 5, one.floor, 0) == DESK_WRONG_SIZES);
    CHECK(desk_retire(NULL, 0, one.records, 2, one.index, 5, one.floor, 0) == DESK_WRONG_SIZES);
    CHECK(desk_retire(one.board, 8, one.records, 2, NULL, 0, one.floor, 0) == DESK_WRONG_SIZES);
    CHECK(desk_total(NULL, 0, NULL, 0, none).refusal == DESK_WRONG_SIZES);
    CHECK(desk_total(one.board, 8, NULL, 0, one.floor).refusal == DESK_WRONG_SIZES);
    CHECK(desk_next_occupied(NULL, 0, one.index, 5, one.floor, 0).refusal == DESK_WRONG_SIZES);
    CHECK(desk_next_occupied(one.board, 8, NULL, 0, one.floor, 0).refusal == DESK_WRONG_SIZES);
    CHECK(desk_orders(NULL, 0, NULL, 0, none, 1).refusal == DESK_WRONG_SIZES);
    CHECK(desk_orders(NULL, 0, one.records, 2, one.floor, 1).refusal == DESK_WRONG_SIZES);
    CHECK(desk_orders(one.board, 8, NULL, 0, one.floor, 1).refusal == DESK_WRONG_SIZES);
    move_nothing(NULL, 0, NULL, 0, NULL, 0, NULL, 0);
    move_nothing(NULL, 0, two.board, 8, one.records, 2, one.index, 5);
    move_nothing(one.board, 8, NULL, 0, one.records, 2, one.index, 5);
    move_nothing(one.board, 8, two.board, 8, NULL, 0, one.index, 5);
    move_nothing(one.board, 8, two.board, 8, one.records, 2, NULL, 0);
}

void test_refusals(void) {
    test_sizes();
    test_entries();
    test_workers();
    test_records();
    test_calls();
    test_buckets();
    test_broken_under_retiring();
    test_order_of_retiring();
    test_order_of_turns();
    test_stops();
    test_nothing();
}
