/* Who has been asleep (docs/RULES.md, section 20): what a turn leaves in the records beside its worker's, whoever stands there, wherever in
   the list and from whichever number; its worker's own number; what is no turn; runs; and a list of sixty-four. Numbers are told here one by
   one; hall.c besides holds each turn of all these programs to the same rule. */
#include "hall.h"

/* the highest number, at which a record stays */
#define LAST UINT32_MAX

/* ---- records that are busy and not broken */

static desk_worker looker(uint32_t asleep) {
    return (desk_worker){.key = 3, .seen = 4, .asleep = asleep, .slot = 1, .kind = DESK_LOOK, .place = 3, .held = DESK_NO_SLOT};
}

static desk_worker inserter(uint32_t asleep) {
    return (desk_worker){.key = 5, .word = 0x0000020100000009u, .ticket = 6, .asleep = asleep, .kind = DESK_INSERT, .place = 9, .held = 1};
}

static desk_worker remover(uint32_t asleep) {
    return (desk_worker){.key = 5, .word = 9, .asleep = asleep, .slot = 2, .kind = DESK_REMOVE, .place = 11, .held = DESK_NO_SLOT};
}

/* whether a record is the one expected, but for the number that is told */
static bool slept_to(const desk_worker *w, desk_worker expected, uint32_t asleep) {
    expected.asleep = asleep;
    return same_record(w, &expected);
}

/* a worker of the list has just started a look, and all others are idle */
static void opened_with_looker(size_t workers, size_t worker) {
    opened(&one, workers, 1, 9);
    CHECK(start_look(&one, worker, 7) == DESK_DONE);
}

static void one_turn(size_t worker) { CHECK(turn(&one, worker).refusal == DESK_DONE); }

/* ---- beside a turn */

/* Beside the turn of the first, of one in the middle and of the last: who is busy counts it, whatever the call; the highest number stays. */
static void test_busy_beside(void) {
    static const uint32_t from[] = {0, 1, 0xFFu, 0xFFFFu, 0x7FFFFFFFu, LAST - 1, LAST};
    static const uint32_t to[] = {1, 2, 0x100, 0x10000, 0x80000000u, LAST, LAST};
    static const size_t whose[] = {0, 2, 4};
    for (size_t i = 0; i < sizeof from / sizeof from[0]; i++)
        for (size_t j = 0; j < 3; j++) {
            desk_worker kinds[] = {looker(from[i]), inserter(from[i]), remover(from[i]), looker(from[i])};
            opened_with_looker(5, whose[j]);
            for (size_t k = 0; k < 4; k++) one.records[k < whose[j] ? k : k + 1] = kinds[k];
            one_turn(whose[j]);
            for (size_t k = 0; k < 4; k++) CHECK(slept_to(&one.records[k < whose[j] ? k : k + 1], kinds[k], to[i]));
            CHECK(one.records[whose[j]].asleep == 0);
        }
}

static void test_idle_beside(void) {
    desk_worker idle = desk_idle_record();
    for (size_t worker = 0; worker < 3; worker++) {
        opened_with_looker(3, worker);
        for (unsigned i = 0; i < 5; i++) {
            one_turn(worker);
            for (size_t k = 0; k < 3; k++) CHECK(k == worker || same_record(&one.records[k], &idle));
        }
        CHECK(one.records[worker].asleep == 0);
    }
}

/* each is broken in one thing, the last by its number alone: they stay, and who is busy behind them counts the turn all the same */
static void test_broken_beside(void) {
    desk_worker broken[] = {looker(5), inserter(5), remover(5), looker(LAST), inserter(0), remover(LAST - 1), desk_idle_record()};
    broken[0].word = 1;
    broken[1].held = DESK_NO_SLOT;
    broken[2].ticket = 1ull << 32; /* whose low half is 0, as a remove's ticket is */
    broken[3].slot = DESK_SLOTS;
    broken[4].kind = 4;
    broken[5].place = 14;
    broken[6].asleep = 5;
    for (size_t i = 0; i < sizeof broken / sizeof broken[0]; i++)
        for (size_t worker = 0; worker < 3; worker++) {
            size_t beside = (worker + 1) % 3, behind = (worker + 2) % 3;
            opened_with_looker(3, worker);
            one.records[beside] = broken[i];
            one.records[behind] = inserter(40);
            one_turn(worker);
            CHECK(same_record(&one.records[beside], &broken[i]));
            CHECK(slept_to(&one.records[behind], inserter(0), 41));
        }
}

/* Every kind, place, held and slot, and one past each: with a ticket for an insert alone, and a word for all but a look, 12 looks, 99 inserts
   and 12 removes are sound. */
static void test_every_record_beside(void) {
    unsigned busy = 0;
    for (uint8_t kind = 0; kind <= 4; kind++)
        for (uint8_t place = 0; place <= 14; place++)
            for (uint8_t held = 0; held <= 4; held++)
                for (uint8_t slot = 0; slot <= DESK_SLOTS; slot++) {
                    desk_worker w = {.key = 5, .seen = 6, .asleep = 77, .kind = kind, .place = place, .held = held, .slot = slot};
                    if (kind == DESK_INSERT) w.ticket = 4;
                    if (kind != DESK_LOOK) w.word = 0x0002000100000008u;
                    opened_with_looker(2, 0);
                    one.records[1] = w;
                    one_turn(0);
                    CHECK(slept_to(&one.records[1], w, is_busy(w) ? 78 : 77));
                    busy += one.records[1].asleep == 78;
                }
    CHECK(busy == 12 + 99 + 12);
}

/* ---- the worker's own number */

/* A start leaves 0, and each turn of the call does, the one that ends it too; between them the other's turns are counted from 0 on. The other
   one goes round for ever, since it takes slot 2 for its own and its commit is always lost. */
static void own_number(uint8_t kind, uint64_t lot, unsigned turns) {
    opened(&one, 2, 1, 9);
    one.board[0] = 0x0000000100000009u, one.board[1] = 7, one.board[4] = 1;
    read_anew(&one);
    one.records[1] = inserter(0);
    one.records[1].word = 0, one.records[1].held = 2;
    if (kind == DESK_LOOK) CHECK(start_look(&one, 0, lot) == DESK_DONE);
    if (kind == DESK_INSERT) CHECK(start_insert(&one, 0, lot, 1) == DESK_DONE);
    if (kind == DESK_REMOVE) CHECK(start_remove(&one, 0, lot) == DESK_DONE);
    CHECK(one.records[0].asleep == 0);
    for (uint32_t i = 0, beside = 0; i < turns; i++) {
        for (uint32_t slept = 1; slept <= i % 3; slept++) {
            one_turn(1);
            beside = 0;
            CHECK(one.records[0].asleep == slept && one.records[1].asleep == 0);
        }
        one_turn(0);
        CHECK(one.records[0].asleep == 0 && one.records[1].asleep == ++beside);
        CHECK((one.records[0].kind == DESK_IDLE) == (i + 1 == turns));
    }
    one_turn(1);
    CHECK(one.records[0].asleep == 0);
}

/* from any number on, and by a lost swap too */
static void test_own_number(void) {
    static const uint32_t from[] = {0, 1, LAST - 1, LAST};
    own_number(DESK_LOOK, 7, 4);
    own_number(DESK_LOOK, 8, 7);
    own_number(DESK_INSERT, 7, 5);
    own_number(DESK_REMOVE, 7, 4);
    for (size_t i = 0; i < 4; i++) {
        opened_with_looker(2, 0);
        one.records[0] = inserter(from[i]);
        one.records[1] = looker(8);
        CHECK(turn(&one, 0).report.action == DESK_LOST);
        CHECK(one.records[0].asleep == 0 && one.records[1].asleep == 9);
        one.records[0] = looker(from[i]);
        one_turn(0);
        CHECK(one.records[0].asleep == 0 && one.records[1].asleep == 10);
    }
}

/* ---- what is no turn */

/* worker 2 is idle, 3 is broken, and 4 is busy in the first bucket, which is broken; the others are of the second, and two hold a slot */
static void opened_with_sleepers(void) {
    opened(&one, 6, 2, 9);
    one.board[DESK_BUCKET_WORDS + DESK_AT_MARK] = 0x0000020100000009u;
    one.board[DESK_AT_SPARE] = 1;
    read_anew(&one);
    one.records[0] = inserter(5);
    one.records[1] = inserter(LAST);
    one.records[3] = remover(3), one.records[3].ticket = 1;
    one.records[4] = looker(0), one.records[4].key = 4;
    one.records[5] = looker(11);
    copy_hall(&before, &one);
}

/* all records but one are what they were */
static bool stays_beside(size_t worker) {
    for (size_t i = 0; i < ROOM_FOR_WORKERS; i++)
        if (i != worker && !same_record(&one.records[i], &before.records[i])) return false;
    return true;
}

enum { NOBODY = ROOM_FOR_WORKERS };

static void test_refused_turns(void) {
    static const uint8_t turns[] = {2};
    opened_with_sleepers();
    CHECK(turn(&one, 6).refusal == DESK_NO_WORKER && stays_beside(NOBODY));
    CHECK(turn(&one, 3).refusal == DESK_BROKEN_RECORD && stays_beside(NOBODY));
    CHECK(turn(&one, 2).refusal == DESK_IDLE_WORKER && stays_beside(NOBODY));
    CHECK(turn(&one, 4).refusal == DESK_BROKEN_BUCKET && stays_beside(NOBODY));
    one.listed = 5;
    CHECK(turn(&one, 0).refusal == DESK_WRONG_SIZES && stays_beside(NOBODY));
    one.listed = 6;
    one.index[0] = 0;
    CHECK(turn(&one, 0).refusal == DESK_UNTRUE_INDEX && stays_beside(NOBODY));
    one.index[0] = 1;
    CHECK(run(&one, NULL, 0).stop == DESK_DONE && stays_beside(NOBODY));
    CHECK(run(&one, turns, 1).stop == DESK_IDLE_WORKER && stays_beside(NOBODY));
    CHECK(run(&one, many, ROOM_FOR_TURNS).stop == DESK_TOO_LONG && stays_beside(NOBODY));
}

static void test_no_turns(void) {
    opened_with_sleepers();
    CHECK(start_look(&one, 2, 5) == DESK_DONE && stays_beside(2));
    CHECK(start_look(&one, 0, 5) == DESK_BUSY_WORKER && stays_beside(2));
    opened_with_sleepers();
    CHECK(start_insert(&one, 2, 5, 1) == DESK_DONE && stays_beside(2));
    opened_with_sleepers();
    CHECK(start_remove(&one, 2, 5) == DESK_DONE && stays_beside(2));
    opened_with_sleepers();
    CHECK(retire(&one, 0) == DESK_DONE && stays_beside(0));
    CHECK(one.records[0].asleep == 0 && one.board[8] == 0x000000010000000Au);
    opened_with_sleepers();
    CHECK(retire(&one, 5) == DESK_DONE && stays_beside(5));
    CHECK(retire(&one, 2) == DESK_IDLE_WORKER && stays_beside(5));
    opened_with_sleepers();
    CHECK(desk_show(one.board, one.words, one.floor, 5).words == DESK_BUCKET_WORDS && stays_beside(NOBODY));
    CHECK(desk_count(one.board, one.words, one.floor).refusal == DESK_BROKEN_BUCKET && stays_beside(NOBODY));
    one.board[DESK_AT_SPARE] = 0;
    CHECK(desk_count(one.board, one.words, one.floor).lots == 1 && stays_beside(NOBODY));
    CHECK(total(&one).total == 1 && stays_beside(NOBODY));
    CHECK(next_occupied(&one, 0).bucket == 1 && stays_beside(NOBODY));
    CHECK(open_hall(&one, 6, 3, 0) == DESK_WRONG_SIZES && stays_beside(NOBODY));
}

/* all orders keep nothing of their turns, and come to the same whoever has slept how long */
static void test_orders_beside(void) {
    opened(&one, 3, 1, 9);
    CHECK(start_insert(&one, 0, 7, 1) == DESK_DONE && start_remove(&one, 1, 7) == DESK_DONE && start_look(&one, 2, 7) == DESK_DONE);
    desk_orders_outcome awake = orders(&one, 7);
    one.records[0].asleep = 3;
    one.records[1].asleep = LAST;
    one.records[2].asleep = LAST - 2;
    copy_hall(&before, &one);
    desk_orders_outcome o = orders(&one, 7);
    CHECK(stays_beside(NOBODY) && walked(o, awake.finished, awake.cut, awake.lost, awake.most));
}

/* ---- runs */

static void test_runs(void) {
    static const uint8_t turns[] = {0, 0, 1, 0, 3, 0};
    opened(&one, 4, 1, 9);
    one.records[0] = looker(8), one.records[1] = inserter(8), one.records[2] = remover(8);
    copy_hall(&two, &one);
    CHECK(counts(run(&one, turns, 4), 4, 0, 1, 0, DESK_DONE));
    CHECK(one.records[0].asleep == 0 && one.records[1].asleep == 1 && slept_to(&one.records[2], remover(0), 12));
    CHECK(counts(run(&two, turns, 6), 4, 0, 1, 0, DESK_IDLE_WORKER)); /* the fifth is refused, and neither it nor the sixth counts */
    CHECK(same_hall(&one, &two));
}

/* an insert that goes round for ever, beside one that has come nearly to the last number, just to it, or past it */
static void test_longest_run(void) {
    static const uint32_t from[] = {LAST - 65536, LAST - 65535, LAST - 65534, LAST}, to[] = {LAST - 1, LAST, LAST, LAST};
    for (size_t i = 0; i < DESK_MOST_TURNS; i++) many[i] = 1;
    for (size_t i = 0; i < 4; i++) {
        opened(&one, 3, 1, 9);
        one.board[0] = 0x0001010100000009u;
        read_anew(&one);
        CHECK(start_insert(&one, 1, 7, 1) == DESK_DONE);
        one.records[0] = looker(from[i]);
        one.records[2] = looker(0);
        CHECK(run(&one, many, DESK_MOST_TURNS).totals.turns == DESK_MOST_TURNS);
        CHECK(slept_to(&one.records[0], looker(0), to[i]) && slept_to(&one.records[2], looker(0), DESK_MOST_TURNS));
        CHECK(one.records[1].asleep == 0);
    }
}

/* ---- sixty-four */

/* each has a turn in its order: who had it first has slept through 63, who had it last through none; what is past the list stays */
static void test_sixty_four(void) {
    opened(&one, DESK_MOST_WORKERS, 256, 9);
    copy_hall(&before, &one);
    for (size_t i = 0; i < DESK_MOST_WORKERS; i++) {
        CHECK(start_insert(&one, i, i, i + 1) == DESK_DONE);
        many[i] = (uint8_t)i;
    }
    copy_hall(&two, &one);
    for (size_t i = 0; i < DESK_MOST_WORKERS; i++) one_turn(i);
    for (size_t i = 0; i < DESK_MOST_WORKERS; i++) CHECK(one.records[i].asleep == DESK_MOST_WORKERS - 1 - i);
    CHECK(counts(run(&two, many, DESK_MOST_WORKERS), DESK_MOST_WORKERS, 0, 0, 0, DESK_DONE));
    CHECK(same_hall(&one, &two));
    for (size_t i = DESK_MOST_WORKERS; i < ROOM_FOR_WORKERS; i++) CHECK(same_record(&one.records[i], &before.records[i]));
}

/* what is past a short list stays too, even where it would count */
static void test_past_the_list(void) {
    opened_with_looker(2, 1);
    one.records[0] = inserter(4);
    one.records[2] = inserter(5);
    one_turn(1);
    CHECK(one.records[0].asleep == 5 && slept_to(&one.records[2], inserter(0), 5));
}

void test_asleep(void) {
    test_busy_beside();
    test_idle_beside();
    test_broken_beside();
    test_every_record_beside();
    test_own_number();
    test_refused_turns();
    test_no_turns();
    test_orders_beside();
    test_runs();
    test_longest_run();
    test_sixty_four();
    test_past_the_list();
}
