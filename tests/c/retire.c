/* Retiring a worker: from each turn of each call, from every sound record, over every mark and version; the board of a dead container and
   what can be done once it is retired; the word of its commit, which does not come back; and each record and bucket at its stride. What a
   retiring may change is looked at in hall.c, each time. */
#include "hall.h"

/* ---- each turn of each call, on an opened board */

static void start_call(hall *h, size_t worker, uint8_t kind, uint64_t lot) {
    if (kind == DESK_LOOK) CHECK(start_look(h, worker, lot) == DESK_DONE);
    if (kind == DESK_INSERT) CHECK(start_insert(h, worker, lot, h->floor.last + 1) == DESK_DONE);
    if (kind == DESK_REMOVE) CHECK(start_remove(h, worker, lot) == DESK_DONE);
}

static void turns_of(hall *h, size_t worker, unsigned turns) {
    for (unsigned i = 0; i < turns; i++) CHECK(turn(h, worker).refusal == DESK_DONE);
}

/* a call alone, to its end; its answer */
static uint64_t ends(hall *h, size_t worker, uint8_t kind, uint64_t lot) {
    desk_report r = {0};
    start_call(h, worker, kind, lot);
    for (unsigned i = 0; i < 13 && !r.ended; i++) r = turn(h, worker).report;
    CHECK(r.ended);
    return r.answer;
}

/* Lots 7 and 9 are of bucket 1 of two, and 7 stands. After so many turns of a call of 9 it is retired: the worker is idle and has no turn,
   its ticket stays spent, and it can begin another call. */
static void after_turns(uint32_t version, uint8_t kind, unsigned turns, bool holds) {
    opened(&one, 2, 2, version);
    CHECK(ends(&one, 1, DESK_INSERT, 7) == 1);
    start_call(&one, 0, kind, 9);
    turns_of(&one, 0, turns);
    CHECK((one.records[0].held != DESK_NO_SLOT) == holds);
    uint64_t last = one.floor.last;
    CHECK(retire(&one, 0) == DESK_DONE);
    CHECK(one.board[8] == 0x0000000100000000u + (uint32_t)(version + 1 + holds));
    CHECK(turn(&one, 0).refusal == DESK_IDLE_WORKER && retire(&one, 0) == DESK_IDLE_WORKER);
    CHECK(one.floor.last == last && start_insert(&one, 0, 9, last) == DESK_SPENT_TICKET);
    CHECK(desk_count(one.board, one.words, one.floor).lots == 1);
    CHECK(ends(&one, 0, DESK_LOOK, 9) == 0 && ends(&one, 0, DESK_INSERT, 9) == 1);
}

static void test_each_turn(void) {
    static const uint32_t versions[] = {0, 0xFFFFFFFEu, 0xFFFFFFFFu};
    for (unsigned i = 0; i < 3; i++) {
        for (unsigned turns = 0; turns <= 6; turns++) after_turns(versions[i], DESK_LOOK, turns, false);
        for (unsigned turns = 0; turns <= 11; turns++) after_turns(versions[i], DESK_INSERT, turns, turns >= 9);
        for (unsigned turns = 0; turns <= 3; turns++) after_turns(versions[i], DESK_REMOVE, turns, false);
    }
}

/* ---- every sound record as far as kind, place, held and slot go, on a bucket that it knows nothing of; then every mark word */

static bool may_hold(uint8_t kind, uint8_t place, uint8_t held) {
    if (kind != DESK_INSERT || place == 6) return held == DESK_NO_SLOT;
    return place < 6 || held < DESK_SLOTS;
}

static bool may_stand(uint8_t kind, uint8_t place) {
    if (kind == DESK_LOOK) return place >= 2 && place <= 5;
    if (kind == DESK_INSERT) return place >= 1 && place <= 10;
    return place == 1 || place >= 11;
}

static desk_worker record(uint8_t kind, uint8_t place, uint8_t held, uint8_t slot) {
    desk_worker w = {.key = 5, .seen = 6, .asleep = 7, .kind = kind, .place = place, .held = held, .slot = slot};
    if (kind == DESK_INSERT) w.ticket = 4;
    if (kind != DESK_LOOK) w.word = 0x0002000100000008u;
    return w;
}

static void test_every_record(void) {
    for (uint8_t kind = DESK_LOOK; kind <= DESK_REMOVE; kind++)
        for (uint8_t place = 1; place <= 13; place++)
            for (uint8_t held = 0; held <= DESK_NO_SLOT; held++)
                for (uint8_t slot = 0; slot < DESK_SLOTS; slot++) {
                    if (!may_stand(kind, place) || !may_hold(kind, place, held)) continue;
                    opened(&one, 3, 2, 9);
                    one.board[8] = 0x0001020200000007u, one.board[9] = 5, one.board[12] = 3;
                    read_anew(&one);
                    one.records[1] = record(kind, place, held, slot);
                    one.records[2] = one.records[1];
                    CHECK(retire(&one, 1) == DESK_DONE);
                }
}

/* whatever the marks are, the held slot's too, and the version: across each byte of it, and round */
static void test_every_word(void) {
    static const uint32_t versions[] = {0, 1, 0xFFu, 0xFFFFu, 0xFFFFFFu, 0x7FFFFFFFu, 0xFFFFFFFEu, 0xFFFFFFFFu};
    for (size_t i = 0; i < sizeof versions / sizeof versions[0]; i++)
        for (unsigned marks = 0; marks < 27; marks++)
            for (uint8_t held = 0; held < DESK_SLOTS; held++) {
                opened(&one, 1, 1, versions[i]);
                one.board[0] |= (uint64_t)(marks % 3) << 32 | (uint64_t)(marks / 3 % 3) << 40 | (uint64_t)(marks / 9) << 48;
                read_anew(&one);
                one.records[0] = record(DESK_INSERT, 9, held, 0);
                CHECK(retire(&one, 0) == DESK_DONE);
                CHECK(desk_mark(one.board[0], held) == DESK_MARK_EMPTY && desk_version(one.board[0]) == (uint32_t)(versions[i] + 1));
            }
}

/* ---- a dead container */

/* Lots 7 and 8 stand, and worker 1 has claimed the third slot, for lot 9, when its container dies. Lot 10 finds no slot, and goes round in
   nine turns. Once worker 1 is retired it ends, and worker 1 can bring lot 9 again, which finds no slot in its turn. */
static void test_waiting_for_the_dead(void) {
    opened(&one, 2, 1, 0);
    CHECK(ends(&one, 0, DESK_INSERT, 7) == 1 && ends(&one, 0, DESK_INSERT, 8) == 1);
    start_call(&one, 1, DESK_INSERT, 9);
    turns_of(&one, 1, 10);
    CHECK(one.board[0] == 0x0002010100000002u);
    start_call(&one, 0, DESK_INSERT, 10);
    for (unsigned i = 0; i < 90; i++) many[i] = 0;
    CHECK(counts(run(&one, many, 90), 90, 0, 0, 10, DESK_DONE));
    CHECK(retire(&one, 1) == DESK_DONE && one.board[0] == 0x0000010100000003u);
    CHECK(counts(run(&one, many, 90), 13, 2, 0, 0, DESK_IDLE_WORKER));
    CHECK(one.board[0] == 0x0001010100000004u && desk_key(one.board, 2) == 10);
    start_call(&one, 1, DESK_INSERT, 9);
    turns_of(&one, 1, 10);
    CHECK(one.records[1].place == 1 && one.records[1].held == DESK_NO_SLOT);
}

/* Worker 0 has claimed slot 0 for lot 7 and stands before its commit, which expects mark 2 there and version 0, when its container dies. It
   is retired, and worker 1 claims slot 0 for lot 8: the same marks, but another version. Were the record put back, as nobody may, its swap
   would be lost. */
static void test_the_word_of_the_dead(void) {
    opened(&one, 2, 1, 0);
    start_call(&one, 0, DESK_INSERT, 7);
    turns_of(&one, 0, 10);
    desk_worker dead = one.records[0];
    CHECK(dead.place == 9 && one.board[0] == 0x0000000200000000u);
    CHECK(retire(&one, 0) == DESK_DONE && one.board[0] == 1);
    start_call(&one, 1, DESK_INSERT, 8);
    turns_of(&one, 1, 8);
    CHECK(one.board[0] == 0x0000000200000001u);
    copy_hall(&two, &one);
    two.records[0] = dead;
    CHECK(turn(&two, 0).report.action == DESK_LOST);
    /* that is all that warns it: were it to go on, it would take slot 0 for its own */
    turns_of(&two, 0, 7);
    CHECK(turn(&two, 0).report.action == DESK_WON && two.board[0] == 0x0000000100000002u && desk_key(two.board, 0) == 7);
    turns_of(&one, 1, 3);
    CHECK(one.board[0] == 0x0000000100000002u && desk_key(one.board, 0) == 8 && desk_value(one.board, 0) == 2);
}

/* a retiring makes another's swap lose, which has read the word before it, if a slot was held, and else not; and it is in no totals */
static void test_lost_to_a_retiring(void) {
    for (unsigned turns = 7; turns <= 8; turns++) {
        opened(&one, 3, 1, 0);
        start_call(&one, 0, DESK_INSERT, 7);
        turns_of(&one, 0, turns);
        start_call(&one, 1, DESK_INSERT, 8);
        turns_of(&one, 1, 7);
        uint64_t read = one.board[0];
        CHECK(retire(&one, 0) == DESK_DONE);
        many[0] = 1;
        desk_run_outcome r = run(&one, many, 1);
        CHECK(r.last.action == (turns == 8 ? DESK_LOST : DESK_WON) && r.last.before == (turns == 8 ? 1 : read));
        CHECK(counts(r, 1, turns == 7, turns == 8, 0, DESK_DONE));
    }
}

/* ---- the first worker and the last, in the first bucket and the last */

static void one_of_sixty_four(size_t worker, size_t buckets, uint64_t lot) {
    opened(&one, 64, buckets, 9);
    start_call(&one, worker, DESK_INSERT, lot);
    turns_of(&one, worker, 8);
    CHECK(retire(&one, worker) == DESK_DONE);
    CHECK(one.board[DESK_BUCKET_WORDS * desk_bucket(lot, buckets)] == 10);
}

static void test_strides(void) {
    static const size_t workers[] = {0, 31, 63}, buckets[] = {1, 3, 255, 256};
    static const uint64_t lots[] = {0, 254, 255, 256, 4294967296u, UINT64_MAX};
    for (unsigned i = 0; i < 3; i++)
        for (unsigned j = 0; j < 4; j++)
            for (unsigned k = 0; k < 6; k++) one_of_sixty_four(workers[i], buckets[j], lots[k]);
}

void test_retire(void) {
    test_each_turn();
    test_every_record();
    test_every_word();
    test_waiting_for_the_dead();
    test_the_word_of_the_dead();
    test_lost_to_a_retiring();
    test_strides();
}
