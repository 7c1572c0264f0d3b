/* The library from C: every field where C reads it, the sleeper by single turns and by one run, a show and a count with the header's own
   readers, what the screen shows of an insert turn by turn, long tickets (tickets.c), who has been asleep (asleep.c), what is reported
   (reports.c), all orders (orders.c), retirings (retire.c), the hall display (display.c), moves to another board (move.c), every refusal
   (refusals.c), and a full round. Says what is not as it should be, and how many checks were made. */
#include "hall.h"
#include <stdio.h>

static unsigned checks, wrong;

void check(bool holds, const char *what, const char *file, int line) {
    checks++;
    if (!holds) {
        wrong++;
        printf("%s:%d: not so: %s\n", file, line, what);
    }
}

/* ---- every field where C reads it, and every record at its stride */

static void test_layout(void) {
    desk_worker idle = {.held = 3}, made = desk_idle_record();
    CHECK(same_record(&made, &idle));
    opened(&one, 3, 2, 0xFFFFFFFFu);
    for (size_t i = 0; i < 3; i++) CHECK(same_record(&one.records[i], &idle));
    CHECK(one.records[3].kind == 9 && one.records[3].key == 3);
    for (size_t i = 0; i < 16; i++) CHECK(one.board[i] == (i % 8 == 0 ? 0xFFFFFFFFu : 0));
    CHECK(one.board[16] == 0x5555555555555555u + 16);
    for (size_t i = 0; i < 5; i++) CHECK(one.index[i] == 0);
    CHECK(one.index[5] == 0x3333333333333333u + 5);
    CHECK(one.floor.workers == 3 && one.floor.buckets == 2 && one.floor.last == 0 && one.floor.version == 0xFFFFFFFFu);

    /* an insert that is about to store its key in slot 1: each field has a value of its own, and one turn leaves it in its place, but for
       `asleep`, which another's turn counts on */
    desk_worker busy = {.key = 0x1122334455667701u, .word = 0x0000020000000007u, .seen = 0x99AA00BBCC00DDEEu,
                        .ticket = 0x8899AABB43215678u, .asleep = 0x24681357u, .kind = DESK_INSERT, .place = 8, .slot = 0, .held = 1};
    one.records[1] = busy;
    desk_report stored = {.before = 0xFFFFFFFFu, .after = 0xFFFFFFFFu, .bucket = 1, .action = DESK_STORE};
    desk_turn_outcome t = turn(&one, 1);
    CHECK(t.refusal == DESK_DONE && same_report(t.report, stored));
    CHECK(one.board[8 + 2] == busy.key);
    busy.place = 9;
    busy.asleep = 0;
    CHECK(same_record(&one.records[1], &busy));
    CHECK(same_record(&one.records[0], &idle) && same_record(&one.records[2], &idle));
    one.records[1].asleep = 0x24681357u;
    busy.asleep = 0x24681358u;
    CHECK(start_look(&one, 0, 4) == DESK_DONE && turn(&one, 0).refusal == DESK_DONE);
    CHECK(same_record(&one.records[1], &busy));
    one.records[0] = idle;

    CHECK(start_insert(&one, 2, 0x0102030405060708u, 0xF1E2D3C4B5A69788u) == DESK_DONE);
    desk_worker inserts = {.key = 0x0102030405060708u, .ticket = 0xF1E2D3C4B5A69788u, .kind = DESK_INSERT, .place = 1, .held = DESK_NO_SLOT};
    CHECK(same_record(&one.records[2], &inserts));
    CHECK(one.floor.workers == 3 && one.floor.buckets == 2 && one.floor.last == 0xF1E2D3C4B5A69788u && one.floor.version == 0xFFFFFFFFu);
    CHECK(start_look(&one, 0, 5) == DESK_DONE);
    desk_worker looks = {.key = 5, .kind = DESK_LOOK, .place = 2, .held = DESK_NO_SLOT};
    CHECK(same_record(&one.records[0], &looks));
    CHECK(start_remove(&one, 1, 5) == DESK_BUSY_WORKER);
}

/* what a count tells, where it is accepted; the display is told the same */
static size_t counted(const hall *h) {
    desk_count_outcome c = desk_count(h->board, h->words, h->floor);
    desk_total_outcome t = total(h);
    CHECK(c.refusal == DESK_DONE && t.refusal == DESK_DONE && t.total == c.lots);
    return c.lots;
}

/* ---- the sleeper: 34 turns, by single turns, and again by runs: one for each stretch of a worker */

typedef struct {
    size_t worker;
    unsigned turns;
    uint64_t answer; /* of the stretch's last turn, where it ends the call */
    bool ends;
} stretch;

static desk_report told[34]; /* by the single turns */

static void add_turn(desk_totals *sum, desk_report r, bool change) {
    sum->turns++;
    sum->changes += change;
    sum->lost += r.action == DESK_LOST;
    sum->full += r.full;
}

/* whether the only bucket's lamp is lit after so many turns, as docs/CLASS.md has it */
static bool lit_after(unsigned turns) {
    return (turns >= 11 && turns < 18) || (turns >= 29 && turns < 34);
}

/* there is one bucket, so each turn meets the word that the one before it left */
static void play_singly(hall *h, stretch s, desk_totals *sum) {
    for (unsigned i = 0; i < s.turns; i++) {
        uint8_t place = h->records[s.worker].place;
        desk_turn_outcome t = turn(h, s.worker);
        desk_report r = t.report;
        bool change = r.action == DESK_WON || (r.action == DESK_STORE && place == 10);
        CHECK(t.refusal == DESK_DONE && r.action >= DESK_READ && r.action <= DESK_LOST);
        CHECK(r.ended == (s.ends && i + 1 == s.turns));
        CHECK(r.answer == (r.ended ? s.answer : 0));
        CHECK(r.bucket == 0 && r.before == (sum->turns == 0 ? 0 : told[sum->turns - 1].after));
        CHECK((r.before != r.after) == change);
        told[sum->turns] = r;
        add_turn(sum, r, change);
        CHECK(h->index[1] == lit_after(sum->turns));
    }
}

static void play_as_run(hall *h, stretch s, desk_totals *sum) {
    for (unsigned i = 0; i < s.turns; i++) many[i] = (uint8_t)s.worker;
    desk_run_outcome r = run(h, many, s.turns);
    CHECK(r.stop == DESK_DONE && r.totals.turns == s.turns);
    sum->turns += r.totals.turns;
    sum->changes += r.totals.changes;
    sum->lost += r.totals.lost;
    sum->full += r.totals.full;
    CHECK(same_report(r.last, told[sum->turns - 1]));
}

static void sleeper(hall *h, void (*play)(hall *, stretch, desk_totals *)) {
    desk_totals sum = {0, 0, 0, 0};
    opened(h, 2, 1, 0);
    CHECK(start_insert(h, 0, 7, 1) == DESK_DONE);
    play(h, (stretch){0, 11, 1, true}, &sum);
    CHECK(h->board[0] == 4294967297u);
    CHECK(counted(h) == 1);
    CHECK(start_remove(h, 1, 7) == DESK_DONE);
    play(h, (stretch){1, 3, 0, false}, &sum);
    CHECK(start_remove(h, 0, 7) == DESK_DONE);
    play(h, (stretch){0, 4, 1, true}, &sum);
    CHECK(h->board[0] == 1);
    CHECK(counted(h) == 0);
    CHECK(start_insert(h, 0, 7, 2) == DESK_DONE);
    play(h, (stretch){0, 11, 1, true}, &sum);
    CHECK(h->board[0] == 4294967298u);
    CHECK(counted(h) == 1);
    play(h, (stretch){1, 5, 2, true}, &sum);
    CHECK(sum.turns == 34 && sum.changes == 6 && sum.lost == 1 && sum.full == 0);
    CHECK(h->floor.last == 2);
}

/* and all 34 as one run, with every call on a worker of its own, started beforehand */
static void sleeper_in_one_run(hall *h) {
    static const uint8_t turns[34] = {0, 0, 0, 0, 0, 0, 0, 0, 0, 0, 0, 1, 1, 1, 2, 2, 2, 2, 3, 3, 3, 3, 3, 3, 3, 3, 3, 3, 3, 1, 1, 1, 1, 1};
    opened(h, 4, 1, 0);
    CHECK(start_insert(h, 0, 7, 1) == DESK_DONE && start_remove(h, 1, 7) == DESK_DONE);
    CHECK(start_remove(h, 2, 7) == DESK_DONE && start_insert(h, 3, 7, 2) == DESK_DONE);
    desk_run_outcome r = run(h, turns, 34);
    CHECK(counts(r, 34, 6, 1, 0, 0) && same_report(r.last, told[33]));
    for (size_t i = 0; i < 4; i++) CHECK(h->records[i].kind == DESK_IDLE && h->records[i].held == DESK_NO_SLOT);
}

/* why worker 1's swap is lost: it goes by the word of its first turn, the twelfth of all, and in the thirtieth meets another, which has the
   same marks; its second swap, the last turn, meets the word that it then read */
static void why_lost(void) {
    desk_report read = {.before = 4294967297u, .after = 4294967297u, .action = DESK_READ};
    desk_report lost = {.before = 4294967298u, .after = 4294967298u, .action = DESK_LOST};
    desk_report won = {.answer = 2, .before = 4294967298u, .after = 2, .action = DESK_WON, .ended = true};
    CHECK(same_report(told[11], read));
    CHECK(same_report(told[29], lost));
    CHECK(same_report(told[33], won));
}

static void test_sleeper(void) {
    sleeper(&one, play_singly);
    why_lost();
    sleeper(&two, play_as_run);
    CHECK(same_hall(&one, &two));
    sleeper_in_one_run(&two);
    for (size_t i = 0; i < 8; i++) CHECK(one.board[i] == two.board[i]);

    /* the bucket as the sleeper leaves it: the better bid's lot closed by its own ticket, two commits counted in the version */
    desk_part p = desk_show(one.board, one.words, one.floor, 7);
    CHECK(p.start == 0 && p.words == 8);
    CHECK(one.board[0] == 2 && one.board[1] == 7 && one.board[4] == 2 && one.board[7] == 0);
    CHECK(counted(&one) == 0);
}

/* ---- a show, a count, and the header's own readers of what stands there */

static void test_show(void) {
    opened(&one, 64, 256, 9);
    CHECK(start_insert(&one, 63, 513, 5) == DESK_DONE);
    for (unsigned i = 0; i < 11; i++) many[i] = 63;
    CHECK(counts(run(&one, many, 11), 11, 2, 0, 0, 0));
    desk_part p = desk_show(one.board, one.words, one.floor, 513);
    CHECK(p.start == 8 && p.words == 8);
    const uint64_t *bucket = one.board + p.start;
    CHECK(bucket[0] == 4294967296u + 10 && bucket[1] == 513 && bucket[4] == 5 && bucket[7] == 0);
    CHECK(desk_show_refusal(one.board, one.words, one.floor, 513) == 0);
    p = desk_show(one.board, one.words, one.floor, UINT64_MAX);
    CHECK(p.start == 2040 && p.words == 8);
    CHECK(counted(&one) == 1);
}

static void test_buckets_of_lots(void) {
    static const uint64_t lots[] = {0, 1, 2, 254, 255, 256, 257, 513, 4294967295u, 4294967296u, UINT64_MAX - 1, UINT64_MAX};
    static const size_t buckets[] = {1, 2, 3, 100, 255, 256};
    for (size_t i = 0; i < sizeof buckets / sizeof buckets[0]; i++) {
        opened(&one, 1, buckets[i], 0);
        for (size_t j = 0; j < sizeof lots / sizeof lots[0]; j++) {
            desk_part p = desk_show(one.board, one.words, one.floor, lots[j]);
            CHECK(p.start == DESK_BUCKET_WORDS * desk_bucket(lots[j], buckets[i]) && p.words == DESK_BUCKET_WORDS);
        }
    }
    CHECK(desk_bucket(7, 0) == 0);
}

/* an insert of each lot in turn leaves it in the next slot, and the last one is stopped before its commit */
static void test_readers(void) {
    opened(&one, 1, 2, 0xFFFFFFFEu);
    for (uint32_t slot = 0; slot < DESK_SLOTS; slot++) {
        CHECK(start_insert(&one, 0, 11 + 2 * slot, 100 + slot) == DESK_DONE);
        desk_turn_outcome t = {0};
        while (t.refusal == DESK_DONE && !t.report.ended && (slot < 2 || one.records[0].place != 9)) t = turn(&one, 0);
        CHECK(t.refusal == DESK_DONE && t.report.ended == (slot < 2));
    }
    const uint64_t *bucket = one.board + desk_show(one.board, one.words, one.floor, 11).start;
    uint64_t word = bucket[DESK_AT_MARK];
    CHECK(desk_version(word) == 0); /* two commits from 2^32 - 2 on */
    CHECK(desk_mark(word, 0) == DESK_MARK_VALID && desk_mark(word, 1) == DESK_MARK_VALID);
    CHECK(desk_mark(word, 2) == DESK_MARK_INSERTING && one.records[0].held == 2);
    CHECK(bucket[DESK_AT_SPARE] == 0);
    for (uint32_t slot = 0; slot < DESK_SLOTS; slot++)
        CHECK(desk_key(bucket, slot) == 11 + 2 * slot && desk_value(bucket, slot) == 100 + slot);
    static const size_t no_slots[] = {DESK_NO_SLOT, 4, 255, 256, SIZE_MAX};
    for (size_t i = 0; i < sizeof no_slots / sizeof no_slots[0]; i++) {
        CHECK(desk_mark(UINT64_MAX, no_slots[i]) == DESK_MARK_EMPTY);
        CHECK(desk_key(bucket, no_slots[i]) == 0 && desk_value(bucket, no_slots[i]) == 0);
    }
    CHECK(counted(&one) == 2);
}

/* ---- the screen: what a count tells and a show has, turn by turn */

/* the mark of a slot of the lot's bucket, by a show */
static uint8_t shown(const hall *h, uint64_t lot, size_t slot) {
    desk_part p = desk_show(h->board, h->words, h->floor, lot);
    CHECK(p.words == DESK_BUCKET_WORDS);
    return desk_mark(h->board[p.start + DESK_AT_MARK], slot);
}

static void screen(const hall *h, uint8_t mark, size_t lots) { CHECK(shown(h, 7, 0) == mark && counted(h) == lots); }

/* an insert is shown from its claim on, the eighth turn, and counted from its commit on, the eleventh; a look beside it finds nothing */
static void stopped_insert(hall *h) {
    opened(h, 2, 1, 0);
    CHECK(start_insert(h, 0, 7, 1) == DESK_DONE);
    for (unsigned i = 1; i <= 7; i++) {
        CHECK(!turn(h, 0).report.ended);
        screen(h, DESK_MARK_EMPTY, 0);
    }
    CHECK(turn(h, 0).report.action == DESK_WON && h->board[0] == 8589934592u);
    screen(h, DESK_MARK_INSERTING, 0);
    CHECK(start_look(h, 1, 7) == DESK_DONE);
    for (unsigned i = 1; i <= 6; i++) {
        desk_turn_outcome t = turn(h, 1);
        CHECK(t.refusal == DESK_DONE && t.report.ended == (i == 6) && t.report.answer == 0);
        screen(h, DESK_MARK_INSERTING, 0);
    }
    for (unsigned i = 9; i <= 10; i++) {
        CHECK(turn(h, 0).report.action == DESK_STORE);
        screen(h, DESK_MARK_INSERTING, 0);
    }
    desk_report r = turn(h, 0).report;
    CHECK(r.ended && r.answer == 1);
    screen(h, DESK_MARK_VALID, 1);
}

/* turns of worker 0, so many at most while its call goes on, with so many lots on the screen before each; the last one's report */
static desk_report go_on(hall *h, unsigned turns, size_t lots) {
    desk_report r = {0};
    for (unsigned i = 0; i < turns && !r.ended; i++) {
        CHECK(counted(h) == lots);
        r = turn(h, 0).report;
    }
    return r;
}

/* three lots have their bids, and the fourth has its slot and no bid yet: the screen has three, and four with its commit */
static void four_slots_and_three_bids(hall *h) {
    opened(h, 1, 2, 0);
    for (uint32_t lot = 1; lot <= 3; lot++) {
        CHECK(start_insert(h, 0, lot, lot) == DESK_DONE);
        CHECK(go_on(h, 20, lot - 1).answer == 1 && counted(h) == lot);
    }
    CHECK(start_insert(h, 0, 4, 4) == DESK_DONE);
    CHECK(go_on(h, 9, 3).action == DESK_WON);
    CHECK(shown(h, 2, 0) == DESK_MARK_VALID && shown(h, 4, 1) == DESK_MARK_INSERTING);
    CHECK(shown(h, 1, 0) == DESK_MARK_VALID && shown(h, 3, 1) == DESK_MARK_VALID);
    CHECK(go_on(h, 3, 3).answer == 1 && counted(h) == 4);
    CHECK(start_remove(h, 0, 2) == DESK_DONE);
    CHECK(go_on(h, 20, 4).answer == 2 && counted(h) == 3);
}

static void test_screen(void) {
    stopped_insert(&one);
    four_slots_and_three_bids(&one);
}

/* a fourth lot finds no slot: its tenth turn is a full round, and it begins again */
static void test_full_round(void) {
    opened(&one, 1, 1, 0);
    for (uint64_t ticket = 1; ticket <= 3; ticket++) {
        CHECK(start_insert(&one, 0, 10 + ticket, ticket) == DESK_DONE);
        desk_report r = {0};
        for (unsigned i = 0; i < 20 && !r.ended; i++) r = turn(&one, 0).report;
        CHECK(r.ended && r.answer == 1);
    }
    CHECK(counted(&one) == 3);
    CHECK(start_insert(&one, 0, 20, 4) == DESK_DONE);
    copy_hall(&two, &one);
    for (unsigned i = 0; i < 10; i++) {
        desk_turn_outcome t = turn(&one, 0);
        CHECK(t.refusal == DESK_DONE && t.report.action == DESK_READ && t.report.full == (i == 9) && !t.report.ended);
        many[i] = 0;
    }
    CHECK(one.records[0].place == 1);
    desk_run_outcome r = run(&two, many, 10);
    CHECK(counts(r, 10, 0, 0, 1, 0) && r.last.full);
    CHECK(same_hall(&one, &two));
}

/* worker 0, alone, has a run of its most turns: as many are done as its call takes, it is idle then, and a turn more finds it so */
static void ends_alone(hall *h, unsigned turns, unsigned most) {
    for (unsigned i = 0; i <= most; i++) many[i] = 0;
    copy_hall(&two, h);
    desk_run_outcome within = run(&two, many, most);
    CHECK(within.totals.turns == turns && within.stop == (turns < most ? DESK_IDLE_WORKER : DESK_DONE));
    CHECK(two.records[0].kind == DESK_IDLE);
    desk_run_outcome more = run(h, many, most + 1);
    CHECK(more.totals.turns == turns && more.stop == DESK_IDLE_WORKER);
    CHECK(same_hall(h, &two));
}

/* the longest calls of a worker alone, and the shortest look */
static void test_lengths(void) {
    opened(&one, 2, 1, 0);
    CHECK(start_insert(&one, 1, 5, 1) == DESK_DONE); /* worker 1 sleeps all the time */
    for (uint64_t ticket = 2; ticket <= 4; ticket++) {
        CHECK(start_insert(&one, 0, 5 + ticket, ticket) == DESK_DONE);
        ends_alone(&one, 9 + ticket, 13);
    }
    CHECK(start_look(&one, 0, 9) == DESK_DONE);
    ends_alone(&one, 10, 10);
    CHECK(start_look(&one, 0, 7) == DESK_DONE);
    ends_alone(&one, 4, 10);
    CHECK(start_remove(&one, 0, 9) == DESK_DONE);
    ends_alone(&one, 6, 6);
}

/* the same beside a sleeper that holds a slot; a lot that is found; and where no slot is left, an insert that goes on as long as a run may */
static void test_lengths_beside_a_holder(void) {
    opened(&one, 2, 1, 0);
    CHECK(start_insert(&one, 1, 5, 1) == DESK_DONE);
    for (unsigned i = 0; i < 8; i++) CHECK(turn(&one, 1).refusal == DESK_DONE);
    CHECK(one.records[1].held == 0);
    CHECK(start_insert(&one, 0, 7, 2) == DESK_DONE);
    ends_alone(&one, 11, 13);
    CHECK(start_insert(&one, 0, 8, 3) == DESK_DONE);
    ends_alone(&one, 12, 13);
    CHECK(start_insert(&one, 0, 8, 4) == DESK_DONE);
    ends_alone(&one, 10, 13);
    CHECK(counted(&one) == 2);
    CHECK(start_insert(&one, 0, 9, 5) == DESK_DONE);
    for (unsigned i = 0; i < 65535; i++) many[i] = 0;
    CHECK(counts(run(&one, many, 65535), 65535, 0, 0, 65535 / 9, DESK_DONE));
    CHECK(one.records[0].kind == DESK_INSERT);
}

int main(void) {
    test_layout();
    test_sleeper();
    test_show();
    test_buckets_of_lots();
    test_readers();
    test_screen();
    test_tickets();
    test_asleep();
    test_reports();
    test_orders();
    test_retire();
    test_display();
    test_move();
    test_refusals();
    test_full_round();
    test_lengths();
    test_lengths_beside_a_holder();
    printf("%u checks, %u wrong\n", checks, wrong);
    return wrong != 0;
}
