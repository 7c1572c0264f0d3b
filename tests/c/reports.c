/* What a turn reports and what a run keeps of it: each field where C reads it, the reports around a slot that is given back, and what
   desk.h says of the words in them and of sleepers, for twenty thousand turns in no order and retirings between them. */
#include "hall.h"

/* ---- each field with a value of its own: a lot closed in the last of 256 buckets, by a turn and as the last turn of a run */

static const desk_report closed = {
    .answer = 0x99AA00BBCC00DDEEu,
    .before = 0x0001020144556677u,
    .after = 0x0000020144556677u,
    .bucket = 255,
    .action = DESK_WON,
    .ended = true,
};

/* and an insert beside it that goes round, for the field that is false there */
static const desk_report went_round = {
    .before = 0x0002010200008899u,
    .after = 0x0002010200008899u,
    .bucket = 254,
    .action = DESK_READ,
    .full = true,
};

/* the worker that closes the lot, about to swap */
static desk_worker closer(void) {
    return (desk_worker){
        .key = 0x11223344556677FFu,
        .word = closed.before,
        .seen = closed.answer,
        .kind = DESK_REMOVE,
        .place = 13,
        .slot = 2,
        .held = DESK_NO_SLOT,
    };
}

/* the worker that goes round, about to see that no slot is left */
static desk_worker goer(void) {
    return (desk_worker){.key = 254, .word = went_round.before, .ticket = 1, .kind = DESK_INSERT, .place = 5, .held = DESK_NO_SLOT};
}

static void set_up(hall *h) {
    opened(h, 64, 256, 3);
    h->board[8 * 254] = went_round.before;
    h->board[8 * 255] = closed.before;
    read_anew(h);
}

static void test_fields_of_turns(void) {
    set_up(&one);
    one.records[0] = closer();
    one.records[1] = goer();
    desk_turn_outcome t = turn(&one, 0);
    CHECK(t.refusal == DESK_DONE && same_report(t.report, closed));
    t = turn(&one, 1);
    CHECK(t.refusal == DESK_DONE && same_report(t.report, went_round));
    t = turn(&one, 1);
    CHECK(t.refusal == DESK_DONE && t.report.action == DESK_READ && !t.report.full && t.report.bucket == 254);
}

/* four go round, five lose, one reads, one gives its slot back, one closes its lot, and the next is idle */
static void test_fields_of_runs(void) {
    static const uint8_t turns[] = {0, 1, 2, 3, 4, 5, 6, 7, 8, 9, 10, 11, 12, 11};
    set_up(&one);
    for (size_t i = 0; i < 12; i++) one.records[i] = i < 4 ? goer() : closer();
    for (size_t i = 4; i < 9; i++) one.records[i].word = 7;
    one.records[9].place = 12;
    one.records[10] = goer();
    one.records[10].place = 10, one.records[10].held = 2;
    copy_hall(&two, &one);
    desk_run_outcome r = run(&one, turns, 14);
    CHECK(counts(r, 12, 2, 5, 4, DESK_IDLE_WORKER));
    CHECK(same_report(r.last, closed));
    r = run(&two, turns, 4);
    CHECK(counts(r, 4, 0, 0, 4, DESK_DONE));
    CHECK(same_report(r.last, went_round));
}

/* ---- a claimed slot given back: the only store that changes a mark word */

/* so many turns of one worker; the last one's report */
static desk_report turns_of(hall *h, size_t worker, unsigned turns) {
    desk_report r = {0};
    for (unsigned i = 0; i < turns; i++) r = turn(h, worker).report;
    return r;
}

/* Worker 0 has claimed slot 0 when worker 1 inserts the same lot; so it loses its commit, finds the lot, and gives the slot back. All that
   is in bucket 1, and worker 2 meanwhile commits in bucket 2, of which their reports tell nothing. */
static void test_giving_back(void) {
    uint64_t claimed = 0x0000000200000005u, both = 0x0000010200000006u, given_back = 0x0000010000000006u;
    opened(&one, 3, 3, 5);
    CHECK(start_insert(&one, 0, 7, 1) == DESK_DONE && start_insert(&one, 1, 7, 2) == DESK_DONE && start_insert(&one, 2, 8, 3) == DESK_DONE);
    CHECK(same_report(turns_of(&one, 0, 8), (desk_report){.before = 5, .after = claimed, .bucket = 1, .action = DESK_WON}));
    CHECK(same_report(turns_of(&one, 0, 1), (desk_report){.before = claimed, .after = claimed, .bucket = 1, .action = DESK_STORE}));
    desk_report committed = turns_of(&one, 1, 11);
    CHECK(committed.action == DESK_WON && committed.ended && committed.bucket == 1 && committed.after == both);
    CHECK(turns_of(&one, 2, 11).bucket == 2);
    CHECK(turns_of(&one, 0, 1).action == DESK_STORE);
    CHECK(same_report(turns_of(&one, 0, 1), (desk_report){.before = both, .after = both, .bucket = 1, .action = DESK_LOST}));
    CHECK(same_report(turns_of(&one, 0, 7), (desk_report){.before = both, .after = both, .bucket = 1, .action = DESK_READ}));
    desk_report last = {.before = both, .after = given_back, .bucket = 1, .action = DESK_STORE, .ended = true};
    CHECK(same_report(turns_of(&one, 0, 1), last));
}

/* ---- turns in no order and retirings between them, on an opened board: the reports of a bucket are a chain, in which a retiring with a
   held slot has its place though it reports nothing; the two words differ after a change and after nothing else, whether a swap wins can be
   told from the words, and a swap is never lost to a change of its own worker; who is busy has slept through the turns since its start or
   its last one (§20.1); and the index stays true (§21.2) */

enum { WORKERS = 6, BUCKETS = 3, LOTS = 9, TURNS = 20000, FIRST_VERSION = 7 };

typedef struct {
    uint64_t word[BUCKETS];   /* that the last report of the bucket left */
    uint64_t moment[WORKERS]; /* that the worker's last turn left which read the mark word whole or changed it */
    size_t changer[BUCKETS];  /* whose turn it was that last reported two words that differ, or who was retired later; nobody is WORKERS */
    bool freed[BUCKETS];      /* whether the last of these was a retiring */
    uint32_t turns;           /* of all workers so far */
    uint32_t woke[WORKERS];   /* how many of these had been at the worker's start, or with its last turn */
    unsigned won, lost, lost_to_retiring, full, given_back, retired, freed_slots;
} account;

static uint8_t start_any(hall *h, size_t worker) {
    uint64_t lot = below(LOTS);
    switch (below(4)) {
    case 0: return start_look(h, worker, lot);
    case 1: return start_remove(h, worker, lot);
    default: return start_insert(h, worker, lot, h->floor.last + 1);
    }
}

static void account_for(account *a, desk_report r, size_t worker, uint8_t place) {
    bool change = r.action == DESK_WON || place == 10;
    CHECK(r.before == a->word[r.bucket]);
    CHECK((r.before != r.after) == change);
    if (r.action == DESK_WON || r.action == DESK_LOST) CHECK((r.action == DESK_WON) == (r.before == a->moment[worker]));
    if (r.action == DESK_LOST) CHECK(a->changer[r.bucket] < WORKERS && a->changer[r.bucket] != worker);
    a->lost_to_retiring += r.action == DESK_LOST && a->freed[r.bucket];
    a->word[r.bucket] = r.after;
    if (r.before != r.after) a->changer[r.bucket] = worker, a->freed[r.bucket] = false;
    if (change || place == 1) a->moment[worker] = r.after;
    a->won += r.action == DESK_WON;
    a->lost += r.action == DESK_LOST;
    a->full += r.full;
    a->given_back += place == 10;
}

/* whether each record counts the turns of the others, as they were told one by one */
static bool sleeps_on(const account *a) {
    for (size_t i = 0; i < WORKERS; i++) {
        uint32_t since = one.records[i].kind == DESK_IDLE ? 0 : a->turns - a->woke[i];
        if (one.records[i].asleep != since) return false;
    }
    return true;
}

/* often one that holds a slot, if there is one */
static size_t any_dead(void) {
    size_t dead = below(WORKERS);
    if (below(4) > 0)
        for (size_t i = 0; i < WORKERS; i++)
            if (one.records[i].held != DESK_NO_SLOT) dead = i;
    return dead;
}

/* whoever holds a slot changes the mark word by being retired, and whoever holds none changes nothing */
static void retire_any(account *a) {
    size_t worker = any_dead();
    if (one.records[worker].kind == DESK_IDLE) return;
    bool held = one.records[worker].held != DESK_NO_SLOT;
    size_t bucket = desk_bucket(one.records[worker].key, BUCKETS);
    CHECK(retire(&one, worker) == DESK_DONE && sleeps_on(a) && is_true(&one));
    uint64_t word = one.board[DESK_BUCKET_WORDS * bucket];
    CHECK((word != a->word[bucket]) == held);
    a->word[bucket] = word;
    if (held) a->changer[bucket] = worker, a->freed[bucket] = true;
    a->retired++;
    a->freed_slots += held;
}

static void start_for(account *a, size_t worker) {
    CHECK(start_any(&one, worker) == DESK_DONE);
    a->woke[worker] = a->turns;
    CHECK(sleeps_on(a));
}

/* mostly the worker goes on, since a slot is given back only where its holder slept while another got on */
static void test_any_order(void) {
    account a = {.word = {FIRST_VERSION, FIRST_VERSION, FIRST_VERSION}, .changer = {WORKERS, WORKERS, WORKERS}};
    size_t worker = 0;
    opened(&one, WORKERS, BUCKETS, FIRST_VERSION);
    for (unsigned i = 0; i < TURNS; i++) {
        if (below(8) == 0) worker = below(WORKERS);
        if (below(60) == 0) retire_any(&a);
        if (one.records[worker].kind == DESK_IDLE) start_for(&a, worker);
        uint8_t place = one.records[worker].place;
        desk_turn_outcome t = turn(&one, worker);
        a.woke[worker] = ++a.turns;
        CHECK(t.refusal == DESK_DONE && t.report.bucket < BUCKETS && sleeps_on(&a) && is_true(&one));
        if (t.report.bucket < BUCKETS) account_for(&a, t.report, worker, place);
    }
    CHECK(a.won > 0 && a.lost > 0 && a.full > 0 && a.given_back > 0);
    CHECK(a.freed_slots > 0 && a.retired > a.freed_slots && a.lost_to_retiring > 0);
}

void test_reports(void) {
    test_fields_of_turns();
    test_fields_of_runs();
    test_giving_back();
    test_any_order();
}
