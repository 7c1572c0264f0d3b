/* Tickets of 64 bits (docs/RULES.md, §3.5): which is above the last one, where the two halves of a number say otherwise; none after the
   highest; a ticket on the board, in an answer and over a move with all its bits; in which records one may stand (§3.7); and the floor's
   spare, which an opening makes 0 and every other call hands on (§2.1). */
#include "hall.h"

/* the least ticket that does not fit in 32 bits: its low half is 0 */
#define HALF (1ull << 32)

/* about both ends of the low half, of the high half and of the whole */
static const uint64_t tickets[] = {
    1, HALF - 1, HALF, HALF + 1, 2 * HALF - 1, 2 * HALF, 0x0123456789ABCDEFu, 1ull << 63, UINT64_MAX - HALF, UINT64_MAX - 1, UINT64_MAX};
enum { TICKETS = sizeof tickets / sizeof tickets[0] };

/* the worker's call, to its end */
static uint64_t ends(hall *h, size_t worker) {
    desk_report r = {0};
    for (unsigned i = 0; i < 13 && !r.ended; i++) r = turn(h, worker).report;
    CHECK(r.ended);
    return r.answer;
}

/* ---- which tickets are accepted */

/* a start where the floor's last is this; where it is refused, nothing changes */
static void given(uint64_t last, uint64_t ticket, bool accepted) {
    opened(&one, 2, 1, 9);
    one.floor.last = last;
    if (accepted) {
        CHECK(start_insert(&one, 1, 7, ticket) == DESK_DONE);
        CHECK(one.floor.last == ticket && one.records[1].ticket == ticket);
    } else {
        REFUSED(DESK_SPENT_TICKET, start_insert(&one, 1, 7, ticket));
    }
}

/* each after each, which the list's own order tells */
static void test_each_after_each(void) {
    for (size_t i = 0; i < TICKETS; i++) {
        given(0, tickets[i], true);
        given(tickets[i], 0, false);
        for (size_t j = 0; j < TICKETS; j++) given(tickets[i], tickets[j], i < j);
    }
}

/* the whole number decides: a lower half that is smaller goes with a higher half that is greater, and the other way round; and a sign that
   somebody might take the highest bit for does not count */
static void test_halves(void) {
    given(HALF - 1, HALF, true);
    given(5 * HALF + 9, 6 * HALF + 2, true);
    given(5 * HALF + 9, 6 * HALF, true);
    given(5 * HALF + 9, 5 * HALF + 10, true);
    given(HALF, HALF - 1, false);
    given(6 * HALF + 2, 5 * HALF + 9, false);
    given(6 * HALF, UINT32_MAX, false);
    given(6 * HALF, 1, false);
    given((1ull << 63) - 1, 1ull << 63, true);
    given(1ull << 63, (1ull << 63) - 1, false);
}

/* one after another on one floor: each is spent with its start, and refused from then on with those before it */
static void test_one_after_another(void) {
    static const uint64_t risen[] = {HALF - 1, HALF, UINT64_MAX};
    opened(&one, 3, 1, 9);
    for (size_t i = 0; i < 3; i++) {
        CHECK(start_insert(&one, i, 7 + i, risen[i]) == DESK_DONE && one.floor.last == risen[i]);
        for (size_t j = 0; j <= i && i < 2; j++) REFUSED(DESK_SPENT_TICKET, start_insert(&one, i + 1, 9, risen[j]));
    }
    for (size_t i = 0; i < 3; i++) CHECK(one.records[i].ticket == risen[i] && ends(&one, i) == 1);
    for (size_t i = 0; i < 3; i++) CHECK(desk_key(one.board, i) == 7 + i && desk_value(one.board, i) == risen[i]);
}

/* §3.5: after the highest there is none, whoever asks and for whatever lot; looks and removes go on */
static void test_none_after_the_highest(void) {
    static const uint64_t none[] = {0, 1, HALF - 1, HALF, 1ull << 63, UINT64_MAX - 1, UINT64_MAX};
    opened(&one, 2, 1, 9);
    CHECK(start_insert(&one, 0, 7, UINT64_MAX) == DESK_DONE);
    for (size_t i = 0; i < sizeof none / sizeof none[0]; i++) {
        REFUSED(DESK_SPENT_TICKET, start_insert(&one, 1, 7, none[i]));
        REFUSED(DESK_SPENT_TICKET, start_insert(&one, 1, 8, none[i]));
        REFUSED(DESK_BUSY_WORKER, start_insert(&one, 0, 8, none[i])); /* which comes first */
    }
    CHECK(ends(&one, 0) == 1);
    for (size_t i = 0; i < sizeof none / sizeof none[0]; i++) REFUSED(DESK_SPENT_TICKET, start_insert(&one, 0, 8, none[i]));
    CHECK(start_remove(&one, 0, 7) == DESK_DONE && ends(&one, 0) == UINT64_MAX);
    REFUSED(DESK_SPENT_TICKET, start_insert(&one, 0, 7, UINT64_MAX));
    CHECK(open_hall(&one, 2, 1, 9) == DESK_DONE && start_insert(&one, 0, 7, 1) == DESK_DONE);
}

/* ---- a ticket on the board, in an answer, and on another board */

/* a lot comes to stand in the last slot of the second bucket of three, and its ticket is there whole, from the turn that stores it on; a look,
   a run's last turn and a remove answer it whole */
static void shown_and_answered(uint64_t ticket) {
    opened(&one, 2, 3, 9);
    one.board[8] = 0x0000010100000009u, one.board[8 + DESK_AT_KEYS] = 1, one.board[9 + DESK_AT_KEYS] = 4;
    one.board[8 + DESK_AT_VALUES] = one.board[9 + DESK_AT_VALUES] = 5;
    read_anew(&one);
    CHECK(start_insert(&one, 0, 7, ticket) == DESK_DONE);
    for (unsigned i = 0; i < 13 && one.records[0].place != 7; i++) CHECK(turn(&one, 0).refusal == DESK_DONE);
    CHECK(one.board[10 + DESK_AT_VALUES] == 0);
    CHECK(turn(&one, 0).report.action == DESK_STORE && one.board[10 + DESK_AT_VALUES] == ticket && one.records[0].ticket == ticket);
    CHECK(ends(&one, 0) == 1);
    desk_part p = desk_show(one.board, one.words, one.floor, 7);
    CHECK(p.start == 8 && desk_value(one.board + p.start, 2) == ticket && one.board[10 + DESK_AT_VALUES] == ticket);
    CHECK(start_look(&one, 1, 7) == DESK_DONE && ends(&one, 1) == ticket);
    CHECK(start_look(&one, 0, 7) == DESK_DONE);
    for (unsigned i = 0; i < 10; i++) many[i] = 0;
    desk_run_outcome r = run(&one, many, 10);
    CHECK(r.stop == DESK_DONE && r.last.ended && r.last.answer == ticket);
    CHECK(start_remove(&one, 1, 7) == DESK_DONE && ends(&one, 1) == ticket);
    CHECK(one.floor.last == ticket);
}

/* the lot and its ticket, the spent one and the floor's other numbers come along, whatever the new size is */
static void moved(uint64_t ticket) {
    static const size_t buckets[] = {1, 3, 256};
    opened(&one, 2, 3, 9);
    CHECK(start_insert(&one, 0, 7, ticket) == DESK_DONE && ends(&one, 0) == 1);
    for (size_t i = 0; i < 3; i++) {
        CHECK(move(&one, &two, buckets[i]) == DESK_DONE && two.floor.last == ticket);
        CHECK(desk_value(two.board + DESK_BUCKET_WORDS * desk_bucket(7, buckets[i]), 0) == ticket);
        CHECK(start_insert(&two, 0, 8, ticket) == DESK_SPENT_TICKET);
        CHECK(start_look(&two, 0, 7) == DESK_DONE && ends(&two, 0) == ticket);
        if (ticket != UINT64_MAX) CHECK(start_insert(&two, 0, 8, ticket + 1) == DESK_DONE && two.floor.last == ticket + 1);
    }
}

/* two readings of a value that agree in one half are no two equal ones (§5.5): with the first the search finds, with the others it is empty */
static void test_second_reading(void) {
    static const uint64_t values[] = {0x0000000500000009u, 0x0000000600000009u, 0x0000000500000008u, 9, 0x0000000500000000u};
    for (size_t i = 0; i < sizeof values / sizeof values[0]; i++) {
        opened(&one, 1, 1, 9);
        one.board[0] = 0x0000000100000009u, one.board[DESK_AT_KEYS] = 7, one.board[DESK_AT_VALUES] = values[0];
        read_anew(&one);
        CHECK(start_look(&one, 0, 7) == DESK_DONE);
        for (unsigned turns = 0; turns < 3; turns++) CHECK(!turn(&one, 0).report.ended);
        one.board[DESK_AT_VALUES] = values[i];
        desk_report r = turn(&one, 0).report;
        CHECK(r.ended && r.answer == (i == 0 ? values[0] : 0));
    }
}

static void test_whole(void) {
    for (size_t i = 0; i < TICKETS; i++) {
        shown_and_answered(tickets[i]);
        moved(tickets[i]);
    }
    test_second_reading();
}

/* ---- in which records a ticket may stand: as an insert's, and nowhere else (§3.7) */

/* every call that looks at a record says the same of it, and so does another's turn, which it sleeps through if it is sound (§20.2) */
static void record_is(desk_worker w, bool sound) {
    uint8_t first = 0, start = sound ? DESK_BUSY_WORKER : DESK_BROKEN_RECORD;
    opened(&one, 2, 1, 9);
    one.records[0] = w;
    REFUSED(start, start_look(&one, 0, 7));
    REFUSED(start, start_insert(&one, 0, 7, UINT64_MAX));
    REFUSED(start, start_remove(&one, 0, 7));
    REFUSED(sound ? DESK_NOT_AT_REST : DESK_BROKEN_RECORD, move(&one, &two, 2));
    CHECK(orders(&one, 1).refusal == (sound ? DESK_DONE : DESK_BROKEN_RECORD));
    copy_hall(&before, &one);
    CHECK(turn(&one, 0).refusal == (sound ? DESK_DONE : DESK_BROKEN_RECORD));
    copy_hall(&one, &before);
    CHECK(run(&one, &first, 1).stop == (sound ? DESK_DONE : DESK_BROKEN_RECORD));
    copy_hall(&one, &before);
    CHECK(retire(&one, 0) == (sound ? DESK_DONE : DESK_BROKEN_RECORD));
    copy_hall(&one, &before);
    CHECK(start_look(&one, 1, 7) == DESK_DONE && turn(&one, 1).refusal == DESK_DONE);
    CHECK(one.records[0].asleep == sound);
}

static void test_records(void) {
    desk_worker look = {.key = 7, .kind = DESK_LOOK, .place = 2, .held = DESK_NO_SLOT};
    desk_worker insert = {.key = 7, .kind = DESK_INSERT, .place = 1, .held = DESK_NO_SLOT};
    desk_worker removes = {.key = 7, .kind = DESK_REMOVE, .place = 1, .held = DESK_NO_SLOT};
    desk_worker idle = desk_idle_record();
    record_is(look, true), record_is(removes, true), record_is(insert, false);
    for (size_t i = 0; i < TICKETS; i++) {
        look.ticket = insert.ticket = removes.ticket = idle.ticket = tickets[i];
        record_is(look, false), record_is(removes, false), record_is(idle, false);
        for (insert.place = 1; insert.place <= 10; insert.place++) {
            insert.held = insert.place > 6 ? 1 : DESK_NO_SLOT;
            record_is(insert, true);
        }
    }
}

/* ---- the floor's spare (§2.1) */

/* every call that hands back a floor: first refused, then accepted. hall.c holds each floor to the one that was given, the spare too, but of an
   opening that is done, which makes it 0. */
static void handed_on(uint32_t spare) {
    opened(&one, 2, 2, 9);
    one.floor.spare = spare;
    REFUSED(DESK_WRONG_SIZES, open_hall(&one, 2, 3, 9));
    REFUSED(DESK_NO_WORKER, start_look(&one, 2, 7));
    REFUSED(DESK_SPENT_TICKET, start_insert(&one, 0, 7, 0));
    REFUSED(DESK_NO_WORKER, start_remove(&one, 2, 7));
    REFUSED(DESK_WRONG_SIZES, move(&one, &two, 0));
    CHECK(start_insert(&one, 0, 7, HALF) == DESK_DONE && one.floor.spare == spare);
    REFUSED(DESK_BUSY_WORKER, start_look(&one, 0, 7));
    REFUSED(DESK_NOT_AT_REST, move(&one, &two, 2));
    CHECK(ends(&one, 0) == 1);
    CHECK(start_look(&one, 0, 7) == DESK_DONE && one.floor.spare == spare && ends(&one, 0) == HALF);
    CHECK(start_remove(&one, 0, 7) == DESK_DONE && one.floor.spare == spare);
    CHECK(retire(&one, 0) == DESK_DONE && one.floor.spare == spare);
    CHECK(move(&one, &two, 5) == DESK_DONE && two.floor.spare == spare && one.floor.spare == spare);
    two.entries = 4;
    CHECK(open_hall(&two, 2, 5, 3) == DESK_WRONG_SIZES && two.floor.spare == spare);
    two.entries = 5;
    CHECK(open_hall(&two, 2, 5, 3) == DESK_DONE && two.floor.spare == 0);
}

/* none goes by it: with any spare every call answers as with another, and leaves all the same */
static void goes_by_none(uint32_t spare) {
    static const uint8_t turns[] = {0, 1, 0, 1, 1, 0, 0, 0};
    opened(&one, 2, 1, 9);
    one.floor.last = HALF;
    copy_hall(&two, &one);
    two.floor.spare = spare;
    CHECK(start_insert(&one, 0, 7, HALF + 1) == DESK_DONE && start_insert(&two, 0, 7, HALF + 1) == DESK_DONE);
    CHECK(start_remove(&one, 1, 7) == DESK_DONE && start_remove(&two, 1, 7) == DESK_DONE);
    CHECK(same_report(run(&one, turns, 8).last, run(&two, turns, 8).last));
    CHECK(same_report(turn(&one, 0).report, turn(&two, 0).report));
    CHECK(orders(&one, 9).finished == orders(&two, 9).finished);
    CHECK(retire(&one, 0) == DESK_DONE && retire(&two, 0) == DESK_DONE);
    CHECK(total(&one).total == total(&two).total && next_occupied(&two, 0).refusal == DESK_DONE);
    CHECK(desk_count(two.board, two.words, two.floor).refusal == DESK_DONE);
    CHECK(desk_show_refusal(two.board, two.words, two.floor, 7) == DESK_DONE);
    CHECK(two.floor.spare == spare);
    two.floor.spare = one.floor.spare;
    CHECK(same_hall(&one, &two));
}

static void test_spare(void) {
    static const uint32_t spares[] = {0, 1, 0x12345678u, 0x80000000u, UINT32_MAX};
    for (size_t i = 0; i < sizeof spares / sizeof spares[0]; i++) {
        handed_on(spares[i]);
        goes_by_none(spares[i]);
    }
}

void test_tickets(void) {
    test_each_after_each();
    test_halves();
    test_one_after_another();
    test_none_after_the_highest();
    test_whole();
    test_records();
    test_spare();
}
