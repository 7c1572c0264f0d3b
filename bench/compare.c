#include "met.h"
#include "reading.h"
#include <stdio.h>
#include <stdlib.h>
#include <string.h>

static uint64_t the_seed, the_history;
static unsigned long compared, histories;

bool met_everything(void) {
    bool lacks = lacks_something();
    printf("%lu calls of %lu histories compared, with no difference; ", compared, histories);
    tell_what_was_met();
    return !lacks;
}

/* ---- answers */

static const char *const answer_names[CALLS][MOST_NUMBERS] = {
    [OPEN] = {"refusal", "workers", "buckets", "last", "version", "spare"},
    [START_LOOK] = {"refusal", "workers", "buckets", "last", "version", "spare"},
    [START_INSERT] = {"refusal", "workers", "buckets", "last", "version", "spare"},
    [START_REMOVE] = {"refusal", "workers", "buckets", "last", "version", "spare"},
    [TURN] = {"refusal", "action", "ended", "full", "answer", "bucket", "before", "after"},
    [RUN] = {"stop", "turns", "changes", "lost", "full", "last action", "last ended", "last full", "last answer", "last bucket",
        "last before", "last after"},
    [SHOW] = {"refusal", "start", "words"},
    [COUNT] = {"refusal", "lots"},
    [ORDERS] = {"refusal", "finished", "cut", "lost", "most"},
    [RETIRE] = {"refusal"},
    [TOTAL] = {"refusal", "total"},
    [NEXT] = {"refusal", "found", "bucket"},
    [MOVE] = {"refusal", "workers", "buckets", "last", "version", "spare"},
};

/* the caller passes the floor on that was handed back, so what is in the hall is also compared */
static answer of_outcome(hall *h, desk_outcome o) {
    h->floor = o.floor;
    return (answer){{o.refusal, o.floor.workers, o.floor.buckets, o.floor.last, o.floor.version, o.floor.spare}};
}

static answer of_turn(desk_turn_outcome t) {
    desk_report r = t.report;
    return (answer){{t.refusal, r.action, r.ended, r.full, r.answer, r.bucket, r.before, r.after}};
}

static answer of_run(desk_run_outcome o) {
    desk_totals t = o.totals;
    desk_report r = o.last;
    return (answer){{o.stop, t.turns, t.changes, t.lost, t.full, r.action, r.ended, r.full, r.answer, r.bucket, r.before, r.after}};
}

static answer of_count(desk_count_outcome c) {
    return (answer){{c.refusal, c.lots}};
}

static answer of_orders(desk_orders_outcome o) {
    return (answer){{o.refusal, o.finished, o.cut, o.lost, o.most}};
}

static answer of_total(desk_total_outcome t) {
    return (answer){{t.refusal, t.total}};
}

static answer of_next(desk_next_outcome n) {
    return (answer){{n.refusal, n.found, n.bucket}};
}

static answer retire(const side *s, hall *h, size_t worker) {
    return (answer){{s->retire(h->board, h->words, h->records, h->listed, h->index, h->entries, h->floor, worker)}};
}

/* the hall goes on on the board that it has moved to, and the old one is lent the next time */
static void change_boards(hall *h, size_t words) {
    static uint64_t old[ROOM_WORDS];
    memcpy(old, h->board, sizeof old);
    memcpy(h->board, h->second, sizeof old);
    memcpy(h->second, old, sizeof old);
    h->words = words;
}

static answer move(const side *s, hall *h, size_t words, size_t buckets) {
    answer a = of_outcome(h,
        s->move(h->board, h->words, h->second, words, h->records, h->listed, h->index, h->entries, h->floor, buckets));
    if (a.number[0] == 0) change_boards(h, words);
    return a;
}

static answer show(const side *s, const hall *h, uint64_t lot) {
    desk_part part = s->show(h->board, h->words, h->floor, lot);
    return (answer){{s->show_refusal(h->board, h->words, h->floor, lot), part.start, part.words}};
}

static answer make_on(const side *s, hall *h, const call *c) {
    uint64_t *board = h->board, *index = h->index;
    size_t words = h->words, listed = h->listed, entries = h->entries;
    desk_worker *records = h->records;
    desk_bid bid = {.lot = c->lot, .ticket = c->ticket};
    switch (c->which) {
    case OPEN: return of_outcome(h, s->open_floor(board, words, records, listed, index, entries, h->floor, c->plan));
    case START_LOOK: return of_outcome(h, s->start_look(board, words, records, listed, h->floor, c->worker, c->lot));
    case START_INSERT: return of_outcome(h, s->start_insert(board, words, records, listed, h->floor, c->worker, bid));
    case START_REMOVE: return of_outcome(h, s->start_remove(board, words, records, listed, h->floor, c->worker, c->lot));
    case TURN: return of_turn(s->turn(board, words, records, listed, index, entries, h->floor, c->worker));
    case RUN: return of_run(s->run(board, words, records, listed, index, entries, h->floor, c->turns, c->count));
    case SHOW: return show(s, h, c->lot);
    case COUNT: return of_count(s->count(board, words, h->floor));
    case ORDERS: return of_orders(s->orders(board, words, records, listed, h->floor, c->depth));
    case RETIRE: return retire(s, h, c->worker);
    case TOTAL: return of_total(s->total(board, words, index, entries, h->floor));
    case NEXT: return of_next(s->next_occupied(board, words, index, entries, h->floor, c->from));
    default: return move(s, h, c->words, c->buckets);
    }
}

/* ---- differences */

static unsigned differences;

static void compare_number(const char *name, size_t index, uint64_t desk, uint64_t plain) {
    if (desk == plain) return;
    differences++;
    printf("  %s [%lu]: desk has %#lx, plain %#lx\n", name, index, desk, plain);
}

static void compare_answers(which w, const answer *desk, const answer *plain) {
    for (size_t i = 0; i < MOST_NUMBERS && answer_names[w][i]; i++)
        compare_number(answer_names[w][i], i, desk->number[i], plain->number[i]);
}

static void compare_records(size_t i, const desk_worker *desk, const desk_worker *plain) {
    compare_number("kind of record", i, desk->kind, plain->kind);
    compare_number("place of record", i, desk->place, plain->place);
    compare_number("key of record", i, desk->key, plain->key);
    compare_number("ticket of record", i, desk->ticket, plain->ticket);
    compare_number("slot of record", i, desk->slot, plain->slot);
    compare_number("word of record", i, desk->word, plain->word);
    compare_number("held of record", i, desk->held, plain->held);
    compare_number("seen of record", i, desk->seen, plain->seen);
    compare_number("asleep of record", i, desk->asleep, plain->asleep);
}

static size_t least(size_t a, size_t b) {
    return a < b ? a : b;
}

static void compare_words(const char *name, const uint64_t *desk, const uint64_t *plain, size_t words) {
    if (memcmp(desk, plain, words * sizeof desk[0]) == 0) return;
    for (size_t i = 0; i < words; i++) compare_number(name, i, desk[i], plain[i]);
}

/* what is lent, and what stands next to it */
static void compare_halls(const hall *desk, const hall *plain) {
    size_t words = least(desk->words + SPARE_WORDS, ROOM_WORDS), listed = least(desk->listed + SPARE_RECORDS, ROOM_RECORDS);
    compare_words("word", desk->board, plain->board, words);
    for (size_t i = 0; i < listed; i++) compare_records(i, &desk->records[i], &plain->records[i]);
    for (size_t i = 0; i < ROOM_INDEX; i++) compare_number("word of the index", i, desk->index[i], plain->index[i]);
    compare_number("workers of the floor", 0, desk->floor.workers, plain->floor.workers);
    compare_number("buckets of the floor", 0, desk->floor.buckets, plain->floor.buckets);
    compare_number("last of the floor", 0, desk->floor.last, plain->floor.last);
    compare_number("version of the floor", 0, desk->floor.version, plain->floor.version);
    compare_number("spare of the floor", 0, desk->floor.spare, plain->floor.spare);
}

/* of an opened board, in the place of what the engine by hand has: the index that the board comes to, the answers that it gives itself to
   the display's questions, and that nobody is refused for the index */
static void compare_with_board(hall *h, const call *c, const answer *desk) {
    uint64_t index[INDEX_WORDS];
    read_index(h->board, h->floor.buckets, index);
    for (size_t i = 0; i < INDEX_WORDS; i++) compare_number("word of the index, by the board", i, h->index[i], index[i]);
    compare_number("refused for the index", 0, desk->number[0] == DESK_UNTRUE_INDEX, false);
    if (c->which != TOTAL && c->which != NEXT) return;
    answer read = make_on(&reading, h, c);
    compare_answers(c->which, desk, &read);
}

static void stop_at_difference(const pair *p, const call *c) {
    if (differences == 0) return;
    const hall *h = &p->desk;
    printf("seed %lu, history %lu, call %lu: %s\n", the_seed, the_history, compared, call_names[c->which]);
    printf("  on %lu words, %lu records and an index of %lu; worker %#lx, lot %#lx, ticket %#lx, %lu turns, depth %#lx, from %#lx, plan of "
           "%#lx workers and %#lx buckets, a second board of %#lx words and %#lx buckets\n",
        h->words, h->listed, h->entries, c->worker, c->lot, c->ticket, c->count, c->depth, c->from, c->plan.workers, c->plan.buckets, c->words,
        c->buckets);
    fflush(0);
    exit(1);
}

/* ---- the two together */

void begin(pair *p, uint64_t seed, uint64_t history) {
    the_seed = seed;
    the_history = history;
    histories++;
    p->opened = p->moved = false;
    memcpy(&p->plain, &p->desk, sizeof p->plain);
}

uint8_t make(pair *p, const call *c) {
    found f = find(&p->desk, c);
    answer desk = make_on(&proved, &p->desk, c), plain = make_on(&by_hand, &p->plain, c);
    compare_answers(c->which, &desk, &plain);
    if (c->which == ORDERS) {
        answer fastest = make_on(&tuned, &p->plain, c);
        compare_answers(c->which, &desk, &fastest);
    }
    compare_halls(&p->desk, &p->plain);
    if (c->which == MOVE) {
        compare_words("word of a board in a move", p->desk.board, p->plain.board, ROOM_WORDS);
        compare_words("word of the other board", p->desk.second, p->plain.second, ROOM_WORDS);
    }
    f.moved = p->moved;
    if ((c->which == OPEN || c->which == MOVE) && desk.number[0] == 0) p->opened = true, p->moved = c->which == MOVE;
    if (p->opened) compare_with_board(&p->desk, c, &desk);
    stop_at_difference(p, c);
    compared++;
    note(c, &p->desk, &desk, &f);
    return (uint8_t)desk.number[0];
}
