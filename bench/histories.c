/* Random histories, the same ones for the same seed: those of an opened board, which go deep; those of any board, any records and any
   index, with every kind of fault; those of a hall at rest, which moves; every record, as far as its small fields go; the longest runs; two
   short calls to every depth; every index, as far as it concerns one bucket, and every length of it; every question of the display; moves
   from every size to every size; and tickets at both ends of their halves, each after each. */
#include "histories.h"
#include "chances.h"
#include "compare.h"

enum { OPENED_HISTORIES = 1500, OPENED_CALLS = 90, WILD_HISTORIES = 6000, WILD_CALLS = 8, RESTING_HISTORIES = 3000, RESTING_CALLS = 5 };
enum { ROOM_TURNS = MOST_TURNS + 5, MOST_ALONE = 13 };

static pair halls;
static uint8_t turns[ROOM_TURNS];

/* ---- histories of an opened board */

static void start_some(chance *c) {
    const hall *h = &halls.desk;
    call start = {.which = (which)(START_LOOK + ONE_OF(c, 0, 1, 1, 1, 2, 2))};
    start.worker = now_and_then(c, 90) ? worker_who(c, h, true) : some_worker(c, h->floor.workers);
    start.lot = some_lot(c, h->floor.buckets);
    start.ticket = next_ticket(c, h->floor.last);
    make(&halls, &start);
}

static void turn_some(chance *c) {
    const hall *h = &halls.desk;
    size_t worker = now_and_then(c, 95) ? worker_who(c, h, false) : some_worker(c, h->floor.workers);
    make(&halls, &(call){.which = TURN, .worker = worker});
}

/* turns of whoever is busy now: a call that ends on the way stops the run at that worker's next turn */
static void run_some(chance *c) {
    const hall *h = &halls.desk;
    size_t count = below(c, 40);
    for (size_t i = 0; i < count; i++) turns[i] = (uint8_t)worker_who(c, h, false);
    if (count > 0 && now_and_then(c, 5)) turns[below(c, count)] = (uint8_t)ONE_OF(c, h->floor.workers, 64, 255);
    make(&halls, &(call){.which = RUN, .turns = turns, .count = count});
}

/* mostly somebody who is busy, and then often one who holds a slot */
static void retire_some(chance *c) {
    const hall *h = &halls.desk;
    size_t worker = now_and_then(c, 50) ? worker_who_holds(c, h) : worker_who(c, h, false);
    if (now_and_then(c, 10)) worker = some_worker(c, h->floor.workers);
    make(&halls, &(call){.which = RETIRE, .worker = worker});
}

/* everybody's call is played to its end; whoever comes to none as one does who is alone is retired */
static void end_round(void) {
    const hall *h = &halls.desk;
    for (size_t worker = 0; worker < h->listed; worker++) {
        for (size_t i = 0; i < MOST_ALONE && h->records[worker].kind != IDLE; i++) make(&halls, &(call){.which = TURN, .worker = worker});
        if (h->records[worker].kind != IDLE) make(&halls, &(call){.which = RETIRE, .worker = worker});
    }
}

/* mostly between two rounds */
static void move_some(chance *c) {
    size_t buckets = some_buckets(c);
    if (now_and_then(c, 70)) end_round();
    make(&halls, &(call){.which = MOVE, .buckets = buckets, .words = words_for(c, buckets)});
}

static void call_some(chance *c) {
    uint64_t pick = below(c, 103);
    if (pick < 29) start_some(c);
    else if (pick < 63) turn_some(c);
    else if (pick < 84) run_some(c);
    else if (pick < 87) retire_some(c);
    else if (pick < 89) make(&halls, &(call){.which = SHOW, .lot = some_lot(c, halls.desk.floor.buckets)});
    else if (pick < 91) make(&halls, &(call){.which = COUNT});
    else if (pick < 93) make(&halls, &(call){.which = TOTAL});
    else if (pick < 96) make(&halls, &(call){.which = NEXT, .from = some_from(c, halls.desk.floor.buckets)});
    else if (pick < 100) make(&halls, &(call){.which = ORDERS, .depth = some_depth(c, &halls.desk)});
    else move_some(c);
}

/* from here on the index is one that no call left */
static void mislead_display(chance *c) {
    spoil_index(c, &halls.desk);
    for (size_t i = 0; i < INDEX_WORDS; i++) halls.plain.index[i] = halls.desk.index[i];
    halls.opened = false;
}

/* in one of four the index is spoilt on the way */
static void opened_history(chance *c, uint64_t seed, uint64_t history) {
    call open = {.which = OPEN, .plan = some_plan(c)};
    hall *h = &halls.desk;
    fill_with_anything(c, h);
    h->words = BUCKET_WORDS * open.plan.buckets;
    h->listed = open.plan.workers;
    h->entries = INDEX_WORDS;
    h->floor = (desk_floor){.workers = any(c), .buckets = any(c), .last = any(c), .version = (uint32_t)any(c),
        .spare = (uint32_t)any(c)};
    begin(&halls, seed, history);
    make(&halls, &open);
    size_t spoilt = below(c, 4 * OPENED_CALLS);
    for (size_t i = 0; i < OPENED_CALLS; i++) {
        if (i == spoilt) mislead_display(c);
        call_some(c);
    }
}

/* ---- histories of any board, any records and any index */

static call any_call(chance *c, const hall *h) {
    call made = {.turns = turns};
    made.which = (which)ONE_OF(c, START_LOOK, START_INSERT, START_REMOVE, TURN, TURN, TURN, RUN, RUN, SHOW, COUNT, ORDERS, ORDERS, RETIRE,
        RETIRE, TOTAL, NEXT, NEXT, MOVE);
    if (now_and_then(c, 4)) made.which = OPEN;
    made.plan = (desk_plan){.workers = h->floor.workers, .buckets = h->floor.buckets, .version = some_version(c)};
    if (now_and_then(c, 50)) made.plan = some_plan(c);
    made.worker = some_worker(c, h->floor.workers);
    made.lot = some_lot(c, h->floor.buckets);
    made.ticket = ONE_OF(c, 0, h->floor.last, h->floor.last + 1, next_ticket(c, h->floor.last), some_ticket(c), any(c));
    made.count = below(c, 12);
    made.depth = some_depth(c, h);
    made.from = some_from(c, h->floor.buckets);
    made.buckets = some_buckets(c);
    made.words = words_for(c, made.buckets);
    for (size_t i = 0; i < made.count; i++) turns[i] = (uint8_t)some_worker(c, h->floor.workers);
    if (now_and_then(c, 3)) made.count = ONE_OF(c, MOST_TURNS, MOST_TURNS + 1, ROOM_TURNS);
    return made;
}

static void wild_history(chance *c, uint64_t seed, uint64_t history) {
    any_hall(c, &halls.desk);
    if (now_and_then(c, 12)) spoil_sizes(c, &halls.desk);
    begin(&halls, seed, history);
    for (size_t i = 0; i < WILD_CALLS; i++) {
        call made = any_call(c, &halls.desk);
        make(&halls, &made);
    }
}

/* ---- histories of a hall at rest, or nearly so: it moves, and what is called afterwards may keep it from moving again */

static void resting_history(chance *c, uint64_t seed, uint64_t history) {
    hall *h = &halls.desk;
    any_hall(c, h);
    bring_to_rest(c, h);
    while (now_and_then(c, 30)) spoil_rest(c, h);
    if (now_and_then(c, 8)) spoil_sizes(c, h);
    begin(&halls, seed, history);
    for (size_t i = 0; i < RESTING_CALLS; i++) {
        call made = any_call(c, h);
        if (i % 2 == 0) made.which = MOVE;
        make(&halls, &made);
    }
}

/* ---- every record, as far as its small fields go: all orders, a turn, a retiring, a turn of another beside it, a start on the same, and a
   move beside another that is idle */

/* the other one looks */
static void put_record(desk_worker w) {
    halls.desk.records[0] = halls.plain.records[0] = w;
    halls.desk.records[1] = halls.plain.records[1] = (desk_worker){.kind = LOOK, .place = 2, .key = 2, .held = HOLDS_NONE};
}

static void try_record(chance *c, desk_worker w) {
    hall *h = &halls.desk;
    any_bucket(c, h->board, 1);
    true_index(h);
    if (now_and_then(c, 20)) spoil_index(c, h);
    for (size_t i = 0; i < h->words; i++) halls.plain.board[i] = h->board[i];
    for (size_t i = 0; i < INDEX_WORDS; i++) halls.plain.index[i] = h->index[i];
    put_record(w);
    make(&halls, &(call){.which = ORDERS, .depth = some_depth(c, h)});
    make(&halls, &(call){.which = TURN, .worker = 0});
    put_record(w);
    make(&halls, &(call){.which = RETIRE, .worker = 0});
    put_record(w);
    make(&halls, &(call){.which = TURN, .worker = 1});
    make(&halls, &(call){.which = START_REMOVE, .worker = 0, .lot = 5});
    put_record(w);
    halls.desk.records[1] = halls.plain.records[1] = (desk_worker){.held = HOLDS_NONE};
    make(&halls, &(call){.which = MOVE, .buckets = 1, .words = BUCKET_WORDS});
    halls.opened = halls.moved = false;
}

static void every_record(chance *c, uint64_t seed, uint64_t history) {
    static const uint64_t brought[3] = {0, 1, HALF};
    any_hall(c, &halls.desk);
    halls.desk.floor = (desk_floor){.workers = 2, .buckets = 1, .last = 0, .spare = (uint32_t)any(c)};
    halls.desk.words = BUCKET_WORDS;
    halls.desk.listed = 2;
    begin(&halls, seed, history);
    for (uint8_t kind = 0; kind <= 4; kind++)
        for (uint8_t place = 0; place <= LAST_PLACE + 1; place++)
            for (uint8_t held = 0; held <= 4; held++)
                for (uint8_t slot = 0; slot <= SLOTS; slot++)
                    for (uint8_t more = 0; more < 9; more++) {
                        desk_worker w = {.kind = kind, .place = place, .held = held, .slot = slot, .ticket = brought[more % 3]};
                        if (more >= 3) w.word = more < 6 ? some_word(c) : broken_word(c);
                        if (now_and_then(c, 50)) w.key = below(c, 3);
                        if (now_and_then(c, 50)) w.seen = below(c, 3);
                        if (now_and_then(c, 50)) w.asleep = some_sleep(c);
                        try_record(c, w);
                    }
}

/* ---- the longest runs: an insert on a full bucket goes round for ever, and the last turn of all may be refused */

static void longest_runs(chance *c, uint64_t seed, uint64_t history) {
    any_hall(c, &halls.desk);
    hall *h = &halls.desk;
    for (size_t i = 0; i < h->words; i++) h->board[i] = i % BUCKET_WORDS == 0 ? 0x0001010100000000 : 0;
    for (size_t i = 0; i < h->listed; i++)
        h->records[i] = (desk_worker){.kind = INSERT, .place = 1, .key = 7 + i, .ticket = 1 + i, .held = HOLDS_NONE};
    true_index(h);
    begin(&halls, seed, history);
    for (size_t i = 0; i < ROOM_TURNS; i++) turns[i] = (uint8_t)below(c, h->listed);
    for (size_t count = MOST_TURNS - 1; count <= MOST_TURNS + 2; count++)
        make(&halls, &(call){.which = RUN, .turns = turns, .count = count});
    turns[MOST_TURNS - 1] = 255;
    make(&halls, &(call){.which = RUN, .turns = turns, .count = MOST_TURNS});
}

/* ---- every depth and one past each end: two that look or remove, from their starts, so that the last depths finish every walk */

static void every_depth(chance *c, uint64_t seed, uint64_t history) {
    any_hall(c, &halls.desk);
    hall *h = &halls.desk;
    h->floor = (desk_floor){.workers = 2, .buckets = 1, .last = 9};
    h->words = BUCKET_WORDS;
    h->listed = 2;
    h->board[0] = 0x0000000100000000, h->board[1] = 7, h->board[4] = 9, h->board[7] = 0;
    begin(&halls, seed, history);
    for (uint64_t kinds = 0; kinds < 4; kinds++) {
        for (size_t i = 0; i < 2; i++)
            h->records[i] = kinds >> i & 1 ? (desk_worker){.kind = LOOK, .place = 2, .key = 8, .held = HOLDS_NONE}
                                           : (desk_worker){.kind = REMOVE, .place = 1, .key = 7, .held = HOLDS_NONE};
        for (size_t i = 0; i < 2; i++) halls.plain.records[i] = h->records[i];
        for (size_t depth = 0; depth <= MOST_DEPTH + 1; depth++) make(&halls, &(call){.which = ORDERS, .depth = depth});
    }
}

/* ---- every index: all marks of a bucket with its bit set and not, and the total at both ends of what that leaves it, and past them; for
   boards that end within a word of the index, at its end and just past it */

enum { BOARDS = 11, TOTALS = 9, MARKINGS = 27, CREW = 4 };

static const size_t boards[BOARDS] = {1, 2, 63, 64, 65, 128, 129, 192, 193, 255, MOST_BUCKETS};

static void put_hall(const hall *h) {
    halls.desk = halls.plain = *h;
    halls.opened = halls.moved = false;
}

/* Of one bucket three know the word: the first is to commit a slot or to give it back, the second to close one, and the third holds one and
   is to be retired. The last looks in the bucket after that, where nothing is valid. */
static void set_hall(chance *c, hall *h, size_t buckets, size_t bucket, unsigned marks) {
    h->floor = (desk_floor){.workers = CREW, .buckets = buckets, .last = 9};
    h->words = BUCKET_WORDS * buckets;
    h->listed = CREW;
    for (size_t i = 0; i < h->words; i++) h->board[i] = 0;
    uint64_t word = some_version(c);
    for (unsigned slot = 0; slot < SLOTS; slot++, marks /= 3) word |= (uint64_t)(marks % 3) << (32 + 8 * slot);
    h->board[BUCKET_WORDS * bucket] = word;
    for (size_t i = 0; i < CREW - 1; i++)
        h->records[i] = (desk_worker){.kind = INSERT, .place = (uint8_t)ONE_OF(c, 9, 10), .key = bucket, .ticket = 9, .word = word,
            .slot = (uint8_t)below(c, SLOTS), .held = (uint8_t)below(c, SLOTS)};
    h->records[1].kind = REMOVE, h->records[1].place = 13, h->records[1].ticket = 0, h->records[1].held = HOLDS_NONE;
    h->records[3] = (desk_worker){.kind = LOOK, .place = 2, .key = bucket + 1, .held = HOLDS_NONE};
    true_index(h);
}

static void try_index(const hall *h, size_t bucket) {
    turns[0] = 3, turns[1] = 0, turns[2] = 1;
    put_hall(h);
    make(&halls, &(call){.which = RUN, .turns = turns, .count = 3});
    for (size_t worker = 0; worker < 2; worker++) {
        put_hall(h);
        make(&halls, &(call){.which = TURN, .worker = worker});
    }
    for (size_t worker = 1; worker < 3; worker++) {
        put_hall(h);
        make(&halls, &(call){.which = RETIRE, .worker = worker});
    }
    make(&halls, &(call){.which = TOTAL});
    make(&halls, &(call){.which = NEXT, .from = bucket});
}

static void every_index(chance *c, uint64_t seed, uint64_t history) {
    static hall h;
    any_hall(c, &h);
    begin(&halls, seed, history);
    for (size_t board = 0; board < BOARDS; board++)
        for (unsigned marks = 0; marks < MARKINGS; marks++) {
            size_t buckets = boards[board], bucket = ONE_OF(c, 0, buckets - 1, below(c, buckets));
            set_hall(c, &h, buckets, bucket, marks);
            uint64_t valid = h.index[0], most = SLOTS * buckets - (SLOTS - valid);
            const uint64_t totals[TOTALS] = {0, valid - 1, valid, valid + 1, most - 1, most, most + 1, SLOTS * buckets + 1, UINT64_MAX};
            for (size_t i = 0; i < 2 * TOTALS; i++) {
                h.index[0] = totals[i / 2];
                h.index[1 + bucket / IN_WORD] ^= (uint64_t)1 << bucket % IN_WORD;
                try_index(&h, bucket);
            }
        }
}

/* ---- every length of the index, and some far too great, for every call: those that do not take it are as with the right one */

static void every_length(chance *c, uint64_t seed, uint64_t history) {
    static const size_t lengths[] = {0, 1, 2, 3, 4, INDEX_WORDS, INDEX_WORDS + 1, ROOM_INDEX, 0x105, 0x100000005, UINT64_MAX};
    static hall h;
    any_hall(c, &h);
    begin(&halls, seed, history);
    for (size_t board = 0; board < BOARDS; board++)
        for (size_t i = 0; i < sizeof lengths / sizeof lengths[0]; i++)
            for (which w = OPEN; w < CALLS; w++) {
                set_hall(c, &h, boards[board], 0, 1);
                h.entries = lengths[i];
                put_hall(&h);
                call made = {.which = w, .worker = 2, .lot = 5, .ticket = 10, .turns = turns, .count = 1, .depth = 2};
                made.plan = (desk_plan){.workers = CREW, .buckets = boards[board]};
                made.buckets = boards[board], made.words = BUCKET_WORDS * boards[board];
                turns[0] = 3;
                make(&halls, &made);
            }
}

/* ---- every bit, alone or with another, on the same boards: the questions from on both sides of it, and from both ends of the board */

static void every_question(chance *c, uint64_t seed, uint64_t history) {
    static hall h;
    any_hall(c, &h);
    begin(&halls, seed, history);
    for (size_t board = 0; board < BOARDS; board++)
        for (size_t bit = 0; bit < MOST_BUCKETS; bit++) {
            size_t buckets = boards[board], other = now_and_then(c, 50) ? bit : below(c, MOST_BUCKETS);
            set_hall(c, &h, buckets, 0, 0);
            h.index[0] = any(c);
            h.index[1 + bit / IN_WORD] |= (uint64_t)1 << bit % IN_WORD;
            h.index[1 + other / IN_WORD] |= (uint64_t)1 << other % IN_WORD;
            put_hall(&h);
            const size_t from[] = {0, bit - 1, bit, bit + 1, buckets - 1, buckets};
            for (size_t i = 0; i < sizeof from / sizeof from[0]; i++) make(&halls, &(call){.which = NEXT, .from = from[i]});
            make(&halls, &(call){.which = TOTAL});
        }
}

/* ---- every size to every size and back, with the first so many lots: none, as many as the smaller board has slots, and one more; and a
   turn or two on each */

static void set_resting_hall(hall *h, size_t buckets, size_t lots) {
    h->floor.buckets = buckets;
    h->words = BUCKET_WORDS * buckets;
    for (size_t i = 0; i < h->words; i++) h->board[i] = i % BUCKET_WORDS == 0 ? h->floor.version + (uint32_t)i : 0;
    for (size_t lot = 0; lot < lots; lot++) {
        uint64_t *bucket = h->board + BUCKET_WORDS * (lot % buckets);
        bucket[0] |= (uint64_t)DESK_MARK_VALID << (32 + 8 * (lot / buckets));
        bucket[1 + lot / buckets] = lot;
        bucket[4 + lot / buckets] = 1 + lot;
    }
    for (size_t i = 0; i < h->listed; i++) h->records[i] = (desk_worker){.held = HOLDS_NONE};
    true_index(h);
}

static void move_all(size_t buckets) {
    make(&halls, &(call){.which = MOVE, .buckets = buckets, .words = BUCKET_WORDS * buckets});
}

static void move_and_back(chance *c, size_t from, size_t to) {
    move_all(to);
    make(&halls, &(call){.which = START_REMOVE, .worker = 0, .lot = below(c, SLOTS * from)});
    make(&halls, &(call){.which = TURN, .worker = 0});
    move_all(from);
    make(&halls, &(call){.which = RETIRE, .worker = 0});
    move_all(from);
}

static void every_move(chance *c, uint64_t seed, uint64_t history) {
    static hall h;
    any_hall(c, &h);
    begin(&halls, seed, history);
    for (size_t from = 0; from < BOARDS; from++)
        for (size_t to = 0; to < BOARDS; to++) {
            size_t slots = SLOTS * boards[from < to ? from : to];
            const size_t lots[] = {0, slots, slots + 1};
            for (size_t i = 0; i < 3; i++) {
                if (lots[i] > SLOTS * boards[from]) continue;
                h.floor.version = some_version(c);
                set_resting_hall(&h, boards[from], lots[i]);
                put_hall(&h);
                move_and_back(c, boards[from], boards[to]);
            }
        }
}

/* ---- every ticket after every other, of those about where a half, a sign or the whole comes round: a start on a floor whose last it is, the
   insert to its end, a look and a move if it stands, its remove; and each in a record of every kind that is sound or idle without it */

enum { TICKETS = 12 };

static const uint64_t tickets[TICKETS] = {
    0, 1, 2, HALF - 1, HALF, HALF + 1, 2 * HALF - 1, 2 * HALF, INT64_MAX, (uint64_t)INT64_MAX + 1, UINT64_MAX - 1, UINT64_MAX};

/* the first worker's call, by turns, to its end, as one ends who is alone */
static void play_out(which start, uint64_t ticket) {
    make(&halls, &(call){.which = start, .worker = 0, .lot = 7, .ticket = ticket});
    for (size_t i = 0; i < MOST_ALONE && halls.desk.records[0].kind != IDLE; i++) make(&halls, &(call){.which = TURN, .worker = 0});
}

static void play_ticket(const hall *h, uint64_t ticket) {
    put_hall(h);
    play_out(START_INSERT, ticket);
    play_out(START_LOOK, 0);
    move_all(3);
    play_out(START_REMOVE, 0);
    play_out(START_INSERT, ticket);
}

static void try_ticket(chance *c, uint64_t ticket) {
    for (uint8_t kind = IDLE; kind <= REMOVE; kind++)
        try_record(c, (desk_worker){.kind = kind, .place = kind == LOOK ? 2 : kind != IDLE, .held = HOLDS_NONE, .ticket = ticket});
}

static void every_ticket(chance *c, uint64_t seed, uint64_t history) {
    static hall h;
    any_hall(c, &h);
    h.listed = h.floor.workers = 2;
    begin(&halls, seed, history);
    for (size_t last = 0; last < TICKETS; last++) {
        h.floor.last = tickets[last];
        h.floor.spare = (uint32_t)any(c) | 1;
        set_resting_hall(&h, 1, 0);
        for (size_t i = 0; i < TICKETS; i++) play_ticket(&h, tickets[i]);
        put_hall(&h);
        try_ticket(c, tickets[last]);
    }
}

/* ---- all of them */

enum { DIRECTED = 8 };

bool compare_histories(uint64_t seed) {
    static void (*const directed[DIRECTED])(chance *, uint64_t seed, uint64_t history) = {every_record, longest_runs, every_depth,
        every_index, every_length, every_question, every_move, every_ticket};
    enum { WILD = OPENED_HISTORIES, RESTING = WILD + WILD_HISTORIES, FIRST_DIRECTED = RESTING + RESTING_HISTORIES };
    for (uint64_t history = 0; history < FIRST_DIRECTED + DIRECTED; history++) {
        chance c = {.state = seed * 0x100000000 + history};
        if (history < WILD) opened_history(&c, seed, history);
        else if (history < RESTING) wild_history(&c, seed, history);
        else if (history < FIRST_DIRECTED) resting_history(&c, seed, history);
        else directed[history - FIRST_DIRECTED](&c, seed, history);
    }
    return met_everything();
}
