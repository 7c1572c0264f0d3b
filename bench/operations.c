#include "operations.h"
#include "reading.h"
#include <string.h>

/* ---- halls */

static const desk_worker idle_record = {.held = HOLDS_NONE};

/* the index that turns would have kept */
static void tell_display(hall *h) {
    h->entries = INDEX_WORDS;
    read_index(h->board, h->floor.buckets, h->index);
}

/* every bucket has so many valid lots, as after an opening at version 0 and their inserts */
static void fill_board(hall *h, size_t buckets, size_t lots) {
    h->words = BUCKET_WORDS * buckets;
    h->floor.buckets = buckets;
    for (size_t number = 0; number < buckets; number++) {
        uint64_t *bucket = h->board + BUCKET_WORDS * number;
        for (size_t i = 0; i < BUCKET_WORDS; i++) bucket[i] = 0;
        bucket[0] = lots;
        for (size_t slot = 0; slot < lots; slot++) {
            bucket[0] |= (uint64_t)1 << (32 + 8 * slot);
            bucket[1 + slot] = number + slot * buckets;
            bucket[4 + slot] = 1 + slot + lots * number;
        }
    }
    h->floor.last = lots * buckets;
    tell_display(h);
}

static void send_idle(hall *h, size_t workers) {
    h->listed = h->floor.workers = workers;
    for (size_t i = 0; i < workers; i++) h->records[i] = idle_record;
}

/* the record that a start leaves */
static void start(hall *h, size_t worker, uint8_t kind, uint64_t lot) {
    desk_worker *w = &h->records[worker];
    *w = (desk_worker){.kind = kind, .place = kind == LOOK ? 2 : 1, .key = lot, .held = HOLDS_NONE};
    if (kind == INSERT) w->ticket = ++h->floor.last;
}

/* ---- scenes */

static void idle_scene(stage *g, size_t buckets, size_t workers) {
    hall *h = &g->scenes[0].first;
    fill_board(h, buckets, 1);
    send_idle(h, workers);
    g->scenes[0].count = 0;
}

/* Every worker has claimed slot 1 of its bucket and is about to commit. A retiring leaves no mark there, and counts the version on; for the
   next one on the same bucket that makes no difference, so only the record has to be put back. */
static void holders_scene(stage *g, size_t buckets, size_t workers) {
    hall *h = &g->scenes[0].first;
    fill_board(h, buckets, 1);
    send_idle(h, workers);
    for (size_t number = 0; number < buckets; number++) h->board[BUCKET_WORDS * number] |= (uint64_t)DESK_MARK_INSERTING << 40;
    for (size_t i = 0; i < workers; i++) {
        start(h, i, INSERT, SLOTS * buckets + i % buckets);
        h->records[i].place = 9;
        h->records[i].held = 1;
        h->records[i].word = h->board[BUCKET_WORDS * (i % buckets)];
    }
}

/* Every bucket is full, and every worker inserts one more lot: they go round for ever, so a run can be of any length and its turns are
   all accepted, and everybody else sleeps through each. The board stays as it is, and a record comes round with every tenth turn, so nothing
   has to be put back. */
static void full_scene(stage *g, size_t buckets, size_t workers) {
    hall *h = &g->scenes[0].first;
    fill_board(h, buckets, SLOTS);
    send_idle(h, workers);
    for (size_t i = 0; i < workers; i++) start(h, i, INSERT, SLOTS * buckets + i % buckets);
    g->scenes[0].count = LONG_RUN;
    for (size_t i = 0; i < LONG_RUN; i++) g->scenes[0].turns[i] = (uint8_t)(i % workers);
}

static void short_scene(stage *g, size_t buckets, size_t workers) {
    full_scene(g, buckets, workers);
    g->scenes[0].count = SHORT_RUN;
}

/* the same, but one worker alone is at a call, and has all turns: nobody sleeps */
static void lone_scene(stage *g, size_t buckets, size_t workers) {
    full_scene(g, buckets, workers);
    for (size_t i = 1; i < workers; i++) g->scenes[0].first.records[i] = idle_record;
    for (size_t i = 0; i < LONG_RUN; i++) g->scenes[0].turns[i] = 0;
}

/* the same turns as the long run's in no order, as a class would call them: whoever predicts the next place is wrong more often */
static void shuffled_scene(stage *g, size_t buckets, size_t workers) {
    full_scene(g, buckets, workers);
    chance c = {.state = 1};
    for (size_t i = LONG_RUN - 1; i > 0; i--) {
        size_t other = below(&c, i + 1);
        uint8_t turn = g->scenes[0].turns[i];
        g->scenes[0].turns[i] = g->scenes[0].turns[other];
        g->scenes[0].turns[other] = turn;
    }
}

/* turns in order, each worker's until its call ends, so that none is refused; the engine by hand says when that is */
static void play_to_the_end(stage *g, scene *s) {
    hall *h = &g->now;
    memcpy(h, &s->first, sizeof *h);
    bool busy = true;
    for (s->count = 0; busy;) {
        busy = false;
        for (size_t i = 0; i < h->listed && s->count < LONG_RUN; i++) {
            if (h->records[i].kind == IDLE) continue;
            by_hand.turn(h->board, h->words, h->records, h->listed, h->index, h->entries, h->floor, i);
            s->turns[s->count++] = (uint8_t)i;
            busy = true;
        }
    }
}

/* Each worker has a call, and the turns go round until all calls have ended: every place comes up, swaps win and lose. A look, an
   insert and a remove come to each worker once, in three scenes. Half of the lots stand. */
static void mixed_scenes(stage *g, size_t buckets, size_t workers) {
    chance c = {.state = 1};
    for (size_t k = 0; k < SCENES; k++) {
        hall *h = &g->scenes[k].first;
        fill_board(h, buckets, 1);
        send_idle(h, workers);
        for (size_t i = 0; i < workers; i++) start(h, i, (uint8_t)(LOOK + (i + k) % 3), below(&c, 2 * buckets));
        play_to_the_end(g, &g->scenes[k]);
    }
}

/* An empty bucket, and each worker is to insert lot 7. Two of them need the depth to meet at a swap; three have many orders before that. */
static void inserts(stage *g, size_t buckets, size_t workers) {
    hall *h = &g->scenes[0].first;
    fill_board(h, buckets, 0);
    send_idle(h, workers);
    for (size_t i = 0; i < workers; i++) start(h, i, INSERT, 7);
    if (g->brief) g->scenes[0].depth = workers > 2 ? 7 : 11;
    else g->scenes[0].depth = workers > 2 ? 12 : 20;
}

/* the same, but the last worker is to remove it */
static void inserts_and_remove(stage *g, size_t buckets, size_t workers) {
    inserts(g, buckets, workers);
    start(&g->scenes[0].first, workers - 1, REMOVE, 7);
}

/* nothing is occupied */
static void empty_scene(stage *g, size_t buckets, size_t workers) {
    idle_scene(g, buckets, workers);
    fill_board(&g->scenes[0].first, buckets, 0);
}

/* the last bucket is, with one lot */
static void last_scene(stage *g, size_t buckets, size_t workers) {
    empty_scene(g, buckets, workers);
    hall *h = &g->scenes[0].first;
    h->board[BUCKET_WORDS * (buckets - 1)] = (uint64_t)DESK_MARK_VALID << 32;
    tell_display(h);
}

/* as many buckets again, with a lot in each */
static void move_scene(stage *g, size_t buckets, size_t workers) {
    idle_scene(g, buckets, workers);
    g->scenes[0].buckets = buckets;
}

/* so many lots, in the first slots of all buckets, then in the second ones, and so on */
static void place_lots(hall *h, size_t buckets, size_t lots) {
    fill_board(h, buckets, 0);
    for (size_t lot = 0; lot < lots; lot++) {
        uint64_t *bucket = h->board + BUCKET_WORDS * (lot % buckets);
        size_t slot = lot / buckets;
        bucket[0] = (bucket[0] | (uint64_t)DESK_MARK_VALID << (32 + 8 * slot)) + 1;
        bucket[1 + slot] = lot;
        bucket[4 + slot] = 1 + lot;
    }
    h->floor.last = lots;
    tell_display(h);
}

/* the same with 600 lots, where there are 256 buckets: two in each, and three in some */
static void crowded_move_scene(stage *g, size_t buckets, size_t workers) {
    move_scene(g, buckets, workers);
    place_lots(&g->scenes[0].first, buckets, buckets * 600 / MOST_BUCKETS);
}

/* to one bucket, which has just room for three lots, and from it */
static void shrinking_scene(stage *g, size_t buckets, size_t workers) {
    move_scene(g, buckets, workers);
    place_lots(&g->scenes[0].first, buckets, SLOTS);
    g->scenes[0].buckets = 1;
}

static void growing_scene(stage *g, size_t buckets, size_t workers) {
    move_scene(g, buckets, workers);
    place_lots(&g->scenes[0].first, 1, SLOTS);
}

void reset(stage *g) {
    memcpy(&g->now, &g->scenes[0].first, sizeof g->now);
}

void prepare(const operation *o, stage *g, size_t buckets, size_t workers, bool brief) {
    g->brief = brief;
    o->prepare(g, buckets, workers);
    reset(g);
}

/* ---- repeating. A side without the call is there for what the loop itself takes. */

static void repeat_run(const side *s, stage *g, size_t repeats) {
    hall *h = &g->now;
    const scene *c = &g->scenes[0];
    for (; repeats > 0; repeats--)
        if (s->run) s->run(h->board, h->words, h->records, h->listed, h->index, h->entries, h->floor, c->turns, c->count);
}

/* only the buckets of these calls can have changed, and the index */
static void put_back(hall *now, const hall *first) {
    for (size_t i = 0; i < INDEX_WORDS; i++) now->index[i] = first->index[i];
    for (size_t i = 0; i < first->listed; i++) {
        size_t from = BUCKET_WORDS * (first->records[i].key % first->floor.buckets);
        for (size_t word = from; word < from + BUCKET_WORDS; word++) now->board[word] = first->board[word];
        now->records[i] = first->records[i];
    }
}

static void repeat_mixed(const side *s, stage *g, size_t repeats) {
    hall *h = &g->now;
    for (; repeats > 0; repeats--)
        for (const scene *c = g->scenes; c < g->scenes + SCENES; c++) {
            put_back(h, &c->first);
            if (s->run) s->run(h->board, h->words, h->records, h->listed, h->index, h->entries, h->floor, c->turns, c->count);
        }
}

static size_t next_worker(const hall *h, size_t worker) {
    return worker + 1 < h->listed ? worker + 1 : 0;
}

static void repeat_turn(const side *s, stage *g, size_t repeats) {
    hall *h = &g->now;
    for (size_t worker = 0; repeats > 0; repeats--, worker = next_worker(h, worker))
        if (s->turn) s->turn(h->board, h->words, h->records, h->listed, h->index, h->entries, h->floor, worker);
}

static void repeat_lone_turn(const side *s, stage *g, size_t repeats) {
    hall *h = &g->now;
    for (; repeats > 0; repeats--)
        if (s->turn) s->turn(h->board, h->words, h->records, h->listed, h->index, h->entries, h->floor, 0);
}

static void repeat_start_look(const side *s, stage *g, size_t repeats) {
    hall *h = &g->now;
    for (size_t worker = 0; repeats > 0; repeats--, worker = next_worker(h, worker)) {
        h->records[worker] = idle_record;
        if (s->start_look) s->start_look(h->board, h->words, h->records, h->listed, h->floor, worker, repeats);
    }
}

/* the floor that is handed back is not passed on, so that one ticket serves */
static void repeat_start_insert(const side *s, stage *g, size_t repeats) {
    hall *h = &g->now;
    desk_bid bid = {.ticket = h->floor.last + 1};
    for (size_t worker = 0; repeats > 0; repeats--, worker = next_worker(h, worker)) {
        h->records[worker] = idle_record;
        bid.lot = repeats;
        if (s->start_insert) s->start_insert(h->board, h->words, h->records, h->listed, h->floor, worker, bid);
    }
}

static void repeat_start_remove(const side *s, stage *g, size_t repeats) {
    hall *h = &g->now;
    for (size_t worker = 0; repeats > 0; repeats--, worker = next_worker(h, worker)) {
        h->records[worker] = idle_record;
        if (s->start_remove) s->start_remove(h->board, h->words, h->records, h->listed, h->floor, worker, repeats);
    }
}

static void repeat_retire(const side *s, stage *g, size_t repeats) {
    hall *h = &g->now;
    const hall *first = &g->scenes[0].first;
    for (size_t worker = 0; repeats > 0; repeats--, worker = next_worker(h, worker)) {
        h->records[worker] = first->records[worker];
        if (s->retire) s->retire(h->board, h->words, h->records, h->listed, h->index, h->entries, h->floor, worker);
    }
}

static void repeat_open(const side *s, stage *g, size_t repeats) {
    hall *h = &g->now;
    desk_plan plan = {.workers = h->floor.workers, .buckets = h->floor.buckets, .version = 7};
    for (; repeats > 0; repeats--)
        if (s->open_floor) s->open_floor(h->board, h->words, h->records, h->listed, h->index, h->entries, h->floor, plan);
}

/* the floor that is handed back is not passed on, so each time the same board is moved */
static void repeat_move(const side *s, stage *g, size_t repeats) {
    hall *h = &g->now;
    size_t to = g->scenes[0].buckets, words = BUCKET_WORDS * to;
    for (; repeats > 0; repeats--)
        if (s->move) s->move(h->board, h->words, h->second, words, h->records, h->listed, h->index, h->entries, h->floor, to);
}

static void repeat_show(const side *s, stage *g, size_t repeats) {
    const hall *h = &g->now;
    for (; repeats > 0; repeats--)
        if (s->show) s->show(h->board, h->words, h->floor, repeats);
}

static void repeat_count(const side *s, stage *g, size_t repeats) {
    const hall *h = &g->now;
    for (; repeats > 0; repeats--)
        if (s->count) s->count(h->board, h->words, h->floor);
}

static void repeat_total(const side *s, stage *g, size_t repeats) {
    const hall *h = &g->now;
    for (; repeats > 0; repeats--)
        if (s->total) s->total(h->board, h->words, h->index, h->entries, h->floor);
}

static void repeat_next(const side *s, stage *g, size_t repeats) {
    const hall *h = &g->now;
    for (; repeats > 0; repeats--)
        if (s->next_occupied) s->next_occupied(h->board, h->words, h->index, h->entries, h->floor, 0);
}

/* the numbers of all occupied buckets, by as many questions and one more */
static size_t ask_for_all(const side *s, const hall *h, size_t *told) {
    size_t many = 0;
    desk_next_outcome next = s->next_occupied(h->board, h->words, h->index, h->entries, h->floor, 0);
    for (; next.found; next = s->next_occupied(h->board, h->words, h->index, h->entries, h->floor, next.bucket + 1))
        told[many++] = next.bucket;
    return many;
}

/* here the caller's loop over the answers counts too: who reads the board has that loop and no question */
static void repeat_next_of_all(const side *s, stage *g, size_t repeats) {
    const hall *h = &g->now;
    for (; repeats > 0; repeats--) {
        if (s->occupied) s->occupied(h->board, h->floor, g->told);
        else if (s->next_occupied) ask_for_all(s, h, g->told);
    }
}

static void repeat_orders(const side *s, stage *g, size_t repeats) {
    const hall *h = &g->now;
    size_t depth = g->scenes[0].depth;
    for (; repeats > 0; repeats--)
        if (s->orders) s->orders(h->board, h->words, h->records, h->listed, h->floor, depth);
}

/* ---- the list of them */

static size_t one(const stage *g) {
    (void)g;
    return 1;
}

static size_t turns_of_run(const stage *g) {
    return g->scenes[0].count;
}

static size_t turns_of_scenes(const stage *g) {
    return g->scenes[0].count + g->scenes[1].count + g->scenes[2].count;
}

typedef struct {
    uint64_t board[BUCKET_WORDS];
    desk_worker records[MOST_IN_CLASS];
    uint64_t index[INDEX_WORDS];
} small_class;

/* the engine by hand says where a turn leads, but nothing of its walks is taken for this */
static size_t turns_from(const small_class *from, desk_floor floor, size_t left) {
    size_t turns = 0;
    for (size_t i = 0; i < floor.workers && left > 0; i++) {
        if (from->records[i].kind == IDLE) continue;
        small_class next = *from;
        by_hand.turn(next.board, BUCKET_WORDS, next.records, floor.workers, next.index, INDEX_WORDS, floor, i);
        turns += 1 + turns_from(&next, floor, left - 1);
    }
    return turns;
}

static size_t turns_walked(const stage *g) {
    const hall *h = &g->scenes[0].first;
    small_class outset;
    memcpy(outset.board, h->board, sizeof outset.board);
    memcpy(outset.records, h->records, sizeof outset.records);
    memcpy(outset.index, h->index, sizeof outset.index);
    return turns_from(&outset, h->floor, g->scenes[0].depth);
}

const operation operations[OPERATIONS] = {
    {"long-run", "turn", full_scene, repeat_run, turns_of_run, 1, EVERY_SIZE, 0},
    {"shuffled-run", "turn", shuffled_scene, repeat_run, turns_of_run, 1, EVERY_SIZE, 0},
    {"mixed-run", "turn", mixed_scenes, repeat_mixed, turns_of_scenes, 1, EVERY_SIZE, 0},
    {"short-run", "turn", short_scene, repeat_run, turns_of_run, 40, EVERY_SIZE, 0},
    {"turn", "call", full_scene, repeat_turn, one, WHOLE_ROUNDS, EVERY_SIZE, 0},
    {"lone-run", "turn", lone_scene, repeat_run, turns_of_run, 1, THREE_SIZES, 0},
    {"lone-turn", "call", lone_scene, repeat_lone_turn, one, WHOLE_ROUNDS, THREE_SIZES, 0},
    {"start-look", "call", idle_scene, repeat_start_look, one, 64, THREE_SIZES, 0},
    {"start-insert", "call", idle_scene, repeat_start_insert, one, 64, THREE_SIZES, 0},
    {"start-remove", "call", idle_scene, repeat_start_remove, one, 64, THREE_SIZES, 0},
    {"retire", "call", holders_scene, repeat_retire, one, 64, THREE_SIZES, 0},
    {"open", "call", idle_scene, repeat_open, one, 8, THREE_SIZES, 0},
    {"move", "call", move_scene, repeat_move, one, 8, LARGEST_SIZE, 0},
    {"move-600", "call", crowded_move_scene, repeat_move, one, 8, LARGEST_SIZE, 0},
    {"move-to-1", "call", shrinking_scene, repeat_move, one, 8, LARGEST_SIZE, 0},
    {"move-from-1", "call", growing_scene, repeat_move, one, 8, LARGEST_SIZE, 0},
    {"empty-run", "call", idle_scene, repeat_run, one, 64, THREE_SIZES, 0},
    {"count", "call", idle_scene, repeat_count, one, 8, THREE_SIZES, 0},
    {"show", "call", idle_scene, repeat_show, one, 64, THREE_SIZES, 0},
    {"total", "call", idle_scene, repeat_total, one, 64, LARGEST_SIZE, &reading},
    {"next-last", "call", last_scene, repeat_next, one, 64, LARGEST_SIZE, &reading},
    {"next-none", "call", empty_scene, repeat_next, one, 64, LARGEST_SIZE, &reading},
    {"next-of-all", "walk", idle_scene, repeat_next_of_all, one, 8, LARGEST_SIZE, &reading},
    {"orders-insert", "turn", inserts, repeat_orders, turns_walked, 1, SMALL_CLASSES, &tuned},
    {"orders-remove", "turn", inserts_and_remove, repeat_orders, turns_walked, 1, SMALL_CLASSES, &tuned},
};
