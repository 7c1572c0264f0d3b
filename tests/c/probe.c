/* The probe: reads a stream of cases, each any floor, any board, any records, any index, any second board and a call with any numbers, makes
   the library's call, and writes for each what came back and everything that stands afterwards; also where the library wrote outside of what
   it was lent, or did not hand on the floor's spare. tests/reference/README.md has the form of a case and of a line. */
#include "desk.h"
#include <stdio.h>
#include <string.h>

/* a body; two buckets more than a board can have; as many records more than a list can have as a byte has values; eight words more than an
   index has; some turns more than a run may have; how much stands on both sides of each board, of the list and of the index, and of which
   byte; and what is in the spare of every floor that is given, of which cases say nothing */
enum { LONGEST = 65535, MOST_WORDS = 2064, MOST_RECORDS = 320, MOST_ENTRIES = 13, MOST_TURNS = 65540, FENCE = 8, POST = 0xa5 };
enum { SPARE = 0x5a3c96e1 };

static uint8_t body[LONGEST], turns[MOST_TURNS];
static size_t length, next, count;
static uint64_t fenced_board[FENCE + MOST_WORDS + FENCE], *const board = fenced_board + FENCE;
static desk_worker fenced_records[FENCE + MOST_RECORDS + FENCE], *const records = fenced_records + FENCE;
static uint64_t fenced_index[FENCE + MOST_ENTRIES + FENCE], *const display = fenced_index + FENCE;
static uint64_t fenced_second[FENCE + MOST_WORDS + FENCE], *const second = fenced_second + FENCE;
static size_t words, listed, entries, second_words;
static desk_floor floor;
static uint32_t spare; /* that the floor has to have after the call */

/* ---- a case out of its bytes; those that it does not have read as 0 */

static uint64_t byte(void) {
    return next < length ? body[next++] : 0;
}

static uint64_t number(void) {
    uint64_t n = byte();
    if (n >= 248) {
        uint64_t left = n - 247;
        for (n = 0; left > 0; left--) {
            n = n << 8 | byte();
        }
    }
    return n;
}

static size_t least(uint64_t a, size_t b) {
    return a < b ? a : b;
}

/* a board or the index; how many words it has */
static size_t read_words(uint64_t *part, size_t most) {
    uint64_t more = 0, word = 0;
    size_t many = least(number(), most);
    for (size_t i = 0; i < many; i++, more--) {
        if (more == 0) {
            more = byte() + 1;
            word = number();
        }
        part[i] = word;
    }
    return many;
}

static desk_worker read_record(void) {
    desk_worker w;
    w.kind = (uint8_t)number();
    w.place = (uint8_t)number();
    w.key = number();
    w.ticket = number();
    w.slot = (uint8_t)number();
    w.word = number();
    w.held = (uint8_t)number();
    w.seen = number();
    w.asleep = (uint32_t)number();
    return w;
}

static void read_records(void) {
    uint64_t more = 0;
    desk_worker w = {0};
    listed = least(number(), MOST_RECORDS);
    for (size_t i = 0; i < listed; i++, more--) {
        if (more == 0) {
            more = byte() + 1;
            w = read_record();
        }
        records[i] = w;
    }
}

static void read_turns(void) {
    count = 0;
    while (next < length) {
        uint8_t worker = (uint8_t)byte();
        uint64_t times = byte() << 8;
        for (times |= byte(); times > 0 && count < MOST_TURNS; times--) {
            turns[count++] = worker;
        }
    }
}

/* ---- what stands before and after what is lent, and must stay */

static void fence(void) {
    memset(fenced_board, POST, FENCE * sizeof *board);
    memset(board + words, POST, FENCE * sizeof *board);
    memset(fenced_records, POST, FENCE * sizeof *records);
    memset(records + listed, POST, FENCE * sizeof *records);
    memset(fenced_index, POST, FENCE * sizeof *display);
    memset(display + entries, POST, FENCE * sizeof *display);
    memset(fenced_second, POST, FENCE * sizeof *second);
    memset(second + second_words, POST, FENCE * sizeof *second);
}

static bool stands(const void *side, size_t bytes) {
    for (size_t i = 0; i < bytes; i++) {
        if (((const uint8_t *)side)[i] != POST) {
            return false;
        }
    }
    return true;
}

static void check_fence(void) {
    if (!stands(fenced_board, FENCE * sizeof *board) || !stands(fenced_records, FENCE * sizeof *records) ||
        !stands(fenced_index, FENCE * sizeof *display) || !stands(fenced_second, FENCE * sizeof *second)) {
        printf(" written before the start");
    }
    if (!stands(board + words, FENCE * sizeof *board) || !stands(records + listed, FENCE * sizeof *records) ||
        !stands(display + entries, FENCE * sizeof *display) || !stands(second + second_words, FENCE * sizeof *second)) {
        printf(" written past the end");
    }
}

/* no call goes by the spare, and each hands it on (§2.1) */
static void check_spare(void) {
    if (floor.spare != spare) {
        printf(" the floor has spare %x and not %x", floor.spare, spare);
    }
}

/* ---- the line */

static void number_out(const char *before, uint64_t n) {
    printf("%s%lx", before, n);
}

static void times_out(size_t times) {
    if (times > 1) {
        number_out("*", times);
    }
}

static void words_out(const uint64_t *part, size_t many) {
    printf(" |");
    for (size_t i = 0, end; i < many; i = end) {
        for (end = i + 1; end < many && part[end] == part[i]; end++) {
        }
        number_out(" ", part[i]);
        times_out(end - i);
    }
}

static bool alike(const desk_worker *a, const desk_worker *b) {
    return a->key == b->key && a->word == b->word && a->seen == b->seen && a->ticket == b->ticket && a->asleep == b->asleep &&
        a->kind == b->kind && a->place == b->place && a->slot == b->slot && a->held == b->held;
}

static void records_out(void) {
    printf(" |");
    for (size_t i = 0, end; i < listed; i = end) {
        const desk_worker *w = &records[i];
        for (end = i + 1; end < listed && alike(&records[end], w); end++) {
        }
        printf(" %x.%x.%lx.%lx.%x.%lx.%x.%lx.%x", w->kind, w->place, w->key, w->ticket, w->slot, w->word, w->held, w->seen, w->asleep);
        times_out(end - i);
    }
}

/* ---- the call */

static void outcome(const char *name, desk_outcome o) {
    printf("%s %x", name, o.refusal);
    floor = o.floor;
}

/* only an opening that is done leaves another spare than the one that it was given */
static void open_outcome(desk_outcome o) {
    outcome("open", o);
    if (o.refusal == DESK_DONE) {
        spare = 0;
    }
}

static void report_out(desk_report r) {
    printf(" %x %x %lx %x %lx %lx %lx", r.action, r.ended, r.answer, r.full, r.bucket, r.before, r.after);
}

static void turn_outcome(desk_turn_outcome t) {
    printf("turn %x", t.refusal);
    report_out(t.report);
}

static void run_outcome(desk_run_outcome r) {
    printf("run %x %x %x %x %x", r.stop, r.totals.turns, r.totals.changes, r.totals.lost, r.totals.full);
    report_out(r.last);
}

static void show_outcome(uint64_t lot) {
    desk_part part = desk_show(board, words, floor, lot);
    printf("show %x %lx", desk_show_refusal(board, words, floor, lot), part.start);
    words_out(board + part.start, part.words);
}

static void count_outcome(desk_count_outcome c) {
    printf("count %x %lx", c.refusal, c.lots);
}

static void orders_outcome(desk_orders_outcome o) {
    printf("orders %x %lx %lx %lx %lx", o.refusal, o.finished, o.cut, o.lost, o.most);
}

static void total_outcome(desk_total_outcome t) {
    printf("total %x %lx", t.refusal, t.total);
}

static void next_outcome(desk_next_outcome n) {
    printf("next %x %x %lx", n.refusal, n.found, n.bucket);
}

/* of a call that is not given the second board nothing is told of it */
static void move_outcome(size_t buckets) {
    outcome("move", desk_move(board, words, second, second_words, records, listed, display, entries, floor, buckets));
    words_out(second, second_words);
}

/* the number of the worker is the depth, where all orders are asked for; where the next occupied bucket is, the one to begin with; and of a
   move how many buckets there are to be. An opening has its version in the low half of the ticket. */
static void call(unsigned which, uint64_t worker, uint64_t lot, uint64_t ticket) {
    desk_plan plan = {worker, lot, (uint32_t)ticket};
    switch (which) {
    case 0: open_outcome(desk_open_floor(board, words, records, listed, display, entries, floor, plan)); break;
    case 1: outcome("look", desk_start_look(board, words, records, listed, floor, worker, lot)); break;
    case 2: outcome("insert", desk_start_insert(board, words, records, listed, floor, worker, (desk_bid){lot, ticket})); break;
    case 3: outcome("remove", desk_start_remove(board, words, records, listed, floor, worker, lot)); break;
    case 4: turn_outcome(desk_turn(board, words, records, listed, display, entries, floor, worker)); break;
    case 5: run_outcome(desk_run(board, words, records, listed, display, entries, floor, turns, count)); break;
    case 6: show_outcome(lot); break;
    case 7: count_outcome(desk_count(board, words, floor)); break;
    case 8: orders_outcome(desk_orders(board, words, records, listed, floor, worker)); break;
    case 9: printf("retire %x", desk_retire(board, words, records, listed, display, entries, floor, worker)); break;
    case 10: total_outcome(desk_total(board, words, display, entries, floor)); break;
    case 11: next_outcome(desk_next_occupied(board, words, display, entries, floor, worker)); break;
    default: move_outcome(worker); break;
    }
}

int main(void) {
    uint8_t head[2];
    while (fread(head, 1, 2, stdin) == 2) {
        length = fread(body, 1, (size_t)head[0] << 8 | head[1], stdin);
        next = 0;
        unsigned which = (unsigned)byte() % 13;
        floor.workers = number();
        floor.buckets = number();
        floor.last = number();
        floor.version = (uint32_t)number();
        floor.spare = spare = SPARE;
        uint64_t worker = number(), lot = number(), ticket = number();
        words = read_words(board, MOST_WORDS);
        read_records();
        entries = read_words(display, MOST_ENTRIES);
        second_words = read_words(second, MOST_WORDS);
        read_turns();
        fence();
        call(which, worker, lot, ticket);
        printf(" | %lx %lx %lx %x", floor.workers, floor.buckets, floor.last, floor.version);
        words_out(board, words);
        records_out();
        words_out(display, entries);
        check_fence();
        check_spare();
        printf("\n");
    }
    return fflush(stdout);
}
