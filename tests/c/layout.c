/* What desk.h says, as numbers: each struct's size and where each field of it stands, as the library has them, and what each constant
   stands for. It is compiled as C99, C11, C23, C++17 and C++20, with desk.h before anything else; where a line is wrong it does not
   compile. Whoever has to change a number of it raises DESK_VERSION. */
#include "desk.h"

#define HOLDS(name, test) typedef char name[(test) ? 1 : -1]
#define SIZE(type, bytes) HOLDS(size_of_##type, sizeof(type) == (bytes))
#define AT(type, field, byte) HOLDS(type##_has_##field, offsetof(type, field) == (byte))
#define IS(constant, number) HOLDS(constant##_is, (constant) == (number))
#define BYTES(type, field) sizeof(((type *)0)->field)

SIZE(desk_worker, 40);
AT(desk_worker, key, 0);
AT(desk_worker, word, 8);
AT(desk_worker, seen, 16);
AT(desk_worker, ticket, 24);
AT(desk_worker, asleep, 32);
AT(desk_worker, slot, 36);
AT(desk_worker, kind, 37);
AT(desk_worker, place, 38);
AT(desk_worker, held, 39);
SIZE(desk_floor, 32);
AT(desk_floor, workers, 0);
AT(desk_floor, buckets, 8);
AT(desk_floor, last, 16);
AT(desk_floor, version, 24);
AT(desk_floor, spare, 28);
SIZE(desk_plan, 24);
AT(desk_plan, workers, 0);
AT(desk_plan, buckets, 8);
AT(desk_plan, version, 16);
SIZE(desk_bid, 16);
AT(desk_bid, lot, 0);
AT(desk_bid, ticket, 8);
SIZE(desk_outcome, 40);
AT(desk_outcome, floor, 0);
AT(desk_outcome, refusal, 32);
SIZE(desk_report, 40);
AT(desk_report, answer, 0);
AT(desk_report, before, 8);
AT(desk_report, after, 16);
AT(desk_report, bucket, 24);
AT(desk_report, action, 32);
AT(desk_report, ended, 33);
AT(desk_report, full, 34);
SIZE(desk_turn_outcome, 48);
AT(desk_turn_outcome, report, 0);
AT(desk_turn_outcome, refusal, 40);
SIZE(desk_totals, 16);
AT(desk_totals, turns, 0);
AT(desk_totals, changes, 4);
AT(desk_totals, lost, 8);
AT(desk_totals, full, 12);
SIZE(desk_run_outcome, 64);
AT(desk_run_outcome, last, 0);
AT(desk_run_outcome, totals, 40);
AT(desk_run_outcome, stop, 56);
SIZE(desk_part, 16);
AT(desk_part, start, 0);
AT(desk_part, words, 8);
SIZE(desk_count_outcome, 16);
AT(desk_count_outcome, lots, 0);
AT(desk_count_outcome, refusal, 8);
SIZE(desk_total_outcome, 16);
AT(desk_total_outcome, total, 0);
AT(desk_total_outcome, refusal, 8);
SIZE(desk_next_outcome, 16);
AT(desk_next_outcome, bucket, 0);
AT(desk_next_outcome, found, 8);
AT(desk_next_outcome, refusal, 9);
SIZE(desk_orders_outcome, 40);
AT(desk_orders_outcome, finished, 0);
AT(desk_orders_outcome, cut, 8);
AT(desk_orders_outcome, lost, 16);
AT(desk_orders_outcome, most, 24);
AT(desk_orders_outcome, refusal, 32);

/* a ticket is as long in one of these as in another, and as long as an answer and a value on the board (§3.2, §3.5) */
HOLDS(tickets_of_records, BYTES(desk_worker, ticket) == sizeof(uint64_t));
HOLDS(tickets_of_floors, BYTES(desk_floor, last) == sizeof(uint64_t));
HOLDS(tickets_of_bids, BYTES(desk_bid, ticket) == sizeof(uint64_t));

/* no byte of a record, a floor or a bid is left to chance (§2.1): each has just those of its fields */
HOLDS(records_have_no_padding, BYTES(desk_worker, key) + BYTES(desk_worker, word) + BYTES(desk_worker, seen) + BYTES(desk_worker, ticket) +
    BYTES(desk_worker, asleep) + BYTES(desk_worker, slot) + BYTES(desk_worker, kind) + BYTES(desk_worker, place) +
    BYTES(desk_worker, held) == sizeof(desk_worker));
HOLDS(floors_have_no_padding, BYTES(desk_floor, workers) + BYTES(desk_floor, buckets) + BYTES(desk_floor, last) +
    BYTES(desk_floor, version) + BYTES(desk_floor, spare) == sizeof(desk_floor));
HOLDS(bids_have_no_padding, BYTES(desk_bid, lot) + BYTES(desk_bid, ticket) == sizeof(desk_bid));

IS(DESK_VERSION, 7);
IS(DESK_MOST_WORKERS, 64);
IS(DESK_MOST_BUCKETS, 256);
IS(DESK_MOST_TURNS, 65535);
IS(DESK_MOST_IN_CLASS, 3);
IS(DESK_MOST_DEPTH, 24);
IS(DESK_DONE, 0);
IS(DESK_WRONG_SIZES, 1);
IS(DESK_NO_WORKER, 2);
IS(DESK_BROKEN_RECORD, 3);
IS(DESK_BUSY_WORKER, 4);
IS(DESK_SPENT_TICKET, 5);
IS(DESK_IDLE_WORKER, 6);
IS(DESK_BROKEN_BUCKET, 7);
IS(DESK_MALFORMED, 8);
IS(DESK_TOO_LONG, 9);
IS(DESK_NO_SMALL_CLASS, 10);
IS(DESK_UNTRUE_INDEX, 11);
IS(DESK_NOT_AT_REST, 12);
IS(DESK_CROWDED_BUCKET, 13);
IS(DESK_IDLE, 0);
IS(DESK_LOOK, 1);
IS(DESK_INSERT, 2);
IS(DESK_REMOVE, 3);
IS(DESK_NONE, 0);
IS(DESK_READ, 1);
IS(DESK_STORE, 2);
IS(DESK_WON, 3);
IS(DESK_LOST, 4);
IS(DESK_BUCKET_WORDS, 8);
IS(DESK_INDEX_WORDS, 5);
IS(DESK_SLOTS, 3);
IS(DESK_NO_SLOT, 3);
IS(DESK_AT_MARK, 0);
IS(DESK_AT_KEYS, 1);
IS(DESK_AT_VALUES, 4);
IS(DESK_AT_SPARE, 7);
IS(DESK_MARK_EMPTY, 0);
IS(DESK_MARK_VALID, 1);
IS(DESK_MARK_INSERTING, 2);

/* what one reckons with can be reckoned with, also in C++20, which warns of constants of two enums */
HOLDS(the_largest_board, DESK_BUCKET_WORDS * DESK_MOST_BUCKETS == 2048);
HOLDS(the_most_lots, DESK_SLOTS * DESK_MOST_BUCKETS == 768);
HOLDS(a_bit_for_each_bucket, 64 * (DESK_INDEX_WORDS - 1) == DESK_MOST_BUCKETS);
HOLDS(values_come_after_keys, DESK_AT_KEYS + DESK_SLOTS == DESK_AT_VALUES);
