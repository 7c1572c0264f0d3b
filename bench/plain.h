/* The rules once more, written by hand in C and proved by nobody: what the proved library is measured against, and compared with.
   The calls, their types and what they answer are those of desk.h. */
#ifndef PLAIN_H
#define PLAIN_H

#include "desk.h"

desk_outcome plain_open_floor(uint64_t *board, size_t words, desk_worker *records, size_t listed, uint64_t *index, size_t entries,
    desk_floor floor, desk_plan plan);

desk_outcome plain_start_look(const uint64_t *board, size_t words, desk_worker *records, size_t listed, desk_floor floor,
    size_t worker, uint64_t lot);
desk_outcome plain_start_insert(const uint64_t *board, size_t words, desk_worker *records, size_t listed, desk_floor floor,
    size_t worker, desk_bid bid);
desk_outcome plain_start_remove(const uint64_t *board, size_t words, desk_worker *records, size_t listed, desk_floor floor,
    size_t worker, uint64_t lot);

desk_turn_outcome plain_turn(uint64_t *board, size_t words, desk_worker *records, size_t listed, uint64_t *index, size_t entries,
    desk_floor floor, size_t worker);

desk_run_outcome plain_run(uint64_t *board, size_t words, desk_worker *records, size_t listed, uint64_t *index, size_t entries,
    desk_floor floor, const uint8_t *turns, size_t count);

uint8_t plain_retire(uint64_t *board, size_t words, desk_worker *records, size_t listed, uint64_t *index, size_t entries, desk_floor floor,
    size_t worker);

desk_outcome plain_move(const uint64_t *old, size_t had, uint64_t *board, size_t words, const desk_worker *records, size_t listed,
    uint64_t *index, size_t entries, desk_floor floor, size_t buckets);

desk_part plain_show(const uint64_t *board, size_t words, desk_floor floor, uint64_t lot);
uint8_t plain_show_refusal(const uint64_t *board, size_t words, desk_floor floor, uint64_t lot);

desk_count_outcome plain_count(const uint64_t *board, size_t words, desk_floor floor);

desk_total_outcome plain_total(const uint64_t *board, size_t words, const uint64_t *index, size_t entries, desk_floor floor);
desk_next_outcome plain_next_occupied(const uint64_t *board, size_t words, const uint64_t *index, size_t entries, desk_floor floor,
    size_t from);

desk_orders_outcome plain_orders(const uint64_t *board, size_t words, const desk_worker *records, size_t listed, desk_floor floor,
    size_t depth);
desk_orders_outcome tuned_orders(const uint64_t *board, size_t words, const desk_worker *records, size_t listed, desk_floor floor,
    size_t depth);

#endif
