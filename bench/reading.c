#include "reading.h"

/* a valid mark has the lowest bit, and no other mark has it */
#define VALID_BITS ((uint64_t)0x010101 << 32)

static bool occupied(const uint64_t *board, size_t bucket) {
    return (board[DESK_BUCKET_WORDS * bucket + DESK_AT_MARK] & VALID_BITS) != 0;
}

desk_total_outcome read_total(const uint64_t *board, size_t words, const uint64_t *index, size_t entries, desk_floor floor) {
    (void)words, (void)index, (void)entries;
    uint64_t total = 0;
    for (size_t bucket = 0; bucket < floor.buckets; bucket++) {
        uint64_t word = board[DESK_BUCKET_WORDS * bucket + DESK_AT_MARK];
        total += (word >> 32 & 1) + (word >> 40 & 1) + (word >> 48 & 1);
    }
    return (desk_total_outcome){.total = total};
}

desk_next_outcome read_next(const uint64_t *board, size_t words, const uint64_t *index, size_t entries, desk_floor floor, size_t from) {
    (void)words, (void)index, (void)entries;
    for (size_t bucket = from; bucket < floor.buckets; bucket++)
        if (occupied(board, bucket)) return (desk_next_outcome){.bucket = bucket, .found = true};
    return (desk_next_outcome){.found = false};
}

size_t read_occupied(const uint64_t *board, desk_floor floor, size_t *told) {
    size_t many = 0;
    for (size_t bucket = 0; bucket < floor.buckets; bucket++)
        if (occupied(board, bucket)) told[many++] = bucket;
    return many;
}

/* slot by slot and bit by bit, as the customers say it: a bucket may be broken here, and then a mark is valid that is 1 */
void read_index(const uint64_t *board, size_t buckets, uint64_t *index) {
    for (size_t i = 0; i < DESK_INDEX_WORDS; i++) index[i] = 0;
    for (size_t bucket = 0; bucket < buckets; bucket++)
        for (size_t slot = 0; slot < DESK_SLOTS; slot++)
            if (desk_mark(board[DESK_BUCKET_WORDS * bucket + DESK_AT_MARK], slot) == DESK_MARK_VALID) {
                index[0]++;
                index[1 + bucket / 64] |= (uint64_t)1 << bucket % 64;
            }
}
