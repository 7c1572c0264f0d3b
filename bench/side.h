/* The sides that are compared and measured, each a list of the same calls, and what they work on. */
#ifndef SIDE_H
#define SIDE_H

#include "desk.h"

typedef struct {
    const char *name;
    desk_outcome (*open_floor)(uint64_t *, size_t, desk_worker *, size_t, uint64_t *, size_t, desk_floor, desk_plan);
    desk_outcome (*start_look)(const uint64_t *, size_t, desk_worker *, size_t, desk_floor, size_t, uint64_t);
    desk_outcome (*start_insert)(const uint64_t *, size_t, desk_worker *, size_t, desk_floor, size_t, desk_bid);
    desk_outcome (*start_remove)(const uint64_t *, size_t, desk_worker *, size_t, desk_floor, size_t, uint64_t);
    desk_turn_outcome (*turn)(uint64_t *, size_t, desk_worker *, size_t, uint64_t *, size_t, desk_floor, size_t);
    desk_run_outcome (*run)(uint64_t *, size_t, desk_worker *, size_t, uint64_t *, size_t, desk_floor, const uint8_t *, size_t);
    uint8_t (*retire)(uint64_t *, size_t, desk_worker *, size_t, uint64_t *, size_t, desk_floor, size_t);
    desk_outcome (*move)(const uint64_t *, size_t, uint64_t *, size_t, const desk_worker *, size_t, uint64_t *, size_t, desk_floor, size_t);
    desk_part (*show)(const uint64_t *, size_t, desk_floor, uint64_t);
    uint8_t (*show_refusal)(const uint64_t *, size_t, desk_floor, uint64_t);
    desk_count_outcome (*count)(const uint64_t *, size_t, desk_floor);
    desk_total_outcome (*total)(const uint64_t *, size_t, const uint64_t *, size_t, desk_floor);
    desk_next_outcome (*next_occupied)(const uint64_t *, size_t, const uint64_t *, size_t, desk_floor, size_t);
    /* all occupied buckets in one walk, which only who reads the board has: their numbers go where the last argument says */
    size_t (*occupied)(const uint64_t *, desk_floor, size_t *);
    desk_orders_outcome (*orders)(const uint64_t *, size_t, const desk_worker *, size_t, desk_floor, size_t);
} side;

/* the proved library; the one written by hand; all orders by hand in the form that was found to be the fastest, with no other call; the
   display's questions answered from the board, with no other call; and one with no calls, for what the caller's own loop takes */
extern const side proved, by_hand, tuned, reading, nobody;

enum { MOST_WORKERS = 64, MOST_BUCKETS = 256, MOST_TURNS = 65535, BUCKET_WORDS = 8, SLOTS = 3, LAST_PLACE = 13 };
enum { IDLE = 0, LOOK = 1, INSERT = 2, REMOVE = 3, HOLDS_NONE = 3 };
enum { MOST_IN_CLASS = 3, MOST_DEPTH = 24 };
enum { INDEX_WORDS = 5, IN_WORD = 64 };

/* the least number whose low half, of 32 bits, is 0 and that is not */
#define HALF ((uint64_t)1 << 32)

/* what stands past the end of what is lent must stay, so there is room for more than the rules allow */
enum { SPARE_WORDS = 8, SPARE_RECORDS = 2, ROOM_WORDS = BUCKET_WORDS * (MOST_BUCKETS + 2), ROOM_RECORDS = MOST_WORKERS + 4 };
enum { ROOM_INDEX = INDEX_WORDS + 3 };

/* a floor with the board, the records and the index that are lent; and a second board, which only a move is lent: where it is done, the two
   change places */
typedef struct {
    uint64_t board[ROOM_WORDS];
    size_t words;
    desk_worker records[ROOM_RECORDS];
    size_t listed;
    uint64_t index[ROOM_INDEX];
    size_t entries;
    desk_floor floor;
    uint64_t second[ROOM_WORDS];
} hall;

static inline size_t busy_workers(const hall *h) {
    size_t busy = 0;
    for (size_t i = 0; i < h->listed; i++) busy += h->records[i].kind != IDLE;
    return busy;
}

/* numbers that look random and are the same each time (Steele, Lea and Flood's SplitMix) */
typedef struct {
    uint64_t state;
} chance;

static inline uint64_t any(chance *c) {
    uint64_t z = c->state += 0x9e3779b97f4a7c15;
    z = (z ^ z >> 30) * 0xbf58476d1ce4e5b9;
    z = (z ^ z >> 27) * 0x94d049bb133111eb;
    return z ^ z >> 31;
}

static inline uint64_t below(chance *c, uint64_t bound) {
    return any(c) % bound;
}

/* so many times in a hundred */
static inline bool now_and_then(chance *c, uint64_t percent) {
    return below(c, 100) < percent;
}

#endif
