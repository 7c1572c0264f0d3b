/* The same call on both sides: the answer, the floor, every word, every record and the index must come out the same; on an opened board the
   index, and what is told from it, must also be what the board says. */
#ifndef COMPARE_H
#define COMPARE_H

#include "side.h"

typedef enum { OPEN, START_LOOK, START_INSERT, START_REMOVE, TURN, RUN, SHOW, COUNT, ORDERS, RETIRE, TOTAL, NEXT, MOVE, CALLS } which;

/* each call takes of these what it needs */
typedef struct {
    which which;
    desk_plan plan;
    size_t worker;
    uint64_t lot;
    uint64_t ticket;
    const uint8_t *turns;
    size_t count;
    size_t depth;
    size_t from;
    size_t buckets, words; /* of the second board */
} call;

/* a hall of the proved library's and one of the engine's by hand, which begin the same; whether they have been opened, or have moved, and
   nothing but calls was done to them since; and whether their board is one that they moved to */
typedef struct {
    hall desk, plain;
    bool opened, moved;
} pair;

/* begins a history: from here on the second hall is the first's twin */
void begin(pair *p, uint64_t seed, uint64_t history);

/* makes a call on both, and ends the program at the first difference; the number of refusal, or 0 */
uint8_t make(pair *p, const call *c);

/* says how many calls were compared and what they met; whether that is all there is */
bool met_everything(void);

#endif
