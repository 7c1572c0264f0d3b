/* What the calls that are compared met, so that nobody trusts a comparison of refusals alone. */
#ifndef MET_H
#define MET_H

#include "compare.h"

/* an answer, as a row of numbers of which the first is the refusal; a report stands at the end of its row */
enum { MOST_NUMBERS = 12, REPORT_OF_TURN = 1, REPORT_OF_RUN = 5 };

typedef struct {
    uint64_t number[MOST_NUMBERS];
} answer;

/* what a call finds: its worker's record, that one's bucket with its mark word and its spare word, all records, the index and the floor; and
   whether the board is one to which the hall has moved */
typedef struct {
    desk_worker worker;
    desk_floor floor;
    bool moved;
    size_t bucket;
    uint64_t word, spare;
    desk_worker records[ROOM_RECORDS];
    uint64_t index[ROOM_INDEX];
} found;

extern const char *const call_names[CALLS];

found find(const hall *h, const call *c);

/* of a call that was made: the hall that it left, its answer, and what it had found */
void note(const call *c, const hall *h, const answer *a, const found *f);

/* whether something was never met, which is said then */
bool lacks_something(void);

/* what runs and all orders came to */
void tell_what_was_met(void);

#endif
