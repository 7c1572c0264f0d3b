/* The operations that are measured. Each is repeated on a stage that stands the same for every side. */
#ifndef OPERATIONS_H
#define OPERATIONS_H

#include "side.h"

/* An insert on a full bucket goes round in ten turns: with any number of workers here, so many turns leave each where it stood. */
enum { WHOLE_ROUNDS = 10 * MOST_WORKERS, LONG_RUN = 6 * WHOLE_ROUNDS, SHORT_RUN = 8, SCENES = 3 };

/* a hall as it stands before, and a run of turns on it, or the depth to which its orders are walked, or how many buckets it moves to */
typedef struct {
    hall first;
    uint8_t turns[LONG_RUN];
    size_t count;
    size_t depth;
    size_t buckets;
} scene;

/* most operations play in the first scene only */
typedef struct {
    scene scenes[SCENES];
    hall now;
    /* where the occupied buckets' numbers go that a walk over all of them tells */
    size_t told[MOST_BUCKETS];
    /* for counting instructions, which can take long: all orders go to a lesser depth, which tells the same within 2 in a hundred */
    bool brief;
} stage;

/* for which N and W an operation is measured: for every N with every W; for the least, the middle and the greatest of both together; for
   the greatest alone; for one bucket with two workers and with three */
typedef enum { EVERY_SIZE, THREE_SIZES, LARGEST_SIZE, SMALL_CLASSES } sizes;

typedef struct {
    const char *name;
    const char *unit;
    void (*prepare)(stage *, size_t buckets, size_t workers);
    void (*repeat)(const side *, stage *, size_t repeats);
    /* how many units one repetition comes to; for all orders it walks them */
    size_t (*units)(const stage *);
    /* how many repetitions to count instructions over: few, but as many as leave every worker where it stood */
    size_t repeats;
    sizes sizes;
    /* the side that has a row of its own, in which it stands in the place of the one by hand; or NULL */
    const side *third;
} operation;

enum { OPERATIONS = 25 };
extern const operation operations[OPERATIONS];

/* sets a stage up for an operation, and puts it back where that left it before */
void prepare(const operation *, stage *, size_t buckets, size_t workers, bool brief);
void reset(stage *);

#endif
