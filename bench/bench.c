/* The proved library beside the engine by hand:

     bench compare [SEED]                      both on the same random histories; exit status 1 at the first difference
     bench times                               a table of times
     bench operations                          the operations whose instructions are counted, with N, W, how many repetitions, and the
                                               side that has a row of its own
     bench units OPERATION N W                 how many units one repetition has, where instructions are counted
     bench count SIDE OPERATION N W REPEATS    just that, so often; SIDE is desk, plain, tuned, read or nobody

   What is told of an operation is the caller's loop with the call less the loop without it, so passing the arguments is in it. */
#include "histories.h"
#include "libc.h"
#include "operations.h"
#include <stdio.h>
#include <stdlib.h>
#include <string.h>

enum { DEFAULT_SEED = 1, SIZES = 3, ROUNDS = 40, FEWEST_ROUNDS = 5, MONOTONIC = 1, LONG_ENOUGH = 100000, LONG_ROW = 500000000 };

static const size_t bucket_sizes[SIZES] = {1, 16, 256}, worker_sizes[SIZES] = {2, 8, 64};
static stage the_stage;

/* ---- times */

static double nanoseconds(void) {
    struct timespec now;
    clock_gettime(MONOTONIC, &now);
    return 1e9 * (double)now.tv_sec + (double)now.tv_nsec;
}

static double time_of(const operation *o, const side *s, size_t repeats) {
    reset(&the_stage);
    double before = nanoseconds();
    o->repeat(s, &the_stage, repeats);
    return nanoseconds() - before;
}

/* each side is called once before, so that what only a first call takes (and an emulator takes much) counts for nothing */
static size_t enough_repeats(const operation *o) {
    size_t repeats = 1;
    time_of(o, &proved, 1);
    time_of(o, &by_hand, 1);
    while (time_of(o, &by_hand, repeats) < LONG_ENOUGH) repeats *= 2;
    return repeats;
}

static void keep_least(double *least, double one) {
    if (*least > one) *least = one;
}

static void tell_row(const operation *o, size_t buckets, size_t workers, const char *unit, double desk, double plain) {
    printf("%-13s %4lu %3lu %-5s %10.2f %10.2f %7.2f\n", o->name, buckets, workers, unit, desk, plain, desk / plain);
    fflush(0);
}

/* In alternation, so that whatever else the machine does meets all sides; the least time is the one that was disturbed least. All orders
   take long, so they may have fewer rounds; how many of their turns are walked in a second, in millions, is told too. */
static void time_row(const operation *o, size_t buckets, size_t workers) {
    prepare(o, &the_stage, buckets, workers, false);
    size_t repeats = enough_repeats(o);
    double desk = 1e30, plain = 1e30, third = 1e30, loop = 1e30, began = nanoseconds();
    for (size_t i = 0; i < ROUNDS && (i < FEWEST_ROUNDS || nanoseconds() - began < LONG_ROW); i++) {
        keep_least(&desk, time_of(o, &proved, repeats));
        keep_least(&plain, time_of(o, &by_hand, repeats));
        if (o->third) keep_least(&third, time_of(o, o->third, repeats));
        keep_least(&loop, time_of(o, &nobody, repeats));
    }
    double units = (double)(repeats * o->units(&the_stage));
    tell_row(o, buckets, workers, o->unit, (desk - loop) / units, (plain - loop) / units);
    if (o->sizes == SMALL_CLASSES) tell_row(o, buckets, workers, "M/s", 1e3 * units / (desk - loop), 1e3 * units / (plain - loop));
    if (o->third) tell_row(o, buckets, workers, o->third->name, (desk - loop) / units, (third - loop) / units);
}

/* tells something for each N and W of an operation; every N with every W only where that is wanted too */
static void for_sizes(const operation *o, bool every, void (*tell)(const operation *, size_t buckets, size_t workers)) {
    if (o->sizes == SMALL_CLASSES) {
        for (size_t workers = 2; workers <= MOST_IN_CLASS; workers++) tell(o, 1, workers);
        return;
    }
    if (o->sizes == LARGEST_SIZE) {
        tell(o, MOST_BUCKETS, MOST_WORKERS);
        return;
    }
    for (size_t n = 0; n < SIZES; n++)
        for (size_t w = 0; w < SIZES; w++)
            if (n == w || (every && o->sizes == EVERY_SIZE)) tell(o, bucket_sizes[n], worker_sizes[w]);
}

static void tell_times(void) {
    printf("%-13s %4s %3s %-5s %10s %10s %7s\n", "operation", "N", "W", "each", "desk", "plain", "ratio");
    for (size_t i = 0; i < OPERATIONS; i++) for_sizes(&operations[i], true, time_row);
}

/* ---- counting */

static void tell_operation(const operation *o, size_t buckets, size_t workers) {
    printf("%s %s %lu %lu %lu %s\n", o->name, o->unit, buckets, workers, o->repeats, o->third ? o->third->name : "-");
}

/* a run comes to the same instructions in whatever order its workers stand, so the shuffled one is not counted */
static void tell_operations(void) {
    for (size_t i = 0; i < OPERATIONS; i++)
        if (strcmp(operations[i].name, "shuffled-run") != 0) for_sizes(&operations[i], false, tell_operation);
}

static const side *find_side(const char *name) {
    static const side *const sides[] = {&proved, &by_hand, &tuned, &reading, &nobody};
    for (size_t i = 0; i < sizeof sides / sizeof sides[0]; i++)
        if (strcmp(sides[i]->name, name) == 0) return sides[i];
    return 0;
}

static const operation *find_operation(const char *name) {
    for (size_t i = 0; i < OPERATIONS; i++)
        if (strcmp(operations[i].name, name) == 0) return &operations[i];
    return 0;
}

static bool within(size_t number, size_t most) {
    return number >= 1 && number <= most;
}

/* the operation of three words, its name, N and W, with the stage set up for it; NULL where there is none */
static const operation *set_up(char **words) {
    const operation *o = find_operation(words[0]);
    size_t buckets = strtoul(words[1], 0, 10), workers = strtoul(words[2], 0, 10);
    size_t most_buckets = MOST_BUCKETS, most_workers = MOST_WORKERS;
    if (o && o->sizes == SMALL_CLASSES) most_buckets = 1, most_workers = MOST_IN_CLASS;
    if (!o || !within(buckets, most_buckets) || !within(workers, most_workers)) return 0;
    prepare(o, &the_stage, buckets, workers, true);
    return o;
}

static int no_such_thing(void) {
    printf("bench: no such side, operation or size\n");
    return 2;
}

static int tell_units(char **words) {
    const operation *o = set_up(words);
    if (!o) return no_such_thing();
    printf("%lu\n", o->units(&the_stage));
    return 0;
}

static int count(char **words) {
    const side *s = find_side(words[0]);
    const operation *o = set_up(words + 1);
    if (!s || !o) return no_such_thing();
    o->repeat(s, &the_stage, strtoul(words[4], 0, 10));
    return 0;
}

int main(int many, char **words) {
    const char *what = many > 1 ? words[1] : "";
    if (strcmp(what, "compare") == 0) return compare_histories(many > 2 ? strtoul(words[2], 0, 10) : DEFAULT_SEED) ? 0 : 1;
    if (strcmp(what, "units") == 0 && many == 5) return tell_units(words + 2);
    if (strcmp(what, "count") == 0 && many == 7) return count(words + 2);
    if (strcmp(what, "times") == 0) tell_times();
    else if (strcmp(what, "operations") == 0) tell_operations();
    else {
        printf("bench: compare [SEED], times, operations, units OPERATION N W, or count SIDE OPERATION N W REPEATS\n");
        return 2;
    }
    return 0;
}
