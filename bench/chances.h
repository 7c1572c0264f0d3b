/* What histories are made of by chance: numbers for a call, and boards, records and indexes with every kind of fault. */
#ifndef CHANCES_H
#define CHANCES_H

#include "side.h"

uint64_t one_of(chance *c, const uint64_t *numbers, size_t many);
#define ONE_OF(chance, ...) \
    one_of(chance, (const uint64_t[]){__VA_ARGS__}, sizeof((const uint64_t[]){__VA_ARGS__}) / sizeof(uint64_t))

/* numbers for a call */
uint32_t some_version(chance *c);
uint64_t some_lot(chance *c, size_t buckets);
size_t some_worker(chance *c, size_t workers);
size_t worker_who(chance *c, const hall *h, bool idle);
size_t worker_who_holds(chance *c, const hall *h);
uint64_t some_ticket(chance *c);
uint64_t next_ticket(chance *c, uint64_t last);
size_t some_depth(chance *c, const hall *h);
size_t some_from(chance *c, size_t buckets);
desk_plan some_plan(chance *c);
size_t some_buckets(chance *c);
size_t words_for(chance *c, size_t buckets);

/* parts of a board and of a record */
uint64_t some_word(chance *c);
uint64_t broken_word(chance *c);
uint64_t some_value(chance *c);
void any_bucket(chance *c, uint64_t *bucket, size_t buckets);
uint32_t some_sleep(chance *c);

/* whole halls: what an opening finds; one whose sizes fit, with buckets, records and an index of any kind; wrong sizes of it; one that is at
   rest, so that it can move wherever its lots have room; and what keeps it from moving */
void fill_with_anything(chance *c, hall *h);
void any_hall(chance *c, hall *h);
void spoil_sizes(chance *c, hall *h);
void bring_to_rest(chance *c, hall *h);
void spoil_rest(chance *c, hall *h);

/* the index that tells of the board, and one thing in it made wrong */
void true_index(hall *h);
void spoil_index(chance *c, hall *h);

#endif
