/* What the board itself says, bucket by bucket: the full reading, which the index is there to spare (§21.2). None of it looks at the index
   or tests sizes; whoever calls it has a board of that many buckets, none of them broken. */
#ifndef READING_H
#define READING_H

#include "desk.h"

/* the display's two questions, with the arguments of desk.h; and all occupied buckets at once, whose numbers go to `told`: answers how many
   there are */
desk_total_outcome read_total(const uint64_t *board, size_t words, const uint64_t *index, size_t entries, desk_floor floor);
desk_next_outcome read_next(const uint64_t *board, size_t words, const uint64_t *index, size_t entries, desk_floor floor, size_t from);
size_t read_occupied(const uint64_t *board, desk_floor floor, size_t *told);

/* the index that tells of a board */
void read_index(const uint64_t *board, size_t buckets, uint64_t *index);

#endif
