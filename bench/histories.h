#ifndef HISTORIES_H
#define HISTORIES_H

#include <stdbool.h>
#include <stdint.h>

/* compares the proved library with the engine by hand on the histories of a seed; false where they met less than there is. Ends the
   program at the first difference. */
bool compare_histories(uint64_t seed);

#endif
