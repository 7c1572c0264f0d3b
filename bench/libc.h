/* What these programs ask of the C library beyond the headers of tests/c/freestanding: the kit's compiler comes without any. */
#ifndef LIBC_H
#define LIBC_H

#include <stddef.h>

long read(int, void *, size_t);
long write(int, const void *, size_t);

struct timespec {
    long tv_sec;
    long tv_nsec;
};
int clock_gettime(int, struct timespec *);

#endif
