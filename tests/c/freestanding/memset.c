/* What stands in for the C library's `memset` in the archives, which ask for nothing: rt's compiler calls it to clear a large local.
   tests/kit.sh puts it in, under a name that nobody else can see, and compiles it so that it is not made a call of itself. */
#include <stddef.h>

void *memset(void *start, int byte, size_t count);

void *memset(void *start, int byte, size_t count) {
    unsigned char *at = start;
    for (size_t i = 0; i < count; i++) {
        at[i] = (unsigned char)byte;
    }
    return start;
}
