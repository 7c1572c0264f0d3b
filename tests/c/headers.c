/* What a small program of one's own may want of the kit, beside the desk: the stand-ins for the C library's headers, and its mathematics.
   It is built as C, and as C++ with an object that is made where it is first met. Prints what came of it. */
#include "desk.h"
#include <inttypes.h>
#include <stdio.h>
#include <stdlib.h>
#include <string.h>

#define HOLDS(name, test) typedef char name[(test) ? 1 : -1]

HOLDS(signed_8, sizeof(int8_t) == 1 && (int8_t)-1 < 0);
HOLDS(signed_16, sizeof(int16_t) == 2 && (int16_t)-1 < 0);
HOLDS(signed_32, sizeof(int32_t) == 4 && (int32_t)-1 < 0);
HOLDS(signed_64, sizeof(int64_t) == 8 && (int64_t)-1 < 0);
HOLDS(unsigned_16, sizeof(uint16_t) == 2 && (uint16_t)-1 > 0);
HOLDS(pointers, sizeof(intptr_t) == sizeof(void *) && sizeof(uintptr_t) == sizeof(void *));

/* there is no stand-in for math.h */
#ifdef __cplusplus
extern "C"
#endif
    double cbrt(double);

#ifdef __cplusplus
struct made {
    size_t length;
    explicit made(const char *word) : length(strlen(word)) {}
};

static size_t length_of(const char *word) {
    static made once(word);
    return once.length;
}
#else
static size_t length_of(const char *word) {
    return strlen(word);
}
#endif

int main(int many, char **words) {
    printf("%" PRIu32 " %" PRIu64 " %" PRIx64 "\n", UINT32_MAX, UINT64_MAX, UINT64_C(0xfedcba9876543210));
    printf("%" PRId64 " %" PRId64 " %" PRId64 "\n", INT64_MIN, INT64_MAX, INT64_C(-5000000000));
    printf("%d %d\n", (int)cbrt(26.0 + many), length_of(words[0]) == strlen(words[0]));
    exit(0);
}
