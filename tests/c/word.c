/* The header's readers of a mark word beside the proved functions of crate mark: every byte at every place of the word, any words, and
   every number of a slot that fits the proved function. Says where they differ, and how many answers were compared. */
#include "desk.h"
#include <stdio.h>

uint8_t mark_of(uint64_t word, uint8_t slot);
uint32_t version_of(uint64_t word);

enum { PLACES = 8, BYTES = 256, ANY_WORDS = 20000, SLOT_NUMBERS = 256, SHOWN = 3 };

static unsigned long compared, differ;

static void compare(const char *what, uint64_t word, unsigned slot, uint32_t header, uint32_t proved) {
    compared++;
    if (header != proved && ++differ <= SHOWN) {
        printf("%s of %lx, slot %u: %x in the header, and %x is proved\n", what, (unsigned long)word, slot, header, proved);
    }
}

static void compare_word(uint64_t word) {
    compare("version", word, 0, desk_version(word), version_of(word));
    for (unsigned slot = 0; slot < SLOT_NUMBERS; slot++) {
        compare("mark", word, slot, desk_mark(word, slot), mark_of(word, (uint8_t)slot));
    }
}

/* numbers that look random and are the same each time (Steele, Lea and Flood's SplitMix) */
static uint64_t any_word(void) {
    static uint64_t state = 1;
    uint64_t z = state += 0x9e3779b97f4a7c15;
    z = (z ^ z >> 30) * 0xbf58476d1ce4e5b9;
    z = (z ^ z >> 27) * 0x94d049bb133111eb;
    return z ^ z >> 31;
}

int main(void) {
    for (unsigned place = 0; place < PLACES; place++) {
        for (uint64_t byte = 0; byte < BYTES; byte++) {
            uint64_t alone = byte << 8 * place, others = ~((uint64_t)0xff << 8 * place);
            compare_word(alone);
            compare_word(alone | others);
            compare_word(alone | (any_word() & others));
        }
    }
    for (unsigned i = 0; i < ANY_WORDS; i++) {
        compare_word(any_word());
    }
    printf("%lu answers compared, %lu differ\n", compared, differ);
    return differ != 0;
}
