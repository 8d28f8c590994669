/* The bare walk of a chain that calls are held against: in the benchmark, in `bench/instructions` and in `tests/long_writes`. */
#ifndef BARE_WALK_H
#define BARE_WALK_H

#include <stddef.h>
#include <stdint.h>
#include <string.h>

/* Follows a FAT from a chain's first cluster to its end mark. Gives the last cluster, so that the walk is not left out. */
__attribute__((noipa)) static uint32_t bare_walk(const uint8_t *fat, uint32_t first)
{
    uint32_t k = first, next;

    for (;;) {
        memcpy(&next, fat + 4 * (size_t)k, 4);
        if (next == 0xFFFFFFFF)
            return k;
        k = next;
    }
}

#endif
