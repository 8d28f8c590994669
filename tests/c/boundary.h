/* What the program of tests/c/boundary.c has in its other file. */
#include "exfat.h"

struct exfat_part part_elsewhere(const uint8_t *vol, size_t vol_len, const uint8_t *map, size_t map_len,
                                 const uint32_t geometry[EXFAT_GEOMETRY_WORDS], const uint8_t *zeros, size_t zeros_len,
                                 uint32_t slot, uint64_t offset);
