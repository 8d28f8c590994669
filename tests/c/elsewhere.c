/* The header in a second file of one program: its inline function is there too, and nothing is defined twice. */
#include "boundary.h"

struct exfat_part part_elsewhere(const uint8_t *vol, size_t vol_len, const uint8_t *map, size_t map_len,
                                 const uint32_t geometry[EXFAT_GEOMETRY_WORDS], const uint8_t *zeros, size_t zeros_len,
                                 uint32_t slot, uint64_t offset)
{
    return exfat_read_part(vol, vol_len, map, map_len, geometry, zeros, zeros_len, slot, offset);
}
