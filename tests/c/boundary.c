/*
 * The library through its header, as a C program sees it: each call once with good arguments and once with bad ones. A line
 * for each check. The volume is that of 01's trials; the good calls are T2, T8 and T9, a file that is made, written, made
 * longer and shorter, and removed, and files that are read back where they lie. It is valid C++ as well (tests/boundary).
 */
#include <stdio.h>
#include <string.h>

#include "boundary.h"
#include "exfat.h"

#define SECTOR 512
#define FAT_AT (24 * SECTOR)
#define HEAP_AT (32 * SECTOR)
#define CLUSTERS 16
#define VOLUME_BYTES (HEAP_AT + CLUSTERS * SECTOR)
#define MAP_BYTES (CLUSTERS / 8)
#define END 0xFFFFFFFFu

static const uint32_t geometry[EXFAT_GEOMETRY_WORDS] = {9, 0, 24, 1, 1, 0, 32, CLUSTERS, 3, 2, 0};
static const uint8_t map[MAP_BYTES] = {0x03, 0x00}; /* clusters 2 and 3 */

static uint8_t volume[VOLUME_BYTES];   /* what the calls get */
static uint8_t expected[VOLUME_BYTES]; /* what they have to leave */
static uint32_t out[EXFAT_OUT_WORDS];
static int failed;

static void check(const char *what, int holds)
{
    printf("boundary: %s %s\n", holds ? "ok    " : "FAILED", what);
    failed += !holds;
}

/* Words that no call gives, so that one which is not stored shows. */
static void spoil_out(void)
{
    for (int i = 0; i < EXFAT_OUT_WORDS; i++)
        out[i] = 0xDEADBEEFu;
}

static int out_is(uint32_t a, uint32_t b, uint32_t c, uint32_t d, uint32_t e)
{
    const uint32_t words[EXFAT_OUT_WORDS] = {a, b, c, d, e, 0, 0, 0};
    return memcmp(out, words, sizeof words) == 0;
}

static int volume_is_expected(void)
{
    return memcmp(volume, expected, VOLUME_BYTES) == 0;
}

static void put_fat(uint8_t *bytes, uint32_t cluster, uint32_t value)
{
    for (int i = 0; i < 4; i++)
        bytes[FAT_AT + 4 * cluster + i] = (uint8_t)(value >> (8 * i));
}

/* The chain 4, 5, 6, 8, which T8 leaves and T9 starts from. */
static void put_chain(uint8_t *bytes)
{
    put_fat(bytes, 4, 5);
    put_fat(bytes, 5, 6);
    put_fat(bytes, 6, 8);
    put_fat(bytes, 8, END);
}

/* The volume of the trials: bitmap in 2, root in 3, both marked; bytes 1 and 2 of the bitmap's cluster differ by the trial. */
static void make_volume(uint8_t marks)
{
    memset(volume, 0, VOLUME_BYTES);
    volume[HEAP_AT] = marks;
    put_fat(volume, 3, END);
    memcpy(expected, volume, VOLUME_BYTES);
    spoil_out();
}

static void free_count(void)
{
    uint32_t bad[EXFAT_GEOMETRY_WORDS];

    make_volume(0x03);
    uint32_t number = exfat_free_count(volume, VOLUME_BYTES, map, MAP_BYTES, geometry, out);
    check("free count: 14", number == 0 && out_is(14, 0, 0, 0, 0) && volume_is_expected());

    memcpy(bad, geometry, sizeof bad);
    bad[0] = 8;
    spoil_out();
    number = exfat_free_count(volume, VOLUME_BYTES, map, MAP_BYTES, bad, out);
    check("free count, sector shift 8: 1", number == 1 && out_is(0, 0, 0, 0, 0) && volume_is_expected());
}

static void clusters(void)
{
    const uint32_t run[EXFAT_ALLOCATION_WORDS] = {4, 6, 3, 1};
    const uint32_t other_flag[EXFAT_ALLOCATION_WORDS] = {4, 6, 3, 0x80000000u};
    const uint32_t five[5] = {4, 5, 6, 77, 77};
    const uint32_t spoiled[5] = {77, 77, 77, 77, 77};
    uint32_t list[5];

    make_volume(0x1F);
    memcpy(list, spoiled, sizeof list);
    uint32_t number = exfat_clusters(volume, VOLUME_BYTES, map, MAP_BYTES, geometry, run, list, 5);
    check("clusters of the run 4..6, the rest kept", number == 0 && memcmp(list, five, sizeof list) == 0 && volume_is_expected());

    memcpy(list, spoiled, sizeof list);
    number = exfat_clusters(volume, VOLUME_BYTES, map, MAP_BYTES, geometry, other_flag, list, 5);
    check("clusters, any other flag than 0 is set", number == 0 && memcmp(list, five, sizeof list) == 0);

    memcpy(list, spoiled, sizeof list);
    number = exfat_clusters(volume, VOLUME_BYTES, map, MAP_BYTES, geometry, run, list, 2);
    check("clusters to a list of 2: 14, the list kept", number == 14 && memcmp(list, spoiled, sizeof list) == 0);
}

static void allocate(void)
{
    make_volume(0x03);
    expected[HEAP_AT] = 0x1F;
    uint32_t number = exfat_allocate(volume, VOLUME_BYTES, map, MAP_BYTES, geometry, 3, 0, 0, 4, out);
    check("allocate 3 (T2): run 4..6, hint 7", number == 0 && out_is(4, 6, 3, 1, 7) && volume_is_expected());

    make_volume(0x03);
    expected[HEAP_AT + 1] = 0x01;
    number = exfat_allocate(volume, VOLUME_BYTES, map, MAP_BYTES, geometry, 1, 2, 10, 4, out);
    check("allocate 1 near 10: run 10..10, hint 11", number == 0 && out_is(10, 10, 1, 1, 11) && volume_is_expected());

    make_volume(0x03);
    number = exfat_allocate(volume, VOLUME_BYTES, map, MAP_BYTES, geometry, 15, 0, 0, 4, out);
    check("allocate 15 (T4): 7, hint as given", number == 7 && out_is(0, 0, 0, 0, 4) && volume_is_expected());
}

static void extend(void)
{
    const uint32_t run[EXFAT_ALLOCATION_WORDS] = {4, 6, 3, 1};
    const uint32_t other_flag[EXFAT_ALLOCATION_WORDS] = {4, 6, 3, 2};

    make_volume(0x3F); /* 4..6 the run's, 7 taken */
    put_chain(expected);
    expected[HEAP_AT] = 0x7F;
    uint32_t number = exfat_extend(volume, VOLUME_BYTES, map, MAP_BYTES, geometry, run, 1, 4, out);
    check("extend by 1 (T8): chain 4, 5, 6, 8, hint 9", number == 0 && out_is(4, 8, 4, 0, 9) && volume_is_expected());

    make_volume(0x3F);
    number = exfat_extend(volume, VOLUME_BYTES, map, MAP_BYTES, geometry, other_flag, 1, 18, out);
    check("extend with hint 18: 2, record and hint as given", number == 2 && out_is(4, 6, 3, 1, 18) && volume_is_expected());
}

static void shrink(void)
{
    const uint32_t chain[EXFAT_ALLOCATION_WORDS] = {4, 8, 4, 0};
    const uint32_t bitmap[EXFAT_ALLOCATION_WORDS] = {2, 2, 1, 1};

    make_volume(0x7F);
    put_chain(volume);
    memcpy(expected, volume, VOLUME_BYTES);
    put_fat(expected, 6, END);
    put_fat(expected, 8, 0);
    expected[HEAP_AT] = 0x3F;
    uint32_t number = exfat_shrink(volume, VOLUME_BYTES, map, MAP_BYTES, geometry, chain, 3, 9, out);
    check("shrink to 3 (T9): run 4..6, hint 9", number == 0 && out_is(4, 6, 3, 1, 9) && volume_is_expected());

    make_volume(0x03);
    number = exfat_shrink(volume, VOLUME_BYTES, map, MAP_BYTES, geometry, bitmap, 0, 4, out);
    check("shrink over the bitmap: 9, record and hint as given", number == 9 && out_is(2, 2, 1, 1, 4) && volume_is_expected());
}

/* ---- the four calls on files: root in cluster 3, the file's set at slot 0 */

#define ROOT_AT (HEAP_AT + SECTOR)

static const uint8_t stamps[18] = {1, 2, 3, 4, 5, 6, 7, 8, 9, 10, 11, 12, 13, 14, 15, 16, 17, 18};
static const uint8_t stamp[6] = {21, 22, 23, 24, 25, 26};
static const uint16_t name[1] = {'a'};

/* The checksum of a set: rotate right by one, add each byte but 2 and 3. */
static void put_checksum(uint8_t *set, int entries)
{
    uint16_t sum = 0;
    for (int i = 0; i < 32 * entries; i++)
        if (i != 2 && i != 3)
            sum = (uint16_t)((uint16_t)(sum << 15 | sum >> 1) + set[i]);
    set[2] = (uint8_t)sum;
    set[3] = (uint8_t)(sum >> 8);
}

/* The set of file "a" at slot 0 of `expected`: as exfat_new_file leaves it, or after a call with `stamp`. */
static void put_set(int changed, uint8_t flags, uint32_t first, uint32_t length, uint32_t valid)
{
    uint8_t *set = expected + ROOT_AT;
    memset(set, 0, 96);
    set[0] = 0x85;
    set[1] = 2;
    set[4] = changed ? 0x21 : 0x01;
    memcpy(set + 8, stamps, 4);
    set[20] = stamps[4];
    set[22] = stamps[5];
    memcpy(set + 12, changed ? stamp : stamps + 6, 4);
    set[21] = changed ? stamp[4] : stamps[10];
    set[23] = changed ? stamp[5] : stamps[11];
    memcpy(set + 16, changed ? stamp : stamps + 12, 4);
    set[24] = changed ? stamp[5] : stamps[17];
    set[32] = 0xC0;
    set[33] = flags;
    set[35] = 1;
    set[36] = 0x34;
    set[37] = 0x12;
    for (int i = 0; i < 4; i++) {
        set[40 + i] = (uint8_t)(valid >> (8 * i));
        set[52 + i] = (uint8_t)(first >> (8 * i));
        set[56 + i] = (uint8_t)(length >> (8 * i));
    }
    set[64] = 0xC1;
    set[66] = 'a';
    put_checksum(set, 3);
}

static void files(void)
{
    uint8_t src[600];
    const uint16_t refused[2] = {'a', '?'};

    make_volume(0x03);
    put_set(0, 1, 0, 0, 0);
    uint32_t number = exfat_new_file(volume, VOLUME_BYTES, map, MAP_BYTES, geometry, name, 1, 0x01, 0x1234, stamps, 4, out);
    check("new file: slot 0, hint 4", number == 0 && out_is(0, 4, 0, 0, 0) && volume_is_expected());

    spoil_out();
    number = exfat_new_file(volume, VOLUME_BYTES, map, MAP_BYTES, geometry, refused, 2, 0, 0, stamps, 4, out);
    check("new file with a unit that is refused: 12", number == 12 && out_is(0, 4, 0, 0, 0) && volume_is_expected());
    spoil_out();
    number = exfat_new_file(volume, VOLUME_BYTES, map, MAP_BYTES, geometry, name, 1, 0x10, 0, stamps, 5, out);
    check("new file with attribute 0x10: 13", number == 13 && out_is(0, 5, 0, 0, 0) && volume_is_expected());

    memset(src, 0x55, sizeof src);
    memset(expected + HEAP_AT + 2 * SECTOR + 100, 0x55, sizeof src);
    expected[HEAP_AT] = 0x0F;
    put_set(1, 3, 4, 700, 700);
    spoil_out();
    number = exfat_write(volume, VOLUME_BYTES, map, MAP_BYTES, geometry, 0, 100, src, sizeof src, stamp, 4, out);
    check("write 600 bytes at 100: run 4..5, hint 6", number == 0 && out_is(6, 0, 0, 0, 0) && volume_is_expected());

    spoil_out();
    number = exfat_write(volume, VOLUME_BYTES, map, MAP_BYTES, geometry, 0, UINT64_MAX, src, 1, stamp, 4, out);
    check("write 1 byte at 2^64 - 1: 8", number == 8 && out_is(4, 0, 0, 0, 0) && volume_is_expected());
    spoil_out();
    number = exfat_write(volume, VOLUME_BYTES, map, MAP_BYTES, geometry, 1, 0, src, 1, stamp, 4, out);
    check("write at a slot with no file entry: 10", number == 10 && out_is(4, 0, 0, 0, 0) && volume_is_expected());

    expected[HEAP_AT] = 0x1F;
    put_set(1, 3, 4, 1300, 700);
    spoil_out();
    number = exfat_set_length(volume, VOLUME_BYTES, map, MAP_BYTES, geometry, 0, 1300, stamp, 2, out);
    check("set length 1,300 (T11): run 4..6, hint 7", number == 0 && out_is(7, 0, 0, 0, 0) && volume_is_expected());

    spoil_out();
    number = exfat_set_length(volume, VOLUME_BYTES, map, MAP_BYTES, geometry, 0, UINT64_MAX, stamp, 4, out);
    check("set length 2^64 - 1: 7", number == 7 && out_is(4, 0, 0, 0, 0) && volume_is_expected());

    expected[HEAP_AT] = 0x07;
    put_set(1, 3, 4, 400, 400);
    spoil_out();
    number = exfat_set_length(volume, VOLUME_BYTES, map, MAP_BYTES, geometry, 0, 400, stamp, 9, out);
    check("set length 400: run 4..4, hint as given", number == 0 && out_is(9, 0, 0, 0, 0) && volume_is_expected());

    expected[HEAP_AT] = 0x03;
    for (int i = 0; i < 3; i++)
        expected[ROOT_AT + 32 * i] &= 0x7F;
    spoil_out();
    number = exfat_remove(volume, VOLUME_BYTES, map, MAP_BYTES, geometry, 0, 9, out);
    check("remove: entries unused, cluster freed", number == 0 && out_is(9, 0, 0, 0, 0) && volume_is_expected());

    spoil_out();
    number = exfat_remove(volume, VOLUME_BYTES, map, MAP_BYTES, geometry, 0, 9, out);
    check("remove again: 10", number == 10 && out_is(9, 0, 0, 0, 0) && volume_is_expected());
}

/* ---- reading back: a file at slot 0, its bytes where they lie */

#define CLUSTER_AT(k) (HEAP_AT + ((k) - 2) * SECTOR)
#define ZEROS 16
#define READ volume, VOLUME_BYTES, map, MAP_BYTES, geometry, zeros, ZEROS

static uint8_t zeros[ZEROS];

/* A volume with file "a"; no byte of clusters 4 and up is 0, and no two neighbours are alike. */
static void make_file(uint8_t marks, uint8_t flags, uint32_t first, uint32_t length, uint32_t valid)
{
    make_volume(marks);
    put_set(0, flags, first, length, valid);
    for (int i = CLUSTER_AT(4); i < VOLUME_BYTES; i++)
        expected[i] = (uint8_t)(1 + i % 251);
    memcpy(volume, expected, VOLUME_BYTES);
    memset(zeros, 0, ZEROS);
}

static int all_kept(void)
{
    for (int i = 0; i < ZEROS; i++)
        if (zeros[i])
            return 0;
    return volume_is_expected();
}

/* The part at an offset: its words, and the same from the helper as a pointer, here and in the program's other file. */
static int part_is(uint64_t offset, uint32_t of_zeros, uint32_t start, uint32_t length)
{
    spoil_out();
    exfat_read(READ, 0, offset, out);
    int words = out_is(of_zeros, start, length, 0, 0);
    const struct exfat_part part = exfat_read_part(READ, 0, offset);
    const struct exfat_part other = part_elsewhere(READ, 0, offset);
    const uint8_t *from = of_zeros ? zeros : volume + start;
    return words && part.start == from && part.length == length && other.start == from && other.length == length && all_kept();
}

/* What a slot other than 0, or other zeros, are refused with; the part is empty then. */
static int refused_with(uint32_t number, const uint8_t *some, size_t some_len, uint32_t slot)
{
    spoil_out();
    exfat_read(volume, VOLUME_BYTES, map, MAP_BYTES, geometry, some, some_len, slot, 0, out);
    return exfat_read_number(volume, VOLUME_BYTES, map, MAP_BYTES, geometry, some, some_len, slot) == number &&
           out_is(0, 0, 0, 0, 0) && all_kept();
}

static void reading(void)
{
    static uint8_t tape[1300], fetched[sizeof tape];
    uint8_t other[3] = {0, 0, 1};
    uint32_t bad[EXFAT_GEOMETRY_WORDS];
    size_t taken = 0;

    make_file(0x1F, 3, 4, 1300, 1300);
    check("read number of a run: 0", exfat_read_number(READ, 0) == 0 && all_kept());
    check("read a run at 100: its 1,200 bytes, over two borders", part_is(100, 0, CLUSTER_AT(4) + 100, 1200));
    check("read its last byte", part_is(1299, 0, CLUSTER_AT(6) + 275, 1));
    check("read at the length: an empty part", part_is(1300, 0, 0, 0));
    check("read at 2^32 and 2^64 - 1: an empty part", part_is((uint64_t)1 << 32, 0, 0, 0) && part_is(UINT64_MAX, 0, 0, 0));

    make_file(0x8F, 1, 4, 1400, 1400);
    put_fat(volume, 4, 5);
    put_fat(volume, 5, 9);
    put_fat(volume, 9, END);
    memcpy(expected, volume, VOLUME_BYTES);
    check("read the chain 4, 5, 9 at 100: 924 bytes", part_is(100, 0, CLUSTER_AT(4) + 100, 924));
    check("read it at 1,024: 376 bytes of cluster 9", part_is(1024, 0, CLUSTER_AT(9), 376));

    make_file(0xE3, 1, 9, 1300, 700);
    put_fat(volume, 9, 8);
    put_fat(volume, 8, 7);
    put_fat(volume, 7, END);
    memcpy(expected, volume, VOLUME_BYTES);
    check("read the chain 9, 8, 7 at 0: its first cluster", part_is(0, 0, CLUSTER_AT(9), 512));
    check("read below the valid length 700: up to it", part_is(512, 0, CLUSTER_AT(8), 188));
    check("read at the valid length: all zeros that were lent", part_is(700, 1, 0, ZEROS));
    check("read 5 bytes before the length: 5 zeros", part_is(1295, 1, 0, 5));
    memcpy(tape, volume + CLUSTER_AT(9), 512);
    memcpy(tape + 512, volume + CLUSTER_AT(8), 188);
    struct exfat_part part = exfat_read_part(READ, 0, 0);
    while (part.length && part.length <= sizeof tape - taken) {
        memcpy(fetched + taken, part.start, part.length);
        taken += part.length;
        part = exfat_read_part(READ, 0, taken);
    }
    check("parts one after another, until one is empty, are the file",
          part.length == 0 && taken == sizeof tape && memcmp(fetched, tape, sizeof tape) == 0 && all_kept());

    /* what is only read may overlap: the boot region of this volume is all 0 */
    part = exfat_read_part(volume, VOLUME_BYTES, map, MAP_BYTES, geometry, volume, SECTOR, 0, 700);
    check("read with zeros that are a part of the volume", part.start == volume && part.length == SECTOR && all_kept());

    check("read with no zeros: 15, and no part", refused_with(EXFAT_ZEROS_REFUSED, zeros, 0, 0));
    check("read with a last byte of 1 in the zeros: 15", refused_with(EXFAT_ZEROS_REFUSED, other, 3, 0) && other[2] == 1);
    check("read at a slot with no file entry: 10", refused_with(EXFAT_NO_FILE, zeros, ZEROS, 1));
    check("15 before 10", refused_with(EXFAT_ZEROS_REFUSED, other, 3, 1));

    memcpy(bad, geometry, sizeof bad);
    bad[0] = 8;
    spoil_out();
    exfat_read(volume, VOLUME_BYTES, map, MAP_BYTES, bad, zeros, 0, 0, 0, out);
    check("1 before 15", exfat_read_number(volume, VOLUME_BYTES, map, MAP_BYTES, bad, zeros, 0, 0) == 1 && out_is(0, 0, 0, 0, 0));
}

int main(void)
{
    free_count();
    clusters();
    allocate();
    extend();
    shrink();
    files();
    reading();
    if (failed)
        printf("boundary: FAILED, %d checks\n", failed);
    return failed != 0;
}
