/*
 * One call on one volume, for `bench/instructions` to count the machine's instructions in: a volume of 32,000 clusters of 512
 * bytes, one FAT, the bitmap in clusters 2 to 9, the root in cluster 10. The argument names the case; the call's number is
 * printed, so that a case which is refused is seen.
 */
#include <stdio.h>
#include <stdlib.h>
#include <string.h>

#include "bare_walk.h"
#include "exfat.h"

enum { COUNT = 32000, SIZE = 512, FAT = 24 * SIZE, HEAP = 280 * SIZE, ROOT = 10, FIRST = 11, END = COUNT + 2 };

static uint8_t vol[HEAP + COUNT * SIZE];
static uint8_t map[COUNT / 8];
static const uint32_t geometry[EXFAT_GEOMETRY_WORDS] = {9, 0, 24, 251, 1, 0, 280, COUNT, ROOT, 2, 0};
static const uint8_t stamps[18];
static const uint8_t data[SIZE] = {1};
static uint8_t long_data[COUNT * SIZE];
static const uint8_t zeros[SIZE];
static uint32_t out[EXFAT_OUT_WORDS];
#define CARD vol, sizeof vol, map, sizeof map, geometry

static uint8_t *cluster(uint32_t k)
{
    return vol + HEAP + (size_t)(k - 2) * SIZE;
}

static void put(uint8_t *at, uint64_t value, int bytes)
{
    for (int i = 0; i < bytes; i++)
        at[i] = (uint8_t)(value >> (8 * i));
}

static void set_fat(uint32_t k, uint32_t value)
{
    put(vol + FAT + 4 * (size_t)k, value, 4);
}

static void mark(uint8_t *bits, uint32_t k)
{
    bits[(k - 2) / 8] |= (uint8_t)(1u << ((k - 2) % 8));
}

/* marks cluster k, which then is no longer free */
static void take(uint32_t k)
{
    mark(cluster(2), k);
}

static void format(void)
{
    for (uint32_t k = 2; k < FIRST; k++) {
        take(k);
        mark(map, k);
    }
    set_fat(ROOT, 0xFFFFFFFF);
}

/* gives the file at slot 0 a valid length */
static void set_valid(uint64_t valid)
{
    uint8_t *set = cluster(ROOT);
    uint16_t sum = 0;

    put(set + 40, valid, 8);
    for (int i = 0; i < 96; i++)
        if (i != 2 && i != 3)
            sum = (uint16_t)((sum << 15 | sum >> 1) + set[i]);
    put(set + 2, sum, 2);
}

/* a file at slot 0 with the stream and the length given, written out in full clusters */
static void file(uint32_t first, int run, uint64_t length)
{
    static const uint16_t name[8] = {'M', 'E', 'L', 'T', '.', 'C', 'S', 'V'};
    uint8_t *set = cluster(ROOT);

    if (exfat_new_file(CARD, name, 8, 0x20, 0x0A7A, stamps, FIRST, out) != 0)
        exit(2);
    set[33] = run ? 3 : 1;
    put(set + 52, first, 4);
    put(set + 56, length, 8);
    set_valid(length);
}

/* a file whose chain has every cluster from FIRST on, in an order that jumps through the heap */
static void file_of_all(void)
{
    const uint32_t n = END - FIRST;
    uint32_t k = FIRST, first = FIRST, i;

    for (i = 0; i < n; i++) {
        uint32_t next = FIRST + (k - FIRST + 7919) % n; /* 7919 and n have no common divisor */
        take(k);
        set_fat(k, i + 1 < n ? next : 0xFFFFFFFF);
        k = next;
    }
    file(first, 0, (uint64_t)n * SIZE);
}

/* 7 of 8 clusters marked and the eighth bad, but for the last one, which is usable; the file has one cluster */
static void one_left(void)
{
    for (uint32_t k = FIRST; k < END - 1; k++) {
        if ((k - 2) % 8 == 7)
            set_fat(k, 0xFFFFFFF7);
        else
            take(k);
    }
    file(FIRST, 1, SIZE);
}

static void run_of(uint32_t n)
{
    for (uint32_t k = FIRST; k < FIRST + n; k++)
        take(k);
    file(FIRST, 1, (uint64_t)n * SIZE);
}

/* the same clusters as a chain */
static void rising_chain_of(uint32_t n)
{
    for (uint32_t k = FIRST; k < FIRST + n; k++) {
        take(k);
        set_fat(k, k + 1 < FIRST + n ? k + 1 : 0xFFFFFFFF);
    }
    file(FIRST, 0, (uint64_t)n * SIZE);
}

/* The number of a read that gives a part of that length: 0. */
static uint32_t read_part(uint64_t offset, uint32_t length)
{
    exfat_read(CARD, zeros, sizeof zeros, 0, offset, out);
    return out[0] == 0 && out[2] == length ? exfat_read_number(CARD, zeros, sizeof zeros, 0) : 99;
}

/* The number of a write to the file of all clusters, of which so many bytes are valid: 0. Its first and last bytes are looked at. */
static uint32_t write_long(uint64_t valid, uint64_t offset, size_t length)
{
    const uint64_t places[2] = {0, offset + length - 1};
    uint32_t number;

    file_of_all();
    memset(cluster(FIRST), 2, (size_t)(END - FIRST) * SIZE);
    memset(long_data, 1, sizeof long_data);
    set_valid(valid);
    number = exfat_write(CARD, 0, offset, long_data, length, stamps, FIRST, out);
    for (int i = 0; i < 2; i++) {
        const uint32_t k = FIRST + (uint32_t)(places[i] / SIZE * 7919 % (END - FIRST));
        const uint8_t is = places[i] >= offset ? 1 : valid == 0 ? 0 : 2;

        if (cluster(k)[places[i] % SIZE] != is)
            return 99;
    }
    return number;
}

int main(int argc, char **argv)
{
    static const uint32_t record[EXFAT_ALLOCATION_WORDS] = {FIRST, FIRST + 3, 4, 1};
    const uint64_t all = (uint64_t)(END - FIRST) * SIZE;
    const char *which = argc > 1 ? argv[1] : "";
    uint32_t number;

    format();
    if (strcmp(which, "allocate") == 0) {
        number = exfat_allocate(CARD, 1, 0, 0, FIRST, out);
    } else if (strcmp(which, "extend") == 0) {
        run_of(4);
        number = exfat_extend(CARD, record, 1, FIRST, out);
    } else if (strcmp(which, "append") == 0) {
        run_of(4);
        number = exfat_write(CARD, 0, 4 * SIZE, data, SIZE, stamps, FIRST, out);
    } else if (strcmp(which, "remove") == 0) {
        file_of_all();
        number = exfat_remove(CARD, 0, FIRST, out);
    } else if (strcmp(which, "worst") == 0) {
        one_left();
        number = exfat_write(CARD, 0, SIZE, data, SIZE, stamps, FIRST, out);
    } else if (strcmp(which, "whole") == 0) {
        number = write_long(all, 0, all);
    } else if (strcmp(which, "zeros") == 0) {
        number = write_long(0, all - SIZE + 100, 1);
    } else if (strcmp(which, "middle") == 0) {
        number = write_long(all, all / 2, 1);
    } else if (strcmp(which, "number") == 0) {
        file_of_all();
        number = exfat_read_number(CARD, zeros, 1, 0);
    } else if (strcmp(which, "read") == 0) {
        file_of_all();
        number = read_part((uint64_t)(END - FIRST - 1) * SIZE, SIZE);
    } else if (strcmp(which, "walk") == 0) {
        file_of_all();
        number = bare_walk(vol + FAT, FIRST) < FIRST;
    } else if (strcmp(which, "rising") == 0) {
        rising_chain_of(END - FIRST);
        number = read_part(0, (END - FIRST) * SIZE);
    } else if (strcmp(which, "run") == 0) {
        run_of(END - FIRST);
        number = read_part(0, (END - FIRST) * SIZE);
    } else {
        return 2;
    }
    printf("%u\n", number);
    return 0;
}
