/*
 * Long writes (02, 2027-02), for `tests/long_writes`: what a write along a chain costs. The volume has 32,000 clusters of 512
 * bytes, one FAT, the bitmap in clusters 2 to 9 and the root in 10. Two files of whole clusters lie on it, of 16,384 clusters and
 * of 4,096: real chains, each cluster so many clusters further than the one before, around the heap, so that none is followed there
 * by the next one of its file.
 *
 *   long_writes JUMP time            timings; each line is a figure and its bound, and the status is 1 where one is above it
 *   long_writes JUMP entries         the same of how many entries of the FAT a write reads
 *   long_writes JUMP CASE CLUSTERS   one call, for its instructions to be counted
 *
 * No call counts that was refused or left a wrong byte: the number of each is looked at, and after it the whole volume is compared
 * with one that was made without the library (of the thousands of single bytes, after each hundredth). What a call has to store
 * was spoiled before it.
 */
#define _GNU_SOURCE
#include <emmintrin.h>
#include <signal.h>
#include <stdio.h>
#include <stdlib.h>
#include <string.h>
#include <sys/mman.h>
#include <time.h>
#include <ucontext.h>

#include "bare_walk.h"
#include "exfat.h"

enum { COUNT = 32000, SIZE = 512, FAT = 24 * SIZE, HEAP = 280 * SIZE, ROOT = 10, FIRST = 11, END = COUNT + 2 };
enum { LONG = 16384, SHORT = 4096, SET = 96 };

struct file {
    uint32_t slot, clusters;
    uint32_t chain[LONG]; /* its clusters in stream order */
};

/* what the calls get; FAT and heap begin with a page of the memory */
static uint8_t vol[HEAP + COUNT * SIZE] __attribute__((aligned(4096)));
static uint8_t expected[HEAP + COUNT * SIZE]; /* what they have to leave */
static uint8_t map[COUNT / 8];
static uint8_t data[LONG * SIZE];
static struct file files[2] = {{.slot = 0, .clusters = LONG}, {.slot = 3, .clusters = SHORT}};
static const uint32_t geometry[EXFAT_GEOMETRY_WORDS] = {9, 0, 24, 251, 1, 0, 280, COUNT, ROOT, 2, 0};
static const uint8_t stamps[18];
static const uint8_t zeros[1];
static uint32_t out[EXFAT_OUT_WORDS];
static uint32_t jump;
#define CARD vol, sizeof vol, map, sizeof map, geometry

static void fail(const char *what)
{
    printf("long writes: FAILED, %s\n", what);
    exit(1);
}

static size_t at_cluster(uint32_t k)
{
    return HEAP + (size_t)(k - 2) * SIZE;
}

static void put(uint8_t *at, uint64_t value, int bytes)
{
    for (int i = 0; i < bytes; i++)
        at[i] = (uint8_t)(value >> (8 * i));
}

static void mark(uint8_t *bits, uint32_t k)
{
    bits[(k - 2) / 8] |= (uint8_t)(1u << ((k - 2) % 8));
}

/* Gives a file a valid length, on a volume of either kind. */
static void set_valid(uint8_t *volume, const struct file *f, uint64_t valid)
{
    uint8_t *set = volume + at_cluster(ROOT) + 32 * f->slot;
    uint16_t sum = 0;

    put(set + 40, valid, 8);
    for (int i = 0; i < SET; i++)
        if (i != 2 && i != 3)
            sum = (uint16_t)((sum << 15 | sum >> 1) + set[i]);
    put(set + 2, sum, 2);
}

/* A file on the clusters from `from` on. Gives the cluster after them. */
static uint32_t add_file(struct file *f, uint32_t from, uint16_t letter)
{
    const uint32_t n = END - FIRST;
    uint8_t *set = vol + at_cluster(ROOT) + 32 * f->slot;

    for (uint32_t i = 0; i < f->clusters; i++) {
        uint32_t next = FIRST + (from - FIRST + jump) % n;
        if (vol[at_cluster(2) + (from - 2) / 8] >> (from - 2) % 8 & 1)
            fail("a cluster is taken twice");
        if (next == from + 1)
            fail("two clusters of a file follow each other");
        f->chain[i] = from;
        mark(vol + at_cluster(2), from);
        put(vol + FAT + 4 * (size_t)from, i + 1 < f->clusters ? next : 0xFFFFFFFF, 4);
        from = next;
    }
    if (exfat_new_file(CARD, &letter, 1, 0x20, 0x0A7A, stamps, FIRST, out) != 0 || out[0] != f->slot)
        fail("a file was not made");
    set[33] = 1; /* no run: the FAT has the chain */
    put(set + 52, f->chain[0], 4);
    put(set + 56, (uint64_t)f->clusters * SIZE, 8);
    set_valid(vol, f, (uint64_t)f->clusters * SIZE);
    return from;
}

static void make_volume(void)
{
    uint32_t from = FIRST;

    for (uint32_t k = 2; k < FIRST; k++) {
        mark(vol + at_cluster(2), k);
        mark(map, k);
    }
    put(vol + FAT + 4 * ROOT, 0xFFFFFFFF, 4);
    for (int i = 0; i < 2; i++)
        from = add_file(&files[i], from, (uint16_t)('A' + i));
    for (uint32_t i = 0; i < LONG; i++) {
        memset(data + (size_t)i * SIZE, (int)(1 + i % 200), SIZE);
        put(data + (size_t)i * SIZE, i, 4); /* no two clusters have the same */
    }
    memcpy(expected, vol, sizeof vol);
}

/*
 * Nanoseconds. Of the machine's time: the thread's gives single timings that are too short (docs/BENCHMARKS.md), of which the least
 * of many would be one.
 */
static uint64_t now(void)
{
    struct timespec t;

    clock_gettime(CLOCK_MONOTONIC, &t);
    return (uint64_t)t.tv_sec * 1000000000u + (uint64_t)t.tv_nsec;
}

/* A write at an offset of a file with that valid length: which bytes come from where. */
struct write {
    uint64_t valid, offset;
    size_t length;
};

/* Puts bytes into a file, on a volume of either kind, from one place to another: those of a source, or where there is none, the same. */
static void put_bytes(uint8_t *volume, const struct file *f, uint64_t from, uint64_t to, const uint8_t *src, int same)
{
    while (from < to) {
        size_t in = from % SIZE, n = SIZE - in < to - from ? SIZE - in : (size_t)(to - from);
        uint8_t *at = volume + at_cluster(f->chain[from / SIZE]) + in;

        if (src) {
            memcpy(at, src, n);
            src += n;
        } else {
            memset(at, same, n);
        }
        from += n;
    }
}

/* Makes a file ready for a write: its valid length, and other bytes than zeros and data where they belong. */
static void ready(const struct file *f, struct write w)
{
    set_valid(vol, f, w.valid);
    put_bytes(vol, f, w.valid < w.offset ? w.valid : w.offset, w.offset + w.length, NULL, 0xEE);
}

/* Makes a write and gives its nanoseconds. Its bytes are looked at later. */
static uint64_t make(const struct file *f, struct write w, const uint8_t *src)
{
    uint64_t start, end;
    uint32_t number;

    start = now();
    number = exfat_write(CARD, f->slot, w.offset, src, w.length, stamps, FIRST, out);
    end = now();
    if (number != 0 || out[0] != FIRST)
        fail("a write was refused");
    return end - start;
}

/* Every byte of the volume after a write. */
static void check_write(const struct file *f, struct write w, const uint8_t *src)
{
    const uint64_t end = w.offset + w.length;

    put_bytes(expected, f, w.valid, w.offset, NULL, 0);
    put_bytes(expected, f, w.offset, end, src, 0);
    set_valid(expected, f, end > w.valid ? end : w.valid);
    if (memcmp(vol, expected, sizeof vol) != 0)
        fail("a write left other bytes");
}

static void make_checked(const struct file *f, struct write w)
{
    ready(f, w);
    make(f, w, data);
    check_write(f, w, data);
}

/* Over the whole chain. */
static struct write whole(const struct file *f)
{
    return (struct write){(uint64_t)f->clusters * SIZE, 0, (size_t)f->clusters * SIZE};
}

/* Nothing is valid, and one byte goes into the last cluster: zeros along the chain come before it. */
static struct write gap(const struct file *f)
{
    return (struct write){0, (uint64_t)(f->clusters - 1) * SIZE + 100, 1};
}

/* The same into the cluster before the last one, which the record does not name. */
static struct write late(const struct file *f)
{
    return (struct write){0, (uint64_t)(f->clusters - 2) * SIZE + 100, 1};
}

/* The same with the first half valid. */
static struct write half(const struct file *f)
{
    struct write w = late(f);

    w.valid = (uint64_t)f->clusters / 2 * SIZE + 100;
    return w;
}

/* One byte in the middle cluster. */
static struct write byte(const struct file *f)
{
    return (struct write){(uint64_t)f->clusters * SIZE, (uint64_t)f->clusters / 2 * SIZE + 100, 1};
}

static uint64_t lesser(uint64_t a, uint64_t b)
{
    return a < b ? a : b;
}

/* Prints a figure; whether it is within its bound. */
static int figure(const char *what, uint64_t one, uint64_t other, double most)
{
    const double ratio = (double)one / (double)other;

    printf("long writes: time, jumps of %u, %s: %.1f / %.1f us = %.2f, at most %g%s\n", jump, what, (double)one / 1e3,
           (double)other / 1e3, ratio, most, ratio <= most ? "" : ", ABOVE IT");
    return ratio <= most;
}

/*
 * Timings differ with what else the machine does, so the least of many counts, of either side in turns. At least LEAST of them are
 * taken; where they are above the bound still, more, up to MOST.
 */
enum { LEAST = 30, MOST = 300 };

/* Takes volume and data out of the processor's caches, which would hold the short file as a whole and the long one in part. */
static void cool(void)
{
    for (size_t i = 0; i < sizeof vol; i += 64)
        _mm_clflush(vol + i);
    for (size_t i = 0; i < sizeof data; i += 64)
        _mm_clflush(data + i);
    _mm_mfence();
}

/* A write on the long chain against the same on the short one. */
static int time_lengths(const char *what, struct write (*of)(const struct file *))
{
    uint64_t least[2] = {UINT64_MAX, UINT64_MAX};

    for (int round = 0; round < LEAST || (round < MOST && least[0] > 8 * least[1]); round++)
        for (int i = 0; i < 2; i++) {
            const struct write w = of(&files[i]);

            ready(&files[i], w);
            cool();
            least[i] = lesser(least[i], make(&files[i], w, data));
            check_write(&files[i], w, data);
        }
    return figure(what, least[0], least[1], 8);
}

/* One byte in the middle of the long chain against a bare walk of it. They are short, so that there are a hundred times as many. */
static int time_byte(void)
{
    const struct file *f = &files[0];
    const struct write w = byte(f);
    uint64_t least = UINT64_MAX, walk = UINT64_MAX, start;
    uint8_t src = 0;

    for (int round = 0; round < 100 * LEAST || (round < 100 * MOST && 2 * least > 3 * walk); round++) {
        src = (uint8_t)round;
        start = now();
        if (bare_walk(vol + FAT, f->chain[0]) != f->chain[LONG - 1])
            fail("the walk does not end at the last cluster");
        walk = lesser(walk, now() - start);
        least = lesser(least, make(f, w, &src));
        if (vol[at_cluster(f->chain[LONG / 2]) + 100] != src)
            fail("the byte is not there");
        if (round % 100 == 0)
            check_write(f, w, &src);
    }
    check_write(f, w, &src);
    return figure("one byte in the middle to a bare walk", least, walk, 1.5);
}

static int timings(void)
{
    int within = time_lengths("the whole chain, 16384 clusters to 4096", whole);

    within &= time_lengths("zeros before the data, 16384 clusters to 4096", gap);
    /* the files are valid as a whole again */
    for (int i = 0; i < 2; i++)
        make_checked(&files[i], whole(&files[i]));
    within &= time_byte();
    return within;
}

/*
 * The entries of the FAT that a call reads: its pages are closed to the program, so that each access stops it; they are open for
 * the one instruction that made it.
 */
static volatile uint32_t accesses;

static void set_fat_open(int open)
{
    if (mprotect(vol + FAT, HEAP - FAT, open ? PROT_READ | PROT_WRITE : PROT_NONE) != 0)
        abort();
}

static void on_access(int number, siginfo_t *info, void *context)
{
    const uint8_t *at = info->si_addr;

    (void)number;
    if (at < vol + FAT || at >= vol + HEAP)
        abort();
    accesses++;
    set_fat_open(1);
    ((ucontext_t *)context)->uc_mcontext.gregs[REG_EFL] |= 0x100; /* the trap flag: stop after one instruction */
}

static void on_step(int number, siginfo_t *info, void *context)
{
    (void)number, (void)info;
    set_fat_open(0);
    ((ucontext_t *)context)->uc_mcontext.gregs[REG_EFL] &= ~0x100;
}

/* The entries that a call read, held against those of the walk that tests the file and of the clusters that it stores to. */
static int held_entries(const char *what, const struct file *f, uint32_t stored)
{
    const uint32_t most = f->clusters + stored + 8; /* the root's are among the last */

    printf("long writes: FAT entries read of %u clusters, %s: %u, at most %u%s\n", f->clusters, what, accesses, most,
           accesses <= most ? "" : ", ABOVE IT");
    return accesses <= most;
}

static int entries(const char *what, const struct file *f, struct write w, uint32_t stored)
{
    ready(f, w);
    accesses = 0;
    set_fat_open(0);
    make(f, w, data);
    set_fat_open(1);
    check_write(f, w, data);
    return held_entries(what, f, stored);
}

/* The same of a length that is set one byte longer, with the first half valid: zeros to the end of the middle cluster. */
static int length_entries(const char *what, const struct file *f)
{
    const uint64_t valid = half(f).valid, rest = SIZE - valid % SIZE;
    uint8_t *set = vol + at_cluster(ROOT) + 32 * f->slot;
    uint32_t number;

    put(set + 56, (uint64_t)f->clusters * SIZE - 1, 8);
    set_valid(vol, f, valid);
    put_bytes(vol, f, valid, valid + rest, NULL, 0xEE);
    accesses = 0;
    set_fat_open(0);
    number = exfat_set_length(CARD, f->slot, (uint64_t)f->clusters * SIZE, stamps, FIRST, out);
    set_fat_open(1);
    if (number != 0)
        fail("a length was refused");
    put_bytes(expected, f, valid, valid + rest, NULL, 0);
    set_valid(expected, f, valid);
    if (memcmp(vol, expected, sizeof vol) != 0)
        fail("a longer length left other bytes");
    return held_entries(what, f, 1);
}

static int all_entries(void)
{
    const struct file *f = &files[1];
    struct sigaction access = {.sa_sigaction = on_access, .sa_flags = SA_SIGINFO};
    struct sigaction step = {.sa_sigaction = on_step, .sa_flags = SA_SIGINFO};
    int within;

    if (sigaction(SIGSEGV, &access, NULL) != 0 || sigaction(SIGTRAP, &step, NULL) != 0)
        fail("the system does not say where the FAT is read");
    within = entries("one byte in the middle", f, byte(f), 1);
    within &= entries("the whole chain", f, whole(f), f->clusters);
    within &= entries("zeros, then a byte in the last cluster", f, gap(f), f->clusters);
    within &= entries("zeros, then a byte in the last but one", f, late(f), f->clusters - 1);
    within &= entries("zeros from the middle on, then the same", f, half(f), f->clusters / 2 - 1);
    within &= length_entries("a longer length, zeros in the middle", f);
    return within;
}

int main(int argc, char **argv)
{
    static const struct {
        const char *name;
        struct write (*of)(const struct file *);
    } cases[] = {{"whole", whole}, {"gap", gap}, {"byte", byte}};
    const struct file *f;

    if (argc < 3)
        return 2;
    jump = (uint32_t)atoi(argv[1]);
    make_volume();
    if (strcmp(argv[2], "time") == 0)
        return !timings();
    if (strcmp(argv[2], "entries") == 0)
        return !all_entries();
    f = argc == 4 && atoi(argv[3]) == SHORT ? &files[1] : &files[0];
    if (argc != 4 || atoi(argv[3]) != (int)f->clusters)
        return 2;
    if (strcmp(argv[2], "tests") == 0) {
        /* the walk that tests a file, and nothing else */
        if (exfat_read_number(CARD, zeros, sizeof zeros, f->slot) != 0)
            fail("a read was refused");
        return 0;
    }
    for (size_t i = 0; i < sizeof cases / sizeof cases[0]; i++)
        if (strcmp(argv[2], cases[i].name) == 0) {
            make_checked(f, cases[i].of(f));
            return 0;
        }
    return 2;
}
