/*
 * The limits that the calls are held against, as plain C: the walk of a chain, the tests of a run, a memory copy. And the time, and
 * the clearing of the processor's caches.
 */
#define _GNU_SOURCE
#include <emmintrin.h>
#include <stddef.h>
#include <stdint.h>
#include <string.h>
#include <sys/syscall.h>
#include <time.h>
#include <unistd.h>

#include "bare_walk.h"

uint32_t bench_walk(const uint8_t *fat, uint32_t first)
{
    return bare_walk(fat, first);
}

/* The bytes of a run's marks are all ones, and those of its bits in the system map all zeros: what a run is tested for. */
uint32_t bench_run(const uint8_t *marks, const uint8_t *map, size_t length)
{
    for (size_t i = 0; i < length; i++)
        if (marks[i] != 0xFF || map[i] != 0)
            return 0;
    return 1;
}

void bench_copy(uint8_t *to, const uint8_t *from, size_t length)
{
    memcpy(to, from, length);
    __asm__ volatile("" : : "r"(to) : "memory");
}

/* Takes the bytes out of every cache of the processor. */
void bench_clear(const uint8_t *bytes, size_t length)
{
    for (size_t i = 0; i < length; i += 64)
        _mm_clflush(bytes + i);
    _mm_mfence();
}

/*
 * Nanoseconds that this thread has had a processor. No call waits for anything, so that this is the time they take, whatever
 * else the machine does. By the system call, since the original's driver puts a clock of its own in the place of clock_gettime
 * (oracle/original/src/driver.rs).
 */
uint64_t bench_now(void)
{
    struct timespec t;
    syscall(SYS_clock_gettime, CLOCK_THREAD_CPUTIME_ID, &t);
    return (uint64_t)t.tv_sec * 1000000000u + (uint64_t)t.tv_nsec;
}
