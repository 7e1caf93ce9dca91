/* Counts the calls that the module serves, over all processes that name the same file in FOTSGURE_COUNTS. `build`
 * compiles the module with it if it is asked to. The file holds 64-bit numbers, four for each mode and key length: one
 * for each `enum event` of provider.h, in its order. counts.py prints them. */
#ifndef FOTSGURE_COUNT_H
#define FOTSGURE_COUNT_H
#define _DEFAULT_SOURCE
#include <fcntl.h>
#include <stdatomic.h>
#include <stdint.h>
#include <stdlib.h>
#include <sys/mman.h>
#include <unistd.h>

enum { MODES = 64, KEY_LENGTHS = 4, EVENTS = 4 };
static _Atomic uint64_t (*counts)[KEY_LENGTHS][EVENTS];

/* When the module is loaded: the workers of nginx no longer have its environment. */
__attribute__((constructor)) static void open_counts(void)
{
    const char *name = getenv("FOTSGURE_COUNTS");
    int file = name ? open(name, O_RDWR | O_CREAT, 0666) : -1;
    void *map = MAP_FAILED;
    if (file >= 0 && ftruncate(file, MODES * sizeof *counts) == 0)
        map = mmap(NULL, MODES * sizeof *counts, PROT_READ | PROT_WRITE, MAP_SHARED, file, 0);
    if (file >= 0)
        close(file);
    counts = map == MAP_FAILED ? NULL : map;
}

/* OpenSSL's numbers of modes are 1 for ECB, 2 for CBC, 5 for CTR, 6 for GCM, 0x10002 for key wrap, and 0x10005 for GCM-SIV.
 * The file has the last two as 10 and 13. */
static inline void count_event(unsigned mode, size_t key_length, unsigned event, uint64_t amount)
{
    unsigned row = (mode & 15) + (mode >> 16) * 8;
    if (counts)
        atomic_fetch_add(&counts[row][key_length / 8 - 2][event], amount);
}
#define COUNTED(algorithm, event, amount) count_event((algorithm)->mode, (algorithm)->key_length, event, amount)
#endif
