/* Times calls of engines with the stack at each 16th byte of a page: a line on standard input asks for a round, or for the answers. The
   least of all rounds counts, in cycles of the core a block. ENGINES names the libraries, as for worker.c. */
#include "engine.h"
#include <alloca.h>
#include <stdio.h>
#include <string.h>
#include <x86intrin.h>

#define X(library) void add_##library(enum run run);
ENGINES
#undef X

enum { PAGE = 4096, STEP = 16, PLACES = PAGE / STEP, BLOCKS_TIMED = 64, BYTES = 16 * BLOCKS_TIMED, MOST_ENGINES = 8, TRIES = 20 };
enum call { TO_ENCRYPT, TO_DECRYPT, STREAM, SEAL, CALLS };
static const char *const names[] = {"encrypt", "decrypt", "counter mode", "GCM, text"};
static struct engine engines[MOST_ENGINES];
static int count;
static double best[MOST_ENGINES][CALLS][PLACES];
static uint8_t data[BYTES] __attribute__((aligned(4096))), key[16] = {1, 2, 3}, iv[16], nonce[12], tag[16];

/* The planted engine keeps numbers on the stack that aren't aligned. Once in a page one of them lies across its border. */
static void (*real)(enum direction to, uint8_t *blocks, size_t count);

static void process_planted(enum direction to, uint8_t *blocks, size_t some)
{
    uint8_t room[48];
    uint8_t *place = room + ((16 - (uintptr_t)room % 16) % 16 + 12);
    real(to, blocks, some);
    for (size_t i = 0; i < 8 * some; i++)
        __asm__ volatile("incq %0" : "+m"(*(uint64_t *)place));
}

/* Engines that leave all alone, or work twice, are for worker.c. */
void add(const struct engine *engine)
{
    if (strcmp(engine->kind, "planted"))
        engines[count++] = *engine;
}

static __attribute__((noinline)) void call(const struct engine *e, enum call it)
{
    switch (it) {
    case TO_ENCRYPT: case TO_DECRYPT: e->process((enum direction)it, data, BLOCKS_TIMED); break;
    case STREAM: e->stream(0, sizeof key, iv, data, BYTES); break;
    default: nonce[0]++; e->seal(&(struct message){nonce, 0, 0, BYTES, data, tag});
    }
}

/* The ticks that 1,000 multiplications in a chain take: 3,000 cycles. */
static uint64_t ticks_of_3000(void)
{
    uint64_t start = __rdtsc(), x = 3;
    for (int i = 0; i < 100; i++)
        __asm__ volatile(".rept 10\n\timulq %0, %0\n\t.endr" : "+r"(x));
    return __rdtsc() - start;
}

/* The cycles of a call with the stack at a place of a page, or 0 if the clock's rate was never the same before and after it. */
static __attribute__((noinline)) double cycles_at(const struct engine *e, enum call it, size_t place)
{
    uintptr_t here = (uintptr_t)__builtin_frame_address(0);
    volatile char *room = alloca(((here - place) & (PAGE - 1)) + PAGE);
    room[0] = 0;
    call(e, it);
    for (int tries = 0; tries < TRIES; tries++) {
        uint64_t before = ticks_of_3000(), start = __rdtsc();
        call(e, it);
        uint64_t ticks = __rdtsc() - start, after = ticks_of_3000(), more = before > after ? before - after : after - before;
        if (100 * more <= after)
            return 6000 * (double)ticks / (double)(before + after);
    }
    return 0;
}

static void one_round(void)
{
    for (size_t place = 0; place < PLACES; place++)
        for (int i = 0; i < count; i++)
            for (enum call it = 0; it < CALLS; it++) {
                if (it == SEAL ? !engines[i].seal : it == STREAM ? !engines[i].stream : !engines[i].process)
                    continue;
                double cycles = cycles_at(&engines[i], it, STEP * place) / BLOCKS_TIMED, *least = &best[i][it][place];
                if (cycles > 0 && (*least == 0 || cycles < *least))
                    *least = cycles;
            }
}

int main(void)
{
#define X(library) add_##library(NO_AES);
    ENGINES
    real = engines[0].process;
    engines[count++] = (struct engine){"planted", "planted", "planted", .process = process_planted};
    for (int i = 0; i < count; i++) {
        if (engines[i].set_key) {
            engines[i].set_key(ENCRYPT, key, sizeof key);
            engines[i].gcm_key(key);
            engines[i].stream(key, sizeof key, iv, data, 16);
        }
    }
    for (char line[16]; fgets(line, sizeof line, stdin); fflush(stdout)) {
        if (line[0] == 'r') {
            one_round();
            printf("done\n");
            continue;
        }
        for (int i = 0; i < count; i++)
            for (enum call it = 0; it < CALLS; it++)
                for (size_t place = 0; place < PLACES; place++)
                    printf("%s\t%s\t%zu\t%.3f\n", engines[i].how, names[it], STEP * place, best[i][it][place]);
        printf("end\n");
    }
    return 0;
}
