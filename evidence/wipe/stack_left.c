/* Makes calls on a stack of its own, each under several keys and on the same blocks. Then it counts the bytes that differ between the keys
   (README.md). CALLS names the exports, as X(ev_left_aes_128_value_dropped) .. It prints a line for each export, with tabs: its name, and
   the largest count of each kind at any length. */
#define _GNU_SOURCE
#include <stdint.h>
#include <stdio.h>
#include <stdlib.h>
#include <string.h>
#include <ucontext.h>

/* The vector registers: the lower halves of sixteen, and then the upper ones where the processor has them. */
enum { STACK = 1 << 18, FILL = 0xa5, BLOCK = 16, MOST_WORDS = 120, REGISTERS = 32, KEYS = 6, EVERY = 41 };
static int has_upper_halves;

static inline void use(const void *at)
{
    __asm__ volatile("" : : "r"(at) : "memory");
}

static uint8_t *stack, *images[KEYS], registers[KEYS][BLOCK * REGISTERS] __attribute__((aligned(64)));
static ucontext_t home, away;

/* An export of one block has no count, and doesn't see that it is given one. */
typedef void export(const uint8_t *key, uint8_t *blocks, size_t count);
static uint8_t key[32], blocks[BLOCK * EVERY], zeros[2][BLOCK];
static size_t size, count;
static export *called;

#define SIXTEEN(IT) IT(0) IT(1) IT(2) IT(3) IT(4) IT(5) IT(6) IT(7) IT(8) IT(9) IT(10) IT(11) IT(12) IT(13) IT(14) IT(15)
#define EMPTY(n) "pxor %xmm" #n ", %xmm" #n "\n"
#define STORE(n) "movdqa %%xmm" #n ", 16 * " #n "(%0)\n"
#define STORE_UPPER(n) "vextracti128 $1, %%ymm" #n ", 256 + 16 * " #n "(%0)\n"

/* Makes a call with empty vector registers, and stores their content before anything else runs. */
static void enter(void)
{
    if (has_upper_halves)
        __asm__ volatile("vzeroall");
    else
        __asm__ volatile(SIXTEEN(EMPTY));
    called(key, blocks, count);
    __asm__ volatile(SIXTEEN(STORE) "cmpl $0, %1\n je 1f\n" SIXTEEN(STORE_UPPER) "1:\n"
        : : "r"(registers), "m"(has_upper_halves) : "memory", "cc");
}

/* Makes a call on the stack, and copies the stack and the registers afterwards. */
static void run(int number)
{
    memset(stack, FILL, STACK);
    getcontext(&away);
    /* Else the call would find this search's own numbers in its registers, and save them on the stack: the loop's differ with the key. */
    memset(away.uc_mcontext.gregs, 0, sizeof away.uc_mcontext.gregs);
    away.uc_stack.ss_sp = stack;
    away.uc_stack.ss_size = STACK;
    away.uc_link = &home;
    makecontext(&away, enter, 0);
    swapcontext(&home, &away);
    memcpy(images[number], stack, STACK);
    if (number)
        memcpy(registers[number], registers[0], sizeof *registers);
}

#define OF_SIZE(bits) \
    void ev_planes_##bits(const uint8_t *key, uint16_t *words); \
    void ev_full_##bits(uint32_t word, const uint8_t *key, const uint8_t *, size_t, uint8_t *there, size_t, uint8_t *back, size_t);
OF_SIZE(128)
OF_SIZE(192)
OF_SIZE(256)

/* Planted: a wipe that the compiler may leave out, since nothing reads the words again, and one that is kept; and blocks of zeros,
   encrypted and decrypted, in a local. */
#define PLANTED_WIPE(name, after) \
    __attribute__((noinline)) static void planted_128_##name##_wipe(const uint8_t *k, uint8_t *b, size_t n) \
    { \
        uint16_t words[MOST_WORDS]; \
        ev_planes_128(k, words); \
        use(words); \
        b[0] ^= (uint8_t)(words[0] + n); \
        memset(words, 0, sizeof words); \
        after; \
    }
PLANTED_WIPE(deleted, (void)0)
PLANTED_WIPE(kept, use(words))

__attribute__((noinline)) static void planted_128_zeros(const uint8_t *k, uint8_t *b, size_t n)
{
    uint8_t made[2][BLOCK];
    (void)k, (void)b, (void)n;
    memcpy(made, zeros, sizeof made);
    use(made);
}

/* What is counted: runs of bytes that differ, as long as a whole schedule; all bytes that differ, on the stack and in registers; blocks of
   zeros that were encrypted or decrypted. */
enum counted { COPIES, BYTES, IN_REGISTERS, ZERO_BLOCKS, COUNTED };

static int differs(const uint8_t *const *copies, size_t at)
{
    int found = 0;
    for (int k = 1; k < KEYS; k++)
        found |= copies[k][at] != copies[0][at];
    return found;
}

static void count_left(int seen[COUNTED])
{
    static const uint8_t none[BLOCK];
    const uint8_t *in_registers[KEYS];
    size_t schedule = BLOCK * (size / 4 + 7);
    for (int k = KEYS - 1; k >= 0; k--) {
        /* An odd step for each byte: none is the same under two keys. */
        for (size_t i = 0; i < size; i++)
            key[i] = (uint8_t)(0x1d * i + 0x35 + (0x47 + 2 * i) * (size_t)k);
        for (size_t i = 0; i < sizeof blocks; i++)
            blocks[i] = (uint8_t)(i * 7 + i / 256 + 1);
        (size == 16 ? ev_full_128 : size == 24 ? ev_full_192 : ev_full_256)(0, key, none, 1, zeros[0], 1, zeros[1], 1);
        run(k);
        in_registers[k] = registers[k];
    }
    for (size_t i = 0, length = 0; i < STACK; i++) {
        length = differs((const uint8_t *const *)images, i) ? length + 1 : 0;
        seen[BYTES] += length > 0;
        seen[COPIES] += length && length % schedule == 0;
        /* The last run had the key of number 0. */
        for (int way = 0; way < 2 && i + BLOCK <= STACK; way++)
            seen[ZERO_BLOCKS] += !memcmp(images[0] + i, zeros[way], BLOCK);
    }
    for (size_t i = 0; i < sizeof *registers; i++)
        seen[IN_REGISTERS] += differs(in_registers, i);
}

/* A call's name says the size of the key, and what it needs. */
static void report(const char *name, export *it)
{
    static const size_t others[] = {7, 109, 231, 375};
    int most[COUNTED] = {0}, on_bytes = strstr(name, "stream") != 0, is_long = on_bytes || strstr(name, "slice");
    called = it;
    size = strstr(name, "_128_") ? 16 : strstr(name, "_192_") ? 24 : 32;
    for (size_t i = 0; i < (on_bytes ? EVERY + 4 : is_long ? EVERY : 1); i++) {
        int seen[COUNTED] = {0};
        count = !is_long ? 1 : !on_bytes ? i : i < EVERY ? BLOCK * i : others[i - EVERY];
        count_left(seen);
        for (int kind = 0; kind < COUNTED; kind++)
            most[kind] = seen[kind] > most[kind] ? seen[kind] : most[kind];
    }
    printf("%s\t%d\t%d\t%d\t%d\n", name, most[COPIES], most[BYTES], most[IN_REGISTERS], most[ZERO_BLOCKS]);
}

#define X(name) export name;
CALLS
#undef X
#define X(name) report(#name, name);

int main(void)
{
    has_upper_halves = __builtin_cpu_supports("avx2") != 0;
    stack = aligned_alloc(4096, STACK);
    for (int k = 0; k < KEYS; k++)
        images[k] = malloc(STACK);
    X(planted_128_deleted_wipe) X(planted_128_kept_wipe) X(planted_128_zeros)
    CALLS
    return 0;
}
