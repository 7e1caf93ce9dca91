/* Tries ../nonces.c on a simulated flash, whose power fails after each number of bits that were erased or written: no nonce comes twice. */
#include "../nonces.h"
#include <setjmp.h>
#include <stdio.h>
#include <string.h>

enum { BITS = 8 * NONCES_PLACE, ENOUGH = 1000000 };

static uint8_t flash[2][NONCES_PLACE], last[FOTSGURE_GCM_NONCE];
static int reports_error[2], is_worn; /* is_worn: bits can't be written any more */
static unsigned power; /* how many bits change before it fails */
static jmp_buf failure;
static uint32_t seed;
static int failed, is_first; /* is_first: no nonce came under this key */

static unsigned random_below(unsigned end)
{
    seed = seed * 1664525 + 1013904223;
    return (seed >> 8) % end;
}

/* Changes bits of a place to those of `bytes`, in any order, and only to 1 or only to 0. */
static void change(uint8_t *place, const uint8_t *bytes, int to)
{
    unsigned first = random_below(BITS), step = 2 * random_below(BITS / 2) + 1;
    while (step % 3 == 0) /* BITS is 192: each bit comes */
        step += 2;
    for (unsigned i = 0; i < BITS; i++) {
        unsigned bit = (first + i * step) % BITS, mask = 1u << bit % 8;
        if ((place[bit / 8] & mask) == (bytes[bit / 8] & mask) || !(bytes[bit / 8] & mask) != !to)
            continue;
        if (power-- == 0)
            longjmp(failure, 1);
        place[bit / 8] ^= (uint8_t)mask;
    }
}

int flash_read(int place, uint8_t bytes[NONCES_PLACE])
{
    memcpy(bytes, flash[place], NONCES_PLACE);
    return !reports_error[place];
}

void flash_write(int place, const uint8_t bytes[NONCES_PLACE])
{
    uint8_t erased[NONCES_PLACE];
    memset(erased, 0xff, sizeof erased);
    change(flash[place], erased, 1);
    if (!is_worn)
        change(flash[place], bytes, 0);
}

static void expect(int is_right, const char *what)
{
    if (!is_right && failed++ < 9)
        printf("NOT RIGHT: %s\n", what);
}

/* The board starts and seals messages until its power fails. */
static void run(const struct fotsgure_gcm *gcm, unsigned messages, unsigned bits)
{
    struct nonces nonces;
    uint8_t nonce[FOTSGURE_GCM_NONCE], tag[FOTSGURE_GCM_TAG];
    power = bits;
    if (setjmp(failure))
        return;
    expect(nonces_start(&nonces), "a place is whole after each power cut");
    for (unsigned i = 0; i < messages; i++) {
        expect(nonces_reserve(&nonces) && fotsgure_gcm_seal_next(gcm, &nonces.counter, nonce, NULL, 0, NULL, 0, tag) == FOTSGURE_GCM_DONE,
            "a message is sealed");
        expect(is_first || memcmp(nonce, last, sizeof nonce) > 0, "each nonce is higher than all before");
        is_first = 0;
        memcpy(last, nonce, sizeof nonce);
    }
}

/* Flash has a new key's counter, which begins later with a higher `from`. */
static void begin(uint8_t from)
{
    memset(flash, 0xff, sizeof flash);
    power = ENOUGH;
    expect(nonces_of_new_key(), "a new key's counter is stored");
    for (int i = 1; i < FOTSGURE_GCM_NONCE - 1; i++)
        flash[0][i] = from, flash[0][FOTSGURE_GCM_NONCE + i] = (uint8_t)~from;
    is_first = 1;
}

/* What can't go on is refused: no place is whole, none can be read, flash doesn't keep what is written, no number is left. */
static void refuses(void)
{
    struct nonces nonces;
    power = ENOUGH;
    for (int all = 0; all <= 0xff; all += 0xff) {
        memset(flash, all, sizeof flash);
        expect(!nonces_start(&nonces) && !nonces_reserve(&nonces), "without a whole place there is no nonce");
    }
    begin(0);
    reports_error[0] = 1;
    expect(!nonces_start(&nonces) && !nonces_reserve(&nonces), "a place that can't be read isn't used");
    reports_error[0] = 0;
    is_worn = 1;
    expect(nonces_start(&nonces) && !nonces_reserve(&nonces) && !nonces_of_new_key(), "flash that doesn't keep a number is found");
    is_worn = 0;
    begin(0);
    memset(flash[0], 0xff, FOTSGURE_GCM_NONCE);
    memset(flash[0] + FOTSGURE_GCM_NONCE, 0, FOTSGURE_GCM_NONCE);
    expect(nonces_start(&nonces) && !nonces_reserve(&nonces), "numbers end");
}

int main(void)
{
    static const uint8_t key[16] = {0};
    struct fotsgure_gcm gcm;
    unsigned runs = 0;
    expect(fotsgure_gcm_set_key(&gcm, key, sizeof key) == FOTSGURE_GCM_DONE, "a key");
    for (unsigned cut = 0; cut < 6 * BITS; cut++) {
        for (seed = 0; seed < 8; seed++, runs++) {
            uint32_t order = seed;
            begin(order % 2 ? 0xff : 0);
            run(&gcm, 5 * NONCES_RESERVED, cut);
            for (int i = 0; i < 3; i++)
                run(&gcm, random_below(3 * NONCES_RESERVED), random_below(3 * BITS));
            run(&gcm, 1, ENOUGH);
            seed = order;
        }
    }
    refuses();
    printf("%u runs, each with up to four power cuts: %d not right\n", runs, failed);
    return failed != 0;
}
