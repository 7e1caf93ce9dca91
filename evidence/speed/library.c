/* This library as LLVM builds it, and planted engines: two that leave the blocks or the text alone, and one that works twice. With HOW and
   ADD it is another build, whose calls get other names once this file is compiled. */
#include "engine.h"
#include "fotsgure_aes.h"
#include "fotsgure_gcm.h"
#include <string.h>

#ifndef HOW
#define HOW "C library, by LLVM"
#define ADD add_library
#define PLANTED
#endif

/* One struct serves both directions and counter mode. */
static struct fotsgure_aes aes;
static int failed;

static void set_key(enum direction to, const uint8_t *bytes, size_t n)
{
    (void)to;
    failed |= (int)fotsgure_aes_set_key(&aes, bytes, n);
}

static void process(enum direction to, uint8_t *blocks, size_t count)
{
    failed |= (int)(to == ENCRYPT ? fotsgure_aes_encrypt_blocks(&aes, blocks, count)
                                  : fotsgure_aes_decrypt_blocks(&aes, blocks, count));
}

static void stream(const uint8_t *bytes, size_t n, const uint8_t *iv, uint8_t *data, size_t length)
{
    struct fotsgure_aes_ctr counter = {{0}, 0};
    memcpy(counter.iv, iv, sizeof counter.iv);
    failed |= bytes ? (int)fotsgure_aes_add_keystream_with(bytes, n, &counter, data, length)
                    : (int)fotsgure_aes_add_keystream(&aes, &counter, data, length);
}

static struct fotsgure_gcm gcm;

static void gcm_key(const uint8_t *bytes)
{
    failed |= (int)fotsgure_gcm_set_key(&gcm, bytes, 16);
}

static void seal(const struct message *m)
{
    failed |= (int)fotsgure_gcm_seal(&gcm, m->nonce, 12, m->additional, m->extra, m->text, m->length, m->tag);
}

static struct fotsgure_gcm_siv siv;

static void seal_siv(const struct message *m)
{
    failed |= (int)fotsgure_gcm_siv_seal(&siv, m->nonce, m->additional, m->extra, m->text, m->length, m->tag);
}

#ifdef PLANTED
/* Planted: twice the work, on other data first; and none. */
static uint8_t other[16 * 4096];

static void twice_process(enum direction to, uint8_t *blocks, size_t count)
{
    process(to, blocks, count);
    process(to, other, count);
}

static void twice_seal(const struct message *m)
{
    struct message copy = *m;
    copy.text = other;
    seal(&copy);
    seal(m);
}

static void no_process(enum direction to, uint8_t *blocks, size_t count)
{
    (void)to;
    (void)blocks;
    (void)count;
}

static void no_seal(const struct message *m)
{
    memset(m->tag, 0, 16);
}
#endif

void ADD(enum run run)
{
    static const uint8_t siv_key[16] = {7};
    failed |= (int)fotsgure_gcm_siv_set_key(&siv, siv_key, sizeof siv_key);
#ifdef PLANTED
    add(&(struct engine){"this library", HOW, "hybrid", BLOCKS, .stream = stream, GCM, .seal_siv = seal_siv});
    add(&(struct engine){"planted", "works twice", "planted", set_key, twice_process, .gcm_key = gcm_key, .seal = twice_seal});
    add(&(struct engine){"planted", "leaves the blocks alone", "planted", .set_key = set_key, .process = no_process});
    add(&(struct engine){"planted", "leaves the text alone", "planted", .gcm_key = gcm_key, .seal = no_seal});
    (void)run;
#else
    if (run == NO_AES)
        add(&(struct engine){"this library", HOW, "hybrid", BLOCKS, .stream = stream, GCM, .seal_siv = seal_siv});
#endif
}
