/* BearSSL's classes of block ciphers over fotsgure_aes: see fotsgure_bearssl.h.
 *
 * With -DFOTSGURE_BEARSSL_AS=br_aes_ct64, or another of BearSSL's own implementations in C, the names are that implementation's. If the
 * object is linked before BearSSL's library, its programs use this code instead, and nothing else changes. */
#include <string.h>
#include "fotsgure_aes.h"
#include "fotsgure_bearssl.h"

#ifndef FOTSGURE_BEARSSL_AS
#define FOTSGURE_BEARSSL_AS br_aes_fotsgure
#endif
#define JOIN(a, b) a##b
#define JOINED(a, b) JOIN(a, b)
#define NAME(what) JOINED(FOTSGURE_BEARSSL_AS, what)

static void wipe(void *bytes, size_t length)
{
    volatile unsigned char *byte = bytes;
    while (length-- > 0)
        *byte++ = 0;
}

/* BearSSL's functions return nothing. A key of another length than 16, 24 or 32 bytes is a mistake in the program: then there is no key,
 * and zeros replace the data, so that no plain text is sent. */
static void done(enum fotsgure_aes_status status, void *data, size_t length)
{
    if (status != FOTSGURE_AES_DONE)
        wipe(data, length);
}

static void keep_key(unsigned *length, void *key_of_context, const void *key, size_t key_length)
{
    *length = key_length == 16 || key_length == 24 || key_length == 32 ? (unsigned)key_length : 0;
    memcpy(key_of_context, key, *length);
}

/* Makes the schedule of the key that a context has. If it has none, the calls with *aes say so. */
static void expand(struct fotsgure_aes *aes, const void *key, unsigned length)
{
    done(fotsgure_aes_set_key(aes, key, length), NULL, 0);
}

/* Adds to a number of 128 bits, highest byte first. */
static void count_on(unsigned char counter[16], size_t blocks)
{
    unsigned int carry = 0;
    for (int i = 15; i >= 0; i--) {
        carry += counter[i] + (unsigned int)(blocks & 255);
        counter[i] = (unsigned char)carry;
        carry >>= 8;
        blocks >>= 8;
    }
}

static void add_keystream(const struct fotsgure_aes *aes, const unsigned char counter[16], unsigned char *data, size_t length)
{
    struct fotsgure_aes_ctr ctr;
    memcpy(ctr.iv, counter, 16);
    ctr.position = 0;
    done(fotsgure_aes_add_keystream(aes, &ctr, data, length), data, length);
}

/* The chain of a tag. The library encrypts a chain in place, and these data stay as they are: so they are copied, piece by piece. */
static void chain(const struct fotsgure_aes *aes, unsigned char mac[16], const unsigned char *data, size_t length)
{
    struct fotsgure_aes_cbc cbc;
    unsigned char piece[128];
    memcpy(cbc.previous, mac, 16);
    for (size_t count; length > 0; data += count, length -= count) {
        count = length < sizeof piece ? length : sizeof piece;
        memcpy(piece, data, count);
        done(fotsgure_aes_cbc_encrypt(aes, &cbc, piece, count / 16), piece, count);
    }
    memcpy(mac, cbc.previous, 16);
    wipe(piece, sizeof piece);
    wipe(&cbc, sizeof cbc);
}

void NAME(_cbcenc_init)(NAME(_cbcenc_keys) * ctx, const void *key, size_t len)
{
    ctx->vtable = &NAME(_cbcenc_vtable);
    keep_key(&ctx->num_rounds, ctx->skey, key, len);
}

void NAME(_cbcenc_run)(const NAME(_cbcenc_keys) * ctx, void *iv, void *data, size_t len)
{
    struct fotsgure_aes aes;
    struct fotsgure_aes_cbc cbc;
    expand(&aes, ctx->skey, ctx->num_rounds);
    memcpy(cbc.previous, iv, 16);
    done(fotsgure_aes_cbc_encrypt(&aes, &cbc, data, len / 16), data, len);
    memcpy(iv, cbc.previous, 16);
    fotsgure_aes_wipe(&aes);
}

void NAME(_cbcdec_init)(NAME(_cbcdec_keys) * ctx, const void *key, size_t len)
{
    ctx->vtable = &NAME(_cbcdec_vtable);
    keep_key(&ctx->num_rounds, ctx->skey, key, len);
}

void NAME(_cbcdec_run)(const NAME(_cbcdec_keys) * ctx, void *iv, void *data, size_t len)
{
    struct fotsgure_aes aes;
    struct fotsgure_aes_cbc cbc;
    expand(&aes, ctx->skey, ctx->num_rounds);
    memcpy(cbc.previous, iv, 16);
    done(fotsgure_aes_cbc_decrypt(&aes, &cbc, data, len / 16), data, len);
    memcpy(iv, cbc.previous, 16);
    fotsgure_aes_wipe(&aes);
}

void NAME(_ctr_init)(NAME(_ctr_keys) * ctx, const void *key, size_t len)
{
    ctx->vtable = &NAME(_ctr_vtable);
    keep_key(&ctx->num_rounds, ctx->skey, key, len);
}

/* Here the counter has 32 bits, and goes from 2^32 - 1 to 0. The library's has 128, so a call ends there. */
uint32_t NAME(_ctr_run)(const NAME(_ctr_keys) * ctx, const void *iv, uint32_t cc, void *data, size_t len)
{
    struct fotsgure_aes aes;
    unsigned char counter[16], *bytes = data;
    expand(&aes, ctx->skey, ctx->num_rounds);
    memcpy(counter, iv, 12);
    while (len > 0) {
        const uint64_t most = ((UINT64_C(1) << 32) - cc) * 16;
        const size_t count = len < most ? len : (size_t)most;
        for (int i = 0; i < 4; i++)
            counter[12 + i] = (unsigned char)(cc >> (24 - 8 * i));
        add_keystream(&aes, counter, bytes, count);
        cc += (uint32_t)(count / 16 + (count % 16 > 0));
        bytes += count;
        len -= count;
    }
    fotsgure_aes_wipe(&aes);
    return cc;
}

void NAME(_ctrcbc_init)(NAME(_ctrcbc_keys) * ctx, const void *key, size_t len)
{
    ctx->vtable = &NAME(_ctrcbc_vtable);
    keep_key(&ctx->num_rounds, ctx->skey, key, len);
}

void NAME(_ctrcbc_encrypt)(const NAME(_ctrcbc_keys) * ctx, void *ctr, void *cbcmac, void *data, size_t len)
{
    struct fotsgure_aes aes;
    expand(&aes, ctx->skey, ctx->num_rounds);
    add_keystream(&aes, ctr, data, len);
    chain(&aes, cbcmac, data, len);
    fotsgure_aes_wipe(&aes);
    count_on(ctr, len / 16);
}

void NAME(_ctrcbc_decrypt)(const NAME(_ctrcbc_keys) * ctx, void *ctr, void *cbcmac, void *data, size_t len)
{
    struct fotsgure_aes aes;
    expand(&aes, ctx->skey, ctx->num_rounds);
    chain(&aes, cbcmac, data, len);
    add_keystream(&aes, ctr, data, len);
    fotsgure_aes_wipe(&aes);
    count_on(ctr, len / 16);
}

void NAME(_ctrcbc_ctr)(const NAME(_ctrcbc_keys) * ctx, void *ctr, void *data, size_t len)
{
    struct fotsgure_aes aes;
    expand(&aes, ctx->skey, ctx->num_rounds);
    add_keystream(&aes, ctr, data, len);
    fotsgure_aes_wipe(&aes);
    count_on(ctr, len / 16);
}

void NAME(_ctrcbc_mac)(const NAME(_ctrcbc_keys) * ctx, void *cbcmac, const void *data, size_t len)
{
    struct fotsgure_aes aes;
    expand(&aes, ctx->skey, ctx->num_rounds);
    chain(&aes, cbcmac, data, len);
    fotsgure_aes_wipe(&aes);
}

/* (The functions are BearSSL's for contexts of a class, whose first member is the pointer to the class.) */
const br_block_cbcenc_class NAME(_cbcenc_vtable) = {sizeof(NAME(_cbcenc_keys)), 16, 4,
    (void (*)(const br_block_cbcenc_class **, const void *, size_t))NAME(_cbcenc_init),
    (void (*)(const br_block_cbcenc_class *const *, void *, void *, size_t))NAME(_cbcenc_run)};
const br_block_cbcdec_class NAME(_cbcdec_vtable) = {sizeof(NAME(_cbcdec_keys)), 16, 4,
    (void (*)(const br_block_cbcdec_class **, const void *, size_t))NAME(_cbcdec_init),
    (void (*)(const br_block_cbcdec_class *const *, void *, void *, size_t))NAME(_cbcdec_run)};
const br_block_ctr_class NAME(_ctr_vtable) = {sizeof(NAME(_ctr_keys)), 16, 4,
    (void (*)(const br_block_ctr_class **, const void *, size_t))NAME(_ctr_init),
    (uint32_t(*)(const br_block_ctr_class *const *, const void *, uint32_t, void *, size_t))NAME(_ctr_run)};
const br_block_ctrcbc_class NAME(_ctrcbc_vtable) = {sizeof(NAME(_ctrcbc_keys)), 16, 4,
    (void (*)(const br_block_ctrcbc_class **, const void *, size_t))NAME(_ctrcbc_init),
    (void (*)(const br_block_ctrcbc_class *const *, void *, void *, void *, size_t))NAME(_ctrcbc_encrypt),
    (void (*)(const br_block_ctrcbc_class *const *, void *, void *, void *, size_t))NAME(_ctrcbc_decrypt),
    (void (*)(const br_block_ctrcbc_class *const *, void *, void *, size_t))NAME(_ctrcbc_ctr),
    (void (*)(const br_block_ctrcbc_class *const *, void *, const void *, size_t))NAME(_ctrcbc_mac)};
