/* Random calls of BearSSL's classes for AES in pieces, by fotsgure and by BearSSL's own br_aes_big: the results have to be the same. And a
 * key of a wrong length has to make zeros of the text.
 * usage: compare SEED CALLS */
#include <stdio.h>
#include <stdlib.h>
#include <string.h>
#include "fotsgure_bearssl.h"

#define MOST 5000 /* more than 256 blocks */

static uint64_t state;

struct classes {
    const br_block_cbcenc_class *cbcenc;
    const br_block_cbcdec_class *cbcdec;
    const br_block_ctr_class *ctr;
    const br_block_ctrcbc_class *ctrcbc;
};

static const struct classes ours = {
    &br_aes_fotsgure_cbcenc_vtable, &br_aes_fotsgure_cbcdec_vtable, &br_aes_fotsgure_ctr_vtable, &br_aes_fotsgure_ctrcbc_vtable};
static const struct classes own = {&br_aes_big_cbcenc_vtable, &br_aes_big_cbcdec_vtable, &br_aes_big_ctr_vtable, &br_aes_big_ctrcbc_vtable};

/* What a call gets, and what it writes of that. */
struct call {
    unsigned mode;
    size_t key_length, length, cut;
    unsigned char key[32];

    struct {
        uint32_t counter;
        unsigned char iv[16], mac[16], text[MOST];
    } data;
};

static unsigned draw(unsigned below)
{
    state ^= state << 13;
    state ^= state >> 7;
    state ^= state << 17;
    return (unsigned)(state >> 33) % below;
}

static void fill(unsigned char *bytes, size_t count)
{
    while (count-- > 0)
        *bytes++ = (unsigned char)draw(256);
}

static void piece(const struct classes *by, br_aes_gen_ctrcbc_keys *keys, struct call *call, unsigned char *text, size_t length)
{
    switch (call->mode) {
    case 3: by->ctrcbc->encrypt(&keys->vtable, call->data.iv, call->data.mac, text, length); break;
    case 4: by->ctrcbc->decrypt(&keys->vtable, call->data.iv, call->data.mac, text, length); break;
    case 5: by->ctrcbc->ctr(&keys->vtable, call->data.iv, text, length); break;
    default: by->ctrcbc->mac(&keys->vtable, call->data.mac, text, length);
    }
}

static void run(const struct classes *by, struct call *call)
{
    br_aes_gen_cbcenc_keys cbcenc;
    br_aes_gen_cbcdec_keys cbcdec;
    br_aes_gen_ctr_keys ctr;
    br_aes_gen_ctrcbc_keys ctrcbc;
    by->cbcenc->init(&cbcenc.vtable, call->key, call->key_length);
    by->cbcdec->init(&cbcdec.vtable, call->key, call->key_length);
    by->ctr->init(&ctr.vtable, call->key, call->key_length);
    by->ctrcbc->init(&ctrcbc.vtable, call->key, call->key_length);
    for (size_t done = 0, count; done < call->length; done += count) {
        unsigned char *const text = call->data.text + done;
        count = call->length - done < call->cut ? call->length - done : call->cut;
        if (call->mode == 0)
            by->cbcenc->run(&cbcenc.vtable, call->data.iv, text, count);
        else if (call->mode == 1)
            by->cbcdec->run(&cbcdec.vtable, call->data.iv, text, count);
        else if (call->mode == 2)
            call->data.counter = by->ctr->run(&ctr.vtable, call->data.iv, call->data.counter, text, count);
        else
            piece(by, &ctrcbc, call, text, count);
    }
}

/* All but the last piece have whole blocks, and in counter mode the last one may end anywhere. (Then br_aes_ct64 returns another counter
 * than br_aes_big and we do.) Many counters are about to wrap. */
static struct call drawn(void)
{
    struct call call = {
        .mode = draw(7), .key_length = 16 + 8 * draw(3), .length = draw(draw(8) ? 600 : MOST), .cut = 16 * (1 + draw(draw(8) ? 20 : 400))};
    if (call.mode != 2)
        call.length = call.length / 16 * 16;
    fill(call.key, sizeof call.key);
    fill(call.data.iv, sizeof call.data.iv);
    fill(call.data.mac, sizeof call.data.mac);
    fill(call.data.text, call.length);
    call.data.counter = draw(2) ? draw(1000) : UINT32_MAX - draw(40);
    if (draw(2))
        memset(call.data.iv + draw(16), 255, 1), memset(call.data.iv + 15, 255, 1);
    return call;
}

static int makes_zeros_without_key(void)
{
    static const unsigned char zeros[MOST];
    for (unsigned mode = 0; mode < 6; mode++) {
        struct call call = drawn();
        call.mode = mode;
        call.key_length = 15;
        call.length = 32;
        run(&ours, &call);
        if (memcmp(call.data.text, zeros, call.length) != 0)
            return 0;
    }
    return 1;
}

int main(int argc, char **argv)
{
    if (argc != 3)
        return 2;
    state = strtoull(argv[1], NULL, 10) * UINT64_C(0x9E3779B97F4A7C15) + 1;
    if (!makes_zeros_without_key())
        return puts("a key of 15 bytes encrypts"), 1;
    for (long left = atol(argv[2]); left > 0; left--) {
        struct call by_ours = drawn(), by_own = by_ours;
        run(&ours, &by_ours);
        run(&own, &by_own);
        if (memcmp(&by_ours.data, &by_own.data, sizeof by_own.data) != 0)
            return printf("mode %u, call %ld from the end\n", by_own.mode, left), 1;
    }
    printf("%s calls\n", argv[2]);
    return 0;
}
