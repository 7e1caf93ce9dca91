/* Random calls of wolfSSL's AES in pieces and in place, with wrong tags too, by the callback and by wolfSSL's own code: status and output
 * have to be the same, and each call has to be served by the callback.
 * usage: compare SEED CALLS */
#include <stdint.h>
#include <stdio.h>
#include <stdlib.h>
#include <string.h>
#include "fotsgure_wolfssl.h"
#include <wolfssl/wolfcrypt/aes.h>
#include <wolfssl/wolfcrypt/error-crypt.h>
#include <wolfssl/wolfcrypt/wc_port.h>

#define MOST 600

enum { DEVICE = 7 };

static uint64_t state;
static unsigned served;

static unsigned draw(unsigned below)
{
    state ^= state << 13;
    state ^= state >> 7;
    state ^= state << 17;
    return (unsigned)(state >> 33) % below;
}

static void fill(byte *bytes, size_t count)
{
    while (count-- > 0)
        *bytes++ = (byte)draw(256);
}

static int counted(int device, wc_CryptoInfo *info, void *context)
{
    const int result = fotsgure_wolfssl_callback(device, info, context);
    served += result != CRYPTOCB_UNAVAILABLE;
    return result;
}

/* What both sides get, and what one of them made of it. */
struct call {
    unsigned mode, decrypts, cuts, in_place, changes_tag;
    word32 key_size, iv_size, tag_size, more, size;
    byte key[32], iv[16], additional[MOST], text[MOST];
};

struct answer {
    int status;
    byte out[MOST], tag[16];
};

static void cut(Aes *aes, const struct call *call, const byte *in, struct answer *answer)
{
    answer->status =
        wc_AesSetKey(aes, call->key, call->key_size, call->iv, call->decrypts && call->mode != 2 ? AES_DECRYPTION : AES_ENCRYPTION);
    for (word32 done = 0, count; done < call->size; done += count) {
        count = call->size - done < call->cuts ? call->size - done : call->cuts;
        if (call->mode == 0)
            answer->status |= (call->decrypts ? wc_AesEcbDecrypt : wc_AesEcbEncrypt)(aes, answer->out + done, in + done, count);
        else if (call->mode == 1)
            answer->status |= (call->decrypts ? wc_AesCbcDecrypt : wc_AesCbcEncrypt)(aes, answer->out + done, in + done, count);
        else
            answer->status |= wc_AesCtrEncrypt(aes, answer->out + done, in + done, count);
    }
}

/* A message there and back, whose tag may be changed on the way. */
static void message(Aes *aes, const struct call *call, const byte *in, struct answer *answer)
{
    const int gcm = call->mode == 3;
    answer->status = gcm ? wc_AesGcmSetKey(aes, call->key, call->key_size) : wc_AesCcmSetKey(aes, call->key, call->key_size);
    answer->status |= (gcm ? wc_AesGcmEncrypt : wc_AesCcmEncrypt)(
        aes, answer->out, in, call->size, call->iv, call->iv_size, answer->tag, call->tag_size, call->additional, call->more);
    if (!call->decrypts || answer->status != 0)
        return;
    answer->tag[call->tag_size - 1] ^= (byte)call->changes_tag;
    answer->status = (gcm ? wc_AesGcmDecrypt : wc_AesCcmDecrypt)(
        aes, answer->out, answer->out, call->size, call->iv, call->iv_size, answer->tag, call->tag_size, call->additional, call->more);
    if (gcm && answer->status != 0) /* (Then wolfSSL's own code leaves the text decrypted, and ours leaves it as it was.) */
        memset(answer->out, 0, sizeof answer->out);
}

static void answer_by(int device, const struct call *call, struct answer *answer)
{
    Aes aes;
    const byte *const in = call->in_place ? answer->out : call->text;
    memset(answer, 0, sizeof *answer);
    memcpy(answer->out, call->text, call->in_place ? call->size : 0);
    wc_AesInit(&aes, NULL, device);
    (call->mode < 3 ? cut : message)(&aes, call, in, answer);
    wc_AesFree(&aes);
}

int main(int argc, char **argv)
{
    if (argc != 3 || wolfCrypt_Init() != 0 || wc_CryptoCb_RegisterDevice(DEVICE, counted, NULL) != 0)
        return 2;
    state = strtoull(argv[1], NULL, 10) * UINT64_C(0x9E3779B97F4A7C15) + 1;
    for (long left = atol(argv[2]); left > 0; left--) {
        struct answer ours, own;
        struct call call = {.mode = draw(5),
            .decrypts = draw(2),
            .cuts = draw(2) ? 16 * (1 + draw(9)) : 1 + draw(60),
            .in_place = draw(2),
            .changes_tag = draw(3) == 0 ? 1 + draw(255) : 0,
            .key_size = 16 + 8 * draw(3),
            .tag_size = 12 + 2 * draw(3),
            .more = draw(MOST)};
        call.size = draw(2) ? draw(MOST) : draw(50);
        call.iv_size = call.mode == 3 ? 12 : 7 + draw(7);
        if (call.mode < 2)
            call.size = call.size / 16 * 16, call.cuts = (call.cuts + 15) / 16 * 16;
        fill(call.key, sizeof call.key);
        fill(call.iv, sizeof call.iv);
        fill(call.additional, call.more);
        fill(call.text, call.size);
        const unsigned before = served;
        answer_by(DEVICE, &call, &ours);
        answer_by(INVALID_DEVID, &call, &own);
        if (memcmp(&ours, &own, sizeof own) != 0 || (served == before && call.size > 0)) {
            printf("mode %u, call %ld from the end: status %d and %d\n", call.mode, left, ours.status, own.status);
            return 1;
        }
    }
    printf("%s calls, and the callback served %u\n", argv[2], served);
    return 0;
}
