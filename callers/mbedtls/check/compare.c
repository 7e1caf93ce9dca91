/* Random calls of mbedtls' AES, GCM, CCM and key wrap, in pieces and in place, with wrong tags too. It prints a sum of what each returned
 * and wrote: built over fotsgure and over mbedtls' own code, it has to print the same.
 * usage: compare SEED CALLS */
#include <stdint.h>
#include <stdio.h>
#include <stdlib.h>
#include <string.h>
#include "mbedtls/aes.h"
#include "mbedtls/ccm.h"
#include "mbedtls/gcm.h"
#include "mbedtls/nist_kw.h"
#include "mbedtls/version.h"

#define MOST 5000 /* more than 256 blocks */
static uint64_t state, sum;
static unsigned char key[64], text[MOST], out[MOST + 32], additional[MOST], iv[64], tag[16];
static unsigned bits;
static size_t length, more; /* bytes of text, and of additional data */

static unsigned draw(unsigned below)
{
    state ^= state << 13;
    state ^= state >> 7;
    state ^= state << 17;
    return (unsigned)(state >> 33) % below;
}

static size_t draw_length(void)
{
    const unsigned below[] = {50, 50, 50, 600, 600, 600, 600, MOST};
    return draw(below[draw(8)]);
}

static void fill(unsigned char *bytes, size_t count)
{
    while (count-- > 0)
        *bytes++ = (unsigned char)draw(256);
}

static void add(const void *bytes, size_t count)
{
    const unsigned char *byte = bytes;
    for (; count > 0; count--)
        sum = (sum ^ *byte++) * UINT64_C(1099511628211);
}

static void add_result(int result)
{
    add(&result, sizeof result);
}

/* Changes every third string, by chance. */
static void change(unsigned char *bytes, size_t count)
{
    if (draw(3) == 0)
        bytes[draw((unsigned)count)] ^= (unsigned char)(1 + draw(255));
}

/* Where the text is: in `out`, if the call is to be in place, or elsewhere. */
static const unsigned char *input(void)
{
    if (draw(2) == 0)
        return text;
    memcpy(out, text, length);
    return out;
}

static size_t piece(size_t left)
{
    const size_t count = draw(3) ? draw(40) : draw_length();
    return count < left ? count : left;
}

static void aes(void)
{
    mbedtls_aes_context aes;
    const unsigned mode = draw(7);
    const int direction = (int)draw(2);
    unsigned char stream[16] = {0};
    size_t used = 0;
    mbedtls_aes_init(&aes);
    add_result(
        direction == MBEDTLS_AES_DECRYPT && mode < 2 ? mbedtls_aes_setkey_dec(&aes, key, bits) : mbedtls_aes_setkey_enc(&aes, key, bits));
    if (draw(3) == 0)
        memset(iv, 255, 14 + draw(3));
    if (mode < 2)
        length = length / 16 * 16;
    const unsigned char *from = input();
    for (size_t done = 0, count; done < length; done += count) {
        count = mode == 0 ? 16 : mode == 1 ? (piece(length - done) + 15) / 16 * 16 : piece(length - done);
        switch (mode) {
        case 0: add_result(mbedtls_aes_crypt_ecb(&aes, direction, from + done, out + done)); break;
        case 1: add_result(mbedtls_aes_crypt_cbc(&aes, direction, count, iv, from + done, out + done)); break;
        case 2: add_result(mbedtls_aes_crypt_cfb128(&aes, direction, count, &used, iv, from + done, out + done)); break;
        case 3: add_result(mbedtls_aes_crypt_cfb8(&aes, direction, count, iv, from + done, out + done)); break;
        case 4: add_result(mbedtls_aes_crypt_ofb(&aes, count, &used, iv, from + done, out + done)); break;
        default:
            add_result(mbedtls_aes_crypt_ctr(&aes, count, &used, iv, stream, from + done, out + done));
            add(stream + used, used > 0 ? 16 - used : 0);
        }
        add(&used, sizeof used);
        add(iv, 16);
    }
    add(out, length);
    mbedtls_aes_free(&aes);
}

/* (In place mbedtls' own code is wrong, if a rest follows the last whole block.) */
static void xts(void)
{
    mbedtls_aes_xts_context xts;
    const int direction = (int)draw(2);
    const unsigned both = draw(2) ? 256 : 512;
    mbedtls_aes_xts_init(&xts);
    add_result(direction ? mbedtls_aes_xts_setkey_enc(&xts, key, both) : mbedtls_aes_xts_setkey_dec(&xts, key, both));
    const unsigned char *from = length % 16 == 0 ? input() : text;
    add_result(mbedtls_aes_crypt_xts(&xts, direction, length, iv, from, out));
    add(out, length < 16 ? 0 : length);
    mbedtls_aes_xts_free(&xts);
}

/* A message in one call, and if it was encrypted, back again. */
static void gcm_whole(mbedtls_gcm_context *gcm, int direction, size_t iv_length, size_t tag_length)
{
    add_result(mbedtls_gcm_crypt_and_tag(gcm, direction, length, iv, iv_length, additional, more, input(), out, tag_length, tag));
    add(tag, tag_length);
    add(out, length);
    if (direction != MBEDTLS_GCM_ENCRYPT)
        return;
    change(tag, tag_length);
    memcpy(text, out, length);
    add_result(mbedtls_gcm_auth_decrypt(gcm, length, iv, iv_length, additional, more, tag, tag_length, input(), out));
    add(out, length);
}

#if MBEDTLS_VERSION_NUMBER >= 0x03000000
static void gcm_pieces(mbedtls_gcm_context *gcm, int direction, size_t iv_length, size_t tag_length)
{
    size_t wrote;
    const unsigned char *from = input();
    add_result(mbedtls_gcm_starts(gcm, direction, iv, iv_length));
    for (size_t done = 0, count; done < more; done += count)
        add_result(mbedtls_gcm_update_ad(gcm, additional + done, count = piece(more - done)));
    for (size_t done = 0, count; done < length; done += count)
        add_result(mbedtls_gcm_update(gcm, from + done, count = piece(length - done), out + done, length - done, &wrote));
    add_result(mbedtls_gcm_finish(gcm, NULL, 0, &wrote, tag, tag_length));
    add(tag, tag_length);
    add(out, length);
}

static void ccm_pieces(mbedtls_ccm_context *ccm, size_t iv_length, size_t tag_length)
{
    const int mode = (int)draw(2) + (tag_length == 0 ? 2 : 0);
    const size_t added = tag_length == 0 ? 0 : more;
    const size_t announced = draw(20) ? length : length + 65536; /* too long, if the nonce has 13 bytes, or else more than comes */
    const unsigned char *from = input();
    size_t wrote;
    if (draw(2)) {
        add_result(mbedtls_ccm_starts(ccm, mode, iv, iv_length));
        add_result(mbedtls_ccm_set_lengths(ccm, added, announced, tag_length));
    } else {
        add_result(mbedtls_ccm_set_lengths(ccm, added, announced, tag_length));
        add_result(mbedtls_ccm_starts(ccm, mode, iv, iv_length));
    }
    for (size_t done = 0, count; done < added; done += count)
        add_result(mbedtls_ccm_update_ad(ccm, additional + done, count = piece(added - done)));
    for (size_t done = 0, count; done < length; done += count)
        add_result(mbedtls_ccm_update(ccm, from + done, count = piece(length - done), out + done, length - done, &wrote));
    add_result(mbedtls_ccm_finish(ccm, tag, tag_length));
    add(tag, tag_length);
    add(out, length);
}
#else
/* (In 2.28 all pieces but the last have whole blocks, and CCM has none.) */
static void gcm_pieces(mbedtls_gcm_context *gcm, int direction, size_t iv_length, size_t tag_length)
{
    const unsigned char *from = input();
    add_result(mbedtls_gcm_starts(gcm, direction, iv, iv_length, additional, more));
    for (size_t done = 0, count; done < length; done += count) {
        count = piece(length - done) / 16 * 16;
        if (count == 0)
            count = length - done;
        add_result(mbedtls_gcm_update(gcm, count, from + done, out + done));
    }
    add_result(mbedtls_gcm_finish(gcm, tag, tag_length));
    add(tag, tag_length);
    add(out, length);
}
#endif

static void gcm(void)
{
    mbedtls_gcm_context gcm;
    const int direction = (int)draw(2);
    const size_t iv_length = draw(2) ? 12 : 1 + draw(60), tag_length = 4 + draw(13);
    mbedtls_gcm_init(&gcm);
    add_result(mbedtls_gcm_setkey(&gcm, MBEDTLS_CIPHER_ID_AES, key, bits));
    (draw(2) ? gcm_whole : gcm_pieces)(&gcm, direction, iv_length, tag_length);
    mbedtls_gcm_free(&gcm);
}

static void ccm_whole(mbedtls_ccm_context *ccm, size_t iv_length, size_t tag_length, int star)
{
    add_result((star ? mbedtls_ccm_star_encrypt_and_tag : mbedtls_ccm_encrypt_and_tag)(
        ccm, length, iv, iv_length, additional, more, input(), out, tag, tag_length));
    add(tag, tag_length);
    add(out, length);
    if (tag_length > 0)
        change(tag, tag_length);
    memcpy(text, out, length);
    add_result((star ? mbedtls_ccm_star_auth_decrypt : mbedtls_ccm_auth_decrypt)(
        ccm, length, iv, iv_length, additional, more, input(), out, tag, tag_length));
    add(out, length);
}

static void ccm(void)
{
    mbedtls_ccm_context ccm;
    const int star = draw(4) == 0;
    const size_t iv_length = 7 + draw(7), tag_length = star && draw(2) ? 0 : 4 + 2 * draw(7);
    mbedtls_ccm_init(&ccm);
    add_result(mbedtls_ccm_setkey(&ccm, MBEDTLS_CIPHER_ID_AES, key, bits));
#if MBEDTLS_VERSION_NUMBER >= 0x03000000
    if (draw(2))
        ccm_pieces(&ccm, iv_length, tag_length);
    else
#endif
        ccm_whole(&ccm, iv_length, tag_length, star);
    mbedtls_ccm_free(&ccm);
}

static void wrap(void)
{
    mbedtls_nist_kw_context kw;
    const mbedtls_nist_kw_mode_t mode = draw(2) ? MBEDTLS_KW_MODE_KW : MBEDTLS_KW_MODE_KWP;
    size_t wrapped = 0, unwrapped = 0;
    length = mode == MBEDTLS_KW_MODE_KW ? 16 + 8 * draw(20) : 1 + draw(150);
    mbedtls_nist_kw_init(&kw);
    add_result(mbedtls_nist_kw_setkey(&kw, MBEDTLS_CIPHER_ID_AES, key, bits, 1));
    add_result(mbedtls_nist_kw_wrap(&kw, mode, text, length, out, &wrapped, sizeof out));
    add(out, wrapped);
    change(out, wrapped);
    add_result(mbedtls_nist_kw_setkey(&kw, MBEDTLS_CIPHER_ID_AES, key, bits, 0));
    memset(text, 0, sizeof text);
    add_result(mbedtls_nist_kw_unwrap(&kw, mode, out, wrapped, text, &unwrapped, sizeof text));
    add(text, unwrapped);
    mbedtls_nist_kw_free(&kw);
}

int main(int argc, char **argv)
{
    if (argc != 3)
        return 2;
    state = strtoull(argv[1], NULL, 10) * UINT64_C(0x9E3779B97F4A7C15) + 1;
    for (long left = atol(argv[2]); left > 0; left--) {
        void (*const all[])(void) = {aes, aes, xts, gcm, gcm, ccm, ccm, wrap};
        const unsigned which = draw(8);
        sum = UINT64_C(14695981039346656037);
        bits = 128 + 64 * draw(3);
        length = draw_length();
        more = draw_length();
        fill(key, sizeof key);
        fill(text, sizeof text);
        fill(additional, sizeof additional);
        fill(iv, sizeof iv);
        memset(out, 0, sizeof out);
        memset(tag, 0, sizeof tag);
        all[which]();
        printf("%u %u %016llx\n", which, bits, (unsigned long long)sum);
    }
    return 0;
}
