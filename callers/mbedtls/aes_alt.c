/* mbedtls' AES (mbedtls/aes.h, of 2.28 and 3.x) over fotsgure_aes. Compile mbedtls and this file with MBEDTLS_AES_ALT.
 *
 * Proved calls do ECB, CBC and whole blocks of CTR. The rest is C around calls that encrypt or decrypt blocks: XTS, CFB, OFB, and the
 * blocks of CTR of which mbedtls' caller uses a part. */
#include "glue.h"

#if defined(MBEDTLS_AES_C) && defined(MBEDTLS_AES_ALT)
#include "mbedtls/aes.h"
#include "mbedtls/platform_util.h"

/* How many blocks XTS gives to a call; their tweaks are on the stack. */
#ifndef FOTSGURE_MBEDTLS_XTS_BLOCKS
#define FOTSGURE_MBEDTLS_XTS_BLOCKS 16
#endif

static int known(int mode)
{
    return mode == MBEDTLS_AES_ENCRYPT || mode == MBEDTLS_AES_DECRYPT;
}

static int has_key(const mbedtls_aes_context *ctx)
{
    return fotsgure_aes_key_length(&ctx->aes) != 0;
}

static int result(enum fotsgure_aes_status status)
{
    return status == FOTSGURE_AES_DONE ? 0 : MBEDTLS_ERR_AES_BAD_INPUT_DATA;
}

/* Encrypts or decrypts in place. */
static int blocks(const mbedtls_aes_context *ctx, int mode, unsigned char *bytes, size_t count)
{
    return result(mode == MBEDTLS_AES_ENCRYPT ? fotsgure_aes_encrypt_blocks(&ctx->aes, bytes, count)
                                              : fotsgure_aes_decrypt_blocks(&ctx->aes, bytes, count));
}

void mbedtls_aes_init(mbedtls_aes_context *ctx)
{
    fotsgure_aes_wipe(&ctx->aes);
}

void mbedtls_aes_free(mbedtls_aes_context *ctx)
{
    if (ctx)
        fotsgure_aes_wipe(&ctx->aes);
}

int mbedtls_aes_setkey_enc(mbedtls_aes_context *ctx, const unsigned char *key, unsigned int keybits)
{
    return fotsgure_aes_set_key(&ctx->aes, key, fotsgure_key_bytes(keybits)) == FOTSGURE_AES_DONE ? 0 : MBEDTLS_ERR_AES_INVALID_KEY_LENGTH;
}

#if !defined(MBEDTLS_BLOCK_CIPHER_NO_DECRYPT)
int mbedtls_aes_setkey_dec(mbedtls_aes_context *ctx, const unsigned char *key, unsigned int keybits)
{
    return mbedtls_aes_setkey_enc(ctx, key, keybits);
}
#endif

int mbedtls_aes_crypt_ecb(mbedtls_aes_context *ctx, int mode, const unsigned char input[16], unsigned char output[16])
{
    if (!known(mode) || !has_key(ctx))
        return MBEDTLS_ERR_AES_BAD_INPUT_DATA;
    fotsgure_put(output, input, 16);
    return blocks(ctx, mode, output, 1);
}

int mbedtls_internal_aes_encrypt(mbedtls_aes_context *ctx, const unsigned char input[16], unsigned char output[16])
{
    return mbedtls_aes_crypt_ecb(ctx, MBEDTLS_AES_ENCRYPT, input, output);
}

#if !defined(MBEDTLS_BLOCK_CIPHER_NO_DECRYPT)
int mbedtls_internal_aes_decrypt(mbedtls_aes_context *ctx, const unsigned char input[16], unsigned char output[16])
{
    return mbedtls_aes_crypt_ecb(ctx, MBEDTLS_AES_DECRYPT, input, output);
}
#endif

#if MBEDTLS_VERSION_NUMBER < 0x03000000 && !defined(MBEDTLS_DEPRECATED_REMOVED)
void mbedtls_aes_encrypt(mbedtls_aes_context *ctx, const unsigned char input[16], unsigned char output[16])
{
    (void)mbedtls_aes_crypt_ecb(ctx, MBEDTLS_AES_ENCRYPT, input, output);
}

void mbedtls_aes_decrypt(mbedtls_aes_context *ctx, const unsigned char input[16], unsigned char output[16])
{
    (void)mbedtls_aes_crypt_ecb(ctx, MBEDTLS_AES_DECRYPT, input, output);
}
#endif

#if defined(MBEDTLS_CIPHER_MODE_CBC)
int mbedtls_aes_crypt_cbc(
    mbedtls_aes_context *ctx, int mode, size_t length, unsigned char iv[16], const unsigned char *input, unsigned char *output)
{
    struct fotsgure_aes_cbc cbc;
    if (!known(mode))
        return MBEDTLS_ERR_AES_BAD_INPUT_DATA;
    if (length % 16 != 0)
        return MBEDTLS_ERR_AES_INVALID_INPUT_LENGTH;
    if (!has_key(ctx))
        return MBEDTLS_ERR_AES_BAD_INPUT_DATA;
    memcpy(cbc.previous, iv, 16);
    fotsgure_put(output, input, length);
    const int failed = result(mode == MBEDTLS_AES_ENCRYPT ? fotsgure_aes_cbc_encrypt(&ctx->aes, &cbc, output, length / 16)
                                                          : fotsgure_aes_cbc_decrypt(&ctx->aes, &cbc, output, length / 16));
    memcpy(iv, cbc.previous, 16);
    return failed;
}
#endif

#if defined(MBEDTLS_CIPHER_MODE_CTR)
/* Adds to a number of 128 bits, highest byte first. */
static void count_on(unsigned char counter[16], size_t blocks_more)
{
    unsigned int carry = 0;
    for (int i = 15; i >= 0; i--) {
        carry += counter[i] + (unsigned int)(blocks_more & 255);
        counter[i] = (unsigned char)carry;
        carry >>= 8;
        blocks_more >>= 8;
    }
}

/* Whole blocks in place. mbedtls' tests want the keystream of the last block in stream_block, even if all of it was used. */
static int add_whole_blocks(
    const mbedtls_aes_context *ctx, unsigned char nonce_counter[16], unsigned char stream_block[16], unsigned char *bytes, size_t length)
{
    struct fotsgure_aes_ctr ctr = {{0}, 0};
    memcpy(ctr.iv, nonce_counter, 16);
    memcpy(stream_block, bytes + length - 16, 16);
    const int failed = result(fotsgure_aes_add_keystream(&ctx->aes, &ctr, bytes, length));
    fotsgure_add(stream_block, bytes + length - 16, 16);
    count_on(nonce_counter, length / 16);
    return failed;
}

int mbedtls_aes_crypt_ctr(mbedtls_aes_context *ctx, size_t length, size_t *nc_off, unsigned char nonce_counter[16],
    unsigned char stream_block[16], const unsigned char *input, unsigned char *output)
{
    size_t used = *nc_off;
    int failed = 0;
    if (used > 15 || !has_key(ctx))
        return MBEDTLS_ERR_AES_BAD_INPUT_DATA;
    fotsgure_put(output, input, length);
    /* First the rest of the block of the call before. */
    for (; used > 0 && length > 0; used = (used + 1) & 15, length--)
        *output++ ^= stream_block[used];
    const size_t whole = length / 16 * 16;
    if (whole > 0)
        failed = add_whole_blocks(ctx, nonce_counter, stream_block, output, whole);
    if (length > whole) {
        memcpy(stream_block, nonce_counter, 16);
        failed |= blocks(ctx, MBEDTLS_AES_ENCRYPT, stream_block, 1);
        count_on(nonce_counter, 1);
        used = length - whole;
        fotsgure_add(output + whole, stream_block, used);
    }
    *nc_off = used;
    return failed;
}
#endif

#if defined(MBEDTLS_CIPHER_MODE_CFB)
int mbedtls_aes_crypt_cfb128(mbedtls_aes_context *ctx, int mode, size_t length, size_t *iv_off, unsigned char iv[16],
    const unsigned char *input, unsigned char *output)
{
    size_t used = *iv_off;
    if (!known(mode) || used > 15)
        return MBEDTLS_ERR_AES_BAD_INPUT_DATA;
    for (; length > 0; length--, used = (used + 1) & 15) {
        const unsigned char byte = *input++;
        if (used == 0 && blocks(ctx, MBEDTLS_AES_ENCRYPT, iv, 1) != 0)
            return MBEDTLS_ERR_AES_BAD_INPUT_DATA;
        *output = (unsigned char)(byte ^ iv[used]);
        iv[used] = mode == MBEDTLS_AES_ENCRYPT ? *output : byte;
        output++;
    }
    *iv_off = used;
    return 0;
}

int mbedtls_aes_crypt_cfb8(
    mbedtls_aes_context *ctx, int mode, size_t length, unsigned char iv[16], const unsigned char *input, unsigned char *output)
{
    unsigned char block[16];
    if (!known(mode) || !has_key(ctx))
        return MBEDTLS_ERR_AES_BAD_INPUT_DATA;
    int failed = 0;
    for (; length > 0; length--) {
        const unsigned char byte = *input++;
        memcpy(block, iv, 16);
        failed |= blocks(ctx, MBEDTLS_AES_ENCRYPT, block, 1);
        *output = (unsigned char)(byte ^ block[0]);
        memmove(iv, iv + 1, 15);
        iv[15] = mode == MBEDTLS_AES_ENCRYPT ? *output : byte;
        output++;
    }
    mbedtls_platform_zeroize(block, sizeof block);
    return failed;
}
#endif

#if defined(MBEDTLS_CIPHER_MODE_OFB)
int mbedtls_aes_crypt_ofb(
    mbedtls_aes_context *ctx, size_t length, size_t *iv_off, unsigned char iv[16], const unsigned char *input, unsigned char *output)
{
    size_t used = *iv_off;
    if (used > 15)
        return MBEDTLS_ERR_AES_BAD_INPUT_DATA;
    for (; length > 0; length--, used = (used + 1) & 15) {
        if (used == 0 && blocks(ctx, MBEDTLS_AES_ENCRYPT, iv, 1) != 0)
            return MBEDTLS_ERR_AES_BAD_INPUT_DATA;
        *output++ = (unsigned char)(*input++ ^ iv[used]);
    }
    *iv_off = used;
    return 0;
}
#endif

#if defined(MBEDTLS_CIPHER_MODE_XTS)
void mbedtls_aes_xts_init(mbedtls_aes_xts_context *ctx)
{
    mbedtls_aes_init(&ctx->crypt);
    mbedtls_aes_init(&ctx->tweak);
}

void mbedtls_aes_xts_free(mbedtls_aes_xts_context *ctx)
{
    if (ctx) {
        mbedtls_aes_free(&ctx->crypt);
        mbedtls_aes_free(&ctx->tweak);
    }
}

int mbedtls_aes_xts_setkey_enc(mbedtls_aes_xts_context *ctx, const unsigned char *key, unsigned int keybits)
{
    if (keybits != 256 && keybits != 512)
        return MBEDTLS_ERR_AES_INVALID_KEY_LENGTH;
    const int failed = mbedtls_aes_setkey_enc(&ctx->tweak, key + keybits / 16, keybits / 2);
    return failed ? failed : mbedtls_aes_setkey_enc(&ctx->crypt, key, keybits / 2);
}

int mbedtls_aes_xts_setkey_dec(mbedtls_aes_xts_context *ctx, const unsigned char *key, unsigned int keybits)
{
    return mbedtls_aes_xts_setkey_enc(ctx, key, keybits);
}

/* The next tweak: multiplies by x (IEEE 1619, 5.2), without a branch. */
static void double_tweak(unsigned char next[16], const unsigned char tweak[16])
{
    unsigned int carry = (0U - (unsigned int)(tweak[15] >> 7)) & 0x87;
    for (int i = 0; i < 16; i++) {
        const unsigned int doubled = (unsigned int)tweak[i] << 1;
        next[i] = (unsigned char)(doubled ^ carry);
        carry = doubled >> 8;
    }
}

/* Blocks in place, each under the tweak at its place. */
static int tweaked(const mbedtls_aes_xts_context *ctx, int mode, const unsigned char *tweaks, unsigned char *bytes, size_t count)
{
    fotsgure_add(bytes, tweaks, count * 16);
    const int failed = blocks(&ctx->crypt, mode, bytes, count);
    fotsgure_add(bytes, tweaks, count * 16);
    return failed;
}

/* The last whole block and the `rest` bytes behind it, which are fewer than a block (ciphertext stealing, 5.3.2 and 5.4.2). tweaks[0..16]
 * is the tweak of the last whole block. */
static int steal(const mbedtls_aes_xts_context *ctx, int mode, unsigned char tweaks[32], unsigned char *bytes, size_t rest)
{
    const size_t first = mode == MBEDTLS_AES_ENCRYPT ? 0 : 16;
    double_tweak(tweaks + 16, tweaks);
    int failed = tweaked(ctx, mode, tweaks + first, bytes, 1);
    for (size_t i = 0; i < rest; i++) {
        const unsigned char byte = bytes[16 + i];
        bytes[16 + i] = bytes[i];
        bytes[i] = byte;
    }
    failed |= tweaked(ctx, mode, tweaks + (16 - first), bytes, 1);
    return failed;
}

int mbedtls_aes_crypt_xts(mbedtls_aes_xts_context *ctx, int mode, size_t length, const unsigned char data_unit[16],
    const unsigned char *input, unsigned char *output)
{
    unsigned char tweaks[(FOTSGURE_MBEDTLS_XTS_BLOCKS + 1) * 16];
    const size_t rest = length % 16;
    if (!known(mode))
        return MBEDTLS_ERR_AES_BAD_INPUT_DATA;
    if (length < 16 || length > ((size_t)1 << 20) * 16)
        return MBEDTLS_ERR_AES_INVALID_INPUT_LENGTH;
    if (!has_key(&ctx->crypt) || !has_key(&ctx->tweak))
        return MBEDTLS_ERR_AES_BAD_INPUT_DATA;
    fotsgure_put(output, input, length);
    memcpy(tweaks, data_unit, 16);
    int failed = blocks(&ctx->tweak, MBEDTLS_AES_ENCRYPT, tweaks, 1);
    for (size_t left = length / 16 - (rest > 0); left > 0;) {
        const size_t count = left < FOTSGURE_MBEDTLS_XTS_BLOCKS ? left : FOTSGURE_MBEDTLS_XTS_BLOCKS;
        for (size_t i = 0; i < count; i++)
            double_tweak(tweaks + (i + 1) * 16, tweaks + i * 16);
        failed |= tweaked(ctx, mode, tweaks, output, count);
        memcpy(tweaks, tweaks + count * 16, 16);
        output += count * 16;
        left -= count;
    }
    if (rest > 0)
        failed |= steal(ctx, mode, tweaks, output, rest);
    mbedtls_platform_zeroize(tweaks, sizeof tweaks);
    return failed;
}
#endif

#endif
