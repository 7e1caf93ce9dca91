/* mbedtls' key wrap (mbedtls/nist_kw.h, of 2.28 and 3.x) over fotsgure_aes, for AES alone. Compile mbedtls and this file with
 * MBEDTLS_NIST_KW_ALT.
 *
 * Each key is one proved call, from one buffer to another. mbedtls' callers may pass one buffer for both. Then the input is copied to the
 * stack, if it has at most FOTSGURE_MBEDTLS_KW_IN_PLACE bytes. Longer ones are refused, which mbedtls' own code doesn't do. */
#include "glue.h"

#if defined(MBEDTLS_NIST_KW_C) && defined(MBEDTLS_NIST_KW_ALT)
#include "mbedtls/nist_kw.h"
#include "mbedtls/platform_util.h"

#ifndef FOTSGURE_MBEDTLS_KW_IN_PLACE
#define FOTSGURE_MBEDTLS_KW_IN_PLACE 136
#endif

void mbedtls_nist_kw_init(mbedtls_nist_kw_context *ctx)
{
    fotsgure_aes_wipe(&ctx->aes);
}

void mbedtls_nist_kw_free(mbedtls_nist_kw_context *ctx)
{
    if (ctx)
        fotsgure_aes_wipe(&ctx->aes);
}

static int result(enum fotsgure_aes_status status)
{
    if (status == FOTSGURE_AES_REFUSED)
        return MBEDTLS_ERR_CIPHER_AUTH_FAILED;
    return status == FOTSGURE_AES_DONE ? 0 : MBEDTLS_ERR_CIPHER_BAD_INPUT_DATA;
}

int mbedtls_nist_kw_setkey(
    mbedtls_nist_kw_context *ctx, mbedtls_cipher_id_t cipher, const unsigned char *key, unsigned int keybits, const int is_wrap)
{
    (void)is_wrap; /* a struct fotsgure_aes serves both directions */
    if (cipher != MBEDTLS_CIPHER_ID_AES)
        return MBEDTLS_ERR_CIPHER_BAD_INPUT_DATA;
    return result(fotsgure_aes_set_key(&ctx->aes, key, fotsgure_key_bytes(keybits)));
}

/* One key, from one buffer to another of *length bytes. Afterwards *length is how many of these the key has. */
static int process(const struct fotsgure_aes *aes, mbedtls_nist_kw_mode_t mode, int wraps, const unsigned char *input, size_t in_len,
    unsigned char *output, size_t *length)
{
    if (mode == MBEDTLS_KW_MODE_KW)
        return result(wraps ? fotsgure_aes_wrap(aes, input, in_len / 8, output, *length / 8)
                            : fotsgure_aes_unwrap(aes, input, in_len / 8, output, *length / 8));
    return result(wraps ? fotsgure_aes_wrap_padded(aes, input, in_len, output, *length / 8)
                        : fotsgure_aes_unwrap_padded(aes, input, in_len / 8, output, *length / 8, length));
}

/* The same from any buffer to any. */
static int process_any(const struct fotsgure_aes *aes, mbedtls_nist_kw_mode_t mode, int wraps, const unsigned char *input, size_t in_len,
    unsigned char *output, size_t length, size_t *out_len)
{
    unsigned char copy[FOTSGURE_MBEDTLS_KW_IN_PLACE];
    int failed;
    if (!fotsgure_overlap(input, in_len, output, length)) {
        failed = process(aes, mode, wraps, input, in_len, output, &length);
    } else if (in_len > sizeof copy) {
        failed = MBEDTLS_ERR_CIPHER_BAD_INPUT_DATA;
    } else {
        memcpy(copy, input, in_len);
        failed = process(aes, mode, wraps, copy, in_len, output, &length);
        mbedtls_platform_zeroize(copy, sizeof copy);
    }
    if (!failed)
        *out_len = length;
    return failed;
}

int mbedtls_nist_kw_wrap(mbedtls_nist_kw_context *ctx, mbedtls_nist_kw_mode_t mode, const unsigned char *input, size_t in_len,
    unsigned char *output, size_t *out_len, size_t out_size)
{
    *out_len = 0;
    if (in_len > SIZE_MAX - 15 || (mode == MBEDTLS_KW_MODE_KW && in_len % 8 != 0) || out_size < (in_len + 7) / 8 * 8 + 8)
        return MBEDTLS_ERR_CIPHER_BAD_INPUT_DATA;
    return process_any(&ctx->aes, mode, 1, input, in_len, output, (in_len + 7) / 8 * 8 + 8, out_len);
}

int mbedtls_nist_kw_unwrap(mbedtls_nist_kw_context *ctx, mbedtls_nist_kw_mode_t mode, const unsigned char *input, size_t in_len,
    unsigned char *output, size_t *out_len, size_t out_size)
{
    *out_len = 0;
    if (in_len < 16 || in_len % 8 != 0 || out_size < in_len - 8)
        return MBEDTLS_ERR_CIPHER_BAD_INPUT_DATA;
    return process_any(&ctx->aes, mode, 0, input, in_len, output, in_len - 8, out_len);
}

#endif
