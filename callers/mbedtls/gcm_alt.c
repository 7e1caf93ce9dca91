/* mbedtls' GCM (mbedtls/gcm.h, of 2.28 and 3.x) over fotsgure_gcm, for AES alone. Compile mbedtls and this file with MBEDTLS_GCM_ALT.
 *
 * Everything is done by proved calls. mbedtls_gcm_finish gives out the right tag of a message that was decrypted in pieces, so that its
 * caller compares it, without an early exit. mbedtls_gcm_auth_decrypt, which TLS calls, compares the tag before it decrypts. Of tags of 5,
 * 6, 7, 9, 10 and 11 bytes, which SP 800-38D doesn't allow, it compares the first bytes of the right one after it decrypted. */
#include "glue.h"

#if defined(MBEDTLS_GCM_C) && defined(MBEDTLS_GCM_ALT)
#include "mbedtls/constant_time.h"
#include "mbedtls/gcm.h"
#include "mbedtls/platform_util.h"

static int result(enum fotsgure_gcm_status status)
{
    if (status == FOTSGURE_GCM_REFUSED)
        return MBEDTLS_ERR_GCM_AUTH_FAILED;
    return status == FOTSGURE_GCM_DONE ? 0 : MBEDTLS_ERR_GCM_BAD_INPUT;
}

/* (A function, since a compiler for 32 bits warns where it sees that a length is never so long.) */
static int more_than(uint64_t length, uint64_t most)
{
    return length > most;
}

void mbedtls_gcm_init(mbedtls_gcm_context *ctx)
{
    memset(ctx, 0, sizeof *ctx);
}

void mbedtls_gcm_free(mbedtls_gcm_context *ctx)
{
    if (ctx)
        mbedtls_platform_zeroize(ctx, sizeof *ctx);
}

int mbedtls_gcm_setkey(mbedtls_gcm_context *ctx, mbedtls_cipher_id_t cipher, const unsigned char *key, unsigned int keybits)
{
    ctx->begun = 0;
    if (cipher != MBEDTLS_CIPHER_ID_AES)
        return MBEDTLS_ERR_GCM_BAD_INPUT;
    return result(fotsgure_gcm_set_key(&ctx->key, key, fotsgure_key_bytes(keybits)));
}

static int begin(mbedtls_gcm_context *ctx, int mode, const unsigned char *iv, size_t iv_len)
{
    ctx->text = 0;
    ctx->decrypting = mode == MBEDTLS_GCM_DECRYPT;
    const int failed = result(fotsgure_gcm_begin(&ctx->key, &ctx->message, iv, iv_len));
    ctx->begun = !failed;
    return failed;
}

static int additional(mbedtls_gcm_context *ctx, const unsigned char *add, size_t add_len)
{
    /* (mbedtls allows no bytes at any time.) */
    return add_len == 0 ? 0 : result(fotsgure_gcm_additional(&ctx->key, &ctx->message, add, add_len));
}

/* Whether an output begins within its input, so that it would overwrite what hasn't been read: mbedtls refuses that. */
static int ahead(const unsigned char *input, const unsigned char *output, size_t length)
{
    return fotsgure_overlap(input, length, output, length) && (uintptr_t)output > (uintptr_t)input;
}

static int text(mbedtls_gcm_context *ctx, const unsigned char *input, unsigned char *output, size_t length)
{
    if (length == 0)
        return 0;
    if (!ctx->begun || ahead(input, output, length) || more_than(length, FOTSGURE_GCM_MOST - ctx->text))
        return MBEDTLS_ERR_GCM_BAD_INPUT;
    fotsgure_put(output, input, length);
    ctx->text += length;
    return result(ctx->decrypting ? fotsgure_gcm_decrypt_unverified(&ctx->key, &ctx->message, output, length)
                                  : fotsgure_gcm_encrypt(&ctx->key, &ctx->message, output, length));
}

static int finish(mbedtls_gcm_context *ctx, unsigned char *tag, size_t tag_len)
{
    unsigned char whole[FOTSGURE_GCM_TAG];
    if (tag_len < 4 || tag_len > sizeof whole)
        return MBEDTLS_ERR_GCM_BAD_INPUT;
    const int failed = result(ctx->decrypting ? fotsgure_gcm_finish_unverified(&ctx->key, &ctx->message, whole)
                                              : fotsgure_gcm_finish(&ctx->key, &ctx->message, whole));
    ctx->begun = 0;
    if (!failed)
        memcpy(tag, whole, tag_len);
    mbedtls_platform_zeroize(whole, sizeof whole);
    return failed;
}

#if MBEDTLS_VERSION_NUMBER >= 0x03000000
int mbedtls_gcm_starts(mbedtls_gcm_context *ctx, int mode, const unsigned char *iv, size_t iv_len)
{
    return begin(ctx, mode, iv, iv_len);
}

int mbedtls_gcm_update_ad(mbedtls_gcm_context *ctx, const unsigned char *add, size_t add_len)
{
    return additional(ctx, add, add_len);
}

int mbedtls_gcm_update(mbedtls_gcm_context *ctx, const unsigned char *input, size_t input_length, unsigned char *output, size_t output_size,
    size_t *output_length)
{
    if (output_size < input_length)
        return MBEDTLS_ERR_GCM_BUFFER_TOO_SMALL;
    *output_length = input_length;
    return text(ctx, input, output, input_length);
}

int mbedtls_gcm_finish(
    mbedtls_gcm_context *ctx, unsigned char *output, size_t output_size, size_t *output_length, unsigned char *tag, size_t tag_len)
{
    (void)output;
    (void)output_size;
    *output_length = 0;
    return finish(ctx, tag, tag_len);
}
#else
int mbedtls_gcm_starts(mbedtls_gcm_context *ctx, int mode, const unsigned char *iv, size_t iv_len, const unsigned char *add, size_t add_len)
{
    const int failed = begin(ctx, mode, iv, iv_len);
    return failed ? failed : additional(ctx, add, add_len);
}

int mbedtls_gcm_update(mbedtls_gcm_context *ctx, size_t length, const unsigned char *input, unsigned char *output)
{
    return text(ctx, input, output, length);
}

int mbedtls_gcm_finish(mbedtls_gcm_context *ctx, unsigned char *tag, size_t tag_len)
{
    return finish(ctx, tag, tag_len);
}
#endif

int mbedtls_gcm_crypt_and_tag(mbedtls_gcm_context *ctx, int mode, size_t length, const unsigned char *iv, size_t iv_len,
    const unsigned char *add, size_t add_len, const unsigned char *input, unsigned char *output, size_t tag_len, unsigned char *tag)
{
    int failed = begin(ctx, mode, iv, iv_len);
    if (!failed)
        failed = additional(ctx, add, add_len);
    if (!failed)
        failed = text(ctx, input, output, length);
    return failed ? failed : finish(ctx, tag, tag_len);
}

/* Compares the tag, and then decrypts: for tags of the lengths that SP 800-38D allows (5.2.1.2). */
static int decrypt_verified(mbedtls_gcm_context *ctx, size_t length, const unsigned char *iv, size_t iv_len, const unsigned char *add,
    size_t add_len, const unsigned char *tag, size_t tag_len, const unsigned char *input, unsigned char *output)
{
    int failed = begin(ctx, MBEDTLS_GCM_ENCRYPT, iv, iv_len);
    if (!failed)
        failed = additional(ctx, add, add_len);
    if (!failed)
        failed = result(fotsgure_gcm_verify(&ctx->key, &ctx->message, input, length));
    if (!failed)
        failed = result(tag_len == FOTSGURE_GCM_TAG ? fotsgure_gcm_accept(&ctx->key, &ctx->message, tag, tag_len)
                                                    : fotsgure_gcm_accept_short(&ctx->key, &ctx->message, tag_len, tag, tag_len));
    if (!failed) {
        fotsgure_put(output, input, length);
        failed = result(fotsgure_gcm_decrypt(&ctx->key, &ctx->message, output, length));
    }
    fotsgure_gcm_wipe_message(&ctx->message);
    ctx->begun = 0;
    return failed;
}

int mbedtls_gcm_auth_decrypt(mbedtls_gcm_context *ctx, size_t length, const unsigned char *iv, size_t iv_len, const unsigned char *add,
    size_t add_len, const unsigned char *tag, size_t tag_len, const unsigned char *input, unsigned char *output)
{
    unsigned char right[FOTSGURE_GCM_TAG];
    int failed;
    if (tag_len < 4 || tag_len > sizeof right || ahead(input, output, length))
        return MBEDTLS_ERR_GCM_BAD_INPUT;
    if (tag_len == 4 || tag_len == 8 || tag_len >= 12) {
        failed = decrypt_verified(ctx, length, iv, iv_len, add, add_len, tag, tag_len, input, output);
    } else {
        failed = mbedtls_gcm_crypt_and_tag(ctx, MBEDTLS_GCM_DECRYPT, length, iv, iv_len, add, add_len, input, output, tag_len, right);
        if (!failed && mbedtls_ct_memcmp(tag, right, tag_len) != 0)
            failed = MBEDTLS_ERR_GCM_AUTH_FAILED;
        mbedtls_platform_zeroize(right, sizeof right);
    }
    /* As mbedtls does. */
    if (failed == MBEDTLS_ERR_GCM_AUTH_FAILED && length > 0)
        mbedtls_platform_zeroize(output, length);
    return failed;
}

#endif
