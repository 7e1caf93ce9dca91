/* mbedtls' CCM (mbedtls/ccm.h, of 2.28 and 3.x) over fotsgure_aes, for AES alone. Compile mbedtls and this file with MBEDTLS_CCM_ALT.
 *
 * A message in one call is one proved call. The library has no CCM in pieces: a message in pieces, which mbedtls has since 3.0, is C
 * around proved calls of CBC and counter mode. So is CCM* without a tag. */
#include "glue.h"

#if defined(MBEDTLS_CCM_C) && defined(MBEDTLS_CCM_ALT)
#include "mbedtls/ccm.h"
#include "mbedtls/error.h"
#include "mbedtls/platform_util.h"

/* (mbedtls has this limit. fotsgure_aes has none.) */
#define MOST_ADDITIONAL 0xFEFFU

void mbedtls_ccm_init(mbedtls_ccm_context *ctx)
{
    memset(ctx, 0, sizeof *ctx);
}

void mbedtls_ccm_free(mbedtls_ccm_context *ctx)
{
    if (ctx)
        mbedtls_platform_zeroize(ctx, sizeof *ctx);
}

static int result(enum fotsgure_aes_status status)
{
    if (status == FOTSGURE_AES_REFUSED)
        return MBEDTLS_ERR_CCM_AUTH_FAILED;
    return status == FOTSGURE_AES_DONE ? 0 : MBEDTLS_ERR_CCM_BAD_INPUT;
}

int mbedtls_ccm_setkey(mbedtls_ccm_context *ctx, mbedtls_cipher_id_t cipher, const unsigned char *key, unsigned int keybits)
{
    if (cipher != MBEDTLS_CIPHER_ID_AES)
        return MBEDTLS_ERR_CCM_BAD_INPUT;
    return result(fotsgure_aes_set_key(&ctx->aes, key, fotsgure_key_bytes(keybits)));
}

/* Whether a text is longer than its nonce allows: its length has to fit into the other bytes of a block. */
static int too_long(size_t length, size_t iv_len)
{
    const size_t bytes = 15 - iv_len;
    return bytes < sizeof length && length >> (8 * bytes) != 0;
}

static int is_tag_length(size_t tag_len)
{
    return tag_len != 2 && tag_len <= 16 && tag_len % 2 == 0;
}

static int refused(const mbedtls_ccm_context *ctx, size_t length, size_t iv_len, size_t add_len, size_t tag_len)
{
    return iv_len < 7 || iv_len > 13 || add_len > MOST_ADDITIONAL || !is_tag_length(tag_len) || too_long(length, iv_len) ||
        fotsgure_aes_key_length(&ctx->aes) == 0;
}

/* The counter block with number 1, which encrypts the first block of a text. */
static void first_counter(struct fotsgure_aes_ctr *ctr, const unsigned char *iv, size_t iv_len)
{
    memset(ctr, 0, sizeof *ctr);
    ctr->iv[0] = (uint8_t)(14 - iv_len);
    memcpy(ctr->iv + 1, iv, iv_len);
    ctr->iv[15] = 1;
}

/* CCM* without a tag: counter mode, in place and in both directions. */
static int without_tag(const mbedtls_ccm_context *ctx, size_t length, const unsigned char *iv, size_t iv_len, unsigned char *text)
{
    struct fotsgure_aes_ctr ctr;
    first_counter(&ctr, iv, iv_len);
    return result(fotsgure_aes_add_keystream(&ctx->aes, &ctr, text, length));
}

int mbedtls_ccm_star_encrypt_and_tag(mbedtls_ccm_context *ctx, size_t length, const unsigned char *iv, size_t iv_len,
    const unsigned char *add, size_t add_len, const unsigned char *input, unsigned char *output, unsigned char *tag, size_t tag_len)
{
    if (refused(ctx, length, iv_len, add_len, tag_len))
        return MBEDTLS_ERR_CCM_BAD_INPUT;
    fotsgure_put(output, input, length);
    return tag_len == 0 ? without_tag(ctx, length, iv, iv_len, output)
                        : result(fotsgure_aes_ccm_seal(&ctx->aes, iv, iv_len, add, add_len, output, length, tag, tag_len));
}

int mbedtls_ccm_encrypt_and_tag(mbedtls_ccm_context *ctx, size_t length, const unsigned char *iv, size_t iv_len, const unsigned char *add,
    size_t add_len, const unsigned char *input, unsigned char *output, unsigned char *tag, size_t tag_len)
{
    return tag_len == 0 ? MBEDTLS_ERR_CCM_BAD_INPUT
                        : mbedtls_ccm_star_encrypt_and_tag(ctx, length, iv, iv_len, add, add_len, input, output, tag, tag_len);
}

int mbedtls_ccm_star_auth_decrypt(mbedtls_ccm_context *ctx, size_t length, const unsigned char *iv, size_t iv_len, const unsigned char *add,
    size_t add_len, const unsigned char *input, unsigned char *output, const unsigned char *tag, size_t tag_len)
{
    if (refused(ctx, length, iv_len, add_len, tag_len))
        return MBEDTLS_ERR_CCM_BAD_INPUT;
    fotsgure_put(output, input, length);
    if (tag_len == 0)
        return without_tag(ctx, length, iv, iv_len, output);
    const int failed = result(fotsgure_aes_ccm_open(&ctx->aes, iv, iv_len, add, add_len, output, length, tag, tag_len));
    if (failed && length > 0)
        mbedtls_platform_zeroize(output, length); /* as mbedtls does */
    return failed;
}

int mbedtls_ccm_auth_decrypt(mbedtls_ccm_context *ctx, size_t length, const unsigned char *iv, size_t iv_len, const unsigned char *add,
    size_t add_len, const unsigned char *input, unsigned char *output, const unsigned char *tag, size_t tag_len)
{
    return tag_len == 0 ? MBEDTLS_ERR_CCM_BAD_INPUT
                        : mbedtls_ccm_star_auth_decrypt(ctx, length, iv, iv_len, add, add_len, input, output, tag, tag_len);
}

#if MBEDTLS_VERSION_NUMBER >= 0x03000000
/* A message in pieces. Its calls come in the order starts and set_lengths, in either order, update_ad, update, finish. */
enum { STARTED = 1, LENGTHS = 2, FAILED = 4 };

static int fail(mbedtls_ccm_context *ctx)
{
    ctx->state |= FAILED;
    return MBEDTLS_ERR_CCM_BAD_INPUT;
}

/* Encrypts the block into the chain. Its bytes that haven't come are zeros. */
static int absorb_block(mbedtls_ccm_context *ctx)
{
    const int failed = result(fotsgure_aes_cbc_encrypt(&ctx->aes, &ctx->mac, ctx->block, 1));
    memset(ctx->block, 0, sizeof ctx->block);
    ctx->filled = 0;
    return failed;
}

/* Adds bytes to the chain. `last` says that they end the additional data or the text; zeros follow up to a whole block. */
static int absorb(mbedtls_ccm_context *ctx, const unsigned char *bytes, size_t length, int last)
{
    int failed = 0;
    while (length > 0) {
        const size_t count = length < 16 - ctx->filled ? length : 16 - ctx->filled;
        memcpy(ctx->block + ctx->filled, bytes, count);
        ctx->filled += count;
        bytes += count;
        length -= count;
        if (ctx->filled == 16)
            failed |= absorb_block(ctx);
    }
    if (last && ctx->filled > 0)
        failed |= absorb_block(ctx);
    return failed;
}

/* The first block of the chain, and the length of the additional data (SP 800-38C, A.2.1 and A.2.2). */
static int absorb_lengths(mbedtls_ccm_context *ctx)
{
    const size_t bytes = 15U - ctx->nonce_length;
    unsigned char first[18] = {0};
    first[0] = (unsigned char)((size_t)(ctx->additional_length > 0) << 6 | (ctx->tag_length - 2) / 2 << 3 | (bytes - 1));
    memcpy(first + 1, ctx->nonce, ctx->nonce_length);
    size_t left = ctx->text_length;
    for (size_t i = 0; i < bytes; i++, left >>= 8)
        first[15 - i] = (unsigned char)left;
    first[16] = (unsigned char)(ctx->additional_length >> 8);
    first[17] = (unsigned char)ctx->additional_length;
    return absorb(ctx, first, ctx->additional_length > 0 ? 18 : 16, 0);
}

static int begin_if_ready(mbedtls_ccm_context *ctx)
{
    if ((ctx->state & (STARTED | LENGTHS)) != (STARTED | LENGTHS))
        return 0;
    /* (Of a message that was abandoned nothing is left.) */
    memset(&ctx->mac, 0, sizeof ctx->mac);
    memset(ctx->block, 0, sizeof ctx->block);
    ctx->filled = ctx->additional_done = ctx->text_done = 0;
    if (ctx->tag_length == 0)
        return ctx->mode == MBEDTLS_CCM_STAR_ENCRYPT || ctx->mode == MBEDTLS_CCM_STAR_DECRYPT ? 0 : fail(ctx);
    return too_long(ctx->text_length, ctx->nonce_length) || absorb_lengths(ctx) ? fail(ctx) : 0;
}

int mbedtls_ccm_starts(mbedtls_ccm_context *ctx, int mode, const unsigned char *iv, size_t iv_len)
{
    if (iv_len < 7 || iv_len > 13)
        return MBEDTLS_ERR_CCM_BAD_INPUT;
    ctx->mode = (unsigned char)mode;
    ctx->nonce_length = (unsigned char)iv_len;
    memcpy(ctx->nonce, iv, iv_len);
    first_counter(&ctx->ctr, iv, iv_len);
    ctx->state |= STARTED;
    return begin_if_ready(ctx);
}

int mbedtls_ccm_set_lengths(mbedtls_ccm_context *ctx, size_t total_ad_len, size_t plaintext_len, size_t tag_len)
{
    if (!is_tag_length(tag_len) || total_ad_len > MOST_ADDITIONAL)
        return MBEDTLS_ERR_CCM_BAD_INPUT;
    ctx->additional_length = total_ad_len;
    ctx->text_length = plaintext_len;
    ctx->tag_length = tag_len;
    ctx->state |= LENGTHS;
    return begin_if_ready(ctx);
}

int mbedtls_ccm_update_ad(mbedtls_ccm_context *ctx, const unsigned char *ad, size_t ad_len)
{
    if (ctx->state & FAILED)
        return MBEDTLS_ERR_CCM_BAD_INPUT;
    if (ad_len == 0)
        return 0;
    if (ctx->state != (STARTED | LENGTHS) || ad_len > ctx->additional_length - ctx->additional_done)
        return MBEDTLS_ERR_CCM_BAD_INPUT;
    ctx->additional_done += ad_len;
    if (ctx->tag_length == 0)
        return 0;
    return absorb(ctx, ad, ad_len, ctx->additional_done == ctx->additional_length) ? fail(ctx) : 0;
}

/* Whether more text may come: with a tag as much as was announced, and after all of the additional data. Without a tag as much as in one
 * call: mbedtls' own code has no limit there, and would use keystream twice. */
static int accepts_text(const mbedtls_ccm_context *ctx, size_t length)
{
    if (ctx->state != (STARTED | LENGTHS) || fotsgure_aes_key_length(&ctx->aes) == 0)
        return 0;
    if (ctx->tag_length == 0)
        return !too_long(ctx->text_done + length, ctx->nonce_length);
    return length <= ctx->text_length - ctx->text_done && (length == 0 || ctx->additional_done == ctx->additional_length);
}

int mbedtls_ccm_update(
    mbedtls_ccm_context *ctx, const unsigned char *input, size_t input_len, unsigned char *output, size_t output_size, size_t *output_len)
{
    const int encrypts = ctx->mode == MBEDTLS_CCM_ENCRYPT || ctx->mode == MBEDTLS_CCM_STAR_ENCRYPT;
    int failed = 0;
    if (output_size < input_len || !accepts_text(ctx, input_len))
        return MBEDTLS_ERR_CCM_BAD_INPUT;
    *output_len = input_len;
    if (input_len == 0)
        return 0;
    ctx->text_done += input_len;
    const int last = ctx->text_done == ctx->text_length;
    fotsgure_put(output, input, input_len);
    if (ctx->tag_length != 0 && encrypts)
        failed = absorb(ctx, output, input_len, last);
    failed |= result(fotsgure_aes_add_keystream(&ctx->aes, &ctx->ctr, output, input_len));
    if (ctx->tag_length != 0 && !encrypts)
        failed |= absorb(ctx, output, input_len, last);
    return failed ? fail(ctx) : 0;
}

int mbedtls_ccm_finish(mbedtls_ccm_context *ctx, unsigned char *tag, size_t tag_len)
{
    int failed = 0;
    if (ctx->state & FAILED)
        return MBEDTLS_ERR_ERROR_CORRUPTION_DETECTED; /* as mbedtls does */
    if (ctx->state != (STARTED | LENGTHS) || tag_len != ctx->tag_length)
        return MBEDTLS_ERR_CCM_BAD_INPUT;
    if (ctx->additional_done != ctx->additional_length || (ctx->tag_length != 0 && ctx->text_done != ctx->text_length))
        return MBEDTLS_ERR_CCM_BAD_INPUT;
    if (tag_len > 0) {
        ctx->ctr.iv[15] = 0; /* counter block 0: so far the counter began at 1, and at most 8 bytes are the counter */
        ctx->ctr.position = 0;
        failed = result(fotsgure_aes_add_keystream(&ctx->aes, &ctx->ctr, ctx->mac.previous, 16));
        if (!failed && tag)
            memcpy(tag, ctx->mac.previous, tag_len);
    }
    mbedtls_platform_zeroize(&ctx->mac, sizeof ctx->mac);
    mbedtls_platform_zeroize(&ctx->ctr, sizeof ctx->ctr);
    mbedtls_platform_zeroize(ctx->block, sizeof ctx->block);
    ctx->state = 0;
    return failed;
}
#endif

#endif
