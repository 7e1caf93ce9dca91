/* AES-GCM-SIV (RFC 8452) over the proved library. A message needs two passes over its text. So all of the text comes in one
 * call, as OpenSSL's own provider wants it. Its additional data may come in pieces, and is kept until then. No text is given
 * out before its tag was compared. So the tag to compare has to be set before the text comes. */
#include "provider.h"

#include <stdlib.h>

/* Forgets the additional data of a message, as at its beginning. */
void gcm_siv_forget(struct context *c)
{
    free(c->additional);
    c->additional = NULL;
    c->additional_length = 0;
}

/* Keeps a copy of its own of the additional data. */
int gcm_siv_copy(struct context *copy, const struct context *c)
{
    copy->additional = NULL;
    if (c->additional_length > 0 && !(copy->additional = malloc(c->additional_length)))
        return 0;
    if (c->additional_length > 0)
        memcpy(copy->additional, c->additional, c->additional_length);
    return 1;
}

static int keep(struct context *c, const byte *in, size_t length)
{
    byte *more = length > SIZE_MAX - c->additional_length ? NULL : realloc(c->additional, c->additional_length + length);
    if (!more)
        return 0;
    memcpy(more + c->additional_length, in, length);
    c->additional = more;
    c->additional_length += length;
    return 1;
}

/* The whole text. After it the message only has to be ended; its nonce is used. */
static int process(struct context *c, byte *out, const byte *in, size_t length)
{
    enum fotsgure_gcm_status status;
    COUNTED(c->algorithm, BYTES_OF_TEXT, length);
    c->stage = ENDED;
    if (!c->encrypts && c->tag_length != TAG)
        return fail(c, PROV_R_INVALID_TAG);
    if (length > 0 && out != in)
        memmove(out, in, length);
    status = c->encrypts
        ? fotsgure_gcm_siv_seal(&c->siv, c->iv, c->additional, c->additional_length, out, length, c->tag)
        : fotsgure_gcm_siv_open(&c->siv, c->iv, c->additional, c->additional_length, out, length, c->tag);
    gcm_siv_forget(c);
    if (status != FOTSGURE_GCM_DONE)
        return 0;
    c->tag_length = TAG;
    c->stage = MESSAGE;
    return 1;
}

/* EVP_Cipher without `in` asks for the end of a message. */
int gcm_siv_cipher(void *context, byte *out, size_t *out_length, size_t out_size, const byte *in, size_t length)
{
    struct context *c = context;
    *out_length = 0;
    if (!in) {
        int ended = c->stage == MESSAGE || (c->has_key && c->stage == NONCE && process(c, NULL, NULL, 0));
        c->stage = ENDED;
        return ended;
    }
    if (out && out_size < length)
        return fail(c, PROV_R_OUTPUT_BUFFER_TOO_SMALL);
    if (!c->has_key || c->stage != NONCE)
        return 0;
    if (!(out ? process(c, out, in, length) : keep(c, in, length)))
        return 0;
    *out_length = length;
    return 1;
}

int gcm_siv_update(void *context, byte *out, size_t *out_length, size_t out_size, const byte *in, size_t length)
{
    *out_length = 0;
    return length == 0 || gcm_siv_cipher(context, out, out_length, out_size, in, length) ||
        fail(context, PROV_R_CIPHER_OPERATION_FAILED);
}

int gcm_siv_final(void *context, byte *out, size_t *out_length, size_t out_size)
{
    return gcm_siv_cipher(context, NULL, out_length, 0, NULL, 0);
}

int gcm_siv_set_params(struct context *c, const OSSL_PARAM params[])
{
    const OSSL_PARAM *tag = find(params, OSSL_CIPHER_PARAM_AEAD_TAG);
    size_t length = c->iv_length;
    if (!get_number(params, OSSL_CIPHER_PARAM_IVLEN, &length) || length != c->iv_length)
        return fail(c, PROV_R_INVALID_IV_LENGTH);
    if (!tag)
        return 1;
    if (tag->data_type != OSSL_PARAM_OCTET_STRING || !tag->data || tag->data_size != TAG || c->encrypts)
        return fail(c, PROV_R_FAILED_TO_GET_PARAMETER);
    memcpy(c->tag, tag->data, TAG);
    c->tag_length = TAG;
    return 1;
}

int gcm_siv_get_params(struct context *c, OSSL_PARAM params[])
{
    const OSSL_PARAM *tag = find(params, OSSL_CIPHER_PARAM_AEAD_TAG);
    if (tag && (tag->data_size != TAG || !c->encrypts || c->tag_length != TAG))
        return fail(c, PROV_R_INVALID_TAG);
    return put_bytes(params, OSSL_CIPHER_PARAM_AEAD_TAG, c->tag, TAG) &&
        put_number(params, OSSL_CIPHER_PARAM_AEAD_TAGLEN, TAG);
}
