/* GCM (SP 800-38D) in pieces, records of TLS 1.2, and nonces that are counted here (also for OpenSSH), over the proved
 * library. */
#include "provider.h"

#ifdef __APPLE__
#include <CommonCrypto/CommonRandom.h>
#else
#include <sys/random.h>
#endif

#define EXPLICIT 8 /* the part of a nonce that such a record carries (RFC 5288, 3), and that is counted */
#define SALT 4     /* the part that it doesn't */

static int draw(byte *to, size_t count)
{
#ifdef __APPLE__
    return CCRandomGenerateBytes(to, count) == kCCSuccess;
#else
    return getrandom(to, count, 0) == (ssize_t)count;
#endif
}

/* Begins the message when the first of it comes. If no nonce was given it draws one (SP 800-38D, 8.2.2), as OpenSSL
 * does. */
static int has_begun(struct context *c)
{
    size_t length = c->iv_length;
    if (c->stage == NO_NONCE && c->encrypts && length >= FOTSGURE_GCM_NONCE && draw(c->iv, length))
        c->stage = NONCE;
    if (c->stage == NONCE && fotsgure_gcm_begin(&c->gcm, &c->message, c->iv, length) == FOTSGURE_GCM_DONE)
        c->stage = MESSAGE;
    return c->stage == MESSAGE;
}

/* Ends a message: makes its tag, or compares it. The program fixes the length of its tags by the one that it sets. As long as it has
 * set none, the message continues. */
static int end(struct context *c)
{
    enum fotsgure_gcm_status status;
    if (!c->encrypts && c->tag_length == 0)
        return 0;
    c->stage = ENDED;
    if (c->encrypts) {
        status = fotsgure_gcm_finish(&c->gcm, &c->message, c->tag);
        c->tag_length = status ? 0 : TAG;
    } else {
        status = c->tag_length == TAG
            ? fotsgure_gcm_accept(&c->gcm, &c->message, c->tag, TAG)
            : fotsgure_gcm_accept_short(&c->gcm, &c->message, c->tag_length, c->tag, c->tag_length);
        fotsgure_gcm_wipe_message(&c->message);
    }
    return status == FOTSGURE_GCM_DONE;
}

static int is_counted(const struct context *c)
{
    return c->counts && c->has_key && c->iv_length >= EXPLICIT;
}

static void count_up(struct context *c)
{
    for (size_t i = c->iv_length; i-- > c->iv_length - EXPLICIT && ++c->iv[i] == 0;)
        continue;
}

/* RFC 5288, 3, in place: the end of the nonce, the text and the tag. A record that isn't authentic stays unchanged. */
static int record(struct context *c, byte *out, size_t *out_length, const byte *in, size_t length)
{
    byte *text = out + EXPLICIT, *nonce = c->iv;
    size_t count = length - EXPLICIT - TAG, nonce_length = c->iv_length;
    enum fotsgure_gcm_status status;
    c->header_length = 0;
    if (out != in || length < EXPLICIT + TAG || !is_counted(c))
        return 0;
    c->stage = ENDED;
    COUNTED(c->algorithm, BYTES_OF_TEXT, count);
    if (c->encrypts) {
        memcpy(out, nonce + nonce_length - EXPLICIT, EXPLICIT);
        status = fotsgure_gcm_seal(&c->gcm, nonce, nonce_length, c->header, HEADER, text, count, text + count);
        count_up(c);
    } else {
        memcpy(nonce + nonce_length - EXPLICIT, in, EXPLICIT);
        status = fotsgure_gcm_open(&c->gcm, nonce, nonce_length, c->header, HEADER, text, count, text + count, TAG);
    }
    if (status != FOTSGURE_GCM_DONE)
        return 0;
    *out_length = c->encrypts ? length : count;
    return 1;
}

/* Decrypted text is given out before the tag is compared: that is OpenSSL's contract. */
static int process(struct context *c, byte *out, const byte *in, size_t length)
{
    COUNTED(c->algorithm, out ? BYTES_OF_TEXT : BYTES_OF_ADDITIONAL_DATA, length);
    if (!out)
        return fotsgure_gcm_additional(&c->gcm, &c->message, in, length) == FOTSGURE_GCM_DONE;
    if (out != in)
        memmove(out, in, length);
    return (c->encrypts ? fotsgure_gcm_encrypt(&c->gcm, &c->message, out, length)
                : fotsgure_gcm_decrypt_unverified(&c->gcm, &c->message, out, length)) == FOTSGURE_GCM_DONE;
}

/* EVP_Cipher without `in` asks for the end of a message. */
int gcm_cipher(void *context, byte *out, size_t *out_length, size_t out_size, const byte *in, size_t length)
{
    struct context *c = context;
    *out_length = 0;
    if (out && out_size < length)
        return fail(c, PROV_R_OUTPUT_BUFFER_TOO_SMALL);
    if (c->header_length > 0 && in && out)
        return record(c, out, out_length, in, length);
    if (!c->has_key || !has_begun(c))
        return 0;
    *out_length = in ? length : 0;
    return in ? process(c, out, in, length) : end(c);
}

int gcm_update(void *context, byte *out, size_t *out_length, size_t out_size, const byte *in, size_t length)
{
    *out_length = 0;
    return length == 0 || gcm_cipher(context, out, out_length, out_size, in, length) ||
        fail(context, PROV_R_CIPHER_OPERATION_FAILED);
}

int gcm_final(void *context, byte *out, size_t *out_length, size_t out_size)
{
    return gcm_cipher(context, NULL, out_length, 0, NULL, 0);
}

static int set_tag(struct context *c, const byte *tag, size_t length)
{
    if (c->encrypts || length == 0 || length > TAG)
        return fail(c, length > TAG ? PROV_R_FAILED_TO_GET_PARAMETER : PROV_R_INVALID_TAG);
    memcpy(c->tag, tag, length);
    c->tag_length = length;
    return 1;
}

/* What stays the same of all nonces; a length of SIZE_MAX means the whole first one. The rest begins at random. A
 * message then needs the next nonce. */
static int set_fixed(struct context *c, const byte *fixed, size_t length)
{
    size_t count = length == SIZE_MAX ? c->iv_length : length;
    if ((length != SIZE_MAX && (length < SALT || length + EXPLICIT > c->iv_length)) ||
        (c->encrypts && !draw(c->iv + count, c->iv_length - count)))
        return fail(c, PROV_R_FAILED_TO_GET_PARAMETER);
    memcpy(c->iv, fixed, count);
    c->counts = 1;
    c->stage = ENDED;
    return 1;
}

/* The additional data of a record of TLS 1.2. Its length includes what surrounds the text. */
static int set_header(struct context *c, const byte *header, size_t length)
{
    size_t around = c->encrypts ? EXPLICIT : EXPLICIT + TAG, count;
    c->header_length = 0;
    if (length != HEADER || (count = (size_t)header[HEADER - 2] << 8 | header[HEADER - 1]) < around)
        return fail(c, PROV_R_INVALID_AAD);
    memcpy(c->header, header, HEADER);
    c->header[HEADER - 2] = (byte)((count - around) >> 8);
    c->header[HEADER - 1] = (byte)(count - around);
    c->header_length = HEADER;
    return 1;
}

/* The end of a nonce, as the other side sent it. */
static int set_sent(struct context *c, const byte *sent, size_t length)
{
    if (!is_counted(c) || c->encrypts || length > c->iv_length)
        return 0;
    memcpy(c->iv + c->iv_length - length, sent, length);
    c->stage = NONCE;
    return 1;
}

int gcm_set_params(struct context *c, const OSSL_PARAM params[])
{
    static const struct {
        const char *name;
        int (*set)(struct context *c, const byte *bytes, size_t length);
    } setters[] = {{OSSL_CIPHER_PARAM_AEAD_TAG, set_tag}, {OSSL_CIPHER_PARAM_AEAD_TLS1_AAD, set_header},
        {OSSL_CIPHER_PARAM_AEAD_TLS1_IV_FIXED, set_fixed}, {OSSL_CIPHER_PARAM_AEAD_TLS1_SET_IV_INV, set_sent}};
    size_t length = c->iv_length;
    if (!get_number(params, OSSL_CIPHER_PARAM_IVLEN, &length) || length == 0 || length > MOST_IV)
        return fail(c, PROV_R_INVALID_IV_LENGTH);
    if (length != c->iv_length && c->stage != NO_NONCE)
        c->stage = ENDED;
    c->iv_length = length;
    for (size_t i = 0; i < sizeof setters / sizeof *setters; i++) {
        const OSSL_PARAM *param = find(params, setters[i].name);
        if (param && (param->data_type != OSSL_PARAM_OCTET_STRING || !param->data))
            return fail(c, PROV_R_FAILED_TO_GET_PARAMETER);
        if (param && !setters[i].set(c, param->data, param->data_size))
            return 0;
    }
    return 1;
}

static int get_tag(struct context *c, OSSL_PARAM params[])
{
    const OSSL_PARAM *param = find(params, OSSL_CIPHER_PARAM_AEAD_TAG);
    if (!param)
        return 1;
    if (param->data_size == 0 || param->data_size > TAG || !c->encrypts || c->tag_length == 0)
        return fail(c, PROV_R_INVALID_TAG);
    return put_bytes(params, OSSL_CIPHER_PARAM_AEAD_TAG, c->tag, param->data_size);
}

/* Begins a message under the next nonce, and writes the nonce's end. */
static int get_next(struct context *c, OSSL_PARAM params[])
{
    OSSL_PARAM *param = find(params, OSSL_CIPHER_PARAM_AEAD_TLS1_GET_IV_GEN);
    size_t length = c->iv_length;
    if (!param)
        return 1;
    if (param->data_type != OSSL_PARAM_OCTET_STRING || !param->data || !is_counted(c))
        return 0;
    c->stage = NONCE;
    if (!has_begun(c))
        return 0;
    if (param->data_size > 0 && param->data_size < length)
        length = param->data_size;
    memcpy(param->data, c->iv + c->iv_length - length, length);
    param->return_size = length;
    count_up(c);
    return 1;
}

int gcm_get_params(struct context *c, OSSL_PARAM params[])
{
    int asks = find(params, OSSL_CIPHER_PARAM_IV) || find(params, OSSL_CIPHER_PARAM_UPDATED_IV);
    return get_tag(c, params) && get_next(c, params) && !(asks && c->stage == NO_NONCE) &&
        put_number(params, OSSL_CIPHER_PARAM_AEAD_TAGLEN, c->tag_length == 0 ? TAG : c->tag_length) &&
        put_number(params, OSSL_CIPHER_PARAM_AEAD_TLS1_AAD_PAD, c->header_length == 0 ? 0 : TAG);
}
