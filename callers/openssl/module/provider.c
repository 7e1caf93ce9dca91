/* The provider "fotsgure" for OpenSSL 3 and later: AES in ECB, CBC, CTR, GCM, GCM-SIV and key wrap over the proved C libraries
 * fotsgure_aes and fotsgure_gcm. This file has what OpenSSL calls first, the table of algorithms, and what all modes share:
 * contexts, keys and parameters. docs/OPENSSL.md says how to build it and switch it on, and what of it is proved.
 *
 * No branch and no address depends on a key or on data, except for what OpenSSL's interface itself shows. That is whether a
 * tag, a padding or a wrapped key was right, and the length of an unpadded text.
 *
 * The module calls nothing of libcrypto. What it needs comes through the table that OpenSSL hands to
 * OSSL_provider_init. So it also loads into programs that have OpenSSL inside them. */
#include "provider.h"
#include "served.h"

#include <stdlib.h>

static struct served served = {.mark = SERVED_MARK};

static void *new_context(void *provider, const struct algorithm *algorithm)
{
    struct context *c = calloc(1, sizeof *c);
    if (!c)
        return NULL;
    c->provider = provider;
    c->algorithm = algorithm;
    c->iv_length = algorithm->iv_length;
    if (algorithm->first_iv)
        memcpy(c->iv, algorithm->first_iv, c->iv_length);
    COUNTED(algorithm, CONTEXTS_MADE, 1);
    return c;
}

static void free_context(void *context)
{
    if (context) {
        gcm_siv_forget(context);
        explicit_bzero(context, sizeof(struct context));
    }
    free(context);
}

static void *copy_context(void *context)
{
    void *copy = malloc(sizeof(struct context));
    if (copy && !gcm_siv_copy(memcpy(copy, context, sizeof(struct context)), context)) {
        free_context(copy);
        return NULL;
    }
    return copy;
}

static int set_params(void *context, const OSSL_PARAM params[])
{
    struct context *c = context;
    size_t key_length = c->algorithm->key_length, padded = !c->unpadded;
    size_t version = c->tls_version, mac_length = c->mac_length;
    if (!params)
        return 1;
    if (!get_number(params, OSSL_CIPHER_PARAM_KEYLEN, &key_length) || key_length != c->algorithm->key_length)
        return fail(c, PROV_R_INVALID_KEY_LENGTH);
    if (is_mode(c, EVP_CIPH_GCM_MODE))
        return gcm_set_params(c, params);
    if (is_mode(c, EVP_CIPH_GCM_SIV_MODE))
        return gcm_siv_set_params(c, params);
    if (!get_number(params, OSSL_CIPHER_PARAM_PADDING, &padded) ||
        !get_number(params, OSSL_CIPHER_PARAM_TLS_VERSION, &version) || version == SSL3_VERSION ||
        !get_number(params, OSSL_CIPHER_PARAM_TLS_MAC_SIZE, &mac_length) || mac_length > MOST_MAC)
        return fail(c, PROV_R_FAILED_TO_GET_PARAMETER);
    c->unpadded = padded == 0;
    c->tls_version = is_mode(c, EVP_CIPH_CBC_MODE) ? version : 0;
    c->mac_length = mac_length;
    return 1;
}

/* The initialization vector with which the next block would begin a message. */
static void update_iv(struct context *c)
{
    uint64_t carry = c->ctr.position / BLOCK + (c->ctr.position % BLOCK != 0);
    memcpy(c->updated_iv, is_mode(c, EVP_CIPH_CBC_MODE) ? c->cbc.previous : c->iv, c->iv_length);
    for (size_t i = c->iv_length; is_mode(c, EVP_CIPH_CTR_MODE) && i-- > 0; carry >>= 8) {
        carry += c->updated_iv[i];
        c->updated_iv[i] = (byte)carry;
    }
}

static int get_params(void *context, OSSL_PARAM params[])
{
    struct context *c = context;
    if ((is_mode(c, EVP_CIPH_GCM_MODE) && !gcm_get_params(c, params)) ||
        (is_mode(c, EVP_CIPH_GCM_SIV_MODE) && !gcm_siv_get_params(c, params)))
        return 0;
    if (find(params, OSSL_CIPHER_PARAM_UPDATED_IV))
        update_iv(c);
    return put_number(params, OSSL_CIPHER_PARAM_KEYLEN, c->algorithm->key_length) &&
        put_number(params, OSSL_CIPHER_PARAM_IVLEN, c->iv_length) &&
        put_number(params, OSSL_CIPHER_PARAM_PADDING, !c->unpadded) &&
        put_number(params, OSSL_CIPHER_PARAM_NUM, c->ctr.position % BLOCK) &&
        put_bytes(params, OSSL_CIPHER_PARAM_IV, c->iv, c->iv_length) &&
        put_bytes(params, OSSL_CIPHER_PARAM_UPDATED_IV, c->updated_iv, c->iv_length) &&
        put_bytes(params, OSSL_CIPHER_PARAM_TLS_MAC, c->mac, c->mac_length);
}

static int set_key(struct context *c, const byte *key, size_t length)
{
    if (length != c->algorithm->key_length)
        return 0;
    COUNTED(c->algorithm, KEYS_SET, 1);
    atomic_fetch_add_explicit(&served.keys, 1, memory_order_relaxed);
    c->has_key = 1;
    if (is_mode(c, EVP_CIPH_GCM_MODE))
        return fotsgure_gcm_set_key(&c->gcm, key, length) == FOTSGURE_GCM_DONE;
    if (is_mode(c, EVP_CIPH_GCM_SIV_MODE))
        return fotsgure_gcm_siv_set_key(&c->siv, key, length) == FOTSGURE_GCM_DONE;
    return fotsgure_aes_set_key(&c->aes, key, length) == FOTSGURE_AES_DONE;
}

/* A key, an initialization vector or nonce, both, or neither. Without a new vector, CBC begins with the same again, and
 * counter mode continues with the next block. In GCM, another key ends a message that has begun. */
static int begin(struct context *c, const byte *key, size_t key_length, const byte *iv, size_t iv_length,
    const OSSL_PARAM params[])
{
    int has_iv = iv && c->algorithm->iv_length > 0;
    if (has_iv && (iv_length == 0 || iv_length > MOST_IV ||
        (iv_length != c->algorithm->iv_length && !is_mode(c, EVP_CIPH_GCM_MODE))))
        return fail(c, PROV_R_INVALID_IV_LENGTH);
    if (has_iv) {
        memmove(c->iv, iv, iv_length);
        c->iv_length = iv_length;
        c->stage = NONCE;
        gcm_siv_forget(c);
    } else if (key && c->stage == MESSAGE) {
        c->stage = ENDED;
    }
    if (key && !set_key(c, key, key_length))
        return fail(c, PROV_R_INVALID_KEY_LENGTH);
    c->kept_length = 0;
    c->ctr.position = (c->ctr.position + BLOCK - 1) / BLOCK * BLOCK;
    if (has_iv || is_mode(c, EVP_CIPH_CBC_MODE)) {
        memcpy(c->cbc.previous, c->iv, BLOCK);
        memcpy(c->ctr.iv, c->iv, BLOCK);
        c->ctr.position = 0;
    }
    return set_params(c, params);
}

#define BEGIN(name, direction) \
    static int name(void *context, const byte *key, size_t key_length, const byte *iv, size_t iv_length, \
        const OSSL_PARAM params[]) \
    { \
        ((struct context *)context)->encrypts = direction; \
        return begin(context, key, key_length, iv, iv_length, params); \
    }
BEGIN(begin_encrypting, 1)
BEGIN(begin_decrypting, 0)

/* Answers what OpenSSL asks about an algorithm. */
static int get_constants(const struct algorithm *algorithm, OSSL_PARAM params[])
{
    unsigned mode = algorithm->mode;
    return put_number(params, OSSL_CIPHER_PARAM_MODE, mode) &&
        put_number(params, OSSL_CIPHER_PARAM_KEYLEN, algorithm->key_length) &&
        put_number(params, OSSL_CIPHER_PARAM_IVLEN, algorithm->iv_length) &&
        put_number(params, OSSL_CIPHER_PARAM_BLOCK_SIZE, algorithm->block) &&
        put_number(params, OSSL_CIPHER_PARAM_AEAD, mode == EVP_CIPH_GCM_MODE || mode == EVP_CIPH_GCM_SIV_MODE) &&
        put_number(params, OSSL_CIPHER_PARAM_CUSTOM_IV,
            mode == EVP_CIPH_GCM_MODE || mode == EVP_CIPH_GCM_SIV_MODE || mode == EVP_CIPH_WRAP_MODE);
}

#define NUMBER(name) OSSL_PARAM_size_t(OSSL_CIPHER_PARAM_##name, NULL)
#define BYTES(name) OSSL_PARAM_octet_string(OSSL_CIPHER_PARAM_##name, NULL, 0)
#define TEXT(name) OSSL_PARAM_utf8_ptr(OSSL_PROV_PARAM_##name, NULL, 0)
#define LIST(name, asks, ...) \
    static const OSSL_PARAM *name asks \
    { \
        static const OSSL_PARAM list[] = {__VA_ARGS__, OSSL_PARAM_END}; \
        return list; \
    }

LIST(gettable_constants, (void *provider), NUMBER(MODE), NUMBER(KEYLEN), NUMBER(IVLEN), NUMBER(BLOCK_SIZE),
    NUMBER(AEAD), NUMBER(CUSTOM_IV))
/* One list for all modes. A mode ignores the parameters that it doesn't have. */
LIST(gettable_params, (void *context, void *provider), NUMBER(KEYLEN), NUMBER(IVLEN), NUMBER(PADDING), NUMBER(NUM),
    NUMBER(AEAD_TAGLEN), BYTES(IV), BYTES(UPDATED_IV), OSSL_PARAM_octet_ptr(OSSL_CIPHER_PARAM_TLS_MAC, NULL, 0),
    BYTES(AEAD_TAG), NUMBER(AEAD_TLS1_AAD_PAD), BYTES(AEAD_TLS1_GET_IV_GEN))
LIST(settable_params, (void *context, void *provider), NUMBER(KEYLEN), NUMBER(IVLEN), NUMBER(PADDING),
    NUMBER(TLS_VERSION), NUMBER(TLS_MAC_SIZE), BYTES(AEAD_TAG), BYTES(AEAD_TLS1_AAD), BYTES(AEAD_TLS1_IV_FIXED),
    BYTES(AEAD_TLS1_SET_IV_INV))
LIST(gettable_provider_params, (void *provider), TEXT(NAME), TEXT(VERSION),
    OSSL_PARAM_int(OSSL_PROV_PARAM_STATUS, NULL))

/* Every algorithm: its names (OpenSSL's, and the object identifiers of NIST (CSOR, aes) and RFC 5649), the calls that
 * take text, and its constants. Key wrap begins with the values of SP 800-38F, 6.2 and 6.3. */
#define OID(last) ":2.16.840.1.101.3.4.1." #last
#define BUFFERED block_update, block_cipher, block_final
#define WRAP wrap_update, NULL, block_final, .mode = EVP_CIPH_WRAP_MODE, .block = 8
#define KW .iv_length = 8, .first_iv = "\xa6\xa6\xa6\xa6\xa6\xa6\xa6\xa6"
#define KWP .iv_length = 4, .first_iv = "\xa6\x59\x59\xa6", .padded = 1
#define ALGORITHMS(DO, bits, k, of_ecb, of_cbc, of_kw, of_gcm, of_kwp) \
    DO(ecb##bits, "AES-" #bits "-ECB" OID(of_ecb), BUFFERED, .mode = EVP_CIPH_ECB_MODE, .key_length = k, .block = BLOCK) \
    DO(cbc##bits, "AES-" #bits "-CBC:AES" #bits OID(of_cbc), BUFFERED, \
        .mode = EVP_CIPH_CBC_MODE, .key_length = k, .block = BLOCK, .iv_length = BLOCK) \
    DO(ctr##bits, "AES-" #bits "-CTR", block_cipher, block_cipher, block_final, \
        .mode = EVP_CIPH_CTR_MODE, .key_length = k, .block = 1, .iv_length = BLOCK) \
    DO(gcm##bits, "AES-" #bits "-GCM:id-aes" #bits "-GCM" OID(of_gcm), gcm_update, gcm_cipher, gcm_final, \
        .mode = EVP_CIPH_GCM_MODE, .key_length = k, .block = 1, .iv_length = FOTSGURE_GCM_NONCE) \
    DO(kw##bits, "AES-" #bits "-WRAP:id-aes" #bits "-wrap:AES" #bits "-WRAP" OID(of_kw), \
        WRAP, KW, .key_length = k) \
    DO(kwp##bits, "AES-" #bits "-WRAP-PAD:id-aes" #bits "-wrap-pad:AES" #bits "-WRAP-PAD" OID(of_kwp), \
        WRAP, KWP, .key_length = k) \
    DO(inverse_kw##bits, "AES-" #bits "-WRAP-INV:AES" #bits "-WRAP-INV", WRAP, KW, .key_length = k, .inverse = 1) \
    DO(inverse_kwp##bits, "AES-" #bits "-WRAP-PAD-INV:AES" #bits "-WRAP-PAD-INV", WRAP, KWP, .key_length = k, .inverse = 1)
#define GCM_SIV(DO, bits, k) \
    DO(gcm_siv##bits, "AES-" #bits "-GCM-SIV", gcm_siv_update, gcm_siv_cipher, gcm_siv_final, \
        .mode = EVP_CIPH_GCM_SIV_MODE, .key_length = k, .block = 1, .iv_length = FOTSGURE_GCM_SIV_NONCE)
#define ALL(DO) \
    GCM_SIV(DO, 128, 16) GCM_SIV(DO, 256, 32) \
    ALGORITHMS(DO, 128, 16, 1, 2, 5, 6, 8) \
    ALGORITHMS(DO, 192, 24, 21, 22, 25, 26, 28) \
    ALGORITHMS(DO, 256, 32, 41, 42, 45, 46, 48)

#define FUNCTION(id, function) {OSSL_FUNC_CIPHER_##id, (void (*)(void))(function)}
#define DEFINE(name, names, ...) DEFINE_IT(name, __VA_ARGS__)
#define DEFINE_IT(name, update, cipher, final, ...) \
    static const struct algorithm algorithm_##name = {__VA_ARGS__}; \
    static void *new_##name(void *provider) { return new_context(provider, &algorithm_##name); } \
    static int get_##name(OSSL_PARAM params[]) { return get_constants(&algorithm_##name, params); } \
    static const OSSL_DISPATCH functions_##name[] = { \
        FUNCTION(NEWCTX, new_##name), FUNCTION(FREECTX, free_context), FUNCTION(DUPCTX, copy_context), \
        FUNCTION(ENCRYPT_INIT, begin_encrypting), FUNCTION(DECRYPT_INIT, begin_decrypting), \
        FUNCTION(UPDATE, update), FUNCTION(CIPHER, cipher), FUNCTION(FINAL, final), \
        FUNCTION(GET_PARAMS, get_##name), FUNCTION(GETTABLE_PARAMS, gettable_constants), \
        FUNCTION(GET_CTX_PARAMS, get_params), FUNCTION(SET_CTX_PARAMS, set_params), \
        FUNCTION(GETTABLE_CTX_PARAMS, gettable_params), FUNCTION(SETTABLE_CTX_PARAMS, settable_params), {0, NULL}};
ALL(DEFINE)

static const OSSL_ALGORITHM *query(void *provider, int operation, int *no_store)
{
#define ROW(name, names, ...) {names, "provider=fotsgure", functions_##name, NULL},
    static const OSSL_ALGORITHM ciphers[] = {ALL(ROW) {NULL, NULL, NULL, NULL}};
    *no_store = 0;
    return operation == OSSL_OP_CIPHER ? ciphers : NULL;
}

static int get_provider_params(void *provider, OSSL_PARAM params[])
{
    static const char name[] = "AES, proved (fotsgure)", version[] = FOTSGURE_AES_VERSION_TEXT;
    return put_bytes(params, OSSL_PROV_PARAM_NAME, name, sizeof name - 1) &&
        put_bytes(params, OSSL_PROV_PARAM_VERSION, version, sizeof version - 1) &&
        put_number(params, OSSL_PROV_PARAM_STATUS, 1);
}

/* Whether the processor has what the libraries take for granted. If not, AES stays with OpenSSL's own provider. */
static int is_served(void)
{
#ifdef __x86_64__
    return __builtin_cpu_supports("ssse3") && __builtin_cpu_supports("sse4.2");
#else
    return 1;
#endif
}

/* It refuses libraries of another version than the headers: their structs may be larger. */
OSSL_provider_init_fn OSSL_provider_init;

int OSSL_provider_init(const OSSL_CORE_HANDLE *handle, const OSSL_DISPATCH *in, const OSSL_DISPATCH **out,
    void **context)
{
    static const OSSL_DISPATCH functions[] = {
        {OSSL_FUNC_PROVIDER_TEARDOWN, (void (*)(void))free},
        {OSSL_FUNC_PROVIDER_GETTABLE_PARAMS, (void (*)(void))gettable_provider_params},
        {OSSL_FUNC_PROVIDER_GET_PARAMS, (void (*)(void))get_provider_params},
        {OSSL_FUNC_PROVIDER_QUERY_OPERATION, (void (*)(void))query},
        {0, NULL}};
    struct provider *provider = calloc(1, sizeof *provider);
    if (!provider || !is_served() || fotsgure_aes_version() != FOTSGURE_AES_VERSION ||
        fotsgure_gcm_version() != FOTSGURE_GCM_VERSION)
        return free(provider), 0;
    provider->handle = handle;
    for (; in->function_id != 0; in++) {
        if (in->function_id == OSSL_FUNC_CORE_NEW_ERROR)
            provider->new_error = (OSSL_FUNC_core_new_error_fn *)in->function;
        if (in->function_id == OSSL_FUNC_CORE_SET_ERROR_DEBUG)
            provider->set_error_debug = (OSSL_FUNC_core_set_error_debug_fn *)in->function;
        if (in->function_id == OSSL_FUNC_CORE_VSET_ERROR)
            provider->vset_error = (OSSL_FUNC_core_vset_error_fn *)in->function;
    }
    *out = functions;
    *context = provider;
    return 1;
}
