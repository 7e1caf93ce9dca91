/* What the files of the provider share: algorithms, contexts, parameters and errors. */
#ifndef FOTSGURE_PROVIDER_H
#define FOTSGURE_PROVIDER_H
#ifndef _DEFAULT_SOURCE /* explicit_bzero, getrandom */
#define _DEFAULT_SOURCE
#endif
#define __STDC_WANT_LIB_EXT1__ 1 /* memset_s, on macOS */
#include <fotsgure_aes.h>
#include <fotsgure_gcm.h>

#include <openssl/core_dispatch.h>
#include <openssl/core_names.h>
#include <openssl/evp.h>
#include <openssl/prov_ssl.h>
#include <openssl/proverr.h>
#include <string.h>

#ifdef __APPLE__
#define explicit_bzero(at, count) memset_s(at, count, 0, count)
#endif

/* What the tests count of the calls that the module serves: count.h. */
enum event { CONTEXTS_MADE, KEYS_SET, BYTES_OF_TEXT, BYTES_OF_ADDITIONAL_DATA };
#ifndef COUNTED
#define COUNTED(algorithm, event, amount) ((void)0)
#endif

#ifndef EVP_CIPH_GCM_SIV_MODE /* before OpenSSL 3.2 */
#define EVP_CIPH_GCM_SIV_MODE 0x10005
#endif

#define BLOCK FOTSGURE_AES_BLOCK
#define TAG FOTSGURE_GCM_TAG
#define MOST_IV 128 /* OpenSSL's own limit for a nonce of GCM */
#define MOST_MAC 64 /* the longest MAC in a record of TLS */
#define HEADER 13   /* the additional data of a record of TLS 1.2 */

typedef unsigned char byte;

/* What OpenSSL hands to a provider when it loads it. */
struct provider {
    const OSSL_CORE_HANDLE *handle;
    OSSL_FUNC_core_new_error_fn *new_error;
    OSSL_FUNC_core_set_error_debug_fn *set_error_debug;
    OSSL_FUNC_core_vset_error_fn *vset_error;
};

/* The constants of an algorithm. Lengths are in bytes; `block` is what OpenSSL calls the block size. */
struct algorithm {
    unsigned mode; /* EVP_CIPH_ECB_MODE .. */
    size_t key_length, block, iv_length;
    const char *first_iv; /* of a new context; NULL: zeros */
    int inverse, padded;  /* key wrap: by the inverse cipher; with padding (RFC 5649) */
};

/* Of a message of GCM, or of AES-GCM-SIV. ENDED: its nonce is used. */
enum stage { NO_NONCE, NONCE, MESSAGE, ENDED };

struct context {
    const struct provider *provider;
    const struct algorithm *algorithm;
    int encrypts, has_key;
    size_t iv_length;
    byte iv[MOST_IV];         /* as it was given; in GCM, of the next message if nonces are counted */
    byte updated_iv[MOST_IV]; /* as it was last asked for */
    union { /* the key */
        struct fotsgure_aes aes;
        struct fotsgure_gcm gcm;
        struct fotsgure_gcm_siv siv;
    };
    struct fotsgure_aes_ctr ctr;
    struct fotsgure_aes_cbc cbc;

    /* ECB and CBC */
    int unpadded;                   /* EVP_CIPHER_CTX_set_padding(ctx, 0) */
    size_t kept_length;
    byte kept[BLOCK];               /* text that has come and isn't processed yet */
    size_t tls_version, mac_length; /* of records of TLS by CBC; 0: none */
    byte mac[MOST_MAC];

    /* AES-GCM-SIV: what has come of the additional data, on the heap */
    byte *additional;
    size_t additional_length;

    /* GCM; the stage and the tag also of AES-GCM-SIV */
    enum stage stage;
    int counts;                     /* nonces are counted up: EVP_CTRL_AEAD_SET_IV_FIXED */
    size_t tag_length, header_length;
    byte tag[TAG];                  /* the one that was made, or the one to compare */
    byte header[HEADER];
    struct fotsgure_gcm_message message;
};

static inline int is_mode(const struct context *c, unsigned mode)
{
    return c->algorithm->mode == mode;
}

/* The calls that take text, by mode. `block` is ECB, CBC and CTR. */
OSSL_FUNC_cipher_update_fn block_update, wrap_update, gcm_update, gcm_siv_update;
OSSL_FUNC_cipher_cipher_fn block_cipher, gcm_cipher, gcm_siv_cipher;
OSSL_FUNC_cipher_final_fn block_final, gcm_final, gcm_siv_final;

/* Parameters of GCM alone, and of AES-GCM-SIV. */
int gcm_get_params(struct context *c, OSSL_PARAM params[]);
int gcm_set_params(struct context *c, const OSSL_PARAM params[]);
int gcm_siv_get_params(struct context *c, OSSL_PARAM params[]);
int gcm_siv_set_params(struct context *c, const OSSL_PARAM params[]);

/* The additional data that a context of AES-GCM-SIV keeps: freed, and copied (0: there is no memory). */
void gcm_siv_forget(struct context *c);
int gcm_siv_copy(struct context *copy, const struct context *c);

/* Raises an error under a reason of OpenSSL's own provider, since programs compare these. Returns 0: a call failed. */
#define fail(c, reason) fail_at(c, __FILE__, __LINE__, __func__, reason)
int fail_at(const struct context *c, const char *file, int line, const char *function, int reason, ...);

/* Returns the parameter of that name, or NULL. Every message asks for some, and most names differ at once. */
static inline OSSL_PARAM *find(const OSSL_PARAM *params, const char *name)
{
    for (; params && params->key; params++)
        if (*params->key == *name && strcmp(params->key, name) == 0)
            return (OSSL_PARAM *)params;
    return NULL;
}

/* Each of these answers a parameter. They return 1 if nobody asks for it, and 0 if the answer doesn't fit. */
int put_number(OSSL_PARAM *params, const char *name, size_t value); /* below 2^31 */
int put_bytes(OSSL_PARAM *params, const char *name, const void *bytes, size_t length);

/* Reads a number. Returns 1 if nobody sets it, and 0 if the parameter is none. */
int get_number(const OSSL_PARAM *params, const char *name, size_t *value);

#endif
