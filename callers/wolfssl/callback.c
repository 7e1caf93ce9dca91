/* wolfSSL's AES over fotsgure: see fotsgure_wolfssl.h. wolfSSL keeps the key itself in an Aes that has a device. Each call makes a key
 * schedule of it, and wipes it. */
#include <string.h>
#include "fotsgure_aes.h"
#include "fotsgure_gcm.h"
#include "fotsgure_wolfssl.h"
#include <wolfssl/wolfcrypt/aes.h>
#include <wolfssl/wolfcrypt/error-crypt.h>

/* wolfSSL's callers pass one buffer as input and output, or two. The library's calls in place serve both. */
static void put(byte *out, const byte *in, word32 size)
{
    if (size > 0 && out != in)
        memmove(out, in, size);
}

static int of_aes(enum fotsgure_aes_status status)
{
    return status == FOTSGURE_AES_DONE ? 0 : BAD_FUNC_ARG;
}

#ifdef HAVE_AESGCM
static int of_gcm(enum fotsgure_gcm_status status)
{
    if (status == FOTSGURE_GCM_REFUSED)
        return AES_GCM_AUTH_E;
    return status == FOTSGURE_GCM_DONE ? 0 : BAD_FUNC_ARG;
}

static int gcm_encrypt(const wc_CryptoInfo *info, const struct fotsgure_gcm *key)
{
    byte tag[FOTSGURE_GCM_TAG];
    const word32 size = info->cipher.aesgcm_enc.sz, tag_size = info->cipher.aesgcm_enc.authTagSz;
    if (tag_size < WOLFSSL_MIN_AUTH_TAG_SZ || tag_size > sizeof tag || info->cipher.aesgcm_enc.ivSz == 0)
        return BAD_FUNC_ARG;
    put(info->cipher.aesgcm_enc.out, info->cipher.aesgcm_enc.in, size);
    const int failed = of_gcm(fotsgure_gcm_seal(key, info->cipher.aesgcm_enc.iv, info->cipher.aesgcm_enc.ivSz,
        info->cipher.aesgcm_enc.authIn, info->cipher.aesgcm_enc.authInSz, info->cipher.aesgcm_enc.out, size, tag));
    if (!failed)
        memcpy(info->cipher.aesgcm_enc.authTag, tag, tag_size);
    return failed;
}

/* Compares the tag, and then decrypts. Tags of 5, 6, 7, 9, 10 and 11 bytes, which SP 800-38D doesn't allow, are left to wolfSSL. */
static int gcm_decrypt(const wc_CryptoInfo *info, const struct fotsgure_gcm *key)
{
    struct fotsgure_gcm_message message;
    const word32 size = info->cipher.aesgcm_dec.sz, tag_size = info->cipher.aesgcm_dec.authTagSz;
    const byte *const tag = info->cipher.aesgcm_dec.authTag;
    if (tag_size != 4 && tag_size != 8 && (tag_size < 12 || tag_size > 16))
        return CRYPTOCB_UNAVAILABLE;
    enum fotsgure_gcm_status status = fotsgure_gcm_begin(key, &message, info->cipher.aesgcm_dec.iv, info->cipher.aesgcm_dec.ivSz);
    if (status == FOTSGURE_GCM_DONE)
        status = fotsgure_gcm_additional(key, &message, info->cipher.aesgcm_dec.authIn, info->cipher.aesgcm_dec.authInSz);
    if (status == FOTSGURE_GCM_DONE)
        status = fotsgure_gcm_verify(key, &message, info->cipher.aesgcm_dec.in, size);
    if (status == FOTSGURE_GCM_DONE)
        status = tag_size == 16 ? fotsgure_gcm_accept(key, &message, tag, tag_size)
                                : fotsgure_gcm_accept_short(key, &message, tag_size, tag, tag_size);
    if (status == FOTSGURE_GCM_DONE) {
        put(info->cipher.aesgcm_dec.out, info->cipher.aesgcm_dec.in, size);
        status = fotsgure_gcm_decrypt(key, &message, info->cipher.aesgcm_dec.out, size);
    }
    fotsgure_gcm_wipe_message(&message);
    return of_gcm(status);
}

static int gcm(const wc_CryptoInfo *info)
{
    struct fotsgure_gcm key;
    const Aes *aes = info->cipher.enc ? info->cipher.aesgcm_enc.aes : info->cipher.aesgcm_dec.aes;
    if (aes == NULL)
        return CRYPTOCB_UNAVAILABLE;
    int result = of_gcm(fotsgure_gcm_set_key(&key, (const byte *)aes->devKey, (size_t)aes->keylen));
    if (result == 0)
        result = info->cipher.enc ? gcm_encrypt(info, &key) : gcm_decrypt(info, &key);
    fotsgure_gcm_wipe(&key);
    return result;
}
#endif

#ifdef HAVE_AESCCM
/* (What fails leaves zeros, as in wolfSSL's own code.) */
static int of_ccm(enum fotsgure_aes_status status, byte *out, word32 size)
{
    if (status != FOTSGURE_AES_DONE)
        memset(out, 0, size);
    return status == FOTSGURE_AES_REFUSED ? AES_CCM_AUTH_E : of_aes(status);
}

static int ccm(const wc_CryptoInfo *info, const struct fotsgure_aes *key)
{
    if (info->cipher.enc) {
        const word32 size = info->cipher.aesccm_enc.sz;
        byte *const out = info->cipher.aesccm_enc.out;
        put(out, info->cipher.aesccm_enc.in, size);
        return of_ccm(
            fotsgure_aes_ccm_seal(key, info->cipher.aesccm_enc.nonce, info->cipher.aesccm_enc.nonceSz, info->cipher.aesccm_enc.authIn,
                info->cipher.aesccm_enc.authInSz, out, size, info->cipher.aesccm_enc.authTag, info->cipher.aesccm_enc.authTagSz),
            out, size);
    }
    const word32 size = info->cipher.aesccm_dec.sz;
    byte *const out = info->cipher.aesccm_dec.out;
    put(out, info->cipher.aesccm_dec.in, size);
    return of_ccm(fotsgure_aes_ccm_open(key, info->cipher.aesccm_dec.nonce, info->cipher.aesccm_dec.nonceSz, info->cipher.aesccm_dec.authIn,
                      info->cipher.aesccm_dec.authInSz, out, size, info->cipher.aesccm_dec.authTag, info->cipher.aesccm_dec.authTagSz),
        out, size);
}
#endif

#ifdef HAVE_AES_CBC
/* wolfSSL leaves the bytes behind the last whole block alone, unless it was compiled to refuse them. */
static int cbc(const wc_CryptoInfo *info, const struct fotsgure_aes *key)
{
    struct fotsgure_aes_cbc chain;
    byte *const out = info->cipher.aescbc.out;
    const word32 count = info->cipher.aescbc.sz / 16;
#ifdef WOLFSSL_AES_CBC_LENGTH_CHECKS
    if (info->cipher.aescbc.sz % 16 != 0)
        return BAD_LENGTH_E;
#endif
    memcpy(chain.previous, info->cipher.aescbc.aes->reg, 16);
    put(out, info->cipher.aescbc.in, count * 16);
    const int failed =
        of_aes(info->cipher.enc ? fotsgure_aes_cbc_encrypt(key, &chain, out, count) : fotsgure_aes_cbc_decrypt(key, &chain, out, count));
    memcpy(info->cipher.aescbc.aes->reg, chain.previous, 16);
    return failed;
}
#endif

#ifdef WOLFSSL_AES_COUNTER
/* Adds to a number of 128 bits, highest byte first. */
static void count_on(byte counter[16], word32 blocks)
{
    for (int i = 15; i >= 0; i--) {
        blocks += counter[i];
        counter[i] = (byte)blocks;
        blocks >>= 8;
    }
}

/* An Aes has the next counter block in `reg`, and in `tmp` the last `left` bytes of a block of keystream. */
static int counter(const wc_CryptoInfo *info, const struct fotsgure_aes *key)
{
    Aes *const aes = info->cipher.aesctr.aes;
    byte *out = info->cipher.aesctr.out, *const stream = (byte *)aes->tmp;
    word32 size = info->cipher.aesctr.sz;
    struct fotsgure_aes_ctr ctr = {{0}, 0};
    put(out, info->cipher.aesctr.in, size);
    for (; aes->left > 0 && size > 0; aes->left--, size--)
        *out++ ^= stream[16 - aes->left];
    memcpy(ctr.iv, aes->reg, 16);
    int failed = of_aes(fotsgure_aes_add_keystream(key, &ctr, out, size / 16 * 16));
    count_on((byte *)aes->reg, size / 16);
    if (size % 16 > 0) {
        out += size / 16 * 16;
        memset(stream, 0, 16);
        failed |= of_aes(fotsgure_aes_add_keystream(key, &ctr, stream, 16));
        count_on((byte *)aes->reg, 1);
        for (word32 i = 0; i < size % 16; i++)
            out[i] ^= stream[i];
        aes->left = 16 - size % 16;
    }
    return failed ? BAD_FUNC_ARG : 0;
}
#endif

#ifdef HAVE_AES_ECB
static int ecb(const wc_CryptoInfo *info, const struct fotsgure_aes *key)
{
    byte *const out = info->cipher.aesecb.out;
    const word32 count = info->cipher.aesecb.sz / 16;
    if (info->cipher.aesecb.sz % 16 != 0)
        return BAD_FUNC_ARG;
    put(out, info->cipher.aesecb.in, info->cipher.aesecb.sz);
    return of_aes(info->cipher.enc ? fotsgure_aes_encrypt_blocks(key, out, count) : fotsgure_aes_decrypt_blocks(key, out, count));
}
#endif

/* The Aes of a call, and what serves it. */
struct served {
    const Aes *aes;
    int (*by)(const wc_CryptoInfo *info, const struct fotsgure_aes *key);
};

static struct served served_by(const wc_CryptoInfo *info)
{
    switch (info->cipher.type) {
#ifdef HAVE_AESCCM
    case WC_CIPHER_AES_CCM: return (struct served){info->cipher.enc ? info->cipher.aesccm_enc.aes : info->cipher.aesccm_dec.aes, ccm};
#endif
#ifdef HAVE_AES_CBC
    case WC_CIPHER_AES_CBC: return (struct served){info->cipher.aescbc.aes, cbc};
#endif
#ifdef WOLFSSL_AES_COUNTER
    case WC_CIPHER_AES_CTR: return (struct served){info->cipher.aesctr.aes, counter};
#endif
#ifdef HAVE_AES_ECB
    case WC_CIPHER_AES_ECB: return (struct served){info->cipher.aesecb.aes, ecb};
#endif
    default: return (struct served){NULL, NULL};
    }
}

int fotsgure_wolfssl_callback(int device, wc_CryptoInfo *info, void *context)
{
    struct fotsgure_aes key;
    (void)device;
    (void)context;
    if (info == NULL || info->algo_type != WC_ALGO_TYPE_CIPHER)
        return CRYPTOCB_UNAVAILABLE;
#ifdef HAVE_AESGCM
    if (info->cipher.type == WC_CIPHER_AES_GCM)
        return gcm(info);
#endif
    const struct served served = served_by(info);
    if (served.aes == NULL)
        return CRYPTOCB_UNAVAILABLE;
    int result = of_aes(fotsgure_aes_set_key(&key, (const byte *)served.aes->devKey, (size_t)served.aes->keylen));
    if (result == 0)
        result = served.by(info, &key);
    fotsgure_aes_wipe(&key);
    return result;
}
