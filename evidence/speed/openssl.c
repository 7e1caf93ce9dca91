/* OpenSSL by EVP. With HOW, ADD and FOLDER it is the module for OpenSSL that this folder has. */
#include "engine.h"
#include <openssl/evp.h>
#include <openssl/provider.h>
#include <stdlib.h>

#ifndef ADD
#define ADD add_openssl
#endif
/* Whose providers are asked: 0 is OpenSSL's own. */
static OSSL_LIB_CTX *from;

/* A context for each size of keys, which knows its cipher before the clock starts. */
static EVP_CIPHER_CTX *blocks[2][3], *ctr[3];
static int now;

static void set_key(enum direction to, const uint8_t *key, size_t n)
{
    now = size_of(n);
    (to == ENCRYPT ? EVP_EncryptInit_ex2 : EVP_DecryptInit_ex2)(blocks[to][now], 0, key, 0, 0);
}

static void process(enum direction to, uint8_t *b, size_t count)
{
    int l;
    (to == ENCRYPT ? EVP_EncryptUpdate : EVP_DecryptUpdate)(blocks[to][now], b, &l, b, (int)(16 * count));
}

static void stream(const uint8_t *key, size_t n, const uint8_t *iv, uint8_t *data, size_t length)
{
    int l;
    EVP_EncryptInit_ex2(ctr[size_of(n)], 0, key, iv, 0);
    EVP_EncryptUpdate(ctr[size_of(n)], data, &l, data, (int)length);
}

static EVP_CIPHER_CTX *context(const char *name, int encrypts)
{
    static const uint8_t zeros[32];
    EVP_CIPHER_CTX *it = EVP_CIPHER_CTX_new();
    EVP_CipherInit_ex2(it, EVP_CIPHER_fetch(from, name, 0), zeros, zeros, encrypts, 0);
    EVP_CIPHER_CTX_set_padding(it, 0);
    return it;
}

static EVP_CIPHER_CTX *gcm;

static void gcm_key(const uint8_t *key)
{
    EVP_EncryptInit_ex2(gcm, 0, key, 0, 0);
}

static void seal(const struct message *m)
{
    int l;
    EVP_EncryptInit_ex2(gcm, 0, 0, m->nonce, 0);
    if (m->extra)
        EVP_EncryptUpdate(gcm, 0, &l, m->additional, (int)m->extra);
    if (m->length)
        EVP_EncryptUpdate(gcm, m->text, &l, m->text, (int)m->length);
    EVP_EncryptFinal_ex(gcm, m->text, &l);
    EVP_CIPHER_CTX_ctrl(gcm, EVP_CTRL_GCM_GET_TAG, 16, m->tag);
}

static const struct { const char *name; int encrypts; } modes[MODES] = {
    [MODE_GCM] = {"AES-128-GCM", 1}, [MODE_GCM_OPEN] = {"AES-128-GCM", 0}, [MODE_CTR] = {"AES-128-CTR", 1},
    [MODE_CBC] = {"AES-128-CBC", 1}, [MODE_CBC_DECRYPT] = {"AES-128-CBC", 0}, [MODE_ECB] = {"AES-128-ECB", 1}};
static EVP_CIPHER_CTX *of_mode[MODES];

static void mode_key(enum mode mode, const uint8_t *key)
{
    static const uint8_t iv[16];
    EVP_CipherInit_ex2(of_mode[mode], 0, key, iv, -1, 0);
}

static int process_message(enum mode mode, const uint8_t *iv, const uint8_t *in, uint8_t *out, size_t length)
{
    static uint8_t wrong[16];
    int l = 0, last;
    if (mode == MODE_GCM_OPEN)
        EVP_CIPHER_CTX_ctrl(of_mode[mode], EVP_CTRL_AEAD_SET_TAG, sizeof wrong, wrong);
    return EVP_CipherInit_ex2(of_mode[mode], 0, 0, iv, -1, 0) && EVP_CipherUpdate(of_mode[mode], out, &l, in, (int)length) &&
           EVP_CipherFinal_ex(of_mode[mode], out + l, &last) > 0;
}

void ADD(enum run run)
{
    static const char *const ecb[] = {"AES-128-ECB", "AES-192-ECB", "AES-256-ECB"};
    static const char *const mode[] = {"AES-128-CTR", "AES-192-CTR", "AES-256-CTR"};
#ifdef FOLDER
    from = OSSL_LIB_CTX_new();
    OSSL_PROVIDER_set_default_search_path(from, FOLDER);
    if (!OSSL_PROVIDER_load(from, "fotsgure"))
        exit(3);
#endif
    for (int i = 0; i < 3; i++) {
        for (int to = 0; to < 2; to++)
            blocks[to][i] = context(ecb[i], to == ENCRYPT);
        ctr[i] = context(mode[i], 1);
    }
    gcm = context("AES-128-GCM", 1);
    for (int i = 0; i < MODES; i++)
        of_mode[i] = context(modes[i].name, modes[i].encrypts);
#ifdef FOLDER
    (void)run;
    add(&(struct engine){"the module", HOW, "hybrid", BLOCKS, .stream = stream, GCM, MESSAGES});
#else
    /* Without AES instructions counter mode and CBC decryption of long inputs are bitsliced, and the rest is by vector permutations. */
    static const char *const how[] = {"AES instructions", "SSSE3 permutations"}, *const kind[] = {"instructions", "permutations"};
    add(&(struct engine){"OpenSSL", how[run], kind[run], BLOCKS, .stream = stream, GCM, MESSAGES});
#endif
}
