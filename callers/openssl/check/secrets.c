/* Under valgrind: marks keys and texts as undefined, so that memcheck reports each branch and each address that depends
 * on them, and counts the reports of each step. A step fails if there are more than it allows.
 * usage: OPENSSL_MODULES=FOLDER valgrind -q ./secrets    (the folder of fotsgure.so) */
#include <openssl/core_names.h>
#include <openssl/evp.h>
#include <openssl/provider.h>
#include <stdio.h>
#include <string.h>
#include <valgrind/memcheck.h>

static int passed, failed;

static void step(const char *cipher, const char *what, unsigned long allowed)
{
    static unsigned long before;
    unsigned long now = VALGRIND_COUNT_ERRORS, reports = now - before;
    before = now;
    printf("%s: %s: %s: %lu reports\n", reports <= allowed ? "ok" : "FAILED", cipher, what, reports);
    if (reports <= allowed)
        passed++;
    else
        failed++;
}

/* A text of 971 bytes in two pieces, in GCM after additional data, encrypted and decrypted. */
static void message(const char *name)
{
    unsigned char key[32], iv[16] = {1}, text[1000], out[1100], tag[16];
    int count, more, gcm = strstr(name, "GCM") != NULL;
    EVP_CIPHER *cipher = EVP_CIPHER_fetch(NULL, name, "provider=fotsgure");
    EVP_CIPHER_CTX *ctx = EVP_CIPHER_CTX_new();
    memset(key, 7, sizeof key), memset(text, 9, sizeof text);
    VALGRIND_MAKE_MEM_UNDEFINED(key, sizeof key), VALGRIND_MAKE_MEM_UNDEFINED(text, sizeof text);
    EVP_EncryptInit_ex2(ctx, cipher, key, iv, NULL);
    if (gcm)
        EVP_EncryptUpdate(ctx, NULL, &count, text, 37);
    EVP_EncryptUpdate(ctx, out, &count, text, 500), EVP_EncryptUpdate(ctx, out + count, &more, text + 500, 471);
    count += more;
    EVP_EncryptFinal_ex(ctx, out + count, &more), count += more;
    if (gcm)
        EVP_CIPHER_CTX_ctrl(ctx, EVP_CTRL_AEAD_GET_TAG, sizeof tag, tag);
    step(name, "encrypts", 0);
    EVP_DecryptInit_ex2(ctx, cipher, key, iv, NULL);
    if (gcm)
        EVP_CIPHER_CTX_ctrl(ctx, EVP_CTRL_AEAD_SET_TAG, sizeof tag, tag), EVP_DecryptUpdate(ctx, NULL, &more, text, 37);
    EVP_DecryptUpdate(ctx, text, &more, out, count);
    step(name, "decrypts", 0);
    (void)EVP_DecryptFinal_ex(ctx, text + more, &more);
    step(name, "ends, which shows whether it was right, and the length", 99);
    EVP_CIPHER_CTX_free(ctx), EVP_CIPHER_free(cipher);
    step(name, "the context is wiped and freed", 0);
}

/* A record of TLS 1.2 by CBC. Its padding, and where its MAC is, are secret. */
static void record(int is_wrong)
{
    unsigned char key[16] = {7}, iv[16] = {1}, text[1000];
    const char *what = is_wrong ? "a record with wrong padding" : "a record";
    int count, more, version = 0x303;
    size_t mac = 32;
    OSSL_PARAM params[] = {OSSL_PARAM_int(OSSL_CIPHER_PARAM_TLS_VERSION, &version),
        OSSL_PARAM_size_t(OSSL_CIPHER_PARAM_TLS_MAC_SIZE, &mac), OSSL_PARAM_END};
    EVP_CIPHER *cipher = EVP_CIPHER_fetch(NULL, "AES-128-CBC", "provider=fotsgure");
    EVP_CIPHER_CTX *ctx = EVP_CIPHER_CTX_new();
    memset(text, 9, sizeof text);
    EVP_EncryptInit_ex2(ctx, cipher, key, iv, NULL), EVP_CIPHER_CTX_set_params(ctx, params);
    EVP_EncryptUpdate(ctx, text, &count, text, 500);
    EVP_DecryptInit_ex2(ctx, cipher, key, iv, NULL), EVP_CIPHER_CTX_set_params(ctx, params);
    VALGRIND_MAKE_MEM_UNDEFINED(text, sizeof text);
    text[count - 17] ^= (unsigned char)is_wrong;
    step(what, "is made", 0);
    EVP_DecryptUpdate(ctx, text, &more, text, count);
    step(what, "is opened", 1); /* EVP itself branches on the length, which is secret */
    EVP_CIPHER_CTX_free(ctx), EVP_CIPHER_free(cipher);
}

/* A key of 40 bytes, wrapped and unwrapped: by the library, or by the inverse cipher in the module. */
static void wrap(const char *name)
{
    unsigned char key[32], text[40], out[56], back[56];
    int count, more;
    EVP_CIPHER *cipher = EVP_CIPHER_fetch(NULL, name, "provider=fotsgure");
    EVP_CIPHER_CTX *ctx = EVP_CIPHER_CTX_new();
    EVP_CIPHER_CTX_set_flags(ctx, EVP_CIPHER_CTX_FLAG_WRAP_ALLOW);
    memset(key, 7, sizeof key), memset(text, 9, sizeof text);
    VALGRIND_MAKE_MEM_UNDEFINED(key, sizeof key), VALGRIND_MAKE_MEM_UNDEFINED(text, sizeof text);
    EVP_EncryptInit_ex2(ctx, cipher, key, NULL, NULL);
    EVP_EncryptUpdate(ctx, out, &count, text, sizeof text);
    step(name, "wraps", 0);
    EVP_DecryptInit_ex2(ctx, cipher, key, NULL, NULL);
    step(name, "sets the key again", 0);
    EVP_DecryptUpdate(ctx, back, &more, out, count);
    step(name, "unwraps, which shows whether it was right, and with padding the length", strstr(name, "PAD") ? 99 : 1);
    EVP_CIPHER_CTX_free(ctx), EVP_CIPHER_free(cipher);
    step(name, "the context is wiped and freed", 0);
}

int main(void)
{
    static const char *const names[] = {"AES-128-ECB", "AES-192-CBC", "AES-256-CTR", "AES-128-GCM", "AES-256-GCM"};
    static const char *const wraps[] = {"AES-128-WRAP", "AES-256-WRAP-PAD", "AES-192-WRAP-INV", "AES-256-WRAP-PAD-INV"};
    OSSL_PROVIDER_load(NULL, "default");
    if (!OSSL_PROVIDER_load(NULL, "fotsgure") || !RUNNING_ON_VALGRIND)
        return 2;
    for (size_t i = 0; i < sizeof names / sizeof *names; i++)
        message(names[i]);
    for (size_t i = 0; i < sizeof wraps / sizeof *wraps; i++)
        wrap(wraps[i]);
    record(0);
    record(1);
    printf("%d passed, %d failed\n", passed, failed);
    return failed != 0;
}
