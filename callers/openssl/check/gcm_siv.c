/* AES-GCM-SIV through OpenSSL's interface: messages of RFC 8452, appendices C.1 and C.2; random ones there and back, and
 * beside OpenSSL's own provider if that has the mode (3.2 and later); what is refused.
 * usage: OPENSSL_MODULES=FOLDER gcm_siv    (the folder of fotsgure.so). The last line is 'N passed, M failed'. */
#include <openssl/core_names.h>
#include <openssl/evp.h>
#include <openssl/provider.h>
#include <openssl/rand.h>
#include <stdio.h>
#include <string.h>

#define MOST 400

static int passed, failed;
static const unsigned char key[32] = {1}, nonce[12] = {3};

static void check(const char *what, int holds)
{
    holds ? passed++ : failed++;
    if (!holds)
        printf("FAILED: %s\n", what);
}

struct message {
    const char *name, *provider;
    const unsigned char *key, *nonce, *additional;
    int additional_length, cut;   /* the additional data comes in two pieces */
    int length;
    unsigned char text[MOST], tag[16];
};

static EVP_CIPHER_CTX *begun(const struct message *it, int encrypts)
{
    EVP_CIPHER *cipher = EVP_CIPHER_fetch(NULL, it->name, it->provider);
    EVP_CIPHER_CTX *ctx = EVP_CIPHER_CTX_new();
    int length;
    if (!EVP_CipherInit_ex2(ctx, cipher, it->key, it->nonce, encrypts, NULL) ||
        !EVP_CipherUpdate(ctx, NULL, &length, it->additional, it->cut) ||
        !EVP_CipherUpdate(ctx, NULL, &length, it->additional + it->cut, it->additional_length - it->cut))
        EVP_CIPHER_CTX_free(ctx), ctx = NULL;
    EVP_CIPHER_free(cipher);
    return ctx;
}

/* Encrypts a message in place by a copy of its context, or decrypts it. Returns whether that is done. */
static int process(struct message *it, int encrypts)
{
    EVP_CIPHER_CTX *first = begun(it, encrypts), *ctx = EVP_CIPHER_CTX_new();
    int length = 0, rest = 0, done = first && EVP_CIPHER_CTX_copy(ctx, first);
    EVP_CIPHER_CTX_free(first);
    done = done && (encrypts || EVP_CIPHER_CTX_ctrl(ctx, EVP_CTRL_AEAD_SET_TAG, 16, it->tag)) &&
        EVP_CipherUpdate(ctx, it->text, &length, it->text, it->length) &&
        EVP_CipherFinal_ex(ctx, it->text + length, &rest) && length == it->length && rest == 0 &&
        (!encrypts || EVP_CIPHER_CTX_ctrl(ctx, EVP_CTRL_AEAD_GET_TAG, 16, it->tag));
    EVP_CIPHER_CTX_free(ctx);
    return done;
}

/* Under the key 1, 0 .. and the nonce 3, 0 ..: the text 1, 0 .., and the additional data 1 if there is some. */
static void known_answer(const char *name, int additional, int length, const char *sealed, const char *tag)
{
    struct message it = {name, "provider=fotsgure", key, nonce, key, additional, 0, length, {additional ? 2 : 1}, {0}};
    check("RFC 8452, sealed", process(&it, 1) && memcmp(it.text, sealed, (size_t)length) == 0 &&
        memcmp(it.tag, tag, 16) == 0);
    check("RFC 8452, opened", process(&it, 0) && it.text[0] == (additional ? 2 : 1));
    it.tag[7] ^= 1;
    check("RFC 8452, refused", process(&it, 1) && (it.tag[7] ^= 1, !process(&it, 0)));
}

static void random_message(int is_wide, int has_theirs)
{
    unsigned char bytes[32 + 12 + MOST], lengths[4];
    RAND_bytes(bytes, sizeof bytes), RAND_bytes(lengths, sizeof lengths);
    struct message it = {is_wide ? "AES-256-GCM-SIV" : "AES-128-GCM-SIV", "provider=fotsgure", bytes, bytes + 32,
        bytes + 44, lengths[0], lengths[1] % (lengths[0] + 1), lengths[2] + lengths[3] % 100, {0}, {0}}, theirs;
    RAND_bytes(it.text, MOST);
    struct message plain = theirs = it;
    theirs.provider = "provider=default";
    check("a random message is sealed", process(&it, 1));
    if (has_theirs)
        check("as by OpenSSL's provider", process(&theirs, 1) && memcmp(it.text, theirs.text, (size_t)it.length) == 0 &&
            memcmp(it.tag, theirs.tag, 16) == 0);
    struct message changed = it;
    changed.tag[lengths[1] % 16] ^= 4;
    check("a random message that was changed is refused", !process(&changed, 0));
    check("a random message comes back", process(&it, 0) && memcmp(it.text, plain.text, (size_t)it.length) == 0);
}

static void refusals(void)
{
    struct message it = {"AES-256-GCM-SIV", "provider=fotsgure", key, nonce, key, 5, 2, 20, {0}, {0}};
    unsigned char bytes[20] = {0}, tag[16];
    int length;
    EVP_CIPHER_CTX *ctx = begun(&it, 1);
    check("no tag before the text", EVP_CIPHER_CTX_ctrl(ctx, EVP_CTRL_AEAD_GET_TAG, 16, tag) <= 0);
    check("text comes once", EVP_CipherUpdate(ctx, bytes, &length, bytes, 20) &&
        !EVP_CipherUpdate(ctx, bytes, &length, bytes, 20));
    check("no additional data after text", !EVP_CipherUpdate(ctx, NULL, &length, bytes, 20));
    EVP_CIPHER_CTX_free(ctx), ctx = begun(&it, 0);
    check("no text before the tag to compare", !EVP_CipherUpdate(ctx, bytes, &length, bytes, 20));
    EVP_CIPHER_CTX_free(ctx), ctx = begun(&it, 0);
    memset(bytes, 7, sizeof bytes);
    check("no tag of 15 bytes", EVP_CIPHER_CTX_ctrl(ctx, EVP_CTRL_AEAD_SET_TAG, 15, tag) <= 0);
    memset(tag, 0, sizeof tag);
    check("a wrong tag gives out nothing", EVP_CIPHER_CTX_ctrl(ctx, EVP_CTRL_AEAD_SET_TAG, 16, tag) &&
        !EVP_CipherUpdate(ctx, bytes, &length, bytes, 20) && bytes[0] == 7 && bytes[19] == 7 &&
        !EVP_CipherFinal_ex(ctx, bytes, &length));
    check("and no other text under this nonce", !EVP_CipherUpdate(ctx, bytes, &length, bytes, 20));
    EVP_CIPHER_CTX_free(ctx);
    it.nonce = NULL;
    check("no message without a nonce", !begun(&it, 1));
    it.name = "AES-192-GCM-SIV";
    check("no keys of 24 bytes", !EVP_CIPHER_fetch(NULL, it.name, it.provider));
}

int main(void)
{
    OSSL_PROVIDER *theirs = OSSL_PROVIDER_load(NULL, "default"), *ours = OSSL_PROVIDER_load(NULL, "fotsgure");
    if (!theirs || !ours)
        return 2;
    EVP_CIPHER *other = EVP_CIPHER_fetch(NULL, "AES-128-GCM-SIV", "provider=default");
    known_answer("AES-128-GCM-SIV", 0, 0, "", "\xdc\x20\xe2\xd8\x3f\x25\x70\x5b\xb4\x9e\x43\x9e\xca\x56\xde\x25");
    known_answer("AES-128-GCM-SIV", 0, 8, "\xb5\xd8\x39\x33\x0a\xc7\xb7\x86",
        "\x57\x87\x82\xff\xf6\x01\x3b\x81\x5b\x28\x7c\x22\x49\x3a\x36\x4c");
    known_answer("AES-128-GCM-SIV", 1, 8, "\x1e\x6d\xab\xa3\x56\x69\xf4\x27",
        "\x3b\x0a\x1a\x25\x60\x96\x9c\xdf\x79\x0d\x99\x75\x9a\xbd\x15\x08");
    known_answer("AES-256-GCM-SIV", 0, 8, "\xc2\xef\x32\x8e\x5c\x71\xc8\x3b",
        "\x84\x31\x22\x13\x0f\x73\x64\xb7\x61\xe0\xb9\x74\x27\xe3\xdf\x28");
    known_answer("AES-256-GCM-SIV", 1, 8, "\x1d\xe2\x29\x67\x23\x7a\x81\x32",
        "\x91\x21\x3f\x26\x7e\x3b\x45\x2f\x02\xd0\x1a\xe3\x3e\x4e\xc8\x54");
    for (int i = 0; i < 2000; i++)
        random_message(i % 2, other != NULL);
    refusals();
    if (!other)
        printf("skipped: OpenSSL's own AES-GCM-SIV (it came with 3.2)\n");
    EVP_CIPHER_free(other);
    OSSL_PROVIDER_unload(ours), OSSL_PROVIDER_unload(theirs);
    printf("%d passed, %d failed\n", passed, failed);
    return failed != 0;
}
