/* Uses AES, a hash and random numbers as programs do, and prints which provider served each. */
#include "command.h"

#include <openssl/evp.h>
#include <openssl/provider.h>
#include <openssl/rand.h>
#include <stdio.h>
#include <string.h>

#define HASH "SHA2-256"

static const char *name_of(const OSSL_PROVIDER *provider)
{
    return provider ? OSSL_PROVIDER_get0_name(provider) : "none";
}

/* Encrypts 32 bytes, a length that every mode allows, also key wrap. */
static int encrypts(const EVP_CIPHER *cipher)
{
    const unsigned char zeros[32] = {0};
    unsigned char out[64];
    int length;
    EVP_CIPHER_CTX *ctx = EVP_CIPHER_CTX_new();
    if (!ctx)
        return 0;
    EVP_CIPHER_CTX_set_flags(ctx, EVP_CIPHER_CTX_FLAG_WRAP_ALLOW);
    int done = EVP_EncryptInit_ex2(ctx, cipher, zeros, zeros, NULL) && EVP_EncryptUpdate(ctx, out, &length, zeros, sizeof zeros) > 0;
    EVP_CIPHER_CTX_free(ctx);
    return done;
}

/* Prints the provider that serves an algorithm. Returns 1 if that is ours. */
static int is_ours(const char *name)
{
    EVP_CIPHER *cipher = EVP_CIPHER_fetch(NULL, name, NULL);
    const char *provider = cipher ? name_of(EVP_CIPHER_get0_provider(cipher)) : "none";
    int works = cipher && encrypts(cipher), ours = works && strcmp(provider, "fotsgure") == 0;
    printf("%s: %s%s\n", name, provider, cipher && !works ? ", which fails" : "");
    EVP_CIPHER_free(cipher);
    return ours;
}

/* How many algorithms come from elsewhere. */
static int count_others(void)
{
    static const char *const modes[] = {"ECB", "CBC", "CTR", "GCM", "WRAP", "WRAP-PAD", "WRAP-INV", "WRAP-PAD-INV"};
    static const int bits[] = {128, 192, 256};
    int others = 0;
    for (size_t i = 0; i < sizeof modes / sizeof *modes; i++) {
        for (size_t k = 0; k < sizeof bits / sizeof *bits; k++) {
            char name[32];
            snprintf(name, sizeof name, "AES-%d-%s", bits[k], modes[i]);
            others += !is_ours(name);
        }
    }
    others += !is_ours("AES-128-GCM-SIV");
    return others + !is_ours("AES-256-GCM-SIV");
}

static int has_hash(void)
{
    unsigned char out[EVP_MAX_MD_SIZE];
    EVP_MD *hash = EVP_MD_fetch(NULL, HASH, NULL);
    int done = hash && EVP_Digest("", 0, out, NULL, hash, NULL);
    printf(HASH ": %s\n", done ? name_of(EVP_MD_get0_provider(hash)) : "none");
    EVP_MD_free(hash);
    return done;
}

static int has_random_numbers(void)
{
    unsigned char out[32];
    int done = RAND_bytes(out, sizeof out) == 1;
    EVP_RAND_CTX *generator = done ? RAND_get0_public(NULL) : NULL;
    printf("random numbers: %s\n", !done ? "none" : generator ? name_of(EVP_RAND_get0_provider(EVP_RAND_CTX_get0_rand(generator)))
                                                             : "not from a provider");
    return done;
}

enum exit_status of_this_environment(void)
{
    int others = count_others(), hash = has_hash(), random_numbers = has_random_numbers();
    if (others > 0) {
        printf("%d algorithms don't come from fotsgure: ", others);
        print_reason();
    }
    if (hash && random_numbers)
        return others > 0 ? NOT_SERVED : SERVED;
    printf("Programs find no %s: write ?provider=fotsgure with its question mark, and activate the provider default\n",
        hash ? "random numbers" : "hash");
    return BROKEN;
}
