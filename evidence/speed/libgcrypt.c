/* Libgcrypt, which is told before it starts what it may not use. */
#include "engine.h"
#include <gcrypt.h>

static gcry_cipher_hd_t blocks[2][3], ctr[3];
static int now;

/* It makes the round keys of decryption when it first decrypts. */
static void set_key(enum direction to, const uint8_t *key, size_t n)
{
    now = size_of(n);
    gcry_cipher_setkey(blocks[to][now], key, n);
}

static void process(enum direction to, uint8_t *b, size_t count)
{
    (to == ENCRYPT ? gcry_cipher_encrypt : gcry_cipher_decrypt)(blocks[to][now], b, 16 * count, 0, 0);
}

static void stream(const uint8_t *key, size_t n, const uint8_t *iv, uint8_t *data, size_t length)
{
    if (key)
        gcry_cipher_setkey(ctr[size_of(n)], key, n);
    gcry_cipher_setctr(ctr[size_of(n)], iv, 16);
    gcry_cipher_encrypt(ctr[size_of(n)], data, length, 0, 0);
}

static gcry_cipher_hd_t gcm;

static void gcm_key(const uint8_t *key)
{
    gcry_cipher_setkey(gcm, key, 16);
}

static void seal(const struct message *m)
{
    gcry_cipher_setiv(gcm, m->nonce, 12);
    if (m->extra)
        gcry_cipher_authenticate(gcm, m->additional, m->extra);
    gcry_cipher_encrypt(gcm, m->text, m->length, 0, 0);
    gcry_cipher_gettag(gcm, m->tag, 16);
}

void add_libgcrypt(enum run run)
{
    static const int algorithm[] = {GCRY_CIPHER_AES128, GCRY_CIPHER_AES192, GCRY_CIPHER_AES256};
    static const char *const instructions[] = {"intel-aesni", "intel-pclmul", "intel-vaes-vpclmul"};
    for (int i = 0; i < 3 && run != ALL; i++)
        gcry_control(GCRYCTL_DISABLE_HWF, instructions[i], (void *)0);
    gcry_check_version(0);
    gcry_control(GCRYCTL_DISABLE_SECMEM, 0);
    gcry_control(GCRYCTL_INITIALIZATION_FINISHED, 0);
    for (int i = 0; i < 3; i++) {
        for (int to = 0; to < 2; to++)
            gcry_cipher_open(&blocks[to][i], algorithm[i], GCRY_CIPHER_MODE_ECB, 0);
        gcry_cipher_open(&ctr[i], algorithm[i], GCRY_CIPHER_MODE_CTR, 0);
    }
    gcry_cipher_open(&gcm, GCRY_CIPHER_AES128, GCRY_CIPHER_MODE_GCM, 0);
    static const char *const how[] = {"AES instructions", "SSSE3 permutations"}, *const kind[] = {"instructions", "permutations"};
    add(&(struct engine){"Libgcrypt", how[run], kind[run], BLOCKS, .stream = stream, GCM});
}
