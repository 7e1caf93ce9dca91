/* For an emulated Cortex-M4: mbedtls' self-tests of what uses AES (SELF_TESTS), or how many instructions its calls need. qemu counts them:
 * by -icount shift=0 an instruction lasts 1 ns, and the timer SysTick of mps2-an386 counts 40 ns. */
#include <stdio.h>
#include "mbedtls/aes.h"
#include "mbedtls/ccm.h"
#include "mbedtls/cmac.h"
#include "mbedtls/ctr_drbg.h"
#include "mbedtls/gcm.h"
#include "mbedtls/nist_kw.h"

#ifdef SELF_TESTS
int main(void)
{
    int failed = 0;

    struct {
        const char *name;
        int (*run)(int);
    } const all[] = {{"AES", mbedtls_aes_self_test}, {"GCM", mbedtls_gcm_self_test}, {"CCM", mbedtls_ccm_self_test},
        {"CMAC", mbedtls_cmac_self_test}, {"key wrap", mbedtls_nist_kw_self_test}, {"CTR_DRBG", mbedtls_ctr_drbg_self_test}};

    for (size_t i = 0; i < sizeof all / sizeof *all; i++) {
        const int status = all[i].run(0);
        printf("%s %s\n", status ? "FAILED" : "passed", all[i].name);
        failed += status != 0;
    }
    return failed > 0;
}
#else
static unsigned char text[1024], tag[16];
static mbedtls_aes_context aes;
static mbedtls_gcm_context gcm;
static mbedtls_ccm_context ccm;

static volatile unsigned *const systick = (volatile unsigned *)0xE000E010; /* control, reload, current */
static unsigned begun;

static void begin(void)
{
    systick[0] = 0;
    systick[1] = 0xFFFFFF;
    systick[2] = 0;
    systick[0] = 5; /* on, by the processor's clock */
    begun = systick[2];
}

static void end(const char *what, unsigned blocks)
{
    const unsigned ticks = (begun - systick[2]) & 0xFFFFFF;
    printf("%-34s %8u\n", what, (unsigned)((unsigned long long)ticks * 40 / blocks));
}

#define TIMES 100
#define MEASURE(what, blocks, call) \
    do { \
        int status_ = 0; \
        begin(); \
        for (int i_ = 0; i_ < TIMES; i_++) \
            status_ |= (call); \
        end(what, (blocks)*TIMES); \
        if (status_) \
            printf("FAILED: " what "\n"); \
    } while (0)

int main(void)
{
    static const unsigned char key[32] = {1, 2, 3};
    unsigned char iv[16] = {0}, stream[16];
    size_t used = 0;
    mbedtls_aes_init(&aes);
    mbedtls_gcm_init(&gcm);
    mbedtls_ccm_init(&ccm);
    printf("%-34s %8u\n%-34s %8u\n%-34s %8u\n", "AES: bytes of a context", (unsigned)sizeof aes, "GCM: bytes of a context",
        (unsigned)sizeof gcm, "CCM: bytes of a context", (unsigned)sizeof ccm);
    MEASURE("AES: a key to encrypt", 1, mbedtls_aes_setkey_enc(&aes, key, 128));
    MEASURE("AES: a block", 1, mbedtls_aes_crypt_ecb(&aes, MBEDTLS_AES_ENCRYPT, text, text));
    MEASURE("CBC encrypts 64: a block", 64, mbedtls_aes_crypt_cbc(&aes, MBEDTLS_AES_ENCRYPT, 1024, iv, text, text));
    MEASURE("CTR, 64: a block", 64, mbedtls_aes_crypt_ctr(&aes, 1024, &used, iv, stream, text, text));
    MEASURE("AES: a key to decrypt", 1, mbedtls_aes_setkey_dec(&aes, key, 128));
    MEASURE("CBC decrypts 64: a block", 64, mbedtls_aes_crypt_cbc(&aes, MBEDTLS_AES_DECRYPT, 1024, iv, text, text));
    MEASURE("GCM: a key", 1, mbedtls_gcm_setkey(&gcm, MBEDTLS_CIPHER_ID_AES, key, 128));
    MEASURE(
        "GCM encrypts 64: a block", 64, mbedtls_gcm_crypt_and_tag(&gcm, MBEDTLS_GCM_ENCRYPT, 1024, iv, 12, key, 13, text, text, 16, tag));
    MEASURE("GCM decrypts 64 in pieces: a block", 64,
        mbedtls_gcm_crypt_and_tag(&gcm, MBEDTLS_GCM_DECRYPT, 1024, iv, 12, key, 13, text, text, 16, tag));
    MEASURE("GCM encrypts one block", 1, mbedtls_gcm_crypt_and_tag(&gcm, MBEDTLS_GCM_ENCRYPT, 16, iv, 12, key, 13, text, text, 16, tag));
    MEASURE("GCM, one block there and back", 1,
        mbedtls_gcm_crypt_and_tag(&gcm, MBEDTLS_GCM_ENCRYPT, 16, iv, 12, key, 13, text, text, 16, tag) ||
            mbedtls_gcm_auth_decrypt(&gcm, 16, iv, 12, key, 13, tag, 16, text, text));
    MEASURE("CCM: a key", 1, mbedtls_ccm_setkey(&ccm, MBEDTLS_CIPHER_ID_AES, key, 128));
    MEASURE("CCM encrypts 64: a block", 64, mbedtls_ccm_encrypt_and_tag(&ccm, 1024, iv, 12, key, 13, text, text, tag, 16));
    MEASURE("CCM encrypts one block", 1, mbedtls_ccm_encrypt_and_tag(&ccm, 16, iv, 12, key, 13, text, text, tag, 16));
    MEASURE("CMAC of 64, with its key: a block", 64,
        mbedtls_cipher_cmac(mbedtls_cipher_info_from_type(MBEDTLS_CIPHER_AES_128_ECB), key, 128, text, 1024, tag));
    return 0;
}
#endif
