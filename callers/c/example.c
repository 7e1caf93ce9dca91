/* The example of FIPS 197, C.3: a block under a key of 32 bytes. Bare blocks protect no message: see fotsgure_gcm.h. */
#include <fotsgure_aes.h>
#include <stdio.h>

int main(void)
{
    uint8_t key[32], block[16];
    for (size_t i = 0; i < sizeof key; i++)
        key[i] = (uint8_t)i;
    for (size_t i = 0; i < sizeof block; i++)
        block[i] = (uint8_t)(0x11 * i);
    struct fotsgure_aes aes;
    int failed = fotsgure_aes_set_key(&aes, key, sizeof key) || fotsgure_aes_encrypt_blocks(&aes, block, 1);
    fotsgure_aes_wipe(&aes); /* the key schedule; the key is the program's own */
    for (size_t i = 0; i < sizeof block; i++)
        printf("%02x", block[i]);
    puts(" is the standard's 8ea2b7ca516745bfeafc49904b496089");
    if (fflush(stdout) != 0) {
        perror("example");
        return 1;
    }
    return failed;
}
