/* Counter mode with a nonce of 12 bytes: its counter block is the nonce and a number of 32 bits, from 1 on, as in RFC
 * 3686. Copy `add_message_keystream`; `main` runs the first test vector of that RFC. */
#include <fotsgure_aes.h>
#include <stdio.h>
#include <string.h>

/* Encrypts or decrypts a message in place. Never use a nonce for two messages under one key. A message of 64 GiB less 16
 * bytes, or more, is refused: a longer one would use counter blocks of other nonces. (The test is simple, so it also
 * refuses a message of just that length.) */
static enum fotsgure_aes_status add_message_keystream(const struct fotsgure_aes *aes, const uint8_t nonce[12],
    uint8_t *bytes, size_t count)
{
    struct fotsgure_aes_ctr ctr = {{0}, 0};
    memcpy(ctr.iv, nonce, 12);
    ctr.iv[15] = 1;
    return count / 16 >= UINT32_MAX ? FOTSGURE_AES_KEYSTREAM_END : fotsgure_aes_add_keystream(aes, &ctr, bytes, count);
}

int main(void)
{
    const uint8_t key[16] = {0xae, 0x68, 0x52, 0xf8, 0x12, 0x10, 0x67, 0xcc, 0x4b, 0xf7, 0xa5, 0x76, 0x55, 0x77, 0xf3,
        0x9e};
    const uint8_t nonce[12] = {0x00, 0x00, 0x00, 0x30};
    const uint8_t wanted[16] = {0xe4, 0x09, 0x5d, 0x4f, 0xb7, 0xa7, 0xb3, 0x79, 0x2d, 0x61, 0x75, 0xa3, 0x26, 0x13, 0x11,
        0xb8};
    uint8_t message[17] = "Single block msg";
    struct fotsgure_aes aes;
    int failed = fotsgure_aes_set_key(&aes, key, sizeof key) || add_message_keystream(&aes, nonce, message, 16);
    failed = failed || memcmp(message, wanted, 16) != 0;
    fotsgure_aes_wipe(&aes);
    puts(failed ? "nonce: failed" : "nonce: passed");
    if (fflush(stdout) != 0) {
        perror("nonce");
        return 1;
    }
    return failed;
}
