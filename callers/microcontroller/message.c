/* Encrypts a message by AES-GCM on a microcontroller, and writes what is sent as hexadecimal digits: the nonce, the text and the tag.
 * docs/MICROCONTROLLERS.md shows how to build it for a Cortex-M4 and for 32-bit RISC-V, and how to run it under qemu. */
#include <fotsgure_gcm.h>
#include <stdio.h>
#include <string.h>

static void put(const char *what, const uint8_t *bytes, size_t count)
{
    printf("%s ", what);
    for (size_t i = 0; i < count; i++)
        printf("%02x", bytes[i]);
    printf("\n");
}

/* On a board, `key` is read from where it was put when the board was made. `next` is kept in flash (nonces.c). */
static int sealed(const uint8_t key[16], struct fotsgure_gcm_counter *next, uint8_t *text, size_t length)
{
    struct fotsgure_gcm gcm;
    uint8_t nonce[FOTSGURE_GCM_NONCE], tag[FOTSGURE_GCM_TAG];
    int done = fotsgure_gcm_set_key(&gcm, key, 16) == FOTSGURE_GCM_DONE &&
        fotsgure_gcm_seal_next(&gcm, next, nonce, NULL, 0, text, length, tag) == FOTSGURE_GCM_DONE;
    fotsgure_gcm_wipe(&gcm);
    if (done) {
        put("nonce", nonce, sizeof nonce);
        put("text", text, length);
        put("tag", tag, sizeof tag);
    }
    return done;
}

int main(void)
{
    static const uint8_t key[16] = {0, 1, 2, 3, 4, 5, 6, 7, 8, 9, 10, 11, 12, 13, 14, 15};
    struct fotsgure_gcm_counter next = {{0}};
    uint8_t text[] = "21.5 degrees";
    return !sealed(key, &next, text, sizeof text - 1);
}
