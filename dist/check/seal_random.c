/* The call that draws a nonce, over a system that is played here. It tries what the call asks the system for, that it
 * continues after a signal, and that without randomness nothing is written. The last line is `PROGRAM: N passed, M failed`. */
#include <fotsgure_gcm.h>
#include <errno.h>
#include <stdio.h>
#include <string.h>
#include <sys/types.h>

#if defined(_WIN32)
#include <windows.h>
#include <bcrypt.h>
#elif defined(__linux__)
#include <sys/random.h>
#elif defined(__APPLE__)
#include <CommonCrypto/CommonRandom.h>
#else
#include <unistd.h>
#endif
#define getrandom played
#define BCryptGenRandom(of, bytes, count, flags) (played(bytes, count, 0) == (ssize_t)(count) ? 0 : -1)
#define CCRandomGenerateBytes(bytes, count) (played(bytes, count, 0) == (ssize_t)(count) ? kCCSuccess : -1)
#define getentropy(bytes, count) (played(bytes, count, 0) == (ssize_t)(count) ? 0 : -1)
static ssize_t played(void *bytes, size_t count, unsigned flags);
#include "../seal_random.c"
#include "check.h"

/* What the system does: 0 fails, 1 gives too few bytes, 2 is interrupted once and then gives all. */
static int mode, calls, asked_wrongly;

static ssize_t played(void *bytes, size_t count, unsigned flags)
{
    calls++;
    asked_wrongly |= count != FOTSGURE_GCM_SIV_NONCE || flags != 0;
    if (mode == 0) {
        errno = ENOSYS;
        return -1;
    }
#if defined(__linux__)
    if (mode == 2 && calls == 1) {
        errno = EINTR;
        return -1;
    }
#endif
    memset(bytes, 0xA5, count);
    return mode == 1 ? 5 : (ssize_t)count;
}

static const uint8_t name[] = "its name", plain[] = "a message", filled[16] = {7, 7, 7, 7, 7, 7, 7, 7, 7, 7, 7, 7, 7, 7, 7, 7};
static struct fotsgure_gcm_siv siv;

/* Whether a call returns a status and leaves everything as it was. */
static int refuses(enum fotsgure_gcm_status status)
{
    uint8_t nonce[12], tag[16], text[sizeof plain];
    memcpy(nonce, filled, sizeof nonce);
    memcpy(tag, filled, sizeof tag);
    memcpy(text, plain, sizeof text);
    return fotsgure_gcm_siv_seal_random(&siv, nonce, name, sizeof name, text, sizeof text, tag) == status &&
        !memcmp(nonce, filled, sizeof nonce) && !memcmp(tag, filled, sizeof tag) && !memcmp(text, plain, sizeof text);
}

int main(void)
{
    static const uint8_t key[32] = {1, 2, 3};
    uint8_t nonce[12], tag[16], text[sizeof plain], other[sizeof plain], other_tag[16];
    expect(fotsgure_gcm_siv_set_key(&siv, key, sizeof key) == FOTSGURE_GCM_DONE, "a key", 0);
    mode = 0;
    expect(refuses(FOTSGURE_GCM_NO_RANDOMNESS), "a system that fails", 0);
    mode = 1;
    expect(refuses(FOTSGURE_GCM_NO_RANDOMNESS), "a system that gives too few bytes", 0);

    mode = 2;
    calls = 0;
    memcpy(text, plain, sizeof text);
    expect(fotsgure_gcm_siv_seal_random(&siv, nonce, name, sizeof name, text, sizeof text, tag) == FOTSGURE_GCM_DONE, "sealed", 0);
    memcpy(other, plain, sizeof other);
    expect(fotsgure_gcm_siv_seal(&siv, nonce, name, sizeof name, other, sizeof other, other_tag) == FOTSGURE_GCM_DONE &&
        !memcmp(text, other, sizeof text) && !memcmp(tag, other_tag, sizeof tag), "as under the nonce that it wrote", 0);
    expect(nonce[0] == 0xA5 && nonce[11] == 0xA5 && !memcmp(nonce, nonce + 1, 11), "the nonce is what the system gave", 0);
    expect(!asked_wrongly, "what the system is asked for", 0);
    expect(fotsgure_gcm_siv_open(&siv, nonce, name, sizeof name, text, sizeof text, tag) == FOTSGURE_GCM_DONE &&
        !memcmp(text, plain, sizeof text), "opened", 0);

    fotsgure_gcm_siv_wipe(&siv);
    expect(refuses(FOTSGURE_GCM_NO_KEY), "no key", 0);
    return finish();
}
