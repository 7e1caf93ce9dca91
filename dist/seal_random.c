/* A message of AES-GCM-SIV under a nonce that the system draws: what is C around the proved call. */
#include "fotsgure_gcm.h"
#include <string.h>
#if defined(_WIN32)
#include <windows.h>
#include <bcrypt.h>
#elif defined(__linux__)
#include <errno.h>
#include <sys/random.h>
#elif defined(__APPLE__)
#include <CommonCrypto/CommonRandom.h>
#else
#include <unistd.h>
#endif

/* Fills a nonce with random bytes, and returns whether the system had them. */
static int draw(uint8_t nonce[FOTSGURE_GCM_SIV_NONCE])
{
#if defined(_WIN32)
    return BCryptGenRandom(NULL, nonce, FOTSGURE_GCM_SIV_NONCE, BCRYPT_USE_SYSTEM_PREFERRED_RNG) == 0;
#elif defined(__linux__)
    ssize_t drawn;
    do /* A signal may end the call while a system that starts has no randomness yet. */
        drawn = getrandom(nonce, FOTSGURE_GCM_SIV_NONCE, 0);
    while (drawn < 0 && errno == EINTR);
    return drawn == FOTSGURE_GCM_SIV_NONCE;
#elif defined(__APPLE__) /* Its store has refused programs for iOS that call getentropy. */
    return CCRandomGenerateBytes(nonce, FOTSGURE_GCM_SIV_NONCE) == kCCSuccess;
#else
    return getentropy(nonce, FOTSGURE_GCM_SIV_NONCE) == 0;
#endif
}

/* A name in parentheses is no macro of the header. */
enum fotsgure_gcm_status (fotsgure_gcm_siv_seal_random)(const struct fotsgure_gcm_siv *siv,
    uint8_t nonce[FOTSGURE_GCM_SIV_NONCE], const uint8_t *additional, size_t additional_length, uint8_t *restrict text,
    size_t text_length, uint8_t tag[FOTSGURE_GCM_TAG])
{
    uint8_t drawn[FOTSGURE_GCM_SIV_NONCE];
    enum fotsgure_gcm_status status;
    if (!draw(drawn))
        return FOTSGURE_GCM_NO_RANDOMNESS;
    status = (fotsgure_gcm_siv_seal)(siv, drawn, additional, additional_length, text, text_length, tag);
    if (status == FOTSGURE_GCM_DONE)
        memcpy(nonce, drawn, sizeof drawn);
    return status;
}
