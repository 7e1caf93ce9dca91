/* A message is sealed by AES-GCM-SIV under a key that a file has, and a nonce that is drawn at random, and opened again.
 *
 *   message FILE    FILE has the key, 32 bytes: (umask 077; set -C; head -c 32 /dev/urandom > FILE)
 *
 * There is no counter to keep: if a nonce ever came twice, it would only show whether the two messages are the same. */
#include <fotsgure_gcm.h>

#include <errno.h>
#include <stdio.h>
#include <string.h>

static int fails(const char *what, const char *why)
{
    fprintf(stderr, "message: %s: %s\n", what, why);
    return 1;
}

/* Reads a key from a file that has nothing else. The key isn't buffered, since no call would wipe the buffer. */
static int read_key(const char *path, uint8_t key[32])
{
    uint8_t more;
    FILE *file = fopen(path, "rb");
    if (!file || setvbuf(file, NULL, _IONBF, 0) != 0)
        return fails(path, strerror(errno));
    int is_key = fread(key, 1, 32, file) == 32 && fread(&more, 1, 1, file) == 0;
    int failed = is_key ? 0 : fails(path, ferror(file) ? strerror(errno) : "a key has 32 bytes");
    fclose(file);
    return failed;
}

static enum fotsgure_gcm_status seal_and_open(const uint8_t key[32], uint8_t *text, size_t length)
{
    const uint8_t name[] = "its name"; /* sent unencrypted with the message */
    uint8_t nonce[FOTSGURE_GCM_SIV_NONCE], tag[FOTSGURE_GCM_TAG];
    struct fotsgure_gcm_siv siv = {0};
    enum fotsgure_gcm_status status = fotsgure_gcm_siv_set_key(&siv, key, 32);
    if (status == FOTSGURE_GCM_DONE)
        status = fotsgure_gcm_siv_seal_random(&siv, nonce, name, sizeof name, text, length, tag);
    /* If it is sealed, send nonce, name, text and tag. Anyone who has the key opens it, unless something was changed: */
    if (status == FOTSGURE_GCM_DONE)
        status = fotsgure_gcm_siv_open(&siv, nonce, name, sizeof name, text, length, tag);
    fotsgure_gcm_siv_wipe(&siv);
    return status;
}

int main(int count, char **words)
{
    uint8_t key[32], text[] = "a message";
    if (count != 2) {
        fprintf(stderr, "usage: message FILE    (FILE has a key of 32 bytes)\n");
        return 2;
    }
    if (read_key(words[1], key) != 0)
        return 1;
    enum fotsgure_gcm_status status = seal_and_open(key, text, sizeof text);
    fotsgure_gcm_wipe_bytes(key, sizeof key);
    if (status != FOTSGURE_GCM_DONE)
        return fails("the message", fotsgure_gcm_status_text(status));
    return puts((char *)text) < 0 || fflush(stdout) != 0 ? fails("the output", strerror(errno)) : 0;
}
