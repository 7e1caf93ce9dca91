/* One way to run AES that is timed: a library, and how it works on its blocks. A call that an engine lacks is 0. */
#ifndef ENGINE_H
#define ENGINE_H

#include <stddef.h>
#include <stdint.h>

#ifdef __cplusplus
extern "C" {
#endif

/* A message to seal with GCM or AES-GCM-SIV, in place, under a nonce of 12 bytes; the tag has 16. */
struct message {
    const uint8_t *nonce, *additional;
    size_t extra, length;
    uint8_t *text, *tag;
};

enum direction { ENCRYPT, DECRYPT };
/* What EVP processes as a message, under a key of 16 bytes. */
enum mode { MODE_GCM, MODE_GCM_OPEN, MODE_CTR, MODE_CBC, MODE_CBC_DECRYPT, MODE_ECB, MODES };
struct engine {
    const char *name; /* the library */
    const char *how;  /* what it runs on this machine, in this run */
    const char *kind; /* bitsliced, permutations, instructions, planted */
    /* Sets a key of `bytes` bytes for one direction. */
    void (*set_key)(enum direction to, const uint8_t *key, size_t bytes);
    /* Processes `count` blocks in place, under the key that was set last for that direction. */
    void (*process)(enum direction to, uint8_t *blocks, size_t count);
    /* Sets a key and a counter block, and adds the keystream; without a key (0), under the one set last. */
    void (*stream)(const uint8_t *key, size_t bytes, const uint8_t *iv, uint8_t *data, size_t length);
    /* GCM: sets a key of 16 bytes, and seals a text in place under the key set last. */
    void (*gcm_key)(const uint8_t *key);
    void (*seal)(const struct message *m);
    /* AES-GCM-SIV: the same under a key of its own. */
    void (*seal_siv)(const struct message *m);
    /* EVP: sets a key of a mode; processes a message under it, with an initialization vector of its own, one update and the end, and
       returns whether it was accepted. GCM decrypts with a wrong tag. */
    void (*mode_key)(enum mode mode, const uint8_t *key);
    int (*process_message)(enum mode mode, const uint8_t *iv, const uint8_t *in, uint8_t *out, size_t length);
};
/* The calls of an engine by their names. */
#define BLOCKS .set_key = set_key, .process = process
#define GCM .gcm_key = gcm_key, .seal = seal
#define MESSAGES .mode_key = mode_key, .process_message = process_message

/* The run: which instructions of the processor the peers may use. */
enum run { ALL, NO_AES };

/* How a library keeps what it has for the three sizes of keys. */
static inline int size_of(size_t key_bytes)
{
    return key_bytes == 16 ? 0 : key_bytes == 24 ? 1 : 2;
}

/* The call add_NAME of each library adds its engines for a run. */
void add(const struct engine *engine);

#ifdef __cplusplus
}
#endif
#endif
