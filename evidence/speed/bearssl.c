/* BearSSL has no call that only encrypts blocks: counter mode is timed instead of encryption, and CBC instead of decryption. */
#include "engine.h"
#include <bearssl.h>

static br_aes_ct64_ctr_keys encrypting;
static br_aes_ct64_cbcdec_keys decrypting;

static void set_key(enum direction to, const uint8_t *key, size_t n)
{
    if (to == ENCRYPT)
        br_aes_ct64_ctr_init(&encrypting, key, n);
    else
        br_aes_ct64_cbcdec_init(&decrypting, key, n);
}

static void process(enum direction to, uint8_t *b, size_t count)
{
    uint8_t iv[16] = {0};
    if (to == ENCRYPT)
        br_aes_ct64_ctr_run(&encrypting, iv, 0, b, 16 * count);
    else
        br_aes_ct64_cbcdec_run(&decrypting, iv, b, 16 * count);
}

static union { br_aes_ct64_ctr_keys ct64; br_aes_x86ni_ctr_keys ni; } gcm_keys;
static const br_block_ctr_class *gcm_ctr;
static br_ghash ghash;
static br_gcm_context gcm;

static void gcm_key(const uint8_t *key)
{
    const br_block_ctr_class **it = (const br_block_ctr_class **)&gcm_keys;
    gcm_ctr->init(it, key, 16);
    br_gcm_init(&gcm, it, ghash);
}

static void seal(const struct message *m)
{
    br_gcm_reset(&gcm, m->nonce, 12);
    br_gcm_aad_inject(&gcm, m->additional, m->extra);
    br_gcm_flip(&gcm);
    br_gcm_run(&gcm, 1, m->text, m->length);
    br_gcm_get_tag(&gcm, m->tag);
}

void add_bearssl(enum run run)
{
    gcm_ctr = run == ALL ? br_aes_x86ni_ctr_get_vtable() : &br_aes_ct64_ctr_vtable;
    ghash = run == ALL ? br_ghash_pclmul_get() : br_ghash_ctmul64;
    if (run == NO_AES)
        add(&(struct engine){"BearSSL", "ct64", "bitsliced", BLOCKS, GCM});
    else if (gcm_ctr && ghash)
        add(&(struct engine){"BearSSL", "AES instructions", "instructions", GCM});
}
