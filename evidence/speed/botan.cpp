/* Botan 2, which asks the processor at each call; a run clears what it may not use. */
#include "engine.h"
#include <botan/aead.h>
#include <botan/block_cipher.h>
#include <botan/cpuid.h>
#include <botan/stream_cipher.h>
#include <cstring>
#include <memory>

static std::unique_ptr<Botan::BlockCipher> blocks[2][3];
static std::unique_ptr<Botan::StreamCipher> ctr[3];
static int now;

static void set_key(enum direction to, const uint8_t *key, size_t n)
{
    now = size_of(n);
    blocks[to][now]->set_key(key, n);
}

static void process(enum direction to, uint8_t *b, size_t count)
{
    if (to == ENCRYPT)
        blocks[to][now]->encrypt_n(b, b, count);
    else
        blocks[to][now]->decrypt_n(b, b, count);
}

static void stream(const uint8_t *key, size_t n, const uint8_t *iv, uint8_t *data, size_t length)
{
    if (key)
        ctr[size_of(n)]->set_key(key, n);
    ctr[size_of(n)]->set_iv(iv, 16);
    ctr[size_of(n)]->cipher1(data, length);
}

static std::unique_ptr<Botan::AEAD_Mode> gcm;

static void gcm_key(const uint8_t *key)
{
    gcm->set_key(key, 16);
}

/* It adds the tag to a buffer of its own kind, which is kept, so that no call allocates one. */
static void seal(const struct message *m)
{
    static Botan::secure_vector<uint8_t> buffer;
    buffer.reserve(m->length + 16);
    buffer.assign(m->text, m->text + m->length);
    gcm->set_associated_data(m->additional, m->extra);
    gcm->start(m->nonce, 12);
    gcm->finish(buffer, 0);
    std::memcpy(m->text, buffer.data(), m->length);
    std::memcpy(m->tag, buffer.data() + m->length, 16);
}

extern "C" void add_botan(enum run run)
{
    Botan::CPUID::initialize();
    if (run != ALL)
        Botan::CPUID::clear_cpuid_bit(Botan::CPUID::CPUID_AESNI_BIT);
    if (run != ALL)
        Botan::CPUID::clear_cpuid_bit(Botan::CPUID::CPUID_CLMUL_BIT);
    static const char *const names[] = {"AES-128", "AES-192", "AES-256"};
    for (int i = 0; i < 3; i++) {
        for (auto &of : blocks)
            of[i] = Botan::BlockCipher::create_or_throw(names[i]);
        ctr[i] = Botan::StreamCipher::create_or_throw("CTR-BE(" + std::string(names[i]) + ")");
    }
    gcm = Botan::AEAD_Mode::create_or_throw("AES-128/GCM", Botan::ENCRYPTION);
    static const char *const how[] = {"AES instructions", "SSSE3 permutations"}, *const kind[] = {"instructions", "permutations"};
    static engine it;
    it = {"Botan", how[run], kind[run], set_key, process, stream, gcm_key, seal};
    add(&it);
}
