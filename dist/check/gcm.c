/* The library of GCM from C. Messages in pieces are in pieces.h, and AES-GCM-SIV is in siv.h. The last line is
 * `PROGRAM: N passed, M failed`. It tries:
 * - test cases 1 to 4, 13 and 16 of the submission of GCM (McGrew and Viega, appendix B), also from buffer to buffer;
 * - messages of NIST's, in gcmEncryptExtIV128.rsp, 192 and 256: the first of each with a text of 51 bytes, a tag of 16, and 12, 1 and
 *   128 bytes of a nonce, 48, 20 and 90 of additional data;
 * - nonces under which the counter wraps, and nonces of every length from 1 to 128 bytes;
 * - texts of 0 to 700 bytes there and back, and with WITH_OPENSSL against OpenSSL;
 * - every status, that nothing is written after a refusal, and NULL with a length of 0;
 * - counted nonces, what a shorter key leaves, and the wipe. */
#include <fotsgure_aes.h>
#include <fotsgure_gcm.h>

#ifdef WITH_OPENSSL
#include <openssl/evp.h>
#endif
#include <stdio.h>
#include <stdlib.h>
#include <string.h>

#include "check.h"

/* No size_t of 32 bits counts a text that is too long. */
#define IS_32 (sizeof(size_t) == 4)

static int all(const void *bytes, size_t count, uint8_t value)
{
    for (size_t i = 0; i < count; i++)
        if (((const uint8_t *)bytes)[i] != value)
            return 0;
    return 1;
}

/* Whether a call has emptied a struct that had one value in each byte. What a build keeps of it is zeros then, and the bytes
 * after that are unchanged. No build keeps fewer than 244 bytes. */
static int is_emptied(const void *bytes, size_t count, uint8_t before)
{
    size_t kept = 0;
    while (kept < count && ((const uint8_t *)bytes)[kept] == 0)
        kept++;
    return kept >= 244 && all((const uint8_t *)bytes + kept, count - kept, before);
}

#define ZERO_KEY "00000000000000000000000000000000"
#define ZERO_NONCE "000000000000000000000000"
#define KEY "feffe9928665731c6d6a8f9467308308"
#define NONCE "cafebabefacedbaddecaf888"
#define ADDITIONAL "feedfacedeadbeeffeedfacedeadbeefabaddad2"
#define PLAIN "d9313225f88406e5a55909c5aff5269a86a7a9531534f7da2e4c303d8a318a72" \
    "1c3c0c95956809532fcf0e2449a6b525b16aedf5aa0de657ba637b39"
#define CIPHER_16 "42831ec2217774244b7221b784d0d49ce3aa212f2c02a4e035c17e2329aca12e" \
    "21d514b25466931c7d8f6a5aac84aa051ba30b396a0aac973d58e091"
#define CIPHER_32 "522dc1f099567d07f47f37a32a84427d643a8cdcbfe5c0c97598a2bd2555d1aa" \
    "8cb08e48590dbb3da7b08b1056828838c5f61e6393ba7a0abcc9f662"

/* Nonces under which the last 32 bits of the counter wrap in the text: a random one does so once in 2^28 times. J_0 was
 * chosen to end in fffffffd and in ffffffff. So the third block, or the first, is that of the counter 0. The nonce N of one
 * block follows from J_0 = (N H + L) H, where L is the block of its length. The cipher texts and tags are those of OpenSSL's
 * libcrypto. */
#define WRAP_THIRD "520f83f07980ff6e39a219f2b2be77da"
#define WRAP_FIRST "4384f2e1345fa9cc9d0989c25d707885"
#define WRAP_ADDITIONAL "feedfacedeadbeef"
#define WRAP_PLAIN "0102030405060708090a0b0c0d0e0f101112131415161718191a1b1c1d1e1f202122232425262728292a2b2c2d2e2f30" \
    "3132333435363738393a3b3c3d3e3f40414243444546"
#define WRAP_CIPHER_THIRD "54f22114b4b300e52aa7248e3a109c09bfdcf08b8e235047476de9eb2e771c543e606a19502f0534899807a369e3a335" \
    "03752b7f09795e9c7486e914ba858b58daf06fa39cb5"
#define WRAP_CIPHER_FIRST "1e404a39700f2514a9b8278349c3831523550b5f29597ebc54a6c9349aa5ab38ba900fc3fcd555e9c701035e060bdd36" \
    "543fbb480c00640222b775229ea3141c7cab5b638448"

static const struct { const char *key, *nonce, *additional, *plain, *cipher, *tag; } cases[] = {
    {ZERO_KEY, ZERO_NONCE, "", "", "", "58e2fccefa7e3061367f1d57a4e7455a"},
    {ZERO_KEY, ZERO_NONCE, "", ZERO_KEY, "0388dace60b6a392f328c2b971b2fe78", "ab6e47d42cec13bdf53a67b21257bddf"},
    {KEY, NONCE, "", PLAIN "1aafd255", CIPHER_16 "473f5985", "4d5c2af327cd64a62cf35abd2ba6fab4"},
    {KEY, NONCE, ADDITIONAL, PLAIN, CIPHER_16, "5bc94fbc3221a5db94fae95ae7121a47"},
    {ZERO_KEY ZERO_KEY, ZERO_NONCE, "", "", "", "530f8afbc74536b9a963b4f1c4cb738b"},
    {KEY KEY, NONCE, ADDITIONAL, PLAIN, CIPHER_32, "76fc6ece0f4e1768cddf8853bb2d551b"},
    {"3c50622868f450aa0928990c15e1eb36", "811d5290768d57e7d87bb6c7",
        "dae2c7e0a3d3fd2bc04eca19b15178a003b5cf84890c28c2a615f20f8adb427f70698c12b2ef87780c1193fbb8cd1674",
        "edd0a8f82833e919740fe2bf9edecf4ac86c72dc89490cef7b6983aaaf99fc856c5cc87d63f98a7c861bf3271fea6da86a15ab",
        "a51425b0608d3b4b46d4ec05ca1ddaf02bdd2089ae0554ecfb2a1c84c63d82dc71ddb9ab1b1f0b49de2ad27c2b5173e7000aa6",
        "bd9b5efca48008cd973a4f7d2c723844"},
    {"5239df04663a1cad2db6eca280cfda6a592baf88c49725c4", "28",
        "e7139e5c3698f3dc5c67dd4ef16dd991c9d60b7e",
        "f577fef731dba70d2859ec2b3177b03c1855660a016632a9968983a917a335d33191ccba85dcd844009da10ab9411f11ce84ff",
        "ecffc2c4f2c6798bcd61205b18f4453d5fec4676cd465549fbe576b32dec9a1fa41d91b3738ca3b54755ce225f71ab61a96e91",
        "926b3cdcdfe6fd285526c1e52da7f30e"},
    {"65b7171b55b22edd711a076f2eb6a125e873993e8d54564cd62d03c665cd6374",
        "54d118d32a56138f04212684b1e47c5d6808c128996e1d6ebf739ef9ff138aac1181fcde820a5f68749e1fed791314c73c54169aee5556bf"
        "206998d95432719fc9ffe22fbbc4925f32774d31e075393c0907e27c3f40da02c424b402eff596f6300b881b8f561d5ae4535a1fa9d4bafe"
        "86dd6751b0da245ae7b74ddcc3f5033c",
        "4a3b04decbec0a549666e87036e78433b896270792e7932810c38eb063139ade6a4befd4dfdb38d53cdb95accbdee7ad5478c3bc55a21226"
        "c2b0fa79fe7c30262fa5383de3d3b45e951d7ef955f3a18b9689783898bedb66f0b8",
        "0521e41d827d6104ecdab1f8e7fb70cd8abca87500ecd36e65906194327b1b61014fd310f4e1bf7d5bf356a5d731c0d0d47c7e",
        "2ecf7a3a35abb50d212588c2ef50880212b53c052738767c9ea215709208afae6e94acd68980207bf63382495be1acde784b92",
        "49563e12797eefbee2fd75a1e844869b"},
    {KEY, WRAP_THIRD, WRAP_ADDITIONAL, WRAP_PLAIN, WRAP_CIPHER_THIRD, "2bb267d3f606892268029de02d67a467"},
    {KEY, WRAP_FIRST, WRAP_ADDITIONAL, WRAP_PLAIN, WRAP_CIPHER_FIRST, "7588ddf7ad6e4dc32185f8861ef1b8d8"},
};

/* A published message from one buffer to another, and with its tag changed, which leaves zeros. */
static void to_a_buffer(const struct fotsgure_gcm *gcm, size_t row)
{
    uint8_t nonce[128], additional[90], plain[80], cipher[80], output[80], wanted[16], tag[16];
    size_t bytes = from_hex(nonce, cases[row].nonce), extra = from_hex(additional, cases[row].additional);
    size_t length = from_hex(plain, cases[row].plain);
    from_hex(cipher, cases[row].cipher);
    from_hex(wanted, cases[row].tag);
    expect(fotsgure_gcm_seal_to(gcm, nonce, bytes, additional, extra, plain, length, output, length, tag) == FOTSGURE_GCM_DONE &&
        memcmp(output, cipher, length) == 0 && memcmp(tag, wanted, 16) == 0, "seal_to", row);
    expect(fotsgure_gcm_open_to(gcm, nonce, bytes, additional, extra, cipher, length, output, length, tag, 16) ==
        FOTSGURE_GCM_DONE && memcmp(output, plain, length) == 0, "open_to", row);
    tag[15] ^= 1;
    expect(fotsgure_gcm_open_to(gcm, nonce, bytes, additional, extra, cipher, length, output, length, tag, 16) ==
        FOTSGURE_GCM_REFUSED && all(output, length, 0), "open_to leaves zeros", row);
    expect(fotsgure_gcm_open_to(gcm, nonce, bytes, additional, extra, cipher, length, output, length + 1, tag, 15) ==
        FOTSGURE_GCM_UNEQUAL_LENGTHS && fotsgure_gcm_open_to(gcm, nonce, bytes, additional, extra, NULL, 0, NULL, 0, tag, 15) ==
        FOTSGURE_GCM_TAG_LENGTH && fotsgure_gcm_seal_to(gcm, nonce, bytes, additional, extra, NULL, 0, output, 1, tag) ==
        FOTSGURE_GCM_UNEQUAL_LENGTHS && fotsgure_gcm_seal_to(gcm, nonce, 0, NULL, 0, NULL, 0, NULL, 0, tag) ==
        FOTSGURE_GCM_NONCE_LENGTH, "lengths of buffers", row);
}

/* A key from a struct of the other library. Both structs begin with the same bytes: those that serve to encrypt. */
static void key_of(const struct fotsgure_gcm *gcm, size_t row)
{
    struct fotsgure_aes aes = {0, {0}};
    struct fotsgure_gcm made;
    memset(&made, 0xa5, sizeof made);
    expect(fotsgure_gcm_set_key_of(&made, &aes) == FOTSGURE_GCM_NO_KEY && fotsgure_gcm_key_length(&made) == 0, "no key", row);
    memcpy(&aes, gcm, sizeof aes);
    memset(&made, 0xa5, sizeof made);
    expect(fotsgure_gcm_set_key_of(&made, &aes) == FOTSGURE_GCM_DONE &&
        fotsgure_gcm_key_length(&made) == fotsgure_gcm_key_length(gcm), "the key of another struct", row);
    to_a_buffer(&made, row);
}

static void published(void)
{
    for (size_t i = 0; i < sizeof cases / sizeof *cases; i++) {
        uint8_t key[32], nonce[128], additional[90], plain[80], cipher[80], text[80], wanted[16], tag[16];
        size_t key_length = from_hex(key, cases[i].key), extra = from_hex(additional, cases[i].additional);
        size_t length = from_hex(plain, cases[i].plain), bytes = from_hex(nonce, cases[i].nonce);
        struct fotsgure_gcm gcm = {0, {0}, {0}};
        from_hex(cipher, cases[i].cipher);
        from_hex(wanted, cases[i].tag);
        memcpy(text, plain, sizeof text);
        expect(fotsgure_gcm_set_key(&gcm, key, key_length) == FOTSGURE_GCM_DONE &&
            fotsgure_gcm_key_length(&gcm) == key_length, "set_key", key_length);
        expect(fotsgure_gcm_seal(&gcm, nonce, bytes, additional, extra, text, length, tag) == FOTSGURE_GCM_DONE &&
            memcmp(text, cipher, length) == 0 && memcmp(tag, wanted, 16) == 0, "seal", i);
        expect(fotsgure_gcm_open(&gcm, nonce, bytes, additional, extra, text, length, tag, 16) == FOTSGURE_GCM_DONE &&
            memcmp(text, plain, length) == 0, "open", i);
        to_a_buffer(&gcm, i);
        key_of(&gcm, i);
        fotsgure_gcm_wipe(&gcm);
        expect(all(&gcm, sizeof gcm, 0) && fotsgure_gcm_key_length(&gcm) == 0, "wipe", i);
    }
}

/* A text under nonces of every length. The cipher texts and tags have the sum that those of OpenSSL 3.0 have. */
static void nonces(void)
{
    uint8_t key[16], additional[20], plain[60], text[60], nonce[128], tag[16], sum[16] = {0}, wanted[16];
    struct fotsgure_gcm gcm;
    size_t extra = from_hex(additional, ADDITIONAL), length = from_hex(plain, PLAIN);
    int right = fotsgure_gcm_set_key(&gcm, key, from_hex(key, KEY)) == FOTSGURE_GCM_DONE;
    for (size_t i = 0; i < sizeof nonce; i++)
        nonce[i] = (uint8_t)i;
    for (size_t bytes = 1; bytes <= sizeof nonce; bytes++) {
        memcpy(text, plain, length);
        right &= fotsgure_gcm_seal(&gcm, nonce, bytes, additional, extra, text, length, tag) == FOTSGURE_GCM_DONE;
        add_to_sum(sum, text, length);
        add_to_sum(sum, tag, sizeof tag);
        right &= fotsgure_gcm_open(&gcm, nonce, bytes, additional, extra, text, length, tag, 16) == FOTSGURE_GCM_DONE &&
            memcmp(text, plain, length) == 0;
        expect(right, "a nonce of that length", bytes);
    }
    from_hex(wanted, "23523b8327f80ef3cc37b694a822d759");
    expect(memcmp(sum, wanted, 16) == 0, "nonces of every length, as OpenSSL", sizeof nonce);
    fotsgure_gcm_wipe(&gcm);
}

#ifdef WITH_OPENSSL
/* What OpenSSL makes of the same message. */
static int by_openssl(const uint8_t key[32], const uint8_t nonce[12], const uint8_t *additional, size_t extra,
    uint8_t *text, size_t length, uint8_t tag[16])
{
    EVP_CIPHER_CTX *ctx = EVP_CIPHER_CTX_new();
    int n;
    int done = ctx && EVP_EncryptInit_ex(ctx, EVP_aes_256_gcm(), NULL, key, nonce) &&
        EVP_EncryptUpdate(ctx, NULL, &n, additional, (int)extra) &&
        EVP_EncryptUpdate(ctx, text, &n, text, (int)length) && EVP_EncryptFinal_ex(ctx, text, &n) &&
        EVP_CIPHER_CTX_ctrl(ctx, EVP_CTRL_GCM_GET_TAG, 16, tag);
    EVP_CIPHER_CTX_free(ctx);
    return done;
}
#endif

/* Texts and additional data of many lengths: sealed, refused with a bit changed and then as they were, and opened. */
static void lengths(void)
{
    static uint8_t plain[700], text[700], sealed[700], additional[700];
    uint8_t key[32], nonce[12] = {7}, tag[16];
    struct fotsgure_gcm gcm;
    for (size_t i = 0; i < sizeof plain; i++) {
        plain[i] = (uint8_t)(i * 7 + i / 256);
        additional[i] = (uint8_t)(i * 13);
    }
    memcpy(key, plain, sizeof key);
    if (fotsgure_gcm_set_key(&gcm, key, sizeof key) != FOTSGURE_GCM_DONE)
        abort();
    for (size_t length = 0; length <= sizeof plain; length += 1 + length / 64) {
        size_t extra = length * 5 % sizeof additional;
        memcpy(text, plain, sizeof text);
        expect(fotsgure_gcm_seal(&gcm, nonce, 12, additional, extra, text, length, tag) == FOTSGURE_GCM_DONE &&
            memcmp(text + length, plain + length, sizeof text - length) == 0, "nothing after the text", length);
#ifdef WITH_OPENSSL
        uint8_t wanted[16];
        memcpy(sealed, plain, sizeof sealed);
        expect(by_openssl(key, nonce, additional, extra, sealed, length, wanted) && memcmp(sealed, text, length) == 0 &&
            memcmp(wanted, tag, 16) == 0, "as OpenSSL", length);
#endif
        memcpy(sealed, text, sizeof sealed);
        tag[length % 16] ^= (uint8_t)(1 << length % 8);
        expect(fotsgure_gcm_open(&gcm, nonce, 12, additional, extra, text, length, tag, 16) == FOTSGURE_GCM_REFUSED &&
            memcmp(text, sealed, sizeof text) == 0, "another tag", length);
        tag[length % 16] ^= (uint8_t)(1 << length % 8);
        expect(fotsgure_gcm_open(&gcm, nonce, 12, additional, extra, text, length, tag, 16) == FOTSGURE_GCM_DONE &&
            memcmp(text, plain, sizeof text) == 0, "back", length);
    }
    fotsgure_gcm_wipe(&gcm);
}

static void other_key_lengths(void)
{
    const uint8_t key[33] = {1};
    struct fotsgure_gcm gcm;
    for (size_t length = 0; length <= 33; length++) {
        if (length == 16 || length == 24 || length == 32)
            continue;
        memset(&gcm, 0xa5, sizeof gcm);
        expect(fotsgure_gcm_set_key(&gcm, length ? key : NULL, length) == FOTSGURE_GCM_KEY_LENGTH &&
            is_emptied(&gcm, sizeof gcm, 0xa5) && fotsgure_gcm_key_length(&gcm) == 0, "a key of another length", length);
    }
}

/* A struct that held a longer key and then a shorter one is as if it had held the shorter one alone. */
static void shorter_key(void)
{
    uint8_t key[32];
    memset(key, 0x5b, sizeof key);
    for (size_t length = 16; length <= 24; length += 8) {
        struct fotsgure_gcm gcm, alone;
        memset(&gcm, 0xa5, sizeof gcm);
        memset(&alone, 0xa5, sizeof alone);
        expect(fotsgure_gcm_set_key(&gcm, key, 32) == FOTSGURE_GCM_DONE &&
            fotsgure_gcm_set_key(&gcm, key, length) == FOTSGURE_GCM_DONE &&
            fotsgure_gcm_set_key(&alone, key, length) == FOTSGURE_GCM_DONE && memcmp(&gcm, &alone, sizeof gcm) == 0,
            "after a shorter key", length);
        fotsgure_gcm_wipe(&gcm);
        fotsgure_gcm_wipe(&alone);
    }
}

/* Every status, in the order in which calls name them, and that nothing is written after one. */
static void statuses(void)
{
    uint8_t key[16] = {1}, nonce[12] = {2}, text[4] = {3, 3, 3, 3}, tag[16], made[16];
    struct fotsgure_gcm gcm, none;
    const size_t too_long = (size_t)FOTSGURE_GCM_MOST + 1, too_much = (size_t)FOTSGURE_GCM_MOST_ADDITIONAL + 1;
    memset(&none, 0, sizeof none);
    other_key_lengths();
    if (fotsgure_gcm_set_key(&gcm, key, 16) != FOTSGURE_GCM_DONE)
        abort();
    memset(tag, 9, sizeof tag);
    expect(fotsgure_gcm_seal(&gcm, NULL, 0, NULL, 0, text, too_long, tag) == FOTSGURE_GCM_NONCE_LENGTH, "no nonce", 0);
    expect(IS_32 || fotsgure_gcm_seal(&none, nonce, 12, NULL, 0, text, too_long, tag) == FOTSGURE_GCM_TOO_LONG, "long text", 0);
    expect(IS_32 || fotsgure_gcm_seal(&none, nonce, 12, key, too_much, text, 4, tag) == FOTSGURE_GCM_TOO_LONG, "long data", 0);
    expect(fotsgure_gcm_seal(&none, nonce, 12, NULL, 0, text, 4, tag) == FOTSGURE_GCM_NO_KEY, "no key", 0);
    expect(all(text, 4, 3) && all(tag, 16, 9), "seal writes nothing after a refusal", 0);
    if (fotsgure_gcm_seal(&gcm, nonce, 12, NULL, 0, text, 4, made) != FOTSGURE_GCM_DONE)
        abort();
    uint8_t sealed[4];
    memcpy(sealed, text, 4);
    for (size_t length = 0; length <= 15; length++)
        expect(fotsgure_gcm_open(&none, NULL, 0, NULL, 0, text, too_long, length ? made : NULL, length) ==
            FOTSGURE_GCM_TAG_LENGTH, "a tag of another length", length);
    expect(fotsgure_gcm_open(&none, NULL, 0, NULL, 0, text, too_long, made, 16) == FOTSGURE_GCM_NONCE_LENGTH, "open",
        1);
    expect(IS_32 || fotsgure_gcm_open(&none, nonce, 12, NULL, 0, text, too_long, made, 16) == FOTSGURE_GCM_TOO_LONG, "open", 2);
    expect(IS_32 || fotsgure_gcm_open(&none, nonce, 12, key, too_much, text, 4, made, 16) == FOTSGURE_GCM_TOO_LONG, "open",
        3);
    expect(fotsgure_gcm_open(&none, nonce, 12, NULL, 0, text, 4, made, 16) == FOTSGURE_GCM_NO_KEY, "open", 4);
    expect(fotsgure_gcm_open(&gcm, nonce, 12, key, 1, text, 4, made, 16) == FOTSGURE_GCM_REFUSED, "open", 5);
    expect(memcmp(text, sealed, 4) == 0, "open writes nothing after a refusal", 0);
    expect(fotsgure_gcm_open(&gcm, nonce, 12, NULL, 0, text, 4, made, 16) == FOTSGURE_GCM_DONE && all(text, 4, 3),
        "open", 6);
    expect(fotsgure_gcm_seal(&gcm, nonce, 12, NULL, 0, NULL, 0, tag) == FOTSGURE_GCM_DONE &&
        fotsgure_gcm_open(&gcm, nonce, 12, NULL, 0, NULL, 0, tag, 16) == FOTSGURE_GCM_DONE, "NULL for no bytes", 0);
    expect(fotsgure_gcm_version() == FOTSGURE_GCM_VERSION, "the version", FOTSGURE_GCM_VERSION);
    fotsgure_gcm_wipe(&gcm);
}

/* Counted nonces: each is the one before plus 1, with every carry, and the last number is never used. */
static void counted(void)
{
    uint8_t key[32] = {5}, nonce[12], text[4], tag[16], before[12];
    struct fotsgure_gcm gcm, none;
    struct fotsgure_gcm_counter counter;
    memset(&none, 0, sizeof none);
    if (fotsgure_gcm_set_key(&gcm, key, sizeof key) != FOTSGURE_GCM_DONE)
        abort();
    for (size_t carried = 0; carried < 12; carried++) {
        memset(counter.next, 0, 12);
        memset(counter.next + 12 - carried, 0xff, carried);
        memcpy(before, counter.next, 12);
        memset(text, 1, 4);
        expect(fotsgure_gcm_seal_next(&gcm, &counter, nonce, NULL, 0, text, 4, tag) == FOTSGURE_GCM_DONE &&
            memcmp(nonce, before, 12) == 0 && counter.next[11 - carried] == 1 && all(counter.next, 11 - carried, 0) &&
            all(counter.next + 12 - carried, carried, 0), "counted on", carried);
        expect(fotsgure_gcm_open(&gcm, nonce, 12, NULL, 0, text, 4, tag, 16) == FOTSGURE_GCM_DONE && all(text, 4, 1),
            "under the counter's nonce", carried);
    }
    memset(counter.next, 0xff, 12);
    counter.next[11] = 0xfe;
    expect(fotsgure_gcm_seal_next(&gcm, &counter, nonce, NULL, 0, text, 4, tag) == FOTSGURE_GCM_DONE &&
        all(counter.next, 12, 0xff), "the last nonce but one", 0);
    memset(text, 1, 4);
    memset(nonce, 2, 12);
    memset(tag, 3, 16);
    expect(fotsgure_gcm_seal_next(&none, &counter, nonce, NULL, 0, text, 4, tag) == FOTSGURE_GCM_NONCES_END,
        "the end", 0);
    counter.next[0] = 0;
    memcpy(before, counter.next, 12);
    expect(IS_32 || fotsgure_gcm_seal_next(&none, &counter, nonce, NULL, 0, text, (size_t)FOTSGURE_GCM_MOST + 1, tag) ==
        FOTSGURE_GCM_TOO_LONG, "counted, long text", 0);
    expect(fotsgure_gcm_seal_next(&none, &counter, nonce, NULL, 0, text, 4, tag) == FOTSGURE_GCM_NO_KEY, "no key", 1);
    expect(memcmp(before, counter.next, 12) == 0 && all(text, 4, 1) && all(nonce, 12, 2) && all(tag, 16, 3),
        "seal_next writes nothing after a refusal", 0);
    fotsgure_gcm_wipe(&gcm);
}

/* A compound literal is one argument, however many commas it has. */
static void compound_literals(void)
{
    uint8_t text[3] = {1, 1, 1}, tag[16];
    struct fotsgure_gcm gcm;
    if (fotsgure_gcm_set_key(&gcm, (const uint8_t[16]){3}, 16) != FOTSGURE_GCM_DONE)
        abort();
    expect(fotsgure_gcm_seal(&gcm, (const uint8_t[12]){1, 2}, 12, (const uint8_t[]){1, 2, 3}, 3, text, 3, tag) ==
        FOTSGURE_GCM_DONE && fotsgure_gcm_open(&gcm, (const uint8_t[12]){1, 2}, 12, (const uint8_t[]){1, 2, 3}, 3, text, 3,
        tag, 16) == FOTSGURE_GCM_DONE && all(text, 3, 1), "compound literals", 3);
    fotsgure_gcm_wipe(&gcm);
}

/* Each status has words of its own. So has a number that is no status. */
static void words(void)
{
    for (int a = 0; a <= FOTSGURE_GCM_UNEQUAL_LENGTHS + 1; a++)
        for (int b = 0; b < a; b++)
            expect(strcmp(fotsgure_gcm_status_text((enum fotsgure_gcm_status)a),
                fotsgure_gcm_status_text((enum fotsgure_gcm_status)b)) != 0, "two statuses in the same words", (size_t)a);
    uint8_t bytes[8];
    memset(bytes, 1, sizeof bytes);
    fotsgure_gcm_wipe_bytes(bytes + 1, 6);
    expect(bytes[0] == 1 && all(bytes + 1, 6, 0) && bytes[7] == 1, "bytes of the caller's are wiped, and no others", 6);
}

/* (In this order, since pieces.h has variables whose names siv.h uses within functions.) */
#include "siv.h"

#include "pieces.h"

int main(void)
{
    published();
    nonces();
    lengths();
    statuses();
    shorter_key();
    words();
    compound_literals();
    counted();
    pieces();
    siv();
    return finish();
}
