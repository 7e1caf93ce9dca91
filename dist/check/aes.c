/* The library from C. The last line is `PROGRAM: N passed, M failed`. It tries:
 * - FIPS 197, appendix C, in both directions; slices of 0 to 40 blocks against single calls; single rounds;
 * - SP 800-38A, F.5 and F.2, cut at every place;
 * - key wrap by RFC 3394 and RFC 5649; CMAC by SP 800-38B, D.1 to D.3; CCM by SP 800-38C, C.1 to C.3, and on texts of
 *   5,001 and 65,537 bytes;
 * - what is in aes_statuses.h;
 * - with WITH_OPENSSL 1 MiB against OpenSSL. */
#include "fotsgure_aes.h"

#ifdef WITH_OPENSSL
#include <openssl/evp.h>
#endif
#include <stdio.h>
#include <stdlib.h>
#include <string.h>

#include "aes_vectors.h"
#include "check.h"

/* How many bytes of a struct fotsgure_aes a build keeps. */
#ifdef __riscv_v
#define KEPT 484
#else
#define KEPT sizeof(struct fotsgure_aes)
#endif

static uint8_t counted[33];

static void fill(uint8_t *bytes, size_t count, uint32_t state)
{
    for (size_t i = 0; i < count; i++) {
        state = state * 1664525u + 1013904223u;
        bytes[i] = (uint8_t)(state >> 24);
    }
}

static void rows_of_appendix_c(size_t size, const char *digits)
{
    uint8_t plain[16], cipher[16], block[16], other[16];
    struct fotsgure_aes aes;
    from_hex(plain, c_plain);
    from_hex(cipher, digits);
    expect(fotsgure_aes_set_key(&aes, counted, size) == FOTSGURE_AES_DONE &&
        fotsgure_aes_key_length(&aes) == size && (uint32_t)aes.key_length == size, "a key is kept", size);
    memcpy(block, plain, 16);
    expect(fotsgure_aes_encrypt_blocks(&aes, block, 1) == FOTSGURE_AES_DONE &&
        !memcmp(block, cipher, 16), "appendix C, encrypted", size);
    expect(fotsgure_aes_decrypt_blocks(&aes, block, 1) == FOTSGURE_AES_DONE &&
        !memcmp(block, plain, 16), "appendix C, decrypted", size);
    expect(fotsgure_aes_encrypt_blocks_to(&aes, plain, 1, other, 1) == FOTSGURE_AES_DONE &&
        !memcmp(other, cipher, 16), "and to a buffer", size);
    expect(fotsgure_aes_decrypt_blocks_to(&aes, cipher, 1, other, 1) == FOTSGURE_AES_DONE &&
        !memcmp(other, plain, 16), "and back", size);
    expect(fotsgure_aes_encrypt_blocks_with(counted, size, block, 1) == FOTSGURE_AES_DONE &&
        !memcmp(block, cipher, 16), "in one call", size);
    expect(fotsgure_aes_decrypt_blocks_with(counted, size, block, 1) == FOTSGURE_AES_DONE &&
        !memcmp(block, plain, 16), "and back", size);
}

static void slices(size_t size)
{
    enum { MOST = 40 };
    uint8_t text[16 * MOST + 1], whole[sizeof text], single[sizeof text], other[sizeof text];
    struct fotsgure_aes aes;
    int same = fotsgure_aes_set_key(&aes, counted + 1, size) == FOTSGURE_AES_DONE;
    fill(text, sizeof text, (uint32_t)size);
    for (size_t count = 0; count <= MOST; count++) {
        memcpy(whole, text, sizeof text);
        memcpy(single, text, sizeof text);
        memcpy(other, text, sizeof text);
        /* At an odd address, too. */
        same &= fotsgure_aes_encrypt_blocks(&aes, whole + 1, count) == FOTSGURE_AES_DONE;
        for (size_t i = 0; i < count; i++)
            same &= fotsgure_aes_encrypt_blocks(&aes, single + 1 + 16 * i, 1) == FOTSGURE_AES_DONE;
        same &= fotsgure_aes_encrypt_blocks_to(&aes, text + 1, count, other + 1, count) == FOTSGURE_AES_DONE;
        same &= !memcmp(whole, single, sizeof text) && !memcmp(whole, other, sizeof text);
        same &= fotsgure_aes_decrypt_blocks_with(counted + 1, size, other + 1, count) == FOTSGURE_AES_DONE;
        same &= !memcmp(other, text, sizeof text);
        same &= fotsgure_aes_encrypt_blocks_with(counted + 1, size, other + 1, count) == FOTSGURE_AES_DONE;
        same &= !memcmp(other, whole, sizeof text);
        same &= (count == 0) == !memcmp(whole, text, sizeof text);
        for (size_t i = 0; i < count; i++)
            same &= fotsgure_aes_decrypt_blocks(&aes, single + 1 + 16 * i, 1) == FOTSGURE_AES_DONE;
        same &= fotsgure_aes_decrypt_blocks_to(&aes, whole + 1, count, other + 1, count) == FOTSGURE_AES_DONE;
        same &= fotsgure_aes_decrypt_blocks(&aes, whole + 1, count) == FOTSGURE_AES_DONE;
        same &= !memcmp(whole, text, sizeof text) && !memcmp(single, text, sizeof text) &&
            !memcmp(other, text, sizeof text);
    }
    expect(same, "0 to 40 blocks, in place, to a buffer, in one call and one by one", size);
}

/* A row of F.5, ready for calls. */
struct stream {
    size_t size;
    struct fotsgure_aes aes;
    struct fotsgure_aes_ctr start;
    uint8_t key[32], plain[64], cipher[64];
};

static void stream_at_once(const struct stream *row)
{
    struct fotsgure_aes_ctr ctr = row->start;
    uint8_t bytes[64];
    memcpy(bytes, row->plain, 64);
    expect(fotsgure_aes_add_keystream(&row->aes, &ctr, bytes, 64) == FOTSGURE_AES_DONE &&
        !memcmp(bytes, row->cipher, 64) && ctr.position == 64, "F.5", row->size);
    ctr = row->start;
    expect(fotsgure_aes_add_keystream_with(row->key, row->size, &ctr, bytes, 64) == FOTSGURE_AES_DONE &&
        !memcmp(bytes, row->plain, 64) && ctr.position == 64, "F.5, in one call", row->size);
}

static void stream_in_place(const struct stream *row)
{
    const struct fotsgure_aes *aes = &row->aes;
    struct fotsgure_aes_ctr ctr;
    uint8_t bytes[64];
    int same = 1;
    for (size_t at = 0; at <= 64; at++) {
        memcpy(bytes, row->plain, 64);
        ctr = row->start;
        same &= fotsgure_aes_add_keystream(aes, &ctr, bytes, at) == FOTSGURE_AES_DONE && ctr.position == at;
        same &= fotsgure_aes_add_keystream(aes, &ctr, bytes + at, 64 - at) == FOTSGURE_AES_DONE &&
            !memcmp(bytes, row->cipher, 64);
        ctr.position = at;
        same &= fotsgure_aes_add_keystream(aes, &ctr, bytes + at, 64 - at) == FOTSGURE_AES_DONE &&
            !memcmp(bytes + at, row->plain + at, 64 - at);
    }
    expect(same, "F.5, cut at each place, and taken up at each place", row->size);
}

static void stream_between_buffers(const struct stream *row)
{
    const struct fotsgure_aes *aes = &row->aes;
    const uint8_t *plain = row->plain;
    struct fotsgure_aes_ctr ctr;
    uint8_t bytes[64];
    int same = 1;
    for (size_t at = 0; at <= 64; at++) {
        memset(bytes, 0, 64);
        ctr = row->start;
        same &= fotsgure_aes_add_keystream_to(aes, &ctr, plain, at, bytes, at) == FOTSGURE_AES_DONE && ctr.position == at;
        same &= at == 64 || bytes[at] == 0;
        same &= fotsgure_aes_add_keystream_to(aes, &ctr, plain + at, 64 - at, bytes + at, 64 - at) == FOTSGURE_AES_DONE;
        same &= !memcmp(bytes, row->cipher, 64) && ctr.position == 64;
    }
    expect(same, "F.5 from buffer to buffer, cut at each place", row->size);
}

static void stream_end(const struct stream *row)
{
    const struct fotsgure_aes *aes = &row->aes;
    const uint8_t *plain = row->plain, *cipher = row->cipher;
    struct fotsgure_aes_ctr ctr = row->start;
    uint8_t bytes[64];
    ctr.position = UINT64_MAX - 3;
    memcpy(bytes, plain, 64);
    expect(fotsgure_aes_add_keystream(aes, &ctr, bytes, 4) == FOTSGURE_AES_KEYSTREAM_END &&
        !memcmp(bytes, plain, 64) && ctr.position == UINT64_MAX - 3, "the end is refused", row->size);
    expect(fotsgure_aes_add_keystream_to(aes, &ctr, cipher, 4, bytes, 4) == FOTSGURE_AES_KEYSTREAM_END &&
        fotsgure_aes_add_keystream_to(aes, &ctr, cipher, 4, bytes, 3) == FOTSGURE_AES_UNEQUAL_COUNTS &&
        fotsgure_aes_add_keystream_with(row->key, row->size, &ctr, bytes, 4) == FOTSGURE_AES_KEYSTREAM_END &&
        !memcmp(bytes, plain, 64) && ctr.position == UINT64_MAX - 3, "the other calls refuse it too", row->size);
    expect(fotsgure_aes_add_keystream(aes, &ctr, bytes, 3) == FOTSGURE_AES_DONE &&
        ctr.position == UINT64_MAX && fotsgure_aes_add_keystream(aes, &ctr, bytes, 1) == FOTSGURE_AES_KEYSTREAM_END,
        "up to the end, and no byte more", row->size);
}

static void counter_mode(size_t size, const char *key_digits, const char *digits)
{
    struct stream row = {.size = size};
    from_hex(row.key, key_digits);
    from_hex(row.plain, f_plain);
    from_hex(row.cipher, digits);
    from_hex(row.start.iv, f_iv);
    expect(fotsgure_aes_set_key(&row.aes, row.key, size) == FOTSGURE_AES_DONE, "a key is kept", size);
    stream_at_once(&row);
    stream_in_place(&row);
    stream_between_buffers(&row);
    stream_end(&row);
}

/* At every cut, and a long chain at once beside the same in parts. */
static void chains(size_t row)
{
    uint8_t key[32], plain[64], cipher[64], bytes[64], longer[1600], again[1600];
    struct fotsgure_aes aes;
    struct fotsgure_aes_cbc start, cbc;
    int same = 1;
    from_hex(key, f_rows[row].key);
    from_hex(plain, f_plain);
    from_hex(cipher, cbc_rows[row]);
    memcpy(start.previous, counted, 16);
    expect(fotsgure_aes_set_key(&aes, key, f_rows[row].size) == FOTSGURE_AES_DONE, "a key is kept", f_rows[row].size);
    for (size_t at = 0; at <= 4; at++) {
        memcpy(bytes, plain, 64);
        cbc = start;
        same &= fotsgure_aes_cbc_encrypt(&aes, &cbc, bytes, at) == FOTSGURE_AES_DONE;
        same &= fotsgure_aes_cbc_encrypt(&aes, &cbc, bytes + 16 * at, 4 - at) == FOTSGURE_AES_DONE;
        same &= !memcmp(bytes, cipher, 64) && !memcmp(cbc.previous, cipher + 48, 16);
        cbc = start;
        same &= fotsgure_aes_cbc_decrypt(&aes, &cbc, bytes, at) == FOTSGURE_AES_DONE;
        same &= fotsgure_aes_cbc_decrypt(&aes, &cbc, bytes + 16 * at, 4 - at) == FOTSGURE_AES_DONE;
        same &= !memcmp(bytes, plain, 64) && !memcmp(cbc.previous, cipher + 48, 16);
    }
    expect(same, "F.2, cut at each block", f_rows[row].size);
    for (size_t count = 0; count <= 100; count++) {
        fill(longer, sizeof longer, (uint32_t)count);
        memcpy(again, longer, sizeof longer);
        cbc = start;
        for (size_t i = 0; i < count; i++)
            same &= fotsgure_aes_cbc_encrypt(&aes, &cbc, longer + 16 * i, 1) == FOTSGURE_AES_DONE;
        cbc = start;
        same &= fotsgure_aes_cbc_decrypt(&aes, &cbc, longer, count) == FOTSGURE_AES_DONE;
        same &= !memcmp(longer, again, sizeof longer);
    }
    expect(same, "chains of 0 to 100 blocks, encrypted one by one and decrypted at once", f_rows[row].size);
}

static void wrapped_keys(size_t row)
{
    uint8_t data[32], sealed[40], output[40], zeros[40] = {0};
    size_t size = wrap_rows[row].size, bytes = wrap_rows[row].bytes, count = bytes / 8;
    struct fotsgure_aes aes;
    int refused = 1;
    from_hex(data, wrap_data);
    from_hex(sealed, wrap_rows[row].wrapped);
    expect(fotsgure_aes_set_key(&aes, counted, size) == FOTSGURE_AES_DONE, "a key is kept", size);
    expect(fotsgure_aes_wrap(&aes, data, count, output, count + 1) == FOTSGURE_AES_DONE &&
        !memcmp(output, sealed, bytes + 8), "RFC 3394, wrapped", bytes);
    expect(fotsgure_aes_unwrap(&aes, sealed, count + 1, output, count) == FOTSGURE_AES_DONE &&
        !memcmp(output, data, bytes), "RFC 3394, unwrapped", bytes);
    for (size_t i = 0; i < bytes + 8; i++) {
        sealed[i] ^= 1;
        memset(output, 0xff, sizeof output);
        refused &= fotsgure_aes_unwrap(&aes, sealed, count + 1, output, count) == FOTSGURE_AES_REFUSED;
        refused &= !memcmp(output, zeros, bytes);
        sealed[i] ^= 1;
    }
    expect(refused, "a key that was changed is refused, and the output is zeros", bytes);
    memcpy(output, data, 32);
    expect(fotsgure_aes_wrap(&aes, data, 1, output, 2) == FOTSGURE_AES_INVALID_COUNT &&
        fotsgure_aes_wrap(&aes, data, 2, output, 2) == FOTSGURE_AES_INVALID_COUNT &&
        fotsgure_aes_unwrap(&aes, sealed, 2, output, 1) == FOTSGURE_AES_INVALID_COUNT &&
        fotsgure_aes_unwrap(&aes, sealed, 3, output, 3) == FOTSGURE_AES_INVALID_COUNT &&
        !memcmp(output, data, 32), "wrong counts, nothing written", bytes);
}

static void padded_keys(size_t row)
{
    uint8_t key[32], data[40] = {0}, sealed[40] = {0}, output[40], zeros[40] = {0};
    size_t size = strlen(padded_rows[row].key) / 2, bytes = strlen(padded_rows[row].data) / 2, length = 7;
    size_t count = (bytes + 7) / 8;
    struct fotsgure_aes aes;
    int refused = 1;
    from_hex(key, padded_rows[row].key);
    from_hex(data, padded_rows[row].data);
    from_hex(sealed, padded_rows[row].wrapped);
    expect(fotsgure_aes_set_key(&aes, key, size) == FOTSGURE_AES_DONE, "a key is kept", size);
    expect(fotsgure_aes_wrap_padded(&aes, data, bytes, output, count + 1) == FOTSGURE_AES_DONE &&
        !memcmp(output, sealed, 8 * count + 8), "KWP, wrapped", bytes);
    expect(fotsgure_aes_unwrap_padded(&aes, sealed, count + 1, output, count, &length) == FOTSGURE_AES_DONE &&
        length == bytes && !memcmp(output, data, 8 * count), "KWP, unwrapped", bytes);
    for (size_t i = 0; i < 8 * count + 8; i++) {
        sealed[i] ^= 1;
        length = 7;
        memset(output, 0xff, sizeof output);
        refused &= fotsgure_aes_unwrap_padded(&aes, sealed, count + 1, output, count, &length) == FOTSGURE_AES_REFUSED;
        refused &= length == 0 && !memcmp(output, zeros, 8 * count);
        sealed[i] ^= 1;
    }
    expect(refused, "a padded key that was changed is refused, and the output is zeros", bytes);
    memcpy(output, sealed, 40);
    expect(fotsgure_aes_wrap_padded(&aes, data, 0, output, 1) == FOTSGURE_AES_INVALID_COUNT &&
        fotsgure_aes_wrap_padded(&aes, data, 9, output, 2) == FOTSGURE_AES_INVALID_COUNT &&
        fotsgure_aes_wrap_padded(&aes, data, 8, output, 3) == FOTSGURE_AES_INVALID_COUNT &&
        fotsgure_aes_unwrap_padded(&aes, sealed, 1, output, 0, &length) == FOTSGURE_AES_INVALID_COUNT &&
        fotsgure_aes_unwrap_padded(&aes, sealed, 3, output, 3, &length) == FOTSGURE_AES_INVALID_COUNT &&
        length == 0 && !memcmp(output, sealed, 40), "wrong counts, nothing written", bytes);
}

/* Blocks with each length and with padding that isn't zeros, encrypted: which of them KWP refuses, and which it accepts. */
static void paddings(void)
{
    uint8_t block[16], output[8];
    struct fotsgure_aes aes;
    int right = 1;
    expect(fotsgure_aes_set_key(&aes, counted, 16) == FOTSGURE_AES_DONE, "a key is kept", 16);
    for (size_t bytes = 0; bytes < 300; bytes++) {
        for (size_t filled = 0; filled <= 8; filled++) {
            size_t length = 7;
            int taken = bytes >= 1 && bytes <= 8 && filled <= bytes;
            memcpy(block, "\xa6\x59\x59\xa6", 4);
            for (size_t i = 0; i < 4; i++)
                block[4 + i] = (uint8_t)(bytes >> (24 - 8 * i));
            memset(block + 8, 0, 8);
            memset(block + 8, 5, filled);
            right &= fotsgure_aes_encrypt_blocks(&aes, block, 1) == FOTSGURE_AES_DONE;
            right &= fotsgure_aes_unwrap_padded(&aes, block, 2, output, 1, &length) ==
                (taken ? FOTSGURE_AES_DONE : FOTSGURE_AES_REFUSED);
            right &= length == (taken ? bytes : 0) && output[0] == (taken && filled > 0 ? 5 : 0);
        }
    }
    expect(right, "lengths and paddings of KWP", 16);
}

static void tags(size_t row)
{
    uint8_t key[32], message[64], wanted[16], tag[16];
    struct fotsgure_aes aes;
    from_hex(key, f_rows[row].key);
    from_hex(message, f_plain);
    expect(fotsgure_aes_set_key(&aes, key, f_rows[row].size) == FOTSGURE_AES_DONE, "a key is kept", f_rows[row].size);
    for (size_t i = 0; i < 4; i++) {
        size_t length = cmac_lengths[i];
        int right = 1;
        from_hex(wanted, cmac_rows[row][i]);
        expect(fotsgure_aes_cmac(&aes, message, length, tag) == FOTSGURE_AES_DONE && !memcmp(tag, wanted, 16), "CMAC", length);
        for (size_t size = 0; size <= 16; size++) {
            enum fotsgure_aes_status short_tag = size < 4 ? FOTSGURE_AES_TAG_LENGTH : FOTSGURE_AES_DONE;
            right &= fotsgure_aes_cmac_verify(&aes, message, length, tag, size) == short_tag;
        }
        right &= fotsgure_aes_cmac_verify(&aes, message, length, counted, 17) == FOTSGURE_AES_TAG_LENGTH;
        for (size_t at = 0; at < 16; at++) {
            tag[at] ^= 0x80;
            right &= fotsgure_aes_cmac_verify(&aes, message, length, tag, 16) == FOTSGURE_AES_REFUSED;
            tag[at] ^= 0x80;
        }
        right &= fotsgure_aes_cmac_verify(&aes, message, length ? length - 1 : 1, tag, 16) == FOTSGURE_AES_REFUSED;
        expect(right, "tags of each length, with each byte changed, and of another message", length);
    }
}

/* The same tags of messages in pieces of each size up to 33, after a message that is left in its middle. */
static void tags_in_pieces(size_t row)
{
    uint8_t key[32], message[64], wanted[16], tag[16];
    struct fotsgure_aes aes;
    struct fotsgure_aes_cmac_message kept, zeros = {0, 0, {0}, {0}};
    from_hex(key, f_rows[row].key);
    from_hex(message, f_plain);
    expect(fotsgure_aes_set_key(&aes, key, f_rows[row].size) == FOTSGURE_AES_DONE, "a key is kept", f_rows[row].size);
    memset(&kept, 0xa5, sizeof kept);
    for (size_t i = 0; i < 4; i++) {
        size_t length = cmac_lengths[i];
        int right = 1;
        from_hex(wanted, cmac_rows[row][i]);
        for (size_t size = 1; size <= 33; size++) {
            right &= fotsgure_aes_cmac_begin(&aes, &kept) == FOTSGURE_AES_DONE;
            for (size_t at = 0; at < length; at += size)
                right &= fotsgure_aes_cmac_update(&aes, &kept, message + at, size < length - at ? size : length - at) ==
                    FOTSGURE_AES_DONE && fotsgure_aes_cmac_update(&aes, &kept, NULL, 0) == FOTSGURE_AES_DONE;
            if (size % 2) {
                right &= fotsgure_aes_cmac_finish(&aes, &kept, tag) == FOTSGURE_AES_DONE && !memcmp(tag, wanted, 16);
            } else {
                wanted[size % 16] ^= 1;
                right &= fotsgure_aes_cmac_accept(&aes, &kept, wanted, 16) == FOTSGURE_AES_REFUSED;
                wanted[size % 16] ^= 1;
                right &= fotsgure_aes_cmac_accept(&aes, &kept, wanted, 3) == FOTSGURE_AES_TAG_LENGTH;
                right &= fotsgure_aes_cmac_accept(&aes, &kept, wanted, 4 + size % 13) == FOTSGURE_AES_DONE;
            }
            right &= !memcmp(&kept, &zeros, sizeof kept);
            right &= fotsgure_aes_cmac_update(&aes, &kept, message, 1) == FOTSGURE_AES_OUT_OF_TURN;
            right &= fotsgure_aes_cmac_finish(&aes, &kept, tag) == FOTSGURE_AES_OUT_OF_TURN;
            right &= fotsgure_aes_cmac_accept(&aes, &kept, wanted, 16) == FOTSGURE_AES_OUT_OF_TURN;
            right &= fotsgure_aes_cmac_begin(&aes, &kept) == FOTSGURE_AES_DONE;
            right &= fotsgure_aes_cmac_update(&aes, &kept, message, size) == FOTSGURE_AES_DONE;
        }
        expect(right, "CMAC in pieces", length);
    }
    fotsgure_aes_cmac_wipe(&kept);
    expect(!memcmp(&kept, &zeros, sizeof kept), "a message is wiped", sizeof kept);
}

static void count_from(uint8_t *bytes, size_t count, unsigned first)
{
    for (size_t i = 0; i < count; i++)
        bytes[i] = (uint8_t)(first + i);
}

static void messages(size_t row)
{
    enum { KEY = 0x40, NONCE = 0x10, TEXT = 0x20 };
    uint8_t key[16], nonce[13], plain[24], text[24], sealed[24], tag[8], wanted[8];
    size_t nonce_length = ccm_rows[row].nonce, extra = ccm_rows[row].additional, length = ccm_rows[row].text;
    size_t tag_length = ccm_rows[row].tag;
    struct fotsgure_aes aes;
    int refused = 1;
    count_from(key, sizeof key, KEY);
    count_from(nonce, sizeof nonce, NONCE);
    count_from(plain, sizeof plain, TEXT);
    from_hex(sealed, ccm_rows[row].sealed);
    from_hex(wanted, ccm_rows[row].tagged);
    memcpy(text, plain, length);
    expect(fotsgure_aes_set_key(&aes, key, sizeof key) == FOTSGURE_AES_DONE, "a key is kept", sizeof key);
    expect(fotsgure_aes_ccm_seal(&aes, nonce, nonce_length, counted, extra, text, length, tag, tag_length) == FOTSGURE_AES_DONE &&
        !memcmp(text, sealed, length) && !memcmp(tag, wanted, tag_length), "CCM, encrypted", length);
    for (size_t at = 0; at < tag_length; at++) {
        tag[at] ^= 1;
        refused &= fotsgure_aes_ccm_open(&aes, nonce, nonce_length, counted, extra, text, length, tag, tag_length) ==
            FOTSGURE_AES_REFUSED && !memcmp(text, sealed, length);
        tag[at] ^= 1;
    }
    refused &= fotsgure_aes_ccm_open(&aes, nonce, nonce_length, counted, extra - 1, text, length, tag, tag_length) ==
        FOTSGURE_AES_REFUSED && !memcmp(text, sealed, length);
    expect(refused, "CCM, refused: the text is as it was", length);
    expect(fotsgure_aes_ccm_open(&aes, nonce, nonce_length, counted, extra, text, length, tag, tag_length) == FOTSGURE_AES_DONE &&
        !memcmp(text, plain, length), "CCM, decrypted", length);
}

/* Texts longer than two bytes can count, and shorter ones. The cipher text and the tag have the sum that OpenSSL 4.0's have. */
static void long_messages(void)
{
    static const struct { size_t length; const char *sum; } rows[] = {
        {5001, "5ae327e7bd47d44a6891f99638ef30cd"},
        {65537, "c1507211899c5c62437cd7c6b05f66c7"},
    };
    static uint8_t plain[65537], text[sizeof plain];
    uint8_t nonce[12], tag[16];
    struct fotsgure_aes aes;
    int right = fotsgure_aes_set_key(&aes, counted, 16) == FOTSGURE_AES_DONE;
    count_from(nonce, sizeof nonce, 0x10);
    for (size_t row = 0; row < 2; row++) {
        uint8_t sum[16] = {0}, wanted[16];
        size_t length = rows[row].length;
        from_hex(wanted, rows[row].sum);
        fill(plain, length, (uint32_t)length);
        memcpy(text, plain, length);
        right &= fotsgure_aes_ccm_seal(&aes, nonce, 12, counted, 33, text, length, tag, 16) == FOTSGURE_AES_DONE;
        add_to_sum(sum, text, length);
        add_to_sum(sum, tag, 16);
        right &= fotsgure_aes_ccm_open(&aes, nonce, 12, counted, 33, text, length, tag, 16) == FOTSGURE_AES_DONE;
        expect(right && !memcmp(sum, wanted, 16) && !memcmp(text, plain, length), "CCM, a long text", length);
    }
}

static void lengths_of_messages(void)
{
    static uint8_t text[65536];
    uint8_t tag[17] = {0}, nonce[15] = {0};
    struct fotsgure_aes aes;
    int right = fotsgure_aes_set_key(&aes, counted, 16) == FOTSGURE_AES_DONE;
    for (size_t size = 0; size <= 17; size++) {
        int is_tag = size >= 4 && size <= 16 && size % 2 == 0;
        right &= fotsgure_aes_ccm_seal(&aes, nonce, 12, NULL, 0, NULL, 0, tag, size) ==
            (is_tag ? FOTSGURE_AES_DONE : FOTSGURE_AES_TAG_LENGTH);
        right &= fotsgure_aes_ccm_open(&aes, nonce, 12, NULL, 0, NULL, 0, tag, size) ==
            (is_tag ? FOTSGURE_AES_DONE : FOTSGURE_AES_TAG_LENGTH);
    }
    for (size_t size = 0; size <= 15; size++) {
        enum fotsgure_aes_status status = size >= 7 && size <= 13 ? FOTSGURE_AES_DONE : FOTSGURE_AES_NONCE_LENGTH;
        right &= fotsgure_aes_ccm_seal(&aes, nonce, size, NULL, 0, NULL, 0, tag, 8) == status;
        right &= fotsgure_aes_ccm_open(&aes, nonce, size, NULL, 0, NULL, 0, tag, 8) == status;
    }
    right &= fotsgure_aes_ccm_seal(&aes, nonce, 13, NULL, 0, text, 65536, tag, 8) == FOTSGURE_AES_TOO_LONG;
    right &= fotsgure_aes_ccm_open(&aes, nonce, 13, NULL, 0, text, 65536, tag, 8) == FOTSGURE_AES_TOO_LONG;
    right &= fotsgure_aes_ccm_seal(&aes, nonce, 13, NULL, 0, text, 65535, tag, 8) == FOTSGURE_AES_DONE;
    right &= fotsgure_aes_ccm_seal(&aes, NULL, 0, NULL, 0, NULL, 0, NULL, 0) == FOTSGURE_AES_TAG_LENGTH;
    right &= fotsgure_aes_cmac(&aes, NULL, 0, tag) == FOTSGURE_AES_DONE;
    right &= fotsgure_aes_cmac_verify(&aes, NULL, 0, NULL, 0) == FOTSGURE_AES_TAG_LENGTH;
    expect(right, "lengths of tags, nonces and texts", 16);
}

/* FIPS 197, C.1: round 1 of the cipher and of the equivalent inverse cipher; the columns before and after MixColumns. */
static void single_rounds(void)
{
    static const char *const rows[][3] = {
        {"00102030405060708090a0b0c0d0e0f0", "d6aa74fdd2af72fadaa678f1d6ab76fe", "89d810e8855ace682d1843d8cb128fe4"},
        {"7ad5fda789ef4e272bca100b3d9ff59f", "13aa29be9c8faff6f770f58000f7bf03", "54d990a16ba09ab596bbf40ea111702f"},
    };
    uint8_t blocks[FOTSGURE_AES_EIGHT_BLOCKS], keys[sizeof blocks], wanted[sizeof blocks], block[16], mixed[16];
    for (size_t row = 0; row < 2; row++) {
        for (size_t i = 0; i < sizeof blocks; i += 16) {
            from_hex(blocks + i, rows[row][0]);
            from_hex(keys + i, rows[row][1]);
            from_hex(wanted + i, rows[row][2]);
        }
        memcpy(block, blocks, 16);
        (row ? fotsgure_aes_equiv_inv_cipher_round : fotsgure_aes_cipher_round)(block, keys);
        (row ? fotsgure_aes_equiv_inv_cipher_round_par : fotsgure_aes_cipher_round_par)(blocks, keys);
        expect(!memcmp(block, wanted, 16) && !memcmp(blocks, wanted, sizeof blocks), "a single round", row);
    }
    from_hex(block, "6353e08c0960e104cd70b751bacad0e7");
    from_hex(mixed, "5f72641557f5bc92f7be3b291db9f91a");
    fotsgure_aes_mix_columns(block);
    expect(!memcmp(block, mixed, 16), "MixColumns", 16);
    fotsgure_aes_inv_mix_columns(block);
    from_hex(mixed, "6353e08c0960e104cd70b751bacad0e7");
    expect(!memcmp(block, mixed, 16), "InvMixColumns", 16);
}

#include "aes_statuses.h"

#ifdef WITH_OPENSSL
static int other(const EVP_CIPHER *how, int there, const uint8_t *key, const uint8_t *iv, const uint8_t *in,
    uint8_t *out, int size)
{
    int now = 0, last = 0;
    EVP_CIPHER_CTX *it = EVP_CIPHER_CTX_new();
    int done = it && EVP_CipherInit_ex(it, how, NULL, key, iv, there) == 1 && EVP_CIPHER_CTX_set_padding(it, 0) == 1 &&
               EVP_CipherUpdate(it, out, &now, in, size) == 1 && EVP_CipherFinal_ex(it, out + now, &last) == 1 &&
                   now + last == size;
    EVP_CIPHER_CTX_free(it);
    return done;
}

static void as_openssl(size_t size)
{
    enum { LONG = 1 << 20 };
    uint8_t *text = malloc(LONG), *ours = malloc(LONG), *theirs = malloc(LONG);
    const EVP_CIPHER *ecb = size == 16 ? EVP_aes_128_ecb() : size == 24 ? EVP_aes_192_ecb() : EVP_aes_256_ecb();
    const EVP_CIPHER *mode = size == 16 ? EVP_aes_128_ctr() : size == 24 ? EVP_aes_192_ctr() : EVP_aes_256_ctr();
    struct fotsgure_aes aes;
    struct fotsgure_aes_ctr ctr = {{0}, 0};
    uint8_t key[32];
    if (!text || !ours || !theirs)
        exit(2);
    fill(text, LONG, 11);
    fill(key, sizeof key, (uint32_t)size + 1);
    memset(ctr.iv, 0xff, 15); /* it wraps round within the first 256 blocks */
    ctr.iv[15] = 0x80;
    expect(fotsgure_aes_set_key(&aes, key, size) == FOTSGURE_AES_DONE, "a key is kept", size);
    expect(other(ecb, 1, key, NULL, text, theirs, LONG) && fotsgure_aes_encrypt_blocks_to(&aes, text, LONG / 16, ours,
        LONG / 16) == FOTSGURE_AES_DONE &&
           !memcmp(ours, theirs, LONG), "1 MiB encrypted as by OpenSSL", size);
    expect(other(ecb, 0, key, NULL, text, theirs, LONG) && fotsgure_aes_decrypt_blocks_to(&aes, text, LONG / 16, ours,
        LONG / 16) == FOTSGURE_AES_DONE &&
           !memcmp(ours, theirs, LONG), "1 MiB decrypted as by OpenSSL", size);
    expect(other(mode, 1, key, ctr.iv, text, theirs, LONG) && memcpy(ours, text, LONG) &&
        fotsgure_aes_add_keystream(&aes, &ctr, ours, LONG) == FOTSGURE_AES_DONE &&
           !memcmp(ours, theirs, LONG), "1 MiB in counter mode as by OpenSSL", size);
    free(text);
    free(ours);
    free(theirs);
}
#endif

/* Each status has words of its own. So has a number that is no status. */
static void words(void)
{
    for (int a = 0; a <= FOTSGURE_AES_TOO_LONG + 1; a++)
        for (int b = 0; b < a; b++)
            expect(strcmp(fotsgure_aes_status_text((enum fotsgure_aes_status)a),
                fotsgure_aes_status_text((enum fotsgure_aes_status)b)) != 0, "two statuses in the same words", (size_t)a);
}

int main(void)
{
    for (size_t i = 0; i < sizeof counted; i++)
        counted[i] = (uint8_t)i;
    for (size_t i = 0; i < 3; i++) {
        rows_of_appendix_c(c_rows[i].size, c_rows[i].cipher);
        slices(c_rows[i].size);
        counter_mode(f_rows[i].size, f_rows[i].key, f_rows[i].cipher);
        chains(i);
        tags(i);
        tags_in_pieces(i);
        messages(i);
#ifdef WITH_OPENSSL
        as_openssl(c_rows[i].size);
#endif
    }
    for (size_t i = 0; i < sizeof wrap_rows / sizeof *wrap_rows; i++)
        wrapped_keys(i);
    for (size_t i = 0; i < sizeof padded_rows / sizeof *padded_rows; i++)
        padded_keys(i);
    paddings();
    long_messages();
    lengths_of_messages();
    single_rounds();
    statuses();
    words();
    return finish();
}
