/* ECB, CBC and CTR (SP 800-38A): what OpenSSL's interface asks for, around calls of the proved library. Padding, and
 * the MAC of a record of TLS, are removed in constant time: neither a branch nor an address depends on the padding,
 * except for what the interface itself shows. */
#include "provider.h"

/* Processes whole blocks in place, and in counter mode any number of bytes. */
static int process(struct context *c, byte *text, size_t length)
{
    size_t count = length / BLOCK;
    enum fotsgure_aes_status status;
    COUNTED(c->algorithm, BYTES_OF_TEXT, length);
    if (is_mode(c, EVP_CIPH_CTR_MODE))
        status = fotsgure_aes_add_keystream(&c->aes, &c->ctr, text, length);
    else if (is_mode(c, EVP_CIPH_CBC_MODE))
        status = c->encrypts ? fotsgure_aes_cbc_encrypt(&c->aes, &c->cbc, text, count)
                             : fotsgure_aes_cbc_decrypt(&c->aes, &c->cbc, text, count);
    else
        status = c->encrypts ? fotsgure_aes_encrypt_blocks(&c->aes, text, count)
                             : fotsgure_aes_decrypt_blocks(&c->aes, text, count);
    return status == FOTSGURE_AES_DONE;
}

/* Returns all bits 1 if a < b, else 0, without a branch. Both are below 2^63. */
static size_t less(size_t a, size_t b)
{
    return 0 - ((a - b) >> 63);
}

/* Returns all bits 1 if each of the last n bytes has this value, else 0. It reads the last `most`, whatever n is. */
static size_t ends_in(const byte *text, size_t count, size_t n, size_t value, size_t most)
{
    size_t right = SIZE_MAX;
    for (size_t i = 0; i < most; i++)
        right &= ~(less(i, n) & less(0, text[count - 1 - i] ^ value));
    return right;
}

/* Returns the length of the padding of the last block (RFC 5652, 6.3), or 0 if it isn't one. */
static size_t padding_length(const byte last[BLOCK])
{
    size_t n = last[BLOCK - 1];
    return n & less(n, BLOCK + 1) & ends_in(last, BLOCK, n, n, BLOCK);
}

/* Removes padding (n + 1 bytes of n: RFC 5246, 6.2.3.2) and MAC from a decrypted record. If the padding is wrong, libssl
 * gets a wrong MAC. */
static int open_record(struct context *c, byte *record, size_t *length)
{
    size_t iv_length = c->tls_version == TLS1_VERSION ? 0 : BLOCK, mac_length = c->mac_length;
    if (*length < iv_length + mac_length + 1)
        return 0;
    byte *text = record + iv_length;
    size_t count = *length - iv_length, n = text[count - 1];
    size_t right = less(n + mac_length, count) & ends_in(text, count, n + 1, n, count < 256 ? count : 256);
    size_t start = count - (right & (n + 1)) - mac_length; /* of the MAC; secret */
    size_t first = count > 256 + mac_length ? count - 256 - mac_length : 0;
    memset(c->mac, 0, sizeof c->mac);
    for (size_t i = first; i < count; i++)
        for (size_t j = 0; j < mac_length; j++)
            c->mac[j] |= (byte)(text[i] & ~less(0, i ^ (start + j)));
    for (size_t j = 0; j < mac_length; j++)
        c->mac[j] ^= (byte)~right;
    *length = start;
    return mac_length > 0 || right != 0;
}

/* One record of TLS by CBC, in place: padded and encrypted, or decrypted without padding and MAC. */
static int record(struct context *c, byte *out, size_t *out_length, size_t out_size, const byte *in, size_t length)
{
    size_t padding = c->encrypts ? BLOCK - length % BLOCK : 0;
    if (in != out || c->unpadded || out_size < length || out_size - length < padding)
        return fail(c, PROV_R_CIPHER_OPERATION_FAILED);
    memset(out + length, (int)padding - 1, padding);
    *out_length = length + padding;
    return (*out_length % BLOCK == 0 && process(c, out, *out_length) &&
        (c->encrypts || open_record(c, out, out_length))) || fail(c, PROV_R_CIPHER_OPERATION_FAILED);
}

/* Without buffering and padding: counter mode, and what EVP_Cipher asks for. */
int block_cipher(void *context, byte *out, size_t *out_length, size_t out_size, const byte *in, size_t length)
{
    struct context *c = context;
    *out_length = in ? length : 0;
    if (!c->has_key)
        return fail(c, PROV_R_NO_KEY_SET);
    if (*out_length == 0)
        return 1;
    if (length % c->algorithm->block != 0)
        return fail(c, PROV_R_WRONG_FINAL_BLOCK_LENGTH);
    if (out_size < length)
        return fail(c, PROV_R_OUTPUT_BUFFER_TOO_SMALL);
    if (out != in)
        memmove(out, in, length);
    return process(c, out, length);
}

/* Moves what was kept and the first of `in` to `out`, `ready` bytes in all, and keeps the rest. Nothing of `in` is
 * overwritten before it is read, however the two overlap. */
static void keep_rest(struct context *c, byte *out, const byte *in, size_t length, size_t ready)
{
    size_t before = c->kept_length, taken = ready - before;
    byte rest[BLOCK];
    memcpy(rest, in + taken, length - taken);
    if (before > 0 || out != in)
        memmove(out + before, in, taken);
    memcpy(out, c->kept, before);
    memcpy(c->kept, rest, length - taken);
    c->kept_length = length - taken;
}

int block_update(void *context, byte *out, size_t *out_length, size_t out_size, const byte *in, size_t length)
{
    struct context *c = context;
    int last_is_padding = !c->encrypts && !c->unpadded; /* so the last block waits for block_final */
    size_t total = c->kept_length + length, keep = total % BLOCK;
    *out_length = 0;
    if (!c->has_key)
        return fail(c, PROV_R_NO_KEY_SET);
    if (c->tls_version != 0)
        return record(c, out, out_length, out_size, in, length);
    if (length == 0)
        return 1;
    if (last_is_padding && keep == 0)
        keep = BLOCK;
    if (out_size < total - keep)
        return fail(c, PROV_R_OUTPUT_BUFFER_TOO_SMALL);
    if (total == keep) {
        memcpy(c->kept + c->kept_length, in, length);
        c->kept_length = total;
        return 1;
    }
    keep_rest(c, out, in, length, total - keep);
    *out_length = total - keep;
    return process(c, out, total - keep);
}

int block_final(void *context, byte *out, size_t *out_length, size_t out_size)
{
    struct context *c = context;
    size_t kept = c->kept_length, padding = 0;
    *out_length = 0;
    if (!c->has_key && !is_mode(c, EVP_CIPH_WRAP_MODE))
        return fail(c, PROV_R_NO_KEY_SET);
    if (c->tls_version != 0)
        return fail(c, PROV_R_CIPHER_OPERATION_FAILED);
    if (kept == 0 && (c->unpadded || c->algorithm->block != BLOCK)) /* counter mode and key wrap keep nothing */
        return 1;
    if (c->unpadded || (!c->encrypts && kept != BLOCK))
        return fail(c, PROV_R_WRONG_FINAL_BLOCK_LENGTH);
    memset(c->kept + kept, (int)(BLOCK - kept), BLOCK - kept);
    c->kept_length = 0;
    if (!process(c, c->kept, BLOCK))
        return 0;
    if (!c->encrypts && (padding = padding_length(c->kept)) == 0)
        return fail(c, PROV_R_BAD_DECRYPT);
    if (out_size < BLOCK - padding)
        return fail(c, PROV_R_OUTPUT_BUFFER_TOO_SMALL);
    memcpy(out, c->kept, BLOCK - padding);
    explicit_bzero(c->kept, BLOCK);
    *out_length = BLOCK - padding;
    return 1;
}
