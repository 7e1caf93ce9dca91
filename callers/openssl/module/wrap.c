/* Key wrap (SP 800-38F). The library does KW and KWP. For the inverse cipher, or an initial value other than the standard's, this
 * file does the steps over the library's block cipher. */
#include "provider.h"

#include <stdlib.h>

#define SEMIBLOCK (BLOCK / 2)

/* By the library, which does all of it. A key without its padding is shorter than the `*count` bytes of output. */
static int process_proved(struct context *c, byte *out, size_t *count, const byte *in, size_t length)
{
    size_t semiblocks = length / SEMIBLOCK, room = *count / SEMIBLOCK;
    enum fotsgure_aes_status status;
    if (c->algorithm->padded)
        status = c->encrypts ? fotsgure_aes_wrap_padded(&c->aes, in, length, out, room)
                             : fotsgure_aes_unwrap_padded(&c->aes, in, semiblocks, out, room, count);
    else
        status = c->encrypts ? fotsgure_aes_wrap(&c->aes, in, semiblocks, out, room)
                             : fotsgure_aes_unwrap(&c->aes, in, semiblocks, out, room);
    return status == FOTSGURE_AES_DONE;
}

static int process_block(struct context *c, byte block[BLOCK])
{
    return (c->encrypts != c->algorithm->inverse ? fotsgure_aes_encrypt_blocks(&c->aes, block, 1)
                                                 : fotsgure_aes_decrypt_blocks(&c->aes, block, 1)) == FOTSGURE_AES_DONE;
}

static void add_number(byte *semiblock, uint64_t number)
{
    for (size_t i = SEMIBLOCK; i-- > 0; number >>= 8)
        semiblock[i] ^= (byte)number;
}

/* W or its inverse (6.1) on `count` semiblocks. The first is the check. Two semiblocks are one block (KWP). */
static int wrap_steps(struct context *c, byte *semiblocks, size_t count)
{
    int done = 1, encrypts = c->encrypts;
    size_t steps = 6 * (count - 1);
    byte block[BLOCK];
    if (count == 2)
        return process_block(c, semiblocks);
    memcpy(block, semiblocks, SEMIBLOCK);
    for (size_t i = 1; i <= steps; i++) {
        size_t step = encrypts ? i : steps + 1 - i;
        byte *semiblock = semiblocks + SEMIBLOCK * ((step - 1) % (count - 1) + 1);
        memcpy(block + SEMIBLOCK, semiblock, SEMIBLOCK);
        if (!encrypts)
            add_number(block, step);
        done &= process_block(c, block);
        if (encrypts)
            add_number(block, step);
        memcpy(semiblock, block + SEMIBLOCK, SEMIBLOCK);
    }
    memcpy(semiblocks, block, SEMIBLOCK);
    explicit_bzero(block, sizeof block);
    return done;
}

/* Returns 1 if the bytes are equal, without an early exit. */
static int equal(const byte *a, const byte *b, size_t length)
{
    unsigned difference = 0;
    for (size_t i = 0; i < length; i++)
        difference |= (unsigned)(a[i] ^ b[i]);
    return difference == 0;
}

/* Wraps into `*count` zeros. After the value of KWP comes the length of the key. */
static int wrap(struct context *c, byte *out, size_t *count, const byte *in, size_t length)
{
    memcpy(out, c->iv, c->iv_length);
    for (size_t i = c->iv_length; i < SEMIBLOCK; i++)
        out[i] = (byte)(length >> (56 - 8 * i));
    memcpy(out + SEMIBLOCK, in, length);
    return wrap_steps(c, out, *count / SEMIBLOCK);
}

/* Unwraps in `out`, which has room for what is wrapped. */
static int unwrap(struct context *c, byte *out, size_t *count, const byte *in, size_t length)
{
    static const byte zeros[SEMIBLOCK] = {0};
    size_t whole = *count; /* bytes of the key with its padding */
    int right;
    memcpy(out, in, length);
    right = wrap_steps(c, out, length / SEMIBLOCK) & equal(out, c->iv, c->iv_length);
    if (c->algorithm->padded) {
        *count = (size_t)out[4] << 24 | (size_t)out[5] << 16 | (size_t)out[6] << 8 | out[7];
        right = right && *count <= whole && *count + SEMIBLOCK > whole &&
            equal(out + SEMIBLOCK + *count, zeros, whole - *count);
    }
    memmove(out, out + SEMIBLOCK, whole);
    return right;
}

/* Goes over a copy, since `in` and `out` may be the same. */
static int process(struct context *c, byte *out, size_t *count, const byte *in, size_t length)
{
    size_t room = length + 2 * SEMIBLOCK;
    byte *copy = calloc(1, room);
    int is_proved = !c->algorithm->inverse && memcmp(c->iv, c->algorithm->first_iv, c->iv_length) == 0;
    int done = copy && (is_proved ? process_proved : c->encrypts ? wrap : unwrap)(c, copy, count, in, length);
    if (done)
        memcpy(out, copy, *count);
    if (copy)
        explicit_bzero(copy, room);
    free(copy);
    return done;
}

/* A key comes whole, in one call. */
int wrap_update(void *context, byte *out, size_t *out_length, size_t out_size, const byte *in, size_t length)
{
    struct context *c = context;
    int padded = c->algorithm->padded, encrypts = c->encrypts;
    size_t least = encrypts ? (padded ? 1 : 2 * SEMIBLOCK) : (padded ? 2 * SEMIBLOCK : 3 * SEMIBLOCK), count;
    *out_length = 0;
    if (!in || length == 0)
        return 1;
    if (length < least || length > (size_t)1 << 31 || (length % SEMIBLOCK != 0 && !(encrypts && padded)))
        return fail(c, PROV_R_INVALID_INPUT_LENGTH);
    count = encrypts ? (length + SEMIBLOCK - 1) / SEMIBLOCK * SEMIBLOCK + SEMIBLOCK : length - SEMIBLOCK;
    if (!out) {
        *out_length = count;
        return 1;
    }
    if (!c->has_key)
        return fail(c, PROV_R_NO_KEY_SET);
    if (out_size + SEMIBLOCK - 1 < count) /* OpenSSL doesn't count the padding */
        return fail(c, PROV_R_OUTPUT_BUFFER_TOO_SMALL);
    COUNTED(c->algorithm, BYTES_OF_TEXT, length);
    if (!process(c, out, &count, in, length))
        return fail(c, PROV_R_CIPHER_OPERATION_FAILED);
    *out_length = count;
    return 1;
}
