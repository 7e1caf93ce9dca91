/* What the files of this folder share: mbedtls' configuration, and what lies between mbedtls' arguments and those of the library. */
#ifndef FOTSGURE_MBEDTLS_GLUE_H
#define FOTSGURE_MBEDTLS_GLUE_H

#include <stddef.h>
#include <stdint.h>
#include <string.h>
#include "mbedtls/version.h" /* which includes the configuration, in 2.28 and 3.x */

/* mbedtls' callers pass one buffer as input and output, or two. The library's calls in place serve both, once the input is in the
 * output. Call it only if nothing can be refused any more: else a plain text would stay in the output. */
static inline void fotsgure_put(unsigned char *output, const unsigned char *input, size_t length)
{
    if (length > 0 && output != input)
        memmove(output, input, length);
}

static inline void fotsgure_add(unsigned char *to, const unsigned char *bytes, size_t length)
{
    for (size_t i = 0; i < length; i++)
        to[i] ^= bytes[i];
}

/* Whether two ranges have a byte in common. */
static inline int fotsgure_overlap(const void *a, size_t a_length, const void *b, size_t b_length)
{
    const uintptr_t at = (uintptr_t)a, bt = (uintptr_t)b;
    return a_length > 0 && b_length > 0 && (at < bt ? bt - at < a_length : at - bt < b_length);
}

/* How many bytes a key of `bits` has, if AES has such keys; else 0. */
static inline size_t fotsgure_key_bytes(unsigned int bits)
{
    return bits == 128 || bits == 192 || bits == 256 ? bits / 8 : 0;
}

#endif
