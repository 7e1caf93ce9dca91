/* AES (FIPS 197) with keys of 16, 24 and 32 bytes, counter mode and CBC (SP 800-38A, 6.5 and 6.2), key wrap without and
 * with padding (SP 800-38F, 6.2 and 6.3), CMAC (SP 800-38B), CCM (SP 800-38C) and single rounds, proved.
 *
 * The comment of a call is its contract in words. The proof covers every call that meets the conditions below; nothing
 * checks a call from C.
 *
 * For every call, the caller must ensure:
 *  - Valid pointers. A pointer to a struct points to a whole one, aligned as C aligns it. `key` points to `key_length`
 *    bytes, `bytes` to `count` bytes, and `blocks` to `count` blocks of 16 bytes. Every other pointer points to as many
 *    blocks or bytes as the count or the length after it says, or as its array has. Bytes and blocks need no alignment.
 *    What a call reads has been initialized.
 *  - No object of more than PTRDIFF_MAX bytes. Counts are in blocks where a parameter is called `blocks`, and where the
 *    name of the call says so.
 *  - No overlap: what a call writes overlaps nothing else that it is given, and isn't the same buffer either. To work in
 *    place, use the calls with one buffer. What a call only reads may overlap.
 *  - A struct fotsgure_aes that fotsgure_aes_set_key or fotsgure_aes_wipe wrote last, or a copy of such a struct, or one
 *    whose bytes are all 0. For these two calls it may be uninitialized.
 *  - A struct fotsgure_aes_cmac_message may hold anything but uninitialized bytes. For fotsgure_aes_cmac_begin and
 *    fotsgure_aes_cmac_wipe it may be uninitialized too. What calls promise about a message holds if all its calls had the
 *    same key, the first was fotsgure_aes_cmac_begin, and nothing else wrote the struct.
 *  - No data race: during the call no other thread writes what it reads, or reads or writes what it writes.
 *  - FOTSGURE_AES_STACK bytes of stack, and a processor with little-endian words: any on x86-64, 64-bit ARM and RISC-V; on
 *    32-bit ARM an ARMv7 or later, or a Cortex-M. On microcontrollers docs/MICROCONTROLLERS.md says how much stack a call
 *    needs.
 *
 * NULL is allowed for a pointer to bytes or blocks if a count or a length follows it and is 0.
 *
 * In return, every call returns, and writes only what its comment says. No call allocates, prints, aborts, blocks,
 * or keeps a pointer. The library has no state of its own, except one word on x86-64: a library that holds several builds
 * keeps there which of them the processor runs. A call that doesn't return FOTSGURE_AES_DONE has changed nothing. There
 * are three exceptions: fotsgure_aes_set_key leaves a struct without a key; fotsgure_aes_unwrap and
 * fotsgure_aes_unwrap_padded leave zeros if they return REFUSED; and the latter sets *key_length to 0. What a call returns
 * depends on lengths and positions alone, never on the bytes of a key or of data. REFUSED is the exception: a wrapped key,
 * a tag or a message was not right.
 *
 * Proved: that calls return, what they return and write, and that the calls with an argument `key` wipe the schedule that
 * they keep. Reviewed by hand and measured: that these calls keep no other copy of the schedule, that no call allocates,
 * that the stack suffices, and what calls read of an unwritten struct.
 *
 * Copies and threads: a struct fotsgure_aes may be copied and moved as bytes. Every copy is as secret as the key and has
 * to be wiped too. Any number of threads may use one struct at the same time, in calls that have it as const.
 * A struct fotsgure_aes_ctr belongs to one thread at a time; a copy of it would give out the same keystream again. A
 * struct of a message also belongs to one thread at a time.
 *
 * A block cipher alone protects no message, and counter mode doesn't show whether a message was changed. For
 * messages use fotsgure_gcm.h, or CCM if a protocol asks for it. */
#ifndef FOTSGURE_AES_H
#define FOTSGURE_AES_H

/* This header needs C99 or C++11. */
#include <stddef.h>
#include <stdint.h>

#if defined(__BYTE_ORDER__) && __BYTE_ORDER__ != __ORDER_LITTLE_ENDIAN__
#error "no build of this library is for machines with big-endian words"
#endif

/* The version of this header; fotsgure_aes_version() returns that of the library. */
#define FOTSGURE_AES_VERSION_TEXT "0.4.0"
#define FOTSGURE_AES_VERSION 400 /* 10000 * 0 + 100 * 4 + 0 */

#define FOTSGURE_AES_BLOCK 16         /* bytes of a block */
#define FOTSGURE_AES_EIGHT_BLOCKS 128 /* bytes of eight */
#define FOTSGURE_AES_STACK 16384      /* bytes of stack that are enough for every call */

#ifdef __cplusplus
#define FOTSGURE_AES_ALONE __restrict
#define FOTSGURE_AES_NOEXCEPT noexcept
#define FOTSGURE_AES_ASSERT static_assert
#define FOTSGURE_AES_CAST(cast, type, value) cast<type>(value)
extern "C" {
#else
#define FOTSGURE_AES_ALONE restrict
#define FOTSGURE_AES_NOEXCEPT
#if __STDC_VERSION__ >= 201112L
#define FOTSGURE_AES_ASSERT _Static_assert
#else
#define FOTSGURE_AES_ASSERT(holds, why) extern int fotsgure_aes_assert[(holds) ? 1 : -1]
#endif
#define FOTSGURE_AES_CAST(cast, type, value) ((type)(value))
#endif

#if defined(__GNUC__) || defined(__clang__)
#define FOTSGURE_AES_CHECK __attribute__((warn_unused_result))
#else
#define FOTSGURE_AES_CHECK
#endif

/* What a call returns. */
enum fotsgure_aes_status {
    FOTSGURE_AES_DONE = 0,           /* the work is done */
    FOTSGURE_AES_KEY_LENGTH = 1,     /* the key doesn't have 16, 24 or 32 bytes */
    FOTSGURE_AES_NO_KEY = 2,         /* the struct holds no key */
    FOTSGURE_AES_UNEQUAL_COUNTS = 3, /* input and output differ in length */
    FOTSGURE_AES_KEYSTREAM_END = 4,  /* the position would pass 2^64 - 1 */
    FOTSGURE_AES_INVALID_COUNT = 5,  /* keys of this length are not wrapped, or the output has the wrong length */
    FOTSGURE_AES_REFUSED = 6,        /* the key was not wrapped under this one, or was changed; the tag isn't that of the
                                      * message */
    FOTSGURE_AES_TAG_LENGTH = 7,     /* the tag has a length that isn't allowed */
    FOTSGURE_AES_NONCE_LENGTH = 8,   /* the nonce doesn't have 7 to 13 bytes */
    FOTSGURE_AES_TOO_LONG = 9,       /* more text than a nonce of this length allows */
    FOTSGURE_AES_OUT_OF_TURN = 10    /* the calls for a message came in the wrong order */
};

/* The words of a key schedule. Of the builds for 64-bit RISC-V, the one without vectors has words of 64 bits. */
#if defined(__riscv) && __riscv_xlen == 64
typedef uint64_t fotsgure_aes_word;
#else
typedef uint32_t fotsgure_aes_word;
#endif

/* A key schedule, for both directions and for counter mode. Read and write it by the calls below alone. On 64-bit RISC-V
 * with vectors it is kept in the first 484 bytes, and the others are neither read nor written. What these comments say of
 * the struct holds there for these 484 bytes. */
struct fotsgure_aes {
    fotsgure_aes_word key_length; /* in the lower 32 bits: 16, 24 or 32; 0: no key */
    fotsgure_aes_word round_keys[120];
};

/* A position in a keystream. The caller sets both fields, and may set `position` to continue anywhere. Never use a counter
 * block twice under one key: keystream block i is made from iv + i, so give each message a range of its own. */
struct fotsgure_aes_ctr {
    uint8_t iv[16];    /* the initial counter block: one number of 128 bits, highest byte first */
    uint64_t position; /* how many bytes of the keystream come before the next: 0 at the start */
};

/* The state of a chain of blocks. The caller sets it to the initialization vector, which is drawn at random for each
 * message (SP 800-38A, appendix C). */
struct fotsgure_aes_cbc {
    uint8_t previous[16]; /* the last encrypted block; before the first, the initialization vector */
};

/* A message in pieces whose tag is made by CMAC. Read and write it by the calls below alone. It is as secret as the key. */
struct fotsgure_aes_cmac_message {
    uint64_t begun;       /* 1: a message has begun; every other number: no message */
    uint64_t rest_length; /* how many bytes of the last block have come */
    uint8_t value[16];
    uint8_t rest[16];
};

FOTSGURE_AES_ASSERT(sizeof(struct fotsgure_aes) == 121 * sizeof(fotsgure_aes_word), "no padding");
FOTSGURE_AES_ASSERT(sizeof(struct fotsgure_aes_ctr) == 24, "no padding");
FOTSGURE_AES_ASSERT(sizeof(struct fotsgure_aes_cbc) == 16, "no padding");
FOTSGURE_AES_ASSERT(sizeof(struct fotsgure_aes_cmac_message) == 48, "no padding");

/* Returns FOTSGURE_AES_VERSION of the header that the library was built with. */
uint32_t fotsgure_aes_version(void) FOTSGURE_AES_NOEXCEPT;

/* Expands a key into *aes (KeyExpansion, FIPS 197, 5.2). *aes may be uninitialized: none of it is read. Nothing of what
 * it held is left: *aes then has the length of the key, its round keys, and zeros.
 * DONE if key_length is 16, 24 or 32; else KEY_LENGTH, and *aes then is all zeros and holds no key. */
FOTSGURE_AES_CHECK enum fotsgure_aes_status fotsgure_aes_set_key(struct fotsgure_aes *FOTSGURE_AES_ALONE aes,
    const uint8_t *key, size_t key_length) FOTSGURE_AES_NOEXCEPT;

/* Returns how many bytes the key has: 16, 24 or 32, or 0 if *aes holds no key. */
size_t fotsgure_aes_key_length(const struct fotsgure_aes *aes) FOTSGURE_AES_NOEXCEPT;

/* Overwrites *aes with zeros: it then holds no key. It may be uninitialized: zeros are written before any of it is
 * read. Copies are not wiped. */
void fotsgure_aes_wipe(struct fotsgure_aes *aes) FOTSGURE_AES_NOEXCEPT;

/* Encrypts (Cipher, FIPS 197, 5.1) or decrypts (InvCipher, 5.3) each of `count` blocks in place under the key of *aes.
 * DONE, or NO_KEY. Many blocks in one call take less time than as many calls. */
FOTSGURE_AES_CHECK enum fotsgure_aes_status fotsgure_aes_encrypt_blocks(const struct fotsgure_aes *aes,
    uint8_t *FOTSGURE_AES_ALONE blocks, size_t count) FOTSGURE_AES_NOEXCEPT;
FOTSGURE_AES_CHECK enum fotsgure_aes_status fotsgure_aes_decrypt_blocks(const struct fotsgure_aes *aes,
    uint8_t *FOTSGURE_AES_ALONE blocks, size_t count) FOTSGURE_AES_NOEXCEPT;

/* The same from one buffer to another; counts are in blocks. UNEQUAL_COUNTS if they differ, else NO_KEY if there is no
 * key, else DONE. */
FOTSGURE_AES_CHECK enum fotsgure_aes_status fotsgure_aes_encrypt_blocks_to(const struct fotsgure_aes *aes,
    const uint8_t *input, size_t input_count,
    uint8_t *FOTSGURE_AES_ALONE output, size_t output_count) FOTSGURE_AES_NOEXCEPT;
FOTSGURE_AES_CHECK enum fotsgure_aes_status fotsgure_aes_decrypt_blocks_to(const struct fotsgure_aes *aes,
    const uint8_t *input, size_t input_count,
    uint8_t *FOTSGURE_AES_ALONE output, size_t output_count) FOTSGURE_AES_NOEXCEPT;

/* Counter mode in place: adds (XOR) to each of `count` bytes the keystream's byte at its place, the first at
 * ctr->position, and moves the position on by `count`. Byte i of the keystream is byte i % 16 of Cipher of the block
 * (iv + i / 16) modulo 2^128. The same call encrypts and decrypts, and it makes no difference how data is cut into
 * calls. KEYSTREAM_END if the position would pass 2^64 - 1, else NO_KEY if there is no key, else DONE. */
FOTSGURE_AES_CHECK enum fotsgure_aes_status fotsgure_aes_add_keystream(const struct fotsgure_aes *aes,
    struct fotsgure_aes_ctr *FOTSGURE_AES_ALONE ctr,
    uint8_t *FOTSGURE_AES_ALONE bytes, size_t count) FOTSGURE_AES_NOEXCEPT;

/* The same from one buffer to another; counts are in bytes. UNEQUAL_COUNTS if they differ; else as in place. */
FOTSGURE_AES_CHECK enum fotsgure_aes_status fotsgure_aes_add_keystream_to(const struct fotsgure_aes *aes,
    struct fotsgure_aes_ctr *FOTSGURE_AES_ALONE ctr,
    const uint8_t *input, size_t input_count,
    uint8_t *FOTSGURE_AES_ALONE output, size_t output_count) FOTSGURE_AES_NOEXCEPT;

/* Cipher block chaining in place (SP 800-38A, 6.2), on whole blocks: encrypts or decrypts the next `count` blocks of a
 * chain, and moves *cbc on to the last encrypted one. It makes no difference how blocks are cut into calls. CBC doesn't
 * show whether a message was changed. A program that reveals whether padding was right reveals messages. So first check
 * a tag over the initialization vector and the encrypted blocks. DONE, or NO_KEY. */
FOTSGURE_AES_CHECK enum fotsgure_aes_status fotsgure_aes_cbc_encrypt(const struct fotsgure_aes *aes,
    struct fotsgure_aes_cbc *FOTSGURE_AES_ALONE cbc,
    uint8_t *FOTSGURE_AES_ALONE blocks, size_t count) FOTSGURE_AES_NOEXCEPT;
FOTSGURE_AES_CHECK enum fotsgure_aes_status fotsgure_aes_cbc_decrypt(const struct fotsgure_aes *aes,
    struct fotsgure_aes_cbc *FOTSGURE_AES_ALONE cbc,
    uint8_t *FOTSGURE_AES_ALONE blocks, size_t count) FOTSGURE_AES_NOEXCEPT;

/* Key wrap (KW, SP 800-38F, 6.2; RFC 3394) from one buffer to another: encrypts a key, and shows whether it was
 * changed. Counts are in semiblocks of 8 bytes. A key has two or more. A wrapped key has one more. Key wrap needs no
 * nonce: the same key, wrapped twice, gives the same bytes. Use a key that wraps keys for nothing else.
 * NO_KEY; INVALID_COUNT if keys of this length are not wrapped, or the output isn't one semiblock longer (to unwrap:
 * shorter); fotsgure_aes_unwrap also REFUSED, and the output then is all zeros; else DONE. */
FOTSGURE_AES_CHECK enum fotsgure_aes_status fotsgure_aes_wrap(const struct fotsgure_aes *aes,
    const uint8_t *input, size_t input_count,
    uint8_t *FOTSGURE_AES_ALONE output, size_t output_count) FOTSGURE_AES_NOEXCEPT;
FOTSGURE_AES_CHECK enum fotsgure_aes_status fotsgure_aes_unwrap(const struct fotsgure_aes *aes,
    const uint8_t *input, size_t input_count,
    uint8_t *FOTSGURE_AES_ALONE output, size_t output_count) FOTSGURE_AES_NOEXCEPT;

/* Key wrap with padding (KWP, SP 800-38F, 6.3; RFC 5649) from one buffer to another, of keys of any number of bytes. The
 * key has input_length bytes, at least one and below 2^32. The wrapped key has one semiblock more than the key fills:
 * (input_length + 7) / 8 + 1.
 * NO_KEY; INVALID_COUNT if keys of this length are not wrapped, or the output has the wrong length; else DONE. */
FOTSGURE_AES_CHECK enum fotsgure_aes_status fotsgure_aes_wrap_padded(const struct fotsgure_aes *aes,
    const uint8_t *input, size_t input_length,
    uint8_t *FOTSGURE_AES_ALONE output, size_t output_count) FOTSGURE_AES_NOEXCEPT;
/* Unwraps such a key: both counts are in semiblocks, and the output has one less. Afterwards *key_length is how many bytes
 * the key has. They are the first ones of the output, and zeros follow them.
 * NO_KEY; INVALID_COUNT if no wrapped key has this length, or the output isn't one semiblock shorter; REFUSED, and the
 * output then is all zeros; else DONE. In all cases but DONE *key_length is 0. */
FOTSGURE_AES_CHECK enum fotsgure_aes_status fotsgure_aes_unwrap_padded(const struct fotsgure_aes *aes,
    const uint8_t *input, size_t input_count,
    uint8_t *FOTSGURE_AES_ALONE output, size_t output_count,
    size_t *FOTSGURE_AES_ALONE key_length) FOTSGURE_AES_NOEXCEPT;

/* CMAC (SP 800-38B, 6.2; RFC 4493): writes the tag of a message, which shows whether the message was changed. It
 * encrypts nothing. Use a key that makes tags for nothing else.
 * NO_KEY; else DONE. */
FOTSGURE_AES_CHECK enum fotsgure_aes_status fotsgure_aes_cmac(const struct fotsgure_aes *aes,
    const uint8_t *message, size_t message_length,
    uint8_t tag[FOTSGURE_AES_BLOCK]) FOTSGURE_AES_NOEXCEPT;

/* Compares a tag with that of a message, without an early exit (6.3). A tag of 4 to 15 bytes is compared with the first
 * bytes of the whole tag. How many bytes all tags under the key have is fixed with the key. Never read `tag_length` from
 * a message: a forger would choose how few bytes have to be right. For fewer than 8 bytes read appendix A first.
 * NO_KEY; TAG_LENGTH if the tag has fewer than 4 bytes, or more than 16; REFUSED; else DONE. */
FOTSGURE_AES_CHECK enum fotsgure_aes_status fotsgure_aes_cmac_verify(const struct fotsgure_aes *aes,
    const uint8_t *message, size_t message_length,
    const uint8_t *tag, size_t tag_length) FOTSGURE_AES_NOEXCEPT;

/* CMAC of a message in pieces. Call begin once, then update any number of times, and then finish, which writes the tag, or
 * accept, which compares one. Pieces have any size, and the tag is that of the whole message, however the pieces are cut. A
 * message can end at any time by fotsgure_aes_cmac_wipe, or by beginning another.
 *
 * Begins a message. *message may be uninitialized: none of it is read, and nothing is left of a message that was there.
 * NO_KEY; else DONE. */
FOTSGURE_AES_CHECK enum fotsgure_aes_status fotsgure_aes_cmac_begin(const struct fotsgure_aes *aes,
    struct fotsgure_aes_cmac_message *FOTSGURE_AES_ALONE message) FOTSGURE_AES_NOEXCEPT;
/* Takes a piece of the message.
 * NO_KEY; OUT_OF_TURN if no message has begun, or it is over; else DONE. */
FOTSGURE_AES_CHECK enum fotsgure_aes_status fotsgure_aes_cmac_update(const struct fotsgure_aes *aes,
    struct fotsgure_aes_cmac_message *FOTSGURE_AES_ALONE message,
    const uint8_t *bytes, size_t count) FOTSGURE_AES_NOEXCEPT;
/* Ends the message, and writes its tag (SP 800-38B, 6.2). Then *message is all zeros.
 * NO_KEY; OUT_OF_TURN if no message has begun, or it is over; else DONE. */
FOTSGURE_AES_CHECK enum fotsgure_aes_status fotsgure_aes_cmac_finish(const struct fotsgure_aes *aes,
    struct fotsgure_aes_cmac_message *FOTSGURE_AES_ALONE message,
    uint8_t tag[FOTSGURE_AES_BLOCK]) FOTSGURE_AES_NOEXCEPT;
/* Compares a tag with that of the message, without an early exit (6.3), as fotsgure_aes_cmac_verify does. If the tag is
 * right, the message is over, and *message is all zeros.
 * NO_KEY; TAG_LENGTH if the tag has fewer than 4 bytes, or more than 16; OUT_OF_TURN if no message has begun, or it is over;
 * REFUSED; else DONE. */
FOTSGURE_AES_CHECK enum fotsgure_aes_status fotsgure_aes_cmac_accept(const struct fotsgure_aes *aes,
    struct fotsgure_aes_cmac_message *FOTSGURE_AES_ALONE message,
    const uint8_t *tag, size_t tag_length) FOTSGURE_AES_NOEXCEPT;
/* Overwrites a message with zeros. There is then no message. */
void fotsgure_aes_cmac_wipe(struct fotsgure_aes_cmac_message *FOTSGURE_AES_ALONE message) FOTSGURE_AES_NOEXCEPT;

/* CCM (SP 800-38C, 6.1; RFC 3610): encrypts `text_length` bytes in place, and writes a tag, which shows whether the text
 * or the additional data was changed. Never use a nonce twice under one key. The additional data isn't encrypted, nor is
 * it part of the text. A nonce has 7 to 13 bytes. A text has fewer than 2^(8 * (15 - nonce_length)) bytes: with a nonce of
 * 13 bytes at most 65535. A tag has 4, 6, 8, 10, 12, 14 or 16 bytes; for fewer than 8 read appendix B first. Both lengths
 * are fixed with the key: never read `tag_length` from a message. Use a key of CCM for nothing else.
 * NO_KEY, TAG_LENGTH, NONCE_LENGTH or TOO_LONG, the first of them that applies; else DONE. */
FOTSGURE_AES_CHECK enum fotsgure_aes_status fotsgure_aes_ccm_seal(const struct fotsgure_aes *aes,
    const uint8_t *nonce, size_t nonce_length,
    const uint8_t *additional, size_t additional_length,
    uint8_t *FOTSGURE_AES_ALONE text, size_t text_length,
    uint8_t *FOTSGURE_AES_ALONE tag, size_t tag_length) FOTSGURE_AES_NOEXCEPT;

/* Decrypts `text_length` bytes in place if the tag is right (6.2). The tag can be compared only once the text is
 * decrypted. So a refused text is encrypted again, and is unchanged when the call returns. Until then the text holds what
 * nobody has authenticated.
 * NO_KEY, TAG_LENGTH, NONCE_LENGTH, TOO_LONG or REFUSED, the first of them that applies; else DONE. */
FOTSGURE_AES_CHECK enum fotsgure_aes_status fotsgure_aes_ccm_open(const struct fotsgure_aes *aes,
    const uint8_t *nonce, size_t nonce_length,
    const uint8_t *additional, size_t additional_length,
    uint8_t *FOTSGURE_AES_ALONE text, size_t text_length,
    const uint8_t *tag, size_t tag_length) FOTSGURE_AES_NOEXCEPT;

/* Single rounds, to build a cipher or another function: a round protects nothing by itself.
 *
 * A round of Cipher in place: SubBytes, ShiftRows, MixColumns, AddRoundKey (FIPS 197, 5.1). */
void fotsgure_aes_cipher_round(uint8_t block[FOTSGURE_AES_BLOCK],
    const uint8_t round_key[FOTSGURE_AES_BLOCK]) FOTSGURE_AES_NOEXCEPT;
/* A round of EqInvCipher in place: InvSubBytes, InvShiftRows, InvMixColumns, AddRoundKey (5.3.5). */
void fotsgure_aes_equiv_inv_cipher_round(uint8_t block[FOTSGURE_AES_BLOCK],
    const uint8_t round_key[FOTSGURE_AES_BLOCK]) FOTSGURE_AES_NOEXCEPT;
/* The same on each of eight blocks, with the round key at the same place. */
void fotsgure_aes_cipher_round_par(uint8_t blocks[FOTSGURE_AES_EIGHT_BLOCKS],
    const uint8_t round_keys[FOTSGURE_AES_EIGHT_BLOCKS]) FOTSGURE_AES_NOEXCEPT;
void fotsgure_aes_equiv_inv_cipher_round_par(uint8_t blocks[FOTSGURE_AES_EIGHT_BLOCKS],
    const uint8_t round_keys[FOTSGURE_AES_EIGHT_BLOCKS]) FOTSGURE_AES_NOEXCEPT;
/* MixColumns (5.1.3) and InvMixColumns (5.3.3) in place. */
void fotsgure_aes_mix_columns(uint8_t block[FOTSGURE_AES_BLOCK]) FOTSGURE_AES_NOEXCEPT;
void fotsgure_aes_inv_mix_columns(uint8_t block[FOTSGURE_AES_BLOCK]) FOTSGURE_AES_NOEXCEPT;

/* The same work under a key of 16, 24 or 32 bytes: each call expands it, and wipes the round keys that it keeps before it
 * returns. KEY_LENGTH if the key has another length; else as for the calls with a struct. */
FOTSGURE_AES_CHECK enum fotsgure_aes_status fotsgure_aes_encrypt_blocks_with(const uint8_t *key, size_t key_length,
    uint8_t *FOTSGURE_AES_ALONE blocks, size_t count) FOTSGURE_AES_NOEXCEPT;
FOTSGURE_AES_CHECK enum fotsgure_aes_status fotsgure_aes_decrypt_blocks_with(const uint8_t *key, size_t key_length,
    uint8_t *FOTSGURE_AES_ALONE blocks, size_t count) FOTSGURE_AES_NOEXCEPT;
FOTSGURE_AES_CHECK enum fotsgure_aes_status fotsgure_aes_add_keystream_with(const uint8_t *key, size_t key_length,
    struct fotsgure_aes_ctr *FOTSGURE_AES_ALONE ctr,
    uint8_t *FOTSGURE_AES_ALONE bytes, size_t count) FOTSGURE_AES_NOEXCEPT;

/* Returns what a status means, in words: for logs, and for people. */
static inline const char *fotsgure_aes_status_text(enum fotsgure_aes_status status) FOTSGURE_AES_NOEXCEPT
{
    switch (status) {
    case FOTSGURE_AES_DONE: return "the work is done";
    case FOTSGURE_AES_KEY_LENGTH: return "a key has 16, 24 or 32 bytes";
    case FOTSGURE_AES_NO_KEY: return "there is no key";
    case FOTSGURE_AES_UNEQUAL_COUNTS: return "input and output differ in length";
    case FOTSGURE_AES_KEYSTREAM_END: return "the keystream ends: its position would pass 2^64 - 1";
    case FOTSGURE_AES_INVALID_COUNT: return "a key of this length is not wrapped, or the output has another length";
    case FOTSGURE_AES_REFUSED: return "the wrapped key or the message was changed, or is of another key";
    case FOTSGURE_AES_TAG_LENGTH: return "the tag has a length that isn't allowed";
    case FOTSGURE_AES_NONCE_LENGTH: return "a nonce has 7 to 13 bytes";
    case FOTSGURE_AES_TOO_LONG: return "the text is longer than a nonce of this length allows";
    case FOTSGURE_AES_OUT_OF_TURN: return "the call came in the wrong order";
    }
    return "this header doesn't know the status";
}

/* NULL with a count of 0: the library accepts no NULL, so each call below passes another address instead, which
 * nothing reads or writes. Bindings that bypass this header have to do the same. NULL with another count is a
 * mistake: unless the call returns a status first, it reads or writes at address 16, where most systems end the program. A
 * pointer to a function, and a name in parentheses, is the library's call itself. */
static inline const uint8_t *fotsgure_aes_not_null(const uint8_t *bytes) FOTSGURE_AES_NOEXCEPT
{
    return bytes ? bytes : FOTSGURE_AES_CAST(reinterpret_cast, const uint8_t *,
        FOTSGURE_AES_CAST(static_cast, uintptr_t, FOTSGURE_AES_BLOCK));
}
static inline uint8_t *fotsgure_aes_not_null_mut(uint8_t *bytes) FOTSGURE_AES_NOEXCEPT
{
    return bytes ? bytes : FOTSGURE_AES_CAST(reinterpret_cast, uint8_t *,
        FOTSGURE_AES_CAST(static_cast, uintptr_t, FOTSGURE_AES_BLOCK));
}

FOTSGURE_AES_CHECK static inline enum fotsgure_aes_status fotsgure_aes_not_null_set_key(struct fotsgure_aes *aes,
    const uint8_t *key, size_t key_length) FOTSGURE_AES_NOEXCEPT
{
    return fotsgure_aes_set_key(aes, fotsgure_aes_not_null(key), key_length);
}
FOTSGURE_AES_CHECK static inline enum fotsgure_aes_status fotsgure_aes_not_null_encrypt_blocks(
    const struct fotsgure_aes *aes, uint8_t *blocks, size_t count) FOTSGURE_AES_NOEXCEPT
{
    return fotsgure_aes_encrypt_blocks(aes, fotsgure_aes_not_null_mut(blocks), count);
}
FOTSGURE_AES_CHECK static inline enum fotsgure_aes_status fotsgure_aes_not_null_decrypt_blocks(
    const struct fotsgure_aes *aes, uint8_t *blocks, size_t count) FOTSGURE_AES_NOEXCEPT
{
    return fotsgure_aes_decrypt_blocks(aes, fotsgure_aes_not_null_mut(blocks), count);
}
FOTSGURE_AES_CHECK static inline enum fotsgure_aes_status fotsgure_aes_not_null_encrypt_blocks_to(
    const struct fotsgure_aes *aes, const uint8_t *input, size_t input_count, uint8_t *output,
    size_t output_count) FOTSGURE_AES_NOEXCEPT
{
    return fotsgure_aes_encrypt_blocks_to(aes, fotsgure_aes_not_null(input), input_count,
        fotsgure_aes_not_null_mut(output), output_count);
}
FOTSGURE_AES_CHECK static inline enum fotsgure_aes_status fotsgure_aes_not_null_decrypt_blocks_to(
    const struct fotsgure_aes *aes, const uint8_t *input, size_t input_count, uint8_t *output,
    size_t output_count) FOTSGURE_AES_NOEXCEPT
{
    return fotsgure_aes_decrypt_blocks_to(aes, fotsgure_aes_not_null(input), input_count,
        fotsgure_aes_not_null_mut(output), output_count);
}
FOTSGURE_AES_CHECK static inline enum fotsgure_aes_status fotsgure_aes_not_null_add_keystream(
    const struct fotsgure_aes *aes, struct fotsgure_aes_ctr *ctr, uint8_t *bytes, size_t count) FOTSGURE_AES_NOEXCEPT
{
    return fotsgure_aes_add_keystream(aes, ctr, fotsgure_aes_not_null_mut(bytes), count);
}
FOTSGURE_AES_CHECK static inline enum fotsgure_aes_status fotsgure_aes_not_null_add_keystream_to(
    const struct fotsgure_aes *aes, struct fotsgure_aes_ctr *ctr, const uint8_t *input, size_t input_count,
    uint8_t *output, size_t output_count) FOTSGURE_AES_NOEXCEPT
{
    return fotsgure_aes_add_keystream_to(aes, ctr, fotsgure_aes_not_null(input), input_count,
        fotsgure_aes_not_null_mut(output), output_count);
}
FOTSGURE_AES_CHECK static inline enum fotsgure_aes_status fotsgure_aes_not_null_cbc_encrypt(
    const struct fotsgure_aes *aes, struct fotsgure_aes_cbc *cbc, uint8_t *blocks, size_t count) FOTSGURE_AES_NOEXCEPT
{
    return fotsgure_aes_cbc_encrypt(aes, cbc, fotsgure_aes_not_null_mut(blocks), count);
}
FOTSGURE_AES_CHECK static inline enum fotsgure_aes_status fotsgure_aes_not_null_cbc_decrypt(
    const struct fotsgure_aes *aes, struct fotsgure_aes_cbc *cbc, uint8_t *blocks, size_t count) FOTSGURE_AES_NOEXCEPT
{
    return fotsgure_aes_cbc_decrypt(aes, cbc, fotsgure_aes_not_null_mut(blocks), count);
}
FOTSGURE_AES_CHECK static inline enum fotsgure_aes_status fotsgure_aes_not_null_wrap(const struct fotsgure_aes *aes,
    const uint8_t *input, size_t input_count, uint8_t *output, size_t output_count) FOTSGURE_AES_NOEXCEPT
{
    return fotsgure_aes_wrap(aes, fotsgure_aes_not_null(input), input_count, fotsgure_aes_not_null_mut(output),
        output_count);
}
FOTSGURE_AES_CHECK static inline enum fotsgure_aes_status fotsgure_aes_not_null_unwrap(const struct fotsgure_aes *aes,
    const uint8_t *input, size_t input_count, uint8_t *output, size_t output_count) FOTSGURE_AES_NOEXCEPT
{
    return fotsgure_aes_unwrap(aes, fotsgure_aes_not_null(input), input_count, fotsgure_aes_not_null_mut(output),
        output_count);
}
FOTSGURE_AES_CHECK static inline enum fotsgure_aes_status fotsgure_aes_not_null_wrap_padded(
    const struct fotsgure_aes *aes, const uint8_t *input, size_t input_length, uint8_t *output,
    size_t output_count) FOTSGURE_AES_NOEXCEPT
{
    return fotsgure_aes_wrap_padded(aes, fotsgure_aes_not_null(input), input_length, fotsgure_aes_not_null_mut(output),
        output_count);
}
FOTSGURE_AES_CHECK static inline enum fotsgure_aes_status fotsgure_aes_not_null_unwrap_padded(
    const struct fotsgure_aes *aes, const uint8_t *input, size_t input_count, uint8_t *output, size_t output_count,
    size_t *key_length) FOTSGURE_AES_NOEXCEPT
{
    return fotsgure_aes_unwrap_padded(aes, fotsgure_aes_not_null(input), input_count, fotsgure_aes_not_null_mut(output),
        output_count, key_length);
}
FOTSGURE_AES_CHECK static inline enum fotsgure_aes_status fotsgure_aes_not_null_cmac(const struct fotsgure_aes *aes,
    const uint8_t *message, size_t message_length, uint8_t tag[FOTSGURE_AES_BLOCK]) FOTSGURE_AES_NOEXCEPT
{
    return fotsgure_aes_cmac(aes, fotsgure_aes_not_null(message), message_length, tag);
}
FOTSGURE_AES_CHECK static inline enum fotsgure_aes_status fotsgure_aes_not_null_cmac_verify(
    const struct fotsgure_aes *aes, const uint8_t *message, size_t message_length, const uint8_t *tag,
    size_t tag_length) FOTSGURE_AES_NOEXCEPT
{
    return fotsgure_aes_cmac_verify(aes, fotsgure_aes_not_null(message), message_length, fotsgure_aes_not_null(tag),
        tag_length);
}
FOTSGURE_AES_CHECK static inline enum fotsgure_aes_status fotsgure_aes_not_null_cmac_update(
    const struct fotsgure_aes *aes, struct fotsgure_aes_cmac_message *message, const uint8_t *bytes,
    size_t count) FOTSGURE_AES_NOEXCEPT
{
    return fotsgure_aes_cmac_update(aes, message, fotsgure_aes_not_null(bytes), count);
}
FOTSGURE_AES_CHECK static inline enum fotsgure_aes_status fotsgure_aes_not_null_cmac_accept(
    const struct fotsgure_aes *aes, struct fotsgure_aes_cmac_message *message, const uint8_t *tag,
    size_t tag_length) FOTSGURE_AES_NOEXCEPT
{
    return fotsgure_aes_cmac_accept(aes, message, fotsgure_aes_not_null(tag), tag_length);
}
FOTSGURE_AES_CHECK static inline enum fotsgure_aes_status fotsgure_aes_not_null_ccm_seal(
    const struct fotsgure_aes *aes, const uint8_t *nonce, size_t nonce_length, const uint8_t *additional,
    size_t additional_length, uint8_t *text, size_t text_length, uint8_t *tag, size_t tag_length) FOTSGURE_AES_NOEXCEPT
{
    return fotsgure_aes_ccm_seal(aes, fotsgure_aes_not_null(nonce), nonce_length, fotsgure_aes_not_null(additional),
        additional_length, fotsgure_aes_not_null_mut(text), text_length, fotsgure_aes_not_null_mut(tag), tag_length);
}
FOTSGURE_AES_CHECK static inline enum fotsgure_aes_status fotsgure_aes_not_null_ccm_open(
    const struct fotsgure_aes *aes, const uint8_t *nonce, size_t nonce_length, const uint8_t *additional,
    size_t additional_length, uint8_t *text, size_t text_length, const uint8_t *tag,
    size_t tag_length) FOTSGURE_AES_NOEXCEPT
{
    return fotsgure_aes_ccm_open(aes, fotsgure_aes_not_null(nonce), nonce_length, fotsgure_aes_not_null(additional),
        additional_length, fotsgure_aes_not_null_mut(text), text_length, fotsgure_aes_not_null(tag), tag_length);
}
FOTSGURE_AES_CHECK static inline enum fotsgure_aes_status fotsgure_aes_not_null_encrypt_blocks_with(
    const uint8_t *key, size_t key_length, uint8_t *blocks, size_t count) FOTSGURE_AES_NOEXCEPT
{
    return fotsgure_aes_encrypt_blocks_with(fotsgure_aes_not_null(key), key_length, fotsgure_aes_not_null_mut(blocks),
        count);
}
FOTSGURE_AES_CHECK static inline enum fotsgure_aes_status fotsgure_aes_not_null_decrypt_blocks_with(
    const uint8_t *key, size_t key_length, uint8_t *blocks, size_t count) FOTSGURE_AES_NOEXCEPT
{
    return fotsgure_aes_decrypt_blocks_with(fotsgure_aes_not_null(key), key_length, fotsgure_aes_not_null_mut(blocks),
        count);
}
FOTSGURE_AES_CHECK static inline enum fotsgure_aes_status fotsgure_aes_not_null_add_keystream_with(const uint8_t *key,
    size_t key_length, struct fotsgure_aes_ctr *ctr, uint8_t *bytes, size_t count) FOTSGURE_AES_NOEXCEPT
{
    return fotsgure_aes_add_keystream_with(fotsgure_aes_not_null(key), key_length, ctr,
        fotsgure_aes_not_null_mut(bytes), count);
}

#define fotsgure_aes_set_key(...) fotsgure_aes_not_null_set_key(__VA_ARGS__)
#define fotsgure_aes_encrypt_blocks(...) fotsgure_aes_not_null_encrypt_blocks(__VA_ARGS__)
#define fotsgure_aes_decrypt_blocks(...) fotsgure_aes_not_null_decrypt_blocks(__VA_ARGS__)
#define fotsgure_aes_encrypt_blocks_to(...) fotsgure_aes_not_null_encrypt_blocks_to(__VA_ARGS__)
#define fotsgure_aes_decrypt_blocks_to(...) fotsgure_aes_not_null_decrypt_blocks_to(__VA_ARGS__)
#define fotsgure_aes_add_keystream(...) fotsgure_aes_not_null_add_keystream(__VA_ARGS__)
#define fotsgure_aes_add_keystream_to(...) fotsgure_aes_not_null_add_keystream_to(__VA_ARGS__)
#define fotsgure_aes_cbc_encrypt(...) fotsgure_aes_not_null_cbc_encrypt(__VA_ARGS__)
#define fotsgure_aes_cbc_decrypt(...) fotsgure_aes_not_null_cbc_decrypt(__VA_ARGS__)
#define fotsgure_aes_wrap(...) fotsgure_aes_not_null_wrap(__VA_ARGS__)
#define fotsgure_aes_unwrap(...) fotsgure_aes_not_null_unwrap(__VA_ARGS__)
#define fotsgure_aes_wrap_padded(...) fotsgure_aes_not_null_wrap_padded(__VA_ARGS__)
#define fotsgure_aes_unwrap_padded(...) fotsgure_aes_not_null_unwrap_padded(__VA_ARGS__)
#define fotsgure_aes_cmac(...) fotsgure_aes_not_null_cmac(__VA_ARGS__)
#define fotsgure_aes_cmac_verify(...) fotsgure_aes_not_null_cmac_verify(__VA_ARGS__)
#define fotsgure_aes_cmac_update(...) fotsgure_aes_not_null_cmac_update(__VA_ARGS__)
#define fotsgure_aes_cmac_accept(...) fotsgure_aes_not_null_cmac_accept(__VA_ARGS__)
#define fotsgure_aes_ccm_seal(...) fotsgure_aes_not_null_ccm_seal(__VA_ARGS__)
#define fotsgure_aes_ccm_open(...) fotsgure_aes_not_null_ccm_open(__VA_ARGS__)
#define fotsgure_aes_encrypt_blocks_with(...) fotsgure_aes_not_null_encrypt_blocks_with(__VA_ARGS__)
#define fotsgure_aes_decrypt_blocks_with(...) fotsgure_aes_not_null_decrypt_blocks_with(__VA_ARGS__)
#define fotsgure_aes_add_keystream_with(...) fotsgure_aes_not_null_add_keystream_with(__VA_ARGS__)

#ifdef __cplusplus
}
#endif
#undef FOTSGURE_AES_ALONE
#undef FOTSGURE_AES_NOEXCEPT
#undef FOTSGURE_AES_ASSERT
#undef FOTSGURE_AES_CAST
#undef FOTSGURE_AES_CHECK
#endif
