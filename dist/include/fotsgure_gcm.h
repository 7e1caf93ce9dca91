/* Authenticated encryption by AES, proved: AES-GCM-SIV (RFC 8452), whose nonces are drawn at random, and Galois/Counter
 * Mode (GCM, NIST SP 800-38D). Nobody has certified it under FIPS 140-3, and nobody has reviewed it independently.
 *
 * Each call's results are proved against the standard for all arguments that meet what is asked for here. Nothing
 * checks a call from C.
 *
 * For every call, the caller must ensure:
 *  - In GCM no nonce is used twice under one key, over all messages, programs and machines. A second use reveals the
 *    key of the tags and the sum of two messages. fotsgure_gcm_seal_next counts nonces up. Random nonces have 12 bytes
 *    or more. At most 2^32 messages are allowed under a key if any of its nonces is random, or doesn't have 12 bytes
 *    (8.2.2, 8.3). In AES-GCM-SIV (the calls fotsgure_gcm_siv_..) a nonce that is used twice only shows whether the two
 *    messages, with their additional data, are the same.
 *  - Valid pointers. A pointer to a struct points to a whole one, aligned as C aligns it. Every other pointer points to
 *    as many bytes as the length after it says, or as its array has. Bytes need no alignment. What a call reads has
 *    been initialized.
 *  - No object of more than PTRDIFF_MAX bytes.
 *  - No overlap: what a call writes overlaps nothing else that it is given, and isn't the same buffer either. To work in
 *    place, use the calls with one buffer. What a call only reads may overlap.
 *  - A struct fotsgure_gcm that fotsgure_gcm_set_key, fotsgure_gcm_set_key_of or fotsgure_gcm_wipe wrote last, or a copy
 *    of such a struct, or one whose bytes are all 0. For these three calls it may be uninitialized. The same holds for a
 *    struct fotsgure_gcm_siv, with the calls fotsgure_gcm_siv_set_key and fotsgure_gcm_siv_wipe. A struct fotsgure_aes is
 *    one that fotsgure_aes.h allows.
 *  - A struct fotsgure_gcm_message may hold anything but uninitialized bytes. For fotsgure_gcm_begin and
 *    fotsgure_gcm_wipe_message it may be uninitialized too. What calls promise about a message holds if all its calls
 *    had the same key, the first was fotsgure_gcm_begin, and nothing else wrote the struct.
 *  - No data race: during the call no other thread writes what it reads, or reads or writes what it writes.
 *  - FOTSGURE_GCM_STACK bytes of stack, and a processor with little-endian words: any on x86-64, 64-bit ARM and RISC-V; on
 *    32-bit ARM an ARMv7 or later, or a Cortex-M. On microcontrollers docs/MICROCONTROLLERS.md says how much stack a call
 *    needs.
 *
 * NULL is allowed for a pointer to bytes if a length follows it and is 0.
 *
 * In return, every call returns, and writes only what its comment says. No call allocates, prints, aborts, blocks,
 * or keeps a pointer. The library has no state of its own, except one word on x86-64: a library that holds several builds
 * keeps there which of them the processor runs. Proved: what calls return and write, and that they return. Reviewed by
 * hand and measured: the rest. fotsgure_gcm_siv_seal_random is C around a proved call, and is tested. It asks the system
 * for randomness, waits for it while the system starts, and may write errno.
 *
 * A call that doesn't return FOTSGURE_GCM_DONE has changed nothing. There are two kinds of exceptions: calls that set a
 * key leave a struct without a key, and fotsgure_gcm_open_to and fotsgure_gcm_siv_open_to leave zeros if they return
 * REFUSED. If several statuses apply, a call returns the first of them in the order of its comment. A status depends on
 * the bytes of keys and of messages only by whether a tag is right.
 *
 * Copies and threads: a struct fotsgure_gcm or fotsgure_gcm_siv may be copied and moved as bytes. Every copy is as
 * secret as the key and has to be wiped too. Any number of threads may use one struct at the same time, in calls that
 * have it as const. A struct fotsgure_gcm_counter belongs to one thread at a time: a copy of it would give out
 * the same nonces again. A struct fotsgure_gcm_message also belongs to one thread at a time: a copy of it would encrypt
 * another text under the same nonce. */
#ifndef FOTSGURE_GCM_H
#define FOTSGURE_GCM_H

/* This header needs C99 or C++11. */
#include <stddef.h>
#include <stdint.h>

#if defined(__BYTE_ORDER__) && __BYTE_ORDER__ != __ORDER_LITTLE_ENDIAN__
#error "no build of this library is for machines with big-endian words"
#endif

/* The version of this header; fotsgure_gcm_version() returns that of the library. Since 0.3.0, which followed 0.1.0, it is
 * the same as that of fotsgure_aes. */
#define FOTSGURE_GCM_VERSION_TEXT "0.4.0"
#define FOTSGURE_GCM_VERSION 400 /* 10000 * 0 + 100 * 4 + 0 */

#define FOTSGURE_GCM_NONCE 12                                  /* bytes of a counted nonce; use this length if you can */
#define FOTSGURE_GCM_TAG 16                                    /* bytes of a tag */
#define FOTSGURE_GCM_MOST ((UINT64_C(1) << 36) - 32)           /* the most bytes of a text (5.2.1.1) */
#define FOTSGURE_GCM_MOST_ADDITIONAL ((UINT64_C(1) << 61) - 1) /* the most bytes of additional data */
#define FOTSGURE_GCM_SIV_NONCE 12                              /* bytes of a nonce of AES-GCM-SIV */
#define FOTSGURE_GCM_SIV_MOST (UINT64_C(1) << 36)              /* its most bytes of a text, and of additional data (RFC 8452, 4) */
#define FOTSGURE_GCM_STACK 16384                               /* bytes of stack that are enough for every call */

#ifdef __cplusplus
#define FOTSGURE_GCM_ALONE __restrict
#define FOTSGURE_GCM_NOEXCEPT noexcept
#define FOTSGURE_GCM_ASSERT static_assert
#define FOTSGURE_GCM_CAST(cast, type, value) cast<type>(value)
extern "C" {
#else
#define FOTSGURE_GCM_ALONE restrict
#define FOTSGURE_GCM_NOEXCEPT
#if __STDC_VERSION__ >= 201112L
#define FOTSGURE_GCM_ASSERT _Static_assert
#else
#define FOTSGURE_GCM_ASSERT(holds, why) extern int fotsgure_gcm_assert[(holds) ? 1 : -1]
#endif
#define FOTSGURE_GCM_CAST(cast, type, value) ((type)(value))
#endif

#if defined(__GNUC__) || defined(__clang__)
#define FOTSGURE_GCM_CHECK __attribute__((warn_unused_result))
#else
#define FOTSGURE_GCM_CHECK
#endif

/* What a call returns. */
enum fotsgure_gcm_status {
    FOTSGURE_GCM_DONE = 0,         /* the work is done */
    FOTSGURE_GCM_KEY_LENGTH = 1,   /* the key doesn't have 16, 24 or 32 bytes; of AES-GCM-SIV: 16 or 32 */
    FOTSGURE_GCM_NO_KEY = 2,       /* the struct holds no key */
    FOTSGURE_GCM_NONCE_LENGTH = 3, /* the nonce is empty, or has 2^61 bytes or more */
    FOTSGURE_GCM_TAG_LENGTH = 4,   /* the tag doesn't have 16 bytes, or as many as are fixed */
    FOTSGURE_GCM_TOO_LONG = 5,     /* more text or additional data than the standard allows, or more text to decrypt
                                    * than was verified */
    FOTSGURE_GCM_REFUSED = 6,      /* the tag isn't that of this key, nonce, additional data and text */
    FOTSGURE_GCM_NONCES_END = 7,   /* the counter of nonces has no number left */
    FOTSGURE_GCM_OUT_OF_TURN = 8,  /* the calls for a message came in the wrong order */
    FOTSGURE_GCM_NO_RANDOMNESS = 9, /* the system gave no randomness for a nonce */
    FOTSGURE_GCM_UNEQUAL_LENGTHS = 10 /* input and output differ in length */
};

/* The words of a key schedule. Of the builds for 64-bit RISC-V, the one without vectors has words of 64 bits. */
#if defined(__riscv) && __riscv_xlen == 64
typedef uint64_t fotsgure_gcm_word;
#else
typedef uint32_t fotsgure_gcm_word;
#endif

/* How many bytes a prepared key has. No build for 32-bit ARM or 32-bit RISC-V has a byte shuffle. For the other machines
 * there are builds with one, which need more; those without use less of the struct. */
#if defined(__arm__) || (defined(__riscv) && __riscv_xlen == 32)
#define FOTSGURE_GCM_ROUND_KEYS 480
#define FOTSGURE_GCM_MULTIPLES 16
#else
#define FOTSGURE_GCM_ROUND_KEYS 240
#define FOTSGURE_GCM_MULTIPLES 1536
#endif

/* A key, prepared for messages. Read and write it by the calls below alone. */
struct fotsgure_gcm {
    fotsgure_gcm_word key_length; /* 16, 24 or 32; 0: no key */
    uint8_t round_keys[FOTSGURE_GCM_ROUND_KEYS];
    uint8_t multiples[FOTSGURE_GCM_MULTIPLES];
};

/* The next nonce of a key: 12 bytes, one number, highest byte first. Begin with zeros. If several senders share a key,
 * give each a different number in the first four bytes, and zeros in the other eight. No call sees where the range of a
 * sender ends. After each call, and before the message is sent, store `next`. After a restart, begin with what was
 * stored. fork() copies a counter too: afterwards only one of the two processes may use it. The last number of 12 bytes
 * is never used. */
struct fotsgure_gcm_counter {
    uint8_t next[FOTSGURE_GCM_NONCE];
};

/* The state of a message in pieces; as secret as the key. Read and write it by the calls below alone. */
struct fotsgure_gcm_message {
    uint64_t additional; /* bytes that have come */
    uint64_t text;
    uint64_t decrypted;
    uint64_t phase; /* 0: no message; 1: additional data; 2: text to encrypt; 3: text whose tag is to be compared;
                     * 4: text to decrypt, whose tag was right */
    uint8_t first[16];
    uint8_t value[16];
    uint8_t rest[16];
};

/* A key of AES-GCM-SIV. Read and write it by the calls below alone. Builds with a byte shuffle keep the key in the first
 * 244 bytes, and neither read nor write the others. What these comments say of the struct holds there for these 244. */
struct fotsgure_gcm_siv {
    fotsgure_gcm_word key_length; /* 16 or 32; 0: no key */
    fotsgure_gcm_word round_keys[120];
};

FOTSGURE_GCM_ASSERT(sizeof(struct fotsgure_gcm) == FOTSGURE_GCM_ROUND_KEYS + FOTSGURE_GCM_MULTIPLES + sizeof(fotsgure_gcm_word),
    "no padding");
FOTSGURE_GCM_ASSERT(sizeof(struct fotsgure_gcm_counter) == 12, "no padding");
FOTSGURE_GCM_ASSERT(sizeof(struct fotsgure_gcm_message) == 80, "no padding");
FOTSGURE_GCM_ASSERT(sizeof(struct fotsgure_gcm_siv) == 121 * sizeof(fotsgure_gcm_word), "no padding");

/* Returns FOTSGURE_GCM_VERSION of the header that the library was built with. */
uint32_t fotsgure_gcm_version(void) FOTSGURE_GCM_NOEXCEPT;

/* Prepares a key in *gcm (KeyExpansion, FIPS 197, 5.2; H, SP 800-38D, 7.1). *gcm may be uninitialized: none of it is
 * read. Nothing of what it held is left.
 * DONE if key_length is 16, 24 or 32; else KEY_LENGTH, and *gcm then is all zeros and holds no key. */
FOTSGURE_GCM_CHECK enum fotsgure_gcm_status fotsgure_gcm_set_key(struct fotsgure_gcm *FOTSGURE_GCM_ALONE gcm,
    const uint8_t *key, size_t key_length) FOTSGURE_GCM_NOEXCEPT;

/* The same with the key of *aes, a struct of fotsgure_aes.h, which costs no key expansion.
 * DONE if *aes holds a key; else NO_KEY, and *gcm then is all zeros and holds no key. */
struct fotsgure_aes;
FOTSGURE_GCM_CHECK enum fotsgure_gcm_status fotsgure_gcm_set_key_of(struct fotsgure_gcm *FOTSGURE_GCM_ALONE gcm,
    const struct fotsgure_aes *aes) FOTSGURE_GCM_NOEXCEPT;

/* Returns how many bytes the key has: 16, 24 or 32, or 0 if *gcm holds no key. */
size_t fotsgure_gcm_key_length(const struct fotsgure_gcm *gcm) FOTSGURE_GCM_NOEXCEPT;

/* Overwrites *gcm with zeros: it then holds no key. It may be uninitialized. Copies are not wiped. */
void fotsgure_gcm_wipe(struct fotsgure_gcm *gcm) FOTSGURE_GCM_NOEXCEPT;

/* Encrypts `text_length` bytes in place and writes the tag, which shows whether the text or the additional data was
 * changed (7.1). The additional data isn't encrypted, nor is it part of the text. A nonce may have any length from
 * one byte on, but use 12 bytes if you can: that is fastest.
 * NONCE_LENGTH, TOO_LONG or NO_KEY; else DONE. */
FOTSGURE_GCM_CHECK enum fotsgure_gcm_status fotsgure_gcm_seal(const struct fotsgure_gcm *gcm,
    const uint8_t *nonce, size_t nonce_length,
    const uint8_t *additional, size_t additional_length,
    uint8_t *FOTSGURE_GCM_ALONE text, size_t text_length,
    uint8_t tag[FOTSGURE_GCM_TAG]) FOTSGURE_GCM_NOEXCEPT;

/* The same from one buffer to another of the same length: encrypts `input` to `output`.
 * UNEQUAL_LENGTHS, NONCE_LENGTH, TOO_LONG or NO_KEY; else DONE. */
FOTSGURE_GCM_CHECK enum fotsgure_gcm_status fotsgure_gcm_seal_to(const struct fotsgure_gcm *gcm,
    const uint8_t *nonce, size_t nonce_length,
    const uint8_t *additional, size_t additional_length,
    const uint8_t *input, size_t input_length,
    uint8_t *FOTSGURE_GCM_ALONE output, size_t output_length,
    uint8_t tag[FOTSGURE_GCM_TAG]) FOTSGURE_GCM_NOEXCEPT;

/* fotsgure_gcm_seal under the counter's next nonce, which it writes to `nonce`; the counter then moves on by one.
 * NONCES_END, TOO_LONG or NO_KEY; else DONE. */
FOTSGURE_GCM_CHECK enum fotsgure_gcm_status fotsgure_gcm_seal_next(const struct fotsgure_gcm *gcm,
    struct fotsgure_gcm_counter *FOTSGURE_GCM_ALONE counter, uint8_t nonce[FOTSGURE_GCM_NONCE],
    const uint8_t *additional, size_t additional_length,
    uint8_t *FOTSGURE_GCM_ALONE text, size_t text_length,
    uint8_t tag[FOTSGURE_GCM_TAG]) FOTSGURE_GCM_NOEXCEPT;

/* Decrypts `text_length` bytes in place if the tag is right (7.2). A refused text is unchanged when the call returns: that
 * is proved. That the tag is compared before anything is decrypted was reviewed by hand, and isn't proved.
 * TAG_LENGTH, NONCE_LENGTH, TOO_LONG, NO_KEY or REFUSED; else DONE. */
FOTSGURE_GCM_CHECK enum fotsgure_gcm_status fotsgure_gcm_open(const struct fotsgure_gcm *gcm,
    const uint8_t *nonce, size_t nonce_length,
    const uint8_t *additional, size_t additional_length,
    uint8_t *FOTSGURE_GCM_ALONE text, size_t text_length,
    const uint8_t *tag, size_t tag_length) FOTSGURE_GCM_NOEXCEPT;

/* The same from one buffer to another of the same length: decrypts `input` to `output`. After REFUSED the output is all
 * zeros. After a status other than REFUSED and DONE it is unchanged.
 * UNEQUAL_LENGTHS, TAG_LENGTH, NONCE_LENGTH, TOO_LONG, NO_KEY or REFUSED; else DONE. */
FOTSGURE_GCM_CHECK enum fotsgure_gcm_status fotsgure_gcm_open_to(const struct fotsgure_gcm *gcm,
    const uint8_t *nonce, size_t nonce_length,
    const uint8_t *additional, size_t additional_length,
    const uint8_t *input, size_t input_length,
    uint8_t *FOTSGURE_GCM_ALONE output, size_t output_length,
    const uint8_t *tag, size_t tag_length) FOTSGURE_GCM_NOEXCEPT;

/* A message in pieces of any size. However it is cut, texts and tag are those of fotsgure_gcm_seal and _open.
 *
 *   to encrypt: begin, additional .., encrypt .., finish
 *   to decrypt: begin, additional .., verify .., accept, and then decrypt .., with the same cipher text once more
 *
 * A call in the wrong order is refused and changes nothing. So is a call that would make the message longer than the
 * standard allows. fotsgure_gcm_decrypt decrypts only after a call has found the tag right.
 * fotsgure_gcm_decrypt_unverified and fotsgure_gcm_finish_unverified don't wait for it. A message may be abandoned at any time. Wipe it when you are done.
 * Once some of its text was encrypted, its nonce is used, even if the message was never finished: begin again, with a new
 * nonce. */

/* Begins a message under a nonce, which has any length. *message may be uninitialized: none of it is read, and nothing
 * of what it held is left. A refused call leaves it as it was. It changes no counter: to use the `next` of a
 * counter, call fotsgure_gcm_begin_next instead.
 * NONCE_LENGTH or NO_KEY; else DONE. */
FOTSGURE_GCM_CHECK enum fotsgure_gcm_status fotsgure_gcm_begin(const struct fotsgure_gcm *gcm,
    struct fotsgure_gcm_message *FOTSGURE_GCM_ALONE message,
    const uint8_t *nonce, size_t nonce_length) FOTSGURE_GCM_NOEXCEPT;

/* The same under the counter's next nonce, which it writes to `nonce`; the counter then moves on by one. Store it before
 * anything of the message is sent, as after fotsgure_gcm_seal_next.
 * NONCES_END or NO_KEY; else DONE. */
FOTSGURE_GCM_CHECK enum fotsgure_gcm_status fotsgure_gcm_begin_next(const struct fotsgure_gcm *gcm,
    struct fotsgure_gcm_message *FOTSGURE_GCM_ALONE message, struct fotsgure_gcm_counter *FOTSGURE_GCM_ALONE counter,
    uint8_t nonce[FOTSGURE_GCM_NONCE]) FOTSGURE_GCM_NOEXCEPT;

/* Takes a piece of the additional data. All of it comes before the text.
 * NO_KEY, OUT_OF_TURN or TOO_LONG; else DONE. */
FOTSGURE_GCM_CHECK enum fotsgure_gcm_status fotsgure_gcm_additional(const struct fotsgure_gcm *gcm,
    struct fotsgure_gcm_message *FOTSGURE_GCM_ALONE message,
    const uint8_t *additional, size_t additional_length) FOTSGURE_GCM_NOEXCEPT;

/* Encrypts a piece of the text in place.
 * NO_KEY, OUT_OF_TURN or TOO_LONG; else DONE. */
FOTSGURE_GCM_CHECK enum fotsgure_gcm_status fotsgure_gcm_encrypt(const struct fotsgure_gcm *gcm,
    struct fotsgure_gcm_message *FOTSGURE_GCM_ALONE message,
    uint8_t *FOTSGURE_GCM_ALONE text, size_t text_length) FOTSGURE_GCM_NOEXCEPT;

/* Ends a message that was encrypted: writes its tag, and overwrites *message with zeros.
 * NO_KEY or OUT_OF_TURN; else DONE. */
FOTSGURE_GCM_CHECK enum fotsgure_gcm_status fotsgure_gcm_finish(const struct fotsgure_gcm *gcm,
    struct fotsgure_gcm_message *FOTSGURE_GCM_ALONE message, uint8_t tag[FOTSGURE_GCM_TAG]) FOTSGURE_GCM_NOEXCEPT;

/* Takes a piece of an encrypted text, and writes nothing to it. Its tag is compared later: DONE doesn't say that the text
 * is authentic. Only fotsgure_gcm_accept says so, of the whole text.
 * NO_KEY, OUT_OF_TURN or TOO_LONG; else DONE. */
FOTSGURE_GCM_CHECK enum fotsgure_gcm_status fotsgure_gcm_verify(const struct fotsgure_gcm *gcm,
    struct fotsgure_gcm_message *FOTSGURE_GCM_ALONE message,
    const uint8_t *text, size_t text_length) FOTSGURE_GCM_NOEXCEPT;

/* Compares the tag of what has come, without an early exit. If it is right, the encrypted text may come once more, to
 * be decrypted. If it isn't, wipe the message, and use nothing of it.
 * TAG_LENGTH, NO_KEY, OUT_OF_TURN or REFUSED; else DONE. */
FOTSGURE_GCM_CHECK enum fotsgure_gcm_status fotsgure_gcm_accept(const struct fotsgure_gcm *gcm,
    struct fotsgure_gcm_message *FOTSGURE_GCM_ALONE message,
    const uint8_t *tag, size_t tag_length) FOTSGURE_GCM_NOEXCEPT;

/* Compares a tag of 4, 8 or 12 to 15 bytes (5.2.1.2). Call it instead of fotsgure_gcm_accept. `fixed_length` is how many
 * bytes all tags under the key have. It is fixed with the key. Never read it from a message: a forger would choose how
 * few bytes have to be right. For 4 and 8 bytes read appendix C first.
 * TAG_LENGTH if fixed_length is none of these numbers, or tag_length isn't fixed_length; else as fotsgure_gcm_accept. */
FOTSGURE_GCM_CHECK enum fotsgure_gcm_status fotsgure_gcm_accept_short(const struct fotsgure_gcm *gcm,
    struct fotsgure_gcm_message *FOTSGURE_GCM_ALONE message, size_t fixed_length,
    const uint8_t *tag, size_t tag_length) FOTSGURE_GCM_NOEXCEPT;

/* Decrypts in place a piece of the encrypted text whose tag was right. Give the same text once more, from its beginning
 * on. More than was verified is TOO_LONG. The library can't tell whether it is the same text, nor whether all of it has
 * come. What was changed since fotsgure_gcm_accept is decrypted too. So nobody may write the text in between. Compare the
 * numbers of bytes of both passes.
 * NO_KEY, OUT_OF_TURN or TOO_LONG; else DONE. */
FOTSGURE_GCM_CHECK enum fotsgure_gcm_status fotsgure_gcm_decrypt(const struct fotsgure_gcm *gcm,
    struct fotsgure_gcm_message *FOTSGURE_GCM_ALONE message,
    uint8_t *FOTSGURE_GCM_ALONE text, size_t text_length) FOTSGURE_GCM_NOEXCEPT;

/* Takes a piece as fotsgure_gcm_verify does, and decrypts it in place at once. WHAT IT GIVES OUT IS NOT AUTHENTICATED:
 * anybody may have written it. Use nothing of it before fotsgure_gcm_accept returns DONE, and discard it otherwise.
 * NO_KEY, OUT_OF_TURN or TOO_LONG; else DONE. */
FOTSGURE_GCM_CHECK enum fotsgure_gcm_status fotsgure_gcm_decrypt_unverified(const struct fotsgure_gcm *gcm,
    struct fotsgure_gcm_message *FOTSGURE_GCM_ALONE message,
    uint8_t *FOTSGURE_GCM_ALONE text, size_t text_length) FOTSGURE_GCM_NOEXCEPT;

/* Ends a message whose tag was to be compared: writes its right tag, and overwrites *message with zeros. NOBODY HAS
 * AUTHENTICATED THE MESSAGE, AND WHO LEARNS ITS RIGHT TAG HAS FORGED IT. This is for interfaces that leave the comparison
 * to you; otherwise use fotsgure_gcm_accept. Compare all bytes of the tag that came, without an early exit. If it differs,
 * discard what was decrypted. In both cases wipe the right tag.
 * NO_KEY or OUT_OF_TURN; else DONE. */
FOTSGURE_GCM_CHECK enum fotsgure_gcm_status fotsgure_gcm_finish_unverified(const struct fotsgure_gcm *gcm,
    struct fotsgure_gcm_message *FOTSGURE_GCM_ALONE message, uint8_t tag[FOTSGURE_GCM_TAG]) FOTSGURE_GCM_NOEXCEPT;

/* Overwrites *message with zeros: there is no message then. It may be uninitialized. Copies are not wiped. */
void fotsgure_gcm_wipe_message(struct fotsgure_gcm_message *message) FOTSGURE_GCM_NOEXCEPT;

/* AES-GCM-SIV (RFC 8452). Each message is encrypted under keys that are derived from the key and the nonce. The cipher text
 * depends on the tag, which depends on all of the plain text. So it is the mode for nonces that are drawn at random, or
 * that may be used twice by mistake. Section 9 of the RFC says how many messages a key may have. The mode has no calls for
 * pieces: the whole message must be in memory before any of it is encrypted or decrypted. */

/* Prepares a key in *siv (KeyExpansion, FIPS 197, 5.2). *siv may be uninitialized: none of it is read. Nothing of what
 * it held is left.
 * DONE if key_length is 16 or 32; else KEY_LENGTH, and *siv then is all zeros and holds no key. */
FOTSGURE_GCM_CHECK enum fotsgure_gcm_status fotsgure_gcm_siv_set_key(struct fotsgure_gcm_siv *FOTSGURE_GCM_ALONE siv,
    const uint8_t *key, size_t key_length) FOTSGURE_GCM_NOEXCEPT;

/* Encrypts `text_length` bytes in place under a nonce of the caller's choice, and writes the tag (RFC 8452, 4). The tag
 * shows whether the text or the additional data was changed. The additional data isn't encrypted, nor is it part of the
 * text.
 * TOO_LONG or NO_KEY; else DONE. */
FOTSGURE_GCM_CHECK enum fotsgure_gcm_status fotsgure_gcm_siv_seal(const struct fotsgure_gcm_siv *siv,
    const uint8_t nonce[FOTSGURE_GCM_SIV_NONCE],
    const uint8_t *additional, size_t additional_length,
    uint8_t *FOTSGURE_GCM_ALONE text, size_t text_length,
    uint8_t tag[FOTSGURE_GCM_TAG]) FOTSGURE_GCM_NOEXCEPT;

/* The same from one buffer to another of the same length: encrypts `input` to `output`.
 * UNEQUAL_LENGTHS, TOO_LONG or NO_KEY; else DONE. */
FOTSGURE_GCM_CHECK enum fotsgure_gcm_status fotsgure_gcm_siv_seal_to(const struct fotsgure_gcm_siv *siv,
    const uint8_t nonce[FOTSGURE_GCM_SIV_NONCE],
    const uint8_t *additional, size_t additional_length,
    const uint8_t *input, size_t input_length,
    uint8_t *FOTSGURE_GCM_ALONE output, size_t output_length,
    uint8_t tag[FOTSGURE_GCM_TAG]) FOTSGURE_GCM_NOEXCEPT;

/* fotsgure_gcm_siv_seal under a nonce that the call draws from the system at random and writes to `nonce`. Send it with
 * the text and the tag. Without randomness nothing is encrypted.
 * NO_RANDOMNESS, TOO_LONG or NO_KEY; else DONE. */
FOTSGURE_GCM_CHECK enum fotsgure_gcm_status fotsgure_gcm_siv_seal_random(const struct fotsgure_gcm_siv *siv,
    uint8_t nonce[FOTSGURE_GCM_SIV_NONCE],
    const uint8_t *additional, size_t additional_length,
    uint8_t *FOTSGURE_GCM_ALONE text, size_t text_length,
    uint8_t tag[FOTSGURE_GCM_TAG]) FOTSGURE_GCM_NOEXCEPT;

/* Decrypts `text_length` bytes in place if the tag is right (RFC 8452, 5). The tag can be compared only once the text is
 * decrypted. So a refused text is encrypted again, and is unchanged when the call returns: that is proved. Until then the
 * text holds what nobody has authenticated.
 * TOO_LONG, NO_KEY or REFUSED; else DONE. */
FOTSGURE_GCM_CHECK enum fotsgure_gcm_status fotsgure_gcm_siv_open(const struct fotsgure_gcm_siv *siv,
    const uint8_t nonce[FOTSGURE_GCM_SIV_NONCE],
    const uint8_t *additional, size_t additional_length,
    uint8_t *FOTSGURE_GCM_ALONE text, size_t text_length,
    const uint8_t tag[FOTSGURE_GCM_TAG]) FOTSGURE_GCM_NOEXCEPT;

/* The same from one buffer to another of the same length: decrypts `input` to `output`. After REFUSED the output is all
 * zeros. After a status other than REFUSED and DONE it is unchanged. Until the call returns, the output holds what nobody
 * has authenticated.
 * UNEQUAL_LENGTHS, TOO_LONG, NO_KEY or REFUSED; else DONE. */
FOTSGURE_GCM_CHECK enum fotsgure_gcm_status fotsgure_gcm_siv_open_to(const struct fotsgure_gcm_siv *siv,
    const uint8_t nonce[FOTSGURE_GCM_SIV_NONCE],
    const uint8_t *additional, size_t additional_length,
    const uint8_t *input, size_t input_length,
    uint8_t *FOTSGURE_GCM_ALONE output, size_t output_length,
    const uint8_t tag[FOTSGURE_GCM_TAG]) FOTSGURE_GCM_NOEXCEPT;

/* Overwrites *siv with zeros: it then holds no key. It may be uninitialized. Copies are not wiped. */
void fotsgure_gcm_siv_wipe(struct fotsgure_gcm_siv *siv) FOTSGURE_GCM_NOEXCEPT;

/* Returns what a status means, in words: for logs, and for people. */
static inline const char *fotsgure_gcm_status_text(enum fotsgure_gcm_status status) FOTSGURE_GCM_NOEXCEPT
{
    switch (status) {
    case FOTSGURE_GCM_DONE: return "the work is done";
    case FOTSGURE_GCM_KEY_LENGTH: return "a key has 16, 24 or 32 bytes, of AES-GCM-SIV 16 or 32";
    case FOTSGURE_GCM_NO_KEY: return "there is no key";
    case FOTSGURE_GCM_NONCE_LENGTH: return "a nonce has one byte or more";
    case FOTSGURE_GCM_TAG_LENGTH: return "a tag has 16 bytes, or as many as are fixed";
    case FOTSGURE_GCM_TOO_LONG: return "there are more bytes than the standard allows, or than were verified";
    case FOTSGURE_GCM_REFUSED: return "the message was changed, or sealed under another key";
    case FOTSGURE_GCM_NONCES_END: return "no nonce is left: use a new key";
    case FOTSGURE_GCM_OUT_OF_TURN:
        return "the calls came in the wrong order, for example text after finish, or decrypt before accept";
    case FOTSGURE_GCM_NO_RANDOMNESS: return "the system gave no randomness for a nonce";
    case FOTSGURE_GCM_UNEQUAL_LENGTHS: return "input and output differ in length";
    }
    return "this header doesn't know the status";
}

/* Overwrites the caller's bytes with zeros, for example a key, by writes that the compiler doesn't leave out. */
static inline void fotsgure_gcm_wipe_bytes(void *bytes, size_t count) FOTSGURE_GCM_NOEXCEPT
{
    volatile uint8_t *byte = FOTSGURE_GCM_CAST(static_cast, volatile uint8_t *, bytes);
    while (count-- > 0)
        *byte++ = 0;
}

/* NULL with a length of 0: the library accepts no NULL, so each call below passes another address instead, which
 * nothing reads or writes. Bindings that bypass this header have to do the same. NULL with another length is a
 * mistake: unless the call returns a status first, it reads or writes at address 16, where most systems end the program. A
 * pointer to a function, and a name in parentheses, is the library's call itself. */
static inline const uint8_t *fotsgure_gcm_not_null(const uint8_t *bytes) FOTSGURE_GCM_NOEXCEPT
{
    return bytes ? bytes : FOTSGURE_GCM_CAST(reinterpret_cast, const uint8_t *,
        FOTSGURE_GCM_CAST(static_cast, uintptr_t, FOTSGURE_GCM_TAG));
}
static inline uint8_t *fotsgure_gcm_not_null_mut(uint8_t *bytes) FOTSGURE_GCM_NOEXCEPT
{
    return bytes ? bytes : FOTSGURE_GCM_CAST(reinterpret_cast, uint8_t *,
        FOTSGURE_GCM_CAST(static_cast, uintptr_t, FOTSGURE_GCM_TAG));
}

FOTSGURE_GCM_CHECK static inline enum fotsgure_gcm_status fotsgure_gcm_not_null_set_key(struct fotsgure_gcm *gcm,
    const uint8_t *key, size_t key_length) FOTSGURE_GCM_NOEXCEPT
{
    return fotsgure_gcm_set_key(gcm, fotsgure_gcm_not_null(key), key_length);
}
FOTSGURE_GCM_CHECK static inline enum fotsgure_gcm_status fotsgure_gcm_not_null_seal(const struct fotsgure_gcm *gcm,
    const uint8_t *nonce, size_t nonce_length, const uint8_t *additional, size_t additional_length, uint8_t *text,
    size_t text_length, uint8_t tag[FOTSGURE_GCM_TAG]) FOTSGURE_GCM_NOEXCEPT
{
    return fotsgure_gcm_seal(gcm, fotsgure_gcm_not_null(nonce), nonce_length, fotsgure_gcm_not_null(additional),
        additional_length, fotsgure_gcm_not_null_mut(text), text_length, tag);
}
FOTSGURE_GCM_CHECK static inline enum fotsgure_gcm_status fotsgure_gcm_not_null_seal_to(const struct fotsgure_gcm *gcm,
    const uint8_t *nonce, size_t nonce_length, const uint8_t *additional, size_t additional_length,
    const uint8_t *input, size_t input_length, uint8_t *output, size_t output_length,
    uint8_t tag[FOTSGURE_GCM_TAG]) FOTSGURE_GCM_NOEXCEPT
{
    return fotsgure_gcm_seal_to(gcm, fotsgure_gcm_not_null(nonce), nonce_length, fotsgure_gcm_not_null(additional),
        additional_length, fotsgure_gcm_not_null(input), input_length, fotsgure_gcm_not_null_mut(output), output_length,
        tag);
}
FOTSGURE_GCM_CHECK static inline enum fotsgure_gcm_status fotsgure_gcm_not_null_seal_next(
    const struct fotsgure_gcm *gcm, struct fotsgure_gcm_counter *counter, uint8_t nonce[FOTSGURE_GCM_NONCE],
    const uint8_t *additional, size_t additional_length, uint8_t *text, size_t text_length,
    uint8_t tag[FOTSGURE_GCM_TAG]) FOTSGURE_GCM_NOEXCEPT
{
    return fotsgure_gcm_seal_next(gcm, counter, nonce, fotsgure_gcm_not_null(additional), additional_length,
        fotsgure_gcm_not_null_mut(text), text_length, tag);
}
FOTSGURE_GCM_CHECK static inline enum fotsgure_gcm_status fotsgure_gcm_not_null_open(const struct fotsgure_gcm *gcm,
    const uint8_t *nonce, size_t nonce_length, const uint8_t *additional, size_t additional_length, uint8_t *text,
    size_t text_length, const uint8_t *tag, size_t tag_length) FOTSGURE_GCM_NOEXCEPT
{
    return fotsgure_gcm_open(gcm, fotsgure_gcm_not_null(nonce), nonce_length, fotsgure_gcm_not_null(additional),
        additional_length, fotsgure_gcm_not_null_mut(text), text_length, fotsgure_gcm_not_null(tag), tag_length);
}
FOTSGURE_GCM_CHECK static inline enum fotsgure_gcm_status fotsgure_gcm_not_null_open_to(const struct fotsgure_gcm *gcm,
    const uint8_t *nonce, size_t nonce_length, const uint8_t *additional, size_t additional_length,
    const uint8_t *input, size_t input_length, uint8_t *output, size_t output_length, const uint8_t *tag,
    size_t tag_length) FOTSGURE_GCM_NOEXCEPT
{
    return fotsgure_gcm_open_to(gcm, fotsgure_gcm_not_null(nonce), nonce_length, fotsgure_gcm_not_null(additional),
        additional_length, fotsgure_gcm_not_null(input), input_length, fotsgure_gcm_not_null_mut(output), output_length,
        fotsgure_gcm_not_null(tag), tag_length);
}
FOTSGURE_GCM_CHECK static inline enum fotsgure_gcm_status fotsgure_gcm_not_null_begin(const struct fotsgure_gcm *gcm,
    struct fotsgure_gcm_message *message, const uint8_t *nonce, size_t nonce_length) FOTSGURE_GCM_NOEXCEPT
{
    return fotsgure_gcm_begin(gcm, message, fotsgure_gcm_not_null(nonce), nonce_length);
}
FOTSGURE_GCM_CHECK static inline enum fotsgure_gcm_status fotsgure_gcm_not_null_additional(
    const struct fotsgure_gcm *gcm, struct fotsgure_gcm_message *message, const uint8_t *additional,
    size_t additional_length) FOTSGURE_GCM_NOEXCEPT
{
    return fotsgure_gcm_additional(gcm, message, fotsgure_gcm_not_null(additional), additional_length);
}
FOTSGURE_GCM_CHECK static inline enum fotsgure_gcm_status fotsgure_gcm_not_null_encrypt(
    const struct fotsgure_gcm *gcm, struct fotsgure_gcm_message *message, uint8_t *text,
    size_t text_length) FOTSGURE_GCM_NOEXCEPT
{
    return fotsgure_gcm_encrypt(gcm, message, fotsgure_gcm_not_null_mut(text), text_length);
}
FOTSGURE_GCM_CHECK static inline enum fotsgure_gcm_status fotsgure_gcm_not_null_verify(const struct fotsgure_gcm *gcm,
    struct fotsgure_gcm_message *message, const uint8_t *text, size_t text_length) FOTSGURE_GCM_NOEXCEPT
{
    return fotsgure_gcm_verify(gcm, message, fotsgure_gcm_not_null(text), text_length);
}
FOTSGURE_GCM_CHECK static inline enum fotsgure_gcm_status fotsgure_gcm_not_null_accept(const struct fotsgure_gcm *gcm,
    struct fotsgure_gcm_message *message, const uint8_t *tag, size_t tag_length) FOTSGURE_GCM_NOEXCEPT
{
    return fotsgure_gcm_accept(gcm, message, fotsgure_gcm_not_null(tag), tag_length);
}
FOTSGURE_GCM_CHECK static inline enum fotsgure_gcm_status fotsgure_gcm_not_null_accept_short(
    const struct fotsgure_gcm *gcm, struct fotsgure_gcm_message *message, size_t fixed_length, const uint8_t *tag,
    size_t tag_length) FOTSGURE_GCM_NOEXCEPT
{
    return fotsgure_gcm_accept_short(gcm, message, fixed_length, fotsgure_gcm_not_null(tag), tag_length);
}
FOTSGURE_GCM_CHECK static inline enum fotsgure_gcm_status fotsgure_gcm_not_null_decrypt(
    const struct fotsgure_gcm *gcm, struct fotsgure_gcm_message *message, uint8_t *text,
    size_t text_length) FOTSGURE_GCM_NOEXCEPT
{
    return fotsgure_gcm_decrypt(gcm, message, fotsgure_gcm_not_null_mut(text), text_length);
}
FOTSGURE_GCM_CHECK static inline enum fotsgure_gcm_status fotsgure_gcm_not_null_decrypt_unverified(
    const struct fotsgure_gcm *gcm, struct fotsgure_gcm_message *message, uint8_t *text,
    size_t text_length) FOTSGURE_GCM_NOEXCEPT
{
    return fotsgure_gcm_decrypt_unverified(gcm, message, fotsgure_gcm_not_null_mut(text), text_length);
}

FOTSGURE_GCM_CHECK static inline enum fotsgure_gcm_status fotsgure_gcm_not_null_siv_set_key(
    struct fotsgure_gcm_siv *siv, const uint8_t *key, size_t key_length) FOTSGURE_GCM_NOEXCEPT
{
    return fotsgure_gcm_siv_set_key(siv, fotsgure_gcm_not_null(key), key_length);
}
FOTSGURE_GCM_CHECK static inline enum fotsgure_gcm_status fotsgure_gcm_not_null_siv_seal(
    const struct fotsgure_gcm_siv *siv, const uint8_t nonce[FOTSGURE_GCM_SIV_NONCE], const uint8_t *additional,
    size_t additional_length, uint8_t *text, size_t text_length, uint8_t tag[FOTSGURE_GCM_TAG]) FOTSGURE_GCM_NOEXCEPT
{
    return fotsgure_gcm_siv_seal(siv, nonce, fotsgure_gcm_not_null(additional), additional_length,
        fotsgure_gcm_not_null_mut(text), text_length, tag);
}
FOTSGURE_GCM_CHECK static inline enum fotsgure_gcm_status fotsgure_gcm_not_null_siv_seal_to(
    const struct fotsgure_gcm_siv *siv, const uint8_t nonce[FOTSGURE_GCM_SIV_NONCE], const uint8_t *additional,
    size_t additional_length, const uint8_t *input, size_t input_length, uint8_t *output, size_t output_length,
    uint8_t tag[FOTSGURE_GCM_TAG]) FOTSGURE_GCM_NOEXCEPT
{
    return fotsgure_gcm_siv_seal_to(siv, nonce, fotsgure_gcm_not_null(additional), additional_length,
        fotsgure_gcm_not_null(input), input_length, fotsgure_gcm_not_null_mut(output), output_length, tag);
}
FOTSGURE_GCM_CHECK static inline enum fotsgure_gcm_status fotsgure_gcm_not_null_siv_seal_random(
    const struct fotsgure_gcm_siv *siv, uint8_t nonce[FOTSGURE_GCM_SIV_NONCE], const uint8_t *additional,
    size_t additional_length, uint8_t *text, size_t text_length, uint8_t tag[FOTSGURE_GCM_TAG]) FOTSGURE_GCM_NOEXCEPT
{
    return fotsgure_gcm_siv_seal_random(siv, nonce, fotsgure_gcm_not_null(additional), additional_length,
        fotsgure_gcm_not_null_mut(text), text_length, tag);
}
FOTSGURE_GCM_CHECK static inline enum fotsgure_gcm_status fotsgure_gcm_not_null_siv_open(
    const struct fotsgure_gcm_siv *siv, const uint8_t nonce[FOTSGURE_GCM_SIV_NONCE], const uint8_t *additional,
    size_t additional_length, uint8_t *text, size_t text_length,
    const uint8_t tag[FOTSGURE_GCM_TAG]) FOTSGURE_GCM_NOEXCEPT
{
    return fotsgure_gcm_siv_open(siv, nonce, fotsgure_gcm_not_null(additional), additional_length,
        fotsgure_gcm_not_null_mut(text), text_length, tag);
}
FOTSGURE_GCM_CHECK static inline enum fotsgure_gcm_status fotsgure_gcm_not_null_siv_open_to(
    const struct fotsgure_gcm_siv *siv, const uint8_t nonce[FOTSGURE_GCM_SIV_NONCE], const uint8_t *additional,
    size_t additional_length, const uint8_t *input, size_t input_length, uint8_t *output, size_t output_length,
    const uint8_t tag[FOTSGURE_GCM_TAG]) FOTSGURE_GCM_NOEXCEPT
{
    return fotsgure_gcm_siv_open_to(siv, nonce, fotsgure_gcm_not_null(additional), additional_length,
        fotsgure_gcm_not_null(input), input_length, fotsgure_gcm_not_null_mut(output), output_length, tag);
}

#define fotsgure_gcm_set_key(...) fotsgure_gcm_not_null_set_key(__VA_ARGS__)
#define fotsgure_gcm_seal(...) fotsgure_gcm_not_null_seal(__VA_ARGS__)
#define fotsgure_gcm_seal_to(...) fotsgure_gcm_not_null_seal_to(__VA_ARGS__)
#define fotsgure_gcm_seal_next(...) fotsgure_gcm_not_null_seal_next(__VA_ARGS__)
#define fotsgure_gcm_open(...) fotsgure_gcm_not_null_open(__VA_ARGS__)
#define fotsgure_gcm_open_to(...) fotsgure_gcm_not_null_open_to(__VA_ARGS__)
#define fotsgure_gcm_begin(...) fotsgure_gcm_not_null_begin(__VA_ARGS__)
#define fotsgure_gcm_additional(...) fotsgure_gcm_not_null_additional(__VA_ARGS__)
#define fotsgure_gcm_encrypt(...) fotsgure_gcm_not_null_encrypt(__VA_ARGS__)
#define fotsgure_gcm_verify(...) fotsgure_gcm_not_null_verify(__VA_ARGS__)
#define fotsgure_gcm_accept(...) fotsgure_gcm_not_null_accept(__VA_ARGS__)
#define fotsgure_gcm_accept_short(...) fotsgure_gcm_not_null_accept_short(__VA_ARGS__)
#define fotsgure_gcm_decrypt(...) fotsgure_gcm_not_null_decrypt(__VA_ARGS__)
#define fotsgure_gcm_decrypt_unverified(...) fotsgure_gcm_not_null_decrypt_unverified(__VA_ARGS__)
#define fotsgure_gcm_siv_set_key(...) fotsgure_gcm_not_null_siv_set_key(__VA_ARGS__)
#define fotsgure_gcm_siv_seal(...) fotsgure_gcm_not_null_siv_seal(__VA_ARGS__)
#define fotsgure_gcm_siv_seal_to(...) fotsgure_gcm_not_null_siv_seal_to(__VA_ARGS__)
#define fotsgure_gcm_siv_seal_random(...) fotsgure_gcm_not_null_siv_seal_random(__VA_ARGS__)
#define fotsgure_gcm_siv_open(...) fotsgure_gcm_not_null_siv_open(__VA_ARGS__)
#define fotsgure_gcm_siv_open_to(...) fotsgure_gcm_not_null_siv_open_to(__VA_ARGS__)

#ifdef __cplusplus
}
#endif
#undef FOTSGURE_GCM_ALONE
#undef FOTSGURE_GCM_NOEXCEPT
#undef FOTSGURE_GCM_ASSERT
#undef FOTSGURE_GCM_CAST
#undef FOTSGURE_GCM_CHECK
#endif
