/* Makes the calls of both C libraries for several keys and data of one length, on a stack of its own (left.c), between the marks
 * that the plugin of qemu knows. It prints a line for each, with these columns and tabs between them:
 *
 *   1  the call
 *   2  the bits of the key
 *   3  the count
 *   4  the position; of messages the bytes: 1000 times those of the nonce, and those of additional data
 *   5  which nonce
 *   6  whether the call did its work
 *   7  how deep the stack was
 *   8  how many bytes of the message, its keystream and the like it left there
 *   9  how many other bytes that depend on the key it left there
 *  10  how many bytes of registers depend on the key
 *
 * Calls with one name, size, count, position and nonce must run the same instructions on the same addresses. */
#include "fotsgure_aes.h"
#include "fotsgure_gcm.h"
#include "left.h"

#include <stdio.h>
#include <stdlib.h>
#include <string.h>

enum { MOST = 2048, MORE = 32, ROOM = MOST + MORE };

/* The run that is made now. */
static struct run {
    struct fotsgure_aes aes;
    struct fotsgure_aes_ctr ctr;
    struct fotsgure_aes_cbc cbc;
    struct fotsgure_aes_cmac_message tagged;
    struct fotsgure_gcm gcm;
    struct fotsgure_gcm_siv siv;
    struct fotsgure_gcm_message message;
    struct fotsgure_gcm_counter counter;
    /* A key; a message, plain and sealed; what a call is given and works on; and, of GCM, the rest of the message. */
    uint8_t key[32], plain[ROOM], sealed[ROOM], given[ROOM], data[ROOM], stream[ROOM], nonce[16], additional[128], first[2][16];
    uint8_t tag[16], right_tag[16], eight[128], eight_keys[128];
    size_t size, count, bytes, extra, nonce_bytes, key_bytes;
    uint64_t position, state; /* `state` is what the next byte of a key or a message follows from */
    int status;
} now;

/* A status is 0 if a call did its work. Of calls in pieces the first that says something else counts. */
static void keep_first_status(int next)
{
    now.status = now.status ? now.status : next;
}

/* Makes a call in pieces, on n bytes from `at` on: the first five, half of what is left, and the rest. */
#define IN_PIECES(call, from, all) do { \
        size_t few = (all) < 5 ? (all) : 5, half = ((all) - few) / 2, counts[] = {few, half, (all) - few - half}; \
        uint8_t *at = from; \
        for (int i = 0; i < 3; at += counts[i++]) { \
            size_t n = counts[i]; \
            keep_first_status((int)(call)); \
        } \
    } while (0)

static void begin_message(void)
{
    keep_first_status((int)fotsgure_gcm_begin(&now.gcm, &now.message, now.nonce, now.nonce_bytes));
    IN_PIECES(fotsgure_gcm_additional(&now.gcm, &now.message, at, n), now.additional, now.extra);
}

static int seal_in_pieces(void)
{
    begin_message();
    IN_PIECES(fotsgure_gcm_encrypt(&now.gcm, &now.message, at, n), now.data, now.bytes);
    return (int)fotsgure_gcm_finish(&now.gcm, &now.message, now.tag);
}

static int open_in_pieces(void)
{
    begin_message();
    IN_PIECES(fotsgure_gcm_verify(&now.gcm, &now.message, at, n), now.data, now.bytes);
    keep_first_status((int)fotsgure_gcm_accept(&now.gcm, &now.message, now.tag, 16));
    if (!now.status)
        IN_PIECES(fotsgure_gcm_decrypt(&now.gcm, &now.message, at, n), now.data, now.bytes);
    return 0;
}

static void decrypt_unverified(void)
{
    begin_message();
    IN_PIECES(fotsgure_gcm_decrypt_unverified(&now.gcm, &now.message, at, n), now.data, now.bytes);
}

static int stream_in_pieces(void)
{
    IN_PIECES(fotsgure_aes_add_keystream(&now.aes, &now.ctr, at, n), now.data, now.bytes);
    return 0;
}

static void tag_of_pieces(void)
{
    keep_first_status((int)fotsgure_aes_cmac_begin(&now.aes, &now.tagged));
    IN_PIECES(fotsgure_aes_cmac_update(&now.aes, &now.tagged, at, n), now.data, now.bytes);
}

static int tag_in_pieces(void)
{
    tag_of_pieces();
    return (int)fotsgure_aes_cmac_finish(&now.aes, &now.tagged, now.tag);
}

static int accept_in_pieces(void)
{
    tag_of_pieces();
    return (int)fotsgure_aes_cmac_accept(&now.aes, &now.tagged, now.tag, 16);
}

/* Planted faults. Each has to be found: by its instructions, by nothing but its addresses, or by what it leaves. */
static volatile uint8_t table[256], sink;

static void use(const void *at)
{
    __asm__ volatile("" : : "r"(at) : "memory");
}

static __attribute__((noinline)) int one(void)
{
    return sink = 1, 0;
}

static int branch(void)
{
    return now.data[3] & 1 ? one() : 0;
}

static int look_up(void)
{
    return sink = table[now.data[5]], 0;
}

static int early_exit(void)
{
    const volatile uint8_t *claimed = now.tag;
    for (int i = 0; i < 16; i++)
        if (claimed[i] != now.right_tag[i])
            return FOTSGURE_AES_REFUSED;
    return 0;
}

static int not_wiped(void)
{
    struct fotsgure_aes it;
    int its_status = (int)fotsgure_aes_set_key(&it, now.key, now.size);
    use(&it);
    return its_status;
}

static int inner(void)
{
    uint8_t it[16];
    memcpy(it, now.sealed, 16);
    int its_status = (int)fotsgure_aes_encrypt_blocks(&now.aes, it, 1);
    use(it);
    return its_status;
}

/* A function of the library without the part of its assembly that empties registers. */
#ifndef __wasm__
extern int planted_fotsgure_aes_cbc_encrypt(const struct fotsgure_aes *, struct fotsgure_aes_cbc *, uint8_t *, size_t);
#define PLANTED_REGISTERS(IT) \
    IT(planted_registers, NOTHING, CBC, PLAIN, SEALED, 0, planted_fotsgure_aes_cbc_encrypt(&now.aes, &now.cbc, now.data, now.count))
#else
#define PLANTED_REGISTERS(IT)
#endif

/* What a call has to process; how its message is sealed; what its data are at first and have to be at the end. */
enum kind { NOTHING, OF_BLOCKS, OF_BYTES, OF_MESSAGES };
enum mode { ECB, CBC, CTR, KW, KWP, GCM, SIV, CCM, CMAC };
enum text { PLAIN, SEALED, ZEROS };
/* The statuses of both libraries have the same numbers. */
enum { REFUSED = FOTSGURE_AES_REFUSED, UNEQUAL = FOTSGURE_AES_UNEQUAL_COUNTS };
_Static_assert((int)REFUSED == (int)FOTSGURE_GCM_REFUSED, "one number");
#define KEY now.key, now.size
#define BLOCKS now.data, now.count
#define BLOCKS_TO now.given, now.count, now.data, now.count
#define TEXT now.data, now.bytes
#define TEXT_TO now.given, now.bytes, now.data, now.bytes
#define NONCE now.nonce, now.nonce_bytes
#define MESSAGE now.additional, now.extra, TEXT
#define MESSAGE_TO now.additional, now.extra, TEXT_TO
#define WRAPPED now.given, 2 * now.count + 1, now.data, 2 * now.count
#define ALONE(IT, name, call) IT(name, NOTHING, CTR, PLAIN, PLAIN, 0, call)
#define CALLS(IT) PLANTED_REGISTERS(IT) \
    IT(planted_early_exit, NOTHING, CMAC, PLAIN, PLAIN, REFUSED, early_exit()) \
    ALONE(IT, planted_branch, branch()) ALONE(IT, planted_look_up, look_up()) ALONE(IT, planted_inner, inner()) \
    ALONE(IT, planted_not_wiped, not_wiped()) ALONE(IT, version, fotsgure_aes_version() != FOTSGURE_AES_VERSION) \
    ALONE(IT, key_length, fotsgure_aes_key_length(&now.aes) != now.size) ALONE(IT, wipe, (fotsgure_aes_wipe(&now.aes), 0)) \
    ALONE(IT, set_key, fotsgure_aes_set_key(&now.aes, KEY)) \
    IT(set_key_refused, NOTHING, CTR, PLAIN, PLAIN, FOTSGURE_AES_KEY_LENGTH, fotsgure_aes_set_key(&now.aes, now.key, 17)) \
    IT(encrypt, OF_BLOCKS, ECB, PLAIN, SEALED, 0, fotsgure_aes_encrypt_blocks(&now.aes, BLOCKS)) \
    IT(decrypt, OF_BLOCKS, ECB, SEALED, PLAIN, 0, fotsgure_aes_decrypt_blocks(&now.aes, BLOCKS)) \
    IT(encrypt_to, OF_BLOCKS, ECB, PLAIN, SEALED, 0, fotsgure_aes_encrypt_blocks_to(&now.aes, BLOCKS_TO)) \
    IT(decrypt_to, OF_BLOCKS, ECB, SEALED, PLAIN, 0, fotsgure_aes_decrypt_blocks_to(&now.aes, BLOCKS_TO)) \
    IT(encrypt_with, OF_BLOCKS, ECB, PLAIN, SEALED, 0, fotsgure_aes_encrypt_blocks_with(KEY, BLOCKS)) \
    IT(decrypt_with, OF_BLOCKS, ECB, SEALED, PLAIN, 0, fotsgure_aes_decrypt_blocks_with(KEY, BLOCKS)) \
    IT(unequal, OF_BLOCKS, ECB, PLAIN, PLAIN, UNEQUAL, fotsgure_aes_encrypt_blocks_to(&now.aes, BLOCKS_TO + 1)) \
    IT(cbc_encrypt, OF_BLOCKS, CBC, PLAIN, SEALED, 0, fotsgure_aes_cbc_encrypt(&now.aes, &now.cbc, BLOCKS)) \
    IT(cbc_decrypt, OF_BLOCKS, CBC, SEALED, PLAIN, 0, fotsgure_aes_cbc_decrypt(&now.aes, &now.cbc, BLOCKS)) \
    IT(wrap, OF_BLOCKS, KW, PLAIN, SEALED, 0, fotsgure_aes_wrap(&now.aes, now.given, 2 * now.count, now.data, 2 * now.count + 1)) \
    IT(unwrap, OF_BLOCKS, KW, SEALED, PLAIN, 0, fotsgure_aes_unwrap(&now.aes, WRAPPED)) \
    IT(unwrap_refused, OF_BLOCKS, KW, PLAIN, ZEROS, REFUSED, fotsgure_aes_unwrap(&now.aes, WRAPPED)) \
    IT(wrap_padded, OF_BLOCKS, KWP, PLAIN, SEALED, 0, \
        fotsgure_aes_wrap_padded(&now.aes, now.given, now.bytes - 3, now.data, 2 * now.count + 1)) \
    IT(unwrap_padded, OF_BLOCKS, KWP, SEALED, PLAIN, 0, fotsgure_aes_unwrap_padded(&now.aes, WRAPPED, &now.key_bytes)) \
    IT(unwrap_padded_refused, OF_BLOCKS, KWP, PLAIN, ZEROS, REFUSED, fotsgure_aes_unwrap_padded(&now.aes, WRAPPED, &now.key_bytes)) \
    IT(add_keystream, OF_BYTES, CTR, PLAIN, SEALED, 0, fotsgure_aes_add_keystream(&now.aes, &now.ctr, TEXT)) \
    IT(add_keystream_to, OF_BYTES, CTR, SEALED, PLAIN, 0, fotsgure_aes_add_keystream_to(&now.aes, &now.ctr, TEXT_TO)) \
    IT(add_keystream_with, OF_BYTES, CTR, PLAIN, SEALED, 0, fotsgure_aes_add_keystream_with(KEY, &now.ctr, TEXT)) \
    IT(add_keystream_pieces, OF_BYTES, CTR, PLAIN, SEALED, 0, stream_in_pieces()) \
    ALONE(IT, cipher_round, (fotsgure_aes_cipher_round(now.eight, now.eight_keys), 0)) \
    ALONE(IT, equiv_inv_cipher_round, (fotsgure_aes_equiv_inv_cipher_round(now.eight, now.eight_keys), 0)) \
    ALONE(IT, cipher_round_par, (fotsgure_aes_cipher_round_par(now.eight, now.eight_keys), 0)) \
    ALONE(IT, equiv_inv_cipher_round_par, (fotsgure_aes_equiv_inv_cipher_round_par(now.eight, now.eight_keys), 0)) \
    ALONE(IT, mix_columns, (fotsgure_aes_mix_columns(now.eight_keys), 0)) \
    ALONE(IT, inv_mix_columns, (fotsgure_aes_inv_mix_columns(now.eight_keys), 0)) \
    IT(cmac, OF_MESSAGES, CMAC, PLAIN, PLAIN, 0, fotsgure_aes_cmac(&now.aes, TEXT, now.tag)) \
    IT(cmac_verify, OF_MESSAGES, CMAC, PLAIN, PLAIN, 0, fotsgure_aes_cmac_verify(&now.aes, TEXT, now.tag, 16)) \
    IT(cmac_refused, OF_MESSAGES, CMAC, PLAIN, PLAIN, REFUSED, fotsgure_aes_cmac_verify(&now.aes, TEXT, now.tag, 16)) \
    IT(cmac_pieces, OF_MESSAGES, CMAC, PLAIN, PLAIN, 0, tag_in_pieces()) \
    IT(cmac_pieces_accepted, OF_MESSAGES, CMAC, PLAIN, PLAIN, 0, accept_in_pieces()) \
    IT(cmac_pieces_refused, OF_MESSAGES, CMAC, PLAIN, PLAIN, REFUSED, accept_in_pieces()) \
    ALONE(IT, cmac_wipe, (fotsgure_aes_cmac_wipe(&now.tagged), 0)) \
    IT(ccm_seal, OF_MESSAGES, CCM, PLAIN, SEALED, 0, fotsgure_aes_ccm_seal(&now.aes, now.nonce, 13, MESSAGE, now.tag, 16)) \
    IT(ccm_open, OF_MESSAGES, CCM, SEALED, PLAIN, 0, fotsgure_aes_ccm_open(&now.aes, now.nonce, 13, MESSAGE, now.tag, 16)) \
    IT(ccm_open_refused, OF_MESSAGES, CCM, SEALED, SEALED, REFUSED, fotsgure_aes_ccm_open(&now.aes, now.nonce, 13, MESSAGE, now.tag, 16)) \
    ALONE(IT, gcm_set_key, fotsgure_gcm_set_key(&now.gcm, KEY)) \
    ALONE(IT, gcm_set_key_of, fotsgure_gcm_set_key_of(&now.gcm, &now.aes)) \
    ALONE(IT, gcm_wipe, (fotsgure_gcm_wipe(&now.gcm), 0)) \
    ALONE(IT, gcm_wipe_message, (fotsgure_gcm_wipe_message(&now.message), 0)) \
    IT(gcm_seal, OF_MESSAGES, GCM, PLAIN, SEALED, 0, fotsgure_gcm_seal(&now.gcm, NONCE, MESSAGE, now.tag)) \
    IT(gcm_seal_next, OF_MESSAGES, GCM, PLAIN, PLAIN, 0, (fotsgure_gcm_seal_next(&now.gcm, &now.counter, now.nonce, MESSAGE, now.tag) \
        || fotsgure_gcm_open(&now.gcm, now.nonce, 12, MESSAGE, now.tag, 16))) \
    IT(gcm_open, OF_MESSAGES, GCM, SEALED, PLAIN, 0, fotsgure_gcm_open(&now.gcm, NONCE, MESSAGE, now.tag, 16)) \
    IT(gcm_open_refused, OF_MESSAGES, GCM, SEALED, SEALED, REFUSED, fotsgure_gcm_open(&now.gcm, NONCE, MESSAGE, now.tag, 16)) \
    IT(gcm_seal_to, OF_MESSAGES, GCM, PLAIN, SEALED, 0, fotsgure_gcm_seal_to(&now.gcm, NONCE, MESSAGE_TO, now.tag)) \
    IT(gcm_open_to, OF_MESSAGES, GCM, SEALED, PLAIN, 0, fotsgure_gcm_open_to(&now.gcm, NONCE, MESSAGE_TO, now.tag, 16)) \
    IT(gcm_open_to_refused, OF_MESSAGES, GCM, SEALED, ZEROS, REFUSED, fotsgure_gcm_open_to(&now.gcm, NONCE, MESSAGE_TO, now.tag, 16)) \
    IT(gcm_seal_pieces, OF_MESSAGES, GCM, PLAIN, SEALED, 0, seal_in_pieces()) \
    IT(gcm_open_pieces, OF_MESSAGES, GCM, SEALED, PLAIN, 0, open_in_pieces()) \
    IT(gcm_open_pieces_refused, OF_MESSAGES, GCM, SEALED, SEALED, REFUSED, open_in_pieces()) \
    IT(gcm_open_unverified, OF_MESSAGES, GCM, SEALED, PLAIN, 0, (decrypt_unverified(), \
        fotsgure_gcm_accept(&now.gcm, &now.message, now.tag, 16))) \
    IT(gcm_finish_unverified, OF_MESSAGES, GCM, SEALED, PLAIN, 0, (decrypt_unverified(), \
        fotsgure_gcm_finish_unverified(&now.gcm, &now.message, now.tag))) \
    IT(siv_set_key, NOTHING, SIV, PLAIN, PLAIN, 0, fotsgure_gcm_siv_set_key(&now.siv, KEY)) \
    IT(siv_wipe, NOTHING, SIV, PLAIN, PLAIN, 0, (fotsgure_gcm_siv_wipe(&now.siv), 0)) \
    IT(siv_seal, OF_MESSAGES, SIV, PLAIN, SEALED, 0, fotsgure_gcm_siv_seal(&now.siv, now.nonce, MESSAGE, now.tag)) \
    IT(siv_open, OF_MESSAGES, SIV, SEALED, PLAIN, 0, fotsgure_gcm_siv_open(&now.siv, now.nonce, MESSAGE, now.tag)) \
    IT(siv_open_refused, OF_MESSAGES, SIV, SEALED, SEALED, REFUSED, fotsgure_gcm_siv_open(&now.siv, now.nonce, MESSAGE, now.tag)) \
    IT(siv_seal_to, OF_MESSAGES, SIV, PLAIN, SEALED, 0, fotsgure_gcm_siv_seal_to(&now.siv, now.nonce, MESSAGE_TO, now.tag)) \
    IT(siv_open_to, OF_MESSAGES, SIV, SEALED, PLAIN, 0, fotsgure_gcm_siv_open_to(&now.siv, now.nonce, MESSAGE_TO, now.tag)) \
    IT(siv_open_to_refused, OF_MESSAGES, SIV, SEALED, ZEROS, REFUSED, fotsgure_gcm_siv_open_to(&now.siv, now.nonce, MESSAGE_TO, now.tag))
#define DEFINED(name, kind, mode, from, to, wanted, call) static int call_##name(void) { return (int)(call); }
#define LISTED(name, kind, mode, from, to, wanted, call) {#name, call_##name, kind, mode, from, to, wanted},
CALLS(DEFINED)
static const struct call {
    const char *name; int (*run)(void); enum kind kind; enum mode mode; enum text from, to; int wanted;
} calls[] = {CALLS(LISTED)};

/* The lengths of each kind of call, and what goes with them: positions, or lengths of nonces. */
#define OF(list) (sizeof list / sizeof *list)
static const size_t lengths_of_blocks[] = {0, 1, 2, 3, 4, 7, 8, 9, 15, 16, 17, 24, 33, 40, 127};
static const size_t lengths_of_bytes[] = {0, 1, 15, 16, 17, 33, 64, 100, 127, 128, 129, 255, 300, 2000};
static const uint64_t positions[] = {0, 5, ((uint64_t)1 << 40) - 1};
static const size_t nonces[] = {12, 8, 16}, extras[] = {0, 13, 20, 100, 32};

/* Bytes of a run: all 0, all 1, and then others each time. */
static void fill(uint8_t *at, size_t length, int run)
{
    for (size_t i = 0; i < length; i++) {
        now.state = now.state * 6364136223846793005u + 1442695040888963407u;
        at[i] = run == 0 ? 0 : run == 1 ? 0xff : (uint8_t)(now.state >> 56);
    }
}

/* How many bytes a sealed message has, beside its tag. */
static size_t length_of(const struct call *call, enum text text)
{
    return now.bytes + (text == SEALED && (call->mode == KW || call->mode == KWP) ? 8 : 0) - (text == PLAIN && call->mode == KWP ? 3 : 0);
}

static void start(void)
{
    memcpy(now.ctr.iv, now.nonce, 16);
    memcpy(now.cbc.previous, now.nonce, 16);
    memcpy(now.counter.next, now.nonce, 12);
    now.ctr.position = now.position;
}

static int seal(const struct call *call)
{
    size_t whole = (now.bytes + 15) / 16 * 16;
    memcpy(now.sealed, now.plain, now.bytes + MORE);
    memset(now.stream, 0, now.bytes + MORE);
    start();
    switch (call->mode) {
    case ECB: return (int)fotsgure_aes_encrypt_blocks(&now.aes, now.sealed, now.count);
    case CBC:
        keep_first_status((int)fotsgure_aes_cbc_encrypt(&now.aes, &now.cbc, now.sealed, now.count));
        for (size_t i = 0; i < now.bytes; i++)
            now.stream[i] = now.plain[i] ^ (i < 16 ? now.nonce[i] : now.sealed[i - 16]);
        return 0;
    case CTR:
        now.ctr.position -= now.position % 16;
        keep_first_status((int)fotsgure_aes_add_keystream(&now.aes, &now.ctr, now.stream, whole + 16));
        start();
        return (int)fotsgure_aes_add_keystream(&now.aes, &now.ctr, now.sealed, now.bytes);
    case KW: return (int)fotsgure_aes_wrap(&now.aes, now.plain, 2 * now.count, now.sealed, 2 * now.count + 1);
    case KWP: return (int)fotsgure_aes_wrap_padded(&now.aes, now.plain, now.bytes - 3, now.sealed, 2 * now.count + 1);
    case GCM:
        keep_first_status((int)fotsgure_gcm_set_key(&now.gcm, KEY) | (int)fotsgure_gcm_begin(&now.gcm, &now.message, NONCE));
        for (int i = 0; i < 16; i++)
            now.first[0][i] = now.first[1][15 - i] = now.message.first[i];
        keep_first_status((int)fotsgure_gcm_seal(&now.gcm, now.nonce, now.nonce_bytes, now.additional, 0, now.stream, whole, now.tag));
        return (int)fotsgure_gcm_seal(&now.gcm, now.nonce, now.nonce_bytes, now.additional, now.extra, now.sealed, now.bytes, now.tag);
    case SIV:
        keep_first_status((int)fotsgure_gcm_siv_set_key(&now.siv, now.key, now.size));
        keep_first_status((int)fotsgure_gcm_siv_seal(&now.siv, now.nonce, now.additional, now.extra, now.sealed, now.bytes, now.tag));
        break;
    case CCM:
        keep_first_status((int)fotsgure_aes_ccm_seal(&now.aes, now.nonce, 13, now.additional, now.extra, now.sealed, now.bytes, now.tag,
            16));
        break;
    case CMAC: return (int)fotsgure_aes_cmac(&now.aes, now.plain, now.bytes, now.tag);
    }
    for (size_t i = 0; i < now.bytes; i++)
        now.stream[i] = now.plain[i] ^ now.sealed[i];
    return 0;
}

/* Wraps semiblocks as SP 800-38F, 6.1, does, but under an integrity value that may be wrong. */
static void wrap_under(const uint8_t value[8], const uint8_t *text, size_t semiblocks, uint8_t *to)
{
    memcpy(to, value, 8);
    memcpy(to + 8, text, 8 * semiblocks);
    for (size_t step = 1; step <= 6 * semiblocks; step++) {
        uint8_t block[16], *one = to + 8 * ((step - 1) % semiblocks + 1);
        memcpy(block, to, 8);
        memcpy(block + 8, one, 8);
        keep_first_status((int)fotsgure_aes_encrypt_blocks(&now.aes, block, 1));
        for (int i = 0; i < 4; i++)
            block[7 - i] ^= (uint8_t)(step >> 8 * i);
        memcpy(to, block, 8);
        memcpy(one, block + 8, 8);
    }
}

/* What has to be refused is wrong at a single place, another one in each run: so a comparison with an early exit ends at another step. (The
 * text of AES-GCM-SIV depends on its tag, so there each place is wrong.) */
static void spoil(const struct call *call, int place)
{
    uint8_t value[8] = {0xa6, 0xa6, 0xa6, 0xa6, 0xa6, 0xa6, 0xa6, 0xa6}, padded[ROOM] = {0};
    memcpy(padded, now.plain, length_of(call, PLAIN));
    if (call->mode == KWP)
        memcpy(value, (uint8_t[]){0xa6, 0x59, 0x59, 0xa6, 0, 0, (uint8_t)((now.bytes - 3) >> 8), (uint8_t)(now.bytes - 3)}, 8);
    value[place % 8] ^= (uint8_t)(0x80 >> place / 8);
    memcpy(now.right_tag, now.tag, sizeof now.tag);
    now.tag[place] ^= 1;
    if (call->mode == KW || call->mode == KWP)
        wrap_under(value, padded, 2 * now.count, now.given);
}

/* Of two messages the nonce is all zeros, of two others not. It is public, so that instructions may depend on it. */
static int nonce_of(int of_message)
{
    return of_message / 2;
}

/* What a run is given, by the numbers of its key and of its message. */
static void prepare(const struct call *call, int of_key, int of_message)
{
    now.state = (uint64_t)of_key * 0x9e3779b97f4a7c15u + 1;
    fill(now.key, sizeof now.key, of_key);
    now.state = (uint64_t)of_message * 0x9e3779b97f4a7c15u + 7;
    fill(now.plain, now.bytes + MORE, of_message);
    fill(now.nonce, sizeof now.nonce, 2 * nonce_of(of_message));
    fill(now.additional, sizeof now.additional, of_message);
    now.status = 0;
    keep_first_status((int)fotsgure_aes_set_key(&now.aes, now.key, now.size));
    keep_first_status(seal(call));
    if (now.status)
        abort();
    memcpy(now.given, call->from == SEALED ? now.sealed : now.plain, now.bytes + MORE);
    if (call->wanted == REFUSED)
        spoil(call, RUNS * of_key + of_message);
    memcpy(now.data, now.given, now.bytes + MORE);
    memcpy(now.eight, now.plain, sizeof now.eight);
    for (size_t i = 0; i < sizeof now.eight_keys; i += 16)
        memcpy(now.eight_keys + i, now.key, 16);
    start();
}

static int is_done(const struct call *call)
{
    static const uint8_t zeros[ROOM];
    const uint8_t *wanted = call->to == PLAIN ? now.plain : call->to == SEALED ? now.sealed : zeros;
    return now.status == call->wanted && memcmp(now.data, wanted, length_of(call, call->to)) == 0;
}

/* What may stay, since the caller has it or it tells nothing of the key: the message, its keystream or what CBC encrypts, and a counter
 * block. */
static void allow_known(const struct call *call, int run)
{
    size_t end = now.bytes + now.position % 16, rest = call->mode == CTR ? -end % 16 : 0;
    allow_bytes(run, now.sealed, length_of(call, SEALED));
    allow_bytes(run, now.stream + end, rest);
    allow_bytes(run, now.plain, length_of(call, PLAIN));
    allow_bytes(run, now.stream + end, rest);
    allow_bytes(run, now.tag, 16);
    if (call->mode == CBC || call->mode == CTR || call->mode >= GCM)
        allow_bytes(run, now.stream, (end + 16) / 16 * 16);
    allow_bytes(run, now.first, now.nonce_bytes == 12 ? 0 : sizeof now.first);
}

static void print(const struct call *call, int of_message, int did, size_t deep, const struct left *left)
{
    size_t count = call->kind == OF_BLOCKS ? now.count : now.bytes;
    uint64_t position = call->kind == OF_MESSAGES ? 1000 * now.nonce_bytes + now.extra : now.position;
    printf("%s\t%zu\t%zu\t%llu\t%d\t%s\t%zu\t%zu\t%zu\t%zu\n", call->name, 8 * now.size, count, (unsigned long long)position,
        nonce_of(of_message), did ? "done" : "NOT DONE", deep, left->allowed, left->secret, left->registers);
}

/* A call at one length, for each message under each key. */
static void at_length(const struct call *call)
{
    int did[RUNS];
    for (int of_message = 0; of_message < RUNS; of_message++) {
        for (int of_key = 0; of_key < RUNS; of_key++) {
            prepare(call, of_key, of_message);
            keep_first_status(enter_on_stack(of_key, call->run));
            did[of_key] = is_done(call);
            allow_known(call, of_key);
        }
        size_t deep = depth_of_stack();
        for (int of_key = 0; of_key < RUNS; of_key++) {
            struct left left = left_by(of_key, deep);
            print(call, of_message, did[of_key], deep, &left);
        }
    }
}

static void at_lengths(const struct call *call)
{
    size_t all = call->kind == NOTHING ? 1 : call->kind == OF_BLOCKS ? OF(lengths_of_blocks) : OF(lengths_of_bytes);
    size_t more = call->kind == OF_BYTES ? OF(positions) : call->kind == OF_MESSAGES && call->mode == GCM ? OF(nonces) : 1;
    for (size_t i = 0; i < all; i++)
        for (size_t k = 0; k < more; k++) {
            now.count = call->kind == NOTHING ? 2 : call->kind == OF_BLOCKS ? lengths_of_blocks[i] : 0;
            now.bytes = now.count ? 16 * now.count : call->kind == OF_BLOCKS ? 0 : lengths_of_bytes[i];
            now.position = call->kind == OF_BYTES ? positions[k] : 0;
            now.nonce_bytes = call->kind == OF_MESSAGES ? nonces[k] : 12;
            now.extra = call->kind == OF_MESSAGES ? extras[i % OF(extras)] : 0;
            /* Keys of 1 to 24 blocks are wrapped. With 24 the number of a step exceeds 255. */
            if ((now.count && now.count <= 24) || (call->mode != KW && call->mode != KWP))
                at_length(call);
        }
}

/* PROVED names what dist/prove has for a machine at each of these lengths, with keys of 16 bytes. */
static int is_proved(const struct call *call)
{
    char name[40];
    snprintf(name, sizeof name, " %s ", call->name);
    return now.size == 16 && strstr(" " PROVED " ", name);
}

int main(void)
{
    for (now.size = 16; now.size <= 32; now.size += 8)
        for (const struct call *call = calls; call < calls + OF(calls); call++)
            if (!is_proved(call) && (call->mode != SIV || now.size != 24))
                at_lengths(call);
    return 0;
}
