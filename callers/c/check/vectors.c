/* NIST's vectors of GCM, CBC and key wrap through the libraries: `vectors FILE ..` reads files as NIST publishes them, such
 * as gcmEncryptExtIV128.rsp, CBCMMT128.rsp or KWP_AE_128.txt. The last line is `N passed, M failed`.
 *
 * Each message of GCM is sealed and opened again. It is refused with a bit changed in any of its parts. A tag that fails in
 * the file is refused. NIST also has tags of 4 to 15 bytes. fotsgure_gcm_open refuses them by their length, and
 * fotsgure_gcm_accept_short accepts them if they are right: the beginning of the tag of 16 bytes. No call may write outside
 * its buffers. */
#include <fotsgure_aes.h>
#include <fotsgure_gcm.h>

#include <stdio.h>
#include <stdlib.h>
#include <string.h>

enum { MOST = 640, GUARD = 32, SEMIBLOCK = 8 };

struct bytes {
    uint8_t at[MOST];
    size_t count;
};

/* A record of a file. Of a record that fails there is no plain text. */
struct record {
    struct bytes key, iv, additional, plain, cipher, tag;
    int fails;
};

static size_t passed, failed, refused, shorts;
static struct fotsgure_gcm gcm;
static struct fotsgure_aes aes;

/* The text that calls work on, between guards. */
static uint8_t arena[MOST + 2 * GUARD];

static uint8_t *text(const struct bytes *bytes)
{
    memset(arena, 0x5a, sizeof arena);
    memcpy(arena + GUARD, bytes->at, bytes->count);
    return arena + GUARD;
}

/* Whether the text is these bytes, and the guards are as they were. */
static int text_is(const struct bytes *bytes)
{
    for (size_t i = 0; i < sizeof arena; i++)
        if ((i < GUARD || i >= GUARD + bytes->count) && arena[i] != 0x5a)
            return 0;
    return memcmp(arena + GUARD, bytes->at, bytes->count) == 0;
}

static int seal(const struct record *r, const struct bytes *from, uint8_t tag[16])
{
    return fotsgure_gcm_seal(&gcm, r->iv.at, r->iv.count, r->additional.at, r->additional.count, text(from),
        from->count, tag) == FOTSGURE_GCM_DONE;
}

static enum fotsgure_gcm_status open(const struct record *r, const struct bytes *from, const uint8_t *tag,
    size_t length)
{
    return fotsgure_gcm_open(&gcm, r->iv.at, r->iv.count, r->additional.at, r->additional.count, text(from),
        from->count, tag, length);
}

/* Whether the cipher text is refused and stays as it was. */
static int is_refused(const struct record *r, const uint8_t tag[16])
{
    refused++;
    return open(r, &r->cipher, tag, 16) == FOTSGURE_GCM_REFUSED && text_is(&r->cipher);
}

/* The same with a bit changed in the tag, in the nonce, in the additional data and in the cipher text. */
static int changes_are_refused(const struct record *r, const uint8_t tag[16])
{
    struct record other = *r;
    uint8_t other_tag[16];
    memcpy(other_tag, tag, 16);
    other_tag[r->plain.count % 16] ^= 1;
    if (!is_refused(r, other_tag))
        return 0;
    other.iv.at[0] ^= 1;
    if (!is_refused(&other, tag))
        return 0;
    other = *r;
    if (r->additional.count > 0) {
        other.additional.at[r->additional.count - 1] ^= 0x80;
        if (!is_refused(&other, tag))
            return 0;
    }
    other = *r;
    if (r->cipher.count > 0) {
        other.cipher.at[r->cipher.count / 2] ^= 2;
        if (!is_refused(&other, tag))
            return 0;
    }
    return 1;
}

/* What the call for short tags says of the cipher text in one piece. If the tag is accepted, the text is decrypted. */
static enum fotsgure_gcm_status accept_short(const struct record *r, size_t fixed_length, const uint8_t *tag,
    size_t length)
{
    struct fotsgure_gcm_message message;
    uint8_t *at = text(&r->cipher);
    enum fotsgure_gcm_status status;
    if (fotsgure_gcm_begin(&gcm, &message, r->iv.at, r->iv.count) ||
        fotsgure_gcm_additional(&gcm, &message, r->additional.at, r->additional.count) ||
        fotsgure_gcm_verify(&gcm, &message, at, r->cipher.count))
        return FOTSGURE_GCM_NO_KEY;
    status = fotsgure_gcm_accept_short(&gcm, &message, fixed_length, tag, length);
    return status == FOTSGURE_GCM_DONE ? fotsgure_gcm_decrypt(&gcm, &message, at, r->cipher.count) : status;
}

/* A tag of another length: fotsgure_gcm_open refuses it by its length. The call for short tags accepts it, unless it is
 * wrong or changed, or the fixed length is another. */
static int check_short(const struct record *r)
{
    uint8_t other[16];
    size_t count = r->tag.count;
    if (count == 16)
        return 1;
    memcpy(other, r->tag.at, count);
    other[r->cipher.count % count] ^= 1;
    shorts++;
    return open(r, &r->cipher, r->tag.at, count) == FOTSGURE_GCM_TAG_LENGTH && text_is(&r->cipher) &&
        accept_short(r, 12 + (count == 12), r->tag.at, count) == FOTSGURE_GCM_TAG_LENGTH && text_is(&r->cipher) &&
        (r->fails || accept_short(r, count, other, count) == FOTSGURE_GCM_REFUSED) &&
        accept_short(r, count, r->tag.at, count) == (r->fails ? FOTSGURE_GCM_REFUSED : FOTSGURE_GCM_DONE) &&
        text_is(r->fails ? &r->cipher : &r->plain);
}

static int check_right(const struct record *r)
{
    uint8_t tag[16];
    return seal(r, &r->plain, tag) && text_is(&r->cipher) && memcmp(tag, r->tag.at, r->tag.count) == 0 &&
        open(r, &r->cipher, tag, 16) == FOTSGURE_GCM_DONE && text_is(&r->plain) && check_short(r) &&
        changes_are_refused(r, tag);
}

/* The right tag is that of the text whose encryption the cipher text is: the encryption of the cipher text. */
static int check_fails(const struct record *r)
{
    struct bytes plain = r->cipher;
    uint8_t tag[16];
    if (r->tag.count == 16)
        return is_refused(r, r->tag.at);
    if (!seal(r, &r->cipher, tag))
        return 0;
    memcpy(plain.at, arena + GUARD, plain.count);
    return seal(r, &plain, tag) && text_is(&r->cipher) && memcmp(tag, r->tag.at, r->tag.count) != 0 &&
        check_short(r);
}

/* A text through CBC, in two calls. */
static int chains(enum fotsgure_aes_status (*call)(const struct fotsgure_aes *, struct fotsgure_aes_cbc *, uint8_t *, size_t),
    const struct record *r, const struct bytes *from, const struct bytes *to)
{
    struct fotsgure_aes_cbc cbc;
    size_t blocks = from->count / 16, first = blocks / 2;
    uint8_t *at = text(from);
    memcpy(cbc.previous, r->iv.at, 16);
    return call(&aes, &cbc, at, first) == FOTSGURE_AES_DONE && call(&aes, &cbc, at + 16 * first, blocks - first) == FOTSGURE_AES_DONE &&
        text_is(to);
}

static int check_cbc(const struct record *r)
{
    return chains(fotsgure_aes_cbc_encrypt, r, &r->plain, &r->cipher) && chains(fotsgure_aes_cbc_decrypt, r, &r->cipher, &r->plain);
}

/* A key that is wrapped, and unwrapped. One that fails is refused, and leaves zeros. */
static int check_wrap(const struct record *r, int is_padded)
{
    size_t count = r->cipher.count / SEMIBLOCK, length = 1;
    struct bytes unwrapped = {.count = r->cipher.count - SEMIBLOCK};
    enum fotsgure_aes_status status;
    uint8_t *to = text(&(struct bytes){.count = 0});
    memcpy(unwrapped.at, r->plain.at, r->plain.count);
    status = is_padded ? fotsgure_aes_unwrap_padded(&aes, r->cipher.at, count, to, count - 1, &length) :
        fotsgure_aes_unwrap(&aes, r->cipher.at, count, to, count - 1);
    if (r->fails)
        return status == FOTSGURE_AES_REFUSED && text_is(&unwrapped) && length == !is_padded;
    if (status != FOTSGURE_AES_DONE || !text_is(&unwrapped) || (is_padded && length != r->plain.count))
        return 0;
    to = text(&(struct bytes){.count = 0});
    status = is_padded ? fotsgure_aes_wrap_padded(&aes, r->plain.at, r->plain.count, to, count) :
        fotsgure_aes_wrap(&aes, r->plain.at, count - 1, to, count);
    return status == FOTSGURE_AES_DONE && text_is(&r->cipher);
}

static int is_right(const struct record *r, const char *file)
{
    const char *slash = strrchr(file, '/'), *name = slash ? slash + 1 : file;
    if (strncmp(name, "gcm", 3) == 0)
        return fotsgure_gcm_set_key(&gcm, r->key.at, r->key.count) == FOTSGURE_GCM_DONE && (r->fails ? check_fails(r) : check_right(r));
    return fotsgure_aes_set_key(&aes, r->key.at, r->key.count) == FOTSGURE_AES_DONE &&
        (strncmp(name, "CBC", 3) == 0 ? check_cbc(r) : check_wrap(r, strncmp(name, "KWP", 3) == 0));
}

static void check(const struct record *r, const char *file, size_t line)
{
    int right = is_right(r, file);
    fotsgure_gcm_wipe(&gcm);
    fotsgure_aes_wipe(&aes);
    if (right) {
        passed++;
    } else if (failed++ < 5) {
        printf("failed: the record that ends at line %zu of %s\n", line, file);
    }
}

static int from_hex(struct bytes *bytes, const char *digits)
{
    unsigned byte;
    bytes->count = 0;
    for (; sscanf(digits, "%2x", &byte) == 1; digits += 2) {
        if (bytes->count == MOST)
            return 0;
        bytes->at[bytes->count++] = (uint8_t)byte;
    }
    return 1;
}

/* Reads a line of a record. Returns 0 if its bytes are too many. */
static int read_line(struct record *r, const char *line)
{
    const struct { const char *name; struct bytes *value; } fields[] = {
        {"Key = ", &r->key}, {"KEY = ", &r->key}, {"K = ", &r->key}, {"IV = ", &r->iv}, {"AAD = ", &r->additional},
        {"PT = ", &r->plain}, {"PLAINTEXT = ", &r->plain}, {"P = ", &r->plain}, {"CT = ", &r->cipher},
        {"CIPHERTEXT = ", &r->cipher}, {"C = ", &r->cipher}, {"Tag = ", &r->tag},
    };
    for (size_t i = 0; i < sizeof fields / sizeof *fields; i++)
        if (strncmp(line, fields[i].name, strlen(fields[i].name)) == 0)
            return from_hex(fields[i].value, line + strlen(fields[i].name));
    if (strncmp(line, "FAIL", 4) == 0)
        r->fails = 1;
    return 1;
}

/* A record begins with its count, and ends where the next begins or the file ends. */
static int read_file(const char *name)
{
    static struct record record;
    char line[2 * MOST + 64];
    size_t number = 0;
    int begun = 0;
    FILE *file = fopen(name, "r");
    if (file == NULL)
        return 0;
    while (fgets(line, sizeof line, file) != NULL) {
        number++;
        if (strncmp(line, "Count = ", 8) == 0 || strncmp(line, "COUNT = ", 8) == 0) {
            if (begun)
                check(&record, name, number);
            memset(&record, 0, sizeof record);
            begun = 1;
        } else if (!read_line(&record, line)) {
            printf("line %zu of %s is too long\n", number, name);
            failed++;
        }
    }
    if (begun)
        check(&record, name, number);
    fclose(file);
    return begun;
}

int main(int count, char **files)
{
    for (int i = 1; i < count; i++) {
        if (!read_file(files[i])) {
            printf("no records: %s\n", files[i]);
            failed++;
        }
    }
    printf("%zu refused, %zu tags of 4 to 15 bytes\n%zu passed, %zu failed\n", refused, shorts, passed, failed);
    if (fflush(stdout) != 0 || ferror(stdout)) {
        perror("vectors");
        return 1;
    }
    return failed != 0;
}
