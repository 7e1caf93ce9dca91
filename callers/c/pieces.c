/* A file in pieces: encrypted as it is read, into one file of nonce, text and tag, and decrypted only once its tag was found
 * right. Ends with status 0 if each file comes back whole, and nothing comes back of a file in which a bit was changed. */
#include "fotsgure_gcm.h"

#include <stdio.h>
#include <string.h>

/* Both return 0 if all was read, done and written. This one uses the counter's next nonce: store the counter, as
 * example_gcm.c does, before the file is sent. */
static int seal_file(const struct fotsgure_gcm *gcm, struct fotsgure_gcm_counter *counter, FILE *in, FILE *out)
{
    struct fotsgure_gcm_message message;
    uint8_t nonce[12], piece[4096], tag[16];
    size_t count;
    enum fotsgure_gcm_status status = fotsgure_gcm_begin_next(gcm, &message, counter, nonce);
    if (!status)
        fwrite(nonce, 1, sizeof nonce, out);
    while (!status && (count = fread(piece, 1, sizeof piece, in)) > 0) {
        status = fotsgure_gcm_encrypt(gcm, &message, piece, count);
        if (!status)
            fwrite(piece, 1, count, out);
    }
    if (!status)
        status = fotsgure_gcm_finish(gcm, &message, tag);
    if (!status)
        fwrite(tag, 1, sizeof tag, out);
    fotsgure_gcm_wipe_message(&message);
    return status || ferror(in) || fflush(out) || ferror(out);
}

/* Reads the nonce at the beginning of a file and the tag at its end. Returns how many bytes are between them, or -1. */
static long ends_of(FILE *in, uint8_t nonce[12], uint8_t tag[16])
{
    long size;
    if (fseek(in, 0, SEEK_END) || (size = ftell(in)) < 12 + 16)
        return -1;
    if (fseek(in, size - 16, SEEK_SET) || fread(tag, 1, 16, in) != 16)
        return -1;
    rewind(in);
    return fread(nonce, 1, 12, in) == 12 ? size - 12 - 16 : -1;
}

static size_t next_piece(FILE *in, uint8_t piece[4096], long left)
{
    return fread(piece, 1, left < 4096 ? (size_t)left : 4096, in);
}

/* Reads the file twice. Nobody may write it in between: the second time only its length is compared. */
static int open_file(const struct fotsgure_gcm *gcm, FILE *in, FILE *out)
{
    struct fotsgure_gcm_message message;
    uint8_t nonce[12], piece[4096], tag[16];
    size_t count;
    long left, length = ends_of(in, nonce, tag);
    if (length < 0)
        return 1;
    enum fotsgure_gcm_status status = fotsgure_gcm_begin(gcm, &message, nonce, 12);
    for (left = length; !status && (count = next_piece(in, piece, left)) > 0; left -= (long)count)
        status = fotsgure_gcm_verify(gcm, &message, piece, count);
    if (!status)
        status = fotsgure_gcm_accept(gcm, &message, tag, 16);
    int failed = left || fseek(in, 12, SEEK_SET);
    for (left = length; !failed && !status && (count = next_piece(in, piece, left)) > 0; left -= (long)count) {
        status = fotsgure_gcm_decrypt(gcm, &message, piece, count);
        if (!status)
            fwrite(piece, 1, count, out);
    }
    fotsgure_gcm_wipe_message(&message);
    return failed || status || left || ferror(in) || fflush(out) || ferror(out);
}

/* Whether two files have the same bytes. */
static int same(FILE *one, FILE *other)
{
    int byte, other_byte;
    rewind(one);
    rewind(other);
    do {
        byte = getc(one);
        other_byte = getc(other);
    } while (byte == other_byte && byte != EOF);
    return byte == other_byte;
}

/* Whether a sealed file comes back whole. */
static int opens(const struct fotsgure_gcm *gcm, FILE *sealed, FILE *plain)
{
    FILE *opened = tmpfile();
    if (!opened)
        return 0;
    int right = !open_file(gcm, sealed, opened) && same(plain, opened);
    fclose(opened);
    return right;
}

/* Whether a sealed file is refused, and nothing of it comes back. */
static int is_refused(const struct fotsgure_gcm *gcm, FILE *sealed)
{
    FILE *opened = tmpfile();
    if (!opened)
        return 0;
    int right = open_file(gcm, sealed, opened);
    rewind(opened);
    right = right && getc(opened) == EOF;
    fclose(opened);
    return right;
}

/* Changes a bit of a byte of a file. */
static void change(FILE *file, long at)
{
    fseek(file, at, SEEK_SET);
    int was = getc(file);
    fseek(file, at, SEEK_SET);
    putc(was ^ 1, file);
}

int main(void)
{
    static const uint8_t key[32] = {1, 2, 3};         /* a program draws its key, and stores its counter: see example_gcm.c */
    static struct fotsgure_gcm_counter counter = {{0}};
    static const long lengths[] = {0, 1, 4096, 100000};
    struct fotsgure_gcm gcm;
    int right = fotsgure_gcm_set_key(&gcm, key, sizeof key) == FOTSGURE_GCM_DONE;
    for (size_t i = 0; i < sizeof lengths / sizeof *lengths; i++) {
        long length = lengths[i];
        FILE *plain = tmpfile(), *sealed = tmpfile();
        if (!plain || !sealed)
            return 2;
        for (long at = 0; at < length; at++)
            putc((int)(at % 251), plain);
        rewind(plain);
        right = right && !seal_file(&gcm, &counter, plain, sealed) && ftell(sealed) == 12 + length + 16 &&
            opens(&gcm, sealed, plain);
        for (long at = 0; at < 12 + length + 16; at += 1 + length / 3) {
            change(sealed, at);
            right = right && is_refused(&gcm, sealed);
            change(sealed, at);
        }
        right = right && opens(&gcm, sealed, plain);
        fclose(plain);
        fclose(sealed);
    }
    right = right && counter.next[11] == sizeof lengths / sizeof *lengths;
    fotsgure_gcm_wipe(&gcm);
    puts(right ? "the file came back" : "wrong");
    if (fflush(stdout) != 0) {
        perror("pieces");
        return 1;
    }
    return !right;
}
