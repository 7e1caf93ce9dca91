/* Times every engine of one run, a round at a time: a line on standard input asks for a round, or for the answers. The least of all rounds
   counts, in ticks of the time stamp counter a call. ENGINES names the libraries, as X(openssl) .. With ONLY_MESSAGES nothing but messages
   by EVP is timed. */
#include "engine.h"
#include <stdio.h>
#include <stdlib.h>
#include <string.h>
#include <time.h>
#include <unistd.h>
#include <x86intrin.h>

#define X(library) void add_##library(enum run run);
ENGINES
#undef X
#ifndef ONLY_MESSAGES
#define ONLY_MESSAGES 0
#endif

enum { MOST = 65536, MOST_ENGINES = 24, MOST_TASKS = 192, LONG = 1024, LONG_EVERY = 4 };
static struct engine engines[MOST_ENGINES];
static int count, refused[MOST_ENGINES], tasks_made;
static size_t rounds_made;

void add(const struct engine *engine)
{
    engines[count++] = *engine;
}

/* What is timed, and on how many blocks, or bytes (counter mode, GCM and AES-GCM-SIV). The first two calls, and the two of keys, have the
   order of directions. */
enum call { TO_ENCRYPT, TO_DECRYPT, STREAM, KEY_ENCRYPT, KEY_DECRYPT, KEY_AND_BLOCK, GCM_KEY, SEAL, ADDITIONAL, SEAL_SIV,
            MESSAGE, /* .. of each mode; and a key of each */ MODE_KEY = MESSAGE + MODES };
static const char *const names[] = {"encrypt", "decrypt", "counter mode", "key for encryption", "key for decryption",
                                    "key and block", "GCM key", "GCM, text", "GCM, additional data", "AES-GCM-SIV, text",
                                    "GCM", "GCM, decrypted", "CTR", "CBC", "CBC, decrypted", "ECB",
                                    [MODE_KEY + MODE_GCM] = "a key of GCM", [MODE_KEY + MODE_CTR] = "a key of CTR"};
static struct task { enum call call; size_t amount; } tasks[MOST_TASKS];

static void add_tasks(enum call call, size_t some, const size_t *amounts)
{
    while (some--)
        tasks[tasks_made++] = (struct task){call, *amounts++};
}
#define ADD_TASKS(call, ...) add_tasks(call, sizeof(size_t[]){__VA_ARGS__} / sizeof(size_t), (size_t[]){__VA_ARGS__})
static const size_t lengths[] = {16, 64, 256, 1024, 8192, 16384};
enum { LENGTHS = sizeof lengths / sizeof *lengths, LONGEST = 16384 };

static void list_messages(void)
{
    for (int mode = 0; mode < MODES; mode++)
        add_tasks(MESSAGE + mode, LENGTHS, lengths);
    ADD_TASKS(MODE_KEY + MODE_GCM, 0);
    ADD_TASKS(MODE_KEY + MODE_CTR, 0);
}

static void list(void)
{
    for (enum call it = TO_ENCRYPT; it <= TO_DECRYPT; it++) {
        for (size_t n = 1; n <= 40; n++)
            ADD_TASKS(it, n);
        ADD_TASKS(it, 64, 4096);
    }
    ADD_TASKS(STREAM, 16, 64, 256, 1500, 1 << 20);
    for (enum call it = KEY_ENCRYPT; it <= GCM_KEY; it++)
        ADD_TASKS(it, 1);
    ADD_TASKS(SEAL, 64, 1500, 16384);
    ADD_TASKS(ADDITIONAL, 16384);
    ADD_TASKS(SEAL_SIV, 64, 300, 1500, 16384);
}

static size_t blocks_of(const struct task *it)
{
    return it->call == STREAM || it->call >= SEAL ? (it->amount + 15) / 16 : it->amount;
}

/* The least ticks of all turns of a call. */
static double best[3][MOST_ENGINES][MOST_TASKS];
static uint8_t data[16 * MOST] __attribute__((aligned(64))), key[32], iv[16], additional[16384], nonce[12], tag[16];

static int has_call(int i, const struct task *it)
{
    const struct engine *e = &engines[i];
    if (it->call == STREAM)
        return e->stream != 0;
    if (it->call < GCM_KEY)
        return e->process != 0;
    if (it->call >= MESSAGE)
        return e->process_message != 0;
    return it->call == SEAL_SIV ? e->seal_siv != 0 : e->seal != 0;
}

static uint32_t turns_of(const struct task *it)
{
    size_t blocks = blocks_of(it);
    return it->call >= KEY_ENCRYPT && blocks < 64 ? 16 : blocks >= 64 ? 1 : (uint32_t)(64 / blocks);
}

static void seal(void (*by)(const struct message *), size_t extra, size_t length)
{
    nonce[5]++;
    by(&(struct message){nonce, additional, extra, length, data, tag});
}

static uint8_t made[LONGEST + 32];

static int message(const struct engine *e, enum mode mode, size_t length)
{
    iv[0]++;
    return e->process_message(mode, iv, data, made, length);
}

static void call(const struct engine *e, const struct task *it, size_t bytes)
{
    key[7] += it->call >= KEY_ENCRYPT && it->call <= GCM_KEY;
    switch (it->call) {
    case TO_ENCRYPT: case TO_DECRYPT: e->process((enum direction)it->call, data, it->amount); break;
    case STREAM: e->stream(0, bytes, iv, data, it->amount); break;
    case KEY_ENCRYPT: e->set_key(ENCRYPT, key, bytes); break;
    case KEY_DECRYPT: e->set_key(DECRYPT, key, bytes); break;
    case KEY_AND_BLOCK: e->set_key(ENCRYPT, key, bytes); e->process(ENCRYPT, data, 1); break;
    case GCM_KEY: e->gcm_key(key); break;
    case SEAL: seal(e->seal, 0, it->amount); break;
    case ADDITIONAL: seal(e->seal, it->amount, 0); break;
    case SEAL_SIV: seal(e->seal_siv, 0, it->amount); break;
    default:
        if (it->call >= MODE_KEY)
            e->mode_key(it->call - MODE_KEY, key);
        else
            message(e, it->call - MESSAGE, it->amount);
    }
}

static void measure(int i, int w, int size)
{
    const struct engine *e = &engines[i];
    const struct task *it = &tasks[w];
    size_t bytes = 16 + 8 * (size_t)size;
    if (it->call >= MESSAGE) {
        e->mode_key((it->call - MESSAGE) % MODES, key);
    } else if (it->call >= GCM_KEY) {
        e->gcm_key(key);
    } else {
        e->set_key(ENCRYPT, key, bytes);
        e->set_key(DECRYPT, key, bytes);
    }
    if (it->call == STREAM)
        e->stream(key, bytes, iv, data, 16);
    call(e, it, bytes);
    unsigned core;
    _mm_lfence();
    uint64_t start = __rdtscp(&core);
    for (uint32_t t = 0; t < turns_of(it); t++)
        call(e, it, bytes);
    uint64_t end = __rdtscp(&core);
    _mm_lfence();
    double ticks = (double)(end - start) / turns_of(it), *best_so_far = &best[size][i][w];
    if (!*best_so_far || ticks < *best_so_far)
        *best_so_far = ticks;
}

static void one_round(void)
{
    size_t round = rounds_made++;
    for (int size = 0; size < 3; size++)
        for (int w = 0; w < tasks_made; w++)
            /* GCM is timed with keys of 16 bytes. */
            for (int i = 0; i < count && (size == 0 || tasks[w].call < GCM_KEY); i++)
                if (!refused[i] && has_call(i, &tasks[w]) && (blocks_of(&tasks[w]) < LONG || round % LONG_EVERY == 0))
                    measure(i, w, size);
}

/* Whether an engine's answers are this library's, which are the standard's by its proof. BearSSL's are compared as what they are: counter
   mode from 0, and CBC. */
static int answers_right(const struct engine *e, size_t bytes)
{
    enum { N = 21, BYTES = 16 * N };
    uint8_t plain[BYTES], ours[BYTES], theirs[BYTES];
    const struct engine *us = &engines[0];
    for (int i = 0; i < BYTES; i++)
        plain[i] = (uint8_t)(i * 31 + (i >> 4) * 7);
    for (enum direction to = ENCRYPT; to <= DECRYPT && e->process; to++) {
        int bear = !strcmp(e->name, "BearSSL"), counts = bear && to == ENCRYPT;
        memcpy(theirs, plain, BYTES);
        for (int i = 0; i < BYTES; i++)
            ours[i] = !counts ? plain[i] : i % 16 == 15 ? (uint8_t)(i / 16) : 0;
        us->set_key(to, key, bytes);
        us->process(to, ours, N);
        for (int i = counts ? 0 : 16; i < BYTES && bear; i++)
            ours[i] ^= plain[counts ? i : i - 16];
        e->set_key(to, key, bytes);
        e->process(to, theirs, N);
        if (memcmp(ours, theirs, BYTES))
            return 0;
    }
    if (!e->stream)
        return 1;
    memcpy(ours, plain, BYTES);
    memcpy(theirs, plain, BYTES);
    us->stream(key, bytes, iv, ours, BYTES - 5);
    e->stream(key, bytes, iv, theirs, BYTES - 5);
    if (memcmp(ours, theirs, BYTES))
        return 0;
    e->stream(0, bytes, iv, theirs, BYTES - 5);
    return !memcmp(plain, theirs, BYTES);
}

/* The same for GCM or AES-GCM-SIV, on texts and additional data of several lengths. */
static int seals_right(const struct engine *e, void (*by_us)(const struct message *), void (*by_them)(const struct message *))
{
    static const size_t sizes[] = {0, 1, 16, 100, 1500};
    static uint8_t ours[1500], theirs[1500];
    uint8_t made[16];
    for (int i = 0; i < 25; i++) {
        for (size_t at = 0; at < sizeof ours; at++)
            ours[at] = theirs[at] = (uint8_t)(at * 31 + (at >> 4) * 7);
        engines[0].gcm_key(key);
        by_us(&(struct message){nonce, additional, sizes[i / 5], sizes[i % 5], ours, tag});
        e->gcm_key(key);
        by_them(&(struct message){nonce, additional, sizes[i / 5], sizes[i % 5], theirs, made});
        if (memcmp(ours, theirs, sizeof ours) || memcmp(tag, made, 16))
            return 0;
    }
    return 1;
}

/* The same for messages by EVP: the answers have to be those of another engine, and a wrong tag is refused. */
static int messages_right(const struct engine *e, const struct engine *other)
{
    static uint8_t theirs[sizeof made];
    for (int mode = 0; mode < MODES; mode++)
        for (int i = 0; i < LENGTHS; i++) {
            other->mode_key(mode, key);
            message(other, mode, lengths[i]);
            memcpy(theirs, made, sizeof made);
            memset(made, 0, sizeof made);
            iv[0]--; /* the same once more */
            e->mode_key(mode, key);
            if (message(e, mode, lengths[i]) != (mode != MODE_GCM_OPEN) || memcmp(theirs, made, lengths[i]))
                return 0;
        }
    return 1;
}

/* The rows of an engine. */
static void print_rows(int i)
{
    const struct engine *e = &engines[i];
    if (refused[i]) {
        printf("refused\t%s\t%s\t%s\n", e->name, e->how, e->kind);
        return;
    }
    for (int size = 0; size < 3; size++)
        for (int w = 0; w < tasks_made; w++) {
            if (!best[size][i][w])
                continue;
            printf("row\t%s\t%s\t%s\t%d\t%s\t", e->name, e->how, e->kind, 16 + 8 * size, names[tasks[w].call]);
            printf("%zu\t%.2f\n", tasks[w].amount, best[size][i][w]);
        }
}

/* Refuses each engine whose answers aren't right. */
static void compare_engines(void)
{
    const struct engine *evp = 0;
    for (int i = 0; i < count; i++) {
        const struct engine *e = &engines[i];
        if (!evp && e->process_message)
            evp = e;
        refused[i] |= e->process_message && !messages_right(e, evp);
        for (size_t bytes = 16; bytes <= 32; bytes += 8) {
            refused[i] |= !answers_right(e, bytes) || (e->seal && !seals_right(e, engines[0].seal, e->seal));
            refused[i] |= e->seal_siv && !seals_right(e, engines[0].seal_siv, e->seal_siv);
        }
    }
}

/* Makes a round for each line that is an r, and prints what was measured so far for another. */
static void answer_lines(void)
{
    struct timespec t0, t1;
    clock_gettime(CLOCK_MONOTONIC, &t0);
    uint64_t c0 = __rdtsc();
    for (char line[16]; fgets(line, sizeof line, stdin); fflush(stdout)) {
        if (line[0] == 'r') {
            one_round();
            printf("done\n");
            continue;
        }
        clock_gettime(CLOCK_MONOTONIC, &t1);
        double ns = (double)(t1.tv_sec - t0.tv_sec) * 1e9 + (double)(t1.tv_nsec - t0.tv_nsec);
        printf("ticks_a_nanosecond %.6f\n", (double)(__rdtsc() - c0) / ns);
        for (int i = 0; i < count; i++)
            print_rows(i);
        printf("end\n");
    }
}

int main(int argc, char **argv)
{
    enum run run = argc > 1 ? (enum run)atoi(argv[1]) : ALL;
    for (int i = 0; i < 32; i++)
        key[i] = (uint8_t)(i * 29 + 3);
    for (int i = 0; i < 16; i++)
        iv[i] = (uint8_t)(0xf0 + i);
    iv[12] = 0;
    for (size_t i = 0; i < sizeof additional; i++)
        additional[i] = (uint8_t)(i * 29 + i / 256);
    for (size_t i = 0; i < sizeof data; i++)
        data[i] = (uint8_t)(i * i + i / 256);
    memcpy(nonce, additional + 50, sizeof nonce);
    if (ONLY_MESSAGES)
        list_messages();
    else
        list();
#define X(library) add_##library(run);
    ENGINES
    compare_engines();
    answer_lines();
    /* The peers' own ends are not run: one of them faults there. */
    fflush(stdout);
    _exit(0);
}
