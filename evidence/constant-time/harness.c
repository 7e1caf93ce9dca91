/* Runs calls on secret bytes under valgrind's memcheck. Secrets are marked undefined, so that memcheck reports each branch and each address
   that depends on one. calls.h, which exports/calls.py makes, has the calls. */
#include <stdint.h>
#include <stdio.h>
#include <stdlib.h>
#include <string.h>
#include <valgrind/memcheck.h>

static unsigned reports_before;

static void fill(void *at, size_t bytes)
{
    static uint64_t state = 0x9e3779b97f4a7c15u;
    for (size_t i = 0; i < bytes; i++) {
        state ^= state << 13;
        state ^= state >> 7;
        state ^= state << 17;
        ((uint8_t *)at)[i] = (uint8_t)(state >> 32);
    }
}

static void known(void *at, size_t bytes)
{
    (void)VALGRIND_MAKE_MEM_DEFINED(at, bytes);
}

/* How many of these bytes depend on a secret. */
static size_t tainted(const void *at, size_t bytes)
{
    size_t count = 0;
    for (size_t i = 0; i < bytes; i++) {
        uint8_t bits = 0;
        if (VALGRIND_GET_VBITS((const uint8_t *)at + i, &bits, 1) != 1)
            abort();
        count += bits != 0;
    }
    return count;
}

static void begin(const char *name)
{
    VALGRIND_PRINTF("call %s\n", name);
    reports_before = VALGRIND_COUNT_ERRORS;
}

/* The most buffers of a call, and how many branches it has for a tag that it compares: they answer whether the tag is right. */
enum { MOST_BUFFERS = 8, BRANCHES_OF_ANSWER = 1 };

/* A buffer that a call is given. */
struct buffer { uint8_t *at, *before; size_t bytes; char kind; };
static struct buffer buffers[MOST_BUFFERS];
static int held;

/* kind: s a secret that is read, b a secret that is changed in place, o bytes that are written, p public bytes, z a secret that must be
   zero afterwards. */
static void *buffer(char kind, size_t bytes)
{
    struct buffer *it = &buffers[held++];
    it->at = aligned_alloc(16, (bytes + 31) & ~(size_t)15);
    it->before = malloc(bytes + 1);
    it->bytes = bytes;
    it->kind = kind;
    if (!it->at || !it->before)
        abort();
    fill(it->at, bytes);
    memcpy(it->before, it->at, bytes);
    if (strchr("sbz", kind))
        (void)VALGRIND_MAKE_MEM_UNDEFINED(it->at, bytes);
    return it->at;
}

/* Says what came of the call. It is vacuous where it did nothing with what it was given: where its answer is not the wanted one, or a block
   was left as it was, or a byte that it should have written depends on no secret. */
static void end(const char *name, const char *wanted, uint64_t answer, uint64_t right)
{
    unsigned reports = VALGRIND_COUNT_ERRORS - reports_before;
    size_t unmoved = 0, due = 0, missed = 0;
    known(&answer, sizeof answer);
    for (int i = 0; i < held; i++) {
        struct buffer *it = &buffers[i];
        size_t secrets = tainted(it->at, it->bytes), changed = 0;
        known(it->at, it->bytes);
        /* A block stays as it was by chance once in 2^128 times, a lone byte once in 256: that is not asked of it. */
        for (size_t k = 0; k + 16 <= it->bytes; k += 16)
            changed += memcmp(it->at + k, it->before + k, 16) != 0;
        if (it->kind == 'b' || it->kind == 'o') {
            due += it->bytes;
            missed += it->bytes - secrets;
            unmoved += it->bytes / 16 - changed;
        }
        if (it->kind == 'z') {
            due += it->bytes;
            for (size_t k = 0; k < it->bytes; k++)
                missed += it->at[k] != 0;
            missed += secrets;
        }
        free(it->at);
        free(it->before);
    }
    held = 0;
    int idle = answer != right || missed || unmoved, answers = strstr(name, "_opened") || strstr(name, "_refused");
    const char *done = answers ? "answered" : due ? "clean" : "empty";
    const char *verdict = reports > (answers ? BRANCHES_OF_ANSWER : 0) ? "LEAK" : idle ? "VACUOUS" : done;
    printf("%s\t%s\t%s\n", name, wanted, verdict);
}

/* What is planted: each has to be found, before the calls and after them. The third leaks only in the last of its bytes. The fourth
   compares two halves one after the other, though it may give one answer. */
enum plant { ADDRESS, BRANCH, EARLY_EXIT, HALVES, NOTHING, HALF, REFUSAL };
static const char *const planted_names[] = {"planted_address", "planted_branch", "planted_early_exit", "planted_halves_opened",
                                            "planted_nothing", "planted_half", "planted_refusal"};
static volatile uint8_t table[256], sink;

__attribute__((noinline)) static uint64_t planted(enum plant it, const uint8_t *s, uint8_t *to)
{
    if (it == NOTHING)
        memset(to, 1, 16);
    for (int i = 0; i < (it == NOTHING ? 0 : it == HALF ? 8 : 16); i++)
        to[i] = s[i] ^ 0x5a;
    if (it == ADDRESS)
        to[0] = table[s[0]] ^ s[0];
    if (it == BRANCH)
        if (s[3] & 1)
            sink = 1;
    if (it == EARLY_EXIT)
        if (s[15] == 7)
            sink = 2;
    for (int i = 0; it == HALVES && i < 16; i += 8)
        if (s[i] == 7)
            sink = 3;
    return it != REFUSAL;
}

static void plants(void)
{
    for (enum plant it = ADDRESS; it <= REFUSAL; it++) {
        uint8_t *s = buffer('s', 16), *to = buffer('o', 16);
        begin(planted_names[it]);
        uint64_t answer = planted(it, s, to);
        end(planted_names[it], it < NOTHING ? "LEAK" : "VACUOUS", answer, 1);
    }
    uint8_t public = sink;
    known(&public, 1);
    known((void *)&sink, 1);
}

#include "calls.h"

int main(void)
{
    setvbuf(stdout, NULL, _IOLBF, 0);
    if (!RUNNING_ON_VALGRIND) {
        fprintf(stderr, "not under valgrind: this run shows nothing\n");
        return 3;
    }
    plants();
    calls();
    plants();
    printf("end\n");
    return 0;
}
