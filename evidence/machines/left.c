/* What calls leave (left.h): their stack is filled with a pattern before each call and copied after it. The copies are compared. */
#define _GNU_SOURCE
#include "left.h"

#include <stdlib.h>
#include <string.h>

enum { STACK = 1 << 14, WORDS = STACK / sizeof(size_t), REGISTERS = 1024, PIECE = 4 };
static const size_t FILLED = (size_t)0xa5a5a5a5a5a5a5a5u;

/* Where the call that runs now has its stack, and its registers are stored. */
static struct room {
    size_t stack[WORDS] __attribute__((aligned(64)));
    uint8_t registers[REGISTERS];
} room;

/* What each run left, on the stack and after that in the registers, and which bytes may stay. */
static struct image {
    union {
        size_t words[WORDS];
        uint8_t bytes[STACK + REGISTERS];
    } left;
    uint8_t allowed[MOST_ALLOWED];
    size_t allowed_bytes;
} images[RUNS];

/* Makes a call on a stack of its own, and stores the registers after it: enter.S. */
extern int enter(void *top, int (*call)(void), void *registers);

int enter_on_stack(int run, int (*call)(void))
{
    struct image *image = &images[run];
    int returned;
    for (size_t i = 0; i < WORDS; i++)
        room.stack[i] = FILLED;
    returned = enter(room.stack + WORDS, call, room.registers);
    memcpy(image->left.bytes + STACK, room.registers, REGISTERS);
    /* (By words, since an emulator follows each access.) */
    for (size_t i = 0; i < WORDS; i++)
        image->left.words[i] = room.stack[i];
    image->allowed_bytes = 0;
    return returned;
}

void allow_bytes(int run, const void *at, size_t length)
{
    struct image *image = &images[run];
    if (length > MOST_ALLOWED - image->allowed_bytes)
        abort();
    memcpy(image->allowed + image->allowed_bytes, at, length);
    image->allowed_bytes += length;
}

size_t depth_of_stack(void)
{
    size_t deep = STACK;
    while (deep && images[0].left.words[WORDS - deep / sizeof(size_t)] == FILLED)
        deep -= sizeof(size_t);
    return deep;
}

/* Whether `length` bytes are the same under all keys. */
static int is_same(size_t at, size_t length)
{
    int same = 1;
    for (int other = 1; other < RUNS; other++)
        same &= memcmp(images[other].left.bytes + at, images[0].left.bytes + at, length) == 0;
    return same;
}

/* Whether a word has nothing but one or two bytes that may stay: its first, its last, or its first two. A machine of 32 bits may keep bytes
 * of a message or a tag so. In a long message every byte occurs, so this shows something of short messages only. */
static int is_alone(const struct image *image, size_t at)
{
    const uint8_t *it = image->left.bytes + at / 4 * 4;
    if (!it[0] && !it[1] && !it[2])
        return memchr(image->allowed, it[3], image->allowed_bytes) != NULL;
    size_t length = it[1] ? 2 : 1;
    return !it[2] && !it[3] && memmem(image->allowed, image->allowed_bytes, it, length);
}

/* Bytes that may stay are found by pieces. The search begins 64 bytes below the deepest place. */
struct left left_by(int run, size_t deep)
{
    const struct image *image = &images[run];
    const uint8_t *bytes = image->left.bytes, *end = image->allowed + image->allowed_bytes;
    struct left left = {0, 0, 0};
    for (size_t i = deep + 64 < STACK ? (STACK - deep - 64) / 64 * 64 : 0, piece; i < STACK; i += piece) {
        piece = i % 64 == 0 && is_same(i, 64) ? 64 : 1;
        if (piece == 64 || is_same(i, 1))
            continue;
        const uint8_t *at = i + PIECE > STACK ? NULL : memmem(image->allowed, image->allowed_bytes, bytes + i, PIECE);
        for (; at && at + piece < end && i + piece < STACK && at[piece] == bytes[i + piece];)
            piece++;
        *(at || is_alone(image, i) ? &left.allowed : &left.secret) += piece;
    }
    for (size_t i = 0; i < REGISTERS; i++)
        left.registers += !is_same(STACK + i, 1);
    return left;
}
