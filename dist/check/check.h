/* What the tests share: they count what holds and what fails, read hex digits, and end with the line
 * `PROGRAM: N passed, M failed`. */
#ifndef CHECK_H
#define CHECK_H

#include <stdint.h>
#include <stdio.h>

/* The Makefile names the program, and by that the build that it tests. Otherwise it is the source file. */
#ifndef FOTSGURE_CHECK_NAME
#define FOTSGURE_CHECK_NAME __BASE_FILE__
#endif

static int passed, failed;

/* Counts, and returns whether it failed. */
static inline int fails(int holds)
{
    if (holds)
        passed++;
    else
        failed++;
    return !holds;
}

/* Prints what failed, with a number: a length, a row or the like. */
static inline void expect(int holds, const char *what, size_t number)
{
    if (fails(holds))
        printf("failed: %s (%zu)\n", what, number);
}

/* Returns how many bytes the digits are. */
static inline size_t from_hex(uint8_t *bytes, const char *digits)
{
    unsigned byte;
    size_t count = 0;
    for (; sscanf(digits, "%2x", &byte) == 1; digits += 2)
        bytes[count++] = (uint8_t)byte;
    return count;
}

/* Adds bytes to a sum of sixteen, in which every byte counts. */
static inline void add_to_sum(uint8_t *sum, const uint8_t *bytes, size_t count)
{
    for (size_t i = 0; i < count; i++)
        sum[i % 16] = (uint8_t)(sum[i % 16] * 3 + bytes[i]);
}

/* Prints the last line, and returns the program's status. */
static inline int finish(void)
{
    printf("%s: %d passed, %d failed\n", FOTSGURE_CHECK_NAME, passed, failed);
    return failed != 0;
}

#endif
