/* Makes calls on a stack of its own, one under each of several keys, and counts the bytes that they leave there and in registers. */
#ifndef LEFT_H
#define LEFT_H

#include <stddef.h>
#include <stdint.h>

enum { RUNS = 4, MOST_ALLOWED = 8320 };

/* How many bytes of what a run left other keys leave otherwise: on the stack those that may stay, and all others; and in registers. */
struct left {
    size_t allowed, secret, registers;
};

/* Makes the call of a run, and keeps what it leaves. Returns what the call returns. */
int enter_on_stack(int run, int (*call)(void));

/* Allows these bytes to stay after a run that was made. */
void allow_bytes(int run, const void *at, size_t length);

/* How deep the stack of the first run was, in bytes. */
size_t depth_of_stack(void);

/* Counts what a run left, when all have been made, by the depth of the stack. */
struct left left_by(int run, size_t deep);

#endif
