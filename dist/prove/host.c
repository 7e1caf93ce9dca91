/* What the code under proof is linked with: libc's three functions, and room for its buffers and its stack when a processor runs it
   (native.py). The proof itself uses the contracts of the three functions, not this code. */
#include <stddef.h>

unsigned char area[1 << 20] __attribute__((aligned(4096)));

void start(void)
{
}

void *memmove(void *to, const void *from, size_t count)
{
    unsigned char *a = to;
    const unsigned char *b = from;
    if (a < b)
        for (size_t i = 0; i < count; i++)
            a[i] = b[i];
    else
        while (count--)
            a[count] = b[count];
    return to;
}

void *memcpy(void *to, const void *from, size_t count)
{
    return memmove(to, from, count);
}

void *memset(void *to, int byte, size_t count)
{
    for (unsigned char *a = to; count--; a++)
        *a = (unsigned char) byte;
    return to;
}

// So that constants which follow lie at an address that isn't a multiple of anything by chance. Both links have another value (layout.py).
const unsigned char odd = ODD;
