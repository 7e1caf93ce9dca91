/* What the program aes-kat needs from C beside libc's own calls: memory that grows, and the number of the last error. */
#include <errno.h>
#include <stdbool.h>
#include <stddef.h>
#include <stdlib.h>

/* Memory, if there was some. */
struct memory {
    bool is_there;
    void *at;
};

static struct memory memory_at(void *at)
{
    return (struct memory){at != NULL, at};
}

/* malloc's memory is in line for every type, so for the alignments that are asked for: at most 16. */
struct memory rattle_alloc(size_t size, size_t alignment)
{
    return memory_at(malloc(size != 0 ? size : alignment));
}

struct memory rattle_realloc(void *at, size_t old_size, size_t size, size_t alignment)
{
    (void)old_size;
    return memory_at(realloc(at, size != 0 ? size : alignment));
}

void rattle_dealloc(void *at)
{
    free(at);
}

int rattle_errno(void)
{
    return errno;
}
