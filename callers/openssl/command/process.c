/* Says whether a process has loaded the module, and how many keys it has set with it. A loaded module is among the files that are mapped
 * into the memory of the process. The number of keys is read from that memory. */
#define _DEFAULT_SOURCE
#include "command.h"
#include "../module/served.h"

#include <fcntl.h>
#include <stdio.h>
#include <stdlib.h>
#include <string.h>
#include <unistd.h>

#define DELETED " (deleted)" /* what Linux adds to the path of a file that is gone, or was replaced */

/* The module in a process, by the lines of its maps. */
struct found {
    char path[4096];
    int is_deleted;
    unsigned long from, to; /* the part of its memory that may be written */
};

/* The path in a line of maps if it is that of a module, or NULL. The line is cut. */
static const char *module_in(char *line, int *is_deleted)
{
    char *path = strchr(line, '/'), *end;
    line[strcspn(line, "\n")] = 0;
    if (!path)
        return NULL;
    end = path + strlen(path);
    *is_deleted = end - path > (long)strlen(DELETED) && strcmp(end - strlen(DELETED), DELETED) == 0;
    if (*is_deleted)
        *(end -= strlen(DELETED)) = 0;
    return end - path > (long)strlen(MODULE_NAME) && strcmp(end - strlen("/" MODULE_NAME), "/" MODULE_NAME) == 0 ? path : NULL;
}

/* Returns 0 if the maps can't be read. */
static int read_maps(const char *process, struct found *found)
{
    char line[sizeof found->path + 100], rights[5];
    int is_deleted;
    unsigned long from, to;
    snprintf(line, sizeof line, "/proc/%s/maps", process);
    FILE *maps = fopen(line, "r");
    if (!maps)
        return perror(line), 0;
    while (fgets(line, sizeof line, maps)) {
        const char *path = module_in(line, &is_deleted);
        if (!path || sscanf(line, "%lx-%lx %4s", &from, &to, rights) != 3)
            continue;
        snprintf(found->path, sizeof found->path, "%s", path);
        found->is_deleted = is_deleted;
        if (rights[1] == 'w')
            found->from = from, found->to = to;
    }
    int done = !ferror(maps);
    if (!done)
        fprintf(stderr, "the maps of %s can't be read\n", process);
    fclose(maps);
    return done;
}

/* How many keys the process has set, or -1 if its memory can't be read. */
static long long keys_set(const char *process, const struct found *found)
{
    char path[64];
    size_t length = found->to - found->from;
    long long keys = -1;
    struct served served;
    snprintf(path, sizeof path, "/proc/%s/mem", process);
    int memory = open(path, O_RDONLY);
    unsigned char *bytes = memory >= 0 ? malloc(length) : NULL;
    if (bytes && pread(memory, bytes, length, (off_t)found->from) == (ssize_t)length) {
        for (size_t at = 0; keys < 0 && at + sizeof served <= length; at += _Alignof(struct served)) {
            if (memcmp(bytes + at, SERVED_MARK, sizeof SERVED_MARK) == 0) {
                memcpy(&served, bytes + at, sizeof served);
                keys = (long long)served.keys;
            }
        }
    }
    free(bytes);
    if (memory >= 0)
        close(memory);
    return keys;
}

enum exit_status of_process(const char *process)
{
    struct found found = {.path = ""};
    if (!read_maps(process, &found))
        return UNKNOWN;
    if (!*found.path) {
        printf("%s hasn't loaded " MODULE_NAME "\n", process);
        return NOT_SERVED;
    }
    printf("%s has loaded %s%s\n", process, found.path, found.is_deleted ? ", and that file is gone by now: restart it" : "");
    long long keys = keys_set(process, &found);
    if (keys < 0)
        printf("How many keys it has set can't be seen: ask as root\n");
    else
        printf("Keys that it has set with the module: %lld (each process counts its own)\n", keys);
    return found.is_deleted ? REPLACED : SERVED;
}
