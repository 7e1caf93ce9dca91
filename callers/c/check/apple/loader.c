/* Runs a program for macOS on Linux, on the processor that both are for. It maps the program and the dylibs that it names, changes their
 * pointers by the opcodes that dyld reads, and finds exports by the tries that dyld reads. The program calls Linux's C library, with whose
 * headers it was compiled. What isn't known here is refused. It shows nothing about Apple's linker, dyld or C library.
 * usage: loader PROGRAM WORD ..    (the status and the output are the program's) */
#define _GNU_SOURCE
#include <dlfcn.h>
#include <fcntl.h>
#include <stdarg.h>
#include <stdint.h>
#include <stdio.h>
#include <stdlib.h>
#include <string.h>
#include <sys/mman.h>
#include <sys/random.h>
#include <sys/stat.h>
#include <unistd.h>

/* The numbers of <mach-o/loader.h>. */
enum { MAGIC = 0xFEEDFACF, SEGMENT = 0x19, DYLIB = 0xC, RPATH = 0x1C, INFO = 0x22, MAIN = 0x28, HEAD = 32, REQUIRED = 1 << 31 };
enum { READ = 1, WRITE = 2, EXECUTE = 4 };
#if defined __aarch64__
#define PROCESSOR 0x0100000C
#else
#define PROCESSOR 0x01000007
#endif

struct segment {
    char name[16];
    uint64_t address, size, offset, filled;
    uint32_t maximum, protection;
};

struct image {
    char name[512];
    const unsigned char *file, *trie;
    char *base; /* where its lowest address is */
    uint64_t lowest, entry;
    struct segment segments[8];
    struct image *libraries[8];
    int segment_count, library_count;
};

static struct image images[8];
static int image_count;

static void fail(const char *what, const char *of)
{
    fprintf(stderr, "loader: %s %s\n", what, of);
    exit(125);
}

/* What programs call and Linux's C library doesn't have. */
void dyld_stub_binder(void)
{
    fail("a function is bound", "at its first use");
}

int CCRandomGenerateBytes(void *bytes, size_t count)
{
    return getrandom(bytes, count, 0) == (ssize_t)count ? 0 : -1;
}

int memset_s(void *bytes, size_t room, int byte, size_t count)
{
    return !memset(bytes, byte, count < room ? count : room);
}

uintptr_t __stack_chk_guard = 0x5bd1e995;

unsigned features_of_processor(void)
{
#if defined __x86_64__
    extern struct {
        unsigned vendor, type, subtype, features;
    } __cpu_model; /* in gcc's library, with the same numbers as in clang's */
    __builtin_cpu_init();
    return __cpu_model.features;
#else
    return 0;
#endif
}

/* On ARM Apple passes variable arguments on the stack, each in eight bytes. */
#if defined __aarch64__
#define STACKED(name, last, by, ...) \
    __asm__(".globl stacked_" #name "\nstacked_" #name ": mov x" #last ", sp\n b by_list_" #name "\n"); \
    int by_list_##name(__VA_ARGS__, void *stack) \
    { \
        va_list list = {.__stack = stack}; \
        return by; \
    }
STACKED(printf, 1, vprintf(form, list), const char *form)
STACKED(fprintf, 2, vfprintf(to, form, list), FILE *to, const char *form)
STACKED(__isoc99_sscanf, 2, vsscanf(text, form, list), const char *text, const char *form)
#endif

static uint64_t number(const unsigned char **at)
{
    uint64_t value = 0;
    for (int shift = 0;; shift += 7) {
        value |= (uint64_t)(**at & 127) << shift;
        if (!(*(*at)++ & 128))
            return value;
    }
}

/* The export that has a name, or NULL. A node of the trie is what it exports, if anything, and edges to other nodes. */
static void *export_of(const struct image *it, const char *name)
{
    for (const unsigned char *node = it->trie; node;) {
        uint64_t size = number(&node);
        if (!*name)
            return size && number(&node) == 0 ? it->base + number(&node) : NULL;
        node += size;
        const unsigned char *next = NULL;
        for (int edges = *node++; edges && !next; edges--) {
            size_t length = strlen((const char *)node);
            int leads = !strncmp((const char *)node, name, length);
            node += length + 1;
            uint64_t offset = number(&node);
            if (leads)
                next = it->trie + offset, name += length;
        }
        node = next;
    }
    return NULL;
}

/* A function or variable by its name in C, which begins with `_` in Mach-O. */
static void *of_linux(const char *name)
{
    char stacked[64];
    snprintf(stacked, sizeof stacked, "stacked_%s", name);
    void *found = dlsym(RTLD_DEFAULT, stacked);
    return found ? found : dlsym(RTLD_DEFAULT, name);
}

/* What a name stands for in the dylib of that number. Without a number, it is the system's. */
static uint64_t bound(const struct image *it, int library, const char *name)
{
    void *found = library ? export_of(it->libraries[library - 1], name) : of_linux(name + (*name == '_'));
    if (!found)
        fail("nothing is called", name);
    return (uint64_t)found;
}

static char *place(const struct image *it, int segment, uint64_t offset)
{
    return it->base + it->segments[segment].address - it->lowest + offset;
}

/* Adds to each pointer how far the image is from where it was linked. */
static void rebase(const struct image *it, const unsigned char *at, uint32_t size)
{
    const unsigned char *end = at + size;
    uint64_t offset = 0, slide = (uint64_t)it->base - it->lowest;
    int segment = 0;
    while (at < end) {
        int low = *at & 15;
        uint64_t count = 0, skip = 0;
        switch (*at++ >> 4) {
        case 0: return;
        case 1: break; /* the type: a pointer */
        case 2: segment = low, offset = number(&at); break;
        case 3: offset += number(&at); break;
        case 4: offset += 8u * (unsigned)low; break;
        case 5: count = (unsigned)low; break;
        case 6: count = number(&at); break;
        case 7: count = 1, skip = number(&at); break;
        case 8: count = number(&at), skip = number(&at); break;
        default: fail("an unknown rebase in", it->name);
        }
        for (; count; count--, offset += 8 + skip)
            *(uint64_t *)place(it, segment, offset) += slide;
    }
}

/* Sets each pointer to what is exported elsewhere. Those that dyld may set later are set now. */
static void bind(const struct image *it, const unsigned char *at, uint32_t size)
{
    const unsigned char *end = at + size;
    const char *name = "";
    uint64_t offset = 0;
    int segment = 0, library = 0;
    while (at < end) {
        int low = *at & 15;
        uint64_t count = 0, skip = 0;
        switch (*at++ >> 4) {
        case 0: break; /* ends the first ones, or one of the later ones */
        case 1: library = low; break;
        case 3: library = 0; break;
        case 4: name = (const char *)at, at += strlen(name) + 1; break;
        case 5: break; /* the type: a pointer */
        case 7: segment = low, offset = number(&at); break;
        case 8: offset += number(&at); break;
        case 9: count = 1; break;
        case 10: count = 1, skip = number(&at); break;
        case 11: count = 1, skip = 8u * (unsigned)low; break;
        case 12: count = number(&at), skip = number(&at); break;
        default: fail("an unknown bind in", it->name);
        }
        for (; count; count--, offset += 8 + skip)
            *(uint64_t *)place(it, segment, offset) = bound(it, library, name);
    }
}

/* The commands of the image, one after another. */
static const uint32_t *next_command(const struct image *it, const uint32_t *last)
{
    const uint32_t *head = (const void *)it->file, *end = head + (HEAD + head[5]) / 4, *next = last ? last + last[1] / 4 : head + HEAD / 4;
    return next < end ? next : NULL;
}

static void map_segments(struct image *it)
{
    uint64_t highest = 0;
    it->lowest = UINT64_MAX;
    for (const uint32_t *command = NULL; (command = next_command(it, command));) {
        if (command[0] != SEGMENT)
            continue;
        struct segment *one = &it->segments[it->segment_count++];
        memcpy(one, command + 2, sizeof *one);
        if (!one->protection) /* __PAGEZERO */
            continue;
        it->lowest = one->address < it->lowest ? one->address : it->lowest;
        highest = one->address + one->size > highest ? one->address + one->size : highest;
        if ((one->protection & WRITE) && (one->protection & EXECUTE))
            fail("a segment is both writable and executable in", it->name);
    }
    it->base = mmap(NULL, highest - it->lowest, PROT_READ | PROT_WRITE, MAP_PRIVATE | MAP_ANONYMOUS, -1, 0);
    if (it->base == MAP_FAILED)
        fail("no memory for", it->name);
    for (int i = 0; i < it->segment_count; i++)
        if (it->segments[i].protection)
            memcpy(place(it, i, 0), it->file + it->segments[i].offset, it->segments[i].filled);
}

/* After the pointers are set, __DATA_CONST is only read. */
static void protect_segments(const struct image *it)
{
    for (int i = 0; i < it->segment_count; i++) {
        const struct segment *one = &it->segments[i];
        int is_set = !strncmp(one->name, "__DATA_CONST", sizeof one->name);
        int protection = (one->protection & READ ? PROT_READ : 0) | (one->protection & WRITE && !is_set ? PROT_WRITE : 0) |
            (one->protection & EXECUTE ? PROT_EXEC : 0);
        if (protection && mprotect(place(it, i, 0), one->size, protection))
            fail("can't protect", it->name);
        __builtin___clear_cache(place(it, i, 0), place(it, i, one->size));
    }
}

static const unsigned char *mapped(const char *name)
{
    struct stat about;
    int file = open(name, O_RDONLY);
    const uint32_t *head = file < 0 || fstat(file, &about) ? MAP_FAILED : mmap(NULL, (size_t)about.st_size, PROT_READ, MAP_PRIVATE, file, 0);
    if (head == MAP_FAILED)
        fail("can't read", name);
    if (head[0] != MAGIC || head[1] != PROCESSOR)
        fail("not for macOS on this processor:", name);
    return (const unsigned char *)head;
}

/* A program names @rpath/DYLIB, and says that @rpath is its own folder. */
static struct image *load(const char *name)
{
    struct image *it = &images[image_count++];
    const uint32_t *info = NULL;
    snprintf(it->name, sizeof it->name, "%s", name);
    it->file = mapped(name);
    map_segments(it);
    for (const uint32_t *command = NULL; (command = next_command(it, command));) {
        const char *words = (const char *)command + command[2];
        char path[1024];
        if (command[0] == (RPATH | (uint32_t)REQUIRED) && strcmp(words, "@loader_path"))
            fail("another folder of dylibs:", words);
        if (command[0] == DYLIB) {
            if (strncmp(words, "@rpath/", 7))
                fail("another dylib:", words);
            snprintf(path, sizeof path, "%.*s/%s", (int)(strrchr(name, '/') - name), name, words + 7);
            it->libraries[it->library_count++] = load(path);
        }
        if (command[0] == (INFO | (uint32_t)REQUIRED))
            info = command;
        if (command[0] == (MAIN | (uint32_t)REQUIRED))
            it->entry = *(const uint64_t *)(command + 2);
    }
    if (!info)
        fail("no opcodes for dyld in", name);
    it->trie = it->file + info[10];
    rebase(it, it->file + info[2], info[3]);
    bind(it, it->file + info[4], info[5]);
    bind(it, it->file + info[8], info[9]);
    protect_segments(it);
    return it;
}

int main(int count, char **words)
{
    if (count < 2 || !strchr(words[1], '/'))
        fail("usage: loader PROGRAM WORD ..,", "where PROGRAM has a /");
    struct image *it = load(words[1]);
    if (!it->entry)
        fail("no program:", words[1]);
    int (*entry)(int, char **, char **) = (void *)(it->base + it->entry);
    exit(entry(count - 1, words + 1, environ));
}
