/* What a shared library asks of the loader. It may have no text relocation, no executable stack, no segment that is both
 * writable and executable, and no function that is bound at its first use. Its exports are exactly those that are named.
 * usage: elf LIBRARY EXPORT ..    (the last line begins with the name of the library) */
#include <elf.h>
#include <stdio.h>
#include <stdlib.h>
#include <string.h>

#include "check.h"

/* The file is of the machine that this program is of. */
#if __SIZEOF_POINTER__ == 8
#define ELF(type) Elf64_##type
#define CLASS ELFCLASS64
#else
#define ELF(type) Elf32_##type
#define CLASS ELFCLASS32
#endif

static void expect_of(int holds, const char *what, const char *of)
{
    if (fails(holds))
        printf("failed: %s%s\n", what, of);
}

static unsigned char *whole(const char *name, size_t *size)
{
    FILE *file = fopen(name, "rb");
    unsigned char *bytes = NULL;
    if (file && !fseek(file, 0, SEEK_END) && (*size = (size_t)ftell(file)) && (bytes = malloc(*size))) {
        rewind(file);
        if (fread(bytes, 1, *size, file) != *size)
            bytes = NULL;
    }
    if (!bytes)
        perror(name), exit(2);
    fclose(file);
    return bytes;
}

static void segments(const unsigned char *bytes, const ELF(Ehdr) *head)
{
    const ELF(Phdr) *segment = (const void *)(bytes + head->e_phoff);
    int stack = 0, text = 0, both = 0, now = 0;
    for (int i = 0; i < head->e_phnum; i++) {
        stack |= segment[i].p_type == PT_GNU_STACK && !(segment[i].p_flags & PF_X);
        both |= segment[i].p_type == PT_LOAD && (segment[i].p_flags & PF_X) && (segment[i].p_flags & PF_W);
        if (segment[i].p_type != PT_DYNAMIC)
            continue;
        const ELF(Dyn) *entry = (const void *)(bytes + segment[i].p_offset);
        for (; entry->d_tag != DT_NULL; entry++) {
            text |= entry->d_tag == DT_TEXTREL || (entry->d_tag == DT_FLAGS && (entry->d_un.d_val & DF_TEXTREL));
            now |= entry->d_tag == DT_BIND_NOW || (entry->d_tag == DT_FLAGS && (entry->d_un.d_val & DF_BIND_NOW)) ||
                (entry->d_tag == DT_FLAGS_1 && (entry->d_un.d_val & DF_1_NOW));
        }
    }
    expect_of(stack, "the stack is executable", "");
    expect_of(!both, "a segment is both writable and executable", "");
    expect_of(!text, "the code is relocated", "");
    expect_of(now, "functions are bound at their first use", "");
}

static void exports(const unsigned char *bytes, const ELF(Ehdr) *head, int count, char **names)
{
    const ELF(Shdr) *section = (const void *)(bytes + head->e_shoff);
    int found = 0;
    for (int i = 0; i < head->e_shnum; i++) {
        if (section[i].sh_type != SHT_DYNSYM)
            continue;
        const ELF(Sym) *symbol = (const void *)(bytes + section[i].sh_offset);
        const char *text = (const char *)bytes + section[section[i].sh_link].sh_offset;
        for (size_t n = 1; n < section[i].sh_size / sizeof *symbol; n++) {
            int k = 0;
            if (symbol[n].st_shndx == SHN_UNDEF || ELF32_ST_BIND(symbol[n].st_info) == STB_LOCAL)
                continue;
            while (k < count && strcmp(names[k], text + symbol[n].st_name))
                k++;
            expect_of(k < count, "an export that the header doesn't declare: ", text + symbol[n].st_name);
            found++;
        }
    }
    expect_of(count && found == count, "there are other exports than the header declares", "");
}

int main(int count, char **words)
{
    size_t size;
    if (count < 2)
        return 2;
    unsigned char *bytes = whole(words[1], &size);
    const ELF(Ehdr) *head = (const void *)bytes;
    if (size < sizeof *head || memcmp(bytes, ELFMAG, SELFMAG) || bytes[EI_CLASS] != CLASS || head->e_type != ET_DYN)
        return fprintf(stderr, "%s is no shared library\n", words[1]), 2;
    segments(bytes, head);
    exports(bytes, head, count - 2, words + 2);
    free(bytes);
    printf("%s: ", words[1]);
    return finish();
}
