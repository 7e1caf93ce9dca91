"""Lists faults in headers, in C files and in the Makefile. prove.cases_of_files has to refuse each, or a case of a call if it names one."""
from collections import namedtuple

# A pattern in a file of dist, and what it becomes; and the case.
WrongFile = namedtuple("WrongFile", "what build file found becomes case", defaults=[""])
AES, GCM = "include/fotsgure_aes.h", "include/fotsgure_gcm.h"
CHOOSE = "x86_64/choose_aes.c"

WRONG_FILES = [
    WrongFile("a shorter tag in the header", "x86_64/gcm", GCM, r"(GCM_TAG) 16", r"\1 12"),
    WrongFile("another number in the header", "x86_64/aes", AES, r"(#define FOTSGURE_AES_BLOCK 16)", r"\1\n#define FOTSGURE_AES_ROOM 8"),
    WrongFile("a smaller struct on one machine", "aarch64/gcm", GCM, r"#if defined\(__arm__\)", r"\g<0> || defined(__aarch64__)"),
    WrongFile("a struct that isn't aligned", "riscv64/aes_narrow", AES, r"struct (fotsgure_aes \{)", r"struct __attribute__((packed)) \1"),
    WrongFile("parameters in another order", "aarch64/aes", AES,
              r"const uint8_t \*message, size_t message_length,(\s+)const uint8_t \*tag, size_t tag_length",
              r"const uint8_t *tag, size_t tag_length,\1const uint8_t *message, size_t message_length", "cmac_verify 17 16"),
    WrongFile("a parameter that isn't written to", "aarch64/aes", AES, r"(?<!const )uint8_t tag\[", r"const \g<0>", "cmac 16"),
    WrongFile("a library with AVX2 where a loader wants SSE4", "x86_64/aes", "Makefile", r"x86-64-v3", r"x86-64-v2"),
    WrongFile("a stack that may be run", "x86_64/aes", "Makefile", r"-z,noexecstack", r"-z,execstack"),
    WrongFile("code that runs when a program starts", "x86_64/aes", "Makefile", r"-z,now -Wl", r"-z,now -Wl,-init=fotsgure_aes_wipe -Wl"),
    WrongFile("functions of libc that the loader finds at their first use", "aarch64/aes", "Makefile", r"-z,now", r"-z,lazy"),
    WrongFile("a constructor in the file that chooses a build", "x86_64/aes", CHOOSE, r"\Z",
              r'\n__attribute__((constructor)) static void first(void)\n{\n    __asm__ volatile ("");\n}\n'),
    WrongFile("another member of a static library", "riscv32/aes", "Makefile", r"members = \$\(OUT\)/\$\(1\)\.o",
              r"$(OUT)/version.o: ; printf '.globl fotsgure_aes_version\\nfotsgure_aes_version: ret\\n' | $(CC) -c -x assembler - -o $@\n"
              r"\g<0> $(OUT)/version.o"),
    WrongFile("a file in C in the library that has none", "windows_x86_64/aes", "Makefile", r"(?m)^more_gcm :=",
              r"more_aes = $(OUT)/seal_random.o\n\g<0>"),
    WrongFile("an export that isn't there", "x86_64/aes", CHOOSE, r"(?m)^.*fotsgure_aes_wipe.*\n", r""),
]
