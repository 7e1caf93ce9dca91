/* Where a program of the tests starts on 32-bit RISC-V: as a program of Linux, which qemu-riscv32 runs, on picolibc. */
#include <stdio.h>
#include <stdlib.h>
#include <string.h>

enum { WRITE = 64, EXIT = 93 };

static long call(long number, long first, long second, long third)
{
    register long a0 __asm__("a0") = first, a1 __asm__("a1") = second, a2 __asm__("a2") = third, a7 __asm__("a7") = number;
    __asm__ volatile("ecall" : "+r"(a0) : "r"(a1), "r"(a2), "r"(a7) : "memory");
    return a0;
}

static int put(char letter, FILE *file)
{
    (void)file;
    return call(WRITE, 1, (long)&letter, 1) == 1 ? letter : EOF;
}

static FILE output = FDEV_SETUP_STREAM(put, NULL, NULL, _FDEV_SETUP_WRITE);
FILE *const stdout = &output;

_Noreturn void _exit(int status)
{
    for (;;)
        call(EXIT, status, 0, 0);
}

void abort(void)
{
    _exit(99);
}

extern int main(void);
extern char __bss_start[], __bss_end[];

__attribute__((used)) static void begin(void)
{
    memset(__bss_start, 0, (size_t)(__bss_end - __bss_start));
    exit(main());
}

__asm__(".globl _start\n_start: .option push\n.option norelax\nla gp, __global_pointer$\n.option pop\nandi sp, sp, -16\ncall begin");
