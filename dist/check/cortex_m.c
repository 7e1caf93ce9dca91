/* Where a program of the tests starts on a Cortex-M under qemu (mps2-an386 and others), on newlib, and how it ends. */
#include <stdio.h>

extern char top_of_stack[];
extern void _start(void);

/* The call of the debugger by which a program ends with a status (semihosting: SYS_EXIT_EXTENDED, ADP_Stopped_ApplicationExit). */
void _exit(int status)
{
    const int why[] = {0x20026, status};
    register int r0 __asm__("r0") = 0x20;
    register const int *r1 __asm__("r1") = why;
    for (;;)
        __asm__ volatile("bkpt 0xab" : "+r"(r0) : "r"(r1) : "memory");
}

static void fault(void)
{
    printf("the processor reports a fault\n");
    _exit(99);
}

/* The stack, reset, NMI and the faults. */
__attribute__((section(".vectors"), used)) static void (*const vectors[])(void) = {
    (void (*)(void))top_of_stack, _start, fault, fault, fault, fault, fault,
};
