/* The functions to which assembly for WebAssembly reports its branches and addresses (assembly.py). `enter` makes a call on a stack of its
 * own, and prints a line as the plugin of qemu writes it, after the word `seen`. This file itself reports nothing. */
#include <stdint.h>
#include <stdio.h>
#include <string.h>

static uint64_t branches, order, places;

static uint64_t mixed(uint64_t hash, uint64_t with)
{
    /* (One more, since 0 after 0 would be nothing.) */
    hash = (hash ^ (with + 1)) * 0x9e3779b97f4a7c15u;
    return hash ^ hash >> 29;
}

uint32_t report_table(uint32_t number)
{
    branches++;
    order = mixed(order, number);
    return number;
}

uint32_t report_branch(uint32_t condition)
{
    report_table(condition != 0);
    return condition;
}

uint32_t report_place(uint32_t address)
{
    places = mixed(places, address);
    return address;
}
#define REPORTED(copy) \
    void *report_##copy(void *to, const void *from, size_t count) \
    { \
        report_table(count); \
        report_place((uint32_t)from); \
        report_place((uint32_t)to); \
        return copy(to, from, count); \
    }
REPORTED(memcpy)
REPORTED(memmove)

void *report_memset(void *to, int what, size_t count)
{
    report_table(count);
    report_place((uint32_t)to);
    return memset(to, what, count);
}

/* WebAssembly has no registers that outlast a call. */
__attribute__((noinline)) int enter(void *top, int (*call)(void), void *registers)
{
    void *own;
    (void)registers;
    branches = order = places = 0;
    __asm__ volatile(".globaltype __stack_pointer, i32\nglobal.get __stack_pointer\nlocal.set %0" : "=r"(own));
    __asm__ volatile("local.get %0\nglobal.set __stack_pointer" : : "r"(top) : "memory");
    int status = call();
    __asm__ volatile("local.get %0\nglobal.set __stack_pointer" : : "r"(own) : "memory");
    printf("seen\t%llu\t%016llx\t%016llx\n", branches, order, places);
    return status;
}
