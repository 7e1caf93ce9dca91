/* Which of a library's builds this processor runs. Each export is a function here that jumps to that of one build. */
#include <cpuid.h>
#include <stdatomic.h>

/* For every processor; for x86-64-v2, whose byte shuffle the library needs; and for x86-64-v3. */
enum { NOT_ASKED, V1, V2, V3 };
/* The last build that a library has: tests have fewer. */
#ifndef FOTSGURE_LAST_BUILD
#define FOTSGURE_LAST_BUILD 3
#endif

/* Whether the processor has what the second build uses of x86-64-v2. c-check runs it on an emulated one that has no more. */
static int has_v2(void)
{
    unsigned a, b, c, d;
    return __get_cpuid(1, &a, &b, &c, &d) && (c & bit_SSSE3) && (c & bit_SSE4_1);
}

/* Whether processor and system have what x86-64-v3 adds: registers of 256 bits that the system saves (XCR0, bits 1 and 2), AVX,
 * AVX2, BMI1, BMI2, F16C, FMA, LZCNT and MOVBE. */
static int has_v3(void)
{
    const unsigned first = bit_FMA | bit_MOVBE | bit_OSXSAVE | bit_AVX | bit_F16C, seventh = bit_BMI | bit_AVX2 | bit_BMI2;
    unsigned a, b, c, d, saved;
    if (!__get_cpuid(1, &a, &b, &c, &d) || (c & first) != first)
        return 0;
    __asm__ volatile("xgetbv" : "=a"(saved), "=d"(d) : "c"(0));
    if ((saved & 6) != 6 || !__get_cpuid_count(7, 0, &a, &b, &c, &d) || (b & seventh) != seventh)
        return 0;
    return __get_cpuid(0x80000001, &a, &b, &c, &d) && (c & bit_LZCNT) != 0;
}

static atomic_int known = NOT_ASKED;

__attribute__((noinline, cold)) static int ask(void)
{
    int found = !has_v2() ? V1 : !has_v3() ? V2 : V3;
    if (found > FOTSGURE_LAST_BUILD)
        found = FOTSGURE_LAST_BUILD;
    atomic_store_explicit(&known, found, memory_order_relaxed);
    return found;
}

/* The word is all that threads share, and each of them would write the same. */
static inline int build(void)
{
    int found = atomic_load_explicit(&known, memory_order_relaxed);
    return found == NOT_ASKED ? ask() : found;
}

/* The names of builds that the library doesn't have stand for one that it has; `build` never chooses them. On Apple's systems there is no
 * first build: each processor that macOS 10.12 or later runs on has SSSE3 and SSE4.1, and clang uses them there unless told otherwise. */
#ifdef __APPLE__
#define OF_V1(name) name##_v2
#else
#define OF_V1(name) name##_v1
#endif
#if FOTSGURE_LAST_BUILD < 2
#define OF_V2(name) OF_V1(name)
#else
#define OF_V2(name) name##_v2
#endif
#if FOTSGURE_LAST_BUILD < 3
#define OF_V3(name) OF_V2(name)
#else
#define OF_V3(name) name##_v3
#endif

/* A name in parentheses is no macro of the header. */
#define EITHER(result, name, parameters, arguments) \
    BUILDS(name) \
    result (name) parameters { return (CHOSEN(name)) arguments; }
#define EITHER_VOID(name, parameters, arguments) \
    BUILDS(name) \
    void (name) parameters { (CHOSEN(name)) arguments; }
#define CHOSEN(name) build() == V3 ? OF_V3(name) : build() == V2 ? OF_V2(name) : OF_V1(name)
#define BUILDS(name) extern __attribute__((visibility("hidden"))) __typeof__(name) name##_v1, name##_v2, name##_v3;
