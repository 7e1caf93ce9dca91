/* The choice between the builds, by threads that all choose at once. It is compared with what the compiler's own functions say
 * of the processor. */
#include "choose.h"

#include <pthread.h>
#include <stdio.h>

#include "check.h"

static void *asks(void *found)
{
    *(int *)found = build();
    return NULL;
}

int main(void)
{
    enum { THREADS = 16 };
    pthread_t threads[THREADS];
    int found[THREADS], started = 0;
    __builtin_cpu_init();
    int wanted = !__builtin_cpu_supports("ssse3") || !__builtin_cpu_supports("sse4.1") ? V1 :
        __builtin_cpu_supports("avx2") && __builtin_cpu_supports("bmi") && __builtin_cpu_supports("bmi2") &&
        __builtin_cpu_supports("fma") ? V3 : V2;
    while (started < THREADS && !pthread_create(&threads[started], NULL, asks, &found[started]))
        started++;
    for (int i = 0; i < started; i++) {
        pthread_join(threads[i], NULL);
        expect(found[i] == wanted, "the build that a thread chose", (size_t)i);
    }
    expect(started == THREADS && build() == wanted, "all threads, and the build that was chosen", (size_t)started);
    printf("on this processor the libraries choose the build for x86-64-v%d\n", wanted);
    return finish();
}
