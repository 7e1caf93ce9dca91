/* The struct in which the module counts the keys that a process has set. It begins with a mark, by which fotsgure-openssl finds it in the
 * memory of the process. */
#ifndef FOTSGURE_SERVED_H
#define FOTSGURE_SERVED_H
#include <stdatomic.h>
#include <stdint.h>

#define SERVED_MARK "fotsgure.so: keys that were set"

struct served {
    char mark[sizeof SERVED_MARK];
    _Atomic uint64_t keys;
};

#endif
