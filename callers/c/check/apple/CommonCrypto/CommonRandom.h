/* What seal_random.c uses of Apple's header of this name, which Linux doesn't have. loader.c has the function. */
#pragma once
#include <stddef.h>
enum { kCCSuccess = 0 };
int CCRandomGenerateBytes(void *bytes, size_t count);
