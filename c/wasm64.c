/* What a module of WebAssembly has no C library for. The calls of the library need these three, and those of the compiler's runtime. */
#include <stddef.h>

_Noreturn void abort(void) { __builtin_trap(); }

int memcmp(const void *a, const void *b, size_t len) {
    const unsigned char *x = a, *y = b;
    for (; len; len--, x++, y++)
        if (*x != *y)
            return *x < *y ? -1 : 1;
    return 0;
}

int bcmp(const void *a, const void *b, size_t len) { return memcmp(a, b, len); }
