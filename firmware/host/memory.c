/* The memory functions, byte by byte. */
#include "memory.h"

#include <stdint.h>

void *memcpy(void *to, const void *from, size_t n) {
    uint8_t *t = to;
    const uint8_t *f = from;
    for (size_t i = 0; i < n; i++) t[i] = f[i];
    return to;
}

void *memmove(void *to, const void *from, size_t n) {
    uint8_t *t = to;
    const uint8_t *f = from;
    if ((uintptr_t)to <= (uintptr_t)from) return memcpy(to, from, n);
    while (n-- > 0) t[n] = f[n];
    return to;
}

void *memset(void *to, int byte, size_t n) {
    uint8_t *t = to;
    for (size_t i = 0; i < n; i++) t[i] = (uint8_t)byte;
    return to;
}

int memcmp(const void *one, const void *other, size_t n) {
    const uint8_t *a = one, *b = other;
    for (size_t i = 0; i < n; i++)
        if (a[i] != b[i]) return a[i] < b[i] ? -1 : 1;
    return 0;
}
