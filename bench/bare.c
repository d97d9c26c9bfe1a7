/* What a proved program asks of a system beside its read and write, for where there is none: bench/chip/start.c and screen/modules. */
#include <stdint.h>

int64_t write(int32_t to, const uint8_t *from, uint64_t n);
int64_t __sysv_signal(int32_t signal, int64_t what);
int64_t __write(int32_t to, const uint8_t *from, uint64_t n);
const uint32_t *__x86_get_cpuid_feature_leaf(uint32_t leaf);
int32_t rattle_errno(void);
int32_t __xpg_strerror_r(int32_t number, uint8_t *text, uint64_t room);

/* No signal comes. */
int64_t __sysv_signal(int32_t signal, int64_t what) {
    (void)signal, (void)what;
    return 0;
}

/* The program begins by looking what the kit's own processor has, which bench/object then makes no matter. */
static const uint32_t all[8] = {~0u, ~0u, ~0u, ~0u, ~0u, ~0u, ~0u, ~0u};
const uint32_t *__x86_get_cpuid_feature_leaf(uint32_t leaf) {
    (void)leaf;
    return all;
}
int64_t __write(int32_t to, const uint8_t *from, uint64_t n) { return write(to, from, n); }

/* A read or write that fails has one reason, EIO, and no text. */
int32_t rattle_errno(void) { return 5; }
int32_t __xpg_strerror_r(int32_t number, uint8_t *text, uint64_t room) {
    (void)number;
    if (room > 0) *text = 0;
    return 0;
}
