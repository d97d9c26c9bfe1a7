/* The program over a loss of power: the mark goes first and comes last, so what was cut off in between counts as nothing. */
#include "../host.h"
#include "keep.h"

/* Each step is one to one in the sum and in the byte, so one spoilt byte always shows. */
static uint32_t add(uint32_t sum, uint32_t byte) { return (sum ^ byte) * 16777619u; }

static uint32_t summed(const volatile keep_region *at) {
    uint32_t sum = 2166136261u;
    sum = add(sum, at->used);
    sum = add(sum, at->records);
    sum = add(sum, at->axes);
    for (uint32_t i = 0; i < at->used; i++) sum = add(sum, at->bytes[i]);
    return sum;
}

static int whole(const volatile keep_region *at) {
    return at->mark == KEEP_MARK && at->used <= BOARD_STORE && at->records <= BOARD_TABLE && at->axes <= 15 && at->sum == summed(at);
}

static int same(const volatile keep_region *at, const board_held *held, const uint8_t *store) {
    if (!whole(at) || at->used != held->used || at->records != held->records || at->axes != held->axes) return 0;
    uint32_t i = 0;
    while (i < held->used && at->bytes[i] == store[i]) i++;
    return i == held->used;
}

int host_kept(board_held *held, uint8_t *store) {
    const volatile keep_region *at = keep_at();
    if (!whole(at)) return 0;
    held->used = at->used;
    held->records = at->records;
    held->axes = at->axes;
    for (uint32_t i = 0; i < held->used; i++) store[i] = at->bytes[i];
    return 1;
}

void host_keep(const board_held *held, const uint8_t *store) {
    volatile keep_region *at = keep_at();
    if (same(at, held, store)) return;
    at->mark = KEEP_ERASED;
    for (uint32_t i = 0; i < held->used; i++) at->bytes[i] = store[i];
    at->used = held->used;
    at->records = held->records;
    at->axes = held->axes;
    at->sum = summed(at);
    at->mark = KEEP_MARK;
}
