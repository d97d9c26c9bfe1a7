/* The heap of a program in WebAssembly, as the kit's programs ask for one: screen/modules. A room has 16 bytes or a power of two above, and 16
   in front of it that hold which; one that is given back waits in a list of those of its size. The module's memory grows where none is left. */
#include <stdint.h>

/* Whether there is memory, and where; where there is none, a byte that nobody owns. */
typedef struct tried {
    uint64_t ok, at;
} tried;

tried rattle_alloc(uint64_t n, uint64_t align);
tried rattle_realloc(uint8_t *at, uint64_t kept, uint64_t n, uint64_t align);
void rattle_dealloc(uint8_t *at);

enum { PAGE = 65536, HEAD = 16, SIZES = 26 }; /* the largest room has 512 MiB */

typedef struct room {
    struct room *next;
} room;

extern uint8_t __heap_base;
static room *given_back[SIZES];
static uintptr_t from, to; /* what was not given out yet */
static uint8_t nothing;

static uint32_t *size_in_front(uint8_t *at) { return (uint32_t *)(at - HEAD); }

static tried none(void) { return (tried){0, (uintptr_t)&nothing}; }

/* New memory of so many bytes, if the module has it or can have it. */
static uint8_t *taken(uint32_t bytes) {
    if (from == 0) {
        from = ((uintptr_t)&__heap_base + HEAD - 1) / HEAD * HEAD;
        to = __builtin_wasm_memory_size(0) * PAGE;
    }
    if (to - from < bytes) {
        uint32_t pages = (bytes + PAGE - 1) / PAGE;
        if (__builtin_wasm_memory_grow(0, pages) == (uintptr_t)-1) return 0;
        to += pages * PAGE;
    }
    from += bytes;
    return (uint8_t *)(from - bytes);
}

/* The alignments that are asked for divide 16. */
tried rattle_alloc(uint64_t n, uint64_t align) {
    (void)align;
    uint32_t size = 0;
    while (size < SIZES && (uint64_t)16 << size < n) size++;
    if (size == SIZES) return none();
    room *old = given_back[size];
    if (old) {
        given_back[size] = old->next;
        return (tried){1, (uintptr_t)old};
    }
    uint8_t *front = taken(HEAD + ((uint32_t)16 << size));
    if (!front) return none();
    *size_in_front(front + HEAD) = size;
    return (tried){1, (uintptr_t)(front + HEAD)};
}

tried rattle_realloc(uint8_t *at, uint64_t kept, uint64_t n, uint64_t align) {
    if (n <= (uint64_t)16 << *size_in_front(at)) return (tried){1, (uintptr_t)at};
    tried more = rattle_alloc(n, align);
    if (!more.ok) return none();
    for (uint64_t i = 0; i < kept; i++) ((uint8_t *)(uintptr_t)more.at)[i] = at[i];
    rattle_dealloc(at);
    return more;
}

void rattle_dealloc(uint8_t *at) {
    uint32_t size = *size_in_front(at);
    room *old = (room *)at;
    old->next = given_back[size];
    given_back[size] = old;
}
