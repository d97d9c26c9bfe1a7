/* Ten thousand states with damaged bytes, each heard, clocked, listed and shown: it prints a digest of all that came of every hundred, and
   how many were refused. A state that one call refuses with 103 every call refuses, and then state, store, table and reply stay. */
#include "desk.h"
#include "digest.h"
#include "doorway.h"
#include "memory.h"
#include "say.h"
#include "state.h"

#define GROUPS 100
#define STATES 100 /* in each group */

static board here;
static board_state whole, damaged;
static uint8_t reply[BOARD_REPLY], store[BOARD_STORE], text[BOARD_TEXT], store_before[BOARD_STORE];
static uint16_t table[BOARD_TABLE], table_before[BOARD_TABLE];
static uint32_t seed, digest, refused, wrong;

/* The boards that are damaged: what each has heard, and how many clock calls it has made. */
static const struct scene {
    const char *heard;
    int ticks;
} scenes[] = {
    {"", 0},
    {"@07\r@0A9,600,8,600,7,600,-7,600\r", 12},
    {"@07\r@08\r@0z1\r@0M90,600,80,600,70,600,0,600\r@0P", 5},
    {"@03\r@0f-1\r@0y16,600,0,2,0,1,-1\r", 5},
    {"@07\r@0i\r0 5,800,0,800,-4,300,4,300\r3 4,-1\r9\r@0S\r", 30},
    {"@07\r@0e1\r@0i\rz 1\r0 5,800,3,800,-4,300,0,300\ry 30,600,0,3,0,1,1\r3 9,-2\r5 3\r3 2,-4\r9\r@0S\r", 120},
    {"@01\r@0i\r0 3,600\r5 20\r1 65\r9\r@0S\r", 8},
    {"@01\r@0i\r2 65,1\r3 0,-1\r9\r@0S\r", 2},
    {"@07\r@0i\r0 5,800,0,800,-4,300,4,300\r1 7", 0},
    {"@03\r@0A50,700,40,700\r", 20},
};

static void hear(uint8_t byte) { call_receive(&here, byte, 0, reply, sizeof reply, store, sizeof store, table, BOARD_TABLE); }

/* The board of a scene; every second one stands stopped. */
static void set_scene(uint32_t group) {
    const struct scene *scene = &scenes[group % (sizeof scenes / sizeof scenes[0])];
    memset(store, 0, sizeof store);
    memset(table, 0, sizeof table);
    call_fresh(&here);
    for (const char *at = scene->heard; *at; at++) hear((uint8_t)*at);
    for (int i = 0; i < scene->ticks; i++) call_clock(&here, store, sizeof store, table, BOARD_TABLE);
    if (group / 10 % 2) hear(253);
    whole = here.state;
}

/* The next number of a fixed row (xorshift). */
static uint32_t random_number(void) {
    seed ^= seed << 13;
    seed ^= seed >> 17;
    seed ^= seed << 5;
    return seed;
}

/* Every fourth state is random in all its bytes, the others in one to eight. */
static void damage(uint32_t number) {
    uint8_t *bytes = (uint8_t *)&damaged;
    damaged = whole;
    if (number % 4 == 0)
        for (uint32_t i = 0; i < sizeof damaged; i++) bytes[i] = (uint8_t)(random_number() >> 8);
    else
        for (uint32_t n = random_number() % 8 + 1; n > 0; n--) {
            uint32_t at = random_number() % sizeof damaged;
            bytes[at] = (uint8_t)(random_number() >> 8);
        }
}

/* A byte that means something to a board as often as not. */
static uint8_t random_byte(void) {
    static const uint8_t some[] = {'\r', '\r', '@', '0', ',', 'P', 'S', 253, 254, 255};
    uint32_t n = random_number() >> 8;
    return n & 1 ? some[(n >> 1) % sizeof some] : (uint8_t)(n >> 1);
}

/* Puts the state after a call and its refusal into the digest: whether it was refused with 103. */
static int after(uint16_t refusal) {
    digest = digest_number(state_digest(digest, &here.state), refusal);
    if (refusal && !state_same(&here.state, &damaged)) wrong++;
    return refusal == BOARD_WRONG_STATE;
}

static int clock_refused(void) {
    here.state = damaged;
    call_clock(&here, store, sizeof store, table, BOARD_TABLE);
    board_clocked c = here.clocked;
    digest = digest_number(digest, c.kind | (uint32_t)c.value << 16);
    digest = digest_number(digest, (uint8_t)c.x | (uint32_t)(uint8_t)c.y << 8 | (uint32_t)(uint8_t)c.z << 16 | (uint32_t)(uint8_t)c.a << 24);
    return after(c.refusal);
}

static int list_refused(void) {
    here.state = damaged;
    call_list(&here, store, sizeof store, text, sizeof text);
    digest = digest_bytes(digest_number(digest, here.written.len), text, here.written.len);
    return after(here.written.refusal);
}

static int show_refused(void) {
    here.state = damaged;
    call_show(&here);
    board_shown s = here.shown;
    digest = digest_number(digest, s.runs);
    digest = digest_number(digest, (uint32_t)s.position.x ^ (uint32_t)s.origin.x << 8);
    digest = digest_number(digest, (uint32_t)s.position.y ^ (uint32_t)s.origin.y << 8);
    digest = digest_number(digest, (uint32_t)s.position.z ^ (uint32_t)s.origin.z << 8);
    digest = digest_number(digest, (uint32_t)s.position.a ^ (uint32_t)s.origin.a << 8);
    return after(s.refusal);
}

static int receive_refused(void) {
    here.state = damaged;
    memset(reply, 0xA5, sizeof reply);
    hear(random_byte());
    digest = digest_bytes(digest_number(digest, (uint32_t)here.heard.len), reply, sizeof reply);
    return after(here.heard.refusal);
}

/* All four calls on one damaged state. Listing, clocking and showing never write to store and table; receiving does unless it is refused. */
static void try_all(void) {
    int times = clock_refused() + list_refused() + show_refused();
    memcpy(store_before, store, sizeof store);
    memcpy(table_before, table, sizeof table);
    times += receive_refused();
    if (times != 0 && times != 4) wrong++;
    if (times != 4) return;
    refused++;
    for (uint32_t i = 0; i < sizeof reply; i++) wrong += reply[i] != 0xA5;
    if (memcmp(store, store_before, sizeof store) || memcmp(table, table_before, sizeof table)) wrong++;
}

void run(void) {
    seed = 20817;
    refused = wrong = 0;
    for (uint32_t group = 0; group < GROUPS; group++) {
        digest = DIGEST_START;
        set_scene(group);
        for (uint32_t n = 0; n < STATES; n++) {
            damage(n);
            try_all();
        }
        digest = digest_bytes(digest, store, sizeof store);
        for (uint32_t i = 0; i < BOARD_TABLE; i++) digest = digest_number(digest, table[i]);
        say_hex(digest);
        put('\n');
    }
    say_line("refused with 103: ", refused);
    say_line("wrong: ", wrong);
}
