/* Each C call and whole jobs: the archive beside plain C, turn and turn about.
     bench time    a line for each round: the case, and the nanoseconds of one turn of both
     bench stack   a line for each case: the bytes of stack that it takes in both, beyond the return address of the call
   It includes no header of the machine's, since the kit's clang has none. */
#include "grzelotka.h"
#include "grzelotka_record.h"
#include "plain.h"
#include <stdbool.h>
#include <string.h>

struct timespec { long seconds, nanoseconds; };
int printf(const char *, ...);
int clock_gettime(int, struct timespec *);
int getcontext(void *);
int swapcontext(void *, const void *);
void makecontext(void *, void (*)(void), int, ...);

enum { SECTOR = 4096, COUNT = 244, FLASH = SECTOR * COUNT, RECORD = GRZELOTKA_RECORD_BYTES };
enum { MOST = 243 * 4096, HALF = 121, ROUNDS = 5, TURNS = 8 };

struct calls {
    uint8_t (*fresh)(uint8_t *, size_t);
    uint8_t (*read)(const uint8_t *, size_t, uint16_t *, uint8_t *);
    uint8_t (*handle)(uint8_t *, size_t, uint8_t *, size_t, const uint8_t *, size_t, uint8_t *, size_t);
    uint8_t (*restart)(uint8_t *, size_t, uint8_t *, size_t);
    uint8_t (*work)(uint8_t *, size_t, uint8_t *, size_t, uint32_t *);
    uint8_t (*cut)(uint8_t *, size_t, uint8_t *, size_t, const uint8_t *, size_t, uint8_t, uint8_t *, size_t);
    size_t (*next_message)(const uint8_t *, size_t, const uint8_t *, size_t);
    uint8_t (*handle_why)(uint8_t *, size_t, uint8_t *, size_t, const uint8_t *, size_t, uint8_t *, size_t, uint8_t *);
    uint8_t (*serial)(uint8_t *, size_t, uint8_t *, size_t, uint8_t *, size_t, uint8_t, uint8_t *, size_t, uint8_t *, uint8_t *);
};
static const struct calls archive = {grzelotka_fresh, grzelotka_read,         grzelotka_handle,     grzelotka_restart, grzelotka_work,
                                     grzelotka_cut,   grzelotka_next_message, grzelotka_handle_why, grzelotka_serial};
static const struct calls plain = {plain_fresh, plain_read,         plain_handle,     plain_restart, plain_work,
                                   plain_cut,   plain_next_message, plain_handle_why, plain_serial};

/* calls that do nothing: what the cases themselves take of the stack */
static uint8_t no_fresh(uint8_t *a, size_t b) { (void)a, (void)b; return 0; }
static uint8_t no_read(const uint8_t *a, size_t b, uint16_t *c, uint8_t *d) { (void)a, (void)b, (void)c, (void)d; return 0; }
static uint8_t no_handle(uint8_t *a, size_t b, uint8_t *c, size_t d, const uint8_t *e, size_t f, uint8_t *g, size_t h) {
    (void)a, (void)b, (void)c, (void)d, (void)e, (void)f, (void)g, (void)h;
    return 0;
}
static uint8_t no_work(uint8_t *a, size_t b, uint8_t *c, size_t d, uint32_t *e) { (void)a, (void)b, (void)c, (void)d, *e = 0; return 0; }
static uint8_t no_cut(uint8_t *a, size_t b, uint8_t *c, size_t d, const uint8_t *e, size_t f, uint8_t g, uint8_t *h, size_t i) {
    (void)a, (void)b, (void)c, (void)d, (void)e, (void)f, (void)g, (void)h, (void)i;
    return 0;
}
static uint8_t no_restart(uint8_t *a, size_t b, uint8_t *c, size_t d) { (void)a, (void)b, (void)c, (void)d; return 0; }
static size_t no_next(const uint8_t *a, size_t b, const uint8_t *c, size_t d) { (void)a, (void)b, (void)c, (void)d; return 0; }
static uint8_t no_why(uint8_t *a, size_t b, uint8_t *c, size_t d, const uint8_t *e, size_t f, uint8_t *g, size_t h, uint8_t *i) {
    (void)a, (void)b, (void)c, (void)d, (void)e, (void)f, (void)g, (void)h, *i = 0;
    return 0;
}
static uint8_t no_serial(uint8_t *a, size_t b, uint8_t *c, size_t d, uint8_t *e, size_t f, uint8_t g, uint8_t *h, size_t i, uint8_t *j, uint8_t *k) {
    (void)a, (void)b, (void)c, (void)d, (void)e, (void)f, (void)g, (void)h, (void)i, *j = *k = 0;
    return 0;
}
static const struct calls nothing = {no_fresh, no_read, no_handle, no_restart, no_work, no_cut, no_next, no_why, no_serial};

static uint8_t record[RECORD] __attribute__((aligned(64))), reply[64], filler[SECTOR], kept_record[RECORD];
static uint8_t reader[78], begun[78], end_reader[78];
static uint8_t flash[FLASH] __attribute__((aligned(4096))), kept_flash[FLASH] __attribute__((aligned(4096)));
static uint8_t end_record[RECORD], end_reply[64], end_flash[FLASH];
static volatile unsigned answers;

/* ---- what a case begins with, made by plain C */

static void put_word(uint8_t *at, uint32_t x) {
    for (int i = 0; i < 4; i++)
        at[i] = x >> 8 * i;
}

static void put_image(uint32_t p, uint32_t size) {
    uint8_t *image = flash + p * SECTOR;
    uint32_t x = 1, sum = 0;
    for (uint32_t i = 84; i < size; i += 4) {
        x = x * 1664525 + 1013904223;
        put_word(image + i, x);
        sum += x;
    }
    memset(image + 20, 0, 64);
    memcpy(image, "BNI\1\0\1\1\0", 8);
    put_word(image + 8, size), put_word(image + 12, 9), put_word(image + 16, sum);
}

static void send(const struct calls *on, uint8_t opcode) {
    const uint8_t packet[4] = {0x10, opcode, 0xFC, 0};
    answers += on->handle(record, RECORD, flash, FLASH, packet, 4, reply, sizeof reply);
}

static void send_index(const struct calls *on, uint8_t opcode, uint8_t index) {
    const uint8_t packet[5] = {0x10, opcode, 0xFC, 1, index};
    answers += on->handle(record, RECORD, flash, FLASH, packet, 5, reply, sizeof reply);
}

static void send_key(const struct calls *on, uint8_t type, uint8_t n) {
    uint8_t packet[50] = {0x10, 0x58, 0xFC, n + 2, type, n};
    answers += on->handle(record, RECORD, flash, FLASH, packet, n + 6u, reply, sizeof reply);
}

static void send_byte(const struct calls *on, uint8_t byte) {
    uint8_t sent, reason;
    answers += on->serial(record, RECORD, flash, FLASH, reader, sizeof reader, byte, reply, sizeof reply, &sent, &reason);
    answers += sent + reason;
}

static void work_all(const struct calls *on) {
    uint32_t left;
    do
        answers += on->work(record, RECORD, flash, FLASH, &left);
    while (left);
}

static void empty(void) {
    plain_fresh(record, RECORD);
    memset(flash, 0xFF, FLASH);
}
static void with_keys(void) {
    empty();
    send_key(&plain, 2, 32);
    for (int i = 0; i < 50; i++)
        send_key(&plain, 1, 16), send_key(&plain, 3, 44);
    send_index(&plain, 0x5D, 9), send_index(&plain, 0x59, 2);
}
/* an authentication key's bytes are to come */
static void with_begun_command(void) {
    static const uint8_t start[11] = {0x51, 0xAE, 0, 0x56, 0xFF, 0xA9, 0, 0, 0, 0, 65};
    with_keys();
    for (int i = 0; i < 11; i++)
        send_byte(&plain, start[i]);
    memcpy(begun, reader, sizeof reader);
}
static void with_stack(void) {
    with_keys();
    put_image(0, HALF * SECTOR);
    send(&plain, 0x54), work_all(&plain), send(&plain, 0x52), send(&plain, 0x52);
}
static void with_image(void) {
    with_keys();
    put_image(0, HALF * SECTOR);
}
static void with_largest(void) {
    with_keys();
    put_image(0, MOST);
}
static void with_job(void) {
    with_image();
    send(&plain, 0x54);
}

/* ---- the cases: one turn each */

static void fresh(const struct calls *on) { answers += on->fresh(record, RECORD); }
static void read_short(const struct calls *on) {
    static const uint8_t packet[4] = {0x10, 0x52, 0xFC, 0};
    uint16_t opcode;
    uint8_t length;
    answers += on->read(packet, 4, &opcode, &length);
}
static void read_long(const struct calls *on) {
    static const uint8_t packet[50] = {0x10, 0x58, 0xFC, 46, 3, 44};
    uint16_t opcode;
    uint8_t length;
    answers += on->read(packet, 50, &opcode, &length);
}
static void get_state(const struct calls *on) { send(on, 0x52); }
static void refused(const struct calls *on) { send_index(on, 0x52, 0); }
static void get_state_pair(const struct calls *on) { send(on, 0x5A), send(on, 0x52), send(on, 0x52); }
static void lock_auth(const struct calls *on) { send(on, 0x57); }
static void antirollback(const struct calls *on) { send(on, 0x5F); }
static void load(const struct calls *on) { send_index(on, 0x59, 100); }
static void lock(const struct calls *on) { send_index(on, 0x5D, 9); }
static void load_unload(const struct calls *on) { send_index(on, 0x59, 2), send_index(on, 0x5E, 2); }
static void store_full(const struct calls *on) { send_key(on, 1, 16); }
static void store_full_why(const struct calls *on) {
    static const uint8_t packet[22] = {0x10, 0x58, 0xFC, 18, 1, 16};
    uint8_t reason;
    answers += on->handle_why(record, RECORD, flash, FLASH, packet, 22, reply, sizeof reply, &reason);
    answers += reason;
}
/* the 65 bytes of data one after the other, and then again */
static void byte_inside(const struct calls *on) {
    if (reader[0] == 76)
        memcpy(reader, begun, sizeof reader);
    send_byte(on, 0x5A);
}
static void line_get_state(const struct calls *on) {
    static const uint8_t bytes[9] = {0x50, 0xAF, 0, 0x54, 0xFF, 0xAB, 0, 0, 0};
    for (int i = 0; i < 9; i++)
        send_byte(on, bytes[i]);
}
static void store_hundred(const struct calls *on) {
    on->fresh(record, RECORD);
    for (int i = 0; i < 50; i++)
        send_key(on, 1, 16), send_key(on, 3, 44);
}
static void update_auth(const struct calls *on) {
    static const uint8_t packet[69] = {0x10, 0x56, 0xFC, 65, 64, 1, 2, 3};
    answers += on->handle(record, RECORD, flash, FLASH, packet, 69, reply, sizeof reply);
}
static void search(const struct calls *on) { send(on, 0x54); }
/* the job is taken back, so that it can be accepted again */
static void accept(const struct calls *on) {
    send(on, 0x54);
    record[GRZELOTKA_MODE] = GRZELOTKA_IDLE;
    memset(record + GRZELOTKA_IMAGE_SECTOR, 0, GRZELOTKA_FLOOR - GRZELOTKA_IMAGE_SECTOR);
}
static void restart(const struct calls *on) { answers += on->restart(record, RECORD, reply, sizeof reply); }
static void work(const struct calls *on) {
    uint32_t left;
    answers += on->work(record, RECORD, flash, FLASH, &left);
}
static void cut(const struct calls *on) { answers += on->cut(record, RECORD, flash, FLASH, filler, SECTOR, 0, reply, sizeof reply); }
static void next_message(const struct calls *on) { answers += on->next_message(NULL, 0, reply, sizeof reply); }
static void whole_upgrade(const struct calls *on) { send(on, 0x54), work_all(on); }
static void whole_delete(const struct calls *on) { send(on, 0x55), work_all(on); }

struct one {
    const char *name;
    void (*begin)(void);
    void (*turn)(const struct calls *);
    bool again; /* a turn can follow a turn; else record and flash are put back, which is not timed */
};

static const struct one cases[] = {
    {"fresh", empty, fresh, true},
    {"read GET_STATE", empty, read_short, true},
    {"read STORE", empty, read_long, true},
    {"handle, refused (8)", with_keys, refused, true},
    {"handle GET_STATE", with_keys, get_state, true},
    {"handle START and the pair of GET_STATE", with_stack, get_state_pair, true},
    {"handle LOAD", with_keys, load, true},
    {"handle LOCK", with_keys, lock, true},
    {"handle LOAD, UNLOAD", with_keys, load_unload, true},
    {"handle STORE, full", with_keys, store_full, true},
    {"handle_why STORE, full", with_keys, store_full_why, true},
    {"fresh, handle 100 STOREs", empty, store_hundred, true},
    {"handle UPDATE_AUTH_KEY", with_keys, update_auth, true},
    {"handle LOCK_AUTH_KEY, no key", with_keys, lock_auth, true},
    {"handle ANTIROLLBACK", with_keys, antirollback, true},
    {"handle FW_UPGRADE, no image", with_keys, search, true},
    {"handle FW_UPGRADE, 995,328 bytes taken", with_largest, accept, true},
    {"restart", with_keys, restart, true},
    {"work, no job", with_keys, work, true},
    {"cut, no job", with_keys, cut, true},
    {"cut, a sector store", with_job, cut, true},
    {"next message", with_keys, next_message, true},
    {"a byte inside a command", with_begun_command, byte_inside, true},
    {"a whole GET_STATE on the line", with_keys, line_get_state, true},
    {"a 121-sector upgrade, 606 stores", with_image, whole_upgrade, false},
    {"a 121-sector delete, 243 stores", with_stack, whole_delete, false},
};
enum { CASES = sizeof cases / sizeof *cases };

static void put_back(void) {
    memcpy(record, kept_record, RECORD), memcpy(flash, kept_flash, FLASH);
}

static void begin(const struct one *c) {
    memset(reply, 0, sizeof reply), memset(reader, 0, sizeof reader);
    c->begin();
    memcpy(kept_record, record, RECORD), memcpy(kept_flash, flash, FLASH);
}

/* ---- time */

static double now(void) {
    struct timespec t;
    clock_gettime(1, &t);
    return t.seconds * 1e9 + t.nanoseconds;
}

static double timed(const struct one *c, const struct calls *on, int times) {
    if (!c->again)
        put_back();
    double from = now();
    for (int i = 0; i < times; i++)
        c->turn(on);
    return (now() - from) / times;
}

/* both do the same */
static bool agree(const struct one *c) {
    begin(c);
    answers = 0;
    c->turn(&archive);
    unsigned said = answers;
    memcpy(end_record, record, RECORD), memcpy(end_flash, flash, FLASH), memcpy(end_reply, reply, sizeof reply);
    memcpy(end_reader, reader, sizeof reader);
    begin(c);
    answers = 0;
    c->turn(&plain);
    return said == answers && !memcmp(end_record, record, RECORD) && !memcmp(end_flash, flash, FLASH) && !memcmp(end_reply, reply, sizeof reply) &&
           !memcmp(end_reader, reader, sizeof reader);
}

static void time_case(const struct one *c) {
    begin(c);
    timed(c, &archive, 1);
    int times = c->again ? 1e6 / (timed(c, &plain, 3) + 1) + 1 : 1, turns = c->again ? TURNS : 4 * TURNS;
    for (int i = 0; i < ROUNDS; i++) {
        double a = 1e18, b = 1e18;
        for (int turn = 0; turn < turns; turn++) {
            double x = timed(c, &archive, times), y = timed(c, &plain, times);
            a = x < a ? x : a;
            b = y < b ? y : b;
        }
        printf("%s|%.2f|%.2f\n", c->name, a, b);
    }
}

/* ---- stack: the case runs on a painted stack of its own */

enum { STACK = 65536 };
/* as the C library has it: what follows is its own business */
struct context {
    unsigned long flags;
    struct context *link;
    struct { void *at; int flags; size_t size; } stack;
    uint8_t rest[8192];
} __attribute__((aligned(64)));
static struct context here, there;
static uint8_t stack[STACK] __attribute__((aligned(64)));
static const struct one *playing;
static const struct calls *playing_on;

static void play(void) { playing->turn(playing_on); }

/* bytes from the stack's top down to the lowest that was written, painted twice as a written byte may be the paint */
static size_t depth(const struct one *c, const struct calls *on) {
    size_t least = STACK;
    for (int paint = 0xA5; paint <= 0xA6; paint++) {
        begin(c);
        memset(stack, paint, STACK);
        getcontext(&there);
        there.link = &here, there.stack.at = stack, there.stack.size = STACK;
        playing = c, playing_on = on;
        makecontext(&there, play, 0);
        swapcontext(&here, &there);
        size_t i = 0;
        while (i < STACK && stack[i] == paint)
            i++;
        least = i < least ? i : least;
    }
    return STACK - least;
}

static void stack_case(const struct one *c) {
    begin(c), c->turn(&archive), begin(c), c->turn(&plain); /* the loader's own work is done */
    size_t none = depth(c, &nothing);
    printf("%s|%d|%d\n", c->name, (int)(depth(c, &archive) - none), (int)(depth(c, &plain) - none));
}

int main(int count, char **words) {
    bool stacks = count > 1 && words[1][0] == 's';
    for (int i = 0; i < CASES; i++) {
        if (!agree(cases + i)) {
            printf("%s: the archive and plain C disagree\n", cases[i].name);
            return 1;
        }
        stacks ? stack_case(cases + i) : time_case(cases + i);
    }
    return 0;
}
