/* Damaged records: from many honest states every byte is changed in several ways, and every word of the head. Each such record is refused by
   every call, with nothing changed and the answer zeroed, or taken by every call and left sound, so that every call after it takes it too. */
#include "host.h"

static uint8_t honest[RECORD], damaged[RECORD];
static uint32_t states, refused, taken;

/* ---- honest states */

/* so many keys, of which some are locked and one may be loaded, with or without a master */
static void random_keys(uint32_t count) {
    if (below(2))
        store(2, below(2) ? 16 : 32);
    for (uint32_t i = 0; i < count; i++)
        below(2) ? store(1, below(2) ? 16 : 32) : store(3, below(2) ? 28 : 44);
    for (uint32_t i = 0; i < count / 4; i++)
        command_of(0x5D, 1 + below(count));
    for (int i = 0; i < 4 && count; i++)
        command_of(0x59, 1 + below(count));
}

static void random_auth(void) {
    uint8_t key[64];
    random_bytes(key, 64);
    if (below(3) == 0)
        update_auth(key);
    if (below(3) == 0)
        command(0x57), update_auth(key);
    if (below(3) == 0)
        command(0x5F);
    if (below(2) == 0)
        state();
}

/* FUS idle with or without a pending error, the stack running with or without a first request, or a job somewhere */
static void random_state(uint32_t way) {
    static const uint8_t counts[] = {0, 1, 2, 50, 99, 100};
    uint32_t old = below(3) ? 1 + below(30) : 0, b = 1 + below(8), works = 0;
    fresh_with_stack(old, 7);
    random_keys(counts[below(6)]);
    random_auth();
    switch (way % 5) {
    case 0: /* most often a pending error: of the image's checks, or of a key */
        put_image(flash, 10, below(2) ? 4096 : 81, 9);
        flash[10 * SECTOR + 6] = below(3);
        command(below(2) ? 0x54 : 0x5E);
        return;
    case 1:
        command(0x5A);
        if (below(2))
            state();
        return;
    case 2:
        command(0x55);
        works = below(2 * old + 1);
        break;
    default:
        record[GRZELOTKA_AUTH_KEY_PRESENT] = record[GRZELOTKA_AUTH_KEY_LOCKED] = 0; /* so that the image is taken */
        record[GRZELOTKA_ANTIROLLBACK] = 0, put_word(record + GRZELOTKA_FLOOR, 0);
        put_image(flash, COUNT - old - b - 1 - below(100), b * SECTOR - 4 * below(1000), 9);
        command(0x54);
        works = below(4) ? below(3 * b + old) : 3 * b + 2 * old;
    }
    while (works-- > 0)
        work();
}

/* ---- one damaged record through every call */

static uint8_t on(uint8_t call, uint32_t *left) {
    static const uint8_t ask[4] = {0x10, 0x52, 0xFC, 0};
    memset(reply, 0xA5, 8), memset(event, 0xA5, 6);
    *left = 0;
    switch (call) {
    case 0:
        return grzelotka_restart(record, RECORD, event, 6);
    case 1:
        return grzelotka_handle(record, RECORD, flash, FLASH, ask, 4, reply, 8);
    case 2:
        return grzelotka_work(record, RECORD, flash, FLASH, left);
    default:
        return grzelotka_cut(record, RECORD, flash, FLASH, filler, SECTOR, call & 1, event, 6);
    }
}

enum { CALLS = 5 };

/* the flash may not be written meanwhile */
static void refuse_all(void) {
    uint32_t left;
    mprotect(flash, FLASH, 1);
    for (uint8_t call = 0; call < CALLS; call++) {
        memcpy(record, damaged, RECORD);
        bool good = on(call, &left) == 1 && memcmp(record, damaged, RECORD) == 0 && left == 0;
        CHECK(good && (call == 2 || (call == 1 ? all(reply, 8, 0) : all(event, 6, 0))));
    }
    mprotect(flash, FLASH, 3);
    refused++;
}

static void take_all(void) {
    uint32_t left;
    for (uint8_t call = 0; call < CALLS; call++) {
        memcpy(record, damaged, RECORD);
        CHECK(on(call, &left) == 0);
        for (uint8_t next = 0; next < CALLS; next++)
            CHECK(on(next, &left) == 0);
    }
    taken++;
}

static void try_damaged(void) {
    uint32_t left;
    memcpy(record, damaged, RECORD);
    if (on(0, &left) == 1)
        refuse_all();
    else
        take_all();
}

/* ---- ways of damage */

static void each_byte(void) {
    for (uint32_t i = 0; i < RECORD; i++) {
        uint8_t old = honest[i];
        const uint8_t values[] = {old ^ 1, old ^ 0x80, old + 1, old - 1, 0, 2, 0xFF, random_number()};
        /* the keys' bytes hold no number: fewer ways do */
        for (uint32_t way = 0; way < (i < GRZELOTKA_KEY_BYTES ? 8 : 2); way++) {
            if (values[way] == old)
                continue;
            damaged[i] = values[way];
            try_damaged();
        }
        damaged[i] = old;
    }
}

static void each_word(void) {
    for (uint32_t at = GRZELOTKA_STACK_VERSION; at < GRZELOTKA_LOCKS; at += 4) {
        uint32_t old = word(honest + at);
        const uint32_t values[] = {0, 1, old + 1, old - 1, old + 4, old - 4, 84, 243, 244, 245, 0xFFFFFFFF, 0xFFFFFFFC, 0x80000000, random_number()};
        for (uint32_t way = 0; way < sizeof values / 4; way++) {
            put_word(damaged + at, values[way]);
            if (values[way] != old)
                try_damaged();
        }
        put_word(damaged + at, old);
    }
}

/* several bytes of the head at once */
static void several(void) {
    for (int i = 0; i < 400; i++) {
        for (uint32_t n = 1 + below(4); n > 0; n--)
            damaged[below(GRZELOTKA_LOCKS)] = below(3) ? below(4) : random_number();
        try_damaged();
        memcpy(damaged, honest, RECORD);
    }
}

int main(int count, char **words) {
    int from = count > 1 ? atoi(words[1]) : 1;
    uint32_t wanted = count > 2 ? atoi(words[2]) : 40;
    seed = from * 0x9E3779B97F4A7C15u | 1;
    make_device();
    for (; states < wanted; states++) {
        uint32_t left;
        random_state(states);
        memcpy(honest, record, RECORD), memcpy(damaged, record, RECORD);
        CHECK(on(0, &left) == 0); /* an honest one is taken */
        each_byte();
        each_word();
        several();
    }
    printf("seed %d, %u states, %u records refused, %u taken, ", from, states, refused, taken);
    return outcome("damaged");
}
