/* What the tests in C share: guarded buffers, random numbers, images, and a device to play with. */
#ifndef HOST_H
#define HOST_H

#include "grzelotka.h"
#include "grzelotka_record.h"
#include <stdbool.h>
#include <string.h>

int printf(const char *, ...);
int atoi(const char *);
void exit(int);
void *mmap(void *, size_t, int, int, int, long);
int mprotect(void *, size_t, int);

enum { SECTOR = 4096, COUNT = 244, FLASH = SECTOR * COUNT, RECORD = GRZELOTKA_RECORD_BYTES, PAGE = 65536 };

/* a page of any machine fits PAGE */
static inline uint8_t *pages(size_t n) {
    uint8_t *at = mmap(0, n, 3, 0x22, -1, 0);
    if (at == (void *)-1) {
        printf("no memory\n");
        exit(2);
    }
    return at;
}

/* n bytes that end where a page begins that nobody may touch, and another such page before them */
static inline uint8_t *guarded(size_t n) {
    size_t room = (n + PAGE - 1) / PAGE * PAGE;
    uint8_t *at = pages(room + 2 * PAGE);
    mprotect(at, PAGE, 0);
    mprotect(at + PAGE + room, PAGE, 0);
    return at + PAGE + room - n;
}

static uint64_t seed = 1;

static inline uint32_t random_number(void) {
    seed ^= seed << 13;
    seed ^= seed >> 7;
    seed ^= seed << 17;
    return seed >> 16;
}

static inline uint32_t below(uint32_t n) {
    return random_number() % n;
}

static inline void random_bytes(uint8_t *at, size_t n) {
    for (size_t i = 0; i < n; i++)
        at[i] = random_number();
}

static inline uint32_t word(const uint8_t *at) {
    return at[0] | (uint32_t)at[1] << 8 | (uint32_t)at[2] << 16 | (uint32_t)at[3] << 24;
}

static inline void put_word(uint8_t *at, uint32_t x) {
    for (int i = 0; i < 4; i++)
        at[i] = x >> 8 * i;
}

static inline bool all(const uint8_t *at, size_t n, uint8_t x) {
    for (size_t i = 0; i < n; i++)
        if (at[i] != x)
            return false;
    return true;
}

/* ---- images, as paper 01 lays them out */

static inline void put_sum(uint8_t *image, uint32_t size) {
    uint32_t sum = 0;
    for (uint32_t i = 84; i + 4 <= size; i += 4)
        sum += word(image + i);
    put_word(image + 16, sum);
}

static inline void put_header(uint8_t *image, uint32_t size, uint32_t version) {
    const uint8_t start[8] = {'B', 'N', 'I', 1, 0, 1, 1, 0};
    memcpy(image, start, 8);
    put_word(image + 8, size);
    put_word(image + 12, version);
}

/* a good image of random bytes at sector p, and bytes behind it that are none of its own */
static inline void put_image(uint8_t *flash, uint32_t p, uint32_t size, uint32_t version) {
    uint8_t *image = flash + (size_t)p * SECTOR;
    size_t whole = (size + SECTOR - 1) / SECTOR * (size_t)SECTOR;
    random_bytes(image, whole < (size_t)FLASH - (size_t)p * SECTOR ? whole : (size_t)FLASH - (size_t)p * SECTOR);
    put_header(image, size, version);
    if (size <= FLASH - p * SECTOR)
        put_sum(image, size);
}

/* ---- a device to play with: each call's buffers end at a guard page */

static uint8_t *record, *flash, *reply, *event, *filler;

static inline void make_device(void) {
    record = guarded(RECORD), flash = guarded(FLASH), reply = guarded(8), event = guarded(6), filler = guarded(SECTOR);
}

static inline uint8_t handle(const uint8_t *packet, size_t length) {
    return grzelotka_handle(record, RECORD, flash, FLASH, packet, length, reply, 8);
}

/* a command with no payload, or with one byte: its status */
static inline uint8_t command(uint8_t opcode) {
    const uint8_t packet[4] = {0x10, opcode, 0xFC, 0};
    return handle(packet, 4) ? 0xEE : reply[6];
}

static inline uint8_t command_of(uint8_t opcode, uint8_t index) {
    const uint8_t packet[5] = {0x10, opcode, 0xFC, 1, index};
    return handle(packet, 5) ? 0xEE : reply[6];
}

/* STORE: the index given */
static inline uint8_t store(uint8_t type, uint8_t n) {
    uint8_t packet[259] = {0x10, 0x58, 0xFC, n + 2, type, n};
    random_bytes(packet + 6, n);
    return handle(packet, n + 6u) ? 0xEE : reply[7];
}

static inline uint8_t update_auth(const uint8_t *key) {
    uint8_t packet[69] = {0x10, 0x56, 0xFC, 65, 64};
    memcpy(packet + 5, key, 64);
    return handle(packet, 69) ? 0xEE : reply[6];
}

/* GET_STATE: the state and the error as one number */
static inline unsigned state(void) {
    return command(0x52) == 0xEE ? 0xEEEE : reply[6] << 8 | reply[7];
}

static inline uint32_t work(void) {
    uint32_t left = 0xEEEEEEEE;
    return grzelotka_work(record, RECORD, flash, FLASH, &left) ? 0xEEEEEEEE : left;
}

/* the code of the event, or 0xEE */
static inline uint8_t restart(void) {
    return grzelotka_restart(record, RECORD, event, 6) ? 0xEE : event[5];
}

static inline uint8_t cut(uint8_t through) {
    return grzelotka_cut(record, RECORD, flash, FLASH, filler, SECTOR, through, event, 6) ? 0xEE : event[5];
}

/* works a job to its end: how many works it took (no job has 1,000 stores) */
static inline uint32_t finish(void) {
    uint32_t works = 1;
    while (works < 1000 && work() != 0)
        works++;
    return works;
}

/* a fresh device over erased flash, with an installed stack of so many sectors (0: none), FUS idle */
static inline bool fresh_with_stack(uint32_t sectors, uint32_t version) {
    bool good = grzelotka_fresh(record, RECORD) == 0;
    memset(flash, 0xFF, FLASH);
    if (sectors == 0)
        return good;
    put_image(flash, 0, sectors * SECTOR, version);
    good = good && command(0x54) == 0;
    finish();
    return state() == 0xFFFE && state() == 0xFFFE && state() == 0 && good;
}

/* ---- counting */

static int passed, failed;

#define CHECK(x) check((x), __FILE__, __LINE__, #x)
static inline void check(bool good, const char *file, int line, const char *text) {
    if (good) {
        passed++;
    } else if (failed++ < 20) {
        printf("FAILED %s:%d: %s\n", file, line, text);
    }
}

static inline int outcome(const char *name) {
    printf("%s: %d passed, %d failed\n", name, passed, failed);
    return failed != 0;
}

#endif
