/* The device on the bench, played by the library, and what a bench can do to it. bench.c is the updater's transport, too. */
#ifndef BENCH_H
#define BENCH_H

#include "grzelotka_record.h"
#include <stdbool.h>
#include <stddef.h>
#include <stdint.h>

enum { SECTOR = 4096, COUNT = 244, FLASH = SECTOR * COUNT, RECORD = GRZELOTKA_RECORD_BYTES, MAILBOX = 64 };

/* all that a device is */
struct device {
    uint8_t record[RECORD], flash[FLASH];
};

/* what a device's record says (docs/RECORD.md) */
uint32_t boundary_of(const struct device *device);
uint32_t version_of(const struct device *device);
bool job_under_way(const struct device *device);

/* Makes a fresh device over erased flash, with an application in the lowest sectors, and switches it on. */
void bench_begin(void);

/* Switches it off and on; does it say that the stack runs? */
bool bench_restart(void);

/* The device as it stands. */
const struct device *bench_device(void);

/* Makes it the device that it once was, with nothing in store for it, and begins a new account. */
void bench_restore(const struct device *device);

/* Is it this one, byte for byte? */
bool bench_equals(const struct device *device);

/* ---- the line */

/* The next packet arrives as these bytes, and the mailbox for its reply has only so much room. */
void bench_damage(const uint8_t *packet, size_t length, size_t room);

/* what became of that packet */
struct damaged {
    uint8_t refused;          /* the number of the refusal, 0: taken */
    uint8_t mailbox[MAILBOX]; /* what stood in the mailbox then */
    bool unchanged;           /* record and flash were as before */
};
const struct damaged *bench_damaged(void);

/* ---- the power */

/* Cuts the power in the store that comes after so many, counted from here and from each cut on, and so many times. */
void bench_cut(uint32_t after, uint32_t times, bool through);

/* What a cut leaves in the sector that it spoils. */
const uint8_t *bench_filler(void);

/* Tells after each store of a job how many that makes; NULL ends it. */
void bench_watch(void (*watcher)(const void *scene, uint32_t stores), const void *scene);

/* ---- the account, since the device was made what it is */

struct account {
    uint32_t sent, stores, cuts; /* packets sent, stores made, cuts of the power */
    uint32_t after_cut;          /* stores made since the last cut */
    uint32_t spoiled;            /* sectors that the last cut left spoiled */
    bool refused;                /* a restart, a store or a cut was refused */
    bool miscounted;             /* the stores that were said to be left were not those that came */
    bool stack_too_soon;         /* the stack was said to run with the job not yet done */
};
const struct account *bench_account(void);

#endif
