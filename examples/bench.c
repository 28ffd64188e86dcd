#include "bench.h"
#include "bytes.h"
#include "grzelotka.h"
#include "grzelotka_record.h"
#include "transport.h"
#include "updater.h"
#include <string.h>

enum { FLASH_START = 0x08000000, APPLICATION = 40 };

/* the one device, with its buffers, what is in store for it, and what it did */
static struct {
    struct device device;
    uint8_t mailbox[MAILBOX], event[6], filler[SECTOR];
    struct {
        bool coming;
        uint8_t packet[259];
        size_t length, room;
    } damage;
    struct {
        uint32_t after, times;
        bool through;
    } cut;
    void (*watcher)(const void *scene, uint32_t stores);
    const void *scene;
    struct damaged damaged;
    struct account account;
    uint32_t left; /* what work said last; 0: nothing since the start or the last cut */
} bench;

/* ---- the device */

uint32_t boundary_of(const struct device *device) {
    return word(device->record + GRZELOTKA_BOUNDARY);
}

uint32_t version_of(const struct device *device) {
    return word(device->record + GRZELOTKA_STACK_VERSION);
}

bool job_under_way(const struct device *device) {
    return device->record[GRZELOTKA_MODE] >= GRZELOTKA_UPGRADE;
}

void bench_begin(void) {
    static struct device fresh;
    grzelotka_fresh(fresh.record, RECORD);
    memset(fresh.flash, 0xFF, FLASH);
    noise(fresh.flash, APPLICATION * SECTOR, 3);
    noise(bench.filler, SECTOR, 4);
    bench_restore(&fresh);
    bench_restart();
}

bool bench_restart(void) {
    bench.account.refused |= grzelotka_restart(bench.device.record, RECORD, bench.event, sizeof bench.event) != 0;
    return bench.event[0] != 0 && bench.event[5] == 0;
}

const struct device *bench_device(void) {
    return &bench.device;
}

void bench_restore(const struct device *device) {
    bench.device = *device;
    bench.damage.coming = false;
    bench.cut.times = 0;
    bench.account = (struct account){0};
    bench.left = 0;
}

bool bench_equals(const struct device *device) {
    return memcmp(bench.device.record, device->record, RECORD) == 0 && memcmp(bench.device.flash, device->flash, FLASH) == 0;
}

const struct account *bench_account(void) {
    return &bench.account;
}

/* ---- packets and replies */

void bench_damage(const uint8_t *packet, size_t length, size_t room) {
    memcpy(bench.damage.packet, packet, length);
    bench.damage.length = length;
    bench.damage.room = room;
    bench.damage.coming = true;
}

const struct damaged *bench_damaged(void) {
    return &bench.damaged;
}

/* the device is handed a packet, and answers into so much of the mailbox */
static uint8_t handle(const uint8_t *packet, size_t length, size_t room) {
    return grzelotka_handle(bench.device.record, RECORD, bench.device.flash, FLASH, packet, length, bench.mailbox, room);
}

/* behind the last reply the mailbox has the rest of something longer */
static void send_damaged(void) {
    static struct device before;
    before = bench.device;
    memset(bench.mailbox + 8, 0xEE, MAILBOX - 8);
    bench.damage.coming = false;
    bench.damaged.refused = handle(bench.damage.packet, bench.damage.length, bench.damage.room);
    bench.damaged.unchanged = bench_equals(&before);
    memcpy(bench.damaged.mailbox, bench.mailbox, MAILBOX);
}

void transport_send(const uint8_t *packet, size_t length) {
    bench.account.sent++;
    if (bench.damage.coming) {
        send_damaged();
        return;
    }
    handle(packet, length, MAILBOX);
    if (packet[1] == GET_STATE && bench.mailbox[6] == STATE_ERROR && bench.mailbox[7] == NOT_RUNNING)
        bench.account.stack_too_soon |= job_under_way(&bench.device);
}

void transport_receive(uint8_t *bytes, size_t length) {
    memcpy(bytes, bench.mailbox, length);
}

/* an event is read once */
bool transport_event(uint8_t *event) {
    bool there = bench.event[0] != 0;
    memcpy(event, bench.event, sizeof bench.event);
    bench.event[0] = 0;
    return there;
}

/* ---- flash, as the application sees it: from the boundary on it is out of reach */

uint32_t transport_boundary(void) {
    return boundary_of(&bench.device);
}

bool transport_write(uint32_t address, const uint8_t *bytes, size_t length) {
    size_t at = address - FLASH_START, end = (at + length + SECTOR - 1) / SECTOR * SECTOR;
    if (address < FLASH_START || at % SECTOR != 0 || end > (size_t)transport_boundary() * SECTOR)
        return false;
    memset(bench.device.flash + at, 0xFF, end - at);
    memcpy(bench.device.flash + at, bytes, length);
    return true;
}

/* ---- stores and power */

void bench_cut(uint32_t after, uint32_t times, bool through) {
    bench.cut.after = after;
    bench.cut.times = times;
    bench.cut.through = through;
}

const uint8_t *bench_filler(void) {
    return bench.filler;
}

void bench_watch(void (*watcher)(const void *scene, uint32_t stores), const void *scene) {
    bench.watcher = watcher;
    bench.scene = scene;
}

/* the power goes in the next store; the event tells what runs then */
static void cut(void) {
    bench.account.refused |= grzelotka_cut(bench.device.record, RECORD, bench.device.flash, FLASH, bench.filler, SECTOR, bench.cut.through,
                                           bench.event, sizeof bench.event) != 0;
    bench.cut.times--;
    bench.left = 0;
    bench.account.cuts++;
    bench.account.after_cut = 0;
    bench.account.spoiled = 0;
    for (size_t at = 0; at < FLASH; at += SECTOR)
        bench.account.spoiled += memcmp(bench.device.flash + at, bench.filler, SECTOR) == 0;
    bench.account.stack_too_soon |= bench.event[5] == 0 && job_under_way(&bench.device);
}

/* one store; what it says is left must be one less than before, and 0 exactly when the job has ended */
static void store(void) {
    uint32_t left;
    bench.account.refused |= grzelotka_work(bench.device.record, RECORD, bench.device.flash, FLASH, &left) != 0;
    bench.account.stores++;
    bench.account.after_cut++;
    bench.account.miscounted |= (bench.left != 0 && left != bench.left - 1) || (left == 0) == job_under_way(&bench.device);
    bench.left = left;
    if (bench.watcher)
        bench.watcher(bench.scene, bench.account.stores);
}

void transport_wait(void) {
    if (!job_under_way(&bench.device))
        return;
    if (bench.cut.times > 0 && bench.account.after_cut == bench.cut.after)
        cut();
    else
        store();
}
