/* Cuts the power in every store of upgrades and deletes at the edges: once in every store, twice, and at random, with both outcomes of record
   stores, restarts and packets between. Every run must end with the record and the flash that paper 01's rules give for the job. */
#include "host.h"

struct job {
    const char *name;
    uint32_t old, p, size; /* the old stack's sectors; size 0 is a delete */
};

static const struct job jobs[] = {
    {"one short sector", 0, 242, 84},
    {"one whole sector at 0", 0, 0, 4096},
    {"the largest image", 0, 0, 995328},
    {"p next to q", 0, 122, 121 * 4096},
    {"image and target overlap", 0, 100, 130 * 4096 - 4},
    {"overlap below an old stack", 3, 140, 100 * 4096 - 8},
    {"old stack larger", 20, 100, 3 * 4096 - 100},
    {"old stack smaller", 2, 200, 5 * 4096},
    {"old stack of the same size", 3, 230, 3 * 4096 - 4},
    {"the paper's case", 4, 230, 8196},
    {"image up to the old stack", 60, 133, 50 * 4096},
    {"old stack nearly everywhere", 242, 0, 84},
    {"delete one sector", 1, 0, 0},
    {"delete four", 4, 0, 0},
    {"delete the largest", 243, 0, 0},
};

static uint32_t b, q, c, total;
static uint8_t begun_record[RECORD], wanted_record[RECORD], trunk_record[RECORD];
static uint8_t *begun_flash, *wanted_flash, *trunk_flash;
static uint32_t runs, cuts;

/* ---- what the job begins and ends with */

/* sectors q to 243 hold the image's bytes as accepted, then 0xFF; cleared sectors are erased; no other has changed */
static void want_flash(const struct job *j) {
    memcpy(wanted_flash, begun_flash, FLASH);
    c = 0;
    for (uint32_t t = 0; t < q; t++)
        if ((t >= j->p && t < j->p + b) || t >= COUNT - j->old) {
            memset(wanted_flash + t * SECTOR, 0xFF, SECTOR);
            c++;
        }
    memset(wanted_flash + q * SECTOR, 0xFF, b * SECTOR);
    memcpy(wanted_flash + q * SECTOR, begun_flash + j->p * SECTOR, j->size);
    total = 3 * b + 2 * c + 1;
}

/* the new stack or none, no job, and the lost things lost */
static void want_record(const struct job *j) {
    uint8_t *r = wanted_record;
    bool installs = j->size != 0;
    memcpy(r, begun_record, RECORD);
    r[GRZELOTKA_STACK_PRESENT] = installs, r[GRZELOTKA_MODE] = installs ? GRZELOTKA_STACK_RUNS : GRZELOTKA_IDLE;
    r[GRZELOTKA_LOADED_KEY] = r[GRZELOTKA_STATE_REQUESTED] = r[GRZELOTKA_PENDING_ERROR] = r[GRZELOTKA_STORES_MADE] = 0;
    put_word(r + GRZELOTKA_STACK_VERSION, installs ? 9 : 0xFFFFFFFF);
    put_word(r + GRZELOTKA_STACK_SECTORS, b);
    put_word(r + GRZELOTKA_BOUNDARY, q);
    put_word(r + GRZELOTKA_IMAGE_SECTOR, 0), put_word(r + GRZELOTKA_IMAGE_SIZE, 0), put_word(r + GRZELOTKA_IMAGE_VERSION, 0);
    put_word(r + GRZELOTKA_SECTORS_RECORDED, 0);
    if (installs && r[GRZELOTKA_ANTIROLLBACK])
        put_word(r + GRZELOTKA_FLOOR, 9);
    memset(r + GRZELOTKA_LOCKS, 0, GRZELOTKA_SLOTS);
}

/* a device with its old stack, keys of which one is loaded and one locked, anti-rollback on if there is a stack, and the job accepted */
static void begin(const struct job *j) {
    b = (j->size + SECTOR - 1) / SECTOR, q = COUNT - b;
    CHECK(fresh_with_stack(j->old, 7));
    random_bytes(flash, (COUNT - j->old) * SECTOR);
    if (j->old)
        CHECK(command(0x5F) == 0);
    CHECK(store(1, 16) == 1 && store(2, 32) == 0 && store(3, 44) == 2 && command_of(0x59, 2) == 0 && command_of(0x5D, 1) == 0);
    if (j->size)
        put_image(flash, j->p, j->size, 9);
    CHECK(command(j->size ? 0x54 : 0x55) == 0);
    CHECK(record[GRZELOTKA_LOADED_KEY] == 2 && record[GRZELOTKA_LOCKS + 1] == 1); /* kept until something loses them */
    memcpy(begun_record, record, RECORD), memcpy(begun_flash, flash, FLASH);
    want_flash(j), want_record(j);
}

/* ---- a run */

static bool ended(void) {
    return record[GRZELOTKA_MODE] < GRZELOTKA_UPGRADE;
}

static void packets_between(uint32_t way) {
    static const uint8_t wrong[5] = {0x10, 0x52, 0xFC, 1, 0};
    if (way % 2)
        CHECK(restart() == 1);
    if (way / 2 % 2) {
        CHECK(state() == 0x1000 && state() == 0x1000);
        CHECK(command(0x5A) == 1 && command(0x54) == 1 && command(0x55) == 1 && store(1, 16) == 0xFF);
    }
    if (way / 4 % 2)
        CHECK(handle(wrong, 5) == 8 && state() == 0x1000);
}

/* a cut: before the job's end FUS runs, whatever was cut off */
static void cut_now(uint32_t through, uint32_t between) {
    for (uint32_t i = 0; i < 8; i++)
        put_word(filler + below(SECTOR / 4) * 4, random_number());
    uint8_t code = cut(through);
    cuts++;
    if (ended()) {
        CHECK(through && code == (b == 0));
    } else {
        CHECK(code == 1 && record[GRZELOTKA_STORES_MADE] == 0);
        packets_between(between);
    }
}

/* works to the end: no more than all the job's stores, each answer one less */
static void to_the_end(void) {
    uint32_t works = 0, left = 0;
    while (!ended() && works <= total) {
        uint32_t now = work();
        CHECK(works == 0 ? now < total : now == left - 1);
        left = now, works++;
        if (works % 4 == 3 && !ended())
            CHECK(state() == 0x1000);
    }
    CHECK(works <= total && left == 0 && work() == 0);
    CHECK(memcmp(record, wanted_record, RECORD) == 0);
    CHECK(memcmp(flash, wanted_flash, FLASH) == 0);
    runs++;
}

static void go_back_to(const uint8_t *old_record, const uint8_t *old_flash) {
    memcpy(record, old_record, RECORD), memcpy(flash, old_flash, FLASH);
}

static bool at_record_store(void) {
    uint32_t recorded = word(record + GRZELOTKA_SECTORS_RECORDED);
    return recorded == b + c || record[GRZELOTKA_STORES_MADE] == (recorded < b ? 2 : 1);
}

/* a second cut after so many works */
static void cut_again(uint32_t after, uint32_t through, uint32_t between) {
    while (after > 0 && !ended())
        work(), after--;
    if (!ended())
        cut_now(through, between);
    to_the_end();
}

/* the power is cut in the store that is next on the trunk: once, and once more in some store after it */
static void cut_trunk(uint32_t k) {
    for (uint32_t through = 0; through < (at_record_store() ? 2 : 1); through++) {
        go_back_to(trunk_record, trunk_flash);
        cut_now(through * (1 + k % 255), k);
        to_the_end();
        uint32_t seconds = total <= 40 ? 2 * (total + 1) : 2;
        for (uint32_t i = 0; i < seconds; i++) {
            go_back_to(trunk_record, trunk_flash);
            cut_now(through, below(8));
            cut_again(total <= 40 ? i / 2 : below(total - k + 3), i % 2, below(8));
        }
        go_back_to(trunk_record, trunk_flash);
    }
}

static void every_store(void) {
    for (uint32_t k = 0; k < total; k++) {
        memcpy(trunk_record, record, RECORD), memcpy(trunk_flash, flash, FLASH);
        cut_trunk(k);
        CHECK(!ended() && work() == total - k - 1);
    }
    CHECK(ended());
    to_the_end();
}

/* cuts, restarts and packets at random, rare or often */
static void at_random(uint32_t rare) {
    go_back_to(begun_record, begun_flash);
    for (uint32_t i = 0; i < 100000 && !ended(); i++) {
        uint32_t way = below(rare);
        if (way == 0)
            cut_now(below(2), below(8));
        else if (way == 1)
            packets_between(below(8));
        else
            work();
    }
    to_the_end();
}

int main(int count, char **words) {
    int from = count > 1 ? atoi(words[1]) : 1;
    seed = from * 0x9E3779B97F4A7C15u | 1;
    make_device();
    begun_flash = pages(FLASH), wanted_flash = pages(FLASH), trunk_flash = pages(FLASH);
    for (size_t i = 0; i < sizeof jobs / sizeof *jobs; i++) {
        runs = cuts = 0;
        begin(jobs + i);
        every_store();
        for (uint32_t rare = 4; rare < 64; rare++)
            at_random(rare);
        printf("%s: b %u, c %u, %u stores, %u cuts, %u runs\n", jobs[i].name, b, c, total, cuts, runs);
    }
    printf("seed %d, ", from);
    return outcome("sweep");
}
