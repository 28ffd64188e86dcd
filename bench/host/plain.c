/* The stand-in in plain C, written from papers 01 and 02: the same calls with the same checks on the same record bytes (docs/RECORD.md), in place.
   bench/host/run measures the archive beside it, and tests/host/bite seeds bugs into it to see that the tests find them. */
#include "plain.h"
#include "grzelotka.h"
#include "grzelotka_record.h"
#include <stdbool.h>
#include <string.h>

enum { SECTOR = 4096, COUNT = 244, FLASH = COUNT * SECTOR, MOST_KEYS = GRZELOTKA_SLOTS - 1, HEADER = 84 };
#define NO_VERSION 0xFFFFFFFFu

enum { SIMPLE = 1, MASTER = 2, ENCRYPTED = 3 };
enum {
    GET_STATE = 0xFC52, FW_UPGRADE = 0xFC54, FW_DELETE = 0xFC55, UPDATE_AUTH_KEY = 0xFC56, LOCK_AUTH_KEY = 0xFC57, STORE_USR_KEY = 0xFC58,
    LOAD_USR_KEY = 0xFC59, START_WS = 0xFC5A, LOCK_USR_KEY = 0xFC5D, UNLOAD_USR_KEY = 0xFC5E, ACTIVATE_ANTIROLLBACK = 0xFC5F
};

static uint32_t word(const uint8_t *at) {
    return at[0] | (uint32_t)at[1] << 8 | (uint32_t)at[2] << 16 | (uint32_t)at[3] << 24;
}

static void put_word(uint8_t *at, uint32_t x) {
    at[0] = x;
    at[1] = x >> 8;
    at[2] = x >> 16;
    at[3] = x >> 24;
}

static uint32_t sectors_of(uint32_t size) {
    return size / SECTOR + (size % SECTOR != 0);
}

/* ---- sound records */

static bool key_lawful(unsigned type, unsigned size) {
    if (type == SIMPLE || type == MASTER)
        return size == 16 || size == 32;
    return type == ENCRYPTED && (size == 28 || size == 44);
}

static bool size_lawful(uint32_t size) {
    return size >= HEADER && size % 4 == 0;
}

/* check 3 */
static bool room_for(uint32_t p, uint32_t size, uint32_t boundary) {
    return (uint64_t)p + sectors_of(size) + 1 <= boundary;
}

/* two loops with no way out, which clang turns into vectors: four to seven times as fast as leaving at the first bad slot */
static bool slots_sound(const uint8_t *r) {
    const uint8_t *locks = r + GRZELOTKA_LOCKS, *types = r + GRZELOTKA_TYPES, *sizes = r + GRZELOTKA_SIZES;
    unsigned count = r[GRZELOTKA_KEYS_STORED];
    uint8_t bad = locks[0];
    for (unsigned i = 1; i <= count; i++) {
        uint8_t simple = (types[i] == SIMPLE) & ((sizes[i] == 16) | (sizes[i] == 32));
        uint8_t encrypted = (types[i] == ENCRYPTED) & ((sizes[i] == 28) | (sizes[i] == 44));
        bad |= !(simple | encrypted) | (locks[i] > 1);
    }
    for (unsigned i = count + 1; i < GRZELOTKA_SLOTS; i++)
        bad |= types[i] | sizes[i] | locks[i];
    return !bad && (types[0] == 0 ? sizes[0] == 0 : types[0] == MASTER && key_lawful(MASTER, sizes[0]));
}

/* the stores of a job: b copies to q onward, then c sectors cleared, of which the first were the image's */
struct plan {
    uint32_t p, b, q, boundary, image_cleared, cleared;
};

static struct plan plan_of(const uint8_t *r) {
    struct plan j = {.p = word(r + GRZELOTKA_IMAGE_SECTOR), .b = sectors_of(word(r + GRZELOTKA_IMAGE_SIZE))};
    j.boundary = word(r + GRZELOTKA_BOUNDARY);
    j.q = COUNT - j.b;
    j.image_cleared = j.p + j.b < j.q ? j.b : j.q - j.p;
    j.cleared = j.image_cleared + (j.boundary < j.q ? j.q - j.boundary : 0);
    return j;
}

static bool job_sound(const uint8_t *r) {
    uint32_t p = word(r + GRZELOTKA_IMAGE_SECTOR), size = word(r + GRZELOTKA_IMAGE_SIZE), version = word(r + GRZELOTKA_IMAGE_VERSION);
    uint32_t recorded = word(r + GRZELOTKA_SECTORS_RECORDED);
    if (r[GRZELOTKA_MODE] == GRZELOTKA_UPGRADE) {
        if (!size_lawful(size) || version == NO_VERSION || !room_for(p, size, word(r + GRZELOTKA_BOUNDARY)))
            return false;
    } else if (!r[GRZELOTKA_STACK_PRESENT] || p || size || version) {
        return false;
    }
    struct plan j = plan_of(r);
    if (recorded < j.b)
        return r[GRZELOTKA_STORES_MADE] <= 2;
    if (recorded < j.b + j.cleared)
        return r[GRZELOTKA_STORES_MADE] <= 1;
    return recorded == j.b + j.cleared && r[GRZELOTKA_STORES_MADE] == 0;
}

static bool error_sound(uint8_t e) {
    return e <= 0x04 || e == 0x0A || e == 0x11 || e == 0xFF;
}

static bool head_sound(const uint8_t *r) {
    uint32_t boundary = word(r + GRZELOTKA_BOUNDARY), version = word(r + GRZELOTKA_STACK_VERSION);
    if (r[GRZELOTKA_AUTH_KEY_PRESENT] > 1 || r[GRZELOTKA_AUTH_KEY_LOCKED] > 1 || r[GRZELOTKA_ANTIROLLBACK] > 1)
        return false;
    if (r[GRZELOTKA_STACK_PRESENT] > 1 || r[GRZELOTKA_STATE_REQUESTED] > 1 || r[GRZELOTKA_MODE] > GRZELOTKA_DELETE)
        return false;
    if (boundary < 1 || boundary > COUNT || word(r + GRZELOTKA_STACK_SECTORS) != COUNT - boundary)
        return false;
    if (r[GRZELOTKA_STACK_PRESENT] != (boundary != COUNT) || r[GRZELOTKA_STACK_PRESENT] != (version != NO_VERSION))
        return false;
    if (r[GRZELOTKA_AUTH_KEY_LOCKED] > r[GRZELOTKA_AUTH_KEY_PRESENT] ||
        (r[GRZELOTKA_STATE_REQUESTED] && r[GRZELOTKA_MODE] != GRZELOTKA_STACK_RUNS) || (!r[GRZELOTKA_ANTIROLLBACK] && word(r + GRZELOTKA_FLOOR)))
        return false;
    if (r[GRZELOTKA_PENDING_ERROR] && (r[GRZELOTKA_MODE] != GRZELOTKA_IDLE || !error_sound(r[GRZELOTKA_PENDING_ERROR])))
        return false;
    if (r[GRZELOTKA_KEYS_STORED] > MOST_KEYS || r[GRZELOTKA_LOADED_KEY] > r[GRZELOTKA_KEYS_STORED])
        return false;
    if (r[GRZELOTKA_MODE] == GRZELOTKA_UPGRADE || r[GRZELOTKA_MODE] == GRZELOTKA_DELETE)
        return job_sound(r);
    if (r[GRZELOTKA_STORES_MADE] || word(r + GRZELOTKA_IMAGE_SECTOR) || word(r + GRZELOTKA_IMAGE_SIZE) || word(r + GRZELOTKA_IMAGE_VERSION) ||
        word(r + GRZELOTKA_SECTORS_RECORDED))
        return false;
    return r[GRZELOTKA_MODE] == GRZELOTKA_IDLE || r[GRZELOTKA_STACK_PRESENT];
}

static bool sound(const uint8_t *r, size_t length) {
    if (length != GRZELOTKA_RECORD_BYTES || !head_sound(r) || !slots_sound(r))
        return false;
    return r[GRZELOTKA_TYPES + r[GRZELOTKA_LOADED_KEY]] != ENCRYPTED || r[GRZELOTKA_TYPES] == MASTER;
}

/* ---- packets */

static uint8_t refused(uint8_t number, uint8_t *reply, size_t length) {
    if (length)
        memset(reply, 0, length);
    return number;
}

static bool payload_lawful(uint16_t opcode, uint8_t length) {
    switch (opcode) {
    case UPDATE_AUTH_KEY:
        return length == 1 + GRZELOTKA_AUTH_KEY_BYTES;
    case STORE_USR_KEY:
        return length >= 2;
    case LOAD_USR_KEY:
    case LOCK_USR_KEY:
    case UNLOAD_USR_KEY:
        return length == 1;
    default:
        return length == 0;
    }
}

static bool listed(uint16_t opcode) {
    return opcode >= GET_STATE && opcode <= ACTIVATE_ANTIROLLBACK && opcode != 0xFC53 && opcode != 0xFC5B && opcode != 0xFC5C;
}

static uint8_t read_packet(const uint8_t *packet, size_t length, uint16_t *opcode) {
    if (length < 4)
        return 4;
    if (packet[0] != 0x10)
        return 5;
    if (packet[3] != length - 4)
        return 6;
    *opcode = packet[1] | packet[2] << 8;
    if (!listed(*opcode))
        return 7;
    if (!payload_lawful(*opcode, packet[3]))
        return 8;
    if (*opcode == STORE_USR_KEY && packet[5] != packet[3] - 2)
        return 9;
    if (*opcode == UPDATE_AUTH_KEY && packet[4] != GRZELOTKA_AUTH_KEY_BYTES)
        return 9;
    return 0;
}

static void put_event(const uint8_t *r, uint8_t *event, size_t length) {
    const uint8_t bytes[6] = {0x12, 0xFF, 0x03, 0x00, 0x92, r[GRZELOTKA_MODE] == GRZELOTKA_STACK_RUNS ? 0 : 1};
    memcpy(event, bytes, 6);
    memset(event + 6, 0, length - 6);
}

/* ---- commands */

static void lose(uint8_t *r) {
    r[GRZELOTKA_LOADED_KEY] = r[GRZELOTKA_STATE_REQUESTED] = r[GRZELOTKA_PENDING_ERROR] = r[GRZELOTKA_STORES_MADE] = 0;
    memset(r + GRZELOTKA_LOCKS, 0, GRZELOTKA_SLOTS);
}

static uint32_t sum(const uint8_t *body, size_t length) {
    uint32_t all = 0;
    for (const uint8_t *end = body + length / 4 * 4; body != end; body += 4)
        all += word(body);
    return all;
}

static void erase(uint8_t *flash, uint32_t t) {
    memset(flash + (size_t)t * SECTOR, 0xFF, SECTOR);
}

/* the first hit, or COUNT */
static uint32_t search(const uint8_t *flash, uint32_t boundary) {
    for (uint32_t t = boundary; t-- > 0;) {
        size_t i = 0;
        while (i < 5 && flash[(size_t)t * SECTOR + i] == (uint8_t)"BNI\1\0"[i])
            i++;
        if (i == 5)
            return t;
    }
    return COUNT;
}

static bool header_good(const uint8_t *image) {
    return image[5] == 1 && image[6] <= 1 && image[7] <= 1 && size_lawful(word(image + 8)) && word(image + 12) != NO_VERSION;
}

/* FW_UPGRADE: 0 and the job is recorded, or E */
static uint8_t upgrade(uint8_t *r, uint8_t *flash) {
    uint32_t boundary = word(r + GRZELOTKA_BOUNDARY), p = search(flash, boundary);
    if (p == COUNT)
        return 0x01;
    const uint8_t *image = flash + (size_t)p * SECTOR;
    uint32_t size = word(image + 8), version = word(image + 12);
    if (!header_good(image)) {
        erase(flash, p);
        return 0x02;
    }
    if (!room_for(p, size, boundary))
        return 0x04;
    if (sum(image + HEADER, size - HEADER) != word(image + 16)) {
        erase(flash, p);
        return 0x02;
    }
    if (image[6] == 0)
        return 0x03;
    if (r[GRZELOTKA_AUTH_KEY_PRESENT] && (image[7] == 0 || memcmp(image + 20, r + GRZELOTKA_AUTH_KEY, GRZELOTKA_AUTH_KEY_BYTES) != 0))
        return 0x03;
    if (r[GRZELOTKA_ANTIROLLBACK] && version < word(r + GRZELOTKA_FLOOR))
        return 0x11;
    r[GRZELOTKA_MODE] = GRZELOTKA_UPGRADE;
    put_word(r + GRZELOTKA_IMAGE_SECTOR, p);
    put_word(r + GRZELOTKA_IMAGE_SIZE, size);
    put_word(r + GRZELOTKA_IMAGE_VERSION, version);
    return 0;
}

/* the user keys' commands: the reason why they fail, or none */

/* STORE; `given` is the index */
static uint8_t store_key(uint8_t *r, uint8_t type, const uint8_t *key, uint8_t size, uint8_t *given) {
    if (!key_lawful(type, size))
        return type < SIMPLE || type > ENCRYPTED ? GRZELOTKA_REASON_BAD_TYPE : GRZELOTKA_REASON_BAD_SIZE;
    if (type == MASTER && r[GRZELOTKA_TYPES] != 0)
        return GRZELOTKA_REASON_SECOND_MASTER;
    if (type != MASTER && r[GRZELOTKA_KEYS_STORED] == MOST_KEYS)
        return GRZELOTKA_REASON_STORE_FULL;
    uint8_t slot = type == MASTER ? 0 : ++r[GRZELOTKA_KEYS_STORED];
    r[GRZELOTKA_TYPES + slot] = type;
    r[GRZELOTKA_SIZES + slot] = size;
    memcpy(r + GRZELOTKA_KEY_BYTES + slot * GRZELOTKA_KEY_BYTES_EACH, key, size);
    *given = slot;
    return GRZELOTKA_REASON_NONE;
}

static uint8_t load_key(uint8_t *r, uint8_t index) {
    if (index == 0 || index > r[GRZELOTKA_KEYS_STORED])
        return GRZELOTKA_REASON_NOT_STORED;
    if (r[GRZELOTKA_LOCKS + index])
        return GRZELOTKA_REASON_LOCKED;
    if (r[GRZELOTKA_TYPES + index] == ENCRYPTED && r[GRZELOTKA_TYPES] != MASTER)
        return GRZELOTKA_REASON_NO_MASTER;
    r[GRZELOTKA_LOADED_KEY] = index;
    return GRZELOTKA_REASON_NONE;
}

static uint8_t lock_key(uint8_t *r, uint8_t index) {
    if (index < 1 || index > r[GRZELOTKA_KEYS_STORED])
        return GRZELOTKA_REASON_NOT_STORED;
    r[GRZELOTKA_LOCKS + index] = 1;
    return GRZELOTKA_REASON_NONE;
}

static uint8_t unload_key(uint8_t *r, uint8_t index) {
    if (index == 0 || index != r[GRZELOTKA_LOADED_KEY])
        return GRZELOTKA_REASON_NOT_LOADED;
    r[GRZELOTKA_LOADED_KEY] = 0;
    return GRZELOTKA_REASON_NONE;
}

static uint8_t key_command(uint8_t *r, uint16_t opcode, const uint8_t *payload, uint8_t length, uint8_t *given) {
    switch (opcode) {
    case STORE_USR_KEY:
        return store_key(r, payload[0], payload + 2, length - 2, given);
    case LOAD_USR_KEY:
        return load_key(r, payload[0]);
    case LOCK_USR_KEY:
        return lock_key(r, payload[0]);
    default:
        return unload_key(r, payload[0]);
    }
}

/* what a command says besides its status: STORE's index, and why a key was turned down */
struct said {
    uint8_t given, reason;
};

/* a command other than GET_STATE with FUS idle: 0 or E */
static uint8_t idle(uint8_t *r, uint8_t *flash, uint16_t opcode, const uint8_t *payload, uint8_t length, struct said *said) {
    switch (opcode) {
    case FW_UPGRADE:
        return upgrade(r, flash);
    case FW_DELETE:
        if (!r[GRZELOTKA_STACK_PRESENT])
            return 0x01;
        r[GRZELOTKA_MODE] = GRZELOTKA_DELETE;
        return 0;
    case START_WS:
        if (!r[GRZELOTKA_STACK_PRESENT])
            return 0x01;
        lose(r);
        r[GRZELOTKA_MODE] = GRZELOTKA_STACK_RUNS;
        return 0;
    case UPDATE_AUTH_KEY:
        if (r[GRZELOTKA_AUTH_KEY_LOCKED])
            return 0x0A;
        r[GRZELOTKA_AUTH_KEY_PRESENT] = 1;
        memcpy(r + GRZELOTKA_AUTH_KEY, payload + 1, GRZELOTKA_AUTH_KEY_BYTES);
        return 0;
    case LOCK_AUTH_KEY:
        r[GRZELOTKA_AUTH_KEY_LOCKED] = r[GRZELOTKA_AUTH_KEY_PRESENT];
        return r[GRZELOTKA_AUTH_KEY_PRESENT] ? 0 : 0xFF;
    case ACTIVATE_ANTIROLLBACK:
        if (!r[GRZELOTKA_ANTIROLLBACK])
            memcpy(r + GRZELOTKA_FLOOR, r + GRZELOTKA_STACK_VERSION, 4);
        r[GRZELOTKA_ANTIROLLBACK] = 1;
        return 0;
    default:
        said->reason = key_command(r, opcode, payload, length, &said->given);
        return said->reason ? 0xFF : 0;
    }
}

/* GET_STATE: the state, and the error behind it */
static uint8_t get_state(uint8_t *r, uint8_t *error) {
    *error = 0x00;
    if (r[GRZELOTKA_MODE] == GRZELOTKA_UPGRADE || r[GRZELOTKA_MODE] == GRZELOTKA_DELETE)
        return 0x10;
    if (r[GRZELOTKA_MODE] == GRZELOTKA_IDLE) {
        *error = r[GRZELOTKA_PENDING_ERROR];
        r[GRZELOTKA_PENDING_ERROR] = 0;
        return *error ? 0xFF : 0x00;
    }
    *error = 0xFE;
    if (r[GRZELOTKA_STATE_REQUESTED]) {
        lose(r);
        r[GRZELOTKA_MODE] = GRZELOTKA_IDLE;
    } else {
        r[GRZELOTKA_STATE_REQUESTED] = 1;
    }
    return 0xFF;
}

/* ---- the calls */

size_t plain_record_bytes(void) {
    return GRZELOTKA_RECORD_BYTES;
}

uint8_t plain_fresh(uint8_t *record, size_t record_len) {
    if (record_len != GRZELOTKA_RECORD_BYTES)
        return 1;
    memset(record, 0, GRZELOTKA_RECORD_BYTES);
    record[GRZELOTKA_MODE] = GRZELOTKA_IDLE;
    put_word(record + GRZELOTKA_STACK_VERSION, NO_VERSION);
    put_word(record + GRZELOTKA_BOUNDARY, COUNT);
    return 0;
}

uint8_t plain_read(const uint8_t *packet, size_t packet_len, uint16_t *opcode, uint8_t *payload_len) {
    uint8_t number = read_packet(packet, packet_len, opcode);
    if (number)
        *opcode = 0;
    *payload_len = number ? 0 : packet[3];
    return number;
}

/* in both calls whole, so that neither pays for the other */
static inline __attribute__((always_inline)) uint8_t handle_packet(uint8_t *record, size_t record_len, uint8_t *flash, size_t flash_len,
                                                                   const uint8_t *packet, size_t packet_len, uint8_t *reply, size_t reply_len,
                                                                   uint8_t *reason) {
    uint16_t opcode;
    *reason = GRZELOTKA_REASON_NONE;
    if (!sound(record, record_len))
        return refused(1, reply, reply_len);
    if (flash_len != FLASH)
        return refused(2, reply, reply_len);
    if (reply_len < 8)
        return refused(3, reply, reply_len);
    uint8_t number = read_packet(packet, packet_len, &opcode);
    if (number)
        return refused(number, reply, reply_len);
    struct said said = {.given = 0xFF};
    uint8_t status = 0x01, length = opcode == GET_STATE || opcode == STORE_USR_KEY ? 5 : 4;
    if (opcode == GET_STATE) {
        status = get_state(record, &said.given);
    } else if (record[GRZELOTKA_MODE] == GRZELOTKA_IDLE) {
        uint8_t error = idle(record, flash, opcode, packet + 4, packet[3], &said);
        record[GRZELOTKA_PENDING_ERROR] = error;
        status = error != 0;
    } else {
        record[GRZELOTKA_STATE_REQUESTED] = 0;
    }
    *reason = said.reason;
    const uint8_t bytes[8] = {0x11, 0x0E, length, 0xFF, packet[1], packet[2], status, length == 5 ? said.given : 0};
    memcpy(reply, bytes, 8);
    memset(reply + 8, 0, reply_len - 8);
    return 0;
}

uint8_t plain_handle(uint8_t *record, size_t record_len, uint8_t *flash, size_t flash_len, const uint8_t *packet, size_t packet_len,
                     uint8_t *reply, size_t reply_len) {
    uint8_t reason;
    return handle_packet(record, record_len, flash, flash_len, packet, packet_len, reply, reply_len, &reason);
}

uint8_t plain_handle_why(uint8_t *record, size_t record_len, uint8_t *flash, size_t flash_len, const uint8_t *packet, size_t packet_len,
                         uint8_t *reply, size_t reply_len, uint8_t *reason) {
    return handle_packet(record, record_len, flash, flash_len, packet, packet_len, reply, reply_len, reason);
}

uint8_t plain_restart(uint8_t *record, size_t record_len, uint8_t *event, size_t event_len) {
    if (!sound(record, record_len))
        return refused(1, event, event_len);
    if (event_len < 6)
        return refused(3, event, event_len);
    lose(record);
    put_event(record, event, event_len);
    return 0;
}

enum kind { ERASE, WRITE, RECORD_IT, LAST };

struct store {
    enum kind kind;
    uint32_t target, source, count;
};

static struct store next_store(const uint8_t *r, const struct plan *j) {
    uint32_t done = word(r + GRZELOTKA_SECTORS_RECORDED);
    struct store s = {.kind = LAST};
    if (done < j->b) {
        uint32_t i = j->b - 1 - done, rest = word(r + GRZELOTKA_IMAGE_SIZE) - i * SECTOR;
        s.kind = r[GRZELOTKA_STORES_MADE] == 0 ? ERASE : r[GRZELOTKA_STORES_MADE] == 1 ? WRITE : RECORD_IT;
        s.target = j->q + i;
        s.source = j->p + i;
        s.count = rest < SECTOR ? rest : SECTOR;
    } else if (done < j->b + j->cleared) {
        uint32_t i = done - j->b;
        s.kind = r[GRZELOTKA_STORES_MADE] == 0 ? ERASE : RECORD_IT;
        s.target = i < j->image_cleared ? j->p + i : j->boundary + (i - j->image_cleared);
    }
    return s;
}

/* the stores still to do */
static uint32_t left_of(const uint8_t *r, const struct plan *j) {
    uint32_t done = word(r + GRZELOTKA_SECTORS_RECORDED);
    uint32_t copies = done < j->b ? j->b - done : 0;
    return 3 * copies + 2 * (j->b + j->cleared - done - copies) + 1 - r[GRZELOTKA_STORES_MADE];
}

static void commit(uint8_t *r, const struct plan *j) {
    bool installs = r[GRZELOTKA_MODE] == GRZELOTKA_UPGRADE;
    uint32_t version = installs ? word(r + GRZELOTKA_IMAGE_VERSION) : NO_VERSION;
    r[GRZELOTKA_STACK_PRESENT] = installs;
    r[GRZELOTKA_MODE] = installs ? GRZELOTKA_STACK_RUNS : GRZELOTKA_IDLE;
    put_word(r + GRZELOTKA_STACK_VERSION, version);
    put_word(r + GRZELOTKA_STACK_SECTORS, j->b);
    put_word(r + GRZELOTKA_BOUNDARY, j->q);
    if (installs && r[GRZELOTKA_ANTIROLLBACK])
        put_word(r + GRZELOTKA_FLOOR, version);
    memset(r + GRZELOTKA_IMAGE_SECTOR, 0, GRZELOTKA_FLOOR - GRZELOTKA_IMAGE_SECTOR);
    lose(r);
}

static void record_sector(uint8_t *r) {
    put_word(r + GRZELOTKA_SECTORS_RECORDED, word(r + GRZELOTKA_SECTORS_RECORDED) + 1);
    r[GRZELOTKA_STORES_MADE] = 0;
}

static void write_sector(uint8_t *flash, const struct store *s) {
    uint8_t *to = flash + (size_t)s->target * SECTOR;
    memcpy(to, flash + (size_t)s->source * SECTOR, s->count);
    memset(to + s->count, 0xFF, SECTOR - s->count);
}

static bool has_job(const uint8_t *r) {
    return r[GRZELOTKA_MODE] == GRZELOTKA_UPGRADE || r[GRZELOTKA_MODE] == GRZELOTKA_DELETE;
}

uint8_t plain_work(uint8_t *record, size_t record_len, uint8_t *flash, size_t flash_len, uint32_t *left) {
    *left = 0;
    if (!sound(record, record_len))
        return 1;
    if (flash_len != FLASH)
        return 2;
    if (!has_job(record))
        return 0;
    struct plan j = plan_of(record);
    struct store s = next_store(record, &j);
    *left = left_of(record, &j) - 1;
    switch (s.kind) {
    case ERASE:
        erase(flash, s.target);
        record[GRZELOTKA_STORES_MADE]++;
        break;
    case WRITE:
        write_sector(flash, &s);
        record[GRZELOTKA_STORES_MADE]++;
        break;
    case RECORD_IT:
        record_sector(record);
        break;
    case LAST:
        commit(record, &j);
        break;
    }
    return 0;
}

uint8_t plain_cut(uint8_t *record, size_t record_len, uint8_t *flash, size_t flash_len, const uint8_t *filler, size_t filler_len,
                  uint8_t through, uint8_t *event, size_t event_len) {
    if (!sound(record, record_len))
        return refused(1, event, event_len);
    if (flash_len != FLASH)
        return refused(2, event, event_len);
    if (event_len < 6)
        return refused(3, event, event_len);
    if (filler_len != SECTOR)
        return refused(10, event, event_len);
    if (has_job(record)) {
        struct plan j = plan_of(record);
        struct store s = next_store(record, &j);
        if (s.kind == ERASE || s.kind == WRITE)
            memcpy(flash + (size_t)s.target * SECTOR, filler, SECTOR);
        else if (through && s.kind == RECORD_IT)
            record_sector(record);
        else if (through)
            commit(record, &j);
    }
    lose(record);
    put_event(record, event, event_len);
    return 0;
}

size_t plain_next_message(const uint8_t *event, size_t event_len, const uint8_t *response, size_t response_len) {
    if (event_len >= 6 && event[0] == 0x12 && event[1] == 0xFF && event[2] == 0x03)
        return 6;
    if (response_len >= 7 && response[0] == 0x11 && response[1] == 0x0E && response[2] == 0x04)
        return 7;
    if (response_len >= 8 && response[0] == 0x11 && response[1] == 0x0E && response[2] == 0x05)
        return 8;
    return 0;
}

/* ---- the serial line

   A reader is the number of bytes received of the current command, those bytes, and zeros. The phases of a command end after so many
   bytes; the data phase after 12 and as many as the size says. */
enum { READER = 78, PAIR = 2, OPCODE = 6, ADDRESS_SIZE = 8, ADDRESS = 9, DATA_SIZE = 11, DATA = 12, MOST_RECEIVED = 76, MOST_SENT = 10 };
enum { ACK = 0x79, NACK = 0x1F };

static bool is_write(const uint8_t *s) {
    return s[0] == 0x51;
}

static bool pair_good(const uint8_t *s) {
    return (s[0] == 0x50 && s[1] == 0xAF) || (s[0] == 0x51 && s[1] == 0xAE);
}

/* the low byte of the packet's opcode for the line's, from 0x52 on; 0 where a special write has no such command */
static const uint8_t written[9] = {0x55, 0x54, 0, 0, 0x56, 0x57, 0x58, 0x59, 0x5A};

static bool opcode_good(const uint8_t *s) {
    if (s[2] != 0 || s[4] != 0xFF || (s[3] ^ s[5]) != 0xFF)
        return false;
    if (!is_write(s))
        return s[3] == 0x54;
    return s[3] >= 0x52 && s[3] <= 0x5A && written[s[3] - 0x52] != 0;
}

static bool size_good(const uint8_t *s) {
    if (s[9] != 0)
        return false;
    switch (s[3]) {
    case 0x56:
        return s[10] == 65;
    case 0x58:
        return s[10] >= 2 && s[10] <= 46;
    case 0x59:
        return s[10] == 1;
    default:
        return s[10] == 0;
    }
}

/* how many bytes the command has, as far as n of them tell */
static unsigned whole_length(const uint8_t *s, unsigned n) {
    if (!is_write(s))
        return ADDRESS;
    return n < DATA_SIZE ? DATA : DATA + s[10];
}

/* the phase that ends with byte n, if one does: the data phase is data_good's */
static bool phase_good(const uint8_t *s, unsigned n) {
    switch (n) {
    case PAIR:
        return pair_good(s);
    case OPCODE:
        return opcode_good(s);
    case ADDRESS_SIZE:
        return (s[6] | s[7]) == 0;
    case ADDRESS:
        return s[8] == 0;
    case DATA_SIZE:
        return size_good(s);
    default:
        return true;
    }
}

/* every phase that n bytes complete is good */
static bool phases_good(const uint8_t *s, unsigned n) {
    return (n < PAIR || phase_good(s, PAIR)) && (n < OPCODE || phase_good(s, OPCODE)) && (n < ADDRESS_SIZE || phase_good(s, ADDRESS_SIZE)) &&
           (n < ADDRESS || phase_good(s, ADDRESS)) && (n < DATA_SIZE || phase_good(s, DATA_SIZE));
}

/* all zeros from byte `from` on; by many bytes at once from the end, which is faster than byte for byte */
static bool zeros_from(const uint8_t *reader, unsigned from) {
    uint64_t behind = 0, words[4];
    unsigned i = READER;
    for (; i >= from + 32; i -= 32) {
        memcpy(words, reader + i - 32, 32);
        behind |= words[0] | words[1] | words[2] | words[3];
    }
    for (; i >= from + 8; i -= 8) {
        memcpy(words, reader + i - 8, 8);
        behind |= words[0];
    }
    while (i > from)
        behind |= reader[--i];
    return behind == 0;
}

static bool reader_lawful(const uint8_t *reader, size_t length) {
    if (length != READER || reader[0] > MOST_RECEIVED)
        return false;
    unsigned n = reader[0];
    return zeros_from(reader, 1 + n) && phases_good(reader + 1, n) && (n < PAIR || n < whole_length(reader + 1, n));
}

/* the size bytes, the data and their XOR make 0 */
static bool data_good(const uint8_t *s, unsigned n) {
    uint8_t all = 0;
    for (unsigned i = ADDRESS; i < n; i++)
        all ^= s[i];
    return all == 0;
}

/* what GET_STATE would reply next */
static uint8_t peek(const uint8_t *r, uint8_t *error) {
    *error = r[GRZELOTKA_MODE] == GRZELOTKA_IDLE ? r[GRZELOTKA_PENDING_ERROR] : r[GRZELOTKA_MODE] == GRZELOTKA_STACK_RUNS ? 0xFE : 0x00;
    return has_job(r) ? 0x10 : *error ? 0xFF : 0x00;
}

static uint8_t send(uint8_t *out, const uint8_t *bytes, uint8_t count) {
    memcpy(out, bytes, count);
    return count;
}

/* the response behind the last ACK: how many bytes */
static uint8_t respond(const uint8_t *r, const uint8_t *reply, uint8_t *out) {
    uint8_t error, state = peek(r, &error);
    if (reply[4] == (GET_STATE & 0xFF))
        return send(out, (const uint8_t[]){0x00, 0x03, 0x00, reply[6], reply[7], 0x00, 0x01, 0x00, ACK}, 9);
    if (reply[6])
        return send(out, (const uint8_t[]){0x00, 0x03, 0x01, state, error, ACK}, 6);
    if (reply[4] == (STORE_USR_KEY & 0xFF))
        return send(out, (const uint8_t[]){0x00, 0x03, 0x00, state, reply[7], ACK}, 6);
    return send(out, (const uint8_t[]){0x00, 0x01, 0x00, ACK}, 4);
}

/* a whole command of n bytes as our packet: how many bytes */
static size_t packet_of(const uint8_t *s, unsigned n, uint8_t *packet) {
    uint8_t size = is_write(s) ? n - DATA : 0;
    packet[0] = 0x10;
    packet[1] = is_write(s) ? written[s[3] - 0x52] : GET_STATE & 0xFF;
    packet[2] = 0xFC;
    packet[3] = size;
    memcpy(packet + 4, s + DATA_SIZE, size);
    return 4 + size;
}

size_t plain_serial_bytes(void) {
    return READER;
}

uint8_t plain_serial_fresh(uint8_t *reader, size_t reader_len) {
    if (reader_len != READER)
        return 19;
    memset(reader, 0, READER);
    return 0;
}

/* the command is whole: it is handled, and the response, or a NACK in its place, stands behind the ACK */
static uint8_t answer_line(uint8_t *record, size_t record_len, uint8_t *flash, size_t flash_len, const uint8_t *s, unsigned n, uint8_t *out,
                           uint8_t *reason) {
    uint8_t packet[4 + 65], reply[8];
    size_t length = packet_of(s, n, packet);
    out[0] = ACK;
    if (plain_handle_why(record, record_len, flash, flash_len, packet, length, reply, 8, reason) == 0)
        return 1 + respond(record, reply, out + 1);
    out[1] = NACK;
    return 2;
}

uint8_t plain_serial(uint8_t *record, size_t record_len, uint8_t *flash, size_t flash_len, uint8_t *reader, size_t reader_len, uint8_t byte,
                     uint8_t *out, size_t out_len, uint8_t *sent, uint8_t *reason) {
    *sent = *reason = 0;
    if (out_len)
        memset(out, 0, out_len);
    if (out_len < MOST_SENT)
        return 3;
    if (!reader_lawful(reader, reader_len))
        return 19;
    unsigned n = ++reader[0];
    uint8_t *s = reader + 1;
    s[n - 1] = byte;
    bool last = n >= PAIR && n == whole_length(s, n), wrong = !phase_good(s, n) || (last && is_write(s) && !data_good(s, n));
    if (wrong)
        *sent = send(out, &(const uint8_t){NACK}, 1);
    else if (last)
        *sent = answer_line(record, record_len, flash, flash_len, s, n, out, reason);
    else if (n == PAIR || n == OPCODE || n == ADDRESS)
        *sent = send(out, &(const uint8_t){ACK}, 1);
    if (wrong || last)
        plain_serial_fresh(reader, READER);
    return 0;
}
