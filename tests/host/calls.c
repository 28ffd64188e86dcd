/* Every C call from outside: buffers that end at a guard page, NULL with length 0, every refusal in its order, replies zeroed to their end,
   and the cases of paper 01. */
#include "host.h"

enum { LONGEST = 260, REPLIES = 300 };

/* ---- packets */

struct command {
    uint16_t opcode;
    uint8_t least, most;
};
static const struct command commands[] = {
    {0xFC52, 0, 0}, {0xFC54, 0, 0}, {0xFC55, 0, 0}, {0xFC56, 65, 65}, {0xFC57, 0, 0}, {0xFC58, 2, 255},
    {0xFC59, 1, 1}, {0xFC5A, 0, 0}, {0xFC5D, 1, 1}, {0xFC5E, 1, 1},   {0xFC5F, 0, 0},
};
enum { COMMANDS = sizeof commands / sizeof *commands };

static uint8_t *packet_area;

/* the packet, so that it ends at a guard page */
static const uint8_t *at_end(const uint8_t *packet, size_t length) {
    if (length == 0)
        return NULL;
    memcpy(packet_area + LONGEST - length, packet, length);
    return packet_area + LONGEST - length;
}

/* a packet with this opcode and payload length, lawful if the command has such a length */
static size_t make_packet(uint8_t *packet, uint16_t opcode, uint8_t length) {
    random_bytes(packet, LONGEST);
    packet[0] = 0x10, packet[1] = opcode, packet[2] = opcode >> 8, packet[3] = length;
    if (opcode == 0xFC58)
        packet[5] = length - 2;
    if (opcode == 0xFC56)
        packet[4] = 64;
    return length + 4u;
}

/* the number that paper 01's table gives a packet */
static uint8_t number_of(const uint8_t *packet, size_t length) {
    if (length < 4)
        return 4;
    if (packet[0] != 0x10)
        return 5;
    if (packet[3] != length - 4)
        return 6;
    for (size_t i = 0; i < COMMANDS; i++) {
        const struct command *c = commands + i;
        if (c->opcode != (packet[1] | packet[2] << 8))
            continue;
        if (packet[3] < c->least || packet[3] > c->most)
            return 8;
        return (c->opcode == 0xFC58 && packet[5] != packet[3] - 2) || (c->opcode == 0xFC56 && packet[4] != 64) ? 9 : 0;
    }
    return 7;
}

static void read_one(const uint8_t *packet, size_t length) {
    uint16_t opcode = 0xA5A5;
    uint8_t payload = 0xA5, number = number_of(packet, length);
    bool good = grzelotka_read(at_end(packet, length), length, &opcode, &payload) == number;
    if (number)
        CHECK(good && opcode == 0 && payload == 0);
    else
        CHECK(good && opcode == (packet[1] | packet[2] << 8) && payload == packet[3]);
}

static void reads(void) {
    uint8_t packet[LONGEST];
    read_one(packet, 0);
    for (uint32_t opcode = 0; opcode < 0x10000; opcode++)
        read_one(packet, make_packet(packet, opcode, opcode % 7 == 0));
    for (size_t i = 0; i < COMMANDS; i++)
        for (int length = 0; length < 256; length++) {
            size_t n = make_packet(packet, commands[i].opcode, length);
            read_one(packet, n);
            packet[4]++, packet[5]++;
            read_one(packet, n);
            for (size_t shorter = 0; shorter < n; shorter += 1 + shorter / 8)
                read_one(packet, shorter);
            packet[3]++;
            read_one(packet, n);
            packet[0]++;
            read_one(packet, n);
        }
}

/* ---- buffers of right and wrong length, each with the refusal that it brings (0: none) */

struct given {
    uint8_t *at;
    size_t length;
    uint8_t number;
};

static struct given given(size_t length, uint8_t number) {
    return (struct given){length ? guarded(length) : NULL, length, number};
}

static uint8_t lowest(uint8_t a, uint8_t b) {
    return a == 0 || (b != 0 && b < a) ? b : a;
}

enum { RECORDS = 8, FLASHES = 4, ANSWERS = 9, FILLERS = 4, PACKETS = 22 };
static struct given records[RECORDS], flashes[FLASHES], answers[ANSWERS], fillers[FILLERS];
static uint8_t packets[PACKETS][LONGEST];
static size_t packet_lengths[PACKETS];
static uint8_t before_record[RECORD + 1], *before_flash;

/* sound records in states that a refused call could spoil: a pending error; the first state request made; a job at a sector store, and at
   a record store */
static void sound_records(void) {
    for (int i = 4; i < RECORDS; i++)
        records[i] = given(RECORD, 0);
    fresh_with_stack(4, 7);
    store(1, 16), store(3, 28), command_of(0x59, 1), command_of(0x5D, 1), command_of(0x59, 2);
    memcpy(records[4].at, record, RECORD);
    put_image(flash, 100, 9000, 8);
    command(0x54);
    memcpy(records[6].at, record, RECORD);
    work(), work();
    memcpy(records[7].at, record, RECORD);
    finish(), state();
    memcpy(records[5].at, record, RECORD);
    CHECK(records[4].at[GRZELOTKA_PENDING_ERROR] == 0xFF && records[5].at[GRZELOTKA_STATE_REQUESTED] == 1 &&
          records[6].at[GRZELOTKA_MODE] == GRZELOTKA_UPGRADE && records[7].at[GRZELOTKA_STORES_MADE] == 2);
}

static void make_given(void) {
    sound_records();
    const size_t record_lengths[4] = {0, RECORD - 1, RECORD + 1, RECORD};
    for (int i = 0; i < 4; i++) {
        records[i] = given(record_lengths[i], 1);
        if (i > 0)
            memcpy(records[i].at, records[4].at, RECORD - 1);
    }
    records[3].at[GRZELOTKA_STACK_PRESENT] = 2; /* no record's */
    const size_t flash_lengths[FLASHES] = {0, FLASH - 1, FLASH + 1, FLASH};
    for (int i = 0; i < FLASHES; i++) {
        flashes[i] = given(flash_lengths[i], flash_lengths[i] == FLASH ? 0 : 2);
        random_bytes(flashes[i].at, flashes[i].length);
    }
    const size_t answer_lengths[ANSWERS] = {0, 1, 5, 6, 7, 8, 9, 64, REPLIES};
    for (int i = 0; i < ANSWERS; i++)
        answers[i] = given(answer_lengths[i], 0);
    const size_t filler_lengths[FILLERS] = {0, SECTOR - 1, SECTOR + 1, SECTOR};
    for (int i = 0; i < FILLERS; i++)
        fillers[i] = given(filler_lengths[i], filler_lengths[i] == SECTOR ? 0 : 10);
}

/* each packet refusal alone, and with the next one */
static void make_packets(void) {
    static const struct {
        uint16_t opcode;
        uint8_t payload, first, length_more, inner_more, cut_to, number;
    } kinds[PACKETS] = {
        {0xFC52, 0, 0x10, 0, 0, 0, 4},   {0xFC52, 0, 0x10, 0, 0, 3, 4},   {0xFC52, 0, 0x11, 0, 0, 1, 4},   {0xFC52, 0, 0x11, 0, 0, 9, 5},
        {0xFC52, 0, 0x11, 1, 0, 9, 5},   {0x0000, 0, 0x00, 0, 0, 9, 5},   {0xFC52, 0, 0x10, 1, 0, 9, 6},   {0xFC53, 0, 0x10, 1, 0, 9, 6},
        {0xFC52, 1, 0x10, 0xFF, 0, 9, 6}, {0xFC53, 0, 0x10, 0, 0, 9, 7},  {0x52FC, 0, 0x10, 0, 0, 9, 7},   {0xFC5B, 1, 0x10, 0, 0, 9, 7},
        {0xFC60, 9, 0x10, 0, 0, 99, 7},  {0xFC52, 1, 0x10, 0, 0, 9, 8},   {0xFC54, 4, 0x10, 0, 0, 9, 8},   {0xFC58, 1, 0x10, 0, 0, 9, 8},
        {0xFC56, 64, 0x10, 0, 1, 99, 8}, {0xFC59, 0, 0x10, 0, 0, 9, 8},   {0xFC58, 18, 0x10, 0, 1, 99, 9}, {0xFC56, 65, 0x10, 0, 1, 99, 9},
        {0xFC58, 255, 0x10, 0, 2, 0xFF, 9}, {0xFC5F, 0, 0x10, 0, 0, 9, 0},
    };
    for (int i = 0; i < PACKETS; i++) {
        uint8_t *packet = packets[i];
        size_t n = make_packet(packet, kinds[i].opcode, kinds[i].payload);
        packet[0] = kinds[i].first;
        packet[3] += kinds[i].length_more;
        packet[kinds[i].opcode == 0xFC56 ? 4 : 5] += kinds[i].inner_more;
        packet_lengths[i] = n < kinds[i].cut_to || kinds[i].cut_to == 0xFF ? n : kinds[i].cut_to;
        CHECK(number_of(packet, packet_lengths[i]) == kinds[i].number);
    }
}

/* what a call was given, kept for comparing; the answer buffer holds an old message */
static void keep(const struct given *r, const struct given *f, const struct given *answer) {
    if (r->length)
        memcpy(before_record, r->at, r->length);
    if (f && f->length)
        memcpy(before_flash, f->at, f->length);
    if (answer && answer->length)
        memset(answer->at, 0x11, answer->length);
}

static bool unchanged(const struct given *r, const struct given *f) {
    return (r->length == 0 || memcmp(before_record, r->at, r->length) == 0) &&
           (f == NULL || f->length == 0 || memcmp(before_flash, f->at, f->length) == 0);
}

static void handle_refusals(void) {
    for (int i = 0; i < RECORDS * FLASHES * ANSWERS * PACKETS; i++) {
        struct given *r = records + i % RECORDS, *f = flashes + i / RECORDS % FLASHES, *a = answers + i / RECORDS / FLASHES % ANSWERS;
        int k = i / RECORDS / FLASHES / ANSWERS;
        uint8_t packet_number = number_of(packets[k], packet_lengths[k]);
        uint8_t number = lowest(lowest(r->number, f->number), lowest(a->length < 8 ? 3 : 0, packet_number));
        keep(r, f, a);
        uint8_t answer = grzelotka_handle(r->at, r->length, f->at, f->length, at_end(packets[k], packet_lengths[k]), packet_lengths[k], a->at, a->length);
        CHECK(answer == number);
        if (number) {
            uint8_t reason = 0xA5;
            CHECK(unchanged(r, f) && all(a->at, a->length, 0));
            answer = grzelotka_handle_why(r->at, r->length, f->at, f->length, at_end(packets[k], packet_lengths[k]), packet_lengths[k], a->at,
                                          a->length, &reason);
            CHECK(answer == number && reason == GRZELOTKA_REASON_NONE && all(a->at, a->length, 0) && unchanged(r, NULL));
        } else {
            CHECK(a->at[0] == 0x11 && a->at[1] == 0x0E && all(a->at + a->at[2] + 3, a->length - a->at[2] - 3, 0));
            memcpy(r->at, before_record, RECORD);
        }
    }
}

static void restart_refusals(void) {
    for (int i = 0; i < RECORDS * ANSWERS; i++) {
        struct given *r = records + i % RECORDS, *a = answers + i / RECORDS;
        uint8_t number = lowest(r->number, a->length < 6 ? 3 : 0);
        keep(r, NULL, a);
        CHECK(grzelotka_restart(r->at, r->length, a->at, a->length) == number);
        if (number)
            CHECK(unchanged(r, NULL) && all(a->at, a->length, 0));
        else
            CHECK(a->at[0] == 0x12 && a->at[5] == (r->at[GRZELOTKA_MODE] != GRZELOTKA_STACK_RUNS) && all(a->at + 6, a->length - 6, 0));
        if (!number)
            memcpy(r->at, before_record, RECORD);
    }
}

static void work_refusals(void) {
    for (int i = 0; i < RECORDS * FLASHES; i++) {
        struct given *r = records + i % RECORDS, *f = flashes + i / RECORDS;
        uint8_t number = lowest(r->number, f->number);
        uint32_t left = 0xA5A5A5A5;
        keep(r, f, NULL);
        CHECK(grzelotka_work(r->at, r->length, f->at, f->length, &left) == number);
        if (number)
            CHECK(unchanged(r, f) && left == 0);
        else if (r->at[GRZELOTKA_MODE] < GRZELOTKA_UPGRADE)
            CHECK(unchanged(r, f) && left == 0);
        else
            CHECK(!unchanged(r, f) && left > 0);
        if (!number)
            memcpy(r->at, before_record, RECORD), memcpy(f->at, before_flash, FLASH);
    }
}

static void cut_refusals(void) {
    for (int i = 0; i < RECORDS * FLASHES * ANSWERS * FILLERS * 3; i++) {
        struct given *r = records + i % RECORDS, *f = flashes + i / RECORDS % FLASHES, *a = answers + i / RECORDS / FLASHES % ANSWERS;
        struct given *x = fillers + i / RECORDS / FLASHES / ANSWERS % FILLERS;
        uint8_t through = (const uint8_t[]){0, 1, 0x80}[i / RECORDS / FLASHES / ANSWERS / FILLERS];
        uint8_t number = lowest(lowest(r->number, f->number), lowest(a->length < 6 ? 3 : 0, x->number));
        keep(r, f, a);
        CHECK(grzelotka_cut(r->at, r->length, f->at, f->length, x->at, x->length, through, a->at, a->length) == number);
        if (number) {
            CHECK(unchanged(r, f) && all(a->at, a->length, 0));
            continue;
        }
        CHECK(a->at[0] == 0x12 && a->at[5] == (before_record[GRZELOTKA_MODE] != GRZELOTKA_STACK_RUNS) && all(a->at + 6, a->length - 6, 0));
        CHECK(unchanged(&(struct given){0}, f) == (r != records + 6));
        CHECK(r->at[GRZELOTKA_SECTORS_RECORDED] == (r == records + 7 && through));
        memcpy(r->at, before_record, RECORD), memcpy(f->at, before_flash, FLASH);
    }
}

static void fresh_refusals(void) {
    for (size_t length = 0; length < 9000; length += length < 8 || (length > RECORD - 13 && length < RECORD + 17) ? 1 : 97) {
        struct given r = given(length, length == RECORD ? 0 : 1);
        memset(r.at, 0xA5, length);
        CHECK(grzelotka_fresh(r.at, length) == r.number);
        if (r.number)
            CHECK(all(r.at, length, 0xA5));
    }
    static const uint8_t start[GRZELOTKA_LOCKS] = {
        [GRZELOTKA_MODE] = GRZELOTKA_IDLE, [GRZELOTKA_STACK_VERSION] = 0xFF, 0xFF, 0xFF, 0xFF, [GRZELOTKA_BOUNDARY] = COUNT};
    memset(record, 0xA5, RECORD);
    CHECK(grzelotka_record_bytes() == RECORD && grzelotka_fresh(record, RECORD) == 0);
    CHECK(memcmp(record, start, sizeof start) == 0 && all(record + sizeof start, RECORD - sizeof start, 0));
}

/* ---- replies */

/* a reply buffer of every length, taken and refused, is zero from the reply to its end */
static void reply_lengths(void) {
    static const uint8_t ask[4] = {0x10, 0x52, 0xFC, 0}, start[4] = {0x10, 0x5A, 0xFC, 0}, wrong[4] = {0x10, 0x53, 0xFC, 0};
    for (size_t n = 0; n <= REPLIES; n++) {
        uint8_t *buffer = guarded(n);
        grzelotka_fresh(record, RECORD);
        memset(buffer, 0xA5, n);
        CHECK(grzelotka_handle(record, RECORD, flash, FLASH, wrong, 4, buffer, n) == (n < 8 ? 3 : 7) && all(buffer, n, 0));
        memset(buffer, 0xA5, n);
        CHECK(grzelotka_handle(record, RECORD, flash, FLASH, ask, 4, buffer, n) == (n < 8 ? 3 : 0));
        CHECK(n < 8 ? all(buffer, n, 0) : memcmp(buffer, "\x11\x0E\x05\xFF\x52\xFC\0\0", 8) == 0 && all(buffer + 8, n - 8, 0));
        memset(buffer, 0xA5, n);
        CHECK(grzelotka_handle(record, RECORD, flash, FLASH, start, 4, buffer, n) == (n < 8 ? 3 : 0));
        CHECK(n < 8 ? all(buffer, n, 0) : memcmp(buffer, "\x11\x0E\x04\xFF\x5A\xFC\1", 7) == 0 && all(buffer + 7, n - 7, 0));
        memset(buffer, 0xA5, n);
        CHECK(grzelotka_restart(record, RECORD, buffer, n) == (n < 6 ? 3 : 0));
        CHECK(n < 6 ? all(buffer, n, 0) : memcmp(buffer, "\x12\xFF\x03\0\x92\1", 6) == 0 && all(buffer + 6, n - 6, 0));
        memset(buffer, 0xA5, n);
        CHECK(grzelotka_cut(record, RECORD, flash, FLASH, filler, SECTOR, 0, buffer, n) == (n < 6 ? 3 : 0));
        CHECK(n < 6 ? all(buffer, n, 0) : memcmp(buffer, "\x12\xFF\x03\0\x92\1", 6) == 0 && all(buffer + 6, n - 6, 0));
    }
}

/* the mailbox incident: a good reply stands in the mailbox, then a damaged command comes; nothing of the old reply is left */
static void damaged_command(const uint8_t *packet, size_t length, uint8_t *mailbox, size_t room) {
    static const uint8_t ask[4] = {0x10, 0x52, 0xFC, 0};
    uint8_t number = number_of(packet, length);
    if (number == 0)
        return;
    grzelotka_fresh(record, RECORD);
    memset(mailbox, 0xA5, room);
    CHECK(grzelotka_handle(record, RECORD, flash, FLASH, ask, 4, mailbox, room) == 0 && mailbox[0] == 0x11);
    CHECK(grzelotka_next_message(NULL, 0, mailbox, room) == 8);
    CHECK(grzelotka_handle(record, RECORD, flash, FLASH, at_end(packet, length), length, mailbox, room) == number);
    CHECK(all(mailbox, room, 0) && grzelotka_next_message(NULL, 0, mailbox, room) == 0);
}

static void mailbox_incident(void) {
    uint8_t good[LONGEST], packet[LONGEST], *mailbox = guarded(REPLIES);
    for (size_t i = 0; i < COMMANDS; i++) {
        size_t n = make_packet(good, commands[i].opcode, commands[i].opcode == 0xFC58 ? 18 : commands[i].most);
        for (size_t length = 0; length < n + 2; length++)
            damaged_command(good, length, mailbox, REPLIES);
        for (size_t bit = 0; bit < 8 * n; bit++) {
            memcpy(packet, good, LONGEST);
            packet[bit / 8] ^= 1 << bit % 8;
            damaged_command(packet, n, mailbox, bit % 2 ? REPLIES : 8);
        }
    }
}

static void next_messages(void) {
    static const uint8_t events[][3] = {{0x12, 0xFF, 3}, {0x11, 0xFF, 3}, {0x12, 0xFE, 3}, {0x12, 0xFF, 4}};
    static const uint8_t responses[][3] = {{0x11, 0x0E, 4}, {0x11, 0x0E, 5}, {0x11, 0x0E, 3}, {0x11, 0x0E, 6}, {0x12, 0x0E, 4}, {0x11, 0x0F, 5}};
    CHECK(grzelotka_next_message(NULL, 0, NULL, 0) == 0);
    for (size_t n = 0; n < 20; n++)
        for (size_t m = 0; m < 20; m++)
            for (int i = 0; i < 24; i++) {
                uint8_t *e = packet_area + LONGEST - n, *r = filler + SECTOR - m;
                memset(e, 0xA5, n), memset(r, 0xA5, m);
                memcpy(e, events[i % 4], n < 3 ? n : 3), memcpy(r, responses[i / 4], m < 3 ? m : 3);
                size_t wanted = i / 4 == 0 && m >= 7 ? 7 : i / 4 == 1 && m >= 8 ? 8 : 0;
                CHECK(grzelotka_next_message(n ? e : NULL, n, m ? r : NULL, m) == (i % 4 == 0 && n >= 6 ? 6 : wanted));
            }
}

/* ---- the cases of paper 01, those marked P too */

static bool replies(const char *bytes, size_t n) {
    return memcmp(reply, bytes, n) == 0 && all(reply + n, 8 - n, 0);
}

/* FW_UPGRADE of an image on a fresh device: its E (0: taken), and the stores it takes */
static uint8_t taken(uint32_t old, uint32_t p, uint32_t size, uint32_t *stores) {
    fresh_with_stack(old, 7);
    put_image(flash, p, size, 9);
    if (command(0x54) != 0)
        return state();
    *stores = work() + 1;
    return 0;
}

static void packet_cases(void) {
    fresh_with_stack(0, 0);
    CHECK(command(0x52) == 0 && replies("\x11\x0E\x05\xFF\x52\xFC\0\0", 8));
    CHECK(command(0x55) == 1 && replies("\x11\x0E\x04\xFF\x55\xFC\1", 7));
    CHECK(state() == 0xFF01 && state() == 0x0000);
    CHECK(store(1, 16) == 1 && replies("\x11\x0E\x05\xFF\x58\xFC\0\1", 8));
    uint8_t wrong[22] = {0x10, 0x58, 0xFC, 0x12, 1, 0x11};
    CHECK(handle(wrong, 22) == 9 && all(reply, 8, 0));
    CHECK(restart() == 1 && memcmp(event, "\x12\xFF\x03\0\x92\1", 6) == 0);
    fresh_with_stack(4, 7);
    CHECK(command(0x5A) == 0 && state() == 0xFFFE && replies("\x11\x0E\x05\xFF\x52\xFC\xFF\xFE", 8));
}

static void upgrade_cases(void) {
    uint32_t stores = 0;
    CHECK(taken(4, 230, 8196, &stores) == 0 && stores == 18);
    CHECK(all(flash + 243 * SECTOR, SECTOR, 0xFF)); /* the first store: the last image sector's target is erased */
    finish();
    CHECK(record[GRZELOTKA_STACK_PRESENT] == 1 && word(record + GRZELOTKA_BOUNDARY) == 241 && word(record + GRZELOTKA_STACK_SECTORS) == 3 &&
          word(record + GRZELOTKA_STACK_VERSION) == 9);
    for (int t = 230; t <= 240; t++)
        CHECK(all(flash + t * SECTOR, SECTOR, 0xFF));
    CHECK(memcmp(flash + 241 * SECTOR, "BNI\1\0", 5) == 0 && all(flash + 243 * SECTOR + 4, SECTOR - 4, 0xFF));
    CHECK(taken(0, 240, 3 * SECTOR, &stores) == 0 && stores == 12);
    CHECK(taken(0, 241, 3 * SECTOR, &stores) == 0x04);
    CHECK(taken(0, 0, 995328, &stores) == 0 && stores == 3 * 243 + 2 + 1);
    CHECK(taken(0, 0, 995332, &stores) == 0x04);
    CHECK(taken(0, 242, 84, &stores) == 0 && stores == 6);
    CHECK(taken(0, 243, 84, &stores) == 0x04);
    CHECK(taken(0, 242, 80, &stores) == 0x02 && all(flash + 242 * SECTOR, SECTOR, 0xFF));
}

/* ---- the seven checks, and what they erase */

/* is FW_UPGRADE answered with this E (0: taken), and nothing changed in flash but, if it erases, sector 50? */
static bool judged(uint8_t wanted, bool erases) {
    static uint8_t *before;
    if (before == NULL)
        before = pages(FLASH);
    memcpy(before, flash, FLASH);
    uint8_t status = command(0x54);
    unsigned now = state();
    if (erases)
        memset(before + 50 * SECTOR, 0xFF, SECTOR);
    return status == (wanted != 0) && now == (wanted ? 0xFF00u | wanted : 0x1000u) && memcmp(before, flash, FLASH) == 0;
}

/* an image at sector 50 with a byte of its header changed, or (where at is 0) with a wrong sum */
static bool judged_with(size_t at, uint8_t value, uint32_t size, uint8_t wanted, bool erases) {
    uint8_t *image = flash + 50 * SECTOR;
    uint8_t kept[RECORD];
    memcpy(kept, record, RECORD);
    memset(flash, 0xFF, FLASH);
    put_image(flash, 50, size, 9);
    if (at)
        image[at] = value;
    else
        image[16]++;
    bool good = judged(wanted, erases);
    memcpy(record, kept, RECORD);
    return good;
}

static void check_cases(void) {
    uint8_t key[64];
    random_bytes(key, 64);
    fresh_with_stack(0, 0);
    CHECK(judged(0x01, false));
    for (int value = 0; value < 256; value++) {
        CHECK(judged_with(5, value, 9000, value == 1 ? 0 : 0x02, value != 1));
        CHECK(judged_with(6, value, 9000, value == 1 ? 0 : value == 0 ? 0x03 : 0x02, value > 1));
        CHECK(judged_with(7, value, 9000, value <= 1 ? 0 : 0x02, value > 1));
        CHECK(judged_with(3, value, 9000, value == 1 ? 0 : 0x01, false));
        CHECK(judged_with(4, value, 9000, value == 0 ? 0 : 0x01, false));
    }
    CHECK(judged_with(1, 'n', 9000, 0x01, false));
    for (uint32_t size = 76; size < 100; size++)
        CHECK(judged_with(5, 1, size, size < 84 || size % 4 ? 0x02 : 0, size < 84 || size % 4));
    CHECK(judged_with(0, 0, 9000, 0x02, true));
    CHECK(judged_with(0, 0, 84, 0x02, true));
    CHECK(judged_with(11, 0xFF, 9000, 0x04, false)); /* a size near 2^32 */
    CHECK(judged_with(11, 0x0F, 9000, 0x04, false));
    CHECK(judged_with(5, 1, 0xFFFFFFFC, 0x04, false)); /* its sectors do not wrap to none */
    CHECK(update_auth(key) == 0);
    CHECK(judged_with(7, 0, 9000, 0x03, false) && judged_with(7, 1, 9000, 0x03, false));
    memset(flash, 0xFF, FLASH), put_image(flash, 50, 9000, 9);
    memcpy(flash + 50 * SECTOR + 20, key, 64), flash[50 * SECTOR + 7] = 1;
    CHECK(judged(0, false));
}

/* the order of the checks: all of them fail, then the first is mended, and so on; p is 50 */
static void order_cases(void) {
    uint8_t key[64], *image = flash + 50 * SECTOR;
    random_bytes(key, 64);
    fresh_with_stack(3, 9);
    CHECK(command(0x5F) == 0 && update_auth(key) == 0 && judged(0x01, false));
    for (int mended = 1; mended <= 7; mended++) {
        uint32_t size = mended >= 3 ? 9000 : 200 * SECTOR;
        put_image(flash, 50, size, mended >= 7 ? 9 : 8);
        image[5] = mended >= 2 ? 1 : 2;
        image[6] = mended >= 5;
        image[7] = mended >= 6;
        memcpy(image + 20, key, 64);
        image[16] += mended < 4;
        CHECK(judged((const uint8_t[]){0x02, 0x04, 0x02, 0x03, 0x03, 0x11, 0}[mended - 1], mended == 1 || mended == 3));
    }
}

static void rollback_cases(void) {
    fresh_with_stack(3, 9);
    CHECK(command(0x5F) == 0 && word(record + GRZELOTKA_FLOOR) == 9);
    CHECK(judged_with(12, 8, 9000, 0x11, false) && judged_with(12, 9, 9000, 0, false) && judged_with(12, 10, 9000, 0, false));
    CHECK(judged_with(15, 0x80, 9000, 0, false)); /* versions have no sign */
    CHECK(command(0x5F) == 0 && word(record + GRZELOTKA_FLOOR) == 9);
    put_image(flash, 50, 9000, 12), CHECK(command(0x54) == 0);
    finish();
    CHECK(word(record + GRZELOTKA_FLOOR) == 12 && record[GRZELOTKA_MODE] == GRZELOTKA_STACK_RUNS);
    CHECK(state() == 0xFFFE && state() == 0xFFFE && command(0x55) == 0 && finish() == 7);
    /* once on, the floor stays */
    CHECK(word(record + GRZELOTKA_STACK_VERSION) == 0xFFFFFFFF && command(0x5F) == 0 && word(record + GRZELOTKA_FLOOR) == 12);
}

/* two images: the higher one is found first */
static void search_cases(void) {
    fresh_with_stack(0, 0);
    put_image(flash, 40, 9000, 9), put_image(flash, 51, 90, 9);
    CHECK(command(0x54) == 1 && state() == 0xFF02 && all(flash + 51 * SECTOR, SECTOR, 0xFF));
    CHECK(command(0x54) == 0 && word(record + GRZELOTKA_IMAGE_SECTOR) == 40);
}

/* ---- keys and the pair of state requests */

static void key_cases(void) {
    fresh_with_stack(0, 0);
    CHECK(command(0x57) == 1 && state() == 0xFFFF);
    CHECK(command_of(0x5E, 0) == 1 && state() == 0xFFFF && command_of(0x59, 0) == 1 && command_of(0x59, 1) == 1 && command_of(0x5D, 0) == 1);
    CHECK(store(0, 16) == 0xFF && store(4, 16) == 0xFF && store(1, 28) == 0xFF && store(3, 32) == 0xFF && store(2, 0) == 0xFF && store(1, 253) == 0xFF);
    CHECK(store(3, 44) == 1 && command_of(0x59, 1) == 1 && state() == 0xFFFF); /* no master yet */
    CHECK(store(2, 32) == 0 && store(2, 16) == 0xFF && command_of(0x59, 1) == 0);
    for (int i = 2; i <= 100; i++)
        CHECK(store(i % 2 ? 1 : 3, i % 2 ? 16 : 28) == i);
    CHECK(store(1, 16) == 0xFF && store(3, 28) == 0xFF && record[GRZELOTKA_KEYS_STORED] == 100);
    CHECK(command_of(0x59, 100) == 0 && command_of(0x59, 101) == 1 && record[GRZELOTKA_LOADED_KEY] == 100);
    CHECK(command_of(0x5D, 100) == 0 && command_of(0x5D, 100) == 0 && record[GRZELOTKA_LOADED_KEY] == 100 && command_of(0x59, 100) == 1 &&
          record[GRZELOTKA_LOADED_KEY] == 100);
    CHECK(command_of(0x5E, 99) == 1 && command_of(0x5E, 100) == 0 && command_of(0x5E, 100) == 1 && command_of(0x5E, 0) == 1);
    CHECK(restart() == 1 && command_of(0x59, 100) == 0);
    uint8_t key[64] = {1};
    CHECK(update_auth(key) == 0 && command(0x57) == 0 && command(0x57) == 0 && update_auth(key) == 1 && state() == 0xFF0A);
}

/* ---- the reasons */

/* the reason of a packet that is taken, on a copy of the device by itself too: asking for it changes nothing */
static uint8_t why(const uint8_t *packet, size_t length) {
    uint8_t reason = 0xA5, given[RECORD], after[RECORD], said[8];
    memcpy(given, record, RECORD);
    CHECK(grzelotka_handle(record, RECORD, flash, FLASH, at_end(packet, length), length, reply, 8) == 0);
    memcpy(after, record, RECORD), memcpy(said, reply, 8), memcpy(record, given, RECORD);
    CHECK(grzelotka_handle_why(record, RECORD, flash, FLASH, at_end(packet, length), length, reply, 8, &reason) == 0);
    CHECK(memcmp(after, record, RECORD) == 0 && memcmp(said, reply, 8) == 0 && (reason == 0 || reply[6] == 1));
    return reason;
}

static uint8_t why_store(uint8_t type, uint8_t n) {
    uint8_t packet[LONGEST];
    make_packet(packet, 0xFC58, n + 2);
    packet[4] = type;
    return why(packet, n + 6u);
}

static uint8_t why_index(uint8_t opcode, uint8_t index) {
    const uint8_t packet[5] = {0x10, opcode, 0xFC, 1, index};
    return why(packet, 5);
}

static uint8_t why_plain(uint8_t opcode) {
    const uint8_t packet[4] = {0x10, opcode, 0xFC, 0};
    return why(packet, 4);
}

static void reason_cases(void) {
    fresh_with_stack(0, 0);
    for (int type = 0; type < 256; type++)
        CHECK(why_store(type, 17) == (type < 1 || type > 3 ? GRZELOTKA_REASON_BAD_TYPE : GRZELOTKA_REASON_BAD_SIZE));
    CHECK(why_plain(0x57) == 0 && reply[6] == 1 && why_plain(0x55) == 0 && reply[6] == 1 && why_plain(0x54) == 0 && reply[6] == 1);
    CHECK(why_index(0x59, 0) == GRZELOTKA_REASON_NOT_STORED && why_index(0x59, 1) == GRZELOTKA_REASON_NOT_STORED);
    CHECK(why_index(0x5D, 0) == GRZELOTKA_REASON_NOT_STORED && why_index(0x5D, 1) == GRZELOTKA_REASON_NOT_STORED);
    CHECK(why_index(0x5E, 0) == GRZELOTKA_REASON_NOT_LOADED && why_index(0x5E, 1) == GRZELOTKA_REASON_NOT_LOADED);
    CHECK(why_store(3, 44) == 0 && reply[7] == 1 && why_index(0x59, 1) == GRZELOTKA_REASON_NO_MASTER);
    CHECK(why_index(0x5D, 1) == 0 && why_index(0x59, 1) == GRZELOTKA_REASON_LOCKED); /* locked comes before no master */
    CHECK(restart() == 1 && why_store(2, 32) == 0 && why_store(2, 16) == GRZELOTKA_REASON_SECOND_MASTER);
    CHECK(why_store(2, 17) == GRZELOTKA_REASON_BAD_SIZE && why_index(0x59, 1) == 0 && why_index(0x5E, 2) == GRZELOTKA_REASON_NOT_LOADED);
    CHECK(why_index(0x5E, 1) == 0 && why_index(0x5E, 1) == GRZELOTKA_REASON_NOT_LOADED);
    for (int i = 2; i <= 100; i++)
        CHECK(why_store(1, 16) == 0 && reply[7] == i);
    CHECK(why_store(1, 16) == GRZELOTKA_REASON_STORE_FULL && why_store(3, 28) == GRZELOTKA_REASON_STORE_FULL);
    CHECK(why_store(1, 28) == GRZELOTKA_REASON_BAD_SIZE && why_store(2, 16) == GRZELOTKA_REASON_SECOND_MASTER && why_index(0x59, 100) == 0);
    CHECK(why_index(0x59, 101) == GRZELOTKA_REASON_NOT_STORED && why_index(0x5D, 101) == GRZELOTKA_REASON_NOT_STORED);
}

/* with the stack running, and in a job, the same commands fail with no reason */
static void no_reason_cases(void) {
    for (int job = 0; job < 2; job++) {
        fresh_with_stack(4, 7);
        CHECK(command(job ? 0x55 : 0x5A) == 0);
        CHECK(why_store(0, 16) == 0 && reply[6] == 1 && reply[7] == 0xFF && why_store(1, 17) == 0 && reply[6] == 1);
        CHECK(why_index(0x59, 1) == 0 && reply[6] == 1 && why_index(0x5D, 1) == 0 && reply[6] == 1 && why_index(0x5E, 1) == 0 && reply[6] == 1);
        CHECK(why_plain(0x52) == 0 && why_plain(0x5F) == 0);
    }
}

/* was the first state request made? */
static bool asked(void) {
    return record[GRZELOTKA_STATE_REQUESTED] == 1;
}

static bool stack_runs(void) {
    return record[GRZELOTKA_MODE] == GRZELOTKA_STACK_RUNS;
}

static void pair_cases(void) {
    static const uint8_t wrong[4] = {0x10, 0x53, 0xFC, 0}, ask[4] = {0x10, 0x52, 0xFC, 0};
    fresh_with_stack(4, 7);
    CHECK(command(0x5A) == 0 && restart() == 0);
    CHECK(state() == 0xFFFE && handle(wrong, 4) == 7 && asked() && state() == 0xFFFE && state() == 0x0000);
    CHECK(command(0x5A) == 0 && handle(wrong, 4) == 7 && state() == 0xFFFE && stack_runs());
    CHECK(grzelotka_handle(record, RECORD, flash, FLASH, ask, 4, reply, 7) == 3 && asked() && stack_runs());
    CHECK(grzelotka_handle(record, RECORD, flash, FLASH - 1, ask, 4, reply, 8) == 2 && asked() && stack_runs());
    CHECK(command(0x57) == 1 && !asked() && state() == 0xFFFE && stack_runs()); /* another lawful command breaks the pair */
    CHECK(work() == 0 && asked() && restart() == 0 && !asked()); /* work does not, a restart does */
    CHECK(state() == 0xFFFE && cut(1) == 0 && state() == 0xFFFE && stack_runs() && state() == 0xFFFE && record[GRZELOTKA_MODE] == GRZELOTKA_IDLE);
}

/* a job pending at start means that FUS runs; during it only GET_STATE does not fail */
static void job_cases(void) {
    fresh_with_stack(4, 7);
    CHECK(command(0x55) == 0 && restart() == 1 && state() == 0x1000);
    for (size_t i = 1; i < COMMANDS; i++) {
        uint8_t packet[LONGEST];
        size_t n = make_packet(packet, commands[i].opcode, commands[i].opcode == 0xFC58 ? 18 : commands[i].most);
        CHECK(handle(packet, n) == 0 && reply[6] == 1 && (commands[i].opcode != 0xFC58 || reply[7] == 0xFF) &&
              record[GRZELOTKA_PENDING_ERROR] == 0);
    }
    for (uint32_t left = 8; left > 0; left--)
        CHECK(work() == left && state() == 0x1000);
    CHECK(cut(0) == 1 && state() == 0x1000 && cut(1) == 1 && state() == 0x0000 && word(record + GRZELOTKA_BOUNDARY) == 244 && work() == 0);
}

int main(int count, char **words) {
    int from = count > 1 ? atoi(words[1]) : 1;
    seed = from * 0x9E3779B97F4A7C15u | 1;
    make_device();
    packet_area = guarded(LONGEST), before_flash = pages(FLASH + 1);
    fresh_refusals();
    reads();
    make_given();
    make_packets();
    handle_refusals();
    restart_refusals();
    work_refusals();
    cut_refusals();
    reply_lengths();
    mailbox_incident();
    next_messages();
    packet_cases();
    upgrade_cases();
    check_cases();
    order_cases();
    rollback_cases();
    search_cases();
    key_cases();
    reason_cases();
    no_reason_cases();
    pair_cases();
    job_cases();
    printf("seed %d, ", from);
    return outcome("calls");
}
