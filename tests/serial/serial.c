/* The serial line from outside: buffers that end at a guard page, the sessions of docs/SERIAL.md and other known ones, every prefix of every
   command with a NACK and a good command behind it, every refusal, and which readers there are. */
#include "host.h"

enum { READER = 78, OUT = 10, MOST = 77 };
enum { ACK = 0x79, NACK = 0x1F };

static uint8_t *reader, *out, *before_flash;
static uint8_t sent, reason, before[RECORD];

/* one byte: the answer */
static uint8_t take(uint8_t byte) {
    sent = reason = 0xA5;
    memset(out, 0xA5, OUT);
    return grzelotka_serial(record, RECORD, flash, FLASH, reader, READER, byte, out, OUT, &sent, &reason);
}

static bool is_new(void) {
    return all(reader, READER, 0);
}

static size_t bytes_of(const char *hex, uint8_t *bytes) {
    size_t n = 0;
    for (; *hex; hex++) {
        if (*hex == ' ')
            continue;
        int digit = *hex <= '9' ? *hex - '0' : *hex - 'A' + 10;
        bytes[n / 2] = n % 2 ? bytes[n / 2] << 4 | digit : digit;
        n++;
    }
    return n / 2;
}

/* the host sends these bytes: only the last is answered, with these; zeros stand behind them */
static bool talk(const char *host, const char *device) {
    uint8_t in[200], wanted[200];
    size_t n = bytes_of(host, in), m = bytes_of(device, wanted);
    for (size_t i = 0; i < n; i++) {
        bool last = i + 1 == n;
        if (take(in[i]) != 0 || sent != (last ? m : 0) || !all(out + sent, OUT - sent, 0))
            return false;
        if (last && memcmp(out, wanted, m) != 0)
            return false;
    }
    return true;
}

/* a special write up to its data packet */
static bool begin_write(const char *opcode) {
    return talk("51 AE", "79") && talk(opcode, "79") && talk("00 00 00", "79");
}

/* a device and a reader as new */
static void begin(void) {
    fresh_with_stack(0, 0);
    memset(reader, 0xA5, READER);
    CHECK(grzelotka_serial_fresh(reader, READER) == 0 && is_new());
}

/* ---- known sessions */

static bool asks_state(const char *answer) {
    return talk("50 AF", "79") && talk("00 54 FF AB", "79") && talk("00 00 00", answer) && is_new() && reason == 0;
}

static void sessions(void) {
    begin();
    CHECK(asks_state("79 00 03 00 00 00 00 01 00 79"));
    CHECK(begin_write("00 58 FF A7") && talk("00 12 01 10 00 01 02 03 04 05 06 07 08 09 0A 0B 0C 0D 0E 0F 03", "79 00 03 00 00 01 79"));
    CHECK(is_new() && reason == 0 && record[GRZELOTKA_KEYS_STORED] == 1 && record[GRZELOTKA_KEY_BYTES + 44 + 15] == 15);
    begin();
    CHECK(begin_write("00 52 FF AD") && talk("00 00 00", "79 00 03 01 FF 01 79") && is_new() && reason == 0);
    CHECK(asks_state("79 00 03 00 FF 01 00 01 00 79") && asks_state("79 00 03 00 00 00 00 01 00 79"));
}

/* each is a NACK, after which the reader is new and the device as before */
static bool turned_down(const char *host) {
    memcpy(before, record, RECORD);
    return talk(host, "1F") && is_new() && reason == 0 && memcmp(before, record, RECORD) == 0;
}

static void damaged_sessions(void) {
    begin();
    CHECK(turned_down("7F 51") && turned_down("50 AE") && turned_down("51 AF") && turned_down("AF 50"));
    CHECK(talk("51 AE", "79") && turned_down("00 58 FF A6"));
    CHECK(talk("51 AE", "79") && turned_down("00 54 FF AB"));
    CHECK(talk("50 AF", "79") && turned_down("00 52 FF AD"));
    CHECK(talk("51 AE", "79") && turned_down("00 55 FF AA"));
    CHECK(talk("51 AE", "79") && turned_down("FF 58 00 A7"));
    CHECK(talk("51 AE", "79") && turned_down("00 58 00 A7") && talk("50 AF", "79") && turned_down("00 54 FE AB"));
    CHECK(talk("51 AE", "79") && turned_down("58 00 A7 FF"));
    for (const char *const *opcode = (const char *const[]){"00 50 FF AF", "00 51 FF AE", "00 5B FF A4", "00 5D FF A2", "00 5E FF A1", "00 5F FF A0",
                                                           "FC 58 03 A7", NULL};
         *opcode; opcode++)
        CHECK(talk("51 AE", "79") && turned_down(*opcode));
    CHECK(begin_write("00 58 FF A7") && turned_down("00 2F") && begin_write("00 58 FF A7") && turned_down("00 01"));
    CHECK(begin_write("00 58 FF A7") && turned_down("01 12") && begin_write("00 58 FF A7") && turned_down("12 00"));
    CHECK(begin_write("00 56 FF A9") && turned_down("00 40") && begin_write("00 56 FF A9") && turned_down("00 42"));
    CHECK(begin_write("00 53 FF AC") && turned_down("00 04") && begin_write("00 59 FF A6") && turned_down("00 00"));
    CHECK(begin_write("00 59 FF A6") && turned_down("00 02") && begin_write("00 5A FF A5") && turned_down("00 01"));
    CHECK(talk("50 AF", "79") && talk("00 54 FF AB", "79") && turned_down("00 01"));
    CHECK(talk("50 AF", "79") && talk("00 54 FF AB", "79") && turned_down("00 00 01"));
    CHECK(talk("51 AE", "79") && talk("00 5A FF A5", "79") && turned_down("00 00 01"));
    CHECK(begin_write("00 59 FF A6") && turned_down("00 01 07 07") && begin_write("00 5A FF A5") && turned_down("00 00 01"));
    CHECK(asks_state("79 00 03 00 00 00 00 01 00 79"));
}

/* ---- the answers in each situation, and the reasons beside them */

/* LOAD of an index */
static bool loads(uint8_t index, const char *answer, uint8_t why) {
    char hex[12] = "00 01 00 00";
    for (int i = 0; i < 2; i++) {
        uint8_t byte = i ? index ^ 1 : index;
        hex[6 + 3 * i] = "0123456789ABCDEF"[byte >> 4], hex[7 + 3 * i] = "0123456789ABCDEF"[byte & 15];
    }
    return begin_write("00 59 FF A6") && talk(hex, answer) && reason == why;
}

/* STORE with no key bytes: its type, and what XOR makes of it */
static bool stores_nothing(const char *packet, const char *answer, uint8_t why) {
    return begin_write("00 58 FF A7") && talk(packet, answer) && reason == why && is_new();
}

static void idle_answers(void) {
    begin();
    CHECK(stores_nothing("00 02 00 00 02", "79 00 03 01 FF FF 79", GRZELOTKA_REASON_BAD_TYPE));
    CHECK(stores_nothing("00 02 01 00 03", "79 00 03 01 FF FF 79", GRZELOTKA_REASON_BAD_SIZE));
    CHECK(stores_nothing("00 02 01 01 02", "79 1F", GRZELOTKA_REASON_NONE)); /* the size inside does not fit: refusal 9 */
    CHECK(loads(1, "79 00 03 01 FF FF 79", GRZELOTKA_REASON_NOT_STORED));
    CHECK(state() == 0xFFFF && store(3, 44) == 1 && loads(1, "79 00 03 01 FF FF 79", GRZELOTKA_REASON_NO_MASTER));
    CHECK(store(1, 16) == 2 && loads(2, "79 00 01 00 79", GRZELOTKA_REASON_NONE) && record[GRZELOTKA_LOADED_KEY] == 2);
    CHECK(command_of(0x5D, 2) == 0 && loads(2, "79 00 03 01 FF FF 79", GRZELOTKA_REASON_LOCKED));
    CHECK(begin_write("00 57 FF A8") && talk("00 00 00", "79 00 03 01 FF FF 79") && reason == 0);
    CHECK(begin_write("00 53 FF AC") && talk("00 00 00", "79 00 03 01 FF 01 79") && begin_write("00 5A FF A5") && talk("00 00 00", "79 00 03 01 FF 01 79"));
}

/* the authentication key goes byte for byte; one whose first byte is not its size is refused */
static void auth_answers(void) {
    uint8_t key[65] = {64}, last = 65;
    begin();
    for (int turn = 0; turn < 2; turn++) {
        CHECK(begin_write("00 56 FF A9") && talk("00 41", ""));
        random_bytes(key + 1, 64);
        key[0] = turn ? 64 : 63, last = 65;
        for (int i = 0; i < 65; i++) {
            CHECK(take(key[i]) == 0 && sent == 0 && reader[0] == 12 + i);
            last ^= key[i];
        }
        CHECK(take(last) == 0 && sent == (turn ? 5 : 2) && memcmp(out, turn ? "\x79\0\1\0\x79" : "\x79\x1F", sent) == 0 && is_new());
        CHECK(record[GRZELOTKA_AUTH_KEY_PRESENT] == turn && (!turn || memcmp(record + GRZELOTKA_AUTH_KEY, key + 1, 64) == 0));
    }
    CHECK(begin_write("00 57 FF A8") && talk("00 00 00", "79 00 01 00 79") && record[GRZELOTKA_AUTH_KEY_LOCKED] == 1);
}

static void busy_answers(void) {
    begin();
    CHECK(fresh_with_stack(4, 7) && begin_write("00 5A FF A5") && talk("00 00 00", "79 00 01 00 79") && restart() == 0);
    CHECK(stores_nothing("00 02 00 00 02", "79 00 03 01 FF FE 79", GRZELOTKA_REASON_NONE));
    CHECK(asks_state("79 00 03 00 FF FE 00 01 00 79") && loads(1, "79 00 03 01 FF FE 79", 0) && record[GRZELOTKA_STATE_REQUESTED] == 0);
    CHECK(asks_state("79 00 03 00 FF FE 00 01 00 79") && talk("51 AE", "79") && turned_down("00 54 FF AB"));
    CHECK(record[GRZELOTKA_STATE_REQUESTED] == 1 && asks_state("79 00 03 00 FF FE 00 01 00 79") && asks_state("79 00 03 00 00 00 00 01 00 79"));
    CHECK(begin_write("00 52 FF AD") && talk("00 00 00", "79 00 01 00 79") && record[GRZELOTKA_MODE] == GRZELOTKA_DELETE);
    CHECK(asks_state("79 00 03 00 10 00 00 01 00 79") && stores_nothing("00 02 00 00 02", "79 00 03 01 10 00 79", GRZELOTKA_REASON_NONE));
    CHECK(begin_write("00 53 FF AC") && work() == 8 && talk("00 00 00", "79 00 03 01 10 00 79") && finish() == 8);
    put_image(flash, 100, 9000, 9);
    CHECK(begin_write("00 53 FF AC") && talk("00 00 00", "79 00 01 00 79") && record[GRZELOTKA_MODE] == GRZELOTKA_UPGRADE);
    put_image(flash, 120, 9000, 9), flash[120 * SECTOR + 5] = 7; /* not looked at: a job is under way */
    CHECK(begin_write("00 53 FF AC") && talk("00 00 00", "79 00 03 01 10 00 79") && flash[120 * SECTOR] == 'B');
}

/* ---- every prefix of every command, then a NACK, then a good command */

struct command {
    uint8_t opcode, packet, least, most;
};
static const struct command commands[] = {{0x54, 0x52, 0, 0}, {0x52, 0x55, 0, 0},   {0x53, 0x54, 0, 0}, {0x56, 0x56, 65, 65},
                                          {0x57, 0x57, 0, 0}, {0x58, 0x58, 2, 46}, {0x59, 0x59, 1, 1}, {0x5A, 0x5A, 0, 0}};
enum { COMMANDS = sizeof commands / sizeof *commands };

static uint8_t xor_of(const uint8_t *at, size_t n) {
    uint8_t all = 0;
    while (n--)
        all ^= *at++;
    return all;
}

/* a good command: how many bytes */
static size_t make_command(uint8_t *s, const struct command *c, uint8_t size) {
    const uint8_t head[11] = {c->opcode == 0x54 ? 0x50 : 0x51, c->opcode == 0x54 ? 0xAF : 0xAE, 0, c->opcode, 0xFF, 255 - c->opcode, 0, 0, 0, 0, size};
    memcpy(s, head, 11);
    if (c->opcode == 0x54)
        return 9;
    random_bytes(s + 11, size);
    if (c->opcode == 0x58)
        s[11] = 1, s[12] = size - 2;
    if (c->opcode == 0x56)
        s[11] = 64;
    s[11 + size] = xor_of(s + 9, size + 2u);
    return 12u + size;
}

/* the prefix, then other bytes until one is answered with a NACK; the reader is then new, the device as before */
static void nack_after(const uint8_t *s, size_t prefix, size_t whole) {
    uint8_t so_far[200];
    size_t n = prefix;
    memcpy(so_far, s, prefix);
    for (size_t i = 0; i < prefix; i++)
        CHECK(take(s[i]) == 0 && sent == (i == 1 || i == 5 || i == 8) && (sent == 0 || out[0] == ACK));
    CHECK(reader[0] == prefix && memcmp(reader + 1, s, prefix) == 0 && all(reader + 1 + prefix, READER - 1 - prefix, 0));
    do {
        so_far[n] = n == whole - 1 && n > 11 ? ~xor_of(so_far + 9, n - 9) : 0xEE;
        CHECK(take(so_far[n++]) == 0);
    } while (sent == 0 && n < 100);
    CHECK(sent == 1 && out[0] == NACK && all(out + 1, OUT - 1, 0) && reason == 0 && is_new() && memcmp(before, record, RECORD) == 0);
}

static void prefixes(void) {
    uint8_t s[200];
    begin();
    CHECK(fresh_with_stack(4, 7) && command(0x54) == 1); /* an error is pending, which GET_STATE would take */
    put_image(flash, 50, 9000, 9);
    memcpy(before_flash, flash, FLASH), memcpy(before, record, RECORD);
    for (size_t i = 0; i < COMMANDS; i++)
        for (unsigned size = commands[i].least; size <= commands[i].most; size++) {
            size_t whole = make_command(s, commands + i, size);
            for (size_t prefix = 0; prefix < whole; prefix++) {
                nack_after(s, prefix, whole);
                CHECK(asks_state("79 00 03 00 FF 01 00 01 00 79") && record[GRZELOTKA_PENDING_ERROR] == 0);
                memcpy(record, before, RECORD);
            }
        }
    CHECK(memcmp(before_flash, flash, FLASH) == 0);
}

/* a byte that does not occur in a command, and with which no pair begins or ends */
static uint8_t odd_byte(const uint8_t *s, size_t n) {
    for (uint8_t byte = 0xFF;; byte--) {
        bool free = byte != 0x50 && byte != 0x51 && byte != 0xAE && byte != 0xAF;
        for (size_t i = 0; i < n; i++)
            free = free && s[i] != byte;
        if (free)
            return byte;
    }
}

/* a client that sends packet after packet while they are answered with an ACK, with byte `at` of the command lost or doubled on the way; then, as
   docs/SERIAL.md says, the same byte until a NACK comes: the line is in step again. With a byte lost nothing has reached the device; with one
   doubled the XOR may be right all the same */
static void in_step_again(const uint8_t *s, size_t n, size_t at, bool doubled) {
    const size_t ends[] = {2, 6, 9, n};
    bool acked = true, reached = false;
    size_t k = 0, tries = 0;
    for (int packet = 0; packet < 4 && acked && k < n; packet++) {
        acked = false;
        for (; k < ends[packet] && k < n; k++)
            for (int times = k == at ? doubled * 2 : 1; times > 0; times--) {
                CHECK(take(s[k]) == 0);
                reached = reached || sent > 1;
                acked = sent == 1 && out[0] == ACK ? true : sent ? false : acked && k == at;
            }
    }
    CHECK(reached ? doubled : !doubled || at < n - 1);
    do
        CHECK(take(odd_byte(s, n)) == 0 && sent < 2);
    while ((sent == 0 || out[0] != NACK) && ++tries < 3);
    CHECK(tries < 3 && is_new() && (reached || memcmp(before, record, RECORD) == 0));
    CHECK(talk("50 AF", "79") && talk("00 54 FF AB", "79") && take(0) == 0 && take(0) == 0 && take(0) == 0 && sent == 10 && is_new());
}

static void lost_bytes(void) {
    uint8_t s[200];
    begin();
    CHECK(fresh_with_stack(4, 7) && store(1, 16) == 1);
    memcpy(before, record, RECORD), memcpy(before_flash, flash, FLASH);
    for (size_t i = 0; i < COMMANDS; i++)
        for (unsigned size = commands[i].least; size <= commands[i].most; size++) {
            size_t whole = make_command(s, commands + i, size);
            for (size_t at = 0; at < 2 * whole; at++) {
                in_step_again(s, whole, at / 2, at % 2);
                memcpy(record, before, RECORD);
            }
        }
    CHECK(memcmp(flash, before_flash, FLASH) == 0);
}

/* each command with FUS idle does to device and flash what its packet does, and its answer says the same */
static void as_packets(void) {
    uint8_t s[200], packet[80], after[RECORD];
    begin();
    CHECK(fresh_with_stack(4, 7) && store(1, 16) == 1);
    put_image(flash, 50, 9000, 9), flash[50 * SECTOR + 5] = 9; /* a header that is erased */
    for (size_t i = 0; i < COMMANDS; i++)
        for (unsigned size = commands[i].least; size <= commands[i].most; size++) {
            size_t whole = make_command(s, commands + i, size);
            const uint8_t head[4] = {0x10, commands[i].packet, 0xFC, size};
            memcpy(packet, head, 4), memcpy(packet + 4, s + 11, size);
            memcpy(before, record, RECORD), memcpy(before_flash, flash, FLASH);
            uint8_t why = 0xA5, number = grzelotka_handle_why(record, RECORD, flash, FLASH, packet, 4 + size, reply, 8, &why);
            memcpy(after, record, RECORD), memcpy(record, before, RECORD);
            uint8_t erased = flash[50 * SECTOR];
            memcpy(flash, before_flash, FLASH);
            for (size_t k = 0; k < whole; k++)
                CHECK(take(s[k]) == 0);
            CHECK(number == 0 && memcmp(after, record, RECORD) == 0 && flash[50 * SECTOR] == erased && reason == why && is_new());
            CHECK(out[0] == ACK && out[sent - 1] == ACK && (commands[i].packet == 0x52 || out[3] == reply[6]));
            memcpy(record, before, RECORD), memcpy(flash, before_flash, FLASH);
        }
}

/* ---- refusals */

static uint8_t *given_out, given_reader[READER];

/* is the byte refused with this number, nothing changed and all of the out buffer zero? */
static bool refuses(uint8_t number, uint8_t *at, size_t length, size_t room) {
    uint8_t *buffer = room ? given_out + 300 - room : NULL;
    sent = reason = 0xA5;
    if (room)
        memset(buffer, 0xA5, room);
    memcpy(before, record, RECORD);
    if (length)
        memcpy(given_reader, at, length < READER ? length : READER);
    uint8_t answer = grzelotka_serial(record, RECORD, flash, FLASH, at, length, 0, buffer, room, &sent, &reason);
    return answer == number && sent == 0 && reason == 0 && (room == 0 || all(buffer, room, 0)) && memcmp(before, record, RECORD) == 0 &&
           (length == 0 || memcmp(given_reader, at, length < READER ? length : READER) == 0);
}

static void lengths(void) {
    begin();
    given_out = guarded(300);
    CHECK(grzelotka_serial_bytes() == READER);
    CHECK(talk("50 AF", "79") && talk("00 54 FF AB", "79") && talk("00 00", "")); /* one byte more and the command is whole */
    for (size_t room = 0; room < OUT; room++)
        CHECK(refuses(3, reader, READER, room) && refuses(3, NULL, 0, room));
    for (size_t length = 0; length <= 200; length++) {
        uint8_t *other = length ? guarded(length) : NULL;
        if (length == READER)
            continue;
        if (length)
            memset(other, 0, length);
        CHECK(refuses(19, other, length, OUT) && refuses(19, other, length, 300) && refuses(3, other, length, OUT - 1));
        if (length)
            memset(other, 0x5A, length);
        CHECK(grzelotka_serial_fresh(other, length) == 19 && (length == 0 || all(other, length, 0x5A)));
    }
    for (size_t room = OUT; room <= 300; room++) {
        uint8_t *buffer = given_out + 300 - room;
        memset(buffer, 0xA5, room), memcpy(given_reader, reader, READER);
        CHECK(grzelotka_serial(record, RECORD, flash, FLASH, reader, READER, 0, buffer, room, &sent, &reason) == 0 && sent == 10 && is_new());
        CHECK(memcmp(buffer, "\x79\0\3\0\0\0\0\1\0\x79", 10) == 0 && all(buffer + 10, room - 10, 0));
        memcpy(reader, given_reader, READER);
    }
}

/* every command on these buffers: a NACK behind the ACK, once it is whole */
static void nack_for_response(uint8_t *r, size_t n, uint8_t *f, size_t m) {
    static uint8_t kept[RECORD + 1];
    uint8_t s[200];
    if (n)
        memcpy(kept, r, n);
    if (m)
        memcpy(before_flash, f, m);
    for (size_t k = 0; k < COMMANDS; k++) {
        size_t whole = make_command(s, commands + k, commands[k].least);
        for (size_t at = 0; at < whole; at++) {
            memset(out, 0xA5, OUT);
            CHECK(grzelotka_serial(r, n, f, m, reader, READER, s[at], out, OUT, &sent, &reason) == 0 && reason == 0);
            CHECK(at + 1 == whole ? sent == 2 && out[0] == ACK && out[1] == NACK : sent < 2 && (sent == 0 || out[0] == ACK));
            CHECK(all(out + sent, OUT - sent, 0));
        }
        CHECK(is_new() && (n == 0 || memcmp(r, kept, n) == 0));
    }
    CHECK(m == 0 || memcmp(f, before_flash, m) == 0);
}

/* a record or a flash that handle refuses */
static void wrong_buffers(void) {
    const size_t record_lengths[] = {0, 1, RECORD - 1, RECORD + 1, RECORD, RECORD, RECORD};
    const size_t flash_lengths[] = {FLASH, FLASH, FLASH, FLASH, FLASH, 0, FLASH - 1};
    begin();
    for (int i = 0; i < 7; i++) {
        size_t n = record_lengths[i], m = flash_lengths[i];
        uint8_t *r = n ? guarded(n) : NULL, *f = m ? guarded(m) : NULL;
        if (n)
            memset(r, 0, n), memcpy(r, record, n < RECORD ? n : RECORD);
        if (i == 4)
            r[GRZELOTKA_MODE] = 4; /* no record's */
        if (m)
            memcpy(f, flash, m);
        nack_for_response(r, n, f, m);
    }
}

/* ---- which readers there are: those that bytes lead to, and no others */

/* do the bytes that these claim to have received lead a new reader to them? */
static bool reached(const uint8_t *wanted) {
    static uint8_t scratch[RECORD], line[READER], said[OUT];
    uint8_t count, why;
    grzelotka_serial_fresh(line, READER);
    if (wanted[0] >= READER)
        return false;
    for (int i = 1; i <= wanted[0]; i++)
        grzelotka_serial(scratch, 0, NULL, 0, line, READER, wanted[i], said, OUT, &count, &why);
    return memcmp(line, wanted, READER) == 0;
}

static void damaged_readers(void) {
    uint8_t s[200];
    unsigned no_readers = 0;
    begin();
    for (unsigned sample = 0; sample < 14; sample++) {
        const struct command *c = commands + (const uint8_t[]){0, 0, 0, 0, 5, 5, 5, 5, 3, 3, 3, 6, 2, 7}[sample];
        uint8_t size = c->opcode == 0x58 ? 18 : c->most, received = (const uint8_t[]){0, 1, 5, 8, 6, 9, 12, 29, 11, 40, 76, 12, 11, 10}[sample];
        make_command(s, c, size);
        grzelotka_serial_fresh(reader, READER);
        for (unsigned i = 0; i < received; i++)
            take(s[i]);
        CHECK(reader[0] == received && reached(reader));
        for (unsigned at = 0; at < READER; at++)
            for (unsigned value = 0; value < 256; value++) {
                uint8_t kept = reader[at];
                reader[at] = value;
                bool good = reached(reader);
                no_readers += !good;
                memcpy(given_reader, reader, READER);
                CHECK(good ? take(s[received]) == 0 : refuses(19, reader, READER, OUT));
                memcpy(reader, given_reader, READER), reader[at] = kept;
            }
    }
    printf("%u damaged readers refused, ", no_readers);
}

int main(int count, char **words) {
    int from = count > 1 ? atoi(words[1]) : 1;
    seed = from * 0x9E3779B97F4A7C15u | 1;
    make_device();
    reader = guarded(READER), out = guarded(OUT), before_flash = pages(FLASH);
    sessions();
    damaged_sessions();
    idle_answers();
    auth_answers();
    busy_answers();
    prefixes();
    lost_bytes();
    as_packets();
    lengths();
    wrong_buffers();
    damaged_readers();
    printf("seed %d, ", from);
    return outcome("serial");
}
