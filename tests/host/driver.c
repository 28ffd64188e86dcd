/* Plays calls for the model: it maps the file it is given, which the model maps too, and for each request on standard input makes one call on
   the buffers in that file and writes the answer to standard output. playing.py knows the same places. */
#include "grzelotka.h"
#include "grzelotka_record.h"
#include <stdbool.h>
#include <string.h>

long read(int, void *, size_t);
long write(int, const void *, size_t);
int open(const char *, int, ...);
void *mmap(void *, size_t, int, int, int, long);

enum { RECORD_AT = 0, PACKET_AT = 8192, FILLER_AT = 12288, REPLY_AT = 20480, FLASH_AT = 24576, VERDICT_AT = 1048576, WHOLE = 2359296 };
/* of the serial line: the reader stands behind the packet, and what happened with each byte of a stream where verdicts would */
enum { READER_AT = 11264, LOG_AT = VERDICT_AT, SERIAL_OUT = 12 };
enum { FRESH, READ, HANDLE, RESTART, WORK, CUT, NEXT_MESSAGE, RECORD_BYTES, VERDICTS, HANDLE_WHY, SERIAL_BYTES, SERIAL_FRESH, SERIAL };

struct request {
    uint32_t call, record, flash, packet, reply, filler, through;
};

struct answer {
    uint32_t answer, first, second;
};

static uint8_t *file;

/* the buffer at a place of the file; one of no length is NULL */
static uint8_t *at(size_t place, uint32_t length) {
    return length ? file + place : NULL;
}

/* for each byte of the record and each value: what restart would answer with that byte changed */
static void verdicts(void) {
    uint8_t record[GRZELOTKA_RECORD_BYTES], event[6];
    for (size_t i = 0; i < sizeof record; i++)
        for (int value = 0; value < 256; value++) {
            memcpy(record, file + RECORD_AT, sizeof record);
            record[i] = value;
            file[VERDICT_AT + 256 * i + value] = grzelotka_restart(record, sizeof record, event, 6);
        }
}

/* A stream on the serial line, byte after byte, and a line of the log for each: the answer, how many bytes are sent, the reason, the out
   buffer and one byte behind it, the reader, and whether the record is another; if so, all of the record follows. Answers with the log's
   length. */
static uint32_t serial(const struct request *q) {
    static uint8_t before[GRZELOTKA_RECORD_BYTES];
    uint8_t *log = file + LOG_AT, *record = file + RECORD_AT;
    for (uint32_t i = 0; i < q->packet; i++) {
        memcpy(before, record, sizeof before);
        memset(log, 0xA5, 3 + SERIAL_OUT + 1);
        log[0] = grzelotka_serial(at(RECORD_AT, q->record), q->record, at(FLASH_AT, q->flash), q->flash, at(READER_AT, q->filler), q->filler,
                                  file[PACKET_AT + i], q->reply ? log + 3 : NULL, q->reply, log + 1, log + 2);
        log += 3 + SERIAL_OUT + 1;
        memcpy(log, file + READER_AT, 80); /* two bytes more than a reader has: none may change */
        log += 80;
        *log = memcmp(before, record, sizeof before) != 0;
        if (*log++)
            memcpy(log, record, sizeof before), log += sizeof before;
    }
    return log - (file + LOG_AT);
}

/* the serial line's calls, and those that take no buffer */
static struct answer play_other(const struct request *q) {
    struct answer a = {0, 0, 0};
    switch (q->call) {
    case RECORD_BYTES:
        a.answer = grzelotka_record_bytes();
        break;
    case SERIAL_BYTES:
        a.answer = grzelotka_serial_bytes();
        break;
    case SERIAL_FRESH:
        a.answer = grzelotka_serial_fresh(at(READER_AT, q->filler), q->filler);
        break;
    case SERIAL:
        a.first = serial(q);
        break;
    default:
        verdicts();
    }
    return a;
}

static struct answer play(const struct request *q) {
    uint8_t *record = at(RECORD_AT, q->record), *flash = at(FLASH_AT, q->flash), *packet = at(PACKET_AT, q->packet);
    uint8_t *reply = at(REPLY_AT, q->reply), *filler = at(FILLER_AT, q->filler);
    struct answer a = {0, 0, 0};
    uint16_t opcode = 0xA5A5;
    uint8_t length = 0xA5, reason = 0xA5;
    switch (q->call) {
    case FRESH:
        a.answer = grzelotka_fresh(record, q->record);
        break;
    case READ:
        a.answer = grzelotka_read(packet, q->packet, &opcode, &length);
        a.first = opcode, a.second = length;
        break;
    case HANDLE:
        a.answer = grzelotka_handle(record, q->record, flash, q->flash, packet, q->packet, reply, q->reply);
        break;
    case RESTART:
        a.answer = grzelotka_restart(record, q->record, reply, q->reply);
        break;
    case WORK:
        a.first = 0xA5A5A5A5;
        a.answer = grzelotka_work(record, q->record, flash, q->flash, &a.first);
        break;
    case CUT:
        a.answer = grzelotka_cut(record, q->record, flash, q->flash, filler, q->filler, q->through, reply, q->reply);
        break;
    case NEXT_MESSAGE:
        a.answer = grzelotka_next_message(packet, q->packet, reply, q->reply);
        break;
    case HANDLE_WHY:
        a.answer = grzelotka_handle_why(record, q->record, flash, q->flash, packet, q->packet, reply, q->reply, &reason);
        a.first = reason;
        break;
    default:
        return play_other(q);
    }
    return a;
}

int main(int count, char **words) {
    struct request q;
    if (count != 2)
        return 2;
    file = mmap(0, WHOLE, 3, 1, open(words[1], 2), 0);
    if (file == (void *)-1)
        return 2;
    while (read(0, &q, sizeof q) == sizeof q) {
        struct answer a = play(&q);
        if (write(1, &a, sizeof a) != sizeof a)
            return 1;
    }
    return 0;
}
