/* Grzelotka: the stand-in for FUS, as a C or C++ host calls it. docs/HOST.md shows a host, docs/SERIAL.md one on the serial line, and
   docs/RECORD.md the bytes of the record, which grzelotka_record.h names, and of the line's reader.

   Each `uint8_t` answer is 0 (taken) or the number of the refusal, the lowest that applies:
    1 the record is of another length, or its bytes are no sound device's    6 the length byte differs from the bytes after it
    2 the flash is not 999,424 bytes                                         7 the opcode is not one of the list
    3 the reply buffer is under 8 bytes, the event buffer under 6,           8 no such payload length for this opcode
      or the line's out buffer under 10
    4 the packet is under 4 bytes                                            9 the size inside the payload does not fit
    5 the packet's first byte is not 0x10                                   10 the filler is not 4,096 bytes
   19 the line's reader is of another length, or its bytes are no reader's (11 to 18 are kept for calls to come)
   A refused call changes no byte of record, flash or reader, and fills its reply, event or out buffer, whatever its length, with zeros. A
   taken call writes its reply, event or what the line sends, and zeros from there to the buffer's end.

   The buffers of one call must not overlap. A host with one mailbox buffer for command and response has the command in a buffer of its own,
   or copies it out of the mailbox first (a packet has at most 259 bytes) and gives the mailbox as the reply buffer.

   A length counts bytes. A buffer of length 0 may be NULL. `opcode`, `payload_len`, `left`, `reason` and `sent` point to a number of the
   caller's, never NULL. Nothing is kept between calls and nothing is allocated: all that a device is stands in its record and its flash, and
   what a line has received of a command in its reader. */
#ifndef GRZELOTKA_H
#define GRZELOTKA_H

#include <stddef.h>
#include <stdint.h>

/* The version's one home: the Makefile reads it here for pkg-config. */
#define GRZELOTKA_VERSION "0.1.0"

/* Why a key was turned down: beside the reply of STORE (1 to 4), LOAD (5 to 7), LOCK (5) and UNLOAD (8) that failed while FUS is idle.
   Every other answer has none. */
enum {
    GRZELOTKA_REASON_NONE = 0,
    GRZELOTKA_REASON_BAD_TYPE = 1,
    GRZELOTKA_REASON_BAD_SIZE = 2,
    GRZELOTKA_REASON_SECOND_MASTER = 3,
    GRZELOTKA_REASON_STORE_FULL = 4,
    GRZELOTKA_REASON_NOT_STORED = 5,
    GRZELOTKA_REASON_LOCKED = 6,
    GRZELOTKA_REASON_NO_MASTER = 7,
    GRZELOTKA_REASON_NOT_LOADED = 8
};

#ifdef __cplusplus
extern "C" {
#endif

/* How many bytes a record has. */
size_t grzelotka_record_bytes(void);

/* Makes a record a fresh device's: no stack, no keys, no job, anti-rollback off, FUS running. Refusal 1 (another length) writes nothing. */
uint8_t grzelotka_fresh(uint8_t *record, size_t record_len);

/* Reads a packet: its opcode and how many bytes its payload has. Refusals 4 to 9 give 0 for both. */
uint8_t grzelotka_read(const uint8_t *packet, size_t packet_len, uint16_t *opcode, uint8_t *payload_len);

/* Handles a packet and writes the response, 7 or 8 bytes. Refusals 1 to 9. */
uint8_t grzelotka_handle(uint8_t *record, size_t record_len, uint8_t *flash, size_t flash_len, const uint8_t *packet, size_t packet_len,
                         uint8_t *reply, size_t reply_len);

/* The same, and beside the reply the reason why a key was turned down; GRZELOTKA_REASON_NONE where there is none, and with a refusal. */
uint8_t grzelotka_handle_why(uint8_t *record, size_t record_len, uint8_t *flash, size_t flash_len, const uint8_t *packet, size_t packet_len,
                             uint8_t *reply, size_t reply_len, uint8_t *reason);

/* Restarts the device and writes the event, 6 bytes. Refusals 1 and 3. */
uint8_t grzelotka_restart(uint8_t *record, size_t record_len, uint8_t *event, size_t event_len);

/* Makes the next store of a job; `left` becomes the stores still to do after it (0 with no job, and with refusals 1 and 2). */
uint8_t grzelotka_work(uint8_t *record, size_t record_len, uint8_t *flash, size_t flash_len, uint32_t *left);

/* Cuts the power in the next store, restarts, and writes the event. A store to a sector leaves the filler there; a store to the record goes
   through unless `through` is 0. With no job it is a restart. Refusals 1, 2, 3 and 10. */
uint8_t grzelotka_cut(uint8_t *record, size_t record_len, uint8_t *flash, size_t flash_len, const uint8_t *filler, size_t filler_len,
                      uint8_t through, uint8_t *event, size_t event_len);

/* How long the next message is: 6 (the event buffer's first bytes), 7 or 8 (the response buffer's first bytes), or 0 (there is none). */
size_t grzelotka_next_message(const uint8_t *event, size_t event_len, const uint8_t *response, size_t response_len);

/* How many bytes a reader of the serial line has. */
size_t grzelotka_serial_bytes(void);

/* Makes a reader new: nothing is received. Refusal 19 (another length) writes nothing. */
uint8_t grzelotka_serial_fresh(uint8_t *reader, size_t reader_len);

/* Takes one byte from the serial line. `out` begins with the `sent` bytes, 0 to 10, that the device sends back, and `reason` is
   grzelotka_handle_why's of a command that this byte makes whole. A record or a flash that grzelotka_handle refuses is no refusal here: a whole
   command is then answered with 0x79, 0x1F. Refusals 3 and 19, `sent` and `reason` 0. */
uint8_t grzelotka_serial(uint8_t *record, size_t record_len, uint8_t *flash, size_t flash_len, uint8_t *reader, size_t reader_len, uint8_t byte,
                         uint8_t *out, size_t out_len, uint8_t *sent, uint8_t *reason);

#ifdef __cplusplus
}
#endif

#endif
