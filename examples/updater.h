/* The updater: installs, upgrades or deletes the wireless stack as AN5185 (sections 1.3, 2.1, 2.2 and 6) tells a host to do. It reaches the
   device through transport.h alone, so it is the same on a product and at the bench. */
#ifndef UPDATER_H
#define UPDATER_H

#include <stdbool.h>
#include <stddef.h>
#include <stdint.h>

/* the commands used here, by the low byte of their opcode; the high byte is 0xFC (table 11) */
enum { GET_STATE = 0x52, FW_UPGRADE = 0x54, FW_DELETE = 0x55, STORE_USR_KEY = 0x58, START_WS = 0x5A };

/* the states (table 13) and the error 0xFE (table 14), which says that the stack runs and not FUS */
enum { IDLE = 0x00, UPGRADE_ONGOING = 0x10, STATE_ERROR = 0xFF, NOT_RUNNING = 0xFE };

/* What came of it: done; the image does not fit below the boundary; no reply that is one, or no end in time; or the device says no. */
enum outcome { DONE, NO_ROOM, NO_ANSWER, TURNED_DOWN };

/* `error` is the device's own (table 14) where it says no, else 0 */
struct result {
    enum outcome outcome;
    uint8_t error;
};

/* What a response says, once it is seen to be one. Of GET_STATE the status is the state, and the payload the error. */
struct reply {
    uint8_t status, payload;
};

/* Sends a command, and sends it again while nothing that answers it comes back; false: nothing did. */
bool updater_ask(const uint8_t *packet, size_t length, struct reply *reply);

/* The same for a command with no payload. */
bool updater_command(uint8_t opcode, struct reply *reply);

/* Writes an image to where section 2.1 says. */
struct result updater_load(const uint8_t *image, uint32_t size);

/* Makes FUS run, by two state requests if the stack runs (section 1.3). */
struct result updater_activate(void);

/* Loads an image, activates FUS, has the image installed, and waits until the new stack runs (section 2.1). Turned down, the old one is
   started again. */
struct result updater_upgrade(const uint8_t *image, uint32_t size);

/* Activates FUS, has the stack deleted, and waits until FUS is idle (section 2.2). */
struct result updater_delete(void);

/* Starts the installed stack (section 2.3). */
struct result updater_start(void);

#endif
