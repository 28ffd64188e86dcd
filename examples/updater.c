#include "updater.h"
#include "transport.h"
#include <string.h>

/* a command is sent so often; a job is polled so often after its start and after each restart (at the bench none has 1,000 stores) */
enum { ATTEMPTS = 3, POLLS = 1000 };

/* where user flash begins, and the size of a sector (section 2.1) */
enum { FLASH_START = 0x08000000, SECTOR_SIZE = 4096 };

static const struct result done = {DONE, 0}, no_room = {NO_ROOM, 0}, no_answer = {NO_ANSWER, 0};

/* ---- one command, one answer (sections 6.3.3 and 6.3.4) */

/* a state of table 13, or a status of table 12: 0 is yes, 1 is no */
static bool status_lawful(uint8_t opcode, uint8_t status) {
    if (opcode == GET_STATE)
        return status == IDLE || (status >= 0x10 && status <= 0x3F) || status == STATE_ERROR;
    return status <= 1;
}

/* Is this the response to that command? Zeros are not, and neither is the response to another command. */
static bool answers(const uint8_t *mailbox, const uint8_t *packet, struct reply *reply) {
    bool has_payload = packet[1] == GET_STATE || packet[1] == STORE_USR_KEY;
    const uint8_t head[6] = {0x11, 0x0E, has_payload ? 5 : 4, 0xFF, packet[1], packet[2]};
    if (memcmp(mailbox, head, sizeof head) != 0 || !status_lawful(packet[1], mailbox[6]))
        return false;
    reply->status = mailbox[6];
    reply->payload = has_payload ? mailbox[7] : 0;
    return true;
}

bool updater_ask(const uint8_t *packet, size_t length, struct reply *reply) {
    uint8_t mailbox[8];
    for (int attempt = 0; attempt < ATTEMPTS; attempt++) {
        transport_send(packet, length);
        transport_receive(mailbox, sizeof mailbox);
        if (answers(mailbox, packet, reply))
            return true;
        transport_wait();
    }
    return false;
}

bool updater_command(uint8_t opcode, struct reply *reply) {
    const uint8_t packet[4] = {0x10, opcode, 0xFC, 0};
    return updater_ask(packet, sizeof packet, reply);
}

/* ---- what the device says */

static bool stack_runs(struct reply state) {
    return state.status == STATE_ERROR && state.payload == NOT_RUNNING;
}

static bool idle(struct reply state) {
    return state.status == IDLE && state.payload == 0;
}

/* any of 0x10 to 0x1F means the same (section 6.3.4) */
static bool ongoing(struct reply state) {
    return state.status >> 4 == UPGRADE_ONGOING >> 4;
}

/* Has the device started anew? Bytes that are no start event say nothing (section 6.3.2). */
static bool restarted(void) {
    static const uint8_t head[5] = {0x12, 0xFF, 0x03, 0x00, 0x92};
    uint8_t event[6];
    return transport_event(event) && memcmp(event, head, sizeof head) == 0 && event[5] <= 1;
}

static struct result turned_down(struct reply state) {
    return (struct result){TURNED_DOWN, state.payload};
}

/* ---- the steps */

/* DownloadAddress = 0x08000000 + SFSA x SectorSize - ImageSize - SectorSize, aligned to a sector */
struct result updater_load(const uint8_t *image, uint32_t size) {
    uint32_t boundary = transport_boundary(), sectors = size / SECTOR_SIZE + (size % SECTOR_SIZE != 0);
    if (sectors >= boundary)
        return no_room;
    return transport_write(FLASH_START + (boundary - sectors - 1) * SECTOR_SIZE, image, size) ? done : no_room;
}

/* The second request while the stack runs starts FUS, the third is answered by it. One more in case an answer was lost. */
struct result updater_activate(void) {
    struct reply state;
    for (int request = 0; request < 4; request++) {
        if (!updater_command(GET_STATE, &state))
            return no_answer;
        if (!stack_runs(state))
            return done;
    }
    return no_answer;
}

/* Begins a job. A job that is under way where we are told no is ours: it was the answer to our first packet that was lost. */
static struct result begin(uint8_t opcode) {
    struct reply reply, state;
    if (!updater_command(opcode, &reply))
        return no_answer;
    if (reply.status == 0)
        return done;
    if (!updater_command(GET_STATE, &state))
        return no_answer;
    return ongoing(state) ? done : turned_down(state);
}

/* Asks for the state until the job has ended, the way that it should or another. With each restart the time begins anew. */
static struct result finish(bool (*ended)(struct reply)) {
    struct reply state;
    for (int poll = 0; poll < POLLS; poll++) {
        transport_wait();
        if (restarted())
            poll = 0;
        if (!updater_command(GET_STATE, &state))
            return no_answer;
        if (!ongoing(state))
            return ended(state) ? done : turned_down(state);
    }
    return no_answer;
}

/* the steps that upgrade and delete share: FUS runs, the job is begun, the job has ended */
static struct result play(uint8_t opcode, bool (*ended)(struct reply)) {
    struct result result = updater_activate();
    if (result.outcome == DONE)
        result = begin(opcode);
    return result.outcome == DONE ? finish(ended) : result;
}

struct result updater_upgrade(const uint8_t *image, uint32_t size) {
    struct result result = updater_load(image, size);
    if (result.outcome == DONE)
        result = play(FW_UPGRADE, stack_runs);
    if (result.outcome == TURNED_DOWN)
        updater_start();
    return result;
}

struct result updater_delete(void) {
    return play(FW_DELETE, idle);
}

/* Once the device says that the stack runs, no further state request: two would start FUS again (section 2.3). */
struct result updater_start(void) {
    struct reply reply, state;
    if (!updater_command(START_WS, &reply) || !updater_command(GET_STATE, &state))
        return no_answer;
    return stack_runs(state) ? done : turned_down(state);
}
