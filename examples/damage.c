#include "bytes.h"
#include "runs.h"
#include "transport.h"
#include <stdio.h>
#include <string.h>

/* A command, what it becomes on its way, the room for its reply, and the refusal that this must be given; 0: it is another lawful command. */
struct damage {
    const char *kind;
    size_t sent_length, length, room;
    uint8_t refusal;
    uint8_t sent[22], arrives[22];
};

#define STATE_REQUEST {0x10, GET_STATE, 0xFC, 0}
static const struct damage damages[] = {
    {"mailbox of 7 bytes", 4, 4, 7, 3, STATE_REQUEST, STATE_REQUEST},
    {"end lost", 4, 3, MAILBOX, 4, STATE_REQUEST, {0x10, GET_STATE, 0xFC}},
    {"other first byte", 4, 4, MAILBOX, 5, STATE_REQUEST, {0x11, GET_STATE, 0xFC, 0}},
    {"other length byte", 4, 4, MAILBOX, 6, STATE_REQUEST, {0x10, GET_STATE, 0xFC, 4}},
    {"opcode not listed", 4, 4, MAILBOX, 7, STATE_REQUEST, {0x10, 0x53, 0xFC, 0}},
    {"one byte too many", 4, 5, MAILBOX, 8, STATE_REQUEST, {0x10, GET_STATE, 0xFC, 1, 0}},
    {"other size inside", 22, 22, MAILBOX, 9, {0x10, STORE_USR_KEY, 0xFC, 18, 1, 16}, {0x10, STORE_USR_KEY, 0xFC, 18, 1, 17}},
    {"another command", 4, 4, MAILBOX, 0, {0x10, FW_UPGRADE, 0xFC, 0}, {0x10, FW_DELETE, 0xFC, 0}},
};
enum { DAMAGES = sizeof damages / sizeof *damages };

/* The upgrade has just been accepted: `11 0E 04 FF 54 FC 00` stands in the mailbox. */
static bool accept(const struct scene *scene) {
    struct reply reply;
    bench_restore(&scene->with_old);
    return updater_load(scene->new_stack.bytes, scene->new_stack.size).outcome == DONE && updater_activate().outcome == DONE &&
           updater_command(FW_UPGRADE, &reply) && reply.status == 0;
}

/* what the updater made of it: the packets that it sent until it took an answer, 0: it took none; and that answer */
struct asked {
    uint32_t packets;
    struct reply reply;
};

static struct asked ask(const struct damage *damage) {
    struct asked asked = {0, {0, 0}};
    uint32_t sent = bench_account()->sent;
    bench_damage(damage->arrives, damage->length, damage->room);
    if (updater_ask(damage->sent, damage->sent_length, &asked.reply))
        asked.packets = bench_account()->sent - sent;
    return asked;
}

/* A refusal leaves the mailbox empty, a reply leaves zeros behind it; device and flash have not changed; and no answer was taken but the one
   to the second packet. */
static bool survived(const struct damage *damage, const struct asked *asked) {
    const struct damaged *damaged = bench_damaged();
    size_t reply = damaged->refused != 0 ? 0 : 8;
    return asked->packets == 2 && damaged->unchanged && all(damaged->mailbox + reply, damage->room - reply, 0);
}

/* a column of bytes, as many as it holds: seven, or six and two dots */
static void print_bytes(const uint8_t *bytes, size_t length) {
    size_t shown = length > 7 ? 6 : length;
    for (size_t i = 0; i < shown; i++)
        printf("%02X ", bytes[i]);
    printf("%-*s", (int)(22 - 3 * shown), length > shown ? ".." : "");
}

/* what a reader takes the status byte for that looks at nothing else */
static const char *reading(uint8_t opcode, uint8_t status) {
    if (opcode == GET_STATE)
        return status == IDLE ? "00 idle" : "not idle";
    return status == 0 ? "00 done" : "01 failed";
}

/* one damaged command, with the old reply standing in the mailbox before it */
static bool print_row(const struct scene *scene, const struct damage *damage) {
    const struct damaged *damaged = bench_damaged();
    uint8_t before[8];
    bool good = accept(scene);
    transport_receive(before, sizeof before);
    struct asked asked = ask(damage);
    uint8_t wanted = damage->sent[1] == GET_STATE ? UPGRADE_ONGOING : 1;
    good = good && survived(damage, &asked) && damaged->refused == damage->refusal && asked.reply.status == wanted;
    printf("  %-20s", damage->kind);
    print_bytes(damage->arrives, damage->length);
    if (damaged->refused != 0)
        printf("%-9u%-22s", damaged->refused, all(damaged->mailbox, damage->room, 0) ? "zeros" : "NOT ZEROS");
    else
        printf("%-9s", "taken"), print_bytes(damaged->mailbox, 7);
    printf("%-12s", reading(damage->sent[1], damaged->refused != 0 ? before[6] : damaged->mailbox[6]));
    if (asked.packets == 2)
        printf("no answer, then %02X%s\n", asked.reply.status, good ? "" : "   WRONG");
    else
        printf("packet %u answered: %02X   WRONG\n", asked.packets, asked.reply.status);
    return good;
}

/* each bit of a state request, while the upgrade is under way */
static bool flip_bits(const struct scene *scene) {
    uint32_t refused = 0, good = 0;
    for (int bit = 0; bit < 32; bit++) {
        struct damage flipped = {"", 4, 4, MAILBOX, 0, STATE_REQUEST, STATE_REQUEST};
        flipped.arrives[bit / 8] ^= (uint8_t)(1 << bit % 8);
        bool accepted = accept(scene);
        struct asked asked = ask(&flipped);
        good += accepted && survived(&flipped, &asked) && asked.reply.status == UPGRADE_ONGOING;
        refused += bench_damaged()->refused != 0;
    }
    printf("  The same with any one bit of GET_STATE flipped: %u of 32 (%u refused, %u another command).\n", good, refused, 32 - refused);
    return good == 32;
}

/* The stack is started and asked for the state three times: the second request starts FUS, and the third is answered by it. A damaged packet
   before the first or the second neither completes the pair nor breaks it. */
static bool keeps_pair(const struct scene *scene, const struct damage *damage, int damaged) {
    struct reply start, third;
    bench_restore(&scene->with_old);
    bool kept = updater_activate().outcome == DONE && updater_command(START_WS, &start) && start.status == 0;
    for (int request = 1; request <= 2; request++) {
        struct asked asked = {0, {0, 0}};
        if (request == damaged) {
            asked = ask(damage);
            kept = survived(damage, &asked) && kept;
        } else {
            kept = updater_command(GET_STATE, &asked.reply) && kept;
        }
        kept = kept && asked.reply.payload == NOT_RUNNING;
    }
    return updater_command(GET_STATE, &third) && third.status == IDLE && kept;
}

static bool keep_pair(const struct scene *scene) {
    uint32_t tried = 0, kept = 0;
    for (const struct damage *damage = damages; damage < damages + DAMAGES; damage++) {
        if (damage->refusal == 0 || damage->sent[1] != GET_STATE)
            continue;
        kept += keeps_pair(scene, damage, 1);
        kept += keeps_pair(scene, damage, 2);
        tried += 2;
    }
    printf("  The same before or between the two state requests that start FUS; the pair neither broken nor completed: %u of %u.\n", kept, tried);
    return kept == tried;
}

bool damage_run(const struct scene *scene) {
    uint32_t good = 0;
    printf("2. Commands damaged on their way, with `11 0E 04 FF 54 FC 00`, the upgrade accepted, standing in the mailbox\n\n");
    printf("  %-20s%-22s%-9s%-22s%-12s%s\n", "Damage", "Arrives as", "Refusal", "Mailbox then", "Old reader", "Updater");
    for (const struct damage *damage = damages; damage < damages + DAMAGES; damage++)
        good += print_row(scene, damage);
    printf("\n  The old reader is on a stand-in that leaves the last reply standing, and looks at its status byte alone.\n");
    printf("  No damaged packet changed device or flash, or seemed to be answered: %u of %u.\n", good, DAMAGES);
    bool bits = flip_bits(scene), pair = keep_pair(scene);
    return bits && pair && good == DAMAGES;
}
