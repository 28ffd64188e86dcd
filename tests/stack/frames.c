/* The stack that a store takes, in the compiled library: work and cut run on a painted stack of their own, in every kind of store.
     frames                     prints the bytes that are written to by a work that copies no sector, by one that does, and by a cut
     frames WORK COPY CUT       tests them against these numbers
   Three things must hold, and a local array above 64 bytes breaks one of them:
   - no more than 64 bytes in a row of what is copied, of the filler or of the record stand on the stack afterwards: the bytes tell their places;
   - no byte stands there more than 96 times in a row, as in an array that is filled and not used (64 zeros of a piece may have zeros beside them);
   - the bytes of the stack that are written to, the call's own left out, are at least the number given and at most 64 more. An array that is added
     adds all its bytes; where the code has come to take less, the number is to be lowered, or it would not be seen. (It adds less if it lies where
     the copied piece lay before: then only the source tells, arrays.py.) */
#include "host.h"

enum { STACK = 16384, ARRAY = 64, SAME = 96, TURNS = 3, IMAGE = 3 * SECTOR };
/* of each buffer and turn its own */
#define IN_SOURCE (0xC3A55A17u * (turn + 1))
#define IN_FILLER (0x5AC3B791u * (turn + 1))
#define IN_RECORD (0x3C96E5D3u * (turn + 1))
#define SPREAD 2654435761u

int getcontext(void *);
int swapcontext(void *, const void *);
void makecontext(void *, void (*)(void), int, ...);

/* as the C library has it: what follows is its own business */
struct context {
    unsigned long flags;
    struct context *link;
    struct { void *at; int flags; size_t size; } stack;
    uint8_t rest[8192];
} __attribute__((aligned(64)));
static struct context here, there;
static uint8_t stack[STACK] __attribute__((aligned(64)));
static uint8_t kept_record[RECORD], *kept_flash;
static bool cutting, idle_call;

static void play(void) {
    uint32_t left;
    if (idle_call)
        return;
    if (cutting)
        grzelotka_cut(record, RECORD, flash, FLASH, filler, SECTOR, 1, event, 6);
    else
        grzelotka_work(record, RECORD, flash, FLASH, &left);
}

/* each word says where it stands, and yet looks random: bytes that stand beside an array by chance seldom go on with it */
static void tell_places(uint8_t *at, size_t length, uint32_t where) {
    for (size_t i = 0; i + 4 <= length; i += 4)
        put_word(at + i, (uint32_t)i * SPREAD ^ where);
}

static uint32_t place_of(uint32_t w, uint32_t where) {
    uint32_t inverse = SPREAD;
    for (int i = 0; i < 5; i++)
        inverse *= 2 - SPREAD * inverse;
    return (w ^ where) * inverse;
}

/* ---- what stands on the stack */

static size_t touched(uint8_t paint) {
    size_t i = 0;
    while (i < STACK && stack[i] == paint)
        i++;
    return i;
}

/* how many bytes on the stack from i on, and before it, are those of `data` around its byte `place` */
static size_t run_around(size_t i, const uint8_t *data, size_t length, size_t place) {
    size_t before = 0, behind = 0;
    while (before < i && before < place && stack[i - before - 1] == data[place - before - 1])
        before++;
    while (i + behind < STACK && place + behind < length && stack[i + behind] == data[place + behind])
        behind++;
    return before + behind;
}

static size_t longest_copy(const uint8_t *data, size_t length, uint32_t where, size_t from) {
    size_t longest = 0;
    for (size_t i = from; i + 4 <= STACK; i++) {
        uint32_t place = place_of(word(stack + i), where);
        if (place % 4 == 0 && place < length - 3) {
            size_t run = run_around(i, data, length, place);
            longest = run > longest ? run : longest;
        }
    }
    return longest;
}

static size_t longest_same(size_t from, uint8_t paint) {
    size_t longest = 0, run = 0;
    for (size_t i = from + 1; i < STACK; i++) {
        run = stack[i] == stack[i - 1] && stack[i] != paint ? run + 1 : 0;
        longest = run + 1 > longest ? run + 1 : longest;
    }
    return longest;
}

/* ---- a store */

struct taken {
    size_t written, array;
};

static void most(size_t *a, size_t b) {
    *a = b > *a ? b : *a;
}

/* the call on a painted stack; the bytes that it writes to are marked */
static void paint_and_play(uint8_t paint, bool *marks) {
    memset(stack, paint, STACK);
    getcontext(&there);
    there.link = &here, there.stack.at = stack, there.stack.size = STACK;
    makecontext(&there, play, 0);
    swapcontext(&here, &there);
    for (size_t i = 0; i < STACK; i++)
        marks[i] = marks[i] || stack[i] != paint;
}

static size_t marked(const bool *marks) {
    size_t count = 0;
    for (size_t i = 0; i < STACK; i++)
        count += marks[i];
    return count;
}

/* the longest array seen after the call */
static size_t array_seen(uint32_t turn, uint8_t paint) {
    static uint8_t source[IMAGE], keys[RECORD];
    size_t from = touched(paint), same = longest_same(from, paint), longest = same > SAME ? same : 0;
    tell_places(source, IMAGE, IN_SOURCE), tell_places(keys, RECORD - GRZELOTKA_KEY_BYTES, IN_RECORD);
    most(&longest, longest_copy(source, IMAGE, IN_SOURCE, from));
    most(&longest, longest_copy(filler, SECTOR, IN_FILLER, from));
    most(&longest, longest_copy(keys, RECORD - GRZELOTKA_KEY_BYTES, IN_RECORD, from));
    return longest;
}

/* What work or cut takes from here, beyond what the call by itself takes. There are three turns with other bytes and another paint: a written byte may
   be the paint, and a byte beside an array may go on with it by chance, but not in every turn. */
static struct taken measure(bool cuts, size_t image) {
    static bool written[STACK], none[STACK];
    struct taken t = {0, STACK};
    memset(written, 0, sizeof written), memset(none, 0, sizeof none);
    memcpy(kept_record, record, RECORD), memcpy(kept_flash, flash, FLASH);
    for (uint32_t turn = 0; turn < TURNS; turn++) {
        uint8_t paint = 0xA7 + 2 * turn;
        tell_places(flash + image, IMAGE, IN_SOURCE), tell_places(filler, SECTOR, IN_FILLER);
        tell_places(record + GRZELOTKA_KEY_BYTES, RECORD - GRZELOTKA_KEY_BYTES, IN_RECORD);
        cutting = cuts, idle_call = false;
        paint_and_play(paint, written);
        size_t array = array_seen(turn, paint);
        t.array = array < t.array ? array : t.array;
        idle_call = true;
        paint_and_play(paint, none);
        memcpy(record, kept_record, RECORD), memcpy(flash, kept_flash, FLASH);
    }
    t.written = marked(written) - marked(none);
    return t;
}

/* ---- every kind of store */

enum { WORK, COPY, CUT, CALLS };
static const char *const calls[CALLS] = {"work that copies nothing", "work that copies a sector", "cut"};
static struct taken taken[CALLS];
static int stores;

static void measure_call(int call, size_t image) {
    struct taken t = measure(call == CUT, image);
    most(&taken[call].written, t.written), most(&taken[call].array, t.array);
}

static bool copies(void) {
    uint32_t sectors = (word(record + GRZELOTKA_IMAGE_SIZE) + SECTOR - 1) / SECTOR;
    return record[GRZELOTKA_STORES_MADE] == 1 && word(record + GRZELOTKA_SECTORS_RECORDED) < sectors;
}

static void measure_here(size_t image) {
    measure_call(copies() ? COPY : WORK, image);
    measure_call(CUT, image);
    stores++;
}

/* a device that is to install an image */
static void begin(uint32_t p, uint32_t size) {
    CHECK(fresh_with_stack(3, 7));
    put_image(flash, p, size, 9);
    CHECK(command(0x54) == 0);
}

static void measure_all(void) {
    begin(50, 84), cut(1), finish(); /* the loader's own work is done */
    begin(50, 2 * SECTOR + 84);
    uint32_t left = 1;
    for (int i = 0; i < 100 && left != 0; i++) { /* all the stores of a job of three sectors, in which six are cleared */
        measure_here((size_t)50 * SECTOR);
        left = work();
    }
    CHECK(left == 0);
    measure_here(0); /* no job */
    for (uint32_t size = 84; size <= SECTOR; size += size < 1200 ? 4 : 292) { /* so that arrays of many lengths come out even */
        begin(50, size), work();
        measure_here((size_t)50 * SECTOR);
    }
}

int main(int count, char **words) {
    if (count != 1 && count != 1 + CALLS)
        return printf("usage: frames [WORK COPY CUT]\n"), 2;
    make_device();
    kept_flash = pages(FLASH);
    measure_all();
    if (count == 1)
        return printf("%d %d %d\n", (int)taken[WORK].written, (int)taken[COPY].written, (int)taken[CUT].written), failed != 0;
    for (int i = 0; i < CALLS; i++) {
        int least = atoi(words[1 + i]), written = taken[i].written, array = taken[i].array;
        printf("%s: %d bytes of stack written to (%d to %d), longest array seen %d (64)\n", calls[i], written, least, least + ARRAY, array);
        CHECK(array <= ARRAY);
        CHECK(written >= least && written <= least + ARRAY);
    }
    printf("%d stores, ", stores);
    return outcome("frames");
}
