/* Times the proved leaves beside plain C, turn and turn about, and prints a line for each round: the leaf, what it is beside, and the
   nanoseconds of both. It includes nothing, since the kit's clang has no headers. */
typedef unsigned char byte;
typedef __SIZE_TYPE__ size;
struct timespec { long seconds, nanoseconds; };
int printf(const char *, ...);
int clock_gettime(int, struct timespec *);
int memcmp(const void *, const void *, size);
void *memcpy(void *, const void *, size);

/* a slice is a pointer and a length */
void leaves_erase(byte *flash, size length, size sector, size target);
void leaves_copy(byte *flash, size length, size sector, size source, size target, size count);
unsigned leaves_sum(const byte *body, size length);
size leaves_search(const byte *flash, size length, size sector, size boundary);

void plain_erase(byte *flash, size sector, size target);
void plain_copy(byte *flash, size sector, size source, size target, size count);
unsigned plain_sum(const byte *body, size length);
size plain_search(const byte *flash, size sector, size boundary);

enum { SECTOR = 4096, COUNT = 244, MOST = 243 * 4096, ROUNDS = 5, TURNS = 8 };
static byte flash[SECTOR * COUNT] __attribute__((aligned(4096)));
static byte other[SECTOR * COUNT] __attribute__((aligned(4096)));
static volatile size sink;

static void erase_leaf(byte *f) { for (size t = 1; t < COUNT; t++) leaves_erase(f, sizeof flash, SECTOR, t); }
static void erase_plain(byte *f) { for (size t = 1; t < COUNT; t++) plain_erase(f, SECTOR, t); }
static void copy_leaf(byte *f) { for (size t = COUNT - 1; t > 0; t--) leaves_copy(f, sizeof flash, SECTOR, t - 1, t, SECTOR); }
static void copy_plain(byte *f) { for (size t = COUNT - 1; t > 0; t--) plain_copy(f, SECTOR, t - 1, t, SECTOR); }
static void short_leaf(byte *f) { for (size t = COUNT - 1; t > 0; t--) leaves_copy(f, sizeof flash, SECTOR, t - 1, t, 84); }
static void short_plain(byte *f) { for (size t = COUNT - 1; t > 0; t--) plain_copy(f, SECTOR, t - 1, t, 84); }
static void sum_leaf(byte *f) { sink = leaves_sum(f, MOST); }
static void sum_plain(byte *f) { sink = plain_sum(f, MOST); }
static void search_leaf(byte *f) { sink = leaves_search(f, sizeof flash, SECTOR, COUNT); }
static void search_plain(byte *f) { sink = plain_search(f, SECTOR, COUNT); }

static void some_bytes(void) {
    unsigned x = 1;
    for (size i = 0; i < sizeof flash; i++) {
        x = x * 1664525 + 1013904223;
        flash[i] = x >> 24;
    }
}
static void no_hit(void) {
    for (size i = 0; i < sizeof flash; i++) flash[i] = 0xFF;
}
/* "BNI" with another version in every sector: only the fifth byte differs */
static void near_misses(void) {
    no_hit();
    for (size t = 0; t < COUNT; t++) memcpy(flash + t * SECTOR, "BNI\1\1", 5);
}

static double now(void) {
    struct timespec t;
    clock_gettime(1, &t);
    return t.seconds * 1e9 + t.nanoseconds;
}
static double timed(void (*f)(byte *), int times) {
    double from = now();
    for (int i = 0; i < times; i++) f(flash);
    return (now() - from) / times;
}
static double least(double a, double b) { return a < b ? a : b; }

/* 0, or 1 where the two disagree */
static int measure(const char *name, const char *plain, void (*make)(void), void (*a)(byte *), void (*b)(byte *)) {
    make();
    sink = 0;
    a(flash);
    size left = sink;
    memcpy(other, flash, sizeof flash);
    make();
    sink = 0;
    b(flash);
    if (left != sink || memcmp(other, flash, sizeof flash)) {
        printf("%s: the leaf and plain C disagree\n", name);
        return 1;
    }
    /* a turn takes about a millisecond; the best of a round's turns counts, so that what else the machine does counts less */
    int times = 1e6 / (timed(b, 20) + 1) + 1;
    for (int i = 0; i < ROUNDS; i++) {
        double leaf = 1e18, beside = 1e18;
        for (int turn = 0; turn < TURNS; turn++) {
            leaf = least(leaf, timed(a, times));
            beside = least(beside, timed(b, times));
        }
        printf("%s|%s|%.1f|%.1f\n", name, plain, leaf, beside);
    }
    return 0;
}

int main(void) {
    return measure("erase 243 sectors", "memset", some_bytes, erase_leaf, erase_plain)
        | measure("copy 243 sectors", "memcpy", some_bytes, copy_leaf, copy_plain)
        | measure("copy 84 bytes to each, then 0xFF", "memcpy, memset", some_bytes, short_leaf, short_plain)
        | measure("sum of 995,328 bytes", "a loop", some_bytes, sum_leaf, sum_plain)
        | measure("search, no hit", "a loop", no_hit, search_leaf, search_plain)
        | measure("search, a near miss in every sector", "a loop", near_misses, search_leaf, search_plain);
}
