// The benchmark's workload, as in crates/bench/src/main.rt, for a C program that gives the calls: space.c by a plain C version, area.c by the
// library. A program is this file and its own, one translation unit.
//
//   space_allocate, space_release,      the calls, which the program gives: on a struct and the words of a table, of which the workload reads
//   space_extend, space_shorten         entries, and writes none
//   asked      what standard input asks for: the five numbers of crates/bench/src/main.rt
//   filled     a space and its table, with allocations until there are as many entries as asked for
//   turn       a live piece is released, another one allocated, and a third shortened and extended again
//   say_run    what is kept of the answers, which all programs must write alike
//
// It uses the C library for `read` and `write` alone. The folder headers has what is used of two headers, since the kit's compiler has none.
#include <stddef.h>
#include <stdint.h>

typedef _Bool bool;
enum { false, true };

long read(int fd, void *to, size_t bytes);
long write(int fd, const void *from, size_t bytes);

enum { ENTRY_WORDS = 3, MOST_WORDS = 1024 * ENTRY_WORDS };
enum { METADATA = 1, RAW = 2 };
enum { LIVE_LARGE = 3 };
enum { LARGEST_REFUSAL = 16 };

static const uint64_t LARGEST_LIMIT = (uint64_t)1 << 62;
static const uint64_t PAGE = 4096, LARGEST_SMALL = 1024, LARGEST_CHANGE = 64, FIRST_DRAW = 88172645463325252u;

struct space {
    uint64_t page, limit, end, count;
};

struct entry {
    uint64_t address, size, kind;
};

// A refusal's number, 0 on success.
struct placed {
    int refusal;
    uint64_t address;
};

struct placed space_allocate(struct space *s, uint64_t *table, size_t words, uint64_t type, uint64_t size);
int space_release(struct space *s, uint64_t *table, size_t words, uint64_t address, uint64_t size);
int space_extend(struct space *s, uint64_t *table, size_t words, uint64_t address, uint64_t size, uint64_t by);
int space_shorten(struct space *s, uint64_t *table, size_t words, uint64_t address, uint64_t size, uint64_t by);

static struct entry entry_at(const uint64_t *table, size_t i) {
    const uint64_t *w = table + i * ENTRY_WORDS;
    return (struct entry){w[0], w[1], w[2]};
}

static bool is_live(uint64_t kind) {
    return kind <= LIVE_LARGE;
}

struct run {
    struct space space;
    uint64_t draw, sum, accepted, entries;
};

static uint64_t drawn(uint64_t x) {
    x ^= x << 13;
    x ^= x >> 7;
    return x ^ (x << 17);
}

static void note(struct run *run, uint64_t answer) {
    run->accepted += answer < UINT64_MAX - LARGEST_REFUSAL;
    run->sum = drawn(run->sum + answer);
    run->sum = drawn(run->sum + run->space.end);
    run->sum = drawn(run->sum + run->space.count);
    run->entries += run->space.count;
}

static void allocate(struct run *run, uint64_t *table, size_t words) {
    uint64_t draw = run->draw = drawn(run->draw), bits = draw >> 8;
    uint64_t size = (draw & 7) == 0 ? PAGE + bits % (3 * PAGE) : 1 + bits % LARGEST_SMALL;
    struct placed placed = space_allocate(&run->space, table, words, (draw & 8) == 0 ? METADATA : RAW, size);
    note(run, placed.refusal ? UINT64_MAX - placed.refusal : placed.address);
}

// The first live entry from i on, of n; n where there is none.
static size_t live_from(const uint64_t *table, size_t i, size_t n) {
    while (i < n && (entry_at(table, i).kind < 1 || !is_live(entry_at(table, i).kind)))
        i++;
    return i;
}

// A live entry, found from any entry on, or from the first; the count where there is none.
static size_t any_live(const struct run *run, const uint64_t *table, uint64_t draw) {
    size_t n = run->space.count;
    if (n == 0)
        return n;
    size_t i = live_from(table, (draw >> 8) % n, n);
    return i < n ? i : live_from(table, 0, n);
}

// Entry i, which was drawn, is released; nothing, where i is the count.
static void release_drawn(struct run *run, uint64_t *table, size_t words, uint64_t draw, size_t i) {
    if (i == run->space.count)
        return;
    struct entry e = entry_at(table, i);
    run->draw = draw;
    int refusal = space_release(&run->space, table, words, e.address, e.size);
    note(run, refusal ? UINT64_MAX - refusal : 0);
}

static void release(struct run *run, uint64_t *table, size_t words) {
    uint64_t draw = drawn(run->draw);
    release_drawn(run, table, words, draw, any_live(run, table, draw));
}

static void shorten_and_extend(struct run *run, uint64_t *table, size_t words) {
    uint64_t draw = drawn(run->draw), by = 1 + (draw >> 32) % LARGEST_CHANGE;
    size_t i = any_live(run, table, draw);
    if (i == run->space.count)
        return;
    struct entry e = entry_at(table, i);
    run->draw = draw;
    int refusal = space_shorten(&run->space, table, words, e.address, e.size, by);
    note(run, refusal ? UINT64_MAX - refusal : 0);
    refusal = space_extend(&run->space, table, words, e.address, e.size - by, by);
    note(run, refusal ? UINT64_MAX - refusal : 0);
}

static void turn(struct run *run, uint64_t *table, size_t words) {
    release(run, table, words);
    allocate(run, table, words);
    shorten_and_extend(run, table, words);
}

struct wish {
    uint64_t entries, turns, way, part;
    size_t words;
};

static struct wish asked(void) {
    char text[64];
    uint64_t asked[5] = {0, 0, 0, 0, 0};
    long got = read(0, text, sizeof text);
    for (long i = 0, which = 0; i < got; i++) {
        if (text[i] == ' ')
            which++;
        else if (which < 5 && text[i] >= '0' && text[i] <= '9')
            asked[which] = asked[which] * 10 + (text[i] - '0');
    }
    size_t words = asked[1] < MOST_WORDS / ENTRY_WORDS ? asked[1] * ENTRY_WORDS : MOST_WORDS;
    return (struct wish){asked[0], asked[2], asked[3], asked[4], words};
}

static struct run filled(struct space space, uint64_t *table, struct wish wish) {
    struct run run = {space, FIRST_DRAW, 0, 0, 0};
    for (uint64_t i = 0; i < wish.entries; i++)
        if (run.space.count < wish.entries)
            allocate(&run, table, wish.words);
    run.accepted = run.entries = 0;
    return run;
}

static void say(const char *name, uint64_t n) {
    char text[64];
    size_t length = 0, at = sizeof text;
    text[--at] = '\n';
    do
        text[--at] = '0' + n % 10;
    while ((n /= 10) > 0);
    while (name[length] != 0)
        length++;
    write(1, name, length);
    write(1, text + at, sizeof text - at);
}

static void say_run(const struct run *run) {
    say("checksum ", run->sum);
    say("accepted ", run->accepted);
    say("entries in all ", run->entries);
    say("end ", run->space.end);
}
