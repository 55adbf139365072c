// A host of the file space manager that outlives a crash: a recorder of traces, which keeps the area in a file.
//
//   recorder FILE          does the steps of its plan that FILE does not have yet, saves after each, and prints the table
//   recorder FILE crash    the same, but crashes half-way: after a call, and before the save. The next run goes on from FILE
//
// FILE has the recorder's own words of 8 bytes (the number of steps done, and address and size of each piece), and behind them the area: so both
// are of one moment. A save writes a new file beside FILE, and gives it FILE's name: FILE is one save or the next, and whole. Status 1: FILE is
// damaged, and left as it is; 2: wrong words, or the system refuses something.
#define _POSIX_C_SOURCE 200809L
#include <errno.h>
#include <inttypes.h>
#include <stdbool.h>
#include <stdio.h>
#include <stdlib.h>
#include <string.h>
#include <unistd.h>

#include "filespace.h"

enum { PAGE = 4096, LIMIT = 65536, ENTRIES = 16 };
enum { INDEX, TRACE_1, TRACE_2, TRACE_3, TRACE_4, PIECES };
enum { WORD = 8, STEPS_DONE = 0, PAIRS = WORD, PAIR = 2 * WORD, OWN_LENGTH = PAIRS + PIECES * PAIR };
enum { AREA_LENGTH = FILESPACE_AREA_LENGTH(ENTRIES), FILE_LENGTH = OWN_LENGTH + AREA_LENGTH };
enum { AREA_PAGE = 0, AREA_END = 16, AREA_COUNT = 24 };

enum what { ALLOCATE_METADATA, ALLOCATE_RAW, EXTEND, SHORTEN, RELEASE };
struct step { enum what what; int piece; uint64_t bytes; };
static const struct step plan[] = {
    {ALLOCATE_METADATA, INDEX, 96}, {ALLOCATE_RAW, TRACE_1, 3000}, {ALLOCATE_RAW, TRACE_2, 10000},
    {EXTEND, TRACE_2, 2000},        {ALLOCATE_RAW, TRACE_3, 5000}, {EXTEND, TRACE_1, 2000},
    {SHORTEN, TRACE_2, 4000},       {RELEASE, TRACE_3, 5000},      {ALLOCATE_RAW, TRACE_4, 900},
};
enum { STEPS = sizeof plan / sizeof plan[0], CRASH_AT = 4 };

static const char *const calls[] = {"allocate metadata", "allocate raw", "extend by", "shorten by", "release"};
static const char *const names[] = {"index", "trace 1", "trace 2", "trace 3", "trace 4"};
static const char *const kinds[] = {"", "live small metadata", "live small raw", "live large", "free small metadata", "free small raw", "free large"};
static const char *const refusals[] = {
    [FILESPACE_OUT_OF_RANGE] = "page size, limit or length of the area out of range",
    [FILESPACE_NOT_SOUND] = "the area is not sound",
    [FILESPACE_UNKNOWN_CODE] = "type unknown",
    [FILESPACE_ZERO_ASKED] = "size or change is 0",
    [FILESPACE_BEYOND_LIMIT] = "the end would pass the limit",
    [FILESPACE_TABLE_FULL] = "more entries than the area has room for",
    [FILESPACE_NO_ROOM_BEHIND] = "too little room behind the piece",
    [FILESPACE_TOO_LITTLE_LEFT] = "too little would remain",
    [FILESPACE_SLICE_TOO_SHORT] = "too little lent for the result",
    [FILESPACE_BEYOND_END] = "the address is at or beyond the end",
    [FILESPACE_IN_FREE] = "the address lies in free space",
    [FILESPACE_INSIDE_LIVE] = "the address lies inside a live piece",
    [FILESPACE_OTHER_SIZE] = "the piece has another size",
};

// What FILE has, and one byte more, by which a longer file is noticed.
static uint8_t kept[FILE_LENGTH + 1];
static uint8_t *const area = kept + OWN_LENGTH;

static uint64_t word(const uint8_t *at) {
    uint64_t value = 0;
    for (int i = WORD - 1; i >= 0; i--) {
        value = value << 8 | at[i];
    }
    return value;
}

static void set_word(uint8_t *at, uint64_t value) {
    for (int i = 0; i < WORD; i++) {
        at[i] = (uint8_t)(value >> 8 * i);
    }
}

static void stop(const char *what, const char *name) {
    fprintf(stderr, "recorder: cannot %s %s: %s\n", what, name, strerror(errno));
    exit(2);
}

static void print_state(void) {
    printf("; end %" PRIu64 "; %" PRIu64 " entries\n", word(area + AREA_END), word(area + AREA_COUNT));
}

static void print_answer(uint64_t answer) {
    if (answer == FILESPACE_DONE) {
        printf("done");
    } else {
        printf("refused %" PRIu64 ": %s", answer, refusals[answer]);
    }
    print_state();
}

// Null where nothing is wrong. A release at 2^64 - 1 asks whether the area is sound: it is always refused, and changes nothing.
static const char *damage(size_t length) {
    if (length != FILE_LENGTH) {
        return "its length is not that of a save";
    }
    if (filespace_release(area, AREA_LENGTH, UINT64_MAX, 0) == FILESPACE_NOT_SOUND) {
        return "refused 2: the area is not sound";
    }
    return word(kept + STEPS_DONE) > STEPS ? "it has more steps than the plan" : NULL;
}

// FILE; or a new area, where there is no FILE.
static void load(const char *name) {
    FILE *file = fopen(name, "rb");
    if (file == NULL && errno == ENOENT) {
        uint64_t answer = filespace_open(PAGE, LIMIT, area, AREA_LENGTH);
        printf("%s is new\n  open with pages of %d bytes, a limit of %d, %d entries   ", name, PAGE, LIMIT, ENTRIES);
        print_answer(answer);
        return;
    }
    size_t length = file == NULL ? 0 : fread(kept, 1, sizeof kept, file);
    if (file == NULL || ferror(file)) {
        stop("read", name);
    }
    fclose(file);
    const char *wrong = damage(length);
    if (wrong != NULL) {
        printf("%s is damaged, and left as it is: %s\n", name, wrong);
        exit(1);
    }
    printf("%s has %" PRIu64 " of %d steps", name, word(kept + STEPS_DONE), STEPS);
    print_state();
}

// FILE is the former save until the new one is whole: renaming is one act.
static void save(const char *name) {
    char beside[4096];
    if ((size_t)snprintf(beside, sizeof beside, "%s.new", name) >= sizeof beside) {
        errno = ENAMETOOLONG;
        stop("write", name);
    }
    FILE *file = fopen(beside, "wb");
    if (file == NULL || fwrite(kept, 1, FILE_LENGTH, file) != FILE_LENGTH || fflush(file) != 0 || fsync(fileno(file)) != 0 ||
        fclose(file) != 0 || rename(beside, name) != 0) {
        stop("write", name);
    }
}

// The call of a step. `pair` has the piece's address, little-endian as the library writes it, and its size.
static uint64_t call(const struct step *step, uint8_t *pair) {
    uint64_t address = word(pair), size = word(pair + WORD), bytes = step->bytes;
    switch (step->what) {
    case ALLOCATE_METADATA: return filespace_allocate(area, AREA_LENGTH, FILESPACE_METADATA, bytes, pair, FILESPACE_RESULT_LENGTH);
    case ALLOCATE_RAW: return filespace_allocate(area, AREA_LENGTH, FILESPACE_RAW, bytes, pair, FILESPACE_RESULT_LENGTH);
    case EXTEND: return filespace_extend(area, AREA_LENGTH, address, size, bytes);
    case SHORTEN: return filespace_shorten(area, AREA_LENGTH, address, size, bytes);
    default: return filespace_release(area, AREA_LENGTH, address, bytes);
    }
}

static uint64_t size_after(const struct step *step, uint64_t size) {
    return step->what == EXTEND ? size + step->bytes : step->what == SHORTEN ? size - step->bytes : step->what == RELEASE ? 0 : step->bytes;
}

// One step, in memory alone. A refused one counts as done: the plan goes on.
static void do_step(const struct step *step) {
    uint8_t *pair = kept + PAIRS + PAIR * step->piece;
    uint64_t answer = call(step, pair);
    printf("  %-17s  %-7s  %5" PRIu64 " bytes   ", calls[step->what], names[step->piece], step->bytes);
    if (answer == FILESPACE_DONE) {
        set_word(pair + WORD, size_after(step, word(pair + WORD)));
    }
    if (answer == FILESPACE_DONE && step->what <= ALLOCATE_RAW) {
        printf("at %" PRIu64 ", ", word(pair));
    }
    print_answer(answer);
    set_word(kept + STEPS_DONE, word(kept + STEPS_DONE) + 1);
}

static const char *piece_at(uint64_t address) {
    for (int i = 0; i < PIECES; i++) {
        const uint8_t *pair = kept + PAIRS + PAIR * i;
        if (word(pair) == address && word(pair + WORD) != 0) {
            return names[i];
        }
    }
    return "-";
}

static void print_table(void) {
    printf("     address      size  kind                 page  piece\n");
    for (uint64_t i = 0; i < word(area + AREA_COUNT); i++) {
        const uint8_t *entry = area + FILESPACE_AREA_LENGTH(i);
        uint64_t address = word(entry), size = word(entry + WORD), kind = word(entry + 2 * WORD), page = address / word(area + AREA_PAGE);
        printf("  %10" PRIu64 "%10" PRIu64 "  %-19s  %4" PRIu64 "  %s\n", address, size, kinds[kind], page, piece_at(address));
    }
}

int main(int count, char **words) {
    bool crash = count == 3 && strcmp(words[2], "crash") == 0;
    if (count != 2 && !crash) {
        fprintf(stderr, "usage: recorder FILE [crash]\n");
        return 2;
    }
    const char *name = words[1];
    load(name);
    while (word(kept + STEPS_DONE) < STEPS) {
        uint64_t next = word(kept + STEPS_DONE);
        do_step(&plan[next]);
        if (crash && next == CRASH_AT) {
            printf("crash: memory has this step, and %s has not\n", name);
            fflush(stdout);
            abort();
        }
        save(name);
    }
    print_table();
    return 0;
}
