// The benchmark's workload over an area: the calls of the C library (include/filespace.h), and nothing else. The area is words here, so that the
// workload reads the table behind the head in place; the state is copied out of the head after each call.
#include "../include/filespace.h"
#include "workload.h"

enum { HEAD_WORDS = FILESPACE_HEAD_LENGTH / 8 };

static uint8_t *area_of(uint64_t *table) {
    return (uint8_t *)(table - HEAD_WORDS);
}

static size_t length_of(size_t words) {
    return FILESPACE_AREA_LENGTH(words / ENTRY_WORDS);
}

static int answered(uint64_t answer, struct space *s, const uint64_t *table) {
    const uint64_t *head = table - HEAD_WORDS;
    *s = (struct space){head[0], head[1], head[2], head[3]};
    return answer;
}

struct placed space_allocate(struct space *s, uint64_t *table, size_t words, uint64_t type, uint64_t size) {
    uint64_t address = UINT64_MAX;
    uint64_t answer = filespace_allocate(area_of(table), length_of(words), type, size, (uint8_t *)&address, sizeof address);
    return (struct placed){answered(answer, s, table), address};
}

int space_release(struct space *s, uint64_t *table, size_t words, uint64_t address, uint64_t size) {
    return answered(filespace_release(area_of(table), length_of(words), address, size), s, table);
}

int space_extend(struct space *s, uint64_t *table, size_t words, uint64_t address, uint64_t size, uint64_t by) {
    return answered(filespace_extend(area_of(table), length_of(words), address, size, by), s, table);
}

int space_shorten(struct space *s, uint64_t *table, size_t words, uint64_t address, uint64_t size, uint64_t by) {
    return answered(filespace_shorten(area_of(table), length_of(words), address, size, by), s, table);
}

int main(void) {
    static uint64_t area[HEAD_WORDS + MOST_WORDS];
    uint64_t *table = area + HEAD_WORDS;
    struct wish wish = asked();
    struct space space;
    if (answered(filespace_open(PAGE, LARGEST_LIMIT, area_of(table), length_of(wish.words)), &space, table))
        return 2;
    struct run run = filled(space, table, wish);
    for (uint64_t i = 0; i < wish.turns; i++)
        turn(&run, table, wish.words);
    say_run(&run);
    return 0;
}
