/* Calls the static library once for each request of standard input, and writes what came of it to standard output, until the input ends. It
 * judges nothing: tests/src/area_play.rs makes the requests and compares every byte of the answers.
 *
 *   request    eight words of 8 bytes as this machine has them, the fields of `struct request`; the arena of the area; that of the result
 *   arena      a buffer with guard bytes around it: GUARD bytes and `offset` more before it, and GUARD behind it
 *   answer     the call's number in 8 bytes, and both arenas as the call left them
 *
 * An arena starts at an address that 8 divides, so an offset from 1 to 7 makes the buffer unaligned. */
#define _POSIX_C_SOURCE 200809L
#include <stdint.h>
#include <stdio.h>
#include <stdlib.h>
#include <unistd.h>

#include "filespace.h"

enum { GUARD = 64, LARGEST_ARENA = 1 << 16, BUFFER = 1 << 16 };

/* After so long the program ends itself: a call has not come back, or the requests are too many for one run. */
enum { SECONDS = 60 };

struct request {
    uint64_t call, words[3];
    uint64_t area_length, area_offset;
    uint64_t result_length, result_offset;
};

struct arena {
    uint64_t aligned[LARGEST_ARENA / sizeof(uint64_t)];
    size_t length; /* of the whole arena */
    uint8_t *buffer;
    size_t buffer_length;
};

static struct arena area, result;

static void fail(const char *why)
{
    fprintf(stderr, "area_host: %s\n", why);
    exit(2);
}

static void read_arena(struct arena *arena, uint64_t length, uint64_t offset)
{
    if (offset > 7 || length > LARGEST_ARENA - 2 * GUARD - 7)
        fail("a length or an offset is too large");
    arena->length = GUARD + offset + length + GUARD;
    arena->buffer = (uint8_t *)arena->aligned + GUARD + offset;
    arena->buffer_length = length;
    if (fread(arena->aligned, 1, arena->length, stdin) != arena->length)
        fail("the input ends within a request");
}

static uint64_t called(const struct request *asked)
{
    const uint64_t *w = asked->words;
    switch (asked->call) {
    case 0:
        return filespace_open(w[0], w[1], area.buffer, area.buffer_length);
    case 1:
        return filespace_allocate(area.buffer, area.buffer_length, w[0], w[1], result.buffer, result.buffer_length);
    case 2:
        return filespace_release(area.buffer, area.buffer_length, w[0], w[1]);
    case 3:
        return filespace_extend(area.buffer, area.buffer_length, w[0], w[1], w[2]);
    case 4:
        return filespace_shorten(area.buffer, area.buffer_length, w[0], w[1], w[2]);
    default:
        fail("there are five calls");
        return 0;
    }
}

static void write_bytes(const void *bytes, size_t length)
{
    if (fwrite(bytes, 1, length, stdout) != length)
        fail("the answer cannot be written");
}

int main(void)
{
    struct request asked;
    static char in[BUFFER], out[BUFFER];
    setvbuf(stdin, in, _IOFBF, sizeof in);
    setvbuf(stdout, out, _IOFBF, sizeof out);
    alarm(SECONDS);
    while (fread(&asked, sizeof asked, 1, stdin) == 1) {
        uint64_t number;
        read_arena(&area, asked.area_length, asked.area_offset);
        read_arena(&result, asked.result_length, asked.result_offset);
        number = called(&asked);
        write_bytes(&number, sizeof number);
        write_bytes(area.aligned, area.length);
        write_bytes(result.aligned, result.length);
    }
    return fflush(stdout) == 0 ? 0 : 2;
}
