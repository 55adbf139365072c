/* The file space manager of a paged file, for C99 and C++: five calls over one byte area that the
 * caller keeps. They hand out, take back, lengthen and shorten pieces of the file; they read and write
 * no file themselves. docs/RULES.md has the rules by which a place is chosen, examples/recorder.c a
 * host, and README.md how to build and link the library (x86-64 Linux).
 *
 * The area: 32 + 24 * C bytes, with room for C entries, C from 4 to 1,024. All of it is words of 8
 * bytes, little-endian:
 *
 *     byte            0          the page size P, 512 to 2^30, a power of two or not
 *     byte            8          the limit M, P to 2^62: no byte at M or beyond is ever handed out
 *     byte           16          the end of the file E, a multiple of P, at most M
 *     byte           24          the number of entries n, at most C
 *     byte 32 + 24 * i           entry i, for i below C: its address in the file,
 *     byte 40 + 24 * i               its size in bytes,
 *     byte 48 + 24 * i               its kind
 *
 * The first n entries say what each byte of the file is, from 0 to E, without a gap; every byte of the
 * others is 0. The kinds:
 *
 *     live     1 small metadata     2 small raw     3 large
 *     free     4 small metadata     5 small raw     6 large
 *
 * A live piece is small below P bytes, and large from P on. A free entry is small in a page that has
 * small pieces, and large elsewhere, whatever its size.
 *
 * A host may read all of this between calls, and leaves the writing to them. An area whose bytes keep
 * the rules ('State and table' in docs/RULES.md) is sound; any other one is refused by each call but
 * filespace_open.
 *
 * The area is the caller's. The library keeps no pointer to it, and no state of its own; it allocates
 * no memory, and 32 KiB of stack are enough for a call. The area's bytes are all there is: it may be
 * copied, moved, or written to a file and read back. It needs no alignment. Its length is not in it, so
 * a host keeps that too: an area that lost unused entries at its end is a sound one with a smaller C.
 *
 * Every call answers with a number: FILESPACE_DONE, or a refusal. Each call below has its refusals,
 * without the prefix, in the order in which it looks for them: the first that holds is the answer. Any
 * bytes, lengths and numbers get an answer.
 *
 *   - After a refusal `area` and `result` are as they came, byte for byte.
 *   - When done, filespace_allocate has written the first 8 bytes of `result`, and never a later one.
 *
 * What the caller sees to, since no call can:
 *
 *   - Each pointer is to as many bytes as its length says, which the call may write. None is null,
 *     not even with a length of 0.
 *   - `area` and `result` do not overlap. What is proved, is proved of separate buffers.
 *   - While a call runs, nothing else reads or writes its buffers: one area is not used by two threads
 *     at once. Calls on different areas are independent.
 *   - Where the process ends within a call, an area in memory that outlives it (a mapped file, shared
 *     memory) can be left half-written. A host that must survive a crash keeps a copy, or writes the
 *     area to a file after the call, as examples/recorder.c does. */
#ifndef FILESPACE_H
#define FILESPACE_H

#include <stddef.h>
#include <stdint.h>

#ifdef __cplusplus
extern "C" {
#endif

/* The length of an area with room for so many entries, LEAST_ENTRIES to LARGEST_ENTRIES:
 *     uint8_t area[FILESPACE_AREA_LENGTH(100)]; */
#define FILESPACE_AREA_LENGTH(entries) (FILESPACE_HEAD_LENGTH + FILESPACE_ENTRY_LENGTH * (entries))
#define FILESPACE_HEAD_LENGTH 32
#define FILESPACE_ENTRY_LENGTH 24
#define FILESPACE_LEAST_ENTRIES 4
#define FILESPACE_LARGEST_ENTRIES 1024

#define FILESPACE_LEAST_PAGE 512
#define FILESPACE_LARGEST_PAGE 1073741824
#define FILESPACE_LARGEST_LIMIT UINT64_C(4611686018427387904)

/* The least length of `result`, and the bytes of it that are written. */
#define FILESPACE_RESULT_LENGTH 8

/* What a piece is for: the `type` of an allocation. */
#define FILESPACE_METADATA 1
#define FILESPACE_RAW 2

/* The answers. 7 is not used; 11 and 12 are those of other calls, which C has not. */
#define FILESPACE_DONE 0
#define FILESPACE_OUT_OF_RANGE 1     /* opening: the page size, the limit or the area's length */
#define FILESPACE_NOT_SOUND 2        /* the area is not sound, or no area has its length */
#define FILESPACE_UNKNOWN_CODE 3     /* the type is neither metadata nor raw */
#define FILESPACE_ZERO_ASKED 4       /* a size or a change is 0 */
#define FILESPACE_BEYOND_LIMIT 5     /* the file would have to grow, and its end would pass the limit */
#define FILESPACE_TABLE_FULL 6       /* more entries would be needed than the area has room for */
#define FILESPACE_NO_ROOM_BEHIND 8   /* too little room behind the piece, or a small one would reach P */
#define FILESPACE_TOO_LITTLE_LEFT 9  /* under 1 byte of a small piece would remain, or under P of a large */
#define FILESPACE_SLICE_TOO_SHORT 10 /* the result has under 8 bytes */
#define FILESPACE_BEYOND_END 13      /* the address is at the file's end or beyond it */
#define FILESPACE_IN_FREE 14         /* the address lies in a free entry */
#define FILESPACE_INSIDE_LIVE 15     /* the address lies inside a live piece, and is not its start */
#define FILESPACE_OTHER_SIZE 16      /* a live piece starts at the address, and has another size */

/* Makes of `area` that of an empty file: P, M, E = 0, n = 0, and a table of zeros. What it held before
 * is not looked at, and is lost.
 * Refused: OUT_OF_RANGE. */
uint64_t filespace_open(uint64_t page, uint64_t limit, uint8_t *area, size_t area_length);

/* Places a new piece of `size` bytes, of the type FILESPACE_METADATA or FILESPACE_RAW; the file grows by
 * whole pages where it must. When done, the first 8 bytes of `result` have the address, little-endian.
 * Refused: SLICE_TOO_SHORT, NOT_SOUND, UNKNOWN_CODE, ZERO_ASKED, BEYOND_LIMIT, TABLE_FULL. */
uint64_t filespace_allocate(uint8_t *area, size_t area_length, uint64_t type, uint64_t size,
                            uint8_t *result, size_t result_length);

/* The calls below name a live piece by its exact address and size: the address that its allocation gave,
 * and the size that it has now. */

/* Gives the piece back. Whole free pages at the file's end are cut from the file.
 * Refused: NOT_SOUND; BEYOND_END, IN_FREE, INSIDE_LIVE or OTHER_SIZE, of which no two hold at once;
 * TABLE_FULL. (A size of 0 has no refusal of its own: at a piece's start it is OTHER_SIZE.)
 * It can also tell whether an area is sound: filespace_release(area, area_length, UINT64_MAX, 0) answers
 * BEYOND_END where it is, and NOT_SOUND where it is not; neither changes anything. */
uint64_t filespace_release(uint8_t *area, size_t area_length, uint64_t address, uint64_t size);

/* Lengthens the piece by `by` bytes; its address stays. A large piece that ends at the file's end
 * grows the file by whole pages.
 * Refused: NOT_SOUND; ZERO_ASKED, of `size` or `by`; BEYOND_END to OTHER_SIZE, as a release;
 * NO_ROOM_BEHIND; BEYOND_LIMIT; TABLE_FULL. */
uint64_t filespace_extend(uint8_t *area, size_t area_length, uint64_t address, uint64_t size, uint64_t by);

/* Takes the last `by` bytes from the piece, and frees them as a release does; its address stays.
 * Refused: NOT_SOUND; ZERO_ASKED, of `size` or `by`; BEYOND_END to OTHER_SIZE, as a release;
 * TOO_LITTLE_LEFT; TABLE_FULL. */
uint64_t filespace_shorten(uint8_t *area, size_t area_length, uint64_t address, uint64_t size, uint64_t by);

#ifdef __cplusplus
}
#endif

#endif
