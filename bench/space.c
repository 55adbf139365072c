// The benchmark's workload through a plain C version of the file space manager: the same checks on every call, the same results, written
// by hand from document 01. crates/bench is the same workload through the proved library, and must write the same.
//
//   is_sound      the whole table, in one pass, on every call; a small entry costs no division
//   best          the best fit among the free entries of a kind
//   free_entry    an entry is freed: merged with its neighbours, its emptied page handed over, the file's end cut
//   splice        entries replaced in place
//   misnamed      what is wrong with a name, where no live entry has it; the calls that find the named entry never come here
//   space_allocate, space_release      the calls, on a struct and a lent table
//   space_extend, space_shorten        two more, which came later; nothing above them has changed since but what a wrong name is told
//
// Not here: the workload itself (workload.h), and listing, which it has not.
#include "workload.h"

enum { LEAST_WORDS = 4 * ENTRY_WORDS };
enum { FREE_METADATA = 4, FREE_RAW = 5, FREE_LARGE = 6, TO_FREE = 3 };
enum { NOT_SOUND = 2, UNKNOWN_TYPE = 3, NO_BYTES = 4, BEYOND_LIMIT = 5, TABLE_FULL = 6, NO_ROOM_BEHIND = 8, TOO_LITTLE_LEFT = 9 };
enum { BEYOND_END = 13, IN_FREE = 14, INSIDE_LIVE = 15, OTHER_SIZE = LARGEST_REFUSAL };

static const uint64_t LEAST_PAGE = 512, LARGEST_PAGE = 1u << 30;

static void put(uint64_t *table, size_t i, struct entry e) {
    uint64_t *w = table + i * ENTRY_WORDS;
    w[0] = e.address;
    w[1] = e.size;
    w[2] = e.kind;
}

static uint64_t round_up(uint64_t page, uint64_t a) {
    return (a + page - 1) / page * page;
}

// Kinds 1 and 4, 2 and 5, 3 and 6 are a family.
static uint64_t family(uint64_t kind) {
    return kind > TO_FREE ? kind - TO_FREE : kind;
}

// An entry behind `former`, with `left` bytes to the next border, keeps the rules.
static bool entry_holds(uint64_t page, uint64_t left, uint64_t former, struct entry e) {
    bool at_border = left == page;
    if (family(e.kind) != LIVE_LARGE) {
        if (e.size >= page || e.size > left)
            return false;
    } else if (e.kind == LIVE_LARGE) {
        if (!at_border || e.size < page)
            return false;
    }
    if (at_border)
        return !(former == FREE_LARGE && e.kind == FREE_LARGE);
    return family(former) == family(e.kind) && (is_live(former) || is_live(e.kind));
}

static bool entries_hold(const struct space *s, const uint64_t *table) {
    uint64_t at = 0, left = s->page, former = LIVE_LARGE;
    for (size_t i = 0; i < s->count; i++) {
        struct entry e = entry_at(table, i);
        if (e.kind < 1 || e.kind > FREE_LARGE || e.address != at || e.size < 1 || e.size > s->end - at)
            return false;
        if (!entry_holds(s->page, left, former, e))
            return false;
        if (i + 1 == s->count && e.kind == FREE_LARGE && e.size >= s->page)
            return false;
        at += e.size;
        if (e.size < left)
            left -= e.size;
        else if (e.size == left)
            left = s->page;
        else
            left = s->page - (e.size - left) % s->page;
        former = e.kind;
    }
    return at == s->end;
}

static bool is_sound(const struct space *s, const uint64_t *table, size_t words) {
    if (s->page < LEAST_PAGE || s->page > LARGEST_PAGE || s->limit < s->page || s->limit > LARGEST_LIMIT)
        return false;
    if (s->end % s->page != 0 || s->end > s->limit)
        return false;
    if (words % ENTRY_WORDS != 0 || words < LEAST_WORDS || words > MOST_WORDS || s->count > words / ENTRY_WORDS)
        return false;
    if (!entries_hold(s, table))
        return false;
    for (size_t i = s->count * ENTRY_WORDS; i < words; i++)
        if (table[i] != 0)
            return false;
    return true;
}

// Words move within the table. A loop, and not `memmove`, whose vector instructions an emulator makes dear.
static void move(uint64_t *table, size_t to, size_t from, size_t words) {
    if (to < from)
        for (size_t k = 0; k < words; k++)
            table[to + k] = table[from + k];
    else if (to > from)
        for (size_t k = words; k-- > 0;)
            table[to + k] = table[from + k];
}

// Entries from i up to j become these.
static void splice(struct space *s, uint64_t *table, size_t i, size_t j, const struct entry *with, size_t count) {
    size_t behind = s->count - j, total = i + count + behind;
    move(table, (i + count) * ENTRY_WORDS, j * ENTRY_WORDS, behind * ENTRY_WORDS);
    for (size_t k = 0; k < count; k++)
        put(table, i + k, with[k]);
    for (size_t k = total * ENTRY_WORDS; k < s->count * ENTRY_WORDS; k++)
        table[k] = 0;
    s->count = total;
}

// Whether a piece fits an entry of the kind that is asked for. A large piece goes to the first border in it.
static bool fits(uint64_t page, uint64_t size, struct entry e) {
    if (e.size < size)
        return false;
    return e.kind != FREE_LARGE || round_up(page, e.address) - e.address <= e.size - size;
}

// The smallest entry of a kind that fits, and of several as small the lowest; the count where there is none.
static size_t best(const struct space *s, const uint64_t *table, uint64_t kind, uint64_t size) {
    size_t held = s->count;
    uint64_t least = UINT64_MAX;
    for (size_t i = 0; i < s->count; i++) {
        struct entry e = entry_at(table, i);
        if (e.kind != kind || e.size >= least || !fits(s->page, size, e))
            continue;
        held = i;
        least = e.size;
        if (e.size == size)
            break;
    }
    return held;
}

// Adds an entry that has a byte.
static size_t add(struct entry *with, size_t count, uint64_t address, uint64_t size, uint64_t kind) {
    if (size > 0)
        with[count++] = (struct entry){address, size, kind};
    return count;
}

// A piece and what stays free behind it, in `room` bytes at b.
static size_t add_piece(struct entry *with, size_t count, uint64_t b, uint64_t size, uint64_t live, uint64_t room) {
    count = add(with, count, b, size, live);
    return add(with, count, b + size, room - size, live + TO_FREE);
}

static struct placed refused(int refusal) {
    return (struct placed){refusal, UINT64_MAX};
}

// These entries take the place of those from i up to j, and the piece is at b.
static struct placed place(struct space *s, uint64_t *table, size_t words, size_t i, size_t j, const struct entry *with, size_t count,
                           uint64_t b, uint64_t end) {
    if (s->count - (j - i) + count > words / ENTRY_WORDS)
        return refused(TABLE_FULL);
    splice(s, table, i, j, with, count);
    s->end = end;
    return (struct placed){0, b};
}

struct placed space_allocate(struct space *s, uint64_t *table, size_t words, uint64_t type, uint64_t size) {
    if (!is_sound(s, table, words))
        return refused(NOT_SOUND);
    if (type != METADATA && type != RAW)
        return refused(UNKNOWN_TYPE);
    if (size == 0)
        return refused(NO_BYTES);
    bool small = size < s->page;
    uint64_t live = small ? type : LIVE_LARGE;
    struct entry with[4];
    size_t count = 0;
    if (small) {
        size_t i = best(s, table, live + TO_FREE, size);
        if (i < s->count) {
            struct entry e = entry_at(table, i);
            count = add_piece(with, count, e.address, size, live, e.size);
            return place(s, table, words, i, i + 1, with, count, e.address, s->end);
        }
    }
    uint64_t room = small ? s->page : size;
    size_t i = best(s, table, FREE_LARGE, room);
    if (i < s->count) {
        struct entry e = entry_at(table, i);
        uint64_t b = round_up(s->page, e.address);
        count = add(with, count, e.address, b - e.address, FREE_LARGE);
        count = add_piece(with, count, b, size, live, room);
        count = add(with, count, b + room, e.address + e.size - (b + room), FREE_LARGE);
        return place(s, table, words, i, i + 1, with, count, b, s->end);
    }
    if (room > s->limit - s->end || round_up(s->page, room) > s->limit - s->end)
        return refused(BEYOND_LIMIT);
    uint64_t growth = round_up(s->page, room);
    count = add_piece(with, count, s->end, size, live, growth);
    return place(s, table, words, s->count, s->count, with, count, s->end, s->end + growth);
}

// Whether entry i is free of this kind, and in the page that starts at `start` where it is small.
static bool merges(const struct space *s, const uint64_t *table, size_t i, uint64_t kind, uint64_t start) {
    if (i >= s->count)
        return false;
    struct entry e = entry_at(table, i);
    return e.kind == kind && (kind == FREE_LARGE || (e.address >= start && e.address - start < s->page));
}

// Entry i becomes free, and one with the free entries beside it, as a release demands.
static void free_entry(struct space *s, uint64_t *table, size_t i) {
    size_t from = i, to = i + 1;
    struct entry e = entry_at(table, i);
    e.kind += TO_FREE;
    for (;;) {
        uint64_t start = e.kind == FREE_LARGE ? 0 : e.address / s->page * s->page;
        if (merges(s, table, to, e.kind, start))
            e.size += entry_at(table, to++).size;
        if (from > 0 && merges(s, table, from - 1, e.kind, start)) {
            struct entry former = entry_at(table, --from);
            e.address = former.address;
            e.size += former.size;
        }
        if (e.kind == FREE_LARGE || e.size < s->page)
            break;
        e.kind = FREE_LARGE;
    }
    if (e.kind == FREE_LARGE && to == s->count) {
        uint64_t cut = e.size / s->page * s->page;
        e.size -= cut;
        s->end -= cut;
    }
    splice(s, table, from, to, &e, e.size > 0 ? 1 : 0);
}

// Why no live entry has this address and the size that was named with it, by the entry in which the address lies: entries lie in the order of
// their addresses, so it is the first that ends behind the address.
static int misnamed(const struct space *s, const uint64_t *table, uint64_t address) {
    for (size_t i = 0; i < s->count; i++) {
        struct entry e = entry_at(table, i);
        if (address >= e.address + e.size)
            continue;
        if (!is_live(e.kind))
            return IN_FREE;
        return address == e.address ? OTHER_SIZE : INSIDE_LIVE;
    }
    return BEYOND_END;
}

int space_release(struct space *s, uint64_t *table, size_t words, uint64_t address, uint64_t size) {
    if (!is_sound(s, table, words))
        return NOT_SOUND;
    for (size_t i = 0; i < s->count; i++) {
        struct entry e = entry_at(table, i);
        if (e.address == address && e.size == size && is_live(e.kind)) {
            free_entry(s, table, i);
            return 0;
        }
    }
    return misnamed(s, table, address);
}

// The live entry with this address and size; the count where there is none.
static size_t named(const struct space *s, const uint64_t *table, uint64_t address, uint64_t size) {
    for (size_t i = 0; i < s->count; i++) {
        struct entry e = entry_at(table, i);
        if (e.address == address && e.size == size && is_live(e.kind))
            return i;
    }
    return s->count;
}

// The live entry i becomes e, with so many free bytes behind it in place of the entries up to `to`; the file then ends at `end`.
static int resize(struct space *s, uint64_t *table, size_t words, size_t i, size_t to, struct entry e, uint64_t rest, uint64_t end) {
    struct entry with[2];
    size_t count = add_piece(with, 0, e.address, e.size, e.kind, e.size + rest);
    if (s->count - (to - i) + count > words / ENTRY_WORDS)
        return TABLE_FULL;
    splice(s, table, i, to, with, count);
    s->end = end;
    return 0;
}

int space_extend(struct space *s, uint64_t *table, size_t words, uint64_t address, uint64_t size, uint64_t by) {
    if (!is_sound(s, table, words))
        return NOT_SOUND;
    if (size == 0 || by == 0)
        return NO_BYTES;
    size_t i = named(s, table, address, size);
    if (i == s->count)
        return misnamed(s, table, address);
    struct entry e = entry_at(table, i);
    bool large = e.kind == LIVE_LARGE;
    uint64_t behind = address + size;
    if (large && i + 1 == s->count) {
        if (by > s->limit - behind || round_up(s->page, behind + by) > s->limit)
            return BEYOND_LIMIT;
        uint64_t end = round_up(s->page, behind + by);
        e.size += by;
        return resize(s, table, words, i, i + 1, e, end - (behind + by), end);
    }
    if (i + 1 == s->count || (!large && (behind % s->page == 0 || by >= s->page - size)))
        return NO_ROOM_BEHIND;
    struct entry next = entry_at(table, i + 1);
    if ((large ? next.kind != FREE_LARGE : is_live(next.kind)) || next.size < by)
        return NO_ROOM_BEHIND;
    e.size += by;
    return resize(s, table, words, i, i + 2, e, next.size - by, s->end);
}

int space_shorten(struct space *s, uint64_t *table, size_t words, uint64_t address, uint64_t size, uint64_t by) {
    if (!is_sound(s, table, words))
        return NOT_SOUND;
    if (size == 0 || by == 0)
        return NO_BYTES;
    size_t i = named(s, table, address, size), to = i + 1;
    if (i == s->count)
        return misnamed(s, table, address);
    struct entry e = entry_at(table, i);
    bool large = e.kind == LIVE_LARGE;
    if (by >= size || (large && size - by < s->page))
        return TOO_LITTLE_LEFT;
    uint64_t rest = by, cut = 0, start = large ? 0 : address / s->page * s->page;
    if (merges(s, table, to, e.kind + TO_FREE, start))
        rest += entry_at(table, to++).size;
    if (large && to == s->count)
        cut = rest / s->page * s->page;
    e.size -= by;
    return resize(s, table, words, i, to, e, rest - cut, s->end - cut);
}

// Names in one part of the table, as in crates/bench/src/named.rt.

enum { NAMES_DRAWN = 2, NAMES_FOUND, CALLS_BY_NAME };
enum { FRONT, MIDDLE };

// A live entry, found from any entry of the part on, or from its first; the count where there is none.
static size_t live_in(const struct run *run, const uint64_t *table, uint64_t part, uint64_t draw) {
    size_t n = run->space.count, eighth = n < 8 ? 1 : n / 8;
    if (n == 0)
        return n;
    size_t first = part == FRONT ? 0 : part == MIDDLE ? (n - eighth) / 2 : n - eighth;
    size_t i = live_from(table, first + (draw >> 8) % eighth, n);
    return i < n ? i : live_from(table, first, n);
}

// A name is drawn, and found if that is asked for. It is noted with its entry, and the next draw takes that in.
static void name(struct run *run, const uint64_t *table, uint64_t part, bool finding) {
    uint64_t draw = drawn(run->draw);
    size_t n = run->space.count, i = live_in(run, table, part, draw);
    if (i == n)
        return;
    struct entry e = entry_at(table, i);
    if (finding && (i = named(&run->space, table, e.address, e.size)) == n)
        return;
    run->draw = draw + i;
    run->sum = drawn(drawn(run->sum + e.address) + i);
    run->accepted++;
    run->entries += n;
}

static void turn_by_name(struct run *run, uint64_t *table, size_t words, uint64_t part) {
    uint64_t draw = drawn(run->draw);
    release_drawn(run, table, words, draw, live_in(run, table, part, draw));
    allocate(run, table, words);
}

int main(void) {
    static uint64_t table[MOST_WORDS];
    struct wish wish = asked();
    struct run run = filled((struct space){PAGE, LARGEST_LIMIT, 0, 0}, table, wish);
    for (uint64_t i = 0; i < wish.turns; i++)
        if (wish.way == NAMES_DRAWN || wish.way == NAMES_FOUND)
            name(&run, table, wish.part, wish.way == NAMES_FOUND);
        else if (wish.way == CALLS_BY_NAME)
            turn_by_name(&run, table, wish.words, wish.part);
        else
            turn(&run, table, wish.words);
    say_run(&run);
    return 0;
}
