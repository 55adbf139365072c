// The header and the library from C++: each call is made, and answers as the header says, at the edges of the lengths too. The calls run on a stack
// of their own, of as many bytes as the header says that they need, and must leave those below it alone.
#include <algorithm>
#include <cstddef>
#include <cstdio>
#include <iterator>
#include <ucontext.h>

#include "filespace.h"

namespace {

constexpr size_t NEEDED = 32 * 1024, BELOW = 32 * 1024, LENGTH = FILESPACE_AREA_LENGTH(FILESPACE_LARGEST_ENTRIES);
constexpr uint8_t MARK = 0xa5;

alignas(16) uint8_t stack[BELOW + NEEDED];
uint8_t area[FILESPACE_AREA_LENGTH(FILESPACE_LARGEST_ENTRIES + 1)], result[FILESPACE_RESULT_LENGTH];
ucontext_t caller, calls;

struct {
    const char *call;
    uint64_t due, answer;
} made[] = {
    {"open, of the least length", FILESPACE_DONE, 0},
    {"open, of less", FILESPACE_OUT_OF_RANGE, 0},
    {"open, of more than the largest length", FILESPACE_OUT_OF_RANGE, 0},
    {"open, of a smaller page", FILESPACE_OUT_OF_RANGE, 0},
    {"open, of a larger page", FILESPACE_OUT_OF_RANGE, 0},
    {"open, of a larger limit", FILESPACE_OUT_OF_RANGE, 0},
    {"open, of the largest of all", FILESPACE_DONE, 0},
    {"allocate, with a shorter result", FILESPACE_SLICE_TOO_SHORT, 0},
    {"allocate metadata", FILESPACE_DONE, 0},
    {"allocate raw", FILESPACE_DONE, 0},
    {"extend", FILESPACE_DONE, 0},
    {"shorten", FILESPACE_DONE, 0},
    {"release", FILESPACE_DONE, 0},
    {"release, to ask whether the area is sound", FILESPACE_BEYOND_END, 0},
    {"release, to ask that of a shorter one", FILESPACE_NOT_SOUND, 0},
};

void make_calls() {
    constexpr uint64_t PAGE = FILESPACE_LARGEST_PAGE, LIMIT = FILESPACE_LARGEST_LIMIT;
    auto next = made;
    (next++)->answer = filespace_open(FILESPACE_LEAST_PAGE, FILESPACE_LEAST_PAGE, area, FILESPACE_AREA_LENGTH(FILESPACE_LEAST_ENTRIES));
    (next++)->answer = filespace_open(PAGE, LIMIT, area, FILESPACE_AREA_LENGTH(FILESPACE_LEAST_ENTRIES - 1));
    (next++)->answer = filespace_open(PAGE, LIMIT, area, sizeof area);
    (next++)->answer = filespace_open(FILESPACE_LEAST_PAGE - 1, LIMIT, area, LENGTH);
    (next++)->answer = filespace_open(PAGE + 1, LIMIT, area, LENGTH);
    (next++)->answer = filespace_open(PAGE, LIMIT + 1, area, LENGTH);
    (next++)->answer = filespace_open(PAGE, LIMIT, area, LENGTH);
    (next++)->answer = filespace_allocate(area, LENGTH, FILESPACE_RAW, 9, result, sizeof result - 1);
    (next++)->answer = filespace_allocate(area, LENGTH, FILESPACE_METADATA, 9, result, sizeof result);
    (next++)->answer = filespace_allocate(area, LENGTH, FILESPACE_RAW, PAGE, result, sizeof result);
    (next++)->answer = filespace_extend(area, LENGTH, PAGE, PAGE, 9);
    (next++)->answer = filespace_shorten(area, LENGTH, PAGE, PAGE + 9, 8);
    (next++)->answer = filespace_release(area, LENGTH, PAGE, PAGE + 1);
    (next++)->answer = filespace_release(area, LENGTH, UINT64_MAX, 0);
    (next++)->answer = filespace_release(area, LENGTH - 1, UINT64_MAX, 0);
}

} // namespace

int main() {
    std::fill(std::begin(stack), std::end(stack), MARK);
    getcontext(&calls);
    calls.uc_link = &caller;
    calls.uc_stack.ss_sp = stack + BELOW;
    calls.uc_stack.ss_size = NEEDED;
    makecontext(&calls, make_calls, 0);
    swapcontext(&caller, &calls);
    int status = 0;
    for (const auto &one : made) {
        if (one.answer != one.due) {
            std::printf("%s: the answer is %d, and %d is due\n", one.call, static_cast<int>(one.answer), static_cast<int>(one.due));
            status = 1;
        }
    }
    auto taken = std::end(stack) - std::find_if(std::begin(stack), std::end(stack), [](uint8_t byte) { return byte != MARK; });
    std::printf("from C++: %zu calls, on %td bytes of stack, of %zu\n", std::size(made), taken, NEEDED);
    return taken > static_cast<std::ptrdiff_t>(NEEDED) ? 1 : status;
}
