#define _DEFAULT_SOURCE
#include "check.h"

#include <signal.h>
#include <stdarg.h>
#include <stdio.h>
#include <stdlib.h>
#include <string.h>
#include <sys/mman.h>
#include <unistd.h>

#include "heap.h"

enum { REGIONS = 4096, HEX_MOST = 1 << 18 };

static guarded_side side;
static const char *row_group, *row_name;
static bool row_failed;
static long passed, failed;
static size_t given_bytes;

/* Regions of this row, and from first_free on those of earlier rows, to be used again. */
static struct {
    guarded_region region;
    size_t length;
    bool is_used, is_written;
} regions[REGIONS];
static size_t region_count;

/* (only the side of a slice that isn't guarded has other bytes in its pages) */
static bool is_filled(const uint8_t *bytes, size_t length) {
    size_t i;
    for (i = 0; i < length; i++)
        if (bytes[i] != FILL) return false;
    return true;
}

static void end_row(void) {
    size_t i;
    if (row_name == NULL) return;
    if (heap_faults() != 0) fail("memory: taken though none may be, or given back with a secret");
    for (i = 0; i < region_count; i++) {
        guarded_region region = regions[i].region;
        size_t rest = region.size - regions[i].length;
        const uint8_t *other =
            side == GUARD_BEFORE ? region.start + regions[i].length : region.start;
        if (!regions[i].is_used) continue;
        if (regions[i].is_written && !is_filled(other, rest))
            fail("bytes beside a slice are written");
        if (mprotect(region.start, region.size, PROT_READ | PROT_WRITE) != 0) abort();
        regions[i].is_used = false;
    }
    if (row_failed) failed++;
    else passed++;
    row_name = NULL;
}

/* Prints the row in which a page that may not be touched was touched. */
static void touched(int number) {
    static const char text[] = ": a page that may not be touched was touched, or a slice written\n";
    ssize_t written = write(2, row_group, strlen(row_group));
    written += write(2, ", ", 2);
    written += write(2, row_name, strlen(row_name));
    written += write(2, text, sizeof text - 1);
    _exit(written > 0 ? 128 + number : 1);
}

void check_begin(guarded_side new_side) {
    size_t i;
    side = new_side;
    for (i = 0; i < region_count; i++)
        if (regions[i].is_used) abort();
    if (signal(SIGSEGV, touched) == SIG_ERR || signal(SIGBUS, touched) == SIG_ERR) abort();
}

void row(const char *group, const char *name) {
    end_row();
    row_group = group;
    row_name = name;
    row_failed = false;
    given_bytes = 0;
    heap_allow(false);
}

void check_end(void) { end_row(); }

size_t row_bytes(void) { return given_bytes; }

long rows_passed(void) { return passed; }

long rows_failed(void) { return failed; }

void fail(const char *format, ...) {
    va_list arguments;
    if (row_failed) return;
    row_failed = true;
    fprintf(stderr, "%s, %s (%s): ", row_group, row_name,
            side == GUARD_BEFORE ? "before" : "behind");
    va_start(arguments, format);
    vfprintf(stderr, format, arguments);
    va_end(arguments);
    fprintf(stderr, "\n");
}

stun_types_answer answer_of(uint32_t code, uint32_t type, uint64_t expected, uint64_t actual) {
    stun_types_answer answer;
    answer.code = code;
    answer.type = type;
    answer.expected = expected;
    answer.actual = actual;
    return answer;
}

bool check_answer(stun_types_answer answer, stun_types_answer expected, int line) {
    if (answer.code == expected.code && answer.type == expected.type
        && answer.expected == expected.expected && answer.actual == expected.actual)
        return true;
    fail("line %d: code %lu, type 0x%lx, expected %llu, actual %llu; it is to be code %lu, type "
         "0x%lx, "
         "expected %llu, actual %llu",
         line, (unsigned long)answer.code, (unsigned long)answer.type,
         (unsigned long long)answer.expected, (unsigned long long)answer.actual,
         (unsigned long)expected.code, (unsigned long)expected.type,
         (unsigned long long)expected.expected, (unsigned long long)expected.actual);
    return false;
}

void check_bytes(const uint8_t *bytes, size_t length, slice expected, int line) {
    size_t i, least = length < expected.length ? length : expected.length;
    for (i = 0; i < least; i++)
        if (bytes[i] != expected.bytes[i]) {
            fail("line %d: the byte at %zu is %02x, and is to be %02x", line, i, bytes[i],
                 expected.bytes[i]);
            return;
        }
    if (length != expected.length)
        fail("line %d: %zu bytes; there are to be %zu", line, length, expected.length);
}

/* ---- slices */

static size_t take_region(size_t length) {
    size_t i;
    for (i = 0; i < region_count; i++) {
        size_t size = regions[i].region.size;
        if (!regions[i].is_used && length <= size && size / 4 <= length + 4096) break;
    }
    if (i == region_count) {
        if (region_count == REGIONS) abort();
        regions[region_count++].region = guarded_make(length);
    }
    regions[i].is_used = true;
    regions[i].length = length;
    return i;
}

uint8_t *room(size_t length) {
    size_t i = take_region(length);
    memset(regions[i].region.start, FILL, regions[i].region.size);
    regions[i].is_written = true;
    return guarded_place(regions[i].region, side, length);
}

uint8_t *copy(const void *bytes, size_t length) {
    uint8_t *place = room(length);
    if (length != 0) memcpy(place, bytes, length);
    return place;
}

slice given(const void *bytes, size_t length) {
    size_t i = take_region(length);
    slice made;
    given_bytes += length;
    made.bytes = guarded_place(regions[i].region, side, length);
    made.length = length;
    if (length != 0) memcpy(guarded_place(regions[i].region, side, length), bytes, length);
    regions[i].is_written = false;
    if (mprotect(regions[i].region.start, regions[i].region.size, PROT_READ) != 0) abort();
    return made;
}

slice hex(const char *digits) {
    static uint8_t bytes[HEX_MOST];
    size_t length = 0;
    while (*digits != 0) {
        char pair[3] = {0, 0, 0};
        unsigned long count = 1;
        if (*digits == ' ') {
            digits++;
            continue;
        }
        pair[0] = digits[0];
        pair[1] = digits[1];
        digits += 2;
        if (*digits == '*') {
            char *end;
            count = strtoul(digits + 1, &end, 10);
            digits = end;
        }
        if (count > HEX_MOST - length) abort();
        memset(bytes + length, (int)strtoul(pair, NULL, 16), count);
        length += count;
    }
    return given(bytes, length);
}

slice text(const char *letters) { return given(letters, strlen(letters)); }

slice front_of(slice whole, size_t length) { return given(whole.bytes, length); }

slice behind(slice whole, size_t offset) {
    return given(whole.bytes + offset, whole.length - offset);
}

static uint8_t scratch[1 << 18];

slice changed(slice whole, size_t at, uint8_t byte) {
    memcpy(scratch, whole.bytes, whole.length);
    scratch[at] = byte;
    return given(scratch, whole.length);
}

slice joined(slice first, slice second) {
    if (first.length + second.length > sizeof scratch) abort();
    if (first.length != 0) memcpy(scratch, first.bytes, first.length);
    if (second.length != 0) memcpy(scratch + first.length, second.bytes, second.length);
    return given(scratch, first.length + second.length);
}

uint8_t *guarded_end(uint8_t *place, size_t size, size_t length) {
    return side == GUARD_BEFORE ? place : place + size - length;
}

bool is_untouched(const void *bytes, size_t length) { return is_filled(bytes, length); }

bool is_zero(const void *bytes, size_t length) {
    const uint8_t *all = bytes;
    size_t i;
    for (i = 0; i < length; i++)
        if (all[i] != 0) return false;
    return true;
}
