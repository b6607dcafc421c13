/* Inputs: their bytes, and the slices of an input. */
#include <stdio.h>
#include <stdlib.h>
#include <string.h>

#include "fuzz.h"

enum { PLACES = 128, PLACE_MOST = 4000, BESIDE = 256, TEXT_MOST = 200 };

const stun_types_answer FINE = {STUN_TYPES_OK, 0, 0, 0};
const stun_types_answer BAD_ARGUMENT = {STUN_TYPES_BAD_ARGUMENT, 0, 0, 0};
unsigned long inputs_passed;

static const uint8_t *input;
static size_t input_length;
static guarded_side side;
static guarded_region big[BIG_REGIONS];

static struct {
    guarded_region region;
    size_t length;
    bool is_read; /* then the bytes are those of a copy */
    uint8_t copy[PLACE_MOST];
} places[PLACES];
static size_t place_count;

void broken(const char *file, int line, const char *property) {
    size_t i;
    printf("%s, line %d: %s, of the input ", file, line, property);
    for (i = 0; i < input_length; i++) printf("%02x", input[i]);
    printf("\n%lu passed, 1 failed\n", inputs_passed);
    fflush(stdout);
    abort();
}

bool is_same(stun_types_answer one, stun_types_answer other) {
    return one.code == other.code && one.type == other.type && one.expected == other.expected
           && one.actual == other.actual;
}

bool is_filled(const void *bytes, size_t length) {
    const uint8_t *all = bytes;
    return length == 0 || (all[0] == FILL && memcmp(all, all + 1, length - 1) == 0);
}

/* ---- an input */

static void make_regions(void) {
    size_t i;
    if (big[0].start != NULL) return;
    for (i = 0; i < BIG_REGIONS; i++) big[i] = guarded_make(i == PRINTED ? PRINTED_MOST : ROOM);
    for (i = 0; i < PLACES; i++) {
        places[i].region = guarded_make(PLACE_MOST);
        memset(places[i].region.start, FILL, places[i].region.size);
    }
}

void begin_input(const uint8_t *bytes, size_t length, guarded_side new_side) {
    make_regions();
    make_pairs();
    input = bytes;
    input_length = length;
    side = new_side;
    place_count = 0;
}

size_t places_used(void) { return place_count; }

/* (what was used of a region is filled again, so the next slice finds it filled) */
void release_places(size_t first) {
    while (place_count > first) {
        guarded_region region = places[--place_count].region;
        size_t length = places[place_count].length, rest = region.size - length;
        uint8_t *start = guarded_place(region, side, length);
        if (rest > BESIDE) rest = BESIDE;
        HOLDS(is_filled(side == GUARD_BEHIND || length == 0 ? start - rest : start + length, rest));
        if (length == 0) continue;
        if (places[place_count].is_read)
            HOLDS(memcmp(start, places[place_count].copy, length) == 0);
        memset(start, FILL, length);
    }
}

void end_input(void) {
    release_places(0);
    inputs_passed++;
}

unsigned take(source *from) {
    if (from->left == 0) return 0;
    from->left--;
    return *from->bytes++;
}

unsigned take_two(source *from) {
    unsigned high = take(from);
    return high << 8 | take(from);
}

uint32_t take_four(source *from) {
    uint32_t high = take_two(from);
    return high << 16 | take_two(from);
}

uint64_t take_eight(source *from) {
    uint64_t high = take_four(from);
    return high << 32 | take_four(from);
}

void take_bytes(source *from, void *bytes, size_t length) {
    uint8_t *all = bytes;
    size_t i;
    for (i = 0; i < length; i++) all[i] = (uint8_t)take(from);
}

uint32_t take_below(source *from, uint32_t limit, unsigned one_in) {
    unsigned first = take(from);
    return first % one_in == one_in - 1 ? take_four(from) : first / one_in % limit;
}

/* ---- slices */

void *place(size_t length) {
    if (place_count == PLACES || length > PLACE_MOST) abort();
    places[place_count].length = length;
    places[place_count].is_read = false;
    return guarded_place(places[place_count++].region, side, length);
}

const void *copy_of(const void *bytes, size_t length) {
    uint8_t *copy = place(length);
    places[place_count - 1].is_read = true;
    if (length != 0) memcpy(copy, bytes, length);
    if (length != 0) memcpy(places[place_count - 1].copy, bytes, length);
    return copy;
}

uint8_t *big_place(big_region region, size_t length) {
    return guarded_place(big[region], side, length);
}

const uint8_t *give(const uint8_t *bytes, size_t length) {
    uint8_t *given = big_place(GIVEN, length);
    if (length != 0) memcpy(given, bytes, length);
    return given;
}

/* ---- arguments */

model_text take_text(source *from, const char *often) {
    /* the ends of the ranges of UTF-8 too */
    static const char *const others[]
        = {"",
           "user",
           "realm",
           "pass",
           "example.org",
           "obMatJos2wAAA!",
           "\xE2\x82",
           "\xC1\xBF",
           "\xC2\x80",
           "\xE0\x9F\xBF",
           "\xE0\xA0\x80",
           "\xED\x9F\xBF",
           "\xED\xA0\x80",
           "\xED\xBF\xBF",
           "\xEE\x80\x80",
           "\xF0\x8F\xBF\xBF",
           "\xF0\x90\x80\x80",
           "\xF4\x8F\xBF\xBF",
           "\xF4\x90\x80\x80",
           "\xF8\x80\x80\x80"};
    uint8_t bytes[TEXT_MOST];
    unsigned how = take(from);
    const char *word = how % 4 < 2 ? often : others[how / 4 % COUNT(others)];
    size_t i;
    model_text told;
    if (how % 8 == 7) {
        told.length = take(from) % TEXT_MOST;
        for (i = 0; i < told.length; i++) bytes[i] = (uint8_t)(i < 12 ? take(from) : 'a' + i % 26);
    } else {
        told.length = strlen(word);
        memcpy(bytes, word, told.length);
    }
    told.bytes = copy_of(bytes, told.length);
    return told;
}

const stun_types_address *take_address(source *from) {
    stun_types_address address;
    unsigned how = take(from);
    memset(&address, 0, sizeof address);
    address.family = how % 16 == 15 ? (uint16_t)take_two(from) : how % 2 == 0 ? 4 : 6;
    address.port = (uint16_t)take_two(from);
    take_bytes(from, address.octets, how % 2 == 0 && how % 16 != 14 ? 4 : 16);
    return copy_of(&address, sizeof address);
}

const stun_types_policy *take_policy(source *from) {
    static const uint32_t algorithms[]
        = {0, STUN_TYPES_INTEGRITY_SHA1, STUN_TYPES_INTEGRITY_SHA256};
    stun_types_policy policy;
    unsigned how = take(from);
    memset(&policy, 0, sizeof policy);
    if (how % 16 == 15) {
        take_bytes(from, &policy, sizeof policy);
    } else if (how % 4 != 0) {
        policy.algorithm = (stun_types_integrity)algorithms[how / 4 % 3];
        policy.min_hmac_length = how / 16 % 4 == 3 ? take(from) % 40 : 16 + how / 16 % 5 * 4;
        policy.fingerprint = how % 4 == 3 ? take(from) : 0;
        policy.reserved = how % 64 == 5 ? take(from) : 0;
    }
    return copy_of(&policy, sizeof policy);
}

number_list take_numbers(source *from, bool are_passwords) {
    uint16_t all[80];
    unsigned how = take(from);
    number_list told;
    size_t i;
    told.count = how % 16 == 15   ? take(from) % COUNT(all)
                 : how % 16 == 14 ? 16u + how / 16 % 2
                 : how % 16 == 13 ? 64u + how / 16 % 2
                                  : how % 4;
    for (i = 0; i < told.count; i++)
        all[i] = (uint16_t)(are_passwords && how % 8 != 7 ? 1 + take(from) % 2 : take_two(from));
    told.all = copy_of(all, told.count * sizeof *all);
    return told;
}
