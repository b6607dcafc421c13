/* Values of attributes: addresses, errors, lists of types and numbers. */
#include <string.h>

#include "fuzz.h"

/* What is said of an attribute before its value is read. */
static stun_types_answer place_fault(size_t length, const stun_types_attribute *attribute) {
    return attribute->value_at < 24 || attribute->value_at > length
                   || attribute->length > length - attribute->value_at
               ? BAD_ARGUMENT
               : FINE;
}

static bool is_same_address(const stun_types_address *one, const stun_types_address *other) {
    return one->family == other->family && one->port == other->port
           && memcmp(one->octets, other->octets, other->family == 4 ? 4 : 16) == 0;
}

static void check_addresses(const uint8_t *bytes, size_t length,
                            const stun_types_attribute *attribute, const uint8_t *value) {
    stun_types_address *told = NEW(stun_types_address), expected;
    stun_types_answer fault = place_fault(length, attribute), header = model_header(bytes, length);
    stun_types_answer answer = stun_types_read_address(bytes, length, attribute, told),
                      wanted = fault;
    if (wanted.code == STUN_TYPES_OK && model_is_xored(attribute->type)) wanted = BAD_ARGUMENT;
    if (wanted.code == STUN_TYPES_OK) wanted = model_address(value, attribute->length, &expected);
    HOLDS(is_same(answer, wanted));
    HOLDS(answer.code == STUN_TYPES_OK ? is_same_address(told, &expected)
                                       : is_filled(told, sizeof *told));
    memset(told, FILL, sizeof *told);
    answer = stun_types_read_xor_address(bytes, length, attribute, told);
    wanted = fault;
    if (wanted.code == STUN_TYPES_OK && model_is_plain(attribute->type)) wanted = BAD_ARGUMENT;
    if (wanted.code == STUN_TYPES_OK) wanted = header;
    if (wanted.code == STUN_TYPES_OK) wanted = model_address(value, attribute->length, &expected);
    HOLDS(is_same(answer, wanted));
    if (answer.code == STUN_TYPES_OK) model_xor(bytes, &expected);
    HOLDS(answer.code == STUN_TYPES_OK ? is_same_address(told, &expected)
                                       : is_filled(told, sizeof *told));
}

static void check_errors(const uint8_t *bytes, size_t length, const stun_types_attribute *attribute,
                         const uint8_t *value) {
    uint16_t *code = NEW(uint16_t), expected = 0;
    size_t *at = NEW(size_t), *reason = NEW(size_t);
    stun_types_answer wanted = place_fault(length, attribute);
    if (wanted.code == STUN_TYPES_OK) wanted = model_error(value, attribute->length, &expected);
    HOLDS(is_same(stun_types_read_error(bytes, length, attribute, code, at, reason), wanted));
    if (wanted.code == STUN_TYPES_OK)
        HOLDS(*code == expected && *at == attribute->value_at + 4
              && *reason == attribute->length - 4u);
    else
        HOLDS(is_filled(code, sizeof *code) && is_filled(at, sizeof *at)
              && is_filled(reason, sizeof *reason));
}

static void check_types(const uint8_t *bytes, size_t length, const stun_types_attribute *attribute,
                        const uint8_t *value, source *from) {
    size_t room = take(from) % 8, *count = NEW(size_t), i, listed = attribute->length / 2u;
    uint16_t *types = place(room * sizeof *types);
    stun_types_answer wanted = place_fault(length, attribute);
    if (wanted.code == STUN_TYPES_OK && attribute->length % 2 != 0)
        wanted = model_answer(STUN_TYPES_INVALID_DATA, 0, 0, 0);
    HOLDS(is_same(stun_types_read_types(bytes, length, attribute, types, room, count), wanted));
    if (wanted.code != STUN_TYPES_OK) {
        HOLDS(is_filled(types, room * sizeof *types) && is_filled(count, sizeof *count));
        return;
    }
    HOLDS(*count == listed);
    for (i = 0; i < listed && i < room; i++) HOLDS(types[i] == model_number(value + 2 * i));
    if (listed < room) HOLDS(is_filled(types + listed, (room - listed) * sizeof *types));
}

/* ---- numbers */

/* The number in a value, by the call of this width; false if the answer is none. */
static stun_types_answer read_number(const uint8_t *bytes, size_t length,
                                     const stun_types_attribute *attribute, unsigned width,
                                     uint64_t *number) {
    void *room = place(width);
    stun_types_answer answer = width == 1   ? stun_types_read_u8(bytes, length, attribute, room)
                               : width == 2 ? stun_types_read_u16(bytes, length, attribute, room)
                               : width == 4 ? stun_types_read_u32(bytes, length, attribute, room)
                                            : stun_types_read_u64(bytes, length, attribute, room);
    if (answer.code != STUN_TYPES_OK) HOLDS(is_filled(room, width));
    else
        *number = width == 1   ? *(uint8_t *)room
                  : width == 2 ? *(uint16_t *)room
                  : width == 4 ? *(uint32_t *)room
                               : *(uint64_t *)room;
    return answer;
}

static void check_numbers_of(const uint8_t *bytes, size_t length,
                             const stun_types_attribute *attribute, const uint8_t *value) {
    unsigned width;
    for (width = 1; width <= 8; width *= 2) {
        uint64_t told = 0, number = 0;
        stun_types_answer wanted = place_fault(length, attribute);
        unsigned i;
        if (wanted.code == STUN_TYPES_OK)
            wanted = model_read_number(attribute->type, width, value, attribute->length);
        HOLDS(is_same(read_number(bytes, length, attribute, width, &told), wanted));
        if (wanted.code != STUN_TYPES_OK) continue;
        for (i = 0; i < width; i++) number = number << 8 | value[i];
        HOLDS(told == number);
    }
}

/* ---- any attribute */

void check_values(const uint8_t *bytes, size_t length, const stun_types_attribute *attribute,
                  source *from) {
    const uint8_t *value = place_fault(length, attribute).code == STUN_TYPES_OK
                               ? bytes + attribute->value_at
                               : bytes;
    size_t used = places_used();
    check_addresses(bytes, length, attribute, value);
    check_errors(bytes, length, attribute, value);
    check_types(bytes, length, attribute, value, from);
    check_numbers_of(bytes, length, attribute, value);
    release_places(used);
}

void check_outside(const uint8_t *bytes, size_t length, source *from) {
    stun_types_attribute any;
    memset(&any, 0, sizeof any);
    any.value_at = take(from) % 3 == 0                  ? SIZE_MAX - take(from)
                   : take(from) % 2 == 0 && length != 0 ? take_two(from) % length
                                                        : take_two(from);
    any.type = (uint16_t)(take(from) % 2 == 0 ? take_two(from) : take(from) % 0x40);
    any.length = (uint16_t)(take(from) % 2 == 0 ? take_two(from) : take(from) % 24);
    if (take(from) % 8 == 7) memset(&any, 0, sizeof any);
    check_values(bytes, length, copy_of(&any, sizeof any), from);
}
