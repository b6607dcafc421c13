/* Servers that read any bytes: authentication, replies and refusals. */
#include <string.h>

#include "fuzz.h"

static void check_short_term(const uint8_t *bytes, size_t length, source *from) {
    const stun_types_policy *policy = take_policy(from);
    const pair *one = &pairs[take(from) % 4 != 0 ? PASSWORD : take(from) % PAIRS];
    stun_types_authentication *told = NEW(stun_types_authentication), expected;
    stun_types_answer answer = model_short_term(bytes, length, policy, &one->model, &expected);
    HOLDS(is_same(stun_types_authenticate_short_term(bytes, length, policy, &one->key, told),
                  answer));
    HOLDS(memcmp(told, &expected, sizeof expected) == 0);
}

/* The reply to a datagram, if one is owed. */
static bool replied(text *wanted, const uint8_t *bytes, size_t length, const model_list *shown,
                    const stun_types_address *source_address) {
    static uint8_t types[2 * MODEL_ATTRIBUTES];
    static const uint8_t unknown[] = "\0\0\4\x14Unknown Attributes";
    stun_types_address written = *source_address;
    uint8_t value[20] = {0};
    size_t count = 0, i;
    if (model_parse(bytes, length).code != STUN_TYPES_OK || model_number(bytes) != 0x0001)
        return false;
    for (i = 0; i < shown->count; i++) {
        if (shown->all[i].type >= 0x8000) continue;
        types[2 * count] = (uint8_t)(shown->all[i].type >> 8);
        types[2 * count++ + 1] = (uint8_t)shown->all[i].type;
    }
    start(wanted, count == 0 ? 0x0101 : 0x0111, bytes + 8);
    if (count == 0) {
        model_xor(bytes, &written);
        value[1] = written.family == 4 ? 1 : 2;
        value[2] = (uint8_t)(written.port >> 8);
        value[3] = (uint8_t)written.port;
        memcpy(value + 4, written.octets, 16);
        append(wanted, 0x0020, value, written.family == 4 ? 8 : 20);
    }
    append(wanted, 0x8022, "stun-types", 10);
    if (count != 0) append(wanted, 0x0009, unknown, sizeof unknown - 1);
    if (count != 0) append(wanted, 0x000A, types, 2 * count);
    if (model_find(shown, 0x8028) != NULL) finger(wanted);
    return true;
}

static void check_reply(const uint8_t *bytes, size_t length, const model_list *shown,
                        source *from) {
    static text wanted;
    const stun_types_address *source_address = take_address(from);
    unsigned how = take(from);
    size_t size = how % 4 == 3 ? take(from) : STUN_TYPES_GREATEST_REPLY, *reply = NEW(size_t);
    uint8_t *room = big_place(WRITTEN, size);
    stun_types_answer answer, fault = FINE;
    if (size < 400) memset(room, FILL, size);
    wanted.length = 0;
    if (source_address->family != 4 && source_address->family != 6) fault = BAD_ARGUMENT;
    else if (replied(&wanted, bytes, length, shown, source_address) && wanted.length > size)
        fault = model_answer(STUN_TYPES_TOO_SMALL, 0, wanted.length, size);
    answer = stun_types_binding_reply(bytes, length, source_address, room, size, reply);
    HOLDS(is_same(answer, fault));
    if (fault.code != STUN_TYPES_OK) {
        HOLDS(*reply == 0 && (size >= 400 || is_filled(room, size)));
        return;
    }
    HOLDS(*reply == wanted.length && memcmp(room, wanted.bytes, wanted.length) == 0);
    HOLDS(*reply <= length + 48 && *reply <= 3 * length);
    if (size < 400) HOLDS(is_filled(room + *reply, size - *reply));
}

/* A reply begins from these bytes if their header is that of a request. */
static void check_beginning(const uint8_t *bytes, size_t length, source *from) {
    uint32_t class_number = take_below(from, 4, 8);
    size_t size = take(from) % 8 == 7 ? take(from) % 24 : 20, *written = NEW(size_t);
    uint8_t *room = place(size);
    stun_types_answer fault = model_header(bytes, length);
    if (fault.code == STUN_TYPES_OK && (model_number(bytes) & 0x0110) != 0)
        fault = model_answer(STUN_TYPES_NOT_A_REQUEST, 0, 0, 0);
    if (fault.code == STUN_TYPES_OK && class_number != 2 && class_number != 3) fault = BAD_ARGUMENT;
    if (fault.code == STUN_TYPES_OK && size < 20)
        fault = model_answer(STUN_TYPES_TOO_SMALL, 0, 20, size);
    HOLDS(is_same(
        stun_types_begin_reply(room, size, bytes, length, (stun_types_class)class_number, written),
        fault));
    if (fault.code != STUN_TYPES_OK) {
        HOLDS(is_filled(room, size) && is_filled(written, sizeof *written));
        return;
    }
    HOLDS(*written == 20 && memcmp(room + 4, bytes + 4, 16) == 0 && model_number(room + 2) == 0);
    HOLDS(model_number(room) == (model_number(bytes) | (class_number == 2 ? 0x0100u : 0x0110u)));
    HOLDS(is_filled(room + 20, size - 20));
}

void check_servers(const uint8_t *bytes, size_t length, const model_list *shown, source *from) {
    check_short_term(bytes, length, from);
    check_reply(bytes, length, shown, from);
    check_beginning(bytes, length, from);
}
