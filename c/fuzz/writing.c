/* Writing: a run of adds. */
#include <string.h>

#include "fuzz.h"

typedef struct {
    text wanted;
    uint8_t *room;
    size_t size, written;
    size_t count;
    stun_types_attribute added[1024];
    bool is_signed; /* by PASSWORD, the last integrity attribute that was added */
} writing;

/* Whether an attribute of a type is written. */
static bool has(const writing *one, unsigned type) {
    size_t i;
    for (i = 0; i < one->count; i++)
        if (one->added[i].type == type) return true;
    return false;
}

/* An add of an attribute was answered, of which the value is known unless it is refused. What it was
   refused for, before the order and the room, is `fault`. */
static void check_added(writing *one, stun_types_answer answer, unsigned type, const uint8_t *value,
                        size_t length, stun_types_answer fault) {
    if (fault.code == STUN_TYPES_OK) fault = refusal_of(&one->wanted, one->size, type, length);
    HOLDS(is_same(answer, fault));
    if (answer.code == STUN_TYPES_OK) {
        one->added[one->count].value_at = one->wanted.length + 4;
        one->added[one->count].type = (uint16_t)type;
        one->added[one->count].length = (uint16_t)length;
        one->count++;
        append(&one->wanted, type, value, length);
    }
    HOLDS(one->written == one->wanted.length);
    HOLDS(memcmp(one->room, one->wanted.bytes, one->size) == 0);
}

static void add_address(writing *one, source *from, bool is_xored) {
    static const uint16_t types[]
        = {0x0012, 0x0016, 0x0001, 0x8023, 0x802B, 0x802C, 0x0020, 0x7FFF, 0x0008, 0x001C, 0x8028};
    const stun_types_address *address = take_address(from);
    stun_types_address written = *address;
    uint8_t value[20] = {0};
    unsigned type = take(from) % 4 == 3 ? types[take(from) % COUNT(types)]
                    : is_xored          ? 0x0020
                                        : 0x0001;
    size_t octets = address->family == 6 ? 16 : 4;
    stun_types_answer answer, fault = FINE;
    answer = is_xored ? stun_types_add_xor_address(one->room, one->size, &one->written,
                                                   (uint16_t)type, address)
                      : stun_types_add_address(one->room, one->size, &one->written, (uint16_t)type,
                                               address);
    if (is_xored) model_xor(one->wanted.bytes, &written);
    value[1] = address->family == 6 ? 2 : 1;
    value[2] = (uint8_t)(written.port >> 8);
    value[3] = (uint8_t)written.port;
    memcpy(value + 4, written.octets, octets);
    if ((address->family != 4 && address->family != 6)
        || (is_xored ? model_is_plain(type) : model_is_xored(type)))
        fault = BAD_ARGUMENT;
    else if (model_is_ending(type)) fault = model_answer(STUN_TYPES_ENDING_TYPE, type, 0, 0);
    check_added(one, answer, type, value, 4 + octets, fault);
}

static void add_error(writing *one, source *from) {
    static uint8_t value[2000];
    unsigned code = take(from) % 8 == 0 ? take_two(from) : 300 + take_two(from) % 400;
    size_t length = take(from) % 8 == 0 ? take_two(from) % 900 : take(from) % 12, i;
    stun_types_answer answer, fault = FINE;
    for (i = 0; i < length; i++) value[4 + i] = (uint8_t)(0x61 + i % 26);
    if (length > 0 && take(from) % 8 == 0) value[4 + take(from) % length] = (uint8_t)take(from);
    value[0] = value[1] = 0;
    value[2] = (uint8_t)(code / 100);
    value[3] = (uint8_t)(code % 100);
    answer = stun_types_add_error(one->room, one->size, &one->written, (stun_types_code)code,
                                  give(value + 4, length), length);
    if (code < 300 || code > 699) fault = model_answer(STUN_TYPES_OUT_OF_RANGE, 0, 699, code);
    else if (length > 763) fault = model_answer(STUN_TYPES_TOO_LARGE, 0, 763, length);
    else if (!model_is_utf8(value + 4, length))
        fault = model_answer(STUN_TYPES_INVALID_DATA, 0, 0, 0);
    check_added(one, answer, 0x0009, value, 4 + length, fault);
}

/* Any number by any width, for a type that has a name, one that ends a message, or any. */
static void add_number(writing *one, source *from) {
    unsigned how = take(from), known, width = 1u << how % 4, i;
    uint16_t type = how / 32 == 7   ? (uint16_t)take_two(from)
                    : how / 32 == 6 ? (how % 2 == 0 ? 0x8028 : 0x001C)
                                    : model_known(how / 4);
    uint64_t number = 0;
    uint8_t value[16] = {0};
    stun_types_answer answer, fault = FINE;
    known = model_width(type);
    if (how / 64 != 3 && known != 0 && known != MODEL_NO_NUMBER) width = known;
    for (i = 0; i < width; i++) {
        value[i] = (uint8_t)take(from);
        if (i == 0 && value[0] % 2 == 0) value[0] = type == 0x000C ? 0x40 : value[0] / 2 % 4;
        number = number << 8 | value[i];
    }
    answer = width == 1
                 ? stun_types_add_u8(one->room, one->size, &one->written, type, (uint8_t)number)
             : width == 2
                 ? stun_types_add_u16(one->room, one->size, &one->written, type, (uint16_t)number)
             : width == 4
                 ? stun_types_add_u32(one->room, one->size, &one->written, type, (uint32_t)number)
                 : stun_types_add_u64(one->room, one->size, &one->written, type, number);
    if (model_is_ending(type)) fault = model_answer(STUN_TYPES_ENDING_TYPE, type, 0, 0);
    else if (known != 0 && known != width) fault = BAD_ARGUMENT;
    else if (type == 0x000C && (number < 0x4000 || number > 0x4FFF))
        fault = model_answer(STUN_TYPES_OUT_OF_RANGE, 0, 0x4FFF, number);
    else if ((type == 0x0017 && number != 1 && number != 2) || (type == 0x8000 && number != 2))
        fault = model_answer(STUN_TYPES_OUT_OF_RANGE, 0, 2, number);
    check_added(one, answer, type, value, width + model_zeros(type), fault);
}

static void add_types(writing *one, source *from) {
    static uint8_t value[70000];
    size_t count = take(from) % 16 == 0 ? take_two(from) % 33000 : take(from) % 6, i;
    uint16_t *types = (uint16_t *)(void *)big_place(OTHER, 2 * count);
    stun_types_answer answer, fault = FINE;
    for (i = 0; i < count; i++) {
        types[i] = (uint16_t)(i < 8 ? take_two(from) : i);
        value[2 * i] = (uint8_t)(types[i] >> 8);
        value[2 * i + 1] = (uint8_t)types[i];
    }
    answer = stun_types_add_unknown_types(one->room, one->size, &one->written, types, count);
    if (count > 32767) fault = model_answer(STUN_TYPES_TOO_LARGE, 0, 32767, count);
    check_added(one, answer, 0x000A, value, 2 * count, fault);
}

static void add_value(writing *one, source *from) {
    static uint8_t value[70000];
    unsigned type = take_two(from);
    size_t length = take(from) % 64 == 0 ? take_two(from) + take(from) % 8 : take(from) % 40, i;
    stun_types_answer answer, fault = FINE;
    if (take(from) % 16 == 0)
        type = take(from) % 3 == 0 ? 0x8028 : take(from) % 2 == 0 ? 0x0008 : 0x001C;
    for (i = 0; i < length; i++) value[i] = (uint8_t)(i < 16 ? take(from) : i);
    answer = stun_types_add(one->room, one->size, &one->written, (uint16_t)type,
                            give(value, length), length);
    if (length > 65535) fault = model_answer(STUN_TYPES_TOO_LARGE, 0, 65535, length);
    else if (model_is_ending(type)) fault = model_answer(STUN_TYPES_ENDING_TYPE, type, 0, 0);
    check_added(one, answer, type, value, length, fault);
}

/* (all these keys have the same bytes, or none) */
static void add_integrity(writing *one, source *from) {
    static const uint32_t algorithms[]
        = {STUN_TYPES_INTEGRITY_SHA1, STUN_TYPES_INTEGRITY_SHA256, 0, 1};
    unsigned how = take(from), which = how / 4 % 8;
    uint32_t algorithm = algorithms[how % 4 < 2 || how > 240 ? how % 4 : how % 2];
    const pair *key = &pairs[which > PASSWORD_SHA256 ? PASSWORD : which];
    uint8_t hmac[32] = {0};
    size_t length = algorithm == STUN_TYPES_INTEGRITY_SHA1 ? 20 : 32;
    stun_types_answer fault = FINE, answer;
    if (algorithm < STUN_TYPES_INTEGRITY_SHA1) fault = BAD_ARGUMENT;
    else if (!key->model.is_there) fault = model_answer(STUN_TYPES_NO_KEY, 0, 0, 0);
    else if (!model_serves(&key->model, algorithm)) fault = BAD_ARGUMENT;
    answer = stun_types_add_integrity(one->room, one->size, &one->written, &key->key,
                                      (stun_types_integrity)algorithm);
    if (answer.code == STUN_TYPES_OK) {
        model_hmac(one->wanted.bytes, one->wanted.length, length, algorithm, &key->model, hmac);
        one->is_signed = true;
    }
    check_added(one, answer, algorithm, hmac, length, fault);
}

/* What an integrity attribute covers if it is added to what is written, whether or not it may be. */
static stun_types_covered covered_next(const writing *one, uint32_t algorithm) {
    size_t length = one->wanted.length - 20 + (algorithm == STUN_TYPES_INTEGRITY_SHA1 ? 24 : 36);
    stun_types_covered covered;
    memset(&covered, 0, sizeof covered);
    covered.algorithm = (stun_types_integrity)algorithm;
    memcpy(covered.first, one->wanted.bytes, 2);
    covered.first[2] = (uint8_t)(length >> 8);
    covered.first[3] = (uint8_t)length;
    covered.length = one->wanted.length;
    return covered;
}

/* An integrity attribute with an HMAC of the model's or of any bytes, in two halves: what is reported, or
   what was of something else. */
static void add_hmac(writing *one, source *from) {
    static const uint32_t algorithms[]
        = {STUN_TYPES_INTEGRITY_SHA1, STUN_TYPES_INTEGRITY_SHA256, 0, 1};
    unsigned how = take(from), changes = take(from);
    uint32_t algorithm = how == 255 ? take_four(from) : algorithms[how > 240 ? how % 4 : how % 2];
    bool is_one = algorithm == STUN_TYPES_INTEGRITY_SHA1 || algorithm == STUN_TYPES_INTEGRITY_SHA256;
    size_t length = algorithm == STUN_TYPES_INTEGRITY_SHA1 ? 20 : 32;
    stun_types_covered *covered = NEW(stun_types_covered), wanted = covered_next(one, algorithm);
    stun_types_hmac *hmac = NEW(stun_types_hmac);
    stun_types_answer answer, fault = is_one ? FINE : BAD_ARGUMENT;
    answer = stun_types_next_covered_text(one->room, one->size, one->written,
                                          (stun_types_integrity)algorithm, covered);
    if (is_one) fault = refusal_of(&one->wanted, one->size, algorithm, length);
    HOLDS(is_same(answer, fault));
    if (answer.code != STUN_TYPES_OK) memset(&wanted, 0, sizeof wanted);
    HOLDS(memcmp(covered, &wanted, sizeof wanted) == 0);
    take_bytes(from, hmac, sizeof *hmac);
    hmac->algorithm = (stun_types_integrity)algorithm;
    if (changes % 2 == 0 && is_one)
        model_hmac(one->wanted.bytes, one->wanted.length, length, algorithm, &pairs[PASSWORD].model,
                   hmac->bytes);
    /* (what the order or the room refuses is tried too) */
    wanted = covered_next(one, algorithm);
    *covered = wanted;
    if (changes % 16 == 3) ((uint8_t *)covered)[take(from) % sizeof *covered] = (uint8_t)take(from);
    if (changes % 16 == 5) hmac->algorithm = (stun_types_integrity)algorithms[take(from) % 4];
    if (changes % 64 == 7) memset(covered, 0, sizeof *covered);
    fault = !is_one || hmac->algorithm != wanted.algorithm
                    || memcmp(covered, &wanted, sizeof wanted) != 0
                ? BAD_ARGUMENT
                : FINE;
    answer = stun_types_add_hmac(one->room, one->size, &one->written, covered, hmac);
    if (answer.code == STUN_TYPES_OK) {
        uint8_t right[32];
        model_hmac(one->wanted.bytes, one->wanted.length, length, algorithm, &pairs[PASSWORD].model,
                   right);
        one->is_signed = memcmp(hmac->bytes, right, length) == 0;
    }
    check_added(one, answer, algorithm, hmac->bytes, length, fault);
}

static void add_fingerprint(writing *one) {
    stun_types_answer answer = stun_types_add_fingerprint(one->room, one->size, &one->written);
    uint32_t told = answer.code == STUN_TYPES_OK
                        ? model_fingerprint(one->wanted.bytes, one->wanted.length)
                        : 0;
    uint8_t value[4];
    value[0] = (uint8_t)(told >> 24);
    value[1] = (uint8_t)(told >> 16);
    value[2] = (uint8_t)(told >> 8);
    value[3] = (uint8_t)told;
    check_added(one, answer, 0x8028, value, 4, FINE);
}

/* What was written is read: each attribute, in order, where it was added. */
static void check_written(const writing *one, source *from) {
    stun_types_cursor cursor = STUN_TYPES_CURSOR;
    stun_types_attribute told;
    size_t i;
    stun_types_validated told_of;
    stun_types_answer answer;
    for (i = 0; i < one->count; i++) {
        HOLDS(stun_types_next(one->room, one->written, &cursor, &told));
        HOLDS(told.value_at == one->added[i].value_at && told.type == one->added[i].type
              && told.length == one->added[i].length);
    }
    HOLDS(!stun_types_next(one->room, one->written, &cursor, &told));
    SUCCEEDS(stun_types_parse(one->room, one->written));
    answer = stun_types_validate(one->room, one->written, &pairs[PASSWORD].key, &told_of);
    if ((has(one, 0x001C) || has(one, 0x0008)) && !one->is_signed)
        HOLDS(answer.code == STUN_TYPES_INTEGRITY_FAILED && told_of.algorithm == 0);
    else if (has(one, 0x001C))
        HOLDS(answer.code == STUN_TYPES_OK && told_of.algorithm == STUN_TYPES_INTEGRITY_SHA256
              && told_of.hmac_length == 32);
    else if (has(one, 0x0008))
        HOLDS(answer.code == STUN_TYPES_OK && told_of.algorithm == STUN_TYPES_INTEGRITY_SHA1
              && told_of.hmac_length == 20);
    else HOLDS(answer.code == STUN_TYPES_MISSING_ATTRIBUTE && told_of.algorithm == 0);
    if (one->written < 2000) check_read(one->wanted.bytes, one->written, from);
}

/* Any bytes are there, and any number of them counts as written: an add is refused if they are no whole
   message, and otherwise follows what is there. */
static void check_resumed(source *from) {
    static text message;
    size_t *written = NEW(size_t), size;
    unsigned how, type, length;
    uint8_t *room;
    stun_types_answer answer, fault = FINE;
    seed(&message, take_two(from));
    change(&message, from);
    how = take(from);
    type = how / 8 % 4 == 3 ? take_two(from) : 0x8022;
    length = how / 32;
    size = message.length + (how % 2 == 0 ? 40 : take(from));
    room = big_place(WRITTEN, size);
    memset(message.bytes + message.length, FILL, size - message.length);
    memcpy(room, message.bytes, size);
    if (how == 255) message.length = take_two(from);
    *written = message.length;
    if (message.length > size || !model_is_whole(message.bytes, message.length))
        fault = BAD_ARGUMENT;
    switch (how / 2 % 4) {
    case 0:
        answer = stun_types_add_fingerprint(room, size, written);
        if (fault.code == STUN_TYPES_OK) fault = refusal_of(&message, size, 0x8028, 4);
        if (fault.code == STUN_TYPES_OK) finger(&message);
        break;
    case 1:
        answer = stun_types_add_integrity(room, size, written, &pairs[PASSWORD].key,
                                          STUN_TYPES_INTEGRITY_SHA256);
        if (fault.code == STUN_TYPES_OK) fault = refusal_of(&message, size, 0x001C, 32);
        if (fault.code == STUN_TYPES_OK)
            sign(&message, STUN_TYPES_INTEGRITY_SHA256, &pairs[PASSWORD].model);
        break;
    default:
        answer = stun_types_add(room, size, written, (uint16_t)type,
                                give((const uint8_t *)"12345678", length), length);
        if (fault.code == STUN_TYPES_OK && model_is_ending(type))
            fault = model_answer(STUN_TYPES_ENDING_TYPE, type, 0, 0);
        if (fault.code == STUN_TYPES_OK) fault = refusal_of(&message, size, type, length);
        if (fault.code == STUN_TYPES_OK) append(&message, type, "12345678", length);
    }
    HOLDS(is_same(answer, fault) && *written == message.length);
    HOLDS(memcmp(room, message.bytes, size) == 0);
}

static void check_begun(source *from) {
    static writing one;
    stun_types_id id;
    stun_types_answer answer;
    unsigned type = take_two(from), steps, i;
    one.size = take(from) % 64 == 0  ? 65500 + take(from) * 8u
               : take(from) % 8 == 0 ? take_two(from) % 70
                                     : take_two(from) % 700;
    one.room = big_place(WRITTEN, one.size);
    one.count = 0;
    memset(one.room, 0xEE, one.size);
    memset(one.wanted.bytes, 0xEE, one.size);
    if (take(from) % 8 != 0) type &= 0x3FFF;
    for (i = 0; i < sizeof id.bytes; i++) id.bytes[i] = (uint8_t)take(from);
    one.written = 99;
    answer = stun_types_begin(one.room, one.size, (uint16_t)type, &id, &one.written);
    if (type >= 0x4000 || one.size < 20) {
        HOLDS((type >= 0x4000 && is_same(answer, model_answer(STUN_TYPES_BAD_ARGUMENT, 0, 0, 0)))
              || (one.size < 20
                  && is_same(answer, model_answer(STUN_TYPES_TOO_SMALL, 0, 20, one.size))));
        HOLDS(one.written == 99);
        return;
    }
    HOLDS(answer.code == STUN_TYPES_OK && one.written == 20);
    start(&one.wanted, type, id.bytes);
    HOLDS(memcmp(one.room, one.wanted.bytes, one.size) == 0);
    steps = take(from) % 16 == 0 ? take(from) * 3 : take(from) % 10;
    for (i = 0; i < steps; i++) {
        switch (take(from) % 16) {
        case 0: add_integrity(&one, from); break;
        case 1: add_hmac(&one, from); break;
        case 2: add_fingerprint(&one); break;
        case 3:
        case 4: add_error(&one, from); break;
        case 5:
        case 6: add_types(&one, from); break;
        case 7:
        case 8: add_address(&one, from, true); break;
        case 9: add_address(&one, from, false); break;
        case 10:
        case 11: add_number(&one, from); break;
        default: add_value(&one, from);
        }
    }
    check_written(&one, from);
}

void check_writing(source *from) {
    if (take(from) % 8 == 0) check_resumed(from);
    else check_begun(from);
}
