/* Values of attributes: addresses, errors, lists of types, and numbers. C reads and makes no others. */
#include "../known.h"
#include "call.h"

#include <stdio.h>
#include <stdlib.h>
#include <string.h>

/* What is known of a type; of any other nothing. */
static const known_type *known(uint16_t type) {
    static const known_type other = {0, NOTHING, 0, 0};
    const known_type *found = KNOWN;
    while (found < KNOWN + COUNT_OF_KNOWN && found->type != type) found++;
    return found < KNOWN + COUNT_OF_KNOWN ? found : &other;
}

/* What C reads a value of this type as. */
static value_kind kind_of(uint16_t type) {
    return known(type)->kind == ENDING ? NOTHING : known(type)->kind;
}

/* Answers with an address, or why there is none; *read stays untouched then. */
static stun_types_answer read_address(slice octets, const stun_types_attribute *attribute,
                                      bool is_xored, bool is_shown) {
    stun_types_address *read = NEW(stun_types_address);
    stun_types_answer result =
        is_xored ? stun_types_read_xor_address(octets.bytes, octets.length, attribute, read)
                 : stun_types_read_address(octets.bytes, octets.length, attribute, read);
    if (result.code != STUN_TYPES_OK) CHECK(is_untouched(read, sizeof *read));
    else CHECK(read->family == 4 || read->family == 6);
    if (result.code != STUN_TYPES_OK || !is_shown) return result;
    answer_octets(read->octets, read->family == 4 ? 4 : 16);
    answer_text(" %u", (unsigned)read->port);
    return result;
}

/* The same with an error. */
static stun_types_answer read_error(slice octets, const stun_types_attribute *attribute,
                                    bool is_shown) {
    uint16_t *code = NEW(uint16_t);
    size_t *at = NEW(size_t), *length = NEW(size_t);
    stun_types_answer result =
        stun_types_read_error(octets.bytes, octets.length, attribute, code, at, length);
    if (result.code != STUN_TYPES_OK) {
        CHECK(is_untouched(code, sizeof *code) && is_untouched(at, sizeof *at));
        CHECK(is_untouched(length, sizeof *length));
    }
    if (result.code != STUN_TYPES_OK || !is_shown) return result;
    answer_text("%u ", (unsigned)*code);
    answer_octets(octets.bytes + *at, *length);
    return result;
}

/* The same with an error of a family, the first octet, which the call ignores. */
static stun_types_answer read_address_error(slice octets, const stun_types_attribute *attribute,
                                            bool is_shown) {
    stun_types_answer result = read_error(octets, attribute, false);
    uint8_t family;
    if (result.code != STUN_TYPES_OK) return result;
    family = octets.bytes[attribute->value_at];
    if (family != 1 && family != 2) return PLAIN(STUN_TYPES_INVALID_DATA);
    if (is_shown) answer_text(family == 1 ? "ipv4 " : "ipv6 ");
    return read_error(octets, attribute, is_shown);
}

/* The same with a list of types. That a length is odd has a code without numbers in C. */
static stun_types_answer read_types(slice octets, const stun_types_attribute *attribute,
                                    bool is_shown) {
    uint16_t *types = (uint16_t *)(void *)room(attribute->length);
    size_t *count = NEW(size_t), at, held = attribute->length / 2;
    stun_types_answer result =
        stun_types_read_types(octets.bytes, octets.length, attribute, types, held, count);
    if (result.code != STUN_TYPES_OK)
        CHECK(is_untouched(types, attribute->length) && is_untouched(count, sizeof *count));
    if (result.code == STUN_TYPES_INVALID_DATA)
        return LENGTHS(STUN_TYPES_TRUNCATED, attribute->length + 1u, attribute->length);
    CHECK(result.code == STUN_TYPES_OK && *count == held);
    for (at = 0; at < held && is_shown; at++)
        answer_text("%s%04x", at == 0 ? "" : ",", (unsigned)types[at]);
    if (held == 0 && is_shown) answer_text("-");
    return result;
}

/* Answers with what a number means as the value of a type. */
static void answer_meaning(uint16_t type, uint64_t number) {
    unsigned long long n = number;
    uint8_t token[8];
    size_t at;
    switch (type) {
    case STUN_TYPES_ATTRIBUTE_CHANNEL_NUMBER: answer_text("%04llx", n); break;
    case STUN_TYPES_ATTRIBUTE_REQUESTED_ADDRESS_FAMILY:
    case STUN_TYPES_ATTRIBUTE_ADDITIONAL_ADDRESS_FAMILY:
        answer_text(n == 1 ? "ipv4" : "ipv6");
        break;
    case STUN_TYPES_ATTRIBUTE_EVEN_PORT: answer_text(n & 0x80 ? "yes" : "no"); break;
    case STUN_TYPES_ATTRIBUTE_CHANGE_REQUEST:
        answer_text("%s %s", n & 4 ? "yes" : "no", n & 2 ? "yes" : "no");
        break;
    case STUN_TYPES_ATTRIBUTE_TRANSACTION_TRANSMIT_COUNTER:
        answer_text("%llu %llu", n >> 8 & 0xFF, n & 0xFF);
        break;
    case STUN_TYPES_ATTRIBUTE_ICMP:
        answer_text("%llu %llu %llu", n >> 40 & 0xFF, n >> 32 & 0xFF, n & 0xFFFFFFFF);
        break;
    case STUN_TYPES_ATTRIBUTE_RESERVATION_TOKEN:
        for (at = 0; at < sizeof token; at++) token[at] = (uint8_t)(number >> (56 - 8 * at));
        answer_octets(token, sizeof token);
        break;
    default: answer_text("%llu", n);
    }
}

/* Answers with a number of so many bits, or why there is none. */
#define READS(bits, call) \
    static stun_types_answer read_##bits(slice octets, const stun_types_attribute *attribute, \
                                         bool is_shown) { \
        uint##bits##_t *number = NEW(uint##bits##_t); \
        stun_types_answer result = call(octets.bytes, octets.length, attribute, number); \
        if (result.code != STUN_TYPES_OK) CHECK(is_untouched(number, sizeof *number)); \
        else if (is_shown) answer_meaning(attribute->type, *number); \
        return result; \
    }
READS(8, stun_types_read_u8)
READS(16, stun_types_read_u16)
READS(32, stun_types_read_u32)
READS(64, stun_types_read_u64)

/* Answers with a number of as many bits as those of its type have. */
static stun_types_answer read_number(slice octets, const stun_types_attribute *attribute,
                                     bool is_shown) {
    switch (known(attribute->type)->width) {
    case 1: return read_8(octets, attribute, is_shown);
    case 2: return read_16(octets, attribute, is_shown);
    case 4: return read_32(octets, attribute, is_shown);
    default: return read_64(octets, attribute, is_shown);
    }
}

/* Reads a value, and answers with what it means if that is to be result. */
static stun_types_answer read_value(uint16_t type, slice value, const stun_types_id *id,
                                    bool is_shown) {
    value_kind kind = kind_of(type);
    slice octets = message_with(type, kind == NOTHING ? front_of(value, 0) : value, id);
    stun_types_attribute attribute;
    CHECK(stun_types_find(octets.bytes, octets.length, type, &attribute));
    switch (kind) {
    case ADDRESS: return read_address(octets, &attribute, false, is_shown);
    case XOR_ADDRESS: return read_address(octets, &attribute, true, is_shown);
    case ERROR: return read_error(octets, &attribute, is_shown);
    case ADDRESS_ERROR: return read_address_error(octets, &attribute, is_shown);
    case TYPES: return read_types(octets, &attribute, is_shown);
    case NUMBER: return read_number(octets, &attribute, is_shown);
    default: answer_unknown(); return OK_ANSWER;
    }
}

/* The transaction ID of the next word, or 0. */
static stun_types_id call_id(void) {
    const char *word = call_word();
    return id_of(word == NULL ? "0" : word);
}

static void read(void) {
    uint16_t type = call_number();
    slice value = call_octets();
    stun_types_id id = call_id();
    stun_types_answer result = read_value(type, value, &id, true);
    if (result.code != STUN_TYPES_OK) answer_refusal(result);
}

/* The kind of the answer to a value of a length. */
static void kind_word(stun_types_answer result, size_t length, char *to, size_t most) {
    unsigned long long expected = result.expected, actual = result.actual;
    const char *name = result.code == STUN_TYPES_TRUNCATED ? "Truncated" : "TooLarge";
    if (result.code == STUN_TYPES_OK) snprintf(to, most, "read");
    else if (result.code == STUN_TYPES_INVALID_DATA) snprintf(to, most, "!InvalidAttributeData");
    else if (result.code != STUN_TYPES_TRUNCATED && result.code != STUN_TYPES_TOO_LARGE)
        snprintf(to, most, "!%u", (unsigned)result.code);
    else if (actual == length) snprintf(to, most, "!%s:%llu", name, expected);
    else snprintf(to, most, "!%s:%llu:%llu", name, expected, actual);
}

static void lengths(void) {
    uint16_t type = call_number();
    slice value = call_octets();
    stun_types_id id = call_id();
    char last[60] = "", found[60];
    size_t length, begun = 0;
    if (kind_of(type) == NOTHING) {
        answer_unknown();
        return;
    }
    for (length = 0; length <= value.length; length++) {
        slice prefix = front_of(value, length);
        kind_word(read_value(type, prefix, &id, false), length, found, sizeof found);
        if (length > 0 && strcmp(found, last) != 0) {
            answer_text("%zu..%zu:%s ", begun, length - 1, last);
            begun = length;
        }
        strcpy(last, found);
    }
    answer_text("%zu..%zu:%s", begun, value.length, last);
}

/* Begins a message with a transaction ID, to add the value to. */
static draft begun(const stun_types_id *id) {
    draft message;
    ANSWERS(draft_begin(&message, ANY_ROOM, STUN_TYPES_CLASS_REQUEST, STUN_TYPES_METHOD_BINDING, id), OK_ANSWER);
    return message;
}

/* Answers with the value of the only attribute of a message, or why it wasn't added. */
static void answer_value(const draft *message, stun_types_answer result) {
    stun_types_attribute attribute;
    stun_types_cursor cursor = STUN_TYPES_CURSOR;
    if (!is_taken(result)) {
        CHECK(message->written == 20);
        return;
    }
    CHECK(stun_types_next(message->room, message->written, &cursor, &attribute));
    CHECK(attribute.value_at == 24);
    answer_octets(message->room + 24, attribute.length);
}

static void make_address(uint16_t type, bool is_xored) {
    slice octets = call_octets();
    uint64_t port = call_count();
    stun_types_id id = call_id();
    draft message = begun(&id);
    stun_types_address address;
    memset(&address, 0, sizeof address);
    memcpy(address.octets, octets.bytes, octets.length == 4 ? 4 : 16);
    address.port = (uint16_t)port;
    address.family = octets.length == 4 ? 4 : 6;
    answer_value(&message,
                 is_xored ? stun_types_add_xor_address(message.room, message.size,
                                                       &message.written, type, &address)
                          : stun_types_add_address(message.room, message.size, &message.written,
                                                   type, &address));
}

/* (C has no recommended reasons: a call without one isn't known) */
static void make_error(void) {
    uint64_t code = call_count();
    char *word = call_word();
    stun_types_id id = id_of("0");
    draft message = begun(&id);
    slice reason = octets_of(word == NULL ? "-" : word);
    stun_types_answer result = stun_types_add_error(message.room, message.size, &message.written,
                                                  (stun_types_code)code, reason.bytes,
                                                  reason.length);
    if (word == NULL) answer_unknown();
    else answer_value(&message, result);
}

/* The next word, which must be there. */
static const char *call_meaning(void) {
    const char *word = call_word();
    if (word == NULL) answer_unknown();
    return word == NULL ? "" : word;
}

/* (by its octets, as the header says) */
static void make_address_error(void) {
    uint8_t start[4] = {0};
    stun_types_id id = id_of("0");
    draft message = begun(&id);
    uint64_t code;
    slice value;
    start[0] = strcmp(call_meaning(), "ipv4") == 0 ? 1 : 2;
    code = call_count();
    start[2] = (uint8_t)(code / 100);
    start[3] = (uint8_t)(code % 100);
    value = joined(given(start, sizeof start), octets_of(call_meaning()));
    answer_value(&message, stun_types_add(message.room, message.size, &message.written,
                                          STUN_TYPES_ATTRIBUTE_ADDRESS_ERROR_CODE, value.bytes,
                                          value.length));
}

static void make_list(void) {
    static uint16_t types[64];
    size_t count = types_of(call_word(), types, COUNT(types));
    stun_types_id id = id_of("0");
    draft message = begun(&id);
    slice listed = given(types, count * sizeof *types);
    stun_types_answer result =
        stun_types_add_unknown_types(message.room, message.size, &message.written,
                                     (const uint16_t *)(const void *)listed.bytes, count);
    answer_value(&message, result);
}

/* The number that is the meaning in the next words. */
static uint64_t call_number_of(uint16_t type) {
    const char *word = call_meaning();
    uint64_t number = strtoull(word, NULL, 10);
    bool is_yes = strcmp(word, "yes") == 0;
    size_t at;
    switch (type) {
    case STUN_TYPES_ATTRIBUTE_CHANNEL_NUMBER: return strtoull(word, NULL, 16);
    case STUN_TYPES_ATTRIBUTE_REQUESTED_ADDRESS_FAMILY:
    case STUN_TYPES_ATTRIBUTE_ADDITIONAL_ADDRESS_FAMILY:
        return strcmp(word, "ipv4") == 0 ? 1 : 2;
    case STUN_TYPES_ATTRIBUTE_EVEN_PORT: return is_yes ? 0x80 : 0;
    case STUN_TYPES_ATTRIBUTE_CHANGE_REQUEST:
        return (is_yes ? 4u : 0u) + (strcmp(call_meaning(), "yes") == 0 ? 2u : 0u);
    case STUN_TYPES_ATTRIBUTE_TRANSACTION_TRANSMIT_COUNTER: return number << 8 | call_count();
    case STUN_TYPES_ATTRIBUTE_ICMP:
        number = number << 8 | call_count();
        return number << 32 | call_count();
    case STUN_TYPES_ATTRIBUTE_RESERVATION_TOKEN: {
        slice token = octets_of(word);
        number = 0;
        for (at = 0; at < token.length; at++) number = number << 8 | token.bytes[at];
        return number;
    }
    default: return number;
    }
}

static void make_number(uint16_t type) {
    uint64_t number = call_number_of(type);
    stun_types_id id = id_of("0");
    draft to = begun(&id);
    stun_types_answer result;
    switch (known(type)->width) {
    case 1:
        result = stun_types_add_u8(to.room, to.size, &to.written, type, (uint8_t)number);
        break;
    case 2:
        result = stun_types_add_u16(to.room, to.size, &to.written, type, (uint16_t)number);
        break;
    case 4:
        result = stun_types_add_u32(to.room, to.size, &to.written, type, (uint32_t)number);
        break;
    default: result = stun_types_add_u64(to.room, to.size, &to.written, type, number);
    }
    /* (of a channel; the header says what C answers) */
    if (result.code == STUN_TYPES_OUT_OF_RANGE && type == STUN_TYPES_ATTRIBUTE_CHANNEL_NUMBER) {
        ANSWERS(result, LENGTHS(STUN_TYPES_OUT_OF_RANGE, 0x4FFF, number));
        answer_text("!NoChannel");
    } else answer_value(&to, result);
}

static void make(void) {
    uint16_t type = call_number();
    switch (kind_of(type)) {
    case ADDRESS: make_address(type, false); break;
    case XOR_ADDRESS: make_address(type, true); break;
    case ERROR: make_error(); break;
    case ADDRESS_ERROR: make_address_error(); break;
    case TYPES: make_list(); break;
    case NUMBER: make_number(type); break;
    default: answer_unknown();
    }
}

const verb verbs_of_values[] = {
    {"read", read, false}, {"lengths", lengths, false},
    {"make", make, false}, {NULL, NULL, false},
};
