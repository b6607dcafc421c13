/* Calls that take work off their users: replies that begin, numbers, answers to challenges, refusals,
 * the end of a reply, nonces, and many transactions. What their arguments may be, small rooms, and
 * refused memory; what they write is asked by the rows of vectors/. */
#include <string.h>

#include "check.h"
#include "known.h"
#include "heap.h"
#include "keychain.h"
#include "reference.h"
#include "samples.h"
#include "tests.h"

#define HEADER_OF(type) type "0000 2112A442 00*10 03E8"

static const stun_types_id ID = {{0, 0, 0, 0, 0, 0, 0, 0, 0, 0, 3, 0xE8}};
static const uint16_t BOTH[] = {STUN_TYPES_PASSWORD_MD5, STUN_TYPES_PASSWORD_SHA256};

/* ---- stun_types_begin_reply */

static const struct {
    const char *name, *request;
    uint32_t message_class;
    size_t size;
    uint32_t code;
    uint64_t expected, actual;
    const char *reply;
} replies[] = {
    {"a success", HEADER_OF("0001"), 2, 20, STUN_TYPES_OK, 0, 0, HEADER_OF("0101")},
    {"an error", HEADER_OF("0001"), 3, 100, STUN_TYPES_OK, 0, 0, HEADER_OF("0111")},
    {"a success to an allocation", HEADER_OF("0003"), 2, 20, STUN_TYPES_OK, 0, 0, HEADER_OF("0103")},
    {"an error to the greatest method", HEADER_OF("3EEF"), 3, 20, STUN_TYPES_OK, 0, 0,
     HEADER_OF("3FFF")},
    {"attributes that are cut", "0001 0008 2112A442 00*10 03E8 80", 2, 20, STUN_TYPES_OK, 0, 0,
     HEADER_OF("0101")},
    {"19 bytes of request", "0001 0000 2112A442 00*11", 2, 20, STUN_TYPES_TRUNCATED, 20, 19, NULL},
    {"another protocol", "8001 0000 2112A442 00*12", 2, 20, STUN_TYPES_NOT_STUN, 0, 0, NULL},
    {"an indication", HEADER_OF("0011"), 2, 20, STUN_TYPES_NOT_A_REQUEST, 0, 0, NULL},
    {"a success as the request", HEADER_OF("0101"), 2, 20, STUN_TYPES_NOT_A_REQUEST, 0, 0, NULL},
    {"an error as the request, and another class", HEADER_OF("0111"), 0, 20,
     STUN_TYPES_NOT_A_REQUEST, 0, 0, NULL},
    {"the class of requests", HEADER_OF("0001"), 0, 19, STUN_TYPES_BAD_ARGUMENT, 0, 0, NULL},
    {"the class of indications", HEADER_OF("0001"), 1, 20, STUN_TYPES_BAD_ARGUMENT, 0, 0, NULL},
    {"no class", HEADER_OF("0001"), 4, 20, STUN_TYPES_BAD_ARGUMENT, 0, 0, NULL},
    {"a class whose low bits are those of a success", HEADER_OF("0001"), UINT32_MAX - 1, 20,
     STUN_TYPES_BAD_ARGUMENT, 0, 0, NULL},
    {"19 bytes of room", HEADER_OF("0001"), 2, 19, STUN_TYPES_TOO_SMALL, 20, 19, NULL},
    {"no room", HEADER_OF("0001"), 3, 0, STUN_TYPES_TOO_SMALL, 20, 0, NULL},
};

static void test_begin_reply(void) {
    size_t i;
    for (i = 0; i < COUNT(replies); i++) {
        slice request;
        uint8_t *bytes;
        size_t *written;
        row("stun_types_begin_reply", replies[i].name);
        request = hex(replies[i].request);
        bytes = room(replies[i].size);
        written = NEW(size_t);
        ANSWERS(stun_types_begin_reply(bytes, replies[i].size, request.bytes, request.length,
                                       replies[i].message_class, written),
                LENGTHS(replies[i].code, replies[i].expected, replies[i].actual));
        if (replies[i].code != STUN_TYPES_OK) {
            CHECK(is_untouched(bytes, replies[i].size) && is_untouched(written, sizeof *written));
            continue;
        }
        CHECK_BYTES(bytes, *written, hex(replies[i].reply));
        CHECK(is_untouched(bytes + 20, replies[i].size - 20));
    }
}

/* ---- numbers */

/* Adds a number of so many bits. */
static stun_types_answer add_number(unsigned bits, uint8_t *bytes, size_t size, size_t *written,
                                    uint16_t type, uint64_t number) {
    switch (bits) {
    case 8: return stun_types_add_u8(bytes, size, written, type, (uint8_t)number);
    case 16: return stun_types_add_u16(bytes, size, written, type, (uint16_t)number);
    case 32: return stun_types_add_u32(bytes, size, written, type, (uint32_t)number);
    default: return stun_types_add_u64(bytes, size, written, type, number);
    }
}

/* Reads one, with the number that was there, as far as nothing is read. */
static stun_types_answer read_number(unsigned bits, slice message,
                                     const stun_types_attribute *attribute, uint64_t *number) {
    uint8_t *of_8 = NEW(uint8_t);
    uint16_t *of_16 = NEW(uint16_t);
    uint32_t *of_32 = NEW(uint32_t);
    uint64_t *of_64 = NEW(uint64_t);
    stun_types_answer answer;
    switch (bits) {
    case 8:
        answer = stun_types_read_u8(message.bytes, message.length, attribute, of_8);
        *number = *of_8;
        break;
    case 16:
        answer = stun_types_read_u16(message.bytes, message.length, attribute, of_16);
        *number = *of_16;
        break;
    case 32:
        answer = stun_types_read_u32(message.bytes, message.length, attribute, of_32);
        *number = *of_32;
        break;
    default:
        answer = stun_types_read_u64(message.bytes, message.length, attribute, of_64);
        *number = *of_64;
    }
    if (answer.code != STUN_TYPES_OK)
        CHECK(is_untouched(of_8, 1) && is_untouched(of_16, 2) && is_untouched(of_32, 4)
              && is_untouched(of_64, 8));
    return answer;
}

static const unsigned widths[] = {8, 16, 32, 64};

/* A binding request in a room, with its header alone. */
static uint8_t *begun(size_t size, size_t *written) {
    uint8_t *bytes = room(size);
    ANSWERS(stun_types_begin(bytes, size, 0x0001, &ID, written), OK_ANSWER);
    return bytes;
}

/* Each type that is known has the number of one width, and each other call refuses it. */
static void test_known_widths(void) {
    size_t i, j;
    for (i = 0; i < COUNT_OF_PLAIN; i++) {
        row("numbers", "the widths of the types that are known");
        for (j = 0; j < COUNT(widths); j++) {
            unsigned bits = widths[j];
            bool is_taken = bits / 8 == KNOWN[i].width;
            size_t *written = NEW(size_t), length = bits / 8 + KNOWN[i].zeros;
            size_t grown = 24 + (length + 3) / 4 * 4;
            uint8_t *bytes = begun(60, written);
            stun_types_attribute attribute = {24, KNOWN[i].type, (uint16_t)length};
            stun_types_answer answer = is_taken ? OK_ANSWER : PLAIN(STUN_TYPES_BAD_ARGUMENT);
            /* (a channel, a port, a family, and any other number) */
            uint64_t wanted = bits == 16 ? 0x4002 : 2, number;
            slice message;
            ANSWERS(add_number(bits, bytes, 60, written, KNOWN[i].type, wanted), answer);
            CHECK(*written == (is_taken ? grown : 20));
            message = given(bytes, is_taken ? *written : 60);
            ANSWERS(read_number(bits, message, &attribute, &number), answer);
            if (is_taken) CHECK(number == wanted);
        }
    }
}

static const struct {
    const char *name;
    unsigned bits;
    uint16_t type;
    uint64_t number;
    size_t size;
    uint32_t code, of_type;
    uint64_t expected, actual;
    const char *added;
} added[] = {
    {"an octet of another type", 8, 0x7FFF, 0xA5, 28, 0, 0, 0, 0, "7FFF0001 A5000000"},
    {"two of another type", 16, 0x7FFF, 0xA5C3, 28, 0, 0, 0, 0, "7FFF0002 A5C30000"},
    {"four of another type", 32, 0xFFFF, 0xA5C30001, 28, 0, 0, 0, 0, "FFFF0004 A5C30001"},
    {"eight of another type", 64, 0x7FFF, UINT64_MAX, 32, 0, 0, 0, 0, "7FFF0008 FF*8"},
    {"a protocol", 8, 0x0019, 255, 28, 0, 0, 0, 0, "00190004 FF000000"},
    {"a port that is to be even", 8, 0x0018, 0, 28, 0, 0, 0, 0, "00180001 00000000"},
    {"the greatest channel", 16, 0x000C, 0x4FFF, 28, 0, 0, 0, 0, "000C0004 4FFF0000"},
    {"the greatest port", 16, 0x0027, 65535, 28, 0, 0, 0, 0, "00270004 FFFF0000"},
    {"a channel below", 16, 0x000C, 0x3FFF, 28, STUN_TYPES_OUT_OF_RANGE, 0, 0x4FFF, 0x3FFF, NULL},
    {"a channel above", 16, 0x000C, 0x5000, 28, STUN_TYPES_OUT_OF_RANGE, 0, 0x4FFF, 0x5000, NULL},
    {"family 0", 8, 0x0017, 0, 28, STUN_TYPES_OUT_OF_RANGE, 0, 2, 0, NULL},
    {"family 3", 8, 0x0017, 3, 28, STUN_TYPES_OUT_OF_RANGE, 0, 2, 3, NULL},
    {"IPv4 as the additional family", 8, 0x8000, 1, 28, STUN_TYPES_OUT_OF_RANGE, 0, 2, 1, NULL},
    {"MESSAGE-INTEGRITY", 32, 0x0008, 1, 60, STUN_TYPES_ENDING_TYPE, 0x0008, 0, 0, NULL},
    {"FINGERPRINT", 32, 0x8028, 1, 60, STUN_TYPES_ENDING_TYPE, 0x8028, 0, 0, NULL},
    {"FINGERPRINT of an octet", 8, 0x8028, 1, 60, STUN_TYPES_ENDING_TYPE, 0x8028, 0, 0, NULL},
    {"MESSAGE-INTEGRITY-SHA256 of two", 16, 0x001C, 1, 60, STUN_TYPES_ENDING_TYPE, 0x001C, 0, 0,
     NULL},
    {"MESSAGE-INTEGRITY of eight", 64, 0x0008, 1, 60, STUN_TYPES_ENDING_TYPE, 0x0008, 0, 0, NULL},
    {"FINGERPRINT, and no room", 32, 0x8028, 1, 20, STUN_TYPES_ENDING_TYPE, 0x8028, 0, 0, NULL},
    {"a byte too few for an octet", 8, 0x7FFF, 1, 27, STUN_TYPES_TOO_SMALL, 0, 28, 27, NULL},
    {"a byte too few for a protocol", 8, 0x0019, 1, 27, STUN_TYPES_TOO_SMALL, 0, 28, 27, NULL},
    {"a byte too few for a tiebreaker", 64, 0x8029, 1, 31, STUN_TYPES_TOO_SMALL, 0, 32, 31, NULL},
    {"a channel below, and no room", 16, 0x000C, 0, 20, STUN_TYPES_OUT_OF_RANGE, 0, 0x4FFF, 0, NULL},
};

static void test_added_numbers(void) {
    size_t i;
    for (i = 0; i < COUNT(added); i++) {
        uint8_t *bytes;
        size_t *written;
        row("numbers that are added", added[i].name);
        written = NEW(size_t);
        bytes = begun(added[i].size, written);
        ANSWERS(add_number(added[i].bits, bytes, added[i].size, written, added[i].type,
                           added[i].number),
                answer_of(added[i].code, added[i].of_type, added[i].expected, added[i].actual));
        if (added[i].added == NULL)
            CHECK(*written == 20 && is_untouched(bytes + 20, added[i].size - 20));
        else CHECK_BYTES(bytes + 20, *written - 20, hex(added[i].added));
    }
    row("numbers that are added", "to what is no message");
    {
        size_t *written = NEW(size_t);
        uint8_t *bytes = room(60);
        *written = 20;
        ANSWERS(add_number(32, bytes, 60, written, 0x000D, 1), PLAIN(STUN_TYPES_BAD_ARGUMENT));
        ANSWERS(add_number(16, bytes, 60, written, 0x000C, 1), PLAIN(STUN_TYPES_BAD_ARGUMENT));
        CHECK(*written == 20 && is_untouched(bytes, 60));
    }
}

static const struct {
    const char *name;
    unsigned bits;
    uint16_t type;
    const char *value;
    uint32_t code;
    uint64_t expected, actual, number;
} read[] = {
    {"zeros that aren't", 8, 0x0019, "11FFFFFF", 0, 0, 0, 17},
    {"a port without its zeros", 16, 0x0027, "0D97", 0, 0, 0, 3479},
    {"a port of three octets", 16, 0x0027, "0D9700", STUN_TYPES_TRUNCATED, 4, 3, 0},
    {"a channel of two octets", 16, 0x000C, "4001", STUN_TYPES_TRUNCATED, 4, 2, 0},
    {"a channel of five octets", 16, 0x000C, "4001000000", STUN_TYPES_TOO_LARGE, 4, 5, 0},
    {"a channel below", 16, 0x000C, "3FFFFFFF", STUN_TYPES_INVALID_DATA, 0, 0, 0},
    {"a channel above", 16, 0x000C, "50000000", STUN_TYPES_INVALID_DATA, 0, 0, 0},
    {"family 3", 8, 0x0017, "03000000", STUN_TYPES_INVALID_DATA, 0, 0, 0},
    {"IPv4 as the additional family", 8, 0x8000, "01000000", STUN_TYPES_INVALID_DATA, 0, 0, 0},
    {"no octets", 8, 0x7FFF, "", STUN_TYPES_TRUNCATED, 1, 0, 0},
    {"an octet of another type", 8, 0x7FFF, "A5", 0, 0, 0, 0xA5},
    {"two octets where one is wanted", 8, 0x7FFF, "A5C3", STUN_TYPES_TOO_LARGE, 1, 2, 0},
    {"two of another type", 16, 0x7FFF, "A5C3", 0, 0, 0, 0xA5C3},
    {"the CRC of a FINGERPRINT", 32, 0x8028, "3756C07F", 0, 0, 0, 0x3756C07F},
    {"the greatest number", 64, 0x7FFF, "FF*8", 0, 0, 0, UINT64_MAX},
    {"three octets", 32, 0x7FFF, "000000", STUN_TYPES_TRUNCATED, 4, 3, 0},
    {"nine octets", 64, 0x7FFF, "00*9", STUN_TYPES_TOO_LARGE, 8, 9, 0},
};

static void test_read_numbers(void) {
    size_t i;
    uint64_t number;
    for (i = 0; i < COUNT(read); i++) {
        static const size_t outside[] = {0, 23, 25, SIZE_MAX};
        slice bytes;
        stun_types_attribute attribute;
        size_t at;
        row("numbers that are read", read[i].name);
        bytes = joined(hex("00*24"), hex(read[i].value));
        attribute.value_at = 24;
        attribute.type = read[i].type;
        attribute.length = (uint16_t)(bytes.length - 24);
        ANSWERS(read_number(read[i].bits, bytes, &attribute, &number),
                LENGTHS(read[i].code, read[i].expected, read[i].actual));
        if (read[i].code == STUN_TYPES_OK) CHECK(number == read[i].number);
        for (at = 0; at < COUNT(outside); at++) {
            attribute.value_at = outside[at];
            ANSWERS(read_number(read[i].bits, bytes, &attribute, &number),
                    PLAIN(STUN_TYPES_BAD_ARGUMENT));
        }
    }
}

/* ---- stun_types_known_types */

static void test_known_types(void) {
    static const uint16_t all[] = {0x0001, 0x0006, 0x0008, 0x0009, 0x000A, 0x0014,
                                   0x0015, 0x001C, 0x001D, 0x001E, 0x0020};
    size_t size, at;
    for (size = 0; size <= COUNT(all) + 2; size++) {
        uint16_t *types;
        row("stun_types_known_types", "a room of each size");
        types = (uint16_t *)(void *)room(size * sizeof *types);
        CHECK(stun_types_known_types(types, size) == COUNT(all));
        for (at = 0; at < size; at++)
            CHECK(at < COUNT(all) ? types[at] == all[at] : types[at] == 0xEEEE);
    }
}

/* ---- challenges */

static void test_key_for(void) {
    slice response, message;
    stun_types_key *key;
    stun_types_validated validated;
    long number;
    row("stun_types_key_for", "what is no challenge");
    response = hex(SIGNED_SUCCESS);
    key = no_key();
    ANSWERS(stun_types_key_for(key, response.bytes, response.length, BOTH, 2, "user", 4, "pass", 4),
            PLAIN(STUN_TYPES_NOT_A_CHALLENGE));
    ANSWERS(stun_types_key_for(key, response.bytes, 19, BOTH, 2, "user", 4, "pass", 4),
            LENGTHS(STUN_TYPES_TRUNCATED, 20, 19));
    response = hex(CHALLENGE);
    ANSWERS(stun_types_key_for(key, response.bytes, response.length, BOTH, 0, "user", 4, "pass", 4),
            PLAIN(STUN_TYPES_NO_ALGORITHM));
    row("stun_types_key_for", "arguments");
    response = hex(CHALLENGE);
    key = no_key();
    {
        static const uint16_t other[] = {1, 3}, many[17] = {1};
        ANSWERS(stun_types_key_for(key, response.bytes, 19, other, 2, "user", 4, "pass", 4),
                PLAIN(STUN_TYPES_BAD_ARGUMENT));
        ANSWERS(stun_types_key_for(key, response.bytes, 19, many, 17, "user", 4, "pass", 4),
                PLAIN(STUN_TYPES_BAD_ARGUMENT));
    }
    heap_allow(true);
    ANSWERS(stun_types_key_for(key, response.bytes, response.length, BOTH, 2, "\xff", 1, "pass", 4),
            PLAIN(STUN_TYPES_INVALID_DATA));
    ANSWERS(stun_types_key_for(key, response.bytes, response.length, BOTH, 2, "user", 4, "\xff", 1),
            PLAIN(STUN_TYPES_INVALID_DATA));
    heap_allow(false);
    row("stun_types_key_for, each allocation refused in turn", "a challenge");
    response = hex(CHALLENGE);
    message = hex(CHECK_LONG_MD5);
    key = bytes_key(hex(KEY_MD5), STUN_TYPES_INTEGRITY_SHA1);
    heap_forget_secrets();
    secrets_of("pass", 4, heap_add_secret);
    for (number = 1; number < 100; number++) {
        stun_types_answer answer;
        long held = heap_held(), asked;
        heap_allow(true);
        heap_refuse(number);
        answer = stun_types_key_for(key, response.bytes, response.length, BOTH, 2, "user", 4, "pass", 4);
        asked = heap_asked();
        heap_refuse(0);
        heap_allow(false);
        if (answer.code == STUN_TYPES_OK) {
            if (asked < number) break;
            stun_types_key_free(key);
            *key = *bytes_key(hex(KEY_MD5), STUN_TYPES_INTEGRITY_SHA1);
            continue;
        }
        ANSWERS(answer, PLAIN(STUN_TYPES_OUT_OF_MEMORY));
        CHECK(heap_held() == held);
        ANSWERS(stun_types_validate(message.bytes, message.length, key, &validated), OK_ANSWER);
    }
    CHECK(number > 3 && number < 100);
    heap_forget_secrets();
    stun_types_key_free(key);
}

/* What the answer to CHALLENGE adds, in this order. */
static const size_t answer_ends[] = {28, 44, 64, 76, 84, 120, 128};

static void test_answer_challenge(void) {
    slice response, name;
    stun_types_key *key;
    size_t *written, size, i;
    uint8_t *bytes;
    row("stun_types_answer_challenge", "arguments, in their order");
    response = hex(CHALLENGE);
    key = password_key(text("pass"));
    written = NEW(size_t);
    bytes = begun(20, written);
    {
        static const uint16_t other[] = {0};
        ANSWERS(stun_types_answer_challenge(bytes, 20, written, response.bytes, 19, other, 1, "\xff",
                                            1, no_key(), true),
                PLAIN(STUN_TYPES_BAD_ARGUMENT));
    }
    ANSWERS(stun_types_answer_challenge(bytes, 20, written, response.bytes, 19, BOTH, 2, "\xff", 1,
                                        no_key(), true),
            LENGTHS(STUN_TYPES_TRUNCATED, 20, 19));
    ANSWERS(stun_types_answer_challenge(bytes, 20, written, response.bytes, response.length, BOTH, 0,
                                        "\xff", 1, no_key(), true),
            PLAIN(STUN_TYPES_NO_ALGORITHM));
    ANSWERS(stun_types_answer_challenge(bytes, 20, written, response.bytes, response.length, BOTH, 2,
                                        "\xff", 1, no_key(), true),
            PLAIN(STUN_TYPES_INVALID_DATA));
    name = hex("61*514");
    ANSWERS(stun_types_answer_challenge(bytes, 20, written, response.bytes, response.length, BOTH, 2,
                                        name.bytes, 514, no_key(), true),
            LENGTHS(STUN_TYPES_TOO_LARGE, 513, 514));
    ANSWERS(stun_types_answer_challenge(bytes, 20, written, response.bytes, response.length, BOTH, 2,
                                        name.bytes, 513, no_key(), true),
            PLAIN(STUN_TYPES_NO_KEY));
    *written = 21;
    ANSWERS(stun_types_answer_challenge(bytes, 20, written, response.bytes, response.length, BOTH, 2,
                                        "user", 4, key, true),
            PLAIN(STUN_TYPES_BAD_ARGUMENT));
    CHECK(*written == 21);
    CHECK_BYTES(bytes, 20, hex(HEADER_OF("0001")));
    stun_types_key_free(key);
    row("stun_types_answer_challenge", "a room of each size");
    response = hex(CHALLENGE);
    key = password_key(text("pass"));
    for (size = 20; size < 140; size++) {
        slice before;
        bool prints = size % 2 == 0;
        size_t last = prints ? 128 : 120;
        stun_types_answer expected = OK_ANSWER;
        written = NEW(size_t);
        bytes = begun(size, written);
        before = given(bytes, 20);
        for (i = 0; i < COUNT(answer_ends) && answer_ends[i] <= size;) i++;
        if (size < last) expected = LENGTHS(STUN_TYPES_TOO_SMALL, answer_ends[i], size);
        ANSWERS(stun_types_answer_challenge(bytes, size, written, response.bytes, response.length,
                                            BOTH + 1, 1, "user", 4, key, prints),
                expected);
        if (size < last) {
            /* what was added before is taken back: the message is as it was */
            CHECK(*written == 20 && memcmp(bytes, before.bytes, 20) == 0);
        } else {
            CHECK(*written == last && memcmp(bytes + 4, before.bytes + 4, 16) == 0);
            CHECK(is_untouched(bytes + last, size - last));
        }
        ANSWERS(stun_types_parse(bytes, *written), OK_ANSWER);
    }
    stun_types_key_free(key);
    row("stun_types_answer_challenge", "a request that is signed");
    response = hex(CHALLENGE);
    key = password_key(text("pass"));
    written = NEW(size_t);
    bytes = begun(200, written);
    ANSWERS(stun_types_add_integrity(bytes, 200, written, key, STUN_TYPES_INTEGRITY_SHA1), OK_ANSWER);
    ANSWERS(stun_types_answer_challenge(bytes, 200, written, response.bytes, response.length, BOTH, 2,
                                        "user", 4, key, true),
            OF_TYPE(STUN_TYPES_EXISTS, 0x0008));
    CHECK(*written == 44);
    stun_types_key_free(key);
}

/* ---- refusals */

static const struct {
    const char *name, *request;
    bool is_long;
    uint32_t code;
    const char *realm, *nonce;
    uint16_t algorithms[17];
    size_t count;
    uint32_t answer;
    uint64_t expected, actual;
} refusals[] = {
    {"no request", SIGNED_SUCCESS, false, 438, "", "", {0}, 0, STUN_TYPES_NOT_A_REQUEST, 0, 0},
    {"no request, long-term", SIGNED_SUCCESS, true, 420, "", "", {0}, 1, STUN_TYPES_NOT_A_REQUEST, 0,
     0},
    {"no message", "0001 0000 2112A442 00*11", false, 0, "", "", {0}, 0, STUN_TYPES_TRUNCATED, 20, 19},
    {"no message, long-term", "0001 0000 2112A442 00*11", true, 0, "", "", {0}, 1,
     STUN_TYPES_TRUNCATED, 20, 19},
    {"438 by short-term credentials", REQUEST, false, 438, "", "", {0}, 0, STUN_TYPES_BAD_ARGUMENT, 0,
     0},
    {"code 0", REQUEST, false, 0, "", "", {0}, 0, STUN_TYPES_BAD_ARGUMENT, 0, 0},
    {"code 420", REQUEST, true, 420, "61", "62", {0}, 0, STUN_TYPES_BAD_ARGUMENT, 0, 0},
    {"code 401, and more", REQUEST, true, 0x10191, "61", "62", {0}, 0, STUN_TYPES_BAD_ARGUMENT, 0, 0},
    {"password algorithm 0", REQUEST, true, 401, "FF", "FF", {0}, 1, STUN_TYPES_BAD_ARGUMENT, 0, 0},
    {"password algorithm 3", REQUEST, true, 401, "61", "62", {1, 3}, 2, STUN_TYPES_BAD_ARGUMENT, 0, 0},
    {"17 algorithms", REQUEST, true, 401, "61", "62",
     {1, 1, 1, 1, 1, 1, 1, 1, 1, 1, 1, 1, 1, 1, 1, 1, 1}, 17, STUN_TYPES_BAD_ARGUMENT, 0, 0},
    {"a realm that isn't UTF-8", REQUEST, true, 401, "FF*764", "FF*764", {0}, 0,
     STUN_TYPES_INVALID_DATA, 0, 0},
    {"a realm that is too long", REQUEST, true, 401, "61*764", "FF", {0}, 0, STUN_TYPES_TOO_LARGE, 763,
     764},
    {"a nonce that isn't UTF-8", REQUEST, true, 438, "61", "FF", {0}, 0, STUN_TYPES_INVALID_DATA, 0,
     0},
    {"a nonce that is too long", REQUEST, true, 400, "61", "62*764", {1}, 1, STUN_TYPES_TOO_LARGE, 763,
     764},
    {"a list that isn't promised", REQUEST, true, 401, "61", "62", {1}, 1, STUN_TYPES_BAD_ARGUMENT, 0,
     0},
    {"a list that is promised, and none", REQUEST, true, 400, "61", "6F624D61744A6F733267414141", {0},
     0, STUN_TYPES_BAD_ARGUMENT, 0, 0},
};

/* Refuses a request in a room. */
static stun_types_answer refuse(bool is_long, slice request, uint32_t code, slice realm, slice nonce,
                                const uint16_t *algorithms, size_t count, uint8_t *bytes, size_t size,
                                size_t *written) {
    stun_types_asked asked;
    memset(&asked, 0, sizeof asked);
    if (!is_long)
        return stun_types_refuse_short_term(request.bytes, request.length, code, bytes, size, written);
    asked.realm = realm.bytes;
    asked.realm_length = realm.length;
    asked.nonce = nonce.bytes;
    asked.nonce_length = nonce.length;
    asked.algorithms = algorithms;
    asked.algorithms_count = count;
    return stun_types_refuse_long_term(request.bytes, request.length, code,
                                       (const void *)given(&asked, sizeof asked).bytes, bytes, size,
                                       written);
}

static void test_refusals(void) {
    size_t i;
    for (i = 0; i < COUNT(refusals); i++) {
        slice request, realm, nonce, algorithms;
        uint8_t *bytes;
        size_t *written;
        row("what isn't refused", refusals[i].name);
        request = hex(refusals[i].request);
        realm = hex(refusals[i].realm);
        nonce = hex(refusals[i].nonce);
        algorithms = given(refusals[i].algorithms, 2 * refusals[i].count);
        bytes = room(19);
        written = NEW(size_t);
        heap_allow(true);
        ANSWERS(refuse(refusals[i].is_long, request, refusals[i].code, realm, nonce,
                       (const void *)algorithms.bytes, refusals[i].count, bytes, 19, written),
                LENGTHS(refusals[i].answer, refusals[i].expected, refusals[i].actual));
        heap_allow(false);
        CHECK(is_untouched(bytes, 19) && is_untouched(written, sizeof *written));
    }
}

/* A spare word that isn't 0. */
static void test_spare_word(void) {
    static const uint64_t words[] = {1, (uint64_t)1 << 63};
    size_t i;
    for (i = 0; i < COUNT(words); i++) {
        slice request;
        stun_types_asked asked;
        size_t *written;
        uint8_t *bytes;
        row("what isn't refused", "a spare word of what is asked");
        request = hex(REQUEST);
        memset(&asked, 0, sizeof asked);
        asked.reserved = words[i];
        bytes = room(100);
        written = NEW(size_t);
        heap_allow(true);
        ANSWERS(stun_types_refuse_long_term(request.bytes, request.length, 401, &asked, bytes, 100,
                                            written),
                PLAIN(STUN_TYPES_BAD_ARGUMENT));
        heap_allow(false);
        CHECK(is_untouched(bytes, 100) && is_untouched(written, sizeof *written));
    }
}

/* A response of every length that a room may have, and each allocation refused in turn. */
static void test_refusal_rooms(void) {
    static const uint16_t sent[] = {2, 1};
    bool is_long = false;
    do {
        slice request, realm, nonce;
        size_t length = is_long ? 92 : 44, size;
        long number;
        row("refusals", is_long ? "long-term" : "short-term");
        request = hex(REQUEST);
        realm = text("example.org");
        nonce = text("obMatJos2gAAA7");
        for (size = length - 3; size < length + 4; size++) {
            uint8_t *bytes = room(size);
            size_t *written = NEW(size_t);
            stun_types_answer expected =
                size < length ? LENGTHS(STUN_TYPES_TOO_SMALL, length, size) : OK_ANSWER;
            heap_allow(true);
            ANSWERS(refuse(is_long, request, 401, realm, nonce, sent, 2, bytes, size, written),
                    expected);
            heap_allow(false);
            if (size < length) CHECK(is_untouched(bytes, size) && is_untouched(written, sizeof *written));
            else CHECK(*written == length && is_untouched(bytes + length, size - length));
        }
        for (number = 1; number < 100; number++) {
            uint8_t *bytes = room(200);
            size_t *written = NEW(size_t);
            stun_types_answer answer;
            long held = heap_held(), asked;
            heap_allow(true);
            heap_refuse(number);
            answer = refuse(is_long, request, 401, realm, nonce, sent, 2, bytes, 200, written);
            asked = heap_asked();
            heap_refuse(0);
            heap_allow(false);
            CHECK(heap_held() == held);
            if (asked < number) {
                ANSWERS(answer, OK_ANSWER);
                break;
            }
            ANSWERS(answer, PLAIN(STUN_TYPES_OUT_OF_MEMORY));
            CHECK(is_untouched(bytes, 200) && is_untouched(written, sizeof *written));
        }
        CHECK(number > 1 && number < 100);
        is_long = !is_long;
    } while (is_long);
}

/* ---- stun_types_finish_reply */

static const struct {
    const char *name;
    uint32_t kind, algorithm, password_algorithm, reserved;
    bool has_first, has_sha256, prints;
    size_t size;
    uint32_t code;
    uint64_t expected;
    size_t written;
} finished[] = {
    {"nothing decided", 0, 0x0008, 1, 0, true, true, true, 100, STUN_TYPES_BAD_ARGUMENT, 0, 20},
    {"refused", 2, 0x0008, 1, 0, true, true, true, 100, STUN_TYPES_BAD_ARGUMENT, 0, 20},
    {"discarded", 3, 0x0008, 1, 0, true, true, true, 100, STUN_TYPES_BAD_ARGUMENT, 0, 20},
    {"not checked", 4, 0x0008, 1, 0, true, true, true, 100, STUN_TYPES_BAD_ARGUMENT, 0, 20},
    {"another kind", 5, 0x0008, 1, 0, true, true, true, 100, STUN_TYPES_BAD_ARGUMENT, 0, 20},
    {"no algorithm", 1, 0, 1, 0, true, true, true, 100, STUN_TYPES_BAD_ARGUMENT, 0, 20},
    {"another algorithm", 1, 3, 1, 0, true, true, true, 100, STUN_TYPES_BAD_ARGUMENT, 0, 20},
    {"a spare word that isn't 0", 1, 0x0008, 0, 1, true, true, true, 100, STUN_TYPES_BAD_ARGUMENT, 0,
     20},
    {"a spare word that has the highest bit", 1, 0x0008, 0, 1u << 31, true, true, true, 100,
     STUN_TYPES_BAD_ARGUMENT, 0, 20},
    {"short-term, by SHA-1", 1, 0x0008, 0, 0, true, false, false, 44, STUN_TYPES_OK, 0, 44},
    {"short-term, by SHA-256", 1, 0x001C, 0, 0, true, false, true, 64, STUN_TYPES_OK, 0, 64},
    {"by the MD5 key", 1, 0x001C, 1, 0, true, false, true, 64, STUN_TYPES_OK, 0, 64},
    {"by the SHA-256 key", 1, 0x001C, 2, 0, false, true, true, 64, STUN_TYPES_OK, 0, 64},
    {"without the MD5 key", 1, 0x0008, 1, 0, false, true, true, 19, STUN_TYPES_NO_KEY, 0, 20},
    {"without the SHA-256 key", 1, 0x001C, 2, 0, true, false, true, 64, STUN_TYPES_NO_KEY, 0, 20},
    {"no room for the HMAC", 1, 0x0008, 0, 0, true, false, true, 43, STUN_TYPES_TOO_SMALL, 44, 20},
    {"no room for the FINGERPRINT", 1, 0x0008, 0, 0, true, false, true, 51, STUN_TYPES_TOO_SMALL, 52, 20},
};

static void test_finish_reply(void) {
    size_t i;
    for (i = 0; i < COUNT(finished); i++) {
        stun_types_authentication *decision;
        stun_types_key *first, *sha256, *signing;
        stun_types_validated validated;
        uint8_t *bytes;
        size_t *written;
        row("stun_types_finish_reply", finished[i].name);
        written = NEW(size_t);
        bytes = begun(finished[i].size < 20 ? 20 : finished[i].size, written);
        decision = NEW(stun_types_authentication);
        memset(decision, 0, sizeof *decision);
        decision->kind = finished[i].kind;
        decision->reply_algorithm = finished[i].algorithm;
        decision->password_algorithm = finished[i].password_algorithm;
        decision->reserved = finished[i].reserved;
        first = finished[i].has_first ? bytes_key(hex(KEY_MD5), 0) : no_key();
        sha256 = finished[i].has_sha256 ? bytes_key(hex(KEY_SHA256), 0) : no_key();
        ANSWERS(stun_types_finish_reply(bytes, finished[i].size, written, decision, first, sha256,
                                        finished[i].prints),
                LENGTHS(finished[i].code, finished[i].expected,
                        finished[i].code == STUN_TYPES_TOO_SMALL ? finished[i].size : 0));
        CHECK(*written == finished[i].written);
        ANSWERS(stun_types_parse(bytes, *written), OK_ANSWER);
        signing = finished[i].password_algorithm == 2 ? sha256 : first;
        if (*written > 20) ANSWERS(stun_types_validate(bytes, *written, signing, &validated), OK_ANSWER);
        stun_types_key_free(first);
        stun_types_key_free(sha256);
    }
}

/* ---- nonces */

static void test_nonces(void) {
    static const stun_types_address client = {{192, 0, 2, 1}, 32853, 4};
    static const stun_types_address other = {{192, 0, 2, 1}, 32853, 5};
    stun_types_key *secret;
    stun_types_nonce_state *state;
    stun_types_cookie *cookie;
    uint32_t *features;
    uint8_t *bytes;
    size_t *written;
    slice nonce;
    long number;
    row("stun_types_nonce_cookie", "other sums");
    cookie = NEW(stun_types_cookie);
    ANSWERS(stun_types_nonce_cookie(4, cookie), PLAIN(STUN_TYPES_BAD_ARGUMENT));
    ANSWERS(stun_types_nonce_cookie(UINT32_MAX, cookie), PLAIN(STUN_TYPES_BAD_ARGUMENT));
    CHECK(is_untouched(cookie, sizeof *cookie));
    ANSWERS(stun_types_nonce_cookie(3, cookie), OK_ANSWER);
    features = NEW(uint32_t);
    CHECK(stun_types_security_features(cookie->bytes, 13, features) && *features == 3);
    row("stun_types_make_nonce", "arguments, in their order");
    secret = bytes_key(hex("A5*32"), 0);
    bytes = room(STUN_TYPES_NONCE_LENGTH);
    written = NEW(size_t);
    state = NEW(stun_types_nonce_state);
    ANSWERS(stun_types_make_nonce(no_key(), 4, 600, 7, &client, bytes, 0, written),
            PLAIN(STUN_TYPES_BAD_ARGUMENT));
    ANSWERS(stun_types_make_nonce(no_key(), 3, 600, 7, &other, bytes, 0, written),
            PLAIN(STUN_TYPES_BAD_ARGUMENT));
    ANSWERS(stun_types_make_nonce(no_key(), 3, 600, 7, &client, bytes, 0, written),
            PLAIN(STUN_TYPES_NO_KEY));
    /* (over memory of ones, and over what a call that succeeded left) */
    ANSWERS(stun_types_judge_nonce(no_key(), 4, 600, 7, &client, "", 0, state),
            PLAIN(STUN_TYPES_BAD_ARGUMENT));
    CHECK(*state == STUN_TYPES_NONCE_UNKNOWN);
    *state = STUN_TYPES_NONCE_VALID;
    ANSWERS(stun_types_judge_nonce(no_key(), 3, 600, 7, &other, "", 0, state),
            PLAIN(STUN_TYPES_BAD_ARGUMENT));
    CHECK(*state == STUN_TYPES_NONCE_UNKNOWN);
    *state = STUN_TYPES_NONCE_VALID;
    ANSWERS(stun_types_judge_nonce(no_key(), 3, 600, 7, &client, "", 0, state),
            PLAIN(STUN_TYPES_NO_KEY));
    CHECK(*state == STUN_TYPES_NONCE_UNKNOWN);
    heap_allow(true);
    ANSWERS(stun_types_make_nonce(secret, 3, 600, 7, &client, bytes, 34, written),
            LENGTHS(STUN_TYPES_TOO_SMALL, 35, 34));
    CHECK(is_untouched(bytes, 35) && is_untouched(written, sizeof *written));
    ANSWERS(stun_types_make_nonce(secret, 3, 600, 7, &client, bytes, 35, written), OK_ANSWER);
    heap_allow(false);
    CHECK(*written == 35);
    stun_types_key_free(secret);
    row("nonces, each allocation refused in turn", "one that is made, and judged");
    secret = bytes_key(hex("A5*32"), 0);
    bytes = room(STUN_TYPES_NONCE_LENGTH);
    written = NEW(size_t);
    heap_allow(true);
    ANSWERS(stun_types_make_nonce(secret, 3, 600, 7, &client, bytes, 35, written), OK_ANSWER);
    nonce = given(bytes, 35);
    for (number = 1; number < 100; number++) {
        stun_types_answer made, judged;
        long held = heap_held(), asked;
        bytes = room(STUN_TYPES_NONCE_LENGTH);
        written = NEW(size_t);
        state = NEW(stun_types_nonce_state);
        *state = STUN_TYPES_NONCE_VALID;
        heap_allow(true);
        heap_refuse(number);
        made = stun_types_make_nonce(secret, 3, 600, 7, &client, bytes, 35, written);
        asked = heap_asked();
        heap_refuse(0);
        heap_allow(true);
        heap_refuse(number);
        judged = stun_types_judge_nonce(secret, 3, 600, 8, &client, nonce.bytes, 35, state);
        if (judged.code == STUN_TYPES_OK) CHECK(*state == STUN_TYPES_NONCE_VALID);
        else CHECK(*state == STUN_TYPES_NONCE_UNKNOWN && judged.code == STUN_TYPES_OUT_OF_MEMORY);
        heap_refuse(0);
        heap_allow(false);
        CHECK(heap_held() == held);
        if (asked < number) {
            ANSWERS(made, OK_ANSWER);
            CHECK_BYTES(bytes, 35, nonce);
            break;
        }
        ANSWERS(made, PLAIN(STUN_TYPES_OUT_OF_MEMORY));
        CHECK(is_untouched(bytes, 35) && is_untouched(written, sizeof *written));
    }
    CHECK(number > 1 && number < 100);
    stun_types_key_free(secret);
}

/* ---- many transactions */

static void test_many_transactions(void) {
    static const stun_types_schedule schedule = STUN_TYPES_SCHEDULE;
    static const uint8_t fills[] = {0x00, 0xEE, 0xFF};
    slice response, request;
    stun_types_transaction *all;
    stun_types_action action;
    uint64_t *until;
    size_t *place, i;
    row("many transactions", "none, and what keeps none");
    response = hex(SUCCESS);
    place = NEW(size_t);
    until = NEW(uint64_t);
    CHECK(!stun_types_transactions_find(NULL, 0, response.bytes, response.length, place));
    CHECK(!stun_types_transactions_next(NULL, 0, until));
    for (i = 0; i < COUNT(fills); i++) {
        all = (stun_types_transaction *)(void *)room(3 * sizeof *all);
        memset(all, fills[i], 3 * sizeof *all);
        CHECK(!stun_types_transactions_find(all, 3, response.bytes, response.length, place));
        CHECK(!stun_types_transactions_next(all, 3, until));
        CHECK(!stun_types_transaction_round_trip(all, 7, until));
    }
    CHECK(is_untouched(place, sizeof *place) && is_untouched(until, sizeof *until));
    row("many transactions", "one among free places");
    response = hex(SUCCESS);
    request = hex(REQUEST);
    all = (stun_types_transaction *)(void *)room(3 * sizeof *all);
    memset(all, 0, 3 * sizeof *all);
    place = NEW(size_t);
    until = NEW(uint64_t);
    ANSWERS(stun_types_transaction_begin(&all[1], request.bytes, request.length, &schedule,
                                         STUN_TYPES_UDP, STUN_TYPES_UNPROTECTED, no_key(), 1000),
            OK_ANSWER);
    CHECK(!stun_types_transactions_find(all, 3, response.bytes, response.length, place));
    CHECK(stun_types_transactions_next(all, 3, until) && *until == 1000);
    ANSWERS(stun_types_transaction_poll(&all[1], 1000, &action), OK_ANSWER);
    CHECK(stun_types_transactions_next(all, 3, until) && *until == 1500);
    CHECK(stun_types_transactions_find(all, 3, response.bytes, response.length, place) && *place == 1);
    CHECK(stun_types_transactions_find(all, 3, response.bytes, 20, place) && *place == 1);
    CHECK(!stun_types_transactions_find(all, 3, response.bytes, 19, place));
    CHECK(!stun_types_transactions_find(all, 3, request.bytes, request.length, place));
    all[2] = all[1];
    CHECK(stun_types_transactions_find(all, 3, response.bytes, response.length, place) && *place == 1);
    ANSWERS(stun_types_transaction_cancel(&all[1]), OK_ANSWER);
    CHECK(stun_types_transactions_find(all, 3, response.bytes, response.length, place) && *place == 2);
    ANSWERS(stun_types_transaction_cancel(&all[2]), OK_ANSWER);
    CHECK(!stun_types_transactions_find(all, 3, response.bytes, response.length, place));
    CHECK(!stun_types_transactions_next(all, 3, until));
}

void test_calls(void) {
    test_begin_reply();
    test_known_widths();
    test_added_numbers();
    test_read_numbers();
    test_known_types();
    test_key_for();
    test_answer_challenge();
    test_refusals();
    test_spare_word();
    test_refusal_rooms();
    test_finish_reply();
    test_nonces();
    test_many_transactions();
}
