/* Reading with cursors and attributes that no walk gave, and into rooms that are too small. */
#include <string.h>
#include <time.h>

#include "check.h"
#include "tests.h"

/* The header of a binding request with the transaction ID 1000, as the stored cases have it, and
   that of RFC 5769's ID. */
#define HEADER(length) "0001" length "2112A442 0000000000000000000003E8"
#define HEADER_5769(length) "0101" length "2112A442 B7E7A701BC34D686FA87DFAE"

/* A cursor that no walk over these bytes left: it yields the attributes from its index on that they
   show, and no others; or, if it names their length and their ID, what begins at its offset. */
static const struct {
    const char *name;
    stun_types_cursor cursor;
    size_t count;
} cursors[] = {
    {"the first", STUN_TYPES_CURSOR, 2},
    {"of a message with one attribute", {1, 32, 28, 0, 1000, 0x8022, 0}, 1},
    {"of a message with two", {2, 36, 36, 0, 1000, 0x8029, 0}, 0},
    {"of a message with more", {20, 100, 100, 0, 1000, 0x8029, 0}, 0},
    {"of a message with another ID", {1, 24, 32, 1, 1000, 0x8022, 0}, 1},
    {"of a message whose ID ends otherwise", {1, 24, 32, 0, 1001, 0x8022, 0}, 1},
    {"of this message, after the first", {1, 28, 32, 0, 1000, 0x8022, 0}, 1},
    {"of this message, at its end", {2, 32, 32, 0, 1000, 0x8029, 0}, 0},
    {"of this message, past its end", {1, 33, 32, 0, 1000, 0x8022, 0}, 1},
    {"of this message, in its header", {1, 19, 32, 0, 1000, 0, 0}, 1},
    {"of this message, after a FINGERPRINT", {1, 28, 32, 0, 1000, 0x8028, 0}, 0},
    {"the greatest", {SIZE_MAX, 0, 0, 0, 0, 0, 0}, 0},
    {"the greatest of 32 bits", {UINT32_MAX, 0, 0, 0, 0, 0, 0}, 0},
    {"a spare word that isn't 0", {0, 0, 0, 0, 0, 0, 1}, 0},
    {"a spare word that has the highest bit", {0, 0, 0, 0, 0, 0, 0x8000}, 0},
    {"not zeroed", {SIZE_MAX, SIZE_MAX, SIZE_MAX, UINT64_MAX, UINT32_MAX, UINT16_MAX, UINT16_MAX}, 0},
};

static void test_cursors(void) {
    size_t i, count;
    for (i = 0; i < COUNT(cursors); i++) {
        slice bytes;
        stun_types_cursor *cursor;
        stun_types_attribute *attribute;
        row("stun_types_next, a cursor of the caller's", cursors[i].name);
        bytes = hex(HEADER("000C") "80220003 61626300 80290000");
        cursor = NEW(stun_types_cursor);
        *cursor = cursors[i].cursor;
        attribute = NEW(stun_types_attribute);
        for (count = 0; count < 40; count++) {
            stun_types_cursor before = *cursor;
            size_t index = cursor->index;
            if (!stun_types_next(bytes.bytes, bytes.length, cursor, attribute)) {
                CHECK(memcmp(&before, cursor, sizeof before) == 0);
                break;
            }
            CHECK(attribute->value_at == (index == 0 ? 24 : 32));
            CHECK(attribute->type == (index == 0 ? 0x8022 : 0x8029));
            CHECK(attribute->length == (index == 0 ? 3 : 0));
            CHECK(cursor->index == index + 1 && cursor->reserved == 0);
        }
        CHECK(count == cursors[i].count);
        if (count == 0) CHECK(is_untouched(attribute, sizeof *attribute));
    }
    row("stun_types_cursor_first", "STUN_TYPES_CURSOR");
    {
        const stun_types_cursor first = STUN_TYPES_CURSOR;
        const stun_types_cursor other = stun_types_cursor_first();
        CHECK(memcmp(&first, &other, sizeof first) == 0);
        CHECK(is_zero(&first, sizeof first));
    }
    row("stun_types_next, a cursor of these bytes", "an offset within a value");
    {
        /* (a value whose bytes are the header of an attribute) */
        slice bytes = hex(HEADER("0008") "80220004 80290000");
        stun_types_cursor *cursor = NEW(stun_types_cursor);
        stun_types_attribute *attribute = NEW(stun_types_attribute);
        *cursor = (stun_types_cursor){1, 24, 28, 0, 1000, 0, 0};
        CHECK(stun_types_next(bytes.bytes, bytes.length, cursor, attribute));
        CHECK(attribute->value_at == 28 && attribute->type == 0x8029 && attribute->length == 0);
        CHECK(!stun_types_next(bytes.bytes, bytes.length, cursor, attribute));
    }
    row("stun_types_next, a walk", "as many attributes as a message can have");
    {
        enum { MOST = 16383 };
        clock_t began;
        uint8_t *message = room(20 + 4 * MOST);
        stun_types_cursor *cursor = NEW(stun_types_cursor);
        stun_types_attribute *attribute = NEW(stun_types_attribute);
        memcpy(message, hex(HEADER("FFFC")).bytes, 20);
        for (i = 0; i < MOST; i++) memcpy(message + 20 + 4 * i, "\x80\x22\0\0", 4);
        memset(cursor, 0, sizeof *cursor);
        began = clock();
        for (count = 0; stun_types_next(message, 20 + 4 * MOST, cursor, attribute); count++) {}
        CHECK(count == MOST && attribute->value_at == 20 + 4 * MOST);
        /* (a millisecond; half a second is less than a tenth of what it takes to walk anew) */
        CHECK(2 * (clock() - began) < CLOCKS_PER_SEC);
    }
}

/* ---- values of attributes that aren't within the bytes, and of bytes that don't parse */

typedef stun_types_answer (*read_call)(slice bytes, const stun_types_attribute *attribute);

static stun_types_answer read_xor_address(slice bytes, const stun_types_attribute *attribute) {
    stun_types_address *address = NEW(stun_types_address);
    stun_types_answer answer =
        stun_types_read_xor_address(bytes.bytes, bytes.length, attribute, address);
    if (answer.code != STUN_TYPES_OK) CHECK(is_untouched(address, sizeof *address));
    else CHECK(address->family == 4 && address->port == 32853 && address->octets[0] == 192);
    return answer;
}

static stun_types_answer read_address(slice bytes, const stun_types_attribute *attribute) {
    stun_types_address *address = NEW(stun_types_address);
    stun_types_answer answer =
        stun_types_read_address(bytes.bytes, bytes.length, attribute, address);
    if (answer.code != STUN_TYPES_OK) CHECK(is_untouched(address, sizeof *address));
    else CHECK(address->family == 4 && address->port == 32853 && address->octets[0] == 192);
    return answer;
}

static stun_types_answer read_error(slice bytes, const stun_types_attribute *attribute) {
    uint16_t *code = NEW(uint16_t);
    size_t *at = NEW(size_t), *length = NEW(size_t);
    stun_types_answer answer =
        stun_types_read_error(bytes.bytes, bytes.length, attribute, code, at, length);
    if (answer.code != STUN_TYPES_OK) {
        CHECK(is_untouched(code, sizeof *code) && is_untouched(at, sizeof *at));
        CHECK(is_untouched(length, sizeof *length));
    }
    return answer;
}

static stun_types_answer read_types(slice bytes, const stun_types_attribute *attribute) {
    uint16_t *types = (uint16_t *)(void *)room(8);
    size_t *count = NEW(size_t);
    stun_types_answer answer =
        stun_types_read_types(bytes.bytes, bytes.length, attribute, types, 4, count);
    if (answer.code != STUN_TYPES_OK)
        CHECK(is_untouched(types, 8) && is_untouched(count, sizeof *count));
    return answer;
}

#define READ_NUMBER(bits)                                                                       \
    static stun_types_answer read_u##bits(slice bytes, const stun_types_attribute *attribute) { \
        uint##bits##_t *number = NEW(uint##bits##_t);                                           \
        stun_types_answer answer =                                                              \
            stun_types_read_u##bits(bytes.bytes, bytes.length, attribute, number);              \
        if (answer.code != STUN_TYPES_OK) CHECK(is_untouched(number, sizeof *number));          \
        return answer;                                                                          \
    }
READ_NUMBER(8)
READ_NUMBER(16)
READ_NUMBER(32)
READ_NUMBER(64)

#define WITH_XOR HEADER_5769("000C") "00200008 0001A147E112A643"
#define WITH_PLAIN HEADER("000C") "00010008 00018055C0000201"

static const struct {
    const char *name;
    read_call call;
    const char *bytes;
    stun_types_attribute attribute;
    uint32_t code;
} values[] = {
    {"an XORed address, the rest needn't parse", read_xor_address,
     HEADER_5769("FFFF") "00200008 0001A147E112A643 FF", {24, 0x20, 8}, STUN_TYPES_OK},
    {"an XORed address, it ends one byte after the bytes", read_xor_address, WITH_XOR,
     {24, 0x20, 9}, STUN_TYPES_BAD_ARGUMENT},
    {"an XORed address, it begins after the bytes", read_xor_address, WITH_XOR, {33, 0x20, 0},
     STUN_TYPES_BAD_ARGUMENT},
    {"an XORed address, it wraps", read_xor_address, WITH_XOR, {SIZE_MAX - 3, 0x20, 8},
     STUN_TYPES_BAD_ARGUMENT},
    {"an XORed address, it is the greatest", read_xor_address, WITH_XOR, {SIZE_MAX, 0x20, 65535},
     STUN_TYPES_BAD_ARGUMENT},
    {"an XORed address, no bytes at all", read_xor_address, "", {24, 0x20, 8},
     STUN_TYPES_BAD_ARGUMENT},
    {"an XORed address, no header", read_xor_address, "C0 00*23 0001A147E112A643", {24, 0x20, 8},
     STUN_TYPES_NOT_STUN},
    {"an XORed address, of a type that isn't XORed", read_xor_address,
     HEADER_5769("000C") "00010008 0001A147E112A643", {24, 0x0001, 8}, STUN_TYPES_BAD_ARGUMENT},
    {"the same, ALTERNATE-SERVER", read_xor_address,
     HEADER_5769("000C") "80230008 0001A147E112A643", {24, 0x8023, 8}, STUN_TYPES_BAD_ARGUMENT},
    {"the same, RESPONSE-ORIGIN", read_xor_address,
     HEADER_5769("000C") "802B0008 0001A147E112A643", {24, 0x802B, 8}, STUN_TYPES_BAD_ARGUMENT},
    {"the same, OTHER-ADDRESS", read_xor_address,
     HEADER_5769("000C") "802C0008 0001A147E112A643", {24, 0x802C, 8}, STUN_TYPES_BAD_ARGUMENT},
    {"an XORed address, of a type that isn't known", read_xor_address,
     HEADER_5769("000C") "80200008 0001A147E112A643", {24, 0x8020, 8}, STUN_TYPES_OK},
    {"an address, of a type that is XORed", read_address, HEADER("000C") "00200008 00018055C0000201",
     {24, 0x0020, 8}, STUN_TYPES_BAD_ARGUMENT},
    {"the same, XOR-PEER-ADDRESS", read_address, HEADER("000C") "00120008 00018055C0000201",
     {24, 0x0012, 8}, STUN_TYPES_BAD_ARGUMENT},
    {"the same, XOR-RELAYED-ADDRESS", read_address, HEADER("000C") "00160008 00018055C0000201",
     {24, 0x0016, 8}, STUN_TYPES_BAD_ARGUMENT},
    {"an address, of a type that isn't known", read_address, HEADER("000C") "00020008 00018055C0000201",
     {24, 0x0002, 8}, STUN_TYPES_OK},
    {"an address, no header", read_address, "C0 00*23 00018055C0000201", {24, 0x8023, 8},
     STUN_TYPES_OK},
    {"an address, it begins in the header of its attribute", read_address,
     "C0 00*22 00018055C0000201", {23, 0x8023, 8}, STUN_TYPES_BAD_ARGUMENT},
    {"an address, it ends one byte after the bytes", read_address, WITH_PLAIN, {24, 1, 9},
     STUN_TYPES_BAD_ARGUMENT},
    {"an address, it wraps", read_address, WITH_PLAIN, {SIZE_MAX - 7, 1, 8},
     STUN_TYPES_BAD_ARGUMENT},
    {"an address, no bytes at all", read_address, "", {1, 1, 0}, STUN_TYPES_BAD_ARGUMENT},
    {"an error, it ends after the bytes", read_error, "00*24 00000414", {24, 9, 8},
     STUN_TYPES_BAD_ARGUMENT},
    {"an error, it begins after the bytes", read_error, "00*24 00000414", {SIZE_MAX, 9, 1},
     STUN_TYPES_BAD_ARGUMENT},
    {"types, they end after the bytes", read_types, "00*24 7FFF", {24, 0x0A, 4},
     STUN_TYPES_BAD_ARGUMENT},
    {"of zeros, an XORed address", read_xor_address, WITH_XOR, {0, 0, 0}, STUN_TYPES_BAD_ARGUMENT},
    {"of zeros, an address", read_address, WITH_PLAIN, {0, 0, 0}, STUN_TYPES_BAD_ARGUMENT},
    {"of zeros, an error", read_error, WITH_PLAIN, {0, 0, 0}, STUN_TYPES_BAD_ARGUMENT},
    {"of zeros, types", read_types, WITH_PLAIN, {0, 0, 0}, STUN_TYPES_BAD_ARGUMENT},
    {"of zeros, 8 bits", read_u8, WITH_PLAIN, {0, 0, 0}, STUN_TYPES_BAD_ARGUMENT},
    {"of zeros, 16 bits", read_u16, WITH_PLAIN, {0, 0, 0}, STUN_TYPES_BAD_ARGUMENT},
    {"of zeros, 32 bits", read_u32, WITH_PLAIN, {0, 0, 0}, STUN_TYPES_BAD_ARGUMENT},
    {"of zeros, 64 bits", read_u64, WITH_PLAIN, {0, 0, 0}, STUN_TYPES_BAD_ARGUMENT},
};

static void test_values(void) {
    size_t i;
    for (i = 0; i < COUNT(values); i++) {
        slice bytes, attribute;
        row("the value of an attribute", values[i].name);
        bytes = hex(values[i].bytes);
        attribute = given(&values[i].attribute, sizeof values[i].attribute);
        ANSWERS(values[i].call(bytes, (const void *)attribute.bytes), PLAIN(values[i].code));
    }
}

/* ---- lists of types in rooms for fewer */

static const struct {
    const char *name, *value;
    size_t room, count;
    uint16_t types[3];
} type_lists[] = {
    {"three in a room for two", "7FFF 0000 8022", 2, 3, {0x7FFF, 0x0000}},
    {"three in a room for none", "7FFF 0000 8022", 0, 3, {0}},
    {"the most that a value has", "01*65534", 2, 32767, {0x0101, 0x0101}},
};

static void test_type_lists(void) {
    size_t i;
    for (i = 0; i < COUNT(type_lists); i++) {
        slice bytes;
        uint16_t *types;
        size_t *count, held = type_lists[i].room;
        stun_types_attribute attribute = {24, STUN_TYPES_ATTRIBUTE_UNKNOWN_ATTRIBUTES, 0};
        row("stun_types_read_types", type_lists[i].name);
        bytes = joined(hex(HEADER("0000") "000A0000"), hex(type_lists[i].value));
        attribute.length = (uint16_t)(bytes.length - 24);
        types = (uint16_t *)(void *)room(2 * held);
        count = NEW(size_t);
        ANSWERS(stun_types_read_types(bytes.bytes, bytes.length, &attribute, types, held, count),
                OK_ANSWER);
        CHECK(*count == type_lists[i].count);
        CHECK(memcmp(types, type_lists[i].types, 2 * held) == 0);
    }
}

static const struct {
    const char *name, *bytes;
    size_t room, count;
    uint16_t types[3];
} unknown[] = {
    {"a room for one", HEADER("0010") "7FFF0000 00000000 7FFF0000 00060000", 1, 3, {0x7FFF}},
    {"no room", HEADER("0010") "7FFF0000 00000000 7FFF0000 00060000", 0, 3, {0}},
    {"no message", "40", 3, 0, {0}},
    {"fewer bytes than it states", HEADER("0008") "00060000", 3, 0, {0}},
};

static void test_unknown_types(void) {
    static const uint16_t username[] = {STUN_TYPES_ATTRIBUTE_USERNAME};
    size_t i;
    for (i = 0; i < COUNT(unknown); i++) {
        slice bytes, supported;
        uint16_t *types;
        size_t written = unknown[i].count < unknown[i].room ? unknown[i].count : unknown[i].room;
        row("stun_types_unknown_types", unknown[i].name);
        bytes = hex(unknown[i].bytes);
        supported = given(username, sizeof username);
        types = (uint16_t *)(void *)room(2 * unknown[i].room);
        CHECK(stun_types_unknown_types(bytes.bytes, bytes.length, (const void *)supported.bytes, 1,
                                       types, unknown[i].room)
              == unknown[i].count);
        CHECK(memcmp(types, unknown[i].types, 2 * written) == 0);
        CHECK(is_untouched(types + written, 2 * (unknown[i].room - written)));
    }
}

void test_reading(void) {
    test_cursors();
    test_values();
    test_type_lists();
    test_unknown_types();
}
