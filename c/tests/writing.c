/* Writing: adds of addresses, errors and lists of types, which rows don't take step by step, and
 * adds to what is no message. */
#include <string.h>

#include "check.h"
#include "keychain.h"
#include "samples.h"
#include "tests.h"

#define ID_1000 {{0, 0, 0, 0, 0, 0, 0, 0, 0, 0, 3, 0xE8}}
#define ID_5769 {{0xB7, 0xE7, 0xA7, 1, 0xBC, 0x34, 0xD6, 0x86, 0xFA, 0x87, 0xDF, 0xAE}}
#define HEADER(length) "0001" length "2112A442 0000000000000000000003E8"
#define HEADER_5769(type, length) type length "2112A442 B7E7A701BC34D686FA87DFAE"
#define STUN_TYPES_TEXT "7374756E2D7479706573"

/* ---- stun_types_begin */

static const struct {
    const char *name;
    size_t size;
    uint16_t type;
    uint32_t code;
    uint64_t expected, actual;
} begun[] = {
    {"19 bytes", 19, 0x0001, STUN_TYPES_TOO_SMALL, 20, 19},
    {"no bytes", 0, 0x0001, STUN_TYPES_TOO_SMALL, 20, 0},
    {"a top bit", 20, 0x4000, STUN_TYPES_BAD_ARGUMENT, 0, 0},
    {"the other top bit", 20, 0x8001, STUN_TYPES_BAD_ARGUMENT, 0, 0},
    {"all bits", 100, 0xFFFF, STUN_TYPES_BAD_ARGUMENT, 0, 0},
};

static void test_begin(void) {
    static const stun_types_id id_1000 = ID_1000;
    size_t i;
    for (i = 0; i < COUNT(begun); i++) {
        slice id;
        uint8_t *bytes;
        size_t *written;
        row("stun_types_begin", begun[i].name);
        id = given(&id_1000, sizeof id_1000);
        bytes = room(begun[i].size);
        written = NEW(size_t);
        ANSWERS(
            stun_types_begin(bytes, begun[i].size, begun[i].type, (const void *)id.bytes, written),
            LENGTHS(begun[i].code, begun[i].expected, begun[i].actual));
        CHECK(is_untouched(bytes, begun[i].size) && is_untouched(written, sizeof *written));
    }
}

/* ---- steps: each is answered so, and a refused one changes nothing */

typedef enum {
    END,
    ADD,     /* type, and the value in hexadecimal */
    XORED,   /* type, and an address with the port 32853 */
    ADDRESS, /* the same */
    ERROR,   /* code, and the reason in hexadecimal */
    UNKNOWN, /* types, in hexadecimal */
    SIGN,    /* algorithm, and the password */
    FINGER
} step_kind;

typedef struct {
    step_kind kind;
    uint32_t number;
    const char *value;
    uint32_t code, type;
    uint64_t expected, actual;
} step;

#define DONE STUN_TYPES_OK, 0, 0, 0
#define EXISTING(type) STUN_TYPES_EXISTS, type, 0, 0
#define SMALL(expected, actual) STUN_TYPES_TOO_SMALL, 0, expected, actual
#define LARGE(expected, actual) STUN_TYPES_TOO_LARGE, 0, expected, actual
#define OTHER(code) code, 0, 0, 0
#define SOFTWARE ADD, 0x8022, STUN_TYPES_TEXT

/* A message begins as a binding request with the transaction ID 1000, or by these bytes. What is
   written at the end is in hexadecimal. */
static const struct {
    const char *name;
    size_t size;
    const char *begin;
    step steps[8];
    const char *written;
} rows[] = {
    {"other algorithms",
     200,
     NULL,
     {{SIGN, STUN_TYPES_INTEGRITY_ANY, "pass", OTHER(STUN_TYPES_BAD_ARGUMENT)},
      {SIGN, STUN_TYPES_PASSWORD_MD5, "pass", OTHER(STUN_TYPES_BAD_ARGUMENT)},
      {SIGN, STUN_TYPES_PASSWORD_SHA256, "pass", OTHER(STUN_TYPES_BAD_ARGUMENT)},
      {SIGN, 0xFFFF, "pass", OTHER(STUN_TYPES_BAD_ARGUMENT)}},
     HEADER("0000")},
    {"what else the greatest message has no room for", 70000, HEADER_5769("0001", "0000"),
     {{ADD, 0x0013, "A5*65528", DONE},
      {XORED, 0x0020, "C0000201", LARGE(65555, 65564)},
      {ADDRESS, 0x0001, "20010DB8123456780011223344556677", LARGE(65555, 65576)},
      {ERROR, 400, "6E6F", LARGE(65555, 65564)},
      {UNKNOWN, 0, "001D", LARGE(65555, 65560)}},
     NULL},
    {"addresses of the other form",
     128,
     HEADER_5769("0101", "0000"),
     {{ADDRESS, 0x0020, "C0000201", OTHER(STUN_TYPES_BAD_ARGUMENT)},
      {ADDRESS, 0x0012, "C0000201", OTHER(STUN_TYPES_BAD_ARGUMENT)},
      {ADDRESS, 0x0016, "C0000201", OTHER(STUN_TYPES_BAD_ARGUMENT)},
      {XORED, 0x0001, "C0000201", OTHER(STUN_TYPES_BAD_ARGUMENT)},
      {XORED, 0x8023, "C0000201", OTHER(STUN_TYPES_BAD_ARGUMENT)},
      {XORED, 0x802B, "C0000201", OTHER(STUN_TYPES_BAD_ARGUMENT)},
      {XORED, 0x802C, "C0000201", OTHER(STUN_TYPES_BAD_ARGUMENT)}},
     HEADER_5769("0101", "0000")},
    {"addresses of types that have none",
     128,
     HEADER_5769("0101", "0000"),
     {{XORED, 0x8020, "C0000201", DONE}, {ADDRESS, 0x0002, "C0000201", DONE}},
     HEADER_5769("0101", "0018") "80200008 0001A147E112A643" "00020008 00018055C0000201"},
    {"addresses",
     128,
     HEADER_5769("0101", "0000"),
     {{XORED, 0x0020, "C0000201", DONE},
      {XORED, 0x0020, "20010DB8123456780011223344556677", DONE},
      {ADDRESS, 0x0001, "C0000201", DONE},
      {ADDRESS, 0x8023, "20010DB8123456780011223344556677", DONE}},
     HEADER_5769(
         "0101",
         "0048") "00200008 0001A147E112A643"
                 "00200014 0002A1470113A9FAA5D3F179BC25F4B5BED2B9D9 00010008 00018055C0000201"
                 "80230014 0002805520010DB8123456780011223344556677"},
    {"addresses that there is no room for",
     31,
     HEADER_5769("0101", "0000"),
     {{XORED, 0x0020, "C0000201", SMALL(32, 31)},
      {XORED, 0x0020, "20010DB8123456780011223344556677", SMALL(44, 31)},
      {ADDRESS, 0x0001, "C0000201", SMALL(32, 31)},
      {ADDRESS, 0x0001, "20010DB8123456780011223344556677", SMALL(44, 31)}},
     HEADER_5769("0101", "0000")},
    {"addresses of other families",
     100,
     NULL,
     {{XORED, 0x0020, "00", OTHER(STUN_TYPES_BAD_ARGUMENT)},
      {ADDRESS, 0x0020, "00", OTHER(STUN_TYPES_BAD_ARGUMENT)},
      {XORED, 0x0020, "", OTHER(STUN_TYPES_BAD_ARGUMENT)},
      {ADDRESS, 0x0020, "", OTHER(STUN_TYPES_BAD_ARGUMENT)}},
     HEADER("0000")},
    {"addresses after a FINGERPRINT",
     100,
     HEADER("0008") "80280004 3756C07F",
     {{XORED, 0x0020, "C0000201", EXISTING(0x8028)},
      {ADDRESS, 0x0001, "C0000201", EXISTING(0x8028)}},
     NULL},
    {"errors",
     100,
     NULL,
     {{ERROR, 420, "556E6B6E6F776E", DONE}, {ERROR, 300, "", DONE}, {ERROR, 699, "C3BC", DONE}},
     HEADER(
         "0024") "0009000B 00000414556E6B6E6F776E00 00090004 00000300 00090006 00000663C3BC0000"},
    {"errors that are refused",
     2000,
     NULL,
     {{ERROR, 299, "6E6F", STUN_TYPES_OUT_OF_RANGE, 0, 699, 299},
      {ERROR, 700, "6E6F", STUN_TYPES_OUT_OF_RANGE, 0, 699, 700},
      {ERROR, 0, "", STUN_TYPES_OUT_OF_RANGE, 0, 699, 0},
      {ERROR, 65535, "", STUN_TYPES_OUT_OF_RANGE, 0, 699, 65535},
      {ERROR, 65936, "", STUN_TYPES_OUT_OF_RANGE, 0, 699, 65936},
      {ERROR, 400, "61*764", LARGE(763, 764)},
      {ERROR, 400, "61FF", OTHER(STUN_TYPES_INVALID_DATA)},
      {ERROR, 400, "C3", OTHER(STUN_TYPES_INVALID_DATA)}},
     HEADER("0000")},
    {"errors of which several apply, after a FINGERPRINT",
     31,
     HEADER("0008") "80280004 3756C07F",
     {{ERROR, 299, "FF*764", STUN_TYPES_OUT_OF_RANGE, 0, 699, 299},
      {ERROR, 400, "FF*764", LARGE(763, 764)},
      {ERROR, 400, "FF", OTHER(STUN_TYPES_INVALID_DATA)},
      {ERROR, 400, "61", EXISTING(0x8028)},
      {ADD, 0x8028, "A5*65536", LARGE(65535, 65536)},
      {ADD, 0x8028, "A5", STUN_TYPES_ENDING_TYPE, 0x8028, 0, 0},
      {ADD, 0x8022, "A5", EXISTING(0x8028)},
      {UNKNOWN, 0, "01*65536", LARGE(32767, 32768)}},
     HEADER("0008") "80280004 3756C07F"},
    {"the longest reason",
     792,
     NULL,
     {{ERROR, 500, "61*763", DONE}, {ERROR, 500, "", SMALL(800, 792)}},
     HEADER("0304") "000902FF 00000500 61*763 00"},
    {"types",
     60,
     NULL,
     {{UNKNOWN, 0, "", DONE}, {UNKNOWN, 0, "001D", DONE}, {UNKNOWN, 0, "7FFF00000001", DONE}},
     HEADER("0018") "000A0000 000A0002 001D0000 000A0006 7FFF000000010000"},
    {"more types than there is room for",
     70000,
     NULL,
     {{UNKNOWN, 0, "01*65536", LARGE(32767, 32768)},
      {UNKNOWN, 0, "01*65534", LARGE(65555, 65560)},
      {UNKNOWN, 0, "01*65530", LARGE(65555, 65556)}},
     HEADER("0000")},
    {"the most types",
     65552,
     NULL,
     {{UNKNOWN, 0, "01*65528", DONE}},
     HEADER("FFFC") "000AFFF8 01*65528"},
    {"types in a small room",
     31,
     NULL,
     {{UNKNOWN, 0, "7FFF00000001", SMALL(32, 31)}},
     HEADER("0000")},
    {"MESSAGE-INTEGRITY that was there",
     100,
     HEADER("0008") "00080004 11111111",
     {{SOFTWARE, EXISTING(0x0008)},
      {ERROR, 400, "", EXISTING(0x0008)},
      {UNKNOWN, 0, "", EXISTING(0x0008)}},
     NULL},
};

/* What no add resumes. */
static const struct {
    const char *name, *bytes;
    size_t size, written;
} broken[] = {
    {"more is written than there is room", HEADER("0000"), 20, 21},
    {"more is written than there is room, as the length field counts", HEADER("0004"), 20, 24},
    {"the greatest number of bytes is written", HEADER("0000"), 20, SIZE_MAX},
    {"nothing is written", HEADER("0000"), 100, 0},
    {"19 bytes are written", HEADER("0000"), 100, 19},
    {"another first byte", "4001 0000 2112A442 00*12", 100, 20},
    {"another cookie", "0001 0000 2112A443 00*12", 100, 20},
    {"a length field of more", HEADER("0004"), 100, 20},
    {"a length field of less", HEADER("0000") "80220000", 100, 24},
    {"an attribute whose value is cut", HEADER("0008") "80220005 61626364", 100, 28},
    {"an attribute whose padding is cut", HEADER("0005") "80220001 61", 100, 25},
    {"an attribute whose header is cut", HEADER("0002") "8022", 100, 22},
    {"a slice of 0 bytes, and 0 written", "", 0, 0},
};

/* Writes into the slice by a step. */
static stun_types_answer take_step(const step *one, uint8_t *bytes, size_t size, size_t *written) {
    slice value = one->kind == SIGN ? text(one->value) : hex(one->value == NULL ? "" : one->value);
    stun_types_address address;
    memset(&address, 0, sizeof address);
    if (one->kind == XORED || one->kind == ADDRESS) {
        address.port = 32853;
        address.family = value.length == 4 ? 4 : value.length == 16 ? 6 : value.length == 1 ? 5 : 0;
        if (address.family == 4 || address.family == 6)
            memcpy(address.octets, value.bytes, value.length);
    }
    switch (one->kind) {
    case ADD: return stun_types_add(bytes, size, written, one->number, value.bytes, value.length);
    case XORED:
        return stun_types_add_xor_address(bytes, size, written, one->number,
                                          (const void *)given(&address, sizeof address).bytes);
    case ADDRESS:
        return stun_types_add_address(bytes, size, written, one->number,
                                      (const void *)given(&address, sizeof address).bytes);
    case ERROR:
        return stun_types_add_error(bytes, size, written, one->number, value.bytes, value.length);
    case UNKNOWN: {
        uint16_t *types = (uint16_t *)(void *)room(value.length);
        size_t i;
        for (i = 0; i < value.length / 2; i++)
            types[i] = (uint16_t)(value.bytes[2 * i] << 8 | value.bytes[2 * i + 1]);
        return stun_types_add_unknown_types(bytes, size, written, types, value.length / 2);
    }
    case SIGN: {
        stun_types_key *key = password_key(value);
        stun_types_integrity algorithm =
            (stun_types_integrity)(one->number == 0xFFFF ? UINT32_MAX : one->number);
        stun_types_answer answer = stun_types_add_integrity(bytes, size, written, key, algorithm);
        stun_types_key_free(key);
        return answer;
    }
    case FINGER: return stun_types_add_fingerprint(bytes, size, written);
    default: return PLAIN(STUN_TYPES_OK);
    }
}

/* A refused add changes neither the slice nor how much is written. */
static void check_step(const step *one, uint8_t *bytes, size_t size, size_t *written) {
    slice before = given(bytes, size);
    size_t count = *written;
    stun_types_answer answer = take_step(one, bytes, size, written);
    ANSWERS(answer, answer_of(one->code, one->type, one->expected, one->actual));
    if (answer.code != STUN_TYPES_OK) {
        CHECK(*written == count);
        CHECK_BYTES(bytes, size, before);
    } else {
        CHECK(*written > count && *written <= size);
        if (*written <= size)
            CHECK_BYTES(bytes + *written, size - *written, behind(before, *written));
        CHECK(memcmp(bytes + 4, before.bytes + 4, count - 4) == 0);
    }
}

/* Begins a message in a slice, by these bytes or as a binding request with the transaction ID
   1000. */
static uint8_t *begin_message(const char *begin, size_t size, size_t *written) {
    static const stun_types_id id = ID_1000;
    uint8_t *bytes = room(size);
    if (begin == NULL) {
        ANSWERS(stun_types_begin(bytes, size, 0x0001, &id, written), OK_ANSWER);
    } else {
        slice first = hex(begin);
        if (first.length != 0) memcpy(bytes, first.bytes, first.length);
        *written = first.length;
    }
    return bytes;
}

static void test_rows(void) {
    size_t i, j;
    for (i = 0; i < COUNT(rows); i++) {
        uint8_t *bytes;
        size_t *written;
        row("adds", rows[i].name);
        written = NEW(size_t);
        bytes = begin_message(rows[i].begin, rows[i].size, written);
        for (j = 0; j < COUNT(rows[i].steps) && rows[i].steps[j].kind != END; j++)
            check_step(&rows[i].steps[j], bytes, rows[i].size, written);
        if (rows[i].written == NULL) continue;
        CHECK_BYTES(bytes, *written, hex(rows[i].written));
    }
}

static void test_broken(void) {
    static const step steps[] = {
        {ADD, 0x8022, "61", OTHER(STUN_TYPES_BAD_ARGUMENT)},
        {XORED, 0x0020, "C0000201", OTHER(STUN_TYPES_BAD_ARGUMENT)},
        {ADDRESS, 0x0001, "C0000201", OTHER(STUN_TYPES_BAD_ARGUMENT)},
        {ERROR, 400, "6E6F", OTHER(STUN_TYPES_BAD_ARGUMENT)},
        {UNKNOWN, 0, "001D", OTHER(STUN_TYPES_BAD_ARGUMENT)},
        {SIGN, STUN_TYPES_INTEGRITY_SHA1, "pass", OTHER(STUN_TYPES_BAD_ARGUMENT)},
        {SIGN, STUN_TYPES_INTEGRITY_SHA256, "pass", OTHER(STUN_TYPES_BAD_ARGUMENT)},
        {FINGER, 0, NULL, OTHER(STUN_TYPES_BAD_ARGUMENT)},
        /* what is written is tested before the arguments */
        {ADD, 0x8028, "61", OTHER(STUN_TYPES_BAD_ARGUMENT)},
        {ADD, 0x8022, "A5*65536", OTHER(STUN_TYPES_BAD_ARGUMENT)},
        {ERROR, 299, "6E6F", OTHER(STUN_TYPES_BAD_ARGUMENT)},
        {ERROR, 400, "61*764", OTHER(STUN_TYPES_BAD_ARGUMENT)},
        {ERROR, 400, "FF", OTHER(STUN_TYPES_BAD_ARGUMENT)},
        {UNKNOWN, 0, "01*65536", OTHER(STUN_TYPES_BAD_ARGUMENT)},
    };
    size_t i, j;
    for (i = 0; i < COUNT(broken); i++) {
        row("adds to what is no message", broken[i].name);
        for (j = 0; j < COUNT(steps); j++) {
            slice first = hex(broken[i].bytes), before;
            uint8_t *bytes = room(broken[i].size);
            size_t *written = NEW(size_t);
            if (first.length != 0) memcpy(bytes, first.bytes, first.length);
            *written = broken[i].written;
            before = given(bytes, broken[i].size);
            ANSWERS(take_step(&steps[j], bytes, broken[i].size, written),
                    PLAIN(STUN_TYPES_BAD_ARGUMENT));
            CHECK(*written == broken[i].written);
            CHECK_BYTES(bytes, broken[i].size, before);
        }
    }
}

/* ---- keys that sign */

static void test_signing_keys(void) {
    uint8_t *bytes;
    size_t *written;
    stun_types_key *key;
    stun_types_validated *validated;
    row("stun_types_add_integrity", "a key that holds none");
    written = NEW(size_t);
    bytes = begin_message(NULL, 100, written);
    ANSWERS(stun_types_add_integrity(bytes, 100, written, no_key(), STUN_TYPES_INTEGRITY_SHA1),
            PLAIN(STUN_TYPES_NO_KEY));
    CHECK(*written == 20 && is_untouched(bytes + 20, 80));
    /* (such a client signs as its server validates: a long-term key serves both attributes) */
    row("stun_types_add_integrity", "a long-term key by SHA-256, for a MESSAGE-INTEGRITY");
    written = NEW(size_t);
    validated = NEW(stun_types_validated);
    bytes = begin_message(HEADER("0000"), 44, written);
    key = login_key(STUN_TYPES_PASSWORD_SHA256);
    ANSWERS(stun_types_add_integrity(bytes, 44, written, key, STUN_TYPES_INTEGRITY_SHA1), OK_ANSWER);
    CHECK_BYTES(bytes + 20, *written - 20, hex(SIGNED_BY_OTHER_KEY));
    ANSWERS(stun_types_validate(bytes, *written, key, validated), OK_ANSWER);
    CHECK(validated->algorithm == STUN_TYPES_INTEGRITY_SHA1 && validated->hmac_length == 20);
    stun_types_key_free(key);
    row("stun_types_add_integrity", "a key that was made for the other algorithm");
    written = NEW(size_t);
    bytes = begin_message(HEADER("0000"), 44, written);
    key = bytes_key(hex(KEY_SHA256), STUN_TYPES_INTEGRITY_SHA256);
    ANSWERS(stun_types_add_integrity(bytes, 44, written, key, STUN_TYPES_INTEGRITY_SHA1),
            PLAIN(STUN_TYPES_BAD_ARGUMENT));
    CHECK(*written == 20 && is_untouched(bytes + 20, 24));
    stun_types_key_free(key);
    row("stun_types_add_integrity", "a key twice");
    key = password_key(text("pass"));
    written = NEW(size_t);
    bytes = begin_message(NULL, 44, written);
    ANSWERS(stun_types_add_integrity(bytes, 44, written, key, STUN_TYPES_INTEGRITY_SHA1), OK_ANSWER);
    CHECK_BYTES(bytes + 20, *written - 20, hex(SIGNED));
    bytes = begin_message(NULL, 44, written);
    ANSWERS(stun_types_add_integrity(bytes, 44, written, key, STUN_TYPES_INTEGRITY_SHA1), OK_ANSWER);
    CHECK_BYTES(bytes + 20, *written - 20, hex(SIGNED));
    stun_types_key_free(key);
}

/* As many attributes as a message has room for, without an allocation. */
static void test_many(void) {
    enum { MANY = 700 };
    static const step empty = {ADD, 0x8022, "", DONE},
                      signature = {SIGN, STUN_TYPES_INTEGRITY_SHA1, "pass", DONE};
    size_t size = 20 + 4 * MANY + 24 + 8, i, count = 0;
    uint8_t *bytes;
    size_t *written;
    stun_types_cursor cursor = STUN_TYPES_CURSOR;
    stun_types_attribute shown;
    slice value;
    row("adds", "hundreds of attributes");
    written = NEW(size_t);
    bytes = begin_message(NULL, size, written);
    value = hex("");
    for (i = 0; i < MANY; i++)
        ANSWERS(stun_types_add(bytes, size, written, 0x8022, value.bytes, value.length), OK_ANSWER);
    ANSWERS(take_step(&signature, bytes, size, written), OK_ANSWER);
    ANSWERS(stun_types_add_fingerprint(bytes, size, written), OK_ANSWER);
    ANSWERS(take_step(&empty, bytes, size, written), OF_TYPE(STUN_TYPES_EXISTS, 0x0008));
    CHECK(*written == size);
    ANSWERS(stun_types_parse(bytes, size), OK_ANSWER);
    while (stun_types_next(bytes, size, &cursor, &shown)) count++;
    CHECK(count == MANY + 2);
}

void test_writing(void) {
    test_begin();
    test_many();
    test_rows();
    test_broken();
    test_signing_keys();
}
