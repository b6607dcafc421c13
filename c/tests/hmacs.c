/* HMACs that a program computes by its own code: what is reported of a message, which HMACs are taken,
 * what is refused, and which message an HMAC is added to. The HMACs here are by reference.h. */
#include <string.h>

#include "check.h"
#include "keychain.h"
#include "own_hmacs.h"
#include "reference.h"
#include "samples.h"
#include "tests.h"

#define ANY STUN_TYPES_INTEGRITY_ANY
#define SHA1 STUN_TYPES_INTEGRITY_SHA1
#define SHA256 STUN_TYPES_INTEGRITY_SHA256

/* The offsets of the values of the two attributes of CHECK_BOTH. */
enum { AT_SHA1 = 60, AT_SHA256 = 84 };

static const stun_types_id ID = {{0, 0, 0, 0, 0, 0, 0, 0, 0, 0, 3, 0xE8}};

/* As an argument that is read. */
static const stun_types_covered *given_covered(stun_types_covered covered) {
    return (const void *)given(&covered, sizeof covered).bytes;
}

static const stun_types_hmac *given_hmac(stun_types_hmac hmac) {
    return (const void *)given(&hmac, sizeof hmac).bytes;
}

/* The HMAC by `pass` of four bytes and of those of a message from its offset 4 on. */
static stun_types_hmac hmac_by(stun_types_integrity algorithm, const uint8_t *first,
                               const uint8_t *bytes, size_t length) {
    stun_types_hmac hmac;
    memset(&hmac, FILL, sizeof hmac);
    hmac.algorithm = algorithm;
    own_hmac(algorithm == SHA1 ? 1 : 2, "pass", 4, first, 4, bytes + 4, length - 4, hmac.bytes);
    return hmac;
}

static stun_types_hmac zeros_by(stun_types_integrity algorithm) {
    stun_types_hmac hmac;
    memset(&hmac, 0, sizeof hmac);
    hmac.algorithm = algorithm;
    return hmac;
}

/* ---- what is reported of a message */

static const struct {
    const char *name, *message;
    uint32_t algorithm, code, type;
    uint64_t expected, actual;
    uint32_t reported;
    const char *first;
    uint64_t length;
} covered_rows[] = {
    {"SHA-1", CHECK_SHA1, ANY, STUN_TYPES_OK, 0, 0, 0, SHA1, "0001003C", 56},
    {"SHA-1 by its algorithm", CHECK_SHA1, SHA1, STUN_TYPES_OK, 0, 0, 0, SHA1, "0001003C", 56},
    {"SHA-1 by the other algorithm", CHECK_SHA1, SHA256, STUN_TYPES_MISSING_ATTRIBUTE, 0x0008, 0, 0,
     0, NULL, 0},
    {"SHA-256", CHECK_SHA256, ANY, STUN_TYPES_OK, 0, 0, 0, SHA256, "00010048", 56},
    {"SHA-256, cut", CHECK_CUT, SHA256, STUN_TYPES_OK, 0, 0, 0, SHA256, "00010038", 56},
    {"SHA-256 by the other algorithm", CHECK_SHA256, SHA1, STUN_TYPES_MISSING_ATTRIBUTE, 0x0008, 0, 0,
     0, NULL, 0},
    {"both", CHECK_BOTH, ANY, STUN_TYPES_OK, 0, 0, 0, SHA256, "00010060", 80},
    {"both, the first of them", CHECK_BOTH, SHA1, STUN_TYPES_OK, 0, 0, 0, SHA1, "0001003C", 56},
    {"both, the second of them", CHECK_BOTH, SHA256, STUN_TYPES_OK, 0, 0, 0, SHA256, "00010060", 80},
    {"a FINGERPRINT after it", SIGNED_SUCCESS, ANY, STUN_TYPES_OK, 0, 0, 0, SHA1, "01010024", 32},
    {"none", REQUEST, ANY, STUN_TYPES_MISSING_ATTRIBUTE, 0x0008, 0, 0, 0, NULL, 0},
    {"no message", "00", ANY, STUN_TYPES_TRUNCATED, 0, 20, 1, 0, NULL, 0},
    {"no message, and no algorithm", "00", 1, STUN_TYPES_TRUNCATED, 0, 20, 1, 0, NULL, 0},
    {"a password algorithm", CHECK_BOTH, 1, STUN_TYPES_BAD_ARGUMENT, 0, 0, 0, 0, NULL, 0},
    {"the other password algorithm", CHECK_BOTH, 2, STUN_TYPES_BAD_ARGUMENT, 0, 0, 0, 0, NULL, 0},
    {"the greatest number, and no attribute", REQUEST, UINT32_MAX, STUN_TYPES_BAD_ARGUMENT, 0, 0, 0, 0,
     NULL, 0},
    {"12 bytes of SHA-256", "0001 0010 2112A442 00*12 001C000C 00*12", ANY, STUN_TYPES_TRUNCATED, 0, 16,
     12, 0, NULL, 0},
    {"36 bytes of SHA-256", "0001 0028 2112A442 00*12 001C0024 00*36", SHA256, STUN_TYPES_TOO_LARGE, 0,
     32, 36, 0, NULL, 0},
    {"18 bytes of SHA-256", "0001 0018 2112A442 00*12 001C0012 00*20", ANY, STUN_TYPES_INVALID_DATA, 0,
     0, 0, 0, NULL, 0},
    {"16 bytes of SHA-1", "0001 0014 2112A442 00*12 00080010 00*16", ANY, STUN_TYPES_TRUNCATED, 0, 20,
     16, 0, NULL, 0},
};

/* The second half answers the same, whatever the HMAC, if the first half is refused. */
static void check_refused_too(size_t i, slice bytes, stun_types_answer expected) {
    stun_types_validated *validated = NEW(stun_types_validated);
    ANSWERS(stun_types_validate_with_hmac(bytes.bytes, bytes.length,
                                          (stun_types_integrity)covered_rows[i].algorithm,
                                          given_hmac(zeros_by(i % 2 == 0 ? SHA1 : SHA256)), validated),
            expected);
    CHECK(is_zero(validated, sizeof *validated));
}

static void test_covered(void) {
    size_t i;
    for (i = 0; i < COUNT(covered_rows); i++) {
        stun_types_answer expected = answer_of(covered_rows[i].code, covered_rows[i].type,
                                               covered_rows[i].expected, covered_rows[i].actual);
        slice bytes;
        stun_types_covered *covered;
        row("stun_types_covered_text", covered_rows[i].name);
        bytes = hex(covered_rows[i].message);
        covered = NEW(stun_types_covered);
        ANSWERS(stun_types_covered_text(bytes.bytes, bytes.length,
                                        (stun_types_integrity)covered_rows[i].algorithm, covered),
                expected);
        if (expected.code != STUN_TYPES_OK) {
            CHECK(is_zero(covered, sizeof *covered));
            check_refused_too(i, bytes, expected);
            continue;
        }
        CHECK((uint32_t)covered->algorithm == covered_rows[i].reported);
        CHECK_BYTES(covered->first, 4, hex(covered_rows[i].first));
        CHECK(covered->length == covered_rows[i].length);
    }
}

/* ---- which HMACs are taken */

static void check_validation(slice bytes, stun_types_integrity made_for, stun_types_hmac hmac,
                             uint32_t code) {
    stun_types_validated *validated = NEW(stun_types_validated);
    ANSWERS(stun_types_validate_with_hmac(bytes.bytes, bytes.length, made_for, given_hmac(hmac),
                                          validated),
            PLAIN(code));
    if (code != STUN_TYPES_OK) CHECK(is_zero(validated, sizeof *validated));
    else CHECK(validated->algorithm == hmac.algorithm && validated->reserved == 0);
}

/* Of a message with both attributes, and of one whose HMAC is cut. */
static void test_taken(void) {
    static const uint8_t first[] = {0, 1, 0, 0x3C}, second[] = {0, 1, 0, 0x60};
    slice both, cut;
    stun_types_hmac sha1, sha256, unadjusted, of_first, changed;
    size_t i;
    row("stun_types_validate_with_hmac", "both attributes");
    both = hex(CHECK_BOTH);
    sha1 = hmac_by(SHA1, first, both.bytes, AT_SHA1 - 4);
    sha256 = hmac_by(SHA256, second, both.bytes, AT_SHA256 - 4);
    check_validation(both, ANY, sha256, STUN_TYPES_OK);
    check_validation(both, SHA256, sha256, STUN_TYPES_OK);
    check_validation(both, SHA1, sha1, STUN_TYPES_OK);
    row("stun_types_validate_with_hmac", "the HMAC of the other attribute");
    both = hex(CHECK_BOTH);
    check_validation(both, ANY, sha1, STUN_TYPES_INTEGRITY_FAILED);
    check_validation(both, SHA256, sha1, STUN_TYPES_INTEGRITY_FAILED);
    check_validation(both, SHA1, sha256, STUN_TYPES_INTEGRITY_FAILED);
    row("stun_types_validate_with_hmac", "of the bytes that the other attribute covers");
    both = hex(CHECK_BOTH);
    of_first = hmac_by(SHA256, first, both.bytes, AT_SHA1 - 4);
    check_validation(both, ANY, of_first, STUN_TYPES_INTEGRITY_FAILED);
    row("stun_types_validate_with_hmac", "of the length field as it is there");
    both = hex(CHECK_BOTH);
    unadjusted = hmac_by(SHA1, both.bytes, both.bytes, AT_SHA1 - 4);
    check_validation(both, SHA1, unadjusted, STUN_TYPES_INTEGRITY_FAILED);
    row("stun_types_validate_with_hmac", "each byte changed");
    both = hex(CHECK_BOTH);
    for (i = 0; i < sizeof sha256.bytes; i++) {
        changed = sha256;
        changed.bytes[i] ^= 1;
        check_validation(both, ANY, changed, STUN_TYPES_INTEGRITY_FAILED);
        changed = sha1;
        changed.bytes[i] ^= 1;
        /* (the last 12 aren't read) */
        check_validation(both, SHA1, changed, i < 20 ? STUN_TYPES_INTEGRITY_FAILED : STUN_TYPES_OK);
    }
    row("stun_types_validate_with_hmac", "an attribute that is cut");
    cut = hex(CHECK_CUT);
    sha256 = hmac_by(SHA256, cut.bytes, cut.bytes, 56);
    check_validation(cut, ANY, sha256, STUN_TYPES_OK);
    changed = sha256;
    memset(changed.bytes + 16, 0, 16);
    check_validation(cut, ANY, changed, STUN_TYPES_OK);
    changed = sha256;
    changed.bytes[15] ^= 1;
    check_validation(cut, ANY, changed, STUN_TYPES_INTEGRITY_FAILED);
}

static void test_bad_hmacs(void) {
    static const uint32_t algorithms[] = {0, 1, 2, 0x8028, 0x00080000, UINT32_MAX};
    size_t i;
    for (i = 0; i < COUNT(algorithms); i++) {
        slice both, none, broken;
        stun_types_hmac hmac = zeros_by((stun_types_integrity)algorithms[i]);
        stun_types_validated *validated;
        row("stun_types_validate_with_hmac", "an HMAC by no algorithm");
        both = hex(CHECK_BOTH);
        none = hex(REQUEST);
        broken = hex("00");
        check_validation(both, ANY, hmac, STUN_TYPES_BAD_ARGUMENT);
        check_validation(both, SHA1, hmac, STUN_TYPES_BAD_ARGUMENT);
        check_validation(none, ANY, hmac, STUN_TYPES_BAD_ARGUMENT);
        validated = NEW(stun_types_validated);
        ANSWERS(stun_types_validate_with_hmac(broken.bytes, broken.length, ANY, given_hmac(hmac),
                                              validated),
                LENGTHS(STUN_TYPES_TRUNCATED, 20, 1));
        CHECK(is_zero(validated, sizeof *validated));
    }
}

/* ---- signing */

/* A binding request in a room, with a SOFTWARE of four bytes. */
static uint8_t *begun(size_t size, size_t *written) {
    uint8_t *bytes = room(size);
    ANSWERS(stun_types_begin(bytes, size, 0x0001, &ID, written), OK_ANSWER);
    ANSWERS(stun_types_add(bytes, size, written, STUN_TYPES_ATTRIBUTE_SOFTWARE, "test", 4), OK_ANSWER);
    return bytes;
}

/* What is reported of the next attribute, which isn't refused. */
static stun_types_covered next_of(const uint8_t *bytes, size_t size, size_t written,
                                  stun_types_integrity algorithm) {
    stun_types_covered *covered = NEW(stun_types_covered);
    ANSWERS(stun_types_next_covered_text(bytes, size, written, algorithm, covered), OK_ANSWER);
    return *covered;
}

/* That an HMAC isn't added, and nothing changes. */
static void check_not_added(uint8_t *bytes, size_t size, size_t *written, stun_types_covered covered,
                            stun_types_hmac hmac, stun_types_answer expected) {
    const uint8_t *before = copy(bytes, size);
    const size_t count = *written;
    ANSWERS(stun_types_add_hmac(bytes, size, written, given_covered(covered), given_hmac(hmac)),
            expected);
    CHECK(memcmp(bytes, before, size) == 0 && *written == count);
}

static void check_not_next(const uint8_t *bytes, size_t size, size_t written, uint32_t algorithm,
                           stun_types_answer expected) {
    stun_types_covered *covered = NEW(stun_types_covered);
    ANSWERS(stun_types_next_covered_text(bytes, size, written, (stun_types_integrity)algorithm,
                                         covered),
            expected);
    CHECK(is_zero(covered, sizeof *covered));
}

/* Both attributes are added, each by its HMAC, and the message validates by either. */
static void test_added(void) {
    static const stun_types_integrity algorithms[] = {SHA1, SHA256};
    size_t *written, i;
    uint8_t *bytes;
    stun_types_key *key;
    stun_types_validated *validated;
    row("stun_types_add_hmac", "both attributes");
    written = NEW(size_t);
    bytes = begun(96, written);
    key = password_key(text("pass"));
    validated = NEW(stun_types_validated);
    for (i = 0; i < COUNT(algorithms); i++) {
        stun_types_covered covered = next_of(bytes, 96, *written, algorithms[i]);
        stun_types_hmac hmac = own_hmac_of(key, &covered, bytes);
        CHECK(covered.length == *written && covered.algorithm == algorithms[i]);
        CHECK(covered.first[3] == *written + (i == 0 ? 24 : 36) - 20);
        ANSWERS(stun_types_add_hmac(bytes, 96, written, given_covered(covered), given_hmac(hmac)),
                OK_ANSWER);
        ANSWERS(stun_types_validate(bytes, *written, key, validated), OK_ANSWER);
        CHECK(validated->algorithm == algorithms[i]);
    }
    CHECK(*written == 88 && is_untouched(bytes + 88, 8));
    ANSWERS(stun_types_add_fingerprint(bytes, 96, written), OK_ANSWER);
    ANSWERS(stun_types_parse(bytes, *written), OK_ANSWER);
    stun_types_key_free(key);
}

/* What was reported before something was added, of another message, or by another algorithm. */
static void test_stale(void) {
    const stun_types_answer bad = PLAIN(STUN_TYPES_BAD_ARGUMENT);
    size_t *written, at;
    uint8_t *bytes;
    stun_types_covered covered, other;
    stun_types_hmac hmac;
    row("stun_types_add_hmac", "after another add");
    written = NEW(size_t);
    bytes = begun(120, written);
    covered = next_of(bytes, 120, *written, SHA1);
    hmac = hmac_by(SHA1, covered.first, bytes, *written);
    ANSWERS(stun_types_add(bytes, 120, written, STUN_TYPES_ATTRIBUTE_SOFTWARE, "", 0), OK_ANSWER);
    check_not_added(bytes, 120, written, covered, hmac, bad);
    ANSWERS(stun_types_add_fingerprint(bytes, 120, written), OK_ANSWER);
    check_not_added(bytes, 120, written, covered, hmac, bad);
    row("stun_types_add_hmac", "a message of another type");
    written = NEW(size_t);
    bytes = begun(120, written);
    covered = next_of(bytes, 120, *written, SHA1);
    bytes[0] = 1;
    check_not_added(bytes, 120, written, covered, hmac, bad);
    row("stun_types_add_hmac", "once more");
    written = NEW(size_t);
    bytes = begun(120, written);
    covered = next_of(bytes, 120, *written, SHA256);
    hmac = hmac_by(SHA256, covered.first, bytes, *written);
    ANSWERS(stun_types_add_hmac(bytes, 120, written, given_covered(covered), given_hmac(hmac)),
            OK_ANSWER);
    check_not_added(bytes, 120, written, covered, hmac, bad);
    row("stun_types_add_hmac", "an HMAC by the other algorithm");
    written = NEW(size_t);
    bytes = begun(120, written);
    covered = next_of(bytes, 120, *written, SHA256);
    check_not_added(bytes, 120, written, covered, zeros_by(SHA1), bad);
    check_not_added(bytes, 120, written, next_of(bytes, 120, *written, SHA1), zeros_by(SHA256), bad);
    row("stun_types_add_hmac", "each byte of what was reported changed");
    written = NEW(size_t);
    bytes = begun(120, written);
    covered = next_of(bytes, 120, *written, SHA256);
    for (at = 0; at < sizeof covered; at++) {
        other = covered;
        ((uint8_t *)&other)[at] ^= 1;
        check_not_added(bytes, 120, written, other, zeros_by(SHA256), bad);
    }
    memset(&other, 0, sizeof other);
    check_not_added(bytes, 120, written, other, zeros_by(SHA256), bad);
    check_not_added(bytes, 120, written, other, zeros_by(ANY), bad);
}

/* Algorithms that are none, also if both say the same. */
static void test_bad_algorithms(void) {
    static const uint32_t algorithms[] = {0, 1, 2, 0x8028, 0x00080000, UINT32_MAX};
    size_t *written, i;
    for (i = 0; i < COUNT(algorithms); i++) {
        uint8_t *bytes;
        stun_types_covered covered;
        row("stun_types_add_hmac", "no algorithm");
        written = NEW(size_t);
        bytes = begun(120, written);
        check_not_next(bytes, 120, *written, algorithms[i], PLAIN(STUN_TYPES_BAD_ARGUMENT));
        covered = next_of(bytes, 120, *written, SHA1);
        covered.algorithm = (stun_types_integrity)algorithms[i];
        check_not_added(bytes, 120, written, covered, zeros_by(covered.algorithm),
                        PLAIN(STUN_TYPES_BAD_ARGUMENT));
    }
}

/* What is reported of an attribute that may not be added: the order and the room are tested last. */
static stun_types_covered forged(const uint8_t *bytes, size_t written, stun_types_integrity algorithm) {
    size_t length = written - 20 + (algorithm == SHA1 ? 24 : 36);
    stun_types_covered covered;
    memset(&covered, 0, sizeof covered);
    covered.algorithm = algorithm;
    covered.first[0] = bytes[0];
    covered.first[1] = bytes[1];
    covered.first[2] = (uint8_t)(length >> 8);
    covered.first[3] = (uint8_t)length;
    covered.length = written;
    return covered;
}

/* That neither half takes the next attribute, by this answer. */
static void check_refused(uint8_t *bytes, size_t size, size_t *written, stun_types_integrity algorithm,
                          stun_types_answer expected) {
    check_not_next(bytes, size, *written, algorithm, expected);
    check_not_added(bytes, size, written, forged(bytes, *written, algorithm), zeros_by(algorithm),
                    expected);
}

static void test_refused(void) {
    static uint8_t value[65512];
    size_t *written;
    uint8_t *bytes;
    stun_types_key *key;
    row("stun_types_add_hmac", "after a FINGERPRINT, and in no room");
    written = NEW(size_t);
    bytes = begun(40, written);
    ANSWERS(stun_types_add_fingerprint(bytes, 40, written), OK_ANSWER);
    check_refused(bytes, 40, written, SHA1, OF_TYPE(STUN_TYPES_EXISTS, 0x8028));
    check_refused(bytes, 40, written, SHA256, OF_TYPE(STUN_TYPES_EXISTS, 0x8028));
    row("stun_types_add_hmac", "after itself");
    written = NEW(size_t);
    bytes = begun(200, written);
    key = password_key(text("pass"));
    ANSWERS(stun_types_add_integrity(bytes, 200, written, key, SHA1), OK_ANSWER);
    check_refused(bytes, 200, written, SHA1, OF_TYPE(STUN_TYPES_EXISTS, 0x0008));
    ANSWERS(stun_types_add_integrity(bytes, 200, written, key, SHA256), OK_ANSWER);
    check_refused(bytes, 200, written, SHA256, OF_TYPE(STUN_TYPES_EXISTS, 0x001C));
    stun_types_key_free(key);
    row("stun_types_add_hmac", "in no room");
    written = NEW(size_t);
    bytes = begun(51, written);
    check_refused(bytes, 51, written, SHA1, LENGTHS(STUN_TYPES_TOO_SMALL, 52, 51));
    check_refused(bytes, 51, written, SHA256, LENGTHS(STUN_TYPES_TOO_SMALL, 64, 51));
    row("stun_types_add_hmac", "to a message that is full");
    written = NEW(size_t);
    bytes = begun(70000, written);
    ANSWERS(stun_types_add(bytes, 70000, written, STUN_TYPES_ATTRIBUTE_DATA, value, sizeof value),
            OK_ANSWER);
    check_refused(bytes, 70000, written, SHA1, LENGTHS(STUN_TYPES_TOO_LARGE, 65555, *written + 24));
    check_refused(bytes, 70000, written, SHA256, LENGTHS(STUN_TYPES_TOO_LARGE, 65555, *written + 36));
}

/* What is there is tested first. */
static void test_broken(void) {
    static const struct {
        const char *name, *bytes;
        size_t size, written;
    } broken[] = {
        {"nothing is written", "0001 0000 2112A442 00*12", 100, 0},
        {"more than there is room", "0001 0000 2112A442 00*12", 20, 21},
        {"the greatest number of bytes", "0001 0000 2112A442 00*12", 20, SIZE_MAX},
        {"a length field of more", "0001 0004 2112A442 00*12", 100, 20},
        {"an attribute that is cut", "0001 0008 2112A442 00*12 80220005 61626364", 100, 28},
    };
    size_t i;
    for (i = 0; i < COUNT(broken); i++) {
        slice begins;
        uint8_t *bytes;
        size_t *written;
        stun_types_covered covered;
        row("stun_types_add_hmac, to no message", broken[i].name);
        begins = hex(broken[i].bytes);
        bytes = room(broken[i].size);
        memcpy(bytes, begins.bytes, begins.length);
        written = NEW(size_t);
        *written = broken[i].written;
        check_not_next(bytes, broken[i].size, *written, SHA1, PLAIN(STUN_TYPES_BAD_ARGUMENT));
        covered = forged(bytes, begins.length, SHA1);
        covered.length = broken[i].written;
        check_not_added(bytes, broken[i].size, written, covered, zeros_by(SHA1),
                        PLAIN(STUN_TYPES_BAD_ARGUMENT));
    }
}

/* What the program itself writes in between isn't noticed: the HMAC is added, and is wrong. */
static void test_not_noticed(void) {
    size_t *written;
    uint8_t *bytes;
    stun_types_key *key;
    stun_types_covered covered;
    stun_types_hmac hmac;
    stun_types_validated *validated;
    row("stun_types_add_hmac", "another transaction ID");
    written = NEW(size_t);
    bytes = begun(100, written);
    key = password_key(text("pass"));
    covered = next_of(bytes, 100, *written, SHA1);
    hmac = own_hmac_of(key, &covered, bytes);
    bytes[19] ^= 1;
    ANSWERS(stun_types_add_hmac(bytes, 100, written, given_covered(covered), given_hmac(hmac)),
            OK_ANSWER);
    validated = NEW(stun_types_validated);
    ANSWERS(stun_types_validate(bytes, *written, key, validated), PLAIN(STUN_TYPES_INTEGRITY_FAILED));
    stun_types_key_free(key);
}

void test_hmacs(void) {
    test_covered();
    test_taken();
    test_bad_hmacs();
    test_added();
    test_stale();
    test_bad_algorithms();
    test_refused();
    test_broken();
    test_not_noticed();
}
