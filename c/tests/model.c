#include "model.h"

#include <stdlib.h>
#include <string.h>

#include "model_keys.h"
#include "reference.h"

static const uint8_t COOKIE[4] = {0x21, 0x12, 0xA4, 0x42};

#define OK STUN_TYPES_OK
#define NOT_STUN STUN_TYPES_NOT_STUN
#define TRUNCATED STUN_TYPES_TRUNCATED

stun_types_answer model_answer(uint32_t code, uint32_t type, uint64_t expected, uint64_t actual) {
    stun_types_answer answer;
    answer.code = code;
    answer.type = type;
    answer.expected = expected;
    answer.actual = actual;
    return answer;
}

size_t model_padded(size_t length) { return (length + 3) / 4 * 4; }

unsigned model_number(const uint8_t *bytes) { return (unsigned)bytes[0] << 8 | bytes[1]; }

bool model_is_ending(unsigned type) { return type == 0x0008 || type == 0x001C || type == 0x8028; }

bool model_is_xored(unsigned type) { return type == 0x0012 || type == 0x0016 || type == 0x0020; }

bool model_is_plain(unsigned type) {
    return type == 0x0001 || type == 0x8023 || type == 0x802B || type == 0x802C;
}

/* "The first byte is 64 or more, or what is there of bytes 4 to 7 differs from the cookie." */
static bool may_begin(const uint8_t *bytes, size_t length) {
    size_t i;
    if (length > 0 && bytes[0] >= 64) return false;
    for (i = 4; i < 8 && i < length; i++)
        if (bytes[i] != COOKIE[i - 4]) return false;
    return true;
}

stun_types_answer model_header(const uint8_t *bytes, size_t length) {
    if (!may_begin(bytes, length)) return model_answer(NOT_STUN, 0, 0, 0);
    if (length < 20) return model_answer(TRUNCATED, 0, 20, length);
    return model_answer(OK, 0, 0, 0);
}

stun_types_answer model_framed(const uint8_t *bytes, size_t length, size_t *message_length) {
    stun_types_answer header = model_header(bytes, length);
    if (header.code == NOT_STUN) return header;
    *message_length = header.code == OK ? 20 + model_number(bytes + 2) : 0;
    return model_answer(OK, 0, 0, 0);
}

static stun_types_answer length_fault(const uint8_t *bytes, size_t length) {
    size_t stated = 20 + model_number(bytes + 2);
    if (length < stated) return model_answer(TRUNCATED, 0, stated, length);
    if (length > stated) return model_answer(STUN_TYPES_TOO_LARGE, 0, stated, length);
    return model_answer(OK, 0, 0, 0);
}

/* Why no attribute begins at an offset. */
static stun_types_answer attribute_fault(const uint8_t *bytes, size_t length, size_t at) {
    size_t value_length;
    if (length - at < 4) return model_answer(TRUNCATED, 0, at + 8, length + 4);
    value_length = model_number(bytes + at + 2);
    if (length - at < 4 + value_length)
        return model_answer(TRUNCATED, 0, at + 4 + value_length, length);
    if (length - at < 4 + model_padded(value_length))
        return model_answer(TRUNCATED, 0, at + 4 + model_padded(value_length), length);
    return model_answer(OK, 0, 0, 0);
}

/* (a message is looked at several times, so the last value is kept) */
uint32_t model_fingerprint(const uint8_t *bytes, size_t at) {
    static uint8_t covered[70000], last[70000];
    static size_t last_at;
    static uint32_t value;
    size_t stated = at + 8 - 20;
    memcpy(covered, bytes, at);
    covered[2] = (uint8_t)(stated >> 8);
    covered[3] = (uint8_t)stated;
    if (at != last_at || memcmp(covered, last, at) != 0) {
        value = checksum_of(covered, at) ^ 0x5354554E;
        memcpy(last, covered, at);
        last_at = at;
    }
    return value;
}

static stun_types_answer fingerprint_fault(const uint8_t *bytes, size_t at) {
    size_t length = model_number(bytes + at + 2);
    uint32_t received;
    if (length < 4) return model_answer(TRUNCATED, 0, 4, length);
    if (length > 4) return model_answer(STUN_TYPES_TOO_LARGE, 0, 4, length);
    received = (uint32_t)model_number(bytes + at + 4) << 16 | model_number(bytes + at + 6);
    return model_answer(received == model_fingerprint(bytes, at)
                            ? (uint32_t)OK
                            : (uint32_t)STUN_TYPES_FINGERPRINT_MISMATCH,
                        0, 0, 0);
}

stun_types_answer model_parse(const uint8_t *bytes, size_t length) {
    bool met[3] = {false, false, false};
    size_t at = 20;
    stun_types_answer fault = model_header(bytes, length);
    if (fault.code == OK) fault = length_fault(bytes, length);
    while (fault.code == OK && at < length) {
        unsigned type;
        fault = attribute_fault(bytes, length, at);
        if (fault.code != OK) break;
        type = model_number(bytes + at);
        if (model_is_ending(type)) {
            int which = type == 0x0008 ? 0 : type == 0x001C ? 1 : 2;
            if (met[which]) break;
            met[which] = true;
            if (type == 0x8028) fault = fingerprint_fault(bytes, at);
        } else if (met[0] || met[1] || met[2]) {
            break;
        }
        at += 4 + model_padded(model_number(bytes + at + 2));
    }
    return fault;
}

bool model_is_whole(const uint8_t *bytes, size_t length) {
    size_t at = 20;
    if (model_header(bytes, length).code != OK || length_fault(bytes, length).code != OK) return false;
    while (at < length) {
        if (attribute_fault(bytes, length, at).code != OK) return false;
        at += 4 + model_padded(model_number(bytes + at + 2));
    }
    return true;
}

/* Ordinary attributes come before the others, and these in this order. */
static int rank(unsigned type) {
    return type == 0x0008 ? 1 : type == 0x001C ? 2 : type == 0x8028 ? 3 : 0;
}

bool model_next_shown(const uint8_t *bytes, size_t length, size_t at, unsigned last,
                      stun_types_attribute *attribute) {
    unsigned type;
    if (model_header(bytes, length).code != OK || length_fault(bytes, length).code != OK) return false;
    if (at >= length || attribute_fault(bytes, length, at).code != OK) return false;
    type = model_number(bytes + at);
    if (rank(type) < rank(last) || (rank(type) == rank(last) && rank(type) != 0)) return false;
    attribute->value_at = at + 4;
    attribute->type = (uint16_t)type;
    attribute->length = (uint16_t)model_number(bytes + at + 2);
    return true;
}

void model_shown(const uint8_t *bytes, size_t length, model_list *shown) {
    size_t at = 20;
    unsigned last = 0;
    shown->count = 0;
    while (model_next_shown(bytes, length, at, last, &shown->all[shown->count])) {
        stun_types_attribute *one = &shown->all[shown->count++];
        at = one->value_at + model_padded(one->length);
        last = one->type;
    }
}

const stun_types_attribute *model_find(const model_list *shown, unsigned type) {
    size_t i;
    for (i = 0; i < shown->count; i++)
        if (shown->all[i].type == type) return &shown->all[i];
    return NULL;
}

bool model_serves(const model_key *key, uint32_t algorithm) {
    return key->algorithm == STUN_TYPES_INTEGRITY_ANY || key->algorithm == algorithm;
}

/* (kept as the value of a FINGERPRINT is) */
void model_hmac(const uint8_t *bytes, size_t at, size_t value_length, uint32_t algorithm,
                const model_key *key, uint8_t *hmac) {
    static uint8_t covered[70000], last[70000], value[32];
    static size_t last_at;
    static uint32_t last_algorithm;
    static model_key last_key;
    size_t stated = at + 4 + model_padded(value_length) - 20;
    memcpy(covered, bytes, at);
    covered[2] = (uint8_t)(stated >> 8);
    covered[3] = (uint8_t)stated;
    if (at != last_at || algorithm != last_algorithm || key->length != last_key.length
        || memcmp(key->bytes, last_key.bytes, key->length) != 0 || memcmp(covered, last, at) != 0) {
        model_hmac_of(algorithm, key, covered, at, value);
        memcpy(last, covered, at);
        last_at = at;
        last_algorithm = algorithm;
        last_key.length = key->length;
        memcpy(last_key.bytes, key->bytes, key->length);
    }
    memcpy(hmac, value, algorithm == STUN_TYPES_INTEGRITY_SHA1 ? 20 : 32);
}

static stun_types_answer hmac_fault(unsigned type, size_t length) {
    size_t least = type == 0x0008 ? 20 : 16, most = type == 0x0008 ? 20 : 32;
    if (length < least) return model_answer(TRUNCATED, 0, least, length);
    if (length > most) return model_answer(STUN_TYPES_TOO_LARGE, 0, most, length);
    return model_answer(length % 4 == 0 ? (uint32_t)OK : (uint32_t)STUN_TYPES_INVALID_DATA, 0, 0,
                        0);
}

bool model_is_hmac_length(uint32_t length) {
    return length == 0 || (length >= 16 && length <= 32 && length % 4 == 0);
}

bool model_is_policy(const stun_types_policy *policy) {
    return policy->reserved == 0 && model_is_hmac_length(policy->min_hmac_length)
        && (policy->algorithm == STUN_TYPES_INTEGRITY_ANY
            || policy->algorithm == STUN_TYPES_INTEGRITY_SHA1
            || policy->algorithm == STUN_TYPES_INTEGRITY_SHA256);
}

/* Whether the HMAC of an integrity attribute is right under a key, and long enough. */
static stun_types_answer checked(const uint8_t *bytes, const stun_types_attribute *attribute,
                                 const stun_types_policy *policy, const model_key *key) {
    size_t least = policy->min_hmac_length == 0 ? 32 : policy->min_hmac_length;
    uint8_t hmac[32];
    stun_types_answer fault = hmac_fault(attribute->type, attribute->length);
    if (fault.code != OK) return fault;
    model_hmac(bytes, attribute->value_at - 4, attribute->length, attribute->type, key, hmac);
    if (memcmp(hmac, bytes + attribute->value_at, attribute->length) != 0)
        return model_answer(STUN_TYPES_INTEGRITY_FAILED, 0, 0, 0);
    if (attribute->type == STUN_TYPES_INTEGRITY_SHA256 && attribute->length < least)
        return model_answer(STUN_TYPES_HMAC_TOO_SHORT, 0, least, attribute->length);
    return model_answer(OK, 0, 0, 0);
}

stun_types_answer model_validate(const uint8_t *bytes, size_t length,
                                 const stun_types_policy *policy, const model_key *key,
                                 stun_types_validated *validated) {
    static model_list shown;
    uint32_t algorithm = policy->algorithm;
    const stun_types_attribute *last = NULL;
    stun_types_answer fault = model_parse(bytes, length);
    memset(validated, 0, sizeof *validated);
    if (fault.code != OK) return fault;
    if (!model_is_policy(policy)) return model_answer(STUN_TYPES_BAD_ARGUMENT, 0, 0, 0);
    if (!key->is_there) return model_answer(STUN_TYPES_NO_KEY, 0, 0, 0);
    model_shown(bytes, length, &shown);
    if (policy->fingerprint != 0 && model_find(&shown, 0x8028) == NULL)
        return model_answer(STUN_TYPES_MISSING_ATTRIBUTE, 0x8028, 0, 0);
    if (algorithm == STUN_TYPES_INTEGRITY_ANY) algorithm = key->algorithm;
    if (!model_serves(key, algorithm)) return model_answer(STUN_TYPES_BAD_ARGUMENT, 0, 0, 0);
    if (algorithm != STUN_TYPES_INTEGRITY_SHA1) last = model_find(&shown, 0x001C);
    if (algorithm != STUN_TYPES_INTEGRITY_SHA256 && last == NULL) last = model_find(&shown, 0x0008);
    if (last == NULL) return model_answer(STUN_TYPES_MISSING_ATTRIBUTE, 0x0008, 0, 0);
    fault = checked(bytes, last, policy, key);
    if (fault.code != OK) return fault;
    validated->algorithm = (stun_types_integrity)last->type;
    validated->hmac_length = last->length;
    return fault;
}

stun_types_answer model_address(const uint8_t *value, size_t length, stun_types_address *address) {
    size_t wanted;
    if (length < 4) return model_answer(TRUNCATED, 0, 4, length);
    if (value[1] != 1 && value[1] != 2) return model_answer(STUN_TYPES_INVALID_DATA, 0, 0, 0);
    wanted = value[1] == 1 ? 8 : 20;
    if (length < wanted) return model_answer(TRUNCATED, 0, wanted, length);
    if (length > wanted) return model_answer(STUN_TYPES_TOO_LARGE, 0, wanted, length);
    memset(address, 0, sizeof *address);
    address->family = value[1] == 1 ? 4 : 6;
    address->port = (uint16_t)model_number(value + 2);
    memcpy(address->octets, value + 4, wanted - 4);
    return model_answer(OK, 0, 0, 0);
}

void model_xor(const uint8_t *bytes, stun_types_address *address) {
    size_t i;
    address->port ^= 0x2112;
    for (i = 0; i < (address->family == 4 ? 4u : 16u); i++) address->octets[i] ^= bytes[4 + i];
}

bool model_is_utf8(const uint8_t *bytes, size_t length) {
    size_t at = 0;
    while (at < length) {
        uint32_t point;
        size_t more, i;
        uint8_t first = bytes[at++];
        if (first < 0x80) continue;
        if (first >= 0xF8 || first < 0xC0) return false;
        more = first >= 0xF0 ? 3 : first >= 0xE0 ? 2 : 1;
        if (length - at < more) return false;
        point = first & (0x3Fu >> more);
        for (i = 0; i < more; i++) {
            if ((bytes[at] & 0xC0) != 0x80) return false;
            point = point << 6 | (bytes[at++] & 0x3F);
        }
        if (point < (more == 1 ? 0x80u : more == 2 ? 0x800u : 0x10000u)) return false;
        if (point > 0x10FFFF || (point >= 0xD800 && point <= 0xDFFF)) return false;
    }
    return true;
}

stun_types_answer model_error(const uint8_t *value, size_t length, uint16_t *code) {
    unsigned hundreds, number;
    if (length < 4) return model_answer(TRUNCATED, 0, 4, length);
    if (length > 767) return model_answer(STUN_TYPES_TOO_LARGE, 0, 767, length);
    hundreds = value[2] & 7;
    number = value[3];
    if (hundreds < 3 || hundreds > 6 || number > 99 || !model_is_utf8(value + 4, length - 4))
        return model_answer(STUN_TYPES_INVALID_DATA, 0, 0, 0);
    *code = (uint16_t)(hundreds * 100 + number);
    return model_answer(OK, 0, 0, 0);
}

/* Whether a stream that carries this has channels whose number begins with a byte (RFC 8656, section
   12, and RFC 5766, section 11). */
static bool is_carried(stun_types_stream_kind carries, uint8_t first) {
    if (carries == STUN_TYPES_STREAM_CHANNEL_DATA) return first >> 4 == 4;
    return carries == STUN_TYPES_STREAM_OLD_CHANNEL_DATA && first >> 6 == 1;
}

stun_types_answer model_cut(stun_types_stream_kind carries, const uint8_t *bytes, size_t length,
                            size_t buffer, size_t *message_length) {
    bool is_channel = length >= 1 && is_carried(carries, bytes[0]);
    size_t stated, i;
    *message_length = 0;
    if (length >= 1 && bytes[0] >= 64 && !is_channel) return model_answer(NOT_STUN, 0, 0, 0);
    if (length < 4) return model_answer(OK, 0, 0, 0);
    stated = model_number(bytes + 2);
    if (is_channel) {
        size_t whole = 4 + model_padded(stated);
        if (whole > buffer) return model_answer(STUN_TYPES_TOO_LARGE, 0, buffer, whole);
        if (length >= whole) *message_length = whole;
        return model_answer(OK, 0, 0, 0);
    }
    if (stated % 4 != 0) return model_answer(STUN_TYPES_NOT_PADDED, 0, 0, stated);
    if (20 + stated > buffer) return model_answer(STUN_TYPES_TOO_LARGE, 0, buffer, 20 + stated);
    for (i = 4; i < 8 && i < length; i++)
        if (bytes[i] != COOKIE[i - 4]) return model_answer(NOT_STUN, 0, 0, 0);
    if (length >= 20 + stated) *message_length = 20 + stated;
    return model_answer(OK, 0, 0, 0);
}
