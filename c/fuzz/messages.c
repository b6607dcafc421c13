/* Messages by the model: right ones, changed ones, and those of credentials. */
#include <string.h>

#include "fuzz.h"

void put_length(text *message) {
    message->bytes[2] = (uint8_t)((message->length - 20) >> 8);
    message->bytes[3] = (uint8_t)(message->length - 20);
}

void cut(text *message, size_t length) {
    message->length = length;
    put_length(message);
}

void start(text *message, unsigned type, const uint8_t *id) {
    static const uint8_t cookie[4] = {0x21, 0x12, 0xA4, 0x42};
    message->bytes[0] = (uint8_t)(type >> 8);
    message->bytes[1] = (uint8_t)type;
    memcpy(message->bytes + 4, cookie, 4);
    memcpy(message->bytes + 8, id, 12);
    message->length = 20;
    put_length(message);
}

void append(text *message, unsigned type, const void *value, size_t length) {
    uint8_t *at = message->bytes + message->length;
    memset(at, 0, 4 + model_padded(length));
    at[0] = (uint8_t)(type >> 8);
    at[1] = (uint8_t)type;
    at[2] = (uint8_t)(length >> 8);
    at[3] = (uint8_t)length;
    if (length != 0) memcpy(at + 4, value, length);
    message->length += 4 + model_padded(length);
    put_length(message);
}

void sign_cut(text *message, stun_types_integrity algorithm, const model_key *key, size_t length) {
    uint8_t hmac[40] = {0};
    model_hmac(message->bytes, message->length, length, algorithm, key, hmac);
    append(message, algorithm == STUN_TYPES_INTEGRITY_SHA1 ? 0x0008 : 0x001C, hmac, length);
}

void sign(text *message, stun_types_integrity algorithm, const model_key *key) {
    sign_cut(message, algorithm, key, algorithm == STUN_TYPES_INTEGRITY_SHA1 ? 20 : 32);
}

void finger(text *message) {
    uint32_t told = model_fingerprint(message->bytes, message->length);
    uint8_t value[4];
    value[0] = (uint8_t)(told >> 24);
    value[1] = (uint8_t)(told >> 16);
    value[2] = (uint8_t)(told >> 8);
    value[3] = (uint8_t)told;
    append(message, 0x8028, value, 4);
}

/* Whether a written attribute of this type blocks the addition of one. */
static bool blocks(unsigned written, unsigned type) {
    if (type == 0x8028) return written == 0x8028;
    if (type == 0x001C) return written == 0x001C || written == 0x8028;
    return model_is_ending(written);
}

stun_types_answer refusal_of(const text *written, size_t size, unsigned type, size_t length) {
    size_t grown = written->length + 4 + model_padded(length), at = 20;
    while (at < written->length) {
        unsigned there = model_number(written->bytes + at);
        if (blocks(there, type)) {
            if (there == 0x001C && !model_is_ending(type)) there = 0x0008;
            return model_answer(STUN_TYPES_EXISTS, there, 0, 0);
        }
        at += 4 + model_padded(model_number(written->bytes + at + 2));
    }
    if (grown > size) return model_answer(STUN_TYPES_TOO_SMALL, 0, grown, size);
    if (grown > MODEL_MOST) return model_answer(STUN_TYPES_TOO_LARGE, 0, MODEL_MOST, grown);
    return FINE;
}

stun_types_answer ended(text *wanted, size_t size, stun_types_integrity algorithm,
                        const model_key *key, bool is_fingered) {
    size_t length = algorithm == STUN_TYPES_INTEGRITY_SHA1 ? 20 : 32;
    stun_types_answer fault = refusal_of(wanted, size, algorithm, length);
    if (fault.code != STUN_TYPES_OK) return fault;
    sign(wanted, algorithm, key);
    if (!is_fingered) return FINE;
    fault = refusal_of(wanted, size, 0x8028, 4);
    if (fault.code == STUN_TYPES_OK) finger(wanted);
    return fault;
}

/* ---- messages that are right, and changed */

void seed(text *message, unsigned which) {
    static const uint8_t id[12]
        = {0xB7, 0xE7, 0xA7, 1, 0xBC, 0x34, 0xD6, 0x86, 0xFA, 0x87, 0xDF, 0xAE};
    static const uint8_t v4[] = {0, 1, 0xA1, 0x47, 0xE1, 0x12, 0xA6, 0x43};
    static const uint8_t v6[20] = {0, 2, 0xA1, 0x47, 1, 0x13, 0xA9, 0xFA};
    static const uint8_t priority[] = {0x6E, 0, 1, 0xFF}, unknown[] = {0, 0x1D, 0x7F, 0xFF};
    static const uint8_t list[] = {0, 2, 0, 0, 0, 1, 0, 0};
    uint8_t error[768] = {0, 0, 4, 20};
    unsigned i;
    switch (which % 6) {
    case 0: /* a connectivity check */
        start(message, 0x0001, id);
        append(message, 0x0006, "evtj:h6vY", 9);
        append(message, 0x0024, priority, sizeof priority);
        sign(message, STUN_TYPES_INTEGRITY_SHA1, &pairs[PASSWORD].model);
        break;
    case 1: /* one that is signed by both */
        start(message, 0x0001, id);
        append(message, 0x0006, "evtj:h6vY", 9);
        sign(message, STUN_TYPES_INTEGRITY_SHA1, &pairs[PASSWORD].model);
        sign(message, STUN_TYPES_INTEGRITY_SHA256, &pairs[PASSWORD].model);
        break;
    case 2: /* a success response */
        start(message, 0x0101, id);
        append(message, 0x0020, v4, sizeof v4);
        append(message, 0x0020, v6, sizeof v6);
        append(message, 0x8023, v4, sizeof v4);
        append(message, 0x8022, "stun-types", 10);
        break;
    case 3: /* a challenge */
        start(message, 0x0111, id);
        append(message, 0x0009, "\0\0\4\1no", 6);
        append(message, 0x0014, "example.org", 11);
        append(message, 0x0015, "obMatJos2wAAA1790", 17);
        append(message, 0x8002, list, sizeof list);
        break;
    case 4: /* an error of unknown attributes */
        start(message, 0x0111, id);
        memset(error + 4, 'e', sizeof error - 4);
        append(message, 0x0009, error, which / 256 % 8 == 7 ? 767 + which / 2048 % 2 : 11);
        append(message, 0x000A, unknown, sizeof unknown);
        sign(message, STUN_TYPES_INTEGRITY_SHA256, &pairs[PASSWORD].model);
        break;
    default: /* many attributes */
        start(message, 0x0001, id);
        for (i = 0; i < which / 6 % 300; i++) append(message, 0x8000 + i, "abcdefgh", i % 9);
    }
    if (which / 64 % 2 == 0) finger(message);
}

/* Moves what follows an offset, so that there are more bytes or fewer. */
static void shift(text *message, size_t at, size_t removed, size_t added) {
    if (at + removed > message->length || message->length + added > MODEL_MOST) return;
    memmove(message->bytes + at + added, message->bytes + at + removed,
            message->length - at - removed);
    message->length = message->length - removed + added;
}

void change(text *message, source *from) {
    unsigned changes, i;
    changes = take(from) % 5;
    for (i = 0; i < changes; i++) {
        unsigned how = take(from) % 8;
        size_t at = message->length == 0 ? 0 : take_two(from) % message->length;
        if (message->length == 0) break;
        switch (how) {
        case 0: message->bytes[at] = (uint8_t)take(from); break;
        case 1: message->bytes[at] ^= (uint8_t)(1u << take(from) % 8); break;
        case 2: message->length = at; break;
        case 3:
            if (message->length >= 20) append(message, take_two(from), "12345678", take(from) % 9);
            break;
        case 4: shift(message, at / 4 * 4, 4, 0); break;
        case 5: shift(message, at / 4 * 4, 0, 4); break;
        case 6:
            if (message->length < 20) break;
            how = take(from);
            if (how % 2 == 0) sign(message, STUN_TYPES_INTEGRITY_SHA1, &pairs[PASSWORD].model);
            else
                sign_cut(message, STUN_TYPES_INTEGRITY_SHA256, &pairs[PASSWORD].model,
                         how / 2 % 4 == 3 ? 16 + how / 8 % 17 : 32);
            break;
        default:
            if (message->length >= 20) finger(message);
        }
    }
    if (message->length >= 20 && take(from) % 4 != 0) put_length(message);
}

/* ---- messages of credentials */

/* Adds the integrity attributes that the input chooses, and a FINGERPRINT. */
static void take_ending(text *message, source *from) {
    unsigned how = take(from), which = take(from);
    const model_key *key = &pairs[which % 8 < 6 ? PASSWORD + which % 8 : which % PAIRS].model;
    if (!key->is_there) key = &pairs[SECRET].model;
    if (how % 4 == 1 || how % 4 == 2) sign(message, STUN_TYPES_INTEGRITY_SHA1, key);
    if (how % 4 == 2 || how % 4 == 3)
        sign_cut(message, STUN_TYPES_INTEGRITY_SHA256, key,
                 how / 16 % 4 != 3 ? 32
                 : how / 64 == 3   ? which % 40
                                   : how / 64 * 4 + 16u);
    if (how / 4 % 2 == 0) finger(message);
    if (how / 8 % 16 == 15) change(message, from);
}

static const char *const NONCES[] = {"obMatJos2AAAAx", "obMatJos2gAAAx", "obMatJos2QAAAx",
                                     "obMatJos2wAAAx", "obMatJos2g!AAx", "nonce"};

/* Adds NONCE, and PASSWORD-ALGORITHMS and PASSWORD-ALGORITHM as it promises them or not. */
static void take_nonce(text *message, source *from, bool is_request) {
    static const uint8_t lists[][8] = {{0, 2, 0, 0, 0, 1, 0, 0},
                                       {0, 1, 0, 0, 0, 2, 0, 0},
                                       {0, 3, 0, 0, 0, 2, 0, 0},
                                       {0, 1, 0, 4, 0, 2, 0, 0}};
    unsigned how = take(from), list = take(from);
    const char *nonce = NONCES[how % COUNT(NONCES)];
    if (how % 16 != 15) append(message, 0x0015, nonce, strlen(nonce));
    if (list % 4 == 0) return;
    append(message, 0x8002, lists[list / 4 % 4], list % 4 == 1 ? 4 : 8);
    if (!is_request || list / 16 % 4 == 3) return;
    append(message, 0x001D, lists[list / 64], list / 16 % 4 == 2 ? 8 : 4);
}

void take_request(text *message, source *from) {
    static const unsigned types[] = {0x0001, 0x0003, 0x0004, 0x0011};
    uint8_t id[12], hash[32];
    const model_text names[] = {{(const uint8_t *)"user", 4}, {(const uint8_t *)"realm", 5}};
    unsigned how = take(from), type = take(from);
    take_bytes(from, id, 4);
    memcpy(id + 4, "12345678", 8);
    start(message, type % 32 == 31 ? take_two(from) & 0x3FFF : types[type % 4 * (type / 4 % 2)],
          id);
    if (how % 8 != 7) append(message, 0x0006, "user", 4);
    if (how % 8 >= 6)
        append(message, 0x001E, hash, model_digest(STUN_TYPES_PASSWORD_SHA256, names, 2, hash));
    if (how / 8 % 4 != 3) append(message, 0x0014, "realm", 5);
    if (how / 32 != 7) take_nonce(message, from, true);
    take_ending(message, from);
}

void take_response(text *message, source *from, unsigned method, const uint8_t *id) {
    static const uint8_t address[] = {0, 1, 0xA1, 0x47, 0xE1, 0x12, 0xA6, 0x43};
    static const uint8_t codes[][2] = {{4, 1}, {4, 38}, {4, 0}, {3, 0}, {4, 20}, {5, 0}, {7, 0}};
    static const uint16_t others[]
        = {0x7FFE, 0x7FFF, 0x8000, 0x0001, 0x0006, 0x000A, 0x001D, 0x001E};
    unsigned how = take(from), type = take(from);
    uint8_t error[6] = {0, 0, 0, 0, 'n', 'o'}, realm[764];
    memset(realm, 'r', sizeof realm);
    start(message, (type % 4 == 0 ? 0x0101u : 0x0111u) | method, id);
    if (type % 16 == 15) start(message, take_two(from) & 0x3FFF, id);
    memcpy(error + 2, codes[how / 8 % COUNT(codes)], 2);
    if (how % 8 != 7 && type % 4 != 0) append(message, 0x0009, error, sizeof error);
    if (how % 8 != 6) append(message, 0x0020, address, sizeof address);
    if (how % 32 == 30) append(message, 0x0014, realm, 763 + type / 16 % 2);
    if (type / 16 % 4 != 3) append(message, 0x0014, "realm", 5);
    if (type / 16 % 4 != 2) take_nonce(message, from, false);
    if (how % 32 == 31)
        append(message, type < 192 ? others[type % COUNT(others)] : take_two(from), "12345678", 8);
    take_ending(message, from);
}
