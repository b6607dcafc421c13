/* Numbers, texts of codes, and what is for languages that read no macros. */
#include <string.h>

#include "fuzz.h"

/* The protocol of a first byte (RFC 7983, section 7; RFC 9443, section 3). */
static stun_types_protocol protocol(unsigned first) {
    if (first <= 3) return STUN_TYPES_PROTOCOL_STUN;
    if (first < 16) return STUN_TYPES_PROTOCOL_UNKNOWN;
    if (first < 20) return STUN_TYPES_PROTOCOL_ZRTP;
    if (first < 64) return STUN_TYPES_PROTOCOL_DTLS;
    if (first < 80) return STUN_TYPES_PROTOCOL_CHANNEL_DATA;
    return first >= 128 && first < 192 ? STUN_TYPES_PROTOCOL_RTP : STUN_TYPES_PROTOCOL_QUIC;
}

static void check_code_text(source *from) {
    uint32_t code = take_below(from, STUN_TYPES_OTHER_FAMILY + 2, 8);
    const char *wanted = stun_types_status_text(code);
    size_t length = strlen(wanted) + 1, size = take(from) % (length + 8);
    char *room = place(size);
    HOLDS(stun_types_text((stun_types_status)code, room, size) == length);
    if (size != 0) {
        size_t written = size < length ? size : length;
        HOLDS(memcmp(room, wanted, written - 1) == 0 && room[written - 1] == 0);
        HOLDS(is_filled(room + written, size - written));
    }
}

static void check_known_types(source *from) {
    static const uint16_t known[]
        = {0x0001, 0x0006, 0x0008, 0x0009, 0x000A, 0x0014, 0x0015, 0x001C, 0x001D, 0x001E, 0x0020};
    size_t room = take(from) % 16, i;
    uint16_t *types = place(room * sizeof *types);
    HOLDS(stun_types_known_types(types, room) == COUNT(known));
    for (i = 0; i < room && i < COUNT(known); i++) HOLDS(types[i] == known[i]);
    if (room > i) HOLDS(is_filled(types + i, (room - i) * sizeof *types));
}

/* The bits of the class are bits 4 and 8 of a type, and the method's twelve are the others of 14. */
static void check_message_type(source *from) {
    uint32_t class_number = take_below(from, 4, 4), method = take_four(from), type = 0, bit;
    for (bit = 0; bit < 12; bit++)
        type |= (method >> bit & 1) << (bit < 4 ? bit : bit < 7 ? bit + 1 : bit + 2);
    type |= (class_number & 1) << 4 | (class_number >> 1 & 1) << 8;
    HOLDS(stun_types_message_type((stun_types_class)class_number, (stun_types_method)method)
          == type);
}

static void check_macros(void) {
    static const stun_types_schedule schedule = STUN_TYPES_SCHEDULE;
    static const stun_types_cursor cursor = STUN_TYPES_CURSOR;
    const stun_types_schedule told = stun_types_schedule_default();
    const stun_types_cursor first = stun_types_cursor_first();
    const stun_types_key none = stun_types_key_none();
    HOLDS(memcmp(&told, &schedule, sizeof told) == 0);
    HOLDS(memcmp(&first, &cursor, sizeof first) == 0);
    HOLDS(none.at == NULL && none.held == 0);
    HOLDS(stun_types_version() == STUN_TYPES_VERSION);
}

/* A cookie of features, and the features of a nonce, as often with a cookie as not. */
static void check_cookie(source *from) {
    uint32_t sum = take_below(from, 5, 8), expected = 0, *features = NEW(uint32_t);
    stun_types_cookie *cookie = NEW(stun_types_cookie);
    stun_types_answer answer = stun_types_nonce_cookie(sum, cookie);
    uint8_t bytes[20];
    model_text nonce;
    bool is_there;
    HOLDS(is_same(answer, sum < 4 ? FINE : BAD_ARGUMENT));
    model_cookie(sum, bytes);
    if (sum < 4) HOLDS(memcmp(cookie->bytes, bytes, sizeof cookie->bytes) == 0);
    else HOLDS(is_filled(cookie, sizeof *cookie));
    if (sum < 4) {
        HOLDS(stun_types_security_features(cookie->bytes, sizeof cookie->bytes, features));
        HOLDS(*features == sum);
    }
    memset(bytes + 13, 'x', sizeof bytes - 13);
    nonce.length = take(from) % 2 == 0 ? 13 + take(from) % 8 : take(from) % (sizeof bytes + 1);
    if (nonce.length > sizeof bytes) nonce.length = sizeof bytes;
    if (take(from) % 2 == 0) bytes[take(from) % 13] = (uint8_t)take(from);
    nonce.bytes = copy_of(bytes, nonce.length);
    memset(features, FILL, sizeof *features);
    is_there = stun_types_security_features(nonce.bytes, nonce.length, features);
    HOLDS(is_there == model_features(nonce, &expected));
    if (is_there) HOLDS(*features == expected);
    else HOLDS(is_filled(features, sizeof *features));
}

void check_numbers(source *from) {
    unsigned first = take(from);
    HOLDS(stun_types_protocol_of((uint8_t)first) == protocol(first));
    check_code_text(from);
    check_known_types(from);
    check_message_type(from);
    check_macros();
    check_cookie(from);
}
