/* The functions of ../stun_bench.h by coturn's library for clients (Debian: coturn, which has libturnclient.a). Its
   digests are OpenSSL's. It checks a message in place, and looks attributes up in its bytes; a password is its own
   short-term key. What begins a message also draws a transaction ID, so a ready header is copied instead. */
#include <string.h>
#include <turn/ns_turn_msg.h>

#include "../stun_bench.h"

static const uint8_t HEADER[20] = {0, 1, 0, 0, 0x21, 0x12, 0xA4, 0x42, 1, 2, 3, 4, 5, 6, 7, 8, 9, 10, 11, 12};

static uint64_t number(const uint8_t *bytes) {
    return (uint64_t)bytes[0] << 24 | (uint64_t)bytes[1] << 16 | (uint64_t)bytes[2] << 8 | bytes[3];
}

static int is_message(const uint8_t *message, size_t length) {
    int has_fingerprint;
    return stun_is_command_message_full_check_str(message, length, 1, &has_fingerprint);
}

uint64_t stun_bench_parse(const uint8_t *message, size_t length) {
    return is_message(message, length) ? (uint64_t)1 << 40 | number(message) : 0;
}

/* The offset of an attribute, or 0. */
static uint64_t offset_of(const uint8_t *message, size_t length, uint16_t type) {
    stun_attr_ref found = stun_attr_get_first_by_type_str(message, length, type);
    return found ? (const uint8_t *)found - message : 0;
}

/* A password as coturn takes it, which ends with a zero. */
static void put_password(password_t to, const uint8_t *password, size_t length) {
    memset(to, 0, sizeof(password_t));
    memcpy(to, password, length);
}

uint64_t stun_bench_receive(const uint8_t *message, size_t length, const uint8_t *password, size_t password_length,
                            uint64_t rounds) {
    password_t word;
    hmackey_t unused = {0};
    uint8_t copy[2048];
    uint64_t sum = 0;
    if (length > sizeof copy || password_length >= sizeof word) return UINT64_MAX;
    memcpy(copy, message, length);
    put_password(word, password, password_length);
    while (rounds--) {
        int right = is_message(copy, length) ? stun_check_message_integrity_by_key_str(
            TURN_CREDENTIALS_SHORT_TERM, copy, length, unused, word, SHATYPE_SHA1) : -1;
        sum += right == 1 ? 1 : right == 0 ? 3 : 4;
        sum += offset_of(copy, length, STUN_ATTRIBUTE_USERNAME) << 8;
        sum += offset_of(copy, length, STUN_ATTRIBUTE_PRIORITY) << 24;
    }
    return sum;
}

static size_t write_check(const uint8_t *user, size_t user_length, password_t password, uint8_t *destination) {
    static const uint8_t priority[] = {0x6E, 0x00, 0x01, 0xFF};
    static const uint8_t controlled[] = {0x93, 0x2F, 0xF9, 0xB1, 0x51, 0x26, 0x3B, 0x36};
    hmackey_t unused = {0};
    size_t length = sizeof HEADER;
    memcpy(destination, HEADER, sizeof HEADER);
    stun_attr_add_str(destination, &length, STUN_ATTRIBUTE_USERNAME, user, (int)user_length);
    stun_attr_add_str(destination, &length, STUN_ATTRIBUTE_PRIORITY, priority, sizeof priority);
    stun_attr_add_str(destination, &length, 0x8029, controlled, sizeof controlled);
    stun_attr_add_integrity_str(TURN_CREDENTIALS_SHORT_TERM, destination, &length, unused, password, SHATYPE_SHA1);
    return stun_attr_add_fingerprint_str(destination, &length) < 0 ? 0 : length;
}

uint64_t stun_bench_write_slice(const uint8_t *user, size_t user_length, const uint8_t *password, size_t password_length,
                                uint32_t algorithm, uint8_t *destination, size_t destination_length, uint64_t rounds) {
    password_t word;
    uint64_t sum = 0;
    if (algorithm != 1 || password_length >= sizeof word || destination_length < 65536) return UINT64_MAX;
    put_password(word, password, password_length);
    while (rounds--) {
        size_t length = write_check(user, user_length, word, destination);
        if (length < 20) return UINT64_MAX;
        sum += (uint64_t)length << 32 | number(destination + length - 4);
    }
    return sum;
}

uint64_t stun_bench_long_key(const uint8_t *user, size_t user_length, const uint8_t *realm, size_t realm_length,
                             const uint8_t *password, size_t password_length, uint32_t algorithm) {
    uint8_t words[3][64] = {{0}};
    hmackey_t keys[2] = {{0}};
    SHATYPE type = algorithm == 1 ? SHATYPE_SHA1 : SHATYPE_SHA256;
    if (user_length >= 64 || realm_length >= 64 || password_length >= 64) return UINT64_MAX;
    memcpy(words[0], user, user_length);
    memcpy(words[1], realm, realm_length);
    memcpy(words[2], password, password_length);
    for (int i = 0; i < 2; i++)
        if (stun_produce_integrity_key_str(words[0], words[1], words[2], keys[i], type) < 0) return 0;
    return memcmp(keys[0], keys[1], sizeof keys[0]) == 0;
}
