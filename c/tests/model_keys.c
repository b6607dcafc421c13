#include "model_keys.h"

#include <string.h>

#include "reference.h"

enum { MOST = 70000 };

/* ---- digests */

static uint32_t little(const uint8_t *bytes) {
    return (uint32_t)bytes[3] << 24 | (uint32_t)bytes[2] << 16 | (uint32_t)bytes[1] << 8 | bytes[0];
}

/* The 32 bits after the point of the sines of 1 to 64 (RFC 1321, section 3.4). */
static const uint32_t SINES[64] = {
    0xd76aa478, 0xe8c7b756, 0x242070db, 0xc1bdceee, 0xf57c0faf, 0x4787c62a, 0xa8304613, 0xfd469501,
    0x698098d8, 0x8b44f7af, 0xffff5bb1, 0x895cd7be, 0x6b901122, 0xfd987193, 0xa679438e, 0x49b40821,
    0xf61e2562, 0xc040b340, 0x265e5a51, 0xe9b6c7aa, 0xd62f105d, 0x02441453, 0xd8a1e681, 0xe7d3fbc8,
    0x21e1cde6, 0xc33707d6, 0xf4d50d87, 0x455a14ed, 0xa9e3e905, 0xfcefa3f8, 0x676f02d9, 0x8d2a4c8a,
    0xfffa3942, 0x8771f681, 0x6d9d6122, 0xfde5380c, 0xa4beea44, 0x4bdecfa9, 0xf6bb4b60, 0xbebfbc70,
    0x289b7ec6, 0xeaa127fa, 0xd4ef3085, 0x04881d05, 0xd9d4d039, 0xe6db99e5, 0x1fa27cf8, 0xc4ac5665,
    0xf4292244, 0x432aff97, 0xab9423a7, 0xfc93a039, 0x655b59c3, 0x8f0ccc92, 0xffeff47d, 0x85845dd1,
    0x6fa87e4f, 0xfe2ce6e0, 0xa3014314, 0x4e0811a1, 0xf7537e82, 0xbd3af235, 0x2ad7d2bb, 0xeb86d391};

static void md5_block(uint32_t *state, const uint8_t *block) {
    static const unsigned shifts[4][4]
        = {{7, 12, 17, 22}, {5, 9, 14, 20}, {4, 11, 16, 23}, {6, 10, 15, 21}};
    uint32_t a = state[0], b = state[1], c = state[2], d = state[3];
    unsigned i;
    for (i = 0; i < 64; i++) {
        unsigned round = i / 16, by = shifts[round][i % 4];
        unsigned word = (round == 0   ? i
                         : round == 1 ? 5 * i + 1
                         : round == 2 ? 3 * i + 5
                                      : 7 * i)
                        % 16;
        uint32_t mixed = round == 0   ? (b & c) | (~b & d)
                         : round == 1 ? (d & b) | (~d & c)
                         : round == 2 ? b ^ c ^ d
                                      : c ^ (b | ~d);
        uint32_t sum = a + mixed + SINES[i] + little(block + 4 * word);
        a = d;
        d = c;
        c = b;
        b += sum << by | sum >> (32 - by);
    }
    state[0] += a;
    state[1] += b;
    state[2] += c;
    state[3] += d;
}

static void md5_of(const uint8_t *bytes, size_t length, uint8_t *result) {
    static uint8_t padded[MOST + 200];
    uint32_t state[4] = {0x67452301, 0xefcdab89, 0x98badcfe, 0x10325476};
    size_t all = (length + 9 + 63) / 64 * 64, at;
    unsigned i;
    memset(padded, 0, all);
    memcpy(padded, bytes, length);
    padded[length] = 0x80;
    for (i = 0; i < 8; i++) padded[all - 8 + i] = (uint8_t)((uint64_t)length * 8 >> 8 * i);
    for (at = 0; at < all; at += 64) md5_block(state, padded + at);
    for (i = 0; i < 16; i++) result[i] = (uint8_t)(state[i / 4] >> i % 4 * 8);
}

size_t model_digest(uint32_t algorithm, const model_text *texts, size_t count, uint8_t *result) {
    static uint8_t all[MOST];
    size_t length = 0, i;
    for (i = 0; i < count; i++) {
        if (i > 0) all[length++] = ':';
        if (texts[i].length != 0) memcpy(all + length, texts[i].bytes, texts[i].length);
        length += texts[i].length;
    }
    if (algorithm == STUN_TYPES_PASSWORD_MD5) {
        md5_of(all, length, result);
        return 16;
    }
    digest_of(2, all, length, result);
    return 32;
}

void model_hmac_of(uint32_t algorithm, const model_key *key, const uint8_t *bytes, size_t length,
                   uint8_t *hmac) {
    static uint8_t inner[64 + MOST];
    uint8_t outer[64 + 32] = {0};
    int which = algorithm == STUN_TYPES_INTEGRITY_SHA1 ? 1 : 2;
    unsigned i;
    if (key->length > 64) digest_of(which, key->bytes, key->length, outer);
    else memcpy(outer, key->bytes, key->length);
    for (i = 0; i < 64; i++) {
        inner[i] = outer[i] ^ 0x36;
        outer[i] ^= 0x5C;
    }
    if (length != 0) memcpy(inner + 64, bytes, length);
    digest_of(which, inner, 64 + length, outer + 64);
    digest_of(which, outer, which == 1 ? 64 + 20 : 64 + 32, hmac);
}

stun_types_answer model_long_term_key(const model_text *texts, uint32_t algorithm, model_key *key) {
    size_t i;
    if ((algorithm != STUN_TYPES_PASSWORD_MD5 && algorithm != STUN_TYPES_PASSWORD_SHA256)
        || texts[2].length == 0)
        return model_answer(STUN_TYPES_BAD_ARGUMENT, 0, 0, 0);
    for (i = 0; i < 3; i++)
        if (!model_is_utf8(texts[i].bytes, texts[i].length))
            return model_answer(STUN_TYPES_INVALID_DATA, 0, 0, 0);
    key->is_there = true;
    key->algorithm = STUN_TYPES_INTEGRITY_ANY;
    key->length = model_digest(algorithm, texts, 3, key->bytes);
    return model_answer(STUN_TYPES_OK, 0, 0, 0);
}

/* ---- nonces */

static const char BASE64[] = "ABCDEFGHIJKLMNOPQRSTUVWXYZabcdefghijklmnopqrstuvwxyz0123456789+/";

bool model_features(model_text nonce, uint32_t *features) {
    unsigned i;
    if (nonce.length < 13 || memcmp(nonce.bytes, "obMatJos2", 9) != 0) return false;
    for (i = 9; i < 13; i++)
        if (nonce.bytes[i] == 0 || strchr(BASE64, nonce.bytes[i]) == NULL) return false;
    /* the first two bits of the first six */
    i = (unsigned)(strchr(BASE64, nonce.bytes[9]) - BASE64);
    *features = (i >> 5 & 1) + 2 * (i >> 4 & 1);
    return true;
}

void model_cookie(uint32_t features, uint8_t *cookie) {
    memcpy(cookie, "obMatJos2AAAA", 13);
    cookie[9] = (uint8_t)BASE64[(features & 1) * 0x20 + (features >> 1 & 1) * 0x10];
}

stun_types_answer model_server_fault(const model_server *server) {
    uint32_t code = STUN_TYPES_OK;
    if (server->features > 3 || (server->client->family != 4 && server->client->family != 6))
        code = STUN_TYPES_BAD_ARGUMENT;
    else if (!server->secret->is_there) code = STUN_TYPES_NO_KEY;
    else if (server->secret->length < 16) code = STUN_TYPES_BAD_ARGUMENT;
    return model_answer(code, 0, 0, 0);
}

/* Three octets are four characters. */
static void base64(const uint8_t *bytes, size_t groups, uint8_t *characters) {
    for (; groups > 0; groups--, bytes += 3, characters += 4) {
        characters[0] = (uint8_t)BASE64[bytes[0] >> 2];
        characters[1] = (uint8_t)BASE64[(bytes[0] & 3) << 4 | bytes[1] >> 4];
        characters[2] = (uint8_t)BASE64[(bytes[1] & 15) << 2 | bytes[2] >> 6];
        characters[3] = (uint8_t)BASE64[bytes[2] & 63];
    }
}

void model_nonce(const model_server *server, uint64_t time, uint8_t *nonce) {
    size_t octets = server->client->family == 4 ? 4 : 16;
    uint8_t covered[19 + 20], mac[32], seconds[6], characters[8];
    unsigned i;
    model_cookie(server->features, covered);
    /* Of the last 48 bits the first 12 are two characters, and the others six. */
    for (i = 0; i < 6; i++) seconds[i] = (uint8_t)(time >> (40 - 8 * i));
    base64(seconds, 2, characters);
    memcpy(covered + 13, characters + 2, 6);
    covered[19] = 0;
    covered[20] = server->client->family == 4 ? 1 : 2;
    covered[21] = (uint8_t)(server->client->port >> 8);
    covered[22] = (uint8_t)server->client->port;
    memcpy(covered + 23, server->client->octets, octets);
    model_hmac_of(STUN_TYPES_INTEGRITY_SHA256, server->secret, covered, 23 + octets, mac);
    memcpy(nonce, covered, 19);
    base64(mac, 4, nonce + 19);
}

uint32_t model_nonce_state(const model_server *server, uint64_t now, model_text nonce) {
    uint8_t made[STUN_TYPES_NONCE_LENGTH];
    uint64_t time = 0;
    unsigned i;
    if (nonce.length != sizeof made) return STUN_TYPES_NONCE_UNKNOWN;
    for (i = 13; i < 19; i++) {
        const char *known = nonce.bytes[i] == 0 ? NULL : strchr(BASE64, nonce.bytes[i]);
        if (known == NULL) return STUN_TYPES_NONCE_UNKNOWN;
        time = time * 64 + (uint64_t)(known - BASE64);
    }
    model_nonce(server, time, made);
    if (memcmp(made, nonce.bytes, sizeof made) != 0) return STUN_TYPES_NONCE_UNKNOWN;
    return (now - time) % ((uint64_t)1 << 36) <= server->window ? STUN_TYPES_NONCE_VALID
                                                                    : STUN_TYPES_NONCE_STALE;
}
