/* The functions of ../stun_bench.h by libre (Debian: libre-dev). Its digests are OpenSSL's. A decoded message is
   memory of its own, with a list of attributes, and counts the references to the buffer that it was received in. A
   password is its own short-term key. */
#include <stdbool.h>
#include <stdint.h>
#include <stdlib.h>
#include <string.h>
#include <sys/types.h>

#include <re.h>

#include "../stun_bench.h"

static const uint8_t ID[12] = {1, 2, 3, 4, 5, 6, 7, 8, 9, 10, 11, 12};

static uint64_t number(const uint8_t *bytes) {
    return (uint64_t)bytes[0] << 24 | (uint64_t)bytes[1] << 16 | (uint64_t)bytes[2] << 8 | bytes[3];
}

/* A message as it would be received. */
static struct mbuf *buffer_of(const uint8_t *bytes, size_t length) {
    struct mbuf *buffer = mbuf_alloc(length);
    if (!buffer || mbuf_write_mem(buffer, bytes, length)) abort();
    return buffer;
}

/* The message, if its FINGERPRINT is right. */
static struct stun_msg *decode(struct mbuf *buffer) {
    struct stun_unknown_attr unknown;
    struct stun_msg *message = NULL;
    buffer->pos = 0;
    if (stun_msg_decode(&message, buffer, &unknown) == 0 && stun_msg_chk_fingerprint(message) == 0) return message;
    return mem_deref(message);
}

uint64_t stun_bench_parses(const uint8_t *message, size_t length, uint64_t rounds) {
    struct mbuf *buffer = buffer_of(message, length);
    uint64_t sum = 0;
    while (rounds--) {
        struct stun_msg *decoded = decode(buffer);
        if (decoded) sum += (uint64_t)1 << 40 | number(message);
        mem_deref(decoded);
    }
    mem_deref(buffer);
    return sum;
}

/* An attribute doesn't know its offset: the first one is that of a USERNAME, the second follows it. */
static uint64_t received(struct mbuf *buffer, const uint8_t *password, size_t password_length) {
    struct stun_msg *decoded = decode(buffer);
    if (!decoded) return 4;
    const struct stun_attr *user = stun_msg_attr(decoded, STUN_ATTR_USERNAME);
    const struct stun_attr *priority = stun_msg_attr(decoded, STUN_ATTR_PRIORITY);
    uint64_t second = user ? 24 + (strlen(user->v.username) + 3) / 4 * 4 : 20;
    uint64_t verdict = stun_msg_chk_mi(decoded, password, password_length) == 0 ? 1 : 3;
    verdict += (user ? 20 << 8 : 0) + (priority ? second << 24 : 0);
    mem_deref(decoded);
    return verdict;
}

uint64_t stun_bench_receive(const uint8_t *message, size_t length, const uint8_t *password, size_t password_length,
                            uint64_t rounds) {
    struct mbuf *buffer = buffer_of(message, length);
    uint64_t sum = 0;
    while (rounds--) sum += received(buffer, password, password_length);
    mem_deref(buffer);
    return sum;
}

uint64_t stun_bench_write_slice(const uint8_t *user, size_t user_length, const uint8_t *password, size_t password_length,
                                uint32_t algorithm, uint8_t *destination, size_t destination_length, uint64_t rounds) {
    char name[64] = {0};
    const uint32_t priority = 0x6E0001FF;
    const uint64_t controlled = 0x932FF9B151263B36;
    struct mbuf *buffer = mbuf_alloc(256);
    uint64_t sum = 0;
    if (algorithm != 1 || user_length >= sizeof name) return UINT64_MAX;
    memcpy(name, user, user_length);
    while (rounds--) {
        mbuf_rewind(buffer);
        int error = stun_msg_encode(buffer, STUN_METHOD_BINDING, STUN_CLASS_REQUEST, ID, NULL, password, password_length,
                                    true, 0, 3, STUN_ATTR_USERNAME, name, STUN_ATTR_PRIORITY, &priority,
                                    STUN_ATTR_CONTROLLED, &controlled);
        if (error || buffer->end > destination_length) return UINT64_MAX;
        sum += (uint64_t)buffer->end << 32 | number(buffer->buf + buffer->end - 4);
    }
    memcpy(destination, buffer->buf, buffer->end);
    mem_deref(buffer);
    return sum;
}

uint64_t stun_bench_long_key(const uint8_t *user, size_t user_length, const uint8_t *realm, size_t realm_length,
                             const uint8_t *password, size_t password_length, uint32_t algorithm) {
    uint8_t keys[2][MD5_SIZE];
    if (algorithm != 1) return UINT64_MAX;
    for (int i = 0; i < 2; i++)
        md5_printf(keys[i], "%b:%b:%b", user, user_length, realm, realm_length, password, password_length);
    return memcmp(keys[0], keys[1], MD5_SIZE) == 0;
}
