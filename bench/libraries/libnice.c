/* The functions of ../stun_bench.h by the STUN of libnice (Debian: libnice-dev). Its digests are those of GnuTLS. An
   agent validates a message in one call; a password is its own short-term key. A long-term key is made inside of
   that call alone. */
#include <stdlib.h>
#include <string.h>
#include <stun/stunagent.h>

#include "../stun_bench.h"

static StunTransactionId ID = {0x21, 0x12, 0xA4, 0x42, 1, 2, 3, 4, 5, 6, 7, 8, 9, 10, 11, 12};
static const uint16_t KNOWN[] = {
    STUN_ATTRIBUTE_USERNAME, STUN_ATTRIBUTE_PRIORITY, STUN_ATTRIBUTE_MESSAGE_INTEGRITY,
    STUN_ATTRIBUTE_XOR_PEER_ADDRESS, STUN_ATTRIBUTE_DATA, 0,
};

static uint64_t number(const uint8_t *bytes) {
    return (uint64_t)bytes[0] << 24 | (uint64_t)bytes[1] << 16 | (uint64_t)bytes[2] << 8 | bytes[3];
}

static StunAgent *agent_with(StunAgentUsageFlags credentials) {
    static StunAgent agent;
    stun_debug_disable();
    stun_agent_init(&agent, KNOWN, STUN_COMPATIBILITY_RFC5389, STUN_AGENT_USAGE_USE_FINGERPRINT | credentials);
    return &agent;
}

uint64_t stun_bench_parse(const uint8_t *message, size_t length) {
    static StunAgent *agent;
    StunMessage parsed;
    if (!agent) agent = agent_with(STUN_AGENT_USAGE_IGNORE_CREDENTIALS);
    if (stun_agent_validate(agent, &parsed, message, length, NULL, NULL) != STUN_VALIDATION_SUCCESS) return 0;
    return (uint64_t)1 << 40 | number(message);
}

/* The offset of an attribute, or 0. */
static uint64_t offset_of(const StunMessage *message, StunAttribute type) {
    uint16_t length;
    const uint8_t *value = stun_message_find(message, type, &length);
    return value ? value - 4 - message->buffer : 0;
}

/* Gives the password of every user. */
static bool look_up(StunAgent *agent, StunMessage *message, uint8_t *user, uint16_t user_length, uint8_t **password,
                    size_t *password_length, void *data) {
    const StunDefaultValidaterData *known = data;
    (void)agent, (void)message, (void)user, (void)user_length;
    *password = known->password, *password_length = known->password_len;
    return true;
}

uint64_t stun_bench_receive(const uint8_t *message, size_t length, const uint8_t *password, size_t password_length,
                            uint64_t rounds) {
    StunAgent *agent = agent_with(STUN_AGENT_USAGE_SHORT_TERM_CREDENTIALS);
    StunDefaultValidaterData known = {NULL, 0, (uint8_t *)password, password_length};
    StunMessage parsed;
    uint64_t sum = 0;
    while (rounds--) {
        StunValidationStatus status = stun_agent_validate(agent, &parsed, message, length, look_up, &known);
        sum += status == STUN_VALIDATION_SUCCESS ? 1 : 3;
        sum += offset_of(&parsed, STUN_ATTRIBUTE_USERNAME) << 8;
        sum += offset_of(&parsed, STUN_ATTRIBUTE_PRIORITY) << 24;
    }
    return sum;
}

/* The agent keeps the ID of each request that it finishes, until it is forgotten. */
static size_t write_check(StunAgent *agent, const uint8_t *user, size_t user_length, const uint8_t *password,
                          size_t password_length, uint8_t *destination, size_t destination_length) {
    StunMessage message = {agent, destination, destination_length, NULL, 0, {0}, false};
    if (!stun_message_init(&message, STUN_REQUEST, STUN_BINDING, ID)) return 0;
    stun_message_append_bytes(&message, STUN_ATTRIBUTE_USERNAME, user, user_length);
    stun_message_append32(&message, STUN_ATTRIBUTE_PRIORITY, 0x6E0001FF);
    stun_message_append64(&message, STUN_ATTRIBUTE_ICE_CONTROLLED, 0x932FF9B151263B36);
    size_t length = stun_agent_finish_message(agent, &message, password, password_length);
    return stun_agent_forget_transaction(agent, ID) ? length : 0;
}

uint64_t stun_bench_write_slice(const uint8_t *user, size_t user_length, const uint8_t *password, size_t password_length,
                                uint32_t algorithm, uint8_t *destination, size_t destination_length, uint64_t rounds) {
    StunAgent *agent = agent_with(STUN_AGENT_USAGE_SHORT_TERM_CREDENTIALS);
    uint64_t sum = 0;
    if (algorithm != 1) return UINT64_MAX;
    while (rounds--) {
        size_t length = write_check(agent, user, user_length, password, password_length, destination, destination_length);
        if (length < 20) return UINT64_MAX;
        sum += (uint64_t)length << 32 | number(destination + length - 4);
    }
    return sum;
}
