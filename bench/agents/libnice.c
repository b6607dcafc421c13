/* A check answered by the STUN of libnice (Debian: libnice-dev): its agent validates the bytes, and its ICE usage makes
   the reply. What the ICE agent keeps of it isn't in its public functions, and isn't counted.

   libnice TIMES: prints a sum of the replies' lengths. */
#include <arpa/inet.h>
#include <stdio.h>
#include <stdlib.h>
#include <string.h>
#include <stun/stunagent.h>
#include <stun/usages/ice.h>

static const uint16_t KNOWN[] = {
    STUN_ATTRIBUTE_USERNAME, STUN_ATTRIBUTE_PRIORITY, STUN_ATTRIBUTE_USE_CANDIDATE, STUN_ATTRIBUTE_MESSAGE_INTEGRITY,
    STUN_ATTRIBUTE_ICE_CONTROLLED, STUN_ATTRIBUTE_ICE_CONTROLLING, STUN_ATTRIBUTE_XOR_MAPPED_ADDRESS,
    STUN_ATTRIBUTE_ERROR_CODE, 0,
};
static const char OWN[] = "VOkJxbRl1RmTxUk/WvJxBt";

static void agent_in(StunAgent *agent) {
    stun_agent_init(agent, KNOWN, STUN_COMPATIBILITY_RFC5389,
                    STUN_AGENT_USAGE_SHORT_TERM_CREDENTIALS | STUN_AGENT_USAGE_USE_FINGERPRINT);
}

int main(int count, char **words) {
    uint8_t check[1500], reply[1500];
    StunAgent sender, agent;
    StunMessage message, response;
    struct sockaddr_storage from = {0};
    struct sockaddr_in *ipv4 = (struct sockaddr_in *)&from;
    StunDefaultValidaterData known[] = {{(uint8_t *)"evtj:h6vY", 9, (uint8_t *)OWN, strlen(OWN)}, {NULL, 0, NULL, 0}};
    unsigned long long sum = 0;
    bool control = true;
    if (count != 2) return 2;
    stun_debug_disable();
    agent_in(&sender);
    agent_in(&agent);
    ipv4->sin_family = AF_INET;
    ipv4->sin_port = htons(32853);
    ipv4->sin_addr.s_addr = htonl(0xC0000201);
    size_t length = stun_usage_ice_conncheck_create(
        &sender, &message, check, sizeof check, (uint8_t *)"evtj:h6vY", 9, (uint8_t *)OWN, strlen(OWN), false, false,
        1862270975, 9, NULL, STUN_USAGE_ICE_COMPATIBILITY_RFC5245);
    if (!length) return 3;
    for (unsigned long times = strtoul(words[1], NULL, 10); times--;) {
        size_t size = sizeof reply;
        if (stun_agent_validate(&agent, &message, check, length, stun_agent_default_validater, known) !=
            STUN_VALIDATION_SUCCESS)
            return 4;
        if (stun_usage_ice_conncheck_create_reply(&agent, &message, &response, reply, &size, &from, sizeof *ipv4,
                                                  &control, 7, STUN_USAGE_ICE_COMPATIBILITY_RFC5245) !=
            STUN_USAGE_ICE_RETURN_SUCCESS)
            return 5;
        sum += size;
    }
    printf("%llu\n", sum);
    return 0;
}
