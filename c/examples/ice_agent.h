/* An ICE agent that answers connectivity checks (RFC 8445, section 7.3), without sockets. */
#ifndef ICE_AGENT_H
#define ICE_AGENT_H

#include <string.h>

#include "ice_key.h"
#include "stun_types.h"

enum { ICE_ROOM = 2000, ICE_TYPES = 64 };

typedef struct {
    const char *ufrag; /* its own fragment, which its peer knows */
    ice_key key;       /* of its own password */
    uint64_t tiebreaker;
    bool is_controlling;
} ice_agent;

/* What an agent answers to a check, and what it learns from it. */
typedef struct {
    uint8_t reply[ICE_ROOM];
    size_t length;     /* of the reply; 0: there is none */
    uint32_t code;     /* of an error response; 0: a success response, with what follows */
    uint32_t priority; /* of a peer-reflexive candidate, if the check comes from an unknown address */
    bool nominates;    /* the check nominates its pair */
} ice_answer;

/* The key of whom a check is for: its USERNAME begins with the agent's fragment and a colon. Otherwise NULL. */
static inline const ice_key *ice_key_of(const ice_agent *agent, const uint8_t *check, size_t length) {
    stun_types_attribute name;
    size_t own = strlen(agent->ufrag);
    bool is_ours = stun_types_find(check, length, STUN_TYPES_ATTRIBUTE_USERNAME, &name) &&
                   name.length > own && check[name.value_at + own] == ':' &&
                   memcmp(check + name.value_at, agent->ufrag, own) == 0;
    return is_ours ? &agent->key : NULL;
}

/* The types that the check shows, that must be understood and that this agent doesn't know. */
static inline size_t ice_unknown_types(const uint8_t *check, size_t length, uint16_t *unknown) {
    uint16_t known[ICE_TYPES];
    size_t count = stun_types_known_types(known, ICE_TYPES);
    known[count++] = STUN_TYPES_ATTRIBUTE_PRIORITY;
    known[count++] = STUN_TYPES_ATTRIBUTE_USE_CANDIDATE;
    size_t found = stun_types_unknown_types(check, length, known, count, unknown, ICE_TYPES);
    return found < ICE_TYPES ? found : ICE_TYPES;
}

/* Reads what a check has to say; false if it is malformed: no PRIORITY, both roles, or a value of
 * another length. *contents is the tiebreaker of its role, if it shows one. */
static inline bool ice_read(const uint8_t *check, size_t length, ice_answer *read, bool *is_controlling,
                            bool *is_controlled, uint64_t *contents) {
    stun_types_attribute priority, role, nomination;
    read->nominates = stun_types_find(check, length, STUN_TYPES_ATTRIBUTE_USE_CANDIDATE, &nomination);
    *is_controlled = stun_types_find(check, length, STUN_TYPES_ATTRIBUTE_ICE_CONTROLLED, &role);
    if (*is_controlled && !ice_is_fine(stun_types_read_u64(check, length, &role, contents))) return false;
    *is_controlling = stun_types_find(check, length, STUN_TYPES_ATTRIBUTE_ICE_CONTROLLING, &role);
    if (*is_controlling && !ice_is_fine(stun_types_read_u64(check, length, &role, contents))) return false;
    return !(*is_controlled && *is_controlling) &&
           stun_types_find(check, length, STUN_TYPES_ATTRIBUTE_PRIORITY, &priority) &&
           ice_is_fine(stun_types_read_u32(check, length, &priority, &read->priority));
}

/* The code of the error response that a check gets whose types are known, or 0: 400 if it is malformed,
 * 487 if the peer has to switch its role (section 7.3.1.1). The agent switches its own if it has to. */
static inline uint32_t ice_judge(ice_agent *agent, const uint8_t *check, size_t length, ice_answer *read) {
    bool is_controlling, is_controlled;
    uint64_t theirs = 0;
    if (!ice_read(check, length, read, &is_controlling, &is_controlled, &theirs)) {
        return STUN_TYPES_CODE_BAD_REQUEST;
    }
    if (!(agent->is_controlling ? is_controlling : is_controlled)) return 0;
    if ((agent->tiebreaker >= theirs) == agent->is_controlling) return STUN_TYPES_CODE_ROLE_CONFLICT;
    agent->is_controlling = !agent->is_controlling;
    return 0;
}

/* Adds an error code, with the reason that RFC 8489 or RFC 8445 has for it. */
static inline bool ice_add_error(ice_answer *to) {
    const char *reason = to->code == STUN_TYPES_CODE_BAD_REQUEST         ? "Bad Request"
                         : to->code == STUN_TYPES_CODE_UNKNOWN_ATTRIBUTE ? "Unknown Attribute"
                                                                         : "Role Conflict";
    return ice_is_fine(stun_types_add_error(to->reply, sizeof to->reply, &to->length, to->code, reason,
                                            strlen(reason)));
}

/* Writes the reply to a check that is authentic, before it is signed. */
static inline bool ice_write_reply(ice_agent *agent, const uint8_t *check, size_t length,
                                   const stun_types_address *source, ice_answer *to) {
    uint16_t unknown[ICE_TYPES];
    size_t count = ice_unknown_types(check, length, unknown), size = sizeof to->reply;
    to->code = count > 0 ? STUN_TYPES_CODE_UNKNOWN_ATTRIBUTE : ice_judge(agent, check, length, to);
    stun_types_class kind = to->code != 0 ? STUN_TYPES_CLASS_ERROR : STUN_TYPES_CLASS_SUCCESS;
    if (!ice_is_fine(stun_types_begin_reply(to->reply, size, check, length, kind, &to->length))) return false;
    if (to->code == 0) {
        return ice_is_fine(stun_types_add_xor_address(
            to->reply, size, &to->length, STUN_TYPES_ATTRIBUTE_XOR_MAPPED_ADDRESS, source));
    }
    return ice_add_error(to) &&
           (count == 0 ||
            ice_is_fine(stun_types_add_unknown_types(to->reply, size, &to->length, unknown, count)));
}

/* Answers a datagram that came from an address. Only binding requests get a reply: an indication keeps
 * the path alive, and anything else isn't for the agent. */
static inline void ice_take(ice_agent *agent, const uint8_t *check, size_t length,
                            const stun_types_address *source, ice_answer *to) {
    stun_types_header header;
    bool is_written = false;
    memset(to, 0, sizeof *to);
    if (!ice_is_fine(stun_types_read_header(check, length, &header)) ||
        header.message_class != STUN_TYPES_CLASS_REQUEST || header.method != STUN_TYPES_METHOD_BINDING) {
        return;
    }
    const ice_key *key = ice_key_of(agent, check, length);
    stun_types_authentication decision = ice_authenticate(check, length, key);
    if (decision.kind == STUN_TYPES_REFUSED) {
        to->code = decision.error_code;
        is_written = ice_is_fine(stun_types_refuse_short_term(check, length, to->code, to->reply,
                                                              sizeof to->reply, &to->length));
    } else if (decision.kind == STUN_TYPES_ACCEPTED) {
        is_written = ice_write_reply(agent, check, length, source, to) &&
                     ice_finish_reply(to->reply, sizeof to->reply, &to->length, &decision, key);
    }
    if (!is_written) to->length = 0;
}

#endif
