/* The model's TURN server: what RFC 8656 says, and vectors/turn and vectors/turn-server where it
 * leaves a choice. All times are in nanoseconds, and add up to less than 2^64. */
#ifndef MODEL_TURN_H
#define MODEL_TURN_H

#include "model_server.h"

enum { MODEL_TURN_ALLOCATIONS = 4, MODEL_TURN_ROOM = 16, MODEL_TURN_PEERS = 64, MODEL_TURN_USERS = 2 };

typedef struct {
    stun_types_address peer;
    unsigned number; /* of a channel; a permission has none, and is of any port */
    uint64_t until;
} model_lease;

/* A relayed address. */
typedef struct {
    bool takes_place;
    stun_types_five_tuple from;
    unsigned user;
    uint8_t id[12];
    stun_types_address relayed;
    uint64_t relay, until;
    model_lease permissions[MODEL_TURN_ROOM], channels[MODEL_TURN_ROOM];
    size_t permission_count, channel_count;
} model_allocation;

typedef struct {
    stun_types_turn_settings settings;
    model_text realm;
    const model_key *secret;
    stun_types_address listening;
    stun_types_address alternate; /* family 0: none */
    struct {
        model_text name;
        const model_key *md5, *sha256;
    } users[MODEL_TURN_USERS];
    uint64_t clock;
    model_allocation all[MODEL_TURN_ALLOCATIONS];
    uint64_t ended[MODEL_TURN_ALLOCATIONS]; /* by the last call */
    size_t ended_count;
} model_turn;

/* What is done for a client's datagram: `action` without what the server chooses and a response's length,
   and what else a response says: of IPv4, and of IPv6. */
typedef struct {
    stun_types_turn_action action;
    bool is_request;          /* of a user; if not, no key is needed */
    const model_key *key;     /* by which it is signed, or NULL */
    uint32_t algorithm;       /* of its HMAC */
    bool has_lifetime;
    uint32_t lifetime;
    model_allocation *opened[2]; /* their relays are for the caller to set */
    stun_types_address relayed[2]; /* family 0: none */
    uint32_t missing[2];
    stun_types_address alternate; /* family 0: none */
} model_turn_done;

void model_turn_client(model_turn *turn, uint64_t now, const stun_types_five_tuple *from,
                       const stun_types_turn_ready *ready, const uint8_t *bytes, size_t length,
                       model_turn_done *done);

/* The user whom a message names, or MODEL_TURN_USERS. */
unsigned model_turn_user(const model_turn *turn, const uint8_t *bytes, size_t length);

/* Who gets a peer's datagram of so many bytes: nobody, if all is zero. Returns the number of the
   channel, or 0 for a Data indication. */
unsigned model_turn_peer(model_turn *turn, uint64_t now, uint64_t relay,
                         const stun_types_address *peer, size_t length,
                         stun_types_turn_delivery *delivery);

/* The flow on a channel of a client, as the last of these calls left it: zeros, if there is none. */
void model_turn_flow(model_turn *turn, const stun_types_five_tuple *from, unsigned number, stun_types_flow *flow);

/* What has expired ends; and the relayed address with a number; and all of a user, or of none for
   MODEL_TURN_USERS. */
void model_turn_poll(model_turn *turn, uint64_t now);
void model_turn_end(model_turn *turn, uint64_t now, uint64_t relay);
void model_turn_end_user(model_turn *turn, uint64_t now, unsigned user);

bool model_is_same_address(const stun_types_address *one, const stun_types_address *other);

#endif
