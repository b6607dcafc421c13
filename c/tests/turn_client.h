/* What a client of a TURN server writes, by the library's own calls, in the realm `example.org`.
 * Each call checks that it succeeds. What a call allocates is the test's own (heap_own). */
#ifndef TURN_CLIENT_H
#define TURN_CLIENT_H

#include "check.h"

enum { TURN_MESSAGE_MOST = 66000 };

extern const char turn_realm[];

/* A user, with the keys by both password algorithms. */
typedef struct {
    const char *name;
    stun_types_key md5, sha256;
} turn_user;

void turn_user_make(turn_user *user, const char *name, const char *password);
void turn_user_free(turn_user *user);

/* How the server makes its nonces. */
typedef struct {
    stun_types_key secret;
    uint32_t features;
    uint64_t window;
} turn_nonces;

/* The secret is 32 bytes, which this returns. */
slice turn_nonces_make(turn_nonces *nonces, uint32_t features, uint64_t window);
void turn_nonces_free(turn_nonces *nonces);

/* The nonce for a client at a moment in seconds. */
typedef struct {
    uint8_t bytes[STUN_TYPES_NONCE_LENGTH];
} turn_nonce;
turn_nonce turn_nonce_at(const turn_nonces *nonces, uint64_t seconds,
                         const stun_types_address *client);

/* A message that is being written, and each step of it. An ID is a number. */
typedef struct {
    uint8_t bytes[TURN_MESSAGE_MOST];
    size_t length;
} turn_message;

stun_types_id turn_id(uint64_t number);
void turn_begin(turn_message *message, stun_types_class message_class, stun_types_method method,
                uint64_t id);
void turn_add(turn_message *message, uint16_t type, const void *value, size_t length);
void turn_add_u32(turn_message *message, uint16_t type, uint32_t number);
void turn_add_peer(turn_message *message, const stun_types_address *peer);

/* An attribute whose value is a number and three zeros: a transport or a family, known or not. */
void turn_add_first(turn_message *message, uint16_t type, uint8_t number);

/* The number of a channel, allowed or not. */
void turn_add_channel(turn_message *message, uint16_t number);

/* Names the user and answers a challenge with this nonce: by MD5 as a client of RFC 5389 does, or by
   SHA-256 with the list of the server. */
void turn_sign(turn_message *message, const turn_user *user, stun_types_password algorithm,
               const turn_nonce *nonce);

/* A ChannelData message, without padding, on a channel that is allowed or not. */
void turn_channel_data(turn_message *message, uint16_t number, slice data);

/* The value of the first attribute of a type; false if there is none. */
bool turn_find(const uint8_t *bytes, size_t length, uint16_t type, slice *value);

/* The number in a value of four bytes, and the address in an XORed attribute that is there. */
uint32_t turn_number(slice value);
stun_types_address turn_address(const uint8_t *bytes, size_t length, uint16_t type);

bool turn_is_same_address(const stun_types_address *one, const stun_types_address *other);

/* Calls stun_types_turn_client as a server does: at first with no keys, and with those of one of
   the users if it needs them. The first call must have changed nothing that the second one shows.
   */
typedef struct {
    stun_types_turn *server;
    const stun_types_five_tuple *from;
    const stun_types_turn_ready *ready;
    uint8_t *room;
    size_t size;
    stun_types_turn_action *action;
} turn_call;
stun_types_answer turn_take(const turn_call *call, uint64_t now, slice datagram,
                            const turn_user *user);

/* Calls stun_types_turn_peer. */
stun_types_answer turn_from_peer(stun_types_turn *server, uint64_t now, uint64_t relay,
                                 const stun_types_address *peer, size_t data_length,
                                 const stun_types_id *id, uint8_t *head, size_t head_size,
                                 stun_types_turn_delivery *delivery);

#endif
