/* A TURN server of a test, its client alice, and what each call is given. Each function that sends
 * something to the server writes it with the library, and checks that the call succeeds. */
#ifndef TURN_SITE_H
#define TURN_SITE_H

#include "turn_client.h"

enum { SITE_ROOM = 400 };
#define SECOND ((uint64_t)1000000000)

extern const stun_types_turn site_none;
extern const stun_types_address site_client, site_own, site_peer, site_other_peer;
extern const stun_types_turn_settings site_settings;

/* What a row has: the server, its client, and what the last call was given and did. */
typedef struct {
    turn_nonces nonces;
    turn_user alice;
    stun_types_turn *server;
    stun_types_five_tuple *from;
    stun_types_turn_ready *ready;
    stun_types_turn_action *action;
    uint8_t *place;
    turn_message message;
} turn_site;

extern turn_site site;

/* What stun_types_turn_new is given: at first what is usual. */
typedef struct {
    stun_types_turn_settings settings;
    slice realm, software;
    const stun_types_key *secret;
    stun_types_prefix denied[2], allowed[2];
    size_t denied_count, allowed_count;
    stun_types_address listening[2];
    size_t listening_count;
} turn_making;

turn_making site_making(void);
stun_types_answer site_make(stun_types_turn *to, const turn_making *it);

/* Replaces the rules of a server by those of what another one would be made by. */
stun_types_answer site_set_rules(stun_types_turn *of, const turn_making *it);

/* Begins a row with the keys and no server, makes the server, or both; and ends them. */
void site_begin_alone(const char *name);
void site_begin_by(const turn_making *it);
void site_begin(const char *name);
void site_end(void);

/* The message, to be read. */
slice site_datagram(void);

/* These bytes as the client's datagram, before its keys are looked up. */
stun_types_turn_datagram site_given(slice bytes);

/* Takes a datagram into a room of this size, or of SITE_ROOM, with alice's keys if they are needed. */
stun_types_answer site_take_in(stun_types_turn *to, uint64_t now, slice bytes, size_t size);
void site_take(uint64_t now, slice bytes);

/* Takes the message after it is signed, by MD5 or SHA-256; returns its code, or UINT32_MAX if there
   is no response. */
uint32_t site_ask_by(uint64_t now, stun_types_password algorithm);
uint32_t site_ask(uint64_t now);

/* The same with a request: Allocate, which may be written alone, Refresh, CreatePermission or
   ChannelBind. */
void site_write_allocate(uint64_t id);
uint32_t site_allocate(uint64_t now, uint64_t id);
uint32_t site_refresh(uint64_t now, uint32_t seconds);
uint32_t site_permit(uint64_t now, const stun_types_address *address);
uint32_t site_bind(uint64_t now, uint16_t number, const stun_types_address *address);

/* Ends all relayed addresses of a user by name; returns how many ended. */
size_t site_end_user(uint64_t now, const char *name);

/* Sends three bytes to a peer; whether they are relayed. */
bool site_sends_to(uint64_t now, const stun_types_address *address);

/* The last response, its LIFETIME, and its XOR-RELAYED-ADDRESS. */
slice site_response(void);
uint32_t site_lifetime(void);
stun_types_address site_relayed(void);

/* What a peer's datagram of so many bytes becomes. */
stun_types_turn_delivery *site_deliver(uint64_t now, uint64_t relay,
                                       const stun_types_address *address, size_t length);

#endif
