/* The model's client: challenges, and transactions. */
#ifndef MODEL_CLIENT_H
#define MODEL_CLIENT_H

#include "model_server.h"

/* What a client knows: the password algorithms that it supports, the realm in which its credentials
   were tried, and whether it has seen a list. */
typedef struct {
    const uint16_t *supported;
    size_t count;
    bool was_tried, was_seen;
    model_text tried;
} model_knowledge;

/* What a 401 or 438 asks for; what is written is known only if the answer is OK. */
stun_types_answer model_challenge(const uint8_t *bytes, size_t length,
                                  const model_knowledge *knowledge, stun_types_challenge *told);

/* Whether these fields are those of a transaction. */
bool model_is_transaction(const stun_types_transaction *transaction);

/* What each call of a transaction answers and leaves. */
stun_types_answer model_begin(const uint8_t *request, size_t length,
                              const stun_types_schedule *schedule, uint32_t transport,
                              uint32_t protection, const model_key *key, uint64_t now,
                              stun_types_transaction *transaction);
stun_types_answer model_poll(stun_types_transaction *transaction, uint64_t now,
                             stun_types_action *action);
stun_types_answer model_receive(stun_types_transaction *transaction, const model_key *key,
                                const uint8_t *bytes, size_t length, const uint16_t *understood,
                                size_t count, stun_types_received *received);
stun_types_answer model_stop(stun_types_transaction *transaction);
stun_types_answer model_end(stun_types_transaction *transaction, stun_types_end end);
bool model_round_trip(const stun_types_transaction *transaction, uint64_t now, uint64_t *time);

/* The moment at which a poll of it does something; false if there is none. */
bool model_next(const stun_types_transaction *transaction, uint64_t *until);

#endif
