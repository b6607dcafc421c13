#include "model_client.h"

#include <string.h>

static const stun_types_answer OK = {STUN_TYPES_OK, 0, 0, 0};

#define BAD_ARGUMENT model_answer(STUN_TYPES_BAD_ARGUMENT, 0, 0, 0)

/* The code of an error response; 0 if it has none, or is none. */
static unsigned code_of(const uint8_t *bytes, const model_list *shown) {
    const stun_types_attribute *error = model_find(shown, 0x0009);
    uint16_t code = 0;
    if ((model_number(bytes) & 0x0110) != 0x0110 || error == NULL) return 0;
    if (model_error(bytes + error->value_at, error->length, &code).code != STUN_TYPES_OK) return 0;
    return code;
}

static bool is_challenge(unsigned code) { return code == 401 || code == 438; }

/* ---- challenges (RFC 8489, section 9.2.5) */

static bool is_text(const uint8_t *bytes, const stun_types_attribute *attribute) {
    return attribute != NULL && attribute->length <= 763
           && model_is_utf8(bytes + attribute->value_at, attribute->length);
}

static bool is_same_text(const uint8_t *bytes, const stun_types_attribute *one, model_text other) {
    return one->length == other.length
           && (other.length == 0 || memcmp(bytes + one->value_at, other.bytes, other.length) == 0);
}

stun_types_answer model_challenge(const uint8_t *bytes, size_t length,
                                  const model_knowledge *knowledge, stun_types_challenge *told) {
    static model_list shown;
    const stun_types_attribute *realm, *nonce, *list;
    stun_types_answer fault;
    uint32_t features, wanted = 0, algorithm;
    size_t i;
    if (!model_are_passwords(knowledge->supported, knowledge->count)) return BAD_ARGUMENT;
    if (knowledge->was_tried && !model_is_utf8(knowledge->tried.bytes, knowledge->tried.length))
        return model_answer(STUN_TYPES_INVALID_DATA, 0, 0, 0);
    fault = model_parse(bytes, length);
    if (fault.code != STUN_TYPES_OK) return fault;
    model_shown(bytes, length, &shown);
    if (!is_challenge(code_of(bytes, &shown)))
        return model_answer(STUN_TYPES_NOT_A_CHALLENGE, 0, 0, 0);
    list = model_find(&shown, 0x8002);
    if (list == NULL && (model_promises(bytes, &shown, &features) || knowledge->was_seen))
        return model_answer(STUN_TYPES_BID_DOWN, 0, 0, 0);
    realm = model_find(&shown, 0x0014);
    nonce = model_find(&shown, 0x0015);
    if (!is_text(bytes, realm) || !is_text(bytes, nonce))
        return model_answer(STUN_TYPES_INCOMPLETE, 0, 0, 0);
    for (i = 0; i < knowledge->count; i++) wanted |= knowledge->supported[i];
    algorithm = list == NULL ? wanted & 1
                             : model_listed(bytes + list->value_at, list->length, wanted);
    if (algorithm == 0) return model_answer(STUN_TYPES_NO_ALGORITHM, 0, 0, 0);
    if (code_of(bytes, &shown) == 401 && knowledge->was_tried
        && is_same_text(bytes, realm, knowledge->tried))
        return model_answer(STUN_TYPES_SAME_CREDENTIALS, 0, 0, 0);
    (void)model_promises(bytes, &shown, &features);
    memset(told, 0, sizeof *told);
    told->realm_at = realm->value_at;
    told->realm_length = realm->length;
    told->nonce_at = nonce->value_at;
    told->nonce_length = nonce->length;
    if (list != NULL) told->algorithms_at = list->value_at;
    if (list != NULL) told->algorithms_length = list->length;
    told->password_algorithm = (stun_types_password)algorithm;
    told->anonymous = features >> 1 & 1;
    told->integrity_algorithm = list == NULL ? STUN_TYPES_INTEGRITY_SHA1
                                             : STUN_TYPES_INTEGRITY_SHA256;
    return OK;
}

/* ---- schedules (RFC 8489, section 6.2.1) */

/* Times the first interval: until request number k, counted from 0. */
static uint64_t moment(const stun_types_schedule *schedule, uint32_t k) {
    return schedule->rto * (((uint64_t)1 << k) - 1);
}

static uint64_t whole(const stun_types_schedule *schedule) {
    return moment(schedule, schedule->requests - 1) + schedule->rto * schedule->last_wait;
}

/* Whether the end is a number of 64 bits: rto times 2 to the power of (Rc - 1), less 1, plus Rm. */
static bool is_schedule(const stun_types_schedule *schedule) {
    if (schedule->rto == 0 || schedule->requests == 0 || schedule->last_wait == 0
        || schedule->reliable_wait == 0)
        return false;
    if (schedule->requests > 64) return false;
    return schedule->rto
           <= UINT64_MAX / ((((uint64_t)1 << (schedule->requests - 1)) - 1) + schedule->last_wait);
}

static bool is_usage(const stun_types_schedule *schedule) {
    return schedule->reserved == 0 && model_is_hmac_length(schedule->min_hmac_length);
}

static uint32_t requests_of(const stun_types_transaction *one) {
    return one->transport == STUN_TYPES_TCP ? 1 : one->schedule.requests;
}

/* How long nothing is done after the last request. */
static uint64_t wait_of(const stun_types_transaction *one) {
    const stun_types_schedule *schedule = &one->schedule;
    if (one->sent == 0) return 0;
    if (one->transport == STUN_TYPES_TCP) return schedule->reliable_wait;
    if (one->stopped != 0) return whole(schedule) - moment(schedule, one->sent - 1);
    if (one->sent < schedule->requests) return schedule->rto << (one->sent - 1);
    return schedule->rto * schedule->last_wait;
}

/* When something is to be done; the greatest moment if it is later than that, and then is_never. */
static uint64_t due(const stun_types_transaction *one, bool *is_never) {
    uint64_t wait = wait_of(one);
    *is_never = wait > UINT64_MAX - one->last;
    return *is_never ? UINT64_MAX : one->last + wait;
}

/* ---- transactions */

static bool is_signed(uint32_t protection) {
    return protection == STUN_TYPES_SHORT_TERM || protection == STUN_TYPES_LONG_TERM;
}

bool model_is_transaction(const stun_types_transaction *one) {
    return one->reserved == 0 && is_schedule(&one->schedule) && is_usage(&one->schedule)
           && one->method <= 0xFFF && one->signed_by <= 3 && one->violated <= 1 && one->stopped <= 1
           && one->end <= STUN_TYPES_TRANSPORT_FAILED && one->transport >= STUN_TYPES_UDP
           && one->transport <= STUN_TYPES_TCP && one->protection >= STUN_TYPES_SHORT_TERM
           && one->protection <= STUN_TYPES_UNPROTECTED
           && is_signed(one->protection) == (one->signed_by != 0) && one->sent <= requests_of(one)
           && one->last <= one->clock;
}

/* Why a key isn't that of a request. */
static stun_types_answer key_fault(uint32_t protection, unsigned signed_by, const model_key *key) {
    if (!is_signed(protection)) return OK;
    if (!key->is_there) return model_answer(STUN_TYPES_NO_KEY, 0, 0, 0);
    if (protection == STUN_TYPES_LONG_TERM)
        return key->algorithm == STUN_TYPES_INTEGRITY_ANY ? OK : BAD_ARGUMENT;
    if (((signed_by & 1) != 0 && model_serves(key, STUN_TYPES_INTEGRITY_SHA1))
        || ((signed_by & 2) != 0 && model_serves(key, STUN_TYPES_INTEGRITY_SHA256)))
        return OK;
    return model_answer(STUN_TYPES_NOT_SIGNED, 0, 0, 0);
}

/* Which integrity attributes are shown. */
static unsigned signed_by(const model_list *shown) {
    return (model_find(shown, 0x0008) == NULL ? 0u : 1u)
           + (model_find(shown, 0x001C) == NULL ? 0u : 2u);
}

static unsigned method_of(unsigned type) {
    return (type & 0xF) | (type >> 1 & 0x70) | (type >> 2 & 0xF80);
}

stun_types_answer model_begin(const uint8_t *request, size_t length,
                              const stun_types_schedule *schedule, uint32_t transport,
                              uint32_t protection, const model_key *key, uint64_t now,
                              stun_types_transaction *transaction) {
    static model_list shown;
    stun_types_answer fault = model_parse(request, length);
    unsigned by;
    memset(transaction, 0, sizeof *transaction);
    if (fault.code != STUN_TYPES_OK) return fault;
    if (transport < 1 || transport > 2 || protection < 1 || protection > 4 || !is_usage(schedule))
        return BAD_ARGUMENT;
    if (!is_schedule(schedule)) return model_answer(STUN_TYPES_OUT_OF_RANGE, 0, 0, 0);
    if ((model_number(request) & 0x0110) != 0)
        return model_answer(STUN_TYPES_NOT_A_REQUEST, 0, 0, 0);
    model_shown(request, length, &shown);
    by = signed_by(&shown);
    if (is_signed(protection) && by == 0) return model_answer(STUN_TYPES_NOT_SIGNED, 0, 0, 0);
    if (!is_signed(protection) && by != 0) return model_answer(STUN_TYPES_SIGNED, 0, 0, 0);
    fault = key_fault(protection, by, key);
    if (fault.code != STUN_TYPES_OK) return fault;
    transaction->schedule = *schedule;
    transaction->last = transaction->clock = now;
    memcpy(transaction->id.bytes, request + 8, 12);
    transaction->method = (uint16_t)method_of(model_number(request));
    transaction->transport = (uint8_t)transport;
    transaction->protection = (uint8_t)protection;
    transaction->signed_by = (uint8_t)by;
    return OK;
}

stun_types_answer model_poll(stun_types_transaction *one, uint64_t now, stun_types_action *action) {
    bool is_never;
    memset(action, 0, sizeof *action);
    if (!model_is_transaction(one)) return BAD_ARGUMENT;
    if (one->end == 0) {
        uint64_t at = due(one, &is_never);
        if (now > one->clock) one->clock = now;
        if (is_never || one->clock < at) {
            action->kind = STUN_TYPES_WAIT;
            action->until = at;
            return OK;
        }
        if (one->stopped == 0 && one->sent < requests_of(one)) {
            one->sent++;
            one->last = one->clock;
            action->kind = STUN_TYPES_SEND_NOW;
            return OK;
        }
        one->end = one->stopped != 0    ? STUN_TYPES_CANCELLED
                   : one->violated != 0 ? STUN_TYPES_INTEGRITY_VIOLATED
                                        : STUN_TYPES_TIMED_OUT;
    }
    action->kind = STUN_TYPES_ENDED;
    action->end = (stun_types_end)one->end;
    return OK;
}

bool model_next(const stun_types_transaction *one, uint64_t *until) {
    bool is_never;
    if (!model_is_transaction(one) || one->end != 0) return false;
    *until = due(one, &is_never);
    return true;
}

stun_types_answer model_stop(stun_types_transaction *one) {
    if (!model_is_transaction(one)) return BAD_ARGUMENT;
    if (one->end == 0) one->stopped = 1;
    return OK;
}

stun_types_answer model_end(stun_types_transaction *one, stun_types_end end) {
    if (!model_is_transaction(one)) return BAD_ARGUMENT;
    if (one->end == 0) one->end = (uint8_t)end;
    return OK;
}

bool model_round_trip(const stun_types_transaction *one, uint64_t now, uint64_t *time) {
    if (!model_is_transaction(one) || one->end != STUN_TYPES_ANSWERED || one->sent != 1)
        return false;
    *time = now > one->last ? now - one->last : 0;
    return true;
}

/* ---- what is received */

/* The algorithm that authenticates a response, or 0. */
static uint32_t proof_of(const stun_types_transaction *one, const model_key *key,
                         const uint8_t *bytes, size_t length) {
    stun_types_policy policy = {STUN_TYPES_INTEGRITY_ANY, 0, 0, 0};
    stun_types_validated validated;
    policy.min_hmac_length = one->schedule.min_hmac_length;
    if (!is_signed(one->protection)
        || model_validate(bytes, length, &policy, key, &validated).code != STUN_TYPES_OK)
        return 0;
    if (one->protection == STUN_TYPES_SHORT_TERM
        && (one->signed_by & (validated.algorithm == STUN_TYPES_INTEGRITY_SHA1 ? 1 : 2)) == 0)
        return 0;
    return validated.algorithm;
}

/* Why a response is discarded, as a kind; 0 if it is not. */
static stun_types_received_kind discarded(const stun_types_transaction *one, const uint8_t *bytes,
                                          const model_list *shown, uint32_t proof) {
    unsigned by = signed_by(shown), code = code_of(bytes, shown);
    uint32_t features;
    if (one->schedule.fingerprint != 0 && model_find(shown, 0x8028) == NULL)
        return STUN_TYPES_DISCARDED_NO_FINGERPRINT;
    if (one->protection == STUN_TYPES_UNPROTECTED) return STUN_TYPES_NOT_FOR_THIS;
    if (one->protection == STUN_TYPES_SHORT_TERM) {
        if (proof != 0) return STUN_TYPES_NOT_FOR_THIS;
        return by != 0 && (by & one->signed_by) == 0 ? STUN_TYPES_DISCARDED_OTHER_ALGORITHM
                                                     : STUN_TYPES_DISCARDED_NOT_AUTHENTIC;
    }
    if (is_challenge(code)) return STUN_TYPES_NOT_FOR_THIS;
    if (model_promises(bytes, shown, &features) && model_find(shown, 0x8002) == NULL)
        return STUN_TYPES_DISCARDED_BID_DOWN;
    if (code == 400 && by == 0) return STUN_TYPES_DISCARDED_UNSIGNED;
    if (one->protection == STUN_TYPES_LONG_TERM && proof == 0)
        return STUN_TYPES_DISCARDED_NOT_AUTHENTIC;
    return STUN_TYPES_NOT_FOR_THIS;
}

/* Types that every client understands (RFC 8489, section 18.3), and those that this one does. */
static bool is_understood(unsigned type, const uint16_t *understood, size_t count) {
    static const uint16_t own[]
        = {0x0001, 0x0006, 0x0008, 0x0009, 0x000A, 0x0014, 0x0015, 0x001C, 0x001D, 0x001E, 0x0020};
    size_t i;
    for (i = 0; i < sizeof own / sizeof *own; i++)
        if (own[i] == type) return true;
    for (i = 0; i < count; i++)
        if (understood[i] == type) return true;
    return type >= 0x8000;
}

stun_types_answer model_receive(stun_types_transaction *one, const model_key *key,
                                const uint8_t *bytes, size_t length, const uint16_t *understood,
                                size_t count, stun_types_received *received) {
    static model_list shown;
    stun_types_answer fault;
    unsigned type;
    uint32_t proof;
    size_t i;
    memset(received, 0, sizeof *received);
    if (!model_is_transaction(one)) return BAD_ARGUMENT;
    fault = key_fault(one->protection, one->signed_by, key);
    if (fault.code != STUN_TYPES_OK) return fault;
    if (one->sent == 0 || one->end != 0 || model_parse(bytes, length).code != STUN_TYPES_OK)
        return OK;
    type = model_number(bytes);
    if ((type & 0x0100) == 0 || method_of(type) != one->method
        || memcmp(bytes + 8, one->id.bytes, 12) != 0)
        return OK;
    model_shown(bytes, length, &shown);
    proof = proof_of(one, key, bytes, length);
    received->kind = discarded(one, bytes, &shown, proof);
    received->number = code_of(bytes, &shown);
    if (received->kind == STUN_TYPES_DISCARDED_NOT_AUTHENTIC && one->transport == STUN_TYPES_TCP) {
        one->end = STUN_TYPES_INTEGRITY_VIOLATED;
        received->kind = STUN_TYPES_FAILED_INTEGRITY;
    } else if (received->kind == STUN_TYPES_DISCARDED_NOT_AUTHENTIC
               || received->kind == STUN_TYPES_DISCARDED_OTHER_ALGORITHM) {
        one->violated = 1;
    }
    if (received->kind != STUN_TYPES_NOT_FOR_THIS) return OK;
    for (i = 0; i < shown.count; i++)
        if (!is_understood(shown.all[i].type, understood, count)) break;
    one->end = STUN_TYPES_RESPONSE_REFUSED;
    if (i < shown.count) {
        received->kind = STUN_TYPES_FAILED_UNKNOWN_ATTRIBUTE;
        received->number = shown.all[i].type;
    } else if ((type & 0x0010) != 0 && received->number == 0) {
        received->kind = STUN_TYPES_FAILED_NO_ERROR_CODE;
    } else {
        one->end = STUN_TYPES_ANSWERED;
        received->kind = (type & 0x0010) != 0 ? STUN_TYPES_TAKEN_ERROR : STUN_TYPES_TAKEN_SUCCESS;
        received->algorithm = (stun_types_integrity)proof;
    }
    return OK;
}
