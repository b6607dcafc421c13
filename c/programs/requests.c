/* A binding request, with the credentials that the server asks for (RFC 8489, sections 6 and 9). */
#include "program.h"

enum {
    MOST_REQUESTS = 4, /* each as the answer to the last challenge */
    MOST_SERVERS = 5   /* of which one sends it to the next */
};

/* The password algorithms that the programs know. */
enum { COUNT_SUPPORTED = 2 };
static const uint16_t SUPPORTED[COUNT_SUPPORTED] = {STUN_TYPES_PASSWORD_SHA256,
                                                    STUN_TYPES_PASSWORD_MD5};

static stun_types_key key;
/* The response whose challenge requests answer, and that challenge. */
static message challenged;
static stun_types_challenge challenge;
static bool heard; /* the server has sent something that is a response to a request */
/* Of this request: a response was discarded, and the code that the last such one claims, or 0. */
static bool discarded;
static uint32_t claimed;

/* Whether a call did what it was asked; why the last one did not. */
static stun_types_status refusal;
static bool is_fine(stun_types_answer answer) {
    if (answer.code != STUN_TYPES_OK) refusal = answer.code;
    return answer.code == STUN_TYPES_OK;
}

/* ---- What is sent ---------------------------------------------------------------------------- */

static bool begin_request(void) {
    stun_types_id id;
    return new_id(&id) &&
           is_fine(stun_types_begin(
               request.bytes, sizeof request.bytes,
               stun_types_message_type(STUN_TYPES_CLASS_REQUEST, STUN_TYPES_METHOD_BINDING), &id,
               &request.length));
}

static bool add_fingerprint(void) {
    return is_fine(stun_types_add_fingerprint(request.bytes, sizeof request.bytes, &request.length));
}

/* Signs by both algorithms, since it isn't known which the server has (section 9.1.2). */
static bool sign_short_term(void) {
    size_t room = sizeof request.bytes, *length = &request.length;
    return is_fine(stun_types_key_short_term(&key, asked.password, strlen(asked.password))) &&
           is_fine(stun_types_add(request.bytes, room, length, STUN_TYPES_ATTRIBUTE_USERNAME,
                                  asked.user, strlen(asked.user))) &&
           is_fine(stun_types_add_integrity(request.bytes, room, length, &key,
                                            STUN_TYPES_INTEGRITY_SHA1)) &&
           is_fine(stun_types_add_integrity(request.bytes, room, length, &key,
                                            STUN_TYPES_INTEGRITY_SHA256)) &&
           add_fingerprint();
}

/* Answers the challenge, with a key that is made for it. */
static bool sign_long_term(void) {
    return is_fine(stun_types_answer_challenge(request.bytes, sizeof request.bytes, &request.length,
                                               challenged.bytes, challenged.length, SUPPORTED,
                                               COUNT_SUPPORTED, asked.user, strlen(asked.user), &key,
                                               true));
}

static stun_types_protection protection(void) {
    if (asked.user == NULL) return STUN_TYPES_UNPROTECTED;
    if (asked.short_term) return STUN_TYPES_SHORT_TERM;
    return challenged.length > 0 ? STUN_TYPES_LONG_TERM : STUN_TYPES_FIRST_LONG_TERM;
}

static bool write_request(void) {
    if (!begin_request()) return false;
    switch (protection()) {
    case STUN_TYPES_SHORT_TERM: return sign_short_term();
    case STUN_TYPES_LONG_TERM: return sign_long_term();
    default: return add_fingerprint();
    }
}

/* ---- A transaction --------------------------------------------------------------------------- */

/* Sends, or waits, as the transaction wants it. False: the connection failed. */
static bool act(stun_types_transaction *transaction, const stun_types_action *action, uint64_t end,
                stun_types_received *taken) {
    if (action->kind == STUN_TYPES_SEND_NOW) return send_request();
    uint64_t until = action->until < end ? action->until : end;
    int got = receive_until(until);
    if (got != RECEIVED) return got == NOTHING_YET;
    if (!is_fine(stun_types_transaction_receive(transaction, &key, response.bytes, response.length,
                                                NULL, 0, taken))) {
        taken->kind = STUN_TYPES_NOT_FOR_THIS;
    }
    if (taken->kind == STUN_TYPES_NOT_FOR_THIS) return true;
    heard = true;
    if (taken->kind < STUN_TYPES_FAILED_UNKNOWN_ATTRIBUTE) {
        discarded = true;
        claimed = taken->number;
    }
    return true;
}

/* Prints how a transaction ended without a response. */
static int tell_end(stun_types_end end, const stun_types_received *taken) {
    const char *host = asked.server.host;
    if (end == STUN_TYPES_TRANSPORT_FAILED) {
        return say(STATUS_SILENT, "%s: %s", host, strerror(errno));
    }
    if (discarded && claimed != 0) {
        return say(STATUS_SILENT, "%s: no response is authentic; one claims error %u", host,
                   (unsigned)claimed);
    }
    if (discarded) return say(STATUS_SILENT, "%s: no response is authentic", host);
    if (end == STUN_TYPES_TIMED_OUT || end == STUN_TYPES_CANCELLED) {
        return say(STATUS_SILENT, "%s: no response in time", host);
    }
    if (taken->kind == STUN_TYPES_FAILED_UNKNOWN_ATTRIBUTE) {
        return say(STATUS_REFUSED, "the response has an unknown attribute, 0x%04x",
                   (unsigned)taken->number);
    }
    return say(STATUS_REFUSED, "the response can't be used");
}

/* Carries a transaction through at one address: its end, and what was taken. */
static stun_types_end carry(stun_types_transaction *transaction, stun_types_received *taken) {
    uint64_t end = asked.wait != 0 ? milliseconds() + asked.wait : UINT64_MAX;
    stun_types_action action;
    while (is_fine(stun_types_transaction_poll(transaction, milliseconds(), &action))) {
        if (action.kind == STUN_TYPES_ENDED) return action.end;
        if (milliseconds() >= end) return STUN_TYPES_CANCELLED;
        if (!act(transaction, &action, end, taken)) return STUN_TYPES_TRANSPORT_FAILED;
        if (taken->kind >= STUN_TYPES_TAKEN_SUCCESS) return STUN_TYPES_ANSWERED;
    }
    return STUN_TYPES_RESPONSE_REFUSED;
}

/* Sends the request until a response is taken. An address that nobody listens at is given up for the
 * next one of the host. */
static int exchange(stun_types_received *taken) {
    const stun_types_schedule schedule = stun_types_schedule_default();
    stun_types_transaction transaction;
    stun_types_end end;
    discarded = false;
    do {
        memset(taken, 0, sizeof *taken);
        stun_types_answer answer = stun_types_transaction_begin(
            &transaction, request.bytes, request.length, &schedule,
            asked.reliable ? STUN_TYPES_TCP : STUN_TYPES_UDP, protection(), &key, milliseconds());
        if (!is_fine(answer)) return say(STATUS_BROKEN, "%s", stun_types_status_text(answer.code));
        end = carry(&transaction, taken);
    } while (end == STUN_TYPES_TRANSPORT_FAILED && !heard && connect_next());
    return end == STUN_TYPES_ANSWERED ? STATUS_DONE : tell_end(end, taken);
}

/* ---- What is received ------------------------------------------------------------------------ */

bool find_address(uint16_t type, stun_types_address *address) {
    stun_types_attribute found;
    return stun_types_find(response.bytes, response.length, type, &found) &&
           is_fine(stun_types_read_xor_address(response.bytes, response.length, &found, address));
}

/* Keeps the challenge of the response, and makes its key. Returns what is wrong with it. */
static stun_types_answer take_challenge(void) {
    bool again = challenged.length > 0;
    stun_types_answer answer = stun_types_challenge_of(
        response.bytes, response.length, SUPPORTED, COUNT_SUPPORTED, again,
        challenged.bytes + challenge.realm_at, challenge.realm_length,
        again && challenge.algorithms_at > 0, &challenge);
    if (!is_fine(answer)) return answer;
    challenged.length = response.length;
    memcpy(challenged.bytes, response.bytes, response.length);
    return stun_types_key_for(&key, challenged.bytes, challenged.length, SUPPORTED, COUNT_SUPPORTED,
                              asked.user, strlen(asked.user), asked.password, strlen(asked.password));
}

static bool asks_for_login(const stun_types_received *taken) {
    return asked.user != NULL && !asked.short_term && taken->kind == STUN_TYPES_TAKEN_ERROR &&
           (taken->number == STUN_TYPES_CODE_UNAUTHORIZED ||
            taken->number == STUN_TYPES_CODE_STALE_NONCE);
}

/* Whether an authentic response sends the client to another server (RFC 8489, section 10), of the same family,
 * which it hasn't asked yet. */
static bool find_alternate(const stun_types_received *taken, stun_types_address *alternate) {
    static stun_types_address seen[MOST_SERVERS];
    static size_t seen_count;
    stun_types_attribute found;
    bool is_sent = taken->kind == STUN_TYPES_TAKEN_ERROR && taken->number == STUN_TYPES_CODE_TRY_ALTERNATE &&
                   taken->algorithm != 0;
    if (!is_sent || seen_count + 1 >= MOST_SERVERS || !find_server(&seen[seen_count++]) ||
        !stun_types_find(response.bytes, response.length, STUN_TYPES_ATTRIBUTE_ALTERNATE_SERVER, &found) ||
        !is_fine(stun_types_read_address(response.bytes, response.length, &found, alternate))) {
        return false;
    }
    for (size_t i = 0; i < seen_count; i++) {
        if (memcmp(alternate, &seen[i], sizeof *alternate) == 0) return false;
    }
    return alternate->family == seen[seen_count - 1].family;
}

static int ask_all(void) {
    stun_types_received taken;
    stun_types_address alternate;
    for (int sent = 1;; sent++) {
        if (!write_request()) {
            return say(STATUS_BROKEN, "the request can't be made: %s", stun_types_status_text(refusal));
        }
        int status = exchange(&taken);
        if (status != STATUS_DONE) return status;
        if (taken.kind == STUN_TYPES_TAKEN_SUCCESS) return STATUS_DONE;
        if (find_alternate(&taken, &alternate)) {
            if ((status = move_to(&alternate)) != STATUS_DONE) return status;
            sent = 0;
            continue;
        }
        if (!asks_for_login(&taken) || sent == MOST_REQUESTS) return tell_error("", taken.number);
        stun_types_answer answer = take_challenge();
        if (answer.code == STUN_TYPES_SAME_CREDENTIALS) return tell_error("", taken.number);
        if (!is_fine(answer)) {
            return say(answer.code == STUN_TYPES_OUT_OF_MEMORY ? STATUS_BROKEN : STATUS_REFUSED, "%s",
                       stun_types_status_text(answer.code));
        }
    }
}

int ask(void) {
    key = stun_types_key_none();
    int status = ask_all();
    stun_types_key_free(&key);
    return status;
}
