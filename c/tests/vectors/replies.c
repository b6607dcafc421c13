/* Error responses, as a server writes them in C, and what a response is to a request. */
#include "call.h"

#include <stdlib.h>
#include <string.h>

enum { TYPES_MOST = 40000 };

/* The types of the next word, which has one after the other. */
static size_t call_types(uint16_t *types) {
    slice octets = call_octets();
    size_t count = octets.length / 2, at;
    if (count > TYPES_MOST) abort();
    for (at = 0; at < count; at++)
        types[at] = (uint16_t)(octets.bytes[2 * at] << 8 | octets.bytes[2 * at + 1]);
    return count;
}

/* The request of the next word, and its error response in the room before it; false if there is
   none. */
static bool begin(draft *message, slice *request) {
    size_t size = call_room();
    *request = call_octets();
    if (!is_taken(stun_types_parse(request->bytes, request->length))) return false;
    if (header_of(*request).message_class != STUN_TYPES_CLASS_REQUEST) {
        answer_text("!NotRequest");
        return false;
    }
    return is_taken(draft_reply(message, size, *request, STUN_TYPES_CLASS_ERROR));
}

/* Answers with why a response isn't whole, or `ok`, and with the response. */
static void answer_reply(const draft *message, stun_types_answer result) {
    if (result.code == STUN_TYPES_OK) answer_text("ok");
    else answer_refusal_with(result, ':');
    answer_text(" ");
    answer_draft(message);
}

static stun_types_answer add_bad_request(draft *message) {
    stun_types_answer result = stun_types_add(message->room, message->size, &message->written,
                                              STUN_TYPES_ATTRIBUTE_SOFTWARE, "stun-types", 10);
    if (result.code != STUN_TYPES_OK) return result;
    return stun_types_add_error(message->room, message->size, &message->written,
                                STUN_TYPES_CODE_BAD_REQUEST, "Bad Request", 11);
}

static void bad_request(void) {
    draft message;
    slice request;
    if (begin(&message, &request)) answer_reply(&message, add_bad_request(&message));
}

static void unknown_attributes(void) {
    static uint16_t types[TYPES_MOST];
    draft message;
    slice request;
    if (begin(&message, &request)) {
        size_t count = call_types(types);
        answer_reply(&message, draft_unknown(&message, types, count));
    }
}

static void check_attributes(void) {
    static uint16_t supported[TYPES_MOST], required[TYPES_MOST], unknown[TYPES_MOST];
    size_t supported_count, required_count, count, at;
    stun_types_attribute attribute;
    draft message;
    slice request;
    bool is_missing = false;
    if (!begin(&message, &request)) return;
    supported_count = call_types(supported);
    required_count = call_types(required);
    count = stun_types_unknown_types(request.bytes, request.length, supported, supported_count,
                                     unknown, COUNT(unknown));
    for (at = 0; at < required_count; at++)
        if (!stun_types_find(request.bytes, request.length, required[at], &attribute))
            is_missing = true;
    if (count != 0) answer_reply(&message, draft_unknown(&message, unknown, count));
    else if (is_missing) answer_reply(&message, add_bad_request(&message));
    else answer_text("-");
}

/* Whether a response is one to a request without credentials, by the request's transaction; false
   if the request is signed, and no transaction begins without its key. */
static bool is_for(slice request, slice response, bool *is_response) {
    const stun_types_schedule schedule = STUN_TYPES_SCHEDULE;
    const stun_types_key none = STUN_TYPES_KEY_INIT;
    stun_types_transaction transaction;
    stun_types_action action;
    stun_types_received received;
    stun_types_answer result = stun_types_transaction_begin(
        &transaction, request.bytes, request.length, &schedule, STUN_TYPES_UDP,
        STUN_TYPES_UNPROTECTED, &none, 0);
    if (result.code == STUN_TYPES_SIGNED) return false;
    ANSWERS(result, OK_ANSWER);
    ANSWERS(stun_types_transaction_poll(&transaction, 0, &action), OK_ANSWER);
    ANSWERS(stun_types_transaction_receive(&transaction, &none, response.bytes, response.length,
                                           NULL, 0, &received),
            OK_ANSWER);
    *is_response = received.kind != STUN_TYPES_NOT_FOR_THIS;
    return true;
}

static void answers(void) {
    slice request = call_octets(), response = call_octets();
    stun_types_header asked = header_of(request), answered = header_of(response);
    bool by_headers = is_response_to(&asked, &answered), by_transaction = false;
    if (is_for(request, response, &by_transaction)) CHECK(by_headers == by_transaction);
    answer_text(by_headers ? "yes" : "no");
}

const verb verbs_of_replies[] = {
    {"bad-request", bad_request, false},
    {"unknown-attributes", unknown_attributes, false},
    {"check-attributes", check_attributes, false},
    {"answers", answers, false},
    {NULL, NULL, false},
};
