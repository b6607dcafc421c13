/* What responders answer: the agent of c/examples, and servers. */
#include "../../examples/ice_agent.h"
#include "../heap.h"
#include "call.h"

#include <string.h>

static const stun_types_address source = {{192, 0, 2, 1}, 32853, 4};

void answer_result(slice request, slice response) {
    stun_types_header asked = header_of(request), answered = header_of(response);
    stun_types_attribute found;
    uint16_t code = 0;
    size_t reason_at, reason_length;
    ANSWERS(stun_types_parse(response.bytes, response.length), OK_ANSWER);
    CHECK(is_response_to(&asked, &answered));
    if (answered.message_class == STUN_TYPES_CLASS_SUCCESS) {
        answer_text("success");
        return;
    }
    CHECK(stun_types_find(response.bytes, response.length, STUN_TYPES_ATTRIBUTE_ERROR_CODE, &found));
    ANSWERS(stun_types_read_error(response.bytes, response.length, &found, &code, &reason_at,
                                  &reason_length),
            OK_ANSWER);
    answer_text("%u", (unsigned)code);
}

/* The agent drops a check if it is out of memory, so no request for memory is refused. */
static void respond_as_agent(slice message) {
    ice_agent agent = {"evtj", STUN_TYPES_KEY_INIT, 1000, false};
    ice_answer *to = NEW(ice_answer);
    heap_own(true);
    ANSWERS(stun_types_key_short_term(&agent.key, "VOkJxbRl1RmTxUk/WvJxBt", 22), OK_ANSWER);
    ice_take(&agent, message.bytes, message.length, &source, to);
    stun_types_key_free(&agent.key);
    heap_own(false);
    if (to->length == 0) {
        answer_text("-");
        return;
    }
    answer_result(message, given(to->reply, to->length));
}

static void respond_to_anybody(slice message) {
    uint8_t *reply = room(STUN_TYPES_GREATEST_REPLY);
    size_t length = 0;
    ANSWERS(stun_types_binding_reply(message.bytes, message.length, &source, reply,
                                     STUN_TYPES_GREATEST_REPLY, &length),
            OK_ANSWER);
    if (length == 0) answer_text("-");
    else answer_result(message, given(reply, length));
}

static void responder(void) {
    const char *kind = call_word();
    slice message = call_octets();
    if (kind == NULL || strcmp(kind, "turn") == 0) answer_unknown();
    else if (stun_types_parse(message.bytes, message.length).code != STUN_TYPES_OK) answer_text("-");
    else if (strcmp(kind, "ice") == 0) respond_as_agent(message);
    else if (strcmp(kind, "open") == 0) respond_to_anybody(message);
    else if (strcmp(kind, "short") == 0 || strcmp(kind, "long") == 0)
        respond_to_user(strcmp(kind, "long") == 0, message);
    else answer_unknown();
}

const verb verbs_of_responders[] = {{"responder", responder, true}, {NULL, NULL, false}};
