/* A server without credentials. */
#include "call.h"

#include <string.h>

/* Checks that a room of this size is too small, and untouched. */
static void check_refused(slice datagram, const stun_types_address *source, size_t size,
                          size_t length) {
    uint8_t *small = room(size);
    size_t *result = NEW(size_t);
    ANSWERS(stun_types_binding_reply(datagram.bytes, datagram.length, source, small, size, result),
            LENGTHS(STUN_TYPES_TOO_SMALL, length, size));
    CHECK(is_untouched(small, size) && *result == 0);
}

static void binding_reply(void) {
    slice octets = call_octets();
    uint64_t port = call_count();
    slice datagram = call_octets();
    stun_types_address source;
    size_t length = 1, size;
    uint8_t *reply = room(STUN_TYPES_GREATEST_REPLY), *same;
    memset(&source, 0, sizeof source);
    memcpy(source.octets, octets.bytes, octets.length == 4 ? 4 : 16);
    source.family = octets.length == 4 ? 4 : 6;
    source.port = (uint16_t)port;
    if (!is_taken(stun_types_binding_reply(datagram.bytes, datagram.length, &source, reply,
                                           STUN_TYPES_GREATEST_REPLY, &length)))
        return;
    CHECK(length <= 3 * datagram.length && length <= datagram.length + 48);
    CHECK(is_untouched(reply + length, STUN_TYPES_GREATEST_REPLY - length));
    answer_octets(reply, length);
    if (length == 0) return;
    same = room(length);
    ANSWERS(stun_types_binding_reply(datagram.bytes, datagram.length, &source, same, length, &size),
            OK_ANSWER);
    CHECK(size == length && memcmp(same, reply, length) == 0);
    for (size = 0; size < length; size++)
        if (length <= 200 || size == 19 || size == length / 2 || size + 1 == length)
            check_refused(datagram, &source, size, length);
}

const verb verbs_of_servers[] = {{"binding-reply", binding_reply, false}, {NULL, NULL, false}};
