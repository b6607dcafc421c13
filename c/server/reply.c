/* The reply to a message, with its SOFTWARE or without. */
#include "server.h"

/* (its FINGERPRINT is computed anew if it has one) */
size_t without_software(uint8_t *reply, size_t length) {
    enum { HEADER = 20, ATTRIBUTE_HEADER = 4, FINGERPRINT = 8 };
    stun_types_attribute software, fingerprint;
    if (!stun_types_find(reply, length, STUN_TYPES_ATTRIBUTE_SOFTWARE, &software)) return length;
    bool ends = stun_types_find(reply, length, STUN_TYPES_ATTRIBUTE_FINGERPRINT, &fingerprint);
    size_t from = software.value_at - ATTRIBUTE_HEADER;
    size_t to = software.value_at + (software.length + 3u) / 4 * 4;
    size_t end = ends ? length - FINGERPRINT : length;
    memmove(reply + from, reply + to, end - to);
    end -= to - from;
    reply[2] = (uint8_t)((end - HEADER) >> 8);
    reply[3] = (uint8_t)(end - HEADER);
    if (!ends) return end;
    stun_types_answer answer = stun_types_add_fingerprint(reply, length, &end);
    return answer.code == STUN_TYPES_OK ? end : 0;
}

size_t reply_to(const uint8_t *message, size_t length, const stun_types_address *source,
                uint8_t *room) {
    size_t written = 0;
    stun_types_answer answer = stun_types_binding_reply(message, length, source, room,
                                                        STUN_TYPES_GREATEST_REPLY, &written);
    if (answer.code != STUN_TYPES_OK || written == 0) return 0;
    return setting(SOFTWARE) ? written : without_software(room, written);
}
