/* Messages that are written, and what is looked for in them. */
#include "call.h"

#include <stdlib.h>
#include <string.h>

stun_types_answer draft_begin(draft *message, size_t size, stun_types_class message_class,
                              stun_types_method method, const stun_types_id *id) {
    uint16_t type = stun_types_message_type(message_class, method);
    message->room = room(size);
    message->size = size;
    message->written = 0;
    return stun_types_begin(message->room, size, type, id, &message->written);
}

stun_types_header header_of(slice octets) {
    stun_types_header header;
    memset(&header, 0, sizeof header);
    ANSWERS(stun_types_read_header(octets.bytes, octets.length, &header), OK_ANSWER);
    return header;
}

bool is_response_to(const stun_types_header *request, const stun_types_header *response) {
    bool is_response = response->message_class == STUN_TYPES_CLASS_SUCCESS
        || response->message_class == STUN_TYPES_CLASS_ERROR;
    return is_response && response->method == request->method
        && memcmp(response->id.bytes, request->id.bytes, sizeof request->id.bytes) == 0;
}

stun_types_answer draft_reply(draft *message, size_t size, slice request,
                              stun_types_class message_class) {
    message->room = room(size);
    message->size = size;
    message->written = 0;
    return stun_types_begin_reply(message->room, size, request.bytes, request.length, message_class,
                                  &message->written);
}

stun_types_answer draft_unknown(draft *message, const uint16_t *types, size_t count) {
    stun_types_answer result = stun_types_add(message->room, message->size, &message->written,
                                              STUN_TYPES_ATTRIBUTE_SOFTWARE, "stun-types", 10);
    if (result.code == STUN_TYPES_OK)
        result = stun_types_add_error(message->room, message->size, &message->written,
                                      STUN_TYPES_CODE_UNKNOWN_ATTRIBUTE, "Unknown Attributes", 18);
    if (result.code != STUN_TYPES_OK || count == 0) return result;
    return stun_types_add_unknown_types(message->room, message->size, &message->written, types,
                                        count);
}

void answer_draft(const draft *message) {
    CHECK(is_untouched(message->room + message->written, message->size - message->written));
    answer_octets(message->room, message->written);
}

slice message_with(uint16_t type, slice value, const stun_types_id *id) {
    static uint8_t bytes[1 << 17];
    size_t padded = (value.length + 3) / 4 * 4;
    const uint8_t header[8] = {0, 1, 0, 0, 0x21, 0x12, 0xA4, 0x42};
    if (padded + 24 > sizeof bytes) abort();
    memset(bytes, 0, padded + 24);
    memcpy(bytes, header, sizeof header);
    bytes[2] = (uint8_t)((padded + 4) >> 8);
    bytes[3] = (uint8_t)(padded + 4);
    memcpy(bytes + 8, id->bytes, sizeof id->bytes);
    bytes[20] = (uint8_t)(type >> 8);
    bytes[21] = (uint8_t)type;
    bytes[22] = (uint8_t)(value.length >> 8);
    bytes[23] = (uint8_t)value.length;
    if (value.length != 0) memcpy(bytes + 24, value.bytes, value.length);
    return given(bytes, padded + 24);
}

bool find_value(slice octets, uint16_t type, slice *value) {
    stun_types_attribute attribute;
    if (!stun_types_find(octets.bytes, octets.length, type, &attribute)) return false;
    value->bytes = octets.bytes + attribute.value_at;
    value->length = attribute.length;
    return true;
}
