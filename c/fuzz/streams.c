/* Streams and ChannelData. */
#include <string.h>

#include "fuzz.h"

/* ChannelData of a few bytes, with padding, on a channel up to 0x7FFF; how many bytes it has. */
static size_t channel_data_at(source *from, uint8_t *bytes) {
    size_t data = take(from) % 40, length = 4 + model_padded(data), i;
    bytes[0] = (uint8_t)(0x40 + take(from) % 0x40);
    bytes[1] = (uint8_t)take(from);
    bytes[2] = 0;
    bytes[3] = (uint8_t)data;
    for (i = 4; i < length; i++) bytes[i] = (uint8_t)i;
    return length;
}

void check_stream(source *from) {
    static const size_t buffers[] = {20, 32, 60, 300, 65552};
    static uint8_t bytes[17 * 1024];
    static text message;
    size_t size = buffers[take(from) % COUNT(buffers)], length = 0, at = 0, whole = 0, i;
    unsigned count = take(from) % 6, cut = take(from), kind = take(from);
    uint8_t *buffer = big_place(WRITTEN, size);
    stun_types_stream stream = {0};
    stun_types_answer end = FINE;
    stream.carries = (stun_types_stream_kind)(kind % 3);
    for (i = 0; i < count; i++) {
        if (kind % 3 != 0 && take(from) % 2 == 0) length += channel_data_at(from, bytes + length);
        else {
            seed(&message, take(from) % 64);
            if (length + message.length > 16 * 1024) break;
            memcpy(bytes + length, message.bytes, message.length);
            length += message.length;
        }
    }
    if (kind == 255) stream.carries = (stun_types_stream_kind)(3 + take(from));
    if (stream.carries > 2) {
        size_t taken = 99;
        stun_types_answer answer =
            stun_types_stream_push(&stream, buffer, size, give(bytes, 1), 1, &taken);
        HOLDS(answer.code == STUN_TYPES_BAD_ARGUMENT && taken == 99 && stream.pending == 0);
        return;
    }
    if (length > 0 && take(from) % 3 == 0)
        bytes[take_two(from) % length] ^= (uint8_t)(1u << take(from) % 8);
    if (length > 0 && take(from) % 3 == 0) length -= take(from) % length;
    while (at < length) {
        /* at is how many bytes were pushed, whole how many of them are those of whole messages */
        size_t piece = cut % 16 == 0 ? 1 : cut % 16 == 1 ? length : 1 + take(from) % (1 + cut / 4);
        size_t taken = 99, next = 0;
        uint8_t *given;
        stun_types_answer answer;
        if (piece > length - at) piece = length - at;
        given = big_place(OTHER, piece);
        memcpy(given, bytes + at, piece);
        answer = stun_types_stream_push(&stream, buffer, size, given, piece, &taken);
        end = model_cut(stream.carries, bytes + whole, at + piece - whole, size, &next);
        HOLDS(is_same(answer, end));
        HOLDS(stream.offset == (answer.code == STUN_TYPES_OK ? whole + next : whole));
        if (answer.code != STUN_TYPES_OK) {
            HOLDS(taken == 99 && stream.pending == at - whole);
            return;
        }
        HOLDS(taken > 0 && taken <= piece);
        at += taken;
        if (next != 0) {
            HOLDS(stream.message == next && at == whole + next && stream.pending == 0);
            HOLDS(memcmp(buffer, bytes + whole, next) == 0);
            whole = at;
        } else {
            HOLDS(stream.message == 0 && taken == piece && stream.pending == at - whole);
            HOLDS(memcmp(buffer, bytes + whole, at - whole) == 0);
        }
    }
}

/* ---- ChannelData */

void check_channel_data(source *from) {
    static uint8_t data[70000];
    unsigned channel = take(from) % 8 == 0 ? take_two(from) : 0x4000 + take_two(from) % 0x1000;
    bool is_padded = take(from) % 2 == 0;
    size_t length = take(from) % 64 == 0 ? take_two(from) + take(from) % 4 : take(from) % 40;
    size_t needed = is_padded ? model_padded(4 + length) : 4 + length, size = needed, written = 99;
    uint8_t *room;
    size_t i, framed = 99;
    stun_types_channel_data told;
    stun_types_answer answer;
    if (take(from) % 4 == 0) size = size * take(from) / 128;
    if (size > ROOM) size = ROOM;
    room = big_place(WRITTEN, size);
    for (i = 0; i < length; i++) data[i] = (uint8_t)(i < 8 ? take(from) : i);
    answer = stun_types_write_channel_data((uint16_t)channel, give(data, length), length, is_padded,
                                           room, size, &written);
    if (answer.code != STUN_TYPES_OK) {
        HOLDS(written == 99);
        HOLDS((answer.code == STUN_TYPES_OUT_OF_RANGE && (channel < 0x4000 || channel > 0x4FFF))
              || (answer.code == STUN_TYPES_TOO_LARGE && length > 65535 && answer.actual == length)
              || (answer.code == STUN_TYPES_TOO_SMALL && size < needed && answer.expected == needed
                  && answer.actual == size));
        return;
    }
    HOLDS(channel >= 0x4000 && channel <= 0x4FFF && length <= 65535 && size >= needed
          && written == needed);
    HOLDS(model_number(room) == channel && model_number(room + 2) == length);
    HOLDS(memcmp(room + 4, data, length) == 0);
    for (i = 4 + length; i < written; i++) HOLDS(room[i] == 0);
    SUCCEEDS(stun_types_read_channel_data(room, written, &told));
    HOLDS(told.channel == channel && told.length == length && told.data_at == 4);
    SUCCEEDS(stun_types_channel_data_length(room, written, &framed));
    HOLDS(framed == model_padded(4 + length));
    if (written > 4) {
        size_t cut = take_two(from) % (4 + length);
        answer = stun_types_read_channel_data(room, cut, &told);
        HOLDS(
            is_same(answer, model_answer(STUN_TYPES_TRUNCATED, 0, cut < 4 ? 4 : 4 + length, cut)));
    }
}
