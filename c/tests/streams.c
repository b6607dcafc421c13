/* Streams that none has: what a row can't say is pending, what none carries, and a spare word that
   isn't 0. */
#include "check.h"
#include "tests.h"

#include <string.h>

void test_streams(void) {
    slice piece;
    uint8_t *buffer;
    stun_types_stream *stream;
    size_t *taken;
    row("stun_types_stream_push", "the greatest number of bytes is pending");
    piece = hex("0001 0000 2112A442 6162636465666768696A6B6C");
    buffer = room(32);
    stream = NEW(stun_types_stream);
    stream->offset = 0;
    stream->pending = SIZE_MAX;
    stream->message = 0;
    stream->carries = STUN_TYPES_STREAM_MESSAGES;
    stream->reserved = 0;
    taken = NEW(size_t);
    ANSWERS(stun_types_stream_push(stream, buffer, 32, piece.bytes, piece.length, taken),
            PLAIN(STUN_TYPES_BAD_ARGUMENT));
    CHECK(is_untouched(taken, sizeof *taken) && is_untouched(buffer, 32));
    CHECK(stream->offset == 0 && stream->pending == SIZE_MAX && stream->message == 0);
    row("stun_types_stream_push", "what no stream carries");
    piece = hex("0001 0000 2112A442 6162636465666768696A6B6C");
    buffer = room(32);
    stream = NEW(stun_types_stream);
    memset(stream, 0, sizeof *stream);
    stream->carries = (stun_types_stream_kind)3;
    taken = NEW(size_t);
    ANSWERS(stun_types_stream_push(stream, buffer, 32, piece.bytes, piece.length, taken),
            PLAIN(STUN_TYPES_BAD_ARGUMENT));
    CHECK(is_untouched(taken, sizeof *taken) && is_untouched(buffer, 32));
    CHECK(stream->pending == 0 && stream->message == 0 && stream->carries == 3);
    row("stun_types_stream_push", "a spare word that isn't 0");
    piece = hex("0001 0000 2112A442 6162636465666768696A6B6C");
    buffer = room(32);
    stream = NEW(stun_types_stream);
    stream->offset = stream->pending = stream->message = 0;
    stream->carries = STUN_TYPES_STREAM_MESSAGES;
    stream->reserved = 1;
    taken = NEW(size_t);
    ANSWERS(stun_types_stream_push(stream, buffer, 32, piece.bytes, piece.length, taken),
            PLAIN(STUN_TYPES_BAD_ARGUMENT));
    CHECK(is_untouched(taken, sizeof *taken) && is_untouched(buffer, 32));
    CHECK(stream->pending == 0 && stream->message == 0 && stream->reserved == 1);
}
