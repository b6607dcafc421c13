/* Messages in a stream in pieces, and ChannelData. */
#include "call.h"

#include <string.h>

/* The most octets of a stream that is cut at every two places. */
enum { SHORT = 200 };

/* Answers with why no message begins, and where. */
static void answer_end(const stun_types_stream *stream, stun_types_answer result) {
    unsigned long long offset = stream->offset, actual = result.actual;
    CHECK(stream->message == 0);
    if (result.code == STUN_TYPES_NOT_STUN) answer_text("end %llu NotStun", offset);
    else if (result.code == STUN_TYPES_NOT_PADDED)
        answer_text("end %llu NotPadded %llu", offset, actual);
    else if (result.code == STUN_TYPES_TOO_LARGE)
        answer_text("end %llu TooLong %llu", offset, actual);
    else answer_refusal(result);
}

/* How a stream is cut: after each number of octets, or at two places if that is 0. */
typedef struct {
    size_t each, first, second;
} cut_places;

static size_t end_of(const cut_places *cuts, size_t at, size_t length) {
    if (cuts->each != 0) return length - at < cuts->each ? length : at + cuts->each;
    if (at < cuts->first) return cuts->first;
    return at < cuts->second ? cuts->second : length;
}

/* The stream whose pieces are pushed, a room for a piece, and the buffer in which the stream
   gathers messages. */
static slice octets;
static uint8_t *piece_room, *buffer;
static size_t buffer_size;

/* Pushes what is left of a piece, in a slice of its own. What is refused leaves what is pending. */
static stun_types_answer push_rest(stun_types_stream *stream, size_t at, size_t end,
                                   size_t *taken) {
    uint8_t *piece = guarded_end(piece_room, octets.length, end - at);
    stun_types_stream before = *stream;
    stun_types_answer result;
    memcpy(piece, octets.bytes + at, end - at);
    *taken = 0;
    result = stun_types_stream_push(stream, buffer, buffer_size, piece, end - at, taken);
    if (result.code == STUN_TYPES_OK) {
        CHECK(*taken > 0 && *taken <= end - at);
        CHECK(stream->message == 0 || stream->pending == 0);
        CHECK(stream->offset + stream->pending == at + *taken);
    } else {
        CHECK(*taken == 0 && stream->offset == before.offset);
        CHECK(stream->pending == before.pending && stream->offset + stream->pending == at);
        CHECK(memcmp(buffer, octets.bytes + stream->offset, stream->pending) == 0);
    }
    return result;
}

/* What the streams of a call carry. */
static stun_types_stream_kind carried;

/* A stream of which nothing has come. */
static stun_types_stream begun(void) {
    stun_types_stream stream = {0};
    stream.carries = carried;
    return stream;
}

/* Answers with what a stream yields that is cut at these places. */
static void yields(const cut_places *cuts) {
    stun_types_stream stream = begun();
    size_t at = 0, taken;
    while (at < octets.length) {
        size_t end = end_of(cuts, at, octets.length);
        while (at < end) {
            stun_types_answer result = push_rest(&stream, at, end, &taken);
            if (result.code != STUN_TYPES_OK) {
                answer_space();
                answer_end(&stream, result);
                return;
            }
            at += taken;
            if (taken == 0) return;
            if (stream.message == 0) continue;
            answer_space();
            answer_octets(buffer, stream.message);
        }
    }
    answer_space();
    answer_text("rest ");
    answer_octets(buffer, stream.pending);
}

/* The next size of pieces: each of a short stream, and a few of a longer one. */
static size_t next_size(size_t size) { return octets.length <= SHORT ? size + 1 : size * 11; }

/* The cuts of the way with this number: first none, then pieces of each length, then two places. */
static cut_places cuts_of(uint32_t number) {
    cut_places cuts = {octets.length, 0, 0};
    size_t length = octets.length, size = 1, first;
    if (length == 0 || number-- == 0) return cuts;
    for (; size < length; size = next_size(size))
        if (number-- == 0) {
            cuts.each = size;
            return cuts;
        }
    cuts.each = 0;
    for (first = 0; first < length; first++) {
        if (number < length - first) {
            cuts.first = first;
            cuts.second = first + number;
            return cuts;
        }
        number -= (uint32_t)(length - first);
    }
    return cuts;
}

static void yields_in_way(uint32_t number) {
    cut_places cuts = cuts_of(number);
    yields(&cuts);
}

static void stream_of(stun_types_stream_kind carries) {
    uint32_t ways = 1;
    size_t size;
    carried = carries;
    buffer_size = (size_t)call_count();
    octets = call_octets();
    piece_room = room(octets.length);
    buffer = room(buffer_size);
    for (size = 1; size < octets.length; size = next_size(size)) ways++;
    if (octets.length <= SHORT) ways += (uint32_t)(octets.length * (octets.length + 1) / 2);
    answer_each_way(yields_in_way, ways);
}

/* Pushes a piece, and answers with what it did. */
static stun_types_answer push_piece(stun_types_stream *kept, slice piece) {
    size_t *taken_out = NEW(size_t), taken;
    stun_types_answer result =
        stun_types_stream_push(kept, buffer, buffer_size, piece.bytes, piece.length, taken_out);
    taken = *taken_out;
    if (result.code != STUN_TYPES_OK) CHECK(is_untouched(taken_out, sizeof *taken_out));
    if (result.code == STUN_TYPES_BAD_ARGUMENT) answer_text("!NoStream");
    else if (result.code != STUN_TYPES_OK) answer_end(kept, result);
    else {
        answer_text("%zu ", taken);
        answer_octets(buffer, kept->message);
        answer_text(" ");
        answer_octets(buffer, kept->pending);
        answer_text(" %llu", (unsigned long long)kept->offset);
    }
    return result;
}

/* (a connection is closed at the end: what more comes is no more pushed, and answered as before) */
static void pieces_of(stun_types_stream_kind carries) {
    stun_types_stream kept;
    stun_types_answer result = OK_ANSWER;
    char *word;
    carried = carries;
    kept = begun();
    buffer_size = (size_t)call_count();
    buffer = room(buffer_size);
    while ((word = call_word()) != NULL) {
        answer_space();
        if (result.code == STUN_TYPES_OK) result = push_piece(&kept, octets_of(word));
        else answer_end(&kept, result);
    }
}

static void push_of(stun_types_stream_kind carries) {
    stun_types_stream kept;
    stun_types_answer result;
    slice held, piece;
    size_t shown;
    carried = carries;
    kept = begun();
    buffer_size = (size_t)call_count();
    kept.offset = call_count();
    held = call_octets();
    piece = call_octets();
    kept.pending = held.length;
    buffer = room(buffer_size);
    shown = held.length < buffer_size ? held.length : buffer_size;
    if (shown != 0) memcpy(buffer, held.bytes, shown);
    result = push_piece(&kept, piece);
    if (result.code == STUN_TYPES_OK) return;
    CHECK(shown == 0 || memcmp(buffer, held.bytes, shown) == 0);
    if (result.code == STUN_TYPES_BAD_ARGUMENT)
        CHECK(kept.pending == held.length && is_untouched(buffer + shown, buffer_size - shown));
}

static void stream(void) { stream_of(STUN_TYPES_STREAM_MESSAGES); }
static void turn_stream(void) { stream_of(STUN_TYPES_STREAM_CHANNEL_DATA); }
static void old_turn_stream(void) { stream_of(STUN_TYPES_STREAM_OLD_CHANNEL_DATA); }
static void pieces(void) { pieces_of(STUN_TYPES_STREAM_MESSAGES); }
static void turn_pieces(void) { pieces_of(STUN_TYPES_STREAM_CHANNEL_DATA); }
static void old_turn_pieces(void) { pieces_of(STUN_TYPES_STREAM_OLD_CHANNEL_DATA); }
static void push(void) { push_of(STUN_TYPES_STREAM_MESSAGES); }
static void turn_push(void) { push_of(STUN_TYPES_STREAM_CHANNEL_DATA); }
static void old_turn_push(void) { push_of(STUN_TYPES_STREAM_OLD_CHANNEL_DATA); }

/* How many octets the message or ChannelData has that begins here, or 0. */
static stun_types_answer frame_length(const uint8_t *bytes, size_t length, size_t *found) {
    *found = 0;
    if (length == 0) return OK_ANSWER;
    if (stun_types_protocol_of(bytes[0]) == STUN_TYPES_PROTOCOL_CHANNEL_DATA)
        return stun_types_channel_data_length(bytes, length, found);
    return stun_types_framed_length(bytes, length, found);
}

/* How many are whole at the start of octets; *at is their end. */
static size_t frames_in(slice whole, size_t *at, stun_types_answer *result, bool is_shown) {
    size_t count = 0, length;
    for (*at = 0;; *at += length, count++) {
        *result = frame_length(whole.bytes + *at, whole.length - *at, &length);
        if (result->code != STUN_TYPES_OK || length == 0) return count;
        if (length > whole.length - *at) return count;
        if (!is_shown) continue;
        answer_space();
        answer_octets(whole.bytes + *at, length);
    }
}

static void frames(void) {
    slice whole = call_octets();
    stun_types_answer result, other;
    size_t at, end, length, before = 0;
    frames_in(whole, &at, &result, true);
    answer_space();
    if (result.code == STUN_TYPES_NOT_STUN) answer_text("end NotStun");
    else if (is_taken(result)) {
        answer_text("rest ");
        answer_octets(whole.bytes + at, whole.length - at);
    }
    for (length = 0; length <= whole.length; length++) {
        size_t count = frames_in(front_of(whole, length), &end, &other, false);
        CHECK(count == before || count == before + 1);
        before = count;
    }
}

/* (C has one code for octets that are no message and for those that are no ChannelData) */
static bool is_channel(stun_types_answer result) {
    if (result.code != STUN_TYPES_NOT_STUN) return is_taken(result);
    answer_text("!NotChannelData");
    return false;
}

static void channel_data(void) {
    slice whole = call_octets();
    stun_types_channel_data *read = NEW(stun_types_channel_data);
    size_t padded = 0;
    stun_types_answer result = stun_types_read_channel_data(whole.bytes, whole.length, read);
    if (!is_channel(result)) {
        CHECK(is_untouched(read, sizeof *read));
        return;
    }
    ANSWERS(stun_types_channel_data_length(whole.bytes, whole.length, &padded), OK_ANSWER);
    answer_text("%04x ", (unsigned)read->channel);
    answer_octets(whole.bytes + read->data_at, read->length);
    answer_text(" %u:%zu", read->length + 4u, padded);
}

static void channel_data_length(void) {
    slice whole = call_octets();
    size_t *length = NEW(size_t);
    if (!is_channel(stun_types_channel_data_length(whole.bytes, whole.length, length)))
        CHECK(is_untouched(length, sizeof *length));
    else if (*length == 0) answer_text("-");
    else answer_text("%zu", *length);
}

static void write_channel_data(void) {
    char *how = call_word();
    uint16_t channel = call_number();
    slice data = call_octets();
    size_t size = (size_t)call_count(), written = 0;
    uint8_t *to = room(size);
    bool is_padded = how != NULL && strcmp(how, "padded") == 0;
    stun_types_answer result = stun_types_write_channel_data(channel, data.bytes, data.length,
                                                           is_padded, to, size, &written);
    CHECK(is_untouched(to + written, size - written));
    if (result.code == STUN_TYPES_OUT_OF_RANGE) {
        CHECK(is_same_answer(result, LENGTHS(STUN_TYPES_OUT_OF_RANGE, 0x4FFF, channel)));
        answer_text("!NoChannel");
    }
    else if (is_taken(result)) answer_octets(to, written);
}

static void protocols(void) {
    static const char *const names[] = {"none",    "stun", "zrtp", "dtls",
                                        "channel", "rtp",  "quic"};
    uint32_t before = COUNT(names), first;
    for (first = 0; first < 256; first++) {
        uint32_t protocol = stun_types_protocol_of((uint8_t)first);
        if (protocol == before) continue;
        CHECK(protocol < COUNT(names));
        answer_space();
        answer_text("%u:%s", (unsigned)first, protocol < COUNT(names) ? names[protocol] : "!");
        before = protocol;
    }
}

const verb verbs_of_streams[] = {
    {"stream", stream, false},
    {"pieces", pieces, false},
    {"push", push, false},
    {"turn-stream", turn_stream, false},
    {"turn-pieces", turn_pieces, false},
    {"turn-push", turn_push, false},
    {"old-turn-stream", old_turn_stream, false},
    {"old-turn-pieces", old_turn_pieces, false},
    {"old-turn-push", old_turn_push, false},
    {"frames", frames, false},
    {"channel-data", channel_data, false},
    {"channel-data-length", channel_data_length, false},
    {"write-channel-data", write_channel_data, false},
    {"protocols", protocols, false},
    {NULL, NULL, false},
};
