/* Headers, message types, and octets that are a message or aren't. */
#include "call.h"

#include <stdio.h>
#include <string.h>

/* Answers with the header. What has none is no message, and leaves the struct untouched. */
static void answer_header(slice octets) {
    stun_types_header *header = NEW(stun_types_header);
    stun_types_answer result = stun_types_read_header(octets.bytes, octets.length, header);
    size_t at;
    if (!is_taken(result)) {
        CHECK(is_untouched(header, sizeof *header));
        CHECK(is_same_answer(stun_types_parse(octets.bytes, octets.length), result));
        return;
    }
    answer_text("%s %03x ", class_words[header->message_class & 3], (unsigned)header->method);
    for (at = 0; at < sizeof header->id.bytes; at++) answer_text("%02x", header->id.bytes[at]);
    answer_text(" %u", (unsigned)header->length);
    CHECK(header->type == (octets.bytes[0] << 8 | octets.bytes[1]));
    CHECK(header->type == stun_types_message_type(header->message_class, header->method));
}

static void header(void) { answer_header(call_octets()); }

static void parse(void) {
    slice octets = call_octets();
    if (is_taken(stun_types_parse(octets.bytes, octets.length))) answer_header(octets);
}

static void make_type(void) {
    const char *word = call_word();
    uint32_t message_class = class_of(word == NULL ? "" : word), method = call_number();
    answer_text("%04x", (unsigned)stun_types_message_type(message_class, method));
}

/* Whether a header whose first two octets have this number is read; it is made of what it has. */
static bool is_type(unsigned number) {
    uint8_t bytes[20] = {0, 0, 0, 0, 0x21, 0x12, 0xA4, 0x42};
    stun_types_header header;
    stun_types_answer result;
    bytes[0] = (uint8_t)(number >> 8);
    bytes[1] = (uint8_t)number;
    result = stun_types_read_header(bytes, sizeof bytes, &header);
    CHECK(result.code == STUN_TYPES_OK || result.code == STUN_TYPES_NOT_STUN);
    if (result.code != STUN_TYPES_OK) return false;
    CHECK(header.type == number);
    CHECK(stun_types_message_type(header.message_class, header.method) == number);
    return true;
}

static void all_types(void) {
    unsigned number, count = 0;
    for (number = 0; number <= 0xFFFF; number++) count += is_type(number);
    answer_text("%u", count);
}

static void length(void) {
    slice octets = call_octets();
    size_t *found = NEW(size_t);
    if (!is_taken(stun_types_framed_length(octets.bytes, octets.length, found)))
        CHECK(is_untouched(found, sizeof *found));
    else if (*found == 0) answer_text("more");
    else answer_text("%zu", *found);
}

/* What a prefix is answered: `message`, or how many octets are wanted, and by how many fewer are
   missing. */
static void outcome(slice octets, char *to, size_t room) {
    stun_types_answer result = stun_types_parse(octets.bytes, octets.length);
    unsigned long long expected = result.expected, more = result.actual - octets.length;
    if (result.code == STUN_TYPES_OK) snprintf(to, room, "message");
    else if (result.code != STUN_TYPES_TRUNCATED) snprintf(to, room, "!%u", (unsigned)result.code);
    else if (more == 0) snprintf(to, room, "%llu", expected);
    else snprintf(to, room, "%llu:%llu", expected, more);
}

/* Answers what the shorter prefixes from a length on are, with a length field that counts them or
   with their own. */
static void runs(slice octets, size_t length, bool is_counted) {
    char last[60] = "", found[60];
    bool is_first = true;
    for (; length < octets.length; length++) {
        uint8_t *prefix = copy(octets.bytes, length);
        slice whole;
        if (is_counted) {
            prefix[2] = (uint8_t)((length - 20) >> 8);
            prefix[3] = (uint8_t)(length - 20);
        }
        whole.bytes = prefix;
        whole.length = length;
        outcome(whole, found, sizeof found);
        if (strcmp(last, found) == 0) continue;
        answer_text("%s%zu:%s", is_first ? "" : ",", length, found);
        strcpy(last, found);
        is_first = false;
    }
    if (is_first) answer_text("-");
}

static void cuts(void) {
    slice octets = call_octets();
    runs(octets, 0, false);
    answer_text(" ");
    runs(octets, 20, true);
}

const verb verbs_of_parse[] = {
    {"header", header, false},       {"parse", parse, false},   {"make-type", make_type, false},
    {"all-types", all_types, false}, {"length", length, false}, {"cuts", cuts, false},
    {NULL, NULL, false},
};
