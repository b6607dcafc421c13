/* The text of a message in printable ASCII. C prints nothing else. */
#include "call.h"

#include <string.h>

/* Checks that a room of this size takes the text as far as it goes. */
static void check_room(slice octets, const uint8_t *text, size_t length, size_t size) {
    char *to = (char *)(void *)room(size);
    size_t written = size + 1, least = size < length ? size : length;
    stun_types_answer wanted =
        size < length ? LENGTHS(STUN_TYPES_TOO_SMALL, length, size) : OK_ANSWER;
    ANSWERS(stun_types_print(octets.bytes, octets.length, to, size, &written), wanted);
    CHECK(written == least && memcmp(to, text, least) == 0);
    CHECK(is_untouched(to + least, size - least));
}

static void print_message(void) {
    slice octets = call_octets();
    enum { MOST = 10000 };
    uint8_t *text = room(MOST);
    size_t *written = NEW(size_t), length, at;
    stun_types_answer result =
        stun_types_print(octets.bytes, octets.length, (char *)(void *)text, MOST, written);
    answer_text("\"");
    if (!is_taken(result)) {
        CHECK(is_untouched(text, MOST) && is_untouched(written, sizeof *written));
        return;
    }
    length = *written;
    for (at = 0; at < length; at++) {
        if (text[at] == '\n') answer_text("\\n");
        else if (text[at] == '\\') answer_text("\\\\");
        else answer_text("%c", text[at]);
    }
    check_room(octets, text, length, 0);
    check_room(octets, text, length, length - 1);
    check_room(octets, text, length, length);
    check_room(octets, text, length, length + 3);
}

const verb verbs_of_print[] = {{"print-plain", print_message, false}, {NULL, NULL, false}};
