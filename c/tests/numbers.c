/* Message types of numbers that are too large, and the texts of codes. */
#include <string.h>

#include "check.h"
#include "tests.h"

/* Of a method the low 12 bits count, of a class the low two. */
static const struct {
    const char *name;
    stun_types_class message_class;
    stun_types_method method;
    uint16_t type;
} types[] = {
    {"higher bits of the method", STUN_TYPES_CLASS_REQUEST, (stun_types_method)0xFFFFF001, 0x0001},
    {"higher bits of the class", (stun_types_class)0xFFFFFFFC, STUN_TYPES_METHOD_BINDING, 0x0001},
    {"all bits", (stun_types_class)0xFFFFFFFF, (stun_types_method)0xFFFFFFFF, 0x3FFF},
};

void test_numbers(void) {
    size_t i;
    uint32_t code;
    for (i = 0; i < COUNT(types); i++) {
        row("stun_types_message_type", types[i].name);
        CHECK(stun_types_message_type(types[i].message_class, types[i].method) == types[i].type);
    }
    row("stun_types_status_text", "each code has a text of its own");
    for (code = 0; code <= STUN_TYPES_OTHER_FAMILY; code++) {
        uint32_t other;
        CHECK(strcmp(stun_types_status_text(code), "unknown code") != 0);
        for (other = 0; other < code; other++)
            CHECK(strcmp(stun_types_status_text(code), stun_types_status_text(other)) != 0);
    }
    CHECK(strcmp(stun_types_status_text(STUN_TYPES_OTHER_FAMILY + 1), "unknown code") == 0);
    CHECK(strcmp(stun_types_status_text(UINT32_MAX), "unknown code") == 0);
    for (code = 0; code <= STUN_TYPES_OTHER_FAMILY + 1; code++) {
        const char *wanted = stun_types_status_text(code);
        size_t length = strlen(wanted) + 1, size;
        char *text;
        row("stun_types_text", wanted);
        text = (char *)(void *)room(length + 3);
        CHECK(stun_types_text((stun_types_status)code, text, length + 3) == length);
        CHECK(memcmp(text, wanted, length) == 0 && is_untouched(text + length, 3));
        for (size = 1; size < length; size++) {
            text = (char *)(void *)room(size);
            CHECK(stun_types_text((stun_types_status)code, text, size) == length);
            CHECK(memcmp(text, wanted, size - 1) == 0 && text[size - 1] == 0);
        }
        CHECK(stun_types_text((stun_types_status)code, NULL, 0) == length);
    }
    row("stun_types_version", "STUN_TYPES_VERSION");
    CHECK(stun_types_version() == STUN_TYPES_VERSION);
    row("functions for macros", "the same values");
    {
        const stun_types_schedule schedule = STUN_TYPES_SCHEDULE;
        const stun_types_schedule other = stun_types_schedule_default();
        const stun_types_key none = STUN_TYPES_KEY_INIT, other_none = stun_types_key_none();
        CHECK(memcmp(&schedule, &other, sizeof schedule) == 0);
        CHECK(none.at == other_none.at && none.held == other_none.held);
    }
}
