/* The attributes that octets show, and look-ups of them. */
#include "call.h"

/* All attributes at once are those of the walk, up to the room, and nothing follows them. */
static void check_listed(slice octets) {
    stun_types_attribute attribute, *listed;
    size_t count = stun_types_attributes(octets.bytes, octets.length, NULL, 0), i, j;
    size_t rooms[3];
    rooms[0] = count / 2;
    rooms[1] = count;
    rooms[2] = count + 1;
    for (j = 0; j < 3; j++) {
        stun_types_cursor cursor = STUN_TYPES_CURSOR;
        listed = (stun_types_attribute *)(void *)room(rooms[j] * sizeof *listed);
        CHECK(stun_types_attributes(octets.bytes, octets.length, listed, rooms[j]) == count);
        for (i = 0; i < rooms[j] && i < count; i++) {
            CHECK(stun_types_next(octets.bytes, octets.length, &cursor, &attribute));
            CHECK(listed[i].value_at == attribute.value_at && listed[i].type == attribute.type
                  && listed[i].length == attribute.length);
        }
        if (rooms[j] > count) CHECK(is_untouched(&listed[count], sizeof *listed));
    }
}

/* Answers with each attribute that is shown. */
static void answer_shown(slice octets, bool with_values) {
    stun_types_cursor cursor = STUN_TYPES_CURSOR, before;
    stun_types_attribute attribute;
    if (octets.length < 4096) check_listed(octets);
    while (stun_types_next(octets.bytes, octets.length, &cursor, &attribute)) {
        answer_space();
        answer_text("%zu:%04x", attribute.value_at - 4, (unsigned)attribute.type);
        if (!with_values) continue;
        answer_text(":");
        answer_octets(octets.bytes + attribute.value_at, attribute.length);
    }
    before = cursor;
    CHECK(!stun_types_next(octets.bytes, octets.length, &cursor, &attribute));
    CHECK(cursor.index == before.index && cursor.reserved == before.reserved);
    answer_or_nothing();
}

static void show(void) { answer_shown(call_octets(), true); }

static void list(void) { answer_shown(call_octets(), false); }

static void count(void) {
    slice octets = call_octets();
    size_t found = stun_types_attributes(octets.bytes, octets.length, NULL, 0);
    stun_types_attribute *listed = (stun_types_attribute *)(void *)room(found * sizeof *listed);
    size_t last = 0;
    if (stun_types_attributes(octets.bytes, octets.length, listed, found) == found && found > 0)
        last = listed[found - 1].value_at - 4;
    answer_text("%zu %zu", found, last);
}

static void find(void) {
    uint16_t type = call_number();
    uint64_t left = call_count();
    slice octets = call_octets();
    stun_types_cursor cursor = STUN_TYPES_CURSOR;
    stun_types_attribute attribute, first;
    bool is_found = stun_types_find(octets.bytes, octets.length, type, &first), is_first = true;
    if (!is_taken(stun_types_parse(octets.bytes, octets.length))) return;
    while (stun_types_next(octets.bytes, octets.length, &cursor, &attribute)) {
        if (attribute.type != type) continue;
        CHECK(is_found);
        if (is_first) CHECK(first.value_at == attribute.value_at && first.type == type);
        if (is_first) CHECK(first.length == attribute.length);
        is_first = false;
        if (left-- != 0) continue;
        answer_text("%zu ", attribute.value_at - 4);
        answer_octets(octets.bytes + attribute.value_at, attribute.length);
        return;
    }
    CHECK(is_found != is_first);
    answer_text("none");
}

static void comprehension(void) {
    uint16_t type = call_number(), listed = 0;
    stun_types_id id = id_of("0");
    slice octets = message_with(type, given(NULL, 0), &id);
    size_t count = stun_types_unknown_types(octets.bytes, octets.length, NULL, 0, &listed, 1);
    if (count != 0) CHECK(count == 1 && listed == type);
    answer_text(count == 0 ? "optional" : "required");
}

const verb verbs_of_show[] = {
    {"show", show, false}, {"list", list, false},
    {"count", count, false}, {"find", find, false},
    {"comprehension", comprehension, false}, {NULL, NULL, false},
};
