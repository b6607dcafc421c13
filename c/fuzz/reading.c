/* Reading: what is said of any bytes. */
#include <string.h>

#include "fuzz.h"

static bool is_same_attribute(const stun_types_attribute *one, const stun_types_attribute *other) {
    return one->value_at == other->value_at && one->type == other->type
           && one->length == other->length;
}

/* Walks: from the beginning, from any cursor, and in one pass into any room. */
static void check_walk(const uint8_t *bytes, size_t length, const model_list *shown, source *from) {
    static stun_types_attribute listed[MODEL_ATTRIBUTES];
    stun_types_cursor cursor = stun_types_cursor_first();
    stun_types_attribute *told = NEW(stun_types_attribute), *few;
    size_t i, j, room = take(from) % 8;
    HOLDS(stun_types_attributes(bytes, length, listed, MODEL_ATTRIBUTES) == shown->count);
    few = place(room * sizeof *few);
    HOLDS(stun_types_attributes(bytes, length, few, room) == shown->count);
    for (i = 0; i < shown->count; i++) {
        HOLDS(stun_types_next(bytes, length, &cursor, told));
        HOLDS(is_same_attribute(told, &shown->all[i]) && is_same_attribute(&listed[i], told));
        if (i < room) HOLDS(is_same_attribute(&few[i], told));
    }
    if (i < room) HOLDS(is_filled(few + i, (room - i) * sizeof *few));
    for (j = 0; j < 2; j++) {
        memset(told, FILL, sizeof *told);
        HOLDS(!stun_types_next(bytes, length, &cursor, told));
        HOLDS(cursor.index == shown->count && is_filled(told, sizeof *told));
    }
}

/* Whether a cursor has come to a place in this message, by its length and its transaction ID. */
static bool has_come(const stun_types_cursor *cursor, const uint8_t *bytes, size_t length) {
    uint64_t id = 0;
    size_t i;
    if (length < 20 || cursor->length != length) return false;
    for (i = 8; i < 16; i++) id = id << 8 | bytes[i];
    return cursor->offset >= 20 && cursor->offset <= length && cursor->id_begin == id
           && cursor->id_end
                  == ((uint32_t)model_number(bytes + 16) << 16 | model_number(bytes + 18));
}

/* Any cursor: one of a walk over this message with a field changed, or any struct. */
static void check_cursor(const uint8_t *bytes, size_t length, const model_list *shown,
                         source *from) {
    stun_types_cursor *cursor = NEW(stun_types_cursor), before;
    stun_types_attribute *told = NEW(stun_types_attribute), wanted;
    unsigned how = take(from);
    size_t steps = shown->count == 0 ? 0 : take(from) % (shown->count + 1);
    bool is_there;
    *cursor = stun_types_cursor_first();
    while (steps-- > 0) HOLDS(stun_types_next(bytes, length, cursor, told));
    if (how % 4 == 0) ((uint8_t *)cursor)[take(from) % sizeof *cursor] = (uint8_t)take(from);
    if (how % 4 == 1 && length != 0) cursor->offset = take_two(from) % (length + 2);
    if (how % 4 == 2) cursor->length = cursor->index = take(from) % 16;
    if (how % 16 == 15) take_bytes(from, cursor, sizeof *cursor);
    before = *cursor;
    memset(told, FILL, sizeof *told);
    if (before.reserved != 0) is_there = false;
    else if (has_come(&before, bytes, length))
        is_there = model_next_shown(bytes, length, before.offset, before.last, &wanted);
    else {
        is_there = before.index < shown->count;
        if (is_there) wanted = shown->all[before.index];
    }
    HOLDS(stun_types_next(bytes, length, cursor, told) == is_there);
    if (!is_there) {
        HOLDS(memcmp(cursor, &before, sizeof before) == 0 && is_filled(told, sizeof *told));
        return;
    }
    HOLDS(is_same_attribute(told, &wanted) && told->length <= length
          && told->value_at <= length - told->length);
    HOLDS(cursor->index == before.index + (before.index != SIZE_MAX) && cursor->reserved == 0);
    HOLDS(has_come(cursor, bytes, length) && cursor->last == wanted.type);
    HOLDS(cursor->offset == wanted.value_at + model_padded(wanted.length));
}

/* The first attribute of each type that is shown, and of any other type. */
static void check_finding(const uint8_t *bytes, size_t length, const model_list *shown,
                          source *from) {
    stun_types_attribute *told = NEW(stun_types_attribute);
    uint16_t type = (uint16_t)take_two(from);
    const stun_types_attribute *wanted = model_find(shown, type);
    bool is_there = stun_types_find(bytes, length, type, told);
    size_t i;
    HOLDS(is_there == (wanted != NULL));
    HOLDS(is_there ? is_same_attribute(told, wanted) : is_filled(told, sizeof *told));
    for (i = 0; i < shown->count && i < 16; i++) {
        HOLDS(stun_types_find(bytes, length, shown->all[i].type, told));
        HOLDS(is_same_attribute(told, model_find(shown, shown->all[i].type)));
        check_values(bytes, length, &shown->all[i], from);
    }
}

/* Those that must be understood and aren't: by a list that has some of what is shown. */
static void check_unknown(const uint8_t *bytes, size_t length, const model_list *shown,
                          source *from) {
    uint16_t all[8], *types;
    const uint16_t *supported;
    size_t count = take(from) % 8, room = take(from) % 16, unknown = 0, told, i, j;
    for (i = 0; i < count; i++)
        all[i] = shown->count > 0 && take(from) % 2 == 0
                     ? shown->all[take(from) % shown->count].type
                     : (uint16_t)take_two(from);
    supported = copy_of(all, count * sizeof *all);
    types = place(room * sizeof *types);
    told = stun_types_unknown_types(bytes, length, supported, count, types, room);
    for (i = 0; i < shown->count; i++) {
        for (j = 0; j < count && all[j] != shown->all[i].type;) j++;
        if (shown->all[i].type >= 0x8000 || j < count) continue;
        if (unknown < room) HOLDS(types[unknown] == shown->all[i].type);
        unknown++;
    }
    HOLDS(told == unknown);
    if (unknown < room) HOLDS(is_filled(types + unknown, (room - unknown) * sizeof *types));
}

/* A text of a message is found in each room that has at least its length, and cut in each other. */
static void check_text(const uint8_t *bytes, size_t length, stun_types_answer parsed,
                       unsigned cut) {
    static char whole[PRINTED_MOST];
    size_t written = 0, part = 0, room;
    char *cut_text;
    stun_types_answer answer = stun_types_print(bytes, length, whole, sizeof whole, &written);
    HOLDS(is_same(answer, parsed));
    if (answer.code != STUN_TYPES_OK) return;
    HOLDS(written > 2 && memcmp(whole, "Message(class: ", 15) == 0);
    HOLDS(memcmp(whole + written - 2, "])", 2) == 0);
    HOLDS(model_is_utf8((const uint8_t *)whole, written));
    room = cut % 2 == 0 ? written : cut % written;
    cut_text = (char *)big_place(PRINTED, room);
    answer = stun_types_print(bytes, length, cut_text, room, &part);
    if (room == written) HOLDS(answer.code == STUN_TYPES_OK && part == written);
    else HOLDS(is_same(answer, model_answer(STUN_TYPES_TOO_SMALL, 0, written, room)));
    HOLDS(memcmp(cut_text, whole, room) == 0);
}

static void check_validation(const uint8_t *bytes, size_t length, source *from) {
    static const stun_types_policy lax = {STUN_TYPES_INTEGRITY_ANY, 16, 0, 0};
    const stun_types_policy *policy = take_policy(from);
    const pair *one = &pairs[take(from) % PAIRS];
    stun_types_validated *told = NEW(stun_types_validated), *other = NEW(stun_types_validated);
    stun_types_validated expected;
    stun_types_answer answer = model_validate(bytes, length, policy, &one->model, &expected);
    HOLDS(is_same(stun_types_validate_by_policy(bytes, length, policy, &one->key, told), answer));
    HOLDS(memcmp(told, &expected, sizeof expected) == 0);
    answer = model_validate(bytes, length, &lax, &pairs[PASSWORD].model, &expected);
    HOLDS(is_same(stun_types_validate(bytes, length, &pairs[PASSWORD].key, told), answer));
    HOLDS(memcmp(told, &expected, sizeof expected) == 0);
    if (length % 8 != 0) return;
    HOLDS(is_same(stun_types_validate_short_term(bytes, length, "pass", 4, other), answer));
    HOLDS(memcmp(told, other, sizeof *told) == 0);
}

/* What validation by an HMAC needs: the attribute that is checked, or that none is, or why it can't be
   right. */
static stun_types_answer checked_by(const uint8_t *bytes, size_t length, const model_list *shown,
                                    uint32_t algorithm, const stun_types_attribute **checked) {
    static const stun_types_policy lax = {STUN_TYPES_INTEGRITY_ANY, 16, 0, 0};
    model_key key = pairs[PASSWORD].model;
    stun_types_validated ignored;
    stun_types_answer answer = model_parse(bytes, length);
    *checked = NULL;
    if (answer.code != STUN_TYPES_OK) return answer;
    if (algorithm != STUN_TYPES_INTEGRITY_ANY && algorithm != STUN_TYPES_INTEGRITY_SHA1
        && algorithm != STUN_TYPES_INTEGRITY_SHA256)
        return BAD_ARGUMENT;
    key.algorithm = algorithm;
    answer = model_validate(bytes, length, &lax, &key, &ignored);
    if (answer.code != STUN_TYPES_OK && answer.code != STUN_TYPES_INTEGRITY_FAILED) return answer;
    if (algorithm != STUN_TYPES_INTEGRITY_SHA1) *checked = model_find(shown, 0x001C);
    if (*checked == NULL) *checked = model_find(shown, 0x0008);
    return FINE;
}

/* Validation in two halves, by the HMAC of a key of the model, of another one, or by any bytes. */
static void check_halves(const uint8_t *bytes, size_t length, const model_list *shown, source *from) {
    static const uint32_t algorithms[]
        = {STUN_TYPES_INTEGRITY_ANY, STUN_TYPES_INTEGRITY_SHA1, STUN_TYPES_INTEGRITY_SHA256};
    unsigned how = take(from), changes = take(from);
    uint32_t algorithm = how == 255 ? take_four(from) : algorithms[how % 3];
    const model_key *key = &pairs[how % 2 == 0 ? PASSWORD : take(from) % PAIRS].model;
    const stun_types_attribute *checked;
    stun_types_covered *covered = NEW(stun_types_covered), expected;
    stun_types_hmac *hmac = NEW(stun_types_hmac);
    stun_types_validated *told = NEW(stun_types_validated), wanted;
    stun_types_answer fault = checked_by(bytes, length, shown, algorithm, &checked);
    memset(&expected, 0, sizeof expected);
    memset(&wanted, 0, sizeof wanted);
    HOLDS(is_same(stun_types_covered_text(bytes, length, (stun_types_integrity)algorithm, covered),
                  fault));
    take_bytes(from, hmac, sizeof *hmac);
    hmac->algorithm = (stun_types_integrity)algorithms[1 + changes / 2 % 2];
    if (checked != NULL) {
        size_t counted = checked->value_at + model_padded(checked->length) - 20;
        expected.algorithm = (stun_types_integrity)checked->type;
        memcpy(expected.first, bytes, 2);
        expected.first[2] = (uint8_t)(counted >> 8);
        expected.first[3] = (uint8_t)counted;
        expected.length = checked->value_at - 4;
        if (changes % 8 != 7) hmac->algorithm = expected.algorithm;
        if (changes % 8 < 5)
            model_hmac(bytes, checked->value_at - 4, checked->length, checked->type, key, hmac->bytes);
        if (changes % 8 == 4) hmac->bytes[take(from) % 32] ^= (uint8_t)take(from);
    }
    HOLDS(memcmp(covered, &expected, sizeof expected) == 0);
    if (changes == 255) hmac->algorithm = (stun_types_integrity)take_four(from);
    if (hmac->algorithm != STUN_TYPES_INTEGRITY_SHA1 && hmac->algorithm != STUN_TYPES_INTEGRITY_SHA256
        && model_parse(bytes, length).code == STUN_TYPES_OK)
        fault = BAD_ARGUMENT;
    else if (checked != NULL
             && (hmac->algorithm != (stun_types_integrity)checked->type
                 || memcmp(hmac->bytes, bytes + checked->value_at, checked->length) != 0))
        fault = model_answer(STUN_TYPES_INTEGRITY_FAILED, 0, 0, 0);
    else if (checked != NULL) {
        wanted.algorithm = expected.algorithm;
        wanted.hmac_length = checked->length;
    }
    HOLDS(is_same(stun_types_validate_with_hmac(bytes, length, (stun_types_integrity)algorithm, hmac,
                                                told),
                  fault));
    HOLDS(memcmp(told, &wanted, sizeof wanted) == 0);
}

void check_read(const uint8_t *original, size_t length, source *from) {
    static model_list shown;
    const uint8_t *bytes = give(original, length);
    size_t told = 99, expected = 99;
    stun_types_header header;
    stun_types_answer parsed = model_parse(bytes, length), answer;
    model_shown(bytes, length, &shown);
    HOLDS(is_same(stun_types_parse(bytes, length), parsed));
    answer = model_framed(bytes, length, &expected);
    HOLDS(is_same(stun_types_framed_length(bytes, length, &told), answer));
    HOLDS(told == expected);
    answer = model_header(bytes, length);
    HOLDS(is_same(stun_types_read_header(bytes, length, &header), answer));
    if (answer.code == STUN_TYPES_OK) {
        HOLDS(header.type == model_number(bytes) && header.length == model_number(bytes + 2));
        HOLDS(stun_types_message_type(header.message_class, header.method) == header.type);
        HOLDS(memcmp(header.id.bytes, bytes + 8, 12) == 0);
    }
    check_walk(bytes, length, &shown, from);
    check_cursor(bytes, length, &shown, from);
    check_finding(bytes, length, &shown, from);
    check_unknown(bytes, length, &shown, from);
    check_outside(bytes, length, from);
    check_text(bytes, length, parsed, take_two(from));
    check_validation(bytes, length, from);
    check_halves(bytes, length, &shown, from);
    check_servers(bytes, length, &shown, from);
    check_clients(bytes, length, &shown, from);
    HOLDS(length == 0 || memcmp(bytes, original, length) == 0);
}
