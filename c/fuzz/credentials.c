/* A server with credentials: what it does with a request, and its reply or its refusal. */
#include <string.h>

#include "fuzz.h"

/* A pair of the user's keys: as often those that signed as not. */
static const pair *take_pair(source *from, unsigned often) {
    unsigned how = take(from);
    return &pairs[how % 4 != 0 ? often : how / 4 % PAIRS];
}

/* ---- replies */

/* What a reply's end adds, and answers. */
static stun_types_answer finished(text *wanted, size_t size,
                                  const stun_types_authentication *authentication,
                                  const model_key *key, const model_key *sha256_key,
                                  bool is_fingered) {
    const model_key *used
        = authentication->password_algorithm == STUN_TYPES_PASSWORD_SHA256 ? sha256_key : key;
    if (authentication->kind != STUN_TYPES_ACCEPTED || authentication->reserved != 0
        || (authentication->reply_algorithm != STUN_TYPES_INTEGRITY_SHA1
            && authentication->reply_algorithm != STUN_TYPES_INTEGRITY_SHA256))
        return BAD_ARGUMENT;
    if (!used->is_there) return model_answer(STUN_TYPES_NO_KEY, 0, 0, 0);
    if (!model_serves(used, authentication->reply_algorithm)) return BAD_ARGUMENT;
    return ended(wanted, size, authentication->reply_algorithm, used, is_fingered);
}

/* The reply of an authentication, or of any struct. */
static void check_finishing(const text *request, const stun_types_authentication *authentication,
                            const pair *key, const pair *sha256_key, source *from) {
    static const uint8_t address[8] = {0, 1, 0xA1, 0x47, 0xE1, 0x12, 0xA6, 0x43};
    static text wanted;
    unsigned how = take(from);
    size_t size = how % 8 == 7 ? 20 + take(from) : 200, *written = NEW(size_t);
    uint8_t *room = place(size);
    bool is_fingered = how / 8 % 2 == 0;
    stun_types_answer answer, expected;
    size_t before;
    start(&wanted, 0x0101, request->bytes + 8);
    if (how / 16 % 2 == 0 && size >= 32) append(&wanted, 0x0020, address, sizeof address);
    if (how == 255 && size >= 40) finger(&wanted);
    before = wanted.length;
    memcpy(room, wanted.bytes, wanted.length);
    *written = wanted.length;
    answer = stun_types_finish_reply(room, size, written, authentication, &key->key,
                                     &sha256_key->key, is_fingered);
    expected
        = finished(&wanted, size, authentication, &key->model, &sha256_key->model, is_fingered);
    if (expected.code != STUN_TYPES_OK) cut(&wanted, before);
    HOLDS(is_same(answer, expected) && *written == wanted.length);
    HOLDS(memcmp(room, wanted.bytes, *written) == 0);
    if (answer.code == STUN_TYPES_OK) {
        HOLDS(is_filled(room + *written, size - *written));
        const pair *used
            = authentication->password_algorithm == STUN_TYPES_PASSWORD_SHA256 ? sha256_key : key;
        stun_types_validated told;
        SUCCEEDS(stun_types_validate(room, *written, &used->key, &told));
        HOLDS(told.algorithm == authentication->reply_algorithm);
    }
}

static const stun_types_authentication *any_authentication(source *from) {
    static const uint32_t algorithms[]
        = {STUN_TYPES_INTEGRITY_SHA1, STUN_TYPES_INTEGRITY_SHA256, 0, 1};
    stun_types_authentication any;
    unsigned how = take(from);
    memset(&any, 0, sizeof any);
    any.kind = (stun_types_authentication_kind)(how % 8 == 7   ? take_four(from)
                                                : how % 4 == 3 ? 2
                                                               : 1);
    any.reply_algorithm
        = (stun_types_integrity)algorithms[how / 8 % 8 == 7 ? take(from) % 4 : how / 8 % 2];
    any.password_algorithm = (stun_types_password)(how / 64 == 3 ? take_four(from) : how / 64);
    any.algorithm = (stun_types_integrity)take(from);
    any.reserved = how % 32 == 31 ? take(from) : 0;
    return copy_of(&any, sizeof any);
}

/* ---- refusals */

/* The error response to a request, by its code and what it carries beside it. */
static void refused(text *wanted, const text *request, uint32_t code, const model_text *carried,
                    number_list algorithms) {
    static model_list shown;
    uint8_t value[4 + 16], list[64];
    const char *reason = code == 400   ? "Bad Request"
                         : code == 401 ? "Unauthenticated"
                                       : "Stale Nonce";
    start(wanted, model_number(request->bytes) | 0x0110, request->bytes + 8);
    value[0] = value[1] = 0;
    value[2] = 4;
    value[3] = (uint8_t)(code - 400);
    memcpy(value + 4, reason, strlen(reason));
    append(wanted, 0x0009, value, 4 + strlen(reason));
    if (code != 400 && carried != NULL) {
        append(wanted, 0x0014, carried[0].bytes, carried[0].length);
        append(wanted, 0x0015, carried[1].bytes, carried[1].length);
        model_list_of(algorithms.all, algorithms.count, list);
        if (algorithms.count > 0) append(wanted, 0x8002, list, 4 * algorithms.count);
    }
    model_shown(request->bytes, request->length, &shown);
    if (model_find(&shown, 0x8028) != NULL) finger(wanted);
}

/* Why a text is no REALM or NONCE. */
static stun_types_answer text_fault(model_text one) {
    if (!model_is_utf8(one.bytes, one.length))
        return model_answer(STUN_TYPES_INVALID_DATA, 0, 0, 0);
    if (one.length > 763) return model_answer(STUN_TYPES_TOO_LARGE, 0, 763, one.length);
    return FINE;
}

static model_text take_long_text(source *from, const char *often) {
    static uint8_t bytes[800];
    model_text told;
    if (take(from) % 32 != 31) return take_text(from, often);
    memset(bytes, 'a', sizeof bytes);
    told.length = 763 + take(from) % 3;
    told.bytes = copy_of(bytes, told.length);
    return told;
}

/* What is beside the request and the code. */
static stun_types_answer demand_fault(const model_text *carried, number_list algorithms) {
    uint32_t features = 0;
    bool promises;
    stun_types_answer fault;
    if (!model_are_passwords(algorithms.all, algorithms.count)) return BAD_ARGUMENT;
    fault = text_fault(carried[0]);
    if (fault.code != STUN_TYPES_OK) return fault;
    fault = text_fault(carried[1]);
    if (fault.code != STUN_TYPES_OK) return fault;
    promises = model_features(carried[1], &features) && (features & 1) != 0;
    return promises == (algorithms.count != 0) ? FINE : BAD_ARGUMENT;
}

static void check_refusing(const text *request, const uint8_t *bytes, uint32_t often,
                           source *from) {
    static const uint32_t codes[] = {400, 401, 438};
    static text wanted;
    unsigned how = take(from);
    bool is_short = how % 4 == 0;
    uint32_t code = how / 4 % 4 == 0 ? often : how == 255 ? take_four(from) : codes[how / 16 % 3];
    const model_text carried[]
        = {take_long_text(from, "realm"), take_long_text(from, "obMatJos2gAAAx")};
    number_list algorithms = take_numbers(from, true);
    size_t size = how / 64 == 3 ? take(from) : 2000, *written = NEW(size_t);
    uint8_t *room = place(size);
    const stun_types_asked it = {carried[0].bytes, carried[0].length, carried[1].bytes,
                                 carried[1].length, algorithms.all,  algorithms.count,
                                 how == 251 ? take(from) : 0};
    const stun_types_asked *asked = copy_of(&it, sizeof it);
    stun_types_answer fault = model_parse(request->bytes, request->length), answer;
    answer = is_short
                 ? stun_types_refuse_short_term(bytes, request->length, (stun_types_code)code, room,
                                                size, written)
                 : stun_types_refuse_long_term(bytes, request->length, (stun_types_code)code,
                                               asked, room, size, written);
    if (fault.code == STUN_TYPES_OK && (model_number(request->bytes) & 0x0110) != 0)
        fault = model_answer(STUN_TYPES_NOT_A_REQUEST, 0, 0, 0);
    if (fault.code == STUN_TYPES_OK && code != 400 && code != 401 && (is_short || code != 438))
        fault = BAD_ARGUMENT;
    if (fault.code == STUN_TYPES_OK && !is_short && it.reserved != 0) fault = BAD_ARGUMENT;
    if (fault.code == STUN_TYPES_OK && !is_short) fault = demand_fault(carried, algorithms);
    if (fault.code == STUN_TYPES_OK) {
        refused(&wanted, request, code, is_short ? NULL : carried, algorithms);
        if (wanted.length > size)
            fault = model_answer(STUN_TYPES_TOO_SMALL, 0, wanted.length, size);
    }
    HOLDS(is_same(answer, fault));
    if (fault.code != STUN_TYPES_OK) {
        HOLDS(is_filled(room, size) && is_filled(written, sizeof *written));
        return;
    }
    HOLDS(*written == wanted.length && memcmp(room, wanted.bytes, wanted.length) == 0);
    HOLDS(is_filled(room + *written, size - *written));
}

/* ---- requests */

static void check_long_term(const text *request, const uint8_t *bytes, source *from) {
    const stun_types_policy *policy = take_policy(from);
    const pair *md5 = take_pair(from, LOGIN_MD5), *sha256 = take_pair(from, LOGIN_SHA256);
    number_list algorithms = take_numbers(from, true);
    stun_types_authentication *told = NEW(stun_types_authentication), *again, expected;
    model_login login;
    stun_types_answer answer;
    login.nonce_state = take_below(from, 4, 16);
    login.algorithms = algorithms.all;
    login.count = algorithms.count;
    login.md5 = &md5->model;
    login.sha256 = &sha256->model;
    again = NEW(stun_types_authentication);
    answer = model_long_term(request->bytes, request->length, policy, &login, &expected);
    HOLDS(is_same(stun_types_authenticate_long_term(
                      bytes, request->length, policy, (stun_types_nonce_state)login.nonce_state,
                      algorithms.all, algorithms.count, &md5->key, &sha256->key, told),
                  answer));
    HOLDS(memcmp(told, &expected, sizeof expected) == 0);
    HOLDS(is_same(stun_types_authenticate_long_term(
                      bytes, request->length, policy, (stun_types_nonce_state)login.nonce_state,
                      algorithms.all, algorithms.count, &md5->key, &sha256->key, again),
                  answer));
    HOLDS(memcmp(told, again, sizeof *told) == 0);
    check_finishing(request, told, md5, sha256, from);
    check_refusing(request, bytes, told->error_code, from);
}

static void check_short_term(const text *request, const uint8_t *bytes, source *from) {
    const stun_types_policy *policy = take_policy(from);
    const pair *key = take_pair(from, PASSWORD);
    stun_types_authentication *told = NEW(stun_types_authentication), expected;
    stun_types_validated *validated = NEW(stun_types_validated), valid;
    stun_types_answer answer
        = model_validate(request->bytes, request->length, policy, &key->model, &valid);
    HOLDS(is_same(stun_types_validate_by_policy(bytes, request->length, policy, &key->key, validated),
                  answer));
    HOLDS(memcmp(validated, &valid, sizeof valid) == 0);
    answer = model_short_term(request->bytes, request->length, policy, &key->model, &expected);
    HOLDS(is_same(
        stun_types_authenticate_short_term(bytes, request->length, policy, &key->key, told), answer));
    HOLDS(memcmp(told, &expected, sizeof expected) == 0);
    check_finishing(request, told, key, &pairs[NO_KEY], from);
}

void check_credentials(source *from) {
    static text request;
    const uint8_t *bytes;
    take_request(&request, from);
    bytes = give(request.bytes, request.length);
    check_short_term(&request, bytes, from);
    check_long_term(&request, bytes, from);
    check_finishing(&request, any_authentication(from), take_pair(from, PASSWORD),
                    take_pair(from, LOGIN_SHA256), from);
}
