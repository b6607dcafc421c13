/* Clients that receive any bytes: as a response, and as a challenge. */
#include <string.h>

#include "fuzz.h"

/* The bytes as a response to a request with their own transaction ID. */
static void check_response(const uint8_t *bytes, size_t length, const model_list *shown) {
    static const stun_types_schedule schedule = STUN_TYPES_SCHEDULE;
    static const uint8_t no_id[12] = {0};
    static text request;
    stun_types_transaction transaction;
    stun_types_action action;
    stun_types_received told, again;
    uint16_t none = 0;
    size_t i;
    unsigned type;
    bool is_unknown = false, is_response;
    start(&request, 0x0001, length >= 20 ? bytes + 8 : no_id);
    SUCCEEDS(stun_types_transaction_begin(&transaction, request.bytes, 20, &schedule,
                                          STUN_TYPES_UDP, STUN_TYPES_UNPROTECTED,
                                          &pairs[PASSWORD].key, 7));
    SUCCEEDS(stun_types_transaction_poll(&transaction, 7, &action));
    HOLDS(action.kind == STUN_TYPES_SEND_NOW);
    SUCCEEDS(stun_types_transaction_receive(&transaction, &pairs[PASSWORD].key, bytes, length,
                                            &none, 0, &told));
    SUCCEEDS(stun_types_transaction_receive(&transaction, &pairs[PASSWORD].key, bytes, length,
                                            &none, 0, &again));
    HOLDS(again.kind == STUN_TYPES_NOT_FOR_THIS);
    type = length >= 2 ? model_number(bytes) : 0;
    is_response = model_parse(bytes, length).code == STUN_TYPES_OK
                  && (type == 0x0101 || type == 0x0111);
    HOLDS((told.kind == STUN_TYPES_NOT_FOR_THIS) == !is_response);
    SUCCEEDS(stun_types_transaction_poll(&transaction, 8, &action));
    HOLDS((action.kind == STUN_TYPES_ENDED) == is_response);
    if (!is_response) return;
    for (i = 0; i < shown->count; i++) {
        uint16_t one = shown->all[i].type;
        is_unknown = is_unknown
                     || (one < 0x8000 && one != 0x0001 && one != 0x0006 && one != 0x0008
                         && one != 0x0009 && one != 0x000A && one != 0x0014 && one != 0x0015
                         && one != 0x001C && one != 0x001D && one != 0x001E && one != 0x0020);
    }
    HOLDS((told.kind == STUN_TYPES_FAILED_UNKNOWN_ATTRIBUTE) == is_unknown);
    if (!is_unknown && type == 0x0101) HOLDS(told.kind == STUN_TYPES_TAKEN_SUCCESS);
    if (!is_unknown && type == 0x0111)
        HOLDS(told.kind == STUN_TYPES_TAKEN_ERROR || told.kind == STUN_TYPES_FAILED_NO_ERROR_CODE);
    HOLDS(action.end
          == (told.kind >= STUN_TYPES_TAKEN_SUCCESS ? (uint32_t)STUN_TYPES_ANSWERED
                                                    : (uint32_t)STUN_TYPES_RESPONSE_REFUSED));
}

/* ---- challenges */

/* What an answer to a challenge adds to a request, and answers. */
static stun_types_answer answered(text *wanted, size_t size, const uint8_t *response,
                                  const stun_types_challenge *asked, model_text user,
                                  const model_key *key, bool is_fingered) {
    const model_text names[] = {user, {response + asked->realm_at, asked->realm_length}};
    const uint8_t choice[4] = {0, (uint8_t)asked->password_algorithm, 0, 0};
    const unsigned types[]
        = {asked->anonymous != 0 ? 0x001E : 0x0006, 0x0014, 0x0015, 0x8002, 0x001D};
    uint8_t hash[32];
    model_text values[5];
    size_t count = asked->algorithms_at == 0 ? 3 : 5, i;
    stun_types_answer fault = FINE;
    if (!model_is_utf8(user.bytes, user.length))
        return model_answer(STUN_TYPES_INVALID_DATA, 0, 0, 0);
    if (user.length > 513) return model_answer(STUN_TYPES_TOO_LARGE, 0, 513, user.length);
    if (!key->is_there) return model_answer(STUN_TYPES_NO_KEY, 0, 0, 0);
    if (!model_serves(key, asked->integrity_algorithm)) return BAD_ARGUMENT;
    values[0] = user;
    if (asked->anonymous != 0) {
        values[0].length = model_digest(STUN_TYPES_PASSWORD_SHA256, names, 2, hash);
        values[0].bytes = hash;
    }
    values[1] = names[1];
    values[2].bytes = response + asked->nonce_at;
    values[2].length = asked->nonce_length;
    values[3].bytes = response + asked->algorithms_at;
    values[3].length = asked->algorithms_length;
    values[4].bytes = choice;
    values[4].length = sizeof choice;
    for (i = 0; i < count; i++) {
        fault = refusal_of(wanted, size, types[i], values[i].length);
        if (fault.code != STUN_TYPES_OK) return fault;
        append(wanted, types[i], values[i].bytes, values[i].length);
    }
    return ended(wanted, size, asked->integrity_algorithm, key, is_fingered);
}

void check_answer(text *wanted, size_t size, const uint8_t *response, size_t length,
                  number_list supported, model_text user, const pair *key, bool is_fingered) {
    const model_knowledge knowledge = {supported.all, supported.count, false, false, {NULL, 0}};
    uint8_t *room = big_place(WRITTEN, size);
    size_t *written = NEW(size_t);
    stun_types_challenge asked;
    stun_types_answer answer, expected;
    const size_t before = wanted->length;
    memset(room, FILL, size);
    memcpy(room, wanted->bytes, wanted->length);
    *written = wanted->length;
    answer = stun_types_answer_challenge(room, size, written, response, length, supported.all,
                                         supported.count, user.bytes, user.length, &key->key,
                                         is_fingered);
    expected = model_challenge(response, length, &knowledge, &asked);
    if (expected.code == STUN_TYPES_OK)
        expected = answered(wanted, size, response, &asked, user, &key->model, is_fingered);
    if (expected.code != STUN_TYPES_OK) cut(wanted, before);
    HOLDS(is_same(answer, expected) && *written == wanted->length);
    HOLDS(memcmp(room, wanted->bytes, *written) == 0);
    if (answer.code == STUN_TYPES_OK) HOLDS(is_filled(room + *written, size - *written));
}

bool check_challenge(const uint8_t *bytes, size_t length, const model_knowledge *knowledge) {
    stun_types_challenge *told = NEW(stun_types_challenge), asked;
    stun_types_answer answer = stun_types_challenge_of(
        bytes, length, knowledge->supported, knowledge->count, knowledge->was_tried,
        knowledge->tried.bytes, knowledge->tried.length, knowledge->was_seen, told);
    HOLDS(is_same(answer, model_challenge(bytes, length, knowledge, &asked)));
    if (answer.code != STUN_TYPES_OK) HOLDS(is_filled(told, sizeof *told));
    else HOLDS(memcmp(told, &asked, sizeof asked) == 0);
    return answer.code == STUN_TYPES_OK;
}

void check_clients(const uint8_t *bytes, size_t length, const model_list *shown, source *from) {
    static const uint16_t both[] = {STUN_TYPES_PASSWORD_MD5, STUN_TYPES_PASSWORD_SHA256};
    static const model_knowledge knowledge = {both, 2, false, false, {NULL, 0}};
    static const model_text user = {(const uint8_t *)"user", 4};
    static const number_list supported = {both, 2};
    static const uint8_t id[12] = {1, 2, 3, 4, 5, 6, 7, 8, 9, 10, 11, 12};
    static text request;
    size_t size = take(from) * 8u;
    check_response(bytes, length, shown);
    if (!check_challenge(bytes, length, &knowledge) || size < 20) return;
    start(&request, 0x0001, id);
    check_answer(&request, size, bytes, length, supported, user, &pairs[PASSWORD], true);
}
