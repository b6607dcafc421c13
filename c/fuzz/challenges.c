/* A client with long-term credentials: challenges, the key, the answer; and both sides at work. */
#include <string.h>

#include "fuzz.h"

static const uint8_t ID[12] = {1, 2, 3, 4, 5, 6, 7, 8, 9, 10, 11, 12};

static model_text take_user(source *from) {
    static uint8_t bytes[600];
    model_text told;
    if (take(from) % 16 != 15) return take_text(from, "user");
    memset(bytes, 'u', sizeof bytes);
    told.length = 512 + take(from) % 4;
    told.bytes = copy_of(bytes, told.length);
    return told;
}

/* The key for a challenge: by the algorithm, and in the realm, that it asks for. If there is none, the
   key stays. */
static void check_key_for(stun_types_key *key, model_key *expected, const uint8_t *response,
                          size_t length, number_list supported, model_text user,
                          model_text password) {
    const model_knowledge knowledge = {supported.all, supported.count, false, false, {NULL, 0}};
    stun_types_challenge asked;
    uint8_t bytes[MODEL_KEY];
    size_t written = 0;
    stun_types_integrity algorithm;
    stun_types_answer fault = password.length == 0
                                  ? BAD_ARGUMENT
                                  : model_challenge(response, length, &knowledge, &asked);
    if (fault.code == STUN_TYPES_OK) {
        const model_text texts[]
            = {user, {response + asked.realm_at, asked.realm_length}, password};
        fault = model_long_term_key(texts, asked.password_algorithm, expected);
    }
    HOLDS(is_same(stun_types_key_for(key, response, length, supported.all, supported.count,
                                     user.bytes, user.length, password.bytes, password.length),
                  fault));
    HOLDS(stun_types_key_bytes(key, bytes, sizeof bytes, &written, &algorithm).code
          == (expected->is_there ? (uint32_t)STUN_TYPES_OK : (uint32_t)STUN_TYPES_NO_KEY));
    if (!expected->is_there) return;
    HOLDS(written == expected->length && memcmp(bytes, expected->bytes, written) == 0);
    HOLDS((uint32_t)algorithm == expected->algorithm);
}

static void check_response_as_challenge(source *from) {
    static text response, request;
    static pair made;
    model_text user = take_user(from), password = take_text(from, "pass");
    number_list supported = take_numbers(from, true);
    model_knowledge knowledge;
    const uint8_t *bytes;
    unsigned how = take(from);
    size_t size = how % 8 == 7 ? 20 + take_two(from) % 300 : 2000;
    take_response(&response, from, 0x0001, ID);
    bytes = give(response.bytes, response.length);
    knowledge.supported = supported.all;
    knowledge.count = supported.count;
    knowledge.was_tried = how / 2 % 2 == 0;
    knowledge.was_seen = how / 4 % 4 == 0;
    knowledge.tried = take_text(from, "realm");
    (void)check_challenge(bytes, response.length, &knowledge);
    made.key = stun_types_key_none();
    made.model.is_there = false;
    if (how % 4 == 0) {
        SUCCEEDS(stun_types_key_copy(&made.key, &pairs[SECRET].key));
        made.model = pairs[SECRET].model;
    }
    check_key_for(&made.key, &made.model, bytes, response.length, supported, user, password);
    start(&request, 0x0001, ID);
    if (how >= 248) sign(&request, STUN_TYPES_INTEGRITY_SHA256, &pairs[PASSWORD].model);
    if (size < request.length) size = request.length;
    check_answer(&request, size, bytes, response.length, supported, user,
                 how / 16 % 2 == 0 ? &made : &pairs[how / 32], how % 2 == 0);
    stun_types_keys_free(&made.key, 1);
}

/* ---- both sides */

/* What the server decides, by the keys of these texts, is what the model does. */
static void check_decision(const uint8_t *request, size_t length, number_list algorithms,
                           const model_text *texts, const stun_types_authentication *decided) {
    static const stun_types_policy strict = STUN_TYPES_POLICY_BOTH;
    static model_key md5, sha256;
    model_login login = {STUN_TYPES_NONCE_VALID, NULL, 0, &md5, &sha256};
    stun_types_authentication expected;
    HOLDS(is_same(model_long_term_key(texts, STUN_TYPES_PASSWORD_MD5, &md5), FINE));
    HOLDS(is_same(model_long_term_key(texts, STUN_TYPES_PASSWORD_SHA256, &sha256), FINE));
    login.algorithms = algorithms.all;
    login.count = algorithms.count;
    HOLDS(is_same(model_long_term(request, length, &strict, &login, &expected), FINE));
    HOLDS(memcmp(decided, &expected, sizeof expected) == 0);
}

/* What the server asks for, in its realm. */
static const stun_types_asked *asked_for(const char *realm, const uint8_t *nonce, size_t length,
                                         number_list algorithms) {
    stun_types_asked it;
    memset(&it, 0, sizeof it);
    it.realm = realm;
    it.realm_length = strlen(realm);
    it.nonce = nonce;
    it.nonce_length = length;
    it.algorithms = algorithms.all;
    it.algorithms_count = algorithms.count;
    return copy_of(&it, sizeof it);
}

/* A server asks for credentials, a client answers, the server accepts, and the client takes the reply:
   whatever the user, the password, the realm and the lists are. If the client has the wrong password,
   the server refuses. */
static void check_exchange(source *from) {
    static const stun_types_policy strict = STUN_TYPES_POLICY_BOTH;
    static const stun_types_schedule schedule = STUN_TYPES_SCHEDULE;
    static const model_text user = {(const uint8_t *)"us\xC3\xA9r", 5},
                            other = {(const uint8_t *)"\x7F", 1};
    static const char *const realms[] = {"realm", "", "example.org", "r:e:a:l:m"};
    static text first;
    const stun_types_address *client = take_address(from);
    unsigned how = take(from);
    uint32_t features = how % 4;
    const char *realm = realms[how / 4 % 4];
    model_text password = take_text(from, "pass");
    number_list supported = take_numbers(from, true), algorithms = take_numbers(from, true);
    bool is_wrong = how / 16 % 8 == 7 && password.length != 1, is_fingered = how >= 128;
    uint64_t now = take_four(from);
    uint8_t nonce[STUN_TYPES_NONCE_LENGTH], *asks = place(600), *request = place(900),
                                            *reply = place(300);
    size_t nonce_length = 0, asks_length = 0, length = 0, written = 0, place_of = 99;
    stun_types_id id;
    stun_types_key client_key = stun_types_key_none(),
                   keys[2] = {STUN_TYPES_KEY_INIT, STUN_TYPES_KEY_INIT};
    stun_types_nonce_state state = STUN_TYPES_NONCE_UNKNOWN;
    stun_types_authentication *decided = NEW(stun_types_authentication);
    stun_types_transaction transactions[2];
    stun_types_received *received = NEW(stun_types_received);
    stun_types_action action;
    stun_types_attribute found;
    model_text texts[3];
    size_t i;
    texts[0] = user;
    take_bytes(from, id.bytes, sizeof id.bytes);
    start(&first, 0x0003, id.bytes);
    if ((features & 1) == 0) algorithms.count = 0;
    if (stun_types_make_nonce(&pairs[SECRET].key, features, 600, now, client, nonce, sizeof nonce,
                              &nonce_length)
                .code
            != STUN_TYPES_OK
        || stun_types_refuse_long_term(first.bytes, first.length, (stun_types_code)401,
                                       asked_for(realm, nonce, nonce_length, algorithms), asks,
                                       600, &asks_length)
                   .code
               != STUN_TYPES_OK
        || stun_types_key_for(&client_key, asks, asks_length, supported.all, supported.count,
                              user.bytes, user.length, password.bytes, password.length)
                   .code
               != STUN_TYPES_OK)
        return;
    id.bytes[0] ^= 1;
    SUCCEEDS(stun_types_begin(request, 900, 0x0003, &id, &length));
    SUCCEEDS(stun_types_answer_challenge(request, 900, &length, asks, asks_length, supported.all,
                                         supported.count, user.bytes, user.length, &client_key,
                                         is_fingered));
    memset(transactions, 0, sizeof transactions);
    SUCCEEDS(stun_types_transaction_begin(&transactions[1], request, length, &schedule,
                                          STUN_TYPES_UDP, STUN_TYPES_LONG_TERM, &client_key, 5));
    SUCCEEDS(stun_types_transaction_poll(&transactions[1], 5, &action));
    /* the server, which keeps the keys of the user */
    texts[1].bytes = (const uint8_t *)realm;
    texts[1].length = strlen(realm);
    texts[2] = is_wrong ? other : password;
    for (i = 0; i < 2; i++)
        SUCCEEDS(stun_types_key_long_term(&keys[i], user.bytes, user.length, realm, strlen(realm),
                                          texts[2].bytes, texts[2].length,
                                          i == 0 ? STUN_TYPES_PASSWORD_MD5
                                                 : STUN_TYPES_PASSWORD_SHA256));
    HOLDS(stun_types_find(request, length, 0x0015, &found));
    SUCCEEDS(stun_types_judge_nonce(&pairs[SECRET].key, features, 600, now + how, client,
                                    request + found.value_at, found.length, &state));
    HOLDS(state == STUN_TYPES_NONCE_VALID);
    SUCCEEDS(stun_types_authenticate_long_term(request, length, &strict, state, algorithms.all,
                                               algorithms.count, &keys[0], &keys[1], decided));
    check_decision(request, length, algorithms, texts, decided);
    HOLDS(stun_types_find(request, length, features >= 2 ? 0x001E : 0x0006, &found));
    if (is_wrong) {
        HOLDS(decided->kind == STUN_TYPES_REFUSED && decided->error_code == 401);
    } else {
        HOLDS(decided->kind == STUN_TYPES_ACCEPTED);
        HOLDS(decided->reply_algorithm
              == (algorithms.count > 0 ? STUN_TYPES_INTEGRITY_SHA256 : STUN_TYPES_INTEGRITY_SHA1));
        SUCCEEDS(stun_types_begin_reply(reply, 300, request, length, STUN_TYPES_CLASS_SUCCESS,
                                        &written));
        SUCCEEDS(stun_types_finish_reply(reply, 300, &written, decided, &keys[0], &keys[1],
                                         is_fingered));
        HOLDS(stun_types_transactions_find(transactions, 2, reply, written, &place_of)
              && place_of == 1);
        SUCCEEDS(stun_types_transaction_receive(&transactions[1], &client_key, reply, written, NULL,
                                                0, received));
        HOLDS(received->kind == STUN_TYPES_TAKEN_SUCCESS
              && received->algorithm == decided->reply_algorithm);
    }
    stun_types_keys_free(keys, 2);
    stun_types_keys_free(&client_key, 1);
}

void check_challenges(source *from) {
    check_response_as_challenge(from);
    check_exchange(from);
}
