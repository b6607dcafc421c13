/* Authentication by short-term and long-term credentials, and a client's answer to a challenge. */
#define _DEFAULT_SOURCE
#include "call.h"

#include <arpa/inet.h>
#include <stdlib.h>
#include <string.h>

/* (carol's password is a letter, so many times) */
enum { ALGORITHMS = 20, LONG = 65536, ROOM = ANY_ROOM };

static const char realm[] = "example.org";

/* The users of the server, and carol's password. Nobody makes a key of an empty password, as david's
   is, so he is none of them. */
static char long_password[LONG + 1];
static const struct {
    const char *name, *password;
} users[] = {{"alice", "wonderland"}, {"bob", "builder"}, {"carol", long_password}};

/* The password algorithms that the server sends. */
static const uint16_t offered[] = {STUN_TYPES_PASSWORD_SHA256, STUN_TYPES_PASSWORD_MD5};

/* Whether octets are those of a text. */
static bool is_text(slice octets, const char *letters) {
    return octets.length == strlen(letters) && memcmp(octets.bytes, letters, octets.length) == 0;
}

/* Whether two slices have the same octets. */
static bool is_same(slice one, slice other) {
    return one.length == other.length
        && (one.length == 0 || memcmp(one.bytes, other.bytes, one.length) == 0);
}

/* Whether a nonce of the server promises its password algorithms. */
static bool promises(slice nonce) {
    uint32_t features = 0;
    return stun_types_security_features(nonce.bytes, nonce.length, &features)
        && (features & STUN_TYPES_FEATURE_PASSWORD_ALGORITHMS) != 0;
}

size_t user_of(slice message) {
    stun_types_hash hash;
    slice name;
    size_t at;
    bool is_named = find_value(message, STUN_TYPES_ATTRIBUTE_USERNAME, &name);
    bool is_hashed = !is_named && find_value(message, STUN_TYPES_ATTRIBUTE_USERHASH, &name);
    memset(long_password, 'c', LONG);
    for (at = 0; at < COUNT(users) && (is_named || is_hashed); at++) {
        size_t length = strlen(users[at].name);
        if (is_named && is_text(name, users[at].name)) return at;
        if (!is_hashed) continue;
        ANSWERS(stun_types_userhash(users[at].name, length, realm, strlen(realm), &hash),
                OK_ANSWER);
        if (name.length == 32 && memcmp(name.bytes, hash.bytes, 32) == 0) return at;
    }
    return COUNT(users);
}

/* The policy of `ALGORITHM:LENGTH`, with `:fingerprint`, `:key-sha1` or `:key-sha256` after it, and what
   the keys of the users were made for. */
static stun_types_policy call_policy(stun_types_integrity *made_for) {
    char *word = call_word();
    char *algorithm = next_part(&word, ':');
    char *length = word == NULL ? NULL : next_part(&word, ':');
    stun_types_policy policy = {STUN_TYPES_INTEGRITY_ANY, 0, 0, 0};
    *made_for = STUN_TYPES_INTEGRITY_ANY;
    if (length == NULL) {
        answer_unknown();
        return policy;
    }
    policy.algorithm = algorithm_of(algorithm);
    policy.min_hmac_length = (uint32_t)strtoul(length, NULL, 10);
    while (word != NULL) {
        char *part = next_part(&word, ':');
        if (strcmp(part, "fingerprint") == 0) policy.fingerprint = 1;
        else if (strncmp(part, "key-", 4) == 0) *made_for = algorithm_of(part + 4);
        else answer_unknown();
    }
    return policy;
}

/* The same key, made for an integrity algorithm. */
static stun_types_answer made_for_one(stun_types_key *key, stun_types_integrity algorithm) {
    uint8_t bytes[100];
    size_t length = 0;
    stun_types_integrity before;
    if (algorithm == STUN_TYPES_INTEGRITY_ANY) return OK_ANSWER;
    ANSWERS(stun_types_key_bytes(key, bytes, sizeof bytes, &length, &before), OK_ANSWER);
    CHECK(before == STUN_TYPES_INTEGRITY_ANY);
    return stun_types_key_from_bytes(key, bytes, length, algorithm);
}

/* The keys of a user: the short-term one, or the two long-term ones. */
typedef struct {
    stun_types_key first, sha256;
} user_keys;

/* Writes the reply to a request that is accepted: an address, or the error 420. If the key doesn't sign it,
   it is answered that it doesn't, and nothing more is written: then false is returned. */
static bool write_accepted(draft *to, slice request, const stun_types_authentication *decision,
                           const user_keys *keys) {
    static const uint16_t known[] = {
        STUN_TYPES_ATTRIBUTE_USERNAME, STUN_TYPES_ATTRIBUTE_USERHASH, STUN_TYPES_ATTRIBUTE_REALM, STUN_TYPES_ATTRIBUTE_NONCE,
        STUN_TYPES_ATTRIBUTE_PASSWORD_ALGORITHM, STUN_TYPES_ATTRIBUTE_MESSAGE_INTEGRITY,
        STUN_TYPES_ATTRIBUTE_MESSAGE_INTEGRITY_SHA256,
    };
    static const stun_types_address source = {{192, 0, 2, 1}, 32853, 4};
    uint16_t unknown[100];
    size_t before, count = stun_types_unknown_types(request.bytes, request.length, known, COUNT(known),
                                                    unknown, COUNT(unknown));
    stun_types_answer answer;
    ANSWERS(draft_reply(to, ROOM, request, count == 0 ? STUN_TYPES_CLASS_SUCCESS : STUN_TYPES_CLASS_ERROR),
            OK_ANSWER);
    if (count == 0)
        ANSWERS(stun_types_add_xor_address(to->room, to->size, &to->written,
                                           STUN_TYPES_ATTRIBUTE_XOR_MAPPED_ADDRESS, &source),
                OK_ANSWER);
    else ANSWERS(draft_unknown(to, unknown, count), OK_ANSWER);
    before = to->written;
    answer = stun_types_finish_reply(to->room, to->size, &to->written, decision, &keys->first,
                                     &keys->sha256, true);
    if (answer.code == STUN_TYPES_BAD_ARGUMENT) {
        CHECK(to->written == before && is_untouched(to->room + before, to->size - before));
        answer_text("cannot-sign");
        return false;
    }
    ANSWERS(answer, OK_ANSWER);
    return true;
}

/* What a 401 asks for. */
static const stun_types_asked *asked_for(slice in_realm, slice nonce, const uint16_t *algorithms,
                                         size_t count) {
    stun_types_asked it;
    memset(&it, 0, sizeof it);
    it.realm = in_realm.bytes;
    it.realm_length = in_realm.length;
    it.nonce = nonce.bytes;
    it.nonce_length = nonce.length;
    it.algorithms = algorithms;
    it.algorithms_count = count;
    return (const void *)given(&it, sizeof it).bytes;
}

/* Writes the reply to a request that is refused, in a room of this size. That of long-term
   credentials has a nonce. */
static stun_types_answer refuse(draft *to, size_t size, slice request, uint32_t code,
                                const slice *fresh) {
    to->room = room(size);
    to->size = size;
    to->written = 0;
    if (fresh == NULL)
        return stun_types_refuse_short_term(request.bytes, request.length, code, to->room, size,
                                            &to->written);
    return stun_types_refuse_long_term(request.bytes, request.length, code,
                                       asked_for(text(realm), *fresh, offered,
                                                 promises(*fresh) ? COUNT(offered) : 0),
                                       to->room, size, &to->written);
}

/* Answers with that reply, and a FINGERPRINT. A room that is an octet smaller stays as it is. */
static void answer_refused(slice request, uint32_t code, const slice *fresh) {
    slice found;
    draft to, small;
    stun_types_answer answer = refuse(&to, ROOM, request, code, fresh);
    if (!is_taken(answer)) return;
    answer = refuse(&small, to.written - 1, request, code, fresh);
    if (answer.code != STUN_TYPES_OUT_OF_MEMORY)
        ANSWERS(answer, LENGTHS(STUN_TYPES_TOO_SMALL, to.written, to.written - 1));
    else is_taken(answer);
    CHECK(small.written == 0 && is_untouched(small.room, small.size));
    if (!find_value(given(to.room, to.written), STUN_TYPES_ATTRIBUTE_FINGERPRINT, &found))
        ANSWERS(stun_types_add_fingerprint(to.room, to.size, &to.written), OK_ANSWER);
    answer_draft(&to);
}

/* Answers what a message gets, or is: by what is decided about it, and the keys of its user, which sign the
   reply to an accepted request. fresh is the nonce of long-term credentials. */
typedef void answering(slice message, const stun_types_authentication *decision, const user_keys *keys,
                       const slice *fresh);

/* What becomes of the message. */
static void answer_decision(slice message, const stun_types_authentication *decision,
                            const user_keys *keys, const slice *fresh) {
    draft to;
    if (decision->kind == STUN_TYPES_DISCARDED) answer_text("discarded");
    else if (decision->kind == STUN_TYPES_NOT_CHECKED) answer_text("not-a-request");
    else if (decision->kind == STUN_TYPES_REFUSED) {
        answer_text("refused %u ", (unsigned)decision->error_code);
        answer_refused(message, decision->error_code, fresh);
    } else {
        CHECK(decision->kind == STUN_TYPES_ACCEPTED);
        answer_text("accepted ");
        answer_algorithm(decision->algorithm);
        answer_text(" ");
        if (header_of(message).message_class != STUN_TYPES_CLASS_REQUEST) answer_text("-");
        else if (write_accepted(&to, message, decision, keys)) answer_draft(&to);
    }
}

/* What a server sends back that serves binding requests of its users. */
static void answer_by_reply(slice message, const stun_types_authentication *decision,
                            const user_keys *keys, const slice *fresh) {
    stun_types_header header = header_of(message);
    bool is_request = header.message_class == STUN_TYPES_CLASS_REQUEST;
    draft to;
    (void)fresh;
    if (header.method != STUN_TYPES_METHOD_BINDING) answer_text("-");
    else if (decision->kind == STUN_TYPES_REFUSED)
        answer_text("%u", (unsigned)decision->error_code);
    else if (decision->kind != STUN_TYPES_ACCEPTED || !is_request) answer_text("-");
    else if (write_accepted(&to, message, decision, keys))
        answer_result(message, given(to.room, to.written));
}

/* Whether an authentication is an answer; else its struct says that nothing is decided. */
static bool has_decided(stun_types_answer answer, const stun_types_authentication *decision) {
    if (answer.code != STUN_TYPES_OK) CHECK(decision->kind == STUN_TYPES_NOT_DECIDED);
    return is_taken(answer);
}

static void by_short_term(stun_types_policy policy, stun_types_integrity made_for, slice message,
                          answering *answers) {
    size_t user = user_of(message);
    user_keys keys = {STUN_TYPES_KEY_INIT, STUN_TYPES_KEY_INIT};
    stun_types_authentication *decision = NEW(stun_types_authentication);
    stun_types_answer answer = OK_ANSWER;
    if (user < COUNT(users)) {
        keep_secret(text(users[user].password));
        answer = stun_types_key_short_term(&keys.first, users[user].password,
                                           strlen(users[user].password));
        if (answer.code == STUN_TYPES_OK) answer = made_for_one(&keys.first, made_for);
    }
    if (is_taken(answer)
        && has_decided(stun_types_authenticate_short_term(message.bytes, message.length, &policy,
                                                          &keys.first, decision),
                       decision)) {
        CHECK(decision->password_algorithm == 0);
        answers(message, decision, &keys, NULL);
    }
    stun_types_key_free(&keys.first);
}

static void short_term(void) {
    stun_types_integrity made_for;
    stun_types_policy policy = call_policy(&made_for);
    by_short_term(policy, made_for, call_octets(), answer_decision);
}

/* Makes the key of a user by a password algorithm. */
static stun_types_answer make_long_term(stun_types_key *key, size_t user,
                                        stun_types_password algorithm) {
    const char *name = users[user].name, *password = users[user].password;
    keep_secret(text(password));
    return stun_types_key_long_term(key, name, strlen(name), realm, strlen(realm), password,
                                    strlen(password), algorithm);
}

/* What the server knows of the nonce of a message. */
static stun_types_nonce_state nonce_state(slice message, slice fresh, slice stale) {
    slice nonce;
    if (!find_value(message, STUN_TYPES_ATTRIBUTE_NONCE, &nonce)) return STUN_TYPES_NONCE_UNKNOWN;
    if (is_same(nonce, fresh)) return STUN_TYPES_NONCE_VALID;
    return is_same(nonce, stale) ? STUN_TYPES_NONCE_STALE : STUN_TYPES_NONCE_UNKNOWN;
}

static void by_long_term(stun_types_policy policy, stun_types_integrity made_for, slice fresh, slice stale,
                         slice message, answering *answers) {
    size_t user = user_of(message);
    user_keys keys = {STUN_TYPES_KEY_INIT, STUN_TYPES_KEY_INIT};
    stun_types_authentication *decision = NEW(stun_types_authentication);
    stun_types_nonce_state state = nonce_state(message, fresh, stale);
    bool is_promised = state == STUN_TYPES_NONCE_VALID && promises(fresh);
    stun_types_answer answer = OK_ANSWER;
    if (user < COUNT(users)) {
        answer = make_long_term(&keys.first, user, STUN_TYPES_PASSWORD_MD5);
        if (answer.code == STUN_TYPES_OK)
            answer = make_long_term(&keys.sha256, user, STUN_TYPES_PASSWORD_SHA256);
        if (answer.code == STUN_TYPES_OK) answer = made_for_one(&keys.first, made_for);
        if (answer.code == STUN_TYPES_OK) answer = made_for_one(&keys.sha256, made_for);
    }
    if (is_taken(answer)
        && has_decided(stun_types_authenticate_long_term(
                           message.bytes, message.length, &policy, state, offered,
                           is_promised ? COUNT(offered) : 0, &keys.first, &keys.sha256, decision),
                       decision))
        answers(message, decision, &keys, &fresh);
    stun_types_key_free(&keys.first);
    stun_types_key_free(&keys.sha256);
}

static void long_term(void) {
    stun_types_integrity made_for;
    stun_types_policy policy = call_policy(&made_for);
    slice fresh = call_octets(), stale = call_octets();
    by_long_term(policy, made_for, fresh, stale, call_octets(), answer_decision);
}

void respond_to_user(bool by_nonce, slice message) {
    const stun_types_policy policy = STUN_TYPES_POLICY_BOTH;
    if (by_nonce)
        by_long_term(policy, STUN_TYPES_INTEGRITY_ANY, text("obMatJos2AAAA-second"),
                     text("obMatJos2AAAA-first"), message, answer_by_reply);
    else by_short_term(policy, STUN_TYPES_INTEGRITY_ANY, message, answer_by_reply);
}

/* The password algorithms of a list of names. */
static size_t algorithms_of(char *list, uint16_t *algorithms) {
    size_t count = 0;
    char *name;
    if (list == NULL || strcmp(list, "-") == 0) return 0;
    while ((name = next_part(&list, ',')) != NULL) {
        if (count == ALGORITHMS) abort();
        algorithms[count++] =
            strcmp(name, "md5") == 0 ? STUN_TYPES_PASSWORD_MD5 : STUN_TYPES_PASSWORD_SHA256;
    }
    return count;
}

/* Answers with what a response asks for of a client that knows this. */
static void answer_asked(const uint16_t *supported, size_t count, const slice *tried, bool had_algorithms,
                         slice response) {
    static const slice none = {NULL, 0};
    stun_types_challenge *asked = NEW(stun_types_challenge);
    slice realm_tried = tried == NULL ? none : *tried;
    if (!is_taken(stun_types_challenge_of(response.bytes, response.length, supported, count,
                                          tried != NULL, realm_tried.bytes, realm_tried.length,
                                          had_algorithms, asked))) {
        CHECK(is_untouched(asked, sizeof *asked));
        return;
    }
    answer_octets(response.bytes + asked->realm_at, asked->realm_length);
    answer_text(" ");
    answer_octets(response.bytes + asked->nonce_at, asked->nonce_length);
    answer_text(" ");
    answer_octets(response.bytes + asked->algorithms_at,
                  asked->algorithms_at == 0 ? 0 : asked->algorithms_length);
    answer_text(asked->password_algorithm == STUN_TYPES_PASSWORD_MD5 ? " md5" : " sha256");
    answer_text(asked->anonymous ? " userhash " : " username ");
    answer_algorithm(asked->integrity_algorithm);
}

static void challenge(void) {
    uint16_t supported[ALGORITHMS];
    size_t count = algorithms_of(call_word(), supported);
    slice before = call_octets(), response = call_octets(), tried;
    stun_types_challenge asked;
    if (before.length == 0) {
        answer_asked(supported, count, NULL, false, response);
        return;
    }
    if (!is_taken(stun_types_challenge_of(before.bytes, before.length, supported, count, false, NULL,
                                          0, false, &asked)))
        return;
    tried = given(before.bytes + asked.realm_at, asked.realm_length);
    answer_asked(supported, count, &tried, asked.algorithms_at != 0, response);
}

static void retry(void) {
    uint16_t supported[ALGORITHMS];
    size_t count = algorithms_of(call_word(), supported);
    slice tried = call_octets(), seen = call_octets(), response = call_octets();
    answer_asked(supported, count, tried.length == 0 ? NULL : &tried, seen.length != 0, response);
}

/* Writes the answer to a challenge in a room of this size. */
static stun_types_answer answer_with(draft *to, size_t size, slice response,
                                     const uint16_t *supported, size_t count, slice user,
                                     const stun_types_key *key) {
    stun_types_header header = header_of(response);
    ANSWERS(draft_begin(to, size, STUN_TYPES_CLASS_REQUEST, STUN_TYPES_METHOD_BINDING, &header.id),
            OK_ANSWER);
    return stun_types_answer_challenge(to->room, size, &to->written, response.bytes, response.length,
                                       supported, count, user.bytes, user.length, key, true);
}

/* A key that was made for the other algorithm answers no challenge, and nothing is written. */
static void check_other_key(slice response, const uint16_t *supported, size_t count) {
    stun_types_challenge asked;
    stun_types_key key = STUN_TYPES_KEY_INIT;
    stun_types_answer made;
    draft to;
    if (stun_types_challenge_of(response.bytes, response.length, supported, count, false, NULL, 0, false,
                                &asked).code != STUN_TYPES_OK)
        return;
    made = stun_types_key_from_bytes(&key, "key", 3,
                                     asked.integrity_algorithm == STUN_TYPES_INTEGRITY_SHA1
                                         ? STUN_TYPES_INTEGRITY_SHA256
                                         : STUN_TYPES_INTEGRITY_SHA1);
    if (made.code == STUN_TYPES_OK) {
        ANSWERS(answer_with(&to, ROOM, response, supported, count, text("user"), &key),
                PLAIN(STUN_TYPES_BAD_ARGUMENT));
        CHECK(to.written == 20 && is_untouched(to.room + 20, to.size - 20));
    }
    stun_types_key_free(&key);
}

/* The request of this user that answers a challenge. */
static void answer_by(slice user, slice password) {
    uint16_t supported[ALGORITHMS];
    size_t count = algorithms_of(call_word(), supported);
    slice response = call_octets();
    stun_types_key key = STUN_TYPES_KEY_INIT;
    draft to, small;
    keep_secret(password);
    check_other_key(response, supported, count);
    if (is_taken(stun_types_key_for(&key, response.bytes, response.length, supported, count,
                                    user.bytes, user.length, password.bytes, password.length))) {
        ANSWERS(answer_with(&to, ROOM, response, supported, count, user, &key), OK_ANSWER);
        /* a refused call leaves the message as it was */
        ANSWERS(answer_with(&small, to.written - 1, response, supported, count, user, &key),
                LENGTHS(STUN_TYPES_TOO_SMALL, to.written, to.written - 1));
        CHECK(small.written == 20 && stun_types_parse(small.room, 20).code == STUN_TYPES_OK);
        CHECK(memcmp(small.room + 4, to.room + 4, 16) == 0);
        answer_draft(&to);
    }
    stun_types_key_free(&key);
}

static void answer_challenge(void) { answer_by(text("user"), text("pass")); }

static void answer_as(void) {
    slice user = call_octets(), password = call_octets();
    answer_by(user, password);
}

static void error_response(void) {
    static const uint16_t both[] = {STUN_TYPES_PASSWORD_MD5, STUN_TYPES_PASSWORD_SHA256};
    slice response = call_octets();
    stun_types_attribute attribute;
    stun_types_challenge asked;
    stun_types_answer result;
    uint16_t code;
    size_t at, length;
    if (!is_taken(stun_types_parse(response.bytes, response.length))) return;
    if (header_of(response).message_class != STUN_TYPES_CLASS_ERROR
        || !stun_types_find(response.bytes, response.length, STUN_TYPES_ATTRIBUTE_ERROR_CODE, &attribute)
        || stun_types_read_error(response.bytes, response.length, &attribute, &code, &at, &length)
               .code != STUN_TYPES_OK) {
        answer_text("-");
        return;
    }
    result = stun_types_challenge_of(response.bytes, response.length, both, COUNT(both), false, NULL,
                                     0, false, &asked);
    answer_text("%u", (unsigned)code);
    if (result.code != STUN_TYPES_NOT_A_CHALLENGE) answer_text(" challenge");
    if (result.code == STUN_TYPES_BID_DOWN) answer_text(" bid-down");
}

/* ---- nonces */

/* The sum of the features of a word. */
static uint32_t call_features(void) {
    char *list = call_word(), *name;
    uint32_t features = 0;
    if (list == NULL) answer_unknown();
    if (list == NULL || strcmp(list, "none") == 0) return 0;
    while ((name = next_part(&list, ',')) != NULL)
        features += strcmp(name, "algorithms") == 0 ? STUN_TYPES_FEATURE_PASSWORD_ALGORITHMS
                                                    : STUN_TYPES_FEATURE_USERNAME_ANONYMITY;
    return features;
}

static void security_features(void) {
    slice nonce = call_octets();
    uint32_t *features = NEW(uint32_t);
    static const char *const words[] = {"none", "algorithms", "anonymity", "algorithms,anonymity"};
    if (stun_types_security_features(nonce.bytes, nonce.length, features)) {
        CHECK(*features < COUNT(words));
        answer_text("%s", words[*features % COUNT(words)]);
    } else {
        CHECK(is_untouched(features, sizeof *features));
        answer_text("-");
    }
}

static void nonce_cookie(void) {
    stun_types_cookie *cookie = NEW(stun_types_cookie);
    if (is_taken(stun_types_nonce_cookie(call_features(), cookie)))
        answer_octets(cookie->bytes, sizeof cookie->bytes);
}

/* Whether the algorithms are sent with the nonce, by a 401 that does so. */
static void demand(void) {
    slice nonce = call_octets(), request = octets_of("000100002112a442000000000000000000000001");
    slice in_realm = text(realm);
    uint16_t algorithms[ALGORITHMS];
    char *list = call_word(), *other = call_word();
    size_t count, written = 0;
    stun_types_answer answer;
    if (list == NULL) {
        answer_unknown();
        return;
    }
    count = strcmp(list, "none") == 0 ? 0 : algorithms_of(list, algorithms);
    if (other != NULL) in_realm = octets_of(other);
    answer = stun_types_refuse_long_term(request.bytes, request.length, 401,
                                         asked_for(in_realm, nonce, algorithms, count), room(ROOM),
                                         ROOM, &written);
    if (answer.code == STUN_TYPES_BAD_ARGUMENT) answer_text(count == 0 ? "!NoList" : "!NotPromised");
    else if (is_taken(answer)) answer_text("ok");
}

/* What a server makes nonces by, and a client. */
typedef struct {
    stun_types_key secret;
    uint32_t features;
    uint64_t window, now;
    stun_types_address client;
} nonce_maker;

/* The maker of the next words; false if there is no memory for it. */
static bool call_maker(nonce_maker *maker) {
    slice secret = call_octets();
    char *address, *port;
    memset(maker, 0, sizeof *maker);
    maker->features = call_features();
    maker->window = call_count();
    maker->now = call_count();
    address = call_word();
    port = address == NULL ? NULL : strrchr(address, ':');
    if (port == NULL) {
        answer_unknown();
        return false;
    }
    *port = 0;
    maker->client.port = (uint16_t)strtoul(port + 1, NULL, 10);
    maker->client.family = address[0] == '[' ? 6 : 4;
    if (address[0] == '[') {
        address++;
        address[strlen(address) - 1] = 0;
    }
    if (inet_pton(maker->client.family == 4 ? AF_INET : AF_INET6, address, maker->client.octets) != 1)
        answer_unknown();
    return is_secret(secret) && make_key(&maker->secret, secret, STUN_TYPES_INTEGRITY_ANY);
}

/* Whether a call was taken, or its secret was too short. */
static bool has_secret(stun_types_answer answer) {
    if (answer.code != STUN_TYPES_BAD_ARGUMENT) return is_taken(answer);
    answer_text("!TooShort");
    return false;
}

static void make_nonce(void) {
    nonce_maker by;
    uint8_t *nonce = room(STUN_TYPES_NONCE_LENGTH);
    size_t *written = NEW(size_t);
    if (call_maker(&by)
        && has_secret(stun_types_make_nonce(&by.secret, by.features, by.window, by.now, &by.client,
                                            nonce, STUN_TYPES_NONCE_LENGTH, written))) {
        CHECK(*written == STUN_TYPES_NONCE_LENGTH);
        answer_octets(nonce, *written);
    }
    stun_types_key_free(&by.secret);
}

static void freshness(void) {
    nonce_maker by;
    bool is_made = call_maker(&by);
    slice nonce = call_octets();
    stun_types_nonce_state *state = NEW(stun_types_nonce_state);
    if (is_made
        && has_secret(stun_types_judge_nonce(&by.secret, by.features, by.window, by.now, &by.client,
                                             nonce.bytes, nonce.length, state)))
        answer_text(*state == STUN_TYPES_NONCE_VALID   ? "fresh"
                    : *state == STUN_TYPES_NONCE_STALE ? "stale"
                                                       : "unknown");
    stun_types_key_free(&by.secret);
}

const verb verbs_of_authentication[] = {
    {"short-term", short_term, true},
    {"long-term", long_term, true},
    {"challenge", challenge, false},
    {"retry", retry, false},
    {"answer-challenge", answer_challenge, true},
    {"answer-as", answer_as, true},
    {"error-response", error_response, false},
    {"security-features", security_features, false},
    {"nonce-cookie", nonce_cookie, false},
    {"demand", demand, true},
    {"make-nonce", make_nonce, true},
    {"freshness", freshness, true},
    {NULL, NULL, false},
};
