/* Messages that are written step by step. */
#include "call.h"

#include <stdlib.h>
#include <string.h>

#include "../own_hmacs.h"

enum { STEPS = 32 };

typedef enum { ATTRIBUTE, SIGN, FINGER } step_kind;

/* What is added to a message. */
typedef struct {
    step_kind kind;
    uint16_t type;
    slice value;
    stun_types_key key;
    stun_types_integrity algorithm;
} step;

static step steps[STEPS];
static size_t step_count;

/* The octets of the next part of a word. */
static slice octets_part(char **word) {
    char *part = next_part(word, ':');
    if (part == NULL) answer_unknown();
    return octets_of(part == NULL ? "-" : part);
}

/* The key of `short:PASSWORD` or `long:USER:REALM:PASSWORD`. */
static bool make_credentials(stun_types_key *key, stun_types_integrity algorithm, char *word) {
    const char *kind = next_part(&word, ':');
    slice first = octets_part(&word), realm, password;
    if (kind != NULL && strcmp(kind, "short") == 0) {
        keep_secret(first);
        return is_taken(stun_types_key_short_term(key, first.bytes, first.length));
    }
    realm = octets_part(&word);
    password = octets_part(&word);
    keep_secret(password);
    return is_taken(stun_types_key_long_term(key, first.bytes, first.length, realm.bytes,
                                             realm.length, password.bytes, password.length,
                                             algorithm == STUN_TYPES_INTEGRITY_SHA1
                                                 ? STUN_TYPES_PASSWORD_MD5
                                                 : STUN_TYPES_PASSWORD_SHA256));
}

/* Reads the step of a word; false if it has no key. */
static bool read_step(step *it, char *word) {
    const stun_types_key none = STUN_TYPES_KEY_INIT;
    char *kind = next_part(&word, ':');
    char *algorithm;
    memset(it, 0, sizeof *it);
    it->key = none;
    it->kind = FINGER;
    if (strcmp(kind, "fingerprint") == 0) return true;
    if (strcmp(kind, "sign") != 0 && strcmp(kind, "key") != 0) {
        it->kind = ATTRIBUTE;
        it->type = (uint16_t)strtoul(kind, NULL, 16);
        it->value = octets_part(&word);
        return true;
    }
    it->kind = SIGN;
    algorithm = next_part(&word, ':');
    it->algorithm = algorithm_of(algorithm == NULL ? "" : algorithm);
    if (strcmp(kind, "sign") == 0) return make_credentials(&it->key, it->algorithm, word);
    return make_key(&it->key, octets_part(&word), STUN_TYPES_INTEGRITY_ANY);
}

/* Reads the steps that are left; false if there is no memory for a key. */
static bool read_steps(void) {
    char *word;
    step_count = 0;
    while ((word = call_word()) != NULL) {
        if (step_count == STEPS) abort();
        if (!read_step(&steps[step_count++], word)) return false;
    }
    return true;
}

static void free_steps(void) {
    size_t at;
    for (at = 0; at < step_count; at++) stun_types_key_free(&steps[at].key);
}

/* Signs, and checks that the same is written with the key's HMAC, which other code computes. */
static stun_types_answer take_signing(const step *it, draft *to) {
    uint8_t *bytes = copy(to->room, to->size);
    size_t written = to->written;
    stun_types_answer result
        = stun_types_add_integrity(to->room, to->size, &to->written, &it->key, it->algorithm);
    CHECK(is_same_answer(result, own_add(bytes, to->size, &written, &it->key, it->algorithm)));
    CHECK(written == to->written && memcmp(bytes, to->room, to->size) == 0);
    return result;
}

static stun_types_answer take(const step *it, draft *to) {
    switch (it->kind) {
    case ATTRIBUTE:
        return stun_types_add(to->room, to->size, &to->written, it->type, it->value.bytes,
                              it->value.length);
    case SIGN: return take_signing(it, to);
    default: return stun_types_add_fingerprint(to->room, to->size, &to->written);
    }
}

/* Appends what a step answers. In C one code says that an attribute blocks another, and its type says
   which one: by another name if it is FINGERPRINT, or if an ordinary attribute is blocked. */
static void answer_step(const step *it, stun_types_answer result) {
    bool is_finger = result.type == STUN_TYPES_ATTRIBUTE_FINGERPRINT;
    if (result.code == STUN_TYPES_OK) answer_text("ok");
    else if (result.code == STUN_TYPES_EXISTS && is_finger && it->kind != FINGER)
        answer_text("!FingerprintExists");
    else if (result.code == STUN_TYPES_EXISTS && it->kind == ATTRIBUTE) {
        CHECK(result.type == STUN_TYPES_ATTRIBUTE_MESSAGE_INTEGRITY);
        answer_text("!MessageIntegrityExists");
    } else answer_refusal_with(result, ':');
}

/* Takes each step, and answers with what each of them answered, and with the message. */
static void answer_steps(draft *message) {
    size_t at;
    for (at = 0; at < step_count; at++) {
        size_t before = message->written;
        stun_types_answer result = take(&steps[at], message);
        if (result.code != STUN_TYPES_OK) CHECK(message->written == before);
        if (at != 0) answer_text(",");
        answer_step(&steps[at], result);
    }
    answer_text(step_count == 0 ? "- " : " ");
    answer_draft(message);
}

/* Begins the message of `CLASS:METHOD:ID`. `none` isn't known: in C a message has a header. */
static bool start(draft *message, size_t size, char *word) {
    char *message_class = next_part(&word, ':'), *method = next_part(&word, ':');
    stun_types_id id;
    if (method == NULL || word == NULL) {
        answer_unknown();
        return false;
    }
    id = id_of(word);
    return is_taken(draft_begin(message, size, class_of(message_class),
                                (stun_types_method)strtoul(method, NULL, 16), &id));
}

static void write(void) {
    size_t size = call_room();
    char *word = call_word();
    draft message;
    if (read_steps() && start(&message, size, word)) answer_steps(&message);
    free_steps();
}

/* A room in which octets are, as far as there is room for them. */
static draft there(size_t size, slice octets) {
    draft message;
    message.room = room(size);
    message.size = size;
    message.written = octets.length;
    if (octets.length != 0)
        memcpy(message.room, octets.bytes, octets.length < size ? octets.length : size);
    return message;
}

/* (C tests what is there in each add. That nothing can be added has a code without a reason.) */
static void resume(void) {
    size_t size = call_room();
    slice octets = call_octets();
    draft message = there(size, octets), probe = there(size, octets);
    step finger = {FINGER, 0, {NULL, 0}, STUN_TYPES_KEY_INIT, STUN_TYPES_INTEGRITY_ANY};
    bool is_there = take(&finger, &probe).code != STUN_TYPES_BAD_ARGUMENT;
    if (read_steps()) {
        if (is_there) answer_steps(&message);
        else answer_unknown();
    }
    free_steps();
}

/* Which steps are added in a room of this size, a letter for each: whether room alone refuses. */
static void added_in(size_t size, char *start_word, char *letters) {
    char word[200];
    draft message;
    size_t at;
    strcpy(word, start_word);
    letters[0] = 0;
    if (!start(&message, size, word)) return;
    for (at = 0; at < step_count; at++) {
        stun_types_answer result = take(&steps[at], &message);
        CHECK(result.code == STUN_TYPES_OK || result.code == STUN_TYPES_TOO_SMALL);
        if (result.code != STUN_TYPES_OK)
            CHECK(result.actual == size && result.expected > size);
        letters[at] = result.code == STUN_TYPES_OK ? 'y' : 'n';
    }
    letters[step_count] = 0;
    CHECK(is_untouched(message.room + message.written, size - message.written));
}

static void rooms(void) {
    char *word = call_word(), copied[200], last[STEPS + 1], letters[STEPS + 1];
    size_t size, most, begun = 20;
    draft message;
    if (word == NULL || strlen(word) >= sizeof copied) {
        answer_unknown();
        return;
    }
    strcpy(copied, word);
    if (read_steps() && start(&message, ANY_ROOM, copied)) {
        size_t at;
        for (at = 0; at < step_count; at++) ANSWERS(take(&steps[at], &message), OK_ANSWER);
        most = message.written;
        added_in(20, word, last);
        for (size = 21; size <= most; size++) {
            added_in(size, word, letters);
            if (strcmp(last, letters) == 0) continue;
            answer_text("%s%zu..%zu:%s", begun == 20 ? "" : " ", begun, size - 1, last);
            strcpy(last, letters);
            begun = size;
        }
        answer_text(" %zu..%zu:%s", begun, most, last);
    }
    free_steps();
}

/* The response to a request, step by step. */
static void reply(stun_types_class message_class) {
    size_t size = call_room();
    slice request = call_octets();
    draft message;
    if (is_taken(stun_types_parse(request.bytes, request.length))) {
        if (header_of(request).message_class != STUN_TYPES_CLASS_REQUEST) {
            answer_text("!NotRequest");
            return;
        }
        if (read_steps() && is_taken(draft_reply(&message, size, request, message_class)))
            answer_steps(&message);
        free_steps();
    }
}

static void success(void) { reply(STUN_TYPES_CLASS_SUCCESS); }

static void error(void) { reply(STUN_TYPES_CLASS_ERROR); }

const verb verbs_of_write[] = {
    {"write", write, true},     {"resume", resume, true}, {"rooms", rooms, true},
    {"success", success, true}, {"error", error, true},   {NULL, NULL, false},
};
